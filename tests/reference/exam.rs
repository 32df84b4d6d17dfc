//! The exam's sheet: every line worked out again, and the reference values of documents 01 and 02 looked up on it.

use crate::calls::{adds_up, centre, mask, open_residue, open_string, parameter_set, sample, weight_difference, Verdict};

/// What the pages say of a reference value: its letter, the inputs that it names, and the answer as far as it is told.
struct Value {
    letter: &'static str,
    inputs: &'static str,
    answer: &'static str,
}

const fn value(letter: &'static str, inputs: &'static str, answer: &'static str) -> Value {
    Value { letter, inputs, answer }
}

/// Document 01, 'The exam's reference values'. Document 02 replaces that of q 8 and residue 4.
const VALUES: [Value; 19] = [
    value("a", "sample n 2 k 1 q 17 x 1 0 y 1 1 words 5 3 10 16", "shares 7 11"),
    value("b", "sample n 2 k 1 q 17 x 0 0 y 0 1 words 5 3 10 14", "shares 7 9 centred -1"),
    value("c", "sample n 2 k 1 q 3 x 1 1 y 1 0 words 0 0 0 0", "shares 2 0 centred -1"),
    value("d", "sample n 3 k 1 q 17 x 1 0 1 y 0 0 0 words 1 2 3 4 5 6 0 0 0 0 0 0", "shares 12 4 1"),
    value("e", "mask n 3 k 4 value 10 masks 3 12", "shares 3 12 5"),
    value("f", "centre q 33 residue 16", "gives 16"),
    value("f", "centre q 33 residue 17", "gives -16"),
    value("g", "centre q 8 residue 3", "gives 3"),
    value("g", "centre q 8 residue 4", "gives 4"),
    value("h", "sample k 16 q 32", "refused 3 0"),
    value("h", "sample k 16 q 33", "gives"),
    value("i", "sample n 2 k 1 q 17 x 1 0 y 1 1 words 5 3 17 16", "refused 9 2"),
    value("j", "sample n 1 k 1", "refused 1 0"),
    value("j", "sample n 9 k 1", "refused 1 0"),
    value("j", "sample n 2 k 0", "refused 2 0"),
    value("j", "sample n 2 k 17", "refused 2 0"),
    value("j", "sample n 2 k 1 x 2 0", "refused 6 0"),
    value("j", "sample n 2 k 1 q 17 x 1 0 y 1 1 words 5 3 10", "refused 8 0"),
    value("j", "sample n 1 k 0", "refused 1 0"),
];

/// The sets of FIPS 203.
const FIPS_203_SETS: [u64; 2] = [1, 2];

/// A line: each word with the numbers behind it.
struct Line {
    fields: Vec<(String, Vec<i64>)>,
}

impl Line {
    fn read(text: &str) -> Line {
        let mut fields: Vec<(String, Vec<i64>)> = Vec::new();
        for word in text.split(' ') {
            match (word.parse(), fields.last_mut()) {
                (Ok(number), Some(field)) => field.1.push(number),
                _ => fields.push((word.to_string(), Vec::new())),
            }
        }
        Line { fields }
    }

    fn field(&self, name: &str) -> Option<&[i64]> {
        self.fields.iter().find(|field| field.0 == name).map(|field| &field.1[..])
    }

    /// The list behind an input's name.
    fn list(&self, name: &str) -> Vec<u64> {
        let numbers = self.field(name).unwrap_or_else(|| panic!("no field {name}"));
        numbers.iter().map(|x| u64::try_from(*x).unwrap_or_else(|_| panic!("field {name}"))).collect()
    }

    fn number(&self, name: &str) -> u64 {
        let list = self.list(name);
        assert_eq!(list.len(), 1, "field {name}");
        list[0]
    }

    fn word(&self, place: usize) -> &str {
        self.fields.get(place).map_or("", |field| &field.0)
    }

    /// The inputs of these names, in this order.
    fn inputs(&self, names: &[&str]) -> String {
        names.iter().map(|name| format!(" {name}{}", spaced(&self.list(name)))).collect()
    }

    /// Every field of the other line stands here too. One without numbers may have any.
    fn has(&self, other: &Line) -> bool {
        let stands = |(name, numbers): &(String, Vec<i64>)| self.field(name).map_or(false, |found| numbers.is_empty() || numbers == found);
        other.fields.iter().all(stands)
    }

    fn shows_inputs_of(&self, value: &Value) -> bool {
        self.word(0) == value.letter && self.has(&Line::read(value.inputs))
    }
}

fn spaced<T: ToString>(numbers: &[T]) -> String {
    numbers.iter().map(|x| format!(" {}", x.to_string())).collect()
}

fn ending<T>(verdict: Verdict<T>, accepted: impl Fn(T) -> String) -> String {
    match verdict {
        Ok(answer) => format!(" gives {}", accepted(answer)),
        Err((number, place)) => format!(" refused {number} {place}"),
    }
}

fn sample_line(line: &Line) -> String {
    let (n, k, q) = (line.number("n"), line.number("k"), line.number("q"));
    let (x, y) = (line.list("x"), line.list("y"));
    let (mut out, mut work) = ([0; 8], [0; 8]);
    let verdict = sample([n, k, q], [&x, &y], &line.list("words"), 0, &mut out, &mut work);
    let answer = ending(verdict, |used| {
        let shares = &out[..n as usize];
        assert!(adds_up(q, [&x, &y], shares), "the shares do not add up");
        let residue = open_residue(n, q, shares).expect("shares below q");
        let centred = centre(q, residue).expect("a residue below q");
        format!("{used} shares{} residue {residue} centred {centred}", spaced(shares))
    });
    line.inputs(&["n", "k", "q", "x", "y", "words"]) + &answer
}

fn mask_line(line: &Line) -> String {
    let (n, k, value) = (line.number("n"), line.number("k"), line.number("value"));
    let mut out = [0; 8];
    let verdict = mask(n, k, value, &line.list("masks"), &mut out);
    let answer = ending(verdict, |count| {
        let shares = &out[..n as usize];
        let opened = open_string(n, k, shares).expect("shares of k bits");
        format!("{count} shares{} opened {opened}", spaced(shares))
    });
    line.inputs(&["n", "k", "value", "masks"]) + &answer
}

fn centre_line(line: &Line) -> String {
    let verdict = centre(line.number("q"), line.number("residue"));
    line.inputs(&["q", "residue"]) + &ending(verdict, |value| value.to_string())
}

/// How many of all pairs of k-bit strings have each weight difference, from −k to k.
fn pairs_by_sample(k: u64) -> Vec<u64> {
    let mut pairs = vec![0; 2 * k as usize + 1];
    for x in 0..1 << k {
        for y in 0..1 << k {
            let difference = weight_difference(k, x, y).expect("strings of k bits");
            pairs[(difference + k as i64) as usize] += 1;
        }
    }
    pairs
}

fn fips203_line(line: &Line) -> String {
    let (set, n) = (line.number("set"), line.number("n"));
    let (k, q) = parameter_set(set).expect("a published set");
    assert!(FIPS_203_SETS.contains(&set) && (2..=8).contains(&n), "a set of FIPS 203 and n from 2 to 8");
    let pairs = pairs_by_sample(k);
    format!("fips203 set {set} k {k} q {q} n {n} samples -{k} to {k} pairs{} of {}", spaced(&pairs), pairs.iter().sum::<u64>())
}

/// The whole line that the inputs should give.
fn expected(line: &Line) -> String {
    let letter = line.word(0);
    if letter == "fips203" {
        return fips203_line(line);
    }
    let call = line.word(1);
    let rest = match call {
        "sample" => sample_line(line),
        "mask" => mask_line(line),
        "centre" => centre_line(line),
        other => panic!("unknown call {other:?}"),
    };
    format!("{letter} {call}{rest}")
}

/// What the sheet lacks of the pages, and what it says against them.
fn against_pages(lines: &[Line]) -> Vec<String> {
    let mut faults = Vec::new();
    for value in &VALUES {
        let name = format!("value {}, {}", value.letter, value.inputs);
        let shown: Vec<&Line> = lines.iter().filter(|line| line.shows_inputs_of(value)).collect();
        if shown.is_empty() {
            faults.push(format!("{name}: not on the sheet"));
        }
        if !shown.iter().all(|line| line.has(&Line::read(value.answer))) {
            faults.push(format!("{name}: the pages say {}", value.answer));
        }
    }
    for set in FIPS_203_SETS {
        if !lines.iter().any(|line| line.word(0) == "fips203" && line.field("set") == Some(&[set as i64])) {
            faults.push(format!("fips203 set {set}: not on the sheet"));
        }
    }
    let stray = lines.iter().filter(|line| line.word(0) != "fips203" && !VALUES.iter().any(|value| line.shows_inputs_of(value)));
    faults.extend(stray.map(|line| format!("{} {}: not a value of the pages", line.word(0), line.word(1))));
    faults
}

/// Takes each line's call and inputs, works out the answer and compares the whole line; then compares the sheet with the pages.
pub fn is_right(file: &str) -> bool {
    let text = std::fs::read_to_string(file).unwrap_or_else(|error| panic!("{file}: {error}"));
    assert!(text.ends_with('\n'), "the last line has no line feed");
    let lines: Vec<Line> = text.lines().map(Line::read).collect();
    let mut faults = against_pages(&lines);
    for (number, (found, line)) in text.lines().zip(&lines).enumerate() {
        let want = expected(line);
        if found != want {
            faults.push(format!("line {}: {found}\n  should be: {want}", number + 1));
        }
    }
    for fault in &faults {
        eprintln!("{fault}");
    }
    println!("exam: {} lines, {} values of the pages, {} faults", lines.len(), VALUES.len(), faults.len());
    faults.is_empty()
}
