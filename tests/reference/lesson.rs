//! The lesson files of document 01: what is read of the bytes of a file, and what the lesson program should print for it.

use crate::calls::{centre, open_residue, open_string, parameters, sample, weight_difference};

/// A longer file is refused with 21.
pub const MOST_BYTES: usize = 60_000;

/// A higher count is refused with 20.
pub const MOST_WORDS: u64 = 1_792;

/// The records of a sample in their order. XB and YB come in either order. 21 is about the file.
#[derive(Clone, Copy, Debug, PartialEq, Eq, PartialOrd, Ord)]
pub enum Record {
    File,
    Parameters,
    FirstList,
    SecondList,
    RandomWords,
}

/// Where the file ends inside the record, which is what 19 is about.
#[derive(Clone, Copy, Debug, PartialEq, Eq, PartialOrd, Ord)]
pub enum Cut {
    Nowhere,
    BeforeMark,
    InMark,
    InCount,
    InFields,
}

/// A refusal: its number and file place as they are printed, and the record concerned.
#[derive(Clone, Copy, Debug)]
pub struct Refusal {
    pub number: u64,
    pub file_place: usize,
    pub record: Record,
    pub cut: Cut,
}

impl Refusal {
    /// As the programs print it.
    pub fn line(&self) -> String {
        format!("refused {} {}\n", self.number, self.file_place)
    }
}

/// A complete sample, and the lesson program's line for it.
pub struct Accepted {
    pub n: u64,
    pub k: u64,
    pub q: u64,
    pub x_first: bool,
    pub centred: i64,
    line: String,
}

/// What is read of a file: the samples up to its end or a refusal.
pub struct Lesson {
    pub accepted: Vec<Accepted>,
    pub refusal: Option<Refusal>,
}

impl Lesson {
    /// The lesson program's text: the header, a line for each sample, and the refusal where there is one.
    pub fn text(&self) -> Vec<u8> {
        let mut text = "no n k q used sample shares\n".to_string();
        for sample in &self.accepted {
            text += &sample.line;
        }
        text.extend(self.refusal.map(|refusal| refusal.line()));
        text.into_bytes()
    }
}

/// A mark that was allowed, and its offset.
struct Mark {
    letters: [u8; 2],
    at: usize,
    record: Record,
}

impl Mark {
    fn refused(&self, number: u64, cut: Cut) -> Refusal {
        Refusal { number, file_place: self.at, record: self.record, cut }
    }
}

/// What is left of a file, from an offset on, and the word buffer.
struct Reader<'a> {
    file: &'a [u8],
    at: usize,
    buffer: &'a mut [u64],
}

impl<'a> Reader<'a> {
    fn left(&self) -> usize {
        self.file.len() - self.at
    }

    /// The next bytes, where the file has as many.
    fn bytes(&mut self, count: usize) -> Option<&'a [u8]> {
        let bytes = self.file.get(self.at..self.at + count)?;
        self.at += count;
        Some(bytes)
    }

    /// A whole mark, else 19; a mark allowed there, else 18.
    fn mark(&mut self, record: Record, allowed: &[&[u8; 2]]) -> Result<Mark, Refusal> {
        let (at, left) = (self.at, self.left());
        let refused = |number, cut| Refusal { number, file_place: at, record, cut };
        match self.bytes(2) {
            None if left == 0 => Err(refused(19, Cut::BeforeMark)),
            None => Err(refused(19, Cut::InMark)),
            Some(letters) => match allowed.iter().find(|mark| mark[..] == *letters) {
                None => Err(refused(18, Cut::Nowhere)),
                Some(mark) => Ok(Mark { letters: **mark, at, record }),
            },
        }
    }

    /// The bytes of the record's fields, else 19.
    fn fields(&mut self, mark: &Mark, count: usize, cut: Cut) -> Result<&'a [u8], Refusal> {
        self.bytes(count).ok_or(mark.refused(19, cut))
    }

    /// Words of two bytes each, else 19.
    fn words(&mut self, mark: &Mark, count: u64) -> Result<Vec<u64>, Refusal> {
        let bytes = self.fields(mark, 2 * count as usize, Cut::InFields)?;
        Ok(bytes.chunks(2).map(two_bytes).collect())
    }

    /// PM's n, k and q, put to questions 1 to 3 at once.
    fn parameters(&mut self) -> Result<(u64, u64, u64), Refusal> {
        let mark = self.mark(Record::Parameters, &[b"PM"])?;
        let fields = self.fields(&mark, 4, Cut::InFields)?;
        let (n, k, q) = (fields[0] as u64, fields[1] as u64, two_bytes(&fields[2..]));
        match parameters(n, k, q) {
            Ok(()) => Ok((n, k, q)),
            Err((number, _)) => Err(mark.refused(number, Cut::Nowhere)),
        }
    }

    /// RW's words fill the buffer from the front. A count above 1,792 answers 20 as soon as the count is whole.
    fn random_words(&mut self) -> Result<(Mark, usize), Refusal> {
        let mark = self.mark(Record::RandomWords, &[b"RW"])?;
        let count = two_bytes(self.fields(&mark, 2, Cut::InCount)?);
        if count > MOST_WORDS {
            return Err(mark.refused(20, Cut::Nowhere));
        }
        let words = self.words(&mark, count)?;
        self.buffer[..words.len()].copy_from_slice(&words);
        Ok((mark, words.len()))
    }

    /// PM, then XB and YB in either order, once each, then RW; and the sampler's other questions when RW is complete.
    fn sample(&mut self, number: usize) -> Result<Accepted, Refusal> {
        let (n, k, q) = self.parameters()?;
        let first = self.mark(Record::FirstList, &[b"XB", b"YB"])?;
        let x_first = first.letters == *b"XB";
        let first_shares = self.words(&first, n)?;
        let second = self.mark(Record::SecondList, &[if x_first { b"YB" } else { b"XB" }])?;
        let second_shares = self.words(&second, n)?;
        let (random, count) = self.random_words()?;
        let (x, y) = if x_first { (&first_shares, &second_shares) } else { (&second_shares, &first_shares) };
        let (mut out, mut work) = (vec![0; n as usize], vec![0; n as usize]);
        match sample([n, k, q], [x, y], &self.buffer[..count], 0, &mut out, &mut work) {
            Ok(used) => {
                let centred = centred_sample(n, k, q, [x, y], &out);
                let shares: String = out.iter().map(|share| format!(" {share}")).collect();
                Ok(Accepted { n, k, q, x_first, centred, line: format!("{number} {n} {k} {q} {used} {centred}{shares}\n") })
            }
            Err((refused, _)) => {
                let concerned = match refused {
                    6 if x_first => first,
                    6 => second,
                    7 if x_first => second,
                    7 => first,
                    8 | 9 => random,
                    other => panic!("the sampler answers {other} to a whole sample"),
                };
                Err(concerned.refused(refused, Cut::Nowhere))
            }
        }
    }
}

/// The low byte comes first.
fn two_bytes(bytes: &[u8]) -> u64 {
    bytes[0] as u64 + 256 * bytes[1] as u64
}

/// The centred residue of the output shares, which is the weight of x less the weight of y.
fn centred_sample(n: u64, k: u64, q: u64, strings: [&[u64]; 2], shares: &[u64]) -> i64 {
    let residue = open_residue(n, q, shares).expect("output shares");
    let centred = centre(q, residue).expect("a residue below q");
    let [x, y] = strings.map(|list| open_string(n, k, list).expect("Boolean shares"));
    assert_eq!(Ok(centred), weight_difference(k, x, y), "n {n}, k {k}, q {q}, x {x}, y {y}, shares {shares:?}");
    centred
}

/// Reads a file. One that ends after a complete sample is complete. The word buffer has 1,792 places or more.
pub fn lesson(file: &[u8], buffer: &mut [u64]) -> Lesson {
    let mut accepted = Vec::new();
    if file.len() > MOST_BYTES {
        return Lesson { accepted, refusal: Some(Refusal { number: 21, file_place: 0, record: Record::File, cut: Cut::Nowhere }) };
    }
    let mut reader = Reader { file, at: 0, buffer };
    while reader.left() > 0 {
        match reader.sample(accepted.len() + 1) {
            Ok(sample) => accepted.push(sample),
            Err(refusal) => return Lesson { accepted, refusal: Some(refusal) },
        }
    }
    Lesson { accepted, refusal: None }
}
