//! Lesson files made from a seed: good ones, and ones damaged in each way that document 01 refuses.

use crate::calls::words_needed;
use crate::draw::{random_words, too_high, too_wide, Dice};
use crate::lesson::{MOST_BYTES, MOST_WORDS};
use crate::samples::{any_good, good, lengthen, narrow_good, Sample};

/// Good samples that stand before the damaged one, where there are any.
fn earlier(dice: &mut Dice, later: bool) -> Vec<u8> {
    let count = if later { dice.between(1, 3) } else { 0 };
    (0..count).flat_map(|_| any_good(dice).bytes()).collect()
}

/// What stands behind the damaged sample and is never read.
fn behind(dice: &mut Dice) -> Vec<u8> {
    match dice.below(3) {
        0 => Vec::new(),
        1 => any_good(dice).bytes(),
        _ => {
            let count = dice.between(1, 40) as usize;
            dice.bytes(count)
        }
    }
}

/// A damaged sample, with good ones before it where it is a later one.
fn placed(dice: &mut Dice, later: bool, damaged: Vec<u8>) -> Vec<u8> {
    [earlier(dice, later), damaged, behind(dice)].concat()
}

/// Samples of the given number of bytes in all: even, and at least 30.
fn good_bytes(dice: &mut Dice, count: usize) -> Vec<u8> {
    let mut file = Vec::new();
    while file.len() + 3_606 < count {
        let sample = any_good(dice).bytes();
        let fits = file.len() + sample.len() + 30 <= count;
        file.extend(if fits { sample } else { good(dice, 2, 1).bytes() });
    }
    let mut last = good(dice, 2, 1);
    let words = (count - file.len() - 22) as u64 / 2;
    lengthen(dice, &mut last, words);
    file.extend(last.bytes());
    assert_eq!(file.len(), count, "samples of so many bytes in all");
    file
}

/// Many samples of 30 bytes each.
fn shortest_samples(dice: &mut Dice, count: usize) -> Vec<u8> {
    (0..count).flat_map(|_| good(dice, 2, 1).bytes()).collect()
}

// Good files.

/// Every n with every k.
fn every_pair(dice: &mut Dice, turn: usize) -> Vec<u8> {
    good(dice, 2 + turn as u64 % 7, 1 + turn as u64 / 7 % 16).bytes()
}

/// RW with more words than the sample takes, up to 1,792.
fn more_words(dice: &mut Dice, turn: usize) -> Vec<u8> {
    let (n, k) = if dice.one_in(3) { (dice.between(2, 8), dice.between(1, 16)) } else { (dice.between(2, 3), dice.between(1, 4)) };
    let mut sample = good(dice, n, k);
    let count = match turn % 4 {
        0 => MOST_WORDS,
        1 => MOST_WORDS.min(sample.count + 1),
        _ => dice.between(sample.count, MOST_WORDS),
    };
    lengthen(dice, &mut sample, count);
    [sample.bytes(), earlier(dice, turn % 3 == 0)].concat()
}

/// No sample, one, or up to twelve.
fn several_samples(dice: &mut Dice, turn: usize) -> Vec<u8> {
    (0..turn % 13).flat_map(|_| any_good(dice).bytes()).collect()
}

/// 2,000 samples fill 60,000 bytes.
fn many_samples(dice: &mut Dice, turn: usize) -> Vec<u8> {
    let count = [2_000, dice.between(50, 1_999) as usize][turn % 2];
    shortest_samples(dice, count)
}

/// Exactly 60,000 bytes.
fn full_file(dice: &mut Dice, _: usize) -> Vec<u8> {
    good_bytes(dice, MOST_BYTES)
}

// 1, 2 and 3.

/// Parameters past each end, one at a time and several at once.
fn make_unfit(dice: &mut Dice, sample: &mut Sample, form: usize) {
    let (n, k) = (dice.pick(&[2, 8, sample.n]), dice.pick(&[1, 16, sample.k]));
    let low = dice.below(2 * k + 1);
    let (n_past, k_past) = (dice.pick(&[0, 1, 9, 10, 255]), dice.pick(&[0, 17, 18, 255]));
    let q_past = dice.below(2 * k_past + 1);
    (sample.n, sample.k, sample.q) = match form % 18 {
        0 => (1, k, sample.q),
        1 => (9, k, sample.q),
        2 => (0, k, sample.q),
        3 => (dice.between(9, 255), k, sample.q),
        4 => (n, 0, sample.q),
        5 => (n, 17, sample.q),
        6 => (n, dice.between(17, 255), 65_535),
        7 => (n, k, 2 * k),
        8 => (n, k, 2 * k - 1),
        9 => (n, k, 0),
        10 => (n, k, low),
        11 => (n_past, k_past, 65_535),
        12 => (n_past, k, low),
        13 => (n, k_past, q_past),
        14 => (n_past, k_past, q_past),
        15 => (1, 0, 0),
        16 => (9, 17, 34),
        _ => (dice.below(256), dice.below(256), dice.below(65_536)),
    };
}

/// PM is put to questions 1 to 3 at once, whatever stands behind it.
pub fn unfit_parameters(dice: &mut Dice, turn: usize) -> Vec<u8> {
    let mut sample = any_good(dice);
    make_unfit(dice, &mut sample, turn / 2);
    let damaged = if dice.one_in(2) { sample.bytes() } else { sample.records()[0].clone() };
    placed(dice, turn % 2 == 1, damaged)
}

/// A cut PM answers 19, whatever its values.
fn unfit_parameters_cut(dice: &mut Dice, turn: usize) -> Vec<u8> {
    let mut sample = any_good(dice);
    make_unfit(dice, &mut sample, turn);
    let kept = dice.between(1, 5) as usize;
    [earlier(dice, turn % 2 == 1), sample.records()[0][..kept].to_vec()].concat()
}

// 6, 7, 8 and 9.

/// One share of a list gets too wide.
fn widen(dice: &mut Dice, list: &mut [u64], k: u64) {
    let place = dice.below(list.len() as u64) as usize;
    list[place] = too_wide(dice, list[place], k);
}

/// Each share of each number of shares, in x, in y and in both, in both orders of the lists.
pub fn wide_shares(dice: &mut Dice, turn: usize) -> Vec<u8> {
    let every_share: Vec<(u64, usize)> = (2..=8).flat_map(|n| (0..n as usize).map(move |place| (n, place))).collect();
    let (n, place) = every_share[turn % 35];
    let k = dice.pick(&[1, 2, 3, 15]);
    let mut sample = good(dice, n, k);
    let form = turn / 35 % 6;
    if form % 3 != 1 {
        sample.x[place] = too_wide(dice, sample.x[place], k);
    }
    if form % 3 != 0 {
        sample.y[place] = too_wide(dice, sample.y[place], k);
    }
    sample.x_first = form < 3;
    let later = dice.one_in(2);
    placed(dice, later, sample.bytes())
}

/// Fewer words than W: one too few, none, or any number between.
fn shorten(dice: &mut Dice, sample: &mut Sample, form: usize) {
    let needed = words_needed(sample.n, sample.k);
    let count = [needed - 1, 0, dice.below(needed)][form % 3];
    sample.set_words(sample.words[..count as usize].to_vec());
}

/// RW counts fewer words than W; at times more of them stand behind the counted ones.
pub fn few_words(dice: &mut Dice, turn: usize) -> Vec<u8> {
    let mut sample = any_good(dice);
    let words = sample.words.clone();
    shorten(dice, &mut sample, turn / 2);
    if dice.one_in(4) {
        sample.words = words;
    }
    placed(dice, turn % 2 == 1, sample.bytes())
}

/// The words that an earlier sample left behind would do for the next one, but are not lent; nor are they judged.
fn old_words(dice: &mut Dice, turn: usize) -> Vec<u8> {
    let (mut first, mut second) = (any_good(dice), any_good(dice));
    let least = first.q.min(second.q);
    let count = dice.pick(&[MOST_WORDS, first.count.max(second.count)]);
    first.set_words(random_words(dice, least, count));
    if turn % 4 == 3 {
        lengthen(dice, &mut first, MOST_WORDS);
    } else {
        shorten(dice, &mut second, turn);
    }
    let later = dice.one_in(3);
    [earlier(dice, later), first.bytes(), second.bytes(), behind(dice)].concat()
}

/// A word that is not below q.
fn make_high(dice: &mut Dice, sample: &mut Sample, place: usize) {
    sample.words[place] = too_high(dice, sample.q);
}

/// The first, the last and a middle word of the W.
pub fn high_words(dice: &mut Dice, turn: usize) -> Vec<u8> {
    let mut sample = any_good(dice);
    let needed = words_needed(sample.n, sample.k);
    let middle = dice.between(1, needed - 2) as usize;
    make_high(dice, &mut sample, [0, needed as usize - 1, middle][turn % 3]);
    if dice.one_in(4) {
        make_high(dice, &mut sample, middle);
    }
    placed(dice, turn / 3 % 2 == 1, sample.bytes())
}

/// Two or more of 6, 7, 8 and 9 in one sample.
fn several_faults(dice: &mut Dice, turn: usize) -> Vec<u8> {
    let mut sample = narrow_good(dice);
    let faults: u32 = [3, 5, 6, 7, 9, 10, 11, 12, 13, 14, 15][turn % 11];
    if faults & 1 != 0 {
        widen(dice, &mut sample.x, sample.k);
    }
    if faults & 2 != 0 {
        widen(dice, &mut sample.y, sample.k);
    }
    if faults & 4 != 0 {
        let count = dice.between(1, words_needed(sample.n, sample.k) - 1);
        sample.set_words(sample.words[..count as usize].to_vec());
    }
    if faults & 8 != 0 {
        let place = dice.below(sample.count) as usize;
        make_high(dice, &mut sample, place);
    }
    placed(dice, turn / 11 % 2 == 1, sample.bytes())
}

/// Wide shares are not answered before RW is complete: 18, 19 and 20 come first, at any record behind the list.
fn wide_shares_and_bad_record(dice: &mut Dice, turn: usize) -> Vec<u8> {
    let mut sample = narrow_good(dice);
    let k = sample.k;
    widen(dice, sample.first_list(), k);
    let later = turn / 3 % 2 == 1;
    match turn % 3 {
        0 => {
            let at = dice.between(2, 3) as usize;
            let mut records = sample.records();
            let mark = wrong_mark(dice, &records[at], turn / 6);
            records[at][..2].copy_from_slice(&mark);
            placed(dice, later, records.concat())
        }
        1 => {
            let (lists, bytes) = (sample.records()[..2].concat().len(), sample.bytes());
            let kept = dice.between(lists as u64, bytes.len() as u64 - 1) as usize;
            [earlier(dice, later), bytes[..kept].to_vec()].concat()
        }
        _ => {
            sample.count = dice.between(MOST_WORDS + 1, 65_535);
            placed(dice, later, sample.bytes())
        }
    }
}

// 18.

/// The other marks, and marks that are nearly right.
fn wrong_mark(dice: &mut Dice, record: &[u8], form: usize) -> [u8; 2] {
    let (a, b) = (record[0], record[1]);
    match form % 14 {
        0 => *b"PM",
        1 => *b"XB",
        2 => *b"YB",
        3 => *b"RW",
        4 => [a.to_ascii_lowercase(), b.to_ascii_lowercase()],
        5 => [a.to_ascii_lowercase(), b],
        6 => [a, b.to_ascii_lowercase()],
        7 => [b, a],
        8 => [a, dice.pick(b"MBWPXYR")],
        9 => [dice.pick(b"PXYRMBW"), b],
        10 => [0, 0],
        11 => [a, 0],
        12 => [a | 128, b],
        _ => [dice.below(256) as u8, dice.below(256) as u8],
    }
}

/// Each of the four records with each wrong mark.
pub fn wrong_marks(dice: &mut Dice, turn: usize) -> Vec<u8> {
    let mut records = any_good(dice).records();
    let record = &mut records[turn % 4];
    let mark = wrong_mark(dice, record, turn / 8);
    record[..2].copy_from_slice(&mark);
    placed(dice, turn / 4 % 2 == 1, records.concat())
}

/// A wrong mark with fewer bytes behind it than the record needs: 18 goes before 19.
fn wrong_marks_cut(dice: &mut Dice, turn: usize) -> Vec<u8> {
    let records = any_good(dice).records();
    let record = &records[turn % 4];
    let mark = wrong_mark(dice, record, turn / 8);
    let kept = dice.pick(&[2, 3, record.len() - 1]);
    [&earlier(dice, turn / 4 % 2 == 1)[..], &records[..turn % 4].concat(), &mark, &record[2..kept]].concat()
}

// 19.

/// Short samples to be cut after every byte: n, k, the samples before it, and whether XB comes first.
const TO_CUT: [(u64, u64, usize, bool); 7] =
    [(2, 1, 0, true), (2, 1, 0, false), (2, 1, 1, true), (2, 1, 2, false), (3, 1, 0, true), (3, 1, 1, false), (2, 2, 0, true)];

/// Every other turn takes the next of all the cuts of the short samples.
pub fn cut_after_every_byte(dice: &mut Dice, turn: usize) -> Vec<u8> {
    if turn % 2 == 1 {
        return cut_anywhere(dice, turn);
    }
    let length = |n: u64, k: u64| (14 + 4 * n + 2 * words_needed(n, k)) as usize;
    let every_cut: Vec<_> = TO_CUT.iter().flat_map(|form| (0..length(form.0, form.1)).map(move |kept| (*form, kept))).collect();
    let ((n, k, before, x_first), kept) = every_cut[turn / 2 % every_cut.len()];
    let mut sample = good(dice, n, k);
    sample.x_first = x_first;
    let mut file: Vec<u8> = (0..before).flat_map(|_| any_good(dice).bytes()).collect();
    file.extend(&sample.bytes()[..kept]);
    file
}

/// Samples of any n, cut in their first records or anywhere.
fn cut_anywhere(dice: &mut Dice, turn: usize) -> Vec<u8> {
    let sample = any_good(dice).bytes();
    let most = dice.pick(&[sample.len() as u64 - 1, 20]);
    let kept = dice.between(1, most) as usize;
    [earlier(dice, turn / 2 % 2 == 1), sample[..kept].to_vec()].concat()
}

/// A cut with damage before it, which may be answered before the cut is reached.
fn damaged_and_cut(dice: &mut Dice, turn: usize) -> Vec<u8> {
    let mut sample = narrow_good(dice);
    match turn % 6 {
        0 => widen(dice, &mut sample.x, sample.k),
        1 => widen(dice, &mut sample.y, sample.k),
        2 => shorten(dice, &mut sample, turn / 6),
        3 => make_high(dice, &mut sample, 0),
        4 => make_unfit(dice, &mut sample, turn / 6),
        _ => sample.count = dice.between(MOST_WORDS + 1, 65_535),
    }
    let bytes = sample.bytes();
    let lists = sample.records()[..3].concat().len() as u64;
    let kept = if dice.one_in(2) { dice.between(1, bytes.len() as u64 - 1) } else { dice.between(1, lists + 4) };
    [earlier(dice, turn / 6 % 2 == 1), bytes[..bytes.len().min(kept as usize)].to_vec()].concat()
}

// 20.

/// Counts above 1,792, with none or some or all of the words behind; and a count that is cut, or just not too high.
pub fn high_counts(dice: &mut Dice, turn: usize) -> Vec<u8> {
    let mut sample = any_good(dice);
    sample.count = match turn % 6 {
        0 => 1_793,
        1 => 65_535,
        2 => dice.pick(&[1_794, 2_047, 2_048, 32_767, 32_768, 65_280]),
        3 => dice.between(1_793, 65_535),
        4 => dice.pick(&[1_791, 1_792]),
        _ => dice.between(1_793, 4_000),
    };
    let later = turn / 6 % 2 == 1;
    let before_words = sample.bytes().len() - 2 * sample.words.len();
    match turn / 12 % 4 {
        0 => [earlier(dice, later), sample.bytes()[..before_words].to_vec()].concat(),
        1 => [earlier(dice, later), sample.bytes()[..before_words - 1].to_vec()].concat(),
        2 => {
            sample.words = random_words(dice, sample.q, sample.count.min(25_000));
            [earlier(dice, later), sample.bytes()].concat()
        }
        _ => placed(dice, later, sample.bytes()),
    }
}

// 21, and files of about 60,000 bytes.

/// 60,000 bytes that end in a refusal.
fn full_file_refused(dice: &mut Dice, turn: usize) -> Vec<u8> {
    let mut sample = narrow_good(dice);
    match turn % 6 {
        0 => make_high(dice, &mut sample, 0),
        1 => widen(dice, &mut sample.x, sample.k),
        2 => shorten(dice, &mut sample, 1),
        3 => sample.count = MOST_WORDS + 1,
        4 => make_unfit(dice, &mut sample, turn / 6),
        _ => sample.count += 1,
    }
    let last = sample.bytes();
    [good_bytes(dice, MOST_BYTES - last.len()), last].concat()
}

/// A byte or a few fewer than 60,000.
fn nearly_full_file(dice: &mut Dice, turn: usize) -> Vec<u8> {
    let mut file = if dice.one_in(2) { good_bytes(dice, MOST_BYTES) } else { shortest_samples(dice, 2_000) };
    file.truncate([59_999, 59_998, 59_970, 59_971][turn % 4]);
    file
}

/// More than 60,000 bytes: good samples, nonsense, or a refusal that is not looked for.
fn too_long(dice: &mut Dice, turn: usize) -> Vec<u8> {
    let count = [60_001, 60_002, 70_000, 60_030, 1_000_000, 65_536, 65_566, 125_536][turn % 8];
    match turn / 8 % 4 {
        0 => [good_bytes(dice, count / 2 * 2), vec![b'P'; count % 2]].concat(),
        1 => dice.bytes(count),
        2 => shortest_samples(dice, count / 30 + 1)[..count].to_vec(),
        _ => [unfit_parameters(dice, 0), dice.bytes(count)].concat()[..count].to_vec(),
    }
}

// Files that are damaged without regard to what it means.

/// Nonsense, nonsense behind a mark, and nonsense of bytes that lesson files have.
fn random_bytes(dice: &mut Dice, turn: usize) -> Vec<u8> {
    let count = dice.between(1, 120) as usize;
    match turn % 3 {
        0 => dice.bytes(count),
        1 => [b"PM", &dice.bytes(count)[..]].concat(),
        _ => (0..count).map(|_| dice.pick(b"PMXBYBRW\0\x01\x02\x03\x04\x11\n ")).collect(),
    }
}

/// A few good samples, record by record.
fn some_records(dice: &mut Dice) -> Vec<Vec<u8>> {
    let count = dice.between(1, 3);
    (0..count).flat_map(|_| any_good(dice).records()).collect()
}

/// Whole records in any order.
fn random_records(dice: &mut Dice, _: usize) -> Vec<u8> {
    let records = any_good(dice).records();
    let count = dice.between(1, 9) as usize;
    let kept = dice.below(5) as usize;
    let mut file: Vec<Vec<u8>> = records.iter().take(kept).cloned().collect();
    file.extend((0..count).map(|_| records[dice.below(4) as usize].clone()));
    file.concat()
}

/// One byte of a good file is another, at times in the front of a record.
fn changed_byte(dice: &mut Dice, turn: usize) -> Vec<u8> {
    let mut records = some_records(dice);
    let record = dice.below(records.len() as u64) as usize;
    let whole = records[record].len() as u64;
    let place = dice.below(if turn % 8 < 4 { whole } else { whole.min(8) }) as usize;
    let byte = &mut records[record][place];
    *byte = match turn % 4 {
        0 => *byte ^ 1 << dice.below(8),
        1 => byte.wrapping_add(1),
        2 => byte.wrapping_sub(1),
        _ => dice.below(256) as u8,
    };
    records.concat()
}

fn byte_left_out(dice: &mut Dice, _: usize) -> Vec<u8> {
    let mut file = some_records(dice).concat();
    file.remove(dice.below(file.len() as u64) as usize);
    file
}

fn byte_put_in(dice: &mut Dice, _: usize) -> Vec<u8> {
    let mut file = some_records(dice).concat();
    let byte = dice.pick(&[0, 1, b'P', b'X', b'B', b'\n', 255]);
    file.insert(dice.between(0, file.len() as u64) as usize, byte);
    file
}

fn records_swapped(dice: &mut Dice, _: usize) -> Vec<u8> {
    let mut records = some_records(dice);
    let count = records.len() as u64;
    records.swap(dice.below(count) as usize, dice.below(count) as usize);
    records.concat()
}

fn record_twice(dice: &mut Dice, _: usize) -> Vec<u8> {
    let mut records = some_records(dice);
    let place = dice.below(records.len() as u64) as usize;
    records.insert(place, records[place].clone());
    records.concat()
}

fn record_left_out(dice: &mut Dice, _: usize) -> Vec<u8> {
    let mut records = some_records(dice);
    records.remove(dice.below(records.len() as u64) as usize);
    records.concat()
}

/// Bytes behind a complete sample.
pub fn bytes_behind(dice: &mut Dice, turn: usize) -> Vec<u8> {
    let behind: [&[u8]; 12] = [b"P", b"X", b"\0", b"\n", b"PM", b"RW", b"XB", b"\0\0", b"\n\n", b"PM\x02", b"PM\x02\x01\x11", b"PM\x02\x01\x02\0"];
    [earlier(dice, true), behind[turn % behind.len()].to_vec()].concat()
}

/// Makes a file of one kind from the numbers drawn and from how many of the kind came before it.
pub type Maker = fn(&mut Dice, usize) -> Vec<u8>;

/// A kind of files, and how many of it in a round.
pub type Kind = (&'static str, usize, Maker);

pub const KINDS: [Kind; 30] = [
    ("every pair of n and k", 4, every_pair),
    ("more words than W", 4, more_words),
    ("several samples", 3, several_samples),
    ("many samples", 1, many_samples),
    ("60,000 bytes", 1, full_file),
    ("unfit parameters", 6, unfit_parameters),
    ("unfit parameters, cut", 2, unfit_parameters_cut),
    ("wide shares", 8, wide_shares),
    ("too few words", 5, few_words),
    ("old words", 4, old_words),
    ("high words", 6, high_words),
    ("several faults", 5, several_faults),
    ("wide shares and a bad record", 4, wide_shares_and_bad_record),
    ("wrong marks", 8, wrong_marks),
    ("wrong marks, cut", 5, wrong_marks_cut),
    ("cut after every byte", 12, cut_after_every_byte),
    ("damaged and cut", 4, damaged_and_cut),
    ("high counts", 5, high_counts),
    ("60,000 bytes, refused", 1, full_file_refused),
    ("nearly 60,000 bytes", 1, nearly_full_file),
    ("too long", 1, too_long),
    ("random bytes", 3, random_bytes),
    ("random records", 3, random_records),
    ("a byte changed", 6, changed_byte),
    ("a byte left out", 2, byte_left_out),
    ("a byte put in", 2, byte_put_in),
    ("two records swapped", 2, records_swapped),
    ("a record twice", 2, record_twice),
    ("a record left out", 1, record_left_out),
    ("bytes behind the last sample", 3, bytes_behind),
];

/// The file of a number, which is of one of the kinds, and the kind's name.
pub fn made(kinds: &[Kind], seed: u64, number: usize) -> (&'static str, Vec<u8>) {
    let round: usize = kinds.iter().map(|kind| kind.1).sum();
    let mut place = number % round;
    let mut kinds = kinds.iter();
    loop {
        let (name, times, maker) = kinds.next().expect("a place inside the round");
        if place < *times {
            return (name, maker(&mut Dice::new(seed, number as u64), number / round * times + place));
        }
        place -= times;
    }
}
