//! The call of document 02 that samples with step records, written from the page.

use crate::calls::{ask, sample, Verdict};

/// The bytes of a record.
pub const RECORD: u64 = 8;

/// The records of a bit.
fn bit_records(n: u64) -> u64 {
    (5 * n * (n + 1) / 2).saturating_sub(3)
}

/// The bytes of a bit's records.
pub fn bit_bytes(n: u64) -> u64 {
    RECORD * bit_records(n)
}

/// The bytes of a sample's records.
pub fn bytes_needed(n: u64, k: u64) -> u64 {
    2 * k * bit_bytes(n)
}

/// The records of a sample so far, the bit at hand, and the values that the output shares have come to.
struct Trace {
    q: i64,
    bit: usize,
    totals: Vec<i64>,
    bytes: Vec<u64>,
}

impl Trace {
    /// The value from 0 to q - 1.
    fn modulo(&self, value: i64) -> i64 {
        value.rem_euclid(self.q)
    }

    fn note(&mut self, kind: u64, round: usize, share: usize, value: i64) {
        let value = value as u64;
        self.bytes.extend([0x53, 0x54, self.bit as u64, round as u64, share as u64, kind, value % 256, value / 256]);
    }

    /// A record for each share, from 1 up.
    fn note_all(&mut self, kind: u64, round: usize, values: &[i64]) {
        for (place, value) in values.iter().enumerate() {
            self.note(kind, round, place + 1, *value);
        }
    }

    /// Steps 1 and 2: from the shares b(1) to b(n) of a bit to the list C of the last round.
    fn convert(&mut self, b: &[i64], words: &mut impl Iterator<Item = i64>) -> Vec<i64> {
        self.note(0, 1, 1, b[0]);
        let mut list = vec![b[0]];
        for j in 2..=b.len() {
            let share = b[j - 1];
            let r: Vec<i64> = words.by_ref().take(j - 1).collect();
            let mut split: Vec<i64> = list.iter().zip(&r).map(|(a, r)| self.modulo(a - r)).collect();
            split.push(self.modulo(r.iter().sum()));
            let products: Vec<i64> = split.iter().map(|value| self.modulo(value * share)).collect();
            list = split.iter().zip(&products).map(|(value, product)| value - 2 * product).collect();
            list[0] += share;
            list = list.iter().map(|value| self.modulo(*value)).collect();
            self.note(0, j, j, share);
            self.note_all(1, j, &split);
            self.note_all(2, j, &products);
            self.note_all(3, j, &list);
        }
        list
    }

    /// Step 3: the pairs in their order, counted from 1.
    fn pair_up(&mut self, list: &mut [i64], words: &mut impl Iterator<Item = i64>) {
        let n = list.len();
        let pairs = (1..=n).flat_map(|i| (i + 1..=n).map(move |m| (i, m)));
        for ((place, (i, m)), r) in pairs.enumerate().zip(words) {
            list[i - 1] = self.modulo(list[i - 1] + r);
            list[m - 1] = self.modulo(list[m - 1] - r);
            self.note(4, place + 1, i, list[i - 1]);
            self.note(4, place + 1, m, list[m - 1]);
        }
    }

    /// The bit's numbers go into the output shares: those of x are gained, those of y lost.
    fn add(&mut self, list: &[i64], sign: i64) {
        self.totals = self.totals.iter().zip(list).map(|(total, number)| self.modulo(total + sign * number)).collect();
        let totals = self.totals.clone();
        self.note_all(5, 0, &totals);
    }
}

/// The records of an accepted sample, and its output shares.
fn trace(k: u64, q: u64, [x, y]: [&[u64]; 2], words: &[u64]) -> (Vec<u64>, Vec<u64>) {
    let mut words = words.iter().map(|word| *word as i64);
    let mut trace = Trace { q: q as i64, bit: 0, totals: vec![0; x.len()], bytes: Vec::new() };
    for (shares, sign) in [(x, 1), (y, -1)] {
        for place in 0..k {
            let b: Vec<i64> = shares.iter().map(|share| (share >> place & 1) as i64).collect();
            let mut list = trace.convert(&b, &mut words);
            let pairs = b.len() * (b.len() - 1) / 2;
            trace.pair_up(&mut list, &mut words.by_ref().take(pairs));
            trace.add(&list, sign);
            trace.bit += 1;
        }
    }
    (trace.bytes, trace.totals.into_iter().map(|total| total as u64).collect())
}

/// The sampler from place 0, which then asks for the room of the records. Its own steps come to the sampler's shares.
pub fn sample_steps(
    [n, k, q]: [u64; 3],
    strings: [&[u64]; 2],
    words: &[u64],
    out: &mut [u64],
    work: &mut [u64],
    records: &mut [u64],
) -> Verdict<u64> {
    let (mut out_after, mut work_after) = (out.to_vec(), work.to_vec());
    let used = sample([n, k, q], strings, words, 0, &mut out_after, &mut work_after)?;
    ask(records.len() as u64 >= bytes_needed(n, k), 26, 0)?;
    let (bytes, shares) = trace(k, q, strings, words);
    assert_eq!(bytes.len() as u64, bytes_needed(n, k), "the number of records that the page gives");
    assert_eq!(shares, out_after[..n as usize], "the shares of the same sample without records");
    out.copy_from_slice(&out_after);
    work.copy_from_slice(&work_after);
    records[..bytes.len()].copy_from_slice(&bytes);
    Ok(used)
}
