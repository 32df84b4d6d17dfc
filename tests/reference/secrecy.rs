//! The secrecy rules of documents 01 and 02, counted: over all full word lists, any n − 1 shares of each coefficient take each of their values
//! equally often for every input. All shares do not, nor do any with a habit that document 01 warns of, and the count shows it.

use std::collections::{BTreeMap, BTreeSet};
use tinplateau::Refusal;

/// A call on shared bits with the words from a start on, n(n − 1) for each bit, which answers the place after them.
type Maker = fn(q: u16, bits: &[u16], words: &[u16], start: usize, out: &mut [u16]) -> Result<usize, Refusal>;

/// The words before a full list, of which there are as many as the start says, and behind it. They are the same in all calls.
type Around = [&'static [u16]; 2];

const ALONE: Around = [&[], &[]];

/// Some of these are below q and some are not.
const AROUND: Around = [&[1, u16::MAX, 2, 5, 0], &[2, 17, 1, 0, u16::MAX]];

/// For a call that starts at word 0.
const BEHIND: Around = [&[], &[2, 17, 1, 0, u16::MAX]];

fn convert_bit(q: u16, bits: &[u16], words: &[u16], start: usize, out: &mut [u16]) -> Result<usize, Refusal> {
    tinplateau::convert_bit(out.len(), q, bits, words, start, out)
}

/// What stands in the work area before each call, which lends as many of these places as there are shares.
const WORK: [u16; 3] = [u16::MAX, 1, 2];

/// A sample with k 1: the shares of x, then those of y.
fn sample(q: u16, bits: &[u16], words: &[u16], start: usize, out: &mut [u16]) -> Result<usize, Refusal> {
    let (n, mut work) = (out.len(), WORK);
    let (x, y) = bits.split_at(n);
    tinplateau::sample(n, 1, q, x, y, words, start, out, &mut work[..n])
}

/// A polynomial of two coefficients with k 1: the shares of x of both, then those of y. It starts at word 0.
fn polynomial(q: u16, bits: &[u16], words: &[u16], _: usize, out: &mut [u16]) -> Result<usize, Refusal> {
    let (n, mut work) = (out.len() / 2, WORK);
    let (x, y) = bits.split_at(out.len());
    tinplateau::sample_polynomial(n, 1, q, 2, x, y, words, out, &mut work[..n])
}

/// A string of as many bits as its n shares make up: the shares of bit 0, then those of bit 1, and so on. It starts at word 0.
fn value(q: u16, bits: &[u16], words: &[u16], _: usize, out: &mut [u16]) -> Result<usize, Refusal> {
    let (n, k) = (out.len(), bits.len() / out.len());
    let shares: Vec<u16> = (0..n).map(|share| (0..k).map(|i| bits[i * n + share] << i).sum()).collect();
    tinplateau::convert_value(n, k, q, &shares, words, out)
}

/// Goes on to the next list of numbers below the bound. After the last it answers false.
fn advance(list: &mut [u16], bound: u16) -> bool {
    for number in list.iter_mut().rev() {
        *number += 1;
        if *number < bound {
            return true;
        }
        *number = 0;
    }
    false
}

/// The places of the other shares in the output, for each choice of a share to leave out in each coefficient.
fn others(n: usize, coefficients: usize) -> Vec<Vec<usize>> {
    let mut chosen = vec![vec![]];
    for t in 0..coefficients {
        let with = |seen: &Vec<usize>, left_out| seen.iter().copied().chain((t * n..(t + 1) * n).filter(|place| *place != left_out)).collect();
        chosen = chosen.iter().flat_map(|seen| (t * n..(t + 1) * n).map(move |left_out| with(seen, left_out))).collect();
    }
    chosen
}

/// For each list of places seen, how often each value of the shares there occurs, of so many coefficients, over all full lists of words between
/// those around. The values of several shares are read as one number to the base q.
fn counts(make: Maker, q: u16, n: usize, coefficients: usize, bits: &[u16], around: Around, seen: &[Vec<usize>]) -> Vec<Vec<usize>> {
    let mut counts: Vec<Vec<usize>> = seen.iter().map(|places| vec![0; (q as usize).pow(places.len() as u32)]).collect();
    let (start, end) = (around[0].len(), around[0].len() + bits.len() * (n - 1));
    let (mut words, mut out) = ([around[0], &vec![0; end - start], around[1]].concat(), vec![0; coefficients * n]);
    loop {
        assert_eq!(make(q, bits, &words, start, &mut out), Ok(end), "bits {bits:?}, words {words:?}");
        for (places, counts) in seen.iter().zip(&mut counts) {
            counts[places.iter().fold(0, |number, place| number * q as usize + out[*place] as usize)] += 1;
        }
        if !advance(&mut words[start..end], q) {
            return counts;
        }
    }
}

/// Whether every value occurs equally often for every input, which is so many bits of n shares each, for so many coefficients.
fn is_even(name: &str, make: Maker, around: Around, [bits, coefficients]: [usize; 2], n: usize, q: u16) -> bool {
    let (mut input, seen) = (vec![0; bits * n], others(n, coefficients));
    let each = (q as usize).pow(((input.len() - coefficients) * (n - 1)) as u32);
    loop {
        let found = counts(make, q, n, coefficients, &input, around, &seen);
        if found.iter().flatten().any(|count| *count != each) {
            eprintln!("{name} n {n} q {q} start {}, input {input:?}: {found:?}, and not {each} each", around[0].len());
            return false;
        }
        if !advance(&mut input, 2) {
            break;
        }
    }
    let share = if coefficients > 1 { "share of each coefficient" } else { "share" };
    let from = match around {
        ALONE => String::new(),
        [[], _] => ", words behind".to_string(),
        [before, _] => format!(" start {}, words around", before.len()),
    };
    println!("  {name} n {n} q {q}{from}: {each} times each, whichever {share} is left out, for each of {} inputs", 1 << input.len());
    true
}

/// With no share left out, a polynomial's shares are spread in as many ways as its two coefficients have values modulo 3, and by these.
fn all_shares_tell() -> bool {
    let mut spreads: BTreeMap<Vec<Vec<usize>>, BTreeSet<Vec<u16>>> = BTreeMap::new();
    let (n, q, mut input) = (2, 3, [0; 8]);
    loop {
        let values = [0, n].map(|t| (q + (input[t] ^ input[t + 1]) - (input[t + 4] ^ input[t + 5])) % q);
        spreads.entry(counts(polynomial, q, n, 2, &input, ALONE, &[vec![0, 1, 2, 3]])).or_default().insert(values.to_vec());
        if !advance(&mut input, 2) {
            break;
        }
    }
    let right = spreads.len() == 9 && spreads.values().all(|values| values.len() == 1);
    let judgement = if right { ", one for each pair of samples" } else { ", which is wrong" };
    println!("  tp_sample_polynomial k 1 m 2 n {n} q {q}, no share left out: {} spreads{judgement}", spreads.len());
    right
}

/// With no share left out, the shares of a string of two bits are spread in as many ways as its number has values modulo q, and by these.
fn all_shares_of_value_tell(q: u16) -> bool {
    let mut spreads: BTreeMap<Vec<Vec<usize>>, BTreeSet<u16>> = BTreeMap::new();
    let (n, mut input) = (2, [0; 4]);
    loop {
        let number = (input[0] ^ input[1]) + 2 * (input[2] ^ input[3]);
        spreads.entry(counts(value, q, n, 1, &input, ALONE, &[vec![0, 1]])).or_default().insert(number % q);
        if !advance(&mut input, 2) {
            break;
        }
    }
    let right = spreads.len() == q.min(4) as usize && spreads.values().all(|numbers| numbers.len() == 1);
    let judgement = if right { ", one for each number modulo q" } else { ", which is wrong" };
    println!("  tp_convert_value k 2 n {n} q {q}, no share left out: {} spreads{judgement}", spreads.len());
    right
}

/// The modulus of document 01's example, in which a learner sees one share of a sample with n 2 and k 1.
const Q: u16 = 17;

/// All word lists of such a sample, and a seventeenth of them.
const LISTS: usize = 83_521;
const EVEN: usize = 4_913;

/// The shares of a bit where step 3 uses the word of step 2 again: document 01's third habit to break, with n 2.
fn bit_by_habit(bits: &[u16], word: u16) -> [i32; 2] {
    let (b1, b2, r) = (bits[0] as i32, bits[1] as i32, word as i32);
    [(b1 - r) * (1 - 2 * b2) + b2 + r, r * (1 - 2 * b2) - r]
}

/// The sample with n 2 and k 1 by that habit. Its shares still add up.
fn sample_by_habit(q: u16, bits: &[u16], words: &[u16], start: usize, out: &mut [u16]) -> Result<usize, Refusal> {
    let (x, y) = (bit_by_habit(&bits[..2], words[start]), bit_by_habit(&bits[2..], words[start + 2]));
    for (share, (x, y)) in out.iter_mut().zip(x.iter().zip(y)) {
        *share = (x - y).rem_euclid(q as i32) as u16;
    }
    assert_eq!((out[0] + out[1]) % q, (q + (bits[0] ^ bits[1]) - (bits[2] ^ bits[3])) % q, "bits {bits:?}, words {words:?}");
    Ok(start + 4)
}

/// How often the habit gives a first share, by hand. A bit's first share is b1 where b2 is 0. Else it is 1 - b1 + 2r, which takes every value
/// as r does, since q is odd.
fn times_by_habit(seen: u16, bits: [u16; 4]) -> usize {
    match bits {
        [x1, 0, y1, 0] if (Q + x1 - y1) % Q == seen => LISTS,
        [_, 0, _, 0] => 0,
        _ => EVEN,
    }
}

/// Every sharing of a bit x and a bit y, the shares of x first, that has the sample.
fn sharings(sample: i32) -> impl Iterator<Item = [u16; 4]> {
    let lists = (0..16).map(|number| [number >> 3 & 1, number >> 2 & 1, number >> 1 & 1, number & 1]);
    lists.filter(move |[x1, x2, y1, y2]| (x1 ^ x2) as i32 - (y1 ^ y2) as i32 == sample)
}

/// How often a first share is seen over all word lists, as it is printed: for how many sharings how often.
fn spread(sharings_by_count: &BTreeMap<usize, usize>) -> String {
    let all: usize = sharings_by_count.values().sum();
    let part = |(count, sharings): (&usize, &usize)| match *sharings {
        sharings if sharings == all => format!("{count} of {LISTS} word lists for each of {all} sharings"),
        sharings => format!("{count} of {LISTS} word lists for {sharings} of {all} sharings"),
    };
    sharings_by_count.iter().map(part).collect::<Vec<_>>().join("; ")
}

/// A way to sample, how often it gives a first share for a sharing, and whether that is the same for all.
struct Way {
    name: &'static str,
    make: Maker,
    times: fn(seen: u16, bits: [u16; 4]) -> usize,
    even: bool,
}

/// The library's, and document 01's third habit.
const WAYS: [Way; 2] = [
    Way { name: "", make: sample, times: |_, _| EVEN, even: true },
    Way { name: ", a bit's words used again", make: sample_by_habit, times: times_by_habit, even: false },
];

impl Way {
    /// Prints how often a first share is seen for a sample. Answers whether that is right.
    fn is_right_for(&self, seen: u16, sample: i32) -> bool {
        let mut sharings_by_count: BTreeMap<usize, usize> = BTreeMap::new();
        let mut right = true;
        for bits in sharings(sample) {
            let count = counts(self.make, Q, 2, 1, &bits, ALONE, &[vec![0]])[0][seen as usize];
            *sharings_by_count.entry(count).or_default() += 1;
            right &= count == (self.times)(seen, bits);
        }
        right &= (sharings_by_count.len() == 1) == self.even;
        let fault = if right { "" } else { ", which is wrong" };
        println!("  {seen} as the first share, n 2 k 1 q {Q}{}: sample {sample}: {}{fault}", self.name, spread(&sharings_by_count));
        right
    }

    fn is_right(&self, seen: u16) -> bool {
        [-1, 0, 1].map(|sample| self.is_right_for(seen, sample)) == [true; 3]
    }
}

/// The first share of document 01's example, 7, tells a learner nothing, and no more does a 1. With the habit 7 would leave out some
/// sharings, and 1 would speak for the sample 1.
fn first_share_tells_nothing() -> bool {
    [7, 1].map(|seen| WAYS.map(|way| way.is_right(seen))) == [[true; 2]; 2]
}

/// Strings with these k, n and q. With k 3, the highest factor is 0 modulo 4.
fn values_tell_nothing() -> bool {
    let sizes = [(1, 2, 3), (1, 3, 3), (2, 2, 3), (2, 2, 4), (2, 2, 5), (3, 2, 3), (3, 2, 4)];
    let even = sizes.map(|(k, n, q)| is_even(&format!("tp_convert_value k {k}"), value, ALONE, [k, 1], n, q));
    let behind = [3, 4].map(|q| is_even("tp_convert_value k 2", value, BEHIND, [2, 1], 2, q));
    even == [true; 7] && behind == [true; 2]
}

/// The one-bit call, strings, and the sampler and polynomials with k 1, each with these n and q. The larger counts take long, and are made without
/// words around.
pub fn holds() -> bool {
    println!("secrecy: how often each value of the other shares occurs over all word lists");
    let bit = |around, n, q| is_even("tp_convert_bit", convert_bit, around, [1, 1], n, q);
    let one = |around, n, q| is_even("tp_sample k 1", sample, around, [2, 1], n, q);
    let two = |around, n, q| is_even("tp_sample_polynomial k 1 m 2", polynomial, around, [4, 2], n, q);
    let small = [ALONE, AROUND].map(|around| {
        let bits = [(2, 3), (2, 4), (2, 5), (3, 3)].map(|(n, q)| bit(around, n, q));
        let samples = [(2, 3), (2, 4), (2, 5)].map(|(n, q)| one(around, n, q));
        bits == [true; 4] && samples == [true; 3]
    });
    let large = [one(ALONE, 2, Q), one(ALONE, 3, 3), two(ALONE, 2, 3)];
    let values = [values_tell_nothing(), all_shares_of_value_tell(3), all_shares_of_value_tell(4), all_shares_of_value_tell(5)];
    let told = [all_shares_tell(), first_share_tells_nothing()];
    small == [true; 2] && large == [true; 3] && values == [true; 4] && told == [true; 2]
}
