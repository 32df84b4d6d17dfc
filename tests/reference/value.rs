//! The call of document 02 that converts a shared string, written from the page, and what must hold of it besides.

use crate::call::{Call, Function, Outcome};
use crate::calls::{ask, ask_all, ask_words, bit_words, has_bits_at_or_above, numbers_of_bit, Verdict};
use crate::kinds::{print_gaps, Kinds};
use crate::Comparison;

/// The random words that a string of k bits takes.
pub fn value_words(n: u64, k: u64) -> u64 {
    k * bit_words(n)
}

pub fn convert_value([n, k, q]: [u64; 3], shares: &[u64], words: &[u64], out: &mut [u64]) -> Verdict<u64> {
    ask((2..=8).contains(&n), 1, 0)?;
    ask((1..=16).contains(&k), 2, 0)?;
    ask(q >= 3, 3, 0)?;
    ask(shares.len() as u64 == n, 4, 0)?;
    ask_all(shares, 6, |share| !has_bits_at_or_above(share, k))?;
    let taken = ask_words(words, 0, value_words(n, k), q)?;
    ask(out.len() as u64 >= n, 10, 0)?;
    let mut totals = vec![0; n as usize];
    for (i, words) in taken.chunks_exact(bit_words(n) as usize).enumerate() {
        let bits: Vec<u64> = shares.iter().map(|share| share >> i & 1).collect();
        for (total, number) in totals.iter_mut().zip(numbers_of_bit(q, &bits, words)) {
            *total += number << i;
        }
    }
    for (share, total) in out.iter_mut().zip(totals) {
        *share = total % q;
    }
    Ok(value_words(n, k))
}

/// Fewer calls that end in one way say too little.
const FEWEST_AS_BIT: usize = 20;

/// How often the shares of accepted calls were opened, and how calls with one bit ended, each as the bit alone did.
pub struct Relations {
    opened: usize,
    as_bit: Kinds,
}

impl Relations {
    pub fn new() -> Relations {
        let refused = Function::ConvertBit.form().refusals.iter().map(|refusal| refusal.0);
        Relations { opened: 0, as_bit: Kinds::new([0].into_iter().chain(refused).map(ending).collect()) }
    }

    /// Prints the counts, and what is missing. Answers how much that is.
    pub fn print(&self) -> usize {
        println!("  {} values whose shares are below q and open to the string's number modulo q", self.opened);
        println!("  values of one bit that end as that bit alone: {}", self.as_bit.lines().collect::<Vec<_>>().join(", "));
        let mut gaps: Vec<String> = self.as_bit.gaps("a value of one bit", FEWEST_AS_BIT).collect();
        if self.opened == 0 {
            gaps.push("no value is opened".to_string());
        }
        print_gaps(&gaps)
    }
}

pub fn ending(code: u64) -> String {
    match code {
        0 => "accepted".to_string(),
        number => format!("refused with {number}"),
    }
}

impl Comparison {
    /// The shares of an accepted call are below q and open to the number of the opened string, modulo q.
    pub fn open_value(&mut self, call: &Call, outcome: &Outcome) {
        let [n, k, q] = <[u64; 3]>::try_from(&call.numbers[..]).expect("n, k and q");
        let shares = &outcome.list(call.list_place("out"))[..n as usize];
        let number = self.value(Function::OpenString, &[n, k], &[call.list("shares")]) as u64;
        let residue = self.value(Function::OpenResidue, &[n, q], &[shares]) as u64;
        if shares.iter().any(|share| *share >= q) || residue != number % q {
            self.differs(call, &format!("  the shares {shares:?} open to {residue}, and the string to {number}"));
        }
        self.values.opened += 1;
    }

    /// A string of one bit ends as that bit alone does, with the same lists from their start.
    pub fn convert_as_bit(&mut self, call: &Call, outcome: &Outcome) {
        if let (Function::ConvertValue, &[n, 1, q]) = (call.function, &call.numbers[..]) {
            let bit = Call { function: Function::ConvertBit, numbers: vec![n, q, 0], lists: call.lists.clone() };
            if self.compare(&bit) != *outcome {
                self.differs(call, "  ends in another way than the bit alone does");
            }
            self.values.as_bit.count(&[ending(outcome.answer.code)]);
        }
    }
}
