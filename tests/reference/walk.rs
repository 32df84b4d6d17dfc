//! Consecutive calls that hand the place they answer on, through one list of words.

use crate::call::{Call, Function};
use crate::draft::good;
use crate::draw::{unjudged_word, Dice};

pub struct Walk {
    /// The calls, each with its own words alone.
    pub calls: Vec<Call>,
    /// The words of all calls, one piece behind the other, with others before and behind them.
    words: Vec<u64>,
    /// Where the first call starts.
    pub first: u64,
}

impl Walk {
    /// One of the calls in the whole list, from a place on.
    pub fn within(&self, alone: &Call, start: u64) -> Call {
        let mut call = alone.clone();
        call.set_number("start", start);
        call.lists[alone.list_place("words")] = self.words.clone();
        call
    }
}

/// A good call with the words that it takes and no others.
fn alone(dice: &mut Dice) -> Call {
    let function = dice.pick(&[Function::ConvertBit, Function::Sample]);
    let (n, k) = (dice.between(2, 8), dice.between(1, 16));
    good(dice, 0, 0, function, [n, k, 1]).alone()
}

/// The walk of a number.
pub fn made(seed: u64, number: usize) -> Walk {
    let mut dice = Dice::new(seed.wrapping_add(1), number as u64);
    let calls: Vec<Call> = (0..dice.between(2, 6)).map(|_| alone(&mut dice)).collect();
    let [first, behind] = [(); 2].map(|()| dice.below(8));
    let mut others = |count| -> Vec<u64> { (0..count).map(|_| unjudged_word(&mut dice, 3)).collect() };
    let (mut words, last) = (others(first), others(behind));
    words.extend(calls.iter().flat_map(|call| call.list("words")));
    words.extend(last);
    Walk { calls, words, first }
}
