//! Where calls start in the word list: how that is drawn, and what the calls are to meet of it.

use crate::call::{Answer, Call, Function};
use crate::calls::{bit_words, words_needed};
use crate::draw::Dice;
use crate::kinds::chosen;

/// A start, which is also how many words stand before it. At times a whole call's words do, and seldom more than 16 bits count.
pub fn fitting(dice: &mut Dice, needed: u64) -> u64 {
    if dice.one_in(300) {
        return dice.between(65_530, 65_600);
    }
    match dice.below(8) {
        0 | 1 => 0,
        2 => needed * dice.between(1, 2),
        3 => dice.between(1, needed.max(1)),
        _ => dice.between(1, 20),
    }
}

/// A start from which a list of so many words has too few, where the call needs so many and would fit from another. Some fit if the sum with the
/// words needed wraps around, or if high bits are lost.
pub fn too_far(dice: &mut Dice, len: u64, needed: u64, fitting: u64) -> u64 {
    let wraps_to_0 = 0u64.wrapping_sub(needed);
    let wraps_into_list = wraps_to_0.wrapping_add(dice.below(needed.min(len + 1).max(1)));
    let near = [(len + 1).saturating_sub(needed), len, len + 1];
    let far = [u64::MAX, u64::MAX - 1, wraps_to_0.wrapping_sub(1), wraps_to_0, wraps_into_list, u64::MAX / 2];
    let cut = [1 << 16 | fitting, 1 << 32 | fitting, 1 << 63 | fitting];
    dice.pick(&[&near[..], &far, &cut].concat())
}

const ACCEPTED: [&str; 7] = [
    "from 0",
    "from above 0 with words behind",
    "from above 0 up to the list's end",
    "behind words that would suffice",
    "from 65,536 or more",
    "with a word not below q just before the start",
    "with a word not below q just behind the last",
];

const TOO_FAR: [&str; 11] = [
    "from 0 of an empty list",
    "from above 0 with one word too few",
    "from the end of a list with words that suffice",
    "from one past the list's end",
    "from the largest number",
    "where the sum is the largest number",
    "where the sum wraps to 0",
    "where the sum wraps into the list",
    "though the low 16 bits of the start fit",
    "though the low 32 bits of the start fit",
    "though the low 63 bits of the start fit",
];

const HIGH: [&str; 2] = ["at the first word from above 0, one before it too", "at the last word from above 0, one behind it too"];

fn accepted(kind: &str) -> String {
    format!("accepted {kind}")
}

fn refused(number: u64, kind: &str) -> String {
    format!("refused with {number} {kind}")
}

/// What a refusal for another reason is to meet: an unfit start that is asked about later, or a fit one.
fn of_others(number: u64) -> &'static str {
    if number < 8 {
        "where the start is past the list too"
    } else {
        "from above 0"
    }
}

/// All that the calls of a function with a start are to meet.
pub fn to_meet(function: Function) -> Vec<String> {
    let numbers = function.form().refusals.iter().map(|refusal| refusal.0);
    let others = numbers.filter(|number| ![8, 9].contains(number)).map(|number| refused(number, of_others(number)));
    let words = TOO_FAR.iter().map(|kind| refused(8, kind)).chain(HIGH.iter().map(|kind| refused(9, kind)));
    ACCEPTED.iter().map(|kind| accepted(kind)).chain(words).chain(others).collect()
}

/// What one call meets of that.
pub fn met(call: &Call, answer: Answer) -> Vec<String> {
    let (words, start) = (call.list("words"), call.number("start").expect("a start"));
    let len = words.len() as u64;
    let high = |place: u64| words.get(place as usize).map_or(false, |word| *word >= call.number("q").expect("a modulus"));
    let high_before = start > 0 && high(start.wrapping_sub(1));
    match answer.code {
        0 => {
            let (needed, end) = (answer.place - start, answer.place);
            let above = start > 0;
            let holds = [!above, above && end < len, above && end == len, start >= needed, start >= 65_536, high_before, high(end)];
            chosen(&ACCEPTED, holds).map(accepted).collect()
        }
        8 => chosen(&TOO_FAR, far_kinds(start, len, needed(call))).map(|kind| refused(8, kind)).collect(),
        9 => {
            let end = start + needed(call);
            let holds = [answer.place == start && high_before, answer.place + 1 == end && start > 0 && high(end)];
            chosen(&HIGH, holds).map(|kind| refused(9, kind)).collect()
        }
        number if number < 8 && start > len || number > 8 && start > 0 => vec![refused(number, of_others(number))],
        _ => vec![],
    }
}

/// The words that a call with a fit n and k takes.
fn needed(call: &Call) -> u64 {
    let n = call.number("n").expect("a number of shares");
    call.number("k").map_or(bit_words(n), |k| words_needed(n, k))
}

/// Which of those too far it is.
fn far_kinds(start: u64, len: u64, needed: u64) -> [bool; 11] {
    let sum = start as u128 + needed as u128;
    let fits_cut = |bits: u32| start >> bits != 0 && start % (1 << bits) + needed <= len;
    [
        start == 0 && len == 0,
        start > 0 && sum == len as u128 + 1,
        start == len && len >= needed,
        start == len + 1,
        start == u64::MAX,
        sum == u64::MAX as u128,
        sum == 1 << 64,
        sum > 1 << 64 && (sum as u64) <= len,
        fits_cut(16),
        fits_cut(32),
        fits_cut(63),
    ]
}
