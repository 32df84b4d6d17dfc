//! What calls for whole polynomials are to meet: numbers of coefficients, and refusals in the first, a middle and the last coefficient.

use crate::call::{Answer, Call};
use crate::calls::words_needed;

/// The refusals with a place.
const PLACED: [u64; 3] = [6, 7, 9];
const COEFFICIENTS: [&str; 3] = ["the first", "a middle", "the last"];
const ACCEPTED: [&str; 5] = ["1", "2", "in between", "255", "256"];
const REFUSED: [&str; 5] = ["0", "257", "the largest", "so that m * n wraps to the shares lent", "so that m * W wraps to the words lent"];

fn accepted(m: &str) -> String {
    format!("accepted with m {m}")
}

fn refused(m: &str) -> String {
    format!("refused with m {m}")
}

fn placed(number: u64, coefficient: &str) -> String {
    format!("refused with {number} in {coefficient} coefficient of several")
}

/// All that the calls are to meet.
pub fn to_meet() -> Vec<String> {
    let placed = PLACED.iter().flat_map(|number| COEFFICIENTS.map(|coefficient| placed(*number, coefficient)));
    ACCEPTED.map(accepted).into_iter().chain(REFUSED.map(refused)).chain(placed).collect()
}

/// What one call meets of that.
pub fn met(call: &Call, answer: Answer) -> Vec<String> {
    let [n, k, _, m] = <[u64; 4]>::try_from(&call.numbers[..]).expect("n, k, q and m");
    match answer.code {
        0 if (3..=254).contains(&m) => vec![accepted("in between")],
        0 => vec![accepted(&m.to_string())],
        23 => REFUSED.into_iter().zip(unfit(call, n, k, m)).filter(|(_, holds)| *holds).map(|(m, _)| refused(m)).collect(),
        6 | 7 | 9 if m > 1 => {
            let size = if answer.code == 9 { words_needed(n, k) } else { n };
            let coefficient = match answer.place / size {
                0 => 0,
                t if t < m - 1 => 1,
                _ => 2,
            };
            vec![placed(answer.code, COEFFICIENTS[coefficient])]
        }
        _ => vec![],
    }
}

/// Which of those refused it is.
fn unfit(call: &Call, n: u64, k: u64, m: u64) -> [bool; 5] {
    let [shares, words] = [0, 2].map(|list| call.lists[list].len() as u64);
    let wraps = |size: u64, fits: &dyn Fn(u64) -> bool| m.checked_mul(size).is_none() && fits(m.wrapping_mul(size));
    [m == 0, m == 257, m == u64::MAX, wraps(n, &|count| count == shares), wraps(words_needed(n, k), &|count| count <= words)]
}
