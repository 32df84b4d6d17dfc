//! The work area of samples and polynomials: how it is drawn, and what the calls are to meet of it. Document 02 asks for n places, where document 01
//! asks for 2kn, a row for each bit.

use crate::call::{Answer, Call, Function};
use crate::draw::Dice;
use crate::kinds::chosen;

/// A work area of n places or more, often about n or about 2kn. No place holds 0, so that it shows which are set to 0.
pub fn fitting(dice: &mut Dice, n: u64, k: u64) -> Vec<u64> {
    let rows = (2 * k * n).max(n);
    let (between, more) = (dice.between(n, rows), dice.between(rows + 1, rows + 40));
    let len = dice.pick(&[n, n, n, n + 1, between, rows - 1, rows, more]).max(n);
    (0..len).map(|_| dice.between(1, 65_535)).collect()
}

/// Whether a call has exactly n places of work area, or takes none.
pub fn is_least(call: &Call) -> bool {
    !call.function.form().lists.contains(&"work") || call.number("n") == Some(call.list("work").len() as u64)
}

const ACCEPTED: [&str; 7] = ["n", "n + 1", "n + 2 to 2kn - 2", "2kn - 1", "2kn", "more than 2kn", "fewer than 2kn"];
const TOO_FEW: [&str; 3] = ["no", "1 to n - 2", "n - 1"];

/// What a refusal for another reason is to meet, 26 only the second: it is asked after 11.
const OTHERS: [&str; 2] = ["fewer than n", "n to 2kn - 1"];

fn accepted(places: &str) -> String {
    format!("accepted with {places} places of work area")
}

fn refused(number: u64, places: &str) -> String {
    format!("refused with {number} with {places} places of work area")
}

/// What polynomials of several coefficients are to meet by themselves.
fn by_several() -> [String; 2] {
    [accepted("n"), refused(11, "n - 1")]
}

fn for_several(kind: String) -> String {
    format!("{kind} for several coefficients")
}

/// All that the calls of a function with a work area are to meet.
pub fn to_meet(function: Function) -> Vec<String> {
    let numbers = function.form().refusals.iter().map(|refusal| refusal.0).filter(|number| *number != 11);
    let others = numbers.flat_map(|number| OTHERS[usize::from(number == 26)..].iter().map(move |places| refused(number, places)));
    let mut kinds: Vec<String> = ACCEPTED.map(accepted).into_iter().chain(TOO_FEW.map(|places| refused(11, places))).chain(others).collect();
    if function == Function::SamplePolynomial {
        kinds.extend(by_several().map(for_several));
    }
    kinds
}

/// What one call meets of that.
pub fn met(call: &Call, answer: Answer) -> Vec<String> {
    let [n, k] = ["n", "k"].map(|name| call.number(name).expect("n and k"));
    let (len, rows) = (call.list("work").len() as u64, n.saturating_mul(k).saturating_mul(2));
    let mut met: Vec<String> = match answer.code {
        0 => {
            let (between, one_less) = (n + 2 <= len && len + 2 <= rows, n + 2 <= len && len + 1 == rows);
            let holds = [len == n, len == n + 1, between, one_less, len == rows, len > rows, len < rows];
            chosen(&ACCEPTED, holds).map(accepted).collect()
        }
        11 => chosen(&TOO_FEW, [len == 0, 0 < len && len + 2 <= n, len + 1 == n]).map(|places| refused(11, places)).collect(),
        number => chosen(&OTHERS, [len < n, n <= len && len < rows]).map(|places| refused(number, places)).collect(),
    };
    if call.number("m").map_or(false, |m| m > 1) {
        met.extend(by_several().into_iter().filter(|kind| met.contains(kind)).map(for_several).collect::<Vec<_>>());
    }
    met
}
