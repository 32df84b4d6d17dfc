//! Calls that centre a residue: how they are drawn, and what they are to meet, most of all about the half of q.

use crate::call::{Answer, Call};
use crate::draft::Drawn;
use crate::draw::Dice;
use crate::kinds::chosen;
use crate::value_met::{accepted, before, of_modulus, refused, SMALL};

/// Moduli that are met one by one: the smallest, that of document 02's value, a power of two and the largest.
const MODULI: [u64; 6] = [3, 4, 8, 32_768, 65_534, 65_535];

/// No sample with a larger q is about its half.
const LARGEST_ABOUT_SAMPLES: u64 = 34;

/// One for each kind of the others.
const OTHER_MODULI: [u64; 4] = [6, 5, 36, 35];

pub const HALF: &str = "2r = q";

/// How much 2r is above q at residues about the half of q.
const ABOUT_HALF: [(i64, &str); 5] = [(-2, "2r = q - 2"), (-1, "2r = q - 1"), (0, HALF), (1, "2r = q + 1"), (2, "2r = q + 2")];

const ELSEWHERE: [&str; 4] = ["r 0", "r = q - 1", "2r below q - 2", "2r above q + 2"];

const FIRST_REFUSED: &str = "r = q";

const HIGH: [&str; 2] = ["r = q + 1", "r 65,535"];

const BELOW: &str = "an r below q";

/// A good call with this modulus, a small one or one of those above, and a residue that is mostly about the half or at an end.
pub fn drawn(dice: &mut Dice, any_modulus: u64) -> Drawn {
    let (listed, small) = (dice.pick(&MODULI), dice.between(3, LARGEST_ABOUT_SAMPLES));
    let q = dice.pick(&[listed, listed, listed, small, any_modulus, any_modulus]);
    let (half, any) = (q / 2, dice.below(q));
    let r = dice.pick(&[0, q - 1, half - 1, half - 1, half, half, half + 1, half + 1, any, any]);
    (vec![q, r], vec![], vec![])
}

/// The names of residues about the half that q can have: twice one is even.
pub fn halves(q: u64) -> impl Iterator<Item = &'static str> {
    ABOUT_HALF.iter().filter(move |(above, _)| (q as i64 + above) % 2 == 0).map(|(_, name)| *name)
}

/// The name of a residue about the half.
pub fn about_half(q: u64, r: u64) -> Option<&'static str> {
    ABOUT_HALF.iter().find(|(above, _)| 2 * r as i64 == q as i64 + above).map(|(_, name)| *name)
}

pub fn of_parity(q: u64) -> &'static str {
    ["even q", "odd q"][(q % 2) as usize]
}

fn with_modulus(q: u64, residue: &str) -> String {
    if MODULI.contains(&q) {
        return format!("{} and {residue}", of_modulus(q));
    }
    let size = if q <= LARGEST_ABOUT_SAMPLES { "small" } else { "large" };
    format!("another {size} {} and {residue}", of_parity(q))
}

/// All that the calls are to meet.
pub fn to_meet() -> Vec<String> {
    let moduli = MODULI.into_iter().chain(OTHER_MODULI);
    let about_half = moduli.clone().flat_map(|q| halves(q).map(move |half| accepted(&with_modulus(q, half))));
    let small = SMALL.into_iter().chain([BELOW]).map(|kind| refused(3, kind)).chain([before(3, 17)]);
    let high = moduli.map(|q| with_modulus(q, FIRST_REFUSED)).chain(HIGH.map(String::from)).map(|kind| refused(17, &kind));
    about_half.chain(ELSEWHERE.map(accepted)).chain(small).chain(high).collect()
}

/// What one call meets of that.
pub fn met(call: &Call, answer: Answer) -> Vec<String> {
    let [q, r] = <[u64; 2]>::try_from(&call.numbers[..]).expect("q and r");
    match answer.code {
        0 => {
            let elsewhere = chosen(&ELSEWHERE, [r == 0, r + 1 == q, 2 * r + 2 < q, 2 * r > q + 2]).map(accepted);
            about_half(q, r).map(|half| accepted(&with_modulus(q, half))).into_iter().chain(elsewhere).collect()
        }
        3 => {
            let order = if r < q { refused(3, BELOW) } else { before(3, 17) };
            chosen(&SMALL, [q == 0, q == 1, q == 2]).map(|kind| refused(3, kind)).chain([order]).collect()
        }
        _ if r == q => vec![refused(17, &with_modulus(q, FIRST_REFUSED))],
        _ => chosen(&HIGH, [r == q + 1, r == 65_535]).map(|kind| refused(17, kind)).collect(),
    }
}
