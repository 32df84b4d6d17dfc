//! What must hold of centred values besides: every residue of some moduli and the half of every modulus are shown as FIPS 204 has them, here and by
//! the library, and no sample stands at the half.

use crate::call::{judged, Call, Function};
use crate::calls::Verdict;
use crate::centred::{about_half, halves, of_parity, HALF};
use crate::found::Layer;
use crate::kinds::{print_gaps, Kinds};
use crate::Comparison;
use std::ops::RangeInclusive;

/// Moduli with which every 16-bit number is given.
const MODULI: [u64; 4] = [4, 8, 65_534, 65_535];

/// Every modulus that is accepted.
const ALL_MODULI: RangeInclusive<u64> = 3..=65_535;

/// No list is lent that could be null.
const LAYERS: [Layer; 2] = [Layer::C { null: false }, Layer::Slices];

/// Fewer samples of a kind say too little.
const FEWEST_SAMPLES: usize = 20;

/// How many residues and how many other numbers agreed through both layers with each of the moduli, with how many moduli the half did, and how near
/// samples came to it.
pub struct Shown {
    residues: usize,
    refused: usize,
    halves: usize,
    samples: Kinds,
}

impl Shown {
    pub fn new() -> Shown {
        let kinds = [4, 3].into_iter().flat_map(|q| [of_parity(q)].into_iter().chain(halves(q)));
        let samples = Kinds::new(kinds.filter(|kind| *kind != HALF).map(String::from).collect());
        Shown { residues: 0, refused: 0, halves: 0, samples }
    }

    /// Prints the counts, and what is missing. Answers how much that is.
    pub fn print(&self) -> usize {
        let Shown { residues, refused, halves, samples } = self;
        println!("  {residues} residues shown as FIPS 204 has them and {refused} numbers refused, all of q {MODULI:?}; the half of {halves} moduli");
        println!("  samples off the half of q: {}", samples.lines().collect::<Vec<_>>().join(", "));
        let mut gaps: Vec<String> = samples.gaps("a sample", FEWEST_SAMPLES).collect();
        let all = MODULI.iter().sum::<u64>() as usize;
        if (*residues, *refused, *halves) != (all, 65_536 * MODULI.len() - all, ALL_MODULI.count()) {
            gaps.push("not every residue of some moduli or not the half of every modulus is compared".to_string());
        }
        print_gaps(&gaps)
    }
}

/// FIPS 204 has r mod± q as the one z of these, −⌈q/2⌉ < z ≤ ⌊q/2⌋, that is congruent to r modulo q.
fn values(q: u64) -> RangeInclusive<i64> {
    let q = q as i64;
    1 - (q + 1) / 2..=q / 2
}

/// The residue that shows z.
fn residue(q: u64, z: i64) -> u64 {
    z.rem_euclid(q as i64) as u64
}

/// What each 16-bit number shows.
fn verdicts(q: u64) -> Vec<Verdict<i64>> {
    let mut verdicts = vec![Err((17, 0)); 65_536];
    for z in values(q) {
        verdicts[residue(q, z) as usize] = Ok(z);
    }
    verdicts
}

impl Comparison {
    /// Whether r shows this, here and through each layer.
    fn shows(&mut self, q: u64, r: u64, verdict: Verdict<i64>) -> bool {
        let call = Call { function: Function::Centred, numbers: vec![q, r], lists: vec![] };
        let want = judged(verdict, |value| (0, value));
        let (here, found) = (call.expected().answer, LAYERS.map(|layer| call.found(layer).answer));
        let right = here == want && found == [want; 2];
        if !right {
            self.differs(&call, &format!("  here      {here:?}\n  answered  {found:?}\n  should be {want:?} by FIPS 204"));
        }
        right
    }

    /// Every 16-bit number with each of the moduli.
    pub fn compare_residues(&mut self) {
        for q in MODULI {
            for (r, verdict) in (0..).zip(verdicts(q)) {
                if !self.shows(q, r, verdict) {
                    break;
                }
                self.shown.residues += usize::from(verdict.is_ok());
                self.shown.refused += usize::from(verdict.is_err());
            }
        }
    }

    /// With every modulus, the residues of the two highest and the two lowest values, which meet at the half, and the first number that is refused.
    pub fn compare_halves(&mut self) {
        for q in ALL_MODULI {
            let (lowest, highest) = values(q).into_inner();
            let shown = [highest - 1, highest, lowest, lowest + 1].map(|z| (residue(q, z), Ok(z)));
            if !shown.into_iter().chain([(q, Err((17, 0)))]).all(|(r, verdict)| self.shows(q, r, verdict)) {
                break;
            }
            self.shown.halves += 1;
        }
    }

    /// A sample's residue is not the half of q, which is above 2k.
    pub fn keep_off_half(&mut self, call: &Call, q: u64, residue: u64) {
        if 2 * residue == q {
            self.differs(call, &format!("  a sample's residue is {residue}, the half of q"));
            return;
        }
        let met: Vec<String> = [of_parity(q)].into_iter().chain(about_half(q, residue)).map(String::from).collect();
        self.shown.samples.count(&met);
    }
}
