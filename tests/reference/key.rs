//! Key generation of ML-KEM, from FIPS 203: the noise bytes that K-PKE.KeyGen (Algorithm 13) draws from a seed, and the key that follows from the
//! noise.

use crate::draw::Dice;
use crate::keccak::{from_hex, sha3_256, sha3_512, shake_128, shake_256};
use crate::noise::{self, COEFFICIENTS, Q};
use crate::{way, Comparison};

/// The rank and η1 of ML-KEM-512, ML-KEM-768 and ML-KEM-1024, and a vector of NIST's for the key generation of each (ACVP): the seed d, and the
/// SHA3-256 digest of its encapsulation key, which is a part of its decapsulation key. They are given from memory, and where they are published
/// was not looked up; that FIPS 203 takes the one to the other is worked out here.
const KNOWN: [(usize, u64, &str, &str); 3] = [
    (2, 3, "2CB843A02EF02EE109305F39119FABF49AB90A57FFECB3A0E75E179450F52761", "620130D6C2B8C904A3BB9307BE5103F8D814505FB6A60AF7937EA6CAA117315E"),
    (3, 2, "E34A701C4C87582F42264EE422D3C684D97611F2523EFE0C998AF05056D693DC", "E29020839D052FA372585627F8B59EE312AE414C979D825F06A6929A79625718"),
    (4, 2, "49AC8B99BB1E6A8EA818261F8BE68BDEAA52897E7EC6C40B530BC760AB77DCE3", "D2E574DFD8CD0AE893AA7E125B44B924F45223EC09F2AD1141EA93A68050DBF6"),
];

pub struct Generation {
    rank: usize,
    eta: u64,
    seed: Vec<u8>,
    /// The digest of the encapsulation key, where that is known.
    digest: Option<Vec<u8>>,
}

/// Each of the three with the seed above and with two of ours: zeros, and the bytes from 0 to 31. What is derived from a seed is FIPS 203's.
pub fn generations() -> Vec<Generation> {
    let with = |rank, eta, seed, digest| Generation { rank, eta, seed, digest };
    let of_rank = |(rank, eta, seed, digest)| {
        let known = with(rank, eta, from_hex(seed), Some(from_hex(digest)));
        [known, with(rank, eta, vec![0; 32], None), with(rank, eta, (0..32).collect(), None)]
    };
    KNOWN.into_iter().flat_map(of_rank).collect()
}

impl Generation {
    /// ρ and σ.
    fn seeds(&self) -> (Vec<u8>, Vec<u8>) {
        let g = sha3_512(&[&self.seed[..], &[self.rank as u8]].concat());
        (g[..32].to_vec(), g[32..].to_vec())
    }

    /// The bytes for each polynomial of s, then for each of e.
    pub fn noise(&self) -> Vec<Vec<u8>> {
        let (_, sigma) = self.seeds();
        let bytes = |n: usize| shake_256(&[&sigma[..], &[n as u8]].concat(), 64 * self.eta as usize);
        (0..2 * self.rank).map(bytes).collect()
    }

    /// The encapsulation key of s and e.
    fn key(&self, noise: &[Vec<u64>]) -> Vec<u8> {
        let (rho, _) = self.seeds();
        let transformed: Vec<Vec<u64>> = noise.iter().map(|polynomial| ntt(polynomial)).collect();
        let (s, e) = transformed.split_at(self.rank);
        let mut key = Vec::new();
        for (i, e) in e.iter().enumerate() {
            let mut t = e.clone();
            for (j, s) in s.iter().enumerate() {
                let a = sample_ntt(&[&rho[..], &[j as u8, i as u8]].concat());
                t = t.iter().zip(product(&a, s)).map(|(t, product)| (t + product) % Q).collect();
            }
            key.extend(encoded(&t));
        }
        key.extend(rho);
        key
    }

    /// Whether the known key follows from the noise, where there is one.
    pub fn gives_known_key(&self, noise: &[Vec<u64>]) -> Option<bool> {
        self.digest.as_ref().map(|digest| sha3_256(&self.key(noise)) == *digest)
    }
}

/// 17 to the power of so much.
fn zeta(exponent: usize) -> u64 {
    (0..exponent).fold(1, |power, _| power * 17 % Q)
}

/// BitRev7.
fn reversed(i: usize) -> usize {
    (0..7).map(|bit| (i >> bit & 1) << (6 - bit)).sum()
}

/// Algorithm 9, NTT.
fn ntt(f: &[u64]) -> Vec<u64> {
    let (mut f, mut i) = (f.to_vec(), 1);
    for len in [128, 64, 32, 16, 8, 4, 2] {
        for start in (0..COEFFICIENTS).step_by(2 * len) {
            let zeta = zeta(reversed(i));
            i += 1;
            for j in start..start + len {
                let t = zeta * f[j + len] % Q;
                f[j + len] = (f[j] + Q - t) % Q;
                f[j] = (f[j] + t) % Q;
            }
        }
    }
    f
}

/// Algorithm 7, SampleNTT. The bytes suffice for each seed here.
fn sample_ntt(seed: &[u8]) -> Vec<u64> {
    let mut a = Vec::new();
    for c in shake_128(seed, 3 * 504).chunks_exact(3) {
        let c = [c[0] as u64, c[1] as u64, c[2] as u64];
        a.extend([c[0] + 256 * (c[1] % 16), c[1] / 16 + 16 * c[2]].into_iter().filter(|d| *d < Q));
    }
    assert!(a.len() >= COEFFICIENTS, "too few bytes for a polynomial of the matrix");
    a.truncate(COEFFICIENTS);
    a
}

/// Algorithms 11 and 12, MultiplyNTTs.
fn product(f: &[u64], g: &[u64]) -> Vec<u64> {
    let pair = |i: usize| {
        let (a0, a1, b0, b1) = (f[2 * i], f[2 * i + 1], g[2 * i], g[2 * i + 1]);
        let gamma = zeta(2 * reversed(i) + 1);
        [(a0 * b0 + a1 * b1 % Q * gamma) % Q, (a0 * b1 + a1 * b0) % Q]
    };
    (0..COEFFICIENTS / 2).flat_map(pair).collect()
}

/// Algorithm 5, ByteEncode, of 12 bits a coefficient.
fn encoded(f: &[u64]) -> Vec<u8> {
    let three = |pair: &[u64]| [pair[0] as u8, (pair[0] >> 8 | pair[1] << 4) as u8, (pair[1] >> 4) as u8];
    f.chunks_exact(2).flat_map(three).collect()
}

/// Key generations whose noise went all the way, its polynomials, how often these did, and how often a known key followed.
#[derive(Default)]
pub struct Keys {
    generations: usize,
    polynomials: usize,
    ways: usize,
    known: usize,
}

impl Keys {
    /// Prints the counts.
    pub fn print(&self) {
        let Keys { generations, polynomials, ways, known } = self;
        println!("library: noise polynomials of {generations} ML-KEM key generations: {polynomials}, shared with each n and opened again: {ways}");
        println!("  known keys that follow from the opened noise: {known}");
    }
}

impl Comparison {
    /// The residues of a polynomial whose noise bytes are shared, split, sampled and opened. They are those of the bytes before they were shared.
    fn residues(&mut self, n: u64, eta: u64, bytes: &[u8]) -> Vec<u64> {
        let mut dice = Dice::new(self.seed.wrapping_add(3), self.compared as u64);
        let split = way::split(n, eta - 1, noise::masked(&mut dice, n, bytes));
        let (before, outcome) = (self.differences, self.compare(&split));
        let opened = if self.differences == before { self.go_all_the_way(&split, &outcome) } else { vec![] };
        let residues: Vec<u64> = opened.iter().map(|coefficient| coefficient[2]).collect();
        if residues != noise::sample_poly_cbd(eta as usize, bytes) {
            self.differs(&split, "  the polynomial is not that of the bytes before they were shared");
        }
        residues
    }

    /// The noise of a key generation, shared with each n. A known key follows from what is opened.
    pub fn make_keys(&mut self, generation: &Generation) {
        let noise = generation.noise();
        for n in 2..=8 {
            let mut residues = Vec::new();
            for bytes in &noise {
                residues.push(self.residues(n, generation.eta, bytes));
                if self.differences > 0 {
                    return;
                }
            }
            match generation.gives_known_key(&residues) {
                Some(false) => {
                    self.differences += 1;
                    eprintln!("with n {n}, noise of η {} gives another key than the known one", generation.eta);
                }
                Some(true) => self.keys.known += 1,
                None => (),
            }
            self.keys.ways += noise.len();
        }
        self.keys.generations += 1;
        self.keys.polynomials += noise.len();
    }
}
