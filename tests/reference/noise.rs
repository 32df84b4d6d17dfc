//! Noise of ML-KEM, written from FIPS 203, and the call of document 02 that splits shared noise bytes.

use crate::calls::{ask, parameter_set, Verdict};
use crate::draw::Dice;

/// The coefficients of a polynomial of FIPS 203.
pub const COEFFICIENTS: usize = 256;

/// The modulus of FIPS 203.
pub const Q: u64 = 3_329;

/// Algorithm 4, BytesToBits.
pub fn bytes_to_bits(bytes: &[u8]) -> Vec<u8> {
    let mut bits = vec![0; 8 * bytes.len()];
    for (i, byte) in bytes.iter().enumerate() {
        let mut c = *byte;
        for j in 0..8 {
            bits[8 * i + j] = c % 2;
            c /= 2;
        }
    }
    bits
}

/// Algorithm 8, SamplePolyCBD: the coefficients, each below q.
pub fn sample_poly_cbd(eta: usize, bytes: &[u8]) -> Vec<u64> {
    assert_eq!(bytes.len(), 64 * eta, "the bytes of a polynomial");
    let b = bytes_to_bits(bytes);
    let coefficient = |i: usize| {
        let x: u64 = (0..eta).map(|j| b[2 * i * eta + j] as u64).sum();
        let y: u64 = (0..eta).map(|j| b[2 * i * eta + eta + j] as u64).sum();
        (x + Q - y) % Q
    };
    (0..COEFFICIENTS).map(coefficient).collect()
}

/// The number of so many bits of a string of bytes from a place on, the lowest first in the number and in each byte.
fn bits_from(string: &[u64], place: usize, count: usize) -> u64 {
    (0..count).map(|j| (string[(place + j) / 8] >> ((place + j) % 8) & 1) << j).sum()
}

/// The call that splits n strings of noise bytes into the x and y shares of all coefficients.
pub fn split(n: u64, set: u64, list: &[u64], x: &mut [u64], y: &mut [u64]) -> Verdict<u64> {
    ask((2..=8).contains(&n), 1, 0)?;
    let (k, _) = parameter_set(set)?;
    ask(set == 1 || set == 2, 24, 0)?;
    ask(list.len() as u64 == n * 64 * k, 25, 0)?;
    let (n, k) = (n as usize, k as usize);
    ask(x.len() >= COEFFICIENTS * n, 10, 0)?;
    ask(y.len() >= COEFFICIENTS * n, 10, 0)?;
    for (i, string) in list.chunks_exact(64 * k).enumerate() {
        for t in 0..COEFFICIENTS {
            x[t * n + i] = bits_from(string, 2 * t * k, k);
            y[t * n + i] = bits_from(string, 2 * t * k + k, k);
        }
    }
    Ok((COEFFICIENTS * n) as u64)
}

/// The XOR of n strings that stand one after the other.
pub fn opened(n: u64, list: &[u64]) -> Vec<u8> {
    let mut opened = vec![0; list.len() / n as usize];
    for string in list.chunks_exact(opened.len()) {
        for (byte, share) in opened.iter_mut().zip(string) {
            *byte ^= *share as u8;
        }
    }
    opened
}

/// n strings one after the other whose XOR is the bytes: masks, and the bytes XOR all masks.
pub fn masked(dice: &mut Dice, n: u64, bytes: &[u8]) -> Vec<u64> {
    let mut shared: Vec<u8> = (1..n).flat_map(|_| dice.bytes(bytes.len())).collect();
    let mut last = bytes.to_vec();
    for mask in shared.chunks_exact(bytes.len()) {
        for (byte, share) in last.iter_mut().zip(mask) {
            *byte ^= share;
        }
    }
    shared.extend(last);
    shared.into_iter().map(u64::from).collect()
}

/// What a coefficient opens to: x, y and the residue.
pub type Coefficient = [u64; 3];

/// What FIPS 203 has for the opened bytes: the bits that SamplePolyCBD adds for a coefficient, those that it takes off, and the coefficient.
pub fn polynomial(eta: usize, bytes: &[u8]) -> Vec<Coefficient> {
    let number = |bits: &[u8]| bits.iter().rev().fold(0, |number, bit| 2 * number + *bit as u64);
    let (bits, residues) = (bytes_to_bits(bytes), sample_poly_cbd(eta, bytes));
    bits.chunks_exact(2 * eta).zip(residues).map(|(bits, residue)| [number(&bits[..eta]), number(&bits[eta..]), residue]).collect()
}

/// So many bytes of shared noise: any, at times all alike, or all alike but for one bit.
pub fn drawn(dice: &mut Dice, count: u64) -> Vec<u64> {
    let form = dice.below(10);
    let byte = |_| match form {
        0 | 1 => 0,
        2 | 3 => 255,
        4 => dice.pick(&[0, 255]),
        _ => dice.below(256),
    };
    let mut list: Vec<u64> = (0..count).map(byte).collect();
    if form % 2 == 1 && form < 4 {
        list[dice.below(count) as usize] ^= 1 << dice.below(8);
    }
    list
}
