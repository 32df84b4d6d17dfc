//! A sample: made, opened and centred.

use tinplateau::{centre, open_residue, sample, sample_words, sample_work, Refusal};

const N: usize = 2;
const K: usize = 1;
const Q: u16 = 17;

fn main() -> Result<(), Refusal> {
    let (x, y) = ([1, 0], [1, 1]);
    let words: [u16; sample_words(N, K)] = [5, 3, 10, 16];
    let mut shares = [0; N];
    let mut work = [0; sample_work(N)];
    sample(N, K, Q, &x, &y, &words, 0, &mut shares, &mut work)?;
    let value = centre(Q, open_residue(N, Q, &shares)?)?;
    println!("shares {} {}, sample {value}", shares[0], shares[1]);
    Ok(())
}
