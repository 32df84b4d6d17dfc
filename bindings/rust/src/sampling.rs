//! Samples: one, one with its step records, and polynomials of them.

use crate::*;

/// Samples: n shares modulo q of the weight of x less the weight of y, with the [`sample_words`] words from position start on. Answers the
/// position behind them, where the next call may start. With words drawn evenly, each apart from all others and used once, no n - 1 of the
/// shares tell anything of x and y. The first [`sample_work`] words of the work area are 0 afterwards.
///
/// Refuses, in this order: `ShareCount`; `StringLength`; `Modulus`, for q below 2k + 1; `XCount`; `YCount`; `XWidth` and `YWidth`, with the
/// share's position; `WordCount`, for fewer words than start plus those taken, which does not overflow; `WordRange`, for one of those taken,
/// with its position from the front of the list; `OutputRoom`, for fewer than n output words; `WorkRoom`. Words before start, and words, output
/// words and work words past those, are neither read nor written.
#[allow(clippy::too_many_arguments)]
pub fn sample(
    n: usize,
    k: usize,
    q: u16,
    x: &[u16],
    y: &[u16],
    words: &[u16],
    start: usize,
    out: &mut [u16],
    work: &mut [u16],
) -> Result<usize, Refusal> {
    answered(unsafe {
        ffi::tp_sample(
            n,
            k,
            q,
            x.as_ptr(),
            x.len(),
            y.as_ptr(),
            y.len(),
            words.as_ptr(),
            words.len(),
            start,
            out.as_mut_ptr(),
            out.len(),
            work.as_mut_ptr(),
            work.len(),
        )
    })
}

/// Samples as [`sample`] does with start 0, and writes a record of eight bytes for each value on the way, in the order of the steps:
/// [`step_records`] of them. A record is the bytes of "ST", the bit's number (x bits 0 to k - 1, y bits k to 2k - 1), round, share, kind, and the
/// value in two bytes, low first; `tinplateau.h` tells the kinds. Answers [`sample_words`]. Output and work area are then as [`sample`] leaves them.
/// The records together show what the shares hide: they are for a lesson, not for a secret.
///
/// Refuses, in this order, what [`sample`] refuses; then `RecordRoom`, for fewer than [`step_bytes`] bytes. Bytes past the last record keep
/// their content.
///
/// ```
/// # use tinplateau::*;
/// let (mut out, mut work, mut records) = ([0; 2], [0; sample_work(2)], [0; step_bytes(2, 1)]);
/// sample_steps(2, 1, 17, &[1, 0], &[1, 1], &[5, 3, 10, 16], &mut out, &mut work, &mut records)?;
/// // The last record: y bit 0 is bit 1, share 2, kind 5, an output share.
/// assert_eq!(records[step_bytes(2, 1) - 8..], [b'S', b'T', 1, 0, 2, 5, 11, 0]);
/// assert_eq!(out, [7, 11]);
/// # Ok::<(), Refusal>(())
/// ```
#[allow(clippy::too_many_arguments)]
pub fn sample_steps(
    n: usize,
    k: usize,
    q: u16,
    x: &[u16],
    y: &[u16],
    words: &[u16],
    out: &mut [u16],
    work: &mut [u16],
    records: &mut [u8],
) -> Result<usize, Refusal> {
    answered(unsafe {
        ffi::tp_sample_steps(
            n,
            k,
            q,
            x.as_ptr(),
            x.len(),
            y.as_ptr(),
            y.len(),
            words.as_ptr(),
            words.len(),
            out.as_mut_ptr(),
            out.len(),
            work.as_mut_ptr(),
            work.len(),
            records.as_mut_ptr(),
            records.len(),
        )
    })
}

/// Samples a polynomial: m coefficients, each as [`sample`] makes it. Lists hold coefficient after coefficient: coefficient t, from 0, has the n
/// shares from position t * n on in x, y and output, and takes the W = [`sample_words`] words from position t * W on. Answers m * W, which is
/// [`polynomial_words`]. With words drawn evenly, each apart from all others and used once, any n - 1 shares of each coefficient, all taken
/// together, tell nothing of x and y. The first [`sample_work`] words of the work area are 0 afterwards.
///
/// Refuses, in this order, each for all coefficients before the next and with positions from the start of the whole list: `ShareCount`;
/// `StringLength`; `Modulus`, for q below 2k + 1; `CoefficientCount`; `XCount` and `YCount`, for a list of not exactly [`polynomial_shares`];
/// `XWidth` and `YWidth`, with the share's position; `WordCount`; `WordRange`, with the word's position; `OutputRoom`, for fewer than
/// [`polynomial_shares`] output words; `WorkRoom`. Words, output words and work words past those are neither read nor written.
#[allow(clippy::too_many_arguments)]
pub fn sample_polynomial(
    n: usize,
    k: usize,
    q: u16,
    m: usize,
    x: &[u16],
    y: &[u16],
    words: &[u16],
    out: &mut [u16],
    work: &mut [u16],
) -> Result<usize, Refusal> {
    answered(unsafe {
        ffi::tp_sample_polynomial(
            n,
            k,
            q,
            m,
            x.as_ptr(),
            x.len(),
            y.as_ptr(),
            y.len(),
            words.as_ptr(),
            words.len(),
            out.as_mut_ptr(),
            out.len(),
            work.as_mut_ptr(),
            work.len(),
        )
    })
}
