//! The sizes that a caller needs.

/// The least number of shares.
pub const MIN_SHARES: usize = 2;

/// The greatest number of shares.
pub const MAX_SHARES: usize = 8;

/// The least number of bits in a string.
pub const MIN_BITS: usize = 1;

/// The greatest number of bits in a string.
pub const MAX_BITS: usize = 16;

/// The least number of coefficients in a polynomial.
pub const MIN_COEFFICIENTS: usize = 1;

/// The greatest number of coefficients in a polynomial.
pub const MAX_COEFFICIENTS: usize = 256;

/// The most random words that a sample takes, and the length of the word buffer of [`lesson_text`](crate::lesson_text) and
/// [`report_text`](crate::report_text).
pub const MAX_WORDS: usize = 1_792;

/// The most bytes of a lesson file.
pub const MAX_FILE: usize = 60_000;

/// The bytes that the text buffer of [`report_text`](crate::report_text) must have for every file.
pub const REPORT_ROOM: usize = 1_200;

/// The random words that [`convert_bit`](crate::convert_bit) takes: n(n - 1). This and the next nine saturate.
pub const fn bit_words(n: usize) -> usize {
    n.saturating_mul(n.saturating_sub(1))
}

/// The random words that [`convert_value`](crate::convert_value) takes: kn(n - 1).
pub const fn value_words(n: usize, k: usize) -> usize {
    k.saturating_mul(bit_words(n))
}

/// The random words that [`sample`](crate::sample) takes: 2kn(n - 1).
pub const fn sample_words(n: usize, k: usize) -> usize {
    k.saturating_mul(2).saturating_mul(bit_words(n))
}

/// The words of work area that [`sample`](crate::sample) takes, and [`sample_polynomial`](crate::sample_polynomial) too: n.
pub const fn sample_work(n: usize) -> usize {
    n
}

/// The step records that [`sample_steps`](crate::sample_steps) writes: 2k(5n(n + 1)/2 - 3), and none for n = 0.
pub const fn step_records(n: usize, k: usize) -> usize {
    let bit = (n.saturating_mul(n.saturating_add(1)) / 2).saturating_mul(5);
    k.saturating_mul(2).saturating_mul(bit.saturating_sub(3))
}

/// The bytes of these records, eight each.
pub const fn step_bytes(n: usize, k: usize) -> usize {
    step_records(n, k).saturating_mul(8)
}

/// The shares of x, of y and of output in [`sample_polynomial`](crate::sample_polynomial): mn each.
pub const fn polynomial_shares(n: usize, m: usize) -> usize {
    m.saturating_mul(n)
}

/// The random words that [`sample_polynomial`](crate::sample_polynomial) takes: 2mkn(n - 1).
pub const fn polynomial_words(n: usize, k: usize, m: usize) -> usize {
    m.saturating_mul(sample_words(n, k))
}

/// The bytes that [`split_noise`](crate::split_noise) takes with the k of its set: n strings of 64 * k.
pub const fn noise_bytes(n: usize, k: usize) -> usize {
    k.saturating_mul(64).saturating_mul(n)
}

/// The shares that [`split_noise`](crate::split_noise) writes to x and to y: 256n each.
pub const fn noise_shares(n: usize) -> usize {
    n.saturating_mul(256)
}

/// The bytes that the text buffer of [`lesson_text`](crate::lesson_text) must have for a file of so many.
pub const fn text_room(file_len: usize) -> usize {
    if file_len > MAX_FILE {
        45
    } else {
        3 * file_len + 45
    }
}
