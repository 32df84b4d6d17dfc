#![doc = include_str!("../README.md")]
#![deny(missing_docs)]

pub mod ffi;
mod refusal;
mod sampling;
mod sizes;

pub use refusal::{Reason, Refusal};
pub use sampling::{sample, sample_polynomial, sample_steps};
pub use sizes::{bit_words, noise_bytes, noise_shares, polynomial_shares, polynomial_words, sample_words, sample_work};
pub use sizes::{step_bytes, step_records, text_room, value_words};
pub use sizes::{MAX_BITS, MAX_COEFFICIENTS, MAX_FILE, MAX_SHARES, MAX_WORDS, MIN_BITS, MIN_COEFFICIENTS, MIN_SHARES, REPORT_ROOM};

/// An opened string: its k bits, bit 0 the lowest.
///
/// It is not taken where a residue is asked for:
///
/// ```
/// let _ = tinplateau::centre(17, tinplateau::OpenedResidue(1));
/// ```
/// ```compile_fail,E0308
/// let _ = tinplateau::centre(17, tinplateau::OpenedString(1));
/// ```
#[derive(Clone, Copy, Debug, PartialEq, Eq, Hash)]
pub struct OpenedString(pub u16);

/// An opened residue: a number below q.
///
/// It is not taken where a string is asked for, which is at three places:
///
/// ```
/// let _ = tinplateau::mask(2, 1, tinplateau::OpenedString(1), &[0], &mut [0; 2]);
/// let _ = tinplateau::weight_difference(1, tinplateau::OpenedString(1), tinplateau::OpenedString(1));
/// ```
/// ```compile_fail,E0308
/// let _ = tinplateau::mask(2, 1, tinplateau::OpenedResidue(1), &[0], &mut [0; 2]);
/// ```
/// ```compile_fail,E0308
/// let _ = tinplateau::weight_difference(1, tinplateau::OpenedResidue(1), tinplateau::OpenedString(1));
/// ```
/// ```compile_fail,E0308
/// let _ = tinplateau::weight_difference(1, tinplateau::OpenedString(1), tinplateau::OpenedResidue(1));
/// ```
#[derive(Clone, Copy, Debug, PartialEq, Eq, Hash)]
pub struct OpenedResidue(pub u16);

/// A parameter set.
#[derive(Clone, Copy, Debug, PartialEq, Eq, Hash)]
pub struct Parameters {
    /// The number of bits in a string.
    pub k: usize,
    /// The modulus.
    pub q: u16,
}

/// What was answered, or the refusal where the code is not 0.
fn judged<T>(code: u32, position: usize, value: T) -> Result<T, Refusal> {
    if code == 0 {
        return Ok(value);
    }
    let reason = Reason::from_number(code).unwrap_or_else(|| panic!("the library refuses with {code}, which is no number of its header"));
    Err(Refusal { reason, position })
}

fn answered(answer: ffi::tp_answer) -> Result<usize, Refusal> {
    judged(answer.code, answer.value, answer.value)
}

fn signed(answer: ffi::tp_signed) -> Result<i32, Refusal> {
    judged(answer.code, answer.position, answer.value)
}

fn bits(string: OpenedString) -> ffi::tp_string {
    ffi::tp_string { bits: string.0 }
}

// In each call below the lists are slices: they are there for their length, and a mutable one overlaps no other.

/// Makes n Boolean shares of a k-bit string out of n - 1 masks: the masks in their order, then the value XOR all of them. Answers n.
///
/// Refuses, in this order: `ShareCount`; `StringLength`; `ValueWidth`; `MaskCount`; `MaskWidth`, with the mask's position; `OutputRoom`, for
/// fewer than n output words. Output words past n keep their content.
pub fn mask(n: usize, k: usize, value: OpenedString, masks: &[u16], out: &mut [u16]) -> Result<usize, Refusal> {
    answered(unsafe { ffi::tp_mask(n, k, bits(value), masks.as_ptr(), masks.len(), out.as_mut_ptr(), out.len()) })
}

/// Opens a Boolean sharing: the XOR of its n shares.
///
/// Refuses, in this order: `ShareCount`; `StringLength`; `XCount`; `XWidth`, with the share's position.
pub fn open_string(n: usize, k: usize, shares: &[u16]) -> Result<OpenedString, Refusal> {
    let answer = unsafe { ffi::tp_open_string(n, k, shares.as_ptr(), shares.len()) };
    judged(answer.code, answer.position, OpenedString(answer.opened.bits))
}

/// Opens an arithmetic sharing: the sum of its n shares modulo q.
///
/// Refuses, in this order: `ShareCount`; `Modulus`, for q below 3; `ArithmeticCount`; `ArithmeticRange`, with the share's position.
pub fn open_residue(n: usize, q: u16, shares: &[u16]) -> Result<OpenedResidue, Refusal> {
    let answer = unsafe { ffi::tp_open_residue(n, q, shares.as_ptr(), shares.len()) };
    judged(answer.code, answer.position, OpenedResidue(answer.opened.value))
}

/// The centred value of a residue r: r where 2r is at most q, else r - q.
///
/// Refuses, in this order: `Modulus`, for q below 3; `ResidueRange`.
pub fn centre(q: u16, r: OpenedResidue) -> Result<i32, Refusal> {
    signed(unsafe { ffi::tp_centred(q, ffi::tp_residue { value: r.0 }) })
}

/// The count of one bits in x less that in y.
///
/// Refuses, in this order: `StringLength`; `ValueWidth`, with position 0 for x and 1 for y.
pub fn weight_difference(k: usize, x: OpenedString, y: OpenedString) -> Result<i32, Refusal> {
    signed(unsafe { ffi::tp_weight_difference(k, bits(x), bits(y)) })
}

/// A published parameter set: 1 and 2 ML-KEM, 3 and 4 NewHope, 5 to 7 the Saber family.
///
/// Refuses another number: `SetNumber`.
pub fn parameter_set(number: usize) -> Result<Parameters, Refusal> {
    let answer = unsafe { ffi::tp_parameter_set(number) };
    judged(answer.code, 0, Parameters { k: answer.k, q: answer.q })
}

/// Converts a shared bit to n shares modulo q, with the [`bit_words`] words from position start on. Answers the position behind them, where
/// the next call may start. With words drawn evenly, each apart from all others and used once, no n - 1 of the shares tell anything of the bit.
///
/// Refuses, in this order: `ShareCount`; `Modulus`, for q below 3; `XCount`; `XWidth`, for a share that is not 0 or 1, with its position;
/// `WordCount`, for fewer words than start plus those taken, which does not overflow; `WordRange`, for one of those taken, with its position
/// from the front of the list; `OutputRoom`, for fewer than n output words. Words before start, and words and output words past those, are
/// neither read nor written.
pub fn convert_bit(n: usize, q: u16, bits: &[u16], words: &[u16], start: usize, out: &mut [u16]) -> Result<usize, Refusal> {
    answered(unsafe { ffi::tp_convert_bit(n, q, bits.as_ptr(), bits.len(), words.as_ptr(), words.len(), start, out.as_mut_ptr(), out.len()) })
}

/// Converts a shared string of k bits to n shares modulo q whose residue is the string's number modulo q, with the first [`value_words`] words.
/// Bit i takes the next [`bit_words`], bits from 0 up, and counts 2 to the power i times. Answers how many words it takes. With words drawn
/// evenly, each apart from all others and used once, no n - 1 of the shares tell anything of the string. q may be smaller than the string's
/// number.
///
/// Refuses, in this order: `ShareCount`; `StringLength`; `Modulus`, for q below 3; `XCount`; `XWidth`, with the share's position; `WordCount`;
/// `WordRange`, for one of the words taken, with its position; `OutputRoom`, for fewer than n output words. Words and output words past those
/// are neither read nor written.
pub fn convert_value(n: usize, k: usize, q: u16, shares: &[u16], words: &[u16], out: &mut [u16]) -> Result<usize, Refusal> {
    answered(unsafe {
        ffi::tp_convert_value(n, k, q, shares.as_ptr(), shares.len(), words.as_ptr(), words.len(), out.as_mut_ptr(), out.len())
    })
}

/// Splits shared ML-KEM noise into the x and y shares of 256 coefficients, as [`sample_polynomial`] takes them with m = 256 and the k and q of the
/// set, which is 1 or 2 ([`parameter_set`]). The bytes are n strings of 64 * k, one behind the other, whose XOR is what FIPS 203 gives to
/// SamplePolyCBD. Share i of coefficient t, from 0, goes to position t * n + i of x and of y, and is read off string i: bit j of x is bit
/// 2tk + j of the string, and bit j of y is bit 2tk + k + j, the lowest bit of each byte first. The polynomial's coefficient t, opened, is then
/// f\[t\] of SamplePolyCBD. Answers [`noise_shares`], the words written to each list. Takes no random words.
///
/// Refuses, in this order: `ShareCount`; `SetNumber`; `NoiseSet`, for a set that is not 1 or 2; `NoiseLength`, for not exactly [`noise_bytes`];
/// `OutputRoom`, for fewer than [`noise_shares`] words in x or in y. Words past those keep their content.
///
/// ```
/// # use tinplateau::*;
/// let Parameters { k, q } = parameter_set(1)?;
/// // Noise of which every byte is 0x6c, in two shares: its bits are 00 11 01 10, the lowest first.
/// let bytes = [[0x5a; 128], [0x36; 128]].concat();
/// let (mut x, mut y) = ([0; noise_shares(2)], [0; noise_shares(2)]);
/// assert_eq!(split_noise(2, 1, &bytes, &mut x, &mut y)?, noise_shares(2));
/// // A caller draws these.
/// let words = [0; polynomial_words(2, 2, 256)];
/// let (mut out, mut work) = ([0; polynomial_shares(2, 256)], [0; sample_work(2)]);
/// sample_polynomial(2, k, q, 256, &x, &y, &words, &mut out, &mut work)?;
/// assert_eq!(centre(q, open_residue(2, q, &out[..2])?)?, -2);
/// assert_eq!(centre(q, open_residue(2, q, &out[2..4])?)?, 0);
/// # Ok::<(), Refusal>(())
/// ```
pub fn split_noise(n: usize, set: usize, bytes: &[u8], x: &mut [u16], y: &mut [u16]) -> Result<usize, Refusal> {
    answered(unsafe { ffi::tp_split_noise(n, set, bytes.as_ptr(), bytes.len(), x.as_mut_ptr(), x.len(), y.as_mut_ptr(), y.len()) })
}

/// Writes the text of a lesson file, as the lesson program prints it, in front of the text buffer. Answers its length in bytes. What is wrong
/// with the file is said in the text. The words of each sample whose records are whole, also of one that is then refused, fill the word
/// buffer from the front; words past them keep their content.
///
/// Refuses, in this order: `WordCount`, for a word buffer of fewer than [`MAX_WORDS`] words; `OutputRoom`, for a text buffer of fewer than
/// [`text_room`] bytes. Text bytes past the text keep their content.
pub fn lesson_text(file: &[u8], words: &mut [u16], text: &mut [u8]) -> Result<usize, Refusal> {
    answered(unsafe { ffi::tp_lesson_text(file.as_ptr(), file.len(), words.as_mut_ptr(), words.len(), text.as_mut_ptr(), text.len()) })
}

/// Writes the class report of a lesson file, as the report program prints it, in front of the text buffer. Answers its length in bytes. There is
/// a line for each centred sample that occurs, from lowest to highest: the sample and how many times it came; where all samples share one k,
/// also the number of pairs of k-bit strings with that difference of weights, and 4 to the power k. The last line has the sum of the samples,
/// the sum of their squares and their number. Where something is wrong with the file, the text is the lesson program's refusal line alone. The
/// word buffer is afterwards as [`lesson_text`] leaves it.
///
/// Refuses, in this order: `WordCount`, for a word buffer of fewer than [`MAX_WORDS`] words; `OutputRoom`, for a text buffer of fewer than
/// [`REPORT_ROOM`] bytes, whatever the file. Text bytes past the text keep their content.
pub fn report_text(file: &[u8], words: &mut [u16], text: &mut [u8]) -> Result<usize, Refusal> {
    answered(unsafe { ffi::tp_report_text(file.as_ptr(), file.len(), words.as_mut_ptr(), words.len(), text.as_mut_ptr(), text.len()) })
}
