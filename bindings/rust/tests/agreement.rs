//! The sizes and numbers of this crate are those of the library that it calls.

use tinplateau::*;

/// A modulus that every k allows.
const Q: u16 = 3_329;

fn refused<T>(reason: Reason, position: usize) -> Result<T, Refusal> {
    Err(Refusal { reason, position })
}

/// Where calls start that must reach the end of the list.
const STARTS: [usize; 3] = [0, 1, 7];

/// Where no call can start, whatever the list.
const FAR_STARTS: [usize; 3] = [usize::MAX, usize::MAX - 1, usize::MAX / 2];

/// A list of words that are not below q up to the start, and then zeros.
fn words_from(start: usize, len: usize) -> Vec<u16> {
    (0..len).map(|position| if position < start { u16::MAX } else { 0 }).collect()
}

/// A sample of zeros with lists of these lengths.
fn sample_of(n: usize, k: usize, q: u16, words: usize, start: usize, out: usize, work: usize) -> Result<usize, Refusal> {
    let shares = vec![0; n];
    sample(n, k, q, &shares, &shares, &words_from(start, words), start, &mut vec![0; out], &mut vec![0; work])
}

/// A sample of zeros with step records, and lists of these lengths.
fn steps_of(n: usize, k: usize, q: u16, words: usize, out: usize, work: usize, records: usize) -> Result<usize, Refusal> {
    sample_steps(n, k, q, &vec![0; n], &vec![0; n], &vec![0; words], &mut vec![0; out], &mut vec![0; work], &mut vec![0; records])
}

/// A polynomial of zeros with lists of these lengths.
fn polynomial_of([n, k, m]: [usize; 3], shares: usize, words: usize, out: usize, work: usize) -> Result<usize, Refusal> {
    let zeros = vec![0; shares];
    sample_polynomial(n, k, Q, m, &zeros, &zeros, &vec![0; words], &mut vec![0; out], &mut vec![0; work])
}

/// A polynomial of zeros with lists of the lengths that the sizes name.
fn fitting_polynomial(n: usize, k: usize, m: usize) -> Result<usize, Refusal> {
    let shares = polynomial_shares(n, m);
    polynomial_of([n, k, m], shares, polynomial_words(n, k, m), shares, sample_work(n))
}

/// Noise of zeros split with lists of these lengths.
fn noise_of(n: usize, set: usize, bytes: usize, x: usize, y: usize) -> Result<usize, Refusal> {
    split_noise(n, set, &vec![0; bytes], &mut vec![0; x], &mut vec![0; y])
}

/// A converted bit 0 with lists of these lengths.
fn bit_of(n: usize, words: usize, start: usize, out: usize) -> Result<usize, Refusal> {
    convert_bit(n, Q, &vec![0; n], &words_from(start, words), start, &mut vec![0; out])
}

/// A converted string of zeros with lists of these lengths.
fn value_of(n: usize, k: usize, q: u16, words: usize, out: usize) -> Result<usize, Refusal> {
    convert_value(n, k, q, &vec![0; n], &vec![0; words], &mut vec![0; out])
}

/// A call that writes a text of a file.
type TextCall = fn(&[u8], &mut [u16], &mut [u8]) -> Result<usize, Refusal>;

/// What the call writes in a buffer of so many bytes.
fn text_of(call: TextCall, file: &[u8], room: usize) -> Result<String, Refusal> {
    let mut text = vec![0; room];
    let len = call(file, &mut [0; MAX_WORDS], &mut text)?;
    Ok(String::from_utf8(text[..len].to_vec()).expect("ASCII"))
}

#[test]
fn sample_sizes_are_exact() {
    for n in MIN_SHARES..=MAX_SHARES {
        for k in MIN_BITS..=MAX_BITS {
            let (words, work) = (sample_words(n, k), sample_work(n));
            for (q, start) in [2 * k as u16 + 1, Q, u16::MAX].into_iter().zip(STARTS) {
                let end = start + words;
                assert_eq!(sample_of(n, k, q, end, start, n, work), Ok(end));
                assert_eq!(sample_of(n, k, q, end - 1, start, n, work), refused(Reason::WordCount, 0));
                assert_eq!(sample_of(n, k, q, end, start, n - 1, work), refused(Reason::OutputRoom, 0));
                assert_eq!(sample_of(n, k, q, end, start, n, work - 1), refused(Reason::WorkRoom, 0));
            }
            for start in FAR_STARTS {
                assert_eq!(sample_of(n, k, Q, words, start, n, work), refused(Reason::WordCount, 0));
            }
        }
    }
}

#[test]
fn step_sizes_are_exact() {
    for n in MIN_SHARES..=MAX_SHARES {
        for k in MIN_BITS..=MAX_BITS {
            let (words, work, bytes) = (sample_words(n, k), sample_work(n), step_bytes(n, k));
            for q in [2 * k as u16 + 1, Q, u16::MAX] {
                assert_eq!((steps_of(n, k, q, words, n, work, bytes), bytes), (Ok(words), 8 * step_records(n, k)));
                assert_eq!(steps_of(n, k, q, words, n, work, bytes - 1), refused(Reason::RecordRoom, 0));
                assert_eq!(steps_of(n, k, q, words - 1, n, work, bytes), refused(Reason::WordCount, 0));
                assert_eq!(steps_of(n, k, q, words, n - 1, work, bytes), refused(Reason::OutputRoom, 0));
                assert_eq!(steps_of(n, k, q, words, n, work - 1, bytes - 1), refused(Reason::WorkRoom, 0));
            }
        }
    }
    assert_eq!([step_records(2, 1), step_records(3, 1), step_records(MAX_SHARES, MAX_BITS)], [24, 54, 5_664]);
}

#[test]
fn polynomial_sizes_are_exact() {
    for n in MIN_SHARES..=MAX_SHARES {
        for k in MIN_BITS..=MAX_BITS {
            for m in [MIN_COEFFICIENTS, 2, 1 + n * k] {
                let (size, shares, words, work) = ([n, k, m], polynomial_shares(n, m), polynomial_words(n, k, m), sample_work(n));
                assert_eq!(fitting_polynomial(n, k, m), Ok(words));
                assert_eq!(polynomial_of(size, shares - 1, words, shares, work), refused(Reason::XCount, 0));
                assert_eq!(polynomial_of(size, shares, words - 1, shares, work), refused(Reason::WordCount, 0));
                assert_eq!(polynomial_of(size, shares, words, shares - 1, work), refused(Reason::OutputRoom, 0));
                assert_eq!(polynomial_of(size, shares, words, shares, work - 1), refused(Reason::WorkRoom, 0));
            }
        }
    }
}

#[test]
fn noise_sizes_are_exact() {
    for set in [1, 2] {
        let Parameters { k, q } = parameter_set(set).expect("a set of ML-KEM");
        for n in MIN_SHARES..=MAX_SHARES {
            let (bytes, shares) = (noise_bytes(n, k), noise_shares(n));
            assert_eq!((q, shares), (Q, polynomial_shares(n, MAX_COEFFICIENTS)));
            assert_eq!(noise_of(n, set, bytes, shares, shares), Ok(shares));
            assert_eq!(noise_of(n, set, bytes, shares + 1, shares + 2), Ok(shares));
            for other in [0, bytes - 1, bytes + 1, noise_bytes(n, 5 - k)] {
                assert_eq!(noise_of(n, set, other, shares, shares), refused(Reason::NoiseLength, 0));
            }
            assert_eq!(noise_of(n, set, bytes, shares - 1, shares), refused(Reason::OutputRoom, 0));
            assert_eq!(noise_of(n, set, bytes, shares, shares - 1), refused(Reason::OutputRoom, 0));
        }
    }
}

#[test]
fn noise_has_two_sets() {
    let of_set = |set| noise_of(2, set, noise_bytes(2, 3), noise_shares(2), noise_shares(2));
    assert_eq!([of_set(1), of_set(2)], [refused(Reason::NoiseLength, 0), Ok(noise_shares(2))]);
    for set in 3..=7 {
        assert_eq!(of_set(set), refused(Reason::NoiseSet, 0));
    }
    for set in [0, 8, usize::MAX] {
        assert_eq!(of_set(set), refused(Reason::SetNumber, 0));
    }
}

#[test]
fn bit_sizes_are_exact() {
    for n in MIN_SHARES..=MAX_SHARES {
        for start in STARTS {
            let end = start + bit_words(n);
            assert_eq!(bit_of(n, end, start, n), Ok(end));
            assert_eq!(bit_of(n, end - 1, start, n), refused(Reason::WordCount, 0));
            assert_eq!(bit_of(n, end, start, n - 1), refused(Reason::OutputRoom, 0));
        }
        for start in FAR_STARTS {
            assert_eq!(bit_of(n, bit_words(n), start, n), refused(Reason::WordCount, 0));
        }
    }
}

#[test]
fn value_sizes_are_exact() {
    for n in MIN_SHARES..=MAX_SHARES {
        for k in MIN_BITS..=MAX_BITS {
            let words = value_words(n, k);
            for q in [3, Q, u16::MAX] {
                assert_eq!(value_of(n, k, q, words, n), Ok(words));
                assert_eq!(value_of(n, k, q, words + 1, n + 1), Ok(words));
                assert_eq!(value_of(n, k, q, words - 1, n), refused(Reason::WordCount, 0));
                assert_eq!(value_of(n, k, q, words, n - 1), refused(Reason::OutputRoom, 0));
            }
        }
    }
}

#[test]
fn sizes_of_unfit_numbers_do_not_overflow() {
    assert_eq!([value_words(0, 0), value_words(0, 1), value_words(2, 0)], [0; 3]);
    assert_eq!([value_words(usize::MAX, 1), value_words(2, usize::MAX), value_words(2, 1 << 63)], [usize::MAX; 3]);
    assert_eq!([bit_words(0), sample_words(0, 0), sample_work(0), step_records(0, 1), step_records(2, 0), step_bytes(0, 1)], [0; 6]);
    assert_eq!([bit_words(usize::MAX), sample_words(usize::MAX, 1), sample_work(usize::MAX)], [usize::MAX; 3]);
    assert_eq!([step_records(usize::MAX, 1), step_records(1 << 32, 1), step_records(2, usize::MAX), step_bytes(2, 1 << 57)], [usize::MAX; 4]);
    assert_eq!([polynomial_shares(0, 0), polynomial_words(0, 0, 0)], [0; 2]);
    assert_eq!([polynomial_shares(2, usize::MAX), polynomial_words(2, 1, usize::MAX)], [usize::MAX; 2]);
    assert_eq!([noise_bytes(0, 0), noise_bytes(2, 0), noise_bytes(0, 2), noise_shares(0)], [0; 4]);
    assert_eq!([noise_bytes(usize::MAX, 1), noise_bytes(1, usize::MAX), noise_shares(usize::MAX)], [usize::MAX; 3]);
    // 64 times these is above the largest number, and 256 times is too.
    assert_eq!([noise_bytes(1 << 58, 1), noise_bytes(1, 1 << 58), noise_shares(1 << 58)], [usize::MAX; 3]);
    assert_eq!(text_room(usize::MAX), 45);
}

#[test]
fn ranges_are_exact() {
    for n in [MIN_SHARES - 1, MAX_SHARES + 1] {
        assert_eq!(sample_of(n, 1, Q, sample_words(n, 1), 0, n, sample_work(n)), refused(Reason::ShareCount, 0));
        assert_eq!(value_of(n, 1, Q, value_words(n, 1), n), refused(Reason::ShareCount, 0));
        assert_eq!(noise_of(n, 1, noise_bytes(n, 2), noise_shares(n), noise_shares(n)), refused(Reason::ShareCount, 0));
    }
    for k in [MIN_BITS - 1, MAX_BITS + 1] {
        assert_eq!(sample_of(2, k, Q, sample_words(2, k), 0, 2, sample_work(2)), refused(Reason::StringLength, 0));
        assert_eq!(value_of(2, k, Q, value_words(2, k), 2), refused(Reason::StringLength, 0));
    }
    for m in [MIN_COEFFICIENTS - 1, MAX_COEFFICIENTS + 1] {
        assert_eq!(fitting_polynomial(2, 1, m), refused(Reason::CoefficientCount, 0));
    }
    for m in [MIN_COEFFICIENTS, MAX_COEFFICIENTS] {
        assert_eq!(fitting_polynomial(MAX_SHARES, MAX_BITS, m), Ok(m * MAX_WORDS));
    }
    assert_eq!(sample_words(MAX_SHARES, MAX_BITS), MAX_WORDS);
    assert_eq!(lesson_text(&[], &mut [0; MAX_WORDS - 1], &mut [0; 45]), refused(Reason::WordCount, 0));
    assert_eq!(report_text(&[], &mut [0; MAX_WORDS - 1], &mut [0; REPORT_ROOM]), refused(Reason::WordCount, 0));
}

#[test]
fn text_room_is_exact() {
    for len in [0, 1, 30, MAX_FILE - 1, MAX_FILE, MAX_FILE + 1, 2 * MAX_FILE] {
        let file = vec![0; len];
        for (call, room) in [(lesson_text as TextCall, text_room(len)), (report_text, REPORT_ROOM)] {
            assert!(text_of(call, &file, room).is_ok());
            assert_eq!(text_of(call, &file, room - 1), refused(Reason::OutputRoom, 0));
        }
    }
}

#[test]
fn every_reason_of_a_call_is_met() {
    let (mut out, mut work) = ([0; 2], [0; 2]);
    let mut sampled = |q, x: &[u16], y: &[u16], words: &[u16]| sample(2, 1, q, x, y, words, words.len() - 4, &mut out, &mut work).map(drop);
    let bits = [1, 0];
    let mut met = vec![
        (sampled(2, &bits, &bits, &[0; 4]), 3, Reason::Modulus, 0),
        (sampled(3, &[0; 3], &bits, &[0; 4]), 4, Reason::XCount, 0),
        (sampled(3, &bits, &[0; 3], &[0; 4]), 5, Reason::YCount, 0),
        (sampled(3, &[0, 2], &bits, &[0; 4]), 6, Reason::XWidth, 1),
        (sampled(3, &bits, &[0, 2], &[0; 4]), 7, Reason::YWidth, 1),
        (sampled(3, &bits, &bits, &[3, 3, 0, 0, 0, 3]), 9, Reason::WordRange, 5),
    ];
    met.extend([
        (sample_of(1, 1, 3, 4, 0, 2, 2).map(drop), 1, Reason::ShareCount, 0),
        (sample_of(2, 0, 3, 4, 0, 2, 2).map(drop), 2, Reason::StringLength, 0),
        (sample_of(2, 1, 3, 4, 1, 2, 2).map(drop), 8, Reason::WordCount, 0),
        (sample_of(2, 1, 3, 4, 0, 1, 2).map(drop), 10, Reason::OutputRoom, 0),
        (sample_of(2, 1, 3, 4, 0, 2, 1).map(drop), 11, Reason::WorkRoom, 0),
        (weight_difference(1, OpenedString(1), OpenedString(2)).map(drop), 12, Reason::ValueWidth, 1),
        (mask(3, 1, OpenedString(1), &[0; 3], &mut [0; 3]).map(drop), 13, Reason::MaskCount, 0),
        (mask(3, 1, OpenedString(1), &[0, 2], &mut [0; 3]).map(drop), 14, Reason::MaskWidth, 1),
        (open_residue(2, 3, &[0; 3]).map(drop), 15, Reason::ArithmeticCount, 0),
        (open_residue(2, 3, &[0, 3]).map(drop), 16, Reason::ArithmeticRange, 1),
        (centre(3, OpenedResidue(3)).map(drop), 17, Reason::ResidueRange, 0),
        (parameter_set(8).map(drop), 22, Reason::SetNumber, 0),
        (polynomial_of([2, 1, 0], 2, 4, 2, 2).map(drop), 23, Reason::CoefficientCount, 0),
        (noise_of(2, 3, 256, 512, 512).map(drop), 24, Reason::NoiseSet, 0),
        (noise_of(2, 1, 255, 512, 512).map(drop), 25, Reason::NoiseLength, 0),
        (steps_of(2, 1, 3, 4, 2, 2, 191).map(drop), 26, Reason::RecordRoom, 0),
    ]);
    for (found, number, reason, position) in &met {
        assert_eq!((*found, *number), (refused(*reason, *position), reason.number()));
    }
    assert_eq!(met.len(), 22);
}

#[test]
fn every_reason_of_a_file_is_met() {
    let many = [b"PM\x02\x01\x03\0XB\0\0\0\0YB\0\0\0\0RW".to_vec(), (MAX_WORDS as u16 + 1).to_le_bytes().to_vec()].concat();
    let most = [&many[..20], &(MAX_WORDS as u16).to_le_bytes()].concat();
    let files = [
        (b"XB".to_vec(), Reason::Mark, 18, 0),
        (b"P".to_vec(), Reason::CutShort, 19, 0),
        (most, Reason::CutShort, 19, 18),
        (many, Reason::WordLimit, 20, 18),
        (vec![0; MAX_FILE], Reason::Mark, 18, 0),
        (vec![0; MAX_FILE + 1], Reason::FileLength, 21, 0),
    ];
    for (file, reason, number, place) in files {
        let line = format!("refused {number} {place}\n");
        assert_eq!(text_of(lesson_text, &file, text_room(file.len())), Ok(format!("no n k q used sample shares\n{line}")));
        assert_eq!((text_of(report_text, &file, REPORT_ROOM), reason.number()), (Ok(line), number));
    }
}

#[test]
fn numbers_and_reasons_are_one_to_one() {
    for number in 1..=26 {
        assert_eq!(Reason::from_number(number).map(Reason::number), Some(number));
    }
    assert_eq!([0, 27, u32::MAX].map(Reason::from_number), [None; 3]);
}

#[test]
fn a_refusal_says_number_position_and_reason() {
    let refusal = Refusal { reason: Reason::WordRange, position: 2 };
    assert_eq!(refusal.to_string(), "refused with 9 at position 2: a random word is not below q");
}
