//! The C interface, as `tinplateau.h` declares it. The header says of each function what it answers, refuses and leaves unchanged.
//!
//! Each list is a pointer and its number of elements; with 0 elements the pointer is not used. The caller of a function sees to it that
//! each list is there, and that one behind a `*mut` may be written and overlaps no other list of the call.

#![allow(non_camel_case_types)]

use std::mem::{align_of, size_of, transmute};

/// The answer of a call that answers a count, or the position behind its last word.
#[repr(C)]
#[derive(Clone, Copy, Debug, PartialEq, Eq)]
pub struct tp_answer {
    /// 0, or the number of a refusal.
    pub code: u32,
    /// What is answered, or the position in a refusal.
    pub value: usize,
}

/// An opened string.
#[repr(C)]
#[derive(Clone, Copy, Debug, PartialEq, Eq)]
pub struct tp_string {
    /// Its bits, bit 0 the lowest.
    pub bits: u16,
}

/// An opened residue.
#[repr(C)]
#[derive(Clone, Copy, Debug, PartialEq, Eq)]
pub struct tp_residue {
    /// A number below q.
    pub value: u16,
}

/// The answer of `tp_open_string`.
#[repr(C)]
#[derive(Clone, Copy, Debug, PartialEq, Eq)]
pub struct tp_opened_string {
    /// 0, or the number of a refusal.
    pub code: u32,
    /// The position in a refusal.
    pub position: usize,
    /// What was opened, or 0.
    pub opened: tp_string,
}

/// The answer of `tp_open_residue`.
#[repr(C)]
#[derive(Clone, Copy, Debug, PartialEq, Eq)]
pub struct tp_opened_residue {
    /// 0, or the number of a refusal.
    pub code: u32,
    /// The position in a refusal.
    pub position: usize,
    /// What was opened, or 0.
    pub opened: tp_residue,
}

/// The answer of a call that answers a signed number.
#[repr(C)]
#[derive(Clone, Copy, Debug, PartialEq, Eq)]
pub struct tp_signed {
    /// 0, or the number of a refusal.
    pub code: u32,
    /// The position in a refusal.
    pub position: usize,
    /// The number, or 0.
    pub value: i32,
}

/// The answer of `tp_parameter_set`.
#[repr(C)]
#[derive(Clone, Copy, Debug, PartialEq, Eq)]
pub struct tp_parameters {
    /// 0, or the number of a refusal.
    pub code: u32,
    /// The number of bits in a string, or 0.
    pub k: usize,
    /// The modulus, or 0.
    pub q: u16,
}

/// Does not compile where a struct has another size or alignment, or other fields, types or offsets, than C's on x86-64. In a struct whose
/// bytes ascend from 0, the first byte of a field is its offset.
macro_rules! layout {
    ($name:ident, size $size:literal, alignment $alignment:literal, $($field:ident $(.$inner:ident)?: $type:ty, at $offset:literal;)+) => {
        const _: () = {
            assert!(size_of::<$name>() == $size && align_of::<$name>() == $alignment);
            let mut ascending = [0u8; $size];
            let mut i = 1;
            while i < $size {
                ascending[i] = i as u8;
                i += 1;
            }
            // Every field is a number or a struct of one number, so any bytes will do.
            let $name { $($field),+ } = unsafe { transmute::<[u8; $size], $name>(ascending) };
            $(assert!(<$type>::to_ne_bytes($field $(.$inner)?)[0] == $offset);)+
        };
    };
}

layout!(tp_answer, size 16, alignment 8, code: u32, at 0; value: usize, at 8;);
layout!(tp_string, size 2, alignment 2, bits: u16, at 0;);
layout!(tp_residue, size 2, alignment 2, value: u16, at 0;);
layout!(tp_opened_string, size 24, alignment 8, code: u32, at 0; position: usize, at 8; opened.bits: u16, at 16;);
layout!(tp_opened_residue, size 24, alignment 8, code: u32, at 0; position: usize, at 8; opened.value: u16, at 16;);
layout!(tp_signed, size 24, alignment 8, code: u32, at 0; position: usize, at 8; value: i32, at 16;);
layout!(tp_parameters, size 24, alignment 8, code: u32, at 0; k: usize, at 8; q: u16, at 16;);

extern "C" {
    /// Makes n Boolean shares of a k-bit string.
    pub fn tp_mask(n: usize, k: usize, value: tp_string, masks: *const u16, masks_len: usize, out: *mut u16, out_len: usize) -> tp_answer;

    /// Opens a Boolean sharing.
    pub fn tp_open_string(n: usize, k: usize, shares: *const u16, shares_len: usize) -> tp_opened_string;

    /// Opens an arithmetic sharing.
    pub fn tp_open_residue(n: usize, q: u16, shares: *const u16, shares_len: usize) -> tp_opened_residue;

    /// The centred value of a residue.
    pub fn tp_centred(q: u16, r: tp_residue) -> tp_signed;

    /// The count of one bits in x less that in y.
    pub fn tp_weight_difference(k: usize, x: tp_string, y: tp_string) -> tp_signed;

    /// k and q of a published parameter set.
    pub fn tp_parameter_set(number: usize) -> tp_parameters;

    /// Converts a shared bit to n shares modulo q.
    pub fn tp_convert_bit(
        n: usize,
        q: u16,
        bits: *const u16,
        bits_len: usize,
        words: *const u16,
        words_len: usize,
        start: usize,
        out: *mut u16,
        out_len: usize,
    ) -> tp_answer;

    /// Converts a shared string of k bits to n shares modulo q of its number.
    pub fn tp_convert_value(
        n: usize,
        k: usize,
        q: u16,
        shares: *const u16,
        shares_len: usize,
        words: *const u16,
        words_len: usize,
        out: *mut u16,
        out_len: usize,
    ) -> tp_answer;

    /// Samples: n shares modulo q of the weight of x less the weight of y.
    pub fn tp_sample(
        n: usize,
        k: usize,
        q: u16,
        x: *const u16,
        x_len: usize,
        y: *const u16,
        y_len: usize,
        words: *const u16,
        words_len: usize,
        start: usize,
        out: *mut u16,
        out_len: usize,
        work: *mut u16,
        work_len: usize,
    ) -> tp_answer;

    /// Samples, and writes a record of every step.
    pub fn tp_sample_steps(
        n: usize,
        k: usize,
        q: u16,
        x: *const u16,
        x_len: usize,
        y: *const u16,
        y_len: usize,
        words: *const u16,
        words_len: usize,
        out: *mut u16,
        out_len: usize,
        work: *mut u16,
        work_len: usize,
        records: *mut u8,
        records_len: usize,
    ) -> tp_answer;

    /// Samples a polynomial: m coefficients, each a sample.
    pub fn tp_sample_polynomial(
        n: usize,
        k: usize,
        q: u16,
        m: usize,
        x: *const u16,
        x_len: usize,
        y: *const u16,
        y_len: usize,
        words: *const u16,
        words_len: usize,
        out: *mut u16,
        out_len: usize,
        work: *mut u16,
        work_len: usize,
    ) -> tp_answer;

    /// Splits shared ML-KEM noise into the shares of 256 coefficients.
    pub fn tp_split_noise(
        n: usize,
        set: usize,
        bytes: *const u8,
        bytes_len: usize,
        x: *mut u16,
        x_len: usize,
        y: *mut u16,
        y_len: usize,
    ) -> tp_answer;

    /// Writes the text of a lesson file.
    pub fn tp_lesson_text(file: *const u8, file_len: usize, words: *mut u16, words_len: usize, text: *mut u8, text_len: usize) -> tp_answer;

    /// Writes the class report of a lesson file.
    pub fn tp_report_text(file: *const u8, file_len: usize, words: *mut u16, words_len: usize, text: *mut u8, text_len: usize) -> tp_answer;
}
