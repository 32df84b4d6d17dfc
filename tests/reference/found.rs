//! What the library makes of a call, through the C functions and through the safe layer of the Rust bindings. The bindings only call: what
//! is expected uses no size, number or constant of theirs.

use crate::call::{counted, judged, Answer, Call, Function, Outcome};
use crate::calls::Verdict;
use crate::lent::Lent;
use crate::text::Text;
use tinplateau::ffi::*;
use tinplateau::{OpenedResidue, OpenedString, Refusal};

/// What a call goes through.
#[derive(Clone, Copy, Debug, PartialEq, Eq)]
pub enum Layer {
    /// The C functions. The pointer of an empty list is null if so said.
    C { null: bool },
    /// The functions over slices.
    Slices,
}

impl Layer {
    /// A list as it is lent there.
    fn lent<T: Copy + TryFrom<u64> + Into<u64>>(self, list: &[u64]) -> Lent<T> {
        Lent::new(list, self == Layer::C { null: true })
    }
}

fn answer(code: u32, place: usize, value: i64) -> Answer {
    Answer { code: code as u64, place: place as u64, value }
}

impl From<tp_answer> for Answer {
    fn from(found: tp_answer) -> Answer {
        answer(found.code, found.value, 0)
    }
}

impl From<tp_opened_string> for Answer {
    fn from(found: tp_opened_string) -> Answer {
        answer(found.code, found.position, found.opened.bits as i64)
    }
}

impl From<tp_opened_residue> for Answer {
    fn from(found: tp_opened_residue) -> Answer {
        answer(found.code, found.position, found.opened.value as i64)
    }
}

impl From<tp_signed> for Answer {
    fn from(found: tp_signed) -> Answer {
        answer(found.code, found.position, found.value as i64)
    }
}

impl From<tp_parameters> for Answer {
    fn from(found: tp_parameters) -> Answer {
        answer(found.code, found.k, found.q as i64)
    }
}

fn bits(string: u64) -> tp_string {
    tp_string { bits: string as u16 }
}

fn string(bits: u64) -> OpenedString {
    OpenedString(bits as u16)
}

/// A refusal of the safe layer as number and place.
fn verdict<T>(result: Result<T, Refusal>) -> Verdict<T> {
    result.map_err(|refusal| (refusal.reason.number() as u64, refusal.position))
}

fn count(result: Result<usize, Refusal>) -> Answer {
    counted(verdict(result).map(|count| count as u64))
}

fn signed(result: Result<i32, Refusal>) -> Answer {
    judged(verdict(result), |value| (0, value as i64))
}

impl Call {
    /// How it ends through the layer.
    pub fn found(&self, layer: Layer) -> Outcome {
        if let Some(text) = self.function.text() {
            return self.text_of_file(text, layer);
        }
        match self.function {
            Function::SplitNoise => return self.split_of_noise(layer),
            Function::SampleSteps => return self.steps_of_sample(layer),
            _ => (),
        }
        let mut lent: Vec<Lent<u16>> = self.lists.iter().map(|list| layer.lent(list)).collect();
        let answer = match layer {
            Layer::C { .. } => self.through_c(&mut lent),
            Layer::Slices => self.through_slices(&mut lent),
        };
        Outcome { answer, guarded: lent.into_iter().map(Lent::whole).collect() }
    }

    fn through_c(&self, lent: &mut [Lent<u16>]) -> Answer {
        // Every list is readable and writable for its length, and they do not overlap.
        unsafe {
            match (self.function, &self.numbers[..], lent) {
                (Function::Mask, &[n, k, value], [masks, out]) => {
                    tp_mask(n as usize, k as usize, bits(value), masks.start(), masks.len(), out.start(), out.len()).into()
                }
                (Function::OpenString, &[n, k], [shares]) => tp_open_string(n as usize, k as usize, shares.start(), shares.len()).into(),
                (Function::OpenResidue, &[n, q], [shares]) => tp_open_residue(n as usize, q as u16, shares.start(), shares.len()).into(),
                (Function::Centred, &[q, r], []) => tp_centred(q as u16, tp_residue { value: r as u16 }).into(),
                (Function::WeightDifference, &[k, x, y], []) => tp_weight_difference(k as usize, bits(x), bits(y)).into(),
                (Function::ParameterSet, &[number], []) => tp_parameter_set(number as usize).into(),
                (Function::ConvertBit, &[n, q, start], [bits, words, out]) => {
                    let [bits, words, out] = [bits, words, out].map(|list| (list.start(), list.len()));
                    tp_convert_bit(n as usize, q as u16, bits.0, bits.1, words.0, words.1, start as usize, out.0, out.1).into()
                }
                (Function::ConvertValue, &[n, k, q], [shares, words, out]) => {
                    let [shares, words, out] = [shares, words, out].map(|list| (list.start(), list.len()));
                    tp_convert_value(n as usize, k as usize, q as u16, shares.0, shares.1, words.0, words.1, out.0, out.1).into()
                }
                (Function::Sample | Function::SamplePolynomial, &[n, k, q, start_or_m], [x, y, words, out, work]) => {
                    let [x, y, words, out, work] = [x, y, words, out, work].map(|list| (list.start(), list.len()));
                    let (n, k, q, start_or_m) = (n as usize, k as usize, q as u16, start_or_m as usize);
                    if self.function == Function::Sample {
                        tp_sample(n, k, q, x.0, x.1, y.0, y.1, words.0, words.1, start_or_m, out.0, out.1, work.0, work.1).into()
                    } else {
                        tp_sample_polynomial(n, k, q, start_or_m, x.0, x.1, y.0, y.1, words.0, words.1, out.0, out.1, work.0, work.1).into()
                    }
                }
                _ => panic!("the inputs of another function"),
            }
        }
    }

    fn through_slices(&self, lent: &mut [Lent<u16>]) -> Answer {
        match (self.function, &self.numbers[..], lent) {
            (Function::Mask, &[n, k, value], [masks, out]) => {
                count(tinplateau::mask(n as usize, k as usize, string(value), masks.list(), out.list_mut()))
            }
            (Function::OpenString, &[n, k], [shares]) => {
                judged(verdict(tinplateau::open_string(n as usize, k as usize, shares.list())), |opened| (0, opened.0 as i64))
            }
            (Function::OpenResidue, &[n, q], [shares]) => {
                judged(verdict(tinplateau::open_residue(n as usize, q as u16, shares.list())), |opened| (0, opened.0 as i64))
            }
            (Function::Centred, &[q, r], []) => signed(tinplateau::centre(q as u16, OpenedResidue(r as u16))),
            (Function::WeightDifference, &[k, x, y], []) => signed(tinplateau::weight_difference(k as usize, string(x), string(y))),
            (Function::ParameterSet, &[number], []) => {
                judged(verdict(tinplateau::parameter_set(number as usize)), |set| (set.k as u64, set.q as i64))
            }
            (Function::ConvertBit, &[n, q, start], [bits, words, out]) => {
                count(tinplateau::convert_bit(n as usize, q as u16, bits.list(), words.list(), start as usize, out.list_mut()))
            }
            (Function::ConvertValue, &[n, k, q], [shares, words, out]) => {
                count(tinplateau::convert_value(n as usize, k as usize, q as u16, shares.list(), words.list(), out.list_mut()))
            }
            (Function::Sample, &[n, k, q, start], [x, y, words, out, work]) => {
                let (n, k, q, start) = (n as usize, k as usize, q as u16, start as usize);
                count(tinplateau::sample(n, k, q, x.list(), y.list(), words.list(), start, out.list_mut(), work.list_mut()))
            }
            (Function::SamplePolynomial, &[n, k, q, m], [x, y, words, out, work]) => {
                let (n, k, q, m) = (n as usize, k as usize, q as u16, m as usize);
                count(tinplateau::sample_polynomial(n, k, q, m, x.list(), y.list(), words.list(), out.list_mut(), work.list_mut()))
            }
            _ => panic!("the inputs of another function"),
        }
    }

    fn split_of_noise(&self, layer: Layer) -> Outcome {
        let [n, set] = [0, 1].map(|number| self.numbers[number] as usize);
        let mut bytes: Lent<u8> = layer.lent(&self.lists[0]);
        let [mut x, mut y]: [Lent<u16>; 2] = [1, 2].map(|list| layer.lent(&self.lists[list]));
        let answer = match layer {
            // As above.
            Layer::C { .. } => unsafe { tp_split_noise(n, set, bytes.start(), bytes.len(), x.start(), x.len(), y.start(), y.len()).into() },
            Layer::Slices => count(tinplateau::split_noise(n, set, bytes.list(), x.list_mut(), y.list_mut())),
        };
        Outcome { answer, guarded: vec![bytes.whole(), x.whole(), y.whole()] }
    }

    fn steps_of_sample(&self, layer: Layer) -> Outcome {
        let [n, k, q] = [0, 1, 2].map(|number| self.numbers[number] as usize);
        let [mut x, mut y, mut words, mut out, mut work]: [Lent<u16>; 5] = [0, 1, 2, 3, 4].map(|list| layer.lent(&self.lists[list]));
        let mut records: Lent<u8> = layer.lent(&self.lists[5]);
        let answer = match layer {
            Layer::C { .. } => {
                let [x, y, words, out, work] = [&mut x, &mut y, &mut words, &mut out, &mut work].map(|list| (list.start(), list.len()));
                let (q, records) = (q as u16, (records.start(), records.len()));
                // As above.
                unsafe { tp_sample_steps(n, k, q, x.0, x.1, y.0, y.1, words.0, words.1, out.0, out.1, work.0, work.1, records.0, records.1).into() }
            }
            Layer::Slices => {
                let (out, work, records) = (out.list_mut(), work.list_mut(), records.list_mut());
                count(tinplateau::sample_steps(n, k, q as u16, x.list(), y.list(), words.list(), out, work, records))
            }
        };
        let words = [x, y, words, out, work].map(Lent::whole);
        Outcome { answer, guarded: words.into_iter().chain([records.whole()]).collect() }
    }

    fn text_of_file(&self, text: Text, layer: Layer) -> Outcome {
        let (mut file, mut out): (Lent<u8>, Lent<u8>) = (layer.lent(&self.lists[0]), layer.lent(&self.lists[2]));
        let mut words: Lent<u16> = layer.lent(&self.lists[1]);
        let answer = match layer {
            Layer::C { .. } => {
                let call = if text == Text::Lesson { tp_lesson_text } else { tp_report_text };
                // As above.
                unsafe { call(file.start(), file.len(), words.start(), words.len(), out.start(), out.len()).into() }
            }
            Layer::Slices => {
                let call = if text == Text::Lesson { tinplateau::lesson_text } else { tinplateau::report_text };
                count(call(file.list(), words.list_mut(), out.list_mut()))
            }
        };
        Outcome { answer, guarded: vec![file.whole(), words.whole(), out.whole()] }
    }
}
