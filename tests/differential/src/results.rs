//! Results of both libraries in one form, to compare them.

use std::fmt::Debug;

use plain::{Refused, Seen};

pub trait Numbered {
    fn numbered(self) -> usize;
}

impl Numbered for Refused {
    fn numbered(self) -> usize {
        usize::from(self.0)
    }
}

impl Numbered for register::Refusal {
    fn numbered(self) -> usize {
        self.number()
    }
}

fn refused<R: Numbered>(refusal: R) -> String {
    format!("refused {}", refusal.numbered())
}

pub fn said<R: Numbered>(result: Result<usize, R>) -> String {
    result.map_or_else(refused, |reads| format!("reads {reads}"))
}

pub fn written<R: Numbered>(result: Result<usize, R>) -> String {
    result.map_or_else(refused, |bytes| format!("bytes {bytes}"))
}

/// The numbers of a forecast, or how many they are.
pub fn foretold<T: Debug, R: Numbered>(result: Result<T, R>) -> String {
    result.map_or_else(refused, |numbers| format!("numbers {numbers:?}"))
}

pub fn judged<R: Numbered>(result: Result<bool, R>) -> String {
    result.map_or_else(refused, |yes| if yes { "yes" } else { "no" }.to_string())
}

pub fn words(result: Result<register::Seen, register::Refusal>) -> String {
    match result {
        Err(refusal) => refused(refusal),
        Ok(seen) => {
            let kept: Vec<_> = seen.kept().iter().map(|kept| (kept.value, kept.number)).collect();
            format!("{:?} {kept:?}", seen.condition)
        }
    }
}

pub fn plain_words(result: Result<Seen, Refused>) -> String {
    match result {
        Err(refusal) => refused(refusal),
        Ok(seen) => {
            let kept = seen.kept[..seen.count].iter();
            let kept: Vec<_> = kept.map(|kept| (kept.value(), kept.number())).collect();
            format!("{:?} {kept:?}", seen.condition)
        }
    }
}

/// A condition and the number of stamped values kept, as both libraries name them.
pub fn shown<C: Debug, R: Numbered>(result: Result<(C, usize), R>) -> String {
    result.map_or_else(refused, |(condition, count)| format!("{condition:?} with {count}"))
}

/// The stamped values kept, as register.h packs them.
pub fn packed(seen: Seen) -> Vec<u8> {
    let kept = seen.kept[..seen.count].iter();
    let bytes = kept.flat_map(|kept| {
        let [_, value @ ..] = kept.value().to_be_bytes();
        [value[0], value[1], value[2], kept.number()]
    });
    bytes.collect()
}
