//! Plans of both forms for the differential tests and the measurements, made in the process that
//! uses them.

#![forbid(unsafe_code)]

mod accepted;
mod bent;
mod damaged;
mod form;
mod lists;
mod parts;
mod random;

pub use accepted::{accepted, Size};
pub use bent::some_lists;
pub use damaged::damaged;
pub use form::Form;
pub use lists::Lists;
pub use parts::{Forgery, Operation, Parts};
pub use random::Random;
