//! Change request R-13, filing order must not matter: schemas without repeats,
//! copies of them that are filed anew, and a form that tells such copies
//! from other schemas.

mod copy;
mod form;
mod releases;
mod repeats;

pub use copy::refiled;
pub use form::{form, Form};
pub use releases::{filed_pair, unrepeated_releases};
pub use repeats::repeat;
