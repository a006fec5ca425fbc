//! Consent evidence, EI13: one file is read, asked for its parts, written, and compared with the enrolments of an EB13.

mod compare;
pub mod layout;
mod part;
mod read;
mod write;

pub use compare::evidence_compare;
pub use part::evidence_part;
pub use read::evidence_read;
pub use write::evidence_write;
