//! `outside`: an independent reference for the rules, in ordinary Rust.
//!
//! Written from the rules, the layout papers and the C face alone, so that it
//! can be compared with the proved library.  It shares no table and no helper
//! with that library.
//!
//! The reference, of which every function takes any bytes and any numbers, and
//! none panics:
//!
//! * [`model`]: what the treasurer is told: [`Answer`], [`Outcome`] with its [`Maker`], [`Step`],
//!   [`EvidencePart`], [`DayAnswer`], [`DayBody`], [`Compared`];
//! * [`chars`]: characters, numbers and dates;
//! * `checked`: one record against its rules, item by item;
//! * [`layout`]: file kinds, pair kinds and their families, item lengths, least amounts, table codes;
//! * [`read`](mod@read): one file is read;
//! * [`write`](mod@write): one request file is written;
//! * [`apart`](mod@apart): one request file is taken apart;
//! * [`pair`](mod@pair): a request meets its result, and one request's outcome;
//! * [`walk`](mod@walk): record k + 1 of a file, or the end;
//! * [`post`](mod@post): the posting program's output;
//! * [`evidence`]: consent evidence is read, written, and compared with enrolments;
//! * [`day`]: a day file is read, asked for its bodies, and written;
//! * [`arrival`]: a file is read while it arrives, part by part;
//! * [`board`]: a debit pair is posted on the members' board;
//! * [`changes`]: an EB11 is answered with an EB12, and both halves of a change alike;
//! * [`two_results`](mod@two_results): two results of one debit request are compared;
//! * [`signed`]: whether bytes have the frame of signed data.
//!
//! For the comparison:
//!
//! * [`gen`]: a deterministic generator of inputs, good and bad;
//! * [`proved`]: the proved library, function by function of its C face;
//! * [`bridge`]: how it is called: by a program in C, which watches it;
//! * `linked`: the same library linked, to measure its time;
//! * [`coverage`]: every place and code that the rules can give, counted;
//! * [`coverage_day`]: the same for day files;
//! * [`shrink`](mod@shrink): a smaller file that shows the same difference;
//! * [`settings`]: seed and count, from the environment.

pub mod apart;
pub mod arrival;
pub mod board;
pub mod bridge;
pub mod changes;
pub mod chars;
mod checked;
pub mod coverage;
pub mod coverage_day;
pub mod day;
pub mod evidence;
pub mod gen;
pub mod layout;
pub mod linked;
pub mod model;
pub mod pair;
pub mod post;
pub mod proved;
pub mod read;
pub mod settings;
pub mod shrink;
pub mod signed;
pub mod two_results;
pub mod walk;
pub mod write;

pub use apart::apart;
pub use arrival::{end_at, part_at, Arrival};
pub use board::{board_post, Dates, Member};
pub use changes::write_eb12;
pub use day::{day_body, day_read, day_write};
pub use evidence::{evidence_compare, evidence_part, evidence_read, evidence_write};
pub use model::{
    eight, eight_of_day, eight_of_part, seven, six, ten_of_body, ten_of_outcome, Answer, Compared,
    DayAnswer, DayBody, EvidencePart, Maker, Outcome, Step,
};
pub use pair::{outcome, pair};
pub use post::{post, post_into};
pub use read::read;
pub use signed::is_signed;
pub use two_results::two_results;
pub use walk::walk;
pub use write::write;
