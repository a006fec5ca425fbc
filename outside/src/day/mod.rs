//! Day files: the files of a day, joined behind a table of their names and lengths. One is read, asked for its bodies, and
//! written.

mod body;
pub mod layout;
mod read;
mod write;

pub use body::day_body;
pub use read::day_read;
pub use write::day_write;
