//! Where one body lies in a day file; on a file not accepted it answers as the reader.

use super::read::{open, Day};
use crate::model::{DayAnswer, DayBody};

/// A body, which counts from 1.
pub fn day_body(file: &[u8], body: u64) -> (DayAnswer, DayBody) {
    match open(file) {
        Ok(day) => (DayAnswer::accepted(), asked(&day, body).unwrap_or(DayBody::NoBody)),
        Err(answer) => (answer, DayBody::None),
    }
}

/// Body 1 to n, else none.
fn asked(Day { form, bodies }: &Day, body: u64) -> Option<DayBody> {
    let before = usize::try_from(body.checked_sub(1)?).ok()?;
    let asked = bodies.get(before)?;
    let earlier: usize = bodies[..before].iter().map(|body| body.bytes.len()).sum();
    Some(DayBody::Body {
        name: asked.name.try_into().ok()?,
        start: (form.bodies_start(bodies.len()) + earlier) as u64,
        length: asked.bytes.len() as u64,
    })
}
