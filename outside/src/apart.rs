//! Taking a request file apart.  Order: 1, then as reading, then 8.

use crate::layout::Kind;
use crate::model::Answer;
use crate::read::open;

/// Stores the bodies of a request file one behind the other and says how long
/// they are together, or refuses and leaves the memory as it was.
pub fn apart(kind: u32, file: &[u8], bodies: &mut [u8]) -> (Answer, u64) {
    match all_bodies(kind, file, bodies.len()) {
        Ok(all) => {
            bodies[..all.len()].copy_from_slice(&all);
            (Answer::accepted(), all.len() as u64)
        }
        Err(answer) => (answer, 0),
    }
}

fn all_bodies(kind: u32, file: &[u8], room: usize) -> Result<Vec<u8>, Answer> {
    if !Kind::known(kind).is_some_and(Kind::is_request) {
        return Err(Answer::without_place(1));
    }
    let mut all = Vec::new();
    for record in open(kind, file)?.data {
        for item in 4..=record.items() {
            all.extend_from_slice(record.item(item));
        }
    }
    if room < all.len() {
        return Err(Answer::without_place(8));
    }
    Ok(all)
}
