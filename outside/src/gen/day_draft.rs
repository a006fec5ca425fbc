//! A day file before it is put together.

use super::day_places::day_contents;
use super::texts::decimal;

/// The bodies of a day file, in their order.
#[derive(Clone, Debug, Default)]
pub struct DayDraft {
    pub bodies: Vec<NamedBody>,
}

/// A body, and the name that the contents give it.
#[derive(Clone, Debug)]
pub struct NamedBody {
    pub name: Vec<u8>,
    pub file: Vec<u8>,
}

impl DayDraft {
    /// What a file was put together from, where its contents have their form and say what is there.
    pub fn of(file: &[u8]) -> Option<DayDraft> {
        let bodies = day_contents(file)
            .into_iter()
            .map(|place| NamedBody { name: file[place.name].to_vec(), file: file[place.body].to_vec() });
        let day = DayDraft { bodies: bodies.collect() };
        (day.file() == file).then_some(day)
    }

    /// The whole file; it is good when the names and bodies are, and are not too many.
    pub fn file(&self) -> Vec<u8> {
        if self.is_long() {
            self.file_in(b'2', 6)
        } else {
            self.file_in(b'1', 5)
        }
    }

    /// Whether five digits can't say how long some body is.
    pub fn is_long(&self) -> bool {
        self.bodies.iter().any(|body| body.file.len() > 99_999)
    }

    /// The same with this form byte and so many digits of each length, the last ones where it has more.
    pub fn file_in(&self, form: u8, digits: usize) -> Vec<u8> {
        let mut file = vec![form];
        file.extend(decimal(self.bodies.len() as u64, 2));
        for body in &self.bodies {
            file.extend(&body.name);
            file.extend(decimal(body.file.len() as u64, digits));
        }
        file.extend(self.joined());
        file
    }

    /// What the writer is given: the names, a length for each, and the joined bodies.
    pub fn names(&self) -> Vec<u8> {
        self.bodies.iter().flat_map(|body| body.name.clone()).collect()
    }

    pub fn lengths(&self) -> Vec<u64> {
        self.bodies.iter().map(|body| body.file.len() as u64).collect()
    }

    pub fn joined(&self) -> Vec<u8> {
        // Joined piece by piece, since bodies may be long.
        self.bodies.iter().map(|body| &body.file[..]).collect::<Vec<_>>().concat()
    }
}
