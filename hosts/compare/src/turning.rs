//! What makes a sheet or a text of another, asked of both.

use crate::same::same;
use independent::Refusal;

/// What lent room is filled with, and how much is ample.
const FILL: u8 = 0xA5;
const MORE: usize = 40;

/// What both say: the sheet or the text that is made, or the refusal.
pub type Told = Result<Vec<u8>, Refusal>;

/// A turning by both: by the library into lent room, by the independent program as far as there is room.
pub struct Turning {
    pub name: &'static str,
    pub library: fn(&[u8], &mut [u8]) -> Result<usize, Refusal>,
    pub independent: fn(&[u8], usize) -> Told,
}

impl Turning {
    /// What both say with so much room, and the same bytes behind it in that room.
    pub fn look_at_room(&self, bytes: &[u8], room: usize) -> Result<Told, String> {
        let told = (self.independent)(bytes, room);
        self.look_at_library(bytes, room, &told)?;
        Ok(told)
    }

    /// What the library says with so much room is this, and it leaves the rest of the room as it was.
    fn look_at_library(&self, bytes: &[u8], room: usize, told: &Told) -> Result<(), String> {
        let mut got = vec![FILL; room];
        let mut wanted = got.clone();
        if let Ok(turned) = told {
            wanted[..turned.len()].copy_from_slice(turned);
        }
        let what = format!("{} in room for {room} bytes", self.name);
        let length = told.as_ref().map(Vec::len).map_err(|no| *no);
        same(&what, &(self.library)(bytes, &mut got), &length)?;
        if got != wanted {
            return Err(format!("{what}: other bytes stand in the room"));
        }
        Ok(())
    }

    /// What both say with room that is ample; the library says it in exact room too, and with a byte less both say 16. A refusal is the
    /// same without room.
    pub fn look(&self, bytes: &[u8]) -> Result<Told, String> {
        let told = (self.independent)(bytes, usize::MAX);
        let length = told.as_ref().map_or(0, Vec::len);
        self.look_at_library(bytes, length + MORE, &told)?;
        self.look_at_library(bytes, length, &told)?;
        if length > 0 && self.look_at_room(bytes, length - 1)? != Err((16, 0)) {
            return Err(format!("{} fits into a byte less than it has", self.name));
        }
        Ok(told)
    }

    /// The same, and what is made is turned back into the first bytes.
    pub fn look_and_back(&self, bytes: &[u8], back: &Turning) -> Result<Told, String> {
        let told = self.look(bytes)?;
        if let Ok(turned) = &told {
            if back.look_at_room(turned, bytes.len())?.as_deref() != Ok(bytes) {
                return Err(format!("{} is not what {} was made of", back.name, self.name));
            }
        }
        Ok(told)
    }
}
