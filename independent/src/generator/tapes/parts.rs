//! A text taken apart at its line feeds and commas.

use crate::random::Random;

pub(super) type Item = Vec<u8>;
pub(super) type Line = Vec<Item>;

/// What a numeral says.
#[derive(Clone, Copy, Debug, PartialEq, Eq)]
pub(super) enum Kind {
    Marks,
    /// The byte of a long header.
    Third,
    Time,
    Price,
    Lots,
}

/// The lines of a text, each as its items. What stands behind the last line
/// feed is the last line; in a canonical text it is one empty item.
pub(super) struct Parts {
    pub lines: Vec<Line>,
}

impl Parts {
    pub fn of(text: &[u8]) -> Self {
        let items = |line: &[u8]| line.split(|byte| *byte == b',').map(<[u8]>::to_vec).collect();
        Parts { lines: text.split(|byte| *byte == b'\n').map(items).collect() }
    }

    /// The text again.
    pub fn text(&self) -> Vec<u8> {
        let lines: Vec<Vec<u8>> = self.lines.iter().map(|line| line.join(&b',')).collect();
        lines.join(&b'\n')
    }

    /// How many lines there are without the last.
    pub fn count(&self) -> usize {
        self.lines.len() - 1
    }

    /// A line that has its line feed; the last one where none has.
    pub fn any_line(&self, random: &mut Random) -> usize {
        random.index(self.count())
    }

    /// Puts a third value behind the first line's two, or takes all behind them
    /// away.
    pub fn set_third(&mut self, value: Option<Item>) {
        self.lines[0].truncate(3);
        self.lines[0].extend(value);
    }

    /// The places of the trades and quotes.
    pub fn records(&self) -> Vec<usize> {
        let is_record = |place: &usize| kind_of(&self.lines[*place], 0).is_some();
        (0..self.lines.len()).filter(is_record).collect()
    }

    /// The places of the previous closes.
    pub fn closes(&self) -> Vec<usize> {
        let is_close = |place: &usize| self.lines[*place].first().is_some_and(|item| item == b"PREV");
        (0..self.lines.len()).filter(is_close).collect()
    }

    /// Line and item of a numeral of one of these kinds, each kind as often;
    /// none where there is no such numeral.
    pub fn any_numeral(&self, random: &mut Random, kinds: &[Kind]) -> Option<(usize, usize, Kind)> {
        let mut kinds = kinds.to_vec();
        random.shuffle(&mut kinds);
        kinds.into_iter().find_map(|kind| {
            let places = self.numerals(kind);
            let (line, item) = *places.get(random.index(places.len()))?;
            Some((line, item, kind))
        })
    }

    fn numerals(&self, kind: Kind) -> Vec<(usize, usize)> {
        let lines = self.lines.iter().enumerate();
        let places = lines.flat_map(|(place, line)| (0..line.len()).map(move |item| (place, item)));
        places.filter(|(line, item)| kind_of(&self.lines[*line], *item) == Some(kind)).collect()
    }
}

/// What an item says, where it is a numeral by its place in its line.
pub(super) fn kind_of(line: &Line, item: usize) -> Option<Kind> {
    let word = |place: usize| line.get(place).map_or(&b""[..], Vec::as_slice);
    match (word(0), word(2), item) {
        (b"METAL", _, 2) => Some(Kind::Marks),
        (b"METAL", _, 3) => Some(Kind::Third),
        (b"PREV", _, 2) => Some(Kind::Price),
        (_, b"TRADE" | b"QUOTE", 0) => Some(Kind::Time),
        (_, b"TRADE", 3) => Some(Kind::Price),
        (_, b"TRADE", 4) => Some(Kind::Lots),
        (_, b"QUOTE", 3 | 4) if word(item) != b"-" => Some(Kind::Price),
        _ => None,
    }
}

/// The items of a line that is written as it stands in a text.
pub(super) fn line(text: &str) -> Line {
    text.split(',').map(|item| item.as_bytes().to_vec()).collect()
}
