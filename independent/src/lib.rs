//! A second reading of the closing-price rules, written from the papers of
//! docs/SOURCES.md and the readings of them in docs/DECISIONS.md, never from the
//! proved code, so that the answers of both can be compared. Comments name the
//! sections of docs/RULES.md (RULES 5) and docs/SHEET.md (SHEET 4).
//!
//! * [`tables`]    metals, windows, steps, instruments and contracts
//! * [`field`]     one field: its values, reading it, writing it, walking
//! * [`sheet`]     a whole day sheet: which refusal, or the day it holds
//! * [`indicator`] the indicator, its spans and its sum over a window
//! * [`pricing`]   the six contracts
//! * [`list`]      the closing list as text
//! * [`tape`]      a sheet as lines of text, and back
//! * [`moves`]     a sheet moved to the other header
//! * [`draft`]     sheets put together by hand, without any test of values
//! * [`random`]    the random numbers of the generator
//! * [`generator`] random sheets, accepted and damaged
//! * [`named`]     hand-made sheets with hand-written answers
//! * [`laws`]      shifted and turned sheets
//! * [`holds`]     do printed lists of such sheets obey the laws
//! * [`stream`]    many sheets in one stream, and the answers to them
//! * [`sheet_cases`] sheets written as digits, and what is said of each
//! * [`field_cases`] single fields read, written and walked over

pub mod draft;
pub mod field;
pub mod field_cases;
pub mod generator;
pub mod holds;
pub mod indicator;
pub mod laws;
pub mod list;
pub mod moves;
pub mod named;
pub mod pricing;
pub mod random;
pub mod sheet;
pub mod sheet_cases;
pub mod stream;
pub mod tables;
pub mod tape;

pub use field::{read_field, write_field, Field, Refusal, Walker};
pub use list::closing_list;
pub use moves::{to_new_header, to_old_header};
pub use pricing::{price_day, Answer, Method};
pub use sheet::{judge_by_01_alone, judge_sheet, Day};
pub use tape::{sheet_to_tape, tape_to_sheet, TAPE_LIMIT};
