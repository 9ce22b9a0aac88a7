//! What the benchmark compares: the proved library, the independent program, `plain.c` and `limit.c`,
//! by the same functions over the same sheets.
//!
//! * [`functions`] the archive's functions and those of the C programs
//! * [`second`]    the independent program's, in the same shapes
//! * [`sheets`]    the sheets that are timed
//! * [`tapes`]     the texts that are timed
//! * [`moves`]     the sheets whose moves to another header are timed
//! * [`damaged`]   the sheets that are only compared
//! * [`same`]      the four sides held to one another
//! * [`work`]      the pieces of work, by name, for each side

pub mod damaged;
pub mod functions;
pub mod moves;
pub mod same;
pub mod second;
pub mod sheets;
pub mod tapes;
pub mod work;
