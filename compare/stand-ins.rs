//! NOT the original. This crate root binds the seven original files together, unchanged, and stands
//! in for the bodies of three macros that those files use and that are not among them.
//!
//! The original is two crates, `winnow-datetime` (parser.rs, types.rs) and `winnow-iso8601` (the
//! other five). Here they are one that goes by the first one's name, so that the `use` lines of all
//! seven find what they name.

// Functions that only the files left behind called.
#![allow(dead_code)]

extern crate self as winnow_datetime;

#[doc(hidden)]
pub use winnow;

#[path = "original/date.rs"]
pub mod date;
#[path = "original/datetime.rs"]
pub mod datetime;
#[path = "original/duration.rs"]
pub mod duration;
#[path = "original/offset.rs"]
pub mod offset;
#[path = "original/parser.rs"]
pub mod parser;
#[path = "original/time.rs"]
pub mod time;
#[path = "original/types.rs"]
pub mod types;

pub use types::*;

/// A plain sequence of the named fields.
#[macro_export]
macro_rules! date_ymd_seq {
    ($($fields:tt)*) => { $crate::winnow::seq!($($fields)*) };
}

/// A plain sequence of the named fields.
#[macro_export]
macro_rules! date_ywd_seq {
    ($($fields:tt)*) => { $crate::winnow::seq!($($fields)*) };
}

/// `whole`, then `sep` and `fraction` both or neither, then `end`.
#[macro_export]
macro_rules! duration_part_seq {
    ({ whole: $whole:expr, sep: $sep:expr, fraction: $fraction:expr, end: $end:expr $(,)? }) => {
        $crate::winnow::seq!((
            $whole,
            $crate::winnow::combinator::opt($crate::winnow::combinator::preceded($sep, $fraction)),
            _: $end,
        ))
        .map(|(whole, fraction): (u32, Option<u32>)| $crate::types::DurationPart {
            whole,
            // No duration with a comma or a point is compared: that there is one is enough.
            frac: fraction.map(|_| 0.0),
        })
    };
}
