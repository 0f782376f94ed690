//! Timed road restrictions and GDF time domains, by the proved library `libgtd`.
//!
//! A [`Domain`] contains some seconds and not others; the [`Records`] of a file say which road elements are closed when. Seconds
//! are of the local civil clock: 86,400 times the day number (1970-01-01 is day 0) plus the second of the day.
//!
//! ```
//! use gtd::{day_of, second_of, stamp, Direction, Records};
//!
//! let records = Records::new("element,direction,vehicle,domain\n17,positive,0,[(M4d1){M3}]*[(h10){h4}]\n")?;
//! let noon = second_of(2024, 4, 1, 12, 0, 0)?;
//! assert!(records.closed_at(17, Direction::Positive, 11, noon)?);
//! let opens = records.next_change(17, Direction::Positive, 11, noon, day_of(2024, 4, 2)?)?;
//! assert_eq!(stamp(opens.unwrap())?, "2024-04-01T14:00:00");
//! # Ok::<(), Box<dyn std::error::Error>>(())
//! ```
//!
//! A value is used by one thread at a time, and may go to another thread. [`Records::share`] makes a second value of the same
//! records, so that several threads ask at once.
#![deny(missing_docs)]
#![warn(clippy::pedantic)]

mod domain;
mod error;
mod handle;
mod records;
mod spans;
mod sys;

pub use domain::{Apart, Comparison, Domain, Side};
pub use error::{AskError, DomainError, HoursError, HoursFault, HoursFaultKind};
pub use error::{RecordFault, RecordFaultKind, RecordsError, TextFault, TextFaultKind};
pub use records::{Direction, Elements, Question, Records};
pub use spans::Spans;

use handle::{done, text_of};

const DAY_SECONDS: i64 = 86_400;

/// The first second that may be asked about, 1901-01-01T00:00:00.
///
/// ```
/// assert_eq!(gtd::stamp(gtd::FIRST_MOMENT)?, "1901-01-01T00:00:00");
/// # Ok::<(), gtd::AskError>(())
/// ```
pub const FIRST_MOMENT: i64 = -2_177_452_800;

/// The second of a date and a clock time.
///
/// # Errors
///
/// `Range`: there is no such date or time, or it is not from 1901 to 2699.
///
/// ```
/// assert_eq!(gtd::second_of(1970, 1, 2, 0, 0, 1)?, 86_401);
/// assert_eq!(gtd::second_of(2023, 2, 29, 0, 0, 0), Err(gtd::AskError::Range));
/// # Ok::<(), gtd::AskError>(())
/// ```
pub fn second_of(year: i64, month: u32, day: u32, hour: u32, minute: u32, second: u32) -> Result<i64, AskError> {
    let mut out = 0;
    // SAFETY: the number is of this call.
    done(unsafe { sys::gtd_second(year, month, day, hour, minute, second, &mut out) })?;
    Ok(out)
}

/// The number of a day.
///
/// # Errors
///
/// `Range`: there is no such date, or it is not from 1901 to 2699.
///
/// ```
/// assert_eq!(gtd::day_of(1970, 2, 1)?, 31);
/// # Ok::<(), gtd::AskError>(())
/// ```
pub fn day_of(year: i64, month: u32, day: u32) -> Result<i64, AskError> {
    Ok(second_of(year, month, day, 0, 0, 0)?.div_euclid(DAY_SECONDS))
}

/// The second as `YYYY-MM-DDThh:mm:ss`.
///
/// # Errors
///
/// `Range`: the second is not from 1901 to 2699.
///
/// ```
/// assert_eq!(gtd::stamp(86_401)?, "1970-01-02T00:00:01");
/// # Ok::<(), gtd::AskError>(())
/// ```
pub fn stamp(second: i64) -> Result<String, AskError> {
    let mut text = [0; 19];
    // SAFETY: the room is as long as is said.
    done(unsafe { sys::gtd_stamp(second, text.as_mut_ptr(), text.len()) })?;
    Ok(String::from_utf8_lossy(&text).into_owned())
}

/// The version of the library.
///
/// ```
/// assert!(gtd::version().starts_with(|first: char| first.is_ascii_digit()));
/// ```
#[must_use]
pub fn version() -> String {
    // SAFETY: `text_of` gives the address and the length of a buffer of its own.
    text_of(|out, room, length| unsafe { sys::gtd_version(out, room, length) }).unwrap_or_default()
}
