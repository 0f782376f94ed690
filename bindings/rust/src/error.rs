//! Why a call gives no answer.

use crate::handle::text_of;
use crate::sys;
use std::error::Error;
use std::fmt;

/// A kind of fault of a text, by its number in `gtd.h`.
#[derive(Clone, Copy, Debug, PartialEq, Eq, Hash)]
#[non_exhaustive]
#[repr(u32)]
pub enum TextFaultKind {
    /// A byte begins no token.
    BadToken = 1,
    /// A fuzzy field, `z`.
    Fuzzy,
    /// Too many square brackets are open.
    TooDeep,
    /// There are too many basic domains.
    TooMany,
    /// A field is given twice.
    Repeated,
    /// The number of a field is out of its range.
    FieldRange,
    /// A negative duration.
    Negative,
    /// A token may not stand here.
    Unexpected,
    /// The text ends too early.
    Incomplete,
    /// A duration is too long.
    TooLongDuration,
}

impl TextFaultKind {
    const ALL: [TextFaultKind; 10] = [
        TextFaultKind::BadToken,
        TextFaultKind::Fuzzy,
        TextFaultKind::TooDeep,
        TextFaultKind::TooMany,
        TextFaultKind::Repeated,
        TextFaultKind::FieldRange,
        TextFaultKind::Negative,
        TextFaultKind::Unexpected,
        TextFaultKind::Incomplete,
        TextFaultKind::TooLongDuration,
    ];

    /// Its name, as `gtd` prints it.
    ///
    /// ```
    /// assert_eq!(gtd::TextFaultKind::FieldRange.name(), "FieldRange");
    /// ```
    #[must_use]
    pub fn name(self) -> String {
        // SAFETY: `text_of` gives the address and the length of a buffer of its own.
        text_of(|out, room, length| unsafe { sys::gtd_fault_name(self as u32, out, room, length) }).unwrap_or_default()
    }
}

/// The first fault of a text.
#[derive(Clone, Copy, Debug, PartialEq, Eq, Hash)]
pub struct TextFault {
    /// What is wrong.
    pub kind: TextFaultKind,
    /// The number of bytes before it.
    pub place: usize,
}

impl TextFault {
    pub(crate) fn of(fault: sys::gtd_fault) -> Option<TextFault> {
        let kind = TextFaultKind::ALL.into_iter().find(|kind| *kind as u32 == fault.kind)?;
        Some(TextFault { kind, place: fault.place })
    }
}

impl fmt::Display for TextFault {
    fn fmt(&self, f: &mut fmt::Formatter<'_>) -> fmt::Result {
        write!(f, "{} at {}", self.kind.name(), self.place)
    }
}

/// A kind of fault of a text of opening hours, by its number in `gtd.h`.
#[derive(Clone, Copy, Debug, PartialEq, Eq, Hash)]
#[non_exhaustive]
#[repr(u32)]
pub enum HoursFaultKind {
    /// A byte begins no token.
    BadToken = 1,
    /// A word or a sign that OpenStreetMap has and that is not read here.
    Unsupported,
    /// A number or a time is out of its range.
    Range,
    /// A token may not stand here.
    Unexpected,
    /// The text ends too early.
    Incomplete,
    /// The hours would need more than 128 basic domains.
    TooMany,
    /// A step of years without a last one leaves more than a domain holds.
    Years,
}

impl HoursFaultKind {
    const ALL: [HoursFaultKind; 7] = [
        HoursFaultKind::BadToken,
        HoursFaultKind::Unsupported,
        HoursFaultKind::Range,
        HoursFaultKind::Unexpected,
        HoursFaultKind::Incomplete,
        HoursFaultKind::TooMany,
        HoursFaultKind::Years,
    ];

    /// Its name, as `gtdesk` prints it.
    ///
    /// ```
    /// assert_eq!(gtd::HoursFaultKind::Unsupported.name(), "Unsupported");
    /// ```
    #[must_use]
    pub fn name(self) -> String {
        // SAFETY: `text_of` gives the address and the length of a buffer of its own.
        text_of(|out, room, length| unsafe { sys::gtd_hours_fault_name(self as u32, out, room, length) }).unwrap_or_default()
    }
}

/// The first fault of a text of opening hours.
#[derive(Clone, Copy, Debug, PartialEq, Eq, Hash)]
pub struct HoursFault {
    /// What is wrong.
    pub kind: HoursFaultKind,
    /// The number of bytes before it; 0 of `TooMany`.
    pub place: usize,
}

impl HoursFault {
    pub(crate) fn of(fault: sys::gtd_hours_fault) -> Option<HoursFault> {
        let kind = HoursFaultKind::ALL.into_iter().find(|kind| *kind as u32 == fault.kind)?;
        Some(HoursFault { kind, place: fault.place })
    }
}

impl fmt::Display for HoursFault {
    fn fmt(&self, f: &mut fmt::Formatter<'_>) -> fmt::Result {
        write!(f, "{} at {}", self.kind.name(), self.place)
    }
}

/// A kind of fault of a record file, by its number in `gtd.h`.
#[derive(Clone, Copy, Debug, PartialEq, Eq, Hash)]
#[non_exhaustive]
#[repr(u32)]
pub enum RecordFaultKind {
    /// The file has more than 16,777,216 bytes.
    TooLarge = 2,
    /// The first record is neither header.
    Header,
    /// A row does not have four fields.
    FieldCount,
    /// The first field of a row is not an element.
    Element,
    /// The second field of a row is not a direction.
    Direction,
    /// The third field of a row names no vehicle types.
    Vehicle,
    /// The fourth field of a row is not a time domain.
    Domain,
    /// The file has more than 65,536 rows.
    TooManyRows,
}

impl RecordFaultKind {
    const ALL: [RecordFaultKind; 8] = [
        RecordFaultKind::TooLarge,
        RecordFaultKind::Header,
        RecordFaultKind::FieldCount,
        RecordFaultKind::Element,
        RecordFaultKind::Direction,
        RecordFaultKind::Vehicle,
        RecordFaultKind::Domain,
        RecordFaultKind::TooManyRows,
    ];

    /// Its name, as `gtd` prints it.
    ///
    /// ```
    /// assert_eq!(gtd::RecordFaultKind::Header.name(), "Header");
    /// ```
    #[must_use]
    pub fn name(self) -> String {
        // SAFETY: `text_of` gives the address and the length of a buffer of its own.
        text_of(|out, room, length| unsafe { sys::gtd_record_fault_name(self as u32, out, room, length) }).unwrap_or_default()
    }
}

/// The first fault of a record file.
#[derive(Clone, Copy, Debug, PartialEq, Eq, Hash)]
pub struct RecordFault {
    /// What is wrong.
    pub kind: RecordFaultKind,
    /// The number of the row at fault, from 1, if it is a row's.
    pub row: Option<u32>,
    /// Of `Domain`, the fault of the row's text.
    pub text: Option<TextFault>,
}

impl RecordFault {
    pub(crate) fn of(fault: sys::gtd_record_fault) -> Option<RecordFault> {
        let kind = RecordFaultKind::ALL.into_iter().find(|kind| *kind as u32 == fault.kind)?;
        let row = (fault.row != 0).then_some(fault.row);
        let text = TextFault::of(fault.text);
        Some(RecordFault { kind, row, text })
    }
}

impl fmt::Display for RecordFault {
    fn fmt(&self, f: &mut fmt::Formatter<'_>) -> fmt::Result {
        if let Some(row) = self.row {
            write!(f, "row {row} ")?;
        }
        f.write_str(&self.kind.name())?;
        self.text.map_or(Ok(()), |text| write!(f, " {text}"))
    }
}

/// Why there is no domain of a text.
#[derive(Clone, Copy, Debug, PartialEq, Eq, Hash)]
pub enum DomainError {
    /// The text is not a time domain.
    Fault(TextFault),
    /// The system refused memory.
    Memory,
}

impl fmt::Display for DomainError {
    fn fmt(&self, f: &mut fmt::Formatter<'_>) -> fmt::Result {
        match self {
            DomainError::Fault(fault) => write!(f, "fault {fault}"),
            DomainError::Memory => f.write_str("the system refused memory"),
        }
    }
}

impl Error for DomainError {}

/// Why there is no domain of opening hours.
#[derive(Clone, Copy, Debug, PartialEq, Eq, Hash)]
pub enum HoursError {
    /// The text is not opening hours, or these would need more than 128 basic domains.
    Fault(HoursFault),
    /// The system refused memory.
    Memory,
}

impl fmt::Display for HoursError {
    fn fmt(&self, f: &mut fmt::Formatter<'_>) -> fmt::Result {
        match self {
            HoursError::Fault(fault) => write!(f, "hours: {fault}"),
            HoursError::Memory => f.write_str("the system refused memory"),
        }
    }
}

impl Error for HoursError {}

/// Why there are no records of a file.
#[derive(Clone, Copy, Debug, PartialEq, Eq, Hash)]
pub enum RecordsError {
    /// The file is not a record file.
    Fault(RecordFault),
    /// The system refused memory.
    Memory,
}

impl fmt::Display for RecordsError {
    fn fmt(&self, f: &mut fmt::Formatter<'_>) -> fmt::Result {
        match self {
            RecordsError::Fault(fault) => write!(f, "fault {fault}"),
            RecordsError::Memory => f.write_str("the system refused memory"),
        }
    }
}

impl Error for RecordsError {}

/// Why a question has no answer.
#[derive(Clone, Copy, Debug, PartialEq, Eq, Hash)]
pub enum AskError {
    /// A number is out of its range: a second, a day, a horizon, a year, a vehicle type, a date.
    Range,
    /// All later seconds were asked about, and the domain gives a year.
    Year,
    /// The system refused memory.
    Memory,
}

impl fmt::Display for AskError {
    fn fmt(&self, f: &mut fmt::Formatter<'_>) -> fmt::Result {
        f.write_str(match self {
            AskError::Range => "a number is out of its range",
            AskError::Year => "the domain gives a year",
            AskError::Memory => "the system refused memory",
        })
    }
}

impl Error for AskError {}
