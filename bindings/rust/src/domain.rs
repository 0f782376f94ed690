//! Time domains.

use crate::handle::{done, if_yes, yes_or_no, Handle};
use crate::{sys, AskError, DomainError, HoursError, HoursFault, Spans, TextFault};
use std::fmt;
use std::str::FromStr;

/// A time domain: it contains some seconds of the local civil clock, and not others.
pub struct Domain(Handle);

/// One of two domains.
#[derive(Clone, Copy, Debug, PartialEq, Eq, Hash)]
pub enum Side {
    /// The first one.
    First,
    /// The second one.
    Second,
}

/// A second that one of two domains has alone.
#[derive(Clone, Copy, Debug, PartialEq, Eq, Hash)]
pub struct Apart {
    /// The second.
    pub second: i64,
    /// The domain that has it.
    pub side: Side,
}

/// How the seconds of two domains compare.
#[derive(Clone, Copy, Debug, PartialEq, Eq, Hash)]
pub enum Comparison {
    /// Each second of all time is in both or in neither. No start gives a year.
    Same,
    /// Some start gives a year. Each second from the given one on and before 2700-01-01 is in both or in neither.
    SameUntil2700,
    /// The first second from the given one on that is in one of them alone.
    Apart(Apart),
}

impl Domain {
    /// The domain of a text.
    ///
    /// # Errors
    ///
    /// The first fault of a text that is not a time domain; refused memory.
    ///
    /// ```
    /// use gtd::{Domain, DomainError, TextFault, TextFaultKind};
    ///
    /// assert!(Domain::new("[(M4d1){M3}]*[(h10){h4}]").is_ok());
    /// let fault = TextFault { kind: TextFaultKind::FieldRange, place: 2 };
    /// assert_eq!(Domain::new("[(h25){h1}]").unwrap_err(), DomainError::Fault(fault));
    /// ```
    pub fn new(text: impl AsRef<[u8]>) -> Result<Domain, DomainError> {
        let (text, handle) = (text.as_ref(), Handle::none());
        let mut fault = sys::gtd_fault::default();
        // SAFETY: the text is as long as is said, and the fault is of this call.
        let answer = unsafe { sys::gtd_domain_open(handle.get(), text.as_ptr(), text.len(), &mut fault) };
        match yes_or_no(answer) {
            Ok(true) => Ok(Domain(handle)),
            Ok(false) => Err(TextFault::of(fault).map_or(DomainError::Memory, DomainError::Fault)),
            Err(_) => Err(DomainError::Memory),
        }
    }

    /// The domain with exactly the seconds at which opening hours of OpenStreetMap are open.
    ///
    /// # Errors
    ///
    /// The first fault of a text that is not opening hours; that they would need more than 128 basic domains; refused memory.
    ///
    /// ```
    /// use gtd::{Domain, HoursError, HoursFault, HoursFaultKind};
    ///
    /// let hours = Domain::from_hours("Mo-Fr 08:00-17:00")?;
    /// assert!(hours.holds(gtd::second_of(2024, 3, 15, 16, 59, 59)?)?); // a Friday
    /// let fault = HoursFault { kind: HoursFaultKind::Unsupported, place: 3 };
    /// assert_eq!(Domain::from_hours("Mo,PH 08:00-17:00").unwrap_err(), HoursError::Fault(fault));
    /// # Ok::<(), Box<dyn std::error::Error>>(())
    /// ```
    pub fn from_hours(text: impl AsRef<[u8]>) -> Result<Domain, HoursError> {
        let (text, handle) = (text.as_ref(), Handle::none());
        let mut fault = sys::gtd_hours_fault::default();
        // SAFETY: the text is as long as is said, and the fault is of this call.
        let answer = unsafe { sys::gtd_domain_from_hours(handle.get(), text.as_ptr(), text.len(), &mut fault) };
        match yes_or_no(answer) {
            Ok(true) => Ok(Domain(handle)),
            Ok(false) => Err(HoursFault::of(fault).map_or(HoursError::Memory, HoursError::Fault)),
            Err(_) => Err(HoursError::Memory),
        }
    }

    /// Whether the domain contains the second.
    ///
    /// # Errors
    ///
    /// `Range`: the second is not from 1901 to 2699.
    ///
    /// ```
    /// let domain = gtd::Domain::new("(t7h5){h10}")?;
    /// assert!(domain.holds(gtd::second_of(2024, 3, 16, 14, 59, 59)?)?);
    /// assert!(!domain.holds(gtd::second_of(2024, 3, 16, 15, 0, 0)?)?);
    /// # Ok::<(), Box<dyn std::error::Error>>(())
    /// ```
    pub fn holds(&self, second: i64) -> Result<bool, AskError> {
        // SAFETY: the handle is that of a domain.
        yes_or_no(unsafe { sys::gtd_domain_holds(self.0.get(), second) })
    }

    /// Whether the domain contains each of the seconds, in order.
    ///
    /// # Errors
    ///
    /// `Range`: one of the seconds is not from 1901 to 2699.
    ///
    /// ```
    /// let domain = gtd::Domain::new("(h10){h4}")?;
    /// let noon = gtd::second_of(2024, 4, 1, 12, 0, 0)?;
    /// assert_eq!(domain.holds_many(&[noon, noon + 7_200])?, [true, false]);
    /// # Ok::<(), Box<dyn std::error::Error>>(())
    /// ```
    pub fn holds_many(&self, seconds: &[i64]) -> Result<Vec<bool>, AskError> {
        let (mut answers, mut count) = (vec![0; seconds.len()], 0);
        // SAFETY: the seconds and the answers are as many as is said, and the number is of this call.
        done(unsafe {
            let (from, to) = (seconds.as_ptr(), answers.as_mut_ptr());
            sys::gtd_domain_holds_many(self.0.get(), from, seconds.len(), to, answers.len(), &mut count)
        })?;
        Ok(answers.into_iter().map(|answer| answer == 1).collect())
    }

    /// The first later second before the day at which membership changes.
    ///
    /// # Errors
    ///
    /// `Range`: the second or the day is not from 1901-01-01 up to 2700-01-01, the day is not after that of the second, or there
    /// are more than 146,098 days between them. `Memory`.
    ///
    /// ```
    /// let domain = gtd::Domain::new("[(t2){d5}]")?;
    /// let friday = gtd::second_of(2024, 1, 5, 12, 0, 0)?;
    /// let change = domain.next_change(friday, gtd::day_of(2024, 2, 1)?)?;
    /// assert_eq!(change, Some(gtd::second_of(2024, 1, 6, 0, 0, 0)?));
    /// # Ok::<(), Box<dyn std::error::Error>>(())
    /// ```
    pub fn next_change(&self, second: i64, until_day: i64) -> Result<Option<i64>, AskError> {
        // SAFETY: the number is of this call.
        if_yes(|change| unsafe { sys::gtd_domain_next(self.0.get(), second, until_day, change) })
    }

    /// The first of all later seconds at which membership changes.
    ///
    /// # Errors
    ///
    /// `Range`: the second is not from 1901 to 2199. `Year`: a start of the domain gives a year. `Memory`.
    ///
    /// ```
    /// let leap_days = gtd::Domain::new("[(M2d29){d1}]")?;
    /// let change = leap_days.ever_changes(gtd::second_of(2096, 3, 1, 0, 0, 0)?)?;
    /// assert_eq!(change, Some(gtd::second_of(2104, 2, 29, 0, 0, 0)?));
    /// # Ok::<(), Box<dyn std::error::Error>>(())
    /// ```
    pub fn ever_changes(&self, second: i64) -> Result<Option<i64>, AskError> {
        // SAFETY: the number is of this call.
        if_yes(|change| unsafe { sys::gtd_domain_ever(self.0.get(), second, change) })
    }

    /// How the seconds of this domain, the first, and of another one compare from a second on. Domains of which no start gives a
    /// year are compared over all time.
    ///
    /// # Errors
    ///
    /// `Range`: the second is not from 1901 to 2199. `Memory`.
    ///
    /// ```
    /// use gtd::{Apart, Comparison, Domain, Side, FIRST_MOMENT};
    ///
    /// let weekdays = Domain::new("[(t2t3t4t5t6h8){h9}]")?;
    /// let hours = Domain::from_hours("Mo-Fr 08:00-17:00")?;
    /// assert_eq!(weekdays.compare(&hours, FIRST_MOMENT)?, Comparison::Same);
    /// let each_day = Domain::new("[(h8){h9}]")?;
    /// let second = gtd::second_of(2024, 3, 16, 8, 0, 0)?; // a Saturday
    /// let apart = Apart { second, side: Side::Second };
    /// assert_eq!(weekdays.compare(&each_day, gtd::second_of(2024, 3, 15, 12, 0, 0)?)?, Comparison::Apart(apart));
    /// # Ok::<(), Box<dyn std::error::Error>>(())
    /// ```
    pub fn compare(&self, other: &Domain, from: i64) -> Result<Comparison, AskError> {
        if std::ptr::eq(self, other) {
            // Two handles of a call must not be one.
            let again = Domain::new(self.canon()?).map_err(|_| AskError::Memory)?;
            return self.compare(&again, from);
        }
        let mut apart = sys::gtd_apart::default();
        // SAFETY: both handles are of domains, and are two.
        match unsafe { sys::gtd_same(self.0.get(), other.0.get(), from, &mut apart) } {
            sys::YEAR => Ok(Comparison::SameUntil2700),
            answer if yes_or_no(answer)? => Ok(Comparison::Same),
            _ => {
                let side = if apart.domain == 1 { Side::First } else { Side::Second };
                Ok(Comparison::Apart(Apart { second: apart.second, side }))
            }
        }
    }

    /// The spans of the domain's seconds from one day up to another, which is not included.
    ///
    /// # Errors
    ///
    /// `Range`: the days are not from 1901-01-01 up to 2700-01-01, or not 1 to 146,098 days. `Memory`.
    ///
    /// ```
    /// let domain = gtd::Domain::new("(h10){h4}")?;
    /// let day = gtd::day_of(2024, 4, 1)?;
    /// let ten = gtd::second_of(2024, 4, 1, 10, 0, 0)?;
    /// assert!(domain.spans(day, day + 1)?.eq([ten..ten + 4 * 3_600]));
    /// # Ok::<(), Box<dyn std::error::Error>>(())
    /// ```
    pub fn spans(&self, from_day: i64, until_day: i64) -> Result<Spans, AskError> {
        // SAFETY: both handles are of this crate.
        Handle::opened(|spans| unsafe { sys::gtd_domain_spans(self.0.get(), from_day, until_day, spans) }).map(Spans)
    }

    /// The canonical text: one for each domain, so that equal domains are found by comparing texts.
    ///
    /// # Errors
    ///
    /// `Memory`.
    ///
    /// ```
    /// assert_eq!(gtd::Domain::new("[(m30h07){m30h1}]")?.canon()?, "[(h7m30){h1m30}]");
    /// # Ok::<(), Box<dyn std::error::Error>>(())
    /// ```
    pub fn canon(&self) -> Result<String, AskError> {
        // SAFETY: both handles are of this crate.
        Handle::opened(|text| unsafe { sys::gtd_domain_canon(self.0.get(), text) })?.into_text()
    }

    /// What the domain says, in plain English: lines, each with a line end.
    ///
    /// # Errors
    ///
    /// `Memory`.
    ///
    /// ```
    /// assert!(gtd::Domain::new("(h10){h4}")?.words()?.ends_with("until 14:00\n"));
    /// # Ok::<(), Box<dyn std::error::Error>>(())
    /// ```
    pub fn words(&self) -> Result<String, AskError> {
        // SAFETY: both handles are of this crate.
        Handle::opened(|text| unsafe { sys::gtd_domain_words(self.0.get(), text) })?.into_text()
    }

    /// The picture of a year, as SVG: a column for each day, midnight at the top.
    ///
    /// # Errors
    ///
    /// `Range`: the year is not from 1901 to 2199. `Memory`.
    ///
    /// ```
    /// assert!(gtd::Domain::new("(h10){h4}")?.picture(2024)?.starts_with("<svg"));
    /// # Ok::<(), Box<dyn std::error::Error>>(())
    /// ```
    pub fn picture(&self, year: u32) -> Result<String, AskError> {
        // SAFETY: both handles are of this crate.
        Handle::opened(|text| unsafe { sys::gtd_domain_picture(self.0.get(), year, text) })?.into_text()
    }
}

impl FromStr for Domain {
    type Err = DomainError;

    fn from_str(text: &str) -> Result<Domain, DomainError> {
        Domain::new(text)
    }
}

impl fmt::Debug for Domain {
    fn fmt(&self, f: &mut fmt::Formatter<'_>) -> fmt::Result {
        f.debug_tuple("Domain").field(&self.canon().unwrap_or_default()).finish()
    }
}
