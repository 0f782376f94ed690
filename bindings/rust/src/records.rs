//! Records of timed restrictions.

use crate::handle::{done, if_yes, list_of, yes_or_no, Handle};
use crate::{sys, AskError, RecordFault, RecordsError, Spans};
use std::fmt;
use std::iter::FusedIterator;

/// A direction of a road element.
#[derive(Clone, Copy, Debug, PartialEq, Eq, PartialOrd, Ord, Hash)]
#[repr(u8)]
pub enum Direction {
    /// From its From node to its To node.
    Positive = 0,
    /// From its To node to its From node.
    Negative = 1,
}

impl Direction {
    fn is_negative(self) -> bool {
        self == Direction::Negative
    }
}

/// Whether an element is closed in a direction for a vehicle type at a second.
#[derive(Clone, Copy, Debug, PartialEq, Eq, Hash)]
#[repr(C)]
pub struct Question {
    /// The number of the element.
    pub element: u64,
    /// The second that is asked about.
    pub second: i64,
    /// The vehicle type, 1 to 99.
    pub vehicle: u8,
    /// The direction.
    pub direction: Direction,
}

/// The records of a file. They may go to another thread; [`Records::share`] makes a second value of the same records.
pub struct Records(Handle);

impl Records {
    /// The records of the bytes of a whole file of either version.
    ///
    /// # Errors
    ///
    /// The first fault of a file that is not a record file; refused memory.
    ///
    /// ```
    /// use gtd::{RecordFaultKind, Records, RecordsError};
    ///
    /// assert!(Records::new("element,direction,vehicle,domain\n17,both,0,(h10){h4}\n").is_ok());
    /// match Records::new("element,direction,vehicle,domain\n17,up,0,\n") {
    ///     Err(RecordsError::Fault(fault)) => {
    ///         assert_eq!((fault.kind, fault.row), (RecordFaultKind::Direction, Some(1)));
    ///     }
    ///     other => panic!("{other:?}"),
    /// }
    /// ```
    pub fn new(bytes: impl AsRef<[u8]>) -> Result<Records, RecordsError> {
        let (bytes, handle) = (bytes.as_ref(), Handle::none());
        let mut fault = sys::gtd_record_fault::default();
        // SAFETY: the bytes are as many as is said, and the fault is of this call.
        let answer = unsafe { sys::gtd_records_open(handle.get(), bytes.as_ptr(), bytes.len(), &mut fault) };
        match yes_or_no(answer) {
            Ok(true) => Ok(Records(handle)),
            Ok(false) => Err(RecordFault::of(fault).map_or(RecordsError::Memory, RecordsError::Fault)),
            Err(_) => Err(RecordsError::Memory),
        }
    }

    /// The same records once more, for another thread. Both may be used at the same time.
    ///
    /// # Errors
    ///
    /// `Memory`.
    ///
    /// ```
    /// let records = gtd::Records::new("element,direction,vehicle,domain\n17,both,0,(h10){h4}\n")?;
    /// let other = records.share()?;
    /// let noon = gtd::second_of(2024, 4, 1, 12, 0, 0)?;
    /// let there = std::thread::spawn(move || other.closed_at(17, gtd::Direction::Positive, 11, noon));
    /// assert!(records.closed_at(17, gtd::Direction::Negative, 11, noon)?);
    /// assert!(there.join().unwrap()?);
    /// # Ok::<(), Box<dyn std::error::Error>>(())
    /// ```
    pub fn share(&self) -> Result<Records, AskError> {
        // SAFETY: both handles are of this crate.
        Handle::opened(|other| unsafe { sys::gtd_share(self.0.get(), other) }).map(Records)
    }

    /// How many elements the records name.
    ///
    /// # Errors
    ///
    /// `Memory`.
    ///
    /// ```
    /// let records = gtd::Records::new("element,direction,vehicle,domain\n17,both,0,\n9,both,0,\n17,both,1,\n")?;
    /// assert_eq!(records.count()?, 2);
    /// # Ok::<(), Box<dyn std::error::Error>>(())
    /// ```
    pub fn count(&self) -> Result<usize, AskError> {
        // SAFETY: the number is of this call.
        if_yes(|elements| unsafe { sys::gtd_records_count(self.0.get(), elements) }).map(Option::unwrap_or_default)
    }

    /// The element at a place, from 0, in ascending order; none past the last.
    ///
    /// # Errors
    ///
    /// `Memory`.
    ///
    /// ```
    /// let records = gtd::Records::new("element,direction,vehicle,domain\n17,both,0,\n9,both,0,\n")?;
    /// assert_eq!((records.element(0)?, records.element(1)?, records.element(2)?), (Some(9), Some(17), None));
    /// # Ok::<(), Box<dyn std::error::Error>>(())
    /// ```
    pub fn element(&self, place: usize) -> Result<Option<u64>, AskError> {
        // SAFETY: the number is of this call.
        if_yes(|element| unsafe { sys::gtd_records_element(self.0.get(), place, element) })
    }

    /// The elements that the records name, in ascending order.
    ///
    /// ```
    /// let records = gtd::Records::new("element,direction,vehicle,domain\n17,both,0,\n9,both,0,\n")?;
    /// assert!(records.elements().eq([9, 17]));
    /// # Ok::<(), Box<dyn std::error::Error>>(())
    /// ```
    #[must_use]
    pub fn elements(&self) -> Elements<'_> {
        Elements { records: self, place: 0 }
    }

    /// Whether some record closes the element. An element that no record names is open.
    ///
    /// # Errors
    ///
    /// `Range`: the second is not from 1901 to 2699, or the vehicle type not 1 to 99.
    ///
    /// ```
    /// use gtd::Direction::{Negative, Positive};
    ///
    /// let records = gtd::Records::new("element,direction,vehicle,domain\n17,positive,11,(h10){h4}\n")?;
    /// let noon = gtd::second_of(2024, 4, 1, 12, 0, 0)?;
    /// assert!(records.closed_at(17, Positive, 11, noon)?);
    /// assert!(!records.closed_at(17, Negative, 11, noon)?);
    /// assert!(!records.closed_at(18, Positive, 11, noon)?);
    /// # Ok::<(), Box<dyn std::error::Error>>(())
    /// ```
    pub fn closed_at(&self, element: u64, direction: Direction, vehicle: u8, second: i64) -> Result<bool, AskError> {
        // SAFETY: the handle is that of records.
        yes_or_no(unsafe { sys::gtd_records_closed_at(self.0.get(), element, direction.is_negative(), vehicle, second) })
    }

    /// Whether some record closes the element of each question, in order.
    ///
    /// # Errors
    ///
    /// `Range`: a second is not from 1901 to 2699, or a vehicle type not 1 to 99.
    ///
    /// ```
    /// use gtd::{Direction, Question};
    ///
    /// let records = gtd::Records::new("element,direction,vehicle,domain\n17,both,0,(h10){h4}\n")?;
    /// let second = gtd::second_of(2024, 4, 1, 12, 0, 0)?;
    /// let noon = Question { element: 17, second, vehicle: 11, direction: Direction::Positive };
    /// let two = Question { second: second + 7_200, ..noon };
    /// assert_eq!(records.closed_many(&[noon, two])?, [true, false]);
    /// # Ok::<(), Box<dyn std::error::Error>>(())
    /// ```
    pub fn closed_many(&self, questions: &[Question]) -> Result<Vec<bool>, AskError> {
        let (mut answers, mut count) = (vec![0; questions.len()], 0);
        // SAFETY: the questions and the answers are as many as is said, and the number is of this call.
        done(unsafe {
            let (from, to) = (questions.as_ptr(), answers.as_mut_ptr());
            sys::gtd_records_closed_many(self.0.get(), from, questions.len(), to, answers.len(), &mut count)
        })?;
        Ok(answers.into_iter().map(|answer| answer == 1).collect())
    }

    /// The first later second before the day at which the element closes or opens.
    ///
    /// # Errors
    ///
    /// `Range`: the second or the day is not from 1901-01-01 up to 2700-01-01, the day is not after that of the second, there are
    /// more than 146,098 days between them, or the vehicle type is not 1 to 99. `Memory`.
    ///
    /// ```
    /// let records = gtd::Records::new("element,direction,vehicle,domain\n17,both,0,(h10){h4}\n")?;
    /// let noon = gtd::second_of(2024, 4, 1, 12, 0, 0)?;
    /// let change = records.next_change(17, gtd::Direction::Positive, 11, noon, gtd::day_of(2024, 4, 2)?)?;
    /// assert_eq!(change, Some(noon + 7_200));
    /// # Ok::<(), Box<dyn std::error::Error>>(())
    /// ```
    pub fn next_change(
        &self,
        element: u64,
        direction: Direction,
        vehicle: u8,
        second: i64,
        until_day: i64,
    ) -> Result<Option<i64>, AskError> {
        let negative = direction.is_negative();
        // SAFETY: the number is of this call.
        if_yes(|change| unsafe { sys::gtd_records_next(self.0.get(), element, negative, vehicle, second, until_day, change) })
    }

    /// The numbers of the rows that close the element, ascending, from 1; none if it is open.
    ///
    /// # Errors
    ///
    /// `Range`: the second is not from 1901 to 2699, or the vehicle type not 1 to 99. `Memory`.
    ///
    /// ```
    /// let file = "element,direction,vehicle,domain\n17,both,0,(h10){h4}\n17,both,12,\n17,both,0,(M4){M1}\n";
    /// let records = gtd::Records::new(file)?;
    /// let noon = gtd::second_of(2024, 4, 1, 12, 0, 0)?;
    /// assert_eq!(records.closers(17, gtd::Direction::Positive, 11, noon)?, [1, 3]);
    /// # Ok::<(), Box<dyn std::error::Error>>(())
    /// ```
    pub fn closers(&self, element: u64, direction: Direction, vehicle: u8, second: i64) -> Result<Vec<u32>, AskError> {
        let negative = direction.is_negative();
        // SAFETY: `list_of` gives the address and the length of a buffer of its own.
        list_of(|rows, room, count| unsafe {
            sys::gtd_records_closers(self.0.get(), element, negative, vehicle, second, rows, room, count)
        })
    }

    /// The spans in which the element is open, from one day up to another, which is not included.
    ///
    /// # Errors
    ///
    /// `Range`: the days are not from 1901-01-01 up to 2700-01-01, not 1 to 146,098 days, or the vehicle type is not 1 to 99.
    /// `Memory`.
    ///
    /// ```
    /// let records = gtd::Records::new("element,direction,vehicle,domain\n17,both,0,(h10){h14}\n")?;
    /// let day = gtd::day_of(2024, 4, 1)?;
    /// let midnight = gtd::second_of(2024, 4, 1, 0, 0, 0)?;
    /// let spans = records.spans(17, gtd::Direction::Positive, 11, day, day + 1)?;
    /// assert!(spans.eq([midnight..midnight + 36_000]));
    /// # Ok::<(), Box<dyn std::error::Error>>(())
    /// ```
    pub fn spans(
        &self,
        element: u64,
        direction: Direction,
        vehicle: u8,
        from_day: i64,
        until_day: i64,
    ) -> Result<Spans, AskError> {
        let negative = direction.is_negative();
        // SAFETY: both handles are of this crate.
        Handle::opened(|spans| unsafe {
            sys::gtd_records_spans(self.0.get(), element, negative, vehicle, from_day, until_day, spans)
        })
        .map(Spans)
    }

    /// The whole schedule, as `gtd schedule` prints it.
    ///
    /// # Errors
    ///
    /// `Range`: the days are not from 1901-01-01 up to 2700-01-01, not 1 to 146,098 days, or the vehicle type is not 1 to 99.
    /// `Memory`.
    ///
    /// ```
    /// let records = gtd::Records::new("element,direction,vehicle,domain\n17,both,0,(h10){h14}\n")?;
    /// let day = gtd::day_of(2024, 4, 1)?;
    /// let schedule = records.schedule(day, day + 1, 11)?;
    /// assert_eq!(schedule.lines().nth(1), Some("17,positive,11,2024-04-01T00:00:00,2024-04-01T10:00:00"));
    /// # Ok::<(), Box<dyn std::error::Error>>(())
    /// ```
    pub fn schedule(&self, from_day: i64, until_day: i64, vehicle: u8) -> Result<String, AskError> {
        // SAFETY: both handles are of this crate.
        Handle::opened(|text| unsafe { sys::gtd_records_schedule(self.0.get(), from_day, until_day, vehicle, text) })?.into_text()
    }
}

impl fmt::Debug for Records {
    fn fmt(&self, f: &mut fmt::Formatter<'_>) -> fmt::Result {
        f.debug_struct("Records").field("count", &self.count().unwrap_or_default()).finish_non_exhaustive()
    }
}

/// The elements that records name, in ascending order.
#[derive(Clone, Debug)]
pub struct Elements<'a> {
    records: &'a Records,
    place: usize,
}

impl Iterator for Elements<'_> {
    type Item = u64;

    fn next(&mut self) -> Option<u64> {
        let element = self.records.element(self.place).ok().flatten()?;
        self.place += 1;
        Some(element)
    }
}

impl FusedIterator for Elements<'_> {}
