//! Spans of seconds.

use crate::handle::Handle;
use crate::sys;
use std::fmt;
use std::iter::FusedIterator;
use std::ops::Range;

/// Spans in order, none empty, none touching the next. Each is a first second and the first second after it.
pub struct Spans(pub(crate) Handle);

impl Iterator for Spans {
    type Item = Range<i64>;

    fn next(&mut self) -> Option<Range<i64>> {
        let (mut from, mut until) = (0, 0);
        // SAFETY: both are addresses of numbers of this call.
        let answer = unsafe { sys::gtd_spans_next(self.0.get(), &mut from, &mut until) };
        (answer == sys::YES).then_some(from..until)
    }
}

impl FusedIterator for Spans {}

impl fmt::Debug for Spans {
    fn fmt(&self, f: &mut fmt::Formatter<'_>) -> fmt::Result {
        f.debug_struct("Spans").finish_non_exhaustive()
    }
}
