"""Events of iCalendar (RFC 5545) as time domains, and closed spans as events to which people subscribe.

:func:`closures` reads the events of a calendar, and :func:`calendar` writes one for spans that the library lists. Times are those
of the civil clock of the roads. docs/ICAL.md has the rules that are read, and says what readers of calendars understand
differently: that is refused.

>>> from gtd import ical
>>> text = b'''BEGIN:VCALENDAR
... BEGIN:VEVENT
... UID:market@example.org
... DTSTART:20250301T050000
... DTEND:20250301T150000
... RRULE:FREQ=WEEKLY;BYDAY=SA
... END:VEVENT
... END:VCALENDAR
... '''
>>> [one.domains for one in ical.closures(text)]
[('(y2025M3d1h5){y100}*(t7h5){h10}',)]
"""

from gtd.ical._calendar import Closed, calendar
from gtd.ical._series import Closures, closures
from gtd.ical._times import Choices

__all__ = ["Choices", "Closed", "Closures", "calendar", "closures"]
