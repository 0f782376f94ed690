"""Time domains of GDF (ISO 14825:2004) and timed road restrictions, for pandas.

The proved library ``libgtd`` computes everything, in this process; where there is none, the proved programs ``gtd`` and
``gtdesk`` do, which are started for each call. A wheel of this package holds all three (see :func:`gtd.library` and
:func:`gtd.program`). Moments are seconds of the local civil clock, without time zones or daylight saving.

>>> from datetime import datetime
>>> import gtd
>>> gtd.canon("[(m30h07){m30h1}]")
'[(h7m30){h1m30}]'
>>> gtd.Domain("[(M5h10){h1}]").contains(datetime(2024, 5, 17, 10, 59, 59))
True

:class:`gtd.Domain` is one domain and :class:`gtd.Records` the records of one file; a column of domains has the accessor
``gtd``: see :class:`gtd.Domains`. For record sets that are too large for one file, see
:mod:`gtd.country`; for extracts of OpenStreetMap, :mod:`gtd.osm`; for situations of DATEX II, :mod:`gtd.datex`; for calendars,
:mod:`gtd.ical`.
"""

from gtd._bins import closed_spans, open_seconds
from gtd._desk import Mended, conditions, faults, mend
from gtd._diff import diff
from gtd._domain import Apart, Change, Domain, canon, check, contains, next_change, next_change_ever
from gtd._fault import Fault
from gtd._hours import domains_of_hours
from gtd._library import LibraryNotFound, library
from gtd._program import ProgramNotFound, program
from gtd._record_set import ElementChange, Records
from gtd._records import migrate, schedule, year
from gtd._same import Difference, first_difference, same
from gtd._series import Domains
from gtd._version import __version__

__all__ = [
    "Apart",
    "Change",
    "Difference",
    "Domain",
    "Domains",
    "ElementChange",
    "Fault",
    "LibraryNotFound",
    "Mended",
    "ProgramNotFound",
    "Records",
    "__version__",
    "canon",
    "check",
    "closed_spans",
    "conditions",
    "contains",
    "diff",
    "domains_of_hours",
    "faults",
    "first_difference",
    "library",
    "mend",
    "migrate",
    "next_change",
    "next_change_ever",
    "open_seconds",
    "program",
    "same",
    "schedule",
    "year",
]
