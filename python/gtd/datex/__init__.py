"""Time specifications of DATEX II as time domains, and closed spans as such specifications.

It reads these elements of versions 2.x and 3.x, and refuses each other one in a specification by its line:
``validityStatus``, ``overrunning``, ``validityTimeSpecification`` with ``overallStartTime``, ``overallEndTime``, ``validPeriod``
and ``exceptionPeriod``, and in these ``startOfPeriod``, ``endOfPeriod``, ``periodName``, ``recurringTimePeriodOfDay`` and
``recurringDayWeekMonthPeriod``. docs/DATEX.md has the whole table, and says which names are not checked with a published schema.

:func:`validities` reads **when** records hold, and not where: which elements each record closes is for its user to say.

>>> import io
>>> from gtd import datex
>>> text = b'''<r xmlns="http://datex2.eu/schema/3/common" id="4711-1"><validity>
... <validityStatus>definedByValidityTimeSpec</validityStatus><validityTimeSpecification>
... <overallStartTime>2025-03-10T07:00:00</overallStartTime><overallEndTime>2025-06-20T17:00:00</overallEndTime>
... </validityTimeSpecification></validity></r>'''
>>> [one.domains for one in datex.validities(io.BytesIO(text))]
[('(y2025M3d10h7){d102h10}',)]

:func:`written` is the way back, for the spans that the library lists.
"""

from gtd.datex._specification import Validity, validities
from gtd.datex._values import Choices
from gtd.datex._writing import written

__all__ = ["Choices", "Validity", "validities", "written"]
