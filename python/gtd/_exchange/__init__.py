"""What :mod:`gtd.datex` and :mod:`gtd.ical` share: civil time, texts of time domains, weekly runs, tables and commands."""
