"""The page in which anybody checks a timetable: made of the proved module and of `static`."""
