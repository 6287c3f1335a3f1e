"""The folder of a day, its rules, its timetable and its edits, and the office that keeps it."""
