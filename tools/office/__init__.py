"""The office: a day is a folder, and a planner sits down at a screen. `docs/OFFICE.md` has a
day."""
