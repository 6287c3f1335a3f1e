"""What was accepted: by whom and why, the timetable after any draft, and taking a draft back."""
