"""Must-fail edits, tried many in one check, and what refused each."""
