"""The face in a terminal: the screen, or lines."""
