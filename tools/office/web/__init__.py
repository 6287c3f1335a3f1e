"""The seats of a day in browsers: one process of the day serves them, by tornado."""
