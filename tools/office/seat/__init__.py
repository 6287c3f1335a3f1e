"""A planner's end of a seat: the pipes, the log, and what is known of the seat by it."""
