"""What a planner does at a seat, and what he sees: the model of both faces."""
