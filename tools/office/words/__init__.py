"""What is said to people: notices, their sentences, names and keys."""
