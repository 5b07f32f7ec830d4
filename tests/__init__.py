"""The tests of nixkeep, and what they share."""
