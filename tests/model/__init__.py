"""A second implementation of the venue, and what compares the program with it."""
