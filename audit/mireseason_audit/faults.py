"""The errors that end a command: something can't be read, or the venue does not answer."""


class Unreadable(Exception):
    """Something could not be read, or a program not run, or it did not answer: status 2."""


class Wrong(Exception):
    """What was read is not as it should be, and nothing more can be said: status 1."""
