"""The error that ends an operator's command with a line that says why."""


class Fault(Exception):
    """Something that an installation needs can't be had; the text says what and why."""
