"""The error that says what the keeper can't do."""


class Fault(Exception):
    """One thing that can't be done, with its cause in one line."""


def one_line(fault: BaseException) -> str:
    """What a library says, in one line."""
    return " ".join(str(fault).split())
