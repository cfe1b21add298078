"""The check digit of an ISIN (ISO 6166)."""

import re

ISIN = re.compile(r"[A-Z]{2}[A-Z0-9]{9}[0-9]")


def has_right_digit(text: str) -> bool:
    """Whether a text is an ISIN by its form and its last digit.

    Each letter stands for two digits (A is 10); of all digits each second one from the right is
    doubled, and the sum of the digits of all is a multiple of ten.
    """
    if not ISIN.fullmatch(text):
        return False
    digits = "".join(str(int(character, 36)) for character in text)
    doubled = [int(digit) * (1 + at % 2) for at, digit in enumerate(reversed(digits))]
    return sum(value // 10 + value % 10 for value in doubled) % 10 == 0
