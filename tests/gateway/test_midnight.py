"""A script that plays a day waits for the next one if too little is left: shortly before midnight in UTC, and at it."""

import contextlib
import io
import unittest
from collections.abc import Callable
from datetime import datetime, timezone

from tests.gateway.midnight import left_of_day, wait_for_room
from tests.gateway.wait import TooLong

SOON = 0.05  # seconds that a clock is late which never comes to midnight


def moment(text: str) -> float:
    """A moment in UTC, in seconds of POSIX time."""
    return datetime.fromisoformat(text).replace(tzinfo=timezone.utc).timestamp()


def clock(*texts: str) -> Callable[[], float]:
    """One that shows these moments, one at each look; at a look more it fails."""
    return iter([moment(text) for text in texts]).__next__


def told(needs: float, now: Callable[[], float]) -> str:
    """What is told on standard error until so many seconds are left."""
    with contextlib.redirect_stderr(io.StringIO()) as errors:
        wait_for_room("a test", needs, now, SOON)
    return errors.getvalue()


class Midnight(unittest.TestCase):
    def test_what_is_left_of_a_day(self) -> None:
        for text, left in (
            ("2026-11-26 00:00:00", 86400),
            ("2026-11-26 12:00:00", 43200),
            ("2026-11-26 23:59:00", 60),
            ("2026-11-26 23:59:59.500", 0.5),
            ("2026-11-27 00:00:00", 86400),
            ("2024-02-29 23:00:00", 3600),
        ):
            self.assertEqual(left_of_day(moment(text)), left, text)

    def test_a_minute_before_midnight_it_waits_for_it(self) -> None:
        now = clock(
            "2026-11-26 23:59:00",
            "2026-11-26 23:59:30",
            "2026-11-26 23:59:59.999",
            "2026-11-27 00:00:00",
        )
        self.assertEqual(
            told(900, now), "a test waits 60 s for midnight in UTC: it may take 900 s of one day\n"
        )
        self.assertRaises(StopIteration, now)

    def test_at_midnight_it_does_not_wait(self) -> None:
        self.assertEqual(told(900, clock("2026-11-27 00:00:00")), "")

    def test_it_waits_for_the_last_second_alone(self) -> None:
        self.assertEqual(told(900, clock("2026-11-26 23:45:00")), "")
        self.assertIn(
            "waits 899 s", told(900, clock("2026-11-26 23:45:01", "2026-11-27 00:00:00.001"))
        )

    def test_a_whole_day_begins_at_midnight_alone(self) -> None:
        self.assertEqual(told(86400, clock("2026-11-27 00:00:00")), "")
        self.assertIn("waits 1 s", told(86400, clock("2026-11-26 23:59:59", "2026-11-27 00:00:00")))

    def test_a_clock_that_is_late_is_not_waited_for(self) -> None:
        stands = moment("2026-11-26 23:59:59.990")
        with self.assertRaises(TooLong):
            told(900, lambda: stands)

    def test_more_than_a_day_is_none(self) -> None:
        for needs in (0, -1, 86401):
            with self.assertRaises(ValueError):
                told(needs, clock("2026-11-26 12:00:00"))


if __name__ == "__main__":
    unittest.main()
