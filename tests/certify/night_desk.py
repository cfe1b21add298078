"""A desk in a process of its own, so that its clock can be moved with the venue's.

night_desk.py PAGE right|keeps      a right one, or one that goes on with yesterday's numbers; until its input ends
"""

import sys

from tests.certify.desk import Desk


class KeepsYesterday(Desk):
    """Its numbers go on over the night."""

    def reconnects_with(self) -> None:
        pass


def main() -> None:
    kind = {"right": Desk, "keeps": KeepsYesterday}[sys.argv[2]]
    desk = kind(int(sys.argv[1]))
    desk.start()
    sys.stdin.read()
    desk.close()


if __name__ == "__main__":
    main()
