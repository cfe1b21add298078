"""Takes pages that have not changed from an earlier build of the same day."""

from dataclasses import dataclass
from pathlib import Path


@dataclass(frozen=True)
class Before:
    """A folder of pages, and the last entry that they show."""

    folder: Path
    last: int

    def give(self, path: Path, folder: Path) -> bool:
        """Makes a page of another folder the one that it was; answers whether there was one."""
        old = self.folder / path.relative_to(folder)
        if old.is_file():
            path.hardlink_to(old)
        return old.is_file()
