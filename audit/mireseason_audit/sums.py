"""Computes the sums of a folder's files, and signs them."""

from dataclasses import dataclass
from pathlib import Path

from .streams import digest_of


@dataclass(frozen=True)
class SumsJob:
    """The SHA-256 of some files of a folder, as sha256sum reads them, in a process of its own."""

    folder: Path
    paths: tuple[Path, ...]

    def __call__(self) -> str:
        lines = ["%s  %s\n" % (digest_of(one), one.relative_to(self.folder)) for one in self.paths]
        return "".join(lines)


def write_sums(folder: Path, text: bytes, key: Path | None) -> None:
    """The sums of all files, and a signature of them."""
    (folder / "SHA256SUMS").write_bytes(text)
    if key is not None:
        from .signing import private_key

        (folder / "SHA256SUMS.sig").write_bytes(private_key(key).sign(text))
