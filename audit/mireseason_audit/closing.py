"""What a `with` opens, and closes at its end."""

from abc import ABC, abstractmethod
from types import TracebackType
from typing import Self


class Closing(ABC):
    """Something that is opened by a `with` and closed at its end."""

    def __enter__(self) -> Self:
        return self

    def __exit__(
        self,
        kind: type[BaseException] | None,
        value: BaseException | None,
        trace: TracebackType | None,
    ) -> None:
        self.close(kind is not None)

    @abstractmethod
    def close(self, failed: bool = False) -> None:
        """Lets it go; failed where a fault ends it."""
