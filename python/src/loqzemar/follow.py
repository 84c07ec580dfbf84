"""A recorded trace, line by line."""
from __future__ import annotations

import re
from typing import Optional, Tuple

from ._loqzemar import Core
from .words import Differs, is_text

_EVENT = re.compile(r"event (\d+) client (\d+) seq (\d+)(?: (.*))?")
_TICK = re.compile(r"tick \d+ client (\d+) seq (\d+)(?: (.*))?")


class Record:
    """A trace, and how far it was followed."""

    def __init__(self, trace: str) -> None:
        # What comes after the last newline is no line.
        whole = trace[: trace.rfind("\n") + 1]
        self._lines = whole.split("\n")[:-1]
        self._bytes = whole.encode("utf-8", "surrogatepass")
        self._next = 0
        # The byte at which the next line begins.
        self._place = 0

    @property
    def line(self) -> int:
        """The number of the next line, from 1."""
        return self._next + 1

    def is_over(self) -> bool:
        """Whether all lines were followed."""
        return self._next == len(self._lines)

    def at(self) -> Optional[str]:
        """The next line."""
        return None if self.is_over() else self._lines[self._next]

    def delivery(self) -> Optional[Tuple[int, int, int, str]]:
        """The line from outside that the next line of the trace tells of, if it does: its event, client, number and text."""
        line = self.at() or ""
        event, tick = _EVENT.fullmatch(line), _TICK.fullmatch(line)
        if event:
            told = int(event[1]), int(event[2]), int(event[3]), event[4] or ""
        elif tick:
            told = 0, int(tick[1]), int(tick[2]), tick[3] or ""
        else:
            return None
        # A line that nobody could have posted is none.
        return told if told[0] <= 31 and told[1] <= 255 and told[2] < 2**32 and is_text(told[3]) else None

    def is_spent(self, calls: int) -> bool:
        """Whether the next line says that all allowed calls were made."""
        return self.at() == f"spent {calls}"

    def left(self) -> str:
        """The lines that tell of lines that weren't taken."""
        return "".join(line + "\n" for line in self._lines[self._next :] if line.startswith("left client "))

    def compare(self, lines: str) -> None:
        """Goes on after these lines, which come next. A record that ends among them is followed to its end."""
        told = lines.split("\n")[:-1]
        if not told and not self.is_over():
            raise Differs(self.line, None, self.at())
        for want in told:
            if self.is_over():
                return
            if want != self.at():
                raise Differs(self.line, want, self.at())
            self._next += 1
            self._place += len(want) + 1

    def compare_step(self, core: Core) -> None:
        """Goes on after the lines of the last step, as `compare` does. Where the library can, it compares them."""
        if not hasattr(core, "follow"):
            self.compare(core.lines())
            return
        first = self._next
        is_same, self._place, line = core.follow(self._bytes, self._place, self.line)
        self._next = line - 1
        if not is_same and not self.is_over():
            raise Differs(line, core.lines().split("\n")[self._next - first], self.at())
