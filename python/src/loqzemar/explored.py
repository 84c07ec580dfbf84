"""All sessions of a script, whenever the lines of its clients come: what `lwpexplore` tells."""
from __future__ import annotations

import enum
from typing import NamedTuple, Union

from . import _loqzemar

#: How many cores are kept, where nobody says so. A core is all of a session that counts for how it goes on.
CORES = 100_000


class Ending(enum.IntEnum):
    """What a search comes to: the numbers are the exit statuses of `lwpexplore`."""

    #: Each session that is over has ended, with no line left; or the trace is there; or no session writes the line.
    WELL = 0
    #: There is another kind of end; or a session writes the line.
    TOLD = 109
    #: There are more cores than were kept.
    CUT = 110
    #: There are not so many kinds of ends.
    MISSING = 111


class Explored(NamedTuple):
    """What a search tells, and what it comes to."""

    text: str
    ending: Ending


class NoScript(ValueError):
    """Bytes that are no script: the first bad line, from 1, or 0 where the whole is too large, and why, as the C header numbers it."""

    def __init__(self, why: str, line: int, reason: int) -> None:
        super().__init__(why)
        self.line = line
        self.reason = reason


Bytes = Union[bytes, str]


def _bytes(text: Bytes) -> bytes:
    return text.encode("utf-8", "surrogateescape") if isinstance(text, str) else text


def _explored(status: int, reason: int, line: int, text: str) -> Explored:
    if reason:
        raise NoScript(text.rstrip("\n"), line, reason)
    return Explored(text, Ending(status))


def explore_ends(script: Bytes, cores: int = CORES) -> Explored:
    """The kinds of ends of a script's sessions, each with its cores and the way to the first."""
    return _explored(*_loqzemar.explore_ends(_bytes(script), cores))


def explore_trace(script: Bytes, kind: int, cores: int = CORES) -> Explored:
    """The trace of the way to the first core of a kind, by its number in that list, from 1."""
    return _explored(*_loqzemar.explore_trace(_bytes(script), kind, cores))


def explore_line(script: Bytes, line: Bytes, cores: int = CORES) -> Explored:
    """How many calls and takes lead to the first step that writes this line of a trace, or that no session does."""
    return _explored(*_loqzemar.explore_line(_bytes(script), _bytes(line), cores))
