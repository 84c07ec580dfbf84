"""What calls are answered: the numbers of threads, monitors and conditions, letters, and what is raised."""
from __future__ import annotations

import enum
from types import TracebackType
from typing import Any, ClassVar, Dict, NamedTuple, Optional, Sequence, Type

from . import _loqzemar
from ._loqzemar import Call


class Tid(int):
    """The number of a thread or an agent, as traces print it: t3."""

    __slots__ = ()

    def __repr__(self) -> str:
        return "none" if self == NONE else f"t{int(self)}"

    __str__ = __repr__


class Monitor(int):
    """The number of a monitor, as traces print it: m0.

    In an `async def`, `async with monitor:` enters it, and leaves it at the end, also where an exception goes through. A thread that is
    destroyed meanwhile leaves its monitors by itself."""

    __slots__ = ()

    def __repr__(self) -> str:
        return "none" if self == NONE else f"m{int(self)}"

    __str__ = __repr__

    async def __aenter__(self) -> Monitor:
        await _loqzemar.call(34, self)
        return self

    async def __aexit__(self, kind: Optional[Type[BaseException]], error: Optional[BaseException], trace: Optional[TracebackType]) -> None:
        if not isinstance(error, GeneratorExit):
            await _loqzemar.call(36, self)


class Condition(int):
    """The number of a condition, as traces print it: c1."""

    __slots__ = ()

    def __repr__(self) -> str:
        return "none" if self == NONE else f"c{int(self)}"

    __str__ = __repr__


#: The number that nobody and nothing ever has.
NONE = 2**64 - 1
#: Nobody: every call to it is refused.
NOBODY = Tid(NONE)
#: The thread that a pod begins with.
FIRST = Tid(0)


def is_text(text: str) -> bool:
    """Whether a call or a line can carry it: at most 240 bytes, each from a space to `~`."""
    return len(text) <= 240 and text.isascii() and text.isprintable()


class Letter(NamedTuple):
    """A letter that was received."""

    #: Who sent it; an agent, if it is a line from outside.
    sender: Tid
    #: How many bytes the reply may have.
    room: int
    #: What it says.
    text: str


class Func(enum.IntEnum):
    """What a handler does with an exception that it is told of by exc_notify or a trap."""

    #: It catches.
    CATCH = 0
    #: It answers its argument.
    GIVE = 1
    #: It answers its argument plus the exception.
    SUM = 2


class Bound(NamedTuple):
    """How an exception would be handled."""

    #: What the handler does.
    func: Func
    #: Its argument.
    arg: int


class Caught(Exception):
    """An exception of the pod was caught: raised where the thread goes on, in the procedure that set the handler."""

    def __init__(self, pattern: int, handlers: Sequence[Call[Any]]) -> None:
        super().__init__(f"exception {pattern} was caught")
        #: The exception.
        self.pattern = pattern
        #: The handlers of this procedure that are gone now, as the calls of exc_handle that set them: first the one that caught.
        self.handlers = tuple(handlers)

    @property
    def handler(self) -> Call[Any]:
        """The call of exc_handle that set the handler."""
        return self.handlers[0]


class Refused(Exception):
    """A call is refused. Each error has a class of its own."""

    #: What the error says.
    meaning: ClassVar[str] = "the call is refused"

    def __init__(self, call: Optional[Call[Any]] = None) -> None:
        super().__init__(self.meaning)
        #: The call.
        self.call = call


class LE_NONEXIST(Refused):
    """Nobody has this number, or nothing is there to do it with."""

    meaning = "nobody has this number, or nothing is there to do it with"


class LE_TIMEOUT(Refused):
    """A receive found no letter, and waits no longer, or not at all."""

    meaning = "a receive found no letter, and waits no longer, or not at all"


class LE_INUSE(Refused):
    """It is in use."""

    meaning = "it is in use"


class LE_INVALIDARG(Refused):
    """What was named doesn't go with this call."""

    meaning = "what was named doesn't go with this call"


class LE_NOROOM(Refused):
    """A limit is reached."""

    meaning = "a limit is reached"


class LE_NOTOWNED(Refused):
    """The monitor isn't held as this call needs it."""

    meaning = "the monitor isn't held as this call needs it"


class LE_ILLPRIO(Refused):
    """A priority is out of range, or another than is needed."""

    meaning = "a priority is out of range, or another than is needed"


class LE_NOWAIT(Refused):
    """That one doesn't wait for this."""

    meaning = "that one doesn't wait for this"


#: The class of each error, by the number that the C header gives it.
ERRORS: Dict[int, Type[Refused]] = {
    1: LE_NONEXIST,
    2: LE_TIMEOUT,
    3: LE_INUSE,
    4: LE_INVALIDARG,
    5: LE_NOROOM,
    6: LE_NOTOWNED,
    7: LE_ILLPRIO,
    8: LE_NOWAIT,
}


class Differs(Exception):
    """A run isn't the one that was recorded."""

    def __init__(self, line: int, want: Optional[str], got: Optional[str]) -> None:
        super().__init__(f"line {line}: the run has {want!r}, and the record {got!r}")
        #: The line of the record, counted from 1.
        self.line = line
        #: The line of the run; None where it has no more.
        self.want = want
        #: The line of the record; None where it has no more.
        self.got = got


class End(enum.Enum):
    """Why a run stopped."""

    #: The pod has ended; Pod.status is its exit status.
    ENDED = "ended"
    #: Nobody may run, and no line that was posted can be taken.
    IDLE = "idle"
    #: As many calls were made as were allowed.
    SPENT = "spent"
