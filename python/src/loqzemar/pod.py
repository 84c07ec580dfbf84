"""A pod: threads that are generators, the lines that come from outside, and the trace."""
from __future__ import annotations

import sys
from collections import deque
from types import TracebackType
from typing import Any, Callable, Deque, Dict, List, Optional, Tuple, Type

from ._loqzemar import Call, Core
from .calls import return_
from .follow import Record
from .words import ERRORS, Bound, Caught, Condition, Differs, End, Func, Letter, Monitor, Tid, is_text

# What a body that is at its end calls.
_RETURN: Call[Any] = return_()
# The kinds of calls that change which body goes on, or what its handlers are.
CREATE, REPLY, CALLPROC, RETURN, HANDLE, UNHANDLE = 0, 19, 48, _RETURN.kind, 50, 51
# The kinds of effects.
ANSWERED, DIED, DELIVERED, ENDED = 1, 3, 4, 6
# The kinds of answers that aren't told as they come.
VALUE, CAUGHT, REFUSED = 0, 7, 9

Effects = Tuple[Tuple[int, int, int, Any], ...]

_IDS: Tuple[Type[int], ...] = (Tid, Monitor, Condition)
_SAID: Dict[int, Callable[[Any], object]] = {
    1: Tid,
    2: Monitor,
    3: Condition,
    4: lambda said: Letter(Tid(said[0]), said[1], said[2]),
    5: lambda said: said,
    6: lambda said: Bound(Func(said[0]), said[1]),
    8: lambda said: tuple(map(_IDS[said[0]], said[1])),
}
_SPECIAL = frozenset((CREATE, REPLY, CALLPROC, RETURN, HANDLE, UNHANDLE))


class _Frame:
    """A procedure that a thread is in: its body, None once that is at its end, and the handlers that are set there."""

    __slots__ = ("body", "handlers")

    def __init__(self, body: Any) -> None:
        self.body = body
        self.handlers: List[Call[Any]] = []


class _Thread:
    """A thread: its procedures, the last one above, and what that one goes on with."""

    __slots__ = ("frames", "send", "value", "error", "made", "result", "failure")

    def __init__(self, body: Any) -> None:
        self.frames = [_Frame(body)]
        self.send: Any = getattr(body, "send", None)
        # The answer: an exception to be raised, or else a value.
        self.value: Any = None
        self.error: Optional[BaseException] = None
        self.made = _RETURN
        # What the procedure returned, or what it raised; the procedure below goes on with that.
        self.result: Any = None
        self.failure: Optional[BaseException] = None

    def begin(self, body: Any) -> None:
        """A procedure is called."""
        self.frames.append(_Frame(body))
        self.send = getattr(body, "send", None)
        self.value = None

    def leave(self) -> None:
        """The topmost procedure is over."""
        body = self.frames.pop().body
        if self.frames and self.frames[-1].body is not None:
            self.send = self.frames[-1].body.send
        if body is not None:
            _close(body)

    def next(self) -> Call[Any]:
        """The next call, from the topmost body; a return where that is at its end."""
        frame, error, value = self.frames[-1], self.error, self.value
        self.error = self.value = None
        try:
            if frame.body is not None:
                made: Call[Any] = self.send(value) if error is None else frame.body.throw(error)
                return made
        except StopIteration as end:
            frame.body, self.result = None, end.value
        except BaseException as failure:
            frame.body = None
            if len(self.frames) == 1:
                raise
            self.failure = failure
        return _RETURN


def _close(body: Any) -> None:
    """Ends a body, whatever calls it still yields on its way out: none of them is made."""
    for _ in range(1000):
        try:
            # To look at the kind of a call is to see it, so that nobody is warned of it.
            getattr(body.throw(GeneratorExit()), "kind", None)
        except (GeneratorExit, StopIteration):
            return


def _noted(failure: BaseException, note: str) -> BaseException:
    if sys.version_info >= (3, 11):
        failure.add_note(note)
    return failure


class Pod:
    """Threads that take turns, one at a time, in an order that is the same on every run.

    The first procedure is that of the first thread, and gets `args`. A procedure is a generator function whose generators yield calls, or
    an `async def` that awaits them. `maxpri` is the greatest priority, 1 to 255, and `births` how many threads, monitors and conditions
    may ever be born, of each. Without `trace` no trace is kept, and a turn is faster. `tell` is called with a client's number and a text
    where a thread replies to an agent: it says what the client is told whose line the agent holds."""

    def __init__(
        self,
        *procedures: Callable[..., Any],
        maxpri: int = 1,
        births: int = 2**32 - 1,
        args: Tuple[Any, ...] = (),
        trace: bool = True,
        tell: Optional[Callable[[int, str], object]] = None,
    ) -> None:
        if not procedures:
            raise TypeError("a pod has a procedure at least, that of its first thread")
        self._core = Core(maxpri, births, len(procedures))
        self._procedures = procedures
        self._numbers = {procedure: number for number, procedure in enumerate(procedures)}
        for procedure in procedures:
            self._core.name(getattr(procedure, "__name__", "procedure"))
        self._threads: Dict[int, _Thread] = {0: _Thread(self._body(0, args))}
        self._lines: Optional[List[str]] = [] if trace else None
        self._tell = tell
        # The lines that wait, by their events, and how many each client has posted and how many of them were taken.
        self._waiting: Dict[int, Deque[Tuple[int, int, str]]] = {}
        self._posted: Dict[int, int] = {}
        self._taken: Dict[int, int] = {}
        # The client whose line an agent holds.
        self._holders: Dict[int, int] = {}
        self._calls = 0
        self._end: Optional[End] = None
        self._busy = False
        self._status: Optional[int] = None

    def __enter__(self) -> Pod:
        return self

    def __exit__(self, kind: Optional[Type[BaseException]], error: Optional[BaseException], trace: Optional[TracebackType]) -> None:
        self.close()

    @property
    def status(self) -> Optional[int]:
        """The exit status of the pod once it has ended, and None before."""
        return self._status

    @property
    def current(self) -> Optional[Tid]:
        """Whose turn it is, and None if it is nobody's. A body that looks here finds itself."""
        who = self._core.current()
        return None if who is None else Tid(who)

    @property
    def calls(self) -> int:
        """How many calls were made."""
        return self._calls

    @property
    def trace(self) -> str:
        """The trace so far, as `lwpserve plan` writes it, with the lines at its end if the run goes no further."""
        if self._lines is None:
            raise ValueError("this pod keeps no trace")
        self._lines[:] = ["".join(self._lines)]
        return self._lines[0] + self._tail()

    def drain(self) -> str:
        """The lines of the trace since the last drain; the pod forgets them."""
        if self._lines is None:
            raise ValueError("this pod keeps no trace")
        lines = "".join(self._lines)
        self._lines.clear()
        return lines

    def state(self) -> str:
        """The state of the pod as a text, as `lwpstate` writes it: who waits for whom, who holds what, and who is in a deadlock. It has no
        lines of clients."""
        return self._core.state()

    def post(self, event: int, text: str = "", client: Optional[int] = None) -> None:
        """Posts a line to an event, 0 to 31; the run takes it as soon as it can.

        The trace names the client, 0 to 255, and numbers its lines. Without one, the client has the number of the event."""
        if not 0 <= event <= 31:
            raise ValueError(f"an event is a number from 0 to 31, and not {event}")
        if not is_text(text):
            raise ValueError("a text has at most 240 bytes, each from a space to '~'")
        client = event if client is None else client
        if not 0 <= client <= 255:
            raise ValueError(f"a client is a number from 0 to 255, and not {client}")
        number = self._posted.get(client, 0)
        self._posted[client] = number + 1
        line = (client, number, text)
        lines = self._waiting.get(event)
        if lines is None:
            self._waiting[event] = deque((line,))
        else:
            lines.append(line)

    def tick(self, text: str = "") -> None:
        """Posts a tick of the clock, which is event 0."""
        self.post(0, text)

    def run(self, turns: Optional[int] = None) -> End:
        """Runs until the pod has ended, or nobody may run, or so many calls were made. It can be run on.

        What a body raises and doesn't catch comes out of here; if the pod is run on, that thread returns."""
        self._begin()
        try:
            last = None if turns is None else self._calls + turns
            current, turn = self._core.current, self._turn
            while True:
                who = current()
                if who is None:
                    if self._status is not None:
                        return self._over(End.ENDED)
                    if not (self._waiting and self._boundary()):
                        return self._over(End.IDLE)
                    continue
                if self._calls == last:
                    return self._over(End.SPENT)
                if self._waiting and self._boundary():
                    who = current()
                turn(who)
        finally:
            self._busy = False

    def follow(self, record: str) -> End:
        """Runs as a recorded trace tells: each line is taken where it was taken then, and nothing has to be posted.

        Differs is raised where the run isn't the recorded one. Where the record ends early, so does this, and the pod can be run on."""
        self._begin()
        try:
            told = Record(record)
            while not told.is_over():
                line = told.delivery()
                if line is not None:
                    self._follow_line(told, *line)
                elif self._core.current() is not None and not told.is_spent(self._calls):
                    self._turn(self._core.current())
                    told.compare_step(self._core)
                else:
                    told.compare(self._tail_of(told))
        finally:
            self._busy = False
        return self._over(End.SPENT if self._core.current() is not None else End.ENDED if self._status is not None else End.IDLE)

    def close(self) -> None:
        """Ends the bodies of all threads that live, without any more calls."""
        failure: Optional[BaseException] = None
        while self._threads:
            try:
                self._die(next(iter(self._threads)))
            except BaseException as error:
                failure = failure or error
        if failure is not None:
            raise failure

    # A pod is run by one at a time, and not by a body of its own.
    def _begin(self) -> None:
        if self._busy:
            raise RuntimeError("this pod is running")
        self._busy, self._end = True, None

    # Where the run stops.
    def _over(self, end: End) -> End:
        self._end = end
        return end

    # The lines that end a trace.
    def _tail(self) -> str:
        if self._core.current() is None:
            first = "" if self._core.ending()[0] == 1 else "stuck\n"
        elif self._end is End.SPENT:
            first = f"spent {self._calls}\n"
        else:
            return ""
        left = {client: posted - self._taken.get(client, 0) for client, posted in sorted(self._posted.items())}
        return first + "".join(f"left client {client} {count}\n" for client, count in left.items() if count)

    # The lines that end a trace beside a record, which alone knows of lines that weren't taken.
    def _tail_of(self, told: Record) -> str:
        if self._core.current() is not None:
            return f"spent {self._calls}\n" + told.left()
        return ("" if self._core.ending()[0] == 1 else "stuck\n") + told.left()

    def _body(self, number: int, args: Tuple[Any, ...]) -> Any:
        body = self._procedures[number](*args)
        if not hasattr(body, "send"):
            raise TypeError(f"{self._procedures[number]!r} is no generator function, nor an async def")
        return body

    # The call with the number of its procedure.
    def _numbered(self, call: Call[Any]) -> Call[Any]:
        proc = call.attached[0]
        if isinstance(proc, int):
            return call
        if proc not in self._numbers:
            raise ValueError(f"{proc!r} is no procedure of this pod: name it in Pod(..)")
        return call.numbered(self._numbers[proc])

    def _turn(self, who: Any) -> None:
        thread = self._threads[who]
        while True:
            try:
                call = thread.next()
            except BaseException as failure:
                raise _noted(failure, f"in thread t{who}")
            try:
                kind = call.kind
                effects = self._core.call(self._numbered(call) if kind == CREATE or kind == CALLPROC else call)
                break
            except (TypeError, ValueError, AttributeError, MemoryError) as fault:
                thread.error = fault if type(call) is Call else TypeError(f"a body yields calls, as lwp_yield(tid), and not {call!r}")
        self._calls += 1
        thread.made = call
        # By far most turns do one thing, the caller is answered a number; or nothing, the caller waits.
        if len(effects) == 1:
            effect, tid, answer, said = effects[0]
            if effect != ANSWERED or answer != VALUE or tid != who or kind in _SPECIAL:
                self._take(who, call, effects)
                return
            thread.value = said
        elif effects:
            self._take(who, call, effects)
            return
        if self._lines is not None:
            self._lines.append(self._core.lines())

    # What a step did, and its lines. What is raised by bodies that end comes out when all is done.
    def _take(self, who: Optional[int], call: Optional[Call[Any]], effects: Effects) -> None:
        failure: Optional[BaseException] = None
        for kind, tid, answer, said in effects:
            try:
                if kind == ANSWERED:
                    self._answer(tid, answer, said)
                    if call is not None and tid == who and answer != REFUSED and answer != CAUGHT and call.kind in _SPECIAL:
                        self._grant(self._threads[tid], call, said)
                elif kind == DIED:
                    self._die(tid)
                elif kind == ENDED:
                    self._status = said
                    self.close()
            except BaseException as error:
                failure = failure or error
        if self._lines is not None:
            self._lines.append(self._core.lines())
        if failure is not None:
            raise failure

    def _answer(self, tid: int, answer: int, said: Any) -> None:
        thread = self._threads[tid]
        if answer == VALUE:
            thread.value = said
        elif answer == REFUSED:
            thread.error = ERRORS[said](thread.made)
        elif answer == CAUGHT:
            self._catch(thread, *said)
        else:
            thread.value = _SAID[answer](said)

    # The calls that change which body goes on, or what its handlers are.
    def _grant(self, thread: _Thread, call: Call[Any], said: Any) -> None:
        kind = call.kind
        if kind == CREATE:
            body, failure = self._begun(call)
            self._threads[said] = _Thread(body)
            thread.error = failure
        elif kind == CALLPROC:
            body, failure = self._begun(call)
            thread.begin(body)
            thread.failure = failure
        elif kind == RETURN:
            thread.leave()
            thread.value, thread.error = thread.result, thread.failure
            thread.result = thread.failure = None
        elif kind == HANDLE:
            thread.frames[-1].handlers.append(call)
        elif kind == UNHANDLE:
            thread.frames[-1].handlers.pop()
        elif self._tell is not None and call.target in self._holders:
            self._tell(self._holders.pop(call.target), call.text)

    # The body of a procedure, or what its making raised: then it is at its end, and the caller is told.
    def _begun(self, call: Call[Any]) -> Tuple[Any, Optional[Exception]]:
        proc, args = call.attached
        try:
            return self._body(proc if isinstance(proc, int) else self._numbers[proc], args), None
        except Exception as failure:
            return None, failure

    def _catch(self, thread: _Thread, depth: int, mark: int, pattern: int) -> None:
        while len(thread.frames) > depth:
            thread.leave()
        handlers = thread.frames[-1].handlers
        thread.value, thread.error = None, Caught(pattern, handlers[mark:])
        del handlers[mark:]

    def _die(self, tid: int) -> None:
        thread = self._threads.pop(tid)
        while thread.frames:
            thread.leave()

    def _deliver(self, event: int, client: int, number: int, text: str) -> None:
        effects = self._core.deliver(event, client, number, text)
        self._taken[client] = self._taken.get(client, 0) + 1
        for kind, tid, _, _ in effects:
            if kind == DELIVERED:
                self._holders[tid] = client
        self._take(None, None, effects)

    # Each event may have one line taken.
    def _boundary(self) -> bool:
        some = False
        for event in sorted(self._waiting):
            if self._core.armed(event):
                lines = self._waiting[event]
                line = lines.popleft()
                if not lines:
                    del self._waiting[event]
                self._deliver(event, *line)
                some = True
        return some

    def _follow_line(self, told: Record, event: int, client: int, number: int, text: str) -> None:
        if not self._core.armed(event):
            raise Differs(told.line, None, told.at())
        self._posted[client] = max(self._posted.get(client, 0), number + 1)
        self._deliver(event, client, number, text)
        told.compare_step(self._core)

