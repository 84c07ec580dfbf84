"""The calls, under the names of the manual. Each makes a call, which a body yields: `letter = yield msg_recv()`.

What a call does and what it is refused for is told by docs/calls.md and the manual pages, under the same names."""
from __future__ import annotations

from types import TracebackType
from typing import Any, Callable, NoReturn, Optional, Tuple, Type, Union

from ._loqzemar import Call
from ._loqzemar import call as _call
from .words import Bound, Caught, Condition, Func, Letter, Monitor, Tid

#: A procedure: a function whose result is a body, or its number in the pod.
Procedure = Union[Callable[..., Any], int]


def agt_create(event: int) -> Call[Tid]:
    """Makes an agent for an event: its lines become letters to the caller. Answers the agent's number."""
    return _call(22, 0, event)


def agt_enumerate() -> Call[Tuple[Tid, ...]]:
    """Answers the live agents, in the order of their births."""
    return _call(23)


def agt_trap(event: int) -> Call[int]:
    """Lets the lines of an event raise exceptions, in the thread whose turn it is. Answers 0."""
    return _call(24, 0, event)


def cv_broadcast(cond: int) -> Call[int]:
    """Wakes all who wait on a condition. Answers 0."""
    return _call(44, cond)


def cv_create(mon: int) -> Call[Condition]:
    """Makes a condition of a monitor, and answers its number."""
    return _call(40, mon)


def cv_destroy(cond: int) -> Call[int]:
    """Ends a condition on which nobody waits. Answers 0."""
    return _call(41, cond)


def cv_enumerate() -> Call[Tuple[Condition, ...]]:
    """Answers the live conditions, in the order of their births."""
    return _call(46)


def cv_notify(cond: int) -> Call[int]:
    """Wakes one who waits on a condition: the first of the greatest priority. Answers 0."""
    return _call(43, cond)


def cv_send(cond: int, tid: int) -> Call[int]:
    """Wakes this thread, which waits on the condition. Answers 0."""
    return _call(45, cond, 0, "", 0, 0, 0, 0, 0, tid)


def cv_wait(cond: int) -> Call[int]:
    """Waits on a condition, without its monitor meanwhile. Answers 0, with the monitor as before."""
    return _call(42, cond)


def cv_waiters(cond: int) -> Call[Tuple[Tid, ...]]:
    """Answers who waits on a condition, in the order in which they came."""
    return _call(47, cond)


def exc_bound(pattern: int) -> Call[Bound]:
    """Answers what the handler of an exception was set to do."""
    return _call(55, 0, pattern)


def exc_handle(pattern: Optional[int] = None, func: Func = Func.CATCH, arg: int = 0) -> Call[int]:
    """Sets a handler for an exception, or for all without one. Answers 0.

    Where it catches, `Caught` is raised in this procedure; its `handler` is this call. See `handling` for `async with`."""
    if pattern is None:
        return _call(50, 0, 0, "", 0, 0, 0, func, arg, 0, 0, True)
    return _call(50, 0, pattern, "", 0, 0, 0, func, arg)


def exc_notify(pattern: int) -> Call[int]:
    """Tells the handler of an exception, and answers what that gives, or else it catches."""
    return _call(54, 0, pattern)


def exc_on_exit(call: Call[Any]) -> Call[int]:
    """Sets an exit procedure, a call to be made when the procedure is over. Answers its number.

    It is one of mon_exit, mon_break, cv_notify, cv_broadcast, msg_reply, lwp_resume, pod_setexit and say."""
    return _call(52, call.target, call.number, call.text, 0, 0, 0, 0, 0, 0, call.kind)


def exc_raise(pattern: int) -> Call[NoReturn]:
    """Raises an exception: `Caught` is raised where its handler was set."""
    return _call(53, 0, pattern)


def exc_unhandle() -> Call[int]:
    """Removes the handler that was set last. Answers 0."""
    return _call(51)


def exc_uniqpatt() -> Call[int]:
    """Answers a number for an exception that nobody else has."""
    return _call(56)


def lwp_create(
    proc: Procedure, prio: int = 1, *args: Any, suspended: bool = False, nolastrites: bool = False, server: bool = False
) -> Call[Tid]:
    """Makes a thread that runs a procedure of the pod with these arguments, and answers its number.

    It can begin suspended; its death can go unreported (nolastrites); and the pod may end while it lives (server)."""
    number = proc if isinstance(proc, int) else 0
    return _call(0, 0, number, "", prio, 0, 0, 0, 0, 0, 0, False, suspended, nolastrites, server, (proc, args))


def lwp_destroy(tid: int) -> Call[int]:
    """Ends a thread or an agent. Answers 0, but for a thread that ends itself."""
    return _call(1, tid)


def lwp_enumerate() -> Call[Tuple[Tid, ...]]:
    """Answers the live threads, in the order of their births."""
    return _call(15)


def lwp_join(tid: int) -> Call[int]:
    """Waits for the death of a thread that lives; it is refused by LE_NONEXIST if that one has died already. Answers 0."""
    return _call(8, tid)


def lwp_ping(tid: int) -> Call[int]:
    """Answers 0 if this thread or agent lives."""
    return _call(2, tid)


def lwp_resched(prio: int) -> Call[int]:
    """Lets the first thread of a priority go last. Answers 0."""
    return _call(4, 0, 0, "", prio)


def lwp_resume(tid: int) -> Call[int]:
    """Lets a suspended thread go on. Answers 0."""
    return _call(7, tid)


def lwp_self() -> Call[Tid]:
    """Answers the caller's number."""
    return _call(10)


def lwp_setpri(tid: int, prio: int) -> Call[int]:
    """Gives a thread a priority, and answers the one before."""
    return _call(5, tid, 0, "", prio)


def lwp_sleep(ticks: int) -> Call[int]:
    """Waits until the clock has ticked so often. Answers 0."""
    return _call(9, 0, ticks)


def lwp_suspend(tid: int) -> Call[int]:
    """Stops a thread until somebody resumes it. Answers 0."""
    return _call(6, tid)


def lwp_yield(to: int) -> Call[int]:
    """Lets that thread go next; to oneself, lets all others of one's priority go first. Answers 0."""
    return _call(3, to)


def mon_break(mon: int) -> Call[int]:
    """Takes a monitor from its owner. Answers 0."""
    return _call(37, mon)


def mon_cond_enter(mon: int) -> Call[int]:
    """Enters a monitor if that goes without waiting, and answers the depth before."""
    return _call(35, mon)


def mon_create() -> Call[Monitor]:
    """Makes a monitor, and answers its number."""
    return _call(32)


def mon_destroy(mon: int) -> Call[int]:
    """Ends a monitor that nobody uses. Answers 0."""
    return _call(33, mon)


def mon_enter(mon: int) -> Call[int]:
    """Enters a monitor, and waits until nobody else has it. Answers the depth before."""
    return _call(34, mon)


def mon_enumerate() -> Call[Tuple[Monitor, ...]]:
    """Answers the live monitors, in the order of their births."""
    return _call(38)


def mon_exit(mon: int) -> Call[int]:
    """Leaves a monitor. Answers 0."""
    return _call(36, mon)


def mon_waiters(mon: int) -> Call[Tuple[Tid, ...]]:
    """Answers who waits to enter a monitor, in the order in which they came."""
    return _call(39, mon)


def msg_enumrecv() -> Call[Tuple[Tid, ...]]:
    """Answers who waits for a letter of the caller, by name."""
    return _call(21)


def msg_enumsend() -> Call[Tuple[Tid, ...]]:
    """Answers who has sent the letters that the caller has."""
    return _call(20)


def msg_recv(sender: Optional[int] = None, *, ticks: Optional[int] = None, poll: bool = False) -> Call[Letter]:
    """Answers the first letter of this sender, or of anybody without one, and waits for it.

    With ticks it waits until the clock has ticked so often, and with poll not at all; then it is refused with LE_TIMEOUT."""
    mode = 0 if poll else 1 if ticks is None else 2
    if sender is None:
        return _call(18, 0, ticks or 0, "", 0, 0, mode, 0, 0, 0, 0, True)
    return _call(18, sender, ticks or 0, "", 0, 0, mode)


def msg_reply(to: int, text: str = "") -> Call[int]:
    """Replies to the letter of that sender, which was received, now or long before: the sender waits until then. Answers 0."""
    return _call(19, to, 0, text)


def msg_send(to: int, text: str = "", room: int = 240) -> Call[str]:
    """Sends a letter with room for so many bytes in the reply, waits for that, and answers it."""
    return _call(17, to, 0, text, 0, room)


def pod_exit(status: int) -> Call[NoReturn]:
    """Ends the pod with this exit status, 0 to 99."""
    return _call(14, 0, status)


def pod_getexit() -> Call[int]:
    """Answers the exit status with which the pod would end now."""
    return _call(13)


def pod_setexit(status: int) -> Call[int]:
    """Sets the exit status, 0 to 99. Answers 0."""
    return _call(12, 0, status)


def pod_setmaxpri(prio: int) -> Call[int]:
    """Raises the greatest priority, up to 255. Answers 0."""
    return _call(11, 0, 0, "", prio)


def call(proc: Procedure, *args: Any) -> Call[Any]:
    """Runs a procedure of the pod in a frame of its own, and answers what that returns.

    When it is over its exit procedures run, and its handlers are gone. An exception of Python that leaves it is raised here."""
    number = proc if isinstance(proc, int) else 0
    return _call(48, 0, number, "", 0, 0, 0, 0, 0, 0, 0, False, False, False, False, (proc, args))


def return_() -> Call[NoReturn]:
    """Leaves the procedure, as `return` does: the caller of `call` goes on with None, and a thread's first procedure ends the thread."""
    return _call(49)


def say(text: str) -> Call[int]:
    """Puts a text into the trace. Answers 0."""
    return _call(16, 0, 0, text)


class handling:
    """A handler around a piece of an `async def`: `async with handling(7) as handler:`.

    Where the handler catches, control goes on after the block, and `handler.caught` is the exception; else that is None. Without a
    number it is for all exceptions."""

    def __init__(self, pattern: Optional[int] = None) -> None:
        self._call = exc_handle(pattern)
        #: The exception that was caught.
        self.caught: Optional[int] = None

    async def __aenter__(self) -> handling:
        await self._call
        return self

    async def __aexit__(self, kind: Optional[Type[BaseException]], error: Optional[BaseException], trace: Optional[TracebackType]) -> bool:
        if isinstance(error, Caught) and any(gone is self._call for gone in error.handlers):
            if error.handler is not self._call:
                return False
            self.caught = error.pattern
            return True
        if not isinstance(error, GeneratorExit):
            await exc_unhandle()
        return False
