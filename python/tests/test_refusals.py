"""Each refusal that docs/calls.md lists, by the call and the number that it has there."""
import inspect
import os
import pathlib
import re
from typing import Any, Callable, Dict, Generator, List, Tuple, Type

import loqzemar
import pytest
from loqzemar import *

TOP = pathlib.Path(os.environ.get("LOQZEMAR_TOP", pathlib.Path(__file__).resolve().parents[2]))
DOC = TOP / "docs" / "calls.md"
# What takes a thousand million calls or more to come to.
OUT_OF_REACH = {("exc_on_exit", 2), ("exc_uniqpatt", 1)}

Making = Generator[Call[Any], Any, None]
ROWS: Dict[Tuple[str, int], Tuple[Type[Refused], Callable[[], Making], Dict[str, Any]]] = {}


def row(name: str, number: int, error: Type[Refused], **pod: Any) -> Callable[[Callable[[], Making]], Callable[[], Making]]:
    """This generator makes calls; the last is the one of that name, and is refused."""

    def enter(main: Callable[[], Making]) -> Callable[[], Making]:
        assert (name, number) not in ROWS
        ROWS[name, number] = error, main, pod
        return main

    return enter


def idler() -> Making:
    """A thread that does nothing for long."""
    yield lwp_sleep(1)


def holder(mon: Monitor) -> Making:
    """A thread that holds a monitor for long."""
    yield mon_enter(mon)
    yield lwp_sleep(1)


def waiter(mon: Monitor, cond: Condition) -> Making:
    """A thread that waits on a condition."""
    yield mon_enter(mon)
    yield cv_wait(cond)


def sender() -> Making:
    """A thread that sends a letter to the first, which dies without a reply."""
    with pytest.raises(LE_NONEXIST):
        yield msg_send(FIRST, "hello", 2)


def deep(depth: int, marks: int) -> Making:
    """A procedure that calls itself so often, sets so many handlers in the last, and calls itself then."""
    if depth > 1:
        yield call(deep, depth - 1, marks)
    else:
        for _ in range(marks):
            yield exc_handle()
        yield call(deep, 1, 0)


HELPERS = (idler, holder, waiter, sender, deep)


@row("agt_create", 1, LE_INUSE)
def _() -> Making:
    yield agt_trap(5)
    yield agt_create(5)


@row("agt_create", 2, LE_INVALIDARG)
def _() -> Making:
    with pytest.raises(LE_INVALIDARG):
        yield agt_create(0)
    yield agt_create(33)


@row("agt_create", 3, LE_NOROOM)
def _() -> Making:
    for _ in range(256):
        yield agt_create(1)
    yield agt_create(2)


@row("agt_create", 4, LE_NOROOM, births=2)
def _() -> Making:
    yield agt_create(1)
    yield agt_create(2)


@row("agt_trap", 1, LE_INVALIDARG)
def _() -> Making:
    with pytest.raises(LE_INVALIDARG):
        yield agt_trap(0)
    yield agt_trap(32)


@row("agt_trap", 2, LE_INUSE)
def _() -> Making:
    yield agt_create(6)
    with pytest.raises(LE_INUSE):
        yield agt_trap(6)
    yield agt_trap(5)
    yield agt_trap(5)


def conditions() -> Generator[Call[Any], Any, Tuple[Monitor, Condition, Monitor]]:
    """A monitor, a condition of it, and another monitor."""
    mon = yield from mon_create()
    cond = yield from cv_create(mon)
    other = yield from mon_create()
    return mon, cond, other


# What broadcast, notify and wait are refused for.
def unknown(make: Callable[[int], Call[Any]]) -> Callable[[], Making]:
    def main() -> Making:
        yield make(0)

    return main


def unowned(make: Callable[[int], Call[Any]]) -> Callable[[], Making]:
    def main() -> Making:
        mon, cond, other = yield from conditions()
        with pytest.raises(LE_NOTOWNED):
            yield make(cond)
        yield mon_enter(mon)
        yield mon_enter(other)
        yield make(cond)

    return main


for word, make in (("cv_broadcast", cv_broadcast), ("cv_notify", cv_notify), ("cv_wait", cv_wait), ("cv_send", lambda cond: cv_send(cond, 0))):
    row(word, 1, LE_NONEXIST)(unknown(make))
    row(word, 2, LE_NOTOWNED)(unowned(make))
for word, make in (
    ("cv_create", cv_create), ("cv_destroy", cv_destroy), ("cv_waiters", cv_waiters), ("mon_break", mon_break), ("mon_cond_enter", mon_cond_enter),
    ("mon_destroy", mon_destroy), ("mon_enter", mon_enter), ("mon_exit", mon_exit), ("mon_waiters", mon_waiters), ("lwp_suspend", lwp_suspend),
    ("lwp_resume", lwp_resume), ("lwp_ping", lwp_ping), ("lwp_destroy", lwp_destroy), ("lwp_join", lwp_join), ("lwp_yield", lwp_yield),
    ("msg_recv", msg_recv), ("msg_send", msg_send), ("msg_reply", msg_reply), ("lwp_setpri", lambda tid: lwp_setpri(tid, 1)),
):
    row(word, 1, LE_NONEXIST)(unknown(lambda number, make=make: make(7)))


@row("cv_create", 2, LE_NOROOM)
def _() -> Making:
    mon = yield mon_create()
    for _ in range(256):
        yield cv_create(mon)
    yield cv_create(mon)


@row("cv_create", 3, LE_NOROOM, births=1)
def _() -> Making:
    mon = yield mon_create()
    yield cv_create(mon)
    yield cv_create(mon)


@row("cv_destroy", 2, LE_INUSE, maxpri=2)
def _() -> Making:
    mon, cond, _ = yield from conditions()
    yield lwp_setpri(FIRST, 1)
    yield lwp_create(waiter, 2, mon, cond)
    yield cv_destroy(cond)


@row("cv_send", 3, LE_NONEXIST)
def _() -> Making:
    mon, cond, _ = yield from conditions()
    yield mon_enter(mon)
    yield cv_send(cond, 7)


@row("cv_send", 4, LE_NOWAIT)
def _() -> Making:
    mon, cond, _ = yield from conditions()
    yield mon_enter(mon)
    yield cv_send(cond, FIRST)


def out_of_range(make: Callable[[int], Call[Any]]) -> Callable[[], Making]:
    def main() -> Making:
        with pytest.raises(LE_INVALIDARG):
            yield make(0)
        yield make(2**31)

    return main


for word, make in (("exc_bound", exc_bound), ("exc_handle", exc_handle), ("exc_notify", exc_notify), ("exc_raise", exc_raise)):
    row(word, 1, LE_INVALIDARG)(out_of_range(make))
for word, make in (("exc_bound", exc_bound), ("exc_notify", exc_notify), ("exc_raise", exc_raise)):
    row(word, 2, LE_NONEXIST)(unknown(lambda number, make=make: make(5)))


@row("exc_handle", 2, LE_NOROOM)
def _() -> Making:
    for _ in range(255):
        yield exc_handle()
    yield exc_handle()


@row("exc_on_exit", 1, LE_NOROOM)
def _() -> Making:
    for _ in range(255):
        yield exc_handle()
    yield exc_on_exit(say("bye"))


@row("exc_unhandle", 1, LE_NONEXIST)
def _() -> Making:
    yield exc_unhandle()


@row("exc_unhandle", 2, LE_INVALIDARG)
def _() -> Making:
    yield exc_on_exit(say("bye"))
    yield exc_unhandle()


@row("lwp_create", 1, LE_INVALIDARG)
def _() -> Making:
    yield lwp_create(99)


@row("lwp_create", 2, LE_ILLPRIO)
def _() -> Making:
    with pytest.raises(LE_ILLPRIO):
        yield lwp_create(idler, 0)
    yield lwp_create(idler, 2)


@row("lwp_create", 3, LE_NOROOM)
def _() -> Making:
    for _ in range(1023):
        yield lwp_create(idler, 1)
    yield lwp_create(idler, 1)


@row("lwp_create", 4, LE_NOROOM, births=1)
def _() -> Making:
    yield lwp_create(idler, 1)


@row("lwp_join", 2, LE_INVALIDARG)
def _() -> Making:
    yield lwp_join(FIRST)


@row("lwp_resched", 1, LE_ILLPRIO)
def _() -> Making:
    with pytest.raises(LE_ILLPRIO):
        yield lwp_resched(0)
    yield lwp_resched(2)


@row("lwp_resched", 2, LE_INVALIDARG, maxpri=2)
def _() -> Making:
    yield lwp_setpri(FIRST, 1)
    yield lwp_resched(2)


@row("lwp_setpri", 2, LE_ILLPRIO)
def _() -> Making:
    with pytest.raises(LE_ILLPRIO):
        yield lwp_setpri(FIRST, 0)
    yield lwp_setpri(FIRST, 2)


@row("lwp_yield", 2, LE_ILLPRIO, maxpri=2)
def _() -> Making:
    other = yield lwp_create(idler, 1)
    yield lwp_yield(other)


@row("lwp_yield", 3, LE_INVALIDARG)
def _() -> Making:
    other = yield lwp_create(idler, 1, suspended=True)
    yield lwp_yield(other)


@row("mon_break", 2, LE_NOTOWNED)
def _() -> Making:
    mon = yield mon_create()
    yield mon_break(mon)


@row("mon_cond_enter", 2, LE_INUSE, maxpri=2)
def _() -> Making:
    mon = yield mon_create()
    yield lwp_setpri(FIRST, 1)
    yield lwp_create(holder, 2, mon)
    yield mon_cond_enter(mon)


def entered(make: Callable[[int], Call[Any]]) -> Callable[[], Making]:
    def main() -> Making:
        mon = yield mon_create()
        for depth in range(65535):
            assert (yield make(mon)) == depth
        yield make(mon)

    return main


row("mon_cond_enter", 3, LE_NOROOM)(entered(mon_cond_enter))
row("mon_enter", 2, LE_NOROOM)(entered(mon_enter))


@row("mon_create", 1, LE_NOROOM)
def _() -> Making:
    for _ in range(256):
        yield mon_create()
    yield mon_create()


@row("mon_create", 2, LE_NOROOM, births=1)
def _() -> Making:
    yield mon_create()
    yield mon_create()


@row("mon_destroy", 2, LE_INUSE)
def _() -> Making:
    mon = yield mon_create()
    yield mon_enter(mon)
    yield mon_destroy(mon)


@row("mon_destroy", 3, LE_INUSE, maxpri=2)
def _() -> Making:
    mon, cond, _ = yield from conditions()
    yield lwp_setpri(FIRST, 1)
    yield lwp_create(waiter, 2, mon, cond)
    yield mon_destroy(mon)


@row("mon_exit", 2, LE_INVALIDARG)
def _() -> Making:
    mon = yield mon_create()
    yield mon_exit(mon)


@row("msg_recv", 2, LE_INVALIDARG)
def _() -> Making:
    yield msg_recv(FIRST)


@row("msg_recv", 3, LE_TIMEOUT)
def _() -> Making:
    with pytest.raises(LE_TIMEOUT):
        yield msg_recv(poll=True)
    with pytest.raises(LE_TIMEOUT):
        yield msg_recv(ticks=0)
    yield msg_recv(ticks=2)


@row("msg_reply", 2, LE_NOWAIT, maxpri=2)
def _() -> Making:
    yield lwp_setpri(FIRST, 1)
    other = yield lwp_create(sender, 2)
    yield msg_reply(other)


@row("msg_reply", 3, LE_INVALIDARG)
def _() -> Making:
    yield lwp_create(sender)
    letter = yield from msg_recv()
    assert letter.room == 2
    yield msg_reply(letter.sender, "long")


@row("msg_send", 2, LE_INVALIDARG)
def _() -> Making:
    yield msg_send(FIRST)


@row("pod_exit", 1, LE_INVALIDARG)
def _() -> Making:
    yield pod_exit(100)


@row("pod_setexit", 1, LE_INVALIDARG)
def _() -> Making:
    yield pod_setexit(100)


@row("pod_setmaxpri", 1, LE_ILLPRIO, maxpri=2)
def _() -> Making:
    with pytest.raises(LE_ILLPRIO):
        yield pod_setmaxpri(1)
    yield pod_setmaxpri(256)


@row("call", 1, LE_INVALIDARG)
def _() -> Making:
    yield call(99)


@row("call", 2, LE_NOROOM)
def _() -> Making:
    yield call(deep, 63, 0)


@row("call", 3, LE_NOROOM)
def _() -> Making:
    yield call(deep, 1, 254)


def listed() -> Dict[Tuple[str, int], str]:
    """The refusals that docs/calls.md lists, each with its error."""
    found = {}
    for entry in re.split(r"^### ", DOC.read_text(), flags=re.M)[1:]:
        errors = entry.partition("**ERRORS**")[2].partition("**SEE ALSO**")[0]
        for number, error in re.findall(r"^(\d)\. (LE_\w+):", errors, re.M):
            found[entry.split("\n")[0], int(number)] = error
    return found


def kind_of(name: str) -> int:
    """The kind of the calls of this name."""
    make = getattr(loqzemar, name)
    wanted = [it for it in inspect.signature(make).parameters.values() if it.default is it.empty and it.kind is it.POSITIONAL_OR_KEYWORD]
    return int(make(*[say("") if it.name == "call" else 1 for it in wanted]).kind)


def test_none_is_left_out() -> None:
    if not DOC.is_file():
        pytest.skip("the repository's pages aren't here")
    found = listed()
    assert found == {**{key: ROWS[key][0].__name__ for key in ROWS}, **{key: found[key] for key in OUT_OF_REACH}}
    assert len(found) >= 70


@pytest.mark.parametrize("key", sorted(ROWS), ids=lambda key: f"{key[0]}-{key[1]}")
def test_refusal(key: Tuple[str, int]) -> None:
    error, main, kept = ROWS[key]
    raised: List[Refused] = []

    def first() -> Making:
        with pytest.raises(error) as told:
            yield from main()
        raised.append(told.value)

    pod = Pod(first, *HELPERS, **kept)
    for _ in range(5):
        pod.tick()
    pod.run()
    assert len(raised) == 1 and type(raised[0]) is error
    lines = pod.trace.splitlines()
    at = next(at for at, line in enumerate(lines) if line.endswith(f"! {error.__name__}"))
    assert re.fullmatch(r"t\d+ ! LE_\w+", lines[at])
    made = raised[0].call
    assert made is not None and made.kind == kind_of(key[0]) and str(raised[0])


def test_a_sender_hears_of_a_death() -> None:
    def main() -> Making:
        other = yield lwp_create(idler, 1)
        with pytest.raises(LE_NONEXIST):
            yield msg_send(other, "are you there")
        with pytest.raises(LE_NONEXIST):
            other = yield lwp_create(idler, 1)
            yield msg_recv(other)
        yield pod_setexit(7)

    pod = Pod(main, idler)
    for _ in range(20):
        pod.tick()
    assert pod.run() is End.ENDED and pod.status == 7


def test_a_refusal_that_nobody_catches_comes_out_of_the_run() -> None:
    def main() -> Making:
        yield lwp_create(idler, 1)
        yield lwp_join(99)

    pod = Pod(main, idler)
    with pytest.raises(LE_NONEXIST):
        pod.run()
    assert pod.run() is End.IDLE and pod.trace.endswith("t0 dies\nt1: sleep 1\nstuck\n")
    pod.tick()
    assert pod.run() is End.ENDED
    assert pod.trace.splitlines()[-1] == "pod ends 0"
