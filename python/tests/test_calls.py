"""What each call answers, and what a pod does around the calls."""
import gc
import inspect
import os
import pathlib
import re
import warnings
import weakref
from typing import Any, Callable, Generator, List, Tuple

import loqzemar
import pytest
from loqzemar import *
from loqzemar._loqzemar import Core

TOP = pathlib.Path(os.environ.get("LOQZEMAR_TOP", pathlib.Path(__file__).resolve().parents[2]))
Making = Generator[Call[Any], Any, Any]


def ran(main: Callable[..., Any], *others: Callable[..., Any], ticks: int = 0, **kept: Any) -> Pod:
    """The pod of these procedures, after its end."""
    pod = Pod(main, *others, **kept)
    for _ in range(ticks):
        pod.tick()
    assert pod.run() is End.ENDED
    return pod


def idler() -> Making:
    yield lwp_sleep(1)


def server() -> Making:
    while True:
        letter = yield from msg_recv()
        yield msg_reply(letter.sender, letter.text.upper())


def test_threads() -> None:
    def main() -> Making:
        me = yield lwp_self()
        assert me == FIRST == 0 and type(me) is Tid and str(me) == "t0"
        other = yield lwp_create(idler, 1, suspended=True)
        assert type(other) is Tid and f"{other}" == "t1"
        assert (yield lwp_enumerate()) == (me, other)
        assert (yield lwp_ping(other)) == 0
        assert (yield lwp_setpri(other, 2)) == 1
        assert (yield lwp_resched(2)) == 0
        assert (yield lwp_resume(other)) == 0
        assert (yield lwp_suspend(other)) == 0
        assert (yield lwp_yield(me)) == 0
        assert (yield lwp_destroy(other)) == 0
        assert (yield lwp_enumerate()) == (me,)
        third = yield lwp_create(idler, 1)
        assert (yield lwp_sleep(1)) == 0
        assert (yield lwp_join(third)) == 0
        assert str(NOBODY) == "none"

    ran(main, idler, maxpri=2, ticks=40)


def test_arguments_go_to_the_body() -> None:
    got: List[Tuple[str, int]] = []

    def main(word: str) -> Making:
        yield lwp_create(other, 1, word, 7)

    def other(word: str, number: int) -> Making:
        got.append((word, number))
        yield say(word)

    ran(main, other, args=("hi",))
    assert got == [("hi", 7)]


def test_monitors_and_conditions() -> None:
    def main() -> Making:
        mon = yield mon_create()
        assert type(mon) is Monitor and str(mon) == "m0"
        assert (yield mon_enter(mon)) == 0
        assert (yield mon_cond_enter(mon)) == 1
        cond = yield cv_create(mon)
        assert type(cond) is Condition and str(cond) == "c0"
        assert (yield mon_enumerate()) == (mon,) and (yield cv_enumerate()) == (cond,)
        assert (yield mon_waiters(mon)) == () and (yield cv_waiters(cond)) == ()
        assert (yield mon_exit(mon)) == 0
        first = yield lwp_create(waiter, 1, mon, cond)
        second = yield lwp_create(waiter, 1, mon, cond)
        third = yield lwp_create(waiter, 1, mon, cond)
        assert (yield lwp_yield(first)) == 0
        assert (yield mon_waiters(mon)) == (first,)
        assert (yield cv_wait(cond)) == 0
        assert (yield cv_waiters(cond)) == (first, second, third)
        assert (yield cv_notify(cond)) == 0
        assert (yield cv_send(cond, third)) == 0
        assert (yield mon_waiters(mon)) == (first, third)
        assert (yield cv_broadcast(cond)) == 0
        assert (yield mon_exit(mon)) == 0
        for tid in (first, second, third):
            with pytest.raises(LE_NONEXIST):
                while True:
                    yield lwp_join(tid)
        assert (yield cv_destroy(cond)) == 0
        yield mon_enter(mon)
        assert (yield mon_break(mon)) == 0
        assert (yield mon_destroy(mon)) == 0

    def waiter(mon: Monitor, cond: Condition) -> Making:
        yield mon_enter(mon)
        if (yield lwp_self()) == 3:
            yield cv_notify(cond)
        yield cv_wait(cond)
        yield mon_exit(mon)

    ran(main, waiter)


def test_letters() -> None:
    def main() -> Making:
        desk = yield lwp_create(server, 1, server=True)
        asker = yield lwp_create(ask, 1)
        assert (yield msg_send(desk, "hello")) == "HELLO"
        letter = yield msg_recv(asker)
        assert letter == Letter(asker, 3, "x y") and type(letter.sender) is Tid
        assert (yield msg_enumsend()) == (asker,) and (yield msg_enumrecv()) == ()
        assert (yield msg_reply(asker, "z")) == 0

    def ask() -> Making:
        assert (yield msg_send(FIRST, "x y", 3)) == "z"

    ran(main, server, ask)


def test_lines_from_outside() -> None:
    told: List[Tuple[int, str]] = []

    def main() -> Making:
        agent = yield agt_create(5)
        assert type(agent) is Tid and (yield agt_enumerate()) == (agent,)
        for word in ("one", "two"):
            letter = yield msg_recv()
            assert letter == (agent, 240, word)
            yield msg_reply(agent, word.upper())

    pod = Pod(main, tell=lambda client, text: told.append((client, text)))
    pod.post(5, "one", 3)
    assert pod.run() is End.IDLE and told == [(3, "ONE")] and pod.trace.endswith("stuck\n")
    pod.post(5, "two", 4)
    pod.post(5, "three", 3)
    pod.post(5, "four", 3)
    pod.post(5)
    assert pod.run() is End.ENDED and told == [(3, "ONE"), (4, "TWO")]
    assert "event 5 client 4 seq 0 two\n" in pod.trace
    assert pod.trace.endswith("pod ends 0\nleft client 3 1\nleft client 5 1\n")


def test_a_letter_in_time() -> None:
    def main() -> Making:
        with pytest.raises(LE_TIMEOUT):
            yield msg_recv(ticks=1)
        yield lwp_create(sender, 1)
        letter = yield msg_recv(ticks=5)
        yield msg_reply(letter.sender)

    def sender() -> Making:
        assert (yield msg_send(FIRST, "now", 0)) == ""

    ran(main, sender, ticks=3)


def test_exceptions() -> None:
    def main() -> Making:
        handler = exc_handle(7)
        assert (yield handler) == 0
        assert (yield exc_handle(8, Func.SUM, 5)) == 0
        assert (yield exc_bound(8)) == Bound(Func.SUM, 5)
        assert (yield exc_notify(8)) == 13
        assert (yield exc_unhandle()) == 0
        assert (yield exc_handle(func=Func.GIVE, arg=3)) == 0
        assert (yield exc_notify(99)) == 3
        assert (yield exc_unhandle()) == 0
        assert (yield exc_uniqpatt()) == 2**30
        with pytest.raises(Caught) as caught:
            yield call(below)
        assert caught.value.pattern == 7 and caught.value.handler is handler
        with pytest.raises(LE_NONEXIST):
            yield exc_bound(7)

    def below() -> Making:
        assert (yield exc_on_exit(say("out"))) == 0
        yield call(lowest)

    def lowest() -> Making:
        yield exc_raise(7)
        raise AssertionError("the exception is caught above")

    assert "t0: raise 7\nexit x0 note out = 0\nt0 caught 7\n" in ran(main, below, lowest).trace


def test_exit_procedures() -> None:
    def main() -> Making:
        mon, cond = (yield mon_create()), None
        cond = yield cv_create(mon)
        other = yield lwp_create(idler, 1, suspended=True)
        made = [mon_exit(mon), mon_break(mon), cv_notify(cond), cv_broadcast(cond), msg_reply(other, "x"), lwp_resume(other), pod_setexit(3), say("bye")]
        for number, each in enumerate(made):
            assert (yield exc_on_exit(each)) == number
        with pytest.raises(ValueError, match="no such call"):
            yield exc_on_exit(lwp_self())

    pod = ran(main, idler, ticks=30)
    assert pod.status == 3
    words = re.findall(r"^exit x\d (\w+)", pod.trace, re.M)
    assert words == ["note", "setexit", "resume", "reply", "broadcast", "notify", "monbreak", "monexit"]


def test_traps() -> None:
    def main() -> Making:
        assert (yield agt_trap(5)) == 0
        yield exc_handle(5, Func.GIVE, 1)
        yield say("one")
        yield exc_unhandle()
        yield exc_handle(5)
        with pytest.raises(Caught) as caught:
            for _ in range(10):
                yield say("two")
        assert caught.value.pattern == 5
        yield say("three")

    pod = Pod(main)
    pod.run(2)
    pod.post(5)
    pod.run(3)
    pod.post(5)
    assert pod.run() is End.ENDED
    assert pod.trace.count("t0 trap 5\n") == 2 and "t0 trap 5\nt0: say one\n" in pod.trace and "t0 trap 5\nt0 caught 5\nt0: say three" in pod.trace


def test_a_trap_that_nobody_handles() -> None:
    left: List[str] = []

    def main() -> Making:
        yield agt_trap(5)
        try:
            while True:
                yield say("on")
        finally:
            left.append("gone")

    pod = Pod(main)
    pod.run(3)
    pod.post(5)
    assert pod.run() is End.ENDED and left == ["gone"]


def test_a_trap_after_the_end_of_a_body() -> None:
    def main() -> Making:
        yield agt_trap(5)
        yield exc_handle(5)

    pod = Pod(main)
    pod.run(2)
    pod.post(5)
    assert pod.run() is End.ENDED and pod.trace.count("t0 caught 5\n") == 1


def test_the_pod() -> None:
    def main() -> Making:
        assert (yield pod_getexit()) == 0
        assert (yield pod_setexit(9)) == 0
        assert (yield pod_getexit()) == 9
        assert (yield pod_setmaxpri(4)) == 0
        assert (yield lwp_setpri(FIRST, 4)) == 1
        yield pod_exit(8)
        raise AssertionError("the pod has ended")

    pod = ran(main)
    assert pod.status == 8 and pod.current is None
    assert pod.run() is End.ENDED


def test_procedures() -> None:
    def main() -> Making:
        assert (yield call(twice, 4)) == 8
        assert (yield call(left)) is None
        with pytest.raises(KeyError):
            yield call(fails)
        assert (yield call(1, 5)) == 10

    def twice(number: int) -> Making:
        yield say("twice")
        return 2 * number

    def left() -> Making:
        yield return_()
        raise AssertionError("the procedure was left")

    def fails() -> Making:
        yield say("fails")
        raise KeyError("x")

    pod = ran(main, twice, left, fails)
    assert pod.trace.count("t0: return\n") == 5


def test_async() -> None:
    said: List[object] = []

    async def main() -> None:
        mon = await mon_create()
        await lwp_create(other, 1, mon)
        async with mon:
            await lwp_yield(FIRST)
            said.append(await mon_waiters(mon))
        async with handling(7) as outer:
            async with handling() as inner:
                await exc_raise(9)
            said.append((inner.caught, outer.caught))
            async with handling(8) as inner:
                await call(raising, 7)
        said.append((inner.caught, outer.caught))
        with pytest.raises(KeyError):
            async with handling(7), mon:
                raise KeyError
        with pytest.raises(LE_NONEXIST):
            await exc_bound(7)
        said.append(await mon_waiters(mon))

    async def other(mon: Monitor) -> None:
        async with mon:
            await say("mine")

    async def raising(pattern: int) -> None:
        await exc_raise(pattern)

    ran(main, other, raising)
    assert said == [(1,), (9, None), (None, 7), ()]


def test_yield_from_asks_and_answers() -> None:
    def main() -> Making:
        me = yield from lwp_self()
        assert me == FIRST
        with pytest.raises(LE_NONEXIST):
            yield from lwp_join(9)
        again = lwp_self()
        assert (yield again) == (yield from again) == (yield from again)
        return (yield from helper())

    def helper() -> Making:
        yield say("help")

    ran(main)


def test_a_thread_that_is_destroyed_cleans_up() -> None:
    left: List[str] = []

    def main() -> Making:
        mon = yield mon_create()
        first = yield lwp_create(plain, 1, mon)
        second = yield lwp_create(held, 1, mon)
        yield lwp_yield(FIRST)
        yield lwp_yield(FIRST)
        yield lwp_destroy(first)
        yield lwp_yield(FIRST)
        yield lwp_destroy(second)
        assert (yield mon_cond_enter(mon)) == 0

    def plain(mon: Monitor) -> Making:
        yield mon_enter(mon)
        try:
            yield lwp_sleep(1)
        finally:
            left.append("plain")
            yield mon_exit(mon)

    async def held(mon: Monitor) -> None:
        try:
            async with mon:
                await lwp_sleep(1)
        finally:
            left.append("held")

    pod = ran(main, plain, held)
    assert left == ["plain", "held"] and "monexit" not in pod.trace


def test_servers_end_with_the_pod() -> None:
    left: List[str] = []

    def main() -> Making:
        yield lwp_create(desk, 1, server=True)
        yield lwp_yield(FIRST)

    def desk() -> Making:
        try:
            yield msg_recv()
        finally:
            left.append("desk")

    ran(main, desk)
    assert left == ["desk"]


def test_closing() -> None:
    left: List[str] = []

    def main() -> Making:
        try:
            yield lwp_sleep(1)
        finally:
            left.append("main")
            yield say("never said")

    with Pod(main) as pod:
        assert pod.run() is End.IDLE
    assert left == ["main"]


def test_what_is_no_call() -> None:
    def main() -> Making:
        with pytest.raises(TypeError, match="a body yields calls"):
            yield 3
        with pytest.raises(TypeError, match="a body yields calls"):
            yield None
        with pytest.raises(ValueError, match="240 bytes"):
            yield say("x" * 241)
        with pytest.raises(ValueError, match="240 bytes"):
            yield say("caf\u00e9")
        with pytest.raises(ValueError, match="no procedure of this pod"):
            yield lwp_create(idler)
        with pytest.raises(TypeError):
            yield say(3)  # type: ignore[arg-type]
        for number in (-1, 2**32):
            with pytest.raises(OverflowError):
                yield lwp_sleep(number)
        with pytest.raises(OverflowError):
            yield msg_send(FIRST, "x", 256)
        assert (yield say("on")) == 0

    assert ran(main).trace.startswith("t0: say on\n")


def test_a_body_that_cannot_be_made() -> None:
    def main() -> Making:
        with pytest.raises(TypeError):
            yield lwp_create(idler, 1, "one argument too many")
        with pytest.raises(TypeError):
            yield call(idler, "one argument too many")
        yield lwp_yield(FIRST)

    assert ran(main, idler).trace.count("dies") == 2


def test_what_a_body_raises_on_its_way_out() -> None:
    def main() -> Making:
        yield lwp_create(fails)
        yield lwp_create(fails)
        yield lwp_yield(FIRST)
        yield pod_exit(3)

    def fails() -> Making:
        try:
            yield lwp_sleep(1)
        finally:
            left.append(1)
            raise KeyError("out")

    left: List[int] = []
    pod = Pod(main, fails)
    with pytest.raises(KeyError):
        pod.run()
    assert left == [1, 1]
    assert pod.run() is End.ENDED and pod.status == 3 and pod.trace.endswith("pod ends 3\n")


def test_a_call_that_is_never_made() -> None:
    def main() -> Making:
        with pytest.warns(RuntimeWarning, match="never made"):
            say("forgotten")
        with pytest.warns(RuntimeWarning, match="never made"):
            lwp_create(idler)
        yield say("made")

    assert ran(main).calls == 2


def test_nobody_is_warned_of_calls_that_are_made() -> None:
    def main() -> Making:
        yield exc_on_exit(say("out"))
        yield from lwp_self()
        other = yield lwp_create(cleaning)
        yield lwp_yield(FIRST)
        yield lwp_destroy(other)
        yield say("x" * 241)

    def cleaning() -> Making:
        try:
            yield lwp_sleep(1)
        finally:
            yield say("never said")
            yield lwp_create(idler)

    with warnings.catch_warnings():
        warnings.simplefilter("error")
        with pytest.raises(ValueError):
            Pod(main, cleaning, idler).run()
        gc.collect()


def test_bad_pods_and_lines() -> None:
    def plain() -> int:
        return 3

    for maxpri in (0, 256):
        with pytest.raises(ValueError):
            Pod(idler, maxpri=maxpri)
    for births in (0, 2**32):
        with pytest.raises(ValueError):
            Pod(idler, births=births)
    with pytest.raises(TypeError):
        Pod()
    with pytest.raises(TypeError):
        Pod(plain)
    pod = Pod(idler, trace=False)
    for event in (-1, 32):
        with pytest.raises(ValueError):
            pod.post(event)
    for client in (-1, 256):
        with pytest.raises(ValueError):
            pod.post(1, "x", client)
    for text in ("x" * 241, "a\nb", "\u00e9", "\x7f"):
        with pytest.raises(ValueError):
            pod.post(1, text)
    for read in (lambda: pod.trace, lambda: pod.drain()):
        with pytest.raises(ValueError):
            read()


def test_a_pod_is_not_run_by_its_own_bodies() -> None:
    def main() -> Making:
        with pytest.raises(RuntimeError):
            pods[0].run()
        with pytest.raises(RuntimeError):
            pods[0].follow("")
        yield say("on")

    pods = [Pod(main)]
    assert pods[0].run() is End.ENDED


def test_turns() -> None:
    def main() -> Making:
        for _ in range(5):
            yield lwp_self()

    pod = Pod(main)
    assert pod.run(0) is End.SPENT and pod.trace == "spent 0\n"
    assert pod.run(2) is End.SPENT and pod.calls == 2 and pod.current == FIRST
    assert pod.trace == "t0: self\nt0 = t0\n" * 2 + "spent 2\n"
    assert pod.drain() == "t0: self\nt0 = t0\n" * 2
    assert pod.run(3) is End.SPENT and pod.run(1) is End.ENDED and pod.calls == 6
    assert pod.trace == "t0: self\nt0 = t0\n" * 3 + "t0: return\nt0 dies\npod ends 0\n"


def echo() -> Making:
    agent = yield agt_create(1)
    while True:
        letter = yield msg_recv(agent)
        yield msg_reply(agent, letter.text)


def test_following() -> None:
    pod = Pod(echo)
    for word in ("a", "b c", ""):
        pod.post(1, word)
        pod.run()
    record = pod.trace
    again = Pod(echo)
    assert again.follow(record) is End.IDLE and again.trace == record
    again.post(1, "more")
    pod.post(1, "more")
    pod.run(), again.run()
    assert again.trace == pod.trace != record


def test_following_a_record_that_was_cut() -> None:
    pod = Pod(echo)
    for word in ("a", "b"):
        pod.post(1, word)
        pod.run()
    record = pod.trace
    for cut in range(len(record)):
        again = Pod(echo)
        again.follow(record[:cut])
        whole = record[:cut].rpartition("\n")[0]
        assert again.trace.startswith(whole)


def test_following_something_else() -> None:
    pod = Pod(echo)
    pod.post(1, "a")
    pod.run()
    lines = pod.trace.splitlines(True)
    for at, line in enumerate(lines):
        others = ["t0: self\n", line[:-1] + "x\n"]
        for other in others:
            with pytest.raises(Differs) as differs:
                Pod(echo).follow("".join(lines[:at] + [other] + lines[at + 1 :]))
            # A line from outside may say anything; what a thread was told of it then differs.
            assert differs.value.line == (5 if line == "event 1 client 1 seq 0 a\n" and other is others[1] else at + 1)
    for bad in ("event 999 client 0 seq 0", "event 1 client 300 seq 0", f"event 1 client 1 seq {2**32}", "event 1 client 1 seq 0 \u00e9"):
        with pytest.raises(Differs) as differs:
            Pod(echo).follow("".join(lines[:2]) + bad + "\n")
        assert differs.value.line == 3 and differs.value.got == bad
    with pytest.raises(Differs) as differs:
        Pod(echo).follow("event 1 client 1 seq 0 a\n")
    assert differs.value.line == 1 and differs.value.want is None
    with pytest.raises(Differs) as differs:
        Pod(echo).follow(pod.trace + "t0: self\n")
    assert differs.value.line == len(lines) + 1


class Poor:
    """A core to which memory is refused at each third call."""

    def __init__(self, core: Core) -> None:
        self.core, self.count = core, 0

    def __getattr__(self, name: str) -> Any:
        return getattr(self.core, name)

    def call(self, made: Call[Any]) -> Any:
        self.count += 1
        if self.count % 3 == 0:
            raise MemoryError
        return self.core.call(made)


def test_memory_that_is_refused() -> None:
    def main() -> Making:
        for word in ("one", "two", "three", "four"):
            try:
                yield say(word)
            except MemoryError:
                yield say(word)

    pod, poor = Pod(main), Pod(main)
    poor._core = Poor(poor._core)  # type: ignore[assignment]
    assert pod.run() is poor.run() is End.ENDED and pod.trace == poor.trace


def test_state() -> None:
    pod = Pod(idler)
    pod.run()
    assert pod.state() == "calls 1 now 0 maxpri 1 exit 0\nt0 idler prio 1 sleeps until 1\nstuck\n"


def test_a_pod_is_freed() -> None:
    def main(thing: "Thing") -> Making:
        yield lwp_create(other, 1, thing)
        yield lwp_sleep(1)

    def other(thing: "Thing") -> Making:
        yield from lwp_create(other, 1, thing, suspended=True)
        yield lwp_sleep(1)

    class Thing:
        pod: Pod

    thing = Thing()
    # A cycle, through the pod, its threads, their last calls and what goes with those.
    thing.pod = Pod(main, other, args=(thing,))
    thing.pod.run(3)
    gone = weakref.ref(thing)
    del thing
    gc.collect()
    assert gone() is None


def test_no_call_is_lost() -> None:
    def main() -> Making:
        while True:
            yield lwp_create(short, 1, "x" * 30)
            yield lwp_yield(FIRST)

    def short(word: str) -> Making:
        yield from lwp_self()

    pod = Pod(main, short, trace=False)
    pod.run(1000)
    gc.collect()
    before = len(gc.get_objects())
    pod.run(10000)
    gc.collect()
    assert len(gc.get_objects()) < before + 100


def test_every_public_name_has_a_docstring() -> None:
    for name in loqzemar.__all__:
        it = getattr(loqzemar, name)
        if inspect.isclass(it) or inspect.isfunction(it):
            assert it.__doc__, name
            for word, member in vars(it).items() if inspect.isclass(it) else ():
                if not word.startswith("_") and (inspect.isfunction(member) or isinstance(member, property)):
                    assert member.__doc__, f"{name}.{word}"


def test_every_call_of_the_manual_is_there() -> None:
    doc = TOP / "docs" / "calls.md"
    if not doc.is_file():
        pytest.skip("the repository's pages aren't here")
    named = re.findall(r"^### (\w+)$", doc.read_text(), re.M)
    assert len(named) == 50
    for name in named:
        assert callable(getattr(loqzemar, "return_" if name == "return" else name))
