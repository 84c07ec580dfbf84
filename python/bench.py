#!/usr/bin/env python3
"""What a turn costs, in microseconds of the processor: the best of 50 runs of 10,000 turns each.

  python3 bench.py [MOST]

With MOST, the status is 1 where a turn without a trace costs more."""
import sys
import time
from typing import Any, Callable, Generator

from loqzemar import *

TURNS = 10_000
Making = Generator[Call[Any], Any, None]


def two_that_yield() -> Making:
    me = yield lwp_self()
    yield lwp_create(yielding)
    while True:
        yield lwp_yield(me)


def yielding() -> Making:
    me = yield lwp_self()
    while True:
        yield lwp_yield(me)


async def two_that_await() -> None:
    me = await lwp_self()
    await lwp_create(awaiting)
    while True:
        await lwp_yield(me)


async def awaiting() -> None:
    me = await lwp_self()
    while True:
        await lwp_yield(me)


def letters() -> Making:
    desk = yield lwp_create(server)
    while True:
        yield msg_send(desk, "hello")


def server() -> Making:
    while True:
        letter = yield msg_recv()
        yield msg_reply(letter.sender, "hi")


def measured(trace: bool, *procedures: Callable[..., Any]) -> float:
    """Microseconds a turn."""
    best = float("inf")
    for _ in range(50):
        with Pod(*procedures, trace=trace) as pod:
            pod.run(100)
            began = time.process_time()
            pod.run(TURNS)
            best = min(best, time.process_time() - began)
    return best / TURNS * 1e6


def main() -> int:
    bare = measured(False, two_that_yield, yielding)
    print(f"two threads that yield:              {bare:5.2f} microseconds a turn")
    print(f"  with the trace:                    {measured(True, two_that_yield, yielding):5.2f}")
    print(f"  as async def:                      {measured(False, two_that_await, awaiting):5.2f}")
    print(f"letters:                             {measured(False, letters, server):5.2f}")
    print(f"  with the trace:                    {measured(True, letters, server):5.2f}")
    return int(len(sys.argv) > 1 and bare > float(sys.argv[1]))


if __name__ == "__main__":
    sys.exit(main())
