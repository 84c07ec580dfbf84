#!/usr/bin/env python3
"""A simulation: customers come to a bank with three counters, and wait for a free one.

  bank.py [CUSTOMERS [SEED]]

Each customer is a thread, and time is the clock of the pod. examples/bank_simpy.py is the same bank for SimPy; the two count the same."""
from __future__ import annotations

import random
import sys
import time
from typing import List, Tuple

from loqzemar import *

COUNTERS = 3


def visits(customers: int, seed: int) -> List[Tuple[int, int]]:
    """Of each customer, how long it comes after the one before, and how long it is served."""
    chance = random.Random(seed)
    return [(chance.randint(1, 4), chance.randint(1, 12)) for _ in range(customers)]


class Bank:
    """The counters, and how long each customer has waited, in the order of their being served."""

    def __init__(self) -> None:
        self.now = 0
        self.free, self.queue = COUNTERS, 0
        self.waits: List[int] = []
        self.lock, self.change = Monitor(0), Condition(0)

    async def enter(self) -> None:
        """Waits for a counter."""
        async with self.lock:
            if self.free:
                self.free -= 1
            else:
                self.queue += 1
                await cv_wait(self.change)

    async def leave(self) -> None:
        """The counter goes to who has waited longest, if anybody waits."""
        async with self.lock:
            if self.queue:
                self.queue -= 1
                await cv_notify(self.change)
            else:
                self.free += 1


async def street(bank: Bank, plan: List[Tuple[int, int]]) -> None:
    """Customers come."""
    bank.lock = await mon_create()
    bank.change = await cv_create(bank.lock)
    for pause, service in plan:
        await lwp_sleep(pause)
        await lwp_create(customer, 1, bank, service)


async def customer(bank: Bank, service: int) -> None:
    """Waits for a counter and is served."""
    came = bank.now
    await bank.enter()
    bank.waits.append(bank.now - came)
    await lwp_sleep(service)
    await bank.leave()


def simulated(plan: List[Tuple[int, int]], trace: bool) -> Tuple[Bank, Pod]:
    """The bank and its pod after all customers have left."""
    bank = Bank()
    pod = Pod(street, customer, args=(bank, plan), trace=trace)
    while pod.run() is End.IDLE:
        bank.now += 1
        pod.tick()
    return bank, pod


def main() -> int:
    customers, seed = (*map(int, sys.argv[1:]), *(20000, 1)[len(sys.argv) - 1 :])
    plan = visits(customers, seed)
    for trace in (False, True):
        began = time.process_time()
        bank, pod = simulated(plan, trace)
        took = (time.process_time() - began) / customers * 1e6
        print(f"{customers} customers waited {sum(bank.waits)} ticks; {took:.1f} microseconds each, {'with' if trace else 'without'} the trace")
    again = simulated(plan, True)[1].trace
    print("a second run is the same, byte for byte" if again == pod.trace else "a second run differs")
    return int(again != pod.trace)


if __name__ == "__main__":
    sys.exit(main())
