#!/usr/bin/env python3
"""The bank of bank.py for SimPy.

  bank_simpy.py [CUSTOMERS [SEED]]"""
from __future__ import annotations

import sys
import time
from typing import Any, Generator, List, Tuple

import simpy
from bank import COUNTERS, visits


def street(env: Any, counters: Any, plan: List[Tuple[int, int]], waits: List[int]) -> Generator[Any, Any, None]:
    """Customers come."""
    for pause, service in plan:
        yield env.timeout(pause)
        env.process(customer(env, counters, service, waits))


def customer(env: Any, counters: Any, service: int, waits: List[int]) -> Generator[Any, Any, None]:
    """Waits for a counter and is served."""
    came = env.now
    with counters.request() as turn:
        yield turn
        waits.append(env.now - came)
        yield env.timeout(service)


def simulated(plan: List[Tuple[int, int]]) -> List[int]:
    """How long each customer has waited."""
    env, waits = simpy.Environment(), []
    env.process(street(env, simpy.Resource(env, COUNTERS), plan, waits))
    env.run()
    return waits


def main() -> None:
    customers, seed = (*map(int, sys.argv[1:]), *(20000, 1)[len(sys.argv) - 1 :])
    plan = visits(customers, seed)
    began = time.process_time()
    waits = simulated(plan)
    took = (time.process_time() - began) / customers * 1e6
    print(f"{customers} customers waited {sum(waits)} ticks; {took:.1f} microseconds each")


if __name__ == "__main__":
    main()
