"""The examples: a server with real clients, whose record repeats the run, and a simulation next to that of SimPy."""
import pathlib
import random
import socket
import subprocess
import sys
import threading
from typing import Any, Dict, List

import pytest
from loqzemar import Differs

EXAMPLES = pathlib.Path(__file__).resolve().parents[1] / "examples"
sys.path.insert(0, str(EXAMPLES))
import bank
import line_server


class Served:
    """A server in a process of its own."""

    def __init__(self, record: pathlib.Path, connections: int) -> None:
        words = [sys.executable, str(EXAMPLES / "line_server.py"), "serve", "0", str(record), str(connections)]
        self.process = subprocess.Popen(words, stdout=subprocess.PIPE, text=True)
        assert self.process.stdout is not None
        self.port = int(self.process.stdout.readline().split()[1])

    def ended(self) -> int:
        try:
            return self.process.wait(60)
        finally:
            self.process.kill()
            self.process.stdout.close()


def asked(port: int, lines: List[str], hang_up: bool = False) -> List[str]:
    """What a client that sends these lines, one after the other, is told."""
    told = []
    with socket.create_connection(("127.0.0.1", port), 30) as sock, sock.makefile("rw", newline="\n") as stream:
        for line in lines:
            stream.write(line + "\n")
            stream.flush()
            told.append(stream.readline().rstrip("\n"))
        if not hang_up:
            stream.write("quit\n")
            stream.flush()
            assert stream.readline() == "bye\n"
    return told


def repeated(record: pathlib.Path) -> "subprocess.CompletedProcess[str]":
    return subprocess.run([sys.executable, str(EXAMPLES / "line_server.py"), "repeat", str(record)], stdout=subprocess.PIPE, stderr=subprocess.PIPE, text=True)


def test_clients_one_after_the_other(tmp_path: pathlib.Path) -> None:
    server = Served(tmp_path / "record", 3)
    assert asked(server.port, ["put a 1", "get a", "get b", "nonsense", "put a 2 3", "get a"]) == ["ok", "1", "none", "bad", "ok", "2 3"]
    assert asked(server.port, ["get a", "del a", "get a", "x" * 300, "caf\u00e9"], hang_up=True) == ["2 3", "ok", "none", "bad", "bad"]
    assert asked(server.port, ["get a"]) == ["none"]
    assert server.ended() == 0
    done = repeated(tmp_path / "record")
    assert done.returncode == 0 and done.stdout.splitlines()[-1] == "the same"
    assert done.stdout.splitlines()[:3] == ["client 1: ok", "client 1: 1", "client 1: none"]


def test_many_clients_at_once(tmp_path: pathlib.Path) -> None:
    count = 12
    server = Served(tmp_path / "record", count)
    told: Dict[int, List[str]] = {}

    def client(number: int) -> None:
        chance = random.Random(number)
        keys = [f"k{number}_{chance.randrange(3)}" for _ in range(25)]
        told[number] = asked(server.port, [f"{word} {key}" for key in keys for word in (f"put {key} {number} and", "get")])
        # A put has the key twice: PUT KEY "N and KEY".
        assert told[number] == [reply for key in keys for reply in ("ok", f"{number} and {key}")]

    threads = [threading.Thread(target=client, args=(number,)) for number in range(count)]
    for thread in threads:
        thread.start()
    for thread in threads:
        thread.join(60)
    assert server.ended() == 0 and len(told) == count
    record = (tmp_path / "record").read_text()
    assert record.count("event ") >= 51 * count
    first, second = repeated(tmp_path / "record"), repeated(tmp_path / "record")
    assert first.returncode == 0 and first.stdout == second.stdout and first.stdout.splitlines()[-1] == "the same"
    assert first.stdout.count(": ok\n") == 25 * count and first.stdout.count(": bye\n") == count


def test_a_record_that_was_changed(tmp_path: pathlib.Path) -> None:
    server = Served(tmp_path / "record", 1)
    assert asked(server.port, ["put a 1", "get a"]) == ["ok", "1"]
    assert server.ended() == 0
    record = (tmp_path / "record").read_text()
    line = next(line for line in record.splitlines() if line.endswith("= reply 1"))
    with pytest.raises(Differs) as differs:
        line_server.make_pod(lambda event, text: None).follow(record.replace(line, line[:-1] + "2"))
    assert differs.value.want == line


def test_places_are_taken_again(tmp_path: pathlib.Path) -> None:
    server = Served(tmp_path / "record", 31)
    socks = [socket.create_connection(("127.0.0.1", server.port), 30) for _ in range(30)]
    for sock in socks:
        sock.sendall(b"get a\n")
        assert sock.recv(100) == b"none\n"
    with socket.create_connection(("127.0.0.1", server.port), 30) as turned_away:
        assert turned_away.recv(100) == b""
    socks.pop().close()
    while True:
        # The place is free once the server has seen that the client hung up.
        try:
            if asked(server.port, ["get a"]) == ["none"]:
                break
        except (ConnectionError, AssertionError):
            pass
    for sock in socks:
        sock.close()
    assert server.ended() == 0
    assert repeated(tmp_path / "record").returncode == 0


def test_bank() -> None:
    plan = bank.visits(500, 7)
    first, pod = bank.simulated(plan, True)
    second, again = bank.simulated(plan, True)
    assert len(first.waits) == 500 and first.waits == second.waits and sum(first.waits) > 0
    assert pod.trace == again.trace
    assert bank.simulated(bank.visits(500, 8), True)[1].trace != pod.trace


def test_bank_of_simpy() -> None:
    pytest.importorskip("simpy", reason="SimPy isn't installed (Debian's python3-simpy3)")
    import bank_simpy

    for seed in range(5):
        plan = bank.visits(300, seed)
        assert sorted(bank_simpy.simulated(plan)) == sorted(bank.simulated(plan, False)[0].waits)
