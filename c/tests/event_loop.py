#!/usr/bin/env python3
"""event_loop.py PROGRAM: talks to the example event_loop over sockets, and replays its record.

Eight clients add their number twenty times each, in any order; the total has to be right, no answer may be lost, and the replay of the
record has to write the same trace and the same answers."""
import pathlib
import socket
import subprocess
import sys
import tempfile
import threading
import time

program = pathlib.Path(sys.argv[1]).resolve()


def free_port():
    with socket.socket() as s:
        s.bind(("127.0.0.1", 0))
        return s.getsockname()[1]


def connected(port):
    for _ in range(200):
        try:
            return socket.create_connection(("127.0.0.1", port))
        except OSError:
            time.sleep(0.05)
    sys.exit("the server can't be reached")


def client(port, number, answers):
    with connected(port) as s, s.makefile("rw") as f:
        for text in [f"add {number}"] * 20 + ["total", "quit"]:
            f.write(text + "\n")
            f.flush()
            answers.append(f.readline().strip())


with tempfile.TemporaryDirectory() as folder:
    port = free_port()
    server = subprocess.Popen([program, str(port), "record", "trace"], cwd=folder)
    try:
        for wave in (range(1, 9), range(9, 40), range(40, 60)):
            said = [[] for _ in wave]
            talks = [threading.Thread(target=client, args=(port, n, a)) for n, a in zip(wave, said)][:28]
            for talk in talks:
                talk.start()
            for talk in talks:
                talk.join()
            for answers in said[:28]:
                assert len(answers) == 22 and all(a.startswith("total ") for a in answers), answers
        with connected(port) as s, s.makefile("rw") as f:
            f.write("total\n")
            f.flush()
            told = f.readline().strip()
            f.write("stop\n")
            f.flush()
        status = server.wait(120)
    finally:
        server.kill()
    numbers = list(range(1, 9)) + list(range(9, 37)) + list(range(40, 60))
    wanted = f"total {20 * sum(numbers)}"
    assert told == wanted and status == 0, (told, wanted, status)
    again = subprocess.run([program, "--replay", "record", "again"], cwd=folder, capture_output=True, text=True)
    assert again.returncode == 0, again.stderr
    assert pathlib.Path(folder, "trace").read_bytes() == pathlib.Path(folder, "again").read_bytes()
    answered = again.stdout.splitlines()
    assert len(answered) == 22 * len(numbers) + 1, len(answered)
    print(f"event_loop: {len(answered)} answers, and the replay of its record is the same trace")
