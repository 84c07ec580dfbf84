#!/usr/bin/env python3
"""A TCP server in which every connection is a thread of one pod, and a run that can be repeated without sockets.

  line_server.py serve PORT RECORD [CONNECTIONS]     serve, and write the record; end after so many connections, or by Ctrl-C
  line_server.py repeat RECORD                       make the recorded run again, and print what each client was told

A client sends lines and is told one line for each: `put KEY VALUE`, `get KEY`, `del KEY`, `quit`. All clients share one table, which is kept
by a thread of its own. Sockets stay outside the pod: each line that a client sends is posted to the event of its connection, and what the
connection's thread replies is sent to the client."""
from __future__ import annotations

import pathlib
import selectors
import socket
import sys
from typing import Any, Callable, Dict, Generator, List, Optional

from loqzemar import *

Making = Generator[Call[Any], Any, None]
# Connections have the events 1 to 30, and 31 tells of new ones.
PLACES, DOOR = range(1, 31), 31


# ---- inside the pod


def door() -> Making:
    """Makes a thread for each connection: the line `3` says that there is one with event 3."""
    table = yield from lwp_create(store, server=True)
    agent = yield from agt_create(DOOR)
    while True:
        letter = yield from msg_recv(agent)
        if letter.text == "closed":
            return
        yield lwp_create(connection, 1, int(letter.text), table)
        yield msg_reply(agent)


def connection(event: int, table: Tid) -> Making:
    """Serves one connection until it says `quit`."""
    agent = yield from agt_create(event)
    while True:
        letter = yield from msg_recv(agent)
        if letter.text == "quit":
            yield msg_reply(agent, "bye")
            return
        reply = yield from msg_send(table, letter.text)
        yield msg_reply(agent, reply)


def store() -> Making:
    """Keeps the table."""
    values: Dict[str, str] = {}
    while True:
        letter = yield from msg_recv()
        yield msg_reply(letter.sender, told(values, letter.text.split(" ", 2)))


def told(values: Dict[str, str], words: List[str]) -> str:
    """What a command is told."""
    if words[0] == "put" and len(words) == 3:
        values[words[1]] = words[2]
        return "ok"
    if words[0] == "get" and len(words) == 2:
        return values.get(words[1], "none")
    if words[0] == "del" and len(words) == 2:
        return "ok" if values.pop(words[1], None) is not None else "none"
    return "bad"


def make_pod(tell: Callable[[int, str], object]) -> Pod:
    """The pod of the server."""
    return Pod(door, connection, store, tell=tell)


# ---- outside


class Client:
    """A connection's socket, and what it has sent and is to be sent."""

    def __init__(self, sock: socket.socket, event: int) -> None:
        self.sock, self.event = sock, event
        self.came, self.out = b"", b""
        self.quits = False


class Server:
    """The sockets around a pod."""

    def __init__(self, port: int) -> None:
        self.pod = make_pod(self.tell)
        self.listener = socket.create_server(("127.0.0.1", port))
        self.port: int = self.listener.getsockname()[1]
        self.selector = selectors.DefaultSelector()
        self.selector.register(self.listener, selectors.EVENT_READ)
        self.clients: Dict[int, Client] = {}
        self.gone = 0

    def tell(self, event: int, text: str) -> None:
        """A thread of the pod has replied to a line of this event."""
        if event in self.clients:
            self.clients[event].out += text.encode() + b"\n"

    def serve(self, connections: Optional[int] = None) -> None:
        """Serves until so many connections have come and gone."""
        try:
            while self.gone != connections:
                for key, _ in self.selector.select():
                    if key.fileobj is self.listener:
                        self.accept()
                    else:
                        self.read(key.data)
                self.pod.run()
                for client in list(self.clients.values()):
                    self.write(client)
        except KeyboardInterrupt:
            pass
        self.pod.post(DOOR, "closed")
        self.pod.run()
        for client in self.clients.values():
            client.sock.close()
        self.listener.close()
        self.selector.close()

    def accept(self) -> None:
        """A client has come. Where all places are taken it is turned away."""
        sock, _ = self.listener.accept()
        event = next((place for place in PLACES if place not in self.clients), None)
        if event is None:
            sock.close()
            return
        sock.setblocking(False)
        client = self.clients[event] = Client(sock, event)
        self.selector.register(sock, selectors.EVENT_READ, client)
        self.pod.post(DOOR, str(event))

    def read(self, client: Client) -> None:
        """A client has sent something, or has hung up, which is the same as `quit`."""
        try:
            came = client.sock.recv(4096)
        except BlockingIOError:
            return
        except OSError:
            came = b""
        lines = (client.came + came).split(b"\n")
        client.came = lines.pop()
        for line in lines if came else [b"quit"]:
            self.post(client, line.decode("ascii", "replace").rstrip("\r"))

    def post(self, client: Client, line: str) -> None:
        """A line goes into the pod, unless its client has quit. What can't be a line is told `bad` there, as any other word is."""
        if client.quits:
            return
        client.quits = line == "quit"
        self.pod.post(client.event, line if len(line) <= 240 and line.isascii() and line.isprintable() else "?")

    def write(self, client: Client) -> None:
        """A client is sent what it is told. Once that is all, and it has quit, it is gone."""
        try:
            client.out = client.out[client.sock.send(client.out) :] if client.out else b""
        except BlockingIOError:
            pass
        except OSError:
            client.out = b""
        wanted = selectors.EVENT_READ | (selectors.EVENT_WRITE if client.out else 0)
        self.selector.modify(client.sock, wanted, client)
        if client.quits and not client.out:
            self.selector.unregister(client.sock)
            client.sock.close()
            del self.clients[client.event]
            self.gone += 1


def show(event: int, text: str) -> None:
    """Prints what a client was told."""
    if event in PLACES:
        print(f"client {event}: {text}")


def main() -> int:
    words = sys.argv[1:]
    if len(words) in (3, 4) and words[0] == "serve":
        server = Server(int(words[1]))
        print(f"port {server.port}", flush=True)
        server.serve(int(words[3]) if len(words) == 4 else None)
        pathlib.Path(words[2]).write_text(server.pod.trace)
        return 0
    if len(words) == 2 and words[0] == "repeat":
        record = pathlib.Path(words[1]).read_text()
        pod = make_pod(show)
        pod.follow(record)
        print("the same" if pod.trace == record else "it differs at the end")
        return int(pod.trace != record)
    print(__doc__)
    return 2


if __name__ == "__main__":
    sys.exit(main())
