"""A small interpreter of scripts, whose threads are generators of the package."""

from typing import Any, Dict, Generator, List, Tuple

from loqzemar import *
from loqzemar.words import NONE

FUNCS = {"-": Func.CATCH, "give": Func.GIVE, "sum": Func.SUM}
# The calls whose words are all of one kind.
WITH_WHO = {
    "destroy": lwp_destroy, "ping": lwp_ping, "yield": lwp_yield, "suspend": lwp_suspend, "resume": lwp_resume, "join": lwp_join,
}
WITH_NUMBERS = {
    "sleep": lwp_sleep, "resched": lwp_resched, "setmaxpri": pod_setmaxpri, "setexit": pod_setexit, "podexit": pod_exit, "trap": agt_trap,
    "raise": exc_raise, "excnotify": exc_notify, "bound": exc_bound, "self": lwp_self, "getexit": pod_getexit, "threads": lwp_enumerate,
    "senders": msg_enumsend, "receivers": msg_enumrecv, "agents": agt_enumerate, "monitors": mon_enumerate, "conditions": cv_enumerate,
    "return": return_, "unhandle": exc_unhandle, "uniqpatt": exc_uniqpatt,
}
WITH_MONITOR = {
    "mondestroy": mon_destroy, "enter": mon_enter, "condenter": mon_cond_enter, "monexit": mon_exit, "monbreak": mon_break, "monwaiters": mon_waiters,
}
WITH_CONDITION = {
    "cvdestroy": cv_destroy, "wait": cv_wait, "notify": cv_notify, "broadcast": cv_broadcast, "cvwaiters": cv_waiters,
}


class Mind:
    """What a thread of a script knows besides its places: its number, and whose letter it received last."""

    def __init__(self) -> None:
        self.me, self.sender = -1, NONE


class Script:
    """A script, as lwpserve takes it, without `native`."""

    def __init__(self, text: str) -> None:
        self.maxpri, self.births = 1, 2**32 - 1
        self.procs: Dict[str, List[str]] = {}
        self.events: List[int] = []
        self.posts: List[Tuple[int, str]] = []
        self.names: Dict[Tuple[str, str], int] = {}
        lines: List[str] = []
        for line in text.splitlines():
            word, _, rest = line.partition(" ")
            if word == "pod":
                self.maxpri = int(rest)
            elif word == "limit":
                self.births = int(rest.split()[1])
            elif word == "client":
                self.events.append(int(rest.split()[1]))
            elif word == "post":
                client, _, said = rest.partition(" ")
                self.posts.append((int(client), said))
            elif word == "proc":
                lines = self.procs[rest] = []
            elif word != "lwp":
                lines.append(line)
        self.procedures = {name: self.procedure(name, lines) for name, lines in self.procs.items()}

    def pod(self) -> Pod:
        """The pod of the script, with all lines of its clients in place."""
        self.running = Pod(*self.procedures.values(), maxpri=self.maxpri, births=self.births, args=(Mind(),))
        for client, said in self.posts:
            self.running.post(self.events[client], said, client)
        return self.running

    def procedure(self, name: str, lines: List[str]) -> Any:
        def run(mind: Mind) -> Body:
            return self.run(mind, lines)

        run.__name__ = name
        return run

    def run(self, mind: Mind, lines: List[str]) -> Generator[Call[Any], Any, None]:
        """The threads of a procedure: one statement after the other."""
        mind.me, at = int(self.running.current or 0), 0
        got: Any = 0
        handlers: List[Tuple[Call[Any], int]] = []
        while True:
            words = lines[at].split(" ") if at < len(lines) else ["return"]
            at += 1
            if words[0] == "again":
                at = 0
                continue
            if words[0] == "skip":
                at += meets(got, words)
                continue
            made = self.call(mind, words)
            try:
                got = yield made
            except Refused as refused:
                got = refused
            except Caught as caught:
                while handlers[-1][0] is not caught.handler:
                    handlers.pop()
                got, at = caught, handlers.pop()[1]
            else:
                got = 0 if got is None else got
                if words[0] in ("create", "agent"):
                    self.names["t", words[1]] = got
                elif words[0] == "moncreate":
                    self.names["m", words[1]] = got
                elif words[0] == "cvcreate":
                    self.names["c", words[1]] = got
                elif words[0] == "recv":
                    mind.sender = got.sender
                elif words[0] == "handle":
                    handlers.append((made, at))
                elif words[0] == "unhandle":
                    handlers.pop()

    def who(self, mind: Mind, word: str) -> int:
        known = {"self": mind.me, "first": 0, "sender": mind.sender, "none": NONE}
        return known[word] if word in known else self.names.get(("t", word), NONE)

    def call(self, mind: Mind, words: List[str]) -> Call[Any]:
        """The call that a statement means."""
        key, rest = words[0], words[1:]
        if key in WITH_WHO:
            return WITH_WHO[key](self.who(mind, rest[0]))
        if key in WITH_NUMBERS:
            return WITH_NUMBERS[key](*map(int, rest))
        if key in WITH_MONITOR:
            return WITH_MONITOR[key](self.names.get(("m", rest[0]), NONE))
        if key in WITH_CONDITION:
            return WITH_CONDITION[key](self.names.get(("c", rest[0]), NONE))
        if key == "create":
            flags = {"suspended": "s" in rest[3], "nolastrites": "n" in rest[3], "server": "v" in rest[3]}
            return lwp_create(self.procedures[rest[1]], int(rest[2]), Mind(), **flags)
        if key == "call":
            return call(self.procedures[rest[0]], mind)
        if key == "setpri":
            return lwp_setpri(self.who(mind, rest[0]), int(rest[1]))
        if key == "send":
            return msg_send(self.who(mind, rest[0]), " ".join(rest[2:]), int(rest[1]))
        if key == "recv":
            sender = None if rest[0] == "any" else self.who(mind, rest[0])
            return msg_recv(sender, poll=rest[1] == "poll", ticks=int(rest[1]) if rest[1].isdecimal() else None)
        if key == "reply":
            return msg_reply(self.who(mind, rest[0]), " ".join(rest[1:]))
        if key == "agent":
            return agt_create(int(rest[1]))
        if key == "moncreate":
            return mon_create()
        if key == "cvcreate":
            return cv_create(self.names.get(("m", rest[1]), NONE))
        if key == "cvsend":
            return cv_send(self.names.get(("c", rest[0]), NONE), self.who(mind, rest[1]))
        if key == "handle":
            return exc_handle(None if rest[0] == "all" else int(rest[0]), FUNCS[rest[1]], int(rest[2]))
        if key == "onexit":
            return exc_on_exit(self.call(mind, rest))
        assert key in ("say", "note"), key
        return say(" ".join(rest))


def meets(got: Any, words: List[str]) -> bool:
    """Whether an answer meets the condition of a `skip`."""
    if words[1] == "err":
        return isinstance(got, Refused)
    if words[1] == "caught":
        return isinstance(got, Caught)
    if words[1] == "ok":
        return not isinstance(got, (Refused, Caught))
    return type(got) is int and got == int(words[2])
