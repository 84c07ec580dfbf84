"""Scripts of the corpus with generators as threads: their traces are the stored ones, byte for byte."""
import os
import pathlib
import re
from typing import List, Tuple

import pytest
from loqzemar import End, Pod
from scripts import Script

TOP = pathlib.Path(os.environ.get("LOQZEMAR_TOP", pathlib.Path(__file__).resolve().parents[2]))
CORPUS = TOP / "crates" / "corpus" / "data"


def chosen() -> List[pathlib.Path]:
    """The traces of the scripts that aren't refused, whose threads all run statements."""
    traces = []
    for trace in sorted(CORPUS.glob("*.trace")):
        script = trace.with_suffix(".script")
        text = script.read_text() if script.is_file() else ""
        if text.endswith("\n") and not re.search("^native ", text, re.M):
            traces.append(trace)
    return traces


CHOSEN = chosen()


def states() -> List[Tuple[str, str, int]]:
    """The states that scripts are planned to: a script, the stored text, and how many calls are made."""
    rows = [row.split() for row in (CORPUS / "state_rows").read_text().splitlines()]
    return [(row[1], row[2], int(row[5]) if row[5:] else 100000) for row in rows if row[4:5] == ["plan"] and row[2].endswith(".state")]


def planned(trace: str, script: str) -> Tuple[Pod, End]:
    spent = re.search(r"^spent (\d+)$", trace, re.M)
    pod = Script(script).pod()
    return pod, pod.run(int(spent[1]) if spent else 100000)


def test_there_are_enough() -> None:
    assert len(CHOSEN) >= 60


@pytest.mark.parametrize("path", CHOSEN, ids=lambda path: path.stem)
def test_trace(path: pathlib.Path) -> None:
    stored = path.read_text()
    pod, end = planned(stored, path.with_suffix(".script").read_text())
    assert pod.trace == stored
    assert (end is End.ENDED) == (pod.status is not None) == bool(re.search(r"^pod ends \d+$", stored, re.M))


@pytest.mark.parametrize("script, stored, turns", states())
def test_state(script: str, stored: str, turns: int) -> None:
    pod = Script((CORPUS / script).read_text()).pod()
    pod.run(turns)
    wanted = (CORPUS / stored).read_text().splitlines(True)
    assert pod.state() == "".join(line for line in wanted if not line.startswith("client "))


@pytest.mark.parametrize("path", CHOSEN, ids=lambda path: path.stem)
def test_followed(path: pathlib.Path) -> None:
    stored = path.read_text()
    script = Script(path.with_suffix(".script").read_text())
    script.posts.clear()
    pod = script.pod()
    pod.follow(stored)
    left = "".join(line for line in stored.splitlines(True) if line.startswith("left client "))
    assert pod.trace + left == stored
