"""All sessions of scripts: what is told of them is what `lwpexplore` tells."""
import os
import pathlib
from typing import List

import pytest
from loqzemar import Ending, Explored, NoScript, explore_ends, explore_line, explore_trace

TOP = pathlib.Path(os.environ.get("LOQZEMAR_TOP", pathlib.Path(__file__).resolve().parents[2]))
CORPUS = TOP / "crates" / "corpus" / "data"
LINES = TOP / "c" / "tests" / "line_rows"
# The rows of the corpus, but for words that the program refuses: a name, a script, what is told, a status, and the words.
ROWS = [row for row in map(str.split, (CORPUS / "explore_rows").read_text().splitlines()) if row[3] != "100"]


def script_of(name: str) -> bytes:
    return (CORPUS / name).read_bytes()


def asked(script: bytes, word: str, *rest: str) -> Explored:
    if word == "ends":
        return explore_ends(script, *map(int, rest))
    return explore_trace(script, *map(int, rest)) if word == "trace" else explore_line(script, rest[0], *map(int, rest[1:]))


@pytest.mark.parametrize("row", ROWS, ids=[row[0] for row in ROWS])
def test_stored(row: List[str]) -> None:
    _, name, told, status, *words = row
    text = (CORPUS / told).read_text()
    if status == "103":
        with pytest.raises(NoScript) as refused:
            asked(script_of(name), *words)
        assert str(refused.value) + "\n" == text
        assert text.startswith(f"lwpexplore: script line {refused.value.line}: ") and refused.value.reason
    else:
        assert asked(script_of(name), *words) == Explored(text, Ending(int(status)))


@pytest.mark.parametrize("row", LINES.read_text().splitlines())
def test_lines_with_spaces(row: str) -> None:
    name, cores, status, told = row.split(" ", 3)
    text, line = told.split(": ", 1)
    assert explore_line(script_of(name), line, int(cores)) == Explored(text + "\n", Ending(int(status)))


def test_str_or_bytes() -> None:
    script = script_of("explore_two_locks.script")
    assert explore_ends(script.decode()) == explore_ends(script)
    assert explore_line(script, b"t0: join t2") == explore_line(script, "t0: join t2")
    assert explore_line(script, b"\xff\n\0").text == "never\n"


def test_a_long_trace() -> None:
    """One that doesn't fit the first buffer."""
    script = "lwp 1\npod 1\nproc main\n" + f"say {'x' * 200}\n" * 1000
    assert explore_trace(script, 1).text.count(f"t0: say {'x' * 200}\n") == 1000


@pytest.mark.parametrize("kind, cores", [(1, 0), (1, 1_000_001), (1, 2**64 - 1), (0, 1), (2**32, 1)])
def test_numbers_out_of_range(kind: int, cores: int) -> None:
    script = script_of("first_run.script")
    with pytest.raises(ValueError, match="a number is out of its range"):
        explore_trace(script, kind, cores)
    if kind == 1:
        with pytest.raises(ValueError, match="a number is out of its range"):
            explore_ends(script, cores)
        with pytest.raises(ValueError, match="a number is out of its range"):
            explore_line(script, "", cores)


def test_numbers_that_are_none() -> None:
    with pytest.raises(OverflowError):
        explore_ends(b"", -1)
    with pytest.raises(OverflowError):
        explore_trace(b"", 2**64)
