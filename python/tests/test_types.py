"""The package and its examples pass mypy --strict, and answers have their types."""
import os
import pathlib
import shutil
import subprocess

import pytest

HERE = pathlib.Path(__file__).resolve().parents[1]
PROGRAM = """
from typing import Any, Generator
from loqzemar import *

def body() -> Generator[Call[Any], Any, None]:
    reveal_type((yield from msg_recv()))
    reveal_type((yield lwp_self()))

async def main() -> None:
    reveal_type(await lwp_self())
    reveal_type(await mon_create())
    reveal_type(await cv_enumerate())
    reveal_type(await msg_send(FIRST, "x"))

reveal_type(Pod(main, body).run())
"""
TYPES = ["loqzemar.words.Letter]", 'Any"', "loqzemar.words.Tid", "loqzemar.words.Monitor", "builtins.tuple[loqzemar.words.Condition, ...]", "builtins.str", "loqzemar.words.End"]


def checked(*words: str) -> "subprocess.CompletedProcess[str]":
    if not shutil.which("mypy"):
        pytest.skip("mypy isn't installed")
    space = {**os.environ, "MYPYPATH": f"{HERE / 'src'}:{HERE / 'examples'}"}
    return subprocess.run(["mypy", "--strict", "--cache-dir", os.devnull, *words], stdout=subprocess.PIPE, text=True, env=space, cwd=HERE)


def test_strict() -> None:
    done = checked("src/loqzemar", "examples/line_server.py", "examples/bank.py", "bench.py")
    assert done.returncode == 0, done.stdout


def test_answers_have_types(tmp_path: pathlib.Path) -> None:
    (tmp_path / "program.py").write_text(PROGRAM)
    done = checked(str(tmp_path / "program.py"))
    assert done.returncode == 0, done.stdout
    told = [line for line in done.stdout.splitlines() if "Revealed type" in line]
    assert len(told) == len(TYPES)
    for line, word in zip(told, TYPES):
        assert word in line
