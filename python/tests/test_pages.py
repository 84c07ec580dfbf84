"""The code of the pages does what they say."""
import contextlib
import io
import pathlib
import re
from typing import Any, Dict

import pytest

HERE = pathlib.Path(__file__).resolve().parents[1]
BLOCK = re.compile(r"^```(python|text)\n(.*?)^```$", re.M | re.S)


@pytest.mark.parametrize("name", ["README.md", "TUTORIAL.md"])
def test_page(name: str) -> None:
    space: Dict[str, Any] = {"__name__": "page"}
    printed, count = "", 0
    page = (HERE / name).read_text()
    for block in BLOCK.finditer(page):
        kind, body = block.groups()
        line = page.count("\n", 0, block.start()) + 1
        if kind == "python":
            assert printed == "", f"line {line}: what was printed before isn't on the page: {printed}"
            with contextlib.redirect_stdout(io.StringIO()) as out:
                exec(compile("\n" * line + body, name, "exec"), space)
            printed, count = out.getvalue(), count + 1
        else:
            assert printed == body, f"line {line}"
            printed = ""
    assert printed in ("", "that is 3 euros\n") and count == page.count("```python\n")


def test_twelve_lines() -> None:
    first = BLOCK.search((HERE / "README.md").read_text())
    assert first and first[2].count("\n") <= 12
