"""Builds the extension over the static library.

LOQZEMAR_LIB_DIR is the folder of libloqzemar.a; without it that is crates/loqzemar/out, where `rt lib` writes it. LOQ_HEAP is the kit's
c/liblibc_c.a; without it that of the kit whose `rt` is on the path."""
import os
import pathlib
import shutil
import sys

from setuptools import Extension, setup

TOP = pathlib.Path(__file__).resolve().parent.parent


def library():
    """The static library."""
    folder = pathlib.Path(os.environ.get("LOQZEMAR_LIB_DIR", TOP / "crates" / "loqzemar" / "out"))
    if not (folder / "libloqzemar.a").is_file():
        sys.exit(f"{folder}/libloqzemar.a isn't there: run `rt lib` in {TOP}/crates/loqzemar, or set LOQZEMAR_LIB_DIR to the folder that has it")
    return folder / "libloqzemar.a"


def heap():
    """The kit's functions by which the library takes memory."""
    found = shutil.which("rt")
    kit = pathlib.Path(found).resolve().parent.parent if found else pathlib.Path("KIT")
    file = pathlib.Path(os.environ.get("LOQ_HEAP", kit / "c" / "liblibc_c.a"))
    if not file.is_file():
        sys.exit(f"{file} isn't there: put the kit's folder bin on the path, or set LOQ_HEAP to the kit's c/liblibc_c.a")
    return file


def macros(header):
    """What the library has besides the functions that the extension can't do without."""
    text = header.read_text()
    return [(macro, "1") for macro, word in (("LOQ_HAS_FOLLOW", "loq_follow("),) if word in text]


HEADERS = pathlib.Path(os.environ.get("LOQZEMAR_HEADER_DIR", TOP / "c"))
setup(
    ext_modules=[
        Extension(
            "loqzemar._loqzemar",
            ["src/_loqzemar.c"],
            include_dirs=[str(HEADERS)],
            define_macros=macros(HEADERS / "loqzemar.h"),
            extra_objects=[str(library()), str(heap())],
            extra_compile_args=["-std=c11", "-O2", "-Wall", "-Wextra", "-fvisibility=hidden"],
            py_limited_api=True,
        )
    ],
    options={"bdist_wheel": {"py_limited_api": "cp310"}},
)
