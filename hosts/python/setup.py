"""What pyproject.toml can't say: the proved library goes into the package, and so its wheel is of this kind of machine.

The library is `libargus.so.0`, in the folder that `ARGUS_LIB_DIR` names, or else in `dist/lib` of the repository,
where `tools/archive.sh` or `tools/dist.sh` makes it.

`_call.c` and what belongs to it are built where a compiler and Python's headers are there (Debian: python3-dev); else
plain.py and ctypes do what they do. They need Python 3.10 or newer, and are the same for each of these.
"""

from __future__ import annotations

import os
import shutil
from pathlib import Path

from setuptools import Extension, setup
from setuptools.command.build_py import build_py

try:
    from setuptools.command.bdist_wheel import bdist_wheel
except ImportError:
    try:
        from wheel.bdist_wheel import bdist_wheel
    except ImportError:
        raise SystemExit("setuptools is older than 70.1, and so needs the package wheel beside it") from None

NAME = "libargus.so.0"


def library() -> Path:
    """Where the library is, or in words what is missing."""
    named = os.environ.get("ARGUS_LIB_DIR")
    folder = Path(named) if named else Path(__file__).resolve().parents[2] / "dist/lib"
    if (folder / NAME).is_file():
        return folder / NAME
    raise SystemExit(
        f"no {NAME} in {folder}: ARGUS_LIB_DIR names the folder that it lies in, as /usr/local/lib; in the repository of"
        " the guardian `(cd crates/argus_c && rt lib) && tools/dist.sh` makes dist/, for which the Rattle kit is needed"
    )


class BuildWithLibrary(build_py):
    """Puts the library beside the modules, and the parts of a page, which a clone has in hosts/page."""

    def run(self) -> None:
        super().run()
        into = Path(self.build_lib) / "argus_guardian"
        into.mkdir(parents=True, exist_ok=True)
        shutil.copyfile(library(), into / NAME)
        parts = Path(__file__).resolve().parents[1] / "page/parts"
        if parts.is_dir():
            shutil.copytree(parts, into / "page_parts", dirs_exist_ok=True)


class WheelOfMachine(bdist_wheel):
    """A wheel for each Python 3 of this kind of machine: there is code of the machine in it, and none of Python's."""

    def finalize_options(self) -> None:
        super().finalize_options()
        self.root_is_pure = False

    def get_tag(self) -> tuple[str, str, str]:
        return "py3", "none", super().get_tag()[2]


FOLDER = Path(__file__).resolve().parent
CALL = Extension(
    "argus_guardian._call",
    sorted(str(it.relative_to(FOLDER)) for it in FOLDER.glob("argus_guardian/_*.c")),
    depends=["argus_guardian/_call.h"],
    extra_compile_args=["-fvisibility=hidden"],
    py_limited_api=True,
    optional=True,
)

setup(ext_modules=[CALL], cmdclass={"build_py": BuildWithLibrary, "bdist_wheel": WheelOfMachine})
