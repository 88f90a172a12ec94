"""Builds the extension over libprolly.a: where `make lib` puts it, or in the folder that PROLLY_LIB names, with the header in
PROLLY_INCLUDE."""

import os
from pathlib import Path

from setuptools import Extension, setup
from setuptools.command.build_ext import build_ext

TOP = Path(__file__).resolve().parent.parent

# pip runs this below python/, and a user names folders from where the shell stands.
HERE = Path(os.environ.get("PWD", "."))

library = HERE / os.environ.get("PROLLY_LIB", TOP / "library" / "out") / "libprolly.a"
include = HERE / os.environ.get("PROLLY_INCLUDE", TOP / "include")


class OverLibrary(build_ext):
    """Builds the extension where the library is there."""

    def run(self):
        """Builds it."""
        if not library.is_file():
            raise SystemExit(f"{library} is not there: run `make lib`, or name its folder by PROLLY_LIB")
        super().run()


setup(
    cmdclass={"build_ext": OverLibrary},
    ext_modules=[
        Extension(
            "prolly._prolly",
            ["prolly/_prolly.c"],
            include_dirs=[str(include)],
            extra_objects=[str(library)],
            extra_compile_args=["-std=c11", "-Wall", "-Wextra"],
            depends=[str(library), str(Path(include) / "prolly.h")],
        )
    ]
)
