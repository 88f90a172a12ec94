"""What the command `rt` knows of crates, as a module."""

import importlib.machinery
import importlib.util
import shutil
import signal
import sys
from functools import cache
from pathlib import Path


@cache
def toolchain():
    """The module in which `rt` keeps it. The first call comes from the main thread: from then on all that `rt` starts ends with this run,
    and so does the run at Ctrl-C."""
    place = shutil.which("rt") or sys.exit("the Rattle kit's command rt is not on the PATH")
    loader = importlib.machinery.SourceFileLoader("rt", str(Path(place).resolve()))
    command = importlib.util.module_from_spec(importlib.util.spec_from_loader("rt", loader))
    sys.dont_write_bytecode = True
    loader.exec_module(command)
    command.rtlib.guarded()
    signal.signal(signal.SIGINT, signal.SIG_DFL)
    return command.rtlib
