"""Libraries of Debian that a tool needs: loaded when they are needed, and named if they are missing."""

import importlib
import os
import sys
import tempfile
from types import ModuleType

from .tool import BadInput

DEBIAN_PYTHON = "/usr/bin/python3"
RESTARTED = "DEFINED_TOOL_RESTARTED"


def load(module: str, package: str, text: bytes | None = None) -> ModuleType:
    """The module; raises `BadInput` that names the Debian package if it isn't installed.

    Another Python than Debian's doesn't see Debian's libraries. Then the tool starts itself again under Debian's. What
    it has read of standard input is `text`, which it then reads again.
    """
    try:
        return importlib.import_module(module)
    except ImportError:
        restart(text)
    raise BadInput(f"the library {module} is missing; it is Debian's package {package}: apt-get install {package}")


def find(module: str) -> ModuleType | None:
    """The module, or None if it isn't installed: for what a tool can do without."""
    try:
        return importlib.import_module(module)
    except ImportError:
        return None


def restart(text: bytes | None) -> None:
    """Starts the tool again under Debian's Python, once, if that is another one than this."""
    is_debian = os.path.realpath(sys.executable) == os.path.realpath(DEBIAN_PYTHON)
    if is_debian or RESTARTED in os.environ or not os.path.exists(DEBIAN_PYTHON):
        return
    os.environ[RESTARTED] = "1"
    if text is not None:
        held = tempfile.TemporaryFile()
        held.write(text)
        held.seek(0)
        os.dup2(held.fileno(), 0)
    sys.stdout.flush()
    os.execv(DEBIAN_PYTHON, [DEBIAN_PYTHON, *sys.argv])
