"""Finds Debian's python3-electrum, which belongs to the system's Python. Tested, not proved."""
import importlib.util
import os
import sys

from real.lib.curve import library
from real.lib.errors import NotRun

SYSTEM = "/usr/bin/python3"


def need_electrum() -> None:
    """Runs this program again under the system's Python where the package is not this one's. Electrum wants the
    library too.
    """
    library()
    if importlib.util.find_spec("electrum"):
        return
    if os.path.exists(SYSTEM) and os.path.realpath(SYSTEM) != os.path.realpath(sys.executable):
        os.execv(SYSTEM, [SYSTEM, *sys.argv])
    raise NotRun("python3-electrum is missing here")
