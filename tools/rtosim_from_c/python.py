"""Finds a Python that has pycparser: this one, or that of the system, which has the package of Debian."""
import importlib.util
import os
import subprocess
import sys

OF_SYSTEM = "/usr/bin/python3"
ASKED = "RTOSIM_FROM_C_ASKED"


def with_pycparser() -> None:
    """Begins anew with the system's Python if this one has no pycparser and that one has it."""
    if importlib.util.find_spec("pycparser") is not None or os.environ.get(ASKED) or not os.access(OF_SYSTEM, os.X_OK):
        return
    os.environ[ASKED] = "1"
    if subprocess.run([OF_SYSTEM, "-c", "import pycparser"], stderr=subprocess.DEVNULL, check=False).returncode == 0:
        os.execv(OF_SYSTEM, [OF_SYSTEM, *sys.argv])
