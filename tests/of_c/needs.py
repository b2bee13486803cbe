"""What the tests of the translator need: pycparser and cpp, which root has apt-get install."""
import importlib
import os
import shutil
import subprocess
from typing import Optional

from rtosim_from_c.python import ASKED, with_pycparser
from rtosim_from_c.source import Lacking, parser


def install() -> None:
    """Has apt-get install what the translator needs, as far as this user may and apt-get can."""
    if os.getuid() != 0 or not shutil.which("apt-get"):
        return
    quiet = {"stdin": subprocess.DEVNULL, "stdout": subprocess.DEVNULL, "stderr": subprocess.DEVNULL}
    apt = lambda *words: subprocess.run(["apt-get", *words], env={**os.environ, "DEBIAN_FRONTEND": "noninteractive"}, **quiet).returncode == 0
    packages = ["install", "--yes", "--no-install-recommends", "python3-pycparser", "cpp"]
    if apt(*packages) or apt("update") and apt(*packages):
        importlib.invalidate_caches()
        os.environ.pop(ASKED, None)
        with_pycparser()


def lacking() -> Optional[str]:
    """What isn't there and is needed for each case; None if all is."""
    try:
        parser()
    except Lacking as why:
        return str(why)
    return None if shutil.which("cpp") else "there is no cpp"
