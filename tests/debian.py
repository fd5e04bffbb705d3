"""Installs packages of Debian that tests need."""
from __future__ import annotations

import os
import shutil
import subprocess

from counts import Counts


def apt_get(*words: str, seconds: float) -> bool:
    """Whether apt-get did it. Another apt-get is waited for."""
    done = subprocess.run(
        ["apt-get", "-o", "DPkg::Lock::Timeout=100", *words],
        capture_output=True, timeout=seconds, env={**os.environ, "DEBIAN_FRONTEND": "noninteractive"},
    )
    return done.returncode == 0


def install(counts: Counts, *packages: str) -> None:
    """Installs packages, if this runs as root on a machine that has apt-get, unless DILFOREC_INSTALL is 0.

    A new machine may have no lists of packages, or old ones. So if a package can't be had, they are fetched, and it is
    tried once more.
    """
    if os.environ.get("DILFOREC_INSTALL") == "0" or os.geteuid() or not shutil.which("apt-get"):
        return
    wanted = ("install", "-y", "--no-install-recommends", *packages)
    counts.say(f"installing {', '.join(packages)}")
    try:
        if not apt_get(*wanted, seconds=240) and apt_get("update", seconds=120):
            apt_get(*wanted, seconds=240)
    except subprocess.TimeoutExpired:
        counts.say(f"installing {', '.join(packages)} took too long")
