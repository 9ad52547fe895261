"""Small disks, which are soon full."""

import contextlib
import os
import subprocess

from trial_parts.patience import PATIENCE

# What a trial says that had none.
NO_DISK = "no disk, since none can be mounted"


@contextlib.contextmanager
def small_disk(program, size):
    """The folder of a disk of so many bytes, which root mounts; None where none can be."""
    small = program.at("small")
    os.mkdir(small)
    mount = ["mount", "-t", "tmpfs", "-o", f"size={size}", "tmpfs", small]
    if os.geteuid() != 0 or subprocess.run(mount, capture_output=True, timeout=PATIENCE).returncode != 0:
        yield None
        return
    try:
        yield small
    finally:
        subprocess.run(["umount", small], check=True, timeout=PATIENCE)
