"""A library that switches the syncs of the system off in a program before which it is loaded (LD_PRELOAD)."""

import shutil
import subprocess
from pathlib import Path

SOURCE = "int fsync(int file) { return 0; }\nint fdatasync(int file) { return 0; }\n"


def built_in(folder):
    """The library's path, or None where there is no cc."""
    if not shutil.which("cc"):
        return None
    library = Path(folder) / "no_syncs.so"
    subprocess.run(["cc", "-shared", "-fPIC", "-x", "c", "-o", str(library), "-"], input=SOURCE.encode(), check=True)
    return library
