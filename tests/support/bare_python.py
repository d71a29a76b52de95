"""A Python that has the standard library and no package, as one beside Debian's has none of Debian's packages."""

import os
import shutil
from pathlib import Path

DEBIAN = "/usr/bin/python3"


def made(room: Path) -> Path:
    """The path of one in a folder."""
    folder = room / "bare"
    (folder / "bin").mkdir(parents=True)
    shutil.copy(os.path.realpath(DEBIAN), folder / "bin" / "python3")
    (folder / "pyvenv.cfg").write_text("home = /usr/bin\ninclude-system-site-packages = false\n", encoding="ascii")
    return folder / "bin" / "python3"
