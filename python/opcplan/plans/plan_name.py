"""The name of a plan, as calls and metrics have it."""

import os


def of_path(path: str) -> str:
    """The name of a plan in a file: that of the file without its ending, or of its folder if that is `plan`."""
    folder, file = os.path.split(os.path.realpath(path))
    name = os.path.splitext(file)[0]
    return os.path.basename(folder) or name if name == "plan" else name
