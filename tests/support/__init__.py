"""What the tests have in common. To import it makes the package opcplan and the reference planner importable, and puts
what commands keep between runs into a folder that goes when the tests end."""

import atexit
import os
import shutil
import sys
import tempfile
from pathlib import Path

TOP = Path(__file__).resolve().parents[2]
sys.dont_write_bytecode = True
# what ./plan keeps for a user goes with the tests
STATE = tempfile.mkdtemp(prefix="state-")
atexit.register(shutil.rmtree, STATE, ignore_errors=True)
os.environ["XDG_STATE_HOME"] = STATE
for folder in (TOP / "tools" / "reference", TOP / "python"):
    if str(folder) not in sys.path:
        sys.path.insert(0, str(folder))

CACHE = tempfile.mkdtemp(prefix="cache-")
atexit.register(shutil.rmtree, CACHE, ignore_errors=True)
os.environ["XDG_CACHE_HOME"] = CACHE
