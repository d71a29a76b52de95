"""Which files jobs.toml had settings that an agent put into force. The folder of logs keeps them, so an agent that
starts knows that one is gone."""

import json
import os

from opcplan.agent import trusted_paths
from opcplan.errors import Unreadable, UsageError
from opcplan.plans import atomic_files

NAME = ".jobs-toml"
MOST_BYTES = 1 << 20


class JobsFileGone(UsageError):
    """Which file has no settings any more, and what to do; or that the words deny one that has some."""


class Remembered:
    """The paths of these files, as a folder of logs keeps them, and among them that of an agent: its own path, and
    perhaps that by which its folder of jobs was named. Raises Unreadable."""

    def __init__(self, folder: str, toml: str, named: str) -> None:
        self.path, self.toml, self.own = os.path.join(folder, NAME), toml, frozenset((toml, named))
        self.paths = self.read()

    def read(self) -> frozenset[str]:
        """The paths in the file. Raises Unreadable."""
        try:
            found = json.loads(trusted_paths.content(self.path, trusted_paths.users(), MOST_BYTES))
            if not isinstance(found, list) or not all(isinstance(one, str) for one in found):
                raise ValueError
        except FileNotFoundError:
            return frozenset()
        except OSError as error:
            raise Unreadable(f"{self.path}: it can't be read: {error.strerror}") from None
        except ValueError:
            raise Unreadable(f"{self.path}: this isn't an agent's list of jobs.toml files; put back the file that the "
                             "agent wrote, or remove this one if no jobs.toml is gone") from None
        return frozenset(found)

    def begin(self, has_settings: bool, is_without: bool) -> None:
        """Checks the agent's jobs.toml when the agent starts, and keeps whether it has settings. Raises JobsFileGone if
        it has lost them and the words don't say so, or if they say so and it has some; and OSError."""
        if has_settings and is_without:
            raise JobsFileGone(f"{self.toml}: this file has settings, and --without-jobs-toml says that there are "
                               "none; leave the option out, or move the file away")
        if self.paths & self.own and not has_settings and not is_without:
            raise JobsFileGone(f"{self.toml}: this file had settings for the jobs, and now it is gone or empty; put it "
                               "back, or start the agent once with --without-jobs-toml to run the jobs without "
                               "settings")
        self.keep(has_settings)

    def keep(self, has_settings: bool) -> None:
        """Keeps on the disk whether the agent's jobs.toml has settings. Raises OSError."""
        paths = self.paths | self.own if has_settings else self.paths - self.own
        if paths != self.paths:
            atomic_files.replace(self.path, json.dumps(sorted(paths)).encode())
            self.paths = paths
