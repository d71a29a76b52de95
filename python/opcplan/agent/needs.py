"""What an agent can't do until a person acts, by a name that stays while it lasts. No I/O."""

# the names: of jobs.toml, of the folders of jobs and logs, and of the job of an application
JOBS_TOML, FOLDER, JOB = "jobs.toml", "folder", "job "


class Needs:
    """One sentence for each need, by its name: what is wrong and what to do. `messages` has what to print: each
    sentence once while it stays the same."""

    def __init__(self) -> None:
        self.found: dict[str, str] = {}
        self.messages: list[str] = []

    def put(self, name: str, text: str) -> None:
        """Notes a need that is there now."""
        if self.found.get(name) != text:
            self.found[name] = text
            self.messages.append(text)

    def end(self, name: str, text: str = "") -> None:
        """Notes that a need is over, and what to print if it was there."""
        if self.found.pop(name, None) is not None and text:
            self.messages.append(text)

    def keep_jobs(self, apps: set[str]) -> None:
        """Drops the needs of the jobs of all other applications: nothing of these is ready any more."""
        for name in [name for name in self.found if name.startswith(JOB) and name.removeprefix(JOB) not in apps]:
            del self.found[name]

    def values(self) -> list[dict[str, str]]:
        """The needs as an agent reports them, in the order in which they came."""
        return [{"name": name, "text": text} for name, text in self.found.items()]
