"""Threads that do what may hang, one for each name, so that nobody waits for somebody else."""

import queue
import threading
from collections.abc import Callable
from typing import Any, NamedTuple, Protocol


class Done(NamedTuple):
    """What came of a job: whose it is, and its result or the exception that it raised."""

    name: str
    result: Any


class Crew(Protocol):
    """Who does jobs for a watch."""

    def start(self, name: str, job: Callable[[], Any]) -> None:
        """Begins a job of a name; only one of each name is under way."""

    def wait(self, seconds: float) -> Done | None:
        """What came of a job, None if none ends in so many seconds or `wake` is called."""

    def wake(self) -> None:
        """Ends a wait, also from the handler of a signal."""


class Workers:
    """A Crew of threads. They don't outlive the process."""

    def __init__(self) -> None:
        self.inbox: queue.SimpleQueue[Done | None] = queue.SimpleQueue()
        self.jobs: dict[str, queue.SimpleQueue[Callable[[], Any]]] = {}

    def start(self, name: str, job: Callable[[], Any]) -> None:
        """Begins a job of a name; only one of each name is under way."""
        if name not in self.jobs:
            jobs: queue.SimpleQueue[Callable[[], Any]] = queue.SimpleQueue()
            try:
                threading.Thread(target=self.work, args=(name, jobs), name=name, daemon=True).start()
            except RuntimeError as error:  # no more threads are allowed here
                self.inbox.put(Done(name, error))
                return
            self.jobs[name] = jobs
        self.jobs[name].put(job)

    def work(self, name: str, jobs: "queue.SimpleQueue[Callable[[], Any]]") -> None:
        """Does the jobs of a name."""
        while True:
            job = jobs.get()
            try:
                found = job()
            except Exception as error:
                found = error
            self.inbox.put(Done(name, found))

    def wait(self, seconds: float) -> Done | None:
        """What came of a job, None if none ends in so many seconds or `wake` is called."""
        try:
            return self.inbox.get(timeout=max(0.0, seconds))
        except queue.Empty:
            return None

    def wake(self) -> None:
        """Ends a wait, also from the handler of a signal."""
        self.inbox.put(None)


class Inline:
    """A Crew without threads: a job is done as it is begun. For watches whose clock is given by hand."""

    def __init__(self) -> None:
        self.inbox: list[Done] = []

    def start(self, name: str, job: Callable[[], Any]) -> None:
        """Does a job."""
        try:
            self.inbox.append(Done(name, job()))
        except Exception as error:
            self.inbox.append(Done(name, error))

    def wait(self, seconds: float) -> Done | None:
        """What came of a job, None if there is nothing."""
        return self.inbox.pop(0) if self.inbox else None

    def wake(self) -> None:
        """Nothing waits."""
