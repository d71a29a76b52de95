"""Signals that stop a command: it takes away what is its own first, and ends by them then."""

import os
import signal

SIGNALS = (signal.SIGINT, signal.SIGTERM, signal.SIGHUP)


class SignalReceived(BaseException):
    """A signal came; `number` is the signal's."""

    def __init__(self, number: int) -> None:
        super().__init__(number)
        self.number = number


def catch() -> None:
    """From here on each of the signals raises SignalReceived, once; one that is ignored stays so, as under nohup."""
    for number in SIGNALS:
        if signal.getsignal(number) is not signal.SIG_IGN:
            signal.signal(number, stop)


def stop(number: int, _: object) -> None:
    ignore()
    raise SignalReceived(number)


def ignore() -> None:
    """From here on nothing stops the command."""
    for number in SIGNALS:
        signal.signal(number, signal.SIG_IGN)


def end_by(number: int) -> None:
    """Ends the process as the signal does where nobody catches it."""
    signal.signal(number, signal.SIG_DFL)
    os.kill(os.getpid(), number)
