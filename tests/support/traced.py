"""A function in a process of its own that is killed as it enters its system call of a number."""

import contextlib
import ctypes
import os
import signal
from collections.abc import Callable

TRACE_ME, NEXT_CALL, SET_OPTIONS = 0, 24, 0x4200
MARK_CALLS, DIE_WITH_TRACER = 1, 0x100000
OF_A_CALL = signal.SIGTRAP | 0x80


def can_trace() -> bool:
    """Whether this machine lets a process trace its child."""
    try:
        return killed_at(1, lambda: None)
    except OSError:
        return False


def traced(request: int, pid: int, data: int) -> None:
    """One request of ptrace. Raises OSError."""
    libc = ctypes.CDLL(None, use_errno=True)
    if libc.ptrace(request, pid, None, ctypes.c_void_p(data)) == -1:
        raise OSError(ctypes.get_errno(), "ptrace")


def killed_at(number: int, call: Callable[[], object]) -> bool:
    """Whether a process that makes a call was killed at its system call of this number; else it came to its end."""
    return entered_at(number, call, lambda child: os.kill(child, signal.SIGKILL))


def stopped_at(number: int, call: Callable[[], object], meanwhile: Callable[[], object]) -> bool:
    """Whether a process that makes a call came to its system call of this number: there it stands still while another
    call is made here, and then goes on to its end."""
    return entered_at(number, call, lambda _: meanwhile())


def begun(call: Callable[[], object]) -> int:
    """The process id of a traced child that stands still before it makes a call."""
    child = os.fork()
    if not child:
        status = 1
        try:
            traced(TRACE_ME, 0, 0)
            os.kill(os.getpid(), signal.SIGSTOP)
            call()
            status = 0
        finally:
            os._exit(status)
    os.waitpid(child, 0)
    traced(SET_OPTIONS, child, MARK_CALLS | DIE_WITH_TRACER)
    return child


def entered_at(number: int, call: Callable[[], object], then: Callable[[int], object]) -> bool:
    """Whether a process that makes a call came to its system call of this number, where `then` is called with its
    process id; it is waited for."""
    child = begun(call)
    entered, is_inside, passed_on = 0, False, 0
    while True:
        with contextlib.suppress(ProcessLookupError):  # it was killed there
            traced(NEXT_CALL, child, passed_on)
        _, status = os.waitpid(child, 0)
        if not os.WIFSTOPPED(status):
            assert entered >= number or os.waitstatus_to_exitcode(status) == 0, status
            return entered >= number
        is_call = os.WSTOPSIG(status) == OF_A_CALL
        passed_on = 0 if is_call else os.WSTOPSIG(status)
        is_inside = is_inside != is_call
        entered += is_call and is_inside
        if entered == number and is_call and is_inside:
            then(child)
