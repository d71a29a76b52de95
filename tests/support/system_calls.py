"""The system calls of a function by which it writes, syncs, renames, sends and starts processes, in their order.

The function runs in a traced process of its own; only its first thread is seen, and no process that it starts. The
numbers are those of x86-64, as the program's."""

import ctypes
import os
from collections.abc import Callable, Iterable
from typing import NamedTuple

from support.traced import begun, NEXT_CALL, OF_A_CALL, traced

GET_REGISTERS = 12
# places in the registers that the kernel gives
R10, R8, RAX, RDX, RSI, RDI, NUMBER = 7, 9, 10, 12, 13, 14, 15
OF_A_FILE = {1: "write", 18: "write", 20: "write", 44: "write", 46: "write", 74: "sync", 75: "sync"}
# by number the places of the old and the new path, and with each that of the folder in which it is, if it has one
RENAMES = {82: ((RDI, None), (RSI, None)), 86: ((RDI, None), (RSI, None)), 264: ((RSI, RDI), (R10, RDX)),
           265: ((RSI, RDI), (R10, RDX)), 316: ((RSI, RDI), (R10, RDX))}
AT_CWD = -100
STARTS = {56, 57, 58, 435}


class Call(NamedTuple):
    """A system call: `write`, `sync` or `send` of an open file or socket, `rename` of a path to another one, `start` of
    a process."""

    name: str
    path: str = ""
    to: str = ""


def calls_of(function: Callable[[], object]) -> list[Call]:
    """The calls of a function that succeed. It has to come to its end."""
    child = begun(function)
    found: list[Call] = []
    inside: Call | None = None
    is_inside, passed_on = False, 0
    registers = (ctypes.c_ulonglong * 27)()
    while True:
        traced(NEXT_CALL, child, passed_on)
        _, status = os.waitpid(child, 0)
        if not os.WIFSTOPPED(status):
            assert os.waitstatus_to_exitcode(status) == 0, status
            return found
        passed_on = 0
        if os.WSTOPSIG(status) != OF_A_CALL:
            passed_on = os.WSTOPSIG(status)
            continue
        is_inside = not is_inside
        traced(GET_REGISTERS, child, ctypes.addressof(registers))
        if is_inside:
            inside = call_of(child, list(registers))
        elif inside is not None and ctypes.c_longlong(registers[RAX]).value >= 0:
            found.append(inside)


def call_of(child: int, registers: list[int]) -> Call | None:
    """The call that a process enters, if it is one of these."""
    number = registers[NUMBER]
    if number in OF_A_FILE:
        path = os.readlink(f"/proc/{child}/fd/{registers[RDI]}")
        is_sent = path.startswith("socket:") and OF_A_FILE[number] == "write"
        return Call("send" if is_sent else OF_A_FILE[number], path)
    if number in RENAMES:
        old, new = (path_at(child, registers[path], AT_CWD if folder is None else registers[folder])
                    for path, folder in RENAMES[number])
        return Call("rename", old, new)
    return Call("start") if number in STARTS else None


def path_at(child: int, address: int, folder: int) -> str:
    """The text at an address in a process as an absolute path, in the folder that it has open under a number."""
    with open(f"/proc/{child}/mem", "rb", buffering=0) as memory:
        memory.seek(address)
        text = os.fsdecode(memory.read(4096).partition(b"\0")[0])
    number = ctypes.c_int(folder & 0xFFFFFFFF).value
    base = f"/proc/{child}/cwd" if number == AT_CWD else f"/proc/{child}/fd/{number}"
    return os.path.normpath(os.path.join(os.readlink(base), text))


def unsynced(calls: Iterable[Call], after: Iterable[str] = ("send", "start")) -> list[str]:
    """What of these calls a power cut could undo: files that are renamed while something written to them isn't synced,
    and renames that aren't synced by their folder before the next call of these names, or the end."""
    written: set[str] = set()
    renamed: dict[str, str] = {}  # by folder the last path
    found = []
    for one in [*calls, Call("end")]:
        if one.name == "write":
            written.add(one.path)
        elif one.name == "sync":
            written.discard(one.path)
            renamed.pop(one.path, None)
        elif one.name == "rename":
            if one.path in written:
                found.append(f"{one.to} got its name before its content was synced")
            renamed[os.path.dirname(one.to)] = one.to
        elif one.name in ("end", *after):
            found += [f"the name of {path} wasn't synced before the next {one.name}" for path in renamed.values()]
            renamed.clear()
    return found
