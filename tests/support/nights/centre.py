"""The plan of the nights: twenty applications of each day, most of them a chain through the night. HELLO is the one of
docs/use/INSTALL.md."""

from typing import NamedTuple


class App(NamedTuple):
    """An application: when it arrives and is due, each as days later and time, how many minutes its job takes, and its
    predecessors."""

    name: str
    arrives: str
    due_later: int
    due: str
    takes: int
    after: tuple = ()


HELLO = "HELLO"
APPS = {found[0]: App(found[0], found[1], int(found[2]), found[3], int(found[4]), tuple(found[5:])) for found in (
    line.split() for line in """
HELLO      00.05 0 23.00  1
BALANCE    01.00 0 04.00 10 LEDGER
LEDGER     00.15 0 03.00 30 INTEREST
STATEMENTS 00.30 0 05.00 30 POST
LIMITS     01.30 0 05.00 15 BALANCE
RISK       01.30 0 05.00 30 BALANCE
REPORT     02.00 0 06.30 20 RISK LIMITS
PRINT      02.00 0 07.00 45 STATEMENTS
BACKUP     03.00 0 05.30 60 LEDGER
STOCK      06.00 0 07.30 10
PRICES     06.15 0 07.30 10 STOCK
SHOP       07.00 0 08.00  5 PRICES
SCRATCH    12.00 0 14.00 15
MIDDAY     12.30 0 15.00 25 SCRATCH
ORDERS     20.00 0 21.00 20
CARDS      20.00 0 21.30 30
CLEARING   21.00 0 22.30 25 ORDERS CARDS
MATCH      22.00 0 23.30 20 CLEARING
POST       23.00 1 01.00 40 MATCH
INTEREST   23.30 1 02.00 20 POST
""".strip().split("\n"))}


def block(kind, lines):
    """A block of data of a stream; the desk gives the job number."""
    return "".join((f"define {kind}\n", *(f"{line}\n" for line in lines), "/*\n"))


def stream(begin):
    """What defines all applications but HELLO, from a day on."""
    others = [app for app in APPS.values() if app.name != HELLO]
    return "".join((
        block("applications", [f"{app.name},A," for app in others]),
        block("run-cycles", [f"{app.name},DAILY,N,DAY,3,1,{begin},,{app.arrives},{app.due_later},{app.due}"
                             for app in others]),
        block("predecessors", [f"{app.name},{other}" for app in others for other in app.after]),
        "ltp-modify-all\n"))
