"""Where an occurrence stands, by letters: of the current plan W S E C D, of the long-term plan L, of history H, and of
the deletions o, w and p."""

UNFINISHED = "WSE"  # statuses of the current plan that are neither complete nor deleted
COMPLETE = "CH"
STATES = {
    "E": "in error",
    "S": "started",
    "R": "ready",
    "B": "blocked",
    "F": "its time is to come",
    "L": "planned",
    "C": "complete",
    "H": "complete",
    "D": "deleted",
    "o": "deleted",
    "w": "withdrawn",
    "p": "deleted",
}

WHERE = {
    "L": "is in the long-term plan",
    "W": "waits in the current plan",
    "S": "is started, in the current plan",
    "E": "ended in error, in the current plan",
    "C": "is complete, in the current plan",
    "D": "is deleted, in the current plan",
    "H": "is complete, in history",
    "o": "was deleted from the long-term plan by an operator",
    "w": "was withdrawn from the long-term plan",
    "p": "was deleted in the current plan by an operator",
}
