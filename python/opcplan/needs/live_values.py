"""Live facts as JSON has them: a desk passes them to the process that finds what needs a person. No I/O."""

from typing import Any

from opcplan.needs.facts import Agent, Away, Disk, Idle, Live, Roll, Undelivered


def values(live: Live) -> dict[str, Any]:
    """Live facts as JSON has them."""
    return {
        "accepts_since": live.accepts_since, "trouble": live.trouble, "agents": [one._asdict() for one in live.agents],
        "roll": live.roll, "undelivered": live.undelivered, "nodes": live.nodes, "disks": live.disks,
        "plan": live.plan,
    }


def of_values(found: Any) -> Live:
    """The live facts that JSON has. Raises KeyError, TypeError and ValueError."""
    return Live(
        found["accepts_since"], None if found["trouble"] is None else Away(*found["trouble"]),
        tuple(map(agent_of, found["agents"])), None if found["roll"] is None else Roll(*found["roll"]),
        tuple(Undelivered(*one) for one in found["undelivered"]), tuple(Away(*one) for one in found["nodes"]),
        tuple(Disk(*one) for one in found["disks"]),
        found["plan"])


def agent_of(found: Any) -> Agent:
    """The agent that JSON has. Raises KeyError, TypeError and ValueError."""
    idle = {int(serial): Idle(*one) for serial, one in found["idle"].items()}
    unknown = {int(serial): str(text) for serial, text in found["unknown"].items()}
    return Agent(found["name"], found["last"], found["since"], found["own"], idle, unknown, found["trouble"],
                 found["trouble_since"])
