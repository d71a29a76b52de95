"""The list of what needs a person, from facts. No I/O."""

from opcplan.needs import horizon, machines, need, occurrences
from opcplan.needs.facts import Facts
from opcplan.needs.need import Found


def of_facts(facts: Facts) -> Found:
    """All needs, the worst first, and what they count."""
    found, live = occurrences.of_facts(facts), facts.live
    needs = [*found.needs, *horizon.of_facts(facts),
             *machines.of_agents(live.agents, machines.counts_of(found.followers), facts.now)]
    if live.trouble is not None:
        needs.append(machines.of_away("desk", live.trouble, facts.now - live.trouble.since))
    needs += machines.of_nodes(live.nodes, facts.now)
    for disk in live.disks:
        needs += machines.of_disk(disk)
    needs += machines.of_calls(live.undelivered, facts.now)
    return Found(need.in_order([one.of_plan(live.plan) for one in needs]), found.followers)
