"""./plan desk --log: three desks over three nodes of etcd, and twenty callers who go from one to another, while a desk
is killed, a node is killed and another one stands for a while. Each answer is that of the log, nothing is lost and
nothing doubled, and all three plans are what tools/reference/plain_planner.py makes of the log."""

import time
import unittest

from support import desks, machines, plans

CALLERS, TURNS = 20, 2


@unittest.skipIf(machines.why_not(), machines.why_not())
class Kills(machines.Case):
    def test_nothing_is_lost_and_nothing_doubled(self):
        over = self.machines(plans.of_stream(desks.CENTRE))
        callers = machines.Callers(over.ports, CALLERS, TURNS)
        self.assertGreater(callers.statements, CALLERS * 40)
        callers.start()
        callers.wait(0.1)
        over.kill(0)
        callers.wait(0.2)
        over.start(0)
        callers.wait(0.35)
        over.etcd.kill(1)
        callers.wait(0.5)
        over.etcd.start(1)
        callers.wait(0.65)
        stands = over.etcd.leader()
        over.etcd.stop(stands)
        time.sleep(2)
        over.etcd.go_on(stands)
        callers.join()
        over.catch_up()
        self.assertEqual(over.end_desks(), [0, 0, 0])
        self.assertEqual(machines.wrong(over, callers), [])


if __name__ == "__main__":
    unittest.main()
