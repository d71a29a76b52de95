"""How many calls of the system an answer of a desk takes: its headers and its body are sent by one, and the name of a
user is looked up once in some seconds."""

import asyncio
import http.client
import pwd
import unittest
from asyncio import selector_events
from contextlib import closing
from unittest import mock

from support import desks

from opcplan.desk import peers

try:
    from aiohttp import web
    from opcplan.desk.connections import WholeResponse
except ImportError:  # the gate's Python may have no package
    web = None


@unittest.skipIf(desks.why_not() or web is None, desks.why_not() or "there is no aiohttp here")
class Sends(unittest.TestCase):
    @staticmethod
    async def sent(answer):
        """What a server sends, by its calls, and what a caller gets of two answers over one connection."""
        real, calls = selector_events._SelectorSocketTransport.write, []

        def write(transport, data):
            calls.append(bytes(data))
            return real(transport, data)

        def asked(port):
            with closing(http.client.HTTPConnection("127.0.0.1", port, timeout=60)) as connection:
                found = []
                for method in ("GET", "GET"):
                    connection.request(method, "/")
                    got = connection.getresponse()
                    found.append((got.status, got.headers["X-Of"], got.read().decode()))
                return found

        app = web.Application()
        app.router.add_get("/", lambda _: asyncio.sleep(0, answer(text="ok serial 1\n", headers={"X-Of": "desk"})))
        runner = web.AppRunner(app)
        await runner.setup()
        try:
            site = web.TCPSite(runner, "127.0.0.1", 0)
            await site.start()
            port = runner.addresses[0][1]
            with mock.patch.object(selector_events._SelectorSocketTransport, "write", write):
                return calls, await asyncio.to_thread(asked, port)
        finally:
            await runner.cleanup()

    def test_an_answer_is_sent_by_one_call(self):
        calls, found = asyncio.run(self.sent(WholeResponse))
        self.assertEqual(found, [(200, "desk", "ok serial 1\n")] * 2)
        self.assertEqual(len(calls), 2)
        self.assertTrue(all(one.startswith(b"HTTP/1.1 200") and one.endswith(b"ok serial 1\n") for one in calls))
        more, same = asyncio.run(self.sent(web.Response))  # as aiohttp does it
        self.assertEqual((len(more), same), (4, found))


class Names(unittest.TestCase):
    def test_a_name_is_looked_up_once_in_some_seconds(self):
        names, now, asked = peers.Names(), [100.0], []

        def getpwuid(uid):
            asked.append(uid)
            if uid == 7:
                raise KeyError
            return mock.Mock(pw_name=f"user{uid}-{len(asked)}")

        with mock.patch.object(pwd, "getpwuid", getpwuid), mock.patch.object(peers.time, "monotonic", lambda: now[0]):
            self.assertEqual([names.of(uid) for uid in (5, 5, 7, 7, 5)], ["user5-1", "user5-1", "uid:7", "uid:7",
                                                                          "user5-1"])
            now[0] += peers.REMEMBERED
            self.assertEqual([names.of(5), names.of(5), names.of(7)], ["user5-3", "user5-3", "uid:7"])
        self.assertEqual(asked, [5, 7, 5, 7])


if __name__ == "__main__":
    unittest.main()
