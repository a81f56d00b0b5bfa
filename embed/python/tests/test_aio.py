"""The resolver for asyncio, over a server of the test's own."""
import asyncio
import contextlib
import ipaddress
import os
import time
import unittest
import unittest.mock

import network
import yimarotu
from yimarotu import _numbers, aio
from yimarotu._network import LONGEST

# After so many seconds the program stood still.
STILL = 0.1
WWW = [ipaddress.ip_address("2001:db8::1"), ipaddress.ip_address("192.0.2.1")]


class WithServer(unittest.TestCase):
    def setUp(self):
        stack = contextlib.ExitStack()
        self.addCleanup(stack.close)
        self.server = stack.enter_context(network.running())

    def resolver(self, **given):
        return aio.Resolver(**{"servers": [self.server.text], "resolv_conf": "", "hostname": "", "hosts": "", **given})

    def run_with(self, work, **given):
        """Runs a coroutine over a resolver, and looks whether it leaves a socket."""

        async def main():
            before = network.sockets()
            async with self.resolver(**given) as resolver:
                found = await work(resolver)
            self.assertEqual(network.sockets(wanted=before), before)
            return found

        return asyncio.run(main())


async def error_of(waiting):
    try:
        return await waiting
    except (Exception, asyncio.CancelledError) as error:
        return type(error)


class Answers(WithServer):
    def test_answers(self):
        async def work(resolver):
            addresses = await resolver.addresses("third.example.test")
            self.assertEqual(list(addresses), WWW)
            self.assertTrue(50 - network.LONG <= addresses.ttl <= 50)
            answer = await resolver.lookup("example.test", "MX")
            self.assertEqual([it.data.exchange for it in answer], ["mail.example.test.", "backup.example.test."])
            self.assertEqual(list(await resolver.reverse("127.0.0.1")), ["localhost."])
            self.assertEqual(list(await resolver.addresses("192.0.2.7")), [ipaddress.ip_address("192.0.2.7")])
            for name, record_type in (("big", "TXT"), ("cut", "A"), ("closes", "A"), ("lied", "A"), ("slow", "A")):
                self.assertEqual(len(await resolver.lookup(f"{name}.example.test", record_type)), 1)
            return resolver.statistics()

        self.assertEqual(self.run_with(work).timed_out, 0)

    def test_errors(self):
        async def work(resolver):
            return [await error_of(it) for it in (
                resolver.addresses("nowhere.example.test"), resolver.lookup("www.example.test", "MX"),
                resolver.lookup("refused.example.test"), resolver.addresses("a..b"), resolver.reverse("a"),
                resolver.lookup("silent.example.test", timeout=0.2),
            )]

        wanted = [
            yimarotu.NoSuchName, yimarotu.NoRecords, yimarotu.ResponseCodeError, yimarotu.BadName, yimarotu.BadName,
            yimarotu.Timeout,
        ]
        self.assertEqual(self.run_with(work), wanted)
        silence = ["option timeout 1", "option attempts 0"]
        told = self.run_with(lambda resolver: error_of(resolver.lookup("silent.example.test")), settings=silence)
        self.assertIs(told, yimarotu.Timeout)

    def test_many_at_once(self):
        async def work(resolver):
            names = [f"n{number}.example.test" for number in range(200)]
            found = await asyncio.gather(*map(resolver.addresses, names + names))
            again = await asyncio.gather(*map(resolver.addresses, names))
            return [str(it[0]) for it in found], [str(it[0]) for it in again], resolver.statistics().sent

        once = [str(ipaddress.ip_address(0x0A000000 + number)) for number in range(200)]
        settings = ["option ip_strategy Ipv4Only", "option timeout 60"]
        self.assertEqual(self.run_with(work, settings=settings), (once + once, once, 200))
        self.assertEqual(self.server.count(), 200)

    def test_what_is_kept(self):
        async def work(resolver):
            for _ in range(20):
                self.assertEqual(list(await resolver.addresses("www.example.test")), WWW)
            resolver.clear_name("www.example.test", "A")
            await resolver.addresses("www.example.test")
            self.assertEqual(self.server.count(), 3)
            resolver.clear()
            await resolver.addresses("www.example.test")
            resolver.reload_servers(f"nameserver {network.OTHER_ADDRESS}\n")
            return list(await resolver.addresses("www.example.test")), self.server.count()

        self.assertEqual(self.run_with(work), (WWW, 5))


class Waiting(WithServer):
    def test_cancelled(self):
        async def work(resolver):
            before = network.sockets()
            names = ("silent.example.test", "held.example.test")
            tasks = [asyncio.ensure_future(resolver.addresses(name)) for name in names]
            # (a task sends at its first step)
            await asyncio.sleep(0)
            self.assertEqual(network.sockets(), before + 4)
            tasks[0].cancel()
            self.assertIs(await error_of(tasks[0]), asyncio.CancelledError)
            self.assertEqual(network.sockets(), before + 2)
            self.server.wait_for("held", 2)
            self.server.release()
            self.assertEqual(len(await tasks[1]), 1)
            self.assertEqual(network.sockets(), before)
            with self.assertRaises(asyncio.TimeoutError):
                await asyncio.wait_for(resolver.addresses("silent.example.test"), 0.1)
            self.assertEqual(network.sockets(), before)
            with self.assertRaises(yimarotu.Timeout):
                await resolver.addresses("silent.example.test", timeout=0.1)
            self.assertEqual(network.sockets(), before)
            return self.server.count("silent")

        self.assertGreaterEqual(self.run_with(work), 2)

    def test_what_came_before_the_machine_woke(self):
        """It is let go, and the question is sent anew."""
        async def work(resolver):
            with network.sleeping_machine() as sleep:
                task = asyncio.ensure_future(resolver.lookup("held.example.test"))
                await asyncio.sleep(0)
                self.server.wait_for("held", 1)
                (channel,) = resolver._driver.channels.values()
                self.server.release()
                network.wait_until_readable(channel.sock)
                sleep()
                while self.server.count("held") < 2:
                    await asyncio.sleep(0.01)
                self.server.release()
                return await task

        self.assertEqual(str(self.run_with(work)[0].data), "192.0.2.12")
        self.assertEqual(self.server.count("held"), 2)

    def test_what_came_while_the_loop_was_blocked(self):
        """It is let go, and the question is sent anew."""
        async def work(resolver):
            task = asyncio.ensure_future(resolver.lookup("held.example.test", timeout=network.LONG))
            await asyncio.sleep(0)
            self.server.wait_for("held", 1)
            (channel,) = resolver._driver.channels.values()
            self.server.release()
            network.wait_until_readable(channel.sock)
            # (for longer than any wait is)
            time.sleep(LONGEST + 0.5)
            while self.server.count("held") < 2 and not task.done():
                await asyncio.sleep(0.01)
            self.server.release()
            return await task

        with unittest.mock.patch.object(aio, "STILL", STILL):
            found = self.run_with(work, settings=["option timeout 3", "option attempts 2"])
        self.assertEqual(str(found[0].data), "192.0.2.12")
        self.assertEqual(self.server.count("held"), 2)

    def test_what_came_while_the_timer_was_late(self):
        """The same where the loop was blocked behind the moment of the timer, before that was called."""
        async def work(resolver):
            task = asyncio.ensure_future(resolver.lookup("held.example.test", timeout=network.LONG))
            await asyncio.sleep(0)
            self.server.wait_for("held", 1)
            loop, driver = asyncio.get_running_loop(), resolver._driver
            (channel,) = driver.channels.values()
            # (the timer is not to be called before all of this)
            while driver._due - loop.time() < 0.5:
                await asyncio.sleep(0.01)

            def pass_the_moment():
                loop.call_soon(block)
                time.sleep(max(0, driver._due - loop.time()) + 0.01)

            def block():
                self.server.release()
                network.wait_until_readable(channel.sock)
                time.sleep(2 * STILL)

            loop.call_soon(pass_the_moment)
            while self.server.count("held") < 2 and not task.done():
                await asyncio.sleep(0.01)
            self.server.release()
            return await task

        with unittest.mock.patch.object(aio, "STILL", STILL):
            found = self.run_with(work, settings=["option timeout 2", "option attempts 2"])
        self.assertEqual(str(found[0].data), "192.0.2.12")
        self.assertEqual(self.server.count("held"), 2)

    def failing(self, name, call, *words, **settings):
        """What a look-up came to while a call of the session fails, and the errors that the loop was told of."""
        async def work(resolver):
            told = []
            asyncio.get_running_loop().set_exception_handler(lambda _, of: told.append(type(of["exception"])))
            task = asyncio.ensure_future(resolver.lookup(f"{name}.example.test", timeout=network.LONG))
            await asyncio.sleep(0)
            self.server.wait_for(name, 1)
            network.runs_out_of_memory(resolver._driver.session, call, *words)
            self.server.release()
            return await error_of(task), told

        return self.run_with(work, **settings)

    def test_memory_runs_out_behind_a_look_up_that_is_done(self):
        found, told = self.failing("held", "next", 1, _numbers.LOOKED_UP)
        self.assertEqual(([str(it.data) for it in found], told), (["192.0.2.12"], [yimarotu.OutOfMemory]))

    def test_memory_runs_out_when_time_ends_something(self):
        """The timer is set anew."""
        began = time.monotonic()
        settings = ["option timeout 1", "option attempts 0"]
        found, told = self.failing("silent", "tick", 2, settings=settings)
        self.assertEqual((found, told), (yimarotu.Timeout, [yimarotu.OutOfMemory] * 2))
        self.assertLess(time.monotonic() - began, network.LONG)

    def test_memory_runs_out_when_a_stream_fails(self):
        """That is told again, before its time ends."""
        found, told = self.failing("closes", "failed", 1, settings="option timeout 60")
        self.assertEqual(([str(it.data) for it in found], told), (["192.0.2.7"], [yimarotu.OutOfMemory]))

    def test_memory_runs_out_when_the_machine_woke(self):
        """What came before it did is let go all the same."""
        async def work(resolver):
            asyncio.get_running_loop().set_exception_handler(lambda *_: None)
            with network.sleeping_machine() as sleep:
                task = asyncio.ensure_future(resolver.lookup("held.example.test", timeout=network.LONG))
                await asyncio.sleep(0)
                self.server.wait_for("held", 1)
                driver = resolver._driver
                (channel,) = driver.channels.values()
                network.runs_out_of_memory(driver.session, "tick", 1)
                self.server.release()
                network.wait_until_readable(channel.sock)
                sleep(network.NAP)
                while self.server.count("held") < 2 and not task.done():
                    await asyncio.sleep(0.01)
                self.server.release()
                return await task

        found = self.run_with(work, settings=["option timeout 4", "option attempts 2"])
        self.assertEqual(str(found[0].data), "192.0.2.12")
        self.assertEqual(self.server.count("held"), 2)

    def test_one_of_two_is_cancelled(self):
        """Who waits for the same question goes on."""
        async def work(resolver):
            tasks = [asyncio.ensure_future(resolver.lookup("held.example.test")) for _ in range(2)]
            await asyncio.sleep(0)
            tasks[0].cancel()
            self.assertIs(await error_of(tasks[0]), asyncio.CancelledError)
            self.server.wait_for("held", 1)
            self.server.release()
            return await tasks[1]

        self.assertEqual(str(self.run_with(work)[0].data), "192.0.2.12")
        self.assertEqual(self.server.count(), 1)

    def test_closed(self):
        async def work(resolver):
            tasks = [asyncio.ensure_future(resolver.addresses("silent.example.test")) for _ in range(3)]
            await asyncio.sleep(0.1)
            await resolver.close()
            told = [await error_of(task) for task in tasks] + [await error_of(resolver.addresses("www.example.test"))]
            return told

        self.assertEqual(self.run_with(work), [yimarotu.Closed] * 4)

    def test_time_ends_a_look_up(self):
        """The next server is asked in time, while nothing else happens, also where a longer wait was there before."""
        async def work(resolver):
            began = time.monotonic()
            self.assertIs(await error_of(resolver.lookup("silent.example.test")), yimarotu.Timeout)
            return time.monotonic() - began

        taken = self.run_with(work, settings=["option timeout 1", "option attempts 1"])
        self.assertTrue(1.9 < taken < network.LONG, taken)
        self.assertEqual(self.server.count(), 2)


class Loops(WithServer):
    def test_one_after_another(self):
        resolver = self.resolver()
        for _ in range(2):
            self.assertEqual(list(asyncio.run(resolver.addresses("www.example.test"))), WWW)
        self.assertEqual(self.server.count(), 4)
        asyncio.run(resolver.close())

    def test_two_at_once(self):
        resolver, first = self.resolver(), asyncio.new_event_loop()
        try:
            first.run_until_complete(resolver.addresses("www.example.test"))
            with self.assertRaises(RuntimeError):
                asyncio.run(resolver.addresses("four.example.test"))
            first.run_until_complete(resolver.close())
        finally:
            first.close()

    def test_child_of_fork(self):
        resolver = self.resolver()
        asyncio.run(resolver.addresses("www.example.test"))
        child = os.fork()
        if child == 0:
            ended = 1
            try:
                ended = 0 if list(asyncio.run(resolver.addresses("www.example.test"))) == WWW else 2
            finally:
                os._exit(ended)
        self.assertEqual(os.waitstatus_to_exitcode(os.waitpid(child, 0)[1]), 0)
        asyncio.run(resolver.close())


class Aiohttp(WithServer):
    def test_session(self):
        """A page of a server on loopback, by a name that the resolver alone knows."""
        import aiohttp
        from aiohttp import web

        async def main():
            async def show(request):
                return web.Response(text=request.host)

            app = web.Application()
            app.router.add_get("/", show)
            runner = web.AppRunner(app)
            await runner.setup()
            await web.TCPSite(runner, network.ADDRESS, port := network.free_port()).start()
            settings = ["option timeout 1", "option attempts 0"]
            async with self.resolver(settings=settings, hosts="127.0.0.1 page.example.test\n") as resolver:
                adapter = aio.resolver_for_aiohttp(resolver)
                self.assertIsInstance(adapter, aiohttp.abc.AbstractResolver)
                async with aiohttp.ClientSession(connector=aiohttp.TCPConnector(resolver=adapter)) as session:
                    async with session.get(f"http://page.example.test:{port}/") as page:
                        told = await page.text()
                    for name in ("nowhere.example.test", "silent.example.test"):
                        with self.assertRaises(aiohttp.ClientConnectorError):
                            await session.get(f"http://{name}:{port}/")
                await adapter.close()
            await runner.cleanup()
            return told, port

        told, port = asyncio.run(main())
        self.assertEqual(told, f"page.example.test:{port}")

    def test_families(self):
        import socket

        async def work(resolver):
            adapter = aio.resolver_for_aiohttp(resolver)
            families = (0, socket.AF_INET, socket.AF_INET6)
            places = [await adapter.resolve("www.example.test", 80, family) for family in families]
            with self.assertRaises(OSError):
                await adapter.resolve("four.example.test", 80, socket.AF_INET6)
            return [[(it["host"], it["port"], it["family"]) for it in found] for found in places]

        of_4, of_6 = ("192.0.2.1", 80, socket.AF_INET), ("2001:db8::1", 80, socket.AF_INET6)
        self.assertEqual(self.run_with(work), [[of_6, of_4], [of_4], [of_6]])


if __name__ == "__main__":
    unittest.main()
