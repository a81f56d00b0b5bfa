"""The resolver for plain code, over a server of the test's own."""
import contextlib
import datetime
import gc
import ipaddress
import os
import pathlib
import resource
import socket
import tempfile
import threading
import time
import tracemalloc
import unittest
import unittest.mock

import network
import yimarotu
from yimarotu._network import LONGEST

WWW = [ipaddress.ip_address("2001:db8::1"), ipaddress.ip_address("192.0.2.1")]


def near(ttl):
    """What may be left of a TTL when it is looked at."""
    return range(ttl - network.LONG, ttl + 1)


class WithServer(unittest.TestCase):
    def setUp(self):
        self.stack = contextlib.ExitStack()
        self.addCleanup(self.stack.close)
        self.server = self.stack.enter_context(network.running())

    def resolver(self, **given):
        given = {"servers": [self.server.text], "resolv_conf": "", "hostname": "", "hosts": "", **given}
        return self.stack.enter_context(yimarotu.Resolver(**given))


class Answers(WithServer):
    def test_addresses(self):
        found = self.resolver().addresses("www.example.test")
        self.assertEqual(list(found), WWW)
        self.assertIn(found.ttl, near(60))
        left = found.until - datetime.datetime.now(datetime.timezone.utc)
        self.assertTrue(60 - network.LONG < left.total_seconds() <= 60, left)
        self.assertEqual(self.server.count(), 2)

    def test_aliases(self):
        resolver = self.resolver()
        found = resolver.addresses("third.example.test")
        self.assertEqual(list(found), WWW)
        self.assertIn(found.ttl, near(50))
        answer = resolver.lookup("third.example.test", "A")
        self.assertEqual((answer.name, [str(it.data) for it in answer]), ("www.example.test.", ["192.0.2.1"]))

    def test_texts_that_are_addresses(self):
        resolver = self.resolver()
        for text in ("192.0.2.7", "2001:db8::7"):
            self.assertEqual(list(resolver.addresses(text)), [ipaddress.ip_address(text)])
        local = [ipaddress.ip_address(text) for text in ("::1", "127.0.0.1")]
        self.assertEqual(list(resolver.addresses("localhost")), local)
        self.assertEqual(self.server.count(), 0)

    def test_records(self):
        resolver = self.resolver()
        wanted = {
            "MX": ["10 mail.example.test.", "20 backup.example.test."],
            "TXT": ['"v=spf1 -all" "two words"'],
            "NS": ["ns.example.test."],
            "SOA": ["ns.example.test. admin.example.test. 1 7200 900 1209600 240"],
            "CAA": ['0 issue "ca.example"'],
            "HTTPS": ["\\# 3 000100"],
        }
        for kind, data in wanted.items():
            answer = resolver.lookup("example.test", kind)
            self.assertEqual([str(record.data) for record in answer], data)
            self.assertEqual({(it.name, it.type, it.class_) for it in answer}, {("example.test.", kind, "IN")})
        self.assertEqual(resolver.lookup("_imap._tcp.example.test", "srv")[0].data.port, 143)
        self.assertEqual(resolver.lookup("example.test", 15)[1].data.exchange, "backup.example.test.")

    def test_message_of_an_answer(self):
        answer = self.resolver().lookup("example.test", "MX")
        self.assertEqual((answer.answers, answer.authorities, answer.additionals), (tuple(answer), (), ()))
        self.assertEqual(yimarotu.records.read_question(answer.message), ("example.test.", "MX"))
        self.assertEqual(yimarotu.rewrite(answer.message), answer.message)

    def test_letters_beyond_ascii(self):
        found = self.resolver().addresses("b\u00fccher.example.test")
        self.assertEqual(list(found), [ipaddress.ip_address("192.0.2.11")])

    def test_large_answers(self):
        resolver = self.resolver()
        self.assertEqual(resolver.lookup("big.example.test", "TXT")[0].data.strings, tuple(network.BIG))
        self.assertEqual([query.by_stream for query in self.server.asked], [False, True])

    def test_many_addresses(self):
        hosts = "".join(f"10.0.{number // 250}.{number % 250} many\n" for number in range(500))
        found = self.resolver(hosts=hosts).addresses("many.")
        wanted = [ipaddress.ip_address(0x0A000000 + 256 * (at // 250) + at % 250) for at in range(500)]
        self.assertEqual(list(found), wanted)

    def test_hosts_and_reverse(self):
        resolver = self.resolver(hosts="192.0.2.9 printer.example.test printer\n")
        self.assertEqual(list(resolver.addresses("printer")), [ipaddress.ip_address("192.0.2.9")])
        names = resolver.reverse("192.0.2.9")
        self.assertEqual(list(names), ["printer.example.test.", "printer."])
        self.assertIn(names.ttl, near(86400))
        self.assertEqual(list(resolver.reverse(ipaddress.ip_address("::1"))), ["localhost."])


class Errors(WithServer):
    def told(self, call, *words, **more):
        with self.assertRaises(yimarotu.Error) as caught:
            call(*words, **more)
        return caught.exception

    def test_negative_answers(self):
        resolver = self.resolver()
        for _ in range(2):
            error = self.told(resolver.addresses, "nowhere.example.test")
            self.assertIs(type(error), yimarotu.NoSuchName)
            self.assertIn(error.ttl, near(240))
            self.assertEqual(error.name, "nowhere.example.test")
            self.assertEqual(str(error), "nowhere.example.test: there is no such name")
            error = self.told(resolver.lookup, "www.example.test", "MX")
            self.assertIs(type(error), yimarotu.NoRecords)
            self.assertIn(error.ttl, near(240))
        self.assertEqual(self.server.count(), 3)
        self.assertTrue(issubclass(yimarotu.NoSuchName, yimarotu.NoAnswer))

    def test_codes(self):
        for name, code, word in (("refused.example.test", 5, "REFUSED"), ("servfail.example.test", 2, "SERVFAIL")):
            error = self.told(self.resolver().lookup, name)
            self.assertEqual((type(error), error.code, error.code_word), (yimarotu.ResponseCodeError, code, word))

    def test_names_that_are_none(self):
        resolver = self.resolver()
        for name in ("a..b", "x" * 64 + ".example", "b\udcff", "\u00fc" * 70):
            error = self.told(resolver.addresses, name)
            self.assertIsInstance(error, (yimarotu.BadName, ValueError))
        self.assertIsInstance(self.told(resolver.reverse, "www"), yimarotu.BadName)
        with self.assertRaises(TypeError):
            resolver.addresses(b"www")
        with self.assertRaises(ValueError):
            resolver.lookup("www", "NONE")

    def test_timeouts(self):
        patient = self.resolver(settings="option timeout 60\n")
        hurried = self.resolver(settings="option attempts 0\noption timeout 1\n", timeout=60)
        for resolver, timeout, least in ((patient, 0.2, 0.2), (hurried, None, 0.99)):
            began = time.monotonic()
            error = self.told(resolver.lookup, "silent.example.test", timeout=timeout)
            self.assertTrue(least <= time.monotonic() - began < network.LONG)
            self.assertIsInstance(error, TimeoutError)
            self.assertIs(type(error), yimarotu.Timeout)
        self.assertEqual([it.statistics().timed_out for it in (patient, hurried)], [0, 1])

    def test_short_limits(self):
        """Each call has all of its time."""
        resolver = self.resolver()
        for timeout in [0.001, 0.0009, 0.0011] + [0.003] * 20:
            began = time.monotonic()
            self.told(resolver.lookup, "silent.example.test", timeout=timeout)
            self.assertGreaterEqual(time.monotonic() - began, timeout)

    def test_nobody_is_there(self):
        port = self.stack.enter_context(network.nobody())
        resolver = self.resolver(servers=[f"127.0.0.1:{port}"], settings="option timeout 1")
        error = self.told(resolver.lookup, "www.example.test", timeout=60)
        self.assertIsInstance(error, ConnectionError)
        self.assertIs(type(error), yimarotu.Unreachable)

    def test_settings_that_are_none(self):
        with self.assertRaises(yimarotu.BadSettings) as caught:
            yimarotu.Resolver(settings=["option ndots 1", "option ndost 2"], cache_octets=None)
        error = caught.exception
        self.assertEqual((error.line, str(error)), (2, "a setting cannot be read: option ndost 2"))
        self.assertIsInstance(caught.exception, ValueError)
        with self.assertRaises(yimarotu.BadSettings):
            yimarotu.Resolver(hosts=b"\xff\n")
        for server in ("dns.example", "192.0.2.1:0", "192.0.2.1:x", ("192.0.2.1", 65536)):
            with self.assertRaises(ValueError):
                yimarotu.Resolver(servers=[server])
        with self.assertRaises(FileNotFoundError):
            yimarotu.Resolver(resolv_conf="/nowhere/resolv.conf")

    def test_no_descriptor_is_left(self):
        resolver = self.resolver(settings=["option attempts 0", "option timeout 1"])
        limits = resource.getrlimit(resource.RLIMIT_NOFILE)
        resource.setrlimit(resource.RLIMIT_NOFILE, (network.free_descriptor(), limits[1]))
        try:
            error = self.told(resolver.lookup, "www.example.test", timeout=10)
        finally:
            resource.setrlimit(resource.RLIMIT_NOFILE, limits)
        self.assertIsInstance(error, (yimarotu.Unreachable, yimarotu.Timeout))
        self.assertEqual(str(resolver.lookup("www.example.test")[0].data), "192.0.2.1")


class Servers(WithServer):
    def test_files(self):
        with tempfile.TemporaryDirectory() as folder:
            conf, hosts = pathlib.Path(folder, "conf"), pathlib.Path(folder, "hosts")
            conf.write_text("search example.test\noptions no-aaaa\n")
            hosts.write_text("192.0.2.9 printer\n")
            resolver = self.resolver(resolv_conf=conf, hosts=str(hosts))
            self.assertEqual(list(resolver.addresses("www")), WWW[1:])
            self.assertEqual(list(resolver.addresses("printer")), [ipaddress.ip_address("192.0.2.9")])

    def test_domain_of_the_host(self):
        found = self.resolver(hostname="host.example.test").addresses("four")
        self.assertEqual(list(found), [ipaddress.ip_address("192.0.2.4")])

    def test_liar(self):
        found = self.resolver(settings="option ip_strategy Ipv4Only").addresses("lied.example.test")
        self.assertEqual((list(found), self.server.count()), ([ipaddress.ip_address("192.0.2.9")], 1))

    def test_slow(self):
        began = time.monotonic()
        found = self.resolver(settings="option ip_strategy Ipv4Only").addresses("slow.example.test")
        self.assertEqual((list(found), self.server.count()), ([ipaddress.ip_address("192.0.2.10")], 1))
        self.assertTrue(time.monotonic() - began >= network.SLOW)

    def test_stream_in_pieces(self):
        self.assertEqual(str(self.resolver().lookup("cut.example.test")[0].data), "192.0.2.8")

    def test_stream_that_closes(self):
        self.assertEqual(str(self.resolver().lookup("closes.example.test")[0].data), "192.0.2.7")
        self.assertEqual([query.by_stream for query in self.server.asked], [False, True, True])

    def test_second_server(self):
        with socket.socket(socket.AF_INET, socket.SOCK_DGRAM) as silent:
            silent.bind((network.ADDRESS, 0))
            for port in (self.stack.enter_context(network.nobody()), silent.getsockname()[1]):
                resolver = self.resolver(servers=[("127.0.0.1", port), self.server.text], settings="option timeout 1")
                self.assertEqual(list(resolver.addresses("www.example.test")), WWW)

    def test_streams_alone(self):
        resolver = self.resolver(servers=[], settings=f"server {network.ADDRESS} {self.server.port} tcp")
        for name in ("www", "four", "n1", "n2"):
            resolver.lookup(f"{name}.example.test")
        self.assertEqual({query.by_stream for query in self.server.asked}, {True})
        self.assertEqual(len({query.port for query in self.server.asked}), 1)

    def test_other_servers(self):
        resolver = self.resolver(settings="option timeout 1")
        resolver.reload_servers(f"nameserver {network.OTHER_ADDRESS}\n", clears=True)
        with self.assertRaises(yimarotu.Error):
            resolver.lookup("www.example.test", timeout=1)
        self.assertEqual(self.server.count(), 0)


class Cache(WithServer):
    def test_what_is_kept_is_not_asked(self):
        resolver = self.resolver()
        for _ in range(100):
            self.assertEqual(list(resolver.addresses("www.example.test")), WWW)
            self.assertEqual(len(resolver.lookup("example.test", "MX")), 2)
        self.assertEqual(self.server.count(), 3)

    def test_who_changes_an_answer_changes_no_other(self):
        resolver = self.resolver()
        for _ in range(4):
            found, answer = resolver.addresses("www.example.test"), resolver.lookup("example.test", "MX")
            self.assertEqual((list(found), len(answer)), (WWW, 2))
            found.clear()
            answer.clear()

    def test_ttls_go_down(self):
        resolver = self.resolver()
        resolver.addresses("four.example.test")
        time.sleep(2.1)
        ttls = resolver.addresses("four.example.test").ttl, resolver.lookup("four.example.test")[0].ttl
        self.assertTrue(all(ttl in near(58) for ttl in ttls) and ttls[0] >= ttls[1], ttls)

    def test_ttl_of_zero(self):
        resolver = self.resolver(settings="option ip_strategy Ipv4Only")
        for _ in range(3):
            resolver.addresses("zero.example.test")
            resolver.addresses("zero.example.test")
            time.sleep(1.01)
        self.assertTrue(3 <= self.server.count("zero") <= 6)

    def test_clear(self):
        resolver = self.resolver()
        for count in range(1, 4):
            for _ in range(3):
                resolver.lookup("www.example.test")
            self.assertEqual(self.server.count(), count)
            resolver.clear()
            self.assertEqual(resolver.statistics().entries, 0)
        resolver.lookup("www.example.test")
        resolver.clear_name("www.example.test", "MX")
        resolver.lookup("www.example.test")
        self.assertEqual(self.server.count(), 4)
        resolver.clear_name("www.example.test")
        resolver.lookup("www.example.test")
        self.assertEqual(self.server.count(), 5)

    def test_nothing_is_kept(self):
        resolver = self.resolver(settings="option cache_size 0")
        for _ in range(3):
            resolver.lookup("www.example.test")
        self.assertEqual(self.server.count(), 3)

    def test_bound(self):
        resolver = self.resolver(cache_octets=1_000_000)
        for number in range(1000):
            resolver.lookup(f"n{number}.example.test")
        told = resolver.statistics()
        self.assertTrue(told.octets <= 1_000_000 and 10 < told.entries < 1000, told)
        self.assertEqual((told.started, told.sent), (1000, 1000))


    def test_rooms_for_addresses(self):
        """One that was too small is let go."""
        counts = range(100, 2100, 100)
        hosts = "".join(f"10.0.{at // 250}.{at % 250} h{count}\n" for count in counts for at in range(count))
        resolver = self.resolver(hosts=hosts, settings="option ip_strategy Ipv4Only")
        tracemalloc.start()
        try:
            before = tracemalloc.get_traced_memory()[0]
            found = [len(resolver.addresses(f"h{count}.")) for count in counts]
            grown = tracemalloc.get_traced_memory()[0] - before
        finally:
            tracemalloc.stop()
        self.assertEqual(found, list(counts))
        # (17 octets for each address)
        self.assertLess(grown, 17 * sum(counts) / 2)


class Closing(WithServer):
    def test_nothing_is_left_open(self):
        before = network.descriptors()
        for way in ("close", "drop"):
            resolver = yimarotu.Resolver(servers=[self.server.text], hosts="")
            resolver.addresses("www.example.test")
            resolver.lookup("big.example.test", "TXT")
            with self.assertRaises(yimarotu.Timeout):
                resolver.addresses("silent.example.test", timeout=0.05)
            if way == "close":
                resolver.close()
            del resolver
            gc.collect()
            self.assertEqual(network.descriptors(wanted=before), before, way)

    def test_closed(self):
        resolver = self.resolver()
        resolver.addresses("www.example.test")
        resolver.close()
        resolver.close()
        for call in (lambda: resolver.addresses("www.example.test"), lambda: resolver.lookup("www.example.test"),
                     resolver.clear, resolver.statistics, lambda: resolver.reverse("::1")):
            with self.assertRaises(yimarotu.Closed):
                call()

    def test_closing_ends_what_waits(self):
        resolver, told = self.resolver(), []

        def wait():
            try:
                resolver.addresses("silent.example.test", timeout=60)
            except yimarotu.Error as error:
                told.append(type(error))

        threads = [threading.Thread(target=wait) for _ in range(8)]
        for thread in threads:
            thread.start()
        self.server.wait_for("silent", 2)
        resolver.close()
        for thread in threads:
            thread.join(network.LONG)
        self.assertEqual(told, [yimarotu.Closed] * 8)


class Threads(WithServer):
    def test_many_threads(self):
        resolver, found = self.resolver(), []

        def look_up(first):
            for number in range(first, first + 50):
                answer = resolver.lookup(f"n{number % 400}.example.test")
                found.append((number % 400, str(answer[0].data)))

        threads = [threading.Thread(target=look_up, args=(25 * number,)) for number in range(20)]
        for thread in threads:
            thread.start()
        for thread in threads:
            thread.join(60)
        asked = [number % 400 for at in range(20) for number in range(25 * at, 25 * at + 50)]
        wanted = [(number, str(ipaddress.ip_address(0x0A000000 + number))) for number in asked]
        self.assertEqual(sorted(found), sorted(wanted))
        self.assertEqual(resolver.statistics().sent, 400)

    def test_slow_and_fast(self):
        """One that waits for a silent server holds nobody up, and hands the sockets on when it ends."""
        resolver, told = self.resolver(settings="option timeout 60"), []

        def wait(name, timeout):
            began = time.monotonic()
            with contextlib.suppress(yimarotu.Timeout):
                resolver.lookup(name, timeout=timeout)
            told.append((name.split(".")[0], time.monotonic() - began))

        waits = [("silent.example.test", 3), ("slow.example.test", 60), ("silent.example.test", 6)]
        threads = [threading.Thread(target=wait, args=it) for it in waits]
        for thread in threads:
            thread.start()
        self.server.wait_for("silent", 1)
        began = time.monotonic()
        resolver.lookup("four.example.test", timeout=60)
        self.assertLess(time.monotonic() - began, 3)
        for thread in threads:
            thread.join(60)
        self.assertEqual([name for name, _ in told], ["slow", "silent", "silent"])
        self.assertTrue(3 <= told[1][1] < 6 <= told[2][1] < network.LONG, told)

    def test_limits_without_end(self):
        """One that is longer than the system can wait is none, for who waits for the sockets and for who does not."""
        resolver, found = self.resolver(), []
        limits = [float("inf"), 2.0**31, float("inf"), 1e12]
        threads = [threading.Thread(
            target=lambda limit=limit: found.append(str(resolver.lookup("slow.example.test", timeout=limit)[0].data))
        ) for limit in limits]
        for thread in threads:
            thread.start()
        for thread in threads:
            thread.join(network.LONG)
        self.assertEqual(found, ["192.0.2.10"] * len(limits))

    def test_equal_questions_are_sent_once(self):
        resolver, found = self.resolver(), []

        def look_up():
            found.append(resolver.lookup("slow.example.test"))

        threads = [threading.Thread(target=look_up) for _ in range(10)]
        for thread in threads:
            thread.start()
        for thread in threads:
            thread.join(20)
        self.assertEqual((len(found), self.server.count("slow")), (10, 1))


class Forks(WithServer):
    def in_child(self, work):
        """What a child of fork came to: 0 where the work was right."""
        child = os.fork()
        if child == 0:
            ended = 1
            try:
                ended = 0 if work() else 2
            finally:
                os._exit(ended)
        return os.waitstatus_to_exitcode(os.waitpid(child, 0)[1])

    def test_child_opens_anew(self):
        resolver = self.resolver()
        resolver.lookup("www.example.test")
        self.server.asked.clear()
        self.assertEqual(self.in_child(lambda: str(resolver.lookup("www.example.test")[0].data) == "192.0.2.1"), 0)
        self.assertEqual(self.server.count(), 1)
        resolver.lookup("www.example.test")
        self.assertEqual(self.server.count(), 1)

    def ids_of(self, ask):
        """The ids of the two questions that are asked: one alone may be the same by chance."""
        self.server.asked.clear()
        ask()
        self.assertEqual(self.server.count(), 2)
        return tuple(query.octets[:2] for query in self.server.asked)

    def test_another_seed(self):
        """Parent and children ask the same with other ids."""
        resolver = self.resolver()

        def ask():
            return [resolver.lookup(f"{name}.example.test") for name in ("four", "www")]

        def ask_in_child():
            self.assertEqual(self.in_child(ask), 0)

        found = {self.ids_of(ask), *(self.ids_of(ask_in_child) for _ in range(3))}
        self.assertEqual(len(found), 4, found)

    def test_in_mid_look_up(self):
        """A child of a fork while another thread waits; that one goes on."""
        resolver, found = self.resolver(), []
        thread = threading.Thread(target=lambda: found.append(resolver.lookup("held.example.test", timeout=60)))
        thread.start()
        self.server.wait_for("held", 1)
        self.assertEqual(self.in_child(lambda: len(resolver.addresses("www.example.test")) == 2), 0)
        self.server.release()
        thread.join(60)
        self.assertEqual([str(it[0].data) for it in found], ["192.0.2.12"])

    def test_closed_in_the_child(self):
        resolver = self.resolver()
        resolver.close()

        def is_closed():
            try:
                resolver.lookup("www.example.test")
            except yimarotu.Closed:
                return True
            return False

        self.assertEqual(self.in_child(is_closed), 0)


class Sleeping(WithServer):
    def test_what_came_before_it_woke(self):
        """A reply that came while the machine slept is let go, and the question is sent anew."""
        found = []
        with network.sleeping_machine() as sleep:
            resolver = self.resolver()
            thread = threading.Thread(target=lambda: found.append(resolver.lookup("held.example.test", timeout=60)))
            thread.start()
            self.server.wait_for("held", 1)
            with resolver._driver.lock:
                (channel,) = resolver._driver.channels.values()
                self.server.release()
                network.wait_until_readable(channel.sock)
                sleep()
            self.server.wait_for("held", 2)
            self.server.release()
            thread.join(60)
        self.assertEqual([str(it[0].data) for it in found], ["192.0.2.12"])
        self.assertEqual(self.server.count("held"), 2)

    def test_what_came_while_the_program_stood_still(self):
        """The same where the thread that waits for the sockets could not run for longer than any wait is."""
        found = []
        resolver = self.resolver(settings=["option timeout 3", "option attempts 2"])
        self.stack.enter_context(unittest.mock.patch.object(yimarotu.resolver, "STILL", 0.1))
        thread = threading.Thread(target=lambda: found.append(resolver.lookup("held.example.test", timeout=60)))
        thread.start()
        self.server.wait_for("held", 1)
        with resolver._driver.lock:
            self.server.release()
            time.sleep(LONGEST + 0.5)
        self.server.wait_for("held", 2)
        self.server.release()
        thread.join(60)
        self.assertEqual([str(it[0].data) for it in found], ["192.0.2.12"])
        self.assertEqual(self.server.count("held"), 2)

    def test_what_came_as_one_that_waited_was_interrupted(self):
        """The same where it stood still as one waited for the sockets, and something was raised there as it went on."""
        resolver = self.resolver(settings=["option timeout 3", "option attempts 2"])
        driver, found, raised = resolver._driver, [], []
        self.stack.enter_context(unittest.mock.patch.object(yimarotu.resolver, "STILL", 0.1))

        class Poll:
            """The first wait stands still as a reply comes."""

            def __init__(self, poll):
                self.register, self.modify, self.unregister, self.whole = poll.register, poll.modify, poll.unregister, poll

            def poll(poll, _):
                driver._poll = poll.whole
                self.server.wait_for("held", 1)
                self.server.release()
                network.wait_until_readable(list(driver.channels.values())[-1].sock)
                time.sleep(LONGEST + 0.5)
                raise KeyboardInterrupt

        def be_interrupted():
            try:
                resolver.lookup("silent.example.test", timeout=60)
            except KeyboardInterrupt as error:
                raised.append(error)

        driver._poll = Poll(driver._poll)
        threads = [threading.Thread(target=be_interrupted)]
        threads.append(threading.Thread(target=lambda: found.append(resolver.lookup("held.example.test", timeout=60))))
        for thread, name in zip(threads, ("silent", "held")):
            thread.start()
            self.server.wait_for(name, 1)
        self.server.wait_for("held", 2)
        self.server.release()
        for thread in threads:
            thread.join(60)
        self.assertEqual(([str(it[0].data) for it in found], len(raised)), (["192.0.2.12"], 1))
        self.assertEqual(self.server.count("held"), 2)

    def test_a_look_up_when_it_woke(self):
        """The first reply that comes then is believed."""
        with network.sleeping_machine() as sleep:
            resolver = self.resolver()
            for count in (1, 2):
                self.assertEqual(str(resolver.lookup("four.example.test")[0].data), "192.0.2.4")
                self.assertEqual(self.server.count(), count)
                sleep()


class Fed(unittest.TestCase):
    def test_dropped(self):
        """It is closed when it is dropped."""
        session = yimarotu.Session()
        inside = session._session
        self.assertTrue(inside.is_open)
        del session
        gc.collect()
        self.assertFalse(inside.is_open)

    def test_session(self):
        """A session that is fed by hand, as it was before there was a resolver."""
        with yimarotu.Session("option ip_strategy Ipv4Only\n", moment=100) as session:
            self.assertTrue(session.start_ip(1, "www.example.test.", 100))
            query = network.read_query(session.question(1).message, False, 0)
            self.assertFalse(session.feed(1, network.true_reply(query)))
            answer = session.answer(1)
            told = answer.error, answer.until, answer.message[-4:]
            self.assertEqual(told, (yimarotu.FOUND, 160, bytes([192, 0, 2, 1])))
            with self.assertRaises(yimarotu.Refused) as caught:
                session.question(2)
            self.assertEqual(caught.exception.status, yimarotu.NO_LOOKUP)


if __name__ == "__main__":
    unittest.main()
