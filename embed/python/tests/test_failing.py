"""The resolver for plain code where something is raised in one thread while another waits."""
import collections
import itertools
import random
import signal
import threading
import time
import types
import unittest
import unittest.mock

import network
import yimarotu
from test_resolver import WithServer
from yimarotu import _numbers
from yimarotu.resolver import WithinLookUp

# How often a signal interrupts a look-up, and how many seconds from when it begins.
INTERRUPTIONS, SOONEST, LATEST = 3000, 0.00001, 0.0002


class Failing(WithServer):
    """Something is raised in one of two threads, the one that waits for the sockets."""

    def begin(self, timeout, *settings):
        """Has one wait for a silent server, for so long, and then another for a reply."""
        self.waiting, self.told = self.resolver(settings=settings or "option timeout 60"), {}
        return self.start("silent", timeout), self.start("held", network.LONG)

    def start(self, name, timeout):
        thread = threading.Thread(target=self.look_up, args=(name, timeout))
        thread.start()
        self.server.wait_for(name, 1)
        return thread

    def look_up(self, name, timeout):
        try:
            self.told[name] = str(self.waiting.lookup(f"{name}.example.test", timeout=timeout)[0].data)
        except yimarotu.Error as error:
            self.told[name] = type(error)

    def test_behind_a_look_up_that_is_done(self):
        """Who waited for that is told of it."""
        threads = self.begin(2 * network.LONG)
        with self.waiting._driver.lock:
            network.runs_out_of_memory(self.waiting._driver.session, "next", 1, behind=_numbers.LOOKED_UP)
        self.server.release()
        for thread in threads:
            thread.join()
        self.assertEqual(self.told, {"silent": yimarotu.OutOfMemory, "held": "192.0.2.12"})

    def test_as_it_ends(self):
        """The other one waits for the sockets from then on."""
        threads = self.begin(1)
        with self.waiting._driver.lock:
            network.runs_out_of_memory(self.waiting._driver.session, "next", 2)
        threads[0].join()
        self.server.release()
        threads[1].join()
        self.assertEqual(self.told, {"silent": yimarotu.OutOfMemory, "held": "192.0.2.12"})

    def test_as_the_machine_woke(self):
        """What came before it did is let go all the same."""
        with network.sleeping_machine() as sleep:
            threads, driver = self.begin(2 * network.LONG, "option timeout 4"), self.waiting._driver
            with driver.lock:
                network.runs_out_of_memory(driver.session, "tick", 1)
                self.server.release()
                network.wait_until_readable(list(driver.channels.values())[-1].sock)
                sleep(network.NAP)
            self.server.wait_for("held", 2)
            self.server.release()
            for thread in threads:
                thread.join()
        self.assertEqual(self.told, {"silent": yimarotu.OutOfMemory, "held": "192.0.2.12"})

    def test_as_a_stream_fails(self):
        """That is told again: who waits for its reply need not wait until its time ends."""
        self.waiting, self.told = self.resolver(settings="option timeout 60"), {}
        network.runs_out_of_memory(self.waiting._driver.session, "failed", 1)
        threads = self.start("silent", 2 * network.LONG), self.start("closes", network.LONG)
        for thread in threads:
            thread.join()
        self.assertEqual(self.told, {"silent": yimarotu.OutOfMemory, "closes": "192.0.2.7"})

    def test_as_it_takes_the_lock(self):
        """What a signal has raised there is raised once it is taken, and others look up as before."""
        resolver = self.resolver()
        lock = resolver._driver.lock = Interrupted(resolver._driver.lock)
        with self.assertRaises(KeyboardInterrupt):
            resolver.lookup("slow.example.test", timeout=network.LONG)
        self.assertFalse(lock._is_owned())
        self.assertEqual(str(resolver.lookup("four.example.test", timeout=network.LONG)[0].data), "192.0.2.4")

    def test_within_a_look_up(self):
        """One that a handler of a signal makes there is refused, and does not wait for its own thread: which has the
        lock, which waits for the sockets, and for which another one does."""
        resolver = self.resolver(settings="option timeout 60")
        with resolver._driver.lock, self.assertRaises(RuntimeError):
            resolver.lookup("four.example.test", timeout=1)
        self.assertEqual(self.told_within(resolver), ("192.0.2.12", [WithinLookUp]))
        other = threading.Thread(target=error_of, args=(resolver.lookup, "held.example.test", "TXT"))
        other.start()
        self.server.wait_for("held", 2)
        self.assertEqual(self.told_within(resolver), ("192.0.2.12", [WithinLookUp]))
        other.join()

    def test_wherever_something_is_raised(self):
        """A signal has it raised at any moment of a look-up, or behind it: none waits then, none is left in the session,
        and the lock is free."""
        resolver, here = self.resolver(), yimarotu.resolver
        driver, left = resolver._driver, []
        self.stack.enter_context(unittest.mock.patch.object(here, "LONGEST", 0))
        for is_done, of_others in itertools.product((False, True), ({}, {0: here.Waiting(0)})):
            session = Holding(is_done)
            with unittest.mock.patch.multiple(driver, session=session, _poll=Idle(), _waiting=dict(of_others)):
                for _ in range(INTERRUPTIONS):
                    interrupted(driver)
                    left.append((driver.lock._is_owned(), driver._waiting == of_others, len(session.numbers)))
                    while driver.lock._is_owned():
                        driver.lock.release()
        self.assertEqual(collections.Counter(left), {(False, True, 0): 4 * INTERRUPTIONS})
        self.assertEqual(str(resolver.lookup("four.example.test", timeout=network.LONG)[0].data), "192.0.2.4")

    def told_within(self, resolver):
        """What a look-up came to, and what one came to that a handler of a signal made within it."""
        asked, told = self.server.count("held"), []

        def interrupt():
            self.server.wait_for("held", asked + 1)
            # (until it waits)
            time.sleep(0.2)
            signal.pthread_kill(threading.main_thread().ident, signal.SIGUSR1)
            network.wait_until(lambda: told, "the handler is done")
            self.server.release()

        def handle(*_):
            told.append(error_of(resolver.lookup, "four.example.test", timeout=1))

        resolver.clear()
        before, thread = signal.signal(signal.SIGUSR1, handle), threading.Thread(target=interrupt)
        thread.start()
        try:
            return str(resolver.lookup("held.example.test", timeout=network.LONG)[0].data), told
        finally:
            thread.join()
            signal.signal(signal.SIGUSR1, before)


def error_of(call, *words, **more):
    """The type of what a call raises, or None."""
    try:
        call(*words, **more)
    except Exception as error:
        return type(error)
    return None


class Holding:
    """A session that knows which look-ups it holds. They are done as soon as it is asked for them, or never."""

    def __init__(self, is_done):
        self.is_done, self.numbers, self.untold = is_done, set(), []

    def start(self, number):
        self.numbers.add(number)
        self.untold.append(number)
        return True

    def forget(self, number, _):
        self.numbers.discard(number)

    def next(self):
        if self.is_done and self.untold:
            return types.SimpleNamespace(kind=_numbers.LOOKED_UP, number=self.untold.pop())
        return types.SimpleNamespace(kind=_numbers.NOTHING)

    def wait(self):
        return None

    tick = wait


class Idle:
    """A look-up of anything; and a poll in which nothing happens."""

    name = "idle.example.test"

    def start(self, session, number):
        return session.start(number)

    def read(self, *_):
        return None

    def poll(self, _):
        return ()


class Alarm(Exception):
    """What a signal has raised."""


def interrupted(driver):
    """Looks up, again and again, until a signal has something raised, soon."""
    def handle(*_):
        raise Alarm

    before = signal.signal(signal.SIGALRM, handle)
    try:
        signal.setitimer(signal.ITIMER_REAL, random.uniform(SOONEST, LATEST))
        while True:
            driver.look_up(Idle(), network.LONG)
    except Alarm:
        signal.signal(signal.SIGALRM, before)


class Interrupted:
    """A lock that is not taken when it is waited for the first time: a signal comes."""

    def __init__(self, lock):
        self._lock, self._is_first = lock, True
        self.release, self._is_owned = lock.release, lock._is_owned

    def acquire(self):
        if self._is_first:
            self._is_first = False
            raise KeyboardInterrupt
        return self._lock.acquire()

    def __enter__(self):
        return self._lock.acquire()

    def __exit__(self, *_):
        self._lock.release()


if __name__ == "__main__":
    unittest.main()
