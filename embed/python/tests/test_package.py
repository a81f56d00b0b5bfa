"""The package as a whole: its examples, its types, how it is installed and found, the command, and how a program
ends."""
import asyncio
import contextlib
import doctest
import importlib
import os
import pkgutil
import shutil
import subprocess
import sys
import tempfile
import textwrap
import unittest
from pathlib import Path

import network
import yimarotu
from yimarotu import _loading, aio

PACKAGE = Path(yimarotu.__file__).resolve().parent
TOP = PACKAGE.parent
SECONDS = 300


def run(*words, place=None, folder=TOP, library=True):
    """The status, standard output and standard error of a program; the package is on its path."""
    environment = {**os.environ, "PYTHONPATH": str(TOP), "PYTHONDONTWRITEBYTECODE": "1", **(place or {})}
    if library:
        environment["YIMAROTU_LIBRARY"] = _loading.library._name
    done = subprocess.run([str(word) for word in words], stdin=subprocess.DEVNULL, capture_output=True, text=True,
                          timeout=SECONDS, cwd=folder, env=environment)
    return done.returncode, done.stdout, done.stderr


def python(text, server, **how):
    """Runs a program that has a server."""
    return run(sys.executable, "-c", f"SERVER = {server.text!r}\n" + textwrap.dedent(text), **how)


class Package(unittest.TestCase):
    def test_examples(self):
        """The examples in the docstrings."""
        names = [f"yimarotu.{found.name}" for found in pkgutil.iter_modules([str(PACKAGE)]) if found.name != "__main__"]
        tried = 0
        for name in ["yimarotu", *names]:
            with network.running() as server:
                globs = {"SERVER": server.text, "asyncio": asyncio}
                result = doctest.testmod(importlib.import_module(name), extraglobs=globs, verbose=False)
            self.assertEqual(result.failed, 0, name)
            tried += result.attempted
        self.assertGreater(tried, 40)
        for kind in (yimarotu.Resolver, aio.Resolver):
            for name in ("addresses", "lookup", "reverse"):
                self.assertIn(">>>", getattr(kind, name).__doc__)

    def test_types(self):
        """The package under mypy --strict, and what a program sees of it."""
        program = """
        import asyncio
        import yimarotu
        from yimarotu import aio
        with yimarotu.Resolver(servers=["192.0.2.53"], timeout=2.5) as resolver:
            reveal_type(resolver.addresses("a")[0])
            reveal_type(resolver.lookup("a", "MX")[0].name)
            for record in resolver.lookup("a", "MX"):
                if isinstance(record.data, yimarotu.records.MX):
                    reveal_type(record.data.preference)
            wrong: int = resolver.reverse("::1")
        async def main() -> None:
            reveal_type((await aio.Resolver().addresses("a")).until)
            number: int = yimarotu.FAIL_TIMEOUT
        """
        with tempfile.TemporaryDirectory() as folder:
            file = Path(folder, "program.py")
            file.write_text(textwrap.dedent(program))
            words = ("mypy", "--strict", "--python-version", "3.9", "--cache-dir", os.devnull, "yimarotu", file)
            status, told, _ = run(*words)
        address = "Union[ipaddress.IPv4Address, ipaddress.IPv6Address]"
        for kind in (address, "builtins.str", "builtins.int", "datetime.datetime"):
            self.assertIn(f'Revealed type is "{kind}"', told)
        self.assertIn('Incompatible types in assignment (expression has type "Names"', told)
        self.assertEqual((status, told.count("error:")), (1, 1), told)

    def test_version(self):
        self.assertIn(f'\nversion = "{yimarotu.__version__}"\n', (TOP / "pyproject.toml").read_text())
        self.assertEqual(_loading.version_text(_loading.library.yimarotu_version()), yimarotu.__version__)

    def test_installed(self):
        """By pip, without a network, in a folder of its own."""
        with tempfile.TemporaryDirectory() as folder:
            target = Path(folder, "target")
            words = ("/usr/bin/python3", "-m", "pip", "install", "--no-index")
            status, _, told = run(*words, "--target", target, TOP, folder=folder, library=False)
            self.assertEqual(status, 0, told)
            files = {path.name for path in (target / "yimarotu").iterdir() if path.is_file()}
            self.assertEqual(files, {path.name for path in PACKAGE.glob("*.py")} | {"py.typed"})
            text = "import yimarotu; print(yimarotu.__file__, yimarotu.Resolver().addresses('127.0.0.1')[0])"
            status, told, _ = run(sys.executable, "-c", text, folder=folder, place={"PYTHONPATH": str(target)})
            self.assertEqual((status, told), (0, f"{target}/yimarotu/__init__.py 127.0.0.1\n"))

    def test_library_is_found(self):
        """By its soname, by pkg-config, below the prefix; and what is said where it is not there."""
        library = Path(_loading.library._name).resolve()
        text = "import yimarotu; print(yimarotu._library._name)"
        with tempfile.TemporaryDirectory() as folder:
            shutil.copytree(PACKAGE, Path(folder, "yimarotu"), ignore=shutil.ignore_patterns("__pycache__"))
            there = Path(folder, "lib")
            there.mkdir()
            shutil.copy(library, there / "libyimarotu.so.0")
            tools = Path(folder, "bin")
            tools.mkdir()
            place = {"PYTHONPATH": folder, "PATH": str(tools), "YIMAROTU_LIBRARY": ""}
            how = {"folder": folder, "library": False}
            by_loader = run(sys.executable, "-c", text, place={**place, "LD_LIBRARY_PATH": str(there)}, **how)
            self.assertEqual(by_loader[:2], (0, "libyimarotu.so.0\n"), by_loader[2])
            (tools / "pkg-config").write_text(f"#!/bin/sh\n[ \"$*\" = '--variable=libdir yimarotu' ] && echo {there}\n")
            (tools / "pkg-config").chmod(0o755)
            by_tool = run(sys.executable, "-c", text, place=place, **how)
            # (where the library is installed on this machine, the loader knows it)
            self.assertIn(by_tool[:2], [(0, f"{there}/libyimarotu.so.0\n"), (0, "libyimarotu.so.0\n")], by_tool[2])
            named = run(sys.executable, "-c", text, place={**place, "YIMAROTU_LIBRARY": "/nowhere.so"}, **how)
            self.assertEqual(named[0], 1)
            self.assertIn("ImportError: the library libyimarotu.so.0 was not found; tried: /nowhere.so", named[2])
            other = run(sys.executable, "-c", text, place={**place, "YIMAROTU_LIBRARY": "libc.so.6"}, **how)
            self.assertIn("ImportError: libc.so.6 lacks a call", other[2])


class Examples(unittest.TestCase):
    def test_programs(self):
        """The programs of examples/, over texts that are addresses, which need no server."""
        folder = TOP / "examples"
        status, told, _ = run(sys.executable, folder / "addresses.py", "192.0.2.7", "a..b")
        self.assertRegex(told, r"\A192.0.2.7 192.0.2.7 until .*\+00:00\na..b: this is no name\n\Z")
        status, told, _ = run(sys.executable, folder / "many.py", "192.0.2.7", "2001:db8::7", "a..b")
        self.assertEqual(status, 0)
        wanted = ["192.0.2.7 [IPv4Address('192.0.2.7')]", "2001:db8::7 [IPv6Address('2001:db8::7')]"]
        self.assertEqual(told.splitlines(), [*wanted, "a..b a..b: this is no name"])


class Ends(unittest.TestCase):
    """A program that ends in mid-look-up ends at once, and says nothing."""

    def setUp(self):
        stack = contextlib.ExitStack()
        self.addCleanup(stack.close)
        self.server = stack.enter_context(network.running())

    def test_threads(self):
        text = """
        import threading, time, yimarotu
        resolver = yimarotu.Resolver(servers=[SERVER])
        for _ in range(3):
            threading.Thread(target=resolver.addresses, args=("silent.example.test",), daemon=True).start()
        time.sleep(0.3)
        """
        self.assertEqual(python(text, self.server), (0, "", ""))

    def test_exit(self):
        text = """
        import sys, signal, yimarotu
        def end(*_): sys.exit(7)
        signal.signal(signal.SIGALRM, end)
        signal.setitimer(signal.ITIMER_REAL, 0.3)
        resolver = yimarotu.Resolver(servers=[SERVER])
        resolver.addresses("silent.example.test")
        """
        self.assertEqual(python(text, self.server), (7, "", ""))

    def test_after_an_interrupt(self):
        """A look-up that a signal ended leaves the resolver as it was."""
        text = """
        import signal, threading, yimarotu
        # (the signal is ignored in what a shell runs in the background)
        signal.signal(signal.SIGINT, signal.default_int_handler)
        with yimarotu.Resolver(servers=[SERVER]) as resolver:
            try:
                threading.Timer(0.3, signal.pthread_kill, (threading.main_thread().ident, signal.SIGINT)).start()
                resolver.addresses("silent.example.test")
            except KeyboardInterrupt:
                print(resolver.addresses("four.example.test")[0])
        """
        self.assertEqual(python(text, self.server), (0, "192.0.2.4\n", ""))

    def test_asyncio(self):
        text = """
        import asyncio, sys
        from yimarotu import aio
        async def main():
            resolver = aio.Resolver(servers=[SERVER])
            task = asyncio.ensure_future(resolver.addresses("silent.example.test"))
            await asyncio.sleep(0.2)
            sys.exit(5)
        asyncio.run(main())
        """
        self.assertEqual(python(text, self.server), (5, "", ""))


class Command(unittest.TestCase):
    def setUp(self):
        stack = contextlib.ExitStack()
        self.addCleanup(stack.close)
        self.server = stack.enter_context(network.running())

    def command(self, *words):
        return run(sys.executable, "-m", "yimarotu", "--server", self.server.text, *words)

    def test_records(self):
        wanted = "www.example.test. 60 IN AAAA 2001:db8::1\nwww.example.test. 60 IN A 192.0.2.1\n"
        self.assertEqual(self.command("www.example.test"), (0, wanted, ""))
        aliases = "third.example.test. 50 IN CNAME alias.example.test.\n"
        aliases += "alias.example.test. 60 IN CNAME www.example.test.\n"
        self.assertEqual(self.command("third.example.test"), (0, aliases + wanted, ""))
        found = self.command("example.test", "MX", "_imap._tcp.example.test", "srv", "example.test", "TYPE65")
        wanted = [
            "example.test. 60 IN MX 10 mail.example.test.", "example.test. 60 IN MX 20 backup.example.test.",
            "_imap._tcp.example.test. 60 IN SRV 10 5 143 mail.example.test.",
            "example.test. 60 IN HTTPS \\# 3 000100",
        ]
        self.assertEqual(found, (0, "".join(f"{line}\n" for line in wanted), ""))
        found = self.command("--reverse", "::1")
        self.assertEqual((found[0], found[1].split()[1:]), (0, ["86400", "IN", "PTR", "localhost."]))

    def test_failures(self):
        wanted = {
            ("nowhere.example.test",): (1, "nowhere.example.test: no such name\n"),
            ("www.example.test", "MX"): (1, "www.example.test MX: no such records\n"),
            ("refused.example.test", "A"): (3, "refused.example.test A: code REFUSED\n"),
            ("a..b",): (3, "a..b: no name\n"),
            ("--timeout", "1", "--tries", "1", "silent.example.test", "A"): (3, "silent.example.test A: timeout\n"),
            ("www.example.test", "--set", "option ndost 1"): (2, "a setting cannot be read: option ndost 1\n"),
            ("www.example.test", "--hosts", "/nowhere"): (4, "cannot read /nowhere: No such file or directory\n"),
        }
        for words, (status, said) in wanted.items():
            self.assertEqual(self.command(*words), (status, "", said), words)
        for words in ((), ("--reverse", "www"), ("www", "--server", "dns.example")):
            self.assertEqual(self.command(*words)[0], 2, words)

    def test_names(self):
        search = ("--search", "nowhere.test", "--search", "example.test")
        self.assertEqual(self.command(*search, "four", "A"), (0, "four.example.test. 60 IN A 192.0.2.4\n", ""))
        found = self.command("--search", "example.test", "--ndots", "3", "_imap._tcp", "SRV")
        self.assertEqual(found, (0, "_imap._tcp.example.test. 60 IN SRV 10 5 143 mail.example.test.\n", ""))
        with tempfile.NamedTemporaryFile("w", suffix=".hosts") as hosts:
            hosts.write("192.0.2.200 printer.example.test\n")
            hosts.flush()
            found = self.command("--hosts", hosts.name, "printer.example.test", "--set", "option ip_strategy Ipv4Only")
        # (a second may begin between the opening and the question)
        self.assertRegex(found[1], r"\Aprinter.example.test. 86(400|39\d) IN A 192.0.2.200\n\Z")
        self.assertEqual(found[::2], (0, ""))

    def test_explained(self):
        search = ("--search", "nowhere.test", "--search", "example.test")
        status, told, _ = self.command(*search, "four", "A", "four", "A", "--explain")
        lines = [" ".join("N" if word.isdecimal() else word for word in line.split()) for line in told.splitlines()]
        server = self.server.text
        wanted = [
            f"; four.nowhere.test. A is asked of {server}",
            f"; {server} said of four.nowhere.test. A after N ms: NXDOMAIN, N answers",
            f"; four.example.test. A is asked of {server}",
            f"; {server} said of four.example.test. A after N ms: NOERROR, N answer",
            "; names that were attempted: four.nowhere.test. four.example.test.",
            "; may be used for N seconds",
            "four.example.test. N IN A 192.0.2.4",
            "; no question was sent: the cache, the hosts or the name itself answers",
            "; may be used for N seconds",
            "four.example.test. N IN A 192.0.2.4",
        ]
        self.assertEqual((status, lines), (0, wanted))

    def test_explained_streams(self):
        _, told, _ = self.command("cut.example.test", "A", "--explain")
        self.assertIn("truncated\n", told)
        self.assertIn(f"is asked of {self.server.text} (TCP)\n", told)
        self.assertRegex(told, r"\(TCP\) said of cut.example.test. A after \d+ ms: NOERROR, 1 answer\n")
        _, told, _ = self.command("silent.example.test", "A", "--explain", "--timeout", "1", "--tries", "1")
        question, server = "silent.example.test. A", self.server.text
        wanted = rf"\A; {question} is asked of {server}\n; {server} said nothing of {question} for \d+ ms\n\Z"
        self.assertRegex(told, wanted)


if __name__ == "__main__":
    unittest.main()
