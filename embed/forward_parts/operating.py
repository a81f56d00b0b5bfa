"""How it is run: settings and their faults, signals, yimarotu-control, the log, rights, many processes, activation."""
import contextlib
import ctypes
import errno
import fcntl
import functools
import os
import pwd
import re
import resource
import signal
import socket
import stat
import struct
import subprocess
import time
from pathlib import Path

import dns.name

from live_parts import servers, stub, zone

from . import asking
from .daemon import ROOT, SECONDS, wait_until

OTHER_USER = "nobody"
# How many octets a file has at the most.
LONGEST_FILE = 4096
# The number of getrandom(2), by machine.
GETRANDOM = {"x86_64": 318, "aarch64": 278}
# How many words a line of the log has.
WORDS_OF_LINE = 6


def refuse(number):
    """From now on the system refuses this process a call of it, by its number (seccomp(2))."""
    NO_NEW_PRIVS, SECCOMP, FILTER = 38, 22, 2
    LOAD, IS_EQUAL, RETURN, ERRNO, ALLOW = 0x20, 0x15, 0x06, 0x50000, 0x7FFF0000
    steps = [(LOAD, 0, 0, 0), (IS_EQUAL, 0, 1, number), (RETURN, 0, 0, ERRNO | errno.EPERM), (RETURN, 0, 0, ALLOW)]
    octets = ctypes.create_string_buffer(b"".join(struct.pack("@HBBI", *step) for step in steps))
    system, program = ctypes.CDLL(None), struct.pack("@HP", len(steps), ctypes.addressof(octets))
    if system.prctl(NO_NEW_PRIVS, 1, 0, 0, 0) or system.prctl(SECCOMP, FILTER, program):
        raise OSError("the system confines nothing")


def checked(cases, daemon):
    """--check tells each fault with its line, and ends with 1; with 0 where there is none, and with 3 where something else is
    wanting."""
    path = daemon.write("# a comment", "", "listen 127.0.0.1 5353", "server 192.0.2.53", "control none")
    cases.equal("no fault", daemon.end_of("--config", path, "--check"), (0, "", ""))
    path = daemon.write("listen nowhere", "server 192.0.2.53", "serve..", "processes 0", "server of nothing",
                        "hosts /nowhere/hosts", "user", "log a b", "listen 127.0.0.1 70000", "allow 10.0.0.0/8",
                        "user no-such-user")
    status, told, error = daemon.end_of("--config", path, "--check")
    lines = sorted(int(number) for number in re.findall(r"line (\d+): ", error))
    cases.equal("a fault in each of these lines", (status, told, lines), (1, "", [1, 3, 4, 5, 6, 7, 8, 9, 11]))
    cases.equal("it does not begin with them", daemon.end_of("--config", path)[0], 1)
    status, _, error = daemon.end_of("--config", daemon.folder / "nowhere", "--check")
    cases.tell("no such file", status == 1 and "No such file" in error, (status, error))
    for words in ([], ["--nothing"], ["--config"], ["--config", path, "more"]):
        cases.equal(f"words {words[:1]}", daemon.end_of(*words)[0], 2)
    if (number := GETRANDOM.get(os.uname().machine)) is None:
        print("the number of getrandom(2) is not known: that random numbers are wanting is not looked at")
    else:
        path = daemon.write("listen 127.0.0.1 5353", "server 192.0.2.53", "control none", "hosts none")
        words = [daemon.program, "--config", path, "--check"]
        done = subprocess.run(words, preexec_fn=lambda: refuse(number), capture_output=True, timeout=SECONDS)
        cases.equal("random numbers are wanting", done.returncode, 3)
    status, told, _ = daemon.end_of("--version")
    cases.tell("--version", status == 0 and re.match(r"yimarotu-forward \d+\.\d+\.\d+, .*seccomp", told), told)


def in_use(cases, daemon):
    """Where another program has the address it says so, and ends."""
    with socket.socket(socket.AF_INET, socket.SOCK_DGRAM) as sock:
        sock.bind(("127.0.0.1", 0))
        path = daemon.write(f"listen 127.0.0.1 {sock.getsockname()[1]}", "server 192.0.2.53", "control none")
        status, _, error = daemon.end_of("--config", path)
        cases.tell("an address that is in use", status == 3 and "Address already in use" in error, (status, error))


def reloaded(cases, daemon):
    """SIGHUP and `reload` read the files again; where they have a fault it is told, and all stays."""
    records = [*zone.RECORDS, "only.example.test. 60 IN A 192.0.2.7"]
    with stub.running() as first, stub.running(records) as second:
        with daemon.running(f"server 127.0.0.1 {first.port}") as running:
            lines = running.path.read_text()
            found = asking.addresses(asking.by_udp(running.port, "only.example.test"))
            cases.equal("over the first server", found, "NXDOMAIN")
            running.path.write_text(lines + "what is this\n")
            count = len(lines.splitlines()) + 1
            os.kill(running.pid, signal.SIGHUP)
            running.wait_for(f"line {count}: ")
            status, _, error = running.control("reload")
            cases.tell("reload with a fault", status == 1 and error.startswith("error: "), (status, error))
            found = asking.addresses(asking.by_udp(running.port, "four.example.test"))
            cases.equal("with a fault all stays", found, ["192.0.2.4"])
            running.path.write_text(lines.replace(f"1 {first.port}", f"1 {second.port}"))
            os.kill(running.pid, signal.SIGHUP)
            wait_until(lambda: asking.addresses(asking.by_udp(running.port, "only.example.test")) == ["192.0.2.7"],
                       "the second server is asked")
            cases.tell("SIGHUP reads the files again", True, "")
            running.path.write_text(lines)
            cases.equal("reload", running.control("reload")[0], 0)
            found = asking.addresses(asking.by_udp(running.port, "only.example.test"))
            cases.equal("reload reads the files again", found, "NXDOMAIN")
            asking.by_udp(running.port, "four.example.test")
            entries = running.counts()["entries"]
            cases.tell("something is kept", entries > 0, entries)
            for what, more, left in (
                ("where only clients are others what is kept stays", "# all\nallow ::/0\noption clients 9", entries),
                ("where a name is blocked what is kept is let go", "block nowhere.example.test", 0),
            ):
                running.path.write_text(f"{lines}{more}\n")
                cases.equal("reload", running.control("reload")[0], 0)
                cases.equal(what, running.counts()["entries"], left)


def hosts(cases, daemon):
    """Files that the settings name: hosts, and blocked names."""
    for name, text in (("hosts", "192.0.2.77 printer.lan\n"), ("blocked", "0.0.0.0 ads.example.test\n")):
        (daemon.folder / name).write_text(text)
    lines = [f"hosts {daemon.folder}/hosts", f"blocked {daemon.folder}/blocked"]
    with stub.running() as server, daemon.over(server, *lines) as running:
        found = [asking.addresses(asking.by_udp(running.port, name)) for name in ("printer.lan", "ads.example.test")]
        cases.equal("hosts and blocked names", found, [["192.0.2.77"], "NXDOMAIN"])
        (daemon.folder / "hosts").write_text("192.0.2.78 printer.lan\n")
        running.control("reload")
        found = asking.addresses(asking.by_udp(running.port, "printer.lan"))
        cases.equal("hosts are read again", found, ["192.0.2.78"])
        cases.equal("no server was asked", server.asked, [])


def controlled(cases, daemon):
    """yimarotu-control: flush, clear, dump, statistics; and a socket for its user alone."""
    with stub.running() as server, daemon.over(server) as running:
        def asked():
            asking.by_udp(running.port, "www.example.test"), asking.by_udp(running.port, "four.example.test")
            return [len(server.questions_for(f"{name}.example.test.")) for name in ("www", "four")]

        cases.equal("asked once", [asked(), asked()], [[1, 1], [1, 1]])
        kept = [["four.example.test.", "A", "NOERROR"], ["www.example.test.", "A", "NOERROR"]]
        cases.equal("dump", sorted(line[:3] for line in dumped(running)), kept)
        cases.equal("flush", running.control("flush", "www.example.test"), (0, "", ""))
        cases.equal("dump, of what is left", [line[:3] for line in dumped(running)], kept[:1])
        cases.equal("flush: what is asked anew", asked(), [2, 1])
        cases.equal("flush of another name", (running.control("flush", "test"), asked()), ((0, "", ""), [2, 1]))
        cases.equal("flush below", (running.control("flush", "test", "below"), asked()), ((0, "", ""), [3, 2]))
        cases.equal("clear", (running.control("clear"), asked()), ((0, "", ""), [4, 3]))
        counts = running.counts()
        cases.equal("statistics", (counts["queries"], counts["waiting"], counts["sent"]), (12, 0, 7))
        status, _, error = running.control("flush", "a..b")
        cases.tell("flush of no name", status == 1 and error.startswith("error: "), (status, error))
        for words in (["nothing"], ["flush"], ["clear", "more"], ["dump", "all"], ["flush", "a", "b"], []):
            cases.equal(f"words {words}", running.control(*words)[0], 2)
        answered(cases, running)
    cases.equal("nobody there", running.control("statistics")[0], 3)


def dumped(running):
    """The words of each line of what is kept."""
    status, told, error = running.control("dump")
    if status:
        raise RuntimeError(error)
    return [line.split(" ") for line in told.splitlines()]


def dumped_whole(cases, daemon):
    """More is kept than one piece of a dump has room for. None of these names is there, which is kept (RFC 2308)."""
    names = {f"n{number}.{'.'.join(['x' * 60] * 3)}.example.test." for number in range(700)}
    with stub.running() as server, daemon.over(server) as running:
        for name in names:
            asking.by_udp(running.port, name, want_dnssec=True)
        found = dumped(running)
    cases.equal("each is told once", sorted(line[0] for line in found), sorted(names))
    kinds = {(*line[1:3], *line[5:]) for line in found}
    cases.equal("type, code and DO", kinds, {("A", "NXDOMAIN", "do")})
    cases.tell("seconds and octets", all(0 < int(line[3]) <= 300 and int(line[4]) > 200 for line in found), found[:3])


def dumped_escaped(cases, daemon):
    """Octets of a name that would not stand in a word, or would end the line, are told as three digits (RFC 1035)."""
    labels = [b"www.example\0x y", b"a\\\n", b"example", b"test", b""]
    with stub.running() as server, daemon.over(server) as running:
        asking.by_udp(running.port, dns.name.Name(labels))
        found = [line[:3] for line in dumped(running)]
    wanted = [r"www\046example\000x\032y.a\092\010.example.test.", "A", "NXDOMAIN"]
    cases.equal("octets that are told as digits", found, [wanted])


def answered(cases, running):
    """What is said on the control socket by other programs."""
    path = running._control[1]
    cases.equal("the mode of the socket", stat.S_IMODE(path.stat().st_mode), 0o600)
    for said, answer in ((b"nothing\n", b"error: "), (b"\n", b"error: "), (b"a" * 2000, b""), (b"clear", b"")):
        with socket.socket(socket.AF_UNIX) as sock:
            sock.settimeout(SECONDS)
            sock.connect(str(path))
            with contextlib.suppress(ConnectionError):
                sock.sendall(said)
                sock.shutdown(socket.SHUT_WR)
            found = b""
            with contextlib.suppress(ConnectionError):
                while piece := sock.recv(4096):
                    found += piece
        cases.tell(f"a line {said[:10]}", found.startswith(answer) and bool(found) == bool(answer), found)


def sender_gone(cases, daemon):
    """A command counts though its sender is gone by the time that it is read."""
    with stub.running() as server, daemon.over(server) as running:
        asking.by_udp(running.port, "four.example.test")
        with running.stopped(), socket.socket(socket.AF_UNIX) as sock:
            sock.connect(str(running._control[1]))
            sock.sendall(b"clear\n")
            sock.close()
        cases.equal("a command whose sender is gone", running.counts()["entries"], 0)


def counted(cases, daemon):
    """SIGUSR1 writes the counts to standard error."""
    with stub.running() as server, daemon.over(server) as running:
        for _ in range(3):
            asking.by_udp(running.port, "four.example.test")
        os.kill(running.pid, signal.SIGUSR1)
        running.wait_for("queries=")
        found = dict(re.findall(r"(\w+)=(\d+)", running.said()))
        cases.equal("SIGUSR1", (found["queries"], found["from_cache"], found["waited"]), ("3", "2", "1"))


LINE = re.compile(r"\d{4}-\d\d-\d\dT\d\d:\d\d:\d\d\.\d{3}Z (\S+)#\d+ (udp|tcp) (\S+) (\S+) (\S+)")


def logged(cases, daemon):
    """A line for each reply. What a pipe does not take at once is dropped and counted."""
    log = daemon.folder / f"log{time.monotonic_ns()}"
    with stub.running() as server:
        with daemon.over(server, f"log {log}", listens=("127.0.0.1", "::1")) as running:
            asking.by_udp(running.port, "four.example.test")
            asking.by_tcp(running.port, "Nowhere.example.test", "AAAA", address="::1")
            asking.by_udp(running.port, "refused.example.test", 65280)
            with asking.datagrams(running.port) as sock:
                sock.send(bytes(2) + b"\1\0\0\0" + bytes(6))
                sock.recv(512)
            wanted = [("127.0.0.1", "udp", "four.example.test.", "A", "NOERROR"),
                      ("::1", "tcp", "Nowhere.example.test.", "AAAA", "NXDOMAIN"),
                      ("127.0.0.1", "udp", "refused.example.test.", "TYPE65280", "SERVFAIL"),
                      ("127.0.0.1", "udp", "-", "-", "FORMERR")]
            wait_until(lambda: log.read_text().count("\n") == len(wanted), "all lines are there")
            cases.equal("the log", [LINE.fullmatch(line).groups() for line in log.read_text().splitlines()], wanted)
            log.rename(f"{log}.1")
            running.control("reload")
            asking.by_udp(running.port, "four.example.test")
            wait_until(lambda: "four.example.test" in log.read_text(), "the log is opened again")
            written = log.read_text()
            running.path.write_text(running.path.read_text().replace(f"log {log}\n", "log none\n"))
            running.control("reload")
            asking.by_udp(running.port, "four.example.test")
            running.counts()
            cases.equal("log none ends the log", log.read_text(), written)
        log.unlink()
        os.mkfifo(log)
        with daemon.over(server, f"log {log}") as running:
            for _ in range(2000):
                asking.by_udp(running.port, "four.example.test")
            lost = running.counts()["log_lines_lost"]
            cases.tell("a pipe that nobody reads", 0 < lost < 2000, f"{lost} lines were lost")
            with log.open("rb", buffering=0) as reader:
                got = reader.read(1 << 16)
                cases.tell("whole lines are in it", LINE.fullmatch(got.decode().splitlines()[-1]), got[-200:])
                asking.by_udp(running.port, "www.example.test")
                wait_until(lambda: b"www.example.test" in reader.read(1 << 16), "the log goes on")


def log_stays(cases, daemon):
    """Where the log cannot be opened again that is told, the one before goes on, and all else is read again."""
    log = daemon.folder / f"log{time.monotonic_ns()}"
    with stub.running() as server, daemon.over(server, f"log {log}") as running:
        lines = running.path.read_text().replace(f"log {log}\n", "log /proc/nowhere/log\n")
        running.path.write_text(lines + "block four.example.test\n")
        status, _, error = running.control("reload")
        cases.tell("reload without the log", status == 1 and error.startswith("error: "), (status, error))
        cases.tell("its standard error says why", "/proc/nowhere/log: No such file" in running.said(), running.said())
        found = asking.addresses(asking.by_udp(running.port, "four.example.test"))
        cases.equal("all else is read again", found, "NXDOMAIN")
        wait_until(lambda: "four.example.test. A NXDOMAIN" in log.read_text(), "the log before goes on")


def long_log(cases, daemon):
    """Lines that a log does not take, since files may be no longer, are lost and counted, and clients are answered. Once
    there is room again no line goes on in another one, also where the same log was opened again meanwhile."""
    for is_opened_again in (False, True):
        filled_log(cases, daemon, is_opened_again)


def filled_log(cases, daemon, is_opened_again):
    log = daemon.folder / f"log{time.monotonic_ns()}"
    limit = functools.partial(resource.setrlimit, resource.RLIMIT_FSIZE, (LONGEST_FILE, 2 * LONGEST_FILE))
    with stub.running() as server, daemon.over(server, f"log {log}", preexec_fn=limit) as running:
        for _ in range(LONGEST_FILE // 20):
            found = asking.addresses(asking.by_udp(running.port, "four.example.test"))
        cases.equal("a client, where the log is full", found, ["192.0.2.4"])
        wait_until(lambda: running.counts()["log_lines_lost"] > 0, "lines of the log are lost")
        if is_opened_again:
            cases.equal("the log is opened again", running.control("reload")[0], 0)
        resource.prlimit(running.pid, resource.RLIMIT_FSIZE, (2 * LONGEST_FILE, 2 * LONGEST_FILE))
        with cases.guard("a log that goes on"):
            asking.by_udp(running.port, "last.example.test")
            wait_until(lambda: "last.example.test" in log.read_text(), "the log goes on")
            cut = [line for line in log.read_text().splitlines() if len(line.split()) != WORDS_OF_LINE]
            cases.equal("lines that are cut, once there was room again", cut, [])


def status_of(pid):
    return dict(line.split(":\t", 1) for line in Path(f"/proc/{pid}/status").read_text().splitlines() if ":\t" in line)


def unprivileged(cases, daemon):
    """It drops its rights: its user, its groups, new privileges, and calls of the system that it does not need."""
    user = pwd.getpwnam(OTHER_USER)
    os.chmod(daemon.folder, 0o755)
    with stub.running() as server, daemon.over(server, f"user {OTHER_USER}") as running:
        found = asking.addresses(asking.by_udp(running.port, "four.example.test"))
        cases.equal("as another user", found, ["192.0.2.4"])
        status = status_of(running.pid)
        cases.equal("its user", status["Uid"].split(), [str(user.pw_uid)] * 4)
        cases.equal("its group", status["Gid"].split(), [str(user.pw_gid)] * 4)
        cases.equal("its groups", status["Groups"].split(), [str(user.pw_gid)])
        cases.equal("its capabilities", {status[f"Cap{name}"].strip("0") for name in ("Prm", "Eff", "Inh")}, {""})
        cases.equal("no new privileges", status["NoNewPrivs"], "1")
        if "confined" in daemon.end_of("--version")[1]:
            cases.equal("seccomp", status["Seccomp"], "2")
        cases.equal("the control socket is its own", running._control[1].stat().st_uid, user.pw_uid)
        cases.equal("it reads its files as that user", running.control("reload")[0], 0)
        cases.equal("statistics", running.counts()["queries"], 1)


def unfit(cases, daemon):
    """What somebody has to mend has a status of its own, by which a unit of systemd knows it."""
    lines = [f"listen 127.0.0.1 {servers.free_port()}", "server 192.0.2.53", "hosts none"]
    for line in ("user no-such-user", "log /proc/nowhere/log"):
        status, _, error = daemon.end_of("--config", daemon.write(*lines, "control none", line))
        cases.equal(line, (status, line.split(" ")[1] in error), (5, True))
    for control in ("none", daemon.next_control()):
        path = daemon.write(*lines, f"control {control}", f"user {OTHER_USER}")
        words = ["setpriv", "--bounding-set=-all", daemon.program, "--config", path]
        done = subprocess.run(words, capture_output=True, text=True, timeout=SECONDS)
        is_told = done.returncode == 5 and "Operation not permitted" in done.stderr
        cases.tell(f"a user that it may not become, control {control}", is_told, done)


def children_of(pid):
    return [int(child) for child in Path(f"/proc/{pid}/task/{pid}/children").read_text().split()]


def many_processes(cases, daemon):
    """Processes with a cache each; one that dies is started again."""
    count = 3
    with socket.socket(socket.AF_UNIX) as left_over:
        left_over.bind(str(daemon.next_control()))
    with stub.running() as server, daemon.over(server, f"processes {count}") as running:
        children = wait_until(lambda: len(found := children_of(running.pid)) == count and found, "all are there")
        for number in range(60):
            asking.by_udp(running.port, "four.example.test")
        asked = len(server.questions_for("four.example.test."))
        cases.tell("each process has a cache of its own", 2 <= asked <= count, f"asked {asked} times")
        cases.equal("statistics of all", (running.counts()["queries"], running.counts()["entries"]), (60, asked))
        cases.equal("clear of all", (running.control("clear")[0], running.counts()["entries"]), (0, 0))
        os.kill(children[1], signal.SIGKILL)
        running.wait_for("is started again")
        wait_until(lambda: len(children_of(running.pid)) == count, "it is started again")
        found = [asking.addresses(asking.by_udp(running.port, "four.example.test")) for _ in range(30)]
        cases.equal("after one was killed", found, [["192.0.2.4"]] * 30)
        os.kill(running.pid, signal.SIGUSR1)
        wait_until(lambda: running.said().count("queries=") == count, "each process writes its counts")
        running.path.write_text(running.path.read_text() + "block example.test\n")
        os.kill(running.pid, signal.SIGHUP)
        wait_until(lambda: [asking.addresses(asking.by_udp(running.port, "four.example.test")) for _ in range(30)]
                   == ["NXDOMAIN"] * 30, "each process has read its files again")
        running.path.write_text(running.path.read_text() + "sever 192.0.2.1\n")
        died = children_of(running.pid)[0]
        os.kill(died, signal.SIGKILL)
        wait_until(lambda: len(found := children_of(running.pid)) == count and died not in found, "it comes again")
        found = [asking.addresses(asking.by_udp(running.port, "four.example.test")) for _ in range(30)]
        cases.equal("after one was killed, and the settings have a fault", found, ["NXDOMAIN"] * 30)
        children = children_of(running.pid)
    wait_until(lambda: not any(Path(f"/proc/{child}").exists() for child in children), "the processes end with it")
    cases.tell("the processes end with it", True, "")


def first_ids(daemon, count):
    """The id of the first question of each process of a program that begins."""
    with stub.running() as server, daemon.over(server, f"processes {count}") as running:
        for _ in range(20 * count):
            asking.by_udp(running.port, "four.example.test")
        return [asked[2] for asked in server.questions_for("four.example.test.")]


def seeds(cases, daemon):
    """Each process has a seed of its own, and another one each time it begins: it asks with other ids."""
    count = 3
    found = [first_ids(daemon, count) for _ in range(2)]
    cases.equal("each process asks once", [len(ids) for ids in found], [count] * 2)
    # (by chance two may be the same)
    cases.tell("first ids of the processes, begun twice", len({*found[0], *found[1]}) >= 2 * count - 1, found)


def deaths_ignored(cases, daemon):
    """A process that dies is started again, also where who began the program ignored such a signal."""
    with stub.running() as server:
        how = {"preexec_fn": lambda: signal.signal(signal.SIGCHLD, signal.SIG_IGN)}
        with daemon.over(server, "processes 2", **how) as running:
            children = wait_until(lambda: len(found := children_of(running.pid)) == 2 and found, "both are there")
            os.kill(children[0], signal.SIGKILL)
            wait_until(lambda: len(found := children_of(running.pid)) == 2 and children[0] not in found, "it comes again")
            cases.tell("it is started again, where SIGCHLD was ignored", True, "")


def octets_read(pid):
    return int(Path(f"/proc/{pid}/io").read_text().split()[1])


def reloaded_by_command(cases, daemon):
    """A process that is started again has what `reload` read, where the settings have a fault by then."""
    count = 2
    with stub.running() as server, daemon.over(server, f"processes {count}") as running:
        children = wait_until(lambda: len(found := children_of(running.pid)) == count and found, "all are there")
        asking.by_udp(running.port, "four.example.test")
        lines, before = running.path.read_text() + "block example.test\n", octets_read(running.pid)
        running.path.write_text(lines)
        cases.equal("reload of all", running.control("reload")[0], 0)
        # (their parent checks the file, and reads it)
        wait_until(lambda: octets_read(running.pid) >= before + 2 * len(lines), "their parent reads it, too")
        running.path.write_text(lines + "sever 192.0.2.1\n")
        for died in children:
            os.kill(died, signal.SIGKILL)
        wait_until(lambda: len(found := children_of(running.pid)) == count and not {*found} & {*children}, "they come")
        found = [asking.addresses(asking.by_udp(running.port, "four.example.test")) for _ in range(30)]
        cases.equal("after all were killed, and the settings have a fault", found, ["NXDOMAIN"] * 30)


def many_logs(cases, daemon):
    """Each of many processes opens the log by its name, also one that is started again, and their parent has none."""
    log, count = daemon.folder / f"log{time.monotonic_ns()}", 2
    with stub.running() as server, daemon.over(server, f"processes {count}", f"log {log}") as running:
        children = wait_until(lambda: len(found := children_of(running.pid)) == count and found, "all are there")
        wait_until(log.exists, "the log is opened")
        log.rename(f"{log}.1")
        for died in children:
            os.kill(died, signal.SIGKILL)
        wait_until(lambda: len(found := children_of(running.pid)) == count and not {*found} & {*children}, "they come")
        asking.by_udp(running.port, "four.example.test")
        wait_until(lambda: log.exists() and "four.example.test" in log.read_text(), "the log is opened anew")
        held = [os.readlink(path) for path in Path(f"/proc/{running.pid}/fd").iterdir()]
        cases.tell("the parent holds no log", not any(str(log) in path for path in held), held)


def one_control(cases, daemon):
    """The control socket of another program stays, and so does a file that is none; one that was left over goes."""
    with stub.running() as server, daemon.over(server) as running:
        path = running._control[1]
        lines = [f"listen 127.0.0.1 {servers.free_port()}", "server 192.0.2.53", "hosts none"]
        status, _, error = daemon.end_of("--config", daemon.write(*lines, f"control {path}"))
        cases.tell("a control socket in use", status == 3 and "Address already in use" in error, (status, error))
        cases.equal("it is still the first one's", running.control("statistics")[0], 0)
        file = daemon.write("# no socket")
        status, _, error = daemon.end_of("--config", daemon.write(*lines, f"control {file}"))
        cases.tell("a file where the control socket is to be", status == 3 and "File exists" in error, (status, error))
        cases.equal("it stays", file.read_text(), "# no socket\n")
        status, _, error = daemon.end_of("--config", daemon.write(*lines, "control /proc/nowhere/control"))
        cases.tell("no folder for it", status == 3 and "No such file" in error, (status, error))
        os.unlink(path)
        other = socket.socket(socket.AF_UNIX)
        other.bind(str(path))
    cases.tell("one that took its place stays", path.is_socket(), path)
    other.close()


def notified(cases, daemon):
    """Whoever started it is told when it listens (sd_notify(3))."""
    path = daemon.folder / f"notify{time.monotonic_ns()}"
    with socket.socket(socket.AF_UNIX, socket.SOCK_DGRAM) as sock, stub.running() as server:
        sock.bind(str(path))
        sock.settimeout(SECONDS)
        for processes in (1, 2):
            how = {"env": {**os.environ, "NOTIFY_SOCKET": str(path)}}
            with daemon.over(server, f"processes {processes}", **how) as running:
                cases.equal(f"it is ready, processes: {processes}", sock.recv(64), b"READY=1")
                cases.equal("root is told", ROOT in running.said(), os.getuid() == 0)


def passed_on(*socks):
    """How a program is run that is given these sockets, as systemd does it, and told so by the environment."""
    def pass_on():
        for place, fd in enumerate([fcntl.fcntl(sock, fcntl.F_DUPFD_CLOEXEC, 100) for sock in socks]):
            os.dup2(fd, 3 + place)

    shell = ["/bin/sh", "-c", f'LISTEN_PID=$$ LISTEN_FDS={len(socks)} exec "$@"', "sh"]
    return shell, {"preexec_fn": pass_on, "close_fds": False}


def activated(cases, daemon):
    """Sockets that systemd opened count in place of its own."""
    with contextlib.ExitStack() as stack:
        server = stack.enter_context(stub.running())
        datagrams = stack.enter_context(socket.socket(socket.AF_INET, socket.SOCK_DGRAM))
        streams = stack.enter_context(socket.socket())
        port = servers.free_port()
        datagrams.bind(("127.0.0.1", port))
        streams.bind(("127.0.0.1", port))
        streams.listen()
        before, how = passed_on(datagrams, streams)
        for processes in (1, 3):
            with daemon.over(server, f"processes {processes}", before=before, **how) as running:
                for asked in (asking.by_udp, asking.by_tcp) * processes:
                    found = asking.addresses(asked(port, "four.example.test"))
                    cases.equal(f"activated, {asked.__name__}, processes: {processes}", found, ["192.0.2.4"])
                with contextlib.suppress(ConnectionRefusedError):
                    asking.stream(running.port).close()
                    cases.tell("nothing else is listened to", False, running.port)


def activated_control(cases, daemon):
    """Beside a control socket that systemd opened lines `listen` count. With many processes it does not begin."""
    path = daemon.folder / f"given{time.monotonic_ns()}"
    with socket.socket(socket.AF_UNIX) as given, stub.running() as server:
        given.bind(str(path))
        given.listen()
        before, how = passed_on(given)
        with daemon.over(server, before=before, **how) as running:
            running._control = (running._control[0], path)
            cases.equal("a command by a control socket of systemd's", running.control("clear"), (0, "", ""))
            for asked in (asking.by_udp, asking.by_tcp):
                found = asking.addresses(asked(running.port, "four.example.test"))
                cases.equal(f"beside one, {asked.__name__}", found, ["192.0.2.4"])
        cases.tell("it stays", path.is_socket(), path)
        config = daemon.write(f"server 127.0.0.1 {server.port}", "hosts none", "control none", "processes 2")
        words = [*before, daemon.program, "--config", config]
        done = subprocess.run(words, capture_output=True, text=True, timeout=SECONDS, **how)
        cases.tell("it for many processes", done.returncode == 5 and "control socket" in done.stderr, done)


def activated_deaf(cases, daemon):
    """A stream socket of systemd's that does not listen is none for it."""
    with socket.socket() as given:
        given.bind(("127.0.0.1", 0))
        before, how = passed_on(given)
        words = [*before, daemon.program, "--config", daemon.write("server 192.0.2.53", "hosts none", "control none")]
        done = subprocess.run(words, capture_output=True, text=True, timeout=SECONDS, **how)
        cases.tell("a socket of systemd's that does not listen", done.returncode == 3 and "no socket" in done.stderr, done)


ALL = (checked, in_use, reloaded, hosts, controlled, dumped_whole, dumped_escaped, sender_gone, counted, logged,
       log_stays, long_log, unprivileged, unfit, many_processes, seeds, deaths_ignored, reloaded_by_command, many_logs,
       one_control, notified, activated, activated_control, activated_deaf)
