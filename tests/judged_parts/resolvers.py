"""Resolvers, judged: each is asked for names of short TTLs again and again, past their ends, over an upstream that is
silent in the end. Both sides are noted as they happen, so that no capture is needed.

What can make a case fail is a fault of this repository, and not another's product or a busy machine:

- This product has to be without any finding, and where a setting serves on purpose what ran out, that has to be found.
- Over every trace, whatever is in it, the findings have to be those of a second reckoning (`reckoning.py`).
- Of another's product as it is, the findings are told as measured. They pass, but for what was never received: a few of
  that may be its own, and more than a tenth of what was told shows that a side was noted wrongly.

A telling counts from the moment that the kernel had it for the client, and not from when it was read. By as much as a
response was late all the same, in whole seconds, more is allowed for rounding."""
import signal
import subprocess
import sys
import time
from collections import namedtuple
from concurrent.futures import ThreadPoolExecutor
from multiprocessing import Pipe, Process
from contextlib import contextmanager

import dns.exception
import dns.message
import dns.query

from judged_parts import reckoning
from judged_parts.noting import ZONE, Notes, Upstream, ask_all, free_ports, names
from judged_parts.products import OWN, SERVES_STALE, SETTINGS, resolved
from live_parts.servers import ADDRESS

# A launcher may have to compile its program first.
SECONDS_TO_START = 240
# How long it may take to end, and its trace to be made, which with the full plan takes some five minutes.
SECONDS_TO_END, SECONDS_TO_MAKE = 60, 3600
TRIES_TO_START = 3
# dnsmasq counts in whole seconds, and a machine that is busy adds to that.
SLACK = 2
FINDINGS = ("stale", "raised", "alias outlives", "negative outlives", "never received", "unseen")

# How many names there are, with TTLs of up to so many seconds; how often all are asked for, and how often at the least
# while the upstream is silent; after how many seconds they are asked for again; and how many settings run at a time.
Plan = namedtuple("Plan", "names longest rounds silent_rounds pause at_once")
SMALL = Plan(names=20, longest=5, rounds=7, silent_rounds=4, pause=1, at_once=99)
FULL = Plan(names=2000, longest=60, rounds=21, silent_rounds=6, pause=10, at_once=3)


@contextmanager
def running(words, port, folder, log):
    with open(folder / log, "wb") as out:
        process = subprocess.Popen(words, stdin=subprocess.DEVNULL, stdout=out, stderr=out)
    try:
        until = time.monotonic() + SECONDS_TO_START
        while True:
            try:
                # It is ready once it has told what only its upstream says.
                query = dns.message.make_query(f"ready.{ZONE}", "A")
                dns.query.udp(query, ADDRESS, timeout=2, port=port, ignore_unexpected=True)
                break
            except (dns.exception.DNSException, OSError):
                if process.poll() is not None or time.monotonic() > until:
                    raise NotStarted(f"{words[0]} did not start: {(folder / log).read_text(errors='replace')[-500:]}")
                time.sleep(0.05)
        yield
    finally:
        end(process)


def end(process):
    """Ends a program, also one that does not hear."""
    process.terminate()
    try:
        process.wait(SECONDS_TO_END)
    except subprocess.TimeoutExpired:
        process.kill()
        process.wait()


def ask_round(notes, port, plan, is_prompt):
    """Asks for all names, and takes as long as a round does."""
    began = time.monotonic()
    ask_all(notes, port, names(plan.names, plan.longest), is_prompt)
    time.sleep(max(0, began + plan.pause - time.monotonic()))


class NotStarted(Exception):
    """A resolver did not start."""


# A trace, and how many seconds are allowed in it for rounding.
Trace = namedtuple("Trace", "text slack")


def trace_of(words, is_own, ports, folder, plan):
    """The trace of a resolver with a setting. Where it cannot start, as another has its port, it is tried again with the
    next ones."""
    for port, upstream_port in ports:
        try:
            return trace_by(words, is_own, port, upstream_port, folder, plan)
        except (NotStarted, OSError) as error:
            problem = error
    raise problem


def trace_by(words, is_own, port, upstream_port, folder, plan):
    """Asked for all names in each round; in the last of them its upstream is silent. Those go on until what runs out has
    run out for longer than is allowed for rounding."""
    notes = Notes()
    upstream = Upstream(notes, upstream_port)
    try:
        with running(words(port, upstream_port, folder), port, folder, f"resolver{port}.log"):
            for _ in range(plan.rounds):
                ask_round(notes, port, plan, True)
            upstream.silent = True
            silent_from, done = time.monotonic(), 0
            while done < plan.silent_rounds or time.monotonic() < silent_from + SMALL.longest + SLACK + notes.late:
                # Others wait for the upstream before they serve what ran out.
                ask_round(notes, port, plan, is_own)
                done += 1
    finally:
        upstream.end()
    return Trace(notes.text(), SLACK + int(notes.late))


def apart(make, *words):
    """What is made, in a process of its own, so that one does not wait for another."""
    here, there = Pipe(duplex=False)
    process = Process(target=lambda: there.send(outcome_of(make, words)))
    process.start()
    there.close()
    is_made = here.poll(SECONDS_TO_MAKE)
    made, problem = here.recv() if is_made else (None, f"took longer than {SECONDS_TO_MAKE} seconds")
    if not is_made:
        process.terminate()
    process.join(SECONDS_TO_END)
    process.kill()
    if problem:
        raise RuntimeError(problem)
    return made


def outcome_of(make, words):
    # Ended, it ends the resolver, too.
    signal.signal(signal.SIGTERM, lambda *_: sys.exit(143))
    try:
        return make(*words), None
    except Exception as error:
        return None, repr(error)


def judge(program, trace, file):
    """The status of the judge, what it printed and the counts at the end of it."""
    file.write_text(trace.text)
    words = [program, file, "--cold", "--slack", str(trace.slack)]
    done = subprocess.run(words, capture_output=True, text=True, timeout=600)
    counts = {words[0]: int(words[1]) for line in done.stdout.splitlines()
              if len(words := line.rsplit(" ", 1)) == 2 and words[1].isdigit() and not line.startswith("line ")}
    return done.returncode, done.stdout + done.stderr, counts


def cases_of(told, setting, trace, result, wanted):
    status, text, counts = result
    told.tell(f"{setting}: something was told", counts.get("told", 0) > wanted, text)
    found = reckoning.found_by_judge(text)
    told.tell(f"{setting}: a second reckoning finds the same", found == reckoning.reckon(trace.text, trace.slack),
              reckoning.difference(trace, found))
    table = text[text.find("told "):]
    why = f"{table}\n{reckoning.excerpt(trace.text, reckoning.lines_of(text))}"
    if setting in SERVES_STALE:
        told.tell(f"{setting}: stale", counts.get("stale", 0) > 0 and status == 1, why)
    elif setting == OWN:
        for name in FINDINGS:
            told.tell(f"{setting}: not {name}", counts.get(name) == 0, why)
    unknown = counts.get("never received", 0) + counts.get("unseen", 0) + counts.get("not asked", 0)
    told.tell(f"{setting}: all but a tenth was received", unknown * 10 <= counts.get("told", 0), why)
    measured = ", ".join(f"{name} {counts[name]}" for name in FINDINGS if counts.get(name))
    print(f"-- {setting}: {measured or 'nothing found'} (of {counts.get('told')} told, slack {trace.slack})", flush=True)


def cases(told, program, folder, plan, unpacked):
    settings = {**SETTINGS, **({"systemd-resolved, as it is": resolved(unpacked)} if unpacked else {})}
    ports = iter(free_ports(2 * TRIES_TO_START * len(settings)))
    pairs = {setting: [(next(ports), next(ports)) for _ in range(TRIES_TO_START)] for setting in settings}
    with ThreadPoolExecutor(min(plan.at_once, len(settings))) as pool:
        made = {setting: pool.submit(apart, trace_of, words, setting == OWN, pairs[setting], folder, plan)
                for setting, words in settings.items()}
    for number, setting in enumerate(settings):
        with told.guard(setting):
            trace = made[setting].result()
            result = judge(program, trace, folder / f"judged{number}.trace")
            cases_of(told, setting, trace, result, plan.names * plan.rounds // 2)
