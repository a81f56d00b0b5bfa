"""Cases of `resolve_judge`: its arguments, its statuses, and that it says a finding when it happens."""
import subprocess

from judged_parts import piped

TRACE = """at 100 asked www.example.test. A
at 100 received NOERROR www.example.test. A
answer www.example.test. 60 IN A 192.0.2.1

at 200 told NOERROR www.example.test. A
answer www.example.test. 5 IN A 192.0.2.1

"""
FINDING = "line 5 at 200.000 stale by 45.000: www.example.test. 5 IN A 192.0.2.1\n"


def run(program, *words, lines=""):
    """The status, what is printed, and the complaint, but for the line of a launcher that there is no proved program."""
    done = subprocess.run([program, *words], input=lines, capture_output=True, text=True, timeout=60)
    said = [line for line in done.stderr.splitlines(keepends=True) if "not proved on this machine yet" not in line]
    return done.returncode, done.stdout, "".join(said)


def first_line(program):
    """What is printed while the trace goes on."""
    with piped.running([program, "-"]) as process:
        process.stdin.write(TRACE.encode())
        line = piped.line_within(process.stdout)
        piped.ended(process)
    return line


def cases(told, program, folder):
    with told.guard("resolve_judge"):
        file = folder / "stale.trace"
        file.write_text(TRACE)
        status, text, _ = run(program, file)
        told.tell("a finding, and a table of counts", status == 1 and text.startswith(FINDING + "told 1\nstale 1\n"), text)
        told.equal("standard input", run(program, "-", lines=TRACE), (1, text, ""))
        told.equal("a finding when it happens", first_line(program), FINDING)
        told.equal("nothing is found", run(program, "-", lines=TRACE.replace("at 200", "at 150"))[0], 0)
        told.equal("more slack", run(program, "-", "--slack", "45", lines=TRACE)[0], 0)
        for words in ((), ("a", "b"), ("-", "--slack"), ("-", "--slack", "x"), ("-", "--unknown")):
            status, text, complaint = run(program, *words, lines=TRACE)
            told.tell(f"usage, of {words}", (status, text) == (2, "") and complaint.startswith("usage: "), complaint)
        status, text, complaint = run(program, folder / "absent.trace")
        told.tell("a file that is not there", (status, text) == (4, "") and complaint.startswith("cannot read"), complaint)
        told.equal("no line of a trace", run(program, "-", lines="at 1 heard\n"), (2, "", "trace line 1: S7 unknown word\n"))
