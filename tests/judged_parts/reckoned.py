"""Worked traces of denials that are made of NSEC and NSEC3 records: the program finds in them what a second reckoning does."""
from judged_parts import program, reckoning

# Where nothing is said, a second is allowed for rounding.
SLACK = 1


def cases(told, judge, top):
    with told.guard("worked traces"):
        for file in sorted((top / "tests/traces").glob("nsec*.trace")):
            _, text, _ = program.run(judge, file, "--cold")
            told.equal(f"{file.stem}, reckoned", reckoning.reckon(file.read_text(), SLACK), reckoning.found_by_judge(text))
