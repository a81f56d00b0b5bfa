"""A script out of exchanges: questions that were asked, with what came of them."""
from dataclasses import dataclass

import dns.rdataclass

from . import records
from .question import Question


@dataclass
class Exchange:
    """A question, the second at which it was asked, and its outcome as lines of a script."""

    moment: int
    question: Question
    outcome: list

    def follow_up(self):
        """The question that has to follow this one, whose reply has aliases, and nothing at their end. Or None."""
        answers = [line.split()[1:] for line in self.outcome if line.startswith("answer ")]
        found = [records.Record(fields) for fields in answers]
        led, end = records.chain(self.question.name, self.question.rdtype, found)
        if not led or any(record.owner == end for record in led):
            return None
        return Question(end, self.question.rdclass, self.question.rdtype)


def script_text(exchanges, notes):
    """The text of a script that has each outcome by its question, and that requests each question, but those that an
    alias led to. The notes come first, as comments."""
    exchanges = sorted(exchanges, key=lambda exchange: exchange.moment)
    outcomes, differing = {}, set()
    for exchange in exchanges:
        if outcomes.get(exchange.question, exchange.outcome) != exchange.outcome:
            differing.add(exchange.question)
        outcomes[exchange.question] = exchange.outcome
    lines = [f"# {note}" for note in notes]
    lines += [f"# Asked again with another outcome, of which the last counts: {it.words()}" for it in outcomes
              if it in differing]
    lines.append("upstream table")
    for outcome in outcomes.values():
        lines += outcome
    return "\n".join([*lines, *request_lines(exchanges)]) + "\n"


def request_lines(exchanges):
    """The requests: a look-up is of class IN, so that a question of another class is told in a comment."""
    lines, expected = [], set()
    for exchange in exchanges:
        question = exchange.question
        if question in expected:
            expected.discard(question)
        elif question.rdclass == dns.rdataclass.IN:
            name, rdtype = records.name_text(question.name), records.type_word(question.rdtype)
            lines.append(f"at {exchange.moment} lookup {name} {rdtype}")
        else:
            lines.append(f"# Not requested, since it is not of class IN: {question.words()}")
        expected.add(exchange.follow_up())
    return lines
