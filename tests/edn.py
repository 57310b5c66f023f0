"""Texts of EDN and what is read of them: `crates/test_edn/data/table.txt`, whose first lines say how they stand there.

A text alone is a script. It has a reply for each of its forms, and a fault is told with its byte. Two texts are of equal forms where
a set of both is refused for its second member. And a value that stands in a datom shows its canonical text. No one sees from outside
what it is that is not supported, nor the canonical text of nil, of a collection, and of several forms.
"""
import re
from typing import NamedTuple, Optional

from outside import lines_of, spelled

NAME = "EDN texts"
TABLE = "crates/test_edn/data/table.txt"
FAULT = re.compile(rb"(bad|cut|deep|unsupported)(?: \w+)? (\d+)")
# The types of the attributes whose values have these canonical texts. Nil and collections are no values.
TYPES = {
    b"string": rb'".*"',
    b"long": rb"-?\d+",
    b"boolean": rb"true|false",
    b"keyword": rb":.*",
    b"instant": rb"#inst .*",
    b"uuid": rb"#uuid .*",
    b"symbol": rb"(?!nil$)[^\[({#].*",
}
# A text with so many openings in a row has no room for two more around it.
NESTED = re.compile(rb"(?:(?:#_|#?\{|\[|\()\s*){60}")


class Seen(NamedTuple):
    """What can be seen of a text from outside."""
    forms: int
    fault: Optional[bytes]
    # What is said of a set of the text's forms and of their canonical texts.
    repeated: Optional[bytes] = None
    printed: Optional[bytes] = None


class Row:
    def __init__(self, line, text, wanted):
        self.name, self.text = f"{TABLE}:{line}: {text}", spelled(text)
        self.forms = [] if wanted == "end" else spelled(wanted).split(b" | ")
        fault = FAULT.fullmatch(self.forms[-1]) if self.forms else None
        self.fault = b"%b at byte %b" % fault.groups() if fault else None
        if fault:
            self.forms.pop()
        self.can_be_nested = bool(self.forms) and not fault and not NESTED.search(self.text)
        only = self.forms[0] if len(self.forms) == 1 and self.can_be_nested else b""
        # The attribute whose value the text can be.
        self.attribute = next((b":v/" + name for name, texts in TYPES.items() if re.fullmatch(texts, only, re.S)), None)

    def wanted(self):
        first = b"#{[%b\n] " % self.text
        repeated = b"bad at byte %d" % len(first) if self.can_be_nested else None
        return Seen(len(self.forms), self.fault, repeated, self.forms[0] if self.attribute else None)

    def seen(self, program, printed):
        alone = program.answer(self.text)
        both = b"#{[%b\n] [%b]}" % (self.text, b" ".join(self.forms))
        repeated = fault_of(program.answer(both)) if self.can_be_nested else None
        return Seen(len(alone.replies), fault_of(alone), repeated, printed.get(self))


def check(program, tally):
    rows = [Row(number, *line.split("\t", 1)) for number, line in lines_of(TABLE) if "\t" in line]
    printed = printed_values(program, [row for row in rows if row.attribute])
    tally.kind += f" ({sum(row.can_be_nested for row in rows)} of them by their forms, {len(printed)} as printed)"
    for row in rows:
        tally.check(row.name, row.wanted(), row.seen(program, printed))


def fault_of(answer):
    """The fault that ended the script, or whatever else is said where it ended otherwise; None at its end."""
    if answer.status == 0 and not answer.errors:
        return None
    told = re.fullmatch(rb"factbase: script -: (.*)\n", answer.errors)
    return told.group(1) if told and answer.status == 5 else b"status %d: %b" % (answer.status, answer.errors)


def printed_values(program, rows):
    """The text of each row's value in a datom. All are values of one entity, one after another."""
    attribute = b"{:db/ident :v/%b :db/valueType :db.type/%b :db/cardinality :db.cardinality/one}"
    attributes = b" ".join(attribute % (name, name) for name in TYPES)
    script = [b'[:transact [%b [:db/add "e" :db/ident :e/one]]]' % attributes]
    for row in rows:
        script.append(b"[:transact [[:db/add :e/one %b %b\n]]]" % (row.attribute, row.text))
        script.append(b"[:datoms :eavt :e/one %b]" % row.attribute)
    replies = program.answer(b"\n".join(script)).replies[1:]
    return {row: printed_value(told, datoms) for row, told, datoms in zip(rows, replies[::2], replies[1::2])}


def printed_value(told, datoms):
    found = re.fullmatch(rb"\{:basis \d+ :datoms \[\[\d+ :v/\w+ (.*) \d+ true\]\]\}", datoms, re.S)
    return found.group(1) if found and told.startswith(b"{:t ") else told
