#!/usr/bin/env python3
"""The input and the expected output of the program `bench`: crates/bench/stdin and crates/bench/stdout.

Worked out from documents 01 and 02 and from none of the Rattle code: record.py and link.py have their rules, cases.py the cases.

    scripts/expected/bench.py            writes both files
    scripts/expected/bench.py --check    says whether they are what it makes

The input's first lines, LEGEND in cases.py, say what each kind of line is.
"""
import pathlib
import sys

import cases
import link
import record
from cases import spaced

CRATE = pathlib.Path(__file__).resolve().parent.parent.parent / "crates" / "bench"
FILL = b"\xee"


def shown(r):
    digits = "".join(str(int(getattr(r, name))) for name in record.FLAGS)
    fields = (r.address, r.access, r.recipe, r.preset, r.raw, r.number, r.alarms)
    return "%d%s" % (record.PHASES.index(r.phase), digits) + " @%d A%d R%d P%d W%d N%d L%d" % fields


def kept(buffer, start):
    """How many bytes behind what was laid are as before."""
    count = 0
    while start + count < len(buffer) and buffer[start + count : start + count + 1] == FILL:
        count += 1
    return " +%d" % count


def lent(refusal, data, buffer):
    return (refusal or spaced(data)[1:]) + kept(buffer, len(data))


def data_in(words):
    """The bytes that a line gives, and whether they are a text in quotes."""
    if words.startswith('"'):
        assert words.endswith('"') and len(words) >= 2
        return words[1:-1].encode(), True
    return bytes.fromhex(words), False


class Bench:
    """The program: the record and the size of the buffers, from line to line."""

    def __init__(self):
        self.record = record.bench()
        self.room = 64

    def buffer(self):
        return FILL * self.room

    def call(self, kind, words):
        data, quoted = data_in(words)
        request = link.frame_of(kind, data) if quoted else data
        assert not quoted or link.build(kind, data, bytes(64))[0] is None
        silence, reply, buffer, self.record = link.call(kind, self.record, request, self.buffer())
        text = "" if silence else '"%s" ' % link.locate(kind, reply)[1].decode()
        return text + lent(silence, reply, buffer)

    def enclose(self, claimed, kind, buffer):
        refusal, frame, after = link.build(kind, buffer[1 : 1 + claimed], buffer)
        return (refusal or str(len(frame))) + spaced(after)

    def read_frame(self, kind, frame):
        text_read = lent(*link.read_text(kind, frame, self.buffer()))
        located, text = link.locate(kind, frame)
        addressed, unit, _ = link.address(kind, frame)
        return "%s %s %s" % (text_read, located or len(text), addressed or "%d %d" % (unit, len(text)))

    def load(self, stored):
        refusal, self.record = record.read(stored)
        return (refusal or str(len(stored))) + " " + shown(self.record)

    def gets(self, line):
        """What a line gets, or None."""
        word, _, rest = line.partition(" ")
        r = self.record
        if word == "=":
            self.record = record.bench().but(phase=record.PHASES[int(rest[0])])
            self.record = self.record.but(**{name: digit == "1" for name, digit in zip(record.FLAGS, rest[1:])})
            return None
        if word == "set":
            name, value = rest.split()
            self.record = r.but_parameter(32, value=int(value)) if name == "032" else r.but(**{name: int(value)})
            return None
        if word == "into":
            self.room = int(rest)
            return None
        if word == "panel":
            event, _, count = rest.rpartition(" ")
            self.record = record.after(r, event, int(count)) if count.isdigit() else record.after(r, rest)
            return shown(self.record)
        if word == "?":
            return shown(r)
        if word in ("M", "T"):
            return self.call(word, rest)
        if word == "build":
            return lent(*link.build(rest[0], data_in(rest[2:])[0], self.buffer()))
        if word == "enclose":
            return self.enclose(int(rest[:3]), rest[4], bytes.fromhex(rest[6:]))
        if word == "read":
            return self.read_frame(rest[0], bytes.fromhex(rest[2:]))
        if word == "write":
            refusal, buffer = record.write(r, self.buffer())
            return lent(refusal, b"" if refusal else buffer[: record.LENGTH], buffer)
        if word == "load":
            return self.load(bytes.fromhex(rest))
        if word == "change":
            at, byte = int(rest[:3]), int(rest[4:])
            assert r.valid()
            form = record.form_of(r)
            return self.load(form[:at] + bytes([byte]) + form[at + 1 :])
        assert line == "" or line.startswith("# "), line
        return None


def main():
    bench = Bench()
    stdin = cases.lines()
    stdout = []
    for line in stdin:
        got = bench.gets(line)
        stdout.append(line if got is None else line + " -> " + got)
    made = {"stdin": "\n".join(stdin) + "\n", "stdout": "\n".join(stdout) + "\n"}
    # the program reads 65,536 bytes
    assert len(made["stdin"]) < 65536, len(made["stdin"])
    if sys.argv[1:] == ["--check"]:
        different = [name for name, text in made.items() if (CRATE / name).read_text() != text]
        for name in different:
            print("crates/bench/%s is not what scripts/expected/bench.py makes" % name)
        if not different:
            print("crates/bench: %d cases, as expected" % sum(" -> " in line for line in stdout))
        sys.exit(1 if different else 0)
    for name, text in made.items():
        (CRATE / name).write_text(text)


main()
