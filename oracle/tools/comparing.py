"""A port and the Rust on the same traces: running both, the first difference, what was covered, a smaller trace.

A port is a command that reads a trace and writes outputs, or the word `model` for 01's text (model01.py).
"""

import os
import shlex
import subprocess
from collections import Counter

import model01
from records import ANSWERS, OUTPUTS, Cursor, Names, is_whole
from scripts import Script, difference, shown, shown_event
from traces import *

ORACLE = os.environ.get("ORACLE", os.path.join(ROOT, "oracle", "build", "oracle"))
BATCH = 250  # traces for one run of the oracle
BEFORE = (16, 17, 19, 20, 32, 33, 34)  # answers of the oracle's own front: the Rust has nothing like them
SECONDS = 600  # for a run of the oracle
PORT_SECONDS = 3  # for a trace; a port that takes longer does not end


class Failed(Exception):
    """A program that did not run; the text is the reason."""


# ---------------------------------------------------------------- running


def called(command, data):
    try:
        done = subprocess.run(command, input=data, stdout=subprocess.PIPE, stderr=subprocess.PIPE, timeout=SECONDS)
    except (OSError, subprocess.TimeoutExpired) as e:
        raise Failed(f"{command[0]}: {e}") from None
    return done


def rust(traces, *options, program=ORACLE):
    """For each trace the Rust's outputs and the oracle's exit code."""
    done = called([program, "--pack", *options], pack(traces))
    if done.returncode:
        raise Failed(f"{program}: exit code {done.returncode} {done.stderr.decode(errors='replace')[-300:]}")
    cursor, out = Cursor(done.stdout), []
    for _ in traces:
        code = cursor.number(1)
        out.append((cursor.take(cursor.number(4)), code))
    return out


def rust_notes(trace, *options, program=ORACLE):
    """What the Rust did that has no record, for each event a list of lines."""
    done = called([program, "--notes", *options], trace)
    out = [[] for _ in records_of(trace)]
    for line in done.stderr.decode().splitlines():
        number, _, text = line.removeprefix("event ").partition(": ")
        out[int(number)].append(text)
    return out


def port_of(command):
    """The port as a function from a trace to its outputs."""
    if command == "model":
        return model01.run
    words = shlex.split(command)

    def run(trace):
        """What it wrote, also where it stopped by a fault or did not end: a difference, then."""
        try:
            return subprocess.run(words, input=trace, stdout=subprocess.PIPE, timeout=PORT_SECONDS).stdout
        except subprocess.TimeoutExpired as e:
            return e.stdout or b""
        except OSError as e:
            raise Failed(f"{command}: {e}") from None

    return run


# ---------------------------------------------------------------- comparing


def comparable(outputs, code):
    """The Rust's outputs as far as 01 has a number for them, event by event."""
    found = events_of(outputs)
    return found[:-1] if code and found and answer_of(found[-1]) is None else found


def first_difference(outputs, code, mine):
    """The number of the first event that differs, or None; and how many were compared."""
    theirs, mine = comparable(outputs, code), events_of(mine)
    for i, want in enumerate(theirs):
        if i >= len(mine) or mine[i] != want:
            return i, i + 1
    if not code and len(mine) > len(theirs):
        return len(theirs), len(theirs)
    return None, len(theirs)


class Coverage:
    """What occurred in the compared events."""

    def __init__(self):
        self.traces, self.stopped = 0, Counter()
        self.events, self.outputs, self.answers = Counter(), Counter(), Counter()

    def add(self, trace, outputs, code):
        self.traces += 1
        if code:
            self.stopped["the states part (30, 31)" if code == 4 else "the Rust panics"] += 1
        for record, out in zip(records_of(trace), comparable(outputs, code)):
            name = EVENTS[kind_of(record)][0] if kind_of(record) in EVENTS and is_whole(record, RECORD_MAX) else "other"
            self.events[name] += 1
            self.answers[answer_of(out), name] += 1
            self.outputs.update(kind_of(x) for x in frames(out)[:-1])

    def lines(self):
        yield f"{self.traces} traces, {sum(self.events.values())} events compared"
        for reason, count in self.stopped.items():
            yield f"  {count} traces compared no further: {reason}"
        before = sum(count for (number, _), count in self.answers.items() if number in BEFORE)
        yield f"  {before} of these events are answered before the Rust: {', '.join(map(str, BEFORE))}"
        names = [name for name, _ in EVENTS.values()] + ["other"]
        yield "events   " + ", ".join(f"{n} {self.events[n]}" for n in names)
        kinds = [k for k in OUTPUTS if k != ANSWER]
        yield "outputs  " + ", ".join(f"{OUTPUTS[k][0]} {self.outputs[k]}" for k in kinds)
        yield "answers"
        for number, word in ANSWERS.items():
            by = [(n, self.answers[number, n]) for n in names if self.answers[number, n]]
            if by:
                each = ", ".join(f"{n} {c}" for n, c in by)
                yield f"  {number:2} {word:16}{sum(c for _, c in by):8}   {each}"
        never = [f"{n} {w}" for n, w in ANSWERS.items() if not any(self.answers[n, x] for x in names)]
        yield "never    " + (", ".join(never) or "none")


def compare(traces, port, coverage, options=()):
    """The first trace whose outputs differ, or None. `traces` may be made on the way."""
    batch = []

    def look():
        for trace, (outputs, code) in zip(batch, rust(batch, *options)):
            if first_difference(outputs, code, port(trace))[0] is not None:
                return trace
            coverage.add(trace, outputs, code)
        batch.clear()
        return None

    for trace in traces:
        batch.append(trace)
        if len(batch) == BATCH:
            found = look()
            if found is not None:
                return found
    return look()


# ---------------------------------------------------------------- a smaller trace


def pieces_without(items, size):
    for at in range(0, len(items), size):
        yield items[:at] + items[at + size :]


def fewer(items, bad):
    """A list with the same fault from which no item can be left out."""
    size = max(1, len(items) // 2)
    while True:
        smaller = next((x for x in pieces_without(items, size) if bad(x)), None)
        if smaller is not None:
            items = smaller
        elif size == 1:
            return items
        else:
            size //= 2


def simpler(values):
    """Values of an event that are a little plainer than these."""
    for key, plain in (("verdict", 1), ("payload", 1), ("tc", None)):
        if key in values and values[key] != plain:
            yield {**values, key: plain}
    if "qc" in values and values["qc"] != qc():
        yield {**values, "qc": qc()}
    for key in ("qc", "tc"):
        if isinstance(values.get(key), dict):
            for inner in simpler(values[key]):
                yield {**values, key: inner}
    for key in ("signers", "highs"):
        for shorter in pieces_without(values.get(key, []), 1):
            yield {**values, key: shorter}
    if "stakes" in values:
        count = len(values["stakes"])
        if values["stakes"] != [1] * count:
            yield {**values, "stakes": [1] * count}
        if count > 1:
            yield {**values, "stakes": values["stakes"][:-1], "keys": values["keys"][:-1]}
        if values["own"]:
            yield {**values, "own": 0}
    if values.get("round", 0) > 1:
        yield {**values, "round": 1}
        yield {**values, "round": values["round"] // 2}
        yield {**values, "round": values["round"] - 1}


def opened(record):
    """The kind and values of a good record, else None."""
    kind = kind_of(record)
    if not is_whole(record, RECORD_MAX) or kind not in EVENTS:
        return None
    cursor = Cursor(record[4:])
    try:
        values = EVENTS[kind][1].take(cursor)
    except Exception:
        return None
    return (kind, values) if cursor.at == len(record) - 4 else None


def closed(kind, values):
    return packed(kind, EVENTS[kind][1].pack(values))


def renamed(values, names, rounds):
    """Values with digests and rounds put in the place of others."""
    out = {}
    for key, value in values.items():
        if isinstance(value, dict):
            value = renamed(value, names, rounds)
        elif key in ("hash", "digest"):
            value = names(value)
        elif key == "round":
            value = rounds(value)
        elif key == "highs":
            value = [(p, rounds(r)) for p, r in value]
        out[key] = value
    return out


def rounds_of(values):
    found = [values["round"]] if "round" in values else []
    for key in ("qc", "tc"):
        found += rounds_of(values[key]) if isinstance(values.get(key), dict) else []
    return found + [r for _, r in values.get("highs", [])]


def retold(records, names=lambda x: x, rounds=lambda x: x):
    """All records with other digests and rounds; an author that led the round leads the new one."""
    out, members = [], 1
    for record in records:
        found = opened(record)
        if found:
            kind, old = found
            members = max(1, len(old["stakes"])) if "stakes" in old else members
            values = renamed(old, names, rounds)
            if "digest" in old and old["author"] == old["round"] % members:
                values["author"] = values["round"] % members
            record = closed(kind, values)
        out.append(record)
    return out


def plainer(records, bad):
    """Records with the same fault whose values are as plain as they come one by one."""
    for at, record in enumerate(records):
        found = opened(record)
        while found:
            kind, values = found
            tries = ((plain, records[:at] + [closed(kind, plain)] + records[at + 1 :]) for plain in simpler(values))
            found = next(((kind, plain, new) for plain, new in tries if bad(new)), None)
            if found:
                records, found = found[2], found[:2]
    return records


def lower(records, bad):
    """Records with the same fault without gaps between their rounds."""
    opens = [found for found in map(opened, records) if found]
    for r in sorted({r for _, values in opens for r in rounds_of(values) if r > 1}):
        while r > 1:
            new = retold(records, rounds=lambda x: x - 1 if x >= r else x)
            if not bad(new):
                break
            records, r = new, r - 1
    return records


def shrunk(trace, differs):
    """A small trace with a difference, from one that has one."""

    def bad(items):
        return differs(b"".join(items))

    records, before = fewer(records_of(trace), bad), None
    while records != before:
        before = records
        records = fewer(lower(plainer(records, bad), bad), bad)
    names = {ZERO: ZERO}
    new = retold(records, names=lambda x: names.setdefault(x, digest(len(names))))
    return b"".join(new if bad(new) else records)


def told(trace, outputs, mine):
    """The trace with the Rust's outputs as a script, and where the port's are others."""
    script = Script("difference", shown(trace, outputs))
    return "\n".join(script.lines) + "\n\n" + (difference(script, mine) or "no difference")
