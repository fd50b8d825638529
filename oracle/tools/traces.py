"""Records of a trace as bytes, from values in the forms of tools/records.py; dice; packs.

In order: values and records; dice, which throw the same in every Python; outputs event by event; packs of traces.
"""

import os
import sys

sys.dont_write_bytecode = True
ROOT = os.path.dirname(os.path.dirname(os.path.dirname(os.path.abspath(__file__))))
sys.path.insert(0, os.path.join(ROOT, "tools"))

from records import ANSWER, EVENTS, HASH, RECORD_MAX, ZERO, Cursor, Start, frames, packed

PANIC = 0x01FF  # the oracle's own kind: the Rust panicked, and 01 has no number for it
KINDS = {name: kind for kind, (name, _) in EVENTS.items()}


# ---------------------------------------------------------------- values and records


def digest(n):
    """The digest that scripts call B<n>; 0 is the zero digest."""
    return f"B{n}".encode().ljust(HASH, b"\0") if n else ZERO


def qc(hash=ZERO, round=0, signers=(), verdict=1):
    return {"hash": hash, "round": round, "signers": list(signers), "verdict": verdict}


def qc_on(block, signers=(0, 1, 2)):
    """A good QC for a block; genesis without one."""
    return qc(block["digest"], block["round"], signers) if block else qc()


def tc(round, highs, verdict=1):
    return {"round": round, "highs": list(highs), "verdict": verdict}


def block(digest, author, round, qc, tc=None, verdict=1):
    return {"digest": digest, "author": author, "round": round, "qc": qc, "tc": tc, "verdict": verdict}


def event(name, **values):
    kind = KINDS[name]
    return packed(kind, EVENTS[kind][1].pack(values))


def start(own=0, stakes=(1, 1, 1, 1), keys=None):
    values = {"own": own, "stakes": list(stakes)}
    return event("start", **values, keys=Start.usual(values, None) if keys is None else keys)


def propose(block, payload=1):
    return event("propose", **block, payload=payload)


def loopback(block):
    return event("loopback", **block)


def vote(hash, round, author, verdict=1):
    return event("vote", hash=hash, round=round, author=author, verdict=verdict)


def timeout(round, author, qc, verdict=1):
    return event("timeout", round=round, author=author, qc=qc, verdict=verdict)


def tc_event(tc):
    return event("tc", **tc)


def tick():
    return event("tick")


# ---------------------------------------------------------------- dice


class Dice:
    """Splitmix64 from a seed."""

    def __init__(self, seed):
        self.state = seed

    def throw(self):
        self.state = (self.state + 0x9E3779B97F4A7C15) % 2**64
        z = self.state
        z = (z ^ (z >> 30)) * 0xBF58476D1CE4E5B9 % 2**64
        z = (z ^ (z >> 27)) * 0x94D049BB133111EB % 2**64
        return z ^ (z >> 31)

    def below(self, n):
        return self.throw() % n

    def choice(self, items):
        return items[self.below(len(items))]

    def chance(self, p):
        return self.throw() < p * 2**64

    def shuffled(self, items):
        items = list(items)
        for i in range(len(items) - 1, 0, -1):
            j = self.below(i + 1)
            items[i], items[j] = items[j], items[i]
        return items


# ---------------------------------------------------------------- outputs event by event


def kind_of(record):
    return int.from_bytes(record[2:4], "little")


def answer_of(event):
    """The number that ends the outputs of an event, or None."""
    last = frames(event)[-1] if event else b""
    return int.from_bytes(last[4:6], "little") if kind_of(last) == ANSWER else None


def events_of(outputs):
    """Output bytes as a piece for each event; each ends with ANSWER or PANIC."""
    out, now = [], b""
    for record in frames(outputs):
        now += record
        if kind_of(record) in (ANSWER, PANIC):
            out.append(now)
            now = b""
    return out + [now] if now else out


def records_of(trace):
    return frames(trace, RECORD_MAX)


# ---------------------------------------------------------------- packs


def pack(items):
    """For each item a length of 4 bytes and its bytes."""
    return b"".join(len(x).to_bytes(4, "little") + x for x in items)


def unpack(data):
    cursor, items = Cursor(data), []
    while cursor.at < len(data):
        items.append(cursor.take(cursor.number(4)))
    return items
