"""Traces to compare on: random ones from a seed, and all sequences of small alphabets.

A trace that the Rust can be compared on holds no event that 01 answers by 28 or 29 (the Rust has no such limits): it
ends before the first of them. It ends with the first event that 01 answers by 30 or 31, since the states part there.
"""

import itertools

import model01
from traces import *


class Random:
    """One random trace. The rules of 01 follow it, so that it knows the round and the blocks."""

    def __init__(self, seed):
        d = self.dice = Dice(seed)
        self.chaos = d.choice([0.0, 0.02, 0.1, 0.3])
        self.skips = d.choice([0.0, 0.1, 0.4])
        self.n = d.choice([1, 2, 3, 4, 4, 4, 4, 5, 7, d.choice([13, 64])])
        kinds = d.choice([[1]] * 6 + [[0, 1, 1, 2, 3]] * 3 + [[0, 1, 1000]])
        self.stakes = [d.choice(kinds) for _ in range(self.n)]
        self.own = d.below(self.n)
        self.pool = d.choice([0, 0, 0, 4])  # so many digests only, the zero digest among them
        self.model = model01.Model()
        self.digests = 0
        self.blocks = []
        self.records = []

    def odd(self, p=None):
        return self.dice.chance(self.chaos if p is None else p)

    # values

    def verdict(self):
        return 0 if self.odd() else 1

    def place(self):
        return self.dice.below(self.n + 2 if self.odd() else self.n)

    def signers(self):
        d = self.dice
        if self.odd():
            count = d.choice([63, 64, 65, 66]) if self.odd(0.02) else d.below(self.n + 3)
            return [d.below(self.n + 2) for _ in range(count)]
        need, out, weight = 2 * sum(self.stakes) // 3 + 1, [], 0
        for p in d.shuffled(p for p in range(self.n) if self.stakes[p]):
            if weight >= need and self.odd(0.7):
                break
            out.append(p)
            weight += self.stakes[p]
        return out

    def digest(self):
        if self.pool:
            return digest(self.dice.below(self.pool))
        if self.odd() and self.blocks:
            return self.dice.choice(self.blocks)["digest"]
        self.digests += 1
        return digest(self.digests)

    def round(self):
        now = self.model.round
        if self.odd():
            if self.odd(0.1):
                return self.dice.choice([2**62, 2**62 + 1, self.dice.throw()])
            return self.dice.choice([0, 1, 2, 3, now + 7])
        return max(0, now + self.dice.choice([-2, -1, -1, 0, 0, 0, 0, 0, 1, 1, 2]))

    def qc(self):
        if not self.blocks or self.odd(0.1):
            return qc(ZERO, self.dice.below(3), self.signers(), self.verdict()) if self.odd() else qc()
        if self.odd():
            return qc(self.digest(), self.round(), self.signers(), self.verdict())
        known = self.blocks
        if self.odd(0.85):
            known = [b for b in self.blocks if b["digest"] in self.model.table] or self.blocks
        b = known[-1] if self.odd(0.6) else self.dice.choice(known[-6:])
        return qc(b["digest"], b["round"], self.signers(), self.verdict())

    def tc(self, round):
        high = self.model.high[1]
        highs = [(p, max(0, high - self.dice.choice([0, 0, 1, 2]))) for p in self.signers()]
        if self.odd():
            highs = [(p, self.round()) for p, _ in highs]
        return tc(round, highs, self.verdict())

    def block(self):
        on, cert = self.qc(), None
        if self.odd(0.75):
            round = max(self.model.round, on["round"] + 1) + (self.dice.below(3) if self.odd(self.skips) else 0)
            if self.odd():
                round = self.round()
            if round > 0 and (on["round"] + 1 != round or self.odd(0.1)):
                cert = self.tc(round - 1)
        else:
            round = self.round()
            cert = self.tc(self.round()) if self.odd(0.3) else None
        author = self.place() if self.odd() else round % self.n
        return block(self.digest(), author, round, on, cert, self.verdict())

    # records

    def start(self):
        """A good START, or one of those that are refused."""
        if not self.odd():
            return start(self.own, self.stakes)
        keys = Start.usual({"stakes": [1] * 66}, None)
        return self.dice.choice([
            start(self.n, self.stakes),
            start(0, []),
            start(0, [1] * 65, keys[:65]),
            start(0, [2**30, 2**30]),
            start(0, [1] * 3, [keys[0], keys[2], keys[1]]),
            start(0, [1] * 2, [keys[0], keys[0]]),
            packed(1, start(self.own, self.stakes)[4:-1]),
        ])

    def event(self):
        d, x = self.dice, self.dice.below(100)
        if x < 50:
            b = self.block()
            if self.odd(0.9) or not self.blocks:
                self.blocks.append(b)
            return propose(b, d.choice([1] * 12 + [0, 2])) if self.odd(0.8) else loopback(b)
        if x < 57 and self.blocks:
            return loopback(d.choice(self.blocks[-4:]))
        if x < 75:
            if self.blocks and self.odd(0.8):
                b = self.blocks[-1] if self.odd(0.8) else d.choice(self.blocks[-3:])
                return vote(b["digest"], b["round"], self.place(), self.verdict())
            return vote(digest(d.below(4)), self.round(), self.place(), self.verdict())
        if x < 88:
            round = self.model.round if self.odd(0.7) else self.round()
            return timeout(round, self.place(), self.qc(), self.verdict())
        if x < 93:
            return tc_event(self.tc(self.round()))
        if x < 99 or not self.odd():
            return tick()
        return d.choice([packed(d.choice([0, 3, 7, 8, 0x0101]), bytes(d.below(5))), b"\0\0", b"\1\0\7", start()])

    def filler(self):
        """An event that takes room: a vote or a timeout of its own tally, or a new block."""
        d, now = self.dice, self.model.round
        if self.fill == "votes":
            return vote(digest(10**6 + d.below(80)), now + d.below(3), self.place(), 1)
        if self.fill == "timeouts":
            return timeout(now + d.below(40), self.place(), qc(), 1)
        return loopback(block(digest(10**6 + d.below(500)), self.place(), now + 1 + d.below(9), qc()))

    def damaged(self, record):
        """One byte changed, or bytes cut off or added; the length fits."""
        d, body = self.dice, bytearray(record[2:])
        way = d.below(5) if body else 4
        if way < 3:
            body[d.below(len(body))] = d.choice([0, 1, 2, 3, 255, d.below(256)])
        elif way < 4:
            del body[d.below(len(body)) :]
        else:
            body += bytes(1 + d.below(3))
        return len(body).to_bytes(2, "little") + bytes(body)

    # the trace

    def push(self, record, rooms=False):
        """Whether the trace goes on after this record."""
        number = self.model.event(record)[1]
        if number in (28, 29) and not rooms:
            return False
        self.records.append(record)
        return number not in (30, 31) or rooms

    def trace(self, count, rooms=False):
        """So many events after START; with `rooms` also those that the Rust cannot be compared on."""
        if self.odd():
            self.push(tick())
        while not self.model.started:
            self.push(self.start())
        if self.odd(0.05):
            high = 2**62 - self.dice.below(12)
            self.push(tc_event(tc(high, [(p, 0) for p in range(self.n) if self.stakes[p]])))
        self.fill = self.dice.choice(["votes", "timeouts", "blocks"]) if rooms else None
        for _ in range(count):
            record = self.filler() if rooms and self.odd(0.7) else self.event()
            if self.odd(self.chaos / 5):
                record = self.damaged(record)
            if not self.push(record, rooms):
                break
        end = self.dice.choice([b"\7", b"\2\0\7", b"\1\x10"]) if self.odd(self.chaos / 4) else b""
        return b"".join(self.records) + end


def random_trace(seed):
    made = Random(seed)
    return made.trace(made.dice.choice([5, 20, 60, 200]))


# ---------------------------------------------------------------- all short sequences


class Alphabet:
    """A START and a few events. `stored` is the length in the stored list, `most` the length of a run of `short`."""

    def __init__(self, start, letters, stored, most):
        self.start, self.letters, self.stored, self.most = start, letters, stored, most

    def traces(self, length):
        """Every sequence of so many events (its beginnings are the shorter ones), cut where 01 gives 30 or 31."""
        found = {}
        for word in itertools.product(self.letters.values(), repeat=length):
            model, records = model01.Model(), [self.start]
            model.event(self.start)
            for record in word:
                records.append(record)
                if model.event(record)[1] in (30, 31):
                    break
            found[b"".join(records)] = None
        return list(found)


def alphabets():
    one, four = start(0, [1]), start(0)
    alone = (0,)

    def b(name, round, parent, cert=None, members=4):
        signers = alone if members == 1 else (0, 1, 2)
        return block(name.encode().ljust(HASH, b"\0"), round % members, round, qc_on(parent, signers), cert)

    def three(round, high):
        return tc(round, [(p, high) for p in (0, 1, 2)])

    s1 = b("B1", 1, None, members=1)
    s2 = b("B2", 2, s1, members=1)
    s3 = b("B3", 3, s2, members=1)
    s4 = b("B4", 4, s2, tc(3, [(0, 2)]), members=1)
    b1 = b("B1", 1, None)
    b2 = b("B2", 2, None, three(1, 0))
    b3 = b("B3", 3, b2)
    b4 = b("B4", 4, b3)
    c2 = b("C2", 2, b1)
    c3 = b("C3", 3, c2)
    b5 = b("B5", 5, None)
    d2 = b("D2", 2, b5)  # its parent has a later round
    d3 = b("D3", 3, d2)
    d4 = b("D4", 4, d3)
    return {
        "one": Alphabet(
            one,
            {
                "propose B1(g)": propose(s1),
                "propose B2(B1)": propose(s2),
                "loopback B3(B2)": loopback(s3),
                "propose B4(B2) with TC 3": propose(s4),
                "tick": tick(),
            },
            4,
            6,
        ),
        "one_votes": Alphabet(
            one,
            {
                "vote B1 round 1": vote(digest(1), 1, 0),
                "vote B2 round 2": vote(digest(2), 2, 0),
                "timeout round 2 with QC 1": timeout(2, 0, qc(digest(1), 1, alone)),
                "tc 1": tc_event(tc(1, [(0, 0)])),
                "tick": tick(),
                "loopback B2(B1)": loopback(s2),
            },
            0,
            5,
        ),
        "four_chain": Alphabet(
            four,
            {
                "propose B1(g)": propose(b1),
                "propose B2(g) with TC 1": propose(b2),
                "propose B3(B2)": propose(b3),
                "propose B4(B3)": propose(b4),
                "tick": tick(),
            },
            4,
            6,
        ),
        "four_fork": Alphabet(
            four,
            {
                "propose B1(g)": propose(b1),
                "propose C2(B1)": propose(c2),
                "propose C3(C2)": propose(c3),
                "propose B5(g), round 5": propose(b5),
                "propose D2(B5), round 2": propose(d2),
                "propose D3(D2)": propose(d3),
                "loopback D4(D3)": loopback(d4),
            },
            0,
            5,
        ),
        "four_votes": Alphabet(
            start(2),
            {
                "vote B1 by 0": vote(digest(1), 1, 0),
                "vote B1 by 1": vote(digest(1), 1, 1),
                "timeout round 1 by 0": timeout(1, 0, qc()),
                "timeout round 1 by 1": timeout(1, 1, qc()),
                "tick": tick(),
            },
            4,
            5,
        ),
        "four_mixed": Alphabet(
            start(2),
            {
                "propose B1(g)": propose(b1),
                "vote B1 by 0": vote(digest(1), 1, 0),
                "vote B1 by 1": vote(digest(1), 1, 1),
                "vote B1 by 3": vote(digest(1), 1, 3),
                "timeout round 1 by 0": timeout(1, 0, qc()),
                "timeout round 1 by 3 with QC 1": timeout(1, 3, qc(digest(1), 1, (0, 1, 3))),
                "tc 1": tc_event(three(1, 0)),
                "tick": tick(),
            },
            0,
            5,
        ),
    }
