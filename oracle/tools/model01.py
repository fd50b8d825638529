"""Document 01's rules, written from its text alone (not from the Rust and not from the Rattle code).

It leads the making of traces, and is a third implementation to compare with. The room is that of 01's program: 256
slots, 32 vote tallies, 16 timeout tallies.
"""

import struct

from traces import ANSWER, EVENTS, RECORD_MAX, ZERO
from records import Bad, Cursor, frames, is_whole, packed

TOP = 1 << 62


class Stop(Exception):
    """A refusal or another answer that is not DONE; what was written and changed so far stays."""

    def __init__(self, number):
        self.number = number


def parse(record):
    """A record's kind and values, with its QCs, TCs and rounds listed. `Bad` for what 16 is for."""
    cursor = Cursor(record)
    kind = cursor.number(2)
    if kind not in EVENTS:
        raise Bad("kind")
    e = EVENTS[kind][1].take(cursor)
    if cursor.at != len(record):
        raise Bad("length")
    qcs = [e["qc"]] if "qc" in e else []
    tcs = [e["tc"]] if e.get("tc") else [e] if kind == 5 else []
    signed = qcs + tcs + ([e] if "verdict" in e else [])
    if any(x["verdict"] > 1 for x in signed) or e.get("payload", 0) > 2 or "flag" in e:
        raise Bad("verdict, payload or flag")
    rounds = [x["round"] for x in qcs + tcs + [e] if "round" in x]
    return {**e, "kind": kind, "qcs": qcs, "tcs": tcs, "rounds": rounds + [h for t in tcs for _, h in t["highs"]]}


def tc_body(t):
    votes = sorted(t[1].items())
    return struct.pack("<QH", t[0], len(votes)) + b"".join(struct.pack("<HQ", p, h) for p, h in votes)


GENESIS = {"digest": ZERO, "round": 0, "phash": ZERO, "pround": 0}


class Model:
    def __init__(self, slots=256):
        self.slots = slots
        self.started = False

    # -- outputs
    def emit(self, kind, body=b""):
        self.out.append(packed(kind, body))

    def qc_bytes(self):
        h, r, w = self.high
        return h + struct.pack("<QQ", r, w)

    def make(self, t=None):
        body = struct.pack("<Q", self.round) + self.qc_bytes()
        self.emit(0x0104, body + (b"\x00" if t is None else b"\x01" + tc_body(t)))

    # -- committee
    def stake(self, place):
        return self.stakes[place] if place < len(self.stakes) else 0

    def quorum(self):
        return 2 * sum(self.stakes) // 3 + 1

    def leader(self, r):
        return r % len(self.stakes)

    def check(self, places, verdict, number):
        seen, weight = [], 0
        for p in places:
            if p in seen:
                raise Stop(24)
            if self.stake(p) == 0:
                raise Stop(22)
            seen.append(p)
            weight += self.stake(p)
        if weight < self.quorum():
            raise Stop(number)
        if not verdict:
            raise Stop(23)

    def check_qc(self, q):
        if q["hash"] == ZERO and q["round"] == 0:
            return
        self.check(q["signers"], q["verdict"], 25)

    def check_tc(self, t):
        self.check([p for p, _ in t["highs"]], t["verdict"], 26)

    # -- rounds
    def advance(self, r):
        if r < self.round:
            return
        self.emit(0x0109)
        self.round = r + 1
        self.votes = {k: v for k, v in self.votes.items() if k[0] >= self.round}
        self.timeouts = {k: v for k, v in self.timeouts.items() if k >= self.round}

    def take_qc(self, h, r, word):
        self.advance(r)
        if r > self.high[1]:
            self.high = (h, r, word)

    def take_qc_in(self, q):
        word = 0
        for p in q["signers"]:
            if p < 64:
                word |= 1 << p
        self.take_qc(q["hash"], q["round"], word)

    # -- events
    def on_vote(self, h, r, author, verdict):
        if r < self.round:
            raise Stop(1)
        if self.stake(author) == 0:
            raise Stop(22)
        if not verdict:
            raise Stop(23)
        if (r, h) not in self.votes:
            if len(self.votes) >= 32:
                raise Stop(29)
            self.votes[(r, h)] = [0, []]
        tally = self.votes[(r, h)]
        if author in tally[1]:
            raise Stop(24)
        tally[1].append(author)
        tally[0] += self.stake(author)
        if tally[0] >= self.quorum():
            tally[0] = 0
            self.take_qc(h, r, sum(1 << p for p in tally[1]))
            if self.leader(self.round) == self.own:
                self.make()

    def tally_timeout(self, r, author, high_round):
        if r not in self.timeouts:
            if len(self.timeouts) >= 16:
                raise Stop(29)
            self.timeouts[r] = [0, {}]
        tally = self.timeouts[r]
        if author in tally[1]:
            raise Stop(24)
        tally[1][author] = high_round
        tally[0] += self.stake(author)
        if tally[0] >= self.quorum():
            tally[0] = 0
            t = (r, dict(tally[1]))
            self.advance(r)
            self.emit(0x0103, tc_body(t))
            if self.leader(self.round) == self.own:
                self.make(t)

    def on_timeout(self, e):
        if e["round"] < self.round:
            raise Stop(1)
        if self.stake(e["author"]) == 0:
            raise Stop(22)
        if not e["verdict"]:
            raise Stop(23)
        self.check_qc(e["qc"])
        self.take_qc_in(e["qc"])
        self.tally_timeout(e["round"], e["author"], e["qc"]["round"])

    def on_tc(self, t):
        self.check_tc(t)
        if t["round"] < self.round:
            raise Stop(1)
        self.advance(t["round"])
        if self.leader(self.round) == self.own:
            self.make((t["round"], dict(t["highs"])))

    def on_tick(self):
        self.last_voted = max(self.last_voted, self.round)
        self.emit(0x0109)
        self.emit(0x0102, struct.pack("<Q", self.round) + self.qc_bytes())
        if self.stake(self.own) == 0:
            raise Stop(22)
        self.tally_timeout(self.round, self.own, self.high[1])

    def on_propose(self, b):
        if self.leader(b["round"]) != b["author"]:
            raise Stop(21)
        if self.stake(b["author"]) == 0:
            raise Stop(22)
        if not b["verdict"]:
            raise Stop(23)
        self.check_qc(b["qc"])
        if b["tc"] is not None:
            self.check_tc(b["tc"])
        self.take_qc_in(b["qc"])
        if b["tc"] is not None:
            self.advance(b["tc"]["round"])
        if b["payload"] == 0:
            raise Stop(3)
        if b["payload"] == 2:
            raise Stop(27)
        self.on_loopback(b)

    def parent(self, slot):
        if slot["phash"] == ZERO and slot["pround"] == 0:
            return GENESIS
        return self.table.get(slot["phash"])

    def on_loopback(self, b):
        me = {"digest": b["digest"], "round": b["round"], "phash": b["qc"]["hash"], "pround": b["qc"]["round"]}
        b1 = self.parent(me)
        if b1 is None:
            self.emit(0x0106, me["phash"] + b["digest"] + struct.pack("<H", b["author"]))
            raise Stop(2)
        b0 = self.parent(b1)
        if b0 is None:
            raise Stop(30)
        if b["digest"] not in self.table and len(self.table) >= self.slots:
            raise Stop(28)
        self.table[b["digest"]] = me
        self.emit(0x0107, b0["digest"] + b1["digest"] + b["digest"])
        if b0["round"] + 1 == b1["round"]:
            self.emit(0x0108, struct.pack("<Q", b0["round"]))
            self.commit(b0)
        if b["round"] != self.round:
            return
        good = b["qc"]["round"] + 1 == b["round"]
        if b["tc"] is not None:
            good |= b["tc"]["round"] + 1 == b["round"] and b["qc"]["round"] >= max(h for _, h in b["tc"]["highs"])
        if b["round"] > self.last_voted and good:
            self.last_voted = b["round"]
            to = self.leader(b["round"] + 1)
            self.emit(0x0101, struct.pack("<H", to) + b["digest"] + struct.pack("<Q", b["round"]))
            if to == self.own:
                self.on_vote(b["digest"], b["round"], self.own, 1)

    def commit(self, b0):
        if b0["round"] <= self.last_committed:
            return
        chain, now = [b0], b0
        while now["round"] > self.last_committed + 1:
            up = self.parent(now)
            if up is None:
                raise Stop(30)
            if up["round"] >= now["round"]:
                raise Stop(31)
            if up["round"] <= self.last_committed:
                break
            chain.append(up)
            now = up
        self.last_committed = b0["round"]
        for x in reversed(chain):
            self.emit(0x0105, x["digest"] + struct.pack("<Q", x["round"]))

    def start(self, e):
        count = len(e["stakes"])
        if not 1 <= count <= 64 or e["own"] >= count or sum(e["stakes"]) > 0x7FFFFFFF:
            raise Stop(17)
        if any(a >= b for a, b in zip(e["keys"], e["keys"][1:])):
            raise Stop(17)
        self.started, self.own, self.stakes = True, e["own"], e["stakes"]
        self.round, self.last_voted, self.last_committed = 1, 0, 0
        self.high = (ZERO, 0, 0)
        self.votes, self.timeouts, self.table = {}, {}, {}
        self.emit(0x0109)
        if self.leader(1) == self.own:
            self.make()

    def step(self, e):
        if e["kind"] == 1:
            if self.started:
                raise Stop(34)
            return self.start(e)
        if not self.started:
            raise Stop(33)
        if e["kind"] == 6 and any(not t["highs"] for t in e["tcs"]):
            raise Stop(32)
        if any(len(q["signers"]) > 64 for q in e["qcs"]) or any(len(t["highs"]) > 64 for t in e["tcs"]):
            raise Stop(20)
        if any(r > TOP for r in e["rounds"]) or (e["kind"] == 7 and self.round > TOP):
            raise Stop(19)
        if e["kind"] == 2:
            self.on_propose(e)
        elif e["kind"] == 3:
            self.on_vote(e["hash"], e["round"], e["author"], e["verdict"])
        elif e["kind"] == 4:
            self.on_timeout(e)
        elif e["kind"] == 5:
            self.on_tc(e)
        elif e["kind"] == 6:
            self.on_loopback(e)
        else:
            self.on_tick()

    def event(self, record):
        """One record of a trace to its output bytes, ANSWER included, and the number."""
        self.out = []
        number = 0
        try:
            if not is_whole(record, RECORD_MAX):
                raise Bad("cut or too long")
            self.step(parse(record[2:]))
        except Bad:
            number = 16
        except Stop as s:
            number = s.number
        self.emit(ANSWER, struct.pack("<H", number))
        return b"".join(self.out), number


def run(trace):
    """The outputs of a whole trace."""
    model = Model()
    return b"".join(model.event(record)[0] for record in frames(trace, RECORD_MAX))


if __name__ == "__main__":
    import sys

    sys.stdout.buffer.write(run(sys.stdin.buffer.read()))
