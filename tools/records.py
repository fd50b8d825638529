"""The trace form of document 01: events, outputs and their parts, between words, values and bytes.

Every form has four ways:
    read(words, names) -> value       text(value, names) -> words
    pack(value) -> bytes              take(cursor) -> value
What is taken from bytes has words, and these words pack to the same bytes again.
`Bad` carries the reason where words or bytes do not have the form.

In order: words and names; numbers, digests, lists; fields and groups; the parts of 01; the seven events; the ten
outputs; whole records.
"""

import re

RECORD_MAX = 4096  # of a good record's length
LENGTH_MAX = 65535  # that a two-byte length can say
HASH = 32
ZERO = bytes(HASH)

ANSWERS = {
    0: "DONE",
    1: "STALE",
    2: "WAIT PARENT",
    3: "WAIT PAYLOAD",
    16: "BAD RECORD",
    17: "BAD SETUP",
    18: "ROOM",
    19: "ROUND LIMIT",
    20: "SIGNER LIST",
    21: "WRONG LEADER",
    22: "UNKNOWN",
    23: "BAD SIGNATURE",
    24: "REUSE",
    25: "QC QUORUM",
    26: "TC QUORUM",
    27: "PAYLOAD INVALID",
    28: "NO EMPTY SLOT",
    29: "NO TALLY",
    30: "PARENT ABSENT",
    31: "ROUND NOT BELOW",
    32: "EMPTY TC",
    33: "NOT STARTED",
    34: "START AGAIN",
}


class Bad(Exception):
    """Words or bytes that do not have the form. The text is the reason."""


# ---------------------------------------------------------------- words and names


def split(words, mark=None):
    """The pieces between blanks (or between marks) that stand in no bracket."""
    pieces, now, depth = [], "", 0
    for c in words:
        depth += (c == "(") - (c == ")")
        if depth < 0:
            raise Bad("a ')' without its '('")
        if depth == 0 and (c.isspace() if mark is None else c == mark):
            pieces.append(now)
            now = ""
        else:
            now += c
    if depth:
        raise Bad("a '(' without its ')'")
    pieces.append(now)
    pieces = [p.strip() for p in pieces]
    return [p for p in pieces if p] if mark is None else pieces


def inside(words):
    """What stands between the brackets of `( .. )`."""
    if len(words) < 2 or words[0] != "(" or words[-1] != ")":
        raise Bad(f"'{words}' should stand in brackets")
    return words[1:-1].strip()


class Names:
    """What the lines above have said: digests with a name of their own, and the member count of the last START."""

    def __init__(self):
        self.given = {}
        self.members = 0

    def name_of(self, digest):
        for name, known in self.given.items():
            if known == digest:
                return name
        letters = digest.rstrip(b"\0")
        if re.fullmatch(rb"[A-Za-z][A-Za-z0-9_]*", letters):
            name = letters.decode()
            if name not in self.given and name != "genesis":
                return name
        return "0x" + digest.hex()


class Inventing(Names):
    """Gives a name to each digest that has none. `new` holds those not yet written down."""

    def __init__(self):
        super().__init__()
        self.new = []
        self.met = set()

    def name_of(self, digest):
        name = super().name_of(digest)
        if not name.startswith("0x"):
            self.met.add(name)
            return name
        number = len(self.given) + 1
        while f"D{number}" in self.met or f"D{number}" in self.given:
            number += 1
        self.given[f"D{number}"] = digest
        self.new.append(f"D{number}")
        return f"D{number}"


class Cursor:
    """Bytes and a place in them."""

    def __init__(self, data):
        self.data, self.at = data, 0

    def take(self, size):
        if self.at + size > len(self.data):
            raise Bad("the body is too short")
        self.at += size
        return self.data[self.at - size : self.at]

    def number(self, size):
        return int.from_bytes(self.take(size), "little")


# ---------------------------------------------------------------- numbers, digests, lists


class Number:
    """A number of so many bytes, little-endian: `7`, `2^62`, `2^62+1`."""

    def __init__(self, size):
        self.size = size

    def read(self, words, names):
        m = re.fullmatch(r"(\d{1,20})|2\^(\d{1,2})([+-]\d{1,9})?", words)
        if not m:
            raise Bad(f"'{words}' is no number")
        value = int(m[1]) if m[1] else 2 ** int(m[2]) + int(m[3] or 0)
        if not 0 <= value < 256**self.size:
            raise Bad(f"{words} does not fit in {self.size} byte{'s' * (self.size > 1)}")
        return value

    def text(self, value, names):
        for power in (31, 32, 62, 63, 64):
            off = value - 2**power
            if abs(off) <= 9:
                return f"2^{power}{off:+d}" if off else f"2^{power}"
        return str(value)

    def pack(self, value):
        return value.to_bytes(self.size, "little")

    def take(self, cursor):
        return cursor.number(self.size)


class Digest:
    """32 bytes: a name given by a `digest` line, letters that zeros follow, `0` or `genesis` for zeros, or 0x.."""

    def __init__(self, zero="0"):
        self.zero = zero

    def read(self, words, names):
        if words in ("0", "genesis"):
            return ZERO
        if words in names.given:
            return names.given[words]
        if re.fullmatch(r"0x[0-9a-fA-F]{64}", words):
            return bytes.fromhex(words[2:])
        if not re.fullmatch(r"[A-Za-z][A-Za-z0-9_]*", words):
            raise Bad(f"'{words}' is no digest: a name, 0, genesis, or 0x and {2 * HASH} hex digits")
        if len(words) > HASH:
            raise Bad(f"the name {words} is longer than {HASH} letters")
        return words.encode().ljust(HASH, b"\0")

    def text(self, value, names):
        return self.zero if value == ZERO else names.name_of(value)

    def pack(self, value):
        return value

    def take(self, cursor):
        return cursor.take(HASH)


class Pair:
    """`place:high`, an entry of a TC."""

    place, high = Number(2), Number(8)

    def read(self, words, names):
        parts = words.split(":")
        if len(parts) != 2:
            raise Bad(f"'{words}' is no place:high")
        return self.place.read(parts[0], names), self.high.read(parts[1], names)

    def text(self, value, names):
        return f"{self.place.text(value[0], names)}:{self.high.text(value[1], names)}"

    def pack(self, value):
        return self.place.pack(value[0]) + self.high.pack(value[1])

    def take(self, cursor):
        return self.place.take(cursor), self.high.take(cursor)


def shortened(words):
    """Words of a list with their runs of eight and more written `x*8` or `0..7`."""

    def next_of(word):
        m = re.fullmatch(r"(\d{1,5})(:\S+)?", word)
        return f"{int(m[1]) + 1}{m[2] or ''}" if m else None

    out, at = [], 0
    while at < len(words):
        same = rise = at
        while same + 1 < len(words) and words[same + 1] == words[at]:
            same += 1
        while rise + 1 < len(words) and words[rise + 1] == next_of(words[rise]):
            rise += 1
        if same - at >= 7:
            out.append(f"{words[at]}*{same - at + 1}")
        elif rise - at >= 7:
            out.append(f"{words[at].partition(':')[0]}..{words[rise]}")
        else:
            same = rise = at
            out.append(words[at])
        at = max(same, rise) + 1
    return out


class Listed:
    """`(a,b,c)`, in bytes behind a two-byte count. `x*5` is x five times, `0..2` is 0,1,2 and `0..1:7` is 0:7,1:7."""

    def __init__(self, form):
        self.form = form

    def read(self, words, names):
        items = []
        for piece in split(inside(words), ",") if inside(words) else []:
            many = re.fullmatch(r"(\S+)\*(\d{1,5})", piece)
            run = re.fullmatch(r"(\d{1,5})\.\.(\d{1,5})(:\S+)?", piece)
            if many:
                items += [self.form.read(many[1], names)] * int(many[2])
            elif run:
                if int(run[1]) > int(run[2]):
                    raise Bad(f"{piece} runs backwards")
                items += [self.form.read(f"{n}{run[3] or ''}", names) for n in range(int(run[1]), int(run[2]) + 1)]
            else:
                items.append(self.form.read(piece, names))
            if len(items) > LENGTH_MAX:
                raise Bad("a list longer than a two-byte count can say")
        return items

    def text(self, value, names):
        return "(" + ",".join(shortened([self.form.text(x, names) for x in value])) + ")"

    def pack(self, value, count=None):
        count = len(value) if count is None else count
        return count.to_bytes(2, "little") + b"".join(self.form.pack(x) for x in value)

    def take(self, cursor):
        return [self.form.take(cursor) for _ in range(cursor.number(2))]


class Word:
    """A set of places, `(0,1,3)` in rising order, as bits of one number."""

    def __init__(self, size):
        self.size = size
        self.places = Listed(Number(2))

    def read(self, words, names):
        places = self.places.read(words, names)
        if any(a >= b for a, b in zip(places, places[1:])):
            raise Bad(f"the signers {words} of an output do not rise")
        if places and places[-1] >= 8 * self.size:
            raise Bad(f"place {places[-1]} has no bit among {8 * self.size}")
        return sum(1 << p for p in places)

    def text(self, value, names):
        return self.places.text([p for p in range(8 * self.size) if value >> p & 1], names)

    def pack(self, value):
        return value.to_bytes(self.size, "little")

    def take(self, cursor):
        return cursor.number(self.size)


# ---------------------------------------------------------------- fields and groups


class Field:
    """`key=..`. Without a default it must be given; a default is a value, or worked out from the fields before it."""

    def __init__(self, key, form, default=None):
        self.key, self.form, self.default = key, form, default


class Flagged:
    """A part behind a flag byte: flag 1 if it is given, else 0; `flag=` says another."""

    def __init__(self, key, form):
        self.key, self.form = key, form


class Group:
    """Fields in the order of their bytes, `key=value key=value`; inside another form in brackets.

    `count=` makes the count in front of a list say another number than it has. A field that is `bare` stands first
    and has no key. `word` stands for a group with all the values of `means`.
    """

    def __init__(self, *fields, bare=None, word=None, means=None):
        self.fields, self.bare, self.word, self.means = fields, bare, word, means

    # words

    def pairs(self, words):
        """The keys and the words of their values."""
        known = [f.key for f in self.fields]
        known += ["count" for f in self.fields if isinstance(f.form, Listed)]
        known += ["flag" for f in self.fields if isinstance(f, Flagged)]
        found = {}
        for piece in split(words):
            key, equals, value = piece.partition("=")
            if not equals or "(" in key:
                if self.bare and not found:
                    key, value = self.bare, piece
                else:
                    raise Bad(f"'{piece}' is no key=value")
            if key not in known:
                raise Bad(f"there is no {key}= here (known: {', '.join(dict.fromkeys(known))})")
            if key in found:
                raise Bad(f"{key}= is given twice")
            found[key] = value
        return found

    def read_fields(self, words, names):
        found, values = self.pairs(words), {}
        for key, size in (("count", 2), ("flag", 1)):
            if key in found:
                values[key] = Number(size).read(found[key], names)
        late = []
        for f in self.fields:
            if f.key in found:
                try:
                    values[f.key] = f.form.read(found[f.key], names)
                except Bad as e:
                    raise Bad(f"{f.key}: {e}") from None
            elif isinstance(f, Flagged):
                values[f.key] = None
            elif f.default is None:
                raise Bad(f"{f.key}= is missing")
            else:
                late.append(f)
        for f in late:
            values[f.key] = f.default(values, names) if callable(f.default) else f.default
        return values

    def read(self, words, names):
        return dict(self.means) if words == self.word else self.read_fields(inside(words), names)

    def text_fields(self, values, names):
        out = []
        for f in self.fields:
            value = values[f.key]
            if isinstance(f, Flagged):
                if value is not None:
                    out.append(f"{f.key}={f.form.text(value, names)}")
                elif "flag" in values:
                    out.append(f"flag={values['flag']}")
            elif callable(f.default) or value != f.default:
                words = f.form.text(value, names)
                out.append(words if f.key == self.bare else f"{f.key}={words}")
        return " ".join(out)

    def text(self, values, names):
        return self.word if self.word and values == self.means else f"({self.text_fields(values, names)})"

    # bytes

    def pack(self, values):
        out = b""
        for f in self.fields:
            value = values[f.key]
            if isinstance(f, Flagged):
                out += bytes([values.get("flag", value is not None)])
                out += b"" if value is None else f.form.pack(value)
            elif isinstance(f.form, Listed):
                out += f.form.pack(value, values.get("count"))
            else:
                out += f.form.pack(value)
        return out

    def take(self, cursor):
        values = {}
        for f in self.fields:
            if isinstance(f, Flagged):
                flag = cursor.number(1)
                values[f.key] = f.form.take(cursor) if flag == 1 else None
                if flag > 1:
                    values["flag"] = flag
            else:
                values[f.key] = f.form.take(cursor)
        return values


# ---------------------------------------------------------------- the parts of 01


def leader(values, names):
    """An author left out is the place that leads the block's round."""
    if not names.members:
        raise Bad("author= is missing, and no START above says how many members there are")
    return values["round"] % names.members


def verdict():
    return Field("verdict", Number(1), 1)


QC = Group(
    Field("hash", Digest()),
    Field("round", Number(8)),
    verdict(),
    Field("signers", Listed(Number(2))),
    word="genesis",
    means={"hash": ZERO, "round": 0, "verdict": 1, "signers": []},
)
TC = Group(Field("round", Number(8)), verdict(), Field("highs", Listed(Pair())))
BLOCK = (
    Field("digest", Digest()),
    Field("author", Number(2), leader),
    Field("round", Number(8)),
    verdict(),
    Field("qc", QC),
    Flagged("tc", TC),
)
HIGH_QC = Group(
    Field("hash", Digest()),
    Field("round", Number(8)),
    Field("signers", Word(8)),
    word="genesis",
    means={"hash": ZERO, "round": 0, "signers": 0},
)
TC_OUT = Group(Field("round", Number(8)), Field("highs", Listed(Pair())))


class Start(Group):
    """START's body: count 2, own place 2, then key 32 and stake 4 each. Without keys= they are K000, K001, .."""

    def __init__(self):
        stakes, keys = Listed(Number(4)), Listed(Digest())
        super().__init__(Field("own", Number(2)), Field("stakes", stakes), Field("keys", keys, self.usual))

    @staticmethod
    def usual(values, names):
        return [f"K{place:03d}".encode().ljust(HASH, b"\0") for place in range(len(values["stakes"]))]

    def read_fields(self, words, names):
        values = super().read_fields(words, names)
        if len(values["keys"]) != len(values["stakes"]):
            raise Bad(f"{len(values['keys'])} keys for {len(values['stakes'])} stakes")
        names.members = len(values["stakes"])
        return values

    def text_fields(self, values, names):
        out = f"own={values['own']} stakes={self.fields[1].form.text(values['stakes'], names)}"
        if values["keys"] != self.usual(values, names):
            out += f" keys={self.fields[2].form.text(values['keys'], names)}"
        return out

    def pack(self, values):
        count = values.get("count", len(values["stakes"]))
        members = zip(values["keys"], values["stakes"])
        head = count.to_bytes(2, "little") + values["own"].to_bytes(2, "little")
        return head + b"".join(key + stake.to_bytes(4, "little") for key, stake in members)

    def take(self, cursor):
        count, own = cursor.number(2), cursor.number(2)
        members = [(cursor.take(HASH), cursor.number(4)) for _ in range(count)]
        return {"own": own, "keys": [k for k, _ in members], "stakes": [s for _, s in members]}


class Answer:
    """`24 REUSE`: a number with its name."""

    number = Number(2)

    def read_fields(self, words, names):
        digits, _, name = words.partition(" ")
        value = self.number.read(digits, names)
        if value in ANSWERS and name.strip() != ANSWERS[value]:
            raise Bad(f"ANSWER {value} is {ANSWERS[value]}")
        if value not in ANSWERS and name:
            raise Bad(f"ANSWER {value} has no name")
        return value

    def text_fields(self, value, names):
        return f"{value} {ANSWERS.get(value, '')}".strip()

    def pack(self, value):
        return self.number.pack(value)

    def take(self, cursor):
        return self.number.take(cursor)


# ---------------------------------------------------------------- events and outputs

EVENTS = {
    1: ("start", Start()),
    2: ("propose", Group(*BLOCK, Field("payload", Number(1), 1))),
    3: ("vote", Group(Field("hash", Digest()), Field("round", Number(8)), Field("author", Number(2)), verdict())),
    4: ("timeout", Group(Field("round", Number(8)), Field("author", Number(2)), verdict(), Field("qc", QC))),
    5: ("tc", TC),
    6: ("loopback", Group(*BLOCK)),
    7: ("tick", Group()),
}

DIGESTS = (Field("b0", Digest("genesis")), Field("b1", Digest("genesis")), Field("block", Digest()))
OUTPUTS = {
    0x0101: ("VOTE", Group(Field("to", Number(2)), Field("hash", Digest()), Field("round", Number(8)))),
    0x0102: ("TIMEOUT", Group(Field("round", Number(8)), Field("high", HIGH_QC))),
    0x0103: ("TC", TC_OUT),
    0x0104: ("MAKE", Group(Field("round", Number(8)), Field("high", HIGH_QC), Flagged("tc", TC_OUT))),
    0x0105: ("COMMIT", Group(Field("digest", Digest()), Field("round", Number(8)), bare="digest")),
    0x0106: ("SYNC", Group(Field("parent", Digest()), Field("block", Digest()), Field("author", Number(2)))),
    0x0107: ("CLEAN PROPOSER", Group(*DIGESTS)),
    0x0108: ("CLEAN MEMPOOL", Group(Field("round", Number(8)))),
    0x0109: ("TIMER RESET", Group()),
    0x010A: ("ANSWER", Answer()),
}

ANSWER = 0x010A


# ---------------------------------------------------------------- whole records


def packed(kind, body):
    """A record: two-byte length, two-byte kind, body."""
    if len(body) + 2 > LENGTH_MAX:
        raise Bad("the record is longer than a two-byte length can say")
    return (len(body) + 2).to_bytes(2, "little") + kind.to_bytes(2, "little") + body


def hex_bytes(words):
    """`02 00 63 00` as bytes."""
    for piece in words.split():
        if not re.fullmatch(r"[0-9a-fA-F]{2}", piece):
            raise Bad(f"'{piece}' is no byte of two hex digits")
    return bytes.fromhex(words)


def read_record(words, table, names):
    """The bytes of one event or output from its words."""
    if words.split(" ")[0] == "raw":
        return hex_bytes(words[3:])
    for kind, (name, form) in table.items():
        if words == name or words.startswith(name + " "):
            return packed(kind, form.pack(form.read_fields(words[len(name) :].strip(), names)))
    what = "an event" if table is EVENTS else "an output"
    raise Bad(f"'{words.split(' ')[0]}' is not {what} (known: raw, {', '.join(name for name, _ in table.values())})")


def take_record(record, table, names):
    """The words of one whole record. `Bad` says why it has none."""
    cursor = Cursor(record)
    if cursor.number(2) < 2:
        raise Bad("a length below 2")
    kind = cursor.number(2)
    if kind not in table:
        raise Bad(f"unknown kind {kind}")
    name, form = table[kind]
    value = form.take(cursor)
    if cursor.at != len(record):
        raise Bad(f"the body is {len(record) - cursor.at} longer than that of a {name}")
    if table is EVENTS and kind == 1:
        names.members = len(value["stakes"])
    return f"{name} {form.text_fields(value, names)}".strip()


def frames(data, most=LENGTH_MAX):
    """Cuts bytes into whole records. The last piece is what is left when a record is cut or longer than `most`."""
    pieces, at = [], 0
    while at < len(data):
        end = at + 2 + int.from_bytes(data[at : at + 2], "little")
        if not is_whole(data[at:end], most):
            pieces.append(data[at:])
            break
        pieces.append(data[at:end])
        at = end
    return pieces


def is_whole(piece, most=LENGTH_MAX):
    """Whether a piece of `frames` is a record and not a broken end."""
    return len(piece) >= 2 and len(piece) - 2 == int.from_bytes(piece[:2], "little") <= most


def is_too_long(piece, most):
    """Whether it is a broken end because of the length that it announces."""
    return len(piece) >= 2 and int.from_bytes(piece[:2], "little") > most


def is_answer(piece):
    """Whether an output record is ANSWER, the last of its event."""
    return is_whole(piece) and piece[2:4] == ANSWER.to_bytes(2, "little")
