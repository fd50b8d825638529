"""Scenario scripts: reading and compiling them, showing bytes as a script, comparing, and new expected parts.

The form of a script is in `tools/trace help`. Nothing here reads or writes a file or starts a program.
"""

import difflib
import re

from records import EVENTS, OUTPUTS, RECORD_MAX
from records import Bad, Digest, Inventing, Names
from records import frames, hex_bytes, is_answer, is_too_long, is_whole, packed, read_record, take_record

LINE = "----"


class BadScript(Exception):
    """A script that is no script; the text is file, line and reason."""

    def __init__(self, name, line, reason):
        super().__init__(f"{name}:{line}: {reason}")


# ---------------------------------------------------------------- reading


class Line:
    """One command or output, with its number in the file, the comments above it, and how it was written."""

    def __init__(self, number, comments, written):
        self.number, self.comments, self.written = number, comments, [written]

    def text(self):
        return " ".join(" ".join(self.written).split())


class Part:
    """An event and its outputs.

    `outputs` is None where there is no `----`, `span` the place of their lines in the file, and `tail` the comments
    after the last of them.
    """

    def __init__(self):
        self.event, self.outputs, self.span, self.tail = [], None, None, []


class Loop:
    def __init__(self, number, name, turns):
        self.number, self.name, self.turns, self.parts = number, name, turns, []


class Definition:
    def __init__(self, name, words):
        self.name, self.words = name, words


class Script:
    """The parts, loops and definitions of a script in order, and its lines as they are."""

    def __init__(self, name, text):
        self.name, self.lines, self.items = name, text.removesuffix("\n").split("\n"), []
        self.read()

    def bad(self, number, reason):
        return BadScript(self.name, number, reason)

    def read(self):
        loop, at = None, 0
        while at < len(self.lines):
            text, number = self.lines[at].strip(), at + 1
            word = text.split()[0] if text else "#"
            if word in ("for", "digest") and loop:
                raise self.bad(number, f"a {word} inside a loop")
            if word == "end" and not loop:
                raise self.bad(number, "an end without its for")
            if word == "end" and not loop.parts:
                raise self.bad(number, "a loop without events")
            at += 1
            if word == "digest":
                self.items.append(self.definition(number, text))
            elif word == "for":
                loop = self.loop(number, text)
                self.items.append(loop)
            elif word == "end":
                loop = None
            elif not word.startswith("#"):
                part, at = self.part(at - 1)
                (loop.parts if loop else self.items).append(part)
        if loop:
            raise self.bad(loop.number, "a for without its end")

    def definition(self, number, text):
        m = re.fullmatch(r"digest\s+([A-Za-z][A-Za-z0-9_]*)\s+(0x[0-9a-fA-F]{64})", text)
        if not m or m[1] == "genesis":
            raise self.bad(number, "a digest line is: digest NAME 0x.. with 64 hex digits")
        return Definition(m[1], m[2])

    def loop(self, number, text):
        m = re.fullmatch(r"for\s+([a-z]+)\s+in\s+(\d{1,5})\.\.(\d{1,5})", text)
        if not m or int(m[2]) > int(m[3]):
            raise self.bad(number, "a loop is: for NAME in FIRST..LAST")
        return Loop(number, m[1], range(int(m[2]), int(m[3]) + 1))

    def part(self, at):
        """The part that begins at line `at`, and the line after it."""
        part, comments = Part(), []
        into = part.event
        while at < len(self.lines):
            line, number = self.lines[at], at + 1
            text = line.strip()
            if not text or text == "end":
                break
            if text.startswith("#"):
                comments.append(line)
            elif text == LINE:
                if part.outputs is not None:
                    raise self.bad(number, f"a second {LINE} in one part (a blank line ends a part)")
                into, comments = [], []
                part.outputs, part.span = into, [at + 1, at + 1]
            elif line[0].isspace():
                if not into or comments:
                    raise self.bad(number, "a line that begins with blanks goes on with the line above: there is none")
                into[-1].written.append(line)
            else:
                into.append(Line(number, comments, line))
                comments = []
            at += 1
        if part.outputs is None:
            part.span = [at, at]
        else:
            part.span[1], part.tail = at, comments
        return part, at


# ---------------------------------------------------------------- compiling


class Piece:
    """A part as it is played: a turn of its loop put in, the bytes of its event, and the names known there."""

    def __init__(self, script, part, names, put):
        self.part, self.put, self.names = part, put, Names()
        self.line = part.event[0].number if part.event else part.span[0]
        self.trace = self.event(script, names)
        self.names.given, self.names.members = dict(names.given), names.members

    def words(self):
        return "; ".join(self.put(line.text()) for line in self.part.event)

    def event(self, script, names):
        data = b""
        for i, line in enumerate(self.part.event):
            try:
                words = self.put(line.text())
                data = self.changed(words, data) if i else read_record(words, EVENTS, names)
            except Bad as e:
                raise script.bad(line.number, e) from None
        return data

    @staticmethod
    def changed(words, data):
        """The record after `short`, `more` or `cut`."""
        word, _, rest = words.partition(" ")
        if word in ("short", "cut"):
            if not rest.isdigit() or not 0 < int(rest) <= len(data) - (4 if word == "short" else 0):
                raise Bad(f"{word} takes a number of bytes that the record has")
            if word == "cut":
                return data[: -int(rest)]
            return packed(int.from_bytes(data[2:4], "little"), data[4 : -int(rest)])
        if word == "more":
            return packed(int.from_bytes(data[2:4], "little"), data[4:] + hex_bytes(rest))
        raise Bad(f"'{word}' under an event (known: short, more, cut; {LINE} comes before the outputs)")

    def expected(self, script):
        """The bytes of its outputs, from the script."""
        out = b""
        for line in self.part.outputs or []:
            try:
                out += read_record(self.put(line.text()), OUTPUTS, self.names)
            except Bad as e:
                raise script.bad(line.number, e) from None
        return out


def put_in(name, turn):
    """Puts a turn of a loop into words: {n}, {n+1}, {n-1}, {n+1 mod 4}."""

    def value(m):
        form = re.fullmatch(r"([a-z]+)([+-]\d{1,5})?( mod (\d{1,5}))?", m[1])
        if not form or name is None or form[1] != name or form[4] == "0":
            known = f"{{{name}}}, {{{name}+1}}, {{{name}-1}}, {{{name}+1 mod 4}}" if name else "none outside a loop"
            raise Bad(f"'{m[0]}' (known: {known})")
        number = turn + int(form[2] or 0)
        if number < 0:
            raise Bad(f"'{m[0]}' is below 0 when {name} is {turn}")
        return str(number % int(form[4]) if form[4] else number)

    return lambda words: re.sub(r"\{([^}]*)\}", value, words)


def play(script):
    """The pieces of a script, its loops unrolled."""
    names, pieces = Names(), []
    for item in script.items:
        if isinstance(item, Definition):
            names.given[item.name] = Digest().read(item.words, names)
        elif isinstance(item, Loop):
            for turn in item.turns:
                put = put_in(item.name, turn)
                pieces += [Piece(script, part, names, put) for part in item.parts]
        else:
            pieces.append(Piece(script, item, names, put_in(None, 0)))
    return pieces


def compiled(script):
    """Trace bytes and expected bytes; None for what the script has none of."""
    pieces = play(script)
    events = any(p.part.event for p in pieces)
    outputs = any(p.part.outputs is not None for p in pieces)
    for p in pieces:
        if outputs and p.part.outputs is None:
            raise script.bad(p.line, f"an event without {LINE} and its outputs (rewrite writes them)")
        if events and not p.part.event:
            raise script.bad(p.line, f"{LINE} without an event above it")
    trace = b"".join(p.trace for p in pieces)
    expect = b"".join(p.expected(script) for p in pieces)
    return trace if events else None, expect if outputs else None


def compiled_whole(script):
    """Trace bytes and expected bytes of a script that has both."""
    trace, expect = compiled(script)
    if trace is None or expect is None:
        raise script.bad(1, "a scenario needs events and expected parts")
    return trace, expect


# ---------------------------------------------------------------- showing


def raw(data):
    """Bytes as a `raw` line, 32 to a line."""
    words = [f"{b:02X}" for b in data]
    rows = [" ".join(words[i : i + 32]) for i in range(0, len(words), 32)]
    return ("raw " + "\n    ".join(rows)).strip()


def shown_event(piece, names):
    """The words of one record of a trace, under a comment where it is no good record."""
    try:
        if is_too_long(piece, RECORD_MAX):
            raise Bad(f"a length above {RECORD_MAX}")
        if not is_whole(piece, RECORD_MAX):
            raise Bad("cut by the end")
        return take_record(piece, EVENTS, names)
    except Bad as e:
        return f"# no good record: {e}\n{raw(piece)}"


def shown_outputs(data, names):
    """Output records as lines."""
    lines = []
    for piece in frames(data):
        try:
            lines.append(take_record(piece, OUTPUTS, names) if is_whole(piece) else raw(piece))
        except Bad:
            lines.append(raw(piece))
    return lines


def dealt(outputs, answers):
    """Output bytes dealt out to events of so many answers each; the last gets what is left."""
    pieces, out, at = frames(outputs), [], 0
    for count in answers:
        now = b""
        while count and at < len(pieces):
            count -= is_answer(pieces[at])
            now += pieces[at]
            at += 1
        out.append(now)
    if out:
        out[-1] += b"".join(pieces[at:])
    return out


def shown(trace, outputs):
    """A script of a trace and its outputs; either may be None."""
    if trace or outputs is None:
        records = frames(trace, RECORD_MAX)
    else:
        records = [None] * max(1, sum(is_answer(p) for p in frames(outputs)))
    each = [None] * len(records) if outputs is None else dealt(outputs, [1] * len(records))
    names, parts = Inventing(), []
    for record, out in zip(records, each):
        lines = [] if record is None else [shown_event(record, names)]
        if out is not None:
            lines += [LINE] + shown_outputs(out, names)
        lines = [f"digest {n} 0x{names.given[n].hex()}" for n in names.new] + lines
        names.new.clear()
        parts.append("\n".join(lines) + "\n")
    return "\n".join(parts)


# ---------------------------------------------------------------- comparing and rewriting


def answers_of(pieces):
    """How many records end in each piece of a trace: as many answers belong there."""
    ends, at = [], 0
    for record in frames(b"".join(p.trace for p in pieces), RECORD_MAX):
        at += 2 if is_too_long(record, RECORD_MAX) else len(record)
        ends.append(at)
    counts, at = [], 0
    for p in pieces:
        counts.append(sum(at < end <= at + len(p.trace) for end in ends))
        at += len(p.trace)
    return counts


def difference(script, got):
    """The first event whose outputs are not those of the script, readably, or None."""
    pieces, at = play(script), 0
    for number, p in enumerate(pieces):
        want = p.expected(script)
        if got[at : at + len(want)] != want:
            have = dealt(got[at:], [1, 0])[0]
            return told(script, p, f"event {number} (from 0)", want, have)
        at += len(want)
    return told(script, pieces[-1], "after the last event", b"", got[at:]) if at < len(got) else None


def told(script, p, where, want, have):
    want, have = shown_outputs(want, p.names), shown_outputs(have, p.names)
    lines = [f"{script.name}:{p.line}: {where}: {p.words()}"]
    for op, a, b, c, d in difflib.SequenceMatcher(None, want, have, False).get_opcodes():
        lines += [f"    {x}" for x in want[a:b] if op == "equal"]
        lines += [f"  - {x}" for x in want[a:b] if op != "equal"]
        lines += [f"  + {x}" for x in have[c:d] if op != "equal"]
    return "\n".join(lines + ["  (- expected, + written by the program)"])


def rewritten(script, got):
    """The script's text with a program's outputs as expected parts, and a line for each that could not be written."""
    pieces, lines, left, new = play(script), list(script.lines), [], []
    looped = [part for item in script.items if isinstance(item, Loop) for part in item.parts]
    for p, have in zip(pieces, dealt(got, answers_of(pieces))):
        if is_expected(script, p, have):
            continue
        if p.part in looped:
            left.append(f"{script.name}:{p.line}: a part of a loop is not rewritten: {p.words()}")
        else:
            new.append((p.part.span, replaced(p.part, shown_outputs(have, p.names))))
    for span, text in reversed(new):
        lines[span[0] : span[1]] = text
    return "\n".join(lines) + "\n", left


def is_expected(script, p, have):
    """Whether the script says just these outputs; a script that says nothing good does not."""
    try:
        return p.part.outputs is not None and p.expected(script) == have
    except BadScript:
        return False


def replaced(part, have):
    """The lines of an expected part: those that stay as they were written, comments kept, the others new."""
    if part.outputs is None:
        return [LINE] + have
    old, out = part.outputs, []
    for op, a, b, c, d in difflib.SequenceMatcher(None, [x.text() for x in old], have, False).get_opcodes():
        for line in old[a:b]:
            out += line.comments + (line.written if op == "equal" else [])
        if op != "equal":
            out += have[c:d]
    return out + part.tail
