"""docs/BESIDE.md: scenarios run by this port and by the Rust, side by side.

The scripts are those of tests/scenarios that PARTS names. A script whose opening comment says `--raw` is given to the
Rust with that option. One more, oracle/absent_ancestor.txt, is for the Rust alone.
"""

import difflib
import os
import re

from comparing import ORACLE, pieces_without, rust, rust_notes
from scripts import Loop, Script, play, shown_outputs
from traces import PANIC, ROOT, events_of, frames, kind_of

WRAP = ORACLE + "-wrap"  # without overflow checks, as a release build of the Rust
SCENARIOS = os.path.join(ROOT, "tests", "scenarios")
ABSENT = os.path.join(ROOT, "oracle", "absent_ancestor.txt")
PAGE = os.path.join(ROOT, "docs", "BESIDE.md")
FORGET = 0x00F1  # the oracle's own event
UNTOLD = ("read", "round ", "logged: ", "the walk ", "the payload waiter")
ASIDE = re.compile(r"\((TIMEOUT|TC) to ")  # where a record goes is no difference


class Scenario:
    def __init__(self, path):
        with open(path) as f:
            self.script = Script(os.path.relpath(path, ROOT), f.read())
        self.name = os.path.splitext(os.path.basename(path))[0]
        lines = self.script.lines
        comments = lines[: next(i for i, line in enumerate(lines) if not line.startswith("#"))]
        self.words = " ".join(line.lstrip("# ") for line in comments)
        self.options = ("--raw",) if "--raw" in self.words else ()
        self.pieces = play(self.script)
        self.names = self.pieces[-1].names
        self.records = [p.trace for p in self.pieces]
        self.looped = [part for item in self.script.items if isinstance(item, Loop) for part in item.parts]

    def expected(self):
        return [p.expected(self.script) for p in self.pieces]

    def words_of(self, piece):
        if kind_of(piece.trace) == FORGET:
            return f"FORGET {self.names.name_of(piece.trace[4:])}"
        return piece.words()


def lines_of(event, names):
    """The outputs of an event as lines; what 01 has no record for in words."""
    out = []
    for record in frames(event):
        if kind_of(record) == PANIC:
            out.append("panics: " + record[4:].decode(errors="replace"))
        else:
            out += [line.replace("COMMIT 0 ", "COMMIT genesis ") for line in shown_outputs(record, names)]
    return out


def readable(note, names):
    """A note with its digests by name."""
    return re.sub(r"\b[0-9a-f]{64}\b", lambda m: names.name_of(bytes.fromhex(m[0])), note)


def rust_lines(scenario, records, program=ORACLE):
    """What the Rust does for each event: its outputs, and in brackets what has no record."""
    trace, options = b"".join(records), ("--rust", *scenario.options)
    notes = rust_notes(trace, *options, program=program)
    events = events_of(rust([trace], *options, program=program)[0][0])
    out = []
    for told, event in zip(notes, events):
        said = lines_of(event, scenario.names)
        told = [f"({readable(n, scenario.names)})" for n in told if not n.startswith(UNTOLD) and n not in said[-1]]
        out.append(said[:-1] + told + said[-1:])
    return out + [["(its core has ended)"]] * (len(records) - len(events))


def delivered(lines):
    return [line.split()[1] for event in lines for line in event if line.startswith("COMMIT ")]


def parted(here, there):
    """The places of the lines that two lists do not have in common in this order."""
    kept = [i for i, line in enumerate(there) if not ASIDE.match(line)]
    codes = difflib.SequenceMatcher(None, here, [there[i] for i in kept], False).get_opcodes()
    changed = [x for x in codes if x[0] != "equal"]
    return [i for _, a, b, _, _ in changed for i in range(a, b)], [kept[i] for *_, c, d in changed for i in range(c, d)]


def smallest(scenario, port):
    """Whether no event can be left out without the difference in the last event going away or becoming another."""

    def shows(records):
        here = lines_of(events_of(port(b"".join(records)))[-1], scenario.names)
        there = rust_lines(scenario, records)[-1]
        left, right = parted(here, there)
        return [here[i] for i in left], [there[i] for i in right]

    whole, last = shows(scenario.records), scenario.records[-1:]
    return all(shows(shorter + last) != whole for shorter in pieces_without(scenario.records[:-1], 1))


# ---------------------------------------------------------------- the page


def cell(lines, marked=()):
    """Lines in a cell of a table, those at the places `marked` bold."""
    lines = [line.replace("|", "\\|") for line in lines]
    return "<br>".join(f"**{line}**" if i in marked else line for i, line in enumerate(lines)) or " "


def beside(mine, theirs):
    """Two cells: what is here, what the Rust does."""
    left, right = parted(mine, theirs)
    if left or right:
        return cell(mine, left), cell(theirs, right)
    return cell(mine), cell(["the same"] + [line for line in theirs if ASIDE.match(line)])


def section(scenario, port):
    """A scenario's table; with a port it is tried whether an event can be left out."""
    programs = [("The Rust", ORACLE)] + [("The Rust, release build", WRAP)] * ("release build" in scenario.words)
    here = [lines_of(e, scenario.names) for e in scenario.expected()]
    runs = [rust_lines(scenario, scenario.records, program) for _, program in programs]
    out = [f"### {scenario.name}", "", scenario.words, ""]
    out += ["| " + " | ".join(["Event", "Here"] + [title for title, _ in programs]) + " |"]
    out += ["|---" * (2 + len(programs)) + "|"]
    equal = 0
    for at, (piece, mine) in enumerate(zip(scenario.pieces, here)):
        if piece.part in scenario.looped and all(not any(parted(mine, run[at])) for run in runs):
            equal += 1
            continue
        if equal:
            out.append(f"| {equal} events | | the same |")
            equal = 0
        cells = [beside(mine, run[at]) for run in runs]
        out.append("| " + " | ".join([scenario.words_of(piece), cells[0][0]] + [c[1] for c in cells]) + " |")
    there = runs[0]
    ours, theirs = delivered(here), delivered(there)
    if ours or theirs:
        out += ["", f"Delivered here: {', '.join(ours) or 'nothing'}. By the Rust: {', '.join(theirs) or 'nothing'}."]
    if port and any(parted(here[-1], there[-1])):
        out += ["", SMALL if smallest(scenario, port) else NOT_SMALL]
    return out + [""]


def absent():
    """The Rust alone, where an ancestor is taken out of its store."""
    scenario = Scenario(ABSENT)
    out = ["### absent_ancestor", "", scenario.words, "", "| Event | The Rust |", "|---|---|"]
    for piece, theirs in zip(scenario.pieces, rust_lines(scenario, scenario.records)):
        out.append(f"| {scenario.words_of(piece)} | {cell(theirs)} |")
    return out + [""]


SMALL = "No event can be left out."
NOT_SMALL = "**An event can be left out.**"
INTRODUCTION = """\
# The Rust beside this port

Written by `oracle/run differences`; `--check` says whether the runs still give this page. The left column is what the
scripts in tests/scenarios expect, which the gate compares with the proved code byte for byte. The right column is the
unchanged Rust at 082d36d637 on the same trace (`oracle --rust`): its outputs in 01's records, and in brackets what it
does that 01 has no record for. What differs is bold. "No event can be left out": without any one of them the last event
shows no such difference (tried). What each difference means and why it is there: docs/DIFFERENCES.md."""

# The beginnings of the scripts' names, the title, and whether a script is the smallest of its kind.
STORY = ("shunt", "commit_genesis_never", "commit_old_block_not_again", "commit_oldest_first")
PARTS = (
    (STORY, "The shunt's story", False),
    (("difference_", "commit_chain_of_three"), "Between the Rust and 01", True),
    (("paper_",), "Between the Rust and the Jolteon paper: the Rust and this port do the same", False),
)


def page(port):
    out, wrong = INTRODUCTION.split("\n") + [""], []
    for starts, title, small in PARTS:
        out += [f"## {title}", ""]
        scripts = [name for name in os.listdir(SCENARIOS) if name.endswith(".txt")]
        for name in sorted(scripts, key=lambda name: (not name.startswith("shunt"), name)):
            if not name.startswith(starts):
                continue
            scenario = Scenario(os.path.join(SCENARIOS, name))
            if port(b"".join(scenario.records)) != b"".join(scenario.expected()):
                wrong.append(f"{scenario.script.name}: the port writes something else")
            part = section(scenario, port if small else None)
            wrong += [f"{scenario.script.name}: an event can be left out"] if NOT_SMALL in part else []
            out += part
        if small:
            out += absent()
    return "\n".join(out).rstrip() + "\n", wrong


def write(port, check):
    text, wrong = page(port)
    if check:
        with open(PAGE) as f:
            wrong += ["docs/BESIDE.md: not what the runs give"] if f.read() != text else []
    else:
        with open(PAGE, "w") as f:
            f.write(text)
    print("\n".join(wrong) or f"docs/BESIDE.md {'equal' if check else 'written'}")
    return 1 if wrong else 0
