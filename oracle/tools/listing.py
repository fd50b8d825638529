"""The stored list: traces with the Rust's answers, in packs that the gate replays; and oracle/LIST.md, which says how
it was made.
"""

import hashlib
import os

import faults
import making
from comparing import Coverage, comparable, rust, shrunk
from traces import ROOT, pack, records_of, unpack

DATA = os.path.join(ROOT, "crates", "scenarios", "data")
PAPER = os.path.join(ROOT, "oracle", "LIST.md")
SUMS = os.path.join(ROOT, "oracle", "SOURCES.sha256")


def exhaustive(name):
    alphabet = making.alphabets()[name]
    letters = "; ".join(alphabet.letters)
    return f"all sequences of {alphabet.stored} of: {letters}", alphabet.traces(alphabet.stored)


def short(first, count, most):
    made = (making.Random(s).trace(1 + s % most) for s in range(first, first + count))
    return f"random, seeds {first} to {first + count - 1}, 1 to {most} events after START", list(made)


def long(first, count, least, most):
    traces, seed = [], first
    while len(traces) < count:
        trace = making.Random(seed).trace(most)
        if len(records_of(trace)) >= least:
            traces.append(trace)
        seed += 1
    return f"random, seeds {first} to {seed - 1}, those with {least} events or more, at most {most} after START", traces


def seen(first, count):
    """For each small fault of faults.txt the first of so many random traces that sees it, made small."""
    random = [making.random_trace(s) for s in range(first, first + count)]
    answers, traces = rust(random), []
    for name, model in faults.models():
        trace = next((t for t, a in zip(random, answers) if faults.sees(model, t, *a)), None)
        if trace is None:
            raise ValueError(f"no random trace sees: {name}")
        traces.append(shrunk(trace, lambda t, model=model: faults.sees(model, t, *rust([t])[0])))
    return f"for each fault of oracle/tools/faults.txt the first seed from {first} on that sees it, made small", traces


FAMILIES = {
    "oracle_one": lambda: exhaustive("one"),
    "oracle_four_chain": lambda: exhaustive("four_chain"),
    "oracle_four_votes": lambda: exhaustive("four_votes"),
    "oracle_faults": lambda: seen(0, 500),
    "oracle_random_short": lambda: short(100_000, 300, 12),
    "oracle_random_long": lambda: long(200_000, 9, 150, 200),
}


def cut(trace, outputs, code):
    """The trace as far as the Rust's answers reach in 01's form, and these."""
    events = comparable(outputs, code)
    return b"".join(records_of(trace)[: len(events)]) if code else trace, b"".join(events)


def stored():
    """The stored traces, each with its answers and code 0."""
    found = []
    for name in FAMILIES:
        packs = []
        for ending in ("traces", "answers"):
            with open(os.path.join(DATA, f"{name}.{ending}"), "rb") as f:
                packs.append(unpack(f.read()))
        found += zip(*packs)
    return [t for t, _ in found], [(a, 0) for _, a in found]


def made():
    """The files of the list and its paper."""
    files, rows, coverage = {}, [], Coverage()
    for name, family in FAMILIES.items():
        how, traces = family()
        answers = rust(traces)
        pairs = list(dict.fromkeys(cut(t, *a) for t, a in zip(traces, answers)))
        for trace, outputs in pairs:
            coverage.add(trace, outputs, 0)
        files[f"{name}.traces"] = pack(t for t, _ in pairs)
        files[f"{name}.answers"] = pack(a for _, a in pairs)
        rows.append((name, len(pairs), sum(len(records_of(t)) for t, _ in pairs), how))
    return files, paper(files, rows, coverage)


def paper(files, rows, coverage):
    with open(SUMS) as f:
        sources = f.read()
    out = ["# The stored list of the Rust's answers", "", INTRODUCTION, ""]
    out += ["| Pack | Traces | Events | What |", "|---|---|---|---|"]
    out += [f"| `{name}` | {traces} | {events} | {how} |" for name, traces, events, how in rows]
    out += ["", "What occurs in it:", "", *(f"    {line}" for line in coverage.lines()), ""]
    out += ["Sums (SHA-256) of the consensus sources that the oracle was built from:", ""]
    out += [f"    {line}" for line in sources.splitlines()] + ["", "Sums of the packs:", ""]
    out += [f"    {hashlib.sha256(data).hexdigest()}  {name}" for name, data in files.items()]
    return "\n".join(out) + "\n"


INTRODUCTION = """\
`crates/scenarios/data/oracle_*.traces` and `.answers`: the gate replays the traces through the proved code and compares
every byte, so it needs no Rust. The answers are those of the unchanged consensus sources of asonnino/hotstuff at
082d36d637 (`oracle --as-01`: the intended differences taken out, oracle/README.md). This page and the packs are written
by `oracle/run list`; `oracle/run list --check` makes them again and compares them byte for byte.

A pack holds for each trace a length of 4 bytes, little-endian, and its bytes; the outputs stand in the same order in
the pack of answers. Each trace begins anew. All sequences of a length hold the shorter ones as their beginnings. Equal
traces stand once.

A trace is cut where the Rust cannot be compared further:
- before the first event that 01 answers by 28 or 29, since the Rust has no such limits (18 and 30 never come from a
  trace);
- after the first event that 01 answers by 31: there the Rust walks on, and the states part;
- before an event in which the Rust panics and 01 has no number for it; after it, where 01 has one (a dead
  synchronizer's task: 2)."""


def write(check):
    files, text = made()
    wanted = {os.path.join(DATA, name): data for name, data in files.items()} | {PAPER: text.encode()}
    wrong = []
    for path, data in wanted.items():
        if check:
            with open(path, "rb") as f:
                wrong += [f"{os.path.relpath(path, ROOT)}: not what is made now"] if f.read() != data else []
        else:
            os.makedirs(os.path.dirname(path), exist_ok=True)
            with open(path, "wb") as f:
                f.write(data)
    size = sum(map(len, files.values()))
    print("\n".join(wrong) or f"{len(wanted)} files {'equal' if check else 'written'}, packs of {size} bytes")
    return 1 if wrong else 0
