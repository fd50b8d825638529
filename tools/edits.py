"""Must-fail edits: what each changes, and what the prover refused of it, by the log of its check."""

import functools
import pathlib
import re

ROOT = pathlib.Path(__file__).resolve().parent.parent
FUNCTION = re.compile(r'(?:    )?(?:pub(?:\(crate\))? )?(?:extern "C" )?fn (\w+)')
PUBLIC = re.compile(r'^(?:    )?pub (?:extern "C" )?fn (\w+)', re.M)
OF_PROOF = re.compile(r'\S*?proofs/((?:[\w+]+/)+)(Answers|Invariants|Proof)\.antt:(\d+):\d+: error')
OF_LAW = re.compile(r'\S*?proofs/(\S+)\.antt:\d+:\d+: error: `([^`]+)`')
OF_SOURCE = re.compile(r'note: \S*?src/(\w+)\.rt:(\d+):\d+: it is not proved')
NO_PROOF = re.compile(r'fn \w+::((?:\w+::)*)(\w+): no proof: .*`search` did not prove')
# Said where a proof's text no longer fits the code, or cites what is refused elsewhere. (The last kind is no error: it
# says that a term is printed with names that its own place lacks.)
UNFIT = re.compile(r'was not admitted|was rejected|that can be named from here|has no field|is not in scope(?! here, so)')


@functools.lru_cache(maxsize=None)
def listed():
    """The crates of crates.txt in its order: the line of each, and the names of those that it stands on directly."""
    lines = {}
    for line in (ROOT / 'crates.txt').read_text().splitlines():
        head, _, deps = line.partition('#')[0].strip().partition(':')
        if head:
            lines[head.split()[0]] = (f'{head}:{deps}', deps.split())
    return {name: (line, [it for it in deps if it in lines]) for name, (line, deps) in lines.items()}


@functools.lru_cache(maxsize=None)
def below(crate):
    """The repository's crates that this one stands on, each after those that it stands on."""
    found = []
    for dep in listed()[crate][1]:
        found += [it for it in (*below(dep), dep) if it not in found]
    return found


def edits_of(crate):
    return sorted((ROOT / 'crates' / crate / 'must-fail').glob('*.edit'))


def log_of(crate, edit):
    return ROOT / 'target' / 'must-fail' / crate / f'{edit.stem}.log'


def pairs(crate, edit):
    """What an edit changes, in its order: the file, the number of the line, the old and the new text, which are one line
    each; and each of these files as it is then."""
    texts, out, source, old = {}, [], '', ''
    for line in edit.read_text().splitlines():
        if line.startswith('file: '):
            source = line.removeprefix('file: ').strip()
            texts.setdefault(source, (ROOT / 'crates' / crate / source).read_text())
        elif line.startswith('old: '):
            old = line.removeprefix('old: ')
        elif line.startswith('new:'):
            new = line.removeprefix('new:').removeprefix(' ')
            if texts[source].count(old) != 1:
                raise ValueError(f'{source} has {texts[source].count(old)} times: {old}')
            number = texts[source].partition(old)[0].count('\n') + 1
            texts[source] = texts[source].replace(old, new)
            out.append((source, number, old, new))
    return out, texts


@functools.lru_cache(maxsize=None)
def functions(crate, source):
    """The functions of a file in its order, each with the number of its first line, comments and attributes included. A method
    is one too, by its own name."""
    lines, found = (ROOT / 'crates' / crate / source).read_text().splitlines(), []
    for number, line in enumerate(lines, 1):
        match = FUNCTION.match(line)
        if match:
            start = number
            while start > 1 and lines[start - 2] and not lines[start - 2].startswith('}'):
                start -= 1
            found.append((start, match.group(1)))
    return found


def function_at(crate, source, number):
    """The module and name of the function that has this line of the file, or nothing."""
    names = [name for start, name in functions(crate, source) if start <= number]
    return (pathlib.Path(source).stem, names[-1]) if names else None


def public_functions(crate):
    """Yields module and name of each public function."""
    for path in sorted((ROOT / 'crates' / crate / 'src').glob('*.rt')):
        for name in PUBLIC.findall(path.read_text()):
            yield (path.stem, name)


def changed(crate, edit):
    """The functions whose code this edit changes, constants aside; none where the definition goes with it."""
    if 'in definition and code' in edit.read_text():
        return set()
    found = {function_at(crate, source, number) for source, number, old, _ in pairs(crate, edit)[0]
             if source.startswith('src/') and 'const ' not in old}
    return found - {None}


def cut_to(crate, edit, wanted):
    """The files that an edit changes, by their texts where it changes the code of these functions alone."""
    out = {}
    for source, text in pairs(crate, edit)[1].items():
        if source.startswith('src/'):
            was = (ROOT / 'crates' / crate / source).read_text().split('\n')
            kept = [new if function_at(crate, source, number) in wanted else old
                    for number, (old, new) in enumerate(zip(was, text.split('\n')), 1)]
            if kept != was:
                out[source] = '\n'.join(kept)
    return out


def closing_line(crate, proof):
    """The line of the last definition of a Proof.antt, which only puts the parts together."""
    lines = (ROOT / 'crates' / crate / 'proofs' / proof / 'Proof.antt').read_text().splitlines()
    starts = [n for n, line in enumerate(lines, 1) if re.match(r'pub [\w-]+[_-]spec :', line)]
    return starts[-1] if starts else len(lines) + 1


def messages(said):
    """The messages of a check that refuse a fact. One that another brings about is left out, and so is one that says only
    that the proof's text no longer fits the code."""
    out = []
    for line in said.splitlines():
        if line.startswith('  ') and out:
            out[-1] += '\n' + line
        else:
            out.append(line)
    return [it for it in out if not UNFIT.search(it)]


def module_of(crate, name):
    """A name, where it is that of a module; a function's may also be of a type, or its own."""
    return name if (ROOT / 'crates' / crate / 'src' / f'{name}.rt').is_file() else None


def refused(crate, said):
    """The functions of which a fact of their own does not hold, by what a check wrote."""
    top, out = 'lib' if (ROOT / 'crates' / crate / 'src' / 'lib.rt').is_file() else 'main', set()
    for it in messages(said):
        match = OF_PROOF.match(it)
        if match and (match.group(2) != 'Proof' or int(match.group(3)) < closing_line(crate, match.group(1))):
            parts = match.group(1).strip('/').split('/')
            out.add((module_of(crate, parts[0]) or top, parts[-1]))
        match = NO_PROOF.match(it)
        if match:
            out.add((module_of(crate, match.group(1).partition('::')[0]) or top, match.group(2)))
        match = OF_SOURCE.match(it)
        if match:
            out.add(function_at(crate, f'src/{match.group(1)}.rt', int(match.group(2))))
    return out - {None}


def broken(said):
    """File and name of each law whose own proof fails, by what a check wrote."""
    found = map(OF_LAW.match, messages(said))
    return {it.groups() for it in found if it}


def places_said(edit):
    """Where the edit says that its definitions are refused, and how many definitions it changes."""
    places, definitions, source = [], 0, ''
    for line in edit.read_text().splitlines():
        if line.startswith('file: '):
            source = line.removeprefix('file: ').strip()
        definitions += line.startswith('new:') and source.startswith('specs/')
        if line.startswith('# refused at: '):
            places.append(tuple(line.removeprefix('# refused at: ').split(' ')))
    return places, definitions
