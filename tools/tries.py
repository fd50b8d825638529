"""Tries must-fail edits, and keeps what the prover writes of each: target/must-fail/CRATE/EDIT.log.

All is done over copies in a folder among the temporary files: first each crate as it stands, those
below it first, and then each of its edits, over a copy of what that check kept.

The prover does not look at a function's goals while one that it calls is not proved, unless the proof
has written answers to them. So where an edit changes both and the caller is not refused, the check is
made again with the changes of those functions alone that were not refused yet, until all are or
nothing new is refused. What each check wrote stands in the log, one behind the other.

A log begins with a checksum of all that its checks read: the kit, the edit, and the line of crates.txt,
src/, specs/ and proofs/ of the crate and of those below it. While that stays the edit is not tried again.
"""

import concurrent.futures
import contextlib
import fcntl
import functools
import hashlib
import os
import pathlib
import re
import shutil
import subprocess
import tempfile

from edits import ROOT, below, changed, cut_to, edits_of, listed, log_of, pairs, refused

PARTS = ('src', 'specs', 'proofs')
# The memory that a check may take, in KB.
MEMORY = 3 << 20


@functools.lru_cache(maxsize=None)
def kit():
    how = {'stdin': subprocess.DEVNULL, 'stdout': subprocess.PIPE, 'check': True}
    return subprocess.run(['rt', 'version'], **how).stdout


def heading(crate, edit):
    """The first line of an edit's log while nothing changes that its checks read, or that reads what they wrote."""
    made = hashlib.sha256(kit())
    for name in (*below(crate), crate):
        made.update(listed()[name][0].encode())
        found = [it for part in PARTS for it in sorted((ROOT / 'crates' / name / part).rglob('*')) if it.is_file()]
        for path in found:
            made.update(repr((str(path.relative_to(ROOT)), path.read_bytes())).encode())
    for path in (edit, ROOT / 'tools' / 'edits.py'):
        made.update(path.read_bytes())
    return f'# {made.hexdigest()}'


def is_tried(crate, edit):
    log = log_of(crate, edit)
    return log.is_file() and log.read_text(errors='replace').partition('\n')[0] == heading(crate, edit)


def copy_kept(one, other, endings):
    """Copies what a check kept, the files with these endings by links: a check removes such a file before it makes
    it anew, and writes into none."""
    def copy(source, to):
        if source.endswith(endings):
            os.link(source, to)
        else:
            shutil.copy2(source, to)
    shutil.copytree(one, other, copy_function=copy)


def lay_out(folder, room, crate, own=None):
    """Makes a repository of a crate and those below it, these with the libraries that were built in their own
    rooms, and the crate with what its check kept in the room own."""
    for name in (*below(crate), crate):
        to = folder / 'crates' / name
        for part in PARTS:
            if (ROOT / 'crates' / name / part).is_dir():
                shutil.copytree(ROOT / 'crates' / name / part, to / part)
        if name != crate:
            copy_kept(room / name / 'crates' / name / 'out' / 'rlib', to / 'out' / 'rlib', '')
        elif own:
            copy_kept(own / 'crates' / name / 'out' / 'incremental', to / 'out' / 'incremental', '.oantt')
    (folder / 'crates.txt').write_text(''.join(f'{listed()[name][0]}\n' for name in (*below(crate), crate)))
    if (ROOT / 'HANDLES').is_file():
        shutil.copy(ROOT / 'HANDLES', folder / 'HANDLES')


def rt(folder, crate, *words):
    """Calls rt in the crate's folder, once more where that gives no verdict, as when it was killed for memory; whether
    the crate is proved, or None, and what was written."""
    how = {'stdin': subprocess.DEVNULL, 'stdout': subprocess.PIPE, 'stderr': subprocess.STDOUT}
    for _ in range(2):
        ran = subprocess.run(['rt', *words], cwd=folder / 'crates' / crate, text=True, errors='replace', **how)
        if ran.returncode == 0:
            return True, ran.stdout
        if ran.returncode == 1 and '\nlogic=not-proved' in ran.stdout:
            return False, ran.stdout
        if ran.returncode < 0:
            break
    return None, ran.stdout


def prove(room, crate, is_used, jobs):
    """Checks a crate as it stands, in a room of its own; the end of what was written where that fails, or nothing."""
    lay_out(room / crate, room, crate)
    is_library = (ROOT / 'crates' / crate / 'src' / 'lib.rt').is_file()
    verb = 'lib' if is_used and is_library else 'check'
    is_proved, said = rt(room / crate, crate, verb, '--jobs', str(jobs))
    return '' if is_proved else said[-2000:]


def check_with(room, crate, texts):
    """Checks a crate with these texts of its files, over what its own check kept; whether it is proved, or None, and
    what was written."""
    with tempfile.TemporaryDirectory(prefix=f'{crate}-', dir=room) as folder:
        folder = pathlib.Path(folder)
        lay_out(folder, room, crate, room / crate)
        for source, text in texts.items():
            (folder / 'crates' / crate / source).write_text(text)
        return rt(folder, crate, 'check', '--jobs', '1')


def try_edit(room, crate, edit, first):
    """Tries an edit and writes its log with this first line; why it could not, or nothing."""
    try:
        texts, left = pairs(crate, edit)[1], changed(crate, edit)
    except (OSError, ValueError) as error:
        return f'it cannot be applied: {error}'
    log = [first]
    while texts:
        is_proved, said = check_with(room, crate, texts)
        log.append(said)
        if is_proved is None:
            return f'its check gave no verdict:\n{said[-2000:]}'
        found, is_first, texts = left & refused(crate, said), len(log) == 2, {}
        left = left - found
        if left and (found or is_first):
            texts = cut_to(crate, edit, left)
            log.append(f'# With the changes of {", ".join("::".join(it) for it in sorted(left))} alone.')
    if heading(crate, edit) != first:
        return 'files changed while it was tried: run this again'
    place = log_of(crate, edit)
    place.parent.mkdir(parents=True, exist_ok=True)
    place.with_suffix('.new').write_text('\n'.join(log))
    place.with_suffix('.new').replace(place)
    return ''


def lanes():
    """How many checks may run side by side."""
    asked = os.environ.get('RT_JOBS', '')
    if asked.isdigit() and int(asked):
        return int(asked)
    free = re.search(r'MemAvailable:\s+(\d+)', pathlib.Path('/proc/meminfo').read_text())
    return max(1, min(len(os.sched_getaffinity(0)), int(free.group(1)) // MEMORY))


def side_by_side(proofs, trials):
    """Runs proofs, and trials in the lanes that these leave free, each once the proofs that it waits for have ended,
    and returns what each gave. Either is the keys that it waits for and a call that gets what was given and how many
    jobs it may use: one, but for a proof where fewer are to run than there are lanes."""
    most, given, running, left = lanes(), {}, {}, {**proofs, **trials}
    with concurrent.futures.ThreadPoolExecutor(most) as pool:
        while left or running:
            ready = [key for key, (waits, _) in left.items() if all(it in given for it in waits)]
            of_proofs, idle = sum(key in proofs for key in ready), most - sum(jobs for _, jobs in running.values())
            for at, key in enumerate(ready):
                if idle > 0:
                    jobs = max(1, idle // (of_proofs - at)) if key in proofs else 1
                    running[pool.submit(left.pop(key)[1], given, jobs)] = key, jobs
                    idle -= jobs
            for it in concurrent.futures.wait(running, return_when='FIRST_COMPLETED').done:
                given[running.pop(it)[0]] = it.result()
    return given


def sweep():
    """Removes what runs that were killed left among the temporary files."""
    for room in pathlib.Path(tempfile.gettempdir()).glob(f'refusals-{os.getuid()}-*'):
        if room.is_dir():
            with contextlib.suppress(OSError), open(f'{room}.lock', 'w') as lock:
                fcntl.flock(lock, fcntl.LOCK_EX | fcntl.LOCK_NB)
                shutil.rmtree(room, ignore_errors=True)


def try_all(crates):
    """Tries the edits of these crates that have no log of what stands here, and returns why others were not tried."""
    lacking = [(crate, edit) for crate in crates for edit in edits_of(crate) if not is_tried(crate, edit)]
    if not lacking:
        return []
    # (the same place each time, so that rt's notes of where work is kept do not grow with each run)
    of = hashlib.sha256(str(ROOT).encode()).hexdigest()[:12]
    sweep()
    room = pathlib.Path(tempfile.gettempdir()) / f'refusals-{os.getuid()}-{of}'
    with open(f'{room}.lock', 'w') as lock:
        fcntl.flock(lock, fcntl.LOCK_EX)
        shutil.rmtree(room, ignore_errors=True)
        room.mkdir(mode=0o700)
        try:
            return try_in(room, lacking)
        finally:
            shutil.rmtree(room, ignore_errors=True)


def try_in(room, lacking):
    used = {it for crate, _ in lacking for it in below(crate)}
    needed = used | {crate for crate, _ in lacking}

    def proof(crate, given, jobs):
        failed = [it for it in below(crate) if given[it]]
        said = f'{failed[0]} is not proved as it stands' if failed else prove(room, crate, crate in used, jobs)
        print(f'{crate}: {"NOT PROVED as it stands" if said else "proved as it stands"}', flush=True)
        return said

    firsts = {it: heading(*it) for it in lacking}

    def trial(crate, edit, given, _):
        why = f'{crate} is not proved as it stands'
        why = why if given[crate] else try_edit(room, crate, edit, firsts[crate, edit])
        print(f'{crate}/{edit.stem}: {"NOT TRIED" if why else "tried"}', flush=True)
        return f'{crate}/{edit.stem}: not tried: {why}' if why else ''

    above = {crate: sum(crate in below(it) for it in needed) for crate in needed}
    order = sorted(needed, key=lambda crate: -above[crate])
    given = side_by_side(
        {crate: (below(crate), functools.partial(proof, crate)) for crate in order},
        {(crate, edit): ([crate], functools.partial(trial, crate, edit)) for crate, edit in lacking})
    out = [f'{crate}: not proved as it stands: {given[crate]}' for crate in order if given[crate]]
    return out + [given[it] for it in lacking if given[it]]
