"""Do traces see small faults? Each of faults.txt is put into 01's text, and compared with the Rust's answers.

`models` gives the faulty texts, `sees` says whether a trace tells one from the Rust, `run` counts over many traces.
"""

import os
import types

from comparing import first_difference, rust

HERE = os.path.dirname(os.path.abspath(__file__))


def texts():
    """The name of each fault, and 01's text with it."""
    with open(os.path.join(HERE, "model01.py")) as f:
        source = "\n" + f.read()
    with open(os.path.join(HERE, "faults.txt")) as f:
        parts = f.read().strip().split("\n\n")
    for part in parts[1:]:
        name, *lines = part.split("\n")
        old, new = ("".join(f"\n{x[1:]}" for x in lines if x[0] == mark) for mark in "-+")
        if source.count(old + "\n") != 1:
            raise ValueError(f"{name}: not once in model01.py")
        yield name.removeprefix("fault "), source.replace(old + "\n", new + "\n")


def models():
    """The name of each fault, and the text with it as a function from a trace to outputs."""
    for name, source in texts():
        module = types.ModuleType("fault")
        exec(compile(source, name, "exec"), module.__dict__)
        yield name, module.run


def sees(model, trace, outputs, code):
    try:
        return first_difference(outputs, code, model(trace))[0] is not None
    except (LookupError, ValueError, TypeError):
        return True


def run(traces, answers=None):
    answers, counts = answers or rust(traces), []
    for name, model in models():
        counts.append(sum(sees(model, trace, *answer) for trace, answer in zip(traces, answers)))
        print(f"{counts[-1]:6} of {len(traces)} traces see: {name}")
    print(f"{len(counts)} faults, {counts.count(0)} not seen")
    return 1 if 0 in counts else 0
