"""Which wrong bodies don't compile, so that no contract is tried: by the compiler's front end over the sources of all crates. Nothing is
proved.

They stand in copies of their functions, as in a trial, and are read at once. What can't be copied is put in its place, one wrong body of a
function at a time.
"""
import pathlib
import re
import shutil
import subprocess
import sys
import tempfile

from breaks import CRATES, front_end
from copies import texts_with

# What the front end says last, of the probe of `breaks.py`.
LAST = re.compile(r"\Asrc/lib\.rt:\S+ error\[borrow-e0597\]")
ERROR = re.compile(r"^\S*?/crates/(\w+)/(src/\S+):(\d+):\d+: (error.*)", re.M)
# How many errors are looked for: each takes a run.
MOST = 8


def uncompiled(trials):
    """Each wrong body of these trials that doesn't compile, and the error."""
    bodies = [it for trial in trials for it in trial.bodies]
    sources = {it.crate.name: it.source for it in trials}
    found = list(refused([it for it in bodies if it.copy], sources))
    for group in groups_of([it for it in bodies if not it.copy]):
        found += refused(group, sources)
    return found


def groups_of(bodies):
    """The wrong bodies in groups, in each of which a function has one at most."""
    groups = []
    for body in bodies:
        where = {(body.edit.crate, it.file, it.first) for it in body.functions} or {(body.edit.crate, it[0], None) for it in body.pairs}
        for taken, group in groups:
            if not taken & where:
                taken |= where
                group.append(body)
                break
        else:
            groups.append((where, [body]))
    return [group for _, group in groups]


def refused(bodies, sources):
    """Each of these that doesn't compile beside the others, and the error."""
    left = list(bodies)
    for _ in range(MOST):
        found = first_error(left, sources)
        if not found:
            return
        body, error = found
        yield body, error
        left.remove(body)


def first_error(bodies, sources):
    """The first wrong body at which the front end stops, and the error."""
    with tempfile.TemporaryDirectory(prefix="wrong-compiled-") as room:
        top = pathlib.Path(room)
        shutil.copytree(CRATES, top / "crates", ignore=shutil.ignore_patterns("out", "must-fail", "proofs"))
        texts = texts_of(bodies, sources)
        for (crate, file), text in texts.items():
            (top / "crates" / crate / file).write_text(text, encoding="utf-8")
        call = front_end(top)
        how = {"stdout": subprocess.PIPE, "stderr": subprocess.STDOUT, "text": True, "errors": "replace"}
        said = subprocess.run(call, cwd=top / "probe", stdin=subprocess.DEVNULL, **how).stdout
    if LAST.search(said):
        return None
    at = ERROR.search(said)
    near = at and nearest(bodies, sources, texts, at[1], at[2], int(at[3]))
    return (near, at[4]) if near else sys.exit(f"gate/wrong: the crates don't compile with wrong bodies in them:\n{said[-2000:]}")


def texts_of(bodies, sources):
    """The files with these wrong bodies, in copies or in their places, by crate and name."""
    texts = {}
    for crate, source in sources.items():
        own = [it for it in bodies if it.edit.crate == crate]
        texts |= {(crate, file): text for file, text in texts_with(source, [it.copy for it in own if it.copy]).items()}
        for file, old, new in (pair for it in own if not it.copy for pair in it.pairs):
            before = texts.get((crate, file)) or source.data[file].decode()
            texts[crate, file] = before.replace(old, new, 1)
    return texts


def nearest(bodies, sources, texts, crate, file, line):
    """The wrong body of this crate's file that begins last before the end of this line."""
    text = texts.get((crate, file), "")
    end = sum(len(it) + 1 for it in text.split("\n")[:line])

    def begins(body):
        parts = [body.copy.text(sources[crate])] if body.copy else [new for _, _, new in body.pairs if new]
        return max((at for at in map(text.find, parts) if at < end), default=-1)

    own = [it for it in bodies if it.edit.crate == crate and any(file == it for it, _, _ in it.pairs)]
    return max(own, key=begins, default=None)
