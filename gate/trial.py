"""Tries the wrong bodies of one crate: the prover has to refuse each. One check tries many.

A wrong body is put into a copy of its function, with the same clauses and proofs, and the same check has to prove another copy, of the
function as it is. What can't be copied (a method of a trait, a function in a cycle of calls, what is outside of functions) is tried
alone, in place, and so is what a check leaves open because it doesn't compile or has a limit. The checks of a crate run one after
another, because each takes over what those before it have proved.

A check also proves what is called, which `rt ci` has done already, and which takes half of the time. So stand-ins take the place of these proofs
(stand_ins.py). What is left open over these is tried once more without them.
"""
import contextlib
import os
import re
import shutil
import subprocess
import tempfile

import kit
import stand_ins
from copies import Copy, copy_of, functions_at, path_of, texts_with
from edits import NoLongerApplies

# How many wrong bodies one check tries at most.
MOST = 24


class Tried:
    """What came of a wrong body: whether the prover refused it, and what it said."""

    def __init__(self, is_refused, why):
        self.is_refused, self.why = is_refused, why


class Body:
    """A wrong body, the functions in which it stands, and its copy where it can have one."""

    def __init__(self, edit, source):
        self.edit, self.pairs = edit, edit.pairs()
        self.functions = {it for file, old, _ in self.pairs for it in functions_at(source, file, old)}
        self.copy = copy_of(source, self.pairs, edit.name)

    def paths(self):
        """What a check has to look at for it, where it stands in its place: all, where that is outside of functions."""
        return {path_of(it) for it in self.functions} or {""}


class Trial:
    """The wrong bodies of a crate, and how they are checked."""

    def __init__(self, crate, edits):
        self.crate, self.source = crate, kit.source_of(crate)
        self.bodies, self.tried = [], {}
        for edit in edits:
            try:
                edit.texts()
                self.bodies.append(Body(edit, self.source))
            except NoLongerApplies as why:
                self.tried[edit] = Tried(False, f"NO LONGER APPLIES: {why}")

    def run(self):
        """What came of each wrong body. Those that have no copy, or are left open, come last; those that are left open over stand-ins
        are tried once more without these."""
        copied = sorted((it for it in self.bodies if it.copy), key=lambda it: (it.copy.function.file, it.copy.function.first))
        with self.kept() as kept:
            for stands_in in (True, False):
                left = [it for it in copied if it.edit not in self.tried]
                for at in range(0, len(left), MOST):
                    self.try_copies(left[at : at + MOST], kept, stands_in)
                if stands_in:
                    self.try_in_place([it for it in self.bodies if it.functions and not it.copy], kept, stands_in)
            self.try_in_place([it for it in self.bodies if it.edit not in self.tried], kept, False)
        return self.tried

    @contextlib.contextmanager
    def kept(self):
        """A folder for what checks of the crate keep, with what `rt check` has kept before on this machine."""
        with tempfile.TemporaryDirectory(prefix="wrong-kept-") as room:
            before = kit.kept_of(self.crate)
            if before:
                # Another checkout may be changing it: what is lost meanwhile is proved once more.
                with contextlib.suppress(OSError):
                    shutil.copytree(before, f"{room}/kept", copy_function=link_or_copy)
            os.makedirs(f"{room}/kept", exist_ok=True)
            yield f"{room}/kept"

    def try_copies(self, bodies, kept, stands_in):
        """Tries wrong bodies in copies. What is left open has to be tried again."""
        copies = [it.copy for it in bodies]
        unchanged = {it.function: Copy(it.function, f"{it.function.name}_as_it_is") for it in copies}
        copies += unchanged.values()
        ran = self.check({}, copies, {it.path for it in copies}, kept, self.source.functions if stands_in else ())
        lines = function_lines(ran.stdout)
        for it in bodies:
            refusal = refusal_of(lines, it.copy.path)
            if refusal and self.is_proved(lines, unchanged[it.copy.function].path):
                self.tried[it.edit] = Tried(True, refusal)

    def is_proved(self, lines, path):
        """Whether a check has proved the function at this path."""
        return any(name.endswith(f"::{path}") and stand_ins.is_proved(self.crate, words) for name, (words, _) in lines.items())

    def try_in_place(self, bodies, kept, stands_in):
        """Tries wrong bodies each in its place, once the functions are proved as they are."""
        if not bodies:
            return
        functions = {function for it in bodies for function in it.functions}
        others = [it for it in self.source.functions if it not in functions] if stands_in else ()
        ran = self.check({}, [], set().union(*(it.paths() for it in bodies)), kept, others)
        as_it_is = function_lines(ran.stdout).values()
        is_good = as_it_is and all(stand_ins.is_proved(self.crate, words) for words, _ in as_it_is) if stands_in else not ran.returncode
        for it in bodies:
            if is_good:
                self.take(it, self.check(it.edit.texts(), [], it.paths(), kept, others), stands_in)
            elif not stands_in:
                self.tried[it.edit] = Tried(False, f"NOT TRIED: the crate isn't proved as it is: {ran.stdout[-300:]}")

    def take(self, body, ran, stands_in):
        """Takes what came of a wrong body in its place. Over stand-ins only a refusal is an answer."""
        came = what_came_of(ran)
        if came.is_refused and ran.returncode == 1 or not stands_in:
            self.tried[body.edit] = came

    def check(self, texts, copies, paths, kept, others=()):
        """A check of the functions at these paths, with these texts and copies in the crate, and stand-ins for the proofs of other functions."""
        with tempfile.TemporaryDirectory(prefix="wrong-") as room:
            for part in kit.rtlib().PARTS:
                if os.path.isdir(f"{self.crate.folder}/{part}"):
                    shutil.copytree(f"{self.crate.folder}/{part}", f"{room}/{part}")
            for file, text in {**texts_with(self.source, copies), **texts}.items():
                with open(f"{room}/{file}", "w", encoding="utf-8") as it:
                    it.write(text)
            for it in copies:
                it.add_proofs(self.crate, room)
            stand_ins.write(self.crate, others, all(it in others for it in self.source.functions if it.in_cycle), room)
            only = [word for path in sorted(paths) for word in ("--only", path)] if "" not in paths else []
            words = [kit.rtlib().RATTLE, "check", *self.crate.words(["--jobs", "1", *only], keeps=False), "--incremental", kept]
            how = {"stdout": subprocess.PIPE, "stderr": subprocess.STDOUT, "text": True, "errors": "replace"}
            words += ["--allow-holes"] if others else []
            return subprocess.run(words, cwd=room, stdin=subprocess.DEVNULL, **how)


def link_or_copy(one, other):
    """A second name for what was proved, which a check replaces and doesn't change, and else a copy."""
    if one.endswith(".oantt"):
        with contextlib.suppress(OSError):
            return os.link(one, other)
    return shutil.copy2(one, other)


def what_came_of(ran):
    """Whether a wrong body was refused in its place, and for what."""
    refused = [note or words for words, note in function_lines(ran.stdout).values() if is_refusal(words)]
    if ran.returncode == 0:
        return Tried(False, "NOT REFUSED: all is proved with it")
    if ran.returncode == 1 and refused:
        return Tried(True, refused[0])
    if ran.returncode == 3:
        return Tried(True, "only by a limit of the prover")
    return Tried(False, "IT DIDN'T REACH THE PROVER: " + " ".join(ran.stdout.split())[:300])


def function_lines(said):
    """What a check printed of each function, and the first note above that line."""
    found, note = {}, ""
    for line in said.split("\n"):
        at = re.match(r"(?:note: )?(?:\./)?(src/\S+:\d+:\d+: .*|proofs/\S+:\d+:\d+: error.*)", line)
        if at:
            note = note or at[1]
        elif line.startswith("fn "):
            name, _, words = line[3:].partition(": ")
            found[name] = words, note
            note = ""
    return found


def is_refusal(words):
    """Whether a function is refused for its own body, and not only for what it calls."""
    return re.match("(no proof|not proved)(?!(: |; )it calls )", words) is not None


def refusal_of(lines, path):
    """For what the copy at this path was refused; nothing where it wasn't, or that isn't known."""
    found = [note or words for name, (words, note) in lines.items() if name.endswith(f"::{path}") and is_refusal(words)]
    return found[0] if found else None
