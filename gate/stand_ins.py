"""Stand-ins for the proofs of functions: with these a check of what calls them rests on what they state, and doesn't prove them again.

`rt ci` has proved each of them. All stand-ins rest on one hole, which a check with `--allow-holes` takes for what each function states.
"""
import os
import shutil

HOLE = """pub anything : {A : Type 2} → A
anything = ?
"""
STAND_IN = """use Rattle.{crate}.proofs.StandIn.{{anything}}
use Rattle.{crate}.proofs.{module}.{{statement}}

pub {name}_spec : {{M : Type 1}} → statement M
{name}_spec = anything
"""


def write(crate, functions, with_cycles, folder):
    """Puts a stand-in in place of the proof of each of these functions that can have one, and of each cycle of calls if these are asked for,
    in a copy of the crate."""
    if not functions:
        return
    os.makedirs(f"{folder}/proofs", exist_ok=True)
    with open(f"{folder}/proofs/Lib.antt", "a", encoding="utf-8") as it:
        it.write("\nmod StandIn\n")
    with open(f"{folder}/proofs/StandIn.antt", "w", encoding="utf-8") as it:
        it.write(HOLE)
    for parts in cycles_in(folder) if with_cycles else []:
        write_one(crate, parts, parts, folder)
    for it in functions:
        # The functions of a cycle have one proof, and a method of a trait has another path.
        if not it.in_trait and not it.in_cycle:
            parts = [*it.module, *[it.owner] * bool(it.block), it.name]
            write_one(crate, parts, [*parts, "Statement"], folder)


def cycles_in(folder):
    """Where the proofs of cycles are: their folders have names that begin with a plus sign."""
    top = f"{folder}/proofs"
    return [os.path.relpath(f"{at}/{it}", top).split("/") for at, names, _ in os.walk(top) for it in names if it.startswith("+")]


def write_one(crate, parts, module, folder):
    """Puts a stand-in in place of the proof at this path; the module has the statement."""
    here = "/".join([folder, "proofs", *parts])
    shutil.rmtree(here, ignore_errors=True)
    os.makedirs(here)
    with open(f"{here}/Proof.antt", "w", encoding="utf-8") as it:
        it.write(STAND_IN.format(crate=crate.name, module=".".join(module), name=parts[-1]))


def is_proved(crate, words):
    """Whether a function is proved, or would be but for stand-ins, by what a check says of it."""
    return words in ("proved", "no holes", f"depends on a hole in `Rattle.{crate.name}.proofs.StandIn.anything`")
