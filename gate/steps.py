"""Steps that run side by side, on as many processors as there are, each after those that it follows have passed."""
import concurrent.futures
import os
import pathlib
import re
import subprocess
import sys
import time
import typing

# How a step's output counts what passed and what failed: each pattern's groups are these two.
COUNTS = (
    re.compile(r"(\d+) passed[,;] (\d+) failed"),
    re.compile(r"^Ran (\d+) tests?\b()", re.M),
)

# A comparison that passed, of a script that stops at the first that doesn't.
COMPARED = re.compile(r" printed what is expected$", re.M)


TOP = pathlib.Path(__file__).resolve().parent.parent


class Step(typing.NamedTuple):
    """A command of the gate, run at the top of the repository."""

    name: str
    words: tuple
    after: tuple = ()
    environment: dict = {}


class Outcome(typing.NamedTuple):
    """What came of a step."""

    passed: int
    failed: int
    log: str


def counted(status, log):
    """How many checks passed and failed, where a step counts none itself it is one."""
    found = [it.groups() for pattern in COUNTS for it in pattern.finditer(log)]
    passed, failed = (sum(int(it[at] or 0) for it in found) for at in (0, 1))
    passed += len(COMPARED.findall(log))
    if status and not failed:
        return passed, 1
    return max(passed, 0 if failed else 1), failed


def run(step, top):
    """Runs a step to its end."""
    environment = {**os.environ, **step.environment}
    ran = subprocess.run(
        step.words, cwd=top, env=environment, stdin=subprocess.DEVNULL, stdout=subprocess.PIPE, stderr=subprocess.STDOUT
    )
    log = ran.stdout.decode(errors="replace")
    return Outcome(*counted(ran.returncode, log), log)


def report(name, outcome, seconds):
    """A line for each step, and its log where it failed."""
    if outcome.failed:
        print(f"{outcome.log.rstrip()}\n", file=sys.stderr)
    print(f"{'FAILED' if outcome.failed else 'passed'} {seconds:4.0f} s  {name}", flush=True)


def run_all(steps, top):
    """Runs the steps, the first that are ready first, and returns how many checks passed and failed."""
    outcomes, waiting = {}, list(steps)
    processors = len(os.sched_getaffinity(0))
    with concurrent.futures.ThreadPoolExecutor(processors) as pool:
        running = {}
        while waiting or running:
            refuse_after_failures(waiting, outcomes)
            ready = [it for it in waiting if all(name in outcomes for name in it.after)]
            for step in ready[: processors - len(running)]:
                waiting.remove(step)
                running[pool.submit(run, step, top)] = step, time.monotonic()
            done, _ = concurrent.futures.wait(running, return_when=concurrent.futures.FIRST_COMPLETED)
            for future in done:
                step, began = running.pop(future)
                outcomes[step.name] = future.result()
                report(step.name, outcomes[step.name], time.monotonic() - began)
    return sum(it.passed for it in outcomes.values()), sum(it.failed for it in outcomes.values())


def refuse_after_failures(waiting, outcomes):
    """Counts as failed what follows a failed step."""
    for step in list(waiting):
        before = [it for it in step.after if it in outcomes and outcomes[it].failed]
        if before:
            waiting.remove(step)
            outcomes[step.name] = Outcome(0, 1, f"{step.name} is not run, as this failed: {before[0]}")
            report(step.name, outcomes[step.name], 0)


def chosen(all_steps, words):
    """The steps that have one of the words in their names, or all if there is no word, and those that they follow."""
    known = {it.name: it for it in all_steps}
    asked = [it.name for it in all_steps if not words or any(word in it.name for word in words)]
    for name in asked:
        asked += [it for it in known[name].after if it not in asked]
    return [it for it in all_steps if it.name in asked]


def main(script, all_steps, note):
    """Runs the steps that the script's arguments name, and counts. Returns the status."""
    began = time.monotonic()
    asked = chosen(all_steps, sys.argv[1:])
    if not asked:
        sys.exit(f"{script}: no step has a name with {' or '.join(sys.argv[1:])}")
    passed, failed = run_all(asked, TOP)
    print(f"{script}: {len(asked)} steps in {time.monotonic() - began:.0f} s, {note}")
    print(f"{passed} passed, {failed} failed")
    return 1 if failed else 0
