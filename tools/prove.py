#!/usr/bin/env python3
"""Proves the crates below a program side by side, and builds and runs the program.

    python3 tools/prove.py [PROGRAM]        the program cherisim, if none is named

Of the crates that stand on built libraries alone, the one with the longest chain of others above it goes first, and it gets the processors
that no other such crate wants; where that chain is the longest of all that is left, it gets four jobs and goes before the others, which use
what it leaves. What a crate's check says stands in crates/NAME/out/proved.log. Interrupted, it goes on where it stood: a library that is
built is not built again, and what a check kept is taken.

It calls the toolchain's own rt and its library, of which no version is promised: where they are not as they are here, `rt run` proves one
crate after the other.
"""
import concurrent.futures as futures
import importlib.machinery
import importlib.util
import os
import subprocess
import sys
import threading
import time

from toolchain import ROOT, folder_of, kit

# Seconds of processor time that a crate's check takes from nothing (others some 20): they order the crates, and tell how much is left.
SECONDS = {name: int(seconds) for name, seconds in (line.split() for line in """
commands 330
program 120
debugger 467
sim_run 200
origins 221
origin_texts 210
policy_audit 195
hart 700
policy 190
hints 120
always 40
command_line 270
every_run 137
every_run_texts 90
explain 136
policy_runs 110
past 84
assembler 84
machine 74
debug_commands 74
reach_texts 72
asm_lines 72
doors 60
reach 54
policy_text 53
schedules 50
image 48
breach_texts 47
fault_details 41
isa_rows 37
asm_names 37
symbols 32
""".split("\n") if line)}
OTHERS = 20

# The most jobs that gain something for one crate.
MOST_JOBS = 4

# How nice a crate is to the one on which all others wait.
NICE = 10


def seconds(crate):
    return SECONDS.get(crate.name, OTHERS)


def toolchain():
    """The toolchain's rt, whose library knows of crates how they are proved."""
    loader = importlib.machinery.SourceFileLoader("rt", os.path.join(kit(), "bin", "rt"))
    made = importlib.util.module_from_spec(importlib.util.spec_from_loader("rt", loader))
    loader.exec_module(made)
    ask_once(made.rtlib.Crate)
    return made


def ask_once(kind):
    """Makes each crate's stamp once in an asking: it is a sum over the stamps below it, and asked anew on each way down to a crate, of which
    commands has 93,000."""
    made, asking = kind.stamp, threading.local()

    def stamp(crate):
        known = getattr(asking, "known", None)
        if known is None:
            asking.known = {}
            try:
                return stamp(crate)
            finally:
                asking.known = None
        if crate not in known:
            known[crate] = made(crate)
        return known[crate]

    kind.stamp = stamp


def chains(crates):
    """Of each crate the seconds of the longest chain of crates from it upwards."""
    found = {}
    for crate in reversed(crates):
        found[crate] = seconds(crate) + max((found[it] for it in found if crate in it.deps), default=0)
    return found


def aside(call, *given):
    """Calls a function in a thread of its own: how nice the processes are that it starts is a thread's."""
    pool = futures.ThreadPoolExecutor(1)
    run = pool.submit(call, *given)
    pool.shutdown(wait=False)
    return run


def built(crate, jobs, nice):
    """Proves a crate and builds its library; answers whether that went well, and in how many seconds."""
    begun = time.monotonic()
    os.setpriority(os.PRIO_PROCESS, threading.get_native_id(), nice)
    os.makedirs(os.path.join(crate.folder, "out"), exist_ok=True)
    with open(os.path.join(crate.folder, "out", "proved.log"), "w", encoding="utf-8") as crate.out:
        status = crate.build_rlib(["--jobs", str(jobs)], anew=False)
    return status == 0, time.monotonic() - begun


class Proving:
    """Crates that are proved: those that wait, those that are at work with their processors, and those that are done."""

    def __init__(self, crates, cores):
        self.cores, self.above, self.begun = cores, chains(crates), time.monotonic()
        self.done = [it for it in crates if it.is_built()]
        self.waiting = sorted((it for it in crates if it not in self.done), key=self.above.get, reverse=True)
        self.work, self.running, self.failed = sum(map(seconds, self.waiting)), {}, []

    def ready(self):
        return [it for it in self.waiting if all(low in self.done for low in it.below())]

    def left(self):
        return [*self.waiting, *(crate for crate, _ in self.running.values())]

    def start(self):
        """Starts what can be started: each crate with the processors that no other that is ready wants."""
        ready, longest = [] if self.failed else self.ready(), max(map(self.above.get, self.left()), default=0)
        while ready and (free := self.cores - sum(share for _, share in self.running.values())) > 0:
            crate = ready.pop(0)
            share = max(1, min(MOST_JOBS, free - len(ready)))
            jobs, nice = (MOST_JOBS, 0) if self.above[crate] == longest else (share, NICE)
            self.waiting.remove(crate)
            self.running[aside(built, crate, jobs, nice)] = crate, share

    def minutes_left(self):
        """At least how many minutes are left, as fast as it went: by the work, and by the longest chain."""
        left = self.left()
        work, chain = sum(map(seconds, left)), max(map(self.above.get, left), default=0)
        passed, through = time.monotonic() - self.begun, self.work - work
        pace = passed * self.cores / through if through > 600 else 1
        return max(work / self.cores, chain / 2) * pace / 60

    def end(self, run):
        """Says how a crate ended."""
        crate, _ = self.running.pop(run)
        well, took = run.result()
        (self.done if well else self.failed).append(crate)
        if not well:
            print(f"{crate.name}: not proved: crates/{crate.name}/out/proved.log", flush=True)
            return
        minutes, count = (time.monotonic() - self.begun) / 60, len(self.done) + len(self.left())
        print(f"{minutes:5.1f} min  {crate.name}: {took:.0f} s; {len(self.done)} of {count} crates are proved, "
              f"some {self.minutes_left():.0f} minutes are left", flush=True)

    def all(self):
        """Proves all; answers whether that went well."""
        self.start()
        while self.running:
            for run in futures.wait(self.running, return_when=futures.FIRST_COMPLETED).done:
                self.end(run)
            self.start()
        return not self.failed


def proved(program, rtlib):
    """Proves the crates below a program; answers whether that went well."""
    top = rtlib.Crate(folder_of(program), ROOT, {})
    # (whatever it starts ends when it does; what sees to that is set in the main thread)
    rtlib.guarded()
    held = rtlib.lock([*top.below(), top])
    well = Proving(top.below(), len(os.sched_getaffinity(0))).all()
    for it in held:
        os.close(it)
    return well


def main(given):
    if len(given) > 1 or any(it.startswith("-") for it in given):
        print(__doc__)
        return 2
    program, words = given[0] if given else "cherisim", ["run", "--jobs", str(MOST_JOBS)]
    try:
        rt = toolchain()
        if not proved(program, rt.rtlib):
            return 1
        os.chdir(folder_of(program))
        return rt.main(words)
    except (ImportError, AttributeError, TypeError, OSError) as error:
        print(f"the toolchain is another ({error}): one crate after the other", flush=True)
    return subprocess.run(["rt", *words], cwd=folder_of(program), check=False).returncode


if __name__ == "__main__":
    sys.exit(main(sys.argv[1:]))
