#!/usr/bin/env python3
"""Tries mistakes in definitions: which law refuses each.

    python3 tools/try_mistakes.py                 all of mistakes/, one at a time
    python3 tools/try_mistakes.py NAME ..         these
    python3 tools/try_mistakes.py --check         proves nothing: says which don't fit the texts that they change

A contract refuses wrong code, and no wrong definition that the code follows; a law over definitions can. A mistake is a file of mistakes/:
lines `says: WHAT`, `crate: NAME`, `refused by: MODULE::NAME`, and then `file: PATH`, `old: TEXT` and `new: TEXT` as a wrong body has them,
each old text once in its file. It is made in a copy of the crate, which is checked over the libraries below it; what the check leaves
unproved is told, and the law that the mistake names has to be among it.

The law alone is checked, and no function beside it, so that the code need not follow the definition. With a line `over: LAWS` it is a law
of that crate: its definitions, proofs and laws are put into the copy, and all its laws are checked.

That a proof doesn't fit any more is no proof that none would. A mistake is told as *refused* where that is shown: its law is a closed
computation that comes out otherwise (a line `refuted by: NUMBERS`), or NAME.worked stands beside it, definitions with a worked state in
which the law is false under the mistaken definition: `Law`, what is refuted, and `refuted : Law → ⊥`, or `State → Law → ⊥` where it is a
state of the machine; it is proved in the copy.
Of the others it is said that the law's proof doesn't hold.

It stands on the libraries in crates/*/out/rlib, as the gate or `rt lib` leaves them. It ends with 1 where a mistake is not refused so.
"""
import glob
import os
import re
import shutil
import subprocess
import sys
import tempfile

from toolchain import ROOT, compiler, crates, folder_of, over_the_logic, words

MISTAKES = os.path.join(ROOT, "mistakes")
PARTS = ("src", "specs", "proofs")


class Mistake:
    """A mistake, as its file has it."""

    def __init__(self, path):
        self.name, self.pairs, self.given = os.path.basename(path).removesuffix(".edit"), [], {}
        changed, old = "", ""
        with open(path, encoding="utf-8") as file:
            for line in file.read().rstrip("\n").split("\n"):
                word, _, rest = line.partition(": ")
                text = rest.replace("\\n", "\n")
                if word == "file":
                    changed = rest
                elif word == "old":
                    old = text
                elif word == "new":
                    self.pairs.append((changed, old, text))
                else:
                    self.given[word] = rest
        self.crate, self.law, self.over = self.given["crate"], self.given["refused by"], self.given.get("over")
        worked = path.removesuffix(".edit") + ".worked"
        self.worked = worked if os.path.exists(worked) else None

    def made_in(self, room):
        """Makes the mistake in a copy of its crate; answers the texts that aren't there once."""
        faults = []
        for path, old, new in self.pairs:
            with open(os.path.join(room, path), encoding="utf-8") as file:
                text = file.read()
            if text.count(old) != 1:
                faults.append(f"{self.name}: {text.count(old)} times in {self.crate}/{path}: {old}")
            with open(os.path.join(room, path), "w", encoding="utf-8") as file:
                file.write(text.replace(old, new))
        return faults


def copied(crate, room):
    for part in PARTS:
        if os.path.isdir(os.path.join(folder_of(crate), part)):
            shutil.copytree(os.path.join(folder_of(crate), part), os.path.join(room, part))


def moved(path, to, crate, laws, modules):
    """Moves a file of the crate of laws into the copy, under the name of its crate; modules have the name of the crate of laws in front."""
    with open(path, encoding="utf-8") as file:
        text = file.read()
    for part in ("specs", "proofs"):
        text = text.replace(f"Rattle.{laws}.{part}.", f"Rattle.{crate}.{part}.")
    for module in modules:
        text = text.replace(f"Rattle.{crate}.proofs.{module}.", f"Rattle.{crate}.proofs.{laws}_{module}.")
    os.makedirs(os.path.dirname(to), exist_ok=True)
    with open(to, "w", encoding="utf-8") as file:
        file.write(text)


def appended(path, text):
    with open(path, "a", encoding="utf-8") as file:
        file.write(text)


def with_laws(room, crate, laws):
    """Puts the definitions, proofs and laws of a crate into the copy of one that it stands on; answers the functions that are its laws."""
    folder = folder_of(laws)
    modules = sorted(os.path.basename(path).removesuffix(".rt") for path in glob.glob(os.path.join(folder, "src", "*.rt")))
    modules.remove("lib")
    for part in ("specs", "proofs"):
        for path in glob.glob(os.path.join(folder, part, "**", "*.antt"), recursive=True):
            name = os.path.relpath(path, os.path.join(folder, part))
            if name != "Lib.antt":
                to = f"{laws}_{name}" if part == "proofs" and name.partition("/")[0] in modules else name
                moved(path, os.path.join(room, part, to), crate, laws, modules)
        with open(os.path.join(folder, part, "Lib.antt"), encoding="utf-8") as file:
            appended(os.path.join(room, part, "Lib.antt"), file.read())
    found = []
    for module in modules:
        path, name = os.path.join(folder, "src", f"{module}.rt"), f"{laws}_{module}"
        moved(path, os.path.join(room, "src", f"{name}.rt"), crate, laws, modules)
        appended(os.path.join(room, "src", "lib.rt"), f"pub mod {name};\n")
        with open(path, encoding="utf-8") as file:
            found += [f"{name}::{law}" for law in re.findall(r"^pub fn (\w+)\(\)", file.read(), re.M)]
    return found


def with_worked_state(room, crate, laws, path):
    """Puts a worked state into the copy, and a function whose contract says what it refutes."""
    os.makedirs(os.path.join(room, "proofs", "worked", "law_is_false"))
    moved(path, os.path.join(room, "specs", "Worked.antt"), crate, laws, [])
    appended(os.path.join(room, "specs", "Lib.antt"), "pub mod Worked\n")
    appended(os.path.join(room, "src", "lib.rt"), "pub mod worked;\n")
    with open(path, encoding="utf-8") as file:
        state = re.search(r"^pub refuted : (\(s : State\)|State) →", file.read(), re.M)
    with open(os.path.join(room, "src", "worked.rt"), "w", encoding="utf-8") as file:
        file.write(("ghost use Rattle.steps.specs.State.{State};\n" if state else "")
                   + f"ghost use Rattle.{crate}.specs.Worked.{{Law}};\n\n"
                   f"pub fn law_is_false()\n    ensures {{ {'State → ' if state else ''}Law → ⊥ }}\n{{}}\n")
    with open(os.path.join(room, "proofs", "worked", "law_is_false", "Answers.antt"), "w", encoding="utf-8") as file:
        file.write(f"use Rattle.{crate}.specs.Worked.{{refuted}}\nuse Rattle.{crate}.proofs.worked.law_is_false.Goals as goal\n\n"
                   "pub returns : goal.returns\nreturns c = refuted\n")
    return ["worked::law_is_false"]


def lemma_at(path, line):
    """The lemma of a definition file in which a line stands, as MODULE::NAME."""
    with open(path, encoding="utf-8") as file:
        lines = file.read().split("\n")[:line]
    names = [it[1] for text in lines if (it := re.match(r"\s*(?:pub )?([^\s(:]+) :", text))]
    return f"{os.path.basename(path).removesuffix('.antt')}::{names[-1] if names else '?'}"


def lemmas_left(room, said):
    """The lemmas of definition files that a check leaves unproved by themselves, by their module."""
    errors = re.findall(r"^(?:\./)?(specs/\w+\.antt):(\d+)(?::\d+)?: error: (.*)$", said, re.M)
    return sorted({lemma_at(os.path.join(room, path), int(line)) for path, line, why in errors if "not checked" not in why})


def functions_left(crate, said):
    """The functions that a check leaves unproved, laws among them."""
    return sorted(set(re.findall(rf"^fn {crate}::(\S+): no", said, re.M)))


def tried(mistake, known):
    """Tries a mistake: what is left unproved, and whether that is what it says."""
    with tempfile.TemporaryDirectory(prefix="mistake-") as room:
        copied(mistake.crate, room)
        functions = with_laws(room, mistake.crate, mistake.over) if mistake.over else [mistake.law]
        faults = mistake.made_in(room)
        if faults:
            return faults, False
        if mistake.worked:
            functions = [*functions, *with_worked_state(room, mistake.crate, mistake.over, mistake.worked)]
        only = [word for it in functions for word in ("--only", it)]
        how = {"cwd": room, "stdin": subprocess.DEVNULL, "stdout": subprocess.PIPE, "stderr": subprocess.STDOUT}
        needs = [it for it in [*known[mistake.crate], *known.get(mistake.over, [])] if it != mistake.crate]
        over = {**known, mistake.crate: list(dict.fromkeys(needs))}
        call = [compiler(), "check", *words(mistake.crate, over), *over_the_logic(1), *only]
        run = subprocess.run(call, check=False, encoding="utf-8", errors="replace", **how)
        found = functions_left(mistake.crate, run.stdout)
        if mistake.over:
            found = [*lemmas_left(room, run.stdout), *(it.removeprefix(f"{mistake.over}_") for it in found)]
        if "--report" in sys.argv:
            print(run.stdout)
        return found, run.returncode != 0 and mistake.law in found and "worked::law_is_false" not in found


def fits(mistake):
    """What of a mistake isn't in the text that it changes."""
    with tempfile.TemporaryDirectory(prefix="mistake-") as room:
        copied(mistake.crate, room)
        return mistake.made_in(room)


def main():
    given = [word for word in sys.argv[1:] if not word.startswith("--")]
    mistakes = [Mistake(path) for path in sorted(glob.glob(os.path.join(MISTAKES, "*.edit")))]
    mistakes = [it for it in mistakes if not given or it.name in given]
    if "--check" in sys.argv:
        faults = [fault for mistake in mistakes for fault in fits(mistake)]
        print("\n".join(faults) or f"{len(mistakes)} mistakes in definitions fit the texts that they change")
        return 1 if faults else 0
    known, as_said = crates(), 0
    for mistake in mistakes:
        found, so = tried(mistake, known)
        as_said += so
        left = ", ".join(found) or "nothing is left unproved"
        word = "refused" if mistake.worked or "refuted by" in mistake.given else "not proved"
        print(f"{word if so else 'NOT AS SAID'}: {mistake.given['says']}: {left}", flush=True)
    print(f"{as_said} of {len(mistakes)} mistakes in definitions leave the law unproved that they name")
    return 0 if as_said == len(mistakes) else 1


if __name__ == "__main__":
    sys.exit(main())
