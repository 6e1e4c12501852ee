#!/usr/bin/env python3
"""Tries the wrong bodies of crates, all of a crate in one check where they don't meet.

    python3 tools/try_wrong_bodies.py CRATE ..            of these crates
    python3 tools/try_wrong_bodies.py --all               of every crate; writes what their checks take to tools/wrong_body_seconds.txt
    python3 tools/try_wrong_bodies.py --measure CRATE ..  writes there what those of these crates take
    python3 tools/try_wrong_bodies.py --named             those that tools/named_wrong_bodies.txt names
    python3 tools/try_wrong_bodies.py --sample SECONDS    as many as fit into so many seconds of processor time, by that table, of crates and
                                                          wrong bodies in an order that the commit's name gives
    python3 tools/try_wrong_bodies.py --check             proves nothing: says which don't fit the text that they change

A wrong body is a file of crates/NAME/wrong-bodies/ or crates/NAME/must-fail/: lines `file: PATH`, `old: TEXT` and `new: TEXT`, as the
gate reads them in must-fail/. A function is proved from its own body and from the contracts of what it calls, so wrong bodies of
different functions don't meet: one check of a copy that has them all shows each refused. What is asked of each is more than that the
crate is refused: a goal of the function that it changes must break, and not only a proof file name what is gone. A wrong body that
changes a constant or a line of a table names that function in a line `in: TYPE::FUNCTION` or `in: MODULE::FUNCTION`. Those that change
one function, or one text, are tried one after the other, in checks of these functions alone; one whose callee has another wrong body,
where the check says no more than that the callee isn't proved, is tried again without those that were refused.

What a function calls is taken by its contract: a hole stands for the proof of each function that has no wrong body. Where the library
doesn't say where its functions' proofs stand, the check proves what they call, too.

A sample reserves for each crate one check of the functions of the wrong bodies that fit. It uses at most half as much again as it is
given: what would go beyond that is left for another commit's turn, and said.

It stands on the libraries below each crate in crates/*/out/rlib, as the gate or `rt lib` leaves them.
"""
import concurrent.futures
import contextlib
import glob
import hashlib
import os
import re
import shutil
import subprocess
import sys
import tempfile
import threading

from toolchain import ROOT, built, compiler, crates, folder_of, over_the_logic, words

FOLDERS = ("must-fail", "wrong-bodies")
PARTS = ("src", "specs", "proofs")
COMMENTS = ("//", "--")
NAMED = os.path.join(ROOT, "tools", "named_wrong_bodies.txt")
TABLE = os.path.join(ROOT, "tools", "wrong_body_seconds.txt")
HEAD = """# Seconds of processor time of a check that tries wrong bodies of a crate: what each check takes, and each wrong body in it.
# `python3 tools/try_wrong_bodies.py --all` writes this.
"""
# What a crate takes that isn't in the table, and how far beyond what it is given a sample may go.
UNKNOWN = (60.0, 5.0)
BEYOND = 1.5

# A proof that names what a wrong body took away says nothing of a contract.
GONE = re.compile(r"has no field|is not in scope|has no `|was not admitted")

# What a built library says of a function: where its proof stands, and what was made there; a member of a trait has its proof in each impl.
MADE = re.compile(r'"proofs/(.+)/(Statement|Proof)"')
MEMBER = "MemberProof"
HOLE = """use Rattle.{crate}.proofs.{place}.Statement.{{statement}}

pub {name}_spec : {{M : Type 1}} → statement M
{name}_spec = ?
"""

PRINTING = threading.Lock()


def say(text):
    with PRINTING:
        print(text, flush=True)


def edits_of(crate):
    """The wrong bodies of a crate."""
    return sorted(path for part in FOLDERS for path in glob.glob(os.path.join(folder_of(crate), part, "*.edit")))


def lines_of(path):
    """The lines of a table, without those that are empty or begin with `#`."""
    if not os.path.exists(path):
        return []
    with open(path, encoding="utf-8") as file:
        return [line for line in map(str.strip, file) if line and not line.startswith("#")]


def named():
    """The paths of the wrong bodies that bear a name of the field."""
    pairs = [line.split(": ") for line in lines_of(NAMED)]
    return {os.path.join(folder_of(crate), "wrong-bodies", f"{name}.edit") for crate, name in pairs}


def seconds_table():
    """Of each crate in the table the seconds of a check, and of each wrong body in it."""
    return {crate: (float(floor), float(each)) for crate, floor, each in map(str.split, lines_of(TABLE))}


def is_comment(text):
    return text.strip().startswith(COMMENTS)


class Edit:
    """A wrong body: the functions whose goals it is to break, and the texts that it replaces."""

    def __init__(self, path, crate):
        self.path, self.named, self.pairs = path, [], []
        changed, old = "", ""
        with open(path, encoding="utf-8") as file:
            for line in file.read().split("\n"):
                word, _, rest = line.partition(":")
                if word == "file":
                    changed = rest.strip()
                elif word == "in":
                    self.named.append(rest.strip())
                elif word == "old":
                    old = rest.removeprefix(" ")
                elif word == "new":
                    self.pairs.append((changed, old, rest.removeprefix(" ")))
        self.functions = set(self.named) or {it for pair in self.pairs if (it := function_of(crate, *pair[:2]))}

    def __str__(self):
        return os.path.relpath(self.path, ROOT)

    def applied(self, texts):
        """The texts with this wrong body in them, or None where an old text isn't there once (a comment's may be gone)."""
        made = dict(texts)
        for path, old, new in self.pairs:
            if made[path].count(old) == 1:
                made[path] = made[path].replace(old, new)
            elif not is_comment(old):
                return None
        return made


def impl_name(head):
    """How a report names the methods of an impl: by the type, with a `+` before an argument that is no parameter of the impl, and by the
    trait with its arguments after it, but for parameters of the impl."""
    words = lambda text: re.findall(r"\w+", re.sub(r"'\w+|\w+::|&|\bmut\b", "", text))
    parameters, head = re.match(r"(?:unsafe )?impl(<[^{]*?>)?(?= )(.*)", head, re.DOTALL).groups()
    trait, _, kind = head.partition("{")[0].partition(" where ")[0].strip().rpartition(" for ")
    name = re.match(r"(?:\w+::)*(\w+)", kind.strip())[1]
    spared = set(re.findall(r"(?:^<|, )(\w+)(?=[:,>])", parameters or ""))
    return (name if parameters else "+".join(words(kind))) + "".join(it for it in words(trait) if it not in spared)


def function_of(crate, path, old):
    """The function whose text holds `old`, by the end of its name in a report, as `registers::is_csr` or `WordCapCapRep::top`; or None.

    A method goes by its type alone, since its impl may stand in another module than the type."""
    if is_comment(old):
        return None
    with open(os.path.join(folder_of(crate), path), encoding="utf-8") as file:
        text = file.read()
    at = text.find(old)
    before = text[: text.find("\n", at + len(old.rstrip("\n")))] if at >= 0 else ""
    functions = [*re.finditer(r'^( *)(?:pub(?:\([a-z]+\))? )?(?:const )?(?:extern "C" )?fn (\w+)', before, re.M)]
    if not functions or "\n}\n" in before[functions[-1].end() :]:
        return None
    indent, name = functions[-1][1], functions[-1][2]
    heads = re.findall(r"^(?:unsafe )?impl\b[^{]*\{", before, re.M) if indent else []
    module = path.removeprefix("src/").removesuffix(".rt").split("/")
    inside = [] if module in (["lib"], ["main"]) else module
    return "::".join([*([impl_name(heads[-1])] if heads else inside), name])


def places_of(crate):
    """Where in proofs/ the proof of each function of a built crate stands that has one of its own: its library lists what was made of each
    function, a line that says where and a line that begins with what."""
    listing = os.path.join(built(crate), "lang", "antt", "made.json")
    if not os.path.exists(listing):
        return []
    with open(listing, encoding="utf-8") as file:
        lines = file.read().split("\n")
    made = {(found[1], found[2]): kind.partition('"')[2].partition('"')[0]
            for line, kind in zip(lines, lines[1:]) if (found := MADE.fullmatch(line))}
    return [place for (place, what), kind in made.items() if kind == what == "Statement" and made.get((place, "Proof"), MEMBER) != MEMBER]


def is_place_of(place, functions):
    """Whether the proof of one of these functions stands there."""
    name = "::" + place.replace("/+", "/").replace("/", "::")
    return any(name.endswith(f"::{function}") for function in functions)


class Checker:
    """Checks copies of a crate, over the libraries below it, and keeps of each check how many functions it was of and what it took."""

    def __init__(self, crate, known):
        self.crate, self.took, self.places = crate, [], places_of(crate)
        self.words = [compiler(), "check", *words(crate, known), *over_the_logic(1)]

    def lay_holes(self, room, functions):
        """Puts a hole in place of the proof of each other function than these; answers what a check is given for it."""
        for place in self.places:
            if not is_place_of(place, functions):
                folder, name = os.path.join(room, "proofs", place), place.rpartition("/")[2]
                os.makedirs(folder, exist_ok=True)
                for known in ("Answers.antt", "Invariants.antt"):
                    with contextlib.suppress(FileNotFoundError):
                        os.remove(os.path.join(folder, known))
                with open(os.path.join(folder, "Proof.antt"), "w", encoding="utf-8") as file:
                    file.write(HOLE.format(crate=self.crate, place=place.replace("/", "."), name=name))
        return ["--allow-holes"] if self.places else []

    def report(self, texts, functions):
        """What a check says of these functions, and of what they call, of a copy with these texts."""
        with tempfile.TemporaryDirectory(prefix="wrong-bodies-") as room:
            for part in PARTS:
                if os.path.isdir(os.path.join(folder_of(self.crate), part)):
                    shutil.copytree(os.path.join(folder_of(self.crate), part), os.path.join(room, part))
            for path, text in texts.items():
                with open(os.path.join(room, path), "w", encoding="utf-8") as file:
                    file.write(text)
            only = [*self.lay_holes(room, functions), *(word for it in sorted(functions) for word in ("--only", it))]
            how = {"cwd": room, "stdin": subprocess.DEVNULL, "stdout": subprocess.PIPE, "stderr": subprocess.STDOUT}
            with subprocess.Popen([*self.words, *only], encoding="utf-8", errors="replace", **how) as run:
                said = run.stdout.read()
                _, run.returncode, usage = os.wait4(run.pid, 0)
        self.took.append((len(functions), usage.ru_utime + usage.ru_stime))
        return said

    def seconds(self):
        """Seconds of processor time of all checks."""
        return sum(seconds for _, seconds in self.took)


def broken(crate, said):
    """The goals that a report says broke, by their function; without those that only name what is gone."""
    found = {}
    for path, goal, why in re.findall(r"^\./proofs/(\S+?)/(?:Answers|Invariants|Proof)\.antt:\d+:\d+: error: `([^`]*)`(.*)$", said, re.M):
        if not GONE.search(why):
            found.setdefault(path.replace("/", "::").replace("::+", "::"), []).append(goal)
    for name, goal in re.findall(rf"^fn {crate}::(\S+): no(?:t proved|\ proof)[^\n]*?did not prove `([^`]*)`", said, re.M):
        found.setdefault(name, []).append(goal)
    return found


def texts_of(crate, edits):
    """The texts that wrong bodies change."""
    found = {}
    for path in {pair[0] for edit in edits for pair in edit.pairs}:
        with open(os.path.join(folder_of(crate), path), encoding="utf-8") as file:
            found[path] = file.read()
    return found


def next_wave(crate, left):
    """Takes wrong bodies that don't meet: their texts, those that were taken, and those that are left."""
    texts, taken, later, functions = texts_of(crate, left), [], [], set()
    for edit in left:
        made = None if functions & edit.functions else edit.applied(texts)
        if made:
            texts = made
            taken.append(edit)
            functions |= edit.functions
        else:
            later.append(edit)
    return texts, taken, later


def misfits(crate):
    """The wrong bodies of a crate that can't be tried."""
    for edit in (Edit(path, crate) for path in edits_of(crate)):
        if not edit.functions:
            yield f"{edit}: changes no function: a line `in: TYPE::FUNCTION` or `in: MODULE::FUNCTION` names the one whose goal breaks"
        elif not edit.pairs or edit.applied(texts_of(crate, [edit])) is None:
            yield f"{edit}: an old text isn't in its file once"


def unrefused(crate, checker, edits, texts):
    """Those of some wrong bodies that a check of a copy with all of them shows no broken goal of."""
    functions = set().union(*(edit.functions for edit in edits))
    goals = broken(crate, checker.report(texts, functions))
    return [edit for edit in edits if not any(f"::{name}".endswith(f"::{function}") for function in edit.functions for name in goals)]


def tried_in(crate, checker, edits):
    """Tries wrong bodies in as few checks as hold them; returns those of which no goal broke, by whether they were alone."""
    alone, beside = [], []
    while edits:
        texts, taken, edits = next_wave(crate, edits)
        (beside if len(taken) > 1 else alone).extend(unrefused(crate, checker, taken, texts))
    return alone, beside


def not_broken(edit):
    return f"{edit}: no goal of {', '.join(sorted(edit.functions))} broke"


def try_edits(crate, checker, edits):
    """Tries wrong bodies of a crate, and returns what is wrong with them."""
    left, wrong = [edits], []
    # A function whose callee isn't proved may be told as such and no more: it is tried again without what was refused, and then by itself.
    while left:
        edits = left.pop()
        alone, beside = tried_in(crate, checker, edits)
        wrong += map(not_broken, alone)
        if len(alone) + len(beside) < len(edits):
            left += [beside]
        else:
            left += [[edit] for edit in beside]
    return wrong


def try_crate(crate, known, only=None):
    """Tries the wrong bodies of a crate, or some of them, and returns what is wrong with them."""
    wrong = [*misfits(crate)]
    if not wrong:
        checker = Checker(crate, known)
        edits = [Edit(path, crate) for path in edits_of(crate) if only is None or path in only]
        wrong = try_edits(crate, checker, edits)
        say(f"{crate}: {len(edits) - len(wrong)} of {len(edits)} wrong bodies refused, each by a goal of its own function, "
            f"in {len(checker.took)} checks, {checker.seconds():.0f} seconds")
    return wrong


def side_by_side(call, names):
    """Calls a function of each crate, a processor each; returns all that is wrong."""
    with concurrent.futures.ThreadPoolExecutor(len(os.sched_getaffinity(0))) as pool:
        return [wrong for of_crate in pool.map(call, names) for wrong in of_crate]


def measured(crate, known):
    """What a check of a crate takes, and each wrong body in it: by a check of one, and of as many as don't meet."""
    edits, checker = [Edit(path, crate) for path in edits_of(crate)], Checker(crate, known)
    for some in (edits[:1], edits):
        texts, taken, _ = next_wave(crate, some)
        checker.report(texts, set().union(*(edit.functions for edit in taken)))
    (few, one), (many, most) = checker.took
    each = max((most - one) / (many - few), 0.5) if many > few else UNKNOWN[1]
    return max(one - few * each, 1.0), each


def write_table(names, known):
    """Measures crates, two at a time, and writes the table of those and of what stands in it of others."""
    with concurrent.futures.ThreadPoolExecutor(2) as pool:
        table = {**seconds_table(), **dict(zip(names, pool.map(lambda it: measured(it, known), names)))}
    with open(TABLE, "w", encoding="utf-8") as file:
        file.write(HEAD + "".join(f"{crate} {floor:.0f} {each:.1f}\n" for crate, (floor, each) in sorted(table.items()) if crate in known))


# ---- a sample


def in_order_of_commit(names):
    """Names in an order that the commit's name gives."""
    commit = subprocess.run(["git", "rev-parse", "HEAD"], cwd=ROOT, capture_output=True, text=True, check=False).stdout
    return sorted(names, key=lambda it: hashlib.sha256((commit + it).encode()).hexdigest())


class Sample:
    """A sample of wrong bodies: of crates in their turn as many as fit, each crate's in one check."""

    def __init__(self, names, known, given):
        self.known, self.table, self.most, self.lock = known, seconds_table(), BEYOND * given, threading.Lock()
        self.used, self.plan, self.left = 0.0, {}, []
        for crate in in_order_of_commit(names):
            floor, each = self.table.get(crate, UNKNOWN)
            fit = int((given - floor) / each)
            if fit > 0:
                paths = in_order_of_commit(edits_of(crate))[:fit]
                _, taken, _ = next_wave(crate, [Edit(path, crate) for path in paths])
                self.plan[crate] = taken
                given -= self.takes(crate, len(taken))

    def takes(self, crate, count):
        floor, each = self.table.get(crate, UNKNOWN)
        return floor + each * count

    def reserve(self, crate, count):
        """Whether a check of so many wrong bodies is within what the sample may use; it is counted then."""
        with self.lock:
            fits = self.used + self.takes(crate, count) <= self.most
            self.used += self.takes(crate, count) * fits
        return fits

    def checked(self, crate, edits):
        """Those of some wrong bodies of which a check shows no broken goal, or all of them where there is no room for the check."""
        if not self.reserve(crate, len(edits)):
            self.left += map(str, edits)
            return []
        checker = Checker(crate, self.known)
        texts, taken, _ = next_wave(crate, edits)
        found = unrefused(crate, checker, taken, texts)
        with self.lock:
            self.used += checker.seconds() - self.takes(crate, len(edits))
        say(f"{crate}: {len(edits) - len(found)} of {len(edits)} wrong bodies refused, each by a goal of its own function, "
            f"{checker.seconds():.0f} seconds")
        return found

    def try_crate(self, crate):
        """Tries what is planned of a crate: together, and by itself what was not refused beside others."""
        edits = self.plan[crate]
        found = self.checked(crate, edits)
        if len(edits) > 1:
            found = [edit for one in found for edit in self.checked(crate, [one])]
        return map(not_broken, found)

    def tried(self):
        """Tries the sample; returns what is wrong."""
        wrong = side_by_side(self.try_crate, self.plan)
        for it in self.left:
            say(f"{it}: left for another commit's turn")
        count = sum(map(len, self.plan.values()))
        say(f"a sample of {count} wrong bodies of {len(self.plan)} crates, {self.used:.0f} seconds of processor time")
        return wrong


def main(given):
    known = crates()
    having = [it for it in known if edits_of(it)]
    if given[:1] == ["--sample"] and len(given) == 2 and given[1].isdigit():
        wrong = Sample(having, known, int(given[1])).tried()
    elif given[:1] == ["--measure"] and all(it in having for it in given[1:]):
        write_table(given[1:], known)
        wrong = []
    elif given == ["--all"]:
        write_table(having, known)
        wrong = side_by_side(lambda it: try_crate(it, known), having)
    elif given == ["--named"]:
        paths = named()
        wrong = side_by_side(lambda it: try_crate(it, known, paths), [it for it in having if paths & {*edits_of(it)}])
    elif given == ["--check"]:
        wrong = [it for crate in having for it in misfits(crate)]
        wrong += [f"{os.path.relpath(it, ROOT)} doesn't stand, but {os.path.relpath(NAMED, ROOT)} names it" for it in named() if not os.path.exists(it)]
        print("\n".join([*wrong, f"{sum(len(edits_of(it)) for it in having)} wrong bodies, {len(named())} of them named, {len(wrong)} that don't fit"]))
        return 1 if wrong else 0
    elif given and all(it in known for it in given):
        wrong = side_by_side(lambda it: try_crate(it, known), given)
    else:
        print(__doc__)
        return 2
    for it in wrong:
        print(it)
    return 1 if wrong else 0


if __name__ == "__main__":
    sys.exit(main(sys.argv[1:]))
