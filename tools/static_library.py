#!/usr/bin/env python3
"""Builds a static library of the repository, as both compilers make it.

    python3 tools/static_library.py CRATE ARCHIVE

ARCHIVE is LLVM's build; that of Rattle's own compiler goes beside it, into the folder by-rattle/. The crate is proved for it, over the
libraries below, which are built first where they are missing, and over what `rt check` kept of it. Archives of the same texts are left as
they stand.
"""
import hashlib
import os
import subprocess
import sys
import tempfile

from toolchain import below, built, compiler, crates, folder_of, kit, over_the_logic, words

# The builds, each with its folder beside the archive.
BACKENDS = {"llvm": "", "rattle": "by-rattle"}


def call(crate, given):
    """Calls the compiler in a crate's folder, and ends with what it said where it fails."""
    how = {"stdin": subprocess.DEVNULL, "stdout": subprocess.PIPE, "stderr": subprocess.STDOUT, "encoding": "utf-8", "errors": "replace"}
    ran = subprocess.run([compiler(), *given], cwd=folder_of(crate), check=False, **how)
    if ran.returncode:
        sys.exit(ran.stdout)


def texts(crate, known):
    """A sum of all that an archive is made from: the toolchain, and the texts of the crate and of those below it."""
    found = hashlib.sha256(repr((os.path.realpath(kit()), os.stat(compiler()).st_mtime_ns, known)).encode())
    for name in [*below(crate, known), crate]:
        for part in ("src", "specs", "proofs"):
            for at, folders, files in os.walk(os.path.join(folder_of(name), part)):
                folders.sort()
                for file in sorted(files):
                    with open(os.path.join(at, file), "rb") as text:
                        found.update(repr((name, at[len(folder_of(name)):], file, text.read())).encode())
    return found.hexdigest()


def archives(archive):
    """Where the archive of each build goes."""
    folder, name = os.path.split(os.path.abspath(archive))
    return {backend: os.path.join(folder, part, name) for backend, part in BACKENDS.items()}


def stands(archive, stamp, texts_now):
    """Whether both archives are of the texts as they are now."""
    if not all(os.path.exists(it) for it in [*archives(archive).values(), stamp]):
        return False
    with open(stamp, encoding="utf-8") as file:
        return file.read() == texts_now


def build(crate, archive, known):
    if not all(os.path.isdir(built(it)) for it in below(crate, known)):
        subprocess.run(["rt", "lib"], cwd=folder_of(crate), stdout=subprocess.DEVNULL, check=True)
    whole = [*words(crate, known), "--crate-type", "staticlib", *(word for it in below(crate, known) for word in ("--links", f"{it}="))]
    kept = os.path.join(folder_of(crate), "out", "incremental")
    with tempfile.TemporaryDirectory(prefix="static-library-") as room:
        over = [*over_the_logic(1), "--incremental", kept]
        if not os.path.isdir(kept):
            checked = os.path.join(room, "checked")
            call(crate, ["check", *whole, *over_the_logic(1), "-o", checked])
            over = ["--crate-checked", checked]
        for backend, to in archives(archive).items():
            os.makedirs(os.path.dirname(to), exist_ok=True)
            call(crate, ["build", *whole, *over, "--toolchain", os.path.join(kit(), "toolchain"), "--backend", backend, "-o", to])


def main(given):
    known = crates()
    if len(given) != 2 or given[0] not in known:
        print(__doc__)
        return 2
    crate, archive = given
    stamp, now = f"{archive}.texts", texts(crate, known)
    if not stands(archive, stamp, now):
        build(crate, archive, known)
        with open(stamp, "w", encoding="utf-8") as file:
            file.write(now)
    return 0


if __name__ == "__main__":
    sys.exit(main(sys.argv[1:]))
