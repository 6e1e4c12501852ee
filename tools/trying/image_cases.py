"""Images: the machine of a file, whose state the image says, and the files that the program writes."""
from ctypes import byref

from model.rights import UNSEALED
from model.words import NULL_HIGH, ONES

from .image_files import MOST_PAGES, asked, read_back, shown, version_of
from .libraries import Cap, Fields
from .machines import DDC, MEPCC, MTCC, PAGE, PCC, RAM, Machine, Refused
from .reading import Left, bytes_of

FLAG = 1 << 45
CHUNK = 1 << 20


def granted(library, base, length, perms, flag):
    """The capability of these parts, by the library."""
    value, fields = Cap(), Fields(base, base + length & ONES, base + length >> 64, base, UNSEALED, perms, bool(flag))
    if not library.cheri_compress(byref(fields), byref(value)):
        raise ValueError(f"no capability of {length} bytes from {base:x} on")
    return value


def difference(bench, machine, image):
    """The first thing in which a machine isn't in the opening state of an image, or None."""
    library = bench.library
    if machine.pages() != image.pages:
        return f"{machine.pages():x} pages"
    if machine.scr(PCC).key() != Cap(image.entry, bench.root(0).upper | FLAG * image.mode, True).key():
        return "another PCC"
    if any(machine.scr(n).key() != bench.root(0).key() for n in (DDC, MTCC, MEPCC)):
        return "other special registers"
    if any(value.key() != (NULL_HIGH, 0, False) for value in machine.regs()):
        return "other registers"
    capabilities = {place: granted(library, *rest) for place, *rest in image.capabilities}
    if list(machine.tagged(0)) != sorted(capabilities):
        return "other tags"
    for place, value in capabilities.items():
        if machine.read_cap(place).key() != value.key():
            return f"another capability at {place:x}"
    return ram_difference(machine, image, capabilities)


def ram_difference(machine, image, capabilities):
    """The first part of RAM that isn't the image's, or None: under the capabilities, its sections, and else zeros."""
    pieces = dict(image.sections)
    for start in range(RAM, RAM + image.pages * PAGE, CHUNK):
        end = min(start + CHUNK, RAM + image.pages * PAGE)
        expected = bytearray(end - start)
        for address, contents in pieces.items():
            low, up = max(address, start), min(address + len(contents), end)
            if low < up:
                expected[low - start:up - start] = contents[low - address:up - address]
        came = bytearray(machine.read(start, end - start))
        for place in capabilities:
            if start <= place < end:
                came[place - start:place - start + 16] = expected[place - start:place - start + 16]
        if came != expected:
            return f"other bytes from {start:x} on"
    return None


def loaded(bench, file):
    """The machine of a file, or its fault."""
    try:
        return Machine.of_image(bench.library, file), None
    except Refused as refused:
        return None, refused.code()


def as_answered(bench, file, answer):
    """The answer over a file, where its machine is in the state that the answer shows."""
    machine, fault = loaded(bench, file)
    if fault or answer[0] == "L":
        return fault or "no fault"
    image = shown(answer)
    wrong = difference(bench, machine, image)
    return wrong or (answer if image.version == version_of(file) else f"version {version_of(file)}")


def written(bench, image, case):
    """The file that the program writes of a text that assembles to an image."""
    text = image.text()
    if text is None:
        raise Left
    file, told = bench.image_of(text.encode())
    if file is None:
        return told
    return case.expected if file == bytes_of(case.expected) else file.hex()


def of_both_versions(bench, words, case):
    """The answers over the files of both versions of the same parts: of version 2 without its mark, and once where they are the same."""
    answers = case.expected.split(" / ")
    first = as_answered(bench, asked("build", words).file(), answers[0])
    second = as_answered(bench, asked("build2", [*words[:3], "0", *words[3:]]).file(), as_second(answers[-1])).removeprefix("v2 ")
    return first if first == second else f"{first} / {second}"


def as_second(answer):
    return answer if answer[0] == "L" else f"v2 {answer}"


def flat(bench, image):
    """The machine that cherisim_new_flat makes of an image of one section without capabilities, or its fault."""
    (address, contents), = image.sections
    try:
        return Machine.flat(bench.library, contents, image.pages, address, image.entry, bool(image.mode)), None
    except Refused as refused:
        return None, refused.code()


def image(bench, case):
    """`read FILE` or `copy FILE`, or `build` or `file` and pages, entry, mode and sections, or `build2` or `file2` with the capabilities
    before the sections: the image as its machine begins, or the file that the program writes of it; or the fault. `versions` and pages,
    entry, mode and sections is a build of either version."""
    what, *words = case.inputs.split()
    if what == "read":
        return as_answered(bench, bytes_of(words[0]), case.expected)
    if what == "versions":
        return of_both_versions(bench, words, case)
    if what == "copy":
        file = bytes_of(words[0])
        _, fault = loaded(bench, file)
        return fault or written(bench, read_back(file), case)
    given = asked(what, words)
    if what.startswith("file"):
        return written(bench, given, case)
    came = as_answered(bench, given.file(), case.expected)
    if came == case.expected and len(given.sections) == 1 and not given.capabilities and given.pages <= MOST_PAGES and given.mode < 2:
        machine, fault = flat(bench, given)
        if fault != (case.expected if machine is None else None) or machine and difference(bench, machine, given):
            return f"cherisim_new_flat: {fault or 'another state'}"
    return came
