"""Images by their parts: as files have them, as answers show them, and as texts that assemble to them."""
from typing import NamedTuple

from model.images import capability as entry_bytes, number, section as section_bytes

from .reading import bytes_of

MOST_PAGES = 4096


class Image(NamedTuple):
    """An image by its parts: sections are addresses and bytes, capabilities place, base, length, permissions and flag."""
    version: int
    pages: int
    entry: int
    mode: int
    sections: list
    capabilities: list

    def file(self):
        """Its file, field by field."""
        words = number(self.version, 4) + number(self.pages, 4) + number(self.entry, 8) + number(len(self.sections), 4)
        front = b"CHERIIMG" + words + number(self.mode, 4) + b"".join(section_bytes(*one) for one in self.sections)
        if self.version == 1:
            return front
        return front + number(len(self.capabilities), 4) + b"".join(entry_bytes(*one) for one in self.capabilities)

    def text(self):
        """The text that assembles to it, or None where none does: empty sections are left out, capabilities stand over zeros of a section,
        and version 2 is for them and for more pages than version 1 has."""
        is_second = bool(self.capabilities) or self.pages > MOST_PAGES
        if self.version != 1 + is_second or not all(contents for _, contents in self.sections):
            return None
        lines, left = [f".pages {self.pages}", f".mode {self.mode}", f".entry {self.entry}"], list(self.capabilities)
        for address, contents in self.sections:
            lines.append(f".org {address}")
            place, end = address, address + len(contents)
            while left and place <= left[0][0] <= end - 16 and not any(contents[left[0][0] - address:][:16]):
                at, *parts = left.pop(0)
                lines += [*bytes_of_text(contents[place - address:at - address]), f".cap {', '.join(map(str, parts))}"]
                place = at + 16
            lines += bytes_of_text(contents[place - address:])
        return None if left else "\n".join(lines)


def bytes_of_text(contents):
    """The lines that place bytes."""
    return [f".byte {', '.join(map(str, contents[start:start + 32]))}" for start in range(0, len(contents), 32)]


def section_of(word):
    address, _, contents = word.partition(":")
    return int(address, 16), bytes_of(contents)


def shown(text):
    """The image that an answer shows."""
    words = text.split()
    version = 2 if words[0] == "v2" else 1
    pages, entry, mode, *rest = words[version - 1:]
    sections = [section_of(word) for word in rest if word[0] != "@"]
    capabilities = [tuple(int(part, 16) for part in word[1:].split(":")) for word in rest if word[0] == "@"]
    return Image(version, int(pages, 16), int(entry, 16), int(mode, 16), sections, capabilities)


def asked(what, words):
    """The image that the words of a build are."""
    pages, entry, mode = (int(word, 16) for word in words[:3])
    capabilities, rest = [], words[3:]
    if what.endswith("2"):
        count, rest = int(rest[0], 16), rest[1:]
        capabilities = [tuple(int(word, 16) for word in rest[5 * k:5 * k + 5]) for k in range(count)]
        rest = rest[5 * count:]
    return Image(2 if what.endswith("2") else 1, pages, entry, mode, [section_of(word) for word in rest], capabilities)


def version_of(file):
    return int.from_bytes(file[8:12], "little")


def read_back(file):
    """The image of a file that has no fault."""
    def number_at(place, size):
        return int.from_bytes(file[place:place + size], "little")
    version, sections, capabilities, place = version_of(file), [], [], 32
    for _ in range(number_at(24, 4)):
        address, length = number_at(place, 8), number_at(place + 8, 8)
        sections.append((address, file[place + 16:place + 16 + length]))
        place += 16 + length
    if version == 2:
        for _ in range(number_at(place, 4)):
            capabilities.append(tuple(number_at(place + 4 + at, 4 if at > 16 else 8) for at in (0, 8, 16, 24, 28)))
            place += 32
    return Image(version, number_at(12, 4), number_at(16, 8), number_at(28, 4), sections, capabilities)
