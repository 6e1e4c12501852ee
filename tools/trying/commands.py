"""The program's command lines over files and streams, some of which fail."""
import re

from cases.quoting import quoted

from .desk import Desk
from .reading import unescaped

REFUSED = 2


class Given:
    """The files and the devices of a case, by its parts: `NAME "text"`, `NAME CALL "text"`, of which `input` is what is typed;
    `output CALL`, `errors CALL`, `made CALL`, `closed CALL`, `full` and `directory NAME`."""

    def __init__(self, parts):
        self.typed, self.files, self.devices, self.directories = b"", {}, {}, []
        for part in parts.split(" & "):
            self.take(part)

    def take(self, part):
        name, _, rest = part.partition(" ")
        if name in ("output", "errors", "made", "closed", "full"):
            self.devices[name] = int(rest or 0)
        elif name == "directory":
            self.directories.append(rest)
        else:
            call, text = re.fullmatch(r'(\d+ )?"(.*)"', rest).groups()
            if call:
                self.devices["input" if name == "input" else f"/{name}"] = int(call)
            if name == "input":
                self.typed = unescaped(text)
            else:
                self.files[name] = unescaped(text)


def written(status, contents):
    """What was written, as an answer has it: of a command line that is refused, and of help, only whether there is something."""
    return "a text" if status == REFUSED and contents else quoted(contents)


def command(bench, case):
    """A command line, files and what is typed: the status, what was opened and made in order, what was sent, what was told, and what stands
    in the file that was made."""
    line, _, parts = case.inputs.partition(" | ")
    given = Given(parts or 'input ""')
    desk = Desk(bench, given.files, given.directories, given.devices.items())
    status, opened, sent, told, made = desk.run(line.split(" ")[1:], given.typed)
    desk.clear()
    return f"{status} |{opened} | {written(status, sent)} | {written(status, told)} | {quoted(made)}"
