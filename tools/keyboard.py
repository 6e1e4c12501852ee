#!/usr/bin/env python3
"""Tries sessions of the debugger at the keyboard, each on a terminal of its own.

    python3 tools/keyboard.py [PROGRAM]

PROGRAM is the proved program, as the gate leaves it: crates/cherisim/out/cherisim. The session that docs/DEBUGGER.md shows has to be as it
stands there. In others odd lines are typed too, and the terminal has to show what the program answers over pipes where each line that
Enter repeats is written out, with bytes that were sent as a text besides. Where one end is a pipe, and at other commands, all is as over
pipes. A command that takes seconds shows on a terminal how far it came.
"""
import contextlib
import os
import re
import select
import subprocess
import sys
import tempfile
import termios

from toolchain import ROOT, program_given

PAGE = os.path.join(ROOT, "docs", "DEBUGGER.md")
EXAMPLES = os.path.join(ROOT, "examples")
# The session that the page shows, and its image.
SHOWN = re.compile(r"^## At the keyboard\n.*?^```\n\$ cherisim debug (.*?)\n(.*?)^```$", re.MULTILINE | re.DOTALL)

PROMPT, END = "(cherisim) ", "\x04"
# How long a terminal may show nothing before a session is given up.
SECONDS = 60

# A program that sends each byte once.
BYTES = """lui a1, 0x10000
addi a2, zero, 256
again: sb a0, 0(a1)
addi a0, a0, 1
bne a0, a2, again
lui a1, 0x100
sd zero, 0(a1)
"""
# A program without an end, steps of it that take seconds where a stop watches a register, and what a terminal is shown of them.
ENDLESS, LONG = "loop: j loop\n", 300_000_000
COUNTS = re.compile(r"(?:cherisim: [0-9]+ steps\n)+")
# What is typed, and the line that it stands for.
LINES = (("", ""), ("step 4", "step 4"), ("", "step 4"), ("", "step 4"), ("nothing", "nothing"), ("", "step 4"), ("reg ca99", "reg ca99"),
         ("", "step 4"), ("byte 65", "byte 65"), ("", "step 4"), ("stop off", "stop off"), ("", "step 4"), ("# step 1", "# step 1"),
         ("", "step 4"), ("help", "help"), ("", "step 4"), ("   ", "   "), ("", "step 4"), ("\treg  a0 ", "reg a0"), ("", "reg a0"),
         ("ago" + " " * 300, "ago" + " " * 300), ("", "reg a0"), ("ago" + " " * 252, "ago"), ("", "ago"), ("\0", "\0"), ("", "ago"),
         ("back 1", "back 1"), ("", "back 1"), ("back 1000", "back 1000"), ("", "back 1"), ("regs", "regs"), ("", "regs"), ("go", "go"),
         ("", "go"), ("ago", "ago"))
# How a session ends: what is typed, the line that it stands for, and what the terminal shows of it besides the reply.
ENDS = ((END, "", "\n"), ("quit\n", "quit\n", ""), ("ago" + END + END, "ago", "\n"))

SENT = re.compile(r"^(events [0-9]+ out )((?:[0-9a-f]{2})+) ", re.MULTILINE)
ESCAPES = {"\n": r"\n", "\t": r"\t", '"': r"\"", "\\": r"\\"}


def quoted(digits):
    """The bytes of hexadecimal digits as a text."""
    text = bytes.fromhex(digits).decode("latin-1")
    return '"' + "".join(ESCAPES.get(it) or (it if " " <= it <= "~" else f"\\x{ord(it):02x}") for it in text) + '"'


def with_texts(replies):
    """Replies with the bytes that were sent as texts too."""
    return SENT.sub(lambda found: f"{found[1]}{found[2]} {quoted(found[2])} ", replies)


def came(file, until=None):
    """What comes from a terminal or a pipe, up to a text or its end."""
    text = ""
    while not (until and text.endswith(until)) and select.select([file], [], [], SECONDS)[0]:
        try:
            more = os.read(file, 65536)
        except OSError:  # so a terminal ends
            break
        if not more:
            break
        text = (text + more.decode("ascii")).replace("\r\n", "\n")
    return text


class Terminal:
    """A terminal that shows nothing of what is typed: its own end, and the program's."""

    def __init__(self):
        self.own, self.of_program = os.openpty()
        modes = termios.tcgetattr(self.of_program)
        modes[3] &= ~termios.ECHO
        termios.tcsetattr(self.of_program, termios.TCSANOW, modes)

    def __enter__(self):
        return self

    def __exit__(self, *_):
        os.close(self.own)


@contextlib.contextmanager
def begun(words, typed, shown):
    """A program that is begun with these for its input and output; an error where it doesn't end with 0."""
    with subprocess.Popen(words, stdin=typed, stdout=shown) as program:
        for file in {typed, shown} - {subprocess.PIPE}:
            os.close(file)
        try:
            yield program
            if program.wait(SECONDS):
                raise ValueError(f"status {program.returncode}")
        finally:
            program.kill()


def at_keyboard(words, typed):
    """What a terminal shows of a program, at which these are typed, each when it is asked for."""
    with Terminal() as terminal, begun(words, terminal.of_program, terminal.of_program):
        shown = ""
        for keys in typed:
            shown += came(terminal.own, PROMPT)
            os.write(terminal.own, keys.encode("ascii"))
        return shown + came(terminal.own)


def typed_alone(words, typed):
    """What a program answers into a pipe where what it reads is typed at a terminal."""
    with Terminal() as terminal, begun(words, terminal.of_program, subprocess.PIPE) as program:
        os.write(terminal.own, typed.encode("ascii"))
        return came(program.stdout.fileno())


def shown_alone(words, typed):
    """What a terminal shows where what the program reads comes from a pipe."""
    with Terminal() as terminal, begun(words, subprocess.PIPE, terminal.of_program) as program:
        program.stdin.write(typed.encode("ascii"))
        program.stdin.close()
        return came(terminal.own)


def told_besides(words, typed):
    """What a terminal on standard error shows while a program answers over pipes."""
    with Terminal() as terminal:
        with subprocess.Popen(words, stdin=subprocess.PIPE, stdout=subprocess.DEVNULL, stderr=terminal.of_program) as program:
            os.close(terminal.of_program)
            program.stdin.write(typed.encode("ascii"))
            program.stdin.close()
            return came(terminal.own)


def over_pipes(words, typed):
    """What a program answers over pipes; an error where it doesn't end with 0."""
    return subprocess.run(words, input=typed, stdout=subprocess.PIPE, encoding="ascii", timeout=SECONDS, check=True).stdout


def same(what, is_to_be, is_so):
    """Says of what is tried whether it is as it is to be, and answers it."""
    print(f"at the keyboard, {what}: " + ("as expected" if is_so == is_to_be else f"stands:\n{is_to_be}came:\n{is_so}"))
    return is_so == is_to_be


def page_session(program):
    """Tries the session that the page shows, of an image of an example."""
    with open(PAGE, encoding="utf-8") as file:
        image, session = SHOWN.search(file.read()).groups()
    subprocess.run([program, "asm", os.path.join(EXAMPLES, image.replace(".img", ".s")), image], timeout=SECONDS, check=True)
    asked = PROMPT.rstrip()
    lines = session.splitlines(keepends=True)
    typed = [line.removeprefix(asked).lstrip(" ") for line in lines if line.startswith(asked)]
    is_to_be = "".join(PROMPT if line.startswith(asked) else line for line in lines)
    return same("the session of docs/DEBUGGER.md", is_to_be, at_keyboard([program, "debug", image], typed))


def odd_sessions(debug):
    """Tries sessions with odd lines that end in each way."""
    for keys, last, besides in ENDS:
        meant = "".join(f"{line}\n" for _, line in LINES)
        answered, reply = over_pipes(debug, meant), over_pipes(debug, meant + last)
        is_to_be = with_texts(answered) + besides + reply.removeprefix(answered)
        shown = at_keyboard(debug, [*(f"{line}\n" for line, _ in LINES), keys])
        asked = shown.count(PROMPT) == len(LINES) + 1
        yield asked and same(f"to the end by {keys!r}", is_to_be, shown.replace(PROMPT, ""))


def bare_sessions(program, debug):
    """Tries what isn't at the keyboard: sessions with a pipe at one end, and another command."""
    lines = [line for line, _ in LINES if "\0" not in line and len(line) < 300]
    typed = "".join(f"{line}\n" for line in lines)
    bare = over_pipes(debug, typed)
    yield PROMPT not in bare and '"' not in bare and bare.count("fault B1\n") == sum(line.strip() in ("", "nothing") for line in lines)
    yield same("replies into a pipe", bare, typed_alone(debug, typed + END))
    yield same("lines from a pipe", bare, shown_alone(debug, typed))
    listing = [program, "dis", debug[-1]]
    yield same("another command", over_pipes(listing, ""), at_keyboard(listing, []))


def long_commands(program):
    """Tries that a command shows how far it came where it takes seconds, and else nothing."""
    with open("endless.s", "w", encoding="ascii") as file:
        file.write(ENDLESS)
    debug = [program, "debug", "endless.s"]
    yield same("nothing is told of a short command", "", told_besides(debug, f"go {LONG // 100}\ngo {LONG // 100}\n"))
    counts = told_besides(debug, f"stop changed a0\ngo {LONG}\n")
    yield same("how far a long command came", counts if COUNTS.fullmatch(counts) else "cherisim: N steps\n", counts)


def tried(program):
    """Tries all of it, in the folder where it stands, and answers whether all is as expected."""
    with open("bytes.s", "w", encoding="ascii") as file:
        file.write(BYTES)
    debug = [program, "debug", "bytes.s"]
    return all([page_session(program), *odd_sessions(debug), *bare_sessions(program, debug), *long_commands(program)])


def main():
    program = program_given(sys.argv[1:])
    with tempfile.TemporaryDirectory(prefix="keyboard-") as room:
        os.chdir(room)
        try:
            return 0 if tried(program) else 1
        except (OSError, ValueError, subprocess.SubprocessError) as error:
            print(f"at the keyboard: {error}")
            return 1


if __name__ == "__main__":
    sys.exit(main())
