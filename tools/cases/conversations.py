"""Conversations of the debugger, with what is answered by the rules of its commands.

A conversation stands after its machine's program, `@` and statements: a line that begins with `> ` is typed after that, with escapes,
one that begins with `< ` is typed and left unread, one that begins with `% ` has the gap, the tick and the input of the session's
schedule, each `-` where it isn't given, one that begins with `&` has the session's table of symbols, as `NAME=ADDRESS`, and every other
line is answered. An empty line ends the conversation.
"""

from cases.quoting import escaped
from model.schedules import Schedule
from model.sessions import Session

# What shows the whole state but RAM.
STATE = "csr; scr; regs"


def typed(line):
    """A line that is typed: a blank at its end is written as an escape."""
    text = escaped(line)
    return ("> " + (text[:-1] + "\\x20" if text.endswith(" ") else text)).rstrip()


def conversation(about, program, text):
    yield ""
    yield f"# {about}"
    yield f"@ {program}".rstrip()
    yield from text.strip("\n").split("\n") if text else []


def said(session, commands):
    """What is typed, and what the model of a session answers; commands are a list, or parted by `; `."""
    return "\n".join(line for command in (commands.split("; ") if isinstance(commands, str) else commands)
                     for line in (typed(command), *session.answer(command).splitlines()))


def modelled(about, program, commands, schedule=None, labels=None, kind=Session, left=()):
    """A conversation by the model; on a schedule of a gap, a tick and the bytes of the input, with a table of names and addresses, and with
    lines that are left unread."""
    session = kind(program, schedule and Schedule(*schedule), labels)
    first = [f"% {schedule[0]} {schedule[1]} {escaped(bytes(schedule[2])) or '-'}"] if schedule else []
    first += [] if labels is None else [" ".join(["&", *(f"{name}={address:x}" for name, address in labels.items())])]
    return about, program, "\n".join([*first, said(session, commands), *(f"< {line}" for line in left)])


def replies(rows):
    """A conversation's text of pairs: what is typed, and what is answered."""
    return "\n".join(typed(line) + ("\n" + answer if answer else "") for line, answer in rows)
