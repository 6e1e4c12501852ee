#!/usr/bin/env python3
"""The words that a session of the debugger takes: its commands, what may follow them, and the names of registers, one a line.

    python3 tools/command_words.py > words; rlwrap -f words cherisim debug IMAGE

They are read off the table of commands, crates/debug_commands/src/table.rt: the name that begins each line, and the small letters of
the operands that `help` shows.
"""
import os
import re

from model.names import REGISTERS, SCRS

TOP = os.path.join(os.path.dirname(os.path.abspath(__file__)), "..")
TABLE = os.path.join(TOP, "crates", "debug_commands", "src", "table.rt")
# A line of the table: a name, and the operands and an example that `help` shows, where it shows it.
LINE = re.compile(r'^\s+"([a-z]+|B[1-4])" \((?:"((?:[^"\\]|\\.|\\\n)*)", "[^"]*")?\)', re.MULTILINE)


def words(table):
    """The words of a table, each once."""
    for name, operands in LINE.findall(table):
        yield name
        yield from re.findall(r"\b[a-z]+\b", operands.replace("\\n\\\n", " "))


def main():
    with open(TABLE, encoding="utf-8") as file:
        listed = dict.fromkeys([*words(file.read()), *REGISTERS, *SCRS])
    print("\n".join(listed))


if __name__ == "__main__":
    main()
