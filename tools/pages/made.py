"""Parts of pages that scripts make: what stands between a line `<!-- made by SCRIPT: WHAT -->` and the next `<!-- end -->`.

Such a part is the script's: it fills it, and its `--check` says where it differs. tools/pages/words.py counts no word of it.
"""
import os
import re
import sys

sys.path.insert(0, os.path.join(os.path.dirname(os.path.abspath(__file__)), ".."))
from toolchain import ROOT

PART = re.compile(r"^<!-- made by (\S+?)(?:: (.*?))? -->\n(.*?)^<!-- end -->$", re.MULTILINE | re.DOTALL)


def read(page):
    """The text of a page, by its path in the repository."""
    with open(os.path.join(ROOT, page), encoding="utf-8") as file:
        return file.read()


def filled(text, script, made):
    """A page's text with the parts of a script made anew: what `made` answers for what each of them is to be."""
    def part(found):
        of, what, _ = found.groups()
        if of != script:
            return found.group()
        head = f"<!-- made by {of}{f': {what}' if what else ''} -->"
        return f"{head}\n\n{made(what)}\n\n<!-- end -->"
    return PART.sub(part, text)


def by_hand(text):
    """A page's text without the parts that scripts make."""
    return PART.sub("", text)


def fill(page, script, made, check):
    """Fills the parts of a script in a page, or only says that they are others, and answers whether all is well."""
    text = read(page)
    anew = filled(text, script, made)
    if text == anew:
        return True
    if check:
        print(f"{page}: what tools/pages/{script} makes of it is something else")
        return False
    with open(os.path.join(ROOT, page), "w", encoding="utf-8") as file:
        file.write(anew)
    return True
