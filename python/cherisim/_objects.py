"""Values as the objects of JSON that the program tells have them (docs/JSON.md)."""
from __future__ import annotations

import json
from typing import Any, Dict, Mapping

from ._caps import Cap, _as_cgetperm
from ._html import letters
from ._library import RESERVED, SENTRY, UNSEALED


def line(members: Mapping[str, Any]) -> str:
    """The line of an object."""
    return json.dumps(members, separators=(",", ":")) + "\n"


def capability(value: Cap) -> Dict[str, Any]:
    """A capability that a register or memory holds."""
    sealing = {UNSEALED: "unsealed", SENTRY: "sentry"}.get(value.otype, "reserved" if value.otype >= RESERVED else "sealed")
    return {"tag": value.tag, "address": f"0x{value.address:016x}", "base": f"0x{value.base:016x}", "top": f"0x{value.top:017x}",
            "perms": _as_cgetperm(value.perms), "letters": letters(value.perms), "flag": bool(value.flag), "otype": value.otype, "sealing": sealing}
