#!/usr/bin/env python3
"""docs/PROGRAMMING.md, the programmer's page, made of the repository's own tables.

    python3 tools/pages/programming.py            writes it
    python3 tools/pages/programming.py --check    says the first line that differs from what stands there, and ends with 1 if any does

The prose stands in tools/pages/programming.md, with a name in double braces for each table and number; programming_words.py beside it
has the words for each condition and definition, by its text. Every number, name, bit, mask and order comes from the sources. A source
that isn't understood, words that nothing asks for, or a name that the prose doesn't use ends the script with 1 too.
"""
import os
import re
import sys

sys.path.insert(0, os.path.join(os.path.dirname(os.path.abspath(__file__)), ".."))
import pages.programming_words as words
from pages.definitions import Definitions, NotUnderstood, bare, choices, fields, items, matched, split, worth
from pages.markdown import table
from pages.programming_books import (
    DEVICES, MCAUSE, NUMBERS, PERMISSIONS, cases_shown, cause, checks, condition, condition_of, defined,
    kept_rows, mcause, permission, said, steps, used,
)
from pages.programming_registers import made_of_registers, register_name, set_bits
from pages.programming_rows import format_table, row_count, row_names, rows_table
from pages.programming_traps import made_of_traps, pending_order

TOP = os.path.join(os.path.dirname(os.path.abspath(__file__)), "..", "..")
PROSE = os.path.join(TOP, "tools", "pages", "programming.md")
PAGE = os.path.join(TOP, "docs", "PROGRAMMING.md")
FIRST_FAULT = Definitions("cap_checks/specs/FirstFault")
MEMORY = Definitions("steps/specs/MemoryRows")
STEP = Definitions("steps/specs/Step")


def unused():
    """The words that nothing asked for."""
    for book in (name for name in dir(words) if name.isupper()):
        yield from (f"{book}: {text}" for text in getattr(words, book) if (book, text) not in used)


def together(name, *definitions):
    """The words for several definitions that say one thing."""
    return said("DEFINITIONS", f"{name} {'; '.join(cases_shown(name, definition) for definition in definitions)}")


def entries(text):
    """The entries of a list, parts of which may be put together by `++`: each of these but the last is one entry."""
    first, *others = split(bare(text), "++")
    if others:
        return [first, *entries(" ++ ".join(others))]
    *listed, end = split(first, "∷")
    return listed if end == "[]" else [*listed, *entries(end)]


def asked_in_some_cases(entry):
    """The fault and the truth of a condition that is asked in some cases alone, and of any other."""
    name, *arguments = split(bare(entry), " ")
    if name != "asked_if":
        return condition_of(FIRST_FAULT, entry)
    matched(r"if is_asked then c ∷ \[\] else \[\]", FIRST_FAULT.body("asked_if"))
    otherwise, holds = condition_of(FIRST_FAULT, arguments[1])
    return otherwise, f"{holds}, if {bare(arguments[0])}"


def listed_checks(name):
    """The conditions of a list of cap_checks."""
    return [asked_in_some_cases(entry) for entry in entries(FIRST_FAULT.body(name))]


def mapped(*conditions):
    """The row of what a load and a store ask of the map: the same, with a fault of each."""
    asked = [condition_of(MEMORY, text) for text in conditions]
    load, store = (matched(r"fault cause\.(\w+) address", otherwise).group(1) for otherwise, _ in asked)
    holds, other = (condition(text) for _, text in asked)
    if holds != other:
        raise NotUnderstood(f"{MEMORY.file}: {conditions}")
    return holds, f"{mcause(load)}, or {MCAUSE[store]}, {cause(store)}: mtval is {said('MTVAL', 'address')}"


def access_table():
    found = matched(r"(\w+) \(authority_of insn s\) \(authority_number_of insn s\) a \(place_of insn s\) \+\+ mapped ∷ \[\]",
                    MEMORY.body("access_asked"))
    return checks(listed_checks(found.group(1)), behind=[mapped("loads_from address size s", "stores_to address size s")])


def fetch_table():
    return checks([*listed_checks("fetch_checks"), condition_of(STEP, "fetches_from s")])


# ---- the map and the devices


def map_table():
    matched(r"is_named address \|\| is_some \(kept_at address\)", DEVICES.body("is_register"))
    rows = [(worth(place), [name, comment, "sets it to the number"]) for place, name, _, comment in kept_rows()]
    places = {name: worth(DEVICES.body(name)) for name in items(
        matched(r"list_any \(λ register\. address == register\) (.*)", DEVICES.body("is_named")).group(1))}
    loads = {at: value for at, value in choices(DEVICES.body("value_at"))}
    stores = {}
    written = dict(fields(DEVICES.body("written")))
    matched(r"kept_in \(kept_at address\) value d\.kept", written.pop("kept"))
    for text in [*written.values(), DEVICES.body("effect_of")]:
        for at, value in choices(text):
            if at is not None:
                stores.setdefault(at, []).append(said("STORES", value))
    shown = [body for _, body in Definitions("devices/specs/Map").cases("address_of")]
    for name in shown:
        at = f"address == {name}"
        load = said("LOADS", loads.get(at, loads[None]))
        store = "; ".join(text for text in stores.get(at, ["nothing"]) if text)
        rows.append((places.pop(name), [register_name(name), load, store]))
    if places:
        raise NotUnderstood(f"{DEVICES.file}: no register for {places}")
    return table(["Address", "Register", "A load gives", "A store"], [[f"`{address:#010x}`", *cells] for address, cells in sorted(rows)])


def widths():
    """Which loads and stores device registers take."""
    unknown = r"if not \(is_register address\) then Some V1 else "
    load = matched(unknown + r"\(if size == (\d+) then None else Some V2\)", DEVICES.body("read_fault"))
    single = r"\(\(address == (\w+)\) && \(size == (\d+)\)\)"
    matched(unknown + r"\(if takes_size address size then None else Some V2\)", DEVICES.body("write_fault"))
    store = matched(rf"\(size == (\d+)\) \|\| {single}", DEVICES.body("takes_size"))
    if load.group(1) != store.group(1):
        raise NotUnderstood(f"{DEVICES.file}: read_fault, write_fault")
    return (f"A register takes loads and stores of {load.group(1)} bytes at its own address; {register_name(store.group(2))} also stores "
            f"of {store.group(3)} byte. Any other load or store outside RAM is an access fault, and so is a fetch, or a load or store of "
            "a capability, from or to a register")


# ---- capabilities


def permission_table():
    view = Definitions("cap_rights/specs/Perms").body("hardware_view")
    place = matched(r"field word (\d+) (\d+)", Definitions("cap_format/specs/Word").body("perms_of"))
    bits = {pattern: worth(body) for pattern, body in Definitions("cap_rights/specs/Permission").cases("bit_of")}
    names = {bits[name]: (permission(name), comment.rstrip(".")) for name, comment in PERMISSIONS}
    rows = []
    for bit in range(int(place.group(2))):
        shown = set_bits(worth(view, {"perms": 1 << bit}))
        name, comment = names.get(bit, (f"user permission {bit - len(names)}", "For software: no instruction asks for it"))
        rows.append([str(bit), name, str(shown[0]), str(int(place.group(1)) + bit), comment])
    return table(["Bit", "Permission", "Bit in CGetPerm and CAndPerm", "Bit of the word", "With it"], rows)


def root_perms():
    record = matched(r"record_with 0 \(2 \^ 64\) address (0x\w+) flag unsealed_type",
                          Definitions("cap_bounds/specs/Root").body("root_record"))
    shown = worth(Definitions("cap_rights/specs/Perms").body("hardware_view"), {"perms": worth(record.group(1))})
    return f"`{shown:#x}`"


def type_table():
    reserved, plain_ = choices(Definitions("cap_rights/specs/ObjectType").body("signed_type"))
    if (reserved[0], plain_[1]) != ("is_reserved otype", "otype"):
        raise NotUnderstood("cap_rights/specs/ObjectType.antt: signed_type")
    first = NUMBERS["FIRST_RESERVED"]
    names = {NUMBERS["UNSEALED"]: "unsealed", NUMBERS["SENTRY"]: "sentry: a sealed entry, which a jump opens"}
    rows = [[f"`0x0` to `{first - 1:#x}`", "sealed by CSeal, opened by CUnseal and CInvoke", "the type"]]
    for otype in range(first, NUMBERS["UNSEALED"] + 1):
        rows.append([f"`{otype:#x}`", names.get(otype, "reserved: nothing seals with it"),
                     f"`{worth(reserved[1], {'otype': otype}):#018x}`"])
    return table(["Type", "Meaning", "CGetType"], rows)


# ---- what instructions over capabilities give


# The definition that says when the tag stays, by the function that makes the value.
KEEPS_TAG = {
    "at_address": ("cap_bounds/specs/SetAddress", "at_address"),
    "with_bounds": ("cap_bounds/specs/SetBounds", "may_bound"),
    "with_exact_bounds": ("cap_insns/specs/CapabilityRows", "with_exact_bounds"),
    "seal": ("cap_rights/specs/Derivations", "may_seal"),
    "unseal": ("cap_rights/specs/Derivations", "may_unseal"),
    "and_perms": ("cap_rights/specs/Derivations", "and_perms"),
    "set_flags": ("cap_rights/specs/Derivations", "set_flags"),
    "seal_entry": ("cap_rights/specs/Derivations", "seal_entry"),
}


def tag_kept(body):
    """When a result has the tag of cs1: nothing for a number, which has none."""
    maker = body.split()[0]
    if maker in KEEPS_TAG:
        return defined(*KEEPS_TAG[maker])
    return {"integer": "", "without_tag": "never", "cs1": "it is tagged"}[maker]


def capability_rows():
    """The rows of the kind Capability, in the table's order."""
    return [pattern.removeprefix("row.") for pattern, body in Definitions("isa_rows/specs/Line").cases("line_of")
            if " kind.Capability " in body]


def results_table():
    names, left = row_names(), capability_rows()
    rows = []
    for patterns, body in Definitions("cap_insns/specs/CapabilityRows").cases("row_value"):
        row = patterns.split()[0].removeprefix("row.")
        if row == "_":
            # what is given for the last row is given for whatever else
            row, = left
        left.remove(row)
        rows.append([f"`{names[row]}`", said("GIVES", body), tag_kept(body)])
    return table(["Instruction", "Gives", "Tagged if"], rows)


# ---- what happens


def step_list():
    step = "steps/specs/Step"
    asked = defined("special_regs/specs/Interrupts", "is_asked")
    return steps([
        defined(step, "stepped_unless"),
        f"{asked}. {defined(step, 'decided')}: {pending_order()}",
        together(step, "fetched_effect", "fetch", "fetch_asked", "word_unless"),
        defined(step, "decoded_effect"),
        f"{defined(step, 'kind_effect')}. {defined('steps/specs/Looks', 'where_all')}",
        f"{defined('steps/specs/Effect', 'done_at')}; {defined('steps/specs/Effect', 'counted')}",
    ])


def made_of_devices():
    devices = "devices/specs/Devices"
    return {
        "ram_base": f"`{NUMBERS['BASE']:#x}`",
        "page_bytes": str(NUMBERS["PAGE_BYTES"]),
        "most_pages": str(NUMBERS["MOST_PAGES"]),
        "most_pages_version_1": str(NUMBERS["MOST_PAGES_VERSION_1"]),
        "map": map_table(),
        "widths": widths(),
        "taken": defined(devices, "taken_at"),
        "queue_limit": str(worth(DEVICES.body("queue_limit"))),
        "received": defined(devices, "received"),
        "ticked": defined(devices, "ticked"),
        "asked": defined(devices, "interrupts_of"),
        "timer_bit": str(NUMBERS["TIMER"]),
        "external_bit": str(NUMBERS["EXTERNAL"]),
    }


def made_of_rows():
    return {
        "permissions": permission_table(),
        "root_perms": root_perms(),
        "types": type_table(),
        "sealed": defined("cap_bounds/specs/CapValue", "is_sealed"),
        "results": results_table(),
        "untagged": defined("cap_rights/specs/Derivations", "tagged_if"),
        "rounded": defined("cap_bounds/specs/Rounding", "rounding_granule"),
        "row_count": row_count(),
        "formats": format_table(),
        "csr_fields": f"{defined('steps/specs/SystemRows', 'csr_source')}; {defined('steps/specs/SystemRows', 'csr_number')}",
        "rows": rows_table(),
    }


def made_of_checks():
    memory, jumps, tags = "steps/specs/MemoryRows", "steps/specs/JumpRows", "tagged_memory/specs/Memory"
    first_fault = "cap_checks/specs/FirstFault"
    data = f"{defined(memory, 'load_done')}. {together(memory, 'store_done', 'stored_number')}"
    capabilities = together(memory, "memory_asked", "mapped_for", "capability_at")
    return {
        "step": step_list(),
        "order": together("cap_checks/specs/Question", "first_false", "judged", "asks"),
        "holds": defined(first_fault, "holds"),
        "fetch": fetch_table(),
        "place": defined(memory, "place_of"),
        "authority": "; ".join([defined(memory, "authority_through"), defined("steps/specs/Accesses", "is_rs1"),
                                defined(memory, "number_through")]),
        "access": access_table(),
        "mapped": f"{data}. {capabilities}",
        "loaded_capability": together(memory, "load_capability_done", "loaded_capability"),
        "tags": f"{defined(tags, 'data_written')}; {defined(tags, 'capability_written')}",
        "jump_target": defined(first_fault, "jump_target"),
        "target": checks(listed_checks(matched(r"(\w+) s\.scrs\.pcc target", Definitions(jumps).body("link_asked")).group(1))),
        "link": f"{defined(jumps, 'link_of')}; {defined(jumps, 'sentry_link')}",
        "entered": together(jumps, "enter_asked", "enter_done"),
        "invoked": together(jumps, "invoke_asked", "invoke_done"),
        "jump": checks(listed_checks("jump_checks")),
        "invoke_target": defined(first_fault, "invoke_target"),
        "invoke": checks(listed_checks("invoke_checks")),
    }


def made():
    """What stands for each name in the prose."""
    return made_of_devices() | made_of_registers() | made_of_traps() | made_of_rows() | made_of_checks()


def page():
    """The page: the prose with what is made in its places."""
    tables = made()
    with open(PROSE, encoding="utf-8") as file:
        prose = file.read()
    asked = re.findall(r"\{\{(\w+)\}\}", prose)
    wrong = [f"tools/pages/programming.md: no {name}" for name in asked if name not in tables]
    wrong += [f"tools/pages/programming.md doesn't use {name}" for name in tables if name not in asked]
    wrong += [f"tools/pages/programming_words.py: nothing asks for {text}" for text in unused()]
    if wrong:
        raise NotUnderstood("\n".join(wrong))
    return re.sub(r"\{\{(\w+)\}\}", lambda found: tables[found.group(1)], prose)


def first_difference(made_, standing):
    """The first line at which two texts differ, with both."""
    made_, standing = made_.split("\n"), standing.split("\n")
    for number in range(max(len(made_), len(standing))):
        lines = [text[number] if number < len(text) else "(no line)" for text in (standing, made_)]
        if lines[0] != lines[1]:
            return f"docs/PROGRAMMING.md, line {number + 1}:\n  stands: {lines[0]}\n  made:   {lines[1]}"
    return None


def main():
    try:
        text = page()
    except NotUnderstood as error:
        print(error)
        return 1
    if sys.argv[1:] == ["--check"]:
        with open(PAGE, encoding="utf-8") as file:
            difference = first_difference(text, file.read())
        if difference:
            print(difference)
        return 1 if difference else 0
    with open(PAGE, "w", encoding="utf-8") as file:
        file.write(text)
    return 0


if __name__ == "__main__":
    sys.exit(main())
