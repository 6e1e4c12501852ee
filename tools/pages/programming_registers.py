"""The tables of registers of docs/PROGRAMMING.md: general, control and status, and special ones."""

import re

from pages.definitions import Definitions, NotUnderstood, choices, fields, items, matched, pair, split, worth
from pages.markdown import table
from pages.programming_books import DEVICES, FIXED, KEPT, NUMBERS, REFUSALS, REGISTERS, asked_of_register, defined, kept_rows, listed, said

WRITES = Definitions("special_regs/specs/Writes")
OPENING = Definitions("hart/specs/Opening")
BITS = {name: worth(WRITES.body(name), NUMBERS) for name in ("mie_bit", "mpie_bit", "interrupt_bits")}


def first_numbers():
    """What the registers that only keep a number hold first, by name."""
    return [(name, "2^64 - 1" if first == "u64::MAX" else str(worth(first))) for _, name, first, _ in kept_rows()]


def register_name(name):
    """The name that software knows a device register by."""
    return {"timer": "mtime", "control_register": "control"}.get(name, name)


# ---- control and status registers


def set_bits(number):
    return [bit for bit in range(64) if number >> bit & 1]


def mstatus_read():
    """mstatus bit by bit."""
    ones, named = [], {}
    for part in split(Definitions("special_regs/specs/CsrValues").body("mstatus"), " + "):
        found = re.fullmatch(r"bit c\.mstatus_(\w+) \* 2 \^ (\w+)", part)
        if found:
            named[BITS[found.group(2)]] = found.group(1).upper()
        else:
            ones += set_bits(worth(part))
    bits = "; ".join(f"bit {bit}: {name}" for bit, name in sorted(named.items()))
    return f"{bits}; bits {' and '.join(map(str, ones))} are 1; the other bits 0"


def bits_named(bits):
    """Bits by their places: those of a run by its two ends."""
    if len(bits) > 2 and bits == list(range(bits[0], bits[-1] + 1)):
        return f"{bits[-1]}..{bits[0]}"
    return " and ".join(map(str, bits))


def csr_read(constant, text):
    if text == "mstatus c":
        return mstatus_read()
    if text == "mip":
        return f"{said('READS', text)}: bit {NUMBERS['TIMER']} the timer, bit {NUMBERS['EXTERNAL']} the console"
    if re.fullmatch(r"0x[0-9A-Fa-f_]+", text):
        number = worth(text)
        letters = "".join(chr(ord("A") + bit) for bit in set_bits(number) if bit < 26)
        return f"`{number:#018x}`" + (f": 64 bits, extensions {' and '.join(letters)}" if constant == "MISA" else "")
    return "what is kept" if re.fullmatch(r"c\.\w+", text) else said("READS", text)


def csr_written():
    """What is kept of a write, by register."""
    written = {constant: [said("WRITES", "value") if bits == "u64::MAX" else bits_named(set_bits(worth(bits)))]
               for constant, bits in KEPT.items()}
    for field, text in fields(WRITES.body("csrs_written")) + fields(WRITES.body("views_written")):
        if text == "kept_written n value c.kept":
            continue
        (at, value), (_, other) = choices(text)
        if other not in (f"c.{field}", f"s.{field}"):
            raise NotUnderstood(f"{WRITES.file}: {field} = {text}")
        found = re.fullmatch(r"has_bit value (\w+)", value)
        if found:
            kept = str(BITS[found.group(1)])
        elif value == "bit_and value interrupt_bits":
            kept = bits_named(set_bits(BITS["interrupt_bits"]))
        else:
            kept = said("WRITES", value)
        written.setdefault(at.removeprefix("n == "), []).append(kept)
    return {name: f"bits {' and '.join(map(str, sorted(kept)))}" if len(kept) > 1 or kept[0][0].isdigit() else kept[0]
            for name, kept in written.items()}


def csr_table():
    reads = dict(map(pair, items(Definitions("special_regs/specs/CsrValues").body("csr_values"))))
    reads |= {constant: "c.kept" for constant in KEPT} | FIXED
    bits, _, ones = REFUSALS.body("is_read_only").partition(" == ")
    read_only = [constant for constant, _ in listed("CSRS") if worth(bits, {"n": REGISTERS[constant][0]}) == worth(ones, {})]
    written = csr_written()
    rows = []
    for constant, name in listed("CSRS"):
        number, comment = REGISTERS[constant]
        write = "illegal instruction" if constant in read_only else written.get(constant, "nothing; it is no fault")
        rows.append([f"`{number:#05x}`", name, comment.rstrip("."), csr_read(constant, reads.pop(constant)), write])
    if reads:
        raise NotUnderstood(f"special_regs/specs/CsrValues.antt: {reads}")
    return table(["Number", "Name", "It is", "A read gives", "A write keeps"], rows)


# ---- special capability registers


def register_at_fault(number):
    return worth(Definitions("base/specs/Registers").body("special_register"), {"n": number})


def special_table():
    opening = dict(fields(OPENING.body("opening_scrs")))
    written = {}
    for field, text in fields(WRITES.body("scr_written")):
        (at, value), _ = choices(text)
        if value != "v":
            raise NotUnderstood(f"{WRITES.file}: {field} = {text}")
        written[at.removeprefix("n == ")] = "cs1, whatever it is"
    first = matched(r".*not \(nat_le (\w+) n\) \|\| has_system_access s.*", REFUSALS.body("scr_checks")).group(1)
    rows = []
    for constant, name in listed("SPECIAL_REGISTERS"):
        number, comment = REGISTERS[constant]
        who = "code with Access_System_Registers" if number >= REGISTERS[first][0] else "any code"
        rows.append([str(number), name, comment.rstrip("."), who, written.get(constant, "illegal instruction"),
                     str(register_at_fault(number)), said("OPENING", opening[name])])
    return table(["Number", "Name", "It is", "Used by", "A write keeps", "Register in mtval", "It begins as"], rows)


def general_table():
    """Numbers and names of the registers, in four columns of pairs."""
    names = Definitions("asm_names/specs/Registers")
    columns = [[found for found in re.findall(r'codes "(\w+)"', names.body(body))] for body in ("integer_names", "capability_names")]
    if [len(column) for column in columns] != [32, 32]:
        raise NotUnderstood(f"{names.file}: names")
    cells = [f"{number} `{name}` `{capability}`" for number, (name, capability) in enumerate(zip(*columns))]
    return table(["", "", "", ""], [[cells[row + 8 * column] for column in range(4)] for row in range(8)])


# ---- what they hold first


def opening_list():
    state = dict(fields(OPENING.body("opening")))
    if state != {"registers": "null_registers", "scrs": "opening_scrs i", "csrs": "zero_csrs", "memory": "opening_memory i",
                 "devices": "idle"}:
        raise NotUnderstood(f"{OPENING.file}: opening")
    lines = [f"The general registers: {defined('registers/specs/Registers', 'null_registers')}."]
    lines += [f"{name.upper() if name != 'mscratchc' else 'MScratchC'}: {said('OPENING', text)}."
              for name, text in fields(OPENING.body("opening_scrs"))]
    csrs = []
    for name, text in fields(Definitions("special_regs/specs/Csrs").body("zero_csrs")):
        if (name, text) == ("kept", "replicate (length CSRS) 0"):
            csrs += [(name, "0") for constant, name in listed("CSRS") if constant in KEPT]
        else:
            csrs.append((name.replace("mstatus_", "").upper() if "mstatus" in name else name, said("OPENING", text)))
    devices = []
    for name, text in fields(DEVICES.body("idle")):
        devices += first_numbers() if (name, text) == ("kept", "FIRST") else [(name, said("OPENING", text))]
    for pairs in (csrs, devices):
        lines.append("; ".join(f"{name}: {text}" for name, text in pairs) + ".")
    lines.append(f"RAM: {defined('hart/specs/Opening', 'loaded_memory')}; {defined('hart/specs/Opening', 'opening_memory')}.")
    return "\n".join(f"- {line}" for line in lines)


def made_of_registers():
    system = "steps/specs/SystemRows"
    return {
        "number": f"{defined('cap_bounds/specs/CapValue', 'integer')}; {defined('registers/specs/Registers', 'with_register')}",
        "general": general_table(),
        "mode": defined("steps/specs/Looks", "in_capability_mode"),
        "csrs": csr_table(),
        "csr_checks": asked_of_register("csr_asked"),
        "csr_register": defined(system, "csr_asked"),
        "csr_writes": defined(system, "csr_writes"),
        "csr_counted": defined("steps/specs/Effect", "applied", "(Csr w) s"),
        "special": special_table(),
        "special_checks": asked_of_register("special_asked"),
        "special_register": defined(system, "special_asked"),
        "special_writes": defined(system, "special_done"),
        "opening": opening_list(),
    }
