"""Structures, constants and functions of cherisim.h and cheri_caps.h: made of them by python/headers.py."""
import ctypes
from ctypes import POINTER, c_bool, c_char_p, c_size_t, c_uint8, c_uint16, c_uint32, c_uint64, c_void_p
from typing import Any, Dict, Tuple


class Word(ctypes.Structure):
    _fields_ = [("address", c_uint64), ("upper", c_uint64)]


class Number(ctypes.Structure):
    _fields_ = [("low", c_uint64), ("high", c_uint64)]


class Cap(ctypes.Structure):
    _fields_ = [("address", c_uint64), ("upper", c_uint64), ("tag", c_bool)]


class Fields(ctypes.Structure):
    _fields_ = [("base", c_uint64), ("top_low", c_uint64), ("top_high", c_uint64), ("address", c_uint64), ("otype", c_uint32),
                ("perms", c_uint16), ("flag", c_bool)]


class Insn(ctypes.Structure):
    _fields_ = [("imm", c_uint64), ("row", c_uint16), ("rd", c_uint8), ("rs1", c_uint8), ("rs2", c_uint8)]


class Handle(ctypes.Structure):
    _fields_ = [("at", c_void_p)]


class Sent(ctypes.Structure):
    _fields_ = [("sends", c_bool), ("byte", c_uint8)]


class Stepped(ctypes.Structure):
    _fields_ = [("steps", c_uint64), ("sent", Sent)]


class Asked(ctypes.Structure):
    _fields_ = [("steps", c_uint64), ("tick", c_uint64), ("before", c_uint64), ("address", c_uint64), ("at_address", c_bool),
                ("at_end", c_bool), ("doors", c_bool)]


class Ran(ctypes.Structure):
    _fields_ = [("steps", c_uint64), ("sent", c_uint64), ("stop", c_uint32)]


class Halted(ctypes.Structure):
    _fields_ = [("halted", c_bool), ("number", c_uint64)]


class Timer(ctypes.Structure):
    _fields_ = [("mtime", c_uint64), ("mtimecmp", c_uint64)]


class Console(ctypes.Structure):
    _fields_ = [("waiting", c_uint64), ("overrun", c_bool), ("control", c_bool)]


class Member(ctypes.Structure):
    _fields_ = [("value", Cap), ("place", c_uint64), ("from_", c_uint64), ("kind", c_uint32)]


class Answer(ctypes.Structure):
    _fields_ = [("member", c_uint64), ("may", c_bool)]


class Door(ctypes.Structure):
    _fields_ = [("sealed", c_uint64), ("key", c_uint64), ("sealed_kind", c_uint32), ("key_kind", c_uint32)]


class Question(ctypes.Structure):
    _fields_ = [("address", c_uint64), ("length", c_uint64), ("kind", c_uint32), ("otype", c_uint32), ("doors", c_bool)]


class Timetable(ctypes.Structure):
    _fields_ = [("steps", c_uint64), ("gap", c_uint64), ("tick", c_uint64)]


class Breach(ctypes.Structure):
    _fields_ = [("step", c_uint64), ("line", c_uint64), ("member", c_uint64), ("part", c_uint32), ("found", c_bool)]


class Given(ctypes.Structure):
    _fields_ = [("number", c_uint64), ("kind", c_uint32)]


class Place(ctypes.Structure):
    _fields_ = [("number", c_uint64), ("kind", c_uint32)]


class Link(ctypes.Structure):
    _fields_ = [("value", Cap), ("before", c_uint64), ("pc", c_uint64), ("place", Place), ("source", Place), ("has_source", c_bool),
                ("written", c_bool)]


CONSTANTS: Dict[str, int] = {"OK": 0, "LABELS": 57, "NO_MEMORY": 64, "NO_MACHINE": 65, "RANGE": 66, "FULL": 67, "STEPS": 0, "HALTED": 1,
                             "BUFFER": 2, "ADDRESS": 3, "TRAP": 4, "UNSEAL": 5, "SEALED_JUMP": 6, "IN_REGISTER": 0, "IN_SPECIAL": 1,
                             "IN_MEMORY": 2, "MAY_STORE": 0, "MAY_LOAD": 1, "MAY_EXECUTE": 2, "MAY_LEARN": 3, "MAY_KEEP": 4,
                             "MAY_SEND": 5, "MAY_HALT": 6, "MAY_SYSTEM": 7, "MAY_TIMER": 8, "MAY_HOLD": 9, "RULE_STORE": 0,
                             "RULE_LOAD": 1, "RULE_EXECUTE": 2, "RULE_TRANSMIT": 3, "RULE_HALT": 4, "RULE_TIMER": 5, "RULE_SYSTEM": 6,
                             "RULE_SEAL": 7, "RULE_TYPES": 8, "RULE_KEEP": 9, "RULE_ENTER": 10, "GAVE_STEPS": 0, "GAVE_TICKS": 1,
                             "GAVE_BYTE": 2}
CALLS: Dict[str, Tuple[Any, ...]] = {  # what each answers, and what it is given
    "cheri_cap": (Cap, Word, c_bool),
    "cheri_is_well_formed": (c_bool, Word),
    "cheri_base": (c_uint64, Word),
    "cheri_top": (Number, Word),
    "cheri_perms": (c_uint16, Word),
    "cheri_otype": (c_uint32, Word),
    "cheri_flag": (c_bool, Word),
    "cheri_decompress": (None, Word, POINTER(Fields)),
    "cheri_compress": (c_bool, POINTER(Fields), POINTER(Cap)),
    "cheri_is_representable": (c_bool, Word, c_uint64),
    "cheri_set_address": (Cap, Cap, c_uint64),
    "cheri_set_bounds": (Cap, Cap, c_uint64, POINTER(c_bool)),
    "cheri_is_exact": (c_bool, c_uint64, c_uint64),
    "cheri_representable_length": (c_uint64, c_uint64),
    "cheri_alignment_mask": (c_uint64, c_uint64),
    "cheri_from_memory": (Word, c_char_p),
    "cheri_to_memory": (None, Word, c_char_p),
    "cheri_decode": (c_bool, c_uint32, POINTER(Insn)),
    "cheri_encode": (c_bool, POINTER(Insn), POINTER(c_uint32)),
    "cheri_disassemble": (c_size_t, c_uint32, c_bool, c_char_p),
    "cheri_execute": (c_bool, c_uint32, Cap, Cap, Cap, POINTER(Cap)),
    "cherisim_version": (c_uint32,),
    "cherisim_new": (c_uint32, c_char_p, c_size_t, POINTER(Handle)),
    "cherisim_new_flat": (c_uint32, c_char_p, c_size_t, c_uint64, c_uint64, c_uint32, c_bool, POINTER(Handle)),
    "cherisim_assemble": (c_uint32, c_char_p, c_size_t, POINTER(Handle), POINTER(c_uint64)),
    "cherisim_copy": (c_uint32, POINTER(Handle), POINTER(Handle)),
    "cherisim_free": (None, POINTER(Handle)),
    "cherisim_step": (c_uint32, POINTER(Handle), POINTER(Sent)),
    "cherisim_step_while": (c_uint32, POINTER(Handle), c_uint64, c_uint64, c_char_p, c_size_t, POINTER(Stepped)),
    "cherisim_tick": (c_uint32, POINTER(Handle)),
    "cherisim_receive": (c_uint32, POINTER(Handle), c_uint8),
    "cherisim_run": (c_uint32, POINTER(Handle), POINTER(Asked), c_char_p, c_size_t, POINTER(Ran)),
    "cherisim_reg": (c_uint32, POINTER(Handle), c_uint8, POINTER(Cap)),
    "cherisim_all_regs": (c_uint32, POINTER(Handle), POINTER(Cap)),
    "cherisim_scr": (c_uint32, POINTER(Handle), c_uint8, POINTER(Cap)),
    "cherisim_csr": (c_uint32, POINTER(Handle), c_uint16, POINTER(c_uint64)),
    "cherisim_pages": (c_uint32, POINTER(Handle), POINTER(c_uint32)),
    "cherisim_read": (c_uint32, POINTER(Handle), c_uint64, c_char_p, c_size_t),
    "cherisim_read_cap": (c_uint32, POINTER(Handle), c_uint64, POINTER(Cap)),
    "cherisim_next_tagged": (c_uint32, POINTER(Handle), c_uint64, POINTER(c_uint64)),
    "cherisim_halted": (c_uint32, POINTER(Handle), POINTER(Halted)),
    "cherisim_timer": (c_uint32, POINTER(Handle), POINTER(Timer)),
    "cherisim_console": (c_uint32, POINTER(Handle), c_char_p, POINTER(Console)),
    "cherisim_set_reg": (c_uint32, POINTER(Handle), c_uint8, Cap),
    "cherisim_set_scr": (c_uint32, POINTER(Handle), c_uint8, Cap),
    "cherisim_set_csr": (c_uint32, POINTER(Handle), c_uint16, c_uint64),
    "cherisim_write": (c_uint32, POINTER(Handle), c_uint64, c_char_p, c_size_t),
    "cherisim_write_cap": (c_uint32, POINTER(Handle), c_uint64, Cap),
    "cherisim_next_ends": (c_uint32, POINTER(Handle), POINTER(c_uint32)),
    "cherisim_why": (c_uint32, POINTER(Handle), c_char_p, c_size_t, POINTER(c_size_t)),
    "cherisim_trace": (c_uint32, POINTER(Handle), c_char_p, c_size_t, c_uint64, c_char_p, c_size_t, POINTER(c_size_t), POINTER(c_uint64)),
    "cherisim_disassemble": (c_size_t, c_uint32, c_bool, c_char_p),
    "cherisim_reach": (c_uint32, POINTER(Handle), POINTER(Member), c_size_t, POINTER(c_size_t)),
    "cherisim_may_store": (c_uint32, POINTER(Handle), c_uint64, c_uint64, POINTER(Answer)),
    "cherisim_may_load": (c_uint32, POINTER(Handle), c_uint64, c_uint64, POINTER(Answer)),
    "cherisim_may_execute": (c_uint32, POINTER(Handle), c_uint64, c_uint64, POINTER(Answer)),
    "cherisim_may_learn": (c_uint32, POINTER(Handle), c_uint64, c_uint64, POINTER(Answer)),
    "cherisim_may_keep": (c_uint32, POINTER(Handle), c_uint64, c_uint64, POINTER(Answer)),
    "cherisim_may_send": (c_uint32, POINTER(Handle), POINTER(Answer)),
    "cherisim_may_halt": (c_uint32, POINTER(Handle), POINTER(Answer)),
    "cherisim_may_system": (c_uint32, POINTER(Handle), POINTER(Answer)),
    "cherisim_may_timer": (c_uint32, POINTER(Handle), POINTER(Answer)),
    "cherisim_may_hold": (c_uint32, POINTER(Handle), c_uint32, POINTER(Answer)),
    "cherisim_reach_through_doors": (c_uint32, POINTER(Handle), POINTER(Member), c_size_t, POINTER(c_size_t)),
    "cherisim_doors": (c_uint32, POINTER(Handle), POINTER(Door), c_size_t, POINTER(c_size_t)),
    "cherisim_may": (c_uint32, POINTER(Handle), POINTER(Question), POINTER(Answer)),
    "cherisim_watch": (c_uint32, POINTER(Handle), c_char_p, c_size_t, c_char_p, c_size_t, POINTER(Timetable), c_char_p, c_size_t,
                       POINTER(Breach), POINTER(c_uint64)),
    "cherisim_audit": (c_uint32, POINTER(Handle), c_char_p, c_size_t, c_char_p, c_size_t, POINTER(Timetable), c_char_p, c_size_t,
                       c_char_p, c_size_t, POINTER(c_size_t), POINTER(c_uint64)),
    "cherisim_prove": (c_uint32, POINTER(Handle), c_char_p, c_size_t, c_char_p, c_size_t, c_uint64, POINTER(c_bool), c_char_p, c_size_t,
                       POINTER(c_size_t), POINTER(c_uint64)),
    "cherisim_image": (c_uint32, c_char_p, c_size_t, c_char_p, c_size_t, POINTER(c_size_t), POINTER(c_uint64)),
    "cherisim_back": (c_uint32, c_char_p, c_size_t, POINTER(Given), c_size_t, c_uint64, POINTER(Handle)),
    "cherisim_step_while_held": (c_uint32, POINTER(Handle), c_uint64, POINTER(Place), POINTER(Stepped)),
    "cherisim_origin": (c_uint32, c_char_p, c_size_t, POINTER(Given), c_size_t, POINTER(Place), c_char_p, c_size_t, c_char_p, c_size_t,
                        POINTER(c_size_t), POINTER(c_uint64)),
    "cherisim_lost": (c_uint32, c_char_p, c_size_t, POINTER(Given), c_size_t, POINTER(Place), c_char_p, c_size_t, c_char_p, c_size_t,
                      POINTER(c_size_t), POINTER(c_uint64)),
    "cherisim_origin_links": (c_uint32, c_char_p, c_size_t, POINTER(Given), c_size_t, POINTER(Place), POINTER(Link), c_size_t,
                              POINTER(c_size_t)),
    "cherisim_lost_links": (c_uint32, c_char_p, c_size_t, POINTER(Given), c_size_t, POINTER(Place), POINTER(Link), c_size_t,
                            POINTER(c_size_t)),
}
