"""What docs/PROGRAMMING.md says for each condition, value and definition that tools/pages/programming.py meets in the sources.

The key is the source's own text, with single blanks. A text that changes there finds nothing here, so that whoever changes a
definition says here, in words, what it says now; and an entry that nothing asks for is an error too.
"""

# Conditions of the ordered lists (cap_checks/specs/FirstFault, special_regs/specs/Refusals, steps/specs/MemoryRows and Step).
CONDITIONS = {
    "is_tagged authority": "the authority has its tag",
    "not (is_sealed authority)": "it isn't sealed",
    "permits authority permission.StoreCapability, if stores_capability access":
        "it has Store_Capability, where a value with its tag is stored",
    "permits authority permission.StoreLocalCapability, if stores_local access":
        "it has Store_Local_Capability, where a capability that isn't Global is stored",
    "holds authority address (width_of access)": "all bytes of the access lie in its bounds",
    "address % (width_of access) == 0": "the address is a multiple of the bytes that are moved",
    "is_tagged pcc": "PCC has its tag",
    "not (is_sealed pcc)": "it isn't sealed",
    "permits pcc permission.Execute": "it has Execute",
    "holds pcc (value_address pcc) 4": "the 4 bytes at its address lie in its bounds",
    "holds pcc target 4": "the 4 bytes at the target lie in PCC's bounds",
    "target % 4 == 0": "the target is a multiple of 4",
    "is_tagged v": "the capability has its tag",
    "not (is_sealed v) || is_entered_sealed v offset": "it isn't sealed, or it is a sentry and the immediate is 0",
    "permits v permission.Execute": "it has Execute",
    "holds v (jump_target (value_address v) offset) 4": "the 4 bytes at the target lie in its bounds",
    "(jump_target (value_address v) offset) % 4 == 0": "the target is a multiple of 4",
    "is_tagged code": "cs1 has its tag",
    "is_tagged datum": "cs2 has its tag",
    "not (is_reserved (value_otype code))": "the type of cs1 isn't reserved (so it is sealed, and no sentry)",
    "not (is_reserved (value_otype datum))": "the type of cs2 isn't reserved",
    "value_otype code == value_otype datum": "both have the same type",
    "permits code permission.CInvoke": "cs1 has CInvoke",
    "permits datum permission.CInvoke": "cs2 has CInvoke",
    "permits code permission.Execute": "cs1 has Execute",
    "not (permits datum permission.Execute)": "cs2 hasn't Execute",
    "holds code (invoke_target code) 4": "the 4 bytes at the target lie in the bounds of cs1",
    "(invoke_target code) % 4 == 0": "the target is a multiple of 4",
    "is_csr n && not (writes && is_read_only n)": "there is such a register, and it isn't written if it is only read",
    "is_scr n && not (writes && (n == PCC))": "there is such a register, and PCC isn't written",
    "has_system_access s": "PCC has Access_System_Registers",
    "not (nat_le MTCC n) || has_system_access s": "PCC has Access_System_Registers, where the number is that of MTCC or above",
    "is_in_ram s.memory address (bytes_of size) || is_none (read_fault address (bytes_of size))":
        "RAM or a device register answers at the address",
    "is_in_ram s.memory address (bytes_of size) || is_none (write_fault address (bytes_of size))":
        "RAM or a device register answers at the address",
    "is_in_ram s.memory (pc_of s) 4": "the 4 bytes lie in RAM",
}

# Which register a CHERI fault names.
REGISTERS = {
    "register": "the register that holds it",
    "pcc_register": "PCC",
    "code_register": "cs1",
    "data_register": "cs2",
    "special_register insn.rs2": "the special register",
}

# What mtval holds.
MTVAL = {
    "0": "0",
    "word": "the instruction's word",
    "address": "the address",
    "target": "the target",
    "pc_of s": "the instruction's address",
    "jump_target (value_address v) offset": "the target",
    "invoke_target code": "the target",
    "32 * register + cheri_number_of what": "32 × register + CHERI cause",
}

# What a read of a control and status register gives.
READS = {
    "mtvec_of (value_address s.mtcc)": "MTCC's address; the low two bits read 1 where they are 1, and else 0",
    "value_address s.mepcc / 4 * 4": "MEPCC's address, the low two bits 0",
    "mip": "what the devices ask for now",
    "0": "0",
}

# What a write of one keeps.
WRITES = {
    "value": "all 64 bits",
    "at_address s.mtcc (mtvec_of value)": "sets MTCC's address to the number; the low two bits are kept where they are 1, and else cleared",
    "at_address s.mepcc (value / 4 * 4)": "sets MEPCC's address to the number with its low two bits cleared",
}

# What a load of a device register gives, and what it takes.
LOADS = {
    "d.mtime": "the time",
    "oldest d.queue": "the oldest byte that waits, which it takes; 0 if none waits",
    "status_of d": "bit 0: a byte waits; bit 1: a byte was lost; the other bits 0",
    "bit d.control": "bit 0: a byte that waits asks for the external interrupt; the other bits 0",
    "kept_value (kept_at address) d.kept": "0",
}

# What a store into one does.
STORES = {
    "value": "sets it to the number",
    "d.overrun && not (value / 2 % 2 == 1)": "clears bit 1, if bit 1 of the number is 1",
    "value % 2 == 1": "sets bit 0 to bit 0 of the number",
    "Some value": "halts the machine with the number",
    "effect.Halt value": "",
    "effect.Byte (value % 256)": "sends the low byte",
}

# What a part of the state begins with.
OPENING = {
    "root i.entry i.mode": "root, with the image's entry as address and its mode as flag",
    "root 0 false": "root, with address 0 and flag 0",
    "null": "null",
    "0": "0",
    "false": "0",
    "[]": "empty",
    "None": "no",
}

# What happens, assignment by assignment, at a trap and at MRET.
HAPPENS = {
    "mepcc = s.pcc": "MEPCC becomes PCC, with the address of the instruction that trapped, or that an interrupt came before",
    "pcc = trap_target f s.mtcc": "PCC becomes MTCC's capability at the trap's entry",
    "mcause = f.mcause": "mcause becomes the cause",
    "mtval = f.mtval": "mtval becomes what the cause says more of",
    "mstatus_mpie = c.mstatus_mie": "MPIE becomes MIE",
    "mstatus_mie = false": "MIE becomes 0",
    "pcc = target s.mepcc": "PCC becomes MEPCC's capability",
    "mstatus_mie = c.mstatus_mpie": "MIE becomes MPIE",
    "mstatus_mpie = true": "MPIE becomes 1",
}

# What the instructions over capabilities give (cap_insns/specs/CapabilityRows).
GIVES = {
    "at_address cs1 (sum (value_address cs1) insn.imm)": "cs1 with its address and the immediate added up as address",
    "with_bounds cs1 insn.imm": "cs1 with bounds from its address on, as long as the immediate, rounded out",
    "with_bounds cs1 (value_address cs2)": "cs1 with bounds from its address on, as long as rs2, rounded out",
    "with_exact_bounds cs1 (value_address cs2)": "the same",
    "seal cs1 cs2": "cs1 sealed with the type that is the address of cs2",
    "unseal cs1 cs2": "cs1 unsealed, and Global only if cs2 is too",
    "and_perms cs1 (perms_in_view (value_address cs2))": "cs1 with those of its permissions that are in rs2",
    "set_flags cs1 (value_address cs2 % 2 == 1)": "cs1 with bit 0 of rs2 as flag",
    "at_address cs1 (sum (value_base cs1) (value_address cs2))": "cs1 with its base and rs2 added up as address",
    "at_address cs1 (value_address cs2)": "cs1 with rs2 as address",
    "at_address cs1 (sum (value_address cs1) (value_address cs2))": "cs1 with its address and rs2 added up as address",
    "integer (difference (value_address cs1) (value_address cs2))": "the address of cs1 less that of cs2",
    "integer (bit (subset (outer_of insn.rs1 cs1 ddc) cs2))":
        "1 if the tags are equal and the bounds and permissions of cs2 lie in those of cs1 (of DDC, if the field rs1 is 0), else 0",
    "integer (bit (equal_exact cs1 cs2))": "1 if the tags and all 128 bits are equal, else 0",
    "integer (hardware_view (value_perms cs1))": "the permissions, by the bits above",
    "integer (signed_type (value_otype cs1))": "the object type, as shown above",
    "integer (value_base cs1)": "the base",
    "integer (length_of cs1)": "the top less the base, modulo 2^65 and at most 2^64 - 1",
    "integer (bit (is_tagged cs1))": "1 if it is tagged, else 0",
    "integer (bit (is_sealed cs1))": "1 if it is sealed, else 0",
    "integer (difference (value_address cs1) (value_base cs1))": "the address less the base",
    "integer (bit (value_flag cs1))": "the flag",
    "integer (representable_length (value_address cs1))":
        "the length rs1, rounded up to one that a capability with an aligned base can have exactly, modulo 2^64",
    "integer (alignment_mask (value_address cs1))": "the mask that aligns a base for the length rs1",
    "cs1": "cs1",
    "without_tag cs1": "cs1",
    "integer (value_address cs1)": "the address",
    "seal_entry cs1": "cs1 as a sentry",
}

# Definitions that the page says in words, each with its body.
DEFINITIONS = {
    "cap_checks/specs/Question first_false: first_fault (judged conditions); judged: map (λ c. (c.holds, fault_of c.question)) "
    "conditions; asks: record {question = question; holds = holds}":
        "Each list is read from the top: the first condition that fails is the trap",
    "cap_checks/specs/FirstFault holds: nat_le (value_base v) address && nat_le (address + size) (value_top v)":
        "Bytes lie in the bounds of a capability if base ≤ address and address + size ≤ top; the sum is a whole number, which doesn't wrap",
    "cap_checks/specs/FirstFault jump_target: (address + offset) % 2 ^ 64 / 2 * 2":
        "The target of a jump is the sum of an address and the immediate, modulo 2^64, with bit 0 cleared",
    "cap_checks/specs/FirstFault invoke_target: jump_target (value_address code) 0":
        "The target is the address of cs1 with bit 0 cleared",
    "steps/specs/MemoryRows place_of: (number_in s insn.rs1 + insn.imm) % 2 ^ 64":
        "The address is the sum of the number in rs1 and the immediate, modulo 2^64; the explicit forms have no immediate",
    "steps/specs/MemoryRows authority_through: if rs1 then register s.registers insn.rs1 else s.scrs.ddc":
        "The authority is the capability in rs1 or else DDC",
    "steps/specs/MemoryRows number_through: if rs1 then insn.rs1 else ddc_register":
        "a fault names that register",
    "steps/specs/Accesses is_rs1: capability_mode | false | true":
        "it is rs1 in capability mode and in the `.cap` forms, and DDC in integer mode and in the `.ddc` forms",
    "steps/specs/MemoryRows load_done: if is_in_ram s.memory address (bytes_of size) then Write (record {rd = insn.rd; "
    "value = integer (loaded insn.row size (number_at s.memory address (bytes_of size)))}) else DeviceLoad (record {rd = insn.rd; "
    "value = integer (value_at address s.devices); address = address; size = size})":
        "A load that its authority allows reads RAM if all its bytes lie there, or else a device register",
    "steps/specs/MemoryRows store_done: if is_in_ram s.memory address (bytes_of size) then Store (stored_number address size number) "
    "else DeviceStore (stored_number address size number); stored_number: record {address = address; size = size; number = number}":
        "A store writes RAM if all its bytes lie there, or else a device register",
    "steps/specs/MemoryRows memory_asked: access_asked a (mapped_for a (place_of insn s) s) insn s; mapped_for: loads_from address size s | "
    "stores_to address size s | capability_at cause.LoadAccess address s | capability_at cause.StoreAccess address s; capability_at: asks "
    "(Ram otherwise address) (is_in_ram s.memory address 16)":
        "A capability is loaded from RAM alone, and stored into RAM alone",
    "steps/specs/MemoryRows load_capability_done: Write (record {rd = rd; value = loaded_capability authority address s.memory}); "
    "loaded_capability: value_of (word_at m address) (has_tag m address && permits authority permission.LoadCapability)":
        "A capability that is loaded has the granule's tag if the authority has Load_Capability, and else none; it is no fault",
    "tagged_memory/specs/Memory data_written: record {bytes = replaced_at m address new; tags = set.retain m.tags (λ granule. not "
    "(touches address (length new) granule));}":
        "A store of data clears the tag of the granule (16 bytes at a multiple of 16) that it touches",
    "tagged_memory/specs/Memory capability_written: record {bytes = replaced_at m address (memory_bytes word); tags = if tag then "
    "set.insert m.tags address else set.remove m.tags address;}":
        "a store of a capability gives its granule the tag of what is stored",
    "steps/specs/Step stepped_unless: applied (step_effect s) s | s": "a machine that is halted ignores the step",
    "steps/specs/Step decided: Trap (cause_of interrupt) | fetched_effect (fetch s) s":
        "An interrupt that is pending is taken, and is the whole step",
    "steps/specs/Step fetched_effect: decoded_effect (insn_of word) word s | Trap f; fetch: word_unless (first_false (fetch_asked "
    "s)) s; fetch_asked: fetch_checks s.scrs.pcc ++ fetches_from s ∷ []; word_unless: Err f | Ok (number_at s.memory (pc_of s) 4)":
        "the instruction is fetched; a fetch that fails is the trap",
    "steps/specs/Step decoded_effect: kind_effect (kind_of insn.row) word insn s | illegal word":
        "The word is decoded; one that is no row is an illegal instruction",
    "steps/specs/Step kind_effect: where_all (asked k word insn s) (does k insn s)":
        "the instruction's own checks are made, in the order of the lists below",
    "steps/specs/Looks where_all: unless_fault (first_false conditions) effect":
        "The first that fails is the trap, and nothing else changes",
    "steps/specs/Effect done_at: record s {scrs = moved address s.scrs; csrs = counted s.csrs}":
        "The instruction is done: PCC's address becomes that of the next instruction, or the target of a jump",
    "steps/specs/Effect counted: cycle_counted (instruction_counted c)": "mcycle and minstret are one more",
    "steps/specs/SystemRows csr_writes: true | true | not (field == 0)":
        "CSRRW and CSRRWI always write; the forms that set or clear bits write unless their field rs1 is 0",
    "steps/specs/SystemRows special_done: if insn.rs1 == 0 then Write (record {rd = insn.rd; value = old}) else Special (record {rd = "
    "insn.rd; old = old; number = insn.rs2; value = register s.registers insn.rs1})":
        "CSpecialRW reads the register into cd, and writes cs1 into it unless its field rs1 is 0",
    "steps/specs/SystemRows return_asked: asked_of_register pcc_register word (return_checks s.scrs)":
        "a fault names PCC",
    "steps/specs/SystemRows csr_asked: asked_of_register pcc_register word (csr_checks s.scrs (csr_number insn) (csr_writes insn.row "
    "insn.rs1))":
        "a fault names PCC",
    "steps/specs/SystemRows special_asked: asked_of_register (special_register insn.rs2) word (scr_checks s.scrs insn.rs2 (not (insn.rs1 "
    "== 0)))":
        "a fault names the special register",
    "special_regs/specs/Traps trap_target: placed_at (entry_address f (value_address v)) (sentry_opened v)":
        "PCC becomes MTCC's capability with the entry as its address",
    "special_regs/specs/Traps placed_at: if value_address v == address then v else at_address v address":
        "one whose address is the entry already stays as it is (with another seal it then faults at the next fetch), and any other gets "
        "the address as CSetAddr gives it",
    "special_regs/specs/Traps sentry_opened: if is_sentry v then opened v else v": "a tagged sentry is unsealed first",
    "special_regs/specs/Traps entry_address: (mtvec / 4 * 4 + (if is_vectored mtvec then 4 * vector_of f else 0)) % 2 ^ 64":
        "The entry is MTCC's address with its low two bits cleared; in vectored mode 4 times the vector is added, modulo 2^64",
    "special_regs/specs/Traps vector_of: if has_bit f.mcause 63 then f.mcause % 2 ^ 63 else 0":
        "the vector is the interrupt's number, and 0 for an exception",
    "special_regs/specs/Mtvec is_vectored: address % 4 == 1": "the mode is vectored if the low two bits are 1",
    "special_regs/specs/Traps target: aligned (sentry_opened v)": "A tagged sentry in MEPCC is unsealed first",
    "special_regs/specs/Traps aligned: if value_address v % 4 == 0 then v else at_address v (value_address v / 4 * 4)":
        "the low two bits of the address are cleared where they aren't 0",
    "steps/specs/Effect applied (Trap fault) s: record s {scrs = trapped_scrs fault s.scrs; csrs = cycle_counted (trapped_csrs fault "
    "s.csrs)}":
        "mcycle is one more; minstret stays, and so does everything else",
    "steps/specs/Effect applied (Return sealed) s: record s {scrs = returned_scrs s.scrs; csrs = counted (returned_csrs s.csrs)}":
        "mcycle and minstret are one more",
    "registers/specs/Registers null_registers: replicate 32 null": "all 32 null",
    "hart/specs/Opening loaded_memory: with_sections i.sections (zeroed i.pages)": "the image's sections, and zeros",
    "hart/specs/Opening opening_memory: with_capabilities i.capabilities (loaded_memory i)":
        "over them the image's capabilities; no other granule has a tag",
    "devices/specs/Devices received: let full : Bool = not (nat_lt (length d.queue) queue_limit) in record d {queue = if full then "
    "d.queue else d.queue ++ (b ∷ []); overrun = if full then true else d.overrun;}":
        "A byte that comes on the line waits after the others; where the queue is full, it is lost, and bit 1 of status becomes 1",
    "devices/specs/Devices ticked: record d {mtime = (d.mtime + 1) % 2 ^ 64}": "A tick adds 1 to mtime, modulo 2^64",
    "devices/specs/Devices interrupts_of: bit (nat_le (mtimecmp d) d.mtime) * 2 ^ TIMER + bit (d.control && waits d.queue) * 2 ^ EXTERNAL":
        "The timer asks while mtime is mtimecmp or more, and the console while bit 0 of control is 1 and a byte waits",
    "devices/specs/Devices taken_at: record d {queue = if address == receive then without_oldest d.queue else d.queue}":
        "that of receive alone changes something",
    "special_regs/specs/Interrupts is_asked: has_bit c.mie (bit_of interrupt) && has_bit mip (bit_of interrupt)":
        "An interrupt is pending if MIE is 1 and its bit is 1 in mie and in mip",
    "cap_bounds/specs/CapValue is_sealed: if value_otype v == unsealed_type then false else true":
        "A value is sealed unless its type is the unsealed one",
    "steps/specs/JumpRows invoke_asked: invoke_checks (register s.registers insn.rs1) insn.rs1 (register s.registers insn.rs2) insn.rs2; "
    "invoke_done: let code : CapValue = register s.registers insn.rs1 in let datum : CapValue = register s.registers insn.rs2 in Enter "
    "(record {rd = 31; link = opened datum; code = opened code; target = invoke_target code; sealed = true})":
        "PCC becomes cs1, unsealed, at the target, and register 31 becomes cs2, unsealed",
    "steps/specs/JumpRows enter_asked: jump_checks (register s.registers insn.rs1) insn.rs1 insn.imm; enter_done: let v : CapValue = "
    "register s.registers insn.rs1 in Enter (record {rd = insn.rd; link = sentry_link s; code = opened v; target = jump_target "
    "(value_address v) insn.imm; sealed = is_sealed v;})":
        "PCC becomes the capability, unsealed, at the target, and rd a sentry link",
    "steps/specs/JumpRows sentry_link: seal_entry (at_address s.scrs.pcc (next_of s))":
        "a sentry link is PCC at the next instruction, sealed as an entry",
    "steps/specs/JumpRows link_of: if in_capability_mode s then sentry_link s else integer (next_of s)":
        "The link in rd is the next instruction's address in integer mode, and a sentry link in capability mode",
    "registers/specs/Registers with_register: if n == 0 then registers else slice_set registers n v":
        "a write to register 0 is lost",
    "cap_bounds/specs/CapValue integer: Data (with_address_of null_word n)":
        "A number in a register is null with that number as its address",
    "steps/specs/Looks in_capability_mode: value_flag s.scrs.pcc":
        "PCC's flag says the mode",
    "steps/specs/SystemRows csr_source: insn.rs1 | insn.rs1 | insn.rs1 | number_in s insn.rs1":
        "In CSRRWI, CSRRSI and CSRRCI the field rs1 is the number that is written, set or cleared",
    "steps/specs/SystemRows csr_number: insn.imm % 2 ^ 12":
        "in CSR instructions the immediate is the register's number",
    "steps/specs/Effect applied (Csr w) s: record (register_written w.rd w.old s) {scrs = moved ((pc_of s + 4) % 2 ^ 64) (views_written "
    "w.number w.value s.scrs); csrs = csrs_written w.number w.value (counted s.csrs);}":
        "An instruction that writes mcycle or minstret is counted before it writes, so that the register holds what was written",
    "cap_bounds/specs/SetAddress at_address: if not (is_sealed (Cap r)) && window_holds r address then Cap (record r {address "
    "= address}) else data_at (Cap r) address | data_at (Data n) address":
        "it is tagged and unsealed, and the new address lies in its window",
    "cap_bounds/specs/SetBounds may_bound: is_tagged v && (not (is_sealed v) && (nat_le (value_base v) (value_address v) && "
    "nat_le (request_top v length) (value_top v)))":
        "it is tagged and unsealed, and the request lies in its bounds",
    "cap_insns/specs/CapabilityRows with_exact_bounds: tagged_if (bounds_exact v length) (with_bounds v length)":
        "the same, and rounding changes nothing of the request",
    "cap_rights/specs/Derivations may_seal: is_tagged v && is_tagged authority && not (is_sealed v) && not (is_sealed "
    "authority) && permits authority Seal && address_in_bounds authority (value_address authority) && nat_le (value_address "
    "authority) greatest_sealing_type":
        "both are tagged and unsealed, cs2 has Seal, and its address lies in its bounds and is no reserved type",
    "cap_rights/specs/Derivations may_unseal: is_tagged v && is_tagged authority && nat_le (value_otype v) "
    "greatest_sealing_type && not (is_sealed authority) && permits authority Unseal && address_in_bounds authority "
    "(value_address authority) && (value_address authority == value_otype v)":
        "both are tagged, the type of cs1 isn't reserved, cs2 is unsealed with Unseal, and its address lies in its bounds and is "
        "that type",
    "cap_rights/specs/Derivations and_perms: tagged_if (not (is_sealed v)) (with_perms v (bit_and (value_perms v) mask))":
        "it is tagged and unsealed",
    "cap_rights/specs/Derivations set_flags: tagged_if (not (is_sealed v)) (with_flag v flag)":
        "it is tagged and unsealed",
    "cap_rights/specs/Derivations seal_entry: tagged_if (is_tagged v && not (is_sealed v) && permits v Execute) (with_type v "
    "sentry_type)":
        "it is tagged and unsealed, and has Execute",
    "cap_rights/specs/Derivations tagged_if: if may then v else without_tag v":
        "An instruction that may not keep the tag gives the same fields without it, and doesn't trap",
    "cap_bounds/specs/Rounding rounding_granule: if nat_lt (top - base) 4096 then 1 else 2 ^ (rounding_exponent base top + 3)":
        "A range of bounds below 4096 bytes stays as it is; a longer one is rounded out to multiples of 2^(E+3), with the least E "
        "at which it touches fewer than 1024 of them",
}
