/* libcherisim: the proved CHERI-RISC-V machine (RV64IM in machine mode, 128-bit capabilities, timer, console, halt).
 *
 * A machine is held by a handle. Each function below has a contract that the library's code is proved to meet; it stands here in words.
 * Every call is total and returns. All but cherisim_free, cherisim_version and cherisim_disassemble answer a status; what such a call
 * writes it writes whole, or not at all where the status isn't CHERISIM_OK, but for the line of a faulty text, and the length or the
 * count that a call with a buffer would have needed.
 *
 * What C owes: a pointer points to what its type says and to nothing else that the call is given, and none is null, be its length 0; a
 * handle begins as CHERISIM_NONE and is never copied; it is used by one call at a time, and by the thread that made it; a tagged
 * cherisim_cap_t comes from this library or from cheri_cap() of cheri_caps.h. Every call on a machine answers CHERISIM_NO_MACHINE where
 * the handle has none, so that a machine may be freed twice. */
#ifndef CHERISIM_H
#define CHERISIM_H
#include <stdbool.h>
#include <stddef.h>
#include <stdint.h>
#include "cheri_caps.h"
#ifdef __cplusplus
extern "C" {
#endif

/* A machine, or none. */
typedef struct { void *at; } cherisim_t;
#define CHERISIM_NONE {0}

/* A capability, or 128 bits of data. */
typedef cheri_cap_t cherisim_cap_t;

/* What a call answers: 1 to 15 are the faults L1 to L15 of an image, 33 to 43 the faults A1 to A11 of a text, 49 to 56
 * the faults P1 to P8 of a policy; but that there is no memory for it (L11, A10) is CHERISIM_NO_MEMORY, and 10 never comes, because bytes
 * in memory can't fail to be read (L10). */
typedef uint32_t cherisim_status;
enum {
    CHERISIM_OK = 0,
    CHERISIM_LABELS = 57,     /* a line of a table of labels has no address and label */
    CHERISIM_NO_MEMORY = 64,  /* out of memory */
    CHERISIM_NO_MACHINE = 65, /* the handle has none */
    CHERISIM_RANGE = 66,      /* no such register, an address outside RAM or not aligned, a value that can't stand there */
    CHERISIM_FULL = 67        /* the buffer is too short */
};

/* 1 for this version of the interface: functions and types are added, and none changes. */
uint32_t cherisim_version(void);

/* ---- life: where a call fails, the handle keeps what it held; where it succeeds, what it held is freed. */

/* The machine in the opening state of an image file of these bytes, of version 1 or 2. */
cherisim_status cherisim_new(const uint8_t *image, size_t length, cherisim_t *machine);
/* The machine in the opening state of the image of version 2 with these bytes as its one section, at this address: RAM of `pages` pages
 * of 4096 bytes (1 to 65536), PCC at `entry`, in capability mode or in integer mode. */
cherisim_status cherisim_new_flat(const uint8_t *bytes, size_t length, uint64_t address, uint64_t entry, uint32_t pages,
                                  bool capability_mode, cherisim_t *machine);
/* The machine in the opening state of the image of a text in the assembly language. Where it fails, the fault's line is written to *line,
 * counted from 1, and 0 where memory ran out. */
cherisim_status cherisim_assemble(const uint8_t *text, size_t length, cherisim_t *machine, uint64_t *line);
/* A machine in the same state as `from`, into the handle `to`. */
cherisim_status cherisim_copy(cherisim_t *from, cherisim_t *to);
/* Frees the machine, if there is one. */
void cherisim_free(cherisim_t *machine);

/* ---- events */

/* A byte that was sent, if `sends`. */
typedef struct { bool sends; uint8_t byte; } cherisim_sent_t;
/* One step: an interrupt that pends, an instruction, or a trap. A halted machine ignores it. */
cherisim_status cherisim_step(cherisim_t *machine, cherisim_sent_t *sent);
/* What steps did: how many were done, and the byte that the last of them sent, if it sent one. */
typedef struct { uint64_t steps; cherisim_sent_t sent; } cherisim_stepped_t;
/* Steps while RAM has these bytes from an address on, which is looked at before each: so many at most, and up to one that sends a byte or
 * halts the machine. No tick comes between them. Where RAM has others there, or ends before, no step is done. */
cherisim_status cherisim_step_while(cherisim_t *machine, uint64_t most, uint64_t address, const uint8_t *bytes, size_t length,
                                    cherisim_stepped_t *stepped);
/* The timer ticks. */
cherisim_status cherisim_tick(cherisim_t *machine);
/* A byte comes on the console's line. */
cherisim_status cherisim_receive(cherisim_t *machine, uint8_t byte);

/* What a run does: `steps` steps at most. With `at_address` it stops before a step whose PCC has this address, and with `at_end` before
 * one that traps, unseals, or jumps through a seal; with `doors`, too, sealed jumps are gone through, up to where answers through doors
 * hold. A tick follows each step whose number is a multiple of `tick` (0: none), where steps are numbered from `before` + 1 on. */
typedef struct { uint64_t steps, tick, before, address; bool at_address, at_end, doors; } cherisim_asked_t;
/* Why a run stopped. */
enum {
    CHERISIM_STEPS = 0,       /* all steps were done */
    CHERISIM_HALTED = 1,      /* the machine is halted; no tick follows the step that halted it */
    CHERISIM_BUFFER = 2,      /* the buffer has no room for a byte that the next step might send */
    CHERISIM_ADDRESS = 3,     /* PCC has the address */
    CHERISIM_TRAP = 4,        /* the next step traps */
    CHERISIM_UNSEAL = 5,      /* the next step unseals a capability */
    CHERISIM_SEALED_JUMP = 6  /* the next step is a CInvoke, or a jump or a return through a sentry */
};
/* What a run did: how many steps, how many bytes it put into the buffer, and why it stopped (the first reason that holds, in the order
 * of their numbers). */
typedef struct { uint64_t steps, sent; uint32_t stop; } cherisim_ran_t;
/* Runs, and puts the bytes that the steps send into `buffer`. It stops before a step where the buffer is full, so one of no bytes
 * takes no step. With `at_end` plain steps go as fast as without it, and others (a jump through a capability, a store to a device, a system
 * register) are looked at before they are done, one at a time. */
cherisim_status cherisim_run(cherisim_t *machine, const cherisim_asked_t *asked, uint8_t *buffer, size_t room, cherisim_ran_t *ran);

/* ---- what a machine holds */

/* General register n, 0 to 31, and all 32 of them. */
cherisim_status cherisim_reg(cherisim_t *machine, uint8_t n, cherisim_cap_t *value);
cherisim_status cherisim_all_regs(cherisim_t *machine, cherisim_cap_t values[32]);
/* Special capability register n: PCC 0, DDC 1, MTCC 28, MTDC 29, MScratchC 30, MEPCC 31. */
cherisim_status cherisim_scr(cherisim_t *machine, uint8_t n, cherisim_cap_t *value);
/* Control and status register n, by its number in the privileged manual. */
cherisim_status cherisim_csr(cherisim_t *machine, uint16_t n, uint64_t *value);
/* RAM begins at 0x80000000 and has this many pages of 4096 bytes. */
cherisim_status cherisim_pages(cherisim_t *machine, uint32_t *pages);
/* The bytes of RAM from an address on. */
cherisim_status cherisim_read(cherisim_t *machine, uint64_t address, uint8_t *bytes, size_t length);
/* The granule of 16 bytes at a multiple of 16. */
cherisim_status cherisim_read_cap(cherisim_t *machine, uint64_t address, cherisim_cap_t *value);
/* The address of the first tagged granule at `from` or above: CHERISIM_RANGE where there is none. */
cherisim_status cherisim_next_tagged(cherisim_t *machine, uint64_t from, uint64_t *address);

typedef struct { bool halted; uint64_t number; } cherisim_halted_t;
/* Whether the machine is halted, and with which number (else 0). */
cherisim_status cherisim_halted(cherisim_t *machine, cherisim_halted_t *halted);
/* The timer's ticks, and those from which on it interrupts. */
typedef struct { uint64_t mtime, mtimecmp; } cherisim_timer_t;
cherisim_status cherisim_timer(cherisim_t *machine, cherisim_timer_t *timer);
/* The console: how many bytes wait, whether one was lost, and whether a byte that waits interrupts. The bytes that wait stand at the
 * beginning of `queue`, the oldest first. */
typedef struct { uint64_t waiting; bool overrun, control; } cherisim_console_t;
cherisim_status cherisim_console(cherisim_t *machine, uint8_t queue[64], cherisim_console_t *console);

/* ---- writing, between two events: nothing is counted, and no check is made of an authority */

/* General register n; one of register 0 is lost. */
cherisim_status cherisim_set_reg(cherisim_t *machine, uint8_t n, cherisim_cap_t value);
/* A special capability register. PCC takes an address that is a multiple of 4: CHERISIM_RANGE for another. */
cherisim_status cherisim_set_scr(cherisim_t *machine, uint8_t n, cherisim_cap_t value);
/* A control and status register, as CSRRW writes it; one that is only read stays as it is. */
cherisim_status cherisim_set_csr(cherisim_t *machine, uint16_t n, uint64_t value);
/* Bytes of RAM from an address on; each granule that they touch loses its tag. */
cherisim_status cherisim_write(cherisim_t *machine, uint64_t address, const uint8_t *bytes, size_t length);
/* The granule of 16 bytes at a multiple of 16, with the value's tag. */
cherisim_status cherisim_write_cap(cherisim_t *machine, uint64_t address, cherisim_cap_t value);

/* ---- questions */

/* Why the next step would end a stretch: CHERISIM_TRAP, CHERISIM_UNSEAL or CHERISIM_SEALED_JUMP, or 0 where it would not. */
cherisim_status cherisim_next_ends(cherisim_t *machine, uint32_t *why);
/* What the next step will do, and why, as the debugger's command `why` shows it: *length bytes of text, no 0 after them. Where the
 * buffer is too short, CHERISIM_FULL, and *length is what it takes. */
cherisim_status cherisim_why(cherisim_t *machine, uint8_t *text, size_t room, size_t *length);
/* The line of a trace for the next step (docs/TRACE.md), as that of step `number`, with its line feed: *length bytes of text, no 0 after
 * them; of a halted machine none. `labels` is the text of a table of labels, as `asm --symbols` writes it; of no bytes, it has none. Where
 * the buffer is too short, CHERISIM_FULL, and *length is what it takes. CHERISIM_LABELS where line *line of the table is no label's; where
 * memory ran out *line is 0. */
cherisim_status cherisim_trace(cherisim_t *machine, const uint8_t *labels, size_t labels_length, uint64_t number,
                               uint8_t *text, size_t room, size_t *length, uint64_t *line);
/* The text of an instruction word, as cheri_disassemble() gives it: how many bytes of `text` it has, at most 64. */
size_t cherisim_disassemble(uint32_t word, bool capability_mode, char text[64]);

/* ---- reach: what the code that runs from here on can come to hold, and what it may do, whatever its instructions are, up to the next
 * trap, unsealing or jump through a seal */

/* Where a member was found. */
enum {
    CHERISIM_IN_REGISTER = 0, /* a general register, 0 to 31, PCC 32, DDC 33 */
    CHERISIM_IN_SPECIAL = 1,  /* a special register that Access_System_Registers guards: MTCC 0, MTDC 1, MScratchC 2, MEPCC 3 */
    CHERISIM_IN_MEMORY = 2    /* the granule at an address */
};
/* A member: a capability that the code can come to hold, which of the registers or granules of this kind it was found in, and the number
 * of the member, before it, through which it is had: 0 in a register. */
typedef struct { cherisim_cap_t value; uint64_t place, from; uint32_t kind; } cherisim_member_t;
/* All members, *count of them at the beginning of `members`, numbered from 0 on: the tagged registers, and then what each member in turn
 * leads to that was not found before. Where there is no room for all, CHERISIM_FULL, and *count is how many there are. */
cherisim_status cherisim_reach(cherisim_t *machine, cherisim_member_t *members, size_t room, size_t *count);

/* Whether some member allows what was asked, and the number of the first that does, else 0. */
typedef struct { uint64_t member; bool may; } cherisim_answer_t;
/* May the code store to some of `length` bytes from an address on? If not, those of RAM stay as they are. Here and in the next four the
 * bytes go on past address 2^64 - 1, and of none it may nothing. */
cherisim_status cherisim_may_store(cherisim_t *machine, uint64_t address, uint64_t length, cherisim_answer_t *answer);
/* May it load some of them? May it execute some? If not, no member allows it. */
cherisim_status cherisim_may_load(cherisim_t *machine, uint64_t address, uint64_t length, cherisim_answer_t *answer);
cherisim_status cherisim_may_execute(cherisim_t *machine, uint64_t address, uint64_t length, cherisim_answer_t *answer);
/* May it learn anything of them, by a load or by executing them? If not, whatever those of RAM are, it does the same. */
cherisim_status cherisim_may_learn(cherisim_t *machine, uint64_t address, uint64_t length, cherisim_answer_t *answer);
/* May it keep what is lent without Global in a granule with one of them? If not, none of these granules comes to hold a capability, but one
 * with Global that it could reach with Global. */
cherisim_status cherisim_may_keep(cherisim_t *machine, uint64_t address, uint64_t length, cherisim_answer_t *answer);
/* May it send a byte? If not, none is sent. */
cherisim_status cherisim_may_send(cherisim_t *machine, cherisim_answer_t *answer);
/* May it halt the machine? If not, it is not halted. */
cherisim_status cherisim_may_halt(cherisim_t *machine, cherisim_answer_t *answer);
/* May it use the system registers? If not, MTCC, MTDC, MScratchC, MEPCC and the control and status registers stay, but for the counts of
 * cycles and instructions. */
cherisim_status cherisim_may_system(cherisim_t *machine, cherisim_answer_t *answer);
/* May it set mtimecmp? If not, that stays. */
cherisim_status cherisim_may_timer(cherisim_t *machine, cherisim_answer_t *answer);
/* Is a member sealed with this object type (below 2^18), or may seal with it? (Of sentries any code may.) If not, no member allows it. */
cherisim_status cherisim_may_hold(cherisim_t *machine, uint32_t otype, cherisim_answer_t *answer);

/* ---- the same through doors, up to the next trap or unsealing: sealed jumps are gone through */

/* All members, with what doors lead to: what door n leads to, the sealed capability without its seal, is found in register 34 + n. Where
 * there is no room for all, CHERISIM_FULL, and *count is how many there are. */
cherisim_status cherisim_reach_through_doors(cherisim_t *machine, cherisim_member_t *members, size_t room, size_t *count);
/* A door: where the sealed capability and its key were found, as members are. A sentry, which needs none, is its own key; else CInvoke
 * takes both, or the key seals a partner for CInvoke. */
typedef struct { uint64_t sealed, key; uint32_t sealed_kind, key_kind; } cherisim_door_t;
/* All doors, *count of them at the beginning of `doors`, in the order in which they are opened: a register from 34 on in which one was
 * found is behind an earlier door. Where there is no room for all, CHERISIM_FULL, and *count is how many there are. */
cherisim_status cherisim_doors(cherisim_t *machine, cherisim_door_t *doors, size_t room, size_t *count);

/* What may be asked: what cherisim_may_store, .. _hold ask. */
enum {
    CHERISIM_MAY_STORE = 0,
    CHERISIM_MAY_LOAD = 1,
    CHERISIM_MAY_EXECUTE = 2,
    CHERISIM_MAY_LEARN = 3,
    CHERISIM_MAY_KEEP = 4,
    CHERISIM_MAY_SEND = 5,
    CHERISIM_MAY_HALT = 6,
    CHERISIM_MAY_SYSTEM = 7,
    CHERISIM_MAY_TIMER = 8,
    CHERISIM_MAY_HOLD = 9
};
/* A question: its kind, the bytes or the object type that it is about, and whether doors are gone through. */
typedef struct { uint64_t address, length; uint32_t kind, otype; bool doors; } cherisim_question_t;
/* May the code do so? If not, what the function of that name says holds up to the next trap, unsealing or sealed jump, or through doors up
 * to the next trap or unsealing. CHERISIM_RANGE for another kind. */
cherisim_status cherisim_may(cherisim_t *machine, const cherisim_question_t *question, cherisim_answer_t *answer);

/* ---- policies (docs/POLICY.md): rules about what code in some ranges can come to hold */

/* A run from the machine's state on: so many steps at most (10^14 or fewer), a byte of the input just before each step with a number
 * 1 + i * gap (1 to 10^6), and a tick after each step whose number is a multiple of `tick` (10^6 or less; 0: none). Nothing comes after
 * the step that halts the machine. */
typedef struct { uint64_t steps, gap, tick; } cherisim_timetable_t;
/* The parts of a rule. */
enum {
    CHERISIM_RULE_STORE = 0,
    CHERISIM_RULE_LOAD = 1,
    CHERISIM_RULE_EXECUTE = 2,
    CHERISIM_RULE_TRANSMIT = 3,
    CHERISIM_RULE_HALT = 4,
    CHERISIM_RULE_TIMER = 5,
    CHERISIM_RULE_SYSTEM = 6,
    CHERISIM_RULE_SEAL = 7,
    CHERISIM_RULE_TYPES = 8,
    CHERISIM_RULE_KEEP = 9,
    CHERISIM_RULE_ENTER = 10
};
/* Where a policy stops a run, if one is found: the number of the step that is not done; the line of the rule that is broken there; which
 * member of the reach of the state before that step breaks it; and which part. Else 0 each. */
typedef struct { uint64_t step, line, member; uint32_t part; bool found; } cherisim_breach_t;
/* Where a policy stops a run, as `cherisim run --policy` does: the first step before which a reachable capability breaks a rule about the
 * code. Each step before it keeps to the rules, as it is proved of them; a halted machine does no step. The machine stays as it is: the run
 * is done on a copy. `labels` is the text of a table of labels, as `asm --symbols` writes it. CHERISIM_RANGE for a timetable out of its
 * ranges. Where a line of a text is faulty, 48 + n for the fault Pn of a policy, and CHERISIM_LABELS for a line that is no label's; *line
 * is its number, and 0 for other refusals but CHERISIM_NO_MACHINE. */
cherisim_status cherisim_watch(cherisim_t *machine, const uint8_t *policy, size_t policy_length,
                               const uint8_t *labels, size_t labels_length, const cherisim_timetable_t *timetable,
                               const uint8_t *input, size_t input_length, cherisim_breach_t *breach, uint64_t *line);
/* What `cherisim audit` writes of such a run: of each part of each rule that is broken in it the first step before which it is, the line
 * and the rule, and what breaks it. *length bytes of text, no 0 after them; none where nothing is broken. The run goes on past each breach,
 * on a copy. Where the buffer is too short, CHERISIM_FULL, and *length is what it takes; other refusals are those of cherisim_watch. */
cherisim_status cherisim_audit(cherisim_t *machine, const uint8_t *policy, size_t policy_length,
                               const uint8_t *labels, size_t labels_length, const cherisim_timetable_t *timetable,
                               const uint8_t *input, size_t input_length, uint8_t *text, size_t room, size_t *length, uint64_t *line);
/* Whether it is shown of every run from the machine's state on, over any steps, ticks and bytes and with any bytes in the ranges that the
 * policy names by `any code in`, that it keeps to the policy; and the text that `cherisim prove` writes of that (docs/PROVE.md): *length
 * bytes, no 0 after them. Of the machine's own code at most so many steps are done, on a copy. Not shown is not refuted. Where the buffer is
 * too short, CHERISIM_FULL, *shown, and *length is what it takes; of a policy or a table of labels that is faulty what cherisim_watch
 * says. */
cherisim_status cherisim_prove(cherisim_t *machine, const uint8_t *policy, size_t policy_length,
                               const uint8_t *labels, size_t labels_length, uint64_t steps,
                               bool *shown, uint8_t *text, size_t room, size_t *length, uint64_t *line);

/* ---- the past: a machine's history is the bytes of its image's file and what it was given since; C keeps both, and may write them to a
 * file. What is written between two events (cherisim_set_reg, .. _write_cap) is no event: no past tells of it.
 *
 * Each call does the history anew on a machine of its own. It answers the status of the image, as cherisim_new, and CHERISIM_RANGE where
 * a kind is none of these or a byte is above 255, where more than 2^64 - 1 events were given, and as it says itself. */

/* What was given. */
enum {
    CHERISIM_GAVE_STEPS = 0, /* `number` steps, of a run or one at a time */
    CHERISIM_GAVE_TICKS = 1, /* `number` ticks: of a run with `tick` one between its steps, so that it is noted part by part */
    CHERISIM_GAVE_BYTE = 2   /* the byte `number` */
};
typedef struct { uint64_t number; uint32_t kind; } cherisim_given_t;
/* The image file of a text in the assembly language: *length bytes at the beginning of `image`. Where the buffer is too short,
 * CHERISIM_FULL, and *length is what it takes. Of a faulty text what cherisim_assemble says. */
cherisim_status cherisim_image(const uint8_t *text, size_t text_length, uint8_t *image, size_t room, size_t *length, uint64_t *line);
/* The machine as it stood before the last `events` of a past, each step, tick and byte counted for one, into the handle. CHERISIM_RANGE
 * where there were fewer. */
cherisim_status cherisim_back(const uint8_t *image, size_t length, const cherisim_given_t *given, size_t count, uint64_t events,
                              cherisim_t *machine);

/* A place, by its kind among those where members are found: general register `number`, 0 to 31; special register `number`, as
 * cherisim_scr has it; the granule at the address `number`. CHERISIM_RANGE where the machine has none. */
typedef struct { uint64_t number; uint32_t kind; } cherisim_place_t;
/* Steps while a place of a machine holds what it holds, tag and all, which is looked at before each: so many at most, and up to one that
 * sends a byte or halts the machine. No tick comes between them. */
cherisim_status cherisim_step_while_held(cherisim_t *machine, uint64_t most, const cherisim_place_t *place, cherisim_stepped_t *stepped);
/* How what a place holds at the end of a past came to be, as the debugger's command `origin` shows it, with the labels of a table as
 * cherisim_trace takes them: *text_length bytes of text, no 0 after them. Where the buffer is too short, CHERISIM_FULL, and *text_length is
 * what it takes. CHERISIM_LABELS where line *line of the table is no label's; where there is no memory for it *line is 0. */
cherisim_status cherisim_origin(const uint8_t *image, size_t length, const cherisim_given_t *given, size_t count,
                                const cherisim_place_t *place, const uint8_t *labels, size_t labels_length,
                                uint8_t *text, size_t room, size_t *text_length, uint64_t *line);
/* Where the tag of a place went, and why, as the debugger's command `lost` shows it. */
cherisim_status cherisim_lost(const uint8_t *image, size_t length, const cherisim_given_t *given, size_t count,
                              const cherisim_place_t *place, const uint8_t *labels, size_t labels_length,
                              uint8_t *text, size_t room, size_t *text_length, uint64_t *line);
/* A link: what a place held after the step that wrote it, how many events were before that step, and PCC's address then; and the place
 * that the value was made of, if `has_source`. With `written` false no step wrote it, and the opening state has the value. */
typedef struct {
    cherisim_cap_t value;
    uint64_t before, pc;
    cherisim_place_t place, source;
    bool has_source, written;
} cherisim_link_t;
/* How what a place holds came to be, as links, the newest first, *count of them at the beginning of `links`: as many as there are, or as
 * there is room for. Each goes over the past once. */
cherisim_status cherisim_origin_links(const uint8_t *image, size_t length, const cherisim_given_t *given, size_t given_count,
                                      const cherisim_place_t *place, cherisim_link_t *links, size_t room, size_t *count);
/* Where the tag of what a place holds went, in the same way: the links down to the first whose source had its tag, none where no tag went.
 * Where they end in data, the event at which data overwrote a tag; or, where the bits of a tagged capability were copied as two double
 * words, their stores, the lower one first, each with the granule that it was loaded from. */
cherisim_status cherisim_lost_links(const uint8_t *image, size_t length, const cherisim_given_t *given, size_t given_count,
                                    const cherisim_place_t *place, cherisim_link_t *links, size_t room, size_t *count);

#ifdef __cplusplus
}
#endif
#endif
