/* Tries libcherisim's events, runs, registers, memory and texts: worked rows against what docs/PROGRAMMING.md and docs/DEBUGGER.md say. No
 * expected value comes from the library. Says how many rows are wrong, and ends with 0 where none is. */
#include "machines.h"

/* ---- events */

static void first_steps(void) {
    cherisim_t m = CHERISIM_NONE, before = CHERISIM_NONE;
    cherisim_console_t held = {0, false, false};
    uint8_t queue[64] = {0};
    of_words(&m, first_words, sizeof first_words, false);
    for (int i = 1; i <= 5; i += 1) {
        cherisim_sent_t sent = {i != 3, 0};
        DONE(cherisim_step(&m, &sent));
        ROW(sent.sends == (i == 3) && (i != 3 || sent.byte == 65) && pc(&m) == RAM + 4 * (uint64_t)i);
        ROW(csr(&m, MCYCLE) == (uint64_t)i && csr(&m, MINSTRET) == (uint64_t)i);
    }
    ROW(halted(&m).halted && halted(&m).number == 0 && ends(&m) == 0);
    DONE(cherisim_copy(&m, &before));
    steps(&m, 1);
    ROW(same(&m, &before));
    DONE(cherisim_tick(&m));
    DONE(cherisim_receive(&m, 1));
    DONE(cherisim_console(&m, queue, &held));
    ROW(timer(&m).mtime == 1 && csr(&m, MINSTRET) == 5 && csr(&m, MIP) == 0 && held.waiting == 1 && queue[0] == 1);
    of_text(&m, "lui a1, 0x100\nli a0, -2\nsd a0, 0(a1)\n");
    steps(&m, 3);
    ROW(halted(&m).halted && halted(&m).number == UINT64_MAX - 1);
    cherisim_free(&m);
    cherisim_free(&before);
}

/* the queue of 64 bytes, its order, and the byte that is lost */
static void console(void) {
    cherisim_t m = CHERISIM_NONE;
    cherisim_console_t held = {0, false, false};
    uint8_t queue[64] = {0};
    of_text(&m, "lui a1, 0x10000\nld a0, 16(a1)\nld a2, 8(a1)\nli a3, 2\nsd a3, 16(a1)\nld a4, 16(a1)\nli a5, 1\nsd a5, 24(a1)\n"
                "ld a6, 24(a1)\n");
    for (int i = 0; i < 65; i += 1) DONE(cherisim_receive(&m, (uint8_t)(3 * i)));
    DONE(cherisim_console(&m, queue, &held));
    ROW(held.waiting == 64 && held.overrun && !held.control);
    for (int i = 0; i < 64; i += 1) ROW(queue[i] == (uint8_t)(3 * i));
    steps(&m, 3);
    ROW(x(&m, A0) == 3 && x(&m, 12) == 0);
    memset(queue, 0xee, 64);
    DONE(cherisim_console(&m, queue, &held));
    ROW(held.waiting == 63 && held.overrun);
    for (int i = 0; i < 63; i += 1) ROW(queue[i] == (uint8_t)(3 * i + 3));
    DONE(cherisim_receive(&m, 200));
    steps(&m, 3);
    DONE(cherisim_console(&m, queue, &held));
    ROW(x(&m, 14) == 1 && held.waiting == 64 && !held.overrun && queue[0] == 3 && queue[63] == 200);
    steps(&m, 3);
    DONE(cherisim_console(&m, queue, &held));
    ROW(held.control && x(&m, 16) == 1 && csr(&m, MIP) == 0x800);
    cherisim_free(&m);
}

/* the external interrupt comes before the timer's */
static void interrupts(uint64_t mtcc, uint64_t external, uint64_t of_timer) {
    cherisim_t m = CHERISIM_NONE;
    of_text(&m, "lui a1, 0x10000\nli a0, 1\nsd a0, 24(a1)\nlui t0, 0x2004\nli t1, 2\nsd t1, 0(t0)\naddi a1, a1, 8\nfirst: nop\n"
                ".org 0x80000100\nld a0, 0(a1)\nmret\n.org 0x8000012c\nld a0, 0(a1)\nmret\n");
    steps(&m, 7);
    DONE(cherisim_set_scr(&m, MTCC, root_at(mtcc)));
    DONE(cherisim_set_csr(&m, MIE, 0x880));
    DONE(cherisim_set_csr(&m, MSTATUS, 8));
    uint64_t first = pc(&m), cycles = csr(&m, MCYCLE);
    ROW(ends(&m) == 0);
    DONE(cherisim_receive(&m, 0x41));
    DONE(cherisim_tick(&m));
    DONE(cherisim_tick(&m));
    ROW(ends(&m) == CHERISIM_TRAP && csr(&m, MIP) == 0x880);
    steps(&m, 1);
    ROW(has_trapped(&m, 0x800000000000000b, 0) && pc(&m) == external && csr(&m, MSTATUS) == 0x1880 && csr(&m, MIP) == 0x880);
    ROW(csr(&m, MCYCLE) == cycles + 1 && csr(&m, MINSTRET) == cycles && equal(scr(&m, MEPCC), root_at(first)));
    steps(&m, 2);
    ROW(x(&m, A0) == 0x41 && pc(&m) == first && csr(&m, MSTATUS) == 0x1888 && csr(&m, MIP) == 0x80);
    steps(&m, 1);
    ROW(has_trapped(&m, 0x8000000000000007, 0) && pc(&m) == of_timer);
    cherisim_free(&m);
}

/* ---- runs */

/* hello of examples/: 5 steps, 4 for each of 13 letters, and 2 */
static const char *hello = "lui a1, 0x10000\nla a2, text\nla a3, end\nnext: lbu a0, 0(a2)\nsb a0, 0(a1)\naddi a2, a2, 1\nbne a2, a3, next\n"
                           "lui a1, 0x100\nsd zero, 0(a1)\ntext: .ascii \"hello, world\\n\"\nend:\n";
typedef struct { cherisim_ran_t ran; uint8_t bytes[64]; } run_t;
static run_t run(cherisim_t *m, cherisim_asked_t asked, size_t room) {
    run_t done = {{99, 99, 99}, {0}};
    DONE(cherisim_run(m, &asked, done.bytes, room, &done.ran));
    return done;
}
static bool is_run(run_t done, uint64_t of_steps, const char *sent, uint32_t stop) {
    size_t length = strlen(sent);
    return done.ran.steps == of_steps && done.ran.sent == length && done.ran.stop == stop && memcmp(done.bytes, sent, length) == 0;
}
static cherisim_asked_t most(uint64_t of_steps) { return (cherisim_asked_t){of_steps, 0, 0, 0, false, false, false}; }
static cherisim_asked_t until(uint64_t address) { return (cherisim_asked_t){1000, 0, 0, address, true, false, false}; }
static cherisim_asked_t to_end(uint64_t of_steps) { return (cherisim_asked_t){of_steps, 0, 0, 0, false, true, false}; }
static cherisim_asked_t to_turn(uint64_t of_steps) { return (cherisim_asked_t){of_steps, 0, 0, 0, false, true, true}; }

static void run_stops(void) {
    cherisim_t m = CHERISIM_NONE;
    of_text(&m, hello);
    ROW(is_run(run(&m, most(0), 64), 0, "", CHERISIM_STEPS));
    ROW(is_run(run(&m, most(3), 64), 3, "", CHERISIM_STEPS));
    ROW(is_run(run(&m, most(1000), 64), 56, "hello, world\n", CHERISIM_HALTED));
    ROW(is_run(run(&m, most(1000), 64), 0, "", CHERISIM_HALTED) && is_run(run(&m, most(0), 0), 0, "", CHERISIM_STEPS));
    ROW(is_run(run(&m, most(7), 0), 0, "", CHERISIM_HALTED));
    of_text(&m, hello);
    ROW(is_run(run(&m, most(59), 64), 59, "hello, world\n", CHERISIM_STEPS) && halted(&m).halted);
    of_text(&m, hello);
    ROW(is_run(run(&m, most(1000), 0), 0, "", CHERISIM_BUFFER) && pc(&m) == RAM);
    ROW(is_run(run(&m, most(1000), 5), 23, "hello", CHERISIM_BUFFER) && is_run(run(&m, most(1000), 8), 32, ", world\n", CHERISIM_BUFFER));
    ROW(is_run(run(&m, most(4), 1), 4, "", CHERISIM_STEPS) && halted(&m).halted);
    of_text(&m, hello);
    ROW(is_run(run(&m, most(1000), 13), 55, "hello, world\n", CHERISIM_BUFFER) && is_run(run(&m, most(2), 1), 2, "", CHERISIM_STEPS));
    cherisim_free(&m);
}

static void run_before_stops(void) {
    cherisim_t m = CHERISIM_NONE;
    of_text(&m, hello);
    ROW(is_run(run(&m, until(RAM + 20), 64), 5, "", CHERISIM_ADDRESS) && is_run(run(&m, until(RAM + 20), 64), 0, "", CHERISIM_ADDRESS));
    ROW(is_run(run(&m, until(RAM + 36), 64), 52, "hello, world\n", CHERISIM_ADDRESS) && pc(&m) == RAM + 36);
    ROW(is_run(run(&m, until(RAM), 64), 2, "", CHERISIM_HALTED));
    of_text(&m, hello);
    ROW(is_run(run(&m, until(RAM), 0), 0, "", CHERISIM_BUFFER) && is_run(run(&m, until(RAM), 1), 0, "", CHERISIM_ADDRESS));
    ROW(is_run(run(&m, to_end(1000), 64), 59, "hello, world\n", CHERISIM_HALTED));
    cherisim_free(&m);
}

/* a run up to what ends a stretch stops before it, and `next_ends` says the same */
static void run_ends(void) {
    cherisim_t m = CHERISIM_NONE;
    of_text(&m, "li a0, 1\nebreak\n");
    ROW(is_run(run(&m, to_end(1000), 64), 1, "", CHERISIM_TRAP) && pc(&m) == RAM + 4 && ends(&m) == CHERISIM_TRAP);
    ROW(is_run(run(&m, to_end(1000), 64), 0, "", CHERISIM_TRAP) && csr(&m, MCAUSE) == 0);
    ROW(is_run(run(&m, to_end(0), 64), 0, "", CHERISIM_STEPS) && is_run(run(&m, to_end(9), 0), 0, "", CHERISIM_BUFFER));
    ROW(is_run(run(&m, (cherisim_asked_t){9, 0, 0, RAM + 4, true, true, false}, 64), 0, "", CHERISIM_ADDRESS));
    ROW(is_run(run(&m, (cherisim_asked_t){1, 0, 0, 0, false, false, false}, 64), 1, "", CHERISIM_STEPS));
    ROW(has_trapped(&m, 3, RAM + 4) && pc(&m) == 0);
    of_text(&m, ".mode 1\nnop\ncunseal ca2, ca0, ca1\nnop\ncjalr cra, (ca0)\n.org 0x80000100\ncinvoke ca0, ca1\n");
    DONE(cherisim_set_reg(&m, A0, with(root_at(RAM + 0x100), ALL, 5)));
    DONE(cherisim_set_reg(&m, X11, root_at(5)));
    ROW(is_run(run(&m, to_end(1000), 64), 1, "", CHERISIM_UNSEAL) && ends(&m) == CHERISIM_UNSEAL && equal(reg(&m, 12), number(0)));
    steps(&m, 1);
    ROW(equal(reg(&m, 12), root_at(RAM + 0x100)) && ends(&m) == 0);
    DONE(cherisim_set_reg(&m, A0, with(capability_mode_at(RAM + 0x100), ALL, SENTRY)));
    ROW(is_run(run(&m, to_end(1000), 64), 1, "", CHERISIM_SEALED_JUMP) && ends(&m) == CHERISIM_SEALED_JUMP && pc(&m) == RAM + 12);
    steps(&m, 1);
    ROW(equal(scr(&m, PCC), capability_mode_at(RAM + 0x100)) && cheri_otype((cheri_word_t){0, reg(&m, 1).upper}) == SENTRY);
    DONE(cherisim_set_reg(&m, A0, with(root_at(RAM), ALL, 5)));
    DONE(cherisim_set_reg(&m, X11, with(root_at(77), NO_EXECUTE, 5)));
    ROW(is_run(run(&m, to_end(1000), 64), 0, "", CHERISIM_SEALED_JUMP));
    steps(&m, 1);
    ROW(equal(scr(&m, PCC), root_at(RAM)) && equal(reg(&m, X31), with(root_at(77), NO_EXECUTE, UNSEALED)));
    of_text(&m, "cunseal ca2, ca0, ca1\nebreak\n");
    DONE(cherisim_set_reg(&m, A0, with(root_at(0), ALL, 5)));
    DONE(cherisim_set_reg(&m, X11, root_at(6)));
    ROW(ends(&m) == 0 && is_run(run(&m, to_end(1000), 64), 1, "", CHERISIM_TRAP));
    cherisim_free(&m);
}

/* through doors it goes on over jumps through seals, up to what traps or unseals */
static void run_turns(void) {
    cherisim_t m = CHERISIM_NONE;
    of_text(&m, ".mode 1\nnop\ncjalr cra, (ca0)\nnop\n.org 0x80000100\ncinvoke ca0, ca1\n"
                ".org 0x80000200\nnop\ncunseal ca2, ca4, ca5\nebreak\n");
    DONE(cherisim_set_reg(&m, A0, with(capability_mode_at(RAM + 0x100), ALL, SENTRY)));
    DONE(cherisim_set_reg(&m, 14, with(root_at(RAM), ALL, 5)));
    DONE(cherisim_set_reg(&m, 15, root_at(5)));
    ROW(is_run(run(&m, to_end(1000), 64), 1, "", CHERISIM_SEALED_JUMP));
    ROW(is_run(run(&m, to_turn(1000), 64), 1, "", CHERISIM_TRAP) && pc(&m) == RAM + 0x100 && ends(&m) == CHERISIM_TRAP);
    DONE(cherisim_set_reg(&m, A0, with(capability_mode_at(RAM + 0x200), ALL, 5)));
    DONE(cherisim_set_reg(&m, X11, with(root_at(77), NO_EXECUTE, 5)));
    ROW(is_run(run(&m, to_end(1000), 64), 0, "", CHERISIM_SEALED_JUMP) && is_run(run(&m, to_turn(1), 64), 1, "", CHERISIM_STEPS));
    ROW(is_run(run(&m, to_turn(1000), 64), 1, "", CHERISIM_UNSEAL) && pc(&m) == RAM + 0x204 && ends(&m) == CHERISIM_UNSEAL);
    steps(&m, 1);
    ROW(is_run(run(&m, to_turn(1000), 64), 0, "", CHERISIM_TRAP));
    cherisim_free(&m);
}

/* ticks follow the steps whose numbers are multiples, counted from `before` + 1 on */
static void run_ticks(void) {
    cherisim_t m = CHERISIM_NONE;
    const char *loop = "loop: nop\nj loop\n";
    of_text(&m, loop);
    ROW(is_run(run(&m, (cherisim_asked_t){25, 10, 0, 0, false, false, false}, 64), 25, "", CHERISIM_STEPS) && timer(&m).mtime == 2);
    ROW(is_run(run(&m, (cherisim_asked_t){5, 10, 25, 0, false, false, false}, 64), 5, "", CHERISIM_STEPS) && timer(&m).mtime == 3);
    ROW(is_run(run(&m, (cherisim_asked_t){4, 10, 5, 0, false, false, false}, 64), 4, "", CHERISIM_STEPS) && timer(&m).mtime == 3);
    ROW(is_run(run(&m, (cherisim_asked_t){5, 3, 7, 0, false, false, false}, 64), 5, "", CHERISIM_STEPS) && timer(&m).mtime == 5);
    ROW(is_run(run(&m, (cherisim_asked_t){7, 1, 100, 0, false, false, false}, 64), 7, "", CHERISIM_STEPS) && timer(&m).mtime == 12);
    ROW(is_run(run(&m, (cherisim_asked_t){99, 100, 0, 0, false, false, false}, 64), 99, "", CHERISIM_STEPS) && timer(&m).mtime == 12);
    ROW(is_run(run(&m, (cherisim_asked_t){9, 0, 0, 0, false, false, false}, 64), 9, "", CHERISIM_STEPS) && timer(&m).mtime == 12);
    of_text(&m, "lui a1, 0x100\nsd zero, 0(a1)\n");
    ROW(is_run(run(&m, (cherisim_asked_t){9, 1, 0, 0, false, false, false}, 64), 2, "", CHERISIM_HALTED) && timer(&m).mtime == 1);
    of_text(&m, "lui a1, 0x100\nsd zero, 0(a1)\n");
    ROW(is_run(run(&m, (cherisim_asked_t){2, 2, 0, 0, false, false, false}, 64), 2, "", CHERISIM_STEPS) && timer(&m).mtime == 0);
    cherisim_free(&m);
}

/* the timer's interrupt comes after the tick that brings it, and a dot is sent: ticks 3, 6, 9 and 12, and 15 after the last step */
static void timer_ticks(void) {
    cherisim_t m = CHERISIM_NONE;
    of_text(&m, "cspecialrw ct0, pcc, cnull\nla t1, trap\ncsetaddr ct0, ct0, t1\ncspecialrw cnull, mtcc, ct0\nlui s1, 0x2004\n"
                "lui s2, 0x10000\nli s4, 3\nsd s4, 0(s1)\nli t0, 128\ncsrrs zero, mie, t0\ncsrrsi zero, mstatus, 8\nwait: j wait\n"
                "trap: li a0, 46\nsb a0, 0(s2)\naddi s4, s4, 3\nsd s4, 0(s1)\nmret\n");
    cherisim_asked_t asked = {150, 10, 0, 0, false, true, false};
    ROW(is_run(run(&m, asked, 64), 30, "", CHERISIM_TRAP) && timer(&m).mtime == 3);
    asked = (cherisim_asked_t){120, 10, 30, 0, false, false, false};
    ROW(is_run(run(&m, asked, 64), 120, "....", CHERISIM_STEPS) && timer(&m).mtime == 15);
    ROW(csr(&m, MCAUSE) == 0x8000000000000007 && ends(&m) == CHERISIM_TRAP);
    cherisim_free(&m);
}

/* ---- what is written, as the program that runs sees it */

static void written_registers(void) {
    cherisim_t m = CHERISIM_NONE;
    of_text(&m, ".mode 1\naddi a0, a0, 1\ncsb a0, 15(ca1)\ncsb a0, 16(ca1)\nadd a2, zero, a0\ncspecialrw ca3, mscratchc, ca1\n");
    DONE(cherisim_set_reg(&m, A0, number(41)));
    DONE(cherisim_set_reg(&m, X11, bounded(RAM + 256, 16)));
    DONE(cherisim_set_reg(&m, 0, root_at(1)));
    DONE(cherisim_set_scr(&m, MSCRATCHC, with(root_at(3), 5, 4)));
    ROW(equal(reg(&m, 0), number(0)) && equal(reg(&m, X11), bounded(RAM + 256, 16)) && csr(&m, MCYCLE) == 0);
    steps(&m, 2);
    ROW(x(&m, A0) == 42 && dword(&m, RAM + 264) == UINT64_C(42) << 56 && ends(&m) == CHERISIM_TRAP);
    DONE(cherisim_set_scr(&m, PCC, capability_mode_at(RAM + 12)));
    steps(&m, 2);
    ROW(x(&m, 12) == 42 && equal(reg(&m, 13), with(root_at(3), 5, 4)) && equal(scr(&m, MSCRATCHC), bounded(RAM + 256, 16)));
    cherisim_cap_t untagged = {123, UINT64_MAX, false};
    DONE(cherisim_set_reg(&m, 31, untagged));
    ROW(equal(reg(&m, 31), untagged));
    ROW(cherisim_set_reg(&m, 32, number(1)) == CHERISIM_RANGE && cherisim_set_reg(&m, 255, number(1)) == CHERISIM_RANGE);
    ROW(cherisim_reg(&m, 32, &untagged) == CHERISIM_RANGE && untagged.address == 123);
    cherisim_free(&m);
}

static void written_special_registers(void) {
    cherisim_t m = CHERISIM_NONE, before = CHERISIM_NONE;
    cherisim_cap_t value = root_at(9);
    of_text(&m, "lw a0, 0(a1)\nlw a0, 4(a1)\n.org 0x80000100\nli a2, 5\n");
    for (size_t i = 1; i < COUNT_OF(scrs); i += 1) {
        DONE(cherisim_set_scr(&m, scrs[i], with(root_at(scrs[i]), 0x30f, 7)));
        ROW(equal(scr(&m, scrs[i]), with(root_at(scrs[i]), 0x30f, 7)));
    }
    DONE(cherisim_copy(&m, &before));
    for (unsigned n = 0; n < 256; n += 1) {
        if (n == PCC || n == DDC || (n >= MTCC && n <= MEPCC)) continue;
        ROW(cherisim_set_scr(&m, (uint8_t)n, root_at(0)) == CHERISIM_RANGE && cherisim_scr(&m, (uint8_t)n, &value) == CHERISIM_RANGE);
    }
    for (uint64_t low = 1; low < 4; low += 1) ROW(cherisim_set_scr(&m, PCC, root_at(RAM + low)) == CHERISIM_RANGE);
    ROW(equal(value, root_at(9)) && same(&m, &before));
    DONE(cherisim_set_scr(&m, DDC, bounded(RAM, 4)));
    DONE(cherisim_set_scr(&m, MTCC, root_at(RAM + 0x100)));
    DONE(cherisim_set_reg(&m, X11, number(RAM)));
    steps(&m, 2);
    ROW(has_trapped(&m, CHERI, 32 * 33 + 1) && pc(&m) == RAM + 0x100 && equal(scr(&m, MEPCC), root_at(RAM + 4)));
    steps(&m, 1);
    ROW(x(&m, 12) == 5);
    value = root_at(RAM);
    value.tag = false;
    DONE(cherisim_set_scr(&m, PCC, value));
    ROW(ends(&m) == CHERISIM_TRAP && equal(scr(&m, PCC), value));
    steps(&m, 1);
    ROW(has_trapped(&m, CHERI, 32 * 32 + 2));
    cherisim_free(&m);
    cherisim_free(&before);
}

static void written_csrs(void) {
    cherisim_t m = CHERISIM_NONE;
    const uint64_t all = UINT64_MAX;
    const uint64_t kept[] = {0x1888, 0x8000000000001100, 0x880, all - 3, all, all - 3, all, all, 0, all, all, 0, 0, 0, 0};
    uint64_t value = 9;
    of_text(&m, "csrrs a0, mscratch, zero\ncsrrs a1, mcycle, zero\ncsrrw zero, mscratch, a1\n");
    for (size_t i = 0; i < COUNT_OF(csrs); i += 1) {
        DONE(cherisim_set_csr(&m, csrs[i], all));
        ROW(csr(&m, csrs[i]) == kept[i]);
    }
    for (unsigned n = 0; n < 65536; n += 1) {
        bool listed = false;
        for (size_t i = 0; i < COUNT_OF(csrs); i += 1) listed = listed || csrs[i] == n;
        if (!listed) ROW(cherisim_set_csr(&m, (uint16_t)n, 0) == CHERISIM_RANGE && cherisim_csr(&m, (uint16_t)n, &value) == CHERISIM_RANGE);
    }
    ROW(value == 9);
    DONE(cherisim_set_csr(&m, MTVEC, 0x80000103));
    ROW(csr(&m, MTVEC) == 0x80000100 && equal(scr(&m, MTCC), root_at(0x80000100)));
    DONE(cherisim_set_csr(&m, MTVEC, 0x80000101));
    ROW(csr(&m, MTVEC) == 0x80000101);
    DONE(cherisim_set_csr(&m, MEPC, 0x80000107));
    ROW(csr(&m, MEPC) == 0x80000104 && equal(scr(&m, MEPCC), root_at(0x80000104)));
    DONE(cherisim_set_scr(&m, MTCC, bounded(0x80001000, 4095)));
    DONE(cherisim_set_csr(&m, MTVEC, 0x800047fc));
    ROW(scr(&m, MTCC).tag);
    DONE(cherisim_set_csr(&m, MTVEC, 0x80004800));
    ROW(!scr(&m, MTCC).tag && scr(&m, MTCC).address == 0x80004800);
    DONE(cherisim_set_csr(&m, MSCRATCH, 0x1234));
    DONE(cherisim_set_csr(&m, MCYCLE, 7));
    steps(&m, 3);
    ROW(x(&m, A0) == 0x1234 && x(&m, X11) == 8 && csr(&m, MSCRATCH) == 8 && csr(&m, MCYCLE) == 10 && csr(&m, MINSTRET) == 2);
    cherisim_free(&m);
}

static void written_memory(void) {
    cherisim_t m = CHERISIM_NONE;
    uint8_t bytes[48];
    uint64_t at = 0;
    of_text(&m, "loop: addi a0, a0, 1\nj loop\n");
    steps(&m, 10);
    ROW(x(&m, A0) == 5);
    DONE(cherisim_write(&m, RAM, (const uint8_t *)(const uint32_t[]){0x00250513}, 4)); /* addi a0, a0, 2 */
    steps(&m, 10);
    ROW(x(&m, A0) == 15);
    for (uint64_t i = 0; i < 3; i += 1) DONE(cherisim_write_cap(&m, RAM + 256 + 16 * i, bounded(RAM, 16 + i)));
    DONE(cherisim_next_tagged(&m, RAM + 256 + 1, &at));
    ROW(at == RAM + 272);
    DONE(cherisim_write(&m, RAM + 271, (const uint8_t *)"ab", 2));
    DONE(cherisim_read(&m, RAM + 256, bytes, 48));
    ROW(bytes[15] == 'a' && bytes[16] == 'b' && !cap_at(&m, RAM + 256).tag && !cap_at(&m, RAM + 272).tag && cap_at(&m, RAM + 288).tag);
    DONE(cherisim_next_tagged(&m, 0, &at));
    ROW(at == RAM + 288);
    DONE(cherisim_next_tagged(&m, RAM + 288, &at));
    ROW(at == RAM + 288 && cherisim_next_tagged(&m, RAM + 289, &at) == CHERISIM_RANGE && at == RAM + 288);
    ROW(cherisim_next_tagged(&m, UINT64_MAX, &at) == CHERISIM_RANGE);
    DONE(cherisim_write_cap(&m, RAM + 288, number(5)));
    ROW(cherisim_next_tagged(&m, 0, &at) == CHERISIM_RANGE && dword(&m, RAM + 288) == 5 && dword(&m, RAM + 296) == 0);
    ROW(equal(cap_at(&m, RAM + 288), number(5)));
    DONE(cherisim_write_cap(&m, RAM + PAGE - 16, root_at(0)));
    ROW(dword(&m, RAM + PAGE - 16) == 0 && dword(&m, RAM + PAGE - 8) == 0xffff000000000000);
    DONE(cherisim_next_tagged(&m, RAM + PAGE - 16, &at));
    ROW(at == RAM + PAGE - 16);
    DONE(cherisim_write(&m, RAM + PAGE - 1, (const uint8_t *)"z", 1));
    ROW(!cap_at(&m, RAM + PAGE - 16).tag);
    cherisim_free(&m);
}

static void outside_ram(void) {
    cherisim_t m = CHERISIM_NONE, before = CHERISIM_NONE;
    const uint64_t places[] = {0, RAM - 1, RAM + PAGE - 3, RAM + PAGE, 0x10000000, UINT64_MAX, UINT64_MAX - 3};
    const uint64_t granules[] = {RAM - 16, RAM + PAGE, RAM + 8, RAM + 1, RAM + PAGE - 8, 0, UINT64_MAX - 15, UINT64_MAX};
    uint8_t bytes[4] = "abc";
    cherisim_cap_t cap = root_at(3);
    of_text(&m, "nop\n");
    DONE(cherisim_write_cap(&m, RAM + PAGE - 16, root_at(0)));
    DONE(cherisim_copy(&m, &before));
    for (size_t i = 0; i < COUNT_OF(places); i += 1) {
        ROW(cherisim_read(&m, places[i], bytes, 4) == CHERISIM_RANGE && memcmp(bytes, "abc", 4) == 0);
        ROW(cherisim_write(&m, places[i], bytes, 4) == CHERISIM_RANGE);
    }
    for (size_t i = 0; i < COUNT_OF(granules); i += 1) {
        ROW(cherisim_read_cap(&m, granules[i], &cap) == CHERISIM_RANGE && equal(cap, root_at(3)));
        ROW(cherisim_write_cap(&m, granules[i], cap) == CHERISIM_RANGE);
    }
    DONE(cherisim_read(&m, RAM + PAGE - 4, bytes, 4));
    DONE(cherisim_read(&m, RAM, bytes, 0));
    DONE(cherisim_write(&m, RAM, bytes, 0));
    ROW(same(&m, &before));
    cherisim_free(&m);
    cherisim_free(&before);
}

/* a capability that is written is loaded with its tag, and a byte over it takes the tag */
static void written_capabilities(void) {
    cherisim_t m = CHERISIM_NONE;
    cherisim_cap_t third = bounded(0x80001000, 4095);
    uint8_t bytes[16];
    of_text(&m, ".mode 1\nclc ca0, 0(ca1)\ncsb a2, 3(ca1)\nclc ca3, 0(ca1)\ncsc ca0, 16(ca1)\nclc ca4, 16(ca5)\n");
    DONE(cherisim_set_reg(&m, X11, bounded(RAM + 256, 32)));
    DONE(cherisim_set_reg(&m, 12, number(0x41)));
    DONE(cherisim_set_reg(&m, 15, with(bounded(RAM + 256, 32), NO_LOAD_CAPABILITY, UNSEALED)));
    DONE(cherisim_write_cap(&m, RAM + 256, third));
    DONE(cherisim_read(&m, RAM + 256, bytes, 16));
    ROW(memcmp(bytes, "\x00\x10\x00\x80\0\0\0\0\x04\x50\xfe\x07\0\0\xff\xff", 16) == 0);
    steps(&m, 5);
    ROW(equal(reg(&m, A0), third) && !cap_at(&m, RAM + 256).tag && !reg(&m, 13).tag);
    DONE(cherisim_read(&m, RAM + 256, bytes, 16));
    ROW(memcmp(bytes, "\x00\x10\x00\x41\0\0\0\0\x04\x50\xfe\x07\0\0\xff\xff", 16) == 0);
    ROW(equal(cap_at(&m, RAM + 272), third) && !reg(&m, 14).tag && reg(&m, 14).upper == third.upper && reg(&m, 14).address == 0x80001000);
    cherisim_free(&m);
}

/* ---- traps, by the registers that are set before them */

/* one step traps, with these numbers; register 12 stays */
static void trapping(cherisim_t *m, uint64_t mcause, uint64_t mtval) {
    cherisim_cap_t pcc = scr(m, PCC);
    DONE(cherisim_set_reg(m, 12, number(0x77)));
    DONE(cherisim_set_scr(m, MTCC, root_at(RAM + 0x800)));
    ROW(ends(m) == CHERISIM_TRAP);
    steps(m, 1);
    ROW(has_trapped(m, mcause, mtval) && equal(scr(m, MEPCC), pcc) && pc(m) == RAM + 0x800 && x(m, 12) == 0x77);
    DONE(cherisim_set_scr(m, PCC, root_at(RAM)));
}

static void jump_traps(void) {
    cherisim_t m = CHERISIM_NONE;
    cherisim_cap_t code = with(root_at(RAM + 0x100), ALL, 5), data = with(root_at(RAM), NO_EXECUTE, 6);
    of_text(&m, "cinvoke ca0, ca1\n");
    DONE(cherisim_set_reg(&m, A0, code));
    DONE(cherisim_set_reg(&m, X11, data));
    trapping(&m, CHERI, 0x144);
    code.tag = data.tag = false;
    DONE(cherisim_set_reg(&m, X11, data));
    trapping(&m, CHERI, 11 * 32 + 2);
    DONE(cherisim_set_reg(&m, A0, code));
    trapping(&m, CHERI, 0x142);
    DONE(cherisim_set_reg(&m, A0, with(root_at(RAM + 0x102), ALL, 5)));
    DONE(cherisim_set_reg(&m, X11, with(root_at(RAM), NO_EXECUTE, 5)));
    trapping(&m, 0, RAM + 0x102);
    of_text(&m, ".mode 1\ncjalr cra, 4(ca0)\n");
    DONE(cherisim_set_reg(&m, A0, with(root_at(RAM + 0x100), ALL, SENTRY)));
    trapping(&m, CHERI, 0x143);
    of_text(&m, "beq zero, zero, .+8\n");
    DONE(cherisim_set_scr(&m, PCC, bounded(RAM, 8)));
    trapping(&m, CHERI, 0x401);
    of_text(&m, "ecall\n");
    trapping(&m, 11, 0);
    of_text(&m, ".word 0\n");
    trapping(&m, 2, 0);
    cherisim_free(&m);
}

static void system_traps(void) {
    cherisim_t m = CHERISIM_NONE;
    cherisim_cap_t pcc = with(root_at(RAM), NO_SYSTEM, UNSEALED);
    of_text(&m, "csrrs a2, mscratch, zero\n");
    DONE(cherisim_set_scr(&m, PCC, pcc));
    trapping(&m, CHERI, 0x418);
    of_text(&m, "cspecialrw ca2, mtcc, cnull\n");
    DONE(cherisim_set_scr(&m, PCC, pcc));
    trapping(&m, CHERI, 0x798);
    of_text(&m, "csrrs a2, 0x7c0, zero\n");
    DONE(cherisim_set_scr(&m, PCC, pcc));
    trapping(&m, 2, 0x7c002673);
    of_text(&m, "lw a2, 0(a1)\n");
    DONE(cherisim_set_reg(&m, X11, number(RAM)));
    DONE(cherisim_set_scr(&m, DDC, bounded(RAM, 0)));
    trapping(&m, CHERI, 0x421);
    DONE(cherisim_set_scr(&m, DDC, root_at(0)));
    DONE(cherisim_set_reg(&m, X11, number(RAM + 2)));
    trapping(&m, 4, RAM + 2);
    DONE(cherisim_set_reg(&m, X11, number(4)));
    trapping(&m, 5, 4);
    of_text(&m, "sd a2, 0(a1)\n");
    DONE(cherisim_set_reg(&m, X11, number(RAM + PAGE)));
    trapping(&m, 7, RAM + PAGE);
    DONE(cherisim_set_reg(&m, X11, number(RAM + 12)));
    trapping(&m, 6, RAM + 12);
    cherisim_free(&m);
}

/* ---- steps while RAM has some bytes, against single steps with a look before each */

static void watched_bytes(cherisim_t *m, uint64_t most, uint64_t address, size_t length) {
    cherisim_t single = CHERISIM_NONE;
    cherisim_stepped_t stepped = {99, {true, 9}};
    cherisim_sent_t sent = {false, 0};
    uint8_t held[64], now[64];
    uint64_t done = 0;
    DONE(cherisim_copy(m, &single));
    DONE(cherisim_read(m, address, held, length));
    DONE(cherisim_step_while(m, most, address, held, length, &stepped));
    for (; done < most && !sent.sends && !halted(&single).halted; done += 1) {
        DONE(cherisim_read(&single, address, now, length));
        if (memcmp(held, now, length)) break;
        DONE(cherisim_step(&single, &sent));
    }
    ROW(stepped.steps == done && stepped.sent.sends == sent.sends && stepped.sent.byte == sent.byte && same(m, &single));
    cherisim_free(&single);
}

static void steps_while(void) {
    static const char *text = "lui a1, 0x10000\nla a2, table\nlui a0, 64\nloop: addi a0, a0, -1\nandi a3, a0, 63\nsrli a4, a0, 6\n"
                              "add a5, a2, a3\nsb a4, 0(a5)\nbne a3, zero, loop\nsb a4, 0(a1)\nbne a0, zero, loop\n"
                              "lui a1, 0x100\nsd a0, 0(a1)\n"
                              ".org 0x80000100\ntable: .zero 64\n";
    static const size_t lengths[] = {1, 4, 8, 16, 64};
    cherisim_t m = CHERISIM_NONE;
    cherisim_stepped_t stepped = {99, {true, 9}};
    uint8_t held[8] = {0};
    ROW(cherisim_step_while(&m, 1, RAM, held, 8, &stepped) == CHERISIM_NO_MACHINE && stepped.steps == 99 && stepped.sent.byte == 9);
    for (size_t i = 0; i < COUNT_OF(lengths); i += 1) {
        of_text(&m, text);
        for (int n = 0; n < 40; n += 1) watched_bytes(&m, n % 3 ? 100 : UINT64_MAX, RAM + 0x100 + (i == 0 ? 5 : 0), lengths[i]);
    }
    of_text(&m, "loop: j loop\n");
    watched_bytes(&m, 12345, RAM, 64);
    watched_bytes(&m, 0, RAM, 64);
    watched_bytes(&m, 77, RAM + PAGE, 0);
    DONE(cherisim_step_while(&m, 5, RAM + 8, (const uint8_t *)"x", 1, &stepped));
    ROW(stepped.steps == 0 && !stepped.sent.sends);
    DONE(cherisim_step_while(&m, 5, RAM + PAGE - 4, held, 8, &stepped));
    ROW(stepped.steps == 0 && !stepped.sent.sends);
    of_text(&m, "lui a1, 0x100\nli a0, 7\nsd a0, 0(a1)\n");
    watched_bytes(&m, 100, RAM, 8);
    ROW(halted(&m).halted);
    watched_bytes(&m, 100, RAM, 8);
    cherisim_free(&m);
}

/* ---- texts */

static void why(cherisim_t *m, const char *expected) {
    uint8_t text[2048];
    size_t length = 0, needed = strlen(expected);
    DONE(cherisim_why(m, text, sizeof text, &length));
    ROW(length == needed && memcmp(text, expected, needed) == 0);
    memset(text, 0xee, sizeof text);
    length = 0;
    ROW(cherisim_why(m, text, needed - 1, &length) == CHERISIM_FULL && length == needed);
    length = 0;
    ROW(cherisim_why(m, text, 0, &length) == CHERISIM_FULL && length == needed);
    for (size_t i = 0; i < sizeof text; i += 1) ROW(text[i] == 0xee);
    DONE(cherisim_why(m, text, needed, &length));
    ROW(length == needed && memcmp(text, expected, needed) == 0 && text[needed] == 0xee);
}

/* docs/DEBUGGER.md: the store past the bounds */
static const char *bounds_text =
    "0000000080000030 f8c5045b sb.cap a2, (ca0)\n"
    "fetch at 0000000080000030\n"
    "  pcc v:1 a:0000000080000030 b:0000000000000000 t:10000000000000000 p:78fff f:0 o:3ffff GXRWcCLsiuSd\n"
    "  ok tag of pcc\n"
    "  ok seal of pcc\n"
    "  ok permit execute of pcc\n"
    "  ok length of pcc: 0000000080000030 + 4 in 0000000000000000 to 10000000000000000\n"
    "  ok RAM at 0000000080000030\n"
    "decoding at 0000000080000030\n"
    "  ok the word is an instruction\n"
    "store of 1 byte at 0000000080000130\n"
    "  ca0 v:1 a:0000000080000130 b:0000000080000120 t:00000000080000130 p:78fff f:0 o:3ffff GXRWcCLsiuSd\n"
    "  ok tag of ca0\n"
    "  ok seal of ca0\n"
    "  ok permit store of ca0\n"
    "  no length of ca0: 0000000080000130 + 1 in 0000000080000120 to 00000000080000130\n"
    "effect: trap CHERI exception, length violation at ca0, mcause 000000000000001c, mtval 0000000000000141\n";

static void shown_texts(void) {
    cherisim_t m = CHERISIM_NONE, before = CHERISIM_NONE;
    char text[64];
    const uint32_t store = 0xf8c5045b;
    DONE(cherisim_new_flat((const uint8_t *)&store, 4, RAM + 0x30, RAM + 0x30, 1, false, &m));
    DONE(cherisim_set_reg(&m, A0, cheri_set_address(bounded(RAM + 0x120, 16), RAM + 0x130)));
    DONE(cherisim_copy(&m, &before));
    why(&m, bounds_text);
    ROW(same(&m, &before));
    of_text(&m, "lui a1, 0x100\nli a0, 7\nsd a0, 0(a1)\n");
    steps(&m, 3);
    why(&m, "halted 7\n");
    ROW(cherisim_disassemble(0x22b5055b, true, text) == 23 && memcmp(text, "cincoffset ca0, ca0, a1", 23) == 0);
    ROW(cherisim_disassemble(0x22b5055b, false, text) == 23 && memcmp(text, "cincoffset ca0, ca0, a1", 23) == 0);
    ROW(cherisim_disassemble(0x00850503, false, text) == 12 && memcmp(text, "lb a0, 8(a0)", 12) == 0);
    ROW(cherisim_disassemble(0x00850503, true, text) == 14 && memcmp(text, "clb a0, 8(ca0)", 14) == 0);
    ROW(cherisim_disassemble(0, true, text) == 16 && memcmp(text, ".word 0x00000000", 16) == 0);
    ROW(cherisim_disassemble(0xfeb508e3, true, text) == 16 && memcmp(text, "beq a0, a1, .-16", 16) == 0);
    cherisim_free(&m);
    cherisim_free(&before);
}

int main(void) {
    first_steps();
    console();
    interrupts(RAM + 0x100, RAM + 0x100, RAM + 0x100);
    interrupts(RAM + 0x101, RAM + 0x12c, RAM + 0x11c);
    run_stops();
    run_before_stops();
    run_ends();
    run_turns();
    run_ticks();
    timer_ticks();
    written_registers();
    written_special_registers();
    written_csrs();
    written_memory();
    outside_ram();
    written_capabilities();
    jump_traps();
    system_traps();
    steps_while();
    shown_texts();
    printf("%lu rows, %lu wrong\n", tried, wrong);
    return wrong != 0;
}
