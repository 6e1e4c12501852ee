/* Says what the calls of both libraries take, and what the standard's plain formulas in C take beside them: pace [TURNS]. Seconds are
 * this process's own; take the best of several runs. */
#define _POSIX_C_SOURCE 200809L
#include "cherisim.h"
#include "formulas.h"
#include <stdio.h>
#include <stdlib.h>
#include <string.h>
#include <time.h>

/* fourteen instructions a turn: two loads and two stores, two branches, the rest arithmetic */
static const char *loop = "la a1, data\nld t0, 0(a1)\nloop: ld a0, 8(a1)\nadd a0, a0, t0\nsd a0, 16(a1)\nxor a2, a0, t0\nsrli a3, a2, 5\n"
                          "sb a3, 24(a1)\nlbu a4, 24(a1)\nandi a5, t0, 1\nbeq a5, zero, even\nsub a6, a6, a4\neven: mul a7, a6, a2\n"
                          "or a7, a7, a0\naddi t0, t0, -1\nbne t0, zero, loop\nlui a1, 0x100\nsd zero, 0(a1)\n"
                          ".align 4\ndata: .dword %lu, 3, 0, 0\n";
enum { CALLS = 5000000, MACHINES = 20000 };

static double now(void) {
    struct timespec t;
    clock_gettime(CLOCK_PROCESS_CPUTIME_ID, &t);
    return (double)t.tv_sec + (double)t.tv_nsec * 1e-9;
}
static void must(cherisim_status status) {
    if (!status) return;
    printf("status %u\n", (unsigned)status);
    exit(1);
}
static void assembled(cherisim_t *m, unsigned long turns) {
    char text[1024];
    uint64_t line;
    int length = snprintf(text, sizeof text, loop, turns);
    must(cherisim_assemble((const uint8_t *)text, (size_t)length, m, &line));
}

static void long_call(const char *what, unsigned long turns, uint64_t tick, bool at_end) {
    cherisim_t m = CHERISIM_NONE;
    cherisim_asked_t asked = {UINT64_MAX, tick, 0, 0, false, at_end, false};
    cherisim_ran_t ran;
    uint8_t sent[1];
    assembled(&m, turns);
    double began = now();
    must(cherisim_run(&m, &asked, sent, 1, &ran));
    double took = now() - began;
    printf("%s: %.1f million steps a second (%lu steps)\n", what, (double)ran.steps / took / 1e6, (unsigned long)ran.steps);
    cherisim_free(&m);
}

static void long_calls(unsigned long turns) {
    long_call("a long call", turns, 0, false);
    long_call("a long call with a tick every 50 steps", turns, 50, false);
    long_call("a long call that stops before a trap", turns, 0, true);
}

/* the nanoseconds of a call */
#define SAY(what, count, call) \
    do { \
        double began = now(); \
        for (int i = 0; i < (count); i += 1) must(call); \
        printf("%s: %.1f ns\n", what, (now() - began) / (count) * 1e9); \
    } while (0)

/* a step of a call that looks before each whether 8 bytes stay */
static void stepped_while(cherisim_t *m) {
    cherisim_stepped_t stepped;
    uint8_t held[8];
    must(cherisim_read(m, 0x80000000, held, 8));
    double began = now();
    must(cherisim_step_while(m, CALLS, 0x80000000, held, 8, &stepped));
    printf("a step while 8 bytes stay: %.1f ns\n", (now() - began) / (double)stepped.steps * 1e9);
}

static void short_calls(void) {
    cherisim_t m = CHERISIM_NONE, copy = CHERISIM_NONE;
    cherisim_asked_t one = {1, 0, 0, 0, false, false, false}, to_end = {1, 0, 0, 0, false, true, false};
    cherisim_ran_t ran;
    cherisim_sent_t sent;
    cherisim_cap_t value, values[32];
    uint32_t why;
    uint64_t number;
    uint8_t bytes[4096];
    assembled(&m, CALLS);
    SAY("a step", CALLS, cherisim_step(&m, &sent));
    stepped_while(&m);
    SAY("a run of one step", CALLS, cherisim_run(&m, &one, bytes, 1, &ran));
    SAY("a run of one step, if it doesn't trap", CALLS, cherisim_run(&m, &to_end, bytes, 1, &ran));
    SAY("next_ends", CALLS, cherisim_next_ends(&m, &why));
    SAY("a register", CALLS, cherisim_reg(&m, (uint8_t)(i & 31), &value));
    SAY("all registers", CALLS, cherisim_all_regs(&m, values));
    SAY("a register written", CALLS, cherisim_set_reg(&m, 5, value));
    SAY("mcause", CALLS, cherisim_csr(&m, 0x342, &number));
    SAY("8 bytes read", CALLS, cherisim_read(&m, 0x80000100, bytes, 8));
    SAY("8 bytes written", CALLS, cherisim_write(&m, 0x80000100, bytes, 8));
    SAY("a page read", MACHINES, cherisim_read(&m, 0x80000000, bytes, 4096));
    SAY("a copy of a machine of one page", MACHINES, cherisim_copy(&m, &copy));
    SAY("a fresh machine of one page", MACHINES, cherisim_new_flat(bytes, 256, 0x80000000, 0x80000000, 1, false, &copy));
    cherisim_free(&m);
    cherisim_free(&copy);
}

enum { WORDS = 1024, ROUNDS = 2000 };
static cheri_word_t drawn[WORDS];

static void draw(void) {
    uint64_t state = 0x9e3779b97f4a7c15u;
    for (int i = 0; i < WORDS; i += 1) {
        for (int half = 0; half < 2; half += 1) {
            state ^= state << 13, state ^= state >> 7, state ^= state << 17;
            *(half ? &drawn[i].upper : &drawn[i].address) = state;
        }
    }
}

/* the nanoseconds of an expression over drawn words, which is summed up so that it is computed */
#define NANOSECONDS(result, expression) \
    do { \
        double began = now(); \
        for (int round = 0; round < ROUNDS; round += 1) \
            for (int i = 0; i < WORDS; i += 1) { \
                cheri_word_t w = drawn[i]; \
                sum += (uint64_t)(expression); \
            } \
        result = (now() - began) / (ROUNDS * WORDS) * 1e9; \
    } while (0)
#define BESIDE(what, ours, plain) \
    do { \
        double one, other; \
        NANOSECONDS(one, ours); \
        NANOSECONDS(other, plain); \
        printf("%s: %.1f ns, by the plain formulas %.1f ns\n", what, one, other); \
    } while (0)

static uint64_t bounds_summed(cheri_word_t w) {
    cheri_fields_t f;
    cheri_decompress(w, &f);
    return f.base + f.top_low;
}
static uint64_t plain_bounds_summed(cheri_word_t w) {
    u128 base, top;
    bounds_of(w.address, w.upper, &base, &top);
    return (uint64_t)(base + top);
}
static uint64_t set_bounds_summed(cheri_word_t w) {
    bool exact;
    cheri_cap_t cap = cheri_set_bounds((cheri_cap_t){w.address, w.upper, false}, w.upper >> 20, &exact);
    return cap.upper + exact;
}
static uint64_t plain_set_bounds_summed(cheri_word_t w) {
    struct request q = rounded(w.address, w.upper >> 20);
    struct record r = {q.base, q.top, w.address, (unsigned)(w.upper >> 48), 0x3ffff, false};
    return upper_of(&r, q.e, q.internal) + (q.base == w.address);
}
static uint64_t plain_length(uint64_t length) {
    u128 granule = length < 4096 ? 1 : power(exponent_of(length) + 3);
    return (uint64_t)(whole(length, granule) * granule);
}

/* a word's fields, and the word of these */
static uint64_t compressed(cheri_word_t w) {
    cheri_fields_t f;
    cheri_cap_t cap;
    cheri_decompress(w, &f);
    return cheri_compress(&f, &cap) ? cap.upper : 0;
}
static uint64_t remembered(cheri_word_t w) {
    uint8_t bytes[16];
    cheri_to_memory(w, bytes);
    return cheri_from_memory(bytes).upper;
}
/* add, of drawn registers */
static uint64_t encoded(cheri_word_t w) {
    cheri_insn_t insn;
    uint32_t word = 0;
    return cheri_decode(0x33 | (uint32_t)(w.address & 0x01ff8f80), &insn) && cheri_encode(&insn, &word) ? word : 0;
}
/* cincoffset ca0, ca1, a2 */
static uint64_t executed(cheri_word_t w) {
    cheri_cap_t value, by = {w.upper >> 40, 0, false};
    return cheri_execute(0x22c5855b, (cheri_cap_t){w.address, w.upper, false}, by, by, &value) ? value.address : 0;
}

static void arithmetic(void) {
    uint64_t sum = 0;
    double fields, memory, insn, row;
    draw();
    BESIDE("base and top", bounds_summed(w), plain_bounds_summed(w));
    BESIDE("set bounds", set_bounds_summed(w), plain_set_bounds_summed(w));
    BESIDE("whether a word may be tagged", cheri_is_well_formed(w), may_be_tagged(w.address, w.upper));
    BESIDE("representable length", cheri_representable_length(w.upper >> 12), plain_length(w.upper >> 12));
    double keeps, address, mask;
    NANOSECONDS(keeps, cheri_is_representable(w, w.address + 4096));
    NANOSECONDS(address, cheri_set_address((cheri_cap_t){w.address, w.upper, false}, w.address + 8).address);
    NANOSECONDS(mask, cheri_alignment_mask(w.upper >> 12));
    printf("is representable, set address, alignment mask: %.1f, %.1f, %.1f ns\n", keeps, address, mask);
    NANOSECONDS(fields, compressed(w));
    NANOSECONDS(memory, remembered(w));
    NANOSECONDS(insn, encoded(w));
    NANOSECONDS(row, executed(w));
    printf("a word's fields and their word, to memory and back, decode and encode, a row over capabilities: %.1f, %.1f, %.1f, %.1f ns\n",
           fields, memory, insn, row);
    if (!sum) printf("no sum\n");
}

int main(int count, char **words) {
    long_calls(count > 1 ? strtoul(words[1], 0, 10) : 5000000);
    short_calls();
    arithmetic();
    return 0;
}
