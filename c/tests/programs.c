/* Tries libcherisim: random programs and calls against plain C, and runs against single steps.
 * programs [COUNT]: how many of each; says how many comparisons are wrong, and ends with 0 where none is. */
#include "machines.h"
#include <stdlib.h>

static uint64_t state = 0x9e3779b97f4a7c15u;
static uint64_t drawn(void) {
    state ^= state << 13;
    state ^= state >> 7;
    state ^= state << 17;
    return state * 0x2545f4914f6cdd1du;
}
/* a number of a drawn size, with either sign */
static uint64_t sized(void) { uint64_t n = drawn() >> (drawn() % 64); return drawn() % 2 ? n : -n; }

static uint64_t low_word(uint64_t n) { return (uint64_t)(int64_t)(int32_t)(uint32_t)n; }
static uint64_t shifted_right(uint64_t n, unsigned by) { return by && n >> 63 ? ~(~n >> by) : n >> by; }
static uint64_t high_product(uint64_t a, uint64_t b) { return (uint64_t)((unsigned __int128)a * b >> 64); }
static uint64_t quotient(int64_t a, int64_t b) { return b == 0 ? UINT64_MAX : b == -1 ? -(uint64_t)a : (uint64_t)(a / b); }
static uint64_t remainder_of(int64_t a, int64_t b) { return b == 0 ? (uint64_t)a : b == -1 ? 0 : (uint64_t)(a % b); }

/* the instructions of two registers: funct7, funct3, and whether of 32 bits */
static const struct { uint8_t funct7, funct3; bool is_word; } rows[] = {
    {0, 0, 0}, {0, 1, 0}, {0, 2, 0}, {0, 3, 0}, {0, 4, 0}, {0, 5, 0}, {0, 6, 0}, {0, 7, 0}, {32, 0, 0}, {32, 5, 0}, {1, 0, 0}, {1, 1, 0},
    {1, 2, 0}, {1, 3, 0}, {1, 4, 0}, {1, 5, 0}, {1, 6, 0}, {1, 7, 0}, {0, 0, 1}, {0, 1, 1}, {0, 5, 1}, {32, 0, 1}, {32, 5, 1}, {1, 0, 1},
    {1, 4, 1}, {1, 5, 1}, {1, 6, 1}, {1, 7, 1},
};
static uint64_t multiplied(int funct3, uint64_t a, uint64_t b) {
    switch (funct3) {
    case 0: return a * b;
    case 1: return high_product(a, b) - (a >> 63 ? b : 0) - (b >> 63 ? a : 0);
    case 2: return high_product(a, b) - (a >> 63 ? b : 0);
    case 3: return high_product(a, b);
    case 4: return quotient((int64_t)a, (int64_t)b);
    case 5: return b ? a / b : UINT64_MAX;
    case 6: return remainder_of((int64_t)a, (int64_t)b);
    default: return b ? a % b : a;
    }
}
static uint64_t computed(int funct7, int funct3, uint64_t a, uint64_t b) {
    if (funct7 == 1) return multiplied(funct3, a, b);
    switch (funct3) {
    case 0: return funct7 ? a - b : a + b;
    case 1: return a << (b & 63);
    case 2: return (int64_t)a < (int64_t)b;
    case 3: return a < b;
    case 4: return a ^ b;
    case 5: return funct7 ? shifted_right(a, b & 63) : a >> (b & 63);
    case 6: return a | b;
    default: return a & b;
    }
}
/* of the low 32 bits: the operands extended as the instruction reads them, and the low 32 bits of what comes of them */
static uint64_t computed_word(int funct7, int funct3, uint64_t a, uint64_t b) {
    bool is_unsigned = (funct7 == 1 && (funct3 == 5 || funct3 == 7)) || (funct7 == 0 && funct3 == 5);
    uint64_t shift = funct3 == 1 || (funct3 == 5 && funct7 != 1) ? 31 : UINT64_MAX;
    uint64_t left = is_unsigned ? (uint32_t)a : low_word(a), right = is_unsigned ? (uint32_t)b : low_word(b);
    return low_word(computed(funct7, funct3, left, right & shift));
}

static void random_integers(void) {
    cherisim_t m = CHERISIM_NONE;
    uint32_t words[256];
    uint64_t expected[32] = {0};
    cherisim_cap_t values[32];
    cherisim_asked_t asked = {256, 0, 0, 0, false, false, false};
    cherisim_ran_t ran = {0, 0, 0};
    uint8_t room;
    for (int n = 1; n < 32; n += 1) expected[n] = sized();
    uint64_t begins[32];
    memcpy(begins, expected, sizeof begins);
    for (int i = 0; i < 256; i += 1) {
        size_t row = drawn() % COUNT_OF(rows);
        unsigned rd = drawn() % 32, rs1 = drawn() % 32, rs2 = drawn() % 32, funct3 = rows[row].funct3, funct7 = rows[row].funct7;
        words[i] = funct7 << 25 | rs2 << 20 | rs1 << 15 | funct3 << 12 | rd << 7 | (rows[row].is_word ? 0x3b : 0x33);
        uint64_t value = (rows[row].is_word ? computed_word : computed)((int)funct7, (int)funct3, expected[rs1], expected[rs2]);
        if (rd) expected[rd] = value;
    }
    of_words(&m, words, sizeof words, drawn() % 2);
    for (int n = 1; n < 32; n += 1) DONE(cherisim_set_reg(&m, (uint8_t)n, number(begins[n])));
    DONE(cherisim_run(&m, &asked, &room, 1, &ran));
    ROW(ran.steps == 256 && ran.sent == 0 && ran.stop == CHERISIM_STEPS);
    DONE(cherisim_all_regs(&m, values));
    for (int n = 0; n < 32; n += 1) ROW(equal(values[n], number(expected[n])));
    cherisim_free(&m);
}

/* 64 granules of memory in plain C */
typedef struct { uint8_t bytes[1024]; bool tags[64]; } plain_t;
static void plain_write(plain_t *plain, uint64_t from, const uint8_t *bytes, uint64_t length) {
    memcpy(plain->bytes + from, bytes, length);
    for (uint64_t at = from; at < from + length; at += 1) plain->tags[at / 16] = false;
}
/* one write: by a store of the program, at RAM + 1024 + from, or by a call */
static void random_write(cherisim_t *m, plain_t *plain) {
    const uint32_t stores[] = {0x00b50023, 0x00b51023, 0x00b52023, 0x00b53023, 0x00b54023}; /* sb, sh, sw, sd, sc a1, 0(a0) */
    uint64_t value = drawn(), kind = drawn() % 5, size = UINT64_C(1) << kind, from = drawn() % (1024 / size) * size;
    uint8_t bytes[1024];
    cherisim_cap_t cap = {drawn(), drawn(), false};
    if (drawn() % 4) cap = cheri_set_address(bounded(RAM, 4 + drawn() % 4000), RAM + drawn() % 64);
    if (drawn() % 4 == 0) {
        uint64_t length = drawn() % 65;
        from = drawn() % (1024 - length);
        for (uint64_t i = 0; i < length; i += 1) bytes[i] = (uint8_t)drawn();
        DONE(cherisim_write(m, RAM + 1024 + from, bytes, length));
        plain_write(plain, from, bytes, length);
        return;
    }
    if (size < 16) {
        memcpy(bytes, &value, 8);
        DONE(cherisim_set_reg(m, X11, number(value)));
    } else {
        cheri_to_memory((cheri_word_t){cap.address, cap.upper}, bytes);
        DONE(cherisim_set_reg(m, X11, cap));
    }
    plain_write(plain, from, bytes, size);
    plain->tags[from / 16] = size == 16 && cap.tag;
    if (size == 16 && drawn() % 2) {
        DONE(cherisim_write_cap(m, RAM + 1024 + from, cap));
        return;
    }
    DONE(cherisim_write(m, RAM, (const uint8_t *)&stores[kind], 4));
    DONE(cherisim_set_reg(m, A0, number(RAM + 1024 + from)));
    DONE(cherisim_set_scr(m, PCC, root_at(RAM)));
    steps(m, 1);
    ROW(pc(m) == RAM + 4);
}

static void random_memory(void) {
    cherisim_t m = CHERISIM_NONE;
    plain_t plain = {{0}, {0}};
    uint8_t bytes[1024];
    of_words(&m, (const uint32_t[]){0}, 4, false);
    for (int i = 0; i < 200; i += 1) random_write(&m, &plain);
    DONE(cherisim_read(&m, RAM + 1024, bytes, 1024));
    ROW(memcmp(bytes, plain.bytes, 1024) == 0);
    uint64_t from = 0;
    for (uint64_t granule = 0; granule < 64; granule += 1) {
        uint64_t at = 0;
        cheri_word_t word = cheri_from_memory(plain.bytes + 16 * granule);
        ROW(equal(cap_at(&m, RAM + 1024 + 16 * granule), (cherisim_cap_t){word.address, word.upper, plain.tags[granule]}));
        if (!plain.tags[granule]) continue;
        DONE(cherisim_next_tagged(&m, from, &at));
        ROW(at == RAM + 1024 + 16 * granule);
        from = at + 1 + drawn() % 16;
    }
    ROW(cherisim_next_tagged(&m, from, &from) == CHERISIM_RANGE);
    cherisim_free(&m);
}

/* ---- runs against single calls */

/* a word of an instruction that adds, loads, stores, sends, derives a capability, jumps through a seal or opens one, or of none */
static uint32_t drawn_word(void) {
    const uint32_t sealed[] = {0xfc0000db, 0xfec0005b, 0x1800005b}; /* cinvoke, jalr.cap, cunseal */
    uint32_t fields = (uint32_t)drawn() & 0x01ff8f80, kind = (uint32_t)(drawn() % 5) << 12, which = (uint32_t)(drawn() % 3);
    size_t row = drawn() % COUNT_OF(rows);
    switch (drawn() % 10) {
    case 0: return (uint32_t)drawn();
    case 1: return 0x5b | ((uint32_t)drawn() & 0xfe000000) | fields;
    case 2: return 0x03 | kind | (fields & 0x000fff80);
    case 3: return 0x23 | kind | (drawn() % 2 ? fields : fields & 0x01ff8000);
    case 4: return 0x00050023 | (fields & 0x01f00000); /* sb, 0(a0) */
    case 5: return sealed[which] | (fields & (which == 0 ? 0x01ff8000 : which == 1 ? 0x000f8f80 : 0x01ff8f80));
    default: return (uint32_t)rows[row].funct7 << 25 | (uint32_t)rows[row].funct3 << 12 | 0x33 | fields;
    }
}
/* what a register begins with: a number, root at a place in RAM or at a device, sealed as an entry or with type 5, or what opens that */
static cherisim_cap_t drawn_value(void) {
    cherisim_cap_t somewhere = root_at(RAM + 16 * (drawn() % 256));
    switch (drawn() % 9) {
    case 0: case 1: return number(sized());
    case 2: return root_at(0x10000000);
    case 3: return root_at(drawn() % 4 ? 0x10000008 : 0x00100000);
    case 4: return with(somewhere, ALL, SENTRY);
    case 5: return with(somewhere, drawn() % 2 ? ALL : NO_EXECUTE, 5);
    case 6: return root_at(5);
    default: return somewhere;
    }
}
/* PCC goes somewhere into the program, in either mode */
static cherisim_cap_t drawn_place(void) {
    uint64_t place = RAM + 16 + 4 * (drawn() % 900);
    return drawn() % 2 ? root_at(place) : capability_mode_at(place);
}
/* drawn words, and at the beginning a trap handler that goes on after the instruction that trapped:
 * cspecialrw c31, mepcc, cnull; cincoffsetimm c31, c31, 4; cspecialrw cnull, mepcc, c31; mret */
static void random_program(cherisim_t *m) {
    uint32_t words[1024] = {0x03f00fdb, 0x004f9fdb, 0x03ff805b, 0x30200073};
    for (int i = 4; i < 1024; i += 1) words[i] = drawn_word();
    of_words(m, words, sizeof words, false);
    for (uint8_t n = 1; n < 32; n += 1) DONE(cherisim_set_reg(m, n, drawn_value()));
    DONE(cherisim_set_reg(m, A0, root_at(0x10000000)));
    DONE(cherisim_set_scr(m, MTCC, root_at(RAM)));
    DONE(cherisim_set_scr(m, PCC, drawn_place()));
}

/* why a run goes no further: the first reason that holds, or 99 */
static uint32_t stop_of(cherisim_t *m, cherisim_asked_t asked, cherisim_ran_t ran, size_t room) {
    if (ran.steps == asked.steps) return CHERISIM_STEPS;
    if (halted(m).halted) return CHERISIM_HALTED;
    if (ran.sent == room) return CHERISIM_BUFFER;
    if (asked.at_address && pc(m) == asked.address) return CHERISIM_ADDRESS;
    uint32_t end = asked.at_end ? ends(m) : 0;
    return end && !(asked.doors && end == CHERISIM_SEALED_JUMP) ? end : 99;
}
/* a run, by its definition */
static cherisim_ran_t by_single_calls(cherisim_t *m, cherisim_asked_t asked, uint8_t *bytes, size_t room) {
    cherisim_ran_t ran = {0, 0, 0};
    while ((ran.stop = stop_of(m, asked, ran, room)) == 99) {
        cherisim_sent_t sent = {false, 0};
        DONE(cherisim_step(m, &sent));
        ran.steps += 1;
        if (sent.sends) bytes[ran.sent++] = sent.byte;
        if (asked.tick && (asked.before + ran.steps) % asked.tick == 0 && !halted(m).halted) DONE(cherisim_tick(m));
    }
    return ran;
}

static unsigned long stops[7], sent_bytes;

/* runs one after the other come to the same as single calls */
static void random_runs(void) {
    cherisim_t m = CHERISIM_NONE, single = CHERISIM_NONE;
    uint8_t bytes[2][64];
    random_program(&m);
    DONE(cherisim_copy(&m, &single));
    for (int i = 0; i < 8; i += 1) {
        uint64_t near = pc(&m) + 4 * (drawn() % 8);
        cherisim_asked_t asked = {drawn() % 100, drawn() % 8, drawn() % 1000, near, drawn() % 3 == 0, drawn() % 3 == 0, drawn() % 2 == 0};
        size_t room = drawn() % 4 ? 64 : drawn() % 3;
        cherisim_ran_t ran = {99, 99, 99}, expected = by_single_calls(&single, asked, bytes[0], room);
        DONE(cherisim_run(&m, &asked, bytes[1], room, &ran));
        ROW(ran.steps == expected.steps && ran.sent == expected.sent && ran.stop == expected.stop);
        ROW(memcmp(bytes[0], bytes[1], expected.sent) == 0 && same(&m, &single));
        stops[expected.stop] += 1;
        sent_bytes += expected.sent;
        if (drawn() % 4 == 0) {
            cherisim_cap_t place = drawn_place();
            DONE(cherisim_set_scr(&m, PCC, place));
            DONE(cherisim_set_scr(&single, PCC, place));
        }
    }
    cherisim_free(&m);
    cherisim_free(&single);
}

int main(int count, char **words) {
    unsigned long programs = count > 1 ? strtoul(words[1], 0, 10) : 2000;
    for (unsigned long i = 0; i < programs; i += 1) {
        random_integers();
        random_memory();
        random_runs();
    }
    printf("%lu programs of each kind; runs stopped", programs);
    for (size_t i = 0; i < COUNT_OF(stops); i += 1) printf(" %lu", stops[i]);
    printf(" times for each reason, and sent %lu bytes; %lu comparisons, %lu wrong\n", sent_bytes, tried, wrong);
    return wrong != 0;
}
