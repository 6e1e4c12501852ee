/* What the tests of libcherisim share: rows that are counted, the numbers of docs/PROGRAMMING.md, and calls that have to be answered. */
#ifndef MACHINES_H
#define MACHINES_H
#include "cherisim.h"
#include <stdio.h>
#include <string.h>

static unsigned long tried, wrong;

static inline void check(bool good, const char *what, int line) {
    tried += 1;
    if (!good && ++wrong <= 20) printf("line %d: %s\n", line, what);
}
#define ROW(good) check(good, #good, __LINE__)
#define DONE(call) ROW((call) == CHERISIM_OK)
#define COUNT_OF(list) (sizeof(list) / sizeof *(list))

/* ---- numbers of docs/PROGRAMMING.md and docs/ASSEMBLY.md */

#define RAM UINT64_C(0x80000000)
#define PAGE UINT64_C(4096)
#define NULL_UPPER UINT64_C(0x1ffffc018004)
#define ROOT_UPPER UINT64_C(0xffff1ffffc018004)
#define CAPABILITY_MODE (UINT64_C(1) << 45)
enum { L1 = 1, L2, L3, L4, L5, L6, L7, L8, L9, L12 = 12, L13, L14, L15 };
enum { A1 = 33, A2, A3, A4, A5, A6, A7, A8, A9, A11 = 43 };
enum { PCC = 0, DDC = 1, MTCC = 28, MTDC = 29, MSCRATCHC = 30, MEPCC = 31 };
enum { MSTATUS = 0x300, MISA, MIE = 0x304, MTVEC, MSCRATCH = 0x340, MEPC, MCAUSE, MTVAL, MIP, MCYCLE = 0xb00, MINSTRET = 0xb02,
       MVENDORID = 0xf11, MARCHID, MIMPID, MHARTID };
enum { A0 = 10, X11 = 11, X31 = 31, CHERI = 28 };
static const uint8_t scrs[] = {PCC, DDC, MTCC, MTDC, MSCRATCHC, MEPCC};
static const uint16_t csrs[] = {MSTATUS, MISA, MIE, MTVEC, MSCRATCH, MEPC, MCAUSE, MTVAL, MIP, MCYCLE, MINSTRET, MVENDORID, MARCHID,
                                MIMPID, MHARTID};

/* ---- capabilities */

static inline cherisim_cap_t number(uint64_t n) { return (cherisim_cap_t){n, NULL_UPPER, false}; }
static inline cherisim_cap_t root_at(uint64_t address) { return cheri_cap((cheri_word_t){address, ROOT_UPPER}, true); }
static inline cherisim_cap_t capability_mode_at(uint64_t address) {
    return cheri_cap((cheri_word_t){address, ROOT_UPPER | CAPABILITY_MODE}, true);
}
static inline cherisim_cap_t bounded(uint64_t base, uint64_t length) {
    bool exact = false;
    cherisim_cap_t cap = cheri_set_bounds(root_at(base), length, &exact);
    ROW(cap.tag && exact);
    return cap;
}
/* the capability with other permissions or another type */
static inline cherisim_cap_t with(cherisim_cap_t cap, uint16_t perms, uint32_t otype) {
    cheri_fields_t fields;
    cheri_decompress((cheri_word_t){cap.address, cap.upper}, &fields);
    fields.perms = perms;
    fields.otype = otype;
    ROW(cheri_compress(&fields, &cap));
    return cap;
}
static inline bool equal(cherisim_cap_t a, cherisim_cap_t b) { return a.address == b.address && a.upper == b.upper && a.tag == b.tag; }
enum { UNSEALED = 0x3ffff, SENTRY = 0x3fffe, ALL = 0xffff, NO_EXECUTE = 0xfffd, NO_SYSTEM = 0xfbff, NO_LOAD_CAPABILITY = 0xffef };

/* ---- what a machine holds; each of these calls has to be answered */

static inline cherisim_cap_t reg(cherisim_t *m, uint8_t n) {
    cherisim_cap_t value = {0, 0, false};
    DONE(cherisim_reg(m, n, &value));
    return value;
}
static inline uint64_t x(cherisim_t *m, uint8_t n) { return reg(m, n).address; }
static inline cherisim_cap_t scr(cherisim_t *m, uint8_t n) {
    cherisim_cap_t value = {0, 0, false};
    DONE(cherisim_scr(m, n, &value));
    return value;
}
static inline uint64_t pc(cherisim_t *m) { return scr(m, PCC).address; }
static inline uint64_t csr(cherisim_t *m, uint16_t n) {
    uint64_t value = 0;
    DONE(cherisim_csr(m, n, &value));
    return value;
}
static inline cherisim_cap_t cap_at(cherisim_t *m, uint64_t address) {
    cherisim_cap_t value = {0, 0, false};
    DONE(cherisim_read_cap(m, address, &value));
    return value;
}
/* the lowest byte first */
static inline uint64_t dword(cherisim_t *m, uint64_t address) {
    uint8_t bytes[8] = {0};
    uint64_t value = 0;
    DONE(cherisim_read(m, address, bytes, 8));
    for (int i = 8; i-- > 0;) value = value << 8 | bytes[i];
    return value;
}
static inline cherisim_halted_t halted(cherisim_t *m) {
    cherisim_halted_t value = {false, 0};
    DONE(cherisim_halted(m, &value));
    return value;
}
static inline cherisim_timer_t timer(cherisim_t *m) {
    cherisim_timer_t value = {0, 0};
    DONE(cherisim_timer(m, &value));
    return value;
}
static inline uint32_t ends(cherisim_t *m) {
    uint32_t end = 99;
    DONE(cherisim_next_ends(m, &end));
    return end;
}

static inline void steps(cherisim_t *m, int n) {
    for (int i = 0; i < n; i += 1) {
        cherisim_sent_t sent;
        DONE(cherisim_step(m, &sent));
    }
}
static inline bool has_trapped(cherisim_t *m, uint64_t mcause, uint64_t mtval) {
    return csr(m, MCAUSE) == mcause && csr(m, MTVAL) == mtval;
}

static inline bool same_memory(cherisim_t *a, cherisim_t *b) {
    uint32_t pages[2] = {0, 0};
    DONE(cherisim_pages(a, &pages[0]));
    DONE(cherisim_pages(b, &pages[1]));
    bool good = pages[0] == pages[1];
    for (uint64_t page = 0; good && page < pages[0]; page += 1) {
        uint8_t bytes[2][4096];
        DONE(cherisim_read(a, RAM + page * PAGE, bytes[0], PAGE));
        DONE(cherisim_read(b, RAM + page * PAGE, bytes[1], PAGE));
        good = memcmp(bytes[0], bytes[1], PAGE) == 0;
    }
    for (uint64_t from = 0, at[2] = {0, 0}; good; from = at[0] + 1) {
        cherisim_status found = cherisim_next_tagged(a, from, &at[0]);
        good = cherisim_next_tagged(b, from, &at[1]) == found;
        if (found) break;
        good = good && at[0] == at[1] && equal(cap_at(a, at[0]), cap_at(b, at[1]));
    }
    return good;
}

static inline bool same(cherisim_t *a, cherisim_t *b) {
    cherisim_cap_t values[2][32];
    uint8_t queues[2][64] = {{0}, {0}};
    cherisim_console_t consoles[2] = {{0, false, false}, {0, false, false}};
    bool good = true;
    DONE(cherisim_all_regs(a, values[0]));
    DONE(cherisim_all_regs(b, values[1]));
    for (int n = 0; n < 32; n += 1) good = good && equal(values[0][n], values[1][n]);
    for (size_t i = 0; i < COUNT_OF(scrs); i += 1) good = good && equal(scr(a, scrs[i]), scr(b, scrs[i]));
    for (size_t i = 0; i < COUNT_OF(csrs); i += 1) good = good && csr(a, csrs[i]) == csr(b, csrs[i]);
    DONE(cherisim_console(a, queues[0], &consoles[0]));
    DONE(cherisim_console(b, queues[1], &consoles[1]));
    good = good && consoles[0].waiting == consoles[1].waiting && memcmp(queues[0], queues[1], consoles[0].waiting) == 0;
    good = good && consoles[0].overrun == consoles[1].overrun && consoles[0].control == consoles[1].control;
    good = good && halted(a).halted == halted(b).halted && halted(a).number == halted(b).number;
    good = good && timer(a).mtime == timer(b).mtime && timer(a).mtimecmp == timer(b).mtimecmp;
    return good && same_memory(a, b);
}

/* ---- calls over pasts */

typedef cherisim_status (*tells_t)(const uint8_t *, size_t, const cherisim_given_t *, size_t, const cherisim_place_t *, const uint8_t *,
                                   size_t, uint8_t *, size_t, size_t *, uint64_t *);
typedef cherisim_status (*links_t)(const uint8_t *, size_t, const cherisim_given_t *, size_t, const cherisim_place_t *, cherisim_link_t *,
                                   size_t, size_t *);

/* ---- machines */

/* lui a1, 0x10000; addi a0, zero, 65; sb a0, 0(a1); lui a1, 0x100; sd zero, 0(a1): sends A, and halts with 0 */
static const uint32_t first_words[] = {0x100005b7, 0x04100513, 0x00a58023, 0x001005b7, 0x0005b023};
/* a machine with these words at the beginning of RAM, where it begins */
static inline void of_words(cherisim_t *m, const uint32_t *words, size_t length, bool mode) {
    DONE(cherisim_new_flat((const uint8_t *)words, length, RAM, RAM, 1, mode, m));
}
static inline void of_text(cherisim_t *m, const char *text) {
    uint64_t line = 0;
    DONE(cherisim_assemble((const uint8_t *)text, strlen(text), m, &line));
}
#endif
