/* Tries libcherisim's reach and the questions about it, in each state of a run of the compartments in the file that is named: against
 * plain C, by the words of docs/AUTHORITY.md, and against worked rows. Says how many rows are wrong, and ends with 0 where none is. */
#include "machines.h"

enum { MOST = 256, TEXT = 1 << 16 };
enum { EXECUTE = 1 << 1, LOAD = 1 << 2, STORE = 1 << 3, LOAD_CAPABILITY = 1 << 4, STORE_CAPABILITY = 1 << 5,
       STORE_LOCAL = 1 << 6, SEAL = 1 << 7, CINVOKE = 1 << 8, SYSTEM = 1 << 10, FIRST_DOOR = 34, FIRST_RESERVED = 0x3fffc };
#define HALT UINT64_C(0x100000)
#define MTIMECMP UINT64_C(0x2004000)
#define TRANSMIT UINT64_C(0x10000000)
typedef unsigned __int128 u128;
typedef struct { cherisim_member_t members[MOST]; size_t count; } reach_t;
typedef struct { cherisim_door_t doors[MOST]; size_t count; } doors_t;
typedef cherisim_answer_t answer_t;

/* ---- plain C: what leads to what, and what a member allows */

static cheri_word_t bits(cherisim_cap_t cap) { return (cheri_word_t){cap.address, cap.upper}; }
static u128 top(cherisim_cap_t cap) { return (u128)cheri_top(bits(cap)).high << 64 | cheri_top(bits(cap)).low; }
static bool is_unsealed(cherisim_cap_t cap) { return cheri_otype(bits(cap)) == UNSEALED; }
static bool has(cherisim_cap_t cap, unsigned perms) { return is_unsealed(cap) && (cheri_perms(bits(cap)) & perms) == perms; }
static bool opens(cherisim_cap_t cap, unsigned perms, uint64_t address, uint64_t length) {
    u128 low = cheri_base(bits(cap)), high = top(cap), end = (u128)address + length;
    return has(cap, perms) && (low > address ? low : address) < (high < end ? high : end);
}
/* a granule that lies wholly in its bounds has one of the bytes, and a capability without Global may be stored there */
static bool keeps(cherisim_cap_t cap, uint64_t address, uint64_t length) {
    u128 from = ((u128)cheri_base(bits(cap)) + 15) / 16 * 16, at = address / 16 * 16, granule = from > at ? from : at;
    return has(cap, STORE | STORE_CAPABILITY | STORE_LOCAL) && granule + 16 <= top(cap) && granule < (u128)address + length && length > 0;
}
static bool holds(cherisim_cap_t cap, uint32_t otype) {
    if (!is_unsealed(cap)) return cheri_otype(bits(cap)) == otype;
    if (otype == SENTRY) return has(cap, EXECUTE);
    return has(cap, SEAL) && cheri_base(bits(cap)) <= otype && otype < top(cap);
}

static void find(reach_t *r, cherisim_cap_t value, uint32_t kind, uint64_t place, uint64_t from) {
    for (size_t i = 0; i < r->count; i += 1)
        if (r->members[i].kind == kind && r->members[i].place == place) return;
    if (value.tag) r->members[r->count++] = (cherisim_member_t){value, place, from, kind};
}
static void find_behind(cherisim_t *m, reach_t *r, uint64_t from) {
    cherisim_cap_t cap = r->members[from].value;
    if (has(cap, EXECUTE | SYSTEM))
        for (uint8_t n = 0; n < 4; n += 1) find(r, scr(m, MTCC + n), CHERISIM_IN_SPECIAL, n, from);
    if (!has(cap, LOAD | LOAD_CAPABILITY)) return;
    for (uint64_t at = 0; cherisim_next_tagged(m, at, &at) == CHERISIM_OK; at += 1)
        if (cheri_base(bits(cap)) <= at && (u128)at + 16 <= top(cap)) find(r, cap_at(m, at), CHERISIM_IN_MEMORY, at, from);
}
/* the registers and what doors lead to, and then what each member in turn opens */
static reach_t plain_reach_with(cherisim_t *m, const cherisim_cap_t *behind, size_t count) {
    reach_t r = {.count = 0};
    for (uint8_t n = 0; n < 32; n += 1) find(&r, reg(m, n), CHERISIM_IN_REGISTER, n, 0);
    find(&r, scr(m, PCC), CHERISIM_IN_REGISTER, 32, 0);
    find(&r, scr(m, DDC), CHERISIM_IN_REGISTER, 33, 0);
    for (size_t n = 0; n < count; n += 1) find(&r, behind[n], CHERISIM_IN_REGISTER, FIRST_DOOR + n, 0);
    for (size_t from = 0; from < r.count; from += 1) find_behind(m, &r, from);
    return r;
}
static reach_t plain_reach(cherisim_t *m) { return plain_reach_with(m, NULL, 0); }

/* ---- through doors: all that are found are opened, and members are looked for anew, until no more are found */

static bool is_pair(cherisim_cap_t code, cherisim_cap_t datum) {
    uint64_t target = code.address & ~UINT64_C(1);
    unsigned perms = cheri_perms(bits(code)), others = cheri_perms(bits(datum));
    return cheri_otype(bits(code)) == cheri_otype(bits(datum)) && cheri_otype(bits(code)) < FIRST_RESERVED && (perms & CINVOKE)
        && (others & CINVOKE) && (perms & EXECUTE) && !(others & EXECUTE) && target % 4 == 0 && cheri_base(bits(code)) <= target
        && (u128)target + 4 <= top(code);
}
static bool is_key(cherisim_cap_t key, cherisim_cap_t sealed) {
    uint32_t otype = cheri_otype(bits(sealed));
    return otype == SENTRY || is_pair(sealed, key) || is_pair(key, sealed)
        || ((cheri_perms(bits(sealed)) & CINVOKE) && has(key, SEAL) && cheri_base(bits(key)) <= otype && otype < top(key));
}
/* the number of a member's key: itself where it is one, else the first */
static size_t key_of(const reach_t *r, size_t sealed) {
    if (is_key(r->members[sealed].value, r->members[sealed].value)) return sealed;
    for (size_t i = 0; i < r->count; i += 1)
        if (is_key(r->members[i].value, r->members[sealed].value)) return i;
    return MOST;
}
static bool is_open(const doors_t *d, const cherisim_member_t *at) {
    for (size_t i = 0; i < d->count; i += 1)
        if (d->doors[i].sealed == at->place && d->doors[i].sealed_kind == at->kind) return true;
    return false;
}
static reach_t plain_through(cherisim_t *m, doors_t *d) {
    cherisim_cap_t behind[MOST];
    d->count = 0;
    for (;;) {
        reach_t r = plain_reach_with(m, behind, d->count);
        size_t before = d->count;
        for (size_t i = 0; i < r.count; i += 1) {
            const cherisim_member_t *at = &r.members[i];
            size_t key = is_unsealed(at->value) || is_open(d, at) ? MOST : key_of(&r, i);
            if (key == MOST) continue;
            behind[d->count] = with(at->value, cheri_perms(bits(at->value)), UNSEALED);
            d->doors[d->count++] = (cherisim_door_t){at->place, r.members[key].place, at->kind, r.members[key].kind};
        }
        if (d->count == before) return r;
    }
}

/* the first member that opens some bytes to one of two permissions, or that holds a type */
static answer_t first_that_opens(const reach_t *r, unsigned one, unsigned other, uint64_t address, uint64_t length) {
    for (size_t i = 0; i < r->count; i += 1)
        if (opens(r->members[i].value, one, address, length) || opens(r->members[i].value, other, address, length))
            return (answer_t){i, true};
    return (answer_t){0, false};
}
static answer_t first_that_keeps(const reach_t *r, uint64_t address, uint64_t length) {
    for (size_t i = 0; i < r->count; i += 1)
        if (keeps(r->members[i].value, address, length)) return (answer_t){i, true};
    return (answer_t){0, false};
}
static answer_t first_that_holds(const reach_t *r, uint32_t otype) {
    for (size_t i = 0; i < r->count; i += 1)
        if (holds(r->members[i].value, otype)) return (answer_t){i, true};
    return (answer_t){0, false};
}
static answer_t first_of_the_system(const reach_t *r) {
    for (size_t i = 0; i < r->count; i += 1)
        if (has(r->members[i].value, EXECUTE | SYSTEM)) return (answer_t){i, true};
    return (answer_t){0, false};
}

/* ---- what the library says */

static bool are_equal(answer_t a, answer_t b) { return a.member == b.member && a.may == b.may; }
#define ASKED(expected, call) \
    do { \
        answer_t answer = {99, true}; \
        DONE(call); \
        ROW(are_equal(answer, expected)); \
    } while (0)

static reach_t reach(cherisim_t *m) {
    reach_t r = {.count = 99};
    DONE(cherisim_reach(m, r.members, MOST, &r.count));
    return r;
}
static bool same_reach(const reach_t *a, const reach_t *b) {
    bool good = a->count == b->count;
    for (size_t i = 0; good && i < a->count; i += 1) {
        const cherisim_member_t *x = &a->members[i], *y = &b->members[i];
        good = equal(x->value, y->value) && x->place == y->place && x->from == y->from && x->kind == y->kind;
    }
    return good;
}

static reach_t through(cherisim_t *m, doors_t *d) {
    reach_t r = {.count = 99};
    DONE(cherisim_reach_through_doors(m, r.members, MOST, &r.count));
    DONE(cherisim_doors(m, d->doors, MOST, &d->count));
    return r;
}
static bool same_doors(const doors_t *a, const doors_t *b) {
    bool good = a->count == b->count;
    for (size_t i = 0; good && i < a->count; i += 1) {
        const cherisim_door_t *x = &a->doors[i], *y = &b->doors[i];
        good = x->sealed == y->sealed && x->key == y->key && x->sealed_kind == y->sealed_kind && x->key_kind == y->key_kind;
    }
    return good;
}

/* one call asks all: of these members, which doors lead to or not */
static void may(cherisim_t *m, answer_t expected, cherisim_question_t question) { ASKED(expected, cherisim_may(m, &question, &answer)); }
static void may_some(cherisim_t *m, const reach_t *r, bool doors, uint64_t address, uint64_t length) {
    may(m, first_that_opens(r, STORE, STORE, address, length), (cherisim_question_t){address, length, CHERISIM_MAY_STORE, 0, doors});
    may(m, first_that_opens(r, LOAD, LOAD, address, length), (cherisim_question_t){address, length, CHERISIM_MAY_LOAD, 0, doors});
    may(m, first_that_opens(r, EXECUTE, EXECUTE, address, length), (cherisim_question_t){address, length, CHERISIM_MAY_EXECUTE, 0, doors});
    may(m, first_that_opens(r, LOAD, EXECUTE, address, length), (cherisim_question_t){address, length, CHERISIM_MAY_LEARN, 0, doors});
    may(m, first_that_keeps(r, address, length), (cherisim_question_t){address, length, CHERISIM_MAY_KEEP, 0, doors});
}
static void may_do(cherisim_t *m, const reach_t *r, bool doors) {
    static const uint32_t otypes[] = {0, 1, 2, 3, SENTRY, UNSEALED};
    for (size_t i = 0; i < COUNT_OF(otypes); i += 1)
        may(m, first_that_holds(r, otypes[i]), (cherisim_question_t){0, 0, CHERISIM_MAY_HOLD, otypes[i], doors});
    may(m, first_that_opens(r, STORE, STORE, TRANSMIT, 1), (cherisim_question_t){0, 0, CHERISIM_MAY_SEND, 0, doors});
    may(m, first_that_opens(r, STORE, STORE, HALT, 1), (cherisim_question_t){0, 0, CHERISIM_MAY_HALT, 0, doors});
    may(m, first_of_the_system(r), (cherisim_question_t){0, 0, CHERISIM_MAY_SYSTEM, 0, doors});
    may(m, first_that_opens(r, STORE, STORE, MTIMECMP, 1), (cherisim_question_t){0, 0, CHERISIM_MAY_TIMER, 0, doors});
}

static void ask_of_bytes(cherisim_t *m, const reach_t *r, uint64_t address, uint64_t length) {
    ASKED(first_that_opens(r, STORE, STORE, address, length), cherisim_may_store(m, address, length, &answer));
    ASKED(first_that_opens(r, LOAD, LOAD, address, length), cherisim_may_load(m, address, length, &answer));
    ASKED(first_that_opens(r, EXECUTE, EXECUTE, address, length), cherisim_may_execute(m, address, length, &answer));
    ASKED(first_that_opens(r, LOAD, EXECUTE, address, length), cherisim_may_learn(m, address, length, &answer));
    ASKED(first_that_keeps(r, address, length), cherisim_may_keep(m, address, length, &answer));
}
static void ask(cherisim_t *m, const reach_t *r, const reach_t *through_doors) {
    static const uint64_t rooms[][2] = {{0, 0}, {0, 1}, {0, UINT64_MAX}, {UINT64_MAX, UINT64_MAX}, {RAM, 0}, {RAM - 1, 1}, {RAM - 1, 2},
                                        {0x80002040, 544}, {0x80002048, 0}, {0x8000225f, 1}, {0x80003000, 4096}, {0x80003fff, 1}, {0x80004000, 4096}, {0x80005000, 1},
                                        {0x80005fff, 1}, {0x80006000, 8}, {0x80006fff, 1}, {0x80007000, 1}, {TRANSMIT, 8}};
    static const uint32_t otypes[] = {0, 1, 2, 3, SENTRY, UNSEALED};
    for (size_t i = 0; i < COUNT_OF(rooms); i += 1) {
        ask_of_bytes(m, r, rooms[i][0], rooms[i][1]);
        may_some(m, r, false, rooms[i][0], rooms[i][1]);
        may_some(m, through_doors, true, rooms[i][0], rooms[i][1]);
    }
    may_do(m, r, false);
    may_do(m, through_doors, true);
    for (size_t i = 0; i < COUNT_OF(otypes); i += 1)
        ASKED(first_that_holds(r, otypes[i]), cherisim_may_hold(m, otypes[i], &answer));
    ASKED(first_that_opens(r, STORE, STORE, TRANSMIT, 1), cherisim_may_send(m, &answer));
    ASKED(first_that_opens(r, STORE, STORE, HALT, 1), cherisim_may_halt(m, &answer));
    ASKED(first_that_opens(r, STORE, STORE, MTIMECMP, 1), cherisim_may_timer(m, &answer));
    ASKED(first_of_the_system(r), cherisim_may_system(m, &answer));
}

/* all members or none: with one place fewer they are only counted */
static void rooms(cherisim_t *m, const reach_t *r) {
    reach_t given = {.count = 0}, untouched;
    memset(given.members, 0xee, sizeof given.members);
    untouched = given;
    ROW(cherisim_reach(m, given.members, r->count - 1, &given.count) == CHERISIM_FULL && given.count == r->count);
    ROW(memcmp(given.members, untouched.members, sizeof given.members) == 0);
    given.count = 0;
    ROW(cherisim_reach(m, given.members, 0, &given.count) == CHERISIM_FULL && given.count == r->count);
    ROW(memcmp(given.members, untouched.members, sizeof given.members) == 0);
    DONE(cherisim_reach(m, given.members, r->count, &given.count));
    ROW(same_reach(&given, r));
    ROW(memcmp(&given.members[r->count], &untouched.members[r->count], sizeof *given.members * (MOST - r->count)) == 0);
}
static void rooms_through_doors(cherisim_t *m, const reach_t *r, const doors_t *d) {
    reach_t given = {.count = 0}, members;
    doors_t opened = {.count = 0}, doors;
    memset(given.members, 0xee, sizeof given.members);
    memset(opened.doors, 0xee, sizeof opened.doors);
    members = given;
    doors = opened;
    ROW(cherisim_reach_through_doors(m, given.members, r->count - 1, &given.count) == CHERISIM_FULL && given.count == r->count);
    ROW(memcmp(given.members, members.members, sizeof given.members) == 0);
    ROW(!d->count || (cherisim_doors(m, opened.doors, d->count - 1, &opened.count) == CHERISIM_FULL && opened.count == d->count));
    ROW(memcmp(opened.doors, doors.doors, sizeof opened.doors) == 0);
    DONE(cherisim_reach_through_doors(m, given.members, r->count, &given.count));
    DONE(cherisim_doors(m, opened.doors, d->count, &opened.count));
    ROW(same_reach(&given, r) && same_doors(&opened, d));
    ROW(memcmp(&opened.doors[d->count], &doors.doors[d->count], sizeof *opened.doors * (MOST - d->count)) == 0);
}

/* ---- worked rows of the compartments */

static const answer_t no = {0, false};
static answer_t yes(uint64_t member) { return (answer_t){member, true}; }

/* as the machine begins: root in PCC and DDC, and behind PCC in MTCC and MEPCC */
static void at_the_beginning(cherisim_t *m) {
    static const cherisim_member_t places[] = {{.kind = CHERISIM_IN_REGISTER, .place = 32}, {.kind = CHERISIM_IN_REGISTER, .place = 33},
                                               {.kind = CHERISIM_IN_SPECIAL, .place = 0}, {.kind = CHERISIM_IN_SPECIAL, .place = 3}};
    reach_t r = reach(m);
    ROW(r.count == 4);
    for (size_t i = 0; i < 4; i += 1)
        ROW(r.members[i].kind == places[i].kind && r.members[i].place == places[i].place && r.members[i].from == 0);
    ASKED(yes(0), cherisim_may_store(m, UINT64_MAX, 1, &answer));
    ASKED(yes(0), cherisim_may_system(m, &answer));
}

/* where A begins: it has its data, B's door, its own, and PCC; all in registers */
static void at_a(cherisim_t *m) {
    static const uint64_t registers[] = {3, 8, 9, 18, 19, 32};
    reach_t r = reach(m);
    ROW(r.count == 6);
    for (size_t i = 0; i < 6; i += 1) ROW(r.members[i].kind == CHERISIM_IN_REGISTER && r.members[i].place == registers[i]);
    ROW(equal(r.members[0].value, reg(m, 3)) && equal(r.members[5].value, scr(m, PCC)));
    ASKED(no, cherisim_may_store(m, 0x80004000, 4096, &answer));
    ASKED(no, cherisim_may_learn(m, 0x80004000, 4096, &answer));
    ASKED(no, cherisim_may_keep(m, 0, UINT64_MAX, &answer));
    ASKED(yes(0), cherisim_may_store(m, 0x80006fff, 1, &answer));
    ASKED(no, cherisim_may_store(m, 0x80005000, 4096, &answer));
    ASKED(yes(5), cherisim_may_execute(m, 0x80005ffc, 4, &answer));
    ASKED(yes(1), cherisim_may_hold(m, 2, &answer));
    ASKED(yes(3), cherisim_may_hold(m, 1, &answer));
    ASKED(no, cherisim_may_hold(m, 3, &answer));
    ASKED(yes(5), cherisim_may_hold(m, SENTRY, &answer));
    ASKED(no, cherisim_may_send(m, &answer));
    ASKED(no, cherisim_may_halt(m, &answer));
    ASKED(no, cherisim_may_system(m, &answer));
    ASKED(no, cherisim_may_timer(m, &answer));
}

/* and through the doors that it holds, B's and its own: it comes to B's data by what lies behind cs1 */
static void at_a_through_doors(cherisim_t *m) {
    static const cherisim_door_t pairs[] = {{8, 9, 0, 0}, {9, 8, 0, 0}, {18, 19, 0, 0}, {19, 18, 0, 0}};
    doors_t d;
    reach_t r = through(m, &d);
    answer_t answer = no;
    cherisim_question_t question = {0x80004000, 4096, CHERISIM_MAY_STORE, 0, true};
    ROW(d.count >= 4);
    for (size_t i = 0; i < 4; i += 1)
        ROW(d.doors[i].sealed == pairs[i].sealed && d.doors[i].key == pairs[i].key && !d.doors[i].sealed_kind && !d.doors[i].key_kind);
    DONE(cherisim_may(m, &question, &answer));
    ROW(answer.may && r.members[answer.member].kind == CHERISIM_IN_REGISTER && r.members[answer.member].place == FIRST_DOOR + 1);
    ROW(equal(r.members[answer.member].value, with(reg(m, 9), cheri_perms(bits(reg(m, 9))), UNSEALED)));
    may(m, no, (cherisim_question_t){0, UINT64_MAX, CHERISIM_MAY_KEEP, 0, true});
    may(m, no, (cherisim_question_t){0, 0, CHERISIM_MAY_SEND, 0, true});
    question.kind = CHERISIM_MAY_HOLD + 1;
    ROW(cherisim_may(m, &question, &answer) == CHERISIM_RANGE && answer.may);
    question.kind = UINT32_MAX;
    ROW(cherisim_may(m, &question, &answer) == CHERISIM_RANGE && answer.may);
}

/* where a trap has begun the kernel: PCC opens MTDC, and that the table of devices, whose first is transmit */
static void at_the_kernel(cherisim_t *m) {
    reach_t r = reach(m);
    answer_t answer = no;
    DONE(cherisim_may_send(m, &answer));
    ROW(r.count == 28 && answer.may && answer.member < r.count);
    const cherisim_member_t *device = &r.members[answer.member], *mtdc = &r.members[device->from], *pcc = &r.members[mtdc->from];
    ROW(device->kind == CHERISIM_IN_MEMORY && device->place == 0x80002000 && cheri_base(bits(device->value)) == TRANSMIT);
    ROW(mtdc->kind == CHERISIM_IN_SPECIAL && mtdc->place == 1 && equal(mtdc->value, scr(m, MTDC)));
    ROW(pcc->kind == CHERISIM_IN_REGISTER && pcc->place == 32);
}

static void run(cherisim_t *m) {
    cherisim_t before = CHERISIM_NONE;
    for (int step = 0; step < 2000 && !halted(m).halted; step += 1) {
        doors_t doors, opened;
        reach_t expected = plain_reach(m), r = reach(m), behind = plain_through(m, &doors), t = through(m, &opened);
        ROW(same_reach(&r, &expected) && same_reach(&t, &behind) && same_doors(&opened, &doors));
        if (step % 16 == 0 || ends(m)) ask(m, &expected, &behind);
        if (step == 0) at_the_beginning(m);
        if (step == 181) at_a(m);
        if (step == 181) at_a_through_doors(m);
        if (step == 196) at_the_kernel(m);
        if (step == 192 || step == 289) ROW(r.count == 6);
        if (step == 181 || step == 196) {
            DONE(cherisim_copy(m, &before));
            rooms(m, &expected);
            rooms_through_doors(m, &behind, &doors);
            ROW(same(m, &before));
        }
        steps(m, 1);
    }
    ROW(halted(m).halted);
    cherisim_free(&before);
}

int main(int count, char **given) {
    static char text[TEXT];
    FILE *file = count == 2 ? fopen(given[1], "r") : NULL;
    if (!file) return printf("reach FILE\n"), 2;
    text[fread(text, 1, TEXT - 1, file)] = 0;
    fclose(file);
    cherisim_t m = CHERISIM_NONE;
    of_text(&m, text);
    run(&m);
    cherisim_free(&m);
    printf("%lu rows, %lu wrong\n", tried, wrong);
    return wrong != 0;
}
