/* Tries cherisim_image, cherisim_back, cherisim_origin, cherisim_lost, their links, and cherisim_step_while_held: a program whose links are
 * worked by hand, what it was given beside the same given to a machine, and each refusal. Says how many rows are wrong, and ends with 0
 * where none is. */
#include "machines.h"

/* what a capability is made of, where its tag goes, and a store: a step each, in capability mode */
static const char text[] = ".mode 1\nauipcc ca0, 0\ncincoffsetimm ca0, ca0, 256\ncsetboundsimm ca1, ca0, 32\nccleartag ca2, ca1\n"
                           "csc ca1, 0(ca0)\nclc ca3, 0(ca0)\nlui a5, 0x10000\nend: j end\n";
static const char labels[] = "0000000080000100 kept\n";
enum { CA1 = 11, CA2 = 12, CA3 = 13, CA5 = 15, MOST = 8 };

static uint8_t image[1024];
static size_t size;
static const uint8_t *bytes(const char *told) { return (const uint8_t *)told; }
static cherisim_place_t place(uint32_t kind, uint64_t number) { return (cherisim_place_t){number, kind}; }
static bool is(cherisim_place_t a, uint32_t kind, uint64_t number) { return a.kind == kind && a.number == number; }

/* ---- back: as a machine that was given the first of the events, one at a time */

static const cherisim_given_t given[] = {{2, CHERISIM_GAVE_STEPS}, {3, CHERISIM_GAVE_TICKS}, {0, CHERISIM_GAVE_STEPS},
                                         {'x', CHERISIM_GAVE_BYTE}, {4, CHERISIM_GAVE_STEPS}, {'y', CHERISIM_GAVE_BYTE}};
enum { EVENTS = 11 };

static void give(cherisim_t *m, uint64_t events) {
    for (size_t i = 0; i < COUNT_OF(given); i += 1)
        for (uint64_t n = given[i].kind == CHERISIM_GAVE_BYTE ? 1 : given[i].number; n > 0 && events > 0; n -= 1, events -= 1) {
            if (given[i].kind == CHERISIM_GAVE_STEPS) steps(m, 1);
            if (given[i].kind == CHERISIM_GAVE_TICKS) DONE(cherisim_tick(m));
            if (given[i].kind == CHERISIM_GAVE_BYTE) DONE(cherisim_receive(m, (uint8_t)given[i].number));
        }
}
static void back(void) {
    cherisim_t m = CHERISIM_NONE, beside = CHERISIM_NONE;
    for (uint64_t events = 0; events <= EVENTS; events += 1) {
        DONE(cherisim_back(image, size, given, COUNT_OF(given), events, &m));
        DONE(cherisim_new(image, size, &beside));
        give(&beside, EVENTS - events);
        ROW(same(&m, &beside));
    }
    ROW(cherisim_back(image, size, given, COUNT_OF(given), EVENTS + 1, &m) == CHERISIM_RANGE && same(&m, &beside));
    DONE(cherisim_back(image, size, given, 0, 0, &m));
    ROW(same(&m, &beside) && cherisim_back(image, size, given, 0, 1, &m) == CHERISIM_RANGE);
    cherisim_free(&m);
    cherisim_free(&beside);
}

/* ---- links, worked by hand */

static const cherisim_given_t all_steps[] = {{7, CHERISIM_GAVE_STEPS}};

static void origins(void) {
    cherisim_link_t links[MOST] = {{.before = 99}};
    size_t count = 99;
    cherisim_place_t a3 = place(CHERISIM_IN_REGISTER, CA3), a2 = place(CHERISIM_IN_REGISTER, CA2), a5 = place(CHERISIM_IN_REGISTER, CA5);
    DONE(cherisim_origin_links(image, size, all_steps, 1, &a3, links, MOST, &count));
    ROW(count == 6 && is(links[0].place, CHERISIM_IN_REGISTER, CA3) && is(links[0].source, CHERISIM_IN_MEMORY, RAM + 256));
    ROW(is(links[1].place, CHERISIM_IN_MEMORY, RAM + 256) && is(links[1].source, CHERISIM_IN_REGISTER, CA1));
    ROW(is(links[2].place, CHERISIM_IN_REGISTER, CA1) && is(links[2].source, CHERISIM_IN_REGISTER, A0));
    ROW(is(links[3].place, CHERISIM_IN_REGISTER, A0) && is(links[3].source, CHERISIM_IN_REGISTER, A0));
    ROW(is(links[4].place, CHERISIM_IN_REGISTER, A0) && is(links[4].source, CHERISIM_IN_SPECIAL, PCC));
    ROW(is(links[5].place, CHERISIM_IN_SPECIAL, PCC) && !links[5].has_source && !links[5].written);
    static const uint64_t before[] = {5, 4, 2, 1, 0, 0};
    for (size_t i = 0; i < 5; i += 1) {
        cherisim_t m = CHERISIM_NONE;
        DONE(cherisim_back(image, size, all_steps, 1, 7 - before[i], &m));
        ROW(links[i].before == before[i] && links[i].has_source && links[i].written && links[i].pc == pc(&m));
        steps(&m, 1);
        uint64_t at = links[i].place.number;
        ROW(equal(links[i].value, links[i].place.kind == CHERISIM_IN_MEMORY ? cap_at(&m, at) : reg(&m, (uint8_t)at)));
        cherisim_free(&m);
    }
    for (size_t room = 0; room <= 6; room += 1) {
        cherisim_link_t some[MOST] = {{.before = 99}};
        DONE(cherisim_origin_links(image, size, all_steps, 1, &a3, some, room, &count));
        ROW(count == room && (room ? some[0].before == 5 && some[room - 1].pc == links[room - 1].pc : some[0].before == 99));
    }
    DONE(cherisim_origin_links(image, size, all_steps, 1, &a2, links, MOST, &count));
    ROW(count == 5 && links[0].before == 3 && links[0].pc == RAM + 12 && !links[0].value.tag && links[1].value.tag);
    ROW(is(links[0].source, CHERISIM_IN_REGISTER, CA1));
    for (size_t room = 0; room <= 2; room += 1) {
        cherisim_link_t some[2] = {{.before = 99}};
        DONE(cherisim_lost_links(image, size, all_steps, 1, &a2, some, room, &count));
        ROW(count == (room > 0) && (room ? equal(some[0].value, links[0].value) && some[0].before == 3 : some[0].before == 99));
    }
    DONE(cherisim_lost_links(image, size, all_steps, 1, &a3, links, MOST, &count));
    ROW(count == 0);
    DONE(cherisim_origin_links(image, size, all_steps, 1, &a5, links, MOST, &count));
    ROW(count == 1 && links[0].before == 6 && !links[0].has_source && links[0].written && links[0].value.address == 0x10000000);
}

/* ---- texts */

#define KEPT "v:1 a:0000000080000100 b:0000000080000100 t:00000000080000120 p:78fff f:1 o:3ffff\n"
#define ROOT "b:0000000000000000 t:10000000000000000 p:78fff f:1 o:3ffff\n"

static void told(tells_t tells, cherisim_place_t of, const char *expected) {
    char shown[2048];
    size_t length = 99, needed = strlen(expected);
    uint64_t line = 94;
    for (size_t room = needed - 1; room <= needed; room += 1) {
        memset(shown, '?', sizeof shown);
        cherisim_status status = tells(image, size, all_steps, 1, &of, bytes(labels), strlen(labels), (uint8_t *)shown, room, &length,
                                       &line);
        ROW(status == (room < needed ? CHERISIM_FULL : CHERISIM_OK) && length == needed && line == 94 && shown[room] == '?');
        ROW(room < needed ? shown[0] == '?' : memcmp(shown, expected, needed) == 0);
    }
}
static void texts(void) {
    told(cherisim_lost, place(CHERISIM_IN_REGISTER, CA3), "no tag was lost at ca3\n");
    told(cherisim_lost, place(CHERISIM_IN_REGISTER, CA2),
         "ca2 from ca1, tag cut: 4 000000008000000c feb5865b ccleartag ca2, ca1: ca2 = v:0 a:0000000080000100 b:0000000080000100 "
         "t:00000000080000120 p:78fff f:1 o:3ffff\n  no the instruction keeps the tag\n");
    told(cherisim_origin, place(CHERISIM_IN_MEMORY, RAM + 256),
         "0000000080000100 <kept> from ca1: 5 0000000080000010 00b54023 csc ca1, 0(ca0): store capability at 0000000080000100 <kept>: " KEPT
         "ca1 from ca0, bounds cut: 3 0000000080000008 020525db csetboundsimm ca1, ca0, 32: ca1 = " KEPT
         "ca0 from ca0: 2 0000000080000004 1005155b cincoffsetimm ca0, ca0, 256: ca0 = v:1 a:0000000080000100 " ROOT
         "ca0 from pcc: 1 0000000080000000 00000517 auipcc ca0, 0x0: ca0 = v:1 a:0000000080000000 " ROOT
         "opening state: pcc v:1 a:0000000080000000 " ROOT);
}

/* ---- refusals: nothing is written */

static void refuse(const uint8_t *file, size_t length, const cherisim_given_t *gave, size_t count, cherisim_place_t of, const char *table,
                   cherisim_status expected, uint64_t at_line) {
    static const tells_t tells[] = {cherisim_origin, cherisim_lost};
    cherisim_link_t links[1] = {{.before = 99}};
    size_t found = 98;
    for (size_t i = 0; i < COUNT_OF(tells); i += 1) {
        uint8_t shown[2048] = {'?'};
        uint64_t line = 94;
        size_t told_length = 97;
        ROW(tells[i](file, length, gave, count, &of, bytes(table), strlen(table), shown, sizeof shown, &told_length, &line) == expected);
        ROW(shown[0] == '?' && told_length == 97 && line == at_line);
    }
    if (expected == CHERISIM_LABELS) return;
    ROW(cherisim_origin_links(file, length, gave, count, &of, links, 1, &found) == expected && links[0].before == 99 && found == 98);
    ROW(cherisim_lost_links(file, length, gave, count, &of, links, 1, &found) == expected && links[0].before == 99 && found == 98);
}
static void refusals(void) {
    static const cherisim_given_t no_kind[] = {{2, CHERISIM_GAVE_STEPS}, {1, 3}}, no_byte[] = {{256, CHERISIM_GAVE_BYTE}},
                                  too_many[] = {{UINT64_MAX, CHERISIM_GAVE_STEPS}, {1, CHERISIM_GAVE_TICKS}};
    const struct { uint32_t kind; uint64_t number; } none[] = {
        {CHERISIM_IN_REGISTER, 32}, {CHERISIM_IN_REGISTER, 256}, {CHERISIM_IN_SPECIAL, 2}, {CHERISIM_IN_SPECIAL, 256}, {3, 0},
        {CHERISIM_IN_MEMORY, RAM + 8}, {CHERISIM_IN_MEMORY, RAM - 16}, {CHERISIM_IN_MEMORY, RAM + PAGE}};
    const cherisim_given_t *wrong_ones[] = {no_kind, no_byte, too_many};
    const size_t counts[] = {2, 1, 2};
    cherisim_place_t a0 = place(CHERISIM_IN_REGISTER, A0);
    cherisim_t m = CHERISIM_NONE;
    for (size_t i = 0; i < COUNT_OF(none); i += 1)
        refuse(image, size, all_steps, 1, place(none[i].kind, none[i].number), labels, CHERISIM_RANGE, 94);
    for (size_t i = 0; i < COUNT_OF(counts); i += 1) {
        refuse(image, size, wrong_ones[i], counts[i], a0, labels, CHERISIM_RANGE, 94);
        ROW(cherisim_back(image, size, wrong_ones[i], counts[i], 0, &m) == CHERISIM_RANGE && m.at == NULL);
    }
    refuse(image, 7, all_steps, 1, a0, labels, L1, 94);
    refuse(image, size - 1, no_kind, 2, a0, labels, L8, 94);
    ROW(cherisim_back(image, 7, given, 1, 0, &m) == L1 && m.at == NULL);
    refuse(image, size, no_kind, 2, a0, "0000000080000100 kept\nwhat\n", CHERISIM_LABELS, 2);
}

/* ---- images of texts, and steps while a place holds what it holds */

static void images(void) {
    cherisim_t m = CHERISIM_NONE, beside = CHERISIM_NONE;
    uint8_t room[8] = {'?'};
    size_t length = 99;
    uint64_t line = 94;
    ROW(cherisim_image(bytes(text), strlen(text), room, sizeof room, &length, &line) == CHERISIM_FULL && length == size && room[0] == '?');
    ROW(line == 94);
    length = 99;
    ROW(cherisim_image(bytes("nop\nwhat\n"), 9, room, sizeof room, &length, &line) == A1 && line == 2 && length == 99 && room[0] == '?');
    DONE(cherisim_new(image, size, &m));
    of_text(&beside, text);
    ROW(same(&m, &beside));
    cherisim_free(&m);
    cherisim_free(&beside);
}
static void held(void) {
    static const struct { uint32_t kind; uint64_t number, most, steps; } rows[] = {
        {CHERISIM_IN_REGISTER, A0, 9, 1}, {CHERISIM_IN_REGISTER, CA1, 9, 3}, {CHERISIM_IN_REGISTER, CA2, 9, 4},
        {CHERISIM_IN_REGISTER, CA5, 9, 7},
        {CHERISIM_IN_MEMORY, RAM + 256, 9, 5}, {CHERISIM_IN_SPECIAL, PCC, 9, 1}, {CHERISIM_IN_SPECIAL, MTCC, 9, 9},
        {CHERISIM_IN_REGISTER, 0, 9, 9}, {CHERISIM_IN_REGISTER, CA1, 2, 2}, {CHERISIM_IN_REGISTER, A0, 0, 0}};
    for (size_t i = 0; i < COUNT_OF(rows); i += 1) {
        cherisim_t m = CHERISIM_NONE, beside = CHERISIM_NONE;
        cherisim_place_t of = place(rows[i].kind, rows[i].number);
        cherisim_stepped_t did = {99, {true, 9}};
        of_text(&m, text);
        of_text(&beside, text);
        DONE(cherisim_step_while_held(&m, rows[i].most, &of, &did));
        steps(&beside, (int)rows[i].steps);
        ROW(did.steps == rows[i].steps && !did.sent.sends && same(&m, &beside));
        of = place(CHERISIM_IN_MEMORY, RAM + PAGE);
        did.steps = 99;
        ROW(cherisim_step_while_held(&m, 9, &of, &did) == CHERISIM_RANGE && did.steps == 99 && same(&m, &beside));
        cherisim_free(&m);
        ROW(cherisim_step_while_held(&m, 9, &of, &did) == CHERISIM_NO_MACHINE && did.steps == 99);
        cherisim_free(&beside);
    }
    cherisim_t m = CHERISIM_NONE;
    cherisim_place_t of = place(CHERISIM_IN_REGISTER, 0);
    cherisim_stepped_t did = {99, {false, 9}};
    of_words(&m, first_words, sizeof first_words, false);
    DONE(cherisim_step_while_held(&m, 9, &of, &did));
    ROW(did.steps == 3 && did.sent.sends && did.sent.byte == 'A');
    DONE(cherisim_step_while_held(&m, 9, &of, &did));
    ROW(did.steps == 2 && !did.sent.sends && halted(&m).halted);
    DONE(cherisim_step_while_held(&m, 9, &of, &did));
    ROW(did.steps == 0);
    cherisim_free(&m);
}

int main(void) {
    uint64_t line = 0;
    DONE(cherisim_image(bytes(text), strlen(text), image, sizeof image, &size, &line));
    back();
    origins();
    texts();
    refusals();
    images();
    held();
    printf("%lu rows, %lu wrong\n", tried, wrong);
    return wrong != 0;
}
