/* Tries libcherisim where memory runs out: each allocation of a call fails in turn. The call answers CHERISIM_NO_MEMORY, the handle holds
 * what it held, and no block is lost; then it succeeds. The heap below stands in place of c/heap.c. */
#include "machines.h"
#include <stdlib.h>

static long left = -1; /* from which allocation on they fail, counted from 1; 0: each; -1: none */
static long blocks;    /* how many live */
static uint8_t nothing;
typedef struct { uint8_t ok; void *block; } tried_t;

static bool fails(void) {
    left -= left > 0;
    return left == 0;
}
static tried_t answered(void *block) { return (tried_t){block != NULL, block ? block : &nothing}; }
tried_t rattle_alloc(size_t size, size_t align) {
    void *block = fails() ? NULL : malloc(size ? size : align);
    blocks += block != NULL;
    return answered(block);
}
tried_t rattle_realloc(void *block, size_t kept, size_t size, size_t align) {
    (void)kept;
    return answered(fails() ? NULL : realloc(block, size ? size : align));
}
void rattle_dealloc(void *block) {
    blocks -= 1;
    free(block);
}

/* ---- the calls */

/* version 2, a page: the word of `nop` at its beginning, and a capability after it */
static const uint8_t image[] = "CHERIIMG" "\2\0\0\0" "\1\0\0\0" "\0\0\0\x80\0\0\0\0" "\1\0\0\0" "\0\0\0\0"
                               "\0\0\0\x80\0\0\0\0" "\4\0\0\0\0\0\0\0" "\x13\0\0\0"
                               "\1\0\0\0" "\x10\0\0\x80\0\0\0\0" "\0\0\0\x80\0\0\0\0" "\x40\0\0\0\0\0\0\0" "\xff\xff\0\0" "\0\0\0\0";
static const char *text = ".pages 3\n.mode 1\nfirst: nop\nsecond: j first\n.org 0x80001000\ntable: .cap second, 16, 65535, 0\n"
                          ".dword table\n.org 0x80000100\nthird: .zero 100\n.ascii \"and so on\"\n";
static const uint8_t nothing_typed[1];
static cherisim_t source;

static cherisim_status call_new(cherisim_t *m) { return cherisim_new(image, sizeof image - 1, m); }
static cherisim_status call_new_flat(cherisim_t *m) { return cherisim_new_flat(image, 64, RAM, RAM, 2, true, m); }
static cherisim_status call_assemble(cherisim_t *m) {
    uint64_t line = 0;
    return cherisim_assemble((const uint8_t *)text, strlen(text), m, &line);
}
static cherisim_status call_copy(cherisim_t *m) { return cherisim_copy(&source, m); }
static cherisim_status call_why(cherisim_t *m) {
    uint8_t shown[2048] = {0xee};
    size_t length = 99;
    cherisim_status status = cherisim_why(m, shown, sizeof shown, &length);
    if (status) ROW(length == 99 && shown[0] == 0xee);
    return status;
}
static cherisim_status call_reach(cherisim_t *m) {
    cherisim_member_t members[64] = {{.place = 0xee}};
    size_t count = 99;
    cherisim_status status = cherisim_reach(m, members, COUNT_OF(members), &count);
    if (status) ROW(count == 99 && members[0].place == 0xee);
    return status;
}
static cherisim_status call_may(cherisim_t *m) {
    cherisim_answer_t answer = {99, false};
    cherisim_status status = cherisim_may_store(m, RAM, 1, &answer);
    ROW(answer.member == (status ? 99 : 0) && answer.may == !status);
    return status;
}

static cherisim_status call_through_doors(cherisim_t *m) {
    cherisim_member_t members[64] = {{.place = 0xee}};
    size_t count = 99;
    cherisim_status status = cherisim_reach_through_doors(m, members, COUNT_OF(members), &count);
    if (status) ROW(count == 99 && members[0].place == 0xee);
    return status;
}
static cherisim_status call_doors(cherisim_t *m) {
    cherisim_door_t doors[64] = {{.sealed = 0xee}};
    size_t count = 99;
    cherisim_status status = cherisim_doors(m, doors, COUNT_OF(doors), &count);
    if (status) ROW(count == 99 && doors[0].sealed == 0xee);
    return status;
}
static cherisim_status call_may_through_doors(cherisim_t *m) {
    cherisim_question_t question = {RAM, 1, CHERISIM_MAY_STORE, 0, true};
    cherisim_answer_t answer = {99, false};
    cherisim_status status = cherisim_may(m, &question, &answer);
    ROW(answer.member == (status ? 99 : 0) && answer.may == !status);
    return status;
}
static const char *policy = "code = start..+8 0x80001000..+16\nwhen pc in code: store no, types none, or caller\n";
static const char *labels = "0000000080000000 start\n";
static const cherisim_timetable_t timetable = {100, 1000, 0};
static cherisim_status call_watch(cherisim_t *m) {
    cherisim_breach_t breach = {99, 99, 99, 99, false};
    uint64_t line = 99;
    cherisim_status status = cherisim_watch(m, (const uint8_t *)policy, strlen(policy), (const uint8_t *)labels, strlen(labels), &timetable,
                                            nothing_typed, 0, &breach, &line);
    ROW(breach.found == !status && breach.step == (status ? 99 : 1) && breach.line == (status ? 99 : 2) && line == (status ? 0 : 99));
    ROW(status || (breach.member == 0 && breach.part == CHERISIM_RULE_STORE));
    return status;
}
static cherisim_status call_audit(cherisim_t *m) {
    uint8_t told[1024] = {0xee};
    size_t length = 99;
    uint64_t line = 99;
    cherisim_status status = cherisim_audit(m, (const uint8_t *)policy, strlen(policy), (const uint8_t *)labels, strlen(labels), &timetable,
                                            nothing_typed, 0, told, sizeof told, &length, &line);
    ROW(status ? length == 99 && told[0] == 0xee && line == 0 : length > 99 && told[0] == 's' && line == 99);
    return status;
}
static cherisim_status call_prove(cherisim_t *m) {
    uint8_t told[1024] = {0xee};
    size_t length = 99;
    uint64_t line = 99;
    bool shown = true;
    cherisim_status status = cherisim_prove(m, (const uint8_t *)policy, strlen(policy), (const uint8_t *)labels, strlen(labels), 9, &shown,
                                            told, sizeof told, &length, &line);
    ROW(status ? length == 99 && told[0] == 0xee && line == 0 && shown : length != 99 && told[0] == 'n' && line == 99 && !shown);
    return status;
}
static cherisim_status call_trace(cherisim_t *m) {
    uint8_t told[1024] = {0xee};
    size_t length = 99;
    uint64_t line = 99;
    cherisim_status status = cherisim_trace(m, (const uint8_t *)labels, strlen(labels), 1, told, sizeof told, &length, &line);
    ROW(status ? length == 99 && told[0] == 0xee && line == 0 : memcmp(told, "1 0000000080000004 <start+4> ", 29) == 0 && line == 99);
    return status;
}

static const cherisim_given_t given[] = {{3, CHERISIM_GAVE_STEPS}, {'x', CHERISIM_GAVE_BYTE}, {2, CHERISIM_GAVE_TICKS}};
static const cherisim_place_t pcc = {PCC, CHERISIM_IN_SPECIAL};
static cherisim_status call_image(cherisim_t *m) {
    uint8_t made[1024] = {0xee};
    size_t length = 99;
    uint64_t line = 99;
    cherisim_status status = cherisim_image((const uint8_t *)text, strlen(text), made, sizeof made, &length, &line);
    ROW(status ? length == 99 && made[0] == 0xee && line == 0 : length > 99 && made[0] == 'C' && line == 99);
    return m ? status : 99;
}
static cherisim_status call_back(cherisim_t *m) { return cherisim_back(image, sizeof image - 1, given, COUNT_OF(given), 4, m); }
static cherisim_status tells_of_pcc(tells_t tells, const char *begin, cherisim_t *m) {
    uint8_t told[1024] = {0xee};
    size_t length = 99;
    uint64_t line = 0;
    cherisim_status status = tells(image, sizeof image - 1, given, COUNT_OF(given), &pcc, (const uint8_t *)labels, strlen(labels), told,
                                   sizeof told, &length, &line);
    ROW(status ? length == 99 && told[0] == 0xee && line == 0 : memcmp(told, begin, strlen(begin)) == 0);
    return m ? status : 99;
}
static cherisim_status call_origin(cherisim_t *m) { return tells_of_pcc(cherisim_origin, "pcc from mtcc", m); }
static cherisim_status call_lost(cherisim_t *m) { return tells_of_pcc(cherisim_lost, "no tag was lost at pcc\n", m); }
static cherisim_status links_of_pcc(links_t links_of, bool are_some, cherisim_t *m) {
    cherisim_link_t links[4] = {{.before = 99}};
    size_t count = 99;
    cherisim_status status = links_of(image, sizeof image - 1, given, COUNT_OF(given), &pcc, links, COUNT_OF(links), &count);
    ROW(status ? count == 99 : count < 5 && (count > 0) == are_some);
    ROW((links[0].before == 99) == (status || !are_some));
    return m ? status : 99;
}
static cherisim_status call_links(cherisim_t *m) { return links_of_pcc(cherisim_origin_links, true, m); }
static cherisim_status call_lost_links(cherisim_t *m) { return links_of_pcc(cherisim_lost_links, false, m); }

/* each allocation of the call fails in turn, into a handle with a machine or without one */
static void each_fails(const char *name, cherisim_status (*call)(cherisim_t *), bool has_machine) {
    cherisim_t m = CHERISIM_NONE, before = CHERISIM_NONE;
    if (has_machine) {
        of_text(&m, "li a0, 7\nebreak\n");
        steps(&m, 1);
        DONE(cherisim_copy(&m, &before));
    }
    long held = blocks, failed = 0;
    for (cherisim_status status; failed < 1000; failed += 1) {
        void *at = m.at;
        left = failed + 1;
        status = call(&m);
        left = -1;
        if (status == CHERISIM_OK) break;
        ROW(status == CHERISIM_NO_MEMORY && m.at == at && blocks == held && (!has_machine || same(&m, &before)));
    }
    ROW(failed > 0 && failed < 1000);
    printf("%s%s: %ld; ", name, has_machine ? " over a machine" : "", failed);
    cherisim_free(&m);
    cherisim_free(&before);
}

/* what takes no memory succeeds without any */
static void takes_none(void) {
    cherisim_t m = CHERISIM_NONE;
    cherisim_asked_t asked = {1000, 7, 0, 0, false, false, false};
    cherisim_ran_t ran;
    uint8_t bytes[64] = {0}, line[1024];
    size_t length;
    uint64_t faulty;
    cherisim_cap_t values[32];
    of_text(&m, "loop: addi a0, a0, 1\nsc.ddc ca1, (a2)\nebreak\n");
    DONE(cherisim_set_reg(&m, 12, number(RAM + 64)));
    DONE(cherisim_set_scr(&m, MTCC, root_at(RAM)));
    left = 0;
    DONE(cherisim_run(&m, &asked, bytes, 64, &ran));
    DONE(cherisim_receive(&m, 5));
    DONE(cherisim_tick(&m));
    DONE(cherisim_set_reg(&m, X11, bounded(RAM, 16)));
    DONE(cherisim_set_csr(&m, MSCRATCH, 5));
    DONE(cherisim_write(&m, RAM + 512, bytes, 64));
    DONE(cherisim_write_cap(&m, RAM + 1024, root_at(3)));
    DONE(cherisim_all_regs(&m, values));
    steps(&m, 9);
    ROW(ran.steps == 1000 && same(&m, &m) && ends(&m) < 4);
    DONE(cherisim_trace(&m, nothing_typed, 0, 1, line, sizeof line, &length, &faulty));
    ROW(cherisim_new(image, 5, &m) == 1);
    left = -1;
    cherisim_free(&m);
}

int main(void) {
    call_new(&source);
    steps(&source, 1);
    const struct { const char *name; cherisim_status (*call)(cherisim_t *); bool makes; } calls[] = {
        {"new", call_new, true}, {"new_flat", call_new_flat, true}, {"assemble", call_assemble, true}, {"copy", call_copy, true},
        {"why", call_why, false}, {"reach", call_reach, false}, {"may_store", call_may, false},
        {"reach_through_doors", call_through_doors, false}, {"doors", call_doors, false}, {"may", call_may_through_doors, false},
        {"watch", call_watch, false}, {"audit", call_audit, false}, {"prove", call_prove, false}, {"trace", call_trace, false},
        {"image", call_image, false}, {"back", call_back, true}, {"origin", call_origin, false}, {"lost", call_lost, false},
        {"origin_links", call_links, false}, {"lost_links", call_lost_links, false}};
    for (size_t i = 0; i < COUNT_OF(calls); i += 1) {
        if (calls[i].makes) each_fails(calls[i].name, calls[i].call, false);
        each_fails(calls[i].name, calls[i].call, true);
    }
    takes_none();
    cherisim_free(&source);
    ROW(blocks == 0);
    printf("that many allocations failed in turn; %lu rows, %lu wrong\n", tried, wrong);
    return wrong != 0;
}
