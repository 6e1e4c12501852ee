/* Tries cherisim_watch, cherisim_audit, cherisim_prove and cherisim_trace: the compartments of the file that is named under their policy, as docs/POLICY.md
 * has them with and without a kernel's mistake; each fault of a policy's text; and lines of a trace, as docs/TRACE.md has them. Says how
 * many rows are wrong, and ends with 0 where none is. */
#include "machines.h"

enum { TEXT = 1 << 16, P1 = 49, P2, P3, P4, P5, P6, P7, P8 };

/* as examples/compartments.policy, and the labels that it names */
static const char policy[] =
    "# What the compartments may do.\n\n"
    "A     = a_code..+0x1000\nAdata = a_data..+0x1000\nB     = b_code..+0x1000\nBdata = b_data..+0x1000\n\n"
    "when pc in A: store within Adata, load within A Adata, execute within A, transmit no, halt no, timer no, system no, seal no, "
    "types 1 2\n"
    "when pc in B: store within Bdata, load within B Bdata, execute within B, transmit no, halt no, timer no, system no, seal no, "
    "types 1 2\n";
static const char labels[] = "0000000080003000 b_code\n0000000080004000 b_data\n0000000080005000 a_code\n0000000080006000 a_data\n";

static const uint8_t *bytes(const char *text) { return (const uint8_t *)text; }
typedef struct { cherisim_status status; cherisim_breach_t breach; uint64_t line; } watched_t;

/* an audit writes this text, and the machine stays as it is; what isn't written stays too */
static void audited(cherisim_t *m, const char *rules, cherisim_timetable_t timetable, const char *expected) {
    char told[4096];
    size_t length = 99, needed = strlen(expected);
    uint64_t line = 94;
    cherisim_t before = CHERISIM_NONE;
    DONE(cherisim_copy(m, &before));
    memset(told, '?', sizeof told);
    for (size_t room = needed ? needed - 1 : 0; room <= needed; room += 1) {
        cherisim_status status = cherisim_audit(m, bytes(rules), strlen(rules), bytes(labels), strlen(labels), &timetable,
                                                bytes("typed"), 5, (uint8_t *)told, room, &length, &line);
        ROW(status == (room < needed ? CHERISIM_FULL : CHERISIM_OK) && length == needed && line == 94 && told[room] == '?');
        ROW(room < needed ? told[0] == '?' : memcmp(told, expected, needed) == 0);
    }
    ROW(same(m, &before));
    cherisim_free(&before);
}

/* what a call answers; the machine stays as it is, and what isn't written stays too. An audit is refused as it is */
static watched_t watched(cherisim_t *m, const char *rules, const char *table, cherisim_timetable_t timetable, const char *input) {
    watched_t w = {0, {90, 91, 92, 93, true}, 94};
    cherisim_t before = CHERISIM_NONE;
    if (m->at) DONE(cherisim_copy(m, &before));
    w.status = cherisim_watch(m, bytes(rules), strlen(rules), bytes(table), strlen(table), &timetable, bytes(input), strlen(input),
                              &w.breach, &w.line);
    ROW(!m->at || same(m, &before));
    char told[8] = "?";
    size_t size = 99;
    uint64_t line = 94;
    cherisim_status status = cherisim_audit(m, bytes(rules), strlen(rules), bytes(table), strlen(table), &timetable, bytes(input),
                                            strlen(input), (uint8_t *)told, 0, &size, &line);
    ROW(told[0] == '?' && line == w.line);
    ROW(status == (w.status || !w.breach.found ? w.status : CHERISIM_FULL) && (size > 0) == (w.status || w.breach.found));
    ROW(!w.status || size == 99);
    if (w.status)
        ROW(w.breach.step == 90 && w.breach.line == 91 && w.breach.member == 92 && w.breach.part == 93 && w.breach.found);
    else
        ROW(w.line == 94);
    cherisim_free(&before);
    return w;
}
static bool is_found(watched_t w, uint64_t step, uint64_t line, uint64_t member, uint32_t part) {
    return w.status == CHERISIM_OK && w.breach.found && w.breach.step == step && w.breach.line == line && w.breach.member == member
        && w.breach.part == part;
}
static bool is_kept(watched_t w) {
    return w.status == CHERISIM_OK && !w.breach.found && !w.breach.step && !w.breach.line && !w.breach.member && !w.breach.part;
}

/* the text with one instruction of the kernel left out */
static void without(cherisim_t *m, const char *text, const char *left_out) {
    static char changed[TEXT];
    strcpy(changed, text);
    char *at = strstr(changed, left_out);
    ROW(at != NULL);
    if (at) memset(at, ' ', strlen(left_out)), memcpy(at, "nop", 3);
    of_text(m, changed);
}

static void compartments(const char *text) {
    cherisim_timetable_t timetable = {100000, 1000, 0};
    cherisim_t m = CHERISIM_NONE;
    of_text(&m, text);
    ROW(is_kept(watched(&m, policy, labels, timetable, "")));
    without(&m, text, "clc     c31, 496(c31)");
    watched_t w = watched(&m, policy, labels, timetable, "");
    steps(&m, 181);
    cherisim_member_t members[64];
    size_t count = 0;
    DONE(cherisim_reach(&m, members, COUNT_OF(members), &count));
    ROW(pc(&m) == 0x80005000 && w.breach.member < count);
    ROW(is_found(w, 182, 8, w.breach.member, CHERISIM_RULE_STORE) && members[w.breach.member].place == 31);
    ROW(members[w.breach.member].kind == CHERISIM_IN_REGISTER && equal(members[w.breach.member].value, reg(&m, 31)));
    ROW(is_found(watched(&m, policy, labels, timetable, ""), 1, 8, w.breach.member, CHERISIM_RULE_STORE));
    timetable.steps = 0;
    ROW(is_kept(watched(&m, policy, labels, timetable, "")));
    cherisim_free(&m);
}

/* lui a1, 0x10000; ..: each part is broken by PCC, from the instruction on that the rule is about */
static void parts(void) {
    static const struct { const char *rule; uint64_t step, line; uint32_t part; } rows[] = {
        {"when pc in 0x80000000..+4: store no", 1, 1, CHERISIM_RULE_STORE},
        {"\nwhen pc in 0x80000004..+4: load no", 2, 2, CHERISIM_RULE_LOAD},
        {"when pc in 0x80000008..+4: execute no", 3, 1, CHERISIM_RULE_EXECUTE},
        {"when pc in 0x80000008..+4: keep within 0..0x80000000 0x80000010..0xffffffffffffffff", 3, 1, CHERISIM_RULE_KEEP},
        {"# no\n#\nwhen pc in 0x8000000c..+4: transmit no", 4, 3, CHERISIM_RULE_TRANSMIT},
        {"when pc in 0x80000010..+4: halt no", 5, 1, CHERISIM_RULE_HALT},
        {"when pc in 0x80000010..+4: timer no", 5, 1, CHERISIM_RULE_TIMER},
        {"when pc in start: system no\nwhen pc in 0x80000000..+8: system no, halt no", 1, 3, CHERISIM_RULE_HALT},
        {"when pc in 0x80000000..+4: seal no, system no", 1, 1, CHERISIM_RULE_SYSTEM},
        {"when pc in 0x80000000..+4: seal no", 1, 1, CHERISIM_RULE_SEAL}};
    cherisim_timetable_t timetable = {1000, 1, 1};
    cherisim_t m = CHERISIM_NONE;
    of_words(&m, first_words, sizeof first_words, false);
    for (size_t i = 0; i < COUNT_OF(rows); i += 1) {
        char rules[200] = "start = 0x80000100..+4\n";
        bool named = strstr(rows[i].rule, "start") != NULL;
        strcpy(named ? rules + strlen(rules) : rules, rows[i].rule);
        ROW(is_found(watched(&m, rules, "", timetable, "typed"), rows[i].step, rows[i].line, 0, rows[i].part));
    }
    ROW(is_kept(watched(&m, "", "", timetable, "")) && is_kept(watched(&m, "when pc in 0x80000014..+4: halt no", "", timetable, "")));
    ROW(is_kept(watched(&m, "when pc in 0x80000000..+0x1000: types none, transmit yes", "", timetable, "")));
    steps(&m, 5);
    ROW(halted(&m).halted && is_kept(watched(&m, "when pc in 0x80000000..+0x1000: store no", "", timetable, "")));
    /* a sealed value that is loaded */
    of_text(&m, "lc.ddc ca0, (a1)\nnop\n");
    DONE(cherisim_set_reg(&m, 11, number(RAM + 256)));
    DONE(cherisim_write_cap(&m, RAM + 256, with(bounded(RAM, 16), 8, 7)));
    DONE(cherisim_set_scr(&m, DDC, with(bounded(RAM, 512), NO_EXECUTE & NO_SYSTEM & 0x1f, UNSEALED)));
    DONE(cherisim_set_scr(&m, PCC, with(bounded(RAM, 64), 2, UNSEALED)));
    ROW(is_found(watched(&m, "when pc in 0x80000004..+4: types 6 8", "", timetable, ""), 2, 1, 0, CHERISIM_RULE_TYPES));
    ROW(is_kept(watched(&m, "when pc in 0x80000004..+4: types 7", "", timetable, "")));
    cherisim_free(&m);
}

static void refused(void) {
    static const struct { const char *rules, *table; cherisim_status status; uint64_t line; } rows[] = {
        {"no", "", P1, 1}, {"\nwhen pc in 0..1\n", "", P1, 2}, {"when pc in a_cod..+4: store no", labels, P2, 1},
        {"A = 0..1\n\nA = 1..2", "", P3, 3},
        {"A = 0..0x1ffffffffffffffff", "", P4, 1}, {"A = 5..5", "", P5, 1}, {"when pc in 0..1: fly no", "", P6, 1},
        {"when pc in 0..1: halt no, halt yes", "", P7, 1}, {"when pc in 0..1: halt maybe", "", P8, 1},
        {"no", "start 0\n", CHERISIM_LABELS, 1}, {"", "0000000080000000 start\n0000000080000000\n", CHERISIM_LABELS, 2}};
    static const cherisim_timetable_t timetables[] = {{UINT64_C(100000000000001), 1, 0}, {1, 0, 0}, {1, 1000001, 0}, {1, 1, 1000001}};
    cherisim_timetable_t timetable = {10, 1, 0}, most = {UINT64_C(100000000000000), 1000000, 1000000};
    cherisim_t m = CHERISIM_NONE;
    watched_t w = watched(&m, "", "", timetable, "");
    ROW(w.status == CHERISIM_NO_MACHINE && w.line == 94);
    of_words(&m, first_words, sizeof first_words, false);
    for (size_t i = 0; i < COUNT_OF(rows); i += 1) {
        w = watched(&m, rows[i].rules, rows[i].table, timetable, "");
        ROW(w.status == rows[i].status && w.line == rows[i].line);
    }
    for (size_t i = 0; i < COUNT_OF(timetables); i += 1) {
        w = watched(&m, "", "", timetables[i], "");
        ROW(w.status == CHERISIM_RANGE && w.line == 0);
    }
    ROW(is_kept(watched(&m, "", "", most, "")));
    cherisim_free(&m);
}

/* each part of each rule once, where it is first broken, as the line says it that has the rule */
static void audits(void) {
    static const char *rules = "begin = 0x80000000..+4\n when pc in begin: load no  # and more\n"
                               "when pc in 0x80000008..+8: store no, halt no, system yes";
    cherisim_timetable_t timetable = {1000, 1, 1};
    cherisim_t m = CHERISIM_NONE;
    of_words(&m, first_words, sizeof first_words, false);
    audited(&m, rules, timetable,
            "step 1, pcc 0000000080000000\npolicy: line 2: load\n  rule  when pc in begin: load no\n"
            "  held  pcc GXRWcCLsiuSd v:1 a:0000000080000000 b:0000000000000000 t:10000000000000000 p:78fff f:0 o:3ffff\n"
            "step 3, pcc 0000000080000008\npolicy: line 3: store\n  rule  when pc in 0x80000008..+8: store no, halt no, system yes\n"
            "  held  pcc GXRWcCLsiuSd v:1 a:0000000080000008 b:0000000000000000 t:10000000000000000 p:78fff f:0 o:3ffff\n"
            "step 3, pcc 0000000080000008\npolicy: line 3: halt\n  rule  when pc in 0x80000008..+8: store no, halt no, system yes\n"
            "  held  pcc GXRWcCLsiuSd v:1 a:0000000080000008 b:0000000000000000 t:10000000000000000 p:78fff f:0 o:3ffff\n");
    audited(&m, "when pc in 0x80000014..+4: halt no", timetable, "");
    steps(&m, 5);
    ROW(halted(&m).halted);
    audited(&m, "when pc in 0x80000000..+0x1000: store no", timetable, "");
    cherisim_free(&m);
}

/* ---- proofs */

static cherisim_status proved(cherisim_t *m, const char *rules, const char *table, uint64_t most, bool *shown, char *text, size_t room,
                              size_t *length, uint64_t *line) {
    return cherisim_prove(m, bytes(rules), strlen(rules), bytes(table), strlen(table), most, shown, (uint8_t *)text, room, length, line);
}
/* a proof tells this text, and the machine stays as it is; what isn't written stays too */
static void tells(cherisim_t *m, const char *rules, uint64_t most, bool expected, const char *told) {
    static const char *table = "0000000080000080 app\n00000000800000c0 data\n";
    char text[1024];
    size_t length = 99, needed = strlen(told);
    uint64_t line = 94;
    bool shown = !expected;
    cherisim_t before = CHERISIM_NONE;
    DONE(cherisim_copy(m, &before));
    memset(text, '?', sizeof text);
    ROW(proved(m, rules, table, most, &shown, text, needed - 1, &length, &line) == CHERISIM_FULL);
    ROW(length == needed && shown == expected && text[0] == '?');
    DONE(proved(m, rules, table, most, &shown, text, needed, &length, &line));
    ROW(length == needed && shown == expected && memcmp(text, told, needed) == 0 && text[needed] == '?' && line == 94);
    ROW(same(m, &before));
    cherisim_free(&before);
}

static void proofs(void) {
    static const char *kernel =
        ".mode 1\ncla ct0, table\nclc cra, 0(ct0)\nclc cs0, 16(ct0)\ncspecialrw cnull, mtcc, cra\ncspecialrw cnull, mepcc, cra\n"
        "cspecialrw cnull, ddc, cs0\ncmove ct0, cnull\ncjalr cnull, 0(cra)\n.align 4\ntable: .cap app, 64, 7, 1\n.cap data, 16, 13, 0\n"
        ".align 6\napp: .zero 64\ndata: .zero 16\n";
    static const char *rules = "any code in app..+64\nwhen pc in app..+64: store within data..+16, system no, seal no\n";
    cherisim_t m = CHERISIM_NONE;
    char text[8] = "?";
    size_t length = 99;
    uint64_t line = 94;
    bool shown = true;
    ROW(proved(&m, rules, "", 9, &shown, text, sizeof text, &length, &line) == CHERISIM_NO_MACHINE);
    ROW(shown && text[0] == '?' && length == 99 && line == 94);
    of_text(&m, kernel);
    tells(&m, rules, 9, true, "holds\n  of every run of this image, over any steps, ticks and bytes\n"
          "  with any code in 0000000080000080 <app> to 000000000800000c0\n  steps 9, capabilities 6\n");
    tells(&m, rules, 8, false, "not shown: more than 8 steps\n");
    tells(&m, "any code in app..+64\n\nwhen pc in app..+64: store no", 9, false, "not shown: line 3: store\n  held  cs0\n");
    ROW(proved(&m, "\nany code app", "", 9, &shown, text, sizeof text, &length, &line) == P1 && line == 2 && text[0] == '?');
    ROW(proved(&m, rules, "app\n", 9, &shown, text, sizeof text, &length, &line) == CHERISIM_LABELS && line == 1 && length == 99);
    cherisim_free(&m);
}

/* ---- traces */

static cherisim_status trace(cherisim_t *m, const char *table, uint64_t number, char *text, size_t room, size_t *length, uint64_t *line) {
    return cherisim_trace(m, bytes(table), strlen(table), number, (uint8_t *)text, room, length, line);
}
static void traced(cherisim_t *m, const char *table, uint64_t number, const char *expected) {
    char text[1024];
    size_t length = 99, needed = strlen(expected);
    uint64_t line = 94;
    memset(text, '?', sizeof text);
    if (needed) ROW(trace(m, table, number, text, needed - 1, &length, &line) == CHERISIM_FULL);
    ROW(length == (needed ? needed : 99) && text[0] == '?');
    DONE(trace(m, table, number, text, needed, &length, &line));
    ROW(length == needed && memcmp(text, expected, needed) == 0 && text[needed] == '?' && line == 94);
}

static void traces(void) {
    cherisim_t m = CHERISIM_NONE, before = CHERISIM_NONE;
    char text[64] = "?";
    size_t length = 99;
    uint64_t line = 94;
    ROW(trace(&m, "", 1, text, sizeof text, &length, &line) == CHERISIM_NO_MACHINE && length == 99 && text[0] == '?' && line == 94);
    of_words(&m, first_words, sizeof first_words, false);
    DONE(cherisim_copy(&m, &before));
    traced(&m, "", 14, "14 0000000080000000 100005b7 lui a1, 0x10000: ca1 = v:0 a:0000000010000000 b:0000000000000000 t:10000000000000000 "
           "p:00000 f:0 o:3ffff\n");
    ROW(same(&m, &before));
    steps(&m, 2);
    traced(&m, "", UINT64_MAX,
           "18446744073709551615 0000000080000008 00a58023 sb a0, 0(a1): device store 1 byte at 0000000010000000: 41\n");
    steps(&m, 3);
    traced(&m, "", 6, "");
    of_text(&m, "j next\nnext: nop\n");
    traced(&m, "0000000080000000 start\n0000000080000004 next\n", 1,
           "1 0000000080000000 <start> 0040006f jal zero, .+4: jump to 0000000080000004 <next>\n");
    ROW(trace(&m, "0000000080000000 start\nnext\n", 1, text, sizeof text, &length, &line) == CHERISIM_LABELS && line == 2);
    ROW(length == 99 && text[0] == '?');
    of_text(&m, "ecall\n");
    traced(&m, "", 1, "1 0000000080000000 00000073 ecall: trap environment call, mcause 000000000000000b, mtval 0000000000000000\n");
    cherisim_free(&m);
    cherisim_free(&before);
}

int main(int count, char **given) {
    static char text[TEXT];
    FILE *file = count == 2 ? fopen(given[1], "r") : NULL;
    if (!file) return printf("policies FILE\n"), 2;
    text[fread(text, 1, TEXT - 1, file)] = 0;
    fclose(file);
    compartments(text);
    parts();
    refused();
    audits();
    proofs();
    traces();
    printf("%lu rows, %lu wrong\n", tried, wrong);
    return wrong != 0;
}
