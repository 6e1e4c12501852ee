/* Tries how libcherisim makes machines: of images, bytes and texts, each fault of them, copies, and handles without a machine. Expected
 * values come from docs/ASSEMBLY.md and docs/PROGRAMMING.md. Says how many rows are wrong, and ends with 0 where none is. */
#include "machines.h"

/* ---- images */

typedef struct { uint8_t bytes[4096]; size_t length; } image_t;

static void put(image_t *image, uint64_t value, int size) {
    for (int i = 0; i < size; i += 1) image->bytes[image->length++] = (uint8_t)(value >> 8 * i);
}
static image_t header(uint32_t version, uint32_t pages, uint64_t entry, uint32_t sections, uint32_t mode) {
    image_t image = {{0}, 8};
    memcpy(image.bytes, "CHERIIMG", 8);
    put(&image, version, 4);
    put(&image, pages, 4);
    put(&image, entry, 8);
    put(&image, sections, 4);
    put(&image, mode, 4);
    return image;
}
static void put_section(image_t *image, uint64_t address, const void *bytes, uint64_t length) {
    put(image, address, 8);
    put(image, length, 8);
    memcpy(image->bytes + image->length, bytes, length);
    image->length += length;
}
static void put_cap(image_t *image, uint64_t place, uint64_t base, uint64_t length, uint32_t perms, uint32_t flag) {
    put(image, place, 8);
    put(image, base, 8);
    put(image, length, 8);
    put(image, perms, 4);
    put(image, flag, 4);
}
static image_t first_image(void) {
    image_t image = header(1, 1, RAM, 1, 0);
    put_section(&image, RAM, first_words, sizeof first_words);
    return image;
}
/* one capability, and no section */
static image_t granting(uint64_t place, uint64_t base, uint32_t flag) {
    image_t image = header(2, 1, RAM, 0, 0);
    put(&image, 1, 4);
    put_cap(&image, place, base, base == 0x80001001 ? 4096 : 4095, 0xffff, flag);
    return image;
}
static cherisim_status opened(const image_t *image, size_t length, cherisim_t *m) { return cherisim_new(image->bytes, length, m); }

/* ---- life */

/* an image is refused: a handle without a machine stays so, and a machine stays as it was */
static void refused(const image_t *image, size_t length, cherisim_status with_status) {
    cherisim_t none = CHERISIM_NONE, m = CHERISIM_NONE, before = CHERISIM_NONE;
    image_t first = first_image();
    ROW(opened(image, length, &none) == with_status && !none.at);
    DONE(opened(&first, first.length, &m));
    steps(&m, 3);
    DONE(cherisim_copy(&m, &before));
    void *at = m.at;
    ROW(opened(image, length, &m) == with_status && m.at == at && same(&m, &before));
    cherisim_free(&m);
    cherisim_free(&before);
}
static void refused_whole(image_t image, cherisim_status with_status) { refused(&image, image.length, with_status); }

static void truncated_images(void) {
    image_t images[] = {first_image(), granting(0x80000100, 0x80001000, 0)};
    for (int i = 0; i < 2; i += 1) {
        cherisim_t m = CHERISIM_NONE;
        ROW(images[i].length == 68);
        for (size_t length = 0; length < 68; length += 1) refused(&images[i], length, length < 32 ? L1 : L8);
        DONE(opened(&images[i], 68, &m));
        images[i].length = 69;
        refused_whole(images[i], L9);
        cherisim_free(&m);
    }
}

static void faulty_headers(void) {
    image_t magic = first_image();
    magic.bytes[7] = 'H';
    refused_whole(magic, L2);
    refused_whole(header(0, 1, RAM, 0, 0), L3);
    refused_whole(header(3, 1, RAM, 0, 0), L3);
    refused_whole(header(1, 0, RAM, 0, 0), L4);
    refused_whole(header(1, 4097, RAM, 0, 0), L4);
    refused_whole(header(2, 65537, RAM, 0, 0), L4);
    refused_whole(header(1, 1, RAM + 2, 0, 0), L4);
    refused_whole(header(1, 1, RAM - 4, 0, 0), L4);
    refused_whole(header(1, 1, RAM + PAGE, 0, 0), L4);
    refused_whole(header(1, 1, RAM, 0, 2), L4);
    refused_whole(header(1, 1, RAM, 65, 0), L5);
    refused_whole(header(1, 1, RAM, 64, 0), L8);
    cherisim_t m = CHERISIM_NONE;
    image_t last = header(1, 1, RAM + PAGE - 4, 0, 1), largest = header(1, 4096, RAM, 0, 0), none = header(2, 1, RAM, 0, 0);
    DONE(opened(&last, last.length, &m));
    ROW(equal(scr(&m, PCC), capability_mode_at(RAM + PAGE - 4)));
    DONE(opened(&largest, largest.length, &m));
    refused_whole(none, L8);
    put(&none, 0, 4);
    DONE(opened(&none, none.length, &m));
    cherisim_free(&m);
}

static void faulty_sections(void) {
    image_t below = header(1, 1, RAM, 1, 0), above = below, behind = below, over = header(1, 1, RAM, 2, 0);
    put_section(&below, RAM - 1, "ab", 2);
    refused_whole(below, L6);
    put_section(&above, RAM + PAGE - 1, "ab", 2);
    refused_whole(above, L6);
    put(&behind, RAM + 16, 8);
    put(&behind, UINT64_MAX, 8);
    refused_whole(behind, L6);
    put_section(&over, RAM + 16, "abcd", 4);
    put_section(&over, RAM + 19, "ef", 2);
    refused_whole(over, L7);
}

static void faulty_capabilities(void) {
    image_t many = header(2, 1, RAM, 0, 0), place = many, perms = many;
    put(&many, 1025, 4);
    refused_whole(many, L15);
    put(&place, 2, 4);
    put_cap(&place, RAM + 32, 0, 16, 0, 0);
    put_cap(&place, RAM + 32, 0, 16, 0, 0);
    refused_whole(place, L12);
    refused_whole(granting(0x80000108, 0x80001000, 0), L12);
    refused_whole(granting(RAM - 16, 0x80001000, 0), L12);
    refused_whole(granting(RAM + PAGE, 0x80001000, 0), L12);
    refused_whole(granting(0x80000100, 0x80001001, 0), L13);
    refused_whole(granting(0x80000100, UINT64_MAX, 0), L13);
    refused_whole(granting(0x80000100, 0x80001000, 2), L14);
    put(&perms, 1, 4);
    put_cap(&perms, RAM, 0, 16, 0x10000, 0);
    refused_whole(perms, L14);
}

/* The state in which an image begins */
static void opening(void) {
    cherisim_t m = CHERISIM_NONE;
    image_t image = first_image();
    cherisim_cap_t values[32];
    uint8_t queue[64];
    cherisim_console_t held = {1, true, true};
    uint64_t at = 0;
    uint32_t pages = 0;
    DONE(opened(&image, image.length, &m));
    ROW(m.at);
    DONE(cherisim_all_regs(&m, values));
    for (int n = 0; n < 32; n += 1) ROW(equal(values[n], number(0)) && equal(reg(&m, (uint8_t)n), number(0)));
    ROW(equal(scr(&m, PCC), root_at(RAM)) && equal(scr(&m, DDC), root_at(0)) && equal(scr(&m, MTCC), root_at(0)));
    ROW(equal(scr(&m, MEPCC), root_at(0)) && equal(scr(&m, MTDC), number(0)) && equal(scr(&m, MSCRATCHC), number(0)));
    for (size_t i = 0; i < COUNT_OF(csrs); i += 1)
        ROW(csr(&m, csrs[i]) == (csrs[i] == MSTATUS ? 0x1800 : csrs[i] == MISA ? 0x8000000000001100 : 0));
    ROW(timer(&m).mtime == 0 && timer(&m).mtimecmp == UINT64_MAX && !halted(&m).halted && halted(&m).number == 0);
    DONE(cherisim_console(&m, queue, &held));
    ROW(held.waiting == 0 && !held.overrun && !held.control);
    DONE(cherisim_pages(&m, &pages));
    ROW(pages == 1 && dword(&m, RAM) == 0x04100513100005b7 && dword(&m, RAM + 16) == 0x0005b023);
    for (uint64_t from = RAM + 24; from < RAM + PAGE; from += 8) ROW(dword(&m, from) == 0);
    ROW(cherisim_next_tagged(&m, 0, &at) == CHERISIM_RANGE);
    cherisim_free(&m);
}

static void opening_capability(void) {
    cherisim_t m = CHERISIM_NONE;
    image_t image = granting(0x80000100, 0x80001000, 0);
    uint64_t at = 0;
    DONE(opened(&image, image.length, &m));
    ROW(dword(&m, 0x80000100) == 0x80001000 && dword(&m, 0x80000108) == 0xffff000007fe5004);
    ROW(equal(cap_at(&m, 0x80000100), bounded(0x80001000, 4095)));
    DONE(cherisim_next_tagged(&m, 0, &at));
    ROW(at == 0x80000100 && cherisim_next_tagged(&m, at + 1, &at) == CHERISIM_RANGE);
    cherisim_free(&m);
}

/* a flat image is the image of version 2 with one section */
static void flat(void) {
    cherisim_t m = CHERISIM_NONE, other = CHERISIM_NONE;
    const uint8_t *bytes = (const uint8_t *)first_words;
    uint32_t pages = 0;
    image_t image = header(2, 3, RAM + 20, 1, 1);
    put_section(&image, RAM + 17, first_words, sizeof first_words);
    put(&image, 0, 4);
    DONE(opened(&image, image.length, &other));
    DONE(cherisim_new_flat(bytes, sizeof first_words, RAM + 17, RAM + 20, 3, true, &m));
    ROW(same(&m, &other));
    void *at = m.at;
    ROW(cherisim_new_flat(bytes, 20, RAM, RAM, 0, false, &m) == L4);
    ROW(cherisim_new_flat(bytes, 20, RAM, RAM, 65537, false, &m) == L4);
    ROW(cherisim_new_flat(bytes, 20, RAM, RAM + 2, 1, false, &m) == L4);
    ROW(cherisim_new_flat(bytes, 20, RAM, RAM + PAGE, 1, false, &m) == L4);
    ROW(cherisim_new_flat(bytes, 20, RAM - 4, RAM, 1, false, &m) == L6);
    ROW(cherisim_new_flat(bytes, 20, RAM + PAGE - 16, RAM, 1, false, &m) == L6);
    ROW(cherisim_new_flat(bytes, 20, UINT64_MAX, RAM, 1, false, &m) == L6);
    ROW(m.at == at && same(&m, &other));
    cherisim_free(&other);
    ROW(cherisim_new_flat(bytes, 20, RAM - 4, RAM, 1, false, &other) == L6 && !other.at);
    DONE(cherisim_new_flat(bytes, 0, RAM + PAGE, RAM, 1, false, &m));
    ROW(dword(&m, RAM) == 0);
    DONE(cherisim_new_flat(bytes, 20, RAM + 65535 * PAGE, RAM + 65535 * PAGE, 65536, false, &m));
    DONE(cherisim_pages(&m, &pages));
    ROW(pages == 65536 && dword(&m, RAM + 65535 * PAGE) == 0x04100513100005b7);
    cherisim_free(&m);
}

static void faulty_text(const char *text, cherisim_status status, uint64_t at_line) {
    cherisim_t none = CHERISIM_NONE, m = CHERISIM_NONE, before = CHERISIM_NONE;
    uint64_t line = 99;
    ROW(cherisim_assemble((const uint8_t *)text, strlen(text), &none, &line) == status && line == at_line && !none.at);
    of_text(&m, "li a0, 7\n");
    steps(&m, 1);
    DONE(cherisim_copy(&m, &before));
    line = 99;
    ROW(cherisim_assemble((const uint8_t *)text, strlen(text), &m, &line) == status && line == at_line && same(&m, &before));
    cherisim_free(&m);
    cherisim_free(&before);
}

static void texts(void) {
    char long_line[257];
    cherisim_t m = CHERISIM_NONE, other = CHERISIM_NONE;
    image_t image = first_image();
    memset(long_line, ' ', 256);
    long_line[256] = 0;
    faulty_text("nop\nnop\nfoo a0\n", A1, 3);
    faulty_text("ld a0", A2, 1);
    faulty_text("nop\naddi a0, a0, 4096\nfoo", A3, 2);
    faulty_text("x:\nnop\nx: nop\n", A4, 3);
    faulty_text("j nowhere", A5, 1);
    faulty_text("nop\nbeq zero, zero, 0x90000000", A6, 2);
    faulty_text(".zero 5000", A7, 1);
    faulty_text("nop\n# \x80\n", A8, 2);
    faulty_text(long_line, A9, 1);
    faulty_text(".cap 0x80001001, 4096, 0, 0", A11, 1);
    DONE(opened(&image, image.length, &other));
    of_text(&m, "lui a1, 0x10000\nli a0, 65\nsb a0, 0(a1)\nlui a1, 0x100\nsd zero, 0(a1)\n");
    ROW(same(&m, &other));
    of_text(&m, "cincoffset ca0, ca0, a1\n");
    ROW(dword(&m, RAM) == 0x22b5055b);
    of_text(&m, ".mode 1\n.org 0x80000100\n.cap 0x80001000, 4095, 65535, 0");
    ROW(equal(cap_at(&m, 0x80000100), bounded(0x80001000, 4095)) && equal(scr(&m, PCC), capability_mode_at(RAM)));
    of_text(&m, "");
    ROW(dword(&m, RAM) == 0 && pc(&m) == RAM);
    cherisim_free(&m);
    cherisim_free(&other);
}

/* a handle without a machine: each call says so, and writes nothing */
static void asked_without_machine(void) {
    cherisim_t m = CHERISIM_NONE;
    cherisim_status none = CHERISIM_NO_MACHINE;
    cherisim_cap_t cap = root_at(5), values[32] = {root_at(6)};
    cherisim_halted_t halt = {true, 11};
    cherisim_timer_t time = {12, 13};
    cherisim_console_t held = {14, true, true};
    uint8_t bytes[64] = {15};
    uint64_t n = 16;
    uint32_t pages = 17, end = 18;
    size_t length = 19, count = 20;
    cherisim_member_t member = {root_at(7), 21, 22, 23};
    cherisim_answer_t answer = {24, true};
    cherisim_door_t door = {25, 26, 27, 28};
    cherisim_question_t question = {RAM, 1, CHERISIM_MAY_STORE, 0, true}, unknown = {0, 0, 10, 0, false};
    ROW(cherisim_reg(&m, 1, &cap) == none && cherisim_all_regs(&m, values) == none && cherisim_scr(&m, PCC, &cap) == none);
    ROW(cherisim_csr(&m, MIE, &n) == none && cherisim_pages(&m, &pages) == none && cherisim_read(&m, RAM, bytes, 4) == none);
    ROW(cherisim_read_cap(&m, RAM, &cap) == none && cherisim_next_tagged(&m, 0, &n) == none && cherisim_halted(&m, &halt) == none);
    ROW(cherisim_timer(&m, &time) == none && cherisim_console(&m, bytes, &held) == none && cherisim_next_ends(&m, &end) == none);
    ROW(cherisim_why(&m, bytes, 64, &length) == none && cherisim_reach(&m, &member, 1, &count) == none);
    ROW(cherisim_may_store(&m, RAM, 1, &answer) == none && cherisim_may_load(&m, RAM, 1, &answer) == none);
    ROW(cherisim_may_execute(&m, RAM, 1, &answer) == none && cherisim_may_learn(&m, RAM, 1, &answer) == none);
    ROW(cherisim_may_send(&m, &answer) == none && cherisim_may_halt(&m, &answer) == none && cherisim_may_system(&m, &answer) == none);
    ROW(cherisim_may_timer(&m, &answer) == none && cherisim_may_hold(&m, 1, &answer) == none && answer.member == 24 && answer.may);
    ROW(cherisim_reach_through_doors(&m, &member, 1, &count) == none && cherisim_doors(&m, &door, 1, &count) == none);
    ROW(cherisim_may(&m, &question, &answer) == none && cherisim_may(&m, &unknown, &answer) == none && answer.member == 24 && answer.may);
    ROW(door.sealed == 25 && door.key == 26 && door.sealed_kind == 27 && door.key_kind == 28);
    ROW(equal(member.value, root_at(7)) && member.place == 21 && member.from == 22 && member.kind == 23 && count == 20);
    ROW(equal(cap, root_at(5)) && equal(values[0], root_at(6)) && halt.halted && halt.number == 11 && time.mtime == 12);
    ROW(time.mtimecmp == 13 && held.waiting == 14 && held.overrun && held.control && bytes[0] == 15 && n == 16 && pages == 17);
    cherisim_timetable_t timetable = {1, 1, 1};
    ROW(cherisim_trace(&m, bytes, 0, 1, bytes, 64, &length, &n) == none && bytes[0] == 15 && n == 16);
    ROW(cherisim_audit(&m, bytes, 0, bytes, 0, &timetable, bytes, 0, bytes, 64, &length, &n) == none && bytes[0] == 15 && n == 16);
    bool shown = true;
    ROW(cherisim_prove(&m, bytes, 0, bytes, 0, 1, &shown, bytes, 64, &length, &n) == none && shown && bytes[0] == 15 && n == 16);
    ROW(end == 18 && length == 19 && !m.at);
}

static void done_without_machine(void) {
    cherisim_t m = CHERISIM_NONE, to = CHERISIM_NONE;
    cherisim_status none = CHERISIM_NO_MACHINE;
    cherisim_sent_t sent = {true, 7};
    cherisim_asked_t asked = {1, 0, 0, 0, false, false, false};
    cherisim_ran_t ran = {8, 9, 10};
    uint8_t bytes[64] = {15};
    ROW(cherisim_step(&m, &sent) == none && cherisim_tick(&m) == none && cherisim_receive(&m, 65) == none);
    ROW(cherisim_run(&m, &asked, bytes, 64, &ran) == none && cherisim_copy(&m, &to) == none && !to.at);
    ROW(cherisim_set_reg(&m, 1, number(2)) == none && cherisim_set_scr(&m, DDC, number(2)) == none);
    ROW(cherisim_set_csr(&m, MIE, 0) == none && cherisim_write(&m, RAM, bytes, 4) == none);
    ROW(cherisim_write_cap(&m, RAM, number(2)) == none && !m.at && sent.sends && sent.byte == 7);
    ROW(ran.steps == 8 && ran.sent == 9 && ran.stop == 10 && bytes[0] == 15);
    of_text(&to, "li a0, 9\n");
    steps(&to, 1);
    ROW(cherisim_copy(&m, &to) == none && x(&to, A0) == 9);
    cherisim_free(&to);
    ROW(!to.at && cherisim_tick(&to) == none);
    cherisim_free(&to);
    cherisim_free(&m);
}

static void copies(void) {
    cherisim_t m = CHERISIM_NONE, copy = CHERISIM_NONE, later = CHERISIM_NONE;
    image_t image = granting(0x80000100, 0x80001000, 0);
    DONE(opened(&image, image.length, &m));
    DONE(cherisim_write(&m, RAM, (const uint8_t *)first_words, sizeof first_words));
    DONE(cherisim_receive(&m, 66));
    DONE(cherisim_tick(&m));
    steps(&m, 2);
    DONE(cherisim_copy(&m, &copy));
    ROW(copy.at != m.at && same(&m, &copy));
    steps(&m, 3);
    ROW(halted(&m).halted && !halted(&copy).halted && pc(&copy) == RAM + 8 && csr(&copy, MINSTRET) == 2 && x(&copy, A0) == 65);
    DONE(cherisim_write(&m, 0x80000100, (const uint8_t *)"x", 1));
    ROW(!cap_at(&m, 0x80000100).tag && equal(cap_at(&copy, 0x80000100), bounded(0x80001000, 4095)));
    DONE(cherisim_copy(&copy, &later));
    cherisim_sent_t sent = {false, 0};
    DONE(cherisim_step(&copy, &sent));
    ROW(sent.sends && sent.byte == 65);
    cherisim_free(&copy);
    DONE(cherisim_copy(&later, &m));
    steps(&later, 3);
    ROW(halted(&later).halted && !halted(&m).halted && pc(&m) == RAM + 8 && timer(&m).mtime == 1);
    cherisim_free(&later);
    steps(&m, 3);
    ROW(halted(&m).halted);
    cherisim_free(&m);
}

int main(void) {
    ROW(cherisim_version() == 1);
    truncated_images();
    faulty_headers();
    faulty_sections();
    faulty_capabilities();
    opening();
    opening_capability();
    flat();
    texts();
    asked_without_machine();
    done_without_machine();
    copies();
    printf("%lu rows, %lu wrong\n", tried, wrong);
    return wrong != 0;
}
