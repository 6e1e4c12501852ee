/* The formulas of 128-bit CHERI Concentrate as they are printed (UCAM-CL-TR-987, CHERI Concentrate: decoding, encoding, set bounds),
 * plain and slow, for the tests to compare with. Written from the text alone: nothing here comes from the library. */
#ifndef FORMULAS_H
#define FORMULAS_H
#include <stdbool.h>
#include <stdint.h>

typedef unsigned __int128 u128;

static const uint64_t NULL_UPPER = 0x1ffffc018004u;
static const u128 ALL = (u128)1 << 64;

/* a capability's bounds and fields; top has 65 bits */
struct record { u128 base, top; uint64_t address; unsigned perms, otype; bool flag; };
struct request { u128 base, top; unsigned e; bool internal; };

static u128 power(unsigned e) { return (u128)1 << e; }
static u128 whole(u128 n, u128 granule) { return (n + granule - 1) / granule; }

/* exponent and mantissas */
struct parts { unsigned e; uint64_t b, t; bool internal; };
static struct parts parts_of(uint64_t upper) {
    struct parts p;
    uint64_t t = upper >> 14 & 0xfff, b = upper & 0x3fff;
    p.internal = upper >> 26 & 1;
    p.e = 0;
    if (p.internal) {
        p.e = (unsigned)(t % 8 * 8 + b % 8);
        if (p.e > 52) p.e = 52;
        t = t / 8 * 8;
        b = b / 8 * 8;
    }
    p.b = b;
    p.t = (b / 4096 + (t < b % 4096 ? 1 : 0) + (p.internal ? 1 : 0)) % 4 * 4096 + t;
    return p;
}

/* the bounds of any word */
static void bounds_of(uint64_t address, uint64_t upper, u128 *base, u128 *top) {
    struct parts p = parts_of(upper);
    unsigned edge = (unsigned)((p.b / 2048 + 7) % 8);
    int address_high = (address >> p.e) / 2048 % 8 < edge, base_high = p.b / 2048 < edge, top_high = p.t / 2048 < edge;
    /* one block more, so that a correction of -1 stays above 0 */
    u128 block = power(p.e + 14), blocks = address / block * block + power(66);
    u128 corrected_base = blocks + (u128)base_high * block - (u128)address_high * block + p.b * power(p.e);
    u128 corrected_top = blocks + (u128)top_high * block - (u128)address_high * block + p.t * power(p.e);
    *base = corrected_base % ALL;
    *top = corrected_top % (2 * ALL);
    if (p.e < 51 && ((unsigned)(*top / power(63)) + 4 - (unsigned)(*base / power(63))) % 4 > 1) *top = (*top + ALL) % (2 * ALL);
}

static struct record record_of(uint64_t address, uint64_t upper) {
    struct record r = {0};
    bounds_of(address, upper, &r.base, &r.top);
    r.address = address;
    r.perms = (unsigned)(upper >> 48);
    r.flag = upper >> 45 & 1;
    r.otype = (unsigned)(upper >> 27 & 0x3ffff);
    return r;
}

/* the canonical word of bounds at an exponent: its upper half */
static uint64_t upper_of(const struct record *r, unsigned e, bool internal) {
    uint64_t b = (uint64_t)(r->base / power(e) % 16384), t = (uint64_t)(r->top / power(e) % 4096);
    if (internal) {
        b = b / 8 * 8 + e % 8;
        t = t / 8 * 8 + e / 8;
    }
    return (uint64_t)r->perms << 48 | (uint64_t)r->flag << 45 | (uint64_t)r->otype << 27 | (uint64_t)internal << 26 | t << 14 | b;
}

/* the exponent of a capability's length */
static unsigned exponent_of(u128 length) {
    unsigned e = 0;
    while (e < 52 && length >= power(e + 13)) e += 1;
    return e;
}

/* Whether a capability with these bounds has a word. Its address lies in the window that its bounds are read in: where the canonical
 * word says the same bounds. */
static bool has_word(const struct record *r) {
    if (r->base > r->top || r->top > ALL || r->base >= ALL || r->otype >= 1u << 18 || r->perms >= 1u << 16) return false;
    u128 length = r->top - r->base, base, top;
    unsigned e = exponent_of(length);
    if (length >= 4096 && (r->base % power(e + 3) || r->top % power(e + 3))) return false;
    bounds_of(r->address, upper_of(r, e, length >= 4096), &base, &top);
    return base == r->base && top == r->top;
}

static bool may_be_tagged(uint64_t address, uint64_t upper) {
    struct record r = record_of(address, upper);
    return has_word(&r) && upper_of(&r, exponent_of(r.top - r.base), r.top - r.base >= 4096) == upper;
}

/* a request rounded out, at the least exponent that serves */
static struct request rounded(uint64_t address, uint64_t length) {
    struct request q = {address, (u128)address + length, 0, length >= 4096};
    if (!q.internal) return q;
    while (whole(q.top, power(q.e + 3)) - q.base / power(q.e + 3) >= 1024) q.e += 1;
    q.base = q.base / power(q.e + 3) * power(q.e + 3);
    q.top = whole(q.top, power(q.e + 3)) * power(q.e + 3);
    return q;
}
#endif
