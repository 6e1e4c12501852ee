/* libcheri-caps: the capability arithmetic of CHERI-RISC-V (128-bit CHERI Concentrate, UCAM-CL-TR-987), proved.
 *
 * Each function below has a contract that the library's code is proved to meet; it stands here in words. Every function is total and
 * returns; none takes memory, locks, keeps state or can fail. What C owes: a pointer points to what its type says and to nothing
 * else that the call is given, and none is null; a tagged cheri_cap_t comes from this library (cheri_cap() tests a word of your own). */
#ifndef CHERI_CAPS_H
#define CHERI_CAPS_H
#include <stdbool.h>
#include <stddef.h>
#include <stdint.h>
#ifdef __cplusplus
extern "C" {
#endif

/* The 128 bits of a capability in logical form: bits 63 to 0 are the address; above it stand the mantissas of base and top, the
 * internal exponent bit, the object type, the flag and the permissions. */
typedef struct { uint64_t address, upper; } cheri_word_t;
/* high * 2^64 + low */
typedef struct { uint64_t low, high; } cheri_number_t;
/* A capability, where the tag is set, or 128 bits of data. */
typedef struct { uint64_t address, upper; bool tag; } cheri_cap_t;
/* Bounds and fields in the plain: the bounds hold the addresses from base on and below top, which has 65 bits. perms has the hardware
 * permissions at bits 0 to 11 and the user permissions at bits 12 to 15; otype is below 2^18, and 0x3ffff where the capability is
 * unsealed. */
typedef struct { uint64_t base, top_low, top_high, address; uint32_t otype; uint16_t perms; bool flag; } cheri_fields_t;

/* The capability of a word and a tag: tagged exactly where `tag` is true and the word may be tagged. */
cheri_cap_t cheri_cap(cheri_word_t word, bool tag);
/* Whether a word may be tagged: its bounds are a capability's, and it is the canonical encoding of what it decodes to. */
bool cheri_is_well_formed(cheri_word_t word);

/* What a word says, tagged or not, malformed or not. */
uint64_t cheri_base(cheri_word_t word);
cheri_number_t cheri_top(cheri_word_t word);
uint16_t cheri_perms(cheri_word_t word);
uint32_t cheri_otype(cheri_word_t word);
bool cheri_flag(cheri_word_t word);
void cheri_decompress(cheri_word_t word, cheri_fields_t *fields);
/* The capability with these bounds and fields: false, and nothing is written, where no word has them. */
bool cheri_compress(const cheri_fields_t *fields, cheri_cap_t *cap);

/* Whether a word's bounds stay with this address in place of its own. */
bool cheri_is_representable(cheri_word_t word, uint64_t address);
/* The capability with this address. It keeps its tag exactly where it is unsealed and its bounds stay. */
cheri_cap_t cheri_set_address(cheri_cap_t cap, uint64_t address);
/* The capability with the bounds of `length` bytes from its address, rounded out to what a word can say; *exact: whether rounding
 * changed nothing, also of a request that ends above 2^64 and so takes the tag. It keeps its tag exactly where it is unsealed and its
 * bounds hold what was asked for. */
cheri_cap_t cheri_set_bounds(cheri_cap_t cap, uint64_t length, bool *exact);
/* Whether bounds can be exactly the `length` bytes from `base`: they end at 2^64 or before, since no capability's end above it, and
 * rounding them out changes nothing. */
bool cheri_is_exact(uint64_t base, uint64_t length);
/* A length rounded up to one that an aligned base can have, modulo 2^64 (CRRL), and the mask that aligns the base for it (CRAM). */
uint64_t cheri_representable_length(uint64_t length);
uint64_t cheri_alignment_mask(uint64_t length);

/* A word and its 16 bytes in memory, the lowest first. */
cheri_word_t cheri_from_memory(const uint8_t bytes[16]);
void cheri_to_memory(cheri_word_t word, uint8_t bytes[16]);

/* An instruction: its row's place in the table of instructions, from 0 on, the numbers of its registers, and its immediate,
 * sign-extended modulo 2^64, or unsigned where the instruction says so. Operands that a row has not are 0. */
typedef struct { uint64_t imm; uint16_t row; uint8_t rd, rs1, rs2; } cheri_insn_t;
/* The instruction that a word is, and the word of an instruction: false, and nothing is written, where there is none. */
bool cheri_decode(uint32_t word, cheri_insn_t *insn);
bool cheri_encode(const cheri_insn_t *insn, uint32_t *word);
/* The text of an instruction word, in capability mode or in integer mode: how many bytes of `text` it has, at most 64. No 0 ends it. */
size_t cheri_disassemble(uint32_t word, bool capability_mode, char text[64]);
/* The value of an instruction over capabilities that touches neither memory nor special registers and does not jump (28 rows, from
 * CGetPerm to CSealEntry), with what its registers rs1 and rs2 hold and the default data capability: false, and nothing is written,
 * of any other word. */
bool cheri_execute(uint32_t word, cheri_cap_t cs1, cheri_cap_t cs2, cheri_cap_t ddc, cheri_cap_t *value);

#ifdef __cplusplus
}
#endif
#endif
