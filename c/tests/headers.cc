// Both headers in C++, over the shared library: a program halts with 0 and has sent `A`.
#include "cherisim.h"
#include "cheri_caps.h"
#include <cstdio>
#include <cstring>

int main() {
    static const char text[] = "lui a1, 0x10000\nli a0, 65\nsb a0, 0(a1)\nlui a1, 0x100\nsd zero, 0(a1)\n";
    cherisim_t machine = CHERISIM_NONE;
    cherisim_asked_t asked = {};
    cherisim_ran_t ran = {};
    cherisim_halted_t halted = {};
    uint8_t sent[8];
    uint64_t line = 0;
    asked.steps = 1000;
    bool good = cherisim_assemble(reinterpret_cast<const uint8_t *>(text), std::strlen(text), &machine, &line) == CHERISIM_OK
        && cherisim_run(&machine, &asked, sent, sizeof sent, &ran) == CHERISIM_OK
        && cherisim_halted(&machine, &halted) == CHERISIM_OK;
    cherisim_free(&machine);
    good = good && halted.halted && halted.number == 0 && ran.sent == 1 && sent[0] == 'A' && ran.stop == CHERISIM_HALTED;
    good = good && cheri_representable_length(8191) == 8192 && cherisim_version() == 1;
    std::puts(good ? "as expected" : "not as expected");
    return good ? 0 : 1;
}
