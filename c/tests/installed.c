/* A program over what is installed: one machine, made of a text, does a step. */
#include <cheri_caps.h>
#include <cherisim.h>
#include <stdio.h>
#include <string.h>

int main(void) {
    static const char text[] = "li a0, 42";
    cherisim_t machine = CHERISIM_NONE;
    cherisim_sent_t sent;
    cheri_cap_t a0;
    uint64_t line;
    if (cherisim_assemble((const uint8_t *)text, strlen(text), &machine, &line) != CHERISIM_OK
        || cherisim_step(&machine, &sent) != CHERISIM_OK || cherisim_reg(&machine, 10, &a0) != CHERISIM_OK) {
        return 1;
    }
    cherisim_free(&machine);
    printf("a0 holds %d\n", (int)a0.address);
    return a0.address != 42;
}
