/* Tries libcherisim with many threads, each with machines of its own: for the thread sanitizer, and alone. Ends with 0 where every machine
 * halted with its own number. */
#include "cherisim.h"
#include <pthread.h>
#include <stdio.h>
#include <string.h>

enum { THREADS = 8, ROUNDS = 200 };
typedef struct { pthread_t thread; uint64_t number, wrong; } worker_t;

/* a program that halts with the sum of the numbers up to a number, and sends a byte for each */
static size_t program(char *text, size_t room, uint64_t number) {
    return (size_t)snprintf(text, room, "lui a2, 0x10000\nli a1, %u\nloop: add a0, a0, a1\nsb a1, 0(a2)\naddi a1, a1, -1\n"
                                        "bne a1, zero, loop\nlui a2, 0x100\nsd a0, 0(a2)\n", (unsigned)number);
}

static bool is_right(uint64_t number) {
    cherisim_t m = CHERISIM_NONE, copy = CHERISIM_NONE;
    cherisim_asked_t asked = {2 * number, 0, 0, 0, false, false, false};
    cherisim_ran_t ran;
    cherisim_halted_t halted = {false, 0};
    cherisim_cap_t cap;
    uint8_t sent[1024], why[2048];
    char text[256];
    uint64_t line;
    size_t length = program(text, sizeof text, number), said;
    bool good = !cherisim_assemble((const uint8_t *)text, length, &m, &line) && !cherisim_run(&m, &asked, sent, sizeof sent, &ran);
    good = good && !cherisim_why(&m, why, sizeof why, &said) && !cherisim_copy(&m, &copy) && !cherisim_reg(&m, 10, &cap);
    cherisim_free(&m);
    asked.steps = 10000;
    good = good && !cherisim_run(&copy, &asked, sent, sizeof sent, &ran) && !cherisim_halted(&copy, &halted);
    cherisim_free(&copy);
    return good && halted.halted && halted.number == number * (number + 1) / 2;
}

static void *work(void *given) {
    worker_t *worker = given;
    for (uint64_t round = 0; round < ROUNDS; round += 1) worker->wrong += !is_right(worker->number + round);
    return NULL;
}

int main(void) {
    worker_t workers[THREADS] = {{0}};
    uint64_t wrong = 0;
    for (uint64_t i = 0; i < THREADS; i += 1) {
        workers[i].number = 10 + 100 * i;
        if (pthread_create(&workers[i].thread, NULL, work, &workers[i])) return 2;
    }
    for (int i = 0; i < THREADS; i += 1) {
        pthread_join(workers[i].thread, NULL);
        wrong += workers[i].wrong;
    }
    printf("%d threads, %d machines each, %lu wrong\n", THREADS, 2 * ROUNDS, (unsigned long)wrong);
    return wrong != 0;
}
