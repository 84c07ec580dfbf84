// What a turn costs: two threads that yield to each other, as threads of a pod, N turns.
//
//     turns N
#include "../loqzemar.h"

#include <stdio.h>
#include <stdlib.h>

enum { MAIN, WORKER };

int main(int argc, char **argv) {
    unsigned long turns = argc > 1 ? strtoul(argv[1], NULL, 10) : 1000000;
    loq_pod pod = LOQ_EMPTY;
    if (loq_pod_new(&pod, 1, UINT32_MAX, 2) != LOQ_DONE) return 1;
    const loq_call_t create = {.kind = LOQ_CREATE, .number = WORKER, .prio = 1};
    loq_call_t yield = {.kind = LOQ_YIELD};
    uint8_t text[LOQ_TEXT_MAX];
    uint64_t ids[1], answers = 0;
    loq_effect_t effect;
    for (unsigned long turn = 0; turn <= turns; turn++) {
        if (loq_current(&pod, &yield.target) != LOQ_DONE) return 2;
        if (loq_call(&pod, turn == 0 ? &create : &yield, (const uint8_t *)"", 0) != LOQ_DONE) return 3;
        size_t count = 0;
        if (loq_effects(&pod, &count) != LOQ_DONE) return 4;
        for (size_t i = 0; i < count; i++) {
            if (loq_effect(&pod, i, &effect, text, sizeof text, ids, 1) != LOQ_DONE) return 5;
            answers += effect.kind == LOQ_ANSWERED;
        }
    }
    loq_pod_free(&pod);
    printf("%lu turns, %llu answers\n", turns, (unsigned long long)answers);
    return 0;
}
