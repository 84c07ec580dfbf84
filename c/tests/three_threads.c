// The script three_threads of the corpus, with threads of C: each is a state machine that is polled when it is its turn. Writes the trace.
#include "../loqzemar.h"

#include <stdio.h>
#include <string.h>

enum { MAIN, WORKER };

typedef struct {
    uint32_t procedure;
    int step;
} thread;

static loq_call_t main_call(int step, uint64_t me, const char **text) {
    switch (step) {
    case 0: return (loq_call_t){.kind = LOQ_CREATE, .number = WORKER, .prio = 1};
    case 1: return (loq_call_t){.kind = LOQ_CREATE, .number = WORKER, .prio = 2};
    case 2: *text = "both are there"; return (loq_call_t){.kind = LOQ_SAY};
    case 3: return (loq_call_t){.kind = LOQ_YIELD, .target = me};
    default: return (loq_call_t){.kind = LOQ_RETURN};
    }
}

static loq_call_t worker_call(int step, uint64_t me, const char **text) {
    switch (step) {
    case 0: *text = "hi"; return (loq_call_t){.kind = LOQ_SAY};
    case 1: return (loq_call_t){.kind = LOQ_YIELD, .target = me};
    case 2: *text = "bye"; return (loq_call_t){.kind = LOQ_SAY};
    default: return (loq_call_t){.kind = LOQ_RETURN};
    }
}

// The next call of a thread, and its text.
static loq_call_t poll_thread(thread *t, uint64_t me, const char **text) {
    *text = "";
    int step = t->step++;
    return t->procedure == MAIN ? main_call(step, me, text) : worker_call(step, me, text);
}

static int run(loq_pod *pod) {
    static thread threads[16];
    static uint8_t lines[1 << 16];
    uint64_t me;
    while (loq_current(pod, &me) == LOQ_DONE) {
        const char *text;
        loq_call_t call = poll_thread(&threads[me], me, &text);
        if (loq_call(pod, &call, (const uint8_t *)text, strlen(text)) != LOQ_DONE) return 1;
        size_t len;
        if (loq_lines(pod, lines, sizeof lines, &len) != LOQ_DONE) return 1;
        fwrite(lines, 1, len, stdout);
        loq_effect_t effect;
        uint8_t told[LOQ_TEXT_MAX];
        uint64_t ids[16];
        uint32_t status;
        for (size_t i = 0; (status = loq_effect(pod, i, &effect, told, sizeof told, ids, 16)) == LOQ_DONE; i++)
            if (effect.kind == LOQ_ANSWERED && effect.answer == LOQ_THREAD)
                threads[effect.id] = (thread){.procedure = call.number, .step = 0};
        if (status != LOQ_NO_EFFECT) return 1; // LOQ_TOO_SMALL is not the end; no call here is answered by a list
    }
    uint32_t why, status;
    if (loq_ending(pod, &why, &status) != LOQ_DONE || why != 1) return 2;
    return (int)status;
}

int main(void) {
    loq_pod pod = LOQ_EMPTY;
    if (loq_pod_new(&pod, 2, UINT32_MAX, 2) != LOQ_DONE) return 1;
    if (loq_name(&pod, (const uint8_t *)"main", 4) != LOQ_DONE) return 1;
    if (loq_name(&pod, (const uint8_t *)"worker", 6) != LOQ_DONE) return 1;
    int status = run(&pod);
    loq_pod_free(&pod);
    return status;
}
