// A producer and a consumer with a buffer of three places, a monitor and two conditions. Writes the trace, the same on every run.
//
//     bounded_buffer ITEMS
#include "../loqzemar.h"

#include <stdio.h>
#include <stdlib.h>

enum { MAIN, PRODUCER, CONSUMER };
enum { PLACES = 3 };

typedef struct {
    int procedure, step;
} thread;

static thread threads[3] = {{.procedure = MAIN}};
static uint64_t monitor, not_full, not_empty, producer, consumer;
static int items, made, used, count;

// The main thread makes the monitor, its conditions and the two others, and waits for the consumer.
static loq_call_t poll_main(thread *t) {
    switch (t->step++) {
    case 0: return (loq_call_t){.kind = LOQ_MON_CREATE};
    case 1: return (loq_call_t){.kind = LOQ_CV_CREATE, .target = monitor};
    case 2: return (loq_call_t){.kind = LOQ_CV_CREATE, .target = monitor};
    case 3: return (loq_call_t){.kind = LOQ_CREATE, .number = PRODUCER, .prio = 1};
    case 4: return (loq_call_t){.kind = LOQ_CREATE, .number = CONSUMER, .prio = 1};
    case 5: return (loq_call_t){.kind = LOQ_JOIN, .target = consumer};
    default: return (loq_call_t){.kind = LOQ_RETURN};
    }
}

// Enters, waits while there is nothing to do, does it, notifies the other side and leaves.
static loq_call_t poll_worker(thread *t, int *done, bool blocked, int change, uint64_t mine, uint64_t others) {
    switch (t->step) {
    case 0:
        if (*done == items) return (loq_call_t){.kind = LOQ_RETURN};
        t->step = 1;
        return (loq_call_t){.kind = LOQ_MON_ENTER, .target = monitor};
    case 1:
        if (blocked) return (loq_call_t){.kind = LOQ_CV_WAIT, .target = mine};
        ++*done;
        count += change;
        t->step = 2;
        return (loq_call_t){.kind = LOQ_CV_NOTIFY, .target = others};
    default:
        t->step = 0;
        return (loq_call_t){.kind = LOQ_MON_EXIT, .target = monitor};
    }
}

static loq_call_t poll_thread(thread *t) {
    if (t->procedure == MAIN) return poll_main(t);
    if (t->procedure == PRODUCER) return poll_worker(t, &made, count == PLACES, 1, not_full, not_empty);
    return poll_worker(t, &used, count == 0, -1, not_empty, not_full);
}

// The effect at this place, and whether there is one. A list that is longer than the buffer gets a larger one, and is asked for again.
static bool effect_at(loq_pod *pod, size_t at, loq_effect_t *effect, uint8_t text[LOQ_TEXT_MAX]) {
    static uint64_t few[4], *ids = few;
    static size_t room = 4;
    uint32_t status;
    while ((status = loq_effect(pod, at, effect, text, LOQ_TEXT_MAX, ids, room)) == LOQ_TOO_SMALL) {
        uint64_t *more = malloc(effect->ids_len * sizeof *more);
        if (!more) exit(1);
        if (ids != few) free(ids);
        ids = more;
        room = effect->ids_len;
    }
    return status == LOQ_DONE;
}

// The answers that name what was made.
static void hear(loq_pod *pod, const loq_call_t *call) {
    loq_effect_t e;
    uint8_t text[LOQ_TEXT_MAX];
    for (size_t i = 0; effect_at(pod, i, &e, text); i++) {
        if (e.kind != LOQ_ANSWERED) continue;
        if (e.answer == LOQ_MONITOR) monitor = e.id;
        if (e.answer == LOQ_CONDITION) *(not_full == 0 ? &not_full : &not_empty) = e.id;
        if (e.answer != LOQ_THREAD || call->kind != LOQ_CREATE) continue;
        *(call->number == PRODUCER ? &producer : &consumer) = e.id;
        threads[e.id] = (thread){.procedure = (int)call->number};
    }
}

int main(int argc, char **argv) {
    items = argc > 1 ? atoi(argv[1]) : 5;
    loq_pod pod = LOQ_EMPTY;
    if (loq_pod_new(&pod, 1, UINT32_MAX, 3) != LOQ_DONE) return 1;
    loq_name(&pod, (const uint8_t *)"main", 4);
    loq_name(&pod, (const uint8_t *)"producer", 8);
    loq_name(&pod, (const uint8_t *)"consumer", 8);
    uint64_t me;
    while (loq_current(&pod, &me) == LOQ_DONE) {
        loq_call_t call = poll_thread(&threads[me]);
        static uint8_t lines[1 << 16];
        size_t len;
        if (loq_call(&pod, &call, (const uint8_t *)"", 0) != LOQ_DONE) return 1;
        hear(&pod, &call);
        if (loq_lines(&pod, lines, sizeof lines, &len) != LOQ_DONE) return 1;
        fwrite(lines, 1, len, stdout);
    }
    uint32_t why, status;
    if (loq_ending(&pod, &why, &status) != LOQ_DONE) return 1;
    loq_pod_free(&pod);
    return why == 1 ? (int)status : 4;
}
