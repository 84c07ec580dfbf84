// Everything that a C program may do wrong and is told of, and memory that is refused at each allocation in turn.
//
// Linked with -Wl,--wrap=malloc,--wrap=realloc; run under valgrind it must lose nothing.
#include "../loqzemar.h"

#include <stdio.h>
#include <stdlib.h>
#include <string.h>

// So many allocations are granted before one is refused; -1 grants all.
static long granted = -1;
static long refused;

void *__real_malloc(size_t n);
void *__real_realloc(void *p, size_t n);

static bool refuses(void) {
    if (granted == 0) {
        refused++;
        return true;
    }
    if (granted > 0) granted--;
    return false;
}

void *__wrap_malloc(size_t n) { return refuses() ? NULL : __real_malloc(n); }
void *__wrap_realloc(void *p, size_t n) { return refuses() ? NULL : __real_realloc(p, n); }

static int failures;

#define CHECK(fact)                                                          \
    do {                                                                     \
        if (!(fact)) {                                                       \
            printf("%s:%d: not so: %s\n", __FILE__, __LINE__, #fact);        \
            failures++;                                                      \
        }                                                                    \
    } while (0)

static uint32_t call(loq_pod *pod, loq_call_t what, const char *text) {
    return loq_call(pod, &what, (const uint8_t *)text, strlen(text));
}

static uint32_t deliver(loq_pod *pod, uint8_t event, const char *text) {
    return loq_deliver(pod, event, 0, 0, (const uint8_t *)text, strlen(text));
}

static uint32_t name(loq_pod *pod, const char *text) { return loq_name(pod, (const uint8_t *)text, strlen(text)); }

static loq_effect_t effect_at(loq_pod *pod, size_t at) {
    uint8_t text[LOQ_TEXT_MAX];
    uint64_t ids[8];
    loq_effect_t effect;
    CHECK(loq_effect(pod, at, &effect, text, sizeof text, ids, 8) == LOQ_DONE);
    return effect;
}

// A handle that holds no pod answers so to everything, and nothing is written.
static void on_no_pod(loq_pod *pod) {
    uint64_t tid = 5, ids[1] = {6};
    uint32_t why = 7, status = 8;
    bool armed = true;
    size_t count = 9;
    uint8_t text[1] = {10};
    loq_effect_t effect;
    CHECK(loq_current(pod, &tid) == LOQ_NO_POD && tid == 5);
    CHECK(loq_ending(pod, &why, &status) == LOQ_NO_POD && why == 7 && status == 8);
    CHECK(loq_armed(pod, 3, &armed) == LOQ_NO_POD && armed);
    CHECK(call(pod, (loq_call_t){.kind = LOQ_ME}, "") == LOQ_NO_POD);
    CHECK(deliver(pod, 3, "") == LOQ_NO_POD);
    CHECK(loq_effects(pod, &count) == LOQ_NO_POD && count == 9);
    CHECK(loq_effect(pod, 0, &effect, text, 1, ids, 1) == LOQ_NO_POD);
    CHECK(effect.kind == UINT32_MAX && text[0] == 10 && ids[0] == 6);
    CHECK(name(pod, "main") == LOQ_NO_POD);
    CHECK(loq_lines(pod, text, 1, &count) == LOQ_NO_POD && count == 9 && text[0] == 10);
    CHECK(loq_state(pod, text, 1, &count) == LOQ_NO_POD && count == 9 && text[0] == 10);
    size_t at = 11, line = 12;
    CHECK(loq_follow(pod, text, 1, &at, &line) == LOQ_NO_POD && at == 11 && line == 12);
    loq_pod_free(pod);
}

static void bad_numbers(loq_pod *pod) {
    CHECK(loq_pod_new(pod, 0, 1, 1) == LOQ_BAD_NUMBER);
    CHECK(loq_pod_new(pod, 256, 1, 1) == LOQ_BAD_NUMBER);
    CHECK(loq_pod_new(pod, 1, 0, 1) == LOQ_BAD_NUMBER);
    CHECK(loq_pod_new(pod, 1, 4294967296, 1) == LOQ_BAD_NUMBER);
    CHECK(loq_pod_new(pod, 1, 1, 0) == LOQ_BAD_NUMBER);
}

// Refuses one allocation after the other until the pod is made.
static void make(loq_pod *pod, uint32_t maxpri, uint64_t births, uint32_t procs) {
    for (long n = 0;; n++) {
        granted = n;
        uint32_t status = loq_pod_new(pod, maxpri, births, procs);
        granted = -1;
        if (status == LOQ_DONE) return;
        CHECK(status == LOQ_NO_MEMORY);
    }
}

// Makes a call with one allocation after the other refused until it is made; the pod is as it was after each refusal.
static void insist(loq_pod *pod, loq_call_t what, const char *text) {
    for (long n = 0;; n++) {
        uint64_t before = 0, after = 0;
        CHECK(loq_current(pod, &before) == LOQ_DONE);
        granted = n;
        uint32_t status = call(pod, what, text);
        granted = -1;
        if (status == LOQ_DONE) return;
        size_t count = 1;
        CHECK(status == LOQ_NO_MEMORY);
        CHECK(loq_current(pod, &after) == LOQ_DONE && before == after);
        CHECK(loq_effects(pod, &count) == LOQ_DONE && count == 0);
        CHECK(loq_lines(pod, (uint8_t *)"", 0, &count) == LOQ_DONE && count == 0);
    }
}

static void bad_calls(loq_pod *pod) {
    static const uint32_t kinds[] = {25, 31, 57, 99, UINT32_MAX};
    for (size_t i = 0; i < sizeof kinds / sizeof *kinds; i++)
        CHECK(call(pod, (loq_call_t){.kind = kinds[i]}, "") == LOQ_BAD_CALL);
    CHECK(call(pod, (loq_call_t){.kind = LOQ_RECV, .mode = 3}, "") == LOQ_BAD_CALL);
    CHECK(call(pod, (loq_call_t){.kind = LOQ_HANDLE, .func = 3}, "") == LOQ_BAD_CALL);
    CHECK(call(pod, (loq_call_t){.kind = LOQ_ONEXIT, .exit = LOQ_PODEXIT}, "") == LOQ_BAD_CALL);
    CHECK(call(pod, (loq_call_t){.kind = LOQ_SAY}, "a tab\t") == LOQ_BAD_TEXT);
    char longest[LOQ_TEXT_MAX + 2];
    memset(longest, 'x', sizeof longest);
    longest[LOQ_TEXT_MAX + 1] = 0;
    CHECK(call(pod, (loq_call_t){.kind = LOQ_SAY}, longest) == LOQ_BAD_TEXT);
    CHECK(deliver(pod, 3, longest) == LOQ_BAD_TEXT);
    CHECK(name(pod, "two\nlines") == LOQ_BAD_TEXT);
}

static void bad_events(loq_pod *pod) {
    for (int event = 1; event < 256; event++) {
        bool armed = true;
        CHECK(loq_armed(pod, (uint8_t)event, &armed) == LOQ_DONE && !armed);
        CHECK(deliver(pod, (uint8_t)event, "x") == LOQ_NOT_ARMED);
    }
}

// A buffer that is too small has the front, and what is told says how large it should be.
static void small_buffers(loq_pod *pod) {
    static const char lines[] = "t0: threads\nt0 = ids t0 t1\n";
    CHECK(call(pod, (loq_call_t){.kind = LOQ_THREADS}, "") == LOQ_DONE);
    uint8_t out[64];
    uint64_t ids[3] = {77, 77, 77};
    loq_effect_t effect;
    size_t len = 0;
    memset(out, '.', sizeof out);
    CHECK(loq_lines(pod, out, 5, &len) == LOQ_TOO_SMALL && len == sizeof lines - 1);
    CHECK(memcmp(out, "t0: t.", 6) == 0);
    CHECK(loq_lines(pod, out, len, &len) == LOQ_DONE && memcmp(out, lines, len) == 0);
    CHECK(loq_effect(pod, 0, &effect, out, 0, ids, 1) == LOQ_TOO_SMALL && effect.ids_len == 2);
    CHECK(ids[0] == 0 && ids[1] == 77);
    CHECK(loq_effect(pod, 0, &effect, out, 0, ids, 3) == LOQ_DONE && ids[1] == 1 && ids[2] == 77);
    CHECK(loq_effect(pod, 1, &effect, out, 0, ids, 3) == LOQ_NO_EFFECT && effect.kind == UINT32_MAX);
    CHECK(loq_effect(pod, SIZE_MAX, &effect, out, 0, ids, 3) == LOQ_NO_EFFECT);
}

// The text of the state, for each room there may be, and with each allocation refused in turn.
static void states(loq_pod *pod, const char *state) {
    uint8_t out[512];
    size_t whole = strlen(state), len;
    for (size_t room = 0; room <= whole + 1; room++) {
        memset(out, '.', sizeof out);
        len = 0;
        CHECK(loq_state(pod, out, room, &len) == (room < whole ? LOQ_TOO_SMALL : LOQ_DONE) && len == whole);
        size_t front = room < whole ? room : whole;
        CHECK(memcmp(out, state, front) == 0 && out[front] == '.');
    }
    for (long n = 0;; n++) {
        memset(out, '.', sizeof out);
        len = 7;
        granted = n;
        uint32_t status = loq_state(pod, out, sizeof out, &len);
        granted = -1;
        if (status == LOQ_DONE) break;
        CHECK(status == LOQ_NO_MEMORY && len == 7 && out[0] == '.');
    }
    CHECK(len == whole && memcmp(out, state, whole) == 0);
}

// Threads that are born and die: the procedure of each that lives is told, however many came before it.
static void many_births(loq_pod *pod) {
    CHECK(name(pod, "main") == LOQ_DONE && name(pod, "sitter") == LOQ_DONE && name(pod, "mayfly") == LOQ_DONE);
    CHECK(call(pod, (loq_call_t){.kind = LOQ_CREATE, .number = 1, .prio = 1, .suspended = true}, "") == LOQ_DONE);
    for (uint64_t n = 2; n < 5002; n++) {
        CHECK(call(pod, (loq_call_t){.kind = LOQ_CREATE, .number = 2, .prio = 1, .suspended = true}, "") == LOQ_DONE);
        CHECK(call(pod, (loq_call_t){.kind = LOQ_DESTROY, .target = n}, "") == LOQ_DONE);
    }
    CHECK(call(pod, (loq_call_t){.kind = LOQ_CREATE, .number = 3, .prio = 1}, "") == LOQ_DONE);
    CHECK(call(pod, (loq_call_t){.kind = LOQ_CREATE, .number = 2, .prio = 1, .suspended = true}, "") == LOQ_DONE);
    states(pod, "calls 10003 now 0 maxpri 1 exit 0\nt0 main prio 1 next\nt1 sitter prio 1 suspended\nt5002 mayfly prio 1 suspended\norder t0\n");
}

// The lines of a step beside a recorded trace, from a place of it on.
static void follows(loq_pod *pod, const char *trace, size_t at, size_t line, uint32_t status, size_t then, size_t then_line) {
    CHECK(loq_follow(pod, (const uint8_t *)trace, strlen(trace), &at, &line) == status);
    CHECK(at == then && line == then_line);
}

static void bad_traces(loq_pod *pod) {
    CHECK(call(pod, (loq_call_t){.kind = LOQ_THREADS}, "") == LOQ_DONE);
    // The same, with other lines before and after it; a step that is asked about twice is compared twice.
    follows(pod, "t0: threads\nt0 = ids t0 t1\n", 0, 1, LOQ_DONE, 27, 3);
    follows(pod, "x\nt0: threads\nt0 = ids t0 t1\nt0: me\n", 2, 7, LOQ_DONE, 29, 9);
    // The first line differs, the second does, or has more or fewer bytes.
    follows(pod, "t1: threads\nt0 = ids t0 t1\n", 0, 1, LOQ_DIFFERS, 0, 1);
    follows(pod, "t0: threads\nt0 = ids t0 t2\n", 0, 1, LOQ_DIFFERS, 12, 2);
    follows(pod, "t0: threads\nt0 = ids t0 t1 t2\n", 0, 1, LOQ_DIFFERS, 12, 2);
    follows(pod, "t0: threads\nt0 = ids t0\n", 0, 1, LOQ_DIFFERS, 12, 2);
    // The trace ends early: at once, in a line, between lines.
    follows(pod, "", 0, 1, LOQ_DIFFERS, 0, 1);
    follows(pod, "t0: thr", 0, 1, LOQ_DIFFERS, 0, 1);
    follows(pod, "t0: threads\n", 0, 1, LOQ_DIFFERS, 12, 2);
    follows(pod, "t0: threads\nt0 = ids t0 t1", 0, 1, LOQ_DIFFERS, 12, 2);
    // Places after the end, and lines that are no longer counted.
    follows(pod, "t0: threads\n", 13, 5, LOQ_DIFFERS, 13, 5);
    follows(pod, "t0: threads\n", SIZE_MAX, 5, LOQ_DIFFERS, SIZE_MAX, 5);
    follows(pod, "t0: threads\nt0 = ids t0 t1\n", 0, SIZE_MAX - 1, LOQ_DONE, 27, SIZE_MAX);
    // Memory is refused where the lines are written, and then it isn't.
    loq_call_t longest = {.kind = LOQ_SAY};
    char text[LOQ_TEXT_MAX + 1];
    memset(text, 'y', LOQ_TEXT_MAX);
    text[LOQ_TEXT_MAX] = 0;
    CHECK(call(pod, longest, text) == LOQ_DONE);
    for (long n = 0;; n++) {
        size_t at = 3, line = 4;
        granted = n;
        uint32_t status = loq_follow(pod, (const uint8_t *)"", 0, &at, &line);
        granted = -1;
        CHECK(at == 3 && line == 4);
        if (status == LOQ_DIFFERS) break;
        CHECK(status == LOQ_NO_MEMORY);
    }
}

// A trap is raised before a call, whose effects then name the call.
static void trapped(loq_pod *pod) {
    bool armed = false;
    CHECK(call(pod, (loq_call_t){.kind = LOQ_TRAP, .number = 7}, "") == LOQ_DONE);
    CHECK(loq_armed(pod, 7, &armed) == LOQ_DONE && armed);
    CHECK(deliver(pod, 7, "line") == LOQ_DONE);
    loq_effect_t effect = effect_at(pod, 0);
    CHECK(effect.kind == LOQ_DELIVERED && effect.small == 7 && effect.tid == LOQ_NULL);
    CHECK(deliver(pod, 7, "line") == LOQ_NOT_ARMED);
    CHECK(call(pod, (loq_call_t){.kind = LOQ_SEND, .target = 1, .room = 9}, "hello") == LOQ_DONE);
    effect = effect_at(pod, 0);
    CHECK(effect.kind == LOQ_TRAPPED && effect.tid == 0 && effect.small == 7);
    effect = effect_at(pod, 1);
    CHECK(effect.kind == LOQ_CALLED && effect.tid == 0 && effect.call.kind == LOQ_SEND && effect.call.target == 1);
    CHECK(effect.call.room == 9 && effect.text_len == 5);
}

int main(void) {
    loq_pod pod = LOQ_EMPTY;
    on_no_pod(&pod);
    bad_numbers(&pod);
    on_no_pod(&pod);
    make(&pod, 3, 9, 2);
    bad_numbers(&pod);
    bad_calls(&pod);
    bad_events(&pod);
    CHECK(name(&pod, "main") == LOQ_DONE && name(&pod, "worker") == LOQ_DONE);
    CHECK(call(&pod, (loq_call_t){.kind = LOQ_CREATE, .number = 1, .prio = 9}, "") == LOQ_DONE);
    loq_effect_t effect = effect_at(&pod, 0);
    CHECK(effect.kind == LOQ_ANSWERED && effect.answer == LOQ_REFUSED && effect.small == LOQ_ILLPRIO);
    insist(&pod, (loq_call_t){.kind = LOQ_CREATE, .number = 1, .prio = 1}, "");
    effect = effect_at(&pod, 0);
    CHECK(effect.kind == LOQ_ANSWERED && effect.answer == LOQ_THREAD && effect.id == 1);
    insist(&pod, (loq_call_t){.kind = LOQ_MON_CREATE}, "");
    insist(&pod, (loq_call_t){.kind = LOQ_HANDLE, .any = true, .func = LOQ_GIVE, .arg = 3}, "");
    insist(&pod, (loq_call_t){.kind = LOQ_ONEXIT, .exit = LOQ_SAY}, "at the end");
    small_buffers(&pod);
    bad_traces(&pod);
    states(&pod, "calls 8 now 0 maxpri 3 exit 0\nt0 main prio 3 next\n  handler all give 3\n  exit x0 note at the end\nt1 worker prio 1 ready\n"
                 "order t0 t1\nm0 free\n");
    trapped(&pod);
    uint64_t tid = 0;
    uint32_t why = 9, status = 9;
    CHECK(loq_ending(&pod, &why, &status) == LOQ_DONE && why == 0 && status == 0);
    while (loq_current(&pod, &tid) == LOQ_DONE)
        CHECK(call(&pod, (loq_call_t){.kind = LOQ_PODEXIT, .number = 42}, "") == LOQ_DONE);
    CHECK(call(&pod, (loq_call_t){.kind = LOQ_ME}, "") == LOQ_NOBODY);
    CHECK(loq_ending(&pod, &why, &status) == LOQ_DONE && why == 1 && status == 42);
    make(&pod, 1, 9000, 3);
    states(&pod, "calls 0 now 0 maxpri 1 exit 0\nt0 none prio 1 next\norder t0\n");
    many_births(&pod);
    loq_pod_free(&pod);
    on_no_pod(&pod);
    printf("%d failures, %ld allocations refused\n", failures, refused);
    return failures != 0;
}
