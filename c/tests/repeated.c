// A run is recorded and repeated beside its trace: the same run follows it to the end, and another is told where it leaves it.
#include "../loqzemar.h"

#include <stdio.h>
#include <string.h>

enum { MAIN, WORKER, ROOM = 1 << 12 };

// What the worker says, by the place of its call.
static const char *const ours[] = {"one", "two", "three"};
static const char *const others[] = {"one", "too", "three"};

typedef struct {
    uint8_t bytes[ROOM];
    size_t len;
} trace;

// The first thread makes the worker and returns; the worker says its words and returns.
static loq_call_t next_call(uint64_t me, int step, const char *const *words, const char **text) {
    *text = "";
    if (me == 0) return step == 0 ? (loq_call_t){.kind = LOQ_CREATE, .number = WORKER, .prio = 1} : (loq_call_t){.kind = LOQ_RETURN};
    if (step == 3) return (loq_call_t){.kind = LOQ_RETURN};
    *text = words[step];
    return (loq_call_t){.kind = LOQ_SAY};
}

static bool record(loq_pod *pod, trace *made) {
    size_t len;
    if (loq_lines(pod, made->bytes + made->len, ROOM - made->len, &len) != LOQ_DONE) return false;
    made->len += len;
    return true;
}

// A run. With an empty trace it is recorded there, else it is followed, and the status of the last comparison is returned.
static uint32_t run(const char *const *words, trace *made, const trace *recorded, size_t *at, size_t *line) {
    loq_pod pod = LOQ_EMPTY;
    uint32_t status = LOQ_DONE;
    int steps[2] = {0, 0};
    uint64_t me;
    if (loq_pod_new(&pod, 1, 2, 2) != LOQ_DONE) return LOQ_NO_MEMORY;
    while (status == LOQ_DONE && loq_current(&pod, &me) == LOQ_DONE) {
        const char *text;
        loq_call_t call = next_call(me, steps[me]++, words, &text);
        status = loq_call(&pod, &call, (const uint8_t *)text, strlen(text));
        if (status != LOQ_DONE) break;
        if (made && !record(&pod, made)) status = LOQ_TOO_SMALL;
        if (recorded) status = loq_follow(&pod, recorded->bytes, recorded->len, at, line);
    }
    loq_pod_free(&pod);
    return status;
}

static size_t lines_in(const uint8_t *bytes, size_t len) {
    size_t lines = 0;
    for (size_t i = 0; i < len; i++) lines += bytes[i] == '\n';
    return lines;
}

int main(void) {
    static trace made;
    size_t at = 0, line = 1;
    if (run(ours, &made, NULL, NULL, NULL) != LOQ_DONE || made.len == 0) return 1;
    if (run(ours, NULL, &made, &at, &line) != LOQ_DONE) return 2;
    if (at != made.len || line != lines_in(made.bytes, made.len) + 1) return 3;
    at = 0;
    line = 1;
    if (run(others, NULL, &made, &at, &line) != LOQ_DIFFERS) return 4;
    if (line != lines_in(made.bytes, at) + 1) return 5;
    if (strncmp((const char *)made.bytes + at, "t1: say two\n", 12) != 0) return 6;
    made.len -= 3;
    at = 0;
    line = 1;
    if (run(ours, NULL, &made, &at, &line) != LOQ_DIFFERS || line != lines_in(made.bytes, made.len) + 1) return 7;
    printf("%zu bytes followed\n", made.len + 3);
    return 0;
}
