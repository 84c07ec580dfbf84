// Whole sessions over bytes: writes what one of the functions tells, and ends with the status of the session.
//
//     sessions plan SCRIPT [CALLS]
//     sessions answers SCRIPT CLIENT [CALLS]
//     sessions replay INPUT [CALLS]           INPUT is a line `replay N`, a script of N bytes, and a recorded trace
//     sessions check SCRIPT [--json]
//     sessions ends SCRIPT [CORES]
//     sessions trace SCRIPT KIND [CORES]
//     sessions line SCRIPT LINE [CORES]
//
// Each call is made again with buffers that are too small. Before all words, `--fail` has each allocation fail in turn besides, and
// numbers are given that are out of their range.
//
// Linked with -Wl,--wrap=malloc,--wrap=realloc; run under valgrind it must lose nothing.
#include "../loqzemar.h"

#include <stdio.h>
#include <stdlib.h>
#include <string.h>

// So many allocations are granted before one is refused; -1 grants all.
static long granted = -1;
static long refused;

void *__real_malloc(size_t n);
void *__real_realloc(void *p, size_t n);

static bool refuses(void) {
    if (granted == 0) {
        refused++;
        return true;
    }
    if (granted > 0) granted--;
    return false;
}

void *__wrap_malloc(size_t n) { return refuses() ? NULL : __real_malloc(n); }
void *__wrap_realloc(void *p, size_t n) { return refuses() ? NULL : __real_realloc(p, n); }

// No session ends with these: a check failed; or the program was called wrongly, or has no memory of its own.
enum { WRONG = 120, BROKEN = 121 };

static int failures;

#define CHECK(fact)                                                          \
    do {                                                                     \
        if (!(fact)) {                                                       \
            fprintf(stderr, "%s:%d: not so: %s\n", __FILE__, __LINE__, #fact); \
            failures++;                                                      \
        }                                                                    \
    } while (0)

// ---- what is asked

typedef struct {
    uint8_t *at;
    size_t len;
} bytes;

typedef struct {
    enum { PLAN, ANSWERS, REPLAY, CHECK_SCRIPT, ENDS, TRACE, LINE } word;
    bytes script, trace, line;
    uint64_t calls, cores, kind;
    uint8_t client;
    bool json;
} question;

typedef struct {
    uint32_t status; // what the function answers
    size_t len;
    loq_session_t session; // of a check, the grade is its status
} answer;

static const loq_session_t UNTOLD = {77, 78, 79, 80, 81};

// Bytes of a buffer that nothing was written to.
enum { UNWRITTEN = 0xA5 };

static answer ask(const question *q, uint8_t *out, size_t room) {
    answer a = {0, 76, UNTOLD};
    switch (q->word) {
    case PLAN:
        a.status = loq_plan(q->script.at, q->script.len, q->calls, out, room, &a.len, &a.session);
        break;
    case ANSWERS:
        a.status = loq_answers(q->script.at, q->script.len, q->client, q->calls, out, room, &a.len, &a.session);
        break;
    case REPLAY:
        a.status = loq_replay(q->script.at, q->script.len, q->trace.at, q->trace.len, q->calls, out, room, &a.len, &a.session);
        break;
    case CHECK_SCRIPT:
        a.status = loq_check(q->script.at, q->script.len, q->json, out, room, &a.len, &a.session.status);
        break;
    case ENDS:
        a.status = loq_explore_ends(q->script.at, q->script.len, q->cores, out, room, &a.len, &a.session);
        break;
    case TRACE:
        a.status = loq_explore_trace(q->script.at, q->script.len, q->kind, q->cores, out, room, &a.len, &a.session);
        break;
    case LINE:
        a.status = loq_explore_line(q->script.at, q->script.len, q->line.at, q->line.len, q->cores, out, room, &a.len, &a.session);
        break;
    }
    return a;
}

static bool same_session(loq_session_t a, loq_session_t b) {
    return a.status == b.status && a.reason == b.reason && a.line == b.line && a.calls == b.calls && a.taken == b.taken;
}

static bool is_unwritten(const uint8_t *out, size_t len) {
    for (size_t i = 0; i < len; i++) {
        if (out[i] != UNWRITTEN) return false;
    }
    return true;
}

static uint8_t *buffer(size_t len) {
    uint8_t *out = __real_malloc(len ? len : 1);
    if (!out) exit(BROKEN);
    memset(out, UNWRITTEN, len);
    return out;
}

// Nothing was told, for this reason.
static void check_untold(const answer *a, uint32_t status, const uint8_t *out, size_t len) {
    CHECK(a->status == status);
    CHECK(a->len == 76 && same_session(a->session, UNTOLD) && is_unwritten(out, len));
}

// With a buffer of this size it tells the same, and writes as much as there is room for.
static void check_room(const question *q, const answer *whole, const uint8_t *text, size_t room) {
    uint8_t *out = buffer(room + 1);
    answer a = ask(q, out, room);
    size_t front = room < whole->len ? room : whole->len;
    CHECK(a.status == (room < whole->len ? (uint32_t)LOQ_TOO_SMALL : whole->status));
    CHECK(a.len == whole->len && same_session(a.session, whole->session));
    CHECK(memcmp(out, text, front) == 0 && is_unwritten(out + front, room + 1 - front));
    free(out);
}

// Each allocation fails in turn.
static void check_failing(const question *q, const answer *whole, const uint8_t *text) {
    uint8_t *out = buffer(whole->len);
    answer a;
    long n = 0;
    for (;; n++) {
        granted = n;
        refused = 0;
        a = ask(q, out, whole->len);
        granted = -1;
        if (!refused) break;
        check_untold(&a, LOQ_NO_MEMORY, out, whole->len);
        if (failures) exit(WRONG);
    }
    CHECK(n > 0 && a.status == whole->status && a.len == whole->len && same_session(a.session, whole->session));
    CHECK(memcmp(out, text, a.len) == 0);
    fprintf(stderr, "%ld allocations failed in turn\n", n);
    free(out);
}

static void check_bad_number(const question *bad) {
    uint8_t out[1] = {UNWRITTEN};
    answer a = ask(bad, out, 1);
    check_untold(&a, LOQ_BAD_NUMBER, out, 1);
}

static void check_numbers(const question *q) {
    question bad = *q;
    if (q->word == CHECK_SCRIPT) return;
    for (int i = 0; i < 3; i++) {
        bad.calls = i == 0 ? 0 : i == 1 ? LOQ_CALLS_MAX + 1 : UINT64_MAX;
        bad.cores = i == 0 ? 0 : i == 1 ? LOQ_CORES_MAX + 1 : UINT64_MAX;
        check_bad_number(&bad);
    }
    bad = *q;
    bad.client = 16;
    if (q->word == ANSWERS) check_bad_number(&bad);
    for (int i = 0; i < 3 && q->word == TRACE; i++) {
        bad.kind = i == 0 ? 0 : i == 1 ? (uint64_t)UINT32_MAX + 1 : UINT64_MAX;
        check_bad_number(&bad);
    }
}

// ---- the words

static bytes file(const char *name) {
    FILE *in = fopen(name, "rb");
    bytes read = {NULL, 0};
    if (!in || fseek(in, 0, SEEK_END) != 0) exit(BROKEN);
    long end = ftell(in);
    rewind(in);
    read.at = malloc(end > 0 ? (size_t)end : 1);
    if (end < 0 || !read.at) exit(BROKEN);
    read.len = fread(read.at, 1, (size_t)end, in);
    fclose(in);
    return read;
}

// The script and the trace of an input of a replay.
static void split(bytes input, question *q) {
    char *after;
    unsigned long len = strtoul((char *)input.at + strlen("replay "), &after, 10);
    size_t from = (size_t)((uint8_t *)after + 1 - input.at);
    if (from + len > input.len) exit(BROKEN);
    q->script = (bytes){input.at + from, len};
    q->trace = (bytes){input.at + from + len, input.len - from - len};
}

// What is asked for of all sessions.
static bool read_search(char **words, int count, question *q) {
    bool is_ends = strcmp(words[1], "ends") == 0, is_trace = strcmp(words[1], "trace") == 0, is_line = strcmp(words[1], "line") == 0;
    int last = is_ends ? 3 : 4; // where the number of cores is, if one is said
    if (!(is_ends || is_trace || is_line) || count < last || count > last + 1) return false;
    q->word = is_ends ? ENDS : is_trace ? TRACE : LINE;
    q->cores = count > last ? strtoull(words[last], NULL, 10) : 100000;
    if (is_trace) q->kind = strtoull(words[3], NULL, 10);
    if (is_line) q->line = (bytes){(uint8_t *)words[3], strlen(words[3])};
    return true;
}

int main(int argc, char **argv) {
    bool fail = argc > 1 && strcmp(argv[1], "--fail") == 0;
    char **words = argv + fail;
    int count = argc - fail;
    if (count < 3) return BROKEN;
    question q = {.calls = 100000};
    bytes input = file(words[2]);
    q.script = input;
    const char *calls = count > 3 ? words[3] : NULL;
    if (strcmp(words[1], "plan") == 0) {
        q.word = PLAN;
    } else if (strcmp(words[1], "answers") == 0 && count > 3) {
        q.word = ANSWERS;
        q.client = (uint8_t)atoi(words[3]);
        calls = count > 4 ? words[4] : NULL;
    } else if (strcmp(words[1], "replay") == 0) {
        q.word = REPLAY;
        split(input, &q);
    } else if (strcmp(words[1], "check") == 0) {
        q.word = CHECK_SCRIPT;
        q.json = count > 3 && strcmp(words[3], "--json") == 0;
    } else if (!read_search(words, count, &q)) {
        return BROKEN;
    }
    if (calls && q.word <= REPLAY) q.calls = strtoull(calls, NULL, 10);

    // How many bytes there are is asked first.
    uint8_t none[1] = {UNWRITTEN};
    answer whole = ask(&q, none, 0);
    CHECK(is_unwritten(none, 1));
    uint8_t *text = buffer(whole.len);
    answer first = whole;
    whole = ask(&q, text, whole.len);
    CHECK(first.len == whole.len && same_session(first.session, whole.session));
    CHECK(first.status == (whole.len ? (uint32_t)LOQ_TOO_SMALL : whole.status));
    bool is_refused = q.word != CHECK_SCRIPT && whole.session.status == 103;
    CHECK(whole.status == (uint32_t)(is_refused ? LOQ_BAD_SCRIPT : LOQ_DONE));
    CHECK(is_refused == (q.word != CHECK_SCRIPT && whole.session.reason != LOQ_FINE));
    if (whole.len) {
        check_room(&q, &whole, text, 1);
        check_room(&q, &whole, text, whole.len / 2);
        check_room(&q, &whole, text, whole.len - 1);
    }
    check_room(&q, &whole, text, whole.len + 1);
    check_room(&q, &whole, text, whole.len + 100);
    if (fail) {
        check_numbers(&q);
        check_failing(&q, &whole, text);
    }
    fwrite(text, 1, whole.len, stdout);
    free(text);
    free(input.at);
    return failures ? WRONG : (int)whole.session.status;
}
