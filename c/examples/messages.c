// A desk that answers the letters of its customers, each sent, received and replied to: a rendezvous. A run is recorded, and repeated.
//
//     messages TRACE WORD..           a customer for each word asks the desk to turn it round; the trace goes to the file TRACE
//     messages --follow TRACE WORD..  the same run next to that trace; a line that differs is told, and the status is 3
//
// The first thread is the desk. It makes a customer for each word and lets them all send. Then it asks who waits, in a list that may be
// long, and receives and answers one letter after the other. A sender waits until its letter is answered; it has room for so many bytes.
#include "../loqzemar.h"

#include <stdio.h>
#include <stdlib.h>
#include <string.h>

enum { DESK, CUSTOMER };
enum { DESK_TID = 0 }; // the first thread

typedef struct {
    int step;
    const char *word; // of a customer: what it sends,
    char *reply;      // and what it is replied
    char letter[LOQ_TEXT_MAX + 1]; // of the desk: the last letter,
    uint64_t sender;               // and whose it is
} thread;

static thread *threads; // by their numbers: the desk, and then a customer for each word
static const char *const *words;
static uint64_t count, made, answered;

static void fail(const char *what) {
    fprintf(stderr, "messages: %s\n", what);
    exit(2);
}

// ---- the threads: each is a state that is polled for its next call

// The letter backwards. The bytes of a reply are lent to the pod until it is freed, so each has its own.
static char *turned_round(const char *letter) {
    size_t len = strlen(letter);
    char *reply = malloc(len + 1);
    if (!reply) fail("out of memory");
    for (size_t i = 0; i < len; i++) reply[i] = letter[len - 1 - i];
    reply[len] = 0;
    return reply;
}

static loq_call_t poll_desk(thread *t, const char **text) {
    switch (t->step) {
    case 0: // as often as there are words; the answer comes to hear()
        if (made < count) return (loq_call_t){.kind = LOQ_CREATE, .number = CUSTOMER, .prio = 1};
        t->step = 1;
        return (loq_call_t){.kind = LOQ_YIELD, .target = DESK_TID}; // the customers come first now
    case 1:
        t->step = 2;
        return (loq_call_t){.kind = LOQ_SENDERS};
    case 2:
        if (answered == count) return (loq_call_t){.kind = LOQ_RETURN};
        t->step = 3;
        return (loq_call_t){.kind = LOQ_RECV, .any = true, .mode = LOQ_BLOCK};
    default:
        t->step = 2;
        answered++;
        *text = threads[t->sender].reply = turned_round(t->letter);
        return (loq_call_t){.kind = LOQ_REPLY, .target = t->sender};
    }
}

static loq_call_t poll_customer(thread *t, const char **text) {
    if (t->step++ > 0) return (loq_call_t){.kind = LOQ_RETURN};
    *text = t->word;
    return (loq_call_t){.kind = LOQ_SEND, .target = DESK_TID, .room = LOQ_TEXT_MAX};
}

// ---- what a call did

// The effect at this place, and whether there is one. A list that is longer than the buffer gets a larger one, and is asked for again.
static bool effect_at(loq_pod *pod, size_t at, loq_effect_t *effect, uint8_t text[LOQ_TEXT_MAX]) {
    static uint64_t few[4], *ids = few;
    static size_t room = 4;
    uint32_t status;
    while ((status = loq_effect(pod, at, effect, text, LOQ_TEXT_MAX, ids, room)) == LOQ_TOO_SMALL) {
        uint64_t *more = malloc(effect->ids_len * sizeof *more);
        if (!more) fail("out of memory");
        if (ids != few) free(ids);
        ids = more;
        room = effect->ids_len;
    }
    return status == LOQ_DONE;
}

// Who was answered what. The one that is answered isn't always the one that called: the desk's reply answers a customer too.
static void hear(loq_pod *pod) {
    loq_effect_t e;
    uint8_t text[LOQ_TEXT_MAX];
    for (size_t i = 0; effect_at(pod, i, &e, text); i++) {
        if (e.kind != LOQ_ANSWERED) continue;
        switch (e.answer) {
        case LOQ_THREAD: // the desk's create: the customer of the next word
            threads[e.id] = (thread){.word = words[made++]};
            break;
        case LOQ_IDS:
            printf("%zu wait\n", e.ids_len);
            break;
        case LOQ_LETTER:
            threads[e.tid].sender = e.id;
            memcpy(threads[e.tid].letter, text, e.text_len);
            threads[e.tid].letter[e.text_len] = 0;
            break;
        case LOQ_REPLIED:
            printf("%s: %.*s\n", threads[e.tid].word, (int)e.text_len, (const char *)text);
            break;
        }
    }
}

// ---- the record: a trace, which the next run is compared with

static FILE *file;        // the trace is written here, or
static uint8_t *recorded; // it is followed: all its bytes, and where the next line begins
static size_t recorded_len, at, line = 1;

static void read_trace(const char *path) {
    size_t room = 1 << 16, more;
    file = fopen(path, "rb");
    if (!file || !(recorded = malloc(room))) fail("the trace can't be read");
    while ((more = fread(recorded + recorded_len, 1, room - recorded_len, file)) > 0) {
        recorded_len += more;
        if (recorded_len == room && !(recorded = realloc(recorded, room *= 2))) fail("out of memory");
    }
    fclose(file);
}

static void write_lines(loq_pod *pod) {
    static uint8_t lines[1 << 20]; // a step has fewer than 2,048 effects, and few of them have a long text
    size_t len;
    if (loq_lines(pod, lines, sizeof lines, &len) != LOQ_DONE) fail("the lines of a step can't be written");
    if (fwrite(lines, 1, len, file) != len) fail("the trace can't be written");
}

static void follow(loq_pod *pod) {
    switch (loq_follow(pod, recorded, recorded_len, &at, &line)) {
    case LOQ_DONE: return;
    case LOQ_DIFFERS:
        fprintf(stderr, "messages: line %zu of the trace differs\n", line);
        exit(3);
    default: fail("the trace can't be followed");
    }
}

static int run(loq_pod *pod) {
    uint64_t me;
    while (loq_current(pod, &me) == LOQ_DONE) {
        const char *text = "";
        loq_call_t call = me == DESK_TID ? poll_desk(&threads[me], &text) : poll_customer(&threads[me], &text);
        if (loq_call(pod, &call, (const uint8_t *)text, strlen(text)) != LOQ_DONE) fail("a call can't be made: is a word too long?");
        hear(pod);
        if (recorded) follow(pod);
        else write_lines(pod);
    }
    uint32_t why, status;
    if (loq_ending(pod, &why, &status) != LOQ_DONE || why != 1) fail("nobody can run any more");
    if (recorded && at != recorded_len) {
        fprintf(stderr, "messages: line %zu of the trace is one too many\n", line);
        return 3;
    }
    return (int)status;
}

int main(int argc, char **argv) {
    bool following = argc > 1 && strcmp(argv[1], "--follow") == 0;
    int first = following ? 3 : 2;
    if (argc < first) fail("words: TRACE WORD.., or --follow TRACE WORD..");
    words = (const char *const *)argv + first;
    count = (uint64_t)(argc - first);
    threads = calloc(count + 1, sizeof *threads);
    if (!threads) fail("out of memory");
    if (following) read_trace(argv[2]);
    else if (!(file = fopen(argv[1], "wb"))) fail("the trace can't be written");
    loq_pod pod = LOQ_EMPTY;
    if (loq_pod_new(&pod, 1, count + 1, 2) != LOQ_DONE) fail("no pod");
    loq_name(&pod, (const uint8_t *)"desk", 4);
    loq_name(&pod, (const uint8_t *)"customer", 8);
    int status = run(&pod);
    loq_pod_free(&pod);
    for (uint64_t i = 1; i <= count; i++) free(threads[i].reply);
    free(threads);
    free(recorded);
    return following || fclose(file) == 0 ? status : 2;
}
