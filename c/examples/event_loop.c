// A server on poll(2) whose connections are threads of a pod: a total that many clients add to, with a record that can be replayed.
//
//     event_loop PORT RECORD TRACE     serves on 127.0.0.1, until a client says `stop`
//     event_loop --replay RECORD TRACE makes the same run again, with no socket, and writes the answers to standard output
//
// A client's lines are `add N`, `total`, `quit` and `stop`. Each connection has an event of its own while it lasts, 1 to 30, so there are
// thirty at a time; event 31 tells the first thread of new connections. The pod runs until nobody can run, and only then are the sockets
// asked. A line enters the run by loq_deliver alone, and RECORD has a line `TURN EVENT TEXT` for each: so the same record gives the same
// trace, byte for byte.
#include "../loqzemar.h"

#include <arpa/inet.h>
#include <errno.h>
#include <netinet/in.h>
#include <poll.h>
#include <stdio.h>
#include <stdlib.h>
#include <string.h>
#include <sys/socket.h>
#include <unistd.h>

enum { ACCEPTOR, CONNECTION, PROCEDURES };
enum { CLIENTS = 31, NEWS = 31, EVENTS = 32, THREADS = 4096 };

static void fail(const char *what) {
    fprintf(stderr, "event_loop: %s\n", what);
    exit(2);
}

// ---- lines from outside, kept until the pod is freed, since their texts are lent to it

typedef struct line {
    struct line *next;
    unsigned long turn; // in a replay: when it was taken
    unsigned event;
    uint32_t seq;
    size_t len;
    char text[];
} line;

static line *waiting[EVENTS], **ends[EVENTS];
static uint32_t taken[EVENTS];

static void put(unsigned event, unsigned long turn, const char *text, size_t len) {
    line *new = malloc(sizeof *new + len + 1);
    if (!new) fail("out of memory");
    *new = (line){.turn = turn, .event = event, .len = len};
    memcpy(new->text, text, len);
    new->text[len] = 0;
    if (!waiting[event]) ends[event] = &waiting[event];
    *ends[event] = new;
    ends[event] = &new->next;
}

// ---- the threads: each is a state that is polled for its next call

typedef struct {
    unsigned procedure, step, event;
    uint64_t agent;
    char said[LOQ_TEXT_MAX + 1], reply[32];
} thread;

static thread threads[THREADS];
static uint64_t monitor;
static long long total;
static unsigned born_for; // the event of the connection whose thread is created next

// What a client is answered. The monitor is held meanwhile.
static void answer_client(thread *t) {
    long long n;
    if (sscanf(t->said, "add %lld", &n) == 1) total += n;
    snprintf(t->reply, sizeof t->reply, "total %lld", total);
}

static loq_call_t poll_acceptor(thread *t, const char **text) {
    switch (t->step++) {
    case 0: return (loq_call_t){.kind = LOQ_MON_CREATE};
    case 1: return (loq_call_t){.kind = LOQ_AGENT, .number = NEWS};
    case 2: return (loq_call_t){.kind = LOQ_RECV, .target = t->agent, .mode = LOQ_BLOCK};
    case 3:
        born_for = (unsigned)atoi(t->said);
        if (born_for == 0) return (loq_call_t){.kind = LOQ_PODEXIT};
        return (loq_call_t){.kind = LOQ_CREATE, .number = CONNECTION, .prio = 1};
    default:
        t->step = 2;
        *text = "";
        return (loq_call_t){.kind = LOQ_REPLY, .target = t->agent};
    }
}

static loq_call_t poll_connection(thread *t, const char **text) {
    switch (t->step++) {
    case 0: return (loq_call_t){.kind = LOQ_AGENT, .number = t->event};
    case 1: return (loq_call_t){.kind = LOQ_RECV, .target = t->agent, .mode = LOQ_BLOCK};
    case 2: return (loq_call_t){.kind = LOQ_MON_ENTER, .target = monitor};
    case 3:
        answer_client(t);
        return (loq_call_t){.kind = LOQ_MON_EXIT, .target = monitor};
    case 4:
        t->step = strcmp(t->said, "quit") == 0 ? 5 : 1;
        *text = t->reply;
        return (loq_call_t){.kind = LOQ_REPLY, .target = t->agent};
    default: return (loq_call_t){.kind = LOQ_RETURN};
    }
}

// ---- sockets

static struct pollfd sockets[CLIENTS]; // at 0 the one that listens, at E the connection of event E
static char parts[CLIENTS][LOQ_TEXT_MAX + 2];
static size_t part_lens[CLIENTS];
static bool in_use[EVENTS]; // from the connection until the death of its thread
static FILE *record, *trace;
static bool replaying;

static void listen_on(int port) {
    int on = 1, at = socket(AF_INET, SOCK_STREAM, 0);
    struct sockaddr_in here = {.sin_family = AF_INET, .sin_port = htons((uint16_t)port), .sin_addr.s_addr = htonl(INADDR_LOOPBACK)};
    if (at < 0) fail("no socket");
    setsockopt(at, SOL_SOCKET, SO_REUSEADDR, &on, sizeof on);
    if (bind(at, (struct sockaddr *)&here, sizeof here) < 0 || listen(at, CLIENTS) < 0) fail("the port can't be listened on");
    sockets[0] = (struct pollfd){.fd = at, .events = POLLIN};
    for (int e = 1; e < CLIENTS; e++) sockets[e] = (struct pollfd){.fd = -1, .events = POLLIN};
}

static void accept_one(void) {
    int at = accept(sockets[0].fd, NULL, NULL);
    if (at < 0) return;
    for (int e = 1; e < CLIENTS; e++) {
        if (in_use[e]) continue;
        char text[8];
        in_use[e] = true;
        sockets[e].fd = at;
        put(NEWS, 0, text, (size_t)snprintf(text, sizeof text, "%d", e));
        return;
    }
    close(at);
}

// The bytes of a connection, cut into lines. A line that is too long is cut off; one with a byte that no text has is passed over.
static void read_lines(int e) {
    char bytes[512];
    ssize_t count = read(sockets[e].fd, bytes, sizeof bytes);
    if (count <= 0) {
        close(sockets[e].fd);
        sockets[e].fd = -1;
        put((unsigned)e, 0, "quit", 4);
        return;
    }
    for (ssize_t i = 0; i < count; i++) {
        if (bytes[i] != '\n') {
            if (part_lens[e] < LOQ_TEXT_MAX && bytes[i] >= ' ' && bytes[i] <= '~') parts[e][part_lens[e]++] = bytes[i];
            continue;
        }
        if (part_lens[e] == 4 && memcmp(parts[e], "stop", 4) == 0) put(NEWS, 0, "0", 1);
        else put((unsigned)e, 0, parts[e], part_lens[e]);
        part_lens[e] = 0;
    }
}

static void ask_sockets(void) {
    if (poll(sockets, CLIENTS, -1) < 0) {
        if (errno == EINTR) return;
        fail("poll failed");
    }
    if (sockets[0].revents) accept_one();
    for (int e = 1; e < CLIENTS; e++)
        if (sockets[e].fd >= 0 && sockets[e].revents) read_lines(e);
}

static void tell_client(unsigned event, const char *text) {
    if (replaying) printf("%u %s\n", event, text);
    else if (event < CLIENTS && sockets[event].fd >= 0) dprintf(sockets[event].fd, "%s\n", text);
}

// The thread of a connection has died: what else the client said is dropped, and the event is free.
static void end_connection(unsigned event) {
    if (!replaying && sockets[event].fd >= 0) close(sockets[event].fd);
    if (!replaying) sockets[event].fd = -1;
    waiting[event] = replaying ? waiting[event] : NULL;
    part_lens[event] = 0;
    in_use[event] = false;
}

// ---- the pod

static void write_lines(loq_pod *pod) {
    static uint8_t lines[1 << 20];
    size_t len;
    if (loq_lines(pod, lines, sizeof lines, &len) != LOQ_DONE) fail("the lines of a step can't be written");
    fwrite(lines, 1, len, trace);
}

// The effect at this place, and whether there is one. A list that is longer than the buffer gets a larger one, and is asked for again.
static bool effect_at(loq_pod *pod, size_t at, loq_effect_t *effect, uint8_t text[LOQ_TEXT_MAX]) {
    static uint64_t few[4], *ids = few;
    static size_t room = 4;
    uint32_t status;
    while ((status = loq_effect(pod, at, effect, text, LOQ_TEXT_MAX, ids, room)) == LOQ_TOO_SMALL) {
        uint64_t *more = malloc(effect->ids_len * sizeof *more);
        if (!more) fail("out of memory");
        if (ids != few) free(ids);
        ids = more;
        room = effect->ids_len;
    }
    return status == LOQ_DONE;
}

// What a step did, for the threads that it answered. `by` made the call of it, or nobody did.
static void hear(loq_pod *pod, const loq_call_t *call, uint64_t by) {
    loq_effect_t e;
    uint8_t text[LOQ_TEXT_MAX];
    for (size_t i = 0; effect_at(pod, i, &e, text); i++) {
        if (e.tid >= THREADS) continue;
        thread *t = &threads[e.tid];
        if (e.kind == LOQ_DIED && t->procedure == CONNECTION) end_connection(t->event);
        if (e.kind != LOQ_ANSWERED) continue;
        if (e.answer == LOQ_MONITOR) monitor = e.id;
        if (e.answer == LOQ_LETTER) {
            memcpy(t->said, text, e.text_len);
            t->said[e.text_len] = 0;
        }
        if (e.answer == LOQ_THREAD && call && e.tid == by && call->kind == LOQ_CREATE && e.id < THREADS)
            threads[e.id] = (thread){.procedure = CONNECTION, .event = born_for};
        if (e.answer == LOQ_THREAD && call && e.tid == by && call->kind == LOQ_AGENT) t->agent = e.id;
        if (e.answer == LOQ_VALUE && call && e.tid == by && call->kind == LOQ_REPLY && t->procedure == CONNECTION)
            tell_client(t->event, t->reply);
    }
    write_lines(pod);
}

static bool deliver_one(loq_pod *pod, unsigned long turn) {
    for (unsigned e = 1; e < EVENTS; e++) {
        line *l = waiting[e];
        bool armed;
        if (!l || (replaying && l->turn != turn) || loq_armed(pod, (uint8_t)e, &armed) != LOQ_DONE || !armed) continue;
        waiting[e] = l->next;
        if (loq_deliver(pod, (uint8_t)e, (uint8_t)(e % 16), taken[e]++, (const uint8_t *)l->text, l->len) != LOQ_DONE) fail("a line was refused");
        if (!replaying) fprintf(record, "%lu %u %s\n", turn, e, l->text);
        hear(pod, NULL, 0);
        return true;
    }
    return false;
}

static void run(loq_pod *pod) {
    uint64_t me;
    for (unsigned long turn = 0;;) {
        if (deliver_one(pod, turn)) continue;
        if (loq_current(pod, &me) == LOQ_DONE) {
            const char *text = "";
            thread *t = &threads[me];
            loq_call_t call = t->procedure == ACCEPTOR ? poll_acceptor(t, &text) : poll_connection(t, &text);
            char *lent = strdup(text); // lent to the pod until it is freed
            if (!lent || loq_call(pod, &call, (const uint8_t *)lent, strlen(lent)) != LOQ_DONE) fail("a call can't be made");
            turn++;
            hear(pod, &call, me);
            continue;
        }
        uint32_t why, status;
        if (loq_ending(pod, &why, &status) != LOQ_DONE || why == 1 || replaying) return;
        fflush(record);
        ask_sockets();
    }
}

static void read_record(const char *path) {
    char row[LOQ_TEXT_MAX + 64];
    record = fopen(path, "r");
    if (!record) fail("the record can't be read");
    while (fgets(row, sizeof row, record)) {
        unsigned long turn;
        unsigned event;
        int at = 0;
        if (sscanf(row, "%lu %u%n", &turn, &event, &at) != 2 || event >= EVENTS || row[at] != ' ') fail("a line of the record is wrong");
        put(event, turn, row + at + 1, strcspn(row + at + 1, "\n"));
    }
}

int main(int argc, char **argv) {
    if (argc != 4) fail("words: PORT RECORD TRACE, or --replay RECORD TRACE");
    replaying = strcmp(argv[1], "--replay") == 0;
    if (replaying) {
        read_record(argv[2]);
    } else {
        record = fopen(argv[2], "w");
        if (!record) fail("the record can't be written");
        listen_on(atoi(argv[1]));
    }
    trace = fopen(argv[3], "w");
    if (!trace) fail("the trace can't be written");
    loq_pod pod = LOQ_EMPTY;
    if (loq_pod_new(&pod, 1, THREADS, PROCEDURES) != LOQ_DONE) fail("no pod");
    loq_name(&pod, (const uint8_t *)"acceptor", 8);
    loq_name(&pod, (const uint8_t *)"connection", 10);
    run(&pod);
    loq_pod_free(&pod);
    fclose(record);
    return fclose(trace) == 0 ? 0 : 2;
}
