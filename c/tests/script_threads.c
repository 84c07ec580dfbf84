// A script whose threads are threads of C, with all lines of its clients in place: writes the trace, as `lwpserve plan` does; or the state
// that it comes to, as `lwpstate plan` does, but for the lines of the clients.
//
//     script_threads SCRIPT [TURNS]
//     script_threads --state SCRIPT [TURNS]
//
// The script is one that lwpserve takes, without `native`. The status is that of the pod, 104 stuck, 105 spent, 2 for anything else.
#include "../loqzemar.h"

#include <stdio.h>
#include <stdlib.h>
#include <string.h>

enum { EVENTS = 32, CLIENTS = 16, WORDS = 6 };

static void *grown(void *rows, size_t count, size_t size) {
    if (count & (count - 1)) return rows;
    void *more = realloc(rows, (count ? 2 * count : 1) * size);
    if (!more) exit(2);
    return more;
}

// ---- the script

typedef struct {
    const char *at;
    size_t len;
} word;

typedef struct {
    word words[WORDS]; // the first words of the line
    word rests[WORDS]; // what comes after each of them, without the space
    int count;
} line;

typedef struct {
    word name;
    size_t from, to; // its statements
} procedure;

typedef struct {
    uint8_t client;
    uint32_t seq;
    word text;
} post;

static line *statements;
static procedure *procedures;
static post *posts[EVENTS];
static size_t statement_count, procedure_count, post_count[EVENTS], post_next[EVENTS];
static uint8_t client_events[CLIENTS];
static uint32_t client_count, client_posts[CLIENTS], client_taken[CLIENTS], maxpri;
static uint64_t births = UINT32_MAX;

static bool is(word w, const char *text) { return w.len == strlen(text) && memcmp(w.at, text, w.len) == 0; }
static bool same(word a, word b) { return a.len == b.len && memcmp(a.at, b.at, a.len) == 0; }

static uint32_t number(word w) {
    uint32_t n = 0;
    for (size_t i = 0; i < w.len; i++) n = n * 10 + (uint32_t)(w.at[i] - '0');
    return n;
}

static line split(word text) {
    line l = {0};
    while (l.count < WORDS && text.len > 0) {
        const char *space = memchr(text.at, ' ', text.len);
        size_t len = space ? (size_t)(space - text.at) : text.len;
        size_t past = space ? len + 1 : len;
        l.words[l.count] = (word){text.at, len};
        text = (word){text.at + past, text.len - past};
        l.rests[l.count++] = text;
    }
    for (int i = l.count; i < WORDS; i++) l.words[i] = l.rests[i] = (word){text.at + text.len, 0};
    return l;
}

static void add_post(line l) {
    uint8_t client = (uint8_t)number(l.words[1]), event = client_events[client];
    posts[event] = grown(posts[event], post_count[event], sizeof(post));
    posts[event][post_count[event]++] = (post){client, client_posts[client]++, l.rests[1]};
}

static void read_line(word text) {
    line l = split(text);
    word key = l.words[0];
    if (is(key, "lwp")) return;
    if (is(key, "native")) exit(2);
    if (is(key, "pod")) maxpri = number(l.words[1]);
    else if (is(key, "limit")) births = number(l.words[2]);
    else if (is(key, "client")) client_events[client_count++] = (uint8_t)number(l.words[2]);
    else if (is(key, "post")) add_post(l);
    else if (is(key, "proc")) {
        procedures = grown(procedures, procedure_count, sizeof *procedures);
        procedures[procedure_count++] = (procedure){l.words[1], statement_count, statement_count};
    } else {
        statements = grown(statements, statement_count, sizeof *statements);
        statements[statement_count++] = l;
        procedures[procedure_count - 1].to = statement_count;
    }
}

static uint32_t procedure_of(word name) {
    for (size_t i = 0; i < procedure_count; i++)
        if (same(procedures[i].name, name)) return (uint32_t)i;
    return UINT32_MAX;
}

// ---- names, of which each means nothing until it is set

enum { THREADS, MONITORS, CONDITIONS };

static struct {
    word name;
    uint64_t id;
} *names[3];
static size_t name_count[3];

static uint64_t *place_of(int list, word name) {
    for (size_t i = 0; i < name_count[list]; i++)
        if (same(names[list][i].name, name)) return &names[list][i].id;
    names[list] = grown(names[list], name_count[list], sizeof **names);
    names[list][name_count[list]].name = name;
    names[list][name_count[list]].id = LOQ_NULL;
    return &names[list][name_count[list]++].id;
}

// ---- threads

typedef struct {
    size_t procedure, place;
    size_t *handlers, handler_count; // the places after the handles that are set
} frame;

typedef struct {
    frame *frames;
    size_t frame_count;
    loq_effect_t got; // the answer that it goes on with
    uint64_t sender;
    loq_call_t call; // its last call, and the statement of it
    line *said;
} thread;

static thread *threads;
static size_t thread_count;

static void begin(thread *t, size_t procedure) {
    t->frames = grown(t->frames, t->frame_count, sizeof *t->frames);
    t->frames[t->frame_count++] = (frame){.procedure = procedure, .place = procedures[procedure].from};
}

static thread *thread_at(uint64_t id) {
    while (thread_count <= id) {
        threads = grown(threads, thread_count, sizeof *threads);
        threads[thread_count++] = (thread){.got = {.answer = LOQ_VALUE}, .sender = LOQ_NULL, .call = {.kind = UINT32_MAX}};
    }
    return &threads[id];
}

static void leave(thread *t) { free(t->frames[--t->frame_count].handlers); }

// A handler has caught: the thread goes on after the handle, in as many procedures as it had begun by then.
static void go_to_handler(thread *t) {
    while (t->frame_count > t->got.depth) leave(t);
    frame *f = &t->frames[t->frame_count - 1];
    f->handler_count = t->got.mark;
    f->place = f->handlers[t->got.mark];
}

// What was granted, by the call that was made.
static void take_granted(thread *t) {
    frame *f = &t->frames[t->frame_count - 1];
    switch (t->call.kind) {
    case LOQ_CREATE:
    case LOQ_AGENT: *place_of(THREADS, t->said->words[1]) = t->got.id; break;
    case LOQ_MON_CREATE: *place_of(MONITORS, t->said->words[1]) = t->got.id; break;
    case LOQ_CV_CREATE: *place_of(CONDITIONS, t->said->words[1]) = t->got.id; break;
    case LOQ_RECV: t->sender = t->got.id; break;
    case LOQ_UNHANDLE: f->handler_count--; break;
    case LOQ_CALLPROC: begin(t, t->call.number); break;
    case LOQ_RETURN: leave(t); break;
    case LOQ_HANDLE:
        f->handlers = grown(f->handlers, f->handler_count, sizeof *f->handlers);
        f->handlers[f->handler_count++] = f->place;
        break;
    }
}

static void take_answer(thread *t) {
    if (t->got.answer == LOQ_CAUGHT) go_to_handler(t);
    else if (t->got.answer != LOQ_REFUSED) take_granted(t);
}

static bool meets(const loq_effect_t *got, line *l) {
    if (is(l->words[1], "err")) return got->answer == LOQ_REFUSED;
    if (is(l->words[1], "caught")) return got->answer == LOQ_CAUGHT;
    if (is(l->words[1], "ok")) return got->answer != LOQ_REFUSED && got->answer != LOQ_CAUGHT;
    return got->answer == LOQ_VALUE && got->value == (int64_t)number(l->words[2]);
}

// The next statement that makes a call; none after the last.
static line *next_statement(thread *t) {
    frame *f = &t->frames[t->frame_count - 1];
    procedure *p = &procedures[f->procedure];
    while (f->place < p->to) {
        line *l = &statements[f->place];
        if (is(l->words[0], "again")) f->place = p->from;
        else if (is(l->words[0], "skip")) f->place += meets(&t->got, l) ? 2 : 1;
        else {
            f->place++;
            return l;
        }
    }
    return NULL;
}

// ---- calls

enum { NOTHING, WHO, SOURCE, PROC, NUMBER, PRIO, MON, COND, NEW, FLAGS, ROOM, MODE, PATTERN, FUNC, ARG, EXIT, OTHER, TEXT };

static const struct {
    const char *key;
    uint32_t kind;
    int slots[5];
} table[] = {
    {"create", LOQ_CREATE, {NEW, PROC, PRIO, FLAGS}}, {"destroy", LOQ_DESTROY, {WHO}}, {"ping", LOQ_PING, {WHO}},
    {"yield", LOQ_YIELD, {WHO}}, {"resched", LOQ_RESCHED, {PRIO}}, {"setpri", LOQ_SETPRI, {WHO, PRIO}},
    {"suspend", LOQ_SUSPEND, {WHO}}, {"resume", LOQ_RESUME, {WHO}}, {"join", LOQ_JOIN, {WHO}}, {"sleep", LOQ_SLEEP, {NUMBER}},
    {"self", LOQ_ME, {0}}, {"setmaxpri", LOQ_SETMAXPRI, {PRIO}}, {"setexit", LOQ_SETEXIT, {NUMBER}}, {"getexit", LOQ_GETEXIT, {0}},
    {"podexit", LOQ_PODEXIT, {NUMBER}}, {"threads", LOQ_THREADS, {0}}, {"say", LOQ_SAY, {TEXT}}, {"send", LOQ_SEND, {WHO, ROOM, TEXT}},
    {"recv", LOQ_RECV, {SOURCE, MODE}}, {"reply", LOQ_REPLY, {WHO, TEXT}}, {"senders", LOQ_SENDERS, {0}},
    {"receivers", LOQ_RECEIVERS, {0}}, {"agent", LOQ_AGENT, {NEW, NUMBER}}, {"agents", LOQ_AGENTS, {0}}, {"trap", LOQ_TRAP, {NUMBER}},
    {"moncreate", LOQ_MON_CREATE, {NEW}}, {"mondestroy", LOQ_MON_DESTROY, {MON}}, {"enter", LOQ_MON_ENTER, {MON}},
    {"condenter", LOQ_MON_CONDENTER, {MON}}, {"monexit", LOQ_MON_EXIT, {MON}}, {"monbreak", LOQ_MON_BREAK, {MON}},
    {"monitors", LOQ_MONITORS, {0}}, {"monwaiters", LOQ_MON_WAITERS, {MON}}, {"cvcreate", LOQ_CV_CREATE, {NEW, MON}},
    {"cvdestroy", LOQ_CV_DESTROY, {COND}}, {"wait", LOQ_CV_WAIT, {COND}}, {"notify", LOQ_CV_NOTIFY, {COND}},
    {"broadcast", LOQ_CV_BROADCAST, {COND}}, {"cvsend", LOQ_CV_SEND, {COND, OTHER}}, {"conditions", LOQ_CONDITIONS, {0}},
    {"cvwaiters", LOQ_CV_WAITERS, {COND}}, {"call", LOQ_CALLPROC, {PROC}}, {"return", LOQ_RETURN, {0}},
    {"handle", LOQ_HANDLE, {PATTERN, FUNC, ARG}}, {"unhandle", LOQ_UNHANDLE, {0}}, {"onexit", LOQ_ONEXIT, {EXIT}},
    {"raise", LOQ_RAISE, {NUMBER}}, {"excnotify", LOQ_EXCNOTIFY, {NUMBER}}, {"bound", LOQ_BOUND, {NUMBER}},
    {"uniqpatt", LOQ_UNIQPATT, {0}}, {"note", LOQ_SAY, {TEXT}},
};

static uint64_t who(uint64_t me, word w) {
    if (is(w, "self")) return me;
    if (is(w, "first")) return 0;
    if (is(w, "sender")) return threads[me].sender;
    return is(w, "none") ? LOQ_NULL : *place_of(THREADS, w);
}

static void put_flags(loq_call_t *call, word w) {
    call->suspended = memchr(w.at, 's', w.len) != NULL;
    call->nolastrites = memchr(w.at, 'n', w.len) != NULL;
    call->server = memchr(w.at, 'v', w.len) != NULL;
}

static void put_mode(loq_call_t *call, word w) {
    call->mode = is(w, "poll") ? LOQ_POLL : is(w, "wait") ? LOQ_BLOCK : LOQ_UNTIL;
    if (call->mode == LOQ_UNTIL) call->number = number(w);
}

static void put_slot(loq_call_t *call, uint64_t me, int slot, word w) {
    switch (slot) {
    case WHO: call->target = who(me, w); break;
    case OTHER: call->other = who(me, w); break;
    case SOURCE:
        call->any = is(w, "any");
        if (!call->any) call->target = who(me, w);
        break;
    case PROC: call->number = procedure_of(w); break;
    case NUMBER: call->number = number(w); break;
    case PRIO: call->prio = number(w); break;
    case ARG: call->arg = number(w); break;
    case MON: call->target = *place_of(MONITORS, w); break;
    case COND: call->target = *place_of(CONDITIONS, w); break;
    case FLAGS: put_flags(call, w); break;
    case ROOM: call->room = (uint8_t)number(w); break;
    case MODE: put_mode(call, w); break;
    case PATTERN:
        call->any = is(w, "all");
        if (!call->any) call->number = number(w);
        break;
    case FUNC: call->func = is(w, "give") ? LOQ_GIVE : is(w, "sum") ? LOQ_SUM : LOQ_NOTHING; break;
    }
}

// The call that a statement means from its word at `first` on, and its text.
static loq_call_t call_of(line *l, int first, uint64_t me, word *text) {
    for (size_t row = 0; row < sizeof table / sizeof *table; row++) {
        if (!is(l->words[first], table[row].key)) continue;
        loq_call_t call = {.kind = table[row].kind};
        for (int i = 0; i < 5 && table[row].slots[i] != NOTHING; i++) {
            int slot = table[row].slots[i];
            if (slot == TEXT) *text = l->rests[first + i];
            else if (slot == EXIT) {
                call = call_of(l, first + 1, me, text);
                call.exit = call.kind;
                call.kind = LOQ_ONEXIT;
            } else put_slot(&call, me, slot, l->words[first + 1 + i]);
        }
        return call;
    }
    exit(2);
}

// ---- the session

static const uint8_t *bytes(word w) { return (const uint8_t *)(w.len ? w.at : ""); }

static bool state_alone; // the state is written, and not the trace

// Writes what a function says of the pod.
static void write_told(loq_pod *pod, uint32_t (*tell)(loq_pod *, uint8_t *, size_t, size_t *)) {
    static uint8_t *out;
    static size_t room;
    size_t len;
    uint32_t status;
    while ((status = tell(pod, out ? out : (uint8_t *)"", room, &len)) == LOQ_TOO_SMALL) {
        room = len;
        if (!(out = realloc(out, room))) exit(2);
    }
    if (status != LOQ_DONE) exit(2);
    fwrite(out, 1, len, stdout);
}

// Threads that were answered go on with that; a thread that was created begins.
static void take_effects(loq_pod *pod, uint64_t me) {
    size_t count;
    if (loq_effects(pod, &count) != LOQ_DONE) exit(2);
    for (size_t i = 0; i < count; i++) {
        loq_effect_t effect;
        uint8_t text[LOQ_TEXT_MAX];
        uint64_t ids[1];
        loq_effect(pod, i, &effect, text, sizeof text, ids, 1);
        if (effect.kind != LOQ_ANSWERED) continue;
        thread_at(effect.tid)->got = effect;
        if (effect.tid == me && threads[me].call.kind == LOQ_CREATE && effect.answer == LOQ_THREAD) {
            uint32_t procedure = threads[me].call.number;
            begin(thread_at(effect.id), procedure);
        }
    }
    if (!state_alone) write_told(pod, loq_lines);
}

static void one_call(loq_pod *pod, uint64_t me) {
    word text = {0};
    take_answer(&threads[me]);
    line *said = next_statement(&threads[me]);
    loq_call_t call = said ? call_of(said, 0, me, &text) : (loq_call_t){.kind = LOQ_RETURN};
    threads[me].said = said;
    threads[me].call = call;
    if (loq_call(pod, &call, bytes(text), text.len) != LOQ_DONE) exit(2);
    take_effects(pod, me);
}

static bool is_armed(loq_pod *pod, int event) {
    bool armed = false;
    return post_next[event] < post_count[event] && loq_armed(pod, (uint8_t)event, &armed) == LOQ_DONE && armed;
}

// Each event may have one line taken.
static bool boundary(loq_pod *pod) {
    bool some = false;
    for (int event = 0; event < EVENTS; event++) {
        if (!is_armed(pod, event)) continue;
        post p = posts[event][post_next[event]++];
        client_taken[p.client]++;
        if (loq_deliver(pod, (uint8_t)event, p.client, p.seq, bytes(p.text), p.text.len) != LOQ_DONE) exit(2);
        take_effects(pod, LOQ_NULL);
        some = true;
    }
    return some;
}

static int run(loq_pod *pod, uint64_t turns) {
    for (uint64_t calls = 0;;) {
        uint64_t me;
        uint32_t why, status;
        if (loq_ending(pod, &why, &status) != LOQ_DONE) return 2;
        if (why == 1) return (int)status;
        if (why == 0 && calls == turns) {
            if (!state_alone) printf("spent %llu\n", (unsigned long long)turns);
            return 105;
        }
        bool some = boundary(pod);
        if (why == 0) {
            if (loq_current(pod, &me) != LOQ_DONE) return 2;
            one_call(pod, me);
            calls++;
        } else if (!some) {
            if (!state_alone) printf("stuck\n");
            return 104;
        }
    }
}

static char *read_file(const char *path, size_t *len) {
    FILE *file = fopen(path, "rb");
    char *text = malloc(1 << 24);
    if (!file || !text) exit(2);
    *len = fread(text, 1, 1 << 24, file);
    fclose(file);
    return text;
}

int main(int argc, char **argv) {
    size_t len;
    state_alone = argc > 1 && strcmp(argv[1], "--state") == 0;
    if (state_alone) argc--, argv++;
    if (argc < 2) return 2;
    char *text = read_file(argv[1], &len);
    for (size_t at = 0; at < len;) {
        const char *end = memchr(text + at, '\n', len - at);
        size_t length = end ? (size_t)(end - text) - at : len - at;
        read_line((word){text + at, length});
        at += length + 1;
    }
    loq_pod pod = LOQ_EMPTY;
    if (loq_pod_new(&pod, maxpri, births, (uint32_t)procedure_count) != LOQ_DONE) return 2;
    for (size_t i = 0; i < procedure_count; i++)
        if (loq_name(&pod, bytes(procedures[i].name), procedures[i].name.len) != LOQ_DONE) return 2;
    begin(thread_at(0), 0);
    int status = run(&pod, argc > 2 ? strtoull(argv[2], NULL, 10) : 100000);
    if (state_alone) write_told(&pod, loq_state);
    for (uint32_t client = 0; client < client_count && !state_alone; client++)
        if (client_posts[client] != client_taken[client])
            printf("left client %u %u\n", client, client_posts[client] - client_taken[client]);
    loq_pod_free(&pod);
    free(text);
    return status;
}
