// Loqzemar for C and C++: many threads in one process, one at a time, in an order that is the same on every run.
//
// The library never calls back. It says whose turn it is, you make that thread's next call, and it says what came of it.
//
//     loq_pod pod = LOQ_EMPTY;
//     loq_pod_new(&pod, maxpri, births, procs);
//     while (loq_current(&pod, &tid) == LOQ_DONE) {
//         loq_call(&pod, &next_call_of_thread_tid, text, text_len);
//         for (loq_effects(&pod, &count), i = 0; i < count; i++)
//             loq_effect(&pod, i, &effect, ..);   // answers, deaths, deliveries, the end; a long list: LOQ_TOO_SMALL, and ask again
//     }
//     loq_pod_free(&pod);
//
// What the library can't check:
//
//   - No pointer is null, each points to what it says, and no two of one call overlap. Of an empty array, the pointer is any that isn't
//     null, and the length is 0.
//   - The text of a call or a delivery is lent: its bytes stay as they are until the pod is freed. A program that makes a text for each
//     call grows with its calls.
//   - A pod begins as LOQ_EMPTY. You never write its fields and never copy it.
//   - A pod belongs to one thread of the system, and is passed to one function at a time. No function is called from a signal handler.
//
// All else that you may do wrong is answered by a status, and changes nothing.
#ifndef LOQZEMAR_H
#define LOQZEMAR_H

#include <stdbool.h>
#include <stddef.h>
#include <stdint.h>

#ifdef __cplusplus
extern "C" {
#endif

// A pod, or none. loq_pod_new makes one, loq_pod_free leaves none.
typedef struct loq_pod {
    void *at;
    bool made;
} loq_pod;

#define LOQ_EMPTY { NULL, false }

// What a function answers.
enum {
    LOQ_DONE = 0,
    LOQ_NO_MEMORY = 1,   // memory was refused, and the pod is as it was
    LOQ_NO_POD = 2,      // the handle holds no pod: none was made, or it was freed
    LOQ_NOBODY = 3,      // it is nobody's turn; loq_ending says why
    LOQ_BAD_CALL = 4,    // the record means no call: a kind, a mode, a function or an exit procedure that there isn't
    LOQ_BAD_TEXT = 5,    // more than 240 bytes, or one that isn't from a space to '~'
    LOQ_NOT_ARMED = 6,   // no line of the event can be taken
    LOQ_NO_EFFECT = 7,   // the last step did fewer things than that
    LOQ_BAD_NUMBER = 8,  // a number is out of its range
    LOQ_TOO_SMALL = 9,   // a buffer is too small; what is told says how large it should be, and the front is in it
    LOQ_DIFFERS = 10,    // a line is not that of the recorded trace
    LOQ_BAD_SCRIPT = 11  // the bytes are no script
};

#define LOQ_NULL UINT64_MAX // the thread, monitor or condition that there never is
#define LOQ_TEXT_MAX 240    // the most bytes of a text

// The kinds of calls, and what each reads of a loq_call_t.
enum {
    LOQ_CREATE = 0,        // number: the procedure, from 0; prio; suspended, nolastrites, server
    LOQ_DESTROY = 1,       // target
    LOQ_PING = 2,          // target
    LOQ_YIELD = 3,         // target
    LOQ_RESCHED = 4,       // prio
    LOQ_SETPRI = 5,        // target, prio
    LOQ_SUSPEND = 6,       // target
    LOQ_RESUME = 7,        // target
    LOQ_JOIN = 8,          // target
    LOQ_SLEEP = 9,         // number: ticks
    LOQ_ME = 10,
    LOQ_SETMAXPRI = 11,    // prio
    LOQ_SETEXIT = 12,      // number: the exit status
    LOQ_GETEXIT = 13,
    LOQ_PODEXIT = 14,      // number: the exit status
    LOQ_THREADS = 15,
    LOQ_SAY = 16,          // text
    LOQ_SEND = 17,         // target, room: how many bytes the reply may have; text
    LOQ_RECV = 18,         // target, or any; mode; number: ticks
    LOQ_REPLY = 19,        // target, text
    LOQ_SENDERS = 20,
    LOQ_RECEIVERS = 21,
    LOQ_AGENT = 22,        // number: the event
    LOQ_AGENTS = 23,
    LOQ_TRAP = 24,         // number: the event
    LOQ_MON_CREATE = 32,
    LOQ_MON_DESTROY = 33,  // target: the monitor, and so on
    LOQ_MON_ENTER = 34,
    LOQ_MON_CONDENTER = 35,
    LOQ_MON_EXIT = 36,
    LOQ_MON_BREAK = 37,
    LOQ_MONITORS = 38,
    LOQ_MON_WAITERS = 39,
    LOQ_CV_CREATE = 40,    // target: the monitor
    LOQ_CV_DESTROY = 41,   // target: the condition, and so on
    LOQ_CV_WAIT = 42,
    LOQ_CV_NOTIFY = 43,
    LOQ_CV_BROADCAST = 44,
    LOQ_CV_SEND = 45,      // target; other: the thread
    LOQ_CONDITIONS = 46,
    LOQ_CV_WAITERS = 47,
    LOQ_CALLPROC = 48,     // number: the procedure
    LOQ_RETURN = 49,
    LOQ_HANDLE = 50,       // number: the pattern, or any; func; arg
    LOQ_UNHANDLE = 51,
    LOQ_ONEXIT = 52,       // exit: the kind of the call that it makes, one of LOQ_MON_EXIT, LOQ_MON_BREAK, LOQ_CV_NOTIFY,
                           // LOQ_CV_BROADCAST, LOQ_REPLY, LOQ_RESUME, LOQ_SETEXIT and LOQ_SAY; target, number, text as that call's
    LOQ_RAISE = 53,        // number: the pattern
    LOQ_EXCNOTIFY = 54,    // number: the pattern
    LOQ_BOUND = 55,        // number: the pattern
    LOQ_UNIQPATT = 56
};
// mode: LOQ_POLL, which is 0, never waits; LOQ_BLOCK waits; LOQ_UNTIL waits for so many ticks
enum { LOQ_POLL = 0, LOQ_BLOCK = 1, LOQ_UNTIL = 2 };
enum { LOQ_NOTHING = 0, LOQ_GIVE = 1, LOQ_SUM = 2 };  // func

// A call. What isn't named for its kind is not read.
typedef struct loq_call_t {
    uint32_t kind, number, arg, prio, exit;
    uint64_t target, other;
    uint8_t room, mode, func;
    bool any, suspended, nolastrites, server;
} loq_call_t;

// The kinds of effects, and what each fills in. All else is 0, but for an answer and the kind of a call that there isn't: UINT32_MAX.
enum {
    LOQ_CALLED = 0,     // tid, call, text: the call that was made, where a trap was raised before it
    LOQ_ANSWERED = 1,   // tid, and by answer what is below
    LOQ_EXITED = 2,     // tid, reg, call, text: an exit procedure ran; and by answer
    LOQ_DIED = 3,       // tid
    LOQ_DELIVERED = 4,  // tid: the agent, or LOQ_NULL for a trap; small: the event
    LOQ_TICKED = 5,     // id: how often the clock has ticked
    LOQ_ENDED = 6,      // small: the exit status
    LOQ_TRAPPED = 7,    // tid; small: the event
    LOQ_RITES = 8       // tid: the agent; id: the dead thread
};
// The kinds of answers.
enum {
    LOQ_VALUE = 0,      // value
    LOQ_THREAD = 1,     // id
    LOQ_MONITOR = 2,    // id
    LOQ_CONDITION = 3,  // id
    LOQ_LETTER = 4,     // id: from whom; small: the room for a reply; text
    LOQ_REPLIED = 5,    // text
    LOQ_BOUND_TO = 6,   // small: the func; arg
    LOQ_CAUGHT = 7,     // depth, mark, pattern
    LOQ_IDS = 8,        // small: 0 threads, 1 monitors, 2 conditions; ids
    LOQ_REFUSED = 9     // small: one of the errors
};
// The errors.
enum {
    LOQ_NOERROR = 0,    // it is never answered
    LOQ_NONEXIST = 1,
    LOQ_TIMEOUT = 2,
    LOQ_INUSE = 3,
    LOQ_INVALIDARG = 4,
    LOQ_NOROOM = 5,
    LOQ_NOTOWNED = 6,
    LOQ_ILLPRIO = 7,
    LOQ_NOWAIT = 8
};

// One thing that a step did. A text or a list goes to buffers of yours: their lengths are here.
typedef struct loq_effect_t {
    uint32_t kind, answer;
    uint64_t tid;
    int64_t value;
    uint64_t id, reg;
    uint32_t small, arg, depth, mark, pattern;
    size_t text_len, ids_len;
    loq_call_t call;
} loq_effect_t;

// Makes a pod: its greatest priority, 1 to 255; how many threads, monitors and conditions may ever be born, of each 1 to 4,294,967,295;
// and how many procedures it has, 1 or more. Procedure 0 is that of the first thread, whose
// priority is the greatest. A pod that was there is freed.
// LOQ_BAD_NUMBER, LOQ_NO_MEMORY: the handle is as it was.
uint32_t loq_pod_new(loq_pod *pod, uint32_t maxpri, uint64_t births, uint32_t procs);

// Frees the pod, if there is one.
void loq_pod_free(loq_pod *pod);

// Whose turn it is. LOQ_NO_POD, LOQ_NOBODY: the number is as it was.
uint32_t loq_current(loq_pod *pod, uint64_t *tid);

// Why it is nobody's turn: 0 it is somebody's, 1 the pod has ended with the status, 2 nobody may run as it is. LOQ_NO_POD.
uint32_t loq_ending(loq_pod *pod, uint32_t *why, uint32_t *status);

// Whether a line of the event, 0 to 31, can be taken; of no other event it can. Event 0 is the clock. LOQ_NO_POD.
uint32_t loq_armed(loq_pod *pod, uint8_t event, bool *armed);

// The next call of the thread whose turn it is. LOQ_BAD_TEXT, LOQ_BAD_CALL, LOQ_NO_POD, LOQ_NOBODY: all is as it was.
// LOQ_NO_MEMORY: the pod is as it was, and the last step's effects are gone.
uint32_t loq_call(loq_pod *pod, const loq_call_t *call, const uint8_t *text, size_t text_len);

// Takes a line of an event. A trace prints the client and the number of the line, from 0. LOQ_BAD_TEXT, LOQ_NO_POD, LOQ_NOT_ARMED.
uint32_t loq_deliver(loq_pod *pod, uint8_t event, uint8_t client, uint32_t seq, const uint8_t *text, size_t text_len);

// How many things the last call or delivery did. LOQ_NO_POD.
uint32_t loq_effects(loq_pod *pod, size_t *count);

// One of them, from 0, its text and its list. LOQ_TOO_SMALL: the record says how many bytes and numbers there are, and the first of them
// are in the buffers. LOQ_NO_POD, LOQ_NO_EFFECT: the record's kind is UINT32_MAX, and the buffers are as they were.
uint32_t loq_effect(loq_pod *pod, size_t at, loq_effect_t *effect, uint8_t *text, size_t text_room, uint64_t *ids, size_t ids_room);

// Names the next procedure, from 0 on, as traces print it. LOQ_BAD_TEXT, LOQ_NO_POD, LOQ_NO_MEMORY: all is as it was.
uint32_t loq_name(loq_pod *pod, const uint8_t *name, size_t name_len);

// The lines of the trace of the last call or delivery, and how many bytes they are. LOQ_TOO_SMALL: the first of them are in the buffer.
// LOQ_NO_POD, LOQ_NO_MEMORY: the buffer and the number are as they were.
uint32_t loq_lines(loq_pod *pod, uint8_t *out, size_t room, size_t *len);

// The text of the pod's state, as lwpstate prints it with no clients, and how many bytes it is: who waits for whom, who holds what, and
// who waits in a cycle. Procedures have the names that loq_name gave them. It reads the whole pod, and changes nothing. LOQ_TOO_SMALL: the
// first bytes are in the buffer. LOQ_NO_POD, LOQ_NO_MEMORY: the buffer and the number are as they were.
uint32_t loq_state(loq_pod *pod, uint8_t *out, size_t room, size_t *len);

// The lines of the last call or delivery, compared with a recorded trace from its byte *at on, where its line *line begins: 0 and 1 before
// the first step. Where they are the trace's, both then tell where its next line begins. LOQ_DIFFERS: both tell where the first line begins
// that differs; a trace that ends before it differs too. LOQ_NO_POD, LOQ_NO_MEMORY: both are as they were. Lines are counted up to
// SIZE_MAX, and a place after the end of the trace is as good as its end. The bytes of the trace need only be there during the call.
uint32_t loq_follow(loq_pod *pod, const uint8_t *trace, size_t trace_len, size_t *at, size_t *line);

// ---- Whole sessions: a script in, bytes out, as the programs of Loqzemar read and write them. They use no pod.

// Why bytes are no script. Where several fit, the first is told.
enum {
    LOQ_FINE = 0,         // they are one
    LOQ_TOO_LARGE = 1,    // more than 16,777,216 bytes
    LOQ_UNENDED = 2,      // the last line has no newline
    LOQ_NOT_PRINTABLE = 3,
    LOQ_BAD_HEADER = 4,
    LOQ_BAD_POD = 5,
    LOQ_BAD_LIMIT = 6,
    LOQ_BAD_CLIENT = 7,
    LOQ_BAD_NATIVE = 8,
    LOQ_BAD_PROC = 9,
    LOQ_BAD_POST = 10,
    LOQ_BAD_AGAIN = 11,
    LOQ_BAD_STATEMENT = 12,
    LOQ_MISSING = 13      // no procedure has statements
};

// How a session ended. What isn't named for its status is 0.
typedef struct loq_session_t {
    uint32_t status;  // what the program exits with: 103 the bytes are no script; of a replay 0 the same or 107 another; of all sessions see
                      // below; of the others 0 to 99 the pod has ended with it, 104 stuck, 105 all calls that are allowed were made
    uint32_t reason;  // 103: why
    uint64_t line;    // 103: the first bad line, from 1, or 0 where the whole is too large; 107: the first line that differs, from 1
    uint64_t calls;   // how many calls were made; of a replay, those whose first lines are among the lines that don't differ
    uint64_t taken;   // how many lines of clients were taken, and so on
} loq_session_t;

enum { LOQ_CALLS_MAX = 1000000 }; // the most calls that may be allowed

// Runs a script with all lines of its clients in place, and at most so many calls, from 1 to LOQ_CALLS_MAX. Its trace goes to the front of
// the buffer, and len tells how many bytes it has; of bytes that are no script, the line that lwpserve writes on standard error.
// LOQ_BAD_SCRIPT: session says why. LOQ_TOO_SMALL: all is told, but the buffer has the first bytes alone; another call runs all again.
// LOQ_BAD_NUMBER, LOQ_NO_MEMORY: nothing is written.
uint32_t loq_plan(const uint8_t *script, size_t script_len, uint64_t calls, uint8_t *out, size_t room, size_t *len,
                  loq_session_t *session);

// Does so, and tells in place of the trace what one client, 0 to 15, is told, as `lwpserve answers` does.
uint32_t loq_answers(const uint8_t *script, size_t script_len, uint8_t client, uint64_t calls, uint8_t *out, size_t room, size_t *len,
                     loq_session_t *session);

// Whether recorded bytes are a trace of the script, of at most so many calls, whatever the order in which lines were taken: tells what
// `lwpserve replay` does. The statuses are those of loq_plan.
uint32_t loq_replay(const uint8_t *script, size_t script_len, const uint8_t *trace, size_t trace_len, uint64_t calls, uint8_t *out,
                    size_t room, size_t *len, loq_session_t *session);

// Tells what `lwpcheck` does of a script, and with json what `lwpcheck --json` does. The grade is 0 if nothing is wrong, 1 if something is
// doubtful, 2 if the bytes are no script. LOQ_TOO_SMALL: as above. LOQ_NO_MEMORY: nothing is written.
uint32_t loq_check(const uint8_t *script, size_t script_len, bool json, uint8_t *out, size_t room, size_t *len, uint32_t *grade);

// ---- All sessions of a script, whenever the lines of its clients come: what `lwpexplore` tells. A core is all of a session that counts for
// how it goes on. At most so many are kept, from 1 to LOQ_CORES_MAX; each takes some kilobytes, and no call ends before the search does.

enum { LOQ_CORES_MAX = 1000000 }; // the most cores that may be kept

// Tells how many cores and steps there are, and each kind of end, with its cores and the way to the first. The status of the session is 109
// where a kind is listed other than an end of the pod with no lines left; else 110 where there are more cores; else 0. What is told of bytes
// that are no script, and the statuses, are as of loq_plan. All else of the session is 0.
uint32_t loq_explore_ends(const uint8_t *script, size_t script_len, uint64_t cores, uint8_t *out, size_t room, size_t *len,
                          loq_session_t *session);

// Tells the trace of the way to the first core of a kind, by its number in that list, from 1 to UINT32_MAX; where the kind is endless, with
// one round after it. For any other kind loq_replay finds it to be the same. The status of the session is 0; or 111, and the text is empty,
// where there are not so many kinds.
uint32_t loq_explore_trace(const uint8_t *script, size_t script_len, uint64_t kind, uint64_t cores, uint8_t *out, size_t room, size_t *len,
                           loq_session_t *session);

// Tells how many calls and takes lead to the first step that writes a line of a trace, which is given without its newline; or `never` where no
// session writes it; or `cut` where it wasn't found and there are more cores. The status of the session is 109, 0 or 110.
uint32_t loq_explore_line(const uint8_t *script, size_t script_len, const uint8_t *line, size_t line_len, uint64_t cores, uint8_t *out,
                          size_t room, size_t *len, loq_session_t *session);

#ifdef __cplusplus
}
#endif

#endif
