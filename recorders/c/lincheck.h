/* Records what threads call on objects, as a history for lincheck. Copy this file; it needs the C library alone (C11).
 *
 *     struct lincheck_recorder *recorder = lincheck_new();
 *     lincheck_object(recorder, "q", "queue", 0);                         before the first process
 *     struct lincheck_process *me = lincheck_process(recorder);           one for each thread
 *     lincheck_record(me, "q", "enq", (7), (put(7), lincheck_ok));        one call: its instants and its reply
 *     lincheck_record(me, "q", "deq", (), take(&item) ? lincheck_number(item) : lincheck_empty);
 *     lincheck_write(recorder, stdout);                                   at any time
 *
 * The last argument of lincheck_record makes the call. Its value is the reply: lincheck_ok, lincheck_number(7),
 * lincheck_flag(1) or lincheck_empty, and where the call has no reply, lincheck_failed if it was not done and never will be,
 * or lincheck_unknown if nobody knows. lincheck_call, then lincheck_ret, lincheck_fail or lincheck_info, do the same in two
 * lines.
 *
 * After lincheck_info the thread goes on as a new process, with a number of its own. lincheck_value(recorder, "red") is the
 * whole number that stands for a text. What is given wrongly (a name, a kind, an operation, a call while one is pending) ends
 * the program by abort, with a sentence on standard error.
 *
 * lincheck_write may be called while threads run or hang: calls that have not returned are pending.
 * lincheck_write_at_end(recorder, "history.jsonl") writes the history when the program ends, by exit or by a signal that can
 * be caught, so also after abort and a fault of memory (on POSIX alone). */
#ifndef LINCHECK_H
#define LINCHECK_H
#if defined(__STRICT_ANSI__) && !defined(_POSIX_C_SOURCE)
#define _POSIX_C_SOURCE 200809L /* for lincheck_write_at_end under -std=c11, where this file is included first */
#endif
#include <inttypes.h>
#include <signal.h>
#include <stdatomic.h>
#include <stddef.h>
#include <stdint.h>
#include <stdio.h>
#include <stdlib.h>
#include <string.h>
#ifdef SA_SIGINFO
#include <fcntl.h>
#include <sys/stat.h>
#include <unistd.h>
#define LINCHECK_AT_END 1
#endif

enum { LINCHECK_CHUNK = 512, LINCHECK_BUCKETS = 1024, LINCHECK_OBJECTS = 1024 };
#define LINCHECK_FIRST_TEXT INT64_C(9000000000000000001) /* few tests use numbers as large */

enum lincheck_what { LINCHECK_CALL, LINCHECK_OK, LINCHECK_NUMBER, LINCHECK_FLAG, LINCHECK_EMPTY, LINCHECK_FAIL, LINCHECK_INFO };

struct lincheck_operation { const char *name; int args, answers_ok; };
struct lincheck_kind { const char *name; int has_start; struct lincheck_operation operations[3]; };

static const struct lincheck_kind lincheck_kinds[] = {
    { "register", 1, { { "write", 1, 1 }, { "read", 0, 0 }, { "cas", 2, 0 } } },
    { "counter", 1, { { "add", 1, 1 }, { "get", 0, 0 } } },
    { "queue", 0, { { "enq", 1, 1 }, { "deq", 0, 0 } } },
    { "stack", 0, { { "push", 1, 1 }, { "pop", 0, 0 } } },
    { "set", 0, { { "add", 1, 0 }, { "remove", 1, 0 }, { "contains", 1, 0 } } },
    { "mutex", 0, { { "lock", 0, 1 }, { "unlock", 0, 1 }, { "try_lock", 0, 0 } } },
    { "map", 0, { { "put", 2, 1 }, { "get", 1, 0 }, { "delete", 1, 0 } } },
};

/* What a call answered, or that it did not. */
struct lincheck_reply { enum lincheck_what what; int64_t value; };

static const struct lincheck_reply lincheck_ok = { LINCHECK_OK, 0 };
static const struct lincheck_reply lincheck_empty = { LINCHECK_EMPTY, 0 };
static const struct lincheck_reply lincheck_failed = { LINCHECK_FAIL, 0 };
static const struct lincheck_reply lincheck_unknown = { LINCHECK_INFO, 0 };

static inline struct lincheck_reply lincheck_number(int64_t value) {
    return (struct lincheck_reply){ LINCHECK_NUMBER, value };
}

static inline struct lincheck_reply lincheck_flag(int is_so) {
    return (struct lincheck_reply){ LINCHECK_FLAG, is_so != 0 };
}

/* A call or its end, in plain numbers. The instant of a call that is about to begin is 0. */
struct lincheck_event {
    atomic_uint_fast64_t instant;
    uint32_t process;
    uint16_t object;
    uint8_t operation, what;
    int64_t values[2]; /* the arguments, or the reply */
};

struct lincheck_chunk {
    struct lincheck_event events[LINCHECK_CHUNK];
    _Atomic(struct lincheck_chunk *) next;
};

/* Where a writer is in the events of a process. */
struct lincheck_cursor { const struct lincheck_chunk *chunk; size_t at, left; };

/* What one thread records. No other thread uses it. */
struct lincheck_process {
    struct lincheck_recorder *recorder;
    struct lincheck_process *next;
    const struct lincheck_operation *pending; /* the operation of the pending call */
    int object;                               /* the object of the last call */
    uint32_t number;
    struct lincheck_chunk *first, *last;
    size_t at; /* in the last chunk */
    atomic_size_t length;
    struct lincheck_cursor cursors[2]; /* of lincheck_write, and of the writer at the end */
};

struct lincheck_declared { char name[65]; const struct lincheck_kind *kind; int64_t start; };

struct lincheck_text { int64_t number; const struct lincheck_text *by_text, *by_number; char text[]; };

struct lincheck_recorder {
    char before[64];
    atomic_uint_fast64_t instants; /* in a cache line of its own */
    char after[64];
    _Atomic(struct lincheck_process *) processes;
    struct lincheck_declared objects[LINCHECK_OBJECTS];
    int count;        /* of the objects */
    atomic_flag lock; /* of the numbers, and of who adds a process or a text */
    uint32_t *numbers, greatest;
    size_t numbers_length;
    int64_t texts;
    _Atomic(const struct lincheck_text *) by_text[LINCHECK_BUCKETS], by_number[LINCHECK_BUCKETS];
    const char *path;
};

/* A call of this operation begins now; the arguments stand in brackets of their own. */
#define lincheck_call(me, object, op, args) \
    lincheck_call_of(me, object, op, (const int64_t[]){ 0, LINCHECK_LIST args }, \
                     (int)(sizeof(const int64_t[]){ 0, LINCHECK_LIST args } / sizeof(int64_t)) - 1)
#define LINCHECK_LIST(...) __VA_ARGS__

/* Records the call that the operation, an expression, makes. */
#define lincheck_record(me, object, op, args, operation) (lincheck_call(me, object, op, args), lincheck_ret(me, operation))

static inline void lincheck_mistake(const char *what, const char *which) {
    fprintf(stderr, "%s%s\n", what, which);
    abort();
}

static inline void lincheck_mistake_of(uint32_t process, const char *what) {
    fprintf(stderr, "process %" PRIu32 " %s\n", process, what);
    abort();
}

static inline void *lincheck_memory(void *old, size_t size) {
    void *made = realloc(old, size);
    if (!made) lincheck_mistake("lincheck: ", "out of memory");
    return made;
}

static inline void *lincheck_zeros(size_t size) {
    return memset(lincheck_memory(NULL, size), 0, size);
}

static inline void lincheck_lock(struct lincheck_recorder *it) {
    while (atomic_flag_test_and_set(&it->lock)) { }
}

static inline void lincheck_unlock(struct lincheck_recorder *it) {
    atomic_flag_clear(&it->lock);
}

static inline struct lincheck_recorder *lincheck_new(void) {
    struct lincheck_recorder *made = lincheck_zeros(sizeof *made);
    atomic_init(&made->instants, 1);
    atomic_flag_clear(&made->lock);
    return made;
}

/* The place of an object, or the number of objects where there is none. */
static inline int lincheck_find(const struct lincheck_recorder *it, const char *name) {
    int at = 0;
    while (at < it->count && strcmp(it->objects[at].name, name) != 0) at++;
    return at;
}

/* Declares an object, before the first process. A register and a counter may start with another number than 0. */
static inline void lincheck_object(struct lincheck_recorder *it, const char *name, const char *kind, int64_t start) {
    static const char letters[] = "ABCDEFGHIJKLMNOPQRSTUVWXYZabcdefghijklmnopqrstuvwxyz0123456789_./:-";
    const size_t kinds = sizeof lincheck_kinds / sizeof *lincheck_kinds, length = strlen(name);
    size_t of = 0;
    while (of < kinds && strcmp(lincheck_kinds[of].name, kind) != 0) of++;
    if (length == 0 || length > 64 || strspn(name, letters) != length) lincheck_mistake("no name of an object: ", name);
    if (of == kinds) lincheck_mistake("no kind of an object: ", kind);
    if (start != 0 && !lincheck_kinds[of].has_start) lincheck_mistake(kind, " has no start");
    if (atomic_load(&it->processes)) lincheck_mistake("objects are declared before the first process", "");
    if (lincheck_find(it, name) != it->count) lincheck_mistake("object is declared already: ", name);
    if (it->count == LINCHECK_OBJECTS) lincheck_mistake("more than 1024 objects", "");
    struct lincheck_declared *made = &it->objects[it->count++];
    memcpy(made->name, name, length + 1);
    made->kind = &lincheck_kinds[of];
    made->start = start;
}

/* Under the lock: notes that a process has this number. */
static inline uint32_t lincheck_take_number(struct lincheck_recorder *it, uint32_t number) {
    it->numbers = lincheck_memory(it->numbers, (it->numbers_length + 1) * sizeof *it->numbers);
    it->numbers[it->numbers_length++] = number;
    if (number > it->greatest) it->greatest = number;
    return number;
}

/* Under the lock: a number that no process has or had. */
static inline uint32_t lincheck_next_number(struct lincheck_recorder *it) {
    if (it->greatest == UINT32_MAX) lincheck_mistake("no number is left for a process", "");
    return lincheck_take_number(it, it->greatest + 1);
}

static inline struct lincheck_process *lincheck_add_process(struct lincheck_recorder *it, uint32_t number) {
    struct lincheck_process *made = lincheck_zeros(sizeof *made);
    made->recorder = it;
    made->number = number;
    made->first = made->last = lincheck_zeros(sizeof *made->first);
    made->next = atomic_load(&it->processes);
    atomic_store(&it->processes, made);
    return made;
}

/* A process for one thread, whose number is one more than the greatest until now. */
static inline struct lincheck_process *lincheck_process(struct lincheck_recorder *it) {
    lincheck_lock(it);
    struct lincheck_process *made = lincheck_add_process(it, lincheck_next_number(it));
    lincheck_unlock(it);
    return made;
}

/* The same with this number, which no process has or had. */
static inline struct lincheck_process *lincheck_process_of(struct lincheck_recorder *it, uint32_t number) {
    lincheck_lock(it);
    for (size_t i = 0; i < it->numbers_length; i++)
        if (it->numbers[i] == number) lincheck_mistake_of(number, "is there already");
    struct lincheck_process *made = lincheck_add_process(it, lincheck_take_number(it, number));
    lincheck_unlock(it);
    return made;
}

static inline const struct lincheck_text *lincheck_known(const struct lincheck_text *it, const char *text) {
    while (it && strcmp(it->text, text) != 0) it = it->by_text;
    return it;
}

/* The whole number that stands for a text: equal texts, equal numbers. */
static inline int64_t lincheck_value(struct lincheck_recorder *it, const char *text) {
    size_t length = 0, hash = 5381;
    for (; text[length]; length++) hash = 33 * hash + (unsigned char)text[length];
    hash %= LINCHECK_BUCKETS;
    const struct lincheck_text *known = lincheck_known(atomic_load(&it->by_text[hash]), text);
    if (known) return known->number;
    lincheck_lock(it);
    known = lincheck_known(atomic_load(&it->by_text[hash]), text);
    if (!known) {
        struct lincheck_text *made = lincheck_memory(NULL, sizeof *made + length + 1);
        made->number = LINCHECK_FIRST_TEXT + it->texts++;
        memcpy(made->text, text, length + 1);
        made->by_text = atomic_load(&it->by_text[hash]);
        made->by_number = atomic_load(&it->by_number[made->number % LINCHECK_BUCKETS]);
        atomic_store(&it->by_number[made->number % LINCHECK_BUCKETS], made);
        atomic_store(&it->by_text[hash], made);
        known = made;
    }
    lincheck_unlock(it);
    return known->number;
}

static inline uint64_t lincheck_now(struct lincheck_process *me) {
    return atomic_fetch_add(&me->recorder->instants, 1);
}

/* The place of the next event, with what all events have. */
static inline struct lincheck_event *lincheck_room(struct lincheck_process *me, enum lincheck_what what) {
    if (me->at == LINCHECK_CHUNK) {
        struct lincheck_chunk *made = lincheck_zeros(sizeof *made);
        atomic_store_explicit(&me->last->next, made, memory_order_release);
        me->last = made;
        me->at = 0;
    }
    struct lincheck_event *event = &me->last->events[me->at];
    event->process = me->number;
    event->object = (uint16_t)me->object;
    event->what = (uint8_t)what;
    return event;
}

/* Shows the event that was filled to a writer. */
static inline void lincheck_show(struct lincheck_process *me) {
    me->at++;
    atomic_store_explicit(&me->length, atomic_load_explicit(&me->length, memory_order_relaxed) + 1, memory_order_release);
}

static inline void lincheck_call_of(struct lincheck_process *me, const char *object, const char *op, const int64_t *args, int count) {
    const struct lincheck_recorder *it = me->recorder;
    if (me->pending) lincheck_mistake_of(me->number, "has a pending call");
    if (strcmp(it->objects[me->object].name, object) != 0) me->object = lincheck_find(it, object);
    if (me->object == it->count) lincheck_mistake("unknown object: ", object);
    const struct lincheck_kind *kind = it->objects[me->object].kind;
    int of = 0;
    while (of < 3 && kind->operations[of].name && strcmp(kind->operations[of].name, op) != 0) of++;
    if (of == 3 || !kind->operations[of].name) {
        fprintf(stderr, "%s has no operation ", kind->name);
        lincheck_mistake(op, "");
    }
    if (count != kind->operations[of].args) lincheck_mistake("wrong number of arguments: ", op);
    struct lincheck_event *event = lincheck_room(me, LINCHECK_CALL);
    event->operation = (uint8_t)of;
    for (int i = 0; i < count; i++) event->values[i] = args[i + 1]; /* behind a 0, so that the list is never empty */
    me->pending = &kind->operations[of];
    lincheck_show(me);
    atomic_store_explicit(&event->instant, lincheck_now(me), memory_order_relaxed);
}

static inline void lincheck_end(struct lincheck_process *me, uint64_t instant, struct lincheck_reply reply) {
    if (!me->pending) lincheck_mistake_of(me->number, "has no pending call");
    struct lincheck_event *event = lincheck_room(me, reply.what);
    atomic_store_explicit(&event->instant, instant, memory_order_relaxed);
    event->values[0] = reply.value;
    me->pending = NULL;
    lincheck_show(me);
    if (reply.what != LINCHECK_INFO) return;
    lincheck_lock(me->recorder);
    me->number = lincheck_next_number(me->recorder);
    lincheck_unlock(me->recorder);
}

/* The pending call has answered. */
static inline void lincheck_ret(struct lincheck_process *me, struct lincheck_reply reply) {
    const uint64_t instant = lincheck_now(me);
    const int is_answer = reply.what != LINCHECK_FAIL && reply.what != LINCHECK_INFO;
    if (me->pending && is_answer && me->pending->answers_ok != (reply.what == LINCHECK_OK))
        lincheck_mistake(me->pending->name, me->pending->answers_ok ? " answers ok alone" : " does not answer ok");
    lincheck_end(me, instant, reply);
}

/* The pending call was not done and never will be. */
static inline void lincheck_fail(struct lincheck_process *me) {
    lincheck_end(me, lincheck_now(me), lincheck_failed);
}

/* Nobody knows whether the pending call was done. The thread goes on as a new process. */
static inline void lincheck_info(struct lincheck_process *me) {
    lincheck_end(me, lincheck_now(me), lincheck_unknown);
}

/* Text on its way to a stream, or to a file where there is none. It takes no memory and no lock, since a handler of a signal
 * writes too. */
struct lincheck_out { FILE *stream; int file, has_failed; size_t count; char bytes[4096]; };

static inline void lincheck_flush(struct lincheck_out *out) {
    if (out->stream && fwrite(out->bytes, 1, out->count, out->stream) != out->count) out->has_failed = 1;
#ifdef LINCHECK_AT_END
    for (size_t done = 0; !out->stream && !out->has_failed && done < out->count;) {
        const ptrdiff_t more = write(out->file, out->bytes + done, out->count - done);
        if (more < 0) out->has_failed = 1;
        else done += (size_t)more;
    }
#endif
    out->count = 0;
}

static inline void lincheck_put(struct lincheck_out *out, const char *text, size_t count) {
    for (size_t i = 0; i < count; i++) {
        if (out->count == sizeof out->bytes) lincheck_flush(out);
        out->bytes[out->count++] = text[i];
    }
}

static inline void lincheck_say(struct lincheck_out *out, const char *text) {
    lincheck_put(out, text, strlen(text));
}

static inline void lincheck_say_number(struct lincheck_out *out, int64_t number) {
    char digits[20];
    size_t at = sizeof digits;
    uint64_t left = number < 0 ? 0 - (uint64_t)number : (uint64_t)number;
    do digits[--at] = (char)('0' + left % 10); while (left /= 10);
    if (number < 0) lincheck_say(out, "-");
    lincheck_put(out, digits + at, sizeof digits - at);
}

/* The number of bytes of the character that a text begins with, or 0 where it is no UTF-8. */
static inline size_t lincheck_character(const char *text) {
    const unsigned char *byte = (const unsigned char *)text;
    const unsigned first = byte[0], second = first ? byte[1] : 0;
    const size_t size = first < 0x80 ? 1 : first < 0xC2 ? 0 : first < 0xE0 ? 2 : first < 0xF0 ? 3 : first < 0xF5 ? 4 : 0;
    for (size_t i = 1; i < size; i++)
        if ((byte[i] & 0xC0) != 0x80) return 0;
    const int is_odd = (first == 0xE0 && second < 0xA0) || (first == 0xED && second > 0x9F) || (first == 0xF0 && second < 0x90)
                    || (first == 0xF4 && second > 0x8F);
    return is_odd ? 0 : size;
}

/* The text as JSON has it, at most 1,000 bytes of it, since a line may not be long. */
static inline void lincheck_quote(struct lincheck_out *out, const char *text) {
    lincheck_say(out, "\"");
    for (size_t at = 0; text[at] && at < 1000;) {
        const size_t size = lincheck_character(text + at);
        const unsigned char byte = (unsigned char)text[at];
        if (size == 0) lincheck_say(out, "\\ufffd");
        else if (byte < 0x20) { lincheck_say(out, byte < 0x10 ? "\\u000" : "\\u001"); lincheck_put(out, &"0123456789abcdef"[byte % 16], 1); }
        else { if (byte == '"' || byte == '\\') lincheck_say(out, "\\"); lincheck_put(out, text + at, size); }
        at += size ? size : 1;
    }
    lincheck_say(out, "\"");
}

/* The text that a number stands for, or NULL. */
static inline const char *lincheck_text_of(const struct lincheck_recorder *it, int64_t number) {
    const struct lincheck_text *text = number < LINCHECK_FIRST_TEXT ? NULL : atomic_load(&it->by_number[number % LINCHECK_BUCKETS]);
    while (text && text->number != number) text = text->by_number;
    return text ? text->text : NULL;
}

static inline void lincheck_say_call(struct lincheck_out *out, const struct lincheck_recorder *it, const struct lincheck_operation *of,
                                     const int64_t *args) {
    int has_text = 0;
    lincheck_say(out, ",\"op\":\""); lincheck_say(out, of->name); lincheck_say(out, "\",\"args\":[");
    for (int i = 0; i < of->args; i++) {
        if (i) lincheck_say(out, ",");
        lincheck_say_number(out, args[i]);
        has_text = has_text || lincheck_text_of(it, args[i]);
    }
    lincheck_say(out, "]");
    for (int i = 0; has_text && i < of->args; i++) {
        const char *text = lincheck_text_of(it, args[i]);
        lincheck_say(out, i ? "," : ",\"text\":[");
        if (text) lincheck_quote(out, text);
        else lincheck_say(out, "null");
    }
    if (has_text) lincheck_say(out, "]");
}

static inline void lincheck_say_event(struct lincheck_out *out, const struct lincheck_recorder *it, const struct lincheck_event *event) {
    static const char *const names[] = { "call", "return", "return", "return", "return", "fail", "info" };
    const struct lincheck_declared *object = &it->objects[event->object];
    const int64_t value = event->values[0];
    lincheck_say(out, "{\"event\":\""); lincheck_say(out, names[event->what]);
    lincheck_say(out, "\",\"process\":"); lincheck_say_number(out, event->process);
    lincheck_say(out, ",\"object\":\""); lincheck_say(out, object->name); lincheck_say(out, "\"");
    if (event->what == LINCHECK_CALL) lincheck_say_call(out, it, &object->kind->operations[event->operation], event->values);
    if (event->what == LINCHECK_OK) lincheck_say(out, ",\"result\":\"ok\"");
    if (event->what == LINCHECK_NUMBER) { lincheck_say(out, ",\"result\":"); lincheck_say_number(out, value); }
    if (event->what == LINCHECK_NUMBER && lincheck_text_of(it, value)) {
        lincheck_say(out, ",\"text\":");
        lincheck_quote(out, lincheck_text_of(it, value));
    }
    if (event->what == LINCHECK_FLAG) lincheck_say(out, value ? ",\"result\":true" : ",\"result\":false");
    if (event->what == LINCHECK_EMPTY) lincheck_say(out, ",\"result\":null");
    lincheck_say(out, "}\n");
}

/* The cursor at the earliest event that is left and before the cut, or NULL. */
static inline struct lincheck_cursor *lincheck_earliest(struct lincheck_process *processes, int reader, uint64_t cut) {
    struct lincheck_cursor *first = NULL;
    uint64_t least = cut;
    for (struct lincheck_process *p = processes; p; p = p->next) {
        struct lincheck_cursor *cursor = &p->cursors[reader];
        const uint64_t instant = cursor->left ? atomic_load_explicit(&cursor->chunk->events[cursor->at].instant, memory_order_relaxed) : cut;
        if (instant < least) { least = instant; first = cursor; }
    }
    return first;
}

/* Writes all events before an instant. The calls that have begun by then are seen, since a call is shown before it takes its
 * instant; one that shows no instant yet may have begun, and stands right behind what its process did before. */
static inline void lincheck_write_history(const struct lincheck_recorder *it, struct lincheck_out *out, int reader) {
    const uint64_t cut = atomic_load(&it->instants);
    struct lincheck_process *const processes = atomic_load(&it->processes);
    lincheck_say(out, "{\"format\":2}\n");
    for (const struct lincheck_declared *o = it->objects; o < it->objects + it->count; o++) {
        lincheck_say(out, "{\"event\":\"object\",\"object\":\""); lincheck_say(out, o->name);
        lincheck_say(out, "\",\"kind\":\""); lincheck_say(out, o->kind->name); lincheck_say(out, "\"");
        if (o->start) { lincheck_say(out, ",\"start\":"); lincheck_say_number(out, o->start); }
        lincheck_say(out, "}\n");
    }
    for (struct lincheck_process *p = processes; p; p = p->next)
        p->cursors[reader] = (struct lincheck_cursor){ p->first, 0, atomic_load_explicit(&p->length, memory_order_acquire) };
    for (struct lincheck_cursor *cursor; (cursor = lincheck_earliest(processes, reader, cut)) != NULL;) {
        lincheck_say_event(out, it, &cursor->chunk->events[cursor->at]);
        cursor->left--;
        if (++cursor->at == LINCHECK_CHUNK) {
            cursor->chunk = atomic_load_explicit(&cursor->chunk->next, memory_order_acquire);
            cursor->at = 0;
        }
    }
    lincheck_flush(out);
}

/* Writes what has been recorded, one thread at a time. Calls that have not returned are pending. Answers 0, or -1 where not all
 * was written. */
static inline int lincheck_write(struct lincheck_recorder *it, FILE *to) {
    struct lincheck_out out = { .stream = to };
    lincheck_write_history(it, &out, 0);
    return fflush(to) == 0 && !out.has_failed ? 0 : -1;
}

#ifdef LINCHECK_AT_END
static _Atomic(struct lincheck_recorder *) lincheck_ending; /* the recorder that writes at the end */
#define LINCHECK_BUSY ((struct lincheck_recorder *)(void *)&lincheck_ending) /* stands there while it writes */

/* Writes the history of the recorder that asked for it, once. Answers 0 where another thread, or the code that this handler of a
 * signal interrupts, is writing it. */
static inline int lincheck_write_now(void) {
    struct lincheck_recorder *it = atomic_load(&lincheck_ending);
    while (it && it != LINCHECK_BUSY && !atomic_compare_exchange_weak(&lincheck_ending, &it, LINCHECK_BUSY)) { }
    if (!it || it == LINCHECK_BUSY) return !it;
    struct lincheck_out out = { .file = open(it->path, O_WRONLY | O_CREAT | O_TRUNC, 0666) };
    lincheck_write_history(it, &out, 1);
    if (close(out.file) != 0 || out.has_failed) {
        static const char told[] = "lincheck: the history was not written\n";
        if (write(2, told, sizeof told - 1) < 0) out.has_failed = 1;
    }
    atomic_store(&lincheck_ending, NULL);
    return 1;
}

static inline void lincheck_write_at_exit(void) {
    while (!lincheck_write_now()) { }
}

/* Whoever is writing already ends the program after that. Behind SIGABRT the program would end before. */
static inline void lincheck_on_signal(int number) {
    if (number == SIGABRT) lincheck_write_at_exit();
    else if (!lincheck_write_now()) return;
    signal(number, SIG_DFL);
    raise(number);
}

/* Writes the history to this file when the program ends: by exit, or by a signal that would end it and has no handler. A file is
 * removed until then; a device, a pipe or a link is not. One recorder at a time; the path lives as long as the program. */
static inline void lincheck_write_at_end(struct lincheck_recorder *it, const char *path) {
    static const int numbers[] = { SIGHUP, SIGINT, SIGQUIT, SIGILL, SIGABRT, SIGBUS, SIGFPE, SIGSEGV, SIGALRM, SIGTERM };
    static int is_set;
    if (atomic_load(&lincheck_ending)) lincheck_mistake("a recorder writes at the end already", "");
    it->path = path;
    struct stat found;
    if (lstat(path, &found) == 0 && S_ISREG(found.st_mode)) remove(path);
    atomic_store(&lincheck_ending, it);
    if (is_set) return;
    is_set = 1;
    atexit(lincheck_write_at_exit);
    for (size_t i = 0; i < sizeof numbers / sizeof *numbers; i++) {
        struct sigaction taken = { .sa_handler = lincheck_on_signal }, old;
        sigaction(numbers[i], &taken, &old);
        if (old.sa_handler != SIG_DFL) sigaction(numbers[i], &old, NULL);
    }
}
#endif

/* Ends a recorder and its processes, after all threads have ended. One that writes at the end writes now. */
static inline void lincheck_free(struct lincheck_recorder *it) {
#ifdef LINCHECK_AT_END
    if (it->path) lincheck_write_at_exit();
#endif
    for (struct lincheck_process *p = atomic_load(&it->processes), *next; p; p = next) {
        for (struct lincheck_chunk *chunk = p->first, *after; chunk; chunk = after) {
            after = atomic_load(&chunk->next);
            free(chunk);
        }
        next = p->next;
        free(p);
    }
    for (int i = 0; i < LINCHECK_BUCKETS; i++) {
        for (const struct lincheck_text *text = atomic_load(&it->by_number[i]), *next; text; text = next) {
            next = text->by_number;
            free((void *)text);
        }
    }
    free(it->numbers);
    free(it);
}
#endif
