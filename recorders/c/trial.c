/* What bin/check-recorders asks of the recorder itself: `all` records each kind of event, `refused` prints what is said of each
 * mistake, `running` writes while threads run, `cost` prints the nanoseconds that a recorded call takes, and `stuck FILE` hangs in a
 * call. */
#include "lincheck.h"
#include <pthread.h>
#include <sched.h>
#include <sys/wait.h>
#include <time.h>

static void all(void) {
    struct lincheck_recorder *recorder = lincheck_new();
    lincheck_object(recorder, "q", "queue", 0);
    lincheck_object(recorder, "x", "register", 7);
    lincheck_object(recorder, "m", "map", 0);
    lincheck_object(recorder, "s", "set", 0);
    int64_t apple = lincheck_value(recorder, "apple"), red = lincheck_value(recorder, "r\"e\\d\x01\u00e9"), pear = lincheck_value(recorder, "pear");
    struct lincheck_process *me = lincheck_process_of(recorder, 5), *other = lincheck_process(recorder);
    lincheck_record(me, "q", "enq", (1), lincheck_ok);
    lincheck_record(me, "q", "deq", (), lincheck_number(1));
    lincheck_record(me, "q", "deq", (), lincheck_empty);
    lincheck_record(other, "x", "cas", (7, 8), lincheck_flag(1));
    lincheck_call(other, "x", "write", (9));
    lincheck_fail(other);
    lincheck_record(me, "m", "put", (apple, red), lincheck_ok);
    lincheck_record(other, "m", "get", (apple), lincheck_number(lincheck_value(recorder, "r\"e\\d\x01\u00e9")));
    lincheck_record(me, "x", "write", (3), lincheck_unknown);
    lincheck_record(me, "m", "put", (pear, 4), lincheck_failed);
    lincheck_call(me, "s", "add", (1));
    lincheck_ret(me, lincheck_flag(1));
    lincheck_call(other, "x", "read", ());
    lincheck_ret(other, lincheck_number(8));
    lincheck_call(other, "q", "enq", (2));
    lincheck_info(other);
    lincheck_call(me, "s", "contains", (2));
    lincheck_write(recorder, stdout);
    lincheck_free(recorder);
}

/* Makes one of the mistakes, which ends the program. */
static void make_mistake(int which) {
    struct lincheck_recorder *recorder = lincheck_new();
    lincheck_object(recorder, "q", "queue", 0);
    if (which == 0) lincheck_object(recorder, "a b", "queue", 0);
    if (which == 1) lincheck_object(recorder, "r", "deque", 0);
    if (which == 2) lincheck_object(recorder, "r", "queue", 1);
    if (which == 3) lincheck_object(recorder, "q", "stack", 0);
    struct lincheck_process *me = lincheck_process_of(recorder, 5);
    if (which == 4) lincheck_process_of(recorder, 5);
    if (which == 5) lincheck_object(recorder, "r", "queue", 0);
    if (which == 6) lincheck_call(me, "y", "enq", (1));
    if (which == 7) lincheck_call(me, "q", "push", (1));
    if (which == 8) lincheck_call(me, "q", "enq", (1, 2));
    if (which == 9) lincheck_ret(me, lincheck_ok);
    lincheck_call(me, "q", "enq", (1));
    if (which == 10) lincheck_call(me, "q", "deq", ());
    if (which == 11) lincheck_ret(me, lincheck_number(1));
    lincheck_ret(me, lincheck_ok);
    lincheck_call(me, "q", "deq", ());
    if (which == 12) lincheck_ret(me, lincheck_ok);
}

static void refused(void) {
    for (int which = 0; which <= 12; which++) {
        int status;
        if (fork() == 0) {
            dup2(1, 2);
            make_mistake(which);
            puts("taken");
            exit(0);
        }
        wait(&status);
    }
}

static atomic_int counted;

static struct lincheck_reply add(void) {
    counted++;
    return lincheck_ok;
}

static void *count(void *recorder) {
    struct lincheck_process *me = lincheck_process(recorder);
    for (int round = 0; round < 1000; round++) {
        lincheck_record(me, "n", "add", (1), add());
        lincheck_record(me, "n", "get", (), lincheck_number(counted));
    }
    return NULL;
}

static void running(void) {
    struct lincheck_recorder *recorder = lincheck_new();
    pthread_t threads[3];
    lincheck_object(recorder, "n", "counter", 0);
    for (int i = 0; i < 3; i++)
        if (pthread_create(&threads[i], NULL, count, recorder) != 0) exit(70);
    while (counted < 300) sched_yield();
    lincheck_write(recorder, stdout);
    for (int i = 0; i < 3; i++) pthread_join(threads[i], NULL);
    lincheck_free(recorder);
}

static int64_t nanoseconds(void) {
    struct timespec now;
    clock_gettime(CLOCK_MONOTONIC, &now);
    return now.tv_sec * INT64_C(1000000000) + now.tv_nsec;
}

static void cost(void) {
    enum { CALLS = 10000 };
    struct lincheck_recorder *recorder = lincheck_new();
    lincheck_object(recorder, "q", "queue", 0);
    struct lincheck_process *me = lincheck_process(recorder);
    int64_t least = INT64_MAX;
    for (int batch = 0; batch < 20; batch++) {
        int64_t start = nanoseconds();
        for (int i = 0; i < CALLS; i++) lincheck_record(me, "q", "enq", (i), lincheck_ok);
        int64_t taken = nanoseconds() - start;
        if (taken < least) least = taken;
    }
    printf("%" PRId64 "\n", least / CALLS);
    lincheck_free(recorder);
}

static struct lincheck_reply hang(void) {
    puts("ready");
    fflush(stdout);
    while (pause() != 0) { }
    return lincheck_ok;
}

static void *work(void *recorder) {
    lincheck_record(lincheck_process(recorder), "q", "enq", (1), hang());
    return NULL;
}

static void stuck(const char *file) {
    struct lincheck_recorder *recorder = lincheck_new();
    pthread_t thread;
    lincheck_object(recorder, "q", "queue", 0);
    lincheck_write_at_end(recorder, file);
    if (pthread_create(&thread, NULL, work, recorder) == 0) pthread_join(thread, NULL);
}

int main(int count, char **words) {
    const char *asked = count > 1 ? words[1] : "";
    if (!strcmp(asked, "all")) all();
    if (!strcmp(asked, "refused")) refused();
    if (!strcmp(asked, "running")) running();
    if (!strcmp(asked, "cost")) cost();
    if (!strcmp(asked, "stuck") && count > 2) stuck(words[2]);
    return 0;
}
