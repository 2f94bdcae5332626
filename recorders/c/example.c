/* A queue that four threads put into and take from: `right` under one lock, or `wrong`, where the look at the first item and its
 * removal are two steps without the lock; `narrow` is as wrong, without a pause between the two. The second word is the number
 * of rounds. */
#include "lincheck.h"
#include <pthread.h>
#include <sched.h>

enum { THREADS = 4, ROOM = 100000 };

static struct { pthread_mutex_t lock; atomic_size_t first, last; int64_t items[ROOM]; } queue = { .lock = PTHREAD_MUTEX_INITIALIZER };
static const char *asked = "right";
static int rounds = 100;
static atomic_int waiting = THREADS;
static struct lincheck_recorder *recorder;

static void put(int64_t item) {
    pthread_mutex_lock(&queue.lock);
    queue.items[queue.last] = item;
    queue.last++;
    pthread_mutex_unlock(&queue.lock);
}

static int take_first(int64_t *item) {
    size_t at = queue.first;
    if (at == queue.last) return 0;
    if (!strcmp(asked, "wrong")) sched_yield();
    queue.first = at + 1;
    *item = queue.items[at];
    return 1;
}

/* Takes an item; answers whether there was one. */
static int take(int64_t *item) {
    if (strcmp(asked, "right") != 0) return take_first(item);
    pthread_mutex_lock(&queue.lock);
    int is_there = take_first(item);
    pthread_mutex_unlock(&queue.lock);
    return is_there;
}

static void *work(void *thread) {
    struct lincheck_process *me = lincheck_process(recorder);
    int64_t first = *(const int *)thread * rounds, taken;
    for (waiting--; waiting > 0;) sched_yield();
    for (int64_t item = first; item < first + rounds; item++) {
        lincheck_record(me, "q", "enq", (item), (put(item), lincheck_ok));
        lincheck_record(me, "q", "deq", (), take(&taken) ? lincheck_number(taken) : lincheck_empty);
    }
    return NULL;
}

int main(int count, char **words) {
    pthread_t threads[THREADS];
    int numbers[THREADS];
    if (count > 1) asked = words[1];
    if (count > 2) rounds = atoi(words[2]);
    if (rounds < 1 || rounds > ROOM / THREADS) return 70;
    recorder = lincheck_new();
    lincheck_object(recorder, "q", "queue", 0);
    for (int i = 0; i < THREADS; i++) {
        numbers[i] = i;
        if (pthread_create(&threads[i], NULL, work, &numbers[i]) != 0) return 70;
    }
    for (int i = 0; i < THREADS; i++) pthread_join(threads[i], NULL);
    int status = lincheck_write(recorder, stdout) == 0 ? 0 : 70;
    lincheck_free(recorder);
    return status;
}
