#include <pthread.h>
#include <stdlib.h>
#include <threads.h>

static pthread_mutex_t a, b;
static mtx_t c;
static pthread_cond_t filled;
static int tried_before;
struct queue { pthread_mutex_t lock; int length, threads; };

int take(struct queue *q)
{
    int taken = 0;
    if (pthread_mutex_lock(&q->lock))
        return -1;
    while (q->length == 0)
        pthread_cond_wait(&filled, &q->lock);
    if (q->length > 0) {
        q->length--;
        taken = 1;
    }
    pthread_mutex_unlock(&q->lock);
    return taken;
}

/* functions that hand the mutex on, and take it over */
void queue_lock(struct queue *q)
{
    if (!q)
        return;
    q->threads++;
    pthread_mutex_lock(&q->lock);
}
void queue_unlock(struct queue *q) { pthread_mutex_unlock(&q->lock); }

void begin(struct queue *q)
{
    pthread_mutex_lock(&q->lock);
    if (q->length > 100)
        abort();
    q->threads++;
}

void put(struct queue *q)
{
    queue_lock(q);
    if (q->length < 100)
        q->length++;
    queue_unlock(q);
}

/* taken and released under one flag */
void count(struct queue *q, int n)
{
    if (q->threads)
        pthread_mutex_lock(&q->lock);
    q->length += n;
    if (q->threads)
        pthread_mutex_unlock(&q->lock);
}

/* the result is tested later */
int later(void)
{
    int failed = pthread_mutex_lock(&a);
    if (failed)
        return failed;
    pthread_mutex_unlock(&a);
    return 0;
}

int tried(void)
{
    if (mtx_trylock(&c) != thrd_success)
        return 0;
    mtx_unlock(&c);
    if (pthread_mutex_trylock(&a))
        exit(1);
    pthread_mutex_lock(&b);
    if (tried_before)
        pthread_mutex_unlock(&b);
    else
        abort();
    pthread_mutex_unlock(&a);
    return 1;
}

/* a loop that isn't left by its condition, and one that is run once */
void once(void)
{
    while (1) {
        if (pthread_mutex_trylock(&a) == 0)
            break;
    }
    do {
        pthread_mutex_unlock(&a);
    } while (0);
}

/* Those of an array: another function releases them. */
static pthread_mutex_t gates[4];

int stop_all(int count)
{
    int i;

    for (i = 0; i < count; i++)
        pthread_mutex_lock(&gates[i]);
    if (count > 2)
        return 1;
    return 0;
}
