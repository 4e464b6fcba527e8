#include <pthread.h>
#include <stdlib.h>
#include <threads.h>

static pthread_mutex_t a;
static mtx_t c;
static pthread_cond_t filled;
struct queue { pthread_mutex_t lock; int length; };

int take(struct queue *q)
{
    int taken = 0;
    if (pthread_mutex_lock(&q->lock))
        return -1;
    while (q->length == 0)
        pthread_cond_wait(&filled, &q->lock);
    if (q->length > 0) {
        q->length--;
        taken = 1;
    }
    pthread_mutex_unlock(&q->lock);
    return taken;
}

/* a pair of helpers: at the end of a called function only its own locks are asked */
static void begin(struct queue *q) { pthread_mutex_lock(&q->lock); }
static void finish(struct queue *q) { pthread_mutex_unlock(&q->lock); }

void put(struct queue *q)
{
    begin(q);
    q->length++;
    finish(q);
    begin(q);
    finish(q);
}

int tried(void)
{
    if (mtx_trylock(&c) != thrd_success)
        return 0;
    mtx_unlock(&c);
    if (pthread_mutex_trylock(&a))
        exit(1);
    pthread_mutex_unlock(&a);
    return 1;
}

/* a loop that isn't left by its condition, and one that is run once */
void once(void)
{
    while (1) {
        if (pthread_mutex_trylock(&a) == 0)
            break;
    }
    do {
        pthread_mutex_unlock(&a);
    } while (0);
    pthread_mutex_destroy(&a);
    pthread_mutex_init(&a, 0);
    pthread_mutex_lock(&a);
    pthread_mutex_unlock(&a);
}

/* The flag decides both, and no condition is known. */
extern int threads;
static int clients;

static void drop_client(pthread_mutex_t *guard)
{
    if (threads)
        pthread_mutex_lock(guard);
    clients--;
    if (threads)
        pthread_mutex_unlock(guard);
}

void drop_all(pthread_mutex_t *guard)
{
    while (clients > 0)
        drop_client(guard);
}
