#include <pthread.h>
#include <threads.h>

static pthread_mutex_t a;
static mtx_t c;
struct queue { pthread_mutex_t lock; int length, closed; struct queue *next; };

int early(struct queue *q)
{
    pthread_mutex_lock(&q->lock);
    if (q->length == 0)
        return 0;                       /* wants: a mutex that was taken on this path is still held */
    q->length--;
    pthread_mutex_unlock(&q->lock);
    return 1;
}

static void count(struct queue *q)
{
    pthread_mutex_lock(&q->lock);
    q->length++;
}

int through_a_helper(struct queue *q)
{
    if (!q)
        return 0;
    count(q);
    if (q->closed)
        return -1;                      /* wants: a mutex that was taken on this path is still held */
    pthread_mutex_unlock(&q->lock);
    return 0;
}

int tried(int n)
{
    if (mtx_trylock(&c) != thrd_success)
        return 0;
    if (n > 3)
        return 1;                       /* wants: a mutex that was taken on this path is still held */
    mtx_unlock(&c);
    return 2;
}

int both(struct queue *q)
{
    if (pthread_mutex_lock(&q->lock) != 0)
        return -1;
    if (pthread_mutex_trylock(&a) == 0) {
        pthread_mutex_unlock(&a);
        if (q->closed)
            return -1;                  /* wants: a mutex that was taken on this path is still held */
    }
    pthread_mutex_unlock(&q->lock);
    return 0;
}
