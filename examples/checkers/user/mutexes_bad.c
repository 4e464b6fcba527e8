#include <pthread.h>
#include <threads.h>

static pthread_mutex_t a, b;
static mtx_t c;
static pthread_cond_t filled;
struct queue { pthread_mutex_t lock; int length; };

static void count(struct queue *q)
{
    pthread_mutex_lock(&q->lock);       /* wants: &q->lock is taken twice */
    q->length++;
}

void twice(struct queue *q)
{
    if (pthread_mutex_lock(&q->lock) != 0)
        return;
    count(q);
    pthread_mutex_unlock(&q->lock);
}

void tried(void)
{
    if (pthread_mutex_trylock(&a) == 0) {
        pthread_mutex_unlock(&a);
        pthread_mutex_unlock(&a);       /* wants: &a is released twice */
    }
    if (mtx_trylock(&c) == thrd_success)
        mtx_lock(&c);                   /* wants: &c is taken twice */
}

void end(void)
{
    pthread_mutex_lock(&b);
    pthread_mutex_destroy(&b);          /* wants: &b is destroyed while it is held */
    pthread_mutex_unlock(&b);           /* wants: &b is used after it was destroyed */
}

void wait_for(struct queue *q)
{
    pthread_mutex_lock(&q->lock);
    pthread_mutex_unlock(&q->lock);
    pthread_cond_wait(&filled, &q->lock);       /* wants: a condition is waited for without &q->lock */
}
