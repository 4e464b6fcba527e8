#define _XOPEN_SOURCE 600
#include <pthread.h>

struct map { pthread_rwlock_t lock; int size; };

int early(struct map *m)
{
    pthread_rwlock_rdlock(&m->lock);
    if (m->size == 0)
        return -1;                      /* wants: &m->lock is still held at the end */
    pthread_rwlock_unlock(&m->lock);
    return 0;
}

int early_writer(struct map *m)
{
    if (pthread_rwlock_trywrlock(&m->lock) != 0)
        return -1;
    m->size++;
    return 0;                           /* wants: &m->lock is still held at the end */
}

void upgrade(struct map *m)
{
    pthread_rwlock_rdlock(&m->lock);
    if (m->size == 0)
        pthread_rwlock_wrlock(&m->lock);        /* wants: &m->lock is taken for writing while it is held for reading */
    pthread_rwlock_unlock(&m->lock);
}

void again(struct map *m)
{
    pthread_rwlock_wrlock(&m->lock);
    pthread_rwlock_rdlock(&m->lock);            /* wants: &m->lock is taken twice */
    pthread_rwlock_unlock(&m->lock);
    pthread_rwlock_unlock(&m->lock);            /* wants: &m->lock is released twice */
}

void end(struct map *m, struct map *n)
{
    pthread_rwlock_rdlock(&m->lock);
    pthread_rwlock_destroy(&m->lock);           /* wants: &m->lock is destroyed while it is held */
    pthread_rwlock_wrlock(&n->lock);
    pthread_rwlock_destroy(&n->lock);           /* wants: &n->lock is destroyed while it is held */
}
