#define _XOPEN_SOURCE 600
#include <pthread.h>

struct map { pthread_rwlock_t lock; int size; };

int size(struct map *m)
{
    int size;
    if (pthread_rwlock_rdlock(&m->lock))
        return -1;
    size = m->size;
    pthread_rwlock_unlock(&m->lock);
    return size;
}

/* two readers' holds in one path are allowed */
static int nested(struct map *m)
{
    int size;
    pthread_rwlock_rdlock(&m->lock);
    size = m->size;
    pthread_rwlock_unlock(&m->lock);
    return size;
}

int twice_for_reading(struct map *m)
{
    int size;
    pthread_rwlock_rdlock(&m->lock);
    size = nested(m);
    pthread_rwlock_unlock(&m->lock);
    return size;
}

int grow(struct map *m)
{
    if (pthread_rwlock_trywrlock(&m->lock) != 0)
        return -1;
    do {
        m->size++;
        pthread_rwlock_unlock(&m->lock);
    } while (0);
    while (1) {
        pthread_rwlock_rdlock(&m->lock);
        if (m->size > 9)
            break;
        pthread_rwlock_unlock(&m->lock);
    }
    pthread_rwlock_unlock(&m->lock);
    return 0;
}
