typedef struct { int raw; } raw_spinlock_t;
typedef struct { raw_spinlock_t rlock; } spinlock_t;
raw_spinlock_t *spinlock_check(spinlock_t *lock);
unsigned long _raw_spin_lock_irqsave(raw_spinlock_t *lock);
void spin_unlock_irqrestore(spinlock_t *lock, unsigned long flags);

#define typecheck(type, x) ({ type dummy; __typeof__(x) dummy2; (void)(&dummy == &dummy2); 1; })
#define spin_lock_irqsave(lock, flags) \
    do { typecheck(unsigned long, flags); flags = _raw_spin_lock_irqsave(spinlock_check(lock)); } while (0)
#define min(a, b) ({ __typeof__(a) x = (a); __typeof__(b) y = (b); x < y ? x : y; })

struct port { spinlock_t lock; int speed, limit, state; };
