/* A program full of forms that metalcheck doesn't read, as the macros of a kernel and of old libraries make them. It prints which
   events came, in which order, and a sum of all results, so that two texts of it can be compared by running them.
   Forms whose rewriting isn't for compiling (case ranges, designators whose order counts, sizes) aren't in it. */
#include <stddef.h>
#include <stdio.h>

static int events[100000], event_count;

static int event(int number)
{
    events[event_count++] = number;
    return number;
}

#define JOINED_(a, b) a##b
#define JOINED(a, b) JOINED_(a, b)
#define likely(x) __builtin_expect(!!(x), 1)
#define unlikely(x) __builtin_expect(!!(x), 0)

/* minimum and maximum as a choice between a constant and a statement expression */
#define same_types(x, y) (!!(sizeof((typeof(x) *)1 == (typeof(y) *)1)))
#define is_constant(x) (sizeof(int) == sizeof(*(8 ? ((void *)((long)(x) * 0l)) : (int *)8)))
#define chosen(x, y, op) ((x) op (y) ? (x) : (y))
#define chosen_once(x, y, one, other, op) ({ typeof(x) one = (x); typeof(y) other = (y); chosen(one, other, op); })
#define chosen_by(x, y, op, n) \
    __builtin_choose_expr(same_types(x, y) && is_constant(x) && is_constant(y), chosen(x, y, op), \
                          chosen_once(x, y, JOINED(one_, n), JOINED(other_, n), op))
#define minimum(x, y) chosen_by(x, y, <, __COUNTER__)
#define maximum(x, y) chosen_by(x, y, >, __COUNTER__)
#define larger(a, b) ({ __auto_type first_ = (a); __auto_type second_ = (b); first_ > second_ ? first_ : second_; })

#define container_of(pointer, type, member) \
    ({ void *inner_ = (void *)(pointer); \
       _Static_assert(__builtin_types_compatible_p(typeof(*(pointer)), typeof(((type *)0)->member)), "member"); \
       ((type *)(inner_ - offsetof(type, member))); })
#define type_checked(type, x) ({ type one_; typeof(x) other_; (void)(&one_ == &other_); 1; })

/* warnings: one whose branch does nothing, one whose branch has an event */
#define WARN(condition) \
    ({ int wrong_ = !!(condition); \
       if (unlikely(wrong_)) do { __auto_type flags_ = 1 | (9 << 8); do { } while (0); (void)flags_; } while (0); \
       unlikely(wrong_); })
#define WARN_LOUDLY(condition) ({ int wrong_ = !!(condition); if (unlikely(wrong_)) event(777); unlikely(wrong_); })

#define asserted(x) \
    do { extern void JOINED(__compiletime_assert_, __LINE__)(void); \
         if (!(sizeof(x) == 1 || sizeof(x) == 2 || sizeof(x) == 4 || sizeof(x) == 8)) JOINED(__compiletime_assert_, __LINE__)(); \
    } while (0)
#define unqualified(x) _Generic((x), char: (char)0, unsigned char: (unsigned char)0, int: (int)0, default: (x))
#define READ_ONCE(x) ({ asserted(x); (*(const volatile typeof(unqualified(x)) *)&(x)); })

#define WAIT_FOR(condition) ({ int tries_ = 0; while (!(condition)) { tries_++; if (tries_ > 3) break; } tries_; })
#define FETCH(x, pointer) \
    ({ int fault_; unsigned long value_; fault_ = event(5); value_ = *(pointer); (x) = (typeof(*(pointer)))value_; fault_ - 5; })
#define DELAY(n) \
    ((__builtin_constant_p(n) && (n) <= 5) ? ({ if ((n) > 2) event(20); else { event(21); } }) \
                                           : ({ unsigned long left_ = (n); while (left_--) event(22); }))
#define ONCE(x) do { event(x); } while (0)
#define LOCK(l, flags) do { do { (void)type_checked(unsigned long, flags); flags = event(l); } while (0); } while (0)

struct link { struct link *next, *previous; };
struct item { int value; struct link in_list; };
#define for_each(item, head, member) \
    for (item = container_of((head)->next, typeof(*item), member); &item->member != (head); \
         item = container_of(item->member.next, typeof(*item), member))
#define for_each_kept(item, later, head, member) \
    for (item = container_of((head)->next, typeof(*item), member), later = container_of(item->member.next, typeof(*item), member); \
         &item->member != (head); item = later, later = container_of(later->member.next, typeof(*later), member))

static struct link items = { &items, &items };
static int whole = 3;
static char narrow = 9;
static unsigned short half = 77;
static const struct link named = { .previous = &items, .next = &items };

static void add(struct item *one)
{
    one->in_list.next = &items;
    one->in_list.previous = items.previous;
    items.previous->next = &one->in_list;
    items.previous = &one->in_list;
}

static int of_old(a, b, text)
    int a;
    char *text;
    long b;
{
    return a + (int)b + text[0];
}

static int lists(int n)
{
    struct item *one, *later;
    int sum = 0;
    for_each(one, &items, in_list) sum += one->value * n;
    for_each_kept(one, later, &items, in_list) sum += one->value;
    return sum + (named.next == named.previous);
}

static int choices(int a, int b)
{
    int sum = minimum(a, b) + maximum(a, b) * 2;
    if (WARN(a > b)) return sum + 1000; else sum += 3;
    if (!WARN_LOUDLY(a == b) && event(a)) sum += 7;
    return sum + READ_ONCE(whole) + READ_ONCE(narrow) + READ_ONCE(half);
}

static int late_declarations(int n)
{
    int tries, i = 0;
    event(1);
    tries = WAIT_FOR(event(i++) > 2);
    if (tries) event(2);
    for (int k = 0, left = 5; k < n; k++, left--) {
        event(k * left);
        if (k == 3) continue;
        if (k == 5) break;
    }
    event(3);
    int next = tries + 1;
    event(next);
    for (int k = 0; k < 2; k++) for (int inner = 0; inner < 2; inner++) event(k + inner * 10);
    long twice = next * 2;
    return next + (int)twice;
}

static int branches(int x)
{
    switch (x) {
    case 0: case 1: case 2: case 3: event(30); break;
    case 4: case 5: case 6: event(31); int twice = x * 2; event(twice); break;
    default: event(32);
    }
    unsigned long flags;
    LOCK(x, flags);
    if (x) LOCK(8, flags); else LOCK(9, flags);
    DELAY(4);
    DELAY(x);
    if (x > 2) DELAY(1); else event(40);
    return (int)flags;
}

static int fetches(int *from)
{
    int value = 0;
    int fault = FETCH(value, from);
    if (FETCH(value, from)) return -1;
    if (fault == 0 && ({ event(50); value > 3; })) event(51);
    return value + fault + larger(value, 3);
}

static int jumps(int n)
{
    goto in;
    { event(60); in: event(61); }
    if (n) ({ event(62); event(63); }); else ({ event(64); });
    int t = n ? ({ event(65); 1; }) : ({ int y = event(66); y + 1; });
again: event(67);
    int u = t + 1;
    event(u);
    if (n-- > 0) goto again;
    return t + u + ({ event(68); });
}

static int values(int n)
{
    int all[] = { 1, 2, 3 };
    int i = 0;
    int x = ({ i++; all[i]; });
    event(x);
    x = ({ int j = n; if (j > 2) event(70); j; }) + i;
    event(x);
    return x + (typeof(n))3 + __alignof__(long) * 0 + 0b101;
}

static int loops(int n)
{
    int sum = 0;
    for (int i = 0; i < n; i++) {
        if (i & 1) continue;
        int twice = i * 2;
        if (twice > 6) { sum += 1; }
        int next = twice + 1;
        sum += next;
        do { if (sum > 100) break; sum += 2; } while (0);
        do { if (sum == 3) continue; sum++; } while (0);
    }
    return sum;
}

static int once(int n)
{
    if (n) do { event(90); } while (0); else do { event(91); } while (0);
    for (; n > 0; n--) do { event(92); } while (0);
    while (n++ < 2) ONCE(93);
    return of_old(n, 2L, "a");
}

/* a value with an event in one branch alone, and a value that is read before the call behind it */
static int order(int n)
{
    int taken = ({ int one = event(94); n > 3 ? one : 0; });
    int before = n;
    WARN_LOUDLY(n == 4);
    int sum = ({ int kept = before; int called = event(before++); kept * 10 + called; });
    return taken + sum + before + ({ int last = n; event(95) + last; });
}

/* conditionals without a middle, whose condition only reads */
static int defaults(int n)
{
    int none = n - 3, sum = none ?: event(96);

    return sum + (n & 1 ?: none ?: event(97)) * 10;
}

/* conditionals without a middle, whose condition calls */
static int kept_results(int n)
{
    int first = event(n - 2) ?: event(103);
    int second;

    if (n & 1) second = event(n % 3) ?: first;
    else return 1 + (event(n - 4) ?: event(104));
    return first + second;
}

/* variables of statement expressions behind && and ||, and in the heads of loops */
static int conditions(int n)
{
    int left = n, both = 0;

    while (left > 0 && ({ int one = event(left); int *to = &both; *to += one; { int two = one; event(two); } one > 2; })) left--;
    if (n < 3 || ({ int one = event(105); int *to = &one; *to + both & 1; }) || ({ char one = event(106); event(one); })) both++;
    for (left = 0; left < ({ long most = event(107); most -= 104; most; }); left++) both += left;
    return left + both;
}

/* a value that is prepared in one arm of a conditional, or behind a comma; labels of blocks; a selection by type */
static int arms(int n)
{
    int taken, other;

    taken = n > 4 ? event(98) : ({ int left = n; while (left > 0) left -= event(2); left; });
    if ((event(99), ({ int up = 0; while (up < n) up += 2; up; })) > 3) taken++;
    { __label__ out; if (n & 1) goto out; event(100); out: ; }
    { __label__ out; if (n & 2) goto out; event(101); out: ; }
    other = _Generic(n, int: event(102), long: 3);
    return n ? taken + other : ({ while (taken > 0) taken--; taken; });
}

int main(void)
{
    static struct item all[5];
    long sum = 0;
    int i;
    for (i = 0; i < 5; i++) {
        all[i].value = i * i;
        add(&all[i]);
    }
    for (i = 0; i < 9; i++) {
        int from = i;
        sum = sum * 31 + lists(i);
        sum = sum * 31 + choices(i, 3);
        sum = sum * 31 + late_declarations(i);
        sum = sum * 31 + branches(i);
        sum = sum * 31 + fetches(&from);
        sum = sum * 31 + jumps(i);
        sum = sum * 31 + values(i);
        sum = sum * 31 + loops(i);
        sum = sum * 31 + once(i);
        sum = sum * 31 + order(i);
        sum = sum * 31 + defaults(i);
        sum = sum * 31 + kept_results(i);
        sum = sum * 31 + conditions(i);
        sum = sum * 31 + arms(i);
    }
    printf("%ld\n", sum);
    for (i = 0; i < event_count; i++) printf("%d ", events[i]);
    printf("\n");
    return 0;
}
