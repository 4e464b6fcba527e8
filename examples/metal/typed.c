struct request { int id; };
struct packet { int id; };

void f(struct request *q, struct packet *p, unsigned int small, unsigned long large)
{
    submit(q);
    submit(q);
    submit(p);
    submit(p);
    copy(p, small);
    copy(p, large);
}
