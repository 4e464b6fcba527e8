void f(char *p){ kfree(p); *p; }
