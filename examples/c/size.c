unsigned long f(char *p)
{
    kfree(p);
    return __builtin_object_size(&*p, 0) + __alignof__(*p) + sizeof(*p);
}
