struct task_struct { int pid; }; struct device_node { int phandle; }; struct buffer_head { char *data; }; struct inode;
struct task_struct *get_proc_task(const struct inode *); void put_task_struct(struct task_struct *);
struct device_node *of_get_child_by_name(const struct device_node *, const char *); void of_node_put(struct device_node *);
int of_property_read_bool(const struct device_node *, const char *);
struct buffer_head *__getblk(void *, unsigned long, unsigned int); void brelse(struct buffer_head *);

int kept(const struct inode *inode, int hidden)
{
    struct task_struct *task = get_proc_task(inode);
    if (!task)
        return -3;
    if (hidden)
        return -1;                              /* wants: the reference task isn't put */
    put_task_struct(task);
    return task->pid;                           /* wants: task is used after its reference was put */
}

int asked(struct device_node *parent)
{
    struct device_node *child = of_get_child_by_name(parent, "port");
    if (of_property_read_bool(child, "disabled"))
        return 0;                               /* wants: the reference child isn't put */
    of_node_put(child);
    of_node_put(child);                         /* wants: child is put twice */
    return 1;
}

char first(void *device)
{
    struct buffer_head *bh = __getblk(device, 7, 1024);
    if (__builtin_expect(!!(!bh), 0))
        return 0;
    return *bh->data;                           /* wants: the reference bh isn't put */
}
