struct task_struct { int pid; }; struct device_node { int phandle; }; struct buffer_head { char *data; }; struct inode; struct mm_struct;
struct task_struct *get_proc_task(const struct inode *); void put_task_struct(struct task_struct *);
struct mm_struct *mm_access(struct task_struct *, unsigned int); void mmput(struct mm_struct *);
_Bool IS_ERR_OR_NULL(const void *);
struct device_node *of_get_child_by_name(const struct device_node *, const char *); void of_node_put(struct device_node *);
struct buffer_head *__getblk(void *, unsigned long, unsigned int); void brelse(struct buffer_head *);
struct port { struct device_node *node; struct buffer_head *first; };

int pid(const struct inode *inode)
{
    int pid = -3;
    struct task_struct *task = get_proc_task(inode);
    if (task) {
        pid = task->pid;
        put_task_struct(task);
    }
    return pid;
}

int memory(struct task_struct *task)
{
    struct mm_struct *mm = mm_access(task, 1);
    if (IS_ERR_OR_NULL(mm))
        return -3;
    mmput(mm);
    return 0;
}

struct device_node *returned(struct device_node *parent)
{
    struct device_node *child = of_get_child_by_name(parent, "port");
    return child;
}

int stored(struct port *port, struct device_node *parent, void *device)
{
    struct device_node *child;
    struct buffer_head *bh;
    if (!(child = of_get_child_by_name(parent, "port")))
        return -19;
    port->node = child;
    bh = __getblk(device, 7, 1024);
    port->first = bh;
    return 0;
}
