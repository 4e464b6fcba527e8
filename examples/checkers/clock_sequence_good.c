struct clk; struct device;
struct clk *clk_get(struct device *, const char *);
int clk_prepare(struct clk *); int clk_enable(struct clk *); int clk_prepare_enable(struct clk *);
void clk_disable(struct clk *); void clk_unprepare(struct clk *); void clk_disable_unprepare(struct clk *);

int start(struct device *dev)
{
    struct clk *clock = clk_get(dev, "bus");
    if (clk_prepare(clock))
        return -1;
    if (clk_enable(clock)) {
        clk_unprepare(clock);
        return -1;
    }
    clk_disable(clock);
    clk_unprepare(clock);
    return 0;
}

int restart(struct clk *bus)
{
    if (clk_prepare_enable(bus))
        return -1;
    do {
        clk_disable_unprepare(bus);
    } while (0);
    if (clk_prepare(bus) != 0)
        return -1;
    do {
        clk_unprepare(bus);
    } while (0);
    return 0;
}
