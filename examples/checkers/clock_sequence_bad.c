struct clk; struct device;
struct clk *clk_get(struct device *, const char *);
int clk_prepare(struct clk *); int clk_enable(struct clk *); int clk_prepare_enable(struct clk *);
void clk_disable(struct clk *); void clk_unprepare(struct clk *); void clk_disable_unprepare(struct clk *);

int start(struct device *dev)
{
    struct clk *clock = clk_get(dev, "bus");
    return clk_enable(clock);           /* wants: clock is enabled and was not prepared */
}

int probe(struct clk *bus, struct clk *pixel)
{
    if (clk_prepare(bus))
        return -1;
    if (clk_prepare_enable(pixel)) {
        clk_disable(bus);               /* wants: bus is disabled and was not enabled */
        return -1;
    }
    clk_unprepare(pixel);               /* wants: pixel is unprepared while it is enabled */
    return 0;
}
