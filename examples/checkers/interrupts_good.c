void local_irq_disable(void); void local_irq_enable(void); void delay_ms(int);
extern int ready;

static void begin(void)
{
    local_irq_disable();
}

int start(int channel)
{
    int result = -1;
    begin();
    if (channel <= 7) {
        ready = channel;
        result = 0;
    }
    local_irq_enable();
    delay_ms(5);
    return result;
}

/* macros of statements, and a loop that isn't left by its condition */
void stop(void)
{
    do {
        local_irq_disable();
    } while (0);
    while (1) {
        if (ready)
            break;
        ready = 1;
    }
    do {
        local_irq_enable();
    } while (0);
}
