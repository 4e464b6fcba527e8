void local_irq_disable(void); void local_irq_enable(void); void delay_ms(int);
extern int ready;

int start(int channel)
{
    local_irq_disable();
    if (channel > 7)
        return -1;                      /* wants: interrupts are left disabled */
    ready = channel;
    local_irq_enable();
    return 0;
}

static void quiet(void)
{
    local_irq_disable();                /* wants: interrupts are disabled twice */
    ready = 0;
}

void stop(void)
{
    local_irq_disable();
    quiet();
    delay_ms(5);                        /* wants: waiting with interrupts disabled */
    local_irq_enable();
}
