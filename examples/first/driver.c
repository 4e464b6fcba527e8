#include "port.h"

static void prepare(struct port *port)
{
    port_claim(port);
    port->speed = SPEED;
}

int start(struct port *port)
{
    if (port_claim(port))
        return -1;
    prepare(port);
    port_release(port);
    return 0;
}

int setup(struct port *port)
{
    if (port_claim(port) != 0)
        return -1;
    if (port->speed > SPEED)
        return -2;
    port_release(port);
    return 0;
}
