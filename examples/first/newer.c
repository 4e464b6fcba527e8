#include "port.h"

void release_all(struct port **ports, int n)
{
    for (int i = 0; i < n; i++)
        port_release(ports[i]);
}
