struct port;

int start(struct port *port, int speed)
{
    int ret = port_claim(port);
    if (ret != 0)
        return ret;
    if (speed > 9600)
        return -1;
    port_release(port);
    return 0;
}

int stop(struct port *port)
{
    int ret;
    ret = port_claim(port);
    if (ret)
        port_release(port);
    return ret;
}
