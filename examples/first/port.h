#define SPEED 9600

struct port { int speed; };

int port_claim(struct port *);        /* 0, or an error */
void port_release(struct port *);
