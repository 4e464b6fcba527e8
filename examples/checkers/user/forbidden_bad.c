#include <stdio.h>
#include <stdlib.h>
#include <string.h>

char *gets(char *); char *mktemp(char *); char *getwd(char *);

void all(char *buffer, char *name)
{
    gets(buffer);                       /* wants: gets writes past any buffer: use fgets */
    mktemp(name);                       /* wants: mktemp gives a name that another may take first: use mkstemp */
    strcpy(buffer, name);               /* wants: strcpy doesn't know how much room there is: use one that is told */
    getwd(buffer);                      /* wants: getwd is gone from POSIX */
}
