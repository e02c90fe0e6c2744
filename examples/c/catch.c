/* Catches a signal while it waits for a line.
 *
 * A signal that has a handler breaks the read off: the handler runs, and then the read answers EINTR. The program reads again, and
 * gets the line. */
#include "mosix.h"
#include <stdio.h>

static volatile int caught;

static void note(int signal)
{
    caught = signal;
}

int main(void)
{
    char line[80];
    int count;

    if (mosix_sigact(MOSIX_SIGUSR1, note) < 0)
        return 1;
    count = mosix_read(0, line, sizeof line);
    if (count == -MOSIX_EINTR) {
        printf("signal %d came first\n", caught);
        count = mosix_read(0, line, sizeof line);
    }
    if (count < 0)
        return 2;
    printf("read: %.*s", count, line);
    return caught;
}
