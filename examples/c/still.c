/* Looks at its own state, waits for a line while it is moved, looks again, and finds no difference.
 *
 * A process cannot tell which node it is on. What it can see is its memory and the kernel's answers, and a move changes neither. */
#include "mosix.h"
#include <stdio.h>
#include <string.h>

enum { BYTES = 20000 };

/* All that the program asks of itself. */
struct state {
    int pid;
    int parent;
    int offset;    /* how far it has read its file */
    unsigned heap; /* where the heap ends */
    unsigned mask; /* the signals that it blocks */
    unsigned sum;  /* over its memory */
};

static unsigned char memory[BYTES];
static const char note[] = "written before the move\n";

static struct state look(int file)
{
    struct state state;

    memset(&state, 0, sizeof state);
    state.pid = mosix_getpid();
    state.parent = mosix_getppid();
    state.offset = mosix_lseek(file, 0, 1);
    state.heap = mosix_brk(0);
    state.mask = mosix_sigmask(1u << MOSIX_SIGUSR2);
    mosix_sigmask(state.mask);
    for (int i = 0; i < BYTES; i++)
        state.sum = state.sum * 31 + memory[i];
    return state;
}

int main(void)
{
    struct state before, after;
    char line[80];
    int file = mosix_open("log", 3, MOSIX_READ | MOSIX_WRITE | MOSIX_CREATE);

    for (int i = 0; i < BYTES; i++)
        memory[i] = i ^ i >> 8;
    if (file < 0 || mosix_write(file, note, sizeof note - 1) != sizeof note - 1)
        return 1;
    before = look(file);
    if (mosix_read(0, line, sizeof line) < 0)
        return 2;
    after = look(file);
    puts(memcmp(&before, &after, sizeof before) == 0 ? "no difference" : "a difference");
    return 0;
}
