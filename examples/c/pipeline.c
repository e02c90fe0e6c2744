/* Three processes in a row, joined by two pipes: one counts, one squares, one adds up.
 *
 * A pipe is written at one end and read at the other. Its reader sees the end of the input once nobody holds the end that writes,
 * so each process closes the ends that it does not use. */
#include "mosix.h"
#include <stdio.h>

enum { NUMBERS = 10 };

/* Writes the numbers from 1. */
static int count(int out)
{
    for (int number = 1; number <= NUMBERS; number++)
        if (mosix_write(out, &number, sizeof number) != sizeof number)
            return 1;
    return 0;
}

/* Writes the square of each number that it reads. */
static int square(int in, int out)
{
    int number;

    while (mosix_read(in, &number, sizeof number) == sizeof number) {
        number *= number;
        if (mosix_write(out, &number, sizeof number) != sizeof number)
            return 1;
    }
    return 0;
}

int main(void)
{
    int numbers[2], squares[2], sum = 0, number;

    if (mosix_pipe(numbers) < 0 || mosix_pipe(squares) < 0)
        return 1;
    if (mosix_fork() == 0)
        mosix_exit(count(numbers[1]));
    mosix_close(numbers[1]);
    if (mosix_fork() == 0) {
        mosix_close(squares[0]);
        mosix_exit(square(numbers[0], squares[1]));
    }
    mosix_close(numbers[0]);
    mosix_close(squares[1]);
    while (mosix_read(squares[0], &number, sizeof number) == sizeof number)
        sum += number;
    printf("the squares of 1 to %d add up to %d\n", NUMBERS, sum);
    while (mosix_wait(0) > 0)
        continue;
    return 0;
}
