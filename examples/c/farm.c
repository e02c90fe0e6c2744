/* A farm: eight workers count primes, each in a range of its own, and write what they found to one pipe.
 *
 * The workers make steps and hardly any calls, so they are what a cluster likes to move. Each answer is one write of a few bytes,
 * which the kernel does at once and whole, so the answers never mix. They come in any order. */
#include "mosix.h"
#include <stdio.h>

enum { WORKERS = 8, RANGE = 500 };

struct answer {
    int worker;
    int primes;
};

static int is_prime(int number)
{
    for (int divisor = 2; divisor * divisor <= number; divisor++)
        if (number % divisor == 0)
            return 0;
    return number > 1;
}

static int work(int worker, int out)
{
    struct answer answer = { worker, 0 };

    for (int number = worker * RANGE; number < (worker + 1) * RANGE; number++)
        answer.primes += is_prime(number);
    return mosix_write(out, &answer, sizeof answer) == sizeof answer ? 0 : 1;
}

int main(void)
{
    int ends[2], found[WORKERS] = { 0 }, primes = 0;
    struct answer answer;

    if (mosix_pipe(ends) < 0)
        return 1;
    for (int worker = 0; worker < WORKERS; worker++)
        if (mosix_fork() == 0)
            mosix_exit(work(worker, ends[1]));
    mosix_close(ends[1]);
    while (mosix_read(ends[0], &answer, sizeof answer) == sizeof answer)
        found[answer.worker] = answer.primes;
    for (int worker = 0; worker < WORKERS; worker++) {
        printf("worker %d: %d\n", worker, found[worker]);
        primes += found[worker];
    }
    printf("%d primes below %d\n", primes, WORKERS * RANGE);
    while (mosix_wait(0) > 0)
        continue;
    return 0;
}
