/* Counts the primes below a hundred thousand with a sieve whose memory comes from malloc. */
#include <stdio.h>
#include <stdlib.h>

enum { LIMIT = 100000 };

int main(void)
{
    unsigned char *crossed = calloc(LIMIT, 1);
    int primes = 0;

    if (!crossed) {
        puts("no memory");
        return 1;
    }
    for (int number = 2; number < LIMIT; number++) {
        if (crossed[number])
            continue;
        primes++;
        for (int multiple = number; multiple < LIMIT; multiple += number)
            crossed[multiple] = 1;
    }
    printf("%d primes below %d\n", primes, LIMIT);
    free(crossed);
    return 0;
}
