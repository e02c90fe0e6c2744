/* Reads numbers by scanf, keeps them in memory that grows, sorts them, and prints them with their mean.
 *
 * The memory comes from malloc's kin, and those ask the kernel for more by brk. RV32I has no instruction that multiplies or
 * divides, so the compiler calls functions for it; the same goes for the mean, which is a double. */
#include <stdio.h>
#include <stdlib.h>
#include <string.h>

static int by_size(const void *one, const void *other)
{
    int a = *(const int *)one, b = *(const int *)other;

    return (a > b) - (a < b);
}

int main(void)
{
    int *numbers = NULL, count = 0, room = 0, sum = 0, number, found;
    char rest[20];

    while ((found = scanf("%d", &number)) == 1) {
        if (count == room) {
            room = room ? 2 * room : 4;
            numbers = realloc(numbers, room * sizeof *numbers);
            if (!numbers) {
                perror("numbers");
                exit(1);
            }
        }
        numbers[count++] = number;
        sum += number;
    }
    if (found == 0 && scanf("%19s", rest) == 1)
        printf("%s has %zu letters and is no number\n", rest, strlen(rest));
    if (count == 0)
        exit(1);
    qsort(numbers, count, sizeof *numbers, by_size);
    for (int i = 0; i < count; i++)
        printf("%5d", numbers[i]);
    printf("\n%d / %d = %d, rest %d; the mean is %.2f\n", sum, count, sum / count, sum % count, (double)sum / count);
    free(numbers);
    return 0;
}
