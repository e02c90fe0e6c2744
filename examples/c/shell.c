/* Reads commands, a line each, and does them:
 *
 *     say WORDS           prints the words
 *     keep NAME WORDS     writes the words to a file
 *     show NAME           prints a file
 *     drop NAME           removes a file
 *     count N             has a child count the primes up to N, and waits for it
 *     quit
 */
#include "mosix.h"
#include <stdio.h>
#include <stdlib.h>
#include <string.h>
#include <unistd.h>

static void keep(const char *name, const char *words)
{
    FILE *file = fopen(name, "w");

    if (!file || fprintf(file, "%s\n", words) < 0 || fclose(file) != 0)
        perror(name);
}

static void show(const char *name)
{
    FILE *file = fopen(name, "r");

    if (!file) {
        perror(name);
        return;
    }
    for (int c; (c = fgetc(file)) != EOF;)
        putchar(c);
    fclose(file);
}

static void count(int limit)
{
    int primes = 0, status = 0;

    fflush(stdout); /* or the child would print what still waits in the buffer, too */
    if (mosix_fork() != 0) {
        mosix_wait(&status);
        printf("the child ended with %d\n", status / 256);
        return;
    }
    for (int number = 2; number <= limit; number++) {
        int divisor = 2;

        while (number % divisor != 0)
            divisor++;
        primes += divisor == number;
    }
    mosix_exit(primes);
}

int main(void)
{
    char line[128];

    while (fgets(line, sizeof line, stdin)) {
        char *rest = line, *word;

        line[strcspn(line, "\n")] = '\0';
        word = strsep(&rest, " ");
        if (strcmp(word, "say") == 0)
            puts(rest ? rest : "");
        else if (strcmp(word, "keep") == 0 && rest) {
            word = strsep(&rest, " ");
            keep(word, rest ? rest : "");
        } else if (strcmp(word, "show") == 0 && rest)
            show(rest);
        else if (strcmp(word, "drop") == 0 && rest)
            unlink(rest);
        else if (strcmp(word, "count") == 0 && rest)
            count(atoi(rest));
        else if (strcmp(word, "quit") == 0)
            break;
        else
            printf("%s?\n", word);
    }
    return 0;
}
