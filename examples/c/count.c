/* Counts the lines, words and letters that are typed, up to the end of the input.
 *
 * Each fgets reads from the terminal. Where nothing is typed yet, the kernel at home holds the read, and the program waits for it
 * wherever it is: the script may move it meanwhile. */
#include <ctype.h>
#include <stdio.h>

int main(void)
{
    char line[128];
    int lines = 0, words = 0, letters = 0;

    while (fgets(line, sizeof line, stdin)) {
        int inside = 0;

        lines++;
        for (const char *c = line; *c != '\0'; c++) {
            words += !isspace((unsigned char)*c) && !inside;
            inside = !isspace((unsigned char)*c);
            letters += isalpha((unsigned char)*c) != 0;
        }
    }
    printf("%d lines, %d words, %d letters\n", lines, words, letters);
    return 0;
}
