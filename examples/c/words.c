/* Writes a text to a file, then counts its lines, words and letters, and the commonest letter. */
#include <ctype.h>
#include <stdio.h>

static const char text[] =
    "A process has two halves.\n"
    "The remote has its registers and pages, and may be anywhere.\n"
    "The deputy stays at home and answers the calls.\n";

int main(void)
{
    int lines = 0, words = 0, letters[26] = { 0 }, inside = 0, most = 0;
    FILE *file = fopen("text", "w+");

    if (!file || fputs(text, file) < 0 || fseek(file, 0, SEEK_SET) != 0)
        return 1;
    for (int c; (c = fgetc(file)) != EOF;) {
        lines += c == '\n';
        words += !isspace(c) && !inside;
        inside = !isspace(c);
        if (isalpha(c))
            letters[tolower(c) - 'a']++;
    }
    fclose(file);
    for (int i = 1; i < 26; i++)
        if (letters[i] > letters[most])
            most = i;
    printf("%d lines, %d words, most often %c (%d times)\n", lines, words, 'a' + most, letters[most]);
    return 0;
}
