/* Writes a file of the cluster line by line, appends to it, and reads it back. */
#include <stdio.h>
#include <string.h>

static int write_lines(const char *how, const char *const lines[], int count)
{
    FILE *file = fopen("notes", how);
    if (!file) {
        perror("notes");
        return 1;
    }
    for (int i = 0; i < count; i++)
        fprintf(file, "%d. %s\n", i + 1, lines[i]);
    return fclose(file);
}

int main(void)
{
    static const char *const first[] = { "buy bread", "feed the cat" };
    static const char *const more[] = { "write a letter" };
    char line[80];
    int lines = 0;

    if (write_lines("w", first, 2) || write_lines("a", more, 1))
        return 1;
    FILE *file = fopen("notes", "r");
    if (!file)
        return 2;
    while (fgets(line, sizeof line, file)) {
        lines++;
        printf("read: %s", line);
    }
    fclose(file);
    printf("%d lines\n", lines);
    file = fopen("letters", "r");
    if (!file)
        perror("letters");
    return lines;
}
