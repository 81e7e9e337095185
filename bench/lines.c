/* The smallest case of the memory that a start leaves: what the C library keeps of lines that were read before rows were made.

       cc -O1 -o lines bench/lines.c && ./lines [LINES [CELLS [ROW]]]

   Takes a block for each line and one for each of its cells. Then takes two blocks for each row, of ROW bytes together, and frees
   the line that it is made of. Prints what is resident at the end, what is in use, and what malloc_trim leaves. */
#include <malloc.h>
#include <stdio.h>
#include <stdlib.h>
#include <string.h>
#include <unistd.h>

enum { CELL = 64, BODY = 24, TEXT = 40 };

static double resident(void) {
    long pages = 0;
    FILE *file = fopen("/proc/self/statm", "r");
    if (!file || fscanf(file, "%*d %ld", &pages) != 1)
        exit(1);
    fclose(file);
    return pages * (double)sysconf(_SC_PAGESIZE) / 1e6;
}

static void *block(size_t size) {
    void *made = malloc(size);
    if (!made)
        exit(1);
    return memset(made, 1, size);
}

static char **line_of(int cells) {
    char **line = block(cells * CELL);
    for (int at = 0; at < cells; at++)
        line[at] = block(BODY);
    return line;
}

static void drop_line(char **line, int cells) {
    for (int at = 0; at < cells; at++)
        free(line[at]);
    free(line);
}

int main(int count, char **words) {
    int lines = count > 1 ? atoi(words[1]) : 40000;
    int cells = count > 2 ? atoi(words[2]) : 16;
    int row = count > 3 ? atoi(words[3]) : 640;
    char ***read = block(lines * sizeof *read);
    for (int at = 0; at < lines; at++)
        read[at] = line_of(cells);
    printf("%d lines of %d cells: %.1f MB resident\n", lines, cells, resident());
    for (int at = 0; at < lines; at++) {
        block(row - TEXT);
        block(TEXT);
        drop_line(read[at], cells);
    }
    free(read);
    printf("%d rows: %.1f MB resident, %.1f in use", lines, resident(), mallinfo2().uordblks / 1e6);
    malloc_trim(0);
    printf(", %.1f resident after malloc_trim\n", resident());
}
