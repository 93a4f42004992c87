/* trace PROGRAM TABLE TURNS: prints the trace of a run, the images and the turn bytes from files, page by page (docs/FORMAT.md, 'Traces'). Over dist/audala.c:
 *   cc -O2 -Iinclude dist/audala.c examples/trace.c -o trace && ./trace examples/sum.program examples/two.table examples/zeros.turns */
#include "audala.h"
#include <stdio.h>

static uint8_t program[AUDALA_PROGRAM_BYTES + 1], table[AUDALA_TABLE_BYTES + 1], turns[AUDALA_MOST_TURNS + 1], page[4096];

/* The bytes of a file, as many as the buffer holds: one more than is allowed, so that a longer file is refused. */
static size_t bytes(const char *name, uint8_t *buffer, size_t room) {
    FILE *file = fopen(name, "rb");
    size_t count = file ? fread(buffer, 1, room, file) : 0;
    if (!file) perror(name);
    else fclose(file);
    return count;
}

int main(int count, char **words) {
    if (count != 4) return fprintf(stderr, "trace PROGRAM TABLE TURNS\n"), 2;
    size_t p = bytes(words[1], program, sizeof program), t = bytes(words[2], table, sizeof table), n = bytes(words[3], turns, sizeof turns);
    audala_traced told;
    uint64_t from = 0;
    do {
        told = audala_trace(program, p, table, t, turns, n, from, page, sizeof page);
        if (fwrite(page, 1, told.count, stdout) != told.count) return 2;
        from += told.count;
    } while (from < told.length);
    return told.number == AUDALA_DONE ? 0 : 1;
}
