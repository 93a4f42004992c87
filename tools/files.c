/* The library's entries on files, for scripts that compare what they give: a listing, a run and a trace.
 *   files list < IMAGE                           the listing of a program image
 *   files run PROGRAM TABLE TURNS LAST           number, turns, blocks, depth and holders; the last table into LAST, after a refusal nothing
 *   files trace PROGRAM TABLE TURNS              the trace of the run */
#include "audala.h"
#include <stdio.h>
#include <stdlib.h>
#include <string.h>

static uint8_t program[AUDALA_PROGRAM_BYTES + 1], table[AUDALA_TABLE_BYTES + 1], turns[AUDALA_MOST_TURNS + 1], output[AUDALA_LISTING_BYTES];
static uint64_t list[AUDALA_LIST_PLACES];
static size_t program_length, table_length, turn_count;

static FILE *opened(const char *name, const char *way) {
    FILE *file = fopen(name, way);
    if (file == NULL) perror(name), exit(2);
    return file;
}

static void write_all(FILE *file, size_t count) {
    if (fwrite(output, 1, count, file) != count || fflush(file) != 0) perror("files"), exit(2);
}

/* One byte more than each may have, so that a longer one is refused. */
static size_t bytes(const char *name, uint8_t *buffer, size_t room) {
    FILE *file = opened(name, "rb");
    size_t count = fread(buffer, 1, room, file);
    fclose(file);
    return count;
}

static void inputs(char **names) {
    program_length = bytes(names[0], program, sizeof program);
    table_length = bytes(names[1], table, sizeof table);
    turn_count = bytes(names[2], turns, sizeof turns);
}

static void print_listing(void) {
    program_length = fread(program, 1, sizeof program, stdin);
    write_all(stdout, audala_listing(program, program_length, output, sizeof output).count);
}

static void print_run(const char *last) {
    audala_report r =
        audala_run(program, program_length, table, table_length, turns, turn_count, output, sizeof output, list, AUDALA_LIST_PLACES);
    printf("%u %u %u %u %u\n", (unsigned)r.number, (unsigned)r.turns, (unsigned)r.blocks, (unsigned)r.depth, (unsigned)r.holding);
    if (r.blocks > 0) {
        FILE *file = opened(last, "wb");
        write_all(file, AUDALA_BLOCK_BYTES * (size_t)r.blocks);
        fclose(file);
    }
}

static void print_trace(void) {
    audala_traced told;
    uint64_t from = 0;
    do {
        told = audala_trace(program, program_length, table, table_length, turns, turn_count, from, output, sizeof output);
        write_all(stdout, told.count);
        from += told.count;
    } while (from < told.length);
}

int main(int count, char **words) {
    if (count == 2 && strcmp(words[1], "list") == 0) print_listing();
    else if (count == 6 && strcmp(words[1], "run") == 0) inputs(words + 2), print_run(words[5]);
    else if (count == 5 && strcmp(words[1], "trace") == 0) inputs(words + 2), print_trace();
    else return fprintf(stderr, "files list < IMAGE | run PROGRAM TABLE TURNS LAST | trace PROGRAM TABLE TURNS\n"), 2;
    return 0;
}
