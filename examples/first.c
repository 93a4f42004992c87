/* first TEXT TABLE TURNS: reads program text, a table image and turn bytes from files, runs the program and prints in words what it gives. Over dist/audala.c:
 *   cc -O2 -Iinclude dist/audala.c examples/first.c -o first && ./first examples/sum.audala examples/two.table examples/zeros.turns */
#include "audala.h"
#include <stdio.h>

static uint8_t text[AUDALA_MOST_TEXT + 1], table[AUDALA_TABLE_BYTES + 1], turns[AUDALA_MOST_TURNS + 1];
static uint8_t image[AUDALA_IMAGE_BYTES], output[AUDALA_OUTPUT_BYTES], program[AUDALA_PROGRAM_STREAM], records[AUDALA_TABLE_STREAM];
static uint64_t list[AUDALA_LIST_PLACES];

/* The bytes of a file, as many as the buffer holds: one more than is allowed, so that a longer file is refused. */
static size_t bytes(const char *name, uint8_t *buffer, size_t room) {
    FILE *file = fopen(name, "rb");
    size_t count = file ? fread(buffer, 1, room, file) : 0;
    if (!file) perror(name);
    else fclose(file);
    return count;
}

static int refused(const char *what, uint32_t number) {
    printf("%s: refused with %u, %s\n", what, (unsigned)number, audala_message(number));
    return 1;
}

static void print_value(uint8_t type, uint32_t value) {
    if (type == AUDALA_INT) printf(" %ld", (long)audala_to_int(value));
    else if (type == AUDALA_NAT) printf(" %lu", (unsigned long)value);
    else if (type == AUDALA_BOOL) printf(value ? " true" : " false");
    else printf(" ->%lu", (unsigned long)value);
}

/* The records of a table: label, struct and values. The program's stream tells the types: the count of structs, then each one's count and type bytes. */
static void print_records(size_t length) {
    uint32_t values[AUDALA_MOST_PARAMETERS], label = program[0];
    for (size_t at = AUDALA_FIRST_RECORD; at != 0 && at < length; label++) {
        uint8_t structure = records[at];
        const uint8_t *types = program + 1;
        for (uint8_t k = 0; k < structure; k++) types += 1 + types[0];
        at = audala_get_record(records, length, at, values, types[0]);
        printf("  label %lu, struct %u:", (unsigned long)label, (unsigned)structure);
        for (uint8_t k = 0; at != 0 && k < types[0]; k++) print_value(types[1 + k], values[k]);
        printf("\n");
    }
}

int main(int count, char **words) {
    if (count != 4) return fprintf(stderr, "first TEXT TABLE TURNS\n"), 2;
    audala_copied read = audala_text(text, bytes(words[1], text, sizeof text), image, sizeof image);
    if (read.number != 0) return refused("text", read.number);
    size_t length = AUDALA_BLOCK_BYTES * read.count;
    audala_report r = audala_run(image, length, table, bytes(words[2], table, sizeof table), turns, bytes(words[3], turns, sizeof turns), output, sizeof output,
                                 list, AUDALA_LIST_PLACES);
    if (r.number != AUDALA_DONE && r.number < AUDALA_OUT_OF_TURNS) return refused("run", r.number);
    printf("run: %u, %s, after %lu turns; %lu instances hold commands. Its table:\n", (unsigned)r.number, audala_message(r.number), (unsigned long)r.turns,
           (unsigned long)r.holding);
    audala_read_image(image, length, AUDALA_PROGRAM_MOST, program, sizeof program);
    print_records(audala_read_image(output, AUDALA_BLOCK_BYTES * (size_t)r.blocks, AUDALA_TABLE_MOST, records, sizeof records).count);
    return 0;
}
