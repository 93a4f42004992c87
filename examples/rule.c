/* rule TEXT TABLE TURNS: reads program text and a table as text (docs/FORMAT.md, 'Tables as text') from files, runs the program with a list of turns such as
 * 24x0 or 8x0,1,2 (so many times those bytes) and prints number, turns and the last table. Over dist/audala.c:
 *   cc -O2 -Iinclude dist/audala.c examples/rule.c -o rule && ./rule examples/tutorial/heat.audala examples/tutorial/heat.table 18x0 */
#include "audala.h"
#include <stdio.h>
#include <stdlib.h>
#include <string.h>

static uint8_t text[AUDALA_MOST_TEXT + 1], image[AUDALA_IMAGE_BYTES], program[AUDALA_PROGRAM_STREAM], turns[AUDALA_MOST_TURNS + 1];
static uint8_t records[AUDALA_TABLE_STREAM], table[AUDALA_TABLE_BYTES], output[AUDALA_OUTPUT_BYTES];
static uint64_t list[AUDALA_LIST_PLACES];

static int failed(const char *what, const char *why) {
    fprintf(stderr, "rule: %s: %s\n", what, why);
    exit(1);
}

static FILE *opened(const char *name) {
    FILE *file = fopen(name, "rb");
    if (!file) perror(name), exit(1);
    return file;
}

/* The type bytes of a struct, after their count: the program's stream has them in front. */
static const uint8_t *parameters_of(unsigned long structure) {
    const uint8_t *types = program + 1;
    if (structure >= program[0]) failed("table", "there is no such struct");
    for (; structure > 0; structure--) types += 1 + types[0];
    return types;
}

/* A line of the table, label, struct and values, as a record at the place `at`; answers the place after it. */
static size_t record_of(char *line, unsigned long label, size_t at) {
    uint32_t values[AUDALA_MOST_PARAMETERS];
    if (strtoul(line, &line, 10) != label) failed("table", "labels begin after the null instances and go up by one");
    unsigned long structure = strtoul(line, &line, 10);
    const uint8_t *types = parameters_of(structure);
    for (uint8_t k = 0; k < types[0]; k++) {
        char *end;
        long long value = strtoll(line, &end, 10);
        long long least = types[1 + k] == AUDALA_INT ? INT32_MIN : 0, most = types[1 + k] == AUDALA_INT ? INT32_MAX : UINT32_MAX;
        if (end == line || value < least || value > most) failed("table", "a value is missing or outside its type");
        values[k] = (uint32_t)value;
        line = end;
    }
    if (line[strspn(line, " \t\r\n")] != 0) failed("table", "a line has more values than its struct has parameters");
    return audala_put_record(records, sizeof records, at, (uint8_t)structure, values, types[0]);
}

/* The table image of a file of such lines; answers its bytes. */
static size_t table_of(const char *name) {
    FILE *file = opened(name);
    char line[256];
    uint32_t count = 0;
    size_t at = AUDALA_FIRST_RECORD;
    while (at != 0 && fgets(line, sizeof line, file)) {
        if (line[0] != '\n') at = record_of(line, program[0] + count++, at);
    }
    fclose(file);
    if (at == 0) failed("table", "there are too many records");
    audala_put_count(records, count);
    return AUDALA_BLOCK_BYTES * audala_write_image(records, at, AUDALA_TABLE_MOST, table, sizeof table).count;
}

/* The bytes of a list of turns; answers how many there are, one more than is allowed where there are more. */
static size_t turns_of(const char *word) {
    char *rest;
    unsigned long times = strtoul(word, &rest, 10);
    const char *bytes = rest;
    size_t count = 0;
    if (*rest != 'x') failed("turns", "a list is a count, an x and bytes, as 24x0");
    for (; times > 0; times--) {
        for (rest = (char *)bytes; *rest != 0 && count < sizeof turns;) {
            unsigned long byte = strtoul(rest + 1, &rest, 10);
            if (byte > 255 || (*rest != ',' && *rest != 0)) failed("turns", "a turn is a byte, 0 to 255, with a comma before the next");
            turns[count++] = (uint8_t)byte;
        }
    }
    return count;
}

static void print_table(size_t length) {
    uint32_t values[AUDALA_MOST_PARAMETERS];
    unsigned long label = program[0];
    for (size_t at = AUDALA_FIRST_RECORD; at != 0 && at < length; label++) {
        const uint8_t *types = parameters_of(records[at]);
        printf("%lu %u", label, (unsigned)records[at]);
        at = audala_get_record(records, length, at, values, types[0]);
        for (uint8_t k = 0; at != 0 && k < types[0]; k++) {
            printf(" %lld", types[1 + k] == AUDALA_INT ? (long long)audala_to_int(values[k]) : (long long)values[k]);
        }
        printf("\n");
    }
}

int main(int count, char **words) {
    if (count != 4) return fprintf(stderr, "rule TEXT TABLE TURNS\n"), 2;
    FILE *file = opened(words[1]);
    audala_copied read = audala_text(text, fread(text, 1, sizeof text, file), image, sizeof image);
    fclose(file);
    if (read.number != 0) return printf("refused %u: %s\n", (unsigned)read.number, audala_message(read.number)), 1;
    size_t length = AUDALA_BLOCK_BYTES * read.count;
    uint32_t number = audala_check(image, length, list, AUDALA_LIST_PLACES).number;
    if (number != 0) return printf("refused %u: %s\n", (unsigned)number, audala_message(number)), 1;
    audala_read_image(image, length, AUDALA_PROGRAM_MOST, program, sizeof program);
    size_t table_length = table_of(words[2]);
    audala_report r = audala_run(image, length, table, table_length, turns, turns_of(words[3]), output, sizeof output, list, AUDALA_LIST_PLACES);
    if (r.blocks == 0) return printf("refused %u: %s\n", (unsigned)r.number, audala_message(r.number)), 1;
    printf("gives %u %u\n", (unsigned)r.number, (unsigned)r.turns);
    print_table(audala_read_image(output, AUDALA_BLOCK_BYTES * r.blocks, AUDALA_TABLE_MOST, records, sizeof records).count);
    return 0;
}
