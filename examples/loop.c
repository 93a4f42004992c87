/* A controller's loop: checks a program image once, then runs it round after round, each round's last table the next one's first. */
#include "audala.h"
#include <stdio.h>
#include <string.h>

static uint8_t program[AUDALA_PROGRAM_BYTES + 1], table[AUDALA_TABLE_BYTES], next[AUDALA_OUTPUT_BYTES], turns[AUDALA_MOST_TURNS];
static uint64_t list[AUDALA_LIST_PLACES];
static size_t program_length, table_length;

/* One round. Where the turns are used up it begins again from its first table with twice as many: the written table does not carry a run on. */
static uint32_t play_round(void) {
    for (size_t count = 8;; count *= 2) {
        audala_report r = audala_run(program, program_length, table, table_length, turns, count, next, sizeof next, list, AUDALA_LIST_PLACES);
        if (r.number == AUDALA_OUT_OF_TURNS && count < AUDALA_MOST_TURNS) continue;
        if (r.number == AUDALA_DONE) memcpy(table, next, table_length = AUDALA_BLOCK_BYTES * (size_t)r.blocks);
        return r.number; /* after 34 and 35 the old table stays, and next has the one before the stop */
    }
}

int main(void) {
    uint8_t stream[AUDALA_TABLE_STREAM];
    const uint32_t decks[2][2] = {{5, 2}, {7, 1}};
    program_length = fread(program, 1, sizeof program, stdin);
    uint32_t number = audala_check(program, program_length, list, AUDALA_LIST_PLACES).number;
    audala_put_count(stream, 2);
    size_t at = audala_put_record(stream, sizeof stream, AUDALA_FIRST_RECORD, 0, decks[0], 2);
    at = audala_put_record(stream, sizeof stream, at, 0, decks[1], 2);
    table_length = AUDALA_BLOCK_BYTES * audala_write_image(stream, at, AUDALA_TABLE_MOST, table, sizeof table).count;
    for (int k = 0; k < 40 && number == AUDALA_DONE; k++) {
        uint32_t values[2] = {0, 0};
        number = play_round();
        audala_read_image(table, table_length, AUDALA_TABLE_MOST, stream, sizeof stream);
        audala_get_record(stream, sizeof stream, AUDALA_FIRST_RECORD, values, 2);
        printf("round %d: %s, load %ld\n", k, audala_message(number), (long)audala_to_int(values[0]));
    }
    return number == AUDALA_DONE ? 0 : 1;
}
