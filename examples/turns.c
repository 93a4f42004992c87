/* Reads P's image on standard input, runs it on two records (load, prev) of (5, 2) and (7, 1) with 24 turn bytes of zero, and prints
 * the answer and the loads that the run leaves. */
#include "audala.h"
#include <stdio.h>

int main(void) {
    static uint8_t image[AUDALA_PROGRAM_BYTES + 1], table[AUDALA_TABLE_BYTES], output[AUDALA_OUTPUT_BYTES], stream[AUDALA_TABLE_STREAM];
    static const uint8_t turns[24];
    static uint64_t list[AUDALA_LIST_PLACES];
    const uint32_t first[] = {5, 2}, second[] = {7, 1};
    size_t length = fread(image, 1, sizeof image, stdin);
    audala_put_count(stream, 2);
    size_t at = audala_put_record(stream, sizeof stream, AUDALA_FIRST_RECORD, 0, first, 2);
    at = audala_put_record(stream, sizeof stream, at, 0, second, 2);
    audala_copied w = audala_write_image(stream, at, AUDALA_TABLE_MOST, table, sizeof table);
    audala_report r = audala_run(image, length, table, AUDALA_BLOCK_BYTES * w.count, turns, sizeof turns, output, sizeof output, list, AUDALA_LIST_PLACES);
    printf("number %u, %u turns, %u blocks, depth %u, %u hold commands\n", r.number, r.turns, r.blocks, r.depth, r.holding);
    audala_copied s = audala_read_image(output, AUDALA_BLOCK_BYTES * (size_t)r.blocks, AUDALA_TABLE_MOST, stream, sizeof stream);
    if (s.number == 0) {
        uint32_t one[2], two[2];
        at = audala_get_record(stream, s.count, AUDALA_FIRST_RECORD, one, 2);
        audala_get_record(stream, s.count, at, two, 2);
        printf("loads %ld and %ld\n", (long)audala_to_int(one[0]), (long)audala_to_int(two[0]));
    }
    return 0;
}
