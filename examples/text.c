/* Reads program text on standard input, checks the image that it makes, and prints the answer, the commands and the listing. */
#include "audala.h"
#include <stdio.h>

int main(void) {
    static uint8_t text[AUDALA_MOST_TEXT + 1], image[AUDALA_IMAGE_BYTES], lines[AUDALA_LISTING_BYTES];
    static uint64_t list[AUDALA_LIST_PLACES];
    size_t length = fread(text, 1, sizeof text, stdin);
    audala_copied t = audala_text(text, length, image, sizeof image);
    if (t.number != 0) {
        printf("refused %u\n", t.number);
        return 0;
    }
    audala_verdict v = audala_check(image, AUDALA_BLOCK_BYTES * t.count, list, AUDALA_LIST_PLACES);
    if (v.number != 0) {
        printf("checked %u\n", v.number);
        return 0;
    }
    printf("%zu blocks, %u structs, %u steps, %u commands, depth %u\n", t.count, v.structs, v.steps, v.commands, v.depth);
    for (uint32_t i = 0; i < v.commands; i++) {
        printf("kind %u operand %u\n", audala_kind_of(list[i]), audala_operand_of(list[i]));
    }
    audala_copied l = audala_listing(image, AUDALA_BLOCK_BYTES * t.count, lines, sizeof lines);
    fwrite(lines, 1, l.count, stdout);
    return 0;
}
