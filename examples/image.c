/* Reads a program image on standard input, prints its stream as numbers, and writes the stream's image anew: it must be the same. */
#include "audala.h"
#include <stdio.h>
#include <string.h>

int main(void) {
    static uint8_t image[AUDALA_PROGRAM_BYTES + 1], again[AUDALA_PROGRAM_BYTES], stream[AUDALA_PROGRAM_STREAM];
    size_t length = fread(image, 1, sizeof image, stdin);
    audala_copied s = audala_read_image(image, length, AUDALA_PROGRAM_MOST, stream, sizeof stream);
    if (s.number != 0) {
        printf("refused %u\n", s.number);
        return 0;
    }
    for (size_t i = 0; i < s.count; i++) {
        printf("%u%c", stream[i], i + 1 < s.count ? ' ' : '\n');
    }
    audala_copied w = audala_write_image(stream, s.count, AUDALA_PROGRAM_MOST, again, sizeof again);
    int same = w.number == 0 && AUDALA_BLOCK_BYTES * w.count == length && memcmp(image, again, length) == 0;
    printf("%s\n", same ? "written anew: the same image" : "written anew: ANOTHER image");
    return 0;
}
