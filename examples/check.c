/* Reads a program image on standard input and prints the verdict, the commands, and those of the step 0 of struct 0. */
#include "audala.h"
#include <stdio.h>

static void print(const uint64_t *list, uint32_t count) {
    for (uint32_t i = 0; i < count; i++) {
        printf("kind %u operand %u\n", audala_kind_of(list[i]), audala_operand_of(list[i]));
    }
}

int main(void) {
    static uint8_t image[AUDALA_PROGRAM_BYTES + 1];
    static uint64_t list[AUDALA_LIST_PLACES];
    size_t length = fread(image, 1, sizeof image, stdin);
    audala_verdict v = audala_check(image, length, list, AUDALA_LIST_PLACES);
    if (v.number != 0) {
        printf("refused %u\n", v.number);
        return 0;
    }
    printf("%u structs, %u steps, %u commands, depth %u\n", v.structs, v.steps, v.commands, v.depth);
    print(list, v.commands);
    audala_part p = audala_step(image, length, list, AUDALA_LIST_PLACES, 0, 0);
    if (p.number != 0) {
        printf("refused %u\n", p.number);
        return 0;
    }
    printf("struct 0, step 0: from place %u, %u commands\n", p.start, p.length);
    print(list + p.start, p.length);
    return 0;
}
