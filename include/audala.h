/* The AuDaLa checker, engine and reader of program text for C and C++. Compile dist/audala.c beside it with any C99 compiler, or link with libaudala.a
 * (tools/staticlib.sh), which is built for x86-64 under the System V calling convention by today's toolchain. include/audala.rs is the same for Rust.
 *
 * What the functions answer, and every byte that they write, is fixed by their proved contracts; formats and numbers are set out in
 * docs/FORMAT.md, what a controller needs in docs/CONTROLLER.md. What a caller has to keep, and what no contract speaks of:
 *   overlap    a list or output that is written overlaps nothing else that is handed to the call; read buffers may overlap each other;
 *   alignment  a list is aligned as a uint64_t array is; byte buffers may stand anywhere;
 *   null       a null pointer may stand for an empty buffer, with length 0;
 *   threads    the library has no data of its own: calls may go on at the same time, each with buffers of its own;
 *   stack      see AUDALA_CHECK_STACK and the macros after it. Levels of nesting bound it, not lengths, and no input takes more. */
#ifndef AUDALA_H
#define AUDALA_H

#include <stddef.h>
#include <stdint.h>

#ifdef __cplusplus
extern "C" {
#endif

/* The version of this header and of what it declares. */
#define AUDALA_VERSION "0.1.0"

/* The numbers that the functions answer. 1 to 17, 21 and 24 are from the input: nothing is written. 33 to 35 are from the state: the run
 * stopped, and its table up to there is written. Where several hold the lowest is answered; of 2 and 3, of 4 and 5, and of 11 and
 * 12 the one that is met first in the image. Of program text 15 is answered before 16, 16 before 17 and 17 before 13. */
typedef enum {
    AUDALA_DONE = 0,             /* accepted; of a run: it came to its schedule's end */
    AUDALA_PROGRAM_SIZE = 1,     /* program image empty, over 32,768 bytes or no multiple of 512: send it again */
    AUDALA_PROGRAM_SUMS = 2,     /* a sum of a program block is wrong: the image was damaged on its way */
    AUDALA_PROGRAM_BLOCKS = 3,   /* a program block with another index, used count or unused bytes: it was put together wrongly */
    AUDALA_PROGRAM_END = 4,      /* the program stream ends too early or too late */
    AUDALA_PROGRAM_BYTE = 5,     /* a byte of the program stream that nothing allows there, or nesting past its limit */
    AUDALA_PROGRAM_LIMIT = 6,    /* too many commands, too deep a stack or too many schedule items */
    AUDALA_PROGRAM_NAME = 7,     /* a name that is not declared, declared twice or not alive; a step that is not there */
    AUDALA_PROGRAM_TYPE = 8,     /* an expression of another type than its place asks for */
    AUDALA_TABLE_SIZE = 9,       /* table image empty, over 8,704 bytes or no multiple of 512 */
    AUDALA_TABLE_BLOCKS = 10,    /* a table block with a wrong sum, index, used count or unused bytes */
    AUDALA_TABLE_END = 11,       /* the table stream ends too early or too late */
    AUDALA_TABLE_RECORD = 12,    /* a record with a wrong struct, value or reference, or too many of them */
    AUDALA_NO_ROOM = 13,         /* the list or the output is too short: see the macros below */
    AUDALA_TOO_MANY_TURNS = 14,  /* more than 65,536 turn bytes */
    AUDALA_TEXT_TOKEN = 15,      /* program text over 65,536 bytes, an unclosed comment, or characters that are no token */
    AUDALA_TEXT_GRAMMAR = 16,    /* program text that the grammar does not derive */
    AUDALA_TEXT_NAME = 17,       /* program text with a name, a literal, arguments or a count that no program stream has */
    AUDALA_ABSENT = 21,          /* a label or a parameter that is not there (audala_count) */
    AUDALA_TOO_MANY_ORDERS = 24, /* a step of more than 12 commands over all its instances (audala_count) */
    AUDALA_OUT_OF_TURNS = 33,    /* the turn bytes are used up while commands remain: run again from the first table, with more turns (see audala_run) */
    AUDALA_TABLE_FULL = 34,      /* an instance was to be made and there are 256 */
    AUDALA_ARITHMETIC = 35       /* a result outside its type, or a division by zero */
} audala_number;

/* A number in words, for a display or a log; "an unknown number" for one that no function answers. */
static inline const char *audala_message(uint32_t number) {
    switch (number) {
    case AUDALA_DONE: return "done";
    case AUDALA_PROGRAM_SIZE: return "the program image is empty, too long or no multiple of 512 bytes";
    case AUDALA_PROGRAM_SUMS: return "a sum of a program block is wrong";
    case AUDALA_PROGRAM_BLOCKS: return "a program block has a wrong index, used count or unused byte";
    case AUDALA_PROGRAM_END: return "the program stream ends too early or too late";
    case AUDALA_PROGRAM_BYTE: return "a byte of the program stream is not allowed at its place";
    case AUDALA_PROGRAM_LIMIT: return "the program has too many commands or schedule items, or too deep a stack";
    case AUDALA_PROGRAM_NAME: return "a name of the program is not declared, declared twice or not alive";
    case AUDALA_PROGRAM_TYPE: return "an expression of the program has the wrong type";
    case AUDALA_TABLE_SIZE: return "the table image is empty, too long or no multiple of 512 bytes";
    case AUDALA_TABLE_BLOCKS: return "a table block has a wrong sum, index, used count or unused byte";
    case AUDALA_TABLE_END: return "the table stream ends too early or too late";
    case AUDALA_TABLE_RECORD: return "a record has a wrong struct, value or reference, or there are too many";
    case AUDALA_NO_ROOM: return "the list or the output is too short";
    case AUDALA_TOO_MANY_TURNS: return "there are more than 65536 turn bytes";
    case AUDALA_TEXT_TOKEN: return "the text is too long, has an unclosed comment or characters that are no token";
    case AUDALA_TEXT_GRAMMAR: return "the grammar does not derive the text";
    case AUDALA_TEXT_NAME: return "a name, a literal, arguments or a count of the text is wrong";
    case AUDALA_ABSENT: return "the label or the parameter is not there";
    case AUDALA_TOO_MANY_ORDERS: return "the step has too many commands to count its orders";
    case AUDALA_OUT_OF_TURNS: return "the turn bytes are used up while commands remain";
    case AUDALA_TABLE_FULL: return "an instance was to be made and there are 256";
    case AUDALA_ARITHMETIC: return "a result lies outside its type, or a divisor is zero";
    default: return "an unknown number";
    }
}

/* Sizes and limits ------------------------------------------------------------------------------------------------------------------------------------- */

/* A block of an image, and the bytes of the stream that it holds. */
#define AUDALA_BLOCK_BYTES 512
#define AUDALA_PAYLOAD_BYTES 504

/* Blocks that an image has at most, of a program and of a table; their bytes, and those of their streams. */
#define AUDALA_PROGRAM_MOST 64
#define AUDALA_TABLE_MOST 17
#define AUDALA_PROGRAM_BYTES (AUDALA_PROGRAM_MOST * AUDALA_BLOCK_BYTES)
#define AUDALA_TABLE_BYTES (AUDALA_TABLE_MOST * AUDALA_BLOCK_BYTES)
#define AUDALA_PROGRAM_STREAM (AUDALA_PROGRAM_MOST * AUDALA_PAYLOAD_BYTES)
#define AUDALA_TABLE_STREAM (AUDALA_TABLE_MOST * AUDALA_PAYLOAD_BYTES)

/* Places of the command list that a check or a run asks for, else 13. */
#define AUDALA_LIST_PLACES 1024

/* Bytes of the output that a run asks for, that program text asks for and that a listing asks for, else 13. A trace takes any output. */
#define AUDALA_OUTPUT_BYTES AUDALA_TABLE_BYTES
#define AUDALA_IMAGE_BYTES AUDALA_PROGRAM_BYTES
#define AUDALA_LISTING_BYTES 131072

/* Turn bytes that a run takes at most, else 14; bytes that a text has at most, else 15. */
#define AUDALA_MOST_TURNS 65536
#define AUDALA_MOST_TEXT 65536

/* What a program has at most: structs; parameters and steps of a struct; locals and commands of a step; names of steps; depth of a stack. Instances that there
 * are at most, the null one of each struct among them: a table has AUDALA_MOST_INSTANCES records less one for each struct. */
#define AUDALA_MOST_STRUCTS 16
#define AUDALA_MOST_PARAMETERS 8
#define AUDALA_MOST_STEPS 8
#define AUDALA_MOST_LOCALS 8
#define AUDALA_MOST_STEP_COMMANDS 64
#define AUDALA_MOST_STEP_NAMES 32
#define AUDALA_MOST_DEPTH 16
#define AUDALA_MOST_INSTANCES 256

/* Bytes of stack that a call takes at most: of libaudala.a as measured (bench/stack.sh), of dist/audala.c as computed with gcc for 32-bit ARM and x86-64
 * (bench/arm.sh), the greatest of all, rounded up. With other compilers and options compute it anew, in the same way. */
#define AUDALA_CHECK_STACK 57344
#define AUDALA_STEP_STACK 57344
#define AUDALA_RUN_STACK 133120
/* of libaudala.a measured 115,064 with 10 commands open and 1,440 for each more, so some 118,000 with 12; of dist/audala.c not computed, so with more room than the others */
#define AUDALA_COUNT_STACK 163840
#define AUDALA_READ_IMAGE_STACK 1024
#define AUDALA_WRITE_IMAGE_STACK 1024
#define AUDALA_TEXT_STACK 237568
#define AUDALA_PLACE_STACK 208896 /* not computed for ARM */
#define AUDALA_LISTING_STACK 65536
#define AUDALA_TRACE_STACK 135168 /* not computed for ARM: that of a run and two lines */

/* Types, values and records ---------------------------------------------------------------------------------------------------------------------------- */

/* Type bytes: Int, Nat, Bool, a reference to an instance of struct k. */
#define AUDALA_INT 0
#define AUDALA_NAT 1
#define AUDALA_BOOL 2
#define AUDALA_REFERENCE(k) (16 + (k))

/* A value takes four bytes, as a number of 32 bits: a Nat, a label or a Bool as it is, an Int in two's complement. */
static inline uint32_t audala_of_int(int32_t value) {
    return (uint32_t)value;
}

static inline int32_t audala_to_int(uint32_t value) {
    return value <= INT32_MAX ? (int32_t)value : -(int32_t)(UINT32_MAX - value) - 1;
}

/* A table's stream begins with the count of its records, at most 255, in two bytes; the records follow. */
#define AUDALA_FIRST_RECORD 2

static inline void audala_put_count(uint8_t *stream, uint32_t records) {
    stream[0] = (uint8_t)(records & 255);
    stream[1] = (uint8_t)(records >> 8 & 255);
}

static inline uint32_t audala_get_count(const uint8_t *stream) {
    return stream[0] | (uint32_t)stream[1] << 8;
}

/* Packs a record of a struct with so many parameters at the place `at` of a table's stream. Answers the place of the next record; 0, and writes nothing,
 * where it would pass the end of the room. */
static inline size_t audala_put_record(uint8_t *stream, size_t room, size_t at, uint8_t structure, const uint32_t *values, size_t parameters) {
    size_t next = at + 1 + 4 * parameters, i;
    if (parameters > AUDALA_MOST_PARAMETERS || at > room || next > room) {
        return 0;
    }
    stream[at] = structure;
    for (i = 0; i < 4 * parameters; i++) {
        stream[at + 1 + i] = (uint8_t)(values[i / 4] >> 8 * (i % 4) & 255);
    }
    return next;
}

/* Unpacks the record at the place `at` of a table's stream of `length` bytes: its struct is stream[at], which tells how many parameters it has. Answers the
 * place of the next record; 0, and leaves the values, where the record would pass the end of the stream. */
static inline size_t audala_get_record(const uint8_t *stream, size_t length, size_t at, uint32_t *values, size_t parameters) {
    size_t next = at + 1 + 4 * parameters, i;
    if (parameters > AUDALA_MOST_PARAMETERS || at > length || next > length) {
        return 0;
    }
    for (i = 0; i < parameters; i++) {
        const uint8_t *bytes = stream + at + 1 + 4 * i;
        values[i] = bytes[0] | (uint32_t)bytes[1] << 8 | (uint32_t)bytes[2] << 16 | (uint32_t)bytes[3] << 24;
    }
    return next;
}

/* Commands --------------------------------------------------------------------------------------------------------------------------------------------- */

/* What a place of the list holds: kind + 256 * type byte + 2^32 * operand. The operand of push T V is the value, of rd and wr the variable (0 to 7 a
 * parameter, 8 to 15 a local), of cons the struct, of if the count of body commands, of op the operator. */
typedef enum {
    AUDALA_PUSH = 1,
    AUDALA_PUSH_THIS = 2,
    AUDALA_RD = 3,
    AUDALA_WR = 4,
    AUDALA_CONS = 5,
    AUDALA_IF = 6,
    AUDALA_NOT = 7,
    AUDALA_OP = 8
} audala_kind;

typedef enum {
    AUDALA_EQUAL = 32,
    AUDALA_NOT_EQUAL = 33,
    AUDALA_AT_MOST = 34,
    AUDALA_AT_LEAST = 35,
    AUDALA_LESS = 36,
    AUDALA_GREATER = 37,
    AUDALA_TIMES = 38,
    AUDALA_DIVIDED = 39,
    AUDALA_REMAINDER = 40,
    AUDALA_PLUS = 41,
    AUDALA_MINUS = 42,
    AUDALA_AND = 43,
    AUDALA_OR = 44
} audala_operator;

static inline uint32_t audala_kind_of(uint64_t place) {
    return (uint32_t)(place & 255);
}

static inline uint32_t audala_type_of(uint64_t place) {
    return (uint32_t)(place >> 8 & 255);
}

static inline uint32_t audala_operand_of(uint64_t place) {
    return (uint32_t)(place >> 32);
}

/* What a caller calls ---------------------------------------------------------------------------------------------------------------------------------- */

/* What a check answers. After a refusal all but the number are 0. */
typedef struct {
    uint32_t number;   /* 0: accepted; 1 to 8, 13: refused (audala_number) */
    uint32_t structs;  /* structs of the program */
    uint32_t steps;    /* steps of all structs */
    uint32_t commands; /* commands of all steps */
    uint32_t depth;    /* the greatest stack height over all steps */
} audala_verdict;

/* Checks a program image of `length` bytes. Where it is accepted, its commands stand in the list from the first place on:
 * structs in order, each struct's steps in stream order; further places are untouched. A refusal leaves the whole list as it
 * was. */
audala_verdict audala_check(const uint8_t *image, size_t length, uint64_t *list, size_t places);

/* Where the commands of one step stand in the list. */
typedef struct {
    uint32_t number; /* 0: the image is accepted and the list has room; 1 to 8, 13: refused, as a check has it */
    uint32_t start;  /* the place of the first, counted from 0 */
    uint32_t length; /* how many there are */
} audala_part;

/* The part of the list for the step `name` of the struct `structure`, both as a program stream has them: a struct by its number,
 * counted from 0, and a step by its name's byte. The image, of `length` bytes, is checked anew, and the list is only measured:
 * where a check of this image was lent it, the part holds the step's commands. start + length is at most `places`. Both are 0
 * where the number is not, and where the step is not there. */
audala_part audala_step(const uint8_t *image, size_t length, const uint64_t *list, size_t places, uint8_t structure,
                        uint8_t name);

/* What a run answers. After a number from the input, 1 to 14, all but the number are 0. */
typedef struct {
    uint32_t number;  /* 0: the run has ended; 1 to 14: refused; 33 to 35: stopped (audala_number) */
    uint32_t turns;   /* commands taken; the byte that chose a refused command is not counted */
    uint32_t blocks;  /* blocks of 512 bytes written */
    uint32_t depth;   /* the greatest stack height over all steps of the program */
    uint32_t holding; /* instances that hold commands where the call ends, before the turn that would come next: 0 exactly at 0, at least 1 at
                         33, 34 and 35 (the instance of a refused command still holds it) */
} audala_report;

/* Runs a program image on a table image with these turn bytes. A number from the input leaves output and list as they were.
 * Otherwise the output begins with the blocks of the last table, after 34 and 35 the one before the refused command, and later bytes
 * are untouched; and the list holds the commands as after a check. After 33 the written table alone does not carry the run on: stacks and positions are not in
 * it. Run again from the first table, with all turns from the first on and more after them. */
audala_report audala_run(const uint8_t *program, size_t program_length, const uint8_t *table, size_t table_length,
                         const uint8_t *turns, size_t turn_count, uint8_t *output, size_t output_length, uint64_t *list,
                         size_t places);

/* How many orders of a step end in which way. */
typedef struct {
    uint32_t number;       /* 0: counted; 1 to 13, 21 and 24: refused, and the counts are 0 (audala_number) */
    uint32_t true_orders;  /* sequences of acting labels that complete the step with the parameter true */
    uint32_t false_orders; /* that complete it with the parameter false */
    uint32_t stopped;      /* that stop with 34 or 35, the label of the refused command included */
} audala_counts;

/* Counts the orders of one step, started on a table for every struct that has it, whatever the program's schedule, by what they leave in a Bool parameter
 * of a label (null labels too). The order of the numbers: 1 to 8, 9 to 12, 13 of the list, then 7 (no struct has the step), 21 (the label or the parameter is
 * not there), 8 (it is no Bool), 24 (the step has over 12 commands over all its instances, null ones included). A refusal leaves the list; otherwise it holds
 * the commands as after a run. Nothing else is written. With at most 12 commands all orders of a step agree, so exactly one of the three counts is not 0: the
 * answer is all or none, and how many. Every order is followed: 12 instances of one command have 479,001,600 orders (12!), which takes some two minutes at
 * 0.2 microseconds for an order (x86-64); four instances of three commands have 369,600, which takes a tenth of a second. */
audala_counts audala_count(const uint8_t *program, size_t program_length, const uint8_t *table, size_t table_length, uint32_t name, uint32_t label,
                           uint32_t parameter, uint64_t *list, size_t places);

/* What reading or writing an image, or reading program text, answers. */
typedef struct {
    uint32_t number; /* 0: done; 1 to 3, 15 to 17: see below (audala_number); 13: the buffer is too short */
    size_t count;    /* bytes of the stream, or blocks of the image, that were written; 0 where the number is not */
} audala_copied;

/* The stream of an image of at most `most` blocks, in the front of the buffer; later bytes are untouched. 1: the image is empty, has more
 * blocks or is no multiple of 512; 2: a sum is wrong; 3: an index, a used count or an unused byte. A refusal leaves the buffer. */
audala_copied audala_read_image(const uint8_t *image, size_t length, size_t most, uint8_t *buffer, size_t room);

/* The image of a stream in at most `most` blocks, in the front of the output; later bytes are untouched. 1: the stream is empty or longer
 * than 504 * most. A refusal leaves the output. */
audala_copied audala_write_image(const uint8_t *stream, size_t length, size_t most, uint8_t *output, size_t room);

/* The image of the program that a text of `length` bytes means, in the front of the output; later bytes are untouched. The count is that of its
 * blocks of 512 bytes. 15: no tokens; 16: no derivation; 17: no program; 13: the output is too short. A refusal leaves the output. What is
 * written, the first 512 * count bytes, is to be checked like any image: audala_check, with a list of AUDALA_LIST_PLACES, then answers
 * 0, 5, 6, 7 or 8. */
audala_copied audala_text(const uint8_t *text, size_t length, uint8_t *output, size_t room);

/* What is answered of a text's place. */
typedef struct {
    size_t at; /* how many bytes of the text are before the place; its length where the end is the place */
} audala_stopped;

/* The place at which reading a text stops, for a message beside 15, 16 and 17: of 15 the first byte at which no token begins, of a
 * text over 65,536 bytes that count; of 16 the first token with which no derivation goes on, the length where the text ends too early; of 17 the token at which a
 * name, a literal or an argument list is wrong, 0 for declarations of structs, parameters and steps, the length for other counts. It may be after the mistake. */
audala_stopped audala_place(const uint8_t *text, size_t length);

/* The listing of a program image in the front of the output, lines of ASCII that end in a line feed; later bytes are untouched. The count is that of its
 * bytes. Of an accepted image: `audala`, its structs, steps, commands and depth, then a line for each command: struct, step, position, command. Of a refused
 * one the single line `refused` and the number; what is answered is 0 then, too. 13: the output is too short, and stays as it was. */
audala_copied audala_listing(const uint8_t *image, size_t length, uint8_t *output, size_t room);

/* What a page of a trace answers. */
typedef struct {
    uint32_t number; /* that of the run: 0, 1 to 12, 14 or 33 to 35; there is no 13 */
    uint32_t turns;  /* commands taken; 0 after 1 to 14 */
    uint64_t length; /* bytes of the whole trace, whatever the output holds of them */
    size_t count;    /* bytes of it that were written */
} audala_traced;

/* A page of the trace of a run (docs/FORMAT.md, 'Traces'): the bytes of its text from the place `from` on, as many as the output holds, in the front of the
 * output; later bytes are untouched. The text has a line for each move of the schedule and each turn, and a last line `end` with the number and the turns; of
 * a refused input (1 to 12, 14) it is that line alone. Any place and any output will do: from `length` on nothing is written, and pages that follow each
 * other are the whole text. So go on with from + count until it is `length`, or ask with an empty output for `length` first.
 * Each call makes the run anew and tells all of it, whichever page is asked for: a text of L bytes in pages of N bytes costs L / N runs, in an output of
 * L bytes one. */
audala_traced audala_trace(const uint8_t *program, size_t program_length, const uint8_t *table, size_t table_length, const uint8_t *turns,
                           size_t turn_count, uint64_t from, uint8_t *output, size_t room);

#ifdef __cplusplus
}
#endif

#endif
