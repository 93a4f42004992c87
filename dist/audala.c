/* The AuDaLa engine as one C99 file, to be compiled beside audala.h. It needs memcpy and memset and nothing else, keeps no data and allocates nothing.
 *
 * Written by tools/mir2c: do not edit. 686 functions, from the MIR that the libraries of the proved crates carry.
 * Kit: rattle-kit-13f logic dac8208d650f15bf
 *
 * Proved, of the MIR: that each function meets its contract for every input, and so reads and writes nothing outside of what it is lent, overflows nothing and
 * returns (docs/THEOREMS.md). Not proved: this text. Like the kit's own back end for x86-64 it is a translation that is tested: the gate answers all
 * committed cases with it under the address and undefined-behaviour sanitizers, and compares the answers byte for byte with those of a second engine. */
#include "audala.h"

#include <limits.h>
#include <string.h>

typedef struct {
    uint8_t *p;
    uint64_t n;
} rt_slice;

#define RT_ASSERT(name, holds) typedef char rt_assert_##name[(holds) ? 1 : -1]
RT_ASSERT(byte, CHAR_BIT == 8);
RT_ASSERT(uint8, sizeof(uint8_t) == 1);
RT_ASSERT(uint16, sizeof(uint16_t) == 2);
RT_ASSERT(uint32, sizeof(uint32_t) == 4);
RT_ASSERT(uint64, sizeof(uint64_t) == 8);
RT_ASSERT(unsigned_stays, sizeof(int) <= sizeof(uint32_t)); /* numbers of 32 bits are not promoted to a signed type */
RT_ASSERT(length, sizeof(size_t) >= 4 && sizeof(size_t) <= 8); /* a length fits 64 bits, an offset fits a length */
RT_ASSERT(pointer, offsetof(rt_slice, p) == 0);
#if defined(__GNUC__)
#define RT_APART __attribute__((noinline))
#else
#define RT_APART
#endif
#if defined(__GNUC__) && defined(__OPTIMIZE__) && !defined(__OPTIMIZE_SIZE__)
#define RT_HERE inline __attribute__((always_inline))
#else
#define RT_HERE inline
#endif
#if defined(__GNUC__) && defined(__OPTIMIZE__)
#define RT_WITHIN inline __attribute__((always_inline))
#else
#define RT_WITHIN inline
#endif
#if defined(__GNUC__) && defined(__OPTIMIZE_SIZE__)
#define RT_SHORT inline __attribute__((always_inline))
#else
#define RT_SHORT inline
#endif
RT_ASSERT(audala_counts, sizeof(audala_counts) == 16);
RT_ASSERT(audala_counts_number, offsetof(audala_counts, number) == 0);
RT_ASSERT(audala_counts_true_orders, offsetof(audala_counts, true_orders) == 4);
RT_ASSERT(audala_counts_false_orders, offsetof(audala_counts, false_orders) == 8);
RT_ASSERT(audala_counts_stopped, offsetof(audala_counts, stopped) == 12);
RT_ASSERT(audala_part, sizeof(audala_part) == 12);
RT_ASSERT(audala_part_number, offsetof(audala_part, number) == 0);
RT_ASSERT(audala_part_start, offsetof(audala_part, start) == 4);
RT_ASSERT(audala_part_length, offsetof(audala_part, length) == 8);
RT_ASSERT(audala_report, sizeof(audala_report) == 20);
RT_ASSERT(audala_report_number, offsetof(audala_report, number) == 0);
RT_ASSERT(audala_report_turns, offsetof(audala_report, turns) == 4);
RT_ASSERT(audala_report_blocks, offsetof(audala_report, blocks) == 8);
RT_ASSERT(audala_report_depth, offsetof(audala_report, depth) == 12);
RT_ASSERT(audala_report_holding, offsetof(audala_report, holding) == 16);
RT_ASSERT(audala_verdict, sizeof(audala_verdict) == 20);
RT_ASSERT(audala_verdict_number, offsetof(audala_verdict, number) == 0);
RT_ASSERT(audala_verdict_structs, offsetof(audala_verdict, structs) == 4);
RT_ASSERT(audala_verdict_steps, offsetof(audala_verdict, steps) == 8);
RT_ASSERT(audala_verdict_commands, offsetof(audala_verdict, commands) == 12);
RT_ASSERT(audala_verdict_depth, offsetof(audala_verdict, depth) == 16);

struct rt_array_uint8_324 {
    uint8_t a[324];
};
RT_ASSERT(rt_array_uint8_324, sizeof(struct rt_array_uint8_324) == 324 && offsetof(struct rt_array_uint8_324, a) == 0);
struct rt_array_uint8_1833 {
    uint8_t a[1833];
};
RT_ASSERT(rt_array_uint8_1833, sizeof(struct rt_array_uint8_1833) == 1833 && offsetof(struct rt_array_uint8_1833, a) == 0);
struct rt_array_uint8_2 {
    uint8_t a[2];
};
RT_ASSERT(rt_array_uint8_2, sizeof(struct rt_array_uint8_2) == 2 && offsetof(struct rt_array_uint8_2, a) == 0);
struct rt_array_uint8_4 {
    uint8_t a[4];
};
RT_ASSERT(rt_array_uint8_4, sizeof(struct rt_array_uint8_4) == 4 && offsetof(struct rt_array_uint8_4, a) == 0);
struct rt_array_uint8_3 {
    uint8_t a[3];
};
RT_ASSERT(rt_array_uint8_3, sizeof(struct rt_array_uint8_3) == 3 && offsetof(struct rt_array_uint8_3, a) == 0);
struct rt_array_uint8_6 {
    uint8_t a[6];
};
RT_ASSERT(rt_array_uint8_6, sizeof(struct rt_array_uint8_6) == 6 && offsetof(struct rt_array_uint8_6, a) == 0);
struct rt_array_uint8_5 {
    uint8_t a[5];
};
RT_ASSERT(rt_array_uint8_5, sizeof(struct rt_array_uint8_5) == 5 && offsetof(struct rt_array_uint8_5, a) == 0);
struct rt_array_uint8_7 {
    uint8_t a[7];
};
RT_ASSERT(rt_array_uint8_7, sizeof(struct rt_array_uint8_7) == 7 && offsetof(struct rt_array_uint8_7, a) == 0);
struct rt_array_uint8_9 {
    uint8_t a[9];
};
RT_ASSERT(rt_array_uint8_9, sizeof(struct rt_array_uint8_9) == 9 && offsetof(struct rt_array_uint8_9, a) == 0);
struct rt_array_uint8_1 {
    uint8_t a[1];
};
RT_ASSERT(rt_array_uint8_1, sizeof(struct rt_array_uint8_1) == 1 && offsetof(struct rt_array_uint8_1, a) == 0);
struct core__option__Option__bool {
    uint8_t tag;
    uint8_t s0;
};
struct operators__OperatorError {
    uint8_t tag;
};
struct core__result__Result__u32_OperatorError {
    uint8_t tag;
    uint32_t s0;
    struct operators__OperatorError s1;
};
struct operators__Operator {
    uint8_t tag;
};
struct core__result__Result__u64_OperatorError {
    uint8_t tag;
    uint64_t s0;
    struct operators__OperatorError s1;
};
struct core__result__ErrResidual__OperatorError {
    struct operators__OperatorError f0;
};
struct core__ops__ControlFlow__ErrResidual_OperatorError_u64 {
    uint8_t tag;
    uint64_t s0;
    struct core__result__ErrResidual__OperatorError s1;
};
struct core__option__Option__u32 {
    uint8_t tag;
    uint32_t s0;
};
struct core__num__TryFromIntError {
    uint8_t none;
};
struct core__result__Result__u32_TryFromIntError {
    uint8_t tag;
    uint32_t s0;
    struct core__num__TryFromIntError s1;
};
struct audala__Answer {
    uint32_t f0;
    uint32_t f1;
    uint32_t f2;
    uint32_t f3;
    uint32_t f4;
};
struct checker__Verdict {
    uint8_t f0;
    uint8_t f1;
    uint8_t f2;
    uint16_t f3;
    uint8_t f4;
};
struct audala__Report {
    uint32_t f0;
    uint32_t f1;
    uint32_t f2;
    uint32_t f3;
    uint32_t f4;
};
struct run_images__Report {
    uint8_t f0;
    uint32_t f1;
    uint8_t f2;
    uint8_t f3;
    uint16_t f4;
};
struct step_part__Spot {
    uint8_t f0;
    uint64_t f1;
    uint64_t f2;
};
struct audala__Part {
    uint32_t f0;
    uint32_t f1;
    uint32_t f2;
};
struct audala__images__Copied {
    uint32_t f0;
    uint64_t f1;
};
struct types__refusal__Refusal {
    uint8_t tag;
};
struct block__Fault {
    uint8_t tag;
};
struct blocks__ReadError {
    uint8_t tag;
    struct block__Fault s0;
};
struct core__result__Result__u64_ReadError {
    uint8_t tag;
    uint64_t s0;
    struct blocks__ReadError s1;
};
struct blocks__WriteError {
    uint8_t tag;
};
struct core__result__Result__u64_WriteError {
    uint8_t tag;
    uint64_t s0;
    struct blocks__WriteError s1;
};
struct audala__places__Stopped {
    uint64_t f0;
};
struct audala__tallies__Counts {
    uint32_t f0;
    uint32_t f1;
    uint32_t f2;
    uint32_t f3;
};
struct count_images__Counts {
    uint8_t f0;
    uint32_t f1;
    uint32_t f2;
    uint32_t f3;
};
struct read_text__Answer {
    uint32_t f0;
    uint32_t f1;
};
struct audala__traces__Traced {
    uint32_t f0;
    uint32_t f1;
    uint64_t f2;
    uint64_t f3;
};
struct trace_images__Traced {
    uint8_t f0;
    uint32_t f1;
    uint64_t f2;
    uint64_t f3;
};
struct core__option__Option__Fault {
    uint8_t tag;
    struct block__Fault s0;
};
struct block__fn__zeros__all_Self {
    uint8_t none;
};
struct block__Both {
    uint16_t f0;
    uint16_t f1;
};
struct core__iter__slices__Iter__u8 {
    rt_slice f0;
};
struct core__result__Result__u64_Fault {
    uint8_t tag;
    uint64_t s0;
    struct block__Fault s1;
};
struct load__Loaded {
    uint64_t f0;
    uint64_t f1;
    uint64_t f2;
    uint8_t f3;
    uint8_t f4;
    uint16_t f5;
    uint8_t f6;
};
struct core__result__Result__Loaded_Refusal {
    uint8_t tag;
    struct load__Loaded s0;
    struct types__refusal__Refusal s1;
};
struct rt_array_uint8_32256 {
    uint8_t a[32256];
};
RT_ASSERT(rt_array_uint8_32256, sizeof(struct rt_array_uint8_32256) == 32256 && offsetof(struct rt_array_uint8_32256, a) == 0);
struct rt_array_uint8_16 {
    uint8_t a[16];
};
RT_ASSERT(rt_array_uint8_16, sizeof(struct rt_array_uint8_16) == 16 && offsetof(struct rt_array_uint8_16, a) == 0);
struct rt_array_uint8_128 {
    uint8_t a[128];
};
RT_ASSERT(rt_array_uint8_128, sizeof(struct rt_array_uint8_128) == 128 && offsetof(struct rt_array_uint8_128, a) == 0);
struct rt_array_uint16_512 {
    uint16_t a[512];
};
RT_ASSERT(rt_array_uint16_512, sizeof(struct rt_array_uint16_512) == 1024 && offsetof(struct rt_array_uint16_512, a) == 0);
struct commands__kind__Kind {
    uint8_t tag;
};
struct commands__kind__UnknownKind {
    uint64_t f0;
};
struct core__result__Result__Kind_UnknownKind {
    uint8_t tag;
    struct commands__kind__Kind s0;
    struct commands__kind__UnknownKind s1;
};
struct emit__Put {
    uint64_t f0;
    uint64_t f1;
};
struct directory__Row {
    uint16_t f0;
    uint16_t f1;
    uint16_t f2;
    uint16_t f3;
};
struct composing__Pen {
    uint64_t f0;
    uint64_t f1;
    uint64_t f2;
    uint64_t f3;
    uint8_t f4;
};
struct core__option__Option__u64 {
    uint8_t tag;
    uint64_t s0;
};
struct core__iter__ranges__Range__u64 {
    uint64_t f0;
    uint64_t f1;
};
struct resolve__declarations__fn__rows_ok__between_all_Self___17487529 {
    rt_slice f0;
    rt_slice f1;
};
struct lexer__fn__followed__map_Self {
    uint8_t none;
};
struct resolve__names__fn__lookup__position_Self__slice_u8_ref_u64 {
    rt_slice f0;
    uint8_t * f1;
};
struct core__alloc__AllocError {
    uint8_t none;
};
struct core__result__Result__u8_AllocError {
    uint8_t tag;
    uint8_t s0;
    struct core__alloc__AllocError s1;
};
struct core__cmp__Ordering {
    uint8_t tag;
};
struct core__option__Option__Ordering {
    uint8_t tag;
    struct core__cmp__Ordering s0;
};
struct core__cmp__slices__ElementMismatch__u8 {
    rt_slice f0;
    rt_slice f1;
};
struct rt_tuple2__bool_u64 {
    uint8_t f0;
    uint64_t f1;
};
struct core__slots__Slots__u8 {
    uint8_t * f0;
    uint64_t f1;
};
struct rt_tuple3__Slots_u8_unit_unit {
    struct core__slots__Slots__u8 f0;
};
struct core__option__Option__u8 {
    uint8_t tag;
    uint8_t s0;
};
struct core__option__Option__ref_u8 {
    uint8_t tag;
    uint8_t * s0;
};
struct core__iter__ranges__RangeInclusive__u8 {
    uint8_t f0;
    uint8_t f1;
    uint8_t f2;
};
struct core__iter__slices__Iter__u64 {
    rt_slice f0;
};
struct core__option__Option__ref_u64 {
    uint8_t tag;
    uint8_t * s0;
};
struct core__ops__bounds__Bound__ref_u64 {
    uint8_t tag;
    uint8_t * s0;
};
struct rt_tuple2__u8_u64 {
    uint8_t f0;
    uint64_t f1;
};
struct core__option__Option__rt_tuple2_u8_u64 {
    uint8_t tag;
    struct rt_tuple2__u8_u64 s0;
};
struct core__option__Option__Row {
    uint8_t tag;
    struct directory__Row s0;
};
struct core__result__Result__u64_Refusal {
    uint8_t tag;
    uint64_t s0;
    struct types__refusal__Refusal s1;
};
struct core__option__Option__ref_u16 {
    uint8_t tag;
    uint8_t * s0;
};
struct core__option__Option__u16 {
    uint8_t tag;
    uint16_t s0;
};
struct core__option__NoValue {
    uint8_t none;
};
struct core__ops__ControlFlow__NoValue_ref_u8 {
    uint8_t tag;
    uint8_t * s0;
    struct core__option__NoValue s1;
};
struct core__ops__ControlFlow__NoValue_rt_tuple2_u8_u64 {
    uint8_t tag;
    struct rt_tuple2__u8_u64 s0;
    struct core__option__NoValue s1;
};
struct core__ops__ControlFlow__NoValue_u32 {
    uint8_t tag;
    uint32_t s0;
    struct core__option__NoValue s1;
};
struct core__ops__ControlFlow__NoValue_u64 {
    uint8_t tag;
    uint64_t s0;
    struct core__option__NoValue s1;
};
struct core__ops__ControlFlow__NoValue_u8 {
    uint8_t tag;
    uint8_t s0;
    struct core__option__NoValue s1;
};
struct core__result__ErrResidual__Refusal {
    struct types__refusal__Refusal f0;
};
struct core__ops__ControlFlow__ErrResidual_Refusal_Loaded {
    uint8_t tag;
    struct load__Loaded s0;
    struct core__result__ErrResidual__Refusal s1;
};
struct layout__Numbers {
    uint64_t f0;
    uint64_t f1;
    uint64_t f2;
    uint64_t f3;
    uint8_t f4;
    uint64_t f5;
    uint64_t f6;
};
struct seating__Seat {
    uint64_t f0;
    struct layout__Numbers f1;
};
struct core__ops__ControlFlow__ErrResidual_Refusal_Seat {
    uint8_t tag;
    struct seating__Seat s0;
    struct core__result__ErrResidual__Refusal s1;
};
struct core__result__Result__Seat_Refusal {
    uint8_t tag;
    struct seating__Seat s0;
    struct types__refusal__Refusal s1;
};
struct core__ops__ControlFlow__ErrResidual_Refusal_count_images_Counts {
    uint8_t tag;
    struct count_images__Counts s0;
    struct core__result__ErrResidual__Refusal s1;
};
struct core__result__Result__count_images_Counts_Refusal {
    uint8_t tag;
    struct count_images__Counts s0;
    struct types__refusal__Refusal s1;
};
struct judge__Scope {
    uint64_t f0;
    uint64_t f1;
};
struct judge__Done {
    uint64_t f0;
    uint64_t f1;
    uint64_t f2;
    uint8_t f3;
    struct judge__Scope f4;
};
struct rt_tuple2__u64_Done {
    uint64_t f0;
    struct judge__Done f1;
};
struct core__ops__ControlFlow__ErrResidual_Refusal_rt_tuple2_u64_Done {
    uint8_t tag;
    struct rt_tuple2__u64_Done s0;
    struct core__result__ErrResidual__Refusal s1;
};
struct core__result__Result__rt_tuple2_u64_Done_Refusal {
    uint8_t tag;
    struct rt_tuple2__u64_Done s0;
    struct types__refusal__Refusal s1;
};
struct judge__Facts {
    uint64_t f0;
    uint64_t f1;
    uint8_t f2;
    uint8_t f3;
};
struct rt_tuple2__u64_Facts {
    uint64_t f0;
    struct judge__Facts f1;
};
struct core__ops__ControlFlow__ErrResidual_Refusal_rt_tuple2_u64_Facts {
    uint8_t tag;
    struct rt_tuple2__u64_Facts s0;
    struct core__result__ErrResidual__Refusal s1;
};
struct core__result__Result__rt_tuple2_u64_Facts_Refusal {
    uint8_t tag;
    struct rt_tuple2__u64_Facts s0;
    struct types__refusal__Refusal s1;
};
struct read_schedule__Planned {
    uint64_t f0;
    uint8_t f1;
};
struct rt_tuple2__u64_Planned {
    uint64_t f0;
    struct read_schedule__Planned f1;
};
struct core__ops__ControlFlow__ErrResidual_Refusal_rt_tuple2__d7d566f0 {
    uint8_t tag;
    struct rt_tuple2__u64_Planned s0;
    struct core__result__ErrResidual__Refusal s1;
};
struct core__result__Result__rt_tuple2_u64_Planned_Refusal {
    uint8_t tag;
    struct rt_tuple2__u64_Planned s0;
    struct types__refusal__Refusal s1;
};
struct read_program__Summary {
    uint8_t f0;
    uint64_t f1;
    uint8_t f2;
    uint64_t f3;
    uint64_t f4;
    uint64_t f5;
};
struct rt_tuple2__u64_Summary {
    uint64_t f0;
    struct read_program__Summary f1;
};
struct core__ops__ControlFlow__ErrResidual_Refusal_rt_tuple2__a4800219 {
    uint8_t tag;
    struct rt_tuple2__u64_Summary s0;
    struct core__result__ErrResidual__Refusal s1;
};
struct core__result__Result__rt_tuple2_u64_Summary_Refusal {
    uint8_t tag;
    struct rt_tuple2__u64_Summary s0;
    struct types__refusal__Refusal s1;
};
struct read_program__totals__Totals {
    uint64_t f0;
    uint64_t f1;
    uint64_t f2;
    uint8_t f3;
    uint8_t f4;
};
struct rt_tuple2__u64_Totals {
    uint64_t f0;
    struct read_program__totals__Totals f1;
};
struct core__ops__ControlFlow__ErrResidual_Refusal_rt_tuple2__da2d7d9c {
    uint8_t tag;
    struct rt_tuple2__u64_Totals s0;
    struct core__result__ErrResidual__Refusal s1;
};
struct core__result__Result__rt_tuple2_u64_Totals_Refusal {
    uint8_t tag;
    struct rt_tuple2__u64_Totals s0;
    struct types__refusal__Refusal s1;
};
struct rt_tuple2__u64_u8 {
    uint64_t f0;
    uint8_t f1;
};
struct core__ops__ControlFlow__ErrResidual_Refusal_rt_tuple2_u64_u8 {
    uint8_t tag;
    struct rt_tuple2__u64_u8 s0;
    struct core__result__ErrResidual__Refusal s1;
};
struct core__result__Result__rt_tuple2_u64_u8_Refusal {
    uint8_t tag;
    struct rt_tuple2__u64_u8 s0;
    struct types__refusal__Refusal s1;
};
struct core__ops__ControlFlow__ErrResidual_Refusal_rt_tuple2_u8_u64 {
    uint8_t tag;
    struct rt_tuple2__u8_u64 s0;
    struct core__result__ErrResidual__Refusal s1;
};
struct core__result__Result__rt_tuple2_u8_u64_Refusal {
    uint8_t tag;
    struct rt_tuple2__u8_u64 s0;
    struct types__refusal__Refusal s1;
};
struct uses__NoProgram {
    uint64_t f0;
};
struct core__result__ErrResidual__NoProgram {
    struct uses__NoProgram f0;
};
struct core__ops__ControlFlow__ErrResidual_NoProgram_u64 {
    uint8_t tag;
    uint64_t s0;
    struct core__result__ErrResidual__NoProgram s1;
};
struct core__result__Result__u64_NoProgram {
    uint8_t tag;
    uint64_t s0;
    struct uses__NoProgram s1;
};
struct core__ops__ControlFlow__ErrResidual_Refusal_u64 {
    uint8_t tag;
    uint64_t s0;
    struct core__result__ErrResidual__Refusal s1;
};
struct core__ops__ControlFlow__ErrResidual_Refusal_unit {
    uint8_t tag;
    struct core__result__ErrResidual__Refusal s0;
};
struct core__result__Result__unit_Refusal {
    uint8_t tag;
    struct types__refusal__Refusal s0;
};
struct core__iter__ranges__RangeTo__u64 {
    uint64_t f0;
};
struct lexer__bytes__fn__digits__take_while_Self {
    uint8_t none;
};
struct core__iter__closures__TakeWhile__Iter_u8_digits_take_while_Self {
    struct core__iter__slices__Iter__u8 f0;
    uint8_t f1;
    struct lexer__bytes__fn__digits__take_while_Self f2;
};
struct lexer__bytes__fn__names__take_while_Self {
    uint8_t none;
};
struct core__iter__closures__TakeWhile__Iter_u8_names_take_while_Self {
    struct core__iter__slices__Iter__u8 f0;
    uint8_t f1;
    struct lexer__bytes__fn__names__take_while_Self f2;
};
struct uses__Scope {
    uint64_t f0;
    uint64_t f1;
    uint64_t f2;
    uint64_t f3;
    uint64_t f4;
    uint64_t f5;
    uint64_t f6;
};
struct rt_tuple2__uses_Scope_Option_u8 {
    struct uses__Scope f0;
    struct core__option__Option__u8 f1;
};
struct core__option__Option__rt_tuple2_uses_Scope_Option_u8 {
    uint8_t tag;
    struct rt_tuple2__uses_Scope_Option_u8 s0;
};
struct core__result__Result__u32_Refusal {
    uint8_t tag;
    uint32_t s0;
    struct types__refusal__Refusal s1;
};
struct judge__Judged {
    uint8_t f0;
    uint8_t f1;
};
struct rt_tuple3__u64_u8_Judged {
    uint64_t f0;
    uint8_t f1;
    struct judge__Judged f2;
};
struct core__result__Result__rt_tuple3_u64_u8_Judged_Refusal {
    uint8_t tag;
    struct rt_tuple3__u64_u8_Judged s0;
    struct types__refusal__Refusal s1;
};
struct seating__Opened {
    struct load__Loaded f0;
    struct rt_array_uint8_16 f1;
    struct rt_array_uint8_128 f2;
};
struct core__result__Result__Opened_Refusal {
    uint8_t tag;
    struct seating__Opened s0;
    struct types__refusal__Refusal s1;
};
struct core__result__Result__run_images_Report_Refusal {
    uint8_t tag;
    struct run_images__Report s0;
    struct types__refusal__Refusal s1;
};
struct core__ops__ControlFlow__ErrResidual_Refusal_rt_tuple3__6dda1656 {
    uint8_t tag;
    struct rt_tuple3__u64_u8_Judged s0;
    struct core__result__ErrResidual__Refusal s1;
};
struct count_images__Question {
    uint64_t f0;
    uint64_t f1;
    uint64_t f2;
};
struct count_images__Asking {
    struct seating__Seat f0;
    struct count_images__Question f1;
    uint64_t f2;
    uint64_t f3;
};
struct table_read__parameters__Parameters {
    rt_slice f0;
    rt_slice f1;
};
struct counting__count__Asked {
    uint64_t f0;
    uint64_t f1;
};
struct engine__Machine {
    struct layout__Numbers f0;
};
struct counting__count__Tally {
    uint32_t f0;
    uint32_t f1;
    uint32_t f2;
};
struct rt_array_uint64_1024 {
    uint64_t a[1024];
};
RT_ASSERT(rt_array_uint64_1024, sizeof(struct rt_array_uint64_1024) == 8192 && offsetof(struct rt_array_uint64_1024, a) == 0);
struct rt_array_uint16_1024 {
    uint16_t a[1024];
};
RT_ASSERT(rt_array_uint16_1024, sizeof(struct rt_array_uint16_1024) == 2048 && offsetof(struct rt_array_uint16_1024, a) == 0);
struct rt_array_uint8_8568 {
    uint8_t a[8568];
};
RT_ASSERT(rt_array_uint8_8568, sizeof(struct rt_array_uint8_8568) == 8568 && offsetof(struct rt_array_uint8_8568, a) == 0);
struct rt_array_uint16_1536 {
    uint16_t a[1536];
};
RT_ASSERT(rt_array_uint16_1536, sizeof(struct rt_array_uint16_1536) == 3072 && offsetof(struct rt_array_uint16_1536, a) == 0);
struct rt_array_uint64_8192 {
    uint64_t a[8192];
};
RT_ASSERT(rt_array_uint64_8192, sizeof(struct rt_array_uint64_8192) == 65536 && offsetof(struct rt_array_uint64_8192, a) == 0);
struct rt_array_uint8_5730 {
    uint8_t a[5730];
};
RT_ASSERT(rt_array_uint8_5730, sizeof(struct rt_array_uint8_5730) == 5730 && offsetof(struct rt_array_uint8_5730, a) == 0);
struct rt_array_uint64_129 {
    uint64_t a[129];
};
RT_ASSERT(rt_array_uint64_129, sizeof(struct rt_array_uint64_129) == 1032 && offsetof(struct rt_array_uint64_129, a) == 0);
struct rt_array_uint16_6 {
    uint16_t a[6];
};
RT_ASSERT(rt_array_uint16_6, sizeof(struct rt_array_uint16_6) == 12 && offsetof(struct rt_array_uint16_6, a) == 0);
struct rt_array_uint64_32 {
    uint64_t a[32];
};
RT_ASSERT(rt_array_uint64_32, sizeof(struct rt_array_uint64_32) == 256 && offsetof(struct rt_array_uint64_32, a) == 0);
struct counting__rows__Saved {
    struct rt_array_uint16_6 f0;
    struct rt_array_uint16_6 f1;
    struct rt_array_uint64_32 f2;
    struct rt_array_uint64_32 f3;
    uint64_t f4;
    uint64_t f5;
};
struct derive__Mark {
    uint8_t f0;
    uint64_t f1;
};
struct text_shape__Act {
    uint8_t tag;
    uint8_t s0;
    uint8_t s1;
};
struct execute_stack__Effect {
    uint8_t tag;
    uint8_t s0;
};
struct core__result__Result__Effect_Refusal {
    uint8_t tag;
    struct execute_stack__Effect s0;
    struct types__refusal__Refusal s1;
};
struct execute_stack__Actor {
    uint64_t f0;
    uint64_t f1;
    uint64_t f2;
};
struct holders__Record {
    uint8_t f0;
};
RT_ASSERT(holders__Record, sizeof(struct holders__Record) == 1);
struct rt_array_holders__Record_256 {
    struct holders__Record a[256];
};
RT_ASSERT(rt_array_holders__Record_256, sizeof(struct rt_array_holders__Record_256) == 256 && offsetof(struct rt_array_holders__Record_256, a) == 0);
struct interpreter__turns__Going {
    struct engine__Machine f0;
    uint64_t f1;
    uint8_t f2;
    struct core__option__Option__u64 f3;
    struct holders__Record f4;
};
struct interpreter__turns__Program {
    rt_slice f0;
    rt_slice f1;
    rt_slice f2;
    rt_slice f3;
};
struct interpreter__turns__Ran {
    struct engine__Machine f0;
    uint8_t f1;
    uint64_t f2;
};
struct rt_array_uint64_1 {
    uint64_t a[1];
};
RT_ASSERT(rt_array_uint64_1, sizeof(struct rt_array_uint64_1) == 8 && offsetof(struct rt_array_uint64_1, a) == 0);
struct rt_array_uint64_4 {
    uint64_t a[4];
};
RT_ASSERT(rt_array_uint64_4, sizeof(struct rt_array_uint64_4) == 32 && offsetof(struct rt_array_uint64_4, a) == 0);
struct read_exprs__read__Names {
    rt_slice f0;
    rt_slice f1;
    uint8_t f2;
};
struct read_schedule__Steps {
    rt_slice f0;
    uint8_t f1;
    uint8_t f2;
};
struct rt_array_uint8_65536 {
    uint8_t a[65536];
};
RT_ASSERT(rt_array_uint8_65536, sizeof(struct rt_array_uint8_65536) == 65536 && offsetof(struct rt_array_uint8_65536, a) == 0);
struct rt_array_uint64_323 {
    uint64_t a[323];
};
RT_ASSERT(rt_array_uint64_323, sizeof(struct rt_array_uint64_323) == 2584 && offsetof(struct rt_array_uint64_323, a) == 0);
struct rt_array_uint8_32402 {
    uint8_t a[32402];
};
RT_ASSERT(rt_array_uint8_32402, sizeof(struct rt_array_uint8_32402) == 32402 && offsetof(struct rt_array_uint8_32402, a) == 0);
struct rt_array_uint8_65537 {
    uint8_t a[65537];
};
RT_ASSERT(rt_array_uint8_65537, sizeof(struct rt_array_uint8_65537) == 65537 && offsetof(struct rt_array_uint8_65537, a) == 0);
struct rt_tuple2__u64_u64 {
    uint64_t f0;
    uint64_t f1;
};
struct trace_images__telling__Start {
    struct seating__Opened f0;
    struct seating__Seat f1;
    uint64_t f2;
};
struct trace_lines__Coming {
    struct engine__Machine f0;
    uint64_t f1;
    uint64_t f2;
    uint8_t f3;
};
struct trace_images__pages__Page {
    uint64_t f0;
    uint64_t f1;
};
struct trace_images__telling__Telling {
    struct trace_lines__Coming f0;
    uint8_t f1;
    uint8_t f2;
    struct trace_images__pages__Page f3;
};
struct rt_array_uint64_2 {
    uint64_t a[2];
};
RT_ASSERT(rt_array_uint64_2, sizeof(struct rt_array_uint64_2) == 16 && offsetof(struct rt_array_uint64_2, a) == 0);
struct rt_array_uint8_1024 {
    uint8_t a[1024];
};
RT_ASSERT(rt_array_uint8_1024, sizeof(struct rt_array_uint8_1024) == 1024 && offsetof(struct rt_array_uint8_1024, a) == 0);
struct trace_lines__Told {
    struct engine__Machine f0;
    uint64_t f1;
    uint64_t f2;
};
struct trace_lines__writes__Write {
    uint64_t f0;
    uint64_t f1;
    uint64_t f2;
};
struct core__option__Option__Write {
    uint8_t tag;
    struct trace_lines__writes__Write s0;
};
struct trace_lines__Acting {
    uint64_t f0;
    uint8_t f1;
    uint64_t f2;
    uint64_t f3;
    uint64_t f4;
    uint64_t f5;
    uint64_t f6;
};
struct uses__book__Book {
    rt_slice f0;
    rt_slice f1;
};
struct uses__declared__Declarations {
    rt_slice f0;
    rt_slice f1;
    rt_slice f2;
};
struct rt_array_uint64_17 {
    uint64_t a[17];
};
RT_ASSERT(rt_array_uint64_17, sizeof(struct rt_array_uint64_17) == 136 && offsetof(struct rt_array_uint64_17, a) == 0);
struct rt_array_uint64_16 {
    uint64_t a[16];
};
RT_ASSERT(rt_array_uint64_16, sizeof(struct rt_array_uint64_16) == 128 && offsetof(struct rt_array_uint64_16, a) == 0);
struct rt_array_uint64_128 {
    uint64_t a[128];
};
RT_ASSERT(rt_array_uint64_128, sizeof(struct rt_array_uint64_128) == 1024 && offsetof(struct rt_array_uint64_128, a) == 0);
struct rt_array_uint64_400 {
    uint64_t a[400];
};
RT_ASSERT(rt_array_uint64_400, sizeof(struct rt_array_uint64_400) == 3200 && offsetof(struct rt_array_uint64_400, a) == 0);

#if defined(__GNUC__)
#define RT_NEVER __builtin_unreachable()
#else
#define RT_NEVER ((void)0)
#endif
static uint64_t rt_size(uint64_t a)
{
    return a >> 63 ? UINT64_C(0) - a : a;
}
static uint64_t rt_signed_div(uint64_t a, uint64_t b)
{
    uint64_t q = rt_size(a) / rt_size(b);
    return (a ^ b) >> 63 ? UINT64_C(0) - q : q;
}
static inline struct core__result__Result__u32_OperatorError arithmetic__apply_bool(struct operators__Operator l1, uint8_t l2, uint8_t l3);
static inline struct core__result__Result__u32_OperatorError arithmetic__apply_int(struct operators__Operator l1, uint32_t l2, uint32_t l3);
static RT_SHORT struct core__result__Result__u32_OperatorError arithmetic__apply_label(struct operators__Operator l1, uint32_t l2, uint32_t l3);
static inline struct core__result__Result__u32_OperatorError arithmetic__apply_nat(struct operators__Operator l1, uint32_t l2, uint32_t l3);
static RT_SHORT struct core__result__Result__u32_OperatorError arithmetic__apply_word(uint8_t l1, uint8_t l2, uint32_t l3, uint32_t l4);
static RT_SHORT struct core__result__Result__u32_OperatorError arithmetic__int_answer(uint64_t l1);
static RT_SHORT uint64_t arithmetic__int_of(uint32_t l1);
static RT_HERE struct core__result__Result__u64_OperatorError arithmetic__quotient_of(uint64_t l1, uint64_t l2);
static RT_HERE struct core__result__Result__u64_OperatorError arithmetic__remainder_of(uint64_t l1, uint64_t l2);
static RT_SHORT struct core__result__Result__u32_OperatorError arithmetic__truth(struct core__option__Option__bool l1);
static RT_WITHIN struct audala__Answer audala__AnswerFromVerdict__from(struct checker__Verdict l1);
static RT_WITHIN struct audala__Report audala__ReportFromRun_imagesReport__from(struct run_images__Report l1);
static RT_HERE struct audala__Answer audala__audala_check(rt_slice l1, rt_slice l2);
static RT_HERE struct audala__Report audala__audala_run(rt_slice l1, rt_slice l2, rt_slice l3, rt_slice l4, rt_slice l5);
static RT_HERE struct audala__Part audala__audala_step(rt_slice l1, rt_slice l2, uint8_t l3, uint8_t l4);
static RT_HERE struct audala__images__Copied audala__images__Copied__done(uint64_t l1);
static RT_WITHIN struct audala__images__Copied audala__images__CopiedFromRefusal__from(struct types__refusal__Refusal l1);
static RT_WITHIN struct audala__images__Copied audala__images__CopiedFromResultUsizeReadError__from(struct core__result__Result__u64_ReadError l1);
static RT_WITHIN struct audala__images__Copied audala__images__CopiedFromResultUsizeWriteError__from(struct core__result__Result__u64_WriteError l1);
static RT_HERE struct audala__images__Copied audala__images__audala_read_image(rt_slice l1, uint64_t l2, rt_slice l3);
static RT_HERE struct audala__images__Copied audala__images__audala_write_image(rt_slice l1, uint64_t l2, rt_slice l3);
static RT_HERE struct audala__images__Copied audala__listings__audala_listing(rt_slice l1, rt_slice l2);
static RT_SHORT struct audala__places__Stopped audala__places__audala_place(rt_slice l1);
static RT_WITHIN struct audala__tallies__Counts audala__tallies__CountsFromCount_imagesCounts__from(struct count_images__Counts l1);
static RT_HERE struct audala__tallies__Counts audala__tallies__audala_count(rt_slice l1, rt_slice l2, uint32_t l3, uint32_t l4, uint32_t l5, rt_slice l6);
static RT_WITHIN struct audala__images__Copied audala__texts__CopiedFromRead_textAnswer__from(struct read_text__Answer l1);
static RT_HERE struct audala__images__Copied audala__texts__audala_text(rt_slice l1, rt_slice l2);
static RT_WITHIN struct audala__traces__Traced audala__traces__TracedFromTrace_imagesTraced__from(struct trace_images__Traced l1);
static RT_HERE struct audala__traces__Traced audala__traces__audala_trace(rt_slice l1, rt_slice l2, rt_slice l3, uint64_t l4, rt_slice l5);
static inline struct core__option__Option__Fault block__block_fault(rt_slice l1, uint64_t l2, uint8_t l3);
static RT_SHORT uint8_t block__filled(rt_slice l1, uint8_t l2);
static RT_WITHIN uint8_t block__fn__zeros__all(uint8_t *l1, uint8_t *l2);
static RT_WITHIN uint8_t block__fn__zeros__all_FnMut__call_mut(uint8_t *l1, uint8_t *l2);
static RT_SHORT uint8_t block__laid_out(rt_slice l1, uint64_t l2, uint8_t l3);
static RT_HERE rt_slice block__payload(rt_slice l1, uint64_t l2);
static inline void block__put__copy(rt_slice l1, uint64_t l2, rt_slice l3);
static RT_SHORT void block__put__zeros(rt_slice l1, uint64_t l2, uint64_t l3);
static inline struct block__Both block__sums(rt_slice l1);
static RT_SHORT uint8_t block__sums_right(rt_slice l1);
static RT_SHORT uint8_t block__used_right(uint8_t l1, uint64_t l2);
static inline void block__writing__put_block(rt_slice l1, uint64_t l2, uint64_t l3, rt_slice l4);
static inline void block__writing__put_front(rt_slice l1, uint64_t l2, uint64_t l3, rt_slice l4);
static RT_SHORT uint8_t block__zeros(rt_slice l1);
static RT_SHORT struct core__option__Option__Fault blocks__image_fault(rt_slice l1, uint64_t l2);
static RT_HERE struct core__result__Result__u64_Fault blocks__open_image(rt_slice l1, uint64_t l2, rt_slice l3);
static RT_SHORT struct types__refusal__Refusal blocks__program_number(struct block__Fault l1);
static RT_HERE struct core__result__Result__u64_ReadError blocks__read_image(rt_slice l1, uint64_t l2, rt_slice l3);
static inline struct core__option__Option__Fault blocks__reading__first_fault(rt_slice l1, uint64_t l2);
static inline void blocks__reading__join(rt_slice l1, uint64_t l2, rt_slice l3);
static RT_SHORT uint8_t blocks__reading__length_right(uint64_t l1, uint64_t l2);
static RT_SHORT uint64_t blocks__reading__most(uint64_t l1);
static RT_SHORT uint64_t blocks__reading__stream_length(rt_slice l1, uint64_t l2);
static RT_SHORT struct types__refusal__Refusal blocks__table_number(struct block__Fault l1);
static RT_HERE struct core__result__Result__u64_WriteError blocks__write_image(rt_slice l1, uint64_t l2, rt_slice l3);
static RT_HERE rt_slice blocks__writing__piece(rt_slice l1, uint64_t l2);
static inline void blocks__writing__put_blocks(rt_slice l1, uint64_t l2, rt_slice l3);
static RT_SHORT uint8_t blocks__writing__stream_right(uint64_t l1, uint64_t l2);
static RT_SHORT struct checker__Verdict checker__accepted(struct load__Loaded l1);
static RT_APART struct checker__Verdict checker__check(rt_slice l1, rt_slice l2);
static RT_SHORT struct checker__Verdict checker__refused(uint8_t l1);
static RT_WITHIN struct core__result__Result__Kind_UnknownKind commands__kind__KindTryFromU64__try_from(uint64_t l1);
static RT_WITHIN uint64_t commands__kind__U64FromKind__from(struct commands__kind__Kind l1);
static RT_SHORT struct emit__Put compile__items__add(rt_slice l1, struct emit__Put l2, uint64_t l3);
static inline struct emit__Put compile__items__item(rt_slice l1, uint64_t l2, uint64_t l3, rt_slice l4, uint64_t l5);
static inline struct emit__Put compile__items__items(rt_slice l1, uint64_t l2, uint64_t l3, rt_slice l4, uint64_t l5);
static RT_HERE struct emit__Put compile__items__schedule(rt_slice l1, uint64_t l2, rt_slice l3);
static RT_SHORT void compile__program(rt_slice l1, uint64_t l2, uint64_t l3, rt_slice l4, uint64_t l5, rt_slice l6, rt_slice l7);
static inline void compile__spans__clear(rt_slice l1, uint64_t l2);
static RT_SHORT void compile__spans__note(rt_slice l1, uint64_t l2, rt_slice l3);
static RT_SHORT void compile__spans__note_row(rt_slice l1, struct directory__Row l2);
static RT_SHORT void compile__spans__of_rows(rt_slice l1, uint64_t l2, uint64_t l3, rt_slice l4);
static RT_SHORT void compile__spans__pair(rt_slice l1, uint64_t l2, uint16_t l3, uint16_t l4);
static RT_HERE struct composing__Pen composing__bytes__behind(rt_slice l1, rt_slice l2, struct composing__Pen l3, uint8_t l4, uint32_t l5);
static RT_HERE struct composing__Pen composing__bytes__formed(rt_slice l1, struct composing__Pen l2, uint8_t l3);
static RT_HERE struct composing__Pen composing__bytes__lengthened(struct composing__Pen l1);
static RT_SHORT uint8_t composing__bytes__low(uint32_t l1);
static RT_HERE struct composing__Pen composing__bytes__numbered(rt_slice l1, rt_slice l2, struct composing__Pen l3);
static RT_HERE struct composing__Pen composing__bytes__pathed(rt_slice l1, struct composing__Pen l2);
static RT_HERE struct composing__Pen composing__bytes__spoilt(struct composing__Pen l1);
static RT_HERE struct composing__Pen composing__bytes__worded(rt_slice l1, struct composing__Pen l2, uint32_t l3);
static RT_HERE struct composing__Pen composing__bytes__wrote(rt_slice l1, struct composing__Pen l2, uint8_t l3);
static inline uint64_t composing__header__row(rt_slice l1, rt_slice l2, uint64_t l3, uint64_t l4, uint64_t l5);
static inline uint64_t composing__header__write_header(rt_slice l1, rt_slice l2, rt_slice l3, uint64_t l4);
static RT_SHORT uint32_t composing__literal(rt_slice l1, uint64_t l2, uint8_t l3);
static RT_HERE struct composing__Pen composing__pouring__begun(rt_slice l1, rt_slice l2, struct composing__Pen l3);
static RT_HERE struct composing__Pen composing__pouring__first(rt_slice l1, rt_slice l2, struct composing__Pen l3, uint8_t l4, uint8_t l5);
static RT_HERE struct composing__Pen composing__pouring__poured(rt_slice l1, rt_slice l2, struct composing__Pen l3, uint8_t l4);
static inline uint8_t composing__pouring__tightness(uint8_t l1);
static RT_HERE struct composing__Pen composing__roles__put(rt_slice l1, rt_slice l2, rt_slice l3, struct composing__Pen l4, uint8_t l5, uint32_t l6);
static RT_SHORT uint8_t composing__roomy(struct composing__Pen l1);
static RT_HERE struct core__option__Option__u64 composing__stream(rt_slice l1, rt_slice l2, rt_slice l3, rt_slice l4, rt_slice l5, rt_slice l6, rt_slice l7);
static RT_SHORT uint8_t composing__table__mark(uint64_t l1, uint64_t l2);
static RT_HERE rt_slice composing__table__marks(void);
static RT_HERE struct composing__Pen composing__waiting__counted(rt_slice l1, rt_slice l2, struct composing__Pen l3);
static RT_HERE struct composing__Pen composing__waiting__more(rt_slice l1, struct composing__Pen l2, uint8_t l3);
static RT_HERE struct composing__Pen composing__waiting__opened(rt_slice l1, struct composing__Pen l2, uint8_t l3);
static RT_HERE struct composing__Pen composing__waiting__popped(struct composing__Pen l1);
static RT_HERE struct composing__Pen composing__waiting__stacked(rt_slice l1, rt_slice l2, struct composing__Pen l3, uint8_t l4, uint8_t l5);
static RT_HERE struct composing__Pen composing__written(rt_slice l1, rt_slice l2, rt_slice l3, rt_slice l4, rt_slice l5);
static RT_WITHIN void core__Destruct__none__drop__OperatorError(struct operators__OperatorError l1);
static RT_WITHIN void core__Destruct__none__drop__Range_u64(struct core__iter__ranges__Range__u64 l1);
static RT_WITHIN void core__Destruct__none__drop__Refusal(struct types__refusal__Refusal l1);
static RT_WITHIN void core__Destruct__none__drop__TryFromIntError(struct core__num__TryFromIntError l1);
static RT_WITHIN void core__Destruct__none__drop__all_Self(struct block__fn__zeros__all_Self l1);
static RT_WITHIN void core__Destruct__none__drop__between_all_Self_slice_u8_slice_u64(struct resolve__declarations__fn__rows_ok__between_all_Self___17487529 l1);
static RT_WITHIN void core__Destruct__none__drop__map_Self(struct lexer__fn__followed__map_Self l1);
static RT_WITHIN void core__Destruct__none__drop__position_Self_slice_u8_ref_u64(struct resolve__names__fn__lookup__position_Self__slice_u8_ref_u64 l1);
static RT_WITHIN void core__Destruct__none__drop__ref_u8(uint8_t *l1);
static RT_WITHIN void core__Destruct__none__drop__u16(uint16_t l1);
static RT_WITHIN void core__Destruct__none__drop__u32(uint32_t l1);
static RT_WITHIN void core__Destruct__none__drop__u64(uint64_t l1);
static RT_WITHIN void core__Destruct__none__drop__u8(uint8_t l1);
static RT_WITHIN void core__Destruct__none__drop__unit(void);
static RT_SHORT void core__assertions__unreachable(void);
static RT_SHORT uint8_t core__char__bytes__is_ascii_alphabetic(uint8_t *l1);
static RT_SHORT uint8_t core__char__bytes__is_ascii_alphanumeric(uint8_t *l1);
static RT_SHORT uint8_t core__char__bytes__is_ascii_digit(uint8_t *l1);
static RT_SHORT uint8_t core__char__ranges__in_range(uint32_t l1, uint8_t l2, uint8_t l3);
static inline uint8_t core__char__ranges__in_three_ranges(uint32_t l1, uint8_t l2, uint8_t l3, uint8_t l4, uint8_t l5, uint8_t l6, uint8_t l7);
static RT_SHORT uint8_t core__char__ranges__in_two_ranges(uint32_t l1, uint8_t l2, uint8_t l3, uint8_t l4, uint8_t l5);
static RT_WITHIN struct core__result__Result__u8_AllocError core__clone__U8Clone__clone(uint8_t *l1);
static RT_WITHIN uint8_t core__clone__surely__u8(uint8_t *l1);
static RT_SHORT uint8_t core__cmp__Ordering__is_le(struct core__cmp__Ordering l1);
static RT_SHORT uint8_t core__cmp__Ordering__is_lt(struct core__cmp__Ordering l1);
static RT_WITHIN uint8_t core__cmp__PartialOrd__le__u8(uint8_t *l1, uint8_t *l2);
static RT_WITHIN uint8_t core__cmp__PartialOrd__lt__u8(uint8_t *l1, uint8_t *l2);
static RT_WITHIN struct core__cmp__Ordering core__cmp__numbers__U8Ord__cmp(uint8_t *l1, uint8_t *l2);
static RT_WITHIN uint8_t core__cmp__numbers__U8PartialEq__eq(uint8_t *l1, uint8_t *l2);
static RT_WITHIN struct core__option__Option__Ordering core__cmp__numbers__U8PartialOrd__partial_cmp(uint8_t *l1, uint8_t *l2);
static RT_WITHIN uint8_t core__cmp__slices__ElementMismatchPlaceTest__at__u8(uint8_t *l1, uint64_t l2);
static RT_WITHIN uint8_t core__cmp__slices__RefSlicePartialEq__eq__u8(uint8_t *l1, uint8_t *l2);
static RT_WITHIN uint8_t core__cmp__slices__all_equal__u8(rt_slice l1, rt_slice l2);
static RT_WITHIN uint8_t core__cmp__slices__groups_equal__u8(rt_slice l1, rt_slice l2);
static RT_WITHIN uint8_t core__cmp__slices__parts_equal__u8(rt_slice l1, rt_slice l2);
static RT_WITHIN uint8_t core__cmp__slices__slices_equal__u8(rt_slice l1, rt_slice l2);
static RT_WITHIN struct operators__OperatorError core__convert__AnyFrom__from__OperatorError(struct operators__OperatorError l1);
static RT_WITHIN struct types__refusal__Refusal core__convert__AnyFrom__from__Refusal(struct types__refusal__Refusal l1);
static RT_WITHIN uint64_t core__convert__I64FromI32__from(uint32_t l1);
static RT_WITHIN uint16_t core__convert__U16FromU8__from(uint8_t l1);
static RT_WITHIN uint32_t core__convert__U32FromU16__from(uint16_t l1);
static RT_WITHIN uint32_t core__convert__U32FromU8__from(uint8_t l1);
static RT_WITHIN uint64_t core__convert__U64FromU32__from(uint32_t l1);
static RT_WITHIN uint64_t core__convert__U64FromU8__from(uint8_t l1);
static RT_WITHIN uint64_t core__convert__UsizeFromU16__from(uint16_t l1);
static RT_WITHIN uint64_t core__convert__UsizeFromU8__from(uint8_t l1);
static RT_WITHIN uint32_t core__convert__others__U32FromBool__from(uint8_t l1);
static RT_WITHIN uint64_t core__convert__others__UsizeFromBool__from(uint8_t l1);
static RT_WITHIN struct core__result__Result__u32_TryFromIntError core__convert__try_from__AnyTryFrom__try_from__u64_u32(uint64_t l1);
static RT_WITHIN struct core__option__Option__u32 core__convert__try_from__I32Integer__join(uint8_t l1, uint64_t l2);
static RT_WITHIN struct rt_tuple2__bool_u64 core__convert__try_from__I64Integer__split(uint64_t l1);
static RT_WITHIN struct core__option__Option__u32 core__convert__try_from__U32Integer__join(uint8_t l1, uint64_t l2);
static RT_WITHIN struct rt_tuple2__bool_u64 core__convert__try_from__U64Integer__split(uint64_t l1);
static RT_WITHIN struct rt_tuple3__Slots_u8_unit_unit core__core__slice__edits__copy_over_FnOnce__call_once__u8(struct core__slots__Slots__u8 l2, rt_slice l4);
static RT_WITHIN uint16_t core__default__U16Default__default(void);
static RT_WITHIN uint64_t core__default__U64Default__default(void);
static RT_SHORT struct core__option__Option__u32 core__int__checked__u32__checked_add(uint32_t l1, uint32_t l2);
static RT_SHORT struct core__option__Option__u32 core__int__checked__u32__checked_div(uint32_t l1, uint32_t l2);
static RT_SHORT struct core__option__Option__u32 core__int__checked__u32__checked_mul(uint32_t l1, uint32_t l2);
static RT_SHORT struct core__option__Option__u32 core__int__checked__u32__checked_rem(uint32_t l1, uint32_t l2);
static RT_SHORT struct core__option__Option__u32 core__int__checked__u32__checked_sub(uint32_t l1, uint32_t l2);
static RT_SHORT struct core__option__Option__u8 core__int__checked__u8__checked_sub(uint8_t l1, uint8_t l2);
static RT_HERE struct core__option__Option__u64 core__int__checked__usize__checked_sub(uint64_t l1, uint64_t l2);
static RT_SHORT uint32_t core__int__i32__cast_unsigned(uint32_t l1);
static RT_SHORT uint64_t core__int__i64__div_euclid(uint64_t l1, uint64_t l2);
static RT_SHORT uint16_t core__int__u16__from_le_bytes(struct rt_array_uint8_2 l1);
static RT_SHORT uint16_t core__int__u16__saturating_sub(uint16_t l1, uint16_t l2);
static RT_SHORT struct rt_array_uint8_2 core__int__u16__to_le_bytes(uint16_t l1);
static RT_SHORT uint32_t core__int__u32__cast_signed(uint32_t l1);
static inline uint32_t core__int__u32__from_le_bytes(struct rt_array_uint8_4 l1);
static inline struct rt_array_uint8_4 core__int__u32__to_le_bytes(uint32_t l1);
static RT_SHORT uint64_t core__int__u64__min(uint64_t l1, uint64_t l2);
static RT_SHORT uint8_t core__int__u8__min(uint8_t l1, uint8_t l2);
static RT_SHORT uint8_t core__int__u8__saturating_sub(uint8_t l1, uint8_t l2);
static RT_SHORT uint64_t core__int__usize__div_ceil(uint64_t l1, uint64_t l2);
static RT_SHORT uint64_t core__int__usize__max(uint64_t l1, uint64_t l2);
static RT_SHORT uint64_t core__int__usize__min(uint64_t l1, uint64_t l2);
static RT_SHORT uint64_t core__int__usize__saturating_sub(uint64_t l1, uint64_t l2);
static RT_WITHIN uint8_t core__iter__base__Iterator__all__Iter_u8_ref_u8_all_Self(uint8_t *l1, struct block__fn__zeros__all_Self l2);
static RT_WITHIN uint8_t core__iter__ranges__RangeInclusive__contains__u8(uint8_t *l1, uint8_t *l2);
static RT_WITHIN struct core__iter__ranges__RangeInclusive__u8 core__iter__ranges__RangeInclusive__new__u8(uint8_t l1, uint8_t l2);
static RT_WITHIN struct core__option__Option__ref_u64 core__iter__slices__IterIterator__next__u64(uint8_t *l1);
static RT_WITHIN struct core__option__Option__ref_u8 core__iter__slices__IterIterator__next__u8(uint8_t *l1);
static RT_WITHIN struct core__iter__slices__Iter__u64 core__iter__slices__slice_T__iter__u64(rt_slice l1);
static RT_WITHIN struct core__iter__slices__Iter__u8 core__iter__slices__slice_T__iter__u8(rt_slice l1);
static RT_WITHIN uint64_t core__mem__size_of_param__u8(void);
static RT_WITHIN struct core__ops__bounds__Bound__ref_u64 core__ops__bounds__RangeRangeBounds__end_bound__u64(uint8_t *l1);
static RT_WITHIN struct core__ops__bounds__Bound__ref_u64 core__ops__bounds__RangeRangeBounds__start_bound__u64(uint8_t *l1);
static RT_WITHIN uint8_t core__option__Option__is_none__rt_tuple2_u8_u64(uint8_t *l1);
static RT_WITHIN uint8_t core__option__Option__is_none__u64(uint8_t *l1);
static RT_WITHIN uint8_t core__option__Option__is_some__Row(uint8_t *l1);
static RT_WITHIN uint8_t core__option__Option__is_some__u64(uint8_t *l1);
static RT_WITHIN struct core__option__Option__rt_tuple2_u8_u64 core__option__Option__map__u8_rt_tuple2_u8_u64_map_Self(struct core__option__Option__u8 l1, struct lexer__fn__followed__map_Self l2);
static RT_WITHIN struct core__result__Result__u32_OperatorError core__option__Option__ok_or__u32_OperatorError(struct core__option__Option__u32 l1, struct operators__OperatorError l2);
static RT_WITHIN struct core__result__Result__u64_Refusal core__option__Option__ok_or__u64_Refusal(struct core__option__Option__u64 l1, struct types__refusal__Refusal l2);
static RT_WITHIN uint8_t *core__option__Option__unwrap__ref_u16(struct core__option__Option__ref_u16 l1);
static RT_WITHIN uint8_t *core__option__Option__unwrap__ref_u8(struct core__option__Option__ref_u8 l1);
static RT_WITHIN uint16_t core__option__Option__unwrap_or__u16(struct core__option__Option__u16 l1, uint16_t l2);
static RT_WITHIN uint32_t core__option__Option__unwrap_or__u32(struct core__option__Option__u32 l1, uint32_t l2);
static RT_WITHIN uint64_t core__option__Option__unwrap_or__u64(struct core__option__Option__u64 l1, uint64_t l2);
static RT_WITHIN uint8_t core__option__Option__unwrap_or__u8(struct core__option__Option__u8 l1, uint8_t l2);
static RT_WITHIN struct core__option__Option__ref_u8 core__option__OptionFromResidualNoValue__from_residual__ref_u8(struct core__option__NoValue l1);
static RT_WITHIN struct core__option__Option__u64 core__option__OptionFromResidualNoValue__from_residual__u64(struct core__option__NoValue l1);
static RT_WITHIN struct core__ops__ControlFlow__NoValue_ref_u8 core__option__OptionTry__branch__ref_u8(struct core__option__Option__ref_u8 l1);
static RT_WITHIN struct core__ops__ControlFlow__NoValue_rt_tuple2_u8_u64 core__option__OptionTry__branch__rt_tuple2_u8_u64(struct core__option__Option__rt_tuple2_u8_u64 l1);
static RT_WITHIN struct core__ops__ControlFlow__NoValue_u32 core__option__OptionTry__branch__u32(struct core__option__Option__u32 l1);
static RT_WITHIN struct core__ops__ControlFlow__NoValue_u64 core__option__OptionTry__branch__u64(struct core__option__Option__u64 l1);
static RT_WITHIN struct core__ops__ControlFlow__NoValue_u8 core__option__OptionTry__branch__u8(struct core__option__Option__u8 l1);
static RT_WITHIN struct core__option__Option__u16 core__option__more__Option_ref_T__copied__u16(struct core__option__Option__ref_u16 l1);
static RT_WITHIN struct core__option__Option__u8 core__option__more__Option_ref_T__copied__u8(struct core__option__Option__ref_u8 l1);
static RT_WITHIN void core__ptr__copy_drop__copy_bits__u8(uint8_t *l1, uint8_t *l2, uint64_t l3);
static RT_WITHIN struct core__option__Option__u32 core__result__Result__ok__u32_TryFromIntError(struct core__result__Result__u32_TryFromIntError l1);
static RT_WITHIN struct core__ops__ControlFlow__ErrResidual_Refusal_Loaded core__result__ResultTry__branch__Loaded_Refusal(struct core__result__Result__Loaded_Refusal l1);
static RT_WITHIN struct core__ops__ControlFlow__ErrResidual_Refusal_Seat core__result__ResultTry__branch__Seat_Refusal(struct core__result__Result__Seat_Refusal l1);
static RT_WITHIN struct core__ops__ControlFlow__ErrResidual_Refusal_count_images_Counts core__result__ResultTry__branch__count_images_Counts_Refusal(struct core__result__Result__count_images_Counts_Refusal l1);
static RT_WITHIN struct core__ops__ControlFlow__ErrResidual_Refusal_rt_tuple2_u64_Done core__result__ResultTry__branch__rt_tuple2_u64_Done_Refusal(struct core__result__Result__rt_tuple2_u64_Done_Refusal l1);
static RT_WITHIN struct core__ops__ControlFlow__ErrResidual_Refusal_rt_tuple2_u64_Facts core__result__ResultTry__branch__rt_tuple2_u64_Facts_Refusal(struct core__result__Result__rt_tuple2_u64_Facts_Refusal l1);
static RT_WITHIN struct core__ops__ControlFlow__ErrResidual_Refusal_rt_tuple2__d7d566f0 core__result__ResultTry__branch__rt_tuple2_u64_Planned_Refusal(struct core__result__Result__rt_tuple2_u64_Planned_Refusal l1);
static RT_WITHIN struct core__ops__ControlFlow__ErrResidual_Refusal_rt_tuple2__a4800219 core__result__ResultTry__branch__rt_tuple2_u64_Summary_Refusal(struct core__result__Result__rt_tuple2_u64_Summary_Refusal l1);
static RT_WITHIN struct core__ops__ControlFlow__ErrResidual_Refusal_rt_tuple2__da2d7d9c core__result__ResultTry__branch__rt_tuple2_u64_Totals_Refusal(struct core__result__Result__rt_tuple2_u64_Totals_Refusal l1);
static RT_WITHIN struct core__ops__ControlFlow__ErrResidual_Refusal_rt_tuple2_u64_u8 core__result__ResultTry__branch__rt_tuple2_u64_u8_Refusal(struct core__result__Result__rt_tuple2_u64_u8_Refusal l1);
static RT_WITHIN struct core__ops__ControlFlow__ErrResidual_Refusal_rt_tuple2_u8_u64 core__result__ResultTry__branch__rt_tuple2_u8_u64_Refusal(struct core__result__Result__rt_tuple2_u8_u64_Refusal l1);
static RT_WITHIN struct core__ops__ControlFlow__ErrResidual_NoProgram_u64 core__result__ResultTry__branch__u64_NoProgram(struct core__result__Result__u64_NoProgram l1);
static RT_WITHIN struct core__ops__ControlFlow__ErrResidual_OperatorError_u64 core__result__ResultTry__branch__u64_OperatorError(struct core__result__Result__u64_OperatorError l1);
static RT_WITHIN struct core__ops__ControlFlow__ErrResidual_Refusal_u64 core__result__ResultTry__branch__u64_Refusal(struct core__result__Result__u64_Refusal l1);
static RT_WITHIN struct core__ops__ControlFlow__ErrResidual_Refusal_unit core__result__ResultTry__branch__unit_Refusal(struct core__result__Result__unit_Refusal l1);
static RT_WITHIN struct rt_tuple3__Slots_u8_unit_unit core__slice__edits__copy_over__u8(struct core__slots__Slots__u8 l1, rt_slice l3);
static RT_WITHIN void core__slice__edits__slice_T__copy_from_slice__u8(rt_slice l1, rt_slice l2);
static RT_WITHIN void core__slice__edits__slice_T__fill__u8(rt_slice l1, uint8_t l2);
static RT_WITHIN struct core__option__Option__ref_u16 core__slice__index__UsizeSliceIndexRefSlice__pick__u16(uint64_t l1, rt_slice l2);
static RT_WITHIN struct core__option__Option__ref_u8 core__slice__index__UsizeSliceIndexRefSlice__pick__u8(uint64_t l1, rt_slice l2);
static RT_WITHIN struct core__iter__ranges__Range__u64 core__slice__ranges__range__Range_u64(struct core__iter__ranges__Range__u64 l1, struct core__iter__ranges__RangeTo__u64 l2);
static RT_WITHIN uint8_t core__slice__scan__any_by_groups__ElementMismatch_u8(uint8_t *l1, uint64_t l2, uint64_t l3);
static RT_WITHIN uint8_t core__slice__scan__any_by_one__ElementMismatch_u8(uint8_t *l1, uint64_t l2);
static RT_WITHIN uint8_t core__slice__scan__any_in_ends__ElementMismatch_u8(uint8_t *l1, uint64_t l2, uint64_t l3);
static RT_WITHIN uint8_t core__slice__scan__any_in_quarters__ElementMismatch_u8(uint8_t *l1, uint64_t l2, uint64_t l3);
static RT_WITHIN uint8_t core__slice__scan__any_in_run__ElementMismatch_u8(uint8_t *l1, uint64_t l2, uint64_t l3);
static RT_WITHIN uint8_t core__slice__scan__any_in_three__ElementMismatch_u8(uint8_t *l1, uint64_t l2);
static RT_WITHIN uint8_t core__slice__scan__any_in_turn__ElementMismatch_u8(uint8_t *l1, uint64_t l2);
static RT_WITHIN uint64_t core__slice__scan__first_by_one__ElementMismatch_u8(uint8_t *l1, uint64_t l2, uint64_t l3);
static RT_WITHIN uint64_t core__slice__scan__group__u8(void);
static RT_WITHIN uint64_t core__slice__scan__skip_groups__ElementMismatch_u8(uint8_t *l1, uint64_t l2, uint64_t l3, uint64_t l4);
static RT_WITHIN struct core__option__Option__ref_u16 core__slice__slice_T__get__u16_u64_ref_u16(rt_slice l1, uint64_t l2);
static RT_WITHIN struct core__option__Option__ref_u8 core__slice__slice_T__get__u8_u64_ref_u8(rt_slice l1, uint64_t l2);
static RT_WITHIN uint8_t core__slice__slice_T__is_empty__u64(rt_slice l1);
static RT_WITHIN uint8_t core__slice__slice_T__is_empty__u8(rt_slice l1);
static RT_WITHIN void core__slots__Slots__copy_in__u8(uint8_t *l1, uint64_t l2, rt_slice l3);
static RT_WITHIN void core__slots__lends__with_slots__u8_unit_slice_u8_unit_unit(rt_slice l1, uint8_t *l2, rt_slice l3);
static RT_WITHIN void core__Destruct__none__drop__TakeWhile_Iter_u8_digits_t_2927e43b(struct core__iter__closures__TakeWhile__Iter_u8_digits_take_while_Self l1);
static RT_WITHIN void core__Destruct__none__drop__TakeWhile_Iter_u8_names_ta_e5f448fb(struct core__iter__closures__TakeWhile__Iter_u8_names_take_while_Self l1);
static RT_WITHIN struct core__result__Result__u32_TryFromIntError core__convert__try_from__AnyTryFrom__try_from__u64_u32_ecc00421(uint64_t l1);
static RT_WITHIN uint64_t core__iter__base__Iterator__count__TakeWhile_Iter_u8_d_9e11d280(struct core__iter__closures__TakeWhile__Iter_u8_digits_take_while_Self l1);
static RT_WITHIN uint64_t core__iter__base__Iterator__count__TakeWhile_Iter_u8_n_4eee487b(struct core__iter__closures__TakeWhile__Iter_u8_names_take_while_Self l1);
static RT_WITHIN struct core__option__Option__u64 core__iter__base__Iterator__position__Iter_u64_ref_u64_86bdc99e(uint8_t *l1, struct resolve__names__fn__lookup__position_Self__slice_u8_ref_u64 l2);
static RT_WITHIN struct core__iter__closures__TakeWhile__Iter_u8_names_take_while_Self core__iter__base__Iterator__take_while__Iter_u8_ref_u8_a9fc4690(struct core__iter__slices__Iter__u8 l1, struct lexer__bytes__fn__names__take_while_Self l2);
static RT_WITHIN struct core__iter__closures__TakeWhile__Iter_u8_digits_take_while_Self core__iter__base__Iterator__take_while__Iter_u8_ref_u8_de663524(struct core__iter__slices__Iter__u8 l1, struct lexer__bytes__fn__digits__take_while_Self l2);
static RT_WITHIN struct core__option__Option__ref_u8 core__iter__closures__TakeWhileIterator__next__Iter_u8_7c5d0d01(uint8_t *l1);
static RT_WITHIN struct core__option__Option__ref_u8 core__iter__closures__TakeWhileIterator__next__Iter_u8_bad0302d(uint8_t *l1);
static RT_WITHIN struct core__option__Option__rt_tuple2_u8_u64 core__option__OptionFromResidualNoValue__from_residual_e4dc67fa(struct core__option__NoValue l1);
static RT_WITHIN struct core__option__Option__rt_tuple2_uses_Scope_Option_u8 core__option__OptionFromResidualNoValue__from_residual_e7cc27ad(struct core__option__NoValue l1);
static RT_WITHIN struct core__result__Result__u32_Refusal core__result__ResultFromResidualErrResidual__from_resi_07f82ab4(struct core__result__ErrResidual__NoProgram l1);
static RT_WITHIN struct core__result__Result__u32_OperatorError core__result__ResultFromResidualErrResidual__from_resi_153600e2(struct core__result__ErrResidual__OperatorError l1);
static RT_WITHIN struct core__result__Result__rt_tuple2_u64_u8_Refusal core__result__ResultFromResidualErrResidual__from_resi_199ff778(struct core__result__ErrResidual__Refusal l1);
static RT_WITHIN struct core__result__Result__rt_tuple3_u64_u8_Judged_Refusal core__result__ResultFromResidualErrResidual__from_resi_29dc3d9d(struct core__result__ErrResidual__Refusal l1);
static RT_WITHIN struct core__result__Result__u32_Refusal core__result__ResultFromResidualErrResidual__from_resi_29ec18ee(struct core__result__ErrResidual__Refusal l1);
static RT_WITHIN struct core__result__Result__count_images_Counts_Refusal core__result__ResultFromResidualErrResidual__from_resi_31930649(struct core__result__ErrResidual__Refusal l1);
static RT_WITHIN struct core__result__Result__Loaded_Refusal core__result__ResultFromResidualErrResidual__from_resi_3d5841e5(struct core__result__ErrResidual__Refusal l1);
static RT_WITHIN struct core__result__Result__rt_tuple2_u8_u64_Refusal core__result__ResultFromResidualErrResidual__from_resi_79390567(struct core__result__ErrResidual__Refusal l1);
static RT_WITHIN struct core__result__Result__Seat_Refusal core__result__ResultFromResidualErrResidual__from_resi_865746fe(struct core__result__ErrResidual__Refusal l1);
static RT_WITHIN struct core__result__Result__rt_tuple2_u64_Done_Refusal core__result__ResultFromResidualErrResidual__from_resi_8768edf0(struct core__result__ErrResidual__Refusal l1);
static RT_WITHIN struct core__result__Result__u64_OperatorError core__result__ResultFromResidualErrResidual__from_resi_8fddf8e3(struct core__result__ErrResidual__OperatorError l1);
static RT_WITHIN struct core__result__Result__Opened_Refusal core__result__ResultFromResidualErrResidual__from_resi_94ec4b81(struct core__result__ErrResidual__Refusal l1);
static RT_WITHIN struct core__result__Result__rt_tuple2_u64_Summary_Refusal core__result__ResultFromResidualErrResidual__from_resi_9aee97b7(struct core__result__ErrResidual__Refusal l1);
static RT_WITHIN struct core__result__Result__run_images_Report_Refusal core__result__ResultFromResidualErrResidual__from_resi_abcbd695(struct core__result__ErrResidual__Refusal l1);
static RT_WITHIN struct core__result__Result__rt_tuple2_u64_Totals_Refusal core__result__ResultFromResidualErrResidual__from_resi_e2c23d53(struct core__result__ErrResidual__Refusal l1);
static RT_WITHIN struct core__result__Result__rt_tuple2_u64_Planned_Refusal core__result__ResultFromResidualErrResidual__from_resi_e75b3344(struct core__result__ErrResidual__Refusal l1);
static RT_WITHIN struct core__result__Result__u64_Refusal core__result__ResultFromResidualErrResidual__from_resi_f9cf8d89(struct core__result__ErrResidual__Refusal l1);
static RT_WITHIN struct core__result__Result__rt_tuple2_u64_Facts_Refusal core__result__ResultFromResidualErrResidual__from_resi_fbfd7bc2(struct core__result__ErrResidual__Refusal l1);
static RT_WITHIN struct core__ops__ControlFlow__ErrResidual_Refusal_rt_tuple3__6dda1656 core__result__ResultTry__branch__rt_tuple3_u64_u8_Judg_d80f38d1(struct core__result__Result__rt_tuple3_u64_u8_Judged_Refusal l1);
static RT_APART struct core__result__Result__count_images_Counts_Refusal count_images__answered(rt_slice l1, struct table_read__parameters__Parameters l2, rt_slice l3, struct count_images__Asking l4, rt_slice l5, rt_slice l6);
static RT_APART struct core__result__Result__count_images_Counts_Refusal count_images__begun(uint8_t *l1, rt_slice l2, rt_slice l3, rt_slice l4, struct count_images__Question l5, rt_slice l6);
static RT_APART struct count_images__Counts count_images__count(rt_slice l1, rt_slice l2, uint32_t l3, uint32_t l4, uint32_t l5, rt_slice l6);
static inline uint8_t count_images__has_step(rt_slice l1, uint64_t l2, uint64_t l3);
static inline struct core__result__Result__unit_Refusal count_images__placed(rt_slice l1, struct table_read__parameters__Parameters l2, uint64_t l3, struct count_images__Question l4);
static RT_SHORT void count_images__prepared(rt_slice l1, rt_slice l2, rt_slice l3, struct count_images__Asking l4, rt_slice l5, rt_slice l6);
static RT_HERE struct count_images__Counts count_images__refused(uint8_t l1);
static RT_HERE struct count_images__Counts count_images__settled(struct core__result__Result__count_images_Counts_Refusal l1);
static RT_WITHIN struct rt_array_uint16_6 counting__copies__part__u16_6(rt_slice l1, uint64_t l2);
static RT_HERE struct rt_array_uint64_32 counting__copies__part__u64_32(rt_slice l1, uint64_t l2);
static RT_WITHIN void counting__copies__write__u16(rt_slice l1, uint64_t l2, rt_slice l3);
static RT_WITHIN void counting__copies__write__u64(rt_slice l1, uint64_t l2, rt_slice l3);
static RT_SHORT struct counting__count__Tally counting__count__add(struct counting__count__Tally l1, struct counting__count__Tally l2);
static inline struct counting__count__Tally counting__count__all(struct engine__Machine l1, rt_slice l2, rt_slice l3, rt_slice l4, rt_slice l5, struct counting__count__Asked l6);
static RT_SHORT uint64_t counting__count__commands(rt_slice l1, uint64_t l2);
static RT_SHORT uint64_t counting__count__held(rt_slice l1, uint64_t l2);
static RT_SHORT struct counting__count__Tally counting__count__nothing(void);
static inline struct counting__count__Tally counting__count__one(struct engine__Machine l1, rt_slice l2, rt_slice l3, rt_slice l4, rt_slice l5, uint64_t l6, struct counting__count__Asked l7);
static RT_SHORT struct counting__count__Tally counting__count__resting(rt_slice l1, struct counting__count__Asked l2);
static RT_SHORT uint64_t counting__rows__fresh_row(uint64_t l1, uint64_t l2);
static inline void counting__rows__restore(rt_slice l1, rt_slice l2, uint64_t l3, uint64_t l4, struct counting__rows__Saved l5);
static RT_SHORT struct counting__rows__Saved counting__rows__save(rt_slice l1, rt_slice l2, rt_slice l3, uint64_t l4, uint64_t l5);
static inline uint64_t counting__rows__stored_at(rt_slice l1, rt_slice l2, rt_slice l3, uint64_t l4);
static RT_HERE struct derive__Mark derive__below(rt_slice l1, uint64_t l2, uint8_t l3);
static RT_HERE struct derive__Mark derive__dead(void);
static inline uint8_t derive__derived(rt_slice l1, rt_slice l2);
static RT_SHORT uint8_t derive__ends(uint8_t l1, uint64_t l2);
static RT_SHORT uint64_t derive__entry(uint8_t l1, uint8_t l2);
static RT_SHORT uint64_t derive__index(uint8_t l1, uint8_t l2);
static RT_HERE struct derive__Mark derive__moved(rt_slice l1, struct derive__Mark l2, uint8_t l3, uint64_t l4);
static RT_HERE struct derive__Mark derive__pushed(rt_slice l1, uint64_t l2, uint8_t l3, uint8_t l4);
static RT_SHORT void derive__roles__leave(rt_slice l1, uint64_t l2, uint64_t l3, uint8_t l4, struct core__option__Option__u8 l5);
static inline struct core__option__Option__u8 derive__roles__renamed(uint8_t l1, uint8_t l2);
static inline uint8_t derive__roles__role(rt_slice l1, struct derive__Mark l2, uint8_t l3, uint64_t l4);
static RT_SHORT uint8_t derive__roles__said(uint8_t l1, uint8_t l2);
static RT_HERE struct derive__Mark derive__step(rt_slice l1, struct derive__Mark l2, uint8_t l3);
static inline struct text_shape__Act derive__table__act_at(uint64_t l1);
static RT_SHORT uint8_t derive__table__mark_at(uint64_t l1);
static RT_HERE rt_slice derive__table__marks(void);
static RT_HERE rt_slice derive__table__next(void);
static RT_HERE rt_slice derive__table__opened(void);
static RT_HERE struct core__option__Option__Row directory__rows__find(rt_slice l1, uint8_t l2, uint8_t l3, uint8_t l4);
static RT_SHORT uint8_t directory__rows__is_row(struct directory__Row l1, uint16_t l2, uint16_t l3);
static RT_SHORT uint16_t directory__rows__look(rt_slice l1, uint64_t l2);
static inline void directory__rows__put_row(rt_slice l1, uint64_t l2, struct directory__Row l3);
static RT_SHORT struct directory__Row directory__rows__row_at(rt_slice l1, uint64_t l2);
static RT_SHORT uint8_t directory__rows__there(rt_slice l1, uint8_t l2, uint8_t l3, uint8_t l4);
static inline struct emit__Put emit__exprs__expr(rt_slice l1, rt_slice l2, uint64_t l3, uint64_t l4, rt_slice l5, uint64_t l6);
static inline struct emit__Put emit__exprs__make(rt_slice l1, rt_slice l2, uint64_t l3, uint64_t l4, rt_slice l5, uint64_t l6);
static RT_HERE struct emit__Put emit__steps__step(rt_slice l1, rt_slice l2, uint64_t l3, rt_slice l4, uint64_t l5);
static inline struct emit__Put emit__stmts__block(rt_slice l1, rt_slice l2, uint64_t l3, uint64_t l4, rt_slice l5, uint64_t l6);
static inline struct emit__Put emit__stmts__body(rt_slice l1, rt_slice l2, uint64_t l3, uint64_t l4, rt_slice l5, uint64_t l6);
static inline struct emit__Put emit__stmts__declare(rt_slice l1, rt_slice l2, uint64_t l3, rt_slice l4, uint64_t l5);
static inline struct emit__Put emit__stmts__stmt(rt_slice l1, rt_slice l2, uint64_t l3, uint64_t l4, rt_slice l5, uint64_t l6);
static inline struct emit__Put emit__stmts__update(rt_slice l1, rt_slice l2, uint64_t l3, rt_slice l4, uint64_t l5);
static inline struct emit__Put emit__stmts__when(rt_slice l1, rt_slice l2, uint64_t l3, uint64_t l4, rt_slice l5, uint64_t l6);
static RT_SHORT struct emit__Put emit__words__add(rt_slice l1, struct emit__Put l2, uint64_t l3);
static RT_SHORT uint64_t emit__words__coded(struct commands__kind__Kind l1, uint64_t l2, uint64_t l3);
static inline uint64_t emit__words__leaf(rt_slice l1, uint64_t l2);
static RT_SHORT uint64_t emit__words__leaf_size(uint8_t l1);
static RT_SHORT uint64_t emit__words__null_word(uint8_t l1);
static inline struct emit__Put emit__words__path(rt_slice l1, uint64_t l2, rt_slice l3, uint64_t l4);
static RT_HERE struct emit__Put emit__words__reads(rt_slice l1, uint64_t l2, uint8_t l3, rt_slice l4, uint64_t l5);
static RT_SHORT void emit__words__store(rt_slice l1, uint64_t l2, uint64_t l3);
static RT_HERE struct emit__Put emit__words__target(rt_slice l1, uint64_t l2, rt_slice l3, uint64_t l4);
static RT_HERE struct emit__Put emit_steps__of_struct(rt_slice l1, rt_slice l2, struct emit__Put l3, rt_slice l4);
static inline void emit_steps__program(rt_slice l1, rt_slice l2, uint64_t l3, rt_slice l4);
static RT_HERE struct engine__Machine engine__Machine__advance(struct engine__Machine l1, rt_slice l2, rt_slice l3, rt_slice l4);
static inline struct engine__Machine engine__Machine__command(struct engine__Machine l1, rt_slice l2, rt_slice l3, rt_slice l4, rt_slice l5, uint64_t l6);
static RT_HERE struct layout__Numbers engine__after(struct layout__Numbers l1, struct core__result__Result__Effect_Refusal l2);
static RT_SHORT uint64_t engine__left_holding(rt_slice l1, uint64_t l2, uint64_t l3);
static RT_HERE struct layout__Numbers engine__turned(struct layout__Numbers l1, uint64_t l2);
static inline struct core__result__Result__Effect_Refusal execute__perform(rt_slice l1, rt_slice l2, rt_slice l3, uint64_t l4, uint64_t l5, uint64_t l6);
static inline struct core__result__Result__Effect_Refusal execute_construct__construct(rt_slice l1, rt_slice l2, rt_slice l3, struct execute_stack__Actor l4, uint64_t l5, uint64_t l6);
static inline struct core__result__Result__Effect_Refusal execute_operator__operate(rt_slice l1, rt_slice l2, struct execute_stack__Actor l3, uint8_t l4);
static RT_SHORT uint8_t execute_operator__result_byte(uint8_t l1, uint8_t l2);
static inline struct execute_stack__Effect execute_stack__branch(rt_slice l1, rt_slice l2, struct execute_stack__Actor l3, uint64_t l4);
static inline struct execute_stack__Effect execute_stack__negate(rt_slice l1, rt_slice l2, struct execute_stack__Actor l3);
static RT_SHORT struct execute_stack__Effect execute_stack__push(rt_slice l1, rt_slice l2, struct execute_stack__Actor l3, uint64_t l4);
static inline struct execute_stack__Effect execute_stack__push_this(rt_slice l1, rt_slice l2, struct execute_stack__Actor l3);
static RT_SHORT void execute_stack__put(rt_slice l1, rt_slice l2, uint64_t l3, uint64_t l4, uint64_t l5, uint64_t l6);
static inline struct execute_stack__Effect execute_variables__read(rt_slice l1, rt_slice l2, struct execute_stack__Actor l3, uint64_t l4);
static RT_SHORT struct execute_stack__Effect execute_variables__replace(rt_slice l1, uint64_t l2, uint64_t l3);
static inline struct execute_stack__Effect execute_variables__write(rt_slice l1, rt_slice l2, rt_slice l3, struct execute_stack__Actor l4, uint64_t l5);
static inline uint64_t holders__holder(rt_slice l1, uint64_t l2, uint64_t l3, uint64_t l4);
static RT_SHORT uint64_t holders__holder_of(struct rt_array_holders__Record_256 l1, uint64_t l2, uint64_t l3, uint64_t l4);
static RT_HERE struct rt_array_holders__Record_256 holders__records(rt_slice l1, uint64_t l2);
static RT_HERE struct engine__Machine interpreter__moving__settle(struct engine__Machine l1, rt_slice l2, rt_slice l3, rt_slice l4);
static RT_HERE struct interpreter__turns__Going interpreter__turns__going_at(struct engine__Machine l1, uint64_t l2, struct holders__Record l3, rt_slice l4);
static RT_HERE struct interpreter__turns__Going interpreter__turns__resting(struct engine__Machine l1, uint64_t l2, struct holders__Record l3, uint8_t l4);
static RT_HERE struct interpreter__turns__Ran interpreter__turns__run(struct engine__Machine l1, uint8_t *l2, rt_slice l3, rt_slice l4, rt_slice l5);
static RT_HERE struct interpreter__turns__Going interpreter__turns__take_turns(struct interpreter__turns__Going l1, struct rt_array_holders__Record_256 l2, rt_slice l3, rt_slice l4, rt_slice l5, rt_slice l6, rt_slice l7);
static RT_HERE struct interpreter__turns__Going interpreter__turns__turn(struct interpreter__turns__Going l1, uint64_t l2, rt_slice l3, rt_slice l4, rt_slice l5, rt_slice l6, rt_slice l7);
static RT_SHORT uint8_t judging__digits__digit(uint64_t l1, uint8_t l2);
static RT_SHORT uint64_t judging__digits__mark(uint64_t l1, uint8_t l2, uint8_t l3);
static RT_SHORT uint64_t judging__digits__power(uint8_t l1);
static RT_SHORT struct judge__Facts judging__expression__appended(uint8_t l1, uint8_t l2, struct judge__Facts l3, struct judge__Facts l4);
static RT_SHORT struct judge__Facts judging__expression__combined(uint8_t l1, struct judge__Facts l2, struct judge__Facts l3);
static RT_SHORT struct judge__Facts judging__expression__constructed(uint8_t l1, struct judge__Facts l2);
static RT_SHORT uint8_t judging__expression__gives(uint8_t l1, uint8_t l2);
static RT_SHORT struct judge__Facts judging__expression__negated(struct judge__Facts l1);
static RT_SHORT struct judge__Facts judging__expression__no_args(void);
static RT_HERE struct judge__Facts judging__expression__pushed(uint8_t l1);
static inline uint8_t judging__expression__takes(uint8_t l1, uint8_t l2, uint8_t l3);
static RT_HERE struct judge__Facts judging__expression__travelled(uint8_t l1, struct judge__Judged l2);
static inline uint8_t judging__fault__demand(uint8_t l1, uint8_t l2);
static RT_SHORT uint8_t judging__fault__named(uint8_t l1);
static RT_SHORT uint8_t judging__fault__worst(uint8_t l1, uint8_t l2);
static inline struct judge__Judged judging__path__lead_by(rt_slice l1, rt_slice l2, struct judge__Judged l3, uint8_t l4);
static RT_SHORT struct judge__Judged judging__path__local(uint64_t l1, uint8_t l2);
static RT_SHORT uint8_t judging__path__look(rt_slice l1, uint64_t l2);
static RT_SHORT struct judge__Judged judging__path__param(rt_slice l1, rt_slice l2, uint8_t l3, uint8_t l4, uint8_t l5);
static RT_SHORT struct judge__Judged judging__path__start(rt_slice l1, rt_slice l2, uint8_t l3, uint64_t l4, uint8_t l5);
static RT_SHORT uint8_t judging__path__type_at(rt_slice l1, uint8_t l2, uint8_t l3);
static RT_SHORT struct judge__Done judging__statement__branched(struct judge__Scope l1, struct judge__Facts l2, struct judge__Done l3);
static RT_HERE struct judge__Done judging__statement__declared(struct judge__Scope l1, uint8_t l2, uint8_t l3, struct judge__Facts l4);
static RT_SHORT struct judge__Done judging__statement__followed(struct judge__Done l1, struct judge__Done l2);
static RT_SHORT struct judge__Done judging__statement__nothing(struct judge__Scope l1);
static RT_HERE struct judge__Done judging__statement__updated(struct judge__Scope l1, uint8_t l2, struct judge__Judged l3, struct judge__Facts l4);
static inline void layout__begin(rt_slice l1, uint64_t l2, uint16_t l3, uint16_t l4);
static RT_SHORT uint64_t layout__cell(uint8_t l1, uint64_t l2);
static RT_SHORT uint8_t layout__due(struct layout__Numbers l1);
static RT_HERE struct layout__Numbers layout__fresh(uint64_t l1);
static inline void layout__go(rt_slice l1, uint64_t l2, uint64_t l3, uint64_t l4);
static RT_SHORT uint64_t layout__head(rt_slice l1, uint64_t l2, uint64_t l3);
static RT_SHORT uint8_t layout__holds(rt_slice l1, uint64_t l2);
static RT_SHORT uint64_t layout__operand(uint64_t l1);
static inline void layout__seat(rt_slice l1, uint64_t l2, uint64_t l3);
static RT_SHORT uint8_t layout__type_byte(uint64_t l1);
static RT_SHORT struct core__option__Option__u8 lexer__alone(uint8_t l1);
static RT_SHORT uint8_t lexer__bytes__between(uint8_t l1, uint8_t l2, uint8_t l3);
static RT_SHORT uint8_t lexer__bytes__byte(rt_slice l1, uint64_t l2);
static RT_HERE struct core__option__Option__u64 lexer__bytes__close_place(rt_slice l1);
static RT_HERE struct core__option__Option__u64 lexer__bytes__closing(rt_slice l1);
static RT_SHORT uint64_t lexer__bytes__digits(rt_slice l1);
static RT_WITHIN uint8_t lexer__bytes__fn__digits__take_while(uint8_t *l1, uint8_t *l2);
static RT_WITHIN uint8_t lexer__bytes__fn__digits__take_while_FnMut__call_mut(uint8_t *l1, uint8_t *l2);
static RT_WITHIN uint8_t lexer__bytes__fn__names__take_while(uint8_t *l1, uint8_t *l2);
static RT_WITHIN uint8_t lexer__bytes__fn__names__take_while_FnMut__call_mut(uint8_t *l1, uint8_t *l2);
static inline uint8_t lexer__bytes__is_blank(uint8_t l1);
static RT_SHORT uint8_t lexer__bytes__is_digit(uint8_t l1);
static RT_SHORT uint8_t lexer__bytes__is_letter(uint8_t l1);
static RT_SHORT uint8_t lexer__bytes__is_name_byte(uint8_t l1);
static RT_SHORT uint64_t lexer__bytes__names(rt_slice l1);
static RT_SHORT uint8_t lexer__bytes__opens(uint8_t l1, uint8_t l2);
static RT_SHORT uint8_t lexer__bytes__signed(uint8_t l1, uint8_t l2);
static RT_WITHIN struct rt_tuple2__u8_u64 lexer__fn__followed__map(struct lexer__fn__followed__map_Self l1, uint8_t l2);
static RT_WITHIN struct rt_tuple2__u8_u64 lexer__fn__followed__map_FnOnce__call_once(struct lexer__fn__followed__map_Self l1, uint8_t l2);
static RT_HERE struct core__option__Option__rt_tuple2_u8_u64 lexer__followed(uint8_t l1, uint8_t l2, uint8_t l3, struct core__option__Option__u8 l4);
static inline uint64_t lexer__gaps__back_within(rt_slice l1, uint64_t l2, uint64_t l3);
static inline uint64_t lexer__gaps__beyond(rt_slice l1, uint64_t l2);
static RT_SHORT uint8_t lexer__gaps__eight(rt_slice l1, uint64_t l2);
static inline uint64_t lexer__gaps__eights(rt_slice l1, uint64_t l2);
static inline uint64_t lexer__gaps__eights_back(rt_slice l1, uint64_t l2);
static RT_SHORT uint64_t lexer__gaps__first(rt_slice l1);
static inline uint8_t lexer__gaps__four(rt_slice l1, uint64_t l2);
static inline uint64_t lexer__gaps__next(rt_slice l1, uint64_t l2);
static inline uint64_t lexer__gaps__start(rt_slice l1, uint64_t l2);
static inline uint64_t lexer__gaps__within(rt_slice l1, uint64_t l2, uint64_t l3);
static inline uint8_t lexer__mark(rt_slice l1, rt_slice l2);
static RT_HERE struct core__option__Option__rt_tuple2_u8_u64 lexer__name(rt_slice l1);
static RT_HERE struct core__option__Option__rt_tuple2_u8_u64 lexer__nat(rt_slice l1);
static RT_HERE struct core__option__Option__rt_tuple2_u8_u64 lexer__other(uint8_t l1, rt_slice l2);
static RT_HERE struct core__option__Option__rt_tuple2_u8_u64 lexer__sign(uint8_t l1, uint8_t l2);
static RT_HERE struct core__option__Option__rt_tuple2_u8_u64 lexer__token(rt_slice l1);
static inline uint8_t lexer__words__kind(rt_slice l1);
static RT_SHORT uint8_t lexer__words__only(rt_slice l1, uint8_t l2, rt_slice l3);
static RT_SHORT uint8_t lexer__words__same(rt_slice l1, rt_slice l2);
static inline uint8_t lexer__words__with_t(rt_slice l1);
static RT_APART uint64_t listing__image__listing(rt_slice l1, rt_slice l2);
static RT_SHORT uint64_t little_endian__index(uint8_t l1);
static RT_SHORT uint64_t little_endian__pair_at(rt_slice l1, uint64_t l2);
static inline void little_endian__put_pair(rt_slice l1, uint64_t l2, uint64_t l3);
static inline void little_endian__put_word(rt_slice l1, uint64_t l2, uint64_t l3);
static inline uint64_t little_endian__word_at(rt_slice l1, uint64_t l2);
static inline struct types__refusal__Refusal load__breach(uint8_t l1);
static RT_HERE struct core__result__Result__Loaded_Refusal load__of_stream(rt_slice l1, rt_slice l2, rt_slice l3, rt_slice l4);
static RT_HERE struct core__result__Result__Loaded_Refusal load__program(rt_slice l1, rt_slice l2, rt_slice l3, rt_slice l4, rt_slice l5);
static RT_HERE struct load__Loaded load__summed(uint64_t l1, uint64_t l2, struct read_program__Summary l3);
static RT_WITHIN struct operators__Operator operators__OperatorFromU8__from(uint8_t l1);
static inline struct core__result__Result__rt_tuple2_u64_Facts_Refusal read_exprs__expr__construct(rt_slice l1, uint8_t *l2, uint64_t l3, uint64_t l4, uint64_t l5);
static inline struct core__result__Result__rt_tuple2_u64_Facts_Refusal read_exprs__expr__expr(rt_slice l1, uint8_t *l2, uint64_t l3, uint64_t l4, uint64_t l5);
static RT_HERE struct core__result__Result__rt_tuple2_u64_Facts_Refusal read_exprs__leaf__bool_byte(rt_slice l1, uint64_t l2);
static inline struct core__result__Result__rt_tuple2_u64_Facts_Refusal read_exprs__leaf__leaf(rt_slice l1, uint8_t *l2, uint64_t l3, uint8_t l4, uint64_t l5);
static RT_HERE struct core__result__Result__rt_tuple2_u64_Facts_Refusal read_exprs__leaf__null(rt_slice l1, uint64_t l2, uint64_t l3);
static RT_HERE struct core__result__Result__rt_tuple2_u64_Facts_Refusal read_exprs__leaf__travel(rt_slice l1, uint8_t *l2, uint64_t l3, uint64_t l4);
static RT_HERE struct core__result__Result__rt_tuple2_u64_Facts_Refusal read_exprs__leaf__word(rt_slice l1, uint8_t l2, uint64_t l3);
static RT_HERE struct core__result__Result__rt_tuple3_u64_u8_Judged_Refusal read_exprs__path__first(rt_slice l1, uint8_t *l2, uint64_t l3, uint8_t l4, uint64_t l5);
static RT_HERE struct core__result__Result__rt_tuple3_u64_u8_Judged_Refusal read_exprs__path__follow(rt_slice l1, uint8_t *l2, struct judge__Judged l3, uint8_t l4, uint8_t l5, uint64_t l6);
static RT_HERE struct core__result__Result__rt_tuple3_u64_u8_Judged_Refusal read_exprs__path__path(rt_slice l1, uint8_t *l2, uint64_t l3, uint64_t l4);
static RT_HERE struct core__result__Result__rt_tuple2_u8_u64_Refusal read_exprs__read__byte(rt_slice l1, uint64_t l2);
static RT_SHORT uint8_t read_exprs__read__is_type(uint64_t l1, uint8_t l2);
static inline struct core__result__Result__rt_tuple2_u8_u64_Refusal read_exprs__read__ranged(rt_slice l1, uint64_t l2, uint64_t l3, uint64_t l4);
static RT_HERE struct core__result__Result__rt_tuple2_u8_u64_Refusal read_exprs__read__type_byte(rt_slice l1, uint64_t l2, uint64_t l3);
static RT_SHORT void read_params__clear(rt_slice l1, uint64_t l2, uint64_t l3);
static RT_HERE struct core__result__Result__u64_Refusal read_params__list(rt_slice l1, rt_slice l2, rt_slice l3, uint64_t l4, uint64_t l5, uint64_t l6);
static RT_HERE struct core__result__Result__u64_Refusal read_params__lists(rt_slice l1, rt_slice l2, rt_slice l3, uint64_t l4, uint64_t l5);
static RT_HERE struct core__result__Result__rt_tuple2_u64_u8_Refusal read_params__params(rt_slice l1, rt_slice l2, rt_slice l3);
static RT_HERE struct core__result__Result__u64_Refusal read_params__row(rt_slice l1, rt_slice l2, uint64_t l3, uint64_t l4, uint64_t l5, uint64_t l6, uint64_t l7);
static RT_HERE struct core__result__Result__rt_tuple2_u64_Summary_Refusal read_program__end(rt_slice l1, rt_slice l2, uint8_t l3, uint64_t l4, struct read_program__totals__Totals l5, uint64_t l6);
static inline uint8_t read_program__number(struct read_program__totals__Totals l1, struct read_schedule__Planned l2);
static RT_HERE struct core__result__Result__rt_tuple2_u64_Summary_Refusal read_program__program(rt_slice l1, rt_slice l2, rt_slice l3, rt_slice l4);
static RT_HERE struct core__result__Result__rt_tuple2_u64_Summary_Refusal read_program__rest(rt_slice l1, rt_slice l2, rt_slice l3, rt_slice l4, uint8_t l5, uint64_t l6);
static RT_HERE struct read_program__Summary read_program__summed(uint8_t l1, uint64_t l2, struct read_program__totals__Totals l3, struct read_schedule__Planned l4);
static inline uint8_t read_program__totals__listed(rt_slice l1, uint64_t l2, uint8_t l3, uint8_t l4);
static RT_HERE struct read_program__totals__Totals read_program__totals__none(void);
static inline uint8_t read_program__totals__noted(rt_slice l1, uint8_t l2, uint8_t l3, struct read_program__totals__Totals l4, struct judge__Done l5);
static RT_HERE struct core__result__Result__rt_tuple2_u64_Totals_Refusal read_program__totals__of_struct(rt_slice l1, rt_slice l2, rt_slice l3, rt_slice l4, uint8_t l5, struct read_program__totals__Totals l6, uint64_t l7);
static inline uint8_t read_program__totals__over(uint8_t l1, struct judge__Done l2);
static RT_HERE struct read_program__totals__Totals read_program__totals__plus(struct read_program__totals__Totals l1, struct judge__Done l2, uint8_t l3);
static RT_HERE struct core__result__Result__rt_tuple2_u64_Totals_Refusal read_program__totals__step(rt_slice l1, rt_slice l2, rt_slice l3, rt_slice l4, uint8_t l5, struct read_program__totals__Totals l6, uint64_t l7);
static RT_HERE struct core__result__Result__rt_tuple2_u64_Totals_Refusal read_program__totals__structs(rt_slice l1, rt_slice l2, rt_slice l3, rt_slice l4, uint8_t l5, struct read_program__totals__Totals l6, uint64_t l7);
static inline struct core__result__Result__rt_tuple2_u64_Planned_Refusal read_schedule__call(rt_slice l1, uint8_t *l2, uint64_t l3);
static inline struct core__result__Result__rt_tuple2_u64_Planned_Refusal read_schedule__call_in(rt_slice l1, uint8_t *l2, uint64_t l3);
static inline uint8_t read_schedule__had(uint8_t *l1, uint8_t l2);
static inline struct core__result__Result__rt_tuple2_u64_Planned_Refusal read_schedule__item(rt_slice l1, uint8_t *l2, uint64_t l3, uint64_t l4);
static inline struct core__result__Result__rt_tuple2_u64_Planned_Refusal read_schedule__items(rt_slice l1, uint8_t *l2, uint64_t l3, uint64_t l4);
static RT_SHORT struct read_schedule__Planned read_schedule__joined(struct read_schedule__Planned l1, struct read_schedule__Planned l2);
static RT_HERE struct read_schedule__Planned read_schedule__one(uint8_t l1);
static RT_HERE struct core__result__Result__rt_tuple2_u64_Done_Refusal read_stmts__simple__create(rt_slice l1, uint8_t *l2, struct judge__Scope l3, uint64_t l4);
static RT_HERE struct core__result__Result__rt_tuple2_u64_Done_Refusal read_stmts__simple__declare(rt_slice l1, uint8_t *l2, struct judge__Scope l3, uint64_t l4);
static RT_HERE struct judge__Done read_stmts__simple__labelled(struct judge__Scope l1, struct judge__Facts l2);
static RT_HERE struct core__result__Result__rt_tuple2_u64_Done_Refusal read_stmts__simple__local(rt_slice l1, uint8_t *l2, struct judge__Scope l3, uint8_t l4, uint64_t l5);
static inline struct core__result__Result__rt_tuple2_u64_Done_Refusal read_stmts__simple__simple(rt_slice l1, uint8_t *l2, struct judge__Scope l3, uint8_t l4, uint64_t l5);
static RT_HERE struct core__result__Result__rt_tuple2_u64_Done_Refusal read_stmts__simple__update(rt_slice l1, uint8_t *l2, struct judge__Scope l3, uint64_t l4);
static inline struct core__result__Result__rt_tuple2_u64_Done_Refusal read_stmts__stmt__body(rt_slice l1, uint8_t *l2, struct judge__Scope l3, uint64_t l4, uint64_t l5);
static inline struct core__result__Result__rt_tuple2_u64_Done_Refusal read_stmts__stmt__stmt(rt_slice l1, uint8_t *l2, struct judge__Scope l3, uint64_t l4, uint64_t l5);
static inline struct core__result__Result__rt_tuple2_u64_Done_Refusal read_stmts__stmt__when(rt_slice l1, uint8_t *l2, struct judge__Scope l3, uint64_t l4, uint64_t l5);
static RT_SHORT struct read_text__Answer read_text__answered(struct core__result__Result__u32_Refusal l1);
static RT_HERE struct core__option__Option__u64 read_text__composed(rt_slice l1, rt_slice l2, rt_slice l3, rt_slice l4, rt_slice l5, rt_slice l6);
static inline struct core__result__Result__u32_Refusal read_text__imaged(rt_slice l1, rt_slice l2);
static RT_APART struct core__result__Result__u32_Refusal read_text__meant(rt_slice l1, rt_slice l2, rt_slice l3, rt_slice l4);
static inline struct core__result__Result__u32_Refusal read_text__passes(rt_slice l1, rt_slice l2, rt_slice l3, rt_slice l4);
static RT_APART struct read_text__Answer read_text__read(rt_slice l1, rt_slice l2);
static RT_WITHIN uint8_t resolve__declarations__between_all__unit(rt_slice l1);
static RT_SHORT uint8_t resolve__declarations__few(uint64_t l1, uint64_t l2);
static RT_WITHIN uint8_t resolve__declarations__fn__rows_ok__between_all(uint8_t *l1, uint64_t l2, uint64_t l3);
static RT_WITHIN uint8_t resolve__declarations__fn__rows_ok__between_all_Fn__call(uint8_t *l1, uint64_t l2, uint64_t l3);
static RT_SHORT uint8_t resolve__declarations__is_new(rt_slice l1, rt_slice l2, uint64_t l3, uint64_t l4);
static RT_SHORT uint8_t resolve__declarations__narrow(rt_slice l1);
static inline uint8_t resolve__declarations__row_ok(rt_slice l1, rt_slice l2, uint64_t l3, uint64_t l4);
static RT_SHORT uint8_t resolve__declarations__rows_ok(rt_slice l1, rt_slice l2, rt_slice l3);
static inline uint64_t resolve__declarations__step_names(rt_slice l1, rt_slice l2, rt_slice l3);
static RT_SHORT uint64_t resolve__declarations__type_byte(rt_slice l1, rt_slice l2, uint8_t l3, uint64_t l4);
static RT_SHORT uint8_t resolve__declarations__type_kind(uint8_t l1);
static inline uint8_t resolve__declarations__types(rt_slice l1, rt_slice l2, rt_slice l3, rt_slice l4, rt_slice l5);
static RT_SHORT uint64_t resolve__literals__digit_value(uint8_t l1);
static RT_SHORT struct core__option__Option__u32 resolve__literals__int_word(rt_slice l1, uint64_t l2);
static RT_SHORT uint64_t resolve__literals__longer(uint64_t l1, uint8_t l2);
static RT_SHORT struct core__option__Option__u32 resolve__literals__nat_word(rt_slice l1, uint64_t l2);
static inline struct core__option__Option__u32 resolve__literals__signed(uint8_t l1, uint64_t l2);
static inline uint64_t resolve__literals__value(rt_slice l1, uint64_t l2);
static RT_WITHIN uint8_t resolve__names__fn__lookup__position(uint8_t *l1, uint8_t *l2);
static RT_WITHIN uint8_t resolve__names__fn__lookup__position_FnMut__call_mut(uint8_t *l1, uint8_t *l2);
static RT_SHORT uint8_t resolve__names__letter(rt_slice l1, uint64_t l2);
static RT_HERE struct core__option__Option__u64 resolve__names__lookup(rt_slice l1, rt_slice l2, uint64_t l3);
static inline uint8_t resolve__names__same_name(rt_slice l1, uint64_t l2, uint64_t l3);
static RT_WITHIN uint8_t resolve__resolve__declarations__few_Fn__call(uint8_t *l1, uint64_t l2, uint64_t l3);
static RT_SHORT uint64_t resolve__tables__add(rt_slice l1, uint64_t l2, uint64_t l3, uint8_t l4);
static RT_SHORT uint64_t resolve__tables__counted(uint64_t l1, uint8_t l2);
static inline uint8_t resolve__tables__distinct(rt_slice l1, rt_slice l2);
static RT_SHORT void resolve__tables__put(rt_slice l1, uint64_t l2, uint64_t l3);
static RT_WITHIN uint8_t resolve__declarations__between_all__between_all_Self_s_50cd00d0(rt_slice l1, struct resolve__declarations__fn__rows_ok__between_all_Self___17487529 l2);
static RT_APART struct core__result__Result__run_images_Report_Refusal run_images__begun(uint8_t *l1, rt_slice l2, rt_slice l3, rt_slice l4, rt_slice l5, rt_slice l6, rt_slice l7);
static RT_HERE struct run_images__Report run_images__refused(uint8_t l1);
static RT_HERE struct run_images__Report run_images__reported(rt_slice l1, rt_slice l2, rt_slice l3, struct interpreter__turns__Ran l4, uint8_t l5, rt_slice l6, rt_slice l7);
static inline struct core__result__Result__unit_Refusal run_images__room(uint64_t l1, uint64_t l2, uint64_t l3);
static RT_APART struct run_images__Report run_images__run(rt_slice l1, rt_slice l2, rt_slice l3, rt_slice l4, rt_slice l5);
static RT_HERE struct run_images__Report run_images__settled(struct core__result__Result__run_images_Report_Refusal l1);
static RT_SHORT void scheduler__begin__begin_all(rt_slice l1, rt_slice l2, uint64_t l3, uint64_t l4);
static inline void scheduler__begin__begin_one(rt_slice l1, rt_slice l2, uint64_t l3, uint64_t l4);
static RT_SHORT uint8_t scheduler__begin__means(uint64_t l1, uint64_t l2);
static RT_SHORT uint64_t scheduler__count__holding(rt_slice l1, uint64_t l2);
static RT_HERE struct layout__Numbers scheduler__schedule__advance(struct layout__Numbers l1, rt_slice l2, rt_slice l3, rt_slice l4);
static RT_HERE struct layout__Numbers scheduler__schedule__fix(struct layout__Numbers l1);
static RT_HERE struct layout__Numbers scheduler__schedule__round(uint64_t l1, struct layout__Numbers l2);
static RT_APART struct core__result__Result__Loaded_Refusal seating__admit(rt_slice l1, rt_slice l2, rt_slice l3, rt_slice l4, rt_slice l5);
static RT_HERE struct core__result__Result__Opened_Refusal seating__open_program(rt_slice l1, rt_slice l2, rt_slice l3);
static RT_HERE struct table_read__parameters__Parameters seating__parameters(uint8_t *l1);
static RT_HERE struct core__result__Result__Seat_Refusal seating__seat_table(uint64_t l1, struct table_read__parameters__Parameters l2, rt_slice l3, rt_slice l4, rt_slice l5, rt_slice l6);
static RT_WITHIN void std__slices__slice_T__copy_within__u64_Range_u64(rt_slice l1, struct core__iter__ranges__Range__u64 l2, uint64_t l3);
static RT_WITHIN struct rt_tuple2__u64_u64 std_alloc__part__AnySliceRange__within__Range_u64(struct core__iter__ranges__Range__u64 l1, uint64_t l2);
static RT_WITHIN void std_alloc__shifts__copy_down__u64(rt_slice l1, uint64_t l2, uint64_t l3, uint64_t l4);
static RT_WITHIN void std_alloc__shifts__copy_up__u64(rt_slice l1, uint64_t l2, uint64_t l3, uint64_t l4);
static RT_WITHIN void std_alloc__shifts__shift__u64(rt_slice l1, uint64_t l2, uint64_t l3, uint64_t l4);
static inline uint64_t step_lines__program(rt_slice l1, uint64_t l2, rt_slice l3, rt_slice l4, uint64_t l5);
static inline uint64_t step_lines__step(rt_slice l1, struct directory__Row l2, rt_slice l3, uint64_t l4);
static RT_APART struct step_part__Spot step_part__locate(rt_slice l1, uint8_t l2, uint8_t l3);
static RT_HERE struct step_part__Spot step_part__nowhere(uint8_t l1);
static RT_HERE struct step_part__Spot step_part__spotted(struct core__option__Option__Row l1);
static RT_HERE struct step_part__Spot step_part__step_place(rt_slice l1, rt_slice l2, uint8_t l3, uint8_t l4);
static RT_HERE struct core__result__Result__u64_Refusal table_read__behind(rt_slice l1, struct table_read__parameters__Parameters l2, uint64_t l3, rt_slice l4, rt_slice l5);
static inline void table_read__nulls__defaults(rt_slice l1, uint64_t l2, uint64_t l3, rt_slice l4, uint64_t l5);
static RT_SHORT uint64_t table_read__nulls__null_cell(uint8_t l1);
static inline void table_read__nulls__nulls(struct table_read__parameters__Parameters l1, rt_slice l2, rt_slice l3);
static RT_HERE struct table_read__parameters__Parameters table_read__parameters__Parameters__new(rt_slice l1, rt_slice l2);
static RT_HERE struct core__result__Result__u64_Refusal table_read__read(rt_slice l1, struct table_read__parameters__Parameters l2, rt_slice l3, rt_slice l4);
static RT_HERE struct core__result__Result__u64_Refusal table_read__read_image(rt_slice l1, struct table_read__parameters__Parameters l2, rt_slice l3, rt_slice l4, rt_slice l5);
static RT_SHORT uint8_t table_read__reading__allowed(uint8_t l1, uint64_t l2);
static RT_HERE struct core__result__Result__u64_Refusal table_read__reading__count(rt_slice l1, uint64_t l2);
static RT_HERE struct core__result__Result__u64_Refusal table_read__reading__one_record(rt_slice l1, struct table_read__parameters__Parameters l2, uint64_t l3, rt_slice l4, rt_slice l5, uint64_t l6);
static RT_HERE struct core__result__Result__u64_Refusal table_read__reading__records(rt_slice l1, struct table_read__parameters__Parameters l2, uint64_t l3, uint64_t l4, rt_slice l5, rt_slice l6);
static RT_HERE struct core__result__Result__u64_Refusal table_read__reading__value(rt_slice l1, uint8_t l2, uint64_t l3, rt_slice l4, uint64_t l5);
static RT_HERE struct core__result__Result__u64_Refusal table_read__reading__values(rt_slice l1, rt_slice l2, uint64_t l3, uint64_t l4, uint64_t l5, rt_slice l6, uint64_t l7);
static inline uint8_t table_read__refer__cell_refers(rt_slice l1, uint64_t l2, uint8_t l3, uint64_t l4);
static inline uint8_t table_read__refer__row_refers(rt_slice l1, uint64_t l2, rt_slice l3, uint64_t l4, rt_slice l5, uint64_t l6, uint64_t l7);
static inline uint8_t table_read__refer__rows_refer(struct table_read__parameters__Parameters l1, rt_slice l2, rt_slice l3, uint64_t l4, uint64_t l5);
static inline uint64_t table_write__write(rt_slice l1, rt_slice l2, rt_slice l3, uint64_t l4, rt_slice l5, rt_slice l6);
static inline uint64_t table_write__writing__instances(rt_slice l1, uint64_t l2, rt_slice l3, rt_slice l4, rt_slice l5, uint64_t l6, uint64_t l7);
static RT_SHORT uint64_t table_write__writing__stream(rt_slice l1, rt_slice l2, rt_slice l3, uint64_t l4, rt_slice l5);
static inline void table_write__writing__values(rt_slice l1, uint64_t l2, rt_slice l3, uint64_t l4, uint64_t l5);
static RT_SHORT uint64_t text__byte(rt_slice l1, uint64_t l2, uint8_t l3);
static inline uint64_t text__command(rt_slice l1, uint64_t l2, uint64_t l3);
static RT_SHORT uint64_t text__decimal(rt_slice l1, uint64_t l2, uint64_t l3);
static RT_SHORT uint64_t text__digit(rt_slice l1, uint64_t l2, uint64_t l3);
static inline uint64_t text__digits(rt_slice l1, uint64_t l2, uint64_t l3, uint64_t l4);
static RT_SHORT uint64_t text__keyed(rt_slice l1, uint64_t l2, rt_slice l3, uint64_t l4);
static RT_SHORT uint64_t text__lines__column(rt_slice l1, uint64_t l2, uint64_t l3);
static inline uint64_t text__lines__line(rt_slice l1, uint64_t l2, uint8_t l3, uint8_t l4, uint64_t l5, uint64_t l6);
static inline uint64_t text__lines__row(rt_slice l1, uint64_t l2, rt_slice l3, rt_slice l4);
static inline uint64_t text__push(rt_slice l1, uint64_t l2, uint64_t l3, uint64_t l4);
static RT_SHORT uint64_t text__put(rt_slice l1, uint64_t l2, rt_slice l3);
static inline uint64_t text__value(rt_slice l1, uint64_t l2, uint64_t l3, uint64_t l4);
static RT_APART uint64_t text_place__place(rt_slice l1);
static inline uint64_t text_place__stopped(rt_slice l1, rt_slice l2, rt_slice l3);
static inline uint64_t text_place__stuck(rt_slice l1, rt_slice l2);
static inline uint64_t text_place__unmarked(rt_slice l1);
static RT_APART uint64_t text_place__unnamed(rt_slice l1, rt_slice l2, rt_slice l3);
static RT_APART struct trace_images__Traced trace_images__begun(uint8_t *l1, rt_slice l2, rt_slice l3, rt_slice l4, rt_slice l5, uint64_t l6, rt_slice l7);
static RT_HERE struct trace_images__pages__Page trace_images__pages__blank(uint64_t l1);
static RT_HERE struct trace_images__Traced trace_images__pages__ended(struct trace_images__pages__Page l1, uint8_t l2, uint64_t l3, rt_slice l4);
static RT_SHORT uint64_t trace_images__pages__least(uint64_t l1, uint64_t l2);
static RT_HERE struct trace_images__pages__Page trace_images__pages__put(struct trace_images__pages__Page l1, rt_slice l2, rt_slice l3);
static RT_HERE struct trace_images__Traced trace_images__pages__refused(uint8_t l1, uint64_t l2, rt_slice l3);
static RT_APART struct core__result__Result__Seat_Refusal trace_images__seated(uint64_t l1, struct table_read__parameters__Parameters l2, rt_slice l3, rt_slice l4, rt_slice l5);
static RT_HERE struct trace_images__telling__Telling trace_images__telling__behind(struct engine__Machine l1, uint64_t l2, uint64_t l3, struct trace_images__pages__Page l4);
static RT_HERE struct trace_images__telling__Telling trace_images__telling__first(struct trace_images__telling__Start l1);
static RT_HERE struct trace_images__telling__Telling trace_images__telling__moved(struct trace_images__telling__Telling l1, rt_slice l2, rt_slice l3, rt_slice l4, rt_slice l5);
static RT_APART struct trace_images__telling__Telling trace_images__telling__play(rt_slice l1, rt_slice l2, struct trace_images__telling__Start l3, rt_slice l4, rt_slice l5, rt_slice l6, rt_slice l7);
static RT_HERE struct trace_images__telling__Telling trace_images__telling__resting(struct trace_images__telling__Telling l1, uint8_t l2);
static RT_HERE struct trace_images__telling__Telling trace_images__telling__settle(struct trace_images__telling__Telling l1, rt_slice l2, rt_slice l3, rt_slice l4, rt_slice l5);
static RT_HERE struct trace_images__telling__Telling trace_images__telling__told_at(struct trace_images__telling__Telling l1, rt_slice l2);
static RT_HERE struct trace_images__telling__Telling trace_images__telling__turn(struct trace_images__telling__Telling l1, rt_slice l2, rt_slice l3, rt_slice l4, rt_slice l5, rt_slice l6, rt_slice l7);
static RT_APART struct trace_images__Traced trace_images__trace(rt_slice l1, rt_slice l2, rt_slice l3, uint64_t l4, rt_slice l5);
static RT_HERE struct trace_lines__Told trace_lines__advance(struct engine__Machine l1, uint64_t l2, rt_slice l3, rt_slice l4, rt_slice l5, rt_slice l6);
static inline uint64_t trace_lines__back(rt_slice l1, uint64_t l2, uint64_t l3, struct core__option__Option__Write l4, struct layout__Numbers l5, rt_slice l6, rt_slice l7);
static RT_SHORT uint64_t trace_lines__choice__picked_of(rt_slice l1, uint64_t l2, uint64_t l3, uint64_t l4, uint8_t l5);
static RT_SHORT uint64_t trace_lines__columns(rt_slice l1, uint64_t l2, uint64_t l3, uint64_t l4, uint64_t l5);
static inline uint64_t trace_lines__front(rt_slice l1, struct trace_lines__Acting l2);
static inline uint64_t trace_lines__moved(rt_slice l1, struct layout__Numbers l2);
static inline uint64_t trace_lines__parts__cell(rt_slice l1, uint64_t l2, rt_slice l3, uint64_t l4);
static inline uint64_t trace_lines__parts__entries(rt_slice l1, uint64_t l2, uint64_t l3, uint64_t l4);
static inline uint64_t trace_lines__parts__stack(rt_slice l1, uint64_t l2, rt_slice l3, rt_slice l4, uint64_t l5);
static inline uint64_t trace_lines__parts__tag(rt_slice l1, uint64_t l2);
static RT_SHORT uint64_t trace_lines__parts__worth(rt_slice l1, uint64_t l2, uint64_t l3);
static inline uint64_t trace_lines__position(rt_slice l1, rt_slice l2, uint64_t l3, uint64_t l4);
static RT_SHORT uint64_t trace_lines__step_at(uint64_t l1, uint64_t l2);
static RT_HERE struct trace_lines__Told trace_lines__turn(struct trace_lines__Coming l1, rt_slice l2, rt_slice l3, rt_slice l4, rt_slice l5, rt_slice l6, rt_slice l7);
static inline uint64_t trace_lines__writes__place(rt_slice l1, uint64_t l2, uint64_t l3, uint64_t l4);
static RT_HERE struct core__option__Option__Write trace_lines__writes__target(rt_slice l1, rt_slice l2, rt_slice l3, rt_slice l4, uint64_t l5);
static inline uint64_t trace_lines__writes__written(rt_slice l1, uint64_t l2, struct core__option__Option__Write l3, rt_slice l4);
static RT_SHORT uint32_t types__default_word(uint8_t l1);
static RT_SHORT uint8_t types__is_reference(uint8_t l1);
static RT_SHORT uint8_t types__is_type(uint8_t l1, uint8_t l2);
static RT_WITHIN uint8_t types__refusal__U8FromRefusal__from(struct types__refusal__Refusal l1);
static RT_SHORT uint8_t types__struct_of(uint8_t l1);
static RT_WITHIN struct types__refusal__Refusal uses__RefusalFromNoProgram__from(struct uses__NoProgram l1);
static RT_HERE struct core__option__Option__rt_tuple2_uses_Scope_Option_u8 uses__book__Book__begin(struct uses__book__Book l1, struct uses__Scope l2);
static RT_HERE struct core__option__Option__rt_tuple2_u8_u64 uses__book__Book__called(struct uses__book__Book l1, uint64_t l2, uint8_t l3, uint64_t l4);
static RT_HERE struct core__option__Option__rt_tuple2_uses_Scope_Option_u8 uses__book__Book__declare(struct uses__book__Book l1, rt_slice l2, uint64_t l3, struct uses__Scope l4);
static RT_HERE struct core__option__Option__rt_tuple2_uses_Scope_Option_u8 uses__book__Book__declared_name(struct uses__book__Book l1, rt_slice l2, uint64_t l3, uint8_t l4, struct uses__Scope l5);
static RT_HERE struct core__option__Option__rt_tuple2_u8_u64 uses__book__Book__first(struct uses__book__Book l1, rt_slice l2, uint64_t l3, struct uses__Scope l4);
static RT_HERE struct core__option__Option__rt_tuple2_u8_u64 uses__book__Book__later(struct uses__book__Book l1, uint64_t l2, uint64_t l3);
static RT_HERE struct core__option__Option__rt_tuple2_u8_u64 uses__book__Book__listed(struct uses__book__Book l1, uint64_t l2, uint64_t l3, uint64_t l4, uint64_t l5);
static RT_HERE struct core__option__Option__rt_tuple2_uses_Scope_Option_u8 uses__book__Book__made(struct uses__book__Book l1, rt_slice l2, uint64_t l3, struct uses__Scope l4);
static RT_SHORT uint8_t uses__book__Book__no_parameter(struct uses__book__Book l1, uint64_t l2, uint64_t l3);
static RT_HERE struct core__option__Option__rt_tuple2_u8_u64 uses__book__Book__parameter(struct uses__book__Book l1, uint64_t l2, uint64_t l3);
static RT_HERE struct core__option__Option__rt_tuple2_uses_Scope_Option_u8 uses__book__Book__type_role(struct uses__book__Book l1, uint64_t l2, uint8_t l3, struct uses__Scope l4);
static inline uint8_t uses__book__Book__unused(struct uses__book__Book l1, rt_slice l2, uint64_t l3, uint64_t l4, uint64_t l5);
static RT_HERE struct core__option__Option__rt_tuple2_uses_Scope_Option_u8 uses__book__Book__use_at(struct uses__book__Book l1, rt_slice l2, rt_slice l3, uint64_t l4, uint8_t l5, struct uses__Scope l6);
static RT_HERE struct core__option__Option__rt_tuple2_uses_Scope_Option_u8 uses__book__Book__used_name(struct uses__book__Book l1, rt_slice l2, rt_slice l3, uint64_t l4, uint8_t l5, struct uses__Scope l6);
static RT_HERE struct core__result__Result__u64_NoProgram uses__book__Book__uses(struct uses__book__Book l1, rt_slice l2, rt_slice l3, rt_slice l4, rt_slice l5);
static RT_SHORT uint8_t uses__declared__Declarations__few_steps(struct uses__declared__Declarations l1, uint64_t l2);
static inline uint8_t uses__declared__Declarations__filled(struct uses__declared__Declarations l1, rt_slice l2);
static inline uint64_t uses__declared__Declarations__gather(struct uses__declared__Declarations l1, uint8_t l2, uint8_t l3, rt_slice l4);
static inline void uses__declared__Declarations__lay(struct uses__declared__Declarations l1, rt_slice l2);
static inline uint8_t uses__declared__Declarations__par_types(struct uses__declared__Declarations l1, rt_slice l2);
static inline void uses__declared__Declarations__rows(struct uses__declared__Declarations l1, uint8_t l2, rt_slice l3);
static inline uint64_t uses__declared__Declarations__step_names(struct uses__declared__Declarations l1, rt_slice l2);
static inline uint8_t uses__declared__Declarations__well(struct uses__declared__Declarations l1, rt_slice l2);
static inline uint64_t uses__declared__all(rt_slice l1, rt_slice l2);
static RT_SHORT uint8_t uses__declared__declares(uint8_t l1);
static RT_HERE struct core__option__Option__rt_tuple2_u8_u64 uses__looked__local(rt_slice l1, rt_slice l2, uint64_t l3, uint64_t l4);
static RT_HERE struct core__result__Result__u64_NoProgram uses__numbers(rt_slice l1, rt_slice l2, rt_slice l3, rt_slice l4, rt_slice l5);
static RT_HERE struct core__option__Option__rt_tuple2_uses_Scope_Option_u8 uses__parts__close(rt_slice l1, uint8_t l2, struct uses__Scope l3);
static RT_HERE struct core__option__Option__rt_tuple2_uses_Scope_Option_u8 uses__parts__close_if(rt_slice l1, struct uses__Scope l2);
static RT_HERE struct uses__Scope uses__parts__dued(struct uses__Scope l1, uint64_t l2);
static RT_HERE struct core__option__Option__rt_tuple2_uses_Scope_Option_u8 uses__parts__go_on(rt_slice l1, struct uses__Scope l2);
static RT_HERE struct core__option__Option__rt_tuple2_uses_Scope_Option_u8 uses__parts__kind_role(rt_slice l1, uint64_t l2, uint8_t l3, struct uses__Scope l4);
static RT_HERE struct uses__Scope uses__parts__lived(struct uses__Scope l1, uint64_t l2, uint64_t l3, uint64_t l4);
static RT_HERE struct core__option__Option__rt_tuple2_uses_Scope_Option_u8 uses__parts__of_type(struct core__option__Option__u32 l1, struct uses__Scope l2);
static RT_HERE struct core__option__Option__rt_tuple2_uses_Scope_Option_u8 uses__parts__open_if(rt_slice l1, struct uses__Scope l2);
static RT_HERE struct core__option__Option__rt_tuple2_uses_Scope_Option_u8 uses__parts__part_role(rt_slice l1, uint8_t l2, struct uses__Scope l3);
static inline uint8_t uses__pass__quiet(uint8_t l1);
static RT_HERE struct core__option__Option__rt_tuple2_uses_Scope_Option_u8 uses__passing__left(struct uses__Scope l1, struct core__option__Option__rt_tuple2_u8_u64 l2);
static inline void uses__passing__store(rt_slice l1, uint64_t l2, uint64_t l3, uint64_t l4, uint64_t l5);
static RT_SHORT uint8_t uses__passing__type_number(uint8_t l1);
static inline uint8_t uses__tabling__fill(rt_slice l1, rt_slice l2, rt_slice l3);

static inline struct core__result__Result__u32_OperatorError arithmetic__apply_bool(struct operators__Operator l1, uint8_t l2, uint8_t l3)
{
    struct core__result__Result__u32_OperatorError l0;
    struct core__option__Option__bool l4;
    struct core__option__Option__bool l5;
    uint8_t l8;
    uint8_t l11;
    uint8_t l14;
    uint8_t l17;
    switch (l1.tag) {
        case UINT8_C(0): {
            l8 = (uint8_t)(l2 == l3);
            l5.tag = UINT8_C(1);
            l5.s0 = l8;
            break;
        }
        case UINT8_C(1): {
            l11 = (uint8_t)(l2 != l3);
            l5.tag = UINT8_C(1);
            l5.s0 = l11;
            break;
        }
        case UINT8_C(11): {
            l14 = (uint8_t)((uint32_t)l2 & (uint32_t)l3);
            l5.tag = UINT8_C(1);
            l5.s0 = l14;
            break;
        }
        case UINT8_C(12): {
            l17 = (uint8_t)((uint32_t)l2 | (uint32_t)l3);
            l5.tag = UINT8_C(1);
            l5.s0 = l17;
            break;
        }
        case UINT8_C(2): case UINT8_C(3): case UINT8_C(4): case UINT8_C(5): case UINT8_C(6): case UINT8_C(7): case UINT8_C(8): case UINT8_C(9): case UINT8_C(10): default: {
            l5.tag = UINT8_C(0);
            break;
        }
    }
    l4 = l5;
    l0 = arithmetic__truth(l4);
    return l0;
}

static inline struct core__result__Result__u32_OperatorError arithmetic__apply_int(struct operators__Operator l1, uint32_t l2, uint32_t l3)
{
    struct core__result__Result__u32_OperatorError l0;
    uint64_t l4;
    uint64_t l5;
    uint8_t l6;
    uint8_t l13;
    uint64_t l28;
    struct core__ops__ControlFlow__ErrResidual_OperatorError_u64 l30;
    struct core__result__Result__u64_OperatorError l31;
    struct core__ops__ControlFlow__ErrResidual_OperatorError_u64 l37;
    struct core__result__Result__u64_OperatorError l38;
    uint64_t l45;
    uint64_t l48;
    struct operators__OperatorError l49;
    uint32_t l50;
    l4 = arithmetic__int_of(l2);
    l5 = arithmetic__int_of(l3);
    switch (l1.tag) {
        case UINT8_C(0): {
            l13 = (uint8_t)(l4 == l5);
            break;
        }
        case UINT8_C(1): {
            l13 = (uint8_t)(l4 != l5);
            break;
        }
        case UINT8_C(2): {
            l13 = (uint8_t)((uint64_t)(l4 ^ UINT64_C(9223372036854775808)) <= (uint64_t)(l5 ^ UINT64_C(9223372036854775808)));
            break;
        }
        case UINT8_C(3): {
            l13 = (uint8_t)((uint64_t)(l5 ^ UINT64_C(9223372036854775808)) <= (uint64_t)(l4 ^ UINT64_C(9223372036854775808)));
            break;
        }
        case UINT8_C(4): {
            l13 = (uint8_t)((uint64_t)(l4 ^ UINT64_C(9223372036854775808)) < (uint64_t)(l5 ^ UINT64_C(9223372036854775808)));
            break;
        }
        case UINT8_C(5): {
            l13 = (uint8_t)((uint64_t)(l5 ^ UINT64_C(9223372036854775808)) < (uint64_t)(l4 ^ UINT64_C(9223372036854775808)));
            break;
        }
        case UINT8_C(6): {
            l28 = (uint64_t)((uint64_t)l4 * (uint64_t)l5);
            l0 = arithmetic__int_answer(l28);
            return l0;
            break;
        }
        case UINT8_C(7): {
            l31 = arithmetic__quotient_of(l4, l5);
            l30 = core__result__ResultTry__branch__u64_OperatorError(l31);
            switch (l30.tag) {
                case UINT8_C(0): {
                    break;
                }
                case UINT8_C(1): default: {
                    l0 = core__result__ResultFromResidualErrResidual__from_resi_153600e2(l30.s1);
                    return l0;
                    break;
                }
            }
            l0 = arithmetic__int_answer(l30.s0);
            return l0;
            break;
        }
        case UINT8_C(8): {
            l38 = arithmetic__remainder_of(l4, l5);
            l37 = core__result__ResultTry__branch__u64_OperatorError(l38);
            switch (l37.tag) {
                case UINT8_C(0): {
                    break;
                }
                case UINT8_C(1): default: {
                    l0 = core__result__ResultFromResidualErrResidual__from_resi_153600e2(l37.s1);
                    return l0;
                    break;
                }
            }
            l0 = arithmetic__int_answer(l37.s0);
            return l0;
            break;
        }
        case UINT8_C(9): {
            l45 = (uint64_t)((uint64_t)l4 + (uint64_t)l5);
            l0 = arithmetic__int_answer(l45);
            return l0;
            break;
        }
        case UINT8_C(10): {
            l48 = (uint64_t)((uint64_t)l4 - (uint64_t)l5);
            l0 = arithmetic__int_answer(l48);
            return l0;
            break;
        }
        case UINT8_C(11): case UINT8_C(12): default: {
            l49.tag = UINT8_C(1);
            l0.tag = UINT8_C(1);
            l0.s1 = l49;
            return l0;
            break;
        }
    }
    l6 = l13;
    l50 = core__convert__others__U32FromBool__from(l6);
    l0.tag = UINT8_C(0);
    l0.s0 = l50;
    return l0;
}

static RT_SHORT struct core__result__Result__u32_OperatorError arithmetic__apply_label(struct operators__Operator l1, uint32_t l2, uint32_t l3)
{
    struct core__result__Result__u32_OperatorError l0;
    struct core__option__Option__bool l4;
    struct core__option__Option__bool l5;
    uint8_t l8;
    uint8_t l11;
    switch (l1.tag) {
        case UINT8_C(0): {
            l8 = (uint8_t)(l2 == l3);
            l5.tag = UINT8_C(1);
            l5.s0 = l8;
            break;
        }
        case UINT8_C(1): {
            l11 = (uint8_t)(l2 != l3);
            l5.tag = UINT8_C(1);
            l5.s0 = l11;
            break;
        }
        case UINT8_C(2): case UINT8_C(3): case UINT8_C(4): case UINT8_C(5): case UINT8_C(6): case UINT8_C(7): case UINT8_C(8): case UINT8_C(9): case UINT8_C(10): case UINT8_C(11): case UINT8_C(12): default: {
            l5.tag = UINT8_C(0);
            break;
        }
    }
    l4 = l5;
    l0 = arithmetic__truth(l4);
    return l0;
}

static inline struct core__result__Result__u32_OperatorError arithmetic__apply_nat(struct operators__Operator l1, uint32_t l2, uint32_t l3)
{
    struct core__result__Result__u32_OperatorError l0;
    uint8_t l4;
    uint8_t l5;
    struct core__option__Option__u32 l6;
    struct operators__OperatorError l7;
    struct core__option__Option__u32 l8;
    struct operators__OperatorError l9;
    struct core__option__Option__u32 l10;
    struct operators__OperatorError l11;
    struct core__option__Option__u32 l12;
    struct operators__OperatorError l13;
    struct core__option__Option__u32 l14;
    struct operators__OperatorError l15;
    struct operators__OperatorError l16;
    uint32_t l17;
    switch (l1.tag) {
        case UINT8_C(0): {
            l5 = (uint8_t)(l2 == l3);
            break;
        }
        case UINT8_C(1): {
            l5 = (uint8_t)(l2 != l3);
            break;
        }
        case UINT8_C(2): {
            l5 = (uint8_t)(l2 <= l3);
            break;
        }
        case UINT8_C(3): {
            l5 = (uint8_t)(l3 <= l2);
            break;
        }
        case UINT8_C(4): {
            l5 = (uint8_t)(l2 < l3);
            break;
        }
        case UINT8_C(5): {
            l5 = (uint8_t)(l3 < l2);
            break;
        }
        case UINT8_C(6): {
            l6 = core__int__checked__u32__checked_mul(l2, l3);
            l7.tag = UINT8_C(0);
            l0 = core__option__Option__ok_or__u32_OperatorError(l6, l7);
            return l0;
            break;
        }
        case UINT8_C(7): {
            l8 = core__int__checked__u32__checked_div(l2, l3);
            l9.tag = UINT8_C(0);
            l0 = core__option__Option__ok_or__u32_OperatorError(l8, l9);
            return l0;
            break;
        }
        case UINT8_C(8): {
            l10 = core__int__checked__u32__checked_rem(l2, l3);
            l11.tag = UINT8_C(0);
            l0 = core__option__Option__ok_or__u32_OperatorError(l10, l11);
            return l0;
            break;
        }
        case UINT8_C(9): {
            l12 = core__int__checked__u32__checked_add(l2, l3);
            l13.tag = UINT8_C(0);
            l0 = core__option__Option__ok_or__u32_OperatorError(l12, l13);
            return l0;
            break;
        }
        case UINT8_C(10): {
            l14 = core__int__checked__u32__checked_sub(l2, l3);
            l15.tag = UINT8_C(0);
            l0 = core__option__Option__ok_or__u32_OperatorError(l14, l15);
            return l0;
            break;
        }
        case UINT8_C(11): case UINT8_C(12): default: {
            l16.tag = UINT8_C(1);
            l0.tag = UINT8_C(1);
            l0.s1 = l16;
            return l0;
            break;
        }
    }
    l4 = l5;
    l17 = core__convert__others__U32FromBool__from(l4);
    l0.tag = UINT8_C(0);
    l0.s0 = l17;
    return l0;
}

static RT_SHORT struct core__result__Result__u32_OperatorError arithmetic__apply_word(uint8_t l1, uint8_t l2, uint32_t l3, uint32_t l4)
{
    struct core__result__Result__u32_OperatorError l0;
    struct operators__Operator l5;
    struct core__result__Result__u32_OperatorError l6;
    uint8_t l7;
    uint8_t l8;
    l5 = operators__OperatorFromU8__from(l1);
    switch (l2) {
        case UINT8_C(0): {
            l6 = arithmetic__apply_int(l5, l3, l4);
            break;
        }
        case UINT8_C(1): {
            l6 = arithmetic__apply_nat(l5, l3, l4);
            break;
        }
        case UINT8_C(2): {
            l7 = (uint8_t)(l3 == UINT32_C(1));
            l8 = (uint8_t)(l4 == UINT32_C(1));
            l6 = arithmetic__apply_bool(l5, l7, l8);
            break;
        }
        default: {
            l6 = arithmetic__apply_label(l5, l3, l4);
            break;
        }
    }
    l0 = l6;
    return l0;
}

static RT_SHORT struct core__result__Result__u32_OperatorError arithmetic__int_answer(uint64_t l1)
{
    struct core__result__Result__u32_OperatorError l0;
    struct core__result__Result__u32_TryFromIntError l3;
    struct operators__OperatorError l4;
    uint32_t l5;
    l3 = core__convert__try_from__AnyTryFrom__try_from__u64_u32(l1);
    switch (l3.tag) {
        case UINT8_C(0): {
            break;
        }
        case UINT8_C(1): default: {
            l4.tag = UINT8_C(0);
            l0.tag = UINT8_C(1);
            l0.s1 = l4;
            return l0;
            break;
        }
    }
    l5 = core__int__i32__cast_unsigned(l3.s0);
    l0.tag = UINT8_C(0);
    l0.s0 = l5;
    return l0;
}

static RT_SHORT uint64_t arithmetic__int_of(uint32_t l1)
{
    uint64_t l0;
    uint32_t l2;
    l2 = core__int__u32__cast_signed(l1);
    l0 = core__convert__I64FromI32__from(l2);
    return l0;
}

static RT_HERE struct core__result__Result__u64_OperatorError arithmetic__quotient_of(uint64_t l1, uint64_t l2)
{
    struct core__result__Result__u64_OperatorError l0;
    uint8_t l3;
    struct operators__OperatorError l4;
    uint64_t l5;
    uint64_t l6;
    uint64_t l7;
    uint64_t l8;
    l3 = (uint8_t)(l2 == UINT64_C(0));
    if (l3) {
        l4.tag = UINT8_C(0);
        l0.tag = UINT8_C(1);
        l0.s1 = l4;
        return l0;
    }
    l3 = (uint8_t)((uint64_t)(l2 ^ UINT64_C(9223372036854775808)) < (uint64_t)(UINT64_C(0) ^ UINT64_C(9223372036854775808)));
    if (l3) {
        l6 = (uint64_t)((uint64_t)UINT64_C(0) - (uint64_t)l1);
        l7 = (uint64_t)((uint64_t)UINT64_C(0) - (uint64_t)l2);
        l5 = core__int__i64__div_euclid(l6, l7);
        l0.tag = UINT8_C(0);
        l0.s0 = l5;
        return l0;
    }
    l8 = core__int__i64__div_euclid(l1, l2);
    l0.tag = UINT8_C(0);
    l0.s0 = l8;
    return l0;
}

static RT_HERE struct core__result__Result__u64_OperatorError arithmetic__remainder_of(uint64_t l1, uint64_t l2)
{
    struct core__result__Result__u64_OperatorError l0;
    struct core__ops__ControlFlow__ErrResidual_OperatorError_u64 l8;
    struct core__result__Result__u64_OperatorError l9;
    uint64_t l14;
    uint64_t l15;
    l9 = arithmetic__quotient_of(l1, l2);
    l8 = core__result__ResultTry__branch__u64_OperatorError(l9);
    switch (l8.tag) {
        case UINT8_C(0): {
            break;
        }
        case UINT8_C(1): default: {
            l0 = core__result__ResultFromResidualErrResidual__from_resi_8fddf8e3(l8.s1);
            return l0;
            break;
        }
    }
    l14 = (uint64_t)((uint64_t)l2 * (uint64_t)l8.s0);
    l15 = (uint64_t)((uint64_t)l1 - (uint64_t)l14);
    l0.tag = UINT8_C(0);
    l0.s0 = l15;
    return l0;
}

static RT_SHORT struct core__result__Result__u32_OperatorError arithmetic__truth(struct core__option__Option__bool l1)
{
    struct core__result__Result__u32_OperatorError l0;
    struct core__result__Result__u32_OperatorError l3;
    uint32_t l4;
    struct operators__OperatorError l5;
    switch (l1.tag) {
        case UINT8_C(1): {
            l4 = core__convert__others__U32FromBool__from(l1.s0);
            l3.tag = UINT8_C(0);
            l3.s0 = l4;
            break;
        }
        case UINT8_C(0): default: {
            l5.tag = UINT8_C(1);
            l3.tag = UINT8_C(1);
            l3.s1 = l5;
            break;
        }
    }
    l0 = l3;
    return l0;
}

static RT_WITHIN struct audala__Answer audala__AnswerFromVerdict__from(struct checker__Verdict l1)
{
    struct audala__Answer l0;
    uint32_t l2;
    uint32_t l3;
    uint32_t l4;
    uint32_t l5;
    uint32_t l6;
    l2 = core__convert__U32FromU8__from(l1.f0);
    l3 = core__convert__U32FromU8__from(l1.f1);
    l4 = core__convert__U32FromU8__from(l1.f2);
    l5 = core__convert__U32FromU16__from(l1.f3);
    l6 = core__convert__U32FromU8__from(l1.f4);
    l0.f0 = l2;
    l0.f1 = l3;
    l0.f2 = l4;
    l0.f3 = l5;
    l0.f4 = l6;
    return l0;
}

static RT_WITHIN struct audala__Report audala__ReportFromRun_imagesReport__from(struct run_images__Report l1)
{
    struct audala__Report l0;
    uint32_t l2;
    uint32_t l3;
    uint32_t l4;
    uint32_t l5;
    l2 = core__convert__U32FromU8__from(l1.f0);
    l3 = core__convert__U32FromU8__from(l1.f2);
    l4 = core__convert__U32FromU8__from(l1.f3);
    l5 = core__convert__U32FromU16__from(l1.f4);
    l0.f0 = l2;
    l0.f1 = l1.f1;
    l0.f2 = l3;
    l0.f3 = l4;
    l0.f4 = l5;
    return l0;
}

static RT_HERE struct audala__Answer audala__audala_check(rt_slice l1, rt_slice l2)
{
    struct audala__Answer l0;
    struct checker__Verdict l3;
    uint8_t *l4;
    rt_slice l5;
    l4 = (uint8_t *)&(*(uint64_t *)l2.p);
    l5.p = l4;
    l5.n = l2.n;
    l3 = checker__check(l1, l5);
    {
        struct audala__Answer r = audala__AnswerFromVerdict__from(l3);
        l0.f0 = r.f0;
        l0.f1 = r.f1;
        l0.f2 = r.f2;
        l0.f3 = r.f3;
        l0.f4 = r.f4;
    }
    return l0;
}

static RT_HERE struct audala__Report audala__audala_run(rt_slice l1, rt_slice l2, rt_slice l3, rt_slice l4, rt_slice l5)
{
    struct audala__Report l0;
    struct run_images__Report l6;
    uint8_t *l7;
    rt_slice l8;
    uint8_t *l9;
    rt_slice l10;
    l7 = (uint8_t *)&(*(uint8_t *)l4.p);
    l8.p = l7;
    l8.n = l4.n;
    l9 = (uint8_t *)&(*(uint64_t *)l5.p);
    l10.p = l9;
    l10.n = l5.n;
    l6 = run_images__run(l1, l2, l3, l8, l10);
    {
        struct audala__Report r = audala__ReportFromRun_imagesReport__from(l6);
        l0.f0 = r.f0;
        l0.f1 = r.f1;
        l0.f2 = r.f2;
        l0.f3 = r.f3;
        l0.f4 = r.f4;
    }
    return l0;
}

static RT_HERE struct audala__Part audala__audala_step(rt_slice l1, rt_slice l2, uint8_t l3, uint8_t l4)
{
    struct audala__Part l0;
    struct step_part__Spot l5;
    uint32_t l6;
    uint32_t l7;
    uint32_t l8;
    l5 = step_part__step_place(l1, l2, l3, l4);
    l6 = core__convert__U32FromU8__from(l5.f0);
    l7 = (uint32_t)l5.f1;
    l8 = (uint32_t)l5.f2;
    l0.f0 = l6;
    l0.f1 = l7;
    l0.f2 = l8;
    return l0;
}

static RT_HERE struct audala__images__Copied audala__images__Copied__done(uint64_t l1)
{
    struct audala__images__Copied l0;
    l0.f0 = UINT32_C(0);
    l0.f1 = l1;
    return l0;
}

static RT_WITHIN struct audala__images__Copied audala__images__CopiedFromRefusal__from(struct types__refusal__Refusal l1)
{
    struct audala__images__Copied l0;
    uint32_t l2;
    uint8_t l3;
    l3 = types__refusal__U8FromRefusal__from(l1);
    l2 = core__convert__U32FromU8__from(l3);
    l0.f0 = l2;
    l0.f1 = UINT64_C(0);
    return l0;
}

static RT_WITHIN struct audala__images__Copied audala__images__CopiedFromResultUsizeReadError__from(struct core__result__Result__u64_ReadError l1)
{
    struct audala__images__Copied l0;
    struct audala__images__Copied l4;
    struct types__refusal__Refusal l5;
    struct types__refusal__Refusal l6;
    switch (l1.tag) {
        case UINT8_C(0): {
            l4 = audala__images__Copied__done(l1.s0);
            break;
        }
        case UINT8_C(1): default: {
            switch (l1.s1.tag) {
                case UINT8_C(0): {
                    l5 = blocks__program_number(l1.s1.s0);
                    l4 = audala__images__CopiedFromRefusal__from(l5);
                    break;
                }
                case UINT8_C(1): default: {
                    l6.tag = UINT8_C(12);
                    l4 = audala__images__CopiedFromRefusal__from(l6);
                    break;
                }
            }
            break;
        }
    }
    l0.f0 = l4.f0;
    l0.f1 = l4.f1;
    return l0;
}

static RT_WITHIN struct audala__images__Copied audala__images__CopiedFromResultUsizeWriteError__from(struct core__result__Result__u64_WriteError l1)
{
    struct audala__images__Copied l0;
    struct audala__images__Copied l3;
    struct types__refusal__Refusal l4;
    struct types__refusal__Refusal l5;
    switch (l1.tag) {
        case UINT8_C(0): {
            l3 = audala__images__Copied__done(l1.s0);
            break;
        }
        case UINT8_C(1): default: {
            switch (l1.s1.tag) {
                case UINT8_C(0): {
                    l4.tag = UINT8_C(0);
                    l3 = audala__images__CopiedFromRefusal__from(l4);
                    break;
                }
                case UINT8_C(1): default: {
                    l5.tag = UINT8_C(12);
                    l3 = audala__images__CopiedFromRefusal__from(l5);
                    break;
                }
            }
            break;
        }
    }
    l0.f0 = l3.f0;
    l0.f1 = l3.f1;
    return l0;
}

static RT_HERE struct audala__images__Copied audala__images__audala_read_image(rt_slice l1, uint64_t l2, rt_slice l3)
{
    struct audala__images__Copied l0;
    struct core__result__Result__u64_ReadError l4;
    uint8_t *l5;
    rt_slice l6;
    l5 = (uint8_t *)&(*(uint8_t *)l3.p);
    l6.p = l5;
    l6.n = l3.n;
    l4 = blocks__read_image(l1, l2, l6);
    l0 = audala__images__CopiedFromResultUsizeReadError__from(l4);
    return l0;
}

static RT_HERE struct audala__images__Copied audala__images__audala_write_image(rt_slice l1, uint64_t l2, rt_slice l3)
{
    struct audala__images__Copied l0;
    struct core__result__Result__u64_WriteError l4;
    uint8_t *l5;
    rt_slice l6;
    l5 = (uint8_t *)&(*(uint8_t *)l3.p);
    l6.p = l5;
    l6.n = l3.n;
    l4 = blocks__write_image(l1, l2, l6);
    l0 = audala__images__CopiedFromResultUsizeWriteError__from(l4);
    return l0;
}

static RT_HERE struct audala__images__Copied audala__listings__audala_listing(rt_slice l1, rt_slice l2)
{
    struct audala__images__Copied l0;
    uint64_t l3;
    uint8_t l4;
    struct types__refusal__Refusal l5;
    uint8_t *l6;
    rt_slice l7;
    l3 = l2.n;
    l4 = (uint8_t)(l3 < UINT64_C(131072));
    if (l4) {
        l5.tag = UINT8_C(12);
        l0 = audala__images__CopiedFromRefusal__from(l5);
        return l0;
    }
    l6 = (uint8_t *)&(*(uint8_t *)l2.p);
    l7.p = l6;
    l7.n = l2.n;
    l3 = listing__image__listing(l1, l7);
    l0 = audala__images__Copied__done(l3);
    return l0;
}

static RT_SHORT struct audala__places__Stopped audala__places__audala_place(rt_slice l1)
{
    struct audala__places__Stopped l0;
    uint64_t l2;
    l2 = text_place__place(l1);
    l0.f0 = l2;
    return l0;
}

static RT_WITHIN struct audala__tallies__Counts audala__tallies__CountsFromCount_imagesCounts__from(struct count_images__Counts l1)
{
    struct audala__tallies__Counts l0;
    uint32_t l2;
    l2 = core__convert__U32FromU8__from(l1.f0);
    l0.f0 = l2;
    l0.f1 = l1.f1;
    l0.f2 = l1.f2;
    l0.f3 = l1.f3;
    return l0;
}

static RT_HERE struct audala__tallies__Counts audala__tallies__audala_count(rt_slice l1, rt_slice l2, uint32_t l3, uint32_t l4, uint32_t l5, rt_slice l6)
{
    struct audala__tallies__Counts l0;
    struct count_images__Counts l7;
    uint8_t *l8;
    rt_slice l9;
    l8 = (uint8_t *)&(*(uint64_t *)l6.p);
    l9.p = l8;
    l9.n = l6.n;
    l7 = count_images__count(l1, l2, l3, l4, l5, l9);
    l0 = audala__tallies__CountsFromCount_imagesCounts__from(l7);
    return l0;
}

static RT_WITHIN struct audala__images__Copied audala__texts__CopiedFromRead_textAnswer__from(struct read_text__Answer l1)
{
    struct audala__images__Copied l0;
    uint64_t l2;
    l2 = (uint64_t)l1.f1;
    l0.f0 = l1.f0;
    l0.f1 = l2;
    return l0;
}

static RT_HERE struct audala__images__Copied audala__texts__audala_text(rt_slice l1, rt_slice l2)
{
    struct audala__images__Copied l0;
    struct read_text__Answer l3;
    uint8_t *l4;
    rt_slice l5;
    l4 = (uint8_t *)&(*(uint8_t *)l2.p);
    l5.p = l4;
    l5.n = l2.n;
    l3 = read_text__read(l1, l5);
    l0 = audala__texts__CopiedFromRead_textAnswer__from(l3);
    return l0;
}

static RT_WITHIN struct audala__traces__Traced audala__traces__TracedFromTrace_imagesTraced__from(struct trace_images__Traced l1)
{
    struct audala__traces__Traced l0;
    uint32_t l2;
    l2 = core__convert__U32FromU8__from(l1.f0);
    l0.f0 = l2;
    l0.f1 = l1.f1;
    l0.f2 = l1.f2;
    l0.f3 = l1.f3;
    return l0;
}

static RT_HERE struct audala__traces__Traced audala__traces__audala_trace(rt_slice l1, rt_slice l2, rt_slice l3, uint64_t l4, rt_slice l5)
{
    struct audala__traces__Traced l0;
    struct trace_images__Traced l6;
    uint8_t *l8;
    rt_slice l9;
    l8 = (uint8_t *)&(*(uint8_t *)l5.p);
    l9.p = l8;
    l9.n = l5.n;
    l6 = trace_images__trace(l1, l2, l3, l4, l9);
    {
        struct audala__traces__Traced r = audala__traces__TracedFromTrace_imagesTraced__from(l6);
        l0.f0 = r.f0;
        l0.f1 = r.f1;
        l0.f2 = r.f2;
        l0.f3 = r.f3;
    }
    return l0;
}

static inline struct core__option__Option__Fault block__block_fault(rt_slice l1, uint64_t l2, uint8_t l3)
{
    struct core__option__Option__Fault l0;
    uint8_t l4;
    uint8_t l5;
    struct block__Fault l6;
    struct block__Fault l7;
    l4 = block__sums_right(l1);
    l5 = (uint8_t)!l4;
    if (l5) {
        l6.tag = UINT8_C(1);
        l0.tag = UINT8_C(1);
        l0.s0 = l6;
        return l0;
    }
    l4 = block__laid_out(l1, l2, l3);
    l5 = (uint8_t)!l4;
    if (l5) {
        l7.tag = UINT8_C(2);
        l0.tag = UINT8_C(1);
        l0.s0 = l7;
        return l0;
    }
    l0.tag = UINT8_C(0);
    return l0;
}

static RT_SHORT uint8_t block__filled(rt_slice l1, uint8_t l2)
{
    uint8_t l0;
    uint64_t l3;
    uint8_t l4;
    uint64_t l5;
    uint8_t *l6;
    uint64_t l7;
    uint8_t *l8;
    rt_slice l9;
    l3 = little_endian__pair_at(l1, UINT64_C(2));
    l4 = block__used_right(l2, l3);
    if (l4) {
        l5 = (uint64_t)((uint64_t)UINT64_C(4) + (uint64_t)l3);
        l6 = l1.p + (size_t)l5;
        l7 = (uint64_t)((uint64_t)UINT64_C(508) - (uint64_t)l5);
        l8 = (uint8_t *)&(*(uint8_t *)l6);
        l9.p = l8;
        l9.n = l7;
        l4 = block__zeros(l9);
    }
    l0 = l4;
    return l0;
}

static RT_WITHIN uint8_t block__fn__zeros__all(uint8_t *l1, uint8_t *l2)
{
    uint8_t l0;
    uint8_t l3;
    (void)l1;
    l3 = (*(uint8_t *)l2);
    l0 = (uint8_t)(l3 == UINT8_C(0));
    return l0;
}

static RT_WITHIN uint8_t block__fn__zeros__all_FnMut__call_mut(uint8_t *l1, uint8_t *l2)
{
    uint8_t l0;
    uint8_t *l3;
    l3 = (uint8_t *)&(*(struct block__fn__zeros__all_Self *)l1);
    l0 = block__fn__zeros__all(l3, l2);
    return l0;
}

static RT_SHORT uint8_t block__laid_out(rt_slice l1, uint64_t l2, uint8_t l3)
{
    uint8_t l0;
    uint8_t l4;
    uint64_t l5;
    l5 = little_endian__pair_at(l1, UINT64_C(0));
    l4 = (uint8_t)(l5 == l2);
    if (l4) {
        l4 = block__filled(l1, l3);
    }
    l0 = l4;
    return l0;
}

static RT_HERE rt_slice block__payload(rt_slice l1, uint64_t l2)
{
    rt_slice l0;
    uint64_t l3;
    uint8_t *l4;
    uint64_t l5;
    uint8_t *l6;
    l3 = (uint64_t)((uint64_t)UINT64_C(4) + (uint64_t)l2);
    l4 = l1.p + (size_t)UINT64_C(4);
    l5 = (uint64_t)((uint64_t)l3 - (uint64_t)UINT64_C(4));
    l6 = (uint8_t *)&(*(uint8_t *)l4);
    l0.p = l6;
    l0.n = l5;
    return l0;
}

static inline void block__put__copy(rt_slice l1, uint64_t l2, rt_slice l3)
{
    uint64_t l4;
    uint8_t l6;
    uint8_t *l7;
    uint8_t l8;
    uint64_t l9;
    uint8_t *l10;
    l4 = UINT64_C(0);
    for (;;) {
        l6 = (uint8_t)(l4 < l3.n);
        if (l6) {
        } else {
            goto end1;
        }
        l7 = l3.p + (size_t)l4;
        l8 = (*(uint8_t *)l7);
        l9 = (uint64_t)((uint64_t)l2 + (uint64_t)l4);
        l10 = l1.p + (size_t)l9;
        (*(uint8_t *)l10) = l8;
        l4 = (uint64_t)((uint64_t)l4 + (uint64_t)UINT64_C(1));
    }
end1:;
    return;
}

static RT_SHORT void block__put__zeros(rt_slice l1, uint64_t l2, uint64_t l3)
{
    uint64_t l5;
    uint8_t *l6;
    uint64_t l7;
    uint8_t *l8;
    rt_slice l9;
    l5 = (uint64_t)((uint64_t)l2 + (uint64_t)l3);
    l6 = l1.p + (size_t)l2;
    l7 = (uint64_t)((uint64_t)l5 - (uint64_t)l2);
    l8 = (uint8_t *)&(*(uint8_t *)l6);
    l9.p = l8;
    l9.n = l7;
    core__slice__edits__slice_T__fill__u8(l9, UINT8_C(0));
    return;
}

static inline struct block__Both block__sums(rt_slice l1)
{
    struct block__Both l0;
    uint16_t l2;
    uint16_t l3;
    uint64_t l5;
    uint8_t *l6;
    rt_slice l7;
    uint8_t *l8;
    uint8_t l10;
    uint8_t *l11;
    uint16_t l12;
    uint8_t l13;
    l2 = UINT16_C(0);
    l3 = UINT16_C(0);
    l8 = (uint8_t *)&(*(uint8_t *)l1.p);
    l7.p = l8;
    l7.n = UINT64_C(508);
    l5 = UINT64_C(0);
    for (;;) {
        l10 = (uint8_t)(l5 < l7.n);
        if (l10) {
        } else {
            goto end1;
        }
        l11 = l7.p + (size_t)l5;
        l6 = (uint8_t *)&(*(uint8_t *)l11);
        l13 = (*(uint8_t *)l6);
        l12 = core__convert__U16FromU8__from(l13);
        l2 = (uint16_t)((uint32_t)l2 + (uint32_t)l12);
        l3 = (uint16_t)((uint32_t)l3 + (uint32_t)l2);
        l5 = (uint64_t)((uint64_t)l5 + (uint64_t)UINT64_C(1));
    }
end1:;
    l0.f0 = l2;
    l0.f1 = l3;
    return l0;
}

static RT_SHORT uint8_t block__sums_right(rt_slice l1)
{
    uint8_t l0;
    struct block__Both l2;
    uint8_t l3;
    uint64_t l4;
    uint64_t l5;
    uint64_t l6;
    uint64_t l7;
    l2 = block__sums(l1);
    l4 = little_endian__pair_at(l1, UINT64_C(508));
    l5 = core__convert__UsizeFromU16__from(l2.f0);
    l3 = (uint8_t)(l4 == l5);
    if (l3) {
        l6 = little_endian__pair_at(l1, UINT64_C(510));
        l7 = core__convert__UsizeFromU16__from(l2.f1);
        l3 = (uint8_t)(l6 == l7);
    }
    l0 = l3;
    return l0;
}

static RT_SHORT uint8_t block__used_right(uint8_t l1, uint64_t l2)
{
    uint8_t l0;
    uint8_t l4;
    uint8_t l5;
    if (l1) {
        l5 = (uint8_t)(UINT64_C(1) <= l2);
        if (l5) {
            l5 = (uint8_t)(l2 <= UINT64_C(504));
        }
        l4 = l5;
    } else {
        l4 = (uint8_t)(l2 == UINT64_C(504));
    }
    l0 = l4;
    return l0;
}

static inline void block__writing__put_block(rt_slice l1, uint64_t l2, uint64_t l3, rt_slice l4)
{
    uint64_t l5;
    struct block__Both l6;
    uint8_t *l8;
    rt_slice l9;
    uint8_t *l10;
    uint64_t l11;
    uint8_t *l12;
    rt_slice l13;
    uint8_t *l14;
    rt_slice l15;
    uint8_t *l16;
    rt_slice l17;
    uint64_t l18;
    l8 = (uint8_t *)&(*(uint8_t *)l1.p);
    l9.p = l8;
    l9.n = l1.n;
    block__writing__put_front(l9, l2, l3, l4);
    l5 = (uint64_t)((uint64_t)l2 + (uint64_t)UINT64_C(508));
    l10 = l1.p + (size_t)l2;
    l11 = (uint64_t)((uint64_t)l5 - (uint64_t)l2);
    l12 = (uint8_t *)&(*(uint8_t *)l10);
    l13.p = l12;
    l13.n = l11;
    l6 = block__sums(l13);
    l14 = (uint8_t *)&(*(uint8_t *)l1.p);
    l15.p = l14;
    l15.n = l1.n;
    l11 = core__convert__UsizeFromU16__from(l6.f0);
    little_endian__put_pair(l15, l5, l11);
    l16 = (uint8_t *)&(*(uint8_t *)l1.p);
    l17.p = l16;
    l17.n = l1.n;
    l11 = (uint64_t)((uint64_t)l5 + (uint64_t)UINT64_C(2));
    l18 = core__convert__UsizeFromU16__from(l6.f1);
    little_endian__put_pair(l17, l11, l18);
    return;
}

static inline void block__writing__put_front(rt_slice l1, uint64_t l2, uint64_t l3, rt_slice l4)
{
    uint8_t *l7;
    rt_slice l8;
    uint8_t *l9;
    rt_slice l10;
    uint64_t l11;
    uint8_t *l12;
    rt_slice l13;
    uint8_t *l14;
    rt_slice l15;
    uint64_t l16;
    uint64_t l17;
    l7 = (uint8_t *)&(*(uint8_t *)l1.p);
    l8.p = l7;
    l8.n = l1.n;
    little_endian__put_pair(l8, l2, l3);
    l9 = (uint8_t *)&(*(uint8_t *)l1.p);
    l10.p = l9;
    l10.n = l1.n;
    l11 = (uint64_t)((uint64_t)l2 + (uint64_t)UINT64_C(2));
    little_endian__put_pair(l10, l11, l4.n);
    l12 = (uint8_t *)&(*(uint8_t *)l1.p);
    l13.p = l12;
    l13.n = l1.n;
    l11 = (uint64_t)((uint64_t)l2 + (uint64_t)UINT64_C(4));
    block__put__copy(l13, l11, l4);
    l14 = (uint8_t *)&(*(uint8_t *)l1.p);
    l15.p = l14;
    l15.n = l1.n;
    l11 = (uint64_t)((uint64_t)l2 + (uint64_t)UINT64_C(4));
    l16 = (uint64_t)((uint64_t)l11 + (uint64_t)l4.n);
    l17 = (uint64_t)((uint64_t)UINT64_C(504) - (uint64_t)l4.n);
    block__put__zeros(l15, l16, l17);
    return;
}

static RT_SHORT uint8_t block__zeros(rt_slice l1)
{
    uint8_t l0;
    struct core__iter__slices__Iter__u8 l2;
    struct core__iter__slices__Iter__u8 l3;
    uint8_t *l4;
    struct block__fn__zeros__all_Self l5;
    l2 = core__iter__slices__slice_T__iter__u8(l1);
    l3.f0 = l2.f0;
    l4 = (uint8_t *)&l3;
    l5.none = 0;
    l0 = core__iter__base__Iterator__all__Iter_u8_ref_u8_all_Self(l4, l5);
    return l0;
}

static RT_SHORT struct core__option__Option__Fault blocks__image_fault(rt_slice l1, uint64_t l2)
{
    struct core__option__Option__Fault l0;
    uint8_t l3;
    uint64_t l4;
    uint8_t l5;
    struct block__Fault l6;
    uint64_t l7;
    l4 = l1.n;
    l3 = blocks__reading__length_right(l4, l2);
    l5 = (uint8_t)!l3;
    if (l5) {
        l6.tag = UINT8_C(0);
        l0.tag = UINT8_C(1);
        l0.s0 = l6;
        return l0;
    }
    l4 = l1.n;
    l7 = (uint64_t)((uint64_t)l4 / (uint64_t)UINT64_C(512));
    l0 = blocks__reading__first_fault(l1, l7);
    return l0;
}

static RT_HERE struct core__result__Result__u64_Fault blocks__open_image(rt_slice l1, uint64_t l2, rt_slice l3)
{
    struct core__result__Result__u64_Fault l0;
    struct core__result__Result__u64_ReadError l6;
    uint8_t *l7;
    rt_slice l8;
    struct core__result__Result__u64_Fault l9;
    struct block__Fault l10;
    l7 = (uint8_t *)&(*(uint8_t *)l3.p);
    l8.p = l7;
    l8.n = l3.n;
    l6 = blocks__read_image(l1, l2, l8);
    switch (l6.tag) {
        case UINT8_C(0): {
            l9.tag = UINT8_C(0);
            l9.s0 = l6.s0;
            break;
        }
        case UINT8_C(1): default: {
            switch (l6.s1.tag) {
                case UINT8_C(0): {
                    l9.tag = UINT8_C(1);
                    l9.s1 = l6.s1.s0;
                    break;
                }
                case UINT8_C(1): default: {
                    l10.tag = UINT8_C(0);
                    l9.tag = UINT8_C(1);
                    l9.s1 = l10;
                    break;
                }
            }
            break;
        }
    }
    l0 = l9;
    return l0;
}

static RT_SHORT struct types__refusal__Refusal blocks__program_number(struct block__Fault l1)
{
    struct types__refusal__Refusal l0;
    struct types__refusal__Refusal l2;
    switch (l1.tag) {
        case UINT8_C(0): {
            l2.tag = UINT8_C(0);
            break;
        }
        case UINT8_C(1): {
            l2.tag = UINT8_C(1);
            break;
        }
        case UINT8_C(2): default: {
            l2.tag = UINT8_C(2);
            break;
        }
    }
    l0 = l2;
    return l0;
}

static RT_HERE struct core__result__Result__u64_ReadError blocks__read_image(rt_slice l1, uint64_t l2, rt_slice l3)
{
    struct core__result__Result__u64_ReadError l0;
    uint64_t l5;
    uint64_t l6;
    struct core__option__Option__Fault l7;
    struct blocks__ReadError l8;
    uint64_t l9;
    uint8_t l10;
    struct blocks__ReadError l11;
    uint8_t *l13;
    rt_slice l14;
    l7 = blocks__image_fault(l1, l2);
    switch (l7.tag) {
        case UINT8_C(1): {
            l8.tag = UINT8_C(0);
            l8.s0 = l7.s0;
            l0.tag = UINT8_C(1);
            l0.s1 = l8;
            return l0;
            break;
        }
        case UINT8_C(0): default: {
            break;
        }
    }
    l9 = l1.n;
    l5 = (uint64_t)((uint64_t)l9 / (uint64_t)UINT64_C(512));
    l6 = blocks__reading__stream_length(l1, l5);
    l9 = l3.n;
    l10 = (uint8_t)(l9 < l6);
    if (l10) {
        l11.tag = UINT8_C(1);
        l0.tag = UINT8_C(1);
        l0.s1 = l11;
        return l0;
    }
    l13 = (uint8_t *)&(*(uint8_t *)l3.p);
    l14.p = l13;
    l14.n = l3.n;
    blocks__reading__join(l1, l5, l14);
    l0.tag = UINT8_C(0);
    l0.s0 = l6;
    return l0;
}

static inline struct core__option__Option__Fault blocks__reading__first_fault(rt_slice l1, uint64_t l2)
{
    struct core__option__Option__Fault l0;
    uint64_t l3;
    uint64_t l4;
    uint64_t l5;
    uint8_t l6;
    uint8_t l8;
    uint64_t l9;
    struct core__option__Option__Fault l10;
    uint8_t *l11;
    uint8_t *l12;
    rt_slice l13;
    l3 = UINT64_C(0);
    for (;;) {
        l8 = (uint8_t)(l3 < l2);
        if (l8) {
        } else {
            goto end1;
        }
        l4 = (uint64_t)((uint64_t)UINT64_C(512) * (uint64_t)l3);
        l5 = (uint64_t)((uint64_t)l4 + (uint64_t)UINT64_C(512));
        l9 = (uint64_t)((uint64_t)l3 + (uint64_t)UINT64_C(1));
        l6 = (uint8_t)(l9 == l2);
        l11 = l1.p + (size_t)l4;
        l9 = (uint64_t)((uint64_t)l5 - (uint64_t)l4);
        l12 = (uint8_t *)&(*(uint8_t *)l11);
        l13.p = l12;
        l13.n = l9;
        l10 = block__block_fault(l13, l3, l6);
        switch (l10.tag) {
            case UINT8_C(1): {
                l0.tag = UINT8_C(1);
                l0.s0 = l10.s0;
                return l0;
                break;
            }
            case UINT8_C(0): default: {
                break;
            }
        }
        l3 = (uint64_t)((uint64_t)l3 + (uint64_t)UINT64_C(1));
    }
end1:;
    l0.tag = UINT8_C(0);
    return l0;
}

static inline void blocks__reading__join(rt_slice l1, uint64_t l2, rt_slice l3)
{
    uint64_t l4;
    uint64_t l5;
    uint64_t l6;
    rt_slice l7;
    uint64_t l8;
    uint8_t l9;
    uint8_t *l10;
    uint64_t l11;
    uint8_t *l12;
    uint8_t *l14;
    rt_slice l15;
    rt_slice l16;
    l4 = UINT64_C(0);
    for (;;) {
        l9 = (uint8_t)(l4 < l2);
        if (l9) {
        } else {
            goto end1;
        }
        l5 = (uint64_t)((uint64_t)UINT64_C(512) * (uint64_t)l4);
        l6 = (uint64_t)((uint64_t)l5 + (uint64_t)UINT64_C(512));
        l10 = l1.p + (size_t)l5;
        l11 = (uint64_t)((uint64_t)l6 - (uint64_t)l5);
        l12 = (uint8_t *)&(*(uint8_t *)l10);
        l7.p = l12;
        l7.n = l11;
        l8 = little_endian__pair_at(l7, UINT64_C(2));
        l14 = (uint8_t *)&(*(uint8_t *)l3.p);
        l15.p = l14;
        l15.n = l3.n;
        l11 = (uint64_t)((uint64_t)UINT64_C(504) * (uint64_t)l4);
        l16 = block__payload(l7, l8);
        block__put__copy(l15, l11, l16);
        l4 = (uint64_t)((uint64_t)l4 + (uint64_t)UINT64_C(1));
    }
end1:;
    return;
}

static RT_SHORT uint8_t blocks__reading__length_right(uint64_t l1, uint64_t l2)
{
    uint8_t l0;
    uint8_t l3;
    uint8_t l4;
    uint64_t l5;
    uint64_t l6;
    uint64_t l7;
    l5 = (uint64_t)((uint64_t)l1 % (uint64_t)UINT64_C(512));
    l4 = (uint8_t)(l5 == UINT64_C(0));
    if (l4) {
        l4 = (uint8_t)(UINT64_C(512) <= l1);
    }
    l3 = l4;
    if (l3) {
        l6 = blocks__reading__most(l2);
        l7 = (uint64_t)((uint64_t)UINT64_C(512) * (uint64_t)l6);
        l3 = (uint8_t)(l1 <= l7);
    }
    l0 = l3;
    return l0;
}

static RT_SHORT uint64_t blocks__reading__most(uint64_t l1)
{
    uint64_t l0;
    l0 = core__int__usize__min(l1, UINT64_C(65536));
    return l0;
}

static RT_SHORT uint64_t blocks__reading__stream_length(rt_slice l1, uint64_t l2)
{
    uint64_t l0;
    uint64_t l3;
    uint64_t l4;
    uint64_t l5;
    uint64_t l6;
    uint64_t l7;
    l3 = (uint64_t)((uint64_t)l2 - (uint64_t)UINT64_C(1));
    l4 = (uint64_t)((uint64_t)UINT64_C(504) * (uint64_t)l3);
    l6 = (uint64_t)((uint64_t)UINT64_C(512) * (uint64_t)l3);
    l7 = (uint64_t)((uint64_t)l6 + (uint64_t)UINT64_C(2));
    l5 = little_endian__pair_at(l1, l7);
    l0 = (uint64_t)((uint64_t)l4 + (uint64_t)l5);
    return l0;
}

static RT_SHORT struct types__refusal__Refusal blocks__table_number(struct block__Fault l1)
{
    struct types__refusal__Refusal l0;
    struct types__refusal__Refusal l2;
    switch (l1.tag) {
        case UINT8_C(0): {
            l2.tag = UINT8_C(8);
            break;
        }
        case UINT8_C(1): case UINT8_C(2): default: {
            l2.tag = UINT8_C(9);
            break;
        }
    }
    l0 = l2;
    return l0;
}

static RT_HERE struct core__result__Result__u64_WriteError blocks__write_image(rt_slice l1, uint64_t l2, rt_slice l3)
{
    struct core__result__Result__u64_WriteError l0;
    uint64_t l5;
    uint8_t l6;
    uint8_t l7;
    struct blocks__WriteError l8;
    uint64_t l10;
    struct blocks__WriteError l11;
    uint8_t *l13;
    rt_slice l14;
    l6 = blocks__writing__stream_right(l1.n, l2);
    l7 = (uint8_t)!l6;
    if (l7) {
        l8.tag = UINT8_C(0);
        l0.tag = UINT8_C(1);
        l0.s1 = l8;
        return l0;
    }
    l5 = core__int__usize__div_ceil(l1.n, UINT64_C(504));
    l10 = (uint64_t)((uint64_t)UINT64_C(512) * (uint64_t)l5);
    l6 = (uint8_t)(l3.n < l10);
    if (l6) {
        l11.tag = UINT8_C(1);
        l0.tag = UINT8_C(1);
        l0.s1 = l11;
        return l0;
    }
    l13 = (uint8_t *)&(*(uint8_t *)l3.p);
    l14.p = l13;
    l14.n = l3.n;
    blocks__writing__put_blocks(l1, l5, l14);
    l0.tag = UINT8_C(0);
    l0.s0 = l5;
    return l0;
}

static RT_HERE rt_slice blocks__writing__piece(rt_slice l1, uint64_t l2)
{
    rt_slice l0;
    uint64_t l3;
    uint64_t l4;
    uint64_t l5;
    uint64_t l6;
    uint8_t l7;
    uint8_t *l8;
    uint64_t l9;
    uint8_t *l10;
    uint8_t *l11;
    uint8_t *l12;
    l3 = (uint64_t)((uint64_t)UINT64_C(504) * (uint64_t)l2);
    l5 = l1.n;
    l6 = (uint64_t)((uint64_t)l5 - (uint64_t)l3);
    l7 = (uint8_t)(l6 < UINT64_C(504));
    if (l7) {
        l8 = l1.p + (size_t)l3;
        l9 = (uint64_t)((uint64_t)l1.n - (uint64_t)l3);
        l10 = (uint8_t *)&(*(uint8_t *)l8);
        l0.p = l10;
        l0.n = l9;
        return l0;
    }
    l4 = (uint64_t)((uint64_t)l3 + (uint64_t)UINT64_C(504));
    l11 = l1.p + (size_t)l3;
    l5 = (uint64_t)((uint64_t)l4 - (uint64_t)l3);
    l12 = (uint8_t *)&(*(uint8_t *)l11);
    l0.p = l12;
    l0.n = l5;
    return l0;
}

static inline void blocks__writing__put_blocks(rt_slice l1, uint64_t l2, rt_slice l3)
{
    uint64_t l4;
    uint8_t l5;
    uint8_t *l7;
    rt_slice l8;
    uint64_t l9;
    rt_slice l10;
    l4 = UINT64_C(0);
    for (;;) {
        l5 = (uint8_t)(l4 < l2);
        if (l5) {
        } else {
            goto end1;
        }
        l7 = (uint8_t *)&(*(uint8_t *)l3.p);
        l8.p = l7;
        l8.n = l3.n;
        l9 = (uint64_t)((uint64_t)UINT64_C(512) * (uint64_t)l4);
        l10 = blocks__writing__piece(l1, l4);
        block__writing__put_block(l8, l9, l4, l10);
        l4 = (uint64_t)((uint64_t)l4 + (uint64_t)UINT64_C(1));
    }
end1:;
    return;
}

static RT_SHORT uint8_t blocks__writing__stream_right(uint64_t l1, uint64_t l2)
{
    uint8_t l0;
    uint8_t l3;
    uint64_t l4;
    uint64_t l5;
    l3 = (uint8_t)(UINT64_C(1) <= l1);
    if (l3) {
        l4 = blocks__reading__most(l2);
        l5 = (uint64_t)((uint64_t)UINT64_C(504) * (uint64_t)l4);
        l3 = (uint8_t)(l1 <= l5);
    }
    l0 = l3;
    return l0;
}

static RT_SHORT struct checker__Verdict checker__accepted(struct load__Loaded l1)
{
    struct checker__Verdict l0;
    l0.f0 = UINT8_C(0);
    l0.f1 = l1.f3;
    l0.f2 = l1.f4;
    l0.f3 = l1.f5;
    l0.f4 = l1.f6;
    return l0;
}

static RT_APART struct checker__Verdict checker__check(rt_slice l1, rt_slice l2)
{
    struct checker__Verdict l0;
    struct rt_array_uint8_32256 l3;
    struct rt_array_uint8_16 l4;
    struct rt_array_uint8_128 l5;
    struct rt_array_uint16_512 l6;
    struct core__result__Result__Loaded_Refusal l7;
    uint64_t l12;
    uint8_t *l13;
    rt_slice l14;
    uint8_t *l15;
    rt_slice l16;
    uint8_t *l17;
    rt_slice l18;
    uint8_t *l19;
    rt_slice l20;
    uint8_t l22;
    uint8_t l24;
    uint8_t *l26;
    rt_slice l27;
    uint8_t *l28;
    rt_slice l29;
    uint8_t *l30;
    rt_slice l31;
    memset(&l3, 0, sizeof l3);
    memset(&l4, 0, sizeof l4);
    memset(&l5, 0, sizeof l5);
    memset(&l6, 0, sizeof l6);
    l13 = (uint8_t *)&l3;
    l14.p = l13;
    l14.n = UINT64_C(32256);
    l15 = (uint8_t *)&l4;
    l16.p = l15;
    l16.n = UINT64_C(16);
    l17 = (uint8_t *)&l5;
    l18.p = l17;
    l18.n = UINT64_C(128);
    l19 = (uint8_t *)&l6;
    l20.p = l19;
    l20.n = UINT64_C(512);
    l7 = load__program(l1, l14, l16, l18, l20);
    switch (l7.tag) {
        case UINT8_C(0): {
            break;
        }
        case UINT8_C(1): default: {
            l22 = types__refusal__U8FromRefusal__from(l7.s1);
            l0 = checker__refused(l22);
            return l0;
            break;
        }
    }
    l24 = (uint8_t)(l2.n < UINT64_C(1024));
    if (l24) {
        l0 = checker__refused(UINT8_C(13));
        return l0;
    }
    l12 = (uint64_t)l7.s0.f3;
    l26 = (uint8_t *)&l3;
    l27.p = l26;
    l27.n = l7.s0.f0;
    l28 = (uint8_t *)&l4;
    l29.p = l28;
    l29.n = l12;
    l30 = (uint8_t *)&(*(uint64_t *)l2.p);
    l31.p = l30;
    l31.n = l2.n;
    emit_steps__program(l27, l29, l7.s0.f1, l31);
    l0 = checker__accepted(l7.s0);
    return l0;
}

static RT_SHORT struct checker__Verdict checker__refused(uint8_t l1)
{
    struct checker__Verdict l0;
    l0.f0 = l1;
    l0.f1 = UINT8_C(0);
    l0.f2 = UINT8_C(0);
    l0.f3 = UINT16_C(0);
    l0.f4 = UINT8_C(0);
    return l0;
}

static RT_WITHIN struct core__result__Result__Kind_UnknownKind commands__kind__KindTryFromU64__try_from(uint64_t l1)
{
    struct core__result__Result__Kind_UnknownKind l0;
    struct core__result__Result__Kind_UnknownKind l2;
    struct commands__kind__Kind l3;
    struct commands__kind__Kind l4;
    struct commands__kind__Kind l5;
    struct commands__kind__Kind l6;
    struct commands__kind__Kind l7;
    struct commands__kind__Kind l8;
    struct commands__kind__Kind l9;
    struct commands__kind__Kind l10;
    struct commands__kind__UnknownKind l11;
    switch (l1) {
        case UINT64_C(1): {
            l3.tag = UINT8_C(0);
            l2.tag = UINT8_C(0);
            l2.s0 = l3;
            break;
        }
        case UINT64_C(2): {
            l4.tag = UINT8_C(1);
            l2.tag = UINT8_C(0);
            l2.s0 = l4;
            break;
        }
        case UINT64_C(3): {
            l5.tag = UINT8_C(2);
            l2.tag = UINT8_C(0);
            l2.s0 = l5;
            break;
        }
        case UINT64_C(4): {
            l6.tag = UINT8_C(3);
            l2.tag = UINT8_C(0);
            l2.s0 = l6;
            break;
        }
        case UINT64_C(5): {
            l7.tag = UINT8_C(4);
            l2.tag = UINT8_C(0);
            l2.s0 = l7;
            break;
        }
        case UINT64_C(6): {
            l8.tag = UINT8_C(5);
            l2.tag = UINT8_C(0);
            l2.s0 = l8;
            break;
        }
        case UINT64_C(7): {
            l9.tag = UINT8_C(6);
            l2.tag = UINT8_C(0);
            l2.s0 = l9;
            break;
        }
        case UINT64_C(8): {
            l10.tag = UINT8_C(7);
            l2.tag = UINT8_C(0);
            l2.s0 = l10;
            break;
        }
        default: {
            l11.f0 = l1;
            l2.tag = UINT8_C(1);
            l2.s1.f0 = l11.f0;
            break;
        }
    }
    l0 = l2;
    return l0;
}

static RT_WITHIN uint64_t commands__kind__U64FromKind__from(struct commands__kind__Kind l1)
{
    uint64_t l0;
    uint64_t l2;
    l2 = (uint64_t)l1.tag;
    l0 = (uint64_t)((uint64_t)l2 + (uint64_t)UINT64_C(1));
    return l0;
}

static RT_SHORT struct emit__Put compile__items__add(rt_slice l1, struct emit__Put l2, uint64_t l3)
{
    struct emit__Put l0;
    uint64_t l5;
    uint8_t *l6;
    l5 = (uint64_t)((uint64_t)l2.f1 * (uint64_t)UINT64_C(8));
    l6 = l1.p + (size_t)l5;
    (*(uint64_t *)l6) = l3;
    l5 = (uint64_t)((uint64_t)l2.f1 + (uint64_t)UINT64_C(1));
    l0.f0 = l2.f0;
    l0.f1 = l5;
    return l0;
}

static inline struct emit__Put compile__items__item(rt_slice l1, uint64_t l2, uint64_t l3, rt_slice l4, uint64_t l5)
{
    struct emit__Put l0;
    uint64_t l6;
    struct emit__Put l7;
    uint64_t l8;
    uint64_t l9;
    struct emit__Put l10;
    struct emit__Put l11;
    uint8_t *l13;
    uint8_t l14;
    struct emit__Put l15;
    uint64_t l16;
    uint8_t *l17;
    uint8_t l18;
    uint8_t *l19;
    rt_slice l20;
    uint64_t l21;
    uint8_t *l22;
    uint8_t l23;
    uint8_t *l24;
    uint8_t *l25;
    rt_slice l26;
    uint64_t l27;
    uint64_t l28;
    uint64_t l29;
    uint8_t *l30;
    uint64_t l31;
    uint8_t *l32;
    rt_slice l33;
    uint64_t l34;
    uint8_t *l35;
    rt_slice l36;
    l13 = l1.p + (size_t)l2;
    l14 = (*(uint8_t *)l13);
    switch (l14) {
        case UINT8_C(1): {
            l16 = (uint64_t)((uint64_t)l2 + (uint64_t)UINT64_C(1));
            l17 = l1.p + (size_t)l16;
            l18 = (*(uint8_t *)l17);
            l6 = core__convert__UsizeFromU8__from(l18);
            l16 = (uint64_t)((uint64_t)l2 + (uint64_t)UINT64_C(2));
            l7.f0 = l16;
            l7.f1 = l5;
            l19 = (uint8_t *)&(*(uint64_t *)l4.p);
            l20.p = l19;
            l20.n = l4.n;
            l15 = compile__items__add(l20, l7, l6);
            break;
        }
        case UINT8_C(2): {
            l21 = (uint64_t)((uint64_t)l2 + (uint64_t)UINT64_C(1));
            l22 = l1.p + (size_t)l21;
            l23 = (*(uint8_t *)l22);
            l8 = core__convert__UsizeFromU8__from(l23);
            l21 = (uint64_t)((uint64_t)l2 + (uint64_t)UINT64_C(2));
            l24 = l1.p + (size_t)l21;
            l23 = (*(uint8_t *)l24);
            l9 = core__convert__UsizeFromU8__from(l23);
            l21 = (uint64_t)((uint64_t)l2 + (uint64_t)UINT64_C(3));
            l10.f0 = l21;
            l10.f1 = l5;
            l25 = (uint8_t *)&(*(uint64_t *)l4.p);
            l26.p = l25;
            l26.n = l4.n;
            l21 = (uint64_t)((uint64_t)l8 + (uint64_t)UINT64_C(1));
            l27 = (uint64_t)((uint64_t)UINT64_C(32) * (uint64_t)l21);
            l28 = (uint64_t)((uint64_t)l27 + (uint64_t)l9);
            l15 = compile__items__add(l26, l10, l28);
            break;
        }
        default: {
            l29 = (uint64_t)((uint64_t)l5 * (uint64_t)UINT64_C(8));
            l30 = l4.p + (size_t)l29;
            (*(uint64_t *)l30) = UINT64_C(1024);
            l29 = (uint64_t)((uint64_t)l2 + (uint64_t)UINT64_C(1));
            l31 = (uint64_t)((uint64_t)l3 - (uint64_t)UINT64_C(1));
            l32 = (uint8_t *)&(*(uint64_t *)l4.p);
            l33.p = l32;
            l33.n = l4.n;
            l34 = (uint64_t)((uint64_t)l5 + (uint64_t)UINT64_C(1));
            l11 = compile__items__items(l1, l29, l31, l33, l34);
            l35 = (uint8_t *)&(*(uint64_t *)l4.p);
            l36.p = l35;
            l36.n = l4.n;
            l29 = (uint64_t)((uint64_t)UINT64_C(2048) + (uint64_t)l5);
            l34 = (uint64_t)((uint64_t)l29 + (uint64_t)UINT64_C(1));
            l15 = compile__items__add(l36, l11, l34);
            break;
        }
    }
    l0.f0 = l15.f0;
    l0.f1 = l15.f1;
    return l0;
}

static inline struct emit__Put compile__items__items(rt_slice l1, uint64_t l2, uint64_t l3, rt_slice l4, uint64_t l5)
{
    struct emit__Put l0;
    struct emit__Put l6;
    uint8_t l7;
    uint64_t l8;
    uint8_t *l10;
    uint8_t l11;
    uint8_t l12;
    uint8_t *l13;
    rt_slice l14;
    l8 = (uint64_t)((uint64_t)l2 + (uint64_t)UINT64_C(1));
    l6.f0 = l8;
    l6.f1 = l5;
    l7 = UINT8_C(0);
    l10 = l1.p + (size_t)l2;
    l11 = (*(uint8_t *)l10);
    for (;;) {
        l12 = (uint8_t)(l7 < l11);
        if (l12) {
        } else {
            goto end1;
        }
        l13 = (uint8_t *)&(*(uint64_t *)l4.p);
        l14.p = l13;
        l14.n = l4.n;
        l6 = compile__items__item(l1, l6.f0, l3, l14, l6.f1);
        l7 = (uint8_t)((uint32_t)l7 + (uint32_t)UINT8_C(1));
    }
end1:;
    l0.f0 = l6.f0;
    l0.f1 = l6.f1;
    return l0;
}

static RT_HERE struct emit__Put compile__items__schedule(rt_slice l1, uint64_t l2, rt_slice l3)
{
    struct emit__Put l0;
    struct emit__Put l4;
    uint8_t *l5;
    rt_slice l6;
    uint8_t *l7;
    rt_slice l8;
    l5 = (uint8_t *)&(*(uint64_t *)l3.p);
    l6.p = l5;
    l6.n = l3.n;
    l4 = compile__items__items(l1, l2, UINT64_C(8), l6, UINT64_C(0));
    l7 = (uint8_t *)&(*(uint64_t *)l3.p);
    l8.p = l7;
    l8.n = l3.n;
    l0 = compile__items__add(l8, l4, UINT64_C(1025));
    return l0;
}

static RT_SHORT void compile__program(rt_slice l1, uint64_t l2, uint64_t l3, rt_slice l4, uint64_t l5, rt_slice l6, rt_slice l7)
{
    uint8_t *l9;
    rt_slice l10;
    uint8_t *l12;
    rt_slice l13;
    l9 = (uint8_t *)&(*(uint16_t *)l6.p);
    l10.p = l9;
    l10.n = l6.n;
    compile__spans__of_rows(l4, l5, l3, l10);
    l12 = (uint8_t *)&(*(uint64_t *)l7.p);
    l13.p = l12;
    l13.n = l7.n;
    (void)compile__items__schedule(l1, l2, l13);
    return;
}

static inline void compile__spans__clear(rt_slice l1, uint64_t l2)
{
    uint64_t l3;
    uint64_t l4;
    uint8_t l5;
    uint8_t *l7;
    rt_slice l8;
    uint64_t l9;
    l3 = UINT64_C(0);
    l4 = (uint64_t)((uint64_t)UINT64_C(32) * (uint64_t)l2);
    for (;;) {
        l5 = (uint8_t)(l3 < l4);
        if (l5) {
        } else {
            goto end1;
        }
        l7 = (uint8_t *)&(*(uint16_t *)l1.p);
        l8.p = l7;
        l8.n = l1.n;
        l9 = (uint64_t)((uint64_t)UINT64_C(2) * (uint64_t)l3);
        compile__spans__pair(l8, l9, UINT16_C(1), UINT16_C(0));
        l3 = (uint64_t)((uint64_t)l3 + (uint64_t)UINT64_C(1));
    }
end1:;
    return;
}

static RT_SHORT void compile__spans__note(rt_slice l1, uint64_t l2, rt_slice l3)
{
    uint64_t l4;
    uint8_t l5;
    uint8_t *l7;
    rt_slice l8;
    struct directory__Row l9;
    l4 = l2;
    for (;;) {
        l5 = (uint8_t)(UINT64_C(0) < l4);
        if (l5) {
        } else {
            goto end1;
        }
        l4 = (uint64_t)((uint64_t)l4 - (uint64_t)UINT64_C(1));
        l7 = (uint8_t *)&(*(uint16_t *)l3.p);
        l8.p = l7;
        l8.n = l3.n;
        l9 = directory__rows__row_at(l1, l4);
        compile__spans__note_row(l8, l9);
    }
end1:;
    return;
}

static RT_SHORT void compile__spans__note_row(rt_slice l1, struct directory__Row l2)
{
    uint64_t l3;
    uint64_t l4;
    uint64_t l5;
    uint64_t l6;
    uint64_t l7;
    uint8_t *l9;
    rt_slice l10;
    uint16_t l11;
    l4 = core__convert__UsizeFromU16__from(l2.f0);
    l5 = (uint64_t)((uint64_t)UINT64_C(32) * (uint64_t)l4);
    l6 = core__convert__UsizeFromU16__from(l2.f1);
    l7 = (uint64_t)((uint64_t)l5 + (uint64_t)l6);
    l3 = (uint64_t)((uint64_t)UINT64_C(2) * (uint64_t)l7);
    l9 = (uint8_t *)&(*(uint16_t *)l1.p);
    l10.p = l9;
    l10.n = l1.n;
    l11 = (uint16_t)((uint32_t)l2.f2 + (uint32_t)l2.f3);
    compile__spans__pair(l10, l3, l2.f2, l11);
    return;
}

static RT_SHORT void compile__spans__of_rows(rt_slice l1, uint64_t l2, uint64_t l3, rt_slice l4)
{
    uint8_t *l6;
    rt_slice l7;
    uint8_t *l8;
    rt_slice l9;
    l6 = (uint8_t *)&(*(uint16_t *)l4.p);
    l7.p = l6;
    l7.n = l4.n;
    compile__spans__clear(l7, l3);
    l8 = (uint8_t *)&(*(uint16_t *)l4.p);
    l9.p = l8;
    l9.n = l4.n;
    compile__spans__note(l1, l2, l9);
    return;
}

static RT_SHORT void compile__spans__pair(rt_slice l1, uint64_t l2, uint16_t l3, uint16_t l4)
{
    uint64_t l5;
    uint8_t *l6;
    uint64_t l7;
    uint8_t *l8;
    l5 = (uint64_t)((uint64_t)l2 * (uint64_t)UINT64_C(2));
    l6 = l1.p + (size_t)l5;
    (*(uint16_t *)l6) = l3;
    l5 = (uint64_t)((uint64_t)l2 + (uint64_t)UINT64_C(1));
    l7 = (uint64_t)((uint64_t)l5 * (uint64_t)UINT64_C(2));
    l8 = l1.p + (size_t)l7;
    (*(uint16_t *)l8) = l4;
    return;
}

static RT_HERE struct composing__Pen composing__bytes__behind(rt_slice l1, rt_slice l2, struct composing__Pen l3, uint8_t l4, uint32_t l5)
{
    struct composing__Pen l0;
    struct composing__Pen l6;
    struct composing__Pen l7;
    uint8_t *l8;
    rt_slice l9;
    struct composing__Pen l10;
    uint8_t *l11;
    rt_slice l12;
    uint8_t *l13;
    rt_slice l14;
    uint8_t *l15;
    rt_slice l16;
    uint8_t *l17;
    rt_slice l18;
    uint8_t *l19;
    rt_slice l20;
    uint8_t *l21;
    rt_slice l22;
    switch (l4) {
        case UINT8_C(1): {
            l8 = (uint8_t *)&(*(uint8_t *)l1.p);
            l9.p = l8;
            l9.n = l1.n;
            l7 = composing__bytes__numbered(l9, l2, l3);
            break;
        }
        case UINT8_C(2): {
            l11 = (uint8_t *)&(*(uint8_t *)l1.p);
            l12.p = l11;
            l12.n = l1.n;
            l10 = composing__bytes__numbered(l12, l2, l3);
            l7 = composing__bytes__lengthened(l10);
            break;
        }
        case UINT8_C(3): {
            l13 = (uint8_t *)&(*(uint8_t *)l1.p);
            l14.p = l13;
            l14.n = l1.n;
            l6 = composing__bytes__numbered(l14, l2, l3);
            l15 = (uint8_t *)&(*(uint8_t *)l1.p);
            l16.p = l15;
            l16.n = l1.n;
            l7 = composing__bytes__pathed(l16, l6);
            break;
        }
        case UINT8_C(4): {
            l17 = (uint8_t *)&(*(uint8_t *)l1.p);
            l18.p = l17;
            l18.n = l1.n;
            l7 = composing__bytes__worded(l18, l3, l5);
            break;
        }
        case UINT8_C(5): {
            l19 = (uint8_t *)&(*(uint8_t *)l1.p);
            l20.p = l19;
            l20.n = l1.n;
            l7 = composing__bytes__wrote(l20, l3, UINT8_C(1));
            break;
        }
        case UINT8_C(6): {
            l21 = (uint8_t *)&(*(uint8_t *)l1.p);
            l22.p = l21;
            l22.n = l1.n;
            l7 = composing__bytes__wrote(l22, l3, UINT8_C(0));
            break;
        }
        default: {
            l7.f0 = l3.f0;
            l7.f1 = l3.f1;
            l7.f2 = l3.f2;
            l7.f3 = l3.f3;
            l7.f4 = l3.f4;
            break;
        }
    }
    l0.f0 = l7.f0;
    l0.f1 = l7.f1;
    l0.f2 = l7.f2;
    l0.f3 = l7.f3;
    l0.f4 = l7.f4;
    return l0;
}

static RT_HERE struct composing__Pen composing__bytes__formed(rt_slice l1, struct composing__Pen l2, uint8_t l3)
{
    struct composing__Pen l0;
    uint8_t l4;
    struct composing__Pen l5;
    uint8_t *l6;
    rt_slice l7;
    l4 = (uint8_t)(l3 == UINT8_C(0));
    if (l4) {
        l5.f0 = l2.f0;
        l5.f1 = l2.f1;
        l5.f2 = l2.f2;
        l5.f3 = l2.f3;
        l5.f4 = l2.f4;
    } else {
        l6 = (uint8_t *)&(*(uint8_t *)l1.p);
        l7.p = l6;
        l7.n = l1.n;
        l5 = composing__bytes__wrote(l7, l2, l3);
    }
    l0.f0 = l5.f0;
    l0.f1 = l5.f1;
    l0.f2 = l5.f2;
    l0.f3 = l5.f3;
    l0.f4 = l5.f4;
    return l0;
}

static RT_HERE struct composing__Pen composing__bytes__lengthened(struct composing__Pen l1)
{
    struct composing__Pen l0;
    uint64_t l2;
    l2 = (uint64_t)((uint64_t)l1.f3 + (uint64_t)UINT64_C(1));
    l0.f0 = l1.f0;
    l0.f1 = l1.f1;
    l0.f2 = l1.f2;
    l0.f3 = l2;
    l0.f4 = l1.f4;
    return l0;
}

static RT_SHORT uint8_t composing__bytes__low(uint32_t l1)
{
    uint8_t l0;
    uint32_t l2;
    l2 = (uint32_t)((uint32_t)l1 % (uint32_t)UINT32_C(256));
    l0 = (uint8_t)l2;
    return l0;
}

static RT_HERE struct composing__Pen composing__bytes__numbered(rt_slice l1, rt_slice l2, struct composing__Pen l3)
{
    struct composing__Pen l0;
    uint64_t l5;
    uint64_t l6;
    uint8_t l7;
    uint8_t *l8;
    uint8_t l9;
    uint8_t *l10;
    l7 = (uint8_t)(l3.f2 == UINT64_C(0));
    if (l7) {
        {
            struct composing__Pen r = composing__bytes__spoilt(l3);
            l0.f0 = r.f0;
            l0.f1 = r.f1;
            l0.f2 = r.f2;
            l0.f3 = r.f3;
            l0.f4 = r.f4;
        }
        return l0;
    }
    l5 = (uint64_t)((uint64_t)l3.f2 - (uint64_t)UINT64_C(1));
    l6 = (uint64_t)((uint64_t)l3.f0 - (uint64_t)UINT64_C(1));
    l8 = l2.p + (size_t)l5;
    l9 = (*(uint8_t *)l8);
    l10 = l1.p + (size_t)l6;
    (*(uint8_t *)l10) = l9;
    l0.f0 = l6;
    l0.f1 = l3.f1;
    l0.f2 = l5;
    l0.f3 = l3.f3;
    l0.f4 = l3.f4;
    return l0;
}

static RT_HERE struct composing__Pen composing__bytes__pathed(rt_slice l1, struct composing__Pen l2)
{
    struct composing__Pen l0;
    struct composing__Pen l4;
    uint8_t l5;
    uint8_t *l6;
    rt_slice l7;
    uint64_t l8;
    uint8_t l9;
    l5 = (uint8_t)(UINT64_C(3) < l2.f3);
    if (l5) {
        {
            struct composing__Pen r = composing__bytes__spoilt(l2);
            l0.f0 = r.f0;
            l0.f1 = r.f1;
            l0.f2 = r.f2;
            l0.f3 = r.f3;
            l0.f4 = r.f4;
        }
        return l0;
    }
    l6 = (uint8_t *)&(*(uint8_t *)l1.p);
    l7.p = l6;
    l7.n = l1.n;
    l8 = (uint64_t)((uint64_t)l2.f3 + (uint64_t)UINT64_C(1));
    l9 = (uint8_t)l8;
    l4 = composing__bytes__wrote(l7, l2, l9);
    l0.f0 = l4.f0;
    l0.f1 = l4.f1;
    l0.f2 = l4.f2;
    l0.f3 = UINT64_C(0);
    l0.f4 = l4.f4;
    return l0;
}

static RT_HERE struct composing__Pen composing__bytes__spoilt(struct composing__Pen l1)
{
    struct composing__Pen l0;
    l0.f0 = l1.f0;
    l0.f1 = l1.f1;
    l0.f2 = l1.f2;
    l0.f3 = l1.f3;
    l0.f4 = 0;
    return l0;
}

static RT_HERE struct composing__Pen composing__bytes__worded(rt_slice l1, struct composing__Pen l2, uint32_t l3)
{
    struct composing__Pen l0;
    uint32_t l4;
    uint32_t l5;
    struct composing__Pen l6;
    struct composing__Pen l7;
    struct composing__Pen l8;
    uint8_t *l9;
    rt_slice l10;
    uint8_t l11;
    uint32_t l12;
    uint8_t *l13;
    rt_slice l14;
    uint8_t *l15;
    rt_slice l16;
    uint8_t *l17;
    rt_slice l18;
    l4 = (uint32_t)((uint32_t)l3 / (uint32_t)UINT32_C(256));
    l5 = (uint32_t)((uint32_t)l4 / (uint32_t)UINT32_C(256));
    l9 = (uint8_t *)&(*(uint8_t *)l1.p);
    l10.p = l9;
    l10.n = l1.n;
    l12 = (uint32_t)((uint32_t)l5 / (uint32_t)UINT32_C(256));
    l11 = composing__bytes__low(l12);
    l6 = composing__bytes__wrote(l10, l2, l11);
    l13 = (uint8_t *)&(*(uint8_t *)l1.p);
    l14.p = l13;
    l14.n = l1.n;
    l11 = composing__bytes__low(l5);
    l7 = composing__bytes__wrote(l14, l6, l11);
    l15 = (uint8_t *)&(*(uint8_t *)l1.p);
    l16.p = l15;
    l16.n = l1.n;
    l11 = composing__bytes__low(l4);
    l8 = composing__bytes__wrote(l16, l7, l11);
    l17 = (uint8_t *)&(*(uint8_t *)l1.p);
    l18.p = l17;
    l18.n = l1.n;
    l11 = composing__bytes__low(l3);
    {
        struct composing__Pen r = composing__bytes__wrote(l18, l8, l11);
        l0.f0 = r.f0;
        l0.f1 = r.f1;
        l0.f2 = r.f2;
        l0.f3 = r.f3;
        l0.f4 = r.f4;
    }
    return l0;
}

static RT_HERE struct composing__Pen composing__bytes__wrote(rt_slice l1, struct composing__Pen l2, uint8_t l3)
{
    struct composing__Pen l0;
    uint64_t l4;
    uint8_t *l5;
    l4 = (uint64_t)((uint64_t)l2.f0 - (uint64_t)UINT64_C(1));
    l5 = l1.p + (size_t)l4;
    (*(uint8_t *)l5) = l3;
    l0.f0 = l4;
    l0.f1 = l2.f1;
    l0.f2 = l2.f2;
    l0.f3 = l2.f3;
    l0.f4 = l2.f4;
    return l0;
}

static inline uint64_t composing__header__row(rt_slice l1, rt_slice l2, uint64_t l3, uint64_t l4, uint64_t l5)
{
    uint64_t l0;
    uint64_t l6;
    uint64_t l7;
    uint8_t l8;
    uint64_t l9;
    uint8_t *l10;
    uint64_t l11;
    uint8_t l12;
    uint8_t *l13;
    uint64_t l14;
    uint8_t l15;
    uint8_t *l16;
    l6 = l5;
    l7 = l4;
    for (;;) {
        l8 = (uint8_t)(l3 < l7);
        if (l8) {
        } else {
            goto end1;
        }
        l7 = (uint64_t)((uint64_t)l7 - (uint64_t)UINT64_C(1));
        l6 = (uint64_t)((uint64_t)l6 - (uint64_t)UINT64_C(1));
        l9 = (uint64_t)((uint64_t)l7 * (uint64_t)UINT64_C(8));
        l10 = l2.p + (size_t)l9;
        l11 = (*(uint64_t *)l10);
        l12 = (uint8_t)l11;
        l13 = l1.p + (size_t)l6;
        (*(uint8_t *)l13) = l12;
    }
end1:;
    l6 = (uint64_t)((uint64_t)l6 - (uint64_t)UINT64_C(1));
    l14 = (uint64_t)((uint64_t)l4 - (uint64_t)l3);
    l15 = (uint8_t)l14;
    l16 = l1.p + (size_t)l6;
    (*(uint8_t *)l16) = l15;
    l0 = l6;
    return l0;
}

static inline uint64_t composing__header__write_header(rt_slice l1, rt_slice l2, rt_slice l3, uint64_t l4)
{
    uint64_t l0;
    uint64_t l5;
    uint64_t l6;
    uint8_t l7;
    uint8_t *l8;
    rt_slice l9;
    uint64_t l10;
    uint64_t l11;
    uint8_t *l12;
    uint64_t l13;
    uint64_t l14;
    uint8_t *l15;
    uint64_t l16;
    uint64_t l18;
    uint8_t l19;
    uint8_t *l20;
    l5 = l4;
    l6 = l3.n;
    for (;;) {
        l7 = (uint8_t)(UINT64_C(1) < l6);
        if (l7) {
        } else {
            goto end1;
        }
        l6 = (uint64_t)((uint64_t)l6 - (uint64_t)UINT64_C(1));
        l8 = (uint8_t *)&(*(uint8_t *)l1.p);
        l9.p = l8;
        l9.n = l1.n;
        l10 = (uint64_t)((uint64_t)l6 - (uint64_t)UINT64_C(1));
        l11 = (uint64_t)((uint64_t)l10 * (uint64_t)UINT64_C(8));
        l12 = l3.p + (size_t)l11;
        l13 = (*(uint64_t *)l12);
        l14 = (uint64_t)((uint64_t)l6 * (uint64_t)UINT64_C(8));
        l15 = l3.p + (size_t)l14;
        l16 = (*(uint64_t *)l15);
        l5 = composing__header__row(l9, l2, l13, l16, l5);
    }
end1:;
    l5 = (uint64_t)((uint64_t)l5 - (uint64_t)UINT64_C(1));
    l18 = (uint64_t)((uint64_t)l3.n - (uint64_t)UINT64_C(1));
    l19 = (uint8_t)l18;
    l20 = l1.p + (size_t)l5;
    (*(uint8_t *)l20) = l19;
    l0 = l5;
    return l0;
}

static RT_SHORT uint32_t composing__literal(rt_slice l1, uint64_t l2, uint8_t l3)
{
    uint32_t l0;
    uint8_t l4;
    struct core__option__Option__u32 l5;
    struct core__option__Option__u32 l6;
    l4 = (uint8_t)(l3 == UINT8_C(37));
    if (l4) {
        l5 = resolve__literals__int_word(l1, l2);
        l0 = core__option__Option__unwrap_or__u32(l5, UINT32_C(0));
        return l0;
    }
    l4 = (uint8_t)(l3 == UINT8_C(38));
    if (l4) {
        l6 = resolve__literals__nat_word(l1, l2);
        l0 = core__option__Option__unwrap_or__u32(l6, UINT32_C(0));
        return l0;
    }
    l0 = UINT32_C(0);
    return l0;
}

static RT_HERE struct composing__Pen composing__pouring__begun(rt_slice l1, rt_slice l2, struct composing__Pen l3)
{
    struct composing__Pen l0;
    struct composing__Pen l4;
    uint8_t *l6;
    rt_slice l7;
    uint8_t l8;
    l6 = (uint8_t *)&(*(uint8_t *)l1.p);
    l7.p = l6;
    l7.n = l1.n;
    l4 = composing__pouring__poured(l7, l2, l3, UINT8_C(0));
    l8 = (uint8_t)(l4.f1 == UINT64_C(0));
    if (l8) {
        {
            struct composing__Pen r = composing__bytes__spoilt(l4);
            l0.f0 = r.f0;
            l0.f1 = r.f1;
            l0.f2 = r.f2;
            l0.f3 = r.f3;
            l0.f4 = r.f4;
        }
        return l0;
    }
    {
        struct composing__Pen r = composing__waiting__popped(l4);
        l0.f0 = r.f0;
        l0.f1 = r.f1;
        l0.f2 = r.f2;
        l0.f3 = r.f3;
        l0.f4 = r.f4;
    }
    return l0;
}

static RT_HERE struct composing__Pen composing__pouring__first(rt_slice l1, rt_slice l2, struct composing__Pen l3, uint8_t l4, uint8_t l5)
{
    struct composing__Pen l0;
    struct composing__Pen l6;
    uint8_t *l7;
    rt_slice l8;
    uint8_t *l9;
    rt_slice l10;
    uint8_t l11;
    switch (l4) {
        case UINT8_C(1): {
            l7 = (uint8_t *)&(*(uint8_t *)l1.p);
            l8.p = l7;
            l8.n = l1.n;
            l6 = composing__pouring__begun(l8, l2, l3);
            break;
        }
        case UINT8_C(2): {
            l9 = (uint8_t *)&(*(uint8_t *)l1.p);
            l10.p = l9;
            l10.n = l1.n;
            l11 = composing__pouring__tightness(l5);
            l6 = composing__pouring__poured(l10, l2, l3, l11);
            break;
        }
        default: {
            l6.f0 = l3.f0;
            l6.f1 = l3.f1;
            l6.f2 = l3.f2;
            l6.f3 = l3.f3;
            l6.f4 = l3.f4;
            break;
        }
    }
    l0.f0 = l6.f0;
    l0.f1 = l6.f1;
    l0.f2 = l6.f2;
    l0.f3 = l6.f3;
    l0.f4 = l6.f4;
    return l0;
}

static RT_HERE struct composing__Pen composing__pouring__poured(rt_slice l1, rt_slice l2, struct composing__Pen l3, uint8_t l4)
{
    struct composing__Pen l0;
    uint64_t l5;
    uint64_t l6;
    uint8_t l7;
    uint8_t l8;
    uint8_t *l9;
    uint8_t l10;
    uint64_t l11;
    uint8_t *l15;
    l5 = l3.f0;
    l6 = l3.f1;
    for (;;) {
        l8 = (uint8_t)(UINT64_C(0) < l6);
        if (l8) {
        } else {
            goto end1;
        }
        l6 = (uint64_t)((uint64_t)l6 - (uint64_t)UINT64_C(1));
        l9 = l2.p + (size_t)l6;
        l10 = (*(uint8_t *)l9);
        l7 = l10;
        l10 = composing__pouring__tightness(l7);
        l8 = (uint8_t)(l10 <= l4);
        if (l8) {
            l11 = (uint64_t)((uint64_t)l6 + (uint64_t)UINT64_C(1));
            l0.f0 = l5;
            l0.f1 = l11;
            l0.f2 = l3.f2;
            l0.f3 = l3.f3;
            l0.f4 = l3.f4;
            return l0;
        }
        l8 = (uint8_t)(l5 <= UINT64_C(6));
        if (l8) {
            {
                struct composing__Pen r = composing__bytes__spoilt(l3);
                l0.f0 = r.f0;
                l0.f1 = r.f1;
                l0.f2 = r.f2;
                l0.f3 = r.f3;
                l0.f4 = r.f4;
            }
            return l0;
        }
        l5 = (uint64_t)((uint64_t)l5 - (uint64_t)UINT64_C(1));
        l15 = l1.p + (size_t)l5;
        (*(uint8_t *)l15) = l7;
    }
end1:;
    l0.f0 = l5;
    l0.f1 = UINT64_C(0);
    l0.f2 = l3.f2;
    l0.f3 = l3.f3;
    l0.f4 = l3.f4;
    return l0;
}

static inline uint8_t composing__pouring__tightness(uint8_t l1)
{
    uint8_t l0;
    uint8_t l2;
    uint8_t l3;
    switch (l1) {
        case UINT8_C(0): {
            l2 = UINT8_C(0);
            break;
        }
        case UINT8_C(43): {
            l2 = UINT8_C(2);
            break;
        }
        default: {
            l3 = (uint8_t)(l1 < UINT8_C(38));
            if (l3) {
                l2 = UINT8_C(3);
                goto end1;
            }
            l3 = (uint8_t)(l1 < UINT8_C(41));
            if (l3) {
                l2 = UINT8_C(5);
                goto end1;
            }
            l3 = (uint8_t)(l1 < UINT8_C(43));
            if (l3) {
                l2 = UINT8_C(4);
                goto end1;
            }
            l2 = UINT8_C(1);
        end1:;
            break;
        }
    }
    l0 = l2;
    return l0;
}

static RT_HERE struct composing__Pen composing__roles__put(rt_slice l1, rt_slice l2, rt_slice l3, struct composing__Pen l4, uint8_t l5, uint32_t l6)
{
    struct composing__Pen l0;
    uint64_t l7;
    struct composing__Pen l8;
    struct composing__Pen l9;
    struct composing__Pen l10;
    uint8_t l11;
    uint8_t *l12;
    rt_slice l13;
    uint8_t *l14;
    rt_slice l15;
    uint8_t l16;
    uint8_t l17;
    uint8_t *l18;
    rt_slice l19;
    uint8_t *l20;
    rt_slice l21;
    uint8_t *l22;
    rt_slice l23;
    uint8_t *l24;
    rt_slice l25;
    l11 = (uint8_t)(UINT8_C(81) <= l5);
    if (l11) {
        l0.f0 = l4.f0;
        l0.f1 = l4.f1;
        l0.f2 = l4.f2;
        l0.f3 = l4.f3;
        l0.f4 = l4.f4;
        return l0;
    }
    l7 = (uint64_t)l5;
    l12 = (uint8_t *)&(*(uint8_t *)l1.p);
    l13.p = l12;
    l13.n = l1.n;
    l14 = (uint8_t *)&(*(uint8_t *)l2.p);
    l15.p = l14;
    l15.n = l2.n;
    l16 = composing__table__mark(UINT64_C(0), l7);
    l17 = (uint8_t)((uint32_t)l5 + (uint32_t)UINT8_C(9));
    l8 = composing__pouring__first(l13, l15, l4, l16, l17);
    l18 = (uint8_t *)&(*(uint8_t *)l1.p);
    l19.p = l18;
    l19.n = l1.n;
    l16 = composing__table__mark(UINT64_C(1), l7);
    l9 = composing__bytes__behind(l19, l3, l8, l16, l6);
    l20 = (uint8_t *)&(*(uint8_t *)l1.p);
    l21.p = l20;
    l21.n = l1.n;
    l17 = composing__table__mark(UINT64_C(2), l7);
    l10 = composing__bytes__formed(l21, l9, l17);
    l22 = (uint8_t *)&(*(uint8_t *)l1.p);
    l23.p = l22;
    l23.n = l1.n;
    l24 = (uint8_t *)&(*(uint8_t *)l2.p);
    l25.p = l24;
    l25.n = l2.n;
    l16 = composing__table__mark(UINT64_C(3), l7);
    l17 = (uint8_t)((uint32_t)l5 + (uint32_t)UINT8_C(9));
    {
        struct composing__Pen r = composing__waiting__stacked(l23, l25, l10, l16, l17);
        l0.f0 = r.f0;
        l0.f1 = r.f1;
        l0.f2 = r.f2;
        l0.f3 = r.f3;
        l0.f4 = r.f4;
    }
    return l0;
}

static RT_SHORT uint8_t composing__roomy(struct composing__Pen l1)
{
    uint8_t l0;
    uint8_t l2;
    l2 = l1.f4;
    if (l2) {
        l2 = (uint8_t)(UINT64_C(6) <= l1.f0);
    }
    l0 = l2;
    return l0;
}

static RT_HERE struct core__option__Option__u64 composing__stream(rt_slice l1, rt_slice l2, rt_slice l3, rt_slice l4, rt_slice l5, rt_slice l6, rt_slice l7)
{
    struct core__option__Option__u64 l0;
    struct composing__Pen l8;
    struct composing__Pen l10;
    uint64_t l12;
    uint8_t *l13;
    rt_slice l14;
    uint8_t *l15;
    rt_slice l16;
    uint8_t l17;
    uint8_t *l18;
    rt_slice l19;
    uint8_t *l20;
    rt_slice l21;
    uint8_t *l22;
    rt_slice l23;
    l13 = (uint8_t *)&(*(uint8_t *)l6.p);
    l14.p = l13;
    l14.n = l6.n;
    l15 = (uint8_t *)&(*(uint8_t *)l7.p);
    l16.p = l15;
    l16.n = l7.n;
    l8 = composing__written(l1, l2, l3, l14, l16);
    l17 = (uint8_t)!l8.f4;
    if (l17) {
        l0.tag = UINT8_C(0);
        return l0;
    }
    l17 = (uint8_t)(l8.f0 <= UINT64_C(146));
    if (l17) {
        l0.tag = UINT8_C(0);
        return l0;
    }
    l18 = (uint8_t *)&(*(uint8_t *)l7.p);
    l19.p = l18;
    l19.n = l7.n;
    l20 = (uint8_t *)&(*(uint8_t *)l6.p);
    l21.p = l20;
    l21.n = l6.n;
    l10 = composing__waiting__counted(l19, l21, l8);
    l17 = (uint8_t)!l10.f4;
    if (l17) {
        l0.tag = UINT8_C(0);
        return l0;
    }
    l22 = (uint8_t *)&(*(uint8_t *)l7.p);
    l23.p = l22;
    l23.n = l7.n;
    l12 = composing__header__write_header(l23, l5, l4, l10.f0);
    l17 = (uint8_t)(l12 < UINT64_C(146));
    if (l17) {
        l0.tag = UINT8_C(0);
        return l0;
    }
    l0.tag = UINT8_C(1);
    l0.s0 = l12;
    return l0;
}

static RT_SHORT uint8_t composing__table__mark(uint64_t l1, uint64_t l2)
{
    uint8_t l0;
    uint64_t l3;
    uint64_t l5;
    rt_slice l6;
    uint8_t *l7;
    uint8_t l8;
    l5 = (uint64_t)((uint64_t)UINT64_C(81) * (uint64_t)l1);
    l3 = (uint64_t)((uint64_t)l5 + (uint64_t)l2);
    l6 = composing__table__marks();
    l7 = l6.p + (size_t)l3;
    l8 = (*(uint8_t *)l7);
    l0 = (uint8_t)((uint32_t)l8 - (uint32_t)UINT8_C(48));
    return l0;
}

static const struct rt_array_uint8_324 composing__table__marks__l3 = { { UINT8_C(48), UINT8_C(48), UINT8_C(49), UINT8_C(48), UINT8_C(48), UINT8_C(48), UINT8_C(48), UINT8_C(48), UINT8_C(48), UINT8_C(48), UINT8_C(48), UINT8_C(48), UINT8_C(48), UINT8_C(48), UINT8_C(48), UINT8_C(48), UINT8_C(48), UINT8_C(48), UINT8_C(48), UINT8_C(48), UINT8_C(49), UINT8_C(48), UINT8_C(48), UINT8_C(50), UINT8_C(50), UINT8_C(50), UINT8_C(50), UINT8_C(50), UINT8_C(50), UINT8_C(50), UINT8_C(50), UINT8_C(50), UINT8_C(50), UINT8_C(50), UINT8_C(50), UINT8_C(50), UINT8_C(48), UINT8_C(48), UINT8_C(48), UINT8_C(48), UINT8_C(48), UINT8_C(48), UINT8_C(48), UINT8_C(48), UINT8_C(48), UINT8_C(48), UINT8_C(48), UINT8_C(49), UINT8_C(48), UINT8_C(48), UINT8_C(48), UINT8_C(48), UINT8_C(48), UINT8_C(48), UINT8_C(48), UINT8_C(48), UINT8_C(48), UINT8_C(48), UINT8_C(48), UINT8_C(48), UINT8_C(48), UINT8_C(48), UINT8_C(48), UINT8_C(49), UINT8_C(48), UINT8_C(49), UINT8_C(48), UINT8_C(48), UINT8_C(48), UINT8_C(48), UINT8_C(48), UINT8_C(48), UINT8_C(48), UINT8_C(48), UINT8_C(48), UINT8_C(48), UINT8_C(48), UINT8_C(48), UINT8_C(48), UINT8_C(49), UINT8_C(48), UINT8_C(48), UINT8_C(48), UINT8_C(48), UINT8_C(48), UINT8_C(48), UINT8_C(48), UINT8_C(48), UINT8_C(48), UINT8_C(48), UINT8_C(48), UINT8_C(48), UINT8_C(53), UINT8_C(54), UINT8_C(48), UINT8_C(48), UINT8_C(48), UINT8_C(48), UINT8_C(48), UINT8_C(48), UINT8_C(48), UINT8_C(48), UINT8_C(48), UINT8_C(48), UINT8_C(48), UINT8_C(48), UINT8_C(48), UINT8_C(48), UINT8_C(48), UINT8_C(48), UINT8_C(48), UINT8_C(48), UINT8_C(48), UINT8_C(48), UINT8_C(48), UINT8_C(48), UINT8_C(48), UINT8_C(48), UINT8_C(52), UINT8_C(52), UINT8_C(48), UINT8_C(48), UINT8_C(49), UINT8_C(49), UINT8_C(51), UINT8_C(51), UINT8_C(50), UINT8_C(49), UINT8_C(49), UINT8_C(49), UINT8_C(49), UINT8_C(49), UINT8_C(48), UINT8_C(48), UINT8_C(48), UINT8_C(48), UINT8_C(49), UINT8_C(49), UINT8_C(49), UINT8_C(49), UINT8_C(49), UINT8_C(49), UINT8_C(49), UINT8_C(49), UINT8_C(48), UINT8_C(48), UINT8_C(48), UINT8_C(48), UINT8_C(48), UINT8_C(48), UINT8_C(48), UINT8_C(48), UINT8_C(48), UINT8_C(48), UINT8_C(48), UINT8_C(48), UINT8_C(48), UINT8_C(48), UINT8_C(48), UINT8_C(48), UINT8_C(48), UINT8_C(48), UINT8_C(48), UINT8_C(48), UINT8_C(49), UINT8_C(48), UINT8_C(70), UINT8_C(71), UINT8_C(51), UINT8_C(48), UINT8_C(48), UINT8_C(48), UINT8_C(48), UINT8_C(69), UINT8_C(69), UINT8_C(48), UINT8_C(48), UINT8_C(48), UINT8_C(48), UINT8_C(48), UINT8_C(48), UINT8_C(48), UINT8_C(48), UINT8_C(48), UINT8_C(64), UINT8_C(48), UINT8_C(48), UINT8_C(48), UINT8_C(48), UINT8_C(48), UINT8_C(48), UINT8_C(48), UINT8_C(48), UINT8_C(48), UINT8_C(48), UINT8_C(48), UINT8_C(48), UINT8_C(48), UINT8_C(48), UINT8_C(67), UINT8_C(68), UINT8_C(48), UINT8_C(48), UINT8_C(48), UINT8_C(48), UINT8_C(66), UINT8_C(51), UINT8_C(48), UINT8_C(65), UINT8_C(52), UINT8_C(49), UINT8_C(50), UINT8_C(48), UINT8_C(48), UINT8_C(48), UINT8_C(48), UINT8_C(48), UINT8_C(50), UINT8_C(50), UINT8_C(50), UINT8_C(50), UINT8_C(48), UINT8_C(48), UINT8_C(48), UINT8_C(48), UINT8_C(48), UINT8_C(48), UINT8_C(48), UINT8_C(48), UINT8_C(48), UINT8_C(48), UINT8_C(48), UINT8_C(48), UINT8_C(48), UINT8_C(48), UINT8_C(48), UINT8_C(48), UINT8_C(48), UINT8_C(48), UINT8_C(48), UINT8_C(48), UINT8_C(48), UINT8_C(48), UINT8_C(48), UINT8_C(48), UINT8_C(49), UINT8_C(51), UINT8_C(48), UINT8_C(48), UINT8_C(49), UINT8_C(48), UINT8_C(48), UINT8_C(48), UINT8_C(48), UINT8_C(48), UINT8_C(48), UINT8_C(48), UINT8_C(48), UINT8_C(48), UINT8_C(48), UINT8_C(48), UINT8_C(48), UINT8_C(51), UINT8_C(48), UINT8_C(48), UINT8_C(48), UINT8_C(53), UINT8_C(53), UINT8_C(53), UINT8_C(53), UINT8_C(53), UINT8_C(53), UINT8_C(53), UINT8_C(53), UINT8_C(53), UINT8_C(53), UINT8_C(53), UINT8_C(53), UINT8_C(53), UINT8_C(48), UINT8_C(48), UINT8_C(48), UINT8_C(48), UINT8_C(48), UINT8_C(50), UINT8_C(48), UINT8_C(48), UINT8_C(49), UINT8_C(48), UINT8_C(48), UINT8_C(49), UINT8_C(49), UINT8_C(49), UINT8_C(48), UINT8_C(48), UINT8_C(48), UINT8_C(48), UINT8_C(48), UINT8_C(49), UINT8_C(49), UINT8_C(49), UINT8_C(49), UINT8_C(48), UINT8_C(48), UINT8_C(48), UINT8_C(48), UINT8_C(48), UINT8_C(51), UINT8_C(48), UINT8_C(51), UINT8_C(51), UINT8_C(48), UINT8_C(48), UINT8_C(52), UINT8_C(51), UINT8_C(48), UINT8_C(54), UINT8_C(52), UINT8_C(51), UINT8_C(52), UINT8_C(51), UINT8_C(48), UINT8_C(51), UINT8_C(48) } };
static RT_HERE rt_slice composing__table__marks(void)
{
    rt_slice l0;
    uint8_t *l1;
    uint8_t *l2;
    l1 = (uint8_t *)&composing__table__marks__l3;
    l2 = (uint8_t *)&(*(uint8_t *)l1);
    l0.p = l2;
    l0.n = UINT64_C(324);
    return l0;
}

static RT_HERE struct composing__Pen composing__waiting__counted(rt_slice l1, rt_slice l2, struct composing__Pen l3)
{
    struct composing__Pen l0;
    uint64_t l5;
    uint8_t l6;
    uint8_t *l7;
    rt_slice l8;
    struct composing__Pen l9;
    uint8_t *l10;
    uint8_t l11;
    l6 = (uint8_t)(l3.f1 == UINT64_C(0));
    if (l6) {
        {
            struct composing__Pen r = composing__bytes__spoilt(l3);
            l0.f0 = r.f0;
            l0.f1 = r.f1;
            l0.f2 = r.f2;
            l0.f3 = r.f3;
            l0.f4 = r.f4;
        }
        return l0;
    }
    l5 = (uint64_t)((uint64_t)l3.f1 - (uint64_t)UINT64_C(1));
    l7 = (uint8_t *)&(*(uint8_t *)l1.p);
    l8.p = l7;
    l8.n = l1.n;
    l9 = composing__waiting__popped(l3);
    l10 = l2.p + (size_t)l5;
    l11 = (*(uint8_t *)l10);
    {
        struct composing__Pen r = composing__bytes__wrote(l8, l9, l11);
        l0.f0 = r.f0;
        l0.f1 = r.f1;
        l0.f2 = r.f2;
        l0.f3 = r.f3;
        l0.f4 = r.f4;
    }
    return l0;
}

static RT_HERE struct composing__Pen composing__waiting__more(rt_slice l1, struct composing__Pen l2, uint8_t l3)
{
    struct composing__Pen l0;
    uint64_t l5;
    uint8_t l6;
    uint8_t l7;
    uint8_t *l8;
    uint8_t l9;
    uint8_t *l10;
    l7 = (uint8_t)(l2.f1 == UINT64_C(0));
    if (l7) {
        {
            struct composing__Pen r = composing__bytes__spoilt(l2);
            l0.f0 = r.f0;
            l0.f1 = r.f1;
            l0.f2 = r.f2;
            l0.f3 = r.f3;
            l0.f4 = r.f4;
        }
        return l0;
    }
    l5 = (uint64_t)((uint64_t)l2.f1 - (uint64_t)UINT64_C(1));
    l8 = l1.p + (size_t)l5;
    l9 = (*(uint8_t *)l8);
    l6 = l9;
    l7 = (uint8_t)(l3 <= l6);
    if (l7) {
        {
            struct composing__Pen r = composing__bytes__spoilt(l2);
            l0.f0 = r.f0;
            l0.f1 = r.f1;
            l0.f2 = r.f2;
            l0.f3 = r.f3;
            l0.f4 = r.f4;
        }
        return l0;
    }
    l9 = (uint8_t)((uint32_t)l6 + (uint32_t)UINT8_C(1));
    l10 = l1.p + (size_t)l5;
    (*(uint8_t *)l10) = l9;
    l0.f0 = l2.f0;
    l0.f1 = l2.f1;
    l0.f2 = l2.f2;
    l0.f3 = l2.f3;
    l0.f4 = l2.f4;
    return l0;
}

static RT_HERE struct composing__Pen composing__waiting__opened(rt_slice l1, struct composing__Pen l2, uint8_t l3)
{
    struct composing__Pen l0;
    uint8_t *l5;
    uint64_t l6;
    l5 = l1.p + (size_t)l2.f1;
    (*(uint8_t *)l5) = l3;
    l6 = (uint64_t)((uint64_t)l2.f1 + (uint64_t)UINT64_C(1));
    l0.f0 = l2.f0;
    l0.f1 = l6;
    l0.f2 = l2.f2;
    l0.f3 = l2.f3;
    l0.f4 = l2.f4;
    return l0;
}

static RT_HERE struct composing__Pen composing__waiting__popped(struct composing__Pen l1)
{
    struct composing__Pen l0;
    uint64_t l2;
    l2 = (uint64_t)((uint64_t)l1.f1 - (uint64_t)UINT64_C(1));
    l0.f0 = l1.f0;
    l0.f1 = l2;
    l0.f2 = l1.f2;
    l0.f3 = l1.f3;
    l0.f4 = l1.f4;
    return l0;
}

static RT_HERE struct composing__Pen composing__waiting__stacked(rt_slice l1, rt_slice l2, struct composing__Pen l3, uint8_t l4, uint8_t l5)
{
    struct composing__Pen l0;
    struct composing__Pen l6;
    struct composing__Pen l7;
    uint8_t *l8;
    rt_slice l9;
    uint8_t *l10;
    rt_slice l11;
    uint8_t *l12;
    rt_slice l13;
    uint8_t *l14;
    rt_slice l15;
    uint8_t *l16;
    rt_slice l17;
    uint8_t *l18;
    rt_slice l19;
    uint8_t *l20;
    rt_slice l21;
    uint8_t *l22;
    rt_slice l23;
    uint8_t *l24;
    rt_slice l25;
    switch (l4) {
        case UINT8_C(1): {
            l8 = (uint8_t *)&(*(uint8_t *)l2.p);
            l9.p = l8;
            l9.n = l2.n;
            l7 = composing__waiting__more(l9, l3, UINT8_C(32));
            break;
        }
        case UINT8_C(2): {
            l10 = (uint8_t *)&(*(uint8_t *)l2.p);
            l11.p = l10;
            l11.n = l2.n;
            l7 = composing__waiting__more(l11, l3, UINT8_C(8));
            break;
        }
        case UINT8_C(3): {
            l12 = (uint8_t *)&(*(uint8_t *)l2.p);
            l13.p = l12;
            l13.n = l2.n;
            l7 = composing__waiting__opened(l13, l3, UINT8_C(0));
            break;
        }
        case UINT8_C(4): {
            l14 = (uint8_t *)&(*(uint8_t *)l1.p);
            l15.p = l14;
            l15.n = l1.n;
            l16 = (uint8_t *)&(*(uint8_t *)l2.p);
            l17.p = l16;
            l17.n = l2.n;
            l7 = composing__waiting__counted(l15, l17, l3);
            break;
        }
        case UINT8_C(5): {
            l18 = (uint8_t *)&(*(uint8_t *)l2.p);
            l19.p = l18;
            l19.n = l2.n;
            l7 = composing__waiting__opened(l19, l3, l5);
            break;
        }
        case UINT8_C(6): {
            l20 = (uint8_t *)&(*(uint8_t *)l1.p);
            l21.p = l20;
            l21.n = l1.n;
            l22 = (uint8_t *)&(*(uint8_t *)l2.p);
            l23.p = l22;
            l23.n = l2.n;
            l6 = composing__waiting__counted(l21, l23, l3);
            l24 = (uint8_t *)&(*(uint8_t *)l2.p);
            l25.p = l24;
            l25.n = l2.n;
            l7 = composing__waiting__opened(l25, l6, UINT8_C(0));
            break;
        }
        default: {
            l7.f0 = l3.f0;
            l7.f1 = l3.f1;
            l7.f2 = l3.f2;
            l7.f3 = l3.f3;
            l7.f4 = l3.f4;
            break;
        }
    }
    l0.f0 = l7.f0;
    l0.f1 = l7.f1;
    l0.f2 = l7.f2;
    l0.f3 = l7.f3;
    l0.f4 = l7.f4;
    return l0;
}

static RT_HERE struct composing__Pen composing__written(rt_slice l1, rt_slice l2, rt_slice l3, rt_slice l4, rt_slice l5)
{
    struct composing__Pen l0;
    struct composing__Pen l6;
    uint64_t l7;
    uint8_t *l9;
    uint64_t l10;
    uint8_t l12;
    uint8_t *l13;
    uint8_t l14;
    uint8_t *l15;
    rt_slice l16;
    uint8_t *l17;
    rt_slice l18;
    uint32_t l19;
    uint8_t l20;
    l9 = l4.p + (size_t)UINT64_C(0);
    (*(uint8_t *)l9) = UINT8_C(0);
    l10 = l5.n;
    l6.f0 = l10;
    l6.f1 = UINT64_C(1);
    l6.f2 = l3.n;
    l6.f3 = UINT64_C(0);
    l6.f4 = 1;
    l10 = l2.n;
    l7 = lexer__gaps__start(l2, l10);
    for (;;) {
        l12 = (uint8_t)(UINT64_C(0) < l7);
        if (l12) {
        } else {
            goto end1;
        }
        l7 = (uint64_t)((uint64_t)l7 - (uint64_t)UINT64_C(1));
        l13 = l2.p + (size_t)l7;
        l14 = (*(uint8_t *)l13);
        l15 = (uint8_t *)&(*(uint8_t *)l5.p);
        l16.p = l15;
        l16.n = l5.n;
        l17 = (uint8_t *)&(*(uint8_t *)l4.p);
        l18.p = l17;
        l18.n = l4.n;
        l19 = composing__literal(l1, l7, l14);
        l6 = composing__roles__put(l16, l18, l3, l6, l14, l19);
        l12 = composing__roomy(l6);
        l20 = (uint8_t)!l12;
        if (l20) {
            {
                struct composing__Pen r = composing__bytes__spoilt(l6);
                l0.f0 = r.f0;
                l0.f1 = r.f1;
                l0.f2 = r.f2;
                l0.f3 = r.f3;
                l0.f4 = r.f4;
            }
            return l0;
        }
        l7 = lexer__gaps__start(l2, l7);
    }
end1:;
    l0.f0 = l6.f0;
    l0.f1 = l6.f1;
    l0.f2 = l6.f2;
    l0.f3 = l6.f3;
    l0.f4 = l6.f4;
    return l0;
}

static RT_WITHIN void core__Destruct__none__drop__OperatorError(struct operators__OperatorError l1)
{
    (void)l1;
    return;
}

static RT_WITHIN void core__Destruct__none__drop__Range_u64(struct core__iter__ranges__Range__u64 l1)
{
    (void)l1;
    return;
}

static RT_WITHIN void core__Destruct__none__drop__Refusal(struct types__refusal__Refusal l1)
{
    (void)l1;
    return;
}

static RT_WITHIN void core__Destruct__none__drop__TryFromIntError(struct core__num__TryFromIntError l1)
{
    (void)l1;
    return;
}

static RT_WITHIN void core__Destruct__none__drop__all_Self(struct block__fn__zeros__all_Self l1)
{
    (void)l1;
    return;
}

static RT_WITHIN void core__Destruct__none__drop__between_all_Self_slice_u8_slice_u64(struct resolve__declarations__fn__rows_ok__between_all_Self___17487529 l1)
{
    (void)l1;
    return;
}

static RT_WITHIN void core__Destruct__none__drop__map_Self(struct lexer__fn__followed__map_Self l1)
{
    (void)l1;
    return;
}

static RT_WITHIN void core__Destruct__none__drop__position_Self_slice_u8_ref_u64(struct resolve__names__fn__lookup__position_Self__slice_u8_ref_u64 l1)
{
    (void)l1;
    return;
}

static RT_WITHIN void core__Destruct__none__drop__ref_u8(uint8_t *l1)
{
    (void)l1;
    return;
}

static RT_WITHIN void core__Destruct__none__drop__u16(uint16_t l1)
{
    (void)l1;
    return;
}

static RT_WITHIN void core__Destruct__none__drop__u32(uint32_t l1)
{
    (void)l1;
    return;
}

static RT_WITHIN void core__Destruct__none__drop__u64(uint64_t l1)
{
    (void)l1;
    return;
}

static RT_WITHIN void core__Destruct__none__drop__u8(uint8_t l1)
{
    (void)l1;
    return;
}

static RT_WITHIN void core__Destruct__none__drop__unit(void)
{
    return;
}

static RT_SHORT void core__assertions__unreachable(void)
{
    RT_NEVER;
}

static RT_SHORT uint8_t core__char__bytes__is_ascii_alphabetic(uint8_t *l1)
{
    uint8_t l0;
    uint8_t l2;
    uint32_t l3;
    l2 = (*(uint8_t *)l1);
    l3 = (uint32_t)l2;
    l0 = core__char__ranges__in_two_ranges(l3, UINT8_C(65), UINT8_C(90), UINT8_C(97), UINT8_C(122));
    return l0;
}

static RT_SHORT uint8_t core__char__bytes__is_ascii_alphanumeric(uint8_t *l1)
{
    uint8_t l0;
    uint8_t l2;
    uint32_t l3;
    l2 = (*(uint8_t *)l1);
    l3 = (uint32_t)l2;
    l0 = core__char__ranges__in_three_ranges(l3, UINT8_C(48), UINT8_C(57), UINT8_C(65), UINT8_C(90), UINT8_C(97), UINT8_C(122));
    return l0;
}

static RT_SHORT uint8_t core__char__bytes__is_ascii_digit(uint8_t *l1)
{
    uint8_t l0;
    uint8_t l2;
    uint32_t l3;
    l2 = (*(uint8_t *)l1);
    l3 = (uint32_t)l2;
    l0 = core__char__ranges__in_range(l3, UINT8_C(48), UINT8_C(57));
    return l0;
}

static RT_SHORT uint8_t core__char__ranges__in_range(uint32_t l1, uint8_t l2, uint8_t l3)
{
    uint8_t l0;
    uint32_t l4;
    uint8_t l5;
    uint32_t l6;
    uint8_t l7;
    l4 = (uint32_t)l2;
    l5 = (uint8_t)(l4 <= l1);
    l6 = (uint32_t)l3;
    l7 = (uint8_t)(l1 <= l6);
    l0 = (uint8_t)((uint32_t)l5 & (uint32_t)l7);
    return l0;
}

static inline uint8_t core__char__ranges__in_three_ranges(uint32_t l1, uint8_t l2, uint8_t l3, uint8_t l4, uint8_t l5, uint8_t l6, uint8_t l7)
{
    uint8_t l0;
    uint32_t l8;
    uint8_t l9;
    uint32_t l10;
    uint8_t l11;
    uint8_t l12;
    uint32_t l13;
    uint8_t l14;
    uint32_t l15;
    uint8_t l16;
    uint8_t l17;
    uint8_t l18;
    uint32_t l19;
    uint8_t l20;
    uint32_t l21;
    uint8_t l22;
    uint8_t l23;
    l8 = (uint32_t)l2;
    l9 = (uint8_t)(l8 <= l1);
    l10 = (uint32_t)l3;
    l11 = (uint8_t)(l1 <= l10);
    l12 = (uint8_t)((uint32_t)l9 & (uint32_t)l11);
    l13 = (uint32_t)l4;
    l14 = (uint8_t)(l13 <= l1);
    l15 = (uint32_t)l5;
    l16 = (uint8_t)(l1 <= l15);
    l17 = (uint8_t)((uint32_t)l14 & (uint32_t)l16);
    l18 = (uint8_t)((uint32_t)l12 | (uint32_t)l17);
    l19 = (uint32_t)l6;
    l20 = (uint8_t)(l19 <= l1);
    l21 = (uint32_t)l7;
    l22 = (uint8_t)(l1 <= l21);
    l23 = (uint8_t)((uint32_t)l20 & (uint32_t)l22);
    l0 = (uint8_t)((uint32_t)l18 | (uint32_t)l23);
    return l0;
}

static RT_SHORT uint8_t core__char__ranges__in_two_ranges(uint32_t l1, uint8_t l2, uint8_t l3, uint8_t l4, uint8_t l5)
{
    uint8_t l0;
    uint32_t l6;
    uint8_t l7;
    uint32_t l8;
    uint8_t l9;
    uint8_t l10;
    uint32_t l11;
    uint8_t l12;
    uint32_t l13;
    uint8_t l14;
    uint8_t l15;
    l6 = (uint32_t)l2;
    l7 = (uint8_t)(l6 <= l1);
    l8 = (uint32_t)l3;
    l9 = (uint8_t)(l1 <= l8);
    l10 = (uint8_t)((uint32_t)l7 & (uint32_t)l9);
    l11 = (uint32_t)l4;
    l12 = (uint8_t)(l11 <= l1);
    l13 = (uint32_t)l5;
    l14 = (uint8_t)(l1 <= l13);
    l15 = (uint8_t)((uint32_t)l12 & (uint32_t)l14);
    l0 = (uint8_t)((uint32_t)l10 | (uint32_t)l15);
    return l0;
}

static RT_WITHIN struct core__result__Result__u8_AllocError core__clone__U8Clone__clone(uint8_t *l1)
{
    struct core__result__Result__u8_AllocError l0;
    uint8_t l2;
    l2 = (*(uint8_t *)l1);
    l0.tag = UINT8_C(0);
    l0.s0 = l2;
    return l0;
}

static RT_WITHIN uint8_t core__clone__surely__u8(uint8_t *l1)
{
    uint8_t l0;
    struct core__result__Result__u8_AllocError l3;
    l3 = core__clone__U8Clone__clone(l1);
    switch (l3.tag) {
        case UINT8_C(0): {
            break;
        }
        case UINT8_C(1): default: {
            core__assertions__unreachable();
            RT_NEVER;
            break;
        }
    }
    l0 = l3.s0;
    return l0;
}

static RT_SHORT uint8_t core__cmp__Ordering__is_le(struct core__cmp__Ordering l1)
{
    uint8_t l0;
    uint8_t l2;
    switch (l1.tag) {
        case UINT8_C(0): {
            l2 = 1;
            break;
        }
        case UINT8_C(1): {
            l2 = 1;
            break;
        }
        case UINT8_C(2): default: {
            l2 = 0;
            break;
        }
    }
    l0 = l2;
    return l0;
}

static RT_SHORT uint8_t core__cmp__Ordering__is_lt(struct core__cmp__Ordering l1)
{
    uint8_t l0;
    uint8_t l2;
    switch (l1.tag) {
        case UINT8_C(0): {
            l2 = 1;
            break;
        }
        case UINT8_C(1): {
            l2 = 0;
            break;
        }
        case UINT8_C(2): default: {
            l2 = 0;
            break;
        }
    }
    l0 = l2;
    return l0;
}

static RT_WITHIN uint8_t core__cmp__PartialOrd__le__u8(uint8_t *l1, uint8_t *l2)
{
    uint8_t l0;
    struct core__option__Option__Ordering l4;
    uint8_t l5;
    l4 = core__cmp__numbers__U8PartialOrd__partial_cmp(l1, l2);
    switch (l4.tag) {
        case UINT8_C(1): {
            l5 = core__cmp__Ordering__is_le(l4.s0);
            break;
        }
        case UINT8_C(0): default: {
            l5 = 0;
            break;
        }
    }
    l0 = l5;
    return l0;
}

static RT_WITHIN uint8_t core__cmp__PartialOrd__lt__u8(uint8_t *l1, uint8_t *l2)
{
    uint8_t l0;
    struct core__option__Option__Ordering l4;
    uint8_t l5;
    l4 = core__cmp__numbers__U8PartialOrd__partial_cmp(l1, l2);
    switch (l4.tag) {
        case UINT8_C(1): {
            l5 = core__cmp__Ordering__is_lt(l4.s0);
            break;
        }
        case UINT8_C(0): default: {
            l5 = 0;
            break;
        }
    }
    l0 = l5;
    return l0;
}

static RT_WITHIN struct core__cmp__Ordering core__cmp__numbers__U8Ord__cmp(uint8_t *l1, uint8_t *l2)
{
    struct core__cmp__Ordering l0;
    uint8_t l5;
    uint8_t l6;
    uint8_t l7;
    struct core__cmp__Ordering l8;
    uint8_t l9;
    struct core__cmp__Ordering l10;
    l5 = (*(uint8_t *)l1);
    l6 = (*(uint8_t *)l2);
    l7 = (uint8_t)(l5 == l6);
    if (l7) {
        l8.tag = UINT8_C(1);
    } else {
        l9 = (uint8_t)(l5 < l6);
        if (l9) {
            l10.tag = UINT8_C(0);
        } else {
            l10.tag = UINT8_C(2);
        }
        l8 = l10;
    }
    l0 = l8;
    return l0;
}

static RT_WITHIN uint8_t core__cmp__numbers__U8PartialEq__eq(uint8_t *l1, uint8_t *l2)
{
    uint8_t l0;
    uint8_t l3;
    uint8_t l4;
    l3 = (*(uint8_t *)l1);
    l4 = (*(uint8_t *)l2);
    l0 = (uint8_t)(l3 == l4);
    return l0;
}

static RT_WITHIN struct core__option__Option__Ordering core__cmp__numbers__U8PartialOrd__partial_cmp(uint8_t *l1, uint8_t *l2)
{
    struct core__option__Option__Ordering l0;
    struct core__cmp__Ordering l3;
    l3 = core__cmp__numbers__U8Ord__cmp(l1, l2);
    l0.tag = UINT8_C(1);
    l0.s0 = l3;
    return l0;
}

static RT_WITHIN uint8_t core__cmp__slices__ElementMismatchPlaceTest__at__u8(uint8_t *l1, uint64_t l2)
{
    uint8_t l0;
    rt_slice l5;
    rt_slice l6;
    uint8_t l7;
    uint64_t l8;
    uint8_t *l9;
    uint8_t *l10;
    uint64_t l11;
    uint8_t *l12;
    uint8_t *l13;
    l5 = (*(struct core__cmp__slices__ElementMismatch__u8 *)l1).f0;
    l6 = (*(struct core__cmp__slices__ElementMismatch__u8 *)l1).f1;
    l8 = (uint64_t)((uint64_t)l2 * (uint64_t)UINT64_C(1));
    l9 = l5.p + (size_t)l8;
    l10 = (uint8_t *)&(*(uint8_t *)l9);
    l11 = (uint64_t)((uint64_t)l2 * (uint64_t)UINT64_C(1));
    l12 = l6.p + (size_t)l11;
    l13 = (uint8_t *)&(*(uint8_t *)l12);
    l7 = core__cmp__numbers__U8PartialEq__eq(l10, l13);
    l0 = (uint8_t)!l7;
    return l0;
}

static RT_WITHIN uint8_t core__cmp__slices__RefSlicePartialEq__eq__u8(uint8_t *l1, uint8_t *l2)
{
    uint8_t l0;
    rt_slice l3;
    rt_slice l4;
    l3 = (*(rt_slice *)l1);
    l4 = (*(rt_slice *)l2);
    l0 = core__cmp__slices__slices_equal__u8(l3, l4);
    return l0;
}

static RT_WITHIN uint8_t core__cmp__slices__all_equal__u8(rt_slice l1, rt_slice l2)
{
    uint8_t l0;
    uint64_t l3;
    uint64_t l4;
    uint8_t l5;
    struct core__cmp__slices__ElementMismatch__u8 l6;
    struct core__cmp__slices__ElementMismatch__u8 l7;
    uint8_t *l8;
    l3 = l1.n;
    l4 = l2.n;
    l5 = (uint8_t)(l3 != l4);
    if (l5) {
        l0 = 0;
        return l0;
    }
    l6.f0 = l1;
    l6.f1 = l2;
    l7.f0 = l6.f0;
    l7.f1 = l6.f1;
    l8 = (uint8_t *)&l7;
    l3 = l1.n;
    l4 = core__slice__scan__group__u8();
    l5 = core__slice__scan__any_by_groups__ElementMismatch_u8(l8, l3, l4);
    l0 = (uint8_t)!l5;
    return l0;
}

static RT_WITHIN uint8_t core__cmp__slices__groups_equal__u8(rt_slice l1, rt_slice l2)
{
    uint8_t l0;
    uint8_t l3;
    struct core__cmp__slices__ElementMismatch__u8 l4;
    struct core__cmp__slices__ElementMismatch__u8 l5;
    uint8_t *l6;
    uint64_t l8;
    l4.f0 = l1;
    l4.f1 = l2;
    l5.f0 = l4.f0;
    l5.f1 = l4.f1;
    l6 = (uint8_t *)&l5;
    l8 = core__slice__scan__group__u8();
    l3 = core__slice__scan__any_by_groups__ElementMismatch_u8(l6, l1.n, l8);
    l0 = (uint8_t)!l3;
    return l0;
}

static RT_WITHIN uint8_t core__cmp__slices__parts_equal__u8(rt_slice l1, rt_slice l2)
{
    uint8_t l0;
    l0 = core__cmp__slices__all_equal__u8(l1, l2);
    return l0;
}

static RT_WITHIN uint8_t core__cmp__slices__slices_equal__u8(rt_slice l1, rt_slice l2)
{
    uint8_t l0;
    struct core__cmp__slices__ElementMismatch__u8 l3;
    uint64_t l4;
    uint64_t l5;
    uint64_t l6;
    uint8_t l7;
    uint8_t l8;
    uint8_t *l9;
    uint8_t l11;
    uint8_t *l12;
    l5 = l1.n;
    l6 = l2.n;
    l7 = (uint8_t)(l5 != l6);
    if (l7) {
        l0 = 0;
        return l0;
    }
    l5 = core__slice__scan__group__u8();
    l7 = (uint8_t)(l5 < UINT64_C(8));
    if (l7) {
        l0 = core__cmp__slices__parts_equal__u8(l1, l2);
        return l0;
    }
    l3.f0 = l1;
    l3.f1 = l2;
    l6 = core__slice__scan__group__u8();
    l4 = (uint64_t)((uint64_t)l6 / (uint64_t)UINT64_C(8));
    l5 = l1.n;
    l7 = (uint8_t)(l5 < l4);
    if (l7) {
        l9 = (uint8_t *)&l3;
        l8 = core__slice__scan__any_by_one__ElementMismatch_u8(l9, l1.n);
        l0 = (uint8_t)!l8;
        return l0;
    }
    l12 = (uint8_t *)&l3;
    l11 = core__slice__scan__any_in_run__ElementMismatch_u8(l12, UINT64_C(0), l4);
    if (l11) {
        l0 = 0;
        return l0;
    }
    l0 = core__cmp__slices__groups_equal__u8(l1, l2);
    return l0;
}

static RT_WITHIN struct operators__OperatorError core__convert__AnyFrom__from__OperatorError(struct operators__OperatorError l1)
{
    struct operators__OperatorError l0;
    l0 = l1;
    return l0;
}

static RT_WITHIN struct types__refusal__Refusal core__convert__AnyFrom__from__Refusal(struct types__refusal__Refusal l1)
{
    struct types__refusal__Refusal l0;
    l0 = l1;
    return l0;
}

static RT_WITHIN uint64_t core__convert__I64FromI32__from(uint32_t l1)
{
    uint64_t l0;
    l0 = (uint64_t)((uint64_t)(l1 ^ UINT32_C(2147483648)) - UINT64_C(2147483648));
    return l0;
}

static RT_WITHIN uint16_t core__convert__U16FromU8__from(uint8_t l1)
{
    uint16_t l0;
    l0 = (uint16_t)l1;
    return l0;
}

static RT_WITHIN uint32_t core__convert__U32FromU16__from(uint16_t l1)
{
    uint32_t l0;
    l0 = (uint32_t)l1;
    return l0;
}

static RT_WITHIN uint32_t core__convert__U32FromU8__from(uint8_t l1)
{
    uint32_t l0;
    l0 = (uint32_t)l1;
    return l0;
}

static RT_WITHIN uint64_t core__convert__U64FromU32__from(uint32_t l1)
{
    uint64_t l0;
    l0 = (uint64_t)l1;
    return l0;
}

static RT_WITHIN uint64_t core__convert__U64FromU8__from(uint8_t l1)
{
    uint64_t l0;
    l0 = (uint64_t)l1;
    return l0;
}

static RT_WITHIN uint64_t core__convert__UsizeFromU16__from(uint16_t l1)
{
    uint64_t l0;
    l0 = (uint64_t)l1;
    return l0;
}

static RT_WITHIN uint64_t core__convert__UsizeFromU8__from(uint8_t l1)
{
    uint64_t l0;
    l0 = (uint64_t)l1;
    return l0;
}

static RT_WITHIN uint32_t core__convert__others__U32FromBool__from(uint8_t l1)
{
    uint32_t l0;
    l0 = (uint32_t)l1;
    return l0;
}

static RT_WITHIN uint64_t core__convert__others__UsizeFromBool__from(uint8_t l1)
{
    uint64_t l0;
    l0 = (uint64_t)l1;
    return l0;
}

static RT_WITHIN struct core__result__Result__u32_TryFromIntError core__convert__try_from__AnyTryFrom__try_from__u64_u32(uint64_t l1)
{
    struct core__result__Result__u32_TryFromIntError l0;
    struct rt_tuple2__bool_u64 l5;
    struct core__option__Option__u32 l7;
    struct core__result__Result__u32_TryFromIntError l8;
    struct core__num__TryFromIntError l10;
    l5 = core__convert__try_from__I64Integer__split(l1);
    l7 = core__convert__try_from__I32Integer__join(l5.f0, l5.f1);
    switch (l7.tag) {
        case UINT8_C(1): {
            l8.tag = UINT8_C(0);
            l8.s0 = l7.s0;
            break;
        }
        case UINT8_C(0): default: {
            l10.none = 0;
            l8.tag = UINT8_C(1);
            l8.s1 = l10;
            break;
        }
    }
    l0 = l8;
    return l0;
}

static RT_WITHIN struct core__option__Option__u32 core__convert__try_from__I32Integer__join(uint8_t l1, uint64_t l2)
{
    struct core__option__Option__u32 l0;
    uint64_t l3;
    uint8_t l4;
    struct core__option__Option__u32 l5;
    struct core__option__Option__u32 l7;
    uint32_t l8;
    uint32_t l9;
    uint32_t l10;
    l3 = (uint64_t)((uint64_t)(UINT32_C(2147483647) ^ UINT32_C(2147483648)) - UINT64_C(2147483648));
    l4 = (uint8_t)(l3 < l2);
    if (l4) {
        l5.tag = UINT8_C(0);
    } else {
        if (l1) {
            l8 = (uint32_t)l2;
            l9 = (uint32_t)~(uint32_t)l8;
            l7.tag = UINT8_C(1);
            l7.s0 = l9;
        } else {
            l10 = (uint32_t)l2;
            l7.tag = UINT8_C(1);
            l7.s0 = l10;
        }
        l5 = l7;
    }
    l0 = l5;
    return l0;
}

static RT_WITHIN struct rt_tuple2__bool_u64 core__convert__try_from__I64Integer__split(uint64_t l1)
{
    struct rt_tuple2__bool_u64 l0;
    uint8_t l2;
    struct rt_tuple2__bool_u64 l3;
    uint64_t l4;
    uint64_t l5;
    uint64_t l6;
    l2 = (uint8_t)((uint64_t)(l1 ^ UINT64_C(9223372036854775808)) < (uint64_t)(UINT64_C(0) ^ UINT64_C(9223372036854775808)));
    if (l2) {
        l4 = (uint64_t)~(uint64_t)l1;
        l5 = (uint64_t)l4;
        l3.f0 = 1;
        l3.f1 = l5;
    } else {
        l6 = (uint64_t)l1;
        l3.f0 = 0;
        l3.f1 = l6;
    }
    l0.f0 = l3.f0;
    l0.f1 = l3.f1;
    return l0;
}

static RT_WITHIN struct core__option__Option__u32 core__convert__try_from__U32Integer__join(uint8_t l1, uint64_t l2)
{
    struct core__option__Option__u32 l0;
    struct core__option__Option__u32 l4;
    uint64_t l5;
    uint8_t l6;
    struct core__option__Option__u32 l7;
    uint32_t l8;
    if (l1) {
        l4.tag = UINT8_C(0);
    } else {
        l5 = (uint64_t)UINT32_C(4294967295);
        l6 = (uint8_t)(l2 <= l5);
        if (l6) {
            l8 = (uint32_t)l2;
            l7.tag = UINT8_C(1);
            l7.s0 = l8;
        } else {
            l7.tag = UINT8_C(0);
        }
        l4 = l7;
    }
    l0 = l4;
    return l0;
}

static RT_WITHIN struct rt_tuple2__bool_u64 core__convert__try_from__U64Integer__split(uint64_t l1)
{
    struct rt_tuple2__bool_u64 l0;
    l0.f0 = 0;
    l0.f1 = l1;
    return l0;
}

static RT_WITHIN struct rt_tuple3__Slots_u8_unit_unit core__core__slice__edits__copy_over_FnOnce__call_once__u8(struct core__slots__Slots__u8 l2, rt_slice l4)
{
    struct rt_tuple3__Slots_u8_unit_unit l0;
    l0 = core__slice__edits__copy_over__u8(l2, l4);
    return l0;
}

static RT_WITHIN uint16_t core__default__U16Default__default(void)
{
    uint16_t l0;
    l0 = UINT16_C(0);
    return l0;
}

static RT_WITHIN uint64_t core__default__U64Default__default(void)
{
    uint64_t l0;
    l0 = UINT64_C(0);
    return l0;
}

static RT_SHORT struct core__option__Option__u32 core__int__checked__u32__checked_add(uint32_t l1, uint32_t l2)
{
    struct core__option__Option__u32 l0;
    uint32_t l3;
    uint8_t l4;
    struct core__option__Option__u32 l5;
    uint32_t l6;
    l3 = (uint32_t)((uint32_t)UINT32_C(4294967295) - (uint32_t)l2);
    l4 = (uint8_t)(l3 < l1);
    if (l4) {
        l5.tag = UINT8_C(0);
    } else {
        l6 = (uint32_t)((uint32_t)l1 + (uint32_t)l2);
        l5.tag = UINT8_C(1);
        l5.s0 = l6;
    }
    l0 = l5;
    return l0;
}

static RT_SHORT struct core__option__Option__u32 core__int__checked__u32__checked_div(uint32_t l1, uint32_t l2)
{
    struct core__option__Option__u32 l0;
    uint8_t l3;
    struct core__option__Option__u32 l4;
    uint32_t l5;
    l3 = (uint8_t)(l2 == UINT32_C(0));
    if (l3) {
        l4.tag = UINT8_C(0);
    } else {
        l5 = (uint32_t)((uint32_t)l1 / (uint32_t)l2);
        l4.tag = UINT8_C(1);
        l4.s0 = l5;
    }
    l0 = l4;
    return l0;
}

static RT_SHORT struct core__option__Option__u32 core__int__checked__u32__checked_mul(uint32_t l1, uint32_t l2)
{
    struct core__option__Option__u32 l0;
    uint8_t l3;
    struct core__option__Option__u32 l4;
    uint32_t l5;
    uint8_t l6;
    struct core__option__Option__u32 l7;
    uint32_t l8;
    l3 = (uint8_t)(l2 == UINT32_C(0));
    if (l3) {
        l4.tag = UINT8_C(1);
        l4.s0 = UINT32_C(0);
    } else {
        l5 = (uint32_t)((uint32_t)UINT32_C(4294967295) / (uint32_t)l2);
        l6 = (uint8_t)(l1 <= l5);
        if (l6) {
            l8 = (uint32_t)((uint32_t)l1 * (uint32_t)l2);
            l7.tag = UINT8_C(1);
            l7.s0 = l8;
        } else {
            l7.tag = UINT8_C(0);
        }
        l4 = l7;
    }
    l0 = l4;
    return l0;
}

static RT_SHORT struct core__option__Option__u32 core__int__checked__u32__checked_rem(uint32_t l1, uint32_t l2)
{
    struct core__option__Option__u32 l0;
    uint8_t l3;
    struct core__option__Option__u32 l4;
    uint32_t l5;
    l3 = (uint8_t)(l2 == UINT32_C(0));
    if (l3) {
        l4.tag = UINT8_C(0);
    } else {
        l5 = (uint32_t)((uint32_t)l1 % (uint32_t)l2);
        l4.tag = UINT8_C(1);
        l4.s0 = l5;
    }
    l0 = l4;
    return l0;
}

static RT_SHORT struct core__option__Option__u32 core__int__checked__u32__checked_sub(uint32_t l1, uint32_t l2)
{
    struct core__option__Option__u32 l0;
    uint8_t l3;
    struct core__option__Option__u32 l4;
    uint32_t l5;
    l3 = (uint8_t)(l1 < l2);
    if (l3) {
        l4.tag = UINT8_C(0);
    } else {
        l5 = (uint32_t)((uint32_t)l1 - (uint32_t)l2);
        l4.tag = UINT8_C(1);
        l4.s0 = l5;
    }
    l0 = l4;
    return l0;
}

static RT_SHORT struct core__option__Option__u8 core__int__checked__u8__checked_sub(uint8_t l1, uint8_t l2)
{
    struct core__option__Option__u8 l0;
    uint8_t l3;
    struct core__option__Option__u8 l4;
    uint8_t l5;
    l3 = (uint8_t)(l1 < l2);
    if (l3) {
        l4.tag = UINT8_C(0);
    } else {
        l5 = (uint8_t)((uint32_t)l1 - (uint32_t)l2);
        l4.tag = UINT8_C(1);
        l4.s0 = l5;
    }
    l0 = l4;
    return l0;
}

static RT_HERE struct core__option__Option__u64 core__int__checked__usize__checked_sub(uint64_t l1, uint64_t l2)
{
    struct core__option__Option__u64 l0;
    uint8_t l3;
    struct core__option__Option__u64 l4;
    uint64_t l5;
    l3 = (uint8_t)(l1 < l2);
    if (l3) {
        l4.tag = UINT8_C(0);
    } else {
        l5 = (uint64_t)((uint64_t)l1 - (uint64_t)l2);
        l4.tag = UINT8_C(1);
        l4.s0 = l5;
    }
    l0 = l4;
    return l0;
}

static RT_SHORT uint32_t core__int__i32__cast_unsigned(uint32_t l1)
{
    uint32_t l0;
    uint8_t l2;
    uint32_t l3;
    uint32_t l4;
    uint32_t l5;
    l2 = (uint8_t)((uint32_t)(l1 ^ UINT32_C(2147483648)) < (uint32_t)(UINT32_C(0) ^ UINT32_C(2147483648)));
    if (l2) {
        l4 = (uint32_t)~(uint32_t)l1;
        l5 = (uint32_t)l4;
        l3 = (uint32_t)((uint32_t)UINT32_C(4294967295) - (uint32_t)l5);
    } else {
        l3 = (uint32_t)l1;
    }
    l0 = l3;
    return l0;
}

static RT_SHORT uint64_t core__int__i64__div_euclid(uint64_t l1, uint64_t l2)
{
    uint64_t l0;
    uint8_t l3;
    uint64_t l4;
    uint8_t l5;
    uint64_t l6;
    uint64_t l7;
    uint64_t l8;
    uint64_t l9;
    uint64_t l10;
    l3 = (uint8_t)((uint64_t)(UINT64_C(0) ^ UINT64_C(9223372036854775808)) <= (uint64_t)(l1 ^ UINT64_C(9223372036854775808)));
    if (l3) {
        l4 = (uint64_t)rt_signed_div((uint64_t)l1, (uint64_t)l2);
    } else {
        l5 = (uint8_t)((uint64_t)(UINT64_C(0) ^ UINT64_C(9223372036854775808)) < (uint64_t)(l2 ^ UINT64_C(9223372036854775808)));
        if (l5) {
            l7 = (uint64_t)~(uint64_t)l1;
            l8 = (uint64_t)rt_signed_div((uint64_t)l7, (uint64_t)l2);
            l6 = (uint64_t)~(uint64_t)l8;
        } else {
            l9 = (uint64_t)~(uint64_t)l1;
            l10 = (uint64_t)rt_signed_div((uint64_t)l9, (uint64_t)l2);
            l6 = (uint64_t)((uint64_t)UINT64_C(1) - (uint64_t)l10);
        }
        l4 = l6;
    }
    l0 = l4;
    return l0;
}

static RT_SHORT uint16_t core__int__u16__from_le_bytes(struct rt_array_uint8_2 l1)
{
    uint16_t l0;
    struct rt_array_uint8_2 l2;
    uint8_t *l3;
    uint8_t *l4;
    uint8_t l5;
    uint16_t l6;
    uint8_t *l7;
    uint8_t *l8;
    uint8_t l9;
    uint16_t l10;
    uint16_t l11;
    l2 = l1;
    l3 = (uint8_t *)&l2;
    l4 = l3 + (size_t)UINT64_C(0);
    l5 = (*(uint8_t *)l4);
    l6 = (uint16_t)l5;
    l7 = (uint8_t *)&l2;
    l8 = l7 + (size_t)UINT64_C(1);
    l9 = (*(uint8_t *)l8);
    l10 = (uint16_t)l9;
    l11 = (uint16_t)((uint32_t)l10 * (uint32_t)UINT16_C(256));
    l0 = (uint16_t)((uint32_t)l6 + (uint32_t)l11);
    return l0;
}

static RT_SHORT uint16_t core__int__u16__saturating_sub(uint16_t l1, uint16_t l2)
{
    uint16_t l0;
    uint8_t l3;
    uint16_t l4;
    l3 = (uint8_t)(l2 <= l1);
    if (l3) {
        l4 = (uint16_t)((uint32_t)l1 - (uint32_t)l2);
    } else {
        l4 = UINT16_C(0);
    }
    l0 = l4;
    return l0;
}

static RT_SHORT struct rt_array_uint8_2 core__int__u16__to_le_bytes(uint16_t l1)
{
    struct rt_array_uint8_2 l0;
    uint16_t l2;
    uint8_t l3;
    uint16_t l4;
    uint16_t l5;
    uint8_t l6;
    l2 = (uint16_t)((uint32_t)l1 % (uint32_t)UINT16_C(256));
    l3 = (uint8_t)l2;
    l4 = (uint16_t)((uint32_t)l1 / (uint32_t)UINT16_C(256));
    l5 = (uint16_t)((uint32_t)l4 % (uint32_t)UINT16_C(256));
    l6 = (uint8_t)l5;
    l0 = (struct rt_array_uint8_2){ { l3, l6 } };
    return l0;
}

static RT_SHORT uint32_t core__int__u32__cast_signed(uint32_t l1)
{
    uint32_t l0;
    uint32_t l2;
    uint8_t l3;
    uint32_t l4;
    uint32_t l5;
    uint32_t l6;
    l2 = (uint32_t)UINT32_C(2147483647);
    l3 = (uint8_t)(l1 <= l2);
    if (l3) {
        l4 = (uint32_t)l1;
    } else {
        l5 = (uint32_t)((uint32_t)UINT32_C(4294967295) - (uint32_t)l1);
        l6 = (uint32_t)l5;
        l4 = (uint32_t)~(uint32_t)l6;
    }
    l0 = l4;
    return l0;
}

static inline uint32_t core__int__u32__from_le_bytes(struct rt_array_uint8_4 l1)
{
    uint32_t l0;
    struct rt_array_uint8_4 l2;
    uint8_t *l3;
    uint8_t *l4;
    uint8_t l5;
    uint32_t l6;
    uint8_t *l7;
    uint8_t *l8;
    uint8_t l9;
    uint32_t l10;
    uint32_t l11;
    uint32_t l12;
    uint8_t *l13;
    uint8_t *l14;
    uint8_t l15;
    uint32_t l16;
    uint32_t l17;
    uint32_t l18;
    uint8_t *l19;
    uint8_t *l20;
    uint8_t l21;
    uint32_t l22;
    uint32_t l23;
    l2 = l1;
    l3 = (uint8_t *)&l2;
    l4 = l3 + (size_t)UINT64_C(0);
    l5 = (*(uint8_t *)l4);
    l6 = (uint32_t)l5;
    l7 = (uint8_t *)&l2;
    l8 = l7 + (size_t)UINT64_C(1);
    l9 = (*(uint8_t *)l8);
    l10 = (uint32_t)l9;
    l11 = (uint32_t)((uint32_t)l10 * (uint32_t)UINT32_C(256));
    l12 = (uint32_t)((uint32_t)l6 + (uint32_t)l11);
    l13 = (uint8_t *)&l2;
    l14 = l13 + (size_t)UINT64_C(2);
    l15 = (*(uint8_t *)l14);
    l16 = (uint32_t)l15;
    l17 = (uint32_t)((uint32_t)l16 * (uint32_t)UINT32_C(65536));
    l18 = (uint32_t)((uint32_t)l12 + (uint32_t)l17);
    l19 = (uint8_t *)&l2;
    l20 = l19 + (size_t)UINT64_C(3);
    l21 = (*(uint8_t *)l20);
    l22 = (uint32_t)l21;
    l23 = (uint32_t)((uint32_t)l22 * (uint32_t)UINT32_C(16777216));
    l0 = (uint32_t)((uint32_t)l18 + (uint32_t)l23);
    return l0;
}

static inline struct rt_array_uint8_4 core__int__u32__to_le_bytes(uint32_t l1)
{
    struct rt_array_uint8_4 l0;
    uint32_t l2;
    uint8_t l3;
    uint32_t l4;
    uint32_t l5;
    uint8_t l6;
    uint32_t l7;
    uint32_t l8;
    uint8_t l9;
    uint32_t l10;
    uint32_t l11;
    uint8_t l12;
    l2 = (uint32_t)((uint32_t)l1 % (uint32_t)UINT32_C(256));
    l3 = (uint8_t)l2;
    l4 = (uint32_t)((uint32_t)l1 / (uint32_t)UINT32_C(256));
    l5 = (uint32_t)((uint32_t)l4 % (uint32_t)UINT32_C(256));
    l6 = (uint8_t)l5;
    l7 = (uint32_t)((uint32_t)l1 / (uint32_t)UINT32_C(65536));
    l8 = (uint32_t)((uint32_t)l7 % (uint32_t)UINT32_C(256));
    l9 = (uint8_t)l8;
    l10 = (uint32_t)((uint32_t)l1 / (uint32_t)UINT32_C(16777216));
    l11 = (uint32_t)((uint32_t)l10 % (uint32_t)UINT32_C(256));
    l12 = (uint8_t)l11;
    l0 = (struct rt_array_uint8_4){ { l3, l6, l9, l12 } };
    return l0;
}

static RT_SHORT uint64_t core__int__u64__min(uint64_t l1, uint64_t l2)
{
    uint64_t l0;
    uint8_t l3;
    uint64_t l4;
    l3 = (uint8_t)(l2 < l1);
    if (l3) {
        l4 = l2;
    } else {
        l4 = l1;
    }
    l0 = l4;
    return l0;
}

static RT_SHORT uint8_t core__int__u8__min(uint8_t l1, uint8_t l2)
{
    uint8_t l0;
    uint8_t l3;
    uint8_t l4;
    l3 = (uint8_t)(l2 < l1);
    if (l3) {
        l4 = l2;
    } else {
        l4 = l1;
    }
    l0 = l4;
    return l0;
}

static RT_SHORT uint8_t core__int__u8__saturating_sub(uint8_t l1, uint8_t l2)
{
    uint8_t l0;
    uint8_t l3;
    uint8_t l4;
    l3 = (uint8_t)(l2 <= l1);
    if (l3) {
        l4 = (uint8_t)((uint32_t)l1 - (uint32_t)l2);
    } else {
        l4 = UINT8_C(0);
    }
    l0 = l4;
    return l0;
}

static RT_SHORT uint64_t core__int__usize__div_ceil(uint64_t l1, uint64_t l2)
{
    uint64_t l0;
    uint64_t l3;
    uint64_t l4;
    uint8_t l5;
    uint64_t l6;
    l3 = (uint64_t)((uint64_t)l1 / (uint64_t)l2);
    l4 = (uint64_t)((uint64_t)l1 % (uint64_t)l2);
    l5 = (uint8_t)(l4 == UINT64_C(0));
    if (l5) {
        l6 = l3;
    } else {
        l6 = (uint64_t)((uint64_t)l3 + (uint64_t)UINT64_C(1));
    }
    l0 = l6;
    return l0;
}

static RT_SHORT uint64_t core__int__usize__max(uint64_t l1, uint64_t l2)
{
    uint64_t l0;
    uint8_t l3;
    uint64_t l4;
    l3 = (uint8_t)(l2 < l1);
    if (l3) {
        l4 = l1;
    } else {
        l4 = l2;
    }
    l0 = l4;
    return l0;
}

static RT_SHORT uint64_t core__int__usize__min(uint64_t l1, uint64_t l2)
{
    uint64_t l0;
    uint8_t l3;
    uint64_t l4;
    l3 = (uint8_t)(l2 < l1);
    if (l3) {
        l4 = l2;
    } else {
        l4 = l1;
    }
    l0 = l4;
    return l0;
}

static RT_SHORT uint64_t core__int__usize__saturating_sub(uint64_t l1, uint64_t l2)
{
    uint64_t l0;
    uint8_t l3;
    uint64_t l4;
    l3 = (uint8_t)(l2 <= l1);
    if (l3) {
        l4 = (uint64_t)((uint64_t)l1 - (uint64_t)l2);
    } else {
        l4 = UINT64_C(0);
    }
    l0 = l4;
    return l0;
}

static RT_WITHIN uint8_t core__iter__base__Iterator__all__Iter_u8_ref_u8_all_Self(uint8_t *l1, struct block__fn__zeros__all_Self l2)
{
    uint8_t l0;
    struct block__fn__zeros__all_Self l3;
    struct core__option__Option__ref_u8 l5;
    uint8_t *l6;
    uint8_t l7;
    uint8_t *l8;
    uint8_t l10;
    struct block__fn__zeros__all_Self l11;
    struct block__fn__zeros__all_Self l13;
    l3 = l2;
    for (;;) {
        l6 = (uint8_t *)&(*(struct core__iter__slices__Iter__u8 *)l1);
        l5 = core__iter__slices__IterIterator__next__u8(l6);
        switch (l5.tag) {
            case UINT8_C(1): {
                l8 = (uint8_t *)&l3;
                l7 = block__fn__zeros__all_FnMut__call_mut(l8, l5.s0);
                l10 = (uint8_t)!l7;
                if (l10) {
                    l0 = 0;
                    l11 = l3;
                    core__Destruct__none__drop__all_Self(l11);
                    return l0;
                }
                break;
            }
            case UINT8_C(0): default: {
                goto end1;
                break;
            }
        }
    }
end1:;
    l0 = 1;
    l13 = l3;
    core__Destruct__none__drop__all_Self(l13);
    return l0;
}

static RT_WITHIN uint8_t core__iter__ranges__RangeInclusive__contains__u8(uint8_t *l1, uint8_t *l2)
{
    uint8_t l0;
    uint8_t l3;
    uint8_t *l4;
    uint8_t l5;
    uint8_t l6;
    uint8_t *l7;
    uint8_t *l8;
    l4 = (uint8_t *)&(*(struct core__iter__ranges__RangeInclusive__u8 *)l1).f0;
    l3 = core__cmp__PartialOrd__le__u8(l4, l2);
    l5 = (uint8_t)!l3;
    if (l5) {
        l0 = 0;
        return l0;
    }
    l3 = (*(struct core__iter__ranges__RangeInclusive__u8 *)l1).f2;
    if (l3) {
        l7 = (uint8_t *)&(*(struct core__iter__ranges__RangeInclusive__u8 *)l1).f1;
        l6 = core__cmp__PartialOrd__lt__u8(l2, l7);
    } else {
        l8 = (uint8_t *)&(*(struct core__iter__ranges__RangeInclusive__u8 *)l1).f1;
        l6 = core__cmp__PartialOrd__le__u8(l2, l8);
    }
    l0 = l6;
    return l0;
}

static RT_WITHIN struct core__iter__ranges__RangeInclusive__u8 core__iter__ranges__RangeInclusive__new__u8(uint8_t l1, uint8_t l2)
{
    struct core__iter__ranges__RangeInclusive__u8 l0;
    l0.f0 = l1;
    l0.f1 = l2;
    l0.f2 = 0;
    return l0;
}

static RT_WITHIN struct core__option__Option__ref_u64 core__iter__slices__IterIterator__next__u64(uint8_t *l1)
{
    struct core__option__Option__ref_u64 l0;
    rt_slice l2;
    uint8_t l3;
    uint64_t l4;
    uint8_t *l5;
    uint64_t l6;
    uint8_t *l7;
    rt_slice l8;
    uint8_t *l9;
    uint8_t *l10;
    l2 = (*(struct core__iter__slices__Iter__u64 *)l1).f0;
    l3 = core__slice__slice_T__is_empty__u64(l2);
    if (l3) {
        l0.tag = UINT8_C(0);
        return l0;
    }
    l4 = (uint64_t)((uint64_t)UINT64_C(1) * (uint64_t)UINT64_C(8));
    l5 = l2.p + (size_t)l4;
    l6 = (uint64_t)((uint64_t)l2.n - (uint64_t)UINT64_C(1));
    l7 = (uint8_t *)&(*(uint64_t *)l5);
    l8.p = l7;
    l8.n = l6;
    (*(struct core__iter__slices__Iter__u64 *)l1).f0 = l8;
    l4 = (uint64_t)((uint64_t)UINT64_C(0) * (uint64_t)UINT64_C(8));
    l9 = l2.p + (size_t)l4;
    l10 = (uint8_t *)&(*(uint64_t *)l9);
    l0.tag = UINT8_C(1);
    l0.s0 = l10;
    return l0;
}

static RT_WITHIN struct core__option__Option__ref_u8 core__iter__slices__IterIterator__next__u8(uint8_t *l1)
{
    struct core__option__Option__ref_u8 l0;
    rt_slice l2;
    uint8_t l3;
    uint64_t l4;
    uint8_t *l5;
    uint64_t l6;
    uint8_t *l7;
    rt_slice l8;
    uint8_t *l9;
    uint8_t *l10;
    l2 = (*(struct core__iter__slices__Iter__u8 *)l1).f0;
    l3 = core__slice__slice_T__is_empty__u8(l2);
    if (l3) {
        l0.tag = UINT8_C(0);
        return l0;
    }
    l4 = (uint64_t)((uint64_t)UINT64_C(1) * (uint64_t)UINT64_C(1));
    l5 = l2.p + (size_t)l4;
    l6 = (uint64_t)((uint64_t)l2.n - (uint64_t)UINT64_C(1));
    l7 = (uint8_t *)&(*(uint8_t *)l5);
    l8.p = l7;
    l8.n = l6;
    (*(struct core__iter__slices__Iter__u8 *)l1).f0 = l8;
    l4 = (uint64_t)((uint64_t)UINT64_C(0) * (uint64_t)UINT64_C(1));
    l9 = l2.p + (size_t)l4;
    l10 = (uint8_t *)&(*(uint8_t *)l9);
    l0.tag = UINT8_C(1);
    l0.s0 = l10;
    return l0;
}

static RT_WITHIN struct core__iter__slices__Iter__u64 core__iter__slices__slice_T__iter__u64(rt_slice l1)
{
    struct core__iter__slices__Iter__u64 l0;
    l0.f0 = l1;
    return l0;
}

static RT_WITHIN struct core__iter__slices__Iter__u8 core__iter__slices__slice_T__iter__u8(rt_slice l1)
{
    struct core__iter__slices__Iter__u8 l0;
    l0.f0 = l1;
    return l0;
}

static RT_WITHIN uint64_t core__mem__size_of_param__u8(void)
{
    uint64_t l0;
    l0 = UINT64_C(1);
    return l0;
}

static RT_WITHIN struct core__ops__bounds__Bound__ref_u64 core__ops__bounds__RangeRangeBounds__end_bound__u64(uint8_t *l1)
{
    struct core__ops__bounds__Bound__ref_u64 l0;
    uint8_t *l2;
    l2 = (uint8_t *)&(*(struct core__iter__ranges__Range__u64 *)l1).f1;
    l0.tag = UINT8_C(1);
    l0.s0 = l2;
    return l0;
}

static RT_WITHIN struct core__ops__bounds__Bound__ref_u64 core__ops__bounds__RangeRangeBounds__start_bound__u64(uint8_t *l1)
{
    struct core__ops__bounds__Bound__ref_u64 l0;
    uint8_t *l2;
    l2 = (uint8_t *)&(*(struct core__iter__ranges__Range__u64 *)l1).f0;
    l0.tag = UINT8_C(0);
    l0.s0 = l2;
    return l0;
}

static RT_WITHIN uint8_t core__option__Option__is_none__rt_tuple2_u8_u64(uint8_t *l1)
{
    uint8_t l0;
    uint8_t l2;
    switch ((*(struct core__option__Option__rt_tuple2_u8_u64 *)l1).tag) {
        case UINT8_C(1): {
            l2 = 0;
            break;
        }
        case UINT8_C(0): default: {
            l2 = 1;
            break;
        }
    }
    l0 = l2;
    return l0;
}

static RT_WITHIN uint8_t core__option__Option__is_none__u64(uint8_t *l1)
{
    uint8_t l0;
    uint8_t l2;
    switch ((*(struct core__option__Option__u64 *)l1).tag) {
        case UINT8_C(1): {
            l2 = 0;
            break;
        }
        case UINT8_C(0): default: {
            l2 = 1;
            break;
        }
    }
    l0 = l2;
    return l0;
}

static RT_WITHIN uint8_t core__option__Option__is_some__Row(uint8_t *l1)
{
    uint8_t l0;
    uint8_t l2;
    switch ((*(struct core__option__Option__Row *)l1).tag) {
        case UINT8_C(1): {
            l2 = 1;
            break;
        }
        case UINT8_C(0): default: {
            l2 = 0;
            break;
        }
    }
    l0 = l2;
    return l0;
}

static RT_WITHIN uint8_t core__option__Option__is_some__u64(uint8_t *l1)
{
    uint8_t l0;
    uint8_t l2;
    switch ((*(struct core__option__Option__u64 *)l1).tag) {
        case UINT8_C(1): {
            l2 = 1;
            break;
        }
        case UINT8_C(0): default: {
            l2 = 0;
            break;
        }
    }
    l0 = l2;
    return l0;
}

static RT_WITHIN struct core__option__Option__rt_tuple2_u8_u64 core__option__Option__map__u8_rt_tuple2_u8_u64_map_Self(struct core__option__Option__u8 l1, struct lexer__fn__followed__map_Self l2)
{
    struct core__option__Option__rt_tuple2_u8_u64 l0;
    struct core__option__Option__rt_tuple2_u8_u64 l4;
    struct rt_tuple2__u8_u64 l5;
    switch (l1.tag) {
        case UINT8_C(1): {
            l5 = lexer__fn__followed__map_FnOnce__call_once(l2, l1.s0);
            l4.tag = UINT8_C(1);
            l4.s0.f0 = l5.f0;
            l4.s0.f1 = l5.f1;
            break;
        }
        case UINT8_C(0): default: {
            l4.tag = UINT8_C(0);
            core__Destruct__none__drop__map_Self(l2);
            break;
        }
    }
    l0 = l4;
    return l0;
}

static RT_WITHIN struct core__result__Result__u32_OperatorError core__option__Option__ok_or__u32_OperatorError(struct core__option__Option__u32 l1, struct operators__OperatorError l2)
{
    struct core__result__Result__u32_OperatorError l0;
    struct core__result__Result__u32_OperatorError l4;
    switch (l1.tag) {
        case UINT8_C(1): {
            l4.tag = UINT8_C(0);
            l4.s0 = l1.s0;
            core__Destruct__none__drop__OperatorError(l2);
            break;
        }
        case UINT8_C(0): default: {
            l4.tag = UINT8_C(1);
            l4.s1 = l2;
            break;
        }
    }
    l0 = l4;
    return l0;
}

static RT_WITHIN struct core__result__Result__u64_Refusal core__option__Option__ok_or__u64_Refusal(struct core__option__Option__u64 l1, struct types__refusal__Refusal l2)
{
    struct core__result__Result__u64_Refusal l0;
    struct core__result__Result__u64_Refusal l4;
    switch (l1.tag) {
        case UINT8_C(1): {
            l4.tag = UINT8_C(0);
            l4.s0 = l1.s0;
            core__Destruct__none__drop__Refusal(l2);
            break;
        }
        case UINT8_C(0): default: {
            l4.tag = UINT8_C(1);
            l4.s1 = l2;
            break;
        }
    }
    l0 = l4;
    return l0;
}

static RT_WITHIN uint8_t *core__option__Option__unwrap__ref_u16(struct core__option__Option__ref_u16 l1)
{
    uint8_t *l0;
    switch (l1.tag) {
        case UINT8_C(1): {
            break;
        }
        case UINT8_C(0): default: {
            core__assertions__unreachable();
            RT_NEVER;
            break;
        }
    }
    l0 = l1.s0;
    return l0;
}

static RT_WITHIN uint8_t *core__option__Option__unwrap__ref_u8(struct core__option__Option__ref_u8 l1)
{
    uint8_t *l0;
    switch (l1.tag) {
        case UINT8_C(1): {
            break;
        }
        case UINT8_C(0): default: {
            core__assertions__unreachable();
            RT_NEVER;
            break;
        }
    }
    l0 = l1.s0;
    return l0;
}

static RT_WITHIN uint16_t core__option__Option__unwrap_or__u16(struct core__option__Option__u16 l1, uint16_t l2)
{
    uint16_t l0;
    uint16_t l4;
    switch (l1.tag) {
        case UINT8_C(1): {
            l4 = l1.s0;
            core__Destruct__none__drop__u16(l2);
            break;
        }
        case UINT8_C(0): default: {
            l4 = l2;
            break;
        }
    }
    l0 = l4;
    return l0;
}

static RT_WITHIN uint32_t core__option__Option__unwrap_or__u32(struct core__option__Option__u32 l1, uint32_t l2)
{
    uint32_t l0;
    uint32_t l4;
    switch (l1.tag) {
        case UINT8_C(1): {
            l4 = l1.s0;
            core__Destruct__none__drop__u32(l2);
            break;
        }
        case UINT8_C(0): default: {
            l4 = l2;
            break;
        }
    }
    l0 = l4;
    return l0;
}

static RT_WITHIN uint64_t core__option__Option__unwrap_or__u64(struct core__option__Option__u64 l1, uint64_t l2)
{
    uint64_t l0;
    uint64_t l4;
    switch (l1.tag) {
        case UINT8_C(1): {
            l4 = l1.s0;
            core__Destruct__none__drop__u64(l2);
            break;
        }
        case UINT8_C(0): default: {
            l4 = l2;
            break;
        }
    }
    l0 = l4;
    return l0;
}

static RT_WITHIN uint8_t core__option__Option__unwrap_or__u8(struct core__option__Option__u8 l1, uint8_t l2)
{
    uint8_t l0;
    uint8_t l4;
    switch (l1.tag) {
        case UINT8_C(1): {
            l4 = l1.s0;
            core__Destruct__none__drop__u8(l2);
            break;
        }
        case UINT8_C(0): default: {
            l4 = l2;
            break;
        }
    }
    l0 = l4;
    return l0;
}

static RT_WITHIN struct core__option__Option__ref_u8 core__option__OptionFromResidualNoValue__from_residual__ref_u8(struct core__option__NoValue l1)
{
    struct core__option__Option__ref_u8 l0;
    (void)l1;
    l0.tag = UINT8_C(0);
    return l0;
}

static RT_WITHIN struct core__option__Option__u64 core__option__OptionFromResidualNoValue__from_residual__u64(struct core__option__NoValue l1)
{
    struct core__option__Option__u64 l0;
    (void)l1;
    l0.tag = UINT8_C(0);
    return l0;
}

static RT_WITHIN struct core__ops__ControlFlow__NoValue_ref_u8 core__option__OptionTry__branch__ref_u8(struct core__option__Option__ref_u8 l1)
{
    struct core__ops__ControlFlow__NoValue_ref_u8 l0;
    struct core__ops__ControlFlow__NoValue_ref_u8 l3;
    struct core__option__NoValue l5;
    switch (l1.tag) {
        case UINT8_C(1): {
            l3.tag = UINT8_C(0);
            l3.s0 = l1.s0;
            break;
        }
        case UINT8_C(0): default: {
            l5.none = 0;
            l3.tag = UINT8_C(1);
            l3.s1 = l5;
            break;
        }
    }
    l0 = l3;
    return l0;
}

static RT_WITHIN struct core__ops__ControlFlow__NoValue_rt_tuple2_u8_u64 core__option__OptionTry__branch__rt_tuple2_u8_u64(struct core__option__Option__rt_tuple2_u8_u64 l1)
{
    struct core__ops__ControlFlow__NoValue_rt_tuple2_u8_u64 l0;
    struct core__ops__ControlFlow__NoValue_rt_tuple2_u8_u64 l3;
    struct core__option__NoValue l5;
    switch (l1.tag) {
        case UINT8_C(1): {
            l3.tag = UINT8_C(0);
            l3.s0.f0 = l1.s0.f0;
            l3.s0.f1 = l1.s0.f1;
            break;
        }
        case UINT8_C(0): default: {
            l5.none = 0;
            l3.tag = UINT8_C(1);
            l3.s1 = l5;
            break;
        }
    }
    l0 = l3;
    return l0;
}

static RT_WITHIN struct core__ops__ControlFlow__NoValue_u32 core__option__OptionTry__branch__u32(struct core__option__Option__u32 l1)
{
    struct core__ops__ControlFlow__NoValue_u32 l0;
    struct core__ops__ControlFlow__NoValue_u32 l3;
    struct core__option__NoValue l5;
    switch (l1.tag) {
        case UINT8_C(1): {
            l3.tag = UINT8_C(0);
            l3.s0 = l1.s0;
            break;
        }
        case UINT8_C(0): default: {
            l5.none = 0;
            l3.tag = UINT8_C(1);
            l3.s1 = l5;
            break;
        }
    }
    l0 = l3;
    return l0;
}

static RT_WITHIN struct core__ops__ControlFlow__NoValue_u64 core__option__OptionTry__branch__u64(struct core__option__Option__u64 l1)
{
    struct core__ops__ControlFlow__NoValue_u64 l0;
    struct core__ops__ControlFlow__NoValue_u64 l3;
    struct core__option__NoValue l5;
    switch (l1.tag) {
        case UINT8_C(1): {
            l3.tag = UINT8_C(0);
            l3.s0 = l1.s0;
            break;
        }
        case UINT8_C(0): default: {
            l5.none = 0;
            l3.tag = UINT8_C(1);
            l3.s1 = l5;
            break;
        }
    }
    l0 = l3;
    return l0;
}

static RT_WITHIN struct core__ops__ControlFlow__NoValue_u8 core__option__OptionTry__branch__u8(struct core__option__Option__u8 l1)
{
    struct core__ops__ControlFlow__NoValue_u8 l0;
    struct core__ops__ControlFlow__NoValue_u8 l3;
    struct core__option__NoValue l5;
    switch (l1.tag) {
        case UINT8_C(1): {
            l3.tag = UINT8_C(0);
            l3.s0 = l1.s0;
            break;
        }
        case UINT8_C(0): default: {
            l5.none = 0;
            l3.tag = UINT8_C(1);
            l3.s1 = l5;
            break;
        }
    }
    l0 = l3;
    return l0;
}

static RT_WITHIN struct core__option__Option__u16 core__option__more__Option_ref_T__copied__u16(struct core__option__Option__ref_u16 l1)
{
    struct core__option__Option__u16 l0;
    struct core__option__Option__u16 l2;
    uint8_t *l3;
    uint16_t l5;
    switch (l1.tag) {
        case UINT8_C(1): {
            l3 = core__option__Option__unwrap__ref_u16(l1);
            l5 = (*(uint16_t *)l3);
            l2.tag = UINT8_C(1);
            l2.s0 = l5;
            break;
        }
        case UINT8_C(0): default: {
            l2.tag = UINT8_C(0);
            break;
        }
    }
    l0 = l2;
    return l0;
}

static RT_WITHIN struct core__option__Option__u8 core__option__more__Option_ref_T__copied__u8(struct core__option__Option__ref_u8 l1)
{
    struct core__option__Option__u8 l0;
    struct core__option__Option__u8 l2;
    uint8_t *l3;
    uint8_t l5;
    switch (l1.tag) {
        case UINT8_C(1): {
            l3 = core__option__Option__unwrap__ref_u8(l1);
            l5 = (*(uint8_t *)l3);
            l2.tag = UINT8_C(1);
            l2.s0 = l5;
            break;
        }
        case UINT8_C(0): default: {
            l2.tag = UINT8_C(0);
            break;
        }
    }
    l0 = l2;
    return l0;
}

static RT_WITHIN void core__ptr__copy_drop__copy_bits__u8(uint8_t *l1, uint8_t *l2, uint64_t l3)
{
    uint64_t l4;
    uint8_t l5;
    uint64_t l6;
    uint8_t *l7;
    uint64_t l8;
    uint8_t *l9;
    uint8_t l10;
    if ((uintptr_t)l2 - (uintptr_t)l1 >= (size_t)l3 * 1 && (uintptr_t)l1 - (uintptr_t)l2 >= (size_t)l3 * 1) {
        memcpy(l2, l1, (size_t)l3 * 1);
        return;
    }
    l4 = UINT64_C(0);
    for (;;) {
        l5 = (uint8_t)(l4 < l3);
        if (l5) {
        } else {
            goto end1;
        }
        l6 = (uint64_t)((uint64_t)l4 * (uint64_t)UINT64_C(1));
        l7 = l2 + (size_t)l6;
        l8 = (uint64_t)((uint64_t)l4 * (uint64_t)UINT64_C(1));
        l9 = l1 + (size_t)l8;
        l10 = (*(uint8_t *)l9);
        (*(uint8_t *)l7) = l10;
        l4 = (uint64_t)((uint64_t)l4 + (uint64_t)UINT64_C(1));
    }
end1:;
    return;
}

static RT_WITHIN struct core__option__Option__u32 core__result__Result__ok__u32_TryFromIntError(struct core__result__Result__u32_TryFromIntError l1)
{
    struct core__option__Option__u32 l0;
    struct core__option__Option__u32 l3;
    switch (l1.tag) {
        case UINT8_C(0): {
            l3.tag = UINT8_C(1);
            l3.s0 = l1.s0;
            l0 = l3;
            return l0;
            break;
        }
        case UINT8_C(1): default: {
            l3.tag = UINT8_C(0);
            break;
        }
    }
    l0 = l3;
    switch (l1.tag) {
        case UINT8_C(1): {
            core__Destruct__none__drop__TryFromIntError(l1.s1);
            break;
        }
        case UINT8_C(0): default: {
            break;
        }
    }
    return l0;
}

static RT_WITHIN struct core__ops__ControlFlow__ErrResidual_Refusal_Loaded core__result__ResultTry__branch__Loaded_Refusal(struct core__result__Result__Loaded_Refusal l1)
{
    struct core__ops__ControlFlow__ErrResidual_Refusal_Loaded l0;
    struct core__ops__ControlFlow__ErrResidual_Refusal_Loaded l4;
    struct core__result__ErrResidual__Refusal l7;
    switch (l1.tag) {
        case UINT8_C(0): {
            l4.tag = UINT8_C(0);
            l4.s0.f0 = l1.s0.f0;
            l4.s0.f1 = l1.s0.f1;
            l4.s0.f2 = l1.s0.f2;
            l4.s0.f3 = l1.s0.f3;
            l4.s0.f4 = l1.s0.f4;
            l4.s0.f5 = l1.s0.f5;
            l4.s0.f6 = l1.s0.f6;
            break;
        }
        case UINT8_C(1): default: {
            l7.f0 = l1.s1;
            l4.tag = UINT8_C(1);
            l4.s1.f0 = l7.f0;
            break;
        }
    }
    l0 = l4;
    return l0;
}

static RT_WITHIN struct core__ops__ControlFlow__ErrResidual_Refusal_Seat core__result__ResultTry__branch__Seat_Refusal(struct core__result__Result__Seat_Refusal l1)
{
    struct core__ops__ControlFlow__ErrResidual_Refusal_Seat l0;
    struct core__ops__ControlFlow__ErrResidual_Refusal_Seat l4;
    struct core__result__ErrResidual__Refusal l7;
    switch (l1.tag) {
        case UINT8_C(0): {
            l4.tag = UINT8_C(0);
            l4.s0.f0 = l1.s0.f0;
            l4.s0.f1.f0 = l1.s0.f1.f0;
            l4.s0.f1.f1 = l1.s0.f1.f1;
            l4.s0.f1.f2 = l1.s0.f1.f2;
            l4.s0.f1.f3 = l1.s0.f1.f3;
            l4.s0.f1.f4 = l1.s0.f1.f4;
            l4.s0.f1.f5 = l1.s0.f1.f5;
            l4.s0.f1.f6 = l1.s0.f1.f6;
            break;
        }
        case UINT8_C(1): default: {
            l7.f0 = l1.s1;
            l4.tag = UINT8_C(1);
            l4.s1.f0 = l7.f0;
            break;
        }
    }
    l0 = l4;
    return l0;
}

static RT_WITHIN struct core__ops__ControlFlow__ErrResidual_Refusal_count_images_Counts core__result__ResultTry__branch__count_images_Counts_Refusal(struct core__result__Result__count_images_Counts_Refusal l1)
{
    struct core__ops__ControlFlow__ErrResidual_Refusal_count_images_Counts l0;
    struct core__ops__ControlFlow__ErrResidual_Refusal_count_images_Counts l4;
    struct core__result__ErrResidual__Refusal l7;
    switch (l1.tag) {
        case UINT8_C(0): {
            l4.tag = UINT8_C(0);
            l4.s0.f0 = l1.s0.f0;
            l4.s0.f1 = l1.s0.f1;
            l4.s0.f2 = l1.s0.f2;
            l4.s0.f3 = l1.s0.f3;
            break;
        }
        case UINT8_C(1): default: {
            l7.f0 = l1.s1;
            l4.tag = UINT8_C(1);
            l4.s1.f0 = l7.f0;
            break;
        }
    }
    l0 = l4;
    return l0;
}

static RT_WITHIN struct core__ops__ControlFlow__ErrResidual_Refusal_rt_tuple2_u64_Done core__result__ResultTry__branch__rt_tuple2_u64_Done_Refusal(struct core__result__Result__rt_tuple2_u64_Done_Refusal l1)
{
    struct core__ops__ControlFlow__ErrResidual_Refusal_rt_tuple2_u64_Done l0;
    struct core__ops__ControlFlow__ErrResidual_Refusal_rt_tuple2_u64_Done l4;
    struct core__result__ErrResidual__Refusal l7;
    switch (l1.tag) {
        case UINT8_C(0): {
            l4.tag = UINT8_C(0);
            l4.s0.f0 = l1.s0.f0;
            l4.s0.f1.f0 = l1.s0.f1.f0;
            l4.s0.f1.f1 = l1.s0.f1.f1;
            l4.s0.f1.f2 = l1.s0.f1.f2;
            l4.s0.f1.f3 = l1.s0.f1.f3;
            l4.s0.f1.f4.f0 = l1.s0.f1.f4.f0;
            l4.s0.f1.f4.f1 = l1.s0.f1.f4.f1;
            break;
        }
        case UINT8_C(1): default: {
            l7.f0 = l1.s1;
            l4.tag = UINT8_C(1);
            l4.s1.f0 = l7.f0;
            break;
        }
    }
    l0 = l4;
    return l0;
}

static RT_WITHIN struct core__ops__ControlFlow__ErrResidual_Refusal_rt_tuple2_u64_Facts core__result__ResultTry__branch__rt_tuple2_u64_Facts_Refusal(struct core__result__Result__rt_tuple2_u64_Facts_Refusal l1)
{
    struct core__ops__ControlFlow__ErrResidual_Refusal_rt_tuple2_u64_Facts l0;
    struct core__ops__ControlFlow__ErrResidual_Refusal_rt_tuple2_u64_Facts l4;
    struct core__result__ErrResidual__Refusal l7;
    switch (l1.tag) {
        case UINT8_C(0): {
            l4.tag = UINT8_C(0);
            l4.s0.f0 = l1.s0.f0;
            l4.s0.f1.f0 = l1.s0.f1.f0;
            l4.s0.f1.f1 = l1.s0.f1.f1;
            l4.s0.f1.f2 = l1.s0.f1.f2;
            l4.s0.f1.f3 = l1.s0.f1.f3;
            break;
        }
        case UINT8_C(1): default: {
            l7.f0 = l1.s1;
            l4.tag = UINT8_C(1);
            l4.s1.f0 = l7.f0;
            break;
        }
    }
    l0 = l4;
    return l0;
}

static RT_WITHIN struct core__ops__ControlFlow__ErrResidual_Refusal_rt_tuple2__d7d566f0 core__result__ResultTry__branch__rt_tuple2_u64_Planned_Refusal(struct core__result__Result__rt_tuple2_u64_Planned_Refusal l1)
{
    struct core__ops__ControlFlow__ErrResidual_Refusal_rt_tuple2__d7d566f0 l0;
    struct core__ops__ControlFlow__ErrResidual_Refusal_rt_tuple2__d7d566f0 l4;
    struct core__result__ErrResidual__Refusal l7;
    switch (l1.tag) {
        case UINT8_C(0): {
            l4.tag = UINT8_C(0);
            l4.s0.f0 = l1.s0.f0;
            l4.s0.f1.f0 = l1.s0.f1.f0;
            l4.s0.f1.f1 = l1.s0.f1.f1;
            break;
        }
        case UINT8_C(1): default: {
            l7.f0 = l1.s1;
            l4.tag = UINT8_C(1);
            l4.s1.f0 = l7.f0;
            break;
        }
    }
    l0 = l4;
    return l0;
}

static RT_WITHIN struct core__ops__ControlFlow__ErrResidual_Refusal_rt_tuple2__a4800219 core__result__ResultTry__branch__rt_tuple2_u64_Summary_Refusal(struct core__result__Result__rt_tuple2_u64_Summary_Refusal l1)
{
    struct core__ops__ControlFlow__ErrResidual_Refusal_rt_tuple2__a4800219 l0;
    struct core__ops__ControlFlow__ErrResidual_Refusal_rt_tuple2__a4800219 l4;
    struct core__result__ErrResidual__Refusal l7;
    switch (l1.tag) {
        case UINT8_C(0): {
            l4.tag = UINT8_C(0);
            l4.s0.f0 = l1.s0.f0;
            l4.s0.f1.f0 = l1.s0.f1.f0;
            l4.s0.f1.f1 = l1.s0.f1.f1;
            l4.s0.f1.f2 = l1.s0.f1.f2;
            l4.s0.f1.f3 = l1.s0.f1.f3;
            l4.s0.f1.f4 = l1.s0.f1.f4;
            l4.s0.f1.f5 = l1.s0.f1.f5;
            break;
        }
        case UINT8_C(1): default: {
            l7.f0 = l1.s1;
            l4.tag = UINT8_C(1);
            l4.s1.f0 = l7.f0;
            break;
        }
    }
    l0 = l4;
    return l0;
}

static RT_WITHIN struct core__ops__ControlFlow__ErrResidual_Refusal_rt_tuple2__da2d7d9c core__result__ResultTry__branch__rt_tuple2_u64_Totals_Refusal(struct core__result__Result__rt_tuple2_u64_Totals_Refusal l1)
{
    struct core__ops__ControlFlow__ErrResidual_Refusal_rt_tuple2__da2d7d9c l0;
    struct core__ops__ControlFlow__ErrResidual_Refusal_rt_tuple2__da2d7d9c l4;
    struct core__result__ErrResidual__Refusal l7;
    switch (l1.tag) {
        case UINT8_C(0): {
            l4.tag = UINT8_C(0);
            l4.s0.f0 = l1.s0.f0;
            l4.s0.f1.f0 = l1.s0.f1.f0;
            l4.s0.f1.f1 = l1.s0.f1.f1;
            l4.s0.f1.f2 = l1.s0.f1.f2;
            l4.s0.f1.f3 = l1.s0.f1.f3;
            l4.s0.f1.f4 = l1.s0.f1.f4;
            break;
        }
        case UINT8_C(1): default: {
            l7.f0 = l1.s1;
            l4.tag = UINT8_C(1);
            l4.s1.f0 = l7.f0;
            break;
        }
    }
    l0 = l4;
    return l0;
}

static RT_WITHIN struct core__ops__ControlFlow__ErrResidual_Refusal_rt_tuple2_u64_u8 core__result__ResultTry__branch__rt_tuple2_u64_u8_Refusal(struct core__result__Result__rt_tuple2_u64_u8_Refusal l1)
{
    struct core__ops__ControlFlow__ErrResidual_Refusal_rt_tuple2_u64_u8 l0;
    struct core__ops__ControlFlow__ErrResidual_Refusal_rt_tuple2_u64_u8 l4;
    struct core__result__ErrResidual__Refusal l7;
    switch (l1.tag) {
        case UINT8_C(0): {
            l4.tag = UINT8_C(0);
            l4.s0.f0 = l1.s0.f0;
            l4.s0.f1 = l1.s0.f1;
            break;
        }
        case UINT8_C(1): default: {
            l7.f0 = l1.s1;
            l4.tag = UINT8_C(1);
            l4.s1.f0 = l7.f0;
            break;
        }
    }
    l0 = l4;
    return l0;
}

static RT_WITHIN struct core__ops__ControlFlow__ErrResidual_Refusal_rt_tuple2_u8_u64 core__result__ResultTry__branch__rt_tuple2_u8_u64_Refusal(struct core__result__Result__rt_tuple2_u8_u64_Refusal l1)
{
    struct core__ops__ControlFlow__ErrResidual_Refusal_rt_tuple2_u8_u64 l0;
    struct core__ops__ControlFlow__ErrResidual_Refusal_rt_tuple2_u8_u64 l4;
    struct core__result__ErrResidual__Refusal l7;
    switch (l1.tag) {
        case UINT8_C(0): {
            l4.tag = UINT8_C(0);
            l4.s0.f0 = l1.s0.f0;
            l4.s0.f1 = l1.s0.f1;
            break;
        }
        case UINT8_C(1): default: {
            l7.f0 = l1.s1;
            l4.tag = UINT8_C(1);
            l4.s1.f0 = l7.f0;
            break;
        }
    }
    l0 = l4;
    return l0;
}

static RT_WITHIN struct core__ops__ControlFlow__ErrResidual_NoProgram_u64 core__result__ResultTry__branch__u64_NoProgram(struct core__result__Result__u64_NoProgram l1)
{
    struct core__ops__ControlFlow__ErrResidual_NoProgram_u64 l0;
    struct core__ops__ControlFlow__ErrResidual_NoProgram_u64 l4;
    struct core__result__ErrResidual__NoProgram l7;
    switch (l1.tag) {
        case UINT8_C(0): {
            l4.tag = UINT8_C(0);
            l4.s0 = l1.s0;
            break;
        }
        case UINT8_C(1): default: {
            l7.f0.f0 = l1.s1.f0;
            l4.tag = UINT8_C(1);
            l4.s1.f0.f0 = l7.f0.f0;
            break;
        }
    }
    l0 = l4;
    return l0;
}

static RT_WITHIN struct core__ops__ControlFlow__ErrResidual_OperatorError_u64 core__result__ResultTry__branch__u64_OperatorError(struct core__result__Result__u64_OperatorError l1)
{
    struct core__ops__ControlFlow__ErrResidual_OperatorError_u64 l0;
    struct core__ops__ControlFlow__ErrResidual_OperatorError_u64 l4;
    struct core__result__ErrResidual__OperatorError l7;
    switch (l1.tag) {
        case UINT8_C(0): {
            l4.tag = UINT8_C(0);
            l4.s0 = l1.s0;
            break;
        }
        case UINT8_C(1): default: {
            l7.f0 = l1.s1;
            l4.tag = UINT8_C(1);
            l4.s1.f0 = l7.f0;
            break;
        }
    }
    l0 = l4;
    return l0;
}

static RT_WITHIN struct core__ops__ControlFlow__ErrResidual_Refusal_u64 core__result__ResultTry__branch__u64_Refusal(struct core__result__Result__u64_Refusal l1)
{
    struct core__ops__ControlFlow__ErrResidual_Refusal_u64 l0;
    struct core__ops__ControlFlow__ErrResidual_Refusal_u64 l4;
    struct core__result__ErrResidual__Refusal l7;
    switch (l1.tag) {
        case UINT8_C(0): {
            l4.tag = UINT8_C(0);
            l4.s0 = l1.s0;
            break;
        }
        case UINT8_C(1): default: {
            l7.f0 = l1.s1;
            l4.tag = UINT8_C(1);
            l4.s1.f0 = l7.f0;
            break;
        }
    }
    l0 = l4;
    return l0;
}

static RT_WITHIN struct core__ops__ControlFlow__ErrResidual_Refusal_unit core__result__ResultTry__branch__unit_Refusal(struct core__result__Result__unit_Refusal l1)
{
    struct core__ops__ControlFlow__ErrResidual_Refusal_unit l0;
    struct core__ops__ControlFlow__ErrResidual_Refusal_unit l4;
    struct core__result__ErrResidual__Refusal l7;
    switch (l1.tag) {
        case UINT8_C(0): {
            l4.tag = UINT8_C(0);
            break;
        }
        case UINT8_C(1): default: {
            l7.f0 = l1.s0;
            l4.tag = UINT8_C(1);
            l4.s0.f0 = l7.f0;
            break;
        }
    }
    l0 = l4;
    return l0;
}

static RT_WITHIN struct rt_tuple3__Slots_u8_unit_unit core__slice__edits__copy_over__u8(struct core__slots__Slots__u8 l1, rt_slice l3)
{
    struct rt_tuple3__Slots_u8_unit_unit l0;
    struct core__slots__Slots__u8 l4;
    uint8_t *l6;
    struct core__slots__Slots__u8 l7;
    l4.f0 = l1.f0;
    l4.f1 = l1.f1;
    l6 = (uint8_t *)&l4;
    core__slots__Slots__copy_in__u8(l6, UINT64_C(0), l3);
    l7.f0 = l4.f0;
    l7.f1 = l4.f1;
    l0.f0.f0 = l7.f0;
    l0.f0.f1 = l7.f1;
    return l0;
}

static RT_WITHIN void core__slice__edits__slice_T__copy_from_slice__u8(rt_slice l1, rt_slice l2)
{
    uint8_t *l5;
    rt_slice l6;
    uint8_t *l7;
    l5 = (uint8_t *)&(*(uint8_t *)l1.p);
    l6.p = l5;
    l6.n = l1.n;
    l7 = (uint8_t *)0;
    core__slots__lends__with_slots__u8_unit_slice_u8_unit_unit(l6, l7, l2);
    return;
}

static RT_WITHIN void core__slice__edits__slice_T__fill__u8(rt_slice l1, uint8_t l2)
{
    uint8_t l3;
    uint64_t l5;
    uint8_t l6;
    uint64_t l7;
    uint8_t l8;
    uint8_t l9;
    uint8_t *l10;
    uint8_t *l11;
    uint8_t l12;
    uint64_t l13;
    uint64_t l14;
    uint8_t *l15;
    uint8_t l16;
    uint8_t l18;
    uint8_t l19;
    l3 = l2;
    l6 = (uint8_t)(l1.n == UINT64_C(0));
    if (l6) {
        l16 = l3;
        core__Destruct__none__drop__u8(l16);
        return;
    }
    l5 = UINT64_C(0);
    for (;;) {
        l7 = (uint64_t)((uint64_t)l1.n - (uint64_t)UINT64_C(1));
        l8 = (uint8_t)(l5 < l7);
        if (l8) {
        } else {
            goto end1;
        }
        l10 = (uint8_t *)&l3;
        l9 = core__clone__surely__u8(l10);
        l7 = (uint64_t)((uint64_t)l5 * (uint64_t)UINT64_C(1));
        l11 = l1.p + (size_t)l7;
        l18 = (*(uint8_t *)l11);
        (*(uint8_t *)l11) = l9;
        core__Destruct__none__drop__u8(l18);
        l5 = (uint64_t)((uint64_t)l5 + (uint64_t)UINT64_C(1));
    }
end1:;
    l12 = l3;
    l13 = (uint64_t)((uint64_t)l1.n - (uint64_t)UINT64_C(1));
    l14 = (uint64_t)((uint64_t)l13 * (uint64_t)UINT64_C(1));
    l15 = l1.p + (size_t)l14;
    l19 = (*(uint8_t *)l15);
    (*(uint8_t *)l15) = l12;
    core__Destruct__none__drop__u8(l19);
    return;
}

static RT_WITHIN struct core__option__Option__ref_u16 core__slice__index__UsizeSliceIndexRefSlice__pick__u16(uint64_t l1, rt_slice l2)
{
    struct core__option__Option__ref_u16 l0;
    uint8_t l4;
    struct core__option__Option__ref_u16 l5;
    uint64_t l6;
    uint8_t *l7;
    uint8_t *l8;
    l4 = (uint8_t)(l1 < l2.n);
    if (l4) {
        l6 = (uint64_t)((uint64_t)l1 * (uint64_t)UINT64_C(2));
        l7 = l2.p + (size_t)l6;
        l8 = (uint8_t *)&(*(uint16_t *)l7);
        l5.tag = UINT8_C(1);
        l5.s0 = l8;
    } else {
        l5.tag = UINT8_C(0);
    }
    l0 = l5;
    return l0;
}

static RT_WITHIN struct core__option__Option__ref_u8 core__slice__index__UsizeSliceIndexRefSlice__pick__u8(uint64_t l1, rt_slice l2)
{
    struct core__option__Option__ref_u8 l0;
    uint8_t l4;
    struct core__option__Option__ref_u8 l5;
    uint64_t l6;
    uint8_t *l7;
    uint8_t *l8;
    l4 = (uint8_t)(l1 < l2.n);
    if (l4) {
        l6 = (uint64_t)((uint64_t)l1 * (uint64_t)UINT64_C(1));
        l7 = l2.p + (size_t)l6;
        l8 = (uint8_t *)&(*(uint8_t *)l7);
        l5.tag = UINT8_C(1);
        l5.s0 = l8;
    } else {
        l5.tag = UINT8_C(0);
    }
    l0 = l5;
    return l0;
}

static RT_WITHIN struct core__iter__ranges__Range__u64 core__slice__ranges__range__Range_u64(struct core__iter__ranges__Range__u64 l1, struct core__iter__ranges__RangeTo__u64 l2)
{
    struct core__iter__ranges__Range__u64 l0;
    struct core__iter__ranges__Range__u64 l3;
    uint64_t l4;
    uint64_t l7;
    struct core__ops__bounds__Bound__ref_u64 l10;
    uint8_t *l11;
    uint64_t l12;
    uint64_t l13;
    struct core__ops__bounds__Bound__ref_u64 l14;
    uint8_t *l15;
    uint64_t l16;
    uint64_t l17;
    struct core__iter__ranges__Range__u64 l18;
    l3.f0 = l1.f0;
    l3.f1 = l1.f1;
    l11 = (uint8_t *)&l3;
    l10 = core__ops__bounds__RangeRangeBounds__start_bound__u64(l11);
    switch (l10.tag) {
        case UINT8_C(0): {
            l12 = (*(uint64_t *)l10.s0);
            break;
        }
        case UINT8_C(1): {
            l13 = (*(uint64_t *)l10.s0);
            l12 = (uint64_t)((uint64_t)l13 + (uint64_t)UINT64_C(1));
            break;
        }
        case UINT8_C(2): default: {
            l12 = UINT64_C(0);
            break;
        }
    }
    l4 = l12;
    l15 = (uint8_t *)&l3;
    l14 = core__ops__bounds__RangeRangeBounds__end_bound__u64(l15);
    switch (l14.tag) {
        case UINT8_C(0): {
            l17 = (*(uint64_t *)l14.s0);
            l16 = (uint64_t)((uint64_t)l17 + (uint64_t)UINT64_C(1));
            break;
        }
        case UINT8_C(1): {
            l16 = (*(uint64_t *)l14.s0);
            break;
        }
        case UINT8_C(2): default: {
            l16 = l2.f0;
            break;
        }
    }
    l7 = l16;
    l0.f0 = l4;
    l0.f1 = l7;
    l18.f0 = l3.f0;
    l18.f1 = l3.f1;
    core__Destruct__none__drop__Range_u64(l18);
    return l0;
}

static RT_WITHIN uint8_t core__slice__scan__any_by_groups__ElementMismatch_u8(uint8_t *l1, uint64_t l2, uint64_t l3)
{
    uint8_t l0;
    uint64_t l4;
    uint64_t l5;
    uint8_t l6;
    uint64_t l7;
    uint8_t l8;
    uint64_t l9;
    uint64_t l10;
    l6 = (uint8_t)(l3 < UINT64_C(8));
    if (l6) {
        l0 = core__slice__scan__any_in_turn__ElementMismatch_u8(l1, l2);
        return l0;
    }
    l7 = (uint64_t)((uint64_t)l3 / (uint64_t)UINT64_C(8));
    l6 = (uint8_t)(l2 < l7);
    if (l6) {
        l8 = (uint8_t)(UINT64_C(0) < l2);
        if (l8) {
            l8 = core__slice__scan__any_in_three__ElementMismatch_u8(l1, l2);
        }
        l0 = l8;
        return l0;
    }
    l7 = (uint64_t)((uint64_t)l3 / (uint64_t)UINT64_C(4));
    l6 = (uint8_t)(l2 <= l7);
    if (l6) {
        l9 = (uint64_t)((uint64_t)l3 / (uint64_t)UINT64_C(8));
        l0 = core__slice__scan__any_in_ends__ElementMismatch_u8(l1, l2, l9);
        return l0;
    }
    l6 = (uint8_t)(l2 <= l3);
    if (l6) {
        l10 = (uint64_t)((uint64_t)l3 / (uint64_t)UINT64_C(4));
        l0 = core__slice__scan__any_in_quarters__ElementMismatch_u8(l1, l2, l10);
        return l0;
    }
    l7 = (uint64_t)((uint64_t)UINT64_C(2) * (uint64_t)l3);
    l6 = (uint8_t)(l2 <= l7);
    if (l6) {
        l0 = core__slice__scan__any_in_ends__ElementMismatch_u8(l1, l2, l3);
        return l0;
    }
    l7 = (uint64_t)((uint64_t)UINT64_C(2) * (uint64_t)l3);
    l4 = core__slice__scan__skip_groups__ElementMismatch_u8(l1, UINT64_C(0), l2, l7);
    l5 = core__slice__scan__skip_groups__ElementMismatch_u8(l1, l4, l2, l3);
    l7 = (uint64_t)((uint64_t)l2 - (uint64_t)l5);
    l6 = (uint8_t)(l3 <= l7);
    if (l6) {
        l0 = 1;
        return l0;
    }
    l7 = (uint64_t)((uint64_t)l2 - (uint64_t)l3);
    l0 = core__slice__scan__any_in_run__ElementMismatch_u8(l1, l7, l3);
    return l0;
}

static RT_WITHIN uint8_t core__slice__scan__any_by_one__ElementMismatch_u8(uint8_t *l1, uint64_t l2)
{
    uint8_t l0;
    uint64_t l3;
    l3 = core__slice__scan__first_by_one__ElementMismatch_u8(l1, UINT64_C(0), l2);
    l0 = (uint8_t)(l3 < l2);
    return l0;
}

static RT_WITHIN uint8_t core__slice__scan__any_in_ends__ElementMismatch_u8(uint8_t *l1, uint64_t l2, uint64_t l3)
{
    uint8_t l0;
    uint8_t l4;
    uint8_t l5;
    uint64_t l6;
    l4 = core__slice__scan__any_in_run__ElementMismatch_u8(l1, UINT64_C(0), l3);
    l6 = (uint64_t)((uint64_t)l2 - (uint64_t)l3);
    l5 = core__slice__scan__any_in_run__ElementMismatch_u8(l1, l6, l3);
    l0 = (uint8_t)((uint32_t)l4 | (uint32_t)l5);
    return l0;
}

static RT_WITHIN uint8_t core__slice__scan__any_in_quarters__ElementMismatch_u8(uint8_t *l1, uint64_t l2, uint64_t l3)
{
    uint8_t l0;
    uint64_t l4;
    uint8_t l5;
    uint8_t l6;
    uint64_t l7;
    uint8_t l8;
    uint8_t l9;
    uint64_t l10;
    uint64_t l11;
    uint8_t l12;
    uint8_t l13;
    l4 = (uint64_t)((uint64_t)l2 - (uint64_t)l3);
    l5 = core__slice__scan__any_in_run__ElementMismatch_u8(l1, UINT64_C(0), l3);
    l7 = core__int__usize__min(l3, l4);
    l6 = core__slice__scan__any_in_run__ElementMismatch_u8(l1, l7, l3);
    l8 = (uint8_t)((uint32_t)l5 | (uint32_t)l6);
    l11 = (uint64_t)((uint64_t)UINT64_C(2) * (uint64_t)l3);
    l10 = core__int__usize__min(l11, l4);
    l9 = core__slice__scan__any_in_run__ElementMismatch_u8(l1, l10, l3);
    l12 = (uint8_t)((uint32_t)l8 | (uint32_t)l9);
    l13 = core__slice__scan__any_in_run__ElementMismatch_u8(l1, l4, l3);
    l0 = (uint8_t)((uint32_t)l12 | (uint32_t)l13);
    return l0;
}

static RT_WITHIN uint8_t core__slice__scan__any_in_run__ElementMismatch_u8(uint8_t *l1, uint64_t l2, uint64_t l3)
{
    uint8_t l0;
    uint8_t l4;
    uint64_t l5;
    uint8_t l6;
    uint64_t l7;
    l4 = 0;
    l5 = UINT64_C(0);
    for (;;) {
        l6 = (uint8_t)(l5 < l3);
        if (l6) {
        } else {
            goto end1;
        }
        l7 = (uint64_t)((uint64_t)l2 + (uint64_t)l5);
        l6 = core__cmp__slices__ElementMismatchPlaceTest__at__u8(l1, l7);
        l4 = (uint8_t)((uint32_t)l4 | (uint32_t)l6);
        l5 = (uint64_t)((uint64_t)l5 + (uint64_t)UINT64_C(1));
    }
end1:;
    l0 = l4;
    return l0;
}

static RT_WITHIN uint8_t core__slice__scan__any_in_three__ElementMismatch_u8(uint8_t *l1, uint64_t l2)
{
    uint8_t l0;
    uint8_t l3;
    uint8_t l4;
    uint64_t l5;
    uint8_t l6;
    uint8_t l7;
    uint64_t l8;
    l3 = core__slice__scan__any_in_run__ElementMismatch_u8(l1, UINT64_C(0), UINT64_C(1));
    l5 = (uint64_t)((uint64_t)l2 / (uint64_t)UINT64_C(2));
    l4 = core__slice__scan__any_in_run__ElementMismatch_u8(l1, l5, UINT64_C(1));
    l6 = (uint8_t)((uint32_t)l3 | (uint32_t)l4);
    l8 = (uint64_t)((uint64_t)l2 - (uint64_t)UINT64_C(1));
    l7 = core__slice__scan__any_in_run__ElementMismatch_u8(l1, l8, UINT64_C(1));
    l0 = (uint8_t)((uint32_t)l6 | (uint32_t)l7);
    return l0;
}

static RT_WITHIN uint8_t core__slice__scan__any_in_turn__ElementMismatch_u8(uint8_t *l1, uint64_t l2)
{
    uint8_t l0;
    uint64_t l3;
    uint64_t l4;
    uint8_t l5;
    uint64_t l6;
    uint64_t l7;
    uint64_t l8;
    l3 = UINT64_C(0);
    for (;;) {
        l4 = (uint64_t)((uint64_t)l2 - (uint64_t)l3);
        l5 = (uint8_t)(UINT64_C(4) <= l4);
        if (l5) {
        } else {
            goto end1;
        }
        l6 = (uint64_t)((uint64_t)l3 + (uint64_t)UINT64_C(4));
        l4 = core__slice__scan__first_by_one__ElementMismatch_u8(l1, l3, l6);
        l7 = (uint64_t)((uint64_t)l3 + (uint64_t)UINT64_C(4));
        l5 = (uint8_t)(l4 < l7);
        if (l5) {
            l0 = 1;
            return l0;
        }
        l3 = (uint64_t)((uint64_t)l3 + (uint64_t)UINT64_C(4));
    }
end1:;
    l8 = core__slice__scan__first_by_one__ElementMismatch_u8(l1, l3, l2);
    l0 = (uint8_t)(l8 < l2);
    return l0;
}

static RT_WITHIN uint64_t core__slice__scan__first_by_one__ElementMismatch_u8(uint8_t *l1, uint64_t l2, uint64_t l3)
{
    uint64_t l0;
    uint64_t l4;
    uint8_t l5;
    uint8_t l6;
    l4 = l2;
    for (;;) {
        l5 = (uint8_t)(l4 < l3);
        if (l5) {
        } else {
            goto end1;
        }
        l6 = core__cmp__slices__ElementMismatchPlaceTest__at__u8(l1, l4);
        if (l6) {
            l0 = l4;
            return l0;
        }
        l4 = (uint64_t)((uint64_t)l4 + (uint64_t)UINT64_C(1));
    }
end1:;
    l0 = l3;
    return l0;
}

static RT_WITHIN uint64_t core__slice__scan__group__u8(void)
{
    uint64_t l0;
    uint64_t l1;
    uint8_t l2;
    uint64_t l3;
    uint64_t l4;
    uint8_t l5;
    uint64_t l6;
    uint64_t l7;
    uint64_t l8;
    uint8_t l9;
    uint64_t l10;
    uint64_t l11;
    l1 = core__mem__size_of_param__u8();
    l2 = (uint8_t)(l1 == UINT64_C(1));
    l3 = (uint64_t)l2;
    l4 = (uint64_t)((uint64_t)UINT64_C(32) * (uint64_t)l3);
    l5 = (uint8_t)(l1 == UINT64_C(2));
    l6 = (uint64_t)l5;
    l7 = (uint64_t)((uint64_t)UINT64_C(16) * (uint64_t)l6);
    l8 = (uint64_t)((uint64_t)l4 + (uint64_t)l7);
    l9 = (uint8_t)(l1 == UINT64_C(4));
    l10 = (uint64_t)l9;
    l11 = (uint64_t)((uint64_t)UINT64_C(8) * (uint64_t)l10);
    l0 = (uint64_t)((uint64_t)l8 + (uint64_t)l11);
    return l0;
}

static RT_WITHIN uint64_t core__slice__scan__skip_groups__ElementMismatch_u8(uint8_t *l1, uint64_t l2, uint64_t l3, uint64_t l4)
{
    uint64_t l0;
    uint64_t l5;
    uint8_t l6;
    uint8_t l7;
    uint64_t l8;
    uint8_t l9;
    uint8_t l10;
    l5 = l2;
    for (;;) {
        l7 = (uint8_t)(UINT64_C(0) < l4);
        if (l7) {
            l8 = (uint64_t)((uint64_t)l3 - (uint64_t)l5);
            l7 = (uint8_t)(l4 <= l8);
            l6 = l7;
            if (l6) {
                l9 = core__slice__scan__any_in_run__ElementMismatch_u8(l1, l5, l4);
                l6 = (uint8_t)!l9;
                l10 = l6;
                if (l10) {
                } else {
                    goto end1;
                }
            } else {
                goto end1;
            }
        } else {
            goto end1;
        }
        l5 = (uint64_t)((uint64_t)l5 + (uint64_t)l4);
    }
end1:;
    l0 = l5;
    return l0;
}

static RT_WITHIN struct core__option__Option__ref_u16 core__slice__slice_T__get__u16_u64_ref_u16(rt_slice l1, uint64_t l2)
{
    struct core__option__Option__ref_u16 l0;
    l0 = core__slice__index__UsizeSliceIndexRefSlice__pick__u16(l2, l1);
    return l0;
}

static RT_WITHIN struct core__option__Option__ref_u8 core__slice__slice_T__get__u8_u64_ref_u8(rt_slice l1, uint64_t l2)
{
    struct core__option__Option__ref_u8 l0;
    l0 = core__slice__index__UsizeSliceIndexRefSlice__pick__u8(l2, l1);
    return l0;
}

static RT_WITHIN uint8_t core__slice__slice_T__is_empty__u64(rt_slice l1)
{
    uint8_t l0;
    l0 = (uint8_t)(l1.n == UINT64_C(0));
    return l0;
}

static RT_WITHIN uint8_t core__slice__slice_T__is_empty__u8(rt_slice l1)
{
    uint8_t l0;
    l0 = (uint8_t)(l1.n == UINT64_C(0));
    return l0;
}

static RT_WITHIN void core__slots__Slots__copy_in__u8(uint8_t *l1, uint64_t l2, rt_slice l3)
{
    uint8_t *l5;
    uint8_t *l6;
    uint64_t l7;
    uint8_t *l8;
    l5 = (uint8_t *)&(*(uint8_t *)l3.p);
    l6 = (*(struct core__slots__Slots__u8 *)l1).f0;
    l7 = (uint64_t)((uint64_t)l2 * (uint64_t)UINT64_C(1));
    l8 = l6 + (size_t)l7;
    core__ptr__copy_drop__copy_bits__u8(l5, l8, l3.n);
    return;
}

static RT_WITHIN void core__slots__lends__with_slots__u8_unit_slice_u8_unit_unit(rt_slice l1, uint8_t *l2, rt_slice l3)
{
    uint8_t *l6;
    struct core__slots__Slots__u8 l14;
    (void)l2;
    l6 = (uint8_t *)&(*(uint8_t *)l1.p);
    l14.f0 = l6;
    l14.f1 = l1.n;
    (void)core__core__slice__edits__copy_over_FnOnce__call_once__u8(l14, l3);
    return;
}

static RT_WITHIN void core__Destruct__none__drop__TakeWhile_Iter_u8_digits_t_2927e43b(struct core__iter__closures__TakeWhile__Iter_u8_digits_take_while_Self l1)
{
    (void)l1;
    return;
}

static RT_WITHIN void core__Destruct__none__drop__TakeWhile_Iter_u8_names_ta_e5f448fb(struct core__iter__closures__TakeWhile__Iter_u8_names_take_while_Self l1)
{
    (void)l1;
    return;
}

static RT_WITHIN struct core__result__Result__u32_TryFromIntError core__convert__try_from__AnyTryFrom__try_from__u64_u32_ecc00421(uint64_t l1)
{
    struct core__result__Result__u32_TryFromIntError l0;
    struct rt_tuple2__bool_u64 l5;
    struct core__option__Option__u32 l7;
    struct core__result__Result__u32_TryFromIntError l8;
    struct core__num__TryFromIntError l10;
    l5 = core__convert__try_from__U64Integer__split(l1);
    l7 = core__convert__try_from__U32Integer__join(l5.f0, l5.f1);
    switch (l7.tag) {
        case UINT8_C(1): {
            l8.tag = UINT8_C(0);
            l8.s0 = l7.s0;
            break;
        }
        case UINT8_C(0): default: {
            l10.none = 0;
            l8.tag = UINT8_C(1);
            l8.s1 = l10;
            break;
        }
    }
    l0 = l8;
    return l0;
}

static RT_WITHIN uint64_t core__iter__base__Iterator__count__TakeWhile_Iter_u8_d_9e11d280(struct core__iter__closures__TakeWhile__Iter_u8_digits_take_while_Self l1)
{
    uint64_t l0;
    struct core__iter__closures__TakeWhile__Iter_u8_digits_take_while_Self l2;
    uint64_t l3;
    struct core__option__Option__ref_u8 l4;
    uint8_t *l5;
    struct core__iter__closures__TakeWhile__Iter_u8_digits_take_while_Self l8;
    l2.f0.f0 = l1.f0.f0;
    l2.f1 = l1.f1;
    l2.f2 = l1.f2;
    l3 = UINT64_C(0);
    for (;;) {
        l5 = (uint8_t *)&l2;
        l4 = core__iter__closures__TakeWhileIterator__next__Iter_u8_7c5d0d01(l5);
        switch (l4.tag) {
            case UINT8_C(1): {
                l3 = (uint64_t)((uint64_t)l3 + (uint64_t)UINT64_C(1));
                break;
            }
            case UINT8_C(0): default: {
                goto end1;
                break;
            }
        }
        switch (l4.tag) {
            case UINT8_C(1): {
                core__Destruct__none__drop__ref_u8(l4.s0);
                break;
            }
            case UINT8_C(0): default: {
                break;
            }
        }
    }
end1:;
    l0 = l3;
    l8.f0.f0 = l2.f0.f0;
    l8.f1 = l2.f1;
    l8.f2 = l2.f2;
    core__Destruct__none__drop__TakeWhile_Iter_u8_digits_t_2927e43b(l8);
    return l0;
}

static RT_WITHIN uint64_t core__iter__base__Iterator__count__TakeWhile_Iter_u8_n_4eee487b(struct core__iter__closures__TakeWhile__Iter_u8_names_take_while_Self l1)
{
    uint64_t l0;
    struct core__iter__closures__TakeWhile__Iter_u8_names_take_while_Self l2;
    uint64_t l3;
    struct core__option__Option__ref_u8 l4;
    uint8_t *l5;
    struct core__iter__closures__TakeWhile__Iter_u8_names_take_while_Self l8;
    l2.f0.f0 = l1.f0.f0;
    l2.f1 = l1.f1;
    l2.f2 = l1.f2;
    l3 = UINT64_C(0);
    for (;;) {
        l5 = (uint8_t *)&l2;
        l4 = core__iter__closures__TakeWhileIterator__next__Iter_u8_bad0302d(l5);
        switch (l4.tag) {
            case UINT8_C(1): {
                l3 = (uint64_t)((uint64_t)l3 + (uint64_t)UINT64_C(1));
                break;
            }
            case UINT8_C(0): default: {
                goto end1;
                break;
            }
        }
        switch (l4.tag) {
            case UINT8_C(1): {
                core__Destruct__none__drop__ref_u8(l4.s0);
                break;
            }
            case UINT8_C(0): default: {
                break;
            }
        }
    }
end1:;
    l0 = l3;
    l8.f0.f0 = l2.f0.f0;
    l8.f1 = l2.f1;
    l8.f2 = l2.f2;
    core__Destruct__none__drop__TakeWhile_Iter_u8_names_ta_e5f448fb(l8);
    return l0;
}

static RT_WITHIN struct core__option__Option__u64 core__iter__base__Iterator__position__Iter_u64_ref_u64_86bdc99e(uint8_t *l1, struct resolve__names__fn__lookup__position_Self__slice_u8_ref_u64 l2)
{
    struct core__option__Option__u64 l0;
    struct resolve__names__fn__lookup__position_Self__slice_u8_ref_u64 l3;
    uint64_t l4;
    struct core__option__Option__ref_u64 l6;
    uint8_t *l7;
    uint8_t l8;
    uint8_t *l9;
    struct resolve__names__fn__lookup__position_Self__slice_u8_ref_u64 l11;
    struct resolve__names__fn__lookup__position_Self__slice_u8_ref_u64 l13;
    l3.f0 = l2.f0;
    l3.f1 = l2.f1;
    l4 = UINT64_C(0);
    for (;;) {
        l7 = (uint8_t *)&(*(struct core__iter__slices__Iter__u64 *)l1);
        l6 = core__iter__slices__IterIterator__next__u64(l7);
        switch (l6.tag) {
            case UINT8_C(1): {
                l9 = (uint8_t *)&l3;
                l8 = resolve__names__fn__lookup__position_FnMut__call_mut(l9, l6.s0);
                if (l8) {
                    l0.tag = UINT8_C(1);
                    l0.s0 = l4;
                    l11.f0 = l3.f0;
                    l11.f1 = l3.f1;
                    core__Destruct__none__drop__position_Self_slice_u8_ref_u64(l11);
                    return l0;
                }
                l4 = (uint64_t)((uint64_t)l4 + (uint64_t)UINT64_C(1));
                break;
            }
            case UINT8_C(0): default: {
                goto end1;
                break;
            }
        }
    }
end1:;
    l0.tag = UINT8_C(0);
    l13.f0 = l3.f0;
    l13.f1 = l3.f1;
    core__Destruct__none__drop__position_Self_slice_u8_ref_u64(l13);
    return l0;
}

static RT_WITHIN struct core__iter__closures__TakeWhile__Iter_u8_names_take_while_Self core__iter__base__Iterator__take_while__Iter_u8_ref_u8_a9fc4690(struct core__iter__slices__Iter__u8 l1, struct lexer__bytes__fn__names__take_while_Self l2)
{
    struct core__iter__closures__TakeWhile__Iter_u8_names_take_while_Self l0;
    l0.f0.f0 = l1.f0;
    l0.f1 = 0;
    l0.f2 = l2;
    return l0;
}

static RT_WITHIN struct core__iter__closures__TakeWhile__Iter_u8_digits_take_while_Self core__iter__base__Iterator__take_while__Iter_u8_ref_u8_de663524(struct core__iter__slices__Iter__u8 l1, struct lexer__bytes__fn__digits__take_while_Self l2)
{
    struct core__iter__closures__TakeWhile__Iter_u8_digits_take_while_Self l0;
    l0.f0.f0 = l1.f0;
    l0.f1 = 0;
    l0.f2 = l2;
    return l0;
}

static RT_WITHIN struct core__option__Option__ref_u8 core__iter__closures__TakeWhileIterator__next__Iter_u8_7c5d0d01(uint8_t *l1)
{
    struct core__option__Option__ref_u8 l0;
    uint8_t *l2;
    uint8_t l5;
    struct core__ops__ControlFlow__NoValue_ref_u8 l6;
    struct core__option__Option__ref_u8 l7;
    uint8_t *l8;
    uint8_t l10;
    uint8_t *l11;
    uint8_t *l12;
    struct core__option__Option__ref_u8 l13;
    uint8_t *l14;
    uint8_t *l15;
    l5 = (*(struct core__iter__closures__TakeWhile__Iter_u8_digits_take_while_Self *)l1).f1;
    if (l5) {
        l0.tag = UINT8_C(0);
        return l0;
    }
    l8 = (uint8_t *)&(*(struct core__iter__closures__TakeWhile__Iter_u8_digits_take_while_Self *)l1).f0;
    l7 = core__iter__slices__IterIterator__next__u8(l8);
    l6 = core__option__OptionTry__branch__ref_u8(l7);
    switch (l6.tag) {
        case UINT8_C(0): {
            break;
        }
        case UINT8_C(1): default: {
            l0 = core__option__OptionFromResidualNoValue__from_residual__ref_u8(l6.s1);
            return l0;
            break;
        }
    }
    l2 = l6.s0;
    l11 = (uint8_t *)&(*(struct core__iter__closures__TakeWhile__Iter_u8_digits_take_while_Self *)l1).f2;
    l12 = (uint8_t *)&l2;
    l10 = lexer__bytes__fn__digits__take_while_FnMut__call_mut(l11, l12);
    if (l10) {
        l14 = l2;
        l13.tag = UINT8_C(1);
        l13.s0 = l14;
    } else {
        (*(struct core__iter__closures__TakeWhile__Iter_u8_digits_take_while_Self *)l1).f1 = 1;
        l13.tag = UINT8_C(0);
        l15 = l2;
        core__Destruct__none__drop__ref_u8(l15);
    }
    l0 = l13;
    return l0;
}

static RT_WITHIN struct core__option__Option__ref_u8 core__iter__closures__TakeWhileIterator__next__Iter_u8_bad0302d(uint8_t *l1)
{
    struct core__option__Option__ref_u8 l0;
    uint8_t *l2;
    uint8_t l5;
    struct core__ops__ControlFlow__NoValue_ref_u8 l6;
    struct core__option__Option__ref_u8 l7;
    uint8_t *l8;
    uint8_t l10;
    uint8_t *l11;
    uint8_t *l12;
    struct core__option__Option__ref_u8 l13;
    uint8_t *l14;
    uint8_t *l15;
    l5 = (*(struct core__iter__closures__TakeWhile__Iter_u8_names_take_while_Self *)l1).f1;
    if (l5) {
        l0.tag = UINT8_C(0);
        return l0;
    }
    l8 = (uint8_t *)&(*(struct core__iter__closures__TakeWhile__Iter_u8_names_take_while_Self *)l1).f0;
    l7 = core__iter__slices__IterIterator__next__u8(l8);
    l6 = core__option__OptionTry__branch__ref_u8(l7);
    switch (l6.tag) {
        case UINT8_C(0): {
            break;
        }
        case UINT8_C(1): default: {
            l0 = core__option__OptionFromResidualNoValue__from_residual__ref_u8(l6.s1);
            return l0;
            break;
        }
    }
    l2 = l6.s0;
    l11 = (uint8_t *)&(*(struct core__iter__closures__TakeWhile__Iter_u8_names_take_while_Self *)l1).f2;
    l12 = (uint8_t *)&l2;
    l10 = lexer__bytes__fn__names__take_while_FnMut__call_mut(l11, l12);
    if (l10) {
        l14 = l2;
        l13.tag = UINT8_C(1);
        l13.s0 = l14;
    } else {
        (*(struct core__iter__closures__TakeWhile__Iter_u8_names_take_while_Self *)l1).f1 = 1;
        l13.tag = UINT8_C(0);
        l15 = l2;
        core__Destruct__none__drop__ref_u8(l15);
    }
    l0 = l13;
    return l0;
}

static RT_WITHIN struct core__option__Option__rt_tuple2_u8_u64 core__option__OptionFromResidualNoValue__from_residual_e4dc67fa(struct core__option__NoValue l1)
{
    struct core__option__Option__rt_tuple2_u8_u64 l0;
    (void)l1;
    l0.tag = UINT8_C(0);
    return l0;
}

static RT_WITHIN struct core__option__Option__rt_tuple2_uses_Scope_Option_u8 core__option__OptionFromResidualNoValue__from_residual_e7cc27ad(struct core__option__NoValue l1)
{
    struct core__option__Option__rt_tuple2_uses_Scope_Option_u8 l0;
    (void)l1;
    l0.tag = UINT8_C(0);
    return l0;
}

static RT_WITHIN struct core__result__Result__u32_Refusal core__result__ResultFromResidualErrResidual__from_resi_07f82ab4(struct core__result__ErrResidual__NoProgram l1)
{
    struct core__result__Result__u32_Refusal l0;
    struct types__refusal__Refusal l2;
    l2 = uses__RefusalFromNoProgram__from(l1.f0);
    l0.tag = UINT8_C(1);
    l0.s1 = l2;
    return l0;
}

static RT_WITHIN struct core__result__Result__u32_OperatorError core__result__ResultFromResidualErrResidual__from_resi_153600e2(struct core__result__ErrResidual__OperatorError l1)
{
    struct core__result__Result__u32_OperatorError l0;
    struct operators__OperatorError l2;
    l2 = core__convert__AnyFrom__from__OperatorError(l1.f0);
    l0.tag = UINT8_C(1);
    l0.s1 = l2;
    return l0;
}

static RT_WITHIN struct core__result__Result__rt_tuple2_u64_u8_Refusal core__result__ResultFromResidualErrResidual__from_resi_199ff778(struct core__result__ErrResidual__Refusal l1)
{
    struct core__result__Result__rt_tuple2_u64_u8_Refusal l0;
    struct types__refusal__Refusal l2;
    l2 = core__convert__AnyFrom__from__Refusal(l1.f0);
    l0.tag = UINT8_C(1);
    l0.s1 = l2;
    return l0;
}

static RT_WITHIN struct core__result__Result__rt_tuple3_u64_u8_Judged_Refusal core__result__ResultFromResidualErrResidual__from_resi_29dc3d9d(struct core__result__ErrResidual__Refusal l1)
{
    struct core__result__Result__rt_tuple3_u64_u8_Judged_Refusal l0;
    struct types__refusal__Refusal l2;
    l2 = core__convert__AnyFrom__from__Refusal(l1.f0);
    l0.tag = UINT8_C(1);
    l0.s1 = l2;
    return l0;
}

static RT_WITHIN struct core__result__Result__u32_Refusal core__result__ResultFromResidualErrResidual__from_resi_29ec18ee(struct core__result__ErrResidual__Refusal l1)
{
    struct core__result__Result__u32_Refusal l0;
    struct types__refusal__Refusal l2;
    l2 = core__convert__AnyFrom__from__Refusal(l1.f0);
    l0.tag = UINT8_C(1);
    l0.s1 = l2;
    return l0;
}

static RT_WITHIN struct core__result__Result__count_images_Counts_Refusal core__result__ResultFromResidualErrResidual__from_resi_31930649(struct core__result__ErrResidual__Refusal l1)
{
    struct core__result__Result__count_images_Counts_Refusal l0;
    struct types__refusal__Refusal l2;
    l2 = core__convert__AnyFrom__from__Refusal(l1.f0);
    l0.tag = UINT8_C(1);
    l0.s1 = l2;
    return l0;
}

static RT_WITHIN struct core__result__Result__Loaded_Refusal core__result__ResultFromResidualErrResidual__from_resi_3d5841e5(struct core__result__ErrResidual__Refusal l1)
{
    struct core__result__Result__Loaded_Refusal l0;
    struct types__refusal__Refusal l2;
    l2 = core__convert__AnyFrom__from__Refusal(l1.f0);
    l0.tag = UINT8_C(1);
    l0.s1 = l2;
    return l0;
}

static RT_WITHIN struct core__result__Result__rt_tuple2_u8_u64_Refusal core__result__ResultFromResidualErrResidual__from_resi_79390567(struct core__result__ErrResidual__Refusal l1)
{
    struct core__result__Result__rt_tuple2_u8_u64_Refusal l0;
    struct types__refusal__Refusal l2;
    l2 = core__convert__AnyFrom__from__Refusal(l1.f0);
    l0.tag = UINT8_C(1);
    l0.s1 = l2;
    return l0;
}

static RT_WITHIN struct core__result__Result__Seat_Refusal core__result__ResultFromResidualErrResidual__from_resi_865746fe(struct core__result__ErrResidual__Refusal l1)
{
    struct core__result__Result__Seat_Refusal l0;
    struct types__refusal__Refusal l2;
    l2 = core__convert__AnyFrom__from__Refusal(l1.f0);
    l0.tag = UINT8_C(1);
    l0.s1 = l2;
    return l0;
}

static RT_WITHIN struct core__result__Result__rt_tuple2_u64_Done_Refusal core__result__ResultFromResidualErrResidual__from_resi_8768edf0(struct core__result__ErrResidual__Refusal l1)
{
    struct core__result__Result__rt_tuple2_u64_Done_Refusal l0;
    struct types__refusal__Refusal l2;
    l2 = core__convert__AnyFrom__from__Refusal(l1.f0);
    l0.tag = UINT8_C(1);
    l0.s1 = l2;
    return l0;
}

static RT_WITHIN struct core__result__Result__u64_OperatorError core__result__ResultFromResidualErrResidual__from_resi_8fddf8e3(struct core__result__ErrResidual__OperatorError l1)
{
    struct core__result__Result__u64_OperatorError l0;
    struct operators__OperatorError l2;
    l2 = core__convert__AnyFrom__from__OperatorError(l1.f0);
    l0.tag = UINT8_C(1);
    l0.s1 = l2;
    return l0;
}

static RT_WITHIN struct core__result__Result__Opened_Refusal core__result__ResultFromResidualErrResidual__from_resi_94ec4b81(struct core__result__ErrResidual__Refusal l1)
{
    struct core__result__Result__Opened_Refusal l0;
    struct types__refusal__Refusal l2;
    l2 = core__convert__AnyFrom__from__Refusal(l1.f0);
    l0.tag = UINT8_C(1);
    l0.s1 = l2;
    return l0;
}

static RT_WITHIN struct core__result__Result__rt_tuple2_u64_Summary_Refusal core__result__ResultFromResidualErrResidual__from_resi_9aee97b7(struct core__result__ErrResidual__Refusal l1)
{
    struct core__result__Result__rt_tuple2_u64_Summary_Refusal l0;
    struct types__refusal__Refusal l2;
    l2 = core__convert__AnyFrom__from__Refusal(l1.f0);
    l0.tag = UINT8_C(1);
    l0.s1 = l2;
    return l0;
}

static RT_WITHIN struct core__result__Result__run_images_Report_Refusal core__result__ResultFromResidualErrResidual__from_resi_abcbd695(struct core__result__ErrResidual__Refusal l1)
{
    struct core__result__Result__run_images_Report_Refusal l0;
    struct types__refusal__Refusal l2;
    l2 = core__convert__AnyFrom__from__Refusal(l1.f0);
    l0.tag = UINT8_C(1);
    l0.s1 = l2;
    return l0;
}

static RT_WITHIN struct core__result__Result__rt_tuple2_u64_Totals_Refusal core__result__ResultFromResidualErrResidual__from_resi_e2c23d53(struct core__result__ErrResidual__Refusal l1)
{
    struct core__result__Result__rt_tuple2_u64_Totals_Refusal l0;
    struct types__refusal__Refusal l2;
    l2 = core__convert__AnyFrom__from__Refusal(l1.f0);
    l0.tag = UINT8_C(1);
    l0.s1 = l2;
    return l0;
}

static RT_WITHIN struct core__result__Result__rt_tuple2_u64_Planned_Refusal core__result__ResultFromResidualErrResidual__from_resi_e75b3344(struct core__result__ErrResidual__Refusal l1)
{
    struct core__result__Result__rt_tuple2_u64_Planned_Refusal l0;
    struct types__refusal__Refusal l2;
    l2 = core__convert__AnyFrom__from__Refusal(l1.f0);
    l0.tag = UINT8_C(1);
    l0.s1 = l2;
    return l0;
}

static RT_WITHIN struct core__result__Result__u64_Refusal core__result__ResultFromResidualErrResidual__from_resi_f9cf8d89(struct core__result__ErrResidual__Refusal l1)
{
    struct core__result__Result__u64_Refusal l0;
    struct types__refusal__Refusal l2;
    l2 = core__convert__AnyFrom__from__Refusal(l1.f0);
    l0.tag = UINT8_C(1);
    l0.s1 = l2;
    return l0;
}

static RT_WITHIN struct core__result__Result__rt_tuple2_u64_Facts_Refusal core__result__ResultFromResidualErrResidual__from_resi_fbfd7bc2(struct core__result__ErrResidual__Refusal l1)
{
    struct core__result__Result__rt_tuple2_u64_Facts_Refusal l0;
    struct types__refusal__Refusal l2;
    l2 = core__convert__AnyFrom__from__Refusal(l1.f0);
    l0.tag = UINT8_C(1);
    l0.s1 = l2;
    return l0;
}

static RT_WITHIN struct core__ops__ControlFlow__ErrResidual_Refusal_rt_tuple3__6dda1656 core__result__ResultTry__branch__rt_tuple3_u64_u8_Judg_d80f38d1(struct core__result__Result__rt_tuple3_u64_u8_Judged_Refusal l1)
{
    struct core__ops__ControlFlow__ErrResidual_Refusal_rt_tuple3__6dda1656 l0;
    struct core__ops__ControlFlow__ErrResidual_Refusal_rt_tuple3__6dda1656 l4;
    struct core__result__ErrResidual__Refusal l7;
    switch (l1.tag) {
        case UINT8_C(0): {
            l4.tag = UINT8_C(0);
            l4.s0.f0 = l1.s0.f0;
            l4.s0.f1 = l1.s0.f1;
            l4.s0.f2.f0 = l1.s0.f2.f0;
            l4.s0.f2.f1 = l1.s0.f2.f1;
            break;
        }
        case UINT8_C(1): default: {
            l7.f0 = l1.s1;
            l4.tag = UINT8_C(1);
            l4.s1.f0 = l7.f0;
            break;
        }
    }
    l0 = l4;
    return l0;
}

static RT_APART struct core__result__Result__count_images_Counts_Refusal count_images__answered(rt_slice l1, struct table_read__parameters__Parameters l2, rt_slice l3, struct count_images__Asking l4, rt_slice l5, rt_slice l6)
{
    struct core__result__Result__count_images_Counts_Refusal l0;
    struct rt_array_uint64_1024 l7;
    struct rt_array_uint16_1024 l8;
    struct layout__Numbers l10;
    struct counting__count__Asked l13;
    struct counting__count__Tally l14;
    uint8_t *l17;
    rt_slice l18;
    uint8_t *l19;
    rt_slice l20;
    uint8_t l21;
    struct types__refusal__Refusal l22;
    uint8_t *l23;
    rt_slice l24;
    uint64_t l25;
    uint8_t l26;
    struct types__refusal__Refusal l27;
    struct core__ops__ControlFlow__ErrResidual_Refusal_unit l28;
    struct core__result__Result__unit_Refusal l29;
    uint8_t *l30;
    rt_slice l31;
    uint8_t *l33;
    rt_slice l34;
    uint8_t *l35;
    rt_slice l36;
    uint8_t *l37;
    rt_slice l38;
    struct types__refusal__Refusal l39;
    uint8_t *l40;
    rt_slice l41;
    struct engine__Machine l42;
    uint8_t *l43;
    rt_slice l44;
    uint8_t *l46;
    rt_slice l47;
    uint8_t *l48;
    rt_slice l49;
    struct count_images__Counts l50;
    memset(&l7, 0, sizeof l7);
    memset(&l8, 0, sizeof l8);
    l17 = (uint8_t *)&l7;
    l18.p = l17;
    l18.n = UINT64_C(1024);
    l19 = (uint8_t *)&l8;
    l20.p = l19;
    l20.n = UINT64_C(1024);
    count_images__prepared(l1, l2.f0, l3, l4, l18, l20);
    l21 = (uint8_t)(UINT64_C(32) <= l4.f1.f0);
    if (l21) {
        l22.tag = UINT8_C(6);
        l0.tag = UINT8_C(1);
        l0.s1 = l22;
        return l0;
    }
    l23 = (uint8_t *)&l8;
    l24.p = l23;
    l24.n = UINT64_C(1024);
    l25 = l2.f0.n;
    l21 = count_images__has_step(l24, l25, l4.f1.f0);
    l26 = (uint8_t)!l21;
    if (l26) {
        l27.tag = UINT8_C(6);
        l0.tag = UINT8_C(1);
        l0.s1 = l27;
        return l0;
    }
    l10.f0 = l4.f0.f1.f0;
    l10.f1 = l4.f0.f1.f1;
    l10.f2 = l4.f0.f1.f2;
    l10.f3 = l4.f0.f1.f3;
    l10.f4 = l4.f0.f1.f4;
    l10.f5 = l4.f0.f1.f5;
    l10.f6 = l4.f0.f1.f6;
    l30 = (uint8_t *)&(*(uint16_t *)l5.p);
    l31.p = l30;
    l31.n = l5.n;
    l29 = count_images__placed(l31, l2, l10.f0, l4.f1);
    l28 = core__result__ResultTry__branch__unit_Refusal(l29);
    switch (l28.tag) {
        case UINT8_C(0): {
            break;
        }
        case UINT8_C(1): default: {
            {
                struct core__result__Result__count_images_Counts_Refusal r = core__result__ResultFromResidualErrResidual__from_resi_31930649(l28.s0);
                l0.tag = r.tag;
                l0.s0.f0 = r.s0.f0;
                l0.s0.f1 = r.s0.f1;
                l0.s0.f2 = r.s0.f2;
                l0.s0.f3 = r.s0.f3;
                l0.s1.tag = r.s1.tag;
            }
            return l0;
            break;
        }
    }
    l33 = (uint8_t *)&l8;
    l34.p = l33;
    l34.n = UINT64_C(1024);
    l35 = (uint8_t *)&(*(uint16_t *)l5.p);
    l36.p = l35;
    l36.n = l5.n;
    scheduler__begin__begin_all(l34, l36, l4.f1.f0, l10.f0);
    l37 = (uint8_t *)&(*(uint16_t *)l5.p);
    l38.p = l37;
    l38.n = l5.n;
    l25 = counting__count__commands(l38, l10.f0);
    l21 = (uint8_t)(UINT64_C(12) < l25);
    if (l21) {
        l39.tag = UINT8_C(23);
        l0.tag = UINT8_C(1);
        l0.s1 = l39;
        return l0;
    }
    l40 = (uint8_t *)&(*(uint16_t *)l5.p);
    l41.p = l40;
    l41.n = l5.n;
    l25 = scheduler__count__holding(l41, l10.f0);
    l10.f5 = l25;
    l13.f0 = l4.f1.f1;
    l13.f1 = l4.f1.f2;
    l42.f0.f0 = l10.f0;
    l42.f0.f1 = l10.f1;
    l42.f0.f2 = l10.f2;
    l42.f0.f3 = l10.f3;
    l42.f0.f4 = l10.f4;
    l42.f0.f5 = l10.f5;
    l42.f0.f6 = l10.f6;
    l43 = (uint8_t *)&l7;
    l44.p = l43;
    l44.n = UINT64_C(1024);
    l46 = (uint8_t *)&(*(uint16_t *)l5.p);
    l47.p = l46;
    l47.n = l5.n;
    l48 = (uint8_t *)&(*(uint64_t *)l6.p);
    l49.p = l48;
    l49.n = l6.n;
    l14 = counting__count__all(l42, l44, l2.f0, l47, l49, l13);
    l50.f0 = UINT8_C(0);
    l50.f1 = l14.f0;
    l50.f2 = l14.f1;
    l50.f3 = l14.f2;
    l0.tag = UINT8_C(0);
    l0.s0.f0 = l50.f0;
    l0.s0.f1 = l50.f1;
    l0.s0.f2 = l50.f2;
    l0.s0.f3 = l50.f3;
    return l0;
}

static RT_APART struct core__result__Result__count_images_Counts_Refusal count_images__begun(uint8_t *l1, rt_slice l2, rt_slice l3, rt_slice l4, struct count_images__Question l5, rt_slice l6)
{
    struct core__result__Result__count_images_Counts_Refusal l0;
    struct load__Loaded l7;
    struct table_read__parameters__Parameters l8;
    struct rt_array_uint8_8568 l9;
    struct rt_array_uint16_1536 l10;
    struct rt_array_uint64_8192 l11;
    struct count_images__Asking l15;
    struct core__ops__ControlFlow__ErrResidual_Refusal_Seat l19;
    struct core__result__Result__Seat_Refusal l20;
    uint8_t *l22;
    rt_slice l23;
    uint8_t *l24;
    rt_slice l25;
    uint8_t *l26;
    rt_slice l27;
    uint64_t l29;
    uint8_t l30;
    struct types__refusal__Refusal l31;
    struct core__ops__ControlFlow__ErrResidual_Refusal_count_images_Counts l32;
    struct core__result__Result__count_images_Counts_Refusal l33;
    uint8_t *l35;
    rt_slice l36;
    uint8_t *l37;
    rt_slice l38;
    uint8_t *l42;
    rt_slice l43;
    l7.f0 = (*(struct seating__Opened *)l1).f0.f0;
    l7.f1 = (*(struct seating__Opened *)l1).f0.f1;
    l7.f2 = (*(struct seating__Opened *)l1).f0.f2;
    l7.f3 = (*(struct seating__Opened *)l1).f0.f3;
    l7.f4 = (*(struct seating__Opened *)l1).f0.f4;
    l7.f5 = (*(struct seating__Opened *)l1).f0.f5;
    l7.f6 = (*(struct seating__Opened *)l1).f0.f6;
    l8 = seating__parameters(l1);
    memset(&l9, 0, sizeof l9);
    memset(&l10, 0, sizeof l10);
    memset(&l11, 0, sizeof l11);
    l22 = (uint8_t *)&l9;
    l23.p = l22;
    l23.n = UINT64_C(8568);
    l24 = (uint8_t *)&l10;
    l25.p = l24;
    l25.n = UINT64_C(1536);
    l26 = (uint8_t *)&l11;
    l27.p = l26;
    l27.n = UINT64_C(8192);
    l20 = seating__seat_table(l7.f1, l8, l4, l23, l25, l27);
    l19 = core__result__ResultTry__branch__Seat_Refusal(l20);
    switch (l19.tag) {
        case UINT8_C(0): {
            break;
        }
        case UINT8_C(1): default: {
            {
                struct core__result__Result__count_images_Counts_Refusal r = core__result__ResultFromResidualErrResidual__from_resi_31930649(l19.s1);
                l0.tag = r.tag;
                l0.s0.f0 = r.s0.f0;
                l0.s0.f1 = r.s0.f1;
                l0.s0.f2 = r.s0.f2;
                l0.s0.f3 = r.s0.f3;
                l0.s1.tag = r.s1.tag;
            }
            return l0;
            break;
        }
    }
    l29 = l6.n;
    l30 = (uint8_t)(l29 < UINT64_C(1024));
    if (l30) {
        l31.tag = UINT8_C(12);
        l0.tag = UINT8_C(1);
        l0.s1 = l31;
        return l0;
    }
    l29 = (uint64_t)l7.f4;
    l15.f0.f0 = l19.s0.f0;
    l15.f0.f1.f0 = l19.s0.f1.f0;
    l15.f0.f1.f1 = l19.s0.f1.f1;
    l15.f0.f1.f2 = l19.s0.f1.f2;
    l15.f0.f1.f3 = l19.s0.f1.f3;
    l15.f0.f1.f4 = l19.s0.f1.f4;
    l15.f0.f1.f5 = l19.s0.f1.f5;
    l15.f0.f1.f6 = l19.s0.f1.f6;
    l15.f1.f0 = l5.f0;
    l15.f1.f1 = l5.f1;
    l15.f1.f2 = l5.f2;
    l15.f2 = l7.f2;
    l15.f3 = l29;
    l35 = (uint8_t *)&l10;
    l36.p = l35;
    l36.n = UINT64_C(1536);
    l37 = (uint8_t *)&l11;
    l38.p = l37;
    l38.n = UINT64_C(8192);
    l33 = count_images__answered(l2, l8, l3, l15, l36, l38);
    l32 = core__result__ResultTry__branch__count_images_Counts_Refusal(l33);
    switch (l32.tag) {
        case UINT8_C(0): {
            break;
        }
        case UINT8_C(1): default: {
            {
                struct core__result__Result__count_images_Counts_Refusal r = core__result__ResultFromResidualErrResidual__from_resi_31930649(l32.s1);
                l0.tag = r.tag;
                l0.s0.f0 = r.s0.f0;
                l0.s0.f1 = r.s0.f1;
                l0.s0.f2 = r.s0.f2;
                l0.s0.f3 = r.s0.f3;
                l0.s1.tag = r.s1.tag;
            }
            return l0;
            break;
        }
    }
    l42 = (uint8_t *)&(*(uint64_t *)l6.p);
    l43.p = l42;
    l43.n = l6.n;
    emit_steps__program(l2, l8.f0, l19.s0.f0, l43);
    l0.tag = UINT8_C(0);
    l0.s0.f0 = l32.s0.f0;
    l0.s0.f1 = l32.s0.f1;
    l0.s0.f2 = l32.s0.f2;
    l0.s0.f3 = l32.s0.f3;
    return l0;
}

static RT_APART struct count_images__Counts count_images__count(rt_slice l1, rt_slice l2, uint32_t l3, uint32_t l4, uint32_t l5, rt_slice l6)
{
    struct count_images__Counts l0;
    struct rt_array_uint8_5730 l7;
    struct rt_array_uint16_512 l8;
    struct seating__Opened l9;
    uint64_t l12;
    struct count_images__Question l13;
    struct core__result__Result__Opened_Refusal l14;
    uint8_t *l15;
    rt_slice l16;
    uint8_t *l17;
    rt_slice l18;
    uint8_t l20;
    uint64_t l21;
    uint64_t l22;
    uint64_t l23;
    struct core__result__Result__count_images_Counts_Refusal l24;
    uint8_t *l25;
    uint8_t *l26;
    rt_slice l27;
    uint8_t *l28;
    rt_slice l29;
    uint8_t *l30;
    rt_slice l31;
    memset(&l7, 0, sizeof l7);
    memset(&l8, 0, sizeof l8);
    l15 = (uint8_t *)&l7;
    l16.p = l15;
    l16.n = UINT64_C(5730);
    l17 = (uint8_t *)&l8;
    l18.p = l17;
    l18.n = UINT64_C(512);
    l14 = seating__open_program(l1, l16, l18);
    switch (l14.tag) {
        case UINT8_C(0): {
            break;
        }
        case UINT8_C(1): default: {
            l20 = types__refusal__U8FromRefusal__from(l14.s1);
            l0 = count_images__refused(l20);
            return l0;
            break;
        }
    }
    l9.f0.f0 = l14.s0.f0.f0;
    l9.f0.f1 = l14.s0.f0.f1;
    l9.f0.f2 = l14.s0.f0.f2;
    l9.f0.f3 = l14.s0.f0.f3;
    l9.f0.f4 = l14.s0.f0.f4;
    l9.f0.f5 = l14.s0.f0.f5;
    l9.f0.f6 = l14.s0.f0.f6;
    l9.f1 = l14.s0.f1;
    l9.f2 = l14.s0.f2;
    l12 = l9.f0.f0;
    l21 = (uint64_t)l3;
    l22 = (uint64_t)l4;
    l23 = (uint64_t)l5;
    l13.f0 = l21;
    l13.f1 = l22;
    l13.f2 = l23;
    l25 = (uint8_t *)&l9;
    l26 = (uint8_t *)&l7;
    l27.p = l26;
    l27.n = l12;
    l28 = (uint8_t *)&l8;
    l29.p = l28;
    l29.n = UINT64_C(512);
    l30 = (uint8_t *)&(*(uint64_t *)l6.p);
    l31.p = l30;
    l31.n = l6.n;
    l24 = count_images__begun(l25, l27, l29, l2, l13, l31);
    l0 = count_images__settled(l24);
    return l0;
}

static inline uint8_t count_images__has_step(rt_slice l1, uint64_t l2, uint64_t l3)
{
    uint8_t l0;
    uint64_t l4;
    uint64_t l5;
    uint8_t l6;
    uint64_t l7;
    uint64_t l8;
    uint8_t *l9;
    uint16_t l10;
    uint64_t l11;
    uint8_t *l12;
    uint16_t l13;
    l4 = UINT64_C(0);
    for (;;) {
        l6 = (uint8_t)(l4 < l2);
        if (l6) {
        } else {
            goto end1;
        }
        l7 = (uint64_t)((uint64_t)UINT64_C(32) * (uint64_t)l4);
        l8 = (uint64_t)((uint64_t)l7 + (uint64_t)l3);
        l5 = (uint64_t)((uint64_t)UINT64_C(2) * (uint64_t)l8);
        l7 = (uint64_t)((uint64_t)l5 * (uint64_t)UINT64_C(2));
        l9 = l1.p + (size_t)l7;
        l10 = (*(uint16_t *)l9);
        l8 = (uint64_t)((uint64_t)l5 + (uint64_t)UINT64_C(1));
        l11 = (uint64_t)((uint64_t)l8 * (uint64_t)UINT64_C(2));
        l12 = l1.p + (size_t)l11;
        l13 = (*(uint16_t *)l12);
        l6 = (uint8_t)(l10 <= l13);
        if (l6) {
            l0 = 1;
            return l0;
        }
        l4 = (uint64_t)((uint64_t)l4 + (uint64_t)UINT64_C(1));
    }
end1:;
    l0 = 0;
    return l0;
}

static inline struct core__result__Result__unit_Refusal count_images__placed(rt_slice l1, struct table_read__parameters__Parameters l2, uint64_t l3, struct count_images__Question l4)
{
    struct core__result__Result__unit_Refusal l0;
    uint64_t l5;
    uint64_t l6;
    uint8_t l7;
    struct types__refusal__Refusal l8;
    uint8_t *l9;
    uint8_t l10;
    uint64_t l11;
    struct types__refusal__Refusal l12;
    uint8_t *l13;
    struct types__refusal__Refusal l14;
    l7 = (uint8_t)(l3 <= l4.f1);
    if (l7) {
        l8.tag = UINT8_C(20);
        l0.tag = UINT8_C(1);
        l0.s0 = l8;
        return l0;
    }
    l5 = layout__head(l1, l4.f1, UINT64_C(0));
    l9 = l2.f0.p + (size_t)l5;
    l10 = (*(uint8_t *)l9);
    l11 = (uint64_t)l10;
    l7 = (uint8_t)(l11 <= l4.f2);
    if (l7) {
        l12.tag = UINT8_C(20);
        l0.tag = UINT8_C(1);
        l0.s0 = l12;
        return l0;
    }
    l11 = (uint64_t)((uint64_t)UINT64_C(8) * (uint64_t)l5);
    l6 = (uint64_t)((uint64_t)l11 + (uint64_t)l4.f2);
    l13 = l2.f1.p + (size_t)l6;
    l10 = (*(uint8_t *)l13);
    l7 = (uint8_t)(l10 != UINT8_C(2));
    if (l7) {
        l14.tag = UINT8_C(7);
        l0.tag = UINT8_C(1);
        l0.s0 = l14;
        return l0;
    }
    l0.tag = UINT8_C(0);
    return l0;
}

static RT_SHORT void count_images__prepared(rt_slice l1, rt_slice l2, rt_slice l3, struct count_images__Asking l4, rt_slice l5, rt_slice l6)
{
    struct rt_array_uint64_129 l7;
    uint8_t *l10;
    rt_slice l11;
    uint8_t *l12;
    rt_slice l13;
    uint8_t *l14;
    rt_slice l15;
    memset(&l7, 0, sizeof l7);
    l10 = (uint8_t *)&(*(uint16_t *)l6.p);
    l11.p = l10;
    l11.n = l6.n;
    l12 = (uint8_t *)&l7;
    l13.p = l12;
    l13.n = UINT64_C(129);
    compile__program(l1, l4.f2, l2.n, l3, l4.f3, l11, l13);
    l14 = (uint8_t *)&(*(uint64_t *)l5.p);
    l15.p = l14;
    l15.n = l5.n;
    emit_steps__program(l1, l2, l4.f0.f0, l15);
    return;
}

static RT_HERE struct count_images__Counts count_images__refused(uint8_t l1)
{
    struct count_images__Counts l0;
    l0.f0 = l1;
    l0.f1 = UINT32_C(0);
    l0.f2 = UINT32_C(0);
    l0.f3 = UINT32_C(0);
    return l0;
}

static RT_HERE struct count_images__Counts count_images__settled(struct core__result__Result__count_images_Counts_Refusal l1)
{
    struct count_images__Counts l0;
    struct count_images__Counts l4;
    uint8_t l5;
    switch (l1.tag) {
        case UINT8_C(0): {
            l4.f0 = l1.s0.f0;
            l4.f1 = l1.s0.f1;
            l4.f2 = l1.s0.f2;
            l4.f3 = l1.s0.f3;
            break;
        }
        case UINT8_C(1): default: {
            l5 = types__refusal__U8FromRefusal__from(l1.s1);
            l4 = count_images__refused(l5);
            break;
        }
    }
    l0.f0 = l4.f0;
    l0.f1 = l4.f1;
    l0.f2 = l4.f2;
    l0.f3 = l4.f3;
    return l0;
}

static RT_WITHIN struct rt_array_uint16_6 counting__copies__part__u16_6(rt_slice l1, uint64_t l2)
{
    struct rt_array_uint16_6 l0;
    struct rt_array_uint16_6 l3;
    uint64_t l4;
    uint64_t l5;
    uint16_t l6;
    uint64_t l7;
    uint8_t l8;
    uint64_t l9;
    uint64_t l10;
    uint8_t *l11;
    uint16_t l12;
    uint64_t l13;
    uint8_t *l14;
    uint8_t *l15;
    l6 = core__default__U16Default__default();
    for (size_t i = 0; i < 6; i++) l3.a[i] = l6;
    l4 = (uint64_t)((uint64_t)UINT64_C(6) * (uint64_t)l2);
    l5 = UINT64_C(0);
    l7 = UINT64_C(6);
    for (;;) {
        l8 = (uint8_t)(l5 < l7);
        if (l8) {
        } else {
            goto end1;
        }
        l9 = (uint64_t)((uint64_t)l4 + (uint64_t)l5);
        l10 = (uint64_t)((uint64_t)l9 * (uint64_t)UINT64_C(2));
        l11 = l1.p + (size_t)l10;
        l12 = (*(uint16_t *)l11);
        l13 = (uint64_t)((uint64_t)l5 * (uint64_t)UINT64_C(2));
        l14 = (uint8_t *)&l3;
        l15 = l14 + (size_t)l13;
        (*(uint16_t *)l15) = l12;
        l5 = (uint64_t)((uint64_t)l5 + (uint64_t)UINT64_C(1));
    }
end1:;
    l0 = l3;
    return l0;
}

static RT_HERE struct rt_array_uint64_32 counting__copies__part__u64_32(rt_slice l1, uint64_t l2)
{
    struct rt_array_uint64_32 l0;
    struct rt_array_uint64_32 l3;
    uint64_t l4;
    uint64_t l5;
    uint64_t l6;
    uint64_t l7;
    uint8_t l8;
    uint64_t l9;
    uint64_t l10;
    uint8_t *l11;
    uint64_t l12;
    uint64_t l13;
    uint8_t *l14;
    uint8_t *l15;
    l6 = core__default__U64Default__default();
    for (size_t i = 0; i < 32; i++) l3.a[i] = l6;
    l4 = (uint64_t)((uint64_t)UINT64_C(32) * (uint64_t)l2);
    l5 = UINT64_C(0);
    l7 = UINT64_C(32);
    for (;;) {
        l8 = (uint8_t)(l5 < l7);
        if (l8) {
        } else {
            goto end1;
        }
        l9 = (uint64_t)((uint64_t)l4 + (uint64_t)l5);
        l10 = (uint64_t)((uint64_t)l9 * (uint64_t)UINT64_C(8));
        l11 = l1.p + (size_t)l10;
        l12 = (*(uint64_t *)l11);
        l13 = (uint64_t)((uint64_t)l5 * (uint64_t)UINT64_C(8));
        l14 = (uint8_t *)&l3;
        l15 = l14 + (size_t)l13;
        (*(uint64_t *)l15) = l12;
        l5 = (uint64_t)((uint64_t)l5 + (uint64_t)UINT64_C(1));
    }
end1:;
    l0 = l3;
    return l0;
}

static RT_WITHIN void counting__copies__write__u16(rt_slice l1, uint64_t l2, rt_slice l3)
{
    uint64_t l4;
    uint8_t l6;
    uint64_t l7;
    uint8_t *l8;
    uint16_t l9;
    uint64_t l10;
    uint64_t l11;
    uint8_t *l12;
    l4 = UINT64_C(0);
    for (;;) {
        l6 = (uint8_t)(l4 < l3.n);
        if (l6) {
        } else {
            goto end1;
        }
        l7 = (uint64_t)((uint64_t)l4 * (uint64_t)UINT64_C(2));
        l8 = l3.p + (size_t)l7;
        l9 = (*(uint16_t *)l8);
        l10 = (uint64_t)((uint64_t)l2 + (uint64_t)l4);
        l11 = (uint64_t)((uint64_t)l10 * (uint64_t)UINT64_C(2));
        l12 = l1.p + (size_t)l11;
        (*(uint16_t *)l12) = l9;
        l4 = (uint64_t)((uint64_t)l4 + (uint64_t)UINT64_C(1));
    }
end1:;
    return;
}

static RT_WITHIN void counting__copies__write__u64(rt_slice l1, uint64_t l2, rt_slice l3)
{
    uint64_t l4;
    uint8_t l6;
    uint64_t l7;
    uint8_t *l8;
    uint64_t l9;
    uint64_t l10;
    uint64_t l11;
    uint8_t *l12;
    l4 = UINT64_C(0);
    for (;;) {
        l6 = (uint8_t)(l4 < l3.n);
        if (l6) {
        } else {
            goto end1;
        }
        l7 = (uint64_t)((uint64_t)l4 * (uint64_t)UINT64_C(8));
        l8 = l3.p + (size_t)l7;
        l9 = (*(uint64_t *)l8);
        l10 = (uint64_t)((uint64_t)l2 + (uint64_t)l4);
        l11 = (uint64_t)((uint64_t)l10 * (uint64_t)UINT64_C(8));
        l12 = l1.p + (size_t)l11;
        (*(uint64_t *)l12) = l9;
        l4 = (uint64_t)((uint64_t)l4 + (uint64_t)UINT64_C(1));
    }
end1:;
    return;
}

static RT_SHORT struct counting__count__Tally counting__count__add(struct counting__count__Tally l1, struct counting__count__Tally l2)
{
    struct counting__count__Tally l0;
    uint32_t l3;
    uint32_t l4;
    uint32_t l5;
    l3 = (uint32_t)((uint32_t)l1.f0 + (uint32_t)l2.f0);
    l4 = (uint32_t)((uint32_t)l1.f1 + (uint32_t)l2.f1);
    l5 = (uint32_t)((uint32_t)l1.f2 + (uint32_t)l2.f2);
    l0.f0 = l3;
    l0.f1 = l4;
    l0.f2 = l5;
    return l0;
}

static inline struct counting__count__Tally counting__count__all(struct engine__Machine l1, rt_slice l2, rt_slice l3, rt_slice l4, rt_slice l5, struct counting__count__Asked l6)
{
    struct counting__count__Tally l0;
    struct counting__count__Tally l8;
    uint64_t l9;
    struct counting__count__Tally l10;
    uint8_t l11;
    uint8_t *l12;
    rt_slice l13;
    uint8_t l14;
    uint8_t *l15;
    rt_slice l16;
    uint8_t *l17;
    rt_slice l18;
    l11 = (uint8_t)(l1.f0.f5 == UINT64_C(0));
    if (l11) {
        l12 = (uint8_t *)&(*(uint64_t *)l5.p);
        l13.p = l12;
        l13.n = l5.n;
        l0 = counting__count__resting(l13, l6);
        return l0;
    }
    l8 = counting__count__nothing();
    l9 = UINT64_C(0);
    for (;;) {
        l14 = (uint8_t)(l9 < l1.f0.f0);
        if (l14) {
        } else {
            goto end1;
        }
        l15 = (uint8_t *)&(*(uint16_t *)l4.p);
        l16.p = l15;
        l16.n = l4.n;
        l17 = (uint8_t *)&(*(uint64_t *)l5.p);
        l18.p = l17;
        l18.n = l5.n;
        l10 = counting__count__one(l1, l2, l3, l16, l18, l9, l6);
        l8 = counting__count__add(l8, l10);
        l9 = (uint64_t)((uint64_t)l9 + (uint64_t)UINT64_C(1));
    }
end1:;
    l0.f0 = l8.f0;
    l0.f1 = l8.f1;
    l0.f2 = l8.f2;
    return l0;
}

static RT_SHORT uint64_t counting__count__commands(rt_slice l1, uint64_t l2)
{
    uint64_t l0;
    uint64_t l3;
    uint64_t l4;
    uint8_t l5;
    uint64_t l6;
    l3 = UINT64_C(0);
    l4 = UINT64_C(0);
    for (;;) {
        l5 = (uint8_t)(l4 < l2);
        if (l5) {
        } else {
            goto end1;
        }
        l6 = counting__count__held(l1, l4);
        l3 = (uint64_t)((uint64_t)l3 + (uint64_t)l6);
        l4 = (uint64_t)((uint64_t)l4 + (uint64_t)UINT64_C(1));
    }
end1:;
    l0 = l3;
    return l0;
}

static RT_SHORT uint64_t counting__count__held(rt_slice l1, uint64_t l2)
{
    uint64_t l0;
    uint64_t l3;
    uint64_t l4;
    l3 = layout__head(l1, l2, UINT64_C(2));
    l4 = layout__head(l1, l2, UINT64_C(3));
    l0 = core__int__usize__saturating_sub(l4, l3);
    return l0;
}

static RT_SHORT struct counting__count__Tally counting__count__nothing(void)
{
    struct counting__count__Tally l0;
    l0.f0 = UINT32_C(0);
    l0.f1 = UINT32_C(0);
    l0.f2 = UINT32_C(0);
    return l0;
}

static inline struct counting__count__Tally counting__count__one(struct engine__Machine l1, rt_slice l2, rt_slice l3, rt_slice l4, rt_slice l5, uint64_t l6, struct counting__count__Asked l7)
{
    struct counting__count__Tally l0;
    uint64_t l8;
    struct counting__rows__Saved l9;
    struct engine__Machine l10;
    struct counting__count__Tally l11;
    uint8_t l12;
    uint8_t *l13;
    rt_slice l14;
    uint8_t l15;
    uint8_t *l16;
    rt_slice l17;
    uint8_t *l18;
    rt_slice l19;
    uint8_t *l20;
    rt_slice l21;
    uint8_t *l22;
    rt_slice l23;
    uint8_t *l24;
    rt_slice l25;
    uint8_t *l26;
    rt_slice l27;
    uint8_t *l29;
    rt_slice l30;
    uint8_t *l31;
    rt_slice l32;
    l13 = (uint8_t *)&(*(uint16_t *)l4.p);
    l14.p = l13;
    l14.n = l4.n;
    l12 = layout__holds(l14, l6);
    l15 = (uint8_t)!l12;
    if (l15) {
        l0 = counting__count__nothing();
        return l0;
    }
    l8 = counting__rows__fresh_row(l1.f0.f0, l6);
    l16 = (uint8_t *)&(*(uint16_t *)l4.p);
    l17.p = l16;
    l17.n = l4.n;
    l18 = (uint8_t *)&(*(uint64_t *)l5.p);
    l19.p = l18;
    l19.n = l5.n;
    l9 = counting__rows__save(l2, l17, l19, l6, l8);
    l20 = (uint8_t *)&(*(uint16_t *)l4.p);
    l21.p = l20;
    l21.n = l4.n;
    l22 = (uint8_t *)&(*(uint64_t *)l5.p);
    l23.p = l22;
    l23.n = l5.n;
    l10 = engine__Machine__command(l1, l2, l3, l21, l23, l6);
    l12 = (uint8_t)(l10.f0.f4 != UINT8_C(0));
    if (l12) {
        l0.f0 = UINT32_C(0);
        l0.f1 = UINT32_C(0);
        l0.f2 = UINT32_C(1);
        return l0;
    }
    l24 = (uint8_t *)&(*(uint16_t *)l4.p);
    l25.p = l24;
    l25.n = l4.n;
    l26 = (uint8_t *)&(*(uint64_t *)l5.p);
    l27.p = l26;
    l27.n = l5.n;
    l11 = counting__count__all(l10, l2, l3, l25, l27, l7);
    l29 = (uint8_t *)&(*(uint16_t *)l4.p);
    l30.p = l29;
    l30.n = l4.n;
    l31 = (uint8_t *)&(*(uint64_t *)l5.p);
    l32.p = l31;
    l32.n = l5.n;
    counting__rows__restore(l30, l32, l6, l8, l9);
    l0.f0 = l11.f0;
    l0.f1 = l11.f1;
    l0.f2 = l11.f2;
    return l0;
}

static RT_SHORT struct counting__count__Tally counting__count__resting(rt_slice l1, struct counting__count__Asked l2)
{
    struct counting__count__Tally l0;
    uint64_t l3;
    uint64_t l4;
    uint64_t l5;
    uint8_t *l6;
    uint64_t l7;
    uint8_t l8;
    l4 = (uint64_t)((uint64_t)UINT64_C(32) * (uint64_t)l2.f0);
    l3 = (uint64_t)((uint64_t)l4 + (uint64_t)l2.f1);
    l4 = (uint64_t)((uint64_t)l3 * (uint64_t)UINT64_C(8));
    l6 = l1.p + (size_t)l4;
    l7 = (*(uint64_t *)l6);
    l5 = layout__operand(l7);
    l8 = (uint8_t)(l5 == UINT64_C(1));
    if (l8) {
        l0.f0 = UINT32_C(1);
        l0.f1 = UINT32_C(0);
        l0.f2 = UINT32_C(0);
        return l0;
    }
    l0.f0 = UINT32_C(0);
    l0.f1 = UINT32_C(1);
    l0.f2 = UINT32_C(0);
    return l0;
}

static RT_SHORT uint64_t counting__rows__fresh_row(uint64_t l1, uint64_t l2)
{
    uint64_t l0;
    uint8_t l3;
    uint64_t l4;
    l3 = (uint8_t)(l1 < UINT64_C(256));
    if (l3) {
        l4 = l1;
    } else {
        l4 = l2;
    }
    l0 = l4;
    return l0;
}

static inline void counting__rows__restore(rt_slice l1, rt_slice l2, uint64_t l3, uint64_t l4, struct counting__rows__Saved l5)
{
    struct rt_array_uint16_6 l6;
    struct rt_array_uint16_6 l7;
    struct rt_array_uint64_32 l8;
    struct rt_array_uint64_32 l9;
    uint8_t *l12;
    rt_slice l13;
    uint64_t l14;
    uint8_t *l15;
    rt_slice l16;
    uint8_t *l17;
    rt_slice l18;
    uint8_t *l19;
    rt_slice l20;
    uint8_t *l21;
    rt_slice l22;
    uint8_t *l23;
    rt_slice l24;
    uint8_t *l25;
    rt_slice l26;
    uint8_t *l27;
    rt_slice l28;
    uint8_t *l30;
    l6 = l5.f0;
    l7 = l5.f1;
    l8 = l5.f2;
    l9 = l5.f3;
    l12 = (uint8_t *)&(*(uint16_t *)l1.p);
    l13.p = l12;
    l13.n = l1.n;
    l14 = (uint64_t)((uint64_t)UINT64_C(6) * (uint64_t)l4);
    l15 = (uint8_t *)&l7;
    l16.p = l15;
    l16.n = UINT64_C(6);
    counting__copies__write__u16(l13, l14, l16);
    l17 = (uint8_t *)&(*(uint16_t *)l1.p);
    l18.p = l17;
    l18.n = l1.n;
    l14 = (uint64_t)((uint64_t)UINT64_C(6) * (uint64_t)l3);
    l19 = (uint8_t *)&l6;
    l20.p = l19;
    l20.n = UINT64_C(6);
    counting__copies__write__u16(l18, l14, l20);
    l21 = (uint8_t *)&(*(uint64_t *)l2.p);
    l22.p = l21;
    l22.n = l2.n;
    l14 = (uint64_t)((uint64_t)UINT64_C(32) * (uint64_t)l4);
    l23 = (uint8_t *)&l9;
    l24.p = l23;
    l24.n = UINT64_C(32);
    counting__copies__write__u64(l22, l14, l24);
    l25 = (uint8_t *)&(*(uint64_t *)l2.p);
    l26.p = l25;
    l26.n = l2.n;
    l14 = (uint64_t)((uint64_t)UINT64_C(32) * (uint64_t)l3);
    l27 = (uint8_t *)&l8;
    l28.p = l27;
    l28.n = UINT64_C(32);
    counting__copies__write__u64(l26, l14, l28);
    l14 = (uint64_t)((uint64_t)l5.f4 * (uint64_t)UINT64_C(8));
    l30 = l2.p + (size_t)l14;
    (*(uint64_t *)l30) = l5.f5;
    return;
}

static RT_SHORT struct counting__rows__Saved counting__rows__save(rt_slice l1, rt_slice l2, rt_slice l3, uint64_t l4, uint64_t l5)
{
    struct counting__rows__Saved l0;
    uint64_t l6;
    struct rt_array_uint16_6 l7;
    struct rt_array_uint16_6 l8;
    struct rt_array_uint64_32 l9;
    struct rt_array_uint64_32 l10;
    uint64_t l12;
    uint8_t *l13;
    uint64_t l14;
    l6 = counting__rows__stored_at(l1, l2, l3, l4);
    l7 = counting__copies__part__u16_6(l2, l4);
    l8 = counting__copies__part__u16_6(l2, l5);
    l9 = counting__copies__part__u64_32(l3, l4);
    l10 = counting__copies__part__u64_32(l3, l5);
    l12 = (uint64_t)((uint64_t)l6 * (uint64_t)UINT64_C(8));
    l13 = l3.p + (size_t)l12;
    l14 = (*(uint64_t *)l13);
    l0.f0 = l7;
    l0.f1 = l8;
    l0.f2 = l9;
    l0.f3 = l10;
    l0.f4 = l6;
    l0.f5 = l14;
    return l0;
}

static inline uint64_t counting__rows__stored_at(rt_slice l1, rt_slice l2, rt_slice l3, uint64_t l4)
{
    uint64_t l0;
    uint64_t l5;
    uint64_t l6;
    uint64_t l7;
    uint64_t l8;
    uint64_t l9;
    uint8_t *l10;
    uint64_t l11;
    uint8_t l12;
    uint64_t l13;
    uint64_t l14;
    uint64_t l15;
    uint64_t l16;
    uint8_t *l17;
    uint64_t l18;
    l5 = layout__head(l2, l4, UINT64_C(2));
    l9 = (uint64_t)((uint64_t)l5 * (uint64_t)UINT64_C(8));
    l10 = l1.p + (size_t)l9;
    l11 = (*(uint64_t *)l10);
    l6 = l11;
    l11 = (uint64_t)((uint64_t)l6 % (uint64_t)UINT64_C(256));
    l12 = (uint8_t)(l11 != UINT64_C(4));
    if (l12) {
        l0 = (uint64_t)((uint64_t)UINT64_C(32) * (uint64_t)l4);
        return l0;
    }
    l7 = layout__head(l2, l4, UINT64_C(1));
    l9 = (uint64_t)((uint64_t)UINT64_C(32) * (uint64_t)l4);
    l13 = (uint64_t)((uint64_t)l9 + (uint64_t)UINT64_C(16));
    l14 = (uint64_t)((uint64_t)l7 - (uint64_t)UINT64_C(1));
    l15 = (uint64_t)((uint64_t)l13 + (uint64_t)l14);
    l16 = (uint64_t)((uint64_t)l15 * (uint64_t)UINT64_C(8));
    l17 = l3.p + (size_t)l16;
    l11 = (*(uint64_t *)l17);
    l8 = l11;
    l11 = layout__operand(l8);
    l9 = l11;
    l16 = (uint64_t)((uint64_t)UINT64_C(32) * (uint64_t)l9);
    l18 = layout__operand(l6);
    l15 = l18;
    l0 = (uint64_t)((uint64_t)l16 + (uint64_t)l15);
    return l0;
}

static RT_HERE struct derive__Mark derive__below(rt_slice l1, uint64_t l2, uint8_t l3)
{
    struct derive__Mark l0;
    uint64_t l4;
    uint8_t l9;
    uint8_t *l10;
    uint8_t l11;
    struct text_shape__Act l12;
    uint64_t l13;
    struct derive__Mark l14;
    uint8_t *l15;
    rt_slice l16;
    l9 = (uint8_t)(l2 == UINT64_C(0));
    if (l9) {
        l0 = derive__dead();
        return l0;
    }
    l4 = (uint64_t)((uint64_t)l2 - (uint64_t)UINT64_C(1));
    l10 = l1.p + (size_t)l4;
    l11 = (*(uint8_t *)l10);
    l13 = derive__index(l11, l3);
    l12 = derive__table__act_at(l13);
    switch (l12.tag) {
        case UINT8_C(0): {
            l14.f0 = l12.s0;
            l14.f1 = l4;
            break;
        }
        case UINT8_C(1): {
            l15 = (uint8_t *)&(*(uint8_t *)l1.p);
            l16.p = l15;
            l16.n = l1.n;
            l14 = derive__pushed(l16, l4, l12.s0, l12.s1);
            break;
        }
        case UINT8_C(2): case UINT8_C(3): default: {
            l14 = derive__dead();
            break;
        }
    }
    l0.f0 = l14.f0;
    l0.f1 = l14.f1;
    return l0;
}

static RT_HERE struct derive__Mark derive__dead(void)
{
    struct derive__Mark l0;
    l0.f0 = UINT8_C(0);
    l0.f1 = UINT64_C(0);
    return l0;
}

static inline uint8_t derive__derived(rt_slice l1, rt_slice l2)
{
    uint8_t l0;
    struct derive__Mark l3;
    uint64_t l4;
    uint64_t l5;
    uint64_t l7;
    uint8_t l8;
    uint8_t *l9;
    rt_slice l10;
    uint64_t l11;
    uint8_t l12;
    uint8_t *l13;
    uint8_t l14;
    uint8_t *l15;
    rt_slice l16;
    uint8_t *l18;
    rt_slice l19;
    struct core__option__Option__u8 l20;
    uint8_t *l21;
    rt_slice l22;
    uint8_t *l23;
    rt_slice l24;
    l3.f0 = UINT8_C(1);
    l3.f1 = UINT64_C(0);
    l4 = UINT64_C(0);
    l9 = (uint8_t *)&(*(uint8_t *)l1.p);
    l10.p = l9;
    l10.n = l1.n;
    l5 = lexer__gaps__first(l10);
    for (;;) {
        l11 = l1.n;
        l12 = (uint8_t)(l5 < l11);
        if (l12) {
        } else {
            goto end1;
        }
        l13 = l1.p + (size_t)l5;
        l14 = (*(uint8_t *)l13);
        l7 = derive__entry(l3.f0, l14);
        l15 = (uint8_t *)&(*(uint8_t *)l2.p);
        l16.p = l15;
        l16.n = l2.n;
        l8 = derive__roles__role(l16, l3, l14, l7);
        l18 = (uint8_t *)&(*(uint8_t *)l1.p);
        l19.p = l18;
        l19.n = l1.n;
        l20 = derive__roles__renamed(l3.f0, l14);
        derive__roles__leave(l19, l5, l4, l8, l20);
        l21 = (uint8_t *)&(*(uint8_t *)l2.p);
        l22.p = l21;
        l22.n = l2.n;
        l3 = derive__moved(l22, l3, l14, l7);
        l4 = l5;
        l23 = (uint8_t *)&(*(uint8_t *)l1.p);
        l24.p = l23;
        l24.n = l1.n;
        l11 = (uint64_t)((uint64_t)l5 + (uint64_t)UINT64_C(1));
        l5 = lexer__gaps__next(l24, l11);
    }
end1:;
    l0 = derive__ends(l3.f0, l3.f1);
    return l0;
}

static RT_SHORT uint8_t derive__ends(uint8_t l1, uint64_t l2)
{
    uint8_t l0;
    uint8_t l3;
    uint8_t l4;
    l3 = (uint8_t)(l2 == UINT64_C(0));
    if (l3) {
        switch (l1) {
            case UINT8_C(30): case UINT8_C(33): {
                l4 = 1;
                break;
            }
            default: {
                l4 = 0;
                break;
            }
        }
        l3 = l4;
    }
    l0 = l3;
    return l0;
}

static RT_SHORT uint64_t derive__entry(uint8_t l1, uint8_t l2)
{
    uint64_t l0;
    uint64_t l3;
    uint64_t l4;
    uint8_t l5;
    uint64_t l6;
    uint64_t l7;
    l4 = core__convert__UsizeFromU8__from(l1);
    l3 = (uint64_t)((uint64_t)l4 * (uint64_t)UINT64_C(39));
    l5 = (uint8_t)(l2 < UINT8_C(39));
    if (l5) {
        l7 = core__convert__UsizeFromU8__from(l2);
        l6 = (uint64_t)((uint64_t)l3 + (uint64_t)l7);
    } else {
        l6 = l3;
    }
    l0 = l6;
    return l0;
}

static RT_SHORT uint64_t derive__index(uint8_t l1, uint8_t l2)
{
    uint64_t l0;
    uint8_t l3;
    uint64_t l4;
    l3 = (uint8_t)(l1 < UINT8_C(47));
    if (l3) {
        l4 = derive__entry(l1, l2);
    } else {
        l4 = UINT64_C(0);
    }
    l0 = l4;
    return l0;
}

static RT_HERE struct derive__Mark derive__moved(rt_slice l1, struct derive__Mark l2, uint8_t l3, uint64_t l4)
{
    struct derive__Mark l0;
    struct text_shape__Act l9;
    struct derive__Mark l10;
    uint8_t *l11;
    rt_slice l12;
    uint8_t *l13;
    rt_slice l14;
    l9 = derive__table__act_at(l4);
    switch (l9.tag) {
        case UINT8_C(0): {
            l10.f0 = l9.s0;
            l10.f1 = l2.f1;
            break;
        }
        case UINT8_C(1): {
            l11 = (uint8_t *)&(*(uint8_t *)l1.p);
            l12.p = l11;
            l12.n = l1.n;
            l10 = derive__pushed(l12, l2.f1, l9.s0, l9.s1);
            break;
        }
        case UINT8_C(2): {
            l13 = (uint8_t *)&(*(uint8_t *)l1.p);
            l14.p = l13;
            l14.n = l1.n;
            l10 = derive__below(l14, l2.f1, l3);
            break;
        }
        case UINT8_C(3): default: {
            l10 = derive__dead();
            break;
        }
    }
    l0.f0 = l10.f0;
    l0.f1 = l10.f1;
    return l0;
}

static RT_HERE struct derive__Mark derive__pushed(rt_slice l1, uint64_t l2, uint8_t l3, uint8_t l4)
{
    struct derive__Mark l0;
    uint8_t *l5;
    uint64_t l6;
    l5 = l1.p + (size_t)l2;
    (*(uint8_t *)l5) = l4;
    l6 = (uint64_t)((uint64_t)l2 + (uint64_t)UINT64_C(1));
    l0.f0 = l3;
    l0.f1 = l6;
    return l0;
}

static RT_SHORT void derive__roles__leave(rt_slice l1, uint64_t l2, uint64_t l3, uint8_t l4, struct core__option__Option__u8 l5)
{
    uint8_t *l7;
    uint8_t *l8;
    switch (l5.tag) {
        case UINT8_C(1): {
            l7 = l1.p + (size_t)l3;
            (*(uint8_t *)l7) = l5.s0;
            break;
        }
        case UINT8_C(0): default: {
            break;
        }
    }
    l8 = l1.p + (size_t)l2;
    (*(uint8_t *)l8) = l4;
    return;
}

static inline struct core__option__Option__u8 derive__roles__renamed(uint8_t l1, uint8_t l2)
{
    struct core__option__Option__u8 l0;
    struct core__option__Option__u8 l5;
    switch (l1) {
        case UINT8_C(14): {
            switch (l2) {
                case UINT8_C(36): {
                    l5.tag = UINT8_C(1);
                    l5.s0 = UINT8_C(58);
                    goto end1;
                    break;
                }
                case UINT8_C(13): {
                    l5.tag = UINT8_C(1);
                    l5.s0 = UINT8_C(47);
                    goto end1;
                    break;
                }
                default: {
                    goto end2;
                    break;
                }
            }
            break;
        }
        case UINT8_C(24): {
            switch (l2) {
                case UINT8_C(13): {
                    l5.tag = UINT8_C(1);
                    l5.s0 = UINT8_C(46);
                    goto end1;
                    break;
                }
                default: {
                    goto end2;
                    break;
                }
            }
            break;
        }
        case UINT8_C(30): {
            switch (l2) {
                case UINT8_C(21): {
                    l5.tag = UINT8_C(1);
                    l5.s0 = UINT8_C(49);
                    goto end1;
                    break;
                }
                default: {
                    goto end2;
                    break;
                }
            }
            break;
        }
        default: {
            goto end2;
            break;
        }
    }
end2:;
    l5.tag = UINT8_C(0);
end1:;
    l0 = l5;
    return l0;
}

static inline uint8_t derive__roles__role(rt_slice l1, struct derive__Mark l2, uint8_t l3, uint64_t l4)
{
    uint8_t l0;
    uint8_t l5;
    uint8_t l6;
    uint8_t l7;
    uint8_t l8;
    uint8_t l9;
    uint8_t l10;
    uint64_t l11;
    uint64_t l12;
    uint8_t *l13;
    uint8_t l14;
    l5 = derive__table__mark_at(l4);
    l6 = (uint8_t)(l5 != UINT8_C(94));
    if (l6) {
        l7 = derive__roles__said(l5, l3);
    } else {
        l8 = (uint8_t)(l2.f1 == UINT64_C(0));
        if (l8) {
            l9 = l3;
        } else {
            l12 = (uint64_t)((uint64_t)l2.f1 - (uint64_t)UINT64_C(1));
            l13 = l1.p + (size_t)l12;
            l14 = (*(uint8_t *)l13);
            l11 = derive__index(l14, l3);
            l10 = derive__table__mark_at(l11);
            l9 = derive__roles__said(l10, l3);
        }
        l7 = l9;
    }
    l0 = l7;
    return l0;
}

static RT_SHORT uint8_t derive__roles__said(uint8_t l1, uint8_t l2)
{
    uint8_t l0;
    uint8_t l3;
    uint8_t l4;
    l3 = (uint8_t)(l1 == UINT8_C(95));
    if (l3) {
        l4 = l2;
    } else {
        l4 = l1;
    }
    l0 = l4;
    return l0;
}

static RT_HERE struct derive__Mark derive__step(rt_slice l1, struct derive__Mark l2, uint8_t l3)
{
    struct derive__Mark l0;
    uint8_t *l4;
    rt_slice l5;
    uint64_t l6;
    l4 = (uint8_t *)&(*(uint8_t *)l1.p);
    l5.p = l4;
    l5.n = l1.n;
    l6 = derive__index(l2.f0, l3);
    l0 = derive__moved(l5, l2, l3, l6);
    return l0;
}

static inline struct text_shape__Act derive__table__act_at(uint64_t l1)
{
    struct text_shape__Act l0;
    uint8_t l4;
    rt_slice l5;
    uint8_t *l6;
    uint8_t l7;
    struct text_shape__Act l8;
    uint8_t l9;
    rt_slice l10;
    uint8_t *l11;
    uint8_t l12;
    struct text_shape__Act l13;
    l5 = derive__table__next();
    l6 = l5.p + (size_t)l1;
    l7 = (*(uint8_t *)l6);
    l4 = (uint8_t)((uint32_t)l7 - (uint32_t)UINT8_C(48));
    switch (l4) {
        case UINT8_C(0): {
            l8.tag = UINT8_C(3);
            break;
        }
        case UINT8_C(63): {
            l8.tag = UINT8_C(2);
            break;
        }
        default: {
            l10 = derive__table__opened();
            l11 = l10.p + (size_t)l1;
            l12 = (*(uint8_t *)l11);
            l9 = (uint8_t)((uint32_t)l12 - (uint32_t)UINT8_C(48));
            switch (l9) {
                case UINT8_C(0): {
                    l13.tag = UINT8_C(0);
                    l13.s0 = l4;
                    break;
                }
                default: {
                    l13.tag = UINT8_C(1);
                    l13.s0 = l4;
                    l13.s1 = l9;
                    break;
                }
            }
            l8 = l13;
            break;
        }
    }
    l0 = l8;
    return l0;
}

static RT_SHORT uint8_t derive__table__mark_at(uint64_t l1)
{
    uint8_t l0;
    rt_slice l2;
    uint8_t *l3;
    uint8_t l4;
    l2 = derive__table__marks();
    l3 = l2.p + (size_t)l1;
    l4 = (*(uint8_t *)l3);
    l0 = l4;
    return l0;
}

static const struct rt_array_uint8_1833 derive__table__marks__l3 = { { UINT8_C(95), UINT8_C(95), UINT8_C(95), UINT8_C(95), UINT8_C(95), UINT8_C(95), UINT8_C(95), UINT8_C(95), UINT8_C(95), UINT8_C(95), UINT8_C(95), UINT8_C(95), UINT8_C(95), UINT8_C(95), UINT8_C(95), UINT8_C(95), UINT8_C(95), UINT8_C(95), UINT8_C(95), UINT8_C(95), UINT8_C(95), UINT8_C(95), UINT8_C(95), UINT8_C(95), UINT8_C(95), UINT8_C(95), UINT8_C(95), UINT8_C(95), UINT8_C(95), UINT8_C(95), UINT8_C(95), UINT8_C(95), UINT8_C(95), UINT8_C(95), UINT8_C(95), UINT8_C(95), UINT8_C(95), UINT8_C(95), UINT8_C(95), UINT8_C(95), UINT8_C(95), UINT8_C(95), UINT8_C(95), UINT8_C(95), UINT8_C(95), UINT8_C(95), UINT8_C(95), UINT8_C(95), UINT8_C(95), UINT8_C(95), UINT8_C(95), UINT8_C(95), UINT8_C(95), UINT8_C(95), UINT8_C(95), UINT8_C(95), UINT8_C(95), UINT8_C(95), UINT8_C(95), UINT8_C(95), UINT8_C(95), UINT8_C(95), UINT8_C(95), UINT8_C(95), UINT8_C(95), UINT8_C(95), UINT8_C(95), UINT8_C(95), UINT8_C(95), UINT8_C(95), UINT8_C(95), UINT8_C(95), UINT8_C(95), UINT8_C(95), UINT8_C(95), UINT8_C(95), UINT8_C(95), UINT8_C(95), UINT8_C(95), UINT8_C(95), UINT8_C(95), UINT8_C(95), UINT8_C(95), UINT8_C(95), UINT8_C(95), UINT8_C(95), UINT8_C(95), UINT8_C(95), UINT8_C(95), UINT8_C(95), UINT8_C(95), UINT8_C(95), UINT8_C(95), UINT8_C(95), UINT8_C(95), UINT8_C(95), UINT8_C(95), UINT8_C(95), UINT8_C(95), UINT8_C(95), UINT8_C(95), UINT8_C(95), UINT8_C(95), UINT8_C(95), UINT8_C(95), UINT8_C(95), UINT8_C(95), UINT8_C(95), UINT8_C(95), UINT8_C(95), UINT8_C(95), UINT8_C(95), UINT8_C(95), UINT8_C(95), UINT8_C(48), UINT8_C(95), UINT8_C(95), UINT8_C(95), UINT8_C(95), UINT8_C(95), UINT8_C(95), UINT8_C(95), UINT8_C(95), UINT8_C(95), UINT8_C(95), UINT8_C(95), UINT8_C(95), UINT8_C(95), UINT8_C(95), UINT8_C(95), UINT8_C(95), UINT8_C(95), UINT8_C(95), UINT8_C(95), UINT8_C(95), UINT8_C(95), UINT8_C(95), UINT8_C(95), UINT8_C(95), UINT8_C(95), UINT8_C(95), UINT8_C(95), UINT8_C(95), UINT8_C(95), UINT8_C(95), UINT8_C(95), UINT8_C(95), UINT8_C(95), UINT8_C(95), UINT8_C(95), UINT8_C(95), UINT8_C(95), UINT8_C(95), UINT8_C(39), UINT8_C(95), UINT8_C(95), UINT8_C(95), UINT8_C(95), UINT8_C(95), UINT8_C(95), UINT8_C(95), UINT8_C(95), UINT8_C(95), UINT8_C(95), UINT8_C(95), UINT8_C(95), UINT8_C(95), UINT8_C(95), UINT8_C(95), UINT8_C(68), UINT8_C(95), UINT8_C(95), UINT8_C(95), UINT8_C(95), UINT8_C(95), UINT8_C(95), UINT8_C(95), UINT8_C(95), UINT8_C(95), UINT8_C(95), UINT8_C(95), UINT8_C(95), UINT8_C(95), UINT8_C(95), UINT8_C(95), UINT8_C(95), UINT8_C(95), UINT8_C(95), UINT8_C(95), UINT8_C(95), UINT8_C(95), UINT8_C(95), UINT8_C(95), UINT8_C(95), UINT8_C(95), UINT8_C(95), UINT8_C(95), UINT8_C(95), UINT8_C(95), UINT8_C(95), UINT8_C(95), UINT8_C(95), UINT8_C(95), UINT8_C(95), UINT8_C(95), UINT8_C(95), UINT8_C(95), UINT8_C(95), UINT8_C(95), UINT8_C(69), UINT8_C(95), UINT8_C(95), UINT8_C(95), UINT8_C(95), UINT8_C(95), UINT8_C(95), UINT8_C(95), UINT8_C(95), UINT8_C(95), UINT8_C(95), UINT8_C(95), UINT8_C(95), UINT8_C(95), UINT8_C(95), UINT8_C(95), UINT8_C(95), UINT8_C(95), UINT8_C(95), UINT8_C(95), UINT8_C(95), UINT8_C(95), UINT8_C(40), UINT8_C(95), UINT8_C(95), UINT8_C(95), UINT8_C(95), UINT8_C(95), UINT8_C(95), UINT8_C(95), UINT8_C(95), UINT8_C(95), UINT8_C(95), UINT8_C(95), UINT8_C(95), UINT8_C(95), UINT8_C(95), UINT8_C(95), UINT8_C(95), UINT8_C(95), UINT8_C(95), UINT8_C(95), UINT8_C(95), UINT8_C(95), UINT8_C(95), UINT8_C(95), UINT8_C(95), UINT8_C(95), UINT8_C(95), UINT8_C(95), UINT8_C(95), UINT8_C(95), UINT8_C(95), UINT8_C(95), UINT8_C(95), UINT8_C(95), UINT8_C(95), UINT8_C(95), UINT8_C(95), UINT8_C(95), UINT8_C(95), UINT8_C(40), UINT8_C(95), UINT8_C(95), UINT8_C(95), UINT8_C(95), UINT8_C(95), UINT8_C(95), UINT8_C(95), UINT8_C(95), UINT8_C(95), UINT8_C(95), UINT8_C(95), UINT8_C(95), UINT8_C(95), UINT8_C(95), UINT8_C(95), UINT8_C(95), UINT8_C(95), UINT8_C(95), UINT8_C(95), UINT8_C(95), UINT8_C(95), UINT8_C(95), UINT8_C(95), UINT8_C(95), UINT8_C(95), UINT8_C(95), UINT8_C(95), UINT8_C(95), UINT8_C(95), UINT8_C(95), UINT8_C(95), UINT8_C(95), UINT8_C(95), UINT8_C(95), UINT8_C(95), UINT8_C(95), UINT8_C(95), UINT8_C(95), UINT8_C(95), UINT8_C(95), UINT8_C(95), UINT8_C(95), UINT8_C(95), UINT8_C(95), UINT8_C(95), UINT8_C(95), UINT8_C(95), UINT8_C(95), UINT8_C(51), UINT8_C(52), UINT8_C(53), UINT8_C(95), UINT8_C(95), UINT8_C(95), UINT8_C(95), UINT8_C(95), UINT8_C(95), UINT8_C(95), UINT8_C(95), UINT8_C(95), UINT8_C(95), UINT8_C(95), UINT8_C(95), UINT8_C(95), UINT8_C(95), UINT8_C(95), UINT8_C(95), UINT8_C(95), UINT8_C(95), UINT8_C(95), UINT8_C(95), UINT8_C(95), UINT8_C(95), UINT8_C(95), UINT8_C(95), UINT8_C(95), UINT8_C(95), UINT8_C(54), UINT8_C(95), UINT8_C(95), UINT8_C(95), UINT8_C(95), UINT8_C(95), UINT8_C(95), UINT8_C(95), UINT8_C(95), UINT8_C(95), UINT8_C(95), UINT8_C(95), UINT8_C(95), UINT8_C(95), UINT8_C(95), UINT8_C(95), UINT8_C(95), UINT8_C(69), UINT8_C(95), UINT8_C(95), UINT8_C(78), UINT8_C(95), UINT8_C(95), UINT8_C(95), UINT8_C(95), UINT8_C(95), UINT8_C(95), UINT8_C(95), UINT8_C(95), UINT8_C(95), UINT8_C(95), UINT8_C(95), UINT8_C(95), UINT8_C(95), UINT8_C(95), UINT8_C(95), UINT8_C(95), UINT8_C(95), UINT8_C(95), UINT8_C(95), UINT8_C(95), UINT8_C(95), UINT8_C(95), UINT8_C(95), UINT8_C(95), UINT8_C(95), UINT8_C(95), UINT8_C(95), UINT8_C(95), UINT8_C(95), UINT8_C(95), UINT8_C(95), UINT8_C(95), UINT8_C(95), UINT8_C(95), UINT8_C(95), UINT8_C(95), UINT8_C(72), UINT8_C(95), UINT8_C(95), UINT8_C(95), UINT8_C(95), UINT8_C(95), UINT8_C(95), UINT8_C(95), UINT8_C(95), UINT8_C(95), UINT8_C(95), UINT8_C(95), UINT8_C(95), UINT8_C(95), UINT8_C(95), UINT8_C(95), UINT8_C(95), UINT8_C(95), UINT8_C(95), UINT8_C(95), UINT8_C(95), UINT8_C(95), UINT8_C(95), UINT8_C(95), UINT8_C(95), UINT8_C(95), UINT8_C(95), UINT8_C(95), UINT8_C(95), UINT8_C(95), UINT8_C(95), UINT8_C(95), UINT8_C(95), UINT8_C(95), UINT8_C(95), UINT8_C(95), UINT8_C(95), UINT8_C(95), UINT8_C(95), UINT8_C(95), UINT8_C(73), UINT8_C(95), UINT8_C(95), UINT8_C(95), UINT8_C(95), UINT8_C(95), UINT8_C(95), UINT8_C(95), UINT8_C(95), UINT8_C(95), UINT8_C(95), UINT8_C(95), UINT8_C(95), UINT8_C(95), UINT8_C(95), UINT8_C(95), UINT8_C(95), UINT8_C(95), UINT8_C(95), UINT8_C(95), UINT8_C(41), UINT8_C(95), UINT8_C(95), UINT8_C(95), UINT8_C(95), UINT8_C(95), UINT8_C(95), UINT8_C(95), UINT8_C(95), UINT8_C(95), UINT8_C(95), UINT8_C(95), UINT8_C(95), UINT8_C(95), UINT8_C(95), UINT8_C(95), UINT8_C(95), UINT8_C(95), UINT8_C(74), UINT8_C(95), UINT8_C(95), UINT8_C(95), UINT8_C(95), UINT8_C(95), UINT8_C(95), UINT8_C(95), UINT8_C(95), UINT8_C(95), UINT8_C(95), UINT8_C(95), UINT8_C(95), UINT8_C(95), UINT8_C(95), UINT8_C(95), UINT8_C(95), UINT8_C(95), UINT8_C(95), UINT8_C(95), UINT8_C(95), UINT8_C(95), UINT8_C(95), UINT8_C(95), UINT8_C(95), UINT8_C(95), UINT8_C(95), UINT8_C(95), UINT8_C(95), UINT8_C(95), UINT8_C(95), UINT8_C(55), UINT8_C(56), UINT8_C(57), UINT8_C(95), UINT8_C(95), UINT8_C(95), UINT8_C(95), UINT8_C(95), UINT8_C(95), UINT8_C(94), UINT8_C(95), UINT8_C(95), UINT8_C(95), UINT8_C(95), UINT8_C(95), UINT8_C(95), UINT8_C(95), UINT8_C(95), UINT8_C(95), UINT8_C(95), UINT8_C(95), UINT8_C(95), UINT8_C(95), UINT8_C(95), UINT8_C(95), UINT8_C(95), UINT8_C(95), UINT8_C(95), UINT8_C(95), UINT8_C(44), UINT8_C(95), UINT8_C(95), UINT8_C(95), UINT8_C(95), UINT8_C(95), UINT8_C(95), UINT8_C(95), UINT8_C(95), UINT8_C(95), UINT8_C(95), UINT8_C(95), UINT8_C(95), UINT8_C(95), UINT8_C(95), UINT8_C(95), UINT8_C(65), UINT8_C(95), UINT8_C(95), UINT8_C(95), UINT8_C(95), UINT8_C(95), UINT8_C(95), UINT8_C(95), UINT8_C(95), UINT8_C(95), UINT8_C(95), UINT8_C(95), UINT8_C(95), UINT8_C(95), UINT8_C(95), UINT8_C(95), UINT8_C(95), UINT8_C(95), UINT8_C(95), UINT8_C(95), UINT8_C(95), UINT8_C(95), UINT8_C(95), UINT8_C(42), UINT8_C(95), UINT8_C(95), UINT8_C(95), UINT8_C(95), UINT8_C(95), UINT8_C(95), UINT8_C(95), UINT8_C(95), UINT8_C(95), UINT8_C(95), UINT8_C(95), UINT8_C(95), UINT8_C(95), UINT8_C(95), UINT8_C(95), UINT8_C(95), UINT8_C(95), UINT8_C(95), UINT8_C(95), UINT8_C(95), UINT8_C(95), UINT8_C(95), UINT8_C(95), UINT8_C(95), UINT8_C(95), UINT8_C(95), UINT8_C(95), UINT8_C(95), UINT8_C(95), UINT8_C(95), UINT8_C(95), UINT8_C(95), UINT8_C(95), UINT8_C(95), UINT8_C(95), UINT8_C(95), UINT8_C(95), UINT8_C(95), UINT8_C(45), UINT8_C(95), UINT8_C(95), UINT8_C(95), UINT8_C(95), UINT8_C(95), UINT8_C(95), UINT8_C(95), UINT8_C(95), UINT8_C(95), UINT8_C(95), UINT8_C(95), UINT8_C(95), UINT8_C(95), UINT8_C(95), UINT8_C(95), UINT8_C(95), UINT8_C(95), UINT8_C(95), UINT8_C(95), UINT8_C(95), UINT8_C(95), UINT8_C(95), UINT8_C(95), UINT8_C(95), UINT8_C(95), UINT8_C(95), UINT8_C(95), UINT8_C(95), UINT8_C(95), UINT8_C(95), UINT8_C(95), UINT8_C(95), UINT8_C(95), UINT8_C(95), UINT8_C(95), UINT8_C(95), UINT8_C(95), UINT8_C(95), UINT8_C(95), UINT8_C(95), UINT8_C(95), UINT8_C(95), UINT8_C(95), UINT8_C(95), UINT8_C(95), UINT8_C(95), UINT8_C(95), UINT8_C(95), UINT8_C(95), UINT8_C(95), UINT8_C(95), UINT8_C(95), UINT8_C(95), UINT8_C(95), UINT8_C(95), UINT8_C(95), UINT8_C(95), UINT8_C(95), UINT8_C(95), UINT8_C(95), UINT8_C(95), UINT8_C(95), UINT8_C(95), UINT8_C(95), UINT8_C(95), UINT8_C(95), UINT8_C(95), UINT8_C(95), UINT8_C(95), UINT8_C(95), UINT8_C(95), UINT8_C(95), UINT8_C(95), UINT8_C(95), UINT8_C(95), UINT8_C(95), UINT8_C(95), UINT8_C(42), UINT8_C(95), UINT8_C(95), UINT8_C(95), UINT8_C(95), UINT8_C(95), UINT8_C(95), UINT8_C(95), UINT8_C(95), UINT8_C(95), UINT8_C(95), UINT8_C(95), UINT8_C(95), UINT8_C(95), UINT8_C(95), UINT8_C(95), UINT8_C(95), UINT8_C(95), UINT8_C(95), UINT8_C(95), UINT8_C(95), UINT8_C(95), UINT8_C(95), UINT8_C(95), UINT8_C(95), UINT8_C(95), UINT8_C(95), UINT8_C(95), UINT8_C(95), UINT8_C(95), UINT8_C(95), UINT8_C(95), UINT8_C(95), UINT8_C(95), UINT8_C(95), UINT8_C(95), UINT8_C(95), UINT8_C(95), UINT8_C(95), UINT8_C(95), UINT8_C(95), UINT8_C(95), UINT8_C(95), UINT8_C(95), UINT8_C(95), UINT8_C(95), UINT8_C(95), UINT8_C(95), UINT8_C(95), UINT8_C(95), UINT8_C(95), UINT8_C(95), UINT8_C(95), UINT8_C(95), UINT8_C(95), UINT8_C(63), UINT8_C(67), UINT8_C(95), UINT8_C(95), UINT8_C(95), UINT8_C(95), UINT8_C(95), UINT8_C(95), UINT8_C(95), UINT8_C(95), UINT8_C(95), UINT8_C(95), UINT8_C(95), UINT8_C(95), UINT8_C(95), UINT8_C(95), UINT8_C(95), UINT8_C(95), UINT8_C(95), UINT8_C(95), UINT8_C(95), UINT8_C(95), UINT8_C(95), UINT8_C(43), UINT8_C(95), UINT8_C(95), UINT8_C(95), UINT8_C(95), UINT8_C(95), UINT8_C(95), UINT8_C(95), UINT8_C(95), UINT8_C(95), UINT8_C(95), UINT8_C(95), UINT8_C(95), UINT8_C(95), UINT8_C(95), UINT8_C(95), UINT8_C(95), UINT8_C(95), UINT8_C(95), UINT8_C(95), UINT8_C(95), UINT8_C(95), UINT8_C(95), UINT8_C(95), UINT8_C(95), UINT8_C(95), UINT8_C(95), UINT8_C(95), UINT8_C(95), UINT8_C(95), UINT8_C(95), UINT8_C(95), UINT8_C(95), UINT8_C(95), UINT8_C(95), UINT8_C(95), UINT8_C(95), UINT8_C(95), UINT8_C(95), UINT8_C(95), UINT8_C(95), UINT8_C(95), UINT8_C(95), UINT8_C(95), UINT8_C(95), UINT8_C(95), UINT8_C(95), UINT8_C(95), UINT8_C(95), UINT8_C(95), UINT8_C(95), UINT8_C(95), UINT8_C(95), UINT8_C(95), UINT8_C(95), UINT8_C(95), UINT8_C(95), UINT8_C(76), UINT8_C(95), UINT8_C(95), UINT8_C(95), UINT8_C(95), UINT8_C(95), UINT8_C(95), UINT8_C(95), UINT8_C(95), UINT8_C(95), UINT8_C(95), UINT8_C(95), UINT8_C(95), UINT8_C(95), UINT8_C(95), UINT8_C(95), UINT8_C(95), UINT8_C(95), UINT8_C(95), UINT8_C(95), UINT8_C(95), UINT8_C(95), UINT8_C(95), UINT8_C(95), UINT8_C(95), UINT8_C(95), UINT8_C(95), UINT8_C(95), UINT8_C(95), UINT8_C(95), UINT8_C(95), UINT8_C(95), UINT8_C(95), UINT8_C(95), UINT8_C(95), UINT8_C(95), UINT8_C(95), UINT8_C(63), UINT8_C(95), UINT8_C(95), UINT8_C(95), UINT8_C(95), UINT8_C(95), UINT8_C(95), UINT8_C(95), UINT8_C(95), UINT8_C(95), UINT8_C(95), UINT8_C(95), UINT8_C(95), UINT8_C(95), UINT8_C(95), UINT8_C(95), UINT8_C(95), UINT8_C(95), UINT8_C(95), UINT8_C(95), UINT8_C(95), UINT8_C(95), UINT8_C(95), UINT8_C(43), UINT8_C(95), UINT8_C(95), UINT8_C(94), UINT8_C(94), UINT8_C(94), UINT8_C(94), UINT8_C(94), UINT8_C(94), UINT8_C(94), UINT8_C(94), UINT8_C(94), UINT8_C(94), UINT8_C(94), UINT8_C(94), UINT8_C(94), UINT8_C(94), UINT8_C(94), UINT8_C(94), UINT8_C(94), UINT8_C(94), UINT8_C(94), UINT8_C(94), UINT8_C(94), UINT8_C(94), UINT8_C(94), UINT8_C(94), UINT8_C(94), UINT8_C(94), UINT8_C(94), UINT8_C(94), UINT8_C(94), UINT8_C(94), UINT8_C(94), UINT8_C(94), UINT8_C(94), UINT8_C(94), UINT8_C(94), UINT8_C(94), UINT8_C(94), UINT8_C(94), UINT8_C(94), UINT8_C(94), UINT8_C(94), UINT8_C(94), UINT8_C(94), UINT8_C(94), UINT8_C(94), UINT8_C(94), UINT8_C(94), UINT8_C(94), UINT8_C(94), UINT8_C(94), UINT8_C(94), UINT8_C(94), UINT8_C(65), UINT8_C(94), UINT8_C(94), UINT8_C(94), UINT8_C(94), UINT8_C(94), UINT8_C(94), UINT8_C(94), UINT8_C(95), UINT8_C(94), UINT8_C(94), UINT8_C(94), UINT8_C(94), UINT8_C(94), UINT8_C(94), UINT8_C(94), UINT8_C(94), UINT8_C(94), UINT8_C(94), UINT8_C(94), UINT8_C(94), UINT8_C(94), UINT8_C(94), UINT8_C(94), UINT8_C(94), UINT8_C(94), UINT8_C(95), UINT8_C(95), UINT8_C(95), UINT8_C(95), UINT8_C(95), UINT8_C(95), UINT8_C(95), UINT8_C(95), UINT8_C(95), UINT8_C(95), UINT8_C(95), UINT8_C(95), UINT8_C(95), UINT8_C(95), UINT8_C(95), UINT8_C(95), UINT8_C(95), UINT8_C(95), UINT8_C(95), UINT8_C(95), UINT8_C(95), UINT8_C(95), UINT8_C(95), UINT8_C(95), UINT8_C(95), UINT8_C(95), UINT8_C(95), UINT8_C(95), UINT8_C(95), UINT8_C(95), UINT8_C(95), UINT8_C(95), UINT8_C(95), UINT8_C(95), UINT8_C(95), UINT8_C(95), UINT8_C(45), UINT8_C(95), UINT8_C(95), UINT8_C(94), UINT8_C(94), UINT8_C(94), UINT8_C(94), UINT8_C(94), UINT8_C(94), UINT8_C(94), UINT8_C(94), UINT8_C(94), UINT8_C(94), UINT8_C(94), UINT8_C(94), UINT8_C(94), UINT8_C(94), UINT8_C(94), UINT8_C(94), UINT8_C(94), UINT8_C(94), UINT8_C(94), UINT8_C(94), UINT8_C(94), UINT8_C(95), UINT8_C(94), UINT8_C(94), UINT8_C(94), UINT8_C(94), UINT8_C(94), UINT8_C(94), UINT8_C(94), UINT8_C(94), UINT8_C(94), UINT8_C(94), UINT8_C(94), UINT8_C(94), UINT8_C(94), UINT8_C(94), UINT8_C(94), UINT8_C(94), UINT8_C(94), UINT8_C(95), UINT8_C(95), UINT8_C(95), UINT8_C(95), UINT8_C(95), UINT8_C(95), UINT8_C(95), UINT8_C(95), UINT8_C(95), UINT8_C(95), UINT8_C(95), UINT8_C(95), UINT8_C(95), UINT8_C(63), UINT8_C(67), UINT8_C(95), UINT8_C(95), UINT8_C(95), UINT8_C(95), UINT8_C(95), UINT8_C(95), UINT8_C(95), UINT8_C(95), UINT8_C(95), UINT8_C(95), UINT8_C(95), UINT8_C(95), UINT8_C(95), UINT8_C(95), UINT8_C(95), UINT8_C(95), UINT8_C(95), UINT8_C(95), UINT8_C(95), UINT8_C(95), UINT8_C(95), UINT8_C(43), UINT8_C(95), UINT8_C(95), UINT8_C(95), UINT8_C(95), UINT8_C(95), UINT8_C(95), UINT8_C(95), UINT8_C(95), UINT8_C(95), UINT8_C(59), UINT8_C(60), UINT8_C(61), UINT8_C(95), UINT8_C(95), UINT8_C(95), UINT8_C(95), UINT8_C(95), UINT8_C(95), UINT8_C(95), UINT8_C(95), UINT8_C(95), UINT8_C(95), UINT8_C(95), UINT8_C(95), UINT8_C(95), UINT8_C(95), UINT8_C(95), UINT8_C(95), UINT8_C(95), UINT8_C(95), UINT8_C(95), UINT8_C(95), UINT8_C(95), UINT8_C(95), UINT8_C(95), UINT8_C(95), UINT8_C(95), UINT8_C(95), UINT8_C(62), UINT8_C(95), UINT8_C(95), UINT8_C(95), UINT8_C(95), UINT8_C(95), UINT8_C(95), UINT8_C(95), UINT8_C(95), UINT8_C(95), UINT8_C(95), UINT8_C(95), UINT8_C(95), UINT8_C(95), UINT8_C(95), UINT8_C(95), UINT8_C(95), UINT8_C(95), UINT8_C(95), UINT8_C(95), UINT8_C(95), UINT8_C(95), UINT8_C(95), UINT8_C(95), UINT8_C(95), UINT8_C(95), UINT8_C(95), UINT8_C(95), UINT8_C(95), UINT8_C(95), UINT8_C(95), UINT8_C(95), UINT8_C(95), UINT8_C(95), UINT8_C(95), UINT8_C(95), UINT8_C(95), UINT8_C(95), UINT8_C(95), UINT8_C(48), UINT8_C(95), UINT8_C(95), UINT8_C(94), UINT8_C(94), UINT8_C(94), UINT8_C(94), UINT8_C(94), UINT8_C(94), UINT8_C(94), UINT8_C(94), UINT8_C(94), UINT8_C(94), UINT8_C(94), UINT8_C(94), UINT8_C(94), UINT8_C(94), UINT8_C(94), UINT8_C(94), UINT8_C(94), UINT8_C(94), UINT8_C(94), UINT8_C(94), UINT8_C(94), UINT8_C(95), UINT8_C(94), UINT8_C(94), UINT8_C(94), UINT8_C(94), UINT8_C(94), UINT8_C(80), UINT8_C(94), UINT8_C(94), UINT8_C(94), UINT8_C(94), UINT8_C(94), UINT8_C(94), UINT8_C(94), UINT8_C(94), UINT8_C(94), UINT8_C(94), UINT8_C(94), UINT8_C(95), UINT8_C(95), UINT8_C(95), UINT8_C(95), UINT8_C(95), UINT8_C(95), UINT8_C(95), UINT8_C(95), UINT8_C(95), UINT8_C(95), UINT8_C(95), UINT8_C(95), UINT8_C(95), UINT8_C(95), UINT8_C(95), UINT8_C(95), UINT8_C(95), UINT8_C(95), UINT8_C(95), UINT8_C(95), UINT8_C(95), UINT8_C(95), UINT8_C(95), UINT8_C(95), UINT8_C(95), UINT8_C(95), UINT8_C(95), UINT8_C(95), UINT8_C(95), UINT8_C(95), UINT8_C(95), UINT8_C(95), UINT8_C(95), UINT8_C(95), UINT8_C(95), UINT8_C(95), UINT8_C(50), UINT8_C(95), UINT8_C(95), UINT8_C(95), UINT8_C(95), UINT8_C(95), UINT8_C(95), UINT8_C(95), UINT8_C(95), UINT8_C(95), UINT8_C(95), UINT8_C(95), UINT8_C(95), UINT8_C(95), UINT8_C(95), UINT8_C(95), UINT8_C(70), UINT8_C(95), UINT8_C(95), UINT8_C(95), UINT8_C(95), UINT8_C(95), UINT8_C(95), UINT8_C(95), UINT8_C(95), UINT8_C(95), UINT8_C(95), UINT8_C(95), UINT8_C(95), UINT8_C(95), UINT8_C(95), UINT8_C(95), UINT8_C(95), UINT8_C(95), UINT8_C(95), UINT8_C(95), UINT8_C(95), UINT8_C(95), UINT8_C(95), UINT8_C(95), UINT8_C(95), UINT8_C(95), UINT8_C(94), UINT8_C(94), UINT8_C(94), UINT8_C(94), UINT8_C(94), UINT8_C(94), UINT8_C(94), UINT8_C(94), UINT8_C(94), UINT8_C(94), UINT8_C(94), UINT8_C(94), UINT8_C(94), UINT8_C(94), UINT8_C(94), UINT8_C(94), UINT8_C(94), UINT8_C(94), UINT8_C(94), UINT8_C(94), UINT8_C(94), UINT8_C(94), UINT8_C(94), UINT8_C(94), UINT8_C(94), UINT8_C(94), UINT8_C(94), UINT8_C(80), UINT8_C(94), UINT8_C(94), UINT8_C(94), UINT8_C(94), UINT8_C(94), UINT8_C(94), UINT8_C(94), UINT8_C(94), UINT8_C(94), UINT8_C(94), UINT8_C(94), UINT8_C(95), UINT8_C(95), UINT8_C(95), UINT8_C(95), UINT8_C(95), UINT8_C(95), UINT8_C(95), UINT8_C(95), UINT8_C(95), UINT8_C(95), UINT8_C(95), UINT8_C(95), UINT8_C(95), UINT8_C(95), UINT8_C(71), UINT8_C(95), UINT8_C(95), UINT8_C(95), UINT8_C(95), UINT8_C(95), UINT8_C(95), UINT8_C(95), UINT8_C(95), UINT8_C(95), UINT8_C(95), UINT8_C(95), UINT8_C(95), UINT8_C(95), UINT8_C(95), UINT8_C(95), UINT8_C(95), UINT8_C(95), UINT8_C(95), UINT8_C(95), UINT8_C(95), UINT8_C(95), UINT8_C(95), UINT8_C(95), UINT8_C(95), UINT8_C(95), UINT8_C(95), UINT8_C(95), UINT8_C(95), UINT8_C(95), UINT8_C(95), UINT8_C(95), UINT8_C(95), UINT8_C(95), UINT8_C(95), UINT8_C(95), UINT8_C(95), UINT8_C(95), UINT8_C(95), UINT8_C(64), UINT8_C(95), UINT8_C(95), UINT8_C(95), UINT8_C(95), UINT8_C(95), UINT8_C(95), UINT8_C(95), UINT8_C(95), UINT8_C(95), UINT8_C(95), UINT8_C(95), UINT8_C(95), UINT8_C(95), UINT8_C(95), UINT8_C(95), UINT8_C(95), UINT8_C(95), UINT8_C(95), UINT8_C(95), UINT8_C(95), UINT8_C(95), UINT8_C(95), UINT8_C(95), UINT8_C(95), UINT8_C(95), UINT8_C(95), UINT8_C(95), UINT8_C(95), UINT8_C(95), UINT8_C(95), UINT8_C(95), UINT8_C(95), UINT8_C(95), UINT8_C(95), UINT8_C(95), UINT8_C(95), UINT8_C(95), UINT8_C(95), UINT8_C(66), UINT8_C(95), UINT8_C(95), UINT8_C(79), UINT8_C(95), UINT8_C(95), UINT8_C(95), UINT8_C(95), UINT8_C(95), UINT8_C(95), UINT8_C(95), UINT8_C(95), UINT8_C(95), UINT8_C(95), UINT8_C(95), UINT8_C(95), UINT8_C(95), UINT8_C(95), UINT8_C(95), UINT8_C(95), UINT8_C(95), UINT8_C(95), UINT8_C(95), UINT8_C(95), UINT8_C(95), UINT8_C(95), UINT8_C(95), UINT8_C(95), UINT8_C(95), UINT8_C(95), UINT8_C(95), UINT8_C(95), UINT8_C(95), UINT8_C(95), UINT8_C(95), UINT8_C(95), UINT8_C(95), UINT8_C(95), UINT8_C(95), UINT8_C(66), UINT8_C(95), UINT8_C(95), UINT8_C(79), UINT8_C(95), UINT8_C(95), UINT8_C(95), UINT8_C(95), UINT8_C(95), UINT8_C(95), UINT8_C(95), UINT8_C(95), UINT8_C(95), UINT8_C(95), UINT8_C(95), UINT8_C(95), UINT8_C(95), UINT8_C(95), UINT8_C(95), UINT8_C(95), UINT8_C(95), UINT8_C(95), UINT8_C(95), UINT8_C(95), UINT8_C(95), UINT8_C(95), UINT8_C(95), UINT8_C(95), UINT8_C(95), UINT8_C(95), UINT8_C(95), UINT8_C(95), UINT8_C(95), UINT8_C(95), UINT8_C(95), UINT8_C(95), UINT8_C(95), UINT8_C(95), UINT8_C(95), UINT8_C(95), UINT8_C(95), UINT8_C(95), UINT8_C(95), UINT8_C(95), UINT8_C(95), UINT8_C(95), UINT8_C(95), UINT8_C(95), UINT8_C(95), UINT8_C(95), UINT8_C(95), UINT8_C(95), UINT8_C(95), UINT8_C(95), UINT8_C(95), UINT8_C(95), UINT8_C(95), UINT8_C(95), UINT8_C(95), UINT8_C(95), UINT8_C(95), UINT8_C(95), UINT8_C(95), UINT8_C(95), UINT8_C(95), UINT8_C(95), UINT8_C(95), UINT8_C(95), UINT8_C(95), UINT8_C(95), UINT8_C(95), UINT8_C(95), UINT8_C(95), UINT8_C(95), UINT8_C(95), UINT8_C(95), UINT8_C(95), UINT8_C(95), UINT8_C(95), UINT8_C(95), UINT8_C(95), UINT8_C(95), UINT8_C(95), UINT8_C(95), UINT8_C(95), UINT8_C(95), UINT8_C(95), UINT8_C(95), UINT8_C(95), UINT8_C(95), UINT8_C(95), UINT8_C(95), UINT8_C(95), UINT8_C(95), UINT8_C(95), UINT8_C(95), UINT8_C(95), UINT8_C(95), UINT8_C(95), UINT8_C(95), UINT8_C(95), UINT8_C(95), UINT8_C(95), UINT8_C(95), UINT8_C(95), UINT8_C(95), UINT8_C(95), UINT8_C(95), UINT8_C(95), UINT8_C(95), UINT8_C(95), UINT8_C(95), UINT8_C(95), UINT8_C(95), UINT8_C(95), UINT8_C(95), UINT8_C(95), UINT8_C(95), UINT8_C(95), UINT8_C(75), UINT8_C(95), UINT8_C(95), UINT8_C(95), UINT8_C(95), UINT8_C(95), UINT8_C(95), UINT8_C(95), UINT8_C(95), UINT8_C(95), UINT8_C(95), UINT8_C(95), UINT8_C(95), UINT8_C(95), UINT8_C(95), UINT8_C(95), UINT8_C(95), UINT8_C(95), UINT8_C(95), UINT8_C(95), UINT8_C(95), UINT8_C(95), UINT8_C(95), UINT8_C(95), UINT8_C(95), UINT8_C(95), UINT8_C(95), UINT8_C(95), UINT8_C(95), UINT8_C(95), UINT8_C(95), UINT8_C(95), UINT8_C(95), UINT8_C(95), UINT8_C(95), UINT8_C(95), UINT8_C(95), UINT8_C(95), UINT8_C(95), UINT8_C(77), UINT8_C(95), UINT8_C(95), UINT8_C(95), UINT8_C(95), UINT8_C(95), UINT8_C(95), UINT8_C(95), UINT8_C(95), UINT8_C(95), UINT8_C(95), UINT8_C(95), UINT8_C(95), UINT8_C(95), UINT8_C(95), UINT8_C(95), UINT8_C(95), UINT8_C(95), UINT8_C(95), UINT8_C(95), UINT8_C(95), UINT8_C(95), UINT8_C(95), UINT8_C(95), UINT8_C(95), UINT8_C(95), UINT8_C(95), UINT8_C(95), UINT8_C(95), UINT8_C(95), UINT8_C(95), UINT8_C(95), UINT8_C(95), UINT8_C(95), UINT8_C(95), UINT8_C(95), UINT8_C(95), UINT8_C(64), UINT8_C(95), UINT8_C(95), UINT8_C(95), UINT8_C(95), UINT8_C(95), UINT8_C(95), UINT8_C(95), UINT8_C(95), UINT8_C(95), UINT8_C(95), UINT8_C(95), UINT8_C(95), UINT8_C(95), UINT8_C(95), UINT8_C(95), UINT8_C(95), UINT8_C(95), UINT8_C(95), UINT8_C(95), UINT8_C(95), UINT8_C(95), UINT8_C(95), UINT8_C(95), UINT8_C(95), UINT8_C(95), UINT8_C(95), UINT8_C(95), UINT8_C(95), UINT8_C(95), UINT8_C(95), UINT8_C(95), UINT8_C(95), UINT8_C(95), UINT8_C(95), UINT8_C(95), UINT8_C(95), UINT8_C(95), UINT8_C(95), UINT8_C(66), UINT8_C(95), UINT8_C(95), UINT8_C(79), UINT8_C(95), UINT8_C(95), UINT8_C(95), UINT8_C(95), UINT8_C(95), UINT8_C(95), UINT8_C(95), UINT8_C(95), UINT8_C(95), UINT8_C(95), UINT8_C(95), UINT8_C(95), UINT8_C(95), UINT8_C(95), UINT8_C(95), UINT8_C(95), UINT8_C(95), UINT8_C(95), UINT8_C(95), UINT8_C(95), UINT8_C(95), UINT8_C(95), UINT8_C(95), UINT8_C(95), UINT8_C(95), UINT8_C(95), UINT8_C(95), UINT8_C(95), UINT8_C(95), UINT8_C(95), UINT8_C(95), UINT8_C(95), UINT8_C(95), UINT8_C(95), UINT8_C(95), UINT8_C(66), UINT8_C(95), UINT8_C(95), UINT8_C(79), UINT8_C(95), UINT8_C(95), UINT8_C(95), UINT8_C(95), UINT8_C(95), UINT8_C(95), UINT8_C(95), UINT8_C(95), UINT8_C(95), UINT8_C(95), UINT8_C(95), UINT8_C(95), UINT8_C(95), UINT8_C(95), UINT8_C(95), UINT8_C(95), UINT8_C(95), UINT8_C(95), UINT8_C(95), UINT8_C(95), UINT8_C(95), UINT8_C(95), UINT8_C(95), UINT8_C(95), UINT8_C(95), UINT8_C(95), UINT8_C(95), UINT8_C(95), UINT8_C(95), UINT8_C(95), UINT8_C(95), UINT8_C(95), UINT8_C(95), UINT8_C(95), UINT8_C(95), UINT8_C(95), UINT8_C(95), UINT8_C(95), UINT8_C(95), UINT8_C(95), UINT8_C(95), UINT8_C(95), UINT8_C(95), UINT8_C(95), UINT8_C(95), UINT8_C(95), UINT8_C(95), UINT8_C(95), UINT8_C(95), UINT8_C(95), UINT8_C(95), UINT8_C(95), UINT8_C(95), UINT8_C(95), UINT8_C(95), UINT8_C(95), UINT8_C(95), UINT8_C(95), UINT8_C(95), UINT8_C(95), UINT8_C(95), UINT8_C(95), UINT8_C(95), UINT8_C(95), UINT8_C(95), UINT8_C(95), UINT8_C(95), UINT8_C(95), UINT8_C(95), UINT8_C(95), UINT8_C(95), UINT8_C(95), UINT8_C(95), UINT8_C(95), UINT8_C(95), UINT8_C(95), UINT8_C(95), UINT8_C(95), UINT8_C(95), UINT8_C(95), UINT8_C(95), UINT8_C(95), UINT8_C(95), UINT8_C(95), UINT8_C(95), UINT8_C(95), UINT8_C(95), UINT8_C(95), UINT8_C(95), UINT8_C(95), UINT8_C(95), UINT8_C(95), UINT8_C(95), UINT8_C(95), UINT8_C(95), UINT8_C(95), UINT8_C(95), UINT8_C(95), UINT8_C(95) } };
static RT_HERE rt_slice derive__table__marks(void)
{
    rt_slice l0;
    uint8_t *l1;
    uint8_t *l2;
    l1 = (uint8_t *)&derive__table__marks__l3;
    l2 = (uint8_t *)&(*(uint8_t *)l1);
    l0.p = l2;
    l0.n = UINT64_C(1833);
    return l0;
}

static const struct rt_array_uint8_1833 derive__table__next__l3 = { { UINT8_C(48), UINT8_C(48), UINT8_C(48), UINT8_C(48), UINT8_C(48), UINT8_C(48), UINT8_C(48), UINT8_C(48), UINT8_C(48), UINT8_C(48), UINT8_C(48), UINT8_C(48), UINT8_C(48), UINT8_C(48), UINT8_C(48), UINT8_C(48), UINT8_C(48), UINT8_C(48), UINT8_C(48), UINT8_C(48), UINT8_C(48), UINT8_C(48), UINT8_C(48), UINT8_C(48), UINT8_C(48), UINT8_C(48), UINT8_C(48), UINT8_C(48), UINT8_C(48), UINT8_C(48), UINT8_C(48), UINT8_C(48), UINT8_C(48), UINT8_C(48), UINT8_C(48), UINT8_C(48), UINT8_C(48), UINT8_C(48), UINT8_C(48), UINT8_C(48), UINT8_C(51), UINT8_C(48), UINT8_C(48), UINT8_C(48), UINT8_C(48), UINT8_C(48), UINT8_C(48), UINT8_C(48), UINT8_C(48), UINT8_C(48), UINT8_C(48), UINT8_C(48), UINT8_C(48), UINT8_C(48), UINT8_C(48), UINT8_C(48), UINT8_C(48), UINT8_C(48), UINT8_C(48), UINT8_C(48), UINT8_C(48), UINT8_C(48), UINT8_C(48), UINT8_C(48), UINT8_C(48), UINT8_C(48), UINT8_C(48), UINT8_C(48), UINT8_C(48), UINT8_C(48), UINT8_C(48), UINT8_C(48), UINT8_C(48), UINT8_C(48), UINT8_C(48), UINT8_C(48), UINT8_C(48), UINT8_C(48), UINT8_C(48), UINT8_C(51), UINT8_C(48), UINT8_C(48), UINT8_C(48), UINT8_C(48), UINT8_C(80), UINT8_C(48), UINT8_C(48), UINT8_C(48), UINT8_C(48), UINT8_C(48), UINT8_C(48), UINT8_C(48), UINT8_C(48), UINT8_C(48), UINT8_C(48), UINT8_C(48), UINT8_C(48), UINT8_C(48), UINT8_C(48), UINT8_C(48), UINT8_C(48), UINT8_C(48), UINT8_C(48), UINT8_C(48), UINT8_C(48), UINT8_C(48), UINT8_C(48), UINT8_C(48), UINT8_C(48), UINT8_C(48), UINT8_C(48), UINT8_C(48), UINT8_C(48), UINT8_C(48), UINT8_C(78), UINT8_C(48), UINT8_C(48), UINT8_C(48), UINT8_C(48), UINT8_C(48), UINT8_C(48), UINT8_C(48), UINT8_C(48), UINT8_C(48), UINT8_C(48), UINT8_C(48), UINT8_C(48), UINT8_C(48), UINT8_C(48), UINT8_C(48), UINT8_C(48), UINT8_C(48), UINT8_C(48), UINT8_C(48), UINT8_C(48), UINT8_C(48), UINT8_C(48), UINT8_C(48), UINT8_C(48), UINT8_C(48), UINT8_C(48), UINT8_C(48), UINT8_C(48), UINT8_C(48), UINT8_C(48), UINT8_C(48), UINT8_C(48), UINT8_C(48), UINT8_C(48), UINT8_C(48), UINT8_C(48), UINT8_C(48), UINT8_C(48), UINT8_C(52), UINT8_C(48), UINT8_C(48), UINT8_C(48), UINT8_C(48), UINT8_C(48), UINT8_C(48), UINT8_C(48), UINT8_C(48), UINT8_C(48), UINT8_C(48), UINT8_C(48), UINT8_C(48), UINT8_C(48), UINT8_C(48), UINT8_C(48), UINT8_C(53), UINT8_C(48), UINT8_C(48), UINT8_C(48), UINT8_C(48), UINT8_C(48), UINT8_C(48), UINT8_C(48), UINT8_C(48), UINT8_C(48), UINT8_C(48), UINT8_C(48), UINT8_C(48), UINT8_C(48), UINT8_C(48), UINT8_C(48), UINT8_C(48), UINT8_C(48), UINT8_C(48), UINT8_C(48), UINT8_C(48), UINT8_C(48), UINT8_C(48), UINT8_C(48), UINT8_C(48), UINT8_C(48), UINT8_C(48), UINT8_C(48), UINT8_C(48), UINT8_C(48), UINT8_C(48), UINT8_C(48), UINT8_C(48), UINT8_C(48), UINT8_C(48), UINT8_C(48), UINT8_C(48), UINT8_C(48), UINT8_C(48), UINT8_C(48), UINT8_C(58), UINT8_C(48), UINT8_C(48), UINT8_C(48), UINT8_C(48), UINT8_C(48), UINT8_C(48), UINT8_C(48), UINT8_C(48), UINT8_C(48), UINT8_C(48), UINT8_C(48), UINT8_C(48), UINT8_C(48), UINT8_C(48), UINT8_C(48), UINT8_C(48), UINT8_C(48), UINT8_C(48), UINT8_C(48), UINT8_C(48), UINT8_C(48), UINT8_C(55), UINT8_C(48), UINT8_C(48), UINT8_C(48), UINT8_C(48), UINT8_C(48), UINT8_C(48), UINT8_C(48), UINT8_C(48), UINT8_C(48), UINT8_C(48), UINT8_C(48), UINT8_C(48), UINT8_C(48), UINT8_C(48), UINT8_C(48), UINT8_C(48), UINT8_C(48), UINT8_C(48), UINT8_C(48), UINT8_C(48), UINT8_C(48), UINT8_C(48), UINT8_C(48), UINT8_C(48), UINT8_C(48), UINT8_C(48), UINT8_C(48), UINT8_C(48), UINT8_C(48), UINT8_C(48), UINT8_C(48), UINT8_C(48), UINT8_C(48), UINT8_C(48), UINT8_C(48), UINT8_C(48), UINT8_C(48), UINT8_C(48), UINT8_C(55), UINT8_C(48), UINT8_C(48), UINT8_C(48), UINT8_C(48), UINT8_C(48), UINT8_C(48), UINT8_C(48), UINT8_C(48), UINT8_C(48), UINT8_C(48), UINT8_C(48), UINT8_C(48), UINT8_C(48), UINT8_C(48), UINT8_C(48), UINT8_C(48), UINT8_C(48), UINT8_C(48), UINT8_C(48), UINT8_C(48), UINT8_C(56), UINT8_C(48), UINT8_C(48), UINT8_C(48), UINT8_C(48), UINT8_C(48), UINT8_C(48), UINT8_C(48), UINT8_C(48), UINT8_C(48), UINT8_C(48), UINT8_C(48), UINT8_C(48), UINT8_C(48), UINT8_C(48), UINT8_C(48), UINT8_C(48), UINT8_C(48), UINT8_C(48), UINT8_C(48), UINT8_C(48), UINT8_C(48), UINT8_C(48), UINT8_C(48), UINT8_C(48), UINT8_C(48), UINT8_C(48), UINT8_C(48), UINT8_C(57), UINT8_C(57), UINT8_C(57), UINT8_C(48), UINT8_C(48), UINT8_C(48), UINT8_C(48), UINT8_C(48), UINT8_C(48), UINT8_C(48), UINT8_C(48), UINT8_C(48), UINT8_C(48), UINT8_C(48), UINT8_C(48), UINT8_C(48), UINT8_C(48), UINT8_C(48), UINT8_C(48), UINT8_C(48), UINT8_C(48), UINT8_C(48), UINT8_C(48), UINT8_C(48), UINT8_C(48), UINT8_C(48), UINT8_C(48), UINT8_C(48), UINT8_C(48), UINT8_C(57), UINT8_C(48), UINT8_C(48), UINT8_C(48), UINT8_C(48), UINT8_C(48), UINT8_C(48), UINT8_C(48), UINT8_C(48), UINT8_C(48), UINT8_C(48), UINT8_C(48), UINT8_C(48), UINT8_C(48), UINT8_C(48), UINT8_C(48), UINT8_C(48), UINT8_C(58), UINT8_C(48), UINT8_C(48), UINT8_C(54), UINT8_C(48), UINT8_C(48), UINT8_C(48), UINT8_C(48), UINT8_C(48), UINT8_C(48), UINT8_C(48), UINT8_C(48), UINT8_C(48), UINT8_C(48), UINT8_C(48), UINT8_C(48), UINT8_C(48), UINT8_C(48), UINT8_C(48), UINT8_C(48), UINT8_C(48), UINT8_C(48), UINT8_C(48), UINT8_C(48), UINT8_C(48), UINT8_C(48), UINT8_C(48), UINT8_C(48), UINT8_C(48), UINT8_C(48), UINT8_C(48), UINT8_C(48), UINT8_C(48), UINT8_C(48), UINT8_C(48), UINT8_C(48), UINT8_C(48), UINT8_C(48), UINT8_C(48), UINT8_C(48), UINT8_C(59), UINT8_C(48), UINT8_C(48), UINT8_C(48), UINT8_C(48), UINT8_C(48), UINT8_C(48), UINT8_C(48), UINT8_C(48), UINT8_C(48), UINT8_C(48), UINT8_C(48), UINT8_C(48), UINT8_C(48), UINT8_C(48), UINT8_C(48), UINT8_C(48), UINT8_C(48), UINT8_C(48), UINT8_C(48), UINT8_C(48), UINT8_C(48), UINT8_C(48), UINT8_C(48), UINT8_C(48), UINT8_C(48), UINT8_C(48), UINT8_C(48), UINT8_C(48), UINT8_C(48), UINT8_C(48), UINT8_C(48), UINT8_C(48), UINT8_C(48), UINT8_C(48), UINT8_C(48), UINT8_C(48), UINT8_C(48), UINT8_C(48), UINT8_C(48), UINT8_C(50), UINT8_C(48), UINT8_C(48), UINT8_C(48), UINT8_C(48), UINT8_C(48), UINT8_C(48), UINT8_C(48), UINT8_C(48), UINT8_C(48), UINT8_C(48), UINT8_C(48), UINT8_C(48), UINT8_C(48), UINT8_C(48), UINT8_C(48), UINT8_C(48), UINT8_C(48), UINT8_C(48), UINT8_C(48), UINT8_C(60), UINT8_C(48), UINT8_C(48), UINT8_C(48), UINT8_C(48), UINT8_C(48), UINT8_C(48), UINT8_C(48), UINT8_C(48), UINT8_C(48), UINT8_C(48), UINT8_C(48), UINT8_C(48), UINT8_C(48), UINT8_C(48), UINT8_C(48), UINT8_C(48), UINT8_C(48), UINT8_C(61), UINT8_C(48), UINT8_C(48), UINT8_C(48), UINT8_C(48), UINT8_C(48), UINT8_C(48), UINT8_C(48), UINT8_C(48), UINT8_C(48), UINT8_C(48), UINT8_C(48), UINT8_C(48), UINT8_C(48), UINT8_C(48), UINT8_C(48), UINT8_C(48), UINT8_C(48), UINT8_C(48), UINT8_C(48), UINT8_C(48), UINT8_C(48), UINT8_C(48), UINT8_C(48), UINT8_C(48), UINT8_C(48), UINT8_C(70), UINT8_C(48), UINT8_C(48), UINT8_C(48), UINT8_C(48), UINT8_C(65), UINT8_C(65), UINT8_C(65), UINT8_C(48), UINT8_C(48), UINT8_C(48), UINT8_C(48), UINT8_C(48), UINT8_C(48), UINT8_C(111), UINT8_C(48), UINT8_C(48), UINT8_C(48), UINT8_C(48), UINT8_C(48), UINT8_C(48), UINT8_C(48), UINT8_C(48), UINT8_C(48), UINT8_C(48), UINT8_C(48), UINT8_C(48), UINT8_C(48), UINT8_C(48), UINT8_C(48), UINT8_C(48), UINT8_C(48), UINT8_C(48), UINT8_C(48), UINT8_C(62), UINT8_C(48), UINT8_C(48), UINT8_C(48), UINT8_C(48), UINT8_C(48), UINT8_C(48), UINT8_C(48), UINT8_C(48), UINT8_C(48), UINT8_C(48), UINT8_C(48), UINT8_C(48), UINT8_C(48), UINT8_C(48), UINT8_C(48), UINT8_C(67), UINT8_C(48), UINT8_C(48), UINT8_C(48), UINT8_C(48), UINT8_C(48), UINT8_C(48), UINT8_C(70), UINT8_C(63), UINT8_C(48), UINT8_C(48), UINT8_C(48), UINT8_C(48), UINT8_C(48), UINT8_C(48), UINT8_C(48), UINT8_C(48), UINT8_C(48), UINT8_C(48), UINT8_C(48), UINT8_C(48), UINT8_C(48), UINT8_C(48), UINT8_C(66), UINT8_C(48), UINT8_C(48), UINT8_C(48), UINT8_C(48), UINT8_C(48), UINT8_C(48), UINT8_C(48), UINT8_C(48), UINT8_C(48), UINT8_C(48), UINT8_C(48), UINT8_C(48), UINT8_C(48), UINT8_C(48), UINT8_C(48), UINT8_C(48), UINT8_C(48), UINT8_C(48), UINT8_C(48), UINT8_C(48), UINT8_C(48), UINT8_C(48), UINT8_C(48), UINT8_C(48), UINT8_C(48), UINT8_C(48), UINT8_C(48), UINT8_C(48), UINT8_C(48), UINT8_C(48), UINT8_C(48), UINT8_C(48), UINT8_C(48), UINT8_C(48), UINT8_C(48), UINT8_C(48), UINT8_C(48), UINT8_C(48), UINT8_C(64), UINT8_C(48), UINT8_C(48), UINT8_C(48), UINT8_C(48), UINT8_C(48), UINT8_C(48), UINT8_C(48), UINT8_C(48), UINT8_C(48), UINT8_C(48), UINT8_C(48), UINT8_C(48), UINT8_C(48), UINT8_C(48), UINT8_C(48), UINT8_C(48), UINT8_C(48), UINT8_C(48), UINT8_C(48), UINT8_C(48), UINT8_C(48), UINT8_C(48), UINT8_C(70), UINT8_C(63), UINT8_C(48), UINT8_C(48), UINT8_C(48), UINT8_C(48), UINT8_C(48), UINT8_C(48), UINT8_C(48), UINT8_C(48), UINT8_C(48), UINT8_C(48), UINT8_C(48), UINT8_C(48), UINT8_C(48), UINT8_C(48), UINT8_C(48), UINT8_C(48), UINT8_C(48), UINT8_C(48), UINT8_C(48), UINT8_C(48), UINT8_C(48), UINT8_C(48), UINT8_C(48), UINT8_C(48), UINT8_C(48), UINT8_C(48), UINT8_C(48), UINT8_C(48), UINT8_C(48), UINT8_C(48), UINT8_C(48), UINT8_C(48), UINT8_C(48), UINT8_C(48), UINT8_C(48), UINT8_C(48), UINT8_C(48), UINT8_C(48), UINT8_C(48), UINT8_C(48), UINT8_C(48), UINT8_C(48), UINT8_C(48), UINT8_C(48), UINT8_C(48), UINT8_C(48), UINT8_C(48), UINT8_C(48), UINT8_C(48), UINT8_C(48), UINT8_C(48), UINT8_C(48), UINT8_C(48), UINT8_C(66), UINT8_C(48), UINT8_C(48), UINT8_C(48), UINT8_C(48), UINT8_C(48), UINT8_C(48), UINT8_C(48), UINT8_C(48), UINT8_C(48), UINT8_C(48), UINT8_C(48), UINT8_C(48), UINT8_C(48), UINT8_C(48), UINT8_C(48), UINT8_C(48), UINT8_C(48), UINT8_C(48), UINT8_C(48), UINT8_C(48), UINT8_C(48), UINT8_C(48), UINT8_C(70), UINT8_C(48), UINT8_C(48), UINT8_C(48), UINT8_C(48), UINT8_C(48), UINT8_C(48), UINT8_C(48), UINT8_C(48), UINT8_C(48), UINT8_C(48), UINT8_C(48), UINT8_C(48), UINT8_C(48), UINT8_C(48), UINT8_C(48), UINT8_C(48), UINT8_C(48), UINT8_C(48), UINT8_C(48), UINT8_C(48), UINT8_C(48), UINT8_C(48), UINT8_C(76), UINT8_C(71), UINT8_C(48), UINT8_C(48), UINT8_C(48), UINT8_C(48), UINT8_C(48), UINT8_C(71), UINT8_C(71), UINT8_C(70), UINT8_C(111), UINT8_C(48), UINT8_C(48), UINT8_C(48), UINT8_C(48), UINT8_C(48), UINT8_C(48), UINT8_C(48), UINT8_C(70), UINT8_C(48), UINT8_C(48), UINT8_C(48), UINT8_C(48), UINT8_C(48), UINT8_C(48), UINT8_C(48), UINT8_C(48), UINT8_C(48), UINT8_C(48), UINT8_C(48), UINT8_C(48), UINT8_C(48), UINT8_C(72), UINT8_C(71), UINT8_C(71), UINT8_C(48), UINT8_C(48), UINT8_C(48), UINT8_C(48), UINT8_C(48), UINT8_C(48), UINT8_C(48), UINT8_C(48), UINT8_C(48), UINT8_C(48), UINT8_C(48), UINT8_C(48), UINT8_C(48), UINT8_C(48), UINT8_C(48), UINT8_C(48), UINT8_C(48), UINT8_C(48), UINT8_C(48), UINT8_C(61), UINT8_C(48), UINT8_C(48), UINT8_C(48), UINT8_C(48), UINT8_C(48), UINT8_C(48), UINT8_C(48), UINT8_C(48), UINT8_C(48), UINT8_C(48), UINT8_C(48), UINT8_C(48), UINT8_C(48), UINT8_C(48), UINT8_C(48), UINT8_C(48), UINT8_C(48), UINT8_C(48), UINT8_C(48), UINT8_C(48), UINT8_C(48), UINT8_C(48), UINT8_C(48), UINT8_C(48), UINT8_C(48), UINT8_C(48), UINT8_C(48), UINT8_C(48), UINT8_C(48), UINT8_C(48), UINT8_C(48), UINT8_C(48), UINT8_C(48), UINT8_C(48), UINT8_C(61), UINT8_C(48), UINT8_C(48), UINT8_C(48), UINT8_C(48), UINT8_C(48), UINT8_C(48), UINT8_C(48), UINT8_C(48), UINT8_C(48), UINT8_C(48), UINT8_C(48), UINT8_C(48), UINT8_C(48), UINT8_C(48), UINT8_C(48), UINT8_C(48), UINT8_C(48), UINT8_C(48), UINT8_C(48), UINT8_C(48), UINT8_C(48), UINT8_C(48), UINT8_C(48), UINT8_C(48), UINT8_C(48), UINT8_C(48), UINT8_C(48), UINT8_C(76), UINT8_C(71), UINT8_C(48), UINT8_C(48), UINT8_C(48), UINT8_C(48), UINT8_C(48), UINT8_C(71), UINT8_C(71), UINT8_C(70), UINT8_C(48), UINT8_C(48), UINT8_C(48), UINT8_C(48), UINT8_C(48), UINT8_C(48), UINT8_C(48), UINT8_C(48), UINT8_C(70), UINT8_C(48), UINT8_C(48), UINT8_C(48), UINT8_C(48), UINT8_C(48), UINT8_C(48), UINT8_C(48), UINT8_C(48), UINT8_C(48), UINT8_C(48), UINT8_C(48), UINT8_C(48), UINT8_C(48), UINT8_C(72), UINT8_C(71), UINT8_C(71), UINT8_C(111), UINT8_C(111), UINT8_C(111), UINT8_C(111), UINT8_C(111), UINT8_C(111), UINT8_C(111), UINT8_C(111), UINT8_C(111), UINT8_C(111), UINT8_C(111), UINT8_C(111), UINT8_C(111), UINT8_C(111), UINT8_C(111), UINT8_C(111), UINT8_C(111), UINT8_C(111), UINT8_C(111), UINT8_C(111), UINT8_C(111), UINT8_C(111), UINT8_C(111), UINT8_C(111), UINT8_C(111), UINT8_C(111), UINT8_C(111), UINT8_C(111), UINT8_C(111), UINT8_C(111), UINT8_C(111), UINT8_C(111), UINT8_C(111), UINT8_C(111), UINT8_C(111), UINT8_C(111), UINT8_C(111), UINT8_C(111), UINT8_C(111), UINT8_C(111), UINT8_C(111), UINT8_C(111), UINT8_C(111), UINT8_C(111), UINT8_C(111), UINT8_C(111), UINT8_C(111), UINT8_C(111), UINT8_C(111), UINT8_C(111), UINT8_C(111), UINT8_C(111), UINT8_C(75), UINT8_C(111), UINT8_C(111), UINT8_C(111), UINT8_C(111), UINT8_C(111), UINT8_C(111), UINT8_C(111), UINT8_C(73), UINT8_C(111), UINT8_C(111), UINT8_C(111), UINT8_C(111), UINT8_C(111), UINT8_C(111), UINT8_C(111), UINT8_C(111), UINT8_C(111), UINT8_C(111), UINT8_C(111), UINT8_C(111), UINT8_C(111), UINT8_C(111), UINT8_C(111), UINT8_C(111), UINT8_C(111), UINT8_C(48), UINT8_C(48), UINT8_C(48), UINT8_C(48), UINT8_C(48), UINT8_C(48), UINT8_C(48), UINT8_C(48), UINT8_C(48), UINT8_C(48), UINT8_C(48), UINT8_C(48), UINT8_C(48), UINT8_C(48), UINT8_C(48), UINT8_C(48), UINT8_C(48), UINT8_C(48), UINT8_C(48), UINT8_C(48), UINT8_C(48), UINT8_C(48), UINT8_C(48), UINT8_C(48), UINT8_C(48), UINT8_C(48), UINT8_C(48), UINT8_C(48), UINT8_C(48), UINT8_C(48), UINT8_C(48), UINT8_C(48), UINT8_C(48), UINT8_C(48), UINT8_C(48), UINT8_C(48), UINT8_C(74), UINT8_C(48), UINT8_C(48), UINT8_C(111), UINT8_C(111), UINT8_C(111), UINT8_C(111), UINT8_C(111), UINT8_C(111), UINT8_C(111), UINT8_C(111), UINT8_C(111), UINT8_C(111), UINT8_C(111), UINT8_C(111), UINT8_C(111), UINT8_C(111), UINT8_C(111), UINT8_C(111), UINT8_C(111), UINT8_C(111), UINT8_C(111), UINT8_C(111), UINT8_C(111), UINT8_C(73), UINT8_C(111), UINT8_C(111), UINT8_C(111), UINT8_C(111), UINT8_C(111), UINT8_C(111), UINT8_C(111), UINT8_C(111), UINT8_C(111), UINT8_C(111), UINT8_C(111), UINT8_C(111), UINT8_C(111), UINT8_C(111), UINT8_C(111), UINT8_C(111), UINT8_C(111), UINT8_C(48), UINT8_C(48), UINT8_C(48), UINT8_C(48), UINT8_C(76), UINT8_C(71), UINT8_C(48), UINT8_C(48), UINT8_C(48), UINT8_C(48), UINT8_C(48), UINT8_C(71), UINT8_C(71), UINT8_C(70), UINT8_C(111), UINT8_C(48), UINT8_C(48), UINT8_C(48), UINT8_C(48), UINT8_C(48), UINT8_C(48), UINT8_C(48), UINT8_C(70), UINT8_C(48), UINT8_C(48), UINT8_C(48), UINT8_C(48), UINT8_C(48), UINT8_C(48), UINT8_C(48), UINT8_C(48), UINT8_C(48), UINT8_C(48), UINT8_C(48), UINT8_C(48), UINT8_C(48), UINT8_C(72), UINT8_C(71), UINT8_C(71), UINT8_C(48), UINT8_C(48), UINT8_C(48), UINT8_C(48), UINT8_C(48), UINT8_C(48), UINT8_C(48), UINT8_C(71), UINT8_C(71), UINT8_C(71), UINT8_C(48), UINT8_C(48), UINT8_C(48), UINT8_C(48), UINT8_C(48), UINT8_C(48), UINT8_C(48), UINT8_C(48), UINT8_C(48), UINT8_C(48), UINT8_C(48), UINT8_C(48), UINT8_C(48), UINT8_C(48), UINT8_C(48), UINT8_C(48), UINT8_C(48), UINT8_C(48), UINT8_C(48), UINT8_C(48), UINT8_C(48), UINT8_C(48), UINT8_C(48), UINT8_C(48), UINT8_C(48), UINT8_C(48), UINT8_C(71), UINT8_C(48), UINT8_C(48), UINT8_C(48), UINT8_C(48), UINT8_C(48), UINT8_C(48), UINT8_C(48), UINT8_C(48), UINT8_C(80), UINT8_C(48), UINT8_C(48), UINT8_C(48), UINT8_C(48), UINT8_C(48), UINT8_C(48), UINT8_C(48), UINT8_C(48), UINT8_C(48), UINT8_C(48), UINT8_C(48), UINT8_C(48), UINT8_C(48), UINT8_C(48), UINT8_C(48), UINT8_C(48), UINT8_C(48), UINT8_C(48), UINT8_C(48), UINT8_C(48), UINT8_C(48), UINT8_C(48), UINT8_C(48), UINT8_C(48), UINT8_C(48), UINT8_C(48), UINT8_C(48), UINT8_C(48), UINT8_C(48), UINT8_C(78), UINT8_C(48), UINT8_C(48), UINT8_C(48), UINT8_C(48), UINT8_C(48), UINT8_C(48), UINT8_C(48), UINT8_C(48), UINT8_C(48), UINT8_C(48), UINT8_C(48), UINT8_C(48), UINT8_C(48), UINT8_C(48), UINT8_C(48), UINT8_C(48), UINT8_C(111), UINT8_C(48), UINT8_C(48), UINT8_C(48), UINT8_C(48), UINT8_C(48), UINT8_C(48), UINT8_C(79), UINT8_C(48), UINT8_C(48), UINT8_C(48), UINT8_C(48), UINT8_C(48), UINT8_C(77), UINT8_C(48), UINT8_C(48), UINT8_C(48), UINT8_C(48), UINT8_C(48), UINT8_C(48), UINT8_C(48), UINT8_C(48), UINT8_C(48), UINT8_C(48), UINT8_C(48), UINT8_C(48), UINT8_C(48), UINT8_C(48), UINT8_C(48), UINT8_C(48), UINT8_C(48), UINT8_C(48), UINT8_C(48), UINT8_C(48), UINT8_C(48), UINT8_C(48), UINT8_C(48), UINT8_C(48), UINT8_C(48), UINT8_C(48), UINT8_C(48), UINT8_C(48), UINT8_C(48), UINT8_C(48), UINT8_C(48), UINT8_C(48), UINT8_C(48), UINT8_C(48), UINT8_C(48), UINT8_C(48), UINT8_C(48), UINT8_C(48), UINT8_C(48), UINT8_C(48), UINT8_C(48), UINT8_C(48), UINT8_C(48), UINT8_C(48), UINT8_C(48), UINT8_C(48), UINT8_C(48), UINT8_C(81), UINT8_C(48), UINT8_C(48), UINT8_C(48), UINT8_C(48), UINT8_C(48), UINT8_C(48), UINT8_C(48), UINT8_C(48), UINT8_C(48), UINT8_C(48), UINT8_C(48), UINT8_C(48), UINT8_C(48), UINT8_C(48), UINT8_C(48), UINT8_C(77), UINT8_C(48), UINT8_C(48), UINT8_C(48), UINT8_C(48), UINT8_C(48), UINT8_C(48), UINT8_C(48), UINT8_C(48), UINT8_C(48), UINT8_C(48), UINT8_C(48), UINT8_C(48), UINT8_C(48), UINT8_C(48), UINT8_C(48), UINT8_C(48), UINT8_C(48), UINT8_C(48), UINT8_C(48), UINT8_C(48), UINT8_C(48), UINT8_C(48), UINT8_C(48), UINT8_C(48), UINT8_C(48), UINT8_C(48), UINT8_C(48), UINT8_C(48), UINT8_C(48), UINT8_C(48), UINT8_C(48), UINT8_C(48), UINT8_C(48), UINT8_C(48), UINT8_C(48), UINT8_C(48), UINT8_C(48), UINT8_C(48), UINT8_C(48), UINT8_C(111), UINT8_C(48), UINT8_C(48), UINT8_C(48), UINT8_C(48), UINT8_C(48), UINT8_C(48), UINT8_C(48), UINT8_C(48), UINT8_C(48), UINT8_C(48), UINT8_C(48), UINT8_C(48), UINT8_C(77), UINT8_C(48), UINT8_C(48), UINT8_C(48), UINT8_C(48), UINT8_C(48), UINT8_C(48), UINT8_C(48), UINT8_C(48), UINT8_C(48), UINT8_C(48), UINT8_C(48), UINT8_C(48), UINT8_C(48), UINT8_C(48), UINT8_C(48), UINT8_C(48), UINT8_C(48), UINT8_C(48), UINT8_C(48), UINT8_C(48), UINT8_C(48), UINT8_C(48), UINT8_C(48), UINT8_C(48), UINT8_C(48), UINT8_C(81), UINT8_C(48), UINT8_C(48), UINT8_C(48), UINT8_C(48), UINT8_C(48), UINT8_C(48), UINT8_C(48), UINT8_C(48), UINT8_C(48), UINT8_C(48), UINT8_C(48), UINT8_C(48), UINT8_C(48), UINT8_C(48), UINT8_C(48), UINT8_C(48), UINT8_C(48), UINT8_C(48), UINT8_C(48), UINT8_C(48), UINT8_C(48), UINT8_C(48), UINT8_C(48), UINT8_C(48), UINT8_C(48), UINT8_C(48), UINT8_C(48), UINT8_C(48), UINT8_C(48), UINT8_C(48), UINT8_C(48), UINT8_C(48), UINT8_C(48), UINT8_C(48), UINT8_C(48), UINT8_C(48), UINT8_C(48), UINT8_C(48), UINT8_C(71), UINT8_C(48), UINT8_C(48), UINT8_C(48), UINT8_C(48), UINT8_C(48), UINT8_C(48), UINT8_C(48), UINT8_C(48), UINT8_C(70), UINT8_C(70), UINT8_C(70), UINT8_C(70), UINT8_C(70), UINT8_C(70), UINT8_C(70), UINT8_C(70), UINT8_C(70), UINT8_C(70), UINT8_C(70), UINT8_C(70), UINT8_C(70), UINT8_C(48), UINT8_C(48), UINT8_C(48), UINT8_C(48), UINT8_C(48), UINT8_C(48), UINT8_C(48), UINT8_C(48), UINT8_C(48), UINT8_C(48), UINT8_C(48), UINT8_C(48), UINT8_C(48), UINT8_C(48), UINT8_C(48), UINT8_C(48), UINT8_C(48), UINT8_C(71), UINT8_C(48), UINT8_C(48), UINT8_C(70), UINT8_C(48), UINT8_C(48), UINT8_C(48), UINT8_C(48), UINT8_C(48), UINT8_C(70), UINT8_C(70), UINT8_C(70), UINT8_C(70), UINT8_C(70), UINT8_C(70), UINT8_C(70), UINT8_C(70), UINT8_C(70), UINT8_C(70), UINT8_C(70), UINT8_C(70), UINT8_C(70), UINT8_C(48), UINT8_C(48), UINT8_C(48), UINT8_C(48), UINT8_C(48), UINT8_C(48), UINT8_C(48), UINT8_C(48), UINT8_C(48), UINT8_C(48), UINT8_C(48), UINT8_C(48), UINT8_C(48), UINT8_C(48), UINT8_C(48), UINT8_C(48), UINT8_C(48), UINT8_C(68), UINT8_C(48), UINT8_C(48), UINT8_C(70), UINT8_C(48), UINT8_C(48), UINT8_C(48), UINT8_C(48), UINT8_C(48), UINT8_C(70), UINT8_C(70), UINT8_C(70), UINT8_C(70), UINT8_C(70), UINT8_C(70), UINT8_C(70), UINT8_C(70), UINT8_C(70), UINT8_C(70), UINT8_C(70), UINT8_C(70), UINT8_C(70), UINT8_C(48), UINT8_C(48), UINT8_C(48), UINT8_C(48), UINT8_C(48), UINT8_C(48), UINT8_C(69), UINT8_C(48), UINT8_C(48), UINT8_C(48), UINT8_C(48), UINT8_C(48), UINT8_C(48), UINT8_C(48), UINT8_C(48), UINT8_C(48), UINT8_C(48), UINT8_C(48), UINT8_C(48), UINT8_C(48), UINT8_C(48), UINT8_C(48), UINT8_C(48), UINT8_C(48), UINT8_C(48), UINT8_C(48), UINT8_C(70), UINT8_C(70), UINT8_C(70), UINT8_C(70), UINT8_C(70), UINT8_C(70), UINT8_C(70), UINT8_C(70), UINT8_C(70), UINT8_C(70), UINT8_C(70), UINT8_C(70), UINT8_C(70), UINT8_C(48), UINT8_C(48), UINT8_C(48), UINT8_C(48), UINT8_C(48), UINT8_C(48), UINT8_C(48), UINT8_C(48), UINT8_C(48), UINT8_C(48), UINT8_C(48), UINT8_C(48), UINT8_C(48), UINT8_C(48), UINT8_C(48), UINT8_C(48), UINT8_C(48), UINT8_C(48), UINT8_C(48), UINT8_C(48), UINT8_C(48), UINT8_C(48), UINT8_C(61), UINT8_C(48), UINT8_C(48), UINT8_C(48), UINT8_C(70), UINT8_C(70), UINT8_C(70), UINT8_C(70), UINT8_C(70), UINT8_C(70), UINT8_C(70), UINT8_C(70), UINT8_C(70), UINT8_C(70), UINT8_C(70), UINT8_C(70), UINT8_C(70), UINT8_C(48), UINT8_C(48), UINT8_C(48), UINT8_C(48), UINT8_C(48), UINT8_C(48), UINT8_C(48), UINT8_C(48), UINT8_C(48), UINT8_C(48), UINT8_C(48), UINT8_C(48), UINT8_C(48), UINT8_C(48), UINT8_C(48), UINT8_C(48), UINT8_C(48), UINT8_C(48), UINT8_C(48), UINT8_C(59), UINT8_C(48), UINT8_C(48), UINT8_C(48), UINT8_C(48), UINT8_C(48), UINT8_C(48), UINT8_C(48), UINT8_C(48), UINT8_C(48), UINT8_C(48), UINT8_C(48), UINT8_C(48), UINT8_C(48), UINT8_C(48), UINT8_C(48), UINT8_C(48), UINT8_C(48), UINT8_C(48), UINT8_C(48), UINT8_C(48), UINT8_C(48), UINT8_C(48), UINT8_C(48), UINT8_C(48), UINT8_C(48), UINT8_C(48), UINT8_C(48), UINT8_C(48), UINT8_C(48), UINT8_C(48), UINT8_C(48), UINT8_C(48), UINT8_C(48), UINT8_C(48), UINT8_C(48), UINT8_C(48), UINT8_C(48), UINT8_C(48), UINT8_C(61), UINT8_C(48), UINT8_C(48), UINT8_C(48), UINT8_C(48), UINT8_C(48), UINT8_C(48), UINT8_C(48), UINT8_C(48), UINT8_C(48), UINT8_C(48), UINT8_C(48), UINT8_C(48), UINT8_C(48), UINT8_C(48), UINT8_C(48), UINT8_C(48), UINT8_C(48), UINT8_C(48), UINT8_C(48), UINT8_C(48), UINT8_C(48), UINT8_C(48), UINT8_C(48), UINT8_C(48), UINT8_C(48), UINT8_C(48), UINT8_C(48), UINT8_C(48), UINT8_C(48), UINT8_C(48), UINT8_C(48), UINT8_C(48), UINT8_C(48), UINT8_C(48), UINT8_C(48), UINT8_C(48), UINT8_C(71), UINT8_C(48), UINT8_C(48), UINT8_C(48), UINT8_C(48), UINT8_C(48), UINT8_C(48), UINT8_C(48), UINT8_C(48), UINT8_C(48), UINT8_C(48), UINT8_C(48), UINT8_C(48), UINT8_C(48), UINT8_C(48), UINT8_C(70), UINT8_C(70), UINT8_C(70), UINT8_C(70), UINT8_C(70), UINT8_C(70), UINT8_C(70), UINT8_C(48), UINT8_C(48), UINT8_C(48), UINT8_C(48), UINT8_C(48), UINT8_C(48), UINT8_C(48), UINT8_C(48), UINT8_C(48), UINT8_C(48), UINT8_C(48), UINT8_C(48), UINT8_C(48), UINT8_C(48), UINT8_C(48), UINT8_C(48), UINT8_C(48), UINT8_C(71), UINT8_C(48), UINT8_C(48), UINT8_C(70), UINT8_C(48), UINT8_C(48), UINT8_C(48), UINT8_C(48), UINT8_C(48), UINT8_C(48), UINT8_C(48), UINT8_C(48), UINT8_C(48), UINT8_C(48), UINT8_C(48), UINT8_C(70), UINT8_C(70), UINT8_C(70), UINT8_C(70), UINT8_C(70), UINT8_C(70), UINT8_C(70), UINT8_C(48), UINT8_C(48), UINT8_C(48), UINT8_C(48), UINT8_C(48), UINT8_C(48), UINT8_C(48), UINT8_C(48), UINT8_C(48), UINT8_C(48), UINT8_C(48), UINT8_C(48), UINT8_C(48), UINT8_C(48), UINT8_C(48), UINT8_C(48), UINT8_C(48), UINT8_C(68), UINT8_C(48), UINT8_C(48), UINT8_C(70), UINT8_C(48), UINT8_C(48), UINT8_C(48), UINT8_C(48), UINT8_C(48), UINT8_C(48), UINT8_C(48), UINT8_C(48), UINT8_C(48), UINT8_C(48), UINT8_C(48), UINT8_C(70), UINT8_C(70), UINT8_C(70), UINT8_C(70), UINT8_C(70), UINT8_C(70), UINT8_C(70), UINT8_C(48), UINT8_C(48), UINT8_C(48), UINT8_C(48), UINT8_C(48), UINT8_C(48), UINT8_C(69), UINT8_C(48), UINT8_C(48), UINT8_C(48), UINT8_C(48), UINT8_C(48), UINT8_C(48), UINT8_C(48), UINT8_C(48), UINT8_C(48), UINT8_C(48), UINT8_C(48), UINT8_C(48), UINT8_C(48), UINT8_C(48), UINT8_C(48), UINT8_C(48), UINT8_C(48), UINT8_C(48), UINT8_C(48), UINT8_C(48), UINT8_C(48), UINT8_C(48), UINT8_C(48), UINT8_C(48), UINT8_C(48), UINT8_C(70), UINT8_C(70), UINT8_C(70), UINT8_C(70), UINT8_C(70), UINT8_C(70), UINT8_C(70), UINT8_C(48), UINT8_C(48), UINT8_C(48), UINT8_C(48), UINT8_C(48), UINT8_C(48), UINT8_C(48), UINT8_C(48), UINT8_C(48), UINT8_C(48), UINT8_C(48), UINT8_C(48), UINT8_C(48), UINT8_C(48), UINT8_C(48), UINT8_C(48), UINT8_C(48), UINT8_C(48), UINT8_C(48), UINT8_C(48), UINT8_C(48), UINT8_C(48), UINT8_C(61), UINT8_C(48), UINT8_C(48), UINT8_C(48), UINT8_C(48), UINT8_C(48), UINT8_C(48), UINT8_C(48), UINT8_C(48), UINT8_C(48), UINT8_C(70), UINT8_C(70), UINT8_C(70), UINT8_C(70), UINT8_C(70), UINT8_C(70), UINT8_C(70), UINT8_C(48), UINT8_C(48), UINT8_C(48) } };
static RT_HERE rt_slice derive__table__next(void)
{
    rt_slice l0;
    uint8_t *l1;
    uint8_t *l2;
    l1 = (uint8_t *)&derive__table__next__l3;
    l2 = (uint8_t *)&(*(uint8_t *)l1);
    l0.p = l2;
    l0.n = UINT64_C(1833);
    return l0;
}

static const struct rt_array_uint8_1833 derive__table__opened__l3 = { { UINT8_C(48), UINT8_C(48), UINT8_C(48), UINT8_C(48), UINT8_C(48), UINT8_C(48), UINT8_C(48), UINT8_C(48), UINT8_C(48), UINT8_C(48), UINT8_C(48), UINT8_C(48), UINT8_C(48), UINT8_C(48), UINT8_C(48), UINT8_C(48), UINT8_C(48), UINT8_C(48), UINT8_C(48), UINT8_C(48), UINT8_C(48), UINT8_C(48), UINT8_C(48), UINT8_C(48), UINT8_C(48), UINT8_C(48), UINT8_C(48), UINT8_C(48), UINT8_C(48), UINT8_C(48), UINT8_C(48), UINT8_C(48), UINT8_C(48), UINT8_C(48), UINT8_C(48), UINT8_C(48), UINT8_C(48), UINT8_C(48), UINT8_C(48), UINT8_C(48), UINT8_C(48), UINT8_C(48), UINT8_C(48), UINT8_C(48), UINT8_C(48), UINT8_C(48), UINT8_C(48), UINT8_C(48), UINT8_C(48), UINT8_C(48), UINT8_C(48), UINT8_C(48), UINT8_C(48), UINT8_C(48), UINT8_C(48), UINT8_C(48), UINT8_C(48), UINT8_C(48), UINT8_C(48), UINT8_C(48), UINT8_C(48), UINT8_C(48), UINT8_C(48), UINT8_C(48), UINT8_C(48), UINT8_C(48), UINT8_C(48), UINT8_C(48), UINT8_C(48), UINT8_C(48), UINT8_C(48), UINT8_C(48), UINT8_C(48), UINT8_C(48), UINT8_C(48), UINT8_C(48), UINT8_C(48), UINT8_C(48), UINT8_C(48), UINT8_C(48), UINT8_C(48), UINT8_C(48), UINT8_C(48), UINT8_C(48), UINT8_C(48), UINT8_C(48), UINT8_C(48), UINT8_C(48), UINT8_C(48), UINT8_C(48), UINT8_C(48), UINT8_C(48), UINT8_C(48), UINT8_C(48), UINT8_C(48), UINT8_C(48), UINT8_C(48), UINT8_C(48), UINT8_C(48), UINT8_C(48), UINT8_C(48), UINT8_C(48), UINT8_C(48), UINT8_C(48), UINT8_C(48), UINT8_C(48), UINT8_C(48), UINT8_C(48), UINT8_C(48), UINT8_C(48), UINT8_C(48), UINT8_C(48), UINT8_C(48), UINT8_C(48), UINT8_C(48), UINT8_C(48), UINT8_C(48), UINT8_C(48), UINT8_C(48), UINT8_C(48), UINT8_C(48), UINT8_C(48), UINT8_C(48), UINT8_C(48), UINT8_C(48), UINT8_C(48), UINT8_C(48), UINT8_C(48), UINT8_C(48), UINT8_C(48), UINT8_C(48), UINT8_C(48), UINT8_C(48), UINT8_C(48), UINT8_C(48), UINT8_C(48), UINT8_C(48), UINT8_C(48), UINT8_C(48), UINT8_C(48), UINT8_C(48), UINT8_C(48), UINT8_C(48), UINT8_C(48), UINT8_C(48), UINT8_C(48), UINT8_C(48), UINT8_C(48), UINT8_C(48), UINT8_C(48), UINT8_C(48), UINT8_C(48), UINT8_C(48), UINT8_C(48), UINT8_C(48), UINT8_C(48), UINT8_C(48), UINT8_C(48), UINT8_C(48), UINT8_C(48), UINT8_C(48), UINT8_C(48), UINT8_C(48), UINT8_C(48), UINT8_C(48), UINT8_C(48), UINT8_C(48), UINT8_C(48), UINT8_C(48), UINT8_C(48), UINT8_C(48), UINT8_C(48), UINT8_C(48), UINT8_C(48), UINT8_C(48), UINT8_C(48), UINT8_C(48), UINT8_C(48), UINT8_C(48), UINT8_C(48), UINT8_C(48), UINT8_C(48), UINT8_C(48), UINT8_C(48), UINT8_C(48), UINT8_C(48), UINT8_C(48), UINT8_C(48), UINT8_C(48), UINT8_C(48), UINT8_C(48), UINT8_C(48), UINT8_C(48), UINT8_C(48), UINT8_C(48), UINT8_C(48), UINT8_C(48), UINT8_C(48), UINT8_C(48), UINT8_C(48), UINT8_C(48), UINT8_C(48), UINT8_C(48), UINT8_C(48), UINT8_C(48), UINT8_C(48), UINT8_C(48), UINT8_C(48), UINT8_C(48), UINT8_C(48), UINT8_C(48), UINT8_C(48), UINT8_C(48), UINT8_C(48), UINT8_C(48), UINT8_C(48), UINT8_C(48), UINT8_C(48), UINT8_C(48), UINT8_C(48), UINT8_C(48), UINT8_C(48), UINT8_C(48), UINT8_C(48), UINT8_C(48), UINT8_C(48), UINT8_C(48), UINT8_C(48), UINT8_C(48), UINT8_C(48), UINT8_C(48), UINT8_C(48), UINT8_C(48), UINT8_C(48), UINT8_C(48), UINT8_C(48), UINT8_C(48), UINT8_C(48), UINT8_C(48), UINT8_C(48), UINT8_C(48), UINT8_C(48), UINT8_C(48), UINT8_C(48), UINT8_C(48), UINT8_C(48), UINT8_C(48), UINT8_C(48), UINT8_C(48), UINT8_C(48), UINT8_C(48), UINT8_C(48), UINT8_C(48), UINT8_C(48), UINT8_C(48), UINT8_C(48), UINT8_C(48), UINT8_C(48), UINT8_C(48), UINT8_C(48), UINT8_C(48), UINT8_C(48), UINT8_C(48), UINT8_C(48), UINT8_C(48), UINT8_C(48), UINT8_C(48), UINT8_C(48), UINT8_C(48), UINT8_C(48), UINT8_C(48), UINT8_C(48), UINT8_C(48), UINT8_C(48), UINT8_C(48), UINT8_C(48), UINT8_C(48), UINT8_C(48), UINT8_C(48), UINT8_C(48), UINT8_C(48), UINT8_C(48), UINT8_C(48), UINT8_C(48), UINT8_C(48), UINT8_C(48), UINT8_C(48), UINT8_C(48), UINT8_C(48), UINT8_C(48), UINT8_C(48), UINT8_C(48), UINT8_C(48), UINT8_C(48), UINT8_C(48), UINT8_C(48), UINT8_C(48), UINT8_C(48), UINT8_C(48), UINT8_C(48), UINT8_C(48), UINT8_C(48), UINT8_C(48), UINT8_C(48), UINT8_C(48), UINT8_C(48), UINT8_C(48), UINT8_C(48), UINT8_C(48), UINT8_C(48), UINT8_C(48), UINT8_C(48), UINT8_C(48), UINT8_C(48), UINT8_C(48), UINT8_C(48), UINT8_C(48), UINT8_C(48), UINT8_C(48), UINT8_C(48), UINT8_C(48), UINT8_C(48), UINT8_C(48), UINT8_C(48), UINT8_C(48), UINT8_C(48), UINT8_C(48), UINT8_C(48), UINT8_C(48), UINT8_C(48), UINT8_C(48), UINT8_C(48), UINT8_C(48), UINT8_C(48), UINT8_C(48), UINT8_C(48), UINT8_C(48), UINT8_C(48), UINT8_C(48), UINT8_C(48), UINT8_C(48), UINT8_C(48), UINT8_C(48), UINT8_C(48), UINT8_C(48), UINT8_C(48), UINT8_C(48), UINT8_C(48), UINT8_C(48), UINT8_C(48), UINT8_C(48), UINT8_C(48), UINT8_C(48), UINT8_C(48), UINT8_C(48), UINT8_C(48), UINT8_C(48), UINT8_C(48), UINT8_C(48), UINT8_C(48), UINT8_C(48), UINT8_C(48), UINT8_C(48), UINT8_C(48), UINT8_C(48), UINT8_C(48), UINT8_C(48), UINT8_C(48), UINT8_C(48), UINT8_C(48), UINT8_C(48), UINT8_C(48), UINT8_C(48), UINT8_C(48), UINT8_C(48), UINT8_C(48), UINT8_C(48), UINT8_C(48), UINT8_C(48), UINT8_C(48), UINT8_C(48), UINT8_C(48), UINT8_C(48), UINT8_C(48), UINT8_C(48), UINT8_C(48), UINT8_C(48), UINT8_C(48), UINT8_C(48), UINT8_C(48), UINT8_C(48), UINT8_C(48), UINT8_C(48), UINT8_C(48), UINT8_C(48), UINT8_C(48), UINT8_C(48), UINT8_C(48), UINT8_C(48), UINT8_C(48), UINT8_C(48), UINT8_C(48), UINT8_C(48), UINT8_C(48), UINT8_C(48), UINT8_C(48), UINT8_C(48), UINT8_C(48), UINT8_C(48), UINT8_C(48), UINT8_C(48), UINT8_C(48), UINT8_C(48), UINT8_C(48), UINT8_C(48), UINT8_C(48), UINT8_C(48), UINT8_C(48), UINT8_C(48), UINT8_C(48), UINT8_C(48), UINT8_C(48), UINT8_C(48), UINT8_C(48), UINT8_C(48), UINT8_C(48), UINT8_C(48), UINT8_C(48), UINT8_C(48), UINT8_C(48), UINT8_C(48), UINT8_C(48), UINT8_C(48), UINT8_C(48), UINT8_C(48), UINT8_C(48), UINT8_C(48), UINT8_C(48), UINT8_C(48), UINT8_C(48), UINT8_C(48), UINT8_C(48), UINT8_C(48), UINT8_C(48), UINT8_C(48), UINT8_C(48), UINT8_C(48), UINT8_C(48), UINT8_C(48), UINT8_C(48), UINT8_C(48), UINT8_C(48), UINT8_C(48), UINT8_C(48), UINT8_C(48), UINT8_C(48), UINT8_C(48), UINT8_C(48), UINT8_C(48), UINT8_C(48), UINT8_C(48), UINT8_C(48), UINT8_C(48), UINT8_C(48), UINT8_C(48), UINT8_C(48), UINT8_C(48), UINT8_C(48), UINT8_C(48), UINT8_C(48), UINT8_C(48), UINT8_C(48), UINT8_C(48), UINT8_C(48), UINT8_C(48), UINT8_C(48), UINT8_C(48), UINT8_C(48), UINT8_C(48), UINT8_C(48), UINT8_C(48), UINT8_C(48), UINT8_C(48), UINT8_C(88), UINT8_C(48), UINT8_C(48), UINT8_C(48), UINT8_C(48), UINT8_C(48), UINT8_C(48), UINT8_C(48), UINT8_C(48), UINT8_C(48), UINT8_C(48), UINT8_C(48), UINT8_C(48), UINT8_C(48), UINT8_C(48), UINT8_C(48), UINT8_C(48), UINT8_C(48), UINT8_C(48), UINT8_C(48), UINT8_C(48), UINT8_C(48), UINT8_C(48), UINT8_C(48), UINT8_C(48), UINT8_C(48), UINT8_C(86), UINT8_C(48), UINT8_C(48), UINT8_C(48), UINT8_C(48), UINT8_C(48), UINT8_C(48), UINT8_C(48), UINT8_C(48), UINT8_C(48), UINT8_C(48), UINT8_C(48), UINT8_C(48), UINT8_C(48), UINT8_C(48), UINT8_C(48), UINT8_C(48), UINT8_C(48), UINT8_C(48), UINT8_C(48), UINT8_C(48), UINT8_C(48), UINT8_C(48), UINT8_C(48), UINT8_C(48), UINT8_C(48), UINT8_C(48), UINT8_C(48), UINT8_C(48), UINT8_C(48), UINT8_C(48), UINT8_C(48), UINT8_C(48), UINT8_C(48), UINT8_C(48), UINT8_C(48), UINT8_C(48), UINT8_C(48), UINT8_C(48), UINT8_C(48), UINT8_C(48), UINT8_C(48), UINT8_C(48), UINT8_C(48), UINT8_C(48), UINT8_C(48), UINT8_C(48), UINT8_C(48), UINT8_C(48), UINT8_C(48), UINT8_C(85), UINT8_C(48), UINT8_C(48), UINT8_C(48), UINT8_C(48), UINT8_C(48), UINT8_C(48), UINT8_C(87), UINT8_C(48), UINT8_C(48), UINT8_C(48), UINT8_C(48), UINT8_C(48), UINT8_C(48), UINT8_C(48), UINT8_C(48), UINT8_C(48), UINT8_C(48), UINT8_C(48), UINT8_C(48), UINT8_C(48), UINT8_C(48), UINT8_C(48), UINT8_C(48), UINT8_C(48), UINT8_C(48), UINT8_C(48), UINT8_C(48), UINT8_C(48), UINT8_C(48), UINT8_C(48), UINT8_C(48), UINT8_C(48), UINT8_C(48), UINT8_C(48), UINT8_C(48), UINT8_C(48), UINT8_C(48), UINT8_C(48), UINT8_C(48), UINT8_C(48), UINT8_C(48), UINT8_C(48), UINT8_C(48), UINT8_C(48), UINT8_C(48), UINT8_C(48), UINT8_C(48), UINT8_C(48), UINT8_C(48), UINT8_C(48), UINT8_C(48), UINT8_C(48), UINT8_C(48), UINT8_C(48), UINT8_C(48), UINT8_C(48), UINT8_C(48), UINT8_C(48), UINT8_C(48), UINT8_C(48), UINT8_C(48), UINT8_C(48), UINT8_C(48), UINT8_C(48), UINT8_C(48), UINT8_C(48), UINT8_C(48), UINT8_C(48), UINT8_C(48), UINT8_C(48), UINT8_C(48), UINT8_C(48), UINT8_C(48), UINT8_C(48), UINT8_C(48), UINT8_C(48), UINT8_C(48), UINT8_C(48), UINT8_C(48), UINT8_C(48), UINT8_C(48), UINT8_C(48), UINT8_C(48), UINT8_C(48), UINT8_C(87), UINT8_C(48), UINT8_C(48), UINT8_C(48), UINT8_C(48), UINT8_C(48), UINT8_C(48), UINT8_C(48), UINT8_C(48), UINT8_C(48), UINT8_C(48), UINT8_C(48), UINT8_C(48), UINT8_C(48), UINT8_C(48), UINT8_C(48), UINT8_C(48), UINT8_C(48), UINT8_C(48), UINT8_C(48), UINT8_C(48), UINT8_C(48), UINT8_C(48), UINT8_C(48), UINT8_C(48), UINT8_C(48), UINT8_C(48), UINT8_C(48), UINT8_C(48), UINT8_C(48), UINT8_C(48), UINT8_C(48), UINT8_C(48), UINT8_C(48), UINT8_C(48), UINT8_C(48), UINT8_C(48), UINT8_C(48), UINT8_C(48), UINT8_C(48), UINT8_C(48), UINT8_C(48), UINT8_C(48), UINT8_C(48), UINT8_C(48), UINT8_C(48), UINT8_C(48), UINT8_C(48), UINT8_C(48), UINT8_C(48), UINT8_C(48), UINT8_C(48), UINT8_C(48), UINT8_C(48), UINT8_C(48), UINT8_C(48), UINT8_C(48), UINT8_C(48), UINT8_C(48), UINT8_C(48), UINT8_C(48), UINT8_C(48), UINT8_C(48), UINT8_C(48), UINT8_C(48), UINT8_C(48), UINT8_C(48), UINT8_C(48), UINT8_C(48), UINT8_C(48), UINT8_C(48), UINT8_C(48), UINT8_C(48), UINT8_C(48), UINT8_C(48), UINT8_C(48), UINT8_C(48), UINT8_C(48), UINT8_C(87), UINT8_C(48), UINT8_C(48), UINT8_C(48), UINT8_C(48), UINT8_C(48), UINT8_C(48), UINT8_C(48), UINT8_C(48), UINT8_C(48), UINT8_C(48), UINT8_C(48), UINT8_C(48), UINT8_C(48), UINT8_C(48), UINT8_C(48), UINT8_C(48), UINT8_C(48), UINT8_C(48), UINT8_C(48), UINT8_C(48), UINT8_C(48), UINT8_C(48), UINT8_C(48), UINT8_C(48), UINT8_C(48), UINT8_C(48), UINT8_C(48), UINT8_C(48), UINT8_C(48), UINT8_C(48), UINT8_C(48), UINT8_C(83), UINT8_C(48), UINT8_C(48), UINT8_C(48), UINT8_C(48), UINT8_C(48), UINT8_C(48), UINT8_C(48), UINT8_C(48), UINT8_C(48), UINT8_C(48), UINT8_C(48), UINT8_C(48), UINT8_C(48), UINT8_C(48), UINT8_C(48), UINT8_C(48), UINT8_C(48), UINT8_C(48), UINT8_C(48), UINT8_C(48), UINT8_C(48), UINT8_C(48), UINT8_C(48), UINT8_C(48), UINT8_C(48), UINT8_C(48), UINT8_C(48), UINT8_C(48), UINT8_C(48), UINT8_C(48), UINT8_C(48), UINT8_C(48), UINT8_C(48), UINT8_C(48), UINT8_C(48), UINT8_C(48), UINT8_C(48), UINT8_C(48), UINT8_C(48), UINT8_C(48), UINT8_C(48), UINT8_C(48), UINT8_C(48), UINT8_C(48), UINT8_C(48), UINT8_C(48), UINT8_C(48), UINT8_C(48), UINT8_C(48), UINT8_C(48), UINT8_C(48), UINT8_C(48), UINT8_C(48), UINT8_C(48), UINT8_C(48), UINT8_C(48), UINT8_C(48), UINT8_C(48), UINT8_C(48), UINT8_C(48), UINT8_C(48), UINT8_C(48), UINT8_C(48), UINT8_C(48), UINT8_C(48), UINT8_C(48), UINT8_C(48), UINT8_C(48), UINT8_C(48), UINT8_C(48), UINT8_C(48), UINT8_C(48), UINT8_C(48), UINT8_C(48), UINT8_C(48), UINT8_C(48), UINT8_C(48), UINT8_C(48), UINT8_C(48), UINT8_C(89), UINT8_C(48), UINT8_C(48), UINT8_C(48), UINT8_C(48), UINT8_C(48), UINT8_C(48), UINT8_C(48), UINT8_C(48), UINT8_C(48), UINT8_C(48), UINT8_C(48), UINT8_C(48), UINT8_C(48), UINT8_C(48), UINT8_C(48), UINT8_C(48), UINT8_C(48), UINT8_C(48), UINT8_C(48), UINT8_C(48), UINT8_C(48), UINT8_C(48), UINT8_C(48), UINT8_C(48), UINT8_C(48), UINT8_C(48), UINT8_C(48), UINT8_C(48), UINT8_C(48), UINT8_C(48), UINT8_C(48), UINT8_C(48), UINT8_C(48), UINT8_C(48), UINT8_C(48), UINT8_C(48), UINT8_C(83), UINT8_C(48), UINT8_C(48), UINT8_C(48), UINT8_C(48), UINT8_C(48), UINT8_C(48), UINT8_C(48), UINT8_C(48), UINT8_C(48), UINT8_C(48), UINT8_C(48), UINT8_C(48), UINT8_C(48), UINT8_C(48), UINT8_C(48), UINT8_C(48), UINT8_C(48), UINT8_C(48), UINT8_C(48), UINT8_C(48), UINT8_C(48), UINT8_C(48), UINT8_C(48), UINT8_C(48), UINT8_C(48), UINT8_C(48), UINT8_C(48), UINT8_C(48), UINT8_C(48), UINT8_C(48), UINT8_C(48), UINT8_C(48), UINT8_C(48), UINT8_C(48), UINT8_C(48), UINT8_C(48), UINT8_C(48), UINT8_C(48), UINT8_C(48), UINT8_C(48), UINT8_C(48), UINT8_C(48), UINT8_C(48), UINT8_C(48), UINT8_C(48), UINT8_C(48), UINT8_C(48), UINT8_C(48), UINT8_C(48), UINT8_C(48), UINT8_C(48), UINT8_C(48), UINT8_C(48), UINT8_C(48), UINT8_C(48), UINT8_C(48), UINT8_C(48), UINT8_C(48), UINT8_C(48), UINT8_C(48), UINT8_C(48), UINT8_C(48), UINT8_C(48), UINT8_C(48), UINT8_C(48), UINT8_C(48), UINT8_C(48), UINT8_C(48), UINT8_C(48), UINT8_C(48), UINT8_C(48), UINT8_C(48), UINT8_C(48), UINT8_C(48), UINT8_C(48), UINT8_C(48), UINT8_C(48), UINT8_C(84), UINT8_C(48), UINT8_C(48), UINT8_C(48), UINT8_C(48), UINT8_C(48), UINT8_C(48), UINT8_C(48), UINT8_C(48), UINT8_C(48), UINT8_C(48), UINT8_C(48), UINT8_C(48), UINT8_C(48), UINT8_C(48), UINT8_C(48), UINT8_C(48), UINT8_C(48), UINT8_C(48), UINT8_C(48), UINT8_C(48), UINT8_C(48), UINT8_C(48), UINT8_C(48), UINT8_C(48), UINT8_C(48), UINT8_C(48), UINT8_C(48), UINT8_C(48), UINT8_C(48), UINT8_C(48), UINT8_C(48), UINT8_C(48), UINT8_C(48), UINT8_C(48), UINT8_C(48), UINT8_C(48), UINT8_C(48), UINT8_C(48), UINT8_C(48), UINT8_C(48), UINT8_C(48), UINT8_C(48), UINT8_C(48), UINT8_C(48), UINT8_C(48), UINT8_C(48), UINT8_C(48), UINT8_C(48), UINT8_C(48), UINT8_C(48), UINT8_C(48), UINT8_C(48), UINT8_C(48), UINT8_C(48), UINT8_C(48), UINT8_C(48), UINT8_C(48), UINT8_C(48), UINT8_C(48), UINT8_C(48), UINT8_C(48), UINT8_C(48), UINT8_C(48), UINT8_C(48), UINT8_C(48), UINT8_C(48), UINT8_C(48), UINT8_C(48), UINT8_C(48), UINT8_C(48), UINT8_C(48), UINT8_C(48), UINT8_C(48), UINT8_C(48), UINT8_C(48), UINT8_C(48), UINT8_C(48), UINT8_C(48), UINT8_C(48), UINT8_C(48), UINT8_C(48), UINT8_C(48), UINT8_C(48), UINT8_C(48), UINT8_C(48), UINT8_C(48), UINT8_C(48), UINT8_C(48), UINT8_C(48), UINT8_C(48), UINT8_C(48), UINT8_C(48), UINT8_C(48), UINT8_C(48), UINT8_C(48), UINT8_C(48), UINT8_C(48), UINT8_C(48), UINT8_C(48), UINT8_C(48), UINT8_C(48), UINT8_C(48), UINT8_C(48), UINT8_C(48), UINT8_C(48), UINT8_C(48), UINT8_C(48), UINT8_C(48), UINT8_C(48), UINT8_C(48), UINT8_C(48), UINT8_C(48), UINT8_C(48), UINT8_C(48), UINT8_C(48), UINT8_C(48), UINT8_C(83), UINT8_C(48), UINT8_C(48), UINT8_C(48), UINT8_C(48), UINT8_C(48), UINT8_C(48), UINT8_C(48), UINT8_C(48), UINT8_C(48), UINT8_C(48), UINT8_C(48), UINT8_C(48), UINT8_C(48), UINT8_C(48), UINT8_C(48), UINT8_C(48), UINT8_C(48), UINT8_C(48), UINT8_C(48), UINT8_C(48), UINT8_C(48), UINT8_C(48), UINT8_C(48), UINT8_C(48), UINT8_C(48), UINT8_C(48), UINT8_C(48), UINT8_C(48), UINT8_C(48), UINT8_C(48), UINT8_C(48), UINT8_C(48), UINT8_C(48), UINT8_C(48), UINT8_C(48), UINT8_C(48), UINT8_C(48), UINT8_C(48), UINT8_C(48), UINT8_C(48), UINT8_C(48), UINT8_C(48), UINT8_C(48), UINT8_C(48), UINT8_C(48), UINT8_C(48), UINT8_C(48), UINT8_C(48), UINT8_C(48), UINT8_C(48), UINT8_C(48), UINT8_C(48), UINT8_C(48), UINT8_C(48), UINT8_C(48), UINT8_C(48), UINT8_C(48), UINT8_C(48), UINT8_C(48), UINT8_C(48), UINT8_C(48), UINT8_C(48), UINT8_C(48), UINT8_C(48), UINT8_C(48), UINT8_C(48), UINT8_C(48), UINT8_C(48), UINT8_C(48), UINT8_C(48), UINT8_C(48), UINT8_C(48), UINT8_C(48), UINT8_C(48), UINT8_C(48), UINT8_C(48), UINT8_C(48), UINT8_C(48), UINT8_C(48), UINT8_C(48), UINT8_C(48), UINT8_C(48), UINT8_C(48), UINT8_C(48), UINT8_C(48), UINT8_C(48), UINT8_C(48), UINT8_C(48), UINT8_C(48), UINT8_C(48), UINT8_C(48), UINT8_C(48), UINT8_C(48), UINT8_C(48), UINT8_C(48), UINT8_C(48), UINT8_C(48), UINT8_C(48), UINT8_C(48), UINT8_C(48), UINT8_C(48), UINT8_C(48), UINT8_C(48), UINT8_C(48), UINT8_C(48), UINT8_C(48), UINT8_C(48), UINT8_C(48), UINT8_C(48), UINT8_C(48), UINT8_C(48), UINT8_C(48), UINT8_C(48), UINT8_C(48), UINT8_C(48), UINT8_C(48), UINT8_C(48), UINT8_C(48), UINT8_C(48), UINT8_C(48), UINT8_C(48), UINT8_C(48), UINT8_C(48), UINT8_C(48), UINT8_C(48), UINT8_C(48), UINT8_C(48), UINT8_C(48), UINT8_C(48), UINT8_C(48), UINT8_C(48), UINT8_C(48), UINT8_C(48), UINT8_C(48), UINT8_C(48), UINT8_C(48), UINT8_C(48), UINT8_C(48), UINT8_C(48), UINT8_C(48), UINT8_C(48), UINT8_C(48), UINT8_C(48), UINT8_C(48), UINT8_C(48), UINT8_C(48), UINT8_C(48), UINT8_C(48), UINT8_C(48), UINT8_C(48), UINT8_C(48), UINT8_C(48), UINT8_C(48), UINT8_C(48), UINT8_C(48), UINT8_C(48), UINT8_C(48), UINT8_C(48), UINT8_C(48), UINT8_C(48), UINT8_C(48), UINT8_C(48), UINT8_C(48), UINT8_C(48), UINT8_C(48), UINT8_C(48), UINT8_C(48), UINT8_C(48), UINT8_C(48), UINT8_C(48), UINT8_C(48), UINT8_C(48), UINT8_C(48), UINT8_C(48), UINT8_C(48), UINT8_C(48), UINT8_C(48), UINT8_C(48), UINT8_C(48), UINT8_C(48), UINT8_C(48), UINT8_C(48), UINT8_C(48), UINT8_C(48), UINT8_C(48), UINT8_C(48), UINT8_C(48), UINT8_C(48), UINT8_C(48), UINT8_C(48), UINT8_C(48), UINT8_C(48), UINT8_C(48), UINT8_C(48), UINT8_C(82), UINT8_C(48), UINT8_C(48), UINT8_C(48), UINT8_C(48), UINT8_C(48), UINT8_C(48), UINT8_C(48), UINT8_C(48), UINT8_C(48), UINT8_C(48), UINT8_C(48), UINT8_C(48), UINT8_C(48), UINT8_C(48), UINT8_C(48), UINT8_C(48), UINT8_C(48), UINT8_C(48), UINT8_C(48), UINT8_C(48), UINT8_C(48), UINT8_C(48), UINT8_C(48), UINT8_C(48), UINT8_C(48), UINT8_C(48), UINT8_C(48), UINT8_C(48), UINT8_C(48), UINT8_C(48), UINT8_C(48), UINT8_C(48), UINT8_C(48), UINT8_C(48), UINT8_C(48), UINT8_C(48), UINT8_C(48), UINT8_C(48), UINT8_C(48), UINT8_C(48), UINT8_C(48), UINT8_C(48), UINT8_C(48), UINT8_C(48), UINT8_C(48), UINT8_C(48), UINT8_C(48), UINT8_C(48), UINT8_C(48), UINT8_C(48), UINT8_C(48), UINT8_C(48), UINT8_C(48), UINT8_C(48), UINT8_C(48), UINT8_C(48), UINT8_C(48), UINT8_C(48), UINT8_C(48), UINT8_C(48), UINT8_C(48), UINT8_C(48), UINT8_C(48), UINT8_C(48), UINT8_C(48), UINT8_C(48), UINT8_C(48), UINT8_C(48), UINT8_C(48), UINT8_C(48), UINT8_C(48), UINT8_C(48), UINT8_C(48), UINT8_C(48), UINT8_C(48), UINT8_C(48), UINT8_C(48), UINT8_C(48), UINT8_C(48), UINT8_C(48), UINT8_C(48), UINT8_C(48), UINT8_C(48), UINT8_C(48), UINT8_C(48), UINT8_C(48), UINT8_C(48), UINT8_C(48), UINT8_C(48), UINT8_C(48), UINT8_C(48), UINT8_C(48), UINT8_C(48), UINT8_C(48), UINT8_C(48), UINT8_C(48), UINT8_C(48), UINT8_C(48), UINT8_C(48), UINT8_C(48), UINT8_C(48), UINT8_C(48), UINT8_C(48), UINT8_C(48), UINT8_C(48), UINT8_C(48), UINT8_C(48), UINT8_C(48), UINT8_C(48), UINT8_C(48), UINT8_C(48), UINT8_C(48), UINT8_C(48), UINT8_C(48), UINT8_C(48), UINT8_C(48), UINT8_C(48), UINT8_C(48), UINT8_C(48), UINT8_C(48), UINT8_C(48), UINT8_C(48), UINT8_C(48), UINT8_C(48), UINT8_C(48), UINT8_C(48), UINT8_C(90), UINT8_C(90), UINT8_C(90), UINT8_C(90), UINT8_C(90), UINT8_C(90), UINT8_C(83), UINT8_C(83), UINT8_C(83), UINT8_C(83), UINT8_C(83), UINT8_C(83), UINT8_C(83), UINT8_C(48), UINT8_C(48), UINT8_C(48), UINT8_C(48), UINT8_C(48), UINT8_C(48), UINT8_C(48), UINT8_C(48), UINT8_C(48), UINT8_C(48), UINT8_C(48), UINT8_C(48), UINT8_C(48), UINT8_C(48), UINT8_C(48), UINT8_C(48), UINT8_C(48), UINT8_C(48), UINT8_C(48), UINT8_C(48), UINT8_C(84), UINT8_C(48), UINT8_C(48), UINT8_C(48), UINT8_C(48), UINT8_C(48), UINT8_C(91), UINT8_C(91), UINT8_C(91), UINT8_C(91), UINT8_C(91), UINT8_C(91), UINT8_C(84), UINT8_C(84), UINT8_C(84), UINT8_C(84), UINT8_C(84), UINT8_C(84), UINT8_C(84), UINT8_C(48), UINT8_C(48), UINT8_C(48), UINT8_C(48), UINT8_C(48), UINT8_C(48), UINT8_C(48), UINT8_C(48), UINT8_C(48), UINT8_C(48), UINT8_C(48), UINT8_C(48), UINT8_C(48), UINT8_C(48), UINT8_C(48), UINT8_C(48), UINT8_C(48), UINT8_C(48), UINT8_C(48), UINT8_C(48), UINT8_C(85), UINT8_C(48), UINT8_C(48), UINT8_C(48), UINT8_C(48), UINT8_C(48), UINT8_C(92), UINT8_C(92), UINT8_C(92), UINT8_C(92), UINT8_C(92), UINT8_C(92), UINT8_C(85), UINT8_C(85), UINT8_C(85), UINT8_C(85), UINT8_C(85), UINT8_C(85), UINT8_C(85), UINT8_C(48), UINT8_C(48), UINT8_C(48), UINT8_C(48), UINT8_C(48), UINT8_C(48), UINT8_C(48), UINT8_C(48), UINT8_C(48), UINT8_C(48), UINT8_C(48), UINT8_C(48), UINT8_C(48), UINT8_C(48), UINT8_C(48), UINT8_C(48), UINT8_C(48), UINT8_C(48), UINT8_C(48), UINT8_C(48), UINT8_C(48), UINT8_C(48), UINT8_C(48), UINT8_C(48), UINT8_C(48), UINT8_C(48), UINT8_C(93), UINT8_C(93), UINT8_C(93), UINT8_C(93), UINT8_C(93), UINT8_C(93), UINT8_C(86), UINT8_C(86), UINT8_C(86), UINT8_C(86), UINT8_C(86), UINT8_C(86), UINT8_C(86), UINT8_C(48), UINT8_C(48), UINT8_C(48), UINT8_C(48), UINT8_C(48), UINT8_C(48), UINT8_C(48), UINT8_C(48), UINT8_C(48), UINT8_C(48), UINT8_C(48), UINT8_C(48), UINT8_C(48), UINT8_C(48), UINT8_C(48), UINT8_C(48), UINT8_C(48), UINT8_C(48), UINT8_C(48), UINT8_C(48), UINT8_C(48), UINT8_C(48), UINT8_C(48), UINT8_C(48), UINT8_C(48), UINT8_C(48), UINT8_C(94), UINT8_C(94), UINT8_C(94), UINT8_C(94), UINT8_C(94), UINT8_C(94), UINT8_C(87), UINT8_C(87), UINT8_C(87), UINT8_C(87), UINT8_C(87), UINT8_C(87), UINT8_C(87), UINT8_C(48), UINT8_C(48), UINT8_C(48), UINT8_C(48), UINT8_C(48), UINT8_C(48), UINT8_C(48), UINT8_C(48), UINT8_C(48), UINT8_C(48), UINT8_C(48), UINT8_C(48), UINT8_C(48), UINT8_C(48), UINT8_C(48), UINT8_C(48), UINT8_C(48), UINT8_C(48), UINT8_C(48), UINT8_C(48), UINT8_C(48), UINT8_C(48), UINT8_C(48), UINT8_C(48), UINT8_C(48), UINT8_C(48), UINT8_C(48), UINT8_C(48), UINT8_C(48), UINT8_C(48), UINT8_C(48), UINT8_C(48), UINT8_C(48), UINT8_C(48), UINT8_C(48), UINT8_C(48), UINT8_C(48), UINT8_C(48), UINT8_C(48), UINT8_C(48), UINT8_C(48), UINT8_C(48), UINT8_C(48), UINT8_C(48), UINT8_C(48), UINT8_C(48), UINT8_C(48), UINT8_C(48), UINT8_C(48), UINT8_C(48), UINT8_C(48), UINT8_C(48), UINT8_C(48), UINT8_C(48), UINT8_C(48), UINT8_C(48), UINT8_C(48), UINT8_C(48), UINT8_C(48), UINT8_C(48), UINT8_C(48), UINT8_C(48), UINT8_C(48), UINT8_C(48), UINT8_C(48), UINT8_C(48), UINT8_C(48), UINT8_C(48), UINT8_C(48), UINT8_C(48), UINT8_C(48), UINT8_C(48), UINT8_C(48), UINT8_C(48), UINT8_C(48), UINT8_C(48), UINT8_C(48), UINT8_C(48), UINT8_C(48), UINT8_C(48), UINT8_C(48), UINT8_C(48), UINT8_C(48), UINT8_C(48), UINT8_C(48), UINT8_C(48), UINT8_C(48), UINT8_C(48), UINT8_C(48), UINT8_C(48), UINT8_C(48), UINT8_C(48), UINT8_C(48), UINT8_C(48), UINT8_C(48), UINT8_C(48), UINT8_C(48), UINT8_C(48), UINT8_C(48), UINT8_C(48), UINT8_C(48), UINT8_C(48), UINT8_C(48), UINT8_C(48), UINT8_C(48), UINT8_C(48), UINT8_C(48), UINT8_C(48), UINT8_C(48), UINT8_C(48), UINT8_C(90), UINT8_C(90), UINT8_C(90), UINT8_C(90), UINT8_C(90), UINT8_C(83), UINT8_C(83), UINT8_C(48), UINT8_C(48), UINT8_C(48), UINT8_C(48), UINT8_C(48), UINT8_C(48), UINT8_C(48), UINT8_C(48), UINT8_C(48), UINT8_C(48), UINT8_C(48), UINT8_C(48), UINT8_C(48), UINT8_C(48), UINT8_C(48), UINT8_C(48), UINT8_C(48), UINT8_C(48), UINT8_C(48), UINT8_C(48), UINT8_C(84), UINT8_C(48), UINT8_C(48), UINT8_C(48), UINT8_C(48), UINT8_C(48), UINT8_C(48), UINT8_C(48), UINT8_C(48), UINT8_C(48), UINT8_C(48), UINT8_C(48), UINT8_C(91), UINT8_C(91), UINT8_C(91), UINT8_C(91), UINT8_C(91), UINT8_C(84), UINT8_C(84), UINT8_C(48), UINT8_C(48), UINT8_C(48), UINT8_C(48), UINT8_C(48), UINT8_C(48), UINT8_C(48), UINT8_C(48), UINT8_C(48), UINT8_C(48), UINT8_C(48), UINT8_C(48), UINT8_C(48), UINT8_C(48), UINT8_C(48), UINT8_C(48), UINT8_C(48), UINT8_C(48), UINT8_C(48), UINT8_C(48), UINT8_C(85), UINT8_C(48), UINT8_C(48), UINT8_C(48), UINT8_C(48), UINT8_C(48), UINT8_C(48), UINT8_C(48), UINT8_C(48), UINT8_C(48), UINT8_C(48), UINT8_C(48), UINT8_C(92), UINT8_C(92), UINT8_C(92), UINT8_C(92), UINT8_C(92), UINT8_C(85), UINT8_C(85), UINT8_C(48), UINT8_C(48), UINT8_C(48), UINT8_C(48), UINT8_C(48), UINT8_C(48), UINT8_C(48), UINT8_C(48), UINT8_C(48), UINT8_C(48), UINT8_C(48), UINT8_C(48), UINT8_C(48), UINT8_C(48), UINT8_C(48), UINT8_C(48), UINT8_C(48), UINT8_C(48), UINT8_C(48), UINT8_C(48), UINT8_C(48), UINT8_C(48), UINT8_C(48), UINT8_C(48), UINT8_C(48), UINT8_C(48), UINT8_C(48), UINT8_C(48), UINT8_C(48), UINT8_C(48), UINT8_C(48), UINT8_C(48), UINT8_C(93), UINT8_C(93), UINT8_C(93), UINT8_C(93), UINT8_C(93), UINT8_C(86), UINT8_C(86), UINT8_C(48), UINT8_C(48), UINT8_C(48), UINT8_C(48), UINT8_C(48), UINT8_C(48), UINT8_C(48), UINT8_C(48), UINT8_C(48), UINT8_C(48), UINT8_C(48), UINT8_C(48), UINT8_C(48), UINT8_C(48), UINT8_C(48), UINT8_C(48), UINT8_C(48), UINT8_C(48), UINT8_C(48), UINT8_C(48), UINT8_C(48), UINT8_C(48), UINT8_C(48), UINT8_C(48), UINT8_C(48), UINT8_C(48), UINT8_C(48), UINT8_C(48), UINT8_C(48), UINT8_C(48), UINT8_C(48), UINT8_C(48), UINT8_C(94), UINT8_C(94), UINT8_C(94), UINT8_C(94), UINT8_C(94), UINT8_C(87), UINT8_C(87), UINT8_C(48), UINT8_C(48), UINT8_C(48) } };
static RT_HERE rt_slice derive__table__opened(void)
{
    rt_slice l0;
    uint8_t *l1;
    uint8_t *l2;
    l1 = (uint8_t *)&derive__table__opened__l3;
    l2 = (uint8_t *)&(*(uint8_t *)l1);
    l0.p = l2;
    l0.n = UINT64_C(1833);
    return l0;
}

static RT_HERE struct core__option__Option__Row directory__rows__find(rt_slice l1, uint8_t l2, uint8_t l3, uint8_t l4)
{
    struct core__option__Option__Row l0;
    uint64_t l5;
    struct directory__Row l6;
    uint64_t l7;
    uint8_t l8;
    uint8_t l9;
    uint16_t l10;
    uint16_t l11;
    l5 = UINT64_C(0);
    l7 = core__convert__UsizeFromU8__from(l2);
    for (;;) {
        l8 = (uint8_t)(l5 < l7);
        if (l8) {
        } else {
            goto end1;
        }
        l6 = directory__rows__row_at(l1, l5);
        l10 = core__convert__U16FromU8__from(l3);
        l11 = core__convert__U16FromU8__from(l4);
        l9 = directory__rows__is_row(l6, l10, l11);
        if (l9) {
            l0.tag = UINT8_C(1);
            l0.s0.f0 = l6.f0;
            l0.s0.f1 = l6.f1;
            l0.s0.f2 = l6.f2;
            l0.s0.f3 = l6.f3;
            return l0;
        }
        l5 = (uint64_t)((uint64_t)l5 + (uint64_t)UINT64_C(1));
    }
end1:;
    l0.tag = UINT8_C(0);
    return l0;
}

static RT_SHORT uint8_t directory__rows__is_row(struct directory__Row l1, uint16_t l2, uint16_t l3)
{
    uint8_t l0;
    uint8_t l4;
    l4 = (uint8_t)(l1.f0 == l2);
    if (l4) {
        l4 = (uint8_t)(l1.f1 == l3);
    }
    l0 = l4;
    return l0;
}

static RT_SHORT uint16_t directory__rows__look(rt_slice l1, uint64_t l2)
{
    uint16_t l0;
    struct core__option__Option__u16 l3;
    struct core__option__Option__ref_u16 l4;
    l4 = core__slice__slice_T__get__u16_u64_ref_u16(l1, l2);
    l3 = core__option__more__Option_ref_T__copied__u16(l4);
    l0 = core__option__Option__unwrap_or__u16(l3, UINT16_C(0));
    return l0;
}

static inline void directory__rows__put_row(rt_slice l1, uint64_t l2, struct directory__Row l3)
{
    uint64_t l4;
    uint64_t l6;
    uint8_t *l7;
    uint64_t l9;
    uint8_t *l10;
    uint8_t *l12;
    uint8_t *l14;
    l4 = (uint64_t)((uint64_t)UINT64_C(4) * (uint64_t)l2);
    l6 = (uint64_t)((uint64_t)l4 * (uint64_t)UINT64_C(2));
    l7 = l1.p + (size_t)l6;
    (*(uint16_t *)l7) = l3.f0;
    l6 = (uint64_t)((uint64_t)l4 + (uint64_t)UINT64_C(1));
    l9 = (uint64_t)((uint64_t)l6 * (uint64_t)UINT64_C(2));
    l10 = l1.p + (size_t)l9;
    (*(uint16_t *)l10) = l3.f1;
    l6 = (uint64_t)((uint64_t)l4 + (uint64_t)UINT64_C(2));
    l9 = (uint64_t)((uint64_t)l6 * (uint64_t)UINT64_C(2));
    l12 = l1.p + (size_t)l9;
    (*(uint16_t *)l12) = l3.f2;
    l6 = (uint64_t)((uint64_t)l4 + (uint64_t)UINT64_C(3));
    l9 = (uint64_t)((uint64_t)l6 * (uint64_t)UINT64_C(2));
    l14 = l1.p + (size_t)l9;
    (*(uint16_t *)l14) = l3.f3;
    return;
}

static RT_SHORT struct directory__Row directory__rows__row_at(rt_slice l1, uint64_t l2)
{
    struct directory__Row l0;
    uint64_t l3;
    uint16_t l4;
    uint16_t l5;
    uint64_t l6;
    uint16_t l7;
    uint64_t l8;
    uint16_t l9;
    uint64_t l10;
    l3 = (uint64_t)((uint64_t)UINT64_C(4) * (uint64_t)l2);
    l4 = directory__rows__look(l1, l3);
    l6 = (uint64_t)((uint64_t)l3 + (uint64_t)UINT64_C(1));
    l5 = directory__rows__look(l1, l6);
    l8 = (uint64_t)((uint64_t)l3 + (uint64_t)UINT64_C(2));
    l7 = directory__rows__look(l1, l8);
    l10 = (uint64_t)((uint64_t)l3 + (uint64_t)UINT64_C(3));
    l9 = directory__rows__look(l1, l10);
    l0.f0 = l4;
    l0.f1 = l5;
    l0.f2 = l7;
    l0.f3 = l9;
    return l0;
}

static RT_SHORT uint8_t directory__rows__there(rt_slice l1, uint8_t l2, uint8_t l3, uint8_t l4)
{
    uint8_t l0;
    struct core__option__Option__Row l5;
    struct core__option__Option__Row l6;
    uint8_t *l7;
    l5 = directory__rows__find(l1, l2, l3, l4);
    l6 = l5;
    l7 = (uint8_t *)&l6;
    l0 = core__option__Option__is_some__Row(l7);
    return l0;
}

static inline struct emit__Put emit__exprs__expr(rt_slice l1, rt_slice l2, uint64_t l3, uint64_t l4, rt_slice l5, uint64_t l6)
{
    struct emit__Put l0;
    struct emit__Put l8;
    uint64_t l9;
    uint64_t l10;
    struct emit__Put l11;
    struct emit__Put l14;
    uint64_t l15;
    uint8_t *l16;
    uint8_t l17;
    struct emit__Put l18;
    uint64_t l19;
    uint64_t l20;
    uint8_t *l21;
    rt_slice l22;
    struct commands__kind__Kind l23;
    uint8_t *l24;
    rt_slice l25;
    uint64_t l26;
    uint64_t l27;
    uint8_t *l28;
    rt_slice l29;
    uint64_t l30;
    uint8_t *l31;
    rt_slice l32;
    uint8_t l33;
    uint8_t *l35;
    rt_slice l36;
    uint64_t l37;
    uint64_t l38;
    uint64_t l39;
    uint64_t l40;
    uint64_t l41;
    uint8_t *l42;
    rt_slice l43;
    uint8_t *l44;
    rt_slice l45;
    struct commands__kind__Kind l46;
    uint64_t l47;
    uint8_t *l48;
    rt_slice l49;
    l16 = l1.p + (size_t)l3;
    l17 = (*(uint8_t *)l16);
    switch (l17) {
        case UINT8_C(16): {
            l19 = (uint64_t)((uint64_t)l3 + (uint64_t)UINT64_C(1));
            l20 = (uint64_t)((uint64_t)l4 - (uint64_t)UINT64_C(1));
            l21 = (uint8_t *)&(*(uint64_t *)l5.p);
            l22.p = l21;
            l22.n = l5.n;
            l8 = emit__exprs__expr(l1, l2, l19, l20, l22, l6);
            l23.tag = UINT8_C(6);
            l9 = emit__words__coded(l23, UINT64_C(0), UINT64_C(0));
            l24 = (uint8_t *)&(*(uint64_t *)l5.p);
            l25.p = l24;
            l25.n = l5.n;
            l18 = emit__words__add(l25, l8, l9);
            break;
        }
        case UINT8_C(17): {
            l26 = (uint64_t)((uint64_t)l3 + (uint64_t)UINT64_C(1));
            l27 = (uint64_t)((uint64_t)l4 - (uint64_t)UINT64_C(1));
            l28 = (uint8_t *)&(*(uint64_t *)l5.p);
            l29.p = l28;
            l29.n = l5.n;
            l18 = emit__exprs__make(l1, l2, l26, l27, l29, l6);
            break;
        }
        case UINT8_C(18): {
            l30 = (uint64_t)((uint64_t)l3 + (uint64_t)UINT64_C(1));
            l31 = (uint8_t *)&(*(uint64_t *)l5.p);
            l32.p = l31;
            l32.n = l5.n;
            l18 = emit__words__path(l1, l30, l32, l6);
            break;
        }
        default: {
            l33 = (uint8_t)(l17 < UINT8_C(24));
            if (l33) {
                l10 = emit__words__leaf(l1, l3);
                l35 = (uint8_t *)&(*(uint64_t *)l5.p);
                l36.p = l35;
                l36.n = l5.n;
                emit__words__store(l36, l6, l10);
                l37 = emit__words__leaf_size(l17);
                l38 = (uint64_t)((uint64_t)l3 + (uint64_t)l37);
                l39 = (uint64_t)((uint64_t)l6 + (uint64_t)UINT64_C(1));
                l18.f0 = l38;
                l18.f1 = l39;
                goto end1;
            }
            l40 = (uint64_t)((uint64_t)l3 + (uint64_t)UINT64_C(1));
            l41 = (uint64_t)((uint64_t)l4 - (uint64_t)UINT64_C(1));
            l42 = (uint8_t *)&(*(uint64_t *)l5.p);
            l43.p = l42;
            l43.n = l5.n;
            l11 = emit__exprs__expr(l1, l2, l40, l41, l43, l6);
            l40 = (uint64_t)((uint64_t)l4 - (uint64_t)UINT64_C(1));
            l44 = (uint8_t *)&(*(uint64_t *)l5.p);
            l45.p = l44;
            l45.n = l5.n;
            l14 = emit__exprs__expr(l1, l2, l11.f0, l40, l45, l11.f1);
            l46.tag = UINT8_C(7);
            l47 = core__convert__U64FromU8__from(l17);
            l15 = emit__words__coded(l46, UINT64_C(0), l47);
            l48 = (uint8_t *)&(*(uint64_t *)l5.p);
            l49.p = l48;
            l49.n = l5.n;
            l18 = emit__words__add(l49, l14, l15);
        end1:;
            break;
        }
    }
    l0.f0 = l18.f0;
    l0.f1 = l18.f1;
    return l0;
}

static inline struct emit__Put emit__exprs__make(rt_slice l1, rt_slice l2, uint64_t l3, uint64_t l4, rt_slice l5, uint64_t l6)
{
    struct emit__Put l0;
    uint8_t l7;
    uint64_t l8;
    uint8_t l9;
    struct emit__Put l10;
    uint8_t l11;
    uint64_t l12;
    uint8_t *l13;
    uint8_t l14;
    uint8_t *l15;
    uint64_t l16;
    uint8_t l17;
    uint8_t *l18;
    rt_slice l19;
    struct commands__kind__Kind l20;
    uint64_t l21;
    uint8_t *l22;
    rt_slice l23;
    l13 = l1.p + (size_t)l3;
    l14 = (*(uint8_t *)l13);
    l7 = l14;
    l8 = core__convert__UsizeFromU8__from(l7);
    l15 = l2.p + (size_t)l8;
    l14 = (*(uint8_t *)l15);
    l9 = l14;
    l16 = (uint64_t)((uint64_t)l3 + (uint64_t)UINT64_C(1));
    l10.f0 = l16;
    l10.f1 = l6;
    l11 = UINT8_C(0);
    for (;;) {
        l17 = (uint8_t)(l11 < l9);
        if (l17) {
        } else {
            goto end1;
        }
        l18 = (uint8_t *)&(*(uint64_t *)l5.p);
        l19.p = l18;
        l19.n = l5.n;
        l10 = emit__exprs__expr(l1, l2, l10.f0, l4, l19, l10.f1);
        l11 = (uint8_t)((uint32_t)l11 + (uint32_t)UINT8_C(1));
    }
end1:;
    l20.tag = UINT8_C(4);
    l21 = core__convert__U64FromU8__from(l7);
    l12 = emit__words__coded(l20, UINT64_C(0), l21);
    l22 = (uint8_t *)&(*(uint64_t *)l5.p);
    l23.p = l22;
    l23.n = l5.n;
    l0 = emit__words__add(l23, l10, l12);
    return l0;
}

static RT_HERE struct emit__Put emit__steps__step(rt_slice l1, rt_slice l2, uint64_t l3, rt_slice l4, uint64_t l5)
{
    struct emit__Put l0;
    uint64_t l6;
    uint8_t *l7;
    rt_slice l8;
    l6 = (uint64_t)((uint64_t)l3 + (uint64_t)UINT64_C(1));
    l7 = (uint8_t *)&(*(uint64_t *)l4.p);
    l8.p = l7;
    l8.n = l4.n;
    l0 = emit__stmts__body(l1, l2, l6, UINT64_C(8), l8, l5);
    return l0;
}

static inline struct emit__Put emit__stmts__block(rt_slice l1, rt_slice l2, uint64_t l3, uint64_t l4, rt_slice l5, uint64_t l6)
{
    struct emit__Put l0;
    struct emit__Put l7;
    uint64_t l9;
    uint64_t l10;
    uint8_t *l11;
    rt_slice l12;
    uint64_t l13;
    struct commands__kind__Kind l14;
    uint8_t *l17;
    rt_slice l18;
    l11 = (uint8_t *)&(*(uint64_t *)l5.p);
    l12.p = l11;
    l12.n = l5.n;
    l13 = (uint64_t)((uint64_t)l6 + (uint64_t)UINT64_C(1));
    l7 = emit__stmts__body(l1, l2, l3, l4, l12, l13);
    l13 = (uint64_t)((uint64_t)l7.f1 - (uint64_t)l6);
    l9 = (uint64_t)((uint64_t)l13 - (uint64_t)UINT64_C(1));
    l14.tag = UINT8_C(5);
    l10 = emit__words__coded(l14, UINT64_C(0), l9);
    l17 = (uint8_t *)&(*(uint64_t *)l5.p);
    l18.p = l17;
    l18.n = l5.n;
    emit__words__store(l18, l6, l10);
    l0.f0 = l7.f0;
    l0.f1 = l7.f1;
    return l0;
}

static inline struct emit__Put emit__stmts__body(rt_slice l1, rt_slice l2, uint64_t l3, uint64_t l4, rt_slice l5, uint64_t l6)
{
    struct emit__Put l0;
    struct emit__Put l8;
    uint8_t l9;
    uint8_t *l10;
    uint8_t l11;
    uint64_t l12;
    uint8_t l13;
    uint8_t *l14;
    rt_slice l15;
    l10 = l1.p + (size_t)l3;
    l11 = (*(uint8_t *)l10);
    l12 = (uint64_t)((uint64_t)l3 + (uint64_t)UINT64_C(1));
    l8.f0 = l12;
    l8.f1 = l6;
    l9 = UINT8_C(0);
    for (;;) {
        l13 = (uint8_t)(l9 < l11);
        if (l13) {
        } else {
            goto end1;
        }
        l14 = (uint8_t *)&(*(uint64_t *)l5.p);
        l15.p = l14;
        l15.n = l5.n;
        l8 = emit__stmts__stmt(l1, l2, l8.f0, l4, l15, l8.f1);
        l9 = (uint8_t)((uint32_t)l9 + (uint32_t)UINT8_C(1));
    }
end1:;
    l0.f0 = l8.f0;
    l0.f1 = l8.f1;
    return l0;
}

static inline struct emit__Put emit__stmts__declare(rt_slice l1, rt_slice l2, uint64_t l3, rt_slice l4, uint64_t l5)
{
    struct emit__Put l0;
    struct emit__Put l6;
    uint64_t l7;
    struct emit__Put l8;
    uint64_t l9;
    uint64_t l10;
    uint8_t *l11;
    rt_slice l12;
    struct commands__kind__Kind l13;
    uint8_t *l14;
    rt_slice l15;
    uint64_t l16;
    uint8_t *l17;
    uint8_t l18;
    uint8_t *l19;
    rt_slice l20;
    l10 = (uint64_t)((uint64_t)l3 + (uint64_t)UINT64_C(2));
    l11 = (uint8_t *)&(*(uint64_t *)l4.p);
    l12.p = l11;
    l12.n = l4.n;
    l6 = emit__exprs__expr(l1, l2, l10, UINT64_C(16), l12, l5);
    l13.tag = UINT8_C(1);
    l7 = emit__words__coded(l13, UINT64_C(0), UINT64_C(0));
    l14 = (uint8_t *)&(*(uint64_t *)l4.p);
    l15.p = l14;
    l15.n = l4.n;
    l8 = emit__words__add(l15, l6, l7);
    l13.tag = UINT8_C(3);
    l10 = (uint64_t)((uint64_t)l3 + (uint64_t)UINT64_C(1));
    l17 = l1.p + (size_t)l10;
    l18 = (*(uint8_t *)l17);
    l16 = core__convert__U64FromU8__from(l18);
    l9 = emit__words__coded(l13, UINT64_C(0), l16);
    l19 = (uint8_t *)&(*(uint64_t *)l4.p);
    l20.p = l19;
    l20.n = l4.n;
    l0 = emit__words__add(l20, l8, l9);
    return l0;
}

static inline struct emit__Put emit__stmts__stmt(rt_slice l1, rt_slice l2, uint64_t l3, uint64_t l4, rt_slice l5, uint64_t l6)
{
    struct emit__Put l0;
    uint8_t *l8;
    uint8_t l9;
    struct emit__Put l10;
    uint64_t l11;
    uint64_t l12;
    uint8_t *l13;
    rt_slice l14;
    uint64_t l15;
    uint8_t *l16;
    rt_slice l17;
    uint64_t l18;
    uint8_t *l19;
    rt_slice l20;
    uint64_t l21;
    uint8_t *l22;
    rt_slice l23;
    l8 = l1.p + (size_t)l3;
    l9 = (*(uint8_t *)l8);
    switch (l9) {
        case UINT8_C(1): {
            l11 = (uint64_t)((uint64_t)l3 + (uint64_t)UINT64_C(1));
            l12 = (uint64_t)((uint64_t)l4 - (uint64_t)UINT64_C(1));
            l13 = (uint8_t *)&(*(uint64_t *)l5.p);
            l14.p = l13;
            l14.n = l5.n;
            l10 = emit__stmts__when(l1, l2, l11, l12, l14, l6);
            break;
        }
        case UINT8_C(2): {
            l15 = (uint64_t)((uint64_t)l3 + (uint64_t)UINT64_C(1));
            l16 = (uint8_t *)&(*(uint64_t *)l5.p);
            l17.p = l16;
            l17.n = l5.n;
            l10 = emit__stmts__declare(l1, l2, l15, l17, l6);
            break;
        }
        case UINT8_C(3): {
            l18 = (uint64_t)((uint64_t)l3 + (uint64_t)UINT64_C(1));
            l19 = (uint8_t *)&(*(uint64_t *)l5.p);
            l20.p = l19;
            l20.n = l5.n;
            l10 = emit__stmts__update(l1, l2, l18, l20, l6);
            break;
        }
        default: {
            l21 = (uint64_t)((uint64_t)l3 + (uint64_t)UINT64_C(1));
            l22 = (uint8_t *)&(*(uint64_t *)l5.p);
            l23.p = l22;
            l23.n = l5.n;
            l10 = emit__exprs__make(l1, l2, l21, UINT64_C(16), l23, l6);
            break;
        }
    }
    l0.f0 = l10.f0;
    l0.f1 = l10.f1;
    return l0;
}

static inline struct emit__Put emit__stmts__update(rt_slice l1, rt_slice l2, uint64_t l3, rt_slice l4, uint64_t l5)
{
    struct emit__Put l0;
    uint64_t l6;
    struct emit__Put l7;
    struct emit__Put l9;
    uint8_t *l10;
    uint8_t l11;
    uint64_t l12;
    uint64_t l13;
    uint8_t *l14;
    rt_slice l15;
    uint8_t *l16;
    rt_slice l17;
    l10 = l1.p + (size_t)l3;
    l11 = (*(uint8_t *)l10);
    l6 = core__convert__UsizeFromU8__from(l11);
    l12 = (uint64_t)((uint64_t)l3 + (uint64_t)UINT64_C(1));
    l13 = (uint64_t)((uint64_t)l12 + (uint64_t)l6);
    l14 = (uint8_t *)&(*(uint64_t *)l4.p);
    l15.p = l14;
    l15.n = l4.n;
    l7 = emit__exprs__expr(l1, l2, l13, UINT64_C(16), l15, l5);
    l16 = (uint8_t *)&(*(uint64_t *)l4.p);
    l17.p = l16;
    l17.n = l4.n;
    l9 = emit__words__target(l1, l3, l17, l7.f1);
    l0.f0 = l7.f0;
    l0.f1 = l9.f1;
    return l0;
}

static inline struct emit__Put emit__stmts__when(rt_slice l1, rt_slice l2, uint64_t l3, uint64_t l4, rt_slice l5, uint64_t l6)
{
    struct emit__Put l0;
    struct emit__Put l7;
    uint8_t *l10;
    rt_slice l11;
    uint8_t *l12;
    rt_slice l13;
    l10 = (uint8_t *)&(*(uint64_t *)l5.p);
    l11.p = l10;
    l11.n = l5.n;
    l7 = emit__exprs__expr(l1, l2, l3, UINT64_C(16), l11, l6);
    l12 = (uint8_t *)&(*(uint64_t *)l5.p);
    l13.p = l12;
    l13.n = l5.n;
    l0 = emit__stmts__block(l1, l2, l7.f0, l4, l13, l7.f1);
    return l0;
}

static RT_SHORT struct emit__Put emit__words__add(rt_slice l1, struct emit__Put l2, uint64_t l3)
{
    struct emit__Put l0;
    uint8_t *l6;
    rt_slice l7;
    uint64_t l8;
    l6 = (uint8_t *)&(*(uint64_t *)l1.p);
    l7.p = l6;
    l7.n = l1.n;
    emit__words__store(l7, l2.f1, l3);
    l8 = (uint64_t)((uint64_t)l2.f1 + (uint64_t)UINT64_C(1));
    l0.f0 = l2.f0;
    l0.f1 = l8;
    return l0;
}

static RT_SHORT uint64_t emit__words__coded(struct commands__kind__Kind l1, uint64_t l2, uint64_t l3)
{
    uint64_t l0;
    uint64_t l4;
    uint64_t l5;
    uint64_t l6;
    uint64_t l7;
    l4 = commands__kind__U64FromKind__from(l1);
    l5 = (uint64_t)((uint64_t)UINT64_C(256) * (uint64_t)l2);
    l6 = (uint64_t)((uint64_t)l4 + (uint64_t)l5);
    l7 = (uint64_t)((uint64_t)UINT64_C(4294967296) * (uint64_t)l3);
    l0 = (uint64_t)((uint64_t)l6 + (uint64_t)l7);
    return l0;
}

static inline uint64_t emit__words__leaf(rt_slice l1, uint64_t l2)
{
    uint64_t l0;
    uint64_t l4;
    uint8_t *l6;
    uint8_t l7;
    uint8_t l8;
    uint64_t l9;
    struct commands__kind__Kind l10;
    uint64_t l11;
    uint8_t l12;
    uint64_t l13;
    uint8_t *l14;
    uint8_t l15;
    uint8_t l16;
    struct commands__kind__Kind l17;
    uint64_t l18;
    uint64_t l19;
    struct commands__kind__Kind l20;
    l6 = l1.p + (size_t)l2;
    l7 = (*(uint8_t *)l6);
    l8 = (uint8_t)(l7 < UINT8_C(21));
    if (l8) {
        l9 = (uint64_t)((uint64_t)l2 + (uint64_t)UINT64_C(1));
        l4 = little_endian__word_at(l1, l9);
        l10.tag = UINT8_C(0);
        l12 = (uint8_t)((uint32_t)l7 - (uint32_t)UINT8_C(19));
        l11 = core__convert__U64FromU8__from(l12);
        l0 = emit__words__coded(l10, l11, l4);
        return l0;
    }
    l8 = (uint8_t)(l7 < UINT8_C(23));
    if (l8) {
        l13 = (uint64_t)((uint64_t)l2 + (uint64_t)UINT64_C(1));
        l14 = l1.p + (size_t)l13;
        l15 = (*(uint8_t *)l14);
        l16 = (uint8_t)(l7 < UINT8_C(22));
        if (l16) {
            l17.tag = UINT8_C(0);
            l18 = core__convert__U64FromU8__from(UINT8_C(2));
            l19 = core__convert__U64FromU8__from(l15);
            l0 = emit__words__coded(l17, l18, l19);
            return l0;
        }
        l0 = emit__words__null_word(l15);
        return l0;
    }
    l20.tag = UINT8_C(1);
    l0 = emit__words__coded(l20, UINT64_C(0), UINT64_C(0));
    return l0;
}

static RT_SHORT uint64_t emit__words__leaf_size(uint8_t l1)
{
    uint64_t l0;
    uint8_t l2;
    l2 = (uint8_t)(l1 < UINT8_C(21));
    if (l2) {
        l0 = UINT64_C(5);
        return l0;
    }
    l2 = (uint8_t)(l1 < UINT8_C(23));
    if (l2) {
        l0 = UINT64_C(2);
        return l0;
    }
    l0 = UINT64_C(1);
    return l0;
}

static RT_SHORT uint64_t emit__words__null_word(uint8_t l1)
{
    uint64_t l0;
    uint32_t l2;
    struct commands__kind__Kind l3;
    uint64_t l4;
    uint64_t l5;
    l2 = types__default_word(l1);
    l3.tag = UINT8_C(0);
    l4 = core__convert__U64FromU8__from(l1);
    l5 = core__convert__U64FromU32__from(l2);
    l0 = emit__words__coded(l3, l4, l5);
    return l0;
}

static inline struct emit__Put emit__words__path(rt_slice l1, uint64_t l2, rt_slice l3, uint64_t l4)
{
    struct emit__Put l0;
    uint64_t l6;
    uint8_t *l7;
    uint8_t l8;
    struct commands__kind__Kind l9;
    uint8_t *l11;
    rt_slice l12;
    uint64_t l13;
    uint8_t *l14;
    rt_slice l15;
    uint64_t l16;
    l7 = l1.p + (size_t)l2;
    l8 = (*(uint8_t *)l7);
    l9.tag = UINT8_C(1);
    l6 = emit__words__coded(l9, UINT64_C(0), UINT64_C(0));
    l11 = (uint8_t *)&(*(uint64_t *)l3.p);
    l12.p = l11;
    l12.n = l3.n;
    emit__words__store(l12, l4, l6);
    l13 = (uint64_t)((uint64_t)l2 + (uint64_t)UINT64_C(1));
    l14 = (uint8_t *)&(*(uint64_t *)l3.p);
    l15.p = l14;
    l15.n = l3.n;
    l16 = (uint64_t)((uint64_t)l4 + (uint64_t)UINT64_C(1));
    l0 = emit__words__reads(l1, l13, l8, l15, l16);
    return l0;
}

static RT_HERE struct emit__Put emit__words__reads(rt_slice l1, uint64_t l2, uint8_t l3, rt_slice l4, uint64_t l5)
{
    struct emit__Put l0;
    uint8_t l6;
    uint64_t l7;
    uint64_t l8;
    uint8_t l9;
    struct commands__kind__Kind l10;
    uint64_t l11;
    uint64_t l12;
    uint8_t *l13;
    uint8_t l14;
    uint8_t *l16;
    rt_slice l17;
    uint64_t l18;
    uint64_t l19;
    uint64_t l20;
    uint64_t l21;
    l6 = UINT8_C(0);
    for (;;) {
        l9 = (uint8_t)(l6 < l3);
        if (l9) {
        } else {
            goto end1;
        }
        l7 = core__convert__UsizeFromU8__from(l6);
        l10.tag = UINT8_C(2);
        l12 = (uint64_t)((uint64_t)l2 + (uint64_t)l7);
        l13 = l1.p + (size_t)l12;
        l14 = (*(uint8_t *)l13);
        l11 = core__convert__U64FromU8__from(l14);
        l8 = emit__words__coded(l10, UINT64_C(0), l11);
        l16 = (uint8_t *)&(*(uint64_t *)l4.p);
        l17.p = l16;
        l17.n = l4.n;
        l12 = (uint64_t)((uint64_t)l5 + (uint64_t)l7);
        emit__words__store(l17, l12, l8);
        l6 = (uint8_t)((uint32_t)l6 + (uint32_t)UINT8_C(1));
    }
end1:;
    l18 = core__convert__UsizeFromU8__from(l3);
    l19 = (uint64_t)((uint64_t)l2 + (uint64_t)l18);
    l20 = core__convert__UsizeFromU8__from(l3);
    l21 = (uint64_t)((uint64_t)l5 + (uint64_t)l20);
    l0.f0 = l19;
    l0.f1 = l21;
    return l0;
}

static RT_SHORT void emit__words__store(rt_slice l1, uint64_t l2, uint64_t l3)
{
    uint64_t l4;
    uint8_t *l5;
    l4 = (uint64_t)((uint64_t)l2 * (uint64_t)UINT64_C(8));
    l5 = l1.p + (size_t)l4;
    (*(uint64_t *)l5) = l3;
    return;
}

static RT_HERE struct emit__Put emit__words__target(rt_slice l1, uint64_t l2, rt_slice l3, uint64_t l4)
{
    struct emit__Put l0;
    uint8_t l5;
    uint64_t l6;
    struct emit__Put l7;
    uint64_t l10;
    uint8_t *l11;
    uint8_t l12;
    struct commands__kind__Kind l13;
    uint8_t *l15;
    rt_slice l16;
    uint64_t l17;
    uint8_t *l18;
    rt_slice l19;
    uint64_t l20;
    uint64_t l21;
    uint8_t *l22;
    uint8_t *l23;
    rt_slice l24;
    l11 = l1.p + (size_t)l2;
    l12 = (*(uint8_t *)l11);
    l5 = l12;
    l13.tag = UINT8_C(1);
    l6 = emit__words__coded(l13, UINT64_C(0), UINT64_C(0));
    l15 = (uint8_t *)&(*(uint64_t *)l3.p);
    l16.p = l15;
    l16.n = l3.n;
    emit__words__store(l16, l4, l6);
    l17 = (uint64_t)((uint64_t)l2 + (uint64_t)UINT64_C(1));
    l12 = (uint8_t)((uint32_t)l5 - (uint32_t)UINT8_C(1));
    l18 = (uint8_t *)&(*(uint64_t *)l3.p);
    l19.p = l18;
    l19.n = l3.n;
    l20 = (uint64_t)((uint64_t)l4 + (uint64_t)UINT64_C(1));
    l7 = emit__words__reads(l1, l17, l12, l19, l20);
    l13.tag = UINT8_C(3);
    l22 = l1.p + (size_t)l7.f0;
    l12 = (*(uint8_t *)l22);
    l21 = core__convert__U64FromU8__from(l12);
    l10 = emit__words__coded(l13, UINT64_C(0), l21);
    l23 = (uint8_t *)&(*(uint64_t *)l3.p);
    l24.p = l23;
    l24.n = l3.n;
    emit__words__store(l24, l7.f1, l10);
    l20 = (uint64_t)((uint64_t)l7.f0 + (uint64_t)UINT64_C(1));
    l17 = (uint64_t)((uint64_t)l7.f1 + (uint64_t)UINT64_C(1));
    l0.f0 = l20;
    l0.f1 = l17;
    return l0;
}

static RT_HERE struct emit__Put emit_steps__of_struct(rt_slice l1, rt_slice l2, struct emit__Put l3, rt_slice l4)
{
    struct emit__Put l0;
    struct emit__Put l7;
    uint8_t l8;
    uint8_t *l9;
    uint8_t l10;
    uint64_t l11;
    uint8_t l12;
    uint8_t *l13;
    rt_slice l14;
    l9 = l1.p + (size_t)l3.f0;
    l10 = (*(uint8_t *)l9);
    l11 = (uint64_t)((uint64_t)l3.f0 + (uint64_t)UINT64_C(1));
    l7.f0 = l11;
    l7.f1 = l3.f1;
    l8 = UINT8_C(0);
    for (;;) {
        l12 = (uint8_t)(l8 < l10);
        if (l12) {
        } else {
            goto end1;
        }
        l13 = (uint8_t *)&(*(uint64_t *)l4.p);
        l14.p = l13;
        l14.n = l4.n;
        l7 = emit__steps__step(l1, l2, l7.f0, l14, l7.f1);
        l8 = (uint8_t)((uint32_t)l8 + (uint32_t)UINT8_C(1));
    }
end1:;
    l0.f0 = l7.f0;
    l0.f1 = l7.f1;
    return l0;
}

static inline void emit_steps__program(rt_slice l1, rt_slice l2, uint64_t l3, rt_slice l4)
{
    struct emit__Put l6;
    uint64_t l7;
    uint8_t l8;
    uint8_t *l9;
    rt_slice l10;
    l6.f0 = l3;
    l6.f1 = UINT64_C(0);
    l7 = UINT64_C(0);
    for (;;) {
        l8 = (uint8_t)(l7 < l2.n);
        if (l8) {
        } else {
            goto end1;
        }
        l9 = (uint8_t *)&(*(uint64_t *)l4.p);
        l10.p = l9;
        l10.n = l4.n;
        l6 = emit_steps__of_struct(l1, l2, l6, l10);
        l7 = (uint64_t)((uint64_t)l7 + (uint64_t)UINT64_C(1));
    }
end1:;
    return;
}

static RT_HERE struct engine__Machine engine__Machine__advance(struct engine__Machine l1, rt_slice l2, rt_slice l3, rt_slice l4)
{
    struct engine__Machine l0;
    struct layout__Numbers l5;
    struct layout__Numbers l6;
    uint8_t *l7;
    rt_slice l8;
    l5.f0 = l1.f0.f0;
    l5.f1 = l1.f0.f1;
    l5.f2 = l1.f0.f2;
    l5.f3 = l1.f0.f3;
    l5.f4 = l1.f0.f4;
    l5.f5 = l1.f0.f5;
    l5.f6 = l1.f0.f6;
    l7 = (uint8_t *)&(*(uint16_t *)l4.p);
    l8.p = l7;
    l8.n = l4.n;
    l6 = scheduler__schedule__advance(l5, l2, l3, l8);
    l1.f0.f0 = l6.f0;
    l1.f0.f1 = l6.f1;
    l1.f0.f2 = l6.f2;
    l1.f0.f3 = l6.f3;
    l1.f0.f4 = l6.f4;
    l1.f0.f5 = l6.f5;
    l1.f0.f6 = l6.f6;
    l0.f0.f0 = l1.f0.f0;
    l0.f0.f1 = l1.f0.f1;
    l0.f0.f2 = l1.f0.f2;
    l0.f0.f3 = l1.f0.f3;
    l0.f0.f4 = l1.f0.f4;
    l0.f0.f5 = l1.f0.f5;
    l0.f0.f6 = l1.f0.f6;
    return l0;
}

static inline struct engine__Machine engine__Machine__command(struct engine__Machine l1, rt_slice l2, rt_slice l3, rt_slice l4, rt_slice l5, uint64_t l6)
{
    struct engine__Machine l0;
    uint64_t l7;
    struct layout__Numbers l8;
    struct core__result__Result__Effect_Refusal l9;
    struct layout__Numbers l10;
    uint8_t *l11;
    rt_slice l12;
    uint8_t *l13;
    rt_slice l14;
    uint8_t *l15;
    rt_slice l16;
    uint64_t l17;
    uint8_t *l18;
    uint64_t l19;
    uint8_t *l20;
    rt_slice l21;
    struct layout__Numbers l22;
    l11 = (uint8_t *)&(*(uint16_t *)l4.p);
    l12.p = l11;
    l12.n = l4.n;
    l7 = layout__head(l12, l6, UINT64_C(2));
    l8.f0 = l1.f0.f0;
    l8.f1 = l1.f0.f1;
    l8.f2 = l1.f0.f2;
    l8.f3 = l1.f0.f3;
    l8.f4 = l1.f0.f4;
    l8.f5 = l1.f0.f5;
    l8.f6 = l1.f0.f6;
    l13 = (uint8_t *)&(*(uint16_t *)l4.p);
    l14.p = l13;
    l14.n = l4.n;
    l15 = (uint8_t *)&(*(uint64_t *)l5.p);
    l16.p = l15;
    l16.n = l5.n;
    l17 = (uint64_t)((uint64_t)l7 * (uint64_t)UINT64_C(8));
    l18 = l2.p + (size_t)l17;
    l19 = (*(uint64_t *)l18);
    l9 = execute__perform(l3, l14, l16, l6, l8.f0, l19);
    l10 = engine__after(l8, l9);
    l20 = (uint8_t *)&(*(uint16_t *)l4.p);
    l21.p = l20;
    l21.n = l4.n;
    l17 = engine__left_holding(l21, l6, l8.f5);
    l10.f5 = l17;
    l22 = engine__turned(l10, l6);
    l1.f0.f0 = l22.f0;
    l1.f0.f1 = l22.f1;
    l1.f0.f2 = l22.f2;
    l1.f0.f3 = l22.f3;
    l1.f0.f4 = l22.f4;
    l1.f0.f5 = l22.f5;
    l1.f0.f6 = l22.f6;
    l0.f0.f0 = l1.f0.f0;
    l0.f0.f1 = l1.f0.f1;
    l0.f0.f2 = l1.f0.f2;
    l0.f0.f3 = l1.f0.f3;
    l0.f0.f4 = l1.f0.f4;
    l0.f0.f5 = l1.f0.f5;
    l0.f0.f6 = l1.f0.f6;
    return l0;
}

static RT_HERE struct layout__Numbers engine__after(struct layout__Numbers l1, struct core__result__Result__Effect_Refusal l2)
{
    struct layout__Numbers l0;
    struct layout__Numbers l3;
    uint64_t l5;
    uint64_t l7;
    uint8_t l8;
    l3.f0 = l1.f0;
    l3.f1 = l1.f1;
    l3.f2 = l1.f2;
    l3.f3 = l1.f3;
    l3.f4 = l1.f4;
    l3.f5 = l1.f5;
    l3.f6 = l1.f6;
    switch (l2.tag) {
        case UINT8_C(0): {
            switch (l2.s0.tag) {
                case UINT8_C(0): {
                    break;
                }
                case UINT8_C(1): {
                    l7 = core__convert__others__UsizeFromBool__from(l2.s0.s0);
                    l5 = (uint64_t)((uint64_t)l1.f3 * (uint64_t)l7);
                    l3.f3 = l5;
                    break;
                }
                case UINT8_C(2): default: {
                    l3.f3 = UINT64_C(0);
                    l3.f0 = (uint64_t)((uint64_t)l1.f0 + (uint64_t)UINT64_C(1));
                    break;
                }
            }
            break;
        }
        case UINT8_C(1): default: {
            l8 = types__refusal__U8FromRefusal__from(l2.s1);
            l3.f4 = l8;
            break;
        }
    }
    l0.f0 = l3.f0;
    l0.f1 = l3.f1;
    l0.f2 = l3.f2;
    l0.f3 = l3.f3;
    l0.f4 = l3.f4;
    l0.f5 = l3.f5;
    l0.f6 = l3.f6;
    return l0;
}

static RT_SHORT uint64_t engine__left_holding(rt_slice l1, uint64_t l2, uint64_t l3)
{
    uint64_t l0;
    uint8_t l4;
    uint64_t l5;
    l4 = layout__holds(l1, l2);
    if (l4) {
        l5 = l3;
    } else {
        l5 = (uint64_t)((uint64_t)l3 - (uint64_t)UINT64_C(1));
    }
    l0 = l5;
    return l0;
}

static RT_HERE struct layout__Numbers engine__turned(struct layout__Numbers l1, uint64_t l2)
{
    struct layout__Numbers l0;
    struct layout__Numbers l3;
    uint8_t l4;
    l4 = (uint8_t)(l1.f4 != UINT8_C(0));
    if (l4) {
        l0.f0 = l1.f0;
        l0.f1 = l1.f1;
        l0.f2 = l1.f2;
        l0.f3 = l1.f3;
        l0.f4 = l1.f4;
        l0.f5 = l1.f5;
        l0.f6 = l1.f6;
        return l0;
    }
    l3.f0 = l1.f0;
    l3.f1 = l1.f1;
    l3.f2 = l1.f2;
    l3.f3 = l1.f3;
    l3.f4 = l1.f4;
    l3.f5 = l1.f5;
    l3.f6 = l1.f6;
    l3.f6 = (uint64_t)((uint64_t)l2 + (uint64_t)UINT64_C(1));
    l0.f0 = l3.f0;
    l0.f1 = l3.f1;
    l0.f2 = l3.f2;
    l0.f3 = l3.f3;
    l0.f4 = l3.f4;
    l0.f5 = l3.f5;
    l0.f6 = l3.f6;
    return l0;
}

static inline struct core__result__Result__Effect_Refusal execute__perform(rt_slice l1, rt_slice l2, rt_slice l3, uint64_t l4, uint64_t l5, uint64_t l6)
{
    struct core__result__Result__Effect_Refusal l0;
    struct execute_stack__Actor l7;
    uint64_t l8;
    uint64_t l9;
    uint8_t *l10;
    rt_slice l11;
    uint64_t l12;
    uint8_t *l13;
    rt_slice l14;
    uint64_t l15;
    struct core__result__Result__Effect_Refusal l16;
    struct execute_stack__Effect l17;
    uint8_t *l18;
    rt_slice l19;
    uint8_t *l20;
    rt_slice l21;
    struct execute_stack__Effect l22;
    uint8_t *l23;
    rt_slice l24;
    uint8_t *l25;
    rt_slice l26;
    struct execute_stack__Effect l27;
    uint8_t *l28;
    rt_slice l29;
    uint8_t *l30;
    rt_slice l31;
    struct execute_stack__Effect l33;
    uint8_t *l34;
    rt_slice l35;
    uint8_t *l36;
    rt_slice l37;
    uint8_t *l39;
    rt_slice l40;
    uint8_t *l41;
    rt_slice l42;
    struct execute_stack__Effect l44;
    uint8_t *l45;
    rt_slice l46;
    uint8_t *l47;
    rt_slice l48;
    struct execute_stack__Effect l50;
    uint8_t *l51;
    rt_slice l52;
    uint8_t *l53;
    rt_slice l54;
    uint8_t *l55;
    rt_slice l56;
    uint8_t *l57;
    rt_slice l58;
    uint8_t l59;
    l10 = (uint8_t *)&(*(uint16_t *)l2.p);
    l11.p = l10;
    l11.n = l2.n;
    l9 = layout__head(l11, l4, UINT64_C(1));
    l13 = (uint8_t *)&(*(uint16_t *)l2.p);
    l14.p = l13;
    l14.n = l2.n;
    l12 = layout__head(l14, l4, UINT64_C(2));
    l7.f0 = l4;
    l7.f1 = l9;
    l7.f2 = l12;
    l8 = layout__operand(l6);
    l15 = (uint64_t)((uint64_t)l6 % (uint64_t)UINT64_C(256));
    switch (l15) {
        case UINT64_C(1): {
            l18 = (uint8_t *)&(*(uint16_t *)l2.p);
            l19.p = l18;
            l19.n = l2.n;
            l20 = (uint8_t *)&(*(uint64_t *)l3.p);
            l21.p = l20;
            l21.n = l3.n;
            l17 = execute_stack__push(l19, l21, l7, l6);
            l16.tag = UINT8_C(0);
            l16.s0 = l17;
            break;
        }
        case UINT64_C(2): {
            l23 = (uint8_t *)&(*(uint16_t *)l2.p);
            l24.p = l23;
            l24.n = l2.n;
            l25 = (uint8_t *)&(*(uint64_t *)l3.p);
            l26.p = l25;
            l26.n = l3.n;
            l22 = execute_stack__push_this(l24, l26, l7);
            l16.tag = UINT8_C(0);
            l16.s0 = l22;
            break;
        }
        case UINT64_C(3): {
            l28 = (uint8_t *)&(*(uint16_t *)l2.p);
            l29.p = l28;
            l29.n = l2.n;
            l30 = (uint8_t *)&(*(uint64_t *)l3.p);
            l31.p = l30;
            l31.n = l3.n;
            l27 = execute_variables__read(l29, l31, l7, l8);
            l16.tag = UINT8_C(0);
            l16.s0 = l27;
            break;
        }
        case UINT64_C(4): {
            l34 = (uint8_t *)&(*(uint16_t *)l2.p);
            l35.p = l34;
            l35.n = l2.n;
            l36 = (uint8_t *)&(*(uint64_t *)l3.p);
            l37.p = l36;
            l37.n = l3.n;
            l33 = execute_variables__write(l1, l35, l37, l7, l8);
            l16.tag = UINT8_C(0);
            l16.s0 = l33;
            break;
        }
        case UINT64_C(5): {
            l39 = (uint8_t *)&(*(uint16_t *)l2.p);
            l40.p = l39;
            l40.n = l2.n;
            l41 = (uint8_t *)&(*(uint64_t *)l3.p);
            l42.p = l41;
            l42.n = l3.n;
            l16 = execute_construct__construct(l1, l40, l42, l7, l5, l8);
            break;
        }
        case UINT64_C(6): {
            l45 = (uint8_t *)&(*(uint16_t *)l2.p);
            l46.p = l45;
            l46.n = l2.n;
            l47 = (uint8_t *)&(*(uint64_t *)l3.p);
            l48.p = l47;
            l48.n = l3.n;
            l44 = execute_stack__branch(l46, l48, l7, l8);
            l16.tag = UINT8_C(0);
            l16.s0 = l44;
            break;
        }
        case UINT64_C(7): {
            l51 = (uint8_t *)&(*(uint16_t *)l2.p);
            l52.p = l51;
            l52.n = l2.n;
            l53 = (uint8_t *)&(*(uint64_t *)l3.p);
            l54.p = l53;
            l54.n = l3.n;
            l50 = execute_stack__negate(l52, l54, l7);
            l16.tag = UINT8_C(0);
            l16.s0 = l50;
            break;
        }
        default: {
            l55 = (uint8_t *)&(*(uint16_t *)l2.p);
            l56.p = l55;
            l56.n = l2.n;
            l57 = (uint8_t *)&(*(uint64_t *)l3.p);
            l58.p = l57;
            l58.n = l3.n;
            l59 = (uint8_t)l8;
            l16 = execute_operator__operate(l56, l58, l7, l59);
            break;
        }
    }
    l0 = l16;
    return l0;
}

static inline struct core__result__Result__Effect_Refusal execute_construct__construct(rt_slice l1, rt_slice l2, rt_slice l3, struct execute_stack__Actor l4, uint64_t l5, uint64_t l6)
{
    struct core__result__Result__Effect_Refusal l0;
    uint64_t l8;
    uint64_t l9;
    uint64_t l10;
    uint64_t l11;
    uint8_t l12;
    struct types__refusal__Refusal l13;
    uint8_t *l14;
    uint8_t l15;
    uint64_t l16;
    uint64_t l17;
    uint8_t *l19;
    rt_slice l20;
    struct core__iter__ranges__Range__u64 l21;
    uint8_t *l22;
    rt_slice l23;
    uint8_t l24;
    uint8_t *l26;
    rt_slice l27;
    uint8_t *l28;
    rt_slice l29;
    struct execute_stack__Effect l30;
    l12 = (uint8_t)(UINT64_C(256) <= l5);
    if (l12) {
        l13.tag = UINT8_C(25);
        l0.tag = UINT8_C(1);
        l0.s1 = l13;
        return l0;
    }
    l14 = l1.p + (size_t)l6;
    l15 = (*(uint8_t *)l14);
    l8 = (uint64_t)l15;
    l9 = (uint64_t)((uint64_t)l4.f1 - (uint64_t)l8);
    l16 = (uint64_t)((uint64_t)UINT64_C(32) * (uint64_t)l4.f0);
    l17 = (uint64_t)((uint64_t)l16 + (uint64_t)UINT64_C(16));
    l10 = (uint64_t)((uint64_t)l17 + (uint64_t)l9);
    l19 = (uint8_t *)&(*(uint64_t *)l3.p);
    l20.p = l19;
    l20.n = l3.n;
    l16 = (uint64_t)((uint64_t)l10 + (uint64_t)l8);
    l21.f0 = l10;
    l21.f1 = l16;
    l17 = (uint64_t)((uint64_t)UINT64_C(32) * (uint64_t)l5);
    std__slices__slice_T__copy_within__u64_Range_u64(l20, l21, l17);
    l22 = (uint8_t *)&(*(uint16_t *)l2.p);
    l23.p = l22;
    l23.n = l2.n;
    layout__seat(l23, l5, l6);
    l15 = (uint8_t)l6;
    l24 = (uint8_t)((uint32_t)UINT8_C(16) + (uint32_t)l15);
    l11 = layout__cell(l24, l5);
    l26 = (uint8_t *)&(*(uint16_t *)l2.p);
    l27.p = l26;
    l27.n = l2.n;
    l28 = (uint8_t *)&(*(uint64_t *)l3.p);
    l29.p = l28;
    l29.n = l3.n;
    l17 = (uint64_t)((uint64_t)l4.f2 + (uint64_t)UINT64_C(1));
    execute_stack__put(l27, l29, l4.f0, l9, l11, l17);
    l30.tag = UINT8_C(2);
    l0.tag = UINT8_C(0);
    l0.s0 = l30;
    return l0;
}

static inline struct core__result__Result__Effect_Refusal execute_operator__operate(rt_slice l1, rt_slice l2, struct execute_stack__Actor l3, uint8_t l4)
{
    struct core__result__Result__Effect_Refusal l0;
    uint64_t l7;
    uint64_t l8;
    uint8_t l9;
    struct core__result__Result__u32_OperatorError l10;
    uint64_t l12;
    uint64_t l14;
    uint64_t l15;
    uint64_t l16;
    uint64_t l17;
    uint64_t l18;
    uint8_t *l19;
    uint64_t l20;
    uint8_t *l21;
    uint32_t l22;
    uint64_t l23;
    uint32_t l24;
    struct core__result__Result__Effect_Refusal l25;
    uint8_t l26;
    uint64_t l27;
    uint8_t *l29;
    rt_slice l30;
    uint8_t *l31;
    rt_slice l32;
    uint64_t l33;
    uint64_t l34;
    struct execute_stack__Effect l35;
    struct core__result__Result__Effect_Refusal l36;
    struct types__refusal__Refusal l37;
    struct execute_stack__Effect l38;
    l14 = (uint64_t)((uint64_t)UINT64_C(32) * (uint64_t)l3.f0);
    l15 = (uint64_t)((uint64_t)l14 + (uint64_t)UINT64_C(16));
    l16 = (uint64_t)((uint64_t)l3.f1 - (uint64_t)UINT64_C(2));
    l17 = (uint64_t)((uint64_t)l15 + (uint64_t)l16);
    l18 = (uint64_t)((uint64_t)l17 * (uint64_t)UINT64_C(8));
    l19 = l2.p + (size_t)l18;
    l20 = (*(uint64_t *)l19);
    l7 = l20;
    l14 = (uint64_t)((uint64_t)UINT64_C(32) * (uint64_t)l3.f0);
    l15 = (uint64_t)((uint64_t)l14 + (uint64_t)UINT64_C(16));
    l18 = (uint64_t)((uint64_t)l3.f1 - (uint64_t)UINT64_C(1));
    l17 = (uint64_t)((uint64_t)l15 + (uint64_t)l18);
    l16 = (uint64_t)((uint64_t)l17 * (uint64_t)UINT64_C(8));
    l21 = l2.p + (size_t)l16;
    l20 = (*(uint64_t *)l21);
    l8 = l20;
    l9 = layout__type_byte(l7);
    l20 = layout__operand(l7);
    l22 = (uint32_t)l20;
    l23 = layout__operand(l8);
    l24 = (uint32_t)l23;
    l10 = arithmetic__apply_word(l4, l9, l22, l24);
    switch (l10.tag) {
        case UINT8_C(0): {
            l26 = execute_operator__result_byte(l4, l9);
            l27 = (uint64_t)l10.s0;
            l12 = layout__cell(l26, l27);
            l29 = (uint8_t *)&(*(uint16_t *)l1.p);
            l30.p = l29;
            l30.n = l1.n;
            l31 = (uint8_t *)&(*(uint64_t *)l2.p);
            l32.p = l31;
            l32.n = l2.n;
            l33 = (uint64_t)((uint64_t)l3.f1 - (uint64_t)UINT64_C(2));
            l34 = (uint64_t)((uint64_t)l3.f2 + (uint64_t)UINT64_C(1));
            execute_stack__put(l30, l32, l3.f0, l33, l12, l34);
            l35.tag = UINT8_C(0);
            l25.tag = UINT8_C(0);
            l25.s0 = l35;
            break;
        }
        case UINT8_C(1): default: {
            switch (l10.s1.tag) {
                case UINT8_C(0): {
                    l37.tag = UINT8_C(26);
                    l36.tag = UINT8_C(1);
                    l36.s1 = l37;
                    break;
                }
                case UINT8_C(1): default: {
                    l38.tag = UINT8_C(0);
                    l36.tag = UINT8_C(0);
                    l36.s0 = l38;
                    break;
                }
            }
            l25 = l36;
            break;
        }
    }
    l0 = l25;
    return l0;
}

static RT_SHORT uint8_t execute_operator__result_byte(uint8_t l1, uint8_t l2)
{
    uint8_t l0;
    uint8_t l3;
    uint8_t l4;
    l4 = (uint8_t)(l1 < UINT8_C(38));
    if (l4) {
        goto end2;
    }
    l4 = (uint8_t)(l1 < UINT8_C(43));
    if (l4) {
        l3 = l2;
        goto end1;
    }
    goto end2;
end2:;
    l3 = UINT8_C(2);
end1:;
    l0 = l3;
    return l0;
}

static inline struct execute_stack__Effect execute_stack__branch(rt_slice l1, rt_slice l2, struct execute_stack__Actor l3, uint64_t l4)
{
    struct execute_stack__Effect l0;
    uint64_t l6;
    uint64_t l7;
    uint64_t l8;
    uint64_t l9;
    uint64_t l10;
    uint64_t l11;
    uint8_t *l12;
    uint64_t l13;
    uint8_t l14;
    uint8_t *l16;
    rt_slice l17;
    uint64_t l18;
    uint64_t l19;
    uint8_t *l21;
    rt_slice l22;
    l6 = (uint64_t)((uint64_t)l3.f1 - (uint64_t)UINT64_C(1));
    l8 = (uint64_t)((uint64_t)UINT64_C(32) * (uint64_t)l3.f0);
    l9 = (uint64_t)((uint64_t)l8 + (uint64_t)UINT64_C(16));
    l10 = (uint64_t)((uint64_t)l9 + (uint64_t)l6);
    l11 = (uint64_t)((uint64_t)l10 * (uint64_t)UINT64_C(8));
    l12 = l2.p + (size_t)l11;
    l13 = (*(uint64_t *)l12);
    l7 = l13;
    l13 = layout__operand(l7);
    l14 = (uint8_t)(l13 == UINT64_C(0));
    if (l14) {
        l16 = (uint8_t *)&(*(uint16_t *)l1.p);
        l17.p = l16;
        l17.n = l1.n;
        l18 = (uint64_t)((uint64_t)l3.f2 + (uint64_t)UINT64_C(1));
        l19 = (uint64_t)((uint64_t)l18 + (uint64_t)l4);
        layout__go(l17, l3.f0, l6, l19);
        l0.tag = UINT8_C(0);
        return l0;
    }
    l21 = (uint8_t *)&(*(uint16_t *)l1.p);
    l22.p = l21;
    l22.n = l1.n;
    l8 = (uint64_t)((uint64_t)l3.f2 + (uint64_t)UINT64_C(1));
    layout__go(l22, l3.f0, l6, l8);
    l0.tag = UINT8_C(0);
    return l0;
}

static inline struct execute_stack__Effect execute_stack__negate(rt_slice l1, rt_slice l2, struct execute_stack__Actor l3)
{
    struct execute_stack__Effect l0;
    uint64_t l5;
    uint64_t l6;
    uint64_t l7;
    uint64_t l8;
    uint64_t l9;
    uint64_t l10;
    uint64_t l11;
    uint8_t *l12;
    uint64_t l13;
    uint64_t l14;
    uint8_t *l16;
    rt_slice l17;
    uint8_t *l18;
    rt_slice l19;
    l5 = (uint64_t)((uint64_t)l3.f1 - (uint64_t)UINT64_C(1));
    l8 = (uint64_t)((uint64_t)UINT64_C(32) * (uint64_t)l3.f0);
    l9 = (uint64_t)((uint64_t)l8 + (uint64_t)UINT64_C(16));
    l10 = (uint64_t)((uint64_t)l9 + (uint64_t)l5);
    l11 = (uint64_t)((uint64_t)l10 * (uint64_t)UINT64_C(8));
    l12 = l2.p + (size_t)l11;
    l13 = (*(uint64_t *)l12);
    l6 = l13;
    l13 = layout__operand(l6);
    l14 = (uint64_t)((uint64_t)UINT64_C(1) - (uint64_t)l13);
    l7 = layout__cell(UINT8_C(2), l14);
    l16 = (uint8_t *)&(*(uint16_t *)l1.p);
    l17.p = l16;
    l17.n = l1.n;
    l18 = (uint8_t *)&(*(uint64_t *)l2.p);
    l19.p = l18;
    l19.n = l2.n;
    l8 = (uint64_t)((uint64_t)l3.f2 + (uint64_t)UINT64_C(1));
    execute_stack__put(l17, l19, l3.f0, l5, l7, l8);
    l0.tag = UINT8_C(0);
    return l0;
}

static RT_SHORT struct execute_stack__Effect execute_stack__push(rt_slice l1, rt_slice l2, struct execute_stack__Actor l3, uint64_t l4)
{
    struct execute_stack__Effect l0;
    uint8_t *l6;
    rt_slice l7;
    uint8_t *l8;
    rt_slice l9;
    uint64_t l10;
    l6 = (uint8_t *)&(*(uint16_t *)l1.p);
    l7.p = l6;
    l7.n = l1.n;
    l8 = (uint8_t *)&(*(uint64_t *)l2.p);
    l9.p = l8;
    l9.n = l2.n;
    l10 = (uint64_t)((uint64_t)l3.f2 + (uint64_t)UINT64_C(1));
    execute_stack__put(l7, l9, l3.f0, l3.f1, l4, l10);
    l0.tag = UINT8_C(0);
    return l0;
}

static inline struct execute_stack__Effect execute_stack__push_this(rt_slice l1, rt_slice l2, struct execute_stack__Actor l3)
{
    struct execute_stack__Effect l0;
    uint64_t l5;
    uint64_t l6;
    uint8_t *l7;
    rt_slice l8;
    uint8_t l9;
    uint8_t l10;
    uint8_t *l13;
    rt_slice l14;
    uint8_t *l15;
    rt_slice l16;
    uint64_t l17;
    l7 = (uint8_t *)&(*(uint16_t *)l1.p);
    l8.p = l7;
    l8.n = l1.n;
    l5 = layout__head(l8, l3.f0, UINT64_C(0));
    l9 = (uint8_t)l5;
    l10 = (uint8_t)((uint32_t)UINT8_C(16) + (uint32_t)l9);
    l6 = layout__cell(l10, l3.f0);
    l13 = (uint8_t *)&(*(uint16_t *)l1.p);
    l14.p = l13;
    l14.n = l1.n;
    l15 = (uint8_t *)&(*(uint64_t *)l2.p);
    l16.p = l15;
    l16.n = l2.n;
    l17 = (uint64_t)((uint64_t)l3.f2 + (uint64_t)UINT64_C(1));
    execute_stack__put(l14, l16, l3.f0, l3.f1, l6, l17);
    l0.tag = UINT8_C(0);
    return l0;
}

static RT_SHORT void execute_stack__put(rt_slice l1, rt_slice l2, uint64_t l3, uint64_t l4, uint64_t l5, uint64_t l6)
{
    uint64_t l7;
    uint64_t l8;
    uint64_t l9;
    uint64_t l10;
    uint8_t *l11;
    uint8_t *l13;
    rt_slice l14;
    l7 = (uint64_t)((uint64_t)UINT64_C(32) * (uint64_t)l3);
    l8 = (uint64_t)((uint64_t)l7 + (uint64_t)UINT64_C(16));
    l9 = (uint64_t)((uint64_t)l8 + (uint64_t)l4);
    l10 = (uint64_t)((uint64_t)l9 * (uint64_t)UINT64_C(8));
    l11 = l2.p + (size_t)l10;
    (*(uint64_t *)l11) = l5;
    l13 = (uint8_t *)&(*(uint16_t *)l1.p);
    l14.p = l13;
    l14.n = l1.n;
    l7 = (uint64_t)((uint64_t)l4 + (uint64_t)UINT64_C(1));
    layout__go(l14, l3, l7, l6);
    return;
}

static inline struct execute_stack__Effect execute_variables__read(rt_slice l1, rt_slice l2, struct execute_stack__Actor l3, uint64_t l4)
{
    struct execute_stack__Effect l0;
    uint64_t l6;
    uint64_t l7;
    uint64_t l8;
    uint64_t l9;
    uint64_t l10;
    uint64_t l11;
    uint64_t l12;
    uint64_t l13;
    uint8_t *l14;
    uint64_t l15;
    uint8_t *l16;
    uint8_t *l18;
    rt_slice l19;
    uint8_t *l20;
    rt_slice l21;
    l6 = (uint64_t)((uint64_t)l3.f1 - (uint64_t)UINT64_C(1));
    l10 = (uint64_t)((uint64_t)UINT64_C(32) * (uint64_t)l3.f0);
    l11 = (uint64_t)((uint64_t)l10 + (uint64_t)UINT64_C(16));
    l12 = (uint64_t)((uint64_t)l11 + (uint64_t)l6);
    l13 = (uint64_t)((uint64_t)l12 * (uint64_t)UINT64_C(8));
    l14 = l2.p + (size_t)l13;
    l15 = (*(uint64_t *)l14);
    l7 = l15;
    l15 = layout__operand(l7);
    l8 = l15;
    l10 = (uint64_t)((uint64_t)UINT64_C(32) * (uint64_t)l8);
    l11 = (uint64_t)((uint64_t)l10 + (uint64_t)l4);
    l13 = (uint64_t)((uint64_t)l11 * (uint64_t)UINT64_C(8));
    l16 = l2.p + (size_t)l13;
    l15 = (*(uint64_t *)l16);
    l9 = l15;
    l18 = (uint8_t *)&(*(uint16_t *)l1.p);
    l19.p = l18;
    l19.n = l1.n;
    l20 = (uint8_t *)&(*(uint64_t *)l2.p);
    l21.p = l20;
    l21.n = l2.n;
    l12 = (uint64_t)((uint64_t)l3.f2 + (uint64_t)UINT64_C(1));
    execute_stack__put(l19, l21, l3.f0, l6, l9, l12);
    l0.tag = UINT8_C(0);
    return l0;
}

static RT_SHORT struct execute_stack__Effect execute_variables__replace(rt_slice l1, uint64_t l2, uint64_t l3)
{
    struct execute_stack__Effect l0;
    uint64_t l4;
    uint64_t l5;
    uint8_t *l6;
    uint64_t l7;
    uint8_t *l8;
    uint8_t l9;
    l5 = (uint64_t)((uint64_t)l2 * (uint64_t)UINT64_C(8));
    l6 = l1.p + (size_t)l5;
    l7 = (*(uint64_t *)l6);
    l4 = layout__operand(l7);
    l5 = (uint64_t)((uint64_t)l2 * (uint64_t)UINT64_C(8));
    l8 = l1.p + (size_t)l5;
    (*(uint64_t *)l8) = l3;
    l7 = layout__operand(l3);
    l9 = (uint8_t)(l4 == l7);
    l0.tag = UINT8_C(1);
    l0.s0 = l9;
    return l0;
}

static inline struct execute_stack__Effect execute_variables__write(rt_slice l1, rt_slice l2, rt_slice l3, struct execute_stack__Actor l4, uint64_t l5)
{
    struct execute_stack__Effect l0;
    uint64_t l8;
    uint64_t l9;
    uint64_t l10;
    uint64_t l11;
    uint64_t l12;
    uint64_t l13;
    uint64_t l14;
    uint64_t l15;
    uint64_t l16;
    uint8_t *l17;
    uint64_t l18;
    uint8_t *l19;
    uint8_t *l20;
    rt_slice l21;
    uint8_t *l23;
    rt_slice l24;
    uint8_t *l25;
    uint8_t l26;
    uint8_t l27;
    uint64_t l28;
    uint8_t l29;
    uint8_t *l30;
    rt_slice l31;
    uint64_t l32;
    uint8_t *l33;
    l12 = (uint64_t)((uint64_t)UINT64_C(32) * (uint64_t)l4.f0);
    l13 = (uint64_t)((uint64_t)l12 + (uint64_t)UINT64_C(16));
    l14 = (uint64_t)((uint64_t)l4.f1 - (uint64_t)UINT64_C(1));
    l15 = (uint64_t)((uint64_t)l13 + (uint64_t)l14);
    l16 = (uint64_t)((uint64_t)l15 * (uint64_t)UINT64_C(8));
    l17 = l3.p + (size_t)l16;
    l18 = (*(uint64_t *)l17);
    l8 = l18;
    l12 = (uint64_t)((uint64_t)UINT64_C(32) * (uint64_t)l4.f0);
    l13 = (uint64_t)((uint64_t)l12 + (uint64_t)UINT64_C(16));
    l16 = (uint64_t)((uint64_t)l4.f1 - (uint64_t)UINT64_C(2));
    l15 = (uint64_t)((uint64_t)l13 + (uint64_t)l16);
    l14 = (uint64_t)((uint64_t)l15 * (uint64_t)UINT64_C(8));
    l19 = l3.p + (size_t)l14;
    l18 = (*(uint64_t *)l19);
    l9 = l18;
    l18 = layout__operand(l8);
    l10 = l18;
    l20 = (uint8_t *)&(*(uint16_t *)l2.p);
    l21.p = l20;
    l21.n = l2.n;
    l11 = layout__head(l21, l10, UINT64_C(0));
    l23 = (uint8_t *)&(*(uint16_t *)l2.p);
    l24.p = l23;
    l24.n = l2.n;
    l12 = (uint64_t)((uint64_t)l4.f1 - (uint64_t)UINT64_C(2));
    l13 = (uint64_t)((uint64_t)l4.f2 + (uint64_t)UINT64_C(1));
    layout__go(l24, l4.f0, l12, l13);
    l25 = l1.p + (size_t)l11;
    l26 = (*(uint8_t *)l25);
    l14 = (uint64_t)l26;
    l27 = (uint8_t)(l5 < l14);
    if (l27) {
        l28 = l1.n;
        l29 = (uint8_t)(l10 < l28);
        if (l29) {
            l0.tag = UINT8_C(0);
            return l0;
        }
        l30 = (uint8_t *)&(*(uint64_t *)l3.p);
        l31.p = l30;
        l31.n = l3.n;
        l28 = (uint64_t)((uint64_t)UINT64_C(32) * (uint64_t)l10);
        l32 = (uint64_t)((uint64_t)l28 + (uint64_t)l5);
        l0 = execute_variables__replace(l31, l32, l9);
        return l0;
    }
    l13 = (uint64_t)((uint64_t)UINT64_C(32) * (uint64_t)l10);
    l16 = (uint64_t)((uint64_t)l13 + (uint64_t)l5);
    l15 = (uint64_t)((uint64_t)l16 * (uint64_t)UINT64_C(8));
    l33 = l3.p + (size_t)l15;
    (*(uint64_t *)l33) = l9;
    l0.tag = UINT8_C(1);
    l0.s0 = 1;
    return l0;
}

static inline uint64_t holders__holder(rt_slice l1, uint64_t l2, uint64_t l3, uint64_t l4)
{
    uint64_t l0;
    uint64_t l5;
    uint64_t l6;
    uint64_t l7;
    uint64_t l8;
    uint8_t l9;
    uint8_t *l10;
    l5 = l4;
    l6 = l3;
    l7 = UINT64_C(0);
    for (;;) {
        l9 = (uint8_t)(l7 < l2);
        if (l9) {
        } else {
            goto end1;
        }
        l9 = (uint8_t)(l2 <= l6);
        if (l9) {
            l6 = UINT64_C(0);
        }
        l10 = l1.p + (size_t)l6;
        l9 = (*(struct holders__Record *)l10).f0;
        l8 = core__convert__others__UsizeFromBool__from(l9);
        l9 = (uint8_t)(l5 < l8);
        if (l9) {
            l0 = l6;
            return l0;
        }
        l5 = (uint64_t)((uint64_t)l5 - (uint64_t)l8);
        l6 = (uint64_t)((uint64_t)l6 + (uint64_t)UINT64_C(1));
        l7 = (uint64_t)((uint64_t)l7 + (uint64_t)UINT64_C(1));
    }
end1:;
    l0 = l6;
    return l0;
}

static RT_SHORT uint64_t holders__holder_of(struct rt_array_holders__Record_256 l1, uint64_t l2, uint64_t l3, uint64_t l4)
{
    uint64_t l0;
    struct rt_array_holders__Record_256 l5;
    uint8_t *l6;
    rt_slice l7;
    l5 = l1;
    l6 = (uint8_t *)&l5;
    l7.p = l6;
    l7.n = UINT64_C(256);
    l0 = holders__holder(l7, l2, l3, l4);
    return l0;
}

static RT_HERE struct rt_array_holders__Record_256 holders__records(rt_slice l1, uint64_t l2)
{
    struct rt_array_holders__Record_256 l0;
    struct rt_array_holders__Record_256 l3;
    uint64_t l4;
    uint8_t l5;
    struct holders__Record l6;
    uint8_t l7;
    struct holders__Record l8;
    uint8_t *l9;
    uint8_t *l10;
    l6.f0 = 0;
    for (size_t i = 0; i < 256; i++) l3.a[i] = l6;
    l4 = UINT64_C(0);
    for (;;) {
        l7 = (uint8_t)(l4 < l2);
        if (l7) {
        } else {
            goto end1;
        }
        l5 = layout__holds(l1, l4);
        l8.f0 = l5;
        l9 = (uint8_t *)&l3;
        l10 = l9 + (size_t)l4;
        (*(struct holders__Record *)l10).f0 = l8.f0;
        l4 = (uint64_t)((uint64_t)l4 + (uint64_t)UINT64_C(1));
    }
end1:;
    l0 = l3;
    return l0;
}

static RT_HERE struct engine__Machine interpreter__moving__settle(struct engine__Machine l1, rt_slice l2, rt_slice l3, rt_slice l4)
{
    struct engine__Machine l0;
    struct engine__Machine l5;
    uint64_t l6;
    uint8_t l7;
    struct layout__Numbers l8;
    uint8_t l9;
    uint64_t l10;
    uint8_t *l11;
    uint64_t l12;
    uint8_t *l13;
    rt_slice l14;
    l5.f0.f0 = l1.f0.f0;
    l5.f0.f1 = l1.f0.f1;
    l5.f0.f2 = l1.f0.f2;
    l5.f0.f3 = l1.f0.f3;
    l5.f0.f4 = l1.f0.f4;
    l5.f0.f5 = l1.f0.f5;
    l5.f0.f6 = l1.f0.f6;
    for (;;) {
        l8.f0 = l5.f0.f0;
        l8.f1 = l5.f0.f1;
        l8.f2 = l5.f0.f2;
        l8.f3 = l5.f0.f3;
        l8.f4 = l5.f0.f4;
        l8.f5 = l5.f0.f5;
        l8.f6 = l5.f0.f6;
        l7 = layout__due(l8);
        l9 = (uint8_t)!l7;
        if (l9) {
        } else {
            goto end1;
        }
        l6 = l5.f0.f1;
        l10 = (uint64_t)((uint64_t)l6 * (uint64_t)UINT64_C(8));
        l11 = l2.p + (size_t)l10;
        l12 = (*(uint64_t *)l11);
        l7 = (uint8_t)(l12 == UINT64_C(1025));
        if (l7) {
            l0.f0.f0 = l5.f0.f0;
            l0.f0.f1 = l5.f0.f1;
            l0.f0.f2 = l5.f0.f2;
            l0.f0.f3 = l5.f0.f3;
            l0.f0.f4 = l5.f0.f4;
            l0.f0.f5 = l5.f0.f5;
            l0.f0.f6 = l5.f0.f6;
            return l0;
        }
        l13 = (uint8_t *)&(*(uint16_t *)l4.p);
        l14.p = l13;
        l14.n = l4.n;
        l5 = engine__Machine__advance(l5, l2, l3, l14);
    }
end1:;
    l0.f0.f0 = l5.f0.f0;
    l0.f0.f1 = l5.f0.f1;
    l0.f0.f2 = l5.f0.f2;
    l0.f0.f3 = l5.f0.f3;
    l0.f0.f4 = l5.f0.f4;
    l0.f0.f5 = l5.f0.f5;
    l0.f0.f6 = l5.f0.f6;
    return l0;
}

static RT_HERE struct interpreter__turns__Going interpreter__turns__going_at(struct engine__Machine l1, uint64_t l2, struct holders__Record l3, rt_slice l4)
{
    struct interpreter__turns__Going l0;
    uint64_t l5;
    uint8_t l6;
    uint8_t l8;
    uint64_t l9;
    uint8_t l10;
    uint8_t *l11;
    uint8_t l12;
    struct core__option__Option__u64 l13;
    l6 = layout__due(l1.f0);
    l8 = (uint8_t)!l6;
    if (l8) {
        {
            struct interpreter__turns__Going r = interpreter__turns__resting(l1, l2, l3, l1.f0.f4);
            l0.f0.f0.f0 = r.f0.f0.f0;
            l0.f0.f0.f1 = r.f0.f0.f1;
            l0.f0.f0.f2 = r.f0.f0.f2;
            l0.f0.f0.f3 = r.f0.f0.f3;
            l0.f0.f0.f4 = r.f0.f0.f4;
            l0.f0.f0.f5 = r.f0.f0.f5;
            l0.f0.f0.f6 = r.f0.f0.f6;
            l0.f1 = r.f1;
            l0.f2 = r.f2;
            l0.f3.tag = r.f3.tag;
            l0.f3.s0 = r.f3.s0;
            l0.f4.f0 = r.f4.f0;
        }
        return l0;
    }
    l9 = l4.n;
    l6 = (uint8_t)(l9 <= l2);
    if (l6) {
        l10 = UINT8_C(33);
        {
            struct interpreter__turns__Going r = interpreter__turns__resting(l1, l2, l3, l10);
            l0.f0.f0.f0 = r.f0.f0.f0;
            l0.f0.f0.f1 = r.f0.f0.f1;
            l0.f0.f0.f2 = r.f0.f0.f2;
            l0.f0.f0.f3 = r.f0.f0.f3;
            l0.f0.f0.f4 = r.f0.f0.f4;
            l0.f0.f0.f5 = r.f0.f0.f5;
            l0.f0.f0.f6 = r.f0.f0.f6;
            l0.f1 = r.f1;
            l0.f2 = r.f2;
            l0.f3.tag = r.f3.tag;
            l0.f3.s0 = r.f3.s0;
            l0.f4.f0 = r.f4.f0;
        }
        return l0;
    }
    l11 = l4.p + (size_t)l2;
    l12 = (*(uint8_t *)l11);
    l5 = core__convert__UsizeFromU8__from(l12);
    l9 = (uint64_t)((uint64_t)l5 % (uint64_t)l1.f0.f5);
    l13.tag = UINT8_C(1);
    l13.s0 = l9;
    l0.f0.f0.f0 = l1.f0.f0;
    l0.f0.f0.f1 = l1.f0.f1;
    l0.f0.f0.f2 = l1.f0.f2;
    l0.f0.f0.f3 = l1.f0.f3;
    l0.f0.f0.f4 = l1.f0.f4;
    l0.f0.f0.f5 = l1.f0.f5;
    l0.f0.f0.f6 = l1.f0.f6;
    l0.f1 = l2;
    l0.f2 = UINT8_C(0);
    l0.f3 = l13;
    l0.f4.f0 = l3.f0;
    return l0;
}

static RT_HERE struct interpreter__turns__Going interpreter__turns__resting(struct engine__Machine l1, uint64_t l2, struct holders__Record l3, uint8_t l4)
{
    struct interpreter__turns__Going l0;
    struct core__option__Option__u64 l5;
    l5.tag = UINT8_C(0);
    l0.f0.f0.f0 = l1.f0.f0;
    l0.f0.f0.f1 = l1.f0.f1;
    l0.f0.f0.f2 = l1.f0.f2;
    l0.f0.f0.f3 = l1.f0.f3;
    l0.f0.f0.f4 = l1.f0.f4;
    l0.f0.f0.f5 = l1.f0.f5;
    l0.f0.f0.f6 = l1.f0.f6;
    l0.f1 = l2;
    l0.f2 = l4;
    l0.f3 = l5;
    l0.f4.f0 = l3.f0;
    return l0;
}

static RT_HERE struct interpreter__turns__Ran interpreter__turns__run(struct engine__Machine l1, uint8_t *l2, rt_slice l3, rt_slice l4, rt_slice l5)
{
    struct interpreter__turns__Ran l0;
    struct holders__Record l6;
    struct engine__Machine l7;
    struct interpreter__turns__Going l8;
    struct rt_array_holders__Record_256 l9;
    struct engine__Machine l10;
    struct engine__Machine l11;
    struct engine__Machine l12;
    rt_slice l13;
    rt_slice l14;
    uint8_t *l15;
    rt_slice l16;
    struct interpreter__turns__Going l17;
    uint8_t l18;
    uint8_t *l19;
    uint8_t *l20;
    rt_slice l21;
    uint64_t l22;
    struct interpreter__turns__Going l23;
    struct interpreter__turns__Going l24;
    rt_slice l25;
    rt_slice l26;
    uint8_t *l27;
    rt_slice l28;
    uint8_t *l29;
    rt_slice l30;
    uint8_t l31;
    uint8_t l32;
    rt_slice l33;
    rt_slice l34;
    uint8_t *l35;
    rt_slice l36;
    struct interpreter__turns__Going l37;
    uint64_t l38;
    uint8_t l39;
    uint64_t l40;
    l6.f0 = 0;
    l13 = (*(struct interpreter__turns__Program *)l2).f2;
    l14 = (*(struct interpreter__turns__Program *)l2).f3;
    l15 = (uint8_t *)&(*(uint16_t *)l3.p);
    l16.p = l15;
    l16.n = l3.n;
    l7 = interpreter__moving__settle(l1, l13, l14, l16);
    l17 = interpreter__turns__going_at(l7, UINT64_C(0), l6, l5);
    l8.f0.f0.f0 = l17.f0.f0.f0;
    l8.f0.f0.f1 = l17.f0.f0.f1;
    l8.f0.f0.f2 = l17.f0.f0.f2;
    l8.f0.f0.f3 = l17.f0.f0.f3;
    l8.f0.f0.f4 = l17.f0.f0.f4;
    l8.f0.f0.f5 = l17.f0.f0.f5;
    l8.f0.f0.f6 = l17.f0.f0.f6;
    l8.f1 = l17.f1;
    l8.f2 = l17.f2;
    l8.f3 = l17.f3;
    l8.f4.f0 = l17.f4.f0;
    for (;;) {
        l19 = (uint8_t *)&l8.f3;
        l18 = core__option__Option__is_some__u64(l19);
        if (l18) {
        } else {
            goto end1;
        }
        l20 = (uint8_t *)&(*(uint16_t *)l3.p);
        l21.p = l20;
        l21.n = l3.n;
        l22 = l8.f0.f0.f0;
        l9 = holders__records(l21, l22);
        l24.f0.f0.f0 = l8.f0.f0.f0;
        l24.f0.f0.f1 = l8.f0.f0.f1;
        l24.f0.f0.f2 = l8.f0.f0.f2;
        l24.f0.f0.f3 = l8.f0.f0.f3;
        l24.f0.f0.f4 = l8.f0.f0.f4;
        l24.f0.f0.f5 = l8.f0.f0.f5;
        l24.f0.f0.f6 = l8.f0.f0.f6;
        l24.f1 = l8.f1;
        l24.f2 = l8.f2;
        l24.f3 = l8.f3;
        l24.f4.f0 = l8.f4.f0;
        l25 = (*(struct interpreter__turns__Program *)l2).f0;
        l26 = (*(struct interpreter__turns__Program *)l2).f1;
        l27 = (uint8_t *)&(*(uint16_t *)l3.p);
        l28.p = l27;
        l28.n = l3.n;
        l29 = (uint8_t *)&(*(uint64_t *)l4.p);
        l30.p = l29;
        l30.n = l4.n;
        l23 = interpreter__turns__take_turns(l24, l9, l25, l26, l28, l30, l5);
        l8.f0.f0.f0 = l23.f0.f0.f0;
        l8.f0.f0.f1 = l23.f0.f0.f1;
        l8.f0.f0.f2 = l23.f0.f0.f2;
        l8.f0.f0.f3 = l23.f0.f0.f3;
        l8.f0.f0.f4 = l23.f0.f0.f4;
        l8.f0.f0.f5 = l23.f0.f0.f5;
        l8.f0.f0.f6 = l23.f0.f0.f6;
        l8.f1 = l23.f1;
        l8.f2 = l23.f2;
        l8.f3 = l23.f3;
        l8.f4.f0 = l23.f4.f0;
        l31 = l8.f2;
        l32 = (uint8_t)(l31 == UINT8_C(0));
        if (l32) {
            l10.f0.f0 = l8.f0.f0.f0;
            l10.f0.f1 = l8.f0.f0.f1;
            l10.f0.f2 = l8.f0.f0.f2;
            l10.f0.f3 = l8.f0.f0.f3;
            l10.f0.f4 = l8.f0.f0.f4;
            l10.f0.f5 = l8.f0.f0.f5;
            l10.f0.f6 = l8.f0.f0.f6;
            l33 = (*(struct interpreter__turns__Program *)l2).f2;
            l34 = (*(struct interpreter__turns__Program *)l2).f3;
            l35 = (uint8_t *)&(*(uint16_t *)l3.p);
            l36.p = l35;
            l36.n = l3.n;
            l11 = interpreter__moving__settle(l10, l33, l34, l36);
            l38 = l8.f1;
            l37 = interpreter__turns__going_at(l11, l38, l6, l5);
            l8.f0.f0.f0 = l37.f0.f0.f0;
            l8.f0.f0.f1 = l37.f0.f0.f1;
            l8.f0.f0.f2 = l37.f0.f0.f2;
            l8.f0.f0.f3 = l37.f0.f0.f3;
            l8.f0.f0.f4 = l37.f0.f0.f4;
            l8.f0.f0.f5 = l37.f0.f0.f5;
            l8.f0.f0.f6 = l37.f0.f0.f6;
            l8.f1 = l37.f1;
            l8.f2 = l37.f2;
            l8.f3 = l37.f3;
            l8.f4.f0 = l37.f4.f0;
        }
    }
end1:;
    l12.f0.f0 = l8.f0.f0.f0;
    l12.f0.f1 = l8.f0.f0.f1;
    l12.f0.f2 = l8.f0.f0.f2;
    l12.f0.f3 = l8.f0.f0.f3;
    l12.f0.f4 = l8.f0.f0.f4;
    l12.f0.f5 = l8.f0.f0.f5;
    l12.f0.f6 = l8.f0.f0.f6;
    l39 = l8.f2;
    l40 = l8.f1;
    l0.f0.f0.f0 = l12.f0.f0;
    l0.f0.f0.f1 = l12.f0.f1;
    l0.f0.f0.f2 = l12.f0.f2;
    l0.f0.f0.f3 = l12.f0.f3;
    l0.f0.f0.f4 = l12.f0.f4;
    l0.f0.f0.f5 = l12.f0.f5;
    l0.f0.f0.f6 = l12.f0.f6;
    l0.f1 = l39;
    l0.f2 = l40;
    return l0;
}

static RT_HERE struct interpreter__turns__Going interpreter__turns__take_turns(struct interpreter__turns__Going l1, struct rt_array_holders__Record_256 l2, rt_slice l3, rt_slice l4, rt_slice l5, rt_slice l6, rt_slice l7)
{
    struct interpreter__turns__Going l0;
    struct interpreter__turns__Going l8;
    struct rt_array_holders__Record_256 l9;
    uint64_t l10;
    uint64_t l11;
    uint8_t *l12;
    rt_slice l13;
    uint8_t *l14;
    rt_slice l15;
    uint8_t *l16;
    rt_slice l17;
    struct holders__Record l18;
    uint8_t *l19;
    uint8_t *l20;
    l8.f0.f0.f0 = l1.f0.f0.f0;
    l8.f0.f0.f1 = l1.f0.f0.f1;
    l8.f0.f0.f2 = l1.f0.f0.f2;
    l8.f0.f0.f3 = l1.f0.f0.f3;
    l8.f0.f0.f4 = l1.f0.f0.f4;
    l8.f0.f0.f5 = l1.f0.f0.f5;
    l8.f0.f0.f6 = l1.f0.f0.f6;
    l8.f1 = l1.f1;
    l8.f2 = l1.f2;
    l8.f3 = l1.f3;
    l8.f4.f0 = l1.f4.f0;
    l9 = l2;
    for (;;) {
        switch (l8.f3.tag) {
            case UINT8_C(1): {
                l10 = l8.f3.s0;
                l12 = (uint8_t *)&l9;
                l13.p = l12;
                l13.n = UINT64_C(256);
                l11 = holders__holder(l13, l8.f0.f0.f0, l8.f0.f0.f6, l10);
                l14 = (uint8_t *)&(*(uint16_t *)l5.p);
                l15.p = l14;
                l15.n = l5.n;
                l16 = (uint8_t *)&(*(uint64_t *)l6.p);
                l17.p = l16;
                l17.n = l6.n;
                l8 = interpreter__turns__turn(l8, l11, l3, l4, l15, l17, l7);
                l18.f0 = l8.f4.f0;
                l19 = (uint8_t *)&l9;
                l20 = l19 + (size_t)l11;
                (*(struct holders__Record *)l20).f0 = l18.f0;
                break;
            }
            case UINT8_C(0): default: {
                goto end1;
                break;
            }
        }
    }
end1:;
    l0.f0.f0.f0 = l8.f0.f0.f0;
    l0.f0.f0.f1 = l8.f0.f0.f1;
    l0.f0.f0.f2 = l8.f0.f0.f2;
    l0.f0.f0.f3 = l8.f0.f0.f3;
    l0.f0.f0.f4 = l8.f0.f0.f4;
    l0.f0.f0.f5 = l8.f0.f0.f5;
    l0.f0.f0.f6 = l8.f0.f0.f6;
    l0.f1 = l8.f1;
    l0.f2 = l8.f2;
    l0.f3 = l8.f3;
    l0.f4.f0 = l8.f4.f0;
    return l0;
}

static RT_HERE struct interpreter__turns__Going interpreter__turns__turn(struct interpreter__turns__Going l1, uint64_t l2, rt_slice l3, rt_slice l4, rt_slice l5, rt_slice l6, rt_slice l7)
{
    struct interpreter__turns__Going l0;
    struct engine__Machine l9;
    uint8_t l11;
    uint8_t *l12;
    rt_slice l13;
    uint8_t *l14;
    rt_slice l15;
    uint8_t l16;
    uint8_t *l18;
    rt_slice l19;
    uint64_t l20;
    struct holders__Record l21;
    l12 = (uint8_t *)&(*(uint16_t *)l5.p);
    l13.p = l12;
    l13.n = l5.n;
    l14 = (uint8_t *)&(*(uint64_t *)l6.p);
    l15.p = l14;
    l15.n = l6.n;
    l9 = engine__Machine__command(l1.f0, l3, l4, l13, l15, l2);
    l16 = (uint8_t)(l9.f0.f4 != UINT8_C(0));
    if (l16) {
        {
            struct interpreter__turns__Going r = interpreter__turns__resting(l9, l1.f1, l1.f4, l9.f0.f4);
            l0.f0.f0.f0 = r.f0.f0.f0;
            l0.f0.f0.f1 = r.f0.f0.f1;
            l0.f0.f0.f2 = r.f0.f0.f2;
            l0.f0.f0.f3 = r.f0.f0.f3;
            l0.f0.f0.f4 = r.f0.f0.f4;
            l0.f0.f0.f5 = r.f0.f0.f5;
            l0.f0.f0.f6 = r.f0.f0.f6;
            l0.f1 = r.f1;
            l0.f2 = r.f2;
            l0.f3.tag = r.f3.tag;
            l0.f3.s0 = r.f3.s0;
            l0.f4.f0 = r.f4.f0;
        }
        return l0;
    }
    l18 = (uint8_t *)&(*(uint16_t *)l5.p);
    l19.p = l18;
    l19.n = l5.n;
    l11 = layout__holds(l19, l2);
    l20 = (uint64_t)((uint64_t)l1.f1 + (uint64_t)UINT64_C(1));
    l21.f0 = l11;
    {
        struct interpreter__turns__Going r = interpreter__turns__going_at(l9, l20, l21, l7);
        l0.f0.f0.f0 = r.f0.f0.f0;
        l0.f0.f0.f1 = r.f0.f0.f1;
        l0.f0.f0.f2 = r.f0.f0.f2;
        l0.f0.f0.f3 = r.f0.f0.f3;
        l0.f0.f0.f4 = r.f0.f0.f4;
        l0.f0.f0.f5 = r.f0.f0.f5;
        l0.f0.f0.f6 = r.f0.f0.f6;
        l0.f1 = r.f1;
        l0.f2 = r.f2;
        l0.f3.tag = r.f3.tag;
        l0.f3.s0 = r.f3.s0;
        l0.f4.f0 = r.f4.f0;
    }
    return l0;
}

static RT_SHORT uint8_t judging__digits__digit(uint64_t l1, uint8_t l2)
{
    uint8_t l0;
    uint64_t l3;
    uint64_t l4;
    uint64_t l5;
    l3 = judging__digits__power(l2);
    l4 = (uint64_t)((uint64_t)l1 / (uint64_t)l3);
    l5 = (uint64_t)((uint64_t)l4 % (uint64_t)UINT64_C(256));
    l0 = (uint8_t)l5;
    return l0;
}

static RT_SHORT uint64_t judging__digits__mark(uint64_t l1, uint8_t l2, uint8_t l3)
{
    uint64_t l0;
    uint8_t l4;
    uint8_t l5;
    uint64_t l6;
    uint64_t l7;
    uint64_t l8;
    l4 = judging__digits__digit(l1, l2);
    l5 = (uint8_t)(l4 == UINT8_C(0));
    if (l5) {
        l6 = (uint64_t)l3;
        l7 = judging__digits__power(l2);
        l8 = (uint64_t)((uint64_t)l6 * (uint64_t)l7);
        l0 = (uint64_t)((uint64_t)l1 + (uint64_t)l8);
        return l0;
    }
    l0 = l1;
    return l0;
}

static RT_SHORT uint64_t judging__digits__power(uint8_t l1)
{
    uint64_t l0;
    uint64_t l2;
    switch (l1) {
        case UINT8_C(0): {
            l2 = UINT64_C(1);
            break;
        }
        case UINT8_C(1): {
            l2 = UINT64_C(256);
            break;
        }
        case UINT8_C(2): {
            l2 = UINT64_C(65536);
            break;
        }
        case UINT8_C(3): {
            l2 = UINT64_C(16777216);
            break;
        }
        case UINT8_C(4): {
            l2 = UINT64_C(4294967296);
            break;
        }
        case UINT8_C(5): {
            l2 = UINT64_C(1099511627776);
            break;
        }
        case UINT8_C(6): {
            l2 = UINT64_C(281474976710656);
            break;
        }
        default: {
            l2 = UINT64_C(72057594037927936);
            break;
        }
    }
    l0 = l2;
    return l0;
}

static RT_SHORT struct judge__Facts judging__expression__appended(uint8_t l1, uint8_t l2, struct judge__Facts l3, struct judge__Facts l4)
{
    struct judge__Facts l0;
    uint8_t l5;
    uint8_t l6;
    uint64_t l7;
    uint64_t l8;
    uint64_t l9;
    uint64_t l10;
    uint8_t l11;
    l6 = (uint8_t)(l4.f3 == l2);
    l5 = judging__fault__demand(l4.f2, l6);
    l7 = (uint64_t)((uint64_t)l3.f0 + (uint64_t)l4.f0);
    l9 = core__convert__UsizeFromU8__from(l1);
    l10 = (uint64_t)((uint64_t)l9 + (uint64_t)l4.f1);
    l8 = core__int__usize__max(l3.f1, l10);
    l11 = judging__fault__worst(l3.f2, l5);
    l0.f0 = l7;
    l0.f1 = l8;
    l0.f2 = l11;
    l0.f3 = UINT8_C(0);
    return l0;
}

static RT_SHORT struct judge__Facts judging__expression__combined(uint8_t l1, struct judge__Facts l2, struct judge__Facts l3)
{
    struct judge__Facts l0;
    uint64_t l4;
    uint8_t l5;
    uint64_t l6;
    uint64_t l7;
    uint64_t l8;
    uint8_t l9;
    uint8_t l10;
    uint8_t l11;
    l4 = (uint64_t)((uint64_t)l3.f1 + (uint64_t)UINT64_C(1));
    l5 = judging__expression__takes(l1, l2.f3, l3.f3);
    l6 = (uint64_t)((uint64_t)l2.f0 + (uint64_t)l3.f0);
    l7 = (uint64_t)((uint64_t)l6 + (uint64_t)UINT64_C(1));
    l8 = core__int__usize__max(l2.f1, l4);
    l10 = judging__fault__worst(l2.f2, l3.f2);
    l9 = judging__fault__demand(l10, l5);
    l11 = judging__expression__gives(l1, l2.f3);
    l0.f0 = l7;
    l0.f1 = l8;
    l0.f2 = l9;
    l0.f3 = l11;
    return l0;
}

static RT_SHORT struct judge__Facts judging__expression__constructed(uint8_t l1, struct judge__Facts l2)
{
    struct judge__Facts l0;
    uint64_t l3;
    uint64_t l4;
    uint8_t l5;
    l3 = (uint64_t)((uint64_t)l2.f0 + (uint64_t)UINT64_C(1));
    l4 = core__int__usize__max(UINT64_C(1), l2.f1);
    l5 = (uint8_t)((uint32_t)UINT8_C(16) + (uint32_t)l1);
    l0.f0 = l3;
    l0.f1 = l4;
    l0.f2 = l2.f2;
    l0.f3 = l5;
    return l0;
}

static RT_SHORT uint8_t judging__expression__gives(uint8_t l1, uint8_t l2)
{
    uint8_t l0;
    uint8_t l3;
    uint8_t l4;
    l3 = (uint8_t)(UINT8_C(38) <= l1);
    if (l3) {
        l3 = (uint8_t)(l1 < UINT8_C(43));
        l4 = l3;
        if (l4) {
            l0 = l2;
            return l0;
            goto end1;
        }
    }
end1:;
    l0 = UINT8_C(2);
    return l0;
}

static RT_SHORT struct judge__Facts judging__expression__negated(struct judge__Facts l1)
{
    struct judge__Facts l0;
    uint64_t l2;
    uint8_t l3;
    uint8_t l4;
    l2 = (uint64_t)((uint64_t)l1.f0 + (uint64_t)UINT64_C(1));
    l4 = (uint8_t)(l1.f3 == UINT8_C(2));
    l3 = judging__fault__demand(l1.f2, l4);
    l0.f0 = l2;
    l0.f1 = l1.f1;
    l0.f2 = l3;
    l0.f3 = UINT8_C(2);
    return l0;
}

static RT_SHORT struct judge__Facts judging__expression__no_args(void)
{
    struct judge__Facts l0;
    l0.f0 = UINT64_C(0);
    l0.f1 = UINT64_C(0);
    l0.f2 = UINT8_C(0);
    l0.f3 = UINT8_C(0);
    return l0;
}

static RT_HERE struct judge__Facts judging__expression__pushed(uint8_t l1)
{
    struct judge__Facts l0;
    l0.f0 = UINT64_C(1);
    l0.f1 = UINT64_C(1);
    l0.f2 = UINT8_C(0);
    l0.f3 = l1;
    return l0;
}

static inline uint8_t judging__expression__takes(uint8_t l1, uint8_t l2, uint8_t l3)
{
    uint8_t l0;
    uint8_t l4;
    l4 = (uint8_t)(l2 != l3);
    if (l4) {
        l0 = 0;
        return l0;
    }
    l4 = (uint8_t)(l1 < UINT8_C(34));
    if (l4) {
        l0 = 1;
        return l0;
    }
    l4 = (uint8_t)(l1 < UINT8_C(43));
    if (l4) {
        l0 = (uint8_t)(l2 < UINT8_C(2));
        return l0;
    }
    l0 = (uint8_t)(l2 == UINT8_C(2));
    return l0;
}

static RT_HERE struct judge__Facts judging__expression__travelled(uint8_t l1, struct judge__Judged l2)
{
    struct judge__Facts l0;
    uint64_t l3;
    uint64_t l4;
    l3 = core__convert__UsizeFromU8__from(l1);
    l4 = (uint64_t)((uint64_t)l3 + (uint64_t)UINT64_C(1));
    l0.f0 = l4;
    l0.f1 = UINT64_C(1);
    l0.f2 = l2.f0;
    l0.f3 = l2.f1;
    return l0;
}

static inline uint8_t judging__fault__demand(uint8_t l1, uint8_t l2)
{
    uint8_t l0;
    uint8_t l3;
    uint8_t l4;
    struct types__refusal__Refusal l5;
    l3 = (uint8_t)(l1 != UINT8_C(0));
    if (l3) {
    } else {
        l3 = l2;
        l4 = l3;
        if (l4) {
        } else {
            goto end2;
        }
    }
    l0 = l1;
    return l0;
    goto end1;
end2:;
end1:;
    l5.tag = UINT8_C(7);
    l0 = types__refusal__U8FromRefusal__from(l5);
    return l0;
}

static RT_SHORT uint8_t judging__fault__named(uint8_t l1)
{
    uint8_t l0;
    struct types__refusal__Refusal l3;
    if (l1) {
        l0 = UINT8_C(0);
        return l0;
    }
    l3.tag = UINT8_C(6);
    l0 = types__refusal__U8FromRefusal__from(l3);
    return l0;
}

static RT_SHORT uint8_t judging__fault__worst(uint8_t l1, uint8_t l2)
{
    uint8_t l0;
    uint8_t l3;
    l3 = (uint8_t)(l1 == UINT8_C(0));
    if (l3) {
        l0 = l2;
        return l0;
    }
    l3 = (uint8_t)(l2 == UINT8_C(0));
    if (l3) {
        l0 = l1;
        return l0;
    }
    l0 = core__int__u8__min(l1, l2);
    return l0;
}

static inline struct judge__Judged judging__path__lead_by(rt_slice l1, rt_slice l2, struct judge__Judged l3, uint8_t l4)
{
    struct judge__Judged l0;
    uint8_t l5;
    uint8_t l6;
    uint8_t l7;
    struct types__refusal__Refusal l8;
    uint8_t l9;
    struct types__refusal__Refusal l10;
    l6 = (uint8_t)(l3.f0 != UINT8_C(0));
    if (l6) {
        l0.f0 = l3.f0;
        l0.f1 = l3.f1;
        return l0;
    }
    l6 = (uint8_t)(l3.f1 < UINT8_C(16));
    if (l6) {
        l8.tag = UINT8_C(7);
        l7 = types__refusal__U8FromRefusal__from(l8);
        l0.f0 = l7;
        l0.f1 = UINT8_C(0);
        return l0;
    }
    l5 = (uint8_t)((uint32_t)l3.f1 - (uint32_t)UINT8_C(16));
    l10.tag = UINT8_C(7);
    l9 = types__refusal__U8FromRefusal__from(l10);
    l0 = judging__path__param(l1, l2, l9, l5, l4);
    return l0;
}

static RT_SHORT struct judge__Judged judging__path__local(uint64_t l1, uint8_t l2)
{
    struct judge__Judged l0;
    uint8_t l3;
    uint8_t l4;
    uint8_t l5;
    struct types__refusal__Refusal l6;
    uint8_t l7;
    l3 = judging__digits__digit(l1, l2);
    l4 = (uint8_t)(l3 == UINT8_C(0));
    if (l4) {
        l6.tag = UINT8_C(6);
        l5 = types__refusal__U8FromRefusal__from(l6);
        l0.f0 = l5;
        l0.f1 = UINT8_C(0);
        return l0;
    }
    l7 = (uint8_t)((uint32_t)l3 - (uint32_t)UINT8_C(1));
    l0.f0 = UINT8_C(0);
    l0.f1 = l7;
    return l0;
}

static RT_SHORT uint8_t judging__path__look(rt_slice l1, uint64_t l2)
{
    uint8_t l0;
    struct core__option__Option__u8 l3;
    struct core__option__Option__ref_u8 l4;
    l4 = core__slice__slice_T__get__u8_u64_ref_u8(l1, l2);
    l3 = core__option__more__Option_ref_T__copied__u8(l4);
    l0 = core__option__Option__unwrap_or__u8(l3, UINT8_C(0));
    return l0;
}

static RT_SHORT struct judge__Judged judging__path__param(rt_slice l1, rt_slice l2, uint8_t l3, uint8_t l4, uint8_t l5)
{
    struct judge__Judged l0;
    uint8_t l6;
    uint64_t l7;
    uint8_t l8;
    uint8_t l9;
    l7 = (uint64_t)l4;
    l6 = judging__path__look(l1, l7);
    l8 = (uint8_t)(l5 < l6);
    if (l8) {
        l9 = judging__path__type_at(l2, l4, l5);
        l0.f0 = UINT8_C(0);
        l0.f1 = l9;
        return l0;
    }
    l0.f0 = l3;
    l0.f1 = UINT8_C(0);
    return l0;
}

static RT_SHORT struct judge__Judged judging__path__start(rt_slice l1, rt_slice l2, uint8_t l3, uint64_t l4, uint8_t l5)
{
    struct judge__Judged l0;
    uint8_t l6;
    uint8_t l7;
    struct types__refusal__Refusal l8;
    uint8_t l9;
    l6 = (uint8_t)(l5 < UINT8_C(8));
    if (l6) {
        l8.tag = UINT8_C(6);
        l7 = types__refusal__U8FromRefusal__from(l8);
        l0 = judging__path__param(l1, l2, l7, l3, l5);
        return l0;
    }
    l9 = (uint8_t)((uint32_t)l5 - (uint32_t)UINT8_C(8));
    l0 = judging__path__local(l4, l9);
    return l0;
}

static RT_SHORT uint8_t judging__path__type_at(rt_slice l1, uint8_t l2, uint8_t l3)
{
    uint8_t l0;
    uint64_t l4;
    uint64_t l5;
    uint64_t l6;
    uint64_t l7;
    l4 = (uint64_t)l2;
    l5 = (uint64_t)((uint64_t)UINT64_C(8) * (uint64_t)l4);
    l6 = (uint64_t)l3;
    l7 = (uint64_t)((uint64_t)l5 + (uint64_t)l6);
    l0 = judging__path__look(l1, l7);
    return l0;
}

static RT_SHORT struct judge__Done judging__statement__branched(struct judge__Scope l1, struct judge__Facts l2, struct judge__Done l3)
{
    struct judge__Done l0;
    uint8_t l4;
    struct judge__Scope l6;
    uint8_t l7;
    uint64_t l8;
    uint64_t l9;
    uint64_t l10;
    uint8_t l11;
    l7 = (uint8_t)(l2.f3 == UINT8_C(2));
    l4 = judging__fault__demand(l2.f2, l7);
    l6.f0 = l1.f0;
    l6.f1 = l3.f4.f1;
    l8 = (uint64_t)((uint64_t)l2.f0 + (uint64_t)l3.f0);
    l9 = (uint64_t)((uint64_t)l8 + (uint64_t)UINT64_C(1));
    l10 = core__int__usize__max(l2.f1, l3.f1);
    l11 = judging__fault__worst(l4, l3.f3);
    l0.f0 = l9;
    l0.f1 = l10;
    l0.f2 = l3.f2;
    l0.f3 = l11;
    l0.f4.f0 = l6.f0;
    l0.f4.f1 = l6.f1;
    return l0;
}

static RT_HERE struct judge__Done judging__statement__declared(struct judge__Scope l1, uint8_t l2, uint8_t l3, struct judge__Facts l4)
{
    struct judge__Done l0;
    uint8_t l5;
    uint8_t l6;
    struct judge__Scope l7;
    uint8_t l8;
    uint8_t l9;
    uint64_t l10;
    uint64_t l11;
    uint64_t l12;
    uint64_t l13;
    uint8_t l14;
    l8 = (uint8_t)(l4.f3 == l2);
    l5 = judging__fault__demand(l4.f2, l8);
    l9 = judging__digits__digit(l1.f1, l3);
    l6 = (uint8_t)(l9 == UINT8_C(0));
    l9 = (uint8_t)((uint32_t)l2 + (uint32_t)UINT8_C(1));
    l10 = judging__digits__mark(l1.f0, l3, l9);
    l11 = judging__digits__mark(l1.f1, l3, UINT8_C(1));
    l7.f0 = l10;
    l7.f1 = l11;
    l12 = (uint64_t)((uint64_t)l4.f0 + (uint64_t)UINT64_C(2));
    l13 = core__int__usize__max(l4.f1, UINT64_C(2));
    l14 = judging__fault__named(l6);
    l9 = judging__fault__worst(l5, l14);
    l0.f0 = l12;
    l0.f1 = l13;
    l0.f2 = UINT64_C(0);
    l0.f3 = l9;
    l0.f4.f0 = l7.f0;
    l0.f4.f1 = l7.f1;
    return l0;
}

static RT_SHORT struct judge__Done judging__statement__followed(struct judge__Done l1, struct judge__Done l2)
{
    struct judge__Done l0;
    uint64_t l4;
    uint64_t l5;
    uint64_t l6;
    uint64_t l7;
    uint8_t l8;
    l4 = (uint64_t)((uint64_t)l1.f0 + (uint64_t)l2.f0);
    l6 = (uint64_t)((uint64_t)l1.f2 + (uint64_t)l2.f1);
    l5 = core__int__usize__max(l1.f1, l6);
    l7 = (uint64_t)((uint64_t)l1.f2 + (uint64_t)l2.f2);
    l8 = judging__fault__worst(l1.f3, l2.f3);
    l0.f0 = l4;
    l0.f1 = l5;
    l0.f2 = l7;
    l0.f3 = l8;
    l0.f4.f0 = l2.f4.f0;
    l0.f4.f1 = l2.f4.f1;
    return l0;
}

static RT_SHORT struct judge__Done judging__statement__nothing(struct judge__Scope l1)
{
    struct judge__Done l0;
    l0.f0 = UINT64_C(0);
    l0.f1 = UINT64_C(0);
    l0.f2 = UINT64_C(0);
    l0.f3 = UINT8_C(0);
    l0.f4.f0 = l1.f0;
    l0.f4.f1 = l1.f1;
    return l0;
}

static RT_HERE struct judge__Done judging__statement__updated(struct judge__Scope l1, uint8_t l2, struct judge__Judged l3, struct judge__Facts l4)
{
    struct judge__Done l0;
    uint8_t l5;
    uint64_t l6;
    uint64_t l7;
    uint64_t l8;
    uint64_t l9;
    uint8_t l10;
    uint8_t l11;
    l5 = judging__fault__worst(l3.f0, l4.f2);
    l6 = core__convert__UsizeFromU8__from(l2);
    l7 = (uint64_t)((uint64_t)l4.f0 + (uint64_t)l6);
    l8 = (uint64_t)((uint64_t)l7 + (uint64_t)UINT64_C(1));
    l9 = core__int__usize__max(l4.f1, UINT64_C(2));
    l11 = (uint8_t)(l3.f1 == l4.f3);
    l10 = judging__fault__demand(l5, l11);
    l0.f0 = l8;
    l0.f1 = l9;
    l0.f2 = UINT64_C(0);
    l0.f3 = l10;
    l0.f4.f0 = l1.f0;
    l0.f4.f1 = l1.f1;
    return l0;
}

static inline void layout__begin(rt_slice l1, uint64_t l2, uint16_t l3, uint16_t l4)
{
    uint64_t l5;
    uint64_t l6;
    uint64_t l7;
    uint8_t *l8;
    uint8_t *l9;
    uint8_t *l10;
    l5 = (uint64_t)((uint64_t)UINT64_C(6) * (uint64_t)l2);
    l6 = (uint64_t)((uint64_t)l5 + (uint64_t)UINT64_C(1));
    l7 = (uint64_t)((uint64_t)l6 * (uint64_t)UINT64_C(2));
    l8 = l1.p + (size_t)l7;
    (*(uint16_t *)l8) = UINT16_C(0);
    l6 = (uint64_t)((uint64_t)l5 + (uint64_t)UINT64_C(2));
    l7 = (uint64_t)((uint64_t)l6 * (uint64_t)UINT64_C(2));
    l9 = l1.p + (size_t)l7;
    (*(uint16_t *)l9) = l3;
    l6 = (uint64_t)((uint64_t)l5 + (uint64_t)UINT64_C(3));
    l7 = (uint64_t)((uint64_t)l6 * (uint64_t)UINT64_C(2));
    l10 = l1.p + (size_t)l7;
    (*(uint16_t *)l10) = l4;
    return;
}

static RT_SHORT uint64_t layout__cell(uint8_t l1, uint64_t l2)
{
    uint64_t l0;
    uint64_t l3;
    uint64_t l4;
    uint64_t l5;
    uint64_t l6;
    l3 = (uint64_t)l1;
    l4 = (uint64_t)((uint64_t)UINT64_C(256) * (uint64_t)l3);
    l5 = (uint64_t)((uint64_t)UINT64_C(1) + (uint64_t)l4);
    l6 = (uint64_t)((uint64_t)UINT64_C(4294967296) * (uint64_t)l2);
    l0 = (uint64_t)((uint64_t)l5 + (uint64_t)l6);
    return l0;
}

static RT_SHORT uint8_t layout__due(struct layout__Numbers l1)
{
    uint8_t l0;
    l0 = (uint8_t)(UINT64_C(0) < l1.f5);
    return l0;
}

static RT_HERE struct layout__Numbers layout__fresh(uint64_t l1)
{
    struct layout__Numbers l0;
    l0.f0 = l1;
    l0.f1 = UINT64_C(0);
    l0.f2 = UINT64_C(0);
    l0.f3 = UINT64_C(0);
    l0.f4 = UINT8_C(0);
    l0.f5 = UINT64_C(0);
    l0.f6 = UINT64_C(0);
    return l0;
}

static inline void layout__go(rt_slice l1, uint64_t l2, uint64_t l3, uint64_t l4)
{
    uint16_t l5;
    uint64_t l6;
    uint64_t l7;
    uint64_t l8;
    uint8_t *l9;
    uint8_t *l10;
    l5 = (uint16_t)l3;
    l6 = (uint64_t)((uint64_t)UINT64_C(6) * (uint64_t)l2);
    l7 = (uint64_t)((uint64_t)l6 + (uint64_t)UINT64_C(1));
    l8 = (uint64_t)((uint64_t)l7 * (uint64_t)UINT64_C(2));
    l9 = l1.p + (size_t)l8;
    (*(uint16_t *)l9) = l5;
    l5 = (uint16_t)l4;
    l8 = (uint64_t)((uint64_t)UINT64_C(6) * (uint64_t)l2);
    l7 = (uint64_t)((uint64_t)l8 + (uint64_t)UINT64_C(2));
    l6 = (uint64_t)((uint64_t)l7 * (uint64_t)UINT64_C(2));
    l10 = l1.p + (size_t)l6;
    (*(uint16_t *)l10) = l5;
    return;
}

static RT_SHORT uint64_t layout__head(rt_slice l1, uint64_t l2, uint64_t l3)
{
    uint64_t l0;
    uint64_t l4;
    uint64_t l5;
    uint64_t l6;
    uint8_t *l7;
    uint16_t l8;
    l4 = (uint64_t)((uint64_t)UINT64_C(6) * (uint64_t)l2);
    l5 = (uint64_t)((uint64_t)l4 + (uint64_t)l3);
    l6 = (uint64_t)((uint64_t)l5 * (uint64_t)UINT64_C(2));
    l7 = l1.p + (size_t)l6;
    l8 = (*(uint16_t *)l7);
    l0 = (uint64_t)l8;
    return l0;
}

static RT_SHORT uint8_t layout__holds(rt_slice l1, uint64_t l2)
{
    uint8_t l0;
    uint64_t l3;
    uint64_t l4;
    uint64_t l5;
    uint8_t *l6;
    uint16_t l7;
    uint64_t l8;
    uint64_t l9;
    uint8_t *l10;
    uint16_t l11;
    l3 = (uint64_t)((uint64_t)UINT64_C(6) * (uint64_t)l2);
    l4 = (uint64_t)((uint64_t)l3 + (uint64_t)UINT64_C(2));
    l5 = (uint64_t)((uint64_t)l4 * (uint64_t)UINT64_C(2));
    l6 = l1.p + (size_t)l5;
    l7 = (*(uint16_t *)l6);
    l8 = (uint64_t)((uint64_t)l3 + (uint64_t)UINT64_C(3));
    l9 = (uint64_t)((uint64_t)l8 * (uint64_t)UINT64_C(2));
    l10 = l1.p + (size_t)l9;
    l11 = (*(uint16_t *)l10);
    l0 = (uint8_t)(l7 < l11);
    return l0;
}

static RT_SHORT uint64_t layout__operand(uint64_t l1)
{
    uint64_t l0;
    l0 = (uint64_t)((uint64_t)l1 / (uint64_t)UINT64_C(4294967296));
    return l0;
}

static inline void layout__seat(rt_slice l1, uint64_t l2, uint64_t l3)
{
    uint64_t l4;
    uint16_t l5;
    uint64_t l6;
    uint64_t l7;
    uint8_t *l8;
    uint8_t *l9;
    uint8_t *l10;
    uint8_t *l11;
    uint8_t *l12;
    uint8_t *l13;
    l4 = (uint64_t)((uint64_t)UINT64_C(6) * (uint64_t)l2);
    l5 = (uint16_t)l3;
    l6 = (uint64_t)((uint64_t)l4 + (uint64_t)UINT64_C(0));
    l7 = (uint64_t)((uint64_t)l6 * (uint64_t)UINT64_C(2));
    l8 = l1.p + (size_t)l7;
    (*(uint16_t *)l8) = l5;
    l6 = (uint64_t)((uint64_t)l4 + (uint64_t)UINT64_C(1));
    l7 = (uint64_t)((uint64_t)l6 * (uint64_t)UINT64_C(2));
    l9 = l1.p + (size_t)l7;
    (*(uint16_t *)l9) = UINT16_C(0);
    l6 = (uint64_t)((uint64_t)l4 + (uint64_t)UINT64_C(2));
    l7 = (uint64_t)((uint64_t)l6 * (uint64_t)UINT64_C(2));
    l10 = l1.p + (size_t)l7;
    (*(uint16_t *)l10) = UINT16_C(0);
    l6 = (uint64_t)((uint64_t)l4 + (uint64_t)UINT64_C(3));
    l7 = (uint64_t)((uint64_t)l6 * (uint64_t)UINT64_C(2));
    l11 = l1.p + (size_t)l7;
    (*(uint16_t *)l11) = UINT16_C(0);
    l6 = (uint64_t)((uint64_t)l4 + (uint64_t)UINT64_C(4));
    l7 = (uint64_t)((uint64_t)l6 * (uint64_t)UINT64_C(2));
    l12 = l1.p + (size_t)l7;
    (*(uint16_t *)l12) = UINT16_C(0);
    l6 = (uint64_t)((uint64_t)l4 + (uint64_t)UINT64_C(5));
    l7 = (uint64_t)((uint64_t)l6 * (uint64_t)UINT64_C(2));
    l13 = l1.p + (size_t)l7;
    (*(uint16_t *)l13) = UINT16_C(0);
    return;
}

static RT_SHORT uint8_t layout__type_byte(uint64_t l1)
{
    uint8_t l0;
    uint64_t l2;
    uint64_t l3;
    l2 = (uint64_t)((uint64_t)l1 / (uint64_t)UINT64_C(256));
    l3 = (uint64_t)((uint64_t)l2 % (uint64_t)UINT64_C(256));
    l0 = (uint8_t)l3;
    return l0;
}

static RT_SHORT struct core__option__Option__u8 lexer__alone(uint8_t l1)
{
    struct core__option__Option__u8 l0;
    uint8_t l2;
    uint8_t l3;
    switch (l1) {
        case UINT8_C(40): {
            l3 = UINT8_C(13);
            break;
        }
        case UINT8_C(41): {
            l3 = UINT8_C(14);
            break;
        }
        case UINT8_C(123): {
            l3 = UINT8_C(15);
            break;
        }
        case UINT8_C(125): {
            l3 = UINT8_C(16);
            break;
        }
        case UINT8_C(44): {
            l3 = UINT8_C(17);
            break;
        }
        case UINT8_C(59): {
            l3 = UINT8_C(19);
            break;
        }
        case UINT8_C(46): {
            l3 = UINT8_C(21);
            break;
        }
        case UINT8_C(61): {
            l3 = UINT8_C(23);
            break;
        }
        case UINT8_C(42): {
            l3 = UINT8_C(29);
            break;
        }
        case UINT8_C(37): {
            l3 = UINT8_C(31);
            break;
        }
        default: {
            l0.tag = UINT8_C(0);
            return l0;
            break;
        }
    }
    l2 = l3;
    l0.tag = UINT8_C(1);
    l0.s0 = l2;
    return l0;
}

static RT_SHORT uint8_t lexer__bytes__between(uint8_t l1, uint8_t l2, uint8_t l3)
{
    uint8_t l0;
    uint8_t l4;
    struct core__iter__ranges__RangeInclusive__u8 l5;
    struct core__iter__ranges__RangeInclusive__u8 l6;
    uint8_t *l7;
    uint8_t *l8;
    l4 = l3;
    l5 = core__iter__ranges__RangeInclusive__new__u8(l1, l2);
    l6.f0 = l5.f0;
    l6.f1 = l5.f1;
    l6.f2 = l5.f2;
    l7 = (uint8_t *)&l6;
    l8 = (uint8_t *)&l4;
    l0 = core__iter__ranges__RangeInclusive__contains__u8(l7, l8);
    return l0;
}

static RT_SHORT uint8_t lexer__bytes__byte(rt_slice l1, uint64_t l2)
{
    uint8_t l0;
    struct core__option__Option__u8 l3;
    struct core__option__Option__ref_u8 l4;
    l4 = core__slice__slice_T__get__u8_u64_ref_u8(l1, l2);
    l3 = core__option__more__Option_ref_T__copied__u8(l4);
    l0 = core__option__Option__unwrap_or__u8(l3, UINT8_C(0));
    return l0;
}

static const struct rt_array_uint8_2 lexer__bytes__close_place__l21 = { { UINT8_C(42), UINT8_C(47) } };
static const struct rt_array_uint8_2 lexer__bytes__close_place__l22 = { { UINT8_C(42), UINT8_C(47) } };
static RT_HERE struct core__option__Option__u64 lexer__bytes__close_place(rt_slice l1)
{
    struct core__option__Option__u64 l0;
    uint64_t l2;
    uint8_t l4;
    uint8_t l5;
    uint8_t *l6;
    uint8_t l7;
    uint8_t *l8;
    uint8_t *l9;
    uint8_t *l10;
    uint8_t l11;
    uint64_t l12;
    uint8_t *l13;
    uint8_t l14;
    uint8_t *l15;
    uint8_t *l16;
    uint8_t *l17;
    uint8_t l18;
    uint8_t l19;
    uint64_t l20;
    l2 = UINT64_C(1);
    for (;;) {
        l4 = (uint8_t)(l2 < l1.n);
        if (l4) {
        } else {
            goto end1;
        }
        l6 = l1.p + (size_t)l2;
        l7 = (*(uint8_t *)l6);
        l8 = (uint8_t *)&lexer__bytes__close_place__l21;
        l9 = (uint8_t *)&(*(struct rt_array_uint8_2 *)l8);
        l10 = l9 + (size_t)UINT64_C(1);
        l11 = (*(uint8_t *)l10);
        l5 = (uint8_t)(l7 == l11);
        if (l5) {
            l12 = (uint64_t)((uint64_t)l2 - (uint64_t)UINT64_C(1));
            l13 = l1.p + (size_t)l12;
            l14 = (*(uint8_t *)l13);
            l15 = (uint8_t *)&lexer__bytes__close_place__l22;
            l16 = (uint8_t *)&(*(struct rt_array_uint8_2 *)l15);
            l17 = l16 + (size_t)UINT64_C(0);
            l18 = (*(uint8_t *)l17);
            l5 = (uint8_t)(l14 == l18);
            l19 = l5;
            if (l19) {
                l20 = (uint64_t)((uint64_t)l2 - (uint64_t)UINT64_C(1));
                l0.tag = UINT8_C(1);
                l0.s0 = l20;
                return l0;
                goto end2;
            }
        }
    end2:;
        l2 = (uint64_t)((uint64_t)l2 + (uint64_t)UINT64_C(1));
    }
end1:;
    l0.tag = UINT8_C(0);
    return l0;
}

static RT_HERE struct core__option__Option__u64 lexer__bytes__closing(rt_slice l1)
{
    struct core__option__Option__u64 l0;
    struct core__ops__ControlFlow__NoValue_u64 l5;
    struct core__option__Option__u64 l6;
    uint64_t l10;
    l6 = lexer__bytes__close_place(l1);
    l5 = core__option__OptionTry__branch__u64(l6);
    switch (l5.tag) {
        case UINT8_C(0): {
            break;
        }
        case UINT8_C(1): default: {
            l0 = core__option__OptionFromResidualNoValue__from_residual__u64(l5.s1);
            return l0;
            break;
        }
    }
    l10 = (uint64_t)((uint64_t)l5.s0 + (uint64_t)UINT64_C(2));
    l0.tag = UINT8_C(1);
    l0.s0 = l10;
    return l0;
}

static RT_SHORT uint64_t lexer__bytes__digits(rt_slice l1)
{
    uint64_t l0;
    struct core__iter__closures__TakeWhile__Iter_u8_digits_take_while_Self l2;
    struct core__iter__slices__Iter__u8 l3;
    struct lexer__bytes__fn__digits__take_while_Self l4;
    l3 = core__iter__slices__slice_T__iter__u8(l1);
    l4.none = 0;
    l2 = core__iter__base__Iterator__take_while__Iter_u8_ref_u8_de663524(l3, l4);
    l0 = core__iter__base__Iterator__count__TakeWhile_Iter_u8_d_9e11d280(l2);
    return l0;
}

static RT_WITHIN uint8_t lexer__bytes__fn__digits__take_while(uint8_t *l1, uint8_t *l2)
{
    uint8_t l0;
    uint8_t l3;
    (void)l1;
    l3 = (*(uint8_t *)(*(uint8_t * *)l2));
    l0 = lexer__bytes__is_digit(l3);
    return l0;
}

static RT_WITHIN uint8_t lexer__bytes__fn__digits__take_while_FnMut__call_mut(uint8_t *l1, uint8_t *l2)
{
    uint8_t l0;
    uint8_t *l3;
    l3 = (uint8_t *)&(*(struct lexer__bytes__fn__digits__take_while_Self *)l1);
    l0 = lexer__bytes__fn__digits__take_while(l3, l2);
    return l0;
}

static RT_WITHIN uint8_t lexer__bytes__fn__names__take_while(uint8_t *l1, uint8_t *l2)
{
    uint8_t l0;
    uint8_t l3;
    (void)l1;
    l3 = (*(uint8_t *)(*(uint8_t * *)l2));
    l0 = lexer__bytes__is_name_byte(l3);
    return l0;
}

static RT_WITHIN uint8_t lexer__bytes__fn__names__take_while_FnMut__call_mut(uint8_t *l1, uint8_t *l2)
{
    uint8_t l0;
    uint8_t *l3;
    l3 = (uint8_t *)&(*(struct lexer__bytes__fn__names__take_while_Self *)l1);
    l0 = lexer__bytes__fn__names__take_while(l3, l2);
    return l0;
}

static inline uint8_t lexer__bytes__is_blank(uint8_t l1)
{
    uint8_t l0;
    uint8_t l2;
    uint8_t l3;
    switch (l1) {
        case UINT8_C(13): case UINT8_C(32): {
            goto end2;
            break;
        }
        default: {
            l3 = (uint8_t)(l1 < UINT8_C(9));
            if (l3) {
                goto end3;
            }
            l3 = (uint8_t)(l1 < UINT8_C(11));
            if (l3) {
                goto end2;
            }
            goto end3;
        end3:;
            l2 = 0;
            goto end1;
            break;
        }
    }
end2:;
    l2 = 1;
end1:;
    l0 = l2;
    return l0;
}

static RT_SHORT uint8_t lexer__bytes__is_digit(uint8_t l1)
{
    uint8_t l0;
    uint8_t l2;
    uint8_t *l3;
    l2 = l1;
    l3 = (uint8_t *)&l2;
    l0 = core__char__bytes__is_ascii_digit(l3);
    return l0;
}

static RT_SHORT uint8_t lexer__bytes__is_letter(uint8_t l1)
{
    uint8_t l0;
    uint8_t l2;
    uint8_t *l3;
    l2 = l1;
    l3 = (uint8_t *)&l2;
    l0 = core__char__bytes__is_ascii_alphabetic(l3);
    return l0;
}

static RT_SHORT uint8_t lexer__bytes__is_name_byte(uint8_t l1)
{
    uint8_t l0;
    uint8_t l2;
    uint8_t l3;
    uint8_t *l4;
    uint8_t l5;
    l2 = l1;
    l4 = (uint8_t *)&l2;
    l3 = core__char__bytes__is_ascii_alphanumeric(l4);
    if (l3) {
    } else {
        l5 = l2;
        l3 = (uint8_t)(l5 == UINT8_C(95));
    }
    l0 = l3;
    return l0;
}

static RT_SHORT uint64_t lexer__bytes__names(rt_slice l1)
{
    uint64_t l0;
    struct core__iter__closures__TakeWhile__Iter_u8_names_take_while_Self l2;
    struct core__iter__slices__Iter__u8 l3;
    struct lexer__bytes__fn__names__take_while_Self l4;
    l3 = core__iter__slices__slice_T__iter__u8(l1);
    l4.none = 0;
    l2 = core__iter__base__Iterator__take_while__Iter_u8_ref_u8_a9fc4690(l3, l4);
    l0 = core__iter__base__Iterator__count__TakeWhile_Iter_u8_n_4eee487b(l2);
    return l0;
}

static RT_SHORT uint8_t lexer__bytes__opens(uint8_t l1, uint8_t l2)
{
    uint8_t l0;
    uint8_t l3;
    l3 = (uint8_t)(l1 == UINT8_C(47));
    if (l3) {
        l3 = (uint8_t)(l2 == UINT8_C(42));
    }
    l0 = l3;
    return l0;
}

static RT_SHORT uint8_t lexer__bytes__signed(uint8_t l1, uint8_t l2)
{
    uint8_t l0;
    uint8_t l3;
    uint8_t l4;
    l4 = (uint8_t)(l1 == UINT8_C(43));
    if (l4) {
    } else {
        l4 = (uint8_t)(l1 == UINT8_C(45));
    }
    l3 = l4;
    if (l3) {
        l3 = lexer__bytes__is_digit(l2);
    }
    l0 = l3;
    return l0;
}

static RT_WITHIN struct rt_tuple2__u8_u64 lexer__fn__followed__map(struct lexer__fn__followed__map_Self l1, uint8_t l2)
{
    struct rt_tuple2__u8_u64 l0;
    (void)l1;
    l0.f0 = l2;
    l0.f1 = UINT64_C(0);
    return l0;
}

static RT_WITHIN struct rt_tuple2__u8_u64 lexer__fn__followed__map_FnOnce__call_once(struct lexer__fn__followed__map_Self l1, uint8_t l2)
{
    struct rt_tuple2__u8_u64 l0;
    l0 = lexer__fn__followed__map(l1, l2);
    return l0;
}

static RT_HERE struct core__option__Option__rt_tuple2_u8_u64 lexer__followed(uint8_t l1, uint8_t l2, uint8_t l3, struct core__option__Option__u8 l4)
{
    struct core__option__Option__rt_tuple2_u8_u64 l0;
    uint8_t l5;
    struct core__option__Option__rt_tuple2_u8_u64 l6;
    struct rt_tuple2__u8_u64 l7;
    struct lexer__fn__followed__map_Self l8;
    l5 = (uint8_t)(l1 == l2);
    if (l5) {
        l7.f0 = l3;
        l7.f1 = UINT64_C(1);
        l6.tag = UINT8_C(1);
        l6.s0.f0 = l7.f0;
        l6.s0.f1 = l7.f1;
    } else {
        l8.none = 0;
        l6 = core__option__Option__map__u8_rt_tuple2_u8_u64_map_Self(l4, l8);
    }
    l0 = l6;
    return l0;
}

static inline uint64_t lexer__gaps__back_within(rt_slice l1, uint64_t l2, uint64_t l3)
{
    uint64_t l0;
    uint64_t l4;
    uint8_t l5;
    uint8_t *l6;
    uint8_t l7;
    l4 = l3;
    for (;;) {
        l5 = (uint8_t)(l2 < l4);
        if (l5) {
        } else {
            goto end1;
        }
        l4 = (uint64_t)((uint64_t)l4 - (uint64_t)UINT64_C(1));
        l6 = l1.p + (size_t)l4;
        l7 = (*(uint8_t *)l6);
        l5 = (uint8_t)(l7 != UINT8_C(0));
        if (l5) {
            l0 = (uint64_t)((uint64_t)l4 + (uint64_t)UINT64_C(1));
            return l0;
        }
    }
end1:;
    l0 = l2;
    return l0;
}

static inline uint64_t lexer__gaps__beyond(rt_slice l1, uint64_t l2)
{
    uint64_t l0;
    uint64_t l3;
    uint64_t l4;
    uint64_t l5;
    uint8_t l6;
    uint8_t *l8;
    uint8_t l9;
    l4 = l1.n;
    l5 = (uint64_t)((uint64_t)l4 - (uint64_t)l2);
    l6 = (uint8_t)(l5 <= UINT64_C(8));
    if (l6) {
        l0 = lexer__gaps__within(l1, l2, l1.n);
        return l0;
    }
    l4 = (uint64_t)((uint64_t)l2 + (uint64_t)UINT64_C(8));
    l3 = lexer__gaps__within(l1, l2, l4);
    l8 = l1.p + (size_t)l3;
    l9 = (*(uint8_t *)l8);
    l6 = (uint8_t)(l9 != UINT8_C(0));
    if (l6) {
        l0 = l3;
        return l0;
    }
    l5 = lexer__gaps__eights(l1, l3);
    l4 = l1.n;
    l0 = lexer__gaps__within(l1, l5, l4);
    return l0;
}

static RT_SHORT uint8_t lexer__gaps__eight(rt_slice l1, uint64_t l2)
{
    uint8_t l0;
    uint8_t l3;
    uint8_t l4;
    uint64_t l5;
    uint8_t l6;
    l3 = lexer__gaps__four(l1, l2);
    l5 = (uint64_t)((uint64_t)l2 + (uint64_t)UINT64_C(4));
    l4 = lexer__gaps__four(l1, l5);
    l6 = (uint8_t)((uint32_t)l3 | (uint32_t)l4);
    l0 = (uint8_t)(l6 == UINT8_C(0));
    return l0;
}

static inline uint64_t lexer__gaps__eights(rt_slice l1, uint64_t l2)
{
    uint64_t l0;
    uint64_t l3;
    uint64_t l4;
    uint64_t l5;
    uint64_t l6;
    uint64_t l7;
    uint8_t l8;
    uint64_t l9;
    uint8_t l10;
    l6 = l1.n;
    l7 = (uint64_t)((uint64_t)l6 - (uint64_t)l2);
    l3 = (uint64_t)((uint64_t)l7 / (uint64_t)UINT64_C(8));
    l4 = UINT64_C(0);
    for (;;) {
        l8 = (uint8_t)(l4 < l3);
        if (l8) {
        } else {
            goto end1;
        }
        l9 = (uint64_t)((uint64_t)l4 * (uint64_t)UINT64_C(8));
        l5 = (uint64_t)((uint64_t)l2 + (uint64_t)l9);
        l8 = lexer__gaps__eight(l1, l5);
        l10 = (uint8_t)!l8;
        if (l10) {
            l0 = l5;
            return l0;
        }
        l4 = (uint64_t)((uint64_t)l4 + (uint64_t)UINT64_C(1));
    }
end1:;
    l6 = (uint64_t)((uint64_t)l3 * (uint64_t)UINT64_C(8));
    l0 = (uint64_t)((uint64_t)l2 + (uint64_t)l6);
    return l0;
}

static inline uint64_t lexer__gaps__eights_back(rt_slice l1, uint64_t l2)
{
    uint64_t l0;
    uint64_t l3;
    uint64_t l4;
    uint64_t l5;
    uint8_t l6;
    uint64_t l7;
    uint8_t l8;
    l3 = UINT64_C(0);
    l5 = (uint64_t)((uint64_t)l2 / (uint64_t)UINT64_C(8));
    for (;;) {
        l6 = (uint8_t)(l3 < l5);
        if (l6) {
        } else {
            goto end1;
        }
        l7 = (uint64_t)((uint64_t)l3 * (uint64_t)UINT64_C(8));
        l4 = (uint64_t)((uint64_t)l2 - (uint64_t)l7);
        l7 = (uint64_t)((uint64_t)l4 - (uint64_t)UINT64_C(8));
        l6 = lexer__gaps__eight(l1, l7);
        l8 = (uint8_t)!l6;
        if (l8) {
            l0 = l4;
            return l0;
        }
        l3 = (uint64_t)((uint64_t)l3 + (uint64_t)UINT64_C(1));
    }
end1:;
    l0 = (uint64_t)((uint64_t)l2 % (uint64_t)UINT64_C(8));
    return l0;
}

static RT_SHORT uint64_t lexer__gaps__first(rt_slice l1)
{
    uint64_t l0;
    l0 = lexer__gaps__beyond(l1, UINT64_C(0));
    return l0;
}

static inline uint8_t lexer__gaps__four(rt_slice l1, uint64_t l2)
{
    uint8_t l0;
    uint8_t *l3;
    uint8_t l4;
    uint64_t l5;
    uint8_t *l6;
    uint8_t l7;
    uint8_t l8;
    uint64_t l9;
    uint8_t *l10;
    uint8_t l11;
    uint8_t l12;
    uint64_t l13;
    uint8_t *l14;
    uint8_t l15;
    l3 = l1.p + (size_t)l2;
    l4 = (*(uint8_t *)l3);
    l5 = (uint64_t)((uint64_t)l2 + (uint64_t)UINT64_C(1));
    l6 = l1.p + (size_t)l5;
    l7 = (*(uint8_t *)l6);
    l8 = (uint8_t)((uint32_t)l4 | (uint32_t)l7);
    l9 = (uint64_t)((uint64_t)l2 + (uint64_t)UINT64_C(2));
    l10 = l1.p + (size_t)l9;
    l11 = (*(uint8_t *)l10);
    l12 = (uint8_t)((uint32_t)l8 | (uint32_t)l11);
    l13 = (uint64_t)((uint64_t)l2 + (uint64_t)UINT64_C(3));
    l14 = l1.p + (size_t)l13;
    l15 = (*(uint8_t *)l14);
    l0 = (uint8_t)((uint32_t)l12 | (uint32_t)l15);
    return l0;
}

static inline uint64_t lexer__gaps__next(rt_slice l1, uint64_t l2)
{
    uint64_t l0;
    uint64_t l3;
    uint8_t l4;
    uint8_t *l6;
    uint8_t l7;
    uint8_t l8;
    l4 = (uint8_t)(l2 < l1.n);
    if (l4) {
        l6 = l1.p + (size_t)l2;
        l7 = (*(uint8_t *)l6);
        l4 = (uint8_t)(l7 == UINT8_C(0));
        l8 = l4;
        if (l8) {
            l3 = lexer__gaps__beyond(l1, l2);
            goto end1;
        }
    }
    l3 = l2;
end1:;
    l0 = l3;
    return l0;
}

static inline uint64_t lexer__gaps__start(rt_slice l1, uint64_t l2)
{
    uint64_t l0;
    uint64_t l3;
    uint64_t l4;
    uint8_t l5;
    uint64_t l6;
    l5 = (uint8_t)(l2 <= UINT64_C(8));
    if (l5) {
        l0 = lexer__gaps__back_within(l1, UINT64_C(0), l2);
        return l0;
    }
    l3 = (uint64_t)((uint64_t)l2 - (uint64_t)UINT64_C(8));
    l4 = lexer__gaps__back_within(l1, l3, l2);
    l5 = (uint8_t)(l3 < l4);
    if (l5) {
        l0 = l4;
        return l0;
    }
    l6 = lexer__gaps__eights_back(l1, l4);
    l0 = lexer__gaps__back_within(l1, UINT64_C(0), l6);
    return l0;
}

static inline uint64_t lexer__gaps__within(rt_slice l1, uint64_t l2, uint64_t l3)
{
    uint64_t l0;
    uint64_t l4;
    uint8_t l5;
    uint8_t *l6;
    uint8_t l7;
    l4 = l2;
    for (;;) {
        l5 = (uint8_t)(l4 < l3);
        if (l5) {
        } else {
            goto end1;
        }
        l6 = l1.p + (size_t)l4;
        l7 = (*(uint8_t *)l6);
        l5 = (uint8_t)(l7 != UINT8_C(0));
        if (l5) {
            l0 = l4;
            return l0;
        }
        l4 = (uint64_t)((uint64_t)l4 + (uint64_t)UINT64_C(1));
    }
end1:;
    l0 = l3;
    return l0;
}

static inline uint8_t lexer__mark(rt_slice l1, rt_slice l2)
{
    uint8_t l0;
    uint64_t l3;
    struct core__option__Option__rt_tuple2_u8_u64 l6;
    uint8_t *l7;
    uint64_t l8;
    uint8_t *l9;
    rt_slice l10;
    uint8_t *l11;
    uint64_t l12;
    l3 = UINT64_C(0);
    for (;;) {
        l7 = l1.p + (size_t)l3;
        l8 = (uint64_t)((uint64_t)l1.n - (uint64_t)l3);
        l9 = (uint8_t *)&(*(uint8_t *)l7);
        l10.p = l9;
        l10.n = l8;
        l6 = lexer__token(l10);
        switch (l6.tag) {
            case UINT8_C(1): {
                l11 = l2.p + (size_t)l3;
                (*(uint8_t *)l11) = l6.s0.f0;
                l12 = (uint64_t)((uint64_t)l6.s0.f1 + (uint64_t)UINT64_C(1));
                l3 = (uint64_t)((uint64_t)l3 + (uint64_t)l12);
                break;
            }
            case UINT8_C(0): default: {
                goto end1;
                break;
            }
        }
    }
end1:;
    l0 = (uint8_t)(l3 == l1.n);
    return l0;
}

static RT_HERE struct core__option__Option__rt_tuple2_u8_u64 lexer__name(rt_slice l1)
{
    struct core__option__Option__rt_tuple2_u8_u64 l0;
    uint64_t l2;
    uint8_t *l3;
    uint64_t l4;
    uint8_t *l5;
    rt_slice l6;
    uint8_t l7;
    uint8_t *l8;
    rt_slice l9;
    struct rt_tuple2__u8_u64 l10;
    l3 = l1.p + (size_t)UINT64_C(1);
    l4 = (uint64_t)((uint64_t)l1.n - (uint64_t)UINT64_C(1));
    l5 = (uint8_t *)&(*(uint8_t *)l3);
    l6.p = l5;
    l6.n = l4;
    l2 = lexer__bytes__names(l6);
    l4 = (uint64_t)((uint64_t)l2 + (uint64_t)UINT64_C(1));
    l8 = (uint8_t *)&(*(uint8_t *)l1.p);
    l9.p = l8;
    l9.n = l4;
    l7 = lexer__words__kind(l9);
    l10.f0 = l7;
    l10.f1 = l2;
    l0.tag = UINT8_C(1);
    l0.s0.f0 = l10.f0;
    l0.s0.f1 = l10.f1;
    return l0;
}

static RT_HERE struct core__option__Option__rt_tuple2_u8_u64 lexer__nat(rt_slice l1)
{
    struct core__option__Option__rt_tuple2_u8_u64 l0;
    uint64_t l2;
    uint8_t l3;
    uint8_t l4;
    struct core__option__Option__rt_tuple2_u8_u64 l5;
    uint64_t l6;
    struct rt_tuple2__u8_u64 l7;
    l2 = lexer__bytes__digits(l1);
    l3 = lexer__bytes__byte(l1, l2);
    l4 = (uint8_t)(l3 == UINT8_C(110));
    if (l4) {
        l6 = (uint64_t)((uint64_t)l2 + (uint64_t)UINT64_C(1));
        l7.f0 = UINT8_C(38);
        l7.f1 = l6;
        l5.tag = UINT8_C(1);
        l5.s0.f0 = l7.f0;
        l5.s0.f1 = l7.f1;
    } else {
        l5.tag = UINT8_C(0);
    }
    l0 = l5;
    return l0;
}

static RT_HERE struct core__option__Option__rt_tuple2_u8_u64 lexer__other(uint8_t l1, rt_slice l2)
{
    struct core__option__Option__rt_tuple2_u8_u64 l0;
    uint8_t l3;
    uint8_t l7;
    struct core__ops__ControlFlow__NoValue_u64 l8;
    struct core__option__Option__u64 l9;
    uint8_t *l10;
    uint64_t l11;
    uint8_t *l12;
    rt_slice l13;
    struct rt_tuple2__u8_u64 l15;
    uint8_t l16;
    uint64_t l17;
    struct rt_tuple2__u8_u64 l18;
    l3 = lexer__bytes__byte(l2, UINT64_C(0));
    l7 = lexer__bytes__opens(l1, l3);
    if (l7) {
        l10 = l2.p + (size_t)UINT64_C(1);
        l11 = (uint64_t)((uint64_t)l2.n - (uint64_t)UINT64_C(1));
        l12 = (uint8_t *)&(*(uint8_t *)l10);
        l13.p = l12;
        l13.n = l11;
        l9 = lexer__bytes__closing(l13);
        l8 = core__option__OptionTry__branch__u64(l9);
        switch (l8.tag) {
            case UINT8_C(0): {
                break;
            }
            case UINT8_C(1): default: {
                {
                    struct core__option__Option__rt_tuple2_u8_u64 r = core__option__OptionFromResidualNoValue__from_residual_e4dc67fa(l8.s1);
                    l0.tag = r.tag;
                    l0.s0.f0 = r.s0.f0;
                    l0.s0.f1 = r.s0.f1;
                }
                return l0;
                break;
            }
        }
        l11 = (uint64_t)((uint64_t)l8.s0 + (uint64_t)UINT64_C(1));
        l15.f0 = UINT8_C(0);
        l15.f1 = l11;
        l0.tag = UINT8_C(1);
        l0.s0.f0 = l15.f0;
        l0.s0.f1 = l15.f1;
        return l0;
    }
    l16 = lexer__bytes__signed(l1, l3);
    if (l16) {
        l17 = lexer__bytes__digits(l2);
        l18.f0 = UINT8_C(37);
        l18.f1 = l17;
        l0.tag = UINT8_C(1);
        l0.s0.f0 = l18.f0;
        l0.s0.f1 = l18.f1;
        return l0;
    }
    {
        struct core__option__Option__rt_tuple2_u8_u64 r = lexer__sign(l1, l3);
        l0.tag = r.tag;
        l0.s0.f0 = r.s0.f0;
        l0.s0.f1 = r.s0.f1;
    }
    return l0;
}

static RT_HERE struct core__option__Option__rt_tuple2_u8_u64 lexer__sign(uint8_t l1, uint8_t l2)
{
    struct core__option__Option__rt_tuple2_u8_u64 l0;
    struct core__option__Option__rt_tuple2_u8_u64 l3;
    struct core__option__Option__u8 l4;
    struct rt_tuple2__u8_u64 l5;
    struct core__option__Option__u8 l6;
    struct rt_tuple2__u8_u64 l7;
    struct rt_tuple2__u8_u64 l8;
    struct rt_tuple2__u8_u64 l9;
    struct rt_tuple2__u8_u64 l10;
    struct rt_tuple2__u8_u64 l11;
    struct rt_tuple2__u8_u64 l12;
    struct rt_tuple2__u8_u64 l13;
    struct rt_tuple2__u8_u64 l14;
    struct core__option__Option__u8 l15;
    struct rt_tuple2__u8_u64 l16;
    struct core__option__Option__u8 l17;
    struct rt_tuple2__u8_u64 l18;
    struct core__option__Option__u8 l19;
    struct rt_tuple2__u8_u64 l20;
    struct core__option__Option__u8 l21;
    struct rt_tuple2__u8_u64 l22;
    switch (l1) {
        case UINT8_C(33): {
            l4.tag = UINT8_C(1);
            l4.s0 = UINT8_C(22);
            l3 = lexer__followed(l2, UINT8_C(61), UINT8_C(24), l4);
            break;
        }
        case UINT8_C(37): {
            l5.f0 = UINT8_C(31);
            l5.f1 = UINT64_C(0);
            l3.tag = UINT8_C(1);
            l3.s0.f0 = l5.f0;
            l3.s0.f1 = l5.f1;
            break;
        }
        case UINT8_C(38): {
            l6.tag = UINT8_C(0);
            l3 = lexer__followed(l2, UINT8_C(38), UINT8_C(34), l6);
            break;
        }
        case UINT8_C(40): {
            l7.f0 = UINT8_C(13);
            l7.f1 = UINT64_C(0);
            l3.tag = UINT8_C(1);
            l3.s0.f0 = l7.f0;
            l3.s0.f1 = l7.f1;
            break;
        }
        case UINT8_C(41): {
            l8.f0 = UINT8_C(14);
            l8.f1 = UINT64_C(0);
            l3.tag = UINT8_C(1);
            l3.s0.f0 = l8.f0;
            l3.s0.f1 = l8.f1;
            break;
        }
        case UINT8_C(42): {
            l9.f0 = UINT8_C(29);
            l9.f1 = UINT64_C(0);
            l3.tag = UINT8_C(1);
            l3.s0.f0 = l9.f0;
            l3.s0.f1 = l9.f1;
            break;
        }
        case UINT8_C(43): {
            l10.f0 = UINT8_C(32);
            l10.f1 = UINT64_C(0);
            l3.tag = UINT8_C(1);
            l3.s0.f0 = l10.f0;
            l3.s0.f1 = l10.f1;
            break;
        }
        case UINT8_C(44): {
            l11.f0 = UINT8_C(17);
            l11.f1 = UINT64_C(0);
            l3.tag = UINT8_C(1);
            l3.s0.f0 = l11.f0;
            l3.s0.f1 = l11.f1;
            break;
        }
        case UINT8_C(45): {
            l12.f0 = UINT8_C(33);
            l12.f1 = UINT64_C(0);
            l3.tag = UINT8_C(1);
            l3.s0.f0 = l12.f0;
            l3.s0.f1 = l12.f1;
            break;
        }
        case UINT8_C(46): {
            l13.f0 = UINT8_C(21);
            l13.f1 = UINT64_C(0);
            l3.tag = UINT8_C(1);
            l3.s0.f0 = l13.f0;
            l3.s0.f1 = l13.f1;
            break;
        }
        case UINT8_C(47): {
            l14.f0 = UINT8_C(30);
            l14.f1 = UINT64_C(0);
            l3.tag = UINT8_C(1);
            l3.s0.f0 = l14.f0;
            l3.s0.f1 = l14.f1;
            break;
        }
        case UINT8_C(58): {
            l15.tag = UINT8_C(1);
            l15.s0 = UINT8_C(18);
            l3 = lexer__followed(l2, UINT8_C(61), UINT8_C(20), l15);
            break;
        }
        case UINT8_C(59): {
            l16.f0 = UINT8_C(19);
            l16.f1 = UINT64_C(0);
            l3.tag = UINT8_C(1);
            l3.s0.f0 = l16.f0;
            l3.s0.f1 = l16.f1;
            break;
        }
        case UINT8_C(60): {
            l17.tag = UINT8_C(1);
            l17.s0 = UINT8_C(27);
            l3 = lexer__followed(l2, UINT8_C(61), UINT8_C(25), l17);
            break;
        }
        case UINT8_C(61): {
            l18.f0 = UINT8_C(23);
            l18.f1 = UINT64_C(0);
            l3.tag = UINT8_C(1);
            l3.s0.f0 = l18.f0;
            l3.s0.f1 = l18.f1;
            break;
        }
        case UINT8_C(62): {
            l19.tag = UINT8_C(1);
            l19.s0 = UINT8_C(28);
            l3 = lexer__followed(l2, UINT8_C(61), UINT8_C(26), l19);
            break;
        }
        case UINT8_C(123): {
            l20.f0 = UINT8_C(15);
            l20.f1 = UINT64_C(0);
            l3.tag = UINT8_C(1);
            l3.s0.f0 = l20.f0;
            l3.s0.f1 = l20.f1;
            break;
        }
        case UINT8_C(124): {
            l21.tag = UINT8_C(0);
            l3 = lexer__followed(l2, UINT8_C(124), UINT8_C(35), l21);
            break;
        }
        case UINT8_C(125): {
            l22.f0 = UINT8_C(16);
            l22.f1 = UINT64_C(0);
            l3.tag = UINT8_C(1);
            l3.s0.f0 = l22.f0;
            l3.s0.f1 = l22.f1;
            break;
        }
        default: {
            l3.tag = UINT8_C(0);
            break;
        }
    }
    l0 = l3;
    return l0;
}

static RT_HERE struct core__option__Option__rt_tuple2_u8_u64 lexer__token(rt_slice l1)
{
    struct core__option__Option__rt_tuple2_u8_u64 l0;
    uint8_t *l2;
    rt_slice l3;
    uint8_t l5;
    uint8_t *l6;
    uint8_t *l7;
    uint64_t l8;
    uint8_t *l9;
    struct core__option__Option__u8 l10;
    uint8_t l11;
    struct rt_tuple2__u8_u64 l12;
    uint8_t l13;
    uint8_t l14;
    uint8_t l15;
    struct rt_tuple2__u8_u64 l16;
    l5 = (uint8_t)(l1.n < UINT64_C(1));
    if (l5) {
        l0.tag = UINT8_C(0);
        return l0;
    }
    l6 = l1.p + (size_t)UINT64_C(0);
    l7 = l1.p + (size_t)UINT64_C(1);
    l8 = (uint64_t)((uint64_t)l1.n - (uint64_t)UINT64_C(1));
    l2 = (uint8_t *)&(*(uint8_t *)l6);
    l9 = (uint8_t *)&(*(uint8_t *)l7);
    l3.p = l9;
    l3.n = l8;
    l11 = (*(uint8_t *)l2);
    l10 = lexer__alone(l11);
    switch (l10.tag) {
        case UINT8_C(1): {
            l12.f0 = l10.s0;
            l12.f1 = UINT64_C(0);
            l0.tag = UINT8_C(1);
            l0.s0.f0 = l12.f0;
            l0.s0.f1 = l12.f1;
            return l0;
            break;
        }
        case UINT8_C(0): default: {
            break;
        }
    }
    l11 = (*(uint8_t *)l2);
    l13 = lexer__bytes__is_letter(l11);
    if (l13) {
        {
            struct core__option__Option__rt_tuple2_u8_u64 r = lexer__name(l1);
            l0.tag = r.tag;
            l0.s0.f0 = r.s0.f0;
            l0.s0.f1 = r.s0.f1;
        }
        return l0;
    }
    l11 = (*(uint8_t *)l2);
    l14 = lexer__bytes__is_digit(l11);
    if (l14) {
        {
            struct core__option__Option__rt_tuple2_u8_u64 r = lexer__nat(l3);
            l0.tag = r.tag;
            l0.s0.f0 = r.s0.f0;
            l0.s0.f1 = r.s0.f1;
        }
        return l0;
    }
    l11 = (*(uint8_t *)l2);
    l15 = lexer__bytes__is_blank(l11);
    if (l15) {
        l16.f0 = UINT8_C(0);
        l16.f1 = UINT64_C(0);
        l0.tag = UINT8_C(1);
        l0.s0.f0 = l16.f0;
        l0.s0.f1 = l16.f1;
        return l0;
    }
    l11 = (*(uint8_t *)l2);
    {
        struct core__option__Option__rt_tuple2_u8_u64 r = lexer__other(l11, l3);
        l0.tag = r.tag;
        l0.s0.f0 = r.s0.f0;
        l0.s0.f1 = r.s0.f1;
    }
    return l0;
}

static const struct rt_array_uint8_4 lexer__words__kind__l31 = { { UINT8_C(66), UINT8_C(111), UINT8_C(111), UINT8_C(108) } };
static const struct rt_array_uint8_3 lexer__words__kind__l32 = { { UINT8_C(70), UINT8_C(105), UINT8_C(120) } };
static const struct rt_array_uint8_3 lexer__words__kind__l33 = { { UINT8_C(73), UINT8_C(110), UINT8_C(116) } };
static const struct rt_array_uint8_3 lexer__words__kind__l34 = { { UINT8_C(78), UINT8_C(97), UINT8_C(116) } };
static const struct rt_array_uint8_6 lexer__words__kind__l35 = { { UINT8_C(83), UINT8_C(116), UINT8_C(114), UINT8_C(105), UINT8_C(110), UINT8_C(103) } };
static const struct rt_array_uint8_5 lexer__words__kind__l36 = { { UINT8_C(102), UINT8_C(97), UINT8_C(108), UINT8_C(115), UINT8_C(101) } };
static const struct rt_array_uint8_2 lexer__words__kind__l37 = { { UINT8_C(105), UINT8_C(102) } };
static const struct rt_array_uint8_4 lexer__words__kind__l38 = { { UINT8_C(110), UINT8_C(117), UINT8_C(108), UINT8_C(108) } };
static const struct rt_array_uint8_6 lexer__words__kind__l39 = { { UINT8_C(115), UINT8_C(116), UINT8_C(114), UINT8_C(117), UINT8_C(99), UINT8_C(116) } };
static inline uint8_t lexer__words__kind(rt_slice l1)
{
    uint8_t l0;
    uint8_t l2;
    uint8_t l3;
    uint8_t *l4;
    uint8_t *l5;
    rt_slice l6;
    uint8_t *l7;
    uint8_t *l8;
    rt_slice l9;
    uint8_t *l10;
    uint8_t *l11;
    rt_slice l12;
    uint8_t *l13;
    uint8_t *l14;
    rt_slice l15;
    uint8_t *l16;
    uint8_t *l17;
    rt_slice l18;
    uint8_t *l19;
    uint8_t *l20;
    rt_slice l21;
    uint8_t *l22;
    uint8_t *l23;
    rt_slice l24;
    uint8_t *l25;
    uint8_t *l26;
    rt_slice l27;
    uint8_t *l28;
    uint8_t *l29;
    rt_slice l30;
    l2 = lexer__bytes__byte(l1, UINT64_C(0));
    switch (l2) {
        case UINT8_C(66): {
            l4 = (uint8_t *)&lexer__words__kind__l31;
            l5 = (uint8_t *)&(*(uint8_t *)l4);
            l6.p = l5;
            l6.n = UINT64_C(4);
            l3 = lexer__words__only(l6, UINT8_C(9), l1);
            break;
        }
        case UINT8_C(70): {
            l7 = (uint8_t *)&lexer__words__kind__l32;
            l8 = (uint8_t *)&(*(uint8_t *)l7);
            l9.p = l8;
            l9.n = UINT64_C(3);
            l3 = lexer__words__only(l9, UINT8_C(6), l1);
            break;
        }
        case UINT8_C(73): {
            l10 = (uint8_t *)&lexer__words__kind__l33;
            l11 = (uint8_t *)&(*(uint8_t *)l10);
            l12.p = l11;
            l12.n = UINT64_C(3);
            l3 = lexer__words__only(l12, UINT8_C(7), l1);
            break;
        }
        case UINT8_C(78): {
            l13 = (uint8_t *)&lexer__words__kind__l34;
            l14 = (uint8_t *)&(*(uint8_t *)l13);
            l15.p = l14;
            l15.n = UINT64_C(3);
            l3 = lexer__words__only(l15, UINT8_C(8), l1);
            break;
        }
        case UINT8_C(83): {
            l16 = (uint8_t *)&lexer__words__kind__l35;
            l17 = (uint8_t *)&(*(uint8_t *)l16);
            l18.p = l17;
            l18.n = UINT64_C(6);
            l3 = lexer__words__only(l18, UINT8_C(10), l1);
            break;
        }
        case UINT8_C(102): {
            l19 = (uint8_t *)&lexer__words__kind__l36;
            l20 = (uint8_t *)&(*(uint8_t *)l19);
            l21.p = l20;
            l21.n = UINT64_C(5);
            l3 = lexer__words__only(l21, UINT8_C(12), l1);
            break;
        }
        case UINT8_C(105): {
            l22 = (uint8_t *)&lexer__words__kind__l37;
            l23 = (uint8_t *)&(*(uint8_t *)l22);
            l24.p = l23;
            l24.n = UINT64_C(2);
            l3 = lexer__words__only(l24, UINT8_C(2), l1);
            break;
        }
        case UINT8_C(110): {
            l25 = (uint8_t *)&lexer__words__kind__l38;
            l26 = (uint8_t *)&(*(uint8_t *)l25);
            l27.p = l26;
            l27.n = UINT64_C(4);
            l3 = lexer__words__only(l27, UINT8_C(4), l1);
            break;
        }
        case UINT8_C(115): {
            l28 = (uint8_t *)&lexer__words__kind__l39;
            l29 = (uint8_t *)&(*(uint8_t *)l28);
            l30.p = l29;
            l30.n = UINT64_C(6);
            l3 = lexer__words__only(l30, UINT8_C(1), l1);
            break;
        }
        case UINT8_C(116): {
            l3 = lexer__words__with_t(l1);
            break;
        }
        default: {
            l3 = UINT8_C(36);
            break;
        }
    }
    l0 = l3;
    return l0;
}

static RT_SHORT uint8_t lexer__words__only(rt_slice l1, uint8_t l2, rt_slice l3)
{
    uint8_t l0;
    uint8_t l4;
    uint8_t l5;
    l4 = lexer__words__same(l1, l3);
    if (l4) {
        l5 = l2;
    } else {
        l5 = UINT8_C(36);
    }
    l0 = l5;
    return l0;
}

static RT_SHORT uint8_t lexer__words__same(rt_slice l1, rt_slice l2)
{
    uint8_t l0;
    rt_slice l3;
    rt_slice l4;
    uint8_t *l5;
    uint8_t *l6;
    l3 = l1;
    l4 = l2;
    l5 = (uint8_t *)&l3;
    l6 = (uint8_t *)&l4;
    l0 = core__cmp__slices__RefSlicePartialEq__eq__u8(l5, l6);
    return l0;
}

static const struct rt_array_uint8_4 lexer__words__with_t__l15 = { { UINT8_C(116), UINT8_C(104), UINT8_C(101), UINT8_C(110) } };
static const struct rt_array_uint8_4 lexer__words__with_t__l16 = { { UINT8_C(116), UINT8_C(104), UINT8_C(105), UINT8_C(115) } };
static const struct rt_array_uint8_4 lexer__words__with_t__l17 = { { UINT8_C(116), UINT8_C(114), UINT8_C(117), UINT8_C(101) } };
static inline uint8_t lexer__words__with_t(rt_slice l1)
{
    uint8_t l0;
    uint8_t l2;
    uint8_t *l3;
    uint8_t *l4;
    rt_slice l5;
    uint8_t l6;
    uint8_t l7;
    uint8_t *l8;
    uint8_t *l9;
    rt_slice l10;
    uint8_t l11;
    uint8_t *l12;
    uint8_t *l13;
    rt_slice l14;
    l3 = (uint8_t *)&lexer__words__with_t__l15;
    l4 = (uint8_t *)&(*(uint8_t *)l3);
    l5.p = l4;
    l5.n = UINT64_C(4);
    l2 = lexer__words__same(l5, l1);
    if (l2) {
        l6 = UINT8_C(3);
    } else {
        l8 = (uint8_t *)&lexer__words__with_t__l16;
        l9 = (uint8_t *)&(*(uint8_t *)l8);
        l10.p = l9;
        l10.n = UINT64_C(4);
        l7 = lexer__words__same(l10, l1);
        if (l7) {
            l11 = UINT8_C(5);
        } else {
            l12 = (uint8_t *)&lexer__words__with_t__l17;
            l13 = (uint8_t *)&(*(uint8_t *)l12);
            l14.p = l13;
            l14.n = UINT64_C(4);
            l11 = lexer__words__only(l14, UINT8_C(11), l1);
        }
        l6 = l11;
    }
    l0 = l6;
    return l0;
}

static const struct rt_array_uint8_7 listing__image__listing__l60 = { { UINT8_C(114), UINT8_C(101), UINT8_C(102), UINT8_C(117), UINT8_C(115), UINT8_C(101), UINT8_C(100) } };
static const struct rt_array_uint8_6 listing__image__listing__l61 = { { UINT8_C(97), UINT8_C(117), UINT8_C(100), UINT8_C(97), UINT8_C(108), UINT8_C(97) } };
static RT_APART uint64_t listing__image__listing(rt_slice l1, rt_slice l2)
{
    uint64_t l0;
    struct rt_array_uint8_32256 l3;
    struct rt_array_uint8_16 l4;
    struct rt_array_uint8_128 l5;
    struct rt_array_uint16_512 l6;
    struct core__result__Result__Loaded_Refusal l7;
    uint64_t l12;
    struct rt_array_uint64_1024 l13;
    struct rt_array_uint64_4 l14;
    uint64_t l15;
    uint8_t *l16;
    rt_slice l17;
    uint8_t *l18;
    rt_slice l19;
    uint8_t *l20;
    rt_slice l21;
    uint8_t *l22;
    rt_slice l23;
    uint8_t *l25;
    rt_slice l26;
    uint8_t *l27;
    uint8_t *l28;
    rt_slice l29;
    struct rt_array_uint64_1 l30;
    uint64_t l31;
    uint8_t l32;
    uint8_t *l33;
    rt_slice l34;
    uint8_t *l36;
    rt_slice l37;
    uint8_t *l38;
    rt_slice l39;
    uint8_t *l40;
    rt_slice l41;
    uint64_t l42;
    uint64_t l43;
    uint64_t l44;
    uint64_t l45;
    uint8_t *l46;
    rt_slice l47;
    uint8_t *l48;
    uint8_t *l49;
    rt_slice l50;
    uint8_t *l51;
    rt_slice l52;
    uint8_t *l53;
    rt_slice l54;
    uint64_t l55;
    uint8_t *l56;
    rt_slice l57;
    uint8_t *l58;
    rt_slice l59;
    memset(&l3, 0, sizeof l3);
    memset(&l4, 0, sizeof l4);
    memset(&l5, 0, sizeof l5);
    memset(&l6, 0, sizeof l6);
    l16 = (uint8_t *)&l3;
    l17.p = l16;
    l17.n = UINT64_C(32256);
    l18 = (uint8_t *)&l4;
    l19.p = l18;
    l19.n = UINT64_C(16);
    l20 = (uint8_t *)&l5;
    l21.p = l20;
    l21.n = UINT64_C(128);
    l22 = (uint8_t *)&l6;
    l23.p = l22;
    l23.n = UINT64_C(512);
    l7 = load__program(l1, l17, l19, l21, l23);
    switch (l7.tag) {
        case UINT8_C(0): {
            break;
        }
        case UINT8_C(1): default: {
            l25 = (uint8_t *)&(*(uint8_t *)l2.p);
            l26.p = l25;
            l26.n = l2.n;
            l27 = (uint8_t *)&listing__image__listing__l60;
            l28 = (uint8_t *)&(*(uint8_t *)l27);
            l29.p = l28;
            l29.n = UINT64_C(7);
            l32 = types__refusal__U8FromRefusal__from(l7.s1);
            l31 = core__convert__U64FromU8__from(l32);
            l30 = (struct rt_array_uint64_1){ { l31 } };
            l33 = (uint8_t *)&l30;
            l34.p = l33;
            l34.n = UINT64_C(1);
            l0 = text__lines__row(l26, UINT64_C(0), l29, l34);
            return l0;
            break;
        }
    }
    l12 = (uint64_t)l7.s0.f3;
    memset(&l13, 0, sizeof l13);
    l36 = (uint8_t *)&l3;
    l37.p = l36;
    l37.n = l7.s0.f0;
    l38 = (uint8_t *)&l4;
    l39.p = l38;
    l39.n = l12;
    l40 = (uint8_t *)&l13;
    l41.p = l40;
    l41.n = UINT64_C(1024);
    emit_steps__program(l37, l39, l7.s0.f1, l41);
    l42 = (uint64_t)l7.s0.f3;
    l43 = (uint64_t)l7.s0.f4;
    l44 = (uint64_t)l7.s0.f5;
    l45 = (uint64_t)l7.s0.f6;
    l14 = (struct rt_array_uint64_4){ { l42, l43, l44, l45 } };
    l46 = (uint8_t *)&(*(uint8_t *)l2.p);
    l47.p = l46;
    l47.n = l2.n;
    l48 = (uint8_t *)&listing__image__listing__l61;
    l49 = (uint8_t *)&(*(uint8_t *)l48);
    l50.p = l49;
    l50.n = UINT64_C(6);
    l51 = (uint8_t *)&l14;
    l52.p = l51;
    l52.n = UINT64_C(4);
    l15 = text__lines__row(l47, UINT64_C(0), l50, l52);
    l53 = (uint8_t *)&l6;
    l54.p = l53;
    l54.n = UINT64_C(512);
    l55 = (uint64_t)l7.s0.f4;
    l56 = (uint8_t *)&l13;
    l57.p = l56;
    l57.n = UINT64_C(1024);
    l58 = (uint8_t *)&(*(uint8_t *)l2.p);
    l59.p = l58;
    l59.n = l2.n;
    l0 = step_lines__program(l54, l55, l57, l59, l15);
    return l0;
}

static RT_SHORT uint64_t little_endian__index(uint8_t l1)
{
    uint64_t l0;
    l0 = core__convert__UsizeFromU8__from(l1);
    return l0;
}

static RT_SHORT uint64_t little_endian__pair_at(rt_slice l1, uint64_t l2)
{
    uint64_t l0;
    uint16_t l3;
    uint8_t *l4;
    uint8_t l5;
    uint64_t l6;
    uint8_t *l7;
    uint8_t l8;
    struct rt_array_uint8_2 l9;
    l4 = l1.p + (size_t)l2;
    l5 = (*(uint8_t *)l4);
    l6 = (uint64_t)((uint64_t)l2 + (uint64_t)UINT64_C(1));
    l7 = l1.p + (size_t)l6;
    l8 = (*(uint8_t *)l7);
    l9 = (struct rt_array_uint8_2){ { l5, l8 } };
    l3 = core__int__u16__from_le_bytes(l9);
    l0 = core__convert__UsizeFromU16__from(l3);
    return l0;
}

static inline void little_endian__put_pair(rt_slice l1, uint64_t l2, uint64_t l3)
{
    uint16_t l4;
    uint64_t l5;
    uint8_t *l7;
    uint64_t l8;
    uint8_t *l9;
    rt_slice l10;
    struct rt_array_uint8_2 l11;
    struct rt_array_uint8_2 l12;
    uint8_t *l13;
    rt_slice l14;
    l5 = (uint64_t)((uint64_t)l3 % (uint64_t)UINT64_C(65536));
    l4 = (uint16_t)l5;
    l5 = (uint64_t)((uint64_t)l2 + (uint64_t)UINT64_C(2));
    l7 = l1.p + (size_t)l2;
    l8 = (uint64_t)((uint64_t)l5 - (uint64_t)l2);
    l9 = (uint8_t *)&(*(uint8_t *)l7);
    l10.p = l9;
    l10.n = l8;
    l11 = core__int__u16__to_le_bytes(l4);
    l12 = l11;
    l13 = (uint8_t *)&l12;
    l14.p = l13;
    l14.n = UINT64_C(2);
    core__slice__edits__slice_T__copy_from_slice__u8(l10, l14);
    return;
}

static inline void little_endian__put_word(rt_slice l1, uint64_t l2, uint64_t l3)
{
    uint32_t l4;
    uint64_t l5;
    uint64_t l7;
    uint8_t *l8;
    uint64_t l9;
    uint8_t *l10;
    rt_slice l11;
    struct rt_array_uint8_4 l12;
    struct rt_array_uint8_4 l13;
    uint8_t *l14;
    rt_slice l15;
    l5 = (uint64_t)((uint64_t)l3 % (uint64_t)UINT64_C(4294967296));
    l4 = (uint32_t)l5;
    l7 = (uint64_t)((uint64_t)l2 + (uint64_t)UINT64_C(4));
    l8 = l1.p + (size_t)l2;
    l9 = (uint64_t)((uint64_t)l7 - (uint64_t)l2);
    l10 = (uint8_t *)&(*(uint8_t *)l8);
    l11.p = l10;
    l11.n = l9;
    l12 = core__int__u32__to_le_bytes(l4);
    l13 = l12;
    l14 = (uint8_t *)&l13;
    l15.p = l14;
    l15.n = UINT64_C(4);
    core__slice__edits__slice_T__copy_from_slice__u8(l11, l15);
    return;
}

static inline uint64_t little_endian__word_at(rt_slice l1, uint64_t l2)
{
    uint64_t l0;
    uint32_t l3;
    uint8_t *l4;
    uint8_t l5;
    uint64_t l6;
    uint8_t *l7;
    uint8_t l8;
    uint64_t l9;
    uint8_t *l10;
    uint8_t l11;
    uint64_t l12;
    uint8_t *l13;
    uint8_t l14;
    struct rt_array_uint8_4 l15;
    l4 = l1.p + (size_t)l2;
    l5 = (*(uint8_t *)l4);
    l6 = (uint64_t)((uint64_t)l2 + (uint64_t)UINT64_C(1));
    l7 = l1.p + (size_t)l6;
    l8 = (*(uint8_t *)l7);
    l9 = (uint64_t)((uint64_t)l2 + (uint64_t)UINT64_C(2));
    l10 = l1.p + (size_t)l9;
    l11 = (*(uint8_t *)l10);
    l12 = (uint64_t)((uint64_t)l2 + (uint64_t)UINT64_C(3));
    l13 = l1.p + (size_t)l12;
    l14 = (*(uint8_t *)l13);
    l15 = (struct rt_array_uint8_4){ { l5, l8, l11, l14 } };
    l3 = core__int__u32__from_le_bytes(l15);
    l0 = core__convert__U64FromU32__from(l3);
    return l0;
}

static inline struct types__refusal__Refusal load__breach(uint8_t l1)
{
    struct types__refusal__Refusal l0;
    uint8_t l2;
    struct types__refusal__Refusal l3;
    uint8_t l4;
    l3.tag = UINT8_C(5);
    l2 = types__refusal__U8FromRefusal__from(l3);
    l4 = (uint8_t)(l1 == l2);
    if (l4) {
        l0.tag = UINT8_C(5);
        return l0;
    }
    l3.tag = UINT8_C(6);
    l2 = types__refusal__U8FromRefusal__from(l3);
    l4 = (uint8_t)(l1 == l2);
    if (l4) {
        l0.tag = UINT8_C(6);
        return l0;
    }
    l0.tag = UINT8_C(7);
    return l0;
}

static RT_HERE struct core__result__Result__Loaded_Refusal load__of_stream(rt_slice l1, rt_slice l2, rt_slice l3, rt_slice l4)
{
    struct core__result__Result__Loaded_Refusal l0;
    struct core__ops__ControlFlow__ErrResidual_Refusal_rt_tuple2__a4800219 l10;
    struct core__result__Result__rt_tuple2_u64_Summary_Refusal l11;
    uint8_t *l12;
    rt_slice l13;
    uint8_t *l14;
    rt_slice l15;
    uint8_t *l16;
    rt_slice l17;
    uint8_t l19;
    struct types__refusal__Refusal l20;
    struct load__Loaded l21;
    l12 = (uint8_t *)&(*(uint8_t *)l2.p);
    l13.p = l12;
    l13.n = l2.n;
    l14 = (uint8_t *)&(*(uint8_t *)l3.p);
    l15.p = l14;
    l15.n = l3.n;
    l16 = (uint8_t *)&(*(uint16_t *)l4.p);
    l17.p = l16;
    l17.n = l4.n;
    l11 = read_program__program(l1, l13, l15, l17);
    l10 = core__result__ResultTry__branch__rt_tuple2_u64_Summary_Refusal(l11);
    switch (l10.tag) {
        case UINT8_C(0): {
            break;
        }
        case UINT8_C(1): default: {
            {
                struct core__result__Result__Loaded_Refusal r = core__result__ResultFromResidualErrResidual__from_resi_3d5841e5(l10.s1);
                l0.tag = r.tag;
                l0.s0.f0 = r.s0.f0;
                l0.s0.f1 = r.s0.f1;
                l0.s0.f2 = r.s0.f2;
                l0.s0.f3 = r.s0.f3;
                l0.s0.f4 = r.s0.f4;
                l0.s0.f5 = r.s0.f5;
                l0.s0.f6 = r.s0.f6;
                l0.s1.tag = r.s1.tag;
            }
            return l0;
            break;
        }
    }
    l19 = (uint8_t)(l10.s0.f1.f0 != UINT8_C(0));
    if (l19) {
        l20 = load__breach(l10.s0.f1.f0);
        l0.tag = UINT8_C(1);
        l0.s1 = l20;
        return l0;
    }
    l21 = load__summed(l1.n, l10.s0.f0, l10.s0.f1);
    l0.tag = UINT8_C(0);
    l0.s0.f0 = l21.f0;
    l0.s0.f1 = l21.f1;
    l0.s0.f2 = l21.f2;
    l0.s0.f3 = l21.f3;
    l0.s0.f4 = l21.f4;
    l0.s0.f5 = l21.f5;
    l0.s0.f6 = l21.f6;
    return l0;
}

static RT_HERE struct core__result__Result__Loaded_Refusal load__program(rt_slice l1, rt_slice l2, rt_slice l3, rt_slice l4, rt_slice l5)
{
    struct core__result__Result__Loaded_Refusal l0;
    struct core__result__Result__u64_Fault l8;
    uint8_t *l9;
    rt_slice l10;
    struct core__result__Result__Loaded_Refusal l11;
    uint8_t *l12;
    rt_slice l13;
    uint8_t *l14;
    rt_slice l15;
    uint8_t *l16;
    rt_slice l17;
    uint8_t *l18;
    rt_slice l19;
    struct types__refusal__Refusal l20;
    l9 = (uint8_t *)&(*(uint8_t *)l2.p);
    l10.p = l9;
    l10.n = l2.n;
    l8 = blocks__open_image(l1, UINT64_C(64), l10);
    switch (l8.tag) {
        case UINT8_C(0): {
            l12 = (uint8_t *)&(*(uint8_t *)l2.p);
            l13.p = l12;
            l13.n = l8.s0;
            l14 = (uint8_t *)&(*(uint8_t *)l3.p);
            l15.p = l14;
            l15.n = l3.n;
            l16 = (uint8_t *)&(*(uint8_t *)l4.p);
            l17.p = l16;
            l17.n = l4.n;
            l18 = (uint8_t *)&(*(uint16_t *)l5.p);
            l19.p = l18;
            l19.n = l5.n;
            l11 = load__of_stream(l13, l15, l17, l19);
            break;
        }
        case UINT8_C(1): default: {
            l20 = blocks__program_number(l8.s1);
            l11.tag = UINT8_C(1);
            l11.s1 = l20;
            break;
        }
    }
    l0 = l11;
    return l0;
}

static RT_HERE struct load__Loaded load__summed(uint64_t l1, uint64_t l2, struct read_program__Summary l3)
{
    struct load__Loaded l0;
    uint8_t l4;
    uint16_t l5;
    uint8_t l6;
    l4 = (uint8_t)l3.f3;
    l5 = (uint16_t)l3.f4;
    l6 = (uint8_t)l3.f5;
    l0.f0 = l1;
    l0.f1 = l2;
    l0.f2 = l3.f1;
    l0.f3 = l3.f2;
    l0.f4 = l4;
    l0.f5 = l5;
    l0.f6 = l6;
    return l0;
}

static RT_WITHIN struct operators__Operator operators__OperatorFromU8__from(uint8_t l1)
{
    struct operators__Operator l0;
    struct operators__Operator l2;
    uint8_t l3;
    switch (l1) {
        case UINT8_C(33): {
            l2.tag = UINT8_C(1);
            break;
        }
        case UINT8_C(34): {
            l2.tag = UINT8_C(2);
            break;
        }
        case UINT8_C(35): {
            l2.tag = UINT8_C(3);
            break;
        }
        case UINT8_C(36): {
            l2.tag = UINT8_C(4);
            break;
        }
        case UINT8_C(37): {
            l2.tag = UINT8_C(5);
            break;
        }
        case UINT8_C(38): {
            l2.tag = UINT8_C(6);
            break;
        }
        case UINT8_C(39): {
            l2.tag = UINT8_C(7);
            break;
        }
        case UINT8_C(40): {
            l2.tag = UINT8_C(8);
            break;
        }
        case UINT8_C(41): {
            l2.tag = UINT8_C(9);
            break;
        }
        case UINT8_C(42): {
            l2.tag = UINT8_C(10);
            break;
        }
        case UINT8_C(43): {
            l2.tag = UINT8_C(11);
            break;
        }
        default: {
            l3 = (uint8_t)(l1 < UINT8_C(33));
            if (l3) {
                l2.tag = UINT8_C(0);
                goto end1;
            }
            l2.tag = UINT8_C(12);
        end1:;
            break;
        }
    }
    l0 = l2;
    return l0;
}

static inline struct core__result__Result__rt_tuple2_u64_Facts_Refusal read_exprs__expr__construct(rt_slice l1, uint8_t *l2, uint64_t l3, uint64_t l4, uint64_t l5)
{
    struct core__result__Result__rt_tuple2_u64_Facts_Refusal l0;
    uint8_t l10;
    struct judge__Facts l11;
    uint64_t l12;
    uint8_t l13;
    uint8_t l18;
    struct core__ops__ControlFlow__ErrResidual_Refusal_rt_tuple2_u8_u64 l20;
    struct core__result__Result__rt_tuple2_u8_u64_Refusal l21;
    uint64_t l22;
    rt_slice l24;
    uint8_t l25;
    struct core__ops__ControlFlow__ErrResidual_Refusal_rt_tuple2_u64_Facts l27;
    struct core__result__Result__rt_tuple2_u64_Facts_Refusal l28;
    rt_slice l30;
    struct judge__Facts l31;
    struct rt_tuple2__u64_Facts l32;
    l22 = (*(struct read_exprs__read__Names *)l2).f0.n;
    l21 = read_exprs__read__ranged(l1, UINT64_C(0), l22, l4);
    l20 = core__result__ResultTry__branch__rt_tuple2_u8_u64_Refusal(l21);
    switch (l20.tag) {
        case UINT8_C(0): {
            break;
        }
        case UINT8_C(1): default: {
            {
                struct core__result__Result__rt_tuple2_u64_Facts_Refusal r = core__result__ResultFromResidualErrResidual__from_resi_fbfd7bc2(l20.s1);
                l0.tag = r.tag;
                l0.s0.f0 = r.s0.f0;
                l0.s0.f1.f0 = r.s0.f1.f0;
                l0.s0.f1.f1 = r.s0.f1.f1;
                l0.s0.f1.f2 = r.s0.f1.f2;
                l0.s0.f1.f3 = r.s0.f1.f3;
                l0.s1.tag = r.s1.tag;
            }
            return l0;
            break;
        }
    }
    l24 = (*(struct read_exprs__read__Names *)l2).f0;
    l22 = core__convert__UsizeFromU8__from(l20.s0.f0);
    l10 = judging__path__look(l24, l22);
    l11 = judging__expression__no_args();
    l12 = l20.s0.f1;
    l13 = UINT8_C(0);
    for (;;) {
        l25 = (uint8_t)(l13 < l10);
        if (l25) {
        } else {
            goto end1;
        }
        l28 = read_exprs__expr__expr(l1, l2, l3, l12, l5);
        l27 = core__result__ResultTry__branch__rt_tuple2_u64_Facts_Refusal(l28);
        switch (l27.tag) {
            case UINT8_C(0): {
                break;
            }
            case UINT8_C(1): default: {
                {
                    struct core__result__Result__rt_tuple2_u64_Facts_Refusal r = core__result__ResultFromResidualErrResidual__from_resi_fbfd7bc2(l27.s1);
                    l0.tag = r.tag;
                    l0.s0.f0 = r.s0.f0;
                    l0.s0.f1.f0 = r.s0.f1.f0;
                    l0.s0.f1.f1 = r.s0.f1.f1;
                    l0.s0.f1.f2 = r.s0.f1.f2;
                    l0.s0.f1.f3 = r.s0.f1.f3;
                    l0.s1.tag = r.s1.tag;
                }
                return l0;
                break;
            }
        }
        l30 = (*(struct read_exprs__read__Names *)l2).f1;
        l18 = judging__path__type_at(l30, l20.s0.f0, l13);
        l11 = judging__expression__appended(l13, l18, l11, l27.s0.f1);
        l12 = l27.s0.f0;
        l13 = (uint8_t)((uint32_t)l13 + (uint32_t)UINT8_C(1));
    }
end1:;
    l31 = judging__expression__constructed(l20.s0.f0, l11);
    l32.f0 = l12;
    l32.f1.f0 = l31.f0;
    l32.f1.f1 = l31.f1;
    l32.f1.f2 = l31.f2;
    l32.f1.f3 = l31.f3;
    l0.tag = UINT8_C(0);
    l0.s0.f0 = l32.f0;
    l0.s0.f1.f0 = l32.f1.f0;
    l0.s0.f1.f1 = l32.f1.f1;
    l0.s0.f1.f2 = l32.f1.f2;
    l0.s0.f1.f3 = l32.f1.f3;
    return l0;
}

static inline struct core__result__Result__rt_tuple2_u64_Facts_Refusal read_exprs__expr__expr(rt_slice l1, uint8_t *l2, uint64_t l3, uint64_t l4, uint64_t l5)
{
    struct core__result__Result__rt_tuple2_u64_Facts_Refusal l0;
    uint64_t l8;
    uint64_t l9;
    uint8_t l23;
    struct types__refusal__Refusal l24;
    struct types__refusal__Refusal l25;
    uint8_t *l26;
    uint8_t l27;
    struct core__ops__ControlFlow__ErrResidual_Refusal_rt_tuple2_u64_Facts l29;
    struct core__result__Result__rt_tuple2_u64_Facts_Refusal l30;
    struct judge__Facts l32;
    struct rt_tuple2__u64_Facts l33;
    struct types__refusal__Refusal l34;
    struct core__ops__ControlFlow__ErrResidual_Refusal_rt_tuple2_u64_Facts l36;
    struct core__result__Result__rt_tuple2_u64_Facts_Refusal l37;
    struct core__ops__ControlFlow__ErrResidual_Refusal_rt_tuple2_u64_Facts l40;
    struct judge__Facts l42;
    struct rt_tuple2__u64_Facts l43;
    l23 = (uint8_t)(l1.n <= l4);
    if (l23) {
        l24.tag = UINT8_C(3);
        l0.tag = UINT8_C(1);
        l0.s1 = l24;
        return l0;
    }
    l23 = (uint8_t)(l5 == UINT64_C(0));
    if (l23) {
        l25.tag = UINT8_C(4);
        l0.tag = UINT8_C(1);
        l0.s1 = l25;
        return l0;
    }
    l26 = l1.p + (size_t)l4;
    l27 = (*(uint8_t *)l26);
    l8 = (uint64_t)((uint64_t)l4 + (uint64_t)UINT64_C(1));
    l9 = (uint64_t)((uint64_t)l5 - (uint64_t)UINT64_C(1));
    l23 = (uint8_t)(l27 == UINT8_C(16));
    if (l23) {
        l30 = read_exprs__expr__expr(l1, l2, l3, l8, l9);
        l29 = core__result__ResultTry__branch__rt_tuple2_u64_Facts_Refusal(l30);
        switch (l29.tag) {
            case UINT8_C(0): {
                break;
            }
            case UINT8_C(1): default: {
                {
                    struct core__result__Result__rt_tuple2_u64_Facts_Refusal r = core__result__ResultFromResidualErrResidual__from_resi_fbfd7bc2(l29.s1);
                    l0.tag = r.tag;
                    l0.s0.f0 = r.s0.f0;
                    l0.s0.f1.f0 = r.s0.f1.f0;
                    l0.s0.f1.f1 = r.s0.f1.f1;
                    l0.s0.f1.f2 = r.s0.f1.f2;
                    l0.s0.f1.f3 = r.s0.f1.f3;
                    l0.s1.tag = r.s1.tag;
                }
                return l0;
                break;
            }
        }
        l32 = judging__expression__negated(l29.s0.f1);
        l33.f0 = l29.s0.f0;
        l33.f1.f0 = l32.f0;
        l33.f1.f1 = l32.f1;
        l33.f1.f2 = l32.f2;
        l33.f1.f3 = l32.f3;
        l0.tag = UINT8_C(0);
        l0.s0.f0 = l33.f0;
        l0.s0.f1.f0 = l33.f1.f0;
        l0.s0.f1.f1 = l33.f1.f1;
        l0.s0.f1.f2 = l33.f1.f2;
        l0.s0.f1.f3 = l33.f1.f3;
        return l0;
    }
    l23 = (uint8_t)(l27 == UINT8_C(17));
    if (l23) {
        {
            struct core__result__Result__rt_tuple2_u64_Facts_Refusal r = read_exprs__expr__construct(l1, l2, l3, l8, l9);
            l0.tag = r.tag;
            l0.s0.f0 = r.s0.f0;
            l0.s0.f1.f0 = r.s0.f1.f0;
            l0.s0.f1.f1 = r.s0.f1.f1;
            l0.s0.f1.f2 = r.s0.f1.f2;
            l0.s0.f1.f3 = r.s0.f1.f3;
            l0.s1.tag = r.s1.tag;
        }
        return l0;
    }
    l23 = (uint8_t)(l27 < UINT8_C(32));
    if (l23) {
        {
            struct core__result__Result__rt_tuple2_u64_Facts_Refusal r = read_exprs__leaf__leaf(l1, l2, l3, l27, l8);
            l0.tag = r.tag;
            l0.s0.f0 = r.s0.f0;
            l0.s0.f1.f0 = r.s0.f1.f0;
            l0.s0.f1.f1 = r.s0.f1.f1;
            l0.s0.f1.f2 = r.s0.f1.f2;
            l0.s0.f1.f3 = r.s0.f1.f3;
            l0.s1.tag = r.s1.tag;
        }
        return l0;
    }
    l23 = (uint8_t)(UINT8_C(44) < l27);
    if (l23) {
        l34.tag = UINT8_C(4);
        l0.tag = UINT8_C(1);
        l0.s1 = l34;
        return l0;
    }
    l37 = read_exprs__expr__expr(l1, l2, l3, l8, l9);
    l36 = core__result__ResultTry__branch__rt_tuple2_u64_Facts_Refusal(l37);
    switch (l36.tag) {
        case UINT8_C(0): {
            break;
        }
        case UINT8_C(1): default: {
            {
                struct core__result__Result__rt_tuple2_u64_Facts_Refusal r = core__result__ResultFromResidualErrResidual__from_resi_fbfd7bc2(l36.s1);
                l0.tag = r.tag;
                l0.s0.f0 = r.s0.f0;
                l0.s0.f1.f0 = r.s0.f1.f0;
                l0.s0.f1.f1 = r.s0.f1.f1;
                l0.s0.f1.f2 = r.s0.f1.f2;
                l0.s0.f1.f3 = r.s0.f1.f3;
                l0.s1.tag = r.s1.tag;
            }
            return l0;
            break;
        }
    }
    l37 = read_exprs__expr__expr(l1, l2, l3, l36.s0.f0, l9);
    l40 = core__result__ResultTry__branch__rt_tuple2_u64_Facts_Refusal(l37);
    switch (l40.tag) {
        case UINT8_C(0): {
            break;
        }
        case UINT8_C(1): default: {
            {
                struct core__result__Result__rt_tuple2_u64_Facts_Refusal r = core__result__ResultFromResidualErrResidual__from_resi_fbfd7bc2(l40.s1);
                l0.tag = r.tag;
                l0.s0.f0 = r.s0.f0;
                l0.s0.f1.f0 = r.s0.f1.f0;
                l0.s0.f1.f1 = r.s0.f1.f1;
                l0.s0.f1.f2 = r.s0.f1.f2;
                l0.s0.f1.f3 = r.s0.f1.f3;
                l0.s1.tag = r.s1.tag;
            }
            return l0;
            break;
        }
    }
    l42 = judging__expression__combined(l27, l36.s0.f1, l40.s0.f1);
    l43.f0 = l40.s0.f0;
    l43.f1.f0 = l42.f0;
    l43.f1.f1 = l42.f1;
    l43.f1.f2 = l42.f2;
    l43.f1.f3 = l42.f3;
    l0.tag = UINT8_C(0);
    l0.s0.f0 = l43.f0;
    l0.s0.f1.f0 = l43.f1.f0;
    l0.s0.f1.f1 = l43.f1.f1;
    l0.s0.f1.f2 = l43.f1.f2;
    l0.s0.f1.f3 = l43.f1.f3;
    return l0;
}

static RT_HERE struct core__result__Result__rt_tuple2_u64_Facts_Refusal read_exprs__leaf__bool_byte(rt_slice l1, uint64_t l2)
{
    struct core__result__Result__rt_tuple2_u64_Facts_Refusal l0;
    struct core__ops__ControlFlow__ErrResidual_Refusal_rt_tuple2_u8_u64 l7;
    struct core__result__Result__rt_tuple2_u8_u64_Refusal l8;
    struct judge__Facts l10;
    struct rt_tuple2__u64_Facts l11;
    l8 = read_exprs__read__ranged(l1, UINT64_C(0), UINT64_C(2), l2);
    l7 = core__result__ResultTry__branch__rt_tuple2_u8_u64_Refusal(l8);
    switch (l7.tag) {
        case UINT8_C(0): {
            break;
        }
        case UINT8_C(1): default: {
            {
                struct core__result__Result__rt_tuple2_u64_Facts_Refusal r = core__result__ResultFromResidualErrResidual__from_resi_fbfd7bc2(l7.s1);
                l0.tag = r.tag;
                l0.s0.f0 = r.s0.f0;
                l0.s0.f1.f0 = r.s0.f1.f0;
                l0.s0.f1.f1 = r.s0.f1.f1;
                l0.s0.f1.f2 = r.s0.f1.f2;
                l0.s0.f1.f3 = r.s0.f1.f3;
                l0.s1.tag = r.s1.tag;
            }
            return l0;
            break;
        }
    }
    l10 = judging__expression__pushed(UINT8_C(2));
    l11.f0 = l7.s0.f1;
    l11.f1.f0 = l10.f0;
    l11.f1.f1 = l10.f1;
    l11.f1.f2 = l10.f2;
    l11.f1.f3 = l10.f3;
    l0.tag = UINT8_C(0);
    l0.s0.f0 = l11.f0;
    l0.s0.f1.f0 = l11.f1.f0;
    l0.s0.f1.f1 = l11.f1.f1;
    l0.s0.f1.f2 = l11.f1.f2;
    l0.s0.f1.f3 = l11.f1.f3;
    return l0;
}

static inline struct core__result__Result__rt_tuple2_u64_Facts_Refusal read_exprs__leaf__leaf(rt_slice l1, uint8_t *l2, uint64_t l3, uint8_t l4, uint64_t l5)
{
    struct core__result__Result__rt_tuple2_u64_Facts_Refusal l0;
    uint8_t l6;
    uint64_t l7;
    struct judge__Facts l8;
    uint8_t l9;
    uint8_t l10;
    struct rt_tuple2__u64_Facts l11;
    struct types__refusal__Refusal l12;
    l6 = (uint8_t)(l4 == UINT8_C(18));
    if (l6) {
        {
            struct core__result__Result__rt_tuple2_u64_Facts_Refusal r = read_exprs__leaf__travel(l1, l2, l3, l5);
            l0.tag = r.tag;
            l0.s0.f0 = r.s0.f0;
            l0.s0.f1.f0 = r.s0.f1.f0;
            l0.s0.f1.f1 = r.s0.f1.f1;
            l0.s0.f1.f2 = r.s0.f1.f2;
            l0.s0.f1.f3 = r.s0.f1.f3;
            l0.s1.tag = r.s1.tag;
        }
        return l0;
    }
    l6 = (uint8_t)(l4 == UINT8_C(19));
    if (l6) {
        {
            struct core__result__Result__rt_tuple2_u64_Facts_Refusal r = read_exprs__leaf__word(l1, UINT8_C(0), l5);
            l0.tag = r.tag;
            l0.s0.f0 = r.s0.f0;
            l0.s0.f1.f0 = r.s0.f1.f0;
            l0.s0.f1.f1 = r.s0.f1.f1;
            l0.s0.f1.f2 = r.s0.f1.f2;
            l0.s0.f1.f3 = r.s0.f1.f3;
            l0.s1.tag = r.s1.tag;
        }
        return l0;
    }
    l6 = (uint8_t)(l4 == UINT8_C(20));
    if (l6) {
        {
            struct core__result__Result__rt_tuple2_u64_Facts_Refusal r = read_exprs__leaf__word(l1, UINT8_C(1), l5);
            l0.tag = r.tag;
            l0.s0.f0 = r.s0.f0;
            l0.s0.f1.f0 = r.s0.f1.f0;
            l0.s0.f1.f1 = r.s0.f1.f1;
            l0.s0.f1.f2 = r.s0.f1.f2;
            l0.s0.f1.f3 = r.s0.f1.f3;
            l0.s1.tag = r.s1.tag;
        }
        return l0;
    }
    l6 = (uint8_t)(l4 == UINT8_C(21));
    if (l6) {
        {
            struct core__result__Result__rt_tuple2_u64_Facts_Refusal r = read_exprs__leaf__bool_byte(l1, l5);
            l0.tag = r.tag;
            l0.s0.f0 = r.s0.f0;
            l0.s0.f1.f0 = r.s0.f1.f0;
            l0.s0.f1.f1 = r.s0.f1.f1;
            l0.s0.f1.f2 = r.s0.f1.f2;
            l0.s0.f1.f3 = r.s0.f1.f3;
            l0.s1.tag = r.s1.tag;
        }
        return l0;
    }
    l6 = (uint8_t)(l4 == UINT8_C(22));
    if (l6) {
        l7 = (*(struct read_exprs__read__Names *)l2).f0.n;
        {
            struct core__result__Result__rt_tuple2_u64_Facts_Refusal r = read_exprs__leaf__null(l1, l7, l5);
            l0.tag = r.tag;
            l0.s0.f0 = r.s0.f0;
            l0.s0.f1.f0 = r.s0.f1.f0;
            l0.s0.f1.f1 = r.s0.f1.f1;
            l0.s0.f1.f2 = r.s0.f1.f2;
            l0.s0.f1.f3 = r.s0.f1.f3;
            l0.s1.tag = r.s1.tag;
        }
        return l0;
    }
    l6 = (uint8_t)(l4 == UINT8_C(23));
    if (l6) {
        l9 = (*(struct read_exprs__read__Names *)l2).f2;
        l10 = (uint8_t)((uint32_t)UINT8_C(16) + (uint32_t)l9);
        l8 = judging__expression__pushed(l10);
        l11.f0 = l5;
        l11.f1.f0 = l8.f0;
        l11.f1.f1 = l8.f1;
        l11.f1.f2 = l8.f2;
        l11.f1.f3 = l8.f3;
        l0.tag = UINT8_C(0);
        l0.s0.f0 = l11.f0;
        l0.s0.f1.f0 = l11.f1.f0;
        l0.s0.f1.f1 = l11.f1.f1;
        l0.s0.f1.f2 = l11.f1.f2;
        l0.s0.f1.f3 = l11.f1.f3;
        return l0;
    }
    l12.tag = UINT8_C(4);
    l0.tag = UINT8_C(1);
    l0.s1 = l12;
    return l0;
}

static RT_HERE struct core__result__Result__rt_tuple2_u64_Facts_Refusal read_exprs__leaf__null(rt_slice l1, uint64_t l2, uint64_t l3)
{
    struct core__result__Result__rt_tuple2_u64_Facts_Refusal l0;
    struct core__ops__ControlFlow__ErrResidual_Refusal_rt_tuple2_u8_u64 l9;
    struct core__result__Result__rt_tuple2_u8_u64_Refusal l10;
    struct judge__Facts l12;
    struct rt_tuple2__u64_Facts l13;
    l10 = read_exprs__read__type_byte(l1, l2, l3);
    l9 = core__result__ResultTry__branch__rt_tuple2_u8_u64_Refusal(l10);
    switch (l9.tag) {
        case UINT8_C(0): {
            break;
        }
        case UINT8_C(1): default: {
            {
                struct core__result__Result__rt_tuple2_u64_Facts_Refusal r = core__result__ResultFromResidualErrResidual__from_resi_fbfd7bc2(l9.s1);
                l0.tag = r.tag;
                l0.s0.f0 = r.s0.f0;
                l0.s0.f1.f0 = r.s0.f1.f0;
                l0.s0.f1.f1 = r.s0.f1.f1;
                l0.s0.f1.f2 = r.s0.f1.f2;
                l0.s0.f1.f3 = r.s0.f1.f3;
                l0.s1.tag = r.s1.tag;
            }
            return l0;
            break;
        }
    }
    l12 = judging__expression__pushed(l9.s0.f0);
    l13.f0 = l9.s0.f1;
    l13.f1.f0 = l12.f0;
    l13.f1.f1 = l12.f1;
    l13.f1.f2 = l12.f2;
    l13.f1.f3 = l12.f3;
    l0.tag = UINT8_C(0);
    l0.s0.f0 = l13.f0;
    l0.s0.f1.f0 = l13.f1.f0;
    l0.s0.f1.f1 = l13.f1.f1;
    l0.s0.f1.f2 = l13.f1.f2;
    l0.s0.f1.f3 = l13.f1.f3;
    return l0;
}

static RT_HERE struct core__result__Result__rt_tuple2_u64_Facts_Refusal read_exprs__leaf__travel(rt_slice l1, uint8_t *l2, uint64_t l3, uint64_t l4)
{
    struct core__result__Result__rt_tuple2_u64_Facts_Refusal l0;
    struct core__ops__ControlFlow__ErrResidual_Refusal_rt_tuple3__6dda1656 l11;
    struct core__result__Result__rt_tuple3_u64_u8_Judged_Refusal l12;
    struct judge__Facts l14;
    struct rt_tuple2__u64_Facts l15;
    l12 = read_exprs__path__path(l1, l2, l3, l4);
    l11 = core__result__ResultTry__branch__rt_tuple3_u64_u8_Judg_d80f38d1(l12);
    switch (l11.tag) {
        case UINT8_C(0): {
            break;
        }
        case UINT8_C(1): default: {
            {
                struct core__result__Result__rt_tuple2_u64_Facts_Refusal r = core__result__ResultFromResidualErrResidual__from_resi_fbfd7bc2(l11.s1);
                l0.tag = r.tag;
                l0.s0.f0 = r.s0.f0;
                l0.s0.f1.f0 = r.s0.f1.f0;
                l0.s0.f1.f1 = r.s0.f1.f1;
                l0.s0.f1.f2 = r.s0.f1.f2;
                l0.s0.f1.f3 = r.s0.f1.f3;
                l0.s1.tag = r.s1.tag;
            }
            return l0;
            break;
        }
    }
    l14 = judging__expression__travelled(l11.s0.f1, l11.s0.f2);
    l15.f0 = l11.s0.f0;
    l15.f1.f0 = l14.f0;
    l15.f1.f1 = l14.f1;
    l15.f1.f2 = l14.f2;
    l15.f1.f3 = l14.f3;
    l0.tag = UINT8_C(0);
    l0.s0.f0 = l15.f0;
    l0.s0.f1.f0 = l15.f1.f0;
    l0.s0.f1.f1 = l15.f1.f1;
    l0.s0.f1.f2 = l15.f1.f2;
    l0.s0.f1.f3 = l15.f1.f3;
    return l0;
}

static RT_HERE struct core__result__Result__rt_tuple2_u64_Facts_Refusal read_exprs__leaf__word(rt_slice l1, uint8_t l2, uint64_t l3)
{
    struct core__result__Result__rt_tuple2_u64_Facts_Refusal l0;
    uint64_t l4;
    uint64_t l5;
    uint8_t l6;
    struct types__refusal__Refusal l7;
    struct judge__Facts l8;
    struct rt_tuple2__u64_Facts l9;
    l4 = l1.n;
    l5 = (uint64_t)((uint64_t)l4 - (uint64_t)l3);
    l6 = (uint8_t)(l5 < UINT64_C(4));
    if (l6) {
        l7.tag = UINT8_C(3);
        l0.tag = UINT8_C(1);
        l0.s1 = l7;
        return l0;
    }
    l4 = (uint64_t)((uint64_t)l3 + (uint64_t)UINT64_C(4));
    l8 = judging__expression__pushed(l2);
    l9.f0 = l4;
    l9.f1.f0 = l8.f0;
    l9.f1.f1 = l8.f1;
    l9.f1.f2 = l8.f2;
    l9.f1.f3 = l8.f3;
    l0.tag = UINT8_C(0);
    l0.s0.f0 = l9.f0;
    l0.s0.f1.f0 = l9.f1.f0;
    l0.s0.f1.f1 = l9.f1.f1;
    l0.s0.f1.f2 = l9.f1.f2;
    l0.s0.f1.f3 = l9.f1.f3;
    return l0;
}

static RT_HERE struct core__result__Result__rt_tuple3_u64_u8_Judged_Refusal read_exprs__path__first(rt_slice l1, uint8_t *l2, uint64_t l3, uint8_t l4, uint64_t l5)
{
    struct core__result__Result__rt_tuple3_u64_u8_Judged_Refusal l0;
    struct judge__Judged l10;
    struct core__ops__ControlFlow__ErrResidual_Refusal_rt_tuple2_u8_u64 l12;
    struct core__result__Result__rt_tuple2_u8_u64_Refusal l13;
    rt_slice l15;
    rt_slice l16;
    uint8_t l17;
    l13 = read_exprs__read__ranged(l1, UINT64_C(0), UINT64_C(16), l5);
    l12 = core__result__ResultTry__branch__rt_tuple2_u8_u64_Refusal(l13);
    switch (l12.tag) {
        case UINT8_C(0): {
            break;
        }
        case UINT8_C(1): default: {
            {
                struct core__result__Result__rt_tuple3_u64_u8_Judged_Refusal r = core__result__ResultFromResidualErrResidual__from_resi_29dc3d9d(l12.s1);
                l0.tag = r.tag;
                l0.s0.f0 = r.s0.f0;
                l0.s0.f1 = r.s0.f1;
                l0.s0.f2.f0 = r.s0.f2.f0;
                l0.s0.f2.f1 = r.s0.f2.f1;
                l0.s1.tag = r.s1.tag;
            }
            return l0;
            break;
        }
    }
    l15 = (*(struct read_exprs__read__Names *)l2).f0;
    l16 = (*(struct read_exprs__read__Names *)l2).f1;
    l17 = (*(struct read_exprs__read__Names *)l2).f2;
    l10 = judging__path__start(l15, l16, l17, l3, l12.s0.f0);
    l17 = (uint8_t)((uint32_t)l4 - (uint32_t)UINT8_C(1));
    {
        struct core__result__Result__rt_tuple3_u64_u8_Judged_Refusal r = read_exprs__path__follow(l1, l2, l10, l17, UINT8_C(1), l12.s0.f1);
        l0.tag = r.tag;
        l0.s0.f0 = r.s0.f0;
        l0.s0.f1 = r.s0.f1;
        l0.s0.f2.f0 = r.s0.f2.f0;
        l0.s0.f2.f1 = r.s0.f2.f1;
        l0.s1.tag = r.s1.tag;
    }
    return l0;
}

static RT_HERE struct core__result__Result__rt_tuple3_u64_u8_Judged_Refusal read_exprs__path__follow(rt_slice l1, uint8_t *l2, struct judge__Judged l3, uint8_t l4, uint8_t l5, uint64_t l6)
{
    struct core__result__Result__rt_tuple3_u64_u8_Judged_Refusal l0;
    struct judge__Judged l7;
    uint64_t l8;
    uint8_t l9;
    uint8_t l14;
    struct core__ops__ControlFlow__ErrResidual_Refusal_rt_tuple2_u8_u64 l16;
    struct core__result__Result__rt_tuple2_u8_u64_Refusal l17;
    rt_slice l19;
    rt_slice l20;
    uint8_t l21;
    struct rt_tuple3__u64_u8_Judged l22;
    l7.f0 = l3.f0;
    l7.f1 = l3.f1;
    l8 = l6;
    l9 = UINT8_C(0);
    for (;;) {
        l14 = (uint8_t)(l9 < l4);
        if (l14) {
        } else {
            goto end1;
        }
        l17 = read_exprs__read__ranged(l1, UINT64_C(0), UINT64_C(8), l8);
        l16 = core__result__ResultTry__branch__rt_tuple2_u8_u64_Refusal(l17);
        switch (l16.tag) {
            case UINT8_C(0): {
                break;
            }
            case UINT8_C(1): default: {
                {
                    struct core__result__Result__rt_tuple3_u64_u8_Judged_Refusal r = core__result__ResultFromResidualErrResidual__from_resi_29dc3d9d(l16.s1);
                    l0.tag = r.tag;
                    l0.s0.f0 = r.s0.f0;
                    l0.s0.f1 = r.s0.f1;
                    l0.s0.f2.f0 = r.s0.f2.f0;
                    l0.s0.f2.f1 = r.s0.f2.f1;
                    l0.s1.tag = r.s1.tag;
                }
                return l0;
                break;
            }
        }
        l19 = (*(struct read_exprs__read__Names *)l2).f0;
        l20 = (*(struct read_exprs__read__Names *)l2).f1;
        l7 = judging__path__lead_by(l19, l20, l7, l16.s0.f0);
        l8 = l16.s0.f1;
        l9 = (uint8_t)((uint32_t)l9 + (uint32_t)UINT8_C(1));
    }
end1:;
    l21 = (uint8_t)((uint32_t)l4 + (uint32_t)l5);
    l22.f0 = l8;
    l22.f1 = l21;
    l22.f2.f0 = l7.f0;
    l22.f2.f1 = l7.f1;
    l0.tag = UINT8_C(0);
    l0.s0.f0 = l22.f0;
    l0.s0.f1 = l22.f1;
    l0.s0.f2.f0 = l22.f2.f0;
    l0.s0.f2.f1 = l22.f2.f1;
    return l0;
}

static RT_HERE struct core__result__Result__rt_tuple3_u64_u8_Judged_Refusal read_exprs__path__path(rt_slice l1, uint8_t *l2, uint64_t l3, uint64_t l4)
{
    struct core__result__Result__rt_tuple3_u64_u8_Judged_Refusal l0;
    struct core__ops__ControlFlow__ErrResidual_Refusal_rt_tuple2_u8_u64 l10;
    struct core__result__Result__rt_tuple2_u8_u64_Refusal l11;
    uint64_t l12;
    l12 = (uint64_t)((uint64_t)UINT64_C(4) + (uint64_t)UINT64_C(1));
    l11 = read_exprs__read__ranged(l1, UINT64_C(1), l12, l4);
    l10 = core__result__ResultTry__branch__rt_tuple2_u8_u64_Refusal(l11);
    switch (l10.tag) {
        case UINT8_C(0): {
            break;
        }
        case UINT8_C(1): default: {
            {
                struct core__result__Result__rt_tuple3_u64_u8_Judged_Refusal r = core__result__ResultFromResidualErrResidual__from_resi_29dc3d9d(l10.s1);
                l0.tag = r.tag;
                l0.s0.f0 = r.s0.f0;
                l0.s0.f1 = r.s0.f1;
                l0.s0.f2.f0 = r.s0.f2.f0;
                l0.s0.f2.f1 = r.s0.f2.f1;
                l0.s1.tag = r.s1.tag;
            }
            return l0;
            break;
        }
    }
    {
        struct core__result__Result__rt_tuple3_u64_u8_Judged_Refusal r = read_exprs__path__first(l1, l2, l3, l10.s0.f0, l10.s0.f1);
        l0.tag = r.tag;
        l0.s0.f0 = r.s0.f0;
        l0.s0.f1 = r.s0.f1;
        l0.s0.f2.f0 = r.s0.f2.f0;
        l0.s0.f2.f1 = r.s0.f2.f1;
        l0.s1.tag = r.s1.tag;
    }
    return l0;
}

static RT_HERE struct core__result__Result__rt_tuple2_u8_u64_Refusal read_exprs__read__byte(rt_slice l1, uint64_t l2)
{
    struct core__result__Result__rt_tuple2_u8_u64_Refusal l0;
    uint64_t l3;
    uint8_t l4;
    struct types__refusal__Refusal l5;
    uint8_t *l6;
    uint8_t l7;
    struct rt_tuple2__u8_u64 l8;
    l3 = l1.n;
    l4 = (uint8_t)(l3 <= l2);
    if (l4) {
        l5.tag = UINT8_C(3);
        l0.tag = UINT8_C(1);
        l0.s1 = l5;
        return l0;
    }
    l6 = l1.p + (size_t)l2;
    l7 = (*(uint8_t *)l6);
    l3 = (uint64_t)((uint64_t)l2 + (uint64_t)UINT64_C(1));
    l8.f0 = l7;
    l8.f1 = l3;
    l0.tag = UINT8_C(0);
    l0.s0.f0 = l8.f0;
    l0.s0.f1 = l8.f1;
    return l0;
}

static RT_SHORT uint8_t read_exprs__read__is_type(uint64_t l1, uint8_t l2)
{
    uint8_t l0;
    uint64_t l3;
    uint8_t l4;
    l3 = core__int__usize__min(l1, UINT64_C(255));
    l4 = (uint8_t)l3;
    l0 = types__is_type(l4, l2);
    return l0;
}

static inline struct core__result__Result__rt_tuple2_u8_u64_Refusal read_exprs__read__ranged(rt_slice l1, uint64_t l2, uint64_t l3, uint64_t l4)
{
    struct core__result__Result__rt_tuple2_u8_u64_Refusal l0;
    uint64_t l9;
    struct core__ops__ControlFlow__ErrResidual_Refusal_rt_tuple2_u8_u64 l11;
    struct core__result__Result__rt_tuple2_u8_u64_Refusal l12;
    uint8_t l14;
    uint8_t l15;
    struct types__refusal__Refusal l16;
    struct rt_tuple2__u8_u64 l17;
    l12 = read_exprs__read__byte(l1, l4);
    l11 = core__result__ResultTry__branch__rt_tuple2_u8_u64_Refusal(l12);
    switch (l11.tag) {
        case UINT8_C(0): {
            break;
        }
        case UINT8_C(1): default: {
            {
                struct core__result__Result__rt_tuple2_u8_u64_Refusal r = core__result__ResultFromResidualErrResidual__from_resi_79390567(l11.s1);
                l0.tag = r.tag;
                l0.s0.f0 = r.s0.f0;
                l0.s0.f1 = r.s0.f1;
                l0.s1.tag = r.s1.tag;
            }
            return l0;
            break;
        }
    }
    l9 = core__convert__UsizeFromU8__from(l11.s0.f0);
    l14 = (uint8_t)(l9 < l2);
    if (l14) {
    } else {
        l14 = (uint8_t)(l3 <= l9);
        l15 = l14;
        if (l15) {
        } else {
            goto end2;
        }
    }
    l16.tag = UINT8_C(4);
    l0.tag = UINT8_C(1);
    l0.s1 = l16;
    return l0;
    goto end1;
end2:;
end1:;
    l17.f0 = l11.s0.f0;
    l17.f1 = l11.s0.f1;
    l0.tag = UINT8_C(0);
    l0.s0.f0 = l17.f0;
    l0.s0.f1 = l17.f1;
    return l0;
}

static RT_HERE struct core__result__Result__rt_tuple2_u8_u64_Refusal read_exprs__read__type_byte(rt_slice l1, uint64_t l2, uint64_t l3)
{
    struct core__result__Result__rt_tuple2_u8_u64_Refusal l0;
    struct core__ops__ControlFlow__ErrResidual_Refusal_rt_tuple2_u8_u64 l9;
    struct core__result__Result__rt_tuple2_u8_u64_Refusal l10;
    uint8_t l12;
    uint8_t l13;
    struct types__refusal__Refusal l14;
    struct rt_tuple2__u8_u64 l15;
    l10 = read_exprs__read__byte(l1, l3);
    l9 = core__result__ResultTry__branch__rt_tuple2_u8_u64_Refusal(l10);
    switch (l9.tag) {
        case UINT8_C(0): {
            break;
        }
        case UINT8_C(1): default: {
            {
                struct core__result__Result__rt_tuple2_u8_u64_Refusal r = core__result__ResultFromResidualErrResidual__from_resi_79390567(l9.s1);
                l0.tag = r.tag;
                l0.s0.f0 = r.s0.f0;
                l0.s0.f1 = r.s0.f1;
                l0.s1.tag = r.s1.tag;
            }
            return l0;
            break;
        }
    }
    l12 = read_exprs__read__is_type(l2, l9.s0.f0);
    l13 = (uint8_t)!l12;
    if (l13) {
        l14.tag = UINT8_C(4);
        l0.tag = UINT8_C(1);
        l0.s1 = l14;
        return l0;
    }
    l15.f0 = l9.s0.f0;
    l15.f1 = l9.s0.f1;
    l0.tag = UINT8_C(0);
    l0.s0.f0 = l15.f0;
    l0.s0.f1 = l15.f1;
    return l0;
}

static RT_SHORT void read_params__clear(rt_slice l1, uint64_t l2, uint64_t l3)
{
    uint64_t l5;
    uint8_t *l6;
    uint64_t l7;
    uint8_t *l8;
    rt_slice l9;
    l5 = (uint64_t)((uint64_t)l3 + (uint64_t)l2);
    l6 = l1.p + (size_t)l3;
    l7 = (uint64_t)((uint64_t)l5 - (uint64_t)l3);
    l8 = (uint8_t *)&(*(uint8_t *)l6);
    l9.p = l8;
    l9.n = l7;
    core__slice__edits__slice_T__fill__u8(l9, UINT8_C(0));
    return;
}

static RT_HERE struct core__result__Result__u64_Refusal read_params__list(rt_slice l1, rt_slice l2, rt_slice l3, uint64_t l4, uint64_t l5, uint64_t l6)
{
    struct core__result__Result__u64_Refusal l0;
    struct core__ops__ControlFlow__ErrResidual_Refusal_rt_tuple2_u8_u64 l12;
    struct core__result__Result__rt_tuple2_u8_u64_Refusal l13;
    uint64_t l14;
    uint8_t *l16;
    uint8_t *l17;
    rt_slice l18;
    uint64_t l19;
    l14 = (uint64_t)((uint64_t)UINT64_C(8) + (uint64_t)UINT64_C(1));
    l13 = read_exprs__read__ranged(l1, UINT64_C(0), l14, l6);
    l12 = core__result__ResultTry__branch__rt_tuple2_u8_u64_Refusal(l13);
    switch (l12.tag) {
        case UINT8_C(0): {
            break;
        }
        case UINT8_C(1): default: {
            l0 = core__result__ResultFromResidualErrResidual__from_resi_f9cf8d89(l12.s1);
            return l0;
            break;
        }
    }
    l16 = l2.p + (size_t)l5;
    (*(uint8_t *)l16) = l12.s0.f0;
    l17 = (uint8_t *)&(*(uint8_t *)l3.p);
    l18.p = l17;
    l18.n = l3.n;
    l14 = core__convert__UsizeFromU8__from(l12.s0.f0);
    l19 = (uint64_t)((uint64_t)UINT64_C(8) * (uint64_t)l5);
    l0 = read_params__row(l1, l18, l4, l14, UINT64_C(8), l19, l12.s0.f1);
    return l0;
}

static RT_HERE struct core__result__Result__u64_Refusal read_params__lists(rt_slice l1, rt_slice l2, rt_slice l3, uint64_t l4, uint64_t l5)
{
    struct core__result__Result__u64_Refusal l0;
    uint64_t l6;
    uint64_t l7;
    uint8_t l10;
    struct core__ops__ControlFlow__ErrResidual_Refusal_u64 l11;
    struct core__result__Result__u64_Refusal l12;
    uint8_t *l13;
    rt_slice l14;
    uint8_t *l15;
    rt_slice l16;
    l6 = l5;
    l7 = UINT64_C(0);
    for (;;) {
        l10 = (uint8_t)(l7 < l4);
        if (l10) {
        } else {
            goto end1;
        }
        l13 = (uint8_t *)&(*(uint8_t *)l2.p);
        l14.p = l13;
        l14.n = l2.n;
        l15 = (uint8_t *)&(*(uint8_t *)l3.p);
        l16.p = l15;
        l16.n = l3.n;
        l12 = read_params__list(l1, l14, l16, l4, l7, l6);
        l11 = core__result__ResultTry__branch__u64_Refusal(l12);
        switch (l11.tag) {
            case UINT8_C(0): {
                break;
            }
            case UINT8_C(1): default: {
                l0 = core__result__ResultFromResidualErrResidual__from_resi_f9cf8d89(l11.s1);
                return l0;
                break;
            }
        }
        l6 = l11.s0;
        l7 = (uint64_t)((uint64_t)l7 + (uint64_t)UINT64_C(1));
    }
end1:;
    l0.tag = UINT8_C(0);
    l0.s0 = l6;
    return l0;
}

static RT_HERE struct core__result__Result__rt_tuple2_u64_u8_Refusal read_params__params(rt_slice l1, rt_slice l2, rt_slice l3)
{
    struct core__result__Result__rt_tuple2_u64_u8_Refusal l0;
    struct core__ops__ControlFlow__ErrResidual_Refusal_rt_tuple2_u8_u64 l12;
    struct core__result__Result__rt_tuple2_u8_u64_Refusal l13;
    uint64_t l14;
    struct core__ops__ControlFlow__ErrResidual_Refusal_u64 l16;
    struct core__result__Result__u64_Refusal l17;
    uint8_t *l18;
    rt_slice l19;
    uint8_t *l20;
    rt_slice l21;
    struct rt_tuple2__u64_u8 l23;
    l14 = (uint64_t)((uint64_t)UINT64_C(16) + (uint64_t)UINT64_C(1));
    l13 = read_exprs__read__ranged(l1, UINT64_C(1), l14, UINT64_C(0));
    l12 = core__result__ResultTry__branch__rt_tuple2_u8_u64_Refusal(l13);
    switch (l12.tag) {
        case UINT8_C(0): {
            break;
        }
        case UINT8_C(1): default: {
            {
                struct core__result__Result__rt_tuple2_u64_u8_Refusal r = core__result__ResultFromResidualErrResidual__from_resi_199ff778(l12.s1);
                l0.tag = r.tag;
                l0.s0.f0 = r.s0.f0;
                l0.s0.f1 = r.s0.f1;
                l0.s1.tag = r.s1.tag;
            }
            return l0;
            break;
        }
    }
    l18 = (uint8_t *)&(*(uint8_t *)l2.p);
    l19.p = l18;
    l19.n = l2.n;
    l20 = (uint8_t *)&(*(uint8_t *)l3.p);
    l21.p = l20;
    l21.n = l3.n;
    l14 = core__convert__UsizeFromU8__from(l12.s0.f0);
    l17 = read_params__lists(l1, l19, l21, l14, l12.s0.f1);
    l16 = core__result__ResultTry__branch__u64_Refusal(l17);
    switch (l16.tag) {
        case UINT8_C(0): {
            break;
        }
        case UINT8_C(1): default: {
            {
                struct core__result__Result__rt_tuple2_u64_u8_Refusal r = core__result__ResultFromResidualErrResidual__from_resi_199ff778(l16.s1);
                l0.tag = r.tag;
                l0.s0.f0 = r.s0.f0;
                l0.s0.f1 = r.s0.f1;
                l0.s1.tag = r.s1.tag;
            }
            return l0;
            break;
        }
    }
    l23.f0 = l16.s0;
    l23.f1 = l12.s0.f0;
    l0.tag = UINT8_C(0);
    l0.s0.f0 = l23.f0;
    l0.s0.f1 = l23.f1;
    return l0;
}

static RT_HERE struct core__result__Result__u64_Refusal read_params__row(rt_slice l1, rt_slice l2, uint64_t l3, uint64_t l4, uint64_t l5, uint64_t l6, uint64_t l7)
{
    struct core__result__Result__u64_Refusal l0;
    uint64_t l8;
    uint64_t l9;
    uint8_t l14;
    struct core__ops__ControlFlow__ErrResidual_Refusal_rt_tuple2_u8_u64 l16;
    struct core__result__Result__rt_tuple2_u8_u64_Refusal l17;
    uint64_t l19;
    uint8_t *l20;
    uint8_t *l22;
    rt_slice l23;
    uint64_t l24;
    uint64_t l25;
    l8 = l7;
    l9 = UINT64_C(0);
    for (;;) {
        l14 = (uint8_t)(l9 < l4);
        if (l14) {
        } else {
            goto end1;
        }
        l17 = read_exprs__read__type_byte(l1, l3, l8);
        l16 = core__result__ResultTry__branch__rt_tuple2_u8_u64_Refusal(l17);
        switch (l16.tag) {
            case UINT8_C(0): {
                break;
            }
            case UINT8_C(1): default: {
                l0 = core__result__ResultFromResidualErrResidual__from_resi_f9cf8d89(l16.s1);
                return l0;
                break;
            }
        }
        l19 = (uint64_t)((uint64_t)l6 + (uint64_t)l9);
        l20 = l2.p + (size_t)l19;
        (*(uint8_t *)l20) = l16.s0.f0;
        l8 = l16.s0.f1;
        l9 = (uint64_t)((uint64_t)l9 + (uint64_t)UINT64_C(1));
    }
end1:;
    l22 = (uint8_t *)&(*(uint8_t *)l2.p);
    l23.p = l22;
    l23.n = l2.n;
    l24 = (uint64_t)((uint64_t)l5 - (uint64_t)l4);
    l25 = (uint64_t)((uint64_t)l6 + (uint64_t)l4);
    read_params__clear(l23, l24, l25);
    l0.tag = UINT8_C(0);
    l0.s0 = l8;
    return l0;
}

static RT_HERE struct core__result__Result__rt_tuple2_u64_Summary_Refusal read_program__end(rt_slice l1, rt_slice l2, uint8_t l3, uint64_t l4, struct read_program__totals__Totals l5, uint64_t l6)
{
    struct core__result__Result__rt_tuple2_u64_Summary_Refusal l0;
    struct read_schedule__Steps l7;
    uint8_t l12;
    struct core__ops__ControlFlow__ErrResidual_Refusal_rt_tuple2__d7d566f0 l14;
    struct core__result__Result__rt_tuple2_u64_Planned_Refusal l15;
    uint8_t *l16;
    uint8_t l19;
    struct types__refusal__Refusal l20;
    struct read_program__Summary l21;
    struct rt_tuple2__u64_Summary l22;
    l12 = (uint8_t)l5.f0;
    l7.f0 = l2;
    l7.f1 = l12;
    l7.f2 = l3;
    l16 = (uint8_t *)&l7;
    l15 = read_schedule__items(l1, l16, l6, UINT64_C(8));
    l14 = core__result__ResultTry__branch__rt_tuple2_u64_Planned_Refusal(l15);
    switch (l14.tag) {
        case UINT8_C(0): {
            break;
        }
        case UINT8_C(1): default: {
            {
                struct core__result__Result__rt_tuple2_u64_Summary_Refusal r = core__result__ResultFromResidualErrResidual__from_resi_9aee97b7(l14.s1);
                l0.tag = r.tag;
                l0.s0.f0 = r.s0.f0;
                l0.s0.f1.f0 = r.s0.f1.f0;
                l0.s0.f1.f1 = r.s0.f1.f1;
                l0.s0.f1.f2 = r.s0.f1.f2;
                l0.s0.f1.f3 = r.s0.f1.f3;
                l0.s0.f1.f4 = r.s0.f1.f4;
                l0.s0.f1.f5 = r.s0.f1.f5;
                l0.s1.tag = r.s1.tag;
            }
            return l0;
            break;
        }
    }
    l19 = (uint8_t)(l14.s0.f0 < l1.n);
    if (l19) {
        l20.tag = UINT8_C(3);
        l0.tag = UINT8_C(1);
        l0.s1 = l20;
        return l0;
    }
    l21 = read_program__summed(l3, l6, l5, l14.s0.f1);
    l22.f0 = l4;
    l22.f1.f0 = l21.f0;
    l22.f1.f1 = l21.f1;
    l22.f1.f2 = l21.f2;
    l22.f1.f3 = l21.f3;
    l22.f1.f4 = l21.f4;
    l22.f1.f5 = l21.f5;
    l0.tag = UINT8_C(0);
    l0.s0.f0 = l22.f0;
    l0.s0.f1.f0 = l22.f1.f0;
    l0.s0.f1.f1 = l22.f1.f1;
    l0.s0.f1.f2 = l22.f1.f2;
    l0.s0.f1.f3 = l22.f1.f3;
    l0.s0.f1.f4 = l22.f1.f4;
    l0.s0.f1.f5 = l22.f1.f5;
    return l0;
}

static inline uint8_t read_program__number(struct read_program__totals__Totals l1, struct read_schedule__Planned l2)
{
    uint8_t l0;
    uint8_t l3;
    uint8_t l4;
    uint8_t l5;
    struct types__refusal__Refusal l6;
    l4 = (uint8_t)(l1.f3 != UINT8_C(0));
    if (l4) {
    } else {
        l4 = (uint8_t)(UINT64_C(1024) < l1.f1);
        l3 = l4;
        if (l3) {
        } else {
            l3 = (uint8_t)(UINT64_C(64) < l2.f0);
            l5 = l3;
            if (l5) {
            } else {
                goto end2;
            }
        }
    }
    l6.tag = UINT8_C(5);
    l0 = types__refusal__U8FromRefusal__from(l6);
    return l0;
    goto end1;
end2:;
end1:;
    l0 = judging__fault__worst(l1.f4, l2.f1);
    return l0;
}

static RT_HERE struct core__result__Result__rt_tuple2_u64_Summary_Refusal read_program__program(rt_slice l1, rt_slice l2, rt_slice l3, rt_slice l4)
{
    struct core__result__Result__rt_tuple2_u64_Summary_Refusal l0;
    uint64_t l9;
    uint64_t l10;
    struct core__ops__ControlFlow__ErrResidual_Refusal_rt_tuple2_u64_u8 l12;
    struct core__result__Result__rt_tuple2_u64_u8_Refusal l13;
    uint8_t *l14;
    rt_slice l15;
    uint8_t *l16;
    rt_slice l17;
    uint8_t *l19;
    rt_slice l20;
    uint8_t *l21;
    rt_slice l22;
    uint8_t *l23;
    rt_slice l24;
    l14 = (uint8_t *)&(*(uint8_t *)l2.p);
    l15.p = l14;
    l15.n = l2.n;
    l16 = (uint8_t *)&(*(uint8_t *)l3.p);
    l17.p = l16;
    l17.n = l3.n;
    l13 = read_params__params(l1, l15, l17);
    l12 = core__result__ResultTry__branch__rt_tuple2_u64_u8_Refusal(l13);
    switch (l12.tag) {
        case UINT8_C(0): {
            break;
        }
        case UINT8_C(1): default: {
            {
                struct core__result__Result__rt_tuple2_u64_Summary_Refusal r = core__result__ResultFromResidualErrResidual__from_resi_9aee97b7(l12.s1);
                l0.tag = r.tag;
                l0.s0.f0 = r.s0.f0;
                l0.s0.f1.f0 = r.s0.f1.f0;
                l0.s0.f1.f1 = r.s0.f1.f1;
                l0.s0.f1.f2 = r.s0.f1.f2;
                l0.s0.f1.f3 = r.s0.f1.f3;
                l0.s0.f1.f4 = r.s0.f1.f4;
                l0.s0.f1.f5 = r.s0.f1.f5;
                l0.s1.tag = r.s1.tag;
            }
            return l0;
            break;
        }
    }
    l9 = (uint64_t)l12.s0.f1;
    l10 = (uint64_t)((uint64_t)UINT64_C(8) * (uint64_t)l9);
    l19 = (uint8_t *)&(*(uint8_t *)l2.p);
    l20.p = l19;
    l20.n = l9;
    l21 = (uint8_t *)&(*(uint8_t *)l3.p);
    l22.p = l21;
    l22.n = l10;
    l23 = (uint8_t *)&(*(uint16_t *)l4.p);
    l24.p = l23;
    l24.n = l4.n;
    {
        struct core__result__Result__rt_tuple2_u64_Summary_Refusal r = read_program__rest(l1, l20, l22, l24, l12.s0.f1, l12.s0.f0);
        l0.tag = r.tag;
        l0.s0.f0 = r.s0.f0;
        l0.s0.f1.f0 = r.s0.f1.f0;
        l0.s0.f1.f1 = r.s0.f1.f1;
        l0.s0.f1.f2 = r.s0.f1.f2;
        l0.s0.f1.f3 = r.s0.f1.f3;
        l0.s0.f1.f4 = r.s0.f1.f4;
        l0.s0.f1.f5 = r.s0.f1.f5;
        l0.s1.tag = r.s1.tag;
    }
    return l0;
}

static RT_HERE struct core__result__Result__rt_tuple2_u64_Summary_Refusal read_program__rest(rt_slice l1, rt_slice l2, rt_slice l3, rt_slice l4, uint8_t l5, uint64_t l6)
{
    struct core__result__Result__rt_tuple2_u64_Summary_Refusal l0;
    struct core__ops__ControlFlow__ErrResidual_Refusal_rt_tuple2__da2d7d9c l12;
    struct core__result__Result__rt_tuple2_u64_Totals_Refusal l13;
    uint8_t *l14;
    rt_slice l15;
    struct read_program__totals__Totals l16;
    uint8_t *l18;
    rt_slice l19;
    l14 = (uint8_t *)&(*(uint16_t *)l4.p);
    l15.p = l14;
    l15.n = l4.n;
    l16 = read_program__totals__none();
    l13 = read_program__totals__structs(l1, l2, l3, l15, l5, l16, l6);
    l12 = core__result__ResultTry__branch__rt_tuple2_u64_Totals_Refusal(l13);
    switch (l12.tag) {
        case UINT8_C(0): {
            break;
        }
        case UINT8_C(1): default: {
            {
                struct core__result__Result__rt_tuple2_u64_Summary_Refusal r = core__result__ResultFromResidualErrResidual__from_resi_9aee97b7(l12.s1);
                l0.tag = r.tag;
                l0.s0.f0 = r.s0.f0;
                l0.s0.f1.f0 = r.s0.f1.f0;
                l0.s0.f1.f1 = r.s0.f1.f1;
                l0.s0.f1.f2 = r.s0.f1.f2;
                l0.s0.f1.f3 = r.s0.f1.f3;
                l0.s0.f1.f4 = r.s0.f1.f4;
                l0.s0.f1.f5 = r.s0.f1.f5;
                l0.s1.tag = r.s1.tag;
            }
            return l0;
            break;
        }
    }
    l18 = (uint8_t *)&(*(uint16_t *)l4.p);
    l19.p = l18;
    l19.n = l4.n;
    {
        struct core__result__Result__rt_tuple2_u64_Summary_Refusal r = read_program__end(l1, l19, l5, l6, l12.s0.f1, l12.s0.f0);
        l0.tag = r.tag;
        l0.s0.f0 = r.s0.f0;
        l0.s0.f1.f0 = r.s0.f1.f0;
        l0.s0.f1.f1 = r.s0.f1.f1;
        l0.s0.f1.f2 = r.s0.f1.f2;
        l0.s0.f1.f3 = r.s0.f1.f3;
        l0.s0.f1.f4 = r.s0.f1.f4;
        l0.s0.f1.f5 = r.s0.f1.f5;
        l0.s1.tag = r.s1.tag;
    }
    return l0;
}

static RT_HERE struct read_program__Summary read_program__summed(uint8_t l1, uint64_t l2, struct read_program__totals__Totals l3, struct read_schedule__Planned l4)
{
    struct read_program__Summary l0;
    uint8_t l5;
    l5 = read_program__number(l3, l4);
    l0.f0 = l5;
    l0.f1 = l2;
    l0.f2 = l1;
    l0.f3 = l3.f0;
    l0.f4 = l3.f1;
    l0.f5 = l3.f2;
    return l0;
}

static inline uint8_t read_program__totals__listed(rt_slice l1, uint64_t l2, uint8_t l3, uint8_t l4)
{
    uint8_t l0;
    uint64_t l5;
    struct directory__Row l6;
    uint8_t l7;
    uint64_t l8;
    uint16_t l9;
    l5 = l2;
    for (;;) {
        l7 = (uint8_t)(UINT64_C(0) < l5);
        if (l7) {
        } else {
            goto end1;
        }
        l8 = (uint64_t)((uint64_t)l5 - (uint64_t)UINT64_C(1));
        l6 = directory__rows__row_at(l1, l8);
        l9 = core__convert__U16FromU8__from(l3);
        l7 = (uint8_t)(l6.f0 != l9);
        if (l7) {
            l0 = 0;
            return l0;
        }
        l9 = core__convert__U16FromU8__from(l4);
        l7 = (uint8_t)(l6.f1 == l9);
        if (l7) {
            l0 = 1;
            return l0;
        }
        l5 = (uint64_t)((uint64_t)l5 - (uint64_t)UINT64_C(1));
    }
end1:;
    l0 = 0;
    return l0;
}

static RT_HERE struct read_program__totals__Totals read_program__totals__none(void)
{
    struct read_program__totals__Totals l0;
    l0.f0 = UINT64_C(0);
    l0.f1 = UINT64_C(0);
    l0.f2 = UINT64_C(0);
    l0.f3 = UINT8_C(0);
    l0.f4 = UINT8_C(0);
    return l0;
}

static inline uint8_t read_program__totals__noted(rt_slice l1, uint8_t l2, uint8_t l3, struct read_program__totals__Totals l4, struct judge__Done l5)
{
    uint8_t l0;
    uint8_t l7;
    struct directory__Row l8;
    uint8_t *l9;
    rt_slice l10;
    uint16_t l11;
    uint16_t l12;
    uint16_t l13;
    uint16_t l14;
    uint8_t *l16;
    rt_slice l17;
    l9 = (uint8_t *)&(*(uint16_t *)l1.p);
    l10.p = l9;
    l10.n = l1.n;
    l7 = read_program__totals__listed(l10, l4.f0, l2, l3);
    l11 = core__convert__U16FromU8__from(l2);
    l12 = core__convert__U16FromU8__from(l3);
    l13 = (uint16_t)l4.f1;
    l14 = (uint16_t)l5.f0;
    l8.f0 = l11;
    l8.f1 = l12;
    l8.f2 = l13;
    l8.f3 = l14;
    l16 = (uint8_t *)&(*(uint16_t *)l1.p);
    l17.p = l16;
    l17.n = l1.n;
    directory__rows__put_row(l17, l4.f0, l8);
    l0 = (uint8_t)!l7;
    return l0;
}

static RT_HERE struct core__result__Result__rt_tuple2_u64_Totals_Refusal read_program__totals__of_struct(rt_slice l1, rt_slice l2, rt_slice l3, rt_slice l4, uint8_t l5, struct read_program__totals__Totals l6, uint64_t l7)
{
    struct core__result__Result__rt_tuple2_u64_Totals_Refusal l0;
    struct read_program__totals__Totals l12;
    uint64_t l13;
    uint8_t l14;
    struct core__ops__ControlFlow__ErrResidual_Refusal_rt_tuple2_u8_u64 l20;
    struct core__result__Result__rt_tuple2_u8_u64_Refusal l21;
    uint64_t l22;
    uint8_t l24;
    struct core__ops__ControlFlow__ErrResidual_Refusal_rt_tuple2__da2d7d9c l26;
    struct core__result__Result__rt_tuple2_u64_Totals_Refusal l27;
    uint8_t *l28;
    rt_slice l29;
    struct rt_tuple2__u64_Totals l31;
    l22 = (uint64_t)((uint64_t)UINT64_C(8) + (uint64_t)UINT64_C(1));
    l21 = read_exprs__read__ranged(l1, UINT64_C(0), l22, l7);
    l20 = core__result__ResultTry__branch__rt_tuple2_u8_u64_Refusal(l21);
    switch (l20.tag) {
        case UINT8_C(0): {
            break;
        }
        case UINT8_C(1): default: {
            {
                struct core__result__Result__rt_tuple2_u64_Totals_Refusal r = core__result__ResultFromResidualErrResidual__from_resi_e2c23d53(l20.s1);
                l0.tag = r.tag;
                l0.s0.f0 = r.s0.f0;
                l0.s0.f1.f0 = r.s0.f1.f0;
                l0.s0.f1.f1 = r.s0.f1.f1;
                l0.s0.f1.f2 = r.s0.f1.f2;
                l0.s0.f1.f3 = r.s0.f1.f3;
                l0.s0.f1.f4 = r.s0.f1.f4;
                l0.s1.tag = r.s1.tag;
            }
            return l0;
            break;
        }
    }
    l12.f0 = l6.f0;
    l12.f1 = l6.f1;
    l12.f2 = l6.f2;
    l12.f3 = l6.f3;
    l12.f4 = l6.f4;
    l13 = l20.s0.f1;
    l14 = UINT8_C(0);
    for (;;) {
        l24 = (uint8_t)(l14 < l20.s0.f0);
        if (l24) {
        } else {
            goto end1;
        }
        l28 = (uint8_t *)&(*(uint16_t *)l4.p);
        l29.p = l28;
        l29.n = l4.n;
        l27 = read_program__totals__step(l1, l2, l3, l29, l5, l12, l13);
        l26 = core__result__ResultTry__branch__rt_tuple2_u64_Totals_Refusal(l27);
        switch (l26.tag) {
            case UINT8_C(0): {
                break;
            }
            case UINT8_C(1): default: {
                {
                    struct core__result__Result__rt_tuple2_u64_Totals_Refusal r = core__result__ResultFromResidualErrResidual__from_resi_e2c23d53(l26.s1);
                    l0.tag = r.tag;
                    l0.s0.f0 = r.s0.f0;
                    l0.s0.f1.f0 = r.s0.f1.f0;
                    l0.s0.f1.f1 = r.s0.f1.f1;
                    l0.s0.f1.f2 = r.s0.f1.f2;
                    l0.s0.f1.f3 = r.s0.f1.f3;
                    l0.s0.f1.f4 = r.s0.f1.f4;
                    l0.s1.tag = r.s1.tag;
                }
                return l0;
                break;
            }
        }
        l12.f0 = l26.s0.f1.f0;
        l12.f1 = l26.s0.f1.f1;
        l12.f2 = l26.s0.f1.f2;
        l12.f3 = l26.s0.f1.f3;
        l12.f4 = l26.s0.f1.f4;
        l13 = l26.s0.f0;
        l14 = (uint8_t)((uint32_t)l14 + (uint32_t)UINT8_C(1));
    }
end1:;
    l31.f0 = l13;
    l31.f1.f0 = l12.f0;
    l31.f1.f1 = l12.f1;
    l31.f1.f2 = l12.f2;
    l31.f1.f3 = l12.f3;
    l31.f1.f4 = l12.f4;
    l0.tag = UINT8_C(0);
    l0.s0.f0 = l31.f0;
    l0.s0.f1.f0 = l31.f1.f0;
    l0.s0.f1.f1 = l31.f1.f1;
    l0.s0.f1.f2 = l31.f1.f2;
    l0.s0.f1.f3 = l31.f1.f3;
    l0.s0.f1.f4 = l31.f1.f4;
    return l0;
}

static inline uint8_t read_program__totals__over(uint8_t l1, struct judge__Done l2)
{
    uint8_t l0;
    uint8_t l3;
    uint8_t l4;
    l3 = (uint8_t)(UINT64_C(64) < l2.f0);
    if (l3) {
    } else {
        l3 = (uint8_t)(UINT64_C(16) < l2.f1);
        l4 = l3;
        if (l4) {
        } else {
            goto end2;
        }
    }
    l0 = UINT8_C(1);
    return l0;
    goto end1;
end2:;
end1:;
    l0 = l1;
    return l0;
}

static RT_HERE struct read_program__totals__Totals read_program__totals__plus(struct read_program__totals__Totals l1, struct judge__Done l2, uint8_t l3)
{
    struct read_program__totals__Totals l0;
    uint8_t l4;
    uint8_t l5;
    uint64_t l6;
    uint64_t l7;
    uint64_t l8;
    uint8_t l9;
    l5 = judging__fault__named(l3);
    l4 = judging__fault__worst(l2.f3, l5);
    l6 = (uint64_t)((uint64_t)l1.f0 + (uint64_t)UINT64_C(1));
    l7 = (uint64_t)((uint64_t)l1.f1 + (uint64_t)l2.f0);
    l8 = core__int__usize__max(l1.f2, l2.f1);
    l5 = read_program__totals__over(l1.f3, l2);
    l9 = judging__fault__worst(l1.f4, l4);
    l0.f0 = l6;
    l0.f1 = l7;
    l0.f2 = l8;
    l0.f3 = l5;
    l0.f4 = l9;
    return l0;
}

static RT_HERE struct core__result__Result__rt_tuple2_u64_Totals_Refusal read_program__totals__step(rt_slice l1, rt_slice l2, rt_slice l3, rt_slice l4, uint8_t l5, struct read_program__totals__Totals l6, uint64_t l7)
{
    struct core__result__Result__rt_tuple2_u64_Totals_Refusal l0;
    struct judge__Scope l12;
    struct read_exprs__read__Names l13;
    uint8_t l18;
    struct core__ops__ControlFlow__ErrResidual_Refusal_rt_tuple2_u8_u64 l20;
    struct core__result__Result__rt_tuple2_u8_u64_Refusal l21;
    struct core__ops__ControlFlow__ErrResidual_Refusal_rt_tuple2_u64_Done l24;
    struct core__result__Result__rt_tuple2_u64_Done_Refusal l25;
    uint8_t *l26;
    uint8_t *l28;
    rt_slice l29;
    struct read_program__totals__Totals l30;
    struct rt_tuple2__u64_Totals l31;
    l21 = read_exprs__read__ranged(l1, UINT64_C(0), UINT64_C(32), l7);
    l20 = core__result__ResultTry__branch__rt_tuple2_u8_u64_Refusal(l21);
    switch (l20.tag) {
        case UINT8_C(0): {
            break;
        }
        case UINT8_C(1): default: {
            {
                struct core__result__Result__rt_tuple2_u64_Totals_Refusal r = core__result__ResultFromResidualErrResidual__from_resi_e2c23d53(l20.s1);
                l0.tag = r.tag;
                l0.s0.f0 = r.s0.f0;
                l0.s0.f1.f0 = r.s0.f1.f0;
                l0.s0.f1.f1 = r.s0.f1.f1;
                l0.s0.f1.f2 = r.s0.f1.f2;
                l0.s0.f1.f3 = r.s0.f1.f3;
                l0.s0.f1.f4 = r.s0.f1.f4;
                l0.s1.tag = r.s1.tag;
            }
            return l0;
            break;
        }
    }
    l12.f0 = UINT64_C(0);
    l12.f1 = UINT64_C(0);
    l13.f0 = l2;
    l13.f1 = l3;
    l13.f2 = l5;
    l26 = (uint8_t *)&l13;
    l25 = read_stmts__stmt__body(l1, l26, l12, l20.s0.f1, UINT64_C(8));
    l24 = core__result__ResultTry__branch__rt_tuple2_u64_Done_Refusal(l25);
    switch (l24.tag) {
        case UINT8_C(0): {
            break;
        }
        case UINT8_C(1): default: {
            {
                struct core__result__Result__rt_tuple2_u64_Totals_Refusal r = core__result__ResultFromResidualErrResidual__from_resi_e2c23d53(l24.s1);
                l0.tag = r.tag;
                l0.s0.f0 = r.s0.f0;
                l0.s0.f1.f0 = r.s0.f1.f0;
                l0.s0.f1.f1 = r.s0.f1.f1;
                l0.s0.f1.f2 = r.s0.f1.f2;
                l0.s0.f1.f3 = r.s0.f1.f3;
                l0.s0.f1.f4 = r.s0.f1.f4;
                l0.s1.tag = r.s1.tag;
            }
            return l0;
            break;
        }
    }
    l28 = (uint8_t *)&(*(uint16_t *)l4.p);
    l29.p = l28;
    l29.n = l4.n;
    l18 = read_program__totals__noted(l29, l5, l20.s0.f0, l6, l24.s0.f1);
    l30 = read_program__totals__plus(l6, l24.s0.f1, l18);
    l31.f0 = l24.s0.f0;
    l31.f1.f0 = l30.f0;
    l31.f1.f1 = l30.f1;
    l31.f1.f2 = l30.f2;
    l31.f1.f3 = l30.f3;
    l31.f1.f4 = l30.f4;
    l0.tag = UINT8_C(0);
    l0.s0.f0 = l31.f0;
    l0.s0.f1.f0 = l31.f1.f0;
    l0.s0.f1.f1 = l31.f1.f1;
    l0.s0.f1.f2 = l31.f1.f2;
    l0.s0.f1.f3 = l31.f1.f3;
    l0.s0.f1.f4 = l31.f1.f4;
    return l0;
}

static RT_HERE struct core__result__Result__rt_tuple2_u64_Totals_Refusal read_program__totals__structs(rt_slice l1, rt_slice l2, rt_slice l3, rt_slice l4, uint8_t l5, struct read_program__totals__Totals l6, uint64_t l7)
{
    struct core__result__Result__rt_tuple2_u64_Totals_Refusal l0;
    struct read_program__totals__Totals l8;
    uint64_t l9;
    uint8_t l10;
    uint8_t l15;
    struct core__ops__ControlFlow__ErrResidual_Refusal_rt_tuple2__da2d7d9c l17;
    struct core__result__Result__rt_tuple2_u64_Totals_Refusal l18;
    uint8_t *l19;
    rt_slice l20;
    struct rt_tuple2__u64_Totals l22;
    l8.f0 = l6.f0;
    l8.f1 = l6.f1;
    l8.f2 = l6.f2;
    l8.f3 = l6.f3;
    l8.f4 = l6.f4;
    l9 = l7;
    l10 = UINT8_C(0);
    for (;;) {
        l15 = (uint8_t)(l10 < l5);
        if (l15) {
        } else {
            goto end1;
        }
        l19 = (uint8_t *)&(*(uint16_t *)l4.p);
        l20.p = l19;
        l20.n = l4.n;
        l18 = read_program__totals__of_struct(l1, l2, l3, l20, l10, l8, l9);
        l17 = core__result__ResultTry__branch__rt_tuple2_u64_Totals_Refusal(l18);
        switch (l17.tag) {
            case UINT8_C(0): {
                break;
            }
            case UINT8_C(1): default: {
                {
                    struct core__result__Result__rt_tuple2_u64_Totals_Refusal r = core__result__ResultFromResidualErrResidual__from_resi_e2c23d53(l17.s1);
                    l0.tag = r.tag;
                    l0.s0.f0 = r.s0.f0;
                    l0.s0.f1.f0 = r.s0.f1.f0;
                    l0.s0.f1.f1 = r.s0.f1.f1;
                    l0.s0.f1.f2 = r.s0.f1.f2;
                    l0.s0.f1.f3 = r.s0.f1.f3;
                    l0.s0.f1.f4 = r.s0.f1.f4;
                    l0.s1.tag = r.s1.tag;
                }
                return l0;
                break;
            }
        }
        l8.f0 = l17.s0.f1.f0;
        l8.f1 = l17.s0.f1.f1;
        l8.f2 = l17.s0.f1.f2;
        l8.f3 = l17.s0.f1.f3;
        l8.f4 = l17.s0.f1.f4;
        l9 = l17.s0.f0;
        l10 = (uint8_t)((uint32_t)l10 + (uint32_t)UINT8_C(1));
    }
end1:;
    l22.f0 = l9;
    l22.f1.f0 = l8.f0;
    l22.f1.f1 = l8.f1;
    l22.f1.f2 = l8.f2;
    l22.f1.f3 = l8.f3;
    l22.f1.f4 = l8.f4;
    l0.tag = UINT8_C(0);
    l0.s0.f0 = l22.f0;
    l0.s0.f1.f0 = l22.f1.f0;
    l0.s0.f1.f1 = l22.f1.f1;
    l0.s0.f1.f2 = l22.f1.f2;
    l0.s0.f1.f3 = l22.f1.f3;
    l0.s0.f1.f4 = l22.f1.f4;
    return l0;
}

static inline struct core__result__Result__rt_tuple2_u64_Planned_Refusal read_schedule__call(rt_slice l1, uint8_t *l2, uint64_t l3)
{
    struct core__result__Result__rt_tuple2_u64_Planned_Refusal l0;
    struct core__ops__ControlFlow__ErrResidual_Refusal_rt_tuple2_u8_u64 l9;
    struct core__result__Result__rt_tuple2_u8_u64_Refusal l10;
    struct read_schedule__Planned l12;
    uint8_t l13;
    struct rt_tuple2__u64_Planned l14;
    l10 = read_exprs__read__ranged(l1, UINT64_C(0), UINT64_C(32), l3);
    l9 = core__result__ResultTry__branch__rt_tuple2_u8_u64_Refusal(l10);
    switch (l9.tag) {
        case UINT8_C(0): {
            break;
        }
        case UINT8_C(1): default: {
            {
                struct core__result__Result__rt_tuple2_u64_Planned_Refusal r = core__result__ResultFromResidualErrResidual__from_resi_e75b3344(l9.s1);
                l0.tag = r.tag;
                l0.s0.f0 = r.s0.f0;
                l0.s0.f1.f0 = r.s0.f1.f0;
                l0.s0.f1.f1 = r.s0.f1.f1;
                l0.s1.tag = r.s1.tag;
            }
            return l0;
            break;
        }
    }
    l13 = read_schedule__had(l2, l9.s0.f0);
    l12 = read_schedule__one(l13);
    l14.f0 = l9.s0.f1;
    l14.f1.f0 = l12.f0;
    l14.f1.f1 = l12.f1;
    l0.tag = UINT8_C(0);
    l0.s0.f0 = l14.f0;
    l0.s0.f1.f0 = l14.f1.f0;
    l0.s0.f1.f1 = l14.f1.f1;
    return l0;
}

static inline struct core__result__Result__rt_tuple2_u64_Planned_Refusal read_schedule__call_in(rt_slice l1, uint8_t *l2, uint64_t l3)
{
    struct core__result__Result__rt_tuple2_u64_Planned_Refusal l0;
    struct core__ops__ControlFlow__ErrResidual_Refusal_rt_tuple2_u8_u64 l13;
    struct core__result__Result__rt_tuple2_u8_u64_Refusal l14;
    uint64_t l15;
    uint8_t l16;
    struct core__ops__ControlFlow__ErrResidual_Refusal_rt_tuple2_u8_u64 l19;
    struct read_schedule__Planned l21;
    uint8_t l22;
    rt_slice l23;
    struct rt_tuple2__u64_Planned l24;
    l16 = (*(struct read_schedule__Steps *)l2).f2;
    l15 = core__convert__UsizeFromU8__from(l16);
    l14 = read_exprs__read__ranged(l1, UINT64_C(0), l15, l3);
    l13 = core__result__ResultTry__branch__rt_tuple2_u8_u64_Refusal(l14);
    switch (l13.tag) {
        case UINT8_C(0): {
            break;
        }
        case UINT8_C(1): default: {
            {
                struct core__result__Result__rt_tuple2_u64_Planned_Refusal r = core__result__ResultFromResidualErrResidual__from_resi_e75b3344(l13.s1);
                l0.tag = r.tag;
                l0.s0.f0 = r.s0.f0;
                l0.s0.f1.f0 = r.s0.f1.f0;
                l0.s0.f1.f1 = r.s0.f1.f1;
                l0.s1.tag = r.s1.tag;
            }
            return l0;
            break;
        }
    }
    l14 = read_exprs__read__ranged(l1, UINT64_C(0), UINT64_C(32), l13.s0.f1);
    l19 = core__result__ResultTry__branch__rt_tuple2_u8_u64_Refusal(l14);
    switch (l19.tag) {
        case UINT8_C(0): {
            break;
        }
        case UINT8_C(1): default: {
            {
                struct core__result__Result__rt_tuple2_u64_Planned_Refusal r = core__result__ResultFromResidualErrResidual__from_resi_e75b3344(l19.s1);
                l0.tag = r.tag;
                l0.s0.f0 = r.s0.f0;
                l0.s0.f1.f0 = r.s0.f1.f0;
                l0.s0.f1.f1 = r.s0.f1.f1;
                l0.s1.tag = r.s1.tag;
            }
            return l0;
            break;
        }
    }
    l23 = (*(struct read_schedule__Steps *)l2).f0;
    l16 = (*(struct read_schedule__Steps *)l2).f1;
    l22 = directory__rows__there(l23, l16, l13.s0.f0, l19.s0.f0);
    l21 = read_schedule__one(l22);
    l24.f0 = l19.s0.f1;
    l24.f1.f0 = l21.f0;
    l24.f1.f1 = l21.f1;
    l0.tag = UINT8_C(0);
    l0.s0.f0 = l24.f0;
    l0.s0.f1.f0 = l24.f1.f0;
    l0.s0.f1.f1 = l24.f1.f1;
    return l0;
}

static inline uint8_t read_schedule__had(uint8_t *l1, uint8_t l2)
{
    uint8_t l0;
    uint8_t l3;
    uint8_t l4;
    uint8_t l5;
    uint8_t l6;
    rt_slice l7;
    uint8_t l8;
    l3 = UINT8_C(0);
    l4 = (*(struct read_schedule__Steps *)l1).f2;
    for (;;) {
        l5 = (uint8_t)(l3 < l4);
        if (l5) {
        } else {
            goto end1;
        }
        l7 = (*(struct read_schedule__Steps *)l1).f0;
        l8 = (*(struct read_schedule__Steps *)l1).f1;
        l6 = directory__rows__there(l7, l8, l3, l2);
        if (l6) {
            l0 = 1;
            return l0;
        }
        l3 = (uint8_t)((uint32_t)l3 + (uint32_t)UINT8_C(1));
    }
end1:;
    l0 = 0;
    return l0;
}

static inline struct core__result__Result__rt_tuple2_u64_Planned_Refusal read_schedule__item(rt_slice l1, uint8_t *l2, uint64_t l3, uint64_t l4)
{
    struct core__result__Result__rt_tuple2_u64_Planned_Refusal l0;
    uint64_t l6;
    uint64_t l11;
    uint8_t l12;
    struct types__refusal__Refusal l13;
    uint8_t *l14;
    uint8_t l15;
    uint8_t l16;
    uint8_t l17;
    struct types__refusal__Refusal l18;
    struct core__ops__ControlFlow__ErrResidual_Refusal_rt_tuple2__d7d566f0 l20;
    struct core__result__Result__rt_tuple2_u64_Planned_Refusal l21;
    struct read_schedule__Planned l23;
    struct rt_tuple2__u64_Planned l24;
    l11 = l1.n;
    l12 = (uint8_t)(l11 <= l3);
    if (l12) {
        l13.tag = UINT8_C(3);
        l0.tag = UINT8_C(1);
        l0.s1 = l13;
        return l0;
    }
    l14 = l1.p + (size_t)l3;
    l15 = (*(uint8_t *)l14);
    l6 = (uint64_t)((uint64_t)l3 + (uint64_t)UINT64_C(1));
    l12 = (uint8_t)(l15 == UINT8_C(1));
    if (l12) {
        {
            struct core__result__Result__rt_tuple2_u64_Planned_Refusal r = read_schedule__call(l1, l2, l6);
            l0.tag = r.tag;
            l0.s0.f0 = r.s0.f0;
            l0.s0.f1.f0 = r.s0.f1.f0;
            l0.s0.f1.f1 = r.s0.f1.f1;
            l0.s1.tag = r.s1.tag;
        }
        return l0;
    }
    l12 = (uint8_t)(l15 == UINT8_C(2));
    if (l12) {
        {
            struct core__result__Result__rt_tuple2_u64_Planned_Refusal r = read_schedule__call_in(l1, l2, l6);
            l0.tag = r.tag;
            l0.s0.f0 = r.s0.f0;
            l0.s0.f1.f0 = r.s0.f1.f0;
            l0.s0.f1.f1 = r.s0.f1.f1;
            l0.s1.tag = r.s1.tag;
        }
        return l0;
    }
    l16 = (uint8_t)(l15 != UINT8_C(3));
    if (l16) {
    } else {
        l16 = (uint8_t)(l4 == UINT64_C(0));
        l17 = l16;
        if (l17) {
        } else {
            goto end2;
        }
    }
    l18.tag = UINT8_C(4);
    l0.tag = UINT8_C(1);
    l0.s1 = l18;
    return l0;
    goto end1;
end2:;
end1:;
    l11 = (uint64_t)((uint64_t)l4 - (uint64_t)UINT64_C(1));
    l21 = read_schedule__items(l1, l2, l6, l11);
    l20 = core__result__ResultTry__branch__rt_tuple2_u64_Planned_Refusal(l21);
    switch (l20.tag) {
        case UINT8_C(0): {
            break;
        }
        case UINT8_C(1): default: {
            {
                struct core__result__Result__rt_tuple2_u64_Planned_Refusal r = core__result__ResultFromResidualErrResidual__from_resi_e75b3344(l20.s1);
                l0.tag = r.tag;
                l0.s0.f0 = r.s0.f0;
                l0.s0.f1.f0 = r.s0.f1.f0;
                l0.s0.f1.f1 = r.s0.f1.f1;
                l0.s1.tag = r.s1.tag;
            }
            return l0;
            break;
        }
    }
    l11 = (uint64_t)((uint64_t)l20.s0.f1.f0 + (uint64_t)UINT64_C(1));
    l23.f0 = l11;
    l23.f1 = l20.s0.f1.f1;
    l24.f0 = l20.s0.f0;
    l24.f1.f0 = l23.f0;
    l24.f1.f1 = l23.f1;
    l0.tag = UINT8_C(0);
    l0.s0.f0 = l24.f0;
    l0.s0.f1.f0 = l24.f1.f0;
    l0.s0.f1.f1 = l24.f1.f1;
    return l0;
}

static inline struct core__result__Result__rt_tuple2_u64_Planned_Refusal read_schedule__items(rt_slice l1, uint8_t *l2, uint64_t l3, uint64_t l4)
{
    struct core__result__Result__rt_tuple2_u64_Planned_Refusal l0;
    struct read_schedule__Planned l9;
    uint64_t l10;
    uint8_t l11;
    struct core__ops__ControlFlow__ErrResidual_Refusal_rt_tuple2_u8_u64 l17;
    struct core__result__Result__rt_tuple2_u8_u64_Refusal l18;
    uint64_t l19;
    uint8_t l21;
    struct core__ops__ControlFlow__ErrResidual_Refusal_rt_tuple2__d7d566f0 l23;
    struct core__result__Result__rt_tuple2_u64_Planned_Refusal l24;
    struct rt_tuple2__u64_Planned l26;
    l19 = (uint64_t)((uint64_t)UINT64_C(32) + (uint64_t)UINT64_C(1));
    l18 = read_exprs__read__ranged(l1, UINT64_C(1), l19, l3);
    l17 = core__result__ResultTry__branch__rt_tuple2_u8_u64_Refusal(l18);
    switch (l17.tag) {
        case UINT8_C(0): {
            break;
        }
        case UINT8_C(1): default: {
            {
                struct core__result__Result__rt_tuple2_u64_Planned_Refusal r = core__result__ResultFromResidualErrResidual__from_resi_e75b3344(l17.s1);
                l0.tag = r.tag;
                l0.s0.f0 = r.s0.f0;
                l0.s0.f1.f0 = r.s0.f1.f0;
                l0.s0.f1.f1 = r.s0.f1.f1;
                l0.s1.tag = r.s1.tag;
            }
            return l0;
            break;
        }
    }
    l9.f0 = UINT64_C(0);
    l9.f1 = UINT8_C(0);
    l10 = l17.s0.f1;
    l11 = UINT8_C(0);
    for (;;) {
        l21 = (uint8_t)(l11 < l17.s0.f0);
        if (l21) {
        } else {
            goto end1;
        }
        l24 = read_schedule__item(l1, l2, l10, l4);
        l23 = core__result__ResultTry__branch__rt_tuple2_u64_Planned_Refusal(l24);
        switch (l23.tag) {
            case UINT8_C(0): {
                break;
            }
            case UINT8_C(1): default: {
                {
                    struct core__result__Result__rt_tuple2_u64_Planned_Refusal r = core__result__ResultFromResidualErrResidual__from_resi_e75b3344(l23.s1);
                    l0.tag = r.tag;
                    l0.s0.f0 = r.s0.f0;
                    l0.s0.f1.f0 = r.s0.f1.f0;
                    l0.s0.f1.f1 = r.s0.f1.f1;
                    l0.s1.tag = r.s1.tag;
                }
                return l0;
                break;
            }
        }
        l9 = read_schedule__joined(l9, l23.s0.f1);
        l10 = l23.s0.f0;
        l11 = (uint8_t)((uint32_t)l11 + (uint32_t)UINT8_C(1));
    }
end1:;
    l26.f0 = l10;
    l26.f1.f0 = l9.f0;
    l26.f1.f1 = l9.f1;
    l0.tag = UINT8_C(0);
    l0.s0.f0 = l26.f0;
    l0.s0.f1.f0 = l26.f1.f0;
    l0.s0.f1.f1 = l26.f1.f1;
    return l0;
}

static RT_SHORT struct read_schedule__Planned read_schedule__joined(struct read_schedule__Planned l1, struct read_schedule__Planned l2)
{
    struct read_schedule__Planned l0;
    uint64_t l3;
    uint8_t l4;
    l3 = (uint64_t)((uint64_t)l1.f0 + (uint64_t)l2.f0);
    l4 = judging__fault__worst(l1.f1, l2.f1);
    l0.f0 = l3;
    l0.f1 = l4;
    return l0;
}

static RT_HERE struct read_schedule__Planned read_schedule__one(uint8_t l1)
{
    struct read_schedule__Planned l0;
    uint8_t l2;
    l2 = judging__fault__named(l1);
    l0.f0 = UINT64_C(1);
    l0.f1 = l2;
    return l0;
}

static RT_HERE struct core__result__Result__rt_tuple2_u64_Done_Refusal read_stmts__simple__create(rt_slice l1, uint8_t *l2, struct judge__Scope l3, uint64_t l4)
{
    struct core__result__Result__rt_tuple2_u64_Done_Refusal l0;
    struct core__ops__ControlFlow__ErrResidual_Refusal_rt_tuple2_u64_Facts l10;
    struct core__result__Result__rt_tuple2_u64_Facts_Refusal l11;
    struct judge__Done l13;
    struct rt_tuple2__u64_Done l14;
    l11 = read_exprs__expr__construct(l1, l2, l3.f0, l4, UINT64_C(16));
    l10 = core__result__ResultTry__branch__rt_tuple2_u64_Facts_Refusal(l11);
    switch (l10.tag) {
        case UINT8_C(0): {
            break;
        }
        case UINT8_C(1): default: {
            {
                struct core__result__Result__rt_tuple2_u64_Done_Refusal r = core__result__ResultFromResidualErrResidual__from_resi_8768edf0(l10.s1);
                l0.tag = r.tag;
                l0.s0.f0 = r.s0.f0;
                l0.s0.f1.f0 = r.s0.f1.f0;
                l0.s0.f1.f1 = r.s0.f1.f1;
                l0.s0.f1.f2 = r.s0.f1.f2;
                l0.s0.f1.f3 = r.s0.f1.f3;
                l0.s0.f1.f4.f0 = r.s0.f1.f4.f0;
                l0.s0.f1.f4.f1 = r.s0.f1.f4.f1;
                l0.s1.tag = r.s1.tag;
            }
            return l0;
            break;
        }
    }
    l13 = read_stmts__simple__labelled(l3, l10.s0.f1);
    l14.f0 = l10.s0.f0;
    l14.f1.f0 = l13.f0;
    l14.f1.f1 = l13.f1;
    l14.f1.f2 = l13.f2;
    l14.f1.f3 = l13.f3;
    l14.f1.f4.f0 = l13.f4.f0;
    l14.f1.f4.f1 = l13.f4.f1;
    l0.tag = UINT8_C(0);
    l0.s0.f0 = l14.f0;
    l0.s0.f1.f0 = l14.f1.f0;
    l0.s0.f1.f1 = l14.f1.f1;
    l0.s0.f1.f2 = l14.f1.f2;
    l0.s0.f1.f3 = l14.f1.f3;
    l0.s0.f1.f4.f0 = l14.f1.f4.f0;
    l0.s0.f1.f4.f1 = l14.f1.f4.f1;
    return l0;
}

static RT_HERE struct core__result__Result__rt_tuple2_u64_Done_Refusal read_stmts__simple__declare(rt_slice l1, uint8_t *l2, struct judge__Scope l3, uint64_t l4)
{
    struct core__result__Result__rt_tuple2_u64_Done_Refusal l0;
    struct core__ops__ControlFlow__ErrResidual_Refusal_rt_tuple2_u8_u64 l10;
    struct core__result__Result__rt_tuple2_u8_u64_Refusal l11;
    uint64_t l12;
    l12 = (*(struct read_exprs__read__Names *)l2).f0.n;
    l11 = read_exprs__read__type_byte(l1, l12, l4);
    l10 = core__result__ResultTry__branch__rt_tuple2_u8_u64_Refusal(l11);
    switch (l10.tag) {
        case UINT8_C(0): {
            break;
        }
        case UINT8_C(1): default: {
            {
                struct core__result__Result__rt_tuple2_u64_Done_Refusal r = core__result__ResultFromResidualErrResidual__from_resi_8768edf0(l10.s1);
                l0.tag = r.tag;
                l0.s0.f0 = r.s0.f0;
                l0.s0.f1.f0 = r.s0.f1.f0;
                l0.s0.f1.f1 = r.s0.f1.f1;
                l0.s0.f1.f2 = r.s0.f1.f2;
                l0.s0.f1.f3 = r.s0.f1.f3;
                l0.s0.f1.f4.f0 = r.s0.f1.f4.f0;
                l0.s0.f1.f4.f1 = r.s0.f1.f4.f1;
                l0.s1.tag = r.s1.tag;
            }
            return l0;
            break;
        }
    }
    {
        struct core__result__Result__rt_tuple2_u64_Done_Refusal r = read_stmts__simple__local(l1, l2, l3, l10.s0.f0, l10.s0.f1);
        l0.tag = r.tag;
        l0.s0.f0 = r.s0.f0;
        l0.s0.f1.f0 = r.s0.f1.f0;
        l0.s0.f1.f1 = r.s0.f1.f1;
        l0.s0.f1.f2 = r.s0.f1.f2;
        l0.s0.f1.f3 = r.s0.f1.f3;
        l0.s0.f1.f4.f0 = r.s0.f1.f4.f0;
        l0.s0.f1.f4.f1 = r.s0.f1.f4.f1;
        l0.s1.tag = r.s1.tag;
    }
    return l0;
}

static RT_HERE struct judge__Done read_stmts__simple__labelled(struct judge__Scope l1, struct judge__Facts l2)
{
    struct judge__Done l0;
    l0.f0 = l2.f0;
    l0.f1 = l2.f1;
    l0.f2 = UINT64_C(1);
    l0.f3 = l2.f2;
    l0.f4.f0 = l1.f0;
    l0.f4.f1 = l1.f1;
    return l0;
}

static RT_HERE struct core__result__Result__rt_tuple2_u64_Done_Refusal read_stmts__simple__local(rt_slice l1, uint8_t *l2, struct judge__Scope l3, uint8_t l4, uint64_t l5)
{
    struct core__result__Result__rt_tuple2_u64_Done_Refusal l0;
    uint8_t l14;
    struct core__ops__ControlFlow__ErrResidual_Refusal_rt_tuple2_u8_u64 l16;
    struct core__result__Result__rt_tuple2_u8_u64_Refusal l17;
    struct core__ops__ControlFlow__ErrResidual_Refusal_rt_tuple2_u64_Facts l20;
    struct core__result__Result__rt_tuple2_u64_Facts_Refusal l21;
    struct judge__Done l23;
    struct rt_tuple2__u64_Done l24;
    l17 = read_exprs__read__ranged(l1, UINT64_C(8), UINT64_C(16), l5);
    l16 = core__result__ResultTry__branch__rt_tuple2_u8_u64_Refusal(l17);
    switch (l16.tag) {
        case UINT8_C(0): {
            break;
        }
        case UINT8_C(1): default: {
            {
                struct core__result__Result__rt_tuple2_u64_Done_Refusal r = core__result__ResultFromResidualErrResidual__from_resi_8768edf0(l16.s1);
                l0.tag = r.tag;
                l0.s0.f0 = r.s0.f0;
                l0.s0.f1.f0 = r.s0.f1.f0;
                l0.s0.f1.f1 = r.s0.f1.f1;
                l0.s0.f1.f2 = r.s0.f1.f2;
                l0.s0.f1.f3 = r.s0.f1.f3;
                l0.s0.f1.f4.f0 = r.s0.f1.f4.f0;
                l0.s0.f1.f4.f1 = r.s0.f1.f4.f1;
                l0.s1.tag = r.s1.tag;
            }
            return l0;
            break;
        }
    }
    l21 = read_exprs__expr__expr(l1, l2, l3.f0, l16.s0.f1, UINT64_C(16));
    l20 = core__result__ResultTry__branch__rt_tuple2_u64_Facts_Refusal(l21);
    switch (l20.tag) {
        case UINT8_C(0): {
            break;
        }
        case UINT8_C(1): default: {
            {
                struct core__result__Result__rt_tuple2_u64_Done_Refusal r = core__result__ResultFromResidualErrResidual__from_resi_8768edf0(l20.s1);
                l0.tag = r.tag;
                l0.s0.f0 = r.s0.f0;
                l0.s0.f1.f0 = r.s0.f1.f0;
                l0.s0.f1.f1 = r.s0.f1.f1;
                l0.s0.f1.f2 = r.s0.f1.f2;
                l0.s0.f1.f3 = r.s0.f1.f3;
                l0.s0.f1.f4.f0 = r.s0.f1.f4.f0;
                l0.s0.f1.f4.f1 = r.s0.f1.f4.f1;
                l0.s1.tag = r.s1.tag;
            }
            return l0;
            break;
        }
    }
    l14 = (uint8_t)((uint32_t)l16.s0.f0 - (uint32_t)UINT8_C(8));
    l23 = judging__statement__declared(l3, l4, l14, l20.s0.f1);
    l24.f0 = l20.s0.f0;
    l24.f1.f0 = l23.f0;
    l24.f1.f1 = l23.f1;
    l24.f1.f2 = l23.f2;
    l24.f1.f3 = l23.f3;
    l24.f1.f4.f0 = l23.f4.f0;
    l24.f1.f4.f1 = l23.f4.f1;
    l0.tag = UINT8_C(0);
    l0.s0.f0 = l24.f0;
    l0.s0.f1.f0 = l24.f1.f0;
    l0.s0.f1.f1 = l24.f1.f1;
    l0.s0.f1.f2 = l24.f1.f2;
    l0.s0.f1.f3 = l24.f1.f3;
    l0.s0.f1.f4.f0 = l24.f1.f4.f0;
    l0.s0.f1.f4.f1 = l24.f1.f4.f1;
    return l0;
}

static inline struct core__result__Result__rt_tuple2_u64_Done_Refusal read_stmts__simple__simple(rt_slice l1, uint8_t *l2, struct judge__Scope l3, uint8_t l4, uint64_t l5)
{
    struct core__result__Result__rt_tuple2_u64_Done_Refusal l0;
    uint8_t l6;
    struct types__refusal__Refusal l7;
    l6 = (uint8_t)(l4 == UINT8_C(2));
    if (l6) {
        {
            struct core__result__Result__rt_tuple2_u64_Done_Refusal r = read_stmts__simple__declare(l1, l2, l3, l5);
            l0.tag = r.tag;
            l0.s0.f0 = r.s0.f0;
            l0.s0.f1.f0 = r.s0.f1.f0;
            l0.s0.f1.f1 = r.s0.f1.f1;
            l0.s0.f1.f2 = r.s0.f1.f2;
            l0.s0.f1.f3 = r.s0.f1.f3;
            l0.s0.f1.f4.f0 = r.s0.f1.f4.f0;
            l0.s0.f1.f4.f1 = r.s0.f1.f4.f1;
            l0.s1.tag = r.s1.tag;
        }
        return l0;
    }
    l6 = (uint8_t)(l4 == UINT8_C(3));
    if (l6) {
        {
            struct core__result__Result__rt_tuple2_u64_Done_Refusal r = read_stmts__simple__update(l1, l2, l3, l5);
            l0.tag = r.tag;
            l0.s0.f0 = r.s0.f0;
            l0.s0.f1.f0 = r.s0.f1.f0;
            l0.s0.f1.f1 = r.s0.f1.f1;
            l0.s0.f1.f2 = r.s0.f1.f2;
            l0.s0.f1.f3 = r.s0.f1.f3;
            l0.s0.f1.f4.f0 = r.s0.f1.f4.f0;
            l0.s0.f1.f4.f1 = r.s0.f1.f4.f1;
            l0.s1.tag = r.s1.tag;
        }
        return l0;
    }
    l6 = (uint8_t)(l4 == UINT8_C(4));
    if (l6) {
        {
            struct core__result__Result__rt_tuple2_u64_Done_Refusal r = read_stmts__simple__create(l1, l2, l3, l5);
            l0.tag = r.tag;
            l0.s0.f0 = r.s0.f0;
            l0.s0.f1.f0 = r.s0.f1.f0;
            l0.s0.f1.f1 = r.s0.f1.f1;
            l0.s0.f1.f2 = r.s0.f1.f2;
            l0.s0.f1.f3 = r.s0.f1.f3;
            l0.s0.f1.f4.f0 = r.s0.f1.f4.f0;
            l0.s0.f1.f4.f1 = r.s0.f1.f4.f1;
            l0.s1.tag = r.s1.tag;
        }
        return l0;
    }
    l7.tag = UINT8_C(4);
    l0.tag = UINT8_C(1);
    l0.s1 = l7;
    return l0;
}

static RT_HERE struct core__result__Result__rt_tuple2_u64_Done_Refusal read_stmts__simple__update(rt_slice l1, uint8_t *l2, struct judge__Scope l3, uint64_t l4)
{
    struct core__result__Result__rt_tuple2_u64_Done_Refusal l0;
    struct core__ops__ControlFlow__ErrResidual_Refusal_rt_tuple3__6dda1656 l15;
    struct core__result__Result__rt_tuple3_u64_u8_Judged_Refusal l16;
    struct core__ops__ControlFlow__ErrResidual_Refusal_rt_tuple2_u64_Facts l19;
    struct core__result__Result__rt_tuple2_u64_Facts_Refusal l20;
    struct judge__Done l22;
    struct rt_tuple2__u64_Done l23;
    l16 = read_exprs__path__path(l1, l2, l3.f0, l4);
    l15 = core__result__ResultTry__branch__rt_tuple3_u64_u8_Judg_d80f38d1(l16);
    switch (l15.tag) {
        case UINT8_C(0): {
            break;
        }
        case UINT8_C(1): default: {
            {
                struct core__result__Result__rt_tuple2_u64_Done_Refusal r = core__result__ResultFromResidualErrResidual__from_resi_8768edf0(l15.s1);
                l0.tag = r.tag;
                l0.s0.f0 = r.s0.f0;
                l0.s0.f1.f0 = r.s0.f1.f0;
                l0.s0.f1.f1 = r.s0.f1.f1;
                l0.s0.f1.f2 = r.s0.f1.f2;
                l0.s0.f1.f3 = r.s0.f1.f3;
                l0.s0.f1.f4.f0 = r.s0.f1.f4.f0;
                l0.s0.f1.f4.f1 = r.s0.f1.f4.f1;
                l0.s1.tag = r.s1.tag;
            }
            return l0;
            break;
        }
    }
    l20 = read_exprs__expr__expr(l1, l2, l3.f0, l15.s0.f0, UINT64_C(16));
    l19 = core__result__ResultTry__branch__rt_tuple2_u64_Facts_Refusal(l20);
    switch (l19.tag) {
        case UINT8_C(0): {
            break;
        }
        case UINT8_C(1): default: {
            {
                struct core__result__Result__rt_tuple2_u64_Done_Refusal r = core__result__ResultFromResidualErrResidual__from_resi_8768edf0(l19.s1);
                l0.tag = r.tag;
                l0.s0.f0 = r.s0.f0;
                l0.s0.f1.f0 = r.s0.f1.f0;
                l0.s0.f1.f1 = r.s0.f1.f1;
                l0.s0.f1.f2 = r.s0.f1.f2;
                l0.s0.f1.f3 = r.s0.f1.f3;
                l0.s0.f1.f4.f0 = r.s0.f1.f4.f0;
                l0.s0.f1.f4.f1 = r.s0.f1.f4.f1;
                l0.s1.tag = r.s1.tag;
            }
            return l0;
            break;
        }
    }
    l22 = judging__statement__updated(l3, l15.s0.f1, l15.s0.f2, l19.s0.f1);
    l23.f0 = l19.s0.f0;
    l23.f1.f0 = l22.f0;
    l23.f1.f1 = l22.f1;
    l23.f1.f2 = l22.f2;
    l23.f1.f3 = l22.f3;
    l23.f1.f4.f0 = l22.f4.f0;
    l23.f1.f4.f1 = l22.f4.f1;
    l0.tag = UINT8_C(0);
    l0.s0.f0 = l23.f0;
    l0.s0.f1.f0 = l23.f1.f0;
    l0.s0.f1.f1 = l23.f1.f1;
    l0.s0.f1.f2 = l23.f1.f2;
    l0.s0.f1.f3 = l23.f1.f3;
    l0.s0.f1.f4.f0 = l23.f1.f4.f0;
    l0.s0.f1.f4.f1 = l23.f1.f4.f1;
    return l0;
}

static inline struct core__result__Result__rt_tuple2_u64_Done_Refusal read_stmts__stmt__body(rt_slice l1, uint8_t *l2, struct judge__Scope l3, uint64_t l4, uint64_t l5)
{
    struct core__result__Result__rt_tuple2_u64_Done_Refusal l0;
    struct judge__Done l10;
    uint64_t l11;
    uint8_t l12;
    struct core__ops__ControlFlow__ErrResidual_Refusal_rt_tuple2_u8_u64 l18;
    struct core__result__Result__rt_tuple2_u8_u64_Refusal l19;
    uint64_t l20;
    uint8_t l22;
    struct core__ops__ControlFlow__ErrResidual_Refusal_rt_tuple2_u64_Done l24;
    struct core__result__Result__rt_tuple2_u64_Done_Refusal l25;
    struct judge__Scope l26;
    struct rt_tuple2__u64_Done l28;
    l20 = (uint64_t)((uint64_t)UINT64_C(32) + (uint64_t)UINT64_C(1));
    l19 = read_exprs__read__ranged(l1, UINT64_C(0), l20, l4);
    l18 = core__result__ResultTry__branch__rt_tuple2_u8_u64_Refusal(l19);
    switch (l18.tag) {
        case UINT8_C(0): {
            break;
        }
        case UINT8_C(1): default: {
            {
                struct core__result__Result__rt_tuple2_u64_Done_Refusal r = core__result__ResultFromResidualErrResidual__from_resi_8768edf0(l18.s1);
                l0.tag = r.tag;
                l0.s0.f0 = r.s0.f0;
                l0.s0.f1.f0 = r.s0.f1.f0;
                l0.s0.f1.f1 = r.s0.f1.f1;
                l0.s0.f1.f2 = r.s0.f1.f2;
                l0.s0.f1.f3 = r.s0.f1.f3;
                l0.s0.f1.f4.f0 = r.s0.f1.f4.f0;
                l0.s0.f1.f4.f1 = r.s0.f1.f4.f1;
                l0.s1.tag = r.s1.tag;
            }
            return l0;
            break;
        }
    }
    l10 = judging__statement__nothing(l3);
    l11 = l18.s0.f1;
    l12 = UINT8_C(0);
    for (;;) {
        l22 = (uint8_t)(l12 < l18.s0.f0);
        if (l22) {
        } else {
            goto end1;
        }
        l26.f0 = l10.f4.f0;
        l26.f1 = l10.f4.f1;
        l25 = read_stmts__stmt__stmt(l1, l2, l26, l11, l5);
        l24 = core__result__ResultTry__branch__rt_tuple2_u64_Done_Refusal(l25);
        switch (l24.tag) {
            case UINT8_C(0): {
                break;
            }
            case UINT8_C(1): default: {
                {
                    struct core__result__Result__rt_tuple2_u64_Done_Refusal r = core__result__ResultFromResidualErrResidual__from_resi_8768edf0(l24.s1);
                    l0.tag = r.tag;
                    l0.s0.f0 = r.s0.f0;
                    l0.s0.f1.f0 = r.s0.f1.f0;
                    l0.s0.f1.f1 = r.s0.f1.f1;
                    l0.s0.f1.f2 = r.s0.f1.f2;
                    l0.s0.f1.f3 = r.s0.f1.f3;
                    l0.s0.f1.f4.f0 = r.s0.f1.f4.f0;
                    l0.s0.f1.f4.f1 = r.s0.f1.f4.f1;
                    l0.s1.tag = r.s1.tag;
                }
                return l0;
                break;
            }
        }
        l10 = judging__statement__followed(l10, l24.s0.f1);
        l11 = l24.s0.f0;
        l12 = (uint8_t)((uint32_t)l12 + (uint32_t)UINT8_C(1));
    }
end1:;
    l28.f0 = l11;
    l28.f1.f0 = l10.f0;
    l28.f1.f1 = l10.f1;
    l28.f1.f2 = l10.f2;
    l28.f1.f3 = l10.f3;
    l28.f1.f4.f0 = l10.f4.f0;
    l28.f1.f4.f1 = l10.f4.f1;
    l0.tag = UINT8_C(0);
    l0.s0.f0 = l28.f0;
    l0.s0.f1.f0 = l28.f1.f0;
    l0.s0.f1.f1 = l28.f1.f1;
    l0.s0.f1.f2 = l28.f1.f2;
    l0.s0.f1.f3 = l28.f1.f3;
    l0.s0.f1.f4.f0 = l28.f1.f4.f0;
    l0.s0.f1.f4.f1 = l28.f1.f4.f1;
    return l0;
}

static inline struct core__result__Result__rt_tuple2_u64_Done_Refusal read_stmts__stmt__stmt(rt_slice l1, uint8_t *l2, struct judge__Scope l3, uint64_t l4, uint64_t l5)
{
    struct core__result__Result__rt_tuple2_u64_Done_Refusal l0;
    uint64_t l7;
    uint64_t l8;
    uint8_t l9;
    struct types__refusal__Refusal l10;
    uint8_t *l11;
    uint8_t l12;
    struct types__refusal__Refusal l13;
    l8 = l1.n;
    l9 = (uint8_t)(l8 <= l4);
    if (l9) {
        l10.tag = UINT8_C(3);
        l0.tag = UINT8_C(1);
        l0.s1 = l10;
        return l0;
    }
    l11 = l1.p + (size_t)l4;
    l12 = (*(uint8_t *)l11);
    l7 = (uint64_t)((uint64_t)l4 + (uint64_t)UINT64_C(1));
    l9 = (uint8_t)(l12 != UINT8_C(1));
    if (l9) {
        {
            struct core__result__Result__rt_tuple2_u64_Done_Refusal r = read_stmts__simple__simple(l1, l2, l3, l12, l7);
            l0.tag = r.tag;
            l0.s0.f0 = r.s0.f0;
            l0.s0.f1.f0 = r.s0.f1.f0;
            l0.s0.f1.f1 = r.s0.f1.f1;
            l0.s0.f1.f2 = r.s0.f1.f2;
            l0.s0.f1.f3 = r.s0.f1.f3;
            l0.s0.f1.f4.f0 = r.s0.f1.f4.f0;
            l0.s0.f1.f4.f1 = r.s0.f1.f4.f1;
            l0.s1.tag = r.s1.tag;
        }
        return l0;
    }
    l9 = (uint8_t)(l5 == UINT64_C(0));
    if (l9) {
        l13.tag = UINT8_C(4);
        l0.tag = UINT8_C(1);
        l0.s1 = l13;
        return l0;
    }
    l8 = (uint64_t)((uint64_t)l5 - (uint64_t)UINT64_C(1));
    {
        struct core__result__Result__rt_tuple2_u64_Done_Refusal r = read_stmts__stmt__when(l1, l2, l3, l7, l8);
        l0.tag = r.tag;
        l0.s0.f0 = r.s0.f0;
        l0.s0.f1.f0 = r.s0.f1.f0;
        l0.s0.f1.f1 = r.s0.f1.f1;
        l0.s0.f1.f2 = r.s0.f1.f2;
        l0.s0.f1.f3 = r.s0.f1.f3;
        l0.s0.f1.f4.f0 = r.s0.f1.f4.f0;
        l0.s0.f1.f4.f1 = r.s0.f1.f4.f1;
        l0.s1.tag = r.s1.tag;
    }
    return l0;
}

static inline struct core__result__Result__rt_tuple2_u64_Done_Refusal read_stmts__stmt__when(rt_slice l1, uint8_t *l2, struct judge__Scope l3, uint64_t l4, uint64_t l5)
{
    struct core__result__Result__rt_tuple2_u64_Done_Refusal l0;
    struct core__ops__ControlFlow__ErrResidual_Refusal_rt_tuple2_u64_Facts l15;
    struct core__result__Result__rt_tuple2_u64_Facts_Refusal l16;
    struct core__ops__ControlFlow__ErrResidual_Refusal_rt_tuple2_u64_Done l19;
    struct core__result__Result__rt_tuple2_u64_Done_Refusal l20;
    struct judge__Done l22;
    struct rt_tuple2__u64_Done l23;
    l16 = read_exprs__expr__expr(l1, l2, l3.f0, l4, UINT64_C(16));
    l15 = core__result__ResultTry__branch__rt_tuple2_u64_Facts_Refusal(l16);
    switch (l15.tag) {
        case UINT8_C(0): {
            break;
        }
        case UINT8_C(1): default: {
            {
                struct core__result__Result__rt_tuple2_u64_Done_Refusal r = core__result__ResultFromResidualErrResidual__from_resi_8768edf0(l15.s1);
                l0.tag = r.tag;
                l0.s0.f0 = r.s0.f0;
                l0.s0.f1.f0 = r.s0.f1.f0;
                l0.s0.f1.f1 = r.s0.f1.f1;
                l0.s0.f1.f2 = r.s0.f1.f2;
                l0.s0.f1.f3 = r.s0.f1.f3;
                l0.s0.f1.f4.f0 = r.s0.f1.f4.f0;
                l0.s0.f1.f4.f1 = r.s0.f1.f4.f1;
                l0.s1.tag = r.s1.tag;
            }
            return l0;
            break;
        }
    }
    l20 = read_stmts__stmt__body(l1, l2, l3, l15.s0.f0, l5);
    l19 = core__result__ResultTry__branch__rt_tuple2_u64_Done_Refusal(l20);
    switch (l19.tag) {
        case UINT8_C(0): {
            break;
        }
        case UINT8_C(1): default: {
            {
                struct core__result__Result__rt_tuple2_u64_Done_Refusal r = core__result__ResultFromResidualErrResidual__from_resi_8768edf0(l19.s1);
                l0.tag = r.tag;
                l0.s0.f0 = r.s0.f0;
                l0.s0.f1.f0 = r.s0.f1.f0;
                l0.s0.f1.f1 = r.s0.f1.f1;
                l0.s0.f1.f2 = r.s0.f1.f2;
                l0.s0.f1.f3 = r.s0.f1.f3;
                l0.s0.f1.f4.f0 = r.s0.f1.f4.f0;
                l0.s0.f1.f4.f1 = r.s0.f1.f4.f1;
                l0.s1.tag = r.s1.tag;
            }
            return l0;
            break;
        }
    }
    l22 = judging__statement__branched(l3, l15.s0.f1, l19.s0.f1);
    l23.f0 = l19.s0.f0;
    l23.f1.f0 = l22.f0;
    l23.f1.f1 = l22.f1;
    l23.f1.f2 = l22.f2;
    l23.f1.f3 = l22.f3;
    l23.f1.f4.f0 = l22.f4.f0;
    l23.f1.f4.f1 = l22.f4.f1;
    l0.tag = UINT8_C(0);
    l0.s0.f0 = l23.f0;
    l0.s0.f1.f0 = l23.f1.f0;
    l0.s0.f1.f1 = l23.f1.f1;
    l0.s0.f1.f2 = l23.f1.f2;
    l0.s0.f1.f3 = l23.f1.f3;
    l0.s0.f1.f4.f0 = l23.f1.f4.f0;
    l0.s0.f1.f4.f1 = l23.f1.f4.f1;
    return l0;
}

static RT_SHORT struct read_text__Answer read_text__answered(struct core__result__Result__u32_Refusal l1)
{
    struct read_text__Answer l0;
    struct read_text__Answer l4;
    uint32_t l5;
    uint8_t l6;
    switch (l1.tag) {
        case UINT8_C(0): {
            l4.f0 = UINT32_C(0);
            l4.f1 = l1.s0;
            break;
        }
        case UINT8_C(1): default: {
            l6 = types__refusal__U8FromRefusal__from(l1.s1);
            l5 = core__convert__U32FromU8__from(l6);
            l4.f0 = l5;
            l4.f1 = UINT32_C(0);
            break;
        }
    }
    l0.f0 = l4.f0;
    l0.f1 = l4.f1;
    return l0;
}

static RT_HERE struct core__option__Option__u64 read_text__composed(rt_slice l1, rt_slice l2, rt_slice l3, rt_slice l4, rt_slice l5, rt_slice l6)
{
    struct core__option__Option__u64 l0;
    uint64_t l7;
    uint64_t l8;
    uint64_t l9;
    uint64_t l10;
    uint64_t l11;
    uint8_t *l12;
    uint64_t l13;
    uint8_t *l14;
    uint64_t l15;
    uint8_t *l16;
    uint8_t *l17;
    rt_slice l18;
    uint64_t l19;
    uint8_t *l20;
    uint64_t l21;
    uint8_t *l22;
    rt_slice l23;
    uint8_t *l24;
    rt_slice l25;
    uint8_t *l26;
    rt_slice l27;
    l7 = UINT64_C(16);
    l12 = l4.p + (size_t)UINT64_C(2568);
    l13 = (*(uint64_t *)l12);
    l8 = (uint64_t)((uint64_t)l7 + (uint64_t)l13);
    l9 = (uint64_t)((uint64_t)l8 + (uint64_t)UINT64_C(1));
    l10 = UINT64_C(161);
    l13 = (uint64_t)((uint64_t)l8 * (uint64_t)UINT64_C(8));
    l14 = l4.p + (size_t)l13;
    l15 = (*(uint64_t *)l14);
    l11 = (uint64_t)((uint64_t)l10 + (uint64_t)l15);
    l13 = (uint64_t)((uint64_t)l7 * (uint64_t)UINT64_C(8));
    l16 = l4.p + (size_t)l13;
    l15 = (uint64_t)((uint64_t)l9 - (uint64_t)l7);
    l17 = (uint8_t *)&(*(uint64_t *)l16);
    l18.p = l17;
    l18.n = l15;
    l19 = (uint64_t)((uint64_t)l10 * (uint64_t)UINT64_C(8));
    l20 = l4.p + (size_t)l19;
    l21 = (uint64_t)((uint64_t)l11 - (uint64_t)l10);
    l22 = (uint8_t *)&(*(uint64_t *)l20);
    l23.p = l22;
    l23.n = l21;
    l24 = (uint8_t *)&(*(uint8_t *)l5.p);
    l25.p = l24;
    l25.n = l5.n;
    l26 = (uint8_t *)&(*(uint8_t *)l6.p);
    l27.p = l26;
    l27.n = l6.n;
    l0 = composing__stream(l1, l2, l3, l18, l23, l25, l27);
    return l0;
}

static inline struct core__result__Result__u32_Refusal read_text__imaged(rt_slice l1, rt_slice l2)
{
    struct core__result__Result__u32_Refusal l0;
    struct core__result__Result__u64_WriteError l3;
    uint8_t l6;
    struct types__refusal__Refusal l7;
    uint8_t *l8;
    rt_slice l9;
    struct types__refusal__Refusal l10;
    uint32_t l11;
    l6 = (uint8_t)(l2.n < UINT64_C(32768));
    if (l6) {
        l7.tag = UINT8_C(12);
        l0.tag = UINT8_C(1);
        l0.s1 = l7;
        return l0;
    }
    l8 = (uint8_t *)&(*(uint8_t *)l2.p);
    l9.p = l8;
    l9.n = l2.n;
    l3 = blocks__write_image(l1, UINT64_C(64), l9);
    switch (l3.tag) {
        case UINT8_C(0): {
            break;
        }
        case UINT8_C(1): default: {
            l10.tag = UINT8_C(16);
            l0.tag = UINT8_C(1);
            l0.s1 = l10;
            return l0;
            break;
        }
    }
    l11 = (uint32_t)l3.s0;
    l0.tag = UINT8_C(0);
    l0.s0 = l11;
    return l0;
}

static RT_APART struct core__result__Result__u32_Refusal read_text__meant(rt_slice l1, rt_slice l2, rt_slice l3, rt_slice l4)
{
    struct core__result__Result__u32_Refusal l0;
    struct rt_array_uint8_65536 l5;
    struct rt_array_uint64_323 l6;
    struct rt_array_uint8_32402 l10;
    struct core__option__Option__u64 l11;
    struct core__ops__ControlFlow__ErrResidual_NoProgram_u64 l15;
    struct core__result__Result__u64_NoProgram l16;
    uint8_t *l17;
    rt_slice l18;
    uint8_t *l19;
    rt_slice l20;
    uint8_t *l21;
    rt_slice l22;
    uint8_t *l24;
    rt_slice l25;
    uint8_t *l26;
    rt_slice l27;
    uint8_t *l28;
    rt_slice l29;
    uint8_t *l30;
    rt_slice l31;
    struct core__ops__ControlFlow__ErrResidual_Refusal_u64 l32;
    struct core__result__Result__u64_Refusal l33;
    struct types__refusal__Refusal l34;
    uint8_t *l36;
    uint8_t *l37;
    uint64_t l38;
    uint8_t *l39;
    rt_slice l40;
    uint8_t *l41;
    rt_slice l42;
    memset(&l5, 0, sizeof l5);
    memset(&l6, 0, sizeof l6);
    l17 = (uint8_t *)&l6;
    l18.p = l17;
    l18.n = UINT64_C(323);
    l19 = (uint8_t *)&(*(uint8_t *)l3.p);
    l20.p = l19;
    l20.n = l3.n;
    l21 = (uint8_t *)&l5;
    l22.p = l21;
    l22.n = UINT64_C(65536);
    l16 = uses__numbers(l1, l2, l18, l20, l22);
    l15 = core__result__ResultTry__branch__u64_NoProgram(l16);
    switch (l15.tag) {
        case UINT8_C(0): {
            break;
        }
        case UINT8_C(1): default: {
            l0 = core__result__ResultFromResidualErrResidual__from_resi_07f82ab4(l15.s1);
            return l0;
            break;
        }
    }
    memset(&l10, 0, sizeof l10);
    l24 = (uint8_t *)&l5;
    l25.p = l24;
    l25.n = l15.s0;
    l26 = (uint8_t *)&l6;
    l27.p = l26;
    l27.n = UINT64_C(323);
    l28 = (uint8_t *)&(*(uint8_t *)l3.p);
    l29.p = l28;
    l29.n = l3.n;
    l30 = (uint8_t *)&l10;
    l31.p = l30;
    l31.n = UINT64_C(32402);
    l11 = read_text__composed(l1, l2, l25, l27, l29, l31);
    l34.tag = UINT8_C(16);
    l33 = core__option__Option__ok_or__u64_Refusal(l11, l34);
    l32 = core__result__ResultTry__branch__u64_Refusal(l33);
    switch (l32.tag) {
        case UINT8_C(0): {
            break;
        }
        case UINT8_C(1): default: {
            l0 = core__result__ResultFromResidualErrResidual__from_resi_29ec18ee(l32.s1);
            return l0;
            break;
        }
    }
    l36 = (uint8_t *)&l10;
    l37 = l36 + (size_t)l32.s0;
    l38 = (uint64_t)((uint64_t)UINT64_C(32402) - (uint64_t)l32.s0);
    l39 = (uint8_t *)&(*(uint8_t *)l37);
    l40.p = l39;
    l40.n = l38;
    l41 = (uint8_t *)&(*(uint8_t *)l4.p);
    l42.p = l41;
    l42.n = l4.n;
    l0 = read_text__imaged(l40, l42);
    return l0;
}

static inline struct core__result__Result__u32_Refusal read_text__passes(rt_slice l1, rt_slice l2, rt_slice l3, rt_slice l4)
{
    struct core__result__Result__u32_Refusal l0;
    uint8_t l5;
    uint8_t *l6;
    rt_slice l7;
    uint8_t l8;
    struct types__refusal__Refusal l9;
    uint8_t *l10;
    rt_slice l11;
    uint8_t *l12;
    rt_slice l13;
    struct types__refusal__Refusal l14;
    uint8_t *l15;
    rt_slice l16;
    uint8_t *l17;
    rt_slice l18;
    uint8_t *l19;
    rt_slice l20;
    l6 = (uint8_t *)&(*(uint8_t *)l2.p);
    l7.p = l6;
    l7.n = l2.n;
    l5 = lexer__mark(l1, l7);
    l8 = (uint8_t)!l5;
    if (l8) {
        l9.tag = UINT8_C(14);
        l0.tag = UINT8_C(1);
        l0.s1 = l9;
        return l0;
    }
    l10 = (uint8_t *)&(*(uint8_t *)l2.p);
    l11.p = l10;
    l11.n = l2.n;
    l12 = (uint8_t *)&(*(uint8_t *)l3.p);
    l13.p = l12;
    l13.n = l3.n;
    l5 = derive__derived(l11, l13);
    l8 = (uint8_t)!l5;
    if (l8) {
        l14.tag = UINT8_C(15);
        l0.tag = UINT8_C(1);
        l0.s1 = l14;
        return l0;
    }
    l15 = (uint8_t *)&(*(uint8_t *)l2.p);
    l16.p = l15;
    l16.n = l2.n;
    l17 = (uint8_t *)&(*(uint8_t *)l3.p);
    l18.p = l17;
    l18.n = l3.n;
    l19 = (uint8_t *)&(*(uint8_t *)l4.p);
    l20.p = l19;
    l20.n = l4.n;
    l0 = read_text__meant(l1, l16, l18, l20);
    return l0;
}

static RT_APART struct read_text__Answer read_text__read(rt_slice l1, rt_slice l2)
{
    struct read_text__Answer l0;
    struct rt_array_uint8_65536 l4;
    struct rt_array_uint8_65537 l5;
    uint8_t l6;
    struct types__refusal__Refusal l7;
    struct core__result__Result__u32_Refusal l8;
    struct core__result__Result__u32_Refusal l9;
    uint8_t *l10;
    rt_slice l11;
    uint8_t *l12;
    rt_slice l13;
    uint8_t *l14;
    rt_slice l15;
    l6 = (uint8_t)(UINT64_C(65536) < l1.n);
    if (l6) {
        l7.tag = UINT8_C(14);
        l8.tag = UINT8_C(1);
        l8.s1 = l7;
        l0 = read_text__answered(l8);
        return l0;
    }
    memset(&l4, 0, sizeof l4);
    memset(&l5, 0, sizeof l5);
    l10 = (uint8_t *)&l4;
    l11.p = l10;
    l11.n = l1.n;
    l12 = (uint8_t *)&l5;
    l13.p = l12;
    l13.n = UINT64_C(65537);
    l14 = (uint8_t *)&(*(uint8_t *)l2.p);
    l15.p = l14;
    l15.n = l2.n;
    l9 = read_text__passes(l1, l11, l13, l15);
    l0 = read_text__answered(l9);
    return l0;
}

static RT_WITHIN uint8_t resolve__declarations__between_all__unit(rt_slice l1)
{
    uint8_t l0;
    uint64_t l4;
    uint8_t l6;
    uint8_t *l7;
    uint64_t l8;
    uint64_t l9;
    uint8_t *l10;
    uint64_t l11;
    uint64_t l12;
    uint8_t *l13;
    uint64_t l14;
    uint8_t l15;
    l4 = UINT64_C(1);
    for (;;) {
        l6 = (uint8_t)(l4 < l1.n);
        if (l6) {
        } else {
            goto end1;
        }
        l7 = (uint8_t *)0;
        l8 = (uint64_t)((uint64_t)l4 - (uint64_t)UINT64_C(1));
        l9 = (uint64_t)((uint64_t)l8 * (uint64_t)UINT64_C(8));
        l10 = l1.p + (size_t)l9;
        l11 = (*(uint64_t *)l10);
        l12 = (uint64_t)((uint64_t)l4 * (uint64_t)UINT64_C(8));
        l13 = l1.p + (size_t)l12;
        l14 = (*(uint64_t *)l13);
        l6 = resolve__resolve__declarations__few_Fn__call(l7, l11, l14);
        l15 = (uint8_t)!l6;
        if (l15) {
            l0 = 0;
            core__Destruct__none__drop__unit();
            return l0;
        }
        l4 = (uint64_t)((uint64_t)l4 + (uint64_t)UINT64_C(1));
    }
end1:;
    l0 = 1;
    core__Destruct__none__drop__unit();
    return l0;
}

static RT_SHORT uint8_t resolve__declarations__few(uint64_t l1, uint64_t l2)
{
    uint8_t l0;
    uint64_t l3;
    l3 = core__int__usize__saturating_sub(l2, l1);
    l0 = (uint8_t)(l3 <= UINT64_C(8));
    return l0;
}

static RT_WITHIN uint8_t resolve__declarations__fn__rows_ok__between_all(uint8_t *l1, uint64_t l2, uint64_t l3)
{
    uint8_t l0;
    rt_slice l4;
    rt_slice l5;
    l4 = (*(struct resolve__declarations__fn__rows_ok__between_all_Self___17487529 *)l1).f0;
    l5 = (*(struct resolve__declarations__fn__rows_ok__between_all_Self___17487529 *)l1).f1;
    l0 = resolve__declarations__row_ok(l4, l5, l2, l3);
    return l0;
}

static RT_WITHIN uint8_t resolve__declarations__fn__rows_ok__between_all_Fn__call(uint8_t *l1, uint64_t l2, uint64_t l3)
{
    uint8_t l0;
    l0 = resolve__declarations__fn__rows_ok__between_all(l1, l2, l3);
    return l0;
}

static RT_SHORT uint8_t resolve__declarations__is_new(rt_slice l1, rt_slice l2, uint64_t l3, uint64_t l4)
{
    uint8_t l0;
    struct core__option__Option__u64 l5;
    uint8_t *l6;
    rt_slice l7;
    struct core__option__Option__u64 l8;
    uint8_t *l9;
    l6 = (uint8_t *)&(*(uint64_t *)l2.p);
    l7.p = l6;
    l7.n = l3;
    l5 = resolve__names__lookup(l1, l7, l4);
    l8 = l5;
    l9 = (uint8_t *)&l8;
    l0 = core__option__Option__is_none__u64(l9);
    return l0;
}

static RT_SHORT uint8_t resolve__declarations__narrow(rt_slice l1)
{
    uint8_t l0;
    l0 = resolve__declarations__between_all__unit(l1);
    return l0;
}

static inline uint8_t resolve__declarations__row_ok(rt_slice l1, rt_slice l2, uint64_t l3, uint64_t l4)
{
    uint8_t l0;
    uint8_t l5;
    uint8_t l6;
    uint8_t l7;
    uint64_t l9;
    uint64_t l10;
    uint8_t *l11;
    uint64_t l12;
    uint8_t *l13;
    rt_slice l14;
    l7 = (uint8_t)(l3 <= l4);
    if (l7) {
        l7 = (uint8_t)(l4 <= l2.n);
    }
    l6 = l7;
    if (l6) {
        l9 = (uint64_t)((uint64_t)l4 - (uint64_t)l3);
        l6 = (uint8_t)(l9 <= UINT64_C(8));
    }
    l5 = l6;
    if (l5) {
        l10 = (uint64_t)((uint64_t)l3 * (uint64_t)UINT64_C(8));
        l11 = l2.p + (size_t)l10;
        l12 = (uint64_t)((uint64_t)l4 - (uint64_t)l3);
        l13 = (uint8_t *)&(*(uint64_t *)l11);
        l14.p = l13;
        l14.n = l12;
        l5 = resolve__tables__distinct(l1, l14);
    }
    l0 = l5;
    return l0;
}

static RT_SHORT uint8_t resolve__declarations__rows_ok(rt_slice l1, rt_slice l2, rt_slice l3)
{
    uint8_t l0;
    uint8_t *l4;
    rt_slice l5;
    uint8_t *l6;
    rt_slice l7;
    struct resolve__declarations__fn__rows_ok__between_all_Self___17487529 l8;
    l4 = (uint8_t *)&(*(uint8_t *)l1.p);
    l5.p = l4;
    l5.n = l1.n;
    l6 = (uint8_t *)&(*(uint64_t *)l2.p);
    l7.p = l6;
    l7.n = l2.n;
    l8.f0 = l5;
    l8.f1 = l7;
    l0 = resolve__declarations__between_all__between_all_Self_s_50cd00d0(l3, l8);
    return l0;
}

static inline uint64_t resolve__declarations__step_names(rt_slice l1, rt_slice l2, rt_slice l3)
{
    uint64_t l0;
    uint64_t l4;
    uint64_t l5;
    uint8_t *l6;
    uint8_t l7;
    uint8_t l9;
    uint64_t l10;
    uint8_t *l11;
    uint8_t *l12;
    rt_slice l13;
    uint64_t l14;
    uint8_t *l15;
    rt_slice l16;
    uint8_t l17;
    l4 = UINT64_C(0);
    l5 = UINT64_C(0);
    for (;;) {
        l9 = (uint8_t)(l5 < l2.n);
        if (l9) {
        } else {
            goto end2;
        }
        l10 = (uint64_t)((uint64_t)l5 * (uint64_t)UINT64_C(8));
        l11 = l2.p + (size_t)l10;
        l6 = (uint8_t *)&(*(uint64_t *)l11);
        l12 = (uint8_t *)&(*(uint64_t *)l3.p);
        l13.p = l12;
        l13.n = l3.n;
        l14 = (*(uint64_t *)l6);
        l7 = resolve__declarations__is_new(l1, l13, l4, l14);
        l15 = (uint8_t *)&(*(uint64_t *)l3.p);
        l16.p = l15;
        l16.n = l3.n;
        l14 = (*(uint64_t *)l6);
        l4 = resolve__tables__add(l16, l4, l14, l7);
        l14 = l3.n;
        l17 = (uint8_t)(l14 < l4);
        if (l17) {
            l0 = l4;
            return l0;
        }
        l5 = (uint64_t)((uint64_t)l5 + (uint64_t)UINT64_C(1));
    }
end2:;
    l0 = l4;
    return l0;
}

static RT_SHORT uint64_t resolve__declarations__type_byte(rt_slice l1, rt_slice l2, uint8_t l3, uint64_t l4)
{
    uint64_t l0;
    uint8_t l5;
    uint64_t l6;
    uint64_t l7;
    struct core__option__Option__u64 l8;
    l5 = (uint8_t)(l3 <= UINT8_C(2));
    if (l5) {
        l0 = core__convert__UsizeFromU8__from(l3);
        return l0;
    }
    l6 = core__convert__UsizeFromU8__from(UINT8_C(16));
    l8 = resolve__names__lookup(l1, l2, l4);
    l7 = core__option__Option__unwrap_or__u64(l8, l2.n);
    l0 = (uint64_t)((uint64_t)l6 + (uint64_t)l7);
    return l0;
}

static RT_SHORT uint8_t resolve__declarations__type_kind(uint8_t l1)
{
    uint8_t l0;
    l0 = core__int__u8__saturating_sub(l1, UINT8_C(51));
    return l0;
}

static inline uint8_t resolve__declarations__types(rt_slice l1, rt_slice l2, rt_slice l3, rt_slice l4, rt_slice l5)
{
    uint8_t l0;
    uint64_t l6;
    uint8_t *l7;
    uint64_t l8;
    uint8_t l10;
    uint64_t l11;
    uint8_t *l12;
    uint8_t l13;
    uint8_t l14;
    uint64_t l15;
    uint64_t l16;
    uint64_t l17;
    uint8_t l18;
    uint8_t *l20;
    rt_slice l21;
    l6 = UINT64_C(0);
    for (;;) {
        l10 = (uint8_t)(l6 < l4.n);
        if (l10) {
        } else {
            goto end2;
        }
        l11 = (uint64_t)((uint64_t)l6 * (uint64_t)UINT64_C(8));
        l12 = l4.p + (size_t)l11;
        l7 = (uint8_t *)&(*(uint64_t *)l12);
        l15 = (*(uint64_t *)l7);
        l14 = lexer__bytes__byte(l2, l15);
        l13 = resolve__declarations__type_kind(l14);
        l16 = (*(uint64_t *)l7);
        l8 = resolve__declarations__type_byte(l1, l3, l13, l16);
        l15 = core__convert__UsizeFromU8__from(UINT8_C(16));
        l16 = l3.n;
        l17 = (uint64_t)((uint64_t)l15 + (uint64_t)l16);
        l18 = (uint8_t)(l17 <= l8);
        if (l18) {
            l0 = 0;
            return l0;
        }
        l20 = (uint8_t *)&(*(uint64_t *)l5.p);
        l21.p = l20;
        l21.n = l5.n;
        resolve__tables__put(l21, l6, l8);
        l6 = (uint64_t)((uint64_t)l6 + (uint64_t)UINT64_C(1));
    }
end2:;
    l0 = 1;
    return l0;
}

static RT_SHORT uint64_t resolve__literals__digit_value(uint8_t l1)
{
    uint64_t l0;
    uint8_t l2;
    l2 = (uint8_t)((uint32_t)l1 - (uint32_t)UINT8_C(48));
    l0 = core__convert__U64FromU8__from(l2);
    return l0;
}

static RT_SHORT struct core__option__Option__u32 resolve__literals__int_word(rt_slice l1, uint64_t l2)
{
    struct core__option__Option__u32 l0;
    uint64_t l3;
    uint64_t l4;
    uint8_t *l5;
    uint8_t l6;
    uint8_t l7;
    l4 = (uint64_t)((uint64_t)l2 + (uint64_t)UINT64_C(1));
    l3 = resolve__literals__value(l1, l4);
    l5 = l1.p + (size_t)l2;
    l6 = (*(uint8_t *)l5);
    l7 = (uint8_t)(l6 == UINT8_C(43));
    l0 = resolve__literals__signed(l7, l3);
    return l0;
}

static RT_SHORT uint64_t resolve__literals__longer(uint64_t l1, uint8_t l2)
{
    uint64_t l0;
    uint64_t l3;
    uint64_t l4;
    uint64_t l5;
    l3 = (uint64_t)((uint64_t)l1 * (uint64_t)UINT64_C(10));
    l4 = resolve__literals__digit_value(l2);
    l5 = (uint64_t)((uint64_t)l3 + (uint64_t)l4);
    l0 = core__int__u64__min(UINT64_C(4294967296), l5);
    return l0;
}

static RT_SHORT struct core__option__Option__u32 resolve__literals__nat_word(rt_slice l1, uint64_t l2)
{
    struct core__option__Option__u32 l0;
    struct core__result__Result__u32_TryFromIntError l3;
    uint64_t l4;
    l4 = resolve__literals__value(l1, l2);
    l3 = core__convert__try_from__AnyTryFrom__try_from__u64_u32_ecc00421(l4);
    l0 = core__result__Result__ok__u32_TryFromIntError(l3);
    return l0;
}

static inline struct core__option__Option__u32 resolve__literals__signed(uint8_t l1, uint64_t l2)
{
    struct core__option__Option__u32 l0;
    struct core__option__Option__u32 l5;
    uint8_t l6;
    uint32_t l7;
    uint64_t l8;
    uint32_t l9;
    if (l1) {
        l6 = (uint8_t)(l2 < UINT64_C(2147483648));
        if (l6) {
            l7 = (uint32_t)l2;
            l5.tag = UINT8_C(1);
            l5.s0 = l7;
            goto end1;
        }
        goto end2;
    } else {
        switch (l2) {
            case UINT64_C(0): {
                l5.tag = UINT8_C(1);
                l5.s0 = UINT32_C(0);
                goto end1;
                break;
            }
            default: {
                l6 = (uint8_t)(l2 < UINT64_C(2147483649));
                if (l6) {
                    l8 = (uint64_t)((uint64_t)UINT64_C(4294967296) - (uint64_t)l2);
                    l9 = (uint32_t)l8;
                    l5.tag = UINT8_C(1);
                    l5.s0 = l9;
                    goto end1;
                }
                goto end2;
                break;
            }
        }
    }
end2:;
    l5.tag = UINT8_C(0);
end1:;
    l0 = l5;
    return l0;
}

static inline uint64_t resolve__literals__value(rt_slice l1, uint64_t l2)
{
    uint64_t l0;
    uint64_t l3;
    uint64_t l4;
    uint8_t l7;
    uint8_t *l8;
    uint8_t l9;
    uint8_t l10;
    l3 = UINT64_C(0);
    l4 = l2;
    for (;;) {
        l7 = (uint8_t)(l4 < l1.n);
        if (l7) {
        } else {
            goto end1;
        }
        l8 = l1.p + (size_t)l4;
        l9 = (*(uint8_t *)l8);
        l7 = lexer__bytes__is_digit(l9);
        l10 = (uint8_t)!l7;
        if (l10) {
            l0 = l3;
            return l0;
        }
        l3 = resolve__literals__longer(l3, l9);
        l4 = (uint64_t)((uint64_t)l4 + (uint64_t)UINT64_C(1));
    }
end1:;
    l0 = l3;
    return l0;
}

static RT_WITHIN uint8_t resolve__names__fn__lookup__position(uint8_t *l1, uint8_t *l2)
{
    uint8_t l0;
    rt_slice l3;
    uint8_t *l4;
    uint64_t l5;
    uint64_t l6;
    l3 = (*(struct resolve__names__fn__lookup__position_Self__slice_u8_ref_u64 *)l1).f0;
    l4 = (*(struct resolve__names__fn__lookup__position_Self__slice_u8_ref_u64 *)l1).f1;
    l5 = (*(uint64_t *)l2);
    l6 = (*(uint64_t *)l4);
    l0 = resolve__names__same_name(l3, l5, l6);
    return l0;
}

static RT_WITHIN uint8_t resolve__names__fn__lookup__position_FnMut__call_mut(uint8_t *l1, uint8_t *l2)
{
    uint8_t l0;
    uint8_t *l3;
    l3 = (uint8_t *)&(*(struct resolve__names__fn__lookup__position_Self__slice_u8_ref_u64 *)l1);
    l0 = resolve__names__fn__lookup__position(l3, l2);
    return l0;
}

static RT_SHORT uint8_t resolve__names__letter(rt_slice l1, uint64_t l2)
{
    uint8_t l0;
    uint8_t l3;
    uint8_t l4;
    uint8_t l5;
    l3 = lexer__bytes__byte(l1, l2);
    l4 = lexer__bytes__is_name_byte(l3);
    if (l4) {
        l5 = l3;
    } else {
        l5 = UINT8_C(0);
    }
    l0 = l5;
    return l0;
}

static RT_HERE struct core__option__Option__u64 resolve__names__lookup(rt_slice l1, rt_slice l2, uint64_t l3)
{
    struct core__option__Option__u64 l0;
    uint64_t l4;
    struct core__iter__slices__Iter__u64 l5;
    struct core__iter__slices__Iter__u64 l6;
    uint8_t *l7;
    uint8_t *l8;
    rt_slice l9;
    uint8_t *l10;
    struct resolve__names__fn__lookup__position_Self__slice_u8_ref_u64 l11;
    l4 = l3;
    l5 = core__iter__slices__slice_T__iter__u64(l2);
    l6.f0 = l5.f0;
    l7 = (uint8_t *)&l6;
    l8 = (uint8_t *)&(*(uint8_t *)l1.p);
    l9.p = l8;
    l9.n = l1.n;
    l10 = (uint8_t *)&l4;
    l11.f0 = l9;
    l11.f1 = l10;
    l0 = core__iter__base__Iterator__position__Iter_u64_ref_u64_86bdc99e(l7, l11);
    return l0;
}

static inline uint8_t resolve__names__same_name(rt_slice l1, uint64_t l2, uint64_t l3)
{
    uint8_t l0;
    uint64_t l4;
    uint64_t l5;
    uint8_t l6;
    uint8_t l7;
    uint8_t l8;
    uint8_t l9;
    l4 = l2;
    l5 = l3;
    l6 = resolve__names__letter(l1, l4);
    for (;;) {
        l7 = (uint8_t)(l6 != UINT8_C(0));
        if (l7) {
        } else {
            goto end1;
        }
        l8 = lexer__bytes__byte(l1, l5);
        l7 = (uint8_t)(l8 != l6);
        if (l7) {
            l0 = 0;
            return l0;
        }
        l4 = (uint64_t)((uint64_t)l4 + (uint64_t)UINT64_C(1));
        l5 = (uint64_t)((uint64_t)l5 + (uint64_t)UINT64_C(1));
        l6 = resolve__names__letter(l1, l4);
    }
end1:;
    l9 = resolve__names__letter(l1, l5);
    l0 = (uint8_t)(l9 == UINT8_C(0));
    return l0;
}

static RT_WITHIN uint8_t resolve__resolve__declarations__few_Fn__call(uint8_t *l1, uint64_t l2, uint64_t l3)
{
    uint8_t l0;
    (void)l1;
    l0 = resolve__declarations__few(l2, l3);
    return l0;
}

static RT_SHORT uint64_t resolve__tables__add(rt_slice l1, uint64_t l2, uint64_t l3, uint8_t l4)
{
    uint64_t l0;
    uint8_t l5;
    uint8_t *l7;
    rt_slice l8;
    l5 = (uint8_t)!l4;
    if (l5) {
        l0 = l2;
        return l0;
    }
    l7 = (uint8_t *)&(*(uint64_t *)l1.p);
    l8.p = l7;
    l8.n = l1.n;
    resolve__tables__put(l8, l2, l3);
    l0 = (uint64_t)((uint64_t)l2 + (uint64_t)UINT64_C(1));
    return l0;
}

static RT_SHORT uint64_t resolve__tables__counted(uint64_t l1, uint8_t l2)
{
    uint64_t l0;
    uint64_t l3;
    l3 = core__convert__others__UsizeFromBool__from(l2);
    l0 = (uint64_t)((uint64_t)l1 + (uint64_t)l3);
    return l0;
}

static inline uint8_t resolve__tables__distinct(rt_slice l1, rt_slice l2)
{
    uint8_t l0;
    uint64_t l3;
    uint8_t *l4;
    uint8_t l6;
    uint64_t l7;
    uint8_t *l8;
    uint8_t l9;
    struct core__option__Option__u64 l10;
    uint64_t l11;
    uint64_t l12;
    uint8_t *l13;
    uint64_t l14;
    uint8_t *l15;
    rt_slice l16;
    uint64_t l17;
    struct core__option__Option__u64 l18;
    uint8_t *l19;
    l3 = UINT64_C(0);
    for (;;) {
        l6 = (uint8_t)(l3 < l2.n);
        if (l6) {
        } else {
            goto end2;
        }
        l7 = (uint64_t)((uint64_t)l3 * (uint64_t)UINT64_C(8));
        l8 = l2.p + (size_t)l7;
        l4 = (uint8_t *)&(*(uint64_t *)l8);
        l11 = (uint64_t)((uint64_t)l3 + (uint64_t)UINT64_C(1));
        l12 = (uint64_t)((uint64_t)l11 * (uint64_t)UINT64_C(8));
        l13 = l2.p + (size_t)l12;
        l14 = (uint64_t)((uint64_t)l2.n - (uint64_t)l11);
        l15 = (uint8_t *)&(*(uint64_t *)l13);
        l16.p = l15;
        l16.n = l14;
        l17 = (*(uint64_t *)l4);
        l10 = resolve__names__lookup(l1, l16, l17);
        l18 = l10;
        l19 = (uint8_t *)&l18;
        l9 = core__option__Option__is_some__u64(l19);
        if (l9) {
            l0 = 0;
            return l0;
        }
        l3 = (uint64_t)((uint64_t)l3 + (uint64_t)UINT64_C(1));
    }
end2:;
    l0 = 1;
    return l0;
}

static RT_SHORT void resolve__tables__put(rt_slice l1, uint64_t l2, uint64_t l3)
{
    uint8_t l5;
    uint64_t l6;
    uint8_t *l7;
    l5 = (uint8_t)(l2 < l1.n);
    if (l5) {
        l6 = (uint64_t)((uint64_t)l2 * (uint64_t)UINT64_C(8));
        l7 = l1.p + (size_t)l6;
        (*(uint64_t *)l7) = l3;
    }
    return;
}

static RT_WITHIN uint8_t resolve__declarations__between_all__between_all_Self_s_50cd00d0(rt_slice l1, struct resolve__declarations__fn__rows_ok__between_all_Self___17487529 l2)
{
    uint8_t l0;
    struct resolve__declarations__fn__rows_ok__between_all_Self___17487529 l3;
    uint64_t l4;
    uint8_t l6;
    uint8_t *l7;
    uint64_t l8;
    uint64_t l9;
    uint8_t *l10;
    uint64_t l11;
    uint64_t l12;
    uint8_t *l13;
    uint64_t l14;
    uint8_t l15;
    struct resolve__declarations__fn__rows_ok__between_all_Self___17487529 l16;
    struct resolve__declarations__fn__rows_ok__between_all_Self___17487529 l18;
    l3.f0 = l2.f0;
    l3.f1 = l2.f1;
    l4 = UINT64_C(1);
    for (;;) {
        l6 = (uint8_t)(l4 < l1.n);
        if (l6) {
        } else {
            goto end1;
        }
        l7 = (uint8_t *)&l3;
        l8 = (uint64_t)((uint64_t)l4 - (uint64_t)UINT64_C(1));
        l9 = (uint64_t)((uint64_t)l8 * (uint64_t)UINT64_C(8));
        l10 = l1.p + (size_t)l9;
        l11 = (*(uint64_t *)l10);
        l12 = (uint64_t)((uint64_t)l4 * (uint64_t)UINT64_C(8));
        l13 = l1.p + (size_t)l12;
        l14 = (*(uint64_t *)l13);
        l6 = resolve__declarations__fn__rows_ok__between_all_Fn__call(l7, l11, l14);
        l15 = (uint8_t)!l6;
        if (l15) {
            l0 = 0;
            l16.f0 = l3.f0;
            l16.f1 = l3.f1;
            core__Destruct__none__drop__between_all_Self_slice_u8_slice_u64(l16);
            return l0;
        }
        l4 = (uint64_t)((uint64_t)l4 + (uint64_t)UINT64_C(1));
    }
end1:;
    l0 = 1;
    l18.f0 = l3.f0;
    l18.f1 = l3.f1;
    core__Destruct__none__drop__between_all_Self_slice_u8_slice_u64(l18);
    return l0;
}

static RT_APART struct core__result__Result__run_images_Report_Refusal run_images__begun(uint8_t *l1, rt_slice l2, rt_slice l3, rt_slice l4, rt_slice l5, rt_slice l6, rt_slice l7)
{
    struct core__result__Result__run_images_Report_Refusal l0;
    struct load__Loaded l8;
    struct table_read__parameters__Parameters l9;
    struct rt_array_uint16_1024 l11;
    struct rt_array_uint64_129 l12;
    uint64_t l13;
    struct rt_array_uint8_8568 l14;
    struct rt_array_uint16_1536 l15;
    struct rt_array_uint64_8192 l16;
    struct engine__Machine l23;
    struct interpreter__turns__Program l24;
    struct interpreter__turns__Ran l25;
    struct run_images__Report l26;
    uint64_t l28;
    uint8_t *l29;
    rt_slice l30;
    uint8_t *l31;
    rt_slice l32;
    struct core__ops__ControlFlow__ErrResidual_Refusal_Seat l33;
    struct core__result__Result__Seat_Refusal l34;
    uint8_t *l36;
    rt_slice l37;
    uint8_t *l38;
    rt_slice l39;
    uint8_t *l40;
    rt_slice l41;
    struct core__ops__ControlFlow__ErrResidual_Refusal_unit l43;
    struct core__result__Result__unit_Refusal l44;
    uint8_t *l47;
    rt_slice l48;
    uint8_t *l49;
    rt_slice l50;
    uint8_t *l51;
    rt_slice l52;
    uint8_t *l53;
    rt_slice l54;
    uint8_t *l55;
    uint8_t *l56;
    rt_slice l57;
    uint8_t *l58;
    rt_slice l59;
    uint8_t *l60;
    rt_slice l61;
    uint8_t *l62;
    rt_slice l63;
    uint8_t *l64;
    rt_slice l65;
    uint8_t *l66;
    rt_slice l67;
    l8.f0 = (*(struct seating__Opened *)l1).f0.f0;
    l8.f1 = (*(struct seating__Opened *)l1).f0.f1;
    l8.f2 = (*(struct seating__Opened *)l1).f0.f2;
    l8.f3 = (*(struct seating__Opened *)l1).f0.f3;
    l8.f4 = (*(struct seating__Opened *)l1).f0.f4;
    l8.f5 = (*(struct seating__Opened *)l1).f0.f5;
    l8.f6 = (*(struct seating__Opened *)l1).f0.f6;
    l9 = seating__parameters(l1);
    memset(&l11, 0, sizeof l11);
    memset(&l12, 0, sizeof l12);
    l13 = (uint64_t)l8.f3;
    l28 = (uint64_t)l8.f4;
    l29 = (uint8_t *)&l11;
    l30.p = l29;
    l30.n = UINT64_C(1024);
    l31 = (uint8_t *)&l12;
    l32.p = l31;
    l32.n = UINT64_C(129);
    compile__program(l2, l8.f2, l13, l3, l28, l30, l32);
    memset(&l14, 0, sizeof l14);
    memset(&l15, 0, sizeof l15);
    memset(&l16, 0, sizeof l16);
    l36 = (uint8_t *)&l14;
    l37.p = l36;
    l37.n = UINT64_C(8568);
    l38 = (uint8_t *)&l15;
    l39.p = l38;
    l39.n = UINT64_C(1536);
    l40 = (uint8_t *)&l16;
    l41.p = l40;
    l41.n = UINT64_C(8192);
    l34 = seating__seat_table(l8.f1, l9, l4, l37, l39, l41);
    l33 = core__result__ResultTry__branch__Seat_Refusal(l34);
    switch (l33.tag) {
        case UINT8_C(0): {
            break;
        }
        case UINT8_C(1): default: {
            l0 = core__result__ResultFromResidualErrResidual__from_resi_abcbd695(l33.s1);
            return l0;
            break;
        }
    }
    l28 = l6.n;
    l44 = run_images__room(l28, l7.n, l5.n);
    l43 = core__result__ResultTry__branch__unit_Refusal(l44);
    switch (l43.tag) {
        case UINT8_C(0): {
            break;
        }
        case UINT8_C(1): default: {
            l0 = core__result__ResultFromResidualErrResidual__from_resi_abcbd695(l43.s0);
            return l0;
            break;
        }
    }
    l47 = (uint8_t *)&(*(uint64_t *)l7.p);
    l48.p = l47;
    l48.n = l7.n;
    emit_steps__program(l2, l9.f0, l33.s0.f0, l48);
    l23.f0.f0 = l33.s0.f1.f0;
    l23.f0.f1 = l33.s0.f1.f1;
    l23.f0.f2 = l33.s0.f1.f2;
    l23.f0.f3 = l33.s0.f1.f3;
    l23.f0.f4 = l33.s0.f1.f4;
    l23.f0.f5 = l33.s0.f1.f5;
    l23.f0.f6 = l33.s0.f1.f6;
    l49 = (uint8_t *)&(*(uint64_t *)l7.p);
    l50.p = l49;
    l50.n = l7.n;
    l51 = (uint8_t *)&l12;
    l52.p = l51;
    l52.n = UINT64_C(129);
    l53 = (uint8_t *)&l11;
    l54.p = l53;
    l54.n = UINT64_C(1024);
    l24.f0 = l50;
    l24.f1 = l9.f0;
    l24.f2 = l52;
    l24.f3 = l54;
    l55 = (uint8_t *)&l24;
    l56 = (uint8_t *)&l15;
    l57.p = l56;
    l57.n = UINT64_C(1536);
    l58 = (uint8_t *)&l16;
    l59.p = l58;
    l59.n = UINT64_C(8192);
    l25 = interpreter__turns__run(l23, l55, l57, l59, l5);
    l60 = (uint8_t *)&l15;
    l61.p = l60;
    l61.n = UINT64_C(1536);
    l62 = (uint8_t *)&l16;
    l63.p = l62;
    l63.n = UINT64_C(8192);
    l64 = (uint8_t *)&l14;
    l65.p = l64;
    l65.n = UINT64_C(8568);
    l66 = (uint8_t *)&(*(uint8_t *)l6.p);
    l67.p = l66;
    l67.n = l6.n;
    l26 = run_images__reported(l9.f0, l61, l63, l25, l8.f6, l65, l67);
    l0.tag = UINT8_C(0);
    l0.s0.f0 = l26.f0;
    l0.s0.f1 = l26.f1;
    l0.s0.f2 = l26.f2;
    l0.s0.f3 = l26.f3;
    l0.s0.f4 = l26.f4;
    return l0;
}

static RT_HERE struct run_images__Report run_images__refused(uint8_t l1)
{
    struct run_images__Report l0;
    l0.f0 = l1;
    l0.f1 = UINT32_C(0);
    l0.f2 = UINT8_C(0);
    l0.f3 = UINT8_C(0);
    l0.f4 = UINT16_C(0);
    return l0;
}

static RT_HERE struct run_images__Report run_images__reported(rt_slice l1, rt_slice l2, rt_slice l3, struct interpreter__turns__Ran l4, uint8_t l5, rt_slice l6, rt_slice l7)
{
    struct run_images__Report l0;
    uint64_t l10;
    uint8_t *l11;
    rt_slice l12;
    uint8_t *l13;
    rt_slice l14;
    uint32_t l15;
    uint8_t l16;
    uint16_t l17;
    l11 = (uint8_t *)&(*(uint8_t *)l6.p);
    l12.p = l11;
    l12.n = l6.n;
    l13 = (uint8_t *)&(*(uint8_t *)l7.p);
    l14.p = l13;
    l14.n = l7.n;
    l10 = table_write__write(l1, l2, l3, l4.f0.f0.f0, l12, l14);
    l15 = (uint32_t)l4.f2;
    l16 = (uint8_t)l10;
    l17 = (uint16_t)l4.f0.f0.f5;
    l0.f0 = l4.f1;
    l0.f1 = l15;
    l0.f2 = l16;
    l0.f3 = l5;
    l0.f4 = l17;
    return l0;
}

static inline struct core__result__Result__unit_Refusal run_images__room(uint64_t l1, uint64_t l2, uint64_t l3)
{
    struct core__result__Result__unit_Refusal l0;
    uint8_t l4;
    uint8_t l5;
    struct types__refusal__Refusal l6;
    uint8_t l7;
    struct types__refusal__Refusal l8;
    l4 = (uint8_t)(l1 < UINT64_C(8704));
    if (l4) {
    } else {
        l4 = (uint8_t)(l2 < UINT64_C(1024));
        l5 = l4;
        if (l5) {
        } else {
            goto end2;
        }
    }
    l6.tag = UINT8_C(12);
    l0.tag = UINT8_C(1);
    l0.s0 = l6;
    return l0;
    goto end1;
end2:;
end1:;
    l7 = (uint8_t)(UINT64_C(65536) < l3);
    if (l7) {
        l8.tag = UINT8_C(13);
        l0.tag = UINT8_C(1);
        l0.s0 = l8;
        return l0;
    }
    l0.tag = UINT8_C(0);
    return l0;
}

static RT_APART struct run_images__Report run_images__run(rt_slice l1, rt_slice l2, rt_slice l3, rt_slice l4, rt_slice l5)
{
    struct run_images__Report l0;
    struct rt_array_uint8_5730 l6;
    struct rt_array_uint16_512 l7;
    struct seating__Opened l8;
    uint64_t l11;
    struct core__result__Result__Opened_Refusal l12;
    uint8_t *l13;
    rt_slice l14;
    uint8_t *l15;
    rt_slice l16;
    uint8_t l18;
    struct core__result__Result__run_images_Report_Refusal l19;
    uint8_t *l20;
    uint8_t *l21;
    rt_slice l22;
    uint8_t *l23;
    rt_slice l24;
    uint8_t *l25;
    rt_slice l26;
    uint8_t *l27;
    rt_slice l28;
    memset(&l6, 0, sizeof l6);
    memset(&l7, 0, sizeof l7);
    l13 = (uint8_t *)&l6;
    l14.p = l13;
    l14.n = UINT64_C(5730);
    l15 = (uint8_t *)&l7;
    l16.p = l15;
    l16.n = UINT64_C(512);
    l12 = seating__open_program(l1, l14, l16);
    switch (l12.tag) {
        case UINT8_C(0): {
            break;
        }
        case UINT8_C(1): default: {
            l18 = types__refusal__U8FromRefusal__from(l12.s1);
            l0 = run_images__refused(l18);
            return l0;
            break;
        }
    }
    l8.f0.f0 = l12.s0.f0.f0;
    l8.f0.f1 = l12.s0.f0.f1;
    l8.f0.f2 = l12.s0.f0.f2;
    l8.f0.f3 = l12.s0.f0.f3;
    l8.f0.f4 = l12.s0.f0.f4;
    l8.f0.f5 = l12.s0.f0.f5;
    l8.f0.f6 = l12.s0.f0.f6;
    l8.f1 = l12.s0.f1;
    l8.f2 = l12.s0.f2;
    l11 = l8.f0.f0;
    l20 = (uint8_t *)&l8;
    l21 = (uint8_t *)&l6;
    l22.p = l21;
    l22.n = l11;
    l23 = (uint8_t *)&l7;
    l24.p = l23;
    l24.n = UINT64_C(512);
    l25 = (uint8_t *)&(*(uint8_t *)l4.p);
    l26.p = l25;
    l26.n = l4.n;
    l27 = (uint8_t *)&(*(uint64_t *)l5.p);
    l28.p = l27;
    l28.n = l5.n;
    l19 = run_images__begun(l20, l22, l24, l2, l3, l26, l28);
    l0 = run_images__settled(l19);
    return l0;
}

static RT_HERE struct run_images__Report run_images__settled(struct core__result__Result__run_images_Report_Refusal l1)
{
    struct run_images__Report l0;
    struct run_images__Report l4;
    uint8_t l5;
    switch (l1.tag) {
        case UINT8_C(0): {
            l4.f0 = l1.s0.f0;
            l4.f1 = l1.s0.f1;
            l4.f2 = l1.s0.f2;
            l4.f3 = l1.s0.f3;
            l4.f4 = l1.s0.f4;
            break;
        }
        case UINT8_C(1): default: {
            l5 = types__refusal__U8FromRefusal__from(l1.s1);
            l4 = run_images__refused(l5);
            break;
        }
    }
    l0.f0 = l4.f0;
    l0.f1 = l4.f1;
    l0.f2 = l4.f2;
    l0.f3 = l4.f3;
    l0.f4 = l4.f4;
    return l0;
}

static RT_SHORT void scheduler__begin__begin_all(rt_slice l1, rt_slice l2, uint64_t l3, uint64_t l4)
{
    uint64_t l5;
    uint8_t l6;
    uint8_t *l8;
    rt_slice l9;
    l5 = UINT64_C(0);
    for (;;) {
        l6 = (uint8_t)(l5 < l4);
        if (l6) {
        } else {
            goto end1;
        }
        l8 = (uint8_t *)&(*(uint16_t *)l2.p);
        l9.p = l8;
        l9.n = l2.n;
        scheduler__begin__begin_one(l1, l9, l3, l5);
        l5 = (uint64_t)((uint64_t)l5 + (uint64_t)UINT64_C(1));
    }
end1:;
    return;
}

static inline void scheduler__begin__begin_one(rt_slice l1, rt_slice l2, uint64_t l3, uint64_t l4)
{
    uint64_t l5;
    uint64_t l6;
    uint16_t l7;
    uint16_t l8;
    uint8_t *l9;
    rt_slice l10;
    uint8_t l11;
    uint8_t l12;
    uint64_t l13;
    uint64_t l14;
    uint64_t l15;
    uint8_t *l16;
    uint16_t l17;
    uint8_t *l18;
    uint8_t *l20;
    rt_slice l21;
    l9 = (uint8_t *)&(*(uint16_t *)l2.p);
    l10.p = l9;
    l10.n = l2.n;
    l5 = layout__head(l10, l4, UINT64_C(0));
    l11 = scheduler__begin__means(l3, l5);
    l12 = (uint8_t)!l11;
    if (l12) {
        return;
    }
    l13 = (uint64_t)((uint64_t)UINT64_C(32) * (uint64_t)l5);
    l14 = (uint64_t)((uint64_t)l3 % (uint64_t)UINT64_C(32));
    l15 = (uint64_t)((uint64_t)l13 + (uint64_t)l14);
    l6 = (uint64_t)((uint64_t)UINT64_C(2) * (uint64_t)l15);
    l13 = (uint64_t)((uint64_t)l6 * (uint64_t)UINT64_C(2));
    l16 = l1.p + (size_t)l13;
    l17 = (*(uint16_t *)l16);
    l7 = l17;
    l15 = (uint64_t)((uint64_t)l6 + (uint64_t)UINT64_C(1));
    l14 = (uint64_t)((uint64_t)l15 * (uint64_t)UINT64_C(2));
    l18 = l1.p + (size_t)l14;
    l17 = (*(uint16_t *)l18);
    l8 = l17;
    l11 = (uint8_t)(l7 <= l8);
    if (l11) {
        l20 = (uint8_t *)&(*(uint16_t *)l2.p);
        l21.p = l20;
        l21.n = l2.n;
        layout__begin(l21, l4, l7, l8);
    }
    return;
}

static RT_SHORT uint8_t scheduler__begin__means(uint64_t l1, uint64_t l2)
{
    uint8_t l0;
    uint64_t l3;
    uint8_t l4;
    uint64_t l5;
    l3 = (uint64_t)((uint64_t)l1 / (uint64_t)UINT64_C(32));
    l4 = (uint8_t)(l3 == UINT64_C(0));
    if (l4) {
    } else {
        l5 = (uint64_t)((uint64_t)l2 + (uint64_t)UINT64_C(1));
        l4 = (uint8_t)(l3 == l5);
    }
    l0 = l4;
    return l0;
}

static RT_SHORT uint64_t scheduler__count__holding(rt_slice l1, uint64_t l2)
{
    uint64_t l0;
    uint64_t l3;
    uint64_t l4;
    uint8_t l5;
    uint8_t l6;
    l3 = UINT64_C(0);
    l4 = UINT64_C(0);
    for (;;) {
        l5 = (uint8_t)(l4 < l2);
        if (l5) {
        } else {
            goto end1;
        }
        l6 = layout__holds(l1, l4);
        if (l6) {
            l3 = (uint64_t)((uint64_t)l3 + (uint64_t)UINT64_C(1));
        }
        l4 = (uint64_t)((uint64_t)l4 + (uint64_t)UINT64_C(1));
    }
end1:;
    l0 = l3;
    return l0;
}

static RT_HERE struct layout__Numbers scheduler__schedule__advance(struct layout__Numbers l1, rt_slice l2, rt_slice l3, rt_slice l4)
{
    struct layout__Numbers l0;
    uint64_t l7;
    uint8_t *l8;
    uint64_t l9;
    uint8_t l10;
    uint8_t *l12;
    rt_slice l13;
    uint64_t l14;
    uint64_t l15;
    uint8_t *l16;
    rt_slice l17;
    l7 = (uint64_t)((uint64_t)l1.f1 * (uint64_t)UINT64_C(8));
    l8 = l2.p + (size_t)l7;
    l9 = (*(uint64_t *)l8);
    l10 = (uint8_t)(l9 < UINT64_C(1024));
    if (l10) {
        l12 = (uint8_t *)&(*(uint16_t *)l4.p);
        l13.p = l12;
        l13.n = l4.n;
        scheduler__begin__begin_all(l3, l13, l9, l1.f0);
        l14 = (uint64_t)((uint64_t)l1.f1 + (uint64_t)UINT64_C(1));
        l16 = (uint8_t *)&(*(uint16_t *)l4.p);
        l17.p = l16;
        l17.n = l4.n;
        l15 = scheduler__count__holding(l17, l1.f0);
        l0.f0 = l1.f0;
        l0.f1 = l14;
        l0.f2 = l1.f2;
        l0.f3 = l1.f3;
        l0.f4 = l1.f4;
        l0.f5 = l15;
        l0.f6 = l1.f6;
        return l0;
    }
    l10 = (uint8_t)(l9 == UINT64_C(1024));
    if (l10) {
        {
            struct layout__Numbers r = scheduler__schedule__fix(l1);
            l0.f0 = r.f0;
            l0.f1 = r.f1;
            l0.f2 = r.f2;
            l0.f3 = r.f3;
            l0.f4 = r.f4;
            l0.f5 = r.f5;
            l0.f6 = r.f6;
        }
        return l0;
    }
    l7 = (uint64_t)((uint64_t)l9 - (uint64_t)UINT64_C(2048));
    {
        struct layout__Numbers r = scheduler__schedule__round(l7, l1);
        l0.f0 = r.f0;
        l0.f1 = r.f1;
        l0.f2 = r.f2;
        l0.f3 = r.f3;
        l0.f4 = r.f4;
        l0.f5 = r.f5;
        l0.f6 = r.f6;
    }
    return l0;
}

static RT_HERE struct layout__Numbers scheduler__schedule__fix(struct layout__Numbers l1)
{
    struct layout__Numbers l0;
    uint64_t l2;
    uint64_t l3;
    uint64_t l4;
    uint64_t l5;
    l2 = (uint64_t)((uint64_t)l1.f1 + (uint64_t)UINT64_C(1));
    l3 = (uint64_t)((uint64_t)l1.f2 + (uint64_t)UINT64_C(1));
    l4 = (uint64_t)((uint64_t)UINT64_C(2) * (uint64_t)l1.f3);
    l5 = (uint64_t)((uint64_t)l4 + (uint64_t)UINT64_C(1));
    l0.f0 = l1.f0;
    l0.f1 = l2;
    l0.f2 = l3;
    l0.f3 = l5;
    l0.f4 = l1.f4;
    l0.f5 = l1.f5;
    l0.f6 = l1.f6;
    return l0;
}

static RT_HERE struct layout__Numbers scheduler__schedule__round(uint64_t l1, struct layout__Numbers l2)
{
    struct layout__Numbers l0;
    uint64_t l3;
    uint8_t l4;
    struct layout__Numbers l5;
    uint64_t l6;
    uint64_t l7;
    uint64_t l8;
    uint64_t l13;
    l3 = (uint64_t)((uint64_t)l2.f3 % (uint64_t)UINT64_C(2));
    l4 = (uint8_t)(l3 == UINT64_C(1));
    if (l4) {
        l6 = (uint64_t)((uint64_t)l2.f1 + (uint64_t)UINT64_C(1));
        l7 = (uint64_t)((uint64_t)l2.f2 - (uint64_t)UINT64_C(1));
        l8 = (uint64_t)((uint64_t)l2.f3 / (uint64_t)UINT64_C(2));
        l5.f0 = l2.f0;
        l5.f1 = l6;
        l5.f2 = l7;
        l5.f3 = l8;
        l5.f4 = l2.f4;
        l5.f5 = l2.f5;
        l5.f6 = l2.f6;
    } else {
        l13 = (uint64_t)((uint64_t)l2.f3 + (uint64_t)UINT64_C(1));
        l5.f0 = l2.f0;
        l5.f1 = l1;
        l5.f2 = l2.f2;
        l5.f3 = l13;
        l5.f4 = l2.f4;
        l5.f5 = l2.f5;
        l5.f6 = l2.f6;
    }
    l0.f0 = l5.f0;
    l0.f1 = l5.f1;
    l0.f2 = l5.f2;
    l0.f3 = l5.f3;
    l0.f4 = l5.f4;
    l0.f5 = l5.f5;
    l0.f6 = l5.f6;
    return l0;
}

static RT_APART struct core__result__Result__Loaded_Refusal seating__admit(rt_slice l1, rt_slice l2, rt_slice l3, rt_slice l4, rt_slice l5)
{
    struct core__result__Result__Loaded_Refusal l0;
    struct rt_array_uint8_32256 l6;
    struct core__ops__ControlFlow__ErrResidual_Refusal_Loaded l11;
    struct core__result__Result__Loaded_Refusal l12;
    uint8_t *l13;
    rt_slice l14;
    uint8_t *l15;
    rt_slice l16;
    uint8_t *l17;
    rt_slice l18;
    uint8_t *l19;
    rt_slice l20;
    uint8_t *l23;
    rt_slice l24;
    uint8_t *l25;
    rt_slice l26;
    memset(&l6, 0, sizeof l6);
    l13 = (uint8_t *)&l6;
    l14.p = l13;
    l14.n = UINT64_C(32256);
    l15 = (uint8_t *)&(*(uint8_t *)l3.p);
    l16.p = l15;
    l16.n = l3.n;
    l17 = (uint8_t *)&(*(uint8_t *)l4.p);
    l18.p = l17;
    l18.n = l4.n;
    l19 = (uint8_t *)&(*(uint16_t *)l5.p);
    l20.p = l19;
    l20.n = l5.n;
    l12 = load__program(l1, l14, l16, l18, l20);
    l11 = core__result__ResultTry__branch__Loaded_Refusal(l12);
    switch (l11.tag) {
        case UINT8_C(0): {
            break;
        }
        case UINT8_C(1): default: {
            {
                struct core__result__Result__Loaded_Refusal r = core__result__ResultFromResidualErrResidual__from_resi_3d5841e5(l11.s1);
                l0.tag = r.tag;
                l0.s0.f0 = r.s0.f0;
                l0.s0.f1 = r.s0.f1;
                l0.s0.f2 = r.s0.f2;
                l0.s0.f3 = r.s0.f3;
                l0.s0.f4 = r.s0.f4;
                l0.s0.f5 = r.s0.f5;
                l0.s0.f6 = r.s0.f6;
                l0.s1.tag = r.s1.tag;
            }
            return l0;
            break;
        }
    }
    l23 = (uint8_t *)&(*(uint8_t *)l2.p);
    l24.p = l23;
    l24.n = l2.n;
    l25 = (uint8_t *)&l6;
    l26.p = l25;
    l26.n = l11.s0.f0;
    block__put__copy(l24, UINT64_C(0), l26);
    l0.tag = UINT8_C(0);
    l0.s0.f0 = l11.s0.f0;
    l0.s0.f1 = l11.s0.f1;
    l0.s0.f2 = l11.s0.f2;
    l0.s0.f3 = l11.s0.f3;
    l0.s0.f4 = l11.s0.f4;
    l0.s0.f5 = l11.s0.f5;
    l0.s0.f6 = l11.s0.f6;
    return l0;
}

static RT_HERE struct core__result__Result__Opened_Refusal seating__open_program(rt_slice l1, rt_slice l2, rt_slice l3)
{
    struct core__result__Result__Opened_Refusal l0;
    struct rt_array_uint8_16 l4;
    struct rt_array_uint8_128 l5;
    struct core__ops__ControlFlow__ErrResidual_Refusal_Loaded l9;
    struct core__result__Result__Loaded_Refusal l10;
    uint8_t *l11;
    rt_slice l12;
    uint8_t *l13;
    rt_slice l14;
    uint8_t *l15;
    rt_slice l16;
    uint8_t *l17;
    rt_slice l18;
    struct rt_array_uint8_16 l20;
    struct rt_array_uint8_128 l21;
    struct seating__Opened l22;
    memset(&l4, 0, sizeof l4);
    memset(&l5, 0, sizeof l5);
    l11 = (uint8_t *)&(*(uint8_t *)l2.p);
    l12.p = l11;
    l12.n = l2.n;
    l13 = (uint8_t *)&l4;
    l14.p = l13;
    l14.n = UINT64_C(16);
    l15 = (uint8_t *)&l5;
    l16.p = l15;
    l16.n = UINT64_C(128);
    l17 = (uint8_t *)&(*(uint16_t *)l3.p);
    l18.p = l17;
    l18.n = l3.n;
    l10 = seating__admit(l1, l12, l14, l16, l18);
    l9 = core__result__ResultTry__branch__Loaded_Refusal(l10);
    switch (l9.tag) {
        case UINT8_C(0): {
            break;
        }
        case UINT8_C(1): default: {
            {
                struct core__result__Result__Opened_Refusal r = core__result__ResultFromResidualErrResidual__from_resi_94ec4b81(l9.s1);
                l0.tag = r.tag;
                l0.s0.f0.f0 = r.s0.f0.f0;
                l0.s0.f0.f1 = r.s0.f0.f1;
                l0.s0.f0.f2 = r.s0.f0.f2;
                l0.s0.f0.f3 = r.s0.f0.f3;
                l0.s0.f0.f4 = r.s0.f0.f4;
                l0.s0.f0.f5 = r.s0.f0.f5;
                l0.s0.f0.f6 = r.s0.f0.f6;
                l0.s0.f1 = r.s0.f1;
                l0.s0.f2 = r.s0.f2;
                l0.s1.tag = r.s1.tag;
            }
            return l0;
            break;
        }
    }
    l20 = l4;
    l21 = l5;
    l22.f0.f0 = l9.s0.f0;
    l22.f0.f1 = l9.s0.f1;
    l22.f0.f2 = l9.s0.f2;
    l22.f0.f3 = l9.s0.f3;
    l22.f0.f4 = l9.s0.f4;
    l22.f0.f5 = l9.s0.f5;
    l22.f0.f6 = l9.s0.f6;
    l22.f1 = l20;
    l22.f2 = l21;
    l0.tag = UINT8_C(0);
    l0.s0.f0.f0 = l22.f0.f0;
    l0.s0.f0.f1 = l22.f0.f1;
    l0.s0.f0.f2 = l22.f0.f2;
    l0.s0.f0.f3 = l22.f0.f3;
    l0.s0.f0.f4 = l22.f0.f4;
    l0.s0.f0.f5 = l22.f0.f5;
    l0.s0.f0.f6 = l22.f0.f6;
    l0.s0.f1 = l22.f1;
    l0.s0.f2 = l22.f2;
    return l0;
}

static RT_HERE struct table_read__parameters__Parameters seating__parameters(uint8_t *l1)
{
    struct table_read__parameters__Parameters l0;
    uint64_t l2;
    uint8_t l3;
    uint8_t *l4;
    rt_slice l5;
    uint64_t l6;
    uint8_t *l7;
    rt_slice l8;
    l3 = (*(struct seating__Opened *)l1).f0.f3;
    l2 = core__convert__UsizeFromU8__from(l3);
    l4 = (uint8_t *)&(*(struct seating__Opened *)l1).f1;
    l5.p = l4;
    l5.n = l2;
    l6 = (uint64_t)((uint64_t)UINT64_C(8) * (uint64_t)l2);
    l7 = (uint8_t *)&(*(struct seating__Opened *)l1).f2;
    l8.p = l7;
    l8.n = l6;
    {
        struct table_read__parameters__Parameters r = table_read__parameters__Parameters__new(l5, l8);
        l0.f0 = r.f0;
        l0.f1 = r.f1;
    }
    return l0;
}

static RT_HERE struct core__result__Result__Seat_Refusal seating__seat_table(uint64_t l1, struct table_read__parameters__Parameters l2, rt_slice l3, rt_slice l4, rt_slice l5, rt_slice l6)
{
    struct core__result__Result__Seat_Refusal l0;
    struct layout__Numbers l10;
    struct core__ops__ControlFlow__ErrResidual_Refusal_u64 l11;
    struct core__result__Result__u64_Refusal l12;
    uint8_t *l14;
    rt_slice l15;
    uint8_t *l16;
    rt_slice l17;
    uint8_t *l18;
    rt_slice l19;
    struct seating__Seat l21;
    l14 = (uint8_t *)&(*(uint8_t *)l4.p);
    l15.p = l14;
    l15.n = l4.n;
    l16 = (uint8_t *)&(*(uint16_t *)l5.p);
    l17.p = l16;
    l17.n = l5.n;
    l18 = (uint8_t *)&(*(uint64_t *)l6.p);
    l19.p = l18;
    l19.n = l6.n;
    l12 = table_read__read_image(l3, l2, l15, l17, l19);
    l11 = core__result__ResultTry__branch__u64_Refusal(l12);
    switch (l11.tag) {
        case UINT8_C(0): {
            break;
        }
        case UINT8_C(1): default: {
            {
                struct core__result__Result__Seat_Refusal r = core__result__ResultFromResidualErrResidual__from_resi_865746fe(l11.s1);
                l0.tag = r.tag;
                l0.s0.f0 = r.s0.f0;
                l0.s0.f1.f0 = r.s0.f1.f0;
                l0.s0.f1.f1 = r.s0.f1.f1;
                l0.s0.f1.f2 = r.s0.f1.f2;
                l0.s0.f1.f3 = r.s0.f1.f3;
                l0.s0.f1.f4 = r.s0.f1.f4;
                l0.s0.f1.f5 = r.s0.f1.f5;
                l0.s0.f1.f6 = r.s0.f1.f6;
                l0.s1.tag = r.s1.tag;
            }
            return l0;
            break;
        }
    }
    l10 = layout__fresh(l11.s0);
    l21.f0 = l1;
    l21.f1.f0 = l10.f0;
    l21.f1.f1 = l10.f1;
    l21.f1.f2 = l10.f2;
    l21.f1.f3 = l10.f3;
    l21.f1.f4 = l10.f4;
    l21.f1.f5 = l10.f5;
    l21.f1.f6 = l10.f6;
    l0.tag = UINT8_C(0);
    l0.s0.f0 = l21.f0;
    l0.s0.f1.f0 = l21.f1.f0;
    l0.s0.f1.f1 = l21.f1.f1;
    l0.s0.f1.f2 = l21.f1.f2;
    l0.s0.f1.f3 = l21.f1.f3;
    l0.s0.f1.f4 = l21.f1.f4;
    l0.s0.f1.f5 = l21.f1.f5;
    l0.s0.f1.f6 = l21.f1.f6;
    return l0;
}

static RT_WITHIN void std__slices__slice_T__copy_within__u64_Range_u64(rt_slice l1, struct core__iter__ranges__Range__u64 l2, uint64_t l3)
{
    struct rt_tuple2__u64_u64 l6;
    uint8_t *l10;
    rt_slice l11;
    l6 = std_alloc__part__AnySliceRange__within__Range_u64(l2, l1.n);
    l10 = (uint8_t *)&(*(uint64_t *)l1.p);
    l11.p = l10;
    l11.n = l1.n;
    std_alloc__shifts__shift__u64(l11, l6.f0, l6.f1, l3);
    return;
}

static RT_WITHIN struct rt_tuple2__u64_u64 std_alloc__part__AnySliceRange__within__Range_u64(struct core__iter__ranges__Range__u64 l1, uint64_t l2)
{
    struct rt_tuple2__u64_u64 l0;
    struct core__iter__ranges__Range__u64 l3;
    struct core__iter__ranges__RangeTo__u64 l5;
    l5.f0 = l2;
    l3 = core__slice__ranges__range__Range_u64(l1, l5);
    l0.f0 = l3.f0;
    l0.f1 = l3.f1;
    return l0;
}

static RT_WITHIN void std_alloc__shifts__copy_down__u64(rt_slice l1, uint64_t l2, uint64_t l3, uint64_t l4)
{
    uint64_t l5;
    uint8_t l7;
    uint64_t l8;
    uint64_t l9;
    uint8_t *l10;
    uint64_t l11;
    uint8_t *l12;
    l5 = UINT64_C(0);
    for (;;) {
        l7 = (uint8_t)(l5 < l4);
        if (l7) {
        } else {
            goto end1;
        }
        l8 = (uint64_t)((uint64_t)l2 + (uint64_t)l5);
        l9 = (uint64_t)((uint64_t)l8 * (uint64_t)UINT64_C(8));
        l10 = l1.p + (size_t)l9;
        l11 = (*(uint64_t *)l10);
        l8 = (uint64_t)((uint64_t)l3 + (uint64_t)l5);
        l9 = (uint64_t)((uint64_t)l8 * (uint64_t)UINT64_C(8));
        l12 = l1.p + (size_t)l9;
        (*(uint64_t *)l12) = l11;
        l5 = (uint64_t)((uint64_t)l5 + (uint64_t)UINT64_C(1));
    }
end1:;
    return;
}

static RT_WITHIN void std_alloc__shifts__copy_up__u64(rt_slice l1, uint64_t l2, uint64_t l3, uint64_t l4)
{
    uint64_t l5;
    uint8_t l7;
    uint64_t l8;
    uint64_t l9;
    uint8_t *l10;
    uint64_t l11;
    uint8_t *l12;
    l5 = l4;
    for (;;) {
        l7 = (uint8_t)(UINT64_C(0) < l5);
        if (l7) {
        } else {
            goto end1;
        }
        l5 = (uint64_t)((uint64_t)l5 - (uint64_t)UINT64_C(1));
        l8 = (uint64_t)((uint64_t)l2 + (uint64_t)l5);
        l9 = (uint64_t)((uint64_t)l8 * (uint64_t)UINT64_C(8));
        l10 = l1.p + (size_t)l9;
        l11 = (*(uint64_t *)l10);
        l8 = (uint64_t)((uint64_t)l3 + (uint64_t)l5);
        l9 = (uint64_t)((uint64_t)l8 * (uint64_t)UINT64_C(8));
        l12 = l1.p + (size_t)l9;
        (*(uint64_t *)l12) = l11;
    }
end1:;
    return;
}

static RT_WITHIN void std_alloc__shifts__shift__u64(rt_slice l1, uint64_t l2, uint64_t l3, uint64_t l4)
{
    uint8_t l5;
    uint8_t *l7;
    rt_slice l8;
    uint64_t l9;
    uint8_t *l11;
    rt_slice l12;
    uint64_t l13;
    l5 = (uint8_t)(l4 <= l2);
    if (l5) {
        l7 = (uint8_t *)&(*(uint64_t *)l1.p);
        l8.p = l7;
        l8.n = l1.n;
        l9 = (uint64_t)((uint64_t)l3 - (uint64_t)l2);
        std_alloc__shifts__copy_down__u64(l8, l2, l4, l9);
    } else {
        l11 = (uint8_t *)&(*(uint64_t *)l1.p);
        l12.p = l11;
        l12.n = l1.n;
        l13 = (uint64_t)((uint64_t)l3 - (uint64_t)l2);
        std_alloc__shifts__copy_up__u64(l12, l2, l4, l13);
    }
    return;
}

static inline uint64_t step_lines__program(rt_slice l1, uint64_t l2, rt_slice l3, rt_slice l4, uint64_t l5)
{
    uint64_t l0;
    uint64_t l6;
    uint64_t l7;
    uint8_t l8;
    struct directory__Row l9;
    uint8_t *l10;
    rt_slice l11;
    l6 = l5;
    l7 = UINT64_C(0);
    for (;;) {
        l8 = (uint8_t)(l7 < l2);
        if (l8) {
        } else {
            goto end1;
        }
        l9 = directory__rows__row_at(l1, l7);
        l10 = (uint8_t *)&(*(uint8_t *)l4.p);
        l11.p = l10;
        l11.n = l4.n;
        l6 = step_lines__step(l3, l9, l11, l6);
        l7 = (uint64_t)((uint64_t)l7 + (uint64_t)UINT64_C(1));
    }
end1:;
    l0 = l6;
    return l0;
}

static inline uint64_t step_lines__step(rt_slice l1, struct directory__Row l2, rt_slice l3, uint64_t l4)
{
    uint64_t l0;
    uint64_t l5;
    rt_slice l6;
    uint64_t l7;
    uint64_t l8;
    uint8_t *l9;
    uint64_t l10;
    uint64_t l11;
    uint64_t l12;
    uint8_t *l13;
    uint64_t l14;
    uint8_t *l15;
    uint8_t l17;
    uint64_t l18;
    uint8_t *l19;
    uint8_t *l20;
    rt_slice l21;
    uint8_t l22;
    uint8_t l23;
    uint64_t l24;
    uint64_t l25;
    l5 = core__convert__UsizeFromU16__from(l2.f2);
    l10 = core__convert__UsizeFromU16__from(l2.f3);
    l11 = (uint64_t)((uint64_t)l5 + (uint64_t)l10);
    l12 = (uint64_t)((uint64_t)l5 * (uint64_t)UINT64_C(8));
    l13 = l1.p + (size_t)l12;
    l14 = (uint64_t)((uint64_t)l11 - (uint64_t)l5);
    l15 = (uint8_t *)&(*(uint64_t *)l13);
    l6.p = l15;
    l6.n = l14;
    l7 = l4;
    l8 = UINT64_C(0);
    for (;;) {
        l17 = (uint8_t)(l8 < l6.n);
        if (l17) {
        } else {
            goto end2;
        }
        l18 = (uint64_t)((uint64_t)l8 * (uint64_t)UINT64_C(8));
        l19 = l6.p + (size_t)l18;
        l9 = (uint8_t *)&(*(uint64_t *)l19);
        l20 = (uint8_t *)&(*(uint8_t *)l3.p);
        l21.p = l20;
        l21.n = l3.n;
        l22 = (uint8_t)l2.f0;
        l23 = (uint8_t)l2.f1;
        l24 = l8;
        l25 = (*(uint64_t *)l9);
        l7 = text__lines__line(l21, l7, l22, l23, l24, l25);
        l8 = (uint64_t)((uint64_t)l8 + (uint64_t)UINT64_C(1));
    }
end2:;
    l0 = l7;
    return l0;
}

static RT_APART struct step_part__Spot step_part__locate(rt_slice l1, uint8_t l2, uint8_t l3)
{
    struct step_part__Spot l0;
    struct rt_array_uint8_32256 l4;
    struct rt_array_uint8_16 l5;
    struct rt_array_uint8_128 l6;
    struct rt_array_uint16_512 l7;
    struct core__result__Result__Loaded_Refusal l8;
    uint8_t *l12;
    rt_slice l13;
    uint8_t *l14;
    rt_slice l15;
    uint8_t *l16;
    rt_slice l17;
    uint8_t *l18;
    rt_slice l19;
    uint8_t l21;
    struct core__option__Option__Row l22;
    uint8_t *l23;
    rt_slice l24;
    memset(&l4, 0, sizeof l4);
    memset(&l5, 0, sizeof l5);
    memset(&l6, 0, sizeof l6);
    memset(&l7, 0, sizeof l7);
    l12 = (uint8_t *)&l4;
    l13.p = l12;
    l13.n = UINT64_C(32256);
    l14 = (uint8_t *)&l5;
    l15.p = l14;
    l15.n = UINT64_C(16);
    l16 = (uint8_t *)&l6;
    l17.p = l16;
    l17.n = UINT64_C(128);
    l18 = (uint8_t *)&l7;
    l19.p = l18;
    l19.n = UINT64_C(512);
    l8 = load__program(l1, l13, l15, l17, l19);
    switch (l8.tag) {
        case UINT8_C(0): {
            break;
        }
        case UINT8_C(1): default: {
            l21 = types__refusal__U8FromRefusal__from(l8.s1);
            {
                struct step_part__Spot r = step_part__nowhere(l21);
                l0.f0 = r.f0;
                l0.f1 = r.f1;
                l0.f2 = r.f2;
            }
            return l0;
            break;
        }
    }
    l23 = (uint8_t *)&l7;
    l24.p = l23;
    l24.n = UINT64_C(512);
    l22 = directory__rows__find(l24, l8.s0.f4, l2, l3);
    {
        struct step_part__Spot r = step_part__spotted(l22);
        l0.f0 = r.f0;
        l0.f1 = r.f1;
        l0.f2 = r.f2;
    }
    return l0;
}

static RT_HERE struct step_part__Spot step_part__nowhere(uint8_t l1)
{
    struct step_part__Spot l0;
    l0.f0 = l1;
    l0.f1 = UINT64_C(0);
    l0.f2 = UINT64_C(0);
    return l0;
}

static RT_HERE struct step_part__Spot step_part__spotted(struct core__option__Option__Row l1)
{
    struct step_part__Spot l0;
    uint64_t l3;
    uint64_t l4;
    switch (l1.tag) {
        case UINT8_C(1): {
            break;
        }
        case UINT8_C(0): default: {
            {
                struct step_part__Spot r = step_part__nowhere(UINT8_C(0));
                l0.f0 = r.f0;
                l0.f1 = r.f1;
                l0.f2 = r.f2;
            }
            return l0;
            break;
        }
    }
    l3 = core__convert__UsizeFromU16__from(l1.s0.f2);
    l4 = core__convert__UsizeFromU16__from(l1.s0.f3);
    l0.f0 = UINT8_C(0);
    l0.f1 = l3;
    l0.f2 = l4;
    return l0;
}

static RT_HERE struct step_part__Spot step_part__step_place(rt_slice l1, rt_slice l2, uint8_t l3, uint8_t l4)
{
    struct step_part__Spot l0;
    struct step_part__Spot l5;
    uint8_t l6;
    l5 = step_part__locate(l1, l3, l4);
    l6 = (uint8_t)(l5.f0 != UINT8_C(0));
    if (l6) {
        l0.f0 = l5.f0;
        l0.f1 = l5.f1;
        l0.f2 = l5.f2;
        return l0;
    }
    l6 = (uint8_t)(l2.n < UINT64_C(1024));
    if (l6) {
        {
            struct step_part__Spot r = step_part__nowhere(UINT8_C(13));
            l0.f0 = r.f0;
            l0.f1 = r.f1;
            l0.f2 = r.f2;
        }
        return l0;
    }
    l0.f0 = l5.f0;
    l0.f1 = l5.f1;
    l0.f2 = l5.f2;
    return l0;
}

static RT_HERE struct core__result__Result__u64_Refusal table_read__behind(rt_slice l1, struct table_read__parameters__Parameters l2, uint64_t l3, rt_slice l4, rt_slice l5)
{
    struct core__result__Result__u64_Refusal l0;
    uint64_t l10;
    uint8_t *l13;
    rt_slice l14;
    uint8_t *l15;
    rt_slice l16;
    struct core__ops__ControlFlow__ErrResidual_Refusal_u64 l17;
    struct core__result__Result__u64_Refusal l18;
    uint8_t *l20;
    rt_slice l21;
    uint8_t *l22;
    rt_slice l23;
    uint8_t l26;
    struct types__refusal__Refusal l27;
    uint8_t *l29;
    rt_slice l30;
    uint8_t *l31;
    rt_slice l32;
    uint8_t l33;
    struct types__refusal__Refusal l34;
    l13 = (uint8_t *)&(*(uint16_t *)l4.p);
    l14.p = l13;
    l14.n = l4.n;
    l15 = (uint8_t *)&(*(uint64_t *)l5.p);
    l16.p = l15;
    l16.n = l5.n;
    table_read__nulls__nulls(l2, l14, l16);
    l20 = (uint8_t *)&(*(uint16_t *)l4.p);
    l21.p = l20;
    l21.n = l4.n;
    l22 = (uint8_t *)&(*(uint64_t *)l5.p);
    l23.p = l22;
    l23.n = l5.n;
    l18 = table_read__reading__records(l1, l2, l3, UINT64_C(2), l21, l23);
    l17 = core__result__ResultTry__branch__u64_Refusal(l18);
    switch (l17.tag) {
        case UINT8_C(0): {
            break;
        }
        case UINT8_C(1): default: {
            l0 = core__result__ResultFromResidualErrResidual__from_resi_f9cf8d89(l17.s1);
            return l0;
            break;
        }
    }
    l26 = (uint8_t)(l17.s0 < l1.n);
    if (l26) {
        l27.tag = UINT8_C(10);
        l0.tag = UINT8_C(1);
        l0.s1 = l27;
        return l0;
    }
    l10 = (uint64_t)((uint64_t)l2.f0.n + (uint64_t)l3);
    l29 = (uint8_t *)&(*(uint16_t *)l4.p);
    l30.p = l29;
    l30.n = l4.n;
    l31 = (uint8_t *)&(*(uint64_t *)l5.p);
    l32.p = l31;
    l32.n = l5.n;
    l26 = table_read__refer__rows_refer(l2, l30, l32, l2.f0.n, l10);
    l33 = (uint8_t)!l26;
    if (l33) {
        l34.tag = UINT8_C(11);
        l0.tag = UINT8_C(1);
        l0.s1 = l34;
        return l0;
    }
    l0.tag = UINT8_C(0);
    l0.s0 = l10;
    return l0;
}

static inline void table_read__nulls__defaults(rt_slice l1, uint64_t l2, uint64_t l3, rt_slice l4, uint64_t l5)
{
    uint64_t l6;
    uint8_t l7;
    uint64_t l8;
    uint64_t l9;
    uint8_t *l10;
    uint8_t l11;
    uint64_t l12;
    uint64_t l13;
    uint8_t *l14;
    l6 = UINT64_C(0);
    for (;;) {
        l7 = (uint8_t)(l6 < l3);
        if (l7) {
        } else {
            goto end1;
        }
        l9 = (uint64_t)((uint64_t)l2 + (uint64_t)l6);
        l10 = l1.p + (size_t)l9;
        l11 = (*(uint8_t *)l10);
        l8 = table_read__nulls__null_cell(l11);
        l12 = (uint64_t)((uint64_t)l5 + (uint64_t)l6);
        l13 = (uint64_t)((uint64_t)l12 * (uint64_t)UINT64_C(8));
        l14 = l4.p + (size_t)l13;
        (*(uint64_t *)l14) = l8;
        l6 = (uint64_t)((uint64_t)l6 + (uint64_t)UINT64_C(1));
    }
end1:;
    return;
}

static RT_SHORT uint64_t table_read__nulls__null_cell(uint8_t l1)
{
    uint64_t l0;
    uint32_t l2;
    uint64_t l3;
    l2 = types__default_word(l1);
    l3 = (uint64_t)l2;
    l0 = layout__cell(l1, l3);
    return l0;
}

static inline void table_read__nulls__nulls(struct table_read__parameters__Parameters l1, rt_slice l2, rt_slice l3)
{
    uint64_t l5;
    uint8_t *l6;
    rt_slice l7;
    uint8_t *l9;
    uint8_t l11;
    uint8_t *l12;
    uint8_t *l14;
    rt_slice l15;
    uint64_t l17;
    uint64_t l18;
    uint8_t l19;
    uint8_t *l20;
    rt_slice l21;
    uint64_t l22;
    l9 = (uint8_t *)&(*(uint8_t *)l1.f0.p);
    l7.p = l9;
    l7.n = l1.f0.n;
    l5 = UINT64_C(0);
    for (;;) {
        l11 = (uint8_t)(l5 < l7.n);
        if (l11) {
        } else {
            goto end1;
        }
        l12 = l7.p + (size_t)l5;
        l6 = (uint8_t *)&(*(uint8_t *)l12);
        l14 = (uint8_t *)&(*(uint16_t *)l2.p);
        l15.p = l14;
        l15.n = l2.n;
        layout__seat(l15, l5, l5);
        l17 = (uint64_t)((uint64_t)UINT64_C(8) * (uint64_t)l5);
        l19 = (*(uint8_t *)l6);
        l18 = little_endian__index(l19);
        l20 = (uint8_t *)&(*(uint64_t *)l3.p);
        l21.p = l20;
        l21.n = l3.n;
        l22 = (uint64_t)((uint64_t)UINT64_C(32) * (uint64_t)l5);
        table_read__nulls__defaults(l1.f1, l17, l18, l21, l22);
        l5 = (uint64_t)((uint64_t)l5 + (uint64_t)UINT64_C(1));
    }
end1:;
    return;
}

static RT_HERE struct table_read__parameters__Parameters table_read__parameters__Parameters__new(rt_slice l1, rt_slice l2)
{
    struct table_read__parameters__Parameters l0;
    l0.f0 = l1;
    l0.f1 = l2;
    return l0;
}

static RT_HERE struct core__result__Result__u64_Refusal table_read__read(rt_slice l1, struct table_read__parameters__Parameters l2, rt_slice l3, rt_slice l4)
{
    struct core__result__Result__u64_Refusal l0;
    struct core__ops__ControlFlow__ErrResidual_Refusal_u64 l8;
    struct core__result__Result__u64_Refusal l9;
    uint8_t *l13;
    rt_slice l14;
    uint8_t *l15;
    rt_slice l16;
    l9 = table_read__reading__count(l1, l2.f0.n);
    l8 = core__result__ResultTry__branch__u64_Refusal(l9);
    switch (l8.tag) {
        case UINT8_C(0): {
            break;
        }
        case UINT8_C(1): default: {
            l0 = core__result__ResultFromResidualErrResidual__from_resi_f9cf8d89(l8.s1);
            return l0;
            break;
        }
    }
    l13 = (uint8_t *)&(*(uint16_t *)l3.p);
    l14.p = l13;
    l14.n = l3.n;
    l15 = (uint8_t *)&(*(uint64_t *)l4.p);
    l16.p = l15;
    l16.n = l4.n;
    l0 = table_read__behind(l1, l2, l8.s0, l14, l16);
    return l0;
}

static RT_HERE struct core__result__Result__u64_Refusal table_read__read_image(rt_slice l1, struct table_read__parameters__Parameters l2, rt_slice l3, rt_slice l4, rt_slice l5)
{
    struct core__result__Result__u64_Refusal l0;
    struct core__result__Result__u64_Fault l8;
    uint8_t *l9;
    rt_slice l10;
    struct core__result__Result__u64_Refusal l11;
    uint8_t *l12;
    rt_slice l13;
    uint8_t *l15;
    rt_slice l16;
    uint8_t *l17;
    rt_slice l18;
    struct types__refusal__Refusal l19;
    l9 = (uint8_t *)&(*(uint8_t *)l3.p);
    l10.p = l9;
    l10.n = l3.n;
    l8 = blocks__open_image(l1, UINT64_C(17), l10);
    switch (l8.tag) {
        case UINT8_C(0): {
            l12 = (uint8_t *)&(*(uint8_t *)l3.p);
            l13.p = l12;
            l13.n = l8.s0;
            l15 = (uint8_t *)&(*(uint16_t *)l4.p);
            l16.p = l15;
            l16.n = l4.n;
            l17 = (uint8_t *)&(*(uint64_t *)l5.p);
            l18.p = l17;
            l18.n = l5.n;
            l11 = table_read__read(l13, l2, l16, l18);
            break;
        }
        case UINT8_C(1): default: {
            l19 = blocks__table_number(l8.s1);
            l11.tag = UINT8_C(1);
            l11.s1 = l19;
            break;
        }
    }
    l0 = l11;
    return l0;
}

static RT_SHORT uint8_t table_read__reading__allowed(uint8_t l1, uint64_t l2)
{
    uint8_t l0;
    uint8_t l3;
    l3 = (uint8_t)(l1 != UINT8_C(2));
    if (l3) {
    } else {
        l3 = (uint8_t)(l2 < UINT64_C(2));
    }
    l0 = l3;
    return l0;
}

static RT_HERE struct core__result__Result__u64_Refusal table_read__reading__count(rt_slice l1, uint64_t l2)
{
    struct core__result__Result__u64_Refusal l0;
    uint64_t l3;
    uint64_t l4;
    uint8_t l5;
    struct types__refusal__Refusal l6;
    struct types__refusal__Refusal l7;
    l4 = l1.n;
    l5 = (uint8_t)(l4 < UINT64_C(2));
    if (l5) {
        l6.tag = UINT8_C(10);
        l0.tag = UINT8_C(1);
        l0.s1 = l6;
        return l0;
    }
    l3 = little_endian__pair_at(l1, UINT64_C(0));
    l4 = (uint64_t)((uint64_t)UINT64_C(256) - (uint64_t)l2);
    l5 = (uint8_t)(l4 < l3);
    if (l5) {
        l7.tag = UINT8_C(11);
        l0.tag = UINT8_C(1);
        l0.s1 = l7;
        return l0;
    }
    l0.tag = UINT8_C(0);
    l0.s0 = l3;
    return l0;
}

static RT_HERE struct core__result__Result__u64_Refusal table_read__reading__one_record(rt_slice l1, struct table_read__parameters__Parameters l2, uint64_t l3, rt_slice l4, rt_slice l5, uint64_t l6)
{
    struct core__result__Result__u64_Refusal l0;
    uint64_t l7;
    uint64_t l8;
    uint8_t l9;
    struct types__refusal__Refusal l10;
    uint8_t *l11;
    uint8_t l12;
    struct types__refusal__Refusal l13;
    uint8_t *l15;
    rt_slice l16;
    uint64_t l18;
    uint8_t *l19;
    uint64_t l20;
    uint8_t *l21;
    rt_slice l22;
    uint64_t l23;
    l8 = l1.n;
    l9 = (uint8_t)(l8 <= l3);
    if (l9) {
        l10.tag = UINT8_C(10);
        l0.tag = UINT8_C(1);
        l0.s1 = l10;
        return l0;
    }
    l11 = l1.p + (size_t)l3;
    l12 = (*(uint8_t *)l11);
    l7 = little_endian__index(l12);
    l8 = l2.f0.n;
    l9 = (uint8_t)(l8 <= l7);
    if (l9) {
        l13.tag = UINT8_C(11);
        l0.tag = UINT8_C(1);
        l0.s1 = l13;
        return l0;
    }
    l15 = (uint8_t *)&(*(uint16_t *)l4.p);
    l16.p = l15;
    l16.n = l4.n;
    layout__seat(l16, l6, l7);
    l8 = (uint64_t)((uint64_t)UINT64_C(8) * (uint64_t)l7);
    l19 = l2.f0.p + (size_t)l7;
    l12 = (*(uint8_t *)l19);
    l18 = little_endian__index(l12);
    l20 = (uint64_t)((uint64_t)l3 + (uint64_t)UINT64_C(1));
    l21 = (uint8_t *)&(*(uint64_t *)l5.p);
    l22.p = l21;
    l22.n = l5.n;
    l23 = (uint64_t)((uint64_t)UINT64_C(32) * (uint64_t)l6);
    l0 = table_read__reading__values(l1, l2.f1, l8, l18, l20, l22, l23);
    return l0;
}

static RT_HERE struct core__result__Result__u64_Refusal table_read__reading__records(rt_slice l1, struct table_read__parameters__Parameters l2, uint64_t l3, uint64_t l4, rt_slice l5, rt_slice l6)
{
    struct core__result__Result__u64_Refusal l0;
    uint64_t l7;
    uint64_t l8;
    uint8_t l11;
    struct core__ops__ControlFlow__ErrResidual_Refusal_u64 l12;
    struct core__result__Result__u64_Refusal l13;
    uint8_t *l15;
    rt_slice l16;
    uint8_t *l17;
    rt_slice l18;
    uint64_t l20;
    l7 = l4;
    l8 = UINT64_C(0);
    for (;;) {
        l11 = (uint8_t)(l8 < l3);
        if (l11) {
        } else {
            goto end1;
        }
        l15 = (uint8_t *)&(*(uint16_t *)l5.p);
        l16.p = l15;
        l16.n = l5.n;
        l17 = (uint8_t *)&(*(uint64_t *)l6.p);
        l18.p = l17;
        l18.n = l6.n;
        l20 = (uint64_t)((uint64_t)l2.f0.n + (uint64_t)l8);
        l13 = table_read__reading__one_record(l1, l2, l7, l16, l18, l20);
        l12 = core__result__ResultTry__branch__u64_Refusal(l13);
        switch (l12.tag) {
            case UINT8_C(0): {
                break;
            }
            case UINT8_C(1): default: {
                l0 = core__result__ResultFromResidualErrResidual__from_resi_f9cf8d89(l12.s1);
                return l0;
                break;
            }
        }
        l7 = l12.s0;
        l8 = (uint64_t)((uint64_t)l8 + (uint64_t)UINT64_C(1));
    }
end1:;
    l0.tag = UINT8_C(0);
    l0.s0 = l7;
    return l0;
}

static RT_HERE struct core__result__Result__u64_Refusal table_read__reading__value(rt_slice l1, uint8_t l2, uint64_t l3, rt_slice l4, uint64_t l5)
{
    struct core__result__Result__u64_Refusal l0;
    uint64_t l6;
    uint64_t l7;
    uint64_t l8;
    uint8_t l9;
    struct types__refusal__Refusal l10;
    uint8_t l11;
    struct types__refusal__Refusal l12;
    uint64_t l13;
    uint8_t *l14;
    l7 = l1.n;
    l8 = (uint64_t)((uint64_t)l7 - (uint64_t)l3);
    l9 = (uint8_t)(l8 < UINT64_C(4));
    if (l9) {
        l10.tag = UINT8_C(10);
        l0.tag = UINT8_C(1);
        l0.s1 = l10;
        return l0;
    }
    l6 = little_endian__word_at(l1, l3);
    l9 = table_read__reading__allowed(l2, l6);
    l11 = (uint8_t)!l9;
    if (l11) {
        l12.tag = UINT8_C(11);
        l0.tag = UINT8_C(1);
        l0.s1 = l12;
        return l0;
    }
    l13 = layout__cell(l2, l6);
    l7 = (uint64_t)((uint64_t)l5 * (uint64_t)UINT64_C(8));
    l14 = l4.p + (size_t)l7;
    (*(uint64_t *)l14) = l13;
    l8 = (uint64_t)((uint64_t)l3 + (uint64_t)UINT64_C(4));
    l0.tag = UINT8_C(0);
    l0.s0 = l8;
    return l0;
}

static RT_HERE struct core__result__Result__u64_Refusal table_read__reading__values(rt_slice l1, rt_slice l2, uint64_t l3, uint64_t l4, uint64_t l5, rt_slice l6, uint64_t l7)
{
    struct core__result__Result__u64_Refusal l0;
    uint64_t l8;
    uint64_t l9;
    uint8_t l12;
    struct core__ops__ControlFlow__ErrResidual_Refusal_u64 l13;
    struct core__result__Result__u64_Refusal l14;
    uint64_t l15;
    uint8_t *l16;
    uint8_t l17;
    uint8_t *l18;
    rt_slice l19;
    uint64_t l20;
    l8 = l5;
    l9 = UINT64_C(0);
    for (;;) {
        l12 = (uint8_t)(l9 < l4);
        if (l12) {
        } else {
            goto end1;
        }
        l15 = (uint64_t)((uint64_t)l3 + (uint64_t)l9);
        l16 = l2.p + (size_t)l15;
        l17 = (*(uint8_t *)l16);
        l18 = (uint8_t *)&(*(uint64_t *)l6.p);
        l19.p = l18;
        l19.n = l6.n;
        l20 = (uint64_t)((uint64_t)l7 + (uint64_t)l9);
        l14 = table_read__reading__value(l1, l17, l8, l19, l20);
        l13 = core__result__ResultTry__branch__u64_Refusal(l14);
        switch (l13.tag) {
            case UINT8_C(0): {
                break;
            }
            case UINT8_C(1): default: {
                l0 = core__result__ResultFromResidualErrResidual__from_resi_f9cf8d89(l13.s1);
                return l0;
                break;
            }
        }
        l8 = l13.s0;
        l9 = (uint64_t)((uint64_t)l9 + (uint64_t)UINT64_C(1));
    }
end1:;
    l0.tag = UINT8_C(0);
    l0.s0 = l8;
    return l0;
}

static inline uint8_t table_read__refer__cell_refers(rt_slice l1, uint64_t l2, uint8_t l3, uint64_t l4)
{
    uint8_t l0;
    uint64_t l6;
    uint8_t l7;
    uint8_t l8;
    uint8_t l9;
    uint64_t l10;
    uint64_t l11;
    uint8_t l12;
    l6 = layout__operand(l4);
    l8 = types__is_reference(l3);
    l7 = (uint8_t)!l8;
    if (l7) {
    } else {
        l9 = (uint8_t)(l6 < l2);
        if (l9) {
            l10 = layout__head(l1, l6, UINT64_C(0));
            l12 = types__struct_of(l3);
            l11 = little_endian__index(l12);
            l9 = (uint8_t)(l10 == l11);
        }
        l7 = l9;
    }
    l0 = l7;
    return l0;
}

static inline uint8_t table_read__refer__row_refers(rt_slice l1, uint64_t l2, rt_slice l3, uint64_t l4, rt_slice l5, uint64_t l6, uint64_t l7)
{
    uint8_t l0;
    uint64_t l8;
    uint8_t l9;
    uint64_t l10;
    uint8_t *l11;
    uint8_t l12;
    uint64_t l13;
    uint64_t l14;
    uint8_t *l15;
    uint64_t l16;
    uint8_t l17;
    l8 = UINT64_C(0);
    for (;;) {
        l9 = (uint8_t)(l8 < l7);
        if (l9) {
        } else {
            goto end1;
        }
        l10 = (uint64_t)((uint64_t)l4 + (uint64_t)l8);
        l11 = l3.p + (size_t)l10;
        l12 = (*(uint8_t *)l11);
        l13 = (uint64_t)((uint64_t)l6 + (uint64_t)l8);
        l14 = (uint64_t)((uint64_t)l13 * (uint64_t)UINT64_C(8));
        l15 = l5.p + (size_t)l14;
        l16 = (*(uint64_t *)l15);
        l9 = table_read__refer__cell_refers(l1, l2, l12, l16);
        l17 = (uint8_t)!l9;
        if (l17) {
            l0 = 0;
            return l0;
        }
        l8 = (uint64_t)((uint64_t)l8 + (uint64_t)UINT64_C(1));
    }
end1:;
    l0 = 1;
    return l0;
}

static inline uint8_t table_read__refer__rows_refer(struct table_read__parameters__Parameters l1, rt_slice l2, rt_slice l3, uint64_t l4, uint64_t l5)
{
    uint8_t l0;
    uint64_t l6;
    uint64_t l7;
    uint64_t l8;
    uint64_t l9;
    uint64_t l10;
    uint8_t l11;
    uint8_t *l12;
    uint8_t l13;
    uint8_t l15;
    l6 = l4;
    for (;;) {
        l11 = (uint8_t)(l6 < l5);
        if (l11) {
        } else {
            goto end1;
        }
        l7 = layout__head(l2, l6, UINT64_C(0));
        l12 = l1.f0.p + (size_t)l7;
        l13 = (*(uint8_t *)l12);
        l8 = little_endian__index(l13);
        l9 = (uint64_t)((uint64_t)UINT64_C(8) * (uint64_t)l7);
        l10 = (uint64_t)((uint64_t)UINT64_C(32) * (uint64_t)l6);
        l11 = table_read__refer__row_refers(l2, l5, l1.f1, l9, l3, l10, l8);
        l15 = (uint8_t)!l11;
        if (l15) {
            l0 = 0;
            return l0;
        }
        l6 = (uint64_t)((uint64_t)l6 + (uint64_t)UINT64_C(1));
    }
end1:;
    l0 = 1;
    return l0;
}

static inline uint64_t table_write__write(rt_slice l1, rt_slice l2, rt_slice l3, uint64_t l4, rt_slice l5, rt_slice l6)
{
    uint64_t l0;
    uint64_t l7;
    struct core__result__Result__u64_WriteError l8;
    uint8_t *l10;
    rt_slice l11;
    uint8_t *l12;
    rt_slice l13;
    uint8_t *l14;
    rt_slice l15;
    l10 = (uint8_t *)&(*(uint8_t *)l5.p);
    l11.p = l10;
    l11.n = l5.n;
    l7 = table_write__writing__stream(l1, l2, l3, l4, l11);
    l12 = (uint8_t *)&(*(uint8_t *)l5.p);
    l13.p = l12;
    l13.n = l7;
    l14 = (uint8_t *)&(*(uint8_t *)l6.p);
    l15.p = l14;
    l15.n = l6.n;
    l8 = blocks__write_image(l13, UINT64_C(17), l15);
    switch (l8.tag) {
        case UINT8_C(0): {
            break;
        }
        case UINT8_C(1): default: {
            l0 = UINT64_C(0);
            return l0;
            break;
        }
    }
    l0 = l8.s0;
    return l0;
}

static inline uint64_t table_write__writing__instances(rt_slice l1, uint64_t l2, rt_slice l3, rt_slice l4, rt_slice l5, uint64_t l6, uint64_t l7)
{
    uint64_t l0;
    uint64_t l8;
    uint64_t l9;
    uint64_t l10;
    uint64_t l11;
    uint64_t l12;
    uint8_t l13;
    uint8_t *l14;
    uint8_t l15;
    uint8_t *l16;
    uint8_t *l18;
    rt_slice l19;
    uint64_t l20;
    l8 = l2;
    l9 = l6;
    for (;;) {
        l13 = (uint8_t)(l9 < l7);
        if (l13) {
        } else {
            goto end1;
        }
        l10 = layout__head(l4, l9, UINT64_C(0));
        l14 = l3.p + (size_t)l10;
        l15 = (*(uint8_t *)l14);
        l11 = little_endian__index(l15);
        l15 = (uint8_t)l10;
        l16 = l1.p + (size_t)l8;
        (*(uint8_t *)l16) = l15;
        l12 = (uint64_t)((uint64_t)l8 + (uint64_t)UINT64_C(1));
        l18 = (uint8_t *)&(*(uint8_t *)l1.p);
        l19.p = l18;
        l19.n = l1.n;
        l20 = (uint64_t)((uint64_t)UINT64_C(32) * (uint64_t)l9);
        table_write__writing__values(l19, l12, l5, l20, l11);
        l20 = (uint64_t)((uint64_t)UINT64_C(4) * (uint64_t)l11);
        l8 = (uint64_t)((uint64_t)l12 + (uint64_t)l20);
        l9 = (uint64_t)((uint64_t)l9 + (uint64_t)UINT64_C(1));
    }
end1:;
    l0 = l8;
    return l0;
}

static RT_SHORT uint64_t table_write__writing__stream(rt_slice l1, rt_slice l2, rt_slice l3, uint64_t l4, rt_slice l5)
{
    uint64_t l0;
    uint8_t *l8;
    rt_slice l9;
    uint64_t l10;
    uint8_t *l11;
    rt_slice l12;
    l8 = (uint8_t *)&(*(uint8_t *)l5.p);
    l9.p = l8;
    l9.n = l5.n;
    l10 = (uint64_t)((uint64_t)l4 - (uint64_t)l1.n);
    little_endian__put_pair(l9, UINT64_C(0), l10);
    l11 = (uint8_t *)&(*(uint8_t *)l5.p);
    l12.p = l11;
    l12.n = l5.n;
    l0 = table_write__writing__instances(l12, UINT64_C(2), l1, l2, l3, l1.n, l4);
    return l0;
}

static inline void table_write__writing__values(rt_slice l1, uint64_t l2, rt_slice l3, uint64_t l4, uint64_t l5)
{
    uint64_t l6;
    uint8_t l7;
    uint8_t *l9;
    rt_slice l10;
    uint64_t l11;
    uint64_t l12;
    uint64_t l13;
    uint64_t l14;
    uint64_t l15;
    uint8_t *l16;
    uint64_t l17;
    l6 = UINT64_C(0);
    for (;;) {
        l7 = (uint8_t)(l6 < l5);
        if (l7) {
        } else {
            goto end1;
        }
        l9 = (uint8_t *)&(*(uint8_t *)l1.p);
        l10.p = l9;
        l10.n = l1.n;
        l11 = (uint64_t)((uint64_t)UINT64_C(4) * (uint64_t)l6);
        l12 = (uint64_t)((uint64_t)l2 + (uint64_t)l11);
        l14 = (uint64_t)((uint64_t)l4 + (uint64_t)l6);
        l15 = (uint64_t)((uint64_t)l14 * (uint64_t)UINT64_C(8));
        l16 = l3.p + (size_t)l15;
        l17 = (*(uint64_t *)l16);
        l13 = layout__operand(l17);
        little_endian__put_word(l10, l12, l13);
        l6 = (uint64_t)((uint64_t)l6 + (uint64_t)UINT64_C(1));
    }
end1:;
    return;
}

static RT_SHORT uint64_t text__byte(rt_slice l1, uint64_t l2, uint8_t l3)
{
    uint64_t l0;
    uint8_t *l4;
    l4 = l1.p + (size_t)l2;
    (*(uint8_t *)l4) = l3;
    l0 = (uint64_t)((uint64_t)l2 + (uint64_t)UINT64_C(1));
    return l0;
}

static const struct rt_array_uint8_3 text__command__l53 = { { UINT8_C(111), UINT8_C(112), UINT8_C(32) } };
static const struct rt_array_uint8_9 text__command__l54 = { { UINT8_C(112), UINT8_C(117), UINT8_C(115), UINT8_C(104), UINT8_C(32), UINT8_C(116), UINT8_C(104), UINT8_C(105), UINT8_C(115) } };
static const struct rt_array_uint8_3 text__command__l55 = { { UINT8_C(114), UINT8_C(100), UINT8_C(32) } };
static const struct rt_array_uint8_3 text__command__l56 = { { UINT8_C(119), UINT8_C(114), UINT8_C(32) } };
static const struct rt_array_uint8_5 text__command__l57 = { { UINT8_C(99), UINT8_C(111), UINT8_C(110), UINT8_C(115), UINT8_C(32) } };
static const struct rt_array_uint8_3 text__command__l58 = { { UINT8_C(105), UINT8_C(102), UINT8_C(32) } };
static const struct rt_array_uint8_3 text__command__l59 = { { UINT8_C(110), UINT8_C(111), UINT8_C(116) } };
static const struct rt_array_uint8_3 text__command__l60 = { { UINT8_C(111), UINT8_C(112), UINT8_C(32) } };
static inline uint64_t text__command(rt_slice l1, uint64_t l2, uint64_t l3)
{
    uint64_t l0;
    uint64_t l4;
    struct core__result__Result__Kind_UnknownKind l6;
    uint64_t l7;
    uint8_t *l8;
    rt_slice l9;
    uint8_t *l10;
    uint8_t *l11;
    rt_slice l12;
    uint64_t l13;
    uint8_t *l14;
    rt_slice l15;
    uint64_t l16;
    uint64_t l17;
    uint8_t *l18;
    rt_slice l19;
    uint8_t *l20;
    uint8_t *l21;
    rt_slice l22;
    uint8_t *l23;
    rt_slice l24;
    uint8_t *l25;
    uint8_t *l26;
    rt_slice l27;
    uint8_t *l28;
    rt_slice l29;
    uint8_t *l30;
    uint8_t *l31;
    rt_slice l32;
    uint8_t *l33;
    rt_slice l34;
    uint8_t *l35;
    uint8_t *l36;
    rt_slice l37;
    uint8_t *l38;
    rt_slice l39;
    uint8_t *l40;
    uint8_t *l41;
    rt_slice l42;
    uint8_t *l43;
    rt_slice l44;
    uint8_t *l45;
    uint8_t *l46;
    rt_slice l47;
    uint8_t *l48;
    rt_slice l49;
    uint8_t *l50;
    uint8_t *l51;
    rt_slice l52;
    l4 = (uint64_t)((uint64_t)l3 / (uint64_t)UINT64_C(4294967296));
    l7 = (uint64_t)((uint64_t)l3 % (uint64_t)UINT64_C(256));
    l6 = commands__kind__KindTryFromU64__try_from(l7);
    switch (l6.tag) {
        case UINT8_C(0): {
            break;
        }
        case UINT8_C(1): default: {
            l8 = (uint8_t *)&(*(uint8_t *)l1.p);
            l9.p = l8;
            l9.n = l1.n;
            l10 = (uint8_t *)&text__command__l53;
            l11 = (uint8_t *)&(*(uint8_t *)l10);
            l12.p = l11;
            l12.n = UINT64_C(3);
            l0 = text__keyed(l9, l2, l12, l4);
            return l0;
            break;
        }
    }
    switch (l6.s0.tag) {
        case UINT8_C(0): {
            l14 = (uint8_t *)&(*(uint8_t *)l1.p);
            l15.p = l14;
            l15.n = l1.n;
            l16 = (uint64_t)((uint64_t)l3 / (uint64_t)UINT64_C(256));
            l17 = (uint64_t)((uint64_t)l16 % (uint64_t)UINT64_C(256));
            l13 = text__push(l15, l2, l17, l4);
            break;
        }
        case UINT8_C(1): {
            l18 = (uint8_t *)&(*(uint8_t *)l1.p);
            l19.p = l18;
            l19.n = l1.n;
            l20 = (uint8_t *)&text__command__l54;
            l21 = (uint8_t *)&(*(uint8_t *)l20);
            l22.p = l21;
            l22.n = UINT64_C(9);
            l13 = text__put(l19, l2, l22);
            break;
        }
        case UINT8_C(2): {
            l23 = (uint8_t *)&(*(uint8_t *)l1.p);
            l24.p = l23;
            l24.n = l1.n;
            l25 = (uint8_t *)&text__command__l55;
            l26 = (uint8_t *)&(*(uint8_t *)l25);
            l27.p = l26;
            l27.n = UINT64_C(3);
            l13 = text__keyed(l24, l2, l27, l4);
            break;
        }
        case UINT8_C(3): {
            l28 = (uint8_t *)&(*(uint8_t *)l1.p);
            l29.p = l28;
            l29.n = l1.n;
            l30 = (uint8_t *)&text__command__l56;
            l31 = (uint8_t *)&(*(uint8_t *)l30);
            l32.p = l31;
            l32.n = UINT64_C(3);
            l13 = text__keyed(l29, l2, l32, l4);
            break;
        }
        case UINT8_C(4): {
            l33 = (uint8_t *)&(*(uint8_t *)l1.p);
            l34.p = l33;
            l34.n = l1.n;
            l35 = (uint8_t *)&text__command__l57;
            l36 = (uint8_t *)&(*(uint8_t *)l35);
            l37.p = l36;
            l37.n = UINT64_C(5);
            l13 = text__keyed(l34, l2, l37, l4);
            break;
        }
        case UINT8_C(5): {
            l38 = (uint8_t *)&(*(uint8_t *)l1.p);
            l39.p = l38;
            l39.n = l1.n;
            l40 = (uint8_t *)&text__command__l58;
            l41 = (uint8_t *)&(*(uint8_t *)l40);
            l42.p = l41;
            l42.n = UINT64_C(3);
            l13 = text__keyed(l39, l2, l42, l4);
            break;
        }
        case UINT8_C(6): {
            l43 = (uint8_t *)&(*(uint8_t *)l1.p);
            l44.p = l43;
            l44.n = l1.n;
            l45 = (uint8_t *)&text__command__l59;
            l46 = (uint8_t *)&(*(uint8_t *)l45);
            l47.p = l46;
            l47.n = UINT64_C(3);
            l13 = text__put(l44, l2, l47);
            break;
        }
        case UINT8_C(7): default: {
            l48 = (uint8_t *)&(*(uint8_t *)l1.p);
            l49.p = l48;
            l49.n = l1.n;
            l50 = (uint8_t *)&text__command__l60;
            l51 = (uint8_t *)&(*(uint8_t *)l50);
            l52.p = l51;
            l52.n = UINT64_C(3);
            l13 = text__keyed(l49, l2, l52, l4);
            break;
        }
    }
    l0 = l13;
    return l0;
}

static RT_SHORT uint64_t text__decimal(rt_slice l1, uint64_t l2, uint64_t l3)
{
    uint64_t l0;
    uint8_t *l4;
    rt_slice l5;
    l4 = (uint8_t *)&(*(uint8_t *)l1.p);
    l5.p = l4;
    l5.n = l1.n;
    l0 = text__digits(l5, l2, l3, UINT64_C(20));
    return l0;
}

static RT_SHORT uint64_t text__digit(rt_slice l1, uint64_t l2, uint64_t l3)
{
    uint64_t l0;
    uint8_t *l4;
    rt_slice l5;
    uint8_t l6;
    uint8_t l7;
    l4 = (uint8_t *)&(*(uint8_t *)l1.p);
    l5.p = l4;
    l5.n = l1.n;
    l6 = (uint8_t)l3;
    l7 = (uint8_t)((uint32_t)UINT8_C(48) + (uint32_t)l6);
    l0 = text__byte(l5, l2, l7);
    return l0;
}

static inline uint64_t text__digits(rt_slice l1, uint64_t l2, uint64_t l3, uint64_t l4)
{
    uint64_t l0;
    uint64_t l5;
    uint8_t l6;
    uint8_t *l7;
    rt_slice l8;
    uint8_t *l9;
    rt_slice l10;
    uint64_t l11;
    uint64_t l12;
    uint8_t *l13;
    rt_slice l14;
    l6 = (uint8_t)(l4 == UINT64_C(0));
    if (l6) {
        l0 = l2;
        return l0;
    }
    l6 = (uint8_t)(l3 < UINT64_C(10));
    if (l6) {
        l7 = (uint8_t *)&(*(uint8_t *)l1.p);
        l8.p = l7;
        l8.n = l1.n;
        l0 = text__digit(l8, l2, l3);
        return l0;
    }
    l9 = (uint8_t *)&(*(uint8_t *)l1.p);
    l10.p = l9;
    l10.n = l1.n;
    l11 = (uint64_t)((uint64_t)l3 / (uint64_t)UINT64_C(10));
    l12 = (uint64_t)((uint64_t)l4 - (uint64_t)UINT64_C(1));
    l5 = text__digits(l10, l2, l11, l12);
    l13 = (uint8_t *)&(*(uint8_t *)l1.p);
    l14.p = l13;
    l14.n = l1.n;
    l11 = (uint64_t)((uint64_t)l3 % (uint64_t)UINT64_C(10));
    l0 = text__digit(l14, l5, l11);
    return l0;
}

static RT_SHORT uint64_t text__keyed(rt_slice l1, uint64_t l2, rt_slice l3, uint64_t l4)
{
    uint64_t l0;
    uint64_t l5;
    uint8_t *l6;
    rt_slice l7;
    uint8_t *l8;
    rt_slice l9;
    l6 = (uint8_t *)&(*(uint8_t *)l1.p);
    l7.p = l6;
    l7.n = l1.n;
    l5 = text__put(l7, l2, l3);
    l8 = (uint8_t *)&(*(uint8_t *)l1.p);
    l9.p = l8;
    l9.n = l1.n;
    l0 = text__decimal(l9, l5, l4);
    return l0;
}

static RT_SHORT uint64_t text__lines__column(rt_slice l1, uint64_t l2, uint64_t l3)
{
    uint64_t l0;
    uint64_t l4;
    uint8_t *l5;
    rt_slice l6;
    uint8_t *l7;
    rt_slice l8;
    l5 = (uint8_t *)&(*(uint8_t *)l1.p);
    l6.p = l5;
    l6.n = l1.n;
    l4 = text__decimal(l6, l2, l3);
    l7 = (uint8_t *)&(*(uint8_t *)l1.p);
    l8.p = l7;
    l8.n = l1.n;
    l0 = text__byte(l8, l4, UINT8_C(32));
    return l0;
}

static inline uint64_t text__lines__line(rt_slice l1, uint64_t l2, uint8_t l3, uint8_t l4, uint64_t l5, uint64_t l6)
{
    uint64_t l0;
    uint64_t l7;
    uint64_t l8;
    uint64_t l9;
    uint64_t l10;
    uint8_t *l11;
    rt_slice l12;
    uint64_t l13;
    uint8_t *l14;
    rt_slice l15;
    uint8_t *l16;
    rt_slice l17;
    uint8_t *l18;
    rt_slice l19;
    uint8_t *l20;
    rt_slice l21;
    l11 = (uint8_t *)&(*(uint8_t *)l1.p);
    l12.p = l11;
    l12.n = l1.n;
    l13 = core__convert__U64FromU8__from(l3);
    l7 = text__lines__column(l12, l2, l13);
    l14 = (uint8_t *)&(*(uint8_t *)l1.p);
    l15.p = l14;
    l15.n = l1.n;
    l13 = core__convert__U64FromU8__from(l4);
    l8 = text__lines__column(l15, l7, l13);
    l16 = (uint8_t *)&(*(uint8_t *)l1.p);
    l17.p = l16;
    l17.n = l1.n;
    l9 = text__lines__column(l17, l8, l5);
    l18 = (uint8_t *)&(*(uint8_t *)l1.p);
    l19.p = l18;
    l19.n = l1.n;
    l10 = text__command(l19, l9, l6);
    l20 = (uint8_t *)&(*(uint8_t *)l1.p);
    l21.p = l20;
    l21.n = l1.n;
    l0 = text__byte(l21, l10, UINT8_C(10));
    return l0;
}

static inline uint64_t text__lines__row(rt_slice l1, uint64_t l2, rt_slice l3, rt_slice l4)
{
    uint64_t l0;
    uint64_t l5;
    uint64_t l6;
    uint8_t *l7;
    uint64_t l8;
    uint8_t *l9;
    rt_slice l10;
    uint8_t l12;
    uint64_t l13;
    uint8_t *l14;
    uint8_t *l15;
    rt_slice l16;
    uint8_t *l17;
    rt_slice l18;
    uint64_t l19;
    uint8_t *l20;
    rt_slice l21;
    l9 = (uint8_t *)&(*(uint8_t *)l1.p);
    l10.p = l9;
    l10.n = l1.n;
    l5 = text__put(l10, l2, l3);
    l6 = UINT64_C(0);
    for (;;) {
        l12 = (uint8_t)(l6 < l4.n);
        if (l12) {
        } else {
            goto end2;
        }
        l13 = (uint64_t)((uint64_t)l6 * (uint64_t)UINT64_C(8));
        l14 = l4.p + (size_t)l13;
        l7 = (uint8_t *)&(*(uint64_t *)l14);
        l15 = (uint8_t *)&(*(uint8_t *)l1.p);
        l16.p = l15;
        l16.n = l1.n;
        l8 = text__byte(l16, l5, UINT8_C(32));
        l17 = (uint8_t *)&(*(uint8_t *)l1.p);
        l18.p = l17;
        l18.n = l1.n;
        l19 = (*(uint64_t *)l7);
        l5 = text__decimal(l18, l8, l19);
        l6 = (uint64_t)((uint64_t)l6 + (uint64_t)UINT64_C(1));
    }
end2:;
    l20 = (uint8_t *)&(*(uint8_t *)l1.p);
    l21.p = l20;
    l21.n = l1.n;
    l0 = text__byte(l21, l5, UINT8_C(10));
    return l0;
}

static const struct rt_array_uint8_5 text__push__l19 = { { UINT8_C(112), UINT8_C(117), UINT8_C(115), UINT8_C(104), UINT8_C(32) } };
static inline uint64_t text__push(rt_slice l1, uint64_t l2, uint64_t l3, uint64_t l4)
{
    uint64_t l0;
    uint64_t l5;
    uint64_t l6;
    uint64_t l7;
    uint8_t *l8;
    rt_slice l9;
    uint8_t *l10;
    uint8_t *l11;
    rt_slice l12;
    uint8_t *l13;
    rt_slice l14;
    uint8_t *l15;
    rt_slice l16;
    uint8_t *l17;
    rt_slice l18;
    l8 = (uint8_t *)&(*(uint8_t *)l1.p);
    l9.p = l8;
    l9.n = l1.n;
    l10 = (uint8_t *)&text__push__l19;
    l11 = (uint8_t *)&(*(uint8_t *)l10);
    l12.p = l11;
    l12.n = UINT64_C(5);
    l5 = text__put(l9, l2, l12);
    l13 = (uint8_t *)&(*(uint8_t *)l1.p);
    l14.p = l13;
    l14.n = l1.n;
    l6 = text__decimal(l14, l5, l3);
    l15 = (uint8_t *)&(*(uint8_t *)l1.p);
    l16.p = l15;
    l16.n = l1.n;
    l7 = text__byte(l16, l6, UINT8_C(32));
    l17 = (uint8_t *)&(*(uint8_t *)l1.p);
    l18.p = l17;
    l18.n = l1.n;
    l0 = text__value(l18, l7, l3, l4);
    return l0;
}

static RT_SHORT uint64_t text__put(rt_slice l1, uint64_t l2, rt_slice l3)
{
    uint64_t l0;
    uint64_t l4;
    uint64_t l5;
    uint8_t *l7;
    uint8_t *l8;
    rt_slice l9;
    l5 = l3.n;
    l4 = (uint64_t)((uint64_t)l2 + (uint64_t)l5);
    l7 = l1.p + (size_t)l2;
    l5 = (uint64_t)((uint64_t)l4 - (uint64_t)l2);
    l8 = (uint8_t *)&(*(uint8_t *)l7);
    l9.p = l8;
    l9.n = l5;
    core__slice__edits__slice_T__copy_from_slice__u8(l9, l3);
    l0 = l4;
    return l0;
}

static inline uint64_t text__value(rt_slice l1, uint64_t l2, uint64_t l3, uint64_t l4)
{
    uint64_t l0;
    uint64_t l5;
    uint8_t l6;
    uint8_t l7;
    uint8_t *l8;
    rt_slice l9;
    uint8_t *l10;
    rt_slice l11;
    uint8_t *l12;
    rt_slice l13;
    uint64_t l14;
    l6 = (uint8_t)(l3 != UINT64_C(0));
    if (l6) {
    } else {
        l6 = (uint8_t)(l4 < UINT64_C(2147483648));
        l7 = l6;
        if (l7) {
        } else {
            goto end2;
        }
    }
    l8 = (uint8_t *)&(*(uint8_t *)l1.p);
    l9.p = l8;
    l9.n = l1.n;
    l0 = text__decimal(l9, l2, l4);
    return l0;
    goto end1;
end2:;
end1:;
    l10 = (uint8_t *)&(*(uint8_t *)l1.p);
    l11.p = l10;
    l11.n = l1.n;
    l5 = text__byte(l11, l2, UINT8_C(45));
    l12 = (uint8_t *)&(*(uint8_t *)l1.p);
    l13.p = l12;
    l13.n = l1.n;
    l14 = (uint64_t)((uint64_t)UINT64_C(4294967296) - (uint64_t)l4);
    l0 = text__decimal(l13, l5, l14);
    return l0;
}

static RT_APART uint64_t text_place__place(rt_slice l1)
{
    uint64_t l0;
    struct rt_array_uint8_65536 l3;
    struct rt_array_uint8_65537 l4;
    uint8_t l5;
    uint8_t *l6;
    rt_slice l7;
    uint8_t *l8;
    rt_slice l9;
    l5 = (uint8_t)(UINT64_C(65536) < l1.n);
    if (l5) {
        l0 = UINT64_C(65536);
        return l0;
    }
    memset(&l3, 0, sizeof l3);
    memset(&l4, 0, sizeof l4);
    l6 = (uint8_t *)&l3;
    l7.p = l6;
    l7.n = l1.n;
    l8 = (uint8_t *)&l4;
    l9.p = l8;
    l9.n = UINT64_C(65537);
    l0 = text_place__stopped(l1, l7, l9);
    return l0;
}

static inline uint64_t text_place__stopped(rt_slice l1, rt_slice l2, rt_slice l3)
{
    uint64_t l0;
    uint64_t l4;
    uint8_t l5;
    uint8_t *l6;
    rt_slice l7;
    uint8_t l8;
    uint8_t *l9;
    rt_slice l10;
    uint8_t *l11;
    rt_slice l12;
    uint8_t *l13;
    rt_slice l14;
    uint8_t *l15;
    rt_slice l16;
    uint8_t *l17;
    rt_slice l18;
    uint8_t *l19;
    rt_slice l20;
    l6 = (uint8_t *)&(*(uint8_t *)l2.p);
    l7.p = l6;
    l7.n = l2.n;
    l5 = lexer__mark(l1, l7);
    l8 = (uint8_t)!l5;
    if (l8) {
        l0 = text_place__unmarked(l1);
        return l0;
    }
    l9 = (uint8_t *)&(*(uint8_t *)l2.p);
    l10.p = l9;
    l10.n = l2.n;
    l11 = (uint8_t *)&(*(uint8_t *)l3.p);
    l12.p = l11;
    l12.n = l3.n;
    l4 = text_place__stuck(l10, l12);
    l13 = (uint8_t *)&(*(uint8_t *)l2.p);
    l14.p = l13;
    l14.n = l2.n;
    l15 = (uint8_t *)&(*(uint8_t *)l3.p);
    l16.p = l15;
    l16.n = l3.n;
    l5 = derive__derived(l14, l16);
    l8 = (uint8_t)!l5;
    if (l8) {
        l0 = l4;
        return l0;
    }
    l17 = (uint8_t *)&(*(uint8_t *)l2.p);
    l18.p = l17;
    l18.n = l2.n;
    l19 = (uint8_t *)&(*(uint8_t *)l3.p);
    l20.p = l19;
    l20.n = l3.n;
    l0 = text_place__unnamed(l1, l18, l20);
    return l0;
}

static inline uint64_t text_place__stuck(rt_slice l1, rt_slice l2)
{
    uint64_t l0;
    struct derive__Mark l3;
    uint64_t l4;
    uint8_t *l5;
    uint8_t l7;
    uint8_t *l8;
    uint8_t l9;
    uint8_t l10;
    uint8_t *l11;
    rt_slice l12;
    uint8_t l13;
    uint8_t l14;
    l3.f0 = UINT8_C(1);
    l3.f1 = UINT64_C(0);
    l4 = UINT64_C(0);
    for (;;) {
        l7 = (uint8_t)(l4 < l1.n);
        if (l7) {
        } else {
            goto end2;
        }
        l8 = l1.p + (size_t)l4;
        l5 = (uint8_t *)&(*(uint8_t *)l8);
        l9 = (*(uint8_t *)l5);
        l10 = (uint8_t)(l9 != UINT8_C(0));
        if (l10) {
            l11 = (uint8_t *)&(*(uint8_t *)l2.p);
            l12.p = l11;
            l12.n = l2.n;
            l13 = (*(uint8_t *)l5);
            l3 = derive__step(l12, l3, l13);
            l14 = (uint8_t)(l3.f0 == UINT8_C(0));
            if (l14) {
                l0 = l4;
                return l0;
            }
        }
        l4 = (uint64_t)((uint64_t)l4 + (uint64_t)UINT64_C(1));
    }
end2:;
    l0 = l1.n;
    return l0;
}

static inline uint64_t text_place__unmarked(rt_slice l1)
{
    uint64_t l0;
    uint64_t l2;
    struct core__option__Option__rt_tuple2_u8_u64 l4;
    uint8_t *l5;
    uint64_t l6;
    uint8_t *l7;
    rt_slice l8;
    uint64_t l9;
    l2 = UINT64_C(0);
    for (;;) {
        l5 = l1.p + (size_t)l2;
        l6 = (uint64_t)((uint64_t)l1.n - (uint64_t)l2);
        l7 = (uint8_t *)&(*(uint8_t *)l5);
        l8.p = l7;
        l8.n = l6;
        l4 = lexer__token(l8);
        switch (l4.tag) {
            case UINT8_C(1): {
                l9 = (uint64_t)((uint64_t)l4.s0.f1 + (uint64_t)UINT64_C(1));
                l2 = (uint64_t)((uint64_t)l2 + (uint64_t)l9);
                break;
            }
            case UINT8_C(0): default: {
                goto end1;
                break;
            }
        }
    }
end1:;
    l0 = l2;
    return l0;
}

static RT_APART uint64_t text_place__unnamed(rt_slice l1, rt_slice l2, rt_slice l3)
{
    uint64_t l0;
    struct rt_array_uint8_65536 l4;
    struct rt_array_uint64_323 l5;
    struct core__result__Result__u64_NoProgram l7;
    uint8_t *l8;
    rt_slice l9;
    uint8_t *l10;
    rt_slice l11;
    uint8_t *l12;
    rt_slice l13;
    uint64_t l14;
    memset(&l4, 0, sizeof l4);
    memset(&l5, 0, sizeof l5);
    l8 = (uint8_t *)&l5;
    l9.p = l8;
    l9.n = UINT64_C(323);
    l10 = (uint8_t *)&(*(uint8_t *)l3.p);
    l11.p = l10;
    l11.n = l3.n;
    l12 = (uint8_t *)&l4;
    l13.p = l12;
    l13.n = UINT64_C(65536);
    l7 = uses__numbers(l1, l2, l9, l11, l13);
    switch (l7.tag) {
        case UINT8_C(0): {
            l14 = l2.n;
            break;
        }
        case UINT8_C(1): default: {
            l14 = l7.s1.f0;
            break;
        }
    }
    l0 = l14;
    return l0;
}

static RT_APART struct trace_images__Traced trace_images__begun(uint8_t *l1, rt_slice l2, rt_slice l3, rt_slice l4, rt_slice l5, uint64_t l6, rt_slice l7)
{
    struct trace_images__Traced l0;
    struct table_read__parameters__Parameters l8;
    struct rt_array_uint16_1536 l9;
    struct rt_array_uint64_8192 l10;
    struct seating__Opened l14;
    struct trace_images__telling__Start l15;
    struct trace_images__telling__Telling l16;
    struct core__result__Result__Seat_Refusal l18;
    uint64_t l19;
    uint8_t *l21;
    rt_slice l22;
    uint8_t *l23;
    rt_slice l24;
    uint8_t l26;
    uint8_t *l27;
    rt_slice l28;
    uint8_t l29;
    uint8_t l30;
    struct types__refusal__Refusal l31;
    uint8_t *l32;
    rt_slice l33;
    uint8_t *l34;
    rt_slice l35;
    uint8_t *l36;
    rt_slice l37;
    uint8_t *l38;
    rt_slice l39;
    uint8_t *l41;
    rt_slice l42;
    l8 = seating__parameters(l1);
    memset(&l9, 0, sizeof l9);
    memset(&l10, 0, sizeof l10);
    l19 = (*(struct seating__Opened *)l1).f0.f1;
    l21 = (uint8_t *)&l9;
    l22.p = l21;
    l22.n = UINT64_C(1536);
    l23 = (uint8_t *)&l10;
    l24.p = l23;
    l24.n = UINT64_C(8192);
    l18 = trace_images__seated(l19, l8, l4, l22, l24);
    switch (l18.tag) {
        case UINT8_C(0): {
            break;
        }
        case UINT8_C(1): default: {
            l26 = types__refusal__U8FromRefusal__from(l18.s1);
            l27 = (uint8_t *)&(*(uint8_t *)l7.p);
            l28.p = l27;
            l28.n = l7.n;
            {
                struct trace_images__Traced r = trace_images__pages__refused(l26, l6, l28);
                l0.f0 = r.f0;
                l0.f1 = r.f1;
                l0.f2 = r.f2;
                l0.f3 = r.f3;
            }
            return l0;
            break;
        }
    }
    l19 = l5.n;
    l29 = (uint8_t)(UINT64_C(65536) < l19);
    if (l29) {
        l31.tag = UINT8_C(13);
        l30 = types__refusal__U8FromRefusal__from(l31);
        l32 = (uint8_t *)&(*(uint8_t *)l7.p);
        l33.p = l32;
        l33.n = l7.n;
        {
            struct trace_images__Traced r = trace_images__pages__refused(l30, l6, l33);
            l0.f0 = r.f0;
            l0.f1 = r.f1;
            l0.f2 = r.f2;
            l0.f3 = r.f3;
        }
        return l0;
    }
    l14.f0.f0 = (*(struct seating__Opened *)l1).f0.f0;
    l14.f0.f1 = (*(struct seating__Opened *)l1).f0.f1;
    l14.f0.f2 = (*(struct seating__Opened *)l1).f0.f2;
    l14.f0.f3 = (*(struct seating__Opened *)l1).f0.f3;
    l14.f0.f4 = (*(struct seating__Opened *)l1).f0.f4;
    l14.f0.f5 = (*(struct seating__Opened *)l1).f0.f5;
    l14.f0.f6 = (*(struct seating__Opened *)l1).f0.f6;
    l14.f1 = (*(struct seating__Opened *)l1).f1;
    l14.f2 = (*(struct seating__Opened *)l1).f2;
    l15.f0.f0.f0 = l14.f0.f0;
    l15.f0.f0.f1 = l14.f0.f1;
    l15.f0.f0.f2 = l14.f0.f2;
    l15.f0.f0.f3 = l14.f0.f3;
    l15.f0.f0.f4 = l14.f0.f4;
    l15.f0.f0.f5 = l14.f0.f5;
    l15.f0.f0.f6 = l14.f0.f6;
    l15.f0.f1 = l14.f1;
    l15.f0.f2 = l14.f2;
    l15.f1.f0 = l18.s0.f0;
    l15.f1.f1.f0 = l18.s0.f1.f0;
    l15.f1.f1.f1 = l18.s0.f1.f1;
    l15.f1.f1.f2 = l18.s0.f1.f2;
    l15.f1.f1.f3 = l18.s0.f1.f3;
    l15.f1.f1.f4 = l18.s0.f1.f4;
    l15.f1.f1.f5 = l18.s0.f1.f5;
    l15.f1.f1.f6 = l18.s0.f1.f6;
    l15.f2 = l6;
    l34 = (uint8_t *)&l9;
    l35.p = l34;
    l35.n = UINT64_C(1536);
    l36 = (uint8_t *)&l10;
    l37.p = l36;
    l37.n = UINT64_C(8192);
    l38 = (uint8_t *)&(*(uint8_t *)l7.p);
    l39.p = l38;
    l39.n = l7.n;
    l16 = trace_images__telling__play(l2, l3, l15, l35, l37, l5, l39);
    l41 = (uint8_t *)&(*(uint8_t *)l7.p);
    l42.p = l41;
    l42.n = l7.n;
    {
        struct trace_images__Traced r = trace_images__pages__ended(l16.f3, l16.f1, l16.f0.f2, l42);
        l0.f0 = r.f0;
        l0.f1 = r.f1;
        l0.f2 = r.f2;
        l0.f3 = r.f3;
    }
    return l0;
}

static RT_HERE struct trace_images__pages__Page trace_images__pages__blank(uint64_t l1)
{
    struct trace_images__pages__Page l0;
    l0.f0 = l1;
    l0.f1 = UINT64_C(0);
    return l0;
}

static const struct rt_array_uint8_3 trace_images__pages__ended__l26 = { { UINT8_C(101), UINT8_C(110), UINT8_C(100) } };
static RT_HERE struct trace_images__Traced trace_images__pages__ended(struct trace_images__pages__Page l1, uint8_t l2, uint64_t l3, rt_slice l4)
{
    struct trace_images__Traced l0;
    struct rt_array_uint8_1024 l5;
    uint64_t l6;
    struct trace_images__pages__Page l7;
    uint64_t l8;
    uint8_t *l9;
    rt_slice l10;
    uint8_t *l11;
    uint8_t *l12;
    rt_slice l13;
    struct rt_array_uint64_2 l14;
    uint64_t l15;
    uint8_t *l17;
    rt_slice l18;
    uint8_t *l19;
    rt_slice l20;
    uint8_t *l21;
    rt_slice l22;
    uint64_t l24;
    uint32_t l25;
    memset(&l5, 0, sizeof l5);
    l9 = (uint8_t *)&l5;
    l10.p = l9;
    l10.n = UINT64_C(1024);
    l11 = (uint8_t *)&trace_images__pages__ended__l26;
    l12 = (uint8_t *)&(*(uint8_t *)l11);
    l13.p = l12;
    l13.n = UINT64_C(3);
    l15 = (uint64_t)l2;
    l14 = (struct rt_array_uint64_2){ { l15, l3 } };
    l17 = (uint8_t *)&l14;
    l18.p = l17;
    l18.n = UINT64_C(2);
    l6 = text__lines__row(l10, UINT64_C(0), l13, l18);
    l19 = (uint8_t *)&l5;
    l20.p = l19;
    l20.n = l6;
    l21 = (uint8_t *)&(*(uint8_t *)l4.p);
    l22.p = l21;
    l22.n = l4.n;
    l7 = trace_images__pages__put(l1, l20, l22);
    l24 = core__int__usize__saturating_sub(l7.f1, l7.f0);
    l8 = trace_images__pages__least(l4.n, l24);
    l25 = (uint32_t)l3;
    l0.f0 = l2;
    l0.f1 = l25;
    l0.f2 = l7.f1;
    l0.f3 = l8;
    return l0;
}

static RT_SHORT uint64_t trace_images__pages__least(uint64_t l1, uint64_t l2)
{
    uint64_t l0;
    uint8_t l3;
    uint64_t l4;
    l3 = (uint8_t)(l1 < l2);
    if (l3) {
        l4 = l1;
    } else {
        l4 = l2;
    }
    l0 = l4;
    return l0;
}

static RT_HERE struct trace_images__pages__Page trace_images__pages__put(struct trace_images__pages__Page l1, rt_slice l2, rt_slice l3)
{
    struct trace_images__pages__Page l0;
    uint64_t l4;
    uint64_t l5;
    uint64_t l6;
    uint64_t l7;
    uint64_t l8;
    uint64_t l9;
    uint64_t l11;
    uint8_t *l13;
    rt_slice l14;
    uint8_t *l15;
    uint8_t *l16;
    rt_slice l17;
    l7 = l3.n;
    l8 = core__int__usize__saturating_sub(l1.f1, l1.f0);
    l4 = trace_images__pages__least(l7, l8);
    l7 = l2.n;
    l8 = core__int__usize__saturating_sub(l1.f0, l1.f1);
    l5 = trace_images__pages__least(l7, l8);
    l8 = l2.n;
    l9 = (uint64_t)((uint64_t)l8 - (uint64_t)l5);
    l11 = (uint64_t)((uint64_t)l3.n - (uint64_t)l4);
    l7 = trace_images__pages__least(l9, l11);
    l6 = (uint64_t)((uint64_t)l5 + (uint64_t)l7);
    l13 = (uint8_t *)&(*(uint8_t *)l3.p);
    l14.p = l13;
    l14.n = l3.n;
    l15 = l2.p + (size_t)l5;
    l7 = (uint64_t)((uint64_t)l6 - (uint64_t)l5);
    l16 = (uint8_t *)&(*(uint8_t *)l15);
    l17.p = l16;
    l17.n = l7;
    block__put__copy(l14, l4, l17);
    l11 = l2.n;
    l7 = (uint64_t)((uint64_t)l1.f1 + (uint64_t)l11);
    l0.f0 = l1.f0;
    l0.f1 = l7;
    return l0;
}

static RT_HERE struct trace_images__Traced trace_images__pages__refused(uint8_t l1, uint64_t l2, rt_slice l3)
{
    struct trace_images__Traced l0;
    struct trace_images__pages__Page l4;
    uint8_t *l5;
    rt_slice l6;
    l4 = trace_images__pages__blank(l2);
    l5 = (uint8_t *)&(*(uint8_t *)l3.p);
    l6.p = l5;
    l6.n = l3.n;
    {
        struct trace_images__Traced r = trace_images__pages__ended(l4, l1, UINT64_C(0), l6);
        l0.f0 = r.f0;
        l0.f1 = r.f1;
        l0.f2 = r.f2;
        l0.f3 = r.f3;
    }
    return l0;
}

static RT_APART struct core__result__Result__Seat_Refusal trace_images__seated(uint64_t l1, struct table_read__parameters__Parameters l2, rt_slice l3, rt_slice l4, rt_slice l5)
{
    struct core__result__Result__Seat_Refusal l0;
    struct rt_array_uint8_8568 l6;
    uint8_t *l8;
    rt_slice l9;
    uint8_t *l10;
    rt_slice l11;
    uint8_t *l12;
    rt_slice l13;
    memset(&l6, 0, sizeof l6);
    l8 = (uint8_t *)&l6;
    l9.p = l8;
    l9.n = UINT64_C(8568);
    l10 = (uint8_t *)&(*(uint16_t *)l4.p);
    l11.p = l10;
    l11.n = l4.n;
    l12 = (uint8_t *)&(*(uint64_t *)l5.p);
    l13.p = l12;
    l13.n = l5.n;
    {
        struct core__result__Result__Seat_Refusal r = seating__seat_table(l1, l2, l3, l9, l11, l13);
        l0.tag = r.tag;
        l0.s0.f0 = r.s0.f0;
        l0.s0.f1.f0 = r.s0.f1.f0;
        l0.s0.f1.f1 = r.s0.f1.f1;
        l0.s0.f1.f2 = r.s0.f1.f2;
        l0.s0.f1.f3 = r.s0.f1.f3;
        l0.s0.f1.f4 = r.s0.f1.f4;
        l0.s0.f1.f5 = r.s0.f1.f5;
        l0.s0.f1.f6 = r.s0.f1.f6;
        l0.s1.tag = r.s1.tag;
    }
    return l0;
}

static RT_HERE struct trace_images__telling__Telling trace_images__telling__behind(struct engine__Machine l1, uint64_t l2, uint64_t l3, struct trace_images__pages__Page l4)
{
    struct trace_images__telling__Telling l0;
    struct trace_lines__Coming l5;
    l5.f0.f0.f0 = l1.f0.f0;
    l5.f0.f0.f1 = l1.f0.f1;
    l5.f0.f0.f2 = l1.f0.f2;
    l5.f0.f0.f3 = l1.f0.f3;
    l5.f0.f0.f4 = l1.f0.f4;
    l5.f0.f0.f5 = l1.f0.f5;
    l5.f0.f0.f6 = l1.f0.f6;
    l5.f1 = l2;
    l5.f2 = l3;
    l5.f3 = UINT8_C(0);
    l0.f0.f0.f0.f0 = l5.f0.f0.f0;
    l0.f0.f0.f0.f1 = l5.f0.f0.f1;
    l0.f0.f0.f0.f2 = l5.f0.f0.f2;
    l0.f0.f0.f0.f3 = l5.f0.f0.f3;
    l0.f0.f0.f0.f4 = l5.f0.f0.f4;
    l0.f0.f0.f0.f5 = l5.f0.f0.f5;
    l0.f0.f0.f0.f6 = l5.f0.f0.f6;
    l0.f0.f1 = l5.f1;
    l0.f0.f2 = l5.f2;
    l0.f0.f3 = l5.f3;
    l0.f1 = l1.f0.f4;
    l0.f2 = 0;
    l0.f3.f0 = l4.f0;
    l0.f3.f1 = l4.f1;
    return l0;
}

static RT_HERE struct trace_images__telling__Telling trace_images__telling__first(struct trace_images__telling__Start l1)
{
    struct trace_images__telling__Telling l0;
    struct engine__Machine l3;
    struct trace_lines__Coming l4;
    struct trace_images__pages__Page l5;
    l3.f0.f0 = l1.f1.f1.f0;
    l3.f0.f1 = l1.f1.f1.f1;
    l3.f0.f2 = l1.f1.f1.f2;
    l3.f0.f3 = l1.f1.f1.f3;
    l3.f0.f4 = l1.f1.f1.f4;
    l3.f0.f5 = l1.f1.f1.f5;
    l3.f0.f6 = l1.f1.f1.f6;
    l4.f0.f0.f0 = l3.f0.f0;
    l4.f0.f0.f1 = l3.f0.f1;
    l4.f0.f0.f2 = l3.f0.f2;
    l4.f0.f0.f3 = l3.f0.f3;
    l4.f0.f0.f4 = l3.f0.f4;
    l4.f0.f0.f5 = l3.f0.f5;
    l4.f0.f0.f6 = l3.f0.f6;
    l4.f1 = UINT64_C(0);
    l4.f2 = UINT64_C(0);
    l4.f3 = UINT8_C(0);
    l5 = trace_images__pages__blank(l1.f2);
    l0.f0.f0.f0.f0 = l4.f0.f0.f0;
    l0.f0.f0.f0.f1 = l4.f0.f0.f1;
    l0.f0.f0.f0.f2 = l4.f0.f0.f2;
    l0.f0.f0.f0.f3 = l4.f0.f0.f3;
    l0.f0.f0.f0.f4 = l4.f0.f0.f4;
    l0.f0.f0.f0.f5 = l4.f0.f0.f5;
    l0.f0.f0.f0.f6 = l4.f0.f0.f6;
    l0.f0.f1 = l4.f1;
    l0.f0.f2 = l4.f2;
    l0.f0.f3 = l4.f3;
    l0.f1 = UINT8_C(0);
    l0.f2 = 0;
    l0.f3.f0 = l5.f0;
    l0.f3.f1 = l5.f1;
    return l0;
}

static RT_HERE struct trace_images__telling__Telling trace_images__telling__moved(struct trace_images__telling__Telling l1, rt_slice l2, rt_slice l3, rt_slice l4, rt_slice l5)
{
    struct trace_images__telling__Telling l0;
    struct rt_array_uint8_1024 l8;
    struct trace_lines__Told l9;
    struct trace_images__pages__Page l12;
    uint8_t *l13;
    rt_slice l14;
    uint8_t *l15;
    rt_slice l16;
    uint8_t *l18;
    rt_slice l19;
    uint8_t *l20;
    rt_slice l21;
    memset(&l8, 0, sizeof l8);
    l13 = (uint8_t *)&(*(uint16_t *)l4.p);
    l14.p = l13;
    l14.n = l4.n;
    l15 = (uint8_t *)&l8;
    l16.p = l15;
    l16.n = UINT64_C(1024);
    l9 = trace_lines__advance(l1.f0.f0, l1.f0.f1, l2, l3, l14, l16);
    l18 = (uint8_t *)&l8;
    l19.p = l18;
    l19.n = l9.f2;
    l20 = (uint8_t *)&(*(uint8_t *)l5.p);
    l21.p = l20;
    l21.n = l5.n;
    l12 = trace_images__pages__put(l1.f3, l19, l21);
    {
        struct trace_images__telling__Telling r = trace_images__telling__behind(l9.f0, l9.f1, l1.f0.f2, l12);
        l0.f0.f0.f0.f0 = r.f0.f0.f0.f0;
        l0.f0.f0.f0.f1 = r.f0.f0.f0.f1;
        l0.f0.f0.f0.f2 = r.f0.f0.f0.f2;
        l0.f0.f0.f0.f3 = r.f0.f0.f0.f3;
        l0.f0.f0.f0.f4 = r.f0.f0.f0.f4;
        l0.f0.f0.f0.f5 = r.f0.f0.f0.f5;
        l0.f0.f0.f0.f6 = r.f0.f0.f0.f6;
        l0.f0.f1 = r.f0.f1;
        l0.f0.f2 = r.f0.f2;
        l0.f0.f3 = r.f0.f3;
        l0.f1 = r.f1;
        l0.f2 = r.f2;
        l0.f3.f0 = r.f3.f0;
        l0.f3.f1 = r.f3.f1;
    }
    return l0;
}

static RT_APART struct trace_images__telling__Telling trace_images__telling__play(rt_slice l1, rt_slice l2, struct trace_images__telling__Start l3, rt_slice l4, rt_slice l5, rt_slice l6, rt_slice l7)
{
    struct trace_images__telling__Telling l0;
    struct rt_array_uint8_16 l9;
    uint64_t l11;
    rt_slice l12;
    struct rt_array_uint64_1024 l13;
    struct rt_array_uint16_1024 l14;
    struct rt_array_uint64_129 l15;
    struct trace_images__telling__Telling l17;
    struct trace_images__telling__Telling l18;
    struct trace_images__telling__Telling l19;
    uint8_t *l20;
    uint64_t l22;
    uint8_t *l23;
    rt_slice l24;
    uint8_t *l25;
    rt_slice l26;
    uint8_t *l27;
    rt_slice l28;
    struct trace_images__telling__Telling l29;
    uint8_t *l30;
    rt_slice l31;
    uint8_t *l32;
    rt_slice l33;
    uint8_t *l34;
    rt_slice l35;
    uint8_t *l36;
    rt_slice l37;
    uint8_t l38;
    uint8_t *l39;
    rt_slice l40;
    uint8_t *l41;
    rt_slice l42;
    uint8_t *l43;
    rt_slice l44;
    uint8_t *l45;
    rt_slice l46;
    uint8_t *l47;
    rt_slice l48;
    uint8_t *l49;
    rt_slice l50;
    uint8_t *l51;
    rt_slice l52;
    uint8_t *l53;
    rt_slice l54;
    uint8_t *l55;
    rt_slice l56;
    l9 = l3.f0.f1;
    l11 = (uint64_t)l3.f0.f0.f3;
    l20 = (uint8_t *)&l9;
    l12.p = l20;
    l12.n = l11;
    memset(&l13, 0, sizeof l13);
    memset(&l14, 0, sizeof l14);
    memset(&l15, 0, sizeof l15);
    l22 = (uint64_t)l3.f0.f0.f4;
    l23 = (uint8_t *)&l14;
    l24.p = l23;
    l24.n = UINT64_C(1024);
    l25 = (uint8_t *)&l15;
    l26.p = l25;
    l26.n = UINT64_C(129);
    compile__program(l1, l3.f0.f0.f2, l11, l2, l22, l24, l26);
    l27 = (uint8_t *)&l13;
    l28.p = l27;
    l28.n = UINT64_C(1024);
    emit_steps__program(l1, l12, l3.f1.f0, l28);
    l29 = trace_images__telling__first(l3);
    l30 = (uint8_t *)&l15;
    l31.p = l30;
    l31.n = UINT64_C(129);
    l32 = (uint8_t *)&l14;
    l33.p = l32;
    l33.n = UINT64_C(1024);
    l34 = (uint8_t *)&(*(uint16_t *)l4.p);
    l35.p = l34;
    l35.n = l4.n;
    l36 = (uint8_t *)&(*(uint8_t *)l7.p);
    l37.p = l36;
    l37.n = l7.n;
    l17 = trace_images__telling__settle(l29, l31, l33, l35, l37);
    l18 = trace_images__telling__told_at(l17, l6);
    for (;;) {
        l38 = l18.f2;
        if (l38) {
        } else {
            goto end1;
        }
        l39 = (uint8_t *)&l13;
        l40.p = l39;
        l40.n = UINT64_C(1024);
        l41 = (uint8_t *)&l14;
        l42.p = l41;
        l42.n = UINT64_C(1024);
        l43 = (uint8_t *)&(*(uint16_t *)l4.p);
        l44.p = l43;
        l44.n = l4.n;
        l45 = (uint8_t *)&(*(uint64_t *)l5.p);
        l46.p = l45;
        l46.n = l5.n;
        l47 = (uint8_t *)&(*(uint8_t *)l7.p);
        l48.p = l47;
        l48.n = l7.n;
        l18 = trace_images__telling__turn(l18, l40, l12, l42, l44, l46, l48);
        l38 = (uint8_t)(l18.f1 == UINT8_C(0));
        if (l38) {
            l49 = (uint8_t *)&l15;
            l50.p = l49;
            l50.n = UINT64_C(129);
            l51 = (uint8_t *)&l14;
            l52.p = l51;
            l52.n = UINT64_C(1024);
            l53 = (uint8_t *)&(*(uint16_t *)l4.p);
            l54.p = l53;
            l54.n = l4.n;
            l55 = (uint8_t *)&(*(uint8_t *)l7.p);
            l56.p = l55;
            l56.n = l7.n;
            l19 = trace_images__telling__settle(l18, l50, l52, l54, l56);
            l18 = trace_images__telling__told_at(l19, l6);
        }
    }
end1:;
    l0.f0.f0.f0.f0 = l18.f0.f0.f0.f0;
    l0.f0.f0.f0.f1 = l18.f0.f0.f0.f1;
    l0.f0.f0.f0.f2 = l18.f0.f0.f0.f2;
    l0.f0.f0.f0.f3 = l18.f0.f0.f0.f3;
    l0.f0.f0.f0.f4 = l18.f0.f0.f0.f4;
    l0.f0.f0.f0.f5 = l18.f0.f0.f0.f5;
    l0.f0.f0.f0.f6 = l18.f0.f0.f0.f6;
    l0.f0.f1 = l18.f0.f1;
    l0.f0.f2 = l18.f0.f2;
    l0.f0.f3 = l18.f0.f3;
    l0.f1 = l18.f1;
    l0.f2 = l18.f2;
    l0.f3.f0 = l18.f3.f0;
    l0.f3.f1 = l18.f3.f1;
    return l0;
}

static RT_HERE struct trace_images__telling__Telling trace_images__telling__resting(struct trace_images__telling__Telling l1, uint8_t l2)
{
    struct trace_images__telling__Telling l0;
    l0.f0.f0.f0.f0 = l1.f0.f0.f0.f0;
    l0.f0.f0.f0.f1 = l1.f0.f0.f0.f1;
    l0.f0.f0.f0.f2 = l1.f0.f0.f0.f2;
    l0.f0.f0.f0.f3 = l1.f0.f0.f0.f3;
    l0.f0.f0.f0.f4 = l1.f0.f0.f0.f4;
    l0.f0.f0.f0.f5 = l1.f0.f0.f0.f5;
    l0.f0.f0.f0.f6 = l1.f0.f0.f0.f6;
    l0.f0.f1 = l1.f0.f1;
    l0.f0.f2 = l1.f0.f2;
    l0.f0.f3 = l1.f0.f3;
    l0.f1 = l2;
    l0.f2 = 0;
    l0.f3.f0 = l1.f3.f0;
    l0.f3.f1 = l1.f3.f1;
    return l0;
}

static RT_HERE struct trace_images__telling__Telling trace_images__telling__settle(struct trace_images__telling__Telling l1, rt_slice l2, rt_slice l3, rt_slice l4, rt_slice l5)
{
    struct trace_images__telling__Telling l0;
    struct trace_images__telling__Telling l6;
    uint64_t l7;
    uint8_t l8;
    struct layout__Numbers l9;
    uint8_t l10;
    uint64_t l11;
    uint8_t *l12;
    uint64_t l13;
    uint8_t *l14;
    rt_slice l15;
    uint8_t *l16;
    rt_slice l17;
    l6.f0.f0.f0.f0 = l1.f0.f0.f0.f0;
    l6.f0.f0.f0.f1 = l1.f0.f0.f0.f1;
    l6.f0.f0.f0.f2 = l1.f0.f0.f0.f2;
    l6.f0.f0.f0.f3 = l1.f0.f0.f0.f3;
    l6.f0.f0.f0.f4 = l1.f0.f0.f0.f4;
    l6.f0.f0.f0.f5 = l1.f0.f0.f0.f5;
    l6.f0.f0.f0.f6 = l1.f0.f0.f0.f6;
    l6.f0.f1 = l1.f0.f1;
    l6.f0.f2 = l1.f0.f2;
    l6.f0.f3 = l1.f0.f3;
    l6.f1 = l1.f1;
    l6.f2 = l1.f2;
    l6.f3.f0 = l1.f3.f0;
    l6.f3.f1 = l1.f3.f1;
    for (;;) {
        l9.f0 = l6.f0.f0.f0.f0;
        l9.f1 = l6.f0.f0.f0.f1;
        l9.f2 = l6.f0.f0.f0.f2;
        l9.f3 = l6.f0.f0.f0.f3;
        l9.f4 = l6.f0.f0.f0.f4;
        l9.f5 = l6.f0.f0.f0.f5;
        l9.f6 = l6.f0.f0.f0.f6;
        l8 = layout__due(l9);
        l10 = (uint8_t)!l8;
        if (l10) {
        } else {
            goto end1;
        }
        l7 = l6.f0.f0.f0.f1;
        l11 = (uint64_t)((uint64_t)l7 * (uint64_t)UINT64_C(8));
        l12 = l2.p + (size_t)l11;
        l13 = (*(uint64_t *)l12);
        l8 = (uint8_t)(l13 == UINT64_C(1025));
        if (l8) {
            l0.f0.f0.f0.f0 = l6.f0.f0.f0.f0;
            l0.f0.f0.f0.f1 = l6.f0.f0.f0.f1;
            l0.f0.f0.f0.f2 = l6.f0.f0.f0.f2;
            l0.f0.f0.f0.f3 = l6.f0.f0.f0.f3;
            l0.f0.f0.f0.f4 = l6.f0.f0.f0.f4;
            l0.f0.f0.f0.f5 = l6.f0.f0.f0.f5;
            l0.f0.f0.f0.f6 = l6.f0.f0.f0.f6;
            l0.f0.f1 = l6.f0.f1;
            l0.f0.f2 = l6.f0.f2;
            l0.f0.f3 = l6.f0.f3;
            l0.f1 = l6.f1;
            l0.f2 = l6.f2;
            l0.f3.f0 = l6.f3.f0;
            l0.f3.f1 = l6.f3.f1;
            return l0;
        }
        l14 = (uint8_t *)&(*(uint16_t *)l4.p);
        l15.p = l14;
        l15.n = l4.n;
        l16 = (uint8_t *)&(*(uint8_t *)l5.p);
        l17.p = l16;
        l17.n = l5.n;
        l6 = trace_images__telling__moved(l6, l2, l3, l15, l17);
    }
end1:;
    l0.f0.f0.f0.f0 = l6.f0.f0.f0.f0;
    l0.f0.f0.f0.f1 = l6.f0.f0.f0.f1;
    l0.f0.f0.f0.f2 = l6.f0.f0.f0.f2;
    l0.f0.f0.f0.f3 = l6.f0.f0.f0.f3;
    l0.f0.f0.f0.f4 = l6.f0.f0.f0.f4;
    l0.f0.f0.f0.f5 = l6.f0.f0.f0.f5;
    l0.f0.f0.f0.f6 = l6.f0.f0.f0.f6;
    l0.f0.f1 = l6.f0.f1;
    l0.f0.f2 = l6.f0.f2;
    l0.f0.f3 = l6.f0.f3;
    l0.f1 = l6.f1;
    l0.f2 = l6.f2;
    l0.f3.f0 = l6.f3.f0;
    l0.f3.f1 = l6.f3.f1;
    return l0;
}

static RT_HERE struct trace_images__telling__Telling trace_images__telling__told_at(struct trace_images__telling__Telling l1, rt_slice l2)
{
    struct trace_images__telling__Telling l0;
    struct trace_lines__Coming l3;
    uint64_t l4;
    uint8_t l6;
    struct layout__Numbers l7;
    uint8_t l8;
    uint8_t l10;
    uint8_t *l11;
    uint8_t l12;
    l3.f0.f0.f0 = l1.f0.f0.f0.f0;
    l3.f0.f0.f1 = l1.f0.f0.f0.f1;
    l3.f0.f0.f2 = l1.f0.f0.f0.f2;
    l3.f0.f0.f3 = l1.f0.f0.f0.f3;
    l3.f0.f0.f4 = l1.f0.f0.f0.f4;
    l3.f0.f0.f5 = l1.f0.f0.f0.f5;
    l3.f0.f0.f6 = l1.f0.f0.f0.f6;
    l3.f1 = l1.f0.f1;
    l3.f2 = l1.f0.f2;
    l3.f3 = l1.f0.f3;
    l7.f0 = l3.f0.f0.f0;
    l7.f1 = l3.f0.f0.f1;
    l7.f2 = l3.f0.f0.f2;
    l7.f3 = l3.f0.f0.f3;
    l7.f4 = l3.f0.f0.f4;
    l7.f5 = l3.f0.f0.f5;
    l7.f6 = l3.f0.f0.f6;
    l6 = layout__due(l7);
    l8 = (uint8_t)!l6;
    if (l8) {
        {
            struct trace_images__telling__Telling r = trace_images__telling__resting(l1, UINT8_C(0));
            l0.f0.f0.f0.f0 = r.f0.f0.f0.f0;
            l0.f0.f0.f0.f1 = r.f0.f0.f0.f1;
            l0.f0.f0.f0.f2 = r.f0.f0.f0.f2;
            l0.f0.f0.f0.f3 = r.f0.f0.f0.f3;
            l0.f0.f0.f0.f4 = r.f0.f0.f0.f4;
            l0.f0.f0.f0.f5 = r.f0.f0.f0.f5;
            l0.f0.f0.f0.f6 = r.f0.f0.f0.f6;
            l0.f0.f1 = r.f0.f1;
            l0.f0.f2 = r.f0.f2;
            l0.f0.f3 = r.f0.f3;
            l0.f1 = r.f1;
            l0.f2 = r.f2;
            l0.f3.f0 = r.f3.f0;
            l0.f3.f1 = r.f3.f1;
        }
        return l0;
    }
    l4 = l3.f2;
    l6 = (uint8_t)(l2.n <= l4);
    if (l6) {
        l10 = UINT8_C(33);
        {
            struct trace_images__telling__Telling r = trace_images__telling__resting(l1, l10);
            l0.f0.f0.f0.f0 = r.f0.f0.f0.f0;
            l0.f0.f0.f0.f1 = r.f0.f0.f0.f1;
            l0.f0.f0.f0.f2 = r.f0.f0.f0.f2;
            l0.f0.f0.f0.f3 = r.f0.f0.f0.f3;
            l0.f0.f0.f0.f4 = r.f0.f0.f0.f4;
            l0.f0.f0.f0.f5 = r.f0.f0.f0.f5;
            l0.f0.f0.f0.f6 = r.f0.f0.f0.f6;
            l0.f0.f1 = r.f0.f1;
            l0.f0.f2 = r.f0.f2;
            l0.f0.f3 = r.f0.f3;
            l0.f1 = r.f1;
            l0.f2 = r.f2;
            l0.f3.f0 = r.f3.f0;
            l0.f3.f1 = r.f3.f1;
        }
        return l0;
    }
    l11 = l2.p + (size_t)l4;
    l12 = (*(uint8_t *)l11);
    l3.f3 = l12;
    l0.f0.f0.f0.f0 = l3.f0.f0.f0;
    l0.f0.f0.f0.f1 = l3.f0.f0.f1;
    l0.f0.f0.f0.f2 = l3.f0.f0.f2;
    l0.f0.f0.f0.f3 = l3.f0.f0.f3;
    l0.f0.f0.f0.f4 = l3.f0.f0.f4;
    l0.f0.f0.f0.f5 = l3.f0.f0.f5;
    l0.f0.f0.f0.f6 = l3.f0.f0.f6;
    l0.f0.f1 = l3.f1;
    l0.f0.f2 = l3.f2;
    l0.f0.f3 = l3.f3;
    l0.f1 = UINT8_C(0);
    l0.f2 = 1;
    l0.f3.f0 = l1.f3.f0;
    l0.f3.f1 = l1.f3.f1;
    return l0;
}

static RT_HERE struct trace_images__telling__Telling trace_images__telling__turn(struct trace_images__telling__Telling l1, rt_slice l2, rt_slice l3, rt_slice l4, rt_slice l5, rt_slice l6, rt_slice l7)
{
    struct trace_images__telling__Telling l0;
    struct rt_array_uint8_1024 l9;
    struct trace_lines__Told l10;
    struct trace_images__pages__Page l13;
    uint8_t *l14;
    rt_slice l15;
    uint8_t *l16;
    rt_slice l17;
    uint8_t *l18;
    rt_slice l19;
    uint8_t l20;
    uint8_t *l23;
    rt_slice l24;
    uint8_t *l25;
    rt_slice l26;
    uint64_t l27;
    memset(&l9, 0, sizeof l9);
    l14 = (uint8_t *)&(*(uint16_t *)l5.p);
    l15.p = l14;
    l15.n = l5.n;
    l16 = (uint8_t *)&(*(uint64_t *)l6.p);
    l17.p = l16;
    l17.n = l6.n;
    l18 = (uint8_t *)&l9;
    l19.p = l18;
    l19.n = UINT64_C(1024);
    l10 = trace_lines__turn(l1.f0, l2, l3, l4, l15, l17, l19);
    l20 = (uint8_t)(l10.f0.f0.f4 != UINT8_C(0));
    if (l20) {
        {
            struct trace_images__telling__Telling r = trace_images__telling__behind(l10.f0, l1.f0.f1, l1.f0.f2, l1.f3);
            l0.f0.f0.f0.f0 = r.f0.f0.f0.f0;
            l0.f0.f0.f0.f1 = r.f0.f0.f0.f1;
            l0.f0.f0.f0.f2 = r.f0.f0.f0.f2;
            l0.f0.f0.f0.f3 = r.f0.f0.f0.f3;
            l0.f0.f0.f0.f4 = r.f0.f0.f0.f4;
            l0.f0.f0.f0.f5 = r.f0.f0.f0.f5;
            l0.f0.f0.f0.f6 = r.f0.f0.f0.f6;
            l0.f0.f1 = r.f0.f1;
            l0.f0.f2 = r.f0.f2;
            l0.f0.f3 = r.f0.f3;
            l0.f1 = r.f1;
            l0.f2 = r.f2;
            l0.f3.f0 = r.f3.f0;
            l0.f3.f1 = r.f3.f1;
        }
        return l0;
    }
    l23 = (uint8_t *)&l9;
    l24.p = l23;
    l24.n = l10.f2;
    l25 = (uint8_t *)&(*(uint8_t *)l7.p);
    l26.p = l25;
    l26.n = l7.n;
    l13 = trace_images__pages__put(l1.f3, l24, l26);
    l27 = (uint64_t)((uint64_t)l1.f0.f2 + (uint64_t)UINT64_C(1));
    {
        struct trace_images__telling__Telling r = trace_images__telling__behind(l10.f0, l1.f0.f1, l27, l13);
        l0.f0.f0.f0.f0 = r.f0.f0.f0.f0;
        l0.f0.f0.f0.f1 = r.f0.f0.f0.f1;
        l0.f0.f0.f0.f2 = r.f0.f0.f0.f2;
        l0.f0.f0.f0.f3 = r.f0.f0.f0.f3;
        l0.f0.f0.f0.f4 = r.f0.f0.f0.f4;
        l0.f0.f0.f0.f5 = r.f0.f0.f0.f5;
        l0.f0.f0.f0.f6 = r.f0.f0.f0.f6;
        l0.f0.f1 = r.f0.f1;
        l0.f0.f2 = r.f0.f2;
        l0.f0.f3 = r.f0.f3;
        l0.f1 = r.f1;
        l0.f2 = r.f2;
        l0.f3.f0 = r.f3.f0;
        l0.f3.f1 = r.f3.f1;
    }
    return l0;
}

static RT_APART struct trace_images__Traced trace_images__trace(rt_slice l1, rt_slice l2, rt_slice l3, uint64_t l4, rt_slice l5)
{
    struct trace_images__Traced l0;
    struct rt_array_uint8_5730 l6;
    struct rt_array_uint16_512 l7;
    struct seating__Opened l8;
    uint64_t l11;
    struct core__result__Result__Opened_Refusal l12;
    uint8_t *l13;
    rt_slice l14;
    uint8_t *l15;
    rt_slice l16;
    uint8_t l18;
    uint8_t *l19;
    rt_slice l20;
    uint8_t *l21;
    uint8_t *l22;
    rt_slice l23;
    uint8_t *l24;
    rt_slice l25;
    uint8_t *l26;
    rt_slice l27;
    memset(&l6, 0, sizeof l6);
    memset(&l7, 0, sizeof l7);
    l13 = (uint8_t *)&l6;
    l14.p = l13;
    l14.n = UINT64_C(5730);
    l15 = (uint8_t *)&l7;
    l16.p = l15;
    l16.n = UINT64_C(512);
    l12 = seating__open_program(l1, l14, l16);
    switch (l12.tag) {
        case UINT8_C(0): {
            break;
        }
        case UINT8_C(1): default: {
            l18 = types__refusal__U8FromRefusal__from(l12.s1);
            l19 = (uint8_t *)&(*(uint8_t *)l5.p);
            l20.p = l19;
            l20.n = l5.n;
            {
                struct trace_images__Traced r = trace_images__pages__refused(l18, l4, l20);
                l0.f0 = r.f0;
                l0.f1 = r.f1;
                l0.f2 = r.f2;
                l0.f3 = r.f3;
            }
            return l0;
            break;
        }
    }
    l8.f0.f0 = l12.s0.f0.f0;
    l8.f0.f1 = l12.s0.f0.f1;
    l8.f0.f2 = l12.s0.f0.f2;
    l8.f0.f3 = l12.s0.f0.f3;
    l8.f0.f4 = l12.s0.f0.f4;
    l8.f0.f5 = l12.s0.f0.f5;
    l8.f0.f6 = l12.s0.f0.f6;
    l8.f1 = l12.s0.f1;
    l8.f2 = l12.s0.f2;
    l11 = l8.f0.f0;
    l21 = (uint8_t *)&l8;
    l22 = (uint8_t *)&l6;
    l23.p = l22;
    l23.n = l11;
    l24 = (uint8_t *)&l7;
    l25.p = l24;
    l25.n = UINT64_C(512);
    l26 = (uint8_t *)&(*(uint8_t *)l5.p);
    l27.p = l26;
    l27.n = l5.n;
    {
        struct trace_images__Traced r = trace_images__begun(l21, l23, l25, l2, l3, l4, l27);
        l0.f0 = r.f0;
        l0.f1 = r.f1;
        l0.f2 = r.f2;
        l0.f3 = r.f3;
    }
    return l0;
}

static RT_HERE struct trace_lines__Told trace_lines__advance(struct engine__Machine l1, uint64_t l2, rt_slice l3, rt_slice l4, rt_slice l5, rt_slice l6)
{
    struct trace_lines__Told l0;
    uint64_t l9;
    struct engine__Machine l10;
    uint64_t l12;
    uint64_t l13;
    uint8_t *l14;
    uint64_t l15;
    uint8_t *l16;
    rt_slice l17;
    uint8_t *l18;
    rt_slice l19;
    l13 = (uint64_t)((uint64_t)l1.f0.f1 * (uint64_t)UINT64_C(8));
    l14 = l3.p + (size_t)l13;
    l15 = (*(uint64_t *)l14);
    l9 = trace_lines__step_at(l15, l2);
    l16 = (uint8_t *)&(*(uint16_t *)l5.p);
    l17.p = l16;
    l17.n = l5.n;
    l10 = engine__Machine__advance(l1, l3, l4, l17);
    l18 = (uint8_t *)&(*(uint8_t *)l6.p);
    l19.p = l18;
    l19.n = l6.n;
    l12 = trace_lines__moved(l19, l10.f0);
    l0.f0.f0.f0 = l10.f0.f0;
    l0.f0.f0.f1 = l10.f0.f1;
    l0.f0.f0.f2 = l10.f0.f2;
    l0.f0.f0.f3 = l10.f0.f3;
    l0.f0.f0.f4 = l10.f0.f4;
    l0.f0.f0.f5 = l10.f0.f5;
    l0.f0.f0.f6 = l10.f0.f6;
    l0.f1 = l9;
    l0.f2 = l12;
    return l0;
}

static const struct rt_array_uint8_2 trace_lines__back__l28 = { { UINT8_C(32), UINT8_C(93) } };
static const struct rt_array_uint8_1 trace_lines__back__l29 = { { UINT8_C(10) } };
static inline uint64_t trace_lines__back(rt_slice l1, uint64_t l2, uint64_t l3, struct core__option__Option__Write l4, struct layout__Numbers l5, rt_slice l6, rt_slice l7)
{
    uint64_t l0;
    uint64_t l8;
    uint64_t l9;
    uint64_t l10;
    uint64_t l11;
    uint8_t *l12;
    rt_slice l13;
    uint8_t *l14;
    rt_slice l15;
    uint8_t *l16;
    uint8_t *l17;
    rt_slice l18;
    uint8_t *l19;
    rt_slice l20;
    uint8_t *l21;
    rt_slice l22;
    uint8_t *l23;
    rt_slice l24;
    uint8_t *l25;
    uint8_t *l26;
    rt_slice l27;
    l12 = (uint8_t *)&(*(uint8_t *)l1.p);
    l13.p = l12;
    l13.n = l1.n;
    l8 = trace_lines__parts__stack(l13, l2, l6, l7, l3);
    l14 = (uint8_t *)&(*(uint8_t *)l1.p);
    l15.p = l14;
    l15.n = l1.n;
    l16 = (uint8_t *)&trace_lines__back__l28;
    l17 = (uint8_t *)&(*(uint8_t *)l16);
    l18.p = l17;
    l18.n = UINT64_C(2);
    l9 = text__put(l15, l8, l18);
    l19 = (uint8_t *)&(*(uint8_t *)l1.p);
    l20.p = l19;
    l20.n = l1.n;
    l10 = trace_lines__writes__written(l20, l9, l4, l7);
    l21 = (uint8_t *)&(*(uint8_t *)l1.p);
    l22.p = l21;
    l22.n = l1.n;
    l11 = trace_lines__parts__entries(l22, l10, l5.f2, l5.f3);
    l23 = (uint8_t *)&(*(uint8_t *)l1.p);
    l24.p = l23;
    l24.n = l1.n;
    l25 = (uint8_t *)&trace_lines__back__l29;
    l26 = (uint8_t *)&(*(uint8_t *)l25);
    l27.p = l26;
    l27.n = UINT64_C(1);
    l0 = text__put(l24, l11, l27);
    return l0;
}

static RT_SHORT uint64_t trace_lines__choice__picked_of(rt_slice l1, uint64_t l2, uint64_t l3, uint64_t l4, uint8_t l5)
{
    uint64_t l0;
    struct rt_array_holders__Record_256 l6;
    uint64_t l7;
    uint64_t l8;
    l6 = holders__records(l1, l2);
    l7 = (uint64_t)l5;
    l8 = (uint64_t)((uint64_t)l7 % (uint64_t)l4);
    l0 = holders__holder_of(l6, l2, l3, l8);
    return l0;
}

static RT_SHORT uint64_t trace_lines__columns(rt_slice l1, uint64_t l2, uint64_t l3, uint64_t l4, uint64_t l5)
{
    uint64_t l0;
    uint64_t l6;
    uint64_t l7;
    uint8_t *l8;
    rt_slice l9;
    uint8_t *l10;
    rt_slice l11;
    uint8_t *l12;
    rt_slice l13;
    l8 = (uint8_t *)&(*(uint8_t *)l1.p);
    l9.p = l8;
    l9.n = l1.n;
    l6 = text__lines__column(l9, l2, l3);
    l10 = (uint8_t *)&(*(uint8_t *)l1.p);
    l11.p = l10;
    l11.n = l1.n;
    l7 = text__lines__column(l11, l6, l4);
    l12 = (uint8_t *)&(*(uint8_t *)l1.p);
    l13.p = l12;
    l13.n = l1.n;
    l0 = text__lines__column(l13, l7, l5);
    return l0;
}

static const struct rt_array_uint8_2 trace_lines__front__l20 = { { UINT8_C(32), UINT8_C(91) } };
static inline uint64_t trace_lines__front(rt_slice l1, struct trace_lines__Acting l2)
{
    uint64_t l0;
    uint64_t l3;
    uint64_t l4;
    uint64_t l5;
    uint8_t *l6;
    rt_slice l7;
    uint64_t l8;
    uint64_t l9;
    uint64_t l10;
    uint8_t *l11;
    rt_slice l12;
    uint8_t *l13;
    rt_slice l14;
    uint8_t *l15;
    rt_slice l16;
    uint8_t *l17;
    uint8_t *l18;
    rt_slice l19;
    l6 = (uint8_t *)&(*(uint8_t *)l1.p);
    l7.p = l6;
    l7.n = l1.n;
    l8 = l2.f0;
    l9 = (uint64_t)l2.f1;
    l10 = l2.f2;
    l3 = trace_lines__columns(l7, UINT64_C(0), l8, l9, l10);
    l11 = (uint8_t *)&(*(uint8_t *)l1.p);
    l12.p = l11;
    l12.n = l1.n;
    l8 = l2.f3;
    l10 = l2.f4;
    l9 = l2.f5;
    l4 = trace_lines__columns(l12, l3, l8, l10, l9);
    l13 = (uint8_t *)&(*(uint8_t *)l1.p);
    l14.p = l13;
    l14.n = l1.n;
    l5 = text__command(l14, l4, l2.f6);
    l15 = (uint8_t *)&(*(uint8_t *)l1.p);
    l16.p = l15;
    l16.n = l1.n;
    l17 = (uint8_t *)&trace_lines__front__l20;
    l18 = (uint8_t *)&(*(uint8_t *)l17);
    l19.p = l18;
    l19.n = UINT64_C(2);
    l0 = text__put(l16, l5, l19);
    return l0;
}

static const struct rt_array_uint8_4 trace_lines__moved__l17 = { { UINT8_C(109), UINT8_C(111), UINT8_C(118), UINT8_C(101) } };
static const struct rt_array_uint8_1 trace_lines__moved__l18 = { { UINT8_C(10) } };
static inline uint64_t trace_lines__moved(rt_slice l1, struct layout__Numbers l2)
{
    uint64_t l0;
    uint64_t l3;
    uint64_t l4;
    uint8_t *l5;
    rt_slice l6;
    uint8_t *l7;
    uint8_t *l8;
    rt_slice l9;
    uint8_t *l10;
    rt_slice l11;
    uint8_t *l12;
    rt_slice l13;
    uint8_t *l14;
    uint8_t *l15;
    rt_slice l16;
    l5 = (uint8_t *)&(*(uint8_t *)l1.p);
    l6.p = l5;
    l6.n = l1.n;
    l7 = (uint8_t *)&trace_lines__moved__l17;
    l8 = (uint8_t *)&(*(uint8_t *)l7);
    l9.p = l8;
    l9.n = UINT64_C(4);
    l3 = text__put(l6, UINT64_C(0), l9);
    l10 = (uint8_t *)&(*(uint8_t *)l1.p);
    l11.p = l10;
    l11.n = l1.n;
    l4 = trace_lines__parts__entries(l11, l3, l2.f2, l2.f3);
    l12 = (uint8_t *)&(*(uint8_t *)l1.p);
    l13.p = l12;
    l13.n = l1.n;
    l14 = (uint8_t *)&trace_lines__moved__l18;
    l15 = (uint8_t *)&(*(uint8_t *)l14);
    l16.p = l15;
    l16.n = UINT64_C(1);
    l0 = text__put(l13, l4, l16);
    return l0;
}

static const struct rt_array_uint8_1 trace_lines__parts__cell__l23 = { { UINT8_C(32) } };
static const struct rt_array_uint8_1 trace_lines__parts__cell__l24 = { { UINT8_C(58) } };
static inline uint64_t trace_lines__parts__cell(rt_slice l1, uint64_t l2, rt_slice l3, uint64_t l4)
{
    uint64_t l0;
    uint64_t l5;
    uint64_t l6;
    uint64_t l7;
    uint8_t *l8;
    rt_slice l9;
    uint8_t *l10;
    uint8_t *l11;
    rt_slice l12;
    uint8_t *l13;
    rt_slice l14;
    uint64_t l15;
    uint8_t *l16;
    rt_slice l17;
    uint8_t *l18;
    uint8_t *l19;
    rt_slice l20;
    uint8_t *l21;
    rt_slice l22;
    l8 = (uint8_t *)&(*(uint8_t *)l1.p);
    l9.p = l8;
    l9.n = l1.n;
    l10 = (uint8_t *)&trace_lines__parts__cell__l23;
    l11 = (uint8_t *)&(*(uint8_t *)l10);
    l12.p = l11;
    l12.n = UINT64_C(1);
    l5 = text__put(l9, l2, l12);
    l13 = (uint8_t *)&(*(uint8_t *)l1.p);
    l14.p = l13;
    l14.n = l1.n;
    l15 = trace_lines__parts__tag(l3, l4);
    l6 = text__decimal(l14, l5, l15);
    l16 = (uint8_t *)&(*(uint8_t *)l1.p);
    l17.p = l16;
    l17.n = l1.n;
    l18 = (uint8_t *)&trace_lines__parts__cell__l24;
    l19 = (uint8_t *)&(*(uint8_t *)l18);
    l20.p = l19;
    l20.n = UINT64_C(1);
    l7 = text__put(l17, l6, l20);
    l21 = (uint8_t *)&(*(uint8_t *)l1.p);
    l22.p = l21;
    l22.n = l1.n;
    l0 = trace_lines__parts__worth(l22, l7, l4);
    return l0;
}

static const struct rt_array_uint8_2 trace_lines__parts__entries__l19 = { { UINT8_C(32), UINT8_C(115) } };
static inline uint64_t trace_lines__parts__entries(rt_slice l1, uint64_t l2, uint64_t l3, uint64_t l4)
{
    uint64_t l0;
    uint64_t l5;
    uint64_t l6;
    uint64_t l7;
    uint8_t *l8;
    rt_slice l9;
    uint8_t *l10;
    uint8_t *l11;
    rt_slice l12;
    uint8_t l13;
    uint8_t *l14;
    rt_slice l15;
    uint64_t l16;
    uint8_t l17;
    uint8_t l18;
    l8 = (uint8_t *)&(*(uint8_t *)l1.p);
    l9.p = l8;
    l9.n = l1.n;
    l10 = (uint8_t *)&trace_lines__parts__entries__l19;
    l11 = (uint8_t *)&(*(uint8_t *)l10);
    l12.p = l11;
    l12.n = UINT64_C(2);
    l5 = text__put(l9, l2, l12);
    l6 = l4;
    l7 = UINT64_C(0);
    for (;;) {
        l13 = (uint8_t)(l7 < l3);
        if (l13) {
        } else {
            goto end1;
        }
        l14 = (uint8_t *)&(*(uint8_t *)l1.p);
        l15.p = l14;
        l15.n = l1.n;
        l16 = (uint64_t)((uint64_t)l6 % (uint64_t)UINT64_C(2));
        l17 = (uint8_t)l16;
        l18 = (uint8_t)((uint32_t)UINT8_C(48) + (uint32_t)l17);
        l5 = text__byte(l15, l5, l18);
        l6 = (uint64_t)((uint64_t)l6 / (uint64_t)UINT64_C(2));
        l7 = (uint64_t)((uint64_t)l7 + (uint64_t)UINT64_C(1));
    }
end1:;
    l0 = l5;
    return l0;
}

static inline uint64_t trace_lines__parts__stack(rt_slice l1, uint64_t l2, rt_slice l3, rt_slice l4, uint64_t l5)
{
    uint64_t l0;
    uint64_t l6;
    uint64_t l7;
    uint64_t l8;
    uint64_t l9;
    uint64_t l10;
    uint64_t l11;
    uint64_t l12;
    uint8_t *l13;
    uint16_t l14;
    uint8_t l15;
    uint8_t *l16;
    rt_slice l17;
    uint64_t l18;
    uint64_t l19;
    uint8_t *l20;
    uint64_t l21;
    l10 = (uint64_t)((uint64_t)UINT64_C(6) * (uint64_t)l5);
    l11 = (uint64_t)((uint64_t)l10 + (uint64_t)UINT64_C(1));
    l12 = (uint64_t)((uint64_t)l11 * (uint64_t)UINT64_C(2));
    l13 = l3.p + (size_t)l12;
    l14 = (*(uint16_t *)l13);
    l6 = (uint64_t)l14;
    l10 = (uint64_t)((uint64_t)UINT64_C(32) * (uint64_t)l5);
    l7 = (uint64_t)((uint64_t)l10 + (uint64_t)UINT64_C(16));
    l8 = l2;
    l9 = UINT64_C(0);
    for (;;) {
        l15 = (uint8_t)(l9 < l6);
        if (l15) {
        } else {
            goto end1;
        }
        l16 = (uint8_t *)&(*(uint8_t *)l1.p);
        l17.p = l16;
        l17.n = l1.n;
        l18 = (uint64_t)((uint64_t)l7 + (uint64_t)l9);
        l19 = (uint64_t)((uint64_t)l18 * (uint64_t)UINT64_C(8));
        l20 = l4.p + (size_t)l19;
        l21 = (*(uint64_t *)l20);
        l8 = trace_lines__parts__cell(l17, l8, l3, l21);
        l9 = (uint64_t)((uint64_t)l9 + (uint64_t)UINT64_C(1));
    }
end1:;
    l0 = l8;
    return l0;
}

static inline uint64_t trace_lines__parts__tag(rt_slice l1, uint64_t l2)
{
    uint64_t l0;
    uint64_t l3;
    uint64_t l4;
    uint64_t l5;
    uint8_t l6;
    uint8_t l7;
    uint64_t l8;
    uint64_t l9;
    uint64_t l10;
    uint64_t l11;
    uint8_t *l12;
    uint16_t l13;
    l6 = layout__type_byte(l2);
    l3 = (uint64_t)l6;
    l7 = (uint8_t)(l3 < UINT64_C(16));
    if (l7) {
        l0 = l3;
        return l0;
    }
    l8 = layout__operand(l2);
    l4 = l8;
    l9 = (uint64_t)((uint64_t)UINT64_C(6) * (uint64_t)l4);
    l10 = (uint64_t)((uint64_t)l9 + (uint64_t)UINT64_C(0));
    l11 = (uint64_t)((uint64_t)l10 * (uint64_t)UINT64_C(2));
    l12 = l1.p + (size_t)l11;
    l13 = (*(uint16_t *)l12);
    l5 = (uint64_t)l13;
    l8 = l5;
    l0 = (uint64_t)((uint64_t)UINT64_C(16) + (uint64_t)l8);
    return l0;
}

static RT_SHORT uint64_t trace_lines__parts__worth(rt_slice l1, uint64_t l2, uint64_t l3)
{
    uint64_t l0;
    uint8_t *l4;
    rt_slice l5;
    uint8_t l6;
    uint64_t l7;
    uint64_t l8;
    l4 = (uint8_t *)&(*(uint8_t *)l1.p);
    l5.p = l4;
    l5.n = l1.n;
    l6 = layout__type_byte(l3);
    l7 = (uint64_t)l6;
    l8 = layout__operand(l3);
    l0 = text__value(l5, l2, l7, l8);
    return l0;
}

static inline uint64_t trace_lines__position(rt_slice l1, rt_slice l2, uint64_t l3, uint64_t l4)
{
    uint64_t l0;
    uint64_t l5;
    uint64_t l6;
    uint64_t l7;
    uint16_t l8;
    uint16_t l9;
    uint64_t l10;
    uint64_t l11;
    uint8_t *l12;
    uint16_t l13;
    uint8_t *l14;
    uint64_t l15;
    uint8_t *l16;
    uint16_t l17;
    uint8_t *l18;
    uint64_t l19;
    uint8_t *l20;
    l5 = (uint64_t)((uint64_t)UINT64_C(6) * (uint64_t)l3);
    l10 = (uint64_t)((uint64_t)l5 + (uint64_t)UINT64_C(0));
    l11 = (uint64_t)((uint64_t)l10 * (uint64_t)UINT64_C(2));
    l12 = l2.p + (size_t)l11;
    l13 = (*(uint16_t *)l12);
    l6 = (uint64_t)l13;
    l10 = (uint64_t)((uint64_t)UINT64_C(32) * (uint64_t)l6);
    l11 = (uint64_t)((uint64_t)l10 + (uint64_t)l4);
    l7 = (uint64_t)((uint64_t)UINT64_C(2) * (uint64_t)l11);
    l10 = (uint64_t)((uint64_t)l7 + (uint64_t)UINT64_C(1));
    l11 = (uint64_t)((uint64_t)l10 * (uint64_t)UINT64_C(2));
    l14 = l1.p + (size_t)l11;
    l13 = (*(uint16_t *)l14);
    l15 = (uint64_t)((uint64_t)l7 * (uint64_t)UINT64_C(2));
    l16 = l1.p + (size_t)l15;
    l17 = (*(uint16_t *)l16);
    l8 = core__int__u16__saturating_sub(l13, l17);
    l10 = (uint64_t)((uint64_t)l5 + (uint64_t)UINT64_C(3));
    l11 = (uint64_t)((uint64_t)l10 * (uint64_t)UINT64_C(2));
    l18 = l2.p + (size_t)l11;
    l17 = (*(uint16_t *)l18);
    l15 = (uint64_t)((uint64_t)l5 + (uint64_t)UINT64_C(2));
    l19 = (uint64_t)((uint64_t)l15 * (uint64_t)UINT64_C(2));
    l20 = l2.p + (size_t)l19;
    l13 = (*(uint16_t *)l20);
    l9 = core__int__u16__saturating_sub(l17, l13);
    l17 = core__int__u16__saturating_sub(l8, l9);
    l0 = core__convert__UsizeFromU16__from(l17);
    return l0;
}

static RT_SHORT uint64_t trace_lines__step_at(uint64_t l1, uint64_t l2)
{
    uint64_t l0;
    uint8_t l3;
    uint64_t l4;
    l3 = (uint8_t)(l1 < UINT64_C(1024));
    if (l3) {
        l4 = (uint64_t)((uint64_t)l1 % (uint64_t)UINT64_C(32));
    } else {
        l4 = l2;
    }
    l0 = l4;
    return l0;
}

static RT_HERE struct trace_lines__Told trace_lines__turn(struct trace_lines__Coming l1, rt_slice l2, rt_slice l3, rt_slice l4, rt_slice l5, rt_slice l6, rt_slice l7)
{
    struct trace_lines__Told l0;
    uint64_t l11;
    struct core__option__Option__Write l12;
    uint64_t l13;
    uint64_t l14;
    struct trace_lines__Acting l15;
    uint64_t l16;
    struct engine__Machine l17;
    uint64_t l19;
    uint8_t *l20;
    rt_slice l21;
    uint8_t *l22;
    rt_slice l23;
    uint8_t *l24;
    rt_slice l25;
    uint64_t l26;
    uint64_t l27;
    uint8_t *l28;
    uint16_t l29;
    uint8_t *l30;
    uint64_t l31;
    uint64_t l32;
    uint8_t *l33;
    rt_slice l34;
    uint64_t l35;
    uint8_t *l36;
    uint64_t l37;
    uint8_t *l38;
    rt_slice l39;
    uint8_t *l40;
    rt_slice l41;
    uint8_t *l42;
    rt_slice l43;
    uint8_t l44;
    uint8_t *l45;
    rt_slice l46;
    uint8_t *l47;
    rt_slice l48;
    uint8_t *l49;
    rt_slice l50;
    l20 = (uint8_t *)&(*(uint16_t *)l5.p);
    l21.p = l20;
    l21.n = l5.n;
    l11 = trace_lines__choice__picked_of(l21, l1.f0.f0.f0, l1.f0.f0.f6, l1.f0.f0.f5, l1.f3);
    l22 = (uint8_t *)&(*(uint16_t *)l5.p);
    l23.p = l22;
    l23.n = l5.n;
    l24 = (uint8_t *)&(*(uint64_t *)l6.p);
    l25.p = l24;
    l25.n = l6.n;
    l12 = trace_lines__writes__target(l2, l3, l23, l25, l11);
    l13 = (uint64_t)((uint64_t)UINT64_C(6) * (uint64_t)l11);
    l26 = (uint64_t)((uint64_t)l13 + (uint64_t)UINT64_C(2));
    l27 = (uint64_t)((uint64_t)l26 * (uint64_t)UINT64_C(2));
    l28 = l5.p + (size_t)l27;
    l29 = (*(uint16_t *)l28);
    l14 = (uint64_t)l29;
    l26 = (uint64_t)((uint64_t)l13 + (uint64_t)UINT64_C(0));
    l27 = (uint64_t)((uint64_t)l26 * (uint64_t)UINT64_C(2));
    l30 = l5.p + (size_t)l27;
    l29 = (*(uint16_t *)l30);
    l31 = (uint64_t)l29;
    l33 = (uint8_t *)&(*(uint16_t *)l5.p);
    l34.p = l33;
    l34.n = l5.n;
    l32 = trace_lines__position(l4, l34, l11, l1.f1);
    l35 = (uint64_t)((uint64_t)l14 * (uint64_t)UINT64_C(8));
    l36 = l2.p + (size_t)l35;
    l37 = (*(uint64_t *)l36);
    l15.f0 = l1.f2;
    l15.f1 = l1.f3;
    l15.f2 = l11;
    l15.f3 = l31;
    l15.f4 = l1.f1;
    l15.f5 = l32;
    l15.f6 = l37;
    l38 = (uint8_t *)&(*(uint8_t *)l7.p);
    l39.p = l38;
    l39.n = l7.n;
    l16 = trace_lines__front(l39, l15);
    l40 = (uint8_t *)&(*(uint16_t *)l5.p);
    l41.p = l40;
    l41.n = l5.n;
    l42 = (uint8_t *)&(*(uint64_t *)l6.p);
    l43.p = l42;
    l43.n = l6.n;
    l17 = engine__Machine__command(l1.f0, l2, l3, l41, l43, l11);
    l44 = (uint8_t)(l17.f0.f4 != UINT8_C(0));
    if (l44) {
        l0.f0.f0.f0 = l17.f0.f0;
        l0.f0.f0.f1 = l17.f0.f1;
        l0.f0.f0.f2 = l17.f0.f2;
        l0.f0.f0.f3 = l17.f0.f3;
        l0.f0.f0.f4 = l17.f0.f4;
        l0.f0.f0.f5 = l17.f0.f5;
        l0.f0.f0.f6 = l17.f0.f6;
        l0.f1 = l1.f1;
        l0.f2 = UINT64_C(0);
        return l0;
    }
    l45 = (uint8_t *)&(*(uint8_t *)l7.p);
    l46.p = l45;
    l46.n = l7.n;
    l47 = (uint8_t *)&(*(uint16_t *)l5.p);
    l48.p = l47;
    l48.n = l5.n;
    l49 = (uint8_t *)&(*(uint64_t *)l6.p);
    l50.p = l49;
    l50.n = l6.n;
    l19 = trace_lines__back(l46, l16, l11, l12, l17.f0, l48, l50);
    l0.f0.f0.f0 = l17.f0.f0;
    l0.f0.f0.f1 = l17.f0.f1;
    l0.f0.f0.f2 = l17.f0.f2;
    l0.f0.f0.f3 = l17.f0.f3;
    l0.f0.f0.f4 = l17.f0.f4;
    l0.f0.f0.f5 = l17.f0.f5;
    l0.f0.f0.f6 = l17.f0.f6;
    l0.f1 = l1.f1;
    l0.f2 = l19;
    return l0;
}

static const struct rt_array_uint8_1 trace_lines__writes__place__l23 = { { UINT8_C(32) } };
static const struct rt_array_uint8_1 trace_lines__writes__place__l24 = { { UINT8_C(46) } };
static inline uint64_t trace_lines__writes__place(rt_slice l1, uint64_t l2, uint64_t l3, uint64_t l4)
{
    uint64_t l0;
    uint64_t l5;
    uint64_t l6;
    uint64_t l7;
    uint8_t *l8;
    rt_slice l9;
    uint8_t *l10;
    uint8_t *l11;
    rt_slice l12;
    uint8_t *l13;
    rt_slice l14;
    uint64_t l15;
    uint8_t *l16;
    rt_slice l17;
    uint8_t *l18;
    uint8_t *l19;
    rt_slice l20;
    uint8_t *l21;
    rt_slice l22;
    l8 = (uint8_t *)&(*(uint8_t *)l1.p);
    l9.p = l8;
    l9.n = l1.n;
    l10 = (uint8_t *)&trace_lines__writes__place__l23;
    l11 = (uint8_t *)&(*(uint8_t *)l10);
    l12.p = l11;
    l12.n = UINT64_C(1);
    l5 = text__put(l9, l2, l12);
    l13 = (uint8_t *)&(*(uint8_t *)l1.p);
    l14.p = l13;
    l14.n = l1.n;
    l15 = l3;
    l6 = text__decimal(l14, l5, l15);
    l16 = (uint8_t *)&(*(uint8_t *)l1.p);
    l17.p = l16;
    l17.n = l1.n;
    l18 = (uint8_t *)&trace_lines__writes__place__l24;
    l19 = (uint8_t *)&(*(uint8_t *)l18);
    l20.p = l19;
    l20.n = UINT64_C(1);
    l7 = text__put(l17, l6, l20);
    l21 = (uint8_t *)&(*(uint8_t *)l1.p);
    l22.p = l21;
    l22.n = l1.n;
    l15 = l4;
    l0 = text__decimal(l22, l7, l15);
    return l0;
}

static RT_HERE struct core__option__Option__Write trace_lines__writes__target(rt_slice l1, rt_slice l2, rt_slice l3, rt_slice l4, uint64_t l5)
{
    struct core__option__Option__Write l0;
    uint64_t l6;
    uint64_t l7;
    uint64_t l8;
    uint64_t l9;
    uint64_t l10;
    uint64_t l11;
    uint64_t l12;
    uint64_t l13;
    uint64_t l14;
    uint8_t *l15;
    uint16_t l16;
    uint8_t *l17;
    uint64_t l18;
    uint8_t l19;
    uint8_t *l20;
    uint64_t l21;
    uint64_t l22;
    uint8_t *l23;
    uint8_t *l24;
    struct trace_lines__writes__Write l25;
    l6 = (uint64_t)((uint64_t)UINT64_C(6) * (uint64_t)l5);
    l13 = (uint64_t)((uint64_t)l6 + (uint64_t)UINT64_C(2));
    l14 = (uint64_t)((uint64_t)l13 * (uint64_t)UINT64_C(2));
    l15 = l3.p + (size_t)l14;
    l16 = (*(uint16_t *)l15);
    l7 = (uint64_t)l16;
    l13 = (uint64_t)((uint64_t)l7 * (uint64_t)UINT64_C(8));
    l17 = l1.p + (size_t)l13;
    l18 = (*(uint64_t *)l17);
    l8 = l18;
    l18 = (uint64_t)((uint64_t)l8 % (uint64_t)UINT64_C(256));
    l19 = (uint8_t)(l18 != UINT64_C(4));
    if (l19) {
        l0.tag = UINT8_C(0);
        return l0;
    }
    l18 = layout__operand(l8);
    l9 = l18;
    l19 = (uint8_t)(UINT64_C(8) <= l9);
    if (l19) {
        l0.tag = UINT8_C(0);
        return l0;
    }
    l14 = (uint64_t)((uint64_t)l6 + (uint64_t)UINT64_C(1));
    l13 = (uint64_t)((uint64_t)l14 * (uint64_t)UINT64_C(2));
    l20 = l3.p + (size_t)l13;
    l16 = (*(uint16_t *)l20);
    l21 = (uint64_t)l16;
    l10 = (uint64_t)((uint64_t)l21 - (uint64_t)UINT64_C(1));
    l14 = (uint64_t)((uint64_t)UINT64_C(32) * (uint64_t)l5);
    l21 = (uint64_t)((uint64_t)l14 + (uint64_t)UINT64_C(16));
    l13 = (uint64_t)((uint64_t)l21 + (uint64_t)l10);
    l22 = (uint64_t)((uint64_t)l13 * (uint64_t)UINT64_C(8));
    l23 = l4.p + (size_t)l22;
    l18 = (*(uint64_t *)l23);
    l11 = l18;
    l18 = layout__operand(l11);
    l12 = l18;
    l14 = l2.n;
    l19 = (uint8_t)(l12 < l14);
    if (l19) {
        l0.tag = UINT8_C(0);
        return l0;
    }
    l22 = (uint64_t)((uint64_t)UINT64_C(32) * (uint64_t)l12);
    l21 = (uint64_t)((uint64_t)l22 + (uint64_t)l9);
    l14 = (uint64_t)((uint64_t)l21 * (uint64_t)UINT64_C(8));
    l24 = l4.p + (size_t)l14;
    l18 = (*(uint64_t *)l24);
    l25.f0 = l12;
    l25.f1 = l9;
    l25.f2 = l18;
    l0.tag = UINT8_C(1);
    l0.s0.f0 = l25.f0;
    l0.s0.f1 = l25.f1;
    l0.s0.f2 = l25.f2;
    return l0;
}

static const struct rt_array_uint8_1 trace_lines__writes__written__l33 = { { UINT8_C(32) } };
static const struct rt_array_uint8_1 trace_lines__writes__written__l34 = { { UINT8_C(32) } };
static inline uint64_t trace_lines__writes__written(rt_slice l1, uint64_t l2, struct core__option__Option__Write l3, rt_slice l4)
{
    uint64_t l0;
    uint64_t l7;
    uint64_t l8;
    uint64_t l9;
    uint64_t l10;
    uint64_t l11;
    uint64_t l12;
    uint64_t l13;
    uint64_t l14;
    uint8_t *l15;
    uint64_t l16;
    uint8_t *l17;
    rt_slice l18;
    uint8_t *l19;
    rt_slice l20;
    uint8_t *l21;
    uint8_t *l22;
    rt_slice l23;
    uint8_t *l24;
    rt_slice l25;
    uint8_t *l26;
    rt_slice l27;
    uint8_t *l28;
    uint8_t *l29;
    rt_slice l30;
    uint8_t *l31;
    rt_slice l32;
    switch (l3.tag) {
        case UINT8_C(0): {
            l11 = l2;
            break;
        }
        case UINT8_C(1): default: {
            l12 = (uint64_t)((uint64_t)UINT64_C(32) * (uint64_t)l3.s0.f0);
            l13 = (uint64_t)((uint64_t)l12 + (uint64_t)l3.s0.f1);
            l14 = (uint64_t)((uint64_t)l13 * (uint64_t)UINT64_C(8));
            l15 = l4.p + (size_t)l14;
            l16 = (*(uint64_t *)l15);
            l17 = (uint8_t *)&(*(uint8_t *)l1.p);
            l18.p = l17;
            l18.n = l1.n;
            l7 = trace_lines__writes__place(l18, l2, l3.s0.f0, l3.s0.f1);
            l19 = (uint8_t *)&(*(uint8_t *)l1.p);
            l20.p = l19;
            l20.n = l1.n;
            l21 = (uint8_t *)&trace_lines__writes__written__l33;
            l22 = (uint8_t *)&(*(uint8_t *)l21);
            l23.p = l22;
            l23.n = UINT64_C(1);
            l8 = text__put(l20, l7, l23);
            l24 = (uint8_t *)&(*(uint8_t *)l1.p);
            l25.p = l24;
            l25.n = l1.n;
            l9 = trace_lines__parts__worth(l25, l8, l3.s0.f2);
            l26 = (uint8_t *)&(*(uint8_t *)l1.p);
            l27.p = l26;
            l27.n = l1.n;
            l28 = (uint8_t *)&trace_lines__writes__written__l34;
            l29 = (uint8_t *)&(*(uint8_t *)l28);
            l30.p = l29;
            l30.n = UINT64_C(1);
            l10 = text__put(l27, l9, l30);
            l31 = (uint8_t *)&(*(uint8_t *)l1.p);
            l32.p = l31;
            l32.n = l1.n;
            l11 = trace_lines__parts__worth(l32, l10, l16);
            break;
        }
    }
    l0 = l11;
    return l0;
}

static RT_SHORT uint32_t types__default_word(uint8_t l1)
{
    uint32_t l0;
    uint8_t l2;
    l2 = types__struct_of(l1);
    l0 = core__convert__U32FromU8__from(l2);
    return l0;
}

static RT_SHORT uint8_t types__is_reference(uint8_t l1)
{
    uint8_t l0;
    l0 = (uint8_t)(UINT8_C(2) < l1);
    return l0;
}

static RT_SHORT uint8_t types__is_type(uint8_t l1, uint8_t l2)
{
    uint8_t l0;
    uint8_t l3;
    uint8_t l4;
    uint8_t l5;
    l3 = (uint8_t)(l2 <= UINT8_C(2));
    if (l3) {
    } else {
        l4 = (uint8_t)(UINT8_C(16) <= l2);
        if (l4) {
            l5 = (uint8_t)((uint32_t)l2 - (uint32_t)UINT8_C(16));
            l4 = (uint8_t)(l5 < l1);
        }
        l3 = l4;
    }
    l0 = l3;
    return l0;
}

static RT_WITHIN uint8_t types__refusal__U8FromRefusal__from(struct types__refusal__Refusal l1)
{
    uint8_t l0;
    uint8_t l2;
    switch (l1.tag) {
        case UINT8_C(0): {
            l2 = UINT8_C(1);
            break;
        }
        case UINT8_C(1): {
            l2 = UINT8_C(2);
            break;
        }
        case UINT8_C(2): {
            l2 = UINT8_C(3);
            break;
        }
        case UINT8_C(3): {
            l2 = UINT8_C(4);
            break;
        }
        case UINT8_C(4): {
            l2 = UINT8_C(5);
            break;
        }
        case UINT8_C(5): {
            l2 = UINT8_C(6);
            break;
        }
        case UINT8_C(6): {
            l2 = UINT8_C(7);
            break;
        }
        case UINT8_C(7): {
            l2 = UINT8_C(8);
            break;
        }
        case UINT8_C(8): {
            l2 = UINT8_C(9);
            break;
        }
        case UINT8_C(9): {
            l2 = UINT8_C(10);
            break;
        }
        case UINT8_C(10): {
            l2 = UINT8_C(11);
            break;
        }
        case UINT8_C(11): {
            l2 = UINT8_C(12);
            break;
        }
        case UINT8_C(12): {
            l2 = UINT8_C(13);
            break;
        }
        case UINT8_C(13): {
            l2 = UINT8_C(14);
            break;
        }
        case UINT8_C(14): {
            l2 = UINT8_C(15);
            break;
        }
        case UINT8_C(15): {
            l2 = UINT8_C(16);
            break;
        }
        case UINT8_C(16): {
            l2 = UINT8_C(17);
            break;
        }
        case UINT8_C(17): {
            l2 = UINT8_C(18);
            break;
        }
        case UINT8_C(18): {
            l2 = UINT8_C(19);
            break;
        }
        case UINT8_C(19): {
            l2 = UINT8_C(20);
            break;
        }
        case UINT8_C(20): {
            l2 = UINT8_C(21);
            break;
        }
        case UINT8_C(21): {
            l2 = UINT8_C(22);
            break;
        }
        case UINT8_C(22): {
            l2 = UINT8_C(23);
            break;
        }
        case UINT8_C(23): {
            l2 = UINT8_C(24);
            break;
        }
        case UINT8_C(24): {
            l2 = UINT8_C(33);
            break;
        }
        case UINT8_C(25): {
            l2 = UINT8_C(34);
            break;
        }
        case UINT8_C(26): default: {
            l2 = UINT8_C(35);
            break;
        }
    }
    l0 = l2;
    return l0;
}

static RT_SHORT uint8_t types__struct_of(uint8_t l1)
{
    uint8_t l0;
    l0 = core__int__u8__saturating_sub(l1, UINT8_C(16));
    return l0;
}

static RT_WITHIN struct types__refusal__Refusal uses__RefusalFromNoProgram__from(struct uses__NoProgram l1)
{
    struct types__refusal__Refusal l0;
    (void)l1;
    l0.tag = UINT8_C(16);
    return l0;
}

static RT_HERE struct core__option__Option__rt_tuple2_uses_Scope_Option_u8 uses__book__Book__begin(struct uses__book__Book l1, struct uses__Scope l2)
{
    struct core__option__Option__rt_tuple2_uses_Scope_Option_u8 l0;
    uint64_t l3;
    uint8_t *l4;
    uint64_t l5;
    uint8_t l6;
    struct uses__Scope l13;
    struct core__option__Option__u8 l14;
    struct rt_tuple2__uses_Scope_Option_u8 l15;
    l4 = l1.f1.p + (size_t)UINT64_C(2568);
    l5 = (*(uint64_t *)l4);
    l6 = (uint8_t)(l5 <= l2.f0);
    if (l6) {
        l0.tag = UINT8_C(0);
        return l0;
    }
    l3 = (uint64_t)((uint64_t)l2.f0 + (uint64_t)UINT64_C(1));
    l13.f0 = l3;
    l13.f1 = l2.f1;
    l13.f2 = l2.f2;
    l13.f3 = l2.f3;
    l13.f4 = l2.f4;
    l13.f5 = l2.f5;
    l13.f6 = l2.f6;
    l14.tag = UINT8_C(0);
    l15.f0.f0 = l13.f0;
    l15.f0.f1 = l13.f1;
    l15.f0.f2 = l13.f2;
    l15.f0.f3 = l13.f3;
    l15.f0.f4 = l13.f4;
    l15.f0.f5 = l13.f5;
    l15.f0.f6 = l13.f6;
    l15.f1 = l14;
    l0.tag = UINT8_C(1);
    l0.s0.f0.f0 = l15.f0.f0;
    l0.s0.f0.f1 = l15.f0.f1;
    l0.s0.f0.f2 = l15.f0.f2;
    l0.s0.f0.f3 = l15.f0.f3;
    l0.s0.f0.f4 = l15.f0.f4;
    l0.s0.f0.f5 = l15.f0.f5;
    l0.s0.f0.f6 = l15.f0.f6;
    l0.s0.f1 = l15.f1;
    return l0;
}

static RT_HERE struct core__option__Option__rt_tuple2_u8_u64 uses__book__Book__called(struct uses__book__Book l1, uint64_t l2, uint8_t l3, uint64_t l4)
{
    struct core__option__Option__rt_tuple2_u8_u64 l0;
    uint64_t l5;
    uint8_t l6;
    uint8_t *l8;
    uint64_t l9;
    uint8_t *l10;
    uint64_t l11;
    l6 = (uint8_t)(l3 == UINT8_C(49));
    if (l6) {
        l8 = l1.f1.p + (size_t)UINT64_C(2568);
        l9 = (*(uint64_t *)l8);
        {
            struct core__option__Option__rt_tuple2_u8_u64 r = uses__book__Book__listed(l1, UINT64_C(0), l9, l2, l4);
            l0.tag = r.tag;
            l0.s0.f0 = r.s0.f0;
            l0.s0.f1 = r.s0.f1;
        }
        return l0;
    }
    l10 = l1.f1.p + (size_t)UINT64_C(2576);
    l11 = (*(uint64_t *)l10);
    l5 = (uint64_t)((uint64_t)UINT64_C(289) + (uint64_t)l11);
    {
        struct core__option__Option__rt_tuple2_u8_u64 r = uses__book__Book__listed(l1, UINT64_C(289), l5, l2, l4);
        l0.tag = r.tag;
        l0.s0.f0 = r.s0.f0;
        l0.s0.f1 = r.s0.f1;
    }
    return l0;
}

static RT_HERE struct core__option__Option__rt_tuple2_uses_Scope_Option_u8 uses__book__Book__declare(struct uses__book__Book l1, rt_slice l2, uint64_t l3, struct uses__Scope l4)
{
    struct core__option__Option__rt_tuple2_uses_Scope_Option_u8 l0;
    uint64_t l6;
    struct uses__Scope l7;
    uint8_t l8;
    uint8_t *l10;
    rt_slice l11;
    uint8_t l12;
    uint64_t l13;
    uint8_t *l15;
    rt_slice l16;
    uint64_t l17;
    uint8_t l22;
    struct core__option__Option__u8 l23;
    struct rt_tuple2__uses_Scope_Option_u8 l24;
    l10 = (uint8_t *)&(*(uint64_t *)l2.p);
    l11.p = l10;
    l11.n = l2.n;
    l8 = uses__book__Book__unused(l1, l11, l3, l4.f1, l4.f0);
    l12 = (uint8_t)!l8;
    if (l12) {
        l0.tag = UINT8_C(0);
        return l0;
    }
    l13 = (uint64_t)((uint64_t)UINT64_C(16) - (uint64_t)UINT64_C(8));
    l8 = (uint8_t)(l13 <= l4.f1);
    if (l8) {
        l0.tag = UINT8_C(0);
        return l0;
    }
    l6 = (uint64_t)((uint64_t)l4.f2 - (uint64_t)l4.f3);
    l15 = (uint8_t *)&(*(uint64_t *)l2.p);
    l16.p = l15;
    l16.n = l2.n;
    uses__passing__store(l16, l3, l4.f1, l6, l4.f4);
    l13 = (uint64_t)((uint64_t)l4.f1 + (uint64_t)UINT64_C(1));
    l17 = (uint64_t)((uint64_t)l6 + (uint64_t)UINT64_C(1));
    l7.f0 = l4.f0;
    l7.f1 = l13;
    l7.f2 = l17;
    l7.f3 = UINT64_C(1);
    l7.f4 = l4.f4;
    l7.f5 = l4.f5;
    l7.f6 = l4.f6;
    l13 = (uint64_t)((uint64_t)UINT64_C(8) + (uint64_t)l4.f1);
    l22 = (uint8_t)l13;
    l23.tag = UINT8_C(1);
    l23.s0 = l22;
    l24.f0.f0 = l7.f0;
    l24.f0.f1 = l7.f1;
    l24.f0.f2 = l7.f2;
    l24.f0.f3 = l7.f3;
    l24.f0.f4 = l7.f4;
    l24.f0.f5 = l7.f5;
    l24.f0.f6 = l7.f6;
    l24.f1 = l23;
    l0.tag = UINT8_C(1);
    l0.s0.f0.f0 = l24.f0.f0;
    l0.s0.f0.f1 = l24.f0.f1;
    l0.s0.f0.f2 = l24.f0.f2;
    l0.s0.f0.f3 = l24.f0.f3;
    l0.s0.f0.f4 = l24.f0.f4;
    l0.s0.f0.f5 = l24.f0.f5;
    l0.s0.f0.f6 = l24.f0.f6;
    l0.s0.f1 = l24.f1;
    return l0;
}

static RT_HERE struct core__option__Option__rt_tuple2_uses_Scope_Option_u8 uses__book__Book__declared_name(struct uses__book__Book l1, rt_slice l2, uint64_t l3, uint8_t l4, struct uses__Scope l5)
{
    struct core__option__Option__rt_tuple2_uses_Scope_Option_u8 l0;
    struct core__option__Option__rt_tuple2_uses_Scope_Option_u8 l6;
    struct core__option__Option__u8 l8;
    struct rt_tuple2__uses_Scope_Option_u8 l9;
    struct core__option__Option__rt_tuple2_u8_u64 l10;
    uint8_t *l13;
    rt_slice l14;
    switch (l4) {
        case UINT8_C(39): {
            l6 = uses__book__Book__begin(l1, l5);
            break;
        }
        case UINT8_C(40): {
            l8.tag = UINT8_C(0);
            l9.f0.f0 = l5.f0;
            l9.f0.f1 = l5.f1;
            l9.f0.f2 = l5.f2;
            l9.f0.f3 = l5.f3;
            l9.f0.f4 = l5.f4;
            l9.f0.f5 = l5.f5;
            l9.f0.f6 = l5.f6;
            l9.f1 = l8;
            l6.tag = UINT8_C(1);
            l6.s0.f0.f0 = l9.f0.f0;
            l6.s0.f0.f1 = l9.f0.f1;
            l6.s0.f0.f2 = l9.f0.f2;
            l6.s0.f0.f3 = l9.f0.f3;
            l6.s0.f0.f4 = l9.f0.f4;
            l6.s0.f0.f5 = l9.f0.f5;
            l6.s0.f0.f6 = l9.f0.f6;
            l6.s0.f1 = l9.f1;
            break;
        }
        case UINT8_C(41): {
            l10 = uses__book__Book__called(l1, l3, l4, l5.f4);
            l6 = uses__passing__left(l5, l10);
            break;
        }
        default: {
            l13 = (uint8_t *)&(*(uint64_t *)l2.p);
            l14.p = l13;
            l14.n = l2.n;
            l6 = uses__book__Book__declare(l1, l14, l3, l5);
            break;
        }
    }
    l0 = l6;
    return l0;
}

static RT_HERE struct core__option__Option__rt_tuple2_u8_u64 uses__book__Book__first(struct uses__book__Book l1, rt_slice l2, uint64_t l3, struct uses__Scope l4)
{
    struct core__option__Option__rt_tuple2_u8_u64 l0;
    uint64_t l5;
    uint8_t l7;
    struct core__option__Option__rt_tuple2_u8_u64 l9;
    uint64_t l11;
    struct core__option__Option__rt_tuple2_u8_u64 l12;
    l5 = (uint64_t)((uint64_t)l4.f2 - (uint64_t)l4.f3);
    l7 = (uint8_t)(l4.f0 == UINT64_C(0));
    if (l7) {
        {
            struct core__option__Option__rt_tuple2_u8_u64 r = uses__looked__local(l1.f0, l2, l5, l3);
            l0.tag = r.tag;
            l0.s0.f0 = r.s0.f0;
            l0.s0.f1 = r.s0.f1;
        }
        return l0;
    }
    l11 = (uint64_t)((uint64_t)l4.f0 - (uint64_t)UINT64_C(1));
    l9 = uses__book__Book__parameter(l1, l11, l3);
    switch (l9.tag) {
        case UINT8_C(1): {
            l12.tag = UINT8_C(1);
            l12.s0.f0 = l9.s0.f0;
            l12.s0.f1 = l9.s0.f1;
            break;
        }
        case UINT8_C(0): default: {
            l12 = uses__looked__local(l1.f0, l2, l5, l3);
            break;
        }
    }
    l0 = l12;
    return l0;
}

static RT_HERE struct core__option__Option__rt_tuple2_u8_u64 uses__book__Book__later(struct uses__book__Book l1, uint64_t l2, uint64_t l3)
{
    struct core__option__Option__rt_tuple2_u8_u64 l0;
    struct core__ops__ControlFlow__NoValue_u64 l7;
    struct core__option__Option__u64 l8;
    uint64_t l9;
    uint8_t *l11;
    uint8_t l12;
    l9 = core__convert__UsizeFromU8__from(UINT8_C(16));
    l8 = core__int__checked__usize__checked_sub(l3, l9);
    l7 = core__option__OptionTry__branch__u64(l8);
    switch (l7.tag) {
        case UINT8_C(0): {
            break;
        }
        case UINT8_C(1): default: {
            {
                struct core__option__Option__rt_tuple2_u8_u64 r = core__option__OptionFromResidualNoValue__from_residual_e4dc67fa(l7.s1);
                l0.tag = r.tag;
                l0.s0.f0 = r.s0.f0;
                l0.s0.f1 = r.s0.f1;
            }
            return l0;
            break;
        }
    }
    l11 = l1.f1.p + (size_t)UINT64_C(2568);
    l9 = (*(uint64_t *)l11);
    l12 = (uint8_t)(l9 <= l7.s0);
    if (l12) {
        l0.tag = UINT8_C(0);
        return l0;
    }
    {
        struct core__option__Option__rt_tuple2_u8_u64 r = uses__book__Book__parameter(l1, l7.s0, l2);
        l0.tag = r.tag;
        l0.s0.f0 = r.s0.f0;
        l0.s0.f1 = r.s0.f1;
    }
    return l0;
}

static RT_HERE struct core__option__Option__rt_tuple2_u8_u64 uses__book__Book__listed(struct uses__book__Book l1, uint64_t l2, uint64_t l3, uint64_t l4, uint64_t l5)
{
    struct core__option__Option__rt_tuple2_u8_u64 l0;
    struct core__ops__ControlFlow__NoValue_u64 l9;
    struct core__option__Option__u64 l10;
    uint64_t l13;
    uint8_t *l14;
    uint64_t l15;
    uint8_t *l16;
    rt_slice l17;
    uint8_t l19;
    struct rt_tuple2__u8_u64 l20;
    l13 = (uint64_t)((uint64_t)l2 * (uint64_t)UINT64_C(8));
    l14 = l1.f1.p + (size_t)l13;
    l15 = (uint64_t)((uint64_t)l3 - (uint64_t)l2);
    l16 = (uint8_t *)&(*(uint64_t *)l14);
    l17.p = l16;
    l17.n = l15;
    l10 = resolve__names__lookup(l1.f0, l17, l4);
    l9 = core__option__OptionTry__branch__u64(l10);
    switch (l9.tag) {
        case UINT8_C(0): {
            break;
        }
        case UINT8_C(1): default: {
            {
                struct core__option__Option__rt_tuple2_u8_u64 r = core__option__OptionFromResidualNoValue__from_residual_e4dc67fa(l9.s1);
                l0.tag = r.tag;
                l0.s0.f0 = r.s0.f0;
                l0.s0.f1 = r.s0.f1;
            }
            return l0;
            break;
        }
    }
    l19 = (uint8_t)l9.s0;
    l20.f0 = l19;
    l20.f1 = l5;
    l0.tag = UINT8_C(1);
    l0.s0.f0 = l20.f0;
    l0.s0.f1 = l20.f1;
    return l0;
}

static RT_HERE struct core__option__Option__rt_tuple2_uses_Scope_Option_u8 uses__book__Book__made(struct uses__book__Book l1, rt_slice l2, uint64_t l3, struct uses__Scope l4)
{
    struct core__option__Option__rt_tuple2_uses_Scope_Option_u8 l0;
    uint64_t l5;
    uint64_t l10;
    uint8_t *l11;
    uint64_t l12;
    struct core__ops__ControlFlow__NoValue_u64 l13;
    struct core__option__Option__u64 l14;
    uint8_t *l17;
    uint8_t *l18;
    rt_slice l19;
    uint64_t l21;
    uint64_t l22;
    uint8_t *l23;
    uint64_t l24;
    uint64_t l25;
    uint64_t l26;
    uint8_t *l27;
    uint64_t l28;
    uint64_t l29;
    uint8_t l30;
    uint8_t *l31;
    struct uses__Scope l38;
    struct core__option__Option__u8 l39;
    struct rt_tuple2__uses_Scope_Option_u8 l40;
    l11 = l1.f1.p + (size_t)UINT64_C(2568);
    l12 = (*(uint64_t *)l11);
    l5 = l12;
    l17 = l1.f1.p + (size_t)UINT64_C(0);
    l12 = (uint64_t)((uint64_t)l5 - (uint64_t)UINT64_C(0));
    l18 = (uint8_t *)&(*(uint64_t *)l17);
    l19.p = l18;
    l19.n = l12;
    l14 = resolve__names__lookup(l1.f0, l19, l3);
    l13 = core__option__OptionTry__branch__u64(l14);
    switch (l13.tag) {
        case UINT8_C(0): {
            break;
        }
        case UINT8_C(1): default: {
            {
                struct core__option__Option__rt_tuple2_uses_Scope_Option_u8 r = core__option__OptionFromResidualNoValue__from_residual_e7cc27ad(l13.s1);
                l0.tag = r.tag;
                l0.s0.f0.f0 = r.s0.f0.f0;
                l0.s0.f0.f1 = r.s0.f0.f1;
                l0.s0.f0.f2 = r.s0.f0.f2;
                l0.s0.f0.f3 = r.s0.f0.f3;
                l0.s0.f0.f4 = r.s0.f0.f4;
                l0.s0.f0.f5 = r.s0.f0.f5;
                l0.s0.f0.f6 = r.s0.f0.f6;
                l0.s0.f1.tag = r.s0.f1.tag;
                l0.s0.f1.s0 = r.s0.f1.s0;
            }
            return l0;
            break;
        }
    }
    l12 = (uint64_t)((uint64_t)UINT64_C(16) + (uint64_t)l13.s0);
    l21 = (uint64_t)((uint64_t)l12 + (uint64_t)UINT64_C(1));
    l22 = (uint64_t)((uint64_t)l21 * (uint64_t)UINT64_C(8));
    l23 = l1.f1.p + (size_t)l22;
    l24 = (*(uint64_t *)l23);
    l25 = (uint64_t)((uint64_t)UINT64_C(16) + (uint64_t)l13.s0);
    l26 = (uint64_t)((uint64_t)l25 * (uint64_t)UINT64_C(8));
    l27 = l1.f1.p + (size_t)l26;
    l28 = (*(uint64_t *)l27);
    l29 = (uint64_t)((uint64_t)l24 - (uint64_t)l28);
    l30 = (uint8_t)l29;
    l31 = l2.p + (size_t)l4.f5;
    (*(uint8_t *)l31) = l30;
    l10 = (uint64_t)((uint64_t)l4.f5 + (uint64_t)UINT64_C(1));
    l38.f0 = l4.f0;
    l38.f1 = l4.f1;
    l38.f2 = l4.f2;
    l38.f3 = l4.f3;
    l38.f4 = l4.f4;
    l38.f5 = l10;
    l38.f6 = l4.f6;
    l30 = (uint8_t)l13.s0;
    l39.tag = UINT8_C(1);
    l39.s0 = l30;
    l40.f0.f0 = l38.f0;
    l40.f0.f1 = l38.f1;
    l40.f0.f2 = l38.f2;
    l40.f0.f3 = l38.f3;
    l40.f0.f4 = l38.f4;
    l40.f0.f5 = l38.f5;
    l40.f0.f6 = l38.f6;
    l40.f1 = l39;
    l0.tag = UINT8_C(1);
    l0.s0.f0.f0 = l40.f0.f0;
    l0.s0.f0.f1 = l40.f0.f1;
    l0.s0.f0.f2 = l40.f0.f2;
    l0.s0.f0.f3 = l40.f0.f3;
    l0.s0.f0.f4 = l40.f0.f4;
    l0.s0.f0.f5 = l40.f0.f5;
    l0.s0.f0.f6 = l40.f0.f6;
    l0.s0.f1 = l40.f1;
    return l0;
}

static RT_SHORT uint8_t uses__book__Book__no_parameter(struct uses__book__Book l1, uint64_t l2, uint64_t l3)
{
    uint8_t l0;
    uint8_t l4;
    struct core__option__Option__rt_tuple2_u8_u64 l5;
    uint64_t l7;
    struct core__option__Option__rt_tuple2_u8_u64 l8;
    uint8_t *l9;
    l4 = (uint8_t)(l2 == UINT64_C(0));
    if (l4) {
    } else {
        l7 = (uint64_t)((uint64_t)l2 - (uint64_t)UINT64_C(1));
        l5 = uses__book__Book__parameter(l1, l7, l3);
        l8 = l5;
        l9 = (uint8_t *)&l8;
        l4 = core__option__Option__is_none__rt_tuple2_u8_u64(l9);
    }
    l0 = l4;
    return l0;
}

static RT_HERE struct core__option__Option__rt_tuple2_u8_u64 uses__book__Book__parameter(struct uses__book__Book l1, uint64_t l2, uint64_t l3)
{
    struct core__option__Option__rt_tuple2_u8_u64 l0;
    uint64_t l4;
    uint64_t l5;
    uint64_t l9;
    uint64_t l10;
    uint8_t *l11;
    uint64_t l12;
    uint8_t *l13;
    uint64_t l14;
    struct core__ops__ControlFlow__NoValue_u64 l15;
    struct core__option__Option__u64 l16;
    uint8_t *l19;
    uint8_t *l20;
    rt_slice l21;
    uint8_t l23;
    uint8_t *l24;
    struct rt_tuple2__u8_u64 l25;
    l9 = (uint64_t)((uint64_t)UINT64_C(16) + (uint64_t)l2);
    l10 = (uint64_t)((uint64_t)l9 * (uint64_t)UINT64_C(8));
    l11 = l1.f1.p + (size_t)l10;
    l12 = (*(uint64_t *)l11);
    l4 = (uint64_t)((uint64_t)UINT64_C(33) + (uint64_t)l12);
    l9 = (uint64_t)((uint64_t)UINT64_C(16) + (uint64_t)l2);
    l12 = (uint64_t)((uint64_t)l9 + (uint64_t)UINT64_C(1));
    l10 = (uint64_t)((uint64_t)l12 * (uint64_t)UINT64_C(8));
    l13 = l1.f1.p + (size_t)l10;
    l14 = (*(uint64_t *)l13);
    l5 = (uint64_t)((uint64_t)UINT64_C(33) + (uint64_t)l14);
    l9 = (uint64_t)((uint64_t)l4 * (uint64_t)UINT64_C(8));
    l19 = l1.f1.p + (size_t)l9;
    l14 = (uint64_t)((uint64_t)l5 - (uint64_t)l4);
    l20 = (uint8_t *)&(*(uint64_t *)l19);
    l21.p = l20;
    l21.n = l14;
    l16 = resolve__names__lookup(l1.f0, l21, l3);
    l15 = core__option__OptionTry__branch__u64(l16);
    switch (l15.tag) {
        case UINT8_C(0): {
            break;
        }
        case UINT8_C(1): default: {
            {
                struct core__option__Option__rt_tuple2_u8_u64 r = core__option__OptionFromResidualNoValue__from_residual_e4dc67fa(l15.s1);
                l0.tag = r.tag;
                l0.s0.f0 = r.s0.f0;
                l0.s0.f1 = r.s0.f1;
            }
            return l0;
            break;
        }
    }
    l23 = (uint8_t)l15.s0;
    l10 = (uint64_t)((uint64_t)l4 + (uint64_t)l15.s0);
    l14 = (uint64_t)((uint64_t)l10 + (uint64_t)UINT64_C(128));
    l9 = (uint64_t)((uint64_t)l14 * (uint64_t)UINT64_C(8));
    l24 = l1.f1.p + (size_t)l9;
    l12 = (*(uint64_t *)l24);
    l25.f0 = l23;
    l25.f1 = l12;
    l0.tag = UINT8_C(1);
    l0.s0.f0 = l25.f0;
    l0.s0.f1 = l25.f1;
    return l0;
}

static RT_HERE struct core__option__Option__rt_tuple2_uses_Scope_Option_u8 uses__book__Book__type_role(struct uses__book__Book l1, uint64_t l2, uint8_t l3, struct uses__Scope l4)
{
    struct core__option__Option__rt_tuple2_uses_Scope_Option_u8 l0;
    uint64_t l5;
    uint64_t l6;
    uint8_t l7;
    struct core__option__Option__u8 l8;
    struct rt_tuple2__uses_Scope_Option_u8 l9;
    uint8_t *l10;
    uint64_t l11;
    uint8_t *l14;
    uint8_t *l15;
    rt_slice l16;
    uint8_t l17;
    uint64_t l18;
    struct rt_tuple2__u8_u64 l19;
    struct core__option__Option__rt_tuple2_u8_u64 l20;
    l7 = (uint8_t)(l3 < UINT8_C(55));
    if (l7) {
        l8.tag = UINT8_C(0);
        l9.f0.f0 = l4.f0;
        l9.f0.f1 = l4.f1;
        l9.f0.f2 = l4.f2;
        l9.f0.f3 = l4.f3;
        l9.f0.f4 = l4.f4;
        l9.f0.f5 = l4.f5;
        l9.f0.f6 = l4.f6;
        l9.f1 = l8;
        l0.tag = UINT8_C(1);
        l0.s0.f0.f0 = l9.f0.f0;
        l0.s0.f0.f1 = l9.f0.f1;
        l0.s0.f0.f2 = l9.f0.f2;
        l0.s0.f0.f3 = l9.f0.f3;
        l0.s0.f0.f4 = l9.f0.f4;
        l0.s0.f0.f5 = l9.f0.f5;
        l0.s0.f0.f6 = l9.f0.f6;
        l0.s0.f1 = l9.f1;
        return l0;
    }
    l10 = l1.f1.p + (size_t)UINT64_C(2568);
    l11 = (*(uint64_t *)l10);
    l5 = l11;
    l14 = l1.f1.p + (size_t)UINT64_C(0);
    l11 = (uint64_t)((uint64_t)l5 - (uint64_t)UINT64_C(0));
    l15 = (uint8_t *)&(*(uint64_t *)l14);
    l16.p = l15;
    l16.n = l11;
    l17 = uses__passing__type_number(l3);
    l6 = resolve__declarations__type_byte(l1.f0, l16, l17, l2);
    l11 = core__convert__UsizeFromU8__from(UINT8_C(16));
    l18 = (uint64_t)((uint64_t)l11 + (uint64_t)l5);
    l7 = (uint8_t)(l18 <= l6);
    if (l7) {
        l0.tag = UINT8_C(0);
        return l0;
    }
    l17 = (uint8_t)l6;
    l19.f0 = l17;
    l19.f1 = l6;
    l20.tag = UINT8_C(1);
    l20.s0.f0 = l19.f0;
    l20.s0.f1 = l19.f1;
    {
        struct core__option__Option__rt_tuple2_uses_Scope_Option_u8 r = uses__passing__left(l4, l20);
        l0.tag = r.tag;
        l0.s0.f0.f0 = r.s0.f0.f0;
        l0.s0.f0.f1 = r.s0.f0.f1;
        l0.s0.f0.f2 = r.s0.f0.f2;
        l0.s0.f0.f3 = r.s0.f0.f3;
        l0.s0.f0.f4 = r.s0.f0.f4;
        l0.s0.f0.f5 = r.s0.f0.f5;
        l0.s0.f0.f6 = r.s0.f0.f6;
        l0.s0.f1.tag = r.s0.f1.tag;
        l0.s0.f1.s0 = r.s0.f1.s0;
    }
    return l0;
}

static inline uint8_t uses__book__Book__unused(struct uses__book__Book l1, rt_slice l2, uint64_t l3, uint64_t l4, uint64_t l5)
{
    uint8_t l0;
    uint64_t l6;
    uint8_t l7;
    struct core__option__Option__u64 l8;
    uint64_t l10;
    uint8_t *l11;
    uint64_t l12;
    uint8_t *l13;
    rt_slice l14;
    struct core__option__Option__u64 l15;
    uint8_t *l16;
    l6 = (uint64_t)((uint64_t)UINT64_C(8) - (uint64_t)l4);
    l10 = (uint64_t)((uint64_t)l6 * (uint64_t)UINT64_C(8));
    l11 = l2.p + (size_t)l10;
    l12 = (uint64_t)((uint64_t)UINT64_C(8) - (uint64_t)l6);
    l13 = (uint8_t *)&(*(uint64_t *)l11);
    l14.p = l13;
    l14.n = l12;
    l8 = resolve__names__lookup(l1.f0, l14, l3);
    l15 = l8;
    l16 = (uint8_t *)&l15;
    l7 = core__option__Option__is_none__u64(l16);
    if (l7) {
        l7 = uses__book__Book__no_parameter(l1, l5, l3);
    }
    l0 = l7;
    return l0;
}

static RT_HERE struct core__option__Option__rt_tuple2_uses_Scope_Option_u8 uses__book__Book__use_at(struct uses__book__Book l1, rt_slice l2, rt_slice l3, uint64_t l4, uint8_t l5, struct uses__Scope l6)
{
    struct core__option__Option__rt_tuple2_uses_Scope_Option_u8 l0;
    uint8_t l7;
    struct core__option__Option__u8 l8;
    struct rt_tuple2__uses_Scope_Option_u8 l9;
    uint8_t l10;
    uint8_t *l13;
    rt_slice l14;
    uint8_t *l16;
    rt_slice l17;
    uint8_t *l18;
    rt_slice l19;
    uint8_t *l21;
    rt_slice l22;
    l7 = uses__pass__quiet(l5);
    if (l7) {
        l8.tag = UINT8_C(0);
        l9.f0.f0 = l6.f0;
        l9.f0.f1 = l6.f1;
        l9.f0.f2 = l6.f2;
        l9.f0.f3 = l6.f3;
        l9.f0.f4 = l6.f4;
        l9.f0.f5 = l6.f5;
        l9.f0.f6 = l6.f6;
        l9.f1 = l8;
        l0.tag = UINT8_C(1);
        l0.s0.f0.f0 = l9.f0.f0;
        l0.s0.f0.f1 = l9.f0.f1;
        l0.s0.f0.f2 = l9.f0.f2;
        l0.s0.f0.f3 = l9.f0.f3;
        l0.s0.f0.f4 = l9.f0.f4;
        l0.s0.f0.f5 = l9.f0.f5;
        l0.s0.f0.f6 = l9.f0.f6;
        l0.s0.f1 = l9.f1;
        return l0;
    }
    l10 = (uint8_t)(l5 < UINT8_C(39));
    if (l10) {
        {
            struct core__option__Option__rt_tuple2_uses_Scope_Option_u8 r = uses__parts__kind_role(l1.f0, l4, l5, l6);
            l0.tag = r.tag;
            l0.s0.f0.f0 = r.s0.f0.f0;
            l0.s0.f0.f1 = r.s0.f0.f1;
            l0.s0.f0.f2 = r.s0.f0.f2;
            l0.s0.f0.f3 = r.s0.f0.f3;
            l0.s0.f0.f4 = r.s0.f0.f4;
            l0.s0.f0.f5 = r.s0.f0.f5;
            l0.s0.f0.f6 = r.s0.f0.f6;
            l0.s0.f1.tag = r.s0.f1.tag;
            l0.s0.f1.s0 = r.s0.f1.s0;
        }
        return l0;
    }
    l10 = (uint8_t)(l5 < UINT8_C(43));
    if (l10) {
        l13 = (uint8_t *)&(*(uint64_t *)l2.p);
        l14.p = l13;
        l14.n = l2.n;
        {
            struct core__option__Option__rt_tuple2_uses_Scope_Option_u8 r = uses__book__Book__declared_name(l1, l14, l4, l5, l6);
            l0.tag = r.tag;
            l0.s0.f0.f0 = r.s0.f0.f0;
            l0.s0.f0.f1 = r.s0.f0.f1;
            l0.s0.f0.f2 = r.s0.f0.f2;
            l0.s0.f0.f3 = r.s0.f0.f3;
            l0.s0.f0.f4 = r.s0.f0.f4;
            l0.s0.f0.f5 = r.s0.f0.f5;
            l0.s0.f0.f6 = r.s0.f0.f6;
            l0.s0.f1.tag = r.s0.f1.tag;
            l0.s0.f1.s0 = r.s0.f1.s0;
        }
        return l0;
    }
    l10 = (uint8_t)(l5 < UINT8_C(51));
    if (l10) {
        l16 = (uint8_t *)&(*(uint64_t *)l2.p);
        l17.p = l16;
        l17.n = l2.n;
        l18 = (uint8_t *)&(*(uint8_t *)l3.p);
        l19.p = l18;
        l19.n = l3.n;
        {
            struct core__option__Option__rt_tuple2_uses_Scope_Option_u8 r = uses__book__Book__used_name(l1, l17, l19, l4, l5, l6);
            l0.tag = r.tag;
            l0.s0.f0.f0 = r.s0.f0.f0;
            l0.s0.f0.f1 = r.s0.f0.f1;
            l0.s0.f0.f2 = r.s0.f0.f2;
            l0.s0.f0.f3 = r.s0.f0.f3;
            l0.s0.f0.f4 = r.s0.f0.f4;
            l0.s0.f0.f5 = r.s0.f0.f5;
            l0.s0.f0.f6 = r.s0.f0.f6;
            l0.s0.f1.tag = r.s0.f1.tag;
            l0.s0.f1.s0 = r.s0.f1.s0;
        }
        return l0;
    }
    l10 = (uint8_t)(l5 < UINT8_C(63));
    if (l10) {
        {
            struct core__option__Option__rt_tuple2_uses_Scope_Option_u8 r = uses__book__Book__type_role(l1, l4, l5, l6);
            l0.tag = r.tag;
            l0.s0.f0.f0 = r.s0.f0.f0;
            l0.s0.f0.f1 = r.s0.f0.f1;
            l0.s0.f0.f2 = r.s0.f0.f2;
            l0.s0.f0.f3 = r.s0.f0.f3;
            l0.s0.f0.f4 = r.s0.f0.f4;
            l0.s0.f0.f5 = r.s0.f0.f5;
            l0.s0.f0.f6 = r.s0.f0.f6;
            l0.s0.f1.tag = r.s0.f1.tag;
            l0.s0.f1.s0 = r.s0.f1.s0;
        }
        return l0;
    }
    l21 = (uint8_t *)&(*(uint8_t *)l3.p);
    l22.p = l21;
    l22.n = l3.n;
    {
        struct core__option__Option__rt_tuple2_uses_Scope_Option_u8 r = uses__parts__part_role(l22, l5, l6);
        l0.tag = r.tag;
        l0.s0.f0.f0 = r.s0.f0.f0;
        l0.s0.f0.f1 = r.s0.f0.f1;
        l0.s0.f0.f2 = r.s0.f0.f2;
        l0.s0.f0.f3 = r.s0.f0.f3;
        l0.s0.f0.f4 = r.s0.f0.f4;
        l0.s0.f0.f5 = r.s0.f0.f5;
        l0.s0.f0.f6 = r.s0.f0.f6;
        l0.s0.f1.tag = r.s0.f1.tag;
        l0.s0.f1.s0 = r.s0.f1.s0;
    }
    return l0;
}

static RT_HERE struct core__option__Option__rt_tuple2_uses_Scope_Option_u8 uses__book__Book__used_name(struct uses__book__Book l1, rt_slice l2, rt_slice l3, uint64_t l4, uint8_t l5, struct uses__Scope l6)
{
    struct core__option__Option__rt_tuple2_uses_Scope_Option_u8 l0;
    uint8_t l7;
    struct core__option__Option__rt_tuple2_u8_u64 l8;
    struct core__option__Option__rt_tuple2_u8_u64 l10;
    uint8_t *l13;
    rt_slice l14;
    struct core__option__Option__rt_tuple2_u8_u64 l15;
    l7 = (uint8_t)(l5 < UINT8_C(45));
    if (l7) {
        l8 = uses__book__Book__first(l1, l2, l4, l6);
        {
            struct core__option__Option__rt_tuple2_uses_Scope_Option_u8 r = uses__passing__left(l6, l8);
            l0.tag = r.tag;
            l0.s0.f0.f0 = r.s0.f0.f0;
            l0.s0.f0.f1 = r.s0.f0.f1;
            l0.s0.f0.f2 = r.s0.f0.f2;
            l0.s0.f0.f3 = r.s0.f0.f3;
            l0.s0.f0.f4 = r.s0.f0.f4;
            l0.s0.f0.f5 = r.s0.f0.f5;
            l0.s0.f0.f6 = r.s0.f0.f6;
            l0.s0.f1.tag = r.s0.f1.tag;
            l0.s0.f1.s0 = r.s0.f1.s0;
        }
        return l0;
    }
    l7 = (uint8_t)(l5 < UINT8_C(46));
    if (l7) {
        l10 = uses__book__Book__later(l1, l4, l6.f4);
        {
            struct core__option__Option__rt_tuple2_uses_Scope_Option_u8 r = uses__passing__left(l6, l10);
            l0.tag = r.tag;
            l0.s0.f0.f0 = r.s0.f0.f0;
            l0.s0.f0.f1 = r.s0.f0.f1;
            l0.s0.f0.f2 = r.s0.f0.f2;
            l0.s0.f0.f3 = r.s0.f0.f3;
            l0.s0.f0.f4 = r.s0.f0.f4;
            l0.s0.f0.f5 = r.s0.f0.f5;
            l0.s0.f0.f6 = r.s0.f0.f6;
            l0.s0.f1.tag = r.s0.f1.tag;
            l0.s0.f1.s0 = r.s0.f1.s0;
        }
        return l0;
    }
    l7 = (uint8_t)(l5 < UINT8_C(48));
    if (l7) {
        l13 = (uint8_t *)&(*(uint8_t *)l3.p);
        l14.p = l13;
        l14.n = l3.n;
        {
            struct core__option__Option__rt_tuple2_uses_Scope_Option_u8 r = uses__book__Book__made(l1, l14, l4, l6);
            l0.tag = r.tag;
            l0.s0.f0.f0 = r.s0.f0.f0;
            l0.s0.f0.f1 = r.s0.f0.f1;
            l0.s0.f0.f2 = r.s0.f0.f2;
            l0.s0.f0.f3 = r.s0.f0.f3;
            l0.s0.f0.f4 = r.s0.f0.f4;
            l0.s0.f0.f5 = r.s0.f0.f5;
            l0.s0.f0.f6 = r.s0.f0.f6;
            l0.s0.f1.tag = r.s0.f1.tag;
            l0.s0.f1.s0 = r.s0.f1.s0;
        }
        return l0;
    }
    l15 = uses__book__Book__called(l1, l4, l5, l6.f4);
    {
        struct core__option__Option__rt_tuple2_uses_Scope_Option_u8 r = uses__passing__left(l6, l15);
        l0.tag = r.tag;
        l0.s0.f0.f0 = r.s0.f0.f0;
        l0.s0.f0.f1 = r.s0.f0.f1;
        l0.s0.f0.f2 = r.s0.f0.f2;
        l0.s0.f0.f3 = r.s0.f0.f3;
        l0.s0.f0.f4 = r.s0.f0.f4;
        l0.s0.f0.f5 = r.s0.f0.f5;
        l0.s0.f0.f6 = r.s0.f0.f6;
        l0.s0.f1.tag = r.s0.f1.tag;
        l0.s0.f1.s0 = r.s0.f1.s0;
    }
    return l0;
}

static RT_HERE struct core__result__Result__u64_NoProgram uses__book__Book__uses(struct uses__book__Book l1, rt_slice l2, rt_slice l3, rt_slice l4, rt_slice l5)
{
    struct core__result__Result__u64_NoProgram l0;
    struct uses__Scope l6;
    uint64_t l7;
    uint64_t l8;
    uint64_t l9;
    uint64_t l13;
    uint8_t l14;
    struct core__option__Option__rt_tuple2_uses_Scope_Option_u8 l15;
    uint8_t *l17;
    rt_slice l18;
    uint8_t *l19;
    rt_slice l20;
    uint8_t *l21;
    uint8_t l22;
    struct uses__NoProgram l23;
    uint8_t *l24;
    l6.f0 = UINT64_C(0);
    l6.f1 = UINT64_C(0);
    l6.f2 = UINT64_C(0);
    l6.f3 = UINT64_C(0);
    l6.f4 = UINT64_C(0);
    l6.f5 = UINT64_C(0);
    l6.f6 = UINT64_C(0);
    l7 = UINT64_C(0);
    l8 = lexer__gaps__first(l2);
    for (;;) {
        l13 = l2.n;
        l14 = (uint8_t)(l8 < l13);
        if (l14) {
        } else {
            goto end1;
        }
        l9 = l8;
        l13 = (uint64_t)((uint64_t)l9 + (uint64_t)UINT64_C(1));
        l8 = lexer__gaps__next(l2, l13);
        l17 = (uint8_t *)&(*(uint64_t *)l3.p);
        l18.p = l17;
        l18.n = l3.n;
        l19 = (uint8_t *)&(*(uint8_t *)l4.p);
        l20.p = l19;
        l20.n = l4.n;
        l21 = l2.p + (size_t)l9;
        l22 = (*(uint8_t *)l21);
        l15 = uses__book__Book__use_at(l1, l18, l20, l9, l22, l6);
        switch (l15.tag) {
            case UINT8_C(0): {
                l23.f0 = l9;
                l0.tag = UINT8_C(1);
                l0.s1.f0 = l23.f0;
                return l0;
                break;
            }
            case UINT8_C(1): default: {
                switch (l15.s0.f1.tag) {
                    case UINT8_C(0): {
                        l6.f0 = l15.s0.f0.f0;
                        l6.f1 = l15.s0.f0.f1;
                        l6.f2 = l15.s0.f0.f2;
                        l6.f3 = l15.s0.f0.f3;
                        l6.f4 = l15.s0.f0.f4;
                        l6.f5 = l15.s0.f0.f5;
                        l6.f6 = l15.s0.f0.f6;
                        break;
                    }
                    case UINT8_C(1): default: {
                        l24 = l5.p + (size_t)l7;
                        (*(uint8_t *)l24) = l15.s0.f1.s0;
                        l7 = (uint64_t)((uint64_t)l7 + (uint64_t)UINT64_C(1));
                        l6.f0 = l15.s0.f0.f0;
                        l6.f1 = l15.s0.f0.f1;
                        l6.f2 = l15.s0.f0.f2;
                        l6.f3 = l15.s0.f0.f3;
                        l6.f4 = l15.s0.f0.f4;
                        l6.f5 = l15.s0.f0.f5;
                        l6.f6 = l15.s0.f0.f6;
                        break;
                    }
                }
                break;
            }
        }
    }
end1:;
    l0.tag = UINT8_C(0);
    l0.s0 = l7;
    return l0;
}

static RT_SHORT uint8_t uses__declared__Declarations__few_steps(struct uses__declared__Declarations l1, uint64_t l2)
{
    uint8_t l0;
    struct rt_array_uint64_17 l3;
    uint8_t *l6;
    rt_slice l7;
    uint64_t l8;
    uint8_t *l9;
    rt_slice l10;
    memset(&l3, 0, sizeof l3);
    l6 = (uint8_t *)&l3;
    l7.p = l6;
    l7.n = UINT64_C(17);
    uses__declared__Declarations__rows(l1, UINT8_C(41), l7);
    l8 = (uint64_t)((uint64_t)l2 + (uint64_t)UINT64_C(1));
    l9 = (uint8_t *)&l3;
    l10.p = l9;
    l10.n = l8;
    l0 = resolve__declarations__narrow(l10);
    return l0;
}

static inline uint8_t uses__declared__Declarations__filled(struct uses__declared__Declarations l1, rt_slice l2)
{
    uint8_t l0;
    uint8_t *l5;
    rt_slice l6;
    uint8_t l7;
    uint8_t *l9;
    rt_slice l10;
    uint8_t l11;
    uint8_t *l13;
    uint64_t l14;
    uint8_t *l15;
    rt_slice l16;
    l5 = (uint8_t *)&(*(uint64_t *)l2.p);
    l6.p = l5;
    l6.n = l2.n;
    uses__declared__Declarations__lay(l1, l6);
    l9 = (uint8_t *)&(*(uint64_t *)l2.p);
    l10.p = l9;
    l10.n = l2.n;
    l7 = uses__declared__Declarations__well(l1, l10);
    l11 = (uint8_t)!l7;
    if (l11) {
        l0 = 0;
        return l0;
    }
    l13 = l2.p + (size_t)UINT64_C(1288);
    l14 = (uint64_t)((uint64_t)UINT64_C(289) - (uint64_t)UINT64_C(161));
    l15 = (uint8_t *)&(*(uint64_t *)l13);
    l16.p = l15;
    l16.n = l14;
    l0 = uses__declared__Declarations__par_types(l1, l16);
    return l0;
}

static inline uint64_t uses__declared__Declarations__gather(struct uses__declared__Declarations l1, uint8_t l2, uint8_t l3, rt_slice l4)
{
    uint64_t l0;
    uint64_t l5;
    uint64_t l7;
    uint8_t *l8;
    uint8_t l9;
    uint8_t l11;
    uint64_t l12;
    uint8_t *l13;
    uint8_t l14;
    uint64_t l16;
    uint8_t *l17;
    rt_slice l18;
    l5 = UINT64_C(0);
    l7 = UINT64_C(0);
    for (;;) {
        l11 = (uint8_t)(l7 < l1.f2.n);
        if (l11) {
        } else {
            goto end1;
        }
        l12 = (uint64_t)((uint64_t)l7 * (uint64_t)UINT64_C(8));
        l13 = l1.f2.p + (size_t)l12;
        l8 = (uint8_t *)&(*(uint64_t *)l13);
        l16 = (*(uint64_t *)l8);
        l14 = lexer__bytes__byte(l1.f1, l16);
        l9 = lexer__bytes__between(l2, l3, l14);
        l17 = (uint8_t *)&(*(uint64_t *)l4.p);
        l18.p = l17;
        l18.n = l4.n;
        l16 = (*(uint64_t *)l8);
        l5 = resolve__tables__add(l18, l5, l16, l9);
        l7 = (uint64_t)((uint64_t)l7 + (uint64_t)UINT64_C(1));
    }
end1:;
    l0 = l5;
    return l0;
}

static inline void uses__declared__Declarations__lay(struct uses__declared__Declarations l1, rt_slice l2)
{
    uint64_t l3;
    uint64_t l4;
    uint8_t *l6;
    uint64_t l7;
    uint8_t *l8;
    rt_slice l9;
    uint8_t *l12;
    uint8_t *l13;
    rt_slice l14;
    uint8_t *l16;
    uint64_t l17;
    uint8_t *l18;
    rt_slice l19;
    uint8_t *l21;
    uint8_t *l22;
    rt_slice l23;
    uint8_t *l24;
    uint8_t *l25;
    l6 = l2.p + (size_t)UINT64_C(0);
    l7 = (uint64_t)((uint64_t)UINT64_C(16) - (uint64_t)UINT64_C(0));
    l8 = (uint8_t *)&(*(uint64_t *)l6);
    l9.p = l8;
    l9.n = l7;
    l3 = uses__declared__Declarations__gather(l1, UINT8_C(39), UINT8_C(39), l9);
    l12 = l2.p + (size_t)UINT64_C(128);
    l7 = (uint64_t)((uint64_t)UINT64_C(33) - (uint64_t)UINT64_C(16));
    l13 = (uint8_t *)&(*(uint64_t *)l12);
    l14.p = l13;
    l14.n = l7;
    uses__declared__Declarations__rows(l1, UINT8_C(40), l14);
    l16 = l2.p + (size_t)UINT64_C(264);
    l17 = (uint64_t)((uint64_t)UINT64_C(161) - (uint64_t)UINT64_C(33));
    l18 = (uint8_t *)&(*(uint64_t *)l16);
    l19.p = l18;
    l19.n = l17;
    l7 = uses__declared__Declarations__gather(l1, UINT8_C(40), UINT8_C(40), l19);
    l21 = l2.p + (size_t)UINT64_C(2312);
    l7 = (uint64_t)((uint64_t)UINT64_C(321) - (uint64_t)UINT64_C(289));
    l22 = (uint8_t *)&(*(uint64_t *)l21);
    l23.p = l22;
    l23.n = l7;
    l4 = uses__declared__Declarations__step_names(l1, l23);
    l24 = l2.p + (size_t)UINT64_C(2568);
    (*(uint64_t *)l24) = l3;
    l25 = l2.p + (size_t)UINT64_C(2576);
    (*(uint64_t *)l25) = l4;
    return;
}

static inline uint8_t uses__declared__Declarations__par_types(struct uses__declared__Declarations l1, rt_slice l2)
{
    uint8_t l0;
    struct rt_array_uint64_16 l3;
    uint64_t l4;
    struct rt_array_uint64_128 l5;
    uint64_t l6;
    uint8_t *l8;
    rt_slice l9;
    uint8_t *l11;
    rt_slice l12;
    uint8_t *l15;
    rt_slice l16;
    uint8_t *l17;
    rt_slice l18;
    uint8_t *l19;
    rt_slice l20;
    memset(&l3, 0, sizeof l3);
    l8 = (uint8_t *)&l3;
    l9.p = l8;
    l9.n = UINT64_C(16);
    l4 = uses__declared__Declarations__gather(l1, UINT8_C(39), UINT8_C(39), l9);
    memset(&l5, 0, sizeof l5);
    l11 = (uint8_t *)&l5;
    l12.p = l11;
    l12.n = UINT64_C(128);
    l6 = uses__declared__Declarations__gather(l1, UINT8_C(51), UINT8_C(54), l12);
    l15 = (uint8_t *)&l3;
    l16.p = l15;
    l16.n = l4;
    l17 = (uint8_t *)&l5;
    l18.p = l17;
    l18.n = l6;
    l19 = (uint8_t *)&(*(uint64_t *)l2.p);
    l20.p = l19;
    l20.n = l2.n;
    l0 = resolve__declarations__types(l1.f0, l1.f1, l16, l18, l20);
    return l0;
}

static inline void uses__declared__Declarations__rows(struct uses__declared__Declarations l1, uint8_t l2, rt_slice l3)
{
    uint64_t l4;
    uint64_t l5;
    uint64_t l7;
    uint8_t *l8;
    uint8_t l9;
    uint8_t l11;
    uint64_t l12;
    uint8_t *l13;
    uint64_t l15;
    uint8_t *l16;
    rt_slice l17;
    uint8_t l18;
    uint8_t *l20;
    rt_slice l21;
    l4 = UINT64_C(0);
    l5 = UINT64_C(0);
    l7 = UINT64_C(0);
    for (;;) {
        l11 = (uint8_t)(l7 < l1.f2.n);
        if (l11) {
        } else {
            goto end1;
        }
        l12 = (uint64_t)((uint64_t)l7 * (uint64_t)UINT64_C(8));
        l13 = l1.f2.p + (size_t)l12;
        l8 = (uint8_t *)&(*(uint64_t *)l13);
        l15 = (*(uint64_t *)l8);
        l9 = lexer__bytes__byte(l1.f1, l15);
        l16 = (uint8_t *)&(*(uint64_t *)l3.p);
        l17.p = l16;
        l17.n = l3.n;
        l18 = (uint8_t)(l9 == UINT8_C(39));
        l5 = resolve__tables__add(l17, l5, l4, l18);
        l18 = (uint8_t)(l9 == l2);
        l4 = resolve__tables__counted(l4, l18);
        l7 = (uint64_t)((uint64_t)l7 + (uint64_t)UINT64_C(1));
    }
end1:;
    l20 = (uint8_t *)&(*(uint64_t *)l3.p);
    l21.p = l20;
    l21.n = l3.n;
    resolve__tables__put(l21, l5, l4);
    return;
}

static inline uint64_t uses__declared__Declarations__step_names(struct uses__declared__Declarations l1, rt_slice l2)
{
    uint64_t l0;
    struct rt_array_uint64_128 l3;
    uint64_t l4;
    uint8_t *l6;
    rt_slice l7;
    uint8_t l8;
    uint8_t *l10;
    rt_slice l11;
    uint8_t *l12;
    rt_slice l13;
    memset(&l3, 0, sizeof l3);
    l6 = (uint8_t *)&l3;
    l7.p = l6;
    l7.n = UINT64_C(128);
    l4 = uses__declared__Declarations__gather(l1, UINT8_C(41), UINT8_C(41), l7);
    l8 = (uint8_t)(UINT64_C(128) < l4);
    if (l8) {
        l0 = UINT64_C(0);
        return l0;
    }
    l10 = (uint8_t *)&l3;
    l11.p = l10;
    l11.n = l4;
    l12 = (uint8_t *)&(*(uint64_t *)l2.p);
    l13.p = l12;
    l13.n = l2.n;
    l0 = resolve__declarations__step_names(l1.f0, l11, l13);
    return l0;
}

static inline uint8_t uses__declared__Declarations__well(struct uses__declared__Declarations l1, rt_slice l2)
{
    uint8_t l0;
    uint64_t l3;
    uint64_t l4;
    uint8_t *l5;
    uint64_t l6;
    uint8_t l7;
    uint8_t *l9;
    rt_slice l10;
    uint8_t l11;
    uint64_t l12;
    uint8_t *l13;
    uint64_t l14;
    uint8_t *l16;
    uint8_t *l17;
    rt_slice l18;
    uint64_t l19;
    uint8_t *l20;
    uint64_t l21;
    uint8_t *l22;
    rt_slice l23;
    uint8_t *l25;
    l5 = l2.p + (size_t)UINT64_C(2568);
    l6 = (*(uint64_t *)l5);
    l3 = l6;
    l7 = (uint8_t)(UINT64_C(16) < l3);
    if (l7) {
        l0 = 0;
        return l0;
    }
    l9 = (uint8_t *)&(*(uint64_t *)l2.p);
    l10.p = l9;
    l10.n = l3;
    l7 = resolve__tables__distinct(l1.f0, l10);
    l11 = (uint8_t)!l7;
    if (l11) {
        l0 = 0;
        return l0;
    }
    l6 = (uint64_t)((uint64_t)UINT64_C(16) + (uint64_t)l3);
    l12 = (uint64_t)((uint64_t)l6 * (uint64_t)UINT64_C(8));
    l13 = l2.p + (size_t)l12;
    l14 = (*(uint64_t *)l13);
    l4 = l14;
    l11 = (uint8_t)(UINT64_C(128) < l4);
    if (l11) {
        l0 = 0;
        return l0;
    }
    l14 = (uint64_t)((uint64_t)UINT64_C(33) + (uint64_t)l4);
    l16 = l2.p + (size_t)UINT64_C(264);
    l12 = (uint64_t)((uint64_t)l14 - (uint64_t)UINT64_C(33));
    l17 = (uint8_t *)&(*(uint64_t *)l16);
    l18.p = l17;
    l18.n = l12;
    l6 = (uint64_t)((uint64_t)UINT64_C(16) + (uint64_t)UINT64_C(1));
    l19 = (uint64_t)((uint64_t)l6 + (uint64_t)l3);
    l20 = l2.p + (size_t)UINT64_C(128);
    l21 = (uint64_t)((uint64_t)l19 - (uint64_t)UINT64_C(16));
    l22 = (uint8_t *)&(*(uint64_t *)l20);
    l23.p = l22;
    l23.n = l21;
    l7 = resolve__declarations__rows_ok(l1.f0, l18, l23);
    l11 = (uint8_t)!l7;
    if (l11) {
        l0 = 0;
        return l0;
    }
    l7 = uses__declared__Declarations__few_steps(l1, l3);
    l11 = (uint8_t)!l7;
    if (l11) {
        l0 = 0;
        return l0;
    }
    l25 = l2.p + (size_t)UINT64_C(2576);
    l21 = (*(uint64_t *)l25);
    l0 = (uint8_t)(l21 <= UINT64_C(32));
    return l0;
}

static inline uint64_t uses__declared__all(rt_slice l1, rt_slice l2)
{
    uint64_t l0;
    uint64_t l3;
    uint64_t l4;
    uint8_t *l5;
    uint8_t l7;
    uint8_t *l8;
    uint8_t *l9;
    rt_slice l10;
    uint8_t l11;
    uint8_t l12;
    l3 = UINT64_C(0);
    l4 = UINT64_C(0);
    for (;;) {
        l7 = (uint8_t)(l4 < l1.n);
        if (l7) {
        } else {
            goto end2;
        }
        l8 = l1.p + (size_t)l4;
        l5 = (uint8_t *)&(*(uint8_t *)l8);
        l9 = (uint8_t *)&(*(uint64_t *)l2.p);
        l10.p = l9;
        l10.n = l2.n;
        l12 = (*(uint8_t *)l5);
        l11 = uses__declared__declares(l12);
        l3 = resolve__tables__add(l10, l3, l4, l11);
        l4 = (uint64_t)((uint64_t)l4 + (uint64_t)UINT64_C(1));
    }
end2:;
    l0 = l3;
    return l0;
}

static RT_SHORT uint8_t uses__declared__declares(uint8_t l1)
{
    uint8_t l0;
    uint8_t l2;
    l2 = lexer__bytes__between(UINT8_C(39), UINT8_C(41), l1);
    if (l2) {
    } else {
        l2 = lexer__bytes__between(UINT8_C(51), UINT8_C(54), l1);
    }
    l0 = l2;
    return l0;
}

static RT_HERE struct core__option__Option__rt_tuple2_u8_u64 uses__looked__local(rt_slice l1, rt_slice l2, uint64_t l3, uint64_t l4)
{
    struct core__option__Option__rt_tuple2_u8_u64 l0;
    uint64_t l5;
    struct core__ops__ControlFlow__NoValue_u64 l9;
    struct core__option__Option__u64 l10;
    uint64_t l11;
    uint8_t *l12;
    uint64_t l13;
    uint8_t *l14;
    rt_slice l15;
    uint64_t l17;
    uint8_t *l18;
    uint64_t l19;
    uint64_t l20;
    uint8_t l21;
    uint64_t l22;
    uint64_t l23;
    uint64_t l24;
    uint8_t *l25;
    uint64_t l26;
    struct rt_tuple2__u8_u64 l27;
    l5 = (uint64_t)((uint64_t)UINT64_C(16) - (uint64_t)l3);
    l11 = (uint64_t)((uint64_t)l5 * (uint64_t)UINT64_C(8));
    l12 = l2.p + (size_t)l11;
    l13 = (uint64_t)((uint64_t)UINT64_C(16) - (uint64_t)l5);
    l14 = (uint8_t *)&(*(uint64_t *)l12);
    l15.p = l14;
    l15.n = l13;
    l10 = resolve__names__lookup(l1, l15, l4);
    l9 = core__option__OptionTry__branch__u64(l10);
    switch (l9.tag) {
        case UINT8_C(0): {
            break;
        }
        case UINT8_C(1): default: {
            {
                struct core__option__Option__rt_tuple2_u8_u64 r = core__option__OptionFromResidualNoValue__from_residual_e4dc67fa(l9.s1);
                l0.tag = r.tag;
                l0.s0.f0 = r.s0.f0;
                l0.s0.f1 = r.s0.f1;
            }
            return l0;
            break;
        }
    }
    l11 = (uint64_t)((uint64_t)l5 + (uint64_t)l9.s0);
    l13 = (uint64_t)((uint64_t)l11 + (uint64_t)UINT64_C(8));
    l17 = (uint64_t)((uint64_t)l13 * (uint64_t)UINT64_C(8));
    l18 = l2.p + (size_t)l17;
    l19 = (*(uint64_t *)l18);
    l20 = (uint64_t)((uint64_t)UINT64_C(8) + (uint64_t)l19);
    l21 = (uint8_t)l20;
    l22 = (uint64_t)((uint64_t)l5 + (uint64_t)l9.s0);
    l23 = (uint64_t)((uint64_t)l22 + (uint64_t)UINT64_C(16));
    l24 = (uint64_t)((uint64_t)l23 * (uint64_t)UINT64_C(8));
    l25 = l2.p + (size_t)l24;
    l26 = (*(uint64_t *)l25);
    l27.f0 = l21;
    l27.f1 = l26;
    l0.tag = UINT8_C(1);
    l0.s0.f0 = l27.f0;
    l0.s0.f1 = l27.f1;
    return l0;
}

static RT_HERE struct core__result__Result__u64_NoProgram uses__numbers(rt_slice l1, rt_slice l2, rt_slice l3, rt_slice l4, rt_slice l5)
{
    struct core__result__Result__u64_NoProgram l0;
    struct rt_array_uint64_32 l6;
    uint8_t l7;
    uint8_t *l8;
    rt_slice l9;
    uint8_t l10;
    struct uses__NoProgram l11;
    uint8_t *l12;
    rt_slice l13;
    struct uses__book__Book l14;
    uint8_t *l15;
    rt_slice l16;
    uint8_t *l17;
    rt_slice l18;
    uint8_t *l19;
    rt_slice l20;
    l8 = (uint8_t *)&(*(uint64_t *)l3.p);
    l9.p = l8;
    l9.n = l3.n;
    l7 = uses__tabling__fill(l1, l2, l9);
    l10 = (uint8_t)!l7;
    if (l10) {
        l11.f0 = UINT64_C(0);
        l0.tag = UINT8_C(1);
        l0.s1.f0 = l11.f0;
        return l0;
    }
    memset(&l6, 0, sizeof l6);
    l12 = (uint8_t *)&(*(uint64_t *)l3.p);
    l13.p = l12;
    l13.n = l3.n;
    l14.f0 = l1;
    l14.f1 = l13;
    l15 = (uint8_t *)&l6;
    l16.p = l15;
    l16.n = UINT64_C(32);
    l17 = (uint8_t *)&(*(uint8_t *)l4.p);
    l18.p = l17;
    l18.n = l4.n;
    l19 = (uint8_t *)&(*(uint8_t *)l5.p);
    l20.p = l19;
    l20.n = l5.n;
    l0 = uses__book__Book__uses(l14, l2, l16, l18, l20);
    return l0;
}

static RT_HERE struct core__option__Option__rt_tuple2_uses_Scope_Option_u8 uses__parts__close(rt_slice l1, uint8_t l2, struct uses__Scope l3)
{
    struct core__option__Option__rt_tuple2_uses_Scope_Option_u8 l0;
    struct core__ops__ControlFlow__NoValue_u64 l7;
    struct core__option__Option__u64 l8;
    uint8_t *l10;
    uint8_t l11;
    uint8_t l12;
    struct uses__Scope l13;
    struct core__option__Option__u8 l14;
    struct rt_tuple2__uses_Scope_Option_u8 l15;
    l8 = core__int__checked__usize__checked_sub(l3.f5, UINT64_C(1));
    l7 = core__option__OptionTry__branch__u64(l8);
    switch (l7.tag) {
        case UINT8_C(0): {
            break;
        }
        case UINT8_C(1): default: {
            {
                struct core__option__Option__rt_tuple2_uses_Scope_Option_u8 r = core__option__OptionFromResidualNoValue__from_residual_e7cc27ad(l7.s1);
                l0.tag = r.tag;
                l0.s0.f0.f0 = r.s0.f0.f0;
                l0.s0.f0.f1 = r.s0.f0.f1;
                l0.s0.f0.f2 = r.s0.f0.f2;
                l0.s0.f0.f3 = r.s0.f0.f3;
                l0.s0.f0.f4 = r.s0.f0.f4;
                l0.s0.f0.f5 = r.s0.f0.f5;
                l0.s0.f0.f6 = r.s0.f0.f6;
                l0.s0.f1.tag = r.s0.f1.tag;
                l0.s0.f1.s0 = r.s0.f1.s0;
            }
            return l0;
            break;
        }
    }
    l10 = l1.p + (size_t)l7.s0;
    l11 = (*(uint8_t *)l10);
    l12 = (uint8_t)(l11 != l2);
    if (l12) {
        l0.tag = UINT8_C(0);
        return l0;
    }
    l13 = uses__parts__dued(l3, l7.s0);
    l14.tag = UINT8_C(0);
    l15.f0.f0 = l13.f0;
    l15.f0.f1 = l13.f1;
    l15.f0.f2 = l13.f2;
    l15.f0.f3 = l13.f3;
    l15.f0.f4 = l13.f4;
    l15.f0.f5 = l13.f5;
    l15.f0.f6 = l13.f6;
    l15.f1 = l14;
    l0.tag = UINT8_C(1);
    l0.s0.f0.f0 = l15.f0.f0;
    l0.s0.f0.f1 = l15.f0.f1;
    l0.s0.f0.f2 = l15.f0.f2;
    l0.s0.f0.f3 = l15.f0.f3;
    l0.s0.f0.f4 = l15.f0.f4;
    l0.s0.f0.f5 = l15.f0.f5;
    l0.s0.f0.f6 = l15.f0.f6;
    l0.s0.f1 = l15.f1;
    return l0;
}

static RT_HERE struct core__option__Option__rt_tuple2_uses_Scope_Option_u8 uses__parts__close_if(rt_slice l1, struct uses__Scope l2)
{
    struct core__option__Option__rt_tuple2_uses_Scope_Option_u8 l0;
    uint64_t l6;
    struct core__ops__ControlFlow__NoValue_u64 l7;
    struct core__option__Option__u64 l8;
    uint64_t l10;
    uint64_t l11;
    uint8_t *l12;
    uint8_t l13;
    struct uses__Scope l14;
    struct core__option__Option__u8 l15;
    struct rt_tuple2__uses_Scope_Option_u8 l16;
    l8 = core__int__checked__usize__checked_sub(l2.f6, UINT64_C(1));
    l7 = core__option__OptionTry__branch__u64(l8);
    switch (l7.tag) {
        case UINT8_C(0): {
            break;
        }
        case UINT8_C(1): default: {
            {
                struct core__option__Option__rt_tuple2_uses_Scope_Option_u8 r = core__option__OptionFromResidualNoValue__from_residual_e7cc27ad(l7.s1);
                l0.tag = r.tag;
                l0.s0.f0.f0 = r.s0.f0.f0;
                l0.s0.f0.f1 = r.s0.f0.f1;
                l0.s0.f0.f2 = r.s0.f0.f2;
                l0.s0.f0.f3 = r.s0.f0.f3;
                l0.s0.f0.f4 = r.s0.f0.f4;
                l0.s0.f0.f5 = r.s0.f0.f5;
                l0.s0.f0.f6 = r.s0.f0.f6;
                l0.s0.f1.tag = r.s0.f1.tag;
                l0.s0.f1.s0 = r.s0.f1.s0;
            }
            return l0;
            break;
        }
    }
    l10 = l1.n;
    l11 = (uint64_t)((uint64_t)l10 - (uint64_t)l2.f6);
    l12 = l1.p + (size_t)l11;
    l13 = (*(uint8_t *)l12);
    l6 = core__convert__UsizeFromU8__from(l13);
    l10 = core__int__usize__min(l2.f2, l6);
    l14 = uses__parts__lived(l2, l2.f1, l10, l7.s0);
    l15.tag = UINT8_C(0);
    l16.f0.f0 = l14.f0;
    l16.f0.f1 = l14.f1;
    l16.f0.f2 = l14.f2;
    l16.f0.f3 = l14.f3;
    l16.f0.f4 = l14.f4;
    l16.f0.f5 = l14.f5;
    l16.f0.f6 = l14.f6;
    l16.f1 = l15;
    l0.tag = UINT8_C(1);
    l0.s0.f0.f0 = l16.f0.f0;
    l0.s0.f0.f1 = l16.f0.f1;
    l0.s0.f0.f2 = l16.f0.f2;
    l0.s0.f0.f3 = l16.f0.f3;
    l0.s0.f0.f4 = l16.f0.f4;
    l0.s0.f0.f5 = l16.f0.f5;
    l0.s0.f0.f6 = l16.f0.f6;
    l0.s0.f1 = l16.f1;
    return l0;
}

static RT_HERE struct uses__Scope uses__parts__dued(struct uses__Scope l1, uint64_t l2)
{
    struct uses__Scope l0;
    l0.f0 = l1.f0;
    l0.f1 = l1.f1;
    l0.f2 = l1.f2;
    l0.f3 = l1.f3;
    l0.f4 = l1.f4;
    l0.f5 = l2;
    l0.f6 = l1.f6;
    return l0;
}

static RT_HERE struct core__option__Option__rt_tuple2_uses_Scope_Option_u8 uses__parts__go_on(rt_slice l1, struct uses__Scope l2)
{
    struct core__option__Option__rt_tuple2_uses_Scope_Option_u8 l0;
    struct core__ops__ControlFlow__NoValue_u64 l9;
    struct core__option__Option__u64 l10;
    struct core__ops__ControlFlow__NoValue_u8 l12;
    struct core__option__Option__u8 l13;
    uint8_t *l14;
    uint8_t l15;
    uint8_t *l17;
    struct rt_tuple2__uses_Scope_Option_u8 l18;
    l10 = core__int__checked__usize__checked_sub(l2.f5, UINT64_C(1));
    l9 = core__option__OptionTry__branch__u64(l10);
    switch (l9.tag) {
        case UINT8_C(0): {
            break;
        }
        case UINT8_C(1): default: {
            {
                struct core__option__Option__rt_tuple2_uses_Scope_Option_u8 r = core__option__OptionFromResidualNoValue__from_residual_e7cc27ad(l9.s1);
                l0.tag = r.tag;
                l0.s0.f0.f0 = r.s0.f0.f0;
                l0.s0.f0.f1 = r.s0.f0.f1;
                l0.s0.f0.f2 = r.s0.f0.f2;
                l0.s0.f0.f3 = r.s0.f0.f3;
                l0.s0.f0.f4 = r.s0.f0.f4;
                l0.s0.f0.f5 = r.s0.f0.f5;
                l0.s0.f0.f6 = r.s0.f0.f6;
                l0.s0.f1.tag = r.s0.f1.tag;
                l0.s0.f1.s0 = r.s0.f1.s0;
            }
            return l0;
            break;
        }
    }
    l14 = l1.p + (size_t)l9.s0;
    l15 = (*(uint8_t *)l14);
    l13 = core__int__checked__u8__checked_sub(l15, UINT8_C(1));
    l12 = core__option__OptionTry__branch__u8(l13);
    switch (l12.tag) {
        case UINT8_C(0): {
            break;
        }
        case UINT8_C(1): default: {
            {
                struct core__option__Option__rt_tuple2_uses_Scope_Option_u8 r = core__option__OptionFromResidualNoValue__from_residual_e7cc27ad(l12.s1);
                l0.tag = r.tag;
                l0.s0.f0.f0 = r.s0.f0.f0;
                l0.s0.f0.f1 = r.s0.f0.f1;
                l0.s0.f0.f2 = r.s0.f0.f2;
                l0.s0.f0.f3 = r.s0.f0.f3;
                l0.s0.f0.f4 = r.s0.f0.f4;
                l0.s0.f0.f5 = r.s0.f0.f5;
                l0.s0.f0.f6 = r.s0.f0.f6;
                l0.s0.f1.tag = r.s0.f1.tag;
                l0.s0.f1.s0 = r.s0.f1.s0;
            }
            return l0;
            break;
        }
    }
    l17 = l1.p + (size_t)l9.s0;
    (*(uint8_t *)l17) = l12.s0;
    l13.tag = UINT8_C(0);
    l18.f0.f0 = l2.f0;
    l18.f0.f1 = l2.f1;
    l18.f0.f2 = l2.f2;
    l18.f0.f3 = l2.f3;
    l18.f0.f4 = l2.f4;
    l18.f0.f5 = l2.f5;
    l18.f0.f6 = l2.f6;
    l18.f1 = l13;
    l0.tag = UINT8_C(1);
    l0.s0.f0.f0 = l18.f0.f0;
    l0.s0.f0.f1 = l18.f0.f1;
    l0.s0.f0.f2 = l18.f0.f2;
    l0.s0.f0.f3 = l18.f0.f3;
    l0.s0.f0.f4 = l18.f0.f4;
    l0.s0.f0.f5 = l18.f0.f5;
    l0.s0.f0.f6 = l18.f0.f6;
    l0.s0.f1 = l18.f1;
    return l0;
}

static RT_HERE struct core__option__Option__rt_tuple2_uses_Scope_Option_u8 uses__parts__kind_role(rt_slice l1, uint64_t l2, uint8_t l3, struct uses__Scope l4)
{
    struct core__option__Option__rt_tuple2_uses_Scope_Option_u8 l0;
    struct core__option__Option__rt_tuple2_uses_Scope_Option_u8 l5;
    struct uses__Scope l6;
    struct core__option__Option__u8 l7;
    struct rt_tuple2__uses_Scope_Option_u8 l8;
    struct core__option__Option__u32 l9;
    struct core__option__Option__u32 l10;
    struct core__option__Option__u8 l11;
    struct rt_tuple2__uses_Scope_Option_u8 l12;
    switch (l3) {
        case UINT8_C(19): {
            l6 = uses__parts__lived(l4, l4.f1, l4.f2, l4.f6);
            l7.tag = UINT8_C(0);
            l8.f0.f0 = l6.f0;
            l8.f0.f1 = l6.f1;
            l8.f0.f2 = l6.f2;
            l8.f0.f3 = l6.f3;
            l8.f0.f4 = l6.f4;
            l8.f0.f5 = l6.f5;
            l8.f0.f6 = l6.f6;
            l8.f1 = l7;
            l5.tag = UINT8_C(1);
            l5.s0.f0.f0 = l8.f0.f0;
            l5.s0.f0.f1 = l8.f0.f1;
            l5.s0.f0.f2 = l8.f0.f2;
            l5.s0.f0.f3 = l8.f0.f3;
            l5.s0.f0.f4 = l8.f0.f4;
            l5.s0.f0.f5 = l8.f0.f5;
            l5.s0.f0.f6 = l8.f0.f6;
            l5.s0.f1 = l8.f1;
            break;
        }
        case UINT8_C(37): {
            l9 = resolve__literals__int_word(l1, l2);
            l5 = uses__parts__of_type(l9, l4);
            break;
        }
        case UINT8_C(38): {
            l10 = resolve__literals__nat_word(l1, l2);
            l5 = uses__parts__of_type(l10, l4);
            break;
        }
        default: {
            l11.tag = UINT8_C(0);
            l12.f0.f0 = l4.f0;
            l12.f0.f1 = l4.f1;
            l12.f0.f2 = l4.f2;
            l12.f0.f3 = l4.f3;
            l12.f0.f4 = l4.f4;
            l12.f0.f5 = l4.f5;
            l12.f0.f6 = l4.f6;
            l12.f1 = l11;
            l5.tag = UINT8_C(1);
            l5.s0.f0.f0 = l12.f0.f0;
            l5.s0.f0.f1 = l12.f0.f1;
            l5.s0.f0.f2 = l12.f0.f2;
            l5.s0.f0.f3 = l12.f0.f3;
            l5.s0.f0.f4 = l12.f0.f4;
            l5.s0.f0.f5 = l12.f0.f5;
            l5.s0.f0.f6 = l12.f0.f6;
            l5.s0.f1 = l12.f1;
            break;
        }
    }
    l0 = l5;
    return l0;
}

static RT_HERE struct uses__Scope uses__parts__lived(struct uses__Scope l1, uint64_t l2, uint64_t l3, uint64_t l4)
{
    struct uses__Scope l0;
    l0.f0 = l1.f0;
    l0.f1 = l2;
    l0.f2 = l3;
    l0.f3 = UINT64_C(0);
    l0.f4 = l1.f4;
    l0.f5 = l1.f5;
    l0.f6 = l4;
    return l0;
}

static RT_HERE struct core__option__Option__rt_tuple2_uses_Scope_Option_u8 uses__parts__of_type(struct core__option__Option__u32 l1, struct uses__Scope l2)
{
    struct core__option__Option__rt_tuple2_uses_Scope_Option_u8 l0;
    struct core__ops__ControlFlow__NoValue_u32 l5;
    struct core__option__Option__u8 l7;
    struct rt_tuple2__uses_Scope_Option_u8 l8;
    l5 = core__option__OptionTry__branch__u32(l1);
    switch (l5.tag) {
        case UINT8_C(0): {
            break;
        }
        case UINT8_C(1): default: {
            {
                struct core__option__Option__rt_tuple2_uses_Scope_Option_u8 r = core__option__OptionFromResidualNoValue__from_residual_e7cc27ad(l5.s1);
                l0.tag = r.tag;
                l0.s0.f0.f0 = r.s0.f0.f0;
                l0.s0.f0.f1 = r.s0.f0.f1;
                l0.s0.f0.f2 = r.s0.f0.f2;
                l0.s0.f0.f3 = r.s0.f0.f3;
                l0.s0.f0.f4 = r.s0.f0.f4;
                l0.s0.f0.f5 = r.s0.f0.f5;
                l0.s0.f0.f6 = r.s0.f0.f6;
                l0.s0.f1.tag = r.s0.f1.tag;
                l0.s0.f1.s0 = r.s0.f1.s0;
            }
            return l0;
            break;
        }
    }
    l7.tag = UINT8_C(0);
    l8.f0.f0 = l2.f0;
    l8.f0.f1 = l2.f1;
    l8.f0.f2 = l2.f2;
    l8.f0.f3 = l2.f3;
    l8.f0.f4 = l2.f4;
    l8.f0.f5 = l2.f5;
    l8.f0.f6 = l2.f6;
    l8.f1 = l7;
    l0.tag = UINT8_C(1);
    l0.s0.f0.f0 = l8.f0.f0;
    l0.s0.f0.f1 = l8.f0.f1;
    l0.s0.f0.f2 = l8.f0.f2;
    l0.s0.f0.f3 = l8.f0.f3;
    l0.s0.f0.f4 = l8.f0.f4;
    l0.s0.f0.f5 = l8.f0.f5;
    l0.s0.f0.f6 = l8.f0.f6;
    l0.s0.f1 = l8.f1;
    return l0;
}

static RT_HERE struct core__option__Option__rt_tuple2_uses_Scope_Option_u8 uses__parts__open_if(rt_slice l1, struct uses__Scope l2)
{
    struct core__option__Option__rt_tuple2_uses_Scope_Option_u8 l0;
    uint64_t l3;
    uint64_t l5;
    uint64_t l6;
    uint64_t l7;
    uint8_t l8;
    uint8_t *l9;
    struct uses__Scope l10;
    struct core__option__Option__u8 l11;
    struct rt_tuple2__uses_Scope_Option_u8 l12;
    l3 = (uint64_t)((uint64_t)l2.f2 - (uint64_t)l2.f3);
    l6 = l1.n;
    l7 = (uint64_t)((uint64_t)l2.f6 + (uint64_t)UINT64_C(1));
    l5 = (uint64_t)((uint64_t)l6 - (uint64_t)l7);
    l8 = (uint8_t)l3;
    l9 = l1.p + (size_t)l5;
    (*(uint8_t *)l9) = l8;
    l6 = (uint64_t)((uint64_t)l2.f6 + (uint64_t)UINT64_C(1));
    l10 = uses__parts__lived(l2, l2.f1, l3, l6);
    l11.tag = UINT8_C(0);
    l12.f0.f0 = l10.f0;
    l12.f0.f1 = l10.f1;
    l12.f0.f2 = l10.f2;
    l12.f0.f3 = l10.f3;
    l12.f0.f4 = l10.f4;
    l12.f0.f5 = l10.f5;
    l12.f0.f6 = l10.f6;
    l12.f1 = l11;
    l0.tag = UINT8_C(1);
    l0.s0.f0.f0 = l12.f0.f0;
    l0.s0.f0.f1 = l12.f0.f1;
    l0.s0.f0.f2 = l12.f0.f2;
    l0.s0.f0.f3 = l12.f0.f3;
    l0.s0.f0.f4 = l12.f0.f4;
    l0.s0.f0.f5 = l12.f0.f5;
    l0.s0.f0.f6 = l12.f0.f6;
    l0.s0.f1 = l12.f1;
    return l0;
}

static RT_HERE struct core__option__Option__rt_tuple2_uses_Scope_Option_u8 uses__parts__part_role(rt_slice l1, uint8_t l2, struct uses__Scope l3)
{
    struct core__option__Option__rt_tuple2_uses_Scope_Option_u8 l0;
    struct core__option__Option__rt_tuple2_uses_Scope_Option_u8 l4;
    uint8_t *l5;
    rt_slice l6;
    uint8_t *l7;
    rt_slice l8;
    struct uses__Scope l9;
    struct core__option__Option__u8 l10;
    struct rt_tuple2__uses_Scope_Option_u8 l11;
    uint8_t *l12;
    rt_slice l13;
    uint8_t *l14;
    rt_slice l15;
    uint8_t *l16;
    rt_slice l17;
    struct core__option__Option__u8 l18;
    struct rt_tuple2__uses_Scope_Option_u8 l19;
    switch (l2) {
        case UINT8_C(66): {
            l5 = (uint8_t *)&(*(uint8_t *)l1.p);
            l6.p = l5;
            l6.n = l1.n;
            l4 = uses__parts__close(l6, UINT8_C(1), l3);
            break;
        }
        case UINT8_C(67): {
            l7 = (uint8_t *)&(*(uint8_t *)l1.p);
            l8.p = l7;
            l8.n = l1.n;
            l4 = uses__parts__close(l8, UINT8_C(0), l3);
            break;
        }
        case UINT8_C(75): {
            l9 = uses__parts__lived(l3, UINT64_C(0), UINT64_C(0), UINT64_C(0));
            l10.tag = UINT8_C(0);
            l11.f0.f0 = l9.f0;
            l11.f0.f1 = l9.f1;
            l11.f0.f2 = l9.f2;
            l11.f0.f3 = l9.f3;
            l11.f0.f4 = l9.f4;
            l11.f0.f5 = l9.f5;
            l11.f0.f6 = l9.f6;
            l11.f1 = l10;
            l4.tag = UINT8_C(1);
            l4.s0.f0.f0 = l11.f0.f0;
            l4.s0.f0.f1 = l11.f0.f1;
            l4.s0.f0.f2 = l11.f0.f2;
            l4.s0.f0.f3 = l11.f0.f3;
            l4.s0.f0.f4 = l11.f0.f4;
            l4.s0.f0.f5 = l11.f0.f5;
            l4.s0.f0.f6 = l11.f0.f6;
            l4.s0.f1 = l11.f1;
            break;
        }
        case UINT8_C(76): {
            l12 = (uint8_t *)&(*(uint8_t *)l1.p);
            l13.p = l12;
            l13.n = l1.n;
            l4 = uses__parts__open_if(l13, l3);
            break;
        }
        case UINT8_C(77): {
            l14 = (uint8_t *)&(*(uint8_t *)l1.p);
            l15.p = l14;
            l15.n = l1.n;
            l4 = uses__parts__close_if(l15, l3);
            break;
        }
        case UINT8_C(79): {
            l16 = (uint8_t *)&(*(uint8_t *)l1.p);
            l17.p = l16;
            l17.n = l1.n;
            l4 = uses__parts__go_on(l17, l3);
            break;
        }
        default: {
            l18.tag = UINT8_C(0);
            l19.f0.f0 = l3.f0;
            l19.f0.f1 = l3.f1;
            l19.f0.f2 = l3.f2;
            l19.f0.f3 = l3.f3;
            l19.f0.f4 = l3.f4;
            l19.f0.f5 = l3.f5;
            l19.f0.f6 = l3.f6;
            l19.f1 = l18;
            l4.tag = UINT8_C(1);
            l4.s0.f0.f0 = l19.f0.f0;
            l4.s0.f0.f1 = l19.f0.f1;
            l4.s0.f0.f2 = l19.f0.f2;
            l4.s0.f0.f3 = l19.f0.f3;
            l4.s0.f0.f4 = l19.f0.f4;
            l4.s0.f0.f5 = l19.f0.f5;
            l4.s0.f0.f6 = l19.f0.f6;
            l4.s0.f1 = l19.f1;
            break;
        }
    }
    l0 = l4;
    return l0;
}

static inline uint8_t uses__pass__quiet(uint8_t l1)
{
    uint8_t l0;
    uint8_t l2;
    uint8_t l3;
    uint8_t l4;
    switch (l1) {
        case UINT8_C(19): {
            l2 = 0;
            break;
        }
        default: {
            l3 = (uint8_t)(l1 < UINT8_C(37));
            if (l3) {
                l2 = 1;
                goto end1;
            }
            l3 = (uint8_t)(l1 < UINT8_C(63));
            if (l3) {
                goto end2;
            }
            l3 = (uint8_t)(l1 < UINT8_C(66));
            if (l3) {
                l2 = 1;
                goto end1;
            }
            goto end2;
        end2:;
            l4 = (uint8_t)(UINT8_C(67) < l1);
            if (l4) {
                l4 = (uint8_t)(l1 < UINT8_C(75));
            }
            l2 = l4;
        end1:;
            break;
        }
    }
    l0 = l2;
    return l0;
}

static RT_HERE struct core__option__Option__rt_tuple2_uses_Scope_Option_u8 uses__passing__left(struct uses__Scope l1, struct core__option__Option__rt_tuple2_u8_u64 l2)
{
    struct core__option__Option__rt_tuple2_uses_Scope_Option_u8 l0;
    struct core__ops__ControlFlow__NoValue_rt_tuple2_u8_u64 l8;
    struct uses__Scope l16;
    struct core__option__Option__u8 l17;
    struct rt_tuple2__uses_Scope_Option_u8 l18;
    l8 = core__option__OptionTry__branch__rt_tuple2_u8_u64(l2);
    switch (l8.tag) {
        case UINT8_C(0): {
            break;
        }
        case UINT8_C(1): default: {
            {
                struct core__option__Option__rt_tuple2_uses_Scope_Option_u8 r = core__option__OptionFromResidualNoValue__from_residual_e7cc27ad(l8.s1);
                l0.tag = r.tag;
                l0.s0.f0.f0 = r.s0.f0.f0;
                l0.s0.f0.f1 = r.s0.f0.f1;
                l0.s0.f0.f2 = r.s0.f0.f2;
                l0.s0.f0.f3 = r.s0.f0.f3;
                l0.s0.f0.f4 = r.s0.f0.f4;
                l0.s0.f0.f5 = r.s0.f0.f5;
                l0.s0.f0.f6 = r.s0.f0.f6;
                l0.s0.f1.tag = r.s0.f1.tag;
                l0.s0.f1.s0 = r.s0.f1.s0;
            }
            return l0;
            break;
        }
    }
    l16.f0 = l1.f0;
    l16.f1 = l1.f1;
    l16.f2 = l1.f2;
    l16.f3 = l1.f3;
    l16.f4 = l8.s0.f1;
    l16.f5 = l1.f5;
    l16.f6 = l1.f6;
    l17.tag = UINT8_C(1);
    l17.s0 = l8.s0.f0;
    l18.f0.f0 = l16.f0;
    l18.f0.f1 = l16.f1;
    l18.f0.f2 = l16.f2;
    l18.f0.f3 = l16.f3;
    l18.f0.f4 = l16.f4;
    l18.f0.f5 = l16.f5;
    l18.f0.f6 = l16.f6;
    l18.f1 = l17;
    l0.tag = UINT8_C(1);
    l0.s0.f0.f0 = l18.f0.f0;
    l0.s0.f0.f1 = l18.f0.f1;
    l0.s0.f0.f2 = l18.f0.f2;
    l0.s0.f0.f3 = l18.f0.f3;
    l0.s0.f0.f4 = l18.f0.f4;
    l0.s0.f0.f5 = l18.f0.f5;
    l0.s0.f0.f6 = l18.f0.f6;
    l0.s0.f1 = l18.f1;
    return l0;
}

static inline void uses__passing__store(rt_slice l1, uint64_t l2, uint64_t l3, uint64_t l4, uint64_t l5)
{
    uint64_t l6;
    uint64_t l7;
    uint64_t l8;
    uint8_t *l9;
    uint8_t *l10;
    uint8_t *l11;
    uint8_t *l12;
    l6 = (uint64_t)((uint64_t)l3 + (uint64_t)UINT64_C(1));
    l7 = (uint64_t)((uint64_t)UINT64_C(8) - (uint64_t)l6);
    l8 = (uint64_t)((uint64_t)l7 * (uint64_t)UINT64_C(8));
    l9 = l1.p + (size_t)l8;
    (*(uint64_t *)l9) = l2;
    l6 = (uint64_t)((uint64_t)l4 + (uint64_t)UINT64_C(1));
    l8 = (uint64_t)((uint64_t)UINT64_C(16) - (uint64_t)l6);
    l7 = (uint64_t)((uint64_t)l8 * (uint64_t)UINT64_C(8));
    l10 = l1.p + (size_t)l7;
    (*(uint64_t *)l10) = l2;
    l6 = (uint64_t)((uint64_t)l4 + (uint64_t)UINT64_C(1));
    l7 = (uint64_t)((uint64_t)UINT64_C(24) - (uint64_t)l6);
    l8 = (uint64_t)((uint64_t)l7 * (uint64_t)UINT64_C(8));
    l11 = l1.p + (size_t)l8;
    (*(uint64_t *)l11) = l3;
    l6 = (uint64_t)((uint64_t)l4 + (uint64_t)UINT64_C(1));
    l8 = (uint64_t)((uint64_t)UINT64_C(32) - (uint64_t)l6);
    l7 = (uint64_t)((uint64_t)l8 * (uint64_t)UINT64_C(8));
    l12 = l1.p + (size_t)l7;
    (*(uint64_t *)l12) = l5;
    return;
}

static RT_SHORT uint8_t uses__passing__type_number(uint8_t l1)
{
    uint8_t l0;
    uint8_t l2;
    l2 = (uint8_t)(l1 < UINT8_C(59));
    if (l2) {
        l0 = (uint8_t)((uint32_t)l1 - (uint32_t)UINT8_C(55));
        return l0;
    }
    l0 = (uint8_t)((uint32_t)l1 - (uint32_t)UINT8_C(59));
    return l0;
}

static inline uint8_t uses__tabling__fill(rt_slice l1, rt_slice l2, rt_slice l3)
{
    uint8_t l0;
    struct rt_array_uint64_400 l4;
    uint64_t l5;
    struct uses__declared__Declarations l6;
    uint8_t *l7;
    rt_slice l8;
    uint8_t l9;
    uint8_t *l10;
    rt_slice l11;
    uint8_t *l13;
    rt_slice l14;
    memset(&l4, 0, sizeof l4);
    l7 = (uint8_t *)&l4;
    l8.p = l7;
    l8.n = UINT64_C(400);
    l5 = uses__declared__all(l2, l8);
    l9 = (uint8_t)(UINT64_C(400) < l5);
    if (l9) {
        l0 = 0;
        return l0;
    }
    l10 = (uint8_t *)&l4;
    l11.p = l10;
    l11.n = l5;
    l6.f0 = l1;
    l6.f1 = l2;
    l6.f2 = l11;
    l13 = (uint8_t *)&(*(uint64_t *)l3.p);
    l14.p = l13;
    l14.n = l3.n;
    l0 = uses__declared__Declarations__filled(l6, l14);
    return l0;
}

/* What a caller lends. A null pointer stands for an empty buffer: the code behind it adds offsets of 0 to pointers, which null does not allow. */
static const uint64_t rt_nothing = 0;

static rt_slice rt_lent(const void *p, size_t n)
{
    rt_slice s = { (uint8_t *)(p != NULL ? p : &rt_nothing), n };
    return s;
}

audala_verdict audala_check(const uint8_t *image, size_t length, uint64_t *list, size_t places)
{
    struct audala__Answer r = audala__audala_check(rt_lent(image, length), rt_lent(list, places));
    audala_verdict given = { .number = (uint32_t)r.f0, .structs = (uint32_t)r.f1, .steps = (uint32_t)r.f2, .commands = (uint32_t)r.f3, .depth = (uint32_t)r.f4 };
    return given;
}

audala_counts audala_count(const uint8_t *program, size_t program_length, const uint8_t *table, size_t table_length, uint32_t name, uint32_t label, uint32_t parameter, uint64_t *list, size_t places)
{
    struct audala__tallies__Counts r = audala__tallies__audala_count(rt_lent(program, program_length), rt_lent(table, table_length), name, label, parameter, rt_lent(list, places));
    audala_counts given = { .number = (uint32_t)r.f0, .true_orders = (uint32_t)r.f1, .false_orders = (uint32_t)r.f2, .stopped = (uint32_t)r.f3 };
    return given;
}

audala_copied audala_listing(const uint8_t *image, size_t length, uint8_t *output, size_t room)
{
    struct audala__images__Copied r = audala__listings__audala_listing(rt_lent(image, length), rt_lent(output, room));
    audala_copied given = { .number = (uint32_t)r.f0, .count = (size_t)r.f1 };
    return given;
}

audala_stopped audala_place(const uint8_t *text, size_t length)
{
    struct audala__places__Stopped r = audala__places__audala_place(rt_lent(text, length));
    audala_stopped given = { .at = (size_t)r.f0 };
    return given;
}

audala_copied audala_read_image(const uint8_t *image, size_t length, size_t most, uint8_t *buffer, size_t room)
{
    struct audala__images__Copied r = audala__images__audala_read_image(rt_lent(image, length), most, rt_lent(buffer, room));
    audala_copied given = { .number = (uint32_t)r.f0, .count = (size_t)r.f1 };
    return given;
}

audala_report audala_run(const uint8_t *program, size_t program_length, const uint8_t *table, size_t table_length, const uint8_t *turns, size_t turn_count, uint8_t *output, size_t output_length, uint64_t *list, size_t places)
{
    struct audala__Report r = audala__audala_run(rt_lent(program, program_length), rt_lent(table, table_length), rt_lent(turns, turn_count), rt_lent(output, output_length), rt_lent(list, places));
    audala_report given = { .number = (uint32_t)r.f0, .turns = (uint32_t)r.f1, .blocks = (uint32_t)r.f2, .depth = (uint32_t)r.f3, .holding = (uint32_t)r.f4 };
    return given;
}

audala_part audala_step(const uint8_t *image, size_t length, const uint64_t *list, size_t places, uint8_t structure, uint8_t name)
{
    struct audala__Part r = audala__audala_step(rt_lent(image, length), rt_lent(list, places), structure, name);
    audala_part given = { .number = (uint32_t)r.f0, .start = (uint32_t)r.f1, .length = (uint32_t)r.f2 };
    return given;
}

audala_copied audala_text(const uint8_t *text, size_t length, uint8_t *output, size_t room)
{
    struct audala__images__Copied r = audala__texts__audala_text(rt_lent(text, length), rt_lent(output, room));
    audala_copied given = { .number = (uint32_t)r.f0, .count = (size_t)r.f1 };
    return given;
}

audala_traced audala_trace(const uint8_t *program, size_t program_length, const uint8_t *table, size_t table_length, const uint8_t *turns, size_t turn_count, uint64_t from, uint8_t *output, size_t room)
{
    struct audala__traces__Traced r = audala__traces__audala_trace(rt_lent(program, program_length), rt_lent(table, table_length), rt_lent(turns, turn_count), from, rt_lent(output, room));
    audala_traced given = { .number = (uint32_t)r.f0, .turns = (uint32_t)r.f1, .length = (uint64_t)r.f2, .count = (size_t)r.f3 };
    return given;
}

audala_copied audala_write_image(const uint8_t *stream, size_t length, size_t most, uint8_t *output, size_t room)
{
    struct audala__images__Copied r = audala__images__audala_write_image(rt_lent(stream, length), most, rt_lent(output, room));
    audala_copied given = { .number = (uint32_t)r.f0, .count = (size_t)r.f1 };
    return given;
}
