/* Slushtrowel: is a change irrelevant to a list, or computable from it?
 *
 * A question is a string of bytes that holds a list definition and one change of one of its tables.
 * A sheet is a string of bytes that shows a verdict, so that another can check it without trust in
 * whoever wrote it. README.md and docs/ describe both.
 *
 *     asked 1   is the change irrelevant: does it leave the list as it is, whatever the tables hold?
 *     asked 2   is it computable: does the old list alone tell the new one?
 *
 * Build the library with `make lib` and link target/staticlib/libcapi.a (x86-64). It calls nothing
 * but memcpy, memmove and memset (no allocation, no input or output, no global state), so the
 * functions may be called from any thread at once. They need some stack, because sheets and formulas
 * are walked by recursion: allow 2 MB. The most that was measured is 1.64 MB, for the writing of a
 * sheet as deep as one can be (its check takes 0.87 MB); what a verdict's deepest nesting would take
 * is an estimate, 1.4 MB (docs/notes/stack.md).
 *
 * Every function returns 0, or the number of the refusal:
 *
 *      1  the question ends within a field          2  not the mark VUQ
 *      3  neither version 1 nor 2                   4  a count, kind, table, mode, flag or the like
 *      5  a range, constant or value out of range   6  a malformed condition
 *      7  a column that doesn't exist there         8  no visible column
 *      9  bytes after the question's end
 *     11  the sheet ends within a field            12  not the mark VUS
 *     13  not a sheet of version 1                 14  a byte outside the values that a sheet may have
 *     15  a leaf, branch, value or row that        16  bytes after the sheet's end
 *         doesn't hold
 *     20  asked is neither 1 nor 2                 21  the sheet is longer than the room
 *
 * They are tested in this order: 20, then the question, then the sheet or the room. The place of a
 * refusal is the offset of the faulty field in the question (1 to 9) or the sheet (11 to 15), and 0
 * for 16, 20 and 21.
 *
 * What the caller owes, and no proof can see: no pointer is null, not even one with a length of 0;
 * each points to as many bytes as its length says; `place` and `length_or_place` are aligned; what is
 * written (the room and the two results) overlaps nothing else that is passed. Lengths are at most
 * PTRDIFF_MAX. Any bytes whatever may stand in a question, a sheet and a room.
 */
#ifndef SLUSHTROWEL_H
#define SLUSHTROWEL_H

#include <stddef.h>
#include <stdint.h>

#ifdef __cplusplus
extern "C" {
#endif

#define VU_IRRELEVANT 1 /* asked: is the change irrelevant? */
#define VU_COMPUTABLE 2 /* asked: is the change computable? */

#define VU_YES 0          /* the verdict: it is */
#define VU_NO 1           /* the verdict: it isn't */
#define VU_NO_VERDICT 255 /* what *verdict holds after every refusal */

/* The verdict alone. It needs no room, and is found faster than the sheet is written.
 *
 * Returns 0:   *verdict is VU_YES or VU_NO, *place is 0.
 * Otherwise:   *verdict is VU_NO_VERDICT, *place is the refusal's place. Numbers 1 to 9 and 20.
 */
uint8_t vu_verdict(uint8_t asked, const uint8_t *question, size_t n,
                   uint8_t *verdict, uint64_t *place);

/* Writes the sheet.
 *
 * Returns 0:   *verdict is VU_YES or VU_NO, *length_or_place is the sheet's length; the room holds
 *              the sheet, then zeros to its end.
 * Returns 21:  the sheet is longer than the room; the room is all zero, *verdict is VU_NO_VERDICT,
 *              *length_or_place is 0. Ask again with more room, or use vu_verdict.
 * Otherwise:   the room is as it was, *verdict is VU_NO_VERDICT, *length_or_place is the refusal's
 *              place. Numbers 1 to 9 and 20.
 */
uint8_t vu_write(uint8_t asked, const uint8_t *question, size_t n,
                 uint8_t *room, size_t room_len,
                 uint8_t *verdict, uint64_t *length_or_place);

/* Checks a sheet, whoever wrote it, against a question.
 *
 * Returns 0:   the sheet passes: what it shows is so. *verdict is VU_YES or VU_NO, *place is 0.
 * Otherwise:   *verdict is VU_NO_VERDICT, *place is the refusal's place. Numbers 1 to 9, 11 to 16
 *              and 20.
 *
 * No question has passing sheets with opposite verdicts for the same asked.
 */
uint8_t vu_check(uint8_t asked, const uint8_t *question, size_t n,
                 const uint8_t *sheet, size_t m,
                 uint8_t *verdict, uint64_t *place);

#ifdef __cplusplus
}
#endif

#endif
