/*
 * Reckonferry: LLVM type tables and data layout strings, read by a library that is proved.
 *
 * Made by tools/header from crates/reckonferry/src/lib.rt. Do not change it here: change that file and run the
 * tool.
 *
 * Every function answers for every content of its buffers, ends, and allocates nothing; none keeps a pointer or
 * has a state, so that several threads may call at once. A buffer is a pointer and its length in elements. No
 * function reads or writes outside the buffers that it is lent, and one that is too short is never written past.
 * Where the length is 0 nothing is read or written through the pointer, which may be null.
 *
 * Of a caller is asked what C's types say and no more: that a pointer is to as many elements as its length says,
 * that nothing else writes them during the call, and, by `restrict`, that a buffer that is not `const` overlaps
 * no other buffer of the same call.
 *
 * What each answer means is proved in crates/reckonferry and the crates below it. Refusal numbers, their places
 * and details are in docs/REFUSALS.md, the sizes of buffers and of the stack in docs/BUFFERS.md.
 */

#ifndef RECKONFERRY_H
#define RECKONFERRY_H

#include <stdbool.h>
#include <stddef.h>
#include <stdint.h>

/*
 * Words of a row: kind; number; flag; first reference place; reference count; name start; name length; 1 if
 * named.
 */
#define RECKONFERRY_ROW_WORDS 8

/* No table has more entries. */
#define RECKONFERRY_MAX_ENTRIES 4096

/* Words of an answer: the refusal's number, its place and its detail. */
#define RECKONFERRY_ANSWER_WORDS 3

/* No layout has more words. */
#define RECKONFERRY_LAYOUT_WORDS 461

/*
 * Reads a type table from the words of a stream.
 *
 * Over the front of `answer`, as far as it reaches: 0, the number of entries and 0 where the table is accepted;
 * else the number of the refusal, its place and its detail (docs/REFUSALS.md).
 *
 * Accepted: `rows` holds RECKONFERRY_ROW_WORDS words for each entry, `refs` the references and `names` the bytes
 * of the names, one behind the other in the order of the entries; `witness` holds a rank for each entry, below
 * the rank of every entry that refers to it. The rest of each is 0. Refused: all four are 0, but that refusal 19
 * leaves its ring at the front of `witness`.
 *
 * What the four hold before is overwritten. Where one of them is too short for the table, that is refusal 9.
 */
void reckonferry_read_table(
    const uint64_t *restrict words,
    size_t words_len,
    uint64_t *restrict rows,
    size_t rows_len,
    uint64_t *restrict refs,
    size_t refs_len,
    uint8_t *restrict names,
    size_t names_len,
    uint64_t *restrict witness,
    size_t witness_len,
    uint64_t *restrict answer,
    size_t answer_len);

/*
 * Whether `rows`, `refs` and `names` are a lawful table of `count` entries and `ranks` show that it has no
 * cycle. It shares only the smallest parts with the reader and trusts nobody: not the reader, not the caller.
 * What reckonferry_read_table accepts passes, with `witness` for the ranks.
 */
bool reckonferry_check_table(
    const uint64_t *restrict rows,
    size_t rows_len,
    const uint64_t *restrict refs,
    size_t refs_len,
    const uint8_t *restrict names,
    size_t names_len,
    const uint64_t *restrict ranks,
    size_t ranks_len,
    size_t count);

/*
 * Whether `entry` has a name: it is a whole row of `rows`, a struct, marked as named, and its stretch lies in
 * `names`. A name may be empty.
 */
bool reckonferry_has_name(
    const uint64_t *restrict rows,
    size_t rows_len,
    const uint8_t *restrict names,
    size_t names_len,
    uint64_t entry);

/* Where in `names` the name of `entry` starts, or 0 where it has none. */
size_t reckonferry_name_start(
    const uint64_t *restrict rows,
    size_t rows_len,
    const uint8_t *restrict names,
    size_t names_len,
    uint64_t entry);

/*
 * How many bytes the name of `entry` has, or 0 where it has none. They lie in `names` from
 * reckonferry_name_start on.
 */
size_t reckonferry_name_len(
    const uint64_t *restrict rows,
    size_t rows_len,
    const uint8_t *restrict names,
    size_t names_len,
    uint64_t entry);

/*
 * Reads a data layout string, of which no 0 byte at the end is part.
 *
 * Over the front of `answer`, as far as it reaches: 0, 0 and 0 where the string is taken; else the number of the
 * refusal, its place and its detail (docs/REFUSALS.md).
 *
 * Over the front of `layout`, as far as it reaches, the words of the layout, or of the default one where the
 * string is refused, and 0 behind them: 0 big or 1 little endian; stack alignment or 0; program, global and
 * alloca spaces; aggregate alignment; function pointer alignment kind (0 none, 1 independent, 2 multiple) and
 * its alignment or 0; mangling (0 none, else 1 to 6 for e m o x w a); the count of native widths and the widths;
 * the count of non-integral spaces and the spaces; the count of type rows and for each its kind (0 integer, 1
 * vector, 2 float, 3 aggregate), width, ABI and preferred alignment; the count of pointer rows and for each its
 * space, size, ABI and preferred alignment, index size. Alignments are in bits.
 *
 * Returns how many words the layout has, at most RECKONFERRY_LAYOUT_WORDS, also where fewer fit.
 */
size_t reckonferry_read_layout(
    const uint8_t *restrict value,
    size_t value_len,
    uint64_t *restrict answer,
    size_t answer_len,
    uint64_t *restrict layout,
    size_t layout_len);

#endif
