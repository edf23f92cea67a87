/* Farthingmoss: the text of symbols of the Microsoft C++ compiler, in buffers that the caller lends.
 *
 * No call allocates, keeps a pointer, has state of its own, or asks for anything to be checked first: any bytes, any
 * flags and any buffers get an answer or a numbered refusal, the same one each time. Calls may run at the same time as
 * long as their buffers are apart. A call is tested to run in 1 MiB of stack. Link with libfarthingmoss.a (x86-64): of
 * other libraries it needs memcpy and memset.
 *
 * Example: prints `int x`.
 *
 *     #include <stdio.h>
 *     #include "farthingmoss.h"
 *     int main(void) {
 *         static uint32_t table[1024 * FARTHINGMOSS_NODE_CELLS];
 *         static uint8_t text[4096];
 *         const uint8_t symbol[] = {'?', 'x', '@', '@', '3', 'H', 'A'};
 *         uint64_t report[5];
 *         farthingmoss_read(symbol, sizeof symbol, 0, 200, table, sizeof table / 4, text, sizeof text, report);
 *         return report[0] != 0 || printf("%.*s\n", (int)report[4], (const char *)text) < 0;
 *     }
 *
 * THE REPORT has five numbers, and each call writes all of them.
 *
 *     report[0]  the number: 0 if the call is answered, else why it is refused
 *     report[1]  the offset: a place in the symbol, in bytes
 *     report[2]  the depth        | what the symbol takes: the least that would do for the same answer.
 *     report[3]  the nodes        | Counts of 0 and 6 only, all zero on another refusal;
 *     report[4]  the text length  | farthingmoss_name has the place of the name in the last two instead
 *
 *     number                       when                                                offset
 *     0 FARTHINGMOSS_ANSWERED      answered                                            bytes of the symbol consumed (*)
 *     1 FARTHINGMOSS_NO_SYMBOL     the symbol is empty or longer than 4,096 bytes      0
 *     2 FARTHINGMOSS_NOT_ASCII     a byte of 128 or more                               of the first such byte
 *     3 FARTHINGMOSS_NO_DERIVATION not a symbol                                        bytes consumed
 *     4 FARTHINGMOSS_TOO_DEEP      deeper than the depth lent                          bytes consumed (*)
 *     5 FARTHINGMOSS_NO_NODE       the next node does not fit into the table           bytes consumed
 *     6 FARTHINGMOSS_NO_ROOM       the text is longer than its buffer                  bytes consumed (*)
 *     7 FARTHINGMOSS_BAD_CALL      a depth above 200, or an unknown flag bit           0
 *     8 FARTHINGMOSS_BAD_TABLE     not a table of this symbol, or no such name         0
 *                                                             (*) farthingmoss_write and farthingmoss_name: always 0
 *
 * Bytes may be left over behind those consumed: a caller who minds compares the offset with the symbol's length.
 * A number refused with 3 is consumed up to the byte that does not belong: in `?x@@3Y0B0@HA` the offset is 8.
 * Of several refusals the first in this order comes: 7, 1, 2; in reading, the first of 3, 4 and 5 that is met; then 6.
 * For 6 the counts are those of 0, but the text length is the buffer's: what the whole text takes is not told.
 *
 * THE BUFFERS are a pointer and a length in elements: bytes for symbol and text, cells (uint32_t) for the table.
 *
 * - No pointer may be null. A length may be 0; then the pointer is not followed.
 * - A buffer that a call writes (report, text, and the table of farthingmoss_read) must not overlap another buffer of
 *   the same call. Pointers are aligned as their types ask.
 * - A table holds whole nodes of FARTHINGMOSS_NODE_CELLS cells. A shorter tail is neither read nor written.
 * - Old contents of text and report never matter, and those of the table do not to farthingmoss_read: clear nothing.
 * - No zero byte is put behind the text. Its bytes are below 128; names in it have the symbol's own, even below 32.
 * - A symbol of n bytes takes at most 2 n - 1 nodes. Its text may be far longer than the symbol.
 *
 * What a call leaves in the buffers; everything not named is as it was before:
 *
 *                  table (farthingmoss_read alone changes one)    text
 *     0            the nodes, report[3] of them                   the text, report[4] bytes
 *     1, 2, 7, 8
 *     3, 4, 5      zeros in the place of the nodes counted
 *     6            the nodes, as for 0                            full, with the beginning of the text
 *
 * THE FLAGS are those of the Rust crate msvc-demangler 0.11.0, below; 0 writes everything.
 */
#ifndef FARTHINGMOSS_H
#define FARTHINGMOSS_H

#include <stddef.h>
#include <stdint.h>

#ifdef __cplusplus
extern "C" {
#endif

/* report[0] */
#define FARTHINGMOSS_ANSWERED 0
#define FARTHINGMOSS_NO_SYMBOL 1
#define FARTHINGMOSS_NOT_ASCII 2
#define FARTHINGMOSS_NO_DERIVATION 3
#define FARTHINGMOSS_TOO_DEEP 4
#define FARTHINGMOSS_NO_NODE 5
#define FARTHINGMOSS_NO_ROOM 6
#define FARTHINGMOSS_BAD_CALL 7
#define FARTHINGMOSS_BAD_TABLE 8

/* The cells of a node, as farthingmoss_node_cells tells; the longest symbol; the largest depth that may be lent. */
#define FARTHINGMOSS_NODE_CELLS 12
#define FARTHINGMOSS_LONGEST_SYMBOL 4096
#define FARTHINGMOSS_DEEPEST 200

/* The flags that are known. Any other bit is refused with 7. */
#define FARTHINGMOSS_NO_MS_KEYWORDS UINT32_C(0x00000002)       /* no `__cdecl` and the like */
#define FARTHINGMOSS_NO_FUNCTION_RETURNS UINT32_C(0x00000004)  /* no return types */
#define FARTHINGMOSS_NO_MS_THISTYPE UINT32_C(0x00000020)       /* this and the next together: */
#define FARTHINGMOSS_NO_CV_THISTYPE UINT32_C(0x00000040)       /*   nothing of the type of `this` */
#define FARTHINGMOSS_NO_ACCESS_SPECIFIERS UINT32_C(0x00000080) /* no `public:` and the like */
#define FARTHINGMOSS_NO_MEMBER_TYPE UINT32_C(0x00000200)       /* no `static` and `virtual` */
#define FARTHINGMOSS_MS_TYPENAMES UINT32_C(0x00000400)         /* `__int64` and the like */
#define FARTHINGMOSS_DECODE_32_BIT UINT32_C(0x00000800)        /* changes nothing */
#define FARTHINGMOSS_NAME_ONLY UINT32_C(0x00001000)            /* the name in its scope alone */
#define FARTHINGMOSS_NO_CLASS_TYPE UINT32_C(0x00100000)        /* no `class`, `struct`, `union`, `enum` */
#define FARTHINGMOSS_SPACE_AFTER_COMMA UINT32_C(0x00200000)
#define FARTHINGMOSS_HUG_TYPE UINT32_C(0x00400000)             /* `*` and `&` stand at the type's name */
#define FARTHINGMOSS_SPACE_BEFORE_POINTER UINT32_C(0x00800000)
#define FARTHINGMOSS_WITH_PTR64 UINT32_C(0x01000000)           /* `__ptr64` */
#define FARTHINGMOSS_LLVM UINT32_C(0x00E00400)                 /* text like that of LLVM's demangler */
#define FARTHINGMOSS_KNOWN_FLAGS UINT32_C(0x01F01EE6)

/* How many cells of the table a node takes: 12. */
size_t farthingmoss_node_cells(void);

/* Reads the symbol into the table and writes its text: 0 to 7. docs/NODES.md has the layout of a node. */
void farthingmoss_read(const uint8_t *symbol, size_t symbol_length, uint32_t flags, uint32_t depth,
                       uint32_t *table, size_t table_cells, uint8_t *text, size_t text_length, uint64_t report[5]);

/* Writes the text of a table that farthingmoss_read left for this symbol, under any flags, and never changes it: 0, or
 * 7, 1, 2, 8, 4, 6 in this order. Lend exactly its nodes, report[3] * FARTHINGMOSS_NODE_CELLS cells: the last must be
 * the root. A table from elsewhere is 8, unless it is well formed. 4 is told of the root's height, and leaves the text
 * as it was. The counts are the root's height, the nodes lent and the text length. */
void farthingmoss_write(const uint8_t *symbol, size_t symbol_length, uint32_t flags, uint32_t depth,
                        const uint32_t *table, size_t table_cells, uint8_t *text, size_t text_length,
                        uint64_t report[5]);

/* Where the plain name of a node, counted from 0, stands in the symbol: 0, or 1, 2, 8 in this order. Lend the table as
 * for farthingmoss_write. If report[0] is 0, the name starts at symbol[report[3]] and has report[4] bytes. */
void farthingmoss_name(const uint8_t *symbol, size_t symbol_length, const uint32_t *table, size_t table_cells,
                       uint64_t node, uint64_t report[5]);

#ifdef __cplusplus
}
#endif
#endif
