/* The functions that the library libspb.a exports to C. Numbers and byte slices go in, a number comes out; nothing is kept between
 * two calls, no memory is allocated and none is written. The contracts, equations with the written rule, are proved:
 * crates/spb_c/src/lib.rt.
 *
 * `table` points to `len` bytes that can be read. With `len` 0 it may be a null pointer: nothing is read then.
 *
 * A call needs less than 96 KiB of stack (reference/measure-stack). */
#ifndef SPB_H
#define SPB_H

#include <stddef.h>
#include <stdint.h>

#ifdef __cplusplus
extern "C" {
#endif

/* The bytes of the longest table that is accepted. */
#define SPB_LONGEST_TABLE 9540

/* Examines a table. Gives 0 where the table is accepted, or the number of the refusal:
 *
 *    1  the length is 0, above 9,540 bytes, or no multiple of 4
 *    2  a record's kind is unknown or lower than that of the record before
 *    3  a record's words are not all there, or there is no end record
 *    4  a zero bit is set
 *    5  there is one record more of a kind than the limit
 *    6  a value is outside its range, or the end count is wrong
 *    7  a bridge or VID that is named has no record, or near and far bridge, or from and to, are equal
 *    8  a record repeats an earlier one
 *    9  a third half-link of a link number, or a second that is no mirror of the first
 *   10  words follow the end record
 *
 * The first faulty record counts, and of its faults the lowest. */
uint32_t spb_check(const uint8_t *table, size_t len);

/* Exported path cost gives 4,294,967,296 plus the number of a refusal. */
#define SPB_REFUSED UINT64_C(4294967296)

/* The cost of the chosen path between two bridges for a VID: the sum of its hops' costs, at most 1,056,964,482; 0 from a bridge to
 * itself. Bridges are numbered from 0 in their order in the table. Where there is no cost to give, SPB_REFUSED plus
 *
 *    1 to 10  the number that spb_check gives for the table
 *         11  the table lacks the VID or one of the bridges; no number above 65,535 names one
 *         12  no path exists
 *
 * No list is lent, so 13 is never given. */
uint64_t spb_path_cost(const uint8_t *table, size_t len, uint32_t vid, uint32_t from, uint32_t to);

#ifdef __cplusplus
}
#endif

#endif
