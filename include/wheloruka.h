/* Wheloruka: satellite tracking data reduced in exact whole numbers. Every function here is proved to meet its promise for every input
   (crates/wheloruka, docs/CALLING.md).

   What holds for all calls:
   - A result of type uint32_t is 0 where the call is done, else the number of the refusal:
       1  bytes end too early, or a run ends inside a record   2  a count that is not allowed      3  bytes left over
       4  a field out of its limits                            5  not ascending                    6  sums or a state not sound
       10 station not listed      11 type not 1 to 10          12 sigma not 1 to 256               13 day or milliseconds
       14 outside the window      15 not finite                16 unit out of its limits           17 not later than the last
       18 edit not passed         19 station has 256 already   20 a room too short
       21 both files list one arc 22 more than 16 arcs         23 more than 500 parameters         24 a common label with unlike priors
       28 a file handed over in parts is over already
     whl_merge alone answers other numbers too: 101 to 106 and 201 to 206, a refusal of the first file plus 100 or of the second plus 200.
   - A result of type uint64_t is a place in a file, the byte where the refusal is. 0 is a place like others: an empty file is refused with 1 at
     0, a bad first count with 2 at 0. Whether a file is accepted is told by the call that reads it, and never by the place. Where a call
     that reads a file answers 20 the place is the file's length; the calls that give places know of no room and do not tell it.
   - A room is a pointer and a number of elements. Results stand at its front; a longer room keeps its rest. A refusal changes nothing in any
     room, but for 1 to 5 of a file handed over in parts, which has a place. 20 for a room of results comes last. For a room that holds an input (heading, tally, sums, heads) it comes first in taking; in calls
     that write bytes it comes where the judging needs what is not there; for files in parts it is said below.
   - No pointer may be null, not even with 0 elements; a room that is written may not overlap any other; each is aligned as C wants for its
     elements. A room that only takes results may be uninitialised; one that is read may not, and the state of an arc, which whl_start fills, is
     read by every later call.
   - Nothing is kept between calls, and nothing is allocated: calls in different threads on different rooms do not meet. Stack: whl_list 51 KB,
     whl_merge 29 KB, whl_part 26 KB, every other call below 14 KB. Of the C library memcpy and memset are asked for, and nothing else from outside.
   - No answer depends on the floating-point environment: in every rounding mode and with subnormals taken for zero it is the same. A subnormal
     double raises the flag of a denormal operand, a signalling not-a-number that of an invalid one: where these two traps are unmasked, mask them
     around a call. */
#ifndef WHELORUKA_H
#define WHELORUKA_H
#include <stddef.h>
#include <stdint.h>
#ifdef __cplusplus
extern "C" {
#endif

/* ---- lengths of rooms, for P parameters, T stations, A arcs */

/* A heading in bytes: arc u32, first day u32, days u16, edit level u16, P u16, T u16; then P labels of 16 bytes (kind u16, index u16, prior
   weight u32, estimate i64) and T stations of 8 bytes (number u16, two bytes that are not looked at, clock correction i32). Little-endian. */
#define WHL_HEADING_BYTES(P, T) (16 + 16 * (size_t)(P) + 8 * (size_t)(T))
#define WHL_HEADING_MOST WHL_HEADING_BYTES(50, 16)
/* A tally in bytes: the square sum u64; the accepted records of each station, sixteen u32; the last times, sixteen rows of ten u64 (a row a
   station, a column a type); from byte 1352 on the marks, fifty u16 (one a parameter): the bit of value 2^k says that the station of row k gave
   an accepted partial other than 0 for the parameter. Little-endian. */
#define WHL_TALLY_BYTES 1452
/* A position in an arc file that is handed over in parts, in bytes: room for 1088 bytes kept; how many of them count u64; the records taken u64;
   whether the file is over u64, 0 or 1. Little-endian. Callers need not look into it. */
#define WHL_POSITION_BYTES 1112
/* The matrix sums: the packed upper triangle by columns; row i and column j, from 0 with i <= j, stand at j (j + 1) / 2 + i. */
#define WHL_MATRIX_SUMS(P) ((size_t)(P) * ((size_t)(P) + 1) / 2)
/* A tracking record in bytes, and an arc file of so many of them. */
#define WHL_RECORD_BYTES(P) (32 + 2 * (size_t)(P))
#define WHL_ARC_BYTES(P, T, RECORDS) (28 + 16 * (size_t)(P) + 8 * (size_t)(T) + (size_t)(RECORDS) * WHL_RECORD_BYTES(P))
/* A normal file in bytes; and the heads of what it holds, an element each: the A arcs; for each of the P labels kind, index, arc, prior weight and
   estimate (in two's complement); accepted; the square sum. Its matrix sums and right sides have rooms as those of a state. */
#define WHL_NORMAL_BYTES(A, P) (36 + 4 * (size_t)(A) + 32 * (size_t)(P) + 8 * WHL_MATRIX_SUMS(P))
#define WHL_HEADS(A, P) ((size_t)(A) + 5 * (size_t)(P) + 2)
/* A room that holds every listing. */
#define WHL_LISTING_MOST 6646

/* ---- days: 1950 January 1 is 1, 2099 December 31 is 54787 */

/* The day number of a date, in out[0]. 4: no such date; 20: out_length < 1. */
uint32_t whl_day_of_date(uint32_t year, uint32_t month, uint32_t day, uint32_t *out, size_t out_length);
/* The year, month and day of a day number, in out[0] to out[2]. 4: not 1 to 54787; 20: out_length < 3. */
uint32_t whl_date_of_day(uint32_t day, uint32_t *out, size_t out_length);

/* ---- geopotential cells: a letter is 'C' (67) or 'S' (83) */

/* The letter, degree and order of the cell at an index, in out[0] to out[2]. 4: not 0 to 989; 20: out_length < 3. */
uint32_t whl_cell_at(uint32_t index, uint32_t *out, size_t out_length);
/* The index of a cell, in out[0]. 4: no such letter, or degree not 1 to 30, or order above the degree; 20: out_length < 1. */
uint32_t whl_index_of(uint32_t letter, uint32_t degree, uint32_t order, uint32_t *out, size_t out_length);

/* ---- units: kind is the type of measurement, 1 to 10 */

/* The unit nearest to a double, in out[0]. 11, 15, 16; 20: out_length < 1. */
uint32_t whl_unit_of(uint32_t kind, double x, int64_t *out, size_t out_length);
/* The double of a unit, exactly, in out[0]. 11, 16; 20: out_length < 1. */
uint32_t whl_double_of(uint32_t kind, int64_t unit, double *out, size_t out_length);
/* The residual of a measurement in out[0]: observed minus computed, in units; around one turn for types 7 and 9. 11, 15, 16; 20: out_length < 1. */
uint32_t whl_residual(uint32_t kind, double observed, double computed, int64_t *out, size_t out_length);

/* ---- arc files */

/* The file's heading, in WHL_HEADING_BYTES of its own P and T (WHL_HEADING_MOST always suffices); the number of its records in out[0] and the
   place of the first one's first byte in out[1]. 1, 2, 3, 4, 5; 20: heading or out (2) too short; the place of 20 is the file's length. */
uint32_t whl_read(const uint8_t *file, size_t file_length, uint8_t *heading, size_t heading_length, uint64_t *out, size_t out_length);
/* The place of the file's refusal; 0 where it is accepted, and also for a refusal at byte 0. Not of the 20 of whl_read, whose place is the length. */
uint64_t whl_read_place(const uint8_t *file, size_t file_length);
/* An arc file of a heading in bytes (below) and a run of whole records: these WHL_ARC_BYTES in out, their number in size[0]. Of any values: 20 where
   the heading has fewer than 16 bytes, 2 (its P and T, and more than 65535 records), 20 where it is shorter than its own P and T want, 4, 5, 1 where
   the run ends inside a record; 20 last where out is too short or size_length is 0. */
uint32_t whl_write(const uint8_t *heading, size_t heading_length, const uint8_t *run, size_t run_length, uint8_t *out, size_t out_length,
                   uint64_t *size, size_t size_length);

/* ---- taking. A heading of bytes, and a state: a tally of WHL_TALLY_BYTES, matrix sums, right sides, P of them. All may hold any values: what is
   wrong with them is refused. 20: the heading shorter than its own P and T want (a P above 50 stands as 50, a T above 16 as 16), the tally
   shorter than 1452, the matrix sums fewer than WHL_MATRIX_SUMS(P) or the right sides fewer than P. */

/* The empty state of a heading. 20, 2, 4, 5. */
uint32_t whl_start(const uint8_t *heading, size_t heading_length, uint8_t *tally, size_t tally_length, int64_t *matrix, size_t matrix_length,
                   int64_t *rights, size_t rights_length);
/* A heading and a state judged; 0 where they are sound. 20, 2, 4, 5, 6. */
uint32_t whl_judge(const uint8_t *heading, size_t heading_length, const uint8_t *tally, size_t tally_length, const int64_t *matrix,
                   size_t matrix_length, const int64_t *rights, size_t rights_length);
/* One record, its bytes, taken; 0 where it is accepted. 20, 2, 4, 5, 6, 1, 3, 10 to 19. The heading and the state are judged each time. */
uint32_t whl_take(const uint8_t *heading, size_t heading_length, uint8_t *tally, size_t tally_length, int64_t *matrix, size_t matrix_length,
                  int64_t *rights, size_t rights_length, const uint8_t *bytes, size_t bytes_length);
/* A run of whole records taken, judged once; answers[i] is 0 or 10 to 19 for record i. 20 (also: fewer answers than records), 2, 4, 5, 6, and
   1 where the run ends inside a record. */
uint32_t whl_take_run(const uint8_t *heading, size_t heading_length, uint8_t *tally, size_t tally_length, int64_t *matrix, size_t matrix_length,
                      int64_t *rights, size_t rights_length, const uint8_t *run, size_t run_length, uint8_t *answers, size_t answers_length);
/* Whether a parameter, counted from 0, is seen: in out[0] 1 where its diagonal sum is not 0, else 0. 20, 2, 4, 5, 6, judged each time; 4 where the
   number is not below P; 20: out_length < 1. */
uint32_t whl_seen(const uint8_t *heading, size_t heading_length, const uint8_t *tally, size_t tally_length, const int64_t *matrix,
                  size_t matrix_length, const int64_t *rights, size_t rights_length, size_t parameter, uint32_t *out, size_t out_length);
/* How many stations gave an accepted partial other than 0 for a parameter, counted from 0: in out[0], 0 to 16, and 0 exactly where it is not seen.
   20, 2, 4, 5, 6, judged each time; 4 where the number is not below P; 20: out_length < 1. */
uint32_t whl_carriers(const uint8_t *heading, size_t heading_length, const uint8_t *tally, size_t tally_length, const int64_t *matrix,
                      size_t matrix_length, const int64_t *rights, size_t rights_length, size_t parameter, uint32_t *out, size_t out_length);
/* Whether the station of a row of the heading, counted from 0, did: in out[0] 1 or 0. 20, 2, 4, 5, 6, judged each time; 4 where the parameter's
   number is not below P or the row is not below T; 20: out_length < 1. */
uint32_t whl_carries(const uint8_t *heading, size_t heading_length, const uint8_t *tally, size_t tally_length, const int64_t *matrix,
                     size_t matrix_length, const int64_t *rights, size_t rights_length, size_t parameter, size_t station, uint32_t *out,
                     size_t out_length);

/* ---- arc files in parts, cut anywhere: whl_begin, a whl_part for each part, whl_finish. A position of WHL_POSITION_BYTES says how far the file was
   handed over, and a state, as above, has the records taken so far. All may hold any values. out[0] has a number of records, out[1] the place of
   a refusal in the file's form (1 to 5), else 0. 20 comes first where the position is shorter than 1112, the tally than 1452 or out than 2. */

/* The position before the first byte, and the empty state, with sums for fifty parameters, since the file's own number is not known yet. 20: the
   position shorter than 1112, the tally than 1452, the matrix sums fewer than 1275 or the right sides fewer than 50. */
uint32_t whl_begin(uint8_t *position, size_t position_length, uint8_t *tally, size_t tally_length, int64_t *matrix, size_t matrix_length,
                   int64_t *rights, size_t rights_length);
/* The next bytes of the file, any number of them. The records that they complete are taken; answers[i] is 0 or 10 to 19 for the i-th of these, and
   out[0] says how many they are. In this order: 20; 28 after whl_finish and after a refusal in the file's form; 20: the sums fewer than for the
   parameters that were read (for fifty before that), or fewer answers than records completed; 6: the position, or the state at it, is none that
   these calls give. These four change nothing, and the same part may be handed over again. Then 2, 3, 4, 5: the file is over, the records
   completed before it stay taken with their answers, out[0] is the number of all records taken and out[1] the place in the whole file. */
uint32_t whl_part(uint8_t *position, size_t position_length, uint8_t *tally, size_t tally_length, int64_t *matrix, size_t matrix_length,
                  int64_t *rights, size_t rights_length, const uint8_t *bytes, size_t bytes_length, uint8_t *answers, size_t answers_length,
                  uint64_t *out, size_t out_length);
/* The file is over. In this order: 20; 28; 6; 1 where bytes are missing, with the number of all bytes handed over in out[1]. For 0 and for 1 out[0]
   is the number of all records taken, and the position is over. */
uint32_t whl_finish(uint8_t *position, size_t position_length, uint64_t *out, size_t out_length);
/* The heading of what was handed over, as whl_read gives it, also after a whl_finish that answered 0; out[0] is the number of records taken so far.
   In this order: 20; 6, also where the word for whether the file is over is above 1; 1 where the heading and the number of records are not
   complete yet or are no longer kept, with out[0] and, in out[1], the number of bytes kept; 20 where the heading's room is too short. */
uint32_t whl_position_heading(const uint8_t *position, size_t position_length, uint8_t *heading, size_t heading_length, uint64_t *out,
                              size_t out_length);

/* ---- normal files */

/* A file of either form. In out[0] to out[6]: the numbers of arcs and of parameters, the places of the first matrix sum, the first right side
   and the totals, how many parameters have their sums stored, and the form: 0 the old one, 1 the small one. 1, 2, 3, 4, 5, 6; 20: out_length < 7. */
uint32_t whl_normal_read(const uint8_t *file, size_t file_length, uint64_t *out, size_t out_length);
/* The same for a normal file; not of the 20 of whl_normal_read and whl_normal_unpack. */
uint64_t whl_normal_place(const uint8_t *file, size_t file_length);
/* What the file holds, in three rooms. 1, 2, 3, 4, 5, 6; 20: heads shorter than WHL_HEADS, matrix than WHL_MATRIX_SUMS or rights than P, for the
   file's own A and P; the place of 20 is the file's length. */
uint32_t whl_normal_unpack(const uint8_t *file, size_t file_length, uint64_t *heads, size_t heads_length, int64_t *matrix, size_t matrix_length,
                           int64_t *rights, size_t rights_length);

/* ---- calls that write bytes: these in out, their number in size[0]. 20 comes last where out is too short or size_length is 0. */

/* The normal file of what stands in three rooms, of any values: WHL_NORMAL_BYTES. In this order: 2 for A and P; 20: heads shorter than WHL_HEADS;
   4, 5; 20: matrix shorter than WHL_MATRIX_SUMS or rights than P; 6; 20 for out and size. */
uint32_t whl_normal_write(size_t arcs, size_t parameters, const uint64_t *heads, size_t heads_length, const int64_t *matrix, size_t matrix_length,
                          const int64_t *rights, size_t rights_length, uint8_t *out, size_t out_length, uint64_t *size, size_t size_length);
/* The normal file of a state, of its one arc: WHL_NORMAL_BYTES(1, P). In this order: 20: the heading shorter than 16; 2 for its P and T; 20: the
   heading shorter than these want; 4, 5; 20: the tally, the matrix sums or the right sides too short; 6; 20 for out and size. */
uint32_t whl_of_state(const uint8_t *heading, size_t heading_length, const uint8_t *tally, size_t tally_length, const int64_t *matrix,
                      size_t matrix_length, const int64_t *rights, size_t rights_length, uint8_t *out, size_t out_length, uint64_t *size,
                      size_t size_length);
/* A normal file moved to the small form, or to the old one; a file of that form gives its bytes. 1, 2, 3, 4, 5, 6, with the place of
   whl_normal_place; then 20. */
uint32_t whl_normal_small(const uint8_t *file, size_t file_length, uint8_t *out, size_t out_length, uint64_t *size, size_t size_length);
uint32_t whl_normal_old(const uint8_t *file, size_t file_length, uint8_t *out, size_t out_length, uint64_t *size, size_t size_length);
/* Two normal files merged; in either order the same bytes. A file's own refusal plus 100 for the first, plus 200 for the second (its place is
   whl_normal_place's of that file); then 21, 22, 23, 24, 20. */
uint32_t whl_merge(const uint8_t *first, size_t first_length, const uint8_t *second, size_t second_length, uint8_t *out, size_t out_length,
                   uint64_t *size, size_t size_length);
/* The text that the arc program prints of an arc file: a listing, or `refused N at PLACE`. The text of a refusal is a result like others, and the
   answer to it is 0. 20: out or size too short. */
uint32_t whl_list(const uint8_t *file, size_t file_length, uint8_t *out, size_t out_length, uint64_t *size, size_t size_length);

#ifdef __cplusplus
}
#endif
#endif
