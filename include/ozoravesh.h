/* Ozoravesh: Boolean operations on closed triangle meshes, for C. Link with libcapi.a.

   Lists. A list is a pointer and, right behind it, its length: how many numbers it holds, not how
   many bytes. A list of length 0 is never looked at, and its pointer may be null. A list that is
   not const is lent: it holds the answer afterwards. A lent list may not overlap any other list of
   the same call. Pointers are aligned as their type asks. Nothing else is asked of a caller: every
   call says what it does for all numbers in all lists of all lengths.

   Solids. A solid is two lists: coordinates, three a vertex (x, y, z: head, flow and output), and
   corners, three vertex numbers a facet, counted from 0. The solid of two empty lists means
   "nothing".

   Answers. Each call answers 0 or the number of the first check that refuses it. A refusal also says
   whom it is on (A or B of an operation, the only solid of a call that takes one, or the point of a
   count) and at which place, a vertex or a facet by its number from 0:

     1  a list's length is not a multiple of three: that solid, place 0
     2  more than 128 vertices or 256 facets: that solid, place 0
     3  some coordinate is a NaN (a blank): that solid and its first blank vertex, or the point, place 0;
        of a row, a blank bound without its flag: nobody, place 0
     4  some coordinate is above 1,048,576 or below -1,048,576, infinities included: that solid and its
        first vertex out of range, or the point, place 0; of a row, such a bound: nobody, place 0
    10  a corner number is not below the vertex count: that solid and the facet
    11  a facet names a vertex twice: that solid and the facet; of the facets with 10 or 11 the first
        is told, and of one with both faults 10
     6  for some P and Q the half-edges P->Q and Q->P differ in number: that solid and the first facet
        with such a half-edge, in either direction
     7  unknown operation code (0 union, 1 intersection, 2 difference): nobody, place 0
     8  a lent list is too short for the answer: nobody, place 0
     9  a file, an input or a row does not follow the layout: nobody, place 0
    12  of a row, a bound's flag is set and a value present: nobody, place 0
    13  of a row, a low bound is not below its high one: nobody, place 0

   The checks on one solid are 1, 2, 3, 4, 10 and 11 facet by facet, 6, in this order. 3 is looked for
   in all vertices before 4 is: a blank last vertex goes before a first one out of range. No call
   answers 5. Success speaks of nobody, place 0.

   A refused call has all its counts 0 and has changed no lent list. On success the fronts of the
   lent lists hold the answer, and everything behind is as before.

   No call keeps anything from one time to the next, takes memory from the heap, or looks at errno,
   the locale or a file: calls in several threads do not meet. An operation takes up to 1.0 million
   bytes of stack, and 0.2 million where at most 2,048 pairs of an edge and a facet cross: measured
   (tests/c/stack.c paints the stack, makes the call and looks how far it wrote; 956,840 and 170,056
   bytes as the kit compiles it), and bounded by no proof. See to it in threads with a small one.
   The floating-point environment is to be C's own at the start of a program (round to nearest,
   subnormal numbers kept). */
#ifndef OZORAVESH_H
#define OZORAVESH_H

#include <stddef.h>
#include <stdint.h>

#ifdef __cplusplus
extern "C" {
#endif

/* Operation codes. */
#define OZORAVESH_UNION 0u
#define OZORAVESH_INTERSECTION 1u
#define OZORAVESH_DIFFERENCE 2u

/* Whom a refusal is on. */
#define OZORAVESH_NOBODY 0u
#define OZORAVESH_A 1u
#define OZORAVESH_B 2u
#define OZORAVESH_ONLY_SOLID 3u
#define OZORAVESH_POINT 4u

/* 0, or the number of a refusal; whom it is on; and its place, the number of a vertex (3, 4) or a facet
   (10, 11, 6), otherwise 0. Every struct that a call answers with begins with one. */
typedef struct {
    uint32_t number;
    uint32_t who;
    size_t place;
} ozoravesh_answer;

/* What an operation answers, with the vertices and triangles of its result. */
typedef struct {
    ozoravesh_answer answer;
    size_t vertices;
    size_t triangles;
} ozoravesh_made;

/* What a point count answers, with how often the solid contains the point. The count of a badly
   shaped solid may be above 1 or below 0. */
typedef struct {
    ozoravesh_answer answer;
    int32_t count;
} ozoravesh_counted;

/* What a reading answers, with the vertices and facets of the solid and the bytes of its file. */
typedef struct {
    ozoravesh_answer answer;
    size_t vertices;
    size_t facets;
    size_t used;
} ozoravesh_was_read;

/* What a call that fills one list answers, with how many numbers it put into the list's front. */
typedef struct {
    ozoravesh_answer answer;
    size_t used;
} ozoravesh_written;

/* What the making of a box answers, with its vertices and facets and the unit that the row names. */
typedef struct {
    ozoravesh_answer answer;
    size_t vertices;
    size_t facets;
    uint16_t unit;
} ozoravesh_boxed;

/* The union, the intersection or the difference (A less B) of A and B.
   Checks 7, then A, then B by the checks on one solid, then 8.
   On success `points` begins with 3 * vertices coordinates, `corners` with 3 * triangles vertex
   numbers and `origins` with triangles numbers: the facet that each triangle comes from, A's by
   its number and B's by A's facet count plus its number. The result is closed, and where it is
   small enough (2) it is admitted again. */
ozoravesh_made ozoravesh_operate(
    uint32_t code,
    const double *a_points, size_t a_points_length,
    const uint32_t *a_corners, size_t a_corners_length,
    const double *b_points, size_t b_points_length,
    const uint32_t *b_corners, size_t b_corners_length,
    double *points, size_t points_length,
    uint32_t *corners, size_t corners_length,
    uint32_t *origins, size_t origins_length);

/* The answer of the checks on one solid. */
ozoravesh_answer ozoravesh_admit(
    const double *points, size_t points_length,
    const uint32_t *corners, size_t corners_length);

/* How often the solid, taken as A, contains the point x, y, z.
   Checks the point by 3 and 4, then the solid by the checks on one solid; it is the only solid, also
   where it is taken as A. */
ozoravesh_counted ozoravesh_count_as_a(
    double x, double y, double z,
    const double *points, size_t points_length,
    const uint32_t *corners, size_t corners_length);

/* The same with the solid taken as B. The two differ at points on the solid itself. */
ozoravesh_counted ozoravesh_count_as_b(
    double x, double y, double z,
    const double *points, size_t points_length,
    const uint32_t *corners, size_t corners_length);

/* The three corners of the facet that an origin stands for, from the corner lists of A and of B,
   in the front of `part`. An origin beyond both lists (facet counts rounded down) shows nothing:
   answer 0 and used 0. The corner lists are not checked. Checks 8. */
ozoravesh_written ozoravesh_shown(
    const uint32_t *a_corners, size_t a_corners_length,
    const uint32_t *b_corners, size_t b_corners_length,
    size_t origin,
    uint32_t *part, size_t part_length);

/* The solid of a house file. Checks 9, then 2, then 8, then the other checks on one solid, from 3 on:
   the only solid, with its vertices and facets numbered as their records come.
   On success `points` begins with 3 * vertices coordinates and `corners` with 3 * facets vertex
   numbers; `used` is the file's length with its end mark. Bytes behind that are not looked at. */
ozoravesh_was_read ozoravesh_read(
    const uint8_t *bytes, size_t bytes_length,
    double *points, size_t points_length,
    uint32_t *corners, size_t corners_length);

/* The house file of a solid, in the front of `bytes`: 26 bytes a vertex, 14 a facet, and 2.
   Checks the solid by the checks on one solid, then 8. */
ozoravesh_written ozoravesh_write(
    const double *points, size_t points_length,
    const uint32_t *corners, size_t corners_length,
    uint8_t *bytes, size_t bytes_length);

/* The box of an outage row: a solid for the calls above.
   A row is 53 bytes, numbers low byte first: the mark `RW`, a two-byte unit number, six f64 (low x,
   high x, low y, high y, low z, high z) and one flag byte, whose bits 0 to 5, in that order, say that
   the bound is open. An open bound must be blank (a NaN) and becomes the limit: -1,048,576 for a low,
   1,048,576 for a high. A blank without its flag is refused, never taken for "no restriction".
   Checks 9 (another length or mark, or flag bit 6 or 7), then 3, then 4 (of all six values, with
   their flags or without), then 12, then 13 (with the limit for open bounds), then 8. Whom a refusal
   is on: nobody, place 0, since a row is neither a solid nor a point.
   On success `points` begins with 24 coordinates, the 8 corners numbered x + 2y + 4z with 1 for high,
   and `corners` with 36 vertex numbers, the 12 facets. Signs of zero are kept.
   As B (ozoravesh_count_as_b) the box contains a point once exactly if low < c and c <= high on each
   axis, and otherwise not at all. So a point exactly at -1,048,576 lies in no box, open or not. */
ozoravesh_boxed ozoravesh_box(
    const uint8_t *row, size_t row_length,
    double *points, size_t points_length,
    uint32_t *corners, size_t corners_length);

/* The three numbers that the program `solid` prints when these bytes are its standard input: one
   letter (U, I or D), A's file, B's file, nothing more. No letter is 9, an unknown letter 7 before
   the files are looked at; then more than 32,768 bytes, a layout fault in either file or trailing
   bytes are 9; then come A's other refusals, B's, and last 8 (there is room for 512 vertices and
   1,024 triangles). Whom a refusal is on and where, the program does not print. */
ozoravesh_made ozoravesh_program(const uint8_t *input, size_t input_length);

#ifdef __cplusplus
}
#endif

#endif
