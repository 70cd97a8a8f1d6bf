// Sheafbuckle: sums and differences of binary numbers, each with a precision of its own, correctly rounded, with the sign
// of the rounding error and the number of columns that fixed the answer.
//
// Every function takes anything, asks nothing of its caller and ends; what it answers is proved for all inputs. The proofs
// assume one thing of the caller, which no function can test:
//
//     each pointer is valid for the length that follows it, the target for writing; the target overlaps no operand; and
//     nobody else writes this memory during the call.
//
// No function keeps a pointer, has a state of its own or allocates memory: threads may call at the same time.
#ifndef SHEAFBUCKLE_H
#define SHEAFBUCKLE_H

#include <stdbool.h>
#include <stddef.h>
#include <stdint.h>

#ifdef __cplusplus
extern "C" {
#endif

// A number without its limbs: a regular one is worth + or - 0.b1 b2 .. bp * 2^exponent, with b1 = 1 and p the precision.
// Its limbs travel beside it, ceil(precision / 64) of them, lowest first: b1 is the top bit of the last limb, and the bits
// below bp in the first limb are 0. Precision: 2 to 4096. Exponent of a regular number: 1 - 2^30 to 2^30 - 1. A zero has a
// sign and a precision, the exponent 0, and limbs that are never looked at, though their count is.
typedef struct {
    uint64_t precision;
    int32_t exponent;
    bool negative;
    bool zero;
} sheafbuckle_number;

// Rounding modes; any other is refused.
#define SHEAFBUCKLE_NEAREST 0 // a tie goes to the even last bit
#define SHEAFBUCKLE_TOWARD_ZERO 1
#define SHEAFBUCKLE_UP 2 // toward plus infinity
#define SHEAFBUCKLE_DOWN 3 // toward minus infinity

// A refusal is a rule and a place; both are 0 where nothing is refused. Rules 1 to 5 are checked in this order, and within a
// rule the first operand before the second before the target.
#define SHEAFBUCKLE_ACCEPTED 0
#define SHEAFBUCKLE_MODE 1 // mode above 3
#define SHEAFBUCKLE_PRECISION 2 // a precision out of range
#define SHEAFBUCKLE_LENGTH 3 // a limb count other than ceil(precision / 64); a line's room too short
#define SHEAFBUCKLE_EXPONENT 4 // an exponent out of range, or a zero's exponent not 0
#define SHEAFBUCKLE_FORM 5 // a regular number with top bit 0 or a spare bit 1
#define SHEAFBUCKLE_TOO_LARGE 6 // the selected exponent is above the range
#define SHEAFBUCKLE_TOO_SMALL 7 // the selected exponent is below the range
#define SHEAFBUCKLE_SIZE 8 // a line of wrong size
#define SHEAFBUCKLE_BYTE 9 // a line's byte not 0-9 or a-f, or its last byte not LF
#define SHEAFBUCKLE_KIND 10 // a line's kind byte above 3
#define SHEAFBUCKLE_BEYOND_DOUBLES 12 // the selected double is beyond the largest finite one
#define SHEAFBUCKLE_BELOW_DOUBLES 13 // the selected non-zero double is below 2^-1022 in size
#define SHEAFBUCKLE_NO_NUMBER 14 // a double that is infinite or NaN

// Places: 0 the mode, and rules 12 and 13; 1 the first or only operand, line or double; 2 the second; 3 the target or a
// line's room.

// What a sum answers: the number, whose limbs are in the target; the depth, which is the fewest 64-bit columns, counted from
// the top of the larger operand, that fix the answer whatever stands in the others; the limbs used of the first operand and
// of the second; the ternary value, the sign of the rounded number less the exact one (-1, 0 or 1); the refusal.
typedef struct {
    sheafbuckle_number number;
    uint64_t depth;
    uint64_t first;
    uint64_t second;
    int8_t ternary;
    uint8_t rule;
    uint8_t place;
} sheafbuckle_sum;

// x + y, rounded to `precision` digits under `mode`, into target_count limbs. Exact cancellation gives +0 in every mode; two
// zeros of one sign give that zero, of two signs +0; a zero and a regular number give the regular number rounded. Refuses by
// rules 1 to 5, and then the number is +0 of precision 2, everything else 0, and the target is as it was; by 6 and 7 (place
// 3), and then the number is +0 of precision 2, the ternary value 0, depth and limb counts are reported, and the target's
// limbs are all 0. Otherwise the target has the answer's limbs, all 0 where the answer is a zero. Example, 1 + 2^-100 to 53
// digits, which is 1 and a rounding error, known after one column:
//
//     sheafbuckle_number one = {53, 1, false, false}, tiny = {53, -99, false, false};
//     uint64_t limb = 1ull << 63, target;
//     sheafbuckle_sum s = sheafbuckle_add(SHEAFBUCKLE_NEAREST, one, &limb, 1, tiny, &limb, 1, 53, &target, 1);
//     // s.number is {53, 1, false, false}, target 2^63, s.ternary -1, s.depth 1, s.first 1, s.second 0, s.rule 0
sheafbuckle_sum sheafbuckle_add(uint8_t mode, sheafbuckle_number x, const uint64_t *x_limbs, size_t x_count,
                                sheafbuckle_number y, const uint64_t *y_limbs, size_t y_count, uint64_t precision,
                                uint64_t *target, size_t target_count);

// x - y: the sum of x and y with its sign turned. Refusals and the target as for sheafbuckle_add. Example, 1 - 1:
//
//     s = sheafbuckle_subtract(SHEAFBUCKLE_DOWN, one, &limb, 1, one, &limb, 1, 53, &target, 1);
//     // s.number is {53, 0, false, true}, target 0, s.ternary 0, s.depth 1
sheafbuckle_sum sheafbuckle_subtract(uint8_t mode, sheafbuckle_number x, const uint64_t *x_limbs, size_t x_count,
                                     sheafbuckle_number y, const uint64_t *y_limbs, size_t y_count, uint64_t precision,
                                     uint64_t *target, size_t target_count);

// x rounded to `precision` digits: answers, refuses and leaves the target as the sum of x and a zero does; keeps a zero's
// sign. There is no second operand: no refusal has place 2, and `second` is 0. Example, 0.11 to one digit less than it has
// is refused, since no number has precision 1; to two digits it is itself:
//
//     sheafbuckle_number x = {2, 0, false, false};
//     uint64_t three_quarters = 3ull << 62;
//     s = sheafbuckle_reround(SHEAFBUCKLE_UP, x, &three_quarters, 1, 1, &target, 1);  // s.rule 2, s.place 3
//     s = sheafbuckle_reround(SHEAFBUCKLE_UP, x, &three_quarters, 1, 2, &target, 1);  // target 3 * 2^62, s.ternary 0
sheafbuckle_sum sheafbuckle_reround(uint8_t mode, sheafbuckle_number x, const uint64_t *x_limbs, size_t x_count,
                                    uint64_t precision, uint64_t *target, size_t target_count);

// -1, 0 or 1, and the refusal.
typedef struct {
    int8_t order;
    uint8_t rule;
    uint8_t place;
} sheafbuckle_order;

// The sign of x - y: -1 where x is the lesser, 0 where they are equal, 1 where x is the greater; the two zeros are equal.
// Refuses by rules 2 to 5, and the order is 0 then. Writes nothing. Example:
//
//     sheafbuckle_compare(one, &limb, 1, tiny, &limb, 1)  // order 1, rule 0, place 0
sheafbuckle_order sheafbuckle_compare(sheafbuckle_number x, const uint64_t *x_limbs, size_t x_count,
                                      sheafbuckle_number y, const uint64_t *y_limbs, size_t y_count);

// The number with the other sign, every other field as it was. Takes anything, refuses nothing, writes nothing; the limbs
// stay what they are. Example:
//
//     sheafbuckle_turn_sign(one)  // {53, 1, true, false}
sheafbuckle_number sheafbuckle_turn_sign(sheafbuckle_number x);

// A double, the sign of the double less the number (0 exact, -1 the double lies below the number, 1 above), the refusal.
typedef struct {
    double value;
    int8_t ternary;
    uint8_t rule;
    uint8_t place;
} sheafbuckle_double;

// The double that a mode selects for x, with 53 bits and an unbounded exponent, whose range is judged after that. A zero gives
// the zero of its sign. Refuses by rules 1 to 5, 12 and 13; the value is +0 then, the ternary value 0. So no answer is
// infinite, NaN or subnormal. Writes nothing. Example, the number 1 + 2^-63 of precision 64 toward zero:
//
//     sheafbuckle_number x = {64, 1, false, false};
//     uint64_t x_limb = (1ull << 63) + 1;
//     sheafbuckle_to_double(SHEAFBUCKLE_TOWARD_ZERO, x, &x_limb, 1)  // value 1.0, ternary -1
sheafbuckle_double sheafbuckle_to_double(uint8_t mode, sheafbuckle_number x, const uint64_t *x_limbs, size_t x_count);

// Two doubles, and the refusal.
typedef struct {
    double lower;
    double upper;
    uint8_t rule;
    uint8_t place;
} sheafbuckle_pair;

// The enclosing pair: the double of x under down and that under up; lower <= x <= upper, and they are equal exactly when x is
// a double. Refuses by rules 2 to 5, 12 and 13, where either end is refused, the lower end's refusal first; both ends are +0
// then. Writes nothing. Example, with x and x_limb as above:
//
//     sheafbuckle_enclose(x, &x_limb, 1)  // lower 1.0, upper 1.0 + 2^-52
sheafbuckle_pair sheafbuckle_enclose(sheafbuckle_number x, const uint64_t *x_limbs, size_t x_count);

// The number of a double or of a line, and the refusal.
typedef struct {
    sheafbuckle_number number;
    uint8_t rule;
    uint8_t place;
} sheafbuckle_read;

// The number of a double: precision 53, exact, subnormals normalised; the zeros with their signs. The target is one limb.
// Refuses by rule 3 (place 3) where it is not, then by 14 (place 1); the number is +0 of precision 2 then and the target is
// as it was. Otherwise the target has the limb, 0 for a zero. Example:
//
//     sheafbuckle_from_double(-0.75, &target, 1)  // number {53, 0, true, false}, target 3 * 2^62
sheafbuckle_read sheafbuckle_from_double(double value, uint64_t *target, size_t target_count);

// A part of a run of limbs, up to its top: the index of its lowest limb, and how many it has.
typedef struct {
    size_t start;
    size_t count;
} sheafbuckle_run;

// The limbs from the lowest one that is not 0 up to the top: limbs[start] .. limbs[start + count - 1]. None if all are 0: then
// start is the given count, and count 0. Takes anything, refuses nothing, writes nothing. Example:
//
//     uint64_t limbs[3] = {0, 7, 0};
//     sheafbuckle_trim(limbs, 3)  // start 1, count 2
sheafbuckle_run sheafbuckle_trim(const uint64_t *limbs, size_t count);

// The bytes of a zero's line and of the longest line, LF included.
#define SHEAFBUCKLE_SHORTEST_LINE 15
#define SHEAFBUCKLE_LONGEST_LINE 1039

// How many bytes were written, and the refusal.
typedef struct {
    size_t count;
    uint8_t rule;
    uint8_t place;
} sheafbuckle_written;

// Writes x as one line of lowercase hexadecimal, ending in LF, from the room's start on: kind byte (00 positive, 01 negative,
// 02 +0, 03 -0), precision in two bytes, exponent in four (two's complement), then a regular number's limbs, top first. No
// byte past the line changes, and no 0 is put after it. Refuses by rules 2 to 5, then by 3 (place 3) where the room is too
// short; the count is 0 then and the room is as it was. Example:
//
//     uint8_t room[SHEAFBUCKLE_LONGEST_LINE];
//     sheafbuckle_write_line(one, &limb, 1, room, sizeof room)
//     // count 31, room "000035000000018000000000000000" and LF
sheafbuckle_written sheafbuckle_write_line(sheafbuckle_number x, const uint64_t *x_limbs, size_t x_count, uint8_t *room,
                                           size_t room_count);

// The number that a line holds, without its limbs: its precision says how many limbs sheafbuckle_read_line needs. Checks, in
// this order: at least 15 bytes (8), digits and LF (9), kind (10), precision (2), exact size (8), exponent (4); place 1. The
// number is +0 of precision 2 then. Does not look at the limbs' form. Writes nothing. Example:
//
//     sheafbuckle_read_head(room, 31)  // number {53, 1, false, false}
sheafbuckle_read sheafbuckle_read_head(const uint8_t *line, size_t line_count);

// The number that a line holds, its limbs into the target, all 0 for a zero. Checks what sheafbuckle_read_head does, then the
// target's count (3, place 3), then the limbs' form (5, place 1). Refused, the number is +0 of precision 2 and the target is as
// it was. A line that is accepted is the line that sheafbuckle_write_line gives for the number. Example:
//
//     sheafbuckle_read_line(room, 31, &target, 1)  // number {53, 1, false, false}, target 2^63
sheafbuckle_read sheafbuckle_read_line(const uint8_t *line, size_t line_count, uint64_t *target, size_t target_count);

#ifdef __cplusplus
}
#endif

#endif
