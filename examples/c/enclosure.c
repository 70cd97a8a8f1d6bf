// Adds two numbers of different precision, shows the ternary value and the depth, and hands out the doubles that enclose the sum.
#include <sheafbuckle.h>
#include <stdio.h>

static void show(const char *what, sheafbuckle_sum s, const uint64_t *limbs, size_t count) {
    if (s.rule != SHEAFBUCKLE_ACCEPTED) {
        printf("%s: refused by rule %d at place %d, depth %d\n", what, s.rule, s.place, (int)s.depth);
        return;
    }
    printf("%s: %c0.", what, s.number.negative ? '-' : '+');
    for (size_t i = count; i-- > 0;) printf("%016llx", (unsigned long long)limbs[i]);
    printf(" (hexadecimal) * 2^%d\n", s.number.exponent);
    printf("    ternary value %d, depth %d, limbs used %d and %d\n", s.ternary, (int)s.depth, (int)s.first, (int)s.second);
}

int main(void) {
    // 1/3 to 128 digits, from below, and 2^-70 to 2 digits
    sheafbuckle_number third = {.precision = 128, .exponent = -1, .negative = false, .zero = false};
    uint64_t third_limbs[2] = {0xaaaaaaaaaaaaaaaa, 0xaaaaaaaaaaaaaaaa};
    sheafbuckle_number tiny = {.precision = 2, .exponent = -69, .negative = false, .zero = false};
    uint64_t tiny_limbs[1] = {(uint64_t)1 << 63};
    uint64_t sum[2], rounded[1];

    // exact to 128 digits: every column is read
    sheafbuckle_sum whole = sheafbuckle_add(SHEAFBUCKLE_NEAREST, third, third_limbs, 2, tiny, tiny_limbs, 1, 128, sum, 2);
    show("1/3 + 2^-70 to 128 digits, nearest", whole, sum, 2);

    // to 53 digits the first column fixes the answer, whatever stands below it
    sheafbuckle_sum down = sheafbuckle_add(SHEAFBUCKLE_DOWN, third, third_limbs, 2, tiny, tiny_limbs, 1, 53, rounded, 1);
    show("1/3 + 2^-70 to 53 digits, down", down, rounded, 1);

    // the doubles that enclose the exact sum
    sheafbuckle_pair pair = sheafbuckle_enclose(whole.number, sum, 2);
    printf("the sum lies from %a to %a\n", pair.lower, pair.upper);

    // what cancels is an exact zero, in every mode +0
    sheafbuckle_sum none = sheafbuckle_subtract(SHEAFBUCKLE_DOWN, third, third_limbs, 2, third, third_limbs, 2, 53, rounded, 1);
    printf("1/3 - 1/3: %s0, ternary value %d, depth %d\n", none.number.negative ? "-" : "+", none.ternary, (int)none.depth);

    // the largest number twice: no number of this range
    sheafbuckle_number most = {.precision = 2, .exponent = 1073741823, .negative = false, .zero = false};
    sheafbuckle_sum large = sheafbuckle_add(SHEAFBUCKLE_NEAREST, most, tiny_limbs, 1, most, tiny_limbs, 1, 2, rounded, 1);
    show("2^(2^30-2) twice", large, rounded, 1);
    return 0;
}
