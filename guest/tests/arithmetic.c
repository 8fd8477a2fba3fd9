/* Multiplication, division and shifts, for which RV32I has no instructions or none of 64 bits. */
#include <limits.h>
#include <stdint.h>

#include "expect.h"

/* Whether two numbers of 64 bits are equal. */
static int is_equal(uint64_t left, uint64_t right_hand)
{
    return left == right_hand;
}

static void words(void)
{
    /* volatile, so that the compiler does not compute the results itself */
    volatile int a = -100;
    volatile int b = 7;
    volatile int least = INT_MIN;
    volatile unsigned int greatest = UINT_MAX;
    volatile unsigned int ten = 10;
    expect("-100 * 7", a * b, -700);
    expect("100 * 7", -a * b, 700);
    expect("-100 / 7", a / b, -14);
    expect("-100 % 7", a % b, -2);
    expect("100 / -7", -a / -b, -14);
    expect("100 % -7", -a % -b, 2);
    expect("-100 / -7", a / -b, 14);
    expect("-100 % -7", a % -b, -2);
    expect("INT_MIN / 7", least / b, -306783378);
    expect("INT_MIN % 7", least % b, -2);
    expect("7 / INT_MIN", b / least, 0);
    expect("7 % INT_MIN", b % least, 7);
    expect("UINT_MAX / 10", (int)(greatest / ten), 429496729);
    expect("UINT_MAX % 10", (int)(greatest % ten), 5);
    expect("10 / UINT_MAX", (int)(ten / greatest), 0);
    expect("10 % UINT_MAX", (int)(ten % greatest), 10);
    expect("UINT_MAX / UINT_MAX", (int)(greatest / greatest), 1);
    expect("UINT_MAX * 10", (int)(greatest * ten), -10);
}

static void long_words(void)
{
    volatile int64_t a = -10000000000; /* -10^10 */
    volatile int64_t b = 1000003;
    volatile uint64_t greatest = UINT64_MAX;
    volatile int bits = 35;
    expect("-10^10 * 1000003", is_equal((uint64_t)(a * b), (uint64_t)INT64_C(-10000030000000000)), 1);
    expect("-10^10 / 1000003", (int)(a / b), -9999);
    expect("-10^10 % 1000003", (int)(a % b), -970003);
    expect("UINT64_MAX / 1000003", is_equal(greatest / (uint64_t)b, UINT64_C(18446688733643)), 1);
    expect("UINT64_MAX % 1000003", (int)(greatest % (uint64_t)b), 350686);
    expect("-10^10 shifted up by 35", is_equal((uint64_t)a << bits, UINT64_C(0x5FA0E00000000000)), 1);
    expect("3 shifted up by 35", is_equal(UINT64_C(3) << bits, UINT64_C(0x1800000000)), 1);
    expect("all ones shifted down by 35", is_equal(greatest >> bits, UINT64_C(0x1FFFFFFF)), 1);
    expect("-2^40 shifted down by 35", (int)((-INT64_C(0x10000000000)) >> bits), -32);
}

int main(void)
{
    words();
    long_words();
    return tell();
}
