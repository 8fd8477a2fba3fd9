/* Floating point, by routines of the compiler's and of picolibc's: IEEE 754 fixes what is compared here, to the bit
 * where it says so (sums, products, quotients, square roots, conversions), and texts are those that C demands. */
#include <math.h>
#include <stdint.h>
#include <stdlib.h>

#include "../stack_use.h"

static uint64_t bits_of(double number)
{
    uint64_t bits;
    memcpy(&bits, &number, sizeof bits);
    return bits;
}

static void expect_bits(const char *what, double number, uint64_t bits)
{
    expect(what, bits_of(number) == bits, 1);
}

static void expect_text(const char *format, double number, const char *expected)
{
    char text[40];
    snprintf(text, sizeof text, format, number);
    if (strcmp(text, expected) != 0) {
        puts(text);
    }
    expect(expected, strcmp(text, expected), 0);
}

static void arithmetic(void)
{
    volatile double one = 1;
    volatile double ten = 10;
    volatile double third = one / 3;
    volatile float single = 16777216;
    expect_bits("1 / 3", third, UINT64_C(0x3FD5555555555555));
    expect_bits("0.1 + 0.2", one / ten + 2 / ten, UINT64_C(0x3FD3333333333334));
    expect_bits("1 / 3 * 3", third * 3, UINT64_C(0x3FF0000000000000));
    expect_bits("1 - 0.9", one - 0.9, UINT64_C(0x3FB9999999999998));
    expect_bits("sqrt 2", sqrt(one + 1), UINT64_C(0x3FF6A09E667F3BCD));
    expect_bits("-0", -(one - one), UINT64_C(0x8000000000000000));
    expect_bits("1 / 0", one / (one - one), UINT64_C(0x7FF0000000000000));
    expect("0 / 0 is no number", (one - one) / (one - one) == (one - one) / (one - one), 0);
    expect("a float's last bit", single + 1 == single, 1);
    expect("to int", (int)(third * -10), -3);
    expect("from unsigned", bits_of((double)UINT32_MAX) == UINT64_C(0x41EFFFFFFFE00000), 1);
    expect("from 64 bits", bits_of((double)INT64_MIN) == UINT64_C(0xC3E0000000000000), 1);
    expect("to 64 bits", (int64_t)(ten * 1e15) == INT64_C(10000000000000000), 1);
    expect("less", third < one && !(one < third), 1);
}

/* Within 1 in 10^15, where no standard fixes the last bit. */
static void functions(void)
{
    volatile double one = 1;
    expect("exp", fabs(exp(one) - 2.718281828459045) < 3e-15, 1);
    expect("log", fabs(log(one * 10) - 2.302585092994046) < 3e-15, 1);
    expect("sin", fabs(sin(one) - 0.8414709848078965) < 1e-15, 1);
    expect("atan", fabs(4 * atan(one) - 3.141592653589793) < 4e-15, 1);
    expect("pow", fabs(pow(one + 1, 0.5) - 1.414213562373095) < 2e-15, 1);
    expect_bits("floor", floor(one * -2.5), UINT64_C(0xC008000000000000));
    expect_bits("fmod", fmod(one * 10, 3), UINT64_C(0x3FF0000000000000));
}

static void texts(void)
{
    expect_text("%f", 3.14159265, "3.141593");
    expect_text("%.2f", 2.675, "2.67"); /* 2.675 is a little less than that */
    expect_text("%8.3f|", -1.5, "  -1.500|");
    expect_text("%08.1f", -2.25, "-00002.2"); /* half to even */
    expect_text("%e", 12345.678, "1.234568e+04");
    expect_text("%.0e", 0.00002, "2e-05");
    expect_text("%g", 0.0001, "0.0001");
    expect_text("%g", 1e20, "1e+20");
    expect_text("%.15g", 0.1, "0.1");
    expect_text("%f", -INFINITY, "-inf");
    expect_bits("strtod", strtod("6.02214076e23", NULL), UINT64_C(0x44DFE185CA57C517));
    expect_bits("strtod of a least number", strtod("4.9406564584124654e-324", NULL), 1);
    expect_bits("atof", atof("-0.1"), UINT64_C(0xBFB999999999999A));
}

/* Newton's method for the cube root of 2, which is 1.259921049894873164.. */
static void newton(void)
{
    double root = 1;
    for (int i = 0; i < 6; i++) {
        root -= (root * root * root - 2) / (3 * root * root);
    }
    printf("the cube root of 2 is %.15f\n", root);
}

static void *print(void *argument)
{
    printf("%f %g %d\n", -0.5, 1e300, 7);
    return argument;
}

static void *scan(void *argument)
{
    double number = 0;
    if (sscanf("1e3", "%lf", &number) == 1 && number == 1000) {
        puts("a thousand");
    }
    return argument;
}

int main(void)
{
    arithmetic();
    functions();
    texts();
    newton();
    expect_stack("the stack of printf with floating point", print, 576);
    expect_stack("the stack of scanf with floating point", scan, 576);
    return tell();
}
