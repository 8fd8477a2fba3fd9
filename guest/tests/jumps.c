/* Jumps out of functions: <setjmp.h>; and sorting: qsort. */
#include <setjmp.h>
#include <stdlib.h>

#include "expect.h"

static jmp_buf here;

/* Jumps from some calls down. */
static int jump_from(volatile int depth, int value)
{
    if (depth > 0) {
        return jump_from(depth - 1, value) + 1;
    }
    if (depth == 0) {
        longjmp(here, value);
    }
    return 0;
}

static int answer_of(int value)
{
    volatile int before = 11;
    int answer = setjmp(here);
    if (answer == 0) {
        before = 12;
        jump_from(5, value);
    }
    expect("a volatile variable keeps its value", before, 12);
    return answer;
}

/* Registers that a function leaves as they are have the values that they had. */
static void registers(int a, int b, int c, int d)
{
    volatile int times = 0;
    int sum = a + b * 10;
    int product = c * d;
    if (setjmp(here) < 3) {
        times = times + 1;
        jump_from(3, times);
    }
    expect("times", times, 3);
    expect("registers", sum + product + a + d, 21 + 12 + 1 + 4);
}

static int compare_ints(const void *left, const void *right)
{
    int a = *(const int *)left;
    int b = *(const int *)right;
    return (a > b) - (a < b);
}

/* An element of an odd size. */
struct name {
    char text[7];
};

static int compare_names(const void *left, const void *right)
{
    return strcmp(((const struct name *)left)->text, ((const struct name *)right)->text);
}

static int comparisons = 0;

static int count_comparisons(const void *left, const void *right)
{
    comparisons++;
    return compare_ints(left, right);
}

static void sorting(void)
{
    int numbers[] = {5, -1, 5, 0, 2147483647, 3, -2147483647 - 1, 5, 2, 1};
    const int sorted[] = {-2147483647 - 1, -1, 0, 1, 2, 3, 5, 5, 5, 2147483647};
    qsort(numbers, 10, sizeof numbers[0], compare_ints);
    expect("numbers", memcmp(numbers, sorted, sizeof sorted), 0);
    struct name names[] = {{"pear"}, {"fig"}, {"banana"}, {"apple"}, {"cherry"}};
    qsort(names, 5, sizeof names[0], compare_names);
    expect("names", strcmp(names[0].text, "apple") == 0 && strcmp(names[2].text, "cherry") == 0
                        && strcmp(names[4].text, "pear") == 0, 1);
    int many[64];
    for (int i = 0; i < 64; i++) {
        many[i] = i; /* sorted already, the worst case of some */
    }
    qsort(many, 64, sizeof many[0], count_comparisons);
    int misplaced = 0;
    for (int i = 0; i < 64; i++) {
        misplaced += many[i] != i;
    }
    expect("misplaced", misplaced, 0);
    expect("at most 2 n log n comparisons", comparisons <= 2 * 64 * 6, 1);
    qsort(many, 0, sizeof many[0], compare_ints);
    qsort(many, 1, sizeof many[0], compare_ints);
}

int main(void)
{
    expect("setjmp", answer_of(7), 7);
    expect("0 is made 1", answer_of(0), 1);
    expect("a negative one", answer_of(-3), -3);
    registers(1, 2, 3, 4);
    sorting();
    return tell();
}
