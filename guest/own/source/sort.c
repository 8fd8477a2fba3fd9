/* Sorting: a heap sort, in place. */
#include <stdlib.h>

/* What is sorted. */
struct array {
    unsigned char *elements;
    size_t size; /* of an element */
    int (*compare)(const void *, const void *);
};

static unsigned char *at(const struct array *array, size_t index)
{
    return array->elements + index * array->size;
}

static void swap(const struct array *array, size_t i, size_t j)
{
    unsigned char *left = at(array, i);
    unsigned char *right = at(array, j);
    for (size_t k = 0; k < array->size; k++) {
        unsigned char byte = left[k];
        left[k] = right[k];
        right[k] = byte;
    }
}

/* Lets an element sink among the first `count` until none below it is greater. Below i are 2i + 1 and 2i + 2. */
static void sink(const struct array *array, size_t i, size_t count)
{
    for (size_t below = 2 * i + 1; below < count; below = 2 * i + 1) {
        if (below + 1 < count && array->compare(at(array, below), at(array, below + 1)) < 0) {
            below++;
        }
        if (array->compare(at(array, i), at(array, below)) >= 0) {
            return;
        }
        swap(array, i, below);
        i = below;
    }
}

void qsort(void *elements, size_t count, size_t size, int (*compare)(const void *, const void *))
{
    struct array array = {elements, size, compare};
    for (size_t i = count / 2; i > 0; i--) {
        sink(&array, i - 1, count);
    }
    for (size_t last = count; last > 1; last--) {
        swap(&array, 0, last - 1);
        sink(&array, 0, last - 1);
    }
}
