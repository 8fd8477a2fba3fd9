/* malloc, calloc, realloc and free by two threads of SCHED_RR, whose turns end anywhere in them: the configuration has
 * a partition for each of the intervals 1, 3, 7 and 13. Each piece is filled and looked at before it is given back, so
 * that two threads that had the same bytes would see it. */
#include <pthread.h>
#include <stdlib.h>

#include "../expect.h"

enum { ROUNDS = 60, PIECES = 8 };

/* The pieces of a thread, with the byte of which each is full. */
struct pieces {
    unsigned char *at[PIECES];
    size_t size[PIECES];
    unsigned char byte;
    int damaged;
    int missing;
};

static void look(struct pieces *it, int i)
{
    for (size_t k = 0; k < it->size[i]; k++) {
        it->damaged += it->at[i][k] != (unsigned char)(it->byte + i);
    }
}

static void fill(struct pieces *it, int i)
{
    if (it->at[i] == NULL) {
        it->missing++;
        it->size[i] = 0;
        return;
    }
    memset(it->at[i], it->byte + i, it->size[i]);
}

/* Gives a piece back and takes another, makes one longer or shorter, by turns. */
static void change(struct pieces *it, int round)
{
    int i = round % PIECES;
    size_t size = (size_t)(1 + round * 7 % 40);
    if (it->at[i] == NULL) {
        it->at[i] = malloc(size);
    } else if (round % 3 == 0) {
        look(it, i);
        it->at[i] = realloc(it->at[i], size);
    } else {
        look(it, i);
        free(it->at[i]);
        it->at[i] = calloc(size, 1);
        for (size_t k = 0; it->at[i] != NULL && k < size; k++) {
            it->damaged += it->at[i][k] != 0;
        }
    }
    it->size[i] = size;
    fill(it, i);
}

static void *work(void *pieces)
{
    struct pieces *it = pieces;
    for (int round = 0; round < ROUNDS; round++) {
        change(it, round);
    }
    for (int i = 0; i < PIECES; i++) {
        look(it, i);
        free(it->at[i]);
    }
    return NULL;
}

int main(void)
{
    static struct pieces pieces[2] = {{.byte = 0x20}, {.byte = 0xA0}};
    pthread_attr_t attributes;
    pthread_t threads[2];
    pthread_attr_init(&attributes);
    pthread_attr_setinheritsched(&attributes, PTHREAD_EXPLICIT_SCHED);
    pthread_attr_setschedpolicy(&attributes, SCHED_RR);
    for (int i = 0; i < 2; i++) {
        expect("create", pthread_create(&threads[i], &attributes, work, &pieces[i]), 0);
    }
    for (int i = 0; i < 2; i++) {
        pthread_join(threads[i], NULL);
        expect("damaged bytes", pieces[i].damaged, 0);
        expect("missing pieces", pieces[i].missing, 0);
    }
    char *all = malloc(1500); /* what was given back is one piece again */
    expect("a large piece at the end", all != NULL, 1);
    free(all);
    return tell();
}
