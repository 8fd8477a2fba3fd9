/* A heap over an array that the link places: pieces one behind the other, each with a head, free ones joined where a
 * piece is looked for. */
#include <errno.h>
#include <stdbool.h>
#include <stdint.h>
#include <stdlib.h>
#include <string.h>

#include "locks.h"

enum { UNIT = 16 }; /* every type's alignment; a piece's bytes are a multiple of it */

/* What stands before a piece. */
struct head {
    size_t size;     /* of the piece, without its head */
    unsigned int use;
} __attribute__((aligned(UNIT)));

enum { FREE = 0x66726565, USED = 0x75736564 }; /* "free" and "used": other words are no heads */

extern char __heap_start[];
extern char __heap_end[];

static pthread_mutex_t lock;

static struct head *first(void)
{
    return (struct head *)__heap_start;
}

static bool is_end(const struct head *head)
{
    return (uintptr_t)head >= (uintptr_t)__heap_end;
}

static struct head *next(struct head *head)
{
    return (struct head *)((char *)(head + 1) + head->size);
}

static void set_up(void)
{
    set_up_lock(&lock);
    size_t room = ((uintptr_t)__heap_end - (uintptr_t)__heap_start) / UNIT * UNIT;
    if (room > sizeof(struct head)) {
        *first() = (struct head){room - sizeof(struct head), FREE};
    }
}

CALL_BEFORE_MAIN(set_up);

/* A multiple of the unit, at least one; 0 where it is no size. */
static size_t whole(size_t size)
{
    return size == 0 ? UNIT : (size + UNIT - 1) / UNIT * UNIT;
}

/* Joins a free piece with the free ones behind it. */
static void join(struct head *head)
{
    struct head *behind = next(head);
    while (!is_end(behind) && behind->use == FREE) {
        head->size += sizeof(struct head) + behind->size;
        behind = next(head);
    }
}

/* Leaves `size` bytes to a piece, and makes the rest a free one where it has room for a head. */
static void split(struct head *head, size_t size)
{
    size_t rest = head->size - size;
    if (rest > sizeof(struct head)) {
        head->size = size;
        *next(head) = (struct head){rest - sizeof(struct head), FREE};
    }
}

/* The first free piece of a size; NULL where there is none. */
static struct head *find(size_t size)
{
    bool is_empty = __heap_end - __heap_start <= (ptrdiff_t)sizeof(struct head);
    for (struct head *head = first(); !is_empty && !is_end(head); head = next(head)) {
        if (head->use == FREE) {
            join(head);
            if (head->size >= size) {
                return head;
            }
        }
    }
    return NULL;
}

void *malloc(size_t size)
{
    size_t bytes = whole(size);
    struct head *head = NULL;
    if (bytes >= size) {
        pthread_mutex_lock(&lock);
        head = find(bytes);
        if (head != NULL) {
            split(head, bytes);
            head->use = USED;
        }
        pthread_mutex_unlock(&lock);
    }
    if (head == NULL) {
        errno = ENOMEM;
        return NULL;
    }
    return head + 1;
}

void free(void *piece)
{
    if (piece == NULL) {
        return;
    }
    struct head *head = (struct head *)piece - 1;
    if (head->use != USED) {
        abort();
    }
    head->use = FREE; /* one store, so no lock is needed */
}

void *calloc(size_t count, size_t size)
{
    size_t bytes = 0;
    if (__builtin_mul_overflow(count, size, &bytes)) {
        errno = ENOMEM;
        return NULL;
    }
    void *piece = malloc(bytes);
    if (piece != NULL) {
        memset(piece, 0, bytes);
    }
    return piece;
}

/* Makes a piece longer or shorter where it stands. Returns whether there was room; else it stays. */
static bool resize(struct head *head, size_t bytes)
{
    pthread_mutex_lock(&lock);
    size_t length = head->size;
    join(head);
    bool has_room = head->size >= bytes;
    split(head, has_room ? bytes : length);
    pthread_mutex_unlock(&lock);
    return has_room;
}

void *realloc(void *old, size_t size)
{
    if (old == NULL) {
        return malloc(size);
    }
    if (size == 0) {
        free(old);
        return NULL;
    }
    struct head *head = (struct head *)old - 1;
    size_t length = head->size;
    size_t bytes = whole(size);
    if (bytes >= size && resize(head, bytes)) {
        return old;
    }
    void *piece = malloc(size);
    if (piece != NULL) {
        memcpy(piece, old, length);
        free(old);
    }
    return piece;
}
