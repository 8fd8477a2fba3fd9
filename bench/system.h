/* What both programs of this folder share: a system of guests as its configuration and its images state it, and what is
 * printed of it. FILE is a configuration and names images, both as ptk reads them (docs/FORMATS.md), and what is printed
 * is what ptk prints, byte for byte. It is made for the guests of this folder alone: there is no input, a line of a
 * configuration is a header, `key = value` or a comment, and what the files hold is tested no further than it takes to
 * stay inside arrays. */
#include <inttypes.h>
#include <stdbool.h>
#include <stdio.h>
#include <stdlib.h>
#include <string.h>

enum { MAX_PARTITIONS = 8, MAX_WINDOWS = 64, HEADER = 24 };
enum { RA = 1, SP = 2, A0 = 10, A1 = 11, A7 = 17 };
enum { EAGAIN_ = 11, ENOSYS_ = 38 };
#define RETURN_GATE 0xfffffff0u
#define ECALL 0x00000073u
#define EBREAK 0x00100073u

/* A step that is kept; pc and word are those before it, a0 that after it. */
struct step {
    uint64_t tick;
    uint32_t thread, pc, word, a0;
};

enum status { RUNNING, EXITED, ILLEGAL, FETCH, LOAD, STORE, MISALIGNED, BREAK };
static const char *const fault_names[] = {"", "", "illegal", "fetch", "load", "store", "misaligned", "break"};

struct partition {
    char name[32], image[256];
    uint32_t length; /* of its memory */
    uint32_t threads, stack, mutexes, conditions;
    uint8_t *memory;
    uint32_t x[32], pc;
    enum status status;
    uint32_t exit_code;
    uint64_t steps, lost;
    uint32_t trace, ring_mask; /* how many steps are asked for; the ring's room, a power of two, less 1 */
    struct step *ring;         /* NULL where none is asked for */
    uint32_t output_room, output_length;
    uint8_t *output;
};

struct window {
    uint32_t start, length;
    char name[32];
    struct partition *partition;
};

struct machine {
    uint32_t frame, partitions, windows;
    struct partition partition[MAX_PARTITIONS];
    struct window window[MAX_WINDOWS];
};

static void stop(const char *why, const char *what)
{
    fprintf(stderr, "%s: %s %s\n", PROGRAM, why, what);
    exit(3);
}

/* ---- memory: little-endian, whatever the host is ---- */

static inline uint32_t read16(const uint8_t *at)
{
    return at[0] | (uint32_t)at[1] << 8;
}

static inline uint32_t read32(const uint8_t *at)
{
    return at[0] | (uint32_t)at[1] << 8 | (uint32_t)at[2] << 16 | (uint32_t)at[3] << 24;
}

static inline void write16(uint8_t *at, uint32_t value)
{
    at[0] = value;
    at[1] = value >> 8;
}

static inline void write32(uint8_t *at, uint32_t value)
{
    at[0] = value;
    at[1] = value >> 8;
    at[2] = value >> 16;
    at[3] = value >> 24;
}

/* ---- immediates ---- */

static inline uint32_t immediate_i(uint32_t word)
{
    return (int32_t)word >> 20;
}

static inline uint32_t immediate_s(uint32_t word)
{
    return ((uint32_t)((int32_t)word >> 20) & ~31u) | (word >> 7 & 31);
}

static inline uint32_t immediate_b(uint32_t word)
{
    return ((uint32_t)((int32_t)word >> 19) & ~0xfffu) | (word << 4 & 0x800) | (word >> 20 & 0x7e0) | (word >> 7 & 0x1e);
}

static inline uint32_t immediate_j(uint32_t word)
{
    return ((uint32_t)((int32_t)word >> 11) & ~0xfffffu) | (word & 0xff000) | (word >> 9 & 0x800) | (word >> 20 & 0x7fe);
}

/* ---- configuration and images ---- */

static uint64_t number(const char *text)
{
    char *end;
    const uint64_t value = strtoull(text, &end, 10);
    if (*text < '0' || *text > '9' || *end != 0)
        stop("no number:", text);
    return value;
}

/* The text between quotes, into a field that it fits. */
static void take_text(char *field, size_t room, const char *text)
{
    const size_t length = strlen(text);
    if (length < 2 || length - 2 >= room || text[0] != '"' || text[length - 1] != '"')
        stop("no text that fits:", text);
    memcpy(field, text + 1, length - 2);
    field[length - 2] = 0;
}

static void take_key(struct machine *m, struct partition *p, struct window *w, const char *key, const char *value)
{
    if (w != NULL) {
        if (strcmp(key, "start") == 0)
            w->start = number(value);
        else if (strcmp(key, "length") == 0)
            w->length = number(value);
        else if (strcmp(key, "partition") == 0)
            take_text(w->name, sizeof w->name, value);
    } else if (p != NULL) {
        if (strcmp(key, "name") == 0)
            take_text(p->name, sizeof p->name, value);
        else if (strcmp(key, "image") == 0)
            take_text(p->image, sizeof p->image, value);
        else if (strcmp(key, "memory") == 0)
            p->length = number(value);
        else if (strcmp(key, "threads") == 0)
            p->threads = number(value);
        else if (strcmp(key, "stack") == 0)
            p->stack = number(value);
        else if (strcmp(key, "mutexes") == 0)
            p->mutexes = number(value);
        else if (strcmp(key, "conds") == 0)
            p->conditions = number(value);
        else if (strcmp(key, "output") == 0)
            p->output_room = number(value);
        else if (strcmp(key, "trace") == 0)
            p->trace = number(value);
        else if (strcmp(key, "input") == 0)
            stop("input is left out:", p->name);
    } else if (strcmp(key, "frame") == 0) {
        m->frame = number(value);
    }
}

static void read_configuration(struct machine *m, const char *name)
{
    struct partition *p = NULL;
    struct window *w = NULL;
    char line[512], key[64], value[400];
    FILE *file = fopen(name, "r");
    if (file == NULL)
        stop("missing file", name);
    while (fgets(line, sizeof line, file) != NULL) {
        if (strncmp(line, "[[partition]]", 13) == 0 && m->partitions < MAX_PARTITIONS) {
            p = &m->partition[m->partitions++];
            w = NULL;
        } else if (strncmp(line, "[[window]]", 10) == 0 && m->windows < MAX_WINDOWS) {
            w = &m->window[m->windows++];
        } else if (sscanf(line, "%63[a-z] = %399[^\n]", key, value) == 2) {
            take_key(m, p, w, key, value);
        } else if (line[0] != '#' && line[0] != '\n') {
            stop("a line that it can't read in", name);
        }
    }
    fclose(file);
}

static struct partition *find_partition(struct machine *m, const char *name)
{
    for (uint32_t i = 0; i < m->partitions; i++)
        if (strcmp(m->partition[i].name, name) == 0)
            return &m->partition[i];
    stop("no partition", name);
    return NULL;
}

static int by_start(const void *a, const void *b)
{
    const struct window *one = a, *other = b;
    return one->start < other->start ? -1 : one->start > other->start;
}

static void *room(uint64_t count, size_t size)
{
    void *it = calloc(count + 1, size);
    if (it == NULL)
        stop("no memory", "");
    return it;
}

/* Makes a partition's memory, output and ring, and loads its image. */
static void boot(struct partition *p)
{
    uint8_t header[HEADER];
    uint32_t text, rest;
    FILE *file = fopen(p->image, "rb");
    if (file == NULL)
        stop("missing file", p->image);
    p->memory = room(p->length, 1);
    p->output = room(p->output_room, 1);
    if (p->trace > 0) {
        uint32_t size = 1;
        while (size < p->trace)
            size *= 2;
        p->ring = room(size, sizeof *p->ring);
        p->ring_mask = size - 1;
    }
    if (fread(header, 1, HEADER, file) != HEADER || memcmp(header, "PTKI", 4) != 0)
        stop("no image:", p->image);
    text = read32(header + 12);
    rest = read32(header + 16);
    if (p->length < 4096 || text > p->length || rest > p->length - text
        || fread(p->memory, 1, text + rest, file) != text + rest)
        stop("an image that doesn't fit:", p->image);
    fclose(file);
    p->pc = read32(header + 8);
    p->x[RA] = RETURN_GATE;
    p->x[SP] = p->length;
}

/* ---- what is printed ---- */

static void print_report(const struct machine *m)
{
    for (uint32_t i = 0; i < m->partitions; i++) {
        const struct partition *p = &m->partition[i];
        printf("partition %s ", p->name);
        if (p->status == RUNNING)
            printf("running");
        else if (p->status == EXITED)
            printf("exit %" PRIu32, p->exit_code);
        else
            printf("fault %s pc 0x%08" PRIx32, fault_names[p->status], p->pc);
        printf(" steps %" PRIu64 " lost %" PRIu64 "\noutput %" PRIu32 "\n", p->steps, p->lost, p->output_length);
        fwrite(p->output, 1, p->output_length, stdout);
        printf("\n");
    }
}

static void print_trace(const struct partition *p)
{
    uint64_t i = p->steps < p->trace ? 0 : p->steps - p->trace;
    for (; i < p->steps && p->ring != NULL; i++) {
        const struct step *s = &p->ring[i & p->ring_mask];
        printf("%" PRIu64 " %" PRIu32 " 0x%08" PRIx32 " 0x%08" PRIx32 " 0x%08" PRIx32 "\n", s->tick, s->thread, s->pc,
               s->word, s->a0);
    }
}

/* Reads the words, makes the system, runs it by `run` up to the tick asked for, and prints what is asked for. */
static int main_of(int count, char **words, void (*run)(struct machine *m, uint64_t ticks))
{
    static struct machine m;
    const bool trace = count == 7 && strcmp(words[1], "trace") == 0 && strcmp(words[5], "--partition") == 0;
    if (!(trace || (count == 5 && strcmp(words[1], "run") == 0)) || strcmp(words[3], "--ticks") != 0)
        stop("usage:", "run FILE --ticks N, or trace FILE --ticks N --partition NAME");
    read_configuration(&m, words[2]);
    for (uint32_t i = 0; i < m.partitions; i++)
        boot(&m.partition[i]);
    for (uint32_t i = 0; i < m.windows; i++)
        m.window[i].partition = find_partition(&m, m.window[i].name);
    qsort(m.window, m.windows, sizeof m.window[0], by_start);
    if (m.frame == 0)
        stop("no frame in", words[2]);
    run(&m, number(words[4]));
    if (trace)
        print_trace(find_partition(&m, words[6]));
    else
        print_report(&m);
    return 0;
}
