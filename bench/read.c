/* Times the reading of valid modules. The modules are written here; each answer is compared with the number of
   records that was written. */
#include <stdint.h>
#include <stdio.h>
#include <stdlib.h>
#include <string.h>
#include <time.h>

uint64_t bench_read_module(const uint8_t *bytes, size_t length);

enum { MAX_MODULE = 4096, ROUNDS = 10 };

static const double ROUND_SECONDS = 0.1;

struct module {
    uint8_t bytes[MAX_MODULE];
    size_t length;
    uint64_t records;
};

/* A record of this kind, with a body of zeros but for its last byte. */
static void put(struct module *m, uint8_t kind, size_t body, uint8_t last)
{
    if (m->length + 1 + body > MAX_MODULE) {
        fprintf(stderr, "the module that should be read has more than %d bytes\n", MAX_MODULE);
        exit(1);
    }
    memset(m->bytes + m->length, 0, 1 + body);
    m->bytes[m->length] = kind;
    if (body > 0)
        m->bytes[m->length + body] = last;
    m->length += 1 + body;
    m->records += 1;
}

static void begin(struct module *m)
{
    m->length = 0;
    m->records = 0;
    put(m, 0x01, 2, 7);
}

static void put_type(struct module *m, uint8_t kind)
{
    put(m, kind, 3, 1);
}

/* Every instruction, with the length of its body. */
static const uint8_t INSTRUCTIONS[][2] = {
    {0x16, 1}, {0x11, 8}, {0x18, 0}, {0x17, 1}, {0x15, 1}, {0x10, 1}, {0x1e, 0}, {0x23, 1}, {0x12, 8}, {0x2b, 1}, {0x14, 0}, {0x19, 0},
    {0x27, 1}, {0x13, 0}, {0x29, 1}, {0x24, 3}, {0x1a, 0}, {0x1d, 0}, {0x22, 1}, {0x2a, 1}, {0x28, 1}, {0x26, 0}, {0x25, 0},
};

/* A function with all its parameters, results and locals, and instructions in turn up to `room` bytes. */
static void put_function(struct module *m, size_t room)
{
    size_t end = m->length + room;
    size_t kinds = sizeof INSTRUCTIONS / sizeof INSTRUCTIONS[0];
    put(m, 0x04, 1, 2);
    for (int i = 0; i < 8; i++)
        put_type(m, 0x05);
    for (int i = 0; i < 4; i++)
        put_type(m, 0x06);
    for (int i = 0; i < 8; i++)
        put_type(m, 0x07);
    for (size_t i = 0; i < 128; i++) {
        const uint8_t *next = INSTRUCTIONS[i % kinds];
        if (m->length + 1 + next[1] > end)
            break;
        put(m, next[0], next[1], 1);
    }
}

static void build(struct module *m, int structs, int functions)
{
    begin(m);
    for (int i = 0; i < structs; i++) {
        put(m, 0x02, 1, 12);
        for (int j = 0; j < 8; j++)
            put_type(m, 0x03);
    }
    for (int i = 0; i < functions; i++)
        put_function(m, 238);
    put(m, 0x00, 0, 0);
}

static void build_seven(struct module *m)
{
    static const uint8_t seven[] = {
        0x01, 7, 0, 0x02, 0x0c, 0x03, 0, 0, 1, 0x04, 2, 0x05, 0, 0, 1, 0x16, 0, 0x27, 0, 0x13, 0x29, 0, 0x25, 0x00,
    };
    memcpy(m->bytes, seven, sizeof seven);
    m->length = sizeof seven;
    m->records = 11;
}

static double now(void)
{
    struct timespec t;
    clock_gettime(CLOCK_MONOTONIC, &t);
    return (double)t.tv_sec + (double)t.tv_nsec / 1e9;
}

static void must_read(const struct module *m, const char *name, uint64_t answer)
{
    if (answer != m->records) {
        fprintf(stderr, "%s: read %llu records, and %llu were written\n", name, (unsigned long long)answer, (unsigned long long)m->records);
        exit(1);
    }
}

/* Seconds to read the module once, in the fastest of the rounds. */
static double seconds(const struct module *m, const char *name)
{
    size_t batch = 1 + (1 << 16) / m->length;
    double best = 1e9;
    must_read(m, name, bench_read_module(m->bytes, m->length));
    for (int round = 0; round < ROUNDS; round++) {
        size_t turns = 0;
        double begun = now(), spent;
        do {
            uint64_t sum = 0;
            for (size_t i = 0; i < batch; i++)
                sum += bench_read_module(m->bytes, m->length);
            must_read(m, name, sum / batch);
            turns += batch;
            spent = now() - begun;
        } while (spent < ROUND_SECONDS);
        if (spent / (double)turns < best)
            best = spent / (double)turns;
    }
    return best;
}

static double report(const struct module *m, const char *name)
{
    double s = seconds(m, name);
    printf("%s: %.0f MB/s, %.0f ns a module (%zu bytes, %llu records, %.1f ns a record)\n", name, (double)m->length / s / 1e6, s * 1e9, m->length,
           (unsigned long long)m->records, s * 1e9 / (double)m->records);
    return s;
}

int main(void)
{
    static struct module seven, half, large;
    build_seven(&seven);
    build(&half, 4, 8);
    build(&large, 8, 16);
    report(&seven, "seven");
    double whole = report(&large, "large");
    double part = report(&half, "half");
    printf("from half to large: %.2f times the bytes, %.2f times the records, %.2f times the time\n", (double)large.length / (double)half.length,
           (double)large.records / (double)half.records, whole / part);
    return 0;
}
