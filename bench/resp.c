// Measures the proved reader of RESP2 beside hiredis's reader, on the same answers in one run.
// Ours reads an answer where it lies. hiredis is fed a copy and builds reply objects, as a client has
// it; "parsing" is hiredis at its best, with no objects, integers unread, and a buffer that it keeps.
#define _POSIX_C_SOURCE 200809L
#include <hiredis/hiredis.h>
#include <stdarg.h>
#include <stdbool.h>
#include <stdint.h>
#include <stdio.h>
#include <stdlib.h>
#include <string.h>
#include <time.h>

// crates/probe: the length of the value at the front, with arrays nested at most `depth` deep, or 0.
size_t resp_value_len(const uint8_t *bytes, size_t len, uint32_t depth);

enum { DEPTH = 8, ROUNDS = 5, ROOM = 1 << 17 };

static const double ROUND_SECONDS = 0.065;
static const double MOST_GROWTH = 1.5;

static void fail(const char *reader, const char *answer, const char *what)
{
    fprintf(stderr, "bench: %s, %s: %s\n", reader, answer, what);
    exit(1);
}

// The answers

struct answer {
    char name[24];
    size_t len;
    char bytes[ROOM];
};

static struct answer *named(const char *format, ...)
{
    struct answer *a = calloc(1, sizeof *a);
    if (a == NULL)
        fail("all", format, "no memory");
    va_list words;
    va_start(words, format);
    vsnprintf(a->name, sizeof a->name, format, words);
    va_end(words);
    return a;
}

static void put(struct answer *a, const char *format, ...)
{
    va_list words;
    va_start(words, format);
    size_t room = ROOM - a->len;
    int n = vsnprintf(a->bytes + a->len, room, format, words);
    va_end(words);
    if (n < 0 || (size_t)n >= room)
        fail("all", a->name, "the answer has no room");
    a->len += (size_t)n;
}

static void put_text(struct answer *a, size_t n)
{
    if (a->len + n >= ROOM)
        fail("all", a->name, "the answer has no room");
    memset(a->bytes + a->len, 'x', n);
    a->len += n;
}

// A bulk string, `size` bytes in all, of which the length takes five digits.
static struct answer *bulk_string(size_t size)
{
    struct answer *a = named("bulk string");
    put(a, "$%zu\r\n", size - 10);
    put_text(a, size - 10);
    put(a, "\r\n");
    return a;
}

static struct answer *simple_string(size_t size)
{
    struct answer *a = named("simple string");
    put(a, "+");
    put_text(a, size - 3);
    put(a, "\r\n");
    return a;
}

static struct answer *short_answer(const char *name, const char *text)
{
    struct answer *a = named("%s", name);
    put(a, "%s", text);
    return a;
}

// An array of exactly `size` bytes: integers of 4 and bulk strings of 9, spread evenly, and up to
// four integers of 5 to make the size up. 65,536 bytes are 10,000 elements.
static struct answer *array(size_t size)
{
    struct answer *a = named("array");
    size_t count = size * 10000 / 65536;
    put(a, "*%zu\r\n", count);
    size_t more = size - a->len - 4 * count;
    size_t strings = more / 5;
    size_t longer = more % 5;
    for (size_t i = 0; i < count; i++) {
        if ((i + 1) * strings / count > i * strings / count) {
            put(a, "$3\r\nkey\r\n");
        } else if (longer > 0) {
            put(a, ":42\r\n");
            longer--;
        } else {
            put(a, ":1\r\n");
        }
    }
    return a;
}

static void put_node(struct answer *a, unsigned node)
{
    put(a, "*4\r\n$9\r\n127.0.0.1\r\n:%u\r\n$40\r\n", 7200 + node);
    for (unsigned i = 0; i < 5; i++)
        put(a, "%08x", (node + 1) * 0x9e3779b1u + i * 0x85ebca6bu);
    put(a, "\r\n*0\r\n");
}

static void put_range(struct answer *a, unsigned from, unsigned to, unsigned node)
{
    put(a, "*4\r\n:%u\r\n:%u\r\n", from, to);
    put_node(a, node);
    put_node(a, node + 3);
}

// CLUSTER SLOTS of three primaries, each with a replica, after 126 single slots have moved.
static struct answer *slots(void)
{
    struct answer *a = named("slots");
    put(a, "*255\r\n");
    for (unsigned i = 0; i < 252; i++)
        put_range(a, i, i, 2 * (i % 2));
    put_range(a, 252, 5460, 0);
    put_range(a, 5461, 10921, 1);
    put_range(a, 10922, 16383, 2);
    return a;
}

// Each level is `pairs` pairs of leaves and then the next level; the last has a simple string there.
static void put_levels(struct answer *a, size_t levels, size_t pairs, size_t size)
{
    put(a, "*%zu\r\n", 2 * pairs + 1);
    for (size_t i = 0; i < pairs; i++)
        put(a, ":1\r\n$3\r\nkey\r\n");
    if (levels > 1) {
        put_levels(a, levels - 1, pairs, size);
    } else {
        put(a, "+");
        put_text(a, size - a->len - 2);
        put(a, "\r\n");
    }
}

static struct answer *nested(size_t levels, size_t size)
{
    struct answer *a = named("nested %zu deep", levels);
    put_levels(a, levels, (size / levels - 10) / 13, size);
    return a;
}

static struct answer *nested_8(size_t size)
{
    return nested(DEPTH, size);
}

// The readers

static size_t ours_len(const char *bytes, size_t len)
{
    return resp_value_len((const uint8_t *)bytes, len, DEPTH);
}

static void ours(const struct answer *a, size_t times)
{
    for (size_t i = 0; i < times; i++)
        if (ours_len(a->bytes, a->len) != a->len)
            fail("ours", a->name, "refused");
}

static redisReader *client_reader(void)
{
    redisReader *r = redisReaderCreate();
    if (r == NULL)
        fail("hiredis", "all", "no memory");
    return r;
}

static redisReader *parsing_reader(void)
{
    redisReader *r = client_reader();
    r->fn = NULL;
    r->maxbuf = 0;
    return r;
}

// One answer: NULL where it is not whole or is refused. Without functions the reply is no object.
static void *next_reply(redisReader *r, const char *bytes, size_t len)
{
    void *reply = NULL;
    if (redisReaderFeed(r, bytes, len) != REDIS_OK || redisReaderGetReply(r, &reply) != REDIS_OK)
        return NULL;
    return reply;
}

static void free_reply(const redisReader *r, void *reply)
{
    if (r->fn != NULL && reply != NULL)
        freeReplyObject(reply);
}

static void hiredis_times(redisReader *r, const struct answer *a, size_t times)
{
    for (size_t i = 0; i < times; i++) {
        void *reply = next_reply(r, a->bytes, a->len);
        if (reply == NULL)
            fail("hiredis", a->name, "refused");
        free_reply(r, reply);
    }
    redisReaderFree(r);
}

static void hiredis(const struct answer *a, size_t times)
{
    hiredis_times(client_reader(), a, times);
}

static void hiredis_parsing(const struct answer *a, size_t times)
{
    hiredis_times(parsing_reader(), a, times);
}

// How many of the bytes hiredis takes for one answer: 0 where it gives none.
static size_t hiredis_len(redisReader *r, const char *bytes, size_t len)
{
    void *reply = next_reply(r, bytes, len);
    size_t taken = reply == NULL ? 0 : len - (r->len - r->pos);
    free_reply(r, reply);
    redisReaderFree(r);
    return taken;
}

static void expect(const char *reader, const struct answer *a, size_t taken, size_t expected)
{
    if (taken != expected)
        fail(reader, a->name, "takes another number of bytes");
}

// Every reader takes the answer and leaves what follows it, and takes nothing one byte short of it.
static void check_agreement(const struct answer *a)
{
    static char followed[ROOM + 4];
    memcpy(followed, a->bytes, a->len);
    memcpy(followed + a->len, ":7\r\n", 4);
    expect("ours", a, ours_len(followed, a->len + 4), a->len);
    expect("hiredis", a, hiredis_len(client_reader(), followed, a->len + 4), a->len);
    expect("hiredis parsing", a, hiredis_len(parsing_reader(), followed, a->len + 4), a->len);
    expect("ours", a, ours_len(a->bytes, a->len - 1), 0);
    expect("hiredis", a, hiredis_len(client_reader(), a->bytes, a->len - 1), 0);
    expect("hiredis parsing", a, hiredis_len(parsing_reader(), a->bytes, a->len - 1), 0);
}

// The clock

struct job {
    void (*reader)(const struct answer *, size_t);
    const struct answer *answer;
    size_t times;
    double seconds; // for one answer, in the best round
};

static double seconds_taken(const struct job *j)
{
    struct timespec from, to;
    clock_gettime(CLOCK_MONOTONIC, &from);
    j->reader(j->answer, j->times);
    clock_gettime(CLOCK_MONOTONIC, &to);
    return (double)(to.tv_sec - from.tv_sec) + 1e-9 * (double)(to.tv_nsec - from.tv_nsec);
}

// So many times that a round takes long enough for the clock.
static void fit_round(struct job *j)
{
    double taken = 0;
    for (j->times = 1; taken < ROUND_SECONDS / 10; j->times *= 2)
        taken = seconds_taken(j);
    j->times = (size_t)((double)j->times / 2 * ROUND_SECONDS / taken) + 1;
}

// The rounds of the jobs alternate, so that a busy machine slows all of them alike.
static void measure(struct job *jobs, size_t count)
{
    for (size_t i = 0; i < count; i++) {
        fit_round(&jobs[i]);
        jobs[i].seconds = 1e9;
    }
    for (int round = 0; round < ROUNDS; round++)
        for (size_t i = 0; i < count; i++) {
            double each = seconds_taken(&jobs[i]) / (double)jobs[i].times;
            if (each < jobs[i].seconds)
                jobs[i].seconds = each;
        }
}

static double megabytes(const struct job *j)
{
    return 1e-6 * (double)j->answer->len / j->seconds;
}

static void compare(struct answer *a)
{
    check_agreement(a);
    struct job jobs[] = {{.reader = ours, .answer = a}, {.reader = hiredis, .answer = a}, {.reader = hiredis_parsing, .answer = a}};
    measure(jobs, 3);
    printf("%-14s %6zu %12.0f %10.0f %10.0f %10.2f %10.2f\n", a->name, a->len, megabytes(&jobs[0]), megabytes(&jobs[1]), megabytes(&jobs[2]),
           jobs[1].seconds / jobs[0].seconds, jobs[2].seconds / jobs[0].seconds);
    fflush(stdout);
    free(a);
}

// hiredis refuses what is nested deeper than its own limit, and is then measured at that limit.
static void compare_nested(size_t size)
{
    size_t levels = DEPTH;
    struct answer *a = nested(levels, size);
    while (levels > 1 && hiredis_len(client_reader(), a->bytes, a->len) == 0) {
        free(a);
        levels--;
        a = nested(levels, size);
    }
    if (levels < DEPTH) {
        struct answer *deepest = nested(DEPTH, size);
        struct job alone = {.reader = ours, .answer = deepest};
        measure(&alone, 1);
        printf("%-14s %6zu %12.0f    hiredis refuses it, and takes %zu deep:\n", deepest->name, deepest->len, megabytes(&alone), levels);
        free(deepest);
    }
    compare(a);
}

// Whether the time per byte stays nearly the same as the answer grows.
static bool is_linear(const char *name, struct answer *(*make)(size_t))
{
    static const size_t sizes[] = {16384, 32768, 65536};
    struct job jobs[3];
    for (size_t i = 0; i < 3; i++)
        jobs[i] = (struct job){.reader = ours, .answer = make(sizes[i])};
    measure(jobs, 3);
    double each[3];
    for (size_t i = 0; i < 3; i++) {
        each[i] = 1e9 * jobs[i].seconds / (double)jobs[i].answer->len;
        printf("%-14s %6zu %12.1f %10.3f\n", name, jobs[i].answer->len, 1e6 * jobs[i].seconds, each[i]);
        free((struct answer *)jobs[i].answer);
    }
    double growth = each[2] / each[0];
    printf("%-14s the time per byte grows by %.2f, at most %.2f allowed\n", name, growth, MOST_GROWTH);
    return growth <= MOST_GROWTH;
}

int main(void)
{
    printf("hiredis %d.%d.%d, best of %d rounds; above 1.00 ours is the faster\n\n", HIREDIS_MAJOR, HIREDIS_MINOR, HIREDIS_PATCH, ROUNDS);
    printf("%21s %12s %10s %10s %10s %10s\n", "", "ours", "hiredis", "parsing", "ours to", "ours to");
    printf("%-14s %6s %12s %10s %10s %10s %10s\n", "answer", "bytes", "MB/s", "MB/s", "MB/s", "hiredis", "parsing");
    compare(bulk_string(65536));
    compare(simple_string(4096));
    compare(short_answer("integer", ":1234567890\r\n"));
    compare(short_answer("short string", "$5\r\nhello\r\n"));
    compare(array(65536));
    compare(slots());
    compare_nested(16384);

    printf("\n%-14s %6s %12s %10s\n", "ours", "bytes", "us", "ns/byte");
    // A busy machine has a second chance.
    bool flat = is_linear("array", array) || is_linear("array", array);
    bool deep = is_linear("nested 8 deep", nested_8) || is_linear("nested 8 deep", nested_8);
    if (!flat || !deep)
        fail("ours", flat ? "nested" : "array", "the time per byte grows");
    return 0;
}
