/* What the peers of this folder share: their words, the clock, and the line that each client writes. */
#ifndef BENCH_ECHO_H
#define BENCH_ECHO_H

#include <errno.h>
#include <stdint.h>
#include <stdio.h>
#include <stdlib.h>
#include <string.h>
#include <time.h>
#include <unistd.h>

/* Nothing runs longer, in seconds. */
#define MOST_SECONDS 60

/* No more calls are in flight. */
#define MOST_PENDING 1024

/* The largest message, in bytes. */
#define MOST_BYTES (1 << 20)

struct words {
    int serves;
    unsigned port;
    double seconds;
    unsigned size;
    unsigned pending;
};

static uint64_t nanos(void)
{
    struct timespec now;
    clock_gettime(CLOCK_MONOTONIC, &now);
    return (uint64_t)now.tv_sec * 1000000000u + (uint64_t)now.tv_nsec;
}

static void fail(const char *what)
{
    fprintf(stderr, "failed: %s: %s\n", what, strerror(errno));
    exit(2);
}

/* serve PORT SECONDS, or load PORT SECONDS SIZE PENDING. Ends by itself, whatever happens. */
static struct words read_words(int count, char **words)
{
    struct words read = {0};
    if (count < 4)
        goto usage;
    read.serves = strcmp(words[1], "serve") == 0;
    read.port = (unsigned)atoi(words[2]);
    read.seconds = atof(words[3]);
    if (read.seconds <= 0 || read.seconds > MOST_SECONDS)
        goto usage;
    if (!read.serves) {
        if (count != 6)
            goto usage;
        read.size = (unsigned)atoi(words[4]);
        read.pending = (unsigned)atoi(words[5]);
        if (read.size < 8 || read.size > MOST_BYTES || !read.pending
            || read.pending > MOST_PENDING)
            goto usage;
    }
    alarm((unsigned)read.seconds + 5);
    return read;
usage:
    fprintf(stderr, "usage: %s serve PORT SECONDS | load PORT SECONDS SIZE PENDING\n", words[0]);
    exit(1);
}

/* How long calls took, in nanoseconds: 128 steps for each doubling. */
static uint64_t counts[7424];
static uint64_t calls;
static uint64_t lost;

static unsigned bucket_of(uint64_t time)
{
    if (time < 128)
        return (unsigned)time;
    unsigned doublings = 63 - (unsigned)__builtin_clzll(time) - 7;
    return doublings * 128 + (unsigned)(time >> doublings);
}

static uint64_t most_of(unsigned bucket)
{
    if (bucket < 128)
        return bucket;
    unsigned doublings = bucket / 128 - 1;
    return (((uint64_t)(128 + bucket % 128)) << doublings) + ((1ull << doublings) - 1);
}

static void count_call(uint64_t asked, uint64_t now)
{
    counts[bucket_of(now - asked)]++;
    calls++;
}

static uint64_t percentile(double share)
{
    uint64_t rank = (uint64_t)(share * (double)calls);
    uint64_t seen = 0;
    for (unsigned bucket = 0; bucket < 7424; bucket++) {
        seen += counts[bucket];
        if (seen > rank)
            return most_of(bucket);
    }
    return 0;
}

static void tell(const struct words *words, uint64_t began, uint64_t now)
{
    double seconds = (double)(now - began) / 1e9;
    printf("{\"calls\":%llu,\"seconds\":%.3f,\"calls_a_second\":%.0f,"
           "\"megabytes_a_second\":%.2f,\"p50_ns\":%llu,\"p99_ns\":%llu,\"lost\":%llu}\n",
           (unsigned long long)calls, seconds, (double)calls / seconds,
           (double)calls * words->size / seconds / 1e6, (unsigned long long)percentile(0.5),
           (unsigned long long)percentile(0.99), (unsigned long long)lost);
}

#endif
