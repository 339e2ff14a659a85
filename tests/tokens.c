/*
 * Text data of many samples, and of very long tokens and runs of blanks, read
 * and written on a small stack: the calls must not need a stack that grows
 * with the data.
 */
#define _POSIX_C_SOURCE 200112L

#include "calls.h"

#include <pthread.h>
#include <stdio.h>
#include <stdlib.h>
#include <string.h>

static const struct calls calls = CALLS(craneholt);

enum {
    STACK = 256 * 1024,
    SAMPLES = 20000000,
    LONG = 5000000 /* digits of a token, blanks of a run */
};

/* ---- files */

struct text {
    uint8_t *at;
    size_t length;
};

/* The header of a text file, with room for its data. */
static struct text start_file(const char *type, unsigned long samples, size_t room)
{
    struct text file = {malloc(room + 200), 0};
    file.length = (size_t)sprintf((char *)file.at,
                                  "NRRD0004\ntype: %s\ndimension: 1\nsizes: %lu\nencoding: txt\n\n",
                                  type, samples);
    return file;
}

static void put(struct text *file, uint8_t byte, size_t count)
{
    memset(file->at + file->length, byte, count);
    file->length += count;
}

static uint8_t sample_at(size_t index)
{
    return (uint8_t)(index * 7);
}

/* A line for each sample, as the writer writes it. */
static struct text many_samples(void)
{
    struct text file = start_file("uint8", SAMPLES, 4 * (size_t)SAMPLES);
    for (size_t i = 0; i < SAMPLES; i++) {
        uint8_t sample = sample_at(i);
        if (sample >= 100)
            file.at[file.length++] = (uint8_t)('0' + sample / 100);
        if (sample >= 10)
            file.at[file.length++] = (uint8_t)('0' + sample / 10 % 10);
        file.at[file.length++] = (uint8_t)('0' + sample % 10);
        file.at[file.length++] = '\n';
    }
    return file;
}

/* The same file, but one more sample wanted. */
static void want_one_more(struct text *file)
{
    strstr((char *)file->at, "20000000")[7] = '1';
}

/* A token of one digit many times and a last one. */
static struct text long_token(uint8_t digit, uint8_t last)
{
    struct text file = start_file("int64", 1, LONG + 1);
    put(&file, '-', 1);
    put(&file, digit, LONG - 1);
    put(&file, last, 1);
    return file;
}

/* Two tokens with a long run before, between and after them. */
static struct text long_runs(void)
{
    struct text file = start_file("int64", 2, 3 * (size_t)LONG + 2);
    put(&file, ' ', LONG);
    put(&file, '1', 1);
    put(&file, '\t', LONG);
    put(&file, '2', 1);
    put(&file, '\n', LONG);
    return file;
}

/* ---- calls on the small stack */

struct job {
    struct text file;
    uint8_t *list, *out;
    size_t room; /* samples of the list */
    craneholt_count_answer checked, read;
    craneholt_write_answer written;
};

static void *read_samples(void *argument)
{
    static const uint8_t none;
    struct job *job = argument;
    job->checked = calls.check_samples(job->file.at, job->file.length, &none, 0, job->room);
    job->read = calls.samples(job->file.at, job->file.length, &none, 0, job->list, 8 * job->room);
    return NULL;
}

/* Writes the samples of the list as a text file of type uint8. */
static void *write_samples(void *argument)
{
    struct job *job = argument;
    uint8_t size[8];
    for (int i = 0; i < 8; i++)
        size[i] = (uint8_t)((uint64_t)job->room >> 8 * i);
    job->written = calls.write(4, size, 8, 1, 1, 0, job->list, 8 * job->room, job->out, job->file.length);
    return NULL;
}

static void on_small_stack(void *(*work)(void *), struct job *job)
{
    pthread_attr_t attributes;
    pthread_t thread;
    if (pthread_attr_init(&attributes) != 0 || pthread_attr_setstacksize(&attributes, STACK) != 0
        || pthread_create(&thread, &attributes, work, job) != 0 || pthread_join(thread, NULL) != 0) {
        printf("no thread with a small stack\n");
        exit(2);
    }
    pthread_attr_destroy(&attributes);
}

/* ---- trials */

static int failures;

static void expect(int right, const char *what)
{
    printf("%s: %s\n", right ? "passed" : "FAILED", what);
    failures += !right;
}

/* Reads a file; the job has its answers and the list. */
static struct job read_file(struct text file, size_t room)
{
    struct job job = {file, calloc(room, 8), malloc(file.length), room,
                      {{0, 0}, 0}, {{0, 0}, 0}, {{0, 0}, 0}};
    on_small_stack(read_samples, &job);
    return job;
}

static void free_job(struct job *job)
{
    free(job->file.at);
    free(job->list);
    free(job->out);
}

/* True if both calls answer this refusal, or this count. */
static int answers(const struct job *job, uint32_t refusal, uint64_t count)
{
    return job->checked.refusal.number == refusal && job->read.refusal.number == refusal
           && job->checked.count == count && job->read.count == count;
}

static int64_t listed(const struct job *job, size_t index)
{
    uint64_t sample = 0;
    for (int i = 7; i >= 0; i--)
        sample = sample << 8 | job->list[8 * index + (size_t)i];
    return (int64_t)sample;
}

static int all_are_listed(const struct job *job)
{
    for (size_t i = 0; i < SAMPLES; i++)
        if (listed(job, i) != sample_at(i))
            return 0;
    return 1;
}

static void try_many(void)
{
    struct job job = read_file(many_samples(), SAMPLES);
    expect(answers(&job, 0, SAMPLES), "20,000,000 text samples are read");
    expect(all_are_listed(&job), "each of them is right");
    on_small_stack(write_samples, &job);
    expect(job.written.refusal.number == 0 && job.written.length == job.file.length
               && memcmp(job.out, job.file.at, job.file.length) == 0,
           "they are written as the same file");
    want_one_more(&job.file);
    on_small_stack(read_samples, &job);
    expect(answers(&job, 22, 0), "one more does not fit: 22");
    free_job(&job);
}

static void try_one_more(void)
{
    struct text file = many_samples();
    struct job job;
    want_one_more(&file);
    job = read_file(file, SAMPLES + 1);
    expect(answers(&job, 21, 0) && listed(&job, 1) == 0, "one more is missing: 21, and nothing is listed");
    free_job(&job);
}

static void try_long(struct text file, uint32_t refusal, uint64_t count, int64_t first, const char *what)
{
    struct job job = read_file(file, 2);
    expect(answers(&job, refusal, count) && listed(&job, 0) == first, what);
    free_job(&job);
}

int main(void)
{
    try_many();
    try_one_more();
    try_long(long_token('0', '7'), 0, 1, -7, "a token of 5,000,000 digits is read");
    try_long(long_token('9', '9'), 20, 0, 0, "a number of 5,000,000 digits is refused: 20");
    try_long(long_token('0', 'x'), 20, 0, 0, "a token that goes wrong at its end is refused: 20");
    try_long(long_runs(), 0, 2, 1, "runs of 5,000,000 blanks are read");
    printf("%d failed\n", failures);
    return failures == 0 ? 0 : 1;
}
