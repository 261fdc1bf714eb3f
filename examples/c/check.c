/*
 * Prints what the library answers for images: of the check, and of sealing.
 *
 *     check [--each | --large] [FILE...]
 *
 * FILE is an image; without one, two small images that are built in are asked of. --each asks for the five
 * numbers one by one, and --large asks for all in memory for large images, on a thread of its own.
 */
#include <pthread.h>
#include <stdio.h>
#include <stdlib.h>
#include <string.h>

#include "dulvanos.h"

/* A function whose two statements are Emit 5..5, which is empty, and Emit 1..0, which starts behind its end. */
static const uint8_t bad_range[] = {
    0x0B, 1, 0, 0, 0, 0xFF, 0xFF, 0xFF, 0xFF, /* Function, by name 1, without a filter leaf */
    0x80, 5, 0, 0, 0, 5, 0, 0, 0,             /* Emit 5..5 */
    0x80, 1, 0, 0, 0, 0, 0, 0, 0,             /* Emit 1..0 */
    0x1F,                                     /* EndFunction */
};

/* A function that calls itself: the check passes it, and sealing does not. */
static const uint8_t call_of_itself[] = {
    0x0B, 1, 0, 0, 0, 0xFF, 0xFF, 0xFF, 0xFF, /* Function, by name 1, without a filter leaf */
    0x90, 0, 0, 0, 0, 0xFF, 0xFF, 0xFF, 0xFF, /* Call of function 0, without a result */
    0x1F,                                     /* EndFunction */
};

struct image {
    const uint8_t *bytes;
    size_t length;
};

/* What is asked: the calls of the check, or those of sealing. */
struct question {
    const char *passes;
    const char *refuses;
    struct dulvanos_verdict (*whole)(const uint8_t *image, size_t length);
    uint32_t (*number)(const uint8_t *image, size_t length);
    uint32_t (*kind)(const uint8_t *image, size_t length);
    size_t (*first)(const uint8_t *image, size_t length);
    size_t (*second)(const uint8_t *image, size_t length);
    size_t (*position)(const uint8_t *image, size_t length);
    struct dulvanos_verdict (*large)(const uint8_t *image, size_t length, uint32_t times);
};

static const struct question questions[] = {
    {"passes", "refused", dulvanos_check, dulvanos_check_number, dulvanos_check_kind, dulvanos_check_first,
     dulvanos_check_second, dulvanos_check_position, dulvanos_check_large},
    {"sealed", "not sealed", dulvanos_seal, dulvanos_seal_number, dulvanos_seal_kind, dulvanos_seal_first,
     dulvanos_seal_second, dulvanos_seal_position, dulvanos_seal_large},
};

typedef struct dulvanos_verdict way(const struct question *question, struct image image);

static struct dulvanos_verdict ask(const struct question *question, struct image image)
{
    return question->whole(image.bytes, image.length);
}

static struct dulvanos_verdict ask_each(const struct question *question, struct image image)
{
    struct dulvanos_verdict verdict;
    verdict.number = question->number(image.bytes, image.length);
    verdict.kind = question->kind(image.bytes, image.length);
    verdict.first = question->first(image.bytes, image.length);
    verdict.second = question->second(image.bytes, image.length);
    verdict.position = question->position(image.bytes, image.length);
    return verdict;
}

/* What a thread is given, and what it answers. */
struct job {
    const struct question *question;
    struct image image;
    struct dulvanos_verdict verdict;
};

static void *run_job(void *given)
{
    struct job *job = given;
    job->verdict = job->question->large(job->image.bytes, job->image.length, 1);
    return NULL;
}

static void fail(const char *what)
{
    fprintf(stderr, "check: %s\n", what);
    exit(2);
}

static struct dulvanos_verdict ask_large(const struct question *question, struct image image)
{
    struct job job = {question, image, {0, 0, 0, 0, 0}};
    pthread_attr_t attributes;
    pthread_t thread;
    if (pthread_attr_init(&attributes) != 0
        || pthread_attr_setstacksize(&attributes, DULVANOS_LARGE_STACK) != 0
        || pthread_create(&thread, &attributes, run_job, &job) != 0
        || pthread_join(thread, NULL) != 0)
        fail("no thread");
    pthread_attr_destroy(&attributes);
    return job.verdict;
}

static void show_answer(const struct question *question, struct dulvanos_verdict verdict)
{
    if (verdict.number == DULVANOS_PASSES)
        printf("%s", question->passes);
    else if (verdict.number <= DULVANOS_UNFINISHED)
        printf("%s with %u", question->refuses, (unsigned)verdict.number);
    else
        printf("%s with %u, kind %u, numbers %zu and %zu, position %zu", question->refuses, (unsigned)verdict.number,
               (unsigned)verdict.kind, verdict.first, verdict.second, verdict.position);
}

/* What both questions answer for an image. */
static void show(const char *name, way *chosen, struct image image)
{
    printf("%s: ", name);
    show_answer(&questions[0], chosen(&questions[0], image));
    printf("; ");
    show_answer(&questions[1], chosen(&questions[1], image));
    printf("\n");
}

/* All bytes of a file, to be freed; never NULL. */
static uint8_t *read_file(const char *name, size_t *length)
{
    FILE *file = fopen(name, "rb");
    size_t room = 4096, got;
    uint8_t *bytes = malloc(room);
    if (file == NULL || bytes == NULL)
        fail(name);
    *length = 0;
    while ((got = fread(bytes + *length, 1, room - *length, file)) > 0) {
        *length += got;
        if (*length == room) {
            room *= 2;
            bytes = realloc(bytes, room);
            if (bytes == NULL)
                fail(name);
        }
    }
    if (ferror(file))
        fail(name);
    fclose(file);
    return bytes;
}

int main(int count, char **words)
{
    int next = 1;
    way *chosen = ask;
    if (next < count && strcmp(words[next], "--each") == 0) {
        chosen = ask_each;
        next++;
    } else if (next < count && strcmp(words[next], "--large") == 0) {
        chosen = ask_large;
        next++;
    }
    if (next == count) {
        show("bad range", chosen, (struct image){bad_range, sizeof bad_range});
        show("call of itself", chosen, (struct image){call_of_itself, sizeof call_of_itself});
    }
    for (; next < count; next++) {
        size_t length;
        uint8_t *bytes = read_file(words[next], &length);
        show(words[next], chosen, (struct image){bytes, length});
        free(bytes);
    }
    return 0;
}
