/*
 * Prints the depth of each item of each table of an image, and whether it is steady.
 *
 *     walk [--large] FILE
 *
 * --large walks in memory for large images. Either way it runs on a thread whose stack suffices for that.
 */
#include <pthread.h>
#include <stdio.h>
#include <stdlib.h>
#include <string.h>

#include "dulvanos.h"

/* An item is a record, which has a byte at least: so a table has no more items than the image has bytes. */
#define MOST 65536

static uint8_t image[MOST];
static size_t length;
static uint32_t depths[MOST];
static uint8_t flags[MOST];

typedef struct dulvanos_walked depth_call(const uint8_t *image, size_t length, uint32_t table, uint32_t body,
                                          uint32_t *values, size_t places);
typedef struct dulvanos_walked steady_call(const uint8_t *image, size_t length, uint32_t table, uint32_t body,
                                           uint8_t *values, size_t places);

static depth_call *depth = dulvanos_depth;
static steady_call *steady = dulvanos_steady;

static void fail(const char *what)
{
    fprintf(stderr, "walk: %s\n", what);
    exit(2);
}

static void show_refusal(struct dulvanos_walked walked)
{
    if (walked.number <= DULVANOS_UNFINISHED || walked.number >= DULVANOS_NO_SUCH_BODY)
        printf(" refused with %u\n", (unsigned)walked.number);
    else
        printf(" refused with %u, kind %u, numbers %zu and %zu, position %zu\n", (unsigned)walked.number,
               (unsigned)walked.kind, walked.first, walked.second, walked.position);
}

/* Both walks of a table, in so many places. */
static struct dulvanos_walked show(uint32_t table, uint32_t body, size_t places)
{
    struct dulvanos_walked walked = depth(image, length, table, body, depths, places);
    struct dulvanos_walked again = steady(image, length, table, body, flags, places);
    if (memcmp(&walked, &again, sizeof walked) != 0)
        fail("the two walks answer with other numbers");
    if (walked.number != DULVANOS_PASSES) {
        show_refusal(walked);
        return walked;
    }
    printf(" %zu items, %zu operands\n", walked.items, walked.takes);
    if (walked.items > 0) {
        printf("   depth ");
        for (size_t item = 0; item < walked.items; item++)
            printf(" %u", (unsigned)depths[item]);
        printf("\n   steady");
        for (size_t item = 0; item < walked.items; item++)
            printf(" %u", (unsigned)flags[item]);
        printf("\n");
    }
    return walked;
}

/* The body of each function or entry point, up to the number that none has. */
static void show_bodies(const char *name, uint32_t table)
{
    struct dulvanos_walked walked;
    uint32_t body = 0;
    do {
        printf("body of %s %u:", name, (unsigned)body);
        walked = show(table, body, MOST);
        body++;
    } while (walked.number == DULVANOS_PASSES);
}

static void *run(void *unused)
{
    (void)unused;
    printf("types:");
    show(DULVANOS_TYPES, 0, MOST);
    printf("filters:");
    show(DULVANOS_FILTERS, 0, MOST);
    printf("functions:");
    show(DULVANOS_FUNCTIONS, 0, MOST);
    printf("global expressions:");
    size_t items = show(DULVANOS_GLOBAL_EXPRESSIONS, 0, MOST).items;
    if (items > 0) {
        printf("global expressions, one place too few:");
        show(DULVANOS_GLOBAL_EXPRESSIONS, 0, items - 1);
    }
    show_bodies("function", DULVANOS_FUNCTION_BODY);
    show_bodies("entry point", DULVANOS_ENTRY_POINT_BODY);
    printf("table 6:");
    show(6, 0, MOST);
    return NULL;
}

int main(int count, char **words)
{
    if (count == 3 && strcmp(words[1], "--large") == 0) {
        depth = dulvanos_depth_large;
        steady = dulvanos_steady_large;
    } else if (count != 2) {
        fail("walk [--large] FILE");
    }
    FILE *file = fopen(words[count - 1], "rb");
    if (file == NULL)
        fail(words[count - 1]);
    length = fread(image, 1, MOST, file);
    if (ferror(file) || length == MOST)
        fail(words[count - 1]);
    fclose(file);
    pthread_attr_t attributes;
    pthread_t thread;
    if (pthread_attr_init(&attributes) != 0
        || pthread_attr_setstacksize(&attributes, DULVANOS_LARGE_STACK) != 0
        || pthread_create(&thread, &attributes, run, NULL) != 0
        || pthread_join(thread, NULL) != 0)
        fail("no thread");
    pthread_attr_destroy(&attributes);
    return 0;
}
