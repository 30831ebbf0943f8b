/*
 * A board that keeps the MSPIS machine: it makes the calls of its cards, ticks, and tells the cards what they may use. In place of
 * hardware, the cards' notes are a table, a tick is a turn of the loop, and telling a card is a line printed. docs/FIRMWARE.md says
 * how to link it. With EXACT_BLOCKS, plan and image lie in blocks of just their lengths, for a memory checker.
 */
#include <stdio.h>
#ifdef EXACT_BLOCKS
#include <stdlib.h>
#include <string.h>
#endif

#include "mspis.h"

/* The plan's tags, and its resources by number. */
enum { VOICE = 10, LOADER = 11, REVERB = 20, TASKS = 3 };
enum { BUS, LINK, RESOURCES };
static const char *const names[RESOURCES] = {"bus", "link"};

/* A number of two bytes, low byte first. */
#define TWO(number) (number) % 256, (number) / 256

/* The sampler card is processor 0 and has two tasks, the reverb card is processor 1 and has one. */
static const uint8_t plan_file[] = {
    1, 2, TASKS, RESOURCES, TWO(5),              /* edition, processors, tasks, resources, sections */
    TWO(16), TWO(40), TWO(48), TWO(68), TWO(75), /* offsets of task rows, resource rows, section rows, names; length */
    /* task rows: processor, tag, priority, a zero, period, execution time */
    0, VOICE, 2, 0, TWO(100), TWO(5),
    0, LOADER, 1, 0, TWO(100), TWO(6),
    1, REVERB, 1, 0, TWO(100), TWO(8),
    /* resource rows: start of the name, its length, a zero */
    TWO(0), 3, 0, TWO(3), 4, 0,
    /* section rows: task by its row, resource, length in ticks */
    0, BUS, TWO(3),
    1, BUS, TWO(3), 1, LINK, TWO(2),
    2, BUS, TWO(2), 2, LINK, TWO(4),
    'b', 'u', 's', 'l', 'i', 'n', 'k',
};

/* Zeros at first, which are a sound image for no plan. */
static uint8_t image_memory[MSPIS_IMAGE_MOST];

static const uint8_t *plan = plan_file;
static const size_t plan_length = sizeof plan_file;
static uint8_t *image = image_memory;
static size_t image_length = sizeof image_memory;

/* The tag of a task, from its row in a plan of edition 1; 0 for what is no task, as a damaged image may have. */
static unsigned tag_of(uint8_t task)
{
    return task < TASKS ? plan[16 + 8 * task + 1] : 0;
}

/* The cards stop first, since a fresh machine grants what somebody may still be using. Who needs a resource then asks again. */
static void start_anew(void)
{
    printf("  every card stops, the machine starts anew\n");
    unsigned refusal = mspis_refusal(mspis_start(plan, plan_length, image, image_length));
    if (refusal != 0)
        printf("  start refused %u: nothing is granted\n", refusal);
}

/* Whether a call was refused. An image that is not sound cannot be gone on with. */
static int refused(uint64_t word)
{
    unsigned refusal = mspis_refusal(word);
    if (refusal == 0)
        return 0;
    printf("refused %u\n", refusal);
    if (refusal == MSPIS_UNSOUND_IMAGE)
        start_anew();
    return 1;
}

/* Tells those who hold one of these resources, bit q for resource q. */
static void tell_holders(unsigned resources)
{
    for (uint8_t q = 0; q < RESOURCES; q++)
        if ((resources >> q & 1) && mspis_holder(image, q) != MSPIS_NONE)
            printf("  %u uses %s\n", tag_of(mspis_holder(image, q)), names[q]);
}

/* Goes on with what the memory has kept, if it is sound. No plan has a resource 255, so this release never changes anything. */
static void boot(void)
{
    uint64_t word = mspis_release(plan, plan_length, image, image_length, VOICE, MSPIS_NONE);
    printf("boot: ");
    if (mspis_refusal(word) == MSPIS_UNKNOWN_RESOURCE) {
        printf("the machine goes on\n");
        tell_holders((1u << RESOURCES) - 1);
    } else
        refused(word);
}

/* Reads the line of a resource that somebody holds out of the image. */
static void show(uint8_t resource)
{
    printf("  %u holds it, %u ticks left; processors queued:", tag_of(mspis_holder(image, resource)),
           (unsigned)mspis_hold_left(image, resource));
    for (uint8_t i = 0; i < MSPIS_MOST_PROCESSORS && mspis_queue(image, resource, i) != MSPIS_NONE; i++)
        printf(" %u", (unsigned)mspis_queue(image, resource, i));
    printf("\n");
}

static void ask(uint16_t tag, uint8_t resource)
{
    uint64_t word = mspis_request(plan, plan_length, image, image_length, tag, resource);
    printf("%u asks for %s: ", (unsigned)tag, names[resource]);
    if (refused(word))
        return;
    if (mspis_waits(word)) {
        printf("waits, %u ahead, at most %lu ticks\n", (unsigned)mspis_ahead(word), (unsigned long)mspis_limit(word));
        show(resource);
    } else
        printf("granted\n");
}

static void release(uint16_t tag, uint8_t resource)
{
    uint64_t word = mspis_release(plan, plan_length, image, image_length, tag, resource);
    printf("%u releases %s: ", (unsigned)tag, names[resource]);
    if (refused(word))
        return;
    if (mspis_has_next(word))
        printf("granted to %u\n", (unsigned)mspis_next(word));
    else
        printf("free\n");
}

static void give_up(uint16_t tag, uint8_t resource)
{
    uint64_t word = mspis_give_up(plan, plan_length, image, image_length, tag, resource);
    printf("%u gives up %s: ", (unsigned)tag, names[resource]);
    if (!refused(word))
        printf("left\n");
}

/* Holders are noted first, since after the tick the image does not show who was cut. Who was cut stops before others begin. */
static void tick(unsigned number)
{
    uint8_t before[RESOURCES];
    for (uint8_t q = 0; q < RESOURCES; q++)
        before[q] = mspis_holder(image, q);
    uint64_t word = mspis_tick(plan, plan_length, image, image_length);
    printf("tick %u: ", number);
    if (refused(word))
        return;
    printf("cuts %u, grants %u\n", (unsigned)mspis_cuts(word), (unsigned)mspis_grants(word));
    for (uint8_t q = 0; q < RESOURCES; q++)
        if (mspis_cuts(word) >> q & 1)
            printf("  %u stops using %s\n", tag_of(before[q]), names[q]);
    tell_holders(mspis_grants(word));
}

/* What the cards note down for the board, and after how many ticks. */
static const struct note {
    unsigned after;
    void (*call)(uint16_t tag, uint8_t resource);
    uint16_t tag;
    uint8_t resource;
} notes[] = {
    {0, ask, REVERB, BUS},     {0, ask, VOICE, BUS},     {0, ask, LOADER, BUS},     {1, give_up, VOICE, BUS},
    {2, ask, REVERB, LINK},    {2, ask, VOICE, BUS},     {3, release, LOADER, BUS}, {3, ask, LOADER, LINK},
    {4, release, LOADER, BUS}, {4, release, VOICE, BUS}, {7, ask, LOADER, LINK},    {8, release, LOADER, LINK},
};
enum { NOTES = sizeof notes / sizeof notes[0], DAMAGED_AFTER = 6, RESET_AFTER = 7, LAST_TICK = 8 };

static void run(void)
{
    size_t heard = 0;
    boot();
    for (unsigned ticks = 0; ticks <= LAST_TICK; ticks++) {
        if (ticks > 0)
            tick(ticks);
        for (; heard < NOTES && notes[heard].after == ticks; heard++)
            notes[heard].call(notes[heard].tag, notes[heard].resource);
        if (ticks == DAMAGED_AFTER) {
            printf("a stray write gives link another holder\n");
            image[MSPIS_RESOURCE_AT(LINK) + 1] ^= 1;
        }
        if (ticks == RESET_AFTER) /* the board's memory keeps the image */
            boot();
    }
}

int main(void)
{
#ifdef EXACT_BLOCKS
    uint8_t *plan_block = malloc(plan_length);
    image_length = MSPIS_IMAGE_LENGTH(TASKS, RESOURCES);
    image = calloc(image_length, 1); /* zeros, as static memory has */
    if (plan_block == NULL || image == NULL)
        return 1;
    plan = memcpy(plan_block, plan_file, plan_length);
    run();
    free(image);
    free(plan_block);
#else
    run();
#endif
    return 0;
}
