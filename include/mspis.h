/*
 * The MSPIS machine for a board written in C: it grants shared resources to the tasks of several cores.
 *
 * The board has two pieces of memory. The plan file says which tasks and resources there are; it is only read. The image is the
 * state of the machine, and all of it: the functions keep nothing between calls. mspis_start writes an image; each later call is
 * given the same plan and the image that the last one left. Who is granted what is told by the returned word and by the image.
 *
 * What the caller owes, and no function can check:
 * - Both pointers are valid for their lengths, the image's for writing too. Neither is null, even with length 0. They may have any
 *   alignment.
 * - Plan and image do not overlap.
 * - Nobody else writes to either, or reads the image, while a call runs. So calls on one image come one at a time.
 * - Two cores that may call at once take a lock of their own around the call, and around what they read of the image and tell
 *   the cards after it, so that two answers do not reach a card in the wrong order.
 * - Where an interrupt handler calls, the rest of that core has this interrupt off while it is at the image: a handler that waits
 *   for a lock held by what it interrupted would wait for ever. Or the handler leaves a note, and the main loop calls.
 *
 * Nothing compares this header with the archive: the two must come from one version.
 */
#ifndef MSPIS_H
#define MSPIS_H

#include <stddef.h>
#include <stdint.h>

#ifdef __cplusplus
extern "C" {
#endif

/*
 * The calls. `plan_length` is the length of the plan file. `image_length` is that of the lent memory, at least
 * MSPIS_IMAGE_LENGTH; what lies behind the image stays as it is. After a refusal every byte of the image is as before.
 *
 * Each gives the first refusal that applies, in this order: 1 to 9 for the plan, MSPIS_SHORT_IMAGE, MSPIS_UNSOUND_IMAGE (not
 * start), then those that stand with the call.
 */

/* Writes a fresh image: nobody is in line. What the memory held before does not matter. */
uint64_t mspis_start(const uint8_t *plan, size_t plan_length, uint8_t *image, size_t image_length);

/*
 * A task asks for a resource. It is granted at once, or it waits; then the word has the number ahead and the limit.
 * MSPIS_UNKNOWN_TAG, MSPIS_UNKNOWN_RESOURCE, MSPIS_UNDECLARED, MSPIS_LOCAL, MSPIS_ALREADY_IN_LINE.
 */
uint64_t mspis_request(const uint8_t *plan, size_t plan_length, uint8_t *image, size_t image_length, uint16_t tag,
                       uint8_t resource);

/*
 * The task that holds a resource gives it back. The word has the tag of who holds it next, if anybody does.
 * MSPIS_UNKNOWN_TAG, MSPIS_UNKNOWN_RESOURCE, MSPIS_NOT_HELD.
 */
uint64_t mspis_release(const uint8_t *plan, size_t plan_length, uint8_t *image, size_t image_length, uint16_t tag,
                       uint8_t resource);

/*
 * A task that waits for a resource leaves the line.
 * MSPIS_UNKNOWN_TAG, MSPIS_UNKNOWN_RESOURCE, MSPIS_NOT_WAITING.
 */
uint64_t mspis_give_up(const uint8_t *plan, size_t plan_length, uint8_t *image, size_t image_length, uint16_t tag,
                       uint8_t resource);

/*
 * One tick passes for every resource. The word has the resources whose holds ended in it, and those newly granted. Who held a
 * resource that was cut, the image shows before the tick; who was granted one, after it. No refusal of its own.
 */
uint64_t mspis_tick(const uint8_t *plan, size_t plan_length, uint8_t *image, size_t image_length);

/* The refusals. 0 is none. The numbers left out belong to operations that have no C function. */
enum mspis_refusal_number {
    /* of the plan */
    MSPIS_WRONG_LENGTH = 1,   /* fewer than 16 bytes, or not the length in its bytes 14-15 */
    MSPIS_WRONG_EDITION = 2,  /* an edition that is not 1 */
    MSPIS_WRONG_COUNT = 3,    /* a count beyond its range */
    MSPIS_WRONG_OFFSET = 4,   /* an offset that does not fit, or names past the end */
    MSPIS_WRONG_TASK = 5,     /* a task row with a field out of range, or a spare byte that is not 0 */
    MSPIS_REPEATED = 6,       /* a repeated tag, or a priority repeated on a processor */
    MSPIS_WRONG_NAME = 7,     /* a resource row or name against its rule, or two equal names */
    MSPIS_WRONG_SECTION = 8,  /* a section with a task, resource or length out of range */
    MSPIS_SECTIONS_ABOVE = 9, /* sections of a task that are longer than its execution time */

    /* of the image */
    MSPIS_SHORT_IMAGE = 24,   /* the lent memory is shorter than the plan's image */
    MSPIS_UNSOUND_IMAGE = 25, /* the image is not sound for the plan */

    /* of the call */
    MSPIS_UNKNOWN_TAG = 11,      /* no task has this tag */
    MSPIS_UNKNOWN_RESOURCE = 12, /* no resource has this number */
    MSPIS_UNDECLARED = 13,       /* request: the task has no section on the resource */
    MSPIS_LOCAL = 14,            /* request: only one processor uses the resource */
    MSPIS_ALREADY_IN_LINE = 15,  /* request: the task holds or waits for a resource, this one or another */
    MSPIS_NOT_HELD = 16,         /* release: the task does not hold the resource */
    MSPIS_NOT_WAITING = 23       /* give-up: the task is not waiting for the resource */
};

/*
 * The returned word, from the low byte up. Bytes not named are 0, and after a refusal all but byte 0.
 *
 *   any call         byte 0: the refusal, or 0
 *   request          byte 1: 1 if the task waits, 0 if it was granted; byte 2: the number ahead; bytes 3 to 6: the limit
 *   release          byte 1: 1 if a tag follows, 0 if the resource is free; bytes 2 and 3: the tag granted next
 *   tick             bytes 1 and 2: the cuts; bytes 3 and 4: the grants; bit q stands for resource q
 *   start, give-up   byte 0 alone
 */

/* After any call: 0, or one of the numbers above. */
static inline uint8_t mspis_refusal(uint64_t word)
{
    return (uint8_t)(word & 0xff);
}

/* After a request: 1 if the task waits. If it is 0 and so is the refusal, the task holds the resource. */
static inline int mspis_waits(uint64_t word)
{
    return ((word >> 8) & 0xff) == 1;
}

/* After a request that waits: how many tasks of the same processor are ahead, one that holds among them. */
static inline uint8_t mspis_ahead(uint64_t word)
{
    return (uint8_t)((word >> 16) & 0xff);
}

/* After a request that waits: the tick that fills this number grants the resource at the latest, if the task does not give up. */
static inline uint32_t mspis_limit(uint64_t word)
{
    return (uint32_t)((word >> 24) & 0xffffffff);
}

/* After a release: 1 if the resource was passed on. If it is 0 and so is the refusal, the resource is free. */
static inline int mspis_has_next(uint64_t word)
{
    return ((word >> 8) & 0xff) == 1;
}

/* After a release that passed the resource on: the tag of the task that holds it now. */
static inline uint16_t mspis_next(uint64_t word)
{
    return (uint16_t)((word >> 16) & 0xffff);
}

/* After a tick: bit q is 1 if the hold of resource q ended. */
static inline uint16_t mspis_cuts(uint64_t word)
{
    return (uint16_t)((word >> 8) & 0xffff);
}

/* After a tick: bit q is 1 if resource q was granted to a task. */
static inline uint16_t mspis_grants(uint64_t word)
{
    return (uint16_t)((word >> 24) & 0xffff);
}

/*
 * The image. Numbers of two bytes have the low byte first. N and R are the plan's tasks and resources, its bytes 2 and 3.
 *
 *   bytes 0 to 3     N, R, the offset of the resource rows (4), the offset of the task rows (4 + 14 R)
 *   resource row     14 bytes: number of queued processors, holder's task number, hold left (2), budget left (2), eight
 *                    processors in queue order, the head first
 *   task row         2 bytes: the resource that it holds or waits for, its place in its task queue, from 0
 *
 * MSPIS_NONE fills what is absent; hold left and budget left of a free resource are 0. Processors, tasks and resources are
 * numbered by their rows in the plan. The board reads an image and never writes into one; it may copy it whole.
 *
 * Document 02 §5 makes task rows wider. A board that uses the macros below only has to be compiled again.
 */
#define MSPIS_NONE 255

#define MSPIS_MOST_PROCESSORS 8
#define MSPIS_MOST_TASKS 64
#define MSPIS_MOST_RESOURCES 16

#define MSPIS_IMAGE_HEADER 4u
#define MSPIS_RESOURCE_ROW 14u
#define MSPIS_TASK_ROW 2u

/* Where the row of a resource and the row of a task begin. */
#define MSPIS_RESOURCE_AT(resource) (MSPIS_IMAGE_HEADER + MSPIS_RESOURCE_ROW * (resource))
#define MSPIS_TASK_AT(resources, task) (MSPIS_RESOURCE_AT(resources) + MSPIS_TASK_ROW * (task))

/* The image's length for N tasks and R resources, and the greatest there is. */
#define MSPIS_IMAGE_LENGTH(tasks, resources) MSPIS_TASK_AT(resources, tasks)
#define MSPIS_IMAGE_MOST MSPIS_IMAGE_LENGTH(MSPIS_MOST_TASKS, MSPIS_MOST_RESOURCES)

/*
 * What an image shows, for a resource below R and a task below N. It can be relied on if the last call on the image gave none of
 * the refusals 1 to 9, 24 and 25, and nobody has written into it since. R is the plan's and not read from the image, so that a
 * damaged image leads to no byte outside it.
 */

/* How many processors are queued for a resource: 0 if it is free. */
static inline uint8_t mspis_queued(const uint8_t *image, uint8_t resource)
{
    return image[MSPIS_RESOURCE_AT(resource)];
}

/* The number of the task that holds a resource, or MSPIS_NONE. */
static inline uint8_t mspis_holder(const uint8_t *image, uint8_t resource)
{
    return image[MSPIS_RESOURCE_AT(resource) + 1];
}

/* After how many ticks the holder is cut, if it does not release before. */
static inline uint16_t mspis_hold_left(const uint8_t *image, uint8_t resource)
{
    const uint8_t *row = image + MSPIS_RESOURCE_AT(resource);
    return (uint16_t)(row[2] + 256u * row[3]);
}

/* How many ticks are left of the head's turn. */
static inline uint16_t mspis_budget_left(const uint8_t *image, uint8_t resource)
{
    const uint8_t *row = image + MSPIS_RESOURCE_AT(resource);
    return (uint16_t)(row[4] + 256u * row[5]);
}

/* The processor at a place of the queue, 0 for the head to 7, or MSPIS_NONE. */
static inline uint8_t mspis_queue(const uint8_t *image, uint8_t resource, uint8_t place)
{
    return image[MSPIS_RESOURCE_AT(resource) + 6 + place];
}

/* The resource that a task holds or waits for, or MSPIS_NONE. */
static inline uint8_t mspis_resource_of(const uint8_t *image, uint8_t resources, uint8_t task)
{
    return image[MSPIS_TASK_AT(resources, task)];
}

/* How many tasks of its processor are ahead of it in that line, or MSPIS_NONE. */
static inline uint8_t mspis_place_of(const uint8_t *image, uint8_t resources, uint8_t task)
{
    return image[MSPIS_TASK_AT(resources, task) + 1];
}

#ifdef __cplusplus
}
#endif

#endif
