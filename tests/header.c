/* include/istrovell.h against the library, as C and as C++: the numbers, the answers' layout, a null image and a null group
 * of length 0, wrong page sizes, and a store of either page size with its two owners. Ends with status 1 at the first
 * difference. */
#include "istrovell.h"

#include <stdio.h>
#include <stdlib.h>

static void expect(bool holds, const char *what)
{
    if (holds)
        return;
    printf("header: %s\n", what);
    exit(1);
}

static void numbers(void)
{
    const int all[] = {ISTROVELL_OK,      ISTROVELL_SIZE,    ISTROVELL_NO_STORE,  ISTROVELL_DAMAGED,  ISTROVELL_UNCLEAN,
                       ISTROVELL_ADDRESS, ISTROVELL_NO_ROOM, ISTROVELL_ORDER_END, ISTROVELL_NOT_HELD, ISTROVELL_GROUP};
    for (int number = 0; number < 10; number++)
        expect(all[number] == number, "a number");
    expect(ISTROVELL_OWNER == 11, "the number OWNER");
    expect(sizeof(struct istrovell_stepped) == 4, "the size of struct istrovell_stepped");
    expect(sizeof(struct istrovell_reading) == 2, "the size of struct istrovell_reading");
    expect(sizeof(struct istrovell_pairing) == 6, "the size of struct istrovell_pairing");
}

static bool refused(struct istrovell_stepped answer, uint8_t number)
{
    return answer.number == number && !answer.finished && answer.steps == 0;
}

static bool stopped(struct istrovell_stepped answer, uint16_t steps)
{
    return answer.number == ISTROVELL_OK && !answer.finished && answer.steps == steps;
}

static bool finished(struct istrovell_stepped answer, uint16_t steps)
{
    return answer.number == ISTROVELL_OK && answer.finished && answer.steps == steps;
}

static bool reads(struct istrovell_reading answer, uint8_t number, uint8_t value)
{
    return answer.number == number && answer.value == value;
}

static bool finds(struct istrovell_pairing answer, uint8_t number, bool paired, const uint8_t *digits)
{
    return answer.number == number && answer.paired == paired && answer.digit0 == digits[0] &&
           answer.digit1 == digits[1] && answer.digit2 == digits[2] && answer.digit3 == digits[3];
}

static void all_refuse(uint8_t *image, size_t length, uint16_t size)
{
    const uint8_t none[] = {0, 0, 0, 0};
    const uint16_t all = ISTROVELL_ALL_STEPS;
    expect(istrovell_format(image, length, size, false) == ISTROVELL_SIZE, "format, SIZE");
    expect(istrovell_format(image, length, size, true) == ISTROVELL_SIZE, "format with the second edition, SIZE");
    expect(refused(istrovell_recover(image, length, size, all), ISTROVELL_SIZE), "recovery, SIZE");
    expect(refused(istrovell_write(image, length, size, false, 5, 65, all), ISTROVELL_SIZE), "write, SIZE");
    expect(refused(istrovell_write_group(image, length, size, false, NULL, 0, all), ISTROVELL_SIZE), "group write, SIZE");
    expect(reads(istrovell_read(image, length, size, false, 5), ISTROVELL_SIZE, 0), "read, SIZE");
    expect(reads(istrovell_blank_read(image, length, size, false, 5), ISTROVELL_SIZE, 0), "blank read, SIZE");
    expect(finds(istrovell_lookup(image, length, size), ISTROVELL_SIZE, false, none), "lookup, SIZE");
}

#define LENGTH (2 * ISTROVELL_LARGER_PAGE)

/* Each member of each answer comes across; the image begins at an odd address. The last digit is 0, so that only `paired`
 * says that it was written. At 1,024 bytes a page the image has four pages, at 2,048 two. */
static void one_store(uint16_t size)
{
    const uint8_t code[] = {9, 255, 7, 0};
    const uint16_t all = ISTROVELL_ALL_STEPS;
    static uint8_t bytes[1 + LENGTH];
    uint8_t *const image = bytes + 1;
    expect(istrovell_format(image, LENGTH, size, false) == ISTROVELL_OK, "format");
    expect(image[2] == (size == ISTROVELL_LARGER_PAGE ? 3 : 1), "the edition");
    expect(stopped(istrovell_write(image, LENGTH, size, false, 5, 65, 1), 1), "a write of one step");
    expect(reads(istrovell_read(image, LENGTH, size, false, 5), ISTROVELL_NOT_HELD, 0), "a write that was cut");
    expect(finished(istrovell_recover(image, LENGTH, size, all), 0), "recovery");
    for (uint8_t digit = 0; digit < 4; digit++) {
        const uint16_t address = (uint16_t)(ISTROVELL_PAIRING_ADDRESS + digit);
        if (digit == 3)
            expect(finds(istrovell_lookup(image, LENGTH, size), ISTROVELL_OK, false, code), "lookup without the last digit");
        expect(finished(istrovell_write(image, LENGTH, size, false, address, code[digit], all), 2), "a write");
    }
    expect(finds(istrovell_lookup(image, LENGTH, size), ISTROVELL_OK, true, code), "lookup");
    expect(reads(istrovell_read(image, LENGTH, size, false, 18), ISTROVELL_OK, 7), "read");
    expect(reads(istrovell_blank_read(image, LENGTH, size, false, 17), ISTROVELL_OK, 255), "blank read");
    expect(reads(istrovell_blank_read(image, LENGTH, size, false, 5), ISTROVELL_OK, 0),
           "blank read of an address that is not held");
    expect(reads(istrovell_read(image, LENGTH, size, false, ISTROVELL_ADDRESS_MAX + 1), ISTROVELL_ADDRESS, 0),
           "address 65,535");
    if (size == ISTROVELL_SMALLER_PAGE)
        expect(refused(istrovell_write_group(image, LENGTH, size, false, code, 3, all), ISTROVELL_GROUP),
               "a group in a store of the first edition");
}

/* A code written as one, stopped before its end and then done; the group begins at an odd address too. */
static void one_group(uint16_t size)
{
    const uint8_t none[] = {0, 0, 0, 0}, code[] = {7, 1, 3, 9};
    const uint8_t lent[] = {0, 16, 0, 7, 17, 0, 1, 18, 0, 3, 19, 0, 9}, *const group = lent + 1;
    const size_t group_length = sizeof lent - 1;
    const uint16_t all = ISTROVELL_ALL_STEPS;
    static const uint8_t nine[3 * (ISTROVELL_GROUP_MAX + 1)] = {0};
    static uint8_t image[LENGTH];
    expect(istrovell_format(image, LENGTH, size, true) == ISTROVELL_OK, "format with the second edition");
    expect(image[2] == (size == ISTROVELL_LARGER_PAGE ? 3 : 2), "an edition with groups");
    expect(refused(istrovell_write_group(image, LENGTH, size, false, NULL, 0, all), ISTROVELL_GROUP),
           "a group write of nothing");
    expect(stopped(istrovell_write_group(image, LENGTH, size, false, group, group_length, 11), 11),
           "a group write of 11 steps");
    expect(finds(istrovell_lookup(image, LENGTH, size), ISTROVELL_OK, false, none), "a group that was cut");
    expect(refused(istrovell_write(image, LENGTH, size, false, 5, 65, all), ISTROVELL_UNCLEAN),
           "a write behind a group that was cut");
    expect(finished(istrovell_recover(image, LENGTH, size, all), 2), "recovery of a group that was cut");
    expect(finished(istrovell_write_group(image, LENGTH, size, false, group, group_length, all), 12), "a group write");
    expect(finds(istrovell_lookup(image, LENGTH, size), ISTROVELL_OK, true, code), "lookup of a code written as one");
    expect(finished(istrovell_write_group(image, LENGTH, size, false, group, group_length, 0), 0),
           "a group whose values are held");
    expect(refused(istrovell_write_group(image, LENGTH, size, false, nine, sizeof nine, 0), ISTROVELL_GROUP),
           "a group of nine");
}

/* The handset up to 32,767, the timer from 32,768 on: `timer` comes across as itself, and so does each argument behind it. */
static void two_owners(uint16_t size)
{
    const bool handset = false, timer = true;
    const uint16_t all = ISTROVELL_ALL_STEPS, last = ISTROVELL_TIMER_ADDRESS - 1, first = ISTROVELL_TIMER_ADDRESS;
    const uint8_t group[] = {0, 128, 7, 254, 255, 8}, mixed[] = {0, 128, 7, 255, 127, 8};
    static uint8_t image[LENGTH];
    expect(istrovell_format(image, LENGTH, size, true) == ISTROVELL_OK, "format for two owners");
    expect(finished(istrovell_write(image, LENGTH, size, handset, last, 65, all), 2), "the handset's last address");
    expect(refused(istrovell_write(image, LENGTH, size, handset, first, 66, all), ISTROVELL_OWNER), "a write, OWNER");
    expect(refused(istrovell_write(image, LENGTH, size, timer, last, 65, all), ISTROVELL_OWNER), "a held value, OWNER");
    expect(stopped(istrovell_write(image, LENGTH, size, timer, first, 66, 1), 1), "the timer's write of one step");
    expect(finished(istrovell_write_group(image, LENGTH, size, timer, group, sizeof group, all), 8), "the timer's group");
    expect(refused(istrovell_write_group(image, LENGTH, size, handset, group, sizeof group, all), ISTROVELL_OWNER),
           "a group, OWNER");
    expect(refused(istrovell_write_group(image, LENGTH, size, timer, mixed, sizeof mixed, all), ISTROVELL_OWNER),
           "a group of both owners, OWNER");
    expect(reads(istrovell_read(image, LENGTH, size, handset, last), ISTROVELL_OK, 65), "the handset's read");
    expect(reads(istrovell_read(image, LENGTH, size, timer, first), ISTROVELL_OK, 7), "the timer's read");
    expect(reads(istrovell_blank_read(image, LENGTH, size, timer, ISTROVELL_ADDRESS_MAX), ISTROVELL_OK, 8),
           "the timer's blank read");
    expect(reads(istrovell_read(image, LENGTH, size, timer, last), ISTROVELL_OWNER, 0), "a read, OWNER");
    expect(reads(istrovell_blank_read(image, LENGTH, size, handset, first), ISTROVELL_OWNER, 0), "a blank read, OWNER");
    for (uint16_t index = 2; index < ISTROVELL_HELD_BY_OWNER_MAX; index++)
        expect(finished(istrovell_write(image, LENGTH, size, timer, (uint16_t)(first + index), 1, all), 2), "up to 128");
    expect(refused(istrovell_write(image, LENGTH, size, timer, first + 1, 1, all), ISTROVELL_NO_ROOM), "the 129th");
    expect(finished(istrovell_write(image, LENGTH, size, timer, first, 9, all), 2), "a change at the limit");
    expect(finished(istrovell_write(image, LENGTH, size, handset, 5, 65, all), 2), "the other at its limit");
}

int main(void)
{
    static uint8_t image[LENGTH];
    const uint16_t sizes[] = {ISTROVELL_SMALLER_PAGE, ISTROVELL_LARGER_PAGE};
    const uint16_t wrong[] = {0, 1, 512, 1023, 1025, 2047, 2049, 4096, 32768, 65535};
    numbers();
    for (size_t i = 0; i < sizeof sizes / sizeof sizes[0]; i++) {
        all_refuse(NULL, 0, sizes[i]);
        all_refuse(image, sizes[i], sizes[i]);
        one_store(sizes[i]);
        one_group(sizes[i]);
        two_owners(sizes[i]);
    }
    for (size_t i = 0; i < sizeof wrong / sizeof wrong[0]; i++)
        all_refuse(image, LENGTH, wrong[i]);
    return 0;
}
