#include "settings.h"

#include <stdio.h>
#include <stdlib.h>
#include <string.h>

/* One setting, or a group of them, and whose. */
struct change {
    bool timer;
    uint16_t address;
    uint8_t value;
    const uint8_t *group; /* null for one setting; else three bytes for each: its address, low byte first, and its value */
    size_t group_length;  /* in bytes */
};

/* The two copies in RAM. */
static uint8_t start[FLASH_BYTES];
static uint8_t work[FLASH_BYTES];

static uint16_t half_word(const uint8_t *image, size_t offset)
{
    return (uint16_t)(image[offset] | image[offset + 1] << 8);
}

/* Does to the flash the one step in which `work` is ahead of it. If they do not differ, the step programs 65,535, which
 * need not be done, or erases a page that erase_blank_pages has erased already. False: power failed. */
static bool carry(struct flash *chip)
{
    size_t at = 0;
    while (at < FLASH_BYTES && half_word(work, at) == half_word(chip->bytes, at))
        at += 2;
    if (at == FLASH_BYTES)
        return true;
    const bool erased = half_word(work, at) == 65535;
    if (!(erased ? flash_erase(chip, at / FLASH_PAGE_BYTES) : flash_program(chip, at, half_word(work, at))))
        return false;
    if (memcmp(work, chip->bytes, FLASH_BYTES) != 0) {
        fprintf(stderr, "settings: a step changed more than a half-word or a page\n");
        abort();
    }
    return true;
}

/* A write, or a recovery if there is no change, on the copy. */
static struct istrovell_stepped call(const struct change *change, uint16_t allowance)
{
    memcpy(work, start, FLASH_BYTES);
    if (change == NULL)
        return istrovell_recover(work, FLASH_BYTES, FLASH_PAGE_BYTES, allowance);
    if (change->group != NULL)
        return istrovell_write_group(work, FLASH_BYTES, FLASH_PAGE_BYTES, change->timer, change->group,
                                     change->group_length, allowance);
    return istrovell_write(work, FLASH_BYTES, FLASH_PAGE_BYTES, change->timer, change->address, change->value, allowance);
}

static struct istrovell_stepped carry_all(struct flash *chip, const struct change *change)
{
    memcpy(start, chip->bytes, FLASH_BYTES);
    for (uint16_t allowance = 1;; allowance++) {
        struct istrovell_stepped answer = call(change, allowance);
        if (answer.number != ISTROVELL_OK)
            return answer;
        if (!carry(chip)) {
            answer.finished = false;
            return answer;
        }
        if (answer.finished)
            return answer;
    }
}

static bool is_blank(const struct flash *chip, size_t page)
{
    const size_t offset = page * FLASH_PAGE_BYTES;
    for (size_t i = 0; i < FLASH_PAGE_BYTES; i++)
        if (chip->bytes[offset + i] != 255)
            return false;
    return true;
}

/* Erases each page that reads 255 throughout: power may have failed in its last erase, and then its cells are only
 * half erased. Such a page has no wear word, so recovery erases it before it programs one; but that step changes no
 * byte, and `carry` cannot see it. Doing it early harms nothing: the page reads 255 as before, also if power fails
 * again. False: power failed. */
static bool erase_blank_pages(struct flash *chip)
{
    for (size_t page = 0; page < FLASH_PAGES; page++)
        if (is_blank(chip, page) && !flash_erase(chip, page))
            return false;
    return true;
}

struct istrovell_stepped settings_start(struct flash *chip)
{
    /* With allowance 0 it only answers: a chip without a store, which may read 255 throughout, stays as it is. */
    memcpy(start, chip->bytes, FLASH_BYTES);
    const struct istrovell_stepped answer = call(NULL, 0);
    if (answer.number != ISTROVELL_OK || answer.finished)
        return answer;
    if (!erase_blank_pages(chip))
        return answer; /* not finished */
    return carry_all(chip, NULL);
}

struct istrovell_stepped settings_set(struct flash *chip, bool timer, uint16_t address, uint8_t value)
{
    const struct change change = {.timer = timer, .address = address, .value = value};
    return carry_all(chip, &change);
}

struct istrovell_stepped settings_set_group(struct flash *chip, bool timer, const uint8_t *group, size_t length)
{
    const struct change change = {.timer = timer, .group = group, .group_length = length};
    return carry_all(chip, &change);
}

struct istrovell_stepped settings_pair(struct flash *chip, const uint8_t code[4])
{
    uint8_t group[4 * 3];
    for (unsigned digit = 0; digit < 4; digit++) {
        const unsigned address = ISTROVELL_PAIRING_ADDRESS + digit;
        group[3 * digit] = (uint8_t)(address & 255);
        group[3 * digit + 1] = (uint8_t)(address >> 8);
        group[3 * digit + 2] = code[digit];
    }
    return settings_set_group(chip, HANDSET, group, sizeof group);
}

/* The word of `work` at this offset, first half first. */
static bool program_word(struct flash *chip, size_t offset)
{
    return flash_program(chip, offset, half_word(work, offset)) &&
           flash_program(chip, offset + 2, half_word(work, offset + 2));
}

bool settings_format(struct flash *chip)
{
    istrovell_format(work, FLASH_BYTES, FLASH_PAGE_BYTES, true);
    for (size_t page = 0; page < FLASH_PAGES; page++) {
        if (!flash_erase(chip, page) || !program_word(chip, page * FLASH_PAGE_BYTES))
            return false;
    }
    return program_word(chip, 4);
}
