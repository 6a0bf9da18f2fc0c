#include "flash.h"

#include <stdio.h>
#include <stdlib.h>
#include <string.h>

void flash_new(struct flash *chip)
{
    memset(chip->bytes, 255, FLASH_BYTES);
    chip->powered = false;
    chip->steps = 0;
    chip->fails_at = 0;
    chip->tear = TEAR_NONE;
    chip->dice = 2463534242u;
    memset(chip->half_erased, 0, sizeof chip->half_erased);
    chip->erased_again = 0;
}

void flash_power_on(struct flash *chip)
{
    chip->powered = true;
    chip->steps = 0;
}

void flash_fail_at(struct flash *chip, unsigned step, enum flash_tear tear)
{
    chip->steps = 0;
    chip->fails_at = step;
    chip->tear = tear;
}

static uint8_t some_bits(struct flash *chip)
{
    chip->dice ^= chip->dice << 13;
    chip->dice ^= chip->dice >> 17;
    chip->dice ^= chip->dice << 5;
    return (uint8_t)(chip->dice >> 16);
}

/* Which bits of this byte, the step's `index`-th of `count`, the failing step changes. */
static uint8_t changes(struct flash *chip, size_t index, size_t count)
{
    switch (chip->tear) {
    case TEAR_ALL:
        return 255;
    case TEAR_HALF:
        return some_bits(chip);
    case TEAR_FEW:
        return some_bits(chip) & some_bits(chip) & some_bits(chip);
    case TEAR_MOST:
        return some_bits(chip) | some_bits(chip) | some_bits(chip);
    case TEAR_FRONT:
        return index < count / 2 ? 255 : 0;
    default:
        return 0;
    }
}

/* Gives the bytes from `offset` on their new content, or, if this is the failing step, some bits of it. */
static bool step(struct flash *chip, size_t offset, const uint8_t *content, size_t count)
{
    if (!chip->powered)
        return false;
    chip->steps++;
    if (chip->steps != chip->fails_at) {
        memcpy(chip->bytes + offset, content, count);
        return true;
    }
    chip->powered = false;
    chip->fails_at = 0;
    for (size_t i = 0; i < count; i++) {
        uint8_t change = (chip->bytes[offset + i] ^ content[i]) & changes(chip, i, count);
        chip->bytes[offset + i] ^= change;
    }
    return false;
}

bool flash_program(struct flash *chip, size_t offset, uint16_t value)
{
    const uint8_t content[2] = {(uint8_t)(value & 255), (uint8_t)(value >> 8)};
    if (offset % 2 != 0 || chip->bytes[offset] != 255 || chip->bytes[offset + 1] != 255) {
        fprintf(stderr, "flash: the half-word at %zu does not read 65,535\n", offset);
        abort();
    }
    if (chip->half_erased[offset / FLASH_PAGE_BYTES]) {
        fprintf(stderr, "flash: the half-word at %zu reads 65,535, but the erase of its page was cut short\n", offset);
        abort();
    }
    return step(chip, offset, content, 2);
}

bool flash_erase(struct flash *chip, size_t page)
{
    uint8_t content[FLASH_PAGE_BYTES];
    memset(content, 255, sizeof content);
    if (!chip->powered)
        return false;
    const bool whole = step(chip, page * FLASH_PAGE_BYTES, content, sizeof content);
    const bool reads_erased = memcmp(chip->bytes + page * FLASH_PAGE_BYTES, content, sizeof content) == 0;
    chip->erased_again += whole && chip->half_erased[page];
    chip->half_erased[page] = !whole && reads_erased;
    return whole;
}
