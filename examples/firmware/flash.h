/* A simulated flash chip with a power switch. Its steps, and how one fails, are those of docs/FORMAT.md. */
#ifndef FLASH_H
#define FLASH_H

#include <stdbool.h>
#include <stddef.h>
#include <stdint.h>

/* The larger chip has pages of 2,048 bytes: the Makefile builds the handset for either. */
#ifndef FLASH_PAGE_BYTES
#define FLASH_PAGE_BYTES 1024u
#endif
#define FLASH_PAGES 3u
#define FLASH_BYTES (FLASH_PAGES * FLASH_PAGE_BYTES)

/* What the failing step does to the bits that it was to change. */
enum flash_tear { TEAR_NONE, TEAR_ALL, TEAR_HALF, TEAR_FEW, TEAR_MOST, TEAR_FRONT, FLASH_TEARS };

struct flash {
    uint8_t bytes[FLASH_BYTES]; /* mapped: may be read at any time */
    bool powered;
    unsigned steps;     /* since power came on */
    unsigned fails_at;  /* power fails in this step, counted from 1; 0: in none */
    enum flash_tear tear;
    uint32_t dice;
    bool half_erased[FLASH_PAGES]; /* the page reads 255 throughout, but power failed in its last erase */
    unsigned erased_again;         /* how often a half-erased page was erased wholly */
};

/* A chip fresh from the factory: all bytes 255, without power. */
void flash_new(struct flash *chip);

void flash_power_on(struct flash *chip);

/* Sets the switch: power will fail in the step of this number after the next flash_power_on, or after this call. */
void flash_fail_at(struct flash *chip, unsigned step, enum flash_tear tear);

/* The two steps. False: power is gone, now or before. Programming a half-word that does not read 65,535 ends the program:
 * no driver may do that. Nor may it program in a half-erased page, since what is programmed there may not last: that ends
 * the program too. A page that a failing erase left with its wear word whole and 255 in all else is not one of these: it
 * is cleared and fit for use (docs/WHY.md, B4), and no step of any call erases it before it is used. */
bool flash_program(struct flash *chip, size_t offset, uint16_t value);
bool flash_erase(struct flash *chip, size_t page);

#endif
