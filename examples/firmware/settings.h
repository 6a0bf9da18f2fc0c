/* The device's settings: Istrovell's calls carried to the flash, one step at a time. Two programs share the store, the handset
 * and the glaze timer (timer.h); both come here, and each says who it is. */
#ifndef SETTINGS_H
#define SETTINGS_H

#include "flash.h"
#include "istrovell.h"

/* An answer with number 0 that is not finished: power failed. */

/* What the programs name as `timer`. */
#define HANDSET false
#define GLAZE_TIMER true

/* For a new device only: a store of the second edition, because both programs write groups; the larger chip's edition has
 * groups in any case. False: power failed. */
bool settings_format(struct flash *chip);

/* At start-up, before anything else; once for both programs. */
struct istrovell_stepped settings_start(struct flash *chip);

struct istrovell_stepped settings_set(struct flash *chip, bool timer, uint16_t address, uint8_t value);

/* Several settings as one, in three bytes each: the address, low byte first, and the value. */
struct istrovell_stepped settings_set_group(struct flash *chip, bool timer, const uint8_t *group, size_t length);

/* The handset's four digits as one: wherever power fails, a lookup finds the old code or this one. */
struct istrovell_stepped settings_pair(struct flash *chip, const uint8_t code[4]);

#endif
