/* The glaze timer: a second program on the handset's flash. It keeps a soak time for each glaze, from
 * ISTROVELL_TIMER_ADDRESS on, where the handset can neither write nor read. */
#ifndef TIMER_H
#define TIMER_H

#include "settings.h"

#define TIMER_GLAZES 3u

struct soak {
    uint8_t hours;
    uint8_t minutes;
};

/* Hours and minutes as one: wherever power fails, timer_soak finds the old time or this one. */
struct istrovell_stepped timer_set_soak(struct flash *chip, unsigned glaze, struct soak soak);

/* 0:00 for a glaze that nobody has set. */
struct soak timer_soak(const struct flash *chip, unsigned glaze);

#endif
