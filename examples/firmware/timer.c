#include "timer.h"

/* Of each glaze the hours, and behind them the minutes. */
static uint16_t address_of(unsigned glaze)
{
    return (uint16_t)(ISTROVELL_TIMER_ADDRESS + 2 * glaze);
}

struct istrovell_stepped timer_set_soak(struct flash *chip, unsigned glaze, struct soak soak)
{
    const unsigned hours = address_of(glaze), minutes = hours + 1;
    const uint8_t group[2 * 3] = {(uint8_t)(hours & 255),   (uint8_t)(hours >> 8),   soak.hours,
                                  (uint8_t)(minutes & 255), (uint8_t)(minutes >> 8), soak.minutes};
    return settings_set_group(chip, GLAZE_TIMER, group, sizeof group);
}

static uint8_t blank_read(const struct flash *chip, uint16_t address)
{
    return istrovell_blank_read(chip->bytes, FLASH_BYTES, FLASH_PAGE_BYTES, GLAZE_TIMER, address).value;
}

struct soak timer_soak(const struct flash *chip, unsigned glaze)
{
    const uint16_t hours = address_of(glaze);
    return (struct soak){.hours = blank_read(chip, hours), .minutes = blank_read(chip, (uint16_t)(hours + 1))};
}
