/* The life of a handset and of the glaze timer beside it, over a flash with a power switch: it is formatted, the handset is
 * paired, and paired anew, the timer gets a new soak time, and both are used until a change moves the settings of both to the
 * only cleared page. Power is cut in each step of the pairing, of the soak time and of the move. Ends with status 1 if
 * anything was lost, or if no page was left half erased: then start-up was not put to that test. */
#include "timer.h"

#include <stdio.h>

enum { EMISSIVITY = 1, UNIT = 2, ALARM_LOW = 3, ALARM_HIGH = 4, BRIGHTNESS = 300, LAST_TARGET = 32767 };

static const uint16_t kept[] = {EMISSIVITY, UNIT, ALARM_LOW, ALARM_HIGH, BRIGHTNESS, LAST_TARGET, 16, 17, 18, 19};
static const uint8_t first_code[4] = {4, 2, 0, 7}, second_code[4] = {5, 2, 255, 8};
#define KEPT (sizeof kept / sizeof kept[0])
static const struct soak soaks[TIMER_GLAZES] = {{0, 20}, {1, 45}, {2, 0}}, longer = {3, 15};

static unsigned faults, erased_again;

static void expect(bool holds, const char *what, unsigned step, unsigned tear)
{
    if (holds)
        return;
    faults++;
    printf("LOST: %s (step %u, tear %u)\n", what, step, tear);
}

static uint8_t get(const struct flash *chip, uint16_t address)
{
    return istrovell_read(chip->bytes, FLASH_BYTES, FLASH_PAGE_BYTES, HANDSET, address).value;
}

static bool has_code(const struct flash *chip, const uint8_t code[4])
{
    const struct istrovell_pairing found = istrovell_lookup(chip->bytes, FLASH_BYTES, FLASH_PAGE_BYTES);
    return found.number == ISTROVELL_OK && found.paired && found.digit0 == code[0] && found.digit1 == code[1] &&
           found.digit2 == code[2] && found.digit3 == code[3];
}

static bool done(struct istrovell_stepped answer)
{
    return answer.number == ISTROVELL_OK && answer.finished;
}

static bool set(struct flash *chip, uint16_t address, uint8_t value)
{
    return done(settings_set(chip, HANDSET, address, value)) && get(chip, address) == value;
}

static bool has_soak(const struct flash *chip, unsigned glaze, struct soak soak)
{
    const struct soak found = timer_soak(chip, glaze);
    return found.hours == soak.hours && found.minutes == soak.minutes;
}

static bool set_soak(struct flash *chip, unsigned glaze, struct soak soak)
{
    return done(timer_set_soak(chip, glaze, soak)) && has_soak(chip, glaze, soak);
}

/* From the factory to the first firing. */
static void set_up(struct flash *chip)
{
    flash_new(chip);
    flash_power_on(chip);
    expect(settings_start(chip).number == ISTROVELL_NO_STORE, "a new chip has no store", 0, 0);
    /* Here the line at the factory says that the device is new. Without that word nothing is formatted. */
    expect(settings_format(chip), "the format", 0, 0);
    printf("new device: NO STORE; formatted, %u pages of %u bytes, %u steps\n", FLASH_PAGES, FLASH_PAGE_BYTES, chip->steps);
    expect(settings_start(chip).finished, "the formatted store", 0, 0);
    expect(done(settings_pair(chip, first_code)) && has_code(chip, first_code), "the first pairing", 0, 0);
    expect(set(chip, EMISSIVITY, 95) && set(chip, UNIT, 1) && set(chip, ALARM_LOW, 40) && set(chip, ALARM_HIGH, 200) &&
               set(chip, BRIGHTNESS, 7) && set(chip, LAST_TARGET, 0),
           "a first setting", 0, 0);
    for (unsigned glaze = 0; glaze < TIMER_GLAZES; glaze++)
        expect(set_soak(chip, glaze, soaks[glaze]), "a first soak time", 0, 0);
    printf("paired with %u %u %u %u, %zu settings of the handset held and %u of the timer\n", first_code[0], first_code[1],
           first_code[2], first_code[3], KEPT, 2 * TIMER_GLAZES);
    /* Neither can touch what is the other's. */
    expect(settings_set(chip, HANDSET, ISTROVELL_TIMER_ADDRESS, 9).number == ISTROVELL_OWNER &&
               settings_set(chip, GLAZE_TIMER, BRIGHTNESS, 9).number == ISTROVELL_OWNER && get(chip, BRIGHTNESS) == 7 &&
               has_soak(chip, 0, soaks[0]),
           "an address of the other's", 0, 0);
    printf("the handset at an address of the timer, and the timer at one of the handset: OWNER\n");
}

/* The changes in which power is cut, two of the handset and one of the timer. */

static bool pair_anew(struct flash *chip)
{
    return done(settings_pair(chip, second_code));
}

static bool soak_longer(struct flash *chip)
{
    return done(timer_set_soak(chip, 1, longer));
}

static bool next_target(struct flash *chip)
{
    return done(settings_set(chip, HANDSET, LAST_TARGET, (uint8_t)(get(chip, LAST_TARGET) % 250 + 1)));
}

/* Firing after firing, with a new soak time now and then, until the next change needs a move. */
static void use_until_move(struct flash *chip)
{
    unsigned changes = 0;
    for (;; changes++) {
        struct flash copy = *chip;
        flash_fail_at(&copy, 0, TEAR_NONE);
        expect(next_target(&copy), "a change in use", 0, 0);
        if (copy.steps > 4)
            break;
        *chip = copy;
        if (changes == 50 || changes == 150) /* long before the move */
            expect(set_soak(chip, 2, (struct soak){.hours = 2, .minutes = (uint8_t)(changes % 60)}), "a soak time", 0, 0);
    }
    printf("used for %u changes; the next one moves all settings of both\n", changes);
}

/* Start-up; power fails again in `cuts` of the recoveries. */
static unsigned start_again(struct flash *chip, unsigned cuts, unsigned step, unsigned tear)
{
    unsigned failed = 0;
    for (; cuts > 0; cuts--) {
        flash_power_on(chip);
        flash_fail_at(chip, 1 + (step + cuts) % (tear + 1), (enum flash_tear)((tear + cuts) % FLASH_TEARS));
        failed += !settings_start(chip).finished;
    }
    flash_power_on(chip);
    flash_fail_at(chip, 0, TEAR_NONE);
    expect(done(settings_start(chip)), "the recovery", step, tear);
    return failed;
}

/* All settings of both programs, and the code that a lookup finds, are the same in both. */
static bool same(const struct flash *one, const struct flash *other)
{
    uint8_t code[4];
    for (unsigned digit = 0; digit < 4; digit++)
        code[digit] = get(other, (uint16_t)(ISTROVELL_PAIRING_ADDRESS + digit));
    for (size_t i = 0; i < KEPT; i++)
        if (get(one, kept[i]) != get(other, kept[i]))
            return false;
    for (unsigned glaze = 0; glaze < TIMER_GLAZES; glaze++)
        if (!has_soak(one, glaze, timer_soak(other, glaze)))
            return false;
    return has_code(one, code);
}

/* Power fails in each step of the change in each way, and each time start-up has to find everything as before it or
 * everything as after it, so that no code is ever found by half. The steps are those that the chip sees: the first half of a
 * group's mark changes nothing. */
static void cut_everywhere(const struct flash *before, bool (*change)(struct flash *), const char *what)
{
    struct flash after = *before;
    flash_fail_at(&after, 0, TEAR_NONE);
    expect(change(&after), what, 0, 0);
    unsigned failures = 0, cut_recoveries = 0, left_old = 0, left_new = 0, first_new = after.steps + 1;
    for (unsigned step = 1; step <= after.steps; step++) {
        for (unsigned tear = 0; tear < FLASH_TEARS; tear++) {
            struct flash chip = *before;
            flash_fail_at(&chip, step, (enum flash_tear)tear);
            expect(!change(&chip), "power did not fail", step, tear);
            cut_recoveries += start_again(&chip, (step + tear) % 3, step, tear);
            failures++;
            const bool old = same(&chip, before), new = same(&chip, &after);
            expect(old || new, what, step, tear);
            expect(new || step <= first_new, "old again after new", step, tear);
            left_old += old;
            left_new += new;
            if (new && step < first_new)
                first_new = step;
            expect(change(&chip) && set(&chip, BRIGHTNESS, 9) && set_soak(&chip, 0, longer), "a change afterwards", step,
                   tear);
            erased_again += chip.erased_again;
        }
    }
    printf("power cut in each of the %u steps of %s, %u ways each: %u failures, and %u in the recoveries after them\n",
           after.steps, what, FLASH_TEARS, failures, cut_recoveries);
    printf("  %u times all as before, %u times all new, new from step %u on\n", left_old, left_new, first_new);
}

int main(void)
{
    struct flash chip;
    set_up(&chip);
    cut_everywhere(&chip, pair_anew, "a pairing");
    expect(pair_anew(&chip) && has_code(&chip, second_code), "the second pairing", 0, 0);
    cut_everywhere(&chip, soak_longer, "a soak time");
    expect(soak_longer(&chip) && has_soak(&chip, 1, longer), "the longer soak time", 0, 0);
    use_until_move(&chip);
    cut_everywhere(&chip, next_target, "the move");
    expect(has_code(&chip, second_code) && has_soak(&chip, 1, longer), "the pairing code and the soak time", 0, 0);
    printf("%u times a page read as erased though its erase was cut short, and was erased again before it was used\n",
           erased_again);
    printf("pairing code, soak times and all other settings: %s\n", faults == 0 ? "kept every time" : "LOST");
    return faults == 0 && erased_again > 0 ? 0 : 1;
}
