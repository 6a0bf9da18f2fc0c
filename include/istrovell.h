/* Istrovell: a settings store in flash that keeps its word when power fails.
 *
 * A setting is one byte at an address 0 to 65,534. At most 192 addresses are held. The store is an image of 2 to 32 pages
 * of 1,024 bytes or, on the larger chip, of 2,048 bytes. It is lent to each call by pointer and length, and the call names
 * the page size. Two programs may share it, the handset and the glaze timer, and writes and reads name which one calls.
 *
 * This file says what each call takes and answers. READ docs/FIRMWARE.md BEFORE THE FIRST CALL: it has what to do at start-up
 * and how the steps of a call are carried to flash, on which all that is promised about power failures rests; and how to
 * choose the page size, the edition and the owner.
 *
 * WHAT HOLDS OF EVERY CALL
 *   - Any length, any page size and any bytes are lawful input, and the pointer may have any alignment. A page size other
 *     than 1,024 and 2,048, or a length that no store of that size has, answers ISTROVELL_SIZE, and no byte is read; 0 is
 *     such a length, and with it the pointer may be null. The caller answers for this: that the `length` bytes at `image`
 *     are there, and that nobody else changes them meanwhile.
 *   - Only the bytes that are lent are read, and only those of the image are changed. A call that refuses (a number other than
 *     ISTROVELL_OK) changes no byte, and its other members are 0 and false.
 *   - Every call returns. None keeps anything between calls, takes memory from a heap or waits. The library needs memcpy,
 *     memmove, memset and memcmp at most, and, as measured on x86-64, no more than 4 KB of stack.
 *   - Calls on one image are made one after the other, and all name the page size that its last format named.
 *
 * A STORE IN USE, below, is one whose format has finished and which only these calls have changed since, all of them naming
 * the page size that the format named, cut short by power failures or not.
 */
#ifndef ISTROVELL_H
#define ISTROVELL_H

#include <stdbool.h>
#include <stddef.h>
#include <stdint.h>

#ifdef __cplusplus
extern "C" {
#endif

#define ISTROVELL_SMALLER_PAGE 1024u     /* the page sizes: bytes of a page */
#define ISTROVELL_LARGER_PAGE 2048u      /* on the larger chip */
#define ISTROVELL_FIRST_EDITION false    /* the editions that a format can be told: without groups */
#define ISTROVELL_SECOND_EDITION true    /* with groups */
#define ISTROVELL_HANDSET false          /* the two owners, as `timer` names them */
#define ISTROVELL_TIMER true
#define ISTROVELL_PAGES_MIN 2u           /* pages of an image, at least */
#define ISTROVELL_PAGES_MAX 32u          /* and at most */
#define ISTROVELL_TIMER_ADDRESS 32768u   /* the timer's first address; those before it are the handset's */
#define ISTROVELL_ADDRESS_MAX 65534u     /* the last address */
#define ISTROVELL_HELD_MAX 192u          /* addresses held at a time, at most */
#define ISTROVELL_HELD_BY_OWNER_MAX 128u /* of one owner, at most */
#define ISTROVELL_GROUP_MAX 8u           /* settings of a group, at most */
#define ISTROVELL_ALL_STEPS 65535u       /* an allowance that no call uses up */
#define ISTROVELL_PAIRING_ADDRESS 16u    /* the pairing code's four digits are here and at the three addresses after it */

/* The answers by number. Where several would fit, the first in this order is given: 1, 2, 3, 4, 9, 5, 11, 6, 7, 8; but a
 * write whose values are all held already is not tested for 6 and 7. There is no 10. README.md says what to do then. */
enum istrovell_number {
    ISTROVELL_OK = 0,        /* done, or stopped by the allowance */
    ISTROVELL_SIZE = 1,      /* no such page size, or the length is no multiple of it, or not 2 to 32 pages */
    ISTROVELL_NO_STORE = 2,  /* no open page: never formatted, or no image of ours; no reason to format */
    ISTROVELL_DAMAGED = 3,   /* two used pages of one order, or every page used, or more than 192 addresses held */
    ISTROVELL_UNCLEAN = 4,   /* a page neither used nor cleared, or a group cut short: recover, then write again */
    ISTROVELL_ADDRESS = 5,   /* address 65,535 */
    ISTROVELL_NO_ROOM = 6,   /* an address is new, and with it more than 192 would be held, or more than 128 by this owner */
    ISTROVELL_ORDER_END = 7, /* a new page is needed and the active order is 4,194,303, the last */
    ISTROVELL_NOT_HELD = 8,  /* the address is not held */
    ISTROVELL_GROUP = 9,     /* a group of other than 1 to 8 settings, or with an address twice, or a first-edition store */
    ISTROVELL_OWNER = 11     /* the address, or one of the group, is the other program's */
};

/* The answer of recovery and of both writes. */
struct istrovell_stepped {
    uint8_t number; /* an enum istrovell_number */
    bool finished;  /* no step is left */
    uint16_t steps; /* how many steps were done: the call's steps, or the allowance if that is less */
};

/* The answer of read and blank read. */
struct istrovell_reading {
    uint8_t number;
    uint8_t value;
};

/* The answer of the pairing lookup. */
struct istrovell_pairing {
    uint8_t number;
    bool paired; /* all four addresses are held, whatever their values: 0 and 255 are digits like any other */
    uint8_t digit0;
    uint8_t digit1;
    uint8_t digit2;
    uint8_t digit3;
};

/* Makes the image an empty store of the second edition (ISTROVELL_SECOND_EDITION) or of the first, with wear 1 on every page,
 * whatever it was. Every setting is lost, of both owners. With pages of 2,048 bytes second_edition is not looked at. Only the
 * second edition, and pages of 2,048 bytes, can be written by groups; every other call reads the edition off the image.
 * Answers 0 or 1. */
uint8_t istrovell_format(uint8_t *image, size_t length, uint16_t page_size, bool second_edition);

/* Ends a group that was cut short, by a mark in the next free slot, in 2 steps. Then erases each page that is neither used nor
 * cleared and programs its wear word, in 3 steps a page. The wear is one more than the page's own or, if that is lost, than the
 * greatest of all pages then; 65,535 at most. A page of another edition than the store's is one of those pages, its wear lost.
 * Answers 0 to 3; 0 with finished false if the allowance ended it.
 *
 * Of a store in use no setting changes, whether the recovery finishes, is stopped or power fails in it. Of another image that is
 * not promised: where pages are of both editions, a recovery that is cut may leave a store of the other one, with other
 * settings. */
struct istrovell_stepped istrovell_recover(uint8_t *image, size_t length, uint16_t page_size, uint16_t allowance);

/* Puts the value at the address. An address that has the value already takes 0 steps; a free slot 2; a new page 4; a move
 * of all settings to the only cleared page at most 388 + 3 x (pages - 1), that is 481 at 32 pages.
 * Answers 0 to 7 and 11; an address that has the value already is tested against 1 to 5 and 11 only.
 *
 * Of a store in use: if power fails in any step, and in any step of the recoveries after it, every other address reads as before,
 * and this one as before or with the new value; once a step has made it new, a failure at a later step leaves it new. */
struct istrovell_stepped istrovell_write(uint8_t *image, size_t length, uint16_t page_size, bool timer,
                                         uint16_t address, uint8_t value, uint16_t allowance);

/* Puts the values of a group at its addresses, as one: a pairing code, say. `group` has three bytes for each setting: its
 * address, low byte first, then its value; `group_length` counts these bytes, so it is 3, 6, up to 24. The addresses must
 * differ, and all be of the program that calls. With length 0 the pointer is not followed and may be null. The bytes of the
 * group are only read, and it must not lie in the image.
 * If all addresses have their values already it takes 0 steps; else 4 + 2 for each setting, with a new page 2 more, or a move
 * as istrovell_write does.
 * Answers 0 to 7, 9 and 11; a group whose values are all held is tested against 1 to 4, 9, 5 and 11 only.
 *
 * Of a store in use: if power fails in any step, and in any step of the recoveries after it, every other address reads as before,
 * and those of the group all as before or all with the new values; once a step has made them new, a failure at a later step
 * leaves them new. So a lookup gives the old code or the new one, never a mixture. */
struct istrovell_stepped istrovell_write_group(uint8_t *image, size_t length, uint16_t page_size, bool timer,
                                               const uint8_t *group, size_t group_length, uint16_t allowance);

/* The value at the address. Answers 0, 1, 2, 3, 5, 11 or 8. Recovery need not have run. */
struct istrovell_reading istrovell_read(const uint8_t *image, size_t length, uint16_t page_size, bool timer,
                                        uint16_t address);

/* The same with value 0, and number 0, for an address that is not held: what a kiln-side display gets for an offset that
 * nobody has set. One that was set to 0 answers the same; istrovell_read tells them apart. Answers 0, 1, 2, 3, 5 or 11. */
struct istrovell_reading istrovell_blank_read(const uint8_t *image, size_t length, uint16_t page_size, bool timer,
                                              uint16_t address);

/* The blank reads of addresses 16 to 19 as digits, and whether they are a pairing code. A digit whose address is not held is
 * 0, which may be a digit too, so ask paired. Answers 0 to 3. */
struct istrovell_pairing istrovell_lookup(const uint8_t *image, size_t length, uint16_t page_size);

#ifdef __cplusplus
}
#endif

#endif
