/* calls CALL IMAGE PAGE_SIZE ADDRESS[,ADDRESS..] TIMES: does the call TIMES times, each time on a fresh copy of the image in
 * that file; a write gives the first address another value than it has, a group write gives it to all. The owner of the first
 * address makes the call. Prints the answer's number, then its steps or value.
 *
 * With `stack` for TIMES it does it once and prints, in third place, the bytes of stack that the call used, the return
 * address and the seventh argument, which x86-64 puts there, included: the call runs on a stack of its own that was painted
 * before, and how far down the paint was changed is what it used. For x86-64 and aarch64. */
#include "istrovell.h"

#include <stdio.h>
#include <stdlib.h>
#include <string.h>

#define PAINT 0xA5

typedef void function(void);

static uint8_t image[ISTROVELL_PAGES_MAX * ISTROVELL_LARGER_PAGE];
static uint8_t lent[sizeof image];
static size_t length;
static uint16_t page_size;
static uint8_t group[3 * ISTROVELL_GROUP_MAX];
static size_t group_length;

/* A call, with what follows pointer, length and page size. The answers, of at most 8 bytes, come back in one register. */
struct call {
    const char *name;
    function *function;
    unsigned words; /* of the rest; with four there is a seventh argument */
    uint64_t rest[4];
};

static uint64_t plain(const struct call *call)
{
    typedef uint64_t any(uint8_t *, size_t, uint64_t, uint64_t, uint64_t, uint64_t, uint64_t);
    const uint64_t *rest = call->rest;
    return ((any *)call->function)(lent, length, page_size, rest[0], rest[1], rest[2], rest[3]);
}

#if defined(__x86_64__)
static uint64_t on_stack(const struct call *call, uint8_t *top)
{
    if (call->words == 4) { /* it is just above the return address, and the stack stays aligned to 16 */
        top -= 16;
        memcpy(top, &call->rest[3], 8);
    }
    uint64_t answer;
    uint8_t *first = lent;
    size_t second = length;
    uint64_t third = page_size, fourth = call->rest[0];
    register uint64_t fifth __asm__("r8") = call->rest[1];
    register uint64_t sixth __asm__("r9") = call->rest[2];
    __asm__ volatile("mov %%rsp, %%r12\n\t"
                     "mov %[top], %%rsp\n\t"
                     "call *%[function]\n\t"
                     "mov %%r12, %%rsp"
                     : "=&a"(answer), "+D"(first), "+S"(second), "+d"(third), "+c"(fourth), "+r"(fifth),
                       "+r"(sixth)
                     : [top] "r"(top), [function] "r"(call->function)
                     : "r10", "r11", "r12", "memory", "cc", "xmm0", "xmm1", "xmm2", "xmm3", "xmm4", "xmm5", "xmm6",
                       "xmm7", "xmm8", "xmm9", "xmm10", "xmm11", "xmm12", "xmm13", "xmm14", "xmm15");
    return answer;
}
#elif defined(__aarch64__)
static uint64_t on_stack(const struct call *call, uint8_t *top)
{
    register uint64_t first __asm__("x0") = (uint64_t)lent; /* and the answer */
    register uint64_t second __asm__("x1") = length;
    register uint64_t third __asm__("x2") = page_size;
    register uint64_t fourth __asm__("x3") = call->rest[0];
    register uint64_t fifth __asm__("x4") = call->rest[1];
    register uint64_t sixth __asm__("x5") = call->rest[2];
    register uint64_t seventh __asm__("x6") = call->rest[3];
    __asm__ volatile("mov x20, sp\n\t"
                     "mov sp, %[top]\n\t"
                     "blr %[function]\n\t"
                     "mov sp, x20"
                     : "+r"(first), "+r"(second), "+r"(third), "+r"(fourth), "+r"(fifth), "+r"(sixth), "+r"(seventh)
                     : [top] "r"(top), [function] "r"(call->function)
                     : "x7", "x8", "x9", "x10", "x11", "x12", "x13", "x14", "x15", "x16", "x17", "x18", "x20",
                       "x30", "memory", "cc", "v0", "v1", "v2", "v3", "v4", "v5", "v6", "v7", "v8", "v9", "v10", "v11",
                       "v12", "v13", "v14", "v15", "v16", "v17", "v18", "v19", "v20", "v21", "v22", "v23", "v24", "v25",
                       "v26", "v27", "v28", "v29", "v30", "v31");
    return first;
}
#endif

static size_t stack_used(const struct call *call, uint64_t *answer)
{
    static uint8_t stack[1u << 18] __attribute__((aligned(16)));
    memset(stack, PAINT, sizeof stack);
    *answer = on_stack(call, stack + sizeof stack);
    size_t untouched = 0;
    while (stack[untouched] == PAINT)
        untouched++;
    return sizeof stack - untouched;
}

static void read_image(const char *name)
{
    FILE *file = fopen(name, "rb");
    if (file == NULL) {
        perror(name);
        exit(2);
    }
    length = fread(image, 1, sizeof image, file);
    fclose(file);
}

static bool is_timers(uint16_t address)
{
    return address >= ISTROVELL_TIMER_ADDRESS;
}

/* A setting for each address, with another value than it has. */
static void make_group(char *addresses)
{
    for (char *word = strtok(addresses, ","); word != NULL && group_length < sizeof group; word = strtok(NULL, ",")) {
        const uint16_t address = (uint16_t)atoi(word);
        const bool timer = is_timers(address);
        group[group_length++] = (uint8_t)(address & 255);
        group[group_length++] = (uint8_t)(address >> 8);
        group[group_length++] = istrovell_blank_read(image, length, page_size, timer, address).value ^ 1;
    }
}

int main(int count, char **words)
{
    if (count != 6)
        return 2;
    read_image(words[2]);
    page_size = (uint16_t)atoi(words[3]);
    make_group(words[4]);
    const uint16_t address = (uint16_t)(group[0] | group[1] << 8);
    const uint8_t value = group[2];
    const uint64_t all = ISTROVELL_ALL_STEPS, timer = is_timers(address);
    const struct call calls[] = {
        {"format", (function *)istrovell_format, 1, {false}},
        {"recover", (function *)istrovell_recover, 1, {all}},
        {"write", (function *)istrovell_write, 4, {timer, address, value, all}},
        {"write_group", (function *)istrovell_write_group, 4, {timer, (uint64_t)group, group_length, all}},
        {"read", (function *)istrovell_read, 2, {timer, address}},
        {"blank_read", (function *)istrovell_blank_read, 2, {timer, address}},
        {"lookup", (function *)istrovell_lookup, 0, {0}},
    };
    const struct call *call = calls;
    while (strcmp(call->name, words[1]) != 0)
        if (++call == calls + sizeof calls / sizeof calls[0])
            return 2;
    uint64_t answer = 0;
    size_t used = 0;
    memcpy(lent, image, length);
    if (strcmp(words[5], "stack") == 0) {
        used = stack_used(call, &answer);
    } else {
        for (long times = atol(words[5]); times > 0; times--) {
            memcpy(lent, image, length);
            answer = plain(call);
        }
    }
    const bool stepped = call->function == (function *)istrovell_recover || call->function == (function *)istrovell_write ||
                         call->function == (function *)istrovell_write_group;
    printf("%u %u %zu\n", (unsigned)(answer & 255), (unsigned)(stepped ? answer >> 16 & 65535 : answer >> 8 & 255), used);
    return 0;
}
