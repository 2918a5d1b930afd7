/* Coverage of the archive's code as it is delivered, without instrumentation: a breakpoint on each block, taken away when it is first reached. */
#define _GNU_SOURCE
#include <signal.h>
#include <sys/mman.h>
#include <ucontext.h>

#include "fuzz.h"

enum { MOST_BLOCKS = 8192, PAGE = 4096, INT3 = 0xCC };

struct block {
    uint8_t *at;
    uint8_t byte;
    uint8_t reached;
    char function[64];
};
static struct block blocks[MOST_BLOCKS];
static size_t block_count;
__attribute__((section("__libfuzzer_extra_counters"))) static uint8_t reached_now[MOST_BLOCKS];

/* blocks.py wrote them in rising order. */
static struct block *block_at(const uint8_t *at) {
    size_t low = 0, high = block_count;
    while (low < high) {
        size_t middle = (low + high) / 2;
        if (blocks[middle].at < at)
            low = middle + 1;
        else
            high = middle;
    }
    return low < block_count && blocks[low].at == at ? &blocks[low] : NULL;
}

static void reached(int signal, siginfo_t *info, void *context) {
    (void)signal, (void)info;
    greg_t *ip = &((ucontext_t *)context)->uc_mcontext.gregs[REG_RIP];
    struct block *block = block_at((uint8_t *)*ip - 1);
    HOLD(block != NULL);
    *block->at = block->byte;
    block->reached = 1;
    reached_now[block - blocks] = 1;
    *ip -= 1;
}

/* Writes the unreached blocks where FUZZ_REACHED says, and the count to standard error. */
static void say_reached(void) {
    const char *path = getenv("FUZZ_REACHED");
    FILE *file = path ? fopen(path, "w") : NULL;
    size_t count = 0;
    for (size_t i = 0; i < block_count; i++) {
        count += blocks[i].reached;
        if (file && !blocks[i].reached) fprintf(file, "%s %td\n", blocks[i].function, blocks[i].at - (uint8_t *)sporeflask_check);
    }
    if (file) fclose(file);
    fprintf(stderr, "archive: %zu of %zu blocks reached\n", count, block_count);
}

static void read_blocks(FILE *file) {
    long offset;
    while (block_count < MOST_BLOCKS && fscanf(file, "%ld %63s", &offset, blocks[block_count].function) == 2) {
        uint8_t *at = (uint8_t *)sporeflask_check + offset;
        blocks[block_count].at = at;
        blocks[block_count++].byte = *at;
    }
}

void watch_blocks(void) {
    const char *path = getenv("FUZZ_BLOCKS");
    FILE *file = path ? fopen(path, "r") : NULL;
    if (!file) return;
    read_blocks(file);
    fclose(file);
    HOLD(block_count > 0);
    uint8_t *first = (uint8_t *)((uintptr_t)blocks[0].at / PAGE * PAGE);
    size_t bytes = (size_t)(blocks[block_count - 1].at + 1 - first);
    HOLD(mprotect(first, bytes, PROT_READ | PROT_WRITE | PROT_EXEC) == 0);
    struct sigaction act = {.sa_sigaction = reached, .sa_flags = SA_SIGINFO};
    HOLD(sigaction(SIGTRAP, &act, NULL) == 0);
    for (size_t i = 0; i < block_count; i++) *blocks[i].at = INT3;
    atexit(say_reached);
}
