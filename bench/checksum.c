/* The one's complement sum as a plain C loop, timed at each size that standard input names. */
#include <stdint.h>
#include <stdio.h>
#include <stdlib.h>
#include <time.h>

enum { RUNS = 5 };

static const uint64_t bytes_a_run = 400000000;

static uint16_t sum(const uint8_t *bytes, size_t length)
{
    uint32_t total = 0;
    size_t i = 0;
    for (; i + 1 < length; i += 2)
        total += (uint32_t)bytes[i] << 8 | bytes[i + 1];
    if (i < length)
        total += (uint32_t)bytes[i] << 8;
    while (total > 0xFFFF)
        total = (total & 0xFFFF) + (total >> 16);
    return (uint16_t)total;
}

static uint64_t nanoseconds(void)
{
    struct timespec now;
    clock_gettime(CLOCK_MONOTONIC, &now);
    return (uint64_t)now.tv_sec * 1000000000u + (uint64_t)now.tv_nsec;
}

int main(void)
{
    size_t size;
    while (scanf("%zu", &size) == 1) {
        uint64_t rounds = bytes_a_run / size;
        uint64_t best = UINT64_MAX;
        uint16_t all = 0;
        uint8_t *bytes = malloc(size);
        if (bytes == NULL)
            return 1;
        for (size_t i = 0; i < size; i++)
            bytes[i] = (uint8_t)(i % 251);
        for (int run = 0; run < RUNS; run++) {
            uint64_t start = nanoseconds();
            for (uint64_t i = 0; i < rounds; i++) {
                bytes[0] = (uint8_t)(i % 251);
                all ^= sum(bytes, size);
            }
            uint64_t taken = nanoseconds() - start;
            if (taken < best)
                best = taken;
        }
        printf("c_loop %zu %llu %llu %u\n", size, (unsigned long long)rounds, (unsigned long long)best, all);
        free(bytes);
    }
    return 0;
}
