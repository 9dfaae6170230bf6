/* A channel of a recorder stores three blocks of a series and lists them one at a time, while a clean-up falls between
 * two steps; then it reads the series, in which the block that went is a gap.
 *
 *     cc -std=c11 -Wall -Iinclude examples/channel.c target/staticlib/libzolvortug.a -o channel && ./channel
 */
#include <inttypes.h>
#include <stdio.h>
#include <stdlib.h>
#include <string.h>

#include "zolvortug.h"

/* Each operation costs 10, an error 1, and a block 2 for each tick that it is kept. */
static const zolvortug_tariff prices = {10, 10, 10, 10, 10, 10, 10, 10, 10, 10, 1, 2};

static void put(uint8_t *at, uint32_t number)
{
    for (int i = 0; i < 4; i++)
        at[i] = (uint8_t)(number >> 8 * i);
}

/* A block of a series: 100 samples, of which the last was not taken. */
static void fill(uint8_t *block, uint32_t series, uint32_t sequence)
{
    memset(block, 0, ZOLVORTUG_BLOCK);
    put(block, series);
    put(block + 4, sequence);
    block[8] = 100;
    for (uint32_t i = 0; i < ZOLVORTUG_SAMPLES; i++) {
        int32_t phase = (int32_t)(5 * (ZOLVORTUG_SAMPLES * sequence + i)) - 1000;
        put(block + 16 + 4 * i, (uint32_t)(i < 99 ? phase : ZOLVORTUG_NOT_TAKEN));
    }
}

/* Reads a series, and prints each run of phases and of gaps. */
static int print_series(uint32_t client, uint32_t series, const uint8_t *image, size_t size)
{
    zolvortug_place reader = zolvortug_series_open(client, series, image, size);
    printf("series   report %u, places %u\n", reader.report, reader.end);
    zolvortug_sampled s = zolvortug_place_step(&reader, image, size);
    while (s.answer != ZOLVORTUG_ENDED) {
        const uint32_t from = reader.at - 1;
        const zolvortug_sampled first = s;
        do
            s = zolvortug_place_step(&reader, image, size);
        while (s.answer == first.answer);
        const uint32_t to = s.answer == ZOLVORTUG_ENDED ? reader.at - 1 : reader.at - 2;
        if (first.answer == ZOLVORTUG_PHASE)
            printf("series   phases from %u to %u, the first %.0f ps\n", from, to, first.phase);
        else
            printf("series   gaps   from %u to %u\n", from, to);
    }
    return reader.report;
}

int main(void)
{
    const uint32_t channel = 3, manager = 0, series = 1;
    size_t size = zolvortug_size(8);
    uint8_t *image = malloc(size);
    if (image == NULL || zolvortug_format(8, image, size) != ZOLVORTUG_SUCCESS)
        return 1;

    /* Three blocks, created at 1, 2 and 3, to expire at 10, 200 and 300. */
    const uint64_t expiry[3] = {10, 200, 300};
    for (uint64_t i = 0; i < 3; i++) {
        uint8_t bytes[ZOLVORTUG_BLOCK];
        fill(bytes, series, (uint32_t)i);
        zolvortug_created c = zolvortug_create(prices, channel, expiry[i], bytes, sizeof bytes, i + 1, image, size);
        printf("create   report %u, charge %" PRId64 ", id %016" PRIx64 "\n", c.report, c.charge, c.id);
    }

    /* One id a step. After the first step the block that it named has expired and is cleaned up. */
    zolvortug_walk walk = zolvortug_walk_from(channel, 1);
    for (int step = 0; !walk.ended; step++) {
        uint8_t id[8];
        zolvortug_stepped s = zolvortug_walk_step(prices, &walk, id, sizeof id, image, size);
        if (s.report != ZOLVORTUG_SUCCESS)
            return 1;
        printf("step     report %u, named %u", s.report, s.entries);
        for (uint32_t i = 8 * s.entries; i-- > 0;)
            printf(i == 8 * s.entries - 1 ? ": %02x" : "%02x", id[i]);
        printf(s.key == ZOLVORTUG_END_KEY ? ", the end\n" : ", key %u\n", s.key);
        if (step == 0) {
            zolvortug_scavenged g = zolvortug_scavenge(prices, manager, ZOLVORTUG_START_KEY, 50, image, size);
            printf("scavenge report %u, removed %u\n", g.report, g.count);
        }
    }
    printf("check    %s\n", zolvortug_check(image, size) ? "sound" : "not sound");
    int refused = print_series(channel, series, image, size);
    free(image);
    return refused;
}
