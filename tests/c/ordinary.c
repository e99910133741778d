/* C as people write it, with C's own headers: opens a plan of a head alone, and prints what it was given and what it got. */
#include <assert.h>
#include <inttypes.h>
#include <stdbool.h>
#include <stddef.h>
#include <stdint.h>
#include <stdio.h>
#include <stdlib.h>
#include <string.h>

#include "gateway.h"

struct pair {
    char first[3];
    char second;
};

int main(int argc, char **argv)
{
    const uint8_t plan[] = {1, 0};
    uint8_t *area = calloc(1, GATEWAY_AREA_SIZE);
    char line[80];
    if (area == NULL)
        return EXIT_FAILURE;
    uint64_t number = gateway_open(plan, sizeof plan, area, GATEWAY_AREA_SIZE).number;
    bool marked = memcmp(area, "GW", strlen("GW")) == 0;
    assert(number <= UINT64_MAX && offsetof(struct pair, second) == 3);
    snprintf(line, sizeof line, "%d %s %" PRIu64 " %" PRId64, argc, argv[argc - 1], number, INT64_MIN);
    puts(line);
    fprintf(stderr, "%s\n", marked ? "marked" : "not marked");
    free(area);
    return marked ? EXIT_SUCCESS : EXIT_FAILURE;
}
