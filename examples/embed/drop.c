/* A cloth falls on a ball, and each half second its places are printed, in the form of the program's frames. */
#include "lakmozet.h"

#include <inttypes.h>
#include <stdio.h>
#include <string.h>

static uint8_t text[1 << 16];
static lak_vec3 places[65536];

/* Reads the input up to its line %%, and returns how long that is. */
static size_t read_scene(void)
{
    size_t length = 0;
    char line[4096];
    while (fgets(line, sizeof line, stdin) && strcmp(line, "%%\n") != 0 && length + strlen(line) < sizeof text) {
        memcpy(text + length, line, strlen(line));
        length += strlen(line);
    }
    return length;
}

static int print_frame(lak_cloth *cloth)
{
    lak_counts_of_world counts;
    uint32_t count;
    if (lak_counts(cloth, &counts) != LAK_DONE || lak_places(cloth, places, 65536, &count) != LAK_DONE)
        return 1;
    printf("frame %" PRIu64 " %" PRIu32 " %" PRIu32 " %" PRIu32 "\n", counts.steps, counts.particles, counts.live, counts.contacts);
    for (uint32_t i = 0; i < count; i++)
        printf("%" PRId64 " %" PRId64 " %" PRId64 "\n", places[i].x, places[i].y, places[i].z);
    return 0;
}

int main(void)
{
    lak_cloth cloth = {0};
    lak_fault fault;
    lak_left left;
    int32_t answer = lak_open(&cloth, text, read_scene(), 0, &fault);
    if (answer != LAK_DONE) {
        fprintf(stderr, "lak_open answers %s: %s in %s %" PRIu32 ", key %s\n", lak_answer_name(answer), lak_rule_name(fault.rule),
                lak_table_name(fault.table), fault.position, lak_key_name(fault.key));
        return 1;
    }
    for (int half = 0; half < 3; half++) {
        if (lak_step(&cloth, 30, &left) != LAK_DONE)
            return 1;
        puts("ok");
        if (print_frame(&cloth))
            return 1;
    }
    lak_close(&cloth);
    return 0;
}
