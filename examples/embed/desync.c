/*
 * Two machines play one game and lose each other: of one, a cut reaches link 131 in place of 100, as a broken wire or a bug
 * would have it. The cloth falls freely and undamped, and all its particles have one weight, so what a link moves one end by, it
 * moves the other back by: all sums stay equal, while soon no particle is where it is on the other machine. The digest of the
 * world (lak_digest) sees it in the turn of the cut, and so does its checksum (lak_checksum), which costs less. Then one machine
 * sends its state, the other reads it (lak_state_read), and they are together again.
 */
#include "lakmozet.h"

#include <stdio.h>
#include <string.h>

enum { MACHINES = 2, TURNS = 60, STEPS = 10, CUT = 12, SIDE = 16 };

/* A cloth of SIDE by SIDE, and a string between two of its corners that is too short, and pulls it together as it falls. */
static const char scene[] =
    "gravity = [0, -179, 0]\n"
    "passes = 4\n"
    "[[cloth]]\n"
    "origin = [0, 131072, 0]\n"
    "across = [6554, 0, 0]\n"
    "down = [0, 0, 6554]\n"
    "rows = 16\n"
    "columns = 16\n"
    "[[link]]\n"
    "a = 0\n"
    "b = 255\n"
    "rest = 65536\n";

static const uint64_t cuts[MACHINES] = {100, 131};

static lak_cloth cloths[MACHINES];
static lak_hash name;

static bool have_equal_sums(void)
{
    lak_sums_of_world sums[MACHINES];
    for (int i = 0; i < MACHINES; i++)
        lak_sums(&cloths[i], &sums[i]);
    return memcmp(&sums[0], &sums[1], sizeof sums[0]) == 0;
}

static bool have_equal_checksums(void)
{
    uint64_t sums[MACHINES];
    for (int i = 0; i < MACHINES; i++)
        lak_checksum(&cloths[i], &sums[i]);
    return sums[0] == sums[1];
}

static bool have_equal_digests(void)
{
    lak_hash digests[MACHINES];
    for (int i = 0; i < MACHINES; i++)
        lak_digest(&cloths[i], name, &digests[i]);
    return memcmp(&digests[0], &digests[1], sizeof digests[0]) == 0;
}

/* How many particles have another place on one machine than on the other. */
static int differing_places(void)
{
    static lak_vec3 places[MACHINES][SIDE * SIDE];
    uint32_t count;
    int differ = 0;
    for (int i = 0; i < MACHINES; i++)
        lak_places(&cloths[i], places[i], SIDE * SIDE, &count);
    for (int i = 0; i < SIDE * SIDE; i++)
        differ += memcmp(&places[0][i], &places[1][i], sizeof places[0][i]) != 0;
    return differ;
}

/* The first turn after which the machines differ in their digests, checksums and sums; TURNS where they don't. */
typedef struct {
    int digests, checksums, sums;
} difference;

/* Plays turns on both machines, in one of which a cut goes wrong, if it is to. */
static difference play(bool cut)
{
    difference first = {TURNS, TURNS, TURNS};
    lak_left left;
    for (int turn = 0; turn < TURNS; turn++) {
        for (int i = 0; i < MACHINES; i++) {
            if (cut && turn == CUT)
                lak_cut(&cloths[i], cuts[i]);
            lak_step(&cloths[i], STEPS, &left);
        }
        if (first.digests == TURNS && !have_equal_digests())
            first.digests = turn;
        if (first.checksums == TURNS && !have_equal_checksums())
            first.checksums = turn;
        if (first.sums == TURNS && !have_equal_sums())
            first.sums = turn;
    }
    return first;
}

/* Sends the world of one machine to the other. */
static bool send_state(lak_cloth *from, lak_cloth *to)
{
    static uint8_t state[1 << 16];
    size_t size;
    uint64_t offset;
    if (lak_state_write(from, name, state, sizeof state, &size) != LAK_DONE)
        return false;
    return lak_state_read(to, name, state, size, &offset) == LAK_DONE;
}

int main(void)
{
    lak_fault fault;
    for (int i = 0; i < MACHINES; i++) {
        if (lak_open(&cloths[i], (const uint8_t *)scene, strlen(scene), 0, &fault) != LAK_DONE)
            return 1;
    }
    if (lak_scene_name(&cloths[0], &name) != LAK_DONE)
        return 1;
    difference apart = play(true);
    int differ = differing_places();
    printf("a cut goes wrong in turn %d; the digests differ from turn %d on, the checksums from turn %d\n", CUT, apart.digests,
           apart.checksums);
    printf("%d turns later %d of %d places differ, and the sums %s\n", TURNS - CUT, differ, SIDE * SIDE,
           apart.sums == TURNS ? "never did" : "differ too");
    if (!send_state(&cloths[0], &cloths[1]))
        return 1;
    difference together = play(false);
    printf("the second machine reads the state of the first, and for %d turns the digests %s\n", TURNS,
           together.digests == TURNS ? "are equal" : "aren't equal");
    for (int i = 0; i < MACHINES; i++)
        lak_close(&cloths[i]);
    const bool is_seen = apart.digests == CUT && apart.checksums == CUT && apart.sums == TURNS;
    return is_seen && differ == SIDE * SIDE && together.digests == TURNS ? 0 : 1;
}
