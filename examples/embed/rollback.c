/*
 * Two players, each with a world of its own, and inputs that come late. Each plays on at once with what it knows; when the
 * other's input of an earlier turn is there, it goes back to the slot of that turn, and plays all turns since once more. At the
 * end both worlds have equal sums: by the law late_inputs_come_to_the_same_world (crates/pbd_laws/src/rollback.rt) the world of
 * such a machine is always that of the inputs it knows, played in order, and by then both know the same. The law asks that an
 * input comes while its turn is one of the last SLOTS, so LATE is at most SLOTS.
 *
 * One player is hostile and moves its corner to the edge of the world, once. Played, that has the steps of its turn refused, or,
 * where a turn has one step, lets that pass and has all later ones refused. So inputs are looked at before they are played, by
 * a rule that sees the input alone, with which all machines leave out the same: those beyond REACH.
 */
#include "lakmozet.h"

#include <inttypes.h>
#include <stdio.h>
#include <string.h>

enum { PLAYERS = 2, TURNS = 40, STEPS = 3, LATE = 5, SLOTS = 8 };

/* How far from the middle a corner may be moved: 64 metres, a hundred times what this game wants, and 1/128 of the world. */
enum { REACH = 64 * 65536 };

/* A cloth that hangs from two corners over a ball. Each player moves one of the corners. */
static const char scene[] =
    "gravity = [0, -179, 0]\n"
    "passes = 8\n"
    "thickness = 3000\n"
    "pins = [0, 11]\n"
    "[[cloth]]\n"
    "origin = [0, 131072, 0]\n"
    "across = [6554, 0, 0]\n"
    "down = [0, 0, 6554]\n"
    "rows = 12\n"
    "columns = 12\n"
    "[[sphere]]\n"
    "centre = [36000, 98304, 36000]\n"
    "radius = 26000\n";

/* What a player does in a turn: moves its corner, and now and then cuts a link. */
typedef struct {
    bool known;
    lak_vec3 to;
    bool cuts;
    uint64_t link;
} input;

typedef struct {
    lak_cloth cloth;
    input inputs[PLAYERS][TURNS]; /* what it knows of each player's turns */
    int played;                   /* turns that its world has */
    int again;                    /* turns that were played once more */
} machine;

static uint32_t state = 12345;

static uint32_t draw(void)
{
    state ^= state << 13;
    state ^= state >> 17;
    state ^= state << 5;
    return state;
}

static input drawn(int player)
{
    input it = {true, {player * 72094 + (int32_t)(draw() % 20001) - 10000, 131072 + (int32_t)(draw() % 8001) - 4000, 0}, draw() % 8 == 0, draw() % 500};
    return it;
}

static bool is_within(int64_t axis)
{
    return -REACH <= axis && axis <= REACH;
}

/* Whether an input asks for no more than the rules of the game allow. */
static bool is_bounded(const input *move)
{
    return is_within(move->to.x) && is_within(move->to.y) && is_within(move->to.z);
}

static void apply(machine *it, int player, const input *move)
{
    if (!move->known || !is_bounded(move))
        return;
    lak_move(&it->cloth, player == 0 ? 0 : 11, move->to);
    if (move->cuts)
        lak_cut(&it->cloth, move->link); /* a link that is gone is refused, on both machines alike */
}

/* Saves the world before a turn, and plays it: player 0's input first. */
static void play_turn(machine *it, int turn)
{
    lak_left left;
    lak_save(&it->cloth, turn % SLOTS);
    for (int player = 0; player < PLAYERS; player++)
        apply(it, player, &it->inputs[player][turn]);
    lak_step(&it->cloth, STEPS, &left);
}

/* Learns the other's input of a turn: where that turn was played without it, goes back and plays on from there. */
static void learn(machine *it, int player, int turn, input move)
{
    it->inputs[player][turn] = move;
    if (turn < it->played) {
        lak_restore(&it->cloth, turn % SLOTS);
        for (int again = turn; again < it->played; again++, it->again++)
            play_turn(it, again);
    }
}

int main(void)
{
    static machine machines[PLAYERS];
    static input sent[PLAYERS][TURNS];
    lak_sums_of_world sums[PLAYERS];
    lak_fault fault;
    for (int player = 0; player < PLAYERS; player++) {
        if (lak_open(&machines[player].cloth, (const uint8_t *)scene, strlen(scene), SLOTS, &fault) != LAK_DONE)
            return 1;
    }
    for (int turn = 0; turn < TURNS + LATE; turn++) {
        for (int player = 0; player < PLAYERS; player++) {
            machine *it = &machines[player];
            /* What the other did comes so many turns late. */
            if (turn >= LATE)
                learn(it, 1 - player, turn - LATE, sent[1 - player][turn - LATE]);
            if (turn < TURNS) {
                sent[player][turn] = drawn(player);
                if (player == 1 && turn == 13)
                    sent[player][turn].to.y = 1 << 29;
                it->inputs[player][turn] = sent[player][turn];
                play_turn(it, turn);
                it->played = turn + 1;
            }
        }
    }
    for (int turn = 0; turn < TURNS; turn++) {
        for (int player = 0; player < PLAYERS; player++) {
            if (!is_bounded(&machines[0].inputs[player][turn]))
                printf("player %d's input of turn %d is out of bounds, and no machine played it\n", player + 1, turn + 1);
        }
    }
    for (int player = 0; player < PLAYERS; player++) {
        if (lak_sums(&machines[player].cloth, &sums[player]) != LAK_DONE)
            return 1;
        printf("player %d: %" PRIu64 " steps, %" PRIu32 " live links, %d turns played again, sum of x %" PRId64 "\n", player + 1,
               sums[player].steps, sums[player].live, machines[player].again, sums[player].at[0]);
        lak_close(&machines[player].cloth);
    }
    if (memcmp(&sums[0], &sums[1], sizeof sums[0]) != 0) {
        puts("the sums differ");
        return 1;
    }
    puts("the sums are equal");
    return 0;
}
