/*
 * A game that plays by calls and has the log of its own session at the end, as a bug report wants it: it writes the script's
 * line of each command (lakmozet_lines.h), and records them. Where it goes back to a slot, its script goes back to the length
 * that it had when the slot was saved. The log is replayed, and its last sums are compared with those of the game. It is
 * written to the file that is named, which the program replays too.
 */
#include "lakmozet_lines.h"

#include <inttypes.h>
#include <stdio.h>
#include <string.h>

enum { TURNS = 40, STEPS = 3 };

/* A cloth that a hand holds at one corner. */
static const char scene[] =
    "gravity = [0, -179, 0]\n"
    "passes = 8\n"
    "pins = [0, 11]\n"
    "[[cloth]]\n"
    "origin = [0, 131072, 0]\n"
    "across = [6554, 0, 0]\n"
    "down = [0, 0, 6554]\n"
    "rows = 12\n"
    "columns = 12\n";

/* A world, and the script of what was played on it. */
typedef struct {
    lak_cloth cloth;
    char script[TURNS * 3 * LAK_LINE_ROOM];
    size_t length, saved;
} session;

/* Each of these plays a command, and keeps its line where it was done. */
static void move(session *it, uint64_t particle, lak_vec3 to)
{
    if (lak_move(&it->cloth, particle, to) == LAK_DONE)
        it->length += lak_line_move(it->script + it->length, sizeof it->script - it->length, particle, to);
}

static void cut(session *it, uint64_t link)
{
    if (lak_cut(&it->cloth, link) == LAK_DONE)
        it->length += lak_line_cut(it->script + it->length, sizeof it->script - it->length, link);
}

static void step(session *it, uint64_t n)
{
    lak_left left;
    if (lak_step(&it->cloth, n, &left) == LAK_DONE)
        it->length += lak_line_step(it->script + it->length, sizeof it->script - it->length, n);
}

static void save(session *it)
{
    lak_save(&it->cloth, 0);
    it->saved = it->length;
}

static void go_back(session *it)
{
    lak_restore(&it->cloth, 0);
    it->length = it->saved;
}

/* Plays the game: the hand goes round, cuts a link now and then, and one stretch is played again with another hand. */
static void play(session *it, int from, int to, int64_t reach)
{
    for (int turn = from; turn < to; turn++) {
        lak_vec3 hand = {turn * reach, 131072 - turn * 300, turn % 7 * -900};
        move(it, 0, hand);
        if (turn % 5 == 4)
            cut(it, (uint64_t)turn * 7);
        step(it, STEPS);
    }
}

/* A number of eight bytes, the highest first. */
static uint64_t number(const uint8_t *bytes)
{
    uint64_t value = 0;
    for (int i = 0; i < 8; i++)
        value = value << 8 | bytes[i];
    return value;
}

/* Whether the sums at the end of a log, before the nine bytes behind its last entry, are these. */
static bool ends_with(const uint8_t *log, size_t length, const lak_sums_of_world *sums)
{
    const uint8_t *at = log + length - 9 - 64;
    bool same = number(at) == sums->steps && number(at + 8) == ((uint64_t)sums->live << 32 | sums->contacts);
    for (int axis = 0; axis < 3; axis++)
        same = same && (int64_t)number(at + 16 + 8 * axis) == sums->at[axis] && (int64_t)number(at + 40 + 8 * axis) == sums->before[axis];
    return same;
}

int main(int count, char **words)
{
    static session it;
    static uint8_t log_bytes[1 << 16], replies[1 << 16];
    lak_fault fault;
    lak_stop stop;
    lak_sums_of_world sums;
    size_t length, written;
    if (lak_open(&it.cloth, (const uint8_t *)scene, strlen(scene), 1, &fault) != LAK_DONE)
        return 1;
    play(&it, 0, 20, 500);
    save(&it);
    play(&it, 20, 30, 500);
    go_back(&it);
    play(&it, 20, TURNS, -500);
    if (lak_sums(&it.cloth, &sums) != LAK_DONE)
        return 1;
    lak_close(&it.cloth);
    if (lak_record((const uint8_t *)scene, strlen(scene), (const uint8_t *)it.script, it.length, log_bytes, sizeof log_bytes, &length) != LAK_DONE)
        return 1;
    if (lak_replay(log_bytes, length, replies, sizeof replies, &written, &stop) != LAK_DONE || !ends_with(log_bytes, length, &sums)) {
        puts("the log is another session");
        return 1;
    }
    printf("%" PRIu64 " steps, %" PRIu32 " live links; the log has the sums of the game\n", sums.steps, sums.live);
    if (count > 1) {
        FILE *file = fopen(words[1], "wb");
        if (!file || fwrite(log_bytes, 1, length, file) != length || fclose(file) != 0)
            return 1;
    }
    return 0;
}
