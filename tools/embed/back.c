/* What going back costs, in time: eight turns of a cloth of 32 by 32, a step of 8 passes each, gone back and played once
 * more, with the world saved before each; and lak_restore beside lak_save, where nothing but a step lies between the two, and where
 * a particle was let go or a link cut as well. Both are timed right after a step, as a game calls them. The least of some rounds. */
#include "lakmozet.h"

#include <stdio.h>
#include <time.h>

enum { TURNS = 8, STEPS_BEFORE = 60, ROUNDS = 50 };

/* What is done between a save and going back to it. */
typedef enum { STEPPED, UNPINNED, CUT, DEEDS } deed;

/* The time in microseconds. */
static double now(void)
{
    struct timespec time;
    timespec_get(&time, TIME_UTC);
    return (double)time.tv_sec * 1e6 + (double)time.tv_nsec / 1e3;
}

static void keep_least(double *least, double began)
{
    double took = now() - began;
    if (took < *least)
        *least = took;
}

/* Opens a cloth that hangs from two corners, and lets it swing for a second. */
static int32_t open_cloth(lak_cloth *cloth, int side)
{
    char scene[256];
    lak_fault fault;
    lak_left left;
    int length = snprintf(scene, sizeof scene,
        "gravity = [0, -179, 0]\npasses = 8\npins = [0, %d]\n[[cloth]]\norigin = [0, 65536, 0]\n"
        "across = [6554, 0, 0]\ndown = [0, 0, 6554]\nrows = %d\ncolumns = %d\n",
        side - 1, side, side);
    int32_t answer = lak_open(cloth, (const uint8_t *)scene, (size_t)length, TURNS, &fault);
    return answer == LAK_DONE ? lak_step(cloth, STEPS_BEFORE, &left) : answer;
}

static int32_t play_turn(lak_cloth *cloth, uint32_t turn)
{
    lak_left left;
    int32_t answer = lak_save(cloth, turn);
    return answer == LAK_DONE ? lak_step(cloth, 1, &left) : answer;
}

/* Tells what it takes to go back eight turns and to play them once more. */
static int32_t tell_turns(lak_cloth *cloth)
{
    double least = 1e12;
    int32_t answer = LAK_DONE;
    for (uint32_t turn = 0; turn < TURNS && answer == LAK_DONE; turn++)
        answer = play_turn(cloth, turn);
    for (int round = 0; round < ROUNDS && answer == LAK_DONE; round++) {
        double began = now();
        answer = lak_restore(cloth, 0);
        for (uint32_t turn = 0; turn < TURNS && answer == LAK_DONE; turn++)
            answer = play_turn(cloth, turn);
        keep_least(&least, began);
    }
    if (answer == LAK_DONE)
        printf("%d turns of 32 by 32, gone back and played once more: %.2f ms\n", TURNS, least / 1000);
    return answer;
}

/* Plays a step and saves, does a deed, plays a step and goes back. */
static int32_t go_back(lak_cloth *cloth, deed done, double *save, double *back)
{
    lak_left left;
    double began;
    int32_t answer = lak_step(cloth, 1, &left);
    if (answer != LAK_DONE)
        return answer;
    began = now();
    answer = lak_save(cloth, 0);
    keep_least(save, began);
    if (answer == LAK_DONE && done == UNPINNED)
        answer = lak_unpin(cloth, 0);
    if (answer == LAK_DONE && done == CUT)
        answer = lak_cut(cloth, 100);
    if (answer == LAK_DONE)
        answer = lak_step(cloth, 1, &left);
    if (answer != LAK_DONE)
        return answer;
    began = now();
    answer = lak_restore(cloth, 0);
    keep_least(back, began);
    return answer;
}

/* Tells what a save takes, and how many times that going back takes. */
static int32_t tell_restores(lak_cloth *cloth, int side)
{
    double save = 1e12, back[DEEDS] = {1e12, 1e12, 1e12};
    int32_t answer = LAK_DONE;
    for (int round = 0; round < ROUNDS && answer == LAK_DONE; round++) {
        for (deed done = STEPPED; done < DEEDS && answer == LAK_DONE; done++)
            answer = go_back(cloth, done, &save, &back[done]);
    }
    if (answer == LAK_DONE)
        printf("%d by %d: lak_save %.1f microseconds; lak_restore %.1f times that after a step, %.1f where a particle was let go, "
               "%.1f where a link was cut\n",
            side, side, save, back[STEPPED] / save, back[UNPINNED] / save, back[CUT] / save);
    return answer;
}

int main(void)
{
    static const int sides[] = {32, 64};
    int32_t answer = LAK_DONE;
    for (int i = 0; i < 2 && answer == LAK_DONE; i++) {
        lak_cloth cloth = {0};
        answer = open_cloth(&cloth, sides[i]);
        if (answer == LAK_DONE && i == 0)
            answer = tell_turns(&cloth);
        if (answer == LAK_DONE)
            answer = tell_restores(&cloth, sides[i]);
        lak_close(&cloth);
    }
    if (answer != LAK_DONE)
        printf("stopped with answer %d\n", (int)answer);
    return answer != LAK_DONE;
}
