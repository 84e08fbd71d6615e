/*
 * Plays a scene's script by calls on a handle, and prints what `simulate` prints; or, where a number of steps is given, the
 * digest of the world after each so many of them, in 64 digits, and nothing else. Lines are taken as the examples have them: a
 * word, and numbers behind it.
 */
#include "lakmozet.h"

#include <inttypes.h>
#include <stdio.h>
#include <stdlib.h>
#include <string.h>

static const char *const phases[] = {"", "predict", "link", "contact", "shape"};
static uint8_t text[1 << 24];
static lak_vec3 places[65536];
static bool quiet; /* whether digests are all that is printed */

static void print_reply(int32_t answer, const lak_left *left)
{
    if (quiet)
        return;
    if (answer == LAK_DONE)
        puts("ok");
    else if (answer == LAK_LEAVES_RANGE)
        printf("refused 11 LeavesRange step %" PRIu64 " phase %s element %" PRIu32 "\n", left->step, phases[left->phase], left->element);
    else if (answer == LAK_TOO_MANY_CONTACTS)
        printf("refused 12 TooManyContacts step %" PRIu64 "\n", left->step);
    else
        printf("refused %" PRId32 " %s\n", answer, lak_answer_name(answer));
}

static void print_frame(lak_cloth *cloth)
{
    lak_counts_of_world counts;
    uint32_t count;
    if (quiet)
        return;
    lak_counts(cloth, &counts);
    lak_places(cloth, places, 65536, &count);
    printf("frame %" PRIu64 " %" PRIu32 " %" PRIu32 " %" PRIu32 "\n", counts.steps, counts.particles, counts.live, counts.contacts);
    for (uint32_t i = 0; i < count; i++)
        printf("%" PRId64 " %" PRId64 " %" PRId64 "\n", places[i].x, places[i].y, places[i].z);
}

__extension__ typedef unsigned __int128 natural;

/* Prints a number of 128 bits in decimal, behind a space. */
static void print_wide(lak_wide it)
{
    char digits[40] = "", *at = digits + 39;
    natural left = (natural)(uint64_t)it.high << 64 | it.low;
    if (it.high < 0)
        left = -left;
    do
        *--at = (char)('0' + (int)(left % 10));
    while (left /= 10);
    printf(" %s%s", it.high < 0 ? "-" : "", at);
}

static void print_ledger(lak_cloth *cloth)
{
    static const char *const names[] = {"momentum", "opening", "gravity", "damping", "link", "contact", "pin", "shape"};
    lak_ledger_of_world l;
    if (quiet)
        return;
    lak_ledger(cloth, &l);
    const lak_wide *sums[] = {l.momentum, l.opening, l.gravity, l.damping, l.link, l.contact, l.pin, l.shape};
    for (int k = 0; k < 8; k++) {
        printf("ledger %s", names[k]);
        for (int axis = 0; axis < 3; axis++)
            print_wide(sums[k][axis]);
        putchar('\n');
    }
}

static void print_digest(lak_cloth *cloth, lak_hash name)
{
    lak_hash digest;
    lak_digest(cloth, name, &digest);
    for (int k = 0; k < 32; k++)
        printf("%02x", digest.bytes[k]);
    putchar('\n');
}

static void play(lak_cloth *cloth, const char *line)
{
    char word[16] = "";
    int64_t n[4] = {0, 0, 0, 0};
    lak_left left = {0, 0, 0};
    int found = sscanf(line, "%15s %" SCNd64 " %" SCNd64 " %" SCNd64 " %" SCNd64, word, &n[0], &n[1], &n[2], &n[3]);
    if (found < 1 || word[0] == '#')
        return;
    if (strcmp(word, "step") == 0 && found == 2)
        print_reply(lak_step(cloth, (uint64_t)n[0], &left), &left);
    else if (strcmp(word, "frame") == 0 && found == 1)
        print_frame(cloth);
    else if (strcmp(word, "ledger") == 0 && found == 1)
        print_ledger(cloth);
    else if (strcmp(word, "pin") == 0 && found == 2)
        print_reply(lak_pin(cloth, (uint64_t)n[0]), &left);
    else if (strcmp(word, "unpin") == 0 && found == 2)
        print_reply(lak_unpin(cloth, (uint64_t)n[0]), &left);
    else if (strcmp(word, "move") == 0 && found == 5)
        print_reply(lak_move(cloth, (uint64_t)n[0], (lak_vec3) {n[1], n[2], n[3]}), &left);
    else if (strcmp(word, "cut") == 0 && found == 2)
        print_reply(lak_cut(cloth, (uint64_t)n[0]), &left);
    else if (strcmp(word, "gravity") == 0 && found == 4)
        print_reply(lak_gravity(cloth, (lak_vec3) {n[0], n[1], n[2]}), &left);
    else
        print_reply(LAK_BAD_COMMAND, &left);
}

/* Plays lines, and prints the digest wherever so many steps more were taken: after one command, where that steps past. */
static void play_for_digests(lak_cloth *cloth, lak_hash name, char *script, uint64_t every)
{
    lak_counts_of_world counts;
    uint64_t next = every;
    for (char *line = strtok(script, "\n"); line; line = strtok(NULL, "\n")) {
        play(cloth, line);
        lak_counts(cloth, &counts);
        if (counts.steps < next)
            continue;
        print_digest(cloth, name);
        next = counts.steps + every;
    }
}

int main(int argc, char **argv)
{
    lak_cloth cloth = {0};
    lak_fault fault;
    lak_hash name;
    size_t length = fread(text, 1, sizeof text - 1, stdin);
    char *script = strstr((char *)text, "\n%%\n");
    int32_t answer;
    (void)length;
    if (!script)
        return 5;
    length = (size_t)(script + 1 - (char *)text);
    answer = lak_open(&cloth, text, length, 0, &fault);
    if (answer == LAK_SCENE_REFUSED)
        printf("error 8 SceneRefused %u %s %s %" PRIu32 " %s\n", fault.rule, lak_rule_name(fault.rule), lak_table_name(fault.table),
               fault.position, lak_key_name(fault.key));
    if (answer != LAK_DONE)
        return answer - 32; /* as the program's */
    lak_scene_name(&cloth, &name);
    quiet = argc > 1;
    if (quiet)
        play_for_digests(&cloth, name, script + 4, strtoull(argv[1], NULL, 10));
    else
        for (char *line = strtok(script + 4, "\n"); line; line = strtok(NULL, "\n"))
            play(&cloth, line);
    lak_close(&cloth);
    return 0;
}
