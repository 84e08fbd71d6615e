/*
 * Two players play a game with rollback (rollback.c), and a third joins them late, on a machine of its own: a second process, at
 * the other end of two pipes. It opens the scene, reads the state of a world that is confirmed, of which all inputs are known, and
 * plays on from there as the others do. In each turn since, the digests that all three have of the confirmed world are compared.
 * At the end the world is kept in a file, as a saved game, and read from it.
 *
 * What comes from another machine is looked at before it is played: the length of a state is that of the own scene's, its bytes
 * are refused by lak_state_read where they are no state, and inputs beyond REACH are left out, by all machines alike.
 */
#define _POSIX_C_SOURCE 200809L
#include "lakmozet.h"

#include <stdio.h>
#include <stdlib.h>
#include <string.h>
#include <sys/wait.h>
#include <unistd.h>

enum { PLAYERS = 3, TURNS = 40, JOINS = 12, STEPS = 2, LATE = 5, SLOTS = 8, SPARE = SLOTS, REACH = 64 * 65536 };

/* A cloth that hangs from three of its corners over a ball. Each player moves one of them. */
static const char scene[] =
    "gravity = [0, -179, 0]\n"
    "passes = 4\n"
    "thickness = 3000\n"
    "pins = [0, 7, 56]\n"
    "[[cloth]]\n"
    "origin = [0, 131072, 0]\n"
    "across = [6554, 0, 0]\n"
    "down = [0, 0, 6554]\n"
    "rows = 8\n"
    "columns = 8\n"
    "[[sphere]]\n"
    "centre = [23000, 98304, 23000]\n"
    "radius = 26000\n";

static const lak_vec3 corners[PLAYERS] = {{0, 131072, 0}, {45878, 131072, 0}, {0, 131072, 45878}};
static const uint64_t pins[PLAYERS] = {0, 7, 56};

/* What a player does in a turn: moves its corner, and cuts a link, or none, -1. One that isn't known is guessed to be nothing. */
typedef struct {
    int64_t known, cut;
    lak_vec3 to;
} input;

/* A player's machine: its world, what it knows of each turn, and how many turns the world has. */
typedef struct {
    lak_cloth cloth;
    lak_hash name;
    int player, played;
    input turns[TURNS][PLAYERS];
} machine;

/* What the third player sends in a turn. (a pipe has these as they are in memory; between machines, write number by number) */
typedef struct {
    input own;
    lak_hash confirmed;
} message;

/* The ends of two pipes, of which one comes and one goes. */
typedef struct {
    FILE *in, *out;
} wire;

/* Ends the game where something isn't as it must be. */
static void must(bool is_so, const char *what)
{
    if (!is_so) {
        fprintf(stderr, "not so: %s\n", what);
        exit(1);
    }
}

static void open_scene(machine *it, int player)
{
    lak_fault fault;
    must(lak_open(&it->cloth, (const uint8_t *)scene, strlen(scene), SLOTS + 1, &fault) == LAK_DONE, "the scene is opened");
    must(lak_scene_name(&it->cloth, &it->name) == LAK_DONE, "the scene is named");
    it->player = player;
}

static int64_t draw(uint32_t *state, uint32_t below)
{
    *state ^= *state << 13;
    *state ^= *state >> 17;
    *state ^= *state << 5;
    return *state % below;
}

static input drawn(uint32_t *state, int player)
{
    const lak_vec3 at = corners[player];
    input it = {1, -1, {at.x + draw(state, 20001) - 10000, at.y + draw(state, 8001) - 4000, at.z}};
    if (draw(state, 8) == 0)
        it.cut = draw(state, 300);
    return it;
}

static bool is_bounded(lak_vec3 to)
{
    return -REACH <= to.x && to.x <= REACH && -REACH <= to.y && to.y <= REACH && -REACH <= to.z && to.z <= REACH;
}

/* Saves the world before a turn, and plays what is known of it. What is refused is, on all machines alike. */
static void play_turn(machine *it, int turn)
{
    lak_left left;
    lak_save(&it->cloth, turn % SLOTS);
    for (int player = 0; player < PLAYERS; player++) {
        const input *move = &it->turns[turn][player];
        if (!move->known || !is_bounded(move->to))
            continue;
        lak_move(&it->cloth, pins[player], move->to);
        if (move->cut >= 0)
            lak_cut(&it->cloth, (uint64_t)move->cut);
    }
    lak_step(&it->cloth, STEPS, &left);
}

/* A turn comes: the machine learns all inputs of LATE turns ago and plays from there once more, and then plays its own input. */
static void take_turn(machine *it, int now, input sent[][PLAYERS])
{
    if (now >= LATE) {
        memcpy(it->turns[now - LATE], sent[now - LATE], sizeof it->turns[0]);
        lak_restore(&it->cloth, (now - LATE) % SLOTS);
        for (int turn = now - LATE; turn < it->played; turn++)
            play_turn(it, turn);
    }
    if (now < TURNS) {
        it->turns[now][it->player] = sent[now][it->player];
        play_turn(it, now);
        it->played = now + 1;
    }
}

/* Goes to the world that is confirmed, the one before the first turn whose inputs aren't all there; go_on() leaves it. */
static void go_to_confirmed(machine *it, int now)
{
    const int turn = now - LATE + 1;
    lak_save(&it->cloth, SPARE);
    if (turn < it->played)
        lak_restore(&it->cloth, turn % SLOTS);
}

static void go_on(machine *it)
{
    lak_restore(&it->cloth, SPARE);
}

static lak_hash digest(machine *it)
{
    lak_hash digest;
    must(lak_digest(&it->cloth, it->name, &digest) == LAK_DONE, "a digest");
    return digest;
}

/* The digest of the confirmed world, which is that of a slot, where it isn't the one that is played. */
static lak_hash confirmed_digest(machine *it, int now)
{
    const int turn = now - LATE + 1;
    lak_hash confirmed;
    if (turn == it->played)
        return digest(it);
    must(lak_digest_slot(&it->cloth, (uint32_t)turn % SLOTS, it->name, &confirmed) == LAK_DONE, "a digest of a slot");
    return confirmed;
}

/* Writes the state of the world, and returns how many bytes it has: those of any world of the scene. */
static size_t write_state(machine *it, uint8_t *state, size_t room)
{
    size_t size;
    must(lak_state_write(&it->cloth, it->name, state, room, &size) == LAK_DONE, "a state");
    return size;
}

/* Goes over to the world whose state the bytes are. */
static void read_state(machine *it, const uint8_t *state, size_t size)
{
    uint64_t offset;
    must(lak_state_read(&it->cloth, it->name, state, size, &offset) == LAK_DONE, "the bytes are a state of the scene");
}

/* ---- the wire */

static wire open_wire(const int in[2], const int out[2])
{
    const wire it = {fdopen(in[0], "rb"), fdopen(out[1], "wb")};
    must(it.in && it.out && close(in[1]) == 0 && close(out[0]) == 0, "the wire is there");
    return it;
}

static void put(wire to, const void *bytes, size_t length)
{
    must(fwrite(bytes, 1, length, to.out) == length && fflush(to.out) == 0, "the other end hears");
}

static void get(wire from, void *bytes, size_t length)
{
    must(fread(bytes, 1, length, from.in) == length, "the other end speaks");
}

/* The third player, a process that has nothing but its ends of the pipes. Which turn the state is of, its steps say. */
static void join(wire host)
{
    static machine it;
    static input sent[TURNS + LATE][PLAYERS];
    static uint8_t state[1 << 14];
    uint32_t numbers = 54321;
    size_t size;
    lak_counts_of_world counts;
    open_scene(&it, 2);
    must(lak_state_size(&it.cloth, &size) == LAK_DONE && size <= sizeof state, "there is room for a state");
    get(host, state, size);
    read_state(&it, state, size);
    must(lak_counts(&it.cloth, &counts) == LAK_DONE && counts.steps == (JOINS - LATE + 1) * STEPS, "the world is the confirmed one");
    for (it.played = JOINS - LATE + 1; it.played <= JOINS; it.played++)
        play_turn(&it, it.played);
    for (int now = JOINS + 1; now < TURNS + LATE; now++) {
        sent[now][2] = drawn(&numbers, 2);
        get(host, sent[now - LATE], 2 * sizeof(input));
        take_turn(&it, now, sent);
        const message up = {sent[now][2], confirmed_digest(&it, now)};
        put(host, &up, sizeof up);
    }
    lak_close(&it.cloth);
}

/* A turn with the third player: it gets the others' inputs of LATE turns ago, and sends its own and what it has for confirmed. */
static void meet(wire third, int now, input sent[][PLAYERS], machine machines[2])
{
    message up;
    put(third, sent[now - LATE], 2 * sizeof(input));
    get(third, &up, sizeof up);
    sent[now][2] = up.own;
    for (int player = 0; player < 2; player++) {
        const lak_hash confirmed = confirmed_digest(&machines[player], now);
        must(memcmp(&confirmed, &up.confirmed, sizeof confirmed) == 0, "the digests are equal");
    }
}

/* Plays the game, which the third player joins, and returns in how many turns all three digests were equal: in all since. */
static int play(machine machines[2], wire third)
{
    static input sent[TURNS + LATE][PLAYERS];
    static uint8_t state[1 << 14];
    uint32_t numbers = 12345;
    for (int now = 0; now < TURNS + LATE; now++) {
        for (int player = 0; player < 2; player++) {
            sent[now][player] = drawn(&numbers, player);
            take_turn(&machines[player], now, sent);
        }
        if (now == JOINS) {
            go_to_confirmed(&machines[0], now);
            put(third, state, write_state(&machines[0], state, sizeof state));
            go_on(&machines[0]);
        } else if (now > JOINS)
            meet(third, now, sent, machines);
    }
    return TURNS + LATE - JOINS - 1;
}

/* Keeps a world in a file, and reads it into another machine. */
static void save_and_load(machine *from, machine *to, FILE *file)
{
    static uint8_t state[1 << 14];
    const size_t size = write_state(from, state, sizeof state);
    must(file && fwrite(state, 1, size, file) == size && fflush(file) == 0, "the file is written");
    memset(state, 0, sizeof state);
    rewind(file);
    must(fread(state, 1, sizeof state, file) == size && fclose(file) == 0, "the file is read");
    read_state(to, state, size);
}

int main(int count, char **words)
{
    static machine machines[2], loaded;
    int down[2], up[2], status;
    must(pipe(down) == 0 && pipe(up) == 0, "two pipes");
    const pid_t child = fork();
    must(child >= 0, "a second process");
    if (child == 0) {
        join(open_wire(down, up));
        return 0;
    }
    const wire third = open_wire(up, down);
    for (int player = 0; player < 2; player++)
        open_scene(&machines[player], player);
    const int equal = play(machines, third);
    must(waitpid(child, &status, 0) == child && WIFEXITED(status) && WEXITSTATUS(status) == 0, "the third player ends well");
    printf("a third player joined in turn %d, and in %d turns since all three digests were equal\n", JOINS, equal);
    open_scene(&loaded, 0);
    save_and_load(&machines[0], &loaded, count > 1 ? fopen(words[1], "w+b") : tmpfile());
    const lak_hash saved = digest(&machines[1]), read = digest(&loaded);
    must(memcmp(&saved, &read, sizeof saved) == 0, "the saved game has the digest of the world");
    puts("the game was saved, and what was read has the same digest");
    for (int player = 0; player < 2; player++)
        lak_close(&machines[player].cloth);
    lak_close(&loaded.cloth);
    return 0;
}
