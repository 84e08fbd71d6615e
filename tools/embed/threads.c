/*
 * One handle on many threads, by one call at a time. It is opened on one thread, played on by two others, which hand it to each
 * other turn by turn, looked at on a fourth and closed on a fifth; meanwhile each of the two plays a world of its own as well.
 * All come to the world that one thread plays to. Built with -pthread, it is also run with gcc's thread sanitizer and under
 * helgrind, which tell what two threads use with nothing between; the second sees what the library does, too.
 */
#define _POSIX_C_SOURCE 200809L
#include "lakmozet.h"

#include <pthread.h>
#include <stdio.h>
#include <stdlib.h>
#include <string.h>

enum { TURNS = 12, SLOTS = 2, ROOM = 8192 };

static const char scene[] =
    "gravity = [0, -179, 0]\npasses = 4\nthickness = 3000\npins = [0, 5]\n"
    "[[cloth]]\norigin = [0, 65536, 0]\nacross = [6554, 0, 0]\ndown = [0, 0, 6554]\nrows = 6\ncolumns = 6\nstretch_tear = 9000\n"
    "[[sphere]]\ncentre = [16000, 0, 16000]\nradius = 40000\n";
static const char script[] = "step 3\nframe\ncut 5\n";

static void must(bool test, const char *what)
{
    if (!test) {
        printf("threads: not so: %s\n", what);
        exit(1);
    }
}

static void open_it(lak_cloth *cloth)
{
    lak_fault fault;
    must(lak_open(cloth, (const uint8_t *)scene, strlen(scene), SLOTS, &fault) == LAK_DONE, "the scene is opened");
}

static lak_hash digest_of(lak_cloth *cloth)
{
    lak_hash name, digest;
    must(lak_scene_name(cloth, &name) == LAK_DONE, "a name");
    must(lak_digest(cloth, name, &digest) == LAK_DONE, "a digest");
    return digest;
}

/* A turn, with a guess that is taken back, and a world that is written and read. */
static void play(lak_cloth *cloth, int turn)
{
    uint8_t state[ROOM];
    lak_vec3 places[36];
    lak_hash name;
    lak_left left;
    size_t size;
    uint32_t count;
    uint64_t offset;
    must(lak_save(cloth, 1) == LAK_DONE && lak_step(cloth, 1, &left) == LAK_DONE && lak_restore(cloth, 1) == LAK_DONE, "a guess");
    must(lak_move(cloth, 0, (lak_vec3) {turn * -300, 65536 + turn * 100, 0}) == LAK_DONE, "a move");
    lak_cut(cloth, (uint64_t)turn * 3);
    must(lak_step(cloth, 2, &left) == LAK_DONE && lak_places(cloth, places, 36, &count) == LAK_DONE, "steps");
    must(lak_scene_name(cloth, &name) == LAK_DONE, "a name");
    must(lak_state_write(cloth, name, state, sizeof state, &size) == LAK_DONE, "a state is written");
    must(lak_restore(cloth, 0) == LAK_DONE && lak_state_read(cloth, name, state, size, &offset) == LAK_DONE, "and read");
}

/* The digest of a world that this thread opens, plays and closes. */
static lak_hash alone(void)
{
    lak_cloth cloth = {0};
    open_it(&cloth);
    for (int turn = 0; turn < TURNS; turn++)
        play(&cloth, turn);
    const lak_hash digest = digest_of(&cloth);
    lak_close(&cloth);
    return digest;
}

/* ---- the handle that is handed over */

static lak_cloth shared;
static int played;
static pthread_mutex_t lock = PTHREAD_MUTEX_INITIALIZER;
static pthread_cond_t handed = PTHREAD_COND_INITIALIZER;

static void *opens(void *nothing)
{
    open_it(&shared);
    return nothing;
}

static void *closes(void *nothing)
{
    lak_close(&shared);
    return nothing;
}

/* Plays every second turn of the shared world, the first player the even ones, and then a world of its own. */
static void *plays(void *first)
{
    static uint8_t logs[2][1 << 16];
    uint8_t *log = logs[first != NULL];
    size_t written;
    for (int turn = first != NULL ? 0 : 1; turn < TURNS; turn += 2) {
        pthread_mutex_lock(&lock);
        while (played != turn)
            pthread_cond_wait(&handed, &lock);
        pthread_mutex_unlock(&lock);
        play(&shared, turn);
        pthread_mutex_lock(&lock);
        played = turn + 1;
        pthread_cond_broadcast(&handed);
        pthread_mutex_unlock(&lock);
        must(lak_record((const uint8_t *)scene, strlen(scene), (const uint8_t *)script, strlen(script), log, 1 << 16, &written) == LAK_DONE,
             "a record");
    }
    lak_hash *digest = malloc(sizeof *digest);
    must(digest != NULL, "memory");
    *digest = alone();
    return digest;
}

static void on_a_thread(void *(*does)(void *))
{
    pthread_t thread;
    must(pthread_create(&thread, NULL, does, NULL) == 0 && pthread_join(thread, NULL) == 0, "a thread");
}

int main(void)
{
    pthread_t players[2];
    const lak_hash wanted = alone();
    on_a_thread(opens);
    for (int i = 0; i < 2; i++)
        must(pthread_create(&players[i], NULL, plays, i == 0 ? &shared : NULL) == 0, "a thread");
    for (int i = 0; i < 2; i++) {
        void *own;
        must(pthread_join(players[i], &own) == 0, "a thread ends");
        must(memcmp(own, &wanted, sizeof wanted) == 0, "a thread's own world");
        free(own);
    }
    const lak_hash digest = digest_of(&shared);
    must(memcmp(&digest, &wanted, sizeof wanted) == 0, "the world that was handed over");
    on_a_thread(closes);
    puts("threads: a handle that was handed over has the world of one thread");
    return 0;
}
