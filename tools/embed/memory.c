/*
 * What takes memory, and what happens where there is none. Linked with -Wl,--wrap=malloc,--wrap=realloc,--wrap=free, so that each
 * request can be counted, and made to fail: opening, recording, replaying and cutting a mesh into triangles have each of theirs
 * fail in turn, and must give back what they took; no other call makes one.
 */
#include "lakmozet.h"

#include <stdio.h>
#include <stdlib.h>
#include <string.h>

void *__real_malloc(size_t size);
void *__real_realloc(void *at, size_t size);
void __real_free(void *at);
void *__wrap_malloc(size_t size);
void *__wrap_realloc(void *at, size_t size);
void __wrap_free(void *at);

enum { LOG_ROOM = 65536 };

static unsigned long requests, fails_at;
static long blocks;

void *__wrap_malloc(size_t size)
{
    void *at = ++requests == fails_at ? NULL : __real_malloc(size);
    blocks += at != NULL;
    return at;
}

void *__wrap_realloc(void *at, size_t size)
{
    void *now = ++requests == fails_at ? NULL : __real_realloc(at, size);
    blocks += now != NULL && at == NULL;
    return now;
}

void __wrap_free(void *at)
{
    blocks -= at != NULL;
    __real_free(at);
}

static void must(bool test, const char *what)
{
    if (!test) {
        printf("memory: not so: %s\n", what);
        exit(1);
    }
}

static const char scene[] =
    "gravity = [0, -179, 0]\npasses = 4\nthickness = 3000\npins = [0, 7]\n"
    "[[cloth]]\norigin = [0, 65536, 0]\nacross = [6554, 0, 0]\ndown = [0, 0, 6554]\nrows = 8\ncolumns = 8\nstretch_tear = 9000\n"
    "[[sphere]]\ncentre = [20000, 0, 20000]\nradius = 40000\n";
static const char script[] = "step 3\nframe\ncut 5\n";

static int32_t open_it(lak_cloth *cloth)
{
    lak_fault fault;
    return lak_open(cloth, (const uint8_t *)scene, strlen(scene), 4, &fault);
}

/* Two triangles. */
static const lak_vec3 vertices[] = {{0, 0, 0}, {6554, 0, 0}, {0, 6554, 0}, {6554, 6554, 0}};
static const uint32_t sizes[] = {3, 3}, corners[] = {0, 1, 2, 2, 1, 3};

/* The scene with the triangles behind it, which a bend link joins. */
static int32_t open_mesh(lak_cloth *cloth)
{
    static const lak_mesh_settings settings = {0, 0, 0, 1, 256, 256, 64, 1};
    lak_fault fault;
    lak_mesh_fault mesh_fault;
    return lak_open_mesh(cloth, (const uint8_t *)scene, strlen(scene), vertices, 4, sizes, 2, corners, 6, settings, 4, &fault, &mesh_fault);
}

static int32_t record_it(uint8_t *log, size_t *written)
{
    return lak_record((const uint8_t *)scene, strlen(scene), (const uint8_t *)script, strlen(script), log, LOG_ROOM, written);
}

/* Each request of opening fails once: the handle stays closed, and all is given back. Returns how many there are. */
static unsigned long open_without_memory(int32_t (*open)(lak_cloth *))
{
    lak_cloth cloth = {0};
    for (unsigned long n = 1;; n++) {
        requests = 0, fails_at = n;
        int32_t answer = open(&cloth);
        fails_at = 0;
        if (answer == LAK_DONE) {
            lak_close(&cloth);
            must(blocks == 0, "closing gives all back");
            return n - 1;
        }
        must(answer == LAK_OUT_OF_MEMORY && !cloth.full && blocks == 0, "a failed opening leaves nothing");
    }
}

static unsigned long record_without_memory(void)
{
    static uint8_t log[LOG_ROOM];
    for (unsigned long n = 1;; n++) {
        size_t written = 7;
        requests = 0, fails_at = n;
        int32_t answer = record_it(log, &written);
        fails_at = 0;
        must(blocks == 0, "recording gives all back");
        if (answer == LAK_DONE)
            return n - 1;
        must(answer == LAK_OUT_OF_MEMORY && written == 0, "a failed record writes nothing");
    }
}

/* Each request of a replay fails once: nothing is written, and all is given back. Returns how many there are. */
static unsigned long replay_without_memory(void)
{
    static uint8_t log[LOG_ROOM], output[65536];
    size_t length, written;
    lak_stop stop;
    requests = 0;
    must(record_it(log, &length) == LAK_DONE, "it records");
    for (unsigned long n = 1;; n++) {
        written = 7;
        requests = 0, fails_at = n;
        int32_t answer = lak_replay(log, length, output, sizeof output, &written, &stop);
        fails_at = 0;
        must(blocks == 0, "replaying gives all back");
        if (answer == LAK_DONE)
            return n - 1;
        must(answer == LAK_OUT_OF_MEMORY && written == 0, "a failed replay writes nothing");
    }
}

/* Each request of cutting a mesh fails once: nothing is written, and all is given back. Returns how many there are. */
static unsigned long cut_without_memory(void)
{
    uint32_t into[2][3];
    for (unsigned long n = 1;; n++) {
        size_t count = 7;
        lak_mesh_fault fault = {7, 7};
        memset(into, 7, sizeof into);
        requests = 0, fails_at = n;
        int32_t answer = lak_mesh_triangles(vertices, 4, sizes, 2, corners, 6, into, 2, &count, &fault);
        fails_at = 0;
        must(blocks == 0, "cutting gives all back");
        if (answer == LAK_DONE) {
            must(count == 2 && memcmp(into, corners, sizeof into) == 0, "triangles are as they are");
            return n - 1;
        }
        must(answer == LAK_OUT_OF_MEMORY && count == 7 && into[0][0] == 0x07070707, "failed cutting writes nothing");
        must(fault.number == 0 && fault.rule == 0, "want of memory is no fault");
    }
}

/* What a program reads of a cloth, each list once. */
static void read_all(lak_cloth *cloth)
{
    static lak_vec3 places[64];
    static lak_link links[4096];
    static uint8_t bytes[4096];
    static uint32_t gone[4096];
    lak_sums_of_world sums;
    lak_counts_of_world counts;
    lak_ledger_of_world ledger;
    lak_vec3 gravity;
    uint32_t count, link;
    uint64_t contacts;
    must(lak_sums(cloth, &sums) == LAK_DONE && lak_counts(cloth, &counts) == LAK_DONE, "it reads");
    must(lak_places(cloth, places, 64, &count) == LAK_DONE && lak_places_before(cloth, places, 64, &count) == LAK_DONE, "it reads");
    must(lak_live(cloth, bytes, 4096, &count) == LAK_DONE && lak_gone_since(cloth, 0, gone, 4096, &count) == LAK_DONE, "it reads");
    must(lak_held(cloth, bytes, 4096, &count) == LAK_DONE && lak_links(cloth, links, 4096, &count) == LAK_DONE, "it reads");
    must(lak_link_between(cloth, links[5].b, links[5].a, &link) == LAK_DONE && link == 5, "it finds a link");
    must(lak_link_between(cloth, 3, 3, &link) == LAK_NO_LINK, "it finds no link");
    must(lak_gravity_now(cloth, &gravity) == LAK_DONE && lak_ledger(cloth, &ledger) == LAK_DONE, "it reads");
    must(lak_contacts(cloth, &contacts) == LAK_DONE && contacts == counts.contacts, "it reads");
}

/* Writes a state, hashes it, and reads it back, and bytes that are none. */
static void write_and_read(lak_cloth *cloth)
{
    static uint8_t state[65536];
    lak_hash name, digest;
    size_t size, written;
    uint64_t offset, sum;
    must(lak_scene_name(cloth, &name) == LAK_DONE && lak_checksum(cloth, &sum) == LAK_DONE, "a name and a checksum");
    must(lak_digest_slot(cloth, 0, name, &digest) == LAK_DONE && lak_checksum_slot(cloth, 0, &sum) == LAK_DONE, "those of a slot");
    must(lak_state_size(cloth, &size) == LAK_DONE && lak_digest(cloth, name, &digest) == LAK_DONE, "a size and a digest");
    must(lak_state_write(cloth, name, state, sizeof state, &written) == LAK_DONE && written == size, "a state is written");
    must(lak_state_read(cloth, name, state, size, &offset) == LAK_DONE, "a state is read");
    must(lak_state_read(cloth, name, state, size - 1, &offset) == LAK_NO_STATE, "a part of a state is none");
}

/* No call on an open handle makes a request. */
static void play_without_memory(void)
{
    static const uint32_t stroke[] = {0, 90, 91, 90};
    lak_cloth cloth = {0};
    lak_left left;
    size_t refused;
    must(open_it(&cloth) == LAK_DONE, "it opens");
    requests = 0;
    for (int i = 0; i < 60; i++) {
        must(lak_save(&cloth, (uint32_t)i % 4) == LAK_DONE && lak_step(&cloth, 3, &left) == LAK_DONE, "it steps");
        must(lak_move(&cloth, 0, (lak_vec3) {i * 300, 65536 + i * 100, 0}) == LAK_DONE, "it moves");
        lak_cut(&cloth, (uint64_t)i * 5);
        must(lak_pin(&cloth, 20) == LAK_DONE && lak_unpin(&cloth, 20) == LAK_DONE, "it pins");
        must(lak_cut_many(&cloth, stroke, 4, &refused) == LAK_DONE && refused >= 1, "it cuts many");
        must(lak_gravity(&cloth, (lak_vec3) {i, -179, 0}) == LAK_DONE, "it sets gravity");
        read_all(&cloth);
        write_and_read(&cloth);
        if (i % 7 == 0)
            must(lak_restore(&cloth, (uint32_t)i % 4) == LAK_DONE, "it goes back");
    }
    must(requests == 0, "no call on an open handle takes memory");
    lak_close(&cloth);
    must(blocks == 0, "closing gives all back");
}

int main(void)
{
    unsigned long opening = open_without_memory(open_it), meshes = open_without_memory(open_mesh);
    unsigned long recording = record_without_memory(), replaying = replay_without_memory(), cutting = cut_without_memory();
    play_without_memory();
    printf("memory: %lu requests of an opening, %lu of one with a mesh, %lu of a record, %lu of a replay and %lu of cutting a mesh "
           "failed in turn; the other calls make none\n",
           opening, meshes, recording, replaying, cutting);
    return 0;
}
