/* Calls each function of the header, as C and as C++, and looks at each kind of answer. */
#include "lakmozet_lines.h"

#include <stdio.h>
#include <stdlib.h>
#include <string.h>

#define MUST(test) \
    do { \
        if (!(test)) { \
            printf("calls.c, line %d: not so: %s\n", __LINE__, #test); \
            exit(1); \
        } \
    } while (0)

static const char scene[] =
    "gravity = [0, -179, 0]\npasses = 4\npins = [0]\n"
    "[[rope]]\norigin = [0, 131072, 0]\nspacing = [6554, 0, 0]\ncount = 4\n"
    "[[track]]\nparticle = 3\nkeys = [[0, 19662, 131072, 0], [1000, 19662, 131072, 0]]\n";
static int32_t open_text(lak_cloth *cloth, const char *text, uint32_t slots, lak_fault *fault)
{
    return lak_open(cloth, (const uint8_t *)text, strlen(text), slots, fault);
}

static lak_vec3 at(int64_t x, int64_t y, int64_t z)
{
    lak_vec3 it;
    it.x = x;
    it.y = y;
    it.z = z;
    return it;
}

static void closed_handles(void)
{
    lak_cloth cloth;
    lak_left left = {7, 7, 7};
    lak_counts_of_world counts;
    lak_sums_of_world sums;
    lak_vec3 place = at(7, 7, 7);
    uint32_t count = 7, number = 7;
    uint8_t byte = 7;
    size_t refused = 7;
    lak_link link = {7, 7, 7, 7, 7, 7, 7};
    lak_ledger_of_world ledger;
    uint64_t contacts = 7;
    memset(&ledger, 7, sizeof ledger);
    memset(&cloth, 0, sizeof cloth);
    MUST(lak_step(&cloth, 1, &left) == LAK_CLOSED && left.step == 0 && left.element == 0 && left.phase == 0);
    MUST(lak_pin(&cloth, 0) == LAK_CLOSED && lak_unpin(&cloth, 0) == LAK_CLOSED && lak_cut(&cloth, 0) == LAK_CLOSED);
    MUST(lak_move(&cloth, 0, place) == LAK_CLOSED && lak_gravity(&cloth, place) == LAK_CLOSED);
    MUST(lak_save(&cloth, 0) == LAK_CLOSED && lak_restore(&cloth, 0) == LAK_CLOSED);
    MUST(lak_counts(&cloth, &counts) == LAK_CLOSED && lak_sums(&cloth, &sums) == LAK_CLOSED);
    MUST(lak_places(&cloth, &place, 1, &count) == LAK_CLOSED && lak_places_before(&cloth, &place, 1, &count) == LAK_CLOSED);
    MUST(lak_live(&cloth, &byte, 1, &count) == LAK_CLOSED && lak_gone_since(&cloth, 0, &number, 1, &count) == LAK_CLOSED);
    MUST(lak_held(&cloth, &byte, 1, &count) == LAK_CLOSED && lak_links(&cloth, &link, 1, &count) == LAK_CLOSED);
    MUST(lak_cut_many(&cloth, &number, 1, &refused) == LAK_CLOSED && lak_link_between(&cloth, 0, 1, &number) == LAK_CLOSED);
    MUST(lak_gravity_now(&cloth, &place) == LAK_CLOSED && lak_ledger(&cloth, &ledger) == LAK_CLOSED);
    MUST(lak_contacts(&cloth, &contacts) == LAK_CLOSED && contacts == 7);
    MUST(count == 7 && number == 7 && byte == 7 && place.x == 7 && refused == 7 && link.rest == 7);
    MUST(ledger.momentum[0].low == 0x0707070707070707);
    lak_close(&cloth);
    MUST(cloth.at == NULL && !cloth.full);
}

static void wrong_scenes(void)
{
    lak_cloth cloth;
    lak_fault fault = {7, 7, 7, 7, 7};
    memset(&cloth, 0, sizeof cloth);
    MUST(open_text(&cloth, "", 17, &fault) == LAK_NO_SLOT && fault.rule == 0 && fault.position == 0);
    MUST(lak_open(&cloth, (const uint8_t *)"\xff", 1, 0, &fault) == LAK_SCENE_NOT_TEXT && fault.rule == 0);
    MUST(open_text(&cloth, "= 1", 0, &fault) == LAK_SCENE_NOT_TOML && fault.rule == 0 && fault.offset == 0);
    MUST(open_text(&cloth, "gravity = [0, 0, 0]\npasses = 8 8\n", 0, &fault) == LAK_SCENE_NOT_TOML && fault.offset == 29);
    MUST(open_text(&cloth, "[[particle]]\nat = [0, 0, 0]\n[[particle]]\nat = 5\n", 0, &fault) == LAK_SCENE_REFUSED);
    MUST(strcmp(lak_rule_name(fault.rule), "WrongType") == 0 && strcmp(lak_table_name(fault.table), "particle") == 0);
    MUST(fault.position == 1 && strcmp(lak_key_name(fault.key), "at") == 0 && fault.offset == 0);
    MUST(!cloth.full && lak_pin(&cloth, 0) == LAK_CLOSED);
}

/* A mesh of two triangles that share an edge, whose far corners a bend link joins. */
static const lak_vec3 vertices[] = {{0, 0, 0}, {65536, 0, 0}, {0, 65536, 0}, {65536, 65536, 0}};
static const uint32_t sizes[] = {3, 3}, corners[] = {0, 1, 2, 2, 1, 3};
static const lak_mesh_settings bending = {0, 0, 90000, 2, 256, 256, 128, 1};

/* Opens the four particles of the scene with a mesh behind them, whose two faces have these corners. */
static int32_t open_mesh(lak_cloth *cloth, const lak_vec3 *places, const uint32_t *numbers, size_t count, lak_mesh_settings settings,
                         lak_mesh_fault *mesh_fault)
{
    lak_fault fault = {7, 7, 7, 7, 7};
    int32_t answer = lak_open_mesh(cloth, (const uint8_t *)scene, strlen(scene), places, 4, sizes, 2, numbers, count, settings, 1,
                                   &fault, mesh_fault);
    const int left = answer == LAK_DONE || answer == LAK_IN_USE ? 7 : 0;
    MUST(fault.offset == (uint64_t)left && fault.position == (uint32_t)left && fault.rule == left);
    return answer;
}

static void meshes(void)
{
    lak_cloth cloth, plain;
    lak_mesh_fault mesh_fault = {7, 7};
    lak_counts_of_world counts, before;
    lak_fault fault;
    lak_link all[16];
    lak_vec3 places[8];
    lak_left left;
    uint32_t count = 0, number = 7;
    memset(&cloth, 0, sizeof cloth);
    memset(&plain, 0, sizeof plain);
    MUST(open_text(&plain, scene, 0, &fault) == LAK_DONE && lak_counts(&plain, &before) == LAK_DONE);
    lak_close(&plain);
    MUST(open_mesh(&cloth, vertices, corners, 6, bending, &mesh_fault) == LAK_DONE);
    MUST(open_mesh(&cloth, vertices, corners, 6, bending, &mesh_fault) == LAK_IN_USE && mesh_fault.number == 7 && mesh_fault.rule == 7);
    MUST(lak_counts(&cloth, &counts) == LAK_DONE && counts.particles == 8 && counts.slots == 1 && counts.steps == 0);
    MUST(counts.links == before.links + 6 && counts.live == counts.links && counts.links <= 16);
    MUST(lak_places(&cloth, places, 8, &count) == LAK_DONE && memcmp(places + 4, vertices, sizeof vertices) == 0);
    MUST(lak_links(&cloth, all, 16, &count) == LAK_DONE && count == counts.links);
    MUST(lak_link_between(&cloth, 5, 4, &number) == LAK_DONE && number == before.links);
    MUST(all[number].stiffness == 256 && all[number].kind == 0 && all[number].rest == 65536 && all[number].tear == 0);
    MUST(lak_link_between(&cloth, 4, 7, &number) == LAK_DONE && number == counts.links - 1);
    MUST(all[number].stiffness == 128 && all[number].kind == 2 && all[number].rest == 92681 && all[number].tear == 90000);
    MUST(lak_step(&cloth, 1, &left) == LAK_DONE);
    MUST(lak_counts(&cloth, &counts) == LAK_DONE && counts.live == counts.links - 1);
    lak_close(&cloth);
}

/* Whether a mesh is refused, by the name of its rule and at this vertex or face. */
static bool is_refused(const lak_vec3 *places, const uint32_t *numbers, size_t count, lak_mesh_settings settings, const char *rule,
                       uint64_t number)
{
    lak_cloth cloth;
    lak_mesh_fault fault = {7, 7};
    memset(&cloth, 0, sizeof cloth);
    return open_mesh(&cloth, places, numbers, count, settings, &fault) == LAK_MESH_REFUSED && !cloth.full && fault.number == number &&
           strcmp(lak_mesh_rule_name(fault.rule), rule) == 0;
}

/* Sixteen triangles around vertex 1, of which each two share no vertex else, and one more. */
static void crowds(void)
{
    lak_cloth cloth;
    lak_vec3 around[40];
    uint32_t threes[17], fans[51];
    lak_fault fault;
    lak_mesh_fault mesh_fault = {7, 7};
    const uint8_t *none = (const uint8_t *)"";
    uint32_t i;
    memset(&cloth, 0, sizeof cloth);
    for (i = 0; i < 40; i++) around[i] = at(i, 0, 0);
    for (i = 0; i < 17; i++) threes[i] = 3, fans[3 * i] = 1, fans[3 * i + 1] = 2 * i + 2, fans[3 * i + 2] = 2 * i + 3;
    MUST(lak_open_mesh(&cloth, none, 0, around, 40, threes, 16, fans, 48, bending, 0, &fault, &mesh_fault) == LAK_DONE);
    lak_close(&cloth);
    MUST(lak_open_mesh(&cloth, none, 0, around, 40, threes, 17, fans, 51, bending, 0, &fault, &mesh_fault) == LAK_MESH_REFUSED);
    MUST(mesh_fault.number == 1 && strcmp(lak_mesh_rule_name(mesh_fault.rule), "TooManyAtParticle") == 0);
}

static void too_many(void)
{
    lak_cloth cloth;
    lak_vec3 *places = (lak_vec3 *)calloc(65537, sizeof *places);
    lak_fault fault = {7, 7, 7, 7, 7};
    lak_mesh_fault mesh_fault = {7, 7};
    const uint8_t *none = (const uint8_t *)"";
    memset(&cloth, 0, sizeof cloth);
    MUST(places != NULL);
    MUST(lak_open_mesh(&cloth, none, 0, places, 65537, sizes, 0, corners, 0, bending, 0, &fault, &mesh_fault) == LAK_MESH_REFUSED);
    MUST(mesh_fault.number == 0 && strcmp(lak_mesh_rule_name(mesh_fault.rule), "TooMany") == 0 && fault.rule == 0);
    MUST(lak_open_mesh(&cloth, none, 0, places, 65536, sizes, 0, corners, 0, bending, 0, &fault, &mesh_fault) == LAK_DONE);
    lak_close(&cloth);
    MUST(lak_open_mesh(&cloth, none, 0, places, 1, sizes, 0, corners, 0, bending, 17, &fault, &mesh_fault) == LAK_NO_SLOT);
    MUST(mesh_fault.rule == 0 && fault.rule == 0);
    MUST(lak_open_mesh(&cloth, (const uint8_t *)"= 1", 3, places, 1, sizes, 1, corners, 0, bending, 0, &fault, &mesh_fault) ==
         LAK_SCENE_NOT_TOML);
    MUST(mesh_fault.rule == 0 && !cloth.full);
    free(places);
}

static void wrong_meshes(void)
{
    static const uint32_t twice[] = {0, 1, 2, 2, 1, 2}, outside[] = {0, 1, 2, 2, 1, 4};
    const lak_vec3 far[] = {{0, 0, 0}, {65536, 0, 0}, {0, 536870913, 0}, {0, 0, INT64_MIN}};
    lak_mesh_settings light = bending, stiff = bending, long_tear = bending, without = bending;
    lak_cloth cloth;
    lak_mesh_fault fault;
    light.weight = 0, stiff.bend = 257, without.bend = 257, without.bends = 0;
    long_tear.shear_tear = 2147483649;
    MUST(is_refused(vertices, corners, 6, light, "BadSettings", 0) && is_refused(vertices, corners, 6, stiff, "BadSettings", 0));
    MUST(is_refused(vertices, corners, 6, long_tear, "BadSettings", 0));
    MUST(is_refused(far, twice, 5, light, "BadSettings", 0) && is_refused(far, twice, 5, bending, "BadCount", 0));
    MUST(is_refused(far, twice, 6, bending, "OutOfRange", 2));
    MUST(is_refused(vertices, twice, 6, bending, "BadFace", 1) && is_refused(vertices, outside, 6, bending, "BadFace", 1));
    memset(&cloth, 0, sizeof cloth);
    MUST(open_mesh(&cloth, vertices, corners, 6, without, &fault) == LAK_DONE);
    lak_close(&cloth);
    MUST(strcmp(lak_mesh_rule_name(0), "-") == 0 && strcmp(lak_mesh_rule_name(7), "-") == 0);
}

/* Three particles, of which each two touch but the outer ones, until they were kept apart. */
static void contacts(void)
{
    static const char near[] = "thickness = 3000\n[[particle]]\nat = [0, 0, 0]\n[[particle]]\nat = [2000, 0, 0]\n"
                               "[[particle]]\nat = [4000, 0, 0]\n";
    lak_cloth cloth;
    lak_counts_of_world counts;
    lak_fault fault;
    lak_left left;
    uint64_t found = 7;
    memset(&cloth, 0, sizeof cloth);
    MUST(open_text(&cloth, near, 0, &fault) == LAK_DONE && lak_contacts(&cloth, &found) == LAK_DONE && found == 0);
    MUST(lak_step(&cloth, 1, &left) == LAK_DONE && lak_contacts(&cloth, &found) == LAK_DONE && found == 2);
    MUST(lak_counts(&cloth, &counts) == LAK_DONE && counts.contacts == found);
    lak_close(&cloth);
}

static void commands(lak_cloth *cloth)
{
    lak_left left = {7, 7, 7};
    MUST(lak_step(cloth, 1, &left) == LAK_DONE && left.step == 0);
    MUST(lak_step(cloth, 0, &left) == LAK_BAD_COUNT && lak_step(cloth, 100001, &left) == LAK_BAD_COUNT);
    MUST(lak_step(cloth, UINT64_MAX, &left) == LAK_BAD_COUNT);
    MUST(lak_pin(cloth, 4) == LAK_NO_PARTICLE && lak_pin(cloth, UINT64_MAX) == LAK_NO_PARTICLE);
    MUST(lak_pin(cloth, 0) == LAK_HELD && lak_pin(cloth, 1) == LAK_DONE && lak_unpin(cloth, 1) == LAK_DONE);
    MUST(lak_unpin(cloth, 1) == LAK_NOT_HELD && lak_unpin(cloth, 3) == LAK_TRACKED && lak_unpin(cloth, 9) == LAK_NO_PARTICLE);
    MUST(lak_move(cloth, 0, at(0, 131000, 0)) == LAK_DONE && lak_move(cloth, 3, at(0, 0, 0)) == LAK_TRACKED);
    MUST(lak_move(cloth, 0, at(INT64_MIN, 0, 0)) == LAK_OUT_OF_RANGE && lak_move(cloth, 2, at(0, 0, 0)) == LAK_NOT_HELD);
    MUST(lak_gravity(cloth, at(0, -100, 0)) == LAK_DONE && lak_gravity(cloth, at(0, 536870913, 0)) == LAK_OUT_OF_RANGE);
    MUST(lak_gravity(cloth, at(0, 536870912, 0)) == LAK_DONE);
    MUST(lak_step(cloth, 10, &left) == LAK_LEAVES_RANGE && left.step > 0 && left.phase == 1);
    MUST(lak_gravity(cloth, at(0, -179, 0)) == LAK_DONE);
}

/* The momentum is that at opening and the totals together. */
static void ledgers(lak_cloth *cloth)
{
    lak_ledger_of_world l;
    int axis;
    MUST(lak_ledger(cloth, &l) == LAK_DONE);
    for (axis = 0; axis < 3; axis++) {
        uint64_t low = l.opening[axis].low + l.gravity[axis].low + l.damping[axis].low + l.link[axis].low + l.contact[axis].low +
                       l.pin[axis].low + l.shape[axis].low;
        MUST(l.momentum[axis].low == low);
        MUST(l.momentum[axis].high == (l.momentum[axis].low >> 63 ? -1 : 0));
    }
    MUST(l.gravity[1].high == -1 && l.gravity[0].high == 0 && l.gravity[0].low == 0);
}

static void links(lak_cloth *cloth)
{
    static const uint32_t cuts[] = {0, 1, 0, 99};
    lak_counts_of_world counts;
    lak_link all[16];
    uint8_t held[5] = {7, 7, 7, 7, 7};
    uint32_t count = 0, number = 7;
    size_t refused = 7;
    lak_vec3 gravity;
    MUST(lak_counts(cloth, &counts) == LAK_DONE);
    MUST(lak_links(cloth, all, 16, &count) == LAK_DONE && count == counts.links);
    MUST(all[0].a == 0 && all[0].b == 1 && all[0].rest == 6554 && all[0].live == 1 && all[0].kind == 0 && all[0].tear == 0);
    MUST(lak_links(cloth, all, 1, &count) == LAK_NO_ROOM && count == counts.links);
    MUST(lak_held(cloth, held, 5, &count) == LAK_DONE && count == 4);
    MUST(held[0] == 1 && held[1] == 0 && held[2] == 0 && held[3] == 1 && held[4] == 7);
    MUST(lak_held(cloth, held, 0, &count) == LAK_NO_ROOM && count == 4);
    MUST(lak_link_between(cloth, 2, 1, &number) == LAK_DONE && number == 1);
    MUST(lak_link_between(cloth, 1, 1, &number) == LAK_NO_LINK && number == 1);
    MUST(lak_link_between(cloth, 0, 99, &number) == LAK_NO_LINK && number == 1);
    MUST(lak_gravity_now(cloth, &gravity) == LAK_DONE && gravity.x == 0 && gravity.y == -179 && gravity.z == 0);
    MUST(lak_save(cloth, 0) == LAK_DONE);
    MUST(lak_cut_many(cloth, cuts, 4, &refused) == LAK_DONE && refused == 2);
    MUST(lak_links(cloth, all, 16, &count) == LAK_DONE && all[0].live == 0 && all[1].live == 0);
    MUST(lak_link_between(cloth, 1, 2, &number) == LAK_DONE && number == 1);
    MUST(lak_cut_many(cloth, cuts, 0, &refused) == LAK_DONE && refused == 0);
    MUST(lak_restore(cloth, 0) == LAK_DONE && lak_links(cloth, all, 16, &count) == LAK_DONE && all[0].live == 1);
}

static void slots(lak_cloth *cloth)
{
    lak_left left;
    lak_sums_of_world saved, now;
    uint32_t gone[8], count = 0;
    MUST(lak_save(cloth, 2) == LAK_NO_SLOT && lak_restore(cloth, UINT32_MAX) == LAK_NO_SLOT);
    MUST(lak_save(cloth, 1) == LAK_DONE && lak_sums(cloth, &saved) == LAK_DONE);
    MUST(lak_cut(cloth, 1) == LAK_DONE && lak_cut(cloth, 1) == LAK_LINK_GONE && lak_cut(cloth, 99) == LAK_NO_LINK);
    MUST(lak_step(cloth, 5, &left) == LAK_DONE && lak_sums(cloth, &now) == LAK_DONE && memcmp(&saved, &now, sizeof now) != 0);
    MUST(lak_gone_since(cloth, 1, gone, 8, &count) == LAK_DONE && count == 1 && gone[0] == 1);
    MUST(lak_gone_since(cloth, 1, gone, 0, &count) == LAK_NO_ROOM && count == 1);
    MUST(lak_gone_since(cloth, 2, gone, 8, &count) == LAK_NO_SLOT);
    MUST(lak_restore(cloth, 1) == LAK_DONE && lak_sums(cloth, &now) == LAK_DONE && memcmp(&saved, &now, sizeof now) == 0);
}

static void reading(lak_cloth *cloth)
{
    lak_counts_of_world counts;
    lak_vec3 places[5], before[5];
    uint8_t live[16];
    uint32_t count = 0;
    memset(places, 7, sizeof places);
    MUST(lak_counts(cloth, &counts) == LAK_DONE && counts.particles == 4 && counts.slots == 2 && counts.steps == 1);
    MUST(counts.links == counts.live && counts.links >= 3 && counts.links <= 16 && counts.contacts == 0);
    MUST(lak_places(cloth, places, 5, &count) == LAK_DONE && count == 4 && places[0].y == 131000 && places[4].x == 0x0707070707070707);
    MUST(lak_places(cloth, places, 3, &count) == LAK_NO_ROOM && count == 4);
    MUST(lak_places_before(cloth, before, 5, &count) == LAK_DONE && count == 4 && before[0].y == 131000);
    MUST(lak_live(cloth, live, 16, &count) == LAK_DONE && count == counts.links && live[0] == 1 && live[counts.links - 1] == 1);
    MUST(lak_live(cloth, live, 1, &count) == LAK_NO_ROOM && count == counts.links);
}

/* Whether all of an output is a 7 from some byte on, as it was. */
static bool is_left(const uint8_t *output, size_t from, size_t room)
{
    while (from < room && output[from] == 7) from++;
    return from == room;
}

static void records(void)
{
    static const char text[] = "[[particle]]\nat = [0, 1000, 0]\n", script[] = "step 2\nframe\n", refused[] = "cut 5\n";
    static uint8_t log[4096];
    memset(log, 7, sizeof log);
    size_t written = 7, more = 7;
    const uint8_t *bytes = (const uint8_t *)text, *lines = (const uint8_t *)script;
    MUST(lak_record(bytes, strlen(text), lines, strlen(script), log, sizeof log, &written) == LAK_DONE);
    MUST(written > strlen(text) && memcmp(log, "PBDSLOG", 7) == 0 && is_left(log, written, sizeof log));
    MUST(lak_record(bytes, strlen(text), lines, strlen(script), log, written, &more) == LAK_DONE && more == written);
    memset(log, 7, sizeof log);
    MUST(lak_record(bytes, strlen(text), lines, strlen(script), log, written - 1, &more) == LAK_NO_LOG_ROOM && more == 0);
    MUST(is_left(log, 0, sizeof log));
    MUST(lak_record(bytes, strlen(text), (const uint8_t *)refused, strlen(refused), log, sizeof log, &more) == LAK_SOME_REFUSED);
    MUST(lak_record(bytes, 3, lines, strlen(script), log, sizeof log, &more) == LAK_SCENE_NOT_TOML && more == 0);
    MUST(lak_record((const uint8_t *)"\xff", 1, lines, strlen(script), log, sizeof log, &more) == LAK_SCENE_NOT_TEXT);
}

static void replays(void)
{
    static const char text[] = "[[particle]]\nat = [0, 1000, 0]\n", script[] = "step 2\nframe\ncut 5\n";
    static const char replies[] = "ok\nframe 2 1 0 0\n0 1000 0\nrefused 3 NoLink\n";
    static const char differs[] = "ok\nerror 10 Mismatch record 2 field answer recorded 1 found 0\n";
    static uint8_t log[4096], output[4096];
    size_t length = 0, written = 7, entry = 20 + strlen(text) + 74;
    lak_stop stop = {7, 7, 7};
    memset(output, 7, sizeof output);
    lak_record((const uint8_t *)text, strlen(text), (const uint8_t *)script, strlen(script), log, sizeof log, &length);
    MUST(lak_replay(log, length, output, sizeof output, &written, &stop) == LAK_SOME_REFUSED);
    MUST(written == strlen(replies) && memcmp(output, replies, written) == 0 && is_left(output, written, sizeof output));
    MUST(stop.offset == 0 && stop.entry == 0 && stop.field == 0);
    memset(output, 7, sizeof output);
    MUST(lak_replay(log, length, output, written - 1, &written, &stop) == LAK_NO_LOG_ROOM && written == 0);
    MUST(is_left(output, 0, sizeof output));
    MUST(lak_replay(log, length - 1, output, sizeof output, &written, &stop) == LAK_LOG_REFUSED && written == 0);
    MUST(stop.offset == length - 9 && stop.entry == 0 && stop.field == 0);
    MUST(lak_replay(log, 0, output, sizeof output, &written, &stop) == LAK_LOG_REFUSED && stop.offset == 0);
    MUST(log[entry] == 2 && log[entry + 1] == 0);
    log[entry + 1] = 1;
    MUST(lak_replay(log, length, output, sizeof output, &written, &stop) == LAK_MISMATCH && stop.offset == 0);
    MUST(stop.entry == 2 && strcmp(lak_field_name(stop.field), "answer") == 0);
    MUST(written == strlen(differs) && memcmp(output, differs, written) == 0);
    log[entry + 1] = 0, log[20] = '=';
    MUST(lak_replay(log, length, output, sizeof output, &written, &stop) == LAK_SCENE_NOT_TOML && written == 0 && stop.entry == 0);
    log[20] = 0xff;
    MUST(lak_replay(log, length, output, sizeof output, &written, &stop) == LAK_SCENE_NOT_TEXT && written == 0);
}

/* Each answer has a number and a name of its own. */
static void names(void)
{
    int32_t answer, other;
    int named = 0;
    MUST(strcmp(lak_answer_name(LAK_DONE), "Done") == 0 && strcmp(lak_answer_name(LAK_NO_PARTICLE), "NoParticle") == 0);
    MUST(strcmp(lak_answer_name(LAK_TOO_MANY_CONTACTS), "TooManyContacts") == 0);
    MUST(strcmp(lak_answer_name(LAK_NO_LOG_ROOM), "NoLogRoom") == 0 && strcmp(lak_answer_name(LAK_TOO_LONG), "TooLong") == 0);
    MUST(strcmp(lak_answer_name(LAK_SCENE_NOT_TEXT), "SceneNotText") == 0);
    MUST(strcmp(lak_answer_name(LAK_SCENE_REFUSED), "SceneRefused") == 0);
    MUST(strcmp(lak_answer_name(LAK_MISMATCH), "Mismatch") == 0 && strcmp(lak_answer_name(LAK_OUT_OF_MEMORY), "OutOfMemory") == 0);
    MUST(strcmp(lak_answer_name(LAK_MESH_REFUSED), "MeshRefused") == 0);
    MUST(strcmp(lak_answer_name(LAK_CLOSED), "Closed") == 0 && strcmp(lak_answer_name(LAK_IN_USE), "InUse") == 0);
    MUST(strcmp(lak_answer_name(LAK_NO_SLOT), "NoSlot") == 0 && strcmp(lak_answer_name(LAK_NO_ROOM), "NoRoom") == 0);
    MUST(strcmp(lak_answer_name(LAK_NO_STATE), "NoState") == 0);
    MUST(strcmp(lak_answer_name(INT32_MIN), "-") == 0 && strcmp(lak_answer_name(INT32_MAX), "-") == 0);
    for (answer = -1; answer < 100; answer++) {
        if (strcmp(lak_answer_name(answer), "-") == 0)
            continue;
        named++;
        for (other = -1; other < answer; other++)
            MUST(strcmp(lak_answer_name(answer), lak_answer_name(other)) != 0);
    }
    MUST(named == 28);
}

/* The digest and the checksum of a world that a slot keeps while the handle goes on. */
static void slot_digests(lak_cloth *cloth, lak_hash name)
{
    lak_left left;
    lak_hash before, now;
    uint64_t sum_before = 7, sum = 7;
    memset(&now, 7, sizeof now);
    MUST(lak_digest_slot(cloth, 1, name, &now) == LAK_NO_SLOT && lak_checksum_slot(cloth, 1, &sum) == LAK_NO_SLOT);
    MUST(now.bytes[0] == 7 && now.bytes[31] == 7 && sum == 7);
    MUST(lak_save(cloth, 0) == LAK_DONE);
    MUST(lak_digest(cloth, name, &before) == LAK_DONE && lak_checksum(cloth, &sum_before) == LAK_DONE);
    MUST(lak_step(cloth, 1, &left) == LAK_DONE);
    MUST(lak_digest(cloth, name, &now) == LAK_DONE && memcmp(&now, &before, sizeof now) != 0);
    MUST(lak_checksum(cloth, &sum) == LAK_DONE && sum != sum_before);
    MUST(lak_digest_slot(cloth, 0, name, &now) == LAK_DONE && memcmp(&now, &before, sizeof now) == 0);
    MUST(lak_checksum_slot(cloth, 0, &sum) == LAK_DONE && sum == sum_before);
}

static void states(void)
{
    static uint8_t state[2048];
    lak_cloth cloth, late;
    lak_counts_of_world counts;
    lak_fault fault;
    lak_left left;
    lak_hash name, digest, other;
    size_t size = 7;
    uint64_t offset = 7, sum = 7;
    memset(&cloth, 0, sizeof cloth);
    memset(&late, 0, sizeof late);
    memset(&digest, 7, sizeof digest);
    memset(state, 7, sizeof state);
    memset(&name, 7, sizeof name);
    MUST(lak_scene_name(&cloth, &name) == LAK_CLOSED && name.bytes[0] == 7 && name.bytes[31] == 7);
    MUST(lak_state_size(&cloth, &size) == LAK_CLOSED && lak_state_write(&cloth, name, state, sizeof state, &size) == LAK_CLOSED);
    MUST(lak_state_read(&cloth, name, state, 9, &offset) == LAK_CLOSED && lak_digest(&cloth, name, &digest) == LAK_CLOSED);
    MUST(lak_digest_slot(&cloth, 0, name, &digest) == LAK_CLOSED && lak_checksum(&cloth, &sum) == LAK_CLOSED);
    MUST(lak_checksum_slot(&cloth, 0, &sum) == LAK_CLOSED);
    MUST(size == 7 && offset == 7 && sum == 7 && digest.bytes[31] == 7 && is_left(state, 0, sizeof state));
    MUST(open_text(&cloth, scene, 1, &fault) == LAK_DONE && open_text(&late, scene, 0, &fault) == LAK_DONE);
    MUST(lak_scene_name(&cloth, &name) == LAK_DONE);
    MUST(lak_step(&cloth, 30, &left) == LAK_DONE && lak_cut(&cloth, 1) == LAK_DONE && lak_counts(&cloth, &counts) == LAK_DONE);
    MUST(lak_scene_name(&cloth, &other) == LAK_DONE && memcmp(&name, &other, sizeof other) == 0);
    MUST(lak_scene_name(&late, &other) == LAK_DONE && memcmp(&name, &other, sizeof other) == 0);
    MUST(lak_state_size(&cloth, &size) == LAK_DONE && size == 420 + 49 * (size_t)counts.particles + counts.links);
    MUST(lak_state_write(&cloth, name, state, size - 1, &size) == LAK_NO_ROOM && is_left(state, 0, sizeof state));
    MUST(lak_state_write(&cloth, name, state, sizeof state, &size) == LAK_DONE && is_left(state, size, sizeof state));
    MUST(memcmp(state, "PBDSTAT\1", 8) == 0 && memcmp(state + 8, name.bytes, 32) == 0);
    MUST(lak_digest(&cloth, name, &digest) == LAK_DONE && lak_digest(&late, name, &other) == LAK_DONE);
    MUST(memcmp(&digest, &other, sizeof other) != 0);
    MUST(lak_state_read(&late, name, state, size - 1, &offset) == LAK_NO_STATE && offset == size - 1);
    state[9] ^= 1;
    MUST(lak_state_read(&late, name, state, size, &offset) == LAK_NO_STATE && offset == 9);
    state[9] ^= 1;
    MUST(lak_digest(&late, name, &digest) == LAK_DONE && memcmp(&digest, &other, sizeof other) == 0);
    MUST(lak_state_read(&late, name, state, size, &offset) == LAK_DONE && offset == 9);
    MUST(lak_step(&cloth, 30, &left) == LAK_DONE && lak_step(&late, 30, &left) == LAK_DONE);
    MUST(lak_digest(&cloth, name, &digest) == LAK_DONE && lak_digest(&late, name, &other) == LAK_DONE);
    MUST(memcmp(&digest, &other, sizeof other) == 0);
    lak_close(&late);
    slot_digests(&cloth, name);
    lak_close(&cloth);
}

/* The header's version is that of the package's manifest, which the compiler is given. */
static void versions(void)
{
    lak_version_of_library version;
    char numbers[32];
    lak_version(&version);
    MUST(version.major == LAK_VERSION_MAJOR && version.minor == LAK_VERSION_MINOR && version.patch == LAK_VERSION_PATCH);
    sprintf(numbers, "%d.%d.%d", LAK_VERSION_MAJOR, LAK_VERSION_MINOR, LAK_VERSION_PATCH);
    MUST(strcmp(numbers, LAK_VERSION) == 0);
    MUST(strcmp(LAK_VERSION, VERSION) == 0);
}

/* A cloth of two rows and three columns behind four particles. */
static void triangles(void)
{
    static const uint32_t whole[4][3] = {{4, 7, 5}, {5, 7, 8}, {5, 8, 6}, {6, 8, 9}};
    uint32_t some[4][3];
    memset(some, 7, sizeof some);
    MUST(lak_cloth_triangles(4, 2, 3, some, 3) == 4 && memcmp(some, whole, sizeof some[0] * 3) == 0 && some[3][0] == 0x07070707);
    MUST(lak_cloth_triangles(4, 2, 3, some, 4) == 4 && memcmp(some, whole, sizeof some) == 0);
    MUST(lak_cloth_triangles(4, 1, 3, some, 4) == 0 && lak_cloth_triangles(4, 0, 0, some, 4) == 0);
}

/* A square, a triangle at it, and a face of five corners, as triangles. */
static void mesh_triangles(void)
{
    static const uint32_t sides[] = {4, 3, 5}, named[] = {0, 1, 2, 3, 3, 2, 4, 4, 3, 2, 1, 0};
    static const uint32_t whole[6][3] = {{0, 1, 2}, {0, 2, 3}, {3, 2, 4}, {4, 3, 2}, {4, 2, 1}, {4, 1, 0}};
    static const uint32_t twice[] = {0, 1, 2, 3, 3, 2, 2}, outside[] = {0, 1, 2, 5, 3, 2, 4};
    lak_vec3 places[5];
    uint32_t some[6][3], before[6][3];
    size_t count = 7;
    lak_mesh_fault fault = {7, 7};
    memset(places, 0, sizeof places);
    memset(some, 7, sizeof some);
    memset(before, 7, sizeof before);
    MUST(lak_mesh_triangles(places, 5, sides, 3, named, 12, some, 5, &count, &fault) == LAK_NO_ROOM && count == 6);
    MUST(memcmp(some, whole, sizeof some[0] * 5) == 0 && some[5][0] == 0x07070707);
    MUST(lak_mesh_triangles(places, 5, sides, 3, named, 12, some, 6, &count, &fault) == LAK_DONE && count == 6);
    MUST(memcmp(some, whole, sizeof some) == 0);
    MUST(lak_mesh_triangles(places, 0, sides, 0, named, 0, some, 0, &count, &fault) == LAK_DONE && count == 0);
    MUST(fault.number == 7 && fault.rule == 7);
    memset(some, 7, sizeof some);
    count = 7;
    MUST(lak_mesh_triangles(places, 5, sides, 3, named, 11, some, 6, &count, &fault) == LAK_MESH_REFUSED);
    MUST(fault.number == 0 && strcmp(lak_mesh_rule_name(fault.rule), "BadCount") == 0);
    MUST(lak_mesh_triangles(places, 5, sides, 2, twice, 7, some, 6, &count, &fault) == LAK_MESH_REFUSED);
    MUST(fault.number == 1 && strcmp(lak_mesh_rule_name(fault.rule), "BadFace") == 0);
    MUST(lak_mesh_triangles(places, 5, sides, 2, outside, 7, some, 6, &count, &fault) == LAK_MESH_REFUSED);
    MUST(fault.number == 0 && strcmp(lak_mesh_rule_name(fault.rule), "BadFace") == 0);
    places[3] = at(0, 0, -536870913);
    MUST(lak_mesh_triangles(places, 5, sides, 2, twice, 7, some, 6, &count, &fault) == LAK_MESH_REFUSED);
    MUST(fault.number == 3 && strcmp(lak_mesh_rule_name(fault.rule), "OutOfRange") == 0);
    MUST(count == 7 && memcmp(some, before, sizeof some) == 0);
}

/* Whether a line of so many bytes is this text, and the byte behind it is as it was. */
static int is_line(const char *line, size_t length, const char *text)
{
    return length == strlen(text) && memcmp(line, text, length) == 0 && line[length] == 7;
}

static void lines(void)
{
    const uint64_t most = 999999999999999999u;
    const int64_t far = -999999999999999999;
    char line[LAK_LINE_ROOM + 1];
    memset(line, 7, sizeof line);
    MUST(is_line(line, lak_line_step(line, LAK_LINE_ROOM, 0), "step 0\n"));
    memset(line, 7, sizeof line);
    MUST(is_line(line, lak_line_step(line, LAK_LINE_ROOM, most), "step 999999999999999999\n"));
    memset(line, 7, sizeof line);
    MUST(lak_line_step(line, LAK_LINE_ROOM, most + 1) == 0 && lak_line_cut(line, LAK_LINE_ROOM, UINT64_MAX) == 0);
    MUST(lak_line_move(line, LAK_LINE_ROOM, 1, at(0, 0, INT64_MIN)) == 0 && lak_line_gravity(line, LAK_LINE_ROOM, at(far - 1, 0, 0)) == 0);
    MUST(lak_line_pin(line, 6, 10) == 0 && lak_line_pin(line, 0, 1) == 0 && line[0] == 7);
    MUST(is_line(line, lak_line_pin(line, 7, 10), "pin 10\n"));
    memset(line, 7, sizeof line);
    MUST(is_line(line, lak_line_unpin(line, LAK_LINE_ROOM, 65535), "unpin 65535\n"));
    memset(line, 7, sizeof line);
    MUST(is_line(line, lak_line_cut(line, LAK_LINE_ROOM, 100), "cut 100\n"));
    memset(line, 7, sizeof line);
    MUST(is_line(line, lak_line_gravity(line, LAK_LINE_ROOM, at(-179, 0, 10)), "gravity -179 0 10\n"));
    memset(line, 7, sizeof line);
    MUST(lak_line_move(line, LAK_LINE_ROOM - 1, most, at(far, far, far)) == 0 && line[0] == 7);
    MUST(is_line(line, lak_line_move(line, LAK_LINE_ROOM, most, at(far, far, far)),
                 "move 999999999999999999 -999999999999999999 -999999999999999999 -999999999999999999\n"));
}

int main(void)
{
    lak_cloth cloth;
    lak_fault fault = {7, 7, 7, 7, 7};
    versions();
    triangles();
    mesh_triangles();
    names();
    memset(&cloth, 0, sizeof cloth);
    lines();
    closed_handles();
    wrong_scenes();
    meshes();
    wrong_meshes();
    crowds();
    too_many();
    contacts();
    MUST(open_text(&cloth, scene, 2, &fault) == LAK_DONE);
    MUST(open_text(&cloth, scene, 2, &fault) == LAK_IN_USE);
    MUST(fault.offset == 7 && fault.position == 7 && fault.rule == 7 && fault.table == 7 && fault.key == 7);
    commands(&cloth);
    reading(&cloth);
    ledgers(&cloth);
    links(&cloth);
    slots(&cloth);
    records();
    replays();
    states();
    lak_close(&cloth);
    lak_close(&cloth);
    MUST(lak_pin(&cloth, 0) == LAK_CLOSED);
    puts("calls: each function answers as the header says");
    return 0;
}
