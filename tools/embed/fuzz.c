/*
 * Calls functions with random arguments on a few handles: fuzz SECONDS SEED. After each call it looks at what the header says
 * of it: a closed handle answers so, an answer other than LAK_DONE changes nothing, reading changes nothing, a restored world has
 * the sums and the state of the saved one, and one whose state was read has that and its digest. States are read as they were
 * written, by other handles, and with changes; what is taken is played on with. Meshes are grids whose arrays are changed as often
 * as not: what is wrong with one, and what its triangles are, is found here once more.
 */
#include "lakmozet.h"

#include <inttypes.h>
#include <stdio.h>
#include <stdlib.h>
#include <string.h>
#include <time.h>

enum { HANDLES = 4, MOST_SLOTS = 16, ROOM = 4096, STATE = 8192, VERTICES = 25, FACES = 32, CORNERS = 96, TRIANGLES = 128 };

/* What a world is told apart by: its sums, its checksum, and a sum of the bytes of its state. */
typedef struct {
    lak_sums_of_world sums;
    uint64_t checksum, state;
} seen;

typedef struct {
    lak_cloth cloth;
    bool open;
    uint32_t slots;
    lak_hash name;
    seen now, saved[MOST_SLOTS];
    uint8_t state[STATE]; /* of an earlier world, which was seen so, or none */
    size_t size;
    seen written;
    lak_hash digest;
} tracked;

/* A mesh, as it is handed in. */
typedef struct {
    lak_vec3 vertices[VERTICES];
    uint32_t sizes[FACES], corners[CORNERS];
    size_t vertex_count, face_count, corner_count;
} mesh;

static tracked handles[HANDLES];
static uint64_t calls, opened, with_mesh, taken, state;

static uint64_t draw(void)
{
    state ^= state << 13;
    state ^= state >> 7;
    state ^= state << 17;
    return state;
}

static void fail(const char *what)
{
    printf("fuzz: after %" PRIu64 " calls: %s\n", calls, what);
    exit(1);
}

static void must(bool test, const char *what)
{
    if (!test)
        fail(what);
}

/* A number that is small, or near a limit, or any. */
static uint64_t number(void)
{
    static const uint64_t some[] = {0, 1, 2, 7, 15, 16, 17, 63, 64, 100000, 100001, 536870912, 536870913, UINT32_MAX, INT64_MAX, UINT64_MAX};
    switch (draw() % 4) {
    case 0:
        return some[draw() % (sizeof some / sizeof *some)];
    case 1:
        return draw();
    default:
        return draw() % 40;
    }
}

static lak_vec3 place(void)
{
    lak_vec3 it = {(int64_t)(draw() % 400001) - 200000, (int64_t)(draw() % 400001) - 200000, (int64_t)(draw() % 400001) - 200000};
    if (draw() % 8 == 0)
        it.x = (int64_t)number();
    if (draw() % 8 == 0)
        it.z = -(int64_t)(number() >> 1);
    return it;
}

static seen see(tracked *it)
{
    static uint8_t bytes[STATE];
    seen now;
    size_t size = 0;
    int32_t full = it->open ? LAK_DONE : LAK_CLOSED;
    memset(&now, 0, sizeof now);
    must(lak_sums(&it->cloth, &now.sums) == full, "lak_sums answers something else");
    must(lak_checksum(&it->cloth, &now.checksum) == full, "lak_checksum answers something else");
    must(lak_state_write(&it->cloth, it->name, bytes, STATE, &size) == full, "lak_state_write answers something else");
    for (size_t i = 0; i < size; i++)
        now.state = (now.state ^ bytes[i]) * 1099511628211u;
    return now;
}

static bool same(seen a, seen b)
{
    return memcmp(&a, &b, sizeof a) == 0;
}

/* A scene with random parts, now and then with random bytes in it. */
static size_t scene(char *text, size_t room)
{
    size_t length = (size_t)snprintf(text, room,
        "gravity = [%d, %d, 0]\npasses = %d\nthickness = %d\nfriction = %d\ndamping = %d\n"
        "[[cloth]]\norigin = [0, %d, 0]\nacross = [6554, 0, 0]\ndown = [0, 0, 6554]\nrows = %d\ncolumns = %d\nstretch_tear = %d\n"
        "[[rope]]\norigin = [0, 200000, 0]\nspacing = [0, 6554, 0]\ncount = %d\n[[sphere]]\ncentre = [20000, 0, 20000]\nradius = 30000\n",
        (int)(draw() % 21) - 10, -(int)(draw() % 400), (int)(draw() % 9), (int)(draw() % 8000), (int)(draw() % 257), (int)(draw() % 1025),
        (int)(draw() % 131072), 2 + (int)(draw() % 6), 2 + (int)(draw() % 6), 7000 + (int)(draw() % 4000), 2 + (int)(draw() % 8));
    if (draw() % 4 == 0)
        text[draw() % length] = (char)draw();
    return draw() % 16 == 0 ? draw() % length : length;
}

/* What is wrong with a scene. */
static bool is_of_scene(int32_t answer)
{
    return answer == LAK_SCENE_NOT_TEXT || answer == LAK_SCENE_NOT_TOML || answer == LAK_SCENE_REFUSED;
}

/* A handle holds the world that it was opened with. */
static void begin(tracked *it, uint32_t slots)
{
    it->open = true;
    opened++;
    it->slots = slots;
    must(lak_scene_name(&it->cloth, &it->name) == LAK_DONE, "an open handle has no name");
    it->now = see(it);
    for (uint32_t k = 0; k < slots; k++)
        it->saved[k] = it->now;
}

static uint32_t some_slots(void)
{
    return draw() % 8 == 0 ? (uint32_t)number() : (uint32_t)(draw() % 5);
}

static void open_some(tracked *it)
{
    static char text[2048];
    lak_fault fault;
    size_t length = scene(text, sizeof text);
    uint32_t slots = some_slots();
    int32_t answer = lak_open(&it->cloth, (const uint8_t *)text, length, slots, &fault);
    if (it->open) {
        must(answer == LAK_IN_USE, "an open handle is opened");
        return;
    }
    must(answer == LAK_DONE || answer == LAK_NO_SLOT || is_of_scene(answer), "lak_open answers something else");
    must((answer == LAK_SCENE_REFUSED) == (answer != LAK_DONE && fault.rule != 0), "a fault without a refusal");
    if (answer == LAK_DONE)
        begin(it, slots);
}

/* ---- meshes */

static void push_face(mesh *it, uint32_t size, const uint32_t *corners)
{
    it->sizes[it->face_count++] = size;
    for (uint32_t i = 0; i < size; i++)
        it->corners[it->corner_count++] = corners[i];
}

/* A grid of at most four by four cells, each of which is a square, two triangles, or left out. */
static void draw_grid(mesh *it)
{
    uint32_t rows = 1 + draw() % 4, columns = 1 + draw() % 4;
    memset(it, 0, sizeof *it);
    for (uint32_t row = 0; row <= rows; row++)
        for (uint32_t column = 0; column <= columns; column++)
            it->vertices[it->vertex_count++] = (lak_vec3) {6554 * (int64_t)column, (int64_t)(draw() % 9000), 6554 * (int64_t)row};
    for (uint32_t row = 0; row < rows; row++)
        for (uint32_t column = 0; column < columns; column++) {
            uint32_t here = row * (columns + 1) + column, below = here + columns + 1;
            uint32_t square[] = {here, here + 1, below + 1, below}, other[] = {here, below + 1, below};
            uint64_t kind = draw() % 5;
            if (kind < 2)
                push_face(it, 4, square);
            else if (kind < 4)
                push_face(it, 3, square), push_face(it, 3, other);
        }
}

/* One of the numbers of a mesh is changed: a place, a corner, a size, a count, or the sizes of two faces become one. */
static void change_mesh(mesh *it)
{
    size_t face = draw() % FACES;
    switch (draw() % 7) {
    case 0:
        it->vertices[draw() % VERTICES] = place();
        break;
    case 1:
        it->corners[draw() % CORNERS] = (uint32_t)number();
        break;
    case 2:
        it->sizes[face] = (uint32_t)number();
        break;
    case 3:
        it->corner_count = draw() % (CORNERS + 1);
        break;
    case 4:
        it->face_count = draw() % (FACES + 1);
        break;
    case 5:
        it->vertex_count = draw() % (VERTICES + 1);
        break;
    default:
        if (face + 1 < it->face_count) {
            it->sizes[face] += it->sizes[face + 1];
            memmove(it->sizes + face + 1, it->sizes + face + 2, (FACES - face - 2) * sizeof *it->sizes);
            it->face_count--;
        }
    }
}

static void draw_mesh(mesh *it)
{
    draw_grid(it);
    for (uint64_t changes = draw() % 2 ? draw() % 4 : 0; changes > 0; changes--)
        change_mesh(it);
}

static bool is_face(const uint32_t *corners, uint32_t size, size_t vertices)
{
    for (uint32_t i = 0; i < size; i++)
        for (uint32_t k = i; k < size; k++)
            if (corners[k] >= vertices || (k > i && corners[k] == corners[i]))
                return false;
    return size >= 3;
}

static bool is_outside(int64_t axis)
{
    return axis < -536870912 || 536870912 < axis;
}

/* The first rule that a mesh breaks, and its vertex or face, or zeros. */
static lak_mesh_fault fault_of(const mesh *it)
{
    uint64_t total = 0;
    const uint32_t *face = it->corners;
    for (size_t f = 0; f < it->face_count; f++)
        total += it->sizes[f];
    if (total != it->corner_count)
        return (lak_mesh_fault) {0, 3};
    for (size_t v = 0; v < it->vertex_count; v++)
        if (is_outside(it->vertices[v].x) || is_outside(it->vertices[v].y) || is_outside(it->vertices[v].z))
            return (lak_mesh_fault) {v, 1};
    for (size_t f = 0; f < it->face_count; face += it->sizes[f++])
        if (!is_face(face, it->sizes[f], it->vertex_count))
            return (lak_mesh_fault) {f, 2};
    return (lak_mesh_fault) {0, 0};
}

static lak_mesh_settings draw_settings(void)
{
    lak_mesh_settings it = {0, 0, 0, (uint16_t)(1 + draw() % 9), (uint16_t)(draw() % 257), (uint16_t)(draw() % 257),
                            (uint16_t)(draw() % 257), (uint8_t)(draw() % 3)};
    int64_t *tears[] = {&it.stretch_tear, &it.shear_tear, &it.bend_tear};
    uint16_t *numbers[] = {&it.weight, &it.stretch, &it.shear, &it.bend};
    for (int k = 0; k < 3; k++)
        *tears[k] = draw() % 2 ? 0 : 7000 + (int64_t)(draw() % 9000);
    if (draw() % 8 == 0)
        *tears[draw() % 3] = draw() % 2 ? (int64_t)number() : 2147483647 + (int64_t)(draw() % 3);
    if (draw() % 8 == 0)
        *numbers[draw() % 4] = (uint16_t)(draw() % 2 ? number() : 256 + draw() % 2);
    return it;
}

static bool are_link_settings(uint16_t stiffness, int64_t tear)
{
    return stiffness <= 256 && 0 <= tear && tear <= 2147483648;
}

static bool are_settings(lak_mesh_settings it)
{
    return it.weight >= 1 && are_link_settings(it.stretch, it.stretch_tear) && are_link_settings(it.shear, it.shear_tear) &&
           (it.bends == 0 || are_link_settings(it.bend, it.bend_tear));
}

/* The vertices are the last particles, and the sides of each face are joined, and of one with four corners all corners. */
static void look_at_mesh(tracked *it, const mesh *made)
{
    static lak_vec3 places[ROOM];
    lak_counts_of_world counts;
    uint32_t count, link;
    const uint32_t *face = made->corners;
    must(lak_counts(&it->cloth, &counts) == LAK_DONE && counts.particles >= made->vertex_count, "the particles of a mesh");
    must(lak_places(&it->cloth, places, ROOM, &count) == LAK_DONE, "the places of a mesh");
    uint32_t base = counts.particles - (uint32_t)made->vertex_count;
    must(memcmp(places + base, made->vertices, made->vertex_count * sizeof *places) == 0, "where vertices are");
    for (size_t f = 0; f < made->face_count; face += made->sizes[f++])
        for (uint32_t i = 0, size = made->sizes[f]; i < size; i++) {
            must(lak_link_between(&it->cloth, base + face[i], base + face[(i + 1) % size], &link) == LAK_DONE, "a side is no link");
            must(size != 4 || lak_link_between(&it->cloth, base + face[i], base + face[(i + 2) % 4], &link) == LAK_DONE,
                 "a diagonal is no link");
        }
}

static void open_with_mesh(tracked *it)
{
    static char text[2048];
    mesh made;
    lak_mesh_settings settings = draw_settings();
    lak_fault fault = {7, 7, 7, 7, 7};
    lak_mesh_fault mesh_fault = {7, 7}, wanted = {0, 4};
    size_t length = draw() % 4 == 0 ? 0 : scene(text, sizeof text);
    uint32_t slots = some_slots();
    draw_mesh(&made);
    int32_t answer = lak_open_mesh(&it->cloth, (const uint8_t *)text, length, made.vertices, made.vertex_count, made.sizes,
                                   made.face_count, made.corners, made.corner_count, settings, slots, &fault, &mesh_fault);
    if (it->open) {
        must(answer == LAK_IN_USE && fault.rule == 7 && mesh_fault.rule == 7, "an open handle is opened with a mesh");
        return;
    }
    if (are_settings(settings))
        wanted = fault_of(&made);
    if (answer == LAK_DONE) {
        must(wanted.rule == 0 && fault.rule == 7 && mesh_fault.rule == 7, "a mesh that breaks a rule is taken");
        begin(it, slots);
        with_mesh++;
        look_at_mesh(it, &made);
    } else if (answer == LAK_MESH_REFUSED) {
        /* (a mesh of so few vertices has at most 24 links at one) */
        must(wanted.rule != 0 && mesh_fault.rule == wanted.rule && mesh_fault.number == wanted.number && fault.rule == 0,
             "a mesh is refused for something else");
    } else {
        must(answer == LAK_NO_SLOT || is_of_scene(answer), "lak_open_mesh answers something else");
        must((answer == LAK_SCENE_REFUSED) == (fault.rule != 0) && mesh_fault.rule == 0 && mesh_fault.number == 0, "two faults");
    }
}

/* The triangles of a mesh, of which each face is a fan around its first corner. */
static void cut_mesh(void)
{
    static uint32_t into[TRIANGLES + 1][3], all[TRIANGLES][3];
    mesh made;
    lak_mesh_fault fault = {7, 7};
    size_t count = 7, found = 0, room = draw() % 3 ? TRIANGLES : draw() % 20;
    const uint32_t *face = made.corners;
    draw_mesh(&made);
    memset(into, 7, sizeof into);
    lak_mesh_fault wanted = fault_of(&made);
    for (size_t f = 0; wanted.rule == 0 && f < made.face_count; face += made.sizes[f++])
        for (uint32_t i = 2; i < made.sizes[f]; i++, found++)
            all[found][0] = face[0], all[found][1] = face[i - 1], all[found][2] = face[i];
    int32_t answer = lak_mesh_triangles(made.vertices, made.vertex_count, made.sizes, made.face_count, made.corners,
                                        made.corner_count, into, room, &count, &fault);
    must(answer == (wanted.rule ? LAK_MESH_REFUSED : room < found ? LAK_NO_ROOM : LAK_DONE), "lak_mesh_triangles answers something else");
    if (wanted.rule)
        must(fault.rule == wanted.rule && fault.number == wanted.number && count == 7, "a mesh has no triangles for something else");
    else
        must(fault.rule == 7 && count == found, "how many triangles there are");
    size_t written = room < found ? room : found;
    must(memcmp(into, all, written * sizeof *into) == 0 && into[written][0] == 0x07070707, "the triangles of a mesh");
}

/* ---- calls on an open handle, or a closed one */

static void close_one(tracked *it)
{
    lak_close(&it->cloth);
    it->open = false;
    it->size = 0;
    memset(&it->now, 0, sizeof it->now);
    must(it->cloth.at == NULL && !it->cloth.full, "a closed handle is not zeros");
}

/* After a command: refused ones change nothing. */
static void after_command(tracked *it, int32_t answer)
{
    seen now = see(it);
    must((answer == LAK_CLOSED) == !it->open, "a command of a closed handle");
    must((LAK_DONE <= answer && answer <= LAK_TOO_MANY_CONTACTS) || answer == LAK_CLOSED, "a command answers something else");
    must(answer == LAK_DONE || same(now, it->now), "a refused command changes the world");
    it->now = now;
}

/* The checksum and the digest of a slot are those of the world that was saved there. */
static void look_at_slot(tracked *it)
{
    uint32_t slot = draw() % 4 == 0 ? (uint32_t)number() : (uint32_t)(draw() % 4);
    uint64_t sum = 7;
    lak_hash digest, own;
    int32_t wanted = !it->open ? LAK_CLOSED : slot < it->slots ? LAK_DONE : LAK_NO_SLOT;
    memset(&digest, 7, sizeof digest);
    must(lak_checksum_slot(&it->cloth, slot, &sum) == wanted, "lak_checksum_slot answers something else");
    must(lak_digest_slot(&it->cloth, slot, it->name, &digest) == wanted, "lak_digest_slot answers something else");
    must(wanted == LAK_DONE ? sum == it->saved[slot].checksum : sum == 7 && digest.bytes[31] == 7, "the checksum of a slot");
    if (wanted == LAK_DONE) {
        bool is_now = same(it->saved[slot], it->now);
        must(lak_digest(&it->cloth, it->name, &own) == LAK_DONE, "lak_digest answers something else");
        must((memcmp(&digest, &own, sizeof own) == 0) == is_now, "the digest of a slot");
    }
}

static void save_or_restore(tracked *it)
{
    uint32_t slot = draw() % 4 == 0 ? (uint32_t)number() : (uint32_t)(draw() % 4);
    bool saves = draw() % 2;
    int32_t answer = saves ? lak_save(&it->cloth, slot) : lak_restore(&it->cloth, slot);
    must(answer == (!it->open ? LAK_CLOSED : slot < it->slots ? LAK_DONE : LAK_NO_SLOT), "a slot answers something else");
    if (answer == LAK_DONE && saves)
        it->saved[slot] = it->now;
    if (answer == LAK_DONE && !saves)
        it->now = it->saved[slot];
    must(same(see(it), it->now), "the world after a save or a restore");
}

/* Many cuts: as many are refused as don't let a live link go. */
static void cut_many(tracked *it)
{
    uint32_t links[40];
    size_t length = draw() % 41, refused = 7;
    lak_counts_of_world before = {0, 0, 0, 0, 0, 0}, after = {0, 0, 0, 0, 0, 0};
    for (size_t k = 0; k < 40; k++)
        links[k] = (uint32_t)number();
    lak_counts(&it->cloth, &before);
    int32_t answer = lak_cut_many(&it->cloth, links, length, &refused);
    lak_counts(&it->cloth, &after);
    must(answer == (it->open ? LAK_DONE : LAK_CLOSED), "lak_cut_many answers something else");
    must(refused == (it->open ? length - (before.live - after.live) : 7), "how many cuts were refused");
    it->now = see(it);
}

/* The links, of which `live` says which are live, each found by its ends; and the held particles. */
static void read_links(tracked *it, lak_counts_of_world counts, const uint8_t *live, size_t live_room)
{
    static lak_link links[ROOM + 1];
    static uint8_t held[ROOM + 1];
    size_t room = draw() % 3 == 0 ? draw() % 40 : ROOM;
    uint32_t count = 0, found = 0;
    int32_t full = it->open ? LAK_DONE : LAK_CLOSED;
    held[room] = 7;
    links[room].a = 7;
    int32_t answer = lak_held(&it->cloth, held, room, &count);
    must(answer == (it->open && room < counts.particles ? LAK_NO_ROOM : full) && count == counts.particles, "the held particles");
    for (size_t i = 0; i < room && i < count; i++)
        must(held[i] <= 1, "whether a particle is held");
    count = 0;
    answer = lak_links(&it->cloth, links, room, &count);
    must(answer == (it->open && room < counts.links ? LAK_NO_ROOM : full) && count == counts.links, "the links");
    must(held[room] == 7 && links[room].a == 7, "what stands behind the room is left");
    for (size_t l = 0; l < room && l < live_room && l < count; l++)
        must(links[l].live == live[l] && links[l].a < counts.particles && links[l].b < counts.particles, "a link");
    if (room > 0 && count > 0) {
        size_t l = draw() % (room < count ? room : count);
        answer = lak_link_between(&it->cloth, links[l].b, links[l].a, &found);
        must(answer == LAK_DONE && found == l, "a link is found by its ends");
    }
    found = 7;
    answer = lak_link_between(&it->cloth, (uint32_t)number(), (uint32_t)number(), &found);
    must(answer == full || (it->open && answer == LAK_NO_LINK && found == 7), "lak_link_between answers something else");
}

/* The ledger balances, by its low halves, and gravity is read. */
static void read_ledger(tracked *it)
{
    lak_ledger_of_world l;
    lak_vec3 gravity = {7, 7, 7};
    int32_t full = it->open ? LAK_DONE : LAK_CLOSED;
    memset(&l, 0, sizeof l);
    must(lak_gravity_now(&it->cloth, &gravity) == full && (it->open || gravity.y == 7), "gravity");
    must(lak_ledger(&it->cloth, &l) == full, "lak_ledger answers something else");
    for (int axis = 0; axis < 3; axis++) {
        uint64_t total = l.opening[axis].low + l.gravity[axis].low + l.damping[axis].low + l.link[axis].low + l.contact[axis].low +
                         l.pin[axis].low + l.shape[axis].low;
        must(total == l.momentum[axis].low, "the ledger balances");
    }
}

static void read_some(tracked *it)
{
    static lak_vec3 places[ROOM];
    static uint8_t live[ROOM];
    static uint32_t gone[ROOM];
    lak_counts_of_world counts = {0, 0, 0, 0, 0, 0};
    uint64_t contacts = 7;
    size_t room = draw() % 3 == 0 ? draw() % 40 : ROOM;
    uint32_t count = 0, slot = (uint32_t)(draw() % 5);
    int32_t full = it->open ? LAK_DONE : LAK_CLOSED;
    must(lak_counts(&it->cloth, &counts) == full, "lak_counts answers something else");
    must(lak_contacts(&it->cloth, &contacts) == full && contacts == (it->open ? counts.contacts : 7), "the contacts");
    int32_t answer = draw() % 2 ? lak_places(&it->cloth, places, room, &count) : lak_places_before(&it->cloth, places, room, &count);
    must(answer == (it->open && room < counts.particles ? LAK_NO_ROOM : full) && count == counts.particles, "the places");
    count = 0;
    answer = lak_live(&it->cloth, live, room, &count);
    must(answer == (it->open && room < counts.links ? LAK_NO_ROOM : full) && count == counts.links, "the live links");
    read_links(it, counts, live, room);
    read_ledger(it);
    answer = lak_gone_since(&it->cloth, slot, gone, room, &count);
    must(!it->open || answer == (slot < it->slots ? (room < count ? LAK_NO_ROOM : LAK_DONE) : LAK_NO_SLOT), "the links that went");
    must(same(see(it), it->now), "reading changes the world");
}

/* Writes the state of a world, and keeps it; where there is no room nothing is written. */
static void write_state(tracked *it)
{
    static uint8_t bytes[STATE];
    lak_counts_of_world counts = {0, 0, 0, 0, 0, 0};
    size_t size = 7, written = 7, room = draw() % 4 == 0 ? draw() % STATE : STATE;
    lak_hash digest;
    memset(bytes, 7, sizeof bytes);
    lak_counts(&it->cloth, &counts);
    must(lak_state_size(&it->cloth, &size) == (it->open ? LAK_DONE : LAK_CLOSED), "lak_state_size answers something else");
    must(size == (it->open ? 420 + 49 * (size_t)counts.particles + counts.links : 7), "the size of a state");
    int32_t answer = lak_state_write(&it->cloth, it->name, bytes, room, &written);
    must(answer == (!it->open ? LAK_CLOSED : room < size ? LAK_NO_ROOM : LAK_DONE), "lak_state_write answers something else");
    must(written == size, "the size of a state that is written");
    for (size_t i = answer == LAK_DONE ? size : 0; i < STATE; i++)
        must(bytes[i] == 7, "what stands behind a state is left");
    if (answer == LAK_DONE) {
        memcpy(it->state, bytes, size);
        it->size = size;
        it->written = it->now;
    }
    memset(&digest, 7, sizeof digest);
    must(lak_digest(&it->cloth, it->name, &digest) == (it->open ? LAK_DONE : LAK_CLOSED), "lak_digest answers something else");
    must(it->open || digest.bytes[31] == 7, "the digest of a closed handle");
    if (answer == LAK_DONE)
        it->digest = digest;
    must(same(see(it), it->now), "writing a state changes the world");
}

/* Changes a state: a byte, its length, bytes at its end, or a place and the place before by the same. */
static void change_state(uint8_t *bytes, size_t *length)
{
    uint64_t kind = draw() % 8;
    size_t particle = 128 + 24 * (draw() % 8);
    if (kind == 0 && *length > 0)
        *length = draw() % *length;
    else if (kind == 1)
        *length += draw() % 40;
    else if (kind < 4 && *length > 300)
        for (size_t i = *length - 292 - draw() % 8; i < *length; i += 1 + draw() % 60)
            bytes[i] = (uint8_t)draw();
    else if (kind < 6 && *length > 300) {
        size_t places = 24 * ((size_t)bytes[42] << 8 | bytes[43]), low = particle + 7;
        int by = (int)(draw() % 100) - 50, here = bytes[low] + by, before = bytes[(low + places) % *length] + by;
        bytes[low] = (uint8_t)here;
        bytes[(low + places) % *length] = (uint8_t)before;
    } else if (*length > 0)
        bytes[draw() % *length] = (uint8_t)draw();
}

/* Reads a state of this handle or of another, as it was written or changed: it is refused, or it is the world's state then. */
static void read_state(tracked *it)
{
    static uint8_t bytes[STATE], again[STATE];
    const tracked *from = draw() % 4 == 0 ? &handles[draw() % HANDLES] : it;
    size_t length = from->size, written = 7;
    uint64_t offset = 7;
    bool changed = draw() % 2 == 0;
    lak_hash digest;
    memcpy(bytes, from->state, length);
    if (changed)
        change_state(bytes, &length);
    changed = changed && (length != from->size || memcmp(bytes, from->state, length) != 0);
    int32_t answer = lak_state_read(&it->cloth, it->name, bytes, length, &offset);
    seen now = see(it);
    must(it->open ? answer == LAK_DONE || answer == LAK_NO_STATE : answer == LAK_CLOSED, "lak_state_read answers something else");
    must(answer == LAK_NO_STATE ? offset <= length : offset == 7, "where a state goes wrong");
    must(answer == LAK_DONE || same(now, it->now), "what is no state changes the world");
    if (answer == LAK_DONE) {
        must(lak_state_write(&it->cloth, it->name, again, STATE, &written) == LAK_DONE && written == length, "a state that was read");
        must(memcmp(bytes, again, length) == 0, "the world has another state than what was read");
        taken += changed;
    }
    if (from == it && it->size > 0 && !changed) {
        must(answer == LAK_DONE && same(now, it->written), "a state that was written is read back");
        must(lak_digest(&it->cloth, it->name, &digest) == LAK_DONE, "lak_digest answers something else");
        must(memcmp(&digest, &it->digest, sizeof digest) == 0, "a world that was read has its digest");
    }
    it->now = now;
}

/* A log replays with the status of its recording; with one byte changed it answers something that it may, within the room. */
static void replay_some(uint8_t *log, size_t length, int32_t recorded)
{
    static uint8_t output[65536];
    size_t written = 7, room = draw() % 4 == 0 ? draw() % 2048 : sizeof output;
    lak_stop stop;
    int32_t status = lak_replay(log, length, output, sizeof output, &written, &stop);
    must(status == recorded && stop.offset == 0 && stop.entry == 0 && stop.field == 0, "a log replays as it was recorded");
    log[draw() % length] = (uint8_t)draw();
    status = lak_replay(log, length, output, room, &written, &stop);
    bool differs = status == LAK_MISMATCH, ended = status == LAK_DONE || status == LAK_SOME_REFUSED || differs;
    must(ended || status == LAK_NO_LOG_ROOM || status == LAK_LOG_REFUSED || is_of_scene(status), "a replay answers something else");
    must(written <= room && (written > 0) == ended, "the length of a replay's text");
    must(differs == (stop.entry > 0) && differs == (stop.field > 0) && stop.field <= 13, "where a replay stopped");
    must(stop.offset <= length && (status == LAK_LOG_REFUSED || stop.offset == 0), "where a log goes wrong");
}

static void record_some(void)
{
    static char text[2048], script[64];
    static uint8_t log[65536];
    size_t length = scene(text, sizeof text), written = 7, room = draw() % 4 == 0 ? draw() % 2048 : sizeof log;
    size_t lines = (size_t)snprintf(script, sizeof script, "step %d\nframe\ncut %d\n", (int)(draw() % 5), (int)(draw() % 40));
    int32_t status = lak_record((const uint8_t *)text, length, (const uint8_t *)script, lines, log, room, &written);
    bool ended = status == LAK_DONE || status == LAK_SOME_REFUSED;
    must(ended || status == LAK_NO_LOG_ROOM || is_of_scene(status), "a record answers something else");
    must(written <= room && (written > 0) == ended, "the length of a log");
    if (written > 0)
        replay_some(log, written, status);
}

static void call(void)
{
    tracked *it = &handles[draw() % HANDLES];
    lak_left left;
    uint64_t kind = draw() % 37;
    calls++;
    if (kind == 0)
        open_some(it);
    else if (kind == 1)
        open_with_mesh(it);
    else if (kind == 2 && draw() % 8 == 0)
        close_one(it);
    else if (kind < 8)
        after_command(it, lak_step(&it->cloth, draw() % 4 == 0 ? number() % 300 : 1 + draw() % 3, &left));
    else if (kind < 10)
        after_command(it, lak_pin(&it->cloth, number()));
    else if (kind < 12)
        after_command(it, lak_unpin(&it->cloth, number()));
    else if (kind < 16)
        after_command(it, lak_move(&it->cloth, number(), place()));
    else if (kind == 16)
        after_command(it, lak_cut(&it->cloth, number()));
    else if (kind == 17)
        cut_many(it);
    else if (kind < 20)
        after_command(it, lak_gravity(&it->cloth, draw() % 4 ? (lak_vec3) {0, -(int64_t)(draw() % 300), 0} : place()));
    else if (kind == 20)
        look_at_slot(it);
    else if (kind < 26)
        save_or_restore(it);
    else if (kind < 31)
        read_some(it);
    else if (kind < 33)
        write_state(it);
    else if (kind < 35)
        read_state(it);
    else if (kind == 35)
        cut_mesh();
    else if (draw() % 8 == 0)
        record_some();
}

int main(int argc, char **argv)
{
    time_t end = time(NULL) + (argc > 1 ? atoi(argv[1]) : 1);
    state = argc > 2 ? strtoull(argv[2], NULL, 10) | 1 : 88172645463325252u;
    while (time(NULL) < end)
        for (int i = 0; i < 100; i++)
            call();
    for (int i = 0; i < HANDLES; i++)
        lak_close(&handles[i].cloth);
    printf("fuzz: %" PRIu64 " calls, %" PRIu64 " worlds opened, %" PRIu64 " of them with a mesh, %" PRIu64 " changed states taken\n",
           calls, opened, with_mesh, taken);
    return 0;
}
