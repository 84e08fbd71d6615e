/*
 * Hands bytes as a hostile peer could send them to lak_state_read, on two small worlds: hostile STRIDE ROUNDS. They are every
 * prefix of a state, the state with bytes behind it, every byte of it changed to each STRIDE-th of 256 values, each number at and
 * beyond its bounds, with the ledger balanced again and without, ROUNDS states with several of that at once, those of another
 * scene, and 16 MB of noise. Where each goes wrong is reckoned here once more, as docs/FORMATS.md says it. What goes wrong is
 * refused exactly there, and leaves the world as it was; what doesn't is taken, and then the world's state is those bytes.
 */
#include "lakmozet.h"

#include <inttypes.h>
#include <stdio.h>
#include <stdlib.h>
#include <string.h>

__extension__ typedef __int128 wide;
__extension__ typedef unsigned __int128 wrapping;

enum { LIMIT = 1 << 29, MOST_STEPS = 1000000, MOST_CONTACTS = 262144, ROOM = 1024, HEADER = 96, TAKEN = -1 };
static const size_t NOISE = 1 << 24;

/* A scene, and what its worlds have to keep to. */
typedef struct {
    const char *text;
    bool is_damped, weigh_alike;
    uint32_t tracked; /* the particle that a track leads, or one that isn't there */
} scene;

static const scene scenes[] = {
    {"gravity = [0, -179, 0]\npins = [0]\n[[rope]]\norigin = [0, 131072, 0]\nspacing = [6554, 0, 0]\ncount = 4\n", false, true, 9},
    {"gravity = [3, -179, 0]\npins = [0]\ndamping = 9\nthickness = 7000\nfriction = 60\n"
     "[[particle]]\nat = [0, 9000, 0]\nweight = 2\n[[particle]]\nat = [6000, 9000, 0]\nvelocity = [5, 0, -7]\n"
     "[[particle]]\nat = [0, 3000, 0]\nweight = 3\n[[particle]]\nat = [9000, 15000, 0]\n"
     "[[link]]\na = 0\nb = 1\nrest = 5000\n[[link]]\na = 1\nb = 2\nrest = 7000\ntear = 9000\n[[link]]\na = 2\nb = 3\nrest = 9000\n"
     "[[plane]]\nnormal = [0, 1, 0]\noffset = 0\n"
     "[[track]]\nparticle = 3\nkeys = [[0, 9000, 15000, 0], [1000, 9000, 90000, 0]]\n", true, false, 3},
};

static const scene *of;
static lak_cloth cloth;
static lak_hash name;
static uint8_t state[ROOM], foreign[ROOM]; /* the state of the world that is kept, and that of another scene */
static size_t size, foreign_size;
static size_t particles, links;
static uint64_t given, taken, random_state = 88172645463325252u;

static uint64_t draw(void)
{
    random_state ^= random_state << 13;
    random_state ^= random_state >> 7;
    random_state ^= random_state << 17;
    return random_state;
}

static void must(bool test, const char *what)
{
    if (!test) {
        printf("hostile: after %" PRIu64 " states: %s\n", given, what);
        exit(1);
    }
}

/* ---- numbers of a state */

static uint64_t word(const uint8_t *bytes, size_t at, size_t width)
{
    uint64_t value = 0;
    for (size_t i = 0; i < width; i++)
        value = value << 8 | bytes[at + i];
    return value;
}

static int64_t axis(const uint8_t *bytes, size_t at)
{
    return (int64_t)word(bytes, at, 8);
}

static wide sum(const uint8_t *bytes, size_t at)
{
    return (wide)axis(bytes, at) * ((wide)1 << 64) + word(bytes, at + 8, 8);
}

static void put(uint8_t *bytes, size_t at, size_t width, wide value)
{
    for (size_t i = width; i-- > 0; value >>= 8)
        bytes[at + i] = (uint8_t)value;
}

static size_t held_at(void)
{
    return 128 + 48 * particles;
}

static size_t contacts_at(void)
{
    return held_at() + particles + links;
}

/* The totals of gravity, damping, link, contact, shape and pin, from 0, axis by axis. */
static size_t total_at(int total, int on)
{
    return contacts_at() + 4 + 48 * (size_t)total + 16 * (size_t)on;
}

/* ---- where bytes go wrong */

/* The first byte that isn't the scene's or no flag, or the end, where bytes are missing or follow. */
static int64_t wrong_form(const uint8_t *bytes, size_t length)
{
    for (size_t i = 0; i < length && i < size; i++) {
        const bool is_flag = held_at() <= i && i < contacts_at();
        if ((i < HEADER && bytes[i] != state[i]) || (is_flag && bytes[i] > 1))
            return (int64_t)i;
    }
    return length == size ? TAKEN : (int64_t)(length < size ? length : size);
}

/* The first of some vectors that is outside the limit. */
static int64_t outside(const uint8_t *bytes, size_t at, size_t count)
{
    for (size_t i = 0; i < 3 * count; i++) {
        const int64_t it = axis(bytes, at + 8 * i);
        if (it < -LIMIT || LIMIT < it)
            return (int64_t)(at + i / 3 * 24);
    }
    return TAKEN;
}

static int64_t wrong_particles(const uint8_t *bytes)
{
    int64_t wrong = outside(bytes, 128, particles);
    if (wrong == TAKEN)
        wrong = outside(bytes, 128 + 24 * particles, particles);
    for (size_t i = 0; i < particles && wrong == TAKEN; i++) {
        const bool is_held = bytes[held_at() + i] == 1;
        const bool is_at_rest = memcmp(bytes + 128 + 24 * i, bytes + 128 + 24 * (particles + i), 24) == 0;
        if (i == of->tracked ? !is_held : is_held && !is_at_rest)
            wrong = (int64_t)(held_at() + i);
    }
    return wrong;
}

/*
 * What the pin total has to be on an axis: what momentum there is beyond the opening and the other totals. (it wraps where those
 * are beyond their bounds, for which a state is refused before)
 */
static wide balance(const uint8_t *bytes, int on)
{
    wrapping rest = -(wrapping)sum(bytes, 48 + 16 * (size_t)on);
    for (size_t i = 0; i < particles; i++) {
        const size_t at = 128 + 24 * i + 8 * (size_t)on;
        if (bytes[held_at() + i] == 0)
            rest += (wrapping)((wide)axis(bytes, at) - axis(bytes, at + 24 * particles));
    }
    for (int total = 0; total < 5; total++)
        rest -= (wrapping)sum(bytes, total_at(total, on));
    return (wide)rest;
}

static int64_t wrong_ledger(const uint8_t *bytes)
{
    const wide most = (wide)word(bytes, 96, 8) << 64;
    if (word(bytes, contacts_at(), 4) > MOST_CONTACTS)
        return (int64_t)contacts_at();
    for (int k = 0; k < 15; k++) {
        const int total = k / 3;
        const bool is_none = (total == 1 && !of->is_damped) || ((total == 2 || total == 3) && of->weigh_alike);
        const wide it = sum(bytes, total_at(total, k % 3)), bound = is_none ? 0 : most;
        if (it < -bound || bound < it)
            return (int64_t)total_at(total, 0);
    }
    for (int on = 0; on < 3; on++) {
        if (balance(bytes, on) != sum(bytes, total_at(5, on)))
            return (int64_t)total_at(5, 0);
    }
    return TAKEN;
}

static int64_t where_wrong(const uint8_t *bytes, size_t length)
{
    int64_t wrong = wrong_form(bytes, length);
    if (wrong == TAKEN && word(bytes, 96, 8) > MOST_STEPS)
        wrong = 96;
    if (wrong == TAKEN)
        wrong = outside(bytes, 104, 1);
    if (wrong == TAKEN)
        wrong = wrong_particles(bytes);
    return wrong == TAKEN ? wrong_ledger(bytes) : wrong;
}

/* ---- handing them in */

static bool has_state(const uint8_t *bytes)
{
    static uint8_t now[ROOM];
    size_t length = 0;
    return lak_state_write(&cloth, name, now, sizeof now, &length) == LAK_DONE && length == size && memcmp(now, bytes, size) == 0;
}

static void give(const uint8_t *bytes, size_t length)
{
    const int64_t wrong = where_wrong(bytes, length);
    uint64_t offset = 7777;
    const int32_t answer = lak_state_read(&cloth, name, bytes, length, &offset);
    given++;
    if (wrong == TAKEN) {
        taken++;
        must(answer == LAK_DONE && offset == 7777, "a sound state is refused");
        must(has_state(bytes), "the world has another state than the bytes that were taken");
        must(lak_state_read(&cloth, name, state, size, &offset) == LAK_DONE, "the world's own state is refused");
    } else {
        must(answer == LAK_NO_STATE, "bytes are taken that are no state");
        must(offset == (uint64_t)wrong, "bytes are refused at another offset");
    }
    must(has_state(state), "the world is another one");
}

/* Prefixes, each in memory of its own, and bytes behind a state. */
static void give_lengths(void)
{
    uint8_t longer[ROOM];
    for (size_t length = 0; length < size; length++) {
        uint8_t *prefix = malloc(length > 0 ? length : 1);
        must(prefix != NULL, "memory");
        memcpy(prefix, state, length);
        give(prefix, length);
        free(prefix);
    }
    memcpy(longer, state, size);
    for (int byte = 0; byte < 256; byte++) {
        longer[size] = (uint8_t)byte;
        give(longer, size + 1);
    }
}

static void give_changed_bytes(int stride)
{
    uint8_t bytes[ROOM];
    memcpy(bytes, state, size);
    for (size_t at = 0; at < size; at++) {
        for (int byte = (int)(at % (size_t)stride); byte < 256; byte += stride) {
            bytes[at] = (uint8_t)byte;
            give(bytes, size);
        }
        bytes[at] = state[at];
    }
}

static void rebalance(uint8_t *bytes)
{
    for (int on = 0; on < 3; on++)
        put(bytes, total_at(5, on), 16, balance(bytes, on));
}

/* ---- numbers at their bounds */

/* How many numbers there are that have bounds: steps, contacts, gravity, places, places before, and totals. */
static size_t numbers(void)
{
    return 2 + 3 + 6 * particles + 18;
}

/* A number: where it stands, how wide it is, and how large it may become. */
static void field(size_t k, size_t *at, size_t *width, wide *most)
{
    const size_t vectors = 1 + 2 * particles;
    *width = k == 1 ? 4 : k < 2 + 3 * vectors ? 8 : 16;
    *at = k == 0 ? 96 : k == 1 ? contacts_at() : *width == 8 ? 104 + 8 * (k - 2) : total_at(0, 0) + 16 * (k - 2 - 3 * vectors);
    *most = k == 0 ? MOST_STEPS : k == 1 ? MOST_CONTACTS : *width == 8 ? LIMIT : (wide)word(state, 96, 8) << 64;
}

/* Puts a number at one of its bounds, beyond it, or near zero. */
static void put_some(uint8_t *bytes, size_t k, size_t choice)
{
    size_t at, width;
    wide most;
    field(k, &at, &width, &most);
    const wide top = width == 16 ? (wide)INT64_MAX << 64 : (wide)1 << (8 * width - 1);
    const wide values[] = {0, 1, -1, most - 1, most, most + 1, 1 - most, -most, -most - 1, top - 1, top, -top};
    put(bytes, at, width, values[choice % (sizeof values / sizeof *values)]);
}

static void give_bounds(void)
{
    uint8_t bytes[ROOM];
    for (size_t k = 0; k < numbers(); k++) {
        for (size_t choice = 0; choice < 12; choice++) {
            memcpy(bytes, state, size);
            put_some(bytes, k, choice);
            give(bytes, size);
            rebalance(bytes);
            give(bytes, size);
        }
    }
}

/* Several changes at once: numbers, flags, particles that are moved with their velocity, and bytes. */
static void give_mixed(void)
{
    uint8_t bytes[ROOM];
    memcpy(bytes, state, size);
    for (uint64_t changes = 1 + draw() % 4; changes > 0; changes--) {
        const uint64_t kind = draw() % 8;
        const size_t i = draw() % particles, at = 128 + 24 * i + 8 * (draw() % 3);
        const int64_t by = (int64_t)(draw() % 200001) - 100000;
        if (kind < 2)
            put_some(bytes, draw() % numbers(), draw());
        else if (kind < 4)
            bytes[held_at() + draw() % (particles + links)] = draw() % 16 == 0 ? 2 : draw() % 2;
        else if (kind < 7) {
            put(bytes, at, 8, (wide)axis(bytes, at) + by);
            put(bytes, at + 24 * particles, 8, (wide)axis(bytes, at + 24 * particles) + by + (kind == 6 ? 1 : 0));
        } else
            bytes[draw() % size] = (uint8_t)draw();
    }
    if (draw() % 4 != 0)
        rebalance(bytes);
    give(bytes, size);
}

/* Noise: alone, behind a state's first bytes, behind a whole one, and in the length of one. */
static void give_noise(void)
{
    uint8_t *noise = malloc(NOISE);
    must(noise != NULL, "memory");
    for (size_t i = 0; i < NOISE; i += 8)
        put(noise, i, 8, (wide)draw());
    give(noise, NOISE);
    memcpy(noise, state, HEADER);
    give(noise, NOISE);
    give(noise, size);
    for (size_t i = held_at(); i < contacts_at(); i++)
        noise[i] &= 1;
    give(noise, NOISE);
    give(noise, size);
    memcpy(noise, state, size);
    give(noise, NOISE);
    free(noise);
}

/* ---- the worlds */

/* Opens a scene, and plays until all of a state says something. */
static void open_world(const scene *it)
{
    lak_fault fault;
    lak_left left;
    lak_counts_of_world counts;
    of = it;
    must(lak_open(&cloth, (const uint8_t *)it->text, strlen(it->text), 0, &fault) == LAK_DONE, "the scene isn't opened");
    must(lak_scene_name(&cloth, &name) == LAK_DONE, "the scene has no name");
    must(lak_step(&cloth, 20, &left) == LAK_DONE && lak_cut(&cloth, 1) == LAK_DONE, "a command is refused");
    must(lak_gravity(&cloth, (lak_vec3) {-20, -150, 30}) == LAK_DONE && lak_pin(&cloth, 2) == LAK_DONE, "a command is refused");
    must(lak_step(&cloth, 20, &left) == LAK_DONE && lak_counts(&cloth, &counts) == LAK_DONE, "a command is refused");
    particles = counts.particles;
    links = counts.links;
    must(lak_state_write(&cloth, name, state, sizeof state, &size) == LAK_DONE && size == contacts_at() + 292, "a state isn't written");
}

int main(int count, char **words)
{
    const int stride = count > 1 ? atoi(words[1]) : 1, rounds = count > 2 ? atoi(words[2]) : 10000;
    for (size_t k = 0; k < sizeof scenes / sizeof *scenes; k++) {
        open_world(&scenes[k]);
        give(state, size);
        give(foreign, foreign_size);
        give_lengths();
        give_changed_bytes(stride);
        give_bounds();
        for (int round = 0; round < rounds; round++)
            give_mixed();
        give_noise();
        lak_close(&cloth);
        memcpy(foreign, state, size);
        foreign_size = size;
    }
    printf("hostile: %" PRIu64 " states handed in, of which %" PRIu64 " were taken\n", given, taken);
    return 0;
}
