/*
 * Lakmozet for programs in C and C++: cloth and ropes that are the same, to the bit, on every machine.
 *
 * What to link is what tools/install puts into a folder, or an archive; docs/EMBEDDING.md has the commands.
 *
 * Every call is total: no argument of its type breaks it, none aborts, and each but lak_version and lak_close answers a number.
 * What the exports promise is proved of the sources; that these lines agree with the archive is tested by tools/embed-check.
 *
 * What no call ever does: it starts no thread, uses no lock but malloc's, no locale, no file, no clock and no floating point (but
 * to read a float in a scene's text, which no scene may have), and it writes nowhere but through its arguments and into what the
 * handle holds. After lak_open or lak_open_mesh no call on a handle takes memory, until lak_close gives it back.
 * lak_mesh_triangles, lak_record and lak_replay, which have no handle, take memory and give it back before they return.
 *
 * What a caller has to take care of, and nothing checks:
 *   - A handle is all zero bytes ({0} in C, {} in C++) or what the last call left. It may be moved, and is never copied and
 *     used twice. Its members are not for use.
 *   - A handle is used by one call at a time, on any thread: where a call follows one of another thread, something stands
 *     between them that orders the two, as a lock, a join or a message does. Handles of their own share nothing but malloc.
 *   - Pointers are not null, also where a length is 0; they have room for what their type and length say, and are aligned.
 *   - Arguments of one call don't overlap.
 *   - malloc, realloc and free are one allocator's, whose blocks are aligned as C asks. No call is made from a signal handler,
 *     or in the forked child of a process with threads.
 *
 * Lengths are in units of 1/65,536 metre; velocities are per step, and gravity is per step squared. There is no time step: at
 * 60 steps a second, about 9.81 m/s2 is 179.
 */
#ifndef LAKMOZET_H
#define LAKMOZET_H

#include <stdbool.h>
#include <stddef.h>
#include <stdint.h>

/* The version of this header. lak_version tells the library's; lock step demands that all machines have one version. */
#define LAK_VERSION_MAJOR 0
#define LAK_VERSION_MINOR 1
#define LAK_VERSION_PATCH 0
#define LAK_VERSION "0.1.0"

#ifdef __cplusplus
extern "C" {
#endif

/* A cloth in memory of the library's, or nothing. */
typedef struct {
    void *at;
    bool full;
} lak_cloth;

/* A place or a vector. Places are within 2^29 = 536,870,912 on each axis, 8,192 metres. */
typedef struct {
    int64_t x, y, z;
} lak_vec3;

/* What is wrong with a scene, and where: see lak_open. What an answer doesn't tell is 0. */
typedef struct {
    uint64_t offset;   /* of a text that is no TOML: where its reader stopped. Proved is that it is at most the text's length */
    uint32_t position; /* in the array of the table, from 0 */
    uint8_t rule;      /* 2 to 11: see lak_rule_name */
    uint8_t table;     /* 0 to 7: see lak_table_name */
    uint8_t key;       /* 0 to 34: see lak_key_name */
} lak_fault;

/* How a mesh is made cloth: see lak_open_mesh. */
typedef struct {
    int64_t stretch_tear, shear_tear, bend_tear; /* the lengths above which links tear, 0 where they never do, at most 2^31 */
    uint16_t weight;                             /* of each vertex, from 1 */
    uint16_t stretch, shear, bend;               /* how stiff links are, in 256ths, at most 256 */
    uint8_t bends;                               /* 0 for no bend links: `bend` and `bend_tear` say nothing then */
} lak_mesh_settings;

/* What is wrong with a mesh, and where: see lak_open_mesh and lak_mesh_triangles. What an answer doesn't tell is 0. */
typedef struct {
    uint64_t number; /* of a vertex or a face, from 0 */
    uint8_t rule;    /* 1 to 6: see lak_mesh_rule_name */
} lak_mesh_fault;

/* Where a step was refused: see lak_step. */
typedef struct {
    uint64_t step;    /* counted from opening: the step that would have been reached */
    uint32_t element; /* which particle, link or contact of the phase, as the program's reply tells it */
    uint8_t phase;    /* 1 predict, 2 link, 3 contact, 4 shape */
} lak_left;

/* What two machines compare: equal worlds have equal sums. */
typedef struct {
    uint64_t steps;             /* taken so far, at most 1,000,000 */
    uint32_t live, contacts;    /* live links, and contacts that the last step found */
    int64_t at[3], before[3];   /* the sums of all places, and of those that lak_places_before writes */
} lak_sums_of_world;

/* A SHA-256 digest: the name of a scene, or what two machines compare. */
typedef struct {
    uint8_t bytes[32];
} lak_hash;

/* Where a replay stopped: see lak_replay. */
typedef struct {
    uint64_t offset; /* how many bytes stand before the part that can't be read */
    uint64_t entry;  /* the first that differs, from 1 */
    uint8_t field;   /* 1 to 13: see lak_field_name */
} lak_stop;

/* A link, live or not: see lak_links. */
typedef struct {
    int64_t rest;       /* the rest length */
    int64_t tear;       /* the length above which it tears, 0 where it never does */
    uint32_t a, b;      /* the numbers of its ends */
    uint16_t stiffness; /* in 256ths, at most 256 */
    uint8_t kind;       /* 0 stretch, 1 shear, 2 bend, 3 a link of the scene's own */
    uint8_t live;       /* 1 where it is live, 0 where it was cut or torn */
} lak_link;

/* A number of 128 bits: high * 2^64 + low. */
typedef struct {
    uint64_t low;
    int64_t high;
} lak_wide;

/*
 * The momentum of the particles that aren't held (the sum of their velocities, axis by axis), that at opening, and the totals of
 * what moved it since, one for each cause: momentum is opening and the six totals together.
 */
typedef struct {
    lak_wide momentum[3], opening[3];
    lak_wide gravity[3], damping[3], link[3], contact[3], pin[3], shape[3];
} lak_ledger_of_world;

/* A version, as Semantic Versioning counts it. */
typedef struct {
    uint32_t major, minor, patch;
} lak_version_of_library;

/* How many of everything there are. */
typedef struct {
    uint64_t steps;     /* taken so far, at most 1,000,000 */
    uint32_t particles; /* at most 65,536 */
    uint32_t links;     /* live ones and others, at most 524,288 */
    uint32_t live;      /* live links */
    uint32_t contacts;  /* that the last step found, at most 262,144 */
    uint32_t slots;     /* at most 16 */
} lak_counts_of_world;

/* LAK_DONE, and the library's own answers, of which each call on a handle but opening and closing may answer LAK_CLOSED. */
enum {
    LAK_DONE = 0,
    LAK_CLOSED = 64,  /* the handle holds nothing; nothing was done, and nothing written but zeros into `left` */
    LAK_IN_USE = 65,  /* lak_open, lak_open_mesh: the handle holds a cloth, which it keeps */
    LAK_NO_SLOT = 66, /* there is no such slot; lak_open, lak_open_mesh: more than 16 slots */
    LAK_NO_ROOM = 67, /* not all was written, or nothing of a state: the memory is too short. The count says how much there is */
    LAK_NO_STATE = 68 /* lak_state_read: the bytes are no state of the scene; where they go wrong is told */
};

/* Refusals of commands, as the program numbers them. After one of these the world is exactly what it was. */
enum {
    LAK_BAD_COMMAND = 1,       /* never comes from these calls */
    LAK_NO_PARTICLE = 2,       /* no particle has this number */
    LAK_NO_LINK = 3,           /* no link has this number; lak_link_between: none joins the two */
    LAK_LINK_GONE = 4,         /* the link was cut or torn before */
    LAK_OUT_OF_RANGE = 5,      /* the place or the gravity is outside the limit */
    LAK_NOT_HELD = 6,          /* the particle is free */
    LAK_HELD = 7,              /* the particle is held already */
    LAK_TRACKED = 8,           /* a track leads the particle */
    LAK_BAD_COUNT = 9,         /* no steps, or more than 100,000 */
    LAK_STEP_LIMIT = 10,       /* the world would come past step 1,000,000 */
    LAK_LEAVES_RANGE = 11,     /* in a step a place left the range */
    LAK_TOO_MANY_CONTACTS = 12 /* in a step there were more than 262,144 contacts */
};

/*
 * What lak_open, lak_open_mesh, lak_mesh_triangles, lak_record and lak_replay answer beside: the program's statuses, with 32 added
 * to each.
 */
enum {
    LAK_NO_LOG_ROOM = 35,    /* lak_record, lak_replay: there are more bytes than `room` */
    LAK_TOO_LONG = 36,       /* lak_record: the scene or the script is longer than 2^24 bytes; lak_replay: the log than 2^27 */
    LAK_SCENE_NOT_TEXT = 38, /* the scene is no UTF-8 */
    LAK_SCENE_NOT_TOML = 39, /* the scene is no TOML, or deeper or longer than is read (docs/FORMATS.md) */
    LAK_SCENE_REFUSED = 40,  /* the scene breaks a rule, which lak_open and lak_open_mesh tell */
    LAK_LOG_REFUSED = 41,    /* lak_replay: the bytes are no log; where they stop being one is told */
    LAK_MISMATCH = 42,       /* lak_replay: an entry differs, which is told */
    LAK_SOME_REFUSED = 43,   /* lak_record, lak_replay: all went well, but a command was refused */
    LAK_OUT_OF_MEMORY = 44,  /* there was no memory; when that is, no clause says */
    LAK_MESH_REFUSED = 46    /* lak_open_mesh, lak_mesh_triangles: the mesh or its settings break a rule, which is told */
};

/* ---- opening and closing */

/* Writes the version of the library. */
void lak_version(lak_version_of_library *version);

/*
 * Opens the scene of a TOML text of `length` bytes (docs/FORMATS.md has its keys), with `slots` slots for lak_save, at most 16.
 * Each slot has the opened world at first. With lak_open_mesh the only call on a handle that takes memory. The text isn't kept.
 *
 * LAK_DONE: the handle holds the world of the scene, before its first command. `fault` is left as it was.
 * LAK_IN_USE: the handle keeps what it holds, and `fault` is left as it was.
 * LAK_NO_SLOT, LAK_SCENE_NOT_TEXT, LAK_SCENE_NOT_TOML, LAK_SCENE_REFUSED, LAK_OUT_OF_MEMORY: the handle stays closed, and
 * `fault` has the offset of LAK_SCENE_NOT_TOML, or the rule, the table, the position and the key of LAK_SCENE_REFUSED, and
 * zeros beside.
 */
int32_t lak_open(lak_cloth *cloth, const uint8_t *toml, size_t length, uint32_t slots, lak_fault *fault);

/*
 * The same with a mesh behind the scene, whose text may be empty: its vertices are the particles after those of the scene, free
 * and at rest. Each face has so many corners as `sizes` says, three or more; `corners` has those of all faces, one face after
 * another, as numbers of vertices from 0, and no face names a vertex twice. Nothing of them is kept.
 *
 * The links come behind those of the scene: along the sides of each face, then across each face with four corners, and where
 * `bends` isn't 0 across each edge that exactly two faces share, from the corner beside each of its ends in one to the corner
 * beside that end in the other, unless both are one vertex. Of those that join the same two particles the first alone is a link.
 * With the weight 1, stiffness 256, no tearing and no bend links the world is that of the program's `obj`.
 *
 * Answers as lak_open's, and LAK_MESH_REFUSED: the handle stays closed, and `mesh_fault` has the first rule that is broken, the
 * settings first, then the number of corners, the vertices, the faces, and then what they make together:
 * 1 a vertex is outside the range, 2 a face isn't three or more different vertices, 3 the sizes don't sum up to the number of
 * corners, 4 a setting is out of its range, 5 there would be more than 65,536 particles or 524,288 links, 6 a link of the mesh
 * would be the 33rd at a vertex. `number` is the vertex of 1 and 6, the face of 2, and 0 else. With the other answers for which
 * the handle stays closed `mesh_fault` has zeros, and with LAK_MESH_REFUSED `fault` has. With LAK_DONE and LAK_IN_USE both are
 * left as they were. The scene is looked at before the mesh.
 */
int32_t lak_open_mesh(lak_cloth *cloth, const uint8_t *toml, size_t length, const lak_vec3 *vertices, size_t vertex_count,
                      const uint32_t *sizes, size_t face_count, const uint32_t *corners, size_t corner_count,
                      lak_mesh_settings settings, uint32_t slots, lak_fault *fault, lak_mesh_fault *mesh_fault);

/* Gives all memory back. The handle is closed then; a closed one stays closed. */
void lak_close(lak_cloth *cloth);

/* ---- commands: LAK_DONE, LAK_CLOSED, or a refusal, after which nothing is changed. No command changes a slot. */

/*
 * Takes n steps, 1 to 100,000, or none at all. Answers LAK_BAD_COUNT, LAK_STEP_LIMIT, LAK_LEAVES_RANGE (`left` says in which
 * step, phase and element) or LAK_TOO_MANY_CONTACTS (`left` says in which step). `left` has zeros where an answer says no such
 * thing.
 */
int32_t lak_step(lak_cloth *cloth, uint64_t n, lak_left *left);

/* Holds a particle where it is. Answers LAK_NO_PARTICLE or LAK_HELD. */
int32_t lak_pin(lak_cloth *cloth, uint64_t particle);

/* Frees a particle, at rest. Answers LAK_NO_PARTICLE, LAK_NOT_HELD or LAK_TRACKED. */
int32_t lak_unpin(lak_cloth *cloth, uint64_t particle);

/* Puts a held particle at a place. Answers LAK_NO_PARTICLE, LAK_OUT_OF_RANGE, LAK_NOT_HELD or LAK_TRACKED. */
int32_t lak_move(lak_cloth *cloth, uint64_t particle, lak_vec3 to);

/* Lets a link go. Answers LAK_NO_LINK or LAK_LINK_GONE. */
int32_t lak_cut(lak_cloth *cloth, uint64_t link);

/*
 * Lets `length` links go, one after another, each as lak_cut does. Cuts that are refused change nothing; `refused` says how many
 * were. Answers LAK_DONE or LAK_CLOSED.
 */
int32_t lak_cut_many(lak_cloth *cloth, const uint32_t *links, size_t length, size_t *refused);

/* Sets gravity, within 2^29 on each axis. Answers LAK_OUT_OF_RANGE. */
int32_t lak_gravity(lak_cloth *cloth, lak_vec3 gravity);

/* ---- slots: LAK_DONE, LAK_CLOSED, or LAK_NO_SLOT, after which nothing is changed */

/* Keeps the whole world in a slot, from 0. No other slot changes. Takes no memory, and always succeeds where there is a slot. */
int32_t lak_save(lak_cloth *cloth, uint32_t slot);

/* Goes back to the world in a slot: the same commands come to the same from there as after lak_save. No slot changes. */
int32_t lak_restore(lak_cloth *cloth, uint32_t slot);

/* ---- reading: LAK_DONE, LAK_CLOSED, or what is said below. No reading call changes what the handle holds. */

int32_t lak_counts(lak_cloth *cloth, lak_counts_of_world *counts);
int32_t lak_sums(lak_cloth *cloth, lak_sums_of_world *sums);

/* How many contacts the last step found, as lak_counts tells it too. A world keeps how many, and not which. */
int32_t lak_contacts(lak_cloth *cloth, uint64_t *contacts);

/* Gravity, as it is now. */
int32_t lak_gravity_now(lak_cloth *cloth, lak_vec3 *gravity);

/* Where momentum came from and went, as the program's command `ledger` tells it. */
int32_t lak_ledger(lak_cloth *cloth, lak_ledger_of_world *ledger);

/* The number of the link that joins two particles, in either order, live or not: no two links join the same. Answers LAK_NO_LINK,
 * and leaves `link`, where there is none. */
int32_t lak_link_between(lak_cloth *cloth, uint32_t a, uint32_t b, uint32_t *link);

/*
 * Lists: these write as many as there is room for, in `count` how many there are, and leave what stands behind them. They
 * answer LAK_NO_ROOM where not all fit. Where they answer LAK_CLOSED or LAK_NO_SLOT they write nothing.
 */

/* The places of all particles, in the order of their numbers. */
int32_t lak_places(lak_cloth *cloth, lak_vec3 *into, size_t room, uint32_t *count);

/* Their places one step before, as friction and commands left them: the difference is a particle's velocity. */
int32_t lak_places_before(lak_cloth *cloth, lak_vec3 *into, size_t room, uint32_t *count);

/* A 1 for each held particle and a 0 for each other, in the order of their numbers. */
int32_t lak_held(lak_cloth *cloth, uint8_t *into, size_t room, uint32_t *count);

/* All links, in the order of their numbers. Only `live` ever changes. */
int32_t lak_links(lak_cloth *cloth, lak_link *into, size_t room, uint32_t *count);

/* A 1 for each live link and a 0 for each other, in the order of their numbers. */
int32_t lak_live(lak_cloth *cloth, uint8_t *into, size_t room, uint32_t *count);

/* The numbers, ascending, of the links that are live in a slot's world and are so no longer. Answers LAK_NO_SLOT too. */
int32_t lak_gone_since(lak_cloth *cloth, uint32_t slot, uint32_t *into, size_t room, uint32_t *count);

/* ---- the world as bytes: saved games, players who join late, and what two machines compare */

/*
 * Writes the name of the handle's scene: the SHA-256 digest of all of it that no command changes, however it was opened. A state
 * carries the `name` that it is written with, and is refused under any other. The scene's is the same for all its worlds, so an
 * engine asks once and keeps it beside the handle. LAK_DONE or LAK_CLOSED. docs/FORMATS.md has the bytes of a scene and of a state.
 */
int32_t lak_scene_name(lak_cloth *cloth, lak_hash *name);

/* How many bytes a state of the handle's scene has, at most 3,735,972: the same for all its worlds. LAK_DONE or LAK_CLOSED. */
int32_t lak_state_size(lak_cloth *cloth, size_t *size);

/*
 * Writes the state of the world: all of it that commands change, and nothing of the slots. `size` says how many bytes it has.
 * LAK_DONE, LAK_CLOSED, or LAK_NO_ROOM, and then `into` is left. Takes no memory.
 */
int32_t lak_state_write(lak_cloth *cloth, lak_hash name, uint8_t *into, size_t room, size_t *size);

/*
 * Goes over to the world whose state the bytes are, on a handle that was opened on the scene. The same commands come to the
 * same from there as where it was written. No slot changes. Takes no memory. LAK_DONE, LAK_CLOSED, or LAK_NO_STATE, and then
 * nothing changes, and `offset` says how many bytes stand before the one that can't stand there, before the end where bytes are
 * missing, or before the field that is unsound. Bytes of anybody can be handed in: what is taken is a sound world of the scene,
 * and its state is those bytes.
 */
int32_t lak_state_read(lak_cloth *cloth, lak_hash name, const uint8_t *state, size_t length, uint64_t *offset);

/*
 * Writes the SHA-256 digest of the state. Equal worlds have equal digests under one name, and worlds of one scene that differ in
 * anything have different states. LAK_DONE or LAK_CLOSED.
 */
int32_t lak_digest(lak_cloth *cloth, lak_hash name, lak_hash *digest);

/* The same of the world in a slot, as of a turn that all machines have confirmed. Answers LAK_NO_SLOT too, and then leaves
 * `digest`. */
int32_t lak_digest_slot(lak_cloth *cloth, uint32_t slot, lak_hash name, lak_hash *digest);

/*
 * Writes the checksum of the world, which costs a small part of a digest: for each turn. Equal worlds have equal checksums, and
 * where exactly one number of 64 bits differs, so do they; other worlds may have equal ones, and whoever tries finds such.
 * docs/FORMATS.md has the sum. LAK_DONE or LAK_CLOSED.
 */
int32_t lak_checksum(lak_cloth *cloth, uint64_t *sum);

/* The same of the world in a slot. Answers LAK_NO_SLOT too, and then leaves `sum`. */
int32_t lak_checksum_slot(lak_cloth *cloth, uint32_t slot, uint64_t *sum);

/* ---- to draw: triangles, as numbers of particles or of vertices */

/*
 * Writes the triangles of a cloth of the scene (a table `[[cloth]]`) whose first particle is number `first`: two for each cell of
 * its rows and columns, turned alike. It writes as many as there is room for, and says how many there are. They don't follow
 * links that are cut or torn: a program that draws holes leaves out the triangles along whose sides a link is gone.
 */
static inline size_t lak_cloth_triangles(uint32_t first, uint32_t rows, uint32_t columns, uint32_t (*into)[3], size_t room)
{
    size_t count = 0;
    for (uint32_t row = 0; row + 1 < rows; row++)
        for (uint32_t column = 0; column + 1 < columns; column++) {
            const uint32_t here = first + row * columns + column, below = here + columns;
            const uint32_t both[2][3] = {{here, below, here + 1}, {here + 1, below, below + 1}};
            for (int half = 0; half < 2; half++, count++)
                for (int corner = 0; corner < 3 && count < room; corner++)
                    into[count][corner] = both[half][corner];
        }
    return count;
}

/*
 * Writes the triangles of a mesh, given as lak_open_mesh takes it, as numbers of its vertices from 0: face by face, each from its
 * first corner to the sides that aren't at it, so that a face a b c d is a b c and a c d. A face of n corners is n - 2. It writes
 * as many as there is room for, in `count` how many there are, and leaves what stands behind them. Where the scene has n particles
 * of its own, vertex v is particle n + v. The triangles don't follow links that are cut or torn.
 *
 * LAK_DONE, LAK_NO_ROOM: they are written, or as many as fit; `mesh_fault` is left as it was. LAK_MESH_REFUSED: `mesh_fault` has
 * the rule 1, 2 or 3 of lak_open_mesh, the first that is broken in its order, and its vertex or face. LAK_OUT_OF_MEMORY:
 * `mesh_fault` has zeros. With these two nothing else is written.
 */
int32_t lak_mesh_triangles(const lak_vec3 *vertices, size_t vertex_count, const uint32_t *sizes, size_t face_count,
                           const uint32_t *corners, size_t corner_count, uint32_t (*into)[3], size_t room, size_t *count,
                           lak_mesh_fault *mesh_fault);

/* ---- whole runs, from bytes to bytes */

/*
 * Runs a script (docs/FORMATS.md has its lines) on the scene of a TOML text, each of at most 2^24 bytes, and writes the log of
 * the session into `output`, which is `room` bytes long; `written` says how many bytes it has. It is a log as the program's
 * `record` writes. The lines of commands that were played by calls are written by lakmozet_lines.h.
 *
 * LAK_DONE, LAK_SOME_REFUSED: the log is written. LAK_NO_LOG_ROOM: the log has more bytes than `room`. LAK_TOO_LONG: the scene
 * or the script is longer than 2^24 bytes. With these two, LAK_SCENE_NOT_TEXT, LAK_SCENE_NOT_TOML, LAK_SCENE_REFUSED and
 * LAK_OUT_OF_MEMORY `written` is 0. What stands in `output` behind `written` bytes is left as it was.
 */
int32_t lak_record(const uint8_t *scene, size_t scene_length, const uint8_t *script, size_t script_length, uint8_t *output,
                   size_t room, size_t *written);

/*
 * Replays a log of version 1 or 2, of at most 2^27 bytes, and writes text into `output`, which is `room` bytes long; `written`
 * says how many bytes it has. It is the text that the program's `replay` writes of that log: the replies of its commands, and
 * where an entry differs from what the session answers, those before it and the line of the mismatch.
 *
 * LAK_DONE, LAK_SOME_REFUSED: the text is written, and the answers and sums of all entries agree; no sum sees what a link moves
 * between two free ends of one weight. LAK_MISMATCH: the text is written, and `stop` has the first entry that differs, from 1,
 * and its first field that does. LAK_LOG_REFUSED: `written` is 0, and `stop` has the offset. LAK_NO_LOG_ROOM: the text has more
 * bytes than `room`. LAK_TOO_LONG: the log is longer than 2^27 bytes. With these two, LAK_SCENE_NOT_TEXT, LAK_SCENE_NOT_TOML,
 * LAK_SCENE_REFUSED (of the scene in the log) and LAK_OUT_OF_MEMORY `written` is 0. What an answer doesn't tell is 0 in `stop`,
 * and what stands in `output` behind `written` bytes is left as it was.
 */
int32_t lak_replay(const uint8_t *log, size_t length, uint8_t *output, size_t room, size_t *written, lak_stop *stop);

/* ---- names: of refusals, rules of scenes, tables, keys and fields as the program prints them, of others the library's own */

/* Of an answer: a refusal, a status, or one of the library's own. No two of them have one number. */
static inline const char *lak_answer_name(int32_t answer)
{
    static const char *const refusals[] = {"Done", "BadCommand", "NoParticle", "NoLink", "LinkGone", "OutOfRange", "NotHeld", "Held",
                                           "Tracked", "BadCount", "StepLimit", "LeavesRange", "TooManyContacts"};
    static const char *const statuses[] = {"NoLogRoom", "TooLong", "-", "SceneNotText", "SceneNotToml", "SceneRefused",
                                           "LogRefused", "Mismatch", "SomeRefused", "OutOfMemory", "-", "MeshRefused"};
    static const char *const own[] = {"Closed", "InUse", "NoSlot", "NoRoom", "NoState"};
    if (LAK_DONE <= answer && answer <= LAK_TOO_MANY_CONTACTS)
        return refusals[answer];
    if (LAK_NO_LOG_ROOM <= answer && answer <= LAK_MESH_REFUSED)
        return statuses[answer - LAK_NO_LOG_ROOM];
    return LAK_CLOSED <= answer && answer <= LAK_NO_STATE ? own[answer - LAK_CLOSED] : "-";
}

static inline const char *lak_rule_name(uint8_t rule)
{
    static const char *const names[] = {"UnknownKey", "MissingKey", "WrongType", "OutOfRange", "TooMany",
                                        "BadIndex", "SelfLink", "DoubleLink", "TooManyAtParticle", "BadTrack"};
    return 2 <= rule && rule <= 11 ? names[rule - 2] : "-";
}

static inline const char *lak_mesh_rule_name(uint8_t rule)
{
    static const char *const names[] = {"OutOfRange", "BadFace", "BadCount", "BadSettings", "TooMany", "TooManyAtParticle"};
    return 1 <= rule && rule <= 6 ? names[rule - 1] : "-";
}

static inline const char *lak_table_name(uint8_t table)
{
    static const char *const names[] = {"scene", "particle", "cloth", "rope", "link", "plane", "sphere", "track"};
    return table <= 7 ? names[table] : "-";
}

static inline const char *lak_key_name(uint8_t key)
{
    static const char *const names[] = {
        "-", "gravity", "passes", "damping", "thickness", "friction", "pins", "at", "velocity", "weight", "held", "origin",
        "across", "down", "rows", "columns", "stretch", "shear", "bend", "stretch_tear", "shear_tear", "bend_tear", "spacing",
        "count", "a", "b", "rest", "stiffness", "tear", "normal", "offset", "centre", "radius", "particle", "keys"};
    return key <= 34 ? names[key] : "-";
}

static inline const char *lak_field_name(uint8_t field)
{
    static const char *const names[] = {"answer", "step", "phase", "element", "steps", "live", "contacts",
                                        "x", "y", "z", "before-x", "before-y", "before-z"};
    return 1 <= field && field <= 13 ? names[field - 1] : "-";
}

#ifdef __cplusplus
}
#endif

#endif
