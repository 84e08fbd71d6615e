/*
 * Lakmozet for C++20: a handle that closes itself, spans for memory, and an answer from each call.
 *
 * Nothing here throws, or takes memory by itself: each function stands for one of lakmozet.h, which says what it does, its units
 * and its answers. Opening also asks for the name of the scene, which a cloth keeps. The parts stand in that header's order, and
 * what is added there gets its line here. Compile with -std=c++20, also with -fno-exceptions, and link what a C program links. An
 * empty span or text is fine, also one that points nowhere.
 */
#ifndef LAKMOZET_HPP
#define LAKMOZET_HPP

#include "lakmozet.h"

#include <array>
#include <cstddef>
#include <cstdint>
#include <optional>
#include <span>
#include <string_view>
#include <type_traits>
#include <utility>

namespace lakmozet {

using Place = lak_vec3;
using Hash = lak_hash;
using Version = lak_version_of_library;
using Fault = lak_fault;
using MeshSettings = lak_mesh_settings;
using MeshFault = lak_mesh_fault;
using Left = lak_left;
using Sums = lak_sums_of_world;
using Counts = lak_counts_of_world;
using Stop = lak_stop;
using Link = lak_link;
using Wide = lak_wide;
using Ledger = lak_ledger_of_world;

/* What a call on a cloth answers. */
enum class Answer : std::int32_t {
    Done = LAK_DONE,
    NoParticle = LAK_NO_PARTICLE,
    NoLink = LAK_NO_LINK,
    LinkGone = LAK_LINK_GONE,
    OutOfRange = LAK_OUT_OF_RANGE,
    NotHeld = LAK_NOT_HELD,
    Held = LAK_HELD,
    Tracked = LAK_TRACKED,
    BadCount = LAK_BAD_COUNT,
    StepLimit = LAK_STEP_LIMIT,
    LeavesRange = LAK_LEAVES_RANGE,
    TooManyContacts = LAK_TOO_MANY_CONTACTS,
    Closed = LAK_CLOSED,
    NoSlot = LAK_NO_SLOT,
    NoRoom = LAK_NO_ROOM,
    NoState = LAK_NO_STATE
};

/* What opening, recording, replaying and cutting a mesh into triangles answer. */
enum class Outcome : std::int32_t {
    Done = LAK_DONE,
    NoLogRoom = LAK_NO_LOG_ROOM,
    TooLong = LAK_TOO_LONG,
    SceneNotText = LAK_SCENE_NOT_TEXT,
    SceneNotToml = LAK_SCENE_NOT_TOML,
    SceneRefused = LAK_SCENE_REFUSED,
    LogRefused = LAK_LOG_REFUSED,
    Mismatch = LAK_MISMATCH,
    SomeRefused = LAK_SOME_REFUSED,
    OutOfMemory = LAK_OUT_OF_MEMORY,
    MeshRefused = LAK_MESH_REFUSED,
    InUse = LAK_IN_USE,
    NoSlot = LAK_NO_SLOT,
    NoRoom = LAK_NO_ROOM
};

/* An answer, and how many there are of a list. */
struct Listed {
    Answer answer;
    std::uint32_t count;
};

/* An answer, and how many of many cuts were refused. */
struct Cuts {
    Answer answer;
    std::size_t refused;
};

/* An answer, and how many bytes a state has. */
struct Sized {
    Answer answer;
    std::size_t size;
};

/* A mesh in memory: its vertices, how many corners each face has, and those of all faces, by number of a vertex from 0. */
struct Mesh {
    std::span<const Place> vertices;
    std::span<const std::uint32_t> sizes, corners;
};

/* Three particles, or vertices of a mesh. */
using Triangle = std::array<std::uint32_t, 3>;

/* An outcome, and how many bytes were written, or how many triangles there are. */
struct Written {
    Outcome outcome;
    std::size_t count;
};

namespace detail {

/* Where a span stands: no call wants a null pointer, also where a length is 0. */
template <class T> T *start(std::span<T> it) noexcept
{
    static std::remove_const_t<T> nothing{};
    return it.empty() ? &nothing : it.data();
}

/* (an array begins with its numbers) */
inline std::uint32_t (*start(std::span<Triangle> it) noexcept)[3]
{
    return reinterpret_cast<std::uint32_t (*)[3]>(start<Triangle>(it));
}

inline const std::uint8_t *start(std::string_view text) noexcept
{
    return reinterpret_cast<const std::uint8_t *>(text.empty() ? "" : text.data());
}

} // namespace detail

/* The version of the library. Lock step demands that all machines have one version. */
[[nodiscard]] inline Version version() noexcept
{
    Version version;
    lak_version(&version);
    return version;
}

/* A world and its slots, or nothing, and the name of its scene. It is moved, never copied, and used by one call at a time. */
class Cloth {
public:
    Cloth() noexcept = default;
    Cloth(Cloth &&other) noexcept : handle{std::exchange(other.handle, lak_cloth{})}, name{other.name} {}
    Cloth &operator=(Cloth &&other) noexcept
    {
        std::swap(handle, other.handle);
        std::swap(name, other.name);
        return *this;
    }
    ~Cloth() { close(); }

    /* ---- opening and closing */

    [[nodiscard]] Outcome open(std::string_view toml, std::uint32_t slots, Fault &fault) noexcept
    {
        const Outcome outcome{lak_open(&handle, detail::start(toml), toml.size(), slots, &fault)};
        if (outcome == Outcome::Done)
            lak_scene_name(&handle, &name);
        return outcome;
    }
    [[nodiscard]] Outcome open_mesh(std::string_view toml, const Mesh &mesh, MeshSettings settings, std::uint32_t slots, Fault &fault,
                                    MeshFault &mesh_fault) noexcept
    {
        const Outcome outcome{lak_open_mesh(&handle, detail::start(toml), toml.size(), detail::start(mesh.vertices),
                                            mesh.vertices.size(), detail::start(mesh.sizes), mesh.sizes.size(),
                                            detail::start(mesh.corners), mesh.corners.size(), settings, slots, &fault, &mesh_fault)};
        if (outcome == Outcome::Done)
            lak_scene_name(&handle, &name);
        return outcome;
    }
    void close() noexcept { lak_close(&handle); }

    /* ---- commands */

    [[nodiscard]] Answer step(std::uint64_t n, Left &left) noexcept { return Answer{lak_step(&handle, n, &left)}; }
    [[nodiscard]] Answer step(std::uint64_t n = 1) noexcept
    {
        Left left;
        return step(n, left);
    }
    Answer pin(std::uint64_t particle) noexcept { return Answer{lak_pin(&handle, particle)}; }
    Answer unpin(std::uint64_t particle) noexcept { return Answer{lak_unpin(&handle, particle)}; }
    Answer move(std::uint64_t particle, Place to) noexcept { return Answer{lak_move(&handle, particle, to)}; }
    Answer cut(std::uint64_t link) noexcept { return Answer{lak_cut(&handle, link)}; }
    Cuts cut_many(std::span<const std::uint32_t> links) noexcept
    {
        std::size_t refused = 0;
        const Answer answer{lak_cut_many(&handle, detail::start(links), links.size(), &refused)};
        return {answer, refused};
    }
    Answer gravity(Place gravity) noexcept { return Answer{lak_gravity(&handle, gravity)}; }

    /* ---- slots */

    [[nodiscard]] Answer save(std::uint32_t slot) noexcept { return Answer{lak_save(&handle, slot)}; }
    [[nodiscard]] Answer restore(std::uint32_t slot) noexcept { return Answer{lak_restore(&handle, slot)}; }

    /* ---- reading: a list fills the span from its start, and its count says how many there are */

    [[nodiscard]] Answer counts(Counts &into) const noexcept { return Answer{lak_counts(&handle, &into)}; }
    [[nodiscard]] Answer sums(Sums &into) const noexcept { return Answer{lak_sums(&handle, &into)}; }
    [[nodiscard]] Answer contacts(std::uint64_t &into) const noexcept { return Answer{lak_contacts(&handle, &into)}; }
    [[nodiscard]] Answer gravity_now(Place &into) const noexcept { return Answer{lak_gravity_now(&handle, &into)}; }
    [[nodiscard]] Answer ledger(Ledger &into) const noexcept { return Answer{lak_ledger(&handle, &into)}; }
    /* (nothing where no link joins the two, and where the cloth is closed) */
    [[nodiscard]] std::optional<std::uint32_t> link_between(std::uint32_t a, std::uint32_t b) const noexcept
    {
        std::uint32_t link = 0;
        if (lak_link_between(&handle, a, b, &link) != LAK_DONE)
            return std::nullopt;
        return link;
    }
    [[nodiscard]] Listed places(std::span<Place> into) const noexcept { return list(lak_places, into); }
    [[nodiscard]] Listed places_before(std::span<Place> into) const noexcept { return list(lak_places_before, into); }
    [[nodiscard]] Listed held(std::span<std::uint8_t> into) const noexcept { return list(lak_held, into); }
    [[nodiscard]] Listed links(std::span<Link> into) const noexcept { return list(lak_links, into); }
    [[nodiscard]] Listed live(std::span<std::uint8_t> into) const noexcept { return list(lak_live, into); }
    [[nodiscard]] Listed gone_since(std::uint32_t slot, std::span<std::uint32_t> into) const noexcept
    {
        std::uint32_t count = 0;
        const Answer answer{lak_gone_since(&handle, slot, detail::start(into), into.size(), &count)};
        return {answer, count};
    }

    /* ---- the world as bytes, which carry the name of the scene */

    [[nodiscard]] const Hash &scene_name() const noexcept { return name; }
    [[nodiscard]] Sized state_size() const noexcept
    {
        std::size_t size = 0;
        const Answer answer{lak_state_size(&handle, &size)};
        return {answer, size};
    }
    [[nodiscard]] Sized state_write(std::span<std::uint8_t> into) const noexcept
    {
        std::size_t size = 0;
        const Answer answer{lak_state_write(&handle, name, detail::start(into), into.size(), &size)};
        return {answer, size};
    }
    /* (the offset is told with NoState alone) */
    [[nodiscard]] Answer state_read(std::span<const std::uint8_t> state, std::uint64_t &offset) noexcept
    {
        return Answer{lak_state_read(&handle, name, detail::start(state), state.size(), &offset)};
    }
    [[nodiscard]] Answer digest(Hash &into) const noexcept { return Answer{lak_digest(&handle, name, &into)}; }
    [[nodiscard]] Answer digest_slot(std::uint32_t slot, Hash &into) const noexcept
    {
        return Answer{lak_digest_slot(&handle, slot, name, &into)};
    }
    [[nodiscard]] Answer checksum(std::uint64_t &into) const noexcept { return Answer{lak_checksum(&handle, &into)}; }
    [[nodiscard]] Answer checksum_slot(std::uint32_t slot, std::uint64_t &into) const noexcept
    {
        return Answer{lak_checksum_slot(&handle, slot, &into)};
    }

private:
    template <class T>
    Listed list(std::int32_t (*call)(lak_cloth *, T *, std::size_t, std::uint32_t *), std::span<T> into) const noexcept
    {
        std::uint32_t count = 0;
        const Answer answer{call(&handle, detail::start(into), into.size(), &count)};
        return {answer, count};
    }

    /* (reading takes the handle as it is, and leaves what it holds) */
    mutable lak_cloth handle{};
    Hash name{};
};

/* ---- to draw: a span is filled from its start, and the count says how many there are */

/* Of a cloth of the scene whose first particle has that number. */
inline std::size_t cloth_triangles(std::uint32_t first, std::uint32_t rows, std::uint32_t columns, std::span<Triangle> into) noexcept
{
    return lak_cloth_triangles(first, rows, columns, detail::start(into), into.size());
}

[[nodiscard]] inline Written mesh_triangles(const Mesh &mesh, std::span<Triangle> into, MeshFault &mesh_fault) noexcept
{
    std::size_t count = 0;
    const Outcome outcome{lak_mesh_triangles(detail::start(mesh.vertices), mesh.vertices.size(), detail::start(mesh.sizes),
                                             mesh.sizes.size(), detail::start(mesh.corners), mesh.corners.size(),
                                             detail::start(into), into.size(), &count, &mesh_fault)};
    return {outcome, count};
}

/* ---- whole runs, from bytes to bytes */

[[nodiscard]] inline Written record(std::string_view scene, std::string_view script, std::span<std::uint8_t> output) noexcept
{
    std::size_t written = 0;
    const Outcome outcome{lak_record(detail::start(scene), scene.size(), detail::start(script), script.size(), detail::start(output),
                                     output.size(), &written)};
    return {outcome, written};
}

[[nodiscard]] inline Written replay(std::span<const std::uint8_t> log, std::span<std::uint8_t> output, Stop &stop) noexcept
{
    std::size_t written = 0;
    const Outcome outcome{lak_replay(detail::start(log), log.size(), detail::start(output), output.size(), &written, &stop)};
    return {outcome, written};
}

/* ---- names of answers: those of the parts of a fault and a stop are lak_rule_name and its like */

[[nodiscard]] inline const char *name_of(Answer answer) noexcept { return lak_answer_name(static_cast<std::int32_t>(answer)); }
[[nodiscard]] inline const char *name_of(Outcome outcome) noexcept { return lak_answer_name(static_cast<std::int32_t>(outcome)); }

} // namespace lakmozet

#endif
