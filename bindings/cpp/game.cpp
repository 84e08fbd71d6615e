/*
 * The short game of all bindings (../README.md says what happens in it), from C++: game < ../../examples/embed/drop.txt
 */
#include "lakmozet.hpp"

#include <algorithm>
#include <array>
#include <cstdio>
#include <cstdlib>
#include <iomanip>
#include <iostream>
#include <span>
#include <sstream>
#include <string>
#include <vector>

using lakmozet::Answer;
using lakmozet::Cloth;
using lakmozet::Outcome;
using lakmozet::Place;

/* A slot for each of the last eight turns, one for the world after the drop, and one to go on from. */
constexpr std::uint32_t SLOTS = 10, DROPPED = 8, NOW = 9;
constexpr std::size_t PLAYERS = 2, TURNS = 40, LATE = 5, JOINS = 20;
constexpr std::array<std::uint64_t, PLAYERS> HANDS = {0, 19};
/* How many particles a row of the cloth has, and how many threads a stroke cuts. */
constexpr std::uint32_t ROW = 20, WIDE = 3;
constexpr Place GRAVITY = {0, -120, 0};

/* Ends the game where something isn't as it must be. */
static void must(bool is_so, const char *what)
{
    if (!is_so) {
        std::fprintf(stderr, "not so: %s\n", what);
        std::exit(1);
    }
}

static void must(Answer answer, const char *what)
{
    must(answer == Answer::Done, what);
}

/* What a player does in a turn: moves its hand, and now and then cuts a stroke, the threads below WIDE neighbours in a row. */
struct Input {
    Place to;
    bool cuts;
    std::uint32_t first;
};

using Inputs = std::array<std::array<Input, PLAYERS>, TURNS>;

static Inputs drawn_inputs()
{
    std::uint32_t state = 12345;
    const auto draw = [&state](std::uint32_t below) {
        state ^= state << 13;
        state ^= state >> 17;
        state ^= state << 5;
        return static_cast<std::int64_t>(state % below);
    };
    Inputs inputs{};
    for (std::size_t turn = 0; turn < TURNS; turn++) {
        for (std::size_t player = 0; player < PLAYERS; player++) {
            const std::int64_t x = 124526 * static_cast<std::int64_t>(player) - 72263 + draw(20001);
            const std::int64_t y = 1000 * static_cast<std::int64_t>(turn) + 56000 + draw(8001);
            const bool cuts = draw(8) == 0;
            inputs[turn][player] = {{x, y, -62263}, cuts, static_cast<std::uint32_t>(draw(378))};
        }
    }
    return inputs;
}

/* Standard input, cut at its line %%. */
struct Text {
    std::string scene, script;
};

static Text read_text()
{
    Text text;
    bool is_script = false;
    for (std::string line; std::getline(std::cin, line);) {
        if (!is_script && line == "%%")
            is_script = true;
        else
            (is_script ? text.script : text.scene) += line + "\n";
    }
    return text;
}

static std::vector<Place> places_of(const Cloth &cloth)
{
    lakmozet::Counts counts;
    must(cloth.counts(counts), "counts");
    std::vector<Place> places(counts.particles);
    must(cloth.places(places).answer, "places");
    return places;
}

/* A frame as the program prints it. */
static std::string frame(const Cloth &cloth)
{
    lakmozet::Counts counts;
    must(cloth.counts(counts), "counts");
    std::ostringstream text;
    text << "frame " << counts.steps << ' ' << counts.particles << ' ' << counts.live << ' ' << counts.contacts << '\n';
    for (const Place &place : places_of(cloth))
        text << place.x << ' ' << place.y << ' ' << place.z << '\n';
    return text.str();
}

static Cloth opened(const std::string &scene)
{
    Cloth cloth;
    lakmozet::Fault fault;
    must(cloth.open(scene, SLOTS, fault) == Outcome::Done, "open");
    return cloth;
}

/* Lets the cloth fall on the ball, and adds what the program prints of that. */
static Cloth drop(const std::string &scene, std::string &printed)
{
    Cloth cloth = opened(scene);
    for (int half = 0; half < 3; half++) {
        must(cloth.step(30), "step");
        printed += "ok\n" + frame(cloth);
    }
    must(cloth.save(DROPPED), "save");
    return cloth;
}

static Cloth drop(const std::string &scene)
{
    std::string printed;
    return drop(scene, printed);
}

static lakmozet::Hash digest_of(const Cloth &cloth)
{
    lakmozet::Hash digest;
    must(cloth.digest(digest), "digest");
    return digest;
}

/* Sees that a scene which breaks a rule is refused, and where. */
static void refuse()
{
    Cloth cloth;
    lakmozet::Fault fault;
    must(cloth.open("passes = 4\n= 5\n", 0, fault) == Outcome::SceneNotToml, "no TOML");
    must(fault.offset == 11 && fault.rule == 0, "where the text is no TOML");
    must(cloth.open("[[particle]]\nat = 5\n", 0, fault) == Outcome::SceneRefused, "a place is three numbers");
    const std::string_view rule = lak_rule_name(fault.rule), table = lak_table_name(fault.table), key = lak_key_name(fault.key);
    must(rule == "WrongType" && table == "particle" && fault.position == 0 && key == "at", "the fault of the scene");
}

/* Sees that a mesh in memory is cloth, with its links and its triangles, and that one with a bad face is refused. */
static void look_at_meshes()
{
    constexpr std::array<Place, 5> vertices = {{{0, 0, 0}, {6554, 0, 0}, {6554, 6554, 0}, {0, 6554, 0}, {3277, 9831, 0}}};
    constexpr std::array<std::uint32_t, 2> sizes = {4, 3};
    std::array<std::uint32_t, 7> corners = {0, 1, 2, 3, 3, 2, 4};
    const lakmozet::Mesh square{vertices, sizes, corners};
    const lakmozet::MeshSettings settings{0, 0, 0, 1, 256, 256, 40, 1};
    lakmozet::Fault fault;
    lakmozet::MeshFault mesh_fault;
    Cloth cloth;
    must(cloth.open_mesh("thickness = 7000\n", square, settings, 0, fault, mesh_fault) == Outcome::Done, "open_mesh");
    std::array<lakmozet::Link, 10> links;
    must(cloth.links(links).answer, "links");
    must(links[5].kind == 0 && links[6].kind == 1 && links[8].kind == 2 && links[9].stiffness == 40, "the links of a mesh");
    lakmozet::Counts counts;
    std::uint64_t contacts = 0;
    must(cloth.step(), "step");
    must(cloth.counts(counts), "counts");
    must(cloth.contacts(contacts), "contacts");
    must(counts.particles == 5 && contacts == counts.contacts, "the contacts are counted");
    std::array<lakmozet::Triangle, 4> triangles;
    const auto cut = lakmozet::mesh_triangles(square, triangles, mesh_fault);
    must(cut.outcome == Outcome::Done && cut.count == 3 && triangles[2] == lakmozet::Triangle{3, 2, 4}, "the triangles of a mesh");
    must(lakmozet::mesh_triangles(square, std::span{triangles}.first(2), mesh_fault).outcome == Outcome::NoRoom, "room for two");
    must(lakmozet::cloth_triangles(4, 2, 3, triangles) == 4, "the triangles of a cloth");
    must(triangles[3] == lakmozet::Triangle{6, 8, 9}, "a triangle of a cloth");
    corners[6] = 2;
    cloth.close();
    must(cloth.open_mesh("", square, settings, 0, fault, mesh_fault) == Outcome::MeshRefused, "a face that has a vertex twice");
    must(lakmozet::mesh_triangles(square, triangles, mesh_fault).outcome == Outcome::MeshRefused, "no triangles of such a face");
    must(std::string_view{lak_mesh_rule_name(mesh_fault.rule)} == "BadFace" && mesh_fault.number == 1, "the fault of the mesh");
}

/* Records the session, and replays its log: the text is what was printed. */
static void replay(const Text &text, const std::string &printed)
{
    std::vector<std::uint8_t> log(1 << 16), output(printed.size());
    lakmozet::Stop stop;
    const auto recorded = lakmozet::record(text.scene, text.script, log);
    must(recorded.outcome == Outcome::Done, "record");
    const auto replayed = lakmozet::replay(std::span{log}.first(recorded.count), output, stop);
    must(replayed.outcome == Outcome::Done, "replay");
    must(std::string_view{reinterpret_cast<const char *>(output.data()), replayed.count} == printed, "the replay prints the drop");
}

/* One player's machine: its world, and what it knows of each player's turns. */
class Machine {
public:
    Machine(Cloth from, const Inputs &all) : cloth{std::move(from)}, inputs{all} {}

    void begin()
    {
        for (const std::uint64_t hand : HANDS)
            must(cloth.pin(hand), "pin");
        must(cloth.gravity(GRAVITY), "gravity");
    }

    /* The state of the world before a turn, for a machine that joins. */
    std::vector<std::uint8_t> state_before(std::size_t turn)
    {
        std::vector<std::uint8_t> state(cloth.state_size().size);
        lakmozet::Hash digest;
        std::uint64_t kept, sum;
        must(cloth.digest_slot(turn % DROPPED, digest), "digest slot");
        must(cloth.checksum_slot(turn % DROPPED, kept), "checksum slot");
        must(cloth.save(NOW), "save");
        must(cloth.restore(turn % DROPPED), "restore");
        must(cloth.checksum(sum), "checksum");
        must(kept == sum && std::ranges::equal(digest.bytes, digest_of(cloth).bytes), "what a slot has is what is restored");
        must(cloth.state_write(state).answer, "state write");
        must(cloth.restore(NOW), "restore");
        return state;
    }

    /* Reads a state: bytes that are none are refused, and change nothing. */
    void join(std::vector<std::uint8_t> state, std::size_t turn)
    {
        std::uint64_t offset = 0;
        const lakmozet::Hash before = digest_of(cloth);
        must(cloth.state_read(std::span{state}.first(state.size() - 1), offset) == Answer::NoState, "a state is whole");
        must(offset == state.size() - 1, "a state ends where its bytes end");
        state[8] ^= 1;
        must(cloth.state_read(state, offset) == Answer::NoState && offset == 8, "a state of another scene is refused");
        must(std::ranges::equal(digest_of(cloth).bytes, before.bytes), "what is refused changes nothing");
        state[8] ^= 1;
        must(cloth.state_read(state, offset), "state read");
        known.fill(turn);
        played = turn;
    }

    /* Learns a player's next turn: where that was played without it, goes back, and plays on from there. */
    void learn(std::size_t player)
    {
        const std::size_t turn = known[player]++;
        if (turn < played) {
            must(cloth.restore(turn % DROPPED), "restore");
            for (std::size_t again = turn; again < played; again++)
                play(again);
        }
    }

    void play_next() { play(played++); }

    std::size_t turns() const { return played; }

    void let_go()
    {
        for (const std::uint64_t hand : HANDS)
            must(cloth.unpin(hand), "unpin");
        must(cloth.step(), "step");
    }

    const Cloth &world() const { return cloth; }

private:
    /* Saves the world before a turn, and plays what is known of it: the first player's input first. */
    void play(std::size_t turn)
    {
        must(cloth.save(turn % DROPPED), "save");
        for (std::size_t player = 0; player < PLAYERS; player++) {
            if (turn >= known[player])
                continue;
            const Input &input = inputs[turn][player];
            must(cloth.move(HANDS[player], input.to), "move");
            if (input.cuts)
                cut_stroke(input.first);
        }
        must(cloth.step(3), "step");
    }

    /* Cuts the threads from a row to the next. One that is gone is refused, on all machines alike. */
    void cut_stroke(std::uint32_t first)
    {
        std::array<std::uint32_t, WIDE> threads{};
        for (std::uint32_t k = 0; k < WIDE; k++) {
            const auto thread = cloth.link_between(first + k, first + k + ROW);
            must(thread.has_value(), "a thread joins a particle and the one below it");
            threads[k] = *thread;
        }
        must(cloth.cut_many(threads).answer, "cut many");
    }

    Cloth cloth;
    const Inputs &inputs;
    std::array<std::size_t, PLAYERS> known{};
    std::size_t played = 0;
};

/* A turn of a machine that joined: it learns what both players did LATE turns ago. */
static void play_joined(Machine &machine, std::size_t now)
{
    for (std::size_t player = 0; player < PLAYERS; player++)
        machine.learn(player);
    if (now < TURNS)
        machine.play_next();
}

/* Plays all turns: each machine knows its own player's at once, and the other's some turns later. One joins them on the way. */
static void play_late(std::array<Machine, PLAYERS> &machines, Machine &late)
{
    for (std::size_t now = 0; now < TURNS + LATE; now++) {
        for (std::size_t player = 0; player < PLAYERS; player++) {
            if (now >= LATE)
                machines[player].learn(1 - player);
            if (now < TURNS) {
                machines[player].learn(player);
                machines[player].play_next();
            }
        }
        if (now > JOINS)
            play_joined(late, now);
        if (now == JOINS) {
            late.join(machines[0].state_before(now - LATE + 1), now - LATE + 1);
            while (late.turns() <= now)
                late.play_next();
        }
    }
}

static void play_on_time(Machine &machine)
{
    for (std::size_t now = 0; now < TURNS; now++) {
        for (std::size_t player = 0; player < PLAYERS; player++)
            machine.learn(player);
        machine.play_next();
    }
}

static bool has_sum(const std::vector<Place> &places, const std::int64_t (&sum)[3])
{
    Place total{0, 0, 0};
    for (const Place &place : places)
        total = {total.x + place.x, total.y + place.y, total.z + place.z};
    return total.x == sum[0] && total.y == sum[1] && total.z == sum[2];
}

/* Sees that the links agree with the count of live ones, that nothing is held, and that gravity is what it was set to. */
static void look_at_parts(const Cloth &cloth, const lakmozet::Counts &counts)
{
    std::vector<lakmozet::Link> links(counts.links);
    must(cloth.links(links).answer, "links");
    const auto live = std::count_if(links.begin(), links.end(), [](const lakmozet::Link &it) { return it.live == 1; });
    must(static_cast<std::uint32_t>(live) == counts.live, "the live links are counted");
    must(cloth.link_between(links.back().b, links.back().a) == counts.links - 1, "a link is found by its ends");
    must(!cloth.link_between(0, 0), "no link joins a particle with itself");
    std::vector<std::uint8_t> held(counts.particles);
    must(cloth.held(held).answer, "held");
    must(std::count(held.begin(), held.end(), 1) == 0, "the corners are let go");
    Place gravity;
    must(cloth.gravity_now(gravity), "gravity now");
    must(gravity.x == GRAVITY.x && gravity.y == GRAVITY.y && gravity.z == GRAVITY.z, "gravity is what it was set to");
}

/* Sees that the momentum is that at opening and the six totals together. (all are far from 2^63: their low words tell it) */
static void look_at_ledger(const Cloth &cloth)
{
    lakmozet::Ledger it;
    must(cloth.ledger(it), "ledger");
    for (std::size_t axis = 0; axis < 3; axis++) {
        std::uint64_t total = it.opening[axis].low;
        for (const auto &cause : {it.gravity, it.damping, it.link, it.contact, it.pin, it.shape})
            total += cause[axis].low;
        must(total == it.momentum[axis].low, "the ledger balances");
    }
}

/* The sums and the digest as two lines, after the lists were seen to agree with the sums. */
static std::string totals(const Cloth &cloth)
{
    lakmozet::Counts counts;
    lakmozet::Sums sums;
    must(cloth.counts(counts), "counts");
    must(cloth.sums(sums), "sums");
    std::vector<std::uint8_t> live(counts.links);
    std::vector<std::uint32_t> gone(counts.links);
    must(cloth.live(live).answer, "live");
    must(static_cast<std::uint32_t>(std::count(live.begin(), live.end(), 1)) == sums.live, "the live links are counted");
    must(cloth.gone_since(DROPPED, gone).count == counts.links - sums.live, "those that went are the others");
    std::vector<Place> before(counts.particles);
    must(cloth.places_before(before).answer, "places before");
    must(has_sum(places_of(cloth), sums.at) && has_sum(before, sums.before), "the places have their sums");
    look_at_parts(cloth, counts);
    look_at_ledger(cloth);
    std::ostringstream line;
    line << "sums " << sums.steps << ' ' << sums.live << ' ' << sums.contacts;
    for (const auto &three : {sums.at, sums.before})
        line << ' ' << three[0] << ' ' << three[1] << ' ' << three[2];
    line << "\ndigest " << std::hex << std::setfill('0');
    for (const unsigned byte : digest_of(cloth).bytes)
        line << std::setw(2) << byte;
    return line.str();
}

int main()
{
    const lakmozet::Version version = lakmozet::version();
    must(version.major == LAK_VERSION_MAJOR && version.minor == LAK_VERSION_MINOR && version.patch == LAK_VERSION_PATCH, "the version");
    const Text text = read_text();
    /* the drop */
    std::string printed;
    Cloth dropped = drop(text.scene, printed);
    std::fputs(printed.c_str(), stdout);
    replay(text, printed);
    refuse();
    look_at_meshes();
    /* rollback: two players, a machine that joins them, and one that knows all in time */
    const Inputs inputs = drawn_inputs();
    std::array<Machine, PLAYERS> players = {Machine{std::move(dropped), inputs}, Machine{drop(text.scene), inputs}};
    Machine late{opened(text.scene), inputs}, on_time{drop(text.scene), inputs};
    for (Machine *machine : {&players[0], &players[1], &on_time})
        machine->begin();
    play_late(players, late);
    play_on_time(on_time);
    for (Machine *machine : {&players[0], &players[1], &late, &on_time})
        machine->let_go();
    const std::string lines = totals(on_time.world());
    for (const Machine *machine : {&players[0], &players[1], &late})
        must(totals(machine->world()) == lines, "the sums and the digests are equal");
    std::puts(lines.c_str());
    return 0;
}
