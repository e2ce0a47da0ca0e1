// Times the port beside OpenVDB on layered hills of 64 cells a side: edits that keep the old model, edits in place, lookups, the whole cube; then the
// memory. A plain cube says what each side has to answer: each lookup, each edited cell and whole cubes are compared with it, and a difference ends the
// program with status 1. Argument: how many threads OpenVDB may use, 1 if there is none.
#include <fenpiling.h>

#include <openvdb/openvdb.h>
#include <openvdb/tools/Dense.h>
#include <openvdb/tools/Prune.h>
#include <tbb/global_control.h>

#include <algorithm>
#include <array>
#include <chrono>
#include <cstdio>
#include <cstdlib>
#include <vector>

namespace {

constexpr uint32_t depth = 6;
constexpr int side = 1 << depth;
constexpr size_t capacity = FENPILING_MAX_CAPACITY;
// Each piece of work is timed in so many blocks of so many rounds. In a block one side has its rounds in a row, so that it finds its own memory in the cache.
constexpr size_t blocks = 10;
constexpr size_t rounds = 20;
// How many calls are timed together in a round.
constexpr size_t lookups_timed = 10000;
constexpr size_t edits_timed = 100;
// How many later models are kept beside the first where memory is counted.
constexpr size_t later_models = 100;
// What stands in a cube before it is written: no cell of a hill has it.
constexpr uint16_t spoilt = 0xABCD;

struct Edit {
    fenpiling_cell cell;
    uint16_t value;
};

[[noreturn]] void fail(const char *what)
{
    std::fprintf(stderr, "%s\n", what);
    std::exit(1);
}

void expect(bool holds, const char *what)
{
    if (!holds)
        fail(what);
}

// Numbers at random, as oracle/reference has them (xorshift64*).
class Random {
    uint64_t state = 0x0A0B0C0D0E0F1011;

public:
    int below(int limit)
    {
        state ^= state >> 12;
        state ^= state << 25;
        state ^= state >> 27;
        return static_cast<int>((state * 0x2545F4914F6CDD1D >> 11) % static_cast<uint64_t>(limit));
    }
};

template <class Use> void each_cell(Use use)
{
    for (int y = 0; y < side; ++y)
        for (int x = 0; x < side; ++x)
            for (int z = 0; z < side; ++z)
                use(fenpiling_cell{x, y, z});
}

// 8^6 values, what both sides have to answer.
class Plain {
    std::vector<uint16_t> values = std::vector<uint16_t>(FENPILING_CUBE_LENGTH(depth));

public:
    template <class Value> explicit Plain(Value value)
    {
        each_cell([&](fenpiling_cell cell) { enter({cell, value(cell.x, cell.y, cell.z)}); });
    }

    uint16_t at(fenpiling_cell cell) const { return values[FENPILING_CUBE_INDEX(depth, cell.x, cell.y, cell.z)]; }
    void enter(const Edit &edit) { values[FENPILING_CUBE_INDEX(depth, edit.cell.x, edit.cell.y, edit.cell.z)] = edit.value; }
};

// The port's arena: the tables that are lent to each call, and the state that goes from call to call.
class Arena {
    std::vector<uint64_t> kids = std::vector<uint64_t>(FENPILING_KIDS_LENGTH(capacity));
    std::vector<uint32_t> facts = std::vector<uint32_t>(FENPILING_FACTS_LENGTH(capacity));
    std::vector<uint16_t> find = std::vector<uint16_t>(FENPILING_FIND_LENGTH(capacity));
    fenpiling_arena state{capacity, 0};

    // A call with the state and the tables before the arguments that are its own.
    template <class Call, class... Own> auto call(Call function, Own... own)
    {
        return function(state, kids.data(), kids.size(), facts.data(), facts.size(), find.data(), find.size(), own...);
    }

    template <class Answer> Answer accepted(Answer answer)
    {
        expect(answer.no == FENPILING_ACCEPTED, "the port refuses a call");
        state.slots = answer.slots;
        return answer;
    }

public:
    Arena()
    {
        accepted(fenpiling_fresh(capacity, kids.data(), kids.size(), facts.data(), facts.size(), find.data(), find.size()));
    }

    uint64_t set(uint64_t root, const Edit &edit) { return accepted(call(fenpiling_set_voxel, root, depth, edit.cell, edit.value)).id; }

    void release(uint64_t root) { accepted(call(fenpiling_release, root)); }

    uint16_t look(uint64_t root, fenpiling_cell cell)
    {
        auto looked = call(fenpiling_get_at_depth, root, depth, cell);
        expect(looked.no == FENPILING_ACCEPTED, "the port refuses a lookup");
        return looked.value;
    }

    void expand(uint64_t root, std::vector<uint16_t> &cube)
    {
        expect(call(fenpiling_to_vec, root, depth, cube.data(), cube.size()) == FENPILING_ACCEPTED, "the port refuses an expansion");
    }

    size_t live() const { return FENPILING_LIVE(state); }

    size_t bytes() const { return kids.size() * sizeof kids[0] + facts.size() * sizeof facts[0] + find.size() * sizeof find[0]; }
};

// A model of the port, in an arena of its own.
class Port {
    Arena arena;
    std::vector<uint16_t> cube = std::vector<uint16_t>(FENPILING_CUBE_LENGTH(depth));

public:
    using Model = uint64_t;
    Model model = FENPILING_EMPTY;

    explicit Port(const Plain &plain)
    {
        each_cell([&](fenpiling_cell cell) { change({cell, plain.at(cell)}); });
    }

    // Makes the edited model beside the old one, uses it, and gives it back.
    template <class Use> void beside(const Edit &edit, Use use)
    {
        Model made = arena.set(model, edit);
        use(made);
        arena.release(made);
    }

    // The edited model in place of the old one.
    void change(const Edit &edit)
    {
        Model made = arena.set(model, edit);
        arena.release(model);
        model = made;
    }

    uint16_t look(Model of, fenpiling_cell cell) { return arena.look(of, cell); }
    uint16_t look_kept(fenpiling_cell cell) { return arena.look(model, cell); }

    void expand(Model of) { arena.expand(of, cube); }
    uint16_t expanded(fenpiling_cell cell) const { return cube[FENPILING_CUBE_INDEX(depth, cell.x, cell.y, cell.z)]; }
    void spoil() { std::fill(cube.begin(), cube.end(), spoilt); }

    size_t all_bytes() const { return arena.bytes(); }
    size_t bytes() const { return arena.live() * (arena.bytes() / capacity); }

    // The bytes of the nodes that live when each edit has made a model from the one before it, and all are held.
    size_t bytes_kept(const std::vector<Edit> &edits)
    {
        std::vector<Model> made{model};
        for (const Edit &edit : edits)
            made.push_back(arena.set(made.back(), edit));
        size_t counted = bytes();
        for (size_t number = 1; number < made.size(); ++number)
            arena.release(made[number]);
        return counted;
    }
};

// A model of OpenVDB: one grid. Ground is active; what has value 0 is inactive and has the background's value.
template <class Grid> class Vdb {
    using Value = typename Grid::ValueType;
    using Dense = openvdb::tools::Dense<Value>;

public:
    using Model = typename Grid::Ptr;
    Model model = Grid::create(0);

private:
    typename Grid::Accessor accessor = model->getAccessor();
    Dense dense = Dense(openvdb::CoordBBox(openvdb::Coord(0), openvdb::Coord(side - 1)));
    bool is_serial;

    static openvdb::Coord coord(fenpiling_cell cell) { return {cell.x, cell.y, cell.z}; }

    // Into a tree, or through an accessor.
    template <class Target> static void put(Target &target, const Edit &edit)
    {
        if (edit.value == 0)
            target.setValueOff(coord(edit.cell), 0);
        else
            target.setValue(coord(edit.cell), edit.value);
    }

public:
    Vdb(const Plain &plain, bool serial) : is_serial(serial)
    {
        each_cell([&](fenpiling_cell cell) {
            if (plain.at(cell) != 0)
                change({cell, plain.at(cell)});
        });
        openvdb::tools::prune(model->tree());
    }

    template <class Use> void beside(const Edit &edit, Use use)
    {
        Model made = model->deepCopy();
        put(made->tree(), edit);
        use(made);
    }

    void change(const Edit &edit) { put(accessor, edit); }

    Value look(const Model &of, fenpiling_cell cell) const { return of->tree().getValue(coord(cell)); }
    Value look_kept(fenpiling_cell cell) { return accessor.getValue(coord(cell)); }

    void expand(const Model &of) { openvdb::tools::copyToDense(*of, dense, is_serial); }
    Value expanded(fenpiling_cell cell) const { return dense.getValue(coord(cell)); }
    void spoil() { dense.fill(spoilt); }

    size_t bytes() const { return model->memUsage(); }

    size_t bytes_kept(const std::vector<Edit> &edits)
    {
        size_t counted = bytes();
        Model last = model;
        for (const Edit &edit : edits) {
            last = last->deepCopy();
            put(last->tree(), edit);
            counted += last->memUsage();
        }
        return counted;
    }
};

// The tree as most have it, 32, 16 and 8 to a side from the top, with 32 bits a value; and one made for this cube, 8 and 8, with 16 bits.
using Usual = openvdb::Int32Grid;
using Fitted = openvdb::Grid<openvdb::tree::Tree3<uint16_t, 3, 3>::Type>;

// Nanoseconds a call, for each round.
using Times = std::vector<double>;
template <class Input> using Rounds = std::vector<std::vector<Input>>;

// Times some work on each input of each round.
template <class Input, class Work> Times timed(const Rounds<Input> &list, Work work)
{
    Times times;
    for (const auto &round : list) {
        auto start = std::chrono::steady_clock::now();
        for (const Input &input : round)
            work(input);
        std::chrono::duration<double, std::nano> took = std::chrono::steady_clock::now() - start;
        times.push_back(took.count() / static_cast<double>(round.size()));
    }
    return times;
}

// The cube that a side has written last.
template <class Side> void expect_expanded(const Side &one, const Plain &plain)
{
    each_cell([&](fenpiling_cell cell) { expect(one.expanded(cell) == plain.at(cell), "a whole cube differs"); });
}

template <class Side> void expect_cube(Side &one, const typename Side::Model &model, const Plain &plain)
{
    one.spoil();
    one.expand(model);
    expect_expanded(one, plain);
}

// Each edit makes a model beside the old one, which is given back. Then the same again, untimed, with a look at both models: at the cell, and for the first
// edit at all cells.
template <class Side> Times keeping(Side &one, const Plain &plain, const Rounds<Edit> &edits)
{
    Times times = timed(edits, [&](const Edit &edit) { one.beside(edit, [](const auto &) {}); });
    for (const auto &round : edits)
        for (const Edit &edit : round)
            one.beside(edit, [&](const auto &made) {
                expect(one.look(made, edit.cell) == edit.value, "an edit beside the old model is not in the new one");
                expect(one.look(one.model, edit.cell) == plain.at(edit.cell), "an edit beside the old model has changed that");
            });
    const Edit &first = edits[0][0];
    one.beside(first, [&](const auto &made) {
        Plain edited = plain;
        edited.enter(first);
        expect_cube(one, made, edited);
        expect_cube(one, one.model, plain);
    });
    return times;
}

// The edits one after the other. The plain cube has them already.
template <class Side> Times changing(Side &one, const Plain &plain, const Rounds<Edit> &edits)
{
    Times times = timed(edits, [&](const Edit &edit) { one.change(edit); });
    expect_cube(one, one.model, plain);
    return times;
}

template <class Look> Times looking(const Plain &plain, const Rounds<fenpiling_cell> &cells, Look look)
{
    std::vector<int> values(rounds * lookups_timed);
    auto value = values.begin();
    Times times = timed(cells, [&](fenpiling_cell cell) { *value++ = look(cell); });
    value = values.begin();
    for (const auto &round : cells)
        for (fenpiling_cell cell : round)
            expect(*value++ == plain.at(cell), "a lookup differs");
    return times;
}

template <class Side> Times expanding(Side &one, const Plain &plain)
{
    one.spoil();
    Times times = timed(Rounds<int>(rounds, {0}), [&](int) { one.expand(one.model); });
    expect_expanded(one, plain);
    return times;
}

// Times a piece of work on all sides in turn, and prints a line of the table.
template <class Block> void row(const char *name, Block block)
{
    std::array<Times, 3> times;
    for (size_t number = 0; number < blocks; ++number) {
        std::array<Times, 3> more = block();
        for (size_t one = 0; one < more.size(); ++one)
            times[one].insert(times[one].end(), more[one].begin(), more[one].end());
    }
    for (Times &list : times)
        std::sort(list.begin(), list.end());
    std::printf("| %-34s |", name);
    for (const Times &list : times)
        std::printf(" %9.1f |", list[0]);
    for (const Times &list : times)
        std::printf(" %9.1f |", list[list.size() / 2]);
    std::printf("\n");
}

// The hill that oracle/bench reads (reading.rs): layers of eight cells, and a height that falls off from the middle.
uint16_t read_hill(int x, int y, int z)
{
    int away = (x - side / 2) * (x - side / 2) + (z - side / 2) * (z - side / 2);
    return static_cast<uint16_t>(y < 8 + 44 * 400 / (400 + away) ? 1 + y / 8 : 0);
}

// The hill that it edits (edits.rs): 52 cells high on a plain of 12, in layers of six.
int ground(int x, int z)
{
    int away = (x - 32) * (x - 32) + (z - 32) * (z - 32);
    return 12 + 40 * std::max(1024 - away, 0) / 1024;
}

uint16_t layer(int y)
{
    return static_cast<uint16_t>(1 + y / 6);
}

uint16_t edited_hill(int x, int y, int z)
{
    return y < ground(x, z) ? layer(y) : 0;
}

// A cell at the surface, dug out if there is ground and heaped if not: every edit changes its cell.
Edit at_surface(Random &random, const Plain &plain)
{
    int x = random.below(side), z = random.below(side);
    int y = ground(x, z) - 2 + random.below(4);
    fenpiling_cell cell{x, y, z};
    return {cell, plain.at(cell) == 0 ? layer(y) : uint16_t{0}};
}

// The same, entered into the plain cube.
Edit next_edit(Random &random, Plain &plain)
{
    Edit edit = at_surface(random, plain);
    plain.enter(edit);
    return edit;
}

// So many rounds of so many inputs each, as `make` makes one.
template <class Make> auto inputs(size_t count, Make make)
{
    Rounds<decltype(make())> list(rounds);
    for (auto &round : list)
        for (size_t number = 0; number < count; ++number)
            round.push_back(make());
    return list;
}

// One model on all sides.
struct Sides {
    Plain plain;
    Port port;
    Vdb<Usual> usual;
    Vdb<Fitted> fitted;

    template <class Value> Sides(Value value, bool is_serial) : plain(value), port(plain), usual(plain, is_serial), fitted(plain, is_serial)
    {
        expect_cube(port, port.model, plain);
        expect_cube(usual, usual.model, plain);
        expect_cube(fitted, fitted.model, plain);
    }

    // What some work answers on each side.
    template <class Work> auto each(Work work) { return std::array{work(port), work(usual), work(fitted)}; }
};

void edit_rows(bool is_serial)
{
    Sides hill(edited_hill, is_serial);
    Random random;
    row("edit that keeps the old model", [&] {
        auto edits = inputs(edits_timed, [&] { return at_surface(random, hill.plain); });
        return hill.each([&](auto &one) { return keeping(one, hill.plain, edits); });
    });
    row("edit in place", [&] {
        auto edits = inputs(edits_timed, [&] { return next_edit(random, hill.plain); });
        return hill.each([&](auto &one) { return changing(one, hill.plain, edits); });
    });
}

void read_rows(bool is_serial)
{
    Sides hill(read_hill, is_serial);
    Random random;
    auto anywhere = [&] { return fenpiling_cell{random.below(side), random.below(side), random.below(side)}; };
    row("lookup at random, accessor kept", [&] {
        auto cells = inputs(lookups_timed, anywhere);
        return hill.each([&](auto &one) { return looking(hill.plain, cells, [&](fenpiling_cell cell) { return one.look_kept(cell); }); });
    });
    row("lookup at random, no accessor", [&] {
        auto cells = inputs(lookups_timed, anywhere);
        return hill.each([&](auto &one) { return looking(hill.plain, cells, [&](fenpiling_cell cell) { return one.look(one.model, cell); }); });
    });
    row("whole cube", [&] { return hill.each([&](auto &one) { return expanding(one, hill.plain); }); });
}

void memory_row(const char *name, const std::array<size_t, 3> &bytes)
{
    std::printf("| %-34s | %9zu | %9zu | %9zu |\n", name, bytes[0], bytes[1], bytes[2]);
}

void memory_rows(bool is_serial)
{
    auto bytes = [](auto &one) { return one.bytes(); };
    Sides read(read_hill, is_serial), edited(edited_hill, is_serial);
    memory_row("hill that is read", read.each(bytes));
    memory_row("hill that is edited", edited.each(bytes));
    Random random;
    std::vector<Edit> edits(later_models);
    for (Edit &edit : edits)
        edit = next_edit(random, edited.plain);
    memory_row("and 100 later models, an edit each", edited.each([&](auto &one) { return one.bytes_kept(edits); }));
    std::printf("all tables of the port, %zu slots: %zu bytes\n", capacity, edited.port.all_bytes());
}

} // namespace

int main(int count, char **arguments)
{
    int threads = count == 1 ? 1 : count == 2 ? std::atoi(arguments[1]) : 0;
    expect(threads > 0, "usage: peer [THREADS]");
    tbb::global_control limit(tbb::global_control::max_allowed_parallelism, static_cast<size_t>(threads));
    openvdb::initialize();
    std::printf("OpenVDB %s, threads: %d\n\n", openvdb::getLibraryVersionString(), threads);
    std::printf("ns a call: the shortest of %zu rounds, then the middle one\n", blocks * rounds);
    std::printf("| %-34s | %9s | Int32Grid | %9s | %9s | Int32Grid | %9s |\n|---|---|---|---|---|---|---|\n", "", "port", "fitted", "port", "fitted");
    edit_rows(threads == 1);
    read_rows(threads == 1);
    std::printf("\nbytes of the nodes that live\n| %-34s | %9s | Int32Grid | %9s |\n|---|---|---|---|\n", "", "port", "fitted");
    memory_rows(threads == 1);
    std::printf("lookups, edited cells and whole cubes compared: no difference\n");
}
