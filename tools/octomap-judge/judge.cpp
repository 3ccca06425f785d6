// Bodies of random cubes, made by the OctoMap library (Hornung et al., 2013).
//
//     judge COUNT SEED
//
// A line to a cube: its depth, its states by index (0 unknown, 1 free, 2 occupied)
// and its body in base 16.
//
// OctoMap's bytes and a body's are the same. In writeBinaryNode of
// OccupancyOcTreeBase.hxx child i of a pair has bits 2i and 2i + 1 of the pair, and
// the comment there, "10 free, 01 occupied", names the lower bit first: as a number
// free is 1, occupied 2, unknown 0 and an inner node 3, as in a body. The children
// are in the order x + 2 y + 4 z, as in an index, and the pairs come depth first.
// So nothing is recoded here. Two things are done around the bytes:
//
// - OctoMap's tree has 16 levels. The cube of depth D lies at the keys 0 to 2^D - 1,
//   so 16 - D pairs come before that of its own root, each with code 3 for child 0 and
//   0 for the others. They are cut off, once they are seen to be that.
// - A cube of one known state is pruned to a leaf and has no pair, where the root of a
//   body always has one. The leaf is expanded once, to eight children alike. A cube
//   without a known voxel has no node at all; its body is written here as 00 00.

#include <octomap/OcTree.h>

#include <cstdint>
#include <cstdio>
#include <cstdlib>
#include <random>
#include <sstream>
#include <string>
#include <vector>

namespace {

const unsigned kLevels = 16;
const char kDigits[] = "0123456789abcdef";

enum State { kUnknown, kFree, kOccupied };

using Chance = std::mt19937_64;

// Not a std distribution: those differ from library to library.
unsigned below(Chance &chance, unsigned bound) { return chance() % bound; }

void fail(const char *what) {
    std::fprintf(stderr, "judge: %s\n", what);
    std::exit(1);
}

octomap::OcTreeKey key_of(unsigned depth, unsigned index) {
    unsigned at[3] = {0, 0, 0};
    for (unsigned k = 0; k < depth; k++) {
        for (unsigned axis = 0; axis < 3; axis++) {
            at[axis] |= (index >> (3 * k + axis) & 1) << k;
        }
    }
    return octomap::OcTreeKey(at[0], at[1], at[2]);
}

struct Cube {
    unsigned depth;
    std::vector<State> states;
};

// What the states of a cube are drawn from.
struct Taste {
    std::vector<State> palette;
    // Of 100, by level: how many cubes of the level are of one state.
    unsigned whole[6];
};

State pick(Chance &chance, const Taste &taste) {
    return taste.palette[below(chance, taste.palette.size())];
}

void fill(Chance &chance, const Taste &taste, unsigned level, unsigned first, Cube &cube) {
    const unsigned count = 1u << 3 * level;
    if (level == 0 || below(chance, 100) < taste.whole[level]) {
        const State state = pick(chance, taste);
        for (unsigned i = 0; i < count; i++) cube.states[first + i] = state;
        return;
    }
    for (unsigned k = 0; k < 8; k++) fill(chance, taste, level - 1, first + k * count / 8, cube);
}

Taste random_taste(Chance &chance, unsigned depth) {
    static const std::vector<State> palettes[] = {
        {kUnknown, kFree, kOccupied},
        {kFree, kOccupied},
        {kUnknown, kOccupied},
        {kUnknown, kFree},
        {kFree, kFree, kFree, kFree, kFree, kFree, kFree, kFree, kFree, kOccupied},
        {kUnknown, kUnknown, kUnknown, kUnknown, kUnknown, kUnknown, kUnknown, kUnknown, kFree, kOccupied},
    };
    Taste taste = {palettes[below(chance, 6)], {}};
    // Even noise, blocks of every level alike, or mostly blocks of one level.
    const unsigned kind = below(chance, 3);
    const unsigned even = 20 + below(chance, 70);
    const unsigned one = 1 + below(chance, depth);
    for (unsigned level = 0; level < 6; level++) {
        taste.whole[level] = kind == 0 ? 0 : kind == 1 ? even : level == one ? 80 : 5;
    }
    taste.whole[depth] = 8;
    return taste;
}

// A block of any level below the cube's own, in one state.
void lay_block(Chance &chance, Cube &cube) {
    const unsigned level = below(chance, cube.depth);
    const unsigned count = 1u << 3 * level;
    const unsigned first = below(chance, cube.states.size() / count) * count;
    const State state = State(below(chance, 3));
    for (unsigned i = 0; i < count; i++) cube.states[first + i] = state;
}

Cube random_cube(Chance &chance) {
    const unsigned depth = 1 + below(chance, 5);
    Cube cube = {depth, std::vector<State>(1u << 3 * depth, kUnknown)};
    if (below(chance, 4) == 0) {
        // Few single voxels on one ground.
        const State ground = State(below(chance, 3));
        cube.states.assign(cube.states.size(), ground);
        for (unsigned n = below(chance, 20); n > 0; n--) {
            cube.states[below(chance, cube.states.size())] = State(below(chance, 3));
        }
    } else {
        fill(chance, random_taste(chance, depth), depth, 0, cube);
    }
    for (unsigned n = below(chance, 3); n > 0; n--) lay_block(chance, cube);
    return cube;
}

// The log-odds at the bounds of a cell, or any of the state: they are equalled before pruning.
float log_odds(Chance &chance, State state, bool varied) {
    if (state == kFree) return varied ? -0.01f * (1 + below(chance, 200)) : -2.0f;
    return varied ? 0.01f * below(chance, 351) : 3.5f;
}

std::string octomap_bytes(const octomap::OcTree &tree) {
    std::ostringstream stream;
    tree.writeBinaryData(stream);
    return stream.str();
}

std::string body_of(Chance &chance, const Cube &cube) {
    octomap::OcTree tree(1.0);
    const bool varied = below(chance, 2) == 0;
    const bool lazy = below(chance, 2) == 0;
    for (unsigned index = 0; index < cube.states.size(); index++) {
        if (cube.states[index] == kUnknown) continue;
        tree.setNodeValue(key_of(cube.depth, index), log_odds(chance, cube.states[index], varied), lazy);
    }
    if (tree.getRoot() == nullptr) return std::string(2, '\0');
    // As OctoMap's own writeBinary does.
    tree.toMaxLikelihood();
    tree.prune();
    octomap::OcTreeNode *root = tree.search(key_of(cube.depth, 0), kLevels - cube.depth);
    if (root == nullptr) fail("the cube has no node");
    if (!tree.nodeHasChildren(root)) tree.expandNode(root);
    const std::string bytes = octomap_bytes(tree);
    const size_t above = 2 * (kLevels - cube.depth);
    if (bytes.size() < above + 2) fail("pairs are missing");
    for (size_t at = 0; at < above; at += 2) {
        if (bytes[at] != 3 || bytes[at + 1] != 0) fail("a pair above the cube has something else in it");
    }
    return bytes.substr(above);
}

void print(const Cube &cube, const std::string &body) {
    std::string line = std::to_string(cube.depth) + " ";
    for (State state : cube.states) line += char('0' + state);
    line += " ";
    for (unsigned char byte : body) {
        line += kDigits[byte >> 4];
        line += kDigits[byte & 15];
    }
    std::puts(line.c_str());
}

}  // namespace

int main(int argc, char **argv) {
    if (argc != 3) {
        std::fprintf(stderr, "usage: judge COUNT SEED\n");
        return 2;
    }
    Chance chance(std::strtoull(argv[2], nullptr, 10));
    for (unsigned long n = std::strtoul(argv[1], nullptr, 10); n > 0; n--) {
        const Cube cube = random_cube(chance);
        print(cube, body_of(chance, cube));
    }
    return 0;
}
