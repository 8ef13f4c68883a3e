// Goes through all gates that calls lead to from the making on, and tells for how many rounds an arm can wait.
// Usage: python3 tools/simulation.py three_bits|four_valued | search ARMS
// Reads the table of a door as tools/simulation.py prints it.
// Prints how many gates there are; of each arm the most whole rounds that a list of calls can have at all of whose states it waits;
// the first arm with the most of all; and such a list for it, as the arms whose calls it has: first those from the making on
// until the arm waits and the rounds begin, then those of the rounds.
// Up to 3 arms it takes seconds. With 4 it takes minutes and some gigabytes of memory.
//
// A gate is its registers and the position, index, side and mark of each arm. In any gate each arm has just one call that is accepted
// and alters anything: begin where it is idle, admit or leave where it is inside, step elsewhere. All but begin are moves. The other
// calls alter nothing and are no moves, so a list without them has the same rounds. No limit of visits is kept, so nothing is missed.

#include <cassert>
#include <cstdio>
#include <cstdlib>
#include <cstring>
#include <iostream>
#include <map>
#include <sstream>
#include <string>
#include <unordered_map>
#include <vector>

using std::vector;
typedef unsigned long long Code;

const int MOST_ARMS = 4;

// The registers of an arm, their highest value, and the rows of a door: so many at most.
const int MOST_REGISTERS = 3, HIGHEST = 3, MOST_ROWS = 16;

// The positions of an arm. Its pass is out where it is admitted; from FIRST_ROW on they are the rows of the door's table.
enum { IDLE, INSIDE, ADMITTED, FIRST_ROW };

// Where a row leads besides a position: to the first waiting row at the next arm, or inside where there is none.
const int NEXT = -1;

// The values that a row names by the side of the arm; any other is the value itself.
enum { SIDE = HIGHEST + 1, OTHER_SIDE, NEW_SIDE };

enum Whose { GROUP, OWN, OF_J };

struct Row {
    bool writes;
    Whose whose;
    int number, value, then, otherwise;
};

struct Arm {
    int at, looked_at, side; // the arm that it looks at where it waits, else 0; a side that is missing is 0
    int registers[MOST_REGISTERS];
};

struct Gate {
    int group;
    Arm arms[MOST_ARMS];
};

static int n;
static std::string door;
static vector<int> first_values;
static vector<Row> rows;
static int doorway, waiting, leaving; // where the rows of each phase begin

static bool waits(const Gate &g, int i) { return g.arms[i].at >= waiting && g.arms[i].at < leaving; }

static int value_of(const Row &row, const Arm &a) {
    return row.value == SIDE ? a.side : row.value == OTHER_SIDE ? 1 - a.side : row.value;
}

// Takes an arm to where its row leads.
static void go(Arm &a, int then) {
    if (then == NEXT) {
        a.looked_at++;
        then = a.looked_at < n ? waiting : INSIDE;
    }
    if (then == INSIDE) a.looked_at = 0;
    if (then == IDLE) a.side = 0;
    a.at = then;
}

// Makes the one access of the row at which arm i is.
static void step(Gate &g, int i) {
    Arm &a = g.arms[i];
    const Row &row = rows[a.at - FIRST_ROW];
    int &place = row.whose == GROUP ? g.group : g.arms[row.whose == OWN ? i : a.looked_at].registers[row.number];
    if (row.writes) place = value_of(row, a);
    if (row.value == NEW_SIDE) a.side = place;
    bool equal = row.value == NEW_SIDE || place == value_of(row, a);
    go(a, equal ? row.then : row.otherwise);
}

// The one call of arm i that alters anything.
static void call(Gate &g, int i) {
    int &at = g.arms[i].at;
    if (at == IDLE) at = doorway;
    else if (at == INSIDE) at = ADMITTED;
    else if (at == ADMITTED) at = leaving;
    else step(g, i);
}

static Gate made() {
    Gate g;
    memset(&g, 0, sizeof g);
    for (Arm &a : g.arms)
        for (size_t k = 0; k < first_values.size(); k++) a.registers[k] = first_values[k];
    return g;
}

static Code code_of(const Gate &g) {
    Code code = g.group;
    for (int i = 0; i < n; i++) {
        const Arm &a = g.arms[i];
        code = ((code * (FIRST_ROW + MOST_ROWS) + a.at) * MOST_ARMS + a.looked_at) * 2 + a.side;
        for (int value : a.registers) code = code * (HIGHEST + 1) + value;
    }
    return code;
}

// The words of a line.
static vector<std::string> words_of_line() {
    std::string line, word;
    std::getline(std::cin, line);
    std::istringstream in(line);
    vector<std::string> words;
    while (in >> word) words.push_back(word);
    return words;
}

static int value_named(const std::string &word) {
    return word == "side" ? SIDE : word == "other_side" ? OTHER_SIDE : word == "new_side" ? NEW_SIDE : atoi(word.c_str());
}

// A line of the table is: position, access, whose register, its number, value, then, otherwise.
static void read_door() {
    door = words_of_line().at(0);
    for (const std::string &word : words_of_line()) first_values.push_back(atoi(word.c_str()));
    std::map<std::string, int> positions = {{"I", IDLE}, {"F", INSIDE}, {"next", NEXT}};
    std::map<std::string, Whose> owners = {{"group", GROUP}, {"own", OWN}, {"of_j", OF_J}};
    vector<vector<std::string>> lines;
    for (vector<std::string> words = words_of_line(); words.size() == 7; words = words_of_line()) {
        positions[words[0]] = FIRST_ROW + (int)lines.size();
        lines.push_back(words);
    }
    for (const vector<std::string> &words : lines)
        rows.push_back({words[1] == "write", owners.at(words[2]), atoi(words[3].c_str()), value_named(words[4]),
                        positions.at(words[5]), positions.at(words[6])});
    doorway = positions.at("D1");
    waiting = positions.at("W1");
    leaving = positions.at("X1");
    assert(first_values.size() <= MOST_REGISTERS && rows.size() <= MOST_ROWS);
}

// All gates that calls lead to, each with a number: where the call of each arm leads, who is not idle, who waits, and whence it came.
struct Known {
    int next[MOST_ARMS];
    int busy, waiting; // sets of arms, a bit each
    int from, by;
};

static vector<Known> known;

static int number_of(const Gate &g, int from, int by, std::unordered_map<Code, int> &numbers, vector<Gate> &gates) {
    auto found = numbers.emplace(code_of(g), (int)gates.size());
    if (found.second) {
        Known k = {{}, 0, 0, from, by};
        for (int i = 0; i < n; i++) {
            k.busy |= (g.arms[i].at != IDLE) << i;
            k.waiting |= waits(g, i) << i;
        }
        gates.push_back(g);
        known.push_back(k);
    }
    return found.first->second;
}

static void find_all() {
    std::unordered_map<Code, int> numbers;
    vector<Gate> gates;
    number_of(made(), -1, -1, numbers, gates);
    for (size_t s = 0; s < gates.size(); s++)
        for (int i = 0; i < n; i++) {
            Gate g = gates[s];
            call(g, i);
            int next = number_of(g, (int)s, i, numbers, gates);
            known[s].next[i] = next;
        }
}

// A spot is a gate and the set of arms that have not moved yet in the round. A round may end where that set is empty.
static int spot(int gate, int owing) { return gate << n | owing; }
static int gate_of(int spot) { return spot >> n; }
static int owing_of(int spot) { return spot & ((1 << n) - 1); }

// The arms that owe a move after the call of arm i: begin is no move.
static int owing_after(int gate, int owing, int i) { return known[gate].busy >> i & 1 ? owing & ~(1 << i) : owing; }

// All gates at which a round can end that starts at one of the given gates, arm w waiting all along. In `before`, for each spot on
// the way, the spot before it; itself where a round starts.
static vector<int> rounds_end(const vector<int> &starts, int w, vector<int> &before) {
    vector<int> spots, ends;
    std::fill(before.begin(), before.end(), -1);
    for (int gate : starts) {
        int first = spot(gate, known[gate].busy);
        before[first] = first;
        spots.push_back(first);
    }
    for (size_t k = 0; k < spots.size(); k++) {
        int gate = gate_of(spots[k]), owing = owing_of(spots[k]);
        if (owing == 0) ends.push_back(gate);
        for (int i = 0; i < n; i++) {
            int next = known[gate].next[i], there = spot(next, owing_after(gate, owing, i));
            if (!(known[next].waiting >> w & 1) || before[there] >= 0) continue;
            before[there] = spots[k];
            spots.push_back(there);
        }
    }
    return ends;
}

// The gates at which arm w waits and has waited for k rounds, for k from 0 on until there are none.
static vector<vector<int>> kept_waiting(int w, vector<int> &before) {
    vector<vector<int>> kept(1);
    for (size_t s = 0; s < known.size(); s++)
        if (known[s].waiting >> w & 1) kept[0].push_back((int)s);
    while (!kept.back().empty()) {
        kept.push_back(rounds_end(kept.back(), w, before));
        assert(kept.back().size() < kept[kept.size() - 2].size()); // else it could wait for ever
    }
    return kept;
}

// The arm whose call leads from one spot to another.
static int caller(int from, int to) {
    for (int i = 0; i < n; i++)
        if (known[gate_of(from)].next[i] == gate_of(to) && owing_after(gate_of(from), owing_of(from), i) == owing_of(to)) return i;
    abort();
}

// Prints a list by which arm w waits longest.
static void print_list(const vector<vector<int>> &kept, int w, vector<int> &before) {
    std::string way, rounds;
    int gate = kept[kept.size() - 2][0];
    for (size_t k = kept.size() - 2; k > 0; k--) {
        rounds_end(kept[k - 1], w, before);
        int at = spot(gate, 0);
        for (; before[at] != at; at = before[at]) rounds.insert(0, 1, '1' + caller(before[at], at));
        gate = gate_of(at);
    }
    for (; known[gate].from >= 0; gate = known[gate].from) way.insert(0, 1, '1' + known[gate].by);
    printf(" %d %s %s\n", w + 1, way.c_str(), rounds.c_str());
}

int main(int count, char **words) {
    n = count == 2 ? atoi(words[1]) : 0;
    if (n < 1 || n > MOST_ARMS) return 2;
    read_door();
    find_all();
    printf("%s %d %zu", door.c_str(), n, known.size());
    vector<int> before(known.size() << n);
    vector<vector<int>> longest;
    int longest_of = 0;
    for (int w = 0; w < n; w++) {
        vector<vector<int>> kept = kept_waiting(w, before);
        printf(" %zu", kept.size() - 2);
        fflush(stdout);
        if (kept.size() <= longest.size()) continue;
        longest = kept;
        longest_of = w;
    }
    print_list(longest, longest_of, before);
}
