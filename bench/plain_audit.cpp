// A plain program with the audits of `esr run`, to measure it against. It proves nothing, checks no limit, and accepts only
// scripts in which nothing is blocked, refused or aborted and no query is strict, such as those of bench/audit. For each line
// `audit` it prints the query and the distance.
//
// It audits by streaming: an amount for each version of an item, proposed from the last update to the first, and passes
// over the updates in commit order that check the amounts and mark updates. If the passes find no answer, or with the
// argument `flow`, it computes a maximum flow. The number of audits that streaming answered is printed to standard error.
#include <cstdint>
#include <cstdio>
#include <cstdlib>
#include <algorithm>
#include <iterator>
#include <limits>
#include <optional>
#include <string>
#include <string_view>
#include <unordered_map>
#include <vector>

using std::int64_t;
using std::uint32_t;
using std::uint64_t;
using std::vector;

struct Access {
    uint32_t item;
    bool writes;
    int64_t value;
};

struct Transaction {
    bool query;
    vector<Access> accesses;
    uint32_t updates_before_commit;
};

struct Arc {
    uint32_t to;
    uint32_t next;
    uint64_t room;
};

constexpr uint32_t none = std::numeric_limits<uint32_t>::max();
constexpr uint64_t unlimited = std::numeric_limits<uint64_t>::max() / 4;

// A network, and its greatest flow by shortest augmenting paths in phases (Dinic 1970).
struct Network {
    vector<uint32_t> heads, levels, next;
    vector<Arc> arcs;

    explicit Network(size_t nodes) : heads(nodes, none) {}

    void add(uint32_t from, uint32_t to, uint64_t room) {
        arcs.push_back({to, heads[from], room});
        heads[from] = arcs.size() - 1;
        arcs.push_back({from, heads[to], 0});
        heads[to] = arcs.size() - 1;
    }

    bool search(uint32_t source, uint32_t sink) {
        levels.assign(heads.size(), none);
        vector<uint32_t> queue{source};
        levels[source] = 0;
        for (size_t head = 0; head < queue.size(); head++) {
            for (uint32_t a = heads[queue[head]]; a != none; a = arcs[a].next) {
                if (arcs[a].room > 0 && levels[arcs[a].to] == none) {
                    levels[arcs[a].to] = levels[queue[head]] + 1;
                    if (arcs[a].to == sink) return true;
                    queue.push_back(arcs[a].to);
                }
            }
        }
        return false;
    }

    uint64_t walk(uint32_t source, uint32_t sink) {
        vector<uint32_t> path;
        uint32_t at = source;
        while (at != sink) {
            uint32_t a = next[at];
            while (a != none && !(arcs[a].room > 0 && levels[arcs[a].to] == levels[at] + 1)) a = arcs[a].next;
            next[at] = a;
            if (a != none) {
                path.push_back(a);
                at = arcs[a].to;
            } else if (path.empty()) {
                return 0;
            } else {
                levels[at] = none;
                at = arcs[path.back() ^ 1].to;
                path.pop_back();
            }
        }
        uint64_t least = unlimited;
        for (uint32_t a : path) least = std::min(least, arcs[a].room);
        for (uint32_t a : path) {
            arcs[a].room -= least;
            arcs[a ^ 1].room += least;
        }
        return least;
    }

    uint64_t maximum(uint32_t source, uint32_t sink) {
        uint64_t worth = 0;
        while (search(source, sink)) {
            next = heads;
            while (uint64_t more = walk(source, sink)) worth += more;
        }
        return worth;
    }
};

// What the committed updates did, in commit order: one record for each update and item. Records and updates are numbered
// from 0.
struct Records {
    struct Record {
        int64_t value;
        uint32_t item;
        uint32_t owner;
        uint32_t earlier;  // the record of the version that a write overwrites; `none` for the opening value
        uint32_t later;    // the record that overwrites the version of a write
        bool writes;
    };
    vector<Record> all;
    vector<uint32_t> starts{0};
    vector<uint32_t> latest;

    uint32_t updates() const { return starts.size() - 1; }

    void commit(const vector<Access> &accesses) {
        uint32_t start = all.size(), owner = updates();
        for (const Access &a : accesses) {
            auto same = std::find_if(all.begin() + start, all.end(), [&](const Record &r) { return r.item == a.item; });
            if (same == all.end()) {
                all.push_back({a.value, a.item, owner, none, none, a.writes});
            } else if (a.writes) {
                same->writes = true;
                same->value = a.value;
            }
        }
        for (uint32_t k = start; k < all.size(); k++) {
            if (!all[k].writes) continue;
            uint32_t &last = latest[all[k].item];
            all[k].earlier = last;
            if (last != none) all[last].later = k;
            last = k;
        }
        starts.push_back(all.size());
    }
};

// What a query read of an item, and what a version of the item costs.
struct Reading {
    vector<int64_t> values, sums;

    void prepare() {
        std::sort(values.begin(), values.end());
        sums.assign(1, 0);
        for (int64_t value : values) sums.push_back(sums.back() + value);
    }

    int64_t cost(int64_t version) const {
        if (values.size() == 1) return std::abs(version - values[0]);
        int64_t low = std::lower_bound(values.begin(), values.end(), version) - values.begin(), count = values.size();
        return count == 0 ? 0 : version * low - sums[low] + (sums[count] - sums[low]) - version * (count - low);
    }
};

// The audit of one query by streaming over its updates. An amount may be negative.
struct Stream {
    const Records &records;
    const vector<int64_t> &opening;
    const vector<Reading> &readings;
    uint32_t updates;
    uint32_t end;                     // the end of the records of these updates
    vector<int64_t> replaced;         // by record: the amount of the version that it overwrites
    vector<int64_t> last;             // by item: the amount of its last version
    vector<uint8_t> marks;            // by update
    int64_t looks;

    struct Sight {
        uint32_t round = 0, record = none, from = none;
        bool dead = false;
    };
    vector<Sight> sights;
    vector<uint32_t> queue;
    uint32_t round = 0;

    Stream(const Records &r, const vector<int64_t> &o, const vector<Reading> &q, uint32_t count)
        : records(r), opening(o), readings(q), updates(count), end(r.starts[count]), replaced(end), last(o.size()),
          marks(count), looks(400 * int64_t(count)) {}

    int64_t cost_of_replaced(uint32_t k) const {
        const auto &r = records.all[k];
        return readings[r.item].cost(r.earlier == none ? opening[r.item] : records.all[r.earlier].value);
    }

    uint32_t next(uint32_t k) const {
        uint32_t later = records.all[k].later;
        return later < end ? later : none;
    }

    void propose() {
        vector<uint32_t> seen = records.latest;
        for (size_t x = 0; x < opening.size(); x++) {
            while (seen[x] != none && seen[x] >= end) seen[x] = records.all[seen[x]].earlier;
            last[x] = readings[x].cost(seen[x] == none ? opening[x] : records.all[seen[x]].value);
        }
        vector<int64_t> carried = last;
        for (uint32_t u = updates; u-- > 0;) {
            int64_t due = 0, room = 0;
            for (uint32_t k = records.starts[u]; k < records.starts[u + 1]; k++) {
                if (!records.all[k].writes) continue;
                due += next(k) == none ? last[records.all[k].item] : replaced[next(k)];
                replaced[k] = cost_of_replaced(k);
                room += replaced[k];
            }
            if (due < room) {
                share(u, due, room);
            } else if (due > room) {
                supply(u, due - room);
            }
        }
    }

    // Distributes an amount over the versions that an update overwrites, in proportion to their costs.
    void share(uint32_t u, int64_t due, int64_t room) {
        int64_t left = due;
        double ratio = double(due) / double(room) * (1 - 1e-15);
        for (uint32_t k = records.starts[u]; k < records.starts[u + 1]; k++) {
            if (!records.all[k].writes) continue;
            replaced[k] = std::min(int64_t(double(replaced[k]) * ratio), left);
            left -= replaced[k];
        }
        for (uint32_t k = records.starts[u]; k < records.starts[u + 1] && left > 0; k++) {
            if (!records.all[k].writes) continue;
            int64_t part = std::min(cost_of_replaced(k) - replaced[k], left);
            replaced[k] += part;
            left -= part;
        }
    }

    void see(uint32_t node, uint32_t record, uint32_t from) {
        Sight &sight = sights[node];
        if (sight.dead || sight.round == round) return;
        sight = {round, record, from, false};
        queue.push_back(node);
    }

    // Finds a version of an earlier update that can take more, by a breadth-first search over updates. A search enters an
    // update by a record: one of the update that it came from, whose overwritten version takes more, or one of the update
    // itself, of which the later version takes less.
    uint32_t search(uint32_t u) {
        round++;
        queue.clear();
        see(u, none, none);
        for (size_t head = 0; head < queue.size(); head++) {
            uint32_t node = queue[head];
            for (uint32_t k = records.starts[node]; k < records.starts[node + 1]; k++) {
                looks--;
                if (!records.all[k].writes) continue;
                if (replaced[k] < cost_of_replaced(k)) {
                    uint32_t earlier = records.all[k].earlier;
                    if (earlier == none || records.all[earlier].owner < u) return k;
                    see(records.all[earlier].owner, k, node);
                }
                uint32_t later = next(k);
                if (later != none) see(records.all[later].owner, later, node);
            }
        }
        return none;
    }

    // Whether a search entered an update by a record whose version takes less: the record is then the update's own.
    bool takes_less(uint32_t node) const { return records.all[sights[node].record].owner == node; }

    void supply(uint32_t u, int64_t due) {
        if (sights.empty()) sights.resize(updates);
        while (due > 0 && looks > 0) {
            uint32_t found = search(u);
            if (found == none) {
                for (uint32_t node : queue) sights[node].dead = true;
                return;
            }
            int64_t amount = std::min(due, cost_of_replaced(found) - replaced[found]);
            for (uint32_t node = records.all[found].owner; node != u; node = sights[node].from) {
                uint32_t k = sights[node].record;
                if (!takes_less(node)) amount = std::min(amount, cost_of_replaced(k) - replaced[k]);
            }
            replaced[found] += amount;
            for (uint32_t node = records.all[found].owner; node != u; node = sights[node].from) {
                replaced[sights[node].record] += takes_less(node) ? -amount : amount;
            }
            due -= amount;
        }
    }

    struct State {
        int64_t cost, amount;
        bool covered;
    };

    // Marks the updates that overwrite a version with slack. Returns the states of the items after the marked updates and
    // the sum of the first amounts, or nothing if an update decreases the sum.
    std::optional<int64_t> pass() {
        vector<State> states(opening.size());
        int64_t worth = 0;
        for (size_t x = 0; x < opening.size(); x++) states[x] = {readings[x].cost(opening[x]), last[x], true};
        for (uint32_t k = 0; k < end; k++) {
            const auto &r = records.all[k];
            if (r.writes && r.earlier == none) states[r.item].amount = replaced[k];
        }
        for (const State &state : states) worth += state.amount;
        for (uint32_t u = 0; u < updates; u++) {
            int64_t before = 0, after = 0;
            for (uint32_t k = records.starts[u]; k < records.starts[u + 1] && !marks[u]; k++) {
                const State &state = states[records.all[k].item];
                marks[u] = records.all[k].writes && state.covered && state.amount < state.cost;
            }
            for (uint32_t k = records.starts[u]; k < records.starts[u + 1]; k++) {
                const auto &r = records.all[k];
                if (!r.writes) continue;
                int64_t amount = next(k) == none ? last[r.item] : replaced[next(k)];
                before += states[r.item].amount;
                after += amount;
                states[r.item] = {readings[r.item].cost(r.value), amount, bool(marks[u])};
            }
            if (after < before) return {};
        }
        return worth;
    }

    // Marks what precedes a marked update. Returns whether that added a mark.
    bool close() {
        vector<uint8_t> accessed(opening.size()), written(opening.size());
        bool added = false;
        for (uint32_t u = updates; u-- > 0;) {
            for (uint32_t k = records.starts[u]; k < records.starts[u + 1] && !marks[u]; k++) {
                const auto &r = records.all[k];
                if (r.writes ? accessed[r.item] : written[r.item]) marks[u] = added = true;
            }
            for (uint32_t k = records.starts[u]; k < records.starts[u + 1] && marks[u]; k++) {
                accessed[records.all[k].item] = 1;
                written[records.all[k].item] |= records.all[k].writes;
            }
        }
        return added;
    }

    int64_t cost_of_marked() const {
        vector<int64_t> values = opening;
        for (uint32_t k = 0; k < end; k++) {
            const auto &r = records.all[k];
            if (r.writes && marks[r.owner]) values[r.item] = r.value;
        }
        int64_t cost = 0;
        for (size_t x = 0; x < opening.size(); x++) cost += readings[x].cost(values[x]);
        return cost;
    }

    std::optional<uint64_t> distance() {
        propose();
        for (int rounds = 0; rounds < 32; rounds++) {
            std::optional<int64_t> worth = pass();
            if (!worth) return {};
            if (close()) continue;
            if (cost_of_marked() != *worth) return {};
            return *worth;
        }
        return {};
    }
};

struct Engine {
    vector<int64_t> opening, current;
    vector<Transaction> transactions;
    vector<uint32_t> committed;
    Records records;
    uint64_t streamed = 0, audits = 0;
    bool flows_only = false;

    uint64_t audit(uint32_t q) {
        audits++;
        if (flows_only) return flow(q);
        vector<Reading> readings(opening.size());
        for (const Access &a : transactions[q].accesses) readings[a.item].values.push_back(a.value);
        for (Reading &reading : readings) reading.prepare();
        std::optional<uint64_t> found = Stream(records, opening, readings, transactions[q].updates_before_commit).distance();
        streamed += found.has_value();
        return found ? *found : flow(q);
    }

    uint64_t flow(uint32_t q) {
        const vector<Access> &readings = transactions[q].accesses;
        vector<bool> read(opening.size()), written(opening.size());
        vector<vector<int64_t>> values(opening.size());
        for (const Access &a : readings) {
            read[a.item] = true;
            values[a.item].push_back(a.value);
        }

        // The near updates: what they did conflicts with the query's reads or with a later near update.
        vector<uint32_t> near;
        size_t end = std::find(committed.begin(), committed.end(), q) - committed.begin();
        for (size_t i = end; i-- > 0;) {
            const Transaction &u = transactions[committed[i]];
            bool conflicts = !u.query && std::any_of(u.accesses.begin(), u.accesses.end(), [&](const Access &a) {
                return written[a.item] || (a.writes && read[a.item]);
            });
            if (!conflicts) continue;
            near.push_back(committed[i]);
            for (const Access &a : u.accesses) (a.writes ? written : read)[a.item] = true;
        }
        std::reverse(near.begin(), near.end());

        // Few pairs that order them, and the chain of writers of each item.
        struct Chain {
            vector<uint32_t> writers;
            vector<int64_t> values;
        };
        vector<Chain> chains(opening.size());
        vector<vector<uint32_t>> readers(opening.size());
        vector<std::pair<uint32_t, uint32_t>> before;
        for (uint32_t i = 0; i < near.size(); i++) {
            for (const Access &a : transactions[near[i]].accesses) {
                Chain &chain = chains[a.item];
                if (!chain.writers.empty() && chain.writers.back() != i) before.push_back({chain.writers.back(), i});
                if (!a.writes) {
                    readers[a.item].push_back(i);
                    continue;
                }
                for (uint32_t r : readers[a.item])
                    if (r != i) before.push_back({r, i});
                readers[a.item].clear();
                if (!chain.writers.empty() && chain.writers.back() == i) {
                    chain.values.back() = a.value;
                } else {
                    chain.writers.push_back(i);
                    chain.values.push_back(a.value);
                }
            }
        }
        std::sort(before.begin(), before.end());
        before.erase(std::unique(before.begin(), before.end()), before.end());

        uint32_t source = near.size(), sink = near.size() + 1;
        Network network(near.size() + 2);
        for (size_t x = 0; x < opening.size(); x++) {
            if (values[x].empty()) continue;
            auto cost = [&](int64_t version) {
                uint64_t sum = 0;
                for (int64_t value : values[x]) sum += value < version ? version - value : value - version;
                return sum;
            };
            uint32_t from = source;
            uint64_t costs = cost(opening[x]);
            for (size_t j = 0; j < chains[x].writers.size(); j++) {
                network.add(from, chains[x].writers[j], costs);
                from = chains[x].writers[j];
                costs = cost(chains[x].values[j]);
            }
            network.add(from, sink, costs);
        }
        for (auto [first, second] : before) network.add(second, first, unlimited);
        return network.maximum(source, sink);
    }
};

// The words of the next line that has any.
struct Lines {
    std::string text;
    size_t at = 0;

    bool take(vector<std::string_view> &words) {
        words.clear();
        while (at < text.size() && words.empty()) {
            size_t line_end = std::min(text.find('\n', at), text.size());
            while (at < line_end) {
                size_t word_end = std::min(text.find(' ', at), line_end);
                if (word_end > at) words.push_back(std::string_view(text).substr(at, word_end - at));
                at = word_end + 1;
            }
            at = line_end + 1;
        }
        return !words.empty();
    }
};

int64_t number(std::string_view word) { return std::strtoll(word.data(), nullptr, 10); }

int main(int count, char **arguments) {
    Lines lines;
    char block[1 << 16];
    while (size_t length = std::fread(block, 1, sizeof block, stdin)) lines.text.append(block, length);
    std::unordered_map<std::string_view, uint32_t> items, transactions;
    Engine engine;
    engine.flows_only = count > 1 && std::string_view(arguments[1]) == "flow";
    vector<std::string_view> words;
    while (lines.take(words)) {
        std::string_view command = words[0], name = words[1];
        if (command == "item") {
            items[name] = engine.opening.size();
            engine.opening.push_back(number(words[2]));
            engine.current.push_back(number(words[2]));
            engine.records.latest.push_back(none);
        } else if (command == "begin") {
            transactions[name] = engine.transactions.size();
            engine.transactions.push_back({words[2] == "query", {}, 0});
        } else if (command == "read" || command == "write") {
            uint32_t x = items[words[2]];
            if (command == "write") engine.current[x] = number(words[3]);
            engine.transactions[transactions[name]].accesses.push_back({x, command == "write", engine.current[x]});
        } else if (command == "commit") {
            uint32_t t = transactions[name];
            engine.committed.push_back(t);
            if (!engine.transactions[t].query) engine.records.commit(engine.transactions[t].accesses);
            engine.transactions[t].updates_before_commit = engine.records.updates();
        } else if (command == "audit") {
            unsigned long long distance = engine.audit(transactions[name]);
            std::printf("audit %.*s distance %llu\n", int(name.size()), name.data(), distance);
        }
    }
    std::fprintf(stderr, "%llu of %llu audits by streaming\n", (unsigned long long)engine.streamed,
                 (unsigned long long)engine.audits);
}
