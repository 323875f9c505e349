// One small solver over three layouts of watch lists, to see what each costs:
//   links      a list by links of four bytes a side, heads of four bytes a literal: Tarmo's
//   blockers   the same with a literal of the clause beside each link, looked at before the clause
//   vectors    a vector a literal of clause and such a literal, as MiniSat has them
// It is what Tarmo is besides: flat clauses, one byte a literal's truth, first unique implication
// point, local minimization, decaying scores, phases, Luby's restarts; nothing learnt is thrown away.
#include <chrono>
#include <cstdint>
#include <cstring>
#include <queue>

#include "icnf.hpp"

namespace {

using Code = uint32_t;  // 2v for the positive literal of v, 2v + 1 for the negative one
constexpr uint32_t NONE = UINT32_MAX;

Code code_of(int lit) { return 2 * std::abs(lit) + (lit < 0); }

struct Arena {
    std::vector<uint32_t> bounds{0};
    std::vector<Code> lits;

    uint32_t add(const std::vector<Code>& clause) {
        lits.insert(lits.end(), clause.begin(), clause.end());
        bounds.push_back(lits.size());
        return bounds.size() - 2;
    }
    Code* begin(uint32_t id) { return lits.data() + bounds[id]; }
    uint32_t size(uint32_t id) const { return bounds[id + 1] - bounds[id]; }
};

struct Assigned {
    std::vector<int8_t> truth;  // by code: 1 true, -1 false, 0 neither
    std::vector<Code> trail;
    std::vector<uint32_t> reasons, levels, starts;
    size_t looked = 0;
    uint64_t propagations = 0;

    void reserve(uint32_t vars) {
        truth.resize(2 * vars + 2);
        reasons.resize(vars + 1, NONE);
        levels.resize(vars + 1);
    }
    void assign(Code lit, uint32_t reason) {
        truth[lit] = 1;
        truth[lit ^ 1] = -1;
        reasons[lit / 2] = reason;
        levels[lit / 2] = starts.size();
        trail.push_back(lit);
    }
};

// Looks for a literal that isn't false behind the watched ones; 0 where there is none.
uint32_t free_place(const Code* lits, uint32_t size, const Assigned& assigned) {
    for (uint32_t place = 2; place < size; place++)
        if (assigned.truth[lits[place]] >= 0) return place;
    return 0;
}

struct Links {
    std::vector<uint32_t> heads, next;

    void reserve(uint32_t vars) { heads.resize(2 * vars + 2, NONE); }
    void join(Code lit, uint32_t id, uint32_t side, Code) {
        if (next.size() < 2 * id + 2) next.resize(2 * id + 2, NONE);
        next[2 * id + side] = heads[lit];
        heads[lit] = 2 * id + side;
    }
    // The number of a false clause, or NONE.
    uint32_t visit(Code gone, Arena& arena, Assigned& assigned) {
        uint32_t* link = &heads[gone];
        for (uint32_t here = *link; here != NONE; here = *link) {
            const uint32_t id = here / 2, side = here & 1;
            Code* lits = arena.begin(id);
            const Code other = lits[1 - side];
            const int8_t truth = assigned.truth[other];
            if (truth != 1) {
                if (const uint32_t place = free_place(lits, arena.size(id), assigned)) {
                    std::swap(lits[side], lits[place]);
                    *link = next[here];
                    next[here] = heads[lits[side]];
                    heads[lits[side]] = here;
                    continue;
                }
                if (truth == -1) return id;
                assigned.assign(other, id);
            }
            link = &next[here];
        }
        return NONE;
    }
};

struct Blockers {
    struct Link { uint32_t next; Code blocker; };
    std::vector<uint32_t> heads;
    std::vector<Link> links;

    void reserve(uint32_t vars) { heads.resize(2 * vars + 2, NONE); }
    void join(Code lit, uint32_t id, uint32_t side, Code blocker) {
        if (links.size() < 2 * id + 2) links.resize(2 * id + 2, Link{NONE, 0});
        links[2 * id + side] = Link{heads[lit], blocker};
        heads[lit] = 2 * id + side;
    }
    uint32_t visit(Code gone, Arena& arena, Assigned& assigned) {
        uint32_t* link = &heads[gone];
        for (uint32_t here = *link; here != NONE; here = *link) {
            Link& at = links[here];
            if (assigned.truth[at.blocker] == 1) { link = &at.next; continue; }
            const uint32_t id = here / 2, side = here & 1;
            Code* lits = arena.begin(id);
            const Code other = lits[1 - side];
            const int8_t truth = assigned.truth[other];
            at.blocker = other;
            if (truth != 1) {
                if (const uint32_t place = free_place(lits, arena.size(id), assigned)) {
                    std::swap(lits[side], lits[place]);
                    *link = at.next;
                    at.next = heads[lits[side]];
                    heads[lits[side]] = here;
                    continue;
                }
                if (truth == -1) return id;
                assigned.assign(other, id);
            }
            link = &at.next;
        }
        return NONE;
    }
};

struct Vectors {
    struct Watch { uint32_t side; Code blocker; };
    std::vector<std::vector<Watch>> lists;

    void reserve(uint32_t vars) { lists.resize(2 * vars + 2); }
    void join(Code lit, uint32_t id, uint32_t side, Code blocker) {
        lists[lit].push_back(Watch{2 * id + side, blocker});
    }
    uint32_t visit(Code gone, Arena& arena, Assigned& assigned) {
        std::vector<Watch>& list = lists[gone];
        Watch *from = list.data(), *to = from, *const end = from + list.size();
        uint32_t found = NONE;
        while (from != end) {
            Watch watch = *from++;
            if (assigned.truth[watch.blocker] == 1) { *to++ = watch; continue; }
            const uint32_t id = watch.side / 2, side = watch.side & 1;
            Code* lits = arena.begin(id);
            const Code other = lits[1 - side];
            const int8_t truth = assigned.truth[other];
            watch.blocker = other;
            if (truth != 1) {
                if (const uint32_t place = free_place(lits, arena.size(id), assigned)) {
                    std::swap(lits[side], lits[place]);
                    lists[lits[side]].push_back(watch);
                    continue;
                }
                *to++ = watch;
                if (truth == -1) { found = id; break; }
                assigned.assign(other, id);
            } else {
                *to++ = watch;
            }
        }
        while (from != end) *to++ = *from++;
        list.resize(to - list.data());
        return found;
    }
};

uint64_t luby(uint64_t number) {
    uint64_t size = 1, power = 0;
    while (size < number + 1) { size = 2 * size + 1; power++; }
    while (size - 1 != number) { size = (size - 1) / 2; power--; number %= size; }
    return uint64_t{1} << power;
}

template <class Lists>
class Driver {
public:
    void add(const icnf::Lits& clause) {
        std::vector<Code> lits = taken(clause);
        std::sort(lits.begin(), lits.end());
        lits.erase(std::unique(lits.begin(), lits.end()), lits.end());
        for (size_t at = 1; at < lits.size(); at++)
            if (lits[at] == (lits[at - 1] ^ 1)) return;
        back_to(0);
        std::stable_partition(lits.begin(), lits.end(),
                              [&](Code lit) { return assigned_.truth[lit] >= 0; });
        hold(lits);
    }

    bool solve(const icnf::Lits& given) {
        const std::vector<Code> cube = taken(given);
        failed_.assign(assigned_.truth.size(), false);
        const auto start = std::chrono::steady_clock::now();
        const bool satisfiable = search(cube);
        seconds_ += std::chrono::duration<double>(std::chrono::steady_clock::now() - start).count();
        return satisfiable;
    }

    bool is_true(int variable) { return model_[2 * variable] == 1; }
    bool has_failed(int lit) { return failed_[code_of(lit)]; }

    void tell() const {
        std::fprintf(stderr, "conflicts %llu\npropagations %llu\nseconds %.3f\npropagating %.3f\n",
                     static_cast<unsigned long long>(conflicts_),
                     static_cast<unsigned long long>(assigned_.propagations), seconds_, inside_);
    }

private:
    std::vector<Code> taken(const icnf::Lits& lits) {
        std::vector<Code> codes;
        for (const int lit : lits) {
            reserve(std::abs(lit));
            codes.push_back(code_of(lit));
        }
        return codes;
    }

    void reserve(uint32_t vars) {
        while (vars_ < vars) {
            vars_++;
            scores_.push_back(0);
            order_.push({0, vars_});
            if (vars_ < assigned_.levels.size()) continue;
            assigned_.reserve(2 * vars_);
            lists_.reserve(2 * vars_);
            phases_.resize(2 * vars_ + 1, 1);
            met_.resize(2 * vars_ + 1, 0);
        }
    }

    // The false ones of a new clause of level 0 stand last.
    void hold(const std::vector<Code>& lits) {
        if (lits.empty() || assigned_.truth[lits[0]] == -1) { refuted_ = true; return; }
        if (lits.size() == 1 || assigned_.truth[lits[1]] == -1) {
            if (assigned_.truth[lits[0]] == 0) assigned_.assign(lits[0], NONE);
            return;
        }
        watch(lits);
    }

    uint32_t watch(const std::vector<Code>& lits) {
        const uint32_t id = arena_.add(lits);
        lists_.join(lits[0], id, 0, lits[1]);
        lists_.join(lits[1], id, 1, lits[0]);
        return id;
    }

    uint32_t propagate() {
        const auto start = std::chrono::steady_clock::now();
        uint32_t found = NONE;
        while (found == NONE && assigned_.looked < assigned_.trail.size()) {
            assigned_.propagations++;
            found = lists_.visit(assigned_.trail[assigned_.looked++] ^ 1, arena_, assigned_);
        }
        inside_ += std::chrono::duration<double>(std::chrono::steady_clock::now() - start).count();
        return found;
    }

    void back_to(size_t level) {
        if (assigned_.starts.size() <= level) return;
        while (assigned_.trail.size() > assigned_.starts[level]) {
            const Code lit = assigned_.trail.back();
            assigned_.trail.pop_back();
            assigned_.truth[lit] = assigned_.truth[lit ^ 1] = 0;
            phases_[lit / 2] = lit & 1;
            order_.push({scores_[lit / 2 - 1], lit / 2});
        }
        assigned_.starts.resize(level);
        assigned_.looked = assigned_.trail.size();
    }

    void bump(uint32_t variable) {
        if ((scores_[variable - 1] += step_) > 1e100) {
            for (double& score : scores_) score *= 1e-100;
            step_ *= 1e-100;
            order_ = {};
            for (uint32_t other = 1; other <= vars_; other++)
                if (!assigned_.truth[2 * other]) order_.push({scores_[other - 1], other});
        } else if (!assigned_.truth[2 * variable]) {
            order_.push({scores_[variable - 1], variable});
        }
    }

    // Learns from a false clause: the clause, its asserting literal first, and the level behind it.
    size_t learn(uint32_t clause, std::vector<Code>& learnt) {
        learnt.assign(1, 0);
        std::vector<uint32_t> all;
        size_t place = assigned_.trail.size(), open = 0;
        Code lit = 0;
        do {
            for (uint32_t at = 0; at < arena_.size(clause); at++) {
                const Code other = arena_.begin(clause)[at];
                const uint32_t variable = other / 2;
                if (other == lit || met_[variable] || assigned_.levels[variable] == 0) continue;
                met_[variable] = 1;
                all.push_back(variable);
                if (assigned_.levels[variable] == assigned_.starts.size()) open++;
                else learnt.push_back(other);
            }
            do lit = assigned_.trail[--place]; while (!met_[lit / 2]);
            clause = assigned_.reasons[lit / 2];
        } while (--open > 0);
        learnt[0] = lit ^ 1;
        const auto adds_little = [&](Code other) {
            const uint32_t reason = assigned_.reasons[other / 2];
            if (reason == NONE) return false;
            for (uint32_t at = 0; at < arena_.size(reason); at++) {
                const uint32_t variable = arena_.begin(reason)[at] / 2;
                if (variable != other / 2 && !met_[variable] && assigned_.levels[variable] > 0)
                    return false;
            }
            return true;
        };
        learnt.erase(std::remove_if(learnt.begin() + 1, learnt.end(), adds_little), learnt.end());
        for (const uint32_t variable : all) { met_[variable] = 0; bump(variable); }
        step_ *= 1 / 0.95;
        if (learnt.size() == 1) return 0;
        const auto high = std::max_element(learnt.begin() + 1, learnt.end(), [&](Code a, Code b) {
            return assigned_.levels[a / 2] < assigned_.levels[b / 2];
        });
        std::swap(learnt[1], *high);
        return assigned_.levels[learnt[1] / 2];
    }

    void blame(Code failed) {
        failed_[failed] = true;
        std::vector<char> met(vars_ + 1);
        met[failed / 2] = 1;
        for (size_t at = assigned_.trail.size(); at-- > 0;) {
            const Code lit = assigned_.trail[at];
            if (!met[lit / 2] || assigned_.levels[lit / 2] == 0) continue;
            const uint32_t reason = assigned_.reasons[lit / 2];
            if (reason == NONE) { failed_[lit] = true; continue; }
            for (uint32_t of = 0; of < arena_.size(reason); of++)
                met[arena_.begin(reason)[of] / 2] = 1;
        }
    }

    bool search(const std::vector<Code>& cube) {
        std::vector<Code> learnt;
        uint64_t restarts = 0, left = 64 * luby(restarts);
        back_to(0);
        while (!refuted_) {
            if (const uint32_t clause = propagate(); clause != NONE) {
                conflicts_++;
                if (assigned_.starts.empty()) { refuted_ = true; break; }
                back_to(learn(clause, learnt));
                assigned_.assign(learnt[0], learnt.size() == 1 ? NONE : watch(learnt));
                if (--left > 0) continue;
                left = 64 * luby(++restarts);
                back_to(0);
                continue;
            }
            Code next = 0;
            while (next == 0 && assigned_.starts.size() < cube.size()) {
                const Code lit = cube[assigned_.starts.size()];
                if (assigned_.truth[lit] == -1) { blame(lit); return false; }
                if (assigned_.truth[lit] == 0) next = lit;
                else assigned_.starts.push_back(assigned_.trail.size());
            }
            while (next == 0 && !order_.empty()) {
                const auto [score, variable] = order_.top();
                order_.pop();
                if (!assigned_.truth[2 * variable] && score == scores_[variable - 1])
                    next = 2 * variable + phases_[variable];
            }
            if (next == 0) { model_ = assigned_.truth; return true; }
            assigned_.starts.push_back(assigned_.trail.size());
            assigned_.assign(next, NONE);
        }
        return false;
    }

    uint32_t vars_ = 0;
    Arena arena_;
    Lists lists_;
    Assigned assigned_;
    std::vector<double> scores_;
    std::priority_queue<std::pair<double, uint32_t>> order_;
    double step_ = 1, seconds_ = 0, inside_ = 0;
    std::vector<char> phases_, met_, failed_;
    std::vector<int8_t> model_;
    uint64_t conflicts_ = 0;
    bool refuted_ = false;
};

template <class Lists>
void run() {
    Driver<Lists> driver;
    icnf::answer_all(driver);
    driver.tell();
}

}  // namespace

int main(int count, char** words) {
    const char* layout = count == 2 ? words[1] : "";
    if (!std::strcmp(layout, "links")) run<Links>();
    else if (!std::strcmp(layout, "blockers")) run<Blockers>();
    else if (!std::strcmp(layout, "vectors")) run<Vectors>();
    else icnf::fail("the word is links, blockers or vectors");
}
