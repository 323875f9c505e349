// MiniSat over iCNF: one solver for the whole text, cubes as assumptions, failed literals as parts.
// Debian: the package minisat has the headers and the library.
#include <minisat/core/Solver.h>

#include "icnf.hpp"

namespace {

using Minisat::Lit;
using Minisat::lbool;

class Driver {
public:
    void add(const icnf::Lits& clause) { solver_.addClause(taken(clause)); }

    bool solve(const icnf::Lits& cube) {
        const bool satisfiable = solver_.solve(taken(cube));
        failed_.assign(satisfiable ? 0 : 2 * solver_.nVars(), false);
        if (!satisfiable)
            for (int at = 0; at < solver_.conflict.size(); at++)
                failed_[Minisat::toInt(~solver_.conflict[at])] = true;
        return satisfiable;
    }

    bool is_true(int variable) {
        return solver_.modelValue(Minisat::mkLit(variable - 1)) == l_True;
    }

    bool has_failed(int lit) { return failed_[Minisat::toInt(lit_of(lit))]; }

    void tell() const {
        std::fprintf(stderr, "conflicts %llu\npropagations %llu\ndecisions %llu\n",
                     static_cast<unsigned long long>(solver_.conflicts),
                     static_cast<unsigned long long>(solver_.propagations),
                     static_cast<unsigned long long>(solver_.decisions));
    }

private:
    static Lit lit_of(int lit) { return Minisat::mkLit(std::abs(lit) - 1, lit < 0); }

    // The literals, with their variables made known to the solver.
    const Minisat::vec<Lit>& taken(const icnf::Lits& lits) {
        lits_.clear();
        for (const int lit : lits) {
            while (solver_.nVars() < std::abs(lit)) solver_.newVar();
            lits_.push(lit_of(lit));
        }
        return lits_;
    }

    Minisat::Solver solver_;
    Minisat::vec<Lit> lits_;
    std::vector<char> failed_;
};

}  // namespace

int main() {
    Driver driver;
    icnf::answer_all(driver);
    driver.tell();
}
