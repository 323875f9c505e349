// PicoSAT over iCNF: one solver for the whole text, cubes as assumptions, failed literals as parts.
// Debian: the package picosat has the header and the library.
extern "C" {
#include <picosat/picosat.h>
}

#include "icnf.hpp"

namespace {

class Driver {
public:
    ~Driver() { picosat_reset(solver_); }

    void add(const icnf::Lits& clause) {
        for (const int lit : clause) picosat_add(solver_, lit);
        picosat_add(solver_, 0);
    }

    bool solve(const icnf::Lits& cube) {
        for (const int lit : cube) picosat_assume(solver_, lit);
        const int status = picosat_sat(solver_, -1);
        if (status != PICOSAT_SATISFIABLE && status != PICOSAT_UNSATISFIABLE)
            icnf::fail("no answer");
        return status == PICOSAT_SATISFIABLE;
    }

    bool is_true(int variable) { return picosat_deref(solver_, variable) > 0; }

    bool has_failed(int lit) { return picosat_failed_assumption(solver_, lit); }

    void tell() {
        picosat_set_output(solver_, stderr);
        picosat_stats(solver_);
    }

private:
    PicoSAT* solver_ = picosat_init();
};

}  // namespace

int main() {
    Driver driver;
    icnf::answer_all(driver);
    driver.tell();
}
