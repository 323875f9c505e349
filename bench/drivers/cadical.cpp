// CaDiCaL over iCNF: one solver for the whole text, cubes as assumptions, failed literals as parts.
// Debian: the package libcadical-dev has the header and the library.
#include <cadical.hpp>

#include "icnf.hpp"

namespace {

class Driver {
public:
    void add(const icnf::Lits& clause) {
        for (const int lit : clause) solver_.add(lit);
        solver_.add(0);
    }

    bool solve(const icnf::Lits& cube) {
        for (const int lit : cube) solver_.assume(lit);
        const int status = solver_.solve();
        if (status != 10 && status != 20) icnf::fail("no answer");
        return status == 10;
    }

    bool is_true(int variable) { return solver_.val(variable) > 0; }

    bool has_failed(int lit) { return solver_.failed(lit); }

    // The library tells its counts on standard output only, where the blocks stand already.
    void tell() {
        std::fflush(stdout);
        if (::dup2(STDERR_FILENO, STDOUT_FILENO) < 0) icnf::fail("dup2");
        solver_.statistics();
        std::fflush(stdout);
    }

private:
    CaDiCaL::Solver solver_;
};

}  // namespace

int main() {
    Driver driver;
    icnf::answer_all(driver);
    driver.tell();
}
