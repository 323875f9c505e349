// Checks an output against its text: blocks of jobs 1, 2 and so on, models that make all clauses so
// far and the cube true, parts whose literals are the cube's. What it can't tell is whether a part
// is refuted, so it writes a text that asks for each part in the place of its cube; a solver that
// answers only UNSATISFIABLE there confirms them.
//
//   check TEXT OUTPUT PARTS
// It prints "verdicts" with a letter a job (S, U or ?), "ended" with yes or no, and "wrong" with
// the job and the reason where something is wrong, and then its status is 1. An output that was cut
// off is judged up to its last whole block.
#include <fcntl.h>

#include <cstring>
#include <fstream>
#include <set>
#include <unordered_map>

#include "icnf.hpp"

namespace {

using icnf::Lits;

struct Block {
    char verdict = '?';
    Lits lits;
};

// The clauses so far, in one list.
class Clauses {
public:
    void add(const Lits& clause) {
        lits_.insert(lits_.end(), clause.begin(), clause.end());
        ends_.push_back(lits_.size());
    }

    size_t count() const { return ends_.size(); }

    // Whether the values make all clauses from the given one on true.
    bool are_true(const std::vector<bool>& values, size_t from) const {
        for (size_t clause = from; clause < ends_.size(); clause++)
            if (!is_true(values, clause)) return false;
        return true;
    }

private:
    bool is_true(const std::vector<bool>& values, size_t clause) const {
        for (size_t at = clause == 0 ? 0 : ends_[clause - 1]; at < ends_[clause]; at++)
            if (values[std::abs(lits_[at])] == (lits_[at] > 0)) return true;
        return false;
    }

    Lits lits_;
    std::vector<size_t> ends_;
};

class Check {
public:
    Check(std::ifstream& output, std::ofstream& parts) : output_(output), parts_(parts) {}

    void run(icnf::Reader& text) {
        parts_ << "p inccnf\n";
        Lits lits;
        bool told = true;
        for (;;) {
            const icnf::Statement kind = text.next(lits);
            if (kind == icnf::Statement::End) break;
            variables_ = icnf::greatest_variable(variables_, lits);
            if (kind == icnf::Statement::Clause) {
                clauses_.add(lits);
                write(lits, "");
                continue;
            }
            jobs_++;
            Block block;
            told = next_block(block);
            if (!told) break;
            verdicts_ += block.verdict;
            if (block.verdict == 'S') check_model(block.lits, lits);
            if (block.verdict == 'U') check_part(block.lits, lits);
        }
        ended_ = told && last_line_is_end();
    }

    int report() const {
        std::printf("verdicts %s\nended %s\n", verdicts_.c_str(), ended_ ? "yes" : "no");
        if (wrong_.empty()) return 0;
        std::printf("wrong %s\n", wrong_.c_str());
        return 1;
    }

private:
    void is_wrong(const std::string& reason) {
        if (wrong_.empty()) wrong_ = "job " + std::to_string(jobs_) + ": " + reason;
    }

    // A line that ended by a line feed.
    bool next_line(std::string& line) {
        return std::getline(output_, line) && !output_.eof();
    }

    bool next_block(Block& block) {
        std::string head, line;
        if (!next_line(head)) return false;
        const std::string number = "j " + std::to_string(jobs_) + ' ';
        if (head.compare(0, number.size(), number) != 0) {
            last_ = head;
            return false;
        }
        const std::string verdict = head.substr(number.size());
        block.verdict = verdict == "SATISFIABLE" ? 'S' : verdict == "UNSATISFIABLE" ? 'U' : '?';
        if (block.verdict == '?') return true;
        if (!next_line(line)) return false;
        if (line.empty() || line[0] != (block.verdict == 'S' ? 'v' : 'f')) is_wrong("form");
        else numbers(line.c_str() + 1, block.lits);
        return true;
    }

    void numbers(const char* at, Lits& lits) {
        for (;;) {
            char* end = nullptr;
            const long number = std::strtol(at, &end, 10);
            if (end == at) return is_wrong("a line without its 0");
            if (number == 0) return;
            lits.push_back(static_cast<int>(number));
            at = end;
        }
    }

    // A model that came before needs to be looked at for the clauses that are new since then alone.
    void check_model(const Lits& model, const Lits& cube) {
        if (model.size() != static_cast<size_t>(variables_)) return is_wrong("length of the model");
        std::vector<bool> values(model.size() + 1);
        for (size_t at = 0; at < model.size(); at++) {
            const int variable = static_cast<int>(at) + 1;
            if (std::abs(model[at]) != variable) return is_wrong("order of the model");
            values[at + 1] = model[at] > 0;
        }
        if (seen_.size() > 1000) seen_.clear();
        size_t& seen = seen_[values];
        if (!clauses_.are_true(values, seen)) is_wrong("a clause is false in the model");
        seen = clauses_.count();
        for (const int lit : cube)
            if (values[std::abs(lit)] != (lit > 0)) is_wrong("the cube is false in the model");
    }

    void check_part(const Lits& part, const Lits& cube) {
        const std::set<int> known(cube.begin(), cube.end());
        for (const int lit : part)
            if (known.count(lit) == 0) is_wrong("a literal of the part isn't the cube's");
        write(part, "a ");
    }

    void write(const Lits& lits, const char* before) {
        parts_ << before;
        for (const int lit : lits) parts_ << lit << ' ';
        parts_ << "0\n";
    }

    bool last_line_is_end() {
        if (last_.empty() && !next_line(last_)) return false;
        return last_ == "end " + std::to_string(jobs_);
    }

    std::ifstream& output_;
    std::ofstream& parts_;
    Clauses clauses_;
    std::unordered_map<std::vector<bool>, size_t> seen_;
    std::string verdicts_, wrong_, last_;
    int variables_ = 0, jobs_ = 0;
    bool ended_ = false;
};

}  // namespace

int main(int count, char** words) {
    if (count != 4) return 2;
    const int text = ::open(words[1], O_RDONLY);
    if (text < 0) icnf::fail(words[1]);
    std::ifstream output(words[2], std::ios::binary);
    std::ofstream parts(words[3], std::ios::binary);
    if (!output || !parts) icnf::fail("open");
    icnf::Reader reader(text);
    Check check(output, parts);
    check.run(reader);
    return check.report();
}
