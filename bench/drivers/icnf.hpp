// The iCNF texts of the benchmarks: reading them, and writing blocks of answers in Tarmo's format.
// The texts are generated, so a wrong one ends the program and no line is told.
#pragma once

#include <unistd.h>

#include <algorithm>
#include <charconv>
#include <cstdio>
#include <cstdlib>
#include <string>
#include <vector>

namespace icnf {

using Lits = std::vector<int>;

[[noreturn]] inline void fail(const char* what) {
    std::fprintf(stderr, "failed: %s\n", what);
    std::exit(2);
}

// The bytes of an open file, one after the other.
class Bytes {
public:
    explicit Bytes(int file) : file_(file), piece_(1 << 16) {}

    // The next byte, or -1 at the end.
    int next() {
        if (at_ == size_) {
            const ssize_t got = ::read(file_, piece_.data(), piece_.size());
            if (got < 0) fail("read");
            size_ = static_cast<size_t>(got);
            at_ = 0;
            if (size_ == 0) return -1;
        }
        return static_cast<unsigned char>(piece_[at_++]);
    }

private:
    int file_;
    std::vector<char> piece_;
    size_t at_ = 0, size_ = 0;
};

enum class Statement { Clause, Cube, End };

// Reads the header first and then one statement after the other.
class Reader {
public:
    explicit Reader(int file) : bytes_(file) { rest_of_line(skip_blanks()); }

    // Fills the literals of the next statement.
    Statement next(Lits& lits) {
        lits.clear();
        int byte = skip_blanks();
        if (byte == -1) return Statement::End;
        const Statement kind = byte == 'a' ? Statement::Cube : Statement::Clause;
        if (kind == Statement::Cube) byte = skip_blanks();
        while (const int lit = number(byte)) {
            lits.push_back(lit);
            byte = skip_blanks();
        }
        return kind;
    }

private:
    void rest_of_line(int byte) {
        while (byte != '\n' && byte != -1) byte = bytes_.next();
    }

    int skip_blanks() {
        for (;;) {
            const int byte = bytes_.next();
            if (byte == 'c') rest_of_line(byte);
            else if (byte != ' ' && byte != '\n' && byte != '\t' && byte != '\r') return byte;
        }
    }

    int number(int byte) {
        const bool negative = byte == '-';
        if (negative) byte = bytes_.next();
        int value = 0;
        if (byte < '0' || byte > '9') fail("no number in the text");
        for (; byte >= '0' && byte <= '9'; byte = bytes_.next()) value = 10 * value + (byte - '0');
        return negative ? -value : value;
    }

    Bytes bytes_;
};

// Each block is one call to the kernel, so that an answer stands as soon as its job has ended.
class Blocks {
public:
    void begin(const char* verdict) {
        text_ = "j ";
        append(++jobs_);
        text_ += ' ';
        text_ += verdict;
        text_ += '\n';
    }

    void line(char kind, const Lits& lits) {
        text_ += kind;
        for (const int lit : lits) {
            text_ += ' ';
            append(lit);
        }
        text_ += " 0\n";
    }

    void end_of_text() {
        text_ = "end ";
        append(jobs_);
        text_ += '\n';
        write();
    }

    void write() {
        for (size_t done = 0; done < text_.size();) {
            const ssize_t took = ::write(STDOUT_FILENO, text_.data() + done, text_.size() - done);
            if (took < 0) fail("write");
            done += static_cast<size_t>(took);
        }
    }

private:
    void append(int number) {
        char digits[16];
        const auto end = std::to_chars(digits, digits + sizeof digits, number).ptr;
        text_.append(digits, end);
    }

    std::string text_;
    int jobs_ = 0;
};

inline int greatest_variable(int so_far, const Lits& lits) {
    for (const int lit : lits) so_far = std::max(so_far, std::abs(lit));
    return so_far;
}

// Answers each cube of the text on standard input by one incremental solver, which offers
//   add(clause), solve(cube), is_true(variable) after a model, has_failed(lit) after a refutation.
template <class Solver>
void answer_all(Solver& solver) {
    Reader reader(STDIN_FILENO);
    Blocks blocks;
    Lits lits, told;
    int variables = 0;
    for (;;) {
        const Statement kind = reader.next(lits);
        if (kind == Statement::End) break;
        variables = greatest_variable(variables, lits);
        if (kind == Statement::Clause) {
            solver.add(lits);
            continue;
        }
        const bool satisfiable = solver.solve(lits);
        blocks.begin(satisfiable ? "SATISFIABLE" : "UNSATISFIABLE");
        told.clear();
        if (satisfiable)
            for (int name = 1; name <= variables; name++)
                told.push_back(solver.is_true(name) ? name : -name);
        else
            for (const int lit : lits)
                if (solver.has_failed(lit)) told.push_back(lit);
        blocks.line(satisfiable ? 'v' : 'f', told);
        blocks.write();
    }
    blocks.end_of_text();
}

}  // namespace icnf
