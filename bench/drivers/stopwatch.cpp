// Runs a command once and tells what it took, as one line on standard output:
//   HOW CODE WALL FIRST PROCESSOR PEAK
// HOW is "exit", "signal" or "limit" (the time ran out and the command was killed), CODE the status
// or signal, WALL and FIRST the seconds to the end and to the first bytes of the output (-1: none
// came), PROCESSOR the seconds of user and system time, PEAK the greatest resident memory in KiB.
//
//   stopwatch SECONDS GIBIBYTES OUTPUT MESSAGES COMMAND..
// OUTPUT and MESSAGES are the files that take the command's standard output and error. It is
// started from this small process, since a child's peak is at least the memory of the process that
// began it.
#include <fcntl.h>
#include <signal.h>
#include <sys/resource.h>
#include <sys/time.h>
#include <sys/wait.h>
#include <time.h>
#include <unistd.h>

#include <cstdio>
#include <cstdlib>

namespace {

pid_t child = 0;
volatile sig_atomic_t expired = 0;

void stop_child(int) {
    expired = 1;
    kill(child, SIGKILL);
}

[[noreturn]] void fail(const char* what) {
    std::perror(what);
    std::exit(2);
}

double now() {
    timespec time{};
    clock_gettime(CLOCK_MONOTONIC, &time);
    return static_cast<double>(time.tv_sec) + 1e-9 * static_cast<double>(time.tv_nsec);
}

double seconds(const timeval& time) {
    return static_cast<double>(time.tv_sec) + 1e-6 * static_cast<double>(time.tv_usec);
}

int opened(const char* name) {
    const int file = open(name, O_WRONLY | O_CREAT | O_TRUNC | O_CLOEXEC, 0644);
    if (file < 0) fail(name);
    return file;
}

void start_alarm(double limit) {
    struct sigaction action {};
    action.sa_handler = stop_child;
    action.sa_flags = SA_RESTART;
    sigaction(SIGALRM, &action, nullptr);
    itimerval timer{};
    timer.it_value.tv_sec = static_cast<time_t>(limit);
    timer.it_value.tv_usec = static_cast<suseconds_t>(1e6 * (limit - static_cast<time_t>(limit)));
    setitimer(ITIMER_REAL, &timer, nullptr);
}

// The seconds at which the first bytes came, -1 where none did.
double copied(int from, int to, double start) {
    static char piece[1 << 20];
    double first = -1;
    for (;;) {
        const ssize_t got = read(from, piece, sizeof piece);
        if (got < 0) fail("read");
        if (got == 0) return first;
        if (first < 0) first = now() - start;
        for (ssize_t done = 0; done < got;) {
            const ssize_t took = write(to, piece + done, static_cast<size_t>(got - done));
            if (took < 0) fail("write");
            done += took;
        }
    }
}

[[noreturn]] void become(char** command, int output, int messages, double gibibytes) {
    dup2(output, STDOUT_FILENO);
    dup2(messages, STDERR_FILENO);
    const auto bytes = static_cast<rlim_t>(gibibytes * (1 << 30));
    const rlimit memory{bytes, bytes};
    setrlimit(RLIMIT_AS, &memory);
    execvp(command[0], command);
    fail(command[0]);
}

}  // namespace

int main(int count, char** words) {
    if (count < 6) return 2;
    const double limit = std::atof(words[1]), gibibytes = std::atof(words[2]);
    const int output = opened(words[3]), messages = opened(words[4]);
    int ends[2];
    if (pipe2(ends, O_CLOEXEC) < 0) fail("pipe");
    fcntl(ends[0], F_SETPIPE_SZ, 1 << 20);
    const double start = now();
    child = fork();
    if (child < 0) fail("fork");
    if (child == 0) become(words + 5, ends[1], messages, gibibytes);
    close(ends[1]);
    start_alarm(limit);
    const double first = copied(ends[0], output, start);
    int status = 0;
    rusage usage{};
    if (wait4(child, &status, 0, &usage) < 0) fail("wait");
    const double wall = now() - start;
    const bool exited = WIFEXITED(status);
    std::printf("%s %d %.6f %.6f %.6f %ld\n", expired ? "limit" : exited ? "exit" : "signal",
                exited ? WEXITSTATUS(status) : WTERMSIG(status), wall, first,
                seconds(usage.ru_utime) + seconds(usage.ru_stime), usage.ru_maxrss);
}
