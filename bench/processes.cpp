// processes PROGRAM INPUT: runs the program again and again, each time in a process of its own that reads file INPUT as standard input and whose output is thrown away. Prints two least times, in
// seconds of processor time as the system counts it: of a whole process, from its start to its end; and of what it does between its last read and its first write.
#include <algorithm>
#include <cstdio>
#include <cstdlib>
#include <ctime>
#include <fcntl.h>
#include <sys/ptrace.h>
#include <sys/resource.h>
#include <sys/syscall.h>
#include <sys/user.h>
#include <sys/wait.h>
#include <unistd.h>

namespace {

[[noreturn]] void fail(const char* what) {
    perror(what);
    exit(1);
}

// A process with this program and input; `traced` stops where it begins.
pid_t start(char* program, const char* input, bool traced) {
    pid_t process = fork();
    if (process < 0) fail("fork");
    if (process > 0) return process;
    int in = open(input, O_RDONLY), out = open("/dev/null", O_WRONLY);
    if (in < 0 || out < 0) _exit(127);
    dup2(in, STDIN_FILENO);
    dup2(out, STDOUT_FILENO);
    close(in);
    close(out);
    char *words[] = {program, nullptr}, *none[] = {nullptr};
    if (traced) ptrace(PTRACE_TRACEME, 0, nullptr, nullptr);
    execve(program, words, none);
    _exit(127);
}

// It has to end with 0.
rusage end(pid_t process, const char* program) {
    rusage took;
    int status;
    if (wait4(process, &status, 0, &took) < 0) fail("wait4");
    if (status == 0) return took;
    fprintf(stderr, "%s does not run\n", program);
    exit(1);
}

double whole(char* program, const char* input) {
    rusage took = end(start(program, input, false), program);
    return took.ru_utime.tv_sec + took.ru_stime.tv_sec + (took.ru_utime.tv_usec + took.ru_stime.tv_usec) * 1e-6;
}

// It is stopped at each call of the system, and its clock read behind every read and before the first write.
double between(char* program, const char* input) {
    pid_t process = start(program, input, true);
    clockid_t clock;
    double read_at = 0;
    int status;
    if (waitpid(process, &status, 0) < 0 || !WIFSTOPPED(status) || clock_getcpuclockid(process, &clock) != 0) fail("a process to be traced");
    for (bool entering = true;; entering = !entering) {
        if (ptrace(PTRACE_SYSCALL, process, nullptr, nullptr) != 0 || waitpid(process, &status, 0) < 0 || !WIFSTOPPED(status)) fail("a traced process");
        // This waits until it has left its core: not before that does its clock show all.
        user_regs_struct registers;
        if (ptrace(PTRACE_GETREGS, process, nullptr, &registers) != 0) fail("a traced process");
        timespec t;
        clock_gettime(clock, &t);
        double now = t.tv_sec + t.tv_nsec * 1e-9;
        if (!entering && registers.orig_rax == SYS_read) read_at = now;
        if (!entering || registers.orig_rax != SYS_write) continue;
        ptrace(PTRACE_DETACH, process, nullptr, nullptr);
        end(process, program);
        return now - read_at;
    }
}

// The least of 60 runs, or of as many as take half a second together, but of ten at least.
template <class Run> double least(Run run) {
    double found = 1e99, spent = 0;
    for (int runs = 0; runs < 10 || (runs < 60 && spent < 0.5); runs++) {
        double took = run();
        found = std::min(found, took);
        spent += took;
    }
    return found;
}

}

int main(int count, char** words) {
    if (count != 3) {
        fprintf(stderr, "usage: processes PROGRAM INPUT\n");
        return 2;
    }
    double all = least([&] { return whole(words[1], words[2]); }), inner = least([&] { return between(words[1], words[2]); });
    printf("%.6f %.9f\n", all, inner);
}
