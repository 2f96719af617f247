// timed INPUT OUTPUT REPORT PROGRAM [WORD..]: runs the program over these files. REPORT gets what the system says of it: its
// processor time, its own and the system's for it, in microseconds, the time from its start to its end, in microseconds too, and its
// peak memory in kilobytes. (GNU time has hundredths of a second, which are too coarse here.) The status is the program's, or 128 and
// the number of the signal that ended it.
#include <chrono>
#include <cstdio>
#include <fcntl.h>
#include <sys/resource.h>
#include <sys/wait.h>
#include <unistd.h>

namespace {

constexpr int no_run = 127;

bool put_on(int stream, const char *path, int flags) {
    const int opened = open(path, flags, 0600);
    return opened >= 0 && dup2(opened, stream) == stream && close(opened) == 0;
}

[[noreturn]] void become(char **words) {
    if (put_on(STDIN_FILENO, words[1], O_RDONLY) && put_on(STDOUT_FILENO, words[2], O_WRONLY | O_CREAT | O_TRUNC))
        execv(words[4], words + 4);
    perror(words[4]);
    _exit(no_run);
}

long long microseconds(const timeval &time) { return time.tv_sec * 1000000LL + time.tv_usec; }

} // namespace

int main(int count, char **words) {
    if (count < 5) {
        std::fputs("usage: timed INPUT OUTPUT REPORT PROGRAM [WORD..]\n", stderr);
        return no_run;
    }
    const auto start = std::chrono::steady_clock::now();
    const pid_t child = fork();
    if (child == 0) become(words);
    int status = 0;
    rusage used = {};
    if (child < 0 || wait4(child, &status, 0, &used) != child) return no_run;
    const long long passed = std::chrono::duration_cast<std::chrono::microseconds>(std::chrono::steady_clock::now() - start).count();
    std::FILE *report = std::fopen(words[3], "w");
    if (!report) return no_run;
    std::fprintf(report, "%lld %lld %ld\n", microseconds(used.ru_utime) + microseconds(used.ru_stime), passed, used.ru_maxrss);
    if (std::fclose(report) != 0) return no_run;
    return WIFEXITED(status) ? WEXITSTATUS(status) : 128 + WTERMSIG(status);
}
