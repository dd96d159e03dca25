// Runs a program again and again: driver PROGRAM FOLDER SECONDS BYTES
//
// A job on standard input is files for the folder, and steps, each the words of a run. What came of each step goes to
// standard output: status, greatest memory, time, both outputs, and the files that were asked for. All numbers have 32
// bits, least significant byte first. A run ends after so many seconds, and may have so many bytes of address space (0: all).
#define _GNU_SOURCE
#include <dirent.h>
#include <errno.h>
#include <fcntl.h>
#include <signal.h>
#include <stdint.h>
#include <stdio.h>
#include <stdlib.h>
#include <string.h>
#include <sys/mman.h>
#include <sys/resource.h>
#include <sys/stat.h>
#include <sys/wait.h>
#include <time.h>
#include <unistd.h>

enum { MOST_WORDS = 32, KEPT = 1 << 24, ALWAYS = 255, NOT_RUN = 3000, TIMED_OUT = 2000, SIGNALLED = 1000 };

static volatile pid_t running;
static volatile sig_atomic_t timed_out;

static void stop_it(int signal) {
    (void)signal;
    timed_out = 1;
    if (running > 0) kill(running, SIGKILL);
}

static void take(void *place, size_t length) {
    if (length && fread(place, 1, length, stdin) != length) exit(0);
}

static uint32_t number(void) {
    uint32_t n;
    take(&n, 4);
    return n;
}

static char *text(uint32_t *length) {
    *length = number();
    char *place = malloc(*length + 1);
    if (!place) exit(1);
    take(place, *length);
    place[*length] = 0;
    return place;
}

static void tell(uint32_t n) { fwrite(&n, 4, 1, stdout); }

static void tell_file(int file) {
    struct stat seen;
    if (fstat(file, &seen)) exit(1);
    size_t length = seen.st_size, kept = length < KEPT ? length : KEPT;
    tell(length);
    tell(kept);
    if (!kept) return;
    void *place = mmap(0, kept, PROT_READ, MAP_SHARED, file, 0);
    if (place == MAP_FAILED) exit(1);
    fwrite(place, 1, kept, stdout);
    munmap(place, kept);
}

static void clear(void) {
    DIR *folder = opendir(".");
    struct dirent *entry;
    while (folder && (entry = readdir(folder)))
        if (strcmp(entry->d_name, ".") && strcmp(entry->d_name, "..")) unlink(entry->d_name);
    if (folder) closedir(folder);
}

static void put_files(void) {
    for (uint32_t left = number(); left; left--) {
        uint32_t length;
        char *name = text(&length), *data = text(&length);
        int file = open(name, O_WRONLY | O_CREAT | O_TRUNC, 0644);
        if (file < 0 || (length && write(file, data, length) != (ssize_t)length)) exit(1);
        close(file);
        free(name);
        free(data);
    }
}

static void begin(const char *program, char **words, int out, int err, int none, rlim_t bytes) {
    char *scope[] = {"PATH=/usr/bin:/bin", 0};
    struct rlimit space = {bytes, bytes}, core = {0, 0};
    if (bytes) setrlimit(RLIMIT_AS, &space);
    setrlimit(RLIMIT_CORE, &core);
    dup2(none, 0);
    dup2(out, 1);
    dup2(err, 2);
    execve(program, words, scope);
    _exit(127);
}

static uint32_t run(const char *program, char **words, int *files, unsigned seconds, rlim_t bytes, uint32_t *figures) {
    struct timespec before, after;
    struct rusage used;
    int status = 0;
    for (int i = 0; i < 2; i++)
        if (ftruncate(files[i], 0) || lseek(files[i], 0, SEEK_SET)) exit(1);
    clock_gettime(CLOCK_MONOTONIC, &before);
    timed_out = 0;
    pid_t child = vfork();
    if (child < 0) exit(1);
    if (!child) begin(program, words, files[0], files[1], files[2], bytes);
    running = child;
    alarm(seconds);
    while (wait4(child, &status, 0, &used) < 0)
        if (errno != EINTR) exit(1);
    running = 0;
    alarm(0);
    clock_gettime(CLOCK_MONOTONIC, &after);
    figures[0] = used.ru_maxrss;
    figures[1] = (after.tv_sec - before.tv_sec) * 1000 + (after.tv_nsec - before.tv_nsec) / 1000000;
    if (timed_out) return TIMED_OUT;
    return WIFSIGNALED(status) ? SIGNALLED + WTERMSIG(status) : WEXITSTATUS(status);
}

static void tell_kept(uint32_t ran) {
    for (uint32_t left = number(); left; left--) {
        uint32_t length;
        char *name = text(&length);
        int file = ran ? open(name, O_RDONLY) : -1;
        tell(file >= 0);
        if (file >= 0) {
            tell_file(file);
            close(file);
        }
        free(name);
    }
}

static uint32_t step(char **argv, int *files, uint32_t last) {
    char *words[MOST_WORDS + 2] = {argv[1]};
    uint32_t wanted = number(), count = number(), length, figures[2] = {0, 0};
    if (count > MOST_WORDS) exit(1);
    for (uint32_t i = 0; i < count; i++) words[i + 1] = text(&length);
    int runs = wanted == ALWAYS || wanted == last;
    uint32_t status = NOT_RUN;
    if (runs) status = run(argv[1], words, files, atoi(argv[3]), strtoul(argv[4], 0, 10), figures);
    tell(status);
    tell(figures[0]);
    tell(figures[1]);
    for (int i = 0; i < 2 && runs; i++) tell_file(files[i]);
    tell_kept(runs);
    for (uint32_t i = 0; i < count; i++) free(words[i + 1]);
    return runs ? status : last;
}

int main(int count, char **argv) {
    if (count != 5 || chdir(argv[2])) return 2;
    struct sigaction action = {.sa_handler = stop_it};
    sigaction(SIGALRM, &action, 0);
    int files[3] = {memfd_create("out", MFD_CLOEXEC), memfd_create("err", MFD_CLOEXEC), -1};
    files[2] = open("/dev/null", O_RDONLY | O_CLOEXEC);
    for (;;) {
        put_files();
        uint32_t last = NOT_RUN;
        for (uint32_t left = number(); left; left--) last = step(argv, files, last);
        clear();
        fflush(stdout);
    }
}
