// Runs a program, and writes into a file the most memory that it had, in KiB: usage FILE PROGRAM WORDS.
//
// It ends with the program's status, or with 128 and the signal's number. It is small, since a program that is begun counts
// what its beginner had.
#include <stdio.h>
#include <sys/resource.h>
#include <sys/wait.h>
#include <unistd.h>

int main(int count, char **words) {
    struct rusage used;
    int status = 0;
    if (count < 3) return 2;
    pid_t child = fork();
    if (!child) {
        execvp(words[2], words + 2);
        _exit(127);
    }
    if (child < 0 || wait4(child, &status, 0, &used) < 0) return 2;
    FILE *file = fopen(words[1], "w");
    if (!file || fprintf(file, "%ld\n", used.ru_maxrss) < 0 || fclose(file)) return 2;
    return WIFSIGNALED(status) ? 128 + WTERMSIG(status) : WEXITSTATUS(status);
}
