/* Prints how many nanoseconds a fork, an exit of the child and a wait for it take in a process that has written to each
   page of this number of megabytes: the least of 20. */
#include <stdio.h>
#include <stdlib.h>
#include <string.h>
#include <sys/wait.h>
#include <time.h>
#include <unistd.h>

static double seconds(void) {
    struct timespec now;
    clock_gettime(CLOCK_MONOTONIC, &now);
    return now.tv_sec + now.tv_nsec * 1e-9;
}

int main(int count, char **words) {
    size_t bytes = (count > 1 ? strtoul(words[1], NULL, 10) : 64) << 20;
    char *memory = malloc(bytes);
    double least = 1e9;
    if (memory == NULL) return 1;
    memset(memory, 1, bytes);
    for (int run = 0; run < 20; run++) {
        double began = seconds();
        pid_t child = fork();
        if (child < 0) return 1;
        if (child == 0) _exit(0);
        if (waitpid(child, NULL, 0) != child) return 1;
        double took = seconds() - began;
        if (took < least) least = took;
    }
    printf("%.0f\n", least * 1e9);
    return memory[bytes - 1] != 1;
}
