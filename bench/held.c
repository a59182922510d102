/* Runs a command without what it prints, and prints the most memory that it held, in bytes. What starts a command counts as held by it
   until the command has begun, so this is small: it holds about 1 MB. */
#include <fcntl.h>
#include <stdio.h>
#include <sys/resource.h>
#include <sys/wait.h>
#include <unistd.h>

int main(int count, char **words) {
    int status;
    struct rusage used;
    if (count < 2)
        return 2;
    pid_t child = fork();
    if (child == 0) {
        dup2(open("/dev/null", O_WRONLY), STDOUT_FILENO);
        execv(words[1], words + 1);
        _exit(127);
    }
    if (child < 0 || wait4(child, &status, 0, &used) < 0 || status != 0)
        return 1;
    printf("%ld\n", used.ru_maxrss * 1024);
    return 0;
}
