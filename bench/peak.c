/* peak FILE PROGRAM WORD...: runs the program on the file as its standard input, drops what it writes, and prints its exit
 * status and the most memory that it took at a time, in kilobytes. It is small, since what a process takes before it becomes
 * another program is counted as well. Its own status is 70 where the program can't be run. */
#include <fcntl.h>
#include <stdio.h>
#include <sys/resource.h>
#include <sys/wait.h>
#include <unistd.h>

int main(int count, char **words)
{
    if (count < 3)
        return 70;
    pid_t child = vfork();
    if (child < 0)
        return 70;
    if (child == 0) {
        int file = open(words[1], O_RDONLY), nowhere = open("/dev/null", O_WRONLY);
        if (file < 0 || nowhere < 0 || dup2(file, 0) < 0 || dup2(nowhere, 1) < 0 || dup2(nowhere, 2) < 0)
            _exit(127);
        execv(words[2], words + 2);
        _exit(127);
    }
    int status;
    struct rusage used;
    if (wait4(child, &status, 0, &used) < 0 || !WIFEXITED(status) || WEXITSTATUS(status) == 127)
        return 70;
    printf("%d %ld\n", WEXITSTATUS(status), used.ru_maxrss);
    return 0;
}
