/* Preloaded into the program by fuzz.py, since to start the program takes longer than most of its runs. The program is loaded and waits
   before its `main`. For each byte that it is sent a copy of it goes on, with its streams in the files `in`, `out` and `note`; how the
   copy ended is written, as of waitpid. SIGALRM ends a copy that takes too long. */
#include <fcntl.h>
#include <sys/wait.h>
#include <unistd.h>

enum { LONGEST = 20 };

static int opens(const char *path, int how, int as) {
    int file = open(path, how, 0600);
    if (file < 0 || dup2(file, as) != as) return 0;
    close(file);
    return 1;
}

static void __attribute__((constructor)) serve(void) {
    char asked;
    int ended;
    while (read(0, &asked, 1) == 1) {
        pid_t copy = fork();
        if (copy == 0) {
            int to = O_WRONLY | O_CREAT | O_TRUNC;
            if (!opens("in", O_RDONLY, 0) || !opens("out", to, 1) || !opens("note", to, 2)) _exit(99);
            alarm(LONGEST);
            return;
        }
        if (copy < 0 || waitpid(copy, &ended, 0) != copy || write(1, &ended, sizeof ended) != sizeof ended) _exit(98);
    }
    _exit(0);
}
