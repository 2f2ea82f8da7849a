/* What afl-fuzz runs: it gives marm an input as its image, its board or its commands, and reports a crash where marm
   ended by a signal, or where its status, its first line and its output don't go together (docs/marm.1). The program
   has no instrumentation. So what counts as new is what it writes: a line of another form than those before, or after
   a line that it didn't come after before. Each counts as a branch would, by the protocol of AFL's fork server.
   Usage: afl_target MARM image|board|session IMAGE BOARD INPUT, with the input in place of its file. */
#include <fcntl.h>
#include <signal.h>
#include <stdint.h>
#include <stdio.h>
#include <stdlib.h>
#include <string.h>
#include <sys/shm.h>
#include <sys/wait.h>
#include <unistd.h>

enum { MAP = 65536, ROOM = 1 << 20, COMMANDS = 198, REPORTS = 199 };

static unsigned char nowhere[MAP], *map = nowhere;
static char out[ROOM + 1], err[ROOM + 1];

/* Reads a pipe to its end, and returns how many bytes were kept. */
static size_t read_all(int from, char *bytes) {
    static char rest[4096];
    size_t count = 0;
    ssize_t got;
    while ((got = count < ROOM ? read(from, bytes + count, ROOM - count) : read(from, rest, sizeof rest)) > 0)
        if (count < ROOM) count += (size_t)got;
    bytes[count] = 0;
    close(from);
    return count;
}

/* Counts the form of each line: its characters but for decimal and hexadecimal digits, and the line before. */
static void mark(const char *text) {
    uint32_t form = 2166136261u, before = 0;
    for (; *text; text++) {
        if (*text == '\n') {
            map[form % MAP]++;
            map[(form ^ before * 31) % MAP]++;
            before = form;
            form = 2166136261u;
        } else if (!strchr("0123456789ABCDEF", *text)) {
            form = (form ^ (unsigned char)*text) * 16777619u;
        }
    }
}

static int begins(const char *text, const char *with) { return strncmp(text, with, strlen(with)) == 0; }

/* Returns whether each line on standard error is a note. */
static int has_only_notes(void) {
    for (const char *line = err; *line; line = strchr(line, '\n') + 1)
        if (!begins(line, "marm: note: ") || !strchr(line, '\n')) return 0;
    return 1;
}

/* Returns whether a status, the first line on standard error and the output go together. */
static int is_right(int status, int is_run, size_t length) {
    static const char *const refusals[] = {"marm: load ", "marm: board ", "marm: start ", "marm: size\n"};
    switch (status) {
    case 0:
    case 4: {
        if (is_run ? !has_only_notes() : *err || status == 4) return 0;
        if (!is_run || length == ROOM) return 1;
        const char *last = out + length - (length > 0);
        while (last > out && last[-1] != '\n') last--;
        int is_quiet = begins(last, "stop steps\n") || begins(last, "stop breakpoint ");
        return begins(last, "stop ") && is_quiet == (status == 0);
    }
    case 3:
        for (int at = 0; at < 4; at++)
            if (begins(err, refusals[at])) return *out == 0;
        return 0;
    default:
        return status == 5 && begins(err, "marm: io\n");
    }
}

/* Starts marm. Its output is in two pipes. */
static pid_t start(char **words, const char *input, int pipes[2]) {
    int outs[2], errs[2];
    if (pipe(outs) || pipe(errs)) exit(1);
    pid_t child = fork();
    if (child == 0) {
        int in = open(input, O_RDONLY);
        if (in < 0 || dup2(in, 0) < 0 || dup2(outs[1], 1) < 0 || dup2(errs[1], 2) < 0) _exit(99);
        for (int at = 3; at < 256; at++) close(at);
        execv(words[0], words);
        _exit(99);
    }
    close(outs[1]);
    close(errs[1]);
    pipes[0] = outs[0];
    pipes[1] = errs[0];
    return child;
}

/* Waits for marm, and returns the status to be reported: SIGABRT where its answer isn't right. */
static int judged(pid_t child, int is_run, const int pipes[2]) {
    int status;
    size_t length = read_all(pipes[0], out);
    read_all(pipes[1], err);
    waitpid(child, &status, 0);
    mark(out);
    mark(err);
    return WIFSIGNALED(status) ? status : is_right(WEXITSTATUS(status), is_run, length) ? 0 : SIGABRT;
}

int main(int count, char **words) {
    if (count != 6) return 2;
    char *image = words[3], *board = words[4], *input = words[5];
    int is_run = strcmp(words[2], "session") != 0;
    if (strcmp(words[2], "image") == 0) image = input;
    if (strcmp(words[2], "board") == 0) board = input;
    char *run[] = {words[1], "run", "--board", board, "--steps", "2000", image, NULL};
    char *debug[] = {words[1], "debug", "--board", board, image, NULL};
    const char *commands = is_run ? "/dev/null" : input, *shared = getenv("__AFL_SHM_ID");
    int pipes[2], word = 0;
    if (!shared || write(REPORTS, &word, 4) != 4) {
        int status = judged(start(is_run ? run : debug, commands, pipes), is_run, pipes);
        printf("%s%s%s\n", out, err, status ? "wrong" : "right");
        return status != 0;
    }
    map = shmat(atoi(shared), NULL, 0);
    while (read(COMMANDS, &word, 4) == 4) {
        pid_t child = start(is_run ? run : debug, commands, pipes);
        if (write(REPORTS, &child, 4) != 4) return 1;
        int status = judged(child, is_run, pipes);
        if (write(REPORTS, &status, 4) != 4) return 1;
    }
    return 0;
}
