/* Asks the desk program many questions in one process: desk_many COUNT. Its `main`, renamed to desk_main, is called once for each line of
   standard input, with the question's bytes on a standard input of its own, and what it writes is held to the line's reply. Lines are those
   of recorded answers: sizes | question | four numbers | report. There must be COUNT of them. */
#include <stdint.h>
#include <stdio.h>
#include <stdlib.h>
#include <string.h>
#include <unistd.h>

/* Both fit a pipe, so that writer and reader can be one process. */
enum { MOST_QUESTION = 8196, MOST_SAID = 45102 };

int desk_main(void);

static void must(int done, const char *what) {
    if (!done) {
        perror(what);
        exit(2);
    }
}

/* The question's words as bytes; how many bytes. */
static size_t pack(const char *text, uint8_t *bytes) {
    size_t n = 0;
    char *end;
    for (unsigned long word = strtoul(text, &end, 10); end != text && n < MOST_QUESTION; word = strtoul(text, &end, 10)) {
        for (int i = 0; i < 4; i++) bytes[n++] = (uint8_t)(word >> (8 * i));
        text = end;
    }
    return n;
}

/* What the program says to the bytes; how many bytes it says. */
static size_t ask(const uint8_t *bytes, size_t n, char *said) {
    int in[2], out[2];
    size_t got = 0;
    must(pipe(in) == 0 && pipe(out) == 0, "pipe");
    must(write(in[1], bytes, n) == (ssize_t)n && close(in[1]) == 0, "write");
    must(dup2(in[0], STDIN_FILENO) >= 0 && dup2(out[1], STDOUT_FILENO) >= 0, "dup2");
    must(close(in[0]) == 0 && close(out[1]) == 0, "close");
    desk_main();
    /* lets go of the pipe, so that it ends */
    must(dup2(STDERR_FILENO, STDOUT_FILENO) >= 0, "dup2");
    for (ssize_t k; (k = read(out[0], said + got, MOST_SAID + 1 - got)) > 0;) got += (size_t)k;
    must(close(out[0]) == 0, "close");
    return got;
}

/* "numbers | report" as the two lines that the program has to write. */
static char *wanted(char *reply) {
    char *bar = strchr(reply, '|');
    must(bar != NULL && bar > reply, "a line without a report");
    memmove(bar, bar + 1, strlen(bar));
    bar[-1] = '\n';
    if (*bar == ' ') memmove(bar, bar + 1, strlen(bar));
    return reply;
}

/* Holds the program to one line. */
static int holds(char *line) {
    static uint8_t bytes[MOST_QUESTION];
    static char said[MOST_SAID + 1];
    char *question = strchr(line, '|'), *reply = question ? strchr(question + 1, '|') : NULL;
    must(reply != NULL, "a line without a reply");
    *reply = 0;
    size_t got = ask(bytes, pack(question + 1, bytes), said);
    const char *two = wanted(reply + 2);
    if (got == strlen(two) && memcmp(said, two, got) == 0) return 1;
    fprintf(stderr, "differs:%s\n", question + 1);
    return 0;
}

int main(int argc, char **argv) {
    char *line = NULL, *end = NULL;
    size_t room = 0, asked = 0, differ = 0, count = argc == 2 ? strtoul(argv[1], &end, 10) : 0;
    if (count == 0 || *end != 0) {
        fputs("usage: desk_many COUNT\n", stderr);
        return 2;
    }
    FILE *lines = fdopen(dup(STDIN_FILENO), "r");
    must(lines != NULL, "standard input");
    while (getline(&line, &room, lines) > 0) {
        if (*line == '#' || *line == '\n') continue;
        asked++;
        differ += !holds(line);
    }
    size_t failed = differ + (asked != count);
    if (asked != count) fprintf(stderr, "desk: %zu questions came, of %zu\n", asked, count);
    fprintf(stderr, "%zu passed, %zu failed\n", asked - differ, failed);
    return failed != 0;
}
