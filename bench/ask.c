/* Asks a server that answers one request after the other, and measures it:
 *
 *     ask FORM AHEAD REQUESTS SERVER WORD ..
 *
 * The server is started with these words and asked the requests of a file, so many ahead of their answers at most. FORM is
 * `node`: a request is a line with the lengths of its words and of its input, and these; an answer a line with a status and two
 * lengths, and these bytes; before the first the server says `node 1`. Or it is `git`: a request is a line, and an answer a
 * line that ends with a length, so many bytes, and a line feed. It prints how many answers came, the seconds by the clock and
 * of the server's processor from the first request to the last answer, the server's seconds of the processor before that, the
 * greatest memory of the server before and at the end in bytes, how many bytes the answers had, and a sum of these by which two
 * servers are seen to have answered the same. An answer that is no answer or has another status than 0 ends it with status 1. */
#define _GNU_SOURCE
#include <errno.h>
#include <fcntl.h>
#include <stdint.h>
#include <stdio.h>
#include <stdlib.h>
#include <string.h>
#include <sys/stat.h>
#include <sys/wait.h>
#include <time.h>
#include <unistd.h>

enum { PIECE = 1 << 17 };

static pid_t server;
static int to_server, from_server;

static void check(int holds, const char *what)
{
    if (!holds) {
        fprintf(stderr, "ask: %s: %s\n", what, strerror(errno));
        exit(1);
    }
}

static double seconds(void)
{
    struct timespec now;
    clock_gettime(CLOCK_MONOTONIC, &now);
    return (double)now.tv_sec + (double)now.tv_nsec / 1e9;
}

/* A number that the system tells of the server. */
static double told(const char *name, const char *before)
{
    char path[64], text[4096];
    snprintf(path, sizeof path, "/proc/%d/%s", (int)server, name);
    FILE *file = fopen(path, "r");
    check(file != NULL, path);
    size_t have = fread(text, 1, sizeof text - 1, file);
    fclose(file);
    text[have] = 0;
    const char *at = strstr(text, before);
    check(at != NULL, before);
    return strtod(at + strlen(before), NULL);
}

static double processor(void)
{
    return told("schedstat", "") / 1e9;
}

static double memory(void)
{
    return told("status", "VmHWM:") * 1024;
}

static void start(char **words)
{
    int down[2], up[2];
    check(pipe(down) == 0 && pipe(up) == 0, "pipe");
    server = fork();
    check(server >= 0, "fork");
    if (server == 0) {
        dup2(down[0], 0);
        dup2(up[1], 1);
        close(down[0]), close(down[1]), close(up[0]), close(up[1]);
        execvp(words[0], words);
        _exit(127);
    }
    close(down[0]), close(up[1]);
    to_server = down[1], from_server = up[0];
}

/* The requests, and how many bytes the one at a place has. */
static char *requests;
static size_t requests_size;
static int is_node;

static size_t request_size(size_t at)
{
    const char *end = memchr(requests + at, '\n', requests_size - at);
    check(end != NULL, "a request");
    size_t size = (size_t)(end - requests) + 1 - at;
    if (is_node) {
        char *rest;
        size += strtoul(requests + at, &rest, 10);
        size += strtoul(rest, NULL, 10);
    }
    return size;
}

/* What came and was not looked at yet. */
static char held[PIECE];
static size_t first, behind;

static int fill(void)
{
    ssize_t got = read(from_server, held, sizeof held);
    check(got > 0, "an answer");
    first = 0, behind = (size_t)got;
    return 1;
}

static char next_byte(void)
{
    if (first == behind)
        fill();
    return held[first++];
}

static uint64_t sum = 14695981039346656037u;
static size_t bytes;

static void take(size_t count, int counts)
{
    while (count > 0) {
        if (first == behind)
            fill();
        size_t some = behind - first < count ? behind - first : count;
        if (counts) {
            for (size_t at = first; at < first + some; at++)
                sum = (sum ^ (unsigned char)held[at]) * 1099511628211u;
            bytes += some;
        }
        first += some, count -= some;
    }
}

static void answer(void)
{
    char line[256];
    size_t size = 0;
    do {
        check(size < sizeof line - 1, "a line");
        line[size] = next_byte();
    } while (line[size++] != '\n');
    line[size] = 0;
    if (is_node) {
        char *rest;
        check(strtoul(line, &rest, 10) == 0, line);
        size_t out = strtoul(rest, &rest, 10), error = strtoul(rest, NULL, 10);
        check(error == 0, line);
        take(out, 1);
    } else {
        const char *space = strrchr(line, ' ');
        check(space != NULL, line);
        take(strtoul(space, NULL, 10), 1);
        take(1, 0);
    }
}

int main(int count, char **words)
{
    check(count > 4, "FORM AHEAD REQUESTS SERVER");
    is_node = strcmp(words[1], "node") == 0;
    size_t most = strtoul(words[2], NULL, 10), ahead = 0, at = 0, answers = 0;
    int file = open(words[3], O_RDONLY | O_CLOEXEC);
    struct stat stat;
    check(file >= 0 && fstat(file, &stat) == 0, words[3]);
    requests_size = (size_t)stat.st_size;
    requests = malloc(requests_size);
    for (size_t have = 0; have < requests_size;) {
        ssize_t got = read(file, requests + have, requests_size - have);
        check(got > 0, words[3]);
        have += (size_t)got;
    }
    start(words + 4);
    if (is_node)
        while (next_byte() != '\n')
            ;
    double processor_before = processor(), memory_before = memory(), clock = seconds();
    while (at < requests_size || ahead > 0) {
        size_t end = at;
        for (; end < requests_size && ahead < most; ahead++)
            end += request_size(end);
        while (at < end) {
            ssize_t put = write(to_server, requests + at, end - at);
            check(put > 0, "a request");
            at += (size_t)put;
        }
        do {
            answer();
            answers++, ahead--;
        } while (first < behind);
    }
    clock = seconds() - clock;
    printf("answers %zu clock %.6f processor %.6f before %.6f memory_before %.0f memory %.0f bytes %zu sum %016llx\n", answers, clock,
           processor() - processor_before, processor_before, memory_before, memory(), bytes, (unsigned long long)sum);
    close(to_server);
    int status;
    check(waitpid(server, &status, 0) == server && status == 0, "the server's end");
    return 0;
}
