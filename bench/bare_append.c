/* The writes and syncs of a store that gets some batches, and nothing else:
 *
 *     bare_append FILE0 FILE1 <frames
 *     bare_append FILE0 FILE1 HEADER <frames
 *     bare_append FILE0 FILE1 HEADER whole <frames
 *
 * Each file that is there is synced. Then each frame of the input (its length in four bytes, its payload, a gate) is added
 * at the end of FILE0, whose last byte is the closed gate: written behind it and synced, then the gate opened and synced. A
 * frame whose own gate is open in the input is written together with the next.
 *
 * With a header, in hexadecimal digits and without its gate, the journal is written anew into FILE1, which is not there: a
 * closed gate, the header behind it, the frames, and then its gate is opened. These frames are added in groups of at most
 * 1,048,576 bytes: all but the first with their gates open, in one write, and the first gate is opened behind its sync. The
 * last frame is added behind the header's gate, by itself; with `whole` it stands before it too. */
#include <fcntl.h>
#include <stdint.h>
#include <stdio.h>
#include <stdlib.h>
#include <string.h>
#include <sys/stat.h>
#include <unistd.h>

enum { MOST = 1 << 28, MOST_GROUP = 1 << 20, HEADER = 13 };

static const unsigned char open_gate = 1, closed_gate = 0;

static void check(int holds, const char *what)
{
    if (!holds) {
        perror(what);
        exit(1);
    }
}

static int open_and_sync(const char *path)
{
    int file = open(path, O_RDWR | O_CLOEXEC);
    if (file >= 0)
        check(fdatasync(file) == 0, "fdatasync");
    return file;
}

static size_t read_input(unsigned char *to)
{
    size_t have = 0;
    ssize_t got;
    while ((got = read(0, to + have, MOST - have)) > 0)
        have += (size_t)got;
    check(got == 0 && have < MOST, "read");
    return have;
}

static void write_at(int file, off_t place, const unsigned char *bytes, size_t count)
{
    check(lseek(file, place, SEEK_SET) == place, "lseek");
    check(write(file, bytes, count) == (ssize_t)count, "write");
    check(fdatasync(file) == 0, "fdatasync");
}

/* The size of the frame at the front of some bytes. */
static size_t frame_size(const unsigned char *at)
{
    return 5 + ((size_t)at[0] << 24 | (size_t)at[1] << 16 | (size_t)at[2] << 8 | at[3]);
}

/* The size of the frames at the front of some bytes that are added at once; the gates between them are opened. */
static size_t group_size(unsigned char *at, size_t left)
{
    size_t size = frame_size(at);
    while (size < left && size + frame_size(at + size) <= MOST_GROUP) {
        at[size - 1] = open_gate;
        size += frame_size(at + size);
    }
    return size;
}

/* The size of the frames at the front of some bytes up to the first whose own gate is closed. */
static size_t joined_size(const unsigned char *at, size_t left)
{
    size_t size = frame_size(at);
    while (size < left && at[size - 1] == open_gate)
        size += frame_size(at + size);
    return size;
}

/* Where the last frame of some bytes begins. */
static size_t last_frame(const unsigned char *frames, size_t have)
{
    size_t at = 0;
    while (at + frame_size(frames + at) < have)
        at += frame_size(frames + at);
    return at;
}

/* Adds these bytes at a closed gate. */
static void add_at(int file, off_t gate, const unsigned char *bytes, size_t size)
{
    write_at(file, gate + 1, bytes, size);
    write_at(file, gate, &open_gate, 1);
}

/* Makes a file whose header has these digits behind its closed gate, and a closed gate behind it. */
static int prepare(const char *path, const char *digits)
{
    unsigned char bytes[HEADER + 1] = {0};
    int file = open(path, O_RDWR | O_CREAT | O_EXCL | O_CLOEXEC, 0600);
    check(file >= 0 && strlen(digits) == 2 * HEADER, path);
    write_at(file, 0, &closed_gate, 1);
    for (size_t at = 0; at < HEADER; at++)
        check(sscanf(digits + 2 * at, "%2hhx", bytes + at) == 1, digits);
    write_at(file, 1, bytes, HEADER + 1);
    return file;
}

int main(int count, char **words)
{
    static unsigned char frames[MOST];
    struct stat told;
    check(count >= 3 && count <= 5, "two files, and a header perhaps");
    int moves = count >= 4, whole = count == 5;
    int file = open_and_sync(words[1]);
    open_and_sync(words[2]);
    if (moves)
        file = prepare(words[2], words[3]);
    check(file >= 0 && fstat(file, &told) == 0, words[1]);
    off_t gate = told.st_size - 1;
    size_t have = read_input(frames);
    size_t end = moves && !whole ? last_frame(frames, have) : have;
    for (size_t at = 0; at + 5 < end;) {
        size_t size = moves ? group_size(frames + at, end - at) : joined_size(frames + at, end - at);
        check(at + size <= end, "frames");
        add_at(file, gate, frames + at, size);
        gate += (off_t)size;
        at += size;
    }
    if (moves)
        write_at(file, 0, &open_gate, 1);
    if (end < have)
        add_at(file, gate, frames + end, have - end);
    return 0;
}
