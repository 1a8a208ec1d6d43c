/* What bench/file stands beside: the writes and syncs of units on a card's file, and nothing else.

   usage: plain_writer PATH UNITS BLOCKS...
   Each BLOCKS is the home blocks that one kind of unit changes, as 0,9,25; the kinds take turns.
   A unit copies its blocks' old octets and writes their numbers, opens the gate, writes the blocks,
   and closes the gate: four syncs. */
#include <fcntl.h>
#include <stdint.h>
#include <stdlib.h>
#include <string.h>
#include <unistd.h>

enum { BLOCK = 256, BLOCKS = 673, SIZE = 346624 };
enum { GATE = 256, DIRECTORY = 512, OLD = 2048, HOME = 174336 };
enum { CLOSED = 0, OPEN = 0xA5 };

static int file;

static void put(const void *octets, size_t length, off_t at)
{
    if (pwrite(file, octets, length, at) != (ssize_t)length)
        exit(3);
}

static void get(void *octets, size_t length, off_t at)
{
    if (pread(file, octets, length, at) != (ssize_t)length)
        exit(3);
}

static void make_last(void)
{
    if (fdatasync(file))
        exit(3);
}

static void set_gate(uint8_t octet)
{
    put(&octet, 1, GATE);
    make_last();
}

static size_t read_blocks(const char *text, uint16_t *blocks)
{
    size_t count = 0;
    while (*text && count < BLOCKS) {
        char *end;
        blocks[count++] = strtoul(text, &end, 10);
        text = *end ? end + 1 : end;
    }
    return count;
}

static void keep_old(const uint16_t *blocks, size_t count)
{
    uint8_t block[BLOCK], directory[2 + 2 * BLOCKS] = { count >> 8, count };
    for (size_t i = 0; i < count; i++) {
        directory[2 + 2 * i] = blocks[i] >> 8;
        directory[3 + 2 * i] = blocks[i];
    }
    put(directory, 2 + 2 * count, DIRECTORY);
    for (size_t i = 0; i < count; i++) {
        get(block, BLOCK, HOME + BLOCK * (off_t)blocks[i]);
        put(block, BLOCK, OLD + BLOCK * (off_t)i);
    }
    make_last();
}

static void write_home(const uint16_t *blocks, size_t count, long unit)
{
    uint8_t block[BLOCK];
    for (size_t i = 0; i < count; i++) {
        memset(block, unit, BLOCK);
        put(block, BLOCK, HOME + BLOCK * (off_t)blocks[i]);
    }
    make_last();
}

int main(int argc, char **argv)
{
    uint16_t blocks[BLOCKS];
    if (argc < 4 || (file = open(argv[1], O_RDWR | O_CREAT, 0666)) < 0 || ftruncate(file, SIZE))
        return 1;
    long units = atol(argv[2]);
    for (long unit = 0; unit < units; unit++) {
        size_t count = read_blocks(argv[3 + unit % (argc - 3)], blocks);
        keep_old(blocks, count);
        set_gate(OPEN);
        write_home(blocks, count, unit);
        set_gate(CLOSED);
    }
    return 0;
}
