/* What the programs that examine an entry share: lists that end at a fence, and numbers, high byte first. */
#ifndef EXAMINE_H
#define EXAMINE_H

/* For anonymous memory; stands before every header of the system. */
#define _DEFAULT_SOURCE
#include <stddef.h>
#include <stdint.h>
#include <stdio.h>
#include <sys/mman.h>

/* The longest list in bytes and the fence behind it: both a whole number of pages on every board that runs this. */
enum { MOST = 65536 };

/*
 * The end of MOST bytes, behind which no access is allowed. A list that is lent ends there, so that a read or a write
 * past it ends this program, on machines that have no checker of memory too.
 */
static uint8_t *fence(void) {
    uint8_t *start = mmap(NULL, 2 * MOST, PROT_READ | PROT_WRITE, MAP_PRIVATE | MAP_ANONYMOUS, -1, 0);
    if (start == MAP_FAILED || mprotect(start + MOST, MOST, PROT_NONE) != 0) {
        return NULL;
    }
    return start + MOST;
}

/* Reads a number of so many bytes; answers 0 where the input ends. */
static int read_number(int bytes, uint32_t *number) {
    *number = 0;
    for (int i = 0; i < bytes; i++) {
        int byte = getchar();
        if (byte == EOF) {
            return 0;
        }
        *number = *number << 8 | (uint32_t)byte;
    }
    return 1;
}

/* Reads a list of bytes so that it ends at `end`, and answers where it starts. */
static uint8_t *read_list(uint8_t *end, size_t *length) {
    uint32_t count;
    if (!read_number(2, &count)) {
        return NULL;
    }
    *length = count;
    uint8_t *start = end - count;
    return fread(start, 1, count, stdin) == count ? start : NULL;
}

/* Writes a number as eight bytes. */
static void write_number(uint64_t number) {
    for (int i = 7; i >= 0; i--) {
        putchar((int)(number >> (8 * i) & 255));
    }
}

#endif
