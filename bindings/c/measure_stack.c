/*
 * Measures the stack of heralinda_search: measure_stack [--at-most BYTES] BOOK... says for each book the number
 * answered and how many bytes of stack beneath the call were written; the status is 1 where a book took more than
 * BYTES. The call runs on a stack of its own, painted before; what the same call of an empty function writes is taken
 * off. Bytes that are set aside beneath the last one written do not count.
 */
#define _XOPEN_SOURCE 700
#include "heralinda.h"

#include <stdio.h>
#include <stdlib.h>
#include <string.h>
#include <ucontext.h>

enum { LONGEST = 2048, STACK = 1 << 20 };

typedef uint32_t entry(const uint8_t *book, size_t book_length, uint8_t *out, size_t out_length);

/* one byte more than the longest book, so that a longer one is seen to be longer */
static uint8_t book[LONGEST + 1];
static uint8_t out[LONGEST + 1];
static size_t length;
static uint8_t stack[STACK];
static ucontext_t caller;
/* volatile, so that both entries are called in the same way and none is inlined */
static entry *volatile called;
static volatile uint32_t number;

static uint32_t empty(const uint8_t *lent_book, size_t book_length, uint8_t *lent_out, size_t out_length) {
    (void)lent_book;
    (void)book_length;
    (void)lent_out;
    (void)out_length;
    return 0;
}

static void call(void) {
    number = called(book, length, out, sizeof out);
}

/* The bytes from the top of the stack to the deepest one that is no longer painted; 0 where the call cannot be made. */
static size_t depth(entry *which, uint8_t paint) {
    ucontext_t context;
    if (getcontext(&context) != 0) {
        return 0;
    }
    memset(stack, paint, sizeof stack);
    context.uc_stack.ss_sp = stack;
    context.uc_stack.ss_size = sizeof stack;
    context.uc_link = &caller;
    makecontext(&context, call, 0);
    called = which;
    if (swapcontext(&caller, &context) != 0) {
        return 0;
    }
    size_t deepest = 0;
    while (deepest < sizeof stack && stack[deepest] == paint) {
        deepest++;
    }
    return sizeof stack - deepest;
}

/* A byte written may equal the paint: the deeper of two paints counts. */
static size_t deeper(entry *which) {
    size_t first = depth(which, 0xA5);
    size_t second = depth(which, 0x5A);
    return first > second ? first : second;
}

static int read_book(const char *name) {
    FILE *file = fopen(name, "rb");
    if (file == NULL) {
        return 0;
    }
    length = fread(book, 1, sizeof book, file);
    return fclose(file) == 0;
}

static int measure(const char *name, size_t most) {
    if (!read_book(name)) {
        fprintf(stderr, "measure_stack: cannot read %s\n", name);
        return 0;
    }
    /* A first call: where the loader binds memset and memcpy only now, it does so on this stack and not on that one. */
    heralinda_search(book, length, out, sizeof out);
    size_t nothing = deeper(empty);
    size_t all = deeper(heralinda_search);
    if (nothing == 0 || all <= nothing || all == sizeof stack) {
        fprintf(stderr, "measure_stack: %s could not be measured\n", name);
        return 0;
    }
    printf("%s: number %u, %zu bytes of stack\n", name, (unsigned)number, all - nothing);
    return all - nothing <= most;
}

static int usage(void) {
    fprintf(stderr, "usage: measure_stack [--at-most BYTES] BOOK...\n");
    return 2;
}

int main(int count, char **words) {
    size_t most = STACK;
    int first = 1;
    if (count > 2 && strcmp(words[1], "--at-most") == 0) {
        char *end;
        most = strtoul(words[2], &end, 10);
        if (end == words[2] || *end != '\0') {
            return usage();
        }
        first = 3;
    }
    if (count <= first) {
        return usage();
    }
    int within = 1;
    for (int i = first; i < count; i++) {
        within &= measure(words[i], most);
    }
    return within ? 0 : 1;
}
