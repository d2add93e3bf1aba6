/* Searches the table of a timing book: search_book BOOK OUT writes the book with its verdict and says what was found. */
#include "heralinda.h"

#include <stdio.h>

enum { LONGEST = 2048 };

static size_t read_file(const char *name, uint8_t *bytes, size_t most) {
    FILE *file = fopen(name, "rb");
    if (file == NULL) {
        return 0;
    }
    size_t length = fread(bytes, 1, most, file);
    fclose(file);
    return length;
}

static int write_file(const char *name, const uint8_t *bytes, size_t length) {
    FILE *file = fopen(name, "wb");
    if (file == NULL) {
        return 0;
    }
    int whole = fwrite(bytes, 1, length, file) == length;
    return fclose(file) == 0 && whole;
}

int main(int count, char **words) {
    if (count != 3) {
        fprintf(stderr, "usage: search_book BOOK OUT\n");
        return 2;
    }
    /* one byte more than the longest book, so that a longer one is seen to be longer */
    uint8_t book[LONGEST + 1];
    uint8_t out[LONGEST + 1];
    size_t length = read_file(words[1], book, sizeof book);
    uint32_t number = heralinda_search(book, length, out, sizeof out);
    if (number != 0 && number != 4) {
        printf("REFUSED %u\n", number);
        return 1;
    }
    if (!write_file(words[2], out, length)) {
        fprintf(stderr, "search_book: cannot write %s\n", words[2]);
        return 2;
    }
    printf("%s\n", number == 0 ? "ORDER" : "BLOCKED");
    return 0;
}
