/*
 * Examines heralinda_search: cases on standard input, answers on standard output, so that any program can compare it.
 * A case is a book and an output, each its length as two bytes, high byte first, then its bytes. An answer is the
 * number as eight bytes, high byte first, then the output as it is after the call. The run ends with the input.
 */
#include "examine.h"

#include "heralinda.h"

int main(void) {
    uint8_t *book_end = fence();
    uint8_t *out_end = fence();
    if (book_end == NULL || out_end == NULL) {
        return 2;
    }
    size_t book_length;
    size_t out_length;
    uint8_t *book;
    while ((book = read_list(book_end, &book_length)) != NULL) {
        uint8_t *out = read_list(out_end, &out_length);
        if (out == NULL) {
            return 1;
        }
        write_number(heralinda_search(book, book_length, out, out_length));
        fwrite(out, 1, out_length, stdout);
    }
    return 0;
}
