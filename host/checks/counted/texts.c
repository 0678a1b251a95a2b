/* Writes and reads the text of a list of so many nodes, so many times, for counting. */
#include <stdint.h>
#include <stdio.h>
#include <stdlib.h>

uint32_t x87_smt_write(const uint64_t *nodes, size_t nodes_len, size_t count, size_t root,
                       uint8_t *text, size_t text_len, uint64_t *out, size_t out_len);
uint32_t x87_smt_read(const uint8_t *text, size_t text_len, uint64_t *nodes, size_t nodes_len,
                      uint64_t *out, size_t out_len);

/* A chain in which the last node needs every one: an input as a float, then sums, patterns and patterns read again. */
static void list(uint64_t *w, size_t n)
{
    static const uint64_t kinds[] = { 16, 26, 25, 23 };
    for (size_t i = 0; i < n; i++) {
        uint64_t *row = w + 4 * i;
        uint64_t k = i == 0 ? 1 : i == 1 ? 25 : kinds[(i - 2) % 4];
        row[0] = k;
        row[1] = i == 0 ? 7 : i - 1;
        row[2] = k == 1 ? 79 : k == 16 ? i - 1 : 0;
        row[3] = k == 25 ? 3904 : 0;
    }
}

int main(int argc, char **argv)
{
    size_t n = strtoul(argv[1], 0, 10), writes = strtoul(argv[2], 0, 10), reads = strtoul(argv[3], 0, 10);
    uint64_t *w = malloc(32 * n), *back = malloc(32 * n), out = 0;
    uint8_t *text = malloc(256 * n);
    (void)argc;
    list(w, n);
    uint32_t answer = x87_smt_write(w, 4 * n, n, n - 1, text, 256 * n, &out, 1);
    size_t bytes = out;
    for (size_t i = 0; i < writes; i++)
        answer |= x87_smt_write(w, 4 * n, n, n - 1, text, 256 * n, &out, 1);
    for (size_t i = 0; i < reads; i++)
        answer |= x87_smt_read(text, bytes, back, 4 * n, &out, 1);
    printf("answer %u, %zu nodes, %zu bytes\n", answer, n, bytes);
    return answer != 0;
}
