/* Checks or evaluates the lists of a file so many times, by the library or by the peer, for counting.

   The file is one that `lists` writes: for each list how many nodes it has, their rows, and what is given. */
#include <stdint.h>
#include <stdio.h>
#include <stdlib.h>
#include <string.h>

typedef uint32_t check(const uint64_t *nodes, size_t nodes_len, size_t count, uint64_t *out, size_t out_len);
typedef uint32_t evaluate(const uint64_t *nodes, size_t nodes_len, size_t count, const uint64_t *given,
                          size_t given_len, uint64_t *column, size_t column_len, uint64_t *out, size_t out_len);
check x87_check, peer_check;
evaluate x87_evaluate, peer_evaluate;

/* The words of a file, and how many they are. */
static uint64_t *words(const char *path, size_t *count)
{
    FILE *file = fopen(path, "rb");
    if (!file || fseek(file, 0, SEEK_END)) {
        perror(path);
        exit(1);
    }
    *count = ftell(file) / 8;
    uint64_t *read = malloc(8 * *count);
    rewind(file);
    if (fread(read, 8, *count, file) != *count) {
        perror(path);
        exit(1);
    }
    fclose(file);
    return read;
}

/* A sum in which the place of a word counts. */
static uint64_t summed(uint64_t sum, const uint64_t *column, size_t count)
{
    for (size_t i = 0; i < count; i++)
        sum = (sum ^ column[i]) * 0x100000001b3;
    return sum;
}

/* One call on a list, which is not refused. */
static void call(const uint64_t *list, uint64_t *column, int values, int peer)
{
    size_t n = list[0];
    const uint64_t *nodes = list + 1, *given = nodes + 4 * n;
    uint64_t out = 0;
    uint32_t answer;
    if (values)
        answer = (peer ? peer_evaluate : x87_evaluate)(nodes, 4 * n, n, given, 2 * n, column, 2 * n, &out, 1);
    else
        answer = (peer ? peer_check : x87_check)(nodes, 4 * n, n, &out, 1);
    if (answer) {
        fprintf(stderr, "answer %u, node %lu\n", answer, (unsigned long)out);
        exit(1);
    }
}

int main(int argc, char **argv)
{
    if (argc != 5) {
        fprintf(stderr, "usage: %s FILE check|evaluate library|peer TIMES\n", argv[0]);
        return 1;
    }
    int values = !strcmp(argv[2], "evaluate"), peer = !strcmp(argv[3], "peer");
    unsigned long times = strtoul(argv[4], 0, 10);
    size_t length, nodes = 0;
    uint64_t sum = 0, *list = words(argv[1], &length), *end = list + length;
    for (; list < end; list += 1 + 6 * list[0]) {
        uint64_t *column = calloc(2 * list[0], 8);
        for (unsigned long i = 0; i < times; i++)
            call(list, column, values, peer);
        nodes += list[0];
        sum = summed(sum, column, 2 * list[0]);
        free(column);
    }
    printf("%zu %016lx\n", nodes, (unsigned long)sum);
    return 0;
}
