/* The calls of the proved library, for a machine that is not x86-64: there
   QEMU runs this program, and `emulated.rs` asks it.

   A request on standard input is nine words of eight bytes: the call, its
   two numbers, how many of its slices are only read, and how many bytes each
   of up to five slices has. The slices follow, each filled up to whole words,
   with one word before the first that is written. The answer on standard
   output is that word, and the slices behind it as the call left them. */

#include <stdint.h>
#include <stdlib.h>
#include <unistd.h>

typedef uint8_t byte;
typedef uint64_t word;
typedef uint32_t number;

extern number x87_classify(const byte *, word, word *, word);
extern number x87_why(const byte *, word, word *, word);
extern number x87_effect(const byte *, word, word *, word);
extern number x87_read_record(const byte *, word, word, byte *, word, word *, word);
extern number x87_lift(const byte *, word, word *, word, word *, word, word *, word,
                       word *, word);
extern number x87_lift_record(const byte *, word, word, word *, word, word *, word,
                              word *, word, word *, word);
extern number x87_image_read(const byte *, word, word, word, word *, word);
extern number x87_image_write(byte *, word, word, word);
extern number x87_check(const word *, word, word, word *, word);
extern number x87_evaluate(const word *, word, word, const word *, word, word *, word,
                           word *, word);
extern number x87_smt_write(const word *, word, word, word, byte *, word, word *, word);
extern number x87_smt_read(const byte *, word, word *, word, word *, word);

enum { SLICES = 5, WORD = sizeof(word) };
enum {
    CLASSIFY, WHY, EFFECT, READ_RECORD, LIFT, LIFT_RECORD,
    IMAGE_READ, IMAGE_WRITE, CHECK, EVALUATE, SMT_WRITE, SMT_READ,
};

struct request {
    word call, numbers[2], only_read, bytes[SLICES];
};

/* A slice as a call is lent it: where it is, and how many parts it has. */
#define BYTES(n) slices[n], asked->bytes[n]
#define WORDS(n) (word *)slices[n], asked->bytes[n] / WORD

static number called(const struct request *asked, byte *const *slices) {
    word first = asked->numbers[0], second = asked->numbers[1];
    switch (asked->call) {
    case CLASSIFY: return x87_classify(BYTES(0), WORDS(1));
    case WHY: return x87_why(BYTES(0), WORDS(1));
    case EFFECT: return x87_effect(BYTES(0), WORDS(1));
    case READ_RECORD: return x87_read_record(BYTES(0), first, BYTES(1), WORDS(2));
    case LIFT: return x87_lift(BYTES(0), WORDS(1), WORDS(2), WORDS(3), WORDS(4));
    case LIFT_RECORD:
        return x87_lift_record(BYTES(0), first, WORDS(1), WORDS(2), WORDS(3), WORDS(4));
    case IMAGE_READ: return x87_image_read(BYTES(0), first, second, WORDS(1));
    case IMAGE_WRITE: return x87_image_write(BYTES(0), first, second);
    case CHECK: return x87_check(WORDS(0), first, WORDS(1));
    case EVALUATE: return x87_evaluate(WORDS(0), first, WORDS(1), WORDS(2), WORDS(3));
    case SMT_WRITE: return x87_smt_write(WORDS(0), first, second, BYTES(1), WORDS(2));
    case SMT_READ: return x87_smt_read(BYTES(0), WORDS(1), WORDS(2));
    }
    exit(1);
}

/* Whether so many bytes were read. */
static int taken(byte *place, size_t size) {
    while (size > 0) {
        ssize_t got = read(0, place, size);
        if (got <= 0)
            return 0;
        place += got;
        size -= got;
    }
    return 1;
}

static void told(const byte *place, size_t size) {
    while (size > 0) {
        ssize_t put = write(1, place, size);
        if (put <= 0)
            exit(1);
        place += put;
        size -= put;
    }
}

int main(void) {
    struct request asked;
    byte *room = NULL;
    while (taken((byte *)&asked, sizeof asked)) {
        size_t places[SLICES], answer = 0, size = 0;
        for (word n = 0; n < SLICES; n++) {
            if (n == asked.only_read) {
                answer = size;
                size += WORD;
            }
            places[n] = size;
            size += (asked.bytes[n] + WORD - 1) / WORD * WORD;
        }
        room = realloc(room, size);
        if (room == NULL || !taken(room, size))
            return 1;
        byte *slices[SLICES];
        for (int n = 0; n < SLICES; n++)
            slices[n] = room + places[n];
        *(word *)(room + answer) = called(&asked, slices);
        told(room + answer, size - answer);
    }
    return 0;
}
