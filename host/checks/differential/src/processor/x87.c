/* The x87 unit, for a machine that has none: there QEMU runs this program,
   and `emulated.rs` asks it. It is the emulator's x87, not a processor's.

   A request on standard input is eight bytes, of which three are used (how
   numbers are loaded, what is done, how its outcome is stored), and two
   numbers of 16 bytes. The answer on standard output is one such number.
   Loads and stores have the letters of the assembler's suffixes. */

#include <stdint.h>
#include <stdlib.h>
#include <string.h>
#include <unistd.h>

typedef long double extended;
typedef unsigned char byte;

enum { IMAGE = 10, NUMBER = 16 };

struct request {
    byte load, work, store, unused[5], numbers[2][NUMBER];
};

static const uint16_t nearest = 0x037f, toward_zero = 0x0f7f;

static extended loaded(byte load, const byte *from) {
    extended whole = 0;
    float single;
    double wide;
    int64_t integer;
    switch (load) {
    case 's': memcpy(&single, from, sizeof single); return single;
    case 'l': memcpy(&wide, from, sizeof wide); return wide;
    case 't': memcpy(&whole, from, IMAGE); return whole;
    case 'q': memcpy(&integer, from, sizeof integer); return integer;
    }
    exit(1);
}

static void stored(byte store, extended number, byte *to) {
    switch (store) {
    case 's': asm("fsts %0" : "=m"(*(float *)to) : "t"(number)); return;
    case 'l': asm("fstl %0" : "=m"(*(double *)to) : "t"(number)); return;
    case 't': memcpy(to, &number, IMAGE); return;
    case 'h': asm("fistps %0" : "=m"(*(int16_t *)to) : "t"(number) : "st"); return;
    case 'i': asm("fistpl %0" : "=m"(*(int32_t *)to) : "t"(number) : "st"); return;
    case 'q': asm("fistpll %0" : "=m"(*(int64_t *)to) : "t"(number) : "st"); return;
    }
    exit(1);
}

/* The sign of the difference, or 2 beside a NaN. */
static extended compared(extended a, extended b) {
    return a < b ? -1 : a > b ? 1 : a == b ? 0 : 2;
}

static extended worked(byte work, extended a, extended b) {
    extended exponent;
    uint16_t status;
    switch (work) {
    case '=': return a;
    case '+': return a + b;
    case '-': return a - b;
    case '*': return a * b;
    case '/': return a / b;
    case '?': return compared(a, b);
    case 'r': asm("fsqrt" : "+t"(a)); return a;
    case 'n': asm("frndint" : "+t"(a)); return a;
    case 'z':
        asm("fldcw %1\n\tfrndint\n\tfldcw %2" : "+t"(a) : "m"(toward_zero), "m"(nearest));
        return a;
    case 'x': asm("fxam\n\tfnstsw %0" : "=a"(status) : "t"(a)); return status;
    case 'e': asm("fxtract" : "+t"(a), "=u"(exponent)); return exponent;
    case 'm': asm("fxtract" : "+t"(a), "=u"(exponent)); return a;
    }
    exit(1);
}

int main(void) {
    struct request asked;
    while (read(0, &asked, sizeof asked) == sizeof asked) {
        extended a = loaded(asked.load, asked.numbers[0]);
        extended b = loaded(asked.load, asked.numbers[1]);
        byte answer[NUMBER] = {0};
        stored(asked.store, worked(asked.work, a, b), answer);
        if (write(1, answer, sizeof answer) != sizeof answer)
            return 1;
    }
    return 0;
}
