/* Runs functions one instruction at a time and tells what the machine did.

   Standard output begins with the arena's address and the parts of this
   program that are only read: how many, then the address, the size and the
   bytes of each. For each request on standard input (the address of a
   function, and the arena's bytes) the function is called with its
   arguments at ARGUMENTS in the arena, and the answer is a length and so
   many bytes of steps: the state before each instruction, and the words of
   the arena that changed since the step before. The last step is that
   behind the return. A run that is too long has the length 0. */

typedef unsigned int word;
typedef unsigned short half;
typedef unsigned char byte;

enum { ARENA = 1024, ARGUMENTS = 896, MOST = 1 << 18, ROOM = 256 + 8 * ARENA / 4 };
enum { READ = 3, WRITE = 4, EXIT = 1, RT_SIGACTION = 174, SIGALTSTACK = 186 };
enum { SIGTRAP = 5, SA_SIGINFO = 4, SA_RESTORER = 0x04000000, SA_ONSTACK = 0x08000000 };
enum { TRAP = 0x100, LOADED = 1, ONLY_READ = 4 };

#define HERE __attribute__((section(".harness")))

/* What the kernel hands to a handler. */
struct x87 {
    word control, status, tags, pointers[4];
    byte st[8][10];
};
struct context {
    word flags, link, stack[3];
    word segments[4], di, si, bp, sp, bx, dx, cx, ax;
    word trap, error, ip, cs, eflags, sp_again, ss;
    struct x87 *x87;
};
struct action {
    void (*handler)(int, void *, struct context *);
    word flags;
    void (*restorer)(void);
    word mask[2];
};

/* A step as it is told; x87 registers stand in the processor's own order. */
struct step {
    word ip, eflags, general[8];
    half control, status, tags, unused;
    byte registers[8][10];
    word changes;
};

struct header {
    byte ident[16];
    half kind, machine;
    word version, entry, parts_at, sections_at, flags;
    half size, part_size, parts;
};
struct part {
    word kind, offset, address, physical, stored, size, flags, align;
};
extern const struct header __ehdr_start;
extern const byte back[];
extern void restore(void);
extern void step_through(word function, byte *stack);

static byte arena[ARENA] __attribute__((aligned(16)));
static byte seen[ARENA] __attribute__((aligned(16)));
static byte told[MOST], handlers[1 << 16];
static word length;
static int overflow;

HERE static int call(word number, word a, word b, word c, word d)
{
    int result;
    __asm__ volatile("int $0x80"
                     : "=a"(result)
                     : "a"(number), "b"(a), "c"(b), "d"(c), "S"(d)
                     : "memory");
    return result;
}

HERE static void leave(int status)
{
    for (;;)
        call(EXIT, status, 0, 0, 0);
}

/* Moves all bytes, or leaves. */
HERE static void move(word direction, void *bytes, word size)
{
    byte *at = bytes;
    while (size > 0) {
        int moved = call(direction, direction == WRITE, (word)at, size, 0);
        if (moved <= 0)
            leave(direction == WRITE || moved < 0);
        at += moved;
        size -= moved;
    }
}

HERE static void copy(void *to, const void *from, word size)
{
    __asm__ volatile("rep movsb" : "+D"(to), "+S"(from), "+c"(size) : : "memory");
}

/* Tells the words of the arena that changed, and how many. */
HERE static word changes(void)
{
    const word *now = (const word *)arena;
    word *then = (word *)seen, count = 0;
    for (word at = 0; at < ARENA / 4; at++) {
        if (now[at] == then[at])
            continue;
        word change[2] = {(word)&now[at], now[at]};
        copy(told + length, change, sizeof change);
        length += sizeof change;
        then[at] = now[at];
        count++;
    }
    return count;
}

HERE static void state(struct step *step, const struct context *at)
{
    const struct x87 *x87 = at->x87;
    const word general[8] = {at->ax, at->cx, at->dx, at->bx, at->sp, at->bp, at->si, at->di};
    step->ip = at->ip;
    step->eflags = at->eflags;
    copy(step->general, general, sizeof general);
    step->control = x87->control;
    step->status = x87->status;
    step->tags = x87->tags;
    step->unused = 0;
    for (word place = 0; place < 8; place++)
        copy(step->registers[(place + (x87->status >> 11)) & 7], x87->st[place], 10);
}

HERE static void trapped(int signal, void *info, struct context *at)
{
    (void)signal;
    (void)info;
    overflow |= length + ROOM > MOST;
    if (!overflow) {
        struct step step;
        word place = length;
        state(&step, at);
        length += sizeof step;
        step.changes = changes();
        copy(told + place, &step, sizeof step);
    }
    if (overflow || at->ip == (word)back)
        at->eflags &= ~TRAP;
}

HERE static int is_told(const struct part *part)
{
    return part->kind == LOADED && part->flags == ONLY_READ;
}

HERE static word count(const struct part *parts)
{
    word count = 0;
    for (word i = 0; i < __ehdr_start.parts; i++)
        count += is_told(&parts[i]);
    return count;
}

HERE static void tell_parts(void)
{
    const struct part *parts = (const void *)((const byte *)&__ehdr_start + __ehdr_start.parts_at);
    word head[2] = {(word)arena, count(parts)};
    move(WRITE, head, sizeof head);
    for (word i = 0; i < __ehdr_start.parts; i++) {
        struct part part = parts[i];
        if (!is_told(&part))
            continue;
        move(WRITE, &part.address, sizeof part.address);
        move(WRITE, &part.size, sizeof part.size);
        move(WRITE, (void *)part.address, part.size);
    }
}

/* The function is entered with the trap flag set, so that the first step
   is told at its first instruction. */
__asm__(".section .harness,\"ax\"\n.globl back\n"
        "restore: mov $173, %eax; int $0x80\n"
        "step_through: pusha; mov 36(%esp), %eax; mov 40(%esp), %ecx\n"
        "mov %eax, function; mov %esp, stack; mov %ecx, %esp\n"
        "xor %eax, %eax; xor %ecx, %ecx; xor %edx, %edx; xor %ebx, %ebx\n"
        "xor %ebp, %ebp; xor %esi, %esi; xor %edi, %edi; fninit\n"
        "pushl $0x302; popf; call *function\n"
        "back: mov stack, %esp; popa; ret\n"
        ".comm function, 4\n.comm stack, 4\n");

HERE static void run(void)
{
    struct action action = {trapped, SA_SIGINFO | SA_RESTORER | SA_ONSTACK, restore, {0, 0}};
    struct {
        void *bytes;
        word flags, size;
    } stack = {handlers, 0, sizeof handlers};
    if (call(SIGALTSTACK, (word)&stack, 0, 0, 0) ||
        call(RT_SIGACTION, SIGTRAP, (word)&action, 0, sizeof action.mask))
        leave(2);
    tell_parts();
    for (;;) {
        word function;
        move(READ, &function, sizeof function);
        move(READ, arena, ARENA);
        copy(seen, arena, ARENA);
        length = overflow = 0;
        step_through(function, arena + ARGUMENTS);
        if (overflow)
            length = 0;
        move(WRITE, &length, sizeof length);
        move(WRITE, told, length);
    }
}

HERE void _start(void)
{
    __asm__ volatile("and $-16, %esp");
    run();
}
