/* Lends the library, which is for x86-64, to tests on a machine of another kind: run by an emulator,
 * it answers calls that come on standard input until there are no more.
 *
 * A call: the routine, how many words it is called with, and for each word its kind and a number (64 bits
 * each, low byte first); then the bytes of each word that isn't a number. An answer: the returned number,
 * then the bytes of each room as they are afterwards. It uses no C library.
 */
typedef unsigned char u8;
typedef unsigned long u64;

/* A word is a number, or points to so many bytes; those of a room come back. */
enum { NUMBER, BYTES, ROOM };
struct word { u64 kind, number; };

/* Any function of the library, called with as many words as the longest has: one that has fewer looks at no others. */
enum { MOST_WORDS = 13 };
typedef u8 routine(u64, u64, u64, u64, u64, u64, u64, u64, u64, u64, u64, u64, u64);

extern routine vu_verdict, vu_write, vu_check;
static routine *const routines[] = {vu_verdict, vu_write, vu_check};

static u8 data[1 << 25] __attribute__((aligned(16)));

static long call(long number, long a, long b, long c) {
    long result;
    __asm__ volatile("syscall" : "=a"(result) : "a"(number), "D"(a), "S"(b), "d"(c) : "rcx", "r11", "memory");
    return result;
}

static void end(int status) {
    for (;;) call(231, status, 0, 0);
}

/* Reads so many bytes, or ends if there are no more. */
static void get(u8 *to, u64 n) {
    while (n > 0) {
        long got = call(0, 0, (long)to, (long)n);
        if (got <= 0) end(got < 0);
        to += got;
        n -= got;
    }
}

static void put(const u8 *from, u64 n) {
    while (n > 0) {
        long gone = call(1, 1, (long)from, (long)n);
        if (gone <= 0) end(1);
        from += gone;
        n -= gone;
    }
}

/* Reads the words of a call, and their bytes to places that suit any number. */
static void take(struct word *words, u64 count, u64 *given) {
    u64 at = 0;
    get((u8 *)words, count * sizeof *words);
    for (u64 i = 0; i < count; i++) {
        u64 n = words[i].number;
        given[i] = n;
        if (words[i].kind == NUMBER) continue;
        if (n > sizeof data - at) end(2);
        given[i] = (u64)(data + at);
        get(data + at, n);
        at += (n + 15) / 16 * 16;
    }
}

static void serve(void) {
    struct { u64 routine, count; } head;
    struct word words[MOST_WORDS];
    u64 g[MOST_WORDS] = {0};
    get((u8 *)&head, sizeof head);
    if (head.routine >= sizeof routines / sizeof *routines || head.count > MOST_WORDS) end(2);
    take(words, head.count, g);
    u8 number = routines[head.routine](g[0], g[1], g[2], g[3], g[4], g[5], g[6], g[7], g[8], g[9], g[10], g[11], g[12]);
    put(&number, 1);
    for (u64 i = 0; i < head.count; i++)
        if (words[i].kind == ROOM) put((u8 *)g[i], words[i].number);
}

/* It ends with the thread that started it, even in the middle of an answer. */
void carry(void) {
    call(157, 1, 9, 0);
    for (;;) serve();
}

__asm__(".globl _start\n_start:\n xor %ebp, %ebp\n and $-16, %rsp\n call carry\n");

/* What the library asks of a C library: eight bytes at a time as far as there are so many, since an emulator takes as long for one, and
 * since it takes the processor's own instructions for strings apart into bytes. */
typedef struct { u64 bytes; } __attribute__((packed, may_alias)) eight;

void *memset(void *to, int byte, u64 n) {
    u8 *at = to;
    for (; n >= 8; n -= 8, at += 8) ((eight *)at)->bytes = (u8)byte * 0x0101010101010101;
    for (; n > 0; n--) *at++ = (u8)byte;
    return to;
}

void *memcpy(void *to, const void *from, u64 n) {
    u8 *at = to;
    const u8 *of = from;
    for (; n >= 8; n -= 8, at += 8, of += 8) *(eight *)at = *(const eight *)of;
    for (; n > 0; n--) *at++ = *of++;
    return to;
}

void *memmove(void *to, const void *from, u64 n) {
    u8 *at = to;
    const u8 *of = from;
    if ((u64)to - (u64)from >= n) return memcpy(to, from, n);
    for (; n > 0; n--) at[n - 1] = of[n - 1];
    return to;
}
