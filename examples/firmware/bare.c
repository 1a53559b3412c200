/*
 * A port multiplier's firmware with nothing below it: no C library, no heap but one array, a stack of its own. packaging/firmware
 * builds it, and compares what it prints with bare.out. On a real chip the four functions of memory come with the compiler, FISes
 * come from the links, and `say` is a serial line; here it is Linux's write.
 *
 * It opens two ports as a host would, lets FISes pass, and says what waits. Then fifteen devices and the host send Data FISes of the
 * full length wherever one is taken, a million calls in random order: all is taken, or refused as full, for want of a place, and never
 * for want of memory. The last two lines say how much of the array and of the stack all of that took.
 */
#include <gefsunk.h>
#include <gefsunk_pool.h>

static unsigned char memory[300000];
static unsigned char stack[65536] __attribute__((aligned(16), used));
static uint8_t room[GEF_FIS_ROOM], large[GEF_FIS_ROOM];

/* ---- what a chip's own start-up code would have */

/* gcc would make a call of memcpy of a loop that copies. */
#if defined __GNUC__ && !defined __clang__
#define PLAIN __attribute__((optimize("no-tree-loop-distribute-patterns")))
#else
#define PLAIN
#endif

PLAIN void *memcpy(void *to, const void *from, size_t count) {
    unsigned char *t = to;
    const unsigned char *f = from;
    while (count--) *t++ = *f++;
    return to;
}

PLAIN void *memmove(void *to, const void *from, size_t count) {
    unsigned char *t = to;
    const unsigned char *f = from;
    if (t <= f) return memcpy(to, from, count);
    while (count--) t[count] = f[count];
    return to;
}

PLAIN void *memset(void *at, int byte, size_t count) {
    unsigned char *a = at;
    while (count--) *a++ = (unsigned char)byte;
    return at;
}

PLAIN int memcmp(const void *one, const void *two, size_t count) {
    const unsigned char *a = one, *b = two;
    for (; count--; a++, b++)
        if (*a != *b) return *a < *b ? -1 : 1;
    return 0;
}

/* The start: the stack is the array, which is filled with a mark. */
#if defined __x86_64__
enum { LINUX_WRITE = 1, LINUX_EXIT = 60 };

static long call_linux(long number, long a, long b, long c) {
    long result;
    __asm__ volatile("syscall" : "=a"(result) : "a"(number), "D"(a), "S"(b), "d"(c) : "rcx", "r11", "memory");
    return result;
}

__asm__(".globl _start\n"
        "_start:\n"
        "    xorl %ebp, %ebp\n"
        "    leaq stack(%rip), %rdi\n"
        "    movl $65536, %ecx\n"
        "    movb $0xA5, %al\n"
        "    rep stosb\n"
        "    movq %rdi, %rsp\n"
        "    call begin\n");
#elif defined __aarch64__
enum { LINUX_WRITE = 64, LINUX_EXIT = 93 };

static long call_linux(long number, long a, long b, long c) {
    register long x8 __asm__("x8") = number;
    register long x0 __asm__("x0") = a;
    register long x1 __asm__("x1") = b;
    register long x2 __asm__("x2") = c;
    __asm__ volatile("svc 0" : "+r"(x0) : "r"(x8), "r"(x1), "r"(x2) : "memory");
    return x0;
}

__asm__(".globl _start\n"
        "_start:\n"
        "    adrp x0, stack\n"
        "    add x0, x0, :lo12:stack\n"
        "    mov w1, 0xA5\n"
        "    mov w2, 65536\n"
        "1:  strb w1, [x0], 1\n"
        "    subs w2, w2, 1\n"
        "    b.ne 1b\n"
        "    mov sp, x0\n"
        "    mov x29, 0\n"
        "    bl begin\n");
#else
#error "this processor wants a start and a system call of its own here"
#endif

static void say(const char *text) {
    const char *end = text;
    while (*end) end++;
    call_linux(LINUX_WRITE, 1, (long)text, end - text);
}

static void say_number(unsigned long number) {
    char digits[24], *at = digits + sizeof digits - 1;
    *at = 0;
    do
        *--at = (char)('0' + number % 10);
    while (number /= 10);
    say(at);
}

static void say_status(const char *what, gef_status status) {
    say(what);
    say(": ");
    say(status == GEF_OK ? "done" : status == GEF_FULL ? "full" : status == GEF_DROPPED ? "dropped" : "another status");
    say("\n");
}

/* ---- the firmware */

static void say_fis(const char *where, unsigned port, const uint8_t *fis, size_t len) {
    static char text[GEF_TEXT_ROOM];
    say(where);
    say_number(port);
    say(": ");
    if (gef_fis_text(fis, len, text, sizeof text) == GEF_OK) say(text);
    say("\n");
}

/* All that may go goes: up to the host, and down to two devices. */
static void serve(gef_pm *pm) {
    size_t len;
    uint8_t port;
    while (gef_pm_to_host(pm, room, sizeof room, &len, &port) == GEF_OK) say_fis("up from ", port, room, len);
    for (port = 0; port < 2; port++)
        while (gef_pm_to_device(pm, port, room, sizeof room, &len) == GEF_OK) say_fis("down to ", port, room, len);
}

/* WRITE PORT MULTIPLIER: the host writes a register of a port. */
static void write_register(gef_pm *pm, uint8_t port, uint8_t number, uint32_t value) {
    uint8_t fis[20] = { 0x27, 0x8F, 0xE8 };
    fis[3] = number;
    fis[4] = (uint8_t)(value >> 8);
    fis[5] = (uint8_t)(value >> 16);
    fis[6] = (uint8_t)(value >> 24);
    fis[7] = port;
    fis[12] = (uint8_t)value;
    gef_pm_from_host(pm, fis, sizeof fis);
}

static void open_port(gef_pm *pm, uint8_t port) {
    size_t len;
    uint8_t from;
    gef_pm_plug(pm, port);
    write_register(pm, port, 2, 0);
    gef_pm_to_host(pm, room, sizeof room, &len, &from);
    write_register(pm, port, 1, 0xFFFFFFFFu);
    gef_pm_to_host(pm, room, sizeof room, &len, &from);
}

static void session(gef_pm *pm) {
    uint8_t signature[20] = { 0x34, 0x00, 0x50, 0x01, 0x01 };
    uint8_t read[20] = { 0x27, 0x81, 0x60, 0x01, 0x05, 0, 0, 0x40 };
    signature[12] = 1;
    gef_pm_new(pm, 15);
    open_port(pm, 0);
    open_port(pm, 1);
    say_status("a signature of port 1", gef_pm_from_device(pm, 1, signature, sizeof signature));
    say_status("another one", gef_pm_from_device(pm, 1, signature, sizeof signature));
    say_status("a read for port 1", gef_pm_from_host(pm, read, sizeof read));
    read[1] = 0x87;
    say_status("a read for port 7", gef_pm_from_host(pm, read, sizeof read));
    serve(pm);
}

/* How many calls of each answer there were. */
static unsigned long counts[64];

static void count(gef_status status) {
    counts[status < 64 ? status : 63]++;
}

static uint32_t random_number(void) {
    static uint32_t state = 2463534242u;
    state ^= state << 13;
    state ^= state >> 17;
    state ^= state << 5;
    return state;
}

/* A full Data FIS, a command, or what the control port is asked, from the host. */
static gef_status host_sends(gef_pm *pm, uint32_t any, uint8_t port) {
    if (any & 0x400) {
        large[0] = 0x46;
        large[1] = port;
        return gef_pm_from_host(pm, large, sizeof large);
    }
    memset(room, 0, 20);
    room[0] = 0x27;
    room[1] = (uint8_t)(any & 0x800 ? 0x8F : 0x80 | port);
    room[2] = 0xE4;
    room[7] = port;
    return gef_pm_from_host(pm, room, 20);
}

static void load(gef_pm *pm, unsigned long calls) {
    size_t len;
    uint8_t port, from;
    for (port = 0; port < 15; port++) open_port(pm, port);
    while (calls--) {
        uint32_t any = random_number();
        port = (uint8_t)(any >> 4 & 15) % 15;
        switch (any & 7) {
        case 0:
        case 1:
            count(host_sends(pm, any, port));
            break;
        case 2:
        case 3:
        case 4:
            large[0] = 0x46;
            large[1] = 0;
            count(gef_pm_from_device(pm, port, large, any & 0x400 ? sizeof large : 64));
            break;
        case 5:
            count(gef_pm_to_host(pm, room, sizeof room, &len, &from));
            break;
        case 6:
            count(gef_pm_to_device(pm, port, room, sizeof room, &len));
            break;
        default:
            if ((any >> 16 & 1023) != 0) break;
            gef_pm_unplug(pm, port);
            open_port(pm, port);
        }
    }
}

/* How much of the stack was ever taken. */
static size_t taken_of_stack(void) {
    size_t at = 0;
    while (at < sizeof stack && stack[at] == 0xA5) at++;
    return sizeof stack - at;
}

void begin(void) {
    gef_pm pm = GEF_PM_CLOSED;
    size_t whole, before_free;
    gef_pool_set(memory, 1000);
    say_status("a multiplier in 1,000 bytes", gef_pm_new(&pm, 15) == GEF_NO_MEMORY ? GEF_OK : GEF_NULL);
    gef_pool_set(memory, sizeof memory);
    whole = gef_pool_left();
    session(&pm);
    load(&pm, 1000000);
    say(counts[GEF_OK] > 100000 && counts[GEF_FULL] > 10000 ? "many FISes passed, and many waited\n" : "few FISes passed\n");
    say(counts[GEF_NO_MEMORY] ? "memory was wanting\n" : "memory was never wanting\n");
    before_free = taken_of_stack();
    say_status("the multiplier is freed", gef_pm_free(&pm));
    say(gef_pool_left() == whole ? "all memory is back\n" : "memory was kept\n");
    say("memory: ");
    say_number(whole - gef_pool_least());
    say(" bytes at most\nstack: ");
    say_number(before_free);
    say(" bytes at most, and ");
    say_number(taken_of_stack());
    say(" with gef_pm_free\n");
    for (;;) call_linux(LINUX_EXIT, 0, 0, 0);
}
