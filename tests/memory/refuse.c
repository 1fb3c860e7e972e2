/* A library for LD_PRELOAD under which a program's surroundings fail. With SHORT=1 each read and each write to
 * standard output gets one byte at most. FAIL_READ=K and FAIL_WRITE=K fail the read, or the write to standard
 * output, of that number, counted from 1, and all behind it. With HIDDEN=1 the program is not told: the bytes of
 * the one write are lost, and input seems to end at the read, as if the program passed over the error. It refuses the allocations whose numbers, counted
 * from 1, stand in FAIL_AT between commas, as FAIL_AT=12,40. Where FAIL_AT is set it prints to standard error
 *   refused N in call K      or      refused N elsewhere
 *   call K had A to B        the allocations of the call (B is A - 1 where it had none)
 *   allocations N            at the end: how many there were
 * A call begins where the program writes the line `call` to standard output, and ends where it
 * writes anything to it again. Allocations of dlsym are not counted. */
#define _GNU_SOURCE
#include <dlfcn.h>
#include <errno.h>
#include <stdatomic.h>
#include <stddef.h>
#include <stdlib.h>
#include <string.h>
#include <sys/syscall.h>
#include <unistd.h>

enum { MOST_REFUSED = 8, EARLY_BYTES = 16384 };

static void *(*real_malloc)(size_t);
static void *(*real_calloc)(size_t, size_t);
static void *(*real_realloc)(void *, size_t);
static void *(*real_aligned_alloc)(size_t, size_t);
static int (*real_posix_memalign)(void **, size_t, size_t);
static void (*real_free)(void *);
static ssize_t (*real_write)(int, const void *, size_t);
static ssize_t (*real_read)(int, void *, size_t);

static unsigned long refused[MOST_REFUSED];
static int refused_count;
static atomic_ulong allocations; /* threads allocate side by side */
static unsigned long calls;
static unsigned long call_began;
static int in_call;
static int is_ready;
static int is_told; /* what is refused and counted is told */
static int is_short;
static int is_hidden;
static unsigned long fail_read, fail_write;
static unsigned long reads, writes;

/* What dlsym itself allocates before the real functions are known. */
static _Alignas(16) char early[EARLY_BYTES];
static size_t early_used;

static void *early_block(size_t size)
{
    size_t start = (early_used + 15) & ~(size_t)15;
    if (start + size > EARLY_BYTES)
        return NULL;
    early_used = start + size;
    return early + start;
}

static int is_early(const void *block)
{
    return (const char *)block >= early && (const char *)block < early + EARLY_BYTES;
}

static void put(char *line, size_t *length, const char *text)
{
    while (*text)
        line[(*length)++] = *text++;
}

static void put_number(char *line, size_t *length, unsigned long number)
{
    char digits[24];
    int count = 0;
    do {
        digits[count++] = (char)('0' + number % 10);
        number /= 10;
    } while (number);
    while (count)
        line[(*length)++] = digits[--count];
}

static void say(const char *first, unsigned long one, const char *second, unsigned long two,
                const char *third, unsigned long three)
{
    char line[160];
    size_t length = 0;
    if (!is_told)
        return;
    put(line, &length, first);
    put_number(line, &length, one);
    if (second) {
        put(line, &length, second);
        if (two != (unsigned long)-1)
            put_number(line, &length, two);
    }
    if (third) {
        put(line, &length, third);
        put_number(line, &length, three);
    }
    line[length++] = '\n';
    ssize_t written = real_write(2, line, length);
    (void)written;
}

static void read_refused(void)
{
    const char *text = getenv("FAIL_AT");
    while (text && *text && refused_count < MOST_REFUSED) {
        unsigned long number = 0;
        while (*text >= '0' && *text <= '9')
            number = number * 10 + (unsigned long)(*text++ - '0');
        refused[refused_count++] = number;
        if (*text)
            text++;
    }
}

/* The number that the variable has, or 0. */
static unsigned long number_in(const char *name)
{
    const char *text = getenv(name);
    return text ? strtoul(text, NULL, 10) : 0;
}

__attribute__((constructor)) static void begin(void)
{
    is_told = getenv("FAIL_AT") != NULL;
    is_short = number_in("SHORT") != 0;
    is_hidden = number_in("HIDDEN") != 0;
    fail_read = number_in("FAIL_READ");
    fail_write = number_in("FAIL_WRITE");
    real_calloc = dlsym(RTLD_NEXT, "calloc");
    real_malloc = dlsym(RTLD_NEXT, "malloc");
    real_realloc = dlsym(RTLD_NEXT, "realloc");
    real_aligned_alloc = dlsym(RTLD_NEXT, "aligned_alloc");
    real_posix_memalign = dlsym(RTLD_NEXT, "posix_memalign");
    real_free = dlsym(RTLD_NEXT, "free");
    real_write = dlsym(RTLD_NEXT, "write");
    real_read = dlsym(RTLD_NEXT, "read");
    read_refused();
    is_ready = 1;
}

__attribute__((destructor)) static void end(void)
{
    static int is_said;
    if (!is_said)
        say("allocations ", allocations, NULL, 0, NULL, 0);
    is_said = 1;
}

/* A program that ends by it runs no destructors. */
void _exit(int status)
{
    end();
    syscall(SYS_exit_group, status);
    __builtin_unreachable();
}

/* Counts an allocation, and answers whether it is to be refused. */
static int is_refused(void)
{
    unsigned long number = atomic_fetch_add(&allocations, 1) + 1;
    for (int place = 0; place < refused_count; place++) {
        if (refused[place] == number) {
            if (in_call)
                say("refused ", number, " in call ", calls, NULL, 0);
            else
                say("refused ", number, " elsewhere", (unsigned long)-1, NULL, 0);
            errno = ENOMEM;
            return 1;
        }
    }
    return 0;
}

void *malloc(size_t size)
{
    if (!is_ready)
        return real_malloc ? real_malloc(size) : early_block(size);
    return is_refused() ? NULL : real_malloc(size);
}

void *calloc(size_t count, size_t size)
{
    if (!is_ready)
        return real_calloc ? real_calloc(count, size) : early_block(count * size);
    return is_refused() ? NULL : real_calloc(count, size);
}

void *realloc(void *block, size_t size)
{
    if (!is_ready)
        return real_realloc ? real_realloc(block, size) : early_block(size);
    return is_refused() ? NULL : real_realloc(block, size);
}

void *aligned_alloc(size_t alignment, size_t size)
{
    if (!is_ready)
        return real_aligned_alloc ? real_aligned_alloc(alignment, size) : NULL;
    return is_refused() ? NULL : real_aligned_alloc(alignment, size);
}

int posix_memalign(void **block, size_t alignment, size_t size)
{
    if (!is_ready)
        return real_posix_memalign ? real_posix_memalign(block, alignment, size) : ENOMEM;
    return is_refused() ? ENOMEM : real_posix_memalign(block, alignment, size);
}

void free(void *block)
{
    if (!block || is_early(block))
        return;
    if (real_free)
        real_free(block);
}

ssize_t write(int file, const void *bytes, size_t count)
{
    if (!real_write)
        real_write = dlsym(RTLD_NEXT, "write");
    if (file == 1 && in_call) {
        in_call = 0;
        say("call ", calls, " had ", call_began + 1, " to ", allocations);
    }
    if (file == 1 && fail_write != 0 && ++writes >= fail_write) {
        if (is_hidden) {
            fail_write = 0;
            return 1;
        }
        errno = EIO;
        return -1;
    }
    if (file == 1 && is_short && count > 1)
        count = 1;
    ssize_t written = real_write(file, bytes, count);
    if (file == 1 && count == 5 && memcmp(bytes, "call\n", 5) == 0) {
        in_call = 1;
        calls++;
        call_began = allocations;
    }
    return written;
}

ssize_t read(int file, void *bytes, size_t count)
{
    if (!real_read)
        real_read = dlsym(RTLD_NEXT, "read");
    if (fail_read != 0 && ++reads >= fail_read) {
        if (is_hidden)
            return 0;
        errno = EIO;
        return -1;
    }
    if (is_short && count > 1)
        count = 1;
    return real_read(file, bytes, count);
}
