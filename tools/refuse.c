/* Makes one of a program's calls of the C library fail: `tools/refusals` preloads it.

   The variable REFUSE is a letter and a number N, counted from 1:
     m  the N-th allocation (malloc, realloc) fails                    M  this one and all after it
     i  the N-th open, read or write fails with EIO                    s  the N-th read or write of bytes moves one
   To the descriptor in REFUSE_REPORT it writes `open FD PATH` for each file that was opened, `refused CALL FD` for each
   failed call, and `refused memory BYTES` for each failed allocation.
   It is compiled without headers, because the kit has none. */

typedef unsigned long size_t;
typedef long ssize_t;
typedef __builtin_va_list va_list;

extern void *__libc_malloc(size_t size);
extern void *__libc_realloc(void *old, size_t size);
extern long syscall(long number, ...);
extern char *getenv(const char *name);
extern int *__errno_location(void);

enum { READ = 0, WRITE = 1, OPEN = 2, OUT_OF_MEMORY = 12, FAILED = 5, MAKES_A_FILE = 0100 };

static char kind;
static unsigned long wanted, made;
static int report = -1;

static size_t length(const char *text)
{
    size_t n = 0;
    while (text[n])
        n++;
    return n;
}

static unsigned long number(const char *digits)
{
    unsigned long n = 0;
    for (; *digits >= '0' && *digits <= '9'; digits++)
        n = n * 10 + (unsigned long)(*digits - '0');
    return n;
}

__attribute__((constructor)) static void begin(void)
{
    const char *what = getenv("REFUSE"), *where = getenv("REFUSE_REPORT");
    if (!what || !where || !*what)
        return;
    report = (int)number(where);
    wanted = number(what + 1);
    kind = *what;
}

static void tell(const char *what, size_t count, const char *path)
{
    char line[4200], digits[20];
    size_t n = 0, at, used = 0;
    for (at = 0; at < length(what); at++)
        line[n++] = what[at];
    line[n++] = ' ';
    do
        digits[used++] = (char)('0' + count % 10);
    while ((count /= 10));
    while (used)
        line[n++] = digits[--used];
    line[n++] = ' ';
    for (at = 0; path[at] && at < 4096; at++)
        line[n++] = path[at];
    line[n++] = '\n';
    syscall(WRITE, report, line, n);
}

/* Whether a call fails, of those that are counted under this letter. */
static int is_refused(char of_kind)
{
    if (kind != of_kind)
        return 0;
    made++;
    return made == wanted || (kind == 'M' && made > wanted);
}

static int is_growth_refused(size_t size)
{
    int refused = is_refused('m') || is_refused('M');
    if (refused) {
        tell("refused memory", size, "");
        *__errno_location() = OUT_OF_MEMORY;
    }
    return refused;
}

void *malloc(size_t size)
{
    return is_growth_refused(size) ? 0 : __libc_malloc(size);
}

void *realloc(void *old, size_t size)
{
    return is_growth_refused(size) ? 0 : __libc_realloc(old, size);
}

static ssize_t transfer(long call, const char *name, int file, void *bytes, size_t count)
{
    if (is_refused('i')) {
        tell(name, (size_t)file, "");
        *__errno_location() = FAILED;
        return -1;
    }
    if (count > 1 && is_refused('s')) {
        tell(name, (size_t)file, "");
        count = 1;
    }
    return syscall(call, file, bytes, count);
}

ssize_t read(int file, void *bytes, size_t count)
{
    return transfer(READ, "refused read", file, bytes, count);
}

ssize_t write(int file, const void *bytes, size_t count)
{
    return transfer(WRITE, "refused write", file, (void *)bytes, count);
}

ssize_t __write(int file, const void *bytes, size_t count)
{
    return transfer(WRITE, "refused write", file, (void *)bytes, count);
}

int open(const char *path, int flags, ...)
{
    int mode = 0, file;
    va_list rest;
    if (flags & MAKES_A_FILE) {
        __builtin_va_start(rest, flags);
        mode = __builtin_va_arg(rest, int);
        __builtin_va_end(rest);
    }
    if (is_refused('i')) {
        tell("refused open", 0, path);
        *__errno_location() = FAILED;
        return -1;
    }
    file = (int)syscall(OPEN, path, flags, mode);
    if (file >= 0)
        tell("open", (size_t)file, path);
    return file;
}

int open64(const char *path, int flags, ...) __attribute__((alias("open")));
