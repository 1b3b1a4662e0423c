// What a program asks of the system, taken down, stopped or made to fail: a library that is loaded before the C library
// (LD_PRELOAD, or --preload of the loader). It uses no header, so that the kit's compiler makes it for x86-64 on any machine.
//
//     TRACE_LOG=FILE      each call that changes or makes safe what is on the disk, and each write to standard output, one line a call, in
//                         the order in which they took effect, of several programs too: a lock is held over a call and its line
//     TRACE_FAIL=CALL.N.ERRNO   the N-th such call of this program (open, read, write, fsync, rename, unlink, link) fails so, and a line says it
//     TRACE_SHORT=N       the N-th write of this program takes half of its bytes
//     TRACE_KILL=N        this program is killed before its N-th line
//     TRACE_WAIT=N        before its N-th line it makes FILE.waits, and waits until FILE.goes is there
//
// A line: the process, the call, what it answered, and what it was given; of a write the bytes too.

typedef unsigned long size;

// The system's numbers for its calls.
#if defined __x86_64__
enum { READ = 0, WRITE = 1, CLOSE = 3, NANOSLEEP = 35, GETPID = 39, KILL = 62, FLOCK = 73, FSYNC = 74 };
enum { OPENAT = 257, UNLINKAT = 263, LINKAT = 265, FACCESSAT = 269, RENAMEAT2 = 316 };
#elif defined __aarch64__
enum { READ = 63, WRITE = 64, CLOSE = 57, NANOSLEEP = 101, GETPID = 172, KILL = 129, FLOCK = 32, FSYNC = 82 };
enum { OPENAT = 56, UNLINKAT = 35, LINKAT = 37, FACCESSAT = 48, RENAMEAT2 = 276 };
#else
#error "the numbers of the system's calls are not known for this processor"
#endif

// What an open asks for, and the folder that paths are taken from.
enum { WRITING = 1, READ_WRITE = 2, CREATE = 0100, EXCLUSIVE = 0200, TRUNCATE = 01000, APPEND = 02000, CLOSE_ON_EXEC = 02000000 };
enum { HERE = -100 };

long syscall(long number, ...);
int *__errno_location(void);
char *getenv(const char *name);

static const char *log_path, *fail_call;
static long fail_at, fail_error, short_at, kill_at, wait_at;
static long lines;
static int log_fd = -1;

static long number(const char **s)
{
    long n = 0;
    while (**s >= '0' && **s <= '9')
        n = 10 * n + (*(*s)++ - '0');
    return n;
}

static long number_of(const char *name)
{
    const char *s = getenv(name);
    return s ? number(&s) : 0;
}

__attribute__((constructor)) static void begin(void)
{
    log_path = getenv("TRACE_LOG");
    fail_call = getenv("TRACE_FAIL");
    if (fail_call) {
        const char *s = fail_call;
        while (*s && *s != '.')
            s++;
        s++;
        fail_at = number(&s);
        s++;
        fail_error = number(&s);
    }
    short_at = number_of("TRACE_SHORT");
    kill_at = number_of("TRACE_KILL");
    wait_at = number_of("TRACE_WAIT");
    if (log_path)
        log_fd = (int)syscall(OPENAT, HERE, log_path, WRITING | CREATE | APPEND | CLOSE_ON_EXEC, 0666);
}

static int same(const char *a, const char *b)
{
    for (; *a && *a == *b; a++, b++)
        ;
    return (!*a || *a == '.') && !*b;
}

// ---- a line

static char line[1200000];
static size used;

static void put(const char *s)
{
    while (*s && used < sizeof line - 1)
        line[used++] = *s++;
}

static void put_number(long n)
{
    char digits[24];
    int k = 24;
    unsigned long left = n < 0 ? -(unsigned long)n : (unsigned long)n;
    digits[--k] = 0;
    do
        digits[--k] = (char)('0' + left % 10);
    while (left /= 10);
    if (n < 0)
        digits[--k] = '-';
    put(digits + k);
}

static void put_bytes(const unsigned char *bytes, size n)
{
    for (size i = 0; i < n && used < sizeof line - 2; i++) {
        line[used++] = "0123456789abcdef"[bytes[i] >> 4];
        line[used++] = "0123456789abcdef"[bytes[i] & 15];
    }
}

// Makes FILE.waits, or tells whether FILE.goes is there.
static int there(const char *ending)
{
    char name[4096];
    size n = 0;
    for (const char *s = log_path; *s && n < 4000; s++)
        name[n++] = *s;
    for (const char *s = ending; *s; s++)
        name[n++] = *s;
    name[n] = 0;
    if (ending[1] == 'w')
        return (int)syscall(CLOSE, syscall(OPENAT, HERE, name, WRITING | CREATE, 0666));
    return syscall(FACCESSAT, HERE, name, 0) == 0;
}

// Held by the thread whose call is under way: the lock of the file keeps programs apart, and not the threads of one.
static int held;

// Before a call that has a line: the lock is held until `say` has written it.
static void enter(void)
{
    if (log_fd < 0)
        return;
    while (__atomic_exchange_n(&held, 1, __ATOMIC_ACQUIRE)) {
        long pause[2] = {0, 100000};
        syscall(NANOSLEEP, pause, 0);
    }
    ++lines;
    if (lines == kill_at)
        syscall(KILL, syscall(GETPID), 9);
    if (lines == wait_at) {
        there(".waits");
        while (!there(".goes")) {
            long pause[2] = {0, 1000000};
            syscall(NANOSLEEP, pause, 0);
        }
    }
    syscall(FLOCK, log_fd, 2);
}

static long say(const char *call, long answer, const char *one, const char *two, long flags, const void *bytes, size n)
{
    int error = *__errno_location();
    if (log_fd < 0)
        return answer;
    used = 0;
    put_number(syscall(GETPID));
    put(" ");
    put(call);
    put(" ");
    put_number(answer);
    put(" ");
    put_number(flags);
    put(" ");
    put(one);
    put(" ");
    put(two);
    if (bytes && answer > 0)
        put_bytes(bytes, (size)answer < n ? (size)answer : n);
    put("\n");
    syscall(WRITE, log_fd, line, used);
    syscall(FLOCK, log_fd, 8);
    __atomic_store_n(&held, 0, __ATOMIC_RELEASE);
    *__errno_location() = error;
    return answer;
}

// ---- the calls

// Whether this call is the one that is to fail: errno is set then, and a line says so.
static int fails(const char *call, long *count)
{
    ++*count;
    if (!fail_call || *count != fail_at || !same(fail_call, call))
        return 0;
    if (log_fd >= 0) {
        used = 0;
        put_number(syscall(GETPID));
        put(" failed -1 ");
        put_number(fail_at);
        put(" ");
        put(call);
        put(" -\n");
        syscall(WRITE, log_fd, line, used);
    }
    *__errno_location() = (int)fail_error;
    return 1;
}

static int opened(const char *path, int flags, unsigned mode)
{
    static long count;
    enter();
    long fd = fails("open", &count) ? -1 : syscall(OPENAT, HERE, path, flags, mode);
    return (int)say("open", fd, path, "-", flags & (CREATE | EXCLUSIVE | TRUNCATE | WRITING | READ_WRITE), 0, 0);
}

int open(const char *path, int flags, unsigned mode)
{
    return opened(path, flags, mode);
}

int open64(const char *path, int flags, unsigned mode)
{
    return opened(path, flags, mode);
}

int close(int fd)
{
    enter();
    return (int)say("close", syscall(CLOSE, fd), "-", "-", fd, 0, 0);
}

long read(int fd, void *bytes, size n)
{
    static long count;
    return fails("read", &count) ? -1 : syscall(READ, fd, bytes, n);
}

long write(int fd, const void *bytes, size n)
{
    static long count;
    if (fd == 2)
        return syscall(WRITE, fd, bytes, n);
    enter();
    if (fails("write", &count))
        return say("write", -1, "-", "-", fd, 0, 0);
    if (count == short_at)
        n /= 2;
    return say("write", syscall(WRITE, fd, bytes, n), "-", "", fd, bytes, n);
}

int fsync(int fd)
{
    static long count;
    enter();
    long done = fails("fsync", &count) ? -1 : syscall(FSYNC, fd);
    return (int)say("fsync", done, "-", "-", fd, 0, 0);
}

int rename(const char *from, const char *to)
{
    static long count;
    enter();
    long done = fails("rename", &count) ? -1 : syscall(RENAMEAT2, HERE, from, HERE, to, 0);
    return (int)say("rename", done, from, to, 0, 0, 0);
}

int unlink(const char *path)
{
    static long count;
    enter();
    long done = fails("unlink", &count) ? -1 : syscall(UNLINKAT, HERE, path, 0);
    return (int)say("unlink", done, path, "-", 0, 0, 0);
}

int linkat(int from_folder, const char *from, int to_folder, const char *to, int flags)
{
    static long count;
    enter();
    long done = fails("link", &count) ? -1 : syscall(LINKAT, from_folder, from, to_folder, to, flags);
    return (int)say("link", done, from, to, 0, 0, 0);
}

int link(const char *from, const char *to)
{
    return linkat(HERE, from, HERE, to, 0);
}
