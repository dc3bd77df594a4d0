/* Loaded before a program, this refuses requests for memory, and makes reads and writes fail, as
   the environment says. It stands on the C library alone and needs no header. */

typedef unsigned long size_t;
typedef long ssize_t;

void *__libc_malloc(size_t size);
void *__libc_calloc(size_t count, size_t size);
void *__libc_realloc(void *old, size_t size);
void *__libc_memalign(size_t alignment, size_t size);
int *__errno_location(void);
char *getenv(const char *name);
long strtol(const char *text, char **end, int base);
long syscall(long number, ...);

/* system calls of x86-64 */
enum { READ = 0, WRITE = 1 };
/* EINTR, EIO, ENOMEM */
enum { INTERRUPTED = 4, FAILED = 5, NO_MEMORY = 12 };
/* standard input, output and error, and the descriptor behind them, which reports go to */
enum { DESCRIPTORS = 3, REPORTS = 3 };

/* What is done to the calls on one of the three descriptors, counted from 1 on; 0 means none. */
struct faults {
    long count;
    long failed;
    long interrupted;
    long one_byte; /* -1 is all of them */
};

static struct faults of_descriptor[DESCRIPTORS];
static int failed_with;
static long requests, refused_from, refused_to;
static int is_counting;

/* One letter for each thing that is done, so that whoever runs the program sees what was: `m` is a
   request refused, `f` a transfer that fails, `i` one interrupted, `s` a short one, `r` any read. */
static void report(char letter)
{
    syscall(WRITE, (long)REPORTS, &letter, 1L);
}

static long number(const char *name)
{
    const char *text = getenv(name);
    return text ? strtol(text, 0, 10) : 0;
}

__attribute__((constructor)) static void start(void)
{
    refused_from = number("REFUSED_FROM");
    refused_to = number("REFUSED_TO");
    of_descriptor[0] = (struct faults){0, number("READ_FAILED"), number("READ_INTERRUPTED"),
                                       number("READ_ONE_BYTE")};
    of_descriptor[1] = (struct faults){0, number("WRITE_FAILED"), number("WRITE_INTERRUPTED"),
                                       number("WRITE_ONE_BYTE")};
    of_descriptor[2] = (struct faults){0, number("ERROR_FAILED"), 0, 0};
    failed_with = number("FAILED_FOR_MEMORY") ? NO_MEMORY : FAILED;
    is_counting = 1;
}

static int is_refused(void)
{
    if (!is_counting)
        return 0;
    requests++;
    if (refused_from == 0 || requests < refused_from || requests > refused_to)
        return 0;
    report('m');
    *__errno_location() = NO_MEMORY;
    return 1;
}

void *malloc(size_t size)
{
    return is_refused() ? 0 : __libc_malloc(size);
}

void *calloc(size_t count, size_t size)
{
    return is_refused() ? 0 : __libc_calloc(count, size);
}

void *realloc(void *old, size_t size)
{
    return is_refused() ? 0 : __libc_realloc(old, size);
}

void *aligned_alloc(size_t alignment, size_t size)
{
    return is_refused() ? 0 : __libc_memalign(alignment, size);
}

void *memalign(size_t alignment, size_t size)
{
    return is_refused() ? 0 : __libc_memalign(alignment, size);
}

int posix_memalign(void **place, size_t alignment, size_t size)
{
    if (is_refused())
        return NO_MEMORY;
    *place = __libc_memalign(alignment, size);
    return *place ? 0 : NO_MEMORY;
}

/* A read or a write, perhaps with a fault. */
static ssize_t transfer(long call, int descriptor, void *bytes, size_t count)
{
    if (!is_counting || descriptor < 0 || descriptor >= DESCRIPTORS || count == 0)
        return syscall(call, (long)descriptor, bytes, count);
    struct faults *faults = &of_descriptor[descriptor];
    faults->count++;
    if (faults->count == faults->failed || faults->count == faults->interrupted) {
        report(faults->count == faults->failed ? 'f' : 'i');
        *__errno_location() = faults->count == faults->failed ? failed_with : INTERRUPTED;
        return -1;
    }
    if (faults->one_byte == -1 || faults->count == faults->one_byte) {
        report('s');
        count = 1;
    }
    if (call == READ)
        report('r');
    return syscall(call, (long)descriptor, bytes, count);
}

ssize_t read(int descriptor, void *bytes, size_t count)
{
    return transfer(READ, descriptor, bytes, count);
}

ssize_t write(int descriptor, const void *bytes, size_t count)
{
    return transfer(WRITE, descriptor, (void *)bytes, count);
}

ssize_t __write(int descriptor, const void *bytes, size_t count)
{
    return transfer(WRITE, descriptor, (void *)bytes, count);
}
