/* Lets one call of a process fail: the one whose number stands in FAIL_AT, among the calls of the kind in FAIL_KIND. When it has failed, the file in
   FAIL_TOLD is there. bench/failing builds this and loads it before the C library. */
#define _GNU_SOURCE
#include <dlfcn.h>
#include <errno.h>
#include <fcntl.h>
#include <pthread.h>
#include <stdarg.h>
#include <stdatomic.h>
#include <stdlib.h>
#include <string.h>
#include <sys/syscall.h>
#include <sys/types.h>
#include <unistd.h>

void *__libc_malloc(size_t);
void *__libc_calloc(size_t, size_t);
void *__libc_realloc(void *, size_t);
void *__libc_memalign(size_t, size_t);

static atomic_long calls;
static const char *kind;
static long at;
static int all_after;

__attribute__((constructor)) static void begin(void)
{
    const char *number = getenv("FAIL_AT");
    all_after = getenv("FAIL_ALL") != NULL;
    at = number ? atol(number) : 0;
    kind = getenv("FAIL_KIND");
}

static void tell(void)
{
    const char *told = getenv("FAIL_TOLD");
    long file = told ? syscall(SYS_open, told, O_CREAT | O_WRONLY, 0600) : -1;
    if (file >= 0)
        syscall(SYS_close, file);
}

/* Whether this call of a kind is the one that fails, or one behind it where all of these do. */
static int fails(const char *of_kind)
{
    if (!kind || strcmp(kind, of_kind) != 0)
        return 0;
    long number = atomic_fetch_add(&calls, 1) + 1;
    if (number == at)
        tell();
    return number == at || (all_after && number > at);
}

static void *no_memory(void)
{
    errno = ENOMEM;
    return NULL;
}

void *malloc(size_t size)
{
    return fails("memory") ? no_memory() : __libc_malloc(size);
}

void *calloc(size_t count, size_t size)
{
    return fails("memory") ? no_memory() : __libc_calloc(count, size);
}

void *realloc(void *old, size_t size)
{
    return fails("memory") ? no_memory() : __libc_realloc(old, size);
}

void *aligned_alloc(size_t alignment, size_t size)
{
    return fails("memory") ? no_memory() : __libc_memalign(alignment, size);
}

void *memalign(size_t alignment, size_t size)
{
    return fails("memory") ? no_memory() : __libc_memalign(alignment, size);
}

int posix_memalign(void **place, size_t alignment, size_t size)
{
    if (fails("memory"))
        return ENOMEM;
    *place = __libc_memalign(alignment, size);
    return *place ? 0 : ENOMEM;
}

static ssize_t failed(void)
{
    errno = EIO;
    return -1;
}

ssize_t read(int file, void *bytes, size_t count)
{
    if (fails("read"))
        return failed();
    if (fails("interrupted read")) {
        errno = EINTR;
        return -1;
    }
    return syscall(SYS_read, file, bytes, count > 1 && fails("short read") ? 1 : count);
}

static ssize_t written(int file, const void *bytes, size_t count)
{
    if (fails("write"))
        return failed();
    if (fails("interrupted write")) {
        errno = EINTR;
        return -1;
    }
    if (fails("empty write"))
        return 0;
    return syscall(SYS_write, file, bytes, count > 1 && fails("short write") ? 1 : count);
}

ssize_t write(int file, const void *bytes, size_t count)
{
    return written(file, bytes, count);
}

ssize_t __write(int file, const void *bytes, size_t count)
{
    return written(file, bytes, count);
}

static int opened(int folder, const char *path, int flags, mode_t mode)
{
    return fails("open") ? (int)failed() : (int)syscall(SYS_openat, folder, path, flags, mode);
}

#define MODE_BEHIND(last)                                     \
    va_list more;                                             \
    va_start(more, last);                                     \
    mode_t mode = flags & O_CREAT ? va_arg(more, mode_t) : 0; \
    va_end(more)

int open(const char *path, int flags, ...)
{
    MODE_BEHIND(flags);
    return opened(AT_FDCWD, path, flags, mode);
}

int open64(const char *path, int flags, ...)
{
    MODE_BEHIND(flags);
    return opened(AT_FDCWD, path, flags, mode);
}

int openat(int folder, const char *path, int flags, ...)
{
    MODE_BEHIND(flags);
    return opened(folder, path, flags, mode);
}

int openat64(int folder, const char *path, int flags, ...)
{
    MODE_BEHIND(flags);
    return opened(folder, path, flags, mode);
}

int pthread_create(pthread_t *thread, const pthread_attr_t *settings, void *(*call)(void *), void *given)
{
    int (*create)(pthread_t *, const pthread_attr_t *, void *(*)(void *), void *);
    if (fails("thread"))
        return EAGAIN;
    *(void **)&create = dlsym(RTLD_NEXT, "pthread_create");
    return create(thread, settings, call, given);
}
