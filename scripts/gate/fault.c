/* A library that stands between a program and the C library (LD_PRELOAD). It makes one call fail, as its environment says:

       FAULT=alloc:N    the Nth allocation, counted over malloc and realloc
       FAULT=read:N     the Nth read of standard input, with the error number FAULT_ERROR
       FAULT=write:N    the Nth write of standard output, likewise; with the number 0 it takes no byte
       FAULT=thread:N   the Nth start of a thread
       FAULT_BYTES=K    each such read and write moves at most K bytes

   When it has made a call fail, it writes one byte to the descriptor FAULT_TOLD: `b` before the first read of standard
   input, `a` after it. It includes no header, so that any C compiler for x86-64 Linux builds it, the kit's too. */

typedef unsigned long size_t;
typedef long ssize_t;

extern char *getenv(const char *name);
extern long strtol(const char *text, char **end, int base);
extern int *__errno_location(void);
extern long syscall(long number, ...);
extern void *__libc_malloc(size_t size);
extern void *__libc_realloc(void *block, size_t size);
extern void *dlsym(void *library, const char *name);

enum { SYSTEM_READ = 0, SYSTEM_WRITE = 1, TRY_AGAIN = 11, NO_MEMORY = 12 };

/* The libraries that come after this one. */
#define NEXT_LIBRARIES ((void *)-1l)

static long allocations, reads, writes, threads;

/* The number that the environment has under this name, or -1. */
static long number(const char *name) {
    const char *text = getenv(name);
    return text ? strtol(text, 0, 10) : -1;
}

/* Counts a call of the kind that FAULT names by this first letter, and tells whether it has to fail. */
static int fails(char kind, long *calls) {
    long call = __atomic_add_fetch(calls, 1, __ATOMIC_SEQ_CST);
    const char *fault = getenv("FAULT");
    if (!fault || *fault != kind)
        return 0;
    while (*fault && *fault++ != ':')
        ;
    if (strtol(fault, 0, 10) != call)
        return 0;
    syscall(SYSTEM_WRITE, number("FAULT_TOLD"), reads ? "a" : "b", 1ul);
    return 1;
}

/* A read or a write that fails if this is the call to fail, and else moves at most FAULT_BYTES bytes. */
static ssize_t moved(long system_call, char kind, long *calls, void *bytes, size_t count) {
    if (fails(kind, calls)) {
        long error = number("FAULT_ERROR");
        *__errno_location() = (int)error;
        return error ? -1 : 0;
    }
    long most = number("FAULT_BYTES");
    return syscall(system_call, system_call, bytes, most >= 0 && (size_t)most < count ? (size_t)most : count);
}

void *malloc(size_t size) {
    if (!fails('a', &allocations))
        return __libc_malloc(size);
    *__errno_location() = NO_MEMORY;
    return 0;
}

void *realloc(void *block, size_t size) {
    if (!fails('a', &allocations))
        return __libc_realloc(block, size);
    *__errno_location() = NO_MEMORY;
    return 0;
}

ssize_t read(int file, void *bytes, size_t count) {
    return file ? syscall(SYSTEM_READ, file, bytes, count) : moved(SYSTEM_READ, 'r', &reads, bytes, count);
}

ssize_t write(int file, const void *bytes, size_t count) {
    if (file != 1)
        return syscall(SYSTEM_WRITE, file, bytes, count);
    return moved(SYSTEM_WRITE, 'w', &writes, (void *)bytes, count);
}

ssize_t __write(int file, const void *bytes, size_t count) {
    return write(file, bytes, count);
}

int pthread_create(void *thread, const void *attributes, void *(*run)(void *), void *argument) {
    if (fails('t', &threads))
        return TRY_AGAIN;
    int (*create)(void *, const void *, void *(*)(void *), void *) = dlsym(NEXT_LIBRARIES, "pthread_create");
    return create(thread, attributes, run, argument);
}
