/* A library that makes calls of the C library fail, in a program that is run with it in LD_PRELOAD.
 *
 * It counts the program's calls of each kind, and acts on some of them, as environment variables say:
 *
 *   FAULT_CALL     growth (malloc, calloc, realloc), read, write, open, fstat or statx
 *   FAULT_AT       the number of the first call that it acts on, counted from 1; 0: on none
 *   FAULT_TIMES    how many calls it acts on, one after another; 0: all from there on
 *   FAULT_HOW      the name of an errno, as EIO: the call fails with it and does nothing else;
 *                  byte: the call is made for one byte at most; run: FAULT_COMMAND is run, then the call is made
 *   FAULT_COMMAND  a command of sh
 *   FAULT_PAGE     a file of 4096 bytes in which it keeps `struct page`, whose bytes are there however the program ends
 *
 * Without FAULT_CALL it only counts. A program can steer it from within too, by asking for sizes that no heap gives:
 * 2^62 + k bytes are refused, and so is the k-th growth from then on (k = 0: none); 2^61 + c bytes are given exactly if
 * at least c growths were asked for since. What is called before main, by the loader, isn't counted.
 */
#define _GNU_SOURCE
#include <dlfcn.h>
#include <errno.h>
#include <fcntl.h>
#include <stdarg.h>
#include <stdint.h>
#include <stdio.h>
#include <stdlib.h>
#include <string.h>
#include <sys/mman.h>
#include <sys/stat.h>
#include <unistd.h>

enum kind { GROWTH, READ, WRITE, OPEN, FSTAT, STATX, KINDS };
enum how { PASS, FAIL, BYTE };

struct page {
    uint64_t counts[KINDS];  /* the calls so far, in the order of `enum kind` */
    uint64_t acted;          /* on how many of them it acted */
    int64_t descriptor;      /* that of the first of these, or -1 */
    int64_t offset;          /* how far its file was read or written, or -1 */
    char path[3072];         /* the file's path: as it was to be opened, else as the system has it */
};

static const char *const KIND_NAMES[KINDS] = {"growth", "read", "write", "open", "fstat", "statx"};
static const struct {
    const char *name;
    int number;
} ERRORS[] = {
    {"EIO", EIO},       {"EINTR", EINTR},   {"ENOSPC", ENOSPC}, {"EPIPE", EPIPE},   {"EAGAIN", EAGAIN},
    {"ENOMEM", ENOMEM}, {"EMFILE", EMFILE}, {"EACCES", EACCES}, {"EDQUOT", EDQUOT}, {"ESTALE", ESTALE},
};

static struct page own, *page = &own;
static int is_ready, is_busy;
static int wanted = -1, error_number, is_byte, is_run;
static uint64_t first, times;
static uint64_t armed_at, armed_from;
static const char *command;

static ssize_t (*real_read)(int, void *, size_t);
static ssize_t (*real_write)(int, const void *, size_t);
static int (*real_openat)(int, const char *, int, ...);
static int (*real_fstat)(int, struct stat *);
static int (*real_statx)(int, const char *, int, unsigned, struct statx *);
extern void *__libc_malloc(size_t), *__libc_calloc(size_t, size_t), *__libc_realloc(void *, size_t);

static void misuse(const char *name, const char *value) {
    fprintf(stderr, "faults.c: %s=%s\n", name, value ? value : "");
    _exit(125);
}

static uint64_t number_in(const char *name, uint64_t otherwise) {
    const char *text = getenv(name);
    return text ? strtoull(text, NULL, 10) : otherwise;
}

static void read_how(void) {
    const char *how = getenv("FAULT_HOW");
    for (size_t i = 0; how && i < sizeof ERRORS / sizeof *ERRORS; i++)
        if (!strcmp(how, ERRORS[i].name)) error_number = ERRORS[i].number;
    is_byte = how && !strcmp(how, "byte");
    is_run = how && !strcmp(how, "run");
    command = getenv("FAULT_COMMAND");
    if (!error_number && !is_byte && !(is_run && command)) misuse("FAULT_HOW", how);
}

static void map_page(const char *path) {
    int file = (int)real_openat(AT_FDCWD, path, O_RDWR | O_CLOEXEC);
    void *at = file < 0 ? MAP_FAILED : mmap(NULL, 4096, PROT_READ | PROT_WRITE, MAP_SHARED, file, 0);
    if (at == MAP_FAILED) misuse("FAULT_PAGE", path);
    close(file);
    memset(at, 0, 4096);
    page = at;
}

__attribute__((constructor)) static void begin(void) {
    real_read = (ssize_t(*)(int, void *, size_t))dlsym(RTLD_NEXT, "read");
    real_write = (ssize_t(*)(int, const void *, size_t))dlsym(RTLD_NEXT, "write");
    real_openat = (int (*)(int, const char *, int, ...))dlsym(RTLD_NEXT, "openat");
    real_fstat = (int (*)(int, struct stat *))dlsym(RTLD_NEXT, "fstat");
    real_statx = (int (*)(int, const char *, int, unsigned, struct statx *))dlsym(RTLD_NEXT, "statx");
    const char *call = getenv("FAULT_CALL");
    for (int i = 0; call && i < KINDS; i++)
        if (!strcmp(call, KIND_NAMES[i])) wanted = i;
    if (call && wanted < 0) misuse("FAULT_CALL", call);
    if (call) read_how();
    first = number_in("FAULT_AT", 0);
    times = number_in("FAULT_TIMES", 1);
    if (getenv("FAULT_PAGE")) map_page(getenv("FAULT_PAGE"));
    /* What FAULT_COMMAND starts runs without this library. */
    unsetenv("LD_PRELOAD");
    is_ready = 1;
}

static void run_command(void) {
    is_busy = 1;
    if (system(command)) misuse("FAULT_COMMAND", command);
    is_busy = 0;
}

/* Keeps what the call is about: a path, or the file that the descriptor is open on. */
static void note(int descriptor, const char *path) {
    char link[64];
    page->descriptor = descriptor;
    page->offset = descriptor < 0 ? -1 : lseek(descriptor, 0, SEEK_CUR);
    if (path) {
        strncpy(page->path, path, sizeof page->path - 1);
    } else if (descriptor >= 0) {
        snprintf(link, sizeof link, "/proc/self/fd/%d", descriptor);
        if (readlink(link, page->path, sizeof page->path - 1) < 0) page->path[0] = 0;
    }
}

/* Counts a call, and returns what is to be done with it. */
static enum how count(enum kind kind, int descriptor, const char *path) {
    if (!is_ready || is_busy) return PASS;
    uint64_t number = ++page->counts[kind];
    if (kind == GROWTH && armed_at && number == armed_at) {
        page->acted++;
        errno = ENOMEM;
        return FAIL;
    }
    if ((int)kind != wanted || !first || number < first || (times && number - first >= times)) return PASS;
    if (!page->acted++) note(descriptor, path);
    if (is_run) run_command();
    if (is_run) return PASS;
    errno = error_number;
    return is_byte ? BYTE : FAIL;
}

/* Whether the size steers this library. `given` is set to whether it is given. */
static int steers(size_t size, int *given) {
    const size_t arms = (size_t)1 << 62, asks = (size_t)1 << 61;
    if (size < asks || size >= arms + asks) return 0;
    *given = size < arms && page->counts[GROWTH] - armed_from >= size - asks;
    if (size >= arms) {
        armed_from = page->counts[GROWTH];
        armed_at = size > arms ? armed_from + (size - arms) : 0;
        errno = ENOMEM;
    }
    return 1;
}

void *malloc(size_t size) {
    int given;
    if (steers(size, &given)) return given ? __libc_malloc(1) : NULL;
    return count(GROWTH, -1, NULL) == FAIL ? NULL : __libc_malloc(size);
}

void *calloc(size_t number, size_t size) {
    return count(GROWTH, -1, NULL) == FAIL ? NULL : __libc_calloc(number, size);
}

void *realloc(void *old, size_t size) {
    return count(GROWTH, -1, NULL) == FAIL ? NULL : __libc_realloc(old, size);
}

ssize_t read(int file, void *buffer, size_t size) {
    enum how how = count(READ, file, NULL);
    if (how == FAIL) return -1;
    return real_read(file, buffer, how == BYTE && size > 1 ? 1 : size);
}

ssize_t write(int file, const void *buffer, size_t size) {
    enum how how = count(WRITE, file, NULL);
    if (how == FAIL) return -1;
    return real_write(file, buffer, how == BYTE && size > 1 ? 1 : size);
}

static int open_at(int folder, const char *path, int flags, va_list rest) {
    mode_t mode = flags & (O_CREAT | O_TMPFILE) ? va_arg(rest, mode_t) : 0;
    if (count(OPEN, -1, path) == FAIL) return -1;
    return real_openat(folder, path, flags, mode);
}

#define OPENS(name, folder, parameters)           \
    int name parameters {                         \
        va_list rest;                             \
        va_start(rest, flags);                    \
        int file = open_at(folder, path, flags, rest); \
        va_end(rest);                             \
        return file;                              \
    }

OPENS(open, AT_FDCWD, (const char *path, int flags, ...))
OPENS(open64, AT_FDCWD, (const char *path, int flags, ...))
OPENS(openat, folder, (int folder, const char *path, int flags, ...))
OPENS(openat64, folder, (int folder, const char *path, int flags, ...))

int fstat(int file, struct stat *about) {
    return count(FSTAT, file, NULL) == FAIL ? -1 : real_fstat(file, about);
}

int fstat64(int file, struct stat64 *about) {
    return fstat(file, (struct stat *)about);
}

int statx(int folder, const char *path, int flags, unsigned asked, struct statx *about) {
    return count(STATX, -1, path) == FAIL ? -1 : real_statx(folder, path, flags, asked, about);
}
