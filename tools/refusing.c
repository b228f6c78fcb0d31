/* Refuses the program that it is loaded into one growth of its memory, or one call of its input or its output.

   A growth is a call of malloc or realloc that asks for bytes; growths are numbered from 1, and the one whose number the
   variable REFUSED names gets none. A program may try once more at once, for the same block and no more bytes: with
   TRIES=2 that gets none either. Calls of read from standard input, and of write to standard output, are numbered from 1
   too; those whose numbers FAILED_READ and FAILED_WRITE name answer an error. Of a program with threads each growth has a
   number of its own, but another thread's may be taken for the one that is tried once more.

   The file that TALLY names has five numbers of 8 bytes: how many growths were asked for, how many were refused, how many
   were asked for behind these, and how many calls read and wrote. */
#define _GNU_SOURCE
#include <dlfcn.h>
#include <errno.h>
#include <fcntl.h>
#include <stdint.h>
#include <stdlib.h>
#include <sys/mman.h>
#include <unistd.h>

struct tally {
    uint64_t asked, refused, later, reads, writes;
};

static struct tally nowhere;
static struct tally *tally = &nowhere;
static uint64_t number, tries = 1, failed_read, failed_write;
static void *block;
static size_t most;

static uint64_t number_in(const char *name, uint64_t otherwise) {
    const char *text = getenv(name);
    return text ? strtoull(text, NULL, 10) : otherwise;
}

__attribute__((constructor)) static void begin(void) {
    const char *path = getenv("TALLY");
    int file = path ? open(path, O_RDWR) : -1;
    if (file < 0) return;
    void *shared = mmap(NULL, sizeof *tally, PROT_READ | PROT_WRITE, MAP_SHARED, file, 0);
    close(file);
    if (shared == MAP_FAILED) return;
    number = number_in("REFUSED", 0);
    tries = number_in("TRIES", 1);
    failed_read = number_in("FAILED_READ", 0);
    failed_write = number_in("FAILED_WRITE", 0);
    tally = shared;
}

/* Counts a growth, and tells whether it is to be refused. */
static int is_refused(void *held, size_t size) {
    int is_again = tally->refused && tally->refused < tries && !tally->later && held == block && size <= most;
    if (__atomic_add_fetch(&tally->asked, 1, __ATOMIC_SEQ_CST) != number && !is_again) {
        if (tally->refused) tally->later++;
        return 0;
    }
    block = held;
    most = size;
    tally->refused++;
    return 1;
}

void *malloc(size_t size) {
    static void *(*next)(size_t);
    if (!next) next = (void *(*)(size_t))dlsym(RTLD_NEXT, "malloc");
    return size && is_refused(NULL, size) ? NULL : next(size);
}

void *realloc(void *held, size_t size) {
    static void *(*next)(void *, size_t);
    if (!next) next = (void *(*)(void *, size_t))dlsym(RTLD_NEXT, "realloc");
    return size && is_refused(held, size) ? NULL : next(held, size);
}

ssize_t read(int file, void *room, size_t size) {
    static ssize_t (*next)(int, void *, size_t);
    if (!next) next = (ssize_t(*)(int, void *, size_t))dlsym(RTLD_NEXT, "read");
    if (file != STDIN_FILENO || ++tally->reads != failed_read) return next(file, room, size);
    errno = EIO;
    return -1;
}

ssize_t write(int file, const void *bytes, size_t size) {
    static ssize_t (*next)(int, const void *, size_t);
    if (!next) next = (ssize_t(*)(int, const void *, size_t))dlsym(RTLD_NEXT, "write");
    if (file != STDOUT_FILENO || ++tally->writes != failed_write) return next(file, bytes, size);
    errno = EIO;
    return -1;
}
