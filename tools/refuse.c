/* Loaded before a program (LD_PRELOAD), refuses one of its requests: of memory, of reading, or of writing.
   REFUSE=KIND:N, KIND being memory, read or write, and N counted from 0. At the end it adds a line to the file COUNTS:
   how many requests of this kind came. */
#include <errno.h>
#include <stdio.h>
#include <stdlib.h>
#include <string.h>
#include <sys/syscall.h>
#include <unistd.h>

extern void *__libc_malloc(size_t size);
extern void *__libc_realloc(void *old, size_t size);

static long counts[3];
static int kind = -1;
static long number = -1;

static void begin(void) {
    static int begun;
    if (begun) return;
    begun = 1;
    const char *words = getenv("REFUSE");
    if (!words) return;
    const char *names[] = {"memory:", "read:", "write:"};
    for (int i = 0; i < 3; i++)
        if (!strncmp(words, names[i], strlen(names[i]))) {
            kind = i;
            number = atol(words + strlen(names[i]));
        }
}

static int is_refused(int what) {
    begin();
    return counts[what]++ == number && kind == what;
}

void *malloc(size_t size) {
    if (is_refused(0)) { errno = ENOMEM; return NULL; }
    return __libc_malloc(size);
}

void *realloc(void *old, size_t size) {
    if (is_refused(0)) { errno = ENOMEM; return NULL; }
    return __libc_realloc(old, size);
}

ssize_t read(int file, void *bytes, size_t most) {
    if (is_refused(1)) { errno = EIO; return -1; }
    return syscall(SYS_read, file, bytes, most);
}

ssize_t pread64(int file, void *bytes, size_t most, off_t place) {
    if (is_refused(1)) { errno = EIO; return -1; }
    return syscall(SYS_pread64, file, bytes, most, place);
}

ssize_t pread(int file, void *bytes, size_t most, off_t place) { return pread64(file, bytes, most, place); }

ssize_t write(int file, const void *bytes, size_t count) {
    if (file == 1 && is_refused(2)) { errno = EIO; return -1; }
    return syscall(SYS_write, file, bytes, count);
}

__attribute__((destructor)) static void end(void) {
    const char *name = getenv("COUNTS");
    char text[32];
    FILE *file;
    if (!name || kind < 0 || !(file = fopen(name, "w"))) return;
    fprintf(file, "%ld\n", counts[kind]);
    fclose(file);
}

/* A program that may start threads ends at once, with no destructors. */
void _exit(int status) {
    end();
    syscall(SYS_exit_group, status);
    __builtin_unreachable();
}
