/* Is loaded before the C library's allocator (LD_PRELOAD), and refuses one call of a program, or
 * each in turn.
 *
 * REFUSE_COUNT=file              the calls are counted in the file's first eight bytes, as they
 * come REFUSE_AT=n                    the nth call is refused, and no other REFUSE_STEP=m
 * REFUSE_TALK=fd   the first call is refused, and each mth after it; after the first read
 * REFUSE_INPUT=m                 of the input each multiple of this other m. Each is refused in a
 * run of its own: there the program is split, and a child goes on REFUSE_FOLDER=folder           in
 * that folder, which has copies of all files of the folder that the program runs in. Those that are
 * open (input, output, a store) are open again as they were. How it ends is told on fd as "n
 * status". Once a byte comes back the program itself goes on, as if nothing had been refused. */
#define _GNU_SOURCE
#include <dirent.h>
#include <errno.h>
#include <fcntl.h>
#include <limits.h>
#include <stdio.h>
#include <stdlib.h>
#include <string.h>
#include <sys/mman.h>
#include <sys/stat.h>
#include <sys/syscall.h>
#include <sys/wait.h>
#include <unistd.h>

enum { SECONDS = 30, MOST_FILES = 64, CANNOT_SPLIT = 99, KILLED = 128 };

extern void *__libc_malloc(size_t);
extern void *__libc_calloc(size_t, size_t);
extern void *__libc_realloc(void *, size_t);
extern void *__libc_memalign(size_t, size_t);

static long uncounted, *calls = &uncounted, at, step, later_step;
static const char *there;
static char here[PATH_MAX];
static int talk, is_child;

static void cannot(const char *what) {
    perror(what);
    _exit(CANNOT_SPLIT);
}

static long number_of(const char *name, long none) {
    const char *text = getenv(name);
    return text ? atol(text) : none;
}

/* The path of a name in a folder. */
static void join(char path[PATH_MAX], const char *in, const char *name) {
    if (snprintf(path, PATH_MAX, "%s/%s", in, name) >= PATH_MAX) cannot(name);
}

__attribute__((constructor)) static void begin(void) {
    const char *count = getenv("REFUSE_COUNT");
    int file;
    if (!count) return;
    at = number_of("REFUSE_AT", 0);
    step = number_of("REFUSE_STEP", 0);
    later_step = number_of("REFUSE_INPUT", step);
    talk = (int)number_of("REFUSE_TALK", -1);
    there = getenv("REFUSE_FOLDER");
    file = open(count, O_RDWR | O_CREAT | O_CLOEXEC, 0644);
    if (file < 0 || ftruncate(file, sizeof *calls) != 0) cannot(count);
    calls = mmap(NULL, sizeof *calls, PROT_READ | PROT_WRITE, MAP_SHARED, file, 0);
    if (calls == MAP_FAILED || !getcwd(here, sizeof here)) cannot(count);
    close(file);
    *calls = 0;
}

static void copy(const char *from, const char *to) {
    char bytes[65536];
    ssize_t size;
    int in = open(from, O_RDONLY), out = open(to, O_WRONLY | O_CREAT | O_EXCL, 0644);
    if (in < 0 || out < 0) cannot(from);
    while ((size = read(in, bytes, sizeof bytes)) > 0)
        if (write(out, bytes, (size_t)size) != size) cannot(to);
    if (size < 0) cannot(from);
    close(in);
    close(out);
}

/* Copies each file of the folder that the program runs in. */
static void copy_files(void) {
    char from[PATH_MAX], to[PATH_MAX];
    struct dirent *entry;
    DIR *files = opendir(here);
    if (!files) cannot(here);
    while ((entry = readdir(files)))
        if (entry->d_type == DT_REG) {
            join(from, here, entry->d_name);
            join(to, there, entry->d_name);
            copy(from, to);
        }
    closedir(files);
}

/* Opens what is open of these files once more, in the new folder, at the same place and under the
 * same number. */
static void open_again(int number) {
    char link[PATH_MAX], path[PATH_MAX];
    size_t size = strlen(here);
    ssize_t length;
    off_t place;
    int file;
    snprintf(link, sizeof link, "/proc/self/fd/%d", number);
    length = readlink(link, path, sizeof path - 1);
    if (length < (ssize_t)size + 1 || strncmp(path, here, size) != 0 || path[size] != '/') return;
    path[length] = 0;
    join(link, there, path + size + 1);
    file = open(link, fcntl(number, F_GETFL) & (O_ACCMODE | O_APPEND));
    place = lseek(number, 0, SEEK_CUR);
    if (file < 0 || place < 0 || lseek(file, place, SEEK_SET) != place ||
        dup2(file, number) != number)
        cannot(link);
    close(file);
}

/* The child's part: from here on it runs in a folder of its own. */
static void settle(void) {
    int number;
    if (mkdir(there, 0755) != 0) cannot(there);
    copy_files();
    for (number = 0; number < MOST_FILES; number++) open_again(number);
    if (chdir(there) != 0) cannot(there);
    alarm(SECONDS);
}

/* Splits the program: whether this is the child. */
static int split(long n) {
    char line[64];
    int status = 0, size;
    pid_t child = fork();
    if (child < 0) cannot("fork");
    if (child == 0) {
        is_child = 1;
        settle();
        return 1;
    }
    if (waitpid(child, &status, 0) != child) cannot("waitpid");
    size = snprintf(line, sizeof line, "%ld %d\n", n,
                    WIFEXITED(status) ? WEXITSTATUS(status) : KILLED + WTERMSIG(status));
    if (write(talk, line, (size_t)size) != size || read(talk, line, 1) != 1) cannot("REFUSE_TALK");
    return 0;
}

/* A read, as it is; the first of the input is noted. */
ssize_t read(int number, void *bytes, size_t size) {
    if (number == 0) step = later_step;
    return syscall(SYS_read, number, bytes, size);
}

/* Whether this call is refused. */
static int is_refused(void) {
    int before = errno, refused;
    if (is_child) return 0;
    *calls += 1;
    refused = *calls == at || (step > 0 && (*calls - 1) % step == 0 && split(*calls));
    errno = refused ? ENOMEM : before;
    return refused;
}

void *malloc(size_t size) { return is_refused() ? NULL : __libc_malloc(size); }
void *calloc(size_t count, size_t size) { return is_refused() ? NULL : __libc_calloc(count, size); }
void *realloc(void *block, size_t size) {
    return is_refused() ? NULL : __libc_realloc(block, size);
}
void *memalign(size_t align, size_t size) {
    return is_refused() ? NULL : __libc_memalign(align, size);
}
void *aligned_alloc(size_t align, size_t size) {
    return is_refused() ? NULL : __libc_memalign(align, size);
}

int posix_memalign(void **block, size_t align, size_t size) {
    void *found = is_refused() ? NULL : __libc_memalign(align, size);
    if (!found) return ENOMEM;
    *block = found;
    return 0;
}
