/* An allocator that refuses. Loaded before a program (LD_PRELOAD), it numbers the program's
   allocations from 1.

     REFUSE=N    refuses the N-th
     REFUSED=F   makes the file F as it does
     REPORT=F    writes into the file F how many there were as the program ends
     FORKS=D     at each allocation the process forks. The child's is refused, and the child goes on
                 to its end: its output is D/N.out, and D/N.at says how many bytes of output there
                 were before, D/N.err is its standard error, and D/N.end its exit status, or the
                 signal that killed it below 0. The parent waits for it, and is refused nothing.
     FIRST=N     it forks from the N-th on, and not before
     EVERY=N     and then at every N-th alone

   Standard input and output of a program that forks have to be files: a child reads on from where
   its parent is. */
#define _GNU_SOURCE
#include <dlfcn.h>
#include <errno.h>
#include <fcntl.h>
#include <stdio.h>
#include <stdlib.h>
#include <sys/wait.h>
#include <unistd.h>

enum { SECONDS = 60, LONGEST = 4096 };

static long count, wanted, first, every;
static const char *forks;
static int begun, is_busy, is_child;

static long number_in(const char *name, long otherwise) {
    const char *number = getenv(name);
    return number ? atol(number) : otherwise;
}

static void begin(void) {
    wanted = number_in("REFUSE", 0);
    first = number_in("FIRST", 1);
    every = number_in("EVERY", 1);
    forks = getenv("FORKS");
    begun = 1;
}

static int open_for(const char *suffix) {
    char path[LONGEST];
    snprintf(path, sizeof path, "%s/%ld.%s", forks, count, suffix);
    return open(path, O_CREAT | O_TRUNC | O_RDWR, 0600);
}

static void note(const char *suffix, long number) {
    int file = open_for(suffix);
    if (file < 0) return;
    dprintf(file, "%ld\n", number);
    close(file);
}

static void redirect(int from, const char *suffix) {
    int file = open_for(suffix);
    dup2(file, from);
    close(file);
}

/* The child's own input and output: the parent goes on with its own as they are. */
static void part(void) {
    off_t given = lseek(0, 0, SEEK_CUR), written = lseek(1, 0, SEEK_CUR);
    int input = open("/proc/self/fd/0", O_RDONLY);
    lseek(input, given, SEEK_SET);
    dup2(input, 0);
    close(input);
    note("at", written);
    redirect(1, "out");
    redirect(2, "err");
}

/* Whether this is the child. */
static int fork_here(void) {
    is_busy = 1;
    pid_t child = fork();
    if (child == 0) {
        is_child = 1;
        alarm(SECONDS);
        part();
        is_busy = 0;
        return 1;
    }
    int status = 0;
    while (waitpid(child, &status, 0) < 0 && errno == EINTR) {}
    note("end", WIFEXITED(status) ? WEXITSTATUS(status) : -WTERMSIG(status));
    is_busy = 0;
    return 0;
}

static int refuses(void) {
    if (!begun) begin();
    if (is_busy) return 0;
    count++;
    if (forks) {
        int is_next = count >= first && (count - first) % every == 0;
        return is_next && !is_child && fork_here();
    }
    if (count != wanted) return 0;
    const char *path = getenv("REFUSED");
    int file = path ? open(path, O_CREAT | O_WRONLY, 0600) : -1;
    if (file >= 0) close(file);
    return 1;
}

void *malloc(size_t size) {
    static void *(*real)(size_t);
    if (!real) real = (void *(*)(size_t))dlsym(RTLD_NEXT, "malloc");
    if (!refuses()) return real(size);
    errno = ENOMEM;
    return NULL;
}

void *realloc(void *block, size_t size) {
    static void *(*real)(void *, size_t);
    if (!real) real = (void *(*)(void *, size_t))dlsym(RTLD_NEXT, "realloc");
    if (!refuses()) return real(block, size);
    errno = ENOMEM;
    return NULL;
}

void *aligned_alloc(size_t alignment, size_t size) {
    static void *(*real)(size_t, size_t);
    if (!real) real = (void *(*)(size_t, size_t))dlsym(RTLD_NEXT, "aligned_alloc");
    if (!refuses()) return real(alignment, size);
    errno = ENOMEM;
    return NULL;
}

int posix_memalign(void **block, size_t alignment, size_t size) {
    static int (*real)(void **, size_t, size_t);
    if (!real) real = (int (*)(void **, size_t, size_t))dlsym(RTLD_NEXT, "posix_memalign");
    return refuses() ? ENOMEM : real(block, alignment, size);
}

__attribute__((destructor)) static void end(void) {
    const char *path = getenv("REPORT");
    int file = path && !is_child ? open(path, O_CREAT | O_TRUNC | O_WRONLY, 0600) : -1;
    if (file < 0) return;
    dprintf(file, "%ld\n", count);
    close(file);
}
