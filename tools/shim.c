// Preloaded into a program by tools/shim.py: refuses its requests for memory, and fails, interrupts or shortens its reads and writes.
//
// Each one is tried in a process of its own, which begins there: the program forks, the child is refused and goes on to its end, and
// the program itself goes on unrefused to the next one. So one run tries them all. It starts no threads then: each that the program
// asks for is denied, and the program has to do without.
//
//     SHIM_PROGRAM   the path of the program; in any other this does nothing
//     SHIM_TRIES     calls     each request that a call under test makes (see below)
//                    always    not one, but all of those requests, and no process forks
//                    memory    each request of the whole run
//                    devices   each read and write of the whole run, but for writes to standard error
//     SHIM_REPORT    a file to which each child writes how it ended (not for calls and always)
//     SHIM_OWN       a folder that isn't there: each child makes it and has it in place of the one that the program began in, with
//                    the same files, so that what it writes, renames or removes is its own
//     SHIM_OUT       the file of which a child then tells what is in it
//     SHIM_STEP      tries each one of so many only (1)
//     SHIM_NUMBER    tries that one alone, and forks nothing, so that threads can start; the report is how many there were
//     SHIM_HOW       how a device goes wrong where nothing forks: failing, interrupted or short
//     SHIM_BYTES     each read and write moves one byte
//
// A call under test stands between two lines of standard output, `? NAME` and `.`: requests elsewhere aren't refused. A child ends
// with the first whole line behind that; a line `! NAME: request N ..` says where one died.
#define _GNU_SOURCE
#include <dirent.h>
#include <dlfcn.h>
#include <errno.h>
#include <fcntl.h>
#include <pthread.h>
#include <stdarg.h>
#include <stdint.h>
#include <stdio.h>
#include <stdlib.h>
#include <string.h>
#include <sys/mman.h>
#include <sys/stat.h>
#include <sys/syscall.h>
#include <sys/wait.h>
#include <ucontext.h>
#include <unistd.h>

enum { HANG = 60, FILES = 100, LINE = 200, PATH = 4096 };
enum tries { NOTHING, CALLS, ALWAYS, MEMORY, DEVICES };
enum how { REFUSED, FAILING, INTERRUPTED, SHORT };
static const char *const words[] = {"refused", "failing", "interrupted", "short"};

extern void *__libc_malloc(size_t), *__libc_calloc(size_t, size_t), *__libc_realloc(void *, size_t), *__libc_memalign(size_t, size_t);

static enum tries tries;
static enum how how;                          // what this child meets, or what is tried without a fork
static long step = 1, alone, number;          // which are tried, which one alone, and how many there were
static int is_busy, is_child, moves_bytes;
static int fails[2];                          // whether each further read, and each further write, fails
static int report = -1, kept[3] = {-1, -1, -1}; // the report; this child's standard output and error, and its OUT
static const char *out;                       // the name of OUT
static char home[PATH], own[PATH];            // the folder that the program began in, and the one that a child has in its place
static long before;                           // the bytes of standard output when this child began

// ---- folders

// The path's name in the folder that the program began in, or none.
static const char *name_in_home(const char *path) {
    size_t size = strlen(home);
    return size && strncmp(path, home, size) == 0 && path[size] == '/' ? path + size + 1 : NULL;
}

// Where that path is a child's.
static const char *here(const char *path) {
    const char *name = is_child && own[0] ? name_in_home(path) : NULL;
    return name ? name : path;
}

// Does this to each name in a folder; how many there are.
static long each_of(const char *folder, void (*does)(const char *)) {
    long names = 0;
    DIR *opened = opendir(folder);
    for (struct dirent *found; opened && (found = readdir(opened));) {
        if (found->d_name[0] == '.') continue;
        names++;
        if (does) does(found->d_name);
    }
    if (opened) closedir(opened);
    return names;
}

static const char *in(const char *folder, const char *name) {
    static char paths[2][2 * PATH];
    static int next;
    char *path = paths[next = !next];
    snprintf(path, sizeof paths[0], "%s/%s", folder, name);
    return path;
}

static void link_own(const char *name) { link(in(home, name), in(own, name)); }
static void unlink_own(const char *name) { syscall(SYS_unlink, in(own, name)); }

// ---- the end of a child

static long size_of(int file) {
    struct stat found;
    return file >= 0 && fstat(file, &found) == 0 ? (long)found.st_size : -1;
}

static void put(const void *bytes, size_t size) { syscall(SYS_write, report, bytes, size); }

static void put_head(int status) {
    char head[LINE];
    const char *kind = how == REFUSED ? "request" : fails[0] ? "read" : fails[1] ? "write" : "device";
    if (is_child && own[0]) kept[2] = syscall(SYS_open, out, O_RDONLY);
    put(head, snprintf(head, sizeof head, "%s %s %ld %d %ld %ld %ld %ld %ld\n", kind, words[how], number, status, before,
                       is_child && own[0] ? each_of(".", NULL) : 0, size_of(kept[0]), size_of(kept[1]), size_of(kept[2])));
}

static void put_file(int file) {
    long size = size_of(file);
    char *bytes = size > 0 ? mmap(NULL, size, PROT_READ, MAP_PRIVATE, file, 0) : MAP_FAILED;
    if (bytes != MAP_FAILED) put(bytes, size);
}

// Writes how the program ends: a child with all that it wrote.
static void tell(int status, void *nothing) {
    (void)nothing;
    if (is_busy || report < 0 || !(is_child || alone)) return;
    is_busy = 1;
    put_head(status);
    for (int i = 0; is_child && i < 3; i++) put_file(kept[i]);
}

void _exit(int status) {
    tell(status, NULL);
    syscall(SYS_exit_group, status);
    __builtin_unreachable();
}

// ---- a child's files

// The name of an open file.
static const char *path_of(int file) {
    static char path[40];
    snprintf(path, sizeof path, "/proc/self/fd/%d", file);
    return path;
}

// Puts a copy of the file, which is empty so far, in its place, with the same offset.
static void put_copy(int file, int copy) {
    int from = syscall(SYS_open, path_of(file), O_RDONLY);
    char block[4096];
    for (ssize_t size; (size = syscall(SYS_read, from, block, sizeof block)) > 0;) syscall(SYS_write, copy, block, size);
    syscall(SYS_close, from);
    lseek(copy, lseek(file, 0, SEEK_CUR), SEEK_SET);
    dup2(copy, file);
    syscall(SYS_close, copy);
}

// Writes on in memory; another descriptor of that.
static int own_stream(int file) {
    put_copy(file, memfd_create("copy", 0));
    return fcntl(file, F_DUPFD, FILES);
}

// Writes on in the child's own folder, if the file has a name there.
static void own_file(int file, int has_name) {
    char path[PATH];
    ssize_t size = readlink(path_of(file), path, sizeof path - 1);
    path[size < 0 ? 0 : size] = 0;
    const char *name = has_name ? name_in_home(path) : NULL;
    if (!name) {
        syscall(SYS_close, own_stream(file));
        return;
    }
    unlink_own(name);
    put_copy(file, syscall(SYS_open, in(own, name), O_RDWR | O_CREAT | O_EXCL, 0600));
}

// Reads the file on from the same place, without moving the parent's.
static void reopen(int file) {
    off_t at = lseek(file, 0, SEEK_CUR);
    int other = syscall(SYS_open, path_of(file), O_RDONLY);
    lseek(other, at, SEEK_SET);
    dup2(other, file);
    syscall(SYS_close, other);
}

// Gives this child files of its own, so that what it writes and reads doesn't reach the parent's.
static void own_files(void) {
    before = size_of(1);
    kept[0] = own_stream(1);
    kept[1] = own_stream(2);
    if (own[0]) {
        mkdir(own, 0700);
        each_of(home, link_own);
    }
    for (int file = 0; file < FILES; file++) {
        struct stat found;
        if (file == 1 || file == 2 || fstat(file, &found) || !S_ISREG(found.st_mode)) continue;
        if ((fcntl(file, F_GETFL) & O_ACCMODE) == O_RDONLY) reopen(file);
        else own_file(file, found.st_nlink > 0);
    }
    if (own[0] && chdir(own)) own[0] = 0;
}

int open(const char *path, int flags, ...) {
    va_list rest;
    va_start(rest, flags);
    int mode = flags & O_CREAT ? va_arg(rest, int) : 0;
    va_end(rest);
    return syscall(SYS_open, here(path), flags, mode);
}

int unlink(const char *path) { return syscall(SYS_unlink, here(path)); }
int rename(const char *from, const char *to) { return syscall(SYS_rename, here(from), here(to)); }

// ---- forks

// In a call under test: its name, whether requests count, and the line that is being written.
static char name[LINE], line[LINE];
static int counts;
static size_t written;

static void put_signal(int status) {
    char text[2 * LINE];
    if (tries == CALLS) {
        int size = snprintf(text, sizeof text, "! %s: request %ld ended by signal %d\n", name, number, WTERMSIG(status));
        syscall(SYS_write, 1, text, size);
    } else {
        put(text, snprintf(text, sizeof text, "%s %s %ld %d 0 0 -1 -1 -1\n", tries == MEMORY ? "request" : "device", words[how], number, -WTERMSIG(status)));
    }
}

// Forks a child that meets this; whether this is the child.
static int is_tried_here(enum how met) {
    is_busy = 1;
    how = met;
    pid_t child = fork();
    if (child == 0) {
        is_child = 1;
        alarm(HANG);
        if (tries != CALLS) own_files();
        is_busy = 0;
        return 1;
    }
    int status = 0;
    while (waitpid(child, &status, 0) < 0 && errno == EINTR) {}
    if (WIFSIGNALED(status)) put_signal(status);
    if (own[0]) {
        each_of(own, unlink_own);
        rmdir(own);
    }
    is_busy = 0;
    return 0;
}

// ---- memory

static int is_refused(void) {
    if (is_busy || is_child || !(tries == MEMORY || counts)) return 0;
    if (tries == ALWAYS) return 1;
    long here = __atomic_add_fetch(&number, 1, __ATOMIC_SEQ_CST);
    if (alone) return here == alone;
    return (here - 1) % step == 0 && is_tried_here(REFUSED);
}

static void *none(void) {
    errno = ENOMEM;
    return NULL;
}

void *malloc(size_t size) { return is_refused() ? none() : __libc_malloc(size); }
void *calloc(size_t count, size_t size) { return is_refused() ? none() : __libc_calloc(count, size); }
void *realloc(void *block, size_t size) { return is_refused() ? none() : __libc_realloc(block, size); }
void *memalign(size_t align, size_t size) { return is_refused() ? none() : __libc_memalign(align, size); }
void *aligned_alloc(size_t align, size_t size) { return memalign(align, size); }

int posix_memalign(void **block, size_t align, size_t size) {
    *block = memalign(align, size);
    return *block ? 0 : ENOMEM;
}

// ---- threads

enum { THREADS = 4096 };
static void *results[THREADS];
static long threads;

struct thread {
    void *(*start)(void *);
    void *argument, *result;
    ucontext_t own, caller;
};

static void run_thread(unsigned high, unsigned low) {
    struct thread *thread = (struct thread *)((uintptr_t)high << 32 | low);
    thread->result = thread->start(thread->argument);
}

// Runs the thread to its end, on a stack of its own.
static int run_whole(struct thread *thread, size_t size) {
    void *stack = mmap(NULL, size, PROT_READ | PROT_WRITE, MAP_PRIVATE | MAP_ANONYMOUS | MAP_NORESERVE | MAP_STACK, -1, 0);
    if (stack == MAP_FAILED || threads == THREADS) return EAGAIN;
    getcontext(&thread->own);
    thread->own.uc_stack = (stack_t){.ss_sp = stack, .ss_size = size};
    thread->own.uc_link = &thread->caller;
    makecontext(&thread->own, (void (*)(void))run_thread, 2, (unsigned)((uintptr_t)thread >> 32), (unsigned)(uintptr_t)thread);
    swapcontext(&thread->caller, &thread->own);
    munmap(stack, size);
    return 0;
}

static int forks(void) { return tries != NOTHING && !alone; }

int pthread_create(pthread_t *id, const pthread_attr_t *attributes, void *(*start)(void *), void *argument) {
    static int (*real)(pthread_t *, const pthread_attr_t *, void *(*)(void *), void *);
    if (!real) *(void **)&real = dlsym(RTLD_NEXT, "pthread_create");
    if (!forks()) return real(id, attributes, start, argument);
    size_t size = 8 << 20;
    if (attributes) pthread_attr_getstacksize(attributes, &size);
    struct thread thread = {.start = start, .argument = argument};
    if (run_whole(&thread, size)) return EAGAIN;
    results[threads++] = thread.result;
    *id = threads;
    return 0;
}

int pthread_join(pthread_t id, void **result) {
    static int (*real)(pthread_t, void **);
    if (!real) *(void **)&real = dlsym(RTLD_NEXT, "pthread_join");
    if (!forks()) return real(id, result);
    if (result) *result = results[id - 1];
    return 0;
}

// ---- devices

// How this read or write goes, or -1 where nothing happens to it.
static int met_by(int writes) {
    if (fails[writes]) return FAILING;
    if (is_busy || is_child || tries != DEVICES) return -1;
    long here = __atomic_add_fetch(&number, 1, __ATOMIC_SEQ_CST);
    if (alone ? here != alone : (here - 1) % step) return -1;
    if (alone) return how;
    for (int met = FAILING; met <= SHORT; met++) {
        if (!(moves_bytes && met == SHORT) && is_tried_here(met)) return met;
    }
    return -1;
}

static ssize_t move(int writes, int file, void *bytes, size_t size) {
    int met = met_by(writes);
    if (met == FAILING) fails[writes] = 1;
    if (met == FAILING || met == INTERRUPTED) {
        errno = met == INTERRUPTED ? EINTR : writes ? ENOSPC : EIO;
        return -1;
    }
    if ((met == SHORT || moves_bytes) && size > 1) size = 1;
    return syscall(writes ? SYS_write : SYS_read, file, bytes, size);
}

ssize_t read(int file, void *bytes, size_t size) { return move(0, file, bytes, size); }

// ---- calls under test

// A line of standard output is whole: requests count behind `? NAME`. A child has said what became of it.
static void end_line(void) {
    line[written < LINE ? written : LINE - 1] = 0;
    written = 0;
    counts = line[0] == '?';
    if (counts) {
        number = 0;
        strcpy(name, line[1] ? line + 2 : "");
    } else if (is_child && line[0] != '.') {
        syscall(SYS_exit_group, 0);
    }
}

static void follow(const char *bytes, size_t size) {
    counts = 0;
    for (size_t i = 0; i < size; i++) {
        if (bytes[i] == '\n') end_line();
        else if (written < LINE - 1) line[written++] = bytes[i];
    }
}

ssize_t write(int file, const void *bytes, size_t size) {
    if (file == 2) return syscall(SYS_write, file, bytes, size);
    if (tries != CALLS && tries != ALWAYS) return move(1, file, (void *)bytes, size);
    counts = 0;
    ssize_t done = syscall(SYS_write, file, bytes, size);
    if (file == 1 && done > 0) follow(bytes, done);
    return done;
}

// ---- the beginning

static int is_this(const char *program) {
    char path[4096];
    ssize_t size = readlink("/proc/self/exe", path, sizeof path - 1);
    if (!program || size < 0) return 0;
    path[size] = 0;
    return strcmp(path, program) == 0;
}

static long number_in(const char *variable, long otherwise) {
    const char *text = getenv(variable);
    return text ? atol(text) : otherwise;
}

static int is_set_to(const char *variable, const char *word) {
    const char *text = getenv(variable);
    return text && strcmp(text, word) == 0;
}

__attribute__((constructor)) static void begin(void) {
    static const char *const all[] = {"", "calls", "always", "memory", "devices"};
    if (!is_this(getenv("SHIM_PROGRAM"))) return;
    step = number_in("SHIM_STEP", 1);
    alone = number_in("SHIM_NUMBER", 0);
    moves_bytes = getenv("SHIM_BYTES") != NULL;
    for (enum how i = FAILING; i <= SHORT; i++) if (is_set_to("SHIM_HOW", words[i])) how = i;
    out = getenv("SHIM_OUT");
    if (out && getenv("SHIM_OWN") && getcwd(home, sizeof home)) snprintf(own, sizeof own, "%s", getenv("SHIM_OWN"));
    const char *path = getenv("SHIM_REPORT");
    if (path) report = fcntl(syscall(SYS_open, path, O_WRONLY | O_CREAT | O_APPEND, 0600), F_DUPFD, FILES);
    on_exit(tell, NULL);
    for (enum tries i = CALLS; i <= DEVICES; i++) if (is_set_to("SHIM_TRIES", all[i])) tries = i;
}
