/* Refuses growths or a thread of a program, and reports what it did. Preloaded by refuser.py.
 *
 * REFUSE_GROWTH and REFUSE_THREAD are numbers, counted from 1 over all threads: the growth with that number is
 * refused, and where REFUSE_ON is set every one after it; so is the thread with that number. REFUSE_REPORT is a
 * file as long as the report below. Nothing is counted before main.
 *
 * What asked for the growth is found by return addresses. The program keeps no chain of frames, so the report has the
 * words next on the stack that point into its code: the calls that led to the growth, innermost first, and after them
 * maybe others that are over.
 */
#define _GNU_SOURCE
#include <dlfcn.h>
#include <errno.h>
#include <fcntl.h>
#include <link.h>
#include <pthread.h>
#include <stdatomic.h>
#include <stddef.h>
#include <stdint.h>
#include <stdlib.h>
#include <sys/mman.h>
#include <unistd.h>

enum { NOTHING, GROWTH, GROWTH_OF_A_START, THREAD };
enum { CALLS = 3, WORDS = 64 };

struct report {
    atomic_long growths;        /* calls of malloc, calloc and realloc */
    atomic_long threads;        /* calls of pthread_create */
    atomic_long started;        /* and those that have come back */
    atomic_long refused;        /* what was refused first */
    long by_worker;             /* whether another thread than the first asked for it */
    long started_before;        /* how many starts had come back then */
    long calls[CALLS];          /* return addresses from where the program was loaded, 0 for none */
};

static struct report *report;
static long growth, thread, goes_on;
static pid_t process;
static uintptr_t loaded, code, code_end;
static __thread int is_starting __attribute__((tls_model("initial-exec")));

static long number_of(const char *name) {
    const char *text = getenv(name);
    return text ? atol(text) : 0;
}

/* The first of the loaded files is the program. */
static int find_code(struct dl_phdr_info *file, size_t size, void *unused) {
    (void)size, (void)unused;
    loaded = file->dlpi_addr;
    for (int i = 0; i < file->dlpi_phnum; ++i) {
        const ElfW(Phdr) *part = &file->dlpi_phdr[i];
        if (part->p_type != PT_LOAD || !(part->p_flags & PF_X)) continue;
        code = loaded + part->p_vaddr;
        code_end = code + part->p_memsz;
    }
    return 1;
}

__attribute__((constructor)) static void begin(void) {
    dl_iterate_phdr(find_code, NULL);
    growth = number_of("REFUSE_GROWTH");
    thread = number_of("REFUSE_THREAD");
    goes_on = number_of("REFUSE_ON");
    process = getpid();
    int file = open(getenv("REFUSE_REPORT"), O_RDWR);
    void *found = mmap(NULL, sizeof *report, PROT_READ | PROT_WRITE, MAP_SHARED, file, 0);
    if (file < 0 || found == MAP_FAILED) abort();
    close(file);
    report = found;
}

static void tell_calls(const uintptr_t *stack) {
    for (int i = 0, found = 0; i < WORDS && found < CALLS; ++i)
        if (stack[i] > code && stack[i] < code_end) report->calls[found++] = stack[i] - loaded;
}

static void tell(long what, const uintptr_t *stack) {
    long none = NOTHING;
    if (atomic_compare_exchange_strong(&report->refused, &none, what)) {
        report->by_worker = gettid() != process;
        report->started_before = report->started;
        if (stack) tell_calls(stack);
    }
}

static int is_refused(const uintptr_t *stack) {
    if (!report) return 0;
    long number = ++report->growths;
    if (!growth || number < growth || (number > growth && !goes_on)) return 0;
    tell(is_starting ? GROWTH_OF_A_START : GROWTH, stack);
    errno = ENOMEM;
    return 1;
}

static void *next(const char *name) {
    void *found = dlsym(RTLD_NEXT, name);
    if (!found) abort();
    return found;
}

void *malloc(size_t size) {
    static void *(*real)(size_t);
    if (!real) real = next("malloc");
    return is_refused(__builtin_frame_address(0)) ? NULL : real(size);
}

void *calloc(size_t count, size_t size) {
    static void *(*real)(size_t, size_t);
    if (!real) real = next("calloc");
    return is_refused(__builtin_frame_address(0)) ? NULL : real(count, size);
}

void *realloc(void *old, size_t size) {
    static void *(*real)(void *, size_t);
    if (!real) real = next("realloc");
    return is_refused(__builtin_frame_address(0)) ? NULL : real(old, size);
}

int pthread_create(pthread_t *made, const pthread_attr_t *how, void *(*run)(void *), void *with) {
    static int (*real)(pthread_t *, const pthread_attr_t *, void *(*)(void *), void *);
    if (!real) real = next("pthread_create");
    if (++report->threads == thread) {
        tell(THREAD, NULL);
        return EAGAIN;
    }
    is_starting = 1;
    int fault = real(made, how, run, with);
    is_starting = 0;
    ++report->started;
    return fault;
}
