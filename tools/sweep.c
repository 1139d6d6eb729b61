/* Refuses growths of memory to a program that is run under it, as tools/sweep.sh does. A start of a thread
 * counts as a growth; before one is refused, threads that were started have 50 ms in which to fall asleep.
 *
 * Tests ask for it by signs (crates/alloc_failures). A request of ARM_REQUEST + n bytes, which no machine grants, has the
 * n-th growth from there refused, or with n = 0 each of them; a request of DISARM_REQUEST bytes ends that, and is
 * refused if there was a refusal. At each question the number of refusals since the program began goes to
 * standard error, as `swept N`.
 *
 * Another program has the growth refused whose number is in SWEEP_GROWTH, from 1, and the refusal is told on
 * file descriptor 9. With SWEEP_BYTES nothing is refused, and the number of all bytes that were requested so far
 * stands in the file of descriptor 9.
 *
 * cc -O2 -shared -fPIC sweep.c -o sweep.so -ldl
 * LD_PRELOAD=./sweep.so TESTS NAME
 * SWEEP_GROWTH=3 LD_PRELOAD=./sweep.so PROGRAM 9>told */
#define _GNU_SOURCE
#include <dlfcn.h>
#include <errno.h>
#include <pthread.h>
#include <stdatomic.h>
#include <stdio.h>
#include <stdlib.h>
#include <string.h>
#include <unistd.h>

#define ARM_REQUEST ((size_t)1 << 61)
#define MOST 100000
#define DISARM_REQUEST 1060921
#define EACH -1

/* The number of the growth to refuse, counted from the next one: 0 none, EACH each of them. */
static atomic_long wanted;
static atomic_long swept;
static atomic_int was_refused;
static int tells;
static size_t requested;
static pthread_mutex_t adding = PTHREAD_MUTEX_INITIALIZER;
static int adds;

static void tell(int to, const char *text) { (void)!write(to, text, strlen(text)); }

static int note_refusal(void) {
    atomic_fetch_add(&swept, 1);
    atomic_store(&was_refused, 1);
    if (tells) tell(9, "refused\n");
    return 1;
}

/* Counts a growth. Whether it is to be refused. */
static int refused(void) {
    long number = atomic_load(&wanted);
    if (number == EACH) return note_refusal();
    while (number > 0)
        if (atomic_compare_exchange_weak(&wanted, &number, number - 1)) return number == 1 ? note_refusal() : 0;
    return 0;
}

static void begin(long number) {
    atomic_store(&was_refused, 0);
    atomic_store(&wanted, number ? number : EACH);
}

/* Ends the refusals. Whether there was one. */
static int end(void) {
    char line[64];
    atomic_store(&wanted, 0);
    snprintf(line, sizeof line, "swept %ld\n", atomic_load(&swept));
    tell(2, line);
    return atomic_load(&was_refused);
}

/* Adds a request to the number of bytes that were requested. */
static void add(size_t size) {
    char line[32];
    if (!adds) return;
    pthread_mutex_lock(&adding);
    requested += size;
    snprintf(line, sizeof line, "%zu\n", requested);
    (void)!pwrite(9, line, strlen(line), 0);
    pthread_mutex_unlock(&adding);
}

__attribute__((constructor)) static void begin_by_number(void) {
    const char *number = getenv("SWEEP_GROWTH");
    adds = getenv("SWEEP_BYTES") != NULL;
    if (!number) return;
    tells = 1;
    begin(atol(number));
}

void *malloc(size_t size) {
    static void *(*real)(size_t);
    if (!real) real = (void *(*)(size_t))dlsym(RTLD_NEXT, "malloc");
    add(size);
    if (!tells && size >= ARM_REQUEST && size - ARM_REQUEST < MOST) {
        begin((long)(size - ARM_REQUEST));
        return NULL;
    }
    if (!tells && size == DISARM_REQUEST) return end() ? NULL : real(size);
    return refused() ? NULL : real(size);
}

void *realloc(void *old, size_t size) {
    static void *(*real)(void *, size_t);
    if (!real) real = (void *(*)(void *, size_t))dlsym(RTLD_NEXT, "realloc");
    add(size);
    return refused() ? NULL : real(old, size);
}

int pthread_create(pthread_t *thread, const pthread_attr_t *how, void *(*start)(void *), void *given) {
    static int (*real)(pthread_t *, const pthread_attr_t *, void *(*)(void *), void *);
    if (!real) real = (int (*)(pthread_t *, const pthread_attr_t *, void *(*)(void *), void *))dlsym(RTLD_NEXT, "pthread_create");
    if (!refused()) return real(thread, how, start, given);
    usleep(50000);
    return EAGAIN;
}
