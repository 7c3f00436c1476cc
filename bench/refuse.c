// Laid under a program by LD_PRELOAD, it refuses what the environment's SOAK_REFUSE says, counted from 0 over all threads:
//
//     memory N      the Nth request for memory        memory N..      the Nth and all after it
//     thread N      the Nth start of a thread         thread N..      the Nth and all after it
//
// A request is a call of malloc, calloc, realloc, aligned_alloc, memalign or posix_memalign, by the program or by the C library, from
// the moment when the program's own code can run. Into the file SOAK_TALLY go four numbers of eight bytes: the requests, those of
// them that the program itself made, the starts of threads, and how many of either were refused.

#define _GNU_SOURCE
#include <dlfcn.h>
#include <errno.h>
#include <fcntl.h>
#include <link.h>
#include <malloc.h>
#include <pthread.h>
#include <stdint.h>
#include <stdlib.h>
#include <string.h>
#include <sys/mman.h>
#include <unistd.h>

void *__libc_malloc(size_t);
void *__libc_calloc(size_t, size_t);
void *__libc_realloc(void *, size_t);
void *__libc_memalign(size_t, size_t);

struct tally {
    uint64_t requests, own, threads, refused;
};

static struct tally unseen, *tally = &unseen;
static uintptr_t low, high;  // where the program's own code lies
static uint64_t number;
static int counts, memory, threads, onwards;
static int (*start)(pthread_t *, const pthread_attr_t *, void *(*)(void *), void *);

// Whether the place of this number is to be refused.
static int refused(uint64_t place) {
    if (place == number || (onwards && place > number)) {
        __atomic_add_fetch(&tally->refused, 1, __ATOMIC_SEQ_CST);
        return 1;
    }
    return 0;
}

// Counts a request, and says whether it is to be refused.
static int no_memory(void *caller) {
    if (!counts) {
        return 0;
    }
    if ((uintptr_t)caller >= low && (uintptr_t)caller < high) {
        __atomic_add_fetch(&tally->own, 1, __ATOMIC_SEQ_CST);
    }
    uint64_t place = __atomic_fetch_add(&tally->requests, 1, __ATOMIC_SEQ_CST);
    if (!memory || !refused(place)) {
        return 0;
    }
    errno = ENOMEM;
    return 1;
}

void *malloc(size_t size) {
    return no_memory(__builtin_return_address(0)) ? NULL : __libc_malloc(size);
}

void *calloc(size_t count, size_t size) {
    return no_memory(__builtin_return_address(0)) ? NULL : __libc_calloc(count, size);
}

void *realloc(void *old, size_t size) {
    return no_memory(__builtin_return_address(0)) ? NULL : __libc_realloc(old, size);
}

void *aligned_alloc(size_t align, size_t size) {
    return no_memory(__builtin_return_address(0)) ? NULL : __libc_memalign(align, size);
}

void *memalign(size_t align, size_t size) {
    return no_memory(__builtin_return_address(0)) ? NULL : __libc_memalign(align, size);
}

int posix_memalign(void **made, size_t align, size_t size) {
    void *place = no_memory(__builtin_return_address(0)) ? NULL : __libc_memalign(align, size);
    if (place == NULL) {
        return ENOMEM;
    }
    *made = place;
    return 0;
}

int pthread_create(pthread_t *thread, const pthread_attr_t *how, void *(*body)(void *), void *given) {
    uint64_t place = __atomic_fetch_add(&tally->threads, 1, __ATOMIC_SEQ_CST);
    return threads && refused(place) ? EAGAIN : start(thread, how, body, given);
}

// The first object is the program itself.
static int place_of_program(struct dl_phdr_info *object, size_t size, void *given) {
    (void)size, (void)given;
    low = UINTPTR_MAX;
    for (int i = 0; i < object->dlpi_phnum; i++) {
        const ElfW(Phdr) *part = &object->dlpi_phdr[i];
        if (part->p_type == PT_LOAD) {
            uintptr_t begin = object->dlpi_addr + part->p_vaddr, end = begin + part->p_memsz;
            low = begin < low ? begin : low;
            high = end > high ? end : high;
        }
    }
    return 1;
}

__attribute__((constructor)) static void begin(void) {
    const char *asked = getenv("SOAK_REFUSE"), *name = getenv("SOAK_TALLY");
    start = (int (*)(pthread_t *, const pthread_attr_t *, void *(*)(void *), void *))dlsym(RTLD_NEXT, "pthread_create");
    dl_iterate_phdr(place_of_program, NULL);
    int file = name == NULL ? -1 : open(name, O_RDWR);
    if (file >= 0) {
        void *seen = mmap(NULL, sizeof unseen, PROT_READ | PROT_WRITE, MAP_SHARED, file, 0);
        tally = seen == MAP_FAILED ? tally : seen;
        close(file);
    }
    if (asked != NULL) {
        char *end;
        memory = strncmp(asked, "memory ", 7) == 0;
        threads = strncmp(asked, "thread ", 7) == 0;
        number = memory || threads ? strtoull(asked + 7, &end, 10) : 0;
        onwards = (memory || threads) && strcmp(end, "..") == 0;
    }
    counts = 1;
}
