/* Makes each allocation of a test of tests/refused fail in turn. `rt try` links this file into the tests.

   A test makes its call between two marks, which are allocations of MARK bytes. At the first mark it forks a child for
   each allocation that follows. In the N-th child the N-th allocation after the mark fails; with -DFROM a second row of
   children lets all allocations after the N-th fail too. Each child has to pass the test and to free all of its memory.
   A row ends with the first child in which no allocation is left to fail. The test itself then runs on with all of its
   memory, and reports how many failed allocations its children stood.

   With -DUNMARKED no test makes a mark: no allocation fails, and each test has to free all of its memory. The tests of
   the functions for C run so.

   A request of COUNTED bytes notes how many blocks are allocated. A later one of COUNTED + N bytes, N below 1000, fails
   if fewer than N of these were freed since. So a test can tell that a call gave blocks back. */
#include <errno.h>
#include <fcntl.h>
#include <stdio.h>
#include <stdlib.h>
#include <sys/mman.h>
#include <sys/wait.h>
#include <unistd.h>

#define MARK 1299709
#define COUNTED 2750159
#ifdef FROM
enum { ROWS = 2 };
#else
enum { ROWS = 1 };
#endif
#ifdef UNMARKED
enum { MARKS = 0 };
#else
enum { MARKS = 2 };
#endif

/* Where a program defines the first of each pair, the address sanitizer calls it in place of its own, the second. */
void *__interceptor_malloc(size_t), *___interceptor_malloc(size_t);
void *__interceptor_realloc(void *, size_t), *___interceptor_realloc(void *, size_t);
void __interceptor_free(void *), ___interceptor_free(void *);

static unsigned marks, requests, stood;
static long blocks;       /* allocated and not freed */
static long noted;        /* how many these were at the request of COUNTED bytes */
static unsigned first;    /* in a child: the number of the first allocation that fails */
static int with_rest;     /* in a child: whether all after it fail too */
static unsigned *refused; /* how many failed in the child, in memory that it shares with the test */

static void refuse_in_turn(void) {
    refused = mmap(NULL, sizeof *refused, PROT_READ | PROT_WRITE, MAP_SHARED | MAP_ANONYMOUS, -1, 0);
    for (int row = 0; row < ROWS; ++row)
        for (unsigned at = 1;; ++at) {
            *refused = 0;
            int status = -1, child = fork();
            if (!child) {
                first = at;
                with_rest = row;
                alarm(60);
                dup2(open("/dev/null", O_WRONLY), 1);
                return;
            }
            waitpid(child, &status, 0);
            if (status) {
                const char *rest = row ? " and all after it" : "";
                dprintf(2, "memory: request %u%s: failed after %u refusals\n", at, rest, *refused);
                _exit(1);
            }
            if (!*refused) break;
            stood += *refused;
        }
}

__attribute__((constructor)) static void begin(void) {
    blocks = 0; /* Without those of the address sanitizer, which frees none. */
}

__attribute__((destructor)) static void end(void) {
    if (!marks && MARKS) return;
    if (marks != MARKS || blocks) {
        dprintf(2, "memory: %u marks, %ld blocks not freed\n", marks, blocks);
        _exit(1);
    }
    if (MARKS && !first) dprintf(2, "memory: %u refusals stood\n", stood);
}

static int is_refused(size_t size) {
    if (size == COUNTED) noted = blocks;
    if (size >= COUNTED && size < COUNTED + 1000) return noted - blocks < (long)(size - COUNTED);
    if (size == MARK) {
        if (++marks == 1) refuse_in_turn();
        return 0;
    }
    if (marks != 1 || !first) return 0;
    ++requests;
    if (with_rest ? requests < first : requests != first) return 0;
    ++*refused;
    errno = ENOMEM;
    return 1;
}

void *__interceptor_malloc(size_t size) {
    void *block = is_refused(size) ? NULL : ___interceptor_malloc(size);
    blocks += block != NULL;
    return block;
}

void *__interceptor_realloc(void *old, size_t size) {
    void *block = is_refused(size) ? NULL : ___interceptor_realloc(old, size);
    blocks += block != NULL && old == NULL;
    return block;
}

void __interceptor_free(void *block) {
    blocks -= block != NULL;
    ___interceptor_free(block);
}
