/* How deep a call goes, and that the published stack is enough.
 *
 * stack            runs the deepest scripts known in a thread with exactly DINQOSA_STACK_BYTES of stack, and one of them in a
 *                  stack that is too small, which must be seen; says too what reading frames back takes
 * stack --measure  reads a batch of scripts from standard input; prints the deepest of them and its bytes of stack, which must
 *                  not be above DINQOSA_STACK_BYTES
 */
#define _GNU_SOURCE
#include "dinqosa.h"
#include <pthread.h>
#include <stdio.h>
#include <stdlib.h>
#include <sys/mman.h>
#include <sys/wait.h>
#include <unistd.h>

/* Wider than any frame of the library, so that none reaches beyond it. */
enum { GUARD = 1 << 20, NEVER = 256 };
static const unsigned char PATTERN = 0xa5;
static const size_t AMPLE = 2 * DINQOSA_STACK_BYTES;
static struct dinqosa_memory memory;

struct run {
    const uint8_t *script; /* or, to be read back, frames */
    size_t n;
    int reading;
    unsigned char *bottom;
    size_t used;
    int result;
};

static int call(const struct run *r) {
    if (r->reading) return dinqosa_read(r->script, r->n, memory.answer, DINQOSA_ANSWER_WORDS);
    return dinqosa_analyze_in(&memory, r->script, r->n);
}

/* Fills the stack below this frame, calls, and looks how far down it was written. */
static __attribute__((noinline)) void *measured(void *given) {
    struct run *r = given;
    unsigned char *here = __builtin_frame_address(0);
    unsigned char *top = here - 512; /* this frame stays as it is */
    for (volatile unsigned char *p = r->bottom; p < top; p++) *p = PATTERN;
    r->result = call(r);
    unsigned char *p = r->bottom;
    while (p < top && *p == PATTERN) p++;
    r->used = (size_t)(here - p);
    return NULL;
}

static __attribute__((noinline)) void *called(void *given) {
    struct run *r = given;
    r->result = call(r);
    return NULL;
}

static void stop(const char *text) {
    fprintf(stderr, "stack: %s\n", text);
    exit(2);
}

/* A thread with `stack` bytes of its own and a guard below them. */
static void in_thread(void *(*start)(void *), struct run *r, size_t stack) {
    static unsigned char *base;
    static size_t has;
    if (has != stack) {
        if (base) munmap(base, GUARD + has);
        base = mmap(NULL, GUARD + stack, PROT_READ | PROT_WRITE, MAP_PRIVATE | MAP_ANONYMOUS, -1, 0);
        if (base == MAP_FAILED || mprotect(base, GUARD, PROT_NONE) != 0) stop("no memory");
        has = stack;
    }
    r->bottom = base + GUARD;
    pthread_attr_t attributes;
    pthread_t thread;
    if (pthread_attr_init(&attributes) != 0 || pthread_attr_setstack(&attributes, r->bottom, stack) != 0) stop("no such stack");
    if (pthread_create(&thread, &attributes, start, r) != 0) stop("no thread");
    pthread_join(thread, NULL);
    pthread_attr_destroy(&attributes);
}

/* The result of a call in a child's thread with that stack; NEVER if the child came to no end of its own. */
static int in_child(struct run *r, size_t stack) {
    fflush(stdout);
    pid_t child = fork();
    if (child == 0) {
        in_thread(called, r, stack);
        _exit(r->result);
    }
    int status;
    if (child < 0 || waitpid(child, &status, 0) != child) stop("no child");
    return WIFEXITED(status) ? WEXITSTATUS(status) : NEVER;
}

struct text {
    char at[DINQOSA_SCRIPT_MOST + 1];
    size_t n;
};

static void put(struct text *t, int times, const char *piece) {
    size_t n = strlen(piece);
    for (; times > 0; times--, t->n += n) {
        if (sizeof t->at < t->n + n) stop("a script is too long");
        memcpy(t->at + t->n, piece, n);
    }
}

/* A script of a head, a piece so many times, a middle, another piece as often, and a tail. */
static const struct shape {
    const char *what, *head;
    int times;
    const char *open, *middle, *close, *tail;
    int result;
} shapes[] = {
    {"a byte that starts nothing", "$", 0, "", "", "", "", DINQOSA_BAD_BYTE},
    {"the empty text", "", 0, "", "", "", "", DINQOSA_NO_FUNCTION},
    {"one call", "def f(a) a end def main() ", 1, "f(", "1", ")", " end", DINQOSA_ANSWERED},
    {"126 choices in a constructor", "class A def initialize(x) ", 126, "if x end ", "end end def main() A.new(1) end", "", "", DINQOSA_ANSWERED},
    {"127 nested parentheses", "def main() ", 127, "(", "1", ")", " end", DINQOSA_ANSWERED},
    {"127 nested sums", "def main() ", 127, "1+", "1", "", " end", DINQOSA_ANSWERED},
    {"127 nested choices", "def main() x=1 ", 127, "if x ", "1", " end", " end", DINQOSA_ANSWERED},
    {"127 nested sends", "class A def m(a) a end end def main() a=A.new() ", 127, "a.m(", "1", ")", " end", DINQOSA_ANSWERED},
    {"127 nested calls", "def f(a) a end def main() ", 127, "f(", "1", ")", " end", DINQOSA_ANSWERED},
    {"128 nested calls", "def f(a) a end def main() ", 128, "f(", "1", ")", " end", DINQOSA_LIMIT},
};

/* Frames that are read back, in no more stack than a call has. */
static const struct stored {
    const char *what, *frames;
    int result;
} stored[] = {
    {"reading an answer", "01010100020000000000000003\n020001\n030000020000000000000003\n030001000000000000000000\n0400000001\n", DINQOSA_ANSWERED},
    {"reading a caller and a set", "01010100010000000000000003\n020001\n030000080000000000000010\n05000000\n", DINQOSA_ANSWERED},
    {"reading a refusal", "7f06\n", DINQOSA_READ + 6},
    {"reading an illegal line", "01010100020000000000000003\n020002\n", DINQOSA_ILLEGAL_LINE},
    {"reading a misplaced line", "020001\n", DINQOSA_MISPLACED},
};

static int measure(void) {
    static uint8_t script[1 << 20];
    unsigned char length[4];
    size_t deepest = 0;
    long place = 0, found = -1;
    while (fread(length, 1, 4, stdin) == 4) {
        size_t n = (size_t)length[0] << 24 | (size_t)length[1] << 16 | (size_t)length[2] << 8 | length[3];
        if (sizeof script < n || fread(script, 1, n, stdin) != n) stop("a bad batch");
        struct run r = {script, n, 0, NULL, 0, 0};
        in_thread(measured, &r, AMPLE);
        if (deepest < r.used) deepest = r.used, found = place;
        place++;
    }
    printf("stack: %ld scripts; the deepest is number %ld: %zu bytes\n", place, found, deepest);
    return DINQOSA_STACK_BYTES < deepest;
}

int main(int words, char **word) {
    if (words == 2 && strcmp(word[1], "--measure") == 0) return measure();
    if (words != 1) stop("usage: stack [--measure]");
    int failed = 0;
    size_t deepest = 0;
    static struct text text, deep;
    dinqosa_analyze_in(&memory, NULL, 0); /* what the first call of a process links isn't measured */
    for (size_t k = 0; k < sizeof shapes / sizeof *shapes; k++) {
        const struct shape *s = &shapes[k];
        text.n = 0;
        put(&text, 1, s->head);
        put(&text, s->times, s->open);
        put(&text, 1, s->middle);
        put(&text, s->times, s->close);
        put(&text, 1, s->tail);
        struct run r = {(const uint8_t *)text.at, text.n, 0, NULL, 0, 0};
        in_thread(measured, &r, AMPLE);
        if (deepest < r.used) deepest = r.used, deep = text;
        int result = in_child(&r, DINQOSA_STACK_BYTES);
        if (r.result != s->result) printf("failed: %s: %d, not %d\n", s->what, r.result, s->result), failed = 1;
        if (result != r.result) printf("failed: %s: the published stack is too small\n", s->what), failed = 1;
        printf("stack: %-40s %7zu bytes\n", s->what, r.used);
    }
    for (size_t k = 0; k < sizeof stored / sizeof *stored; k++) {
        struct run r = {(const uint8_t *)stored[k].frames, strlen(stored[k].frames), 1, NULL, 0, 0};
        in_thread(measured, &r, AMPLE);
        int result = in_child(&r, DINQOSA_STACK_BYTES); /* as an exit status, so its lowest byte */
        if (r.result != stored[k].result) printf("failed: %s: %d, not %d\n", stored[k].what, r.result, stored[k].result), failed = 1;
        if (result != r.result % 256) printf("failed: %s: the published stack is too small\n", stored[k].what), failed = 1;
        printf("stack: %-40s %7zu bytes\n", stored[k].what, r.used);
    }
    struct run r = {(const uint8_t *)deep.at, deep.n, 0, NULL, 0, 0};
    if (in_child(&r, (deepest - 8192) / 4096 * 4096) != NEVER) {
        printf("failed: a stack that is too small isn't seen\n");
        failed = 1;
    }
    printf("stack: at most %zu of %d bytes\n%s\n", deepest, DINQOSA_STACK_BYTES, failed ? "stack: failed" : "stack: passed");
    return failed;
}
