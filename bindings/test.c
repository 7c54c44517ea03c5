/* Links libdinqosa.a from C: the call over parts, the call over one block and the reading of stored answers, on dirty
 * memory between red zones. */
#include "dinqosa.h"
#include <stdio.h>
#include <stdlib.h>
#include <string.h>

enum { ZONE = 16, LENGTHS = 3 };
static const uint64_t RED = 0x5eed5eed5eed5eedu;
static const size_t published[LENGTHS] = {DINQOSA_ANSWER_WORDS, DINQOSA_PROGRAM_WORDS, DINQOSA_STATE_WORDS};
static uint64_t *part[LENGTHS];
static struct {
    uint64_t before[ZONE];
    struct dinqosa_memory memory;
    uint64_t after[ZONE];
} block;
static const char *good = "def main() 1+2 end";
static int failed;

static void check(int good, const char *what) {
    if (!good) {
        printf("failed: %s\n", what);
        failed = 1;
    }
}

static void fill(uint64_t *at, size_t n) {
    for (size_t i = 0; i < n; i++) at[i] = RED;
}

static int all(const uint64_t *at, size_t n, uint64_t value) {
    for (size_t i = 0; i < n; i++)
        if (at[i] != value) return 0;
    return 1;
}

/* The parts one by one. */

static uint8_t call(const char *script, size_t n, const size_t lengths[LENGTHS]) {
    for (int k = 0; k < LENGTHS; k++) fill(part[k], published[k] + 2 * ZONE);
    return dinqosa_analyze((const uint8_t *)script, n, part[0] + ZONE, lengths[0], part[1] + ZONE, lengths[1], part[2] + ZONE, lengths[2]);
}

static int zones_whole(void) {
    for (int k = 0; k < LENGTHS; k++)
        if (!all(part[k], ZONE, RED) || !all(part[k] + ZONE + published[k], ZONE, RED)) return 0;
    return 1;
}

static int parts_untouched(void) {
    for (int k = 0; k < LENGTHS; k++)
        if (!all(part[k], published[k] + 2 * ZONE, RED)) return 0;
    return 1;
}

static void test_parts(void) {
    check(call(good, strlen(good), published) == DINQOSA_ANSWERED, "a script is answered");
    uint64_t *answer = part[0] + ZONE;
    check(answer[0] == 1 && answer[1] == 1 && answer[DINQOSA_LIVE] == 1, "its only block is live");
    check(all(part[1] + ZONE, published[1], 0) && all(part[2] + ZONE, published[2], 0), "work memory is cleared after an answer");
    check(zones_whole(), "nothing beyond is changed by an answer");

    check(call("def main() x end", 16, published) == DINQOSA_UNBOUND_NAME, "an unbound name is refused");
    for (int k = 0; k < LENGTHS; k++) check(all(part[k] + ZONE, published[k], 0), "all parts are cleared after a refusal");
    check(zones_whole(), "nothing beyond is changed by a refusal");

    for (int k = 0; k < LENGTHS; k++) {
        size_t lengths[LENGTHS] = {published[0], published[1], published[2]};
        lengths[k]--;
        check(call(good, strlen(good), lengths) == DINQOSA_MEMORY_TOO_SHORT, "a part one short is refused");
        check(parts_untouched(), "and nothing is changed");
    }

    static char longest[DINQOSA_SCRIPT_MOST + 1];
    memset(longest, ' ', sizeof longest);
    check(call(longest, sizeof longest, published) == DINQOSA_SCRIPT_TOO_LONG, "a script one too long is refused");
    check(parts_untouched(), "and nothing is changed");
    check(call(longest, sizeof longest - 1, published) == DINQOSA_NO_FUNCTION, "the longest script is read");
    check(call(good, 0, published) == DINQOSA_NO_FUNCTION, "an empty script is read");
}

/* The call over one block. Where a script may stand in it: at the start of each part, across two of them, at the end of the last,
 * at its own place and one byte behind. */

static struct dinqosa_memory *const m = &block.memory;

static void dirty(void) { fill((uint64_t *)&block, sizeof block / sizeof(uint64_t)); }

static int beyond_whole(size_t n) {
    const uint8_t *red = (const uint8_t *)block.before;
    for (size_t i = n; i < sizeof m->script; i++)
        if (m->script[i] != red[i % 8]) return 0;
    return all(block.before, ZONE, RED) && all(block.after, ZONE, RED);
}

static int parts_are(uint64_t value) {
    return all(m->answer, published[0], value) && all(m->program, published[1], value) && all(m->state, published[2], value);
}

/* What the block holds after a call must be what the parts hold, wherever the script stood. */
static void same_in_block(const uint8_t *script, size_t n) {
    uint8_t number = call((const char *)script, n, published);
    uint8_t *places[] = {(uint8_t *)m->answer, (uint8_t *)m->program, (uint8_t *)m->program - n / 2, (uint8_t *)m->state,
                         (uint8_t *)m->state + 8 * DINQOSA_STATE_WORDS / 2, m->script - n / 2, m->script, m->script + 1, NULL};
    for (size_t k = 0; k < sizeof places / sizeof *places; k++) {
        dirty();
        if (places[k]) memcpy(places[k], script, n);
        check(dinqosa_analyze_in(m, places[k] ? places[k] : script, n) == number, "the block gives the same number");
        check(!memcmp(m->answer, part[0] + ZONE, sizeof m->answer), "and the same answer part");
        check(!memcmp(m->program, part[1] + ZONE, sizeof m->program) && !memcmp(m->state, part[2] + ZONE, sizeof m->state), "and the same work memory");
        check(!memcmp(m->script, script, n), "the copy of the script stays");
        check(beyond_whole(places[k] == m->script + 1 ? n + 1 : n), "nothing beyond the block or the script is changed");
    }
}

static void test_block(void) {
    static uint8_t longest[DINQOSA_SCRIPT_MOST + 1];
    memset(longest, ' ', sizeof longest);
    dirty();
    check(dinqosa_analyze_in(m, longest, sizeof longest) == DINQOSA_SCRIPT_TOO_LONG, "block: a script one too long is refused");
    check(parts_are(RED) && beyond_whole(0), "block: and nothing is changed");
    dirty();
    memset(m->script, ' ', sizeof m->script);
    check(dinqosa_analyze_in(m, m->script, sizeof m->script) == DINQOSA_SCRIPT_TOO_LONG, "block: a script too long at its own place is refused");
    check(parts_are(RED) && !memcmp(m->script, longest, sizeof longest), "block: and nothing is changed");
    dirty();
    check(dinqosa_analyze_in(m, longest, SIZE_MAX) == DINQOSA_SCRIPT_TOO_LONG && parts_are(RED) && beyond_whole(0), "block: the greatest length is refused");
    dirty();
    check(dinqosa_analyze_in(m, NULL, 0) == DINQOSA_NO_FUNCTION && parts_are(0) && beyond_whole(0), "block: an empty script needs no place");
    memcpy(longest, good, strlen(good));
    same_in_block(longest, DINQOSA_SCRIPT_MOST);
    same_in_block((const uint8_t *)"def main() x end", 16);
}

/* A stored answer, read back. */

static uint16_t load(const char *text, size_t n, size_t length) {
    fill(part[1], published[0] + 2 * ZONE);
    return dinqosa_read((const uint8_t *)text, n, part[1] + ZONE, length);
}

static int load_whole(void) { return all(part[1], ZONE, RED) && all(part[1] + ZONE + published[0], ZONE, RED); }

static void test_read(void) {
    static const char stored[] = "01010100020000000000000003\n020001\n030000020000000000000003\n030001000000000000000000\n0400000001\n";
    static const char script[] = "def main() return 1+2 end";
    size_t n = sizeof stored - 1;
    check(call(script, strlen(script), published) == DINQOSA_ANSWERED, "the stored script is answered");
    check(load(stored, n, published[0]) == DINQOSA_ANSWERED, "a stored answer is read");
    check(!memcmp(part[1] + ZONE, part[0] + ZONE, 8 * published[0]), "and the answer part holds what the call left");
    check(load_whole(), "nothing beyond is changed by a stored answer");
    check(load(stored, n, published[0] + ZONE) == DINQOSA_ANSWERED && load_whole(), "nor in a longer part");

    check(load("7f06\n", 5, published[0]) == DINQOSA_READ + DINQOSA_UNBOUND_NAME, "a refusal is read");
    check(all(part[1] + ZONE, published[0], 0) && load_whole(), "and the answer part is cleared");
    check(load(stored, n - 1, published[0]) == DINQOSA_ILLEGAL_LINE, "a line that isn't ended");
    check(all(part[1] + ZONE, published[0], 0) && load_whole(), "and the answer part is cleared");
    check(load(stored + 27, n - 27, published[0]) == DINQOSA_MISPLACED, "frames without totals");
    check(all(part[1] + ZONE, published[0], 0) && load_whole(), "and the answer part is cleared");
    check(load(stored + 27, n - 28, published[0]) == DINQOSA_ILLEGAL_LINE, "both: the illegal line is told");
    check(load(NULL, 0, published[0]) == DINQOSA_MISPLACED, "an empty text needs no place");
    check(load(stored, n, published[0] - 1) == DINQOSA_MEMORY_TOO_SHORT, "a part one short is refused");
    check(all(part[1], published[0] + 2 * ZONE, RED), "and nothing is changed");
}

/* Every script of a batch, by both calls; the number of scripts. */
static long test_batch(const char *path) {
    static uint8_t script[1 << 20];
    unsigned char length[4];
    long scripts = 0;
    FILE *batch = fopen(path, "rb");
    for (; batch && fread(length, 1, 4, batch) == 4; scripts++) {
        size_t n = (size_t)length[0] << 24 | (size_t)length[1] << 16 | (size_t)length[2] << 8 | length[3];
        if (sizeof script < n || fread(script, 1, n, batch) != n) break;
        uint8_t number = call((const char *)script, n, published);
        uint8_t *at = n <= DINQOSA_SCRIPT_MOST ? (uint8_t *)m->state : script;
        dirty();
        memcpy(at, script, n);
        check(dinqosa_analyze_in(m, at, n) == number && !memcmp(m->answer, part[0] + ZONE, sizeof m->answer), "a stored script in the block gives the same");
    }
    check(batch && feof(batch), "the batch is read to its end");
    return scripts;
}

int main(int words, char **word) {
    if (words != 2) {
        fprintf(stderr, "usage: test SCRIPTS\n");
        return 2;
    }
    for (int k = 0; k < LENGTHS; k++) part[k] = malloc((published[k] + 2 * ZONE) * sizeof(uint64_t));
    test_parts();
    test_block();
    test_read();
    long scripts = test_batch(word[1]);
    printf("C: %ld scripts, %s\n", scripts, failed ? "failed" : "passed");
    return failed;
}
