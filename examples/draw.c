/* draw.h has what this does. */
#define _DEFAULT_SOURCE
#include "draw.h"

#include <errno.h>
#include <fcntl.h>
#include <stdbool.h>
#include <stdio.h>
#include <stdlib.h>
#include <string.h>
#include <unistd.h>
#ifndef DRAW_NO_GENERATOR
#include <sys/random.h>
#endif

#include "ceiling.h"

enum { SEED = 16, ROUNDS = 10, LENGTH = 2 * SEED + 1 + 10 + 1 };
static const uint64_t NUMBERS = UINT64_C(1) << 32;

static struct {
    const char *folder; /* its name; NULL: nothing is kept */
    int file;
    bool complained;
    uint8_t seed[SEED];
    uint64_t count;     /* the next one */
    uint64_t reserved;  /* counts below this are on the disk as used */
} drawn;

static void refuse(const char *why) {
    fprintf(stderr, "%s%srandom: %s\n", drawn.folder == NULL ? "" : drawn.folder, drawn.folder == NULL ? "" : "/", why);
    exit(1);
}

/* Half of a round's input, mixed with the seed. */
static uint16_t mixed(unsigned round, uint16_t half) {
    uint8_t text[SEED + 3];
    memcpy(text, drawn.seed, SEED);
    text[SEED] = (uint8_t)round;
    text[SEED + 1] = (uint8_t)(half >> 8);
    text[SEED + 2] = (uint8_t)half;
    pj_digest digest = pj_md5(text, sizeof text);
    return (uint16_t)(digest.bytes[0] << 8 | digest.bytes[1]);
}

static uint32_t number_of(uint32_t count) {
    uint16_t left = (uint16_t)(count >> 16), right = (uint16_t)count;
    for (unsigned round = 0; round < ROUNDS; round++) {
        uint16_t next = left ^ mixed(round, right);
        left = right;
        right = next;
    }
    return (uint32_t)left << 16 | right;
}

static void make_seed(void) {
#ifdef DRAW_NO_GENERATOR
    refuse("there is no seed, and no generator to draw one: draw.h says how one is made");
#else
    if (getrandom(drawn.seed, SEED, 0) != SEED) refuse(strerror(errno));
#endif
}

/* Seed and reserved counts lie on the disk, in the place of those before: the file has the same length always, so that
   a full disk is no hindrance. */
static bool put(void) {
    char text[LENGTH + 1];
    for (int k = 0; k < SEED; k++) snprintf(text + 2 * k, 3, "%02x", drawn.seed[k]);
    snprintf(text + 2 * SEED, sizeof text - 2 * SEED, " %010llu\n", (unsigned long long)drawn.reserved);
    return pwrite(drawn.file, text, LENGTH, 0) == LENGTH && fdatasync(drawn.file) == 0;
}

/* A value of digits: a pair of hexadecimal ones, or all of the count's. */
static bool get_digits(const char *text, size_t length, int base, unsigned long long *value) {
    char digits[16];
    if (strspn(text, base == 16 ? "0123456789abcdef" : "0123456789") < length) return false;
    memcpy(digits, text, length);
    digits[length] = '\0';
    *value = strtoull(digits, NULL, base);
    return true;
}

static void get(void) {
    char text[LENGTH + 2] = "";
    unsigned long long value = 0;
    ssize_t got = pread(drawn.file, text, LENGTH + 1, 0);
    bool good = got == LENGTH && text[2 * SEED] == ' ' && text[LENGTH - 1] == '\n';
    for (int k = 0; good && k < SEED; k++) {
        good = get_digits(text + 2 * k, 2, 16, &value);
        drawn.seed[k] = (uint8_t)value;
    }
    good = good && get_digits(text + 2 * SEED + 1, 10, 10, &value) && value <= NUMBERS;
    if (!good) refuse("has no seed and count: numbers might come again");
    drawn.count = drawn.reserved = value;
}

void draw_begin(const char *folder) {
    drawn.folder = folder;
    if (folder == NULL) {
        make_seed();
        return;
    }
    int at = open(folder, O_RDONLY | O_DIRECTORY | O_CLOEXEC);
    if (at < 0) refuse(strerror(errno));
    drawn.file = openat(at, "random", O_RDWR | O_CLOEXEC);
    if (drawn.file < 0 && errno == ENOENT) {
        make_seed();
        drawn.file = openat(at, "random.new", O_RDWR | O_CREAT | O_TRUNC | O_CLOEXEC, 0600);
        bool made = drawn.file >= 0 && put() && renameat(at, "random.new", at, "random") == 0 && fsync(at) == 0;
        if (!made) refuse(strerror(errno));
    }
    if (drawn.file < 0) refuse(strerror(errno));
    close(at);
    get();
}

uint32_t draw(void) {
    if (drawn.count == NUMBERS) { /* each was drawn once */
        pj_digest next = pj_md5(drawn.seed, SEED);
        memcpy(drawn.seed, next.bytes, SEED);
        drawn.count = drawn.reserved = 0;
    }
    if (drawn.folder != NULL && drawn.count == drawn.reserved) {
        drawn.reserved += DRAW_RESERVED;
        if (!put() && !drawn.complained) {
            fprintf(stderr, "%s/random: %s: after a restart numbers may come again\n", drawn.folder, strerror(errno));
            drawn.complained = true;
        }
    }
    return number_of((uint32_t)drawn.count++);
}
