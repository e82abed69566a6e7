// CRC32C side by side in one run: the proved code, and C byte-wise and sliced by eight.
#include <stdint.h>
#include <stdio.h>
#include <stdlib.h>
#include <string.h>
#include <time.h>

// the proved code, from the static library of the crate `seal_c`
uint32_t seal_crc32c(const uint8_t *bytes, size_t length);

static uint32_t table[8][256];

static uint32_t steps(uint32_t c, int n) {
    while (n--) {
        c = c >> 1 ^ (c & 1) * 0x82F63B78u;
    }
    return c;
}

static uint32_t load(const uint8_t *p) {
    uint32_t x;
    memcpy(&x, p, 4);
    return x;
}

static uint32_t bytewise(const uint8_t *b, size_t n) {
    uint32_t c = ~0u;
    for (size_t i = 0; i < n; i++) {
        c = table[0][(c ^ b[i]) & 255] ^ c >> 8;
    }
    return ~c;
}

static uint32_t sliced(const uint8_t *b, size_t n) {
    uint32_t c = ~0u;
    for (; n >= 8; b += 8, n -= 8) {
        uint32_t x = c ^ load(b), y = load(b + 4);
        c = table[7][x & 255] ^ table[6][x >> 8 & 255] ^ table[5][x >> 16 & 255] ^ table[4][x >> 24]
            ^ table[3][y & 255] ^ table[2][y >> 8 & 255] ^ table[1][y >> 16 & 255] ^ table[0][y >> 24];
    }
    while (n--) {
        c = table[0][(c ^ *b++) & 255] ^ c >> 8;
    }
    return ~c;
}

typedef uint32_t (*crc)(const uint8_t *, size_t);

static double seconds(void) {
    struct timespec t;
    clock_gettime(CLOCK_MONOTONIC, &t);
    return t.tv_sec + t.tv_nsec * 1e-9;
}

static volatile uint32_t sink;

// One timing: about 16 MiB in pieces of n bytes.
static double timed(crc f, const uint8_t *b, size_t n) {
    size_t turns = ((size_t)16 << 20) / n;
    size_t places = n < 4096 ? 64 : 1;
    uint32_t sum = 0;
    double start = seconds();
    for (size_t i = 0; i < turns; i++) {
        sum += f(b + i % places * 512, n);
    }
    double taken = seconds() - start;
    sink = sum;
    return (double)turns * n / taken / 1e6;
}

static void agree(const uint8_t *b) {
    for (size_t n = 0; n < 2048; n++) {
        for (size_t at = 0; at < 9; at++) {
            uint32_t r = seal_crc32c(b + at, n);
            if (r != bytewise(b + at, n) || r != sliced(b + at, n)) {
                fprintf(stderr, "the three disagree at length %zu\n", n);
                exit(1);
            }
        }
    }
}

int main(void) {
    for (int k = 0; k < 8; k++) {
        for (uint32_t x = 0; x < 256; x++) {
            table[k][x] = steps(x, 8 * (k + 1));
        }
    }
    size_t most = (size_t)1 << 20;
    uint8_t *b = malloc(most + 64 * 512);
    if (!b) {
        return 1;
    }
    uint32_t seed = 3;
    for (size_t i = 0; i < most + 64 * 512; i++) {
        seed = seed * 1664525u + 1013904223u;
        b[i] = seed >> 24;
    }
    agree(b);
    printf("MB/s, the best of nine rounds, the three in turn within a round\n");
    printf("%10s %10s %10s %10s %12s %12s\n", "bytes", "proved", "C bytes", "C by 8", "to C bytes", "to C by 8");
    const size_t lengths[] = {124, 508, most};
    const crc codes[] = {seal_crc32c, bytewise, sliced};
    for (int i = 0; i < 3; i++) {
        double best[3] = {0, 0, 0};
        for (int round = 0; round < 9; round++) {
            for (int k = 0; k < 3; k++) {
                double speed = timed(codes[k], b, lengths[i]);
                if (speed > best[k]) {
                    best[k] = speed;
                }
            }
        }
        printf("%10zu %10.0f %10.0f %10.0f %12.2f %12.2f\n", lengths[i], best[0], best[1], best[2], best[0] / best[1], best[0] / best[2]);
    }
    free(b);
    return 0;
}
