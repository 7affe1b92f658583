// The kernel `add_scaled` in C, with the same tables and 16-byte shuffles, to be timed beside ours. It prints the
// lines of `bats_bench time`: bytes of the buffer, bytes of a row, name, picoseconds for a row.
#include <immintrin.h>
#include <stdint.h>
#include <stdio.h>
#include <stdlib.h>
#include <string.h>
#include <time.h>

static inline __m128i doubled(__m128i v) {
    __m128i high = _mm_cmpgt_epi8(_mm_setzero_si128(), v);
    return _mm_xor_si128(_mm_add_epi8(v, v), _mm_and_si128(high, _mm_set1_epi8(0x1D)));
}

// The 16 sums of some of four elements, the first of which is v and each further one twice the one before.
static inline __m128i sums(__m128i *v) {
    __m128i place = _mm_setr_epi8(0, 1, 2, 3, 4, 5, 6, 7, 8, 9, 10, 11, 12, 13, 14, 15), sum = _mm_setzero_si128();
    for (int i = 0; i < 4; i++) {
        __m128i bit = _mm_set1_epi8(1 << i);
        sum = _mm_xor_si128(sum, _mm_and_si128(*v, _mm_cmpeq_epi8(_mm_and_si128(place, bit), bit)));
        *v = doubled(*v);
    }
    return sum;
}

__attribute__((noinline)) static void add_scaled(uint8_t *dst, uint8_t c, const uint8_t *src, size_t n) {
    __m128i v = _mm_set1_epi8(c), low = sums(&v), high = sums(&v), mask = _mm_set1_epi8(15);
    size_t i = 0;
#pragma GCC unroll 2
    for (; i + 16 <= n; i += 16) {
        __m128i x = _mm_loadu_si128((const void *)(src + i)), y = _mm_loadu_si128((const void *)(dst + i));
        y = _mm_xor_si128(y, _mm_shuffle_epi8(low, _mm_and_si128(x, mask)));
        y = _mm_xor_si128(y, _mm_shuffle_epi8(high, _mm_and_si128(_mm_srli_epi64(x, 4), mask)));
        _mm_storeu_si128((void *)(dst + i), y);
    }
    uint8_t t[32];
    if (i < n) {
        _mm_storeu_si128((void *)t, low);
        _mm_storeu_si128((void *)(t + 16), high);
    }
    for (; i < n; i++) dst[i] ^= t[src[i] & 15] ^ t[16 + (src[i] >> 4)];
}

__attribute__((noinline)) static void copy(uint8_t *dst, uint8_t c, const uint8_t *src, size_t n) {
    (void)c;
    memcpy(dst, src, n);
}

static double nanos(void) {
    struct timespec t;
    clock_gettime(CLOCK_MONOTONIC, &t);
    return t.tv_sec * 1e9 + t.tv_nsec;
}

static void time_one(const char *name, void (*kernel)(uint8_t *, uint8_t, const uint8_t *, size_t), size_t size, size_t row) {
    uint8_t *dst = calloc(size, 1), *src = malloc(size);
    if (!dst || !src) exit(1);
    memset(src, 0x5A, size);
    size_t rows = (1 << 21) / row;
    double best = 1e18;
    for (int round = 0; round < 25; round++) {
        double start = nanos();
        uint8_t factor = 2;
        for (size_t k = 0, at = 0; k < rows; k++, at += row) {
            if (at + row > size) at = 0;
            factor = factor < 255 ? factor + 1 : 2;
            kernel(dst + at, factor, src + at, row);
        }
        double gone = nanos() - start;
        if (gone < best) best = gone;
    }
    printf("%zu %zu %s %.0f\n", size, row, name, best * 1000 / rows);
    free(dst);
    free(src);
}

int main(void) {
    static const size_t sizes[] = {1 << 14, 1 << 20}, rows[] = {16, 64, 256, 1024, 2048};
    for (int s = 0; s < 2; s++)
        for (int r = 0; r < 5; r++) {
            time_one("c_copy", copy, sizes[s], rows[r]);
            time_one("c_add_scaled", add_scaled, sizes[s], rows[r]);
        }
    return 0;
}
