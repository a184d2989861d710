/* Calls the archive's entries for a Rust host in another process: reads calls from standard input and writes what they gave
 * (host/port/src/piped.rs is the other end). No header of C's library is needed, so that the kit's own compiler builds it. */
#include "hingefrost.h"
long read(int, void *, unsigned long);
long write(int, const void *, unsigned long);
void *malloc(unsigned long);
void free(void *);

static int all(void *p, uint64_t n) {
    uint8_t *b = p;
    while (n) {
        long k = read(0, b, n);
        if (k <= 0) return 0;
        b += k;
        n -= (uint64_t)k;
    }
    return 1;
}

static uint8_t out[1 << 20];
static uint64_t filled;
static void flush(void) {
    uint8_t *b = out;
    while (filled) {
        long k = write(1, b, filled);
        if (k <= 0) return;
        b += k;
        filled -= (uint64_t)k;
    }
}
static void put(const void *p, uint64_t n) {
    const uint8_t *b = p;
    while (n--) {
        if (filled == sizeof out) flush();
        out[filled++] = *b++;
    }
}

struct slice { void *p; uint64_t n, back; };
#define S(k) (s[k].p)
#define N(k, T) (s[k].n / sizeof(T))
/* A pool's size, mode and kind stand first among the numbers of each call on one. */
#define P x[0], (uint32_t)x[1], (uint32_t)x[2]

static uint64_t call(uint64_t entry, const uint64_t *x, struct slice *s) {
    switch (entry) {
    case 0: return hf_can_id_read((uint32_t)x[0], S(0));
    case 1: return hf_can_id_build((uint8_t)x[0], (uint32_t)x[1], (uint8_t)x[2], (uint16_t)x[3], S(0));
    case 2: return hf_can_id_build_with((uint32_t)x[0], (uint8_t)x[1], (uint16_t)x[2], (uint16_t)x[3], S(0));
    case 3: return hf_can_id_build_to((uint32_t)x[0], (uint8_t)x[1], (uint8_t)x[2], (uint8_t)x[3], S(0));
    case 4: hf_fill_short(S(0), x[0]); return 0;
    case 5: return hf_raw_builder_new((uint32_t)x[0], (uint8_t)x[1], (uint16_t)x[2], S(0), N(0, uint8_t), S(1), N(1, uint32_t), (uint8_t)x[3], S(2));
    case 6: hf_raw_builder_with_sequence_id(S(0), (uint8_t)x[0]); return 0;
    case 7: hf_raw_builder_with_priority(S(0), (uint8_t)x[0]); return 0;
    case 8: hf_raw_builder_to_destination(S(0), (uint8_t)x[0]); return 0;
    case 9: return hf_raw_next_frame(S(0), (uint8_t)x[0], x[1], S(1), N(1, uint8_t), S(2), S(3), S(4));
    case 10: hf_raw_builder_build(S(0), S(1)); return 0;
    case 11: return hf_raw_frame_iterator_next(S(0), S(1), S(2), N(2, uint8_t), S(3), S(4));
    case 12: return hf_raw_pool_new(x[0], S(0), S(1), S(2), S(3), S(4));
    case 13: return hf_raw_pool_default(S(0), S(1), S(2), S(3), S(4));
    case 14: return hf_raw_pool_with_mode(x[0], (uint32_t)x[1], S(0), S(1), S(2), S(3), S(4));
    case 15: return hf_raw_pool_with_kind(x[0], (uint32_t)x[1], (uint32_t)x[2], S(0), S(1), S(2), S(3), S(4));
    case 16: return hf_raw_process_frame(P, S(0), S(1), S(2), S(3), N(3, uint32_t), x[3], (uint32_t)x[4], (uint8_t)x[5], S(4), S(5), S(6));
    case 17: return hf_raw_receive(P, S(0), S(1), S(2), S(3), N(3, uint32_t), x[3], (uint32_t)x[4], (uint8_t)x[5], S(4), S(5), S(6));
    case 18: return hf_raw_process_frame_with_length(P, S(0), S(1), S(2), S(3), N(3, uint32_t), x[3], (uint32_t)x[4], (uint8_t)x[5], S(4), x[6], S(5), S(6));
    case 19: return hf_raw_process_frame_by_id(P, S(0), S(1), S(2), S(3), N(3, uint32_t), x[3], (uint32_t)x[4], S(4), S(5), S(6));
    case 20: return hf_raw_receive_by_id(P, S(0), S(1), S(2), S(3), N(3, uint32_t), x[3], (uint32_t)x[4], S(4), S(5), S(6));
    case 21: return hf_raw_process_frame_by_id_with_length(P, S(0), S(1), S(2), S(3), N(3, uint32_t), x[3], (uint32_t)x[4], S(4), x[5], S(5), S(6));
    case 22:
        return hf_raw_process_frames(P, S(0), S(1), S(2), S(3), N(3, uint32_t), S(4), N(4, uint64_t), S(5), N(5, uint32_t), S(6), N(6, uint8_t), S(7), N(7, uint8_t),
                                 S(8), N(8, uint8_t), S(9), N(9, uint8_t), S(10), N(10, uint8_t), S(11));
    case 23: return hf_reassemble(S(0), N(0, uint32_t), S(1), N(1, uint8_t), S(2), N(2, size_t), (uint8_t)x[0], (uint32_t)x[1], S(3), N(3, size_t), S(4), N(4, uint8_t), S(5));
    case 24: return hf_frame_count(x[0], x[1], x[2]);
    case 25: return hf_fast_packet_frames((uint32_t)x[0], (uint8_t)x[1], S(0), N(0, uint8_t), S(1), N(1, uint32_t), S(2), N(2, uint8_t), S(3), N(3, size_t), S(4));
    case 26: return hf_check_tx(S(0), N(0, uint32_t), S(1), N(1, uint8_t), S(2), N(2, size_t), (uint8_t)x[0], x[1], (uint32_t)x[2], S(3));
    }
    return ~0ul;
}

int main(void) {
    uint64_t entry, n, x[8];
    struct slice s[16];
    while (all(&entry, 8)) {
        if (!all(&n, 8) || n > 8 || !all(x, 8 * n)) return 2;
        uint64_t m;
        if (!all(&m, 8) || m > 16) return 2;
        for (uint64_t k = 0; k < m; k++) {
            if (!all(&s[k].n, 8) || !all(&s[k].back, 8)) return 2;
            s[k].p = malloc(s[k].n + 8);
            if (!all(s[k].p, s[k].n)) return 2;
        }
        uint64_t r = call(entry, x, s);
        put(&r, 8);
        for (uint64_t k = 0; k < m; k++) {
            if (s[k].back) put(s[k].p, s[k].n);
            free(s[k].p);
        }
        flush();
    }
    return 0;
}
