/* The paper's bench values through hingefrost.h, as structs and as arrays: identifiers, frames, messages; every entry, slices of
 * no elements at NULL, and how much stack they take. Prints what fails; exits with the number of failures. */
#include "../hingefrost.h"
#include <stdio.h>
#include <string.h>
#include <ucontext.h>

static int failed;
static void expect(int holds, const char *what) {
    if (!holds) {
        printf("C: %s\n", what);
        failed++;
    }
}

static const uint32_t LIST[] = {127489};

static void identifiers(void) {
    uint32_t v = 0;
    expect(hf_can_id_build(6, 127489, 35, HF_NOBODY, &v) == HF_OK && v == 0x19F20123, "P1");
    expect(hf_can_id_build(6, 60928, 35, 255, &v) == HF_OK && v == 0x18EEFF23, "P2");
    expect(hf_can_id_build(3, 126208, 35, 16, &v) == HF_OK && v == 0x0DED1023, "P3");
    uint32_t parts[HF_ID_PARTS];
    expect(hf_can_id_read(v, parts) == HF_OK && parts[HF_ID_PRIORITY] == 3 && parts[HF_ID_PGN] == 126208 && parts[HF_ID_SOURCE] == 35 && parts[HF_ID_DESTINATION] == 16,
           "P3 read back");
    expect(hf_can_id_read(0x19F20123, parts) == HF_OK && parts[HF_ID_PRIORITY] == 6 && parts[HF_ID_PGN] == 127489 && parts[HF_ID_SOURCE] == 35
               && parts[HF_ID_DESTINATION] == HF_NOBODY, "P1 read back");
    expect(hf_can_id_read(0x20000000, parts) == HF_REFUSED_TOO_WIDE && hf_can_id_read(0x99F20123, parts) == HF_REFUSED_TOO_WIDE && parts[HF_ID_PGN] == 127489,
           "2^29 and above: 8, and the parts as they were");
    expect(hf_can_id_read(0x1FFFFFFF, parts) == HF_OK && parts[HF_ID_PRIORITY] == 7 && parts[HF_ID_PGN] == 0x3FFFF && parts[HF_ID_SOURCE] == 255, "the last of 29 bits");
    expect(hf_can_id_build(6, 127489, 35, 16, &v) == HF_REFUSED_INVALID_FOR_FOCUSED_MESSAGE && v == 242, "P4");
    expect(hf_can_id_build(6, 60928, 35, HF_NOBODY, &v) == HF_REFUSED_INVALID_FOR_BROADCAST && v == 0, "P5");
    expect(hf_can_id_build(6, 60929, 35, 255, &v) == HF_REFUSED_PS_MUST_BE_NULL && v == 0, "P6");
    expect(hf_can_id_build(6, 0x40000, 35, HF_NOBODY, &v) == HF_REFUSED_INVALID_DATA && v == 0, "P7");
    expect(hf_can_id_build_with(127489, 35, HF_NOT_SET, HF_NOBODY, &v) == HF_OK && v == 0x19F20123, "priority 6 by default");
    expect(hf_can_id_build_to(126208, 35, 11, 16, &v) == HF_OK && v == 0x0DED1023, "a priority's low 3 bits");
}

static void short_frames(void) {
    uint8_t data[HF_FRAME_BYTES] = {1, 2, 3, 4, 5, 6, 7, 8};
    hf_fill_short(data, 8);
    expect(!memcmp(data, "\1\2\3\4\5\6\7\10", 8), "a whole frame");
    hf_fill_short(data, 2);
    expect(!memcmp(data, "\1\2\xFF\xFF\xFF\xFF\xFF\xFF", 8), "a frame of two bytes");
}

static void frames(void) {
    hf_builder b;
    hf_frame_iterator it;
    hf_frame f;
    uint8_t payload[HF_MAX_FAST_PACKET_PAYLOAD];
    for (int i = 0; i < HF_MAX_FAST_PACKET_PAYLOAD; i++) payload[i] = (uint8_t)(i + 1);
    expect(hf_builder_new(&b, 127489, 35, HF_NOBODY, payload, 3, LIST, 1, 2) == 3, "the number that the caller holds");
    hf_builder_build(&b, payload, 3, &it);
    expect(hf_frame_iterator_next(&it, &f) == HF_OK && !memcmp(f.data, "\x40\x03\x01\x02\x03\xFF\xFF\xFF", 8), "P8");
    expect(f.id == 0x19F20123 && f.length == 8 && it.place[HF_PLACE_INDEX] == 1 && it.place[HF_PLACE_SENT] == 3, "P8's identifier, length and progress");
    uint8_t data[HF_FRAME_BYTES];
    uint64_t frame[HF_FRAME_NUMBERS], after[HF_PLACE_NUMBERS];
    expect(hf_raw_next_frame(b.numbers, 0, 0, payload, 3, data, frame, after) == HF_OK && !memcmp(data, f.data, 8) && frame[HF_FRAME_ID] == f.id
               && frame[HF_FRAME_LENGTH] == 8 && after[HF_PLACE_INDEX] == 1 && after[HF_PLACE_SENT] == 3, "P8 by its place");
    hf_builder_new(&b, 60928, 35, 255, payload, 8, LIST, 1, 0);
    hf_builder_build(&b, payload, 8, &it);
    expect(hf_frame_iterator_next(&it, &f) == HF_OK && !memcmp(f.data, payload, 8), "eight bytes, unlisted: raw");
    int n = 0;
    hf_builder_new(&b, 127489, 35, HF_NOBODY, payload, HF_MAX_FAST_PACKET_PAYLOAD, LIST, 1, 7);
    hf_builder_build(&b, payload, HF_MAX_FAST_PACKET_PAYLOAD, &it);
    while (hf_frame_iterator_next(&it, &f) == HF_OK) n++;
    expect(n == 32 && it.place[HF_PLACE_INDEX] == 32 && it.place[HF_PLACE_SENT] == HF_MAX_FAST_PACKET_PAYLOAD, "223 bytes: 32 frames");
    expect(hf_frame_iterator_next(&it, &f) == HF_END, "and then End");
    hf_builder_with_sequence_id(&b, 9);
    hf_builder_with_priority(&b, 11);
    hf_builder_to_destination(&b, 16);
    expect(b.numbers[HF_BUILDER_SEQUENCE] == 1 && b.numbers[HF_BUILDER_PRIORITY] == 3 && b.numbers[HF_BUILDER_DESTINATION] == 16, "the setters");
    hf_builder_build(&b, payload, 10, &it);
    expect(hf_frame_iterator_next(&it, &f) == HF_REFUSED_INVALID_FOR_FOCUSED_MESSAGE && f.carried == 242 && f.id == 0 && f.length == 0, "a refusal, and its PF");
    hf_builder_new(&b, 127489, 35, HF_NOBODY, NULL, 0, NULL, 0, 0);
    hf_builder_build(&b, NULL, 0, &it);
    expect(hf_frame_iterator_next(&it, &f) == HF_REFUSED_EMPTY_PAYLOAD && hf_frame_iterator_next(&it, &f) == HF_END, "no payload and no list, at NULL: 7, and then End");
    expect(hf_raw_next_frame(b.numbers, 0, 0, NULL, 0, data, frame, after) == HF_REFUSED_EMPTY_PAYLOAD && after[HF_PLACE_INDEX] == 1, "the same by its place");
}

static hf_pool pool;
static hf_counters counters;
static hf_message message;

static int same(const hf_pool *a, const hf_pool *b) {
    return a->size == b->size && a->mode == b->mode && a->kind == b->kind && !memcmp(a->heads, b->heads, sizeof a->heads) && !memcmp(a->bytes, b->bytes, sizeof a->bytes);
}

static uint32_t hear(uint64_t now_ms, const char *data) {
    return hf_process_frame(&pool, &counters, LIST, 1, now_ms, 127489, 35, (const uint8_t *)data, &message);
}

/* A frame of which the first `length` bytes were sent. */
static uint32_t hear_cut(const char *data, size_t length) {
    return hf_process_frame_with_length(&pool, &counters, LIST, 1, 600, 127489, 35, (const uint8_t *)data, length, &message);
}

/* Whether the list has the PGN, by the answer to a frame. */
static int listed(const uint32_t *pgns, size_t pgns_len, uint32_t pgn) {
    return hf_process_frame(&pool, &counters, pgns, pgns_len, 0, pgn, 35, (const uint8_t *)"\x00\x06......", &message) != HF_NOT_LISTED;
}

static void lists(void) {
    static const uint32_t any[] = {130824, 127489, 127489, 0};
    hf_counters_new(&counters);
    hf_pool_default(&pool);
    expect(listed(any, 4, 0) && listed(any, 4, 127489) && !listed(any, 3, 0), "a list in any order");
    expect(listed(LIST, 1, 127489) && !listed(LIST, 1, 5) && !listed(NULL, 0, 0), "a list of one, and no list at all");
    expect(counters.counts[HF_UNKNOWN_PGN] == 3, "each PGN that was not listed is counted");
}

/* The table of a cut frame, each line on a pool with room. */
static void cut_frames(void) {
    hf_counters_new(&counters);
    hf_pool_default(&pool);
    expect(hear_cut("\x00\x07" "abcdef", 0) == HF_REJECTED && hear_cut("\x01.......", 0) == HF_REJECTED && counters.counts[HF_REJECTED_FRAMES] == 2, "length 0, any bytes");
    expect(hear_cut("\x00\x07" "abcdef", 1) == HF_REJECTED && hear_cut("\x00\x07" "abcdef", 7) == HF_REJECTED && counters.counts[HF_REJECTED_FRAMES] == 4
               && pool.heads[HF_SLOT_IN_PROGRESS] == 0, "seven announced, in one byte and in seven");
    expect(hear_cut("\x00\x03" "abc...", 4) == HF_REJECTED && hear_cut("\x00\x03" "abc...", 5) == HF_MESSAGE_COMPLETE && message.length == 3
               && !memcmp(message.payload, "abc\0", 4), "three announced, in four bytes and in five");
    expect(hear_cut("\x00\xE0......", 8) == HF_REJECTED && hear_cut("\x00\xE0......", 2) == HF_REJECTED, "224 announced");
    expect(hear_cut("\x00\x0E" "abcdef", 8) == HF_FRAGMENT_CONSUMED && hear_cut("\x01" "ghijkl.", 7) == HF_LOST && counters.counts[HF_LOST_FRAGMENTS] == 1
               && pool.heads[HF_SLOT_IN_PROGRESS] == 0, "fourteen announced, and a continuation of seven bytes: the session has ended");
    expect(hear_cut("\x00\x0E" "abcdef", 9) == HF_FRAGMENT_CONSUMED && hear_cut("\x01" "ghijklm", 8) == HF_FRAGMENT_CONSUMED && hear_cut("\x02n......", 2) == HF_MESSAGE_COMPLETE
               && message.length == 14 && !memcmp(message.payload, "abcdefghijklmn", 15), "and of eight, and the last one of two");
    expect(hear_cut("\x00\x08" "abcdef", 8) == HF_FRAGMENT_CONSUMED && hear_cut("\x01gh.....", 2) == HF_LOST && pool.heads[HF_SLOT_IN_PROGRESS] == 0, "eight announced, one byte short");
    expect(hear_cut("\x00\x08" "abcdef", 8) == HF_FRAGMENT_CONSUMED && hear_cut("\x01gh.....", 3) == HF_MESSAGE_COMPLETE && !memcmp(message.payload, "abcdefgh", 9), "and whole");
    static hf_pool before;
    before = pool;
    expect(hear_cut("\x01.......", 1) == HF_LOST && counters.counts[HF_LOST_FRAGMENTS] == 3 && same(&before, &pool), "a stray of one byte changes nothing");
}

static void messages(void) {
    hf_counters_new(&counters);
    expect(HF_POOL_SLOTS == 32 && hf_pool_new(&pool, 32) == HF_OK && pool.size == 32 && hear(0, "\x00\x07" "abcdef") == HF_FRAGMENT_CONSUMED, "a pool of 32, and a frame for it");
    expect(hf_pool_new(&pool, 33) == HF_REFUSED_IMPOSSIBLE_POOL && pool.size == 0, "a pool of 33: 1");
    hf_pool_default(&pool);
    expect(pool.size == HF_DEFAULT_SLOTS && pool.mode == HF_AS_ORIGINAL && pool.kind == HF_ORIGINAL, "four slots by default, as the original");
    expect(hf_pool_new(&pool, 1) == HF_OK && pool.size == 1 && pool.mode == HF_AS_ORIGINAL && pool.kind == HF_ORIGINAL, "one slot, as the original");
    expect(hear(0, "\x00\x00......") == HF_REJECTED && counters.counts[HF_REJECTED_FRAMES] == 1, "P9: announced 0");
    expect(hear(0, "\x00\xE0......") == HF_REJECTED && counters.counts[HF_REJECTED_FRAMES] == 2, "P9: announced 224");
    expect(hear(1000, "\x00\x07" "abcdef") == HF_FRAGMENT_CONSUMED, "P10: opened");
    expect(hear(1500, "\x01g......") == HF_MESSAGE_COMPLETE && message.length == 7 && !memcmp(message.payload, "abcdefg\0", 8), "P10 and P11: taken after 500 ms");
    expect(hear(1000, "\x00\x07" "abcdef") == HF_FRAGMENT_CONSUMED && hear(1501, "\x01g......") == HF_LOST && counters.counts[HF_LOST_FRAGMENTS] == 1
               && pool.heads[HF_SLOT_IN_PROGRESS] == 1, "P11: a stray after 501 ms");
    expect(hear(1500, "\x02g......") == HF_LOST && counters.counts[HF_LOST_FRAGMENTS] == 2 && pool.heads[HF_SLOT_IN_PROGRESS] == 0, "out of turn: the session has ended");
    expect(hear(1000, "\x00\x0E" "abcdef") == HF_FRAGMENT_CONSUMED && hear(0, "\x01g......") == HF_FRAGMENT_CONSUMED && pool.heads[HF_SLOT_LAST_TIME] == 0, "P12: continued at 0");
    expect(hear(0, "\x20\x07......") == HF_POOL_FULL && counters.counts[HF_POOL_EXHAUSTED] == 1, "one slot, another key: exhausted");
    expect(hear(0, "\x20\x00......") == HF_REJECTED && hear(0, "\x20\xE0......") == HF_REJECTED && counters.counts[HF_POOL_EXHAUSTED] == 1, "a full pool: announced 0 and 224");
    expect(hear(0, "\x20\x06......") == HF_MESSAGE_COMPLETE && message.length == 6, "a full pool: six bytes need no slot");
    expect(hear(501, "\x20\x07......") == HF_FRAGMENT_CONSUMED && counters.counts[HF_EXPIRED_SESSIONS] == 1, "silent 501: expired");
    expect(hf_process_frame(&pool, &counters, NULL, 0, 600, 127489, 35, (const uint8_t *)"\x00\x06......", &message) == HF_NOT_LISTED && counters.counts[HF_UNKNOWN_PGN] == 1,
           "an empty list, at NULL: unknown");
    expect(hf_receive(&pool, &counters, LIST, 1, 600, 127489, 35, (const uint8_t *)"\x00\x02" "ab....", &message) == HF_MESSAGE_COMPLETE
               && message.length == 2 && !memcmp(message.payload, "ab\0", 3), "by value");
    expect(hf_receive(&pool, &counters, NULL, 0, 600, 127489, 35, (const uint8_t *)"\x00\x02......", &message) == HF_NOT_LISTED
               && hf_receive(&pool, &counters, LIST, 1, 600, 127489, 35, (const uint8_t *)"\x00\x00......", &message) == HF_REJECTED
               && hf_receive(&pool, &counters, LIST, 1, 600, 127489, 35, (const uint8_t *)"\x00\x07......", &message) == HF_POOL_FULL
               && hf_receive(&pool, &counters, LIST, 1, 600, 127489, 35, (const uint8_t *)"\x01.......", &message) == HF_LOST, "by value: the four names");
    expect(hf_process_frame_with_length(&pool, &counters, NULL, 0, 600, 127489, 35, (const uint8_t *)"\x00\x02......", 0, &message) == HF_NOT_LISTED
               && hear_cut("\x00\x02......", 1) == HF_REJECTED && hear_cut("\x00\x07......", 8) == HF_POOL_FULL && hear_cut("\x01.......", 1) == HF_LOST,
           "with a length: the four names");
    pool.heads[HF_SLOT_SEQUENCE] = 8;
    message.payload[0] = 0xEE;
    expect(hear(0, "\x00\x06......") == HF_REFUSED_IMPOSSIBLE_POOL && message.length == 0 && message.payload[0] == 0xEE, "an impossible pool: 1, and the payload as it was");
    expect(hf_process_frame(&pool, &counters, NULL, 0, 0, 127489, 35, (const uint8_t *)"\x00\x06......", &message) == HF_REFUSED_IMPOSSIBLE_POOL
               && counters.counts[HF_UNKNOWN_PGN] == 3, "an impossible pool: 1, also where the PGN is not listed");
    expect(hf_pool_new(&pool, 33) == HF_REFUSED_IMPOSSIBLE_POOL && pool.size == 0 && pool.heads[HF_SLOT_SEQUENCE] == 8, "a pool of 33 leaves the heads as they were");
    pool.heads[HF_SLOT_IN_PROGRESS] = 2;
    pool.heads[HF_SLOT_SOURCE] = 300;
    pool.size = HF_POOL_SLOTS + 1;
    expect(hear(0, "\x00\x06......") == HF_REFUSED_IMPOSSIBLE_POOL && pool.heads[HF_SLOT_IN_PROGRESS] == 2 && pool.heads[HF_SLOT_SOURCE] == 300,
           "a refusal leaves numbers wider than their fields");
}

/* A pool of one slot in this mode, whose message was last heard at 1000. */
static void half_heard(uint32_t mode) {
    hf_counters_new(&counters);
    expect(hf_pool_with_mode(&pool, 1, mode) == HF_OK && pool.size == 1 && pool.mode == mode && pool.kind == HF_ORIGINAL, "a pool in a mode");
    expect(hear(1000, "\x00\x0E" "abcdef") == HF_FRAGMENT_CONSUMED, "opened at 1000");
}

/* The table of a clock that was set back, each line on a pool of its own. */
static void clock_set_back(void) {
    static hf_pool before;
    half_heard(HF_SET_BACK_IS_SILENCE);
    before = pool;
    expect(hear(999, "\x01ghijklm") == HF_LOST && counters.counts[HF_LOST_FRAGMENTS] == 1 && same(&before, &pool), "continued at 999: a stray, and the slot as it was");
    expect(hear(0, "\x01ghijklm") == HF_LOST && hear(1501, "\x01ghijklm") == HF_LOST && counters.counts[HF_LOST_FRAGMENTS] == 3 && same(&before, &pool), "and at 0, P12, and at 1501");
    expect(hear(1000, "\x01ghijklm") == HF_FRAGMENT_CONSUMED && pool.heads[HF_SLOT_LAST_TIME] == 1000, "continued at 1000: taken");
    expect(hear(1500, "\x02n......") == HF_MESSAGE_COMPLETE && message.length == 14 && pool.heads[HF_SLOT_IN_PROGRESS] == 0 && pool.heads[HF_SLOT_LAST_TIME] == 1500,
           "and at 1500; the reset keeps the time");
    expect(hear(0, "\x20\x07" "abcdef") == HF_FRAGMENT_CONSUMED && counters.counts[HF_EXPIRED_SESSIONS] == 0, "an idle slot is free, whatever its time");
    half_heard(HF_SET_BACK_IS_SILENCE);
    expect(hear(999, "\x00\x07" "abcdef") == HF_FRAGMENT_CONSUMED && counters.counts[HF_EXPIRED_SESSIONS] == 1 && pool.heads[HF_SLOT_LAST_TIME] == 999, "begun again at 999: expired");
    half_heard(HF_SET_BACK_IS_SILENCE);
    expect(hear(999, "\x20\x07" "abcdef") == HF_FRAGMENT_CONSUMED && counters.counts[HF_EXPIRED_SESSIONS] == 1 && pool.heads[HF_SLOT_SEQUENCE] == 1, "another key at 999: expired");
    expect(hear(UINT64_MAX, "\x21g......") == HF_LOST && hear(UINT64_MAX, "\x20\x07" "abcdef") == HF_FRAGMENT_CONSUMED && hear(0, "\x21g......") == HF_LOST
               && hear(0, "\x20\x07" "abcdef") == HF_FRAGMENT_CONSUMED && counters.counts[HF_EXPIRED_SESSIONS] == 3, "from one end of the clock to the other, and back");
    half_heard(HF_AS_ORIGINAL);
    expect(hear(999, "\x20\x07" "abcdef") == HF_POOL_FULL && hear(999, "\x01ghijklm") == HF_FRAGMENT_CONSUMED && pool.heads[HF_SLOT_LAST_TIME] == 999, "as the original: alive at 999");
}

/* What each call of the original's kind answers to a frame of this PGN, if all answer alike, and 0 else; the batch may write into its rows. */
static uint32_t by_every_old_call(const uint32_t *pgns, size_t pgns_len, uint32_t pgn, const char *bytes) {
    const uint8_t *data = (const uint8_t *)bytes;
    const uint64_t times[1] = {1000};
    const uint8_t sources[1] = {35};
    uint64_t counts[HF_COUNTS];
    uint8_t kinds[1], lengths[1], arena[8];
    const uint32_t answer = hf_process_frame(&pool, &counters, pgns, pgns_len, 1000, pgn, 35, data, &message);
    const int alike = hf_receive(&pool, &counters, pgns, pgns_len, 1000, pgn, 35, data, &message) == answer
                      && hf_process_frame_with_length(&pool, &counters, pgns, pgns_len, 1000, pgn, 35, data, 8, &message) == answer
                      && hf_process_frames(&pool, &counters, pgns, pgns_len, 1, times, &pgn, sources, data, kinds, lengths, arena, 8, counts) == answer && counts[HF_COUNT_TAKEN] == 0;
    return alike ? answer : 0;
}

/* The same of each call of the other kind, to a frame with this identifier. */
static uint32_t by_every_new_call(const uint32_t *pgns, size_t pgns_len, uint32_t id, const char *bytes) {
    const uint8_t *data = (const uint8_t *)bytes;
    const uint32_t answer = hf_process_frame_by_id(&pool, &counters, pgns, pgns_len, 1000, id, data, &message);
    const int alike = hf_receive_by_id(&pool, &counters, pgns, pgns_len, 1000, id, data, &message) == answer
                      && hf_process_frame_by_id_with_length(&pool, &counters, pgns, pgns_len, 1000, id, data, 8, &message) == answer;
    return alike ? answer : 0;
}

/* One gateway's 126208 to two displays, P3 and beside it, and P1, which goes to everybody. */
#define TO_16 0x0DED1023
#define TO_17 0x0DED1123
#define TO_EVERYBODY 0x19F20123
static const uint32_t BOTH[] = {126208, 127489};

/* Every call refuses the pool by 1, listed or not, but by 8 before it where an identifier is too wide; and nothing has changed. */
static void refused_by_every_call(const char *what) {
    static hf_pool before;
    static hf_counters counted;
    before = pool;
    counted = counters;
    for (size_t listed = 0; listed <= 2; listed += 2) {
        expect(by_every_old_call(BOTH, listed, 127489, "\x00\x06......") == HF_REFUSED_IMPOSSIBLE_POOL && by_every_old_call(BOTH, listed, 126208, "\x01.......") == HF_REFUSED_IMPOSSIBLE_POOL, what);
        expect(by_every_new_call(BOTH, listed, TO_EVERYBODY, "\x00\x06......") == HF_REFUSED_IMPOSSIBLE_POOL && by_every_new_call(BOTH, listed, TO_16, "\x01.......") == HF_REFUSED_IMPOSSIBLE_POOL, what);
        expect(by_every_new_call(BOTH, listed, 0x20000000, "\x00\x06......") == HF_REFUSED_TOO_WIDE && by_every_new_call(BOTH, listed, UINT32_MAX, "\x01.......") == HF_REFUSED_TOO_WIDE, what);
    }
    expect(message.length == 0 && same(&before, &pool) && !memcmp(&counted, &counters, sizeof counters), what);
}

/* Numbers that are no mode, and no kind: none is made by them, and every call refuses them. */
static void neither(void) {
    static const uint32_t numbers[] = {2, 3, 255, 256, UINT32_MAX};
    static hf_pool before;
    for (int i = 0; i < 5; i++) {
        half_heard(HF_SET_BACK_IS_SILENCE);
        before = pool;
        before.size = 0;
        before.mode = HF_AS_ORIGINAL;
        expect(hf_pool_with_mode(&pool, 1, numbers[i]) == HF_REFUSED_IMPOSSIBLE_POOL && same(&before, &pool), "no mode: 1, size 0, and the slots as they were");
        before.kind = HF_ADDRESSED;
        expect(hf_pool_with_kind(&pool, 1, numbers[i], HF_ADDRESSED) == HF_REFUSED_IMPOSSIBLE_POOL && same(&before, &pool), "no mode of a kind: 1, of that kind");
        before.mode = HF_SET_BACK_IS_SILENCE;
        before.kind = HF_ORIGINAL;
        expect(hf_pool_with_kind(&pool, 1, HF_SET_BACK_IS_SILENCE, numbers[i]) == HF_REFUSED_IMPOSSIBLE_POOL && same(&before, &pool), "no kind in a mode: 1, in that mode");
        half_heard(HF_SET_BACK_IS_SILENCE);
        pool.mode = numbers[i];
        refused_by_every_call("no mode: 1, and nothing has changed");
        half_heard(HF_SET_BACK_IS_SILENCE);
        pool.kind = numbers[i];
        refused_by_every_call("no kind: 1, and nothing has changed");
    }
    half_heard(HF_AS_ORIGINAL);
    expect(hf_pool_with_mode(&pool, 33, HF_SET_BACK_IS_SILENCE) == HF_REFUSED_IMPOSSIBLE_POOL && pool.size == 0 && pool.mode == HF_SET_BACK_IS_SILENCE
               && pool.heads[HF_SLOT_IN_PROGRESS] == 1, "a pool of 33 in a mode: 1, and of size 0 in it");
    expect(hf_pool_with_kind(&pool, 33, HF_AS_ORIGINAL, HF_ADDRESSED) == HF_REFUSED_IMPOSSIBLE_POOL && pool.size == 0 && pool.kind == HF_ADDRESSED
               && pool.heads[HF_SLOT_IN_PROGRESS] == 1, "a pool of 33 of a kind: 1, and of size 0 of it");
}

static void fresh_of(uint32_t kind) {
    hf_counters_new(&counters);
    expect(hf_pool_with_kind(&pool, 2, HF_AS_ORIGINAL, kind) == HF_OK && pool.size == 2 && pool.mode == HF_AS_ORIGINAL && pool.kind == kind, "a pool of a kind");
}

static uint32_t hear_by_id(uint32_t id, const char *data) {
    return hf_process_frame_by_id(&pool, &counters, BOTH, 2, 1000, id, (const uint8_t *)data, &message);
}

/* The same frames, whose identifiers the original's kind is not handed. */
static uint32_t hear_by_pgn(uint32_t pgn, const char *data) {
    return hf_process_frame(&pool, &counters, BOTH, 2, 1000, pgn, 35, (const uint8_t *)data, &message);
}

static int whole(const char *text) {
    return message.length == strlen(text) && !memcmp(message.payload, text, message.length);
}

/* The table of two displays. */
static void two_displays(void) {
    const uint64_t *second = pool.heads + HF_SLOT_NUMBERS;
    fresh_of(HF_ADDRESSED);
    expect(hear_by_id(TO_16, "\x00\x08" "abcdef") == HF_FRAGMENT_CONSUMED && hear_by_id(TO_17, "\x00\x08" "ABCDEF") == HF_FRAGMENT_CONSUMED
               && pool.heads[HF_SLOT_PGN] == 126208 && pool.heads[HF_SLOT_PART] == 17 && second[HF_SLOT_PGN] == 126208 && second[HF_SLOT_PART] == 18, "to 16 and to 17: two keys");
    expect(hear_by_id(0x0DED1223, "\x01ij.....") == HF_LOST && hear_by_id(TO_16, "\x01gh.....") == HF_MESSAGE_COMPLETE && whole("abcdefgh"), "to 18 none, to 16 whole");
    expect(hf_receive_by_id(&pool, &counters, BOTH, 2, 1000, TO_17, (const uint8_t *)"\x01GH.....", &message) == HF_MESSAGE_COMPLETE && whole("ABCDEFGH"), "and to 17 whole");
    expect(pool.heads[HF_SLOT_PART] == 0 && pool.heads[HF_SLOT_SOURCE] == 35 && second[HF_SLOT_PART] == 0 && second[HF_SLOT_SOURCE] == 35, "a reset makes the part none");
    expect(hear_by_id(TO_16, "\x00\x08" "abcdef") == HF_FRAGMENT_CONSUMED
               && hf_process_frame_by_id_with_length(&pool, &counters, BOTH, 2, 1000, TO_16, (const uint8_t *)"\x01gh.....", 2, &message) == HF_LOST && pool.heads[HF_SLOT_IN_PROGRESS] == 0
               && pool.heads[HF_SLOT_PART] == 0, "cut short: the session has ended");
    expect(hear_by_id(TO_EVERYBODY, "\x00\x08" "abcdef") == HF_FRAGMENT_CONSUMED && pool.heads[HF_SLOT_PGN] == 127489 && pool.heads[HF_SLOT_PART] == 0
               && hear_by_id(TO_EVERYBODY, "\x01gh.....") == HF_MESSAGE_COMPLETE && whole("abcdefgh"), "127489: a key with none, as in the original's kind");
    expect(hf_process_frame_by_id(&pool, &counters, NULL, 0, 1000, TO_16, (const uint8_t *)"\x00\x06......", &message) == HF_NOT_LISTED && counters.counts[HF_UNKNOWN_PGN] == 1, "not listed");
    fresh_of(HF_ORIGINAL);
    expect(hear_by_pgn(126208, "\x00\x08" "abcdef") == HF_FRAGMENT_CONSUMED && hear_by_pgn(126208, "\x00\x08" "ABCDEF") == HF_FRAGMENT_CONSUMED
               && hear_by_pgn(126208, "\x01gh.....") == HF_MESSAGE_COMPLETE && whole("ABCDEFgh") && hear_by_pgn(126208, "\x01GH.....") == HF_LOST && second[HF_SLOT_LAST_TIME] == 0,
           "the same in the original's kind: one key, as the original has it");
}

/* A pool of this kind at the other's entries. */
static void other_kind(void) {
    static hf_pool before;
    fresh_of(HF_ORIGINAL);
    before = pool;
    expect(by_every_new_call(BOTH, 2, TO_16, "\x00\x06......") == HF_REFUSED_IMPOSSIBLE_POOL && by_every_new_call(BOTH, 0, TO_EVERYBODY, "\x00\x06......") == HF_REFUSED_IMPOSSIBLE_POOL
               && by_every_new_call(BOTH, 2, 0x20000000, "\x00\x06......") == HF_REFUSED_TOO_WIDE && same(&before, &pool), "the original's kind by the identifier: 1, but 8 before it");
    fresh_of(HF_ADDRESSED);
    before = pool;
    expect(by_every_old_call(BOTH, 2, 126208, "\x00\x06......") == HF_REFUSED_IMPOSSIBLE_POOL && by_every_old_call(BOTH, 0, 127489, "\x00\x06......") == HF_REFUSED_IMPOSSIBLE_POOL
               && same(&before, &pool), "the other kind by PGN and source: 1");
    expect(by_every_new_call(BOTH, 2, 0x20000000, "\x00\x06......") == HF_REFUSED_TOO_WIDE && message.length == 0 && same(&before, &pool), "an identifier of 2^29: 8");
    expect(counters.counts[HF_UNKNOWN_PGN] == 0, "and nothing is counted");
}

/* A pool of this kind with a slot half heard, of this PGN and with this part. */
static void half_heard_with(uint32_t kind, uint32_t pgn, uint64_t part) {
    static const uint64_t head[HF_SLOT_NUMBERS] = {[HF_SLOT_IN_PROGRESS] = 1, [HF_SLOT_SOURCE] = 35, [HF_SLOT_EXPECTED_SIZE] = 14, [HF_SLOT_CURRENT_SIZE] = 6, [HF_SLOT_LAST_TIME] = 1000};
    fresh_of(kind);
    memcpy(pool.heads, head, sizeof head);
    pool.heads[HF_SLOT_PGN] = pgn;
    pool.heads[HF_SLOT_PART] = part;
}

/* The table of the part: which a slot in progress may have by its PGN. */
static void parts(void) {
    half_heard_with(HF_ADDRESSED, 126208, 0);
    refused_by_every_call("126208 with none: 1");
    half_heard_with(HF_ADDRESSED, 127489, 17);
    refused_by_every_call("127489 to 16: 1");
    half_heard_with(HF_ADDRESSED, 126208, 257);
    refused_by_every_call("126208 with a part past the last destination: 1");
    half_heard_with(HF_ORIGINAL, 126208, 17);
    refused_by_every_call("a destination in the original's kind: 1");
    half_heard_with(HF_ADDRESSED, 126208, 256);
    expect(hear_by_id(0x0DEDFE23, "\x01ghijklm") == HF_LOST && hear_by_id(0x0DEDFF23, "\x01ghijklm") == HF_FRAGMENT_CONSUMED, "126208 to 255: taken");
    half_heard_with(HF_ADDRESSED, 126208, 65536 + 17);
    expect(hear_by_id(TO_16, "\x01ghijklm") == HF_FRAGMENT_CONSUMED && pool.heads[HF_SLOT_PART] == 65536 + 17, "a part is read modulo 65536, and not written where it stays");
    for (uint32_t kind = HF_ORIGINAL; kind <= HF_ADDRESSED; kind++) {
        half_heard_with(kind, 126208, 65535);
        pool.heads[HF_SLOT_IN_PROGRESS] = 0;
        expect((kind == HF_ORIGINAL ? hear_by_pgn(126208, "\x01ghijklm") : hear_by_id(TO_16, "\x01ghijklm")) == HF_LOST && pool.heads[HF_SLOT_PART] == 65535, "an idle slot: not looked at");
        pool.heads[HF_SLOT_IN_PROGRESS] = 1;
        pool.size = 0;
        expect((kind == HF_ORIGINAL ? hear_by_pgn(126208, "\x01ghijklm") : hear_by_id(TO_16, "\x01ghijklm")) == HF_LOST && pool.heads[HF_SLOT_PART] == 65535, "past the size: not looked at");
    }
}

static void bench(void) {
    uint32_t ids[8];
    uint8_t bytes[64], arena[64], payload[26] = {0};
    size_t lens[8], laid, list[2 * HF_LIST_ROW];
    uint64_t values[HF_VALUES];
    payload[11] = 5;
    payload[19] = 0xFF;
    ids[0] = 0x18EEFF23;
    lens[0] = 8;
    memset(bytes, 0, 8);
    expect(hf_frame_count(5, 39, 6) == 4, "39 bytes hold 4 frames");
    expect(hf_fast_packet_frames(0x19F20123, 3, payload, 26, ids + 1, 7, bytes + 8, 56, lens + 1, 7, &laid) == HF_OK && laid == 4, "26 bytes: 4 frames");
    expect(hf_fast_packet_frames(0x19F20123, 8, payload, 26, ids + 1, 7, bytes + 8, 56, lens + 1, 7, &laid) == HF_REFUSED_BAD_SPLIT && laid == 0, "sequence 8: 28");
    expect(hf_fast_packet_frames(0x19F20123, 3, NULL, 0, NULL, 0, NULL, 0, NULL, 0, &laid) == HF_REFUSED_BAD_SPLIT && laid == 0, "no payload and no rows, at NULL: 28");
    expect(hf_fast_packet_frames(0x19F20123, 3, payload, 26, ids + 1, 3, bytes + 8, 56, lens + 1, 7, &laid) == HF_REFUSED_NO_ROOM && laid == 0, "a short row: 27");
    expect(hf_reassemble(ids, 5, bytes, 40, lens, 5, 35, 127489, list, 6, arena, 64, values) == HF_OK && values[0] == 1 && list[0] == 3 && list[1] == 0 && list[2] == 26
               && !memcmp(arena, payload, 26), "reassembled");
    expect(hf_reassemble(ids, 4, bytes, 40, lens, 5, 35, 127489, list, 6, arena, 64, values) == HF_REFUSED_INCOMPLETE && values[0] == 26, "a frame less: 26");
    expect(hf_reassemble(NULL, 0, NULL, 0, NULL, 0, 35, 127489, NULL, 0, NULL, 0, values) == HF_OK && values[0] == 0, "no rows at all, at NULL: no message");
    expect(hf_check_tx(ids, 5, bytes, 40, lens, 5, 35, 1, 5, values) == HF_OK, "the transmit check");
    expect(hf_check_tx(ids, 5, bytes, 40, lens, 5, 35, 1, 6, values) == HF_REFUSED_HOURS && values[0] == 0, "other hours: 35");
    expect(hf_check_tx(ids, 5, bytes, 40, lens, 5, 35, 2, 5, values) == HF_REFUSED_COUNT && values[0] == 1, "another count: 33");
    expect(hf_check_tx(NULL, 0, NULL, 0, NULL, 0, 35, 1, 5, values) == HF_REFUSED_NO_CLAIM, "no rows at all, at NULL: 32");
    ids[3] |= 0x80000000;
    lens[1] = 7;
    expect(hf_reassemble(ids, 5, bytes, 40, lens, 5, 35, 127489, list, 6, arena, 64, values) == HF_REFUSED_FRAME_TOO_WIDE && values[0] == 3
               && hf_reassemble(ids, 5, bytes, 40, lens, 5, 36, 127489, NULL, 0, NULL, 0, values) == HF_REFUSED_FRAME_TOO_WIDE && values[0] == 3 && list[2] == 26,
           "a flag at frame 3: 29, whatever else is wrong and whatever is lent");
    expect(hf_reassemble(ids, 3, bytes, 40, lens, 5, 35, 127489, list, 6, arena, 64, values) == HF_REFUSED_FRAME_LENGTH && values[0] == 1, "past the shortest row it does not count");
    expect(hf_check_tx(ids, 5, bytes, 40, lens, 5, 35, 0, 5, values) == HF_REFUSED_NO_COUNT
               && hf_check_tx(ids, 5, bytes, 40, lens, 5, 35, 2, 0xFFFFFFFF, values) == HF_REFUSED_HOURS_OVER
               && hf_check_tx(ids, 5, bytes, 40, lens, 5, 36, 1, 5, values) == HF_REFUSED_FRAME_TOO_WIDE && values[0] == 3, "the transmit check: 30, 31, 29, and then 32");
    expect(hf_fast_packet_frames(0x20000000, 8, payload, 26, ids, 8, bytes, 64, lens, 8, &laid) == HF_REFUSED_BAD_SPLIT
               && hf_fast_packet_frames(0x20000000, 3, payload, 26, ids, 1, bytes, 64, lens, 8, &laid) == HF_REFUSED_TOO_WIDE && laid == 0 && lens[1] == 7, "the splitter: 28, 8, and then 27");
}

static void batch_names(void) {
    static const uint64_t times[5];
    static const uint8_t sources[5];
    static const uint32_t pgns[5] = {127489, 127489, 127489, 127489, 5};
    const uint8_t *data = (const uint8_t *)"\x00\x07......" "\x20\x07......" "\x20\x00......" "\x21......." "\x20\x06......";
    uint64_t counts[HF_COUNTS];
    uint8_t kinds[5], lengths[5];
    hf_counters_new(&counters);
    hf_pool_new(&pool, 1);
    expect(hf_process_frames(&pool, &counters, LIST, 1, 5, times, pgns, sources, data, kinds, lengths, NULL, 0, counts) == HF_OK && counts[HF_COUNT_TAKEN] == 5
               && kinds[0] == HF_FRAGMENT_CONSUMED && kinds[1] == HF_POOL_FULL && kinds[2] == HF_REJECTED && kinds[3] == HF_LOST && kinds[4] == HF_NOT_LISTED, "a batch: the four names");
    expect(counters.counts[HF_POOL_EXHAUSTED] == 1 && counters.counts[HF_REJECTED_FRAMES] == 1 && counters.counts[HF_LOST_FRAGMENTS] == 1
               && counters.counts[HF_UNKNOWN_PGN] == 1 && counters.counts[HF_EXPIRED_SESSIONS] == 0, "a batch: the counters of the four names");
}

static void batch(void) {
    uint64_t counts[HF_COUNTS], times[2] = {0, 1};
    uint8_t sources[2] = {35, 35}, kinds[2], lengths[2], arena[16];
    uint32_t pgns[2] = {127489, 127489};
    const uint8_t *data = (const uint8_t *)"\x00\x07" "abcdef" "\x01g......";
    hf_counters_new(&counters);
    hf_pool_new(&pool, 4);
    expect(hf_process_frames(&pool, &counters, LIST, 1, 2, times, pgns, sources, data, kinds, lengths, arena, 6, counts) == HF_OK && counts[HF_COUNT_TAKEN] == 1
               && counts[HF_COUNT_USED] == 0 && kinds[0] == HF_FRAGMENT_CONSUMED, "a batch stops where the arena is full");
    expect(hf_process_frames(&pool, &counters, LIST, 1, 2, times, pgns, sources, data, kinds, lengths, arena, 16, counts) == HF_OK && counts[HF_COUNT_TAKEN] == 2
               && counts[HF_COUNT_USED] == 7 && kinds[1] == HF_MESSAGE_COMPLETE && lengths[1] == 7 && !memcmp(arena, "abcdefg", 7), "a batch");
    expect(hf_process_frames(&pool, &counters, NULL, 0, 2, times, pgns, sources, data, kinds, lengths, NULL, 0, counts) == HF_OK && counts[HF_COUNT_TAKEN] == 2
               && kinds[1] == HF_NOT_LISTED && counters.counts[HF_UNKNOWN_PGN] == 2, "a batch with no list and no arena, at NULL");
    expect(hf_process_frames(&pool, &counters, NULL, 0, 0, NULL, NULL, NULL, NULL, NULL, NULL, NULL, 0, counts) == HF_OK && counts[HF_COUNT_TAKEN] == 0, "a batch of no frames, at NULL");
    expect(hf_raw_process_frames(pool.size, pool.mode, pool.kind, pool.heads, pool.bytes, counters.counts, LIST, 1, times, 2, pgns, 1, sources, 2, data, 16, kinds, 2, lengths, 2,
                                 arena, 16, counts) == HF_REFUSED_NO_ROOM && counts[HF_COUNT_TAKEN] == 0, "a row too short: 27");
}

/* All of the above on a stack of its own, painted first: what is not the paint any more was used. */
static _Alignas(64) uint8_t stack[4 * HF_STACK_BYTES];
static void calls(void) {
    identifiers();
    short_frames();
    frames();
    lists();
    cut_frames();
    messages();
    clock_set_back();
    neither();
    two_displays();
    other_kind();
    parts();
    batch();
    batch_names();
    bench();
}
static size_t stack_of(void (*run)(void)) {
    ucontext_t here, there;
    memset(stack, 0xA5, sizeof stack);
    getcontext(&there);
    there.uc_stack.ss_sp = stack;
    there.uc_stack.ss_size = sizeof stack;
    there.uc_link = &here;
    makecontext(&there, run, 0);
    swapcontext(&here, &there);
    size_t untouched = 0;
    while (untouched < sizeof stack && stack[untouched] == 0xA5) untouched++;
    return sizeof stack - untouched;
}

int main(void) {
    size_t used = stack_of(calls);
    expect(used <= HF_STACK_BYTES, "a call took more stack than HF_STACK_BYTES");
    if (!failed) printf("C: the paper's values through hingefrost.h: all alike, with at most %zu bytes of stack\n", used);
    return failed;
}
