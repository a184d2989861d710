/* Hingefrost: NMEA 2000 Fast Packet for C and C++. Every function is total: no input is out of bounds, and the answer and all
 * lent memory are determined at every input.
 *
 * Link target/host/libhingefrost.a, which host/archive proves and makes for the machine that it runs on: x86-64 Linux, or Arm
 * (aarch64) Linux. Of C's library it needs memcpy and memset.
 *
 * Answers. A function that may refuse returns HF_OK, a refusal's number (1 to 99, docs/REFUSALS.md) or one of the kinds below.
 * A refusal changes no lent memory but what the answer itself is put into (*value, *size, *mode, *kind, *length, a message's
 * length, `counts`, `values`, *frames, and of the next frame `data`, `frame` and the progress that it makes).
 *
 * The PGN list is lent to each call that looks into it: any order; empty and repeated are allowed. Nothing is asked before a frame
 * is received: the answer says whether its PGN is listed.
 *
 * Pointers. A slice is a pointer and a length, in elements. A name with a number in brackets points to exactly that many
 * elements. All of it is the caller's, aligned as its type is.
 * - The numbers in brackets are those of the archive that comes with this header. Compile with the header of the archive that you
 *   link: the arrays of an older one may be too short.
 * - A slice of length 0 may have any pointer, NULL too. No other pointer may be NULL.
 * - What a call writes through must not overlap anything else that the same call is given, read or written. What it only reads
 *   may overlap.
 * - Nothing is kept: once a call has returned, no pointer that it was given is used again. There is no memory of the library's
 *   own, so calls are reentrant, and any threads may call at once on memory that is not shared.
 * - A call takes at most HF_STACK_BYTES of stack, and no memory but that and what it is lent. */
#ifndef HINGEFROST_H
#define HINGEFROST_H

#include <stddef.h>
#include <stdint.h>

#ifdef __cplusplus
extern "C" {
#endif

#define HF_STACK_BYTES 65536

/* ---- the sizes of what is lent */

#define HF_FRAME_BYTES 8               /* a CAN frame's bytes */
#define HF_MAX_FAST_PACKET_PAYLOAD 223 /* a message's bytes, at most */
#define HF_POOL_SLOTS 32               /* a pool's slots, at most */
#define HF_DEFAULT_SLOTS 4             /* those of hf_pool_default */
#define HF_SLOT_NUMBERS 9              /* the numbers of a slot, HF_SLOT_.. */
#define HF_POOL_HEADS (HF_POOL_SLOTS * HF_SLOT_NUMBERS)
#define HF_POOL_BYTES (HF_POOL_SLOTS * HF_MAX_FAST_PACKET_PAYLOAD)
#define HF_COUNTERS 5                  /* HF_EXPIRED_SESSIONS .. */
#define HF_BUILDER_NUMBERS 6           /* HF_BUILDER_PGN .. */
#define HF_PLACE_NUMBERS 2             /* HF_PLACE_INDEX .. */
#define HF_FRAME_NUMBERS 3             /* HF_FRAME_ID .. */
#define HF_ID_PARTS 4                  /* HF_ID_PRIORITY .. */
#define HF_COUNTS 2                    /* HF_COUNT_TAKEN .. */
#define HF_VALUES 5                    /* what a refusal of the bench carries, in docs/REFUSALS.md's order, then zeros */
#define HF_LIST_ROW 3                  /* of each message of the bench: sequence, start, length */

/* ---- the modes of a pool: what a slot in progress is where now is earlier than its last time, because the clock was set back. A mode is
 * chosen when the pool is made and stays with it. Any other number is no mode: no pool is made in it, and every call refuses it by 1. */

#define HF_AS_ORIGINAL 0         /* silent for 0 ms: it can live until the clock has come back */
#define HF_SET_BACK_IS_SILENCE 1 /* silent over 500 ms: free and expired for a first frame, and no continuation finds it */

/* ---- the kinds of a pool: which key its messages have. A kind is chosen when the pool is made and stays with it, and each has calls of its
 * own: those of the other refuse it by 1. Any other number is no kind: no pool is made of it, and every call refuses it by 1. */

#define HF_ORIGINAL 0  /* source, PGN and sequence; its calls take PGN and source */
#define HF_ADDRESSED 1 /* the destination too, or none where PF is 240 or more; its calls, hf_.._by_id.., take the identifier */

/* ---- answers */

#define HF_OK 0 /* done; of the next frame: here it is */

/* The kinds of an answer that is no refusal, of a single call and of a batch's row. 104 to 107 say why a frame was not taken, and which
 * counter went up by one (at its end it stays). 101 was HF_IGNORED, which said all four: it is given no more. */
#define HF_END 100               /* no frame is left */
#define HF_FRAGMENT_CONSUMED 102 /* the frame was taken, and more of its message is missing */
#define HF_MESSAGE_COMPLETE 103  /* the frame brought a message to its end */
#define HF_NOT_LISTED 104        /* the list lent to the call does not have the PGN; HF_UNKNOWN_PGN went up */
#define HF_REJECTED 105          /* a first frame announced 0 or more than 223 bytes, or was cut short, or a frame came without a byte;
                                  * HF_REJECTED_FRAMES went up */
#define HF_POOL_FULL 106         /* a first frame began a message of 7 bytes or more, and no slot was free or had its key; HF_POOL_EXHAUSTED went up */
#define HF_LOST 107              /* a continuation found no live session (a silent one stays as it is), or it came out of turn or without a byte
                                  * that its session needs, which ended the session; HF_LOST_FRAGMENTS went up */

/* Refusals; docs/REFUSALS.md says what each means and carries, and who gives it. 3 was HF_REFUSED_INVALID_DESTINATION, of the original's
 * list: no call gives it, and no other refusal has it. */
#define HF_REFUSED_IMPOSSIBLE_POOL 1
#define HF_REFUSED_INVALID_DATA 2
#define HF_REFUSED_INVALID_FOR_BROADCAST 4
#define HF_REFUSED_INVALID_FOR_FOCUSED_MESSAGE 5
#define HF_REFUSED_PS_MUST_BE_NULL 6
#define HF_REFUSED_EMPTY_PAYLOAD 7
#define HF_REFUSED_TOO_WIDE 8
#define HF_REFUSED_FRAME_LENGTH 20
#define HF_REFUSED_RESTARTED 21
#define HF_REFUSED_ANNOUNCED 22
#define HF_REFUSED_STRAY 23
#define HF_REFUSED_ORDER 24
#define HF_REFUSED_PADDING 25
#define HF_REFUSED_INCOMPLETE 26
#define HF_REFUSED_NO_ROOM 27
#define HF_REFUSED_BAD_SPLIT 28
#define HF_REFUSED_FRAME_TOO_WIDE 29
#define HF_REFUSED_NO_COUNT 30
#define HF_REFUSED_HOURS_OVER 31
#define HF_REFUSED_NO_CLAIM 32
#define HF_REFUSED_COUNT 33
#define HF_REFUSED_SIZE 34
#define HF_REFUSED_HOURS 35
#define HF_REFUSED_PATTERN 36
#define HF_REFUSED_SEQUENCE 37

/* ---- identifiers: 29 bits. A number of 2^29 or more, as one with a driver's flags in bits 29 to 31, is none, and is refused wherever an
 * identifier is read: take the flags off first, once they have said what kind of frame it is (of SocketCAN's can_id by CAN_EFF_MASK). */

#define HF_NOBODY 256 /* in the place of a destination: none */
#define HF_NOT_SET 256 /* in the place of a setter's priority: 6 stays */

enum { HF_ID_PRIORITY, HF_ID_PGN, HF_ID_SOURCE, HF_ID_DESTINATION };

/* HF_OK and the parts, the destination or HF_NOBODY; or 8 for a number of 2^29 or more, and the parts as they were. */
uint32_t hf_can_id_read(uint32_t id, uint32_t parts[HF_ID_PARTS]);

/* HF_OK and the identifier in *value; or 2, 4, 5, 6, and in *value the PF that 5 carries (0 for the others). A destination of
 * 256 or more is none. */
uint32_t hf_can_id_build(uint8_t priority, uint32_t pgn, uint8_t source_address, uint16_t destination, uint32_t *value);
/* The same by the setters, which keep a priority's low 3 bits; 256 or more leaves priority 6, or no destination. */
uint32_t hf_can_id_build_with(uint32_t pgn, uint8_t source_address, uint16_t priority, uint16_t destination, uint32_t *value);
uint32_t hf_can_id_build_to(uint32_t pgn, uint8_t source_address, uint8_t priority, uint8_t destination, uint32_t *value);

/* ---- a frame cut short */

/* Keeps the first min(len, 8) bytes and fills the rest with 0xFF. A frame that was heard short goes to hf_process_frame_with_length as it
 * is: filled up, it would be taken for one of eight bytes. */
void hf_fill_short(uint8_t data[HF_FRAME_BYTES], size_t len);

/* ---- from a payload to frames, as arrays; the structs below are the same with less to write */

/* The numbers of a builder (fast is 0 or 1), of a place in its message, and of a frame. */
enum { HF_BUILDER_PGN, HF_BUILDER_SOURCE, HF_BUILDER_DESTINATION, HF_BUILDER_PRIORITY, HF_BUILDER_SEQUENCE, HF_BUILDER_FAST };
enum { HF_PLACE_INDEX, HF_PLACE_SENT };
enum { HF_FRAME_ID, HF_FRAME_LENGTH, HF_FRAME_CARRIED };

/* Returns the number that the caller holds from now on. */
uint8_t hf_raw_builder_new(uint32_t pgn, uint8_t source_address, uint16_t destination, const uint8_t *payload, size_t payload_len,
                           const uint32_t *pgns, size_t pgns_len, uint8_t sequence_id, uint64_t builder[HF_BUILDER_NUMBERS]);
/* The setters refuse nothing and write all six numbers, each in the width of its field. */
void hf_raw_builder_with_sequence_id(uint64_t builder[HF_BUILDER_NUMBERS], uint8_t sequence_id);
void hf_raw_builder_with_priority(uint64_t builder[HF_BUILDER_NUMBERS], uint8_t priority);
void hf_raw_builder_to_destination(uint64_t builder[HF_BUILDER_NUMBERS], uint8_t destination);

/* HF_OK for a frame, HF_END, or a refusal. `frame` is identifier, length and what the refusal carries; `after` is the place that
 * follows. Without a frame, `data`, identifier and length are zeros. */
uint32_t hf_raw_next_frame(const uint64_t builder[HF_BUILDER_NUMBERS], uint8_t frame_index, size_t bytes_sent, const uint8_t *payload, size_t payload_len,
                           uint8_t data[HF_FRAME_BYTES], uint64_t frame[HF_FRAME_NUMBERS], uint64_t after[HF_PLACE_NUMBERS]);
/* The same with the place kept by the caller, from the one that hf_raw_builder_build gives. The index is read modulo 256, and
 * written only where it changes. */
void hf_raw_builder_build(const uint64_t builder[HF_BUILDER_NUMBERS], uint64_t place[HF_PLACE_NUMBERS]);
uint32_t hf_raw_frame_iterator_next(const uint64_t builder[HF_BUILDER_NUMBERS], uint64_t place[HF_PLACE_NUMBERS], const uint8_t *payload, size_t payload_len,
                                    uint8_t data[HF_FRAME_BYTES], uint64_t frame[HF_FRAME_NUMBERS]);

/* ---- from frames to messages, as arrays. Slot k of a pool is the numbers HF_SLOT_.. of `heads` from HF_SLOT_NUMBERS * k on,
 * and its buffer HF_MAX_FAST_PACKET_PAYLOAD of `bytes` from HF_MAX_FAST_PACKET_PAYLOAD * k on. */

enum {
    HF_SLOT_IN_PROGRESS, HF_SLOT_SOURCE, HF_SLOT_SEQUENCE, HF_SLOT_LAST_INDEX,
    HF_SLOT_PGN, HF_SLOT_PART, HF_SLOT_EXPECTED_SIZE, HF_SLOT_CURRENT_SIZE, HF_SLOT_LAST_TIME
};
/* HF_SLOT_PART is the part of a message's key that is its destination: 0 for none, or the destination plus 1. An idle slot's is not looked at. */
/* The counters' places; the answers that go with the last four are HF_POOL_FULL, HF_REJECTED, HF_LOST and HF_NOT_LISTED. */
enum { HF_EXPIRED_SESSIONS, HF_POOL_EXHAUSTED, HF_REJECTED_FRAMES, HF_LOST_FRAGMENTS, HF_UNKNOWN_PGN };

/* HF_OK and a fresh pool, with the numbers of its mode and kind in *mode and *kind: HF_AS_ORIGINAL and HF_ORIGINAL, or those asked for. Above
 * HF_POOL_SLOTS, 1 and *size 0, with `heads` and `bytes` as they were; the same where a number asked for is no mode or no kind, and then
 * *mode or *kind is 0. */
uint32_t hf_raw_pool_new(size_t wanted, uint64_t heads[HF_POOL_HEADS], uint8_t bytes[HF_POOL_BYTES], size_t *size, uint32_t *mode, uint32_t *kind);
uint32_t hf_raw_pool_default(uint64_t heads[HF_POOL_HEADS], uint8_t bytes[HF_POOL_BYTES], size_t *size, uint32_t *mode, uint32_t *kind);
uint32_t hf_raw_pool_with_mode(size_t wanted, uint32_t asked, uint64_t heads[HF_POOL_HEADS], uint8_t bytes[HF_POOL_BYTES], size_t *size, uint32_t *mode,
                               uint32_t *kind);
uint32_t hf_raw_pool_with_kind(size_t wanted, uint32_t asked, uint32_t asked_kind, uint64_t heads[HF_POOL_HEADS], uint8_t bytes[HF_POOL_BYTES],
                               size_t *size, uint32_t *mode, uint32_t *kind);

/* One of the kinds 102 to 107; or 1, whatever the PGN, and all lent memory but *length as it was: for a pool with a slot that no call
 * leaves, a size above HF_POOL_SLOTS, a number for its mode that is none, or any for its kind but HF_ORIGINAL. Each number of `heads` is
 * read in the width of its field (a flag is any number but 0, a source is taken modulo 256, a part modulo 65,536), and written only where
 * that field has changed. *length is the message's length, or 0 without one; `payload` holds the message and zeros after it, and is not
 * written without one. */
uint32_t hf_raw_process_frame(size_t size, uint32_t mode, uint32_t kind, uint64_t heads[HF_POOL_HEADS], uint8_t bytes[HF_POOL_BYTES],
                              uint32_t counters[HF_COUNTERS], const uint32_t *pgns, size_t pgns_len, uint64_t now_ms, uint32_t pgn,
                              uint8_t source_address, const uint8_t data[HF_FRAME_BYTES], uint8_t payload[HF_MAX_FAST_PACKET_PAYLOAD], size_t *length);
/* The same by the call that has the counters by value: fewer copies of the pool. */
uint32_t hf_raw_receive(size_t size, uint32_t mode, uint32_t kind, uint64_t heads[HF_POOL_HEADS], uint8_t bytes[HF_POOL_BYTES],
                        uint32_t counters[HF_COUNTERS], const uint32_t *pgns, size_t pgns_len, uint64_t now_ms, uint32_t pgn,
                        uint8_t source_address, const uint8_t data[HF_FRAME_BYTES], uint8_t payload[HF_MAX_FAST_PACKET_PAYLOAD], size_t *length);
/* Of the frame's eight bytes only the first min(frame_length, 8) were sent; at 8 or more it is hf_raw_process_frame. A frame of a
 * listed PGN without a byte is HF_REJECTED, and so is a first frame that lacks its size or a byte of the message: one that announces
 * n bytes has 2 + min(6, n) or more. A continuation that lacks a byte its live session needs is HF_LOST and ends the session. */
uint32_t hf_raw_process_frame_with_length(size_t size, uint32_t mode, uint32_t kind, uint64_t heads[HF_POOL_HEADS], uint8_t bytes[HF_POOL_BYTES],
                                          uint32_t counters[HF_COUNTERS], const uint32_t *pgns, size_t pgns_len, uint64_t now_ms, uint32_t pgn,
                                          uint8_t source_address, const uint8_t data[HF_FRAME_BYTES], size_t frame_length,
                                          uint8_t payload[HF_MAX_FAST_PACKET_PAYLOAD], size_t *length);

/* The same three for a pool of the kind HF_ADDRESSED: source, PGN and destination are those that hf_can_id_read reads in the identifier. 8 for
 * a number of 2^29 or more, before all else; then 1, also for any kind but HF_ADDRESSED; each with all lent memory but *length as it was. */
uint32_t hf_raw_process_frame_by_id(size_t size, uint32_t mode, uint32_t kind, uint64_t heads[HF_POOL_HEADS], uint8_t bytes[HF_POOL_BYTES],
                                    uint32_t counters[HF_COUNTERS], const uint32_t *pgns, size_t pgns_len, uint64_t now_ms, uint32_t id,
                                    const uint8_t data[HF_FRAME_BYTES], uint8_t payload[HF_MAX_FAST_PACKET_PAYLOAD], size_t *length);
uint32_t hf_raw_receive_by_id(size_t size, uint32_t mode, uint32_t kind, uint64_t heads[HF_POOL_HEADS], uint8_t bytes[HF_POOL_BYTES],
                              uint32_t counters[HF_COUNTERS], const uint32_t *pgns, size_t pgns_len, uint64_t now_ms, uint32_t id,
                              const uint8_t data[HF_FRAME_BYTES], uint8_t payload[HF_MAX_FAST_PACKET_PAYLOAD], size_t *length);
uint32_t hf_raw_process_frame_by_id_with_length(size_t size, uint32_t mode, uint32_t kind, uint64_t heads[HF_POOL_HEADS], uint8_t bytes[HF_POOL_BYTES],
                                                uint32_t counters[HF_COUNTERS], const uint32_t *pgns, size_t pgns_len, uint64_t now_ms, uint32_t id,
                                                const uint8_t data[HF_FRAME_BYTES], size_t frame_length,
                                                uint8_t payload[HF_MAX_FAST_PACKET_PAYLOAD], size_t *length);

/* Many frames in one call: rows of times, PGNs, sources and eight bytes a frame. HF_OK, 1 as hf_raw_process_frame, 27 for a row
 * shorter than `times`, each refusal with all lent memory but `counts` as it was. Of each frame taken, `kinds` gets its kind and
 * `lengths` the message's length; messages stand end to end from the arena's start. It stops before the first frame whose message
 * has no room. `counts` is the frames taken and the arena's bytes taken, 0 and 0 with a refusal. The heads are written as by
 * hf_raw_process_frame. */
enum { HF_COUNT_TAKEN, HF_COUNT_USED };
uint32_t hf_raw_process_frames(size_t size, uint32_t mode, uint32_t kind, uint64_t heads[HF_POOL_HEADS], uint8_t bytes[HF_POOL_BYTES],
                               uint32_t counters[HF_COUNTERS], const uint32_t *pgns, size_t pgns_len, const uint64_t *times, size_t times_len,
                               const uint32_t *frame_pgns, size_t frame_pgns_len, const uint8_t *sources, size_t sources_len,
                               const uint8_t *data, size_t data_len, uint8_t *kinds, size_t kinds_len,
                               uint8_t *lengths, size_t lengths_len, uint8_t *arena, size_t arena_len, uint64_t counts[HF_COUNTS]);

/* ---- the bench, over rows of identifiers, eight bytes a frame and lengths; the shortest row decides. `values` gets what is
 * given or what the refusal carries, and zeros. */

/* HF_OK and in values[0] the number of messages, or 29, or 20 to 27. The list gets HF_LIST_ROW numbers of each message; the arena their
 * bytes, end to end. */
uint32_t hf_reassemble(const uint32_t *ids, size_t ids_len, const uint8_t *bytes, size_t bytes_len, const size_t *lens, size_t lens_len, uint8_t source,
                       uint32_t pgn, size_t *list, size_t list_len, uint8_t *arena, size_t arena_len, uint64_t values[HF_VALUES]);
/* How many frames rows of these lengths hold. */
size_t hf_frame_count(size_t ids, size_t bytes, size_t lens);
/* HF_OK and the number of frames laid into the rows, or 28, 8 or 27 and 0. */
uint32_t hf_fast_packet_frames(uint32_t id, uint8_t sequence, const uint8_t *payload, size_t payload_len, uint32_t *ids, size_t ids_len, uint8_t *bytes,
                               size_t bytes_len, size_t *lens, size_t lens_len, size_t *frames);
/* HF_OK, or, in this order, 30, 31, 29, 32, 20 to 26, 33, and of each message 34 to 37. */
uint32_t hf_check_tx(const uint32_t *ids, size_t ids_len, const uint8_t *bytes, size_t bytes_len, const size_t *lens, size_t lens_len, uint8_t source,
                     size_t expected, uint32_t hours_base, uint64_t values[HF_VALUES]);

/* ---- the same as structs: what hf_raw_.. takes apart stands in one value */

typedef struct hf_pool {
    size_t size;
    uint32_t mode; /* HF_AS_ORIGINAL or HF_SET_BACK_IS_SILENCE, as it was made; no call changes it */
    uint32_t kind; /* HF_ORIGINAL or HF_ADDRESSED, likewise */
    uint64_t heads[HF_POOL_HEADS];
    uint8_t bytes[HF_POOL_BYTES];
} hf_pool;

/* counts[HF_LOST_FRAGMENTS], and so on; fresh ones are zeros. */
typedef struct hf_counters {
    uint32_t counts[HF_COUNTERS];
} hf_counters;

typedef struct hf_message {
    size_t length;
    uint8_t payload[HF_MAX_FAST_PACKET_PAYLOAD];
} hf_message;

typedef struct hf_builder {
    uint64_t numbers[HF_BUILDER_NUMBERS];
} hf_builder;

/* A builder, its place, and the payload, which must live as long as frames are asked for. */
typedef struct hf_frame_iterator {
    hf_builder builder;
    uint64_t place[HF_PLACE_NUMBERS];
    const uint8_t *payload;
    size_t payload_len;
} hf_frame_iterator;

/* What a refusal carries stands in `carried`. */
typedef struct hf_frame {
    uint32_t id;
    uint8_t data[HF_FRAME_BYTES];
    size_t length;
    uint64_t carried;
} hf_frame;

/* HF_OK, or 1 above HF_POOL_SLOTS: the pool is then of size 0, its slots as they were. The mode is HF_AS_ORIGINAL, the kind HF_ORIGINAL. */
static inline uint32_t hf_pool_new(hf_pool *pool, size_t wanted) {
    return hf_raw_pool_new(wanted, pool->heads, pool->bytes, &pool->size, &pool->mode, &pool->kind);
}
static inline void hf_pool_default(hf_pool *pool) {
    hf_raw_pool_default(pool->heads, pool->bytes, &pool->size, &pool->mode, &pool->kind);
}
/* The same in a mode of one's choice; 1 also where it is none. */
static inline uint32_t hf_pool_with_mode(hf_pool *pool, size_t wanted, uint32_t mode) {
    return hf_raw_pool_with_mode(wanted, mode, pool->heads, pool->bytes, &pool->size, &pool->mode, &pool->kind);
}
/* And of a kind of one's choice; 1 also where it is none. */
static inline uint32_t hf_pool_with_kind(hf_pool *pool, size_t wanted, uint32_t mode, uint32_t kind) {
    return hf_raw_pool_with_kind(wanted, mode, kind, pool->heads, pool->bytes, &pool->size, &pool->mode, &pool->kind);
}
static inline void hf_counters_new(hf_counters *counters) {
    for (int i = 0; i < HF_COUNTERS; i++) counters->counts[i] = 0;
}

/* HF_NOT_LISTED, HF_REJECTED, HF_POOL_FULL, HF_LOST, HF_FRAGMENT_CONSUMED or HF_MESSAGE_COMPLETE; 1 for a pool that no call made, or one of
 * the kind HF_ADDRESSED. */
static inline uint32_t hf_process_frame(hf_pool *pool, hf_counters *counters, const uint32_t *pgns, size_t pgns_len, uint64_t now_ms, uint32_t pgn,
                                        uint8_t source_address, const uint8_t data[HF_FRAME_BYTES], hf_message *message) {
    return hf_raw_process_frame(pool->size, pool->mode, pool->kind, pool->heads, pool->bytes, counters->counts, pgns, pgns_len, now_ms, pgn,
                                source_address, data, message->payload, &message->length);
}
static inline uint32_t hf_receive(hf_pool *pool, hf_counters *counters, const uint32_t *pgns, size_t pgns_len, uint64_t now_ms, uint32_t pgn,
                                  uint8_t source_address, const uint8_t data[HF_FRAME_BYTES], hf_message *message) {
    return hf_raw_receive(pool->size, pool->mode, pool->kind, pool->heads, pool->bytes, counters->counts, pgns, pgns_len, now_ms, pgn,
                          source_address, data, message->payload, &message->length);
}
static inline uint32_t hf_process_frame_with_length(hf_pool *pool, hf_counters *counters, const uint32_t *pgns, size_t pgns_len, uint64_t now_ms,
                                                    uint32_t pgn, uint8_t source_address, const uint8_t data[HF_FRAME_BYTES], size_t frame_length,
                                                    hf_message *message) {
    return hf_raw_process_frame_with_length(pool->size, pool->mode, pool->kind, pool->heads, pool->bytes, counters->counts, pgns, pgns_len, now_ms,
                                            pgn, source_address, data, frame_length, message->payload, &message->length);
}
/* The same three by the identifier, for a pool of the kind HF_ADDRESSED; 8 for one of 2^29 or more, whatever the pool is. */
static inline uint32_t hf_process_frame_by_id(hf_pool *pool, hf_counters *counters, const uint32_t *pgns, size_t pgns_len, uint64_t now_ms, uint32_t id,
                                              const uint8_t data[HF_FRAME_BYTES], hf_message *message) {
    return hf_raw_process_frame_by_id(pool->size, pool->mode, pool->kind, pool->heads, pool->bytes, counters->counts, pgns, pgns_len, now_ms, id, data,
                                      message->payload, &message->length);
}
static inline uint32_t hf_receive_by_id(hf_pool *pool, hf_counters *counters, const uint32_t *pgns, size_t pgns_len, uint64_t now_ms, uint32_t id,
                                        const uint8_t data[HF_FRAME_BYTES], hf_message *message) {
    return hf_raw_receive_by_id(pool->size, pool->mode, pool->kind, pool->heads, pool->bytes, counters->counts, pgns, pgns_len, now_ms, id, data,
                                message->payload, &message->length);
}
static inline uint32_t hf_process_frame_by_id_with_length(hf_pool *pool, hf_counters *counters, const uint32_t *pgns, size_t pgns_len, uint64_t now_ms,
                                                          uint32_t id, const uint8_t data[HF_FRAME_BYTES], size_t frame_length, hf_message *message) {
    return hf_raw_process_frame_by_id_with_length(pool->size, pool->mode, pool->kind, pool->heads, pool->bytes, counters->counts, pgns, pgns_len,
                                                  now_ms, id, data, frame_length, message->payload, &message->length);
}
/* Rows of `frames` elements each (`data` of 8 a frame), in and out; for a pool of the kind HF_ORIGINAL. */
static inline uint32_t hf_process_frames(hf_pool *pool, hf_counters *counters, const uint32_t *pgns, size_t pgns_len, size_t frames, const uint64_t *times,
                                         const uint32_t *frame_pgns, const uint8_t *sources, const uint8_t *data, uint8_t *kinds, uint8_t *lengths,
                                         uint8_t *arena, size_t arena_len, uint64_t counts[HF_COUNTS]) {
    return hf_raw_process_frames(pool->size, pool->mode, pool->kind, pool->heads, pool->bytes, counters->counts, pgns, pgns_len, times, frames,
                                 frame_pgns, frames, sources, frames, data, HF_FRAME_BYTES * frames, kinds, frames, lengths, frames, arena, arena_len,
                                 counts);
}

/* Returns the number that the caller holds from now on. */
static inline uint8_t hf_builder_new(hf_builder *builder, uint32_t pgn, uint8_t source_address, uint16_t destination, const uint8_t *payload,
                                     size_t payload_len, const uint32_t *pgns, size_t pgns_len, uint8_t sequence_id) {
    return hf_raw_builder_new(pgn, source_address, destination, payload, payload_len, pgns, pgns_len, sequence_id, builder->numbers);
}
static inline void hf_builder_with_sequence_id(hf_builder *builder, uint8_t sequence_id) {
    hf_raw_builder_with_sequence_id(builder->numbers, sequence_id);
}
static inline void hf_builder_with_priority(hf_builder *builder, uint8_t priority) {
    hf_raw_builder_with_priority(builder->numbers, priority);
}
static inline void hf_builder_to_destination(hf_builder *builder, uint8_t destination) {
    hf_raw_builder_to_destination(builder->numbers, destination);
}
/* The payload is the one that the builder was made with. */
static inline void hf_builder_build(const hf_builder *builder, const uint8_t *payload, size_t payload_len, hf_frame_iterator *frames) {
    frames->builder = *builder;
    frames->payload = payload;
    frames->payload_len = payload_len;
    hf_raw_builder_build(builder->numbers, frames->place);
}
/* HF_OK and the next frame, HF_END, or a refusal. */
static inline uint32_t hf_frame_iterator_next(hf_frame_iterator *frames, hf_frame *frame) {
    uint64_t numbers[HF_FRAME_NUMBERS];
    const uint32_t answer =
        hf_raw_frame_iterator_next(frames->builder.numbers, frames->place, frames->payload, frames->payload_len, frame->data, numbers);
    frame->id = (uint32_t)numbers[HF_FRAME_ID];
    frame->length = (size_t)numbers[HF_FRAME_LENGTH];
    frame->carried = numbers[HF_FRAME_CARRIED];
    return answer;
}

#ifdef __cplusplus
}
#endif

#endif
