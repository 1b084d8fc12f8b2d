/* Tindrabek: SRTP and SRTCP packet protection (RFC 3711, and RFC 4771's integrity transform) for one stream, for C.
 *
 * Build the library with `rt lib` in crates/srtp_c and link crates/srtp_c/out/libsrtp_c.a. It is code for x86-64 Linux.
 *
 * A context is a plain struct in the caller's memory. Set-up gives one back by value; a call is lent its pointer and leaves the next
 * state in it. There is nothing to free, no global state, no allocation and no I/O: contexts in different threads don't touch.
 *
 * What a caller must see to, since nothing checks it:
 *  - each pointer is valid for its count of bytes (with a count of 0 the pointer is not followed and may be NULL), and a context's pointer
 *    is valid and aligned as its type asks;
 *  - the context is writable in every call, refused ones included: a refusal writes back the values that it held;
 *  - one call at a time uses a context;
 *  - no two senders are set up with one master key, master salt and SSRC, and no copy of a sender's struct is used beside it: both would
 *    repeat keystream. Nor is a copy of a receiver's used beside it: it may let a packet in twice.
 * Nothing else is assumed of a call through this header. Any other content of a context, a packet or a length is answered by the rules
 * below, with no undefined behaviour. A struct of zero bytes is the closed context.
 *
 * Context, packet and outgoing buffer must not overlap in any part: no packet is protected or opened in place. This header's functions test
 * that and refuse with OVERLAP (see overlap, at the end); the library does not. A caller that goes past them, with declarations of its own,
 * by dlsym or by bindings made from the bare declarations, must see to it itself: the library may answer OK with another payload than the
 * one it was given.
 */
#ifndef TINDRABEK_H
#define TINDRABEK_H

#include <stddef.h>
#include <stdint.h>

#ifdef __cplusplus
extern "C" {
#define TINDRABEK_ASSERT static_assert
#define TINDRABEK_INLINE inline
#define TINDRABEK_ADDRESS(pointer) reinterpret_cast<uintptr_t>(pointer)
#else
#define TINDRABEK_ASSERT _Static_assert
#define TINDRABEK_INLINE static inline
#define TINDRABEK_ADDRESS(pointer) ((uintptr_t)(pointer))
#endif

/* The library has these sizes and places built in, and C, C++ and Rust (rust/tindrabek) see the same structs. */
#define TINDRABEK_SIZE(type, size) TINDRABEK_ASSERT(sizeof(type) == (size), #type)
#define TINDRABEK_PLACE(type, field, place) TINDRABEK_ASSERT(offsetof(type, field) == (place), #type "." #field)

/* ---- numbers */

/* What a call answers: TINDRABEK_OK, or why it refuses. A number is given exactly when its line holds and no earlier line that concerns
 * the call does, nor OVERLAP's, which stands below. KEY, OLD, REPEAT and FORGED are for receiving, ORDER is for sending media, and a control
 * receiver has no SPENT. A refused call changes neither the context nor one byte of the outgoing buffer. */
enum {
    TINDRABEK_OK = 0,      /* a finished packet */
    TINDRABEK_SETUP = 1,   /* set-up values off the list; every call on a closed context or on one that is out of bounds (see contexts) */
    TINDRABEK_LONG = 2,    /* the plain packet is, or the protected one would give, over 2,048 bytes */
    TINDRABEK_SHAPE = 3,   /* no RTP, RTCP, SRTP or SRTCP layout */
    TINDRABEK_STREAM = 4,  /* the packet's SSRC is not the context's */
    TINDRABEK_ROOM = 5,    /* the outgoing buffer is shorter than the result */
    TINDRABEK_KEY = 6,     /* the packet's MKI is not the context's */
    TINDRABEK_ORDER = 7,   /* the sequence number is the last one or 32,768 or more ahead of it */
    TINDRABEK_SPENT = 8,   /* media index above 2^48 - 1, or 2^31 control packets sent already */
    TINDRABEK_OLD = 9,     /* index below 0, or more than 1,023 behind the highest */
    TINDRABEK_REPEAT = 10, /* index accepted already */
    TINDRABEK_FORGED = 11  /* the authentication tag is wrong */
};

/* A refusal of this header's own, which the four calls look at before all of those: two of context, packet and outgoing buffer share a
 * byte. The numbers above fit a byte, as traces have them, so no later one can be 256. */
enum { TINDRABEK_OVERLAP = 256 };

/* The ciphers. Another number is refused as SETUP. */
enum {
    TINDRABEK_CIPHER_NULL = 0,
    TINDRABEK_CIPHER_AES = 1 /* AES-128 in counter mode */
};

/* The integrity transforms of media packets; control packets always have HMAC-SHA1. Another number is refused as SETUP. With RCCM2 a tag is
 * the rollover counter and 10 bytes of HMAC-SHA1 where the sequence number is 0 modulo the rate, and else 14 bytes of HMAC-SHA1. */
enum {
    TINDRABEK_INTEGRITY_HMAC_SHA1 = 0, /* RFC 3711's */
    TINDRABEK_INTEGRITY_RCCM2 = 1      /* RFC 4771's, mode RCCm2 */
};

/* The list of set-up: a key of 16 bytes, a salt of 14, an MKI of 0 to 4; a media tag of 4 or 10 bytes, or with RCCM2 of 14, and then a rate
 * of 1 to 65,535. The control tag always has 10 bytes. */
enum {
    TINDRABEK_KEY_LEN = 16,
    TINDRABEK_SALT_LEN = 14,
    TINDRABEK_MAX_MKI_LEN = 4,
    TINDRABEK_TAG_LEN = 10,
    TINDRABEK_SHORT_TAG_LEN = 4,
    TINDRABEK_RCC_TAG_LEN = 14,
    TINDRABEK_MAX_PACKET_LEN = 2048,
    /* A buffer of so many bytes has room for every result: 2,048, the longest MKI, and 14 for the longest media tag or for control's index
     * word and tag. */
    TINDRABEK_MAX_RESULT_LEN = 2048 + 4 + 14
};

/* ---- profiles */

/* What packets are protected with: a cipher, an integrity transform and its rate, which with HMAC-SHA1 is not looked at, and the length
 * of the media tag. Set-up takes it by value. */
typedef struct {
    uint32_t cipher;
    uint32_t integrity;
    uint16_t rate;
    size_t tag_len;
} tindrabek_profile;

TINDRABEK_SIZE(tindrabek_profile, 24);
TINDRABEK_PLACE(tindrabek_profile, integrity, 4);
TINDRABEK_PLACE(tindrabek_profile, rate, 8);
TINDRABEK_PLACE(tindrabek_profile, tag_len, 16);

/* ---- contexts. The fields are the library's: keep them, move them and copy them (with care, see above), and leave their content
 * alone. They hold session keys: clear the memory when a stream ends. Copies that a call leaves on the stack are not cleared.
 *
 * Out of bounds, and refused as SETUP in every call, is a context with
 *  - a value off the list above: `tag_len` not 4 or 10 (0 in a closed context), or with RCCM2 not 14; a `rate` of 0 with RCCM2; `mki_len`
 *    over 4;
 *  - a mark beyond its bound: `last_index` or media `highest` above 2^48 - 1, control `highest` above 2^31 - 1, `control_sent` above 2^31
 *    (where `has_last` or `has_highest` is 0, the index that goes with it is not looked at, nor are a window's `words`);
 *  - a number that no enum has: `cipher`, `integrity`, `has_last` or `has_highest` above 1.
 * Any other is answered by the rules, with the keys and marks found in it, whether a set-up gave them or not. */

typedef struct {
    uint32_t a, b, c, d, e;
} tindrabek_hash_state;

typedef struct {
    uint32_t round[44];
    tindrabek_hash_state inner;
    tindrabek_hash_state outer;
    uint8_t salt[14];
} tindrabek_keys;

typedef struct {
    tindrabek_profile profile;
    uint32_t ssrc;
    uint8_t mki[4];
    size_t mki_len;
    tindrabek_keys media;
    tindrabek_keys control;
} tindrabek_session;

typedef struct {
    tindrabek_session session;
    uint32_t has_last;
    uint64_t last_index;
    uint64_t control_sent;
} tindrabek_sender;

typedef struct {
    uint32_t has_highest;
    uint64_t highest;
    uint64_t words[16];
} tindrabek_window;

typedef struct {
    tindrabek_session session;
    uint32_t rollover;
    tindrabek_window media;
    tindrabek_window control;
} tindrabek_receiver;

TINDRABEK_SIZE(tindrabek_hash_state, 20);
TINDRABEK_SIZE(tindrabek_keys, 232);
TINDRABEK_PLACE(tindrabek_keys, inner, 176);
TINDRABEK_PLACE(tindrabek_keys, outer, 196);
TINDRABEK_PLACE(tindrabek_keys, salt, 216);
TINDRABEK_SIZE(tindrabek_session, 504);
TINDRABEK_PLACE(tindrabek_session, ssrc, 24);
TINDRABEK_PLACE(tindrabek_session, mki, 28);
TINDRABEK_PLACE(tindrabek_session, mki_len, 32);
TINDRABEK_PLACE(tindrabek_session, media, 40);
TINDRABEK_PLACE(tindrabek_session, control, 272);
TINDRABEK_SIZE(tindrabek_sender, 528);
TINDRABEK_PLACE(tindrabek_sender, has_last, 504);
TINDRABEK_PLACE(tindrabek_sender, last_index, 512);
TINDRABEK_PLACE(tindrabek_sender, control_sent, 520);
TINDRABEK_SIZE(tindrabek_window, 144);
TINDRABEK_PLACE(tindrabek_window, highest, 8);
TINDRABEK_PLACE(tindrabek_window, words, 16);
TINDRABEK_SIZE(tindrabek_receiver, 800);
TINDRABEK_PLACE(tindrabek_receiver, rollover, 504);
TINDRABEK_PLACE(tindrabek_receiver, media, 512);
TINDRABEK_PLACE(tindrabek_receiver, control, 656);

/* ---- answers */

/* With number 0: a finished packet of `len` bytes stands at the start of the outgoing buffer, and `index` is its index (65,536 times the
 * rollover counter plus the sequence number; for control the SRTCP index). Else `number` says why the call refuses, and the rest is 0. */
typedef struct {
    uint32_t number;
    size_t len;
    uint64_t index;
} tindrabek_answer;

/* With number 0: the context. With SETUP, the only other number here: the closed context, on which every call is refused as SETUP. */
typedef struct {
    uint32_t number;
    tindrabek_sender context;
} tindrabek_sender_set_up_answer;

typedef struct {
    uint32_t number;
    tindrabek_receiver context;
} tindrabek_receiver_set_up_answer;

TINDRABEK_SIZE(tindrabek_answer, 24);
TINDRABEK_PLACE(tindrabek_answer, len, 8);
TINDRABEK_PLACE(tindrabek_answer, index, 16);
TINDRABEK_SIZE(tindrabek_sender_set_up_answer, 536);
TINDRABEK_PLACE(tindrabek_sender_set_up_answer, context, 8);
TINDRABEK_SIZE(tindrabek_receiver_set_up_answer, 808);
TINDRABEK_PLACE(tindrabek_receiver_set_up_answer, context, 8);

#undef TINDRABEK_PLACE
#undef TINDRABEK_SIZE
#undef TINDRABEK_ASSERT

/* ---- set-up */

/* A sender for the stream `ssrc`, with rollover counter 0 and nothing sent: master key, master salt, MKI (with length 0 packets carry
 * none), profile. The session keys are derived here, once. Values off the list above are SETUP. */
tindrabek_sender_set_up_answer tindrabek_sender_set_up(uint32_t ssrc, const uint8_t *key, size_t key_len, const uint8_t *salt, size_t salt_len,
                                                       const uint8_t *mki, size_t mki_len, tindrabek_profile profile);

/* A receiver for the stream `ssrc`, set up with the sender's values and the rollover counter that the stream has reached. With `known` 1
 * the last sequence number is `number`, and the highest index starts at 65,536 * rollover + number, with nothing accepted yet; with
 * `known` 0 `number` is not looked at, and there is no highest index until a packet is accepted. Another `known` is SETUP.
 *
 * With RCCM2 the index of a packet that carries the rollover counter is read from it and not estimated. So a receiver with `known` 0 may
 * start with any rollover counter: where it is wrong, packets are refused, but for a chance match of the tag, up to the next one that
 * carries it, which is accepted at its own index, as are those after it. */
tindrabek_receiver_set_up_answer tindrabek_receiver_set_up(uint32_t ssrc, const uint8_t *key, size_t key_len, const uint8_t *salt,
                                                           size_t salt_len, const uint8_t *mki, size_t mki_len, tindrabek_profile profile,
                                                           uint32_t rollover, uint32_t known, uint16_t number);

/* The closed context of each kind: what a refused set-up gives. Every call on it is refused as SETUP. */
tindrabek_sender tindrabek_sender_closed(void);
tindrabek_receiver tindrabek_receiver_closed(void);

/* ---- calls. `ctx` is lent for the call and holds the next state after it. On success the bytes of `out` from `len` on are left alone; on
 * a refusal the context and all of `out` are. Each call refuses with OVERLAP too, before the refusals that it lists. */

/* Protects an RTP packet: header, enciphered payload, MKI and tag go to `out`, which needs packet_len + mki_len + tag_len bytes. Sequence
 * numbers must go forward, by 1 to 32,767 from packet to packet. Refusals: SETUP, LONG, SHAPE, STREAM, ROOM, ORDER, SPENT. */
tindrabek_answer tindrabek_send_media(tindrabek_sender *ctx, const uint8_t *packet, size_t packet_len, uint8_t *out, size_t out_len);

/* Protects an RTCP packet (at least 8 bytes, a multiple of 4): `out` needs packet_len + 4 + mki_len + 10 bytes.
 * Refusals: SETUP, LONG, SHAPE, STREAM, ROOM, SPENT. */
tindrabek_answer tindrabek_send_control(tindrabek_sender *ctx, const uint8_t *packet, size_t packet_len, uint8_t *out, size_t out_len);

/* Opens an SRTP packet: `out` needs packet_len - mki_len - tag_len bytes. A packet that is refused, forged ones too, leaves the context as
 * it was. Refusals: SETUP, LONG, SHAPE, STREAM, ROOM, KEY, SPENT, OLD, REPEAT, FORGED. */
tindrabek_answer tindrabek_receive_media(tindrabek_receiver *ctx, const uint8_t *packet, size_t packet_len, uint8_t *out, size_t out_len);

/* Opens an SRTCP packet: `out` needs packet_len - 4 - mki_len - 10 bytes. A packet that is refused, forged ones too, leaves the context as
 * it was. Refusals: SETUP, LONG, SHAPE, STREAM, ROOM, KEY, OLD, REPEAT, FORGED. */
tindrabek_answer tindrabek_receive_control(tindrabek_receiver *ctx, const uint8_t *packet, size_t packet_len, uint8_t *out, size_t out_len);

/* ---- overlap. The four calls above are the library's, which sees no addresses. Behind this section their names mean the functions made
 * here, in a function pointer too: they test context, packet and buffer, each by its whole count of bytes and not only what the result
 * takes, and call the library where no two share one. */

/* Whether `n` bytes at `p` and `m` bytes at `q` share one: then one starts among the other's, less than their count behind their start. No
 * bytes share none, wherever the pointer points. The differences are modulo 2^64; a sum, at the top of memory, could wrap. */
TINDRABEK_INLINE int tindrabek_share(const void *p, size_t n, const void *q, size_t m) {
    const uintptr_t a = TINDRABEK_ADDRESS(p), b = TINDRABEK_ADDRESS(q);
    return n != 0 && m != 0 && (a - b < m || b - a < n);
}

#define TINDRABEK_APART(call, context)                                                                                                     \
    TINDRABEK_INLINE tindrabek_answer call##_apart(context *ctx, const uint8_t *packet, size_t packet_len, uint8_t *out, size_t out_len) { \
        const tindrabek_answer overlap = {TINDRABEK_OVERLAP, 0, 0};                                                                        \
        if (tindrabek_share(ctx, sizeof *ctx, packet, packet_len) || tindrabek_share(ctx, sizeof *ctx, out, out_len) ||                    \
            tindrabek_share(packet, packet_len, out, out_len))                                                                             \
            return overlap;                                                                                                                \
        return call(ctx, packet, packet_len, out, out_len);                                                                                \
    }

TINDRABEK_APART(tindrabek_send_media, tindrabek_sender)
TINDRABEK_APART(tindrabek_send_control, tindrabek_sender)
TINDRABEK_APART(tindrabek_receive_media, tindrabek_receiver)
TINDRABEK_APART(tindrabek_receive_control, tindrabek_receiver)

#undef TINDRABEK_APART
#undef TINDRABEK_ADDRESS
#undef TINDRABEK_INLINE

#define tindrabek_send_media tindrabek_send_media_apart
#define tindrabek_send_control tindrabek_send_control_apart
#define tindrabek_receive_media tindrabek_receive_media_apart
#define tindrabek_receive_control tindrabek_receive_control_apart

#ifdef __cplusplus
}
#endif
#endif
