/* Overlap of context, packet and outgoing buffer, as a caller in C or C++ meets it: each of the four calls, by its name and through a
 * pointer, with two of the three ranges in every place to each other, from a byte apart on one side to a byte apart on the other. So there
 * is one buffer for packet and result, each range begins and ends in the other by one byte and by many, lies inside it and around it, and
 * is adjacent on both sides. Counts of 0 are among the lengths.
 *
 * Where a byte is shared, the call must refuse with OVERLAP and leave the whole memory as it stood. Everywhere else it must do what it does
 * with the ranges far apart. Prints a line for each group; the last line is 'N passed, M failed'.
 *
 *   gcc -I include tests/overlap.c crates/srtp_c/out/libsrtp_c.a -o overlap && ./overlap
 */
#include <stdio.h>
#include <string.h>

#include "tindrabek.h"

/* A packet is longer than a context, and a result has room in every buffer but the short ones. */
enum { PLAIN_LEN = 1000, MAX_PACKET = PLAIN_LEN + 14, ROOM = MAX_PACKET + 14, NEAR = 2048, FAR = 6144, SIZE = 8192 };

enum { SEND_MEDIA, SEND_CONTROL, RECEIVE_MEDIA, RECEIVE_CONTROL, CALLS };
static const char *const call_names[CALLS] = {"send_media", "send_control", "receive_media", "receive_control"};

typedef union {
    tindrabek_sender sender;
    tindrabek_receiver receiver;
} context;

/* All that a call may touch, and the bytes around. The context stands at NEAR. */
typedef struct {
    uint8_t front[NEAR];
    context ctx;
    uint8_t back[SIZE];
} memory;

/* What a call is tried with: its context before, and a packet that it takes. */
typedef struct {
    int call;
    context before;
    size_t context_len;
    uint8_t packet[MAX_PACKET];
    size_t packet_len;
} subject;

typedef struct {
    const uint8_t *packet;
    size_t packet_len;
    uint8_t *out;
    size_t out_len;
} ranges;

typedef tindrabek_answer caller(int call, context *ctx, ranges r);

static tindrabek_answer by_name(int call, context *ctx, ranges r) {
    switch (call) {
    case SEND_MEDIA:
        return tindrabek_send_media(&ctx->sender, r.packet, r.packet_len, r.out, r.out_len);
    case SEND_CONTROL:
        return tindrabek_send_control(&ctx->sender, r.packet, r.packet_len, r.out, r.out_len);
    case RECEIVE_MEDIA:
        return tindrabek_receive_media(&ctx->receiver, r.packet, r.packet_len, r.out, r.out_len);
    default:
        return tindrabek_receive_control(&ctx->receiver, r.packet, r.packet_len, r.out, r.out_len);
    }
}

static tindrabek_answer by_pointer(int call, context *ctx, ranges r) {
    tindrabek_answer (*const send)(tindrabek_sender *, const uint8_t *, size_t, uint8_t *, size_t) =
        call == SEND_MEDIA ? tindrabek_send_media : &tindrabek_send_control;
    tindrabek_answer (*const receive)(tindrabek_receiver *, const uint8_t *, size_t, uint8_t *, size_t) =
        call == RECEIVE_MEDIA ? tindrabek_receive_media : &tindrabek_receive_control;
    if (call == SEND_MEDIA || call == SEND_CONTROL)
        return send(&ctx->sender, r.packet, r.packet_len, r.out, r.out_len);
    return receive(&ctx->receiver, r.packet, r.packet_len, r.out, r.out_len);
}

static int is_answer(tindrabek_answer a, uint32_t number, size_t len, uint64_t index) {
    return a.number == number && a.len == len && a.index == index;
}

/* What stands where nothing was put: no two neighbours are alike. */
static memory around;

static void fill_around(void) {
    for (size_t i = 0; i < sizeof around; i++)
        ((uint8_t *)&around)[i] = (uint8_t)(i * 167 + 13);
}

/* The packet at its place, and over it the context. */
static void fill(memory *m, const subject *s, size_t packet_at) {
    *m = around;
    memcpy((uint8_t *)m + packet_at, s->packet, s->packet_len);
    memcpy(&m->ctx, &s->before, s->context_len);
}

/* What a call gives with the ranges far apart: the packet at 0, the buffer at FAR. */
typedef struct {
    tindrabek_answer answer;
    memory after;
} outcome;

static void far_apart(outcome *apart, const subject *s, size_t packet_len, size_t out_len) {
    uint8_t *const bytes = (uint8_t *)&apart->after;
    const ranges r = {bytes, packet_len, bytes + FAR, out_len};
    fill(&apart->after, s, 0);
    apart->answer = by_name(s->call, &apart->after.ctx, r);
}

/* One call with packet and buffer at these places: it gives what it gives far apart, or must refuse where `apart` is NULL. */
static int place(const subject *s, caller *call, size_t packet_at, size_t packet_len, size_t out_at, size_t out_len, const outcome *apart) {
    static memory m, expected;
    fill(&m, s, packet_at);
    expected = m;
    const ranges r = {(uint8_t *)&m + packet_at, packet_len, (uint8_t *)&m + out_at, out_len};
    const tindrabek_answer a = call(s->call, &m.ctx, r);
    if (apart == NULL)
        return is_answer(a, TINDRABEK_OVERLAP, 0, 0) && memcmp(&m, &expected, sizeof m) == 0;
    memcpy(&expected.ctx, &apart->after.ctx, s->context_len);
    memcpy((uint8_t *)&expected + out_at, (const uint8_t *)&apart->after + FAR, apart->answer.len);
    return is_answer(a, apart->answer.number, apart->answer.len, apart->answer.index) && memcmp(&m, &expected, sizeof m) == 0;
}

enum { CONTEXT_AND_PACKET, CONTEXT_AND_BUFFER, PACKET_AND_BUFFER, PAIRS };
static const char *const pair_names[PAIRS] = {"context and packet", "context and buffer", "packet and buffer"};

/* Two ranges in every place to each other, with these lengths: the first stays, the second goes from a byte before it to a byte behind. */
static int slide(const subject *s, caller *call, int pair, size_t packet_len, size_t out_len) {
    const size_t stays = pair == PACKET_AND_BUFFER ? FAR : NEAR;
    const size_t n = pair == PACKET_AND_BUFFER ? packet_len : s->context_len;
    const size_t m = pair == CONTEXT_AND_PACKET ? packet_len : out_len;
    static outcome apart;
    far_apart(&apart, s, packet_len, out_len);
    int well = 1;
    for (size_t at = stays - m - 1; at <= stays + n + 1; at++) {
        const int shared = n > 0 && m > 0 && at + m > stays && at < stays + n;
        size_t packet_at = FAR, out_at = FAR;
        *(pair == CONTEXT_AND_PACKET ? &packet_at : &out_at) = at;
        well &= place(s, call, packet_at, packet_len, out_at, out_len, shared ? NULL : &apart);
    }
    return well;
}

static int all_lengths(const subject *s, caller *call, int pair) {
    const size_t packet_lens[] = {0, 1, 40, s->packet_len}, out_lens[] = {0, 1, 40, ROOM};
    int well = 1;
    for (int i = 0; i < 4; i++)
        for (int j = 0; j < 4; j++)
            well &= slide(s, call, pair, packet_lens[i], out_lens[j]);
    return well;
}

/* Counts of 0 get their numbers from the list, with NULL too; and what is slid above is a packet that the call takes. */
static int no_bytes(const subject *s, caller *call) {
    static outcome apart;
    far_apart(&apart, s, s->packet_len, ROOM);
    int well = apart.answer.number == TINDRABEK_OK;
    static memory m, before;
    fill(&m, s, 0);
    before = m;
    uint8_t *const bytes = (uint8_t *)&m;
    uint8_t *const places[] = {NULL, bytes, bytes + 1, bytes + NEAR, bytes + NEAR + 8, bytes + FAR, bytes + FAR + 1};
    for (size_t i = 0; i < sizeof places / sizeof places[0]; i++) {
        const ranges empty_packet = {places[i], 0, bytes + FAR, ROOM}, empty_buffer = {bytes, s->packet_len, places[i], 0};
        well &= is_answer(call(s->call, &m.ctx, empty_packet), TINDRABEK_SHAPE, 0, 0);
        well &= is_answer(call(s->call, &m.ctx, empty_buffer), TINDRABEK_ROOM, 0, 0);
        well &= memcmp(&m, &before, sizeof m) == 0;
    }
    return well;
}

/* A sender and a receiver of one stream; packets to send, and for the receiver what the sender makes of them. */
static int set_up(subject subjects[CALLS]) {
    static const uint8_t key[TINDRABEK_KEY_LEN] = {1}, salt[TINDRABEK_SALT_LEN] = {2};
    static const uint8_t rtp[12] = {0x80, 96, 0, 7, 0, 0, 0, 0, 0, 0, 0, 9}, rtcp[8] = {0x80, 204, 0, PLAIN_LEN / 4 - 1, 0, 0, 0, 9};
    const tindrabek_profile profile = {TINDRABEK_CIPHER_AES, TINDRABEK_INTEGRITY_HMAC_SHA1, 0, TINDRABEK_TAG_LEN};
    const tindrabek_sender_set_up_answer s = tindrabek_sender_set_up(9, key, sizeof key, salt, sizeof salt, NULL, 0, profile);
    const tindrabek_receiver_set_up_answer r =
        tindrabek_receiver_set_up(9, key, sizeof key, salt, sizeof salt, NULL, 0, profile, 0, 0, 0);
    for (int call = 0; call < CALLS; call++) {
        subject *const to = &subjects[call];
        to->call = call;
        if (call == SEND_MEDIA || call == SEND_CONTROL) {
            to->before.sender = s.context;
            to->context_len = sizeof s.context;
            memset(to->packet, 0x55, PLAIN_LEN);
            memcpy(to->packet, call == SEND_MEDIA ? rtp : rtcp, call == SEND_MEDIA ? sizeof rtp : sizeof rtcp);
            to->packet_len = PLAIN_LEN;
        } else {
            const subject *const sent = &subjects[call == RECEIVE_MEDIA ? SEND_MEDIA : SEND_CONTROL];
            context sender = sent->before;
            const ranges all = {sent->packet, sent->packet_len, to->packet, MAX_PACKET};
            to->before.receiver = r.context;
            to->context_len = sizeof r.context;
            to->packet_len = by_name(sent->call, &sender, all).len;
        }
    }
    return s.number == TINDRABEK_OK && r.number == TINDRABEK_OK;
}

static int passed, failed;

static void group(int is_well, const char *call, const char *what) {
    printf("%s: overlap, %s: %s\n", is_well ? "pass" : "FAIL", call, what);
    *(is_well ? &passed : &failed) += 1;
}

int main(void) {
    static subject subjects[CALLS];
    fill_around();
    group(set_up(subjects), "all calls", "set-up");
    for (int i = 0; i < CALLS; i++) {
        const subject *const s = &subjects[i];
        for (int pair = 0; pair < PAIRS; pair++)
            group(all_lengths(s, by_name, pair) & all_lengths(s, by_pointer, pair), call_names[i], pair_names[pair]);
        group(no_bytes(s, by_name) & no_bytes(s, by_pointer), call_names[i], "no bytes");
    }
    printf("%d passed, %d failed\n", passed, failed);
    return failed != 0;
}
