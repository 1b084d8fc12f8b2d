/* Writes a stream for the sale desk whose packets libsrtp2 protected, with strange frames between them; the key file sale.key; and what the
 * desk is to write.
 *
 *   gcc tests/desk_libsrtp2.c $(pkg-config --cflags --libs libsrtp2) -o desk_libsrtp2 && ./desk_libsrtp2 PACKETS EXPECTED > stream
 */
#include <stdint.h>
#include <stdio.h>
#include <stdlib.h>
#include <string.h>

#include <srtp2/srtp.h>

enum { SSRC = 0x0a0b0c0d, OTHER_SSRC = 0x0a0b0c0e, HEADER_LEN = 12, MAX_PLAIN_LEN = 2048, TAG_LEN = 10, KEY_FILE_LEN = 30 };

/* A stream's sender, and the number of its next packet. */
typedef struct {
    srtp_t session;
    uint32_t ssrc;
    uint16_t number;
} source;

/* libsrtp2 protects in place, and asks for this much room behind the packet. */
typedef struct {
    uint8_t bytes[MAX_PLAIN_LEN + SRTP_MAX_TRAILER_LEN];
    int len;
} packet;

static void check(int is_well, const char *what) {
    if (is_well)
        return;
    fprintf(stderr, "desk_libsrtp2: %s\n", what);
    exit(1);
}

static void write_bytes(FILE *to, const void *bytes, size_t len) {
    check(fwrite(bytes, 1, len, to) == len, "can't write");
}

static void write_len(FILE *to, size_t len) {
    const uint8_t bytes[2] = {(uint8_t)(len >> 8), (uint8_t)len};
    write_bytes(to, bytes, sizeof bytes);
}

static void write_frame(FILE *to, const uint8_t *bytes, size_t len) {
    write_len(to, len);
    write_bytes(to, bytes, len);
}

static source source_of(uint32_t ssrc, uint16_t number, uint8_t *key) {
    source s = {.ssrc = ssrc, .number = number};
    srtp_policy_t policy;
    memset(&policy, 0, sizeof policy);
    srtp_crypto_policy_set_aes_cm_128_hmac_sha1_80(&policy.rtp);
    srtp_crypto_policy_set_aes_cm_128_hmac_sha1_80(&policy.rtcp);
    policy.ssrc.type = ssrc_specific;
    policy.ssrc.value = ssrc;
    policy.key = key;
    check(srtp_create(&s.session, &policy) == srtp_err_status_ok, "no session");
    return s;
}

static packet plain(const source *s, int payload_len) {
    const uint8_t head[HEADER_LEN] = {0x80, 96, (uint8_t)(s->number >> 8), (uint8_t)s->number, 0, 0, 0, 0,
                                      (uint8_t)(s->ssrc >> 24), (uint8_t)(s->ssrc >> 16), (uint8_t)(s->ssrc >> 8), (uint8_t)s->ssrc};
    packet p = {.len = HEADER_LEN + payload_len};
    memcpy(p.bytes, head, sizeof head);
    for (int i = 0; i < payload_len; i++)
        p.bytes[HEADER_LEN + i] = (uint8_t)(s->number + i);
    return p;
}

/* The source's next packet, protected. */
static packet protected(source *s, packet p) {
    const int len = p.len;
    check(srtp_protect(s->session, p.bytes, &p.len) == srtp_err_status_ok && p.len == len + TAG_LEN, "not protected");
    s->number++;
    return p;
}

static void write_damaged(packet p, int at) {
    p.bytes[at] ^= 4;
    write_frame(stdout, p.bytes, (size_t)p.len);
}

/* A frame that is too long and is filled with frames of a packet that comes nowhere else. */
static void write_too_long(source *s, size_t len) {
    const packet lost = protected(s, plain(s, 20));
    uint8_t inner[2 + sizeof lost.bytes] = {0, (uint8_t)lost.len};
    memcpy(inner + 2, lost.bytes, (size_t)lost.len);
    write_len(stdout, len);
    for (size_t at = 0; at < len; at += 2 + (size_t)lost.len) {
        const size_t left = len - at, whole = 2 + (size_t)lost.len;
        write_bytes(stdout, inner, left < whole ? left : whole);
    }
}

/* One kind of strange frame in each turn, before the packet of that turn. */
static void write_strange(int turn, source *s, source *other, const packet *last, const packet *next) {
    static const size_t too_long[4] = {2059, 2060, 30000, 65535};
    packet p;
    switch (turn % 6) {
    case 0: write_damaged(*next, turn % next->len); break;
    case 1: write_frame(stdout, next->bytes, (size_t)(turn / 6 % 22)); break;
    case 2: write_frame(stdout, last->bytes, (size_t)last->len); break;
    case 3:
        p = protected(other, plain(other, turn % 100));
        write_frame(stdout, p.bytes, (size_t)p.len);
        break;
    case 4: write_too_long(s, too_long[turn / 6 % 4]); break;
    default: write_len(stdout, 0); break;
    }
}

/* The last frame lacks a byte. */
static void write_stream(int packets, source *s, source *other, FILE *expected) {
    packet last = {.len = 0};
    write_damaged(protected(other, plain(other, 5)), 20);
    for (int turn = 0; turn < packets; turn++) {
        const packet sent = plain(s, turn * 389 % (MAX_PLAIN_LEN - HEADER_LEN + 1));
        const packet next = protected(s, sent);
        write_strange(turn, s, other, &last, &next);
        write_frame(stdout, next.bytes, (size_t)next.len);
        write_frame(expected, sent.bytes, (size_t)sent.len);
        last = next;
    }
    const packet cut = protected(s, plain(s, 30));
    write_len(stdout, (size_t)cut.len);
    write_bytes(stdout, cut.bytes, (size_t)cut.len - 1);
}

int main(int argc, char **argv) {
    check(argc == 3, "usage: desk_libsrtp2 PACKETS EXPECTED > STREAM");
    uint8_t key[KEY_FILE_LEN];
    for (int i = 0; i < KEY_FILE_LEN; i++)
        key[i] = (uint8_t)(0x30 + 7 * i);
    FILE *key_file = fopen("sale.key", "wb"), *expected = fopen(argv[2], "wb");
    check(key_file != NULL && expected != NULL, "can't open a file");
    write_bytes(key_file, key, sizeof key);
    check(fclose(key_file) == 0, "can't write the key file");
    check(srtp_init() == srtp_err_status_ok, "libsrtp2 does not start");
    /* Shortly before the numbers roll over, so that they do. */
    source s = source_of(SSRC, 65000, key), other = source_of(OTHER_SSRC, 7, key);
    write_stream(atoi(argv[1]), &s, &other, expected);
    check(fclose(expected) == 0 && fclose(stdout) == 0, "can't write");
    srtp_dealloc(s.session);
    srtp_dealloc(other.session);
    return srtp_shutdown() == srtp_err_status_ok ? 0 : 1;
}
