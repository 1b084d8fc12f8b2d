/* Protects the packets of a small stream and opens them as a receiver might get them: damaged, twice, late, and across a rollover. It
 * writes what happened, in the words of rust/tindrabek/examples/protect_and_open.rs.
 *
 *   (cd crates/srtp_c && rt lib)
 *   gcc -Wall -Wextra -Werror -I include examples/c/protect_and_open.c crates/srtp_c/out/libsrtp_c.a -o protect_and_open
 */
#include <stdio.h>
#include <string.h>

#include "tindrabek.h"

enum { SSRC = 0x0a0b0c0d, ROOM = TINDRABEK_MAX_RESULT_LEN };

typedef struct {
    uint8_t bytes[ROOM];
    size_t len;
} buffer;

static const char *const refusals[] = {
    "nothing",
    "SETUP (these values make no context)",
    "LONG (the packet is too long)",
    "SHAPE (the packet has no such layout)",
    "STREAM (the packet is of another stream)",
    "ROOM (the outgoing buffer is too short)",
    "KEY (the packet names another key)",
    "ORDER (the sequence number is out of order)",
    "SPENT (there is no index left)",
    "OLD (the packet is too old)",
    "REPEAT (the packet was accepted already)",
    "FORGED (the authentication tag is wrong)",
};

/* OVERLAP is the header's own number, and stands outside the list. */
static const char *refusal(uint32_t number) {
    return number == TINDRABEK_OVERLAP ? "OVERLAP (context, packet and buffer are not apart)" : refusals[number];
}

static buffer packet(const uint8_t *head, size_t head_len, const char *text) {
    buffer b = {.len = head_len + strlen(text)};
    memcpy(b.bytes, head, head_len);
    memcpy(b.bytes + head_len, text, strlen(text));
    return b;
}

static buffer rtp(uint16_t number, const char *text) {
    const uint8_t head[12] = {0x80, 96, (uint8_t)(number >> 8), (uint8_t)number, 0, 0, 0, 0, 0x0a, 0x0b, 0x0c, 0x0d};
    return packet(head, sizeof head, text);
}

static buffer rtcp(const char *text) {
    const uint8_t head[8] = {0x80, 204, 0, 4, 0x0a, 0x0b, 0x0c, 0x0d};
    return packet(head, sizeof head, text);
}

static void tell_sent(const char *what, size_t plain_len, tindrabek_answer a) {
    if (a.number == TINDRABEK_OK)
        printf("sender:   %s: %zu bytes protected to %zu, index %llu\n", what, plain_len, a.len, (unsigned long long)a.index);
    else
        printf("sender:   %s: refused as %s\n", what, refusal(a.number));
}

static void tell_opened(const char *what, size_t clear, tindrabek_answer a, const uint8_t *out) {
    if (a.number == TINDRABEK_OK)
        printf("receiver: %s: opened to %zu bytes, index %llu, saying \"%.*s\"\n", what, a.len, (unsigned long long)a.index,
               (int)(a.len - clear), (const char *)out + clear);
    else
        printf("receiver: %s: refused as %s\n", what, refusal(a.number));
}

/* Three media packets across the rollover, one of them twice, and a report. What comes out goes to `sent` and `sent_report`. */
static void send_all(tindrabek_sender *sender, buffer sent[3], buffer *sent_report) {
    const buffer plain[3] = {rtp(65534, "lot 41, two bids"), rtp(65535, "lot 41, sold"), rtp(0, "lot 42, one bid")};
    const char *const names[3] = {"media 65534", "media 65535", "media 0"};
    for (int i = 0; i < 3; i++) {
        tindrabek_answer a = tindrabek_send_media(sender, plain[i].bytes, plain[i].len, sent[i].bytes, ROOM);
        tell_sent(names[i], plain[i].len, a);
        sent[i].len = a.len;
    }
    uint8_t out[ROOM];
    tell_sent("media 0 again", plain[2].len, tindrabek_send_media(sender, plain[2].bytes, plain[2].len, out, ROOM));
    const buffer report = rtcp("all is well.");
    tindrabek_answer a = tindrabek_send_control(sender, report.bytes, report.len, sent_report->bytes, ROOM);
    tell_sent("control", report.len, a);
    sent_report->len = a.len;
}

/* The first packet damaged before it comes whole, the second late, the third twice; the report into a short buffer and again. */
static void receive_all(tindrabek_receiver *receiver, const buffer sent[3], const buffer *report) {
    buffer damaged = sent[0];
    damaged.bytes[20] ^= 4;
    const buffer *const arrivals[5] = {&damaged, &sent[0], &sent[2], &sent[1], &sent[2]};
    const char *const names[5] = {"media 65534, damaged", "media 65534", "media 0", "media 65535, late", "media 0 again"};
    uint8_t out[ROOM] = {0};
    for (int i = 0; i < 5; i++)
        tell_opened(names[i], 12, tindrabek_receive_media(receiver, arrivals[i]->bytes, arrivals[i]->len, out, ROOM), out);
    tell_opened("control, short buffer", 8, tindrabek_receive_control(receiver, report->bytes, report->len, out, 19), out);
    tell_opened("control", 8, tindrabek_receive_control(receiver, report->bytes, report->len, out, ROOM), out);
}

int main(void) {
    uint8_t key[TINDRABEK_KEY_LEN], salt[TINDRABEK_SALT_LEN];
    const uint8_t mki[1] = {1};
    memset(key, 0x2a, sizeof key);
    memset(salt, 0x17, sizeof salt);
    tindrabek_profile profile = {.cipher = TINDRABEK_CIPHER_AES, .integrity = TINDRABEK_INTEGRITY_HMAC_SHA1, .tag_len = TINDRABEK_TAG_LEN};
    tindrabek_sender_set_up_answer s = tindrabek_sender_set_up(SSRC, key, sizeof key, salt, sizeof salt, mki, sizeof mki, profile);
    tindrabek_receiver_set_up_answer r =
        tindrabek_receiver_set_up(SSRC, key, sizeof key, salt, sizeof salt, mki, sizeof mki, profile, 0, 0, 0);
    if (s.number != TINDRABEK_OK || r.number != TINDRABEK_OK) {
        printf("set-up:   refused\n");
        return 1;
    }

    buffer sent[3], report;
    send_all(&s.context, sent, &report);
    receive_all(&r.context, sent, &report);

    profile.tag_len = 5;
    s = tindrabek_sender_set_up(SSRC, key, sizeof key, salt, sizeof salt, mki, sizeof mki, profile);
    if (s.number == TINDRABEK_OK)
        printf("set-up:   a tag of 5 bytes: taken\n");
    else
        printf("set-up:   a tag of 5 bytes: refused as %s\n", refusal(s.number));
    return 0;
}
