/*
 * A small host: opens a window, asks two peers for blocks, reads a message as the peer does, takes deliveries, sees refusals, sweeps what was never sent.
 * From the repository's root:
 *
 *   mkdir -p target && cc -O2 -Iinclude include/example.c -Ldist -lkofudile -o target/example && target/example
 *
 * With the library installed (`make install`) the flags are those of `pkg-config --cflags --libs kofudile`. include/example.stdout is what it prints.
 */
#include <inttypes.h>
#include <stdio.h>
#include <stdlib.h>

#include "kofudile.h"

#define SECOND KOFUDILE_SECOND
#define NO_LIMIT UINT64_MAX

/* The window and the report: the host's own memory, lent to each call. */
static uint64_t words[KOFUDILE_WORDS];
static kofudile_release report[KOFUDILE_PLACES];

/* The payload of the last getdata message. */
static uint8_t payload[KOFUDILE_GETDATA_BYTES];
static size_t payload_len;

/* A made-up hash for the block at a height. */
static kofudile_hash block(uint32_t height) {
    uint8_t bytes[32] = {0};
    bytes[0] = (uint8_t)(height * 37);
    bytes[31] = (uint8_t)height;
    return kofudile_hash_of(bytes);
}

static void must(uint64_t refused) {
    if (refused != 0) {
        printf("refused: %s\n", kofudile_refusal_text(refused));
        exit(1);
    }
}

/* The message that asks for these blocks. */
static void write_message(const kofudile_hash *hashes, size_t count) {
    kofudile_number written = kofudile_write_getdata(hashes, count, payload, sizeof payload);
    must(written.refused);
    payload_len = (size_t)written.value;
    printf("  its getdata has %zu bytes\n", payload_len);
}

/* What a peer does with a message; any bytes may come. */
static void read_message(size_t length) {
    static kofudile_hash hashes[KOFUDILE_GETDATA_HASHES];
    kofudile_number read = kofudile_read_getdata(payload, length, hashes, KOFUDILE_GETDATA_HASHES);
    if (read.refused == 0)
        printf("a getdata of %zu bytes asks for %" PRIu64 " blocks\n", length, read.value);
    else
        printf("a getdata of %zu bytes: %s\n", length, kofudile_refusal_text(read.refused));
}

/* Requests blocks first .. first + count - 1 of a peer; answers the refusal. */
static uint64_t request(uint64_t seat, uint32_t first, uint32_t count, uint64_t clock) {
    kofudile_hash hashes[16];
    uint32_t heights[16];
    for (uint32_t i = 0; i < count; i++) {
        hashes[i] = block(first + i);
        heights[i] = first + i;
    }
    kofudile_number said =
        kofudile_mark_requested(words, KOFUDILE_WORDS, seat, hashes, heights, count, first + count, NO_LIMIT, NO_LIMIT, clock);
    if (said.refused != 0) return said.refused;
    printf("asked seat %" PRIu64 " for blocks %" PRIu32 " to %" PRIu32 "; room for more: %s\n", seat, first, first + count - 1,
        said.value ? "yes" : "no");
    write_message(hashes, count);
    return 0;
}

static void show(const char *what, uint64_t places) {
    printf("%s: %" PRIu64 " gone\n", what, places);
    for (uint64_t i = 0; i < places; i++)
        printf("  block %" PRIu64 " of seat %" PRIu64 ", reason %" PRIu64 "\n", report[i].entry.height, report[i].entry.owner, report[i].reason);
}

static void status(void) {
    printf("pending %" PRIu64 " blocks, %" PRIu64 " bytes; frontier %" PRIu64 "\n", kofudile_pending_len(words, KOFUDILE_WORDS).value,
        kofudile_pending_bytes(words, KOFUDILE_WORDS).value, kofudile_request_cursor(words, KOFUDILE_WORDS).value);
}

int main(void) {
    uint64_t keys[KOFUDILE_SEATS];
    for (uint64_t seat = 0; seat < KOFUDILE_SEATS; seat++) keys[seat] = seat;
    kofudile_settings settings = kofudile_default_sync_budget(600 * SECOND);

    printf("before the opening: %s\n", kofudile_refusal_text(kofudile_pending_len(words, KOFUDILE_WORDS).refused));
    must(kofudile_open(words, KOFUDILE_WORDS, settings, keys, KOFUDILE_SEATS, 0));
    must(request(3, 1, 4, 1 * SECOND));
    must(request(7, 5, 2, 1 * SECOND));
    read_message(payload_len);
    read_message(payload_len - 1);
    status();
    printf("block 4 again: %s\n", kofudile_refusal_text(request(7, 4, 3, 2 * SECOND)));

    kofudile_received body = kofudile_mark_received_from(
        words, KOFUDILE_WORDS, report, KOFUDILE_PLACES, block(1), 1000000, true, 3, 3 * SECOND);
    must(body.refused);
    show("a body of block 1", body.places);
    kofudile_rejected bad =
        kofudile_reject_delivery(words, KOFUDILE_WORDS, report, KOFUDILE_PLACES, block(5), true, 7, 4 * SECOND);
    must(bad.refused);
    show("a bad body of block 5", bad.places);
    status();

    uint64_t late = 4 * SECOND + kofudile_effective_owner_timeout(words, KOFUDILE_WORDS).value;
    kofudile_pair forecast = kofudile_expired_pending_capacity(words, KOFUDILE_WORDS, late);
    must(forecast.refused);
    printf("a sweep then would let go %" PRIu64 " blocks, %" PRIu64 " bytes, or more\n", forecast.first, forecast.second);
    kofudile_gone swept = kofudile_expire_pending(words, KOFUDILE_WORDS, report, KOFUDILE_PLACES, late);
    must(swept.refused);
    show("the sweep", swept.places);
    status();
    printf("the clock back: %s\n", kofudile_refusal_text(kofudile_expired_pending_capacity(words, KOFUDILE_WORDS, late - 1).refused));
    return 0;
}
