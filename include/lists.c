/*
 * The header's own functions: lists of hashes pass four words for each hash, and an empty one's null pointer is not handed on; a won race, the deepest
 * call; plans and their headrooms; the original's budgets; the order of a hash's bytes; getdata's payload; the texts of refusals. And what the header says of
 * clocks and seats. Ends with 0, or prints a line that fails.
 */
#include <stdio.h>
#include <string.h>

#include "kofudile.h"

#define HOLDS(fact) \
    if (!(fact)) return printf("line %d: %s\n", __LINE__, #fact), 1

static uint64_t words[KOFUDILE_WORDS];
static kofudile_release report[KOFUDILE_PLACES];

/* Empty lists without a pointer: a request that raises the frontier, a confirmation of nothing. */
static int empty_lists(void) {
    HOLDS(kofudile_mark_requested(words, KOFUDILE_WORDS, 1, NULL, NULL, 0, 7, UINT64_MAX, UINT64_MAX, 0).refused == 0);
    HOLDS(kofudile_request_cursor(words, KOFUDILE_WORDS).value == 7);
    HOLDS(kofudile_confirm_prefix_probe(words, KOFUDILE_WORDS, 1, NULL, 0, NULL, 0, 0) == 0);
    HOLDS(kofudile_pending_len(words, KOFUDILE_WORDS).value == 5);
    return 0;
}

/* Each budget opens a window; they differ in the two numbers of fan-out. */
static int budgets(const uint64_t *keys) {
    kofudile_settings usual = kofudile_default_sync_budget(600 * KOFUDILE_SECOND);
    kofudile_settings fast = kofudile_fast_sync_budget(600 * KOFUDILE_SECOND);
    HOLDS(usual.max_pending_bytes == 536870912 && usual.block_spacing == UINT64_C(600000000000));
    HOLDS(usual.fanout_peer_inflight == 16 && usual.min_peers_for_fanout == 8);
    HOLDS(fast.fanout_peer_inflight == 8 && fast.min_peers_for_fanout == 2);
    fast.fanout_peer_inflight = 16;
    fast.min_peers_for_fanout = 8;
    HOLDS(memcmp(&usual, &fast, sizeof usual) == 0);
    HOLDS(kofudile_open(words, KOFUDILE_WORDS, usual, keys, KOFUDILE_SEATS, 0) == 0);
    HOLDS(kofudile_effective_owner_timeout(words, KOFUDILE_WORDS).value == 600 * KOFUDILE_SECOND);
    HOLDS(kofudile_stall_timeout(words, KOFUDILE_WORDS).value == 2 * KOFUDILE_SECOND);
    return 0;
}

static int bytes_and_texts(void) {
    uint8_t bytes[32];
    for (int i = 0; i < 32; i++) bytes[i] = (uint8_t)(i + 1);
    kofudile_hash hash = kofudile_hash_of(bytes);
    HOLDS(hash.a == UINT64_C(0x0102030405060708) && hash.b == UINT64_C(0x090a0b0c0d0e0f10));
    HOLDS(hash.c == UINT64_C(0x1112131415161718) && hash.d == UINT64_C(0x191a1b1c1d1e1f20));
    uint8_t again[33];
    memset(again, 9, sizeof again);
    kofudile_hash_bytes(hash, again);
    HOLDS(memcmp(again, bytes, sizeof bytes) == 0 && again[32] == 9);
    for (uint64_t i = 0; i <= KOFUDILE_REFUSED_CHAIN; i++)
        for (uint64_t j = i + 1; j <= KOFUDILE_REFUSED_CHAIN + 1; j++) HOLDS(strcmp(kofudile_refusal_text(i), kofudile_refusal_text(j)) != 0);
    HOLDS(strcmp(kofudile_refusal_text(KOFUDILE_REFUSED_CHAIN + 1), kofudile_refusal_text(UINT64_MAX)) == 0);
    HOLDS(kofudile_abi_1() == KOFUDILE_ABI);
    return 0;
}

static kofudile_hash listed[KOFUDILE_GETDATA_HASHES + 1];
static kofudile_hash named[KOFUDILE_GETDATA_HASHES];
static uint8_t payload[KOFUDILE_GETDATA_BYTES + 1];

/* A payload of one hash, byte for byte; the byte and the place after what is written stay. */
static int one_entry(void) {
    const uint8_t entry[5] = {1, 2, 0, 0, 64};
    kofudile_hash places[2] = {{0, 0, 0, 0}, {5, 6, 7, 8}};
    listed[0].a = UINT64_C(0x0102030405060708);
    listed[0].d = UINT64_C(0x191a1b1c1d1e1f20);
    memset(payload, 9, sizeof payload);
    HOLDS(kofudile_write_getdata(listed, 1, payload, 36).refused == KOFUDILE_REFUSED_SHORT_OUTPUT && payload[0] == 9);
    HOLDS(kofudile_write_getdata(listed, 1, payload, sizeof payload).value == 37 && payload[37] == 9);
    HOLDS(memcmp(payload, entry, 5) == 0 && payload[5] == 0x01 && payload[12] == 0x08 && payload[36] == 0x20);
    HOLDS(kofudile_read_getdata(payload, 37, places, 2).value == 1);
    HOLDS(memcmp(places, listed, sizeof places[0]) == 0 && places[1].a == 5 && places[1].d == 8);
    HOLDS(kofudile_hash_of(payload + 5).a == places[0].a);
    return 0;
}

/* 252 hashes are counted in one byte, 253 in three; 256 are the most. */
static int counts(void) {
    for (uint64_t i = 0; i <= KOFUDILE_GETDATA_HASHES; i++) listed[i].a = i;
    HOLDS(kofudile_write_getdata(listed, 252, payload, sizeof payload).value == 1 + 36 * 252 && payload[0] == 252);
    HOLDS(kofudile_write_getdata(listed, 253, payload, sizeof payload).value == 3 + 36 * 253 && payload[0] == 253 && payload[1] == 253);
    HOLDS(kofudile_write_getdata(listed, 256, payload, KOFUDILE_GETDATA_BYTES - 1).refused == KOFUDILE_REFUSED_SHORT_OUTPUT);
    HOLDS(kofudile_write_getdata(listed, 256, payload, KOFUDILE_GETDATA_BYTES).value == KOFUDILE_GETDATA_BYTES);
    HOLDS(payload[0] == 253 && payload[1] == 0 && payload[2] == 1);
    HOLDS(kofudile_read_getdata(payload, KOFUDILE_GETDATA_BYTES, named, 255).refused == KOFUDILE_REFUSED_SHORT_OUTPUT && named[0].d == 0);
    HOLDS(kofudile_read_getdata(payload, KOFUDILE_GETDATA_BYTES, named, 256).value == 256);
    HOLDS(memcmp(named, listed, sizeof named) == 0);
    HOLDS(kofudile_read_getdata(payload, KOFUDILE_GETDATA_BYTES + 1, named, 0).refused == KOFUDILE_REFUSED_PAYLOAD);
    HOLDS(kofudile_write_getdata(listed, 257, NULL, 0).refused == KOFUDILE_REFUSED_TOO_MANY);
    HOLDS(kofudile_write_getdata(listed, SIZE_MAX / KOFUDILE_HASH_WORDS + 1, payload, sizeof payload).refused == KOFUDILE_REFUSED_TOO_MANY);
    return 0;
}

/* Empty lists without a pointer: a payload of no hash, room for none, and no payload at all. */
static int empty_payloads(void) {
    HOLDS(kofudile_write_getdata(NULL, 0, NULL, 0).refused == KOFUDILE_REFUSED_SHORT_OUTPUT);
    HOLDS(kofudile_write_getdata(NULL, 0, payload, 1).value == 1 && payload[0] == 0);
    kofudile_number none = kofudile_read_getdata(payload, 1, NULL, 0);
    HOLDS(none.refused == 0 && none.value == 0);
    HOLDS(kofudile_read_getdata(NULL, 0, NULL, 0).refused == KOFUDILE_REFUSED_PAYLOAD);
    return 0;
}

enum { TIP = 7 };
static kofudile_hash chain[TIP + 1];
static kofudile_hash plan_hashes[KOFUDILE_PLACES];
static uint32_t plan_heights[KOFUDILE_PLACES];
static uint64_t copy[KOFUDILE_WORDS];

/* A plan for seat 1 from height 1 on, over the chain and these lists. */
static kofudile_next_request plan_over(const kofudile_hash *staged, size_t staged_len, const kofudile_hash *refused, size_t refused_len) {
    return kofudile_next_peer_request(words, KOFUDILE_WORDS, report, KOFUDILE_PLACES, plan_hashes, plan_heights, KOFUDILE_PLACES, 1, chain, TIP + 1, TIP, 1,
        TIP, 0, staged, staged_len, refused, refused_len, false, UINT64_MAX, UINT64_MAX, 0);
}

/* Every list is taken from the first hash on, and an empty one without a pointer; what is after the plan stays. */
static int plans(const uint64_t *keys) {
    HOLDS(kofudile_open(words, KOFUDILE_WORDS, kofudile_default_sync_budget(600 * KOFUDILE_SECOND), keys, KOFUDILE_SEATS, 0) == 0);
    for (uint64_t i = 0; i <= TIP; i++) chain[i].d = i + 1;
    memset(plan_heights, 9, sizeof plan_heights);
    memset(plan_hashes, 9, sizeof plan_hashes);
    kofudile_next_request plan = plan_over(NULL, 0, NULL, 0);
    HOLDS(plan.refused == 0 && plan.places == 0 && plan.count == 7 && plan.next_height == 8);
    HOLDS(memcmp(plan_hashes, chain + 1, 7 * sizeof chain[0]) == 0 && plan_hashes[7].a == UINT64_C(0x0909090909090909));
    HOLDS(plan_heights[0] == 1 && plan_heights[6] == 7 && plan_heights[7] == 0x09090909);
    HOLDS(kofudile_pending_len(words, KOFUDILE_WORDS).value == 0);
    plan = plan_over(chain + 2, 1, chain + 4, 2);
    HOLDS(plan.count == 4 && plan.next_height == 4);
    HOLDS(plan_heights[0] == 1 && plan_heights[1] == 3 && plan_heights[2] == 6 && plan_heights[3] == 7 && plan_hashes[2].d == chain[6].d);
    HOLDS(kofudile_mark_requested(words, KOFUDILE_WORDS, 1, plan_hashes, plan_heights, (size_t)plan.count, (uint32_t)plan.next_height, UINT64_MAX,
              UINT64_MAX, 0)
              .refused == 0);
    HOLDS(kofudile_request_cursor(words, KOFUDILE_WORDS).value == 4);
    return 0;
}

/* Of two causes 12 goes before 10. A peer that cools is planned for by the second form alone. */
static int plans_refused(void) {
    const kofudile_next_request none = kofudile_next_peer_request(words, KOFUDILE_WORDS, report, KOFUDILE_PLACES, NULL, NULL, 0, 1, NULL, 0, TIP, 1, TIP,
        0, NULL, 0, NULL, 0, false, UINT64_MAX, UINT64_MAX, 0);
    HOLDS(none.refused == KOFUDILE_REFUSED_CHAIN && none.places == 0 && none.count == 0 && none.next_height == 0);
    HOLDS(kofudile_next_peer_request(words, KOFUDILE_WORDS, report, KOFUDILE_PLACES, plan_hashes, plan_heights, KOFUDILE_PLACES - 1, 1, chain, TIP + 1, TIP,
              1, TIP, 0, NULL, 0, NULL, 0, false, UINT64_MAX, UINT64_MAX, 0)
              .refused == KOFUDILE_REFUSED_SHORT_OUTPUT);
    HOLDS(kofudile_next_peer_request(words, KOFUDILE_WORDS, report, KOFUDILE_PLACES, plan_hashes, plan_heights, KOFUDILE_PLACES, 256, chain, TIP, TIP, 1, TIP,
              0, NULL, 0, NULL, 0, false, UINT64_MAX, UINT64_MAX, 0)
              .refused == KOFUDILE_REFUSED_PEER);
    HOLDS(kofudile_mark_peer_unresponsive(words, KOFUDILE_WORDS, 2, 0) == 0);
    for (int retry = 0; retry < 2; retry++) {
        const kofudile_next_request plan = (retry ? kofudile_next_peer_request_allowing_retry : kofudile_next_peer_request)(words, KOFUDILE_WORDS, report,
            KOFUDILE_PLACES, plan_hashes, plan_heights, KOFUDILE_PLACES, 2, chain, TIP + 1, TIP, 1, TIP, 0, NULL, 0, NULL, 0, false, UINT64_MAX, UINT64_MAX, 0);
        HOLDS(plan.refused == 0 && plan.count == (retry ? 2u : 0u) && plan.next_height == (retry ? 8u : 0u));
    }
    return 0;
}

/* Four are pending, of 262,144 bytes each; after 600 s none is, by the copy alone. */
static int headrooms(void) {
    const uint64_t mean = 262144, late = 600 * KOFUDILE_SECOND;
    kofudile_pair said = kofudile_staged_headrooms(words, KOFUDILE_WORDS, copy, report, KOFUDILE_PLACES, 0, 0, 9 * mean, 0);
    HOLDS(said.refused == 0 && said.first == UINT64_MAX && said.second == UINT64_MAX);
    said = kofudile_staged_headrooms(words, KOFUDILE_WORDS, copy, report, KOFUDILE_PLACES, mean, 2, 9 * mean, 0);
    HOLDS(said.refused == 0 && said.first == 4 * mean && said.second == 250);
    said = kofudile_staged_headrooms(words, KOFUDILE_WORDS, copy, report, KOFUDILE_PLACES, mean, 300, 9 * mean, late);
    HOLDS(said.refused == 0 && said.first == 8 * mean && said.second == 0);
    HOLDS(kofudile_pending_len(words, KOFUDILE_WORDS).value == 4 && kofudile_pending_len(copy, KOFUDILE_WORDS).value == 0);
    HOLDS(kofudile_staged_headrooms(words, KOFUDILE_WORDS - 1, copy, report, KOFUDILE_PLACES, 0, 0, 0, 0).refused == KOFUDILE_REFUSED_WORDS_LENGTH);
    said = kofudile_staged_headrooms(words, KOFUDILE_WORDS, copy, report, KOFUDILE_PLACES, mean, 2, 9 * mean, UINT64_MAX);
    HOLDS(said.refused == KOFUDILE_REFUSED_CLOCK && said.first == 0 && said.second == 0);
    return 0;
}

static uint64_t ask(kofudile_hash hash, uint64_t clock) {
    const uint32_t height = 1;
    return kofudile_mark_requested(words, KOFUDILE_WORDS, 1, &hash, &height, 1, 2, UINT64_MAX, UINT64_MAX, clock).refused;
}

static kofudile_blocked look(uint64_t clock) {
    const kofudile_hash none = {0, 0, 0, 0};
    return kofudile_observe_blocked(words, KOFUDILE_WORDS, true, 1, false, none, false, 128, true, 2, clock);
}

/* After its entries went, seat 1 keeps the stall episode, and then its key's cooling. */
static int reused_seat(const uint64_t *keys) {
    uint64_t flags[KOFUDILE_SEATS] = {0};
    const kofudile_hash hash = {1, 2, 3, 4};
    HOLDS(kofudile_open(words, KOFUDILE_WORDS, kofudile_default_sync_budget(600 * KOFUDILE_SECOND), keys, KOFUDILE_SEATS, 0) == 0);
    HOLDS(ask(hash, 0) == 0);
    HOLDS(look(1).decision == KOFUDILE_DECISION_NONE);
    HOLDS(kofudile_retain_owned_by(words, KOFUDILE_WORDS, report, KOFUDILE_PLACES, flags, KOFUDILE_SEATS).places == 1);
    HOLDS(report[0].reason == KOFUDILE_REASON_SEAT_LOST);
    HOLDS(kofudile_owner_queue_start(words, KOFUDILE_WORDS, 1).present == 0);
    HOLDS(kofudile_stalling_peer(words, KOFUDILE_WORDS).present == 1);
    HOLDS(ask(hash, 2 * KOFUDILE_SECOND) == 0);
    kofudile_blocked blamed = look(2 * KOFUDILE_SECOND + 1);
    HOLDS(blamed.decision == KOFUDILE_DECISION_BLAME_STALLER && blamed.owner == 1);
    HOLDS(kofudile_retain_owned_by(words, KOFUDILE_WORDS, report, KOFUDILE_PLACES, flags, KOFUDILE_SEATS).places == 1);
    HOLDS(kofudile_peer_in_staller_cooldown(words, KOFUDILE_WORDS, 1, 3 * KOFUDILE_SECOND).value == 1);
    return 0;
}

/* A clock far ahead stays, until an opening. */
static int far_clock(const uint64_t *keys) {
    const uint64_t most = UINT64_C(1) << 62;
    HOLDS(kofudile_expire_pending(words, KOFUDILE_WORDS, report, KOFUDILE_PLACES, most).refused == KOFUDILE_REFUSED_NONE);
    HOLDS(kofudile_expire_pending(words, KOFUDILE_WORDS, report, KOFUDILE_PLACES, most - 1).refused == KOFUDILE_REFUSED_CLOCK);
    HOLDS(kofudile_expired_pending_capacity(words, KOFUDILE_WORDS, 4 * KOFUDILE_SECOND).refused == KOFUDILE_REFUSED_CLOCK);
    HOLDS(kofudile_open(words, KOFUDILE_WORDS, kofudile_default_sync_budget(0), keys, KOFUDILE_SEATS, 0) == KOFUDILE_REFUSED_NONE);
    HOLDS(kofudile_expire_pending(words, KOFUDILE_WORDS, report, KOFUDILE_PLACES, 0).refused == KOFUDILE_REFUSED_NONE);
    return 0;
}

int main(void) {
    uint64_t keys[KOFUDILE_SEATS] = {0};
    kofudile_settings settings = {256, 1u << 30, 256, 256, 16, 8, 256, 1000, 1000, 1000, 1000, 1000};
    kofudile_hash hashes[5];
    uint32_t heights[5];
    for (uint32_t i = 0; i < 5; i++) {
        kofudile_hash hash = {9, 8, 7, i};
        hashes[i] = hash;
        heights[i] = i + 1;
    }
    uint64_t alternate = 2;
    HOLDS(kofudile_open(words, KOFUDILE_WORDS, settings, keys, KOFUDILE_SEATS, 0) == 0);
    HOLDS(kofudile_mark_requested(words, KOFUDILE_WORDS, 1, hashes, heights, 5, 6, UINT64_MAX, UINT64_MAX, 0).refused == 0);
    HOLDS(kofudile_pending_len(words, KOFUDILE_WORDS).value == 5);
    HOLDS(kofudile_contains_pending(words, KOFUDILE_WORDS, hashes[4]).value == 1);
    if (empty_lists() != 0) return 1;

    kofudile_plan plan = kofudile_prefix_probe_plan(words, KOFUDILE_WORDS);
    HOLDS(plan.refused == 0 && plan.present == 1 && plan.count == 5 && plan.hashes[4].d == hashes[4].d);
    HOLDS(kofudile_prefix_probe_plan(words, KOFUDILE_WORDS - 1).refused == 1);
    HOLDS(kofudile_confirm_prefix_probe(words, KOFUDILE_WORDS, plan.owner, plan.hashes, 4, &alternate, 1, 0) == 0);
    HOLDS(kofudile_active_prefix_probe_started_at(words, KOFUDILE_WORDS).present == 0);
    HOLDS(kofudile_confirm_prefix_probe(words, KOFUDILE_WORDS, plan.owner, plan.hashes, plan.count, &alternate, 1, 0) == 0);
    HOLDS(kofudile_active_prefix_probe_started_at(words, KOFUDILE_WORDS).present == 1);

    kofudile_received body = {0, 0, 0, 0};
    for (int i = 0; i < 4; i++)
        body = kofudile_mark_received_from(words, KOFUDILE_WORDS, report, KOFUDILE_PLACES, hashes[i], 80, true, alternate, 0);
    HOLDS(body.refused == 0 && body.places == 2);
    HOLDS(report[0].reason == KOFUDILE_REASON_DELIVERED && report[1].reason == KOFUDILE_REASON_PREFIX_RACE_LOST);
    if (plans(keys) || plans_refused() || headrooms()) return 1;
    return budgets(keys) || bytes_and_texts() || one_entry() || counts() || empty_payloads() || reused_seat(keys) || far_clock(keys);
}
