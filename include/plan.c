/*
 * A host that plans, marks and delivers until it has caught up by 600 blocks: from four peers, of which one falls silent, one has not every block, and one is
 * behind. host/examples/plan.rs is the same host in Rust, and host/examples/plan.stdout is what both print. From the repository's root:
 *
 *   mkdir -p target && cc -O2 -Iinclude include/plan.c -Ldist -lkofudile -o target/plan && target/plan
 */
#include <inttypes.h>
#include <stdio.h>
#include <stdlib.h>

#include "kofudile.h"

#define STEP (KOFUDILE_SECOND / 10)
#define BODY UINT64_C(250000)
#define MAX_RECEIVED_BYTES (100 * BODY)
/* Of the headers FIRST_TIP are known at first; the others come at step 40. So many blocks are applied in a step, at most. */
enum { TIP = 600, FIRST_TIP = 400, APPLIED = 8, PEERS = 4 };
#define NEVER UINT32_MAX

typedef struct {
    uint64_t seat;
    /* Blocks that it sends in a step, and none after its last step; the greatest height that it has; it has not the blocks at multiples of `lacks`. */
    uint32_t speed, last_step, best, lacks;
    /* The hashes that it said so of. */
    kofudile_hash refused[TIP];
    size_t refused_len;
    /* The heights that it was asked for, from asked_first on; it may be asked for one twice. */
    uint32_t asked[2 * TIP];
    size_t asked_first, asked_len, sent;
} peer;

static peer peers[PEERS];
static uint64_t words[KOFUDILE_WORDS], copy[KOFUDILE_WORDS];
static kofudile_release report[KOFUDILE_PLACES];
static kofudile_hash chain[TIP + 1], plan_hashes[KOFUDILE_PLACES];
static uint32_t plan_heights[KOFUDILE_PLACES];
static bool is_staged[TIP + 2];
static uint32_t tip = FIRST_TIP, next_apply = 1;
static uint64_t swept;

/* A made-up hash. */
static kofudile_hash block(uint32_t height) {
    const kofudile_hash hash = {(uint64_t)(uint32_t)(height * UINT32_C(2654435761)) << 32, 0, 0, 0};
    return hash;
}

static void must(uint64_t refused) {
    if (refused != 0) {
        printf("refused: %s\n", kofudile_refusal_text(refused));
        exit(1);
    }
}

static void deliver_one(peer *from, uint32_t height, uint32_t step, uint64_t clock) {
    const kofudile_hash hash = block(height);
    if (height % from->lacks == 0) {
        printf("step %" PRIu32 ": seat %" PRIu64 " has not block %" PRIu32 "\n", step, from->seat, height);
        from->refused[from->refused_len++] = hash;
        must(kofudile_requeue_for_retry(words, KOFUDILE_WORDS, report, KOFUDILE_PLACES, hash, true, height, clock).refused);
        return;
    }
    must(kofudile_mark_received_from(words, KOFUDILE_WORDS, report, KOFUDILE_PLACES, hash, BODY, true, from->seat, clock).refused);
    is_staged[height] = true;
    from->sent++;
}

static void apply(uint64_t clock) {
    for (int i = 0; i < APPLIED && is_staged[next_apply]; i++) is_staged[next_apply++] = false;
    must(kofudile_retire_before(words, KOFUDILE_WORDS, report, KOFUDILE_PLACES, next_apply, clock).refused);
}

/* What the plan let go; its owner cools. */
static void count_swept(uint64_t places, uint32_t step, uint64_t clock) {
    if (places == 0) return;
    printf("step %" PRIu32 ": %" PRIu64 " of seat %" PRIu64 " swept, the first as %s\n", step, places, report[0].entry.owner,
        report[0].reason == KOFUDILE_REASON_PASSED_OVER ? "PassedOver" : "OwnerTimedOut");
    swept += places;
    must(kofudile_mark_peer_unresponsive(words, KOFUDILE_WORDS, report[0].entry.owner, clock));
}

/* How many hashes are staged, and these. */
static size_t staged_hashes(kofudile_hash *staged) {
    size_t count = 0;
    for (uint32_t height = next_apply; height <= tip; height++)
        if (is_staged[height]) staged[count++] = block(height);
    return count;
}

static void request(peer *of, uint32_t step, uint64_t clock) {
    static kofudile_hash staged[TIP];
    const size_t count = staged_hashes(staged);
    const kofudile_pair headrooms =
        kofudile_staged_headrooms(words, KOFUDILE_WORDS, copy, report, KOFUDILE_PLACES, BODY * count, count, MAX_RECEIVED_BYTES, clock);
    must(headrooms.refused);
    const kofudile_next_request plan = kofudile_next_peer_request(words, KOFUDILE_WORDS, report, KOFUDILE_PLACES, plan_hashes, plan_heights,
        KOFUDILE_PLACES, of->seat, chain, (size_t)tip + 1, tip, next_apply, of->best, 0, staged, count, of->refused, of->refused_len,
        BODY * count >= MAX_RECEIVED_BYTES, headrooms.first, headrooms.second, clock);
    must(plan.refused);
    count_swept(plan.places, step, clock);
    if (plan.count == 0) return;
    /* The headrooms matter to the answer alone, whether there is room for more, which this host does not ask. */
    must(kofudile_mark_requested(words, KOFUDILE_WORDS, of->seat, plan_hashes, plan_heights, (size_t)plan.count, (uint32_t)plan.next_height, UINT64_MAX,
        UINT64_MAX, clock)
             .refused);
    static uint8_t payload[KOFUDILE_GETDATA_BYTES];
    const kofudile_number message = kofudile_write_getdata(plan_hashes, (size_t)plan.count, payload, sizeof payload);
    must(message.refused);
    if (step == 0) printf("step 0: seat %" PRIu64 " is asked for %" PRIu64 " blocks, in %" PRIu64 " bytes\n", of->seat, plan.count, message.value);
    for (uint64_t i = 0; i < plan.count; i++) of->asked[of->asked_len++] = plan_heights[i];
}

static void open_all(void) {
    static const uint32_t made[PEERS][4] = {{3, NEVER, TIP, NEVER}, {4, 15, TIP, NEVER}, {2, NEVER, TIP, 30}, {2, NEVER, 250, NEVER}};
    for (uint32_t i = 0; i < PEERS; i++) {
        peers[i].seat = i + 1;
        peers[i].speed = made[i][0];
        peers[i].last_step = made[i][1];
        peers[i].best = made[i][2];
        peers[i].lacks = made[i][3];
    }
    for (uint32_t height = 0; height <= TIP; height++) chain[height] = block(height);
    uint64_t keys[KOFUDILE_SEATS];
    for (uint64_t seat = 0; seat < KOFUDILE_SEATS; seat++) keys[seat] = seat;
    /* Smaller messages than the original's default, so that the peers share the work, and shorter waits. */
    kofudile_settings settings = kofudile_default_sync_budget(2 * KOFUDILE_SECOND);
    settings.max_peer_inflight = 16;
    settings.getdata_batch_limit = 16;
    settings.max_received_blocks = 100;
    must(kofudile_open(words, KOFUDILE_WORDS, settings, keys, KOFUDILE_SEATS, 0));
}

int main(void) {
    uint32_t step = 0;
    open_all();
    for (; next_apply <= TIP; step++) {
        const uint64_t clock = STEP * step;
        if (step == 40) tip = TIP;
        for (peer *from = peers; from < peers + PEERS; from++)
            for (uint32_t i = 0; i < from->speed && step <= from->last_step && from->asked_first < from->asked_len; i++)
                deliver_one(from, from->asked[from->asked_first++], step, clock);
        apply(clock);
        for (peer *of = peers; of < peers + PEERS; of++) request(of, step, clock);
    }
    printf("step %" PRIu32 ": all %d applied; %" PRIu64 " swept; at most %" PRIu64 " pending\n", step, TIP, swept,
        kofudile_pending_high_water(words, KOFUDILE_WORDS).first);
    for (const peer *of = peers; of < peers + PEERS; of++) printf("  seat %" PRIu64 " sent %zu, refused %zu\n", of->seat, of->sent, of->refused_len);
    return 0;
}
