/*
 * Kofudile: the table of blocks that a node has asked for and not yet received.
 *
 * For C99 and C++11 or later. Link libkofudile.a (x86-64, System V calls): dist/ has it ready, `make install` puts it beside this header, with kofudile.pc
 * for pkg-config. It keeps nothing of its own: no globals, no allocation, no clock, no threads. All state is in 4,096 words that the host lends with
 * each call. include/example.c is a whole host. It calls memmove and memset, which the compiler's back end puts in, and nothing else; an archive of
 * another version may call memcpy too: a freestanding host supplies these three.
 *
 * A file that includes this header links only with an archive of the same ABI: the linker else misses kofudile_abi_1.
 *
 * WHAT IS LENT, AND FOR HOW LONG
 *   words    the window: 4,096 of uint64_t, 32 KiB. The host owns them for as long as it likes, may copy, save and load them, and lends them to one
 *            call at a time. Nothing points into them after a call returns. Between calls it leaves them as they are: words that were changed and still
 *            count as a window are taken for one. docs/LAYOUT.md says what each word means.
 *   report   where a call that lets entries go writes them: 256 or more of kofudile_release. The answer's `places` says how many were written, from the
 *            first place on; places after them are as they were. Lent for the one call.
 *   lists    hashes, heights, keys, flags, alternates, a payload, a chain: read during the call only.
 *   out      where a payload is written; `hashes` where one is read; `plan_hashes` and `plan_heights` where a request is planned. The answer says how many
 *            bytes or hashes were written, from the first on; what is after them is as it was. Lent for the one call.
 * A list is a pointer and then its length, counted in elements. The library trusts the host in this alone:
 *   - a pointer is not null, and that many elements may be read (written: words, report, out, the hashes of a payload that is read, a plan's hashes and
 *     heights). It is aligned as its type is: to 8 bytes, heights to 4, a payload's bytes not at all. In the functions over lists of kofudile_hash
 *     (kofudile_mark_requested, kofudile_next_peer_request, kofudile_next_peer_request_allowing_retry, kofudile_confirm_prefix_probe,
 *     kofudile_write_getdata, kofudile_read_getdata) the pointer of a list of length 0 is not looked at, and may be null;
 *   - what is lent for writing overlaps no other argument, and no other thread touches it during the call. Several threads may query one window;
 *   - nobody else writes what is lent during the call, another process or a device neither: the words are checked when a call begins and relied on until
 *     it ends. A window in shared memory needs a lock that all its writers take;
 *   - a bool is 0 or 1.
 * Everything else is checked: any length, any words, any numbers give an answer and never undefined behaviour.
 *
 * STACK AND TIME
 *   Give a call 64 KB of stack, and one that plans 192 KB. As built a plan takes at most 104.4 KB, and any other call 27.2 KB (mark_received_from and
 *   credit_delivery_from; expire_pending, retire_before and retain_owned_by 21 to 27, a request of many entries 9, everything else under 5). No call recurses.
 *   A request's list is looked through for hashes listed twice before its length is: one that is too long is refused in a time that grows with the square
 *   of its length (64,000 hashes: 2.6 s). A host whose lists come from elsewhere holds them to KOFUDILE_PLACES first.
 *   A plan's time grows with the staged and refused lists, from 8,192 hashes on with the square of their length, not with the chain: of that only the
 *   heights that are looked at are read.
 *
 * CLOCKS, AND SAVING A WINDOW
 *   The words hold the last accepted clock, and nothing but an opening sets it back. A clock far ahead, accepted once, stays: every call and query that takes an
 *   earlier one is refused by 4 from then on. So hand in a monotonic clock, not the time of day.
 *   With saved words save where the clock started: one that starts again from 0 is refused by 4 until it has caught up.
 *
 * A SEAT GIVEN TO ANOTHER CONNECTION
 *   counts as the same peer come back. kofudile_retain_owned_by with flag 0 for the seat, before the new connection has it, drops the old one's entries, the time
 *   since which it is waited for, its last body, its part in both races, the preference for it and an observed timeout. What the seat keeps after that:
 *   - its key, which the opening alone sets, and with it the cooling of that key;
 *   - a stall episode that names the seat: a pending block's body from the new connection ends it, and where that is asked for the same block before the
 *     next look, its time runs from the old one's start.
 *
 * TERMS
 *   seat     0 to 255: the host's number for a connection. Key: 0 to 255, one for each seat, for the address behind it; cooling goes by key.
 *   clock    nanoseconds from any start that the host chooses, at most 2^62, never going back between accepted calls (a query's moves nothing). Durations are nanoseconds.
 *   hash     32 bytes as four words, in the order in which they come on the wire (inv, getdata, headers): the first byte is the highest of word a, the
 *            last the lowest of word d: kofudile_hash_of, kofudile_hash_bytes. Explorers and node consoles show the bytes in reverse: the first byte on the wire is the last
 *            pair of digits shown. "By rising hash" is by the bytes on the wire, from the first.
 *   entry    a block asked for: hash, owner seat, time of the request, height, estimate of its bytes.
 *   frontier the height from which the host looks for blocks to request next (kofudile_request_cursor).
 *   mean     of block bytes, moved by each body; an entry's estimate is the mean at its request.
 *   headroom how many bytes and blocks may still be staged, as the host's staging area finds it; UINT64_MAX for no limit.
 *   A value that may be missing is `has_x` and then `x`; where `has_x` is false, `x` is not read.
 *
 * ANSWERS
 *   An answer begins with `refused`: 0, or one of the numbers 1 to 12 below, and then every other field is 0. A call that answers a plain uint64_t
 *   answers that number. A refused call changes nothing: words, report and what else is lent are as they were. Of several causes the lowest number is
 *   answered, but where a payload is read 11 before 10, and where a request is planned 12 before 10. The comment `refused by ..` of a call lists all that it can answer.
 */
#ifndef KOFUDILE_H
#define KOFUDILE_H

#include <stdbool.h>
#include <stddef.h>
#include <stdint.h>

#ifdef __cplusplus
extern "C" {
#endif

#define KOFUDILE_VERSION_MAJOR 0
#define KOFUDILE_VERSION_MINOR 3
#define KOFUDILE_VERSION_PATCH 0
#define KOFUDILE_ABI 1 /* another number for any change of a struct or of a function's arguments, answer or name */

#define KOFUDILE_WORDS 4096                  /* length of `words` */
#define KOFUDILE_PLACES 256                  /* least length of `report` and of a plan's lists, and most entries pending */
#define KOFUDILE_SEATS 256                   /* length of `keys` and `flags` */
#define KOFUDILE_HASH_WORDS 4                /* words of a hash */
#define KOFUDILE_GETDATA_HASHES 256          /* most hashes of a getdata payload */
#define KOFUDILE_GETDATA_BYTES 9219          /* length of the longest: 3 bytes for the count, 36 for each of 256 hashes */
#define KOFUDILE_SECOND UINT64_C(1000000000) /* nanoseconds */

/* No pointer is null, and the answer is looked at; of functions over lists the first pointer alone, since an empty list has none (of a plan the report's too);
   where all are lists, none. */
#if defined(__GNUC__)
#define KOFUDILE_API __attribute__((nonnull, warn_unused_result))
#define KOFUDILE_LIST_API __attribute__((nonnull(1), warn_unused_result))
#define KOFUDILE_PLAN_API __attribute__((nonnull(1, 3), warn_unused_result))
#define KOFUDILE_LISTS_API __attribute__((warn_unused_result))
#else
#define KOFUDILE_API
#define KOFUDILE_LIST_API
#define KOFUDILE_PLAN_API
#define KOFUDILE_LISTS_API
#endif

/* Kept by compiler and linker, though nothing reads it. */
#if defined(__has_attribute)
#if __has_attribute(retain)
#define KOFUDILE_KEPT __attribute__((used, retain))
#endif
#endif
#if !defined(KOFUDILE_KEPT) && defined(__GNUC__)
#define KOFUDILE_KEPT __attribute__((used))
#elif !defined(KOFUDILE_KEPT)
#define KOFUDILE_KEPT
#endif

/* Answers 1. Whoever includes this header asks for it by name: 8 bytes of constant data for each file, and no code. */
uint64_t kofudile_abi_1(void);
KOFUDILE_KEPT static uint64_t (*const kofudile_abi_required)(void) = kofudile_abi_1;

/* Why a call was refused, and who caused it: kofudile_refusal_text says it in words. */
enum {
    KOFUDILE_REFUSED_NONE = 0,
    /* The host, by memory it lends. */
    KOFUDILE_REFUSED_WORDS_LENGTH = 1, /* words_len is not 4,096 */
    KOFUDILE_REFUSED_NO_WINDOW = 2,    /* the words are not a window: never opened, or damaged since */
    KOFUDILE_REFUSED_SHORT_REPORT = 3, /* report_len is under 256 */
    /* The host, by clock and settings. */
    KOFUDILE_REFUSED_CLOCK = 4,    /* the clock is above 2^62, or before that of the last accepted call that took one (queries do not count) */
    KOFUDILE_REFUSED_SETTINGS = 5, /* opening: a duration above 10^15, max_pending_bytes above 2^40, max_pending_blocks above 256, another count above 65,535 */
    /* Whoever names a peer. */
    KOFUDILE_REFUSED_PEER = 6, /* a seat or key above 255, not 256 keys or flags, more than 256 alternates */
    /* Whoever builds a request. */
    KOFUDILE_REFUSED_DUPLICATE = 7, /* a hash of the request is pending already, or is listed twice */
    KOFUDILE_REFUSED_TOO_MANY = 8,  /* pending and listed entries together are more than 256, or so many hashes are to be written as one getdata */
    /* A peer. */
    KOFUDILE_REFUSED_BODY_SIZE = 9, /* a body above 4,294,967,295 bytes */
    /* The host, by memory it lends. */
    KOFUDILE_REFUSED_SHORT_OUTPUT = 10, /* what is lent to be written is too short for what would be written */
    /* A peer. */
    KOFUDILE_REFUSED_PAYLOAD = 11, /* the bytes are no getdata payload for at most 256 witness blocks: a type, the length, the count or its form is another */
    /* The host, by memory it lends. */
    KOFUDILE_REFUSED_CHAIN = 12 /* the chain is not tip + 1 whole hashes */
};

/* Why an entry went. All but DELIVERED, RELEASED and RETIRED lower the frontier to the entry's height. */
enum {
    KOFUDILE_REASON_DELIVERED = 1,        /* its body came, from whomever */
    KOFUDILE_REASON_OWNER_REJECTED = 2,   /* its owner's body was rejected */
    KOFUDILE_REASON_RETRY = 3,            /* kofudile_requeue_for_retry */
    KOFUDILE_REASON_RELEASED = 4,         /* kofudile_release_pending */
    KOFUDILE_REASON_RETIRED = 5,          /* kofudile_retire_before */
    KOFUDILE_REASON_OWNER_TIMED_OUT = 6,  /* sweep: its owner's time was out */
    KOFUDILE_REASON_PASSED_OVER = 7,      /* sweep: its owner sent a later body, and the stall wait had passed */
    KOFUDILE_REASON_SEAT_LOST = 8,        /* kofudile_retain_owned_by */
    KOFUDILE_REASON_PREFIX_RACE_LOST = 9, /* its owner lost a prefix race */
    KOFUDILE_REASON_HEDGE_LOST = 10       /* its owner lost the race for a cold front */
};

/* What kofudile_mark_owned_fetch says. */
enum {
    KOFUDILE_FETCH_HELD = 0,       /* it was pending already: nothing changed but the clock */
    KOFUDILE_FETCH_STAGED = 1,     /* the host said that its body is staged: the same */
    KOFUDILE_FETCH_ASKED = 2,      /* it is pending now */
    KOFUDILE_FETCH_NO_CAPACITY = 3 /* the window, the owner or the staging area has no room: the same */
};

/* What kofudile_observe_blocked decides. */
enum {
    KOFUDILE_DECISION_NONE = 0,
    KOFUDILE_DECISION_BLAME_STALLER = 1,         /* owner: it holds up the whole window; it cools from now on */
    KOFUDILE_DECISION_BLAME_PENDING_TIMEOUT = 2, /* owner: its time was out at a look, and at the next one too or its entry was swept between; it cools from now on */
    KOFUDILE_DECISION_EVICT_STAGED = 3,          /* height, hash, suppressed: applying is stuck on this staged block for so long: drop it */
    KOFUDILE_DECISION_HEDGE_COLD_FRONT = 4       /* owner, hash: ask another peer for this block too, then kofudile_confirm_cold_front_hedge */
};

typedef struct {
    uint64_t a, b, c, d;
} kofudile_hash;

typedef struct {
    kofudile_hash hash;
    uint64_t owner, time, height, estimate;
} kofudile_entry;

typedef struct {
    kofudile_entry entry;
    uint64_t reason;
} kofudile_release;

/* The original's limits of the same names; durations in nanoseconds. */
typedef struct {
    uint64_t max_pending_blocks, max_pending_bytes, max_received_blocks, max_peer_inflight, fanout_peer_inflight, min_peers_for_fanout,
        getdata_batch_limit, block_spacing, received_timeout, stall_timeout_initial, stall_timeout_max, staller_cooldown;
} kofudile_settings;

/* A number; of a yes or no, 1 or 0. */
typedef struct {
    uint64_t refused, value;
} kofudile_number;

typedef struct {
    uint64_t refused, first, second;
} kofudile_pair;

/* present 1: the value. present 0: there is none, and it reads 0. */
typedef struct {
    uint64_t refused, present, value;
} kofudile_perhaps;

typedef struct {
    uint64_t refused, present, first, second;
} kofudile_perhaps_pair;

/* places: how many releases the report holds. */
typedef struct {
    uint64_t refused, places;
} kofudile_gone;

/* present 1: it was pending, at this height. */
typedef struct {
    uint64_t refused, places, present, height;
} kofudile_received;

/* released 1: the source owned it and it went. released 0: the source did not own it, and the body is only discarded. */
typedef struct {
    uint64_t refused, places, released;
} kofudile_rejected;

/* Fields that a decision does not name are 0. */
typedef struct {
    uint64_t refused, decision, owner, height, suppressed;
    kofudile_hash hash;
} kofudile_blocked;

/* present 1: ask others too for `count` blocks of `owner`, the last at end_height (one less where
   the walk reached 4,294,967,295, as in the original). */
typedef struct {
    uint64_t refused, present, owner, count, end_height;
    kofudile_hash hashes[8]; /* 0 after the first `count` */
} kofudile_plan;

/* count: how many hashes and heights were planned, to be asked of the source; 0: there is no request, and next_height is 0. places: of the report. */
typedef struct {
    uint64_t refused, places, count, next_height;
} kofudile_next_request;

/* ---- Opening ---- */

/*
 * Makes the words an empty window, whatever they held: frontier 1, mean 262,144. keys: the key of each seat, 256 of them. The clock only has to be
 * at most 2^62; later ones count from it. refused by 1, 4, 5, 6
 */
KOFUDILE_API uint64_t kofudile_open(uint64_t *words, size_t words_len, kofudile_settings settings, const uint64_t *keys, size_t keys_len, uint64_t clock);

/* ---- Requests ---- */

/*
 * The host sent this request to owner: its entries are pending from now, `count` hashes and as many heights; it may be empty. next: the frontier is raised
 * to it. The headrooms are those with the entries in. value 1: there is room for more. A request may pass max_pending_blocks, not 256.
 * refused by 1, 2, 4, 6, 7, 8
 */
KOFUDILE_LIST_API static inline kofudile_number kofudile_mark_requested(uint64_t *words, size_t words_len, uint64_t owner, const kofudile_hash *hashes,
    const uint32_t *heights, size_t count, uint32_t next, uint64_t byte_headroom, uint64_t count_headroom, uint64_t clock);

/*
 * The same of hashes as plain words, four each: hash_words_len is FOUR TIMES the number of hashes. The request is the first
 * min(hash_words_len / 4, heights_len) entries; the rest is not looked at.
 */
KOFUDILE_API kofudile_number kofudile_mark_requested_words(uint64_t *words, size_t words_len, uint64_t owner, const uint64_t *hash_words,
    size_t hash_words_len, const uint32_t *heights, size_t heights_len, uint32_t next, uint64_t byte_headroom, uint64_t count_headroom,
    uint64_t clock);

/*
 * The host would fetch one block from owner, out of turn; is_staged: whether its body is staged. value: one of KOFUDILE_FETCH_..;
 * only after ASKED is a message to be sent. refused by 1, 2, 4, 6
 */
KOFUDILE_API kofudile_number kofudile_mark_owned_fetch(uint64_t *words, size_t words_len, uint64_t owner, kofudile_hash hash, uint32_t height, bool is_staged,
    uint64_t byte_headroom, uint64_t count_headroom, uint64_t clock);

/* ---- Planning: what to ask of a peer next ---- */

/*
 * Plans the next request to source and opens no entry: a plan that was sent is marked by kofudile_mark_requested, with its hashes, heights and next_height
 * as they are. The sweep (kofudile_expire_pending) is part of it, and the report has what it let go, whether a plan comes of it or not.
 *   plan_hashes, plan_heights   where the plan is written: plan_len places each, at least KOFUDILE_PLACES. First what was swept, by height; then the
 *                               chain's from the frontier up. Neither pending, staged nor refused ones; no hash twice; none under floor.
 *   chain, tip                  the hashes from height 0 to tip, so chain_len is tip + 1. Only the heights that are looked at are read.
 *   start, best, floor          the least height that is wanted; the greatest that the peer has; the least that it serves. A frontier above start falls to
 *                               start where the block there is neither pending nor staged.
 *   staged, refused             hashes of the staged blocks; hashes that this peer is not to be asked for. The lowest of these holds next_height back.
 *   exhausted                   staged bytes reach their limit: then there is no plan, and nothing is swept.
 *   byte_headroom, count_headroom   those of AFTER the sweep: kofudile_staged_headrooms finds them on a copy. Do not sweep the words first and then plan: the
 *                               second sweep has fewer active peers, and a shorter timeout.
 * A source whose time is out or whose key cools gets no plan, and nothing is swept. docs/SPECIFICATION.md, section 16, has every step.
 * refused by 1, 2, 3, 4, 6, 12 (chain_len is not tip + 1), 10 (plan_len is under 256)
 */
KOFUDILE_PLAN_API static inline kofudile_next_request kofudile_next_peer_request(uint64_t *words, size_t words_len, kofudile_release *report,
    size_t report_len, kofudile_hash *plan_hashes, uint32_t *plan_heights, size_t plan_len, uint64_t source, const kofudile_hash *chain, size_t chain_len,
    uint32_t tip, uint32_t start, uint32_t best, uint32_t floor, const kofudile_hash *staged, size_t staged_len, const kofudile_hash *refused,
    size_t refused_len, bool exhausted, uint64_t byte_headroom, uint64_t count_headroom, uint64_t clock);

/* The same also of a source whose time is out or whose key cools: it is not asked about. */
KOFUDILE_PLAN_API static inline kofudile_next_request kofudile_next_peer_request_allowing_retry(uint64_t *words, size_t words_len,
    kofudile_release *report, size_t report_len, kofudile_hash *plan_hashes, uint32_t *plan_heights, size_t plan_len, uint64_t source,
    const kofudile_hash *chain, size_t chain_len, uint32_t tip, uint32_t start, uint32_t best, uint32_t floor, const kofudile_hash *staged,
    size_t staged_len, const kofudile_hash *refused, size_t refused_len, bool exhausted, uint64_t byte_headroom, uint64_t count_headroom, uint64_t clock);

/*
 * The same of hashes as plain words, four each: a list's length is FOUR TIMES the number of its hashes (plan_heights_len: the number of heights). Lent are
 * 1,024 words for the plan's hashes or more, and 256 heights or more; the chain is 4 * (tip + 1) words. Of staged and refused words what is past the last
 * whole hash is not read.
 */
KOFUDILE_API kofudile_next_request kofudile_next_peer_request_words(uint64_t *words, size_t words_len, kofudile_release *report, size_t report_len,
    uint64_t *plan_hash_words, size_t plan_hash_words_len, uint32_t *plan_heights, size_t plan_heights_len, uint64_t source,
    const uint64_t *chain_words, size_t chain_words_len, uint32_t tip, uint32_t start, uint32_t best, uint32_t floor, const uint64_t *staged_words,
    size_t staged_words_len, const uint64_t *refused_words, size_t refused_words_len, bool exhausted, uint64_t byte_headroom,
    uint64_t count_headroom, uint64_t clock);
KOFUDILE_API kofudile_next_request kofudile_next_peer_request_allowing_retry_words(uint64_t *words, size_t words_len, kofudile_release *report,
    size_t report_len, uint64_t *plan_hash_words, size_t plan_hash_words_len, uint32_t *plan_heights, size_t plan_heights_len, uint64_t source,
    const uint64_t *chain_words, size_t chain_words_len, uint32_t tip, uint32_t start, uint32_t best, uint32_t floor, const uint64_t *staged_words,
    size_t staged_words_len, const uint64_t *refused_words, size_t refused_words_len, bool exhausted, uint64_t byte_headroom,
    uint64_t count_headroom, uint64_t clock);

/*
 * The two headrooms for a plan at this clock: first bytes, second blocks. The words are not written: the sweep is made on a copy of them in `copy`
 * (KOFUDILE_WORDS of them, what they hold does not matter), and the report is written over. Without staged bytes there is no limit of bytes, without staged blocks
 * none of blocks; else max_received_bytes, or the window's own max_received_blocks, less what is staged and less what is pending, not below 0.
 * refused by 1, 2, 3, 4
 */
KOFUDILE_API static inline kofudile_pair kofudile_staged_headrooms(const uint64_t *words, size_t words_len, uint64_t *copy, kofudile_release *report,
    size_t report_len, uint64_t staged_bytes, uint64_t staged_blocks, uint64_t max_received_bytes, uint64_t clock);

/* ---- getdata's payload: needs no window, and changes none ---- */

/*
 * Writes the payload of the getdata message that asks for `count` blocks, which may be none: the count as CompactSize in its shortest form; then for each
 * hash the type 0x40000002 (BIP 144's witness block) in four bytes, the low one first, and the hash's 32 bytes. value: how many bytes of out were written.
 * KOFUDILE_GETDATA_BYTES are enough for any. What was sent is marked by kofudile_mark_requested. refused by 8, 10
 */
KOFUDILE_LISTS_API static inline kofudile_number kofudile_write_getdata(const kofudile_hash *hashes, size_t count, uint8_t *out, size_t out_len);

/* The same of hashes as plain words, four each: hash_words_len is FOUR TIMES the number of hashes; what is past the last whole hash is not read. */
KOFUDILE_API kofudile_number kofudile_write_getdata_words(const uint64_t *hash_words, size_t hash_words_len, uint8_t *out, size_t out_len);

/*
 * Reads such a payload; it may come from a stranger, and any bytes may be handed in. Exactly what kofudile_write_getdata writes is accepted. value: how
 * many hashes were written, to the first of `count` places. KOFUDILE_GETDATA_HASHES are enough for any. refused by 10, 11; 11 goes first
 */
KOFUDILE_LISTS_API static inline kofudile_number kofudile_read_getdata(const uint8_t *payload, size_t payload_len, kofudile_hash *hashes, size_t count);

/* The same into plain words, four a hash: hash_words_len is FOUR TIMES the number of places; value counts hashes. */
KOFUDILE_API kofudile_number kofudile_read_getdata_words(const uint8_t *payload, size_t payload_len, uint64_t *hash_words, size_t hash_words_len);

/* ---- Deliveries ---- */

/*
 * A body came: its entry goes (DELIVERED, first in the report), whoever sent it; the source, if there is one, is credited, which may decide a race and
 * let the losers' entries go (PREFIX_RACE_LOST, HEDGE_LOST, by rising hash); the mean moves. refused by 1, 2, 3, 4, 6, 9
 */
KOFUDILE_API kofudile_received kofudile_mark_received_from(uint64_t *words, size_t words_len, kofudile_release *report, size_t report_len,
    kofudile_hash hash, uint64_t bytes, bool has_source, uint64_t source, uint64_t clock);

/* Credits the source alone, as above: the entry and the mean stay. height: where it was pending, if it was. refused by 1, 2, 3, 4, 6 */
KOFUDILE_API kofudile_gone kofudile_credit_delivery_from(uint64_t *words, size_t words_len, kofudile_release *report, size_t report_len,
    kofudile_hash hash, uint64_t source, bool has_height, uint32_t height, uint64_t clock);

/* The source sent what was there already: an observation of it and this hash is dropped. refused by 1, 2, 6 */
KOFUDILE_API uint64_t kofudile_credit_duplicate_delivery(uint64_t *words, size_t words_len, kofudile_hash hash, uint64_t source);

/* A body was no good: if the source owned the entry, the entry goes (OWNER_REJECTED). refused by 1, 2, 3, 4, 6 */
KOFUDILE_API kofudile_rejected kofudile_reject_delivery(uint64_t *words, size_t words_len, kofudile_release *report, size_t report_len,
    kofudile_hash hash, bool has_source, uint64_t source, uint64_t clock);

/* ---- Letting go ---- */

/* The sweep: entries of owners whose time is out, and entries passed over, go (OWNER_TIMED_OUT, PASSED_OVER, by rising hash). refused by 1, 2, 3, 4 */
KOFUDILE_API kofudile_gone kofudile_expire_pending(uint64_t *words, size_t words_len, kofudile_release *report, size_t report_len, uint64_t clock);

/* The block is to be asked again: its entry, if any, goes (RETRY); the frontier is lowered to height too, entry or none. refused by 1, 2, 3, 4 */
KOFUDILE_API kofudile_gone kofudile_requeue_for_retry(uint64_t *words, size_t words_len, kofudile_release *report, size_t report_len,
    kofudile_hash hash, bool has_height, uint32_t height, uint64_t clock);

/* The block is no longer wanted: its entry, if any, goes (RELEASED), the frontier stays. refused by 1, 2, 3, 4 */
KOFUDILE_API kofudile_gone kofudile_release_pending(uint64_t *words, size_t words_len, kofudile_release *report, size_t report_len,
    kofudile_hash hash, uint64_t clock);

/* Every entry below height goes (RETIRED, by rising hash), the frontier stays. refused by 1, 2, 3, 4 */
KOFUDILE_API kofudile_gone kofudile_retire_before(uint64_t *words, size_t words_len, kofudile_release *report, size_t report_len,
    uint32_t height, uint64_t clock);

/* Seats whose flag is 0 are gone: their entries go (SEAT_LOST, by rising hash) and races forget them. 256 flags. refused by 1, 2, 3, 6 */
KOFUDILE_API kofudile_gone kofudile_retain_owned_by(uint64_t *words, size_t words_len, kofudile_release *report, size_t report_len,
    const uint64_t *flags, size_t flags_len);

/* ---- Peers and races ---- */

/* The source's key cools from now on: see kofudile_peer_in_staller_cooldown. refused by 1, 2, 4, 6 */
KOFUDILE_API uint64_t kofudile_mark_peer_unresponsive(uint64_t *words, size_t words_len, uint64_t source, uint64_t clock);

/*
 * The host asked the alternates too for the blocks of kofudile_prefix_probe_plan: the race begins. hashes: the plan's, `count` of them. If owner and hashes
 * are not those of the plan as it is now, or there is no alternate, nothing changes but the clock, and the answer is 0 all the same:
 * kofudile_active_prefix_probe_started_at says whether the race began. refused by 1, 2, 4, 6
 */
KOFUDILE_LIST_API static inline uint64_t kofudile_confirm_prefix_probe(uint64_t *words, size_t words_len, uint64_t owner, const kofudile_hash *hashes,
    size_t count, const uint64_t *alternates, size_t alternates_len, uint64_t clock);

/* The same of hashes as plain words, four each: hash_words_len is FOUR TIMES the number of hashes. */
KOFUDILE_API uint64_t kofudile_confirm_prefix_probe_words(uint64_t *words, size_t words_len, uint64_t owner, const uint64_t *hash_words,
    size_t hash_words_len, const uint64_t *alternates, size_t alternates_len, uint64_t clock);

/*
 * The host asked the alternate too for the block of KOFUDILE_DECISION_HEDGE_COLD_FRONT. Does nothing if the window waits for another, or hedged two fronts already,
 * and answers 0 all the same: kofudile_hedge_offered of alternate and hash says whether the race began. refused by 1, 2, 6
 */
KOFUDILE_API uint64_t kofudile_confirm_cold_front_hedge(uint64_t *words, size_t words_len, uint64_t owner, uint64_t alternate, kofudile_hash hash);

/*
 * The look at a blocked window, to be made again and again: what to do. next: the height to be applied next, if known. frontier: the hash staged at
 * that height, if any (the apply side's frontier, not the window's). busy: applying is at work. staged: how many blocks are staged. highest: the
 * greatest height of a staged hash that the tree knows. refused by 1, 2, 4
 */
KOFUDILE_API kofudile_blocked kofudile_observe_blocked(uint64_t *words, size_t words_len, bool has_next, uint32_t next,
    bool has_frontier, kofudile_hash frontier, bool busy, uint64_t staged, bool has_highest, uint32_t highest, uint64_t clock);

/*
 * So many peers may be asked. With min_peers_for_fanout of them fan-out engages, unless a prefix race is younger than stall_timeout_initial; with two
 * fewer it ends. While it is engaged no prefix race runs. refused by 1, 2, 4
 */
KOFUDILE_API uint64_t kofudile_set_fanout_eligible_peers(uint64_t *words, size_t words_len, uint64_t eligible, uint64_t clock);

/* Forgets the winner of the last race. refused by 1, 2 */
KOFUDILE_API uint64_t kofudile_clear_preferred_peer(uint64_t *words, size_t words_len);

/* ---- Queries: none writes anything. A clock is refused by 4 as in calls, a seat by 6. ---- */

/* How many entries are pending, and the sum of their estimates. refused by 1, 2 */
KOFUDILE_API kofudile_number kofudile_pending_len(const uint64_t *words, size_t words_len);
KOFUDILE_API kofudile_number kofudile_pending_bytes(const uint64_t *words, size_t words_len);
/* The most blocks, and the most bytes, that were pending at one time. refused by 1, 2 */
KOFUDILE_API kofudile_pair kofudile_pending_high_water(const uint64_t *words, size_t words_len);
/* Whether the hash is pending; its owner. refused by 1, 2 */
KOFUDILE_API kofudile_number kofudile_contains_pending(const uint64_t *words, size_t words_len, kofudile_hash hash);
KOFUDILE_API kofudile_perhaps kofudile_pending_owner(const uint64_t *words, size_t words_len, kofudile_hash hash);
/* The frontier; the mean. refused by 1, 2 */
KOFUDILE_API kofudile_number kofudile_request_cursor(const uint64_t *words, size_t words_len);
KOFUDILE_API kofudile_number kofudile_ewma_block_bytes(const uint64_t *words, size_t words_len);

/* Two settings. refused by 1, 2 */
KOFUDILE_API kofudile_number kofudile_max_pending_blocks(const uint64_t *words, size_t words_len);
KOFUDILE_API kofudile_number kofudile_min_peers_for_fanout(const uint64_t *words, size_t words_len);
/* Whether fan-out is engaged; how many entries one peer may own now. refused by 1, 2 */
KOFUDILE_API kofudile_number kofudile_fanout_active(const uint64_t *words, size_t words_len);
KOFUDILE_API kofudile_number kofudile_effective_peer_inflight(const uint64_t *words, size_t words_len);
/* Whether there is room for one more block. refused by 1, 2 */
KOFUDILE_API kofudile_number kofudile_has_request_capacity(const uint64_t *words, size_t words_len, uint64_t byte_headroom, uint64_t count_headroom);
/* How many blocks the seat may be asked for, and how many bytes there is room for; absent where it is none. refused by 1, 2, 6 */
KOFUDILE_API kofudile_perhaps_pair kofudile_compute_request_capacity(const uint64_t *words, size_t words_len, uint64_t seat, uint64_t byte_headroom,
    uint64_t count_headroom);

/* How many entries the seat owns; whether it owns any; since when it is waited for. refused by 1, 2, 6 */
KOFUDILE_API kofudile_number kofudile_pending_count_for(const uint64_t *words, size_t words_len, uint64_t seat);
KOFUDILE_API kofudile_number kofudile_is_downloading(const uint64_t *words, size_t words_len, uint64_t seat);
KOFUDILE_API kofudile_perhaps kofudile_owner_queue_start(const uint64_t *words, size_t words_len, uint64_t seat);
/* How many seats own entries; how long an owner may take with that many. refused by 1, 2 */
KOFUDILE_API kofudile_number kofudile_active_downloading_peers(const uint64_t *words, size_t words_len);
KOFUDILE_API kofudile_number kofudile_effective_owner_timeout(const uint64_t *words, size_t words_len);
/* Whether the seat's time is out; whether its key cools. refused by 1, 2, 4, 6 */
KOFUDILE_API kofudile_number kofudile_peer_has_expired_pending(const uint64_t *words, size_t words_len, uint64_t seat, uint64_t clock);
KOFUDILE_API kofudile_number kofudile_peer_in_staller_cooldown(const uint64_t *words, size_t words_len, uint64_t seat, uint64_t clock);
/* The forecast: blocks and bytes of owners whose time is out. A sweep at that clock lets go these at least. refused by 1, 2, 4 */
KOFUDILE_API kofudile_pair kofudile_expired_pending_capacity(const uint64_t *words, size_t words_len, uint64_t clock);

/* The key that holds up the window, and since when. refused by 1, 2 */
KOFUDILE_API kofudile_perhaps_pair kofudile_stalling_peer(const uint64_t *words, size_t words_len);
/* The stall wait, its floor, and the mean time in ms between advances of the front. refused by 1, 2 */
KOFUDILE_API kofudile_number kofudile_stall_timeout(const uint64_t *words, size_t words_len);
KOFUDILE_API kofudile_number kofudile_stall_decay_floor(const uint64_t *words, size_t words_len);
KOFUDILE_API kofudile_perhaps kofudile_front_interval_ewma_ms(const uint64_t *words, size_t words_len);

/* The seat that won the last race. refused by 1, 2 */
KOFUDILE_API kofudile_perhaps kofudile_preferred_peer(const uint64_t *words, size_t words_len);
/* A race that is worth while now. refused by 1, 2 */
KOFUDILE_API kofudile_plan kofudile_prefix_probe_plan(const uint64_t *words, size_t words_len);
/* When the running prefix race began. refused by 1, 2 */
KOFUDILE_API kofudile_perhaps kofudile_active_prefix_probe_started_at(const uint64_t *words, size_t words_len);
/* Whether the seat races for this hash in the prefix race; as alternate in the race for a cold front. refused by 1, 2, 6 */
KOFUDILE_API kofudile_number kofudile_probe_offered(const uint64_t *words, size_t words_len, uint64_t seat, kofudile_hash hash);
KOFUDILE_API kofudile_number kofudile_hedge_offered(const uint64_t *words, size_t words_len, uint64_t seat, kofudile_hash hash);

/* ---- Functions of this header ---- */

KOFUDILE_LIST_API static inline kofudile_number kofudile_mark_requested(uint64_t *words, size_t words_len, uint64_t owner, const kofudile_hash *hashes,
    const uint32_t *heights, size_t count, uint32_t next, uint64_t byte_headroom, uint64_t count_headroom, uint64_t clock) {
    const uint64_t no_word = 0;
    const uint32_t no_height = 0;
    return kofudile_mark_requested_words(words, words_len, owner, count ? &hashes->a : &no_word, KOFUDILE_HASH_WORDS * count,
        count ? heights : &no_height, count, next, byte_headroom, count_headroom, clock);
}

KOFUDILE_PLAN_API static inline kofudile_next_request kofudile_next_peer_request(uint64_t *words, size_t words_len, kofudile_release *report,
    size_t report_len, kofudile_hash *plan_hashes, uint32_t *plan_heights, size_t plan_len, uint64_t source, const kofudile_hash *chain, size_t chain_len,
    uint32_t tip, uint32_t start, uint32_t best, uint32_t floor, const kofudile_hash *staged, size_t staged_len, const kofudile_hash *refused,
    size_t refused_len, bool exhausted, uint64_t byte_headroom, uint64_t count_headroom, uint64_t clock) {
    const uint64_t no_word = 0;
    uint64_t no_plan_word = 0;
    uint32_t no_plan_height = 0;
    return kofudile_next_peer_request_words(words, words_len, report, report_len, plan_len ? &plan_hashes->a : &no_plan_word,
        KOFUDILE_HASH_WORDS * plan_len, plan_len ? plan_heights : &no_plan_height, plan_len, source, chain_len ? &chain->a : &no_word,
        KOFUDILE_HASH_WORDS * chain_len, tip, start, best, floor, staged_len ? &staged->a : &no_word, KOFUDILE_HASH_WORDS * staged_len,
        refused_len ? &refused->a : &no_word, KOFUDILE_HASH_WORDS * refused_len, exhausted, byte_headroom, count_headroom, clock);
}

KOFUDILE_PLAN_API static inline kofudile_next_request kofudile_next_peer_request_allowing_retry(uint64_t *words, size_t words_len,
    kofudile_release *report, size_t report_len, kofudile_hash *plan_hashes, uint32_t *plan_heights, size_t plan_len, uint64_t source,
    const kofudile_hash *chain, size_t chain_len, uint32_t tip, uint32_t start, uint32_t best, uint32_t floor, const kofudile_hash *staged,
    size_t staged_len, const kofudile_hash *refused, size_t refused_len, bool exhausted, uint64_t byte_headroom, uint64_t count_headroom, uint64_t clock) {
    const uint64_t no_word = 0;
    uint64_t no_plan_word = 0;
    uint32_t no_plan_height = 0;
    return kofudile_next_peer_request_allowing_retry_words(words, words_len, report, report_len, plan_len ? &plan_hashes->a : &no_plan_word,
        KOFUDILE_HASH_WORDS * plan_len, plan_len ? plan_heights : &no_plan_height, plan_len, source, chain_len ? &chain->a : &no_word,
        KOFUDILE_HASH_WORDS * chain_len, tip, start, best, floor, staged_len ? &staged->a : &no_word, KOFUDILE_HASH_WORDS * staged_len,
        refused_len ? &refused->a : &no_word, KOFUDILE_HASH_WORDS * refused_len, exhausted, byte_headroom, count_headroom, clock);
}

/* What is left of a limit, not below 0. */
static inline uint64_t kofudile_left_of(uint64_t limit, uint64_t staged, uint64_t pending) {
    const uint64_t left = limit > staged ? limit - staged : 0;
    return left > pending ? left - pending : 0;
}

KOFUDILE_API static inline kofudile_pair kofudile_staged_headrooms(const uint64_t *words, size_t words_len, uint64_t *copy, kofudile_release *report,
    size_t report_len, uint64_t staged_bytes, uint64_t staged_blocks, uint64_t max_received_bytes, uint64_t clock) {
    const size_t max_received_blocks = 3594; /* the setting's word, by docs/LAYOUT.md */
    kofudile_pair headrooms = {KOFUDILE_REFUSED_WORDS_LENGTH, 0, 0};
    kofudile_gone swept;
    if (words_len != KOFUDILE_WORDS) return headrooms;
    for (size_t i = 0; i < KOFUDILE_WORDS; i++) copy[i] = words[i];
    swept = kofudile_expire_pending(copy, KOFUDILE_WORDS, report, report_len, clock);
    headrooms.refused = swept.refused;
    if (swept.refused != 0) return headrooms;
    headrooms.first = staged_bytes ? kofudile_left_of(max_received_bytes, staged_bytes, kofudile_pending_bytes(copy, KOFUDILE_WORDS).value) : UINT64_MAX;
    headrooms.second =
        staged_blocks ? kofudile_left_of(copy[max_received_blocks], staged_blocks, kofudile_pending_len(copy, KOFUDILE_WORDS).value) : UINT64_MAX;
    return headrooms;
}

KOFUDILE_LIST_API static inline uint64_t kofudile_confirm_prefix_probe(uint64_t *words, size_t words_len, uint64_t owner, const kofudile_hash *hashes,
    size_t count, const uint64_t *alternates, size_t alternates_len, uint64_t clock) {
    const uint64_t no_word = 0;
    return kofudile_confirm_prefix_probe_words(words, words_len, owner, count ? &hashes->a : &no_word, KOFUDILE_HASH_WORDS * count,
        alternates_len ? alternates : &no_word, alternates_len, clock);
}

/* The words of so many hashes; one hash too many says as much as any larger number, which four times might not hold. */
static inline size_t kofudile_getdata_words(size_t count) {
    return KOFUDILE_HASH_WORDS * (count > KOFUDILE_GETDATA_HASHES ? KOFUDILE_GETDATA_HASHES + 1 : count);
}

KOFUDILE_LISTS_API static inline kofudile_number kofudile_write_getdata(const kofudile_hash *hashes, size_t count, uint8_t *out, size_t out_len) {
    const uint64_t no_word = 0;
    uint8_t no_byte = 0;
    return kofudile_write_getdata_words(count ? &hashes->a : &no_word, kofudile_getdata_words(count), out_len ? out : &no_byte, out_len);
}

KOFUDILE_LISTS_API static inline kofudile_number kofudile_read_getdata(const uint8_t *payload, size_t payload_len, kofudile_hash *hashes, size_t count) {
    const uint8_t no_byte = 0;
    uint64_t no_word = 0;
    return kofudile_read_getdata_words(payload_len ? payload : &no_byte, payload_len, count ? &hashes->a : &no_word, kofudile_getdata_words(count));
}

static inline uint64_t kofudile_word_of(const uint8_t *bytes) {
    uint64_t word = 0;
    for (int i = 0; i < 8; i++) word = word << 8 | bytes[i];
    return word;
}

/* 32 bytes, as they come on the wire, as a hash. */
static inline kofudile_hash kofudile_hash_of(const uint8_t *bytes) {
    kofudile_hash hash;
    hash.a = kofudile_word_of(bytes);
    hash.b = kofudile_word_of(bytes + 8);
    hash.c = kofudile_word_of(bytes + 16);
    hash.d = kofudile_word_of(bytes + 24);
    return hash;
}

static inline void kofudile_bytes_of(uint64_t word, uint8_t *bytes) {
    for (int i = 7; i >= 0; i--, word >>= 8) bytes[i] = (uint8_t)(word & 255);
}

/* A hash as its 32 bytes, as they go on the wire. */
static inline void kofudile_hash_bytes(kofudile_hash hash, uint8_t *bytes) {
    kofudile_bytes_of(hash.a, bytes);
    kofudile_bytes_of(hash.b, bytes + 8);
    kofudile_bytes_of(hash.c, bytes + 16);
    kofudile_bytes_of(hash.d, bytes + 24);
}

/* The original's budget of this name. block_spacing: the network's time between blocks, 600 * KOFUDILE_SECOND for Bitcoin. */
static inline kofudile_settings kofudile_default_sync_budget(uint64_t block_spacing) {
    kofudile_settings settings;
    settings.max_pending_blocks = 256;
    settings.max_pending_bytes = 256 * UINT64_C(2097152);
    settings.max_received_blocks = 256;
    settings.max_peer_inflight = 256;
    settings.fanout_peer_inflight = 16;
    settings.min_peers_for_fanout = 8;
    settings.getdata_batch_limit = 256;
    settings.block_spacing = block_spacing;
    settings.received_timeout = 60 * KOFUDILE_SECOND;
    settings.stall_timeout_initial = 2 * KOFUDILE_SECOND;
    settings.stall_timeout_max = 64 * KOFUDILE_SECOND;
    settings.staller_cooldown = 64 * KOFUDILE_SECOND;
    return settings;
}

/* The original's budget of this name: fan-out from two peers on, at least eight blocks each. */
static inline kofudile_settings kofudile_fast_sync_budget(uint64_t block_spacing) {
    kofudile_settings settings = kofudile_default_sync_budget(block_spacing);
    settings.fanout_peer_inflight = 8;
    settings.min_peers_for_fanout = 2;
    return settings;
}

/* Why a call was refused, for a log. */
static inline const char *kofudile_refusal_text(uint64_t refused) {
    switch (refused) {
    case KOFUDILE_REFUSED_NONE: return "not refused";
    case KOFUDILE_REFUSED_WORDS_LENGTH: return "words_len is not 4096";
    case KOFUDILE_REFUSED_NO_WINDOW: return "the words are not a window";
    case KOFUDILE_REFUSED_SHORT_REPORT: return "the report has under 256 places";
    case KOFUDILE_REFUSED_CLOCK: return "the clock is above 2^62 or before the last accepted one";
    case KOFUDILE_REFUSED_SETTINGS: return "a setting is out of range";
    case KOFUDILE_REFUSED_PEER: return "a seat or key is above 255, or a list of them has the wrong length";
    case KOFUDILE_REFUSED_DUPLICATE: return "a hash of the request is pending already or listed twice";
    case KOFUDILE_REFUSED_TOO_MANY: return "more than 256 entries would be pending, or are listed for one getdata";
    case KOFUDILE_REFUSED_BODY_SIZE: return "the body is above 4294967295 bytes";
    case KOFUDILE_REFUSED_SHORT_OUTPUT: return "the output lent is too short for what would be written";
    case KOFUDILE_REFUSED_PAYLOAD: return "the bytes are no getdata payload for at most 256 witness blocks";
    case KOFUDILE_REFUSED_CHAIN: return "the chain is not tip + 1 hashes";
    default: return "not a refusal of this library";
    }
}

/* ---- Sizes: fields of 64 bits without gaps, as the library has them ---- */

#if defined(__cplusplus)
#define KOFUDILE_SIZE(type, bytes) static_assert(sizeof(type) == (bytes), "size of " #type)
#elif defined(__STDC_VERSION__) && __STDC_VERSION__ >= 201112L
#define KOFUDILE_SIZE(type, bytes) _Static_assert(sizeof(type) == (bytes), "size of " #type)
#else
#define KOFUDILE_SIZE(type, bytes) typedef char type##_size[sizeof(type) == (bytes) ? 1 : -1]
#endif
KOFUDILE_SIZE(kofudile_hash, 32);
KOFUDILE_SIZE(kofudile_entry, 64);
KOFUDILE_SIZE(kofudile_release, 72);
KOFUDILE_SIZE(kofudile_settings, 96);
KOFUDILE_SIZE(kofudile_number, 16);
KOFUDILE_SIZE(kofudile_pair, 24);
KOFUDILE_SIZE(kofudile_perhaps, 24);
KOFUDILE_SIZE(kofudile_perhaps_pair, 32);
KOFUDILE_SIZE(kofudile_gone, 16);
KOFUDILE_SIZE(kofudile_received, 32);
KOFUDILE_SIZE(kofudile_rejected, 24);
KOFUDILE_SIZE(kofudile_blocked, 72);
KOFUDILE_SIZE(kofudile_plan, 296);
KOFUDILE_SIZE(kofudile_next_request, 32);

#ifdef __cplusplus
}
#endif

#endif
