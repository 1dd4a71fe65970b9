/* Gemsilver for C and C++: counts events by identifier in windows of play, keeps them on a card, finds the closed windows of a stretch that match best,
 * tells the mean count of an identifier, removes windows, one or several together, and forecasts what a planned session would take.
 *
 * The caller lends three buffers and hands them back to the next call as they were left: the state's image, the card and the register.
 * docs/FORMAT.md tells them byte by byte. They belong together: save all three or none, and at the same moment.
 *
 * What every call keeps, whatever it is given:
 * - It ends, stays inside the buffers lent, and where it refuses it changes none of them. The one exception is said at gemsilver_start.
 * - Nothing is kept between calls but these buffers: any thread may call, and any number of probes may be used at a time, each with
 *   buffers of its own. Two calls on one probe at the same time are the caller's mistake.
 * - A buffer may stand at any address, with any alignment; a list of identifiers, of windows or of numbers is aligned as its type is. Buffers that a call
 *   writes (those without const) may overlap no other buffer of the call; those that it only reads may overlap each other.
 * - NULL with a length of 0 is an empty buffer. It is judged like any other of that length: an empty image is refused with 1, an empty card or
 *   register with 2, an empty identifier with 4, no identifiers and an empty list of hits with 14, an empty list of windows with 16. A plan may be empty.
 *
 * The archive: `rt staticlib capi` writes target/staticlib/libcapi.a, for x86-64 Linux. It uses no heap and keeps nothing of its own; of the C
 * library it needs memcpy and memset alone.
 *
 * Stack, in bytes as measured on x86-64 (docs/PERFORMANCE.md); leave some more: start 4,776, open 5,736, close 5,752, event 16,056, flush 12,280, remove 13,560,
 * remove_all 15,464, step 13,880, query 16,376, mean 15,880, forecast 14,728. */
#ifndef GEMSILVER_H
#define GEMSILVER_H

#include <stddef.h>
#include <stdint.h>

#ifdef __cplusplus
extern "C" {
#endif

/* Sizes in bytes, and how many. */
#define GEMSILVER_IMAGE 2864            /* the state's image */
#define GEMSILVER_BLOCK 4096            /* a block of the card */
#define GEMSILVER_LEAST_BLOCKS 4        /* a card has 4 to 4,096 blocks */
#define GEMSILVER_MOST_BLOCKS 4096
#define GEMSILVER_ENTRY 65              /* an entry of the register or of a plan */
#define GEMSILVER_MOST_ENTRIES 1024     /* a register has 1 to 1,024 entries */
#define GEMSILVER_LONGEST_IDENTIFIER 64 /* an identifier has 1 to 64 bytes */
#define GEMSILVER_HIT 8                 /* a place in a list of hits */
#define GEMSILVER_MOST_HITS 32          /* a list has 1 to 32 places */
#define GEMSILVER_MOST_IDENTIFIERS 5    /* a query names 1 to 5 identifiers */
#define GEMSILVER_MOST_WINDOWS 32       /* 1 to 32 windows are removed together */
#define GEMSILVER_FIRST_WINDOW 1        /* a query over all windows is one from the first of these two to the last */
#define GEMSILVER_LAST_WINDOW 65535
#define GEMSILVER_TOLD 6                /* how many numbers a forecast tells */

/* Why a call is refused, in the order in which it is tested; but a list of windows, 16, is tested after 3. */
enum gemsilver_refusal {
    GEMSILVER_BROKEN_STATE = 1,
    GEMSILVER_WRONG_LENGTH = 2,
    GEMSILVER_MALFORMED = 3,
    GEMSILVER_BAD_IDENTIFIER = 4,
    GEMSILVER_OUT_OF_TURN = 5,
    GEMSILVER_EXHAUSTED = 6,
    GEMSILVER_NOT_LIVE = 7,
    GEMSILVER_REGISTER_FULL = 8,
    GEMSILVER_WINDOW_FULL = 9,
    GEMSILVER_LEVEL_FULL = 10,
    GEMSILVER_HALF_FULL = 11,
    GEMSILVER_TOO_FEW_FREE = 12,
    GEMSILVER_NOTHING_DUE = 13,
    GEMSILVER_BAD_QUERY = 14,
    GEMSILVER_UNCOUNTED = 15,
    GEMSILVER_BAD_LIST = 16,
    GEMSILVER_BAD_STRETCH = 17
};

/* A refusal's number in words; of any other number that it is none. */
static inline const char *gemsilver_refusal_text(uint32_t refusal) {
    switch (refusal) {
    case GEMSILVER_BROKEN_STATE:
        return "the image is none, or its state breaks a rule";
    case GEMSILVER_WRONG_LENGTH:
        return "a buffer's length is out of the limits or not the one given at the start";
    case GEMSILVER_MALFORMED:
        return "what the call must read is malformed";
    case GEMSILVER_BAD_IDENTIFIER:
        return "an identifier is empty or longer than 64 bytes";
    case GEMSILVER_OUT_OF_TURN:
        return "no window is open, one is, or the open one is named";
    case GEMSILVER_EXHAUSTED:
        return "all window numbers are given, or the window has 32,767 events";
    case GEMSILVER_NOT_LIVE:
        return "no such live window";
    case GEMSILVER_REGISTER_FULL:
        return "a new identifier finds the register full";
    case GEMSILVER_WINDOW_FULL:
        return "a 65th identifier in one window";
    case GEMSILVER_LEVEL_FULL:
        return "16 partitions stand at level 0: take merge steps";
    case GEMSILVER_HALF_FULL:
        return "finished partitions would take more than half of the card";
    case GEMSILVER_TOO_FEW_FREE:
        return "too few blocks are free";
    case GEMSILVER_NOTHING_DUE:
        return "no merge is in progress and none is due";
    case GEMSILVER_BAD_QUERY:
        return "no identifiers, more than 5 or one twice, or a list of no places or more than 32";
    case GEMSILVER_UNCOUNTED:
        return "the identifier counts in no closed window";
    case GEMSILVER_BAD_LIST:
        return "a list of windows is empty, has more than 32, or names one twice";
    case GEMSILVER_BAD_STRETCH:
        return "a stretch whose first window exceeds its last";
    default:
        return "no refusal";
    }
}

/* An identifier: any bytes. */
struct gemsilver_bytes {
    const uint8_t *bytes;
    size_t length;
};

/* A fresh card and register, and the image of their state. 0, or a refusal. Card and register stay as they are where start is refused; the image is
 * then that of a state of zeros, with which every call is refused with 1. An image of another length stays as it is: that is refused with 1. */
uint32_t gemsilver_start(uint8_t *image, size_t image_length, uint8_t *card, size_t card_length, uint8_t *reg, size_t reg_length);

/* Opens a window: its number, 1 to 65,535, or 65,536 + a refusal. */
uint32_t gemsilver_open(uint8_t *image, size_t image_length);

/* Takes what an open gave apart: the refusal, 0 where a window was opened. */
static inline uint32_t gemsilver_open_refusal(uint32_t opened) {
    return opened < 65536 ? 0 : opened - 65536;
}

/* Counts one event of an identifier in the open window. 0, or a refusal. */
uint32_t gemsilver_event(uint8_t *image, size_t image_length, uint8_t *card, size_t card_length, uint8_t *reg, size_t reg_length,
                         const uint8_t *identifier, size_t identifier_length);

/* Closes the open window, which queries find from then on; one without events gives its number back. 0, or a refusal. */
uint32_t gemsilver_close(uint8_t *image, size_t image_length);

/* Takes out a closed window. 0, or a refusal. */
uint32_t gemsilver_remove(uint8_t *image, size_t image_length, uint8_t *card, size_t card_length, uint32_t window);

/* Takes out all windows of a list, or none of them. 0, or a refusal. First come 1 to 3, for the card and for every window named, however many these
 * are; then 16, where the list is empty, has more than 32 or names one twice. Then it leaves what gemsilver_remove leaves, called for each window in
 * the order given; where one of these calls would be refused, the list is refused with the first such number and nothing has moved. */
uint32_t gemsilver_remove_all(uint8_t *image, size_t image_length, uint8_t *card, size_t card_length, const uint32_t *windows,
                              size_t window_count);

/* Writes what is buffered as a partition. 0, or a refusal. */
uint32_t gemsilver_flush(uint8_t *image, size_t image_length, uint8_t *card, size_t card_length);

/* Takes a merge one step further, or begins one. 0, or a refusal. */
uint32_t gemsilver_step(uint8_t *image, size_t image_length, uint8_t *card, size_t card_length);

/* Finds the closed windows from first to last that match the identifiers best; the open one is no hit and moves no score, wherever its counts lie. hits
 * has GEMSILVER_HIT bytes for each place; bytes past the last whole place, and places past the last hit, stay as they are. What it gives is taken apart
 * by the functions below. A first above the last is refused with 17, after all else; 0 is no window, so that 0 to 0 has no hits.
 *
 * A window's score is the sum of S(count + 1) x (S(N) - S(F)) over the identifiers that count in it. S(n) is the largest a with 2^a <= n^16, N the
 * number of closed windows from first to last, and F the number of those in which the identifier counts. So a count of 1 weighs 16, and two windows of
 * three weigh 25 - 16. A score is at most 5 x 240 x 255 = 306,000. Hits come by falling score, those of equal scores by falling window.
 *
 * A partition whose windows all lie below first or all above last is passed over: its lists are not read, and its postings are not taken up. Of the others
 * every list is read, to count N, so that few windows of a large card take less time than all. */
uint64_t gemsilver_query(const uint8_t *image, size_t image_length, const uint8_t *card, size_t card_length, const uint8_t *reg,
                         size_t reg_length, const struct gemsilver_bytes *identifiers, size_t identifier_count,
                         uint16_t first, uint16_t last, uint8_t *hits, size_t hits_length);

/* Of what a query gave: its refusal, 0 where it is none; how many hits are listed; how many stored postings it took up, of the buffer and of the partitions
 * not passed over, the open window's too. */
static inline uint32_t gemsilver_query_refusal(uint64_t found) {
    return (uint32_t)(found % 256);
}

static inline uint32_t gemsilver_query_hits(uint64_t found) {
    return (uint32_t)(found / 256 % 256);
}

static inline uint64_t gemsilver_query_taken(uint64_t found) {
    return found / 65536;
}

/* Of a list of hits: the window and the score, at most 306,000, at a place, from 0. */
static inline uint32_t gemsilver_word(const uint8_t *bytes) {
    return (uint32_t)bytes[0] | (uint32_t)bytes[1] << 8 | (uint32_t)bytes[2] << 16 | (uint32_t)bytes[3] << 24;
}

static inline uint32_t gemsilver_hit_window(const uint8_t *hits, size_t place) {
    return gemsilver_word(hits + GEMSILVER_HIT * place);
}

static inline uint32_t gemsilver_hit_score(const uint8_t *hits, size_t place) {
    return gemsilver_word(hits + GEMSILVER_HIT * place + 4);
}

/* The mean count of an identifier over the closed windows in which it counts: the sum of its counts there, divided by the number of these windows, as a
 * quotient and a remainder. The open window is none of them, wherever its counts lie. It only reads, and that is what a query over all windows reads. What
 * it gives is taken apart by the functions below. */
uint64_t gemsilver_mean(const uint8_t *image, size_t image_length, const uint8_t *card, size_t card_length, const uint8_t *reg,
                        size_t reg_length, const uint8_t *identifier, size_t identifier_length);

/* Of what a mean gave: its refusal, 0 where it is none, and all else is 0 where it is one; in how many closed windows the identifier counts; the remainder,
 * below that number; the quotient. Quotient x windows + remainder is the sum: at most 65,535 x 32,767, which fits 32 bits. */
static inline uint32_t gemsilver_mean_refusal(uint64_t mean) {
    return (uint32_t)(mean % 65536);
}

static inline uint32_t gemsilver_mean_windows(uint64_t mean) {
    return (uint32_t)(mean / 65536 % 65536);
}

static inline uint32_t gemsilver_mean_remainder(uint64_t mean) {
    return (uint32_t)((mean >> 32) % 65536);
}

static inline uint32_t gemsilver_mean_quotient(uint64_t mean) {
    return (uint32_t)(mean >> 48);
}

/* What a planned session would come to if its windows were opened, their events counted and the windows closed one after the other, with no merge steps
 * between. plan has GEMSILVER_ENTRY bytes for each event, in order, as the register has them for an identifier: the length, the bytes, then zeros. counts
 * tells how many of them belong to each window; a window may have none. 0, or a refusal: 1; 2, for the register; 3, for the register, and where plan is not
 * whole entries, where counts do not add up to them, or where an entry, wherever it stands, has a byte other than zero after its identifier. It only reads,
 * and no card is lent to it.
 *
 * told points to room for GEMSILVER_TOLD numbers, which stay as they are where the call is refused; their places are named below. Where no call of the plan
 * would be refused, window, event and refusal are 0. Else they name the first that would be, and what comes before it is what is counted. A length byte of 0
 * or above 64 is an event that would be refused with 4; a window that is open already refuses the plan's first one with 5. */
uint32_t gemsilver_forecast(const uint8_t *image, size_t image_length, const uint8_t *reg, size_t reg_length, const uint8_t *plan,
                            size_t plan_length, const uint32_t *counts, size_t count_count, uint64_t told[GEMSILVER_TOLD]);

/* The places of what a forecast tells. */
enum gemsilver_told {
    GEMSILVER_TOLD_FLUSHES = 0, /* how many events would write the buffer to the card first */
    GEMSILVER_TOLD_BLOCKS = 1,  /* how many blocks finished partitions would have */
    GEMSILVER_TOLD_ENTRIES = 2, /* how many entries of the register would be used */
    GEMSILVER_TOLD_WINDOW = 3,  /* the window of the plan that it would stop in, from 1 */
    GEMSILVER_TOLD_EVENT = 4,   /* the event of that window, from 1; 0 where the window would not be opened */
    GEMSILVER_TOLD_REFUSAL = 5  /* why it would stop there */
};

/* Lays an identifier out as an entry of GEMSILVER_ENTRY bytes. One of more than 64 bytes makes an entry too, at which a plan stops as the event would. */
static inline void gemsilver_lay_out(uint8_t *entry, const uint8_t *identifier, size_t length) {
    entry[0] = (uint8_t)(length < 255 ? length : 255);
    for (size_t i = 0; i + 1 < GEMSILVER_ENTRY; i++) {
        entry[i + 1] = i < length ? identifier[i] : 0;
    }
}

/* 1 where a register keeps its rule: 1 to 1,024 whole entries, used ones first and all different, unused ones zero; else 0. */
uint8_t gemsilver_register_ok(const uint8_t *reg, size_t reg_length);

#ifdef __cplusplus
}
#endif

#endif
