/* Counts events in nine windows, with a flush after each, merges the partitions a step at a time, and queries before, between and after, also over a few
 * windows alone. Tells the mean count of an identifier before a removal and after, removes windows together, and forecasts what two plans would take. */
#include "gemsilver.h"

#include <stdio.h>
#include <string.h>

static uint8_t image[GEMSILVER_IMAGE];
static uint8_t card[32 * GEMSILVER_BLOCK];
static uint8_t reg[64 * GEMSILVER_ENTRY];

static void told(const char *call, uint32_t answer) {
    if (answer != 0) {
        printf("%s refused: %u, %s\n", call, (unsigned)answer, gemsilver_refusal_text(answer));
    }
}

static void event(const char *identifier) {
    told("event", gemsilver_event(image, sizeof image, card, sizeof card, reg, sizeof reg, (const uint8_t *)identifier,
                                  strlen(identifier)));
}

static void query_over(uint16_t first, uint16_t last) {
    struct gemsilver_bytes identifiers[] = {{(const uint8_t *)"LUCKY", 5}, {(const uint8_t *)"TILT", 4}};
    uint8_t hits[3 * GEMSILVER_HIT];
    uint64_t found = gemsilver_query(image, sizeof image, card, sizeof card, reg, sizeof reg, identifiers, 2, first, last, hits,
                                     sizeof hits);
    if (gemsilver_query_refusal(found) != 0) {
        told("query", gemsilver_query_refusal(found));
        return;
    }
    printf("%u postings:", (unsigned)gemsilver_query_taken(found));
    for (size_t i = 0; i < gemsilver_query_hits(found); i++) {
        printf(" window %u (%u)", (unsigned)gemsilver_hit_window(hits, i), (unsigned)gemsilver_hit_score(hits, i));
    }
    printf("\n");
}

static void query(void) {
    query_over(GEMSILVER_FIRST_WINDOW, GEMSILVER_LAST_WINDOW);
}

static void mean(const char *identifier) {
    uint64_t found = gemsilver_mean(image, sizeof image, card, sizeof card, reg, sizeof reg, (const uint8_t *)identifier,
                                    strlen(identifier));
    if (gemsilver_mean_refusal(found) != 0) {
        told("mean", gemsilver_mean_refusal(found));
        return;
    }
    printf("%s counts in %u windows: %u each, %u left over\n", identifier, (unsigned)gemsilver_mean_windows(found),
           (unsigned)gemsilver_mean_quotient(found), (unsigned)gemsilver_mean_remainder(found));
}

static void remove_all(const uint32_t *windows, size_t count) {
    told("remove_all", gemsilver_remove_all(image, sizeof image, card, sizeof card, windows, count));
    query();
}

/* Windows of three events each. */
static void forecast(const char *const *identifiers, size_t windows) {
    uint8_t plan[6 * GEMSILVER_ENTRY];
    uint32_t counts[2];
    for (size_t i = 0; i < 3 * windows; i++) {
        gemsilver_lay_out(plan + GEMSILVER_ENTRY * i, (const uint8_t *)identifiers[i], strlen(identifiers[i]));
    }
    for (size_t i = 0; i < windows; i++) {
        counts[i] = 3;
    }
    uint64_t told_of[GEMSILVER_TOLD];
    uint32_t refusal = gemsilver_forecast(image, sizeof image, reg, sizeof reg, plan, 3 * windows * GEMSILVER_ENTRY, counts,
                                          windows, told_of);
    if (refusal != 0) {
        told("forecast", refusal);
        return;
    }
    printf("forecast: %u flushes, %u blocks, %u entries", (unsigned)told_of[GEMSILVER_TOLD_FLUSHES],
           (unsigned)told_of[GEMSILVER_TOLD_BLOCKS], (unsigned)told_of[GEMSILVER_TOLD_ENTRIES]);
    if (told_of[GEMSILVER_TOLD_REFUSAL] != 0) {
        printf(", up to window %u, event %u: %s", (unsigned)told_of[GEMSILVER_TOLD_WINDOW], (unsigned)told_of[GEMSILVER_TOLD_EVENT],
               gemsilver_refusal_text((uint32_t)told_of[GEMSILVER_TOLD_REFUSAL]));
    }
    printf("\n");
}

int main(void) {
    told("start", gemsilver_start(image, sizeof image, card, sizeof card, reg, sizeof reg));
    for (int window = 1; window <= 9; window++) {
        uint32_t opened = gemsilver_open(image, sizeof image);
        if (gemsilver_open_refusal(opened) != 0) {
            told("open", gemsilver_open_refusal(opened));
            return 1;
        }
        printf("window %u\n", (unsigned)opened);
        for (int i = 0; i < window; i++) {
            event("LUCKY");
        }
        if (window % 3 == 0) {
            event("TILT");
        }
        event("DOOR");
        told("close", gemsilver_close(image, sizeof image));
        told("flush", gemsilver_flush(image, sizeof image, card, sizeof card));
    }
    query();
    query_over(2, 4); /* six of nine partitions are passed over */
    query_over(4, 2);
    mean("LUCKY");
    told("remove", gemsilver_remove(image, sizeof image, card, sizeof card, 9));
    query();
    mean("LUCKY");
    mean("COIN"); /* counted in no window */
    uint32_t steps = 0;
    while (gemsilver_step(image, sizeof image, card, sizeof card) == 0) {
        steps++;
        query();
    }
    printf("%u steps\n", (unsigned)steps);
    const uint32_t windows[] = {4, 6, 9};
    remove_all(windows, 3); /* 9 is removed already, so that 4 and 6 stay */
    remove_all(windows, 2);
    remove_all(NULL, 0);
    const char *const fits[] = {"LUCKY", "COIN", "LUCKY"};
    const char *const stops[] = {"DOOR", "COIN", "BELL", "COIN", "", "LUCKY"}; /* an empty identifier is none */
    forecast(fits, 1);
    forecast(stops, 2);
    printf("register %s\n", gemsilver_register_ok(reg, sizeof reg) ? "well formed" : "malformed");
    event(""); /* no window is open, but an empty identifier comes first */
    return 0;
}
