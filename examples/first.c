/* A first program: two parts of a log summarized and joined, the distances of each part after what was read before it,
 * the misses of every cache size, the smallest cache for a number of them, what one more read does to them, the same
 * summary by a joining plan, the listing of a log text, a session read by read, returns to a named moment, and refusals.
 * Built and run from the root of the repository, once `tools/archive` has built the library:
 *   gcc -Wall -Wextra -Iinclude -o target/first examples/first.c target/libcapi.a && target/first
 * It prints what examples/first.txt has. */
#include <inttypes.h>
#include <stdio.h>
#include <stdlib.h>
#include <string.h>

#include "jemqolu.h"

/* The most reads of a part here. */
#define PART_READS 4

/* What was asked for; a refusal ends the program. */
static size_t accepted(int64_t answer, const char *what) {
    if (answer < 0) {
        fprintf(stderr, "%s: refused with %" PRId64 "\n", what, -answer);
        exit(1);
    }
    return (size_t)answer;
}

static void print_words(const char *name, const uint32_t *words, size_t count) {
    printf("%s:", name);
    for (size_t i = 0; i < count; i++) printf(" %" PRIu32, words[i]);
    printf("\n");
}

/* The distances of a part's reads after a prefix; a cold read is printed as cold and its number. */
static void print_distances(const char *name, const uint32_t *prefix, size_t prefix_len, const uint32_t *reads,
                            size_t count) {
    uint32_t words[PART_READS];
    size_t written = accepted(jemqolu_distances(prefix, prefix_len, reads, count, words, PART_READS), name);
    printf("%s:", name);
    for (size_t i = 0; i < written; i++) {
        const char *comma = i > 0 ? "," : "";
        if (words[i] > JEMQOLU_COLD_BASE) {
            printf("%s cold %" PRIu32, comma, words[i] - JEMQOLU_COLD_BASE);
        } else {
            printf("%s %" PRIu32, comma, words[i]);
        }
    }
    printf("\n");
}

/* The misses of each size from 1 to the summary's number of extents, its second word. */
static void print_misses(const uint32_t *summary, size_t count) {
    for (uint32_t size = 1; size <= summary[1]; size++) {
        size_t misses = accepted(jemqolu_misses(summary, count, size), "misses");
        printf("a cache of %" PRIu32 " misses %zu of %" PRIu32 " reads\n", size, misses, summary[0]);
    }
}

/* The smallest cache that misses no more reads than allowed. */
static void print_smallest(const uint32_t *summary, size_t count, uint32_t allowed) {
    uint32_t words_read = 0;
    size_t size = accepted(jemqolu_smallest(summary, count, allowed, &words_read), "smallest");
    printf("at most %" PRIu32 " misses: a cache of %zu; words of H read: %" PRIu32 "\n", allowed, size, words_read);
}

/* What one more read, put in at a place, does to the misses of a cache of two extents. */
static void print_one_more(const uint32_t *log, size_t count, size_t place, uint32_t extent) {
    int64_t change = 0;
    accepted(jemqolu_one_more(log, count, place, extent, 2, &change), "one more read");
    printf("%" PRIu32 " put in at place %zu: %+" PRId64 " misses of a cache of 2\n", extent, place, change);
}

/* The log's summary by a plan text, which joins three parts, two of them first. */
static void print_plan(const uint32_t *log, size_t count) {
    const char *text = "(join\n (seg 4)\n (join\n  (seg 1)\n  (seg 2)))\n";
    static uint32_t work[JEMQOLU_WORK_WORDS];
    uint32_t out[JEMQOLU_SUMMARY_WORDS];
    int64_t words = jemqolu_plan((const uint8_t *)text, strlen(text), log, count, work, JEMQOLU_WORK_WORDS, out,
                                 JEMQOLU_SUMMARY_WORDS);
    print_words("joined by a plan", out, accepted(words, "plan"));
}

/* The listing of a log text. */
static void print_listing(void) {
    const char *text = "(trace\n (read 7)\n (read 3)\n (read 7))\n";
    static uint8_t out[JEMQOLU_LISTING_BYTES];
    int64_t bytes = jemqolu_list((const uint8_t *)text, strlen(text), out, JEMQOLU_LISTING_BYTES);
    printf("%.*s", (int)accepted(bytes, "listing"), (const char *)out);
}

/* One more read of a session, printed as cold and its number or as its distance; its word. */
static uint32_t read_one(uint32_t *session, uint32_t extent, uint32_t *slots_looked) {
    uint32_t sums_read = 0;
    int64_t answer = jemqolu_session_read(session, JEMQOLU_SESSION_WORDS, extent, &sums_read, slots_looked);
    uint32_t word = (uint32_t)accepted(answer, "read");
    printf("read %" PRIu32 ": ", extent);
    if (word > JEMQOLU_COLD_BASE) {
        printf("cold, extent number %" PRIu32, word - JEMQOLU_COLD_BASE);
    } else {
        printf("distance %" PRIu32, word);
    }
    return word;
}

/* The same log taken read by read, with a watch on a cache of two extents. */
static void read_one_by_one(const uint32_t *log, size_t count) {
    static uint32_t session[JEMQOLU_SESSION_WORDS];
    uint32_t watch[JEMQOLU_WATCH_WORDS], summary[JEMQOLU_SUMMARY_WORDS], slots_looked = 0;
    double share = 0;
    accepted(jemqolu_session_new(session, JEMQOLU_SESSION_WORDS), "session");
    accepted(jemqolu_watch_new(2, watch, JEMQOLU_WATCH_WORDS), "watch");
    for (size_t i = 0; i < count; i++) {
        uint32_t word = read_one(session, log[i], &slots_looked);
        accepted(jemqolu_watch_read(watch, JEMQOLU_WATCH_WORDS, word), "watch");
        printf("; slots looked at: %" PRIu32 "\n", slots_looked);
    }
    int64_t words = jemqolu_session_summary(session, JEMQOLU_SESSION_WORDS, summary, JEMQOLU_SUMMARY_WORDS);
    print_words("summary of the session", summary, accepted(words, "summary"));
    int64_t misses = jemqolu_session_misses(session, JEMQOLU_SESSION_WORDS, 2);
    printf("a cache of 2 misses %zu of the session's reads\n", accepted(misses, "misses"));
    if (accepted(jemqolu_watch_share(watch, JEMQOLU_WATCH_WORDS, &share), "share") == 1) {
        printf("a cache of 2 serves %.3f of the reads that are not cold\n", share);
    }
}

/* The moment after the first two reads of the log, and three ways to go on from it. */
static void come_back(const uint32_t *log) {
    static uint32_t session[JEMQOLU_SESSION_WORDS], names[JEMQOLU_NAMES_WORDS];
    const uint32_t next[] = {9, 7, 3};
    uint32_t slots_looked = 0;
    accepted(jemqolu_session_new(session, JEMQOLU_SESSION_WORDS), "session");
    accepted(jemqolu_names_new(names, JEMQOLU_NAMES_WORDS), "names");
    for (size_t i = 0; i < 2; i++) {
        read_one(session, log[i], &slots_looked);
        printf("\n");
    }
    accepted(jemqolu_session_name(session, JEMQOLU_SESSION_WORDS, names, JEMQOLU_NAMES_WORDS, 1), "name");
    for (size_t i = 0; i < 3; i++) {
        accepted(jemqolu_session_return(session, JEMQOLU_SESSION_WORDS, names, JEMQOLU_NAMES_WORDS, 1), "return");
        printf("from name 1, ");
        read_one(session, next[i], &slots_looked);
        printf("\n");
    }
    printf("a return to name 2, which is not set: %" PRId64 "\n",
           jemqolu_session_return(session, JEMQOLU_SESSION_WORDS, names, JEMQOLU_NAMES_WORDS, 2));
    printf("9 as a name: %" PRId64 "\n",
           jemqolu_session_name(session, JEMQOLU_SESSION_WORDS, names, JEMQOLU_NAMES_WORDS, 9));
}

/* Calls that are refused: each says why, and changes nothing. */
static void print_refusals(const uint32_t *summary, size_t count) {
    static uint32_t many[JEMQOLU_MAX_EXTENTS + 1];
    uint32_t out[JEMQOLU_SUMMARY_WORDS], words_read = 0;
    for (uint32_t i = 0; i <= JEMQOLU_MAX_EXTENTS; i++) many[i] = i;
    printf("%d extents: %" PRId64 "\n", JEMQOLU_MAX_EXTENTS + 1,
           jemqolu_summarize(many, JEMQOLU_MAX_EXTENTS + 1, out, JEMQOLU_SUMMARY_WORDS));
    printf("a summary without its last word: %" PRId64 "\n", jemqolu_misses(summary, count - 1, 2));
    printf("at most 2 misses, where 3 reads are cold: %" PRId64 "\n", jemqolu_smallest(summary, count, 2, &words_read));
    if (jemqolu_join(summary, count, summary, count, out, 3) == -JEMQOLU_REFUSED_ROOM) {
        printf("room for three words: -%d\n", JEMQOLU_REFUSED_ROOM);
    }
}

int main(void) {
    const uint32_t log[] = {7, 3, 7, 9, 3, 3, 9};
    const uint32_t none[] = {0, 0}, more[] = {8, 7};
    uint32_t a[JEMQOLU_SUMMARY_WORDS], b[JEMQOLU_SUMMARY_WORDS], whole[JEMQOLU_SUMMARY_WORDS];
    size_t a_len = accepted(jemqolu_summarize(log, 4, a, JEMQOLU_SUMMARY_WORDS), "the first part");
    size_t b_len = accepted(jemqolu_summarize(log + 4, 3, b, JEMQOLU_SUMMARY_WORDS), "the second part");
    size_t len = accepted(jemqolu_join(a, a_len, b, b_len, whole, JEMQOLU_SUMMARY_WORDS), "the join");
    print_words("first part", a, a_len);
    print_words("second part", b, b_len);
    print_words("both joined", whole, len);
    print_distances("distances in the first part", none, 2, log, 4);
    print_distances("distances in the second part", a, a_len, log + 4, 3);
    print_distances("distances of 8 and 7 after both", whole, len, more, 2);
    print_misses(whole, len);
    print_smallest(whole, len, 4);
    print_one_more(log, 7, 4, 8);
    print_one_more(log, 7, 3, 3);
    print_plan(log, 7);
    print_listing();
    read_one_by_one(log, 7);
    come_back(log);
    print_refusals(whole, len);
    return 0;
}
