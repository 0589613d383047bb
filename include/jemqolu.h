/* LRU reuse distances of a log of extents, by a proved library: what C calls.
 *
 * A log is a list of extents in the order read; an extent is a number of 32 bits. A summary is a run of 32-bit words:
 * the reads L, the number v of different extents, then v words F (the extents by first read), v words R (by last read,
 * the latest first) and v words H (the word for d counts the reads of reuse distance d): 2 + 3 v words in all.
 *
 * A read's word is its reuse distance, 1 to 1,024, or for a cold read, the first of its extent, JEMQOLU_COLD_BASE plus
 * its number: how many different extents the log has had, its own included. So a log's first read has the number 1.
 *
 * Every call takes any input. A slice is a pointer and then how many elements it has; a length of 0 may come with any
 * pointer that is not NULL. No pointer may be NULL, each is aligned as its type asks, and what a call writes to must
 * overlap nothing else that it is lent.
 *
 * An answer of 0 or more is what was asked for. A negative answer is a refusal, the negative of its number (`enum
 * jemqolu_refusal`), and leaves everything lent as it was. What a call writes stands at the front of the buffer lent, but
 * what a naming writes at the name's place; everything else there keeps its contents.
 *
 * Every call is reentrant: it works on what it is lent and on its stack, has no state of its own, allocates nothing and
 * makes no system call. Any number of threads may call at once, as long as none of them writes to what another is lent.
 * No call needs more than JEMQOLU_STACK_BYTES of stack. */
#ifndef JEMQOLU_H
#define JEMQOLU_H

#include <stddef.h>
#include <stdint.h>

#ifdef __cplusplus
extern "C" {
#endif

/* The refusals. An answer of -JEMQOLU_REFUSED_ROOM, say, is the sixth. */
enum jemqolu_refusal {
    JEMQOLU_REFUSED_LINE = 1,    /* a text line with which no text of the rule can go on, or an end too early */
    JEMQOLU_REFUSED_NUMBER = 2,  /* in a text an extent above 4,294,967,295 or a seg above 1,048,576; a word given to a
                                    watch that is neither a distance from 1 to 1,024 nor a cold read of a number from 1
                                    to 1,024; a store above 1,024; a number of customers that is not 1 to 8; a name that is
                                    not 1 to 8; a place past a log's end */
    JEMQOLU_REFUSED_SEGS = 3,    /* the segs of a plan do not add up to the log */
    JEMQOLU_REFUSED_PLAN = 4,    /* a plan text over 65,536 bytes, a ninth join open, a seventeenth part of one join */
    JEMQOLU_REFUSED_SUMMARY = 5, /* words that are not a well-formed summary */
    JEMQOLU_REFUSED_ROOM = 6,    /* fewer words or bytes lent than the answer needs */
    JEMQOLU_REFUSED_STATE = 7,   /* words that are not a sound session or watch, too few of them among these */
    JEMQOLU_REFUSED_READS = 8,   /* more than 1,048,576 reads would result, those of a prefix or of both sides of a join
                                    counted, and a read put in */
    JEMQOLU_REFUSED_EXTENTS = 9, /* more than 1,024 different extents would result, counted so too */
    JEMQOLU_REFUSED_SHARES = 10, /* the least shares add up to more than the store */
    JEMQOLU_REFUSED_NAME = 11,   /* a return to a name that is not set */
    JEMQOLU_REFUSED_MISSES = 12  /* a number of misses allowed that is below the cold reads */
};

/* The limits. */
#define JEMQOLU_MAX_READS 1048576    /* of a log */
#define JEMQOLU_MAX_EXTENTS 1024     /* different ones in a log */
#define JEMQOLU_MAX_PLAN_BYTES 65536 /* of a plan's text; a log's text has no limit */
#define JEMQOLU_MAX_JOINS 8          /* open at once in a plan */
#define JEMQOLU_MAX_PARTS 16         /* of one join of a plan */
#define JEMQOLU_MAX_SEG 1048576      /* the reads of one seg of a plan */
#define JEMQOLU_MAX_STORE 1024       /* the extents of a store that is split */
#define JEMQOLU_MAX_CUSTOMERS 8      /* of one store */
#define JEMQOLU_MAX_NAMES 8          /* the names are 1 to this */

/* The words of reads: a distance and a cold read's number are 1 to JEMQOLU_MAX_EXTENTS. */
#define JEMQOLU_COLD_BASE 65536 /* a cold read is written as this plus its number */

/* Lengths that always suffice, and the exact ones of a session, a watch and the names. */
#define JEMQOLU_SUMMARY_WORDS 3074  /* 2 + 3 * 1,024: any summary */
#define JEMQOLU_LEVEL_WORDS 6148    /* the work words for each join open at once where a plan is deepest */
#define JEMQOLU_WORK_WORDS 49184    /* 6,148 * 8: any plan */
#define JEMQOLU_LISTING_BYTES 23616 /* 64 + 23 * 1,024: any listing */
#define JEMQOLU_SESSION_WORDS 6146  /* a session */
#define JEMQOLU_WATCH_WORDS 4       /* a watch */
#define JEMQOLU_NAME_WORDS 6147     /* 1 + 6,146: the place of a name; the names 1 to k need k times as many */
#define JEMQOLU_NAMES_WORDS 49176   /* 6,147 * 8: all names */
#define JEMQOLU_STACK_BYTES 196608  /* the stack of any call, beside what the thread and the caller use of it */

/* The summary of a list of reads, a whole part in one call.
 * Lent: the reads; `out`, as many words as the summary has. Answer: the words written. Refusals, in order: -8, -9, -6. */
int64_t jemqolu_summarize(const uint32_t *reads, size_t reads_len, uint32_t *out, size_t out_len);

/* The summary of A, then B.
 * Lent: both summaries; `out`, as many words as the joined one has. Answer: the words written.
 * Refusals, in order: -5 for A, -5 for B, -8, -9, -6. */
int64_t jemqolu_join(const uint32_t *a, size_t a_len, const uint32_t *b, size_t b_len, uint32_t *out, size_t out_len);

/* The reuse distances of a part's reads as in the whole log, from the summary of all that was read before the part.
 * Lent: the prefix's summary (two words 0 for none); the part's reads; `out`, a word a read: its distance, or for a
 * cold read JEMQOLU_COLD_BASE plus its number, which counts the prefix's extents too.
 * Answer: the words written, as many as there are reads. Refusals, in order: -5, -8, -9, -6. */
int64_t jemqolu_distances(const uint32_t *prefix, size_t prefix_len, const uint32_t *reads, size_t reads_len,
                          uint32_t *out, size_t out_len);

/* The misses of a cache of `size` extents that reads the summary's log. Lent: the summary. Refusal: -5. */
int64_t jemqolu_misses(const uint32_t *words, size_t words_len, uint32_t size);

/* The hits of such a cache divided by the reads that some size could have served, reads less cold reads, written to
 * `*share`: between 0 and 1, and 1 where `size` is at least the number of extents.
 * Lent: the summary; one double. Answer: 1, or 0 with `*share` unchanged where there are no such reads. Refusal: -5. */
int64_t jemqolu_share(const uint32_t *words, size_t words_len, uint32_t size, double *share);

/* The smallest cache for a miss allowance: the smallest size at which a cache that reads the summary's log misses at most
 * `misses` times. Every larger cache keeps within the allowance too. H is read from distance 1 upwards until the size
 * reached suffices, and not at all where size 0 does; `*words_read` is set to the number of words of H that this search
 * read, which is the size. The test of the summary is not counted.
 * Lent: the summary; one word. Answer: the size, from 0 to v. Refusals, in order: -5; -12 exactly if `misses` is below the
 * cold reads, of which there are v: then no cache is large enough. */
int64_t jemqolu_smallest(const uint32_t *words, size_t words_len, uint32_t misses, uint32_t *words_read);

/* The split of a store of `store` extents among customers: one share for each, none below the customer's least share, in
 * all no more than the store. Of all such shares they are those with the fewest misses in all, then those of the smallest
 * total, then those with the smallest first share, second share, and so on. A customer's misses are those of a cache of
 * its share that reads its summary's log. A share is above v only where the least share is.
 * Lent: the least shares, one for each customer; the customers' summaries end to end, in the same order: each but the last
 * has 2 + 3 v words by its own v, the last all that are left; `shares`, a word for each customer.
 * Answer: the misses in all. Refusals, in order: -2 for the store, -2 for the number of customers, -5, -10, -6. */
int64_t jemqolu_split(uint32_t store, const uint32_t *leasts, size_t leasts_len,
                      const uint32_t *summaries, size_t summaries_len, uint32_t *shares, size_t shares_len);

/* What one more read can do: the misses of a cache of `size` extents that reads the log with a read of `extent` put in
 * before the read at `place`, less its misses without that read, written to `*change`. Places count from 0; the log's
 * length is the place after its last read. The change is from -1 to `size` + 1. It is 1 at size 0, and from size 1 up 0 where
 * the read is put directly before or after a read of the same extent.
 * Lent: the log; one int64_t. Answer: 0. Refusals, in order: -2 where the place is past the log's end; then -8 and -9 for the
 * log with the read put in. */
int64_t jemqolu_one_more(const uint32_t *log, size_t log_len, size_t place, uint32_t extent, uint32_t size,
                         int64_t *change);

/* Texts have one form a line, each line ended by a newline, with one leading space for each bracket that is open; the
 * closing brackets follow the last inner form. A number has 1 to 10 digits and no leading zero but 0 itself.
 * A plan is `(seg n)`, the next n reads of the log, or `(join` with two or more plans inside, at most 16, at most 8 joins
 * deep. A log text is `(trace)`, or `(trace` with `(read n)` forms inside. For example:
 *   (join          (trace
 *    (seg 4)        (read 7)
 *    (join          (read 3)
 *     (seg 1)       (read 7))
 *     (seg 2)))
 */

/* A joining plan carried out on a log: the log's summary, its parts summarized and joined as the plan's text says.
 * Lent: the plan's text; the log; `work`, 6,148 words for each join that is open at once where the plan is deepest, which
 * are 0 afterwards; `out`, as many words as the summary has. Answer: the words written.
 * Refusals, in order: -4 for the text's length; the earliest faulty line's, on one line -1, -2, -4; then -3, -8, -9, -6. */
int64_t jemqolu_plan(const uint8_t *text, size_t text_len, const uint32_t *log, size_t log_len,
                     uint32_t *work, size_t work_len, uint32_t *out, size_t out_len);

/* The listing of a log text: its reads, its cold reads, and for every size from 1 to its extents the misses.
 * Lent: the text; `out`, as many bytes as the listing has. Answer: the bytes written, no 0 after them.
 * Refusals: the earliest faulty line's, on one line -1, -2, -8, -9; then -6. */
int64_t jemqolu_list(const uint8_t *text, size_t text_len, uint8_t *out, size_t out_len);

/* A session is 6,146 words with the caller, who may keep and copy them:
 *   word 0            L, the reads accepted
 *   words 1..1024     F, the extents by first read, 0 after them
 *   words 1025..2048  H, word 1,024 + d counts the reads of distance d
 *   words 2049..4096  2,048 slots: an extent stands in the slot of its last read, 0 in the others
 *   word 4097         the count of all marks: each extent has one, in the slot of its last read
 *   words 4098..6144  2,047 right-hand sums, one for each branching point of the binary tree over the slots: word 4,098 + p has
 *                     the marks under the right child of point p. The lowest points come first, then each level above them,
 *                     the root last: the children of point p are 2p, the left one, and 2p + 1, a number below 2,048 being that
 *                     of a slot, 2,048 + q that of point q
 *   word 6145         the next slot
 * Words lent past these are neither read nor written.
 * Each call on a session copies its 24 KB and tests all of it: 5 to 18 microseconds a read, however few extents it has, where
 * jemqolu_summarize and jemqolu_distances take 0.003 to 0.16 a read. Whoever has a list of reads calls those. */

/* A new session. Lent: 6,146 words. Answer: 6,146. Refusal: -6. */
int64_t jemqolu_session_new(uint32_t *session, size_t session_len);

/* One more read. Where the next slot is 2,048, the v extents first move, in order, to the slots 0 to v - 1, and the next
 * slot becomes v. The slots looked at are those from the one below the next slot down to the extent's own: 1 where the
 * read before was of the same extent. A cold read looks at all below the next slot.
 * Lent: the session, which is changed there; two words, both set by an accepted read: `*sums_read` to the number of sums
 * read, 0 for a cold read, and `*slots_looked` to the number of slots looked at.
 * Answer: the reuse distance, or for a cold read JEMQOLU_COLD_BASE plus its number. Refusals, in order: -7, -8, -9. */
int64_t jemqolu_session_read(uint32_t *session, size_t session_len, uint32_t extent,
                             uint32_t *sums_read, uint32_t *slots_looked);

/* The summary of the reads accepted.
 * Lent: the session; `out`, as many words as the summary has. Answer: the words written. Refusals, in order: -7, -6. */
int64_t jemqolu_session_summary(const uint32_t *session, size_t session_len, uint32_t *out, size_t out_len);

/* The misses of a cache of `size` extents that reads the same log. Lent: the session. Refusal: -7. */
int64_t jemqolu_session_misses(const uint32_t *session, size_t session_len, uint32_t size);

/* The hits of such a cache divided by the reads that some size could have served, as above, written to `*share`.
 * Lent: the session; one double. Answer: 1, or 0 with `*share` unchanged where there are no such reads. Refusal: -7. */
int64_t jemqolu_session_share(const uint32_t *session, size_t session_len, uint32_t size, double *share);

/* Names for moments: a name, 1 to 8, stands for the session as it was when it was named. After a return to it the session's
 * log is the one of that moment, followed by what is read after the return, as often as one returns. All answers and the
 * summary are those of this log, whatever else was called. Names are 8 places of 6,147 words each with the caller, who may
 * keep and copy them; the place of name k starts at word (k - 1) * 6,147:
 *   its word 0         whether the name is set: 0 where it is not, any other number where it is
 *   its words 1..6146  the session under the name
 * Of fewer words than all 49,176, the names whose places lie within them can be used. Words past these are neither read nor
 * written. A naming and a return take no longer than a read. */

/* Names of which none is set. Lent: 49,176 words, which become 0. Answer: 49,176. Refusal: -6. */
int64_t jemqolu_names_new(uint32_t *names, size_t names_len);

/* The present session put under a name, in place of what was there; the name's word 0 becomes 1.
 * Lent: the session; the names, which are changed at this name's place. Answer: 0.
 * Refusals, in order: -2, -7 for the present session, -6 where the place does not lie within the names' words. */
int64_t jemqolu_session_name(const uint32_t *session, size_t session_len,
                             uint32_t *names, size_t names_len, uint32_t name);

/* A return to the session under a name. No name is forgotten.
 * Lent: the session, 6,146 words, whose contents make no difference; the names. Answer: 0.
 * Refusals, in order: -2, -11 where the name is not set in these words (a place that does not lie within them is
 * not), -7 for the session under the name, -6. */
int64_t jemqolu_session_return(uint32_t *session, size_t session_len,
                               const uint32_t *names, size_t names_len, uint32_t name);

/* A watch on one cache size is 4 words with the caller: the size, the reads, the cold reads, the hits.
 * Words lent past these are neither read nor written. */

/* A new watch on a size. Lent: 4 words. Answer: 4. Refusal: -6. */
int64_t jemqolu_watch_new(uint32_t size, uint32_t *watch, size_t watch_len);

/* One more read's word, as jemqolu_session_read answers and jemqolu_distances writes it: a distance from 1 to 1,024,
 * or for a cold read JEMQOLU_COLD_BASE plus a number from 1 to 1,024, which makes no difference.
 * Lent: the watch, which is changed there. Answer: 0. Refusals, in order: -7, -2, -8. */
int64_t jemqolu_watch_read(uint32_t *watch, size_t watch_len, uint32_t word);

/* The misses so far, reads less hits. Lent: the watch. Refusal: -7. */
int64_t jemqolu_watch_misses(const uint32_t *watch, size_t watch_len);

/* The hits so far divided by the reads that some size could have served, reads less cold reads, written to `*share`.
 * Lent: the watch; one double. Answer: 1, or 0 with `*share` unchanged where there are no such reads. Refusal: -7. */
int64_t jemqolu_watch_share(const uint32_t *watch, size_t watch_len, double *share);

#ifdef __cplusplus
}
#endif

#endif
