/* Splitting a secret of 16-bit words over 2t + 1 members, and opening it from what they hand in.

   Every call returns, whatever it is handed, and its answer is proved to be the one that the
   project's definitions give: docs/RULES.md says it in words, docs/CLAIMS.md where it is proved. A
   call answers 0 when it is done, and else the number of its first check that fails. There is no
   other state, no heap and no output.

   A pointer is not null, is aligned, and points to as many elements as the length after it says,
   also where that is 0; where no length follows, it points to one, and `pairs` to three. What a call
   writes overlaps nothing else that it is handed. That is all that a caller has to see to.

   t is 1 to 15, n is 2t + 1, and members are numbered 1 to n. A set of members is a mask: member i
   has the value 2 to the power i - 1. A field word is 0 to 65520. A secret has d words, d is 1 to 64.
   A day is a number that dealing and opening have to have in common, 1 to 65520. How days are counted
   is up to the station: a number that comes again does not tell the two days apart.

   0 from rutzebam_open does not say that this is the secret that was dealt. It is, where at least
   t + 1 shares are as dealt for the day of the opening, and survivors with share words as dealt
   are at least t + 1 more than survivors with altered ones. Otherwise, from t = 2 on, t members
   who know keys and shares of others can make it open to another secret, beside t + 1 shares as
   dealt. So open once and compare before the readings are deleted, ask for a large quorum, and
   look at the masks: where k survivors agree, another secret takes k - t altered shares or more.
   After 16 do not try again with fewer members: t + 1 survivors always open, to something.

   For firmware. The figures are those of the archive for x86-64.
   - Stack: RUTZEBAM_STACK_BYTES and the figures by call, below. There is no recursion. Up to 128
     bytes of it are below the stack pointer (the red zone of the System V ABI), so an interrupt that
     uses the same stack has to leave them alone.
   - Memory: no heap, and no data that is written: code and constants only. The archive needs memcpy
     and memset, and nothing else. It uses SSE2 registers.
   - Calls are reentrant, and safe in threads that share no buffer that one of them writes.
   - Time depends on the values: nothing here is constant-time.
   - Nothing is wiped: words of shares and secrets stay behind on the stack, and may in registers. */
#ifndef RUTZEBAM_H
#define RUTZEBAM_H

#include <stddef.h>
#include <stdint.h>

#ifdef __cplusplus
extern "C" {
#endif

#define RUTZEBAM_VERSION_MAJOR 4
#define RUTZEBAM_VERSION_MINOR 0
#define RUTZEBAM_VERSION_PATCH 2
#define RUTZEBAM_VERSION "4.0.2"

/* How many words a share has: d share words, n tags and n keys of two words. */
#define RUTZEBAM_SHARE_WORDS(t, d) ((d) + 3 * (2 * (t) + 1))
/* How many words all shares have. They stand in member order. */
#define RUTZEBAM_SHARES_WORDS(t, d) ((2 * (t) + 1) * RUTZEBAM_SHARE_WORDS(t, d))
/* How many random words a dealing takes. */
#define RUTZEBAM_RANDOM_WORDS(t, d) ((t) * (d) + 2 * (2 * (t) + 1) * (2 * (t) + 1))
/* How many words rutzebam_read fills. */
#define RUTZEBAM_READ_WORDS 4867
/* The longest text that rutzebam_read takes, in bytes. */
#define RUTZEBAM_TEXT_BYTES 40000
/* The longest text that rutzebam_write writes, in bytes: a buffer of that many is always long enough. */
#define RUTZEBAM_WRITE_BYTES 29368

/* Where the three counts of rutzebam_open stand in `pairs`. */
#define RUTZEBAM_ACCEPTED 0
#define RUTZEBAM_MISMATCHED 1
#define RUTZEBAM_UNREAD 2

/* What a call answers: done, or the first check that fails. docs/RULES.md says what to do about each. */
#define RUTZEBAM_OK 0
#define RUTZEBAM_BAD_THRESHOLD 1            /* t is not 1 to 15 */
#define RUTZEBAM_BAD_SECRET_LENGTH 2        /* d, the secret's length, is not 1 to 64 */
#define RUTZEBAM_BAD_RANDOM_LENGTH 3        /* not RUTZEBAM_RANDOM_WORDS(t, d) random words */
#define RUTZEBAM_BAD_SHARES_LENGTH 4        /* not RUTZEBAM_SHARES_WORDS(t, d) words to deal into */
#define RUTZEBAM_BAD_SECRET_WORD 5          /* a secret word above 65520 */
#define RUTZEBAM_BAD_RANDOM_WORD 6          /* a random word above 65520 */
#define RUTZEBAM_BAD_ROWS_LENGTH 10         /* not n rows */
#define RUTZEBAM_BAD_INPUT_LENGTH 11        /* not RUTZEBAM_SHARES_WORDS(t, d) words to open or write; not n values */
#define RUTZEBAM_MEMBER_BEYOND_N 12         /* a mask has a member beyond n */
#define RUTZEBAM_BAD_QUORUM 13              /* the quorum is neither 0 nor t + 1 to n */
#define RUTZEBAM_QUORUM_NOT_MET 14          /* fewer usable members than the quorum asks for */
#define RUTZEBAM_NO_SURVIVORS 15            /* the votes leave nobody */
#define RUTZEBAM_TOO_FEW_AGREE 16           /* no polynomials that enough members agree with */
#define RUTZEBAM_SET_TOO_SMALL 17           /* fewer than t + 1 members to decode from */
#define RUTZEBAM_BAD_VALUE 18               /* a value of a member of the set above 65520 */
#define RUTZEBAM_BAD_COEFFICIENTS_LENGTH 19 /* not t + 1 words for coefficients */
#define RUTZEBAM_TEXT_TOO_LONG 21           /* more than RUTZEBAM_TEXT_BYTES bytes */
#define RUTZEBAM_BAD_FIRST_LINE 22          /* the first line is no D line */
#define RUTZEBAM_BAD_LINE 23                /* a further line is no P line */
#define RUTZEBAM_BAD_LINE_MEMBER 24         /* a P line's member is not 1 to n, or was met before */
#define RUTZEBAM_BAD_BUFFER_LENGTH 25       /* not RUTZEBAM_READ_WORDS words to read into */
#define RUTZEBAM_TEXT_BUFFER_TOO_SHORT 31   /* fewer bytes to write into than the text has */
#define RUTZEBAM_BAD_DAY 32                 /* the day is not 1 to 65520 */

/* How many bytes of stack a call takes at most, with its return address and the arguments on the
   stack, without what memcpy and memset take themselves. In brackets the sum of the frames along the
   deepest chain of calls, in the code that crosscheck/build writes for x86-64; no figure is less than
   its sum. examples/stack_use.c looks that no call takes more. */
#define RUTZEBAM_DEAL_STACK_BYTES 1536   /* (1120) */
#define RUTZEBAM_OPEN_STACK_BYTES 2816   /* (2256) */
#define RUTZEBAM_PRUNE_STACK_BYTES 256   /* (32) */
#define RUTZEBAM_DECODE_STACK_BYTES 1280 /* (584) */
#define RUTZEBAM_TAG_STACK_BYTES 256     /* (88) */
#define RUTZEBAM_READ_STACK_BYTES 768    /* (496) */
#define RUTZEBAM_WRITE_STACK_BYTES 256   /* (56) */
/* The most of them. */
#define RUTZEBAM_STACK_BYTES 2816

/* Deals the secret to n members for a day, with random words that the caller draws afresh and keeps
   to itself. 1: t. 2: the secret's length. 32: the day. 3: how many random words. 4: how many words
   for shares. 5: a secret word above 65520. 6: a random word above 65520. On a refusal shares is
   unchanged. If the random words are drawn evenly from 0 to 65520, apart from one another and from the
   secret, and serve this dealing alone, any t of the n shares tell nothing of the secret but its
   length. t + 1 of them open it, with that quorum. */
uint16_t rutzebam_deal(size_t t, uint16_t day,
                       const uint16_t *secret, size_t secret_len,
                       const uint16_t *random, size_t random_len,
                       uint16_t *shares, size_t shares_len);

/* Opens the shares of the present members, dealt for this day, into the secret, whose length is d. At
   least `quorum` of the present members must have shares of field words alone; 0 stands for t + 2. So
   with no share to spare, t + 1 of them, the quorum t + 1 has to be handed over. `survivors` gets the
   members that the votes leave, `agreeing` those of them whose words lie on the polynomials found.
   `pairs` gets how everybody's votes on everybody came out, each one's on itself too: how many were
   accepted; how many were mismatched, because the tag is not that of the day and the share words under
   the voter's key; how many were unread, because not both members are present with shares of field
   words alone. So a missing share, or one with a word above 65520, makes unread pairs, and one that was
   altered, or dealt for another day, mismatched pairs where tags no longer fit. 0 mismatched does not
   say that nothing was altered. The counts are 0 after 1, 2, 32, 11, 12 and 13; else they are the true
   ones, after 14, 15 and 16 too, and add up to n * n.
   Shares of one dealing for another day, as many as meet the quorum, are refused with 15, unless keys
   among them have 0 as their first word, as about one in 65521 has: docs/RULES.md, 'Another day'.
   1: t. 2: the secret's length. 32: the day. 11: how many words of shares. 12: a member beyond n is
   present. 13: the quorum is neither 0 nor t + 1 to n. 14: the quorum is not met. 15: no survivors.
   16: too few survivors agree. On a refusal every word of the secret is 65535, at whatever length it
   has, and both masks are 0, but for 16, which gives the survivors. */
uint16_t rutzebam_open(size_t t, uint16_t day, uint32_t present, uint16_t quorum,
                       const uint16_t *shares, size_t shares_len,
                       uint16_t *secret, size_t secret_len,
                       uint32_t *survivors, uint32_t *agreeing, uint16_t pairs[3]);

/* The survivors of votes: rows[i - 1] is the mask of those who accept member i. 0 survivors are an
   answer too. 1: t. 10: not n rows. 12: a member beyond n, in any row. On a refusal the survivors
   are 0. */
uint16_t rutzebam_prune(size_t t, const uint32_t *rows, size_t rows_len, uint32_t *survivors);

/* The polynomial of degree at most t that enough members of the set have their values on, as t + 1
   coefficients, power 0 first; values[i - 1] is member i's. 1: t. 11: not n values. 19: not t + 1
   coefficients. 12: a member beyond n. 17: fewer than t + 1 members. 18: a value above 65520, of a
   member of the set. 16: no such polynomial. On a refusal every coefficient is 65535, at whatever
   length there is. */
uint16_t rutzebam_decode(size_t t, const uint16_t *values, size_t values_len, uint32_t set,
                         uint16_t *coefficients, size_t coefficients_len);

/* The tag of words under the key (alpha, beta). It refuses nothing: what is above 65520 is taken
   modulo 65521, and the tag of no words is beta so taken. */
uint16_t rutzebam_tag(uint16_t alpha, uint16_t beta, const uint16_t *words, size_t words_len);

/* Reads hand-in text. `words` gets the shares in member order, then zeros; what rutzebam_open takes
   is its first RUTZEBAM_SHARES_WORDS(*t, *d) words, with *day, *present and *quorum. The day is the one
   that the text names: see whether it is the one that is wanted before you open.
   25: not 4867 words. 21: more than 40000 bytes. 22: the first line. 23: a line's shape.
   24: a line's member. On a refusal every word, at whatever length there is, and every number is 0. */
uint16_t rutzebam_read(const uint8_t *text, size_t text_len,
                       uint16_t *words, size_t words_len,
                       size_t *t, size_t *d, uint16_t *quorum, uint16_t *day, uint32_t *present);

/* Writes hand-in text: t, d, the quorum and the day, then the shares of the present members by rising
   number. `count` gets its length in bytes, at most RUTZEBAM_WRITE_BYTES; what text has past it stays.
   Every quorum and every word is written, above 65520 too. rutzebam_read of the first *count bytes
   gives t, d, quorum, day and present back, and the shares with zeros for absent members.
   1: t. 2: d. 32: the day. 11: how many words of shares. 12: a member beyond n is present. 31: text_len
   is less than the text's length. On a refusal text is unchanged, and *count is 0. */
uint16_t rutzebam_write(size_t t, size_t d, uint16_t quorum, uint16_t day, uint32_t present,
                        const uint16_t *shares, size_t shares_len,
                        uint8_t *text, size_t text_len, size_t *count);

#ifdef __cplusplus
}
#endif

#endif
