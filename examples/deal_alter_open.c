/* Deals a secret to five members for a day, sees that it opens, also from three of them and with one
   share that cannot be read, and that it does not for the next day, alters one member's share, and
   opens what they hand in, through its text: the shares are written down, read back and opened. */
#include "rutzebam.h"

#include <stdio.h>
#include <string.h>

enum {
    T = 2,
    D = 3,
    N = 2 * T + 1,
    WIDTH = RUTZEBAM_SHARE_WORDS(T, D),
    SHARES = RUTZEBAM_SHARES_WORDS(T, D),
    RANDOM = RUTZEBAM_RANDOM_WORDS(T, D),
    DAY = 321,
    ALL = (1 << N) - 1,
    THREE = 7 /* members 1 to 3 */
};

/* Words for an example only: a recorder takes them from a good source of randomness. A word above
   65520 is drawn again, so that no field word is likelier than another. */
static void draw(uint16_t *words, size_t len)
{
    uint32_t state = 1;
    for (size_t i = 0; i < len; i++)
        do {
            state = state * 1664525u + 1013904223u;
            words[i] = (uint16_t)(state >> 16);
        } while (words[i] > 65520);
}

/* Opens the shares of the present members: 1 if that gives the secret, the members given survive and
   agree, and as many votes as given are mismatched and unread. */
static int opens(uint32_t present, uint16_t quorum, const uint16_t *shares, const uint16_t *secret,
                 uint32_t members, uint16_t mismatched, uint16_t unread)
{
    uint16_t opened[D], pairs[3];
    uint32_t survivors = 0, agreeing = 0;
    uint16_t number =
        rutzebam_open(T, DAY, present, quorum, shares, SHARES, opened, D, &survivors, &agreeing, pairs);
    printf("opening: %u, survivors %u, agreeing %u, secret %u %u %u\n", number,
           (unsigned)survivors, (unsigned)agreeing, opened[0], opened[1], opened[2]);
    printf("votes: accepted %u, mismatched %u, unread %u\n", pairs[RUTZEBAM_ACCEPTED],
           pairs[RUTZEBAM_MISMATCHED], pairs[RUTZEBAM_UNREAD]);
    for (size_t k = 0; k < D; k++)
        if (opened[k] != secret[k]) return 0;
    return number == RUTZEBAM_OK && survivors == members && agreeing == members
           && pairs[RUTZEBAM_ACCEPTED] == N * N - mismatched - unread
           && pairs[RUTZEBAM_MISMATCHED] == mismatched && pairs[RUTZEBAM_UNREAD] == unread;
}

/* Opens the shares of members 1 to 3: 1 if quorum 0 refuses, since it asks for one share more than
   T + 1, and quorum T + 1 gives the secret. */
static int opens_without_spare(const uint16_t *shares, const uint16_t *secret)
{
    uint16_t opened[D], pairs[3];
    uint32_t survivors = 0, agreeing = 0;
    uint16_t number =
        rutzebam_open(T, DAY, THREE, 0, shares, SHARES, opened, D, &survivors, &agreeing, pairs);
    printf("opening three with quorum 0: %u\n", number);
    return number == RUTZEBAM_QUORUM_NOT_MET && pairs[RUTZEBAM_ACCEPTED] == 9
           && opens(THREE, T + 1, shares, secret, THREE, 0, 16);
}

/* Member 5 hands in a word that is no field word: 1 if the others give the secret, with the pairs of
   member 5 unread and nothing mismatched. */
static int opens_with_one_unreadable(uint16_t *shares, const uint16_t *secret)
{
    uint16_t word = shares[SHARES - 1];
    shares[SHARES - 1] = 65535;
    int done = opens(ALL, 0, shares, secret, ALL - 16, 0, 9);
    shares[SHARES - 1] = word;
    return done;
}

/* Opens the shares of all members for the next day: 1 if that refuses with 15, since under these keys
   no tag is that of another day, with both masks 0 and every word of the secret 65535. */
static int refuses_for_another_day(const uint16_t *shares)
{
    uint16_t opened[D], pairs[3];
    uint32_t survivors = 1, agreeing = 1;
    uint16_t number =
        rutzebam_open(T, DAY + 1, ALL, 0, shares, SHARES, opened, D, &survivors, &agreeing, pairs);
    printf("opening for another day: %u\n", number);
    for (size_t k = 0; k < D; k++)
        if (opened[k] != 65535) return 0;
    return number == RUTZEBAM_NO_SURVIVORS && survivors == 0 && agreeing == 0
           && pairs[RUTZEBAM_ACCEPTED] == 0 && pairs[RUTZEBAM_MISMATCHED] == N * N
           && pairs[RUTZEBAM_UNREAD] == 0;
}

/* Writes the shares of all members as text, and reads them back into words: 1 if that gives what was
   written. */
static int hands_in(const uint16_t *shares, uint16_t *words)
{
    static uint8_t text[RUTZEBAM_WRITE_BYTES];
    size_t count = 0, t = 0, d = 0;
    uint16_t quorum = 0, day = 0;
    uint32_t present = 0;
    uint16_t number = rutzebam_write(T, D, 0, DAY, ALL, shares, SHARES, text, sizeof text, &count);
    printf("writing: %u, %u bytes\n", number, (unsigned)count);
    if (number != RUTZEBAM_OK) return 0;

    number = rutzebam_read(text, count, words, RUTZEBAM_READ_WORDS, &t, &d, &quorum, &day, &present);
    printf("reading: %u, day %u, present %u\n", number, day, (unsigned)present);
    return number == RUTZEBAM_OK && t == T && d == D && quorum == 0 && day == DAY && present == ALL
           && memcmp(words, shares, SHARES * sizeof *shares) == 0;
}

int main(void)
{
    const uint16_t secret[D] = {250, 1873, 65520};
    uint16_t random[RANDOM];
    uint16_t shares[SHARES];
    static uint16_t words[RUTZEBAM_READ_WORDS];

    draw(random, RANDOM);
    uint16_t number = rutzebam_deal(T, DAY, secret, D, random, RANDOM, shares, SHARES);
    printf("dealing: %u\n", number);
    if (number != RUTZEBAM_OK) return 1;

    /* the readings may be deleted only once the shares are seen to open to them */
    if (!opens(ALL, 0, shares, secret, ALL, 0, 0)) return 1;

    if (!opens_without_spare(shares, secret)) return 1;
    if (!opens_with_one_unreadable(shares, secret)) return 1;
    if (!refuses_for_another_day(shares)) return 1;

    /* member 4 comes back with another first word: under these keys no tag of it fits any more, and
       the others strike it, also where the shares come as text */
    shares[3 * WIDTH] = (uint16_t)((shares[3 * WIDTH] + 1u) % 65521u);
    if (!opens(ALL, 0, shares, secret, 23, 5, 0)) return 1;
    if (!hands_in(shares, words)) return 1;
    return opens(ALL, 0, words, secret, 23, 5, 0) ? 0 : 1;
}
