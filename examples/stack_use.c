/* How many bytes of stack each call uses, seen from outside.

   Each call runs on a stack of its own that was filled with a pattern. The bytes between the caller's
   frame and the deepest byte that was overwritten are its use: with the arguments that are handed
   over on the stack, the return address and a little of the caller's own frame, so rather too much
   than too little. Two patterns are tried, since a byte that is overwritten with itself is not seen.
   Every case runs once before it is measured, so that a dynamic linker's work is not counted.

   The cases are every t, with 1 and 64 words: shares as dealt, altered (all keys are 0, so that every
   altered share survives and is decoded), lost and refused, and texts read and written, up to the
   longest.

   Prints the name of each call, the bytes seen and the bytes that rutzebam.h allows it. The exit
   status is 1 if a call used more than that, or did not answer what it should.

   cc -Iinclude examples/stack_use.c target/staticlib/librutzebam.a -o target/stack_use && target/stack_use */
#define _XOPEN_SOURCE 700

#include "rutzebam.h"

#include <stdio.h>
#include <string.h>
#include <ucontext.h>

enum {
    T = 15, D = 64, N = 2 * T + 1,
    SHARES = RUTZEBAM_SHARES_WORDS(T, D),
    RANDOM = RUTZEBAM_RANDOM_WORDS(T, D),
    STACK = 1 << 17
};

static unsigned char stack[STACK];
static ucontext_t here, there;
static void (*run)(void);
static volatile unsigned char *caller; /* a byte of the frame that makes the call */
static uint16_t answer;

/* What the calls are handed, and where they write. */
static size_t t, secret_len, random_len, shares_len, rows_len, values_len, coefficients_len, words_len, text_len, tagged_len;
static uint32_t present, rows[N], survivors, agreeing;
static uint16_t day, quorum, pairs[3], secret[D + 1], random_words[RANDOM], shares[SHARES], dealt[SHARES];
static uint16_t values[N], coefficients[T + 1], words[RUTZEBAM_READ_WORDS];
static uint8_t text[RUTZEBAM_TEXT_BYTES + 1];
static size_t read_t, read_d;
static uint16_t read_quorum, read_day;
static uint32_t read_present;
static size_t count;

#define RUN(call) volatile unsigned char mark = 0; caller = &mark; answer = call; mark = 1

static void run_deal(void)
{
    RUN(rutzebam_deal(t, day, secret, secret_len, random_words, random_len, shares, shares_len));
}

static void run_open(void)
{
    RUN(rutzebam_open(t, day, present, quorum, shares, shares_len, secret, secret_len, &survivors, &agreeing, pairs));
}

static void run_prune(void)
{
    RUN(rutzebam_prune(t, rows, rows_len, &survivors));
}

static void run_decode(void)
{
    RUN(rutzebam_decode(t, values, values_len, present, coefficients, coefficients_len));
}

static void run_tag(void)
{
    RUN(rutzebam_tag(65520, 65520, shares, tagged_len));
}

static void run_read(void)
{
    RUN(rutzebam_read(text, text_len, words, words_len, &read_t, &read_d, &read_quorum, &read_day, &read_present));
}

static void run_write(void)
{
    RUN(rutzebam_write(t, secret_len, quorum, day, present, shares, shares_len, text, text_len, &count));
}

struct call {
    const char *name;
    void (*run)(void);
    size_t allowed, seen;
};

static struct call deal = {"rutzebam_deal", run_deal, RUTZEBAM_DEAL_STACK_BYTES, 0};
static struct call open_ = {"rutzebam_open", run_open, RUTZEBAM_OPEN_STACK_BYTES, 0};
static struct call prune = {"rutzebam_prune", run_prune, RUTZEBAM_PRUNE_STACK_BYTES, 0};
static struct call decode = {"rutzebam_decode", run_decode, RUTZEBAM_DECODE_STACK_BYTES, 0};
static struct call tag = {"rutzebam_tag", run_tag, RUTZEBAM_TAG_STACK_BYTES, 0};
static struct call read_ = {"rutzebam_read", run_read, RUTZEBAM_READ_STACK_BYTES, 0};
static struct call write_ = {"rutzebam_write", run_write, RUTZEBAM_WRITE_STACK_BYTES, 0};

static int wrong = 0;

static void entry(void)
{
    run();
}

static void on_own_stack(void)
{
    if (getcontext(&there) != 0) { wrong = 1; return; }
    there.uc_stack.ss_sp = stack;
    there.uc_stack.ss_size = sizeof stack;
    there.uc_link = &here;
    makecontext(&there, entry, 0);
    if (swapcontext(&here, &there) != 0) wrong = 1;
}

/* Runs a call and notes how deep it went. */
static void measure(struct call *call, uint16_t expected)
{
    static const unsigned char patterns[] = {0xA5, 0x5A};
    run = call->run;
    on_own_stack();
    for (size_t k = 0; k < sizeof patterns; k++) {
        memset(stack, patterns[k], sizeof stack);
        on_own_stack();
        size_t untouched = 0;
        while (untouched < sizeof stack && stack[untouched] == patterns[k]) untouched++;
        size_t used = (size_t)(caller - stack) - untouched;
        if (used > call->seen) call->seen = used;
        if (answer != expected) {
            printf("%s answers %u, not %u\n", call->name, (unsigned)answer, (unsigned)expected);
            wrong = 1;
        }
    }
}

/* Deals d words with all keys 0, and keeps the shares. */
static void deal_words(size_t threshold, size_t d)
{
    t = threshold;
    secret_len = d;
    random_len = RUTZEBAM_RANDOM_WORDS(t, d);
    shares_len = RUTZEBAM_SHARES_WORDS(t, d);
    for (size_t k = 0; k < d; k++) secret[k] = (uint16_t)(65520 - k);
    memset(random_words, 0, sizeof random_words);
    for (size_t k = 0; k < t * d; k++) random_words[k] = (uint16_t)((k + 1) * 7919 % 65521);
    measure(&deal, RUTZEBAM_OK);
    memcpy(dealt, shares, sizeof shares);
    random_words[random_len - 1] = 65535;
    measure(&deal, RUTZEBAM_BAD_RANDOM_WORD);
    memcpy(shares, dealt, sizeof shares);
}

static void open_words(size_t d)
{
    size_t n = 2 * t + 1, width = RUTZEBAM_SHARE_WORDS(t, d);
    present = (uint32_t)((1u << n) - 1);
    quorum = 0;
    measure(&open_, RUTZEBAM_OK);
    present = (uint32_t)((1u << (t + 1)) - 1);
    measure(&open_, RUTZEBAM_QUORUM_NOT_MET);
    quorum = (uint16_t)(t + 1);
    measure(&open_, RUTZEBAM_OK);
    present = (uint32_t)((1u << n) - 1);
    /* one member altered in the last word alone, after words that pass the quick look */
    shares[d - 1] = (uint16_t)((shares[d - 1] + 1) % 65521);
    measure(&open_, 1 <= t / 2 ? RUTZEBAM_OK : RUTZEBAM_TOO_FEW_AGREE);
    memcpy(shares, dealt, sizeof shares);
    /* more and more members altered, each in another word, the first ones first */
    for (size_t e = 1; e <= t; e++) {
        size_t place = (e - 1) * width + (e - 1) % d;
        shares[place] = (uint16_t)((shares[place] + 1) % 65521);
        measure(&open_, e <= t / 2 ? RUTZEBAM_OK : RUTZEBAM_TOO_FEW_AGREE);
    }
    memcpy(shares, dealt, sizeof shares);
    for (size_t i = 0; i < n; i++)
        for (size_t j = 0; j < n; j++) shares[i * width + d + j] = 9; /* tags that nobody accepts */
    measure(&open_, RUTZEBAM_NO_SURVIVORS);
    memcpy(shares, dealt, sizeof shares);
    secret_len = 0;
    measure(&open_, RUTZEBAM_BAD_SECRET_LENGTH);
    secret_len = d;
    day = 0;
    measure(&open_, RUTZEBAM_BAD_DAY);
    day = 65520;
}

static void decode_word(size_t d)
{
    size_t n = 2 * t + 1, width = RUTZEBAM_SHARE_WORDS(t, d);
    for (size_t i = 0; i < n; i++) values[i] = dealt[i * width];
    values_len = n;
    coefficients_len = t + 1;
    measure(&decode, RUTZEBAM_OK);
    for (size_t e = 1; e <= t; e++) {
        values[e - 1] = (uint16_t)((values[e - 1] + e) % 65521);
        measure(&decode, e <= t / 2 ? RUTZEBAM_OK : RUTZEBAM_TOO_FEW_AGREE);
    }
    coefficients_len = t;
    measure(&decode, RUTZEBAM_BAD_COEFFICIENTS_LENGTH);
}

static void prune_rows(void)
{
    size_t n = 2 * t + 1;
    rows_len = n;
    for (size_t i = 0; i < n; i++) rows[i] = (uint32_t)((1u << n) - 1);
    measure(&prune, RUTZEBAM_OK);
    for (size_t i = t; i < n; i++) rows[i] = 0; /* t members are left, too few: they are struck too */
    measure(&prune, RUTZEBAM_OK);
    rows[0] = 0x80000000u;
    measure(&prune, RUTZEBAM_MEMBER_BEYOND_N);
}

/* One number after a tab. */
static void put(unsigned number)
{
    text_len += (size_t)sprintf((char *)text + text_len, "\t%u", number);
}

/* The longest text for t and d: every member, every word of five digits. */
static void read_text(size_t d)
{
    size_t n = 2 * t + 1, width = RUTZEBAM_SHARE_WORDS(t, d);
    words_len = RUTZEBAM_READ_WORDS;
    text_len = 0;
    text[text_len++] = 'D';
    put((unsigned)t);
    put((unsigned)d);
    put(65535);
    put(65520);
    text[text_len++] = '\n';
    for (size_t i = n; i > 0; i--) {
        text[text_len++] = 'P';
        put((unsigned)i);
        for (size_t k = 0; k < width; k++) put(65535);
        text[text_len++] = '\n';
    }
    measure(&read_, RUTZEBAM_OK);
    text[text_len - 1] = '\t';
    measure(&read_, RUTZEBAM_BAD_LINE);
    memset(text + text_len, '\n', sizeof text - text_len);
    text_len = RUTZEBAM_TEXT_BYTES;
    measure(&read_, RUTZEBAM_BAD_LINE);
    text_len++;
    measure(&read_, RUTZEBAM_TEXT_TOO_LONG);
    text_len = 0;
    measure(&read_, RUTZEBAM_BAD_FIRST_LINE);
}

/* The longest text for t and the secret's length, and the shortest one. */
static void write_text(void)
{
    size_t threshold = t, n = 2 * t + 1;
    for (size_t k = 0; k < shares_len; k++) shares[k] = 65535;
    present = (uint32_t)((1u << n) - 1);
    quorum = 65535;
    text_len = RUTZEBAM_WRITE_BYTES;
    measure(&write_, RUTZEBAM_OK);
    text_len = count;
    measure(&write_, RUTZEBAM_OK);
    text_len--;
    measure(&write_, RUTZEBAM_TEXT_BUFFER_TOO_SHORT);
    present = 0;
    measure(&write_, RUTZEBAM_OK);
    text_len = 0;
    measure(&write_, RUTZEBAM_TEXT_BUFFER_TOO_SHORT);
    t = 0;
    measure(&write_, RUTZEBAM_BAD_THRESHOLD);
    t = threshold;
}

int main(void)
{
    static struct call *const calls[] = {&deal, &open_, &prune, &decode, &tag, &read_, &write_};
    static const size_t lengths[] = {1, D};
    day = 65520;
    for (size_t threshold = 1; threshold <= T; threshold++)
        for (size_t k = 0; k < 2; k++) {
            deal_words(threshold, lengths[k]);
            open_words(lengths[k]);
            decode_word(lengths[k]);
            prune_rows();
            read_text(lengths[k]);
            write_text();
        }
    memset(shares, 0, sizeof shares);
    for (tagged_len = 0; tagged_len <= 64; tagged_len++) measure(&tag, 65520);
    tagged_len = SHARES;
    measure(&tag, 65520);

    for (size_t k = 0; k < sizeof calls / sizeof calls[0]; k++) {
        printf("%-16s%5lu of %4lu bytes\n", calls[k]->name, (unsigned long)calls[k]->seen, (unsigned long)calls[k]->allowed);
        if (calls[k]->seen > calls[k]->allowed || calls[k]->allowed > RUTZEBAM_STACK_BYTES) wrong = 1;
    }
    return wrong;
}
