/*
 * The calls from C: document 01's cases, every refusal, what each call leaves in its output, and the version. Prints one line and ends
 * with 0, or prints each difference and ends with 1.
 */
#include <stdio.h>
#include <stdlib.h>
#include <string.h>

#include "notebook.h"

static unsigned checks;
static unsigned differences;

static void hold(int holds, const char *what, int line)
{
    checks++;
    if (!holds) {
        differences++;
        printf("test.c:%d: %s\n", line, what);
    }
}

#define HOLD(condition) hold((condition), #condition, __LINE__)

static int is(struct notebook_reply r, uint64_t refusal, uint64_t line, uint64_t a, uint64_t b, uint64_t c)
{
    int same = r.refusal == refusal && r.line == line && r.a == a && r.b == b && r.c == c;
    if (!same) {
        printf("reply %u %u %u %u %u: ", (unsigned)r.refusal, (unsigned)r.line, (unsigned)r.a, (unsigned)r.b, (unsigned)r.c);
    }
    return same;
}

static int result(struct notebook_reply r, uint64_t a, uint64_t b, uint64_t c)
{
    return is(r, NOTEBOOK_ACCEPTED, 0, a, b, c);
}

static int refused(struct notebook_reply r, uint64_t refusal, uint64_t line)
{
    return is(r, refusal, line, 0, 0, 0);
}

/* --- bytes --- */

struct bytes {
    uint8_t *at;
    size_t length;
};

static void *memory(size_t length)
{
    void *at = malloc(length ? length : 1);
    if (at == NULL) {
        puts("test.c: no memory");
        exit(2);
    }
    return at;
}

static struct bytes text(const char *s)
{
    struct bytes b;
    b.length = strlen(s);
    b.at = memory(b.length);
    memcpy(b.at, s, b.length);
    return b;
}

static struct bytes add(struct bytes b, const void *more, size_t length)
{
    struct bytes sum;
    sum.length = b.length + length;
    sum.at = memory(sum.length);
    memcpy(sum.at, b.at, b.length);
    memcpy(sum.at + b.length, more, length);
    free(b.at);
    return sum;
}

static int same(const uint8_t *at, size_t length, struct bytes b)
{
    return length == b.length && memcmp(at, b.at, length) == 0;
}

#define LINE_1 "JAHISTC04,2\r\n"
#define PATIENT "1,A,1,19890108,,,,,,,\r\n"
#define CANONICAL_PATIENT "1,A,1,H010108,,,,,,,\r\n"
/* Its kana name is of hiragana and katakana. */
#define MIXED_NAME "1,A,1,19890108,,,,,,,\x82\xa0\x83\x41\r\n"
#define MEMO "4,x,,2\r\n"
#define GROUP "5,20160411,2\r\n"
#define ID "20261115000001"

/* A patient and as many records 4,x,,2. */
static struct bytes memos(size_t count)
{
    struct bytes b;
    size_t front = strlen(LINE_1 PATIENT);
    size_t i;
    b.length = front + 8 * count;
    b.at = memory(b.length);
    memcpy(b.at, LINE_1 PATIENT, front);
    for (i = 0; i < count; i++) {
        memcpy(b.at + front + 8 * i, MEMO, 8);
    }
    return b;
}

/* --- outputs: a pattern, with guards before and after what is lent --- */

enum { GUARD = 64 };

static uint8_t pattern(size_t i)
{
    return (uint8_t)((7 * i + 3) % 251);
}

static uint8_t *lend(size_t length)
{
    uint8_t *all = memory(length + 2 * GUARD);
    size_t i;
    for (i = 0; i < length + 2 * GUARD; i++) {
        all[i] = pattern(i);
    }
    return all + GUARD;
}

/* Whether the pattern stands before the output, and from an index of it on to the end of the guard after it. */
static int kept(const uint8_t *out, size_t length, size_t from)
{
    const uint8_t *all = out - GUARD;
    size_t i;
    for (i = 0; i < length + 2 * GUARD; i++) {
        if ((i < GUARD || GUARD + from <= i) && all[i] != pattern(i)) {
            return 0;
        }
    }
    return 1;
}

static void give_back(uint8_t *out)
{
    free(out - GUARD);
}

/* --- pieces --- */

static int begins_piece(const uint8_t *at, size_t left)
{
    return 10 <= left && memcmp(at, "JAHISTC04,", 10) == 0;
}

/* The pieces from the last to the first, with a 1Ah after each if asked for. */
static struct bytes backwards(const uint8_t *pieces, size_t length, int with_end_mark)
{
    struct bytes b = text("");
    size_t end = length;
    size_t at = length;
    while (0 < at) {
        at--;
        if (begins_piece(pieces + at, length - at)) {
            b = add(b, pieces + at, end - at);
            if (with_end_mark) {
                b = add(b, "\x1a", 1);
            }
            end = at;
        }
    }
    return b;
}

static void join_gives(struct bytes pieces, struct bytes file)
{
    size_t length = file.length + 9;
    uint8_t *out = lend(length);
    HOLD(result(notebook_join(pieces.at, pieces.length, out, length), file.length, 0, 0));
    HOLD(same(out, file.length, file) && kept(out, length, file.length));
    give_back(out);

    out = lend(file.length);
    HOLD(result(notebook_join(pieces.at, pieces.length, out, file.length), file.length, 0, 0));
    HOLD(same(out, file.length, file) && kept(out, file.length, file.length));
    give_back(out);

    out = lend(file.length - 1);
    HOLD(refused(notebook_join(pieces.at, pieces.length, out, file.length - 1), NOTEBOOK_REFUSED_SHORT, 0));
    HOLD(kept(out, file.length - 1, 0));
    give_back(out);
}

static void join_refuses(struct bytes pieces, uint64_t refusal, uint64_t line)
{
    uint8_t *out = lend(NOTEBOOK_JOIN_MAX);
    HOLD(refused(notebook_join(pieces.at, pieces.length, out, NOTEBOOK_JOIN_MAX), refusal, line));
    HOLD(kept(out, NOTEBOOK_JOIN_MAX, 0));
    give_back(out);
}

/* --- document 01's cases --- */

static void small_file(void)
{
    struct bytes file = text(LINE_1 PATIENT "\x1a");
    struct bytes canonical = text(LINE_1 CANONICAL_PATIENT);
    uint32_t numbers[9];
    uint8_t *out = lend(40);

    HOLD(file.length == 37);
    HOLD(canonical.length == 35);
    HOLD(result(notebook_check(file.at, file.length), 1, 0, 0));

    HOLD(result(notebook_canonical(file.at, file.length, out, 40), 35, 0, 0));
    HOLD(same(out, 35, canonical) && kept(out, 40, 35));
    give_back(out);

    out = lend(35);
    HOLD(result(notebook_canonical(file.at, file.length, out, 35), 35, 0, 0));
    HOLD(same(out, 35, canonical) && kept(out, 35, 35));
    give_back(out);

    out = lend(34);
    HOLD(refused(notebook_canonical(file.at, file.length, out, 34), NOTEBOOK_REFUSED_SHORT, 0));
    HOLD(kept(out, 34, 0));
    HOLD(refused(notebook_canonical(file.at, file.length, out, 0), NOTEBOOK_REFUSED_SHORT, 0));
    HOLD(kept(out, 34, 0));
    give_back(out);

    memset(numbers, 0x5a, sizeof numbers);
    HOLD(refused(notebook_index(file.at, file.length, numbers, 6), NOTEBOOK_REFUSED_SHORT, 0));
    HOLD(numbers[0] == 0x5a5a5a5a && numbers[6] == 0x5a5a5a5a);
    HOLD(result(notebook_index(file.at, file.length, numbers, 8), 1, 0, 0));
    HOLD(numbers[0] == 1 && numbers[1] == 13 && numbers[2] == 21);
    HOLD(numbers[3] == 0 && numbers[4] == 0 && numbers[5] == 0 && numbers[6] == 0);
    HOLD(numbers[7] == 0x5a5a5a5a && numbers[8] == 0x5a5a5a5a);

    free(canonical.at);
    free(file.at);
}

/* Whether the numbers from an index on to the end are as they were filled. */
static int numbers_kept(const uint32_t *numbers, size_t from, size_t to)
{
    size_t i;
    for (i = from; i < to; i++) {
        if (numbers[i] != 0x5a5a5a5a) {
            return 0;
        }
    }
    return 1;
}

/* Document 02's seventh number. The first record stands in line 2. */
static void clinics(void)
{
    static const struct {
        const char *record;
        uint32_t entry[NOTEBOOK_ENTRY_NUMBERS];
    } cases[] = {
        {"1,A,1,19890108,,,,,,,\r\n", {1, 13, 21, 0, 0, 0, 0}},
        {"5,20160411,2\r\n", {5, 36, 12, 1, 0, 0, 0}},
        {"11,P,,,,,,,2\r\n", {11, 50, 12, 1, 0, 0, 0}},
        {"15,N,,2\r\n", {15, 64, 7, 1, 0, 0, 0}},
        {"51,H,,,,2\r\n", {51, 73, 9, 1, 0, 0, 6}},
        {"55,D,,2\r\n", {55, 84, 7, 1, 0, 0, 6}},
        {"201,1,X,1,g,,,2\r\n", {201, 93, 15, 1, 7, 0, 6}},
        {"281,1,s,2\r\n", {281, 110, 9, 1, 7, 8, 6}},
        {"301,1,u,,,,,,2\r\n", {301, 121, 14, 1, 7, 0, 6}},
        {"55,E,,2\r\n", {55, 137, 7, 1, 0, 0, 6}},
        {"201,2,X,1,g,,,2\r\n", {201, 146, 15, 1, 11, 0, 6}},
        {"401,r,2\r\n", {401, 163, 7, 1, 0, 0, 6}},
        {"601,p,\r\n", {601, 172, 6, 1, 0, 0, 6}},
        /* A group without a 51 after one with it, and then one with its own. */
        {"5,20160411,2\r\n", {5, 180, 12, 2, 0, 0, 0}},
        {"201,1,X,1,g,,,2\r\n", {201, 194, 15, 2, 0, 0, 0}},
        {"5,20160411,2\r\n", {5, 211, 12, 3, 0, 0, 0}},
        {"51,H,,,,2\r\n", {51, 225, 9, 3, 0, 0, 18}},
        {"501,m,2\r\n", {501, 236, 7, 3, 0, 0, 18}},
        {"701,a,b,c,,,2\r\n", {701, 245, 13, 0, 0, 0, 0}},
    };
    enum { RECORDS = sizeof cases / sizeof cases[0], NUMBERS = NOTEBOOK_ENTRY_NUMBERS * RECORDS };
    struct bytes file = text(LINE_1);
    uint32_t numbers[NUMBERS + 2];
    size_t length, i;
    for (i = 0; i < RECORDS; i++) {
        file = add(file, cases[i].record, strlen(cases[i].record));
    }

    /* Too short are six numbers a record, all lengths from there to one number less than seven, and none. */
    memset(numbers, 0x5a, sizeof numbers);
    for (length = 6 * RECORDS; length < NUMBERS; length++) {
        HOLD(refused(notebook_index(file.at, file.length, numbers, length), NOTEBOOK_REFUSED_SHORT, 0));
    }
    HOLD(refused(notebook_index(file.at, file.length, numbers, 0), NOTEBOOK_REFUSED_SHORT, 0));
    HOLD(numbers_kept(numbers, 0, NUMBERS + 2));

    for (length = NUMBERS; length <= NUMBERS + 2; length++) {
        memset(numbers, 0x5a, sizeof numbers);
        HOLD(result(notebook_index(file.at, file.length, numbers, length), RECORDS, 0, 0));
        for (i = 0; i < RECORDS; i++) {
            HOLD(memcmp(numbers + NOTEBOOK_ENTRY_NUMBERS * i, cases[i].entry, sizeof cases[i].entry) == 0);
        }
        HOLD(numbers_kept(numbers, NUMBERS, NUMBERS + 2));
    }
    free(file.at);
}

/* Cuts with a run of used IDs that is lent with the ID before and after it, and holds all three to what they were. */
static struct notebook_reply cut_with(struct bytes used, struct bytes file, uint64_t capacity, const char *id, uint8_t *out,
                                      size_t out_length)
{
    size_t id_length = strlen(id);
    struct bytes lent = add(add(text(id), used.at, used.length), id, id_length);
    const uint8_t *run = lent.at + id_length;
    struct notebook_reply r = notebook_cut(file.at, file.length, capacity, lent.at, id_length, run, used.length, out, out_length);
    HOLD(memcmp(lent.at, id, id_length) == 0 && memcmp(run + used.length, id, id_length) == 0);
    HOLD(same(run, used.length, used));
    free(lent.at);
    return r;
}

/* Cuts where no ID has been used. */
static struct notebook_reply cut(struct bytes file, uint64_t capacity, const char *id, uint8_t *out, size_t out_length)
{
    struct bytes none = text("");
    struct notebook_reply r = cut_with(none, file, capacity, id, out, out_length);
    free(none.at);
    return r;
}

/* Cuts into count pieces of so many bytes in all, with outputs that are longer, exactly long enough and one byte short; joins them back. */
static void cut_gives(size_t records, uint64_t capacity, uint64_t count, size_t bytes)
{
    struct bytes file = memos(records);
    struct bytes canonical = text("");
    struct bytes pieces;
    uint8_t *out = lend(NOTEBOOK_CANONICAL_MAX);
    uint8_t *first = lend(NOTEBOOK_CUT_MAX);
    struct notebook_reply r = notebook_canonical(file.at, file.length, out, NOTEBOOK_CANONICAL_MAX);
    canonical = add(canonical, out, (size_t)r.a);
    give_back(out);

    HOLD(result(cut(file, capacity, ID, first, NOTEBOOK_CUT_MAX), count, bytes, 0));
    HOLD(kept(first, NOTEBOOK_CUT_MAX, bytes));

    out = lend(bytes);
    HOLD(result(cut(file, capacity, ID, out, bytes), count, bytes, 0));
    HOLD(memcmp(out, first, bytes) == 0 && kept(out, bytes, bytes));
    give_back(out);

    out = lend(bytes - 1);
    HOLD(refused(cut(file, capacity, ID, out, bytes - 1), NOTEBOOK_REFUSED_SHORT, 0));
    HOLD(kept(out, bytes - 1, 0));
    give_back(out);

    pieces = backwards(first, bytes, 0);
    HOLD(pieces.length == bytes);
    join_gives(pieces, canonical);
    free(pieces.at);
    pieces = backwards(first, bytes, 1);
    HOLD(pieces.length == bytes + count);
    join_gives(pieces, canonical);
    free(pieces.at);

    give_back(first);
    free(canonical.at);
    free(file.at);
}

static void cut_refuses(struct bytes file, uint64_t capacity, const char *id, uint64_t refusal, uint64_t line)
{
    uint8_t *out = lend(NOTEBOOK_CUT_MAX);
    HOLD(refused(cut(file, capacity, id, out, NOTEBOOK_CUT_MAX), refusal, line));
    HOLD(kept(out, NOTEBOOK_CUT_MAX, 0));
    give_back(out);
}

/* Document 02's days, before and from 1 May 2019 on: canonical and cut write them under the newest era, join leaves them as they are. */
static void days(void)
{
    static const struct {
        const char *day, *written;
    } cases[] = {
        {"20190430", "H310430"}, {"H310430", "H310430"}, {"20190501", "R010501"}, {"H310501", "R010501"}, {"R010501", "R010501"},
        {"20871231", "R691231"}, {"H991231", "R691231"}, {"R691231", "R691231"},
    };
    size_t i;
    for (i = 0; i < sizeof cases / sizeof cases[0]; i++) {
        struct bytes file = text(LINE_1 "1,A,1,");
        struct bytes canonical = text(LINE_1 "1,A,1,");
        uint8_t *out = lend(40);
        file = add(file, cases[i].day, strlen(cases[i].day));
        file = add(file, ",,,,,,,\r\n", 9);
        canonical = add(canonical, cases[i].written, 7);
        canonical = add(canonical, ",,,,,,,\r\n", 9);
        HOLD(result(notebook_check(file.at, file.length), 1, 0, 0));
        HOLD(result(notebook_canonical(file.at, file.length, out, 40), 35, 0, 0));
        HOLD(same(out, 35, canonical) && kept(out, 40, 35));
        give_back(out);

        out = lend(40);
        HOLD(result(cut(file, 35, ID, out, 40), 1, 35, 0));
        HOLD(same(out, 35, canonical) && kept(out, 40, 35));
        give_back(out);

        join_gives(file, file);
        free(canonical.at);
        free(file.at);
    }
}

/* Document 02's kana names, the last item of record 1: of one script, they are kept as they are. */
static void kana_names(void)
{
    static const char *const names[] = {
        "\xbd\xbd\xde\xb7 \xc0\xdb\xb3",         /* one-byte */
        "\x82\xa0\x81\x5b\x81\x40\x82\xa0",       /* hiragana with 815Bh and 8140h */
        "\x83\x41\x81\x5b\x81\x40\x83\x41",       /* katakana with both */
        "\x81\x5b", "\x81\x5b\x81\x40\x81\x5b", /* these alone */
    };
    size_t i;
    for (i = 0; i < sizeof names / sizeof names[0]; i++) {
        struct bytes file = text(LINE_1 "1,A,1,H010108,,,,,,,");
        uint8_t *out = lend(60);
        file = add(file, names[i], strlen(names[i]));
        file = add(file, "\r\n", 2);
        HOLD(result(notebook_check(file.at, file.length), 1, 0, 0));
        HOLD(result(notebook_canonical(file.at, file.length, out, 60), file.length, 0, 0));
        HOLD(same(out, file.length, file) && kept(out, 60, file.length));
        give_back(out);

        out = lend(60);
        HOLD(result(cut(file, file.length, ID, out, 60), 1, file.length, 0));
        HOLD(same(out, file.length, file) && kept(out, 60, file.length));
        give_back(out);

        join_gives(file, file);
        free(file.at);
    }
}

static void cuttings(void)
{
    struct bytes file = memos(18);
    cut_gives(20, 69, 6, 404);
    cut_gives(18, 60, 10, 547);
    cut_gives(2, 51, 1, 51);
    cut_refuses(file, 59, ID, NOTEBOOK_REFUSED_NO_CUTTING, 0);
    cut_refuses(file, 0, ID, NOTEBOOK_REFUSED_NO_CUTTING, 0);
    cut_refuses(file, 60, "", NOTEBOOK_REFUSED_ID, 0);
    cut_refuses(file, 60, "2026111500000", NOTEBOOK_REFUSED_ID, 0);
    cut_refuses(file, 60, "202611150000011", NOTEBOOK_REFUSED_ID, 0);
    cut_refuses(file, 60, "2026111500000x", NOTEBOOK_REFUSED_ID, 0);
    cut_refuses(file, 59, "x", NOTEBOOK_REFUSED_ID, 0);
    cut_refuses(file, UINT64_MAX, "x", NOTEBOOK_REFUSED_ID, 0);
    free(file.at);
    file = memos(2);
    cut_refuses(file, 50, ID, NOTEBOOK_REFUSED_NO_CUTTING, 0);
    free(file.at);
}

/* --- used IDs: 20 memos make 6 pieces of at most 69 bytes, 404 in all --- */

#define OTHER "20261115000002"

/* A run of used IDs passes: the pieces are those that the empty run gives. */
static void run_passes(struct bytes used, struct bytes file)
{
    uint8_t *wanted = lend(404);
    uint8_t *out = lend(409);
    HOLD(result(cut(file, 69, ID, wanted, 404), 6, 404, 0));
    HOLD(result(cut_with(used, file, 69, ID, out, 409), 6, 404, 0));
    HOLD(memcmp(out, wanted, 404) == 0 && kept(out, 409, 404));
    give_back(out);

    /* 18 and 20 come after it. */
    out = lend(403);
    HOLD(refused(cut_with(used, file, 0, ID, out, 403), NOTEBOOK_REFUSED_NO_CUTTING, 0));
    HOLD(refused(cut_with(used, file, 69, ID, out, 403), NOTEBOOK_REFUSED_SHORT, 0));
    HOLD(kept(out, 403, 0));
    give_back(out);
    give_back(wanted);
}

/* A run of used IDs is refused: after the ID; before the capacity and the output; and where one piece serves. */
static void run_is_refused(struct bytes used, struct bytes file)
{
    uint8_t *out = lend(NOTEBOOK_CUT_MAX);
    HOLD(refused(cut_with(used, file, 69, ID, out, NOTEBOOK_CUT_MAX), NOTEBOOK_REFUSED_USED, 0));
    HOLD(refused(cut_with(used, file, UINT64_MAX, ID, out, NOTEBOOK_CUT_MAX), NOTEBOOK_REFUSED_USED, 0));
    HOLD(refused(cut_with(used, file, 0, ID, out, NOTEBOOK_CUT_MAX), NOTEBOOK_REFUSED_USED, 0));
    HOLD(refused(cut_with(used, file, 69, ID, out, 403), NOTEBOOK_REFUSED_USED, 0));
    HOLD(refused(cut_with(used, file, 69, ID, out, 0), NOTEBOOK_REFUSED_USED, 0));
    HOLD(refused(cut_with(used, file, 69, "", out, NOTEBOOK_CUT_MAX), NOTEBOOK_REFUSED_ID, 0));
    HOLD(refused(cut_with(used, file, 0, "2026111500000x", out, 0), NOTEBOOK_REFUSED_ID, 0));
    HOLD(kept(out, NOTEBOOK_CUT_MAX, 0));
    give_back(out);
}

/* Runs in which the ID stands first, last, between others or more than once, and such with other IDs only. */
static void places_of_used_id(struct bytes file)
{
    static const struct {
        const char *used;
        int passes;
    } cases[] = {
        {"", 1},
        {OTHER, 1},
        {OTHER OTHER OTHER, 1},
        {"abcd, \r\n\x1a\x80\xff\x01\x7f!", 1},
        {ID, 0},
        {ID OTHER, 0},
        {OTHER ID, 0},
        {OTHER ID OTHER, 0},
        {ID ID, 0},
        {"abcd, \r\n\x1a\x80\xff\x01\x7f!" ID, 0},
    };
    size_t i;
    for (i = 0; i < sizeof cases / sizeof cases[0]; i++) {
        struct bytes used = text(cases[i].used);
        (cases[i].passes ? run_passes : run_is_refused)(used, file);
        free(used.at);
    }
}

/* An ID that differs in one byte, whichever; the ID across two of the run; and every length up to three IDs. */
static void near_used_id(struct bytes file)
{
    size_t i;
    for (i = 0; i < NOTEBOOK_ID_LENGTH; i++) {
        struct bytes used = text(OTHER ID);
        used.at[NOTEBOOK_ID_LENGTH + i] ^= 0x80;
        run_passes(used, file);
        used.at[NOTEBOOK_ID_LENGTH + i] ^= 0x81;
        run_passes(used, file);
        free(used.at);
    }
    for (i = 0; i <= NOTEBOOK_ID_LENGTH; i++) {
        struct bytes used = text("99999999999999" "99999999999999");
        memcpy(used.at + i, ID, NOTEBOOK_ID_LENGTH);
        (i % NOTEBOOK_ID_LENGTH == 0 ? run_is_refused : run_passes)(used, file);
        free(used.at);
    }
    for (i = 1; i <= 3 * NOTEBOOK_ID_LENGTH; i++) {
        struct bytes used = text(OTHER OTHER OTHER);
        used.length = i;
        (i % NOTEBOOK_ID_LENGTH == 0 ? run_passes : run_is_refused)(used, file);
        free(used.at);
        used = text(ID ID ID);
        used.length = i;
        run_is_refused(used, file);
        free(used.at);
    }
}

/* 10,000 IDs of a day and a running number. */
static void long_run(struct bytes file)
{
    enum { IDS = 10000 };
    struct bytes used;
    char id[NOTEBOOK_ID_LENGTH + 1];
    unsigned i;
    used.length = (size_t)IDS * NOTEBOOK_ID_LENGTH;
    used.at = memory(used.length);
    for (i = 0; i < IDS; i++) {
        sprintf(id, "20261115%06u", i + 2);
        memcpy(used.at + (size_t)NOTEBOOK_ID_LENGTH * i, id, NOTEBOOK_ID_LENGTH);
    }
    HOLD(used.length == 140000);
    run_passes(used, file);
    used.length--;
    run_is_refused(used, file);
    used.length++;
    memcpy(used.at + used.length - NOTEBOOK_ID_LENGTH, ID, NOTEBOOK_ID_LENGTH);
    run_is_refused(used, file);
    memcpy(used.at + used.length - NOTEBOOK_ID_LENGTH, OTHER, NOTEBOOK_ID_LENGTH);
    run_passes(used, file);
    memcpy(used.at, ID, NOTEBOOK_ID_LENGTH);
    run_is_refused(used, file);
    free(used.at);
}

/* Two cuttings of which the second has the first one's ID in its run: a piece of each, and the rest of either, are no set. */
static void two_cuttings(struct bytes file)
{
    struct bytes used = text(ID);
    uint8_t *first = lend(404);
    uint8_t *second = lend(404);
    size_t end = 1;
    struct bytes mixed;
    HOLD(result(cut(file, 69, ID, first, 404), 6, 404, 0));
    HOLD(result(cut_with(used, file, 69, OTHER, second, 404), 6, 404, 0));
    while (end < 404 && !begins_piece(first + end, 404 - end)) {
        end++;
    }
    mixed = add(add(text(""), first, end), second + end, 404 - end);
    join_refuses(mixed, NOTEBOOK_REFUSED_SET, 0);
    free(mixed.at);
    mixed = add(add(text(""), second, end), first + end, 404 - end);
    join_refuses(mixed, NOTEBOOK_REFUSED_SET, 0);
    free(mixed.at);
    mixed = add(add(text(""), first, 404), second, 404);
    join_refuses(mixed, NOTEBOOK_REFUSED_SET, 0);
    free(mixed.at);
    give_back(second);
    give_back(first);
    free(used.at);
}

static void used_ids(void)
{
    struct bytes file = memos(20);
    places_of_used_id(file);
    near_used_id(file);
    long_run(file);
    two_cuttings(file);
    free(file.at);
}

/* --- refusals of a file, by every call that takes one --- */

static void every_call_refuses(struct bytes file, uint64_t refusal, uint64_t line)
{
    uint8_t *out = lend(NOTEBOOK_CUT_MAX);
    uint32_t *numbers = memory(sizeof(uint32_t) * NOTEBOOK_INDEX_MAX);
    struct bytes used = text(ID "x");
    size_t i;
    int as_lent = 1;
    for (i = 0; i < NOTEBOOK_INDEX_MAX; i++) {
        numbers[i] = (uint32_t)(7919 * i + 13);
    }

    HOLD(refused(notebook_check(file.at, file.length), refusal, line));
    HOLD(refused(notebook_index(file.at, file.length, numbers, NOTEBOOK_INDEX_MAX), refusal, line));
    HOLD(refused(notebook_canonical(file.at, file.length, out, NOTEBOOK_CANONICAL_MAX), refusal, line));
    HOLD(refused(cut(file, 60, ID, out, NOTEBOOK_CUT_MAX), refusal, line));
    /* A refusal of the file comes before those of the ID, of the used IDs and of the output. */
    HOLD(refused(cut(file, 60, "x", out, 0), refusal, line));
    HOLD(refused(cut_with(used, file, 60, ID, out, 0), refusal, line));
    HOLD(refused(notebook_index(file.at, file.length, numbers, 0), refusal, line));
    HOLD(refused(notebook_canonical(file.at, file.length, out, 0), refusal, line));

    HOLD(kept(out, NOTEBOOK_CUT_MAX, 0));
    for (i = 0; i < NOTEBOOK_INDEX_MAX; i++) {
        as_lent &= numbers[i] == (uint32_t)(7919 * i + 13);
    }
    HOLD(as_lent);
    free(used.at);
    free(numbers);
    give_back(out);
}

static void refusals(void)
{
    static const struct {
        const char *file;
        uint64_t refusal, line;
    } cases[] = {
        {"", NOTEBOOK_REFUSED_LINE_END, 1},
        {"\x1a", NOTEBOOK_REFUSED_LINE_END, 1},
        {LINE_1 "1,A,1,19890108,,,,,,,", NOTEBOOK_REFUSED_LINE_END, 2},
        {"JAHISTC04,3\r\n", NOTEBOOK_REFUSED_VERSION, 1},
        {LINE_1 PATIENT "4,\xff,,2\r\n", NOTEBOOK_REFUSED_CHARACTER, 3},
        {LINE_1 PATIENT "999,x\r\n", NOTEBOOK_REFUSED_RECORD, 3},
        {LINE_1 PATIENT "911,20261115000001,2,1\r\n", NOTEBOOK_REFUSED_PIECE, 3},
        {LINE_1 PATIENT "4,x,2\r\n", NOTEBOOK_REFUSED_ITEMS, 3},
        {LINE_1 PATIENT "4,,,2\r\n", NOTEBOOK_REFUSED_EMPTY, 3},
        {LINE_1 "1,AAAAAAAAAAAAAAAAAAAAAAAAAAAAAAAAAAAAAAAAA,1,19890108,,,,,,,\r\n", NOTEBOOK_REFUSED_LONG, 2},
        {LINE_1 PATIENT "4, x,,2\r\n", NOTEBOOK_REFUSED_EDGE, 3},
        {LINE_1 PATIENT "4,x,,3\r\n", NOTEBOOK_REFUSED_FORM, 3},
        {LINE_1 PATIENT "5,R010430,2\r\n", NOTEBOOK_REFUSED_FORM, 3},
        {LINE_1 MIXED_NAME, NOTEBOOK_REFUSED_FORM, 2},
        {LINE_1 "1,A,1,19890108,,,,,,,\x82\xa0\x82\x4f\r\n", NOTEBOOK_REFUSED_FORM, 2},
        {LINE_1 "1,A,1,19890108,,,,,,,\xb1\x81\x5b\r\n" MEMO, NOTEBOOK_REFUSED_FORM, 2},
        {LINE_1 "1,A,1,19890108,,,,,,,\x82\xa0\x83\x41\x81\x40\r\n", NOTEBOOK_REFUSED_EDGE, 2},
        {LINE_1 PATIENT GROUP "201,1,x,1,T,2,,2\r\n", NOTEBOOK_REFUSED_PAIR, 4},
        {LINE_1 PATIENT MEMO "2,1,x,2\r\n", NOTEBOOK_REFUSED_PLACE, 4},
        {LINE_1, NOTEBOOK_REFUSED_MISSING, 2},
        {LINE_1 PATIENT GROUP "201,2,x,1,T,1,,2\r\n", NOTEBOOK_REFUSED_RP, 4},
        {LINE_1 PATIENT GROUP "5,20160412,2\r\n", NOTEBOOK_REFUSED_DATE_ORDER, 4},
        {LINE_1 PATIENT "5,H310430,2\r\n5,R010501,2\r\n", NOTEBOOK_REFUSED_DATE_ORDER, 4},
    };
    struct bytes file = memos(8187);
    size_t i;
    file = add(file, "4,x,,", 5);
    HOLD(file.length == NOTEBOOK_FILE_MAX + 1);
    every_call_refuses(file, NOTEBOOK_REFUSED_LARGE, 0);
    free(file.at);
    for (i = 0; i < sizeof cases / sizeof cases[0]; i++) {
        file = text(cases[i].file);
        every_call_refuses(file, cases[i].refusal, cases[i].line);
        free(file.at);
    }
}

/* --- sets of pieces --- */

#define PIECE_1 LINE_1 CANONICAL_PATIENT "911," ID ",2,1\r\n"
#define PIECE_2 LINE_1 MEMO "911," ID ",2,2\r\n"

static void sets(void)
{
    static const struct {
        const char *pieces;
        uint64_t refusal, line;
    } cases[] = {
        {"", NOTEBOOK_REFUSED_LINE_END, 1},
        {PIECE_1 "\x1a\x1a" PIECE_2, NOTEBOOK_REFUSED_LINE_END, 4},
        {PIECE_1, NOTEBOOK_REFUSED_SET, 0},
        {PIECE_1 PIECE_1, NOTEBOOK_REFUSED_SET, 0},
        {PIECE_2 PIECE_1 PIECE_2, NOTEBOOK_REFUSED_SET, 0},
        {PIECE_1 LINE_1 MEMO "911,20261115000002,2,2\r\n", NOTEBOOK_REFUSED_SET, 0},
        {PIECE_1 LINE_1 MEMO, NOTEBOOK_REFUSED_SET, 0},
        {MEMO PIECE_1 PIECE_2, NOTEBOOK_REFUSED_SET, 0},
        {LINE_1 MEMO "911," ID ",2,1\r\n" LINE_1 PATIENT "911," ID ",2,2\r\n", NOTEBOOK_REFUSED_MISSING, 2},
        {PIECE_2 LINE_1 MIXED_NAME "911," ID ",2,1\r\n", NOTEBOOK_REFUSED_FORM, 2},
    };
    struct bytes pieces = text(PIECE_2 "\x1a" PIECE_1 "\x1a");
    struct bytes file = text(LINE_1 CANONICAL_PATIENT MEMO);
    size_t i;
    join_gives(pieces, file);
    free(pieces.at);

    /* One piece without a record 911 is a file by itself, and is joined as it is spelled. */
    free(file.at);
    file = text(LINE_1 PATIENT MEMO);
    join_gives(file, file);
    free(file.at);

    for (i = 0; i < sizeof cases / sizeof cases[0]; i++) {
        pieces = text(cases[i].pieces);
        join_refuses(pieces, cases[i].refusal, cases[i].line);
        free(pieces.at);
    }
}

/* --- limits --- */

static void limits(void)
{
    /* With 8,186 memos the file has 65,524 bytes; one more of 12 bytes fills it. */
    struct bytes file = memos(8186);
    struct bytes pieces;
    uint32_t *numbers = memory(sizeof(uint32_t) * NOTEBOOK_INDEX_MAX);
    uint8_t *out = lend(NOTEBOOK_CUT_MAX);
    uint8_t *joined = lend(NOTEBOOK_JOIN_MAX);
    uint64_t capacity;
    struct notebook_reply r;

    file = add(file, "4,xxxxx,,2\r\n", 12);
    HOLD(file.length == NOTEBOOK_FILE_MAX);
    HOLD(result(notebook_check(file.at, file.length), 8188, 0, 0));
    HOLD(result(notebook_index(file.at, file.length, numbers, NOTEBOOK_INDEX_MAX), 8188, 0, 0));
    HOLD(numbers[7 * 8187] == 4 && numbers[7 * 8187 + 1] == 65524 && numbers[7 * 8187 + 2] == 10);
    HOLD(numbers[7 * 8187 + 6] == 0);
    HOLD(result(notebook_canonical(file.at, file.length, out, NOTEBOOK_CANONICAL_MAX), 65535, 0, 0));

    /* The smallest capacity that serves: as many pieces as there can be for this file. */
    capacity = 60;
    r = cut(file, capacity, ID, out, NOTEBOOK_CUT_MAX);
    while (r.refusal == NOTEBOOK_REFUSED_NO_CUTTING && capacity < 200) {
        capacity++;
        r = cut(file, capacity, ID, out, NOTEBOOK_CUT_MAX);
    }
    HOLD(r.refusal == 0 && 900 <= r.a && r.a <= NOTEBOOK_PIECE_COUNT_MAX && r.b <= NOTEBOOK_CUT_MAX);
    pieces = backwards(out, (size_t)r.b, 1);
    HOLD(pieces.length == r.b + r.a);
    HOLD(result(notebook_join(pieces.at, pieces.length, joined, NOTEBOOK_JOIN_MAX), 65535, 0, 0));
    HOLD(kept(joined, NOTEBOOK_JOIN_MAX, 65535));
    HOLD(result(notebook_canonical(file.at, file.length, out, NOTEBOOK_CANONICAL_MAX), 65535, 0, 0));
    HOLD(memcmp(out, joined, 65535) == 0);
    free(pieces.at);
    free(file.at);

    file = memos(16379);
    HOLD(file.length == 131068);
    join_refuses(file, NOTEBOOK_REFUSED_LARGE, 0);
    file = add(file, "4,x,", 4);
    HOLD(file.length == NOTEBOOK_PIECES_MAX);
    join_refuses(file, NOTEBOOK_REFUSED_LINE_END, 16382);
    file = add(file, ",", 1);
    join_refuses(file, NOTEBOOK_REFUSED_LARGE, 0);
    free(file.at);

    give_back(joined);
    give_back(out);
    free(numbers);
}

static void words(void)
{
    /* Document 01's table and document 02's 24, by number; no call gives 21 to 23. */
    static const char *const table[] = {
        "large",   "line end", "version", "character", "record", "piece",      "items", "empty",      "long", "edge",
        "form",    "pair",     "place",   "missing",   "RP",     "date order", "ID",    "no cutting", "set",  "short",
        "unknown", "unknown",  "unknown", "used",
    };
    uint64_t i;
    HOLD(sizeof table / sizeof table[0] == NOTEBOOK_REFUSED_USED);
    for (i = 1; i <= NOTEBOOK_REFUSED_USED; i++) {
        HOLD(strcmp(notebook_word(i), table[i - 1]) == 0);
    }
    HOLD(strcmp(notebook_word(NOTEBOOK_ACCEPTED), "ok") == 0);
    HOLD(strcmp(notebook_word(25), "unknown") == 0);
    HOLD(strcmp(notebook_word(UINT64_MAX), "unknown") == 0);
}

/* Whether the header's text, its number and the library's number are one version. */
static void version(void)
{
    unsigned major, minor, patch;
    char rest;
    HOLD(sscanf(NOTEBOOK_VERSION_STRING, "%u.%u.%u%c", &major, &minor, &patch, &rest) == 3);
    HOLD(major * 10000 + minor * 100 + patch == NOTEBOOK_VERSION_NUMBER);
    HOLD(notebook_version() == NOTEBOOK_VERSION_NUMBER);
}

int main(void)
{
    small_file();
    clinics();
    days();
    kana_names();
    cuttings();
    used_ids();
    refusals();
    sets();
    limits();
    words();
    version();
    printf("test.c: %u checks, %u differences\n", checks, differences);
    return differences != 0;
}
