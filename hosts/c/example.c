/*
 * example [FILE [CAPACITY]]: checks a file, lists its drugs, makes it canonical, cuts it into pieces for a capacity, shuffles them and
 * joins them back. Ends with 0; with 1 where the gateway refuses the file; with 2 where the file cannot be read or the answer not written,
 * or the library is of another version than its header.
 */
#include <inttypes.h>
#include <stdio.h>
#include <stdlib.h>
#include <string.h>

#include "notebook.h"

/* One byte more than the limit is read, which is enough to refuse a longer file. */
static uint8_t file[NOTEBOOK_FILE_MAX + 1];
static uint32_t entries[NOTEBOOK_INDEX_MAX];
static uint8_t canonical[NOTEBOOK_CANONICAL_MAX];
static uint8_t pieces[NOTEBOOK_CUT_MAX];
static uint8_t shuffled[NOTEBOOK_CUT_MAX];
static uint8_t joined[NOTEBOOK_JOIN_MAX];

static const uint8_t id[] = "20261115000001";

/* The IDs that were used before, one after another. A host keeps them, and adds the new one before it hands out a piece. */
static const uint8_t used[] = "20261113000001"
                              "20261114000001";

static int refuse(const char *call, struct notebook_reply r)
{
    printf("%s: refused, %" PRIu64 " (%s), line %" PRIu64 "\n", call, r.refusal, notebook_word(r.refusal), r.line);
    return 1;
}

/* Where the piece that begins at a position ends: at the next line 1, or at the end of all. */
static size_t piece_end(size_t at, size_t length)
{
    size_t end = at + 1;
    while (end < length && !(pieces[end - 1] == '\n' && 10 <= length - end && memcmp(pieces + end, "JAHISTC04,", 10) == 0)) {
        end++;
    }
    return end;
}

/* Copies the pieces of even or of odd place after what is shuffled already. */
static size_t every_second(unsigned odd, size_t length, size_t to)
{
    size_t at = 0;
    unsigned place = 1;
    while (at < length) {
        size_t end = piece_end(at, length);
        if (place % 2 == odd) {
            memcpy(shuffled + to, pieces + at, end - at);
            to += end - at;
        }
        at = end;
        place++;
    }
    return to;
}

/* The ending of a word after its count: 1 group, 2 groups. */
static const char *s(uint64_t count)
{
    return count == 1 ? "" : "s";
}

/* The bytes read, at most one more than the limit; or says what failed and ends. */
static size_t read_file(const char *name)
{
    FILE *input = fopen(name, "rb");
    size_t length = input == NULL ? 0 : fread(file, 1, sizeof file, input);
    if (input == NULL || ferror(input)) {
        perror(name);
        exit(2);
    }
    fclose(input);
    return length;
}

static void list_drugs(uint64_t records)
{
    uint64_t i;
    for (i = 0; i < records; i++) {
        const uint32_t *entry = entries + NOTEBOOK_ENTRY_NUMBERS * i;
        if (entry[0] == 201) {
            printf("index: a drug in line %" PRIu64 ", bytes %" PRIu32 " to %" PRIu32 ", group %" PRIu32 ", doctor's line %" PRIu32
                   ", clinic's line %" PRIu32 "\n",
                   i + 2, entry[1], entry[1] + entry[2], entry[3], entry[4], entry[6]);
        }
    }
}

/* Cuts into pieces for the capacity, shuffles them and joins them to the canonical file of so many bytes. */
static int cut_and_join(size_t length, uint64_t capacity, size_t bytes)
{
    struct notebook_reply r =
        notebook_cut(file, length, capacity, id, NOTEBOOK_ID_LENGTH, used, sizeof used - 1, pieces, sizeof pieces);
    if (r.refusal != NOTEBOOK_ACCEPTED) {
        return refuse("cut", r);
    }
    printf("cut: %" PRIu64 " piece%s of at most %" PRIu64 " byte%s, %" PRIu64 " bytes in all\n", r.a, s(r.a), capacity, s(capacity), r.b);

    length = every_second(0, (size_t)r.b, 0);
    length = every_second(1, (size_t)r.b, length);
    r = notebook_join(shuffled, length, joined, sizeof joined);
    if (r.refusal != NOTEBOOK_ACCEPTED) {
        return refuse("join", r);
    }
    printf("join: %" PRIu64 " bytes, %s the canonical file\n", r.a,
           r.a == bytes && memcmp(joined, canonical, bytes) == 0 ? "equal to" : "NOT EQUAL TO");
    return 0;
}

static int visit(size_t length, uint64_t capacity)
{
    struct notebook_reply r = notebook_check(file, length);
    if (r.refusal != NOTEBOOK_ACCEPTED) {
        return refuse("check", r);
    }
    printf("check: %" PRIu64 " record%s, %" PRIu64 " group%s, %" PRIu64 " drug%s\n", r.a, s(r.a), r.b, s(r.b), r.c, s(r.c));

    r = notebook_index(file, length, entries, NOTEBOOK_INDEX_MAX);
    if (r.refusal != NOTEBOOK_ACCEPTED) {
        return refuse("index", r);
    }
    list_drugs(r.a);

    r = notebook_canonical(file, length, canonical, sizeof canonical);
    if (r.refusal != NOTEBOOK_ACCEPTED) {
        return refuse("canonical", r);
    }
    printf("canonical: %" PRIu64 " bytes, from %lu\n", r.a, (unsigned long)length);
    return cut_and_join(length, capacity, (size_t)r.a);
}

int main(int count, char **words)
{
    size_t length;
    int status;
    if (notebook_version() != NOTEBOOK_VERSION_NUMBER) {
        fprintf(stderr, "the library is of version %" PRIu64 ", its header of %d\n", notebook_version(), NOTEBOOK_VERSION_NUMBER);
        return 2;
    }
    length = read_file(1 < count ? words[1] : "samples/visit.csv");
    status = visit(length, 2 < count ? strtoull(words[2], NULL, 10) : 160);
    if (fflush(stdout) != 0 || ferror(stdout)) {
        perror("standard output");
        return 2;
    }
    return status;
}
