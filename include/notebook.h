/*
 * The medication notebook gateway (JAHIS 15-106 version 2.1), for C99 and C++ on x86-64 Linux.
 *
 * Five calls on files: check, index, canonical, cut, join. Each returns a struct notebook_reply by value. If its refusal is 0, the call has
 * done what it says and a, b, c are its result; otherwise refusal and line say why it has not, and a, b, c are 0.
 *
 * Every call takes any bytes and any lengths. What it asks of the host:
 * - A pointer points to as many elements as the length after it says; numbers of an index are aligned as uint32_t is.
 * - Where a length is 0, the pointer is still a valid one, not NULL.
 * - An output does not overlap an input, and nobody else writes either of them during the call.
 *
 * A call reads its inputs and never writes them, writes only within its output, keeps no pointer, allocates nothing and has no state
 * of its own: any number of threads may be in it at once. No call needs more than 512 KiB of stack (docs/OPERATING.md has the figures).
 *
 * An output is written from its front. The bytes after a result are as they were; a refusal, whichever, leaves the whole output as it
 * was.
 */
#ifndef NOTEBOOK_H
#define NOTEBOOK_H

#include <stddef.h>
#include <stdint.h>

#ifdef __cplusplus
extern "C" {
#endif

/*
 * The version of this header: the major, the minor and the patch as text, and as major * 10000 + minor * 100 + patch. notebook_version
 * tells that of the library. A host should compare the two before other calls: a library of another version may take or fill otherwise
 * than is said here. The entries of an index grew with 0.4.0, and cut takes the used IDs from 0.5.0 on; from
 * 0.6.0 on the kana name of record 1 has to be in one script.
 */
#define NOTEBOOK_VERSION_STRING "0.6.1"
#define NOTEBOOK_VERSION_NUMBER 601

/* Limits. */
enum {
    NOTEBOOK_FILE_MAX = 65536,    /* bytes of a file, a final 1Ah included; a longer one is refused (NOTEBOOK_REFUSED_LARGE) */
    NOTEBOOK_PIECES_MAX = 131072, /* bytes of all pieces that are given to join together */
    NOTEBOOK_PIECE_COUNT_MAX = 999,
    NOTEBOOK_ID_LENGTH = 14 /* digits of an ID, and nothing else */
};

/* Outputs of these sizes are never too short (NOTEBOOK_REFUSED_SHORT is then not given). */
enum {
    NOTEBOOK_ENTRY_NUMBERS = 7,     /* numbers of a record in an index */
    NOTEBOOK_RECORDS_MAX = 8192,    /* no record is shorter than 8 bytes, its line end included */
    NOTEBOOK_INDEX_MAX = 7 * 8192,  /* numbers of an index, of 4 bytes each */
    NOTEBOOK_CANONICAL_MAX = 65536, /* bytes: a canonical file is never longer than the file */
    NOTEBOOK_CUT_MAX = 106482,      /* bytes: the records, and at most 41 more in each of 999 pieces */
    NOTEBOOK_JOIN_MAX = 65536       /* bytes: the joined file is within the limit of a file */
};

/*
 * Refusals. 1 to 16 are about a file, 19 about a set of pieces: the sender's. 17, 18, 20 and 24 are about what was asked, not about the
 * file: 17, 18 and 24 about the ID, the capacity and the used IDs that cut was given, 20 about the length of the output. The host mends
 * these, and the same file is then accepted. No call gives 21 to 23.
 */
enum {
    NOTEBOOK_ACCEPTED = 0,
    NOTEBOOK_REFUSED_LARGE = 1,       /* more bytes than the limit */
    NOTEBOOK_REFUSED_LINE_END = 2,    /* the rule of line ends is broken, or there is no line */
    NOTEBOOK_REFUSED_VERSION = 3,     /* line 1 is neither JAHISTC04,1 nor JAHISTC04,2 */
    NOTEBOOK_REFUSED_CHARACTER = 4,   /* a byte or a pair of bytes is no character */
    NOTEBOOK_REFUSED_RECORD = 5,      /* the record number is not listed */
    NOTEBOOK_REFUSED_PIECE = 6,       /* a record 911 in a whole file */
    NOTEBOOK_REFUSED_ITEMS = 7,       /* wrong number of items */
    NOTEBOOK_REFUSED_EMPTY = 8,       /* a required item is empty */
    NOTEBOOK_REFUSED_LONG = 9,        /* an item has too many bytes */
    NOTEBOOK_REFUSED_EDGE = 10,       /* an item begins or ends with a space, or is in quotes */
    NOTEBOOK_REFUSED_FORM = 11,       /* an item is not of its kind */
    NOTEBOOK_REFUSED_PAIR = 12,       /* two items, or an item and the group, do not agree */
    NOTEBOOK_REFUSED_PLACE = 13,      /* the record cannot stand here */
    NOTEBOOK_REFUSED_MISSING = 14,    /* a required record is missing in what this line or the end closes */
    NOTEBOOK_REFUSED_RP = 15,         /* the prescription's value is wrong */
    NOTEBOOK_REFUSED_DATE_ORDER = 16, /* a group is newer than the one before it */
    NOTEBOOK_REFUSED_ID = 17,         /* the ID is not 14 digits */
    NOTEBOOK_REFUSED_NO_CUTTING = 18, /* the file cannot be cut for this capacity */
    NOTEBOOK_REFUSED_SET = 19,        /* the pieces do not make a file */
    NOTEBOOK_REFUSED_SHORT = 20,      /* the output cannot hold the result */
    NOTEBOOK_REFUSED_USED = 24        /* the ID has been used, or the used IDs are not 14 bytes each */
};

/* The word of a refusal; "ok" for 0, and "unknown" for a number that no call gives. */
static inline const char *notebook_word(uint64_t refusal)
{
    static const char *const words[] = {
        "ok",      "large", "line end",   "version", "character",  "record", "piece", /* 0 to 6 */
        "items",   "empty", "long",       "edge",    "form",       "pair",   "place", /* 7 to 13 */
        "missing", "RP",    "date order", "ID",      "no cutting", "set",    "short", /* 14 to 20 */
        "unknown", "unknown", "unknown",  "used",                                     /* 21 to 24 */
    };
    return refusal < sizeof words / sizeof words[0] ? words[refusal] : "unknown";
}

/*
 * What a call returns.
 * refusal: 0, or one of the numbers above. line: the line of refusals 2 to 16, counted from 1; 14 at the end of a file has the count of
 * lines plus 1; 1, 17 to 20 and 24 have line 0. a, b, c: the call's result; what a call does not use is 0.
 */
struct notebook_reply {
    uint64_t refusal;
    uint64_t line;
    uint64_t a;
    uint64_t b;
    uint64_t c;
};

/*
 * Checks a file.
 * Result: a records after line 1, b groups (visits), c drugs (records 201). Refusals: 1 to 16.
 * There is no output.
 */
struct notebook_reply notebook_check(const uint8_t *file, size_t file_length);

/*
 * Writes the index of a file, seven numbers for each record in the file's order: record number; offset of its line in the file, from 0; its
 * bytes without the line end; ordinal of its group, 0 outside groups; for 201 to 391 the line of the last 55 before it in its group (the
 * doctor), or 0; for 281 and 291 the line of the last 201 before it (the drug), or 0; from the group's 51 on, itself included, the line of
 * that 51 (the clinic), or 0 where none has yet stood in the group, and outside groups. out_length counts numbers, not bytes.
 * Result: a records; out[0] to out[7 * a - 1] are the index, the numbers after them are as they were.
 * Refusals: 1 to 16; then 20 if out_length is less than seven times the records. out is as it was.
 */
struct notebook_reply notebook_index(const uint8_t *file, size_t file_length, uint32_t *out, size_t out_length);

/*
 * Writes the canonical file: days in the form of the newest era that has begun, postal codes without hyphen, RP numbers and quantities
 * without leading zeros, no 1Ah; all else as in the file.
 * Result: a bytes; the first a bytes of out are the canonical file, those after them are as they were.
 * Refusals: 1 to 16; then 20 if out is shorter than the canonical file. out is as it was.
 */
struct notebook_reply notebook_canonical(const uint8_t *file, size_t file_length, uint8_t *out, size_t out_length);

/*
 * Cuts the canonical file into the fewest pieces of at most capacity bytes. If it fits whole, it is the only piece, without a record 911;
 * otherwise each of the 2 to 999 pieces ends with 911, the ID, their count and its place.
 * used is the run of the IDs that have been used: 14 bytes each, one after another from its start, with nothing between them, in any
 * order and of any number. They are compared with the ID as bytes, and need not be digits; the ID across two of them is not in the run.
 * used_length counts bytes, and is 0 where no ID has been used. Pieces of two cuttings with one ID can be confused: a host gives every ID
 * that it has cut with before, and keeps the new one with them.
 * Result: a pieces, b bytes of all pieces; the first b bytes of out are the pieces, one after another, each beginning with the file's
 * line 1; the bytes after them are as they were.
 * Refusals: 1 to 16; then 17 if the ID is not 14 digits; then 24 if used_length is not a multiple of 14 or one of the used IDs is the ID;
 * then 18 if there is no such cutting; then 20 if out is shorter than the pieces. 17 and 24 come also where no record 911 is needed. out is
 * as it was.
 */
struct notebook_reply notebook_cut(const uint8_t *file, size_t file_length, uint64_t capacity, const uint8_t *id, size_t id_length,
                                   const uint8_t *used, size_t used_length, uint8_t *out, size_t out_length);

/*
 * Joins pieces that lie one after another in any order, with or without a 1Ah after each, and checks the joined file.
 * Result: a bytes; the first a bytes of out are the joined file, without records 911 and 1Ah, and those after them are as they were. Items
 * are spelled as in the pieces: those that cut wrote join to the canonical file.
 * Refusals: 1 and 2 on the pieces, with the line counted over all of them; then 19 if they are not one whole set; then 1 to 16 on the
 * joined file, with its line; then 20 if out is shorter than the joined file. out is as it was.
 */
struct notebook_reply notebook_join(const uint8_t *pieces, size_t pieces_length, uint8_t *out, size_t out_length);

/* The version of the library, counted as NOTEBOOK_VERSION_NUMBER is. */
uint64_t notebook_version(void);

#ifdef __cplusplus
}
#endif

#endif
