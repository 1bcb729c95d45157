/*
 * How much stack each call takes: it runs in a thread whose stack is filled with a pattern, and what is no longer the pattern has been
 * used. Prints the most bytes of each call over its inputs, less what a thread takes that makes no call.
 */
#define _POSIX_C_SOURCE 200809L

#include <pthread.h>
#include <stdio.h>
#include <stdlib.h>
#include <string.h>

#include "notebook.h"

enum { STACK = 512 * 1024, PAINT = 0xa5 };

static uint8_t file[NOTEBOOK_PIECES_MAX + 1];
static size_t file_length;
static uint8_t pieces[NOTEBOOK_CUT_MAX];
static size_t pieces_length;
static uint32_t entries[NOTEBOOK_INDEX_MAX];
static uint8_t out[NOTEBOOK_CUT_MAX];
static uint64_t capacity;
static struct notebook_reply reply;

static const uint8_t id[] = "20261115000001";

/* A run of 10,000 used IDs, none of them the ID: all of it is searched. */
static uint8_t run[NOTEBOOK_ID_LENGTH * 10000];

static void *no_call(void *unused)
{
    memset(&reply, 0, sizeof reply);
    return unused;
}

static void *check(void *unused)
{
    reply = notebook_check(file, file_length);
    return unused;
}

static void *make_index(void *unused)
{
    reply = notebook_index(file, file_length, entries, NOTEBOOK_INDEX_MAX);
    return unused;
}

static void *canonical(void *unused)
{
    reply = notebook_canonical(file, file_length, out, sizeof out);
    return unused;
}

static void *cut(void *unused)
{
    reply = notebook_cut(file, file_length, capacity, id, NOTEBOOK_ID_LENGTH, run, sizeof run, out, sizeof out);
    return unused;
}

static void *join(void *unused)
{
    reply = notebook_join(pieces, pieces_length, out, sizeof out);
    return unused;
}

static size_t used(void *(*call)(void *))
{
    void *stack;
    uint8_t *low;
    pthread_attr_t attributes;
    pthread_t thread;
    size_t i = 0;
    if (posix_memalign(&stack, 4096, STACK) != 0) {
        exit(2);
    }
    low = stack;
    memset(stack, PAINT, STACK);
    if (pthread_attr_init(&attributes) != 0 || pthread_attr_setstack(&attributes, stack, STACK) != 0
        || pthread_create(&thread, &attributes, call, NULL) != 0 || pthread_join(thread, NULL) != 0) {
        exit(2);
    }
    while (i < STACK && low[i] == PAINT) {
        i++;
    }
    pthread_attr_destroy(&attributes);
    free(stack);
    return STACK - i;
}

static size_t add(const char *line)
{
    size_t length = strlen(line);
    memcpy(file + file_length, line, length);
    file_length += length;
    return length;
}

/*
 * The inputs: memos to the limit; groups with prescriptions to the limit; such groups, refused at the end; a file over the limit; memos to
 * the limit, refused in a group after them.
 */
static void memos(size_t limit)
{
    file_length = 0;
    add("JAHISTC04,2\r\n1,A,1,19890108,,,,,,,\r\n");
    while (file_length + 8 <= limit) {
        add("4,x,,2\r\n");
    }
}

static void groups(size_t limit)
{
    static const char group[] = "5,20160411,1\r\n11,P,13,4,1234567,105-0004,A,03,1\r\n15,N,,1\r\n51,H,13,1,7654321,1\r\n55,D,,1\r\n"
                                "201,001,X,0.25,g,2,610421321,1\r\n281,1,s,1\r\n291,1,c,1\r\n301,1,u,28,\x93\xfa\x95\xaa,1,1,,1\r\n"
                                "311,1,s,1\r\n391,1,n,1\r\n401,r,1\r\n411,i,30,1\r\n501,m,1\r\n601,p,H310501\r\n";
    file_length = 0;
    add("JAHISTC04,1\r\n1,\x8e\x52\x93\x63,2,S330303,105-0004,A,03-1234-5678,,,60.5,B\r\n");
    while (file_length + sizeof group <= limit) {
        add(group);
    }
}

static void used_ids(void)
{
    char next[NOTEBOOK_ID_LENGTH + 1];
    unsigned i;
    for (i = 0; i < sizeof run / NOTEBOOK_ID_LENGTH; i++) {
        sprintf(next, "20261115%06u", i + 2);
        memcpy(run + (size_t)NOTEBOOK_ID_LENGTH * i, next, NOTEBOOK_ID_LENGTH);
    }
}

static size_t most(size_t a, size_t b)
{
    return a < b ? b : a;
}

static size_t peak[5];

static void measure(size_t nothing)
{
    static void *(*const calls[])(void *) = {check, make_index, canonical, cut};
    size_t i;
    for (i = 0; i < 4; i++) {
        peak[i] = most(peak[i], used(calls[i]) - nothing);
    }
    printf("%6lu bytes, capacity %lu: ", (unsigned long)file_length, (unsigned long)capacity);
    if (reply.refusal != 0) {
        printf("refused, %s; joined as one piece: ", notebook_word(reply.refusal));
        memcpy(pieces, file, file_length < sizeof pieces ? file_length : sizeof pieces);
        pieces_length = file_length < sizeof pieces ? file_length : sizeof pieces;
    } else {
        printf("%lu piece%s, %lu bytes; joined: ", (unsigned long)reply.a, reply.a == 1 ? "" : "s", (unsigned long)reply.b);
        memcpy(pieces, out, sizeof pieces);
        pieces_length = (size_t)reply.b;
    }
    peak[4] = most(peak[4], used(join) - nothing);
    if (reply.refusal != 0) {
        printf("refused, %s\n", notebook_word(reply.refusal));
    } else {
        printf("%lu bytes\n", (unsigned long)reply.a);
    }
}

int main(void)
{
    static const char *const names[] = {"check", "index", "canonical", "cut", "join"};
    size_t nothing = used(no_call);
    size_t i;

    used_ids();
    memos(NOTEBOOK_FILE_MAX);
    for (capacity = 60; capacity < 200; capacity++) {
        cut(NULL);
        if (reply.refusal == 0) {
            break;
        }
    }
    measure(nothing);
    capacity = 20000;
    measure(nothing);
    capacity = UINT64_MAX;
    measure(nothing);
    groups(NOTEBOOK_FILE_MAX);
    measure(nothing);
    capacity = 1000;
    measure(nothing);
    add("601,p,\r\n601, p,\r\n");
    measure(nothing);
    memos(NOTEBOOK_FILE_MAX + 8);
    measure(nothing);
    memos(NOTEBOOK_FILE_MAX - 22);
    add("5,20160411,1\r\n601, p,\r\n");
    measure(nothing);

    printf("a thread without a call: %lu bytes of stack; besides these:\n", (unsigned long)nothing);
    for (i = 0; i < 5; i++) {
        printf("%-9s %6lu bytes\n", names[i], (unsigned long)peak[i]);
    }
    return 0;
}
