/* Measures the stack that each call takes, on real messages, and sees that the calls agree about them.

       stack FEDJEL REQUESTS FILE ..

   Each FILE is a message of either kind for the day and the banks of samples/, whose head and first item are right. It is judged with no bank
   barred and then with all of them. FEDJEL has code 00 by the requests in REQUESTS, on the same day. Each has under 65,536 bytes. A call runs
   on a stack of its own that is painted beforehand: as deep as the paint is gone, so much did the call take, with the few bytes of the functions
   that make it. The most of each call over all files is printed. Exit status 1, with a line on standard error, where a call gives another
   answer than it should or takes more stack than the header says; 2 where a file isn't named or can't be read. */
#define _XOPEN_SOURCE 700
#include <stdio.h>
#include <stdlib.h>
#include <string.h>
#include <ucontext.h>

#include "nshanvekh.h"

#define DAY 20200310
#define NUMBER 7
#define TIME 83000
#define HEAD 174
#define ITEM 249
#define COUNT 3
#define REQUEST 65
#define FEDJEL_HEAD 34
#define FEDJEL_ITEM 72
#define BANKS 4096
#define BARRED 1000
#define PAINT 0xA5

enum { OPEN, PIECE, CLOSE, JUDGE, SINGLE, REPLY, READ, FEDJEL, FEDSTA, CALLS };

/* What the calls are lent. */
static uint8_t message[65536], session[NSH_SESSION_BYTES], table[NSH_TABLE_MOST], out[65536], id[NSH_ID_BYTES], other_id[NSH_ID_BYTES];
static uint8_t known[1000 * NSH_ID_BYTES], requests[65536];
static uint32_t banks[BANKS], barred[BARRED];
static uint64_t closed[NSH_CLOSING_NUMBERS], judged[NSH_CLOSING_NUMBERS], replied[NSH_REPLY_NUMBERS], status[NSH_STATUS_NUMBERS];
static uint64_t covered[NSH_FEDJEL_NUMBERS];
static size_t message_len, requests_len, barred_len;

/* A piece, a request, or a single record, its place and its message's kind. */
static const uint8_t *part;
static size_t part_len;
static uint32_t place, kind;

/* The painted stack, the call that is made on it, what the call answers, and the most that each call took. */
static uint8_t stack[4 * NSH_STACK_BYTES];
static ucontext_t outside, inside;
static int call;
static uint32_t answer;
static size_t most[CALLS];

static const char *const names[CALLS] = { "nsh_open",  "nsh_piece",       "nsh_close",  "nsh_judge", "nsh_single",
                                          "nsh_reply", "nsh_read_status", "nsh_fedjel", "nsh_fedsta" };

/* What the call answers. */
static uint32_t called(void)
{
    switch (call) {
    case OPEN:
        return nsh_open(DAY, table, sizeof table, session, sizeof session);
    case PIECE:
        return nsh_piece(session, sizeof session, part, part_len, banks, BANKS, known, sizeof known, barred, barred_len, table, sizeof table);
    case CLOSE:
        return nsh_close(session, sizeof session, closed, NSH_CLOSING_NUMBERS, id, sizeof id);
    case JUDGE:
        return nsh_judge(message, message_len, DAY, banks, BANKS, known, sizeof known, barred, barred_len, table, sizeof table, judged,
                         NSH_CLOSING_NUMBERS, other_id, sizeof other_id);
    case SINGLE:
        return nsh_single(part, part_len, DAY, banks, BANKS, known, sizeof known, place, kind);
    case REPLY:
        return nsh_reply(message, message_len, DAY, banks, BANKS, known, sizeof known, barred, barred_len, '0', NUMBER, TIME, out, sizeof out,
                         replied, NSH_REPLY_NUMBERS);
    case READ:
        return nsh_read_status(out, (size_t)replied[0], table, sizeof table, status, NSH_STATUS_NUMBERS, other_id, sizeof other_id);
    case FEDJEL:
        return nsh_fedjel(message, message_len, DAY, requests, requests_len, table, sizeof table, covered, NSH_FEDJEL_NUMBERS);
    default:
        return nsh_fedsta(message, message_len, DAY, requests, requests_len, part, NSH_ID_BYTES, 1, '0', NUMBER, TIME, COUNT, out, sizeof out);
    }
}

/* What runs on the painted stack. */
static void enter(void)
{
    answer = called();
}

static void hold(int right, const char *what)
{
    if (!right) {
        fprintf(stderr, "stack: %s: another answer than it should be\n", what);
        exit(1);
    }
}

/* The stack is painted, and the call made on it. */
static void run_on_paint(void)
{
    memset(stack, PAINT, sizeof stack);
    getcontext(&inside);
    inside.uc_stack.ss_sp = stack;
    inside.uc_stack.ss_size = sizeof stack;
    inside.uc_link = &outside;
    makecontext(&inside, enter, 0);
    swapcontext(&outside, &inside);
}

/* A call is made and measured; its answer has to be the right one. */
static void make(int which, uint32_t right)
{
    size_t clean = 0;

    call = which;
    run_on_paint();
    while (clean < sizeof stack && stack[clean] == PAINT)
        clean++;
    if (sizeof stack - clean > most[which])
        most[which] = sizeof stack - clean;
    hold(answer == right, names[which]);
}

/* A session: the message by pieces of a size. */
static void judge_by_pieces(size_t size)
{
    make(OPEN, NSH_DONE);
    for (size_t at = 0; at < message_len; at += part_len) {
        part = message + at;
        part_len = message_len - at < size ? message_len - at : size;
        make(PIECE, NSH_DONE);
    }
    make(CLOSE, NSH_DONE);
}

/* A record of the message alone, at place k, by the kind that closing gave. */
static void judge_singly(size_t from, size_t len, uint32_t k, uint32_t right)
{
    part = message + from;
    part_len = len;
    place = k;
    kind = (uint32_t)closed[6];
    make(SINGLE, right);
}

/* The message by the first seven calls. */
static void judge_all_ways(void)
{
    judge_by_pieces(1);
    judge_by_pieces(100);
    judge_by_pieces(sizeof message);
    make(JUDGE, NSH_DONE);
    hold(memcmp(judged, closed, sizeof closed) == 0 && memcmp(other_id, id, sizeof id) == 0, "nsh_judge beside nsh_close");
    judge_singly(0, HEAD, 0, NSH_DONE);
    judge_singly(HEAD + 2, ITEM, 1, NSH_DONE);
    judge_singly(HEAD + 2, ITEM, 2, 100 * NSH_FIELD_ITEM_NUMBER + NSH_KIND_OUT_OF_ORDER);
    make(REPLY, NSH_DONE);
    make(READ, NSH_DONE);
    hold(memcmp(other_id, id, sizeof id) == 0 && status[0] == '0' && status[1] == DAY && status[2] == NUMBER && status[3] == TIME &&
             status[4] == closed[0] && memcmp(status + 5, closed + 1, 4 * sizeof closed[0]) == 0,
         "nsh_read_status beside nsh_close");
}

/* The message with no bank barred and with all of them. The bar refuses every item of an ATUTAL with 14 and alters nothing else (02 #105). */
static void judge_without_and_under_bar(void)
{
    uint64_t wanted[NSH_CLOSING_NUMBERS];

    barred_len = 0;
    judge_all_ways();
    memcpy(wanted, closed, sizeof closed);
    if (closed[6] == NSH_MESSAGE_ATUTAL) {
        wanted[1] = wanted[2] = wanted[5] = 0;
        wanted[3] = closed[1] + closed[3];
        wanted[4] = closed[2] + closed[4];
    }
    barred_len = BARRED;
    judge_all_ways();
    hold(memcmp(closed, wanted, sizeof closed) == 0, "nsh_close under a bar");
    for (size_t k = 0; k < status[9]; k++)
        hold(table[k] == 14 || closed[6] != NSH_MESSAGE_ATUTAL, "an item's code under a bar");
}

/* Whether an item with code 0 has the identifier. */
static int stands(const uint8_t *request)
{
    for (size_t k = 0; k < covered[1]; k++)
        if (table[k] == 0 && memcmp(message + FEDJEL_HEAD + FEDJEL_ITEM * k + 2, request, NSH_ID_BYTES) == 0)
            return 1;
    return 0;
}

/* The FEDJEL, and a FEDSTA for each request: refused with 13 exactly where no answer stands. */
static void judge_cover(void)
{
    make(FEDJEL, NSH_DONE);
    hold(covered[0] == 0, "nsh_fedjel's code");
    for (part = requests; part < requests + requests_len; part += REQUEST) {
        make(FEDSTA, stands(part) ? NSH_DONE : NSH_STANDING);
        hold(answer != NSH_DONE || memcmp(out + 9, part, NSH_ID_BYTES) == 0, "nsh_fedsta's identifier");
    }
}

/* The file's bytes go to space of 65,536; how many they are. */
static size_t read_whole(const char *name, uint8_t *space)
{
    FILE *in = fopen(name, "rb");
    size_t got = in == NULL ? 0 : fread(space, 1, 65536, in);

    if (in == NULL || !feof(in)) {
        fprintf(stderr, "stack: %s can't be read whole\n", name);
        exit(2);
    }
    fclose(in);
    return got;
}

/* What each call took is printed and held to the header's bound. */
static int told(void)
{
    int over = 0;

    for (int i = 0; i < CALLS; i++) {
        size_t bound = i == REPLY ? NSH_STACK_BYTES : NSH_STACK_BYTES / 3;

        printf("%s %zu\n", names[i], most[i]);
        if (most[i] > bound) {
            fprintf(stderr, "stack: %s takes more than %zu bytes\n", names[i], bound);
            over = 1;
        }
    }
    return over;
}

int main(int argc, char **argv)
{
    static const uint32_t own[] = { 12345676, 16000009, 61000009 };

    if (argc < 4) {
        fprintf(stderr, "stack FEDJEL REQUESTS FILE ..\n");
        return 2;
    }
    for (uint32_t i = 0; i < BANKS; i++)
        banks[i] = i < BANKS - 3 ? i : own[i - (BANKS - 3)];
    for (uint32_t i = 0; i < BARRED; i++)
        barred[i] = i;
    for (int i = 3; i < argc; i++) {
        message_len = read_whole(argv[i], message);
        judge_without_and_under_bar();
    }
    message_len = read_whole(argv[1], message);
    requests_len = read_whole(argv[2], requests);
    judge_cover();
    return told();
}
