/* Feeds a message to the judge in pieces and prints the slip's five lines.

       feed FILE SIZE DAY [BANK ..] [barred CODE ..]

   FILE is the message, SIZE the bytes of a piece, DAY the clearing day (yyyymmdd), each BANK a number of the bank list, ascending, and each
   CODE one of the barred list, ascending too: the three digits of a bank that may not pay, so that no item of its ATUTAL is accepted. No
   identifier counts as known. A refusal is REFUSAL and its number, as the program slip prints it, and exit status 1. Words that say
   something else and a file that can't be read are a line on standard error, and exit status 2. */
#include <inttypes.h>
#include <stdio.h>
#include <stdlib.h>
#include <string.h>

#include "nshanvekh.h"

#define BANKS 4096
#define BARRED 1000
#define EIGHT_DIGITS 99999999
#define THREE_DIGITS 999

static uint8_t session[NSH_SESSION_BYTES];
static uint8_t table[NSH_TABLE_MOST];
static uint8_t piece[65536];
static uint32_t banks[BANKS], barred[BARRED];
static size_t banks_len, barred_len;
static uint64_t numbers[NSH_CLOSING_NUMBERS];
static uint8_t id[NSH_ID_BYTES];

/* Whether the word is a decimal number of at most most, which is then in number. */
static int is_number(const char *word, unsigned long most, uint32_t *number)
{
    char *end;
    unsigned long value = strtoul(word, &end, 10);

    if (word[0] < '0' || word[0] > '9' || *end != '\0' || value > most)
        return 0;
    *number = (uint32_t)value;
    return 1;
}

/* Whether the words after DAY are numbers that fit: those of the bank list and, after the word barred, of the barred list. */
static int take_lists(char **words)
{
    for (; *words != NULL && strcmp(*words, "barred") != 0; words++)
        if (banks_len == BANKS || !is_number(*words, EIGHT_DIGITS, &banks[banks_len++]))
            return 0;
    if (*words != NULL)
        while (*++words != NULL)
            if (barred_len == BARRED || !is_number(*words, THREE_DIGITS, &barred[barred_len++]))
                return 0;
    return 1;
}

/* The whole file is judged: 0, or the number of the refusal. */
static uint32_t judge(FILE *in, size_t size, uint32_t day)
{
    static const uint8_t none[1] = { 0 };
    uint32_t number = nsh_open(day, table, sizeof table, session, sizeof session);
    size_t got;

    while (number == NSH_DONE && (got = fread(piece, 1, size, in)) > 0)
        number = nsh_piece(session, sizeof session, piece, got, banks, banks_len, none, 0, barred, barred_len, table, sizeof table);
    if (number == NSH_DONE)
        number = nsh_close(session, sizeof session, numbers, NSH_CLOSING_NUMBERS, id, sizeof id);
    return number;
}

static int print(uint32_t number)
{
    if (number != NSH_DONE) {
        printf("REFUSAL %" PRIu32 "\n", number);
        return 1;
    }
    printf("KIND %s\n", numbers[6] == NSH_MESSAGE_BESZED ? "BESZED" : "ATUTAL");
    printf("MESSAGE %02" PRIu64 "\n", numbers[0]);
    printf("ACCEPTED %" PRIu64 " %" PRIu64 "\n", numbers[1], numbers[2]);
    printf("REFUSED %" PRIu64 " %" PRIu64 "\n", numbers[3], numbers[4]);
    printf("ZERO %" PRIu64 "\n", numbers[5]);
    return 0;
}

static int usage(void)
{
    fprintf(stderr,
            "feed FILE SIZE DAY [BANK ..] [barred CODE ..], SIZE from 1 to %zu, DAY and at most %d BANKs of up to eight digits, "
            "at most %d CODEs of up to three\n",
            sizeof piece, BANKS, BARRED);
    return 2;
}

int main(int argc, char **argv)
{
    uint32_t size, day, number;
    FILE *in;

    if (argc < 4 || !is_number(argv[2], sizeof piece, &size) || size == 0 || !is_number(argv[3], EIGHT_DIGITS, &day) || !take_lists(argv + 4))
        return usage();
    in = fopen(argv[1], "rb");
    if (in == NULL) {
        perror(argv[1]);
        return 2;
    }
    number = judge(in, size, day);
    if (ferror(in)) {
        perror(argv[1]);
        return 2;
    }
    fclose(in);
    return print(number);
}
