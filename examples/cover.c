/* Judges a FEDJEL by the day's cover requests, prints its code and its items', and writes a FEDSTA where one is asked for.

       cover FEDJEL REQUESTS DAY [ID COVER NUMBER TIME COUNT]

   FEDJEL is the message and REQUESTS the list, files of at most 999,999 bytes; DAY is the clearing day (yyyymmdd). ID is the identifier of
   the request whose FEDSTA comes last, COVER yes or no for the bank's own cover, NUMBER the FEDSTA's, TIME hhmmss, COUNT the accepted
   items of the order. A refusal is REFUSAL and its number, and exit status 1. Words that say something else and a file that can't be read
   are a line on standard error, and exit status 2. */
#include <inttypes.h>
#include <stdio.h>
#include <stdlib.h>
#include <string.h>

#include "nshanvekh.h"

#define FEDSTA_BYTES 104

static uint8_t message[1000000], requests[1000000], out[FEDSTA_BYTES];
static uint8_t table[sizeof message / 72];
static uint64_t numbers[NSH_FEDJEL_NUMBERS];

/* The number that the word is, or one that no call takes. */
static uint32_t number_in(const char *word)
{
    char *end;
    unsigned long value = strtoul(word, &end, 10);

    return word[0] >= '0' && word[0] <= '9' && *end == '\0' && value <= 99999999 ? (uint32_t)value : UINT32_MAX;
}

/* The file's bytes go to space; how many they are, or size where it can't be read whole. */
static size_t read_file(const char *name, uint8_t *space, size_t size)
{
    FILE *in = fopen(name, "rb");
    size_t got = in == NULL ? size : fread(space, 1, size, in);

    if (in != NULL && ferror(in))
        got = size;
    if (in != NULL)
        fclose(in);
    if (got == size)
        fprintf(stderr, "cover: %s can't be read, or is too long\n", name);
    return got;
}

static int refused(uint32_t number)
{
    printf("REFUSAL %" PRIu32 "\n", number);
    return 1;
}

int main(int argc, char **argv)
{
    size_t message_len, requests_len;
    uint32_t day, number;

    if (argc != 4 && (argc != 9 || strlen(argv[4]) != NSH_ID_BYTES || (strcmp(argv[5], "yes") != 0 && strcmp(argv[5], "no") != 0))) {
        fprintf(stderr, "cover FEDJEL REQUESTS DAY [ID COVER NUMBER TIME COUNT], ID of %d bytes, COVER yes or no\n", NSH_ID_BYTES);
        return 2;
    }
    message_len = read_file(argv[1], message, sizeof message);
    requests_len = read_file(argv[2], requests, sizeof requests);
    if (message_len == sizeof message || requests_len == sizeof requests)
        return 2;
    day = number_in(argv[3]);
    number = nsh_fedjel(message, message_len, day, requests, requests_len, table, sizeof table, numbers, NSH_FEDJEL_NUMBERS);
    if (number != NSH_DONE)
        return refused(number);
    printf("MESSAGE %02" PRIu64 "\n", numbers[0]);
    for (uint64_t k = 0; k < numbers[1]; k++)
        printf("ITEM %" PRIu64 " %02d\n", k + 1, table[k]);
    if (argc == 4)
        return 0;
    number = nsh_fedsta(message, message_len, day, requests, requests_len, (const uint8_t *)argv[4], NSH_ID_BYTES, strcmp(argv[5], "yes") == 0,
                        '0', number_in(argv[6]), number_in(argv[7]), number_in(argv[8]), out, sizeof out);
    if (number != NSH_DONE)
        return refused(number);
    fwrite(out, 1, sizeof out, stdout);
    return 0;
}
