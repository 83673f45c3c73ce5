/* Nshanvekh: the judge of ATUTAL and BESZED messages, and of banks' cover answers (FEDJEL), for hosts in C.

   Link libnshanvekh.a, which `rt lib` in crates/nshanvekh_c writes as out/libnshanvekh_c.a. The library has no memory of its own, no
   heap and no input or output: all that it reads and writes is lent for the length of a call. Of C's library it uses memcpy and memset.

   A slice is two arguments, a pointer and a count of elements. The pointer is not null, also where the count is 0, and is aligned
   for its type. Memory that a call may write (a pointer without const) overlaps no other memory of the same call.

   Each call returns 0, or the number of its refusal, unless said otherwise. Refusals come in the order in which a call lists them.
   A refused call alters nothing that was lent, but for what is said at nsh_open, nsh_close and nsh_judge. The proofs determine every
   lent element for all arguments, refused ones too. */
#ifndef NSHANVEKH_H
#define NSHANVEKH_H

#include <stddef.h>
#include <stdint.h>

#ifdef __cplusplus
extern "C" {
#endif

/* Sizes of buffers, in elements. Buffers of another size are refused with NSH_SIZE before anything else. */
#define NSH_SESSION_BYTES 344  /* session: uint8_t */
#define NSH_CLOSING_NUMBERS 7  /* numbers of nsh_close and nsh_judge: uint64_t */
#define NSH_REPLY_NUMBERS 1    /* numbers of nsh_reply: uint64_t */
#define NSH_STATUS_NUMBERS 10  /* numbers of nsh_read_status: uint64_t */
#define NSH_FEDJEL_NUMBERS 2   /* numbers of nsh_fedjel: uint64_t */
#define NSH_ID_BYTES 25        /* id: uint8_t */

/* The most bytes of a code table, one for each item; nsh_read_status and nsh_fedjel take a table of any length. */
#define NSH_TABLE_MOST 10000

/* The bytes of stack to leave for a call; a third of them is enough for all but nsh_reply, which keeps 10,000 codes there. This is
   measured on real messages (examples/stack.c), with room to spare, and not proved: the proofs are about a machine whose stack has no
   end. Not counted is what a dynamic loader takes that binds memcpy and memset, the two functions that the library calls, at the first
   call of each: it differs by processor, and 10,872 bytes were met. A program linked with -z now has them bound before it starts. */
#define NSH_STACK_BYTES 16384

/* Refusals. */
#define NSH_DONE 0
#define NSH_DAY 1          /* the clearing day isn't a date */
#define NSH_BANKS 2        /* the bank list isn't strictly ascending, or holds a number over 99,999,999 */
#define NSH_KNOWN 3        /* the known list's length isn't a multiple of 25 */
#define NSH_TABLE 4        /* at opening the table exceeds 10,000 bytes; later its length isn't that of the opening */
#define NSH_SESSION 5      /* the session was closed, never opened, or its bytes are those of none */
#define NSH_OVERFLOW 6     /* more items than the table has bytes, or in a reply than 10,000, before any break */
#define NSH_ADDRESS 7      /* the message has under 34 bytes, or its positions 10-34 hold a byte outside 20h-7Eh */
#define NSH_PARTICULARS 8  /* duplicate code not '0' or '@', number over 9999, time not 000000 to 235959, or in a FEDSTA count over 999,999 */
#define NSH_ROOM 9         /* the output is shorter than the reply or the FEDSTA, or the table than the references or a FEDJEL's items */
#define NSH_MALFORMED 10   /* the bytes aren't a STATUS message; a single record isn't 174 or 249 bytes */
#define NSH_REQUESTS 11    /* the requests aren't of 65 bytes each, a sum isn't digits, or an identifier comes twice */
#define NSH_NOT_FEDJEL 12  /* the message's lengths or endings aren't a FEDJEL's */
#define NSH_STANDING 13    /* no such request, no standing answer to it, or answer 1 and a bank without cover */
#define NSH_BARRED 15      /* the barred list isn't strictly ascending, or holds a number over 999 */
#define NSH_SIZE 99        /* a session, numbers or id buffer has another size than above */

/* Kinds of message. A message whose head, 174 bytes with its right ending, has BESZED in its positions 3-8 is BESZED; any other is
   ATUTAL, the empty one and one that breaks in its head too. */
#define NSH_MESSAGE_ATUTAL 0
#define NSH_MESSAGE_BESZED 1

/* What the calls are given:
   day     the clearing day as a number, yyyymmdd
   banks   the bank list, numbers of at most eight digits, strictly ascending
   known   the identifiers already seen, 25 bytes each, end to end
   barred  the barred list, the codes of banks under a payment bar: numbers of at most three digits, strictly ascending (5 is bank code 005)
   table   the code table: the k-th item's code goes to byte k as a number, 0 where the item is accepted; other bytes stay
   A list may be empty. */

/* A bar (02 #105). The bank list says which banks there are, the barred list which of them may not pay. The head bank of an ATUTAL is barred
   where the head is there with its right ending, its positions 35-42 are eight digits and the number in 35-37 is on the barred list; its check
   digit and the bank list don't matter for that. Such a message is refused item by item: every code that goes to the table is 14, in place of
   0 too (002 section 1.3.1). The message code is what it is without the bar, and a bank that isn't in the bank list still a fault of code 1;
   with message code 0 the accepted count and sum and the zero watch are 0, and the refused count and sum are those of all items. BESZED knows
   no bar, though a call refuses a wrong barred list with it too. */

/* A session is opened: refusals 99, 1, 4. Only the table's length counts here. The session is written over the whole buffer; after
   refusals 1 and 4 the buffer holds a closed session, which each call refuses with 5. After 99 it is as it was. */
uint32_t nsh_open(uint32_t day, const uint8_t *table, size_t table_len, uint8_t *session, size_t session_len);

/* The next piece of the message, of any length: refusals 99, 5, 2, 3, 15, 4. The buffer then holds the session to use next, and the table
   the codes of the items that were completed. The table is as long as at opening; the same lists come with each piece. Whether the head's
   bank is barred the session learns once, by the barred list of the piece that brings the last byte of the head's ending, and keeps it. */
uint32_t nsh_piece(uint8_t *session, size_t session_len, const uint8_t *bytes, size_t bytes_len, const uint32_t *banks, size_t banks_len,
                   const uint8_t *known, size_t known_len, const uint32_t *barred, size_t barred_len, uint8_t *table, size_t table_len);

/* The message is over: refusals 99, 5, 6. numbers: message code, accepted count, accepted sum, refused count, refused sum, zero watch
   (accepted items whose account is all zeros), kind of message; with a code other than 0 the five after the code are 0, and the kind is
   given with every code. id: the message's positions 10-34, spaces unless a head with its right ending was read. The buffer then holds a
   closed session. 6 closes the session too, and leaves numbers and id as they were. */
uint32_t nsh_close(uint8_t *session, size_t session_len, uint64_t *numbers, size_t numbers_len, uint8_t *id, size_t id_len);

/* A whole message at once: refusals 99, 1, 4, 2, 3, 15, 6. numbers and id as in nsh_close. With 6 the codes of the items that had a byte
   are in the table; numbers and id are as they were. */
uint32_t nsh_judge(const uint8_t *message, size_t message_len, uint32_t day, const uint32_t *banks, size_t banks_len, const uint8_t *known,
                   size_t known_len, const uint32_t *barred, size_t barred_len, uint8_t *table, size_t table_len, uint64_t *numbers,
                   size_t numbers_len, uint8_t *id, size_t id_len);

/* A single head (174 bytes) or item (249), without its ending. place is the number that an item has to carry, kind the kind of the message
   that it comes from: 1 is BESZED, any other number ATUTAL. A head takes any place and any kind; its positions 3-8 tell its own.
   Returns 0 where the record is accepted; below 100 a refusal: 1, 2, 3, 10; else 100 x the field's number + that of the kind of fault. A
   bad letter comes first, then the fields in order, and in a field the first kind. A single record knows no bar. */
uint32_t nsh_single(const uint8_t *record, size_t record_len, uint32_t day, const uint32_t *banks, size_t banks_len, const uint8_t *known,
                    size_t known_len, uint32_t place, uint32_t kind);

/* Fields, answer / 100. */
#define NSH_FIELD_TYPE 1
#define NSH_FIELD_MESSAGE_TYPE 2
#define NSH_FIELD_DUPLICATE_CODE 3
#define NSH_FIELD_INITIATOR 4
#define NSH_FIELD_IDENTIFIER 5
#define NSH_FIELD_DATE 6
#define NSH_FIELD_NUMBER 7
#define NSH_FIELD_BANK 8
#define NSH_FIELD_ACCOUNT 9
#define NSH_FIELD_DEBIT_DATE 10
#define NSH_FIELD_PURPOSE 11
#define NSH_FIELD_NAME 12
#define NSH_FIELD_REMARK 13
#define NSH_FIELD_ITEM_NUMBER 14
#define NSH_FIELD_AMOUNT 15
#define NSH_FIELD_CUSTOMER_ID 16
#define NSH_FIELD_ADDRESS 17
#define NSH_FIELD_OWNER 18
#define NSH_FIELD_DUE_DATE 19

/* Kinds of fault, answer % 100. */
#define NSH_KIND_LETTER 1
#define NSH_KIND_MARK 2
#define NSH_KIND_FORM 3
#define NSH_KIND_NOT_DIGITS 4
#define NSH_KIND_CHECK_DIGIT 5
#define NSH_KIND_NO_DATE 6
#define NSH_KIND_OUTSIDE_DAYS 7
#define NSH_KIND_NOT_LISTED 8
#define NSH_KIND_KNOWN 9
#define NSH_KIND_BLANK_OR_ZERO 10
#define NSH_KIND_OUT_OF_ORDER 11
#define NSH_KIND_OTHER 12
/* An account's own: the first eight bytes aren't digits; the last eight are neither digits nor spaces; the check digit over the eight
   digits before eight spaces, over sixteen digits. The first two of these four stand in order after FORM, the others after CHECK_DIGIT. */
#define NSH_KIND_FORM_OF_FIRST_EIGHT 13
#define NSH_KIND_FORM_OF_LAST_EIGHT 14
#define NSH_KIND_CHECK_DIGIT_OVER_EIGHT 15
#define NSH_KIND_CHECK_DIGIT_OVER_SIXTEEN 16

/* The STATUS reply to a whole message goes to the front of out: refusals 99, 1, 2, 3, 15, 6, 7, 8, 9. numbers[0] is its length, 104 bytes
   or 104 + 65 for each item; bytes of out beyond it stay. duplicate is '0' or '@', number the reply's, time hhmmss. Under a bar each
   reference has code 14. */
uint32_t nsh_reply(const uint8_t *message, size_t message_len, uint32_t day, const uint32_t *banks, size_t banks_len, const uint8_t *known,
                   size_t known_len, const uint32_t *barred, size_t barred_len, uint8_t duplicate, uint32_t number, uint32_t time,
                   uint8_t *out, size_t out_len, uint64_t *numbers, size_t numbers_len);

/* A STATUS message is read: refusals 99, 10, 9. The k-th reference's code goes to byte k of the table, which may have any length of at
   least the references. numbers: duplicate code (a byte), date, number, time, code, accepted count, accepted sum, refused count,
   refused sum, references. id: positions 10-34. */
uint32_t nsh_read_status(const uint8_t *bytes, size_t bytes_len, uint8_t *table, size_t table_len, uint64_t *numbers, size_t numbers_len,
                         uint8_t *id, size_t id_len);

/* Cover answers. requests is the list of the day's cover requests, end to end without endings, in any order: identifier (25 bytes), account
   (24), sum (16 digits). An item of the FEDJEL answers a request rightly when it has all three and its type and answer go together: 02 and
   1, or 03 and 0, 9 or 5. The first that does stands, where the message code is 0; a request has no other standing answer. */

/* A FEDJEL is judged, whole: refusals 99, 1, 11, 12, 9. numbers: message code, items. The k-th item's code goes to byte k of the table
   with every message code: 0 for the first right answer to a request, 75 for any later answer to it, 74 for an unknown identifier, else
   71, 89 or 76. The table may have any length of at least the items; bytes after theirs stay. */
uint32_t nsh_fedjel(const uint8_t *message, size_t message_len, uint32_t day, const uint8_t *requests, size_t requests_len, uint8_t *table,
                    size_t table_len, uint64_t *numbers, size_t numbers_len);

/* The FEDSTA of the request with this identifier goes to the front of out, 104 bytes, from its standing answer in the FEDJEL, which is judged
   anew: refusals 99, 1, 11, 12, 13, 8, 9. Bytes of out beyond it stay. Answer 1 gives state 00, 0 gives 98, 9 gives 97, 5 gives 50. cover is 1
   where the bank itself has cover; any other value is no, and refuses a request whose standing answer is 1. duplicate is '0' or '@', number
   the FEDSTA's, time hhmmss, count the accepted items of the order. Only for the request of an ATUTAL: a request doesn't tell it from a PKUTAL's. */
uint32_t nsh_fedsta(const uint8_t *message, size_t message_len, uint32_t day, const uint8_t *requests, size_t requests_len, const uint8_t *id,
                    size_t id_len, uint8_t cover, uint8_t duplicate, uint32_t number, uint32_t time, uint32_t count, uint8_t *out,
                    size_t out_len);

#ifdef __cplusplus
}
#endif

#endif
