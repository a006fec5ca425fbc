/* Files of the Korean CMS direct debit service, read whole or not at all.
 *
 * A kind is its four letters as one big-endian number: "EB21" is 0x45423231. A pair is named by the kind of its
 * request: CMS_EB13 is enrolment (EB13 with EB14), CMS_EB21 is next-day debit (EB21 with EB22), CMS_EC21 is same-day
 * debit (EC21 with EC22). Same-day debits have the items, totals and keys of next-day ones; but their least amount, and
 * the least that may be taken of type "0", is 300 won in place of 140.
 * CMS_EB11 is what members applied for at their banks: read, walked and taken while it arrives, and answered by
 * cms_write_eb12; it is in no pair and in no day file, and it is neither written nor taken apart.
 * A code is its four bytes in the same way: "0000" is 0x30303030, a blank code 0x20202020.
 * A slice is a pointer and its length; nothing is read or written outside it, and nothing is kept after a call
 * returns. Memory that a call writes may overlap nothing else that is lent to it.
 *
 * The profile of consent evidence (EI13) is 0 for an ordinary institution. Every other number is one that is partly
 * exempt: its records have a kind of evidence, but a blank extension and no bytes.
 *
 * A day file holds files of the six kinds of the pairs, which are its bodies: the byte "1" or "2", two digits for how many
 * they are (00 to 16), for each its name (8 bytes) and its length (five digits behind "1", six behind "2"), and then the bodies
 * in that order, with nothing between or behind them. The first byte is "2" where a body has more than 99,999 bytes, and "1"
 * where none has. No two names are the same, and each is item 4 of its body's header.
 *
 * Every function takes any number, any bytes and any length. All but cms_post, cms_part and cms_signed return the refusal's
 * number, 0 when accepted, and store an answer. But for day files it begins with five numbers:
 *   answer[0] side    0 one file, or two as they meet; 1, 2 when the first or the second of two is refused by reading:
 *                     a request or its result, enrolments or their evidence
 *   answer[1] number  what was returned
 *   answer[2] record  header 0, data records 1 to n, trailer n + 1; 0 where there is no place; of number 43 the member,
 *                     from 1
 *   answer[3] item    from 1; 0 where there is no place
 *   answer[4] code    the failure code of number 4; else "0000"
 * Of a day file it begins with seven:
 *   answer[0] number  what was returned
 *   answer[1] body    which one, from 1, of numbers 32 and 33; else 0
 *   answer[2] to [6]  of number 33 the five that the body is told by itself; else 0, 0, 0, 0 and "0000"
 * A refusal leaves all other lent memory as it was, but for the state of a file that arrives: cms_end marks it as ended,
 * whatever it answers.
 * No function needs more than 96 KB of stack, so a thread with a stack of 128 KB can call every one.
 *
 * Numbers: 1 kind or pair unknown, 2 not whole records (evidence: blocks) or fewer than two, or in writing a part of
 * another length or cut short, 3 more than 2,000 data records (evidence: or more than 4,096 data blocks), 4 an item breaks
 * its rule, 5 an item disagrees with the kind or header, 6 a count or sum is wrong, 7 the key of an earlier record, 8 lent
 * room is too short, 9 a part or an end after the end, 12 the headers of two files differ, 13 a result without a request or
 * with a copied item that differs, 14 an impossible amount, 15 no such request, 20 an enrolment without evidence, 21
 * evidence without an enrolment, 22 evidence of kind "2" without the frame of signed data (cms_signed), 30 the form byte
 * (also a "2" where no body has more than 99,999 bytes), the count, a length or the size of a day file's contents is wrong, 31
 * its bodies are not as long as the contents say, 32
 * the name of an earlier body, 33 a body is refused: as cms_read refuses it, or with 1 where its name says no kind that goes
 * in, or last with 5 at record 0, item 4, where its header has another name, 40 the date of a pair is not later than the
 * last one posted, 41 a payer is not on the board, 42 more was taken of a payer than it owes, 43 the payer of an earlier
 * member of the board, 50 a record with "CHNG" without its other half, 51 the answers to an EB11 are not one for each
 * record, or one is none, 52 only one half of a change is refused. */
#ifndef CMS_H
#define CMS_H

#include <stddef.h>
#include <stdint.h>

#ifdef __cplusplus
extern "C" {
#endif

/* The last change of this face. 1: the functions of consent evidence came, and no other function changed. 2: those of day
 * files came (cms_day_read, cms_day_body, cms_day_write), and no other function changed. 3: the answer of cms_outcome has
 * ten numbers, of which the last is new: who said no. The text of cms_post has the same as one more word on the line of
 * every request. And every function that reads an EB22 refuses one, with 6, whose trailer item 10 is not the number of "N"
 * records with a code of the centre; before, any digits did. 4: kinds EC21 and EC22 and the pair kind EC21 came: every
 * function that takes a kind or a pair takes them as it takes EB21 and EB22, and day files hold them; before, they were
 * 1. No function changed its parameters. 5: nothing that can be seen from here changed, neither a function nor an answer. 6:
 * cms_part and cms_end came, and no other function changed. 7: every function that reads or writes an EB21 or EC21, by
 * itself, in a pair or in a day file, refuses one, with 4 at item 9 and code "0087", whose passbook text is in none of
 * three forms: eight two-byte characters; "00" and fourteen one-byte ones; or "A", a digit k from 2 to 5, k two-byte
 * characters and 14 minus 2k one-byte ones. Both bytes of a two-byte character are hex A1 to FE; a one-byte character is a
 * letter, a digit or a space. Before, any bytes hex 20 or above did, so files written before may be refused now. EB22 and
 * EC22 are held to no form, as before. No function changed its parameters. 8: cms_board_post and struct cms_member came, and
 * no other function changed. 9: the kind EB11 came, for cms_read, cms_walk and cms_end; before, it was 1, as it still is
 * everywhere else. And cms_write_eb12 came. No function changed its parameters. 10: cms_two_results came, and no other
 * function changed. 11: cms_signed came. And every function of consent evidence refuses a file, with 22 at item 13 of the
 * first such record, in which evidence of kind "2" is not empty and has not the frame of signed data: after 7, and before 8
 * and 12. Before, any bytes did, so files written before may be refused now. No function changed its parameters. 12: a file
 * may have 2,000 data records, and an EI13 too; before, more than 430 were 3, in every function that reads or writes one. Only
 * cms_post still refuses a file of more than 64,800 bytes. CMS_LONGEST, the room for a file that arrives, is 300,300; before, it
 * was 64,800, and a room of that size now gets 8 for a longer file. Day files have the form "2", with six digits for each
 * length, where a body has more than 99,999 bytes; cms_day_read and cms_day_body take it, and cms_day_write writes it; before,
 * "2" and lengths of more than 99,999 were 30. Files that were accepted before are accepted as before, and what is written of
 * the same input is the same. Functions need up to 96 KB of stack; before, up to 64 KB. No function changed its parameters. */
#define CMS_FACE 12

#define CMS_EB11 UINT32_C(0x45423131)
#define CMS_EB13 UINT32_C(0x45423133)
#define CMS_EB14 UINT32_C(0x45423134)
#define CMS_EB21 UINT32_C(0x45423231)
#define CMS_EB22 UINT32_C(0x45423232)
#define CMS_EC21 UINT32_C(0x45433231)
#define CMS_EC22 UINT32_C(0x45433232)

/* The longest file of any of these kinds, in bytes. A room of that size never gets 8 from cms_end. */
#define CMS_LONGEST 300300

/* What cms_part returns for a part that it took. It says nothing of the file. */
#define CMS_MORE 10

/* Reads the file as one of the kind. */
uint64_t cms_read(uint32_t kind, const uint8_t *file, size_t file_length, uint64_t answer[5]);

/* Writes a request file (EB13, EB21 or EC21; another kind is 1) into the room, from the date (6 bytes), the institution
 * code (10), for EB21 and EC21 header items 6 (7) and 7 (16), which are empty for EB13, and the bodies: data records
 * without their items 1 to 3 (101 or 131 bytes each). On success the first bytes of the room are the file, as many as
 * 120 or 150 for each body and two more, and those past it are unchanged. */
uint64_t cms_write(uint32_t kind, const uint8_t *date, size_t date_length, const uint8_t *code, size_t code_length,
                   const uint8_t *item6, size_t item6_length, const uint8_t *item7, size_t item7_length,
                   const uint8_t *bodies, size_t bodies_length, uint8_t *room, size_t room_length,
                   uint64_t answer[5]);

/* Takes a request file (EB13, EB21 or EC21; another kind is 1) apart. It answers as cms_read, and then 8 where the
 * bodies have no room for all. On success they hold the data records without their items 1 to 3, one behind the other
 * as cms_write takes them, and bytes past these are unchanged. The other parts for cms_write stand in the file, counted
 * from 0: the date at bytes 27 to 32, the code at 9 to 18, for EB21 and EC21 item 6 at 33 to 39 and item 7 at 40 to 55.
 * After the five:
 *   answer[5] length  of all bodies together; 0 when refused */
uint64_t cms_apart(uint32_t kind, const uint8_t *file, size_t file_length, uint8_t *bodies, size_t bodies_length,
                   uint64_t answer[6]);

/* Pairs a request with its result, which lists only failures. On success the lists hold what was taken and what was
 * not of each request, in file order, in won (for enrolment 1 in one of them), and places past the last request are
 * unchanged. Each list must have a place for every request. */
uint64_t cms_pair(uint32_t pair, const uint8_t *request, size_t request_length, const uint8_t *result,
                  size_t result_length, uint64_t *taken, size_t taken_length, uint64_t *not_taken,
                  size_t not_taken_length, uint64_t answer[5]);

/* What became of one request, by its record number 1 to n, once the whole pair is accepted. After the five:
 *   answer[5] case       0 none, because refused; 1 whole; 2 part; 3 refused by its bank or the centre
 *   answer[6] taken
 *   answer[7] not taken
 *   answer[8] code       the result's code; blank where there is none
 *   answer[9] maker      who set that code: 0 nobody, because it is blank; 1 a bank; 2 the centre */
uint64_t cms_outcome(uint32_t pair, const uint8_t *request, size_t request_length, const uint8_t *result,
                     size_t result_length, uint64_t record, uint64_t answer[10]);

/* Compares two results of one debit request (CMS_EB21 or CMS_EC21), of which the centre may have sent the second on demand.
 * It answers as cms_pair of the request and the first result with lists that are long enough; where that pair is accepted,
 * as cms_pair of the request and the second result; enrolment is 1, as every pair that is unknown. The side of either
 * result is 2. After the five:
 *   answer[5] which    1 when the pair with the first result is refused, and for number 1; 2 when the one with the second
 *                      result is; 0 when both are accepted
 *   answer[6] request  the first one, 1 to n, of which another amount was taken, or not taken, by the second result than by
 *                      the first; 0 when there is none, or when refused
 * When all seven numbers but the code are 0, both hold the same results in some order: they differ in nothing but order and
 * serials, failure codes, trailer items 10 and 12, and the MAC. And where two accepted results of a pair so differ, the
 * amounts are the same. */
uint64_t cms_two_results(uint32_t pair, const uint8_t *request, size_t request_length, const uint8_t *first,
                         size_t first_length, const uint8_t *second, size_t second_length, uint64_t answer[7]);

/* Data record after data record of one file: record place + 1, or the end when the place is n or more. On a file that
 * is not accepted it answers as cms_read, whatever the place. After the five:
 *   answer[5] case    0 none, because refused; 1 a record; 2 the end
 *   answer[6] start   the record's first byte in the file; 0 unless the case is 1
 *   answer[7] length  its length; 0 unless the case is 1 */
uint64_t cms_walk(uint32_t kind, const uint8_t *file, size_t file_length, uint64_t place, uint64_t answer[8]);

/* Takes a file while it arrives, in parts cut anywhere, some with no bytes: a state of {0, 0}, one cms_part for each piece,
 * one cms_end. The part goes into the room behind those before it, as far as it fits, and bytes past it are unchanged.
 * Returns CMS_MORE, whatever the part holds; or 9, with nothing changed, after the end. There is no answer.
 * The state is {0, 0} before the first part and the library's own afterwards; the room is the same one in every call of one
 * file. Any other state or room does no harm. Nothing that the room holds may be used before an accepted end. */
uint64_t cms_part(uint64_t state[2], uint8_t *room, size_t room_length, const uint8_t *part, size_t part_length);

/* Ends a file that arrived in parts, as one of the kind. It answers as cms_read of the parts joined, however they were cut;
 * but where the room was too short for a file that is not too long, it answers 8, after 1, 2 and 3 and before the records
 * are looked at. After the end it answers 9 each time, with nothing else changed; every other answer marks the state as
 * ended. The room is unchanged, whatever the answer. On success its first state[0] bytes are the file. */
uint64_t cms_end(uint32_t kind, uint64_t state[2], uint8_t *room, size_t room_length, uint64_t answer[5]);

/* What the posting program prints for a next-day debit request and its result (a missing file is one of no bytes; one
 * over 64,800 bytes is refusal 3 on its side, before all else). They are EB21 and EB22: another kind is refused as
 * another name is, with 5 at item 4 of the header. Returns how many bytes of the text that is; those past them are
 * unchanged. Returns 0, with nothing changed, when the text is too short: no output is empty. */
uint64_t cms_post(const uint8_t *request, size_t request_length, const uint8_t *result, size_t result_length,
                  uint8_t *text, size_t text_length);

/* A member of a board: the payer number, the won owed, and whether the member is paused (0) or running (1). */
struct cms_member {
    uint8_t payer[20];
    uint64_t owed;
    uint64_t state;
};

/* Posts a debit pair (CMS_EB21 or CMS_EC21) on a board of members, once for its day: what was taken of each payer by all its
 * requests together goes off what it owes. The board is the members, one behind the other in any order, and board_length
 * says how many they are; there may be none. The dates are those last posted, six bytes YYMMDD for next-day debits and then
 * six for same-day ones, each "000000" before the first. No rule is asked of the dates or of the payers on the board; both
 * are compared byte by byte. The board is lent to be changed, and so are the dates.
 * It answers, in this order:
 *   43  two members have one payer: the record is the first member, from 1, that repeats an earlier one's; item 0
 *   as cms_pair with lists that are long enough; but enrolment is 1, as every pair that is unknown
 *   40  the date of the request is not later than the one last posted of its sort, so the same pair is posted only once:
 *       record 0, item 5
 *   41  a payer of the request is not on the board, even if nothing was taken of it: the request's record, item 11
 *   42  more was taken of a payer, by all its requests together, than it owes: the request's record, item 11
 * Of 41 and 42 it tells the one of the first request whose payer has either; so 42 is told at the payer's first request.
 * On success, of every member whose payer a request names, what it owes is less by what was taken, and the state is 1 where
 * nothing is owed any more and else 0, whatever it was and even if nothing was taken. Members that are not named are
 * unchanged, also where their state is neither 0 nor 1. The six bytes of the sort become the date of the request, also where
 * there is no request, and the other six are unchanged. On a refusal members and dates are as they were. The bytes that lie
 * unused in a member are never asked, and nothing is said of them afterwards; so compare members field by field. */
uint64_t cms_board_post(uint32_t pair, const uint8_t *request, size_t request_length, const uint8_t *result,
                        size_t result_length, struct cms_member *board, size_t board_length, uint8_t dates[12],
                        uint64_t answer[5]);

/* Answers an EB11, what members applied for at their banks: its refused records are written as an EB12 into the room. There is
 * one answer for each data record, in their order: 0 is yes, and any other number is a code by which the record is refused,
 * four bytes as one number: A013 (0x41303133), A016, A017 or A019. Two records are the halves of one change when both have
 * "CHNG" in item 10, one is of kind "3" and the other of kind "1", in either order, item 6 is the same, and item 7 or 8 is
 * not. It answers, in this order:
 *   as cms_read of an EB11
 *   50  a record has "CHNG" and no other half: the first such record, item 10
 *   51  the answers are not one for each record, or one of them is none of these numbers: no place
 *   52  one half of a change has a yes and the other a no: the first such record, which may be either half, item 10
 *   8   the room is shorter than the file, 120 bytes for each refused record and 240 more: no place
 * On success the first bytes of the room are the file, and those past it are unchanged. It has the refused records in their
 * order, each as it was but for its serial, counted anew, and its item 12, "N" and the code; the EB11's header under the name
 * EB12; and a trailer with their number, their number by kind, and spaces for the MAC. After the five:
 *   answer[5] length  of the file; 0 when refused */
uint64_t cms_write_eb12(const uint8_t *eb11, size_t eb11_length, const uint64_t *answers, size_t answers_length,
                        uint8_t *room, size_t room_length, uint64_t answer[6]);

/* Whether the bytes have the frame of signed data, as a DER file has it: 1 when they have, else 0. There is no answer.
 * A value is a tag of one byte, whose low five bits are not all ones, a definite length in the shortest form, and contents
 * of that length; where the tag has bit hex 20 set, the contents are a list: values, one behind the other, or none. The
 * bytes are one value, a sequence (tag hex 30), which holds exactly two: the object identifier 06 09 2A 86 48 86 F7 0D 01 07
 * 02, and one with tag A0 that holds exactly one sequence. No value stands deeper than level 16, the outermost being level
 * 1. Nothing else is asked: not what the contents mean, and not whether a signature is good. Any number of bytes may be
 * given, and the time goes by that number. */
uint64_t cms_signed(const uint8_t *bytes, size_t bytes_length);

/* Reads a file of consent evidence, EI13: blocks of 1,024 bytes, of which the first is the header and the last the
 * trailer, and between them data records of as many blocks as their evidence wants. Last, evidence of kind "2" that is not
 * empty has the frame of signed data: else it answers 22, at item 13 of the first record whose evidence has not. */
uint64_t cms_evidence_read(uint32_t profile, const uint8_t *file, size_t file_length, uint64_t answer[5]);

/* Where the evidence of one record lies in the file, by its record number 1 to n. On a file that is not accepted it
 * answers as cms_evidence_read, whatever the record. Each part lies inside the file, and no two share a byte. After the
 * five:
 *   answer[5] case    0 none, because refused; 1 a part; 2 no record of that number
 *   answer[6] start   the evidence's first byte in the file; 0 unless the case is 1
 *   answer[7] length  its length; 0 unless the case is 1, and in the partly exempt profile always */
uint64_t cms_evidence_part(uint32_t profile, const uint8_t *file, size_t file_length, uint64_t record,
                           uint64_t answer[8]);

/* Writes a file of consent evidence into the room, from the date (8 bytes), the institution code (10) and the records:
 * items 6 to 12 of a data record (74 bytes) and then its evidence, as long as item 12 says, record after record. It
 * answers 22 as in reading, after 7 and before 8. On success the first bytes of the room are the file, and those past it
 * are unchanged. In a file, counted from 0, the date stands at bytes 15 to 22, the code at 23 to 32, and items 6 to 12 in
 * the 74 bytes before a part. After the five:
 *   answer[5] length  of the file; 0 when refused */
uint64_t cms_evidence_write(uint32_t profile, const uint8_t *date, size_t date_length, const uint8_t *code,
                            size_t code_length, const uint8_t *records, size_t records_length, uint8_t *room,
                            size_t room_length, uint64_t answer[6]);

/* Compares enrolments (EB13, side 1) with the evidence for them (EI13, side 2): each enrolment of kind "1" has one record
 * of evidence with its payer, bank, account and date, and each record of evidence has such an enrolment. The item of
 * number 12 is one of EB13; the record of number 20 is one of EB13, that of 21 one of EI13. Both files are read before
 * they meet, so 22 is told on side 2, and before 12. */
uint64_t cms_evidence_compare(uint32_t profile, const uint8_t *enrolments, size_t enrolments_length,
                              const uint8_t *evidence, size_t evidence_length, uint64_t answer[5]);

/* Reads a day file: 30, 31, 32, then 33 for the first body that is refused. One of no bodies is "100". After the seven:
 *   answer[7] bodies  how many there are; 0 when refused */
uint64_t cms_day_read(const uint8_t *file, size_t file_length, uint64_t answer[8]);

/* Where one body lies in a day file, by its number 1 to n. On a file that is not accepted it answers as cms_day_read,
 * whatever the body. Its name stands in it at bytes 19 to 26, counted from 0. After the seven:
 *   answer[7] case    0 none, because refused; 1 a body; 2 no body of that number
 *   answer[8] start   the body's first byte in the day file; 0 unless the case is 1
 *   answer[9] length  its length; 0 unless the case is 1 */
uint64_t cms_day_body(const uint8_t *file, size_t file_length, uint64_t body, uint64_t answer[10]);

/* Writes a day file into the room, from the names (8 bytes each, one behind the other), a length for each and the bodies,
 * one behind the other as the names are. Names that are not whole or more than 16, another number of lengths, or a length
 * over 99,999 is 30; lengths that do not add up to the bodies are 31; then 32 and 33 as in reading, and 8 last. On success
 * the first bytes of the room are the file, and those past it are unchanged. What cms_day_body says of all bodies makes
 * the same file again. After the seven:
 *   answer[7] length  of the file; 0 when refused */
uint64_t cms_day_write(const uint8_t *names, size_t names_length, const uint64_t *lengths, size_t lengths_length,
                       const uint8_t *bodies, size_t bodies_length, uint8_t *room, size_t room_length,
                       uint64_t answer[8]);

#ifdef __cplusplus
}
#endif

#endif
