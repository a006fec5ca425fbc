/* Reads a file as one of a kind and prints what is told of it: example EB21 FILE
 * The same with the file taken in two parts, as one that still arrives: example PARTS EB21 FILE
 * Of consent evidence it also prints where each lies, as record, first byte and length: example EI13 FILE
 * Of a day file it also prints where each body lies, as body, name, first byte and length: example DAY FILE
 * Compares enrolments with the evidence for them: example EB13 FILE EI13 FILE
 * Asks one evidence, a DER file, for the frame of signed data, and prints yes or no: example SIGNED FILE
 * Posts a debit pair on a board of members, each a payer and the won owed, and prints the members as they are then, and the
 * dates last posted: example BOARD EB21 FILE FILE 2024000001 30000 2024000002 500
 * Answers an EB11, with yes or a code for each of its records, and prints the EB12, a line for each of its records:
 * example ANSWER FILE yes A016
 * Compares two results of a debit request, and prints whether they tell the same of it, or else which request is the first
 * that they differ in, or which of them is refused: example TWO EB21 FILE FILE FILE */
#include "cms.h"
#include <inttypes.h>
#include <stdio.h>
#include <stdlib.h>
#include <string.h>

#define ORDINARY 0
/* The most that the words of a call may name. A board may have any number of members, an EB11 2,000 records. */
#define MEMBERS 100
#define ANSWERS 2000

struct file {
    size_t length;
    /* The longest file, which is a day file of 16 bodies, and a byte more to see that one is longer. */
    uint8_t bytes[3 + 16 * (14 + CMS_LONGEST) + 1];
};

static struct file one, other, third;

static int take(const char *path, struct file *file) {
    FILE *opened = fopen(path, "rb");
    if (!opened) return 0;
    file->length = fread(file->bytes, 1, sizeof file->bytes, opened);
    int whole = !ferror(opened) && file->length < sizeof file->bytes;
    fclose(opened);
    return whole;
}

/* A refusal, whose code stands behind so many numbers. */
static void print_refused(const uint64_t *answer, int before_code) {
    printf("refused");
    for (int i = 0; i < before_code; i++) printf(" %" PRIu64, answer[i]);
    putchar(' ');
    for (int shift = 24; shift >= 0; shift -= 8) putchar((int)(answer[before_code] >> shift & 255));
}

/* What is told: a number, and an answer whose code stands behind so many others. */
static int print(uint64_t number, const uint64_t *answer, int before_code) {
    if (number == 0) {
        puts("accepted");
        return 0;
    }
    print_refused(answer, before_code);
    putchar('\n');
    return 1;
}

static int print_five(const uint64_t answer[5]) { return print(answer[1], answer, 4); }

static uint32_t kind_of(const char *letters) {
    uint32_t kind = 0;
    for (int i = 0; i < 4; i++) kind = kind << 8 | (unsigned char)letters[i];
    return kind;
}

static int read_kind(const char *letters) {
    uint64_t answer[5];
    cms_read(kind_of(letters), one.bytes, one.length, answer);
    return print_five(answer);
}

static int read_parts(const char *letters) {
    static uint8_t room[CMS_LONGEST];
    uint64_t state[2] = {0, 0}, answer[5];
    size_t half = one.length / 2;
    /* Nothing is known of the file before the end. */
    if (cms_part(state, room, sizeof room, one.bytes, half) != CMS_MORE) return 2;
    if (cms_part(state, room, sizeof room, one.bytes + half, one.length - half) != CMS_MORE) return 2;
    cms_end(kind_of(letters), state, room, sizeof room, answer);
    return print_five(answer);
}

static int read_evidence(void) {
    uint64_t answer[8];
    cms_evidence_part(ORDINARY, one.bytes, one.length, 1, answer);
    int refused = print_five(answer);
    for (uint64_t record = 1; answer[5] == 1; record++) {
        printf("%" PRIu64 " %" PRIu64 " %" PRIu64 "\n", record, answer[6], answer[7]);
        cms_evidence_part(ORDINARY, one.bytes, one.length, record + 1, answer);
    }
    return refused;
}

static int compare(void) {
    uint64_t answer[5];
    cms_evidence_compare(ORDINARY, one.bytes, one.length, other.bytes, other.length, answer);
    return print_five(answer);
}

static int ask_signed(void) {
    uint64_t yes = cms_signed(one.bytes, one.length);
    puts(yes ? "yes" : "no");
    return !yes;
}

static int read_day(void) {
    uint64_t answer[10];
    cms_day_body(one.bytes, one.length, 1, answer);
    int refused = print(answer[0], answer, 6);
    for (uint64_t body = 1; answer[7] == 1; body++) {
        printf("%" PRIu64 " %.8s", body, (const char *)&one.bytes[answer[8] + 19]);
        printf(" %" PRIu64 " %" PRIu64 "\n", answer[8], answer[9]);
        cms_day_body(one.bytes, one.length, body + 1, answer);
    }
    return refused;
}

/* Nothing was posted before, and all members are paused. */
static int post(const char *letters, char **words, size_t members) {
    static struct cms_member board[MEMBERS];
    uint8_t dates[12];
    uint64_t answer[5];
    memset(dates, '0', sizeof dates);
    for (size_t i = 0; i < members; i++, words += 2) {
        size_t length = strlen(words[0]);
        memset(board[i].payer, ' ', sizeof board[i].payer);
        memcpy(board[i].payer, words[0], length < 20 ? length : 20);
        board[i].owed = strtoull(words[1], NULL, 10);
    }
    cms_board_post(kind_of(letters), one.bytes, one.length, other.bytes, other.length, board, members, dates, answer);
    int refused = print_five(answer);
    for (size_t i = 0; i < members && !refused; i++) {
        printf("%.20s %" PRIu64, (const char *)board[i].payer, board[i].owed);
        puts(board[i].state == 1 ? " running" : " paused");
    }
    if (!refused) printf("%.6s %.6s\n", (const char *)dates, (const char *)&dates[6]);
    return refused;
}

/* A yes is 0, and a code its four letters as a kind's. */
static int are_answers(char **words, int count) {
    for (int i = 0; i < count; i++)
        if (strcmp(words[i], "yes") != 0 && strlen(words[i]) != 4) return 0;
    return 1;
}

static int answer_records(char **words, size_t count) {
    static uint8_t room[CMS_LONGEST];
    uint64_t answers[ANSWERS], answer[6];
    for (size_t i = 0; i < count; i++) answers[i] = strcmp(words[i], "yes") == 0 ? 0 : kind_of(words[i]);
    cms_write_eb12(one.bytes, one.length, answers, count, room, sizeof room, answer);
    int refused = print_five(answer);
    for (uint64_t at = 0; at < answer[5]; at += 120) printf("%.120s\n", (const char *)&room[at]);
    return refused;
}

static int compare_results(const char *letters) {
    uint64_t answer[7];
    cms_two_results(kind_of(letters), one.bytes, one.length, other.bytes, other.length, third.bytes, third.length, answer);
    if (answer[1] != 0) {
        print_refused(answer, 4);
        puts(answer[5] == 1 ? " first" : " second");
        return 1;
    }
    if (answer[6] == 0)
        puts("accepted same");
    else
        printf("accepted differ %" PRIu64 "\n", answer[6]);
    return 0;
}

int main(int count, char **words) {
    if (count == 3 && strcmp(words[1], "DAY") == 0 && take(words[2], &one)) return read_day();
    if (count == 3 && strcmp(words[1], "SIGNED") == 0 && take(words[2], &one)) return ask_signed();
    if (count == 4 && strcmp(words[1], "PARTS") == 0 && strlen(words[2]) == 4 && take(words[3], &one))
        return read_parts(words[2]);
    if (count == 3 && strlen(words[1]) == 4 && take(words[2], &one))
        return strcmp(words[1], "EI13") == 0 ? read_evidence() : read_kind(words[1]);
    if (count == 5 && strcmp(words[1], "EB13") == 0 && strcmp(words[3], "EI13") == 0 && take(words[2], &one) &&
        take(words[4], &other))
        return compare();
    if (count >= 5 && count % 2 == 1 && count <= 5 + 2 * MEMBERS && strcmp(words[1], "BOARD") == 0 &&
        strlen(words[2]) == 4 && take(words[3], &one) && take(words[4], &other))
        return post(words[2], words + 5, (size_t)(count - 5) / 2);
    if (count >= 3 && count <= 3 + ANSWERS && strcmp(words[1], "ANSWER") == 0 && are_answers(words + 3, count - 3) &&
        take(words[2], &one))
        return answer_records(words + 3, (size_t)(count - 3));
    if (count == 6 && strcmp(words[1], "TWO") == 0 && strlen(words[2]) == 4 && take(words[3], &one) &&
        take(words[4], &other) && take(words[5], &third))
        return compare_results(words[2]);
    fputs("usage: example KIND FILE, example PARTS KIND FILE, example DAY FILE, example EB13 FILE EI13 FILE,\n"
          "example SIGNED FILE, example BOARD KIND FILE FILE and a payer and won for each member, example ANSWER FILE and yes or\n"
          "a code for each record, or example TWO KIND FILE FILE FILE; files of no more than 4,805,027 bytes that can be read, no\n"
          "more than 100 members and 2,000 answers\n",
          stderr);
    return 2;
}
