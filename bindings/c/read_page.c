/*
 * Reads a page from standard input and prints its answers, one to a line, up to the end: a record's
 * option and texts, and the digits of the lines of 50F, or a refusal and the body that is refused.
 * Says on standard error what each refusal is for.
 */
#include "yewdome.h"

#include <stdio.h>

static const char *const TAGS[] = {"50",  "50A", "50F", "50K", "50C", "50L",
                                   "50G", "50H", "59",  "59A", "59F"};

/*
 * A text in quotes: a quote, a backslash and a byte that does not print stand as a backslash and two
 * hexadecimal digits.
 */
static void print_text(const uint8_t *text, size_t length)
{
    size_t i;
    printf(" \"");
    for (i = 0; i < length; i++) {
        if (text[i] >= ' ' && text[i] <= '~' && text[i] != '"' && text[i] != '\\')
            putchar(text[i]);
        else
            printf("\\%02x", (unsigned)text[i]);
    }
    putchar('"');
}

/* The text of a record at a place among the six. */
static void print_part(const uint8_t *record, int place)
{
    const uint8_t *at = record + YEWDOME_FIRST_TEXT + place * YEWDOME_TEXT_LENGTH;
    print_text(at + 1, at[0]);
}

/*
 * Every text has its label, an absent account has none, names are counted, and 50F has a digit for
 * each, so that no two records print alike. A BIC is never empty.
 */
static void print_record(const uint8_t *record)
{
    int names;
    printf("%s", TAGS[record[0]]);
    if (record[1]) {
        printf(" account");
        print_part(record, 0);
    }
    if (record[YEWDOME_FIRST_TEXT + YEWDOME_TEXT_LENGTH] != 0) {
        printf(" bic");
        print_part(record, 1);
    }
    if (record[2] != 0)
        printf(" names %u", (unsigned)record[2]);
    for (names = 0; names < record[2]; names++)
        print_part(record, 2 + names);
    if (record[0] == YEWDOME_50F) {
        printf(" digits");
        print_text(record + YEWDOME_FIRST_DIGIT, record[2]);
    }
    putchar('\n');
}

static const char *name(unsigned number)
{
#define CASE(name) \
    case YEWDOME_##name: \
        return #name
    switch ((enum yewdome_refusal)number) {
        CASE(LINE_COUNT);
        CASE(PARTY_IDENTIFIER);
        CASE(ILLEGAL_BYTE);
        CASE(TOO_LONG);
        CASE(NOT_NUMBERED);
        CASE(OUT_OF_TURN);
        CASE(NAME_COUNT);
        CASE(BIC_MISSING);
        CASE(BIC_LENGTH);
        CASE(BIC_BYTE);
        CASE(NO_OPTION);
        CASE(BODY_TOO_LONG);
        CASE(NOT_ASCII);
        CASE(NOT_A_LETTER);
        CASE(UNKNOWN_TAG);
        CASE(STRAY_LINE);
        CASE(PAGE_LENGTH);
        CASE(PAGE_TOO_LONG);
        CASE(POSITION);
        CASE(NO_SUCH_RECORD);
        CASE(NOT_CARRIED);
        CASE(NO_SPACE);
        CASE(NO_ENTRY);
        CASE(OUTSIDE_PROFILE);
        CASE(NO_SUCH_OPTION);
        CASE(SHORT_RECORD);
        CASE(SHORT_ANSWERS);
    }
#undef CASE
    return "unknown";
}

static void print_refusal(const uint8_t *page, size_t length, size_t at, uint32_t answer)
{
    uint64_t body = yewdome_page_body(page, length, at);
    unsigned number = yewdome_number(answer);
    printf("refused with %u, line %u", number, yewdome_line(answer));
    if (yewdome_body_length(body) != 0)
        print_text(page + yewdome_body_place(body), yewdome_body_length(body));
    putchar('\n');
    fprintf(stderr, "byte %zu: refused, %s\n", at, name(number));
}

int main(void)
{
    static uint8_t page[YEWDOME_LONGEST_PAGE + 1];
    uint8_t record[YEWDOME_RECORD_LENGTH];
    size_t length = fread(page, 1, sizeof page, stdin);
    size_t at = 0;
    for (;;) {
        uint64_t read = yewdome_page_read(page, length, at, record, sizeof record);
        uint32_t answer = yewdome_read_answer(read);
        if (yewdome_read_ended(read)) {
            printf("end at %zu\n", at + yewdome_read_moved(read));
            return 0;
        }
        if (yewdome_number(answer) == 0)
            print_record(record);
        else
            print_refusal(page, length, at, answer);
        if (yewdome_read_moved(read) == 0) {
            fprintf(stderr, "error: the page cannot be read on from byte %zu\n", at);
            return 1;
        }
        at += yewdome_read_moved(read);
    }
}
