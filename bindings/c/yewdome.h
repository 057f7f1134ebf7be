/*
 * Party fields 50 and 59 of SWIFT MT messages, and pages of them: the functions of the static
 * library that `bindings/build` builds, target/staticlib/libyewdome.a, for x86-64.
 *
 * Every function takes any bytes, any lengths and any numbers, keeps no pointer and no state, and
 * is proved equal to its definition in crates/yewdome/specs/Interface.antt. The caller owes only
 * what C cannot say: a pointer is valid for its length, or for the whole index, and not null, also
 * where the length is 0, and what is written overlaps nothing else that is lent in the same call.
 */
#ifndef YEWDOME_H
#define YEWDOME_H

#include <stddef.h>
#include <stdint.h>

#ifdef __cplusplus
extern "C" {
#endif

#define YEWDOME_VERSION_MAJOR 0
#define YEWDOME_VERSION_MINOR 1
#define YEWDOME_VERSION_PATCH 0
#define YEWDOME_VERSION "0.1.0"

/*
 * A record as bytes: the option's place, 1 or 0 for whether there is an account or identifier, the
 * count of names, then six texts: the account or identifier, the BIC, four names; then four digits,
 * one for each name. A text is its length and room for the longest one, of which the bytes after
 * the length are not used. A record that is lent may have more bytes than these; the others are
 * neither read nor written.
 *
 * The digits are those of the lines of 50F, `1/JANE ROE`, as they came: '0' to '9', in any order.
 * The name is without its digit and slash, and writing puts both before it. A digit is used where
 * the option is 50F and the count has its name. A reader stores 0 for one that is not used, and in a
 * record that is lent it may be anything; a used one that is no digit is 22.
 */
#define YEWDOME_RECORD_LENGTH 241
#define YEWDOME_FIRST_TEXT 3
#define YEWDOME_TEXTS 6
#define YEWDOME_TEXT_LENGTH 39
#define YEWDOME_LONGEST_TEXT 38
#define YEWDOME_FIRST_DIGIT 237

/* The longest body that is read, the longest field that is written, and the longest page. */
#define YEWDOME_LONGEST_BODY 2048
#define YEWDOME_LONGEST_FIELD 187
#define YEWDOME_LONGEST_PAGE 32768

/* The most entries of an index. */
#define YEWDOME_MOST_ENTRIES 256

/* The options, by their places in the table. */
enum yewdome_option {
    YEWDOME_50 = 0,
    YEWDOME_50A = 1,
    YEWDOME_50F = 2,
    YEWDOME_50K = 3,
    YEWDOME_50C = 4,
    YEWDOME_50L = 5,
    YEWDOME_50G = 6,
    YEWDOME_50H = 7,
    YEWDOME_59 = 8,
    YEWDOME_59A = 9,
    YEWDOME_59F = 10
};

/* The choices among options, named as the Rust's enums are. */
enum yewdome_choice {
    YEWDOME_FIELD50_INSTRUCTING_PARTY = 0,
    YEWDOME_FIELD50_ORDERING_CUSTOMER_FGH = 1,
    YEWDOME_FIELD50_ORDERING_CUSTOMER_AFK = 2,
    YEWDOME_FIELD50_ORDERING_CUSTOMER_NCF = 3,
    YEWDOME_FIELD50_CREDITOR = 4,
    YEWDOME_FIELD59 = 5,
    YEWDOME_FIELD59_DEBTOR = 6
};

/*
 * What a function refuses for, by the numbers of the README's paper, document 01; the last three
 * are this interface's own. A refusal changes no byte.
 */
enum yewdome_refusal {
    /* of a body; of these 2 to 6, 9 and 10 name a line */
    YEWDOME_LINE_COUNT = 1,       /* a wrong count of lines at the start */
    YEWDOME_PARTY_IDENTIFIER = 2, /* the form or the length of an account or identifier */
    YEWDOME_ILLEGAL_BYTE = 3,     /* an illegal byte outside a BIC */
    YEWDOME_TOO_LONG = 4,         /* a name or a numbered text that is too long */
    YEWDOME_NOT_NUMBERED = 5,     /* not a numbered line */
    YEWDOME_OUT_OF_TURN = 6,      /* a number of 59F out of turn */
    YEWDOME_NAME_COUNT = 7,       /* no name, or more than four */
    YEWDOME_BIC_MISSING = 8,      /* no line for the BIC */
    YEWDOME_BIC_LENGTH = 9,       /* the length of a BIC */
    YEWDOME_BIC_BYTE = 10,        /* a byte of a BIC */
    YEWDOME_NO_OPTION = 11,       /* no option of the choice accepts */
    YEWDOME_BODY_TOO_LONG = 12,   /* over YEWDOME_LONGEST_BODY bytes */
    YEWDOME_NOT_ASCII = 13,       /* a byte above 127 */
    YEWDOME_NOT_A_LETTER = 14,    /* a letter that is neither A to Z nor 0 */
    /* of a page that is read */
    YEWDOME_UNKNOWN_TAG = 15,     /* a tag that is none of the eleven */
    YEWDOME_STRAY_LINE = 16,      /* a line that neither opens a field nor ends the page */
    YEWDOME_PAGE_LENGTH = 17,     /* a read at the page's length */
    YEWDOME_PAGE_TOO_LONG = 18,   /* over YEWDOME_LONGEST_PAGE bytes */
    /* of a position, a record and a buffer */
    YEWDOME_POSITION = 21,        /* no position to read or write at, or a wrong entry */
    YEWDOME_NO_SUCH_RECORD = 22,  /* a record that no reader gives */
    YEWDOME_NOT_CARRIED = 23,     /* a record that would not read back from a page */
    YEWDOME_NO_SPACE = 24,        /* too little space */
    /* of an index */
    YEWDOME_NO_ENTRY = 31,        /* no free entry in the index, or no such entry */
    /* of a body that is read under the network profile; it names a line */
    YEWDOME_OUTSIDE_PROFILE = 32, /* a line that breaks a rule of the profile */
    /* of a call */
    YEWDOME_NO_SUCH_OPTION = 41,  /* no option, or no choice, has the place */
    YEWDOME_SHORT_RECORD = 42,    /* a lent record of under YEWDOME_RECORD_LENGTH bytes */
    YEWDOME_SHORT_ANSWERS = 43    /* fewer numbers lent for answers than a page's bytes and one */
};

/*
 * The refusal's number in what a function gave, 0 where it accepted; and the body line that it
 * names, counted from 1, 0 for none.
 */
static inline unsigned yewdome_number(uint32_t answer)
{
    return answer >> 16;
}

static inline unsigned yewdome_line(uint32_t answer)
{
    return yewdome_number(answer) == 0 ? 0 : answer & 0xffff;
}

/*
 * Why the bytes that are written of a field may be others than those that came: causes, each a bit.
 *
 * - YEWDOME_INNER_CR: a CR before an LF inside the body, which is left off
 * - YEWDOME_LAST_LF: a last LF of the body, which is an empty last line, and is left off
 * - YEWDOME_AFTER_BIC: lines after the BIC, which are ignored
 * - YEWDOME_BLANKS: blanks, bytes 9 to 13 and 32, at the ends of the body, which
 *   YEWDOME_FIELD50_INSTRUCTING_PARTY trims where it detects; so never on a page, by an option, or
 *   where a letter picks the option
 * - YEWDOME_CLOSING_CR: on a page alone, a CR before the LF that closes the field
 *
 * There are no others: what is written is what came, byte for byte, exactly where there is none of
 * them. That is the body and, on a page, the whole field before the LF that closes it.
 */
enum yewdome_cause {
    YEWDOME_INNER_CR = 1,
    YEWDOME_LAST_LF = 2,
    YEWDOME_AFTER_BIC = 4,
    YEWDOME_BLANKS = 8,
    YEWDOME_CLOSING_CR = 16
};

/* Reads a body by an option, and stores the record. Gives 0, or the refusal: 42, 41, 1 to 13. */
uint32_t yewdome_party_read(uint8_t option, const uint8_t *body, size_t body_length,
                            uint8_t *record, size_t record_length);

/* The same by a choice, which detects the option. */
uint32_t yewdome_party_parse(uint8_t choice, const uint8_t *body, size_t body_length,
                             uint8_t *record, size_t record_length);

/* The same by a choice and a letter, 0 for none; 14 comes after 41. */
uint32_t yewdome_party_parse_with_variant(uint8_t choice, const uint8_t *body, size_t body_length,
                                          uint8_t letter, uint8_t *record, size_t record_length);

/*
 * The same three under the network profile. A refusal of the function above stands. What it accepts
 * is then tested line by line, as the body came, with nothing trimmed: 32 names the first line at
 * which one of these rules is broken.
 *
 * - a line has only letters, digits, space and / - ? : ( ) . , ' +
 * - the BIC has no small letter; anywhere else small letters are good
 * - no line comes after the BIC's: YEWDOME_FIELD50_INSTRUCTING_PARTY, which trims a body that it
 *   detects, may have lines of spaces before it, but none after it
 * - no line is empty
 * - no line after the first starts with : or -
 *
 * Lines are counted from 1. LF ends one, and one CR directly before it is no part of it; any other
 * CR is a byte outside the set. What follows the last LF is a line where it is not empty.
 *
 * The record stored is the one that the function above stores. `yewdome_page_add` accepts it, space
 * allowing.
 */
uint32_t yewdome_profile_read(uint8_t option, const uint8_t *body, size_t body_length,
                              uint8_t *record, size_t record_length);

uint32_t yewdome_profile_parse(uint8_t choice, const uint8_t *body, size_t body_length,
                               uint8_t *record, size_t record_length);

uint32_t yewdome_profile_parse_with_variant(uint8_t choice, const uint8_t *body,
                                            size_t body_length, uint8_t letter,
                                            uint8_t *record, size_t record_length);

/*
 * Reads a body as `yewdome_party_read` does, and stores no record. Gives the causes by which the
 * written body of the record is other bytes than the body, 0 where it is the same, or the refusal:
 * 41, 1 to 13. `yewdome_number` tells the two apart.
 */
uint32_t yewdome_kept_read(uint8_t option, const uint8_t *body, size_t body_length);

/* The same by a choice, which detects the option. */
uint32_t yewdome_kept_parse(uint8_t choice, const uint8_t *body, size_t body_length);

/* The same by a choice and a letter, 0 for none; 14 comes after 41. */
uint32_t yewdome_kept_parse_with_variant(uint8_t choice, const uint8_t *body, size_t body_length,
                                         uint8_t letter);

/*
 * Measures a record: gives the length of its field, tag and body, or the refusal: 42, 41, 22. To be
 * placed it needs this space, and to be added to a page 3 bytes more: its LF, and 2 for the end of the
 * page. That a page cannot carry it, 23, is told by `yewdome_page_add` alone.
 */
uint32_t yewdome_party_measure(const uint8_t *record, size_t record_length);

/*
 * Places the field of a record at the start of a buffer, and changes no byte after it. It measures
 * for itself. Gives the length of the field, or the refusal: 42, 41, 22, 24.
 */
uint32_t yewdome_party_place(const uint8_t *record, size_t record_length,
                             uint8_t *buffer, size_t buffer_length);

/*
 * A page is fields, each opened by its tag at the start of a line, and an end line, `-` or `-}`. Its
 * lines end in LF or CR LF: one CR directly before the LF that closes a field or an end line is no
 * part of it. What is added and closed has LF and `-`.
 */

/*
 * Reads the page at a position, 0 at first, and stores the record, if it gives one; the end changes
 * no byte. The functions below take apart what it gives. The next read is at the position and the
 * bytes moved past; 17, 18, 21 and 42 move past none.
 */
uint64_t yewdome_page_read(const uint8_t *page, size_t page_length, size_t at,
                           uint8_t *record, size_t record_length);

/* What of a page's read, or lookup, `yewdome_number` and `yewdome_line` take. */
static inline uint32_t yewdome_read_answer(uint64_t read)
{
    return (uint32_t)(read >> 32);
}

static inline int yewdome_read_ended(uint64_t read)
{
    return (read & 0x10000) != 0;
}

static inline size_t yewdome_read_moved(uint64_t read)
{
    return (size_t)(read & 0xffff);
}

/*
 * Gives what `yewdome_page_read` gives at the position, but for 42, since it stores no record; and
 * where that is a record, beside it the causes by which the field is filed as other bytes than came.
 * That a page cannot carry the record, 23, is told by `yewdome_page_add` alone.
 */
uint64_t yewdome_page_kept(const uint8_t *page, size_t page_length, size_t at);

/*
 * The causes in what `yewdome_page_kept` gave, or in an answer that `yewdome_page_file` stored; 0 at a
 * refusal and the end. The other functions tell none, whatever came.
 */
static inline unsigned yewdome_read_causes(uint64_t read)
{
    return (unsigned)((read >> 17) & 0x7fff);
}

/*
 * The body of the field that a read at the same position reads or refuses, as a part of the page.
 * The functions below take apart what it gives: 0 at 15 to 18, 21 and the end, which have no body.
 */
uint64_t yewdome_page_body(const uint8_t *page, size_t page_length, size_t at);

/* Where in the page the body starts, and how many bytes it has. */
static inline size_t yewdome_body_place(uint64_t body)
{
    return (size_t)(body >> 32);
}

static inline size_t yewdome_body_length(uint64_t body)
{
    return (size_t)(body & 0xffffffff);
}

/*
 * Adds a record to the page in a buffer at a position, 0 at first, then the position that the last
 * call gave. Gives the position after, or the refusal: 42, 41, 21, 22, 23, 24.
 */
uint32_t yewdome_page_add(const uint8_t *record, size_t record_length,
                          uint8_t *buffer, size_t buffer_length, size_t position);

/* Closes the page in a buffer at a position. Gives the page's length, or the refusal: 21, 24. */
uint32_t yewdome_page_close(uint8_t *buffer, size_t buffer_length, size_t position);

/*
 * An index is lent beside a page: how many entries it has, and room for the most, of which those
 * after the count are not used. An entry is a field of the page: its tag, as the option's place,
 * its first position, and its length, tag and body as read, without the LF. In memory an index is
 * 769 numbers of 32 bits, 3,076 bytes without padding: the count, then the three of each entry.
 *
 * An index is empty where its count is 0, whatever the rest is; the adds below fill it, and no
 * function makes one from a page. Any numbers may be lent: a count above the most is the most, and
 * an entry is believed only where the page has it.
 */
struct yewdome_entry {
    uint32_t option;
    uint32_t position;
    uint32_t length;
};

struct yewdome_index {
    uint32_t count;
    struct yewdome_entry entries[YEWDOME_MOST_ENTRIES];
};

/* No array has -1 elements: where a compiler lays an index out otherwise, this does not compile. */
typedef char yewdome_index_layout[sizeof(struct yewdome_index) == 3076 ? 1 : -1];

/*
 * Adds a record as `yewdome_page_add` does, and puts its entry after those that the index has; no
 * other number but the count changes. Gives the position after, or the refusal: 42, 41, 21, 22, 23,
 * 24, then 31 where the index has no free entry. A refusal changes neither buffer nor index.
 */
uint32_t yewdome_page_add_indexed(const uint8_t *record, size_t record_length,
                                  uint8_t *buffer, size_t buffer_length, size_t position,
                                  struct yewdome_index *index);

/*
 * Looks up field k, counted from 1, by its entry, and stores the record, if it gives one. The page
 * is a closed one, or the open one: the bytes of the buffer before its position. Gives what
 * `yewdome_page_read` gives at the field's position, `entries[k - 1].position`, and never the end;
 * the body is what `yewdome_page_body` gives there. Or it gives a refusal of its own, told from a
 * body's by that it moves past no byte: 42, then 18, then 31 where k is 0 or the index has fewer
 * entries, then 21 where the page has no field of the entry's tag and length at its position.
 */
uint64_t yewdome_page_look_up(const uint8_t *page, size_t page_length,
                              const struct yewdome_index *index, size_t k,
                              uint8_t *record, size_t record_length);

/*
 * Reads a whole page: from its start, each read at the next position that the last gave, up to the
 * end or to a read that moves past no byte, which is 17, or 18 of a page that is too long. Stores
 * for each read, in turn, the number that `yewdome_page_read` gives, and changes no other number.
 * Gives how many reads there are, or the refusal 43: a page's bytes and one more are always enough,
 * and no fewer are taken.
 */
uint32_t yewdome_page_answers(const uint8_t *page, size_t page_length,
                              uint64_t *answers, size_t answers_length);

/*
 * Files a whole page: reads it as above, adds each record that a read gives to a new page in a
 * buffer, from position 0, and closes that page. What is stored for a read is as above, but for a
 * record: where it is added, the number is the one that `yewdome_page_kept` gives, with the causes by
 * which the field is filed as other bytes than came; where the add refuses it, the refusal, 23 or
 * 24, stands beside the bytes moved past. The functions below take apart what it gives; 43 changes
 * no byte and no number.
 */
uint64_t yewdome_page_file(const uint8_t *page, size_t page_length,
                           uint8_t *buffer, size_t buffer_length,
                           uint64_t *answers, size_t answers_length);

/* How many reads there are, 0 at the refusal 43. */
static inline size_t yewdome_filed_count(uint64_t filed)
{
    return (size_t)(filed >> 32);
}

/*
 * What of it `yewdome_number` and `yewdome_line` take: the new page's length, or the refusal: 43,
 * or 24 where the buffer has under 2 bytes, so that nothing is filed.
 */
static inline uint32_t yewdome_filed_answer(uint64_t filed)
{
    return (uint32_t)(filed & 0xffffffff);
}

#ifdef __cplusplus
}
#endif

#endif
