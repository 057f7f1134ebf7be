/*
 * Files the records of a page from standard input on a new page with an index, and prints field K
 * of it, counted from 1, as it stands there: `look_up K < page`. Says on standard error what is
 * refused, and what is filed as other bytes than came.
 */
#include "yewdome.h"

#include <stdio.h>
#include <stdlib.h>

/* A page that stays open, the bytes before the position, and the index beside it. */
struct indexed {
    uint8_t page[YEWDOME_LONGEST_PAGE];
    size_t position;
    struct yewdome_index index;
};

/* Adds a record. Gives the refusal, or 0. */
static uint32_t add(struct indexed *to, const uint8_t *record, size_t record_length)
{
    uint32_t position = yewdome_page_add_indexed(record, record_length, to->page, sizeof to->page,
                                                 to->position, &to->index);
    if (yewdome_number(position) != 0)
        return position;
    to->position = position;
    return 0;
}

/* Says by which causes the field at a position is filed as other bytes than came, if there are any. */
static void say_causes(const uint8_t *page, size_t length, size_t at)
{
    unsigned causes = yewdome_read_causes(yewdome_page_kept(page, length, at));
    if (causes != 0)
        fprintf(stderr, "byte %zu: filed as other bytes than came, causes %u\n", at, causes);
}

/* Reads a page field by field, up to the end, and adds each record. */
static int file(const uint8_t *page, size_t length, struct indexed *to)
{
    uint8_t record[YEWDOME_RECORD_LENGTH];
    size_t at = 0;
    for (;;) {
        uint64_t read = yewdome_page_read(page, length, at, record, sizeof record);
        uint32_t answer = yewdome_read_answer(read);
        if (yewdome_read_ended(read))
            return 0;
        if (yewdome_number(answer) == 0)
            answer = add(to, record, sizeof record);
        if (yewdome_number(answer) != 0)
            fprintf(stderr, "byte %zu: refused with %u, line %u\n", at, yewdome_number(answer),
                    yewdome_line(answer));
        else
            say_causes(page, length, at);
        if (yewdome_read_moved(read) == 0) {
            fprintf(stderr, "error: the page cannot be read on from byte %zu\n", at);
            return 1;
        }
        at += yewdome_read_moved(read);
    }
}

/* Looks field k up, and prints its bytes by its entry. */
static int print_field(const struct indexed *from, size_t k)
{
    uint8_t record[YEWDOME_RECORD_LENGTH];
    uint64_t read = yewdome_page_look_up(from->page, from->position, &from->index, k, record,
                                         sizeof record);
    uint32_t answer = yewdome_read_answer(read);
    const struct yewdome_entry *entry;
    if (yewdome_number(answer) != 0) {
        fprintf(stderr, "error: field %zu: refused with %u, line %u\n", k, yewdome_number(answer),
                yewdome_line(answer));
        return 1;
    }
    /* the field is found, so there is an entry k, and the page has what it says */
    entry = &from->index.entries[k - 1];
    if (fwrite(from->page + entry->position, 1, entry->length, stdout) != entry->length ||
        putchar('\n') == EOF || fflush(stdout) != 0) {
        fprintf(stderr, "error: the field was not written whole\n");
        return 1;
    }
    return 0;
}

/* Whether a text is digits alone. */
static int is_number(const char *text)
{
    const char *at = text;
    while (*at >= '0' && *at <= '9')
        at++;
    return at != text && *at == '\0';
}

int main(int count, char **arguments)
{
    static uint8_t page[YEWDOME_LONGEST_PAGE + 1];
    static struct indexed filed; /* all of it 0, so that the index is empty */
    size_t length;
    if (count != 2 || !is_number(arguments[1])) {
        fprintf(stderr, "usage: look_up K < page\n");
        return 1;
    }
    length = fread(page, 1, sizeof page, stdin);
    if (file(page, length, &filed) != 0)
        return 1;
    /* a number that is too large comes as the largest, which no field has */
    return print_field(&filed, strtoul(arguments[1], NULL, 10));
}
