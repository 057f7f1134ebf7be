/*
 * Reads a body of 50K from standard input, under the network profile if it is asked to, and writes
 * its field, tag and body, to standard output, in just the space that it takes: measures the record,
 * allocates so much, and places the field there: `write_field [--profile] < body`. Says on standard
 * error what is refused.
 */
#include "yewdome.h"

#include <stdio.h>
#include <stdlib.h>
#include <string.h>

static int refuse(uint32_t answer)
{
    fprintf(stderr, "error: refused with %u, line %u\n", yewdome_number(answer),
            yewdome_line(answer));
    return 1;
}

/* Measures a record and writes its field. */
static int write_field(const uint8_t *record, size_t record_length)
{
    uint32_t length = yewdome_party_measure(record, record_length);
    uint32_t placed;
    uint8_t *field;
    size_t written;
    if (yewdome_number(length) != 0)
        return refuse(length);
    field = malloc(length);
    if (field == NULL) {
        fprintf(stderr, "error: no memory for %u bytes\n", (unsigned)length);
        return 1;
    }
    placed = yewdome_party_place(record, record_length, field, length);
    if (yewdome_number(placed) != 0) {
        free(field);
        return refuse(placed);
    }
    written = fwrite(field, 1, placed, stdout);
    free(field);
    if (written != placed || fflush(stdout) != 0) {
        fprintf(stderr, "error: the field was not written whole\n");
        return 1;
    }
    return 0;
}

/* Reads a body of 50K. Gives the refusal, or 0. */
static uint32_t read_body(int profile, const uint8_t *body, size_t body_length, uint8_t *record,
                          size_t record_length)
{
    if (profile)
        return yewdome_profile_read(YEWDOME_50K, body, body_length, record, record_length);
    return yewdome_party_read(YEWDOME_50K, body, body_length, record, record_length);
}

int main(int count, char **arguments)
{
    static uint8_t body[YEWDOME_LONGEST_BODY + 1];
    uint8_t record[YEWDOME_RECORD_LENGTH];
    int profile = count == 2 && strcmp(arguments[1], "--profile") == 0;
    size_t length;
    uint32_t answer;
    if (count > 1 && !profile) {
        fprintf(stderr, "usage: write_field [--profile] < body\n");
        return 1;
    }
    length = fread(body, 1, sizeof body, stdin);
    answer = read_body(profile, body, length, record, sizeof record);
    if (yewdome_number(answer) != 0)
        return refuse(answer);
    return write_field(record, sizeof record);
}
