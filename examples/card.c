/* The start-up card's lines of a container: its content hash, constant 0, and the source line of function 0 at offset 3.
 *     card FILE
 * Whatever the file lacks, or a file that is not a container, is reported by its refusal number and values. */
#include "nurqeshil.h"
#include <inttypes.h>
#include <stdio.h>

/* One byte beyond this program's limit: a file that fills it may be cut, and is refused with 10, whatever the library's limit is. */
static uint8_t file[65537];
static uint64_t record[CONTAINER_ROOM];
static uint64_t numbers[CONTAINER_ROOM];

/* `count` numbers: that of a refusal, and its values. */
static int refused(const uint64_t *refusal, size_t count) {
    printf("refused");
    for (size_t i = 0; i < count; i++)
        printf(" %" PRIu64, refusal[i]);
    printf("\n");
    return 1;
}

/* Loads the file, once: its record is in `record`. */
static int load(size_t length) {
    const uint64_t too_long = CONTAINER_TOO_LONG;
    if (length == sizeof file)
        return refused(&too_long, 1);
    size_t count = container_load(file, length, record, CONTAINER_ROOM);
    return record[0] != 0 ? refused(record, count) : 0;
}

static int print_hash(size_t length) {
    uint8_t hash[CONTAINER_DIGEST];
    size_t count = container_content_hash(file, length, hash, sizeof hash, numbers, CONTAINER_ROOM);
    if (numbers[0] != 0)
        return refused(numbers, count);
    printf("content hash ");
    for (size_t i = 0; i < sizeof hash; i++)
        printf("%02x", hash[i]);
    printf("\n");
    return 0;
}

static int print_constant(size_t length) {
    size_t count = container_lookup(file, length, record, CONTAINER_RECORD, CONTAINER_GET_I32, 0, 0, numbers, CONTAINER_ROOM);
    if (numbers[0] != 0)
        return refused(numbers, count);
    printf("constant 0 is %" PRId64 "\n", (int64_t)numbers[1]);
    return 0;
}

static int print_line(size_t length) {
    size_t count = container_lookup(file, length, record, CONTAINER_RECORD, CONTAINER_LINE, 0, 3, numbers, CONTAINER_ROOM);
    if (numbers[0] != 0)
        return refused(numbers, count);
    printf("function 0 at 3 is line %" PRIu64 ", column %" PRIu64 "\n", numbers[4], numbers[5]);
    return 0;
}

int main(int count, char **words) {
    FILE *in = count == 2 ? fopen(words[1], "rb") : NULL;
    if (in == NULL) {
        fprintf(stderr, "card FILE\n");
        return 2;
    }
    size_t length = fread(file, 1, sizeof file, in);
    fclose(in);
    return load(length) || print_hash(length) || print_constant(length) || print_line(length);
}
