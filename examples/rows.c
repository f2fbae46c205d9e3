/* Which debug table of each tag is in force: its row in the debug section's directory, and how many earlier rows it replaced.
 *     rows FILE
 * A file that is not a container is reported by its refusal number and values. */
#include "nurqeshil.h"
#include <inttypes.h>
#include <stdio.h>

/* One byte beyond this program's limit: a file that fills it may be cut, and is refused with 10, whatever the library's limit is. */
static uint8_t file[65537];
static uint64_t record[CONTAINER_ROOM];

static const char *const tables[] = {"lines", "variables", "functions", "strings", "files", "enumerations"};

int main(int count, char **words) {
    FILE *in = count == 2 ? fopen(words[1], "rb") : NULL;
    if (in == NULL) {
        fprintf(stderr, "rows FILE\n");
        return 2;
    }
    size_t length = fread(file, 1, sizeof file, in);
    fclose(in);
    if (length == sizeof file) {
        printf("refused %d\n", CONTAINER_TOO_LONG);
        return 1;
    }
    size_t numbers = container_load(file, length, record, CONTAINER_ROOM);
    if (record[0] != 0) {
        printf("refused");
        for (size_t i = 0; i < numbers; i++)
            printf(" %" PRIu64, record[i]);
        printf("\n");
        return 1;
    }
    for (size_t i = 0; i < sizeof tables / sizeof *tables; i++) {
        const uint64_t *row = record + CONTAINER_RECORD + 3 * i;
        if (row[0] == 1)
            printf("%s: row %" PRIu64 ", %" PRIu64 " replaced\n", tables[i], row[1], row[2]);
        else
            printf("%s: none\n", tables[i]);
    }
    return 0;
}
