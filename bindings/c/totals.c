/* The totals of a file: totals FILE */
#include <rds.h>

#include <inttypes.h>
#include <stdio.h>
#include <stdlib.h>

/* All bytes of a file, or NULL. */
static uint8_t *read_all(FILE *file, size_t *len)
{
    size_t room = 1 << 16;
    uint8_t *bytes = malloc(room);
    *len = 0;
    while (bytes && (*len += fread(bytes + *len, 1, room - *len, file)) == room) {
        uint8_t *more = realloc(bytes, room *= 2);
        if (!more)
            free(bytes);
        bytes = more;
    }
    return bytes;
}

int main(int count, char **words)
{
    static const rds_rules_t rules = RDS_RULES;
    size_t len;
    rds_totals_t totals;
    FILE *file = count == 2 ? fopen(words[1], "rb") : NULL;
    uint8_t *bytes = file ? read_all(file, &len) : NULL;
    if (!bytes) {
        fprintf(stderr, "usage: totals FILE\n");
        return 2;
    }
    uint8_t refused = rds_totals(bytes, len, 8 * (uint64_t)len, NULL, 0, &rules, &totals);
    if (refused) {
        fprintf(stderr, "refused %d %s: %s\n", refused, rds_refusal_text(refused), rds_refusal_reason(refused));
        return 1;
    }
    printf("%" PRIu64 " groups, %" PRIu64 " of them complete; %" PRIu64 " bits corrected\n", totals.groups, totals.complete,
           totals.bits);
    free(bytes);
    fclose(file);
    return 0;
}
