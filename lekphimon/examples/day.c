/* Document 01's example day through the library: what each line shows, the tape, then the print at its start read back. */
#include <inttypes.h>
#include <stdio.h>
#include <string.h>

#include "../lekphimon.h"

static const char *const LINES[] = {
    "D20030321",
    "S   1ABC                100AN0",
    "T   1N     1000          45692",
    "MD",
    "T   1N     4900          45552",
    "T   1N     5000          45552",
    "T   1N     4900          40692",
};

static uint64_t settings[LEKPHIMON_SETTINGS];
static uint64_t table[LEKPHIMON_TABLE];
static uint8_t names[LEKPHIMON_NAMES];
static uint8_t tape[1024];

static void print_side(const uint64_t *side)
{
    printf(" price %" PRIu64 ".%08" PRIu64 " volume %" PRIu64 "\n", side[LEKPHIMON_PRICE] / 100000000,
           side[LEKPHIMON_PRICE] % 100000000, side[LEKPHIMON_VOLUME]);
}

int main(void)
{
    size_t written = 0;
    uint64_t shown[LEKPHIMON_SHOWN_NUMBERS];
    uint64_t print[LEKPHIMON_READ_NUMBERS];

    lekphimon_fresh(settings);
    for (size_t i = 0; i < sizeof LINES / sizeof *LINES; i++) {
        char line[101];
        uint64_t count;

        snprintf(line, sizeof line, "%-100s", LINES[i]);
        /* Each call is lent the rest of the tape. */
        lekphimon_shown(settings, table, names, (const uint8_t *)line, strlen(line), sizeof tape - written, shown);
        if (shown[LEKPHIMON_SHOWN_KIND] == 'T') {
            printf("security %" PRIu64, shown[LEKPHIMON_SHOWN_SECURITY]);
            print_side(shown + LEKPHIMON_SHOWN_SIDE);
        }
        uint64_t answer = lekphimon_take_line(settings, table, names, (const uint8_t *)line, strlen(line),
                                              tape + written, sizeof tape - written, &count);
        if (answer != 0)
            fprintf(stderr, "%10zu%3" PRIu64 "\n", i + 1, answer);
        written += count;
    }
    printf("%.*s\n", (int)written, (const char *)tape);

    if (lekphimon_read_at(tape, written, 0, print) != 0)
        return 1;
    printf("%.*s", (int)print[LEKPHIMON_READ_NAME_LENGTH], (const char *)tape + print[LEKPHIMON_READ_NAME_AT]);
    print_side(print + LEKPHIMON_READ_SIDE);
    return 0;
}
