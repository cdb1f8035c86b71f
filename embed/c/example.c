/* The worked example (rule 12.9 of docs/SPECIFICATION.md) in C, on memory of its own: one gate with two columns, an update, and its merge into the page. Prints a line for each call
 * as the program gatebook does: the command byte, "ok" and the answer's fields, or "no" and the refusal's number. After the example, and without a
 * line, comes one more commit in the minute of the last, by a keeper, with a scan between the two, the list of the level's crossings, and who set the level. */
#include <inttypes.h>
#include <stdio.h>
#include <stdlib.h>

#include "deskrook.h"

/* Prints a call's line. `fields` is what an accepted answer shows: "" for nothing, "n" for a number, "v" for a value, "vs" for a value and the stamp of the commit
 * that set it. Any other answer is a refusal, which the program may act on by its number. */
static void show(const char *name, deskrook_reply reply, const char *fields) {
    if (reply.result == DESKROOK_NONE) {
        printf("%s ok none\n", name);
        return;
    }
    if (reply.result != DESKROOK_OK) {
        printf("%s no %" PRIu32 "\n", name, reply.result);
        return;
    }
    printf("%s ok", name);
    for (; *fields != 0; fields++) {
        if (*fields == 'n')
            printf(" %" PRIu32, reply.first);
        else if (*fields == 'v')
            printf(" %" PRId32, deskrook_value(reply));
        else
            printf(" %" PRIu32, reply.stamp);
    }
    printf("\n");
}

int main(void) {
    /* Two columns, one range of 64 rows, four tail records, one spare page. */
    const uint32_t columns = 2, ranges = 1, capacity = 4, spares = 1;
    deskrook_reply need = deskrook_bytes_needed(columns, ranges, capacity, spares);
    if (need.result != DESKROOK_OK)
        return EXIT_FAILURE;

    /* The lent memory and the lent list of scans. Their content before the making does not matter. */
    size_t length = need.first;
    uint8_t *mem = malloc(length);
    deskrook_scan_entry scans[DESKROOK_SCANS];
    const size_t entries = DESKROOK_SCANS;
    if (mem == NULL)
        return EXIT_FAILURE;

    show("shape", deskrook_make(mem, length, scans, entries, columns, ranges, capacity, spares), "");

    deskrook_reply begun = deskrook_begin(mem, length, scans, entries);
    show("01", begun, "n");
    const int32_t levels[] = {1200, -30};
    deskrook_reply inserted = deskrook_insert(mem, length, scans, entries, begun.first, levels, 2);
    show("02", inserted, "n");
    const uint32_t gate = inserted.first;
    show("05", deskrook_commit(mem, length, scans, entries, begun.first, 10), "");

    begun = deskrook_begin(mem, length, scans, entries);
    show("01", begun, "n");
    /* Mask 1 sets column 0 alone. */
    const int32_t raised[] = {1250, 0};
    deskrook_reply updated = deskrook_update(mem, length, scans, entries, begun.first, gate, 1, raised, 2);
    show("03", updated, "n");
    /* Not committed yet, so the latest is the inserted value, set by the commit at 10. */
    show("07", deskrook_latest(mem, length, scans, entries, gate, 0), "vs");
    show("05", deskrook_commit(mem, length, scans, entries, begun.first, 20), "");

    show("0E", deskrook_merge(mem, length, scans, entries, 0, 0, updated.first), "");
    /* The value before the update, though the page holds the new one. */
    show("08", deskrook_read_at(mem, length, scans, entries, 10, gate, 0), "vs");
    show("10", deskrook_page_cell(mem, length, scans, entries, 0, gate), "v");
    /* The page holds this record already. */
    show("0E", deskrook_merge(mem, length, scans, entries, 0, 0, updated.first), "");

    /* A scan opened between two commits of one minute keeps what it was opened on; a read at that minute gives the newest. */
    const uint32_t scan = deskrook_open_scan(mem, length, scans, entries, 20).first;
    const uint16_t keeper = 3;
    begun = deskrook_begin_as(mem, length, scans, entries, keeper);
    const int32_t lowered[] = {1230, 0};
    deskrook_update(mem, length, scans, entries, begun.first, gate, 1, lowered, 2);
    deskrook_commit(mem, length, scans, entries, begun.first, 20);
    const int32_t kept = deskrook_value(deskrook_scan_read(mem, length, scans, entries, scan, gate, 0));
    const int32_t newest = deskrook_value(deskrook_read_at(mem, length, scans, entries, 20, gate, 0));

    /* In that minute the level rose above 1240 and fell below it again, so the minute stands twice. Four entries are lent, two are written. */
    uint32_t stamps[4] = {0};
    const deskrook_reply crossed = deskrook_crossings(mem, length, scans, entries, stamps, 4, gate, 0, 1240, 0, 20);
    const int twice = crossed.result == DESKROOK_OK && crossed.first == 2 && stamps[0] == 20 && stamps[1] == 20;

    /* The newest level is the keeper's. The inserted one is by a transaction whose keeper is unknown, which is 0. */
    const deskrook_reply setter = deskrook_keeper_at(mem, length, scans, entries, 20, gate, 0);
    const deskrook_reply inserter = deskrook_keeper_at(mem, length, scans, entries, 10, gate, 0);
    const int known = setter.result == DESKROOK_OK && setter.first == keeper && inserter.result == DESKROOK_OK && inserter.first == 0;

    free(mem);
    return kept == 1250 && newest == 1230 && twice && known ? EXIT_SUCCESS : EXIT_FAILURE;
}
