/* A fitted panel's upgrade to the newest stored form, and its return. The panel's memory and scan list are files: form 1, one column, four scans open, and transaction 4
 * open with a setting of gate 2. One panel is upgraded and goes on with keepers, after which there is no way back. Another keeps to keeper 0, goes back, and has the bytes
 * of a panel that was never moved. Prints a line for each call: its name, "ok" and the answer's fields, or "no" and the refusal's number. */
#include <inttypes.h>
#include <stdio.h>
#include <stdlib.h>
#include <string.h>

#include "deskrook.h"

/* The shape that these panels were made with. */
enum { COLUMNS = 1, RANGES = 2, CAPACITY = 8, SPARES = 4 };

/* What a panel lends: the memory that is the store, and its list. */
struct panel {
    uint8_t *mem;
    size_t length;
    deskrook_scan_entry scans[DESKROOK_SCANS];
};

/* A panel as it was fitted, in memory of at most so many bytes. The entries are little-endian in their file, as they are on every machine that the library is made for. */
static struct panel fitted(size_t most) {
    struct panel panel = {.mem = malloc(most)};
    FILE *memory = fopen("panel.memory", "rb"), *scans = fopen("panel.scans", "rb");
    if (panel.mem == NULL || memory == NULL || scans == NULL)
        exit(EXIT_FAILURE);
    panel.length = fread(panel.mem, 1, most, memory);
    if (fread(panel.scans, sizeof panel.scans, 1, scans) != 1)
        exit(EXIT_FAILURE);
    fclose(memory);
    fclose(scans);
    return panel;
}

/* The first arguments of every call on a panel. */
#define LENT(panel) (panel).mem, (panel).length, (panel).scans, DESKROOK_SCANS

/* Prints a call's line and hands its answer on. `fields` is what an accepted answer shows: "" for nothing, "n" for a number, "v" for a value and its stamp, "s" for a sum. */
static deskrook_reply show(const char *name, deskrook_reply reply, const char *fields) {
    if (reply.result != DESKROOK_OK)
        printf("%s no %" PRIu32 "\n", name, reply.result);
    else if (*fields == 'n')
        printf("%s ok %" PRIu32 "\n", name, reply.first);
    else if (*fields == 'v')
        printf("%s ok %" PRId32 " %" PRIu32 "\n", name, deskrook_value(reply), reply.stamp);
    else if (*fields == 's')
        printf("%s ok %" PRIu32 " %" PRId64 "\n", name, reply.first, reply.sum);
    else
        printf("%s ok\n", name);
    return reply;
}

/* What either move is. */
typedef deskrook_reply move(const uint8_t *mem, size_t mem_length, const deskrook_scan_entry *scans, size_t scans_length, uint8_t *second, size_t second_length);

/* Moves a panel into a second memory of so many bytes. Accepted, that is the store, and the first, which is none any more, is given back; refused, the first still is. */
static void move_panel(const char *name, move *call, struct panel *panel, size_t length) {
    uint8_t *second = malloc(length);
    if (second == NULL)
        exit(EXIT_FAILURE);
    deskrook_reply moved = show(name, call(LENT(*panel), second, length), "");
    free(moved.result == DESKROOK_OK ? panel->mem : second);
    if (moved.result == DESKROOK_OK) {
        panel->mem = second;
        panel->length = length;
    }
}

/* Sets a gate's level at a minute by a transaction with keeper 0, which works on either form. */
static void set(struct panel *panel, uint32_t gate, int32_t level, uint32_t minute) {
    const uint32_t transaction = show("begin", deskrook_begin(LENT(*panel)), "n").first;
    show("update", deskrook_update(LENT(*panel), transaction, gate, 1, &level, 1), "n");
    show("commit", deskrook_commit(LENT(*panel), transaction, minute), "");
}

int main(void) {
    /* Enough for the newest form, and so for either move. */
    const size_t need = deskrook_bytes_needed(COLUMNS, RANGES, CAPACITY, SPARES).first;

    printf("a fitted panel\n");
    struct panel panel = fitted(need);
    const size_t fitted_length = panel.length;
    show("check", deskrook_check(LENT(panel)), "n"); /* the stored form */
    show("latest", deskrook_latest(LENT(panel), 0, 0), "v");
    show("sum", deskrook_sum(LENT(panel), 3, 0), "s");
    /* Form 1 has no keepers, and this call does not work on it. */
    show("keeper-at", deskrook_keeper_at(LENT(panel), 12, 0, 0), "n");

    printf("upgraded\n");
    move_panel("upgrade", deskrook_upgrade, &panel, need);
    show("check", deskrook_check(LENT(panel)), "n");
    show("sum", deskrook_sum(LENT(panel), 3, 0), "s"); /* by the scan that was open before */
    show("commit", deskrook_commit(LENT(panel), 4, 20), ""); /* of the transaction that was */
    const int32_t level = 130;
    const uint32_t begun = show("begin-as", deskrook_begin_as(LENT(panel), 3), "n").first;
    show("update", deskrook_update(LENT(panel), begun, 0, 1, &level, 1), "n");
    show("commit", deskrook_commit(LENT(panel), begun, 25), "");
    show("keeper-at", deskrook_keeper_at(LENT(panel), 25, 0, 0), "n");
    show("keeper-at", deskrook_keeper_at(LENT(panel), 25, 2, 0), "n"); /* set before the upgrade */
    /* Form 1 has no place for keeper 3. The panel stays in the newest form, as it is. */
    move_panel("downgrade", deskrook_downgrade, &panel, fitted_length);
    show("check", deskrook_check(LENT(panel)), "n");

    printf("another panel, upgraded, and back without keepers\n");
    struct panel other = fitted(need);
    move_panel("upgrade", deskrook_upgrade, &other, need);
    set(&other, 1, 220, 20);
    move_panel("downgrade", deskrook_downgrade, &other, fitted_length);
    show("check", deskrook_check(LENT(other)), "n");
    show("latest", deskrook_latest(LENT(other), 1, 0), "v");

    printf("a panel that is never moved, and does the same\n");
    struct panel unmoved = fitted(need);
    set(&unmoved, 1, 220, 20);
    const int same = other.length == unmoved.length && memcmp(other.mem, unmoved.mem, other.length) == 0 && memcmp(other.scans, unmoved.scans, sizeof other.scans) == 0;
    printf("the bytes of the two %s\n", same ? "are the same" : "differ");

    free(panel.mem);
    free(other.mem);
    free(unmoved.mem);
    return EXIT_SUCCESS;
}
