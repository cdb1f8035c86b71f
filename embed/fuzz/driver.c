/* Damaged memory from outside: an input's bytes become a store, words written into it at will, and calls with any numbers over any bytes and any list, through the C
 * interface. Of every call: the result is 2 exactly where facts.c finds a failing fact; it is one that the call may answer; it is 13 just where the stamp is on
 * the wrong side of the last commit's; fields that it has not are 0; the stamp of a value read is not after its reader's; a refusal changes no byte; an accepted call changes
 * only what it may, a merge no other byte than Item 5 of document 02 names, and the facts hold again; a commit counts itself, and an opened scan's entry has the counts made before it. Crossings are refused as their operands have it,
 * with 21 exactly where more are listed once there are places for all; the stamps listed are between the two, and the places behind them are unchanged. A keeper at is, in
 * every memory of the newest form, refused exactly as the read at with the same numbers, none exactly where that is, and otherwise below 65,536; an accepted call writes the words
 * of keepers that Item 6 of document 02 has it write, and no other. A memory may be of form 1, of the newest or of any other form; a call that does not work on its form answers 2,
 * and a check says which it is. A move is lent a second memory of any length and content: it is refused with 2 and 22 exactly where Item 7 of document 02 has it, and then the
 * second memory is as it was; accepted, it leaves the first memory and the list as they are, and of the second the bytes past the need, the second is a store of the other form
 * with the same words and keeper 0, and the way back gives the needed bytes again. The calls then go on in the second memory. In a store that calls alone have made and written,
 * no commit, merge, release or move changes the sum of an open scan, the crossings are those of crossings.c, and the keepers, and whether there are any, those of keepers.c.
 * Memories, list, values and stamps end or begin at a page that cannot be read, and the rest of their own pages is marked, so that neither a read nor a write outside goes
 * unseen though the library itself is not instrumented.
 *
 * LLVMFuzzerTestOneInput is called by libFuzzer, or by random.c with random bytes. */
#define _DEFAULT_SOURCE
#include <inttypes.h>
#include <stdio.h>
#include <stdlib.h>
#include <string.h>
#include <sys/mman.h>

#include "crossings.h"
#include "facts.h"
#include "keepers.h"

int LLVMFuzzerTestOneInput(const uint8_t *data, size_t size);

/* ---- what is said at the end, and at a fault ---- */

enum { REFUSALS = DESKROOK_KEEPER + 1 };

static uint64_t inputs, calls, damaged, accepted, nones, scans_kept, crossings, crossings_again, keepers, keepers_known, refused[REFUSALS];
static uint64_t on_first, upgraded, downgraded, moved_by_calls_alone, moved_open;

/* Whether it is a refusal's number. 19 and 20 are gatebook's. */
static int is_refusal(uint32_t number) {
    return (number >= DESKROOK_SHAPE && number <= DESKROOK_NO_PAGE) || number == DESKROOK_LIST || number == DESKROOK_KEEPER;
}

static void say_counts(void) {
    uint64_t all = 0;
    for (int number = 0; number < REFUSALS; number++)
        all += refused[number];
    fprintf(stderr, "inputs %" PRIu64 ", calls %" PRIu64 ", of them on memory or list with a failing fact %" PRIu64 "; accepted %" PRIu64 ", none %" PRIu64 ", refused %" PRIu64 ":",
            inputs, calls, damaged, accepted, nones, all);
    for (int number = 0; number < REFUSALS; number++)
        if (is_refusal((uint32_t)number))
            fprintf(stderr, " %d %" PRIu64 "%s", number, refused[number], number < DESKROOK_KEEPER ? "," : "\n");
    fprintf(stderr, "open scans that a later commit of their minute left as they were: %" PRIu64 "\n", scans_kept);
    fprintf(stderr, "crossings in stores that calls alone have written: %" PRIu64 ", in the minute of the one before: %" PRIu64 "\n", crossings, crossings_again);
    fprintf(stderr, "keepers in such stores: %" PRIu64 ", other than 0: %" PRIu64 "\n", keepers, keepers_known);
    fprintf(stderr, "accepted in form 1: %" PRIu64 "; moved to the newest form: %" PRIu64 ", and back: %" PRIu64 ", of both in such stores: %" PRIu64 ", with open transactions or scans: %" PRIu64 "\n",
            on_first, upgraded, downgraded, moved_by_calls_alone, moved_open);
}

static void fail(const char *name, const char *what) {
    fprintf(stderr, "deskrook_%s: %s\n", name, what);
    abort();
}

/* A fact that fails where it must hold, or fails unseen. */
static void fail_by_fact(const char *name, const char *when, const char *fact) {
    fprintf(stderr, "deskrook_%s: %s fails: %s\n", name, when, fact);
    abort();
}

/* ---- the lent bytes ---- */

/* A page has more stamps than a row can have crossings, each of which is by a record of its own. */
enum { PAGE = 4096, MARK = 0xA5, UNWRITTEN = 0xC3, MOST_PLACES = 64, MOST_VALUES = 48, MOST_STAMPS = PAGE / 4 };

/* Pages between two that cannot be read; what is lent ends at the last or begins at the first of them. */
struct lent {
    uint8_t *room;
    size_t size;
    uint8_t *first;
    size_t length; /* in bytes */
    uint8_t *before;
    uint8_t *saved; /* what was lent before a damage */
    size_t saved_length;
};

/* A move is lent the memory and the second one; `back` is for the way back from there. */
static struct lent memory, second, back, list, values, stamps;

static void reserve(struct lent *lent, size_t pages) {
    uint8_t *all = mmap(NULL, (pages + 2) * PAGE, PROT_NONE, MAP_PRIVATE | MAP_ANONYMOUS, -1, 0);
    lent->size = pages * PAGE;
    lent->room = all + PAGE;
    lent->before = malloc(lent->size);
    lent->saved = malloc(lent->size);
    if (all == MAP_FAILED || lent->before == NULL || lent->saved == NULL || mprotect(lent->room, lent->size, PROT_READ | PROT_WRITE) != 0)
        exit(2);
}

/* So many bytes at the room's end or beginning, the rest marked; what was lent before is kept as far as it goes. */
static void lend(struct lent *lent, size_t length, int at_end) {
    size_t kept = lent->length < length ? lent->length : length;
    if (kept > 0)
        memcpy(lent->before, lent->first, kept);
    memset(lent->room, MARK, lent->size);
    lent->length = length;
    lent->first = at_end ? lent->room + lent->size - length : lent->room;
    memset(lent->first, 0, length);
    memcpy(lent->first, lent->before, kept);
}

static void save(struct lent *lent) {
    memcpy(lent->saved, lent->first, lent->length);
    lent->saved_length = lent->length;
}

static void restore(struct lent *lent, int at_end) {
    lend(lent, lent->saved_length, at_end);
    memcpy(lent->first, lent->saved, lent->length);
}

static void keep(struct lent *lent) {
    memcpy(lent->before, lent->first, lent->length);
}

static int changed(const struct lent *lent) {
    return memcmp(lent->before, lent->first, lent->length) != 0;
}

static int marked(const uint8_t *from, const uint8_t *to) {
    /* Each byte is the mark if the first is and each equals the one before it. */
    return from == to || (*from == MARK && memcmp(from, from + 1, (size_t)(to - from) - 1) == 0);
}

static void look_around(const char *name, const struct lent *lent) {
    if (!marked(lent->room, lent->first) || !marked(lent->first + lent->length, lent->room + lent->size))
        fail(name, "a byte beside the lent ones changed");
}

static size_t entries(void) {
    return list.length / sizeof(deskrook_scan_entry);
}

static const deskrook_scan_entry *lent_scans(void) {
    return (const deskrook_scan_entry *)(const void *)list.first;
}

/* ---- the input's bytes as numbers ---- */

struct input {
    const uint8_t *data;
    size_t left;
};

static uint32_t take(struct input *in, int bytes) {
    uint32_t number = 0;
    for (int i = 0; i < bytes && in->left > 0; i++, in->left--)
        number |= (uint32_t)*in->data++ << (8 * i);
    return number;
}

/* Any 32-bit number; small ones, the greatest ones and those about 65,535 by one byte. */
static uint32_t any(struct input *in) {
    uint32_t first = take(in, 1);
    if (first < 0xE8)
        return first;
    if (first < 0xEC)
        return UINT32_MAX - (0xEB - first);
    if (first < 0xF0)
        return 65536 - (0xEF - first);
    return take(in, first < 0xF8 ? 2 : 4);
}

/* A word of the header, 0 where there is none. */
static uint32_t header(size_t i) {
    return memory.length < HEADER_WORDS * 4 ? 0 : word_at(memory.first, i);
}

/* The columns in the header, whatever the form. */
static uint32_t columns(void) {
    return header(COLUMNS_AND_FORM) % HALF;
}

/* The form in the header. */
static uint32_t form(void) {
    return header(COLUMNS_AND_FORM) / HALF + 1;
}

/* Whether the keepers of the input are unknown for the most part, so that there is a way back to form 1. */
static int mostly_unknown;

/* A number of a kind: mostly one that the lent words make likely to be accepted, else any. */
static uint32_t number(struct input *in, char kind) {
    uint32_t first = take(in, 1);
    if (first >= 0xE0)
        return any(in);
    switch (kind) {
    case 't': /* transaction: the numbers of the open ones come right after the header */
        return memory.length < (HEADER_WORDS + 8) * 4 ? first : word_at(memory.first, HEADER_WORDS + first % 8);
    case 's': /* scan */
        return entries() == 0 ? first : word_at(list.first, first % entries() * (sizeof(deskrook_scan_entry) / 4));
    case 'd': /* stamp: the last, the next, or an earlier one */
        return header(LAST_STAMP) + (first < 0x40 ? 0 : first % 3 - first / 32 % 2 * (first / 4));
    case 'p': /* stamp of a commit: as often the last again as a later one, now and then the one before */
        return first % 8 == 7 ? header(LAST_STAMP) - (header(LAST_STAMP) > 0) : header(LAST_STAMP) + first % 2 * (1 + first / 64);
    case 'f': /* stamp to begin at: the first one, or one of the last */
        return first < 0x80 ? 0 : header(LAST_STAMP) - (first % 8 < header(LAST_STAMP) ? first % 8 : 0);
    case 'k': /* mark: a small number of either sign */
        return first - 0x70;
    case 'r': /* row */
        return header(ROWS_GIVEN) == 0 || first < 0x80 ? first % 4 : first % header(ROWS_GIVEN);
    case 'c': /* column */
        return columns() == 0 ? first : first % columns();
    case 'g': /* range */
        return header(RANGES) == 0 ? first : first % header(RANGES);
    case 'm': /* mask: a few bits */
        return first % 16;
    case 'w': /* keeper: who; one of a few, and the greatest */
        return mostly_unknown ? 0 : first % 8 == 7 ? 65535 : first % 8;
    default: /* tail record, measure */
        return first % 9;
    }
}

/* ---- the calls ---- */

enum call {
    BEGIN,
    INSERT,
    UPDATE,
    DELETE,
    COMMIT,
    ABORT,
    LATEST,
    READ_AT,
    OWN_READ,
    OPEN_SCAN,
    SCAN_READ,
    SUM,
    CLOSE_SCAN,
    MERGE,
    RELEASE,
    PAGE_CELL,
    LINEAGE,
    CROSSINGS,
    BEGIN_AS,
    KEEPER_AT,
    UPGRADE,
    DOWNGRADE,
    CHECK,
    MAKE,
    BYTES_NEEDED,
    CALLS
};

/* The most numbers that a call takes. */
enum { MOST_NUMBERS = 5 };

enum { WRITES_MEMORY = 1, WRITES_LIST = 2, MAY_BE_NONE = 4, HAS_FIRST = 8, HAS_SECOND = 16, HAS_STAMP = 32, HAS_SUM = 64 };

#define MAY(number) (UINT32_C(1) << (number))

/* What each call may do, the forms that it works on, and the refusals that documents 01 and 02 give it besides 2. */
static const struct {
    const char *name;
    const char *kinds; /* of its numbers, as `number` has them */
    int forms;
    int does;
    uint32_t refusals;
} about[CALLS] = {
    [BEGIN] = {"begin", "", ON_BOTH, WRITES_MEMORY | HAS_FIRST, MAY(15) | MAY(14)},
    [INSERT] = {"insert", "t", ON_BOTH, WRITES_MEMORY | HAS_FIRST, MAY(3) | MAY(11)},
    [UPDATE] = {"update", "trm", ON_BOTH, WRITES_MEMORY | HAS_FIRST, MAY(3) | MAY(5) | MAY(8) | MAY(9) | MAY(10) | MAY(12)},
    [DELETE] = {"delete", "tr", ON_BOTH, WRITES_MEMORY | HAS_FIRST, MAY(3) | MAY(5) | MAY(9) | MAY(10) | MAY(12)},
    [COMMIT] = {"commit", "tp", ON_BOTH, WRITES_MEMORY, MAY(3) | MAY(13)},
    [ABORT] = {"abort", "t", ON_BOTH, WRITES_MEMORY, MAY(3)},
    [LATEST] = {"latest", "rc", ON_BOTH, HAS_FIRST | HAS_STAMP | MAY_BE_NONE, MAY(5) | MAY(6)},
    [READ_AT] = {"read_at", "drc", ON_BOTH, HAS_FIRST | HAS_STAMP | MAY_BE_NONE, MAY(13) | MAY(5) | MAY(6)},
    [OWN_READ] = {"own_read", "trc", ON_BOTH, HAS_FIRST | HAS_STAMP | MAY_BE_NONE, MAY(3) | MAY(5) | MAY(6)},
    [OPEN_SCAN] = {"open_scan", "d", ON_BOTH, WRITES_MEMORY | WRITES_LIST | HAS_FIRST, MAY(13) | MAY(15) | MAY(14)},
    [SCAN_READ] = {"scan_read", "src", ON_BOTH, HAS_FIRST | HAS_STAMP | MAY_BE_NONE, MAY(4) | MAY(5) | MAY(6)},
    [SUM] = {"sum", "sc", ON_BOTH, HAS_FIRST | HAS_SUM, MAY(4) | MAY(6)},
    [CLOSE_SCAN] = {"close_scan", "s", ON_BOTH, WRITES_LIST, MAY(4)},
    [MERGE] = {"merge", "gcn", ON_BOTH, WRITES_MEMORY, MAY(7) | MAY(6) | MAY(16) | MAY(17) | MAY(18)},
    [RELEASE] = {"release", "", ON_BOTH, WRITES_MEMORY | HAS_FIRST, 0},
    [PAGE_CELL] = {"page_cell", "cr", ON_BOTH, HAS_FIRST, MAY(6) | MAY(5)},
    [LINEAGE] = {"lineage", "gc", ON_BOTH, HAS_FIRST | HAS_SECOND, MAY(7) | MAY(6)},
    [CROSSINGS] = {"crossings", "rckfd", ON_BOTH, HAS_FIRST, MAY(5) | MAY(6) | MAY(13) | MAY(21)},
    [BEGIN_AS] = {"begin_as", "w", ON_NEWEST, WRITES_MEMORY | HAS_FIRST, MAY(15) | MAY(14)},
    [KEEPER_AT] = {"keeper_at", "drc", ON_NEWEST, HAS_FIRST | MAY_BE_NONE, MAY(13) | MAY(5) | MAY(6)},
    [UPGRADE] = {"upgrade", "", ON_FIRST, 0, 0},
    [DOWNGRADE] = {"downgrade", "", ON_NEWEST, 0, MAY(22)},
    [CHECK] = {"check", "", ON_BOTH, HAS_FIRST, 0},
    [MAKE] = {"make", "nnnn", ON_NEWEST, WRITES_MEMORY | WRITES_LIST, MAY(1)},
    [BYTES_NEEDED] = {"bytes_needed", "nnnn", ON_BOTH, HAS_FIRST, MAY(1)},
};

/* Lends values for an insert or update, as many as any shape has columns or any number of them. */
static void lend_values(struct input *in) {
    uint32_t first = take(in, 1);
    lend(&values, 4 * (first < 0x80 ? 16 : first % MOST_VALUES), first & 1);
    for (size_t i = 0; i < values.length; i++)
        values.first[i] = (uint8_t)(first * (i + 1));
    keep(&values);
}

/* Lends stamps for the crossings, most often so few that there may be more crossings. */
static void lend_stamps(struct input *in) {
    uint32_t first = take(in, 1);
    lend(&stamps, 4 * (first < 0xE0 ? first % 8 : first), first & 8);
    memset(stamps.first, UNWRITTEN, stamps.length);
    keep(&stamps);
}

static const char *failing(struct layout *layout, int forms) {
    return failing_fact(layout, forms, memory.first, memory.length, lent_scans(), entries());
}

/* Lends a second memory for a move: most often as long as the other form needs, a little longer, or one byte shorter. It holds what it held, or other bytes. */
static void lend_second(struct input *in) {
    struct layout layout, other;
    uint32_t first = take(in, 1);
    size_t length = 0;
    if (first < 0xE0 && failing(&layout, ON_BOTH) == NULL) {
        other = other_form(&layout);
        length = layout_need(&other) + first % 8 - 1;
    } else {
        length = take(in, 2) % (second.size + 1);
    }
    lend(&second, length, first & 8);
    uint8_t filling = (uint8_t)take(in, 1);
    for (size_t i = 0; first & 16 && i < second.length; i++)
        second.first[i] = (uint8_t)(filling * (i + 1));
    keep(&second);
}

/* The crossings, listed in so many entries. */
static deskrook_reply list_crossings(const uint32_t numbers[MOST_NUMBERS], uint32_t *first, size_t count) {
    const deskrook_scan_entry *s = (const deskrook_scan_entry *)(const void *)list.first;
    return deskrook_crossings(memory.first, memory.length, s, entries(), first, count, numbers[0], numbers[1], (int32_t)numbers[2], numbers[3], numbers[4]);
}

static deskrook_reply make_call(enum call call, const uint32_t numbers[MOST_NUMBERS]) {
    uint8_t *m = memory.first;
    size_t n = memory.length, k = entries();
    deskrook_scan_entry *s = (deskrook_scan_entry *)(void *)list.first;
    uint32_t a = numbers[0], b = numbers[1], c = numbers[2], d = numbers[3];
    const int32_t *v = (const int32_t *)(const void *)values.first;
    size_t l = values.length / 4;
    switch (call) {
    case BEGIN: return deskrook_begin(m, n, s, k);
    case INSERT: return deskrook_insert(m, n, s, k, a, v, l);
    case UPDATE: return deskrook_update(m, n, s, k, a, b, (uint16_t)c, v, l);
    case DELETE: return deskrook_delete(m, n, s, k, a, b);
    case COMMIT: return deskrook_commit(m, n, s, k, a, b);
    case ABORT: return deskrook_abort(m, n, s, k, a);
    case LATEST: return deskrook_latest(m, n, s, k, a, b);
    case READ_AT: return deskrook_read_at(m, n, s, k, a, b, c);
    case OWN_READ: return deskrook_own_read(m, n, s, k, a, b, c);
    case OPEN_SCAN: return deskrook_open_scan(m, n, s, k, a);
    case SCAN_READ: return deskrook_scan_read(m, n, s, k, a, b, c);
    case SUM: return deskrook_sum(m, n, s, k, a, b);
    case CLOSE_SCAN: return deskrook_close_scan(m, n, s, k, a);
    case MERGE: return deskrook_merge(m, n, s, k, a, b, c);
    case RELEASE: return deskrook_release(m, n, s, k);
    case PAGE_CELL: return deskrook_page_cell(m, n, s, k, a, b);
    case LINEAGE: return deskrook_lineage(m, n, s, k, a, b);
    case CROSSINGS: return list_crossings(numbers, (uint32_t *)(void *)stamps.first, stamps.length / 4);
    case BEGIN_AS: return deskrook_begin_as(m, n, s, k, (uint16_t)a);
    case KEEPER_AT: return deskrook_keeper_at(m, n, s, k, a, b, c);
    case UPGRADE: return deskrook_upgrade(m, n, s, k, second.first, second.length);
    case DOWNGRADE: return deskrook_downgrade(m, n, s, k, second.first, second.length);
    case CHECK: return deskrook_check(m, n, s, k);
    case MAKE: return deskrook_make(m, n, s, k, a, b, c, d);
    case BYTES_NEEDED: return deskrook_bytes_needed(a, b, c, d);
    default: abort();
    }
}

/* ---- the judging ---- */

/* For libFuzzer: which call answered what, and which fact failed, count as ways gone. */
__attribute__((section("__libfuzzer_extra_counters"))) static uint8_t ways[CALLS * 64];

/* How many entries of the list changed. */
static size_t entries_changed(void) {
    size_t count = 0;
    for (size_t at = 0; at < list.length; at += sizeof(deskrook_scan_entry))
        count += memcmp(list.before + at, list.first + at, sizeof(deskrook_scan_entry)) != 0;
    return count;
}

/* After an accepted call on a usable store. */
static void judge_accepted(enum call call) {
    const char *name = about[call].name;
    struct layout layout;
    if (!(about[call].does & WRITES_MEMORY) && changed(&memory))
        fail(name, "a call that writes no memory changed it");
    if (!(about[call].does & WRITES_LIST) && changed(&list))
        fail(name, "a call that opens or closes no scan changed the list");
    if (call != MAKE && entries_changed() > 1)
        fail(name, "more than one entry of the list changed");
    if (call == COMMIT && word_at(memory.first, COMMITS_MADE) != word_at(memory.before, COMMITS_MADE) + 1)
        fail(name, "the commit is not counted");
    /* The counts of merges and commits made go round at 2^32, and then those recorded may be above them. */
    if ((call == MERGE && word_at(memory.first, MERGES_MADE) == 0) || (call == COMMIT && word_at(memory.first, COMMITS_MADE) == 0))
        return;
    const char *fact = failing(&layout, about[call].forms);
    if (fact != NULL)
        fail_by_fact(name, "afterwards this", fact);
    size_t need = layout_need(&layout);
    if (memcmp(memory.before + need, memory.first + need, memory.length - need) != 0)
        fail(name, "a byte past the need changed");
    for (size_t at = 0; call == MAKE && at < list.length; at++)
        if (list.first[at] != 0)
            fail(name, "an entry is not free after the making");
}

/* The result that making and the need must have, by the measures and the lengths. */
static uint32_t due(enum call call, const uint32_t measures[4], uint32_t *need) {
    struct layout layout;
    if (!layout_of(&layout, NEWEST_FORM, measures[0], measures[1], measures[2], measures[3]))
        return DESKROOK_SHAPE;
    *need = (uint32_t)layout_need(&layout);
    return call == MAKE && (memory.length < *need || entries() < DESKROOK_SCANS) ? DESKROOK_MEMORY : DESKROOK_OK;
}

/* The latest stamp that a read may give: its reader's. What set the value was seen by this reader, or is the insert of a row that it sees. It sees what was committed
 * by its stamp, and of what is pending its own, for which the stamp given is 0, whatever the memory has in that place. */
static uint32_t latest_stamp(enum call call, const uint32_t numbers[MOST_NUMBERS]) {
    const deskrook_scan_entry *s = (const deskrook_scan_entry *)(const void *)list.first;
    if (call == READ_AT)
        return numbers[0];
    if (call != SCAN_READ)
        return word_at(memory.first, LAST_STAMP);
    for (size_t at = 0; at < entries(); at++)
        if (numbers[0] != 0 && s[at].number == numbers[0])
            return s[at].stamp;
    fail(about[call].name, "a value from a scan that is not open");
    return 0;
}

/* 13: a commit earlier than the last, a read or a scan later than the last. A commit tests its transaction before, the others nothing. Crossings are judged apart. */
static void judge_time(enum call call, const uint32_t numbers[MOST_NUMBERS], uint32_t result) {
    if (call != COMMIT && call != READ_AT && call != KEEPER_AT && call != OPEN_SCAN)
        return;
    uint32_t last = word_at(memory.before, LAST_STAMP);
    int outside = call == COMMIT ? numbers[1] < last : numbers[0] > last;
    if (outside != (result == DESKROOK_TIME) && result != DESKROOK_TRANSACTION)
        fail(about[call].name, outside ? "another answer than 13" : "13 at a stamp that fits");
}

/* The entry of an open scan. */
static const deskrook_scan_entry *entry_of(uint32_t scan) {
    const deskrook_scan_entry *s = (const deskrook_scan_entry *)(const void *)list.first;
    for (size_t at = 0; at < entries(); at++)
        if (s[at].number == scan)
            return s + at;
    fail("open_scan", "the list lacks the scan");
    return s;
}

/* Whether nothing but calls has written in memory and list since they were lent. Then an open scan's sum stays what it is right after the opening; that of column 0 is noted
 * here, and number 0 marks a free place. */
static int by_calls_alone;
static struct {
    uint32_t number, rows;
    int64_t sum;
} opened[DESKROOK_SCANS];

static int is_move(enum call call) {
    return call == UPGRADE || call == DOWNGRADE;
}

static deskrook_reply sum_of(uint32_t scan) {
    return deskrook_sum(memory.first, memory.length, (const deskrook_scan_entry *)(const void *)list.first, entries(), scan, 0);
}

static void judge_scans(enum call call, const uint32_t numbers[MOST_NUMBERS], deskrook_reply reply) {
    if (call == OPEN_SCAN) {
        const deskrook_scan_entry *entry = entry_of(reply.first);
        if (entry->stamp != numbers[0] || entry->merges != word_at(memory.before, MERGES_MADE) || entry->commits != word_at(memory.before, COMMITS_MADE))
            fail("open_scan", "the scan's entry has another stamp or count");
    }
    if (!by_calls_alone)
        return;
    if (call == MAKE)
        memset(opened, 0, sizeof opened);
    for (size_t i = 0; i < DESKROOK_SCANS; i++) {
        if (call == OPEN_SCAN && opened[i].number == 0) {
            deskrook_reply first = sum_of(reply.first);
            opened[i].number = reply.first;
            opened[i].rows = first.first;
            opened[i].sum = first.sum;
            return;
        }
        if (call == CLOSE_SCAN && opened[i].number == numbers[0])
            opened[i].number = 0;
        if ((call == COMMIT || call == MERGE || call == RELEASE || is_move(call)) && opened[i].number != 0) {
            deskrook_reply again = sum_of(opened[i].number);
            if (again.result != DESKROOK_OK || again.first != opened[i].rows || again.sum != opened[i].sum)
                fail(about[call].name, "an open scan has another sum");
            scans_kept += call == COMMIT && entry_of(opened[i].number)->stamp == numbers[1];
        }
    }
}

/* The refusal that crossings must have before any is counted, by their operands. */
static uint32_t due_before_list(const uint32_t numbers[MOST_NUMBERS]) {
    if (numbers[0] >= word_at(memory.first, ROWS_GIVEN))
        return DESKROOK_ROW;
    if (numbers[1] >= columns())
        return DESKROOK_COLUMN;
    return numbers[3] > numbers[4] || numbers[4] > word_at(memory.first, LAST_STAMP) ? DESKROOK_TIME : DESKROOK_OK;
}

/* The whole list, with entries for all: whether the call that was lent fewer has answered by it, and in a store that calls alone have written whether it is right. */
static void judge_list(const struct layout *layout, const uint32_t numbers[MOST_NUMBERS], deskrook_reply reply) {
    const char *name = about[CROSSINGS].name;
    static uint32_t all[MOST_STAMPS], right[MOST_STAMPS];
    deskrook_reply whole = list_crossings(numbers, all, MOST_STAMPS);
    if (whole.result != DESKROOK_OK || whole.first > MOST_STAMPS)
        fail(name, "refused, though there are entries for all crossings");
    if ((reply.result == DESKROOK_LIST) != (whole.first > stamps.length / 4))
        fail(name, "21 is not exactly where the crossings outnumber the entries");
    if (reply.result == DESKROOK_OK && (reply.first != whole.first || memcmp(all, stamps.first, whole.first * sizeof *all) != 0))
        fail(name, "another list where more entries are lent");
    if (!by_calls_alone)
        return;
    size_t count = crossings_of(layout, memory.first, numbers[0], numbers[1], (int32_t)numbers[2], numbers[3], numbers[4], right);
    if (count != whole.first || memcmp(all, right, count * sizeof *all) != 0)
        fail(name, "other crossings than the commits have");
    crossings += count;
    for (size_t i = 1; i < count; i++)
        crossings_again += right[i] == right[i - 1];
}

/* After crossings in a usable store. */
static void judge_crossings(const struct layout *layout, const uint32_t numbers[MOST_NUMBERS], deskrook_reply reply) {
    const char *name = about[CROSSINGS].name;
    uint32_t due = due_before_list(numbers);
    if (due != DESKROOK_OK ? reply.result != due : reply.result != DESKROOK_OK && reply.result != DESKROOK_LIST)
        fail(name, "another refusal is due");
    for (size_t i = 0; i < reply.first && i < stamps.length / 4; i++) {
        uint32_t stamp = word_at(stamps.first, i);
        if (stamp < numbers[3] || stamp > numbers[4])
            fail(name, "a stamp that is not between the two");
    }
    if (due == DESKROOK_OK)
        judge_list(layout, numbers, reply);
}

/* Whether the places of stamps behind the list changed; where the call is refused nothing is listed. */
static void look_behind_list(deskrook_reply reply) {
    size_t listed = (size_t)reply.first * 4;
    if (listed > stamps.length)
        fail(about[CROSSINGS].name, "more crossings than entries");
    if (memcmp(stamps.before + listed, stamps.first + listed, stamps.length - listed) != 0)
        fail(about[CROSSINGS].name, "an entry behind the list changed");
}

/* "an accepted merge changes no lent byte but those of the page it writes and those that say which page is current, waiting or free, the lineage and the merges made" (Item 5 of
 * document 02). The page is the one that the chunk names now; it was free: it did not wait, and no chunk named it. */
static void judge_merge(const struct layout *l, const uint32_t numbers[MOST_NUMBERS]) {
    const char *name = about[MERGE].name;
    uint32_t chunk = numbers[0] * l->columns + numbers[1];
    uint32_t old = word_at(memory.before, l->base[CURRENT] + chunk), new = word_at(memory.first, l->base[CURRENT] + chunk);
    if (new >= l->pages || word_at(memory.before, l->base[PAGE_STATE] + new) > 1)
        fail(name, "the page taken was not free");
    for (uint32_t other = 0; other < l->chunks; other++)
        if (word_at(memory.before, l->base[CURRENT] + other) == new)
            fail(name, "the page taken was current");
    const uint32_t words[] = {
        MERGES_MADE,
        l->base[CURRENT] + chunk,
        l->base[PAGE_STATE] + old,
        l->base[PAGE_REPLACED] + old,
        l->base[PAGE_STATE] + new,
        l->base[PAGE_CHUNK] + new,
        l->base[PAGE_MADE] + new,
        l->base[PAGE_LINEAGE] + new,
        l->base[PAGE_NEWEST] + new,
    };
    for (size_t at = 0; at < memory.length; at++) {
        if (memory.before[at] == memory.first[at])
            continue;
        size_t word = at / 4, cells = l->base[CELLS] + (size_t)new * 64;
        int may = word >= cells && word < cells + 64;
        for (size_t i = 0; i < sizeof words / sizeof words[0]; i++)
            may |= word == words[i];
        if (!may)
            fail(name, "a byte changed that is none of the merge's");
    }
}

/* After a read at or a keeper at, on any memory and list: the other one with the same numbers goes with it, but not in form 1, which has no keepers. There is a layout where they
 * are usable. */
static void judge_keeper(const struct layout *layout, enum call call, const uint32_t numbers[MOST_NUMBERS], deskrook_reply reply) {
    const char *name = about[KEEPER_AT].name;
    deskrook_reply other = make_call(call == READ_AT ? KEEPER_AT : READ_AT, numbers), keeper = call == READ_AT ? other : reply;
    if (form() == FIRST_FORM) {
        if (keeper.result != DESKROOK_MEMORY)
            fail(name, "another answer than 2 in form 1");
        return;
    }
    if (other.result != reply.result)
        fail(name, "refused or none, and the read at is not, or the other way about");
    if (keeper.first >= 65536)
        fail(name, "a keeper of more than 2 bytes");
    if (!by_calls_alone || layout == NULL || keeper.result != DESKROOK_OK)
        return;
    if (keeper.first != keeper_of_value(layout, memory.first, numbers[0], numbers[1], numbers[2]))
        fail(name, "another keeper than the one who set the value");
    keepers++;
    keepers_known += keeper.first != 0;
}

/* The entry of an open transaction, by the words of a memory. */
static size_t open_entry(const char *name, const struct layout *l, const uint8_t *mem, uint32_t transaction) {
    for (size_t entry = 0; entry < l->base[OPENS + 1] - l->base[OPENS]; entry++)
        if (word_at(mem, l->base[OPENS] + entry) == transaction)
            return entry;
    fail(name, "the transaction is not among the open ones");
    return 0;
}

/* After an accepted call on a store of the newest form that was there before it. Begin writes the keeper of the transaction's entry, and commit and abort write 0 there; a row, a
 * setting and a delete get what is there, an original what the row has. No other word of keepers changes. */
static void judge_keeper_words(enum call call, const struct layout *l, const uint32_t numbers[MOST_NUMBERS], deskrook_reply reply) {
    const char *name = about[call].name;
    const uint32_t *base = l->base;
    struct {
        size_t at;
        uint32_t word;
    } due[2] = {{0, 0}, {0, 0}}; /* word 0 is the header's, and none of keepers */
    if (call == BEGIN || call == BEGIN_AS) {
        due[0].at = base[OPEN_KEEPER] + open_entry(name, l, memory.first, reply.first);
        due[0].word = call == BEGIN ? 0 : (uint16_t)numbers[0];
    } else if (call >= INSERT && call <= ABORT) {
        size_t own = base[OPEN_KEEPER] + open_entry(name, l, memory.before, numbers[0]);
        due[0].word = word_at(memory.before, own);
        if (call == COMMIT || call == ABORT) {
            due[0].at = own;
            due[0].word = 0;
        } else if (call == INSERT) {
            due[0].at = base[ROW_KEEPER] + (size_t)reply.first;
        } else {
            uint32_t range = numbers[1] / (l->rows / l->ranges);
            due[0].at = base[TAIL_KEEPER] + (size_t)range * l->capacity + reply.first - 1;
            if (word_at(memory.first, base[USED] + range) == word_at(memory.before, base[USED] + range) + 2) {
                due[1].at = due[0].at - 1;
                due[1].word = word_at(memory.before, base[ROW_KEEPER] + numbers[1]);
            }
        }
    }
    for (size_t at = base[ROW_KEEPER]; at < base[REGIONS]; at++) {
        uint32_t word = at == due[0].at ? due[0].word : at == due[1].at ? due[1].word : word_at(memory.before, at);
        if (word_at(memory.first, at) != word)
            fail(name, "a word of keepers is another than is due");
    }
}

/* After an accepted begin: the number is the last given, and who has it is noted. */
static void note_begun(enum call call, const uint32_t numbers[MOST_NUMBERS], deskrook_reply reply) {
    if (reply.first != word_at(memory.first, TRANSACTIONS_GIVEN))
        fail(about[call].name, "another number than the last given");
    if (by_calls_alone)
        note_keeper(reply.first, call == BEGIN ? 0 : (uint16_t)numbers[0]);
}

/* Whether "a row, a tail record or an open transaction bears a keeper other than 0" (Item 7 of document 02), by the words of keepers in the newest form. A keeper has 2 bytes: of
 * a word with more the lower half counts. */
static int bears_keeper(const struct layout *l) {
    const uint32_t *base = l->base;
    const uint8_t *m = memory.first;
    int any = 0;
    for (size_t row = 0; row < word_at(m, ROWS_GIVEN); row++)
        any |= word_at(m, base[ROW_KEEPER] + row) % HALF != 0;
    for (size_t range = 0; range < l->ranges; range++)
        for (size_t slot = range * l->capacity; slot < range * l->capacity + word_at(m, base[USED] + range); slot++)
            any |= word_at(m, base[TAIL_KEEPER] + slot) % HALF != 0;
    for (size_t entry = 0; entry < base[OPENS + 1] - base[OPENS]; entry++)
        any |= word_at(m, base[OPENS] + entry) != 0 && word_at(m, base[OPEN_KEEPER] + entry) % HALF != 0;
    return any;
}

/* The result that a move of a usable store must have: "2 for either memory (the second by its length alone)", then 22 on moving back. */
static uint32_t due_of_move(enum call call, const struct layout *from) {
    struct layout to = other_form(from);
    int any = call == DOWNGRADE && bears_keeper(from);
    if (call == DOWNGRADE && by_calls_alone && any != any_keeper(from, memory.first))
        fail(about[call].name, "the words of keepers are not by those who began the transactions");
    return second.length < layout_need(&to) ? DESKROOK_MEMORY : any ? DESKROOK_KEEPER : DESKROOK_OK;
}

/* After an accepted move: the way back, "with no call between", gives the needed bytes again. From the newest form these are all words but those of keepers, which become 0; in a
 * store that calls alone have written they were 0, where the move was accepted. */
static void judge_way_back(enum call call, const struct layout *from) {
    const char *name = about[call].name;
    size_t need = layout_need(from), shared = (size_t)from->base[ROW_KEEPER] * 4;
    lend(&back, need, second.first == second.room);
    memset(back.first, UNWRITTEN, back.length);
    keep(&second);
    deskrook_reply reply = call == UPGRADE ? deskrook_downgrade(second.first, second.length, lent_scans(), entries(), back.first, back.length)
                                           : deskrook_upgrade(second.first, second.length, lent_scans(), entries(), back.first, back.length);
    if (reply.result != DESKROOK_OK)
        fail(name, "there is no way back");
    look_around(name, &back);
    look_around(name, &second);
    if (changed(&second) || changed(&memory) || changed(&list))
        fail(name, "the way back changed another byte than those it is lent to write");
    if (memcmp(back.first, memory.first, by_calls_alone ? need : shared) != 0)
        fail(name, "there and back the bytes are others");
    for (size_t at = shared; at < need; at++)
        if (back.first[at] != 0)
            fail(name, "there and back there is a keeper");
}

/* After an accepted move of a store of this layout. */
static void judge_move(enum call call, const struct layout *from) {
    const char *name = about[call].name;
    struct layout to = other_form(from), found;
    size_t need = layout_need(&to), shared = (size_t)from->base[ROW_KEEPER] * 4;
    const char *fact = failing_fact(&found, ON_BOTH, second.first, second.length, lent_scans(), entries());
    if (fact != NULL)
        fail_by_fact(name, "in the second memory this", fact);
    deskrook_reply checked = deskrook_check(second.first, second.length, lent_scans(), entries());
    if (checked.result != DESKROOK_OK || checked.first != to.form)
        fail(name, "the second memory is no store of the other form");
    if (memcmp(second.before + need, second.first + need, second.length - need) != 0)
        fail(name, "a byte past the need of the second memory changed");
    if (word_at(second.first, COLUMNS_AND_FORM) % HALF != to.columns || memcmp(second.first + 4, memory.first + 4, shared - 4) != 0)
        fail(name, "the second memory has other words than the first");
    for (size_t at = shared; at < need; at++)
        if (second.first[at] != 0)
            fail(name, "the second memory has a keeper");
    judge_way_back(call, from);

    int open = 0;
    for (size_t at = from->base[OPENS]; at < from->base[OPENS + 1]; at++)
        open |= word_at(memory.first, at) != 0;
    for (size_t at = 0; at < entries(); at++)
        open |= lent_scans()[at].number != 0;
    upgraded += call == UPGRADE;
    downgraded += call == DOWNGRADE;
    moved_by_calls_alone += by_calls_alone;
    moved_open += open;
}

/* "The memory moved to is then the store": what was moved is lent as the memory from now on. */
static void go_on_in_second(void) {
    lend(&memory, second.length, second.first != second.room);
    memcpy(memory.first, second.first, second.length);
}

/* Makes a call with these numbers, and with values, stamps and second memory as they are lent, and judges it. */
static deskrook_reply judged_call(enum call call, const uint32_t numbers[MOST_NUMBERS]) {
    const char *name = about[call].name;
    int does = about[call].does;
    struct layout layout;
    const char *fact = failing(&layout, about[call].forms);
    keep(&memory);
    keep(&list);
    deskrook_reply reply = make_call(call, numbers);
    uint32_t result = reply.result;
    calls++;
    damaged += fact != NULL;
    if (result != DESKROOK_OK && result != DESKROOK_NONE && !is_refusal(result))
        fail(name, "no such result");
    ways[call * 64 + result] = 1;

    if (call == MAKE || call == BYTES_NEEDED) {
        uint32_t need = 0;
        if (result != due(call, numbers, &need))
            fail(name, "another result is due");
        if (call == BYTES_NEEDED && reply.first != need)
            fail(name, "another need is due");
    } else if (fact != NULL) {
        if (result != DESKROOK_MEMORY)
            fail_by_fact(name, "another answer than 2 where this", fact);
    } else if (is_move(call)) {
        if (result != due_of_move(call, &layout))
            fail(name, "another result is due");
    } else if (result == DESKROOK_MEMORY) {
        fail(name, "2 where no fact fails");
    } else if (result != DESKROOK_OK && result != DESKROOK_NONE && !(about[call].refusals & MAY(result))) {
        fail(name, "a refusal that the call does not have");
    } else if (result == DESKROOK_NONE && !(does & MAY_BE_NONE)) {
        fail(name, "none from a call that reads no row");
    } else {
        judge_time(call, numbers, result);
    }
    int ok = result == DESKROOK_OK;
    if ((reply.first != 0 && !(ok && does & HAS_FIRST)) || (reply.second != 0 && !(ok && does & HAS_SECOND)) || (reply.stamp != 0 && !(ok && does & HAS_STAMP)) ||
        (reply.sum != 0 && !(ok && does & HAS_SUM)))
        fail(name, "a field that the answer does not have is filled");
    if (ok && does & HAS_STAMP && reply.stamp > latest_stamp(call, numbers))
        fail(name, "a stamp after the reader's");

    look_around(name, &memory);
    look_around(name, &list);
    look_around(name, &values);
    look_around(name, &stamps);
    if (changed(&values))
        fail(name, "a value changed");
    if (call == CROSSINGS) {
        look_behind_list(reply);
        if (fact == NULL)
            judge_crossings(&layout, numbers, reply);
    }
    if (call == READ_AT || call == KEEPER_AT)
        judge_keeper(fact == NULL ? &layout : NULL, call, numbers, reply);
    if (call == CHECK && ok && reply.first != layout.form)
        fail(name, "another form than the memory's");
    if (is_move(call)) {
        look_around(name, &second);
        if (!ok && changed(&second))
            fail(name, "a byte of the second memory changed, though nothing was to be moved");
    }
    if (ok && call != BYTES_NEEDED) {
        judge_accepted(call);
        if (call == MERGE)
            judge_merge(&layout, numbers);
        if (call != MAKE && layout.form != FIRST_FORM)
            judge_keeper_words(call, &layout, numbers, reply);
        if (call == BEGIN || call == BEGIN_AS)
            note_begun(call, numbers, reply);
        if (is_move(call)) {
            judge_move(call, &layout);
            go_on_in_second();
        }
        judge_scans(call, numbers, reply);
        on_first += call != MAKE && layout.form == FIRST_FORM;
    } else if (changed(&memory) || changed(&list)) {
        fail(name, "a byte changed, though nothing was to be done");
    }

    accepted += ok;
    nones += result == DESKROOK_NONE;
    if (!ok && result != DESKROOK_NONE)
        refused[result]++;
    return reply;
}

/* ---- an input ---- */

/* Most often the crossings are of a cell that some record has set, by a mark that is the value or the number above it. */
static void aim_at_record(struct input *in, uint32_t numbers[MOST_NUMBERS]) {
    struct layout layout;
    uint32_t first = take(in, 1);
    if (first >= 0xE0 || failing(&layout, ON_BOTH) != NULL)
        return;
    uint32_t range = first % layout.ranges, used = word_at(memory.first, layout.base[USED] + range);
    if (used == 0)
        return;
    size_t slot = (size_t)range * layout.capacity + take(in, 1) % used;
    uint32_t column = 0, mask = word_at(memory.first, layout.base[TAIL_MASK] + slot);
    while (column + 1 < layout.columns && (mask >> column & 1) == 0)
        column++;
    numbers[0] = word_at(memory.first, layout.base[TAIL_ROW] + slot);
    numbers[1] = column;
    numbers[2] = word_at(memory.first, layout.base[TAIL_VALUES] + slot * layout.columns + column) + (first >> 4 & 1);
}

static void call_from_input(enum call call, struct input *in) {
    uint32_t numbers[MOST_NUMBERS] = {0};
    for (size_t i = 0; about[call].kinds[i] != 0; i++)
        numbers[i] = number(in, about[call].kinds[i]);
    if (call == INSERT || call == UPDATE)
        lend_values(in);
    if (call == CROSSINGS) {
        lend_stamps(in);
        aim_at_record(in, numbers);
    }
    if (is_move(call))
        lend_second(in);
    judged_call(call, numbers);
}

/* A transaction of its own sets a column of a row, or inserts one where the row is not given, now and then sets it again, and commits: single calls seldom come to that. Its
 * keeper is unknown, as it must be in form 1, or one of a few. */
static void commit_setting(struct input *in) {
    uint32_t row = number(in, 'r'), mask = UINT32_C(1) << number(in, 'c') % 16, stamp = number(in, 'p'), keeper = number(in, 'w');
    int again = take(in, 1) % 4 == 3;
    deskrook_reply begun = judged_call(keeper == 0 || form() == FIRST_FORM ? BEGIN : BEGIN_AS, (const uint32_t[MOST_NUMBERS]){keeper});
    if (begun.result != DESKROOK_OK)
        return;
    lend_values(in);
    if (row < header(ROWS_GIVEN))
        judged_call(UPDATE, (const uint32_t[MOST_NUMBERS]){begun.first, row, mask});
    else
        row = judged_call(INSERT, (const uint32_t[MOST_NUMBERS]){begun.first}).first;
    if (again) {
        lend_values(in);
        judged_call(UPDATE, (const uint32_t[MOST_NUMBERS]){begun.first, row, mask});
    }
    /* Refused, it would hold its row from then on. */
    if (judged_call(COMMIT, (const uint32_t[MOST_NUMBERS]){begun.first, stamp}).result != DESKROOK_OK)
        judged_call(ABORT, (const uint32_t[MOST_NUMBERS]){begun.first});
}

static void put_word(struct lent *lent, size_t at, uint32_t word) {
    for (int i = 0; i < 4; i++)
        lent->first[4 * at + i] = (uint8_t)(word >> (8 * i));
}

/* A word of memory or list becomes any number, another word of it, a number beside the one that is there, one with another high half, which makes the other form of the header's
 * first, or the greatest transaction or scan number. */
static void damage(struct lent *lent, struct input *in) {
    size_t words = lent->length / 4;
    if (words == 0)
        return;
    /* The header has few words, of which much hangs. */
    uint32_t first = take(in, 1);
    size_t at = (first < 0x40 ? first % HEADER_WORDS : take(in, 2)) % words;
    uint32_t old = word_at(lent->first, at), way = take(in, 1), new;
    switch (way % 6) {
    case 0: new = any(in); break;
    case 1: new = word_at(lent->first, take(in, 2) % words); break;
    case 2: new = old + 1; break;
    case 3: new = old - 1; break;
    case 4: new = old ^ HALF; break;
    default: new = 65535; break;
    }
    put_word(lent, at, new);
}

/* All words of keepers become other numbers, by which no fact fails. */
static void damage_keepers(struct input *in) {
    struct layout layout;
    uint32_t first = any(in);
    if (failing(&layout, ON_NEWEST) != NULL)
        return;
    for (uint32_t at = layout.base[ROW_KEEPER]; at < layout.base[REGIONS]; at++)
        put_word(&memory, at, first * (2 * at + 1));
}

/* What a step is: 0 a setting, then each call, then again those that make a history, begin to abort, then the damages. */
enum { AGAIN = CALLS + 1, DAMAGES = AGAIN + ABORT + 1, DAMAGE_MEMORY = DAMAGES, DAMAGE_LIST, DAMAGE_KEEPERS, OTHER_LENGTH, OTHER_PLACES, STEPS };

enum { AT_END = 0x01, LIST_AT_END = 0x02, RAW = 0x0C, ANY_LENGTH = 0x30, ANY_PLACES = 0xC0, MEASURED = 0x03, MOST_STEPS = 400 };

/* Inserts rows until all are given. A store that is not usable refuses it. */
static void fill_rows(void) {
    const deskrook_scan_entry *s = (const deskrook_scan_entry *)(const void *)list.first;
    uint32_t transaction = deskrook_begin(memory.first, memory.length, s, entries()).first;
    note_keeper(transaction, 0);
    while (deskrook_insert(memory.first, memory.length, s, entries(), transaction, (const int32_t *)(const void *)values.first, 0).result == DESKROOK_OK) {
    }
    deskrook_commit(memory.first, memory.length, s, entries(), transaction, 1);
}

static int all_of(uint32_t flags, uint32_t some) {
    return (flags & some) == some;
}

/* Makes a store of this layout in the lent memory, where it is long enough. Form 1 is made no more, but has the words that the newest form's making leaves, without the keepers
 * and with the columns alone in the first. The bytes past the need can be any, and so can the words of the header that are not used. */
static void make_in_form(const struct layout *l) {
    struct layout newest = l->form == FIRST_FORM ? other_form(l) : *l;
    size_t length = memory.length, need = layout_need(l);
    int at_end = memory.first != memory.room;
    if (length < need)
        return;
    if (length < layout_need(&newest))
        lend(&memory, layout_need(&newest), at_end);
    deskrook_make(memory.first, memory.length, (deskrook_scan_entry *)(void *)list.first, entries(), l->columns, l->ranges, l->capacity, l->pages - l->chunks);
    lend(&memory, length, at_end);
    put_word(&memory, COLUMNS_AND_FORM, l->columns + HALF * (l->form - 1));
    for (size_t at = COMMITS_MADE + 1; at < HEADER_WORDS; at++)
        put_word(&memory, at, UINT32_C(0x9E3779B9) * (uint32_t)at);
    memset(memory.first + need, UNWRITTEN, length - need);
}

enum { IN_NEWEST = 0x01, UNKNOWN = 0x02 };

/* The first bytes choose what is lent: a store of a small shape in form 1 or the newest, or the input's own bytes, with or without good measures. */
static void begin_input(struct input *in) {
    uint32_t flags = take(in, 1), forms = take(in, 1);
    uint32_t measures[4] = {1 + take(in, 1) % 4, 1 + take(in, 1) % 3, 1 + take(in, 1) % 8, take(in, 1) % 5};
    struct layout layout;
    mostly_unknown = (forms & UNKNOWN) != 0;
    layout_of(&layout, forms & IN_NEWEST ? NEWEST_FORM : FIRST_FORM, measures[0], measures[1], measures[2], measures[3]);
    size_t need = layout_need(&layout), bytes = need + take(in, 1) % 8, count = DESKROOK_SCANS + take(in, 1) % 8;
    if (all_of(flags, ANY_LENGTH))
        bytes = take(in, 2) % (memory.size + 1);
    if (all_of(flags, ANY_PLACES))
        count = take(in, 1) % (MOST_PLACES + 1);
    memory.length = second.length = list.length = 0;
    lend(&memory, bytes, flags & AT_END);
    lend(&list, count * sizeof(deskrook_scan_entry), flags & LIST_AT_END);
    memset(opened, 0, sizeof opened);
    by_calls_alone = !all_of(flags, RAW);
    if (by_calls_alone) {
        make_in_form(&layout);
        if (take(in, 1) >= 0xC0)
            fill_rows();
        return;
    }
    size_t own = in->left / 2 < bytes ? in->left / 2 : bytes;
    memcpy(memory.first, in->data, own);
    in->data += own;
    in->left -= own;
    measures[0] += HALF * (layout.form - 1);
    for (size_t i = 0; !all_of(flags, MEASURED) && i < 16 && i < bytes; i++)
        memory.first[i] = (uint8_t)(measures[i / 4] >> (8 * (i % 4)));
}

int LLVMFuzzerTestOneInput(const uint8_t *data, size_t size) {
    if (inputs++ == 0) {
        reserve(&memory, 4);
        reserve(&second, 4);
        reserve(&back, 4);
        reserve(&list, 1);
        reserve(&values, 1);
        reserve(&stamps, 1);
        lend(&values, 0, 1);
        lend(&stamps, 0, 1);
        atexit(say_counts);
    }
    struct input in = {data, size};
    begin_input(&in);
    int undo = -1; /* the step at which memory and list are again as they were before the damage */
    int saved_by_calls_alone = 0;
    for (int step = 0; step < MOST_STEPS && in.left > 0; step++) {
        if (step == undo) {
            restore(&memory, step & 1);
            restore(&list, step & 2);
            by_calls_alone = saved_by_calls_alone;
            undo = -1;
        }
        /* A zero byte is a setting: libFuzzer likes runs of them, and begin is soon refused. */
        uint32_t what = take(&in, 1) % STEPS;
        if (what == 0) {
            commit_setting(&in);
        } else if (what < AGAIN) {
            call_from_input((enum call)(what - 1), &in);
        } else if (what < DAMAGES) {
            call_from_input((enum call)(what - AGAIN), &in);
        } else {
            uint32_t steps = take(&in, 1) % 32;
            if (undo < step && steps > 0) {
                save(&memory);
                save(&list);
                saved_by_calls_alone = by_calls_alone;
                undo = step + 1 + (int)(steps % 8);
            }
            by_calls_alone = 0;
            if (what == DAMAGE_MEMORY)
                damage(&memory, &in);
            else if (what == DAMAGE_LIST)
                damage(&list, &in);
            else if (what == DAMAGE_KEEPERS)
                damage_keepers(&in);
            else if (what == OTHER_LENGTH)
                lend(&memory, any(&in) % (memory.size + 1), step & 1);
            else
                lend(&list, take(&in, 1) % (MOST_PLACES + 1) * sizeof(deskrook_scan_entry), step & 1);
        }
    }
    return 0;
}
