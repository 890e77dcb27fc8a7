/* nulls.c: NULL for every pointer of phelgomrit.h, with length 0 and with other lengths: the number that is given, and
 * that a refused call leaves all that is kept and lent as it was. Also the refusals' names and the version. It needs no
 * other file of the test. */
#include "nulls.h"
#include <limits.h>
#include <stdio.h>
#include <string.h>
#include "phelgomrit.h"

enum { SIZE = 4, BUFFER = 4, FIRST = 15, ITEMS = 2 };

/* All that a call may change: what is kept, what is lent, where answers go. */
struct desk {
    struct phel_sender sender;
    struct phel_sender unset; /* its settings are out of range */
    struct phel_sender worn;  /* its settings are in range, and a book rule is broken */
    struct phel_timers timers;
    struct phel_timers worn_timers;
    uint64_t ring[PHEL_RING_WORDS(BUFFER)];
    uint32_t lost[PHEL_LOST_WORDS(BUFFER)];
    uint8_t store[PHEL_STORE_BYTES(BUFFER, SIZE)];
    uint8_t records[PHEL_RECORDS_BYTES(BUFFER, BUFFER)];
    uint32_t runs[PHEL_RUNS_WORDS(ITEMS)];
    uint8_t header[PHEL_HEADER_BYTES];
    struct phel_messaged messaged;
    struct phel_acked acked;
    struct phel_ran ran;
    struct phel_found found;
    struct phel_reports reports;
    size_t count;
    uint32_t periods;
    uint64_t wake;
};

static struct desk d, start; /* |start| is what |d| is at the begin of each case */
static struct phel_areas lent;
static struct phel_refusal why;
static long failures;

static const struct phel_settings settings = {FIRST, SIZE, BUFFER, 8, 0, 0, 0};
static const struct phel_areas whole = {
    d.ring, PHEL_RING_WORDS(BUFFER), d.lost, PHEL_LOST_WORDS(BUFFER), d.store, PHEL_STORE_BYTES(BUFFER, SIZE),
};
static const uint8_t bytes[13] = {1, 2, 3, 4, 5, 6, 7, 8, 9, 10, 11, 12, 13};
static const uint32_t words[ITEMS] = {FIRST, FIRST + 1};
static const uint64_t late = UINT64_MAX;

static void check(bool well, const char *what)
{
    if (well)
        return;
    failures++;
    printf("nulls: FAILED: %s\n", what);
}

static void begin(void)
{
    memcpy(&d, &start, sizeof d);
    memset(&why, 0xee, sizeof why);
    lent = whole;
}

static void settle(int wanted, int number, bool told, const char *call)
{
    char line[300];
    if (number != wanted || (told && why.number != (uint32_t)number)) {
        snprintf(line, sizeof line, "%s gives %d and not %d", call, number, wanted);
        check(false, line);
    }
    if (number != 0 && memcmp(&d, &start, sizeof d) != 0) {
        snprintf(line, sizeof line, "%s is refused and changes something", call);
        check(false, line);
    }
}

/* A call, and the number that it must give; TELLS where it also writes |why|. */
#define GIVES(wanted, call) (begin(), settle((wanted), (call), false, #call))
#define TELLS(wanted, call) (begin(), settle((wanted), (call), true, #call))

/* Timers, and a sender with two of its four packets sent, the first of them reported lost. */
static bool open_desk(void)
{
    bool well;
    memset(&d, 0xee, sizeof d);
    lent = whole;
    well = phel_sender_new(&d.sender, &settings, PHEL_MODE_UNLIMITED, 0, 0, NULL) == 0 &&
           phel_sender_message(&d.sender, &lent, 5, 5, bytes, sizeof bytes, NULL, NULL) == 0 &&
           phel_sender_run(&d.sender, &lent, 5, 1, false, d.records, sizeof d.records, NULL, NULL) == 0 &&
           phel_sender_nak(&d.sender, &lent, words, 1, d.runs, PHEL_RUNS_WORDS(1), NULL, NULL) == 0 &&
           phel_timers_new(&d.timers, 0, 1000, 1000) == 0;
    d.unset = d.worn = d.sender;
    d.unset.settings.size = 0;
    d.worn.books.message = UINT32_MAX;
    d.worn_timers = d.timers;
    d.worn_timers.exp_count = 0;
    memcpy(&start, &d, sizeof d);
    return well && d.sender.books.sent == 2 && d.sender.books.lost == 1;
}

/* ---- What is lent ---------------------------------------------------------------------------------------------- */

enum area { RING, LOST, STORE, ALL };

/* The areas with one of them NULL, of length |len|, or no areas at all. */
static const struct phel_areas *without(enum area a, size_t len)
{
    if (a == RING) {
        lent.ring = NULL;
        lent.ring_len = len;
    } else if (a == LOST) {
        lent.lost = NULL;
        lent.lost_len = len;
    } else if (a == STORE) {
        lent.store = NULL;
        lent.store_len = len;
    }
    return a == ALL ? NULL : &lent;
}

/* Every call, with |a| NULL and of length |len|. Only a message and a payload need the store. */
static void area_cases(enum area a, size_t len)
{
    const int other = a == STORE ? 0 : PHEL_BAD_STORE;
    TELLS(PHEL_BAD_STORE, phel_sender_message(&d.sender, without(a, len), 5, 5, bytes, 4, &d.messaged, &why));
    TELLS(PHEL_BAD_STORE, phel_sender_message(&d.sender, without(a, len), late, 5, NULL, 4, &d.messaged, &why));
    TELLS(PHEL_BAD_STORE, phel_sender_message(&d.worn, without(a, len), 5, 5, bytes, 4, &d.messaged, &why));
    TELLS(PHEL_BAD_STATE, phel_sender_message(&d.unset, without(a, len), 5, 5, bytes, 4, &d.messaged, &why));
    TELLS(PHEL_BAD_STORE, phel_sender_payload(&d.sender, without(a, len), FIRST, &d.found, &why));
    TELLS(PHEL_BAD_STATE, phel_sender_payload(&d.unset, without(a, len), FIRST, &d.found, &why));
    TELLS(other, phel_sender_ack(&d.sender, without(a, len), FIRST + 1, NULL, NULL, &d.acked, &why));
    TELLS(PHEL_BAD_STATE, phel_sender_ack(&d.unset, without(a, len), FIRST, NULL, NULL, &d.acked, &why));
    TELLS(other, phel_sender_nak(&d.sender, without(a, len), words, 1, d.runs, 9, &d.count, &why));
    TELLS(PHEL_BAD_STATE, phel_sender_nak(&d.unset, without(a, len), words, 1, d.runs, 9, &d.count, &why));
    TELLS(other, phel_sender_run(&d.sender, without(a, len), 5, 1, false, d.records, sizeof d.records, &d.ran, &why));
    TELLS(PHEL_BAD_STATE, phel_sender_run(&d.unset, without(a, len), 5, 1, false, d.records, 96, &d.ran, &why));
    TELLS(other, phel_sender_reports(&d.sender, without(a, len), &d.reports, &why));
    TELLS(PHEL_BAD_STATE, phel_sender_reports(&d.unset, without(a, len), &d.reports, &why));
}

/* Lists for answers. */
static void list_cases(size_t len)
{
    TELLS(PHEL_NO_ROOM, phel_sender_run(&d.sender, &lent, 5, 1, false, NULL, len, &d.ran, &why));
    TELLS(PHEL_NO_ROOM, phel_sender_run(&d.sender, &lent, 5, 0, false, NULL, len, &d.ran, &why));
    TELLS(PHEL_BAD_TIME, phel_sender_run(&d.sender, &lent, late, 1, false, NULL, len, &d.ran, &why));
    TELLS(PHEL_NO_ROOM, phel_sender_nak(&d.sender, &lent, words, 1, NULL, len, &d.count, &why));
    TELLS(0, phel_sender_nak(&d.sender, &lent, words, 0, NULL, len, &d.count, &why));
    check(d.count == 0, "a report without words has runs");
}

/* ---- What is read ---------------------------------------------------------------------------------------------- */

/* A message and a loss report of |len| elements that aren't there. */
static void missing_cases(size_t len)
{
    TELLS(PHEL_BAD_STORE, phel_sender_message(&d.sender, &lent, 5, 5, NULL, len, &d.messaged, &why));
    TELLS(PHEL_BAD_STORE, phel_sender_message(&d.sender, &lent, late, late, NULL, len, &d.messaged, &why));
    TELLS(PHEL_BAD_STORE, phel_sender_message(&d.worn, &lent, 5, 5, NULL, len, &d.messaged, &why));
    TELLS(PHEL_BAD_STATE, phel_sender_message(&d.unset, &lent, 5, 5, NULL, len, &d.messaged, &why));
    TELLS(PHEL_BAD_STORE, phel_sender_nak(&d.sender, &lent, NULL, len, d.runs, 18, &d.count, &why));
    TELLS(PHEL_BAD_STORE, phel_sender_nak(&d.sender, &lent, NULL, len, NULL, 0, &d.count, &why));
    TELLS(PHEL_BAD_STORE, phel_sender_nak(&d.worn, &lent, NULL, len, d.runs, 18, &d.count, &why));
    TELLS(PHEL_BAD_STATE, phel_sender_nak(&d.unset, &lent, NULL, len, d.runs, 18, &d.count, &why));
}

/* NULL of length 0 is an empty message, which becomes one empty packet, and an empty report. */
static void empty_cases(void)
{
    TELLS(0, phel_sender_message(&d.sender, &lent, 5, 5, NULL, 0, &d.messaged, &why));
    check(d.messaged.made == 1 && d.messaged.removed == 1, "an empty message is not one packet");
    check(phel_sender_payload(&d.sender, &lent, FIRST + BUFFER, &d.found, NULL) == 0 && d.found.len == 0,
          "an empty message's packet is not empty");
    check(memcmp(d.store, start.store, sizeof d.store) == 0, "an empty message changes the store");
    TELLS(PHEL_BAD_TIME, phel_sender_message(&d.sender, &lent, late, 5, NULL, 0, &d.messaged, &why));
    TELLS(0, phel_sender_nak(&d.sender, &lent, NULL, 0, d.runs, 18, &d.count, &why));
    check(d.count == 0 && memcmp(d.lost, start.lost, sizeof d.lost) == 0 &&
              memcmp(d.runs, start.runs, sizeof d.runs) == 0,
          "an empty report changes a list");
}

/* No sender: whatever else is wrong, its books are. */
static void sender_cases(void)
{
    TELLS(PHEL_BAD_STATE, phel_sender_message(NULL, &lent, 5, 5, bytes, 4, &d.messaged, &why));
    TELLS(PHEL_BAD_STATE, phel_sender_message(NULL, NULL, late, 5, NULL, 4, &d.messaged, &why));
    TELLS(PHEL_BAD_STATE, phel_sender_ack(NULL, &lent, FIRST, NULL, NULL, &d.acked, &why));
    TELLS(PHEL_BAD_STATE, phel_sender_ack(NULL, NULL, UINT32_MAX, words, NULL, &d.acked, &why));
    TELLS(PHEL_BAD_STATE, phel_sender_nak(NULL, &lent, words, 1, d.runs, 9, &d.count, &why));
    TELLS(PHEL_BAD_STATE, phel_sender_nak(NULL, NULL, NULL, 1, NULL, 9, &d.count, &why));
    TELLS(PHEL_BAD_STATE, phel_sender_run(NULL, &lent, 5, 1, false, d.records, sizeof d.records, &d.ran, &why));
    TELLS(PHEL_BAD_STATE, phel_sender_run(NULL, NULL, late, 1, false, NULL, 0, &d.ran, &why));
    TELLS(PHEL_BAD_STATE, phel_sender_payload(NULL, &lent, FIRST, &d.found, &why));
    TELLS(PHEL_BAD_STATE, phel_sender_payload(NULL, NULL, UINT32_MAX, &d.found, &why));
    TELLS(PHEL_BAD_STATE, phel_sender_reports(NULL, &lent, &d.reports, &why));
    TELLS(PHEL_BAD_STATE, phel_sender_reports(NULL, NULL, &d.reports, &why));
    TELLS(PHEL_BAD_SETTING, phel_sender_new(NULL, &settings, PHEL_MODE_UNLIMITED, 0, 0, &why));
    TELLS(PHEL_BAD_SETTING, phel_sender_new(&d.sender, NULL, PHEL_MODE_UNLIMITED, 0, 0, &why));
    TELLS(PHEL_BAD_SETTING, phel_sender_new(NULL, NULL, 4, 0, 0, &why));
    TELLS(0, phel_sender_new(&d.sender, &settings, PHEL_MODE_UNLIMITED, 0, 0, &why));
}

/* ---- What may be left out -------------------------------------------------------------------------------------- */

/* |answer| and |why|, of accepted calls and of refused ones; the rest of an ACK. */
static void unasked_cases(void)
{
    const struct phel_rtt rtt = {20000, 5000};
    const uint32_t full = 1, stale = 0;
    GIVES(0, phel_sender_new(&d.sender, &settings, PHEL_MODE_UNLIMITED, 0, 0, NULL));
    GIVES(PHEL_BAD_SETTING, phel_sender_new(&d.sender, &settings, 4, 0, 0, NULL));
    GIVES(0, phel_sender_message(&d.sender, &lent, 5, 5, bytes, 4, NULL, NULL));
    GIVES(PHEL_BAD_STORE, phel_sender_message(&d.sender, &lent, 5, 5, NULL, 4, NULL, NULL));
    GIVES(0, phel_sender_nak(&d.sender, &lent, words, 2, d.runs, 18, NULL, NULL));
    GIVES(PHEL_BAD_STORE, phel_sender_nak(&d.sender, &lent, NULL, 2, d.runs, 18, NULL, NULL));
    GIVES(0, phel_sender_run(&d.sender, &lent, 5, 1, false, d.records, sizeof d.records, NULL, NULL));
    GIVES(PHEL_NO_ROOM, phel_sender_run(&d.sender, &lent, 5, 1, false, NULL, 0, NULL, NULL));
    GIVES(0, phel_sender_payload(&d.sender, &lent, FIRST, NULL, NULL));
    GIVES(PHEL_NOT_HELD, phel_sender_payload(&d.sender, &lent, 0, NULL, NULL));
    GIVES(0, phel_sender_reports(&d.sender, &lent, NULL, NULL));
    GIVES(0, phel_sender_ack(&d.sender, &lent, FIRST + 1, &full, &rtt, NULL, NULL));
    check(d.sender.books.rtt.mean == rtt.mean && d.sender.books.expected == 2, "an ACK's numbers are not taken");
    TELLS(0, phel_sender_ack(&d.sender, &lent, FIRST + 1, NULL, NULL, &d.acked, &why));
    check(d.sender.books.rtt.mean == 100000 && d.sender.books.expected == 1 && !d.acked.full && d.acked.received == 1,
          "an ACK brings what was left out");
    TELLS(PHEL_STALE_FULL_ACK, phel_sender_ack(&d.sender, &lent, FIRST, &stale, NULL, &d.acked, &why));
}

/* ---- Timers and readers ---------------------------------------------------------------------------------------- */

static void timer_cases(void)
{
    const struct phel_rtt rtt = {20000, 5000}, bad = {UINT32_MAX, 0};
    GIVES(PHEL_BAD_SETTING, phel_timers_new(NULL, 0, 1000, 1000));
    GIVES(PHEL_BAD_SETTING, phel_timers_new(NULL, late, 1000, 1000));
    GIVES(PHEL_BAD_STATE, phel_timers_next_timer(NULL, 5, true, NULL, 0, &d.wake));
    GIVES(PHEL_BAD_STATE, phel_timers_next_timer(NULL, late, true, &late, 0, &d.wake));
    GIVES(PHEL_BAD_STATE, phel_timers_check_snd(NULL, 5, &d.periods));
    GIVES(PHEL_BAD_STATE, phel_timers_check_full_ack(NULL, 5, &d.periods));
    GIVES(PHEL_BAD_STATE, phel_timers_check_nak(NULL, 5, &d.periods));
    GIVES(PHEL_BAD_STATE, phel_timers_check_statistics(NULL, late, &d.periods));
    GIVES(PHEL_BAD_STATE, phel_timers_check_peer_idle_timeout(NULL, late, NULL));
    GIVES(PHEL_BAD_STATE, phel_timers_update_snd_period(NULL, 1000));
    GIVES(PHEL_BAD_SETTING, phel_timers_update_snd_period(NULL, late));
    GIVES(PHEL_BAD_STATE, phel_timers_update_rtt(NULL, &rtt));
    GIVES(PHEL_BAD_STATE, phel_timers_update_rtt(NULL, &bad));
    GIVES(PHEL_BAD_STATE, phel_timers_update_rtt(NULL, NULL));
    GIVES(PHEL_BAD_RTT, phel_timers_update_rtt(&d.timers, NULL));
    GIVES(PHEL_BAD_STATE, phel_timers_update_rtt(&d.worn_timers, NULL));
    GIVES(PHEL_BAD_STATE, phel_timers_reset_exp(NULL, 5));
    GIVES(PHEL_BAD_STATE, phel_timers_reset_exp(NULL, late));
    GIVES(0, phel_timers_next_timer(&d.timers, 5, true, NULL, 0, NULL));
    GIVES(0, phel_timers_check_snd(&d.timers, 5, NULL));
    GIVES(0, phel_timers_check_full_ack(&d.timers, 5, NULL));
    GIVES(0, phel_timers_check_nak(&d.timers, 5, NULL));
    GIVES(0, phel_timers_check_statistics(&d.timers, 5, NULL));
    GIVES(0, phel_timers_check_peer_idle_timeout(&d.timers, 5, NULL));
}

static void reader_cases(void)
{
    const struct phel_action a = phel_action_at(NULL, 3);
    const struct phel_loss_run r = phel_loss_run_at(NULL, 3);
    check(a.kind == 0 && a.place == 0 && !a.again && a.len == 0 && a.number == 0 && a.message == 0 && a.end == 0 &&
              a.unacked == 0 && a.stamp == 0 && a.window == 0 && a.time == 0,
          "a record of no list is not zeros");
    check(r.kind == 0 && r.first == 0 && r.end == 0, "a run of no list is not zeros");
    check(!phel_action_sends(NULL), "no record says to send");
    begin();
    phel_packet_header(NULL, 3, true, 5, 0, 1000, 1);
    phel_action_header(NULL, &a, 1);
    phel_action_header(d.header, NULL, 1);
    phel_action_header(NULL, NULL, 1);
    check(memcmp(&d, &start, sizeof d) == 0, "a header of no record is made");
    phel_action_header(d.header, &a, 1);
    check(memcmp(d.header, start.header, sizeof d.header) != 0, "a header is not made");
}

/* ---- Names and version ----------------------------------------------------------------------------------------- */

static void name_cases(void)
{
    static const char *const names[] = {
        [0] = "Accepted",
        [PHEL_BAD_SETTING] = "BadSetting", [PHEL_BAD_STORE] = "BadStore", [PHEL_BAD_STATE] = "BadState",
        [PHEL_BAD_TIME] = "BadTime", [PHEL_TOO_LONG] = "TooLong", [PHEL_COUNT_FULL] = "CountFull",
        [PHEL_BAD_NUMBER] = "BadNumber", [PHEL_BAD_RTT] = "BadRtt", [PHEL_EMPTY] = "Empty",
        [PHEL_INVALID_ACK] = "InvalidAck", [PHEL_STALE_FULL_ACK] = "StaleFullAck", [PHEL_BAD_NAK] = "BadNak",
        [PHEL_NO_ROOM] = "NoRoom", [PHEL_NOT_HELD] = "NotHeld",
    };
    static const int others[] = {-1, PHEL_NOT_HELD + 1, INT_MAX, INT_MIN};
    char version[40];
    for (int i = 0; i <= PHEL_NOT_HELD; i++)
        check(strcmp(phel_refusal_name(i), names[i]) == 0, names[i]);
    for (size_t i = 0; i < sizeof others / sizeof others[0]; i++)
        check(strcmp(phel_refusal_name(others[i]), "Unknown") == 0, "a number that no call returns has a name");
    snprintf(version, sizeof version, "%d.%d.%d", PHEL_VERSION_MAJOR, PHEL_VERSION_MINOR, PHEL_VERSION_PATCH);
    check(strcmp(version, PHEL_VERSION) == 0, "PHEL_VERSION and its numbers differ");
}

long nulls_cases(void)
{
    static const size_t lengths[] = {0, 1, 100, PHEL_WORDS_MOST + 1, PHEL_MESSAGE_MOST + 1, SIZE_MAX};
    check(open_desk(), "the desk can't be opened");
    for (size_t i = 0; i < sizeof lengths / sizeof lengths[0]; i++) {
        for (int a = RING; a <= ALL; a++)
            area_cases((enum area)a, lengths[i]);
        list_cases(lengths[i]);
        if (lengths[i] > 0)
            missing_cases(lengths[i]);
    }
    empty_cases();
    sender_cases();
    unasked_cases();
    timer_cases();
    reader_cases();
    name_cases();
    return failures;
}
