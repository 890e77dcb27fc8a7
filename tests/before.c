/* before.c: all that is kept and lent is copied before a call. The model makes the same call on the copy; after both the
 * number, the values, the sender and every byte lent must be alike. */
#include "outside.h"

int bent;
bool ask_all;
struct phel_refusal said;
struct copy was;
static unsigned turn;           /* counts the calls */
static struct phel_refusal why; /* of the call that is made */

/* ---- The copy */

/* Ring, loss list, store, records and runs, as bytes. */
enum { LENT = 5 };

static uint8_t *lent_at(int i, size_t *bytes)
{
    void *const at[LENT] = {desk.lent.ring, desk.lent.lost, desk.lent.store, desk.records, desk.runs};
    const size_t len[LENT] = {desk.lent.ring_len * 8, desk.lent.lost_len * 4, desk.lent.store_len, desk.records_len,
                              desk.runs_len * 4};
    *bytes = at[i] == NULL ? 0 : len[i];
    return at[i];
}

static struct {
    void *at;
    size_t room;
} copies[LENT];

static void keep(void)
{
    size_t bytes;
    memcpy(&was.sender, &desk.sender, sizeof was.sender);
    for (int i = 0; i < LENT; i++) {
        const uint8_t *at = lent_at(i, &bytes);
        if (bytes > copies[i].room) {
            free(copies[i].at);
            copies[i].at = malloc(bytes);
            copies[i].room = bytes;
        }
        if (bytes > 0)
            memcpy(copies[i].at, at, bytes);
    }
    was.ring = copies[0].at;
    was.lost = copies[1].at;
    was.store = copies[2].at;
    was.records = copies[3].at;
    was.runs = copies[4].at;
    was.ring_len = desk.lent.ring == NULL ? 0 : desk.lent.ring_len;
    was.lost_len = desk.lent.lost == NULL ? 0 : desk.lent.lost_len;
    was.store_len = desk.lent.store == NULL ? 0 : desk.lent.store_len;
    was.records_len = desk.records == NULL ? 0 : desk.records_len;
    was.runs_len = desk.runs == NULL ? 0 : desk.runs_len;
}

/* Every byte lent is as in the copy. */
static bool same_areas(void)
{
    for (int i = 0; i < LENT; i++) {
        size_t bytes;
        const uint8_t *at = lent_at(i, &bytes);
        if (bytes > 0 && memcmp(copies[i].at, at, bytes) != 0)
            return false;
    }
    return true;
}

/* ---- Before a call */

void begin_call(void)
{
    turn++;
    memset(&why, 0xee, sizeof why);
    keep();
}

bool with_answer(void)
{
    return ask_all || turn % 5 != 0;
}

struct phel_refusal *asked_why(void)
{
    return ask_all || turn % 3 != 0 ? &why : NULL;
}

/* ---- After a call */

/* The three bends, which the test must notice: a refused call changes a byte of its list, a damaged sender is accepted,
 * an element past an area is written. */
static int bend(int number)
{
    if (bent == 1 && number != 0 && desk.records_len > 0)
        desk.records[desk.records_len - 1] ^= 1;
    if (bent == 2 && number == PHEL_BAD_STATE)
        return 0;
    if (bent == 3 && number == 0)
        *(volatile uint32_t *)(desk.lent.lost + desk.lent.lost_len) = 0;
    return number;
}

/* The number, and the values where they were asked for, are document 01's. */
static void as_wanted(enum entry e, int number, const struct phel_refusal *by)
{
    const struct phel_refusal *told = asked_why();
    count_call(e, number);
    check((uint32_t)number == by->number, "another number than document 01 gives");
    check(told == NULL || same_refusal(told, by), "other values than document 01 gives");
    if (told != NULL)
        said = *told;
}

/* A refused call leaves every byte of the sender, its padding too, but for the RTT that 11 keeps. */
static void sender_stays(int number)
{
    struct phel_sender stays;
    memcpy(&stays, &was.sender, sizeof stays);
    if (number == PHEL_STALE_FULL_ACK)
        stays.books.rtt = desk.sender.books.rtt;
    check(memcmp(&stays, &desk.sender, sizeof stays) == 0, "a refused call changed the sender");
}

void settle_new(int number, const struct phel_new_answer *by)
{
    as_wanted(E_NEW, number, &by->refusal);
    if (number != 0)
        sender_stays(number);
    else
        check(same_sender(&by->sender, &desk.sender), "a fresh sender is another");
}

int settle(enum entry e, int number, const struct phel_refusal *by, const struct phel_sender *left)
{
    number = bend(number);
    as_wanted(e, number, by);
    check(same_sender(left, &desk.sender), "the sender is another than by document 01");
    check(same_areas(), number != 0 ? "a refused call changed what was lent" : "what is lent is other than by document 01");
    if (number != 0)
        sender_stays(number);
    else
        check(model_reports(desk.sender, DESK_RING, DESK_LOST).refusal.number == 0,
              "an accepted call left books that break a rule");
    return number;
}

static bool untouched(const uint8_t *at, size_t bytes)
{
    for (size_t i = 0; i < bytes; i++)
        if (at[i] != 0xee)
            return false;
    return true;
}

void check_answer(int number, const void *answer, size_t bytes, bool same)
{
    if (number == 0 && with_answer())
        check(same, "another answer than by document 01");
    else
        check(untouched(answer, bytes), "an answer was written");
}

bool once_more(int number)
{
    return number != 0 && turn % 8 == 0 && desk.lent.ring != NULL && desk.lent.lost != NULL &&
           desk.lent.store != NULL && desk.records != NULL && desk.runs != NULL;
}

void given_back(int number, const struct phel_refusal *told, const struct phel_sender *sender)
{
    check(bent != 0 || told->number == (uint32_t)number, "the entry answers another number");
    check(same_sender(sender, &desk.sender), "the entry does not give the sender back");
    check(same_areas(), "the entry changed what was lent");
}
