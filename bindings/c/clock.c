/*
 * The clock does not walk back (change request A8), from C and C++: a new cycle with a start time earlier than the latest one that the
 * state has had is 17 and changes nothing. The last line is 'N passed, M failed'.
 */
#include "tests.h"

#define EXPIRED INT64_C(1893456000)      /* 2030-01-01T00:00:00Z: every small file .. */
#define LIST_EXPIRED INT64_C(1861920000) /* 2029-01-01T00:00:00Z: .. but this list */

/* Rising: both ends, both sides of 1970 and of 32 bits, and of the times above. */
static const int64_t TIMES[] = {
    INT64_MIN,
    INT64_MIN + 1,
    INT64_C(-4294967297),
    -1,
    0,
    1,
    LIST_EXPIRED - 1,
    LIST_EXPIRED,
    EXPIRED - 1,
    EXPIRED,
    INT64_C(2147483647),
    INT64_C(2147483648),
    INT64_C(4294967295),
    INT64_C(4294967296),
    INT64_C(4294967297),
    INT64_MAX - 1,
    INT64_MAX,
};

enum { TIME_COUNT = sizeof TIMES / sizeof *TIMES };

static const held_versions NONE = {{0, 0, 0, 0}}, ROOT_ALONE = {{1, 0, 0, 0}}, ALL = {{1, 1, 1, 1}};

/* ---- A new cycle, by the latest start time */

/* An earlier time is 17 and leaves the latest in force; any other is the latest from there on. What is held stays. */
static void cycle(int64_t latest, int64_t start, gw_state *state, const held_versions *held)
{
    const bool earlier = start < latest, was_latest = gw_held(state).start == latest;
    const int64_t later = earlier ? latest : start;
    char what[128];
    snprintf(what, sizeof what, "latest %lld, then %lld", (long long)latest, (long long)start);
    EXPECT_OF(what, earlier ? GW_EARLIER_START : GW_ACCEPTED, gw_new_cycle(state, start));
    EXPECT_OF(what, true, was_latest && gw_held(state).start == later && holds(state, held));
}

/* Each time after that state. */
static void cycles(int64_t latest, const gw_state *state, const held_versions *held)
{
    size_t i;
    for (i = 0; i < TIME_COUNT; i++) {
        gw_state after = *state;
        cycle(latest, TIMES[i], &after, held);
    }
}

/* ---- What the latest start time is */

/* The state has had the highest time before, which no install minds. */
static void after_installs(void)
{
    const file root = root_of("1");
    gw_state state;
    size_t i;

    gw_blank(&state);
    cycles(INT64_MIN, &state, &NONE);
    for (i = 0; i < TIME_COUNT; i++) {
        EXPECT(GW_ACCEPTED, gw_new_cycle(&state, INT64_MAX));
        EXPECT(GW_ACCEPTED, install_small(&state, &root, TIMES[i]));
        cycles(TIMES[i], &state, &ROOT_ALONE);
        EXPECT(GW_ACCEPTED, gw_new_cycle(&state, INT64_MAX));
        EXPECT(GW_FEW_OWN_KEYS, gw_install(&state, root.at, root.len, text("\0"), 1, TIMES[i]));
        cycles(INT64_MIN, &state, &NONE);
    }
}

/* The later of two cycles, also where the second is refused, from a state that has the lowest start time. */
static void after_two_cycles(const gw_state *lowest, const held_versions *held)
{
    size_t i, k;
    for (i = 0; i < TIME_COUNT; i++) {
        for (k = 0; k < TIME_COUNT; k++) {
            gw_state state = *lowest;
            cycle(INT64_MIN, TIMES[i], &state, held);
            cycle(TIMES[i], TIMES[k], &state, held);
            cycles(TIMES[i < k ? k : i], &state, held);
        }
    }
}

static void after_cycles(void)
{
    const file root = root_of("1");
    gw_state state;

    gw_blank(&state);
    after_two_cycles(&state, &NONE);
    EXPECT(GW_ACCEPTED, install_small(&state, &root, INT64_MIN));
    after_two_cycles(&state, &ROOT_ALONE);
}

/* A call of an update, with its file, and what is held once it is accepted */
typedef struct step {
    gw_answer (*call)(gw_state *state, const file *f);
    file offered;
    held_versions held;
} step;

enum { STEPS = 4 };

/* No other call sets a start time, refused or accepted. */
static void after_an_update_at(int64_t start, const step *steps)
{
    const file root = root_of("1"), empty = written("");
    held_versions held = ROOT_ALONE;
    gw_state state;
    size_t i;

    EXPECT(GW_ACCEPTED, install_small(&state, &root, start));
    for (i = 0; i < STEPS; i++) {
        EXPECT(GW_NOT_TEXT, steps[i].call(&state, &empty));
        cycles(start, &state, &held);
        EXPECT(GW_ACCEPTED, steps[i].call(&state, &steps[i].offered));
        held = steps[i].held;
        cycles(start, &state, &held);
    }
}

static void after_updates(void)
{
    const step steps[STEPS] = {
        {offer_root, root_of("2"), {{2, 0, 0, 0}}},
        {offer_timestamp, timestamp_of("1", "1"), {{2, 1, 0, 0}}},
        {offer_snapshot, snapshot_of("1", "1", "1"), {{2, 1, 1, 0}}},
        {offer_targets, targets_of("1"), {{2, 1, 1, 1}}},
    };
    size_t i;
    for (i = 0; TIMES[i] < EXPIRED; i++) {
        after_an_update_at(TIMES[i], steps);
    }
}

/* ---- What has expired by it */

static file list_until_2029(void)
{
    return changed(targets_of("1"), "2030-", "2029-");
}

/* The state after an update at that time to this list. */
static gw_state with_list(const file *list, int64_t start)
{
    const file root = root_of("1"), timestamp = timestamp_of("1", "1"), snapshot = snapshot_of("1", "1", "1");
    gw_state state;
    EXPECT(GW_ACCEPTED, install_small(&state, &root, start));
    EXPECT(GW_ACCEPTED, offer_timestamp(&state, &timestamp));
    EXPECT(GW_ACCEPTED, offer_snapshot(&state, &snapshot));
    EXPECT(GW_ACCEPTED, offer_targets(&state, list));
    return state;
}

/* The flat battery. What else is held has not expired, and goes on. */
static void an_expired_list_stays_expired(void)
{
    const file list = list_until_2029(), news = timestamp_of("2", "1");
    gw_state state = with_list(&list, 0);
    size_t i;

    EXPECT(GW_ACCEPTED, gw_new_cycle(&state, LIST_EXPIRED));
    EXPECT(GW_HELD_EXPIRED, find_in(&state, &list));
    for (i = 0; TIMES[i] < LIST_EXPIRED; i++) {
        cycle(LIST_EXPIRED, TIMES[i], &state, &ALL);
        EXPECT(GW_HELD_EXPIRED, find_in(&state, &list));
        EXPECT(GW_FILE_EXPIRED, offer_targets(&state, &list));
    }
    EXPECT(GW_ACCEPTED, offer_timestamp(&state, &news));
}

static void a_fresh_list_stays_fresh(void)
{
    const file list = list_until_2029();
    gw_state state = with_list(&list, LIST_EXPIRED - 1);
    size_t i;
    for (i = 0; TIMES[i] < LIST_EXPIRED; i++) {
        cycle(LIST_EXPIRED - 1, TIMES[i], &state, &ALL);
        EXPECT(GW_ACCEPTED, find_in(&state, &list));
    }
}

/* No cycle takes it back, and by the latest time everything has expired. An install begins anew. */
static void a_clock_that_ran_ahead(void)
{
    const file list = list_until_2029(), news = timestamp_of("2", "1");
    gw_state state = with_list(&list, 0);
    size_t i;

    EXPECT(GW_ACCEPTED, gw_new_cycle(&state, INT64_MAX));
    for (i = 0; i < TIME_COUNT; i++) {
        cycle(INT64_MAX, TIMES[i], &state, &ALL);
        EXPECT(GW_HELD_EXPIRED, find_in(&state, &list));
        EXPECT(GW_HELD_EXPIRED, offer_timestamp(&state, &news));
    }
    state = with_list(&list, 0);
    cycles(0, &state, &ALL);
    EXPECT(GW_ACCEPTED, find_in(&state, &list));
}

int main(void)
{
    after_installs();
    after_cycles();
    after_updates();
    an_expired_list_stays_expired();
    a_fresh_list_stays_fresh();
    a_clock_that_ran_ahead();
    printf("%d passed, %d failed\n", passed, failed);
    return failed != 0;
}
