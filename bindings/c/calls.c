/*
 * Every call of include/gronwythal.h, from C (C99 and later) and C++ (C++11 and later). The answers were derived by hand from document 01
 * and the requests that amend it. Those of the files in examples/shelf, whose folder is the argument, are the answers of the stories there.
 * The last line is 'N passed, M failed'.
 */
#include <stdlib.h>

#include "tests.h"

/* ---- Files, digests and clocks of the shelf */

static const char *shelf;

static file taken(const char *name)
{
    char path[4096];
    file f;
    FILE *stream;
    memset(&f, 0, sizeof f);
    snprintf(path, sizeof path, "%s/%s", shelf, name);
    stream = fopen(path, "rb");
    if (!stream) {
        printf("cannot open %s\n0 passed, 1 failed\n", path);
        exit(1);
    }
    f.len = fread(f.at, 1, sizeof f.at, stream);
    fclose(stream);
    return f;
}

static gw_digest undone(const char *hex)
{
    gw_digest d;
    size_t i;
    for (i = 0; i < GW_ID_SIZE; i++) {
        unsigned byte = 0;
        sscanf(hex + 2 * i, "%2x", &byte);
        d.bytes[i] = (uint8_t)byte;
    }
    return d;
}

static const char *const FIRMWARE = "662a281800ccab23d61a0d5a7d3ad0b9cb1d9689a71e8db92d1e39c2dfe2fd66";
static const char *const OLD_FIRMWARE = "73cbe3a9d013872aa25f7183ca10872ff2a72321f5267a5133cbcc367fc3a71e";
static const char *const ROOT_A = "c2220a4f3b368395bb6445ec9b9ee76db0ab7eec6dfed477046a4aeb3b415370";
static const char *const ROOT_A_PUBLIC = "ce5414f9b01382ca0daa4f0789934e31aef250d3d813e1c3ebeed39efa593142";
static const char *const OLD_TIMESTAMP_KEY = "339e94e13ab493088fab6d948104bd8b10ccbbdfa50e4aa2c3962f88a5382cb5";
static const int64_t MORNING = 1772431200; /* 2026-03-02T06:00:00Z */

/* ---- What is held, as four versions in one number: 0 for one that is not held */

static long long held(const gw_state *state)
{
    gw_versions v = gw_held(state);
    const gw_version each[4] = {v.root, v.timestamp, v.snapshot, v.targets};
    long long all = 0;
    int i;
    for (i = 0; i < 4; i++) {
        EXPECT(each[i].held, each[i].number != 0);
        all = all * 1000 + (long long)each[i].number;
    }
    return all;
}

static bool zeros(const uint8_t *bytes, size_t len)
{
    size_t i;
    for (i = 0; i < len; i++) {
        if (bytes[i]) {
            return false;
        }
    }
    return true;
}

/* ---- Null pointers and no bytes, on a blank state: 2 for a file, 6 for a key, 5 for an image */

static void nothing_at_all(void)
{
    gw_state state;
    gw_image image;
    gw_public_key key;
    gw_entry entry;
    const uint8_t *part;
    size_t part_len, entries;

    gw_blank(&state);
    EXPECT(0, held(&state));
    EXPECT(1, gw_held(&state).start == INT64_MIN);
    EXPECT(GW_NOT_TEXT, gw_root(&state, NULL, 0, NULL, 0, NULL, 0));
    EXPECT(GW_NOT_TEXT, gw_timestamp(&state, NULL, 0, NULL, 0));
    EXPECT(GW_NOT_TEXT, gw_snapshot(&state, NULL, 0, NULL, 0));
    EXPECT(GW_NOT_TEXT, gw_targets(&state, NULL, 0, NULL, 0));
    memset(&image, 0xa5, sizeof image);
    EXPECT(GW_NOT_TEXT, gw_find(&state, NULL, 0, NULL, 0, &image));
    EXPECT(0, image.length);
    EXPECT(0, image.compared);
    EXPECT(1, zeros(image.digest, sizeof image.digest));
    memset(&key, 0xa5, sizeof key);
    EXPECT(GW_NOT_HELD, gw_key(&state, NULL, 0, &key));
    EXPECT(1, zeros(key.bytes, sizeof key.bytes));
    EXPECT(GW_BAD_ARGUMENT, gw_check_image(0, NULL, 0, 0, NULL, 0));
    EXPECT(GW_NOT_TEXT, gw_signed_part(NULL, 0, &part, &part_len, &entries));
    EXPECT(0, part_len);
    EXPECT(0, entries);
    memset(&entry, 0xa5, sizeof entry);
    EXPECT(GW_NOT_TEXT, gw_entry_at(NULL, 0, 0, &entry));
    EXPECT(1, zeros(entry.keyid, sizeof entry.keyid) && zeros(entry.sig, sizeof entry.sig));
    EXPECT(0, gw_is_canonical(NULL, 0));
    EXPECT(GW_ACCEPTED, gw_new_cycle(&state, -5));
    EXPECT(0, held(&state));
    EXPECT(-5, gw_held(&state).start);
    EXPECT(GW_EARLIER_START, gw_new_cycle(&state, -6));
    EXPECT(-5, gw_held(&state).start);
    EXPECT(GW_NOT_TEXT, gw_install(&state, NULL, 0, NULL, 0, 7));
    EXPECT(1, gw_held(&state).start == INT64_MIN);
}

/* ---- Looking into a file, with document 01's own example */

static void looking_in(void)
{
    static const char SMALL[] = "{\"signatures\":[],\"signed\":{}}";
    file root = taken("root-1.json");
    const uint8_t *part;
    size_t part_len, entries;
    gw_entry entry;

    EXPECT(GW_ACCEPTED, gw_signed_part(text(SMALL), sizeof SMALL - 1, &part, &part_len, &entries));
    EXPECT(26, part - text(SMALL));
    EXPECT(2, part_len);
    EXPECT(0, entries);
    EXPECT(GW_NOT_LISTED, gw_entry_at(text(SMALL), sizeof SMALL - 1, 0, &entry));
    EXPECT(GW_BAD_FORM, gw_signed_part(text("{}"), 2, &part, &part_len, &entries));

    EXPECT(GW_ACCEPTED, gw_signed_part(root.at, root.len, &part, &part_len, &entries));
    EXPECT(2, entries);
    EXPECT(0, memcmp(part, "{\"_type\":\"root\",", 16));
    EXPECT(1, part + part_len + 1 == root.at + root.len);
    EXPECT(GW_ACCEPTED, gw_entry_at(root.at, root.len, 0, &entry));
    EXPECT(0, memcmp(entry.keyid, undone(ROOT_A).bytes, GW_ID_SIZE));
    EXPECT(0x3a, entry.sig[0]);
    EXPECT(0x03, entry.sig[GW_SIGNATURE_SIZE - 1]);
    EXPECT(GW_ACCEPTED, gw_entry_at(root.at, root.len, 1, &entry));
    EXPECT(GW_NOT_LISTED, gw_entry_at(root.at, root.len, 2, &entry));
    EXPECT(GW_NOT_LISTED, gw_entry_at(root.at, root.len, SIZE_MAX, &entry));

    EXPECT(1, gw_is_canonical(text("{\"a\":1,\"a!\":2}"), 14));
    EXPECT(0, gw_is_canonical(text("{\"a\":1,\"a\":2}"), 13));
}

/* ---- The update of story 1. Between its calls, one argument at a time is wrong: each length must arrive in its own place. */

static void an_update(void)
{
    const file root_1 = taken("root-1.json"), root_2 = taken("root-2.json"), timestamp = taken("timestamp-41.json");
    const file snapshot = taken("snapshot-7.json"), targets = taken("targets-3.json");
    /* A digit of the signature is another: length and form are the same, the digest is not. */
    const file altered_snapshot = changed(snapshot, "\"sig\":\"582f", "\"sig\":\"682f");
    const file altered_targets = changed(targets, "\"sig\":\"8179", "\"sig\":\"9179");
    const file fetched = taken("gate-firmware.img");
    const gw_digest image_digest = undone(FIRMWARE), old_digest = undone(OLD_FIRMWARE);
    gw_digest fetched_digest;
    const char *path = "gate-firmware.img";
    gw_state state;
    gw_image image;
    gw_public_key key;

    EXPECT(GW_FEW_OWN_KEYS, gw_install(&state, root_1.at, root_1.len, text("\1\0"), 2, MORNING));
    EXPECT(0, held(&state));
    EXPECT(GW_BAD_ARGUMENT, gw_install(&state, root_1.at, root_1.len, GOOD, 1, MORNING));
    EXPECT(GW_ACCEPTED, gw_install(&state, root_1.at, root_1.len, GOOD, 2, MORNING - 1));
    EXPECT(1000000000, held(&state));
    EXPECT(MORNING - 1, gw_held(&state).start);
    EXPECT(GW_EARLIER_START, gw_new_cycle(&state, MORNING - 2));
    EXPECT(MORNING - 1, gw_held(&state).start);
    EXPECT(GW_ACCEPTED, gw_new_cycle(&state, MORNING));
    EXPECT(MORNING, gw_held(&state).start);

    EXPECT(GW_ACCEPTED, gw_key(&state, text(ROOT_A), GW_KEYID_HEX, &key));
    EXPECT(0, memcmp(key.bytes, undone(ROOT_A_PUBLIC).bytes, GW_ID_SIZE));
    EXPECT(GW_NOT_LISTED, gw_key(&state, text(ROOT_A), GW_KEYID_HEX - 1, &key));

    EXPECT(GW_BAD_ARGUMENT, gw_root(&state, root_2.at, root_2.len, GOOD, 3, GOOD, 2));
    EXPECT(GW_BAD_ARGUMENT, gw_root(&state, root_2.at, root_2.len, GOOD, 2, GOOD, 3));
    EXPECT(GW_FEW_HELD_KEYS, gw_root(&state, root_2.at, root_2.len, text("\0\1"), 2, GOOD, 2));
    EXPECT(GW_FEW_OWN_KEYS, gw_root(&state, root_2.at, root_2.len, GOOD, 2, text("\0\1"), 2));
    EXPECT(GW_WRONG_VERSION, gw_root(&state, root_1.at, root_1.len, GOOD, 2, GOOD, 2));
    EXPECT(1000000000, held(&state));
    EXPECT(GW_ACCEPTED, gw_root(&state, root_2.at, root_2.len, GOOD, 2, GOOD, 2));
    EXPECT(2000000000, held(&state));
    EXPECT(GW_NOT_LISTED, gw_key(&state, text(OLD_TIMESTAMP_KEY), GW_KEYID_HEX, &key));

    EXPECT(GW_BAD_ARGUMENT, gw_timestamp(&state, timestamp.at, timestamp.len, GOOD, 2));
    EXPECT(GW_NOT_TEXT, gw_timestamp(&state, timestamp.at, timestamp.len - 1, GOOD, 1));
    EXPECT(GW_ACCEPTED, gw_timestamp(&state, timestamp.at, timestamp.len, GOOD, 1));
    EXPECT(2041000000, held(&state));
    EXPECT(GW_NO_NEWS, gw_timestamp(&state, timestamp.at, timestamp.len, GOOD, 1));

    EXPECT(GW_BAD_ARGUMENT, gw_snapshot(&state, snapshot.at, snapshot.len, GOOD, 2));
    EXPECT(GW_NOT_TEXT, gw_snapshot(&state, snapshot.at, snapshot.len - 1, GOOD, 1));
    EXPECT(GW_OTHER_CONTENT, gw_snapshot(&state, altered_snapshot.at, altered_snapshot.len, GOOD, 1));
    EXPECT(GW_ACCEPTED, gw_snapshot(&state, snapshot.at, snapshot.len, GOOD, 1));
    EXPECT(2041007000, held(&state));

    EXPECT(GW_BAD_ARGUMENT, gw_targets(&state, targets.at, targets.len, GOOD, 0));
    EXPECT(GW_NOT_TEXT, gw_targets(&state, targets.at, targets.len - 1, GOOD, 1));
    EXPECT(GW_ACCEPTED, gw_targets(&state, targets.at, targets.len, GOOD, 1));
    EXPECT(2041007003, held(&state));

    EXPECT(GW_NOT_TEXT, gw_find(&state, targets.at, targets.len - 1, text(path), 17, &image));
    EXPECT(GW_OTHER_CONTENT, gw_find(&state, altered_targets.at, altered_targets.len, text(path), 17, &image));
    EXPECT(GW_NOT_LISTED, gw_find(&state, targets.at, targets.len, text(path), 16, &image));
    EXPECT(0, image.length);
    EXPECT(1, zeros(image.digest, sizeof image.digest));
    EXPECT(GW_ACCEPTED, gw_find(&state, targets.at, targets.len, text(path), 17, &image));
    EXPECT(91, image.length);
    EXPECT(0, memcmp(image.digest, image_digest.bytes, GW_ID_SIZE));

    fetched_digest = gw_sha256(fetched.at, fetched.len);
    EXPECT(GW_ACCEPTED, gw_check_image(image.length, image.digest, GW_ID_SIZE, fetched.len, fetched_digest.bytes, GW_ID_SIZE));
    EXPECT(GW_ACCEPTED, gw_check_image(image.length, image.digest, GW_ID_SIZE, 91, image_digest.bytes, GW_ID_SIZE));
    EXPECT(GW_OTHER_CONTENT, gw_check_image(image.length, image.digest, GW_ID_SIZE, 92, image_digest.bytes, GW_ID_SIZE));
    EXPECT(GW_OTHER_CONTENT, gw_check_image(image.length, image.digest, GW_ID_SIZE, 91, old_digest.bytes, GW_ID_SIZE));
    EXPECT(GW_BAD_ARGUMENT, gw_check_image(image.length, image.digest, 31, 91, image_digest.bytes, GW_ID_SIZE));
    EXPECT(GW_BAD_ARGUMENT, gw_check_image(image.length, image.digest, GW_ID_SIZE, 91, image_digest.bytes, 33));

    EXPECT(2041007003, held(&state));
    EXPECT(MORNING, gw_held(&state).start);
}

/* ---- The stolen laptop of story 6: root 2 has the same keys and another threshold */

static void a_stolen_laptop(void)
{
    const file root_1 = taken("root-1-either-key.json"), root_2 = taken("root-2-both-keys.json");
    const file thief = taken("timestamp-900-laptop.json"), desk = taken("timestamp-42-desk.json"), both = taken("timestamp-43-both.json");
    const file snapshot = taken("snapshot-7.json"), targets = taken("targets-3.json");
    gw_state state;

    EXPECT(GW_ACCEPTED, gw_install(&state, root_1.at, root_1.len, GOOD, 2, MORNING));
    EXPECT(GW_ACCEPTED, gw_timestamp(&state, thief.at, thief.len, GOOD, 1));
    EXPECT(GW_ACCEPTED, gw_snapshot(&state, snapshot.at, snapshot.len, GOOD, 1));
    EXPECT(GW_ACCEPTED, gw_targets(&state, targets.at, targets.len, GOOD, 1));
    EXPECT(1900007003, held(&state));
    EXPECT(GW_WRONG_VERSION, gw_timestamp(&state, desk.at, desk.len, GOOD, 1));

    EXPECT(GW_ACCEPTED, gw_root(&state, root_2.at, root_2.len, GOOD, 2, GOOD, 2));
    EXPECT(2000000000, held(&state));
    EXPECT(GW_FEW_HELD_KEYS, gw_timestamp(&state, thief.at, thief.len, GOOD, 1));
    EXPECT(GW_FEW_HELD_KEYS, gw_timestamp(&state, desk.at, desk.len, GOOD, 1));
    EXPECT(GW_ACCEPTED, gw_timestamp(&state, both.at, both.len, GOOD, 2));
    EXPECT(2043000000, held(&state));
}

/* ---- Names compared: those smaller than the path, byte by byte with escapes undone, and one more where one is left */

#define TARGETS_KEY "8b24afe09225855d1fd1d022888306a7c99439d089e64aacdf467bc94913a3ff"

/* A targets file that snapshot 7 lists. */
#define TARGETS(images) \
    "{\"signatures\":[{\"keyid\":\"" TARGETS_KEY "\",\"sig\":\"" ONES_64 ONES_64 "\"}],\"signed\":{\"_type\":\"targets\"," \
    "\"expires\":\"2026-06-01T00:00:00Z\",\"spec_version\":\"1\",\"targets\":{" images "},\"version\":3}}"

/* A name as long as one may be. */
#define M_32 "mmmmmmmmmmmmmmmmmmmmmmmmmmmmmmmm"
#define LONGEST M_32 M_32 M_32 M_32

/* With its backslash on, the third would come after the fourth. */
static const char SIX_NAMES[] = TARGETS(LISTED("a", 5) "," LISTED("a!", 6) "," LISTED("a\\\"", 7) ","
                                        LISTED("a#", 8) "," LISTED(LONGEST, 9) "," LISTED("\303\251", 10));
static const char NO_NAMES[] = TARGETS("");

/* The state after an update to that targets file. */
static gw_state holding(const file *targets)
{
    const file root_1 = taken("root-1.json"), root_2 = taken("root-2.json");
    const file timestamp = taken("timestamp-41.json"), snapshot = taken("snapshot-7.json");
    gw_state state;
    EXPECT(GW_ACCEPTED, gw_install(&state, root_1.at, root_1.len, GOOD, 2, MORNING));
    EXPECT(GW_ACCEPTED, gw_root(&state, root_2.at, root_2.len, GOOD, 2, GOOD, 2));
    EXPECT(GW_ACCEPTED, gw_timestamp(&state, timestamp.at, timestamp.len, GOOD, 1));
    EXPECT(GW_ACCEPTED, gw_snapshot(&state, snapshot.at, snapshot.len, GOOD, 1));
    EXPECT(GW_ACCEPTED, gw_targets(&state, targets->at, targets->len, GOOD, 1));
    return state;
}

static gw_image found(const gw_state *state, const uint8_t *at, size_t len, const uint8_t *path, size_t path_len)
{
    gw_image image;
    gw_answer answer;
    memset(&image, 0xa5, sizeof image);
    answer = gw_find(state, at, len, path, path_len, &image);
    EXPECT(answer, image.answer);
    return image;
}

typedef struct search {
    const char *path;
    size_t path_len;
    uint64_t length; /* 0 where the path is not listed */
    size_t compared;
} search;

static const search SEARCHES[] = {
    {"a", 1, 5, 1},           /* the first: no name is smaller */
    {"a!", 2, 6, 2},          /* a is */
    {"a\"", 2, 7, 3},         /* a, a! are */
    {"a#", 2, 8, 4},          /* a, a!, a" are */
    {LONGEST, 128, 9, 5},     /* a, a!, a", a# are */
    {"\303\251", 2, 10, 6},   /* the last: all before it are */
    {"", 0, 0, 1},            /* no name is */
    {"A", 1, 0, 1},           /* no name is */
    {"a ", 2, 0, 2},          /* a is */
    {"b", 1, 0, 5},           /* a, a!, a", a# are */
    {LONGEST, 127, 0, 5},     /* a, a!, a", a# are */
    {LONGEST "m", 129, 0, 6}, /* all but the last are */
    {"\303", 1, 0, 6},        /* all but the last are */
    {"\303\252", 2, 0, 6},    /* all are, and none is left */
};

static void names_compared(void)
{
    const file six = written(SIX_NAMES), none = written(NO_NAMES);
    const gw_state state = holding(&six), empty = holding(&none);
    gw_image image;
    size_t i;

    for (i = 0; i < sizeof SEARCHES / sizeof *SEARCHES; i++) {
        const search *s = &SEARCHES[i];
        image = found(&state, six.at, six.len, text(s->path), s->path_len);
        EXPECT(s->length ? GW_ACCEPTED : GW_NOT_LISTED, image.answer);
        EXPECT(s->length, image.length);
        EXPECT(s->compared, image.compared);
    }
    image = found(&empty, none.at, none.len, text("a"), 1);
    EXPECT(GW_NOT_LISTED, image.answer);
    EXPECT(0, image.compared);
}

/* The answer for a path that is listed. */
static gw_answer refused_uncompared(const gw_state *state, const uint8_t *at, size_t len)
{
    const gw_image image = found(state, at, len, text("a#"), 2);
    EXPECT(0, image.compared);
    return (gw_answer)image.answer;
}

static void no_names_compared(void)
{
    static const uint8_t too_long[GW_MAX_FILE + 1] = {0};
    const file list = written(SIX_NAMES), root = taken("root-2.json");
    const file other_spec = changed(list, "\"spec_version\":\"1\"", "\"spec_version\":\"2\"");
    const file altered = changed(list, "\"length\":9", "\"length\":8");
    gw_state state = holding(&list), blank;

    gw_blank(&blank);
    EXPECT(GW_TOO_LONG, refused_uncompared(&state, too_long, sizeof too_long));
    EXPECT(GW_NOT_TEXT, refused_uncompared(&state, list.at, list.len - 1));
    EXPECT(GW_BAD_FORM, refused_uncompared(&state, root.at, root.len));
    EXPECT(GW_OTHER_SPEC, refused_uncompared(&state, other_spec.at, other_spec.len));
    EXPECT(GW_NOT_HELD, refused_uncompared(&blank, list.at, list.len));
    EXPECT(GW_OTHER_CONTENT, refused_uncompared(&state, altered.at, altered.len));
    EXPECT(GW_ACCEPTED, gw_new_cycle(&state, 1773036000)); /* 2026-03-09T06:00:00Z: the timestamp expires */
    EXPECT(GW_HELD_EXPIRED, refused_uncompared(&state, list.at, list.len));
}

/* ---- Versions, from 1 to 9,007,199,254,740,991, in every place that holds one. In these files one key signs every role. */

typedef struct number {
    const char *written;
    uint64_t value; /* 0 where it is not a version */
} number;

static const number NUMBERS[] = {
    {"-1", 0},
    {"0", 0},
    {"1", 1},
    {"2", 2},
    {"2147483647", UINT64_C(2147483647)}, /* the highest before change request A7 */
    {"2147483648", UINT64_C(2147483648)},
    {"4294967295", UINT64_C(4294967295)},
    {"4294967296", UINT64_C(4294967296)},
    {"4294967297", UINT64_C(4294967297)}, /* this and the next differ from 1 and 2 in the upper 32 bits alone */
    {"4294967298", UINT64_C(4294967298)},
    {"20260101120000", UINT64_C(20260101120000)}, /* made from a date */
    {"9007199254740990", UINT64_C(9007199254740990)},
    {"9007199254740991", UINT64_C(9007199254740991)}, /* the highest */
    {"9007199254740992", 0},
    {"9007199254740993", 0},
    {"9223372036854775807", 0},
    {"18446744073709551615", 0},
    {"18446744073709551617", 0}, /* 1 to a reader that wraps at 64 bits */
};

enum { NUMBER_COUNT = sizeof NUMBERS / sizeof *NUMBERS };

/* An update in which every version is this one. */
static void whole_update(const number *n)
{
    const file root = root_of(n->written), timestamp = timestamp_of(n->written, n->written);
    const file snapshot = snapshot_of(n->written, n->written, n->written), targets = targets_of(n->written);
    held_versions stated = {{0, 0, 0, 0}};
    gw_state state;

    EXPECT_OF(n->written, GW_ACCEPTED, install_small(&state, &root, 0));
    stated.of[ROOT] = n->value;
    EXPECT_OF(n->written, true, holds(&state, &stated));
    EXPECT_OF(n->written, GW_ACCEPTED, offer_timestamp(&state, &timestamp));
    stated.of[TIMESTAMP] = n->value;
    EXPECT_OF(n->written, true, holds(&state, &stated));
    EXPECT_OF(n->written, GW_ACCEPTED, offer_snapshot(&state, &snapshot));
    stated.of[SNAPSHOT] = n->value;
    EXPECT_OF(n->written, true, holds(&state, &stated));
    EXPECT_OF(n->written, GW_ACCEPTED, offer_targets(&state, &targets));
    stated.of[TARGETS_FILE] = n->value;
    EXPECT_OF(n->written, true, holds(&state, &stated));
    EXPECT_OF(n->written, GW_ACCEPTED, find_in(&state, &targets));
    EXPECT_OF(n->written, 5, found(&state, targets.at, targets.len, text("i"), 1).length);
}

/* A first root whose number is not a version. */
static void refused_install(const number *n)
{
    const held_versions none = {{0, 0, 0, 0}};
    const file root = root_of(n->written);
    gw_state state;
    EXPECT_OF(n->written, GW_BAD_FORM, install_small(&state, &root, 0));
    EXPECT_OF(n->written, true, holds(&state, &none));
}

static void versions_of_whole_updates(void)
{
    size_t i;
    for (i = 0; i < NUMBER_COUNT; i++) {
        if (NUMBERS[i].value) {
            whole_update(&NUMBERS[i]);
        } else {
            refused_install(&NUMBERS[i]);
        }
    }
}

/* The versions of an update: those of root and timestamp, and those that are listed, of snapshot, another name and targets. */
enum { OF_ROOT, OF_TIMESTAMP, OF_SNAPSHOT, OF_OTHER, OF_TARGETS, PLACES };

typedef struct update {
    const number *version; /* at one place; at every other it is 1 */
    file targets;
    gw_state state; /* after the update */
    held_versions held;
} update;

static update updated(int place, const number *n)
{
    const uint64_t v = n->value;
    const held_versions held_after[PLACES] = {{{v, 1, 1, 1}}, {{1, v, 1, 1}}, {{1, 1, v, 1}}, {{1, 1, 1, 1}}, {{1, 1, 1, v}}};
    const char *at[PLACES] = {"1", "1", "1", "1", "1"};
    file root, timestamp, snapshot;
    update u;

    at[place] = n->written;
    root = root_of(at[OF_ROOT]);
    timestamp = timestamp_of(at[OF_TIMESTAMP], at[OF_SNAPSHOT]);
    snapshot = snapshot_of(at[OF_SNAPSHOT], at[OF_OTHER], at[OF_TARGETS]);
    u.version = n;
    u.targets = targets_of(at[OF_TARGETS]);
    u.held = held_after[place];
    EXPECT_OF(n->written, GW_ACCEPTED, install_small(&u.state, &root, 0));
    EXPECT_OF(n->written, GW_ACCEPTED, offer_timestamp(&u.state, &timestamp));
    EXPECT_OF(n->written, GW_ACCEPTED, offer_snapshot(&u.state, &snapshot));
    EXPECT_OF(n->written, GW_ACCEPTED, offer_targets(&u.state, &u.targets));
    EXPECT_OF(n->written, true, holds(&u.state, &u.held));
    return u;
}

/* Files with the version in question at one place */

static gw_answer next_root(gw_state *state, const char *version)
{
    const file f = root_of(version);
    return offer_root(state, &f);
}

static gw_answer own_of_timestamp(gw_state *state, const char *version)
{
    const file f = timestamp_of(version, "1");
    return offer_timestamp(state, &f);
}

static gw_answer listed_by_timestamp(gw_state *state, const char *version)
{
    const file f = timestamp_of("2", version);
    return offer_timestamp(state, &f);
}

static gw_answer own_of_snapshot(gw_state *state, const char *version)
{
    const file f = snapshot_of(version, "1", "1");
    return offer_snapshot(state, &f);
}

static gw_answer other_listed_by_snapshot(gw_state *state, const char *version)
{
    const file f = snapshot_of("1", version, "1");
    return offer_snapshot(state, &f);
}

static gw_answer targets_listed_by_snapshot(gw_state *state, const char *version)
{
    const file f = snapshot_of("1", "1", version);
    return offer_snapshot(state, &f);
}

static gw_answer own_of_targets(gw_state *state, const char *version)
{
    const file f = targets_of(version);
    return offer_targets(state, &f);
}

static gw_answer own_of_found_targets(gw_state *state, const char *version)
{
    const file f = targets_of(version);
    return find_in(state, &f);
}

/* A file after an update with some version at `place`: the answers where it has a lower one, the same, the next, and one above the next */
typedef struct offer {
    const char *name;
    gw_answer (*call)(gw_state *state, const char *version);
    int place;
    gw_answer lower, same, next, above;
    int record;       /* an accepted file is held here .. */
    uint64_t own;     /* .. with this version; 0 for the one in question */
    gw_answer higher; /* what find answers after an accepted version that is higher */
} offer;

static const offer OFFERS[] = {
    {"next root", next_root, OF_ROOT, GW_WRONG_VERSION, GW_WRONG_VERSION, GW_ACCEPTED, GW_WRONG_VERSION, ROOT, 0, GW_ACCEPTED},
    {"timestamp's own", own_of_timestamp, OF_TIMESTAMP, GW_WRONG_VERSION, GW_NO_NEWS, GW_ACCEPTED, GW_ACCEPTED, TIMESTAMP, 0,
     GW_ACCEPTED},
    {"snapshot.json", listed_by_timestamp, OF_SNAPSHOT, GW_WENT_BACK, GW_ACCEPTED, GW_ACCEPTED, GW_ACCEPTED, TIMESTAMP, 2,
     GW_NOT_HELD},
    {"snapshot's own", own_of_snapshot, OF_SNAPSHOT, GW_WRONG_VERSION, GW_ACCEPTED, GW_WRONG_VERSION, GW_WRONG_VERSION, SNAPSHOT, 0,
     GW_ACCEPTED},
    {"other.json", other_listed_by_snapshot, OF_OTHER, GW_WENT_BACK, GW_ACCEPTED, GW_ACCEPTED, GW_ACCEPTED, SNAPSHOT, 1, GW_ACCEPTED},
    {"targets.json", targets_listed_by_snapshot, OF_TARGETS, GW_WENT_BACK, GW_ACCEPTED, GW_ACCEPTED, GW_ACCEPTED, SNAPSHOT, 1,
     GW_NOT_HELD},
    {"targets' own", own_of_targets, OF_TARGETS, GW_WRONG_VERSION, GW_ACCEPTED, GW_WRONG_VERSION, GW_WRONG_VERSION, TARGETS_FILE, 0,
     GW_ACCEPTED},
    {"find's targets", own_of_found_targets, OF_TARGETS, GW_OTHER_CONTENT, GW_ACCEPTED, GW_OTHER_CONTENT, GW_OTHER_CONTENT,
     TARGETS_FILE, 0, GW_ACCEPTED},
};

static gw_answer stated_answer(const offer *o, uint64_t before, uint64_t version)
{
    if (version == 0) {
        return GW_BAD_FORM;
    }
    if (version <= before) {
        return version == before ? o->same : o->lower;
    }
    return version == before + 1 ? o->next : o->above;
}

/* That file after the update, and then a find in the update's own targets file. */
static void offered(const offer *o, const update *u, const number *n)
{
    const uint64_t before = u->version->value;
    const gw_answer answer = stated_answer(o, before, n->value);
    const bool rises = answer == GW_ACCEPTED && n->value > before;
    gw_state state = u->state;
    held_versions held_after = u->held;
    char what[128];

    snprintf(what, sizeof what, "%s: %s, then %s", o->name, u->version->written, n->written);
    EXPECT_OF(what, answer, o->call(&state, n->written));
    if (answer == GW_ACCEPTED) {
        held_after.of[o->record] = o->own ? o->own : n->value;
    }
    EXPECT_OF(what, true, holds(&state, &held_after));
    EXPECT_OF(what, rises ? o->higher : GW_ACCEPTED, find_in(&state, &u->targets));
}

static void offered_after(const offer *o, const number *version)
{
    const update u = updated(o->place, version);
    size_t i;
    for (i = 0; i < NUMBER_COUNT; i++) {
        offered(o, &u, &NUMBERS[i]);
    }
}

static void versions_at_each_place(void)
{
    size_t i, k;
    for (i = 0; i < sizeof OFFERS / sizeof *OFFERS; i++) {
        for (k = 0; k < NUMBER_COUNT; k++) {
            if (NUMBERS[k].value) {
                offered_after(&OFFERS[i], &NUMBERS[k]);
            }
        }
    }
}

/* ---- Lengths stay within 32 bits */

#define LENGTH_1 "\"length\":4294967295,\"version\":1"

static void lengths(void)
{
    static const char FITS[] = "\"length\":4294967295", BEYOND[] = "\"length\":4294967296";
    const file root = root_of("1"), timestamp = timestamp_of("1", "1"), snapshot = snapshot_of("1", "1", "1");
    const file in_timestamp = written(SMALL_TIMESTAMP("1", LENGTH_1)), in_targets = written(SMALL_TARGETS("1", LISTED("i", 4294967295)));
    const file of_other = written(SMALL_SNAPSHOT("1", LENGTH_1, "\"version\":1"));
    const file of_targets = written(SMALL_SNAPSHOT("1", "\"version\":1", LENGTH_1));
    const file beyond_in_timestamp = changed(in_timestamp, FITS, BEYOND), beyond_in_targets = changed(in_targets, FITS, BEYOND);
    const file beyond_of_other = changed(of_other, FITS, BEYOND), beyond_of_targets = changed(of_targets, FITS, BEYOND);
    gw_state state, listing;

    EXPECT(GW_ACCEPTED, install_small(&state, &root, 0));
    EXPECT(GW_BAD_FORM, offer_timestamp(&state, &beyond_in_timestamp));
    listing = state;
    EXPECT(GW_ACCEPTED, offer_timestamp(&listing, &in_timestamp));
    EXPECT(GW_OTHER_CONTENT, offer_snapshot(&listing, &snapshot));
    EXPECT(GW_ACCEPTED, offer_timestamp(&state, &timestamp));

    EXPECT(GW_BAD_FORM, offer_snapshot(&state, &beyond_of_other));
    EXPECT(GW_BAD_FORM, offer_snapshot(&state, &beyond_of_targets));
    listing = state;
    EXPECT(GW_ACCEPTED, offer_snapshot(&listing, &of_targets));
    EXPECT(GW_OTHER_CONTENT, offer_targets(&listing, &in_targets));
    EXPECT(GW_ACCEPTED, offer_snapshot(&state, &of_other));

    EXPECT(GW_BAD_FORM, offer_targets(&state, &beyond_in_targets));
    EXPECT(GW_ACCEPTED, offer_targets(&state, &in_targets));
    EXPECT(4294967295, found(&state, in_targets.at, in_targets.len, text("i"), 1).length);
}

/* ---- Keyids: each is the digest of its key, tried after the form (3) and before spec_version (4) */

/* The file with that digit of root-a's keyid changed in each of its places. The keyid is the last of the key table, and stays so. */
static file with_other_keyid(file f, size_t digit)
{
    size_t at, places = 0;
    for (at = 0; at + GW_KEYID_HEX <= f.len; at++) {
        uint8_t *c = f.at + at + digit;
        if (memcmp(f.at + at, ROOT_A, GW_KEYID_HEX) == 0) {
            *c = (uint8_t)(*c == '9' ? 'a' : *c == 'f' ? '0' : *c + 1);
            places++;
        }
    }
    EXPECT(3, places); /* a signature, the key table, the root role */
    return f;
}

static void keyids(void)
{
    const file root_1 = taken("root-1.json"), root_2 = taken("root-2.json");
    gw_state state, refused;
    size_t digit;

    EXPECT(GW_ACCEPTED, gw_install(&state, root_1.at, root_1.len, GOOD, 2, MORNING));
    for (digit = 0; digit < GW_KEYID_HEX; digit++) {
        const file other_1 = with_other_keyid(root_1, digit), other_2 = with_other_keyid(root_2, digit);
        EXPECT(GW_OTHER_KEYID, gw_install(&refused, other_1.at, other_1.len, GOOD, 2, MORNING));
        EXPECT(0, held(&refused));
        EXPECT(GW_OTHER_KEYID, gw_root(&state, other_2.at, other_2.len, GOOD, 2, GOOD, 2));
        EXPECT(1000000000, held(&state));
    }
}

static void order_of_keyids(void)
{
    const file root = taken("root-1.json"), misnamed = with_other_keyid(root, 0);
    const file bad_form = changed(root, "\"threshold\":2", "\"threshold\":3"), other_spec = changed(root, "\"1.0.26\"", "\"2.0.26\"");
    const file misnamed_bad_form = with_other_keyid(bad_form, 0), misnamed_other_spec = with_other_keyid(other_spec, 0);
    gw_state state;

    EXPECT(GW_BAD_FORM, gw_install(&state, bad_form.at, bad_form.len, GOOD, 2, MORNING));
    EXPECT(GW_BAD_FORM, gw_install(&state, misnamed_bad_form.at, misnamed_bad_form.len, GOOD, 2, MORNING));
    EXPECT(GW_OTHER_SPEC, gw_install(&state, other_spec.at, other_spec.len, GOOD, 2, MORNING));
    EXPECT(GW_OTHER_KEYID, gw_install(&state, misnamed_other_spec.at, misnamed_other_spec.len, GOOD, 2, MORNING));
    EXPECT(GW_OTHER_KEYID, gw_install(&state, misnamed.at, misnamed.len, GOOD, 1, MORNING));
}

/* ---- SHA-256, by NIST's examples for FIPS 180-4: no bytes, "abc", 448 and 896 bits, a million bytes, and four at the end of a block */

typedef struct vector {
    const char *unit; /* repeated so many times */
    size_t unit_len, times;
    const char *digest;
} vector;

static const vector VECTORS[] = {
    {"", 0, 0, "e3b0c44298fc1c149afbf4c8996fb92427ae41e4649b934ca495991b7852b855"},
    {"abc", 3, 1, "ba7816bf8f01cfea414140de5dae2223b00361a396177a9cb410ff61f20015ad"},
    {"abcdbcdecdefdefgefghfghighijhijkijkljklmklmnlmnomnopnopq", 56, 1,
     "248d6a61d20638b8e5c026930c3e6039a33ce45964ff2167f6ecedd419db06c1"},
    {"abcdefghbcdefghicdefghijdefghijkefghijklfghijklmghijklmnhijklmnoijklmnopjklmnopqklmnopqrlmnopqrsmnopqrstnopqrstu", 112, 1,
     "cf5b16a778af8380036ce59e7b0492370b249b11e8f07a51afac45037afee9d1"},
    {"a", 1, 1000000, "cdc76e5c9914fb9281a1c7e284d73e67f1809a48a497200e046d39ccc7112cd0"},
    {"\0", 1, 55, "02779466cdec163811d078815c633f21901413081449002f24aa3e80f0b88ef7"},
    {"\0", 1, 56, "d4817aa5497628e7c77e6b606107042bbba3130888c5f47a375e6179be789fbb"},
    {"\0", 1, 57, "65a16cb7861335d5ace3c60718b5052e44660726da4cd13bb745381b235a1785"},
    {"\0", 1, 64, "f5a5fd42d16a20302798ef6ed309979b43003d2320d9f0e8ea9831a92759fb4b"},
};

static void sha256(void)
{
    static uint8_t message[1000000];
    size_t i, k;
    gw_digest given = gw_sha256(NULL, 0);
    EXPECT(0, memcmp(given.bytes, undone(VECTORS[0].digest).bytes, GW_ID_SIZE));
    for (i = 0; i < sizeof VECTORS / sizeof *VECTORS; i++) {
        const vector *v = &VECTORS[i];
        for (k = 0; k < v->times; k++) {
            memcpy(message + k * v->unit_len, v->unit, v->unit_len);
        }
        given = gw_sha256(message, v->times * v->unit_len);
        EXPECT(0, memcmp(given.bytes, undone(v->digest).bytes, GW_ID_SIZE));
    }
}

/* ---- A file of 32,769 bytes is too long; one of 32,768 is looked at. Neither is written. */

static void at_the_limit(void)
{
    static uint8_t blanks[GW_MAX_FILE + 1];
    const uint8_t *part;
    size_t part_len, entries, i;

    memset(blanks, ' ', sizeof blanks);
    EXPECT(GW_TOO_LONG, gw_signed_part(blanks, GW_MAX_FILE + 1, &part, &part_len, &entries));
    EXPECT(GW_NOT_TEXT, gw_signed_part(blanks, GW_MAX_FILE, &part, &part_len, &entries));
    for (i = 0; i < sizeof blanks && blanks[i] == ' '; i++) {
    }
    EXPECT(sizeof blanks, i);
}

int main(int argc, char **argv)
{
    if (argc != 2) {
        printf("usage: calls SHELF\n0 passed, 1 failed\n");
        return 1;
    }
    shelf = argv[1];
    nothing_at_all();
    looking_in();
    an_update();
    a_stolen_laptop();
    names_compared();
    no_names_compared();
    versions_of_whole_updates();
    versions_at_each_place();
    lengths();
    keyids();
    order_of_keyids();
    sha256();
    at_the_limit();
    printf("%d passed, %d failed\n", passed, failed);
    return failed != 0;
}
