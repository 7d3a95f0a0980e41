/*
 * A controller that takes its gate's firmware from a shelf that anybody can write to: the whole of an update in C, with libgronwythal.a
 * and OpenSSL's libcrypto. Each visit is one cycle of TUF's client workflow: roots, timestamp, snapshot, targets, image.
 *
 *   controller SHELF      SHELF is the folder examples/shelf
 *
 * It prints what was decided. A signature row has a digit for each signature of the file, 1 for a good one.
 */
#include <openssl/evp.h>
#include <stdio.h>
#include <string.h>

#include "gronwythal.h"

#define IMAGE "gate-firmware.img"

/* ---- Signatures, by libcrypto */

/* Whether it is a good Ed25519 signature. A check that cannot be made is a bad one. */
static bool verifies(const uint8_t public_key[GW_ID_SIZE], const uint8_t *part, size_t part_len, const uint8_t sig[GW_SIGNATURE_SIZE])
{
    EVP_PKEY *key = EVP_PKEY_new_raw_public_key(EVP_PKEY_ED25519, NULL, public_key, GW_ID_SIZE);
    EVP_MD_CTX *context = EVP_MD_CTX_new();
    bool good = key && context && EVP_DigestVerifyInit(context, NULL, NULL, NULL, key) == 1 &&
                EVP_DigestVerify(context, sig, GW_SIGNATURE_SIZE, part, part_len) == 1;
    EVP_MD_CTX_free(context);
    EVP_PKEY_free(key);
    return good;
}

/* ---- Files. One byte more than a file may have is taken, so that a longer one is seen to be. */

typedef struct file {
    const char *name;
    uint8_t bytes[GW_MAX_FILE + 1];
    size_t len;
} file;

static const char *shelf;

/* Whether the shelf has it. */
static bool fetch(const char *name, file *f)
{
    char path[4096];
    FILE *stream;
    f->name = name;
    f->len = 0;
    snprintf(path, sizeof path, "%s/%s", shelf, name);
    stream = fopen(path, "rb");
    if (!stream) {
        return false;
    }
    f->len = fread(f->bytes, 1, sizeof f->bytes, stream);
    fclose(stream);
    return true;
}

/* ---- Verdicts: a row for a file, under the keys of the root that a state holds */

typedef struct row {
    uint8_t verdicts[GW_MAX_ENTRIES];
    size_t len;
} row;

/* A keyid as gw_key takes it. */
static void hex(const uint8_t keyid[GW_ID_SIZE], uint8_t digits[GW_KEYID_HEX])
{
    size_t i;
    for (i = 0; i < GW_ID_SIZE; i++) {
        digits[2 * i] = (uint8_t) "0123456789abcdef"[keyid[i] >> 4];
        digits[2 * i + 1] = (uint8_t) "0123456789abcdef"[keyid[i] & 15];
    }
}

static uint8_t verdict(const gw_state *keys, const file *f, size_t place, const uint8_t *part, size_t part_len)
{
    uint8_t digits[GW_KEYID_HEX];
    gw_entry entry;
    gw_public_key key;
    if (gw_entry_at(f->bytes, f->len, place, &entry) != GW_ACCEPTED) {
        return 0;
    }
    hex(entry.keyid, digits);
    if (gw_key(keys, digits, sizeof digits, &key) != GW_ACCEPTED) {
        return 0;
    }
    return verifies(key.bytes, part, part_len, entry.sig);
}

/* A file that cannot be looked into has no entries; the step will say what is wrong with it. */
static row verdicts(const gw_state *keys, const file *f)
{
    row r;
    const uint8_t *part;
    size_t part_len, place;
    gw_signed_part(f->bytes, f->len, &part, &part_len, &r.len);
    for (place = 0; place < r.len; place++) {
        r.verdicts[place] = verdict(keys, f, place, part, part_len);
    }
    return r;
}

/*
 * The keys that a root file itself lists, to check its signatures under: a state that holds the file as if every signature were good.
 * Nothing may be believed by this state; it is asked for keys and dropped. If the file is refused even so, it holds none, every verdict
 * is 0, and the true step refuses the file too: true verdicts would be no better than all good ones.
 */
static gw_state own_keys(const file *f)
{
    gw_state unproved;
    uint8_t all_good[GW_MAX_ENTRIES];
    const uint8_t *part;
    size_t part_len, entries;
    memset(all_good, 1, sizeof all_good);
    gw_signed_part(f->bytes, f->len, &part, &part_len, &entries);
    gw_install(&unproved, f->bytes, f->len, all_good, entries, 0);
    return unproved;
}

/* ---- Decisions in words */

static const char *const WORDS[] = {
    "accepted",
    "file longer than 32,768 bytes",
    "not canonical text, empty input included",
    "a form is broken",
    "spec_version is neither 1 nor begins with 1.",
    "a verdict row of another length than the entries, a verdict not 0 or 1, or a digest not 32 bytes",
    "a record the step needs is not held, or not current",
    "a record the step leans on has expired",
    "length or digest differs from what is listed",
    "too few different keys of the held root",
    "too few different keys of the new root itself",
    "wrong version",
    "same timestamp version: normal, no news",
    "a listed version went back, or a name vanished",
    "the offered file has expired",
    "not listed",
    "a keyid in a key table is not the digest of its key",
    "start time earlier than the latest one the state has had",
};

static bool said(gw_answer answer)
{
    if (answer != GW_ACCEPTED) {
        printf("%d, ", (int)answer);
    }
    printf("%s\n", WORDS[answer]);
    return answer == GW_ACCEPTED;
}

static void show_row(const char *before, const row *r)
{
    size_t i;
    printf("%s", before);
    for (i = 0; i < r->len; i++) {
        printf("%d", r->verdicts[i]);
    }
}

static void show_signed(const file *f, const row *r)
{
    printf("  %s: ", f->name);
    show_row("signatures ", r);
    printf(": ");
}

static void show_version(const char *name, gw_version version)
{
    if (version.held) {
        printf("%s %llu", name, (unsigned long long)version.number);
    } else {
        printf("%s -", name);
    }
}

static void show_held(const gw_state *state)
{
    gw_versions held = gw_held(state);
    show_version("  held: root", held.root);
    show_version(", timestamp", held.timestamp);
    show_version(", snapshot", held.snapshot);
    show_version(", targets", held.targets);
    printf("\n");
}

/* ---- The controller: what it keeps, and its steps */

static gw_state state;
static file targets; /* the targets file that was accepted last */

static bool install(const char *name, int64_t clock)
{
    static file f;
    gw_state own;
    row r;
    if (!fetch(name, &f)) {
        printf("  %s: not on the shelf\n", name);
        return false;
    }
    own = own_keys(&f);
    r = verdicts(&own, &f);
    show_signed(&f, &r);
    return said(gw_install(&state, f.bytes, f.len, r.verdicts, r.len, clock));
}

static bool new_cycle(int64_t clock)
{
    printf("  new cycle: ");
    return said(gw_new_cycle(&state, clock));
}

/* The next root, if the shelf has one and it is accepted. */
static bool next_root(void)
{
    static file f;
    char name[64];
    gw_state own;
    row by_held, by_own;
    snprintf(name, sizeof name, "root-%llu.json", (unsigned long long)gw_held(&state).root.number + 1);
    if (!fetch(name, &f)) {
        printf("  %s: not on the shelf\n", name);
        return false;
    }
    own = own_keys(&f);
    by_held = verdicts(&state, &f);
    by_own = verdicts(&own, &f);
    printf("  %s: ", name);
    show_row("signatures ", &by_held);
    show_row(", under its own keys ", &by_own);
    printf(": ");
    return said(gw_root(&state, f.bytes, f.len, by_held.verdicts, by_held.len, by_own.verdicts, by_own.len));
}

/* A file that is not there is an empty one: the step refuses it. */
static gw_answer timestamp(const char *name)
{
    static file f;
    row r;
    gw_answer answer;
    fetch(name, &f);
    r = verdicts(&state, &f);
    show_signed(&f, &r);
    answer = gw_timestamp(&state, f.bytes, f.len, r.verdicts, r.len);
    said(answer);
    return answer;
}

static bool new_snapshot(const char *name)
{
    static file f;
    row r;
    fetch(name, &f);
    r = verdicts(&state, &f);
    show_signed(&f, &r);
    return said(gw_snapshot(&state, f.bytes, f.len, r.verdicts, r.len));
}

static bool new_targets(const char *name)
{
    static file f;
    row r;
    fetch(name, &f);
    r = verdicts(&state, &f);
    show_signed(&f, &r);
    if (!said(gw_targets(&state, f.bytes, f.len, r.verdicts, r.len))) {
        return false;
    }
    targets = f;
    return true;
}

/* The image's length and digest by the targets file, then the fetched bytes against them. */
static bool image(const char *name)
{
    static file f;
    gw_image listed;
    gw_digest digest;
    gw_answer answer = gw_find(&state, targets.bytes, targets.len, (const uint8_t *)IMAGE, strlen(IMAGE), &listed);
    printf("  " IMAGE ": ");
    if (answer != GW_ACCEPTED) {
        return said(answer);
    }
    printf("listed with %llu bytes\n", (unsigned long long)listed.length);
    fetch(name, &f);
    digest = gw_sha256(f.bytes, f.len);
    printf("  %s, fetched: ", name);
    return said(gw_check_image(listed.length, listed.digest, sizeof listed.digest, f.len, digest.bytes, sizeof digest.bytes));
}

/* ---- Visits to the shelf: the clock, and which of its files the controller is given for each name that day */

typedef struct visit {
    const char *title;
    int64_t clock;
    const char *timestamp, *snapshot, *targets, *image;
} visit;

static const visit VISITS[] = {
    {"An update, 2026-03-02T06:00:00Z", 1772431200, "timestamp-41.json", "snapshot-7.json", "targets-3.json", IMAGE},
    {"No news, and another image under the name, 2026-03-03T06:00:00Z", 1772517600, "timestamp-41.json", "snapshot-7.json",
     "targets-3.json", "gate-firmware-old.img"},
    {"An old timestamp, 2026-03-03T07:00:00Z", 1772521200, "timestamp-40.json", "snapshot-6.json", "targets-2.json",
     "gate-firmware-old.img"},
    {"A new timestamp that lists an old snapshot, 2026-03-03T08:00:00Z", 1772524800, "timestamp-42-goes-back.json",
     "snapshot-6.json", "targets-2.json", "gate-firmware-old.img"},
    {"A stolen key, 2026-03-03T09:00:00Z", 1772528400, "timestamp-44-stolen-key.json", "snapshot-7.json", "targets-3.json", IMAGE},
    {"A forged signature, 2026-03-03T10:00:00Z", 1772532000, "timestamp-45-forged.json", "snapshot-7.json", "targets-3.json", IMAGE},
    {"Nothing new for a week, 2026-03-09T06:00:00Z", 1773036000, "timestamp-41.json", "snapshot-7.json", "targets-3.json", IMAGE},
    {"A flat battery, 2000-01-01T00:00:00Z", 946684800, "timestamp-41.json", "snapshot-7.json", "targets-3.json", IMAGE},
};

/* Whether the image may go into the gate. A refusal ends the visit, also of the new cycle, if the clock went back; "no news" does not. */
static bool update(const visit *v)
{
    gw_answer answer;
    if (!new_cycle(v->clock)) {
        return false;
    }
    while (next_root()) {
    }
    answer = timestamp(v->timestamp);
    if (answer == GW_ACCEPTED) {
        if (!new_snapshot(v->snapshot) || !new_targets(v->targets)) {
            return false;
        }
    } else if (answer != GW_NO_NEWS) {
        return false;
    }
    return image(v->image);
}

int main(int argc, char **argv)
{
    size_t i;
    if (argc != 2) {
        fprintf(stderr, "usage: controller SHELF\n");
        return 2;
    }
    shelf = argv[1];
    printf("The factory, 2026-03-01T08:00:00Z\n");
    if (!install("root-1.json", 1772352000)) {
        return 1;
    }
    show_held(&state);
    for (i = 0; i < sizeof VISITS / sizeof *VISITS; i++) {
        printf("\n%s\n", VISITS[i].title);
        printf(update(&VISITS[i]) ? "  It goes into the gate.\n" : "  The gate keeps what it has.\n");
        show_held(&state);
    }
    return 0;
}
