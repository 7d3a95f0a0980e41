/*
 * For more than one file of tests: counting them, and small files in which one key signs every role. The answers of the tests were derived
 * by hand from document 01 and the requests that amend it.
 */
#ifndef TESTS_H
#define TESTS_H

#include <stdio.h>
#include <string.h>

#include "gronwythal.h"

/* ---- Counting */

static int passed, failed;

static void expect(const char *source, int line, const char *what, long long stated, long long given)
{
    if (stated == given) {
        passed++;
        return;
    }
    failed++;
    printf("%s:%d: %s: stated %lld, given %lld\n", source, line, what, stated, given);
}

#define EXPECT_OF(what, stated, given) expect(__FILE__, __LINE__, what, (long long)(stated), (long long)(given))
#define EXPECT(stated, call) EXPECT_OF(#call, stated, call)

/* ---- Files */

typedef struct file {
    uint8_t at[4096];
    size_t len;
} file;

static file written(const char *content)
{
    file f;
    memset(&f, 0, sizeof f);
    f.len = strlen(content);
    memcpy(f.at, content, f.len);
    return f;
}

/* The file with its first `from` replaced by `to`, which has as many bytes. */
static file changed(file f, const char *from, const char *to)
{
    size_t len = strlen(from), at = 0;
    while (at + len <= f.len && memcmp(f.at + at, from, len) != 0) {
        at++;
    }
    EXPECT(1, at + len <= f.len && strlen(to) == len);
    if (at + len <= f.len) {
        memcpy(f.at + at, to, len);
    }
    return f;
}

static const uint8_t GOOD[GW_MAX_ENTRIES] = {1, 1};

static const uint8_t *text(const char *s)
{
    return (const uint8_t *)s;
}

/* ---- Small files: one key signs every role */

#define ONES_16 "1111111111111111"
#define ONES_64 ONES_16 ONES_16 ONES_16 ONES_16

/* An image of that name, as a file writes it. */
#define LISTED(name, length) "\"" name "\":{\"hashes\":{\"sha256\":\"" ONES_64 "\"},\"length\":" #length "}"

#define B_16 "bbbbbbbbbbbbbbbb"
#define KEY "{\"keytype\":\"ed25519\",\"keyval\":{\"public\":\"" B_16 B_16 B_16 B_16 "\"},\"scheme\":\"ed25519\"}"
#define KEYID "72164dd0dd21502e17f1d57bfb21b4a44ec536df765ca2c57fdc9514846c4a7c" /* the digest of KEY, by sha256sum */
#define ONE_KEY "{\"keyids\":[\"" KEYID "\"],\"threshold\":1}"
#define EXPIRES "\"expires\":\"2030-01-01T00:00:00Z\""

#define SMALL(signed_part) \
    "{\"signatures\":[{\"keyid\":\"" KEYID "\",\"sig\":\"" ONES_64 ONES_64 "\"}],\"signed\":" signed_part "}"
#define SMALL_ROOT(version) \
    SMALL("{\"_type\":\"root\",\"consistent_snapshot\":false," EXPIRES ",\"keys\":{\"" KEYID "\":" KEY "}," \
          "\"roles\":{\"root\":" ONE_KEY ",\"snapshot\":" ONE_KEY ",\"targets\":" ONE_KEY ",\"timestamp\":" ONE_KEY "}," \
          "\"spec_version\":\"1\",\"version\":" version "}")
#define SMALL_TIMESTAMP(version, snapshot) \
    SMALL("{\"_type\":\"timestamp\"," EXPIRES ",\"meta\":{\"snapshot.json\":{" snapshot "}}," \
          "\"spec_version\":\"1\",\"version\":" version "}")
#define SMALL_SNAPSHOT(version, other, targets) \
    SMALL("{\"_type\":\"snapshot\"," EXPIRES ",\"meta\":{\"other.json\":{" other "},\"targets.json\":{" targets "}}," \
          "\"spec_version\":\"1\",\"version\":" version "}")
#define SMALL_TARGETS(version, images) \
    SMALL("{\"_type\":\"targets\"," EXPIRES ",\"spec_version\":\"1\",\"targets\":{" images "},\"version\":" version "}")

/* Versions are given as files write them: some are beyond every type. */
static file root_of(const char *version)
{
    char content[4096];
    snprintf(content, sizeof content, SMALL_ROOT("%s"), version);
    return written(content);
}

static file timestamp_of(const char *version, const char *snapshot)
{
    char content[4096];
    snprintf(content, sizeof content, SMALL_TIMESTAMP("%s", "\"version\":%s"), snapshot, version);
    return written(content);
}

static file snapshot_of(const char *version, const char *other, const char *targets)
{
    char content[4096];
    snprintf(content, sizeof content, SMALL_SNAPSHOT("%s", "\"version\":%s", "\"version\":%s"), other, targets, version);
    return written(content);
}

static file targets_of(const char *version)
{
    char content[4096];
    snprintf(content, sizeof content, SMALL_TARGETS("%s", LISTED("i", 5)), version);
    return written(content);
}

static gw_answer install_small(gw_state *state, const file *f, int64_t start)
{
    return gw_install(state, f->at, f->len, GOOD, 1, start);
}

static gw_answer offer_root(gw_state *state, const file *f)
{
    return gw_root(state, f->at, f->len, GOOD, 1, GOOD, 1);
}

static gw_answer offer_timestamp(gw_state *state, const file *f)
{
    return gw_timestamp(state, f->at, f->len, GOOD, 1);
}

static gw_answer offer_snapshot(gw_state *state, const file *f)
{
    return gw_snapshot(state, f->at, f->len, GOOD, 1);
}

static gw_answer offer_targets(gw_state *state, const file *f)
{
    return gw_targets(state, f->at, f->len, GOOD, 1);
}

static gw_answer find_in(const gw_state *state, const file *f)
{
    gw_image image;
    return gw_find(state, f->at, f->len, text("i"), 1, &image);
}

/* ---- What is held, as four versions: 0 for one that is not held */

enum { ROOT, TIMESTAMP, SNAPSHOT, TARGETS_FILE, RECORDS };

typedef struct held_versions {
    uint64_t of[RECORDS];
} held_versions;

static bool holds(const gw_state *state, const held_versions *stated)
{
    const gw_versions v = gw_held(state);
    const gw_version given[RECORDS] = {v.root, v.timestamp, v.snapshot, v.targets};
    int i;
    for (i = 0; i < RECORDS; i++) {
        if (given[i].number != stated->of[i] || given[i].held != (stated->of[i] != 0)) {
            return false;
        }
    }
    return true;
}

#endif
