/*
 * Gronwythal: which file on an untrusted shared store to believe, by The Update Framework (TUF).
 *
 * Link libgronwythal.a (x86-64 Linux); `./build` makes it, and README.md says how. Of the C library it needs memcpy and memset alone.
 * Nothing is allocated, nothing is global, no call blocks, and every call may be made in any thread: a trusted state is one value of
 * GW_STATE_SIZE bytes that the caller keeps, and every call is a function of its arguments. Any bytes, verdicts and clock are answered; no
 * call asks that anything be checked before it. A refusal leaves the state as it was.
 *
 * Use the functions gw_*. They are thin: each passes the state by value to the function gronwythal_* of the archive, which is proved to
 * answer as the paper says, and stores the state that comes back. A call takes at most 48 KiB of stack, the copies of the state included.
 *
 * Bytes are lent as a pointer and a length, for the time of the call, and never written. A null pointer stands for no bytes: lend it with
 * length 0 only.
 *
 * A verdict row has one byte for each signature entry of the file, in file order: 1 if the entry's signature verifies over the signed part
 * under the key of its keyid, else 0; so it is 0 where no such key is known. Checking signatures is the caller's: gw_signed_part,
 * gw_entry_at and gw_key give what a check needs. Digests are SHA-256. Those of metadata files are computed inside; that of a fetched image
 * is an argument, and gw_sha256 computes it. See examples/c for a whole controller.
 */
#ifndef GRONWYTHAL_H
#define GRONWYTHAL_H

#include <stdbool.h>
#include <stddef.h>
#include <stdint.h>

#ifdef __cplusplus
extern "C" {
#endif

/* ---- Sizes and limits. A file, row or path beyond them is answered too: with a refusal. */

#define GW_STATE_SIZE 4608     /* bytes of a trusted state */
#define GW_MAX_FILE 32768      /* bytes of a file of metadata */
#define GW_MAX_ENTRIES 16      /* signature entries of a file, and so verdicts of a row */
#define GW_MAX_PATH 128        /* bytes of a target's path */
#define GW_KEYID_HEX 64        /* digits of a keyid, as files write it */
#define GW_ID_SIZE 32          /* bytes of a keyid, a public key or a digest */
#define GW_SIGNATURE_SIZE 64   /* bytes of a signature */

/* ---- Answers: the lowest number whose condition holds, of those that the call uses; 0 if none. Only GW_OTHER_KEYID is out of this order:
   it is tried between 3 and 4. GW_EARLIER_START is used by gw_new_cycle alone, which uses no other. Each call below says in brackets which
   refusals it uses. A call that does not answer GW_ACCEPTED has changed nothing, but for gw_install. */

typedef enum gw_answer {
    GW_ACCEPTED = 0,
    GW_TOO_LONG = 1,       /* the file is longer than GW_MAX_FILE */
    GW_NOT_TEXT = 2,       /* not canonical JSON text, empty input included */
    GW_BAD_FORM = 3,       /* a member is missing, or has not its form */
    GW_OTHER_SPEC = 4,     /* spec_version is neither 1 nor begins with 1. */
    GW_BAD_ARGUMENT = 5,   /* a verdict row of another length than the entries, a verdict not 0 or 1; an image's digest not 32 bytes */
    GW_NOT_HELD = 6,       /* a record that the step needs is not held, or not current */
    GW_HELD_EXPIRED = 7,   /* a record that the step leans on has expired */
    GW_OTHER_CONTENT = 8,  /* length or digest differs from what is listed */
    GW_FEW_HELD_KEYS = 9,  /* too few different keys of the held root */
    GW_FEW_OWN_KEYS = 10,  /* too few different keys of the new root itself */
    GW_WRONG_VERSION = 11, /* wrong version */
    GW_NO_NEWS = 12,       /* same timestamp version: normal, no news; go on with what is held */
    GW_WENT_BACK = 13,     /* a listed version went back, or a name vanished */
    GW_FILE_EXPIRED = 14,  /* the offered file has expired */
    GW_NOT_LISTED = 15,    /* not listed */
    GW_OTHER_KEYID = 16,   /* a keyid in a key table is not the digest of its key */
    GW_EARLIER_START = 17  /* start time earlier than the latest one the state has had */
} gw_answer;

/* ---- Values */

/*
 * The trusted state. Its bytes are the library's own: begin with gw_blank or gw_install, and keep what comes back. It may be copied by
 * assignment, and stored and read back by a program with the same archive; whoever can write where it is stored decides what is trusted.
 * Do not compare two by their bytes: some of them are padding.
 */
typedef struct gw_state {
    uint64_t opaque[GW_STATE_SIZE / 8];
} gw_state;

/* What a step gives back: the answer, and the next state. */
typedef struct gw_step {
    uint8_t answer;
    gw_state state;
} gw_step;

/*
 * What find gives. Length, in bytes, and digest, SHA-256, are zeros where it is refused. `compared` is how many listed names the path was
 * compared with: those smaller than it, byte by byte and a shorter prefix first, and one more where one is left. It is 0 with a refusal of
 * 1 to 8.
 */
typedef struct gw_image {
    uint8_t answer;
    uint64_t length;
    uint8_t digest[GW_ID_SIZE];
    size_t compared;
} gw_image;

/* A SHA-256 digest. */
typedef struct gw_digest {
    uint8_t bytes[GW_ID_SIZE];
} gw_digest;

/* A held root's public key, Ed25519: zeros where it is refused. */
typedef struct gw_public_key {
    uint8_t answer;
    uint8_t bytes[GW_ID_SIZE];
} gw_public_key;

/* Where the signed part stands in a file, and the number of signature entries: zeros where it is refused. */
typedef struct gw_look {
    uint8_t answer;
    size_t start;
    size_t length;
    size_t entries;
} gw_look;

/* One signature entry, its hex undone: zeros where it is refused. */
typedef struct gw_entry {
    uint8_t answer;
    uint8_t keyid[GW_ID_SIZE];
    uint8_t sig[GW_SIGNATURE_SIZE];
} gw_entry;

/* A record's version, 1 to 9,007,199,254,740,991, where the record is held; else 0. */
typedef struct gw_version {
    bool held;
    uint64_t number;
} gw_version;

/* The held versions, and the start time in force, in seconds from 1970-01-01T00:00:00Z: the latest one that the state has had. */
typedef struct gw_versions {
    gw_version root;
    gw_version timestamp;
    gw_version snapshot;
    gw_version targets;
    int64_t start;
} gw_versions;

/* The archive was made for these. Where one differs, this header was read for another kind of machine than x86-64 Linux. */
#if defined(__cplusplus) || (defined(__STDC_VERSION__) && __STDC_VERSION__ >= 202311L)
#define GW_SIZE_IS_(type, size) static_assert(sizeof(type) == (size), "libgronwythal.a has another size of " #type)
#elif defined(__STDC_VERSION__) && __STDC_VERSION__ >= 201112L
#define GW_SIZE_IS_(type, size) _Static_assert(sizeof(type) == (size), "libgronwythal.a has another size of " #type)
#else
#define GW_SIZE_IS_(type, size) struct gw_unchecked_ /* C99 cannot tell */
#endif
GW_SIZE_IS_(size_t, 8);
GW_SIZE_IS_(bool, 1);
GW_SIZE_IS_(gw_state, GW_STATE_SIZE);
GW_SIZE_IS_(gw_step, GW_STATE_SIZE + 8);
GW_SIZE_IS_(gw_image, 56);
GW_SIZE_IS_(gw_digest, 32);
GW_SIZE_IS_(gw_public_key, 33);
GW_SIZE_IS_(gw_look, 32);
GW_SIZE_IS_(gw_entry, 97);
GW_SIZE_IS_(gw_version, 16);
GW_SIZE_IS_(gw_versions, 72);
#undef GW_SIZE_IS_

/* ---- The functions of the archive, by value. Pointers must not be null, not even with length 0: the calls below see to that. */

gw_state gronwythal_blank(void);
gw_step gronwythal_install(const uint8_t *file, size_t file_len, const uint8_t *row, size_t row_len, int64_t start);
gw_step gronwythal_new_cycle(gw_state state, int64_t start);
gw_step gronwythal_root(gw_state state, const uint8_t *file, size_t file_len, const uint8_t *held_row, size_t held_row_len,
                        const uint8_t *own_row, size_t own_row_len);
gw_step gronwythal_timestamp(gw_state state, const uint8_t *file, size_t file_len, const uint8_t *row, size_t row_len);
gw_step gronwythal_snapshot(gw_state state, const uint8_t *file, size_t file_len, const uint8_t *row, size_t row_len);
gw_step gronwythal_targets(gw_state state, const uint8_t *file, size_t file_len, const uint8_t *row, size_t row_len);
gw_image gronwythal_find(gw_state state, const uint8_t *file, size_t file_len, const uint8_t *path, size_t path_len);
gw_public_key gronwythal_key(gw_state state, const uint8_t *keyid, size_t keyid_len);
gw_versions gronwythal_versions(gw_state state);
gw_digest gronwythal_sha256(const uint8_t *bytes, size_t bytes_len);
uint8_t gronwythal_check_image(uint64_t listed, const uint8_t *digest, size_t digest_len, uint64_t fetched, const uint8_t *hash,
                               size_t hash_len);
gw_look gronwythal_look(const uint8_t *file, size_t file_len);
gw_entry gronwythal_entry(const uint8_t *file, size_t file_len, size_t place);
bool gronwythal_is_canonical(const uint8_t *text, size_t text_len);

/* ---- The calls, in the order of an update */

/* A pointer that may be lent: in place of null, one to nothing of use. */
static inline const uint8_t *gw_lent_(const void *bytes)
{
    return bytes ? (const uint8_t *)bytes : (const uint8_t *)"";
}

static inline gw_answer gw_stored_(gw_state *state, const gw_step *step)
{
    *state = step->state;
    return (gw_answer)step->answer;
}

/* The blank state: it holds no record, and its start time is the lowest. */
static inline void gw_blank(gw_state *state)
{
    *state = gronwythal_blank();
}

/*
 * The root from the factory, judged by its own root role (1 to 5, 10, 16): one row, of verdicts under the keys that the file itself lists.
 * It begins a new history: what `state` held is gone, its start time too, and after a refusal it is the blank state. Expiry does not
 * matter here.
 */
static inline gw_answer gw_install(gw_state *state, const uint8_t *file, size_t file_len, const uint8_t *row, size_t row_len,
                                   int64_t start)
{
    gw_step step = gronwythal_install(gw_lent_(file), file_len, gw_lent_(row), row_len, start);
    return gw_stored_(state, &step);
}

/*
 * A new update cycle (17) at that time, in seconds from 1970-01-01T00:00:00Z, by which expiry is judged from here on. A time earlier than
 * the start time in force is refused, so that nothing that has expired is found fresh by a clock that went back. The same time passes, and
 * on the blank state, whose time is the lowest, any. After a refusal the calls go on by the start time in force. A clock that ran far
 * ahead is not taken back by a cycle either: only gw_install, which begins a new history, sets an earlier time.
 */
static inline gw_answer gw_new_cycle(gw_state *state, int64_t start)
{
    gw_step step = gronwythal_new_cycle(*state, start);
    return gw_stored_(state, &step);
}

/*
 * The next root (1 to 6, 9, 10, 11, 16), whose version is the held one plus one: the verdicts under the held root's keys, and those under
 * the keys that the file itself lists. Offer each root in turn until there is none. One that changes the set of keys or the threshold of
 * timestamp or snapshot drops those records and targets; one that changes those of targets alone drops targets.
 */
static inline gw_answer gw_root(gw_state *state, const uint8_t *file, size_t file_len, const uint8_t *held_row,
                                size_t held_row_len, const uint8_t *own_row, size_t own_row_len)
{
    gw_step step = gronwythal_root(*state, gw_lent_(file), file_len, gw_lent_(held_row), held_row_len, gw_lent_(own_row),
                                   own_row_len);
    return gw_stored_(state, &step);
}

/* A timestamp (1 to 7, 9, 11 to 14). GW_NO_NEWS is the normal answer to the one that is held. */
static inline gw_answer gw_timestamp(gw_state *state, const uint8_t *file, size_t file_len, const uint8_t *row, size_t row_len)
{
    gw_step step = gronwythal_timestamp(*state, gw_lent_(file), file_len, gw_lent_(row), row_len);
    return gw_stored_(state, &step);
}

/* A snapshot (1 to 9, 11, 13, 14): the one that the held timestamp lists. */
static inline gw_answer gw_snapshot(gw_state *state, const uint8_t *file, size_t file_len, const uint8_t *row, size_t row_len)
{
    gw_step step = gronwythal_snapshot(*state, gw_lent_(file), file_len, gw_lent_(row), row_len);
    return gw_stored_(state, &step);
}

/* A targets file (1 to 9, 11, 14): the one that the held snapshot lists. Keep it: gw_find asks for it. */
static inline gw_answer gw_targets(gw_state *state, const uint8_t *file, size_t file_len, const uint8_t *row, size_t row_len)
{
    gw_step step = gronwythal_targets(*state, gw_lent_(file), file_len, gw_lent_(row), row_len);
    return gw_stored_(state, &step);
}

/*
 * The length and digest of an image (1 to 4, 6 to 8, 15). The file is the targets file that was accepted; another is refused, by its
 * digest. The path is the name in that file, with its escapes undone, and no null byte behind it. Names rise, so the search ends at the
 * first that is not smaller than the path: `compared` says how far it went, with GW_ACCEPTED and with GW_NOT_LISTED.
 */
static inline gw_answer gw_find(const gw_state *state, const uint8_t *file, size_t file_len, const uint8_t *path, size_t path_len,
                                gw_image *image)
{
    *image = gronwythal_find(*state, gw_lent_(file), file_len, gw_lent_(path), path_len);
    return (gw_answer)image->answer;
}

/*
 * SHA-256 of the lent bytes: a fetched image's digest, for gw_check_image. They are lent in one piece; a controller that fetches an image
 * in several needs a SHA-256 of its own.
 */
static inline gw_digest gw_sha256(const uint8_t *bytes, size_t bytes_len)
{
    return gronwythal_sha256(gw_lent_(bytes), bytes_len);
}

/* A fetched image against what find gave (5, 8): lengths, and 32 bytes of digest each; first what was found, then what was fetched. */
static inline gw_answer gw_check_image(uint64_t listed, const uint8_t *digest, size_t digest_len, uint64_t fetched,
                                       const uint8_t *hash, size_t hash_len)
{
    return (gw_answer)gronwythal_check_image(listed, gw_lent_(digest), digest_len, fetched, gw_lent_(hash), hash_len);
}

/* ---- What signature checking needs */

/*
 * The signed part, which signatures are over, and the number of entries (1 to 3). It is a part of the caller's own bytes, not a copy, and
 * lasts as long as they do. Refused: no bytes, no entries.
 */
static inline gw_answer gw_signed_part(const uint8_t *file, size_t file_len, const uint8_t **part, size_t *part_len,
                                       size_t *entries)
{
    gw_look look = gronwythal_look(gw_lent_(file), file_len);
    *part = gw_lent_(file) + look.start;
    *part_len = look.length;
    *entries = look.entries;
    return (gw_answer)look.answer;
}

/* The entry at that place, counted from 0 (1 to 3, 15). */
static inline gw_answer gw_entry_at(const uint8_t *file, size_t file_len, size_t place, gw_entry *entry)
{
    *entry = gronwythal_entry(gw_lent_(file), file_len, place);
    return (gw_answer)entry->answer;
}

/* The held root's public key of a keyid (6, 15), given as files write it: 64 lower-case hex digits, not the 32 bytes of gw_entry. */
static inline gw_answer gw_key(const gw_state *state, const uint8_t *keyid, size_t keyid_len, gw_public_key *key)
{
    *key = gronwythal_key(*state, gw_lent_(keyid), keyid_len);
    return (gw_answer)key->answer;
}

/* ---- What is held, and text alone */

/* The held versions, and the start time in force. */
static inline gw_versions gw_held(const gw_state *state)
{
    return gronwythal_versions(*state);
}

/* Whether the bytes are canonical JSON text, of any length. */
static inline bool gw_is_canonical(const uint8_t *text, size_t text_len)
{
    return gronwythal_is_canonical(gw_lent_(text), text_len);
}

#ifdef __cplusplus
}
#endif

#endif
