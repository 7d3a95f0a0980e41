/*
 * Makes the calls that it reads from standard input through the functions gw_* of gronwythal.h, and compares each answer, and what is
 * held afterwards, with what the stream says. src/stream.rs writes the stream and describes it.
 *
 * Bytes are lent from blocks of the heap that have exactly their size, or from pages next to one without access; after every call they
 * must be what they were. The archive is not instrumented: AddressSanitizer watches this program, the header's functions, and what
 * the archive does by memcpy and memset; what the archive reads or writes by itself outside of what it was lent is seen by the pages.
 *
 * 'driver --overread heap', '.. end' and '.. start' read one byte outside of a block or page, and must not survive it.
 */
#define _DEFAULT_SOURCE
#include "gronwythal.h"

#include <signal.h>
#include <stdio.h>
#include <stdlib.h>
#include <string.h>
#include <sys/mman.h>
#include <unistd.h>

#if defined(__SANITIZE_ADDRESS__)
#define SANITIZED 1
#elif defined(__has_feature)
#if __has_feature(address_sanitizer)
#define SANITIZED 1
#endif
#endif

#ifdef SANITIZED
void __sanitizer_set_death_callback(void (*callback)(void));
#endif

enum { ASIDE = 1, NULL_IF_EMPTY = 2, GUARDED_END = 4, GUARDED_START = 8 };
enum { PAGE = 4096, ROOM = 64 * PAGE, ROOMS = 3 };

static unsigned long calls;

/* ---- Where it was, if it is ended */

static void put(const char *text)
{
    if (write(STDERR_FILENO, text, strlen(text)) < 0)
        return;
}

static void say_where(void)
{
    char digits[24];
    char *start = digits + sizeof digits - 1;
    unsigned long left = calls;
    *start = '\0';
    do
        *--start = (char)('0' + left % 10);
    while (left /= 10);
    put("driver: ended in call ");
    put(start);
    put("\n");
}

#ifndef SANITIZED
static void say_where_and_end(int number)
{
    say_where();
    signal(number, SIG_DFL);
}
#endif

static void expect_the_end(void)
{
#ifdef SANITIZED
    __sanitizer_set_death_callback(say_where);
#else
    signal(SIGSEGV, say_where_and_end);
    signal(SIGBUS, say_where_and_end);
#endif
}

static _Noreturn void stop(const char *reason)
{
    printf("call %lu: %s\n", calls, reason);
    exit(1);
}

/* ---- The stream */

static void take(void *bytes, size_t count)
{
    if (count && fread(bytes, 1, count, stdin) != count)
        stop("the stream ends within a call");
}

static uint8_t take_byte(void)
{
    uint8_t byte;
    take(&byte, 1);
    return byte;
}

static uint64_t take_number(void)
{
    uint8_t bytes[8];
    uint64_t number = 0;
    take(bytes, sizeof bytes);
    for (int i = 7; i >= 0; i--)
        number = number << 8 | bytes[i];
    return number;
}

static int64_t take_time(void)
{
    uint64_t number = take_number();
    int64_t time;
    memcpy(&time, &number, sizeof time);
    return time;
}

/* ---- Lending */

struct lent {
    const uint8_t *bytes; /* what the library is given */
    size_t len;
    uint8_t *kept; /* what it must be afterwards */
    uint8_t *block; /* to be freed */
};

static struct lent lent[ROOMS];
static size_t lent_count;
static uint8_t *rooms[ROOMS];

static uint8_t *new_room(void)
{
    uint8_t *start = mmap(NULL, ROOM + 2 * PAGE, PROT_NONE, MAP_PRIVATE | MAP_ANONYMOUS, -1, 0);
    if (start == MAP_FAILED || mprotect(start + PAGE, ROOM, PROT_READ | PROT_WRITE))
        stop("no memory");
    return start + PAGE;
}

static uint8_t *new_block(size_t len)
{
    uint8_t *block = malloc(len);
    if (!block && len)
        stop("no memory");
    return block;
}

/* Reads the next argument of bytes from the stream and lends it. */
static const struct lent *lend(uint8_t how)
{
    struct lent *one = &lent[lent_count];
    uint8_t *bytes;
    one->len = take_number();
    one->block = NULL;
    if (one->len > ROOM)
        stop("an argument that is too long");
    if (how & (GUARDED_END | GUARDED_START)) {
        if (!rooms[lent_count])
            rooms[lent_count] = new_room();
        bytes = rooms[lent_count] + (how & GUARDED_END ? ROOM - one->len : 0);
    } else {
        bytes = one->block = new_block(one->len);
    }
    take(bytes, one->len);
    one->kept = new_block(one->len);
    if (one->len)
        memcpy(one->kept, bytes, one->len);
    one->bytes = one->len == 0 && (how & NULL_IF_EMPTY) ? NULL : bytes;
    lent_count++;
    return one;
}

/* What was lent must be as it was. */
static void take_back(void)
{
    for (size_t i = 0; i < lent_count; i++) {
        if (lent[i].len && memcmp(lent[i].bytes, lent[i].kept, lent[i].len))
            stop("the library has written to bytes that were lent");
        free(lent[i].block);
        free(lent[i].kept);
    }
    lent_count = 0;
}

/* ---- Comparing */

static void compare(const char *what, uint64_t library, uint64_t paper)
{
    if (library == paper)
        return;
    printf("call %lu: %s: library %llu, paper %llu\n", calls, what, (unsigned long long)library, (unsigned long long)paper);
    exit(1);
}

static void compare_number(const char *what, uint64_t library)
{
    compare(what, library, take_number());
}

static void compare_bytes(const char *what, const uint8_t *library, size_t count)
{
    for (size_t i = 0; i < count; i++)
        compare(what, library[i], take_byte());
}

static void compare_version(const char *what, gw_version library)
{
    compare(what, library.held, take_byte());
    compare_number(what, library.number);
}

static void compare_held(const gw_state *state)
{
    gw_versions held = gw_held(state);
    compare_version("root", held.root);
    compare_version("timestamp", held.timestamp);
    compare_version("snapshot", held.snapshot);
    compare_version("targets", held.targets);
    if (held.start != take_time())
        stop("another start time than paper's");
}

/* ---- The calls */

/* Calls that give back a state. */
static gw_answer step(char kind, uint8_t how, gw_state *state)
{
    const struct lent *a, *b, *c;
    if (kind == 'C')
        return gw_new_cycle(state, take_time());
    a = lend(how);
    b = lend(how);
    switch (kind) {
    case 'I':
        return gw_install(state, a->bytes, a->len, b->bytes, b->len, take_time());
    case 'T':
        return gw_timestamp(state, a->bytes, a->len, b->bytes, b->len);
    case 'S':
        return gw_snapshot(state, a->bytes, a->len, b->bytes, b->len);
    case 'G':
        return gw_targets(state, a->bytes, a->len, b->bytes, b->len);
    case 'R':
        c = lend(how);
        return gw_root(state, a->bytes, a->len, b->bytes, b->len, c->bytes, c->len);
    default:
        stop("no such call");
    }
}

static void make_step(char kind, uint8_t how, gw_state *state)
{
    gw_state before = *state;
    gw_answer answer = step(kind, how, state);
    compare("answer", answer, take_byte());
    /* A refusal leaves the state as it was; an install was given none. */
    if (answer != GW_ACCEPTED && kind != 'I' && memcmp(&before, state, sizeof before))
        stop("refused, and the state is another one");
}

static void find(uint8_t how, const gw_state *state)
{
    const struct lent *file = lend(how), *path = lend(how);
    gw_image image;
    gw_answer answer = gw_find(state, file->bytes, file->len, path->bytes, path->len, &image);
    compare("answer", answer, take_byte());
    compare("answer in the image", image.answer, answer);
    compare_number("length", image.length);
    compare_bytes("digest", image.digest, sizeof image.digest);
    compare_number("names compared", image.compared);
}

static void key(uint8_t how, const gw_state *state)
{
    const struct lent *keyid = lend(how);
    gw_public_key public;
    gw_answer answer = gw_key(state, keyid->bytes, keyid->len, &public);
    compare("answer", answer, take_byte());
    compare("answer in the key", public.answer, answer);
    compare_bytes("public key", public.bytes, sizeof public.bytes);
}

static void image(uint8_t how)
{
    uint64_t listed = take_number();
    const struct lent *digest = lend(how);
    uint64_t fetched = take_number();
    const struct lent *hash = lend(how);
    gw_answer answer = gw_check_image(listed, digest->bytes, digest->len, fetched, hash->bytes, hash->len);
    compare("answer", answer, take_byte());
}

static void look(uint8_t how)
{
    const struct lent *file = lend(how);
    const uint8_t *part = NULL;
    size_t len = 1, entries = 1;
    gw_answer answer = gw_signed_part(file->bytes, file->len, &part, &len, &entries);
    compare("answer", answer, take_byte());
    compare_number("start", file->bytes ? (uint64_t)(part - file->bytes) : 0);
    compare_number("length", len);
    compare_number("entries", entries);
}

static void entry(uint8_t how)
{
    const struct lent *file = lend(how);
    uint64_t place = take_number();
    gw_entry read;
    gw_answer answer = gw_entry_at(file->bytes, file->len, place, &read);
    compare("answer", answer, take_byte());
    compare("answer in the entry", read.answer, answer);
    compare_bytes("keyid", read.keyid, sizeof read.keyid);
    compare_bytes("sig", read.sig, sizeof read.sig);
}

/* It is never refused; paper's answer is 0. */
static void sha256(uint8_t how)
{
    const struct lent *message = lend(how);
    gw_digest digest = gw_sha256(message->bytes, message->len);
    compare("answer", GW_ACCEPTED, take_byte());
    compare_bytes("digest", digest.bytes, sizeof digest.bytes);
}

static void make(char kind, uint8_t how, gw_state *state)
{
    const struct lent *text;
    switch (kind) {
    case 'f':
        find(how, state);
        break;
    case 'k':
        key(how, state);
        break;
    case 'i':
        image(how);
        break;
    case 'l':
        look(how);
        break;
    case 'e':
        entry(how);
        break;
    case 'h':
        sha256(how);
        break;
    case 'c':
        text = lend(how);
        compare("is_canonical", gw_is_canonical(text->bytes, text->len), take_byte());
        break;
    default:
        make_step(kind, how, state);
    }
}

/* ---- Tries of the watch itself */

static int tried(const char *access)
{
    volatile uint8_t *bytes;
    if (!strcmp(access, "heap"))
        bytes = new_block(100);
    else if (!strcmp(access, "end"))
        bytes = new_room() + ROOM - 100;
    else if (!strcmp(access, "start"))
        bytes = new_room();
    else
        stop("no such access");
    printf("%d\n", strcmp(access, "start") ? bytes[100] : bytes[-1]);
    return 0;
}

int main(int count, char **words)
{
    gw_state state;
    int kind;
    expect_the_end();
    if (count == 3 && !strcmp(words[1], "--overread"))
        return tried(words[2]);
    gw_blank(&state);
    while ((kind = getchar()) != EOF) {
        uint8_t how = take_byte();
        gw_state kept = state;
        calls++;
        make((char)kind, how, &state);
        take_back();
        compare_held(&state);
        if (how & ASIDE)
            state = kept;
    }
#ifdef SANITIZED
    printf("%lu calls, with AddressSanitizer\n", calls);
#else
    printf("%lu calls, without AddressSanitizer\n", calls);
#endif
    return 0;
}
