/*
 * Where the archive has the fields of each exported struct: a table of lines 'STRUCT FIELD OFFSET SIZE', and 'STRUCT size SIZE', found by
 * the probes of crates/layout. A probe puts two equal values one behind another, in which each field has bytes that no other has. A digest
 * is one field alone, so its two values differ: equal ones would run into one another.
 */
#include <stdbool.h>
#include <stdint.h>
#include <stdio.h>
#include <stdlib.h>
#include <string.h>

/*
 * The probes return their struct by value. On x86-64 (System V) the caller of such a function passes the place of the result as a first
 * argument. Here it is declared as one, so that this file says nothing of the structs.
 */
void layout_state(void *place, int64_t start);
void layout_step(void *place, uint8_t answer, int64_t start);
void layout_image(void *place, uint8_t answer, uint64_t length, uint8_t mark, size_t compared);
void layout_digest(void *place, uint8_t first_mark, uint8_t second_mark);
void layout_public_key(void *place, uint8_t answer, uint8_t mark);
void layout_look(void *place, uint8_t answer, size_t start, size_t length, size_t entries);
void layout_entry(void *place, uint8_t answer, uint8_t keyid_mark, uint8_t sig_mark);
void layout_version(void *place, bool held, uint64_t number);
void layout_versions(void *place, uint8_t held, uint64_t root, uint64_t timestamp, uint64_t snapshot, uint64_t targets, int64_t start);

enum { UNUSED = 0xee, ROOM = 16384 };

static unsigned char place[ROOM] __attribute__((aligned(64)));

static void clear(void)
{
    memset(place, UNUSED, sizeof place);
}

/* A number each byte of which is the mark. */
static uint64_t eight(uint8_t mark)
{
    return mark * UINT64_C(0x0101010101010101);
}

/* ---- Where a mark stands: two runs of one length */

typedef struct runs {
    size_t first, second, length;
} runs;

static runs no_such(const char *name, const char *field, const char *why)
{
    printf("%s %s: %s\n", name, field, why);
    exit(1);
}

static size_t run_from(size_t at, uint8_t mark)
{
    size_t length = 0;
    while (at + length < ROOM && place[at + length] == mark) {
        length++;
    }
    return length;
}

static size_t next_from(size_t at, uint8_t mark)
{
    while (at < ROOM && place[at] != mark) {
        at++;
    }
    return at;
}

/* The field has the first mark in the first value and the second mark in the second; they may be the same. */
static runs find_two(const char *name, const char *field, uint8_t first_mark, uint8_t second_mark)
{
    runs r;
    size_t more;
    r.first = next_from(0, first_mark);
    r.length = run_from(r.first, first_mark);
    r.second = next_from(r.first + r.length, second_mark);
    more = run_from(r.second, second_mark);
    if (r.length == 0 || more == 0) {
        return no_such(name, field, "its mark does not stand in both values");
    }
    if (more != r.length || next_from(r.second + more, first_mark) != ROOM || next_from(r.second + more, second_mark) != ROOM) {
        return no_such(name, field, "its mark stands elsewhere too");
    }
    return r;
}

static runs find(const char *name, const char *field, uint8_t mark)
{
    return find_two(name, field, mark, mark);
}

/* ---- The table */

/* The size of the struct by its first field; every other field must say the same. */
static size_t size;

static void sized(const char *name, const char *field, runs r)
{
    if (size == 0) {
        size = r.second - r.first;
        printf("%s size %zu\n", name, size);
    }
    if (r.second - r.first != size) {
        no_such(name, field, "the second value stands at another distance than that of the field before");
    }
}

static void show(const char *name, const char *field_name, runs r)
{
    sized(name, field_name, r);
    printf("%s %s %zu %zu\n", name, field_name, r.first, r.length);
}

static void field(const char *name, const char *field_name, uint8_t mark)
{
    show(name, field_name, find(name, field_name, mark));
}

static void begin(void)
{
    size = 0;
    clear();
}

/* A state shows its start time alone. A struct of a byte and a state has the state at a multiple of its alignment. */
static void states(void)
{
    runs start, in_step;
    size_t state_size;
    begin();
    layout_state(place, (int64_t)eight(0x11));
    start = find("state", "start", 0x11);
    sized("state", "start", start);
    state_size = size;
    begin();
    layout_step(place, 0x12, (int64_t)eight(0x11));
    in_step = find("step", "state", 0x11);
    printf("state align %zu\n", in_step.first - start.first);
    field("step", "answer", 0x12);
    sized("step", "state", in_step);
    printf("step state %zu %zu\n", in_step.first - start.first, state_size);
}

/* A truth value that is true where no other is: the byte that is 1 in this turn and 0 in all others. */
static void held_fields(void)
{
    static const char *const names[4] = {"root.held", "timestamp.held", "snapshot.held", "targets.held"};
    static unsigned char turns[4][ROOM];
    uint8_t turn, other;
    for (turn = 0; turn < 4; turn++) {
        clear();
        layout_versions(place, turn, eight(0x12), eight(0x14), eight(0x16), eight(0x18), (int64_t)eight(0x19));
        memcpy(turns[turn], place, sizeof place);
    }
    for (turn = 0; turn < 4; turn++) {
        size_t at;
        for (at = 0; at < ROOM; at++) {
            bool alone = turns[turn][at] == 1;
            for (other = 0; other < 4; other++) {
                alone = alone && (other == turn || turns[other][at] == 0);
            }
            place[at] = alone ? 0x11 : UNUSED;
        }
        field("versions", names[turn], 0x11);
    }
}

static void versions(void)
{
    begin();
    layout_version(place, true, eight(0x12));
    field("version", "number", 0x12);
    field("version", "held", 1);
    begin();
    layout_versions(place, 4, eight(0x12), eight(0x14), eight(0x16), eight(0x18), (int64_t)eight(0x19));
    field("versions", "root.number", 0x12);
    field("versions", "timestamp.number", 0x14);
    field("versions", "snapshot.number", 0x16);
    field("versions", "targets.number", 0x18);
    field("versions", "start", 0x19);
    held_fields();
}

int main(void)
{
    states();
    begin();
    layout_image(place, 0x11, eight(0x12), 0x13, eight(0x14));
    field("image", "answer", 0x11);
    field("image", "length", 0x12);
    field("image", "digest", 0x13);
    field("image", "compared", 0x14);
    begin();
    layout_digest(place, 0x11, 0x12);
    show("digest", "bytes", find_two("digest", "bytes", 0x11, 0x12));
    begin();
    layout_public_key(place, 0x11, 0x12);
    field("public_key", "answer", 0x11);
    field("public_key", "bytes", 0x12);
    begin();
    layout_look(place, 0x11, eight(0x12), eight(0x13), eight(0x14));
    field("look", "answer", 0x11);
    field("look", "start", 0x12);
    field("look", "length", 0x13);
    field("look", "entries", 0x14);
    begin();
    layout_entry(place, 0x11, 0x12, 0x13);
    field("entry", "answer", 0x11);
    field("entry", "keyid", 0x12);
    field("entry", "sig", 0x13);
    versions();
    return 0;
}
