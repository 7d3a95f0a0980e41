/*
 * The stack that a call takes, against what include/gronwythal.h says. An update runs on a stack of its own that was filled before each
 * call, and what the call left unfilled is counted. The argument is the folder examples/shelf. The last line is 'N passed, M failed'.
 */
#define _XOPEN_SOURCE 700
#include <stdio.h>
#include <stdlib.h>
#include <string.h>
#include <ucontext.h>

#include "gronwythal.h"

enum { STATED = 48 * 1024, SIZE = 256 * 1024, FILL = 0xa5 };

static unsigned char stack[SIZE];
static ucontext_t here, there;
static int passed, failed;

/* ---- The update: what a call is lent stands here, so that the stack has the call alone */

static gw_state state;
static uint8_t file[4096], message[1000000];
static size_t file_len;
static const uint8_t good[2] = {1, 1};
static gw_answer answer;

static void install(void) { answer = gw_install(&state, file, file_len, good, 2, 1772431200); }
static void new_cycle(void) { answer = gw_new_cycle(&state, 1772431200); }
static void root(void) { answer = gw_root(&state, file, file_len, good, 2, good, 2); }
static void timestamp(void) { answer = gw_timestamp(&state, file, file_len, good, 1); }
static void snapshot(void) { answer = gw_snapshot(&state, file, file_len, good, 1); }
static void targets(void) { answer = gw_targets(&state, file, file_len, good, 1); }

static void find(void)
{
    gw_image image;
    answer = gw_find(&state, file, file_len, (const uint8_t *)"gate-firmware.img", 17, &image);
}

/* As deep as text may be nested. */
static void is_canonical(void)
{
    answer = gw_is_canonical((const uint8_t *)"[[[[[[[[0]]]]]]]]", 17) ? GW_ACCEPTED : GW_NOT_TEXT;
}

/* A million times "a", whose digest NIST gives: it begins with cdc7. The stack must not grow with the number of blocks. */
static void sha256(void)
{
    gw_digest digest = gw_sha256(message, sizeof message);
    answer = digest.bytes[0] == 0xcd && digest.bytes[1] == 0xc7 ? GW_ACCEPTED : GW_OTHER_CONTENT;
}

static void take(const char *shelf, const char *name)
{
    char path[4096];
    FILE *stream;
    snprintf(path, sizeof path, "%s/%s", shelf, name);
    stream = fopen(path, "rb");
    if (!stream) {
        printf("cannot open %s\n0 passed, 1 failed\n", path);
        exit(1);
    }
    file_len = fread(file, 1, sizeof file, stream);
    fclose(stream);
}

/* ---- Counting */

static size_t taken(void)
{
    size_t unused = 0;
    while (unused < sizeof stack && stack[unused] == FILL) {
        unused++;
    }
    return sizeof stack - unused;
}

static void run(void (*call)(void))
{
    memset(stack, FILL, sizeof stack);
    answer = GW_NOT_LISTED;
    getcontext(&there);
    there.uc_stack.ss_sp = stack;
    there.uc_stack.ss_size = sizeof stack;
    there.uc_link = &here;
    makecontext(&there, call, 0);
    swapcontext(&here, &there);
}

/* A call takes more than the state that it is given, or nothing was measured. These two are given none. */
static size_t least(void (*call)(void))
{
    return call == is_canonical || call == sha256 ? 0 : GW_STATE_SIZE;
}

static void measure(const char *name, void (*call)(void))
{
    run(call);
    if (answer == GW_ACCEPTED && taken() <= STATED && taken() > least(call)) {
        passed++;
        return;
    }
    failed++;
    printf("stack.c: %s answers %d and takes %zu bytes of stack; stated: 0, and at most %d\n", name, (int)answer, taken(), STATED);
}

int main(int argc, char **argv)
{
    const char *shelf = argc == 2 ? argv[1] : ".";
    take(shelf, "root-1.json");
    measure("install", install);
    measure("new_cycle", new_cycle);
    take(shelf, "root-2.json");
    measure("root", root);
    take(shelf, "timestamp-41.json");
    measure("timestamp", timestamp);
    take(shelf, "snapshot-7.json");
    measure("snapshot", snapshot);
    measure("a second snapshot", snapshot); /* compares held names with new ones */
    take(shelf, "targets-3.json");
    measure("targets", targets);
    measure("find", find);
    measure("is_canonical", is_canonical);
    memset(message, 'a', sizeof message);
    measure("sha256", sha256);
    printf("%d passed, %d failed\n", passed, failed);
    return failed != 0;
}
