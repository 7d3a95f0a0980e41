/* Where include/gronwythal.h has the fields of each struct: the table of archive.c. */
#include <stddef.h>
#include <stdio.h>

#include "gronwythal.h"

#define SIZE(name) printf(#name " size %zu\n", sizeof(gw_##name))
#define FIELD(name, field) printf(#name " " #field " %zu %zu\n", offsetof(gw_##name, field), sizeof(((gw_##name *)0)->field))

int main(void)
{
    SIZE(state);
    printf("state align %zu\n", _Alignof(gw_state));
    SIZE(step);
    FIELD(step, answer);
    FIELD(step, state);
    SIZE(image);
    FIELD(image, answer);
    FIELD(image, length);
    FIELD(image, digest);
    FIELD(image, compared);
    SIZE(digest);
    FIELD(digest, bytes);
    SIZE(public_key);
    FIELD(public_key, answer);
    FIELD(public_key, bytes);
    SIZE(look);
    FIELD(look, answer);
    FIELD(look, start);
    FIELD(look, length);
    FIELD(look, entries);
    SIZE(entry);
    FIELD(entry, answer);
    FIELD(entry, keyid);
    FIELD(entry, sig);
    SIZE(version);
    FIELD(version, held);
    FIELD(version, number);
    SIZE(versions);
    FIELD(versions, root.held);
    FIELD(versions, root.number);
    FIELD(versions, timestamp.held);
    FIELD(versions, timestamp.number);
    FIELD(versions, snapshot.held);
    FIELD(versions, snapshot.number);
    FIELD(versions, targets.held);
    FIELD(versions, targets.number);
    FIELD(versions, start);
    return 0;
}
