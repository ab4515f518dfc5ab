/*
 * The refusals of a file of version 2: limit bytes that none may have, in their turn after 6 and before what a call has of
 * its own; versions that are none; and lengths that are not those of the version.
 */
#include "faults.h"
#include "plan_groups.h"
#include "spoiled.h"
#include "tally.h"

enum { NEAR = 64 };

static bool is_good(int limit_byte)
{
    return limit_byte == 0 || (limit_byte >= 2 && limit_byte <= 16);
}

/* Each limit byte, of any gateway and kind. The last gateway has no link, and yet its limit byte must be a good one. */
static void limit_bytes(void)
{
    for (int byte = 0; byte < 256; byte++) {
        for (int v = 0; v < N; v++) {
            base_2();
            own_at(v)[0] = (uint8_t)(37 * byte + 50 * v);
            own_at(v)[1] = (uint8_t)byte;
            expect(is_good(byte) ? 0 : 33, "limit byte", byte);
        }
    }
}

/* In the first and in the last place of a large plant, and in two places at once. */
static void places(void)
{
    static const int at[] = {0, 1, 255, 256, 511, 1022, 1023};
    for (int i = 0; i < 7; i++) {
        whole_2(1024, 2, 300);
        own_at(at[i])[1] = 1;
        expect(33, "a limit byte of 1, gateway", at[i]);
        own_at(at[6 - i])[1] = 255;
        expect(33, "limit bytes of 1 and 255, gateway", at[i]);
    }
}

/* No kind is refused, and none makes up for a limit byte. */
static void kinds(void)
{
    for (int kind = 0; kind < 256; kind++) {
        base_2();
        own_at(kind % N)[0] = (uint8_t)kind;
        expect(0, "kind", kind);
        own_at(kind % N)[1] = (uint8_t)(kind % 2 == 0 ? 1 : 17);
        expect(33, "kind, and a bad limit byte", kind);
    }
}

static void versions(void)
{
    static const int others[] = {0, 3, 4, 255, 256, 257, 258, 512, 513, 514, 65535};
    for (size_t i = 0; i < sizeof others / sizeof others[0]; i++) {
        base_2();
        put_number(file + 3, others[i]);
        expect(8, "the length of version 2, version", others[i]);
    }
}

/* Among the lengths is that of version 1. */
static void lengths(void)
{
    base_2();
    size_t full = len;
    for (len = HEADER; len < full + NEAR; len++)
        if (len != full)
            expect(9, "version 2, length", (int)len);
    len = full;
    put_number(file + 3, 1);
    expect(9, "version 1, and the length of version 2", 0);
    base();
    put_number(file + 3, 2);
    expect(9, "version 2, and the length of version 1", 0);
}

/* The length of a file without gateways is the same in both versions. */
static void no_gateway(void)
{
    whole_2(0, 2, 0);
    expect_plan(0, "no gateway", 0);
    expect_why(30, "no gateway", 0);
    expect_check(0, "no gateway", 0);
    len++;
    expect(9, "no gateway and a byte more", 0);
}

static void longest(void)
{
    whole_2(1024, 16, 8192);
    tally(len == 36874 && PLAN_GROUPS_FILE_MAX == 36874, "the longest file has %zu bytes, by the header %zu", len,
          PLAN_GROUPS_FILE_MAX);
    expect(0, "the longest", 0);
    len++;
    expect(9, "the longest and a byte more", 0);
    len -= 2;
    expect(9, "the longest and a byte less", 0);
    whole_2(1024, 16, 8192);
    len = plant_file_size(1, 1024, 8192);
    expect(9, "the longest, and the length of version 1", 0);
}

int main(void)
{
    faults_together(2);
    limit_bytes();
    places();
    kinds();
    versions();
    lengths();
    no_gateway();
    longest();
    return tally_end();
}
