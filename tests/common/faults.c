#include "faults.h"

#include "spoiled.h"

/* The faults in the turn in which they are named, the links' on three links one after the other. */
static void spoil_magic(void) { file[0] = 'Q'; }
static void spoil_version(void) { put_number(file + 3, 3); }
static void spoil_n(void) { put_number(file + 5, 1025); }
static void spoil_limit(void) { file[7] = 17; }
static void spoil_m(void) { put_number(file + 8, 8193); }
static void spoil_length(void) { len++; }
static void spoil_end(void) { put_link(1, 0, N); }
static void spoil_equal(void) { put_link(2, 1, 1); }
static void spoil_again(void) { put_link(3, 1, 0); }
static void spoil_order(void) { put_number(file + HEADER + 4 * LINKS, N - 1); }
static void spoil_own(void) { file[HEADER + 4 * LINKS + 2 * N + 3] = 17; }
static void spoil_placings(void) { placings = N + 1; }
static void spoil_gateway(void) { gateway = N; }
static void ask_a_covered_one(void) { gateway = 0; }
static void spoil_out(void) { out_len--, why_len--; }
static void spoil_entries(void) { leaders_len--; }
static void spoil_entry(void) { put_leader(N - 1, 0); }
static void spoil_bytes(void) { choke_len--; }
static void spoil_byte(void) { choke[0] = 2; }
static void spoil_difference(void) { choke[1] = 1; }
static void spoil_header(void) { len = HEADER - 1; }

/* Which calls take what a fault spoils. */
enum { PLAN = 1, AFTER = 2, WHY = 4, CHECK = 8, WRITE = PLAN | AFTER | WHY, EACH = WRITE | CHECK };

static const struct {
    int number;
    void (*spoil)(void);
    int calls;
} faults[] = {
    {9, spoil_header, EACH}, {7, spoil_magic, EACH}, {8, spoil_version, EACH}, {1, spoil_n, EACH}, {2, spoil_limit, EACH},
    {12, spoil_m, EACH}, {9, spoil_length, EACH}, {3, spoil_end, EACH}, {4, spoil_equal, EACH}, {20, spoil_again, EACH},
    {6, spoil_order, EACH}, {33, spoil_own, EACH}, {24, spoil_placings, AFTER}, {30, spoil_gateway, WHY},
    {30, ask_a_covered_one, WHY}, {10, spoil_out, WRITE}, {31, spoil_entries, CHECK}, {31, spoil_entry, CHECK},
    {32, spoil_bytes, CHECK}, {32, spoil_byte, CHECK}, {32, spoil_difference, CHECK},
};

enum { FAULTS = sizeof faults / sizeof faults[0] };

/* Spoils by the faults whose bits are set; the first in turn. The last are spoiled first, so that none hides. */
static int spoil(int bits)
{
    int first = 0;
    for (int i = FAULTS - 1; i >= 0; i--) {
        if (bits >> i & 1) {
            faults[i].spoil();
            first = faults[i].number;
        }
    }
    return first;
}

/* The calls that take all that these faults spoil. */
static int calls_of(int bits)
{
    int calls = EACH;
    for (int i = 0; i < FAULTS; i++)
        if (bits >> i & 1)
            calls &= faults[i].calls;
    return calls;
}

/* Only a file of version 2 has limit bytes to spoil. */
static bool has_own(int bits)
{
    for (int i = 0; i < FAULTS; i++)
        if ((bits >> i & 1) && faults[i].spoil == spoil_own)
            return true;
    return false;
}

void faults_together(int version)
{
    for (int bits = 0; bits < 1 << FAULTS; bits++) {
        int calls = calls_of(bits);
        if (calls == 0 || (version == 1 && has_own(bits)))
            continue;
        if (version == 1)
            base();
        else
            base_2();
        int first = spoil(bits);
        if (calls & PLAN)
            expect_plan(first, "faults together", bits);
        else if (calls & AFTER)
            expect_after(first, "faults together", bits);
        if (calls & WHY)
            expect_why(first, "faults together", bits);
        if (calls & CHECK)
            expect_check(first, "faults together", bits);
    }
}
