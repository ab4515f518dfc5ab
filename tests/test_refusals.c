/* Every refusal of the calls, by examples of each. */
#include "spoiled.h"
#include "tally.h"

enum { NEAR = 64 };

static void short_files(void)
{
    for (size_t cut = 0; cut < HEADER; cut++) {
        base();
        len = cut;
        expect(9, "under 10 bytes", (int)cut);
        file[0] = 'Q';
        expect(9, "under 10 bytes, and not PLT", (int)cut);
    }
}

static void beginnings(void)
{
    for (int i = 0; i < 3; i++) {
        static const int changes[] = {1, 255, 32, 128};
        for (int j = 0; j < 4; j++) {
            base();
            file[i] = (uint8_t)(file[i] + changes[j]);
            expect(7, "another letter", i);
        }
    }
}

static void versions(void)
{
    static const int others[] = {0, 3, 4, 255, 256, 257, 258, 512, 513, 65535};
    for (size_t i = 0; i < sizeof others / sizeof others[0]; i++) {
        base();
        put_number(file + 3, others[i]);
        expect(8, "version", others[i]);
    }
}

static void gateways(void)
{
    for (int n = 0; n <= 3; n++) {
        whole(n, 2, 0);
        expect_plan(0, "n", n);
        expect_why(n == 0 ? 30 : 0, "n", n);
        expect_check(0, "n", n);
    }
    whole(1023, 2, 0);
    expect(0, "n", 1023);
    whole(1024, 2, 0);
    expect(0, "n", 1024);
    whole(1025, 2, 0);
    expect(1, "n", 1025);
    whole(1280, 2, 3);
    expect(1, "n", 1280);
    base();
    put_number(file + 5, 65535);
    expect(1, "n, and not its length", 65535);
}

static void limits(void)
{
    for (int limit = 0; limit < 256; limit++) {
        whole(4, limit, 3);
        expect(limit < 2 || limit > 16 ? 2 : 0, "T", limit);
    }
}

static void link_counts(void)
{
    whole(200, 2, 8191);
    expect(0, "m", 8191);
    whole(200, 2, 8192);
    expect(0, "m", 8192);
    whole(200, 2, 8193);
    expect(12, "m", 8193);
    whole(200, 2, 8448);
    expect(12, "m", 8448);
    base();
    put_number(file + 8, 65535);
    expect(12, "m, and not its length", 65535);
}

static void lengths(void)
{
    base();
    size_t full = len;
    for (len = HEADER; len < full; len++)
        expect(9, "cut to", (int)len);
    for (len = full + 1; len < full + NEAR; len++)
        expect(9, "longer", (int)len);
    whole(0, 2, 0);
    len = HEADER + 1;
    expect(9, "no gateway and a byte more", 0);
    whole(1024, 16, 8192);
    len++;
    expect(9, "the longest and a byte more", 0);
    len -= 2;
    expect(9, "the longest and a byte less", 0);
}

/* The header says another number than there is. */
static void wrong_counts(void)
{
    static const int off[] = {-1, 1, 2};
    for (int i = 0; i < 3; i++) {
        base();
        put_number(file + 5, N + off[i]);
        expect(9, "n is off by", off[i]);
        base();
        put_number(file + 8, LINKS + off[i]);
        expect(9, "m is off by", off[i]);
    }
}

static void link_ends(void)
{
    static const int past[] = {N, N + 1, 256, 257, 32768, 65535};
    for (int i = 0; i < 6 * LINKS; i++) {
        base();
        put_number(link_at(i % LINKS), past[i / LINKS]);
        expect(3, "a first end past n, link", i % LINKS);
        base();
        put_number(link_at(i % LINKS) + 2, past[i / LINKS]);
        expect(3, "a second end past n, link", i % LINKS);
        base();
        put_link(i % LINKS, past[i / LINKS], past[i / LINKS]);
        expect(3, "both ends past n and equal, link", i % LINKS);
    }
    whole(1024, 2, 1);
    put_link(0, 1023, 1024);
    expect(3, "an end of 1,024", 0);
}

static void equal_ends(void)
{
    for (int i = 0; i < LINKS; i++) {
        for (int v = 0; v < N; v++) {
            base();
            put_link(i, v, v);
            expect(4, "both ends equal, link", i);
        }
    }
}

static void repeated_links(void)
{
    for (int i = 0; i < LINKS; i++) {
        for (int j = i + 1; j < LINKS; j++) {
            int a, b;
            base();
            a = get_number(link_at(i));
            b = get_number(link_at(i) + 2);
            put_link(j, a, b);
            expect(20, "a link again", 10 * i + j);
            put_link(j, b, a);
            expect(20, "a link again, turned round", 10 * i + j);
        }
    }
    whole(200, 2, 8192);
    put_link(8191, 1, 0);
    expect(20, "the first link again as the last", 8191);
}

static void orders(void)
{
    static const int past[] = {N, N + 1, 256, 65535};
    for (int i = 0; i < N; i++) {
        for (int j = 0; j < 4; j++) {
            base();
            put_number(order_at(i), past[j]);
            expect(6, "the order has a number past n", past[j]);
        }
        for (int j = 1; j < N; j++) {
            base();
            put_number(order_at(i), (i + j) % N);
            expect(6, "the order repeats a number", i);
        }
    }
    whole(1, 2, 0);
    put_number(order_at(0), 1);
    expect(6, "the order of one gateway", 1);
    whole(1024, 2, 0);
    put_number(order_at(1023), 0);
    expect(6, "the order's last repeats its first", 1024);
}

static void out_lengths(void)
{
    static const int sizes[] = {0, 1, 2, 5, 300, 1024};
    for (int i = 0; i < 6; i++) {
        size_t needed = 3 * (size_t)sizes[i] + 4;
        whole(sizes[i], 2, 0);
        for (out_len = needed < NEAR ? 0 : needed - NEAR; out_len < needed; out_len++)
            expect_plan(10, "the out area has", (int)out_len);
        expect_plan(0, "the out area has", (int)out_len);
    }
    base();
    put_number(order_at(0), N);
    out_len = 3 * N + 3;
    why_len = 4 * N + 3;
    expect(6, "6 before 10", 0);
}

/* The sets of a gateway without a link take six bytes, and yet no length below 4n + 4 is enough. */
static void why_lengths(void)
{
    static const int sizes[] = {1, 2, 5, 40, 1024};
    for (int i = 0; i < 5; i++) {
        size_t needed = 4 * (size_t)sizes[i] + 4, step = needed / 16 + 1;
        whole(sizes[i], 2, 0);
        for (why_len = needed % step; why_len < needed; why_len += step)
            expect_why(10, "the out area has", (int)why_len);
        expect_why(0, "the out area has", (int)why_len);
        why_len = needed - 1;
        expect_why(10, "the out area has", (int)why_len);
        gateway = (uint32_t)sizes[i];
        expect_why(30, "30 before 10", sizes[i]);
    }
}

/* An odd last byte is no entry. Entries and bytes past n are welcome. */
static void list_lengths(void)
{
    static const int sizes[] = {1, 2, 5, 40, 1024};
    for (int i = 0; i < 5; i++) {
        size_t n = (size_t)sizes[i], step = n / 16 + 1;
        whole(sizes[i], 2, sizes[i] / 2);
        for (leaders_len = 0; leaders_len < 2 * n; leaders_len += leaders_len + step < 2 * n ? step : 1)
            expect_check(31, "the leader list has", (int)leaders_len);
        for (; leaders_len <= 2 * n + 3; leaders_len++)
            expect_check(0, "the leader list has", (int)leaders_len);
        for (choke_len = 0; choke_len < n; choke_len += choke_len + step < n ? step : 1)
            expect_check(32, "the choke list has", (int)choke_len);
        for (; choke_len <= n + 3; choke_len++)
            expect_check(0, "the choke list has", (int)choke_len);
        leaders_len = 2 * n - 1;
        choke_len = n - 1;
        expect_check(31, "31 before 32", sizes[i]);
    }
}

static void expect_placings(uint32_t count, int number, int n)
{
    placings = count;
    expect_after(number, "placings, n", n);
}

/* Up to n and none past it, among them those that cut to 8 or 16 bits or taken with a sign would not be past it. */
static void placing_counts(void)
{
    static const int sizes[] = {0, 1, 2, 5, 255, 300, 1023, 1024};
    for (int i = 0; i < 8; i++) {
        uint32_t n = (uint32_t)sizes[i];
        const uint32_t past[] = {n + 1, n + 2, n + 256, 65535, 65536, 65536 + n, 65537 + n, 1u << 31, (1u << 31) + n,
                                 UINT32_MAX - 1, UINT32_MAX};
        whole(sizes[i], 2, sizes[i] / 2);
        expect_placings(0, 0, sizes[i]);
        expect_placings(n / 2, 0, sizes[i]);
        expect_placings(n, 0, sizes[i]);
        for (size_t j = 0; j < sizeof past / sizeof past[0]; j++)
            expect_placings(past[j], 24, sizes[i]);
    }
}

static void expect_gateway(uint32_t number, int refusal, int n)
{
    gateway = number;
    expect_why(refusal, "the gateway asked for, n", n);
}

/* The last has no link and the first two are linked. None past the last, as with the placings. */
static void gateway_numbers(void)
{
    static const int sizes[] = {4, 5, 255, 256, 300, 1024};
    for (int i = 0; i < 6; i++) {
        uint32_t n = (uint32_t)sizes[i];
        const uint32_t past[] = {n, n + 1, n + 255, 65535, 65536, 65535 + n, 65536 + n, 1u << 31, (1u << 31) + n - 1,
                                 UINT32_MAX - 1, UINT32_MAX};
        whole(sizes[i], 2, 3);
        expect_gateway(n - 1, 0, sizes[i]);
        expect_gateway(0, 30, sizes[i]);
        expect_gateway(1, 30, sizes[i]);
        for (size_t j = 0; j < sizeof past / sizeof past[0]; j++)
            expect_gateway(past[j], 30, sizes[i]);
    }
    whole(0, 2, 0);
    expect_gateway(0, 30, 0);
    expect_gateway(65535, 30, 0);
    expect_gateway(UINT32_MAX, 30, 0);
}

int main(void)
{
    short_files();
    beginnings();
    versions();
    gateways();
    limits();
    link_counts();
    lengths();
    wrong_counts();
    link_ends();
    equal_ends();
    repeated_links();
    orders();
    placing_counts();
    gateway_numbers();
    out_lengths();
    why_lengths();
    list_lengths();
    return tally_end();
}
