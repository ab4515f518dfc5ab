/* Partner groups of a plant, by T-star packing: the calls for programs in C. */
#ifndef PLAN_GROUPS_H
#define PLAN_GROUPS_H

#include <stddef.h>
#include <stdint.h>

#ifdef __cplusplus
extern "C" {
#endif

/* The leader entry of a gateway that is alone. */
#define PLAN_GROUPS_ALONE 65535

/* The most gateways and links of a plant. */
#define PLAN_GROUPS_GATEWAYS_MAX 1024
#define PLAN_GROUPS_LINKS_MAX 8192

/* The bytes of out that n gateways need, and those that are enough for every plant. */
#define PLAN_GROUPS_OUT(n) ((size_t)3 * (size_t)(n) + 4)
#define PLAN_GROUPS_OUT_MAX PLAN_GROUPS_OUT(PLAN_GROUPS_GATEWAYS_MAX)

/* The same for the two sets of why_alone. */
#define WHY_ALONE_OUT(n) ((size_t)4 * (size_t)(n) + 4)
#define WHY_ALONE_OUT_MAX WHY_ALONE_OUT(PLAN_GROUPS_GATEWAYS_MAX)

/* The bytes of the longest plant file; a longer one is refused. */
#define PLAN_GROUPS_FILE_MAX \
    ((size_t)10 + 4 * (size_t)PLAN_GROUPS_LINKS_MAX + 4 * (size_t)PLAN_GROUPS_GATEWAYS_MAX)

/* The bytes of stack that are enough for a thread that makes the call: see below. */
#define PLAN_GROUPS_STACK 180224

/* The same for plan_groups_recursive, which needs more. */
#define PLAN_GROUPS_RECURSIVE_STACK 262144

/*
 * Plans the groups of the plant that a plant file describes.
 *
 * What the caller lends:
 *   file     file_len bytes that may be read: the plant file.
 *   out      out_len bytes that may be written. PLAN_GROUPS_OUT(n), that is 3n + 4, are needed for n
 *            gateways; PLAN_GROUPS_OUT_MAX are enough for every plant.
 * Any bytes and any lengths may be handed in. Both areas must be what they are said to be for the
 * whole call, and they must not overlap. Nothing outside them is read or written, nothing of the file
 * is changed, and neither pointer is kept. No alignment is needed.
 *
 * NULL may stand for an area of length 0. A file of no bytes is refused with 9, and an out of no bytes
 * with 10 (or with the file's own number).
 *
 * What comes back:
 *   0        accepted: the first 3n + 4 bytes of out are written, and none past them.
 *            out[2v], out[2v + 1]   gateway v's leader, low byte first: v itself where v leads, its
 *                                   leader's number where it is a member, 65535 where it is alone;
 *            out[2n + v]            1 where v is in the choke set, else 0;
 *            out[3n] to out[3n + 3] the number moved, low byte first: see below.
 *            In a group of two the one earlier in the order leads.
 *   else     the number of the refusal, and nothing is written.
 *
 * The refusals. Where several apply, the first in this turn is given; links are gone through one by
 * one, each 3, 4, 20 before the next.
 *
 *    9   the file has fewer than 10 bytes
 *    7   it does not begin with PLT
 *    8   its version is neither 1 nor 2
 *    1   n is above 1,024
 *    2   T is below 2 or above 16
 *   12   m is above 8,192
 *    9   the file's length is not 10 + 4m + 2n, in version 2 not 10 + 4m + 4n
 *    3   a link's end is not below n
 *    4   both ends of a link are equal
 *   20   a link stands there already, either way round
 *    6   the order repeats a number or has one not below n
 *   33   a limit byte is 1 or above 16 (version 2)
 *   10   out_len is below 3n + 4, for a plant of 0 gateways too
 *
 * The number moved. The plan is made by placing the gateways one after the other, in the order: each is
 * given a holder, or left. So that the next one finds a place, others may change their holder. Each
 * placing counts the gateways whose holder changed, the new one included, and 0 where it is left; the
 * number moved is the sum over all placings. For each placing it is the least possible: no other holders
 * of the gateways kept before and the new one, along links and within the limits, differ from those before
 * at fewer gateways. The sum is at most 1,048,576.
 *
 * What it uses. The call is reentrant and keeps nothing: the library has no writable data and allocates
 * none. Calls may run at once in any threads, each with an out of its own; they may share a file that
 * nobody changes meanwhile. Its lists stand on the stack: 121,592 bytes were measured at most, little less
 * for a small plant (why_alone 162,312, check_groups 113,880, plan_groups_recursive below). A thread whose
 * stack has PLAN_GROUPS_STACK bytes, with what the thread itself takes of them, can make the call; what the
 * thread does besides needs more.
 *
 * Its time grows as n * (n + m) at worst, and as n + m on most plants: a few microseconds for 64 gateways,
 * 25 to 100 microseconds for 1,024 gateways with some thousand links, under a millisecond on most plants
 * of 8,192 links. Where many links end at the same gateways a link that stands there already is looked
 * for along chains that are long; the slowest of thousands of plants tried took under 4 milliseconds.
 * (Times were measured on one machine, with a library that an older kit had built.)
 *
 * The plant file: "PLT", version, n, T, m, then m links of two ends, then the n numbers of the order; in
 * version 2 then a pair of bytes for each gateway, from gateway 0 on: its kind and its limit byte. T has one
 * byte, as have kind and limit byte; every other number has two, low byte first.
 *
 * The limits. No gateway leads or holds more others than its limit, which is one of 2 to 16. In version 1 it
 * is T for each. In version 2 a limit byte of 2 to 16 is the gateway's limit, above T too; where it is 0 the
 * limit goes by the kind: kind 0 takes T, 1 to 31 take 2, 32 to 127 take 4, 128 to 191 take 8, 192 to 255
 * take 16.
 */
uint32_t plan_groups(const uint8_t *file, size_t file_len, uint8_t *out, size_t out_len);

/*
 * Plans the groups of a plant that is being placed.
 *
 * A plan is made by placing the gateways one after the other, in the order: each is kept or left. This
 * call gives the groups after so many placings.
 *
 *   placings   how many gateways are placed, from the front of the order: 0 to n.
 *
 * All else is as for plan_groups: what is lent, what is written, what is used, and the refusals. One more
 * refusal stands after the file's own and before 10:
 *
 *   24   placings is above n
 *
 * With placings = n the answer is that of plan_groups, byte for byte.
 *
 * Of the gateways that are placed those kept are covered and those left are alone, and for every j up to
 * placings no grouping covers more of the first j in the order. That stays so as more are placed: who is
 * alone stays alone, who is covered stays covered; who leads whom may change. A gateway that is not yet
 * placed may be covered too, where a placed one has it for a partner, and may be alone later.
 *
 * The number moved is the sum over the placings so far; so the difference between the answers for k and for
 * k + 1 placings is how many the placing of the next gateway moves.
 *
 * The choke bytes are those of the placings so far. The reason that a choke set gives for the number
 * alone (README.md) holds where placings = n, and need not hold before.
 */
uint32_t plan_groups_after(const uint8_t *file, size_t file_len, uint32_t placings, uint8_t *out, size_t out_len);

/*
 * Shows why a gateway is alone in the plan of plan_groups: two sets of gateways.
 *
 *   gateway    the number of a gateway that plan_groups leaves alone.
 *   out        WHY_ALONE_OUT(n), that is 4n + 4, bytes are needed for n gateways; WHY_ALONE_OUT_MAX are
 *              enough for every plant.
 *
 * What comes back:
 *   0        accepted: with a and b for the numbers of gateways in the first and in the second set, the
 *            first 4 + 2a + 2b bytes of out are written, and none past them. Numbers have two bytes, low
 *            byte first:
 *            out[0], out[1]         a;
 *            out[2], out[3]         b;
 *            from out[4] on         the a gateways of the first set, ascending;
 *            from out[4 + 2a] on    the b gateways of the second set, ascending.
 *   else     the number of the refusal, and nothing is written.
 *
 * What the sets say:
 *   - The first holds the gateway itself. All others in it are covered by plan_groups, and stand before the
 *     gateway in the order.
 *   - No two gateways of the first are linked.
 *   - The second is exactly the gateways linked to one of the first.
 *   - a is the sum of the second set's limits, plus one: T * b + 1 where each has the limit T.
 * So no grouping covers all of the first set: its gateways can only be in groups with those of the second,
 * and each of these can bring in as many of them as its limit at most. One has to stay alone, and in the
 * first set the gateway is the last in the order. With b = 0 the gateway has no link at all.
 *
 * Both sets are those that the choke set's walk reaches when it starts from this gateway only. No smaller
 * ones say it: whatever two sets have what is listed above, the first set is within their first and the
 * second within their second.
 *
 * All else is as for plan_groups: what is lent, what is used, and the file's refusals. Two stand behind them,
 * so that for a plant of 0 gateways every number is refused with 30:
 *
 *   30   gateway is not below n, or plan_groups does not leave it alone
 *   10   out_len is below 4n + 4
 *
 * Each call makes the plan anew and takes about as long as plan_groups.
 */
uint32_t why_alone(const uint8_t *file, size_t file_len, uint32_t gateway, uint8_t *out, size_t out_len);

/*
 * Plans the groups by the short search, which can be followed by pencil (docs/SHORT-SEARCH.md).
 *
 * All is as for plan_groups: what is lent, what is written, and the refusals, which are the same for every
 * file and every out_len. Of what is written
 *   - the choke bytes are those of plan_groups, byte for byte;
 *   - the same gateways are covered: a leader is 65535 just where that of plan_groups is. Who leads whom may
 *     be another;
 *   - the number moved is counted in the same way, placing by placing, but need not be the least.
 *
 * What it uses. Its two functions call each other, up to 512 times each one within the other in a plant of
 * 1,024 gateways; on such plants 170,712 bytes of stack were measured, on most far less. A thread whose
 * stack has PLAN_GROUPS_RECURSIVE_STACK bytes, with what the thread itself takes of them, can make the call
 * on every file. Its time grows as n * (n + m) at worst: it takes one to three times as long as plan_groups
 * on most plants, and up to some fifty times as long, milliseconds then, where many are left alone. All else
 * is as for plan_groups.
 */
uint32_t plan_groups_recursive(const uint8_t *file, size_t file_len, uint8_t *out, size_t out_len);

/*
 * Checks a leader list and a choke list that anyone made for the plant of a plant file.
 *
 *   leaders    leaders_len bytes that may be read: a leader list, two bytes for each entry, low byte first.
 *              It has leaders_len / 2 entries: an odd last byte is none.
 *   choke      choke_len bytes that may be read: a choke list, one byte for each gateway, 1 in the set, else 0.
 *
 * What comes back:
 *   0        accepted: the first n entries are a grouping of the plant, and no grouping of it covers more
 *            gateways.
 *   else     the number of the refusal.
 * Nothing is written.
 *
 * It accepts exactly if the file is accepted and
 *   - each of the first n entries is 65535; or its own number, where one to as many other gateways as its
 *     limit, among the n, have that number as their entry; or the number of a gateway below n that is linked
 *     to it and has its own number as entry;
 *   - each of the first n choke bytes is 0 or 1; and
 *   - the gateways outside the choke set that have no link to another one outside it, less the sum of the
 *     limits of the gateways in the set, are as many as the entries of 65535 among the first n. A difference
 *     below zero is no number of entries.
 * Entries and choke bytes past the first n are not looked at, so either list may be longer. The file's order
 * is tested as for plan_groups and plays no other part: of two lists that cover equally many gateways, but not
 * the same, both are accepted.
 *
 * What plan_groups writes is accepted: leaders = out, leaders_len = 2n, choke = out + 2n, choke_len = n. With
 * the choke bytes of plan_groups a leader list by any hand is accepted exactly if it is a grouping that covers
 * as many gateways as any. What plan_groups_after writes before the last placing may be refused with 32.
 *
 * The refusals: the file's own, as for plan_groups without 10, and behind them, in this turn:
 *
 *   31   leaders_len / 2 is below n, or the first n entries are no grouping of the plant
 *   32   choke_len is below n, or one of the first n choke bytes is above 1, or the difference is not the
 *        number of entries of 65535
 *
 * The three areas may overlap: none of them is written. NULL may stand for an area of length 0. All else is
 * as for plan_groups: what is lent and what is used. The time grows as n + m, and with the lengths of the
 * chains along which a link that stands there already is looked for.
 */
uint32_t check_groups(const uint8_t *file, size_t file_len, const uint8_t *leaders, size_t leaders_len,
                      const uint8_t *choke, size_t choke_len);

#ifdef __cplusplus
}
#endif

#endif
