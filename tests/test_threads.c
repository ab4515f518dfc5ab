/* What the header says of threads: the stack that the calls need, and calls that run at once. */
#define _DEFAULT_SOURCE /* for MAP_ANONYMOUS */
#include <pthread.h>
#include <stdio.h>
#include <string.h>
#include <sys/mman.h>

#include "answer.h"
#include "any_limits.h"
#include "chains.h"
#include "deep.h"
#include "families.h"
#include "outside.h"
#include "plan_groups.h"
#include "tally.h"

enum { BELOW = 1 << 20, PAINT = 0xA7, PLANTS = 60, ROUNDS = 20, SHARERS = 6 };

/* Which call: plan_groups, plan_groups_after, why_alone, check_groups or plan_groups_recursive. */
enum call { ALL, SO_FAR, WHY, CHECK, SHORT };

enum { CALLS = SHORT + 1 };

static const char *const names[] = {"all", "so far", "why", "check", "short"};

/* One call: what is lent, and what came back. */
struct job {
    uint8_t file[MAX_FILE], out[WHY_ALONE_OUT_MAX];
    uint8_t lists[PLAN_GROUPS_OUT_MAX]; /* for check_groups, as plan_groups writes them */
    size_t n, len, out_len;
    enum call call;
    uint32_t asked; /* the placings, the gateway, or how the lists are damaged */
    uint32_t number;
};

static struct plant plant;

/* A fault in the choke bytes, or in the leaders. */
static void damage(struct job *j, uint32_t how)
{
    if (how == 1)
        j->lists[2 * j->n] = 2;
    if (how == 2)
        put_number(j->lists, plant.n);
}

static void job_of(struct job *j, enum call call, uint32_t asked)
{
    j->n = (size_t)plant.n;
    j->len = plant_write(&plant, j->file);
    j->out_len = call == WHY ? WHY_ALONE_OUT(plant.n) : PLAN_GROUPS_OUT(plant.n);
    j->call = call;
    j->asked = asked;
}

static void check_job_of(struct job *j, uint32_t how)
{
    job_of(j, CHECK, how);
    plan_groups(j->file, j->len, j->lists, sizeof j->lists);
    damage(j, how);
}

static uint32_t check(const struct job *j)
{
    return check_groups(j->file, j->len, j->lists, 2 * j->n, j->lists + 2 * j->n, j->n);
}

static void *plan_one(void *j)
{
    struct job *job = j;
    switch (job->call) {
    case ALL:
        job->number = plan_groups(job->file, job->len, job->out, job->out_len);
        break;
    case SO_FAR:
        job->number = plan_groups_after(job->file, job->len, job->asked, job->out, job->out_len);
        break;
    case WHY:
        job->number = why_alone(job->file, job->len, job->asked, job->out, job->out_len);
        break;
    case CHECK:
        job->number = check(job);
        break;
    case SHORT:
        job->number = plan_groups_recursive(job->file, job->len, job->out, job->out_len);
        break;
    }
    return NULL;
}

static void plan(struct job *j)
{
    memset(j->out, PAINT, sizeof j->out);
    plan_one(j);
}

static bool same_answer(const struct job *a, const struct job *b)
{
    return a->number == b->number && memcmp(a->out, b->out, sizeof a->out) == 0;
}

/* The last that is alone in the plant; 0 where nobody is, or the plant is refused. */
static uint32_t last_alone(void)
{
    static struct job j;
    static struct answer a;
    job_of(&j, ALL, 0);
    plan(&j);
    if (j.number == 0)
        answer_read(&a, plant.n, j.out);
    for (int v = plant.n - 1; j.number == 0 && v >= 0; v--)
        if (a.leader[v] == ALONE)
            return (uint32_t)v;
    return 0;
}

/* An area for stacks, of len bytes that may be touched and BELOW under them that may not. */
static uint8_t *stack_area(size_t len)
{
    uint8_t *all = mmap(NULL, BELOW + len, PROT_NONE, MAP_PRIVATE | MAP_ANONYMOUS, -1, 0);
    must(all != MAP_FAILED, "no memory for a stack");
    must(mprotect(all + BELOW, len, PROT_READ | PROT_WRITE) == 0, "no memory for a stack");
    return all + BELOW;
}

/* The call in a thread that has this stack; how many bytes of it were written. */
static size_t stack_used(struct job *j, uint8_t *stack, size_t len)
{
    pthread_attr_t attr;
    pthread_t thread;
    size_t unused = 0;
    memset(stack, PAINT, len);
    memset(j->out, PAINT, sizeof j->out);
    must(pthread_attr_init(&attr) == 0 && pthread_attr_setstack(&attr, stack, len) == 0, "no thread of that stack");
    must(pthread_create(&thread, &attr, plan_one, j) == 0, "no thread");
    must(pthread_join(thread, NULL) == 0, "no thread");
    pthread_attr_destroy(&attr);
    while (unused < len && stack[unused] == PAINT)
        unused++;
    return len - unused;
}

/* What the header says is enough for a call. */
static size_t stack_of(enum call call)
{
    return call == SHORT ? PLAN_GROUPS_RECURSIVE_STACK : PLAN_GROUPS_STACK;
}

/* First with far more stack, where too much is counted; then with just enough, where it would be the end. */
static void check_job(const char *name, struct job *j)
{
    static uint8_t *area; /* its front part is the stack, so that what lies under it can't be touched */
    static struct job expected;
    size_t enough = stack_of(j->call);
    if (area == NULL)
        area = stack_area(8 * PLAN_GROUPS_RECURSIVE_STACK);
    expected = *j;
    plan(&expected);
    size_t used = stack_used(j, area, 8 * enough);
    bool fits = used <= enough && same_answer(j, &expected);
    if (fits) {
        stack_used(j, area, enough);
        fits = same_answer(j, &expected);
    }
    tally(fits, "%s, %d gateways, %d links, %s: number %u, %zu bytes of stack", name, plant.n, plant.m, names[j->call],
          (unsigned)j->number, used);
}

/* The lists that plan_groups gave, without a fault and with one. */
static void check_lists_given(const char *name, struct job *j)
{
    memcpy(j->lists, j->out, sizeof j->lists);
    j->call = CHECK;
    for (uint32_t how = 0; how <= 2; how++) {
        damage(j, how);
        check_job(name, j);
    }
}

/* The short search, with an out that is long enough and with one that is not. */
static void check_short(const char *name)
{
    static struct job j;
    job_of(&j, SHORT, 0);
    check_job(name, &j);
    j.out_len--;
    check_job(name, &j);
}

/* More placings than gateways are refused, and so is a gateway that is not there; whether one alone was explained. */
static bool check_stack(const char *name)
{
    static struct job j;
    const uint32_t n = (uint32_t)plant.n, placings[] = {n / 2, n, n + 1}, gateways[] = {n, last_alone()};
    job_of(&j, ALL, 0);
    check_job(name, &j);
    check_lists_given(name, &j);
    check_short(name);
    for (int i = 0; i < 3; i++) {
        job_of(&j, SO_FAR, placings[i]);
        check_job(name, &j);
    }
    for (int i = 0; i < 2; i++) {
        job_of(&j, WHY, gateways[i]);
        check_job(name, &j);
    }
    return j.number == 0;
}

/* The deepest that the short search goes, for each T, and where it goes deep again and again. */
static void deep_stacks(void)
{
    for (int limit = 2; limit <= MAX_LIMIT; limit++) {
        deep_make(&plant, deep_most(limit), limit, PLACE_FREE);
        check_short("deep");
        deep_make(&plant, deep_most(limit), limit, IN_VAIN);
        check_short("deep in vain");
        chain_make_full(&plant, (PLAN_GROUPS_GATEWAYS_MAX - 1) / (limit + 1), limit);
        check_short("deep, and left");
    }
    deep_make(&plant, deep_most(2), 2, PLACE_FREE);
    check_stack("the deepest search");
    swing_make(&plant, 256, 255);
    check_stack("a swing");
}

static void stacks(struct rng *r)
{
    int explained = 0;
    for (int n = 0; n <= 2; n++) {
        plant_open(&plant, n, 2);
        explained += check_stack("no links");
    }
    plant_open(&plant, PLAN_GROUPS_GATEWAYS_MAX, 2);
    family_fill(&plant, r, PLAN_GROUPS_LINKS_MAX);
    check_stack("the largest plant");
    plant.limit = 17;
    check_stack("a refused plant");
    chain_make_full(&plant, 341, 2);
    explained += check_stack("the longest walk");
    for (int f = 0; f < family_count; f++) {
        family_make(&families[f], &plant, r, rng_between(r, 3, 200), 0);
        explained += check_stack(families[f].name);
    }
    tally(explained >= 6, "only %d plants in which one alone was explained", explained);
}

/* The largest plant, the longest walk and the deepest search where each gateway has a limit of its own. */
static void own_stacks(struct rng *r)
{
    plant_open(&plant, PLAN_GROUPS_GATEWAYS_MAX, 2);
    family_fill(&plant, r, PLAN_GROUPS_LINKS_MAX);
    any_limits(&plant, r);
    check_stack("the largest plant with own limits");
    plant_set_own(&plant, PLAN_GROUPS_GATEWAYS_MAX - 1, 0, 1);
    check_stack("a plant with a limit that is refused");
    chain_make_full(&plant, 341, 2);
    limits_for_all(&plant, r, MAX_LIMIT);
    tally(check_stack("the longest walk with own limits"), "one alone was not explained");
    deep_make(&plant, deep_most(2), 2, PLACE_FREE);
    limits_for_all(&plant, r, MAX_LIMIT);
    check_stack("the deepest search with own limits");
}

/* A thread's own plants, planned again and again beside the other's. */
struct side {
    struct job jobs[PLANTS], alone[PLANTS];
    pthread_barrier_t *both;
    int differ;
};

static void *plan_side(void *s)
{
    struct side *side = s;
    for (int i = 0; i < ROUNDS * PLANTS; i++) {
        struct job *j = &side->jobs[i % PLANTS];
        pthread_barrier_wait(side->both);
        plan(j);
        side->differ += !same_answer(j, &side->alone[i % PLANTS]);
    }
    return NULL;
}

/* How many jobs of a call are accepted. */
static int count_accepted(const struct job *jobs, enum call call)
{
    int count = 0;
    for (int i = 0; i < PLANTS; i++)
        count += jobs[i].call == call && jobs[i].number == 0;
    return count;
}

static void make_for(enum call call, struct rng *r)
{
    if (call == WHY) /* somebody is alone there */
        family_make(family_named("hubs"), &plant, r, rng_between(r, 20, 100), 2);
    else if (call == SHORT && rng_below(r, 4) > 0) /* long enough to meet the other thread's */
        deep_make(&plant, rng_between(r, 100, 200), 2, PLACE_FREE);
    else
        family_make(&families[rng_below(r, family_count)], &plant, r, rng_between(r, 1, 100), 0);
}

static void fill_side(struct side *s, struct rng *r, pthread_barrier_t *both)
{
    s->both = both;
    s->differ = 0;
    for (int i = 0; i < PLANTS; i++) {
        enum call call = (enum call)(i % CALLS);
        make_for(call, r);
        if (call == CHECK)
            check_job_of(&s->jobs[i], (uint32_t)rng_below(r, 3));
        else
            job_of(&s->jobs[i], call, call == WHY ? last_alone() : (uint32_t)rng_between(r, 0, plant.n));
        if (i % 9 == 7)
            s->jobs[i].len--;
        s->alone[i] = s->jobs[i];
        plan(&s->alone[i]);
    }
}

static void at_once(struct rng *r)
{
    static struct side sides[2];
    pthread_barrier_t both;
    pthread_t threads[2];
    must(pthread_barrier_init(&both, NULL, 2) == 0, "no barrier");
    for (int i = 0; i < 2; i++) {
        fill_side(&sides[i], r, &both);
        int explained = count_accepted(sides[i].alone, WHY), good = count_accepted(sides[i].alone, CHECK);
        int searched = count_accepted(sides[i].alone, SHORT);
        tally(explained >= 8, "only %d calls of a thread explain one alone", explained);
        tally(searched >= 8, "only %d calls of a thread plan by the short search", searched);
        tally(good >= 2 && good <= 9, "%d calls of a thread accept lists", good);
    }
    for (int i = 0; i < 2; i++)
        must(pthread_create(&threads[i], NULL, plan_side, &sides[i]) == 0, "no thread");
    for (int i = 0; i < 2; i++)
        must(pthread_join(threads[i], NULL) == 0, "no thread");
    for (int i = 0; i < 2; i++)
        tally(sides[i].differ == 0, "%d of %d answers differ from those of one thread", sides[i].differ, ROUNDS * PLANTS);
    pthread_barrier_destroy(&both);
}

/* One of some threads that check the same lists in the same areas, each from another of them on. */
struct sharer {
    const struct job *jobs;
    int first;
    pthread_barrier_t *all;
    int differ;
};

static void *check_shared(void *s)
{
    struct sharer *sharer = s;
    pthread_barrier_wait(sharer->all);
    for (int i = 0; i < ROUNDS * PLANTS; i++) {
        const struct job *j = &sharer->jobs[(sharer->first + i) % PLANTS];
        sharer->differ += check(j) != j->number;
    }
    return NULL;
}

/* Lists in memory that cannot be written once they stand there. */
static const struct job *fill_shared(struct rng *r)
{
    size_t size = PLANTS * sizeof(struct job);
    struct job *jobs = mmap(NULL, size, PROT_READ | PROT_WRITE, MAP_PRIVATE | MAP_ANONYMOUS, -1, 0);
    must(jobs != MAP_FAILED, "no memory for shared lists");
    for (int i = 0; i < PLANTS; i++) {
        family_make(i % 2 == 0 ? &scarce : family_named("deep tree"), &plant, r, rng_between(r, 60, 180), 0);
        check_job_of(&jobs[i], (uint32_t)(i % 3));
        plan(&jobs[i]);
    }
    must(mprotect(jobs, size, PROT_READ) == 0, "no memory for shared lists");
    return jobs;
}

static void shared(struct rng *r)
{
    const struct job *jobs = fill_shared(r);
    struct sharer sharers[SHARERS];
    pthread_barrier_t all;
    pthread_t threads[SHARERS];
    tally(count_accepted(jobs, CHECK) == PLANTS / 3, "%d lists are accepted", count_accepted(jobs, CHECK));
    must(pthread_barrier_init(&all, NULL, SHARERS) == 0, "no barrier");
    for (int i = 0; i < SHARERS; i++) {
        sharers[i] = (struct sharer){jobs, i * PLANTS / SHARERS, &all, 0};
        must(pthread_create(&threads[i], NULL, check_shared, &sharers[i]) == 0, "no thread");
    }
    for (int i = 0; i < SHARERS; i++) {
        must(pthread_join(threads[i], NULL) == 0, "no thread");
        tally(sharers[i].differ == 0, "thread %d: %d of %d answers differ from those of one thread", i, sharers[i].differ,
              ROUNDS * PLANTS);
    }
    pthread_barrier_destroy(&all);
}

int main(void)
{
    struct rng r = {9};
    stacks(&r);
    deep_stacks();
    own_stacks(&(struct rng){48});
    at_once(&r);
    shared(&r);
    return tally_end();
}
