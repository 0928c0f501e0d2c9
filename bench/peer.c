/* Runs a plan (bench/src/plan.rs) on a peer (peer.h). It reads the plan and prints what the peer does to a new object's bytes and what
 * the clock costs; for each further byte of input it runs one round and prints, in a line for each kind of call, the nanoseconds of every
 * call. Nothing but the plan's objects is allocated, so that a peer's checks meet no other block. */

#include "peer.h"

#include <stdio.h>
#include <stdlib.h>
#include <time.h>

enum { MAX_LIVE = 512, MAX_STEPS = 100000, CALLS = 4 };
enum call { ALLOCATE, RELEASE, CLAIM, REALLOCATE };

struct step {
    unsigned length, claimed, released, moved, new_length;
};

static struct step steps[MAX_STEPS];
static object objects[MAX_LIVE];
static uint64_t times[CALLS][MAX_STEPS];
static unsigned live, rounds, steps_of_round;

void fail(const char *why)
{
    fprintf(stderr, "FAILED: %s\n", why);
    exit(1);
}

static uint64_t now(void)
{
    struct timespec time;
    clock_gettime(CLOCK_MONOTONIC, &time);
    return (uint64_t)time.tv_sec * 1000000000u + (uint64_t)time.tv_nsec;
}

/* What the timing itself adds to a call: the lowest of several averages. */
static double clock_cost(void)
{
    enum { TIMES = 2000 };
    double lowest = 1e9;
    for (int turn = 0; turn < 9; turn++) {
        uint64_t sum = 0;
        for (int i = 0; i < TIMES; i++) {
            uint64_t start = now();
            sum += now() - start;
        }
        double average = (double)sum / TIMES;
        if (average < lowest)
            lowest = average;
    }
    return lowest;
}

/* An object that was given. */
static object there(object given)
{
    if (given == 0)
        fail("the peer gave no memory");
    return given;
}

/* A step of a round, as in bench/src/rounds.rs. */
__attribute__((always_inline)) static inline void run_step(struct step step, unsigned place)
{
    unsigned last = live - 1;
    uint64_t start = now();
    object given = call_allocate(step.length);
    times[ALLOCATE][place] = now() - start;
    objects[last] = there(given);

    given = objects[step.claimed];
    start = now();
    call_claim(given);
    times[CLAIM][place] = now() - start;
    drop_claim(given);

    given = objects[step.released];
    objects[step.released] = objects[last];
    start = now();
    call_release(given);
    times[RELEASE][place] = now() - start;

    given = objects[step.moved];
    start = now();
    given = call_reallocate(given, step.new_length);
    times[REALLOCATE][place] = now() - start;
    objects[step.moved] = there(given);
}

__attribute__((always_inline)) static inline void run_steps(unsigned round)
{
    for (unsigned i = 0; i < steps_of_round; i++)
        run_step(steps[round * steps_of_round + i], i);
}

/* A round whose instructions are counted; the counts look for this name. */
__attribute__((noinline)) static void measured_round(unsigned round)
{
    run_steps(round);
}

/* The first round. */
__attribute__((noinline)) static void warm_up(void)
{
    run_steps(0);
}

static void print_times(void)
{
    for (int call = 0; call < CALLS; call++)
        for (unsigned i = 0; i < steps_of_round; i++)
            printf("%llu%c", (unsigned long long)times[call][i], i + 1 < steps_of_round ? ' ' : '\n');
    fflush(stdout);
}

/* The next number of the plan, at most a bound. */
static unsigned number(unsigned bound)
{
    unsigned value;
    if (scanf("%u", &value) != 1 || value > bound)
        fail("the plan has a number that is missing or too large. bench/src/plan.rs writes it");
    return value;
}

static void read_plan(void)
{
    live = number(MAX_LIVE);
    rounds = number(MAX_STEPS);
    steps_of_round = number(MAX_STEPS);
    if (live < 2 || (uint64_t)rounds * steps_of_round > MAX_STEPS)
        fail("the plan has too many steps. Raise MAX_STEPS in bench/peer.c");
    for (unsigned i = 0; i + 1 < live; i++)
        objects[i] = there(call_allocate(number(65536)));
    for (unsigned i = 0; i < rounds * steps_of_round; i++) {
        steps[i].length = number(65536);
        steps[i].claimed = number(live - 1);
        steps[i].released = number(live - 1);
        steps[i].moved = number(live - 2);
        steps[i].new_length = number(65536);
    }
    getchar(); /* the line feed behind the last number */
}

/* Says what a new object's bytes are, that were set before in the bytes that a released object had. */
static void say_filling(void)
{
    enum { LENGTH = 64, MARK = 0xA7 };
    object given = there(call_allocate(LENGTH));
    const volatile unsigned char *const before = bytes_of(given);
    for (int i = 0; i < LENGTH; i++)
        bytes_of(given)[i] = MARK;
    call_release(given);
    given = there(call_allocate(LENGTH));
    const unsigned char last = bytes_of(given)[LENGTH - 1];
    int same = 1;
    for (int i = 0; i < LENGTH; i++)
        same = same && bytes_of(given)[i] == last;
    if (bytes_of(given) != before)
        printf("not at once those of an object just released\n");
    else if (same && last == 0)
        printf("cleared at allocate\n");
    else if (same && last != MARK)
        printf("filled with 0x%02X at allocate\n", last);
    else
        printf("neither cleared nor filled at allocate\n");
    call_release(given);
    fflush(stdout);
}

int main(void)
{
    static char in[BUFSIZ], out[BUFSIZ];
    start();
    setvbuf(stdin, in, _IOFBF, sizeof in);
    setvbuf(stdout, out, _IOFBF, sizeof out);
    say_filling();
    read_plan();
    printf("%.1f\n", clock_cost());
    fflush(stdout);
    for (unsigned round = 0; round < rounds && getchar() != EOF; round++) {
        if (round == 0)
            warm_up();
        else
            measured_round(round);
        print_times();
    }
    return 0;
}
