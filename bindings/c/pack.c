/* Packs a plan of form one from lists of numbers, as they come from a table or another program, and
 * rehearses it: prints the length of the plan, each read's answer, and whether the answers are those of
 * a regular register.  The plan is examples/takeover.plan.
 *
 *   tools/build library
 *   cc -std=c99 -o pack bindings/c/pack.c target/staticlib/libcapi.a
 *   ./pack
 *
 * The exit status is 0 for an accepted plan, 1 for a refused one, 2 if writing failed.
 */
#include <stdio.h>
#include <string.h>

#include "register.h"

#define COUNT(list) (sizeof(list) / sizeof(list)[0])

enum { FORM = REGISTER_FORM_ONE, ANSWER = REGISTER_ANSWER_ONE };

/* Five servers, of which one is faulty at a time, from server 0 on in turn; one reader. */
enum {
    SERVERS = 5,
    FAULTS = 1,
    DELTA = 1,
    PERIOD = 2,
    READERS = 1,
    TICKS = 10,
    INITIAL = 7,
    WRITER = SERVERS,
    READER_1 = WRITER + 1,
    PARTIES = SERVERS + 1 + READERS
};

/* A placement for each movement: at ticks 0, 2, 4, 6 and 8. */
static const uint32_t placements[] = {0x8000, 0x4000, 0x2000, 0x1000, 0x0800};

/* Tick, party, value: 100 is written at 0, reader 1 reads at 3, 101 is written at 6. */
static const uint32_t operations[] = {
    0, 0, 100,
    3, 1, 0,
    6, 0, 101,
};
enum { OPERATION = 3, READ_BEGIN = 3, READ_END = READ_BEGIN + 2 * DELTA };

/* Tick, sender, receiver, value, number; at most one to each party in each tick. */
enum { FORGERY = 5 };
static uint32_t forgeries[FORGERY * TICKS * PARTIES];
static size_t forged;

static uint32_t delays[TICKS * PARTIES * PARTIES];

static uint8_t plan[REGISTER_LONGEST_PLAN_ONE];
static uint8_t answers[ANSWER * REGISTER_MOST_READS];
static uint8_t workspace[REGISTER_WORKSPACE];

static void forge(uint32_t tick, uint32_t sender, uint32_t receiver)
{
    const uint32_t message[FORGERY] = {tick, sender, receiver, 666, 9};
    memcpy(forgeries + FORGERY * forged, message, sizeof message);
    forged++;
}

/* The faulty server tells all others that 666 is due, and the reader while its read is open.  The order
 * is the one that a plan asks for: by tick, sender, receiver. */
static void list_forgeries(void)
{
    for (uint32_t tick = 0; tick < TICKS; tick++) {
        uint32_t faulty = tick / PERIOD;
        for (uint32_t server = 0; server < SERVERS; server++)
            if (server != faulty)
                forge(tick, faulty, server);
        if (READ_BEGIN <= tick && tick < READ_END)
            forge(tick, faulty, READER_1);
    }
}

/* Whether messages go from one party to the other. */
static int is_link(uint32_t sender, uint32_t receiver)
{
    if (sender < SERVERS)
        return receiver != sender && receiver != WRITER;
    return receiver < SERVERS;
}

/* Every message takes one tick. */
static void list_delays(void)
{
    uint32_t *delay = delays;
    for (uint32_t tick = 0; tick < TICKS; tick++)
        for (uint32_t sender = 0; sender < PARTIES; sender++)
            for (uint32_t receiver = 0; receiver < PARTIES; receiver++)
                *delay++ = is_link(sender, receiver) ? 1 : 0;
}

/* The plan's length, or a refusal. */
static size_t pack_plan(void)
{
    const uint32_t header[] = {
        SERVERS, FAULTS, DELTA, PERIOD, READERS, TICKS, INITIAL,
        (uint32_t)(COUNT(operations) / OPERATION), (uint32_t)forged, 0,
    };
    return register_pack(FORM, header, COUNT(header), placements, COUNT(placements),
                         operations, COUNT(operations), forgeries, FORGERY * forged,
                         delays, COUNT(delays), plan, sizeof plan);
}

static int answer(size_t read, enum register_answer_field field)
{
    return (int)register_answer(FORM, answers, sizeof answers, read, field);
}

/* Plays the packed plan, which check accepts, and has the answers judged. */
static void rehearse(size_t length)
{
    size_t reads = register_check(FORM, plan, length);
    printf("reads %d\n", (int)reads);
    register_play(FORM, plan, length, answers, sizeof answers, workspace, sizeof workspace);
    for (size_t read = 0; read < reads; read++)
        printf("begin %d reader %d value %d number %d count %d\n",
               answer(read, REGISTER_BEGIN), answer(read, REGISTER_READER),
               answer(read, REGISTER_VALUE), answer(read, REGISTER_NUMBER),
               answer(read, REGISTER_COUNT));
    size_t regular = register_judge(FORM, plan, length, answers, ANSWER * reads);
    printf("regular: %s\n", regular == 1 ? "yes" : "no");
}

/* 1 if the lists are refused, else 0. */
static int pack_and_rehearse(void)
{
    list_forgeries();
    list_delays();
    size_t length = pack_plan();
    if (length >= REGISTER_REFUSED) {
        printf("refused %d\n", (int)(length - REGISTER_REFUSED));
        return 1;
    }
    printf("bytes %d\n", (int)length);
    rehearse(length);
    return 0;
}

int main(void)
{
    int refused = pack_and_rehearse();
    if (fflush(stdout) != 0 || ferror(stdout)) {
        perror("pack: the output could not be written");
        return 2;
    }
    return refused;
}
