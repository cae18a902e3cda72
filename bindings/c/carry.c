/* Reads a plan of form one on standard input, carries it to form two, plays it there, and carries it
 * back.  Then it packs a plan of form two with a value that form one has no room for, plays it, and
 * prints with which number the way back is refused.
 *
 *   tools/build library
 *   cc -std=c99 -o carry bindings/c/carry.c target/staticlib/libcapi.a
 *   ./carry < plan
 *
 * The exit status is 0 for an accepted plan, 1 for a refused one, 2 if reading or writing failed.
 */
#include <stdio.h>
#include <string.h>

#include "register.h"

#define COUNT(list) (sizeof(list) / sizeof(list)[0])

enum { FORM = REGISTER_FORM_TWO, ANSWER = REGISTER_ANSWER_TWO };

/* The plan as it is read, in form two, and in form one again. */
static uint8_t plan[REGISTER_LONGEST_INPUT];
static uint8_t two[REGISTER_LONGEST_PLAN_TWO];
static uint8_t one[REGISTER_LONGEST_PLAN_ONE];

static uint8_t answers[ANSWER * REGISTER_MOST_READS];
static uint8_t workspace[REGISTER_WORKSPACE];

/* Above 65,535. */
enum { WIDE = 70000 };

/* One server that is never faulty, and one reader. */
enum {
    SERVERS = 1,
    FAULTS = 0,
    DELTA = 1,
    PERIOD = 1,
    READERS = 1,
    TICKS = 4,
    INITIAL = 7,
    PARTIES = SERVERS + 1 + READERS
};

/* Tick, party, value: the wide value is written at 0, reader 1 reads at 1. */
static const uint32_t operations[] = {
    0, 0, WIDE,
    1, 1, 0,
};
enum { OPERATION = 3 };

/* Nobody is faulty at ticks 0, 1, 2 and 3. */
static const uint32_t placements[] = {0, 0, 0, 0};

/* No messages are forged: the list has no numbers, and its pointer is not null. */
static const uint32_t forgeries[] = {0};

/* For each tick what server 0, the writer and reader 1 send to server 0, the writer and reader 1: every
 * message takes one tick. */
static const uint32_t delays[TICKS * PARTIES * PARTIES] = {
    0, 0, 1, 1, 0, 0, 1, 0, 0,
    0, 0, 1, 1, 0, 0, 1, 0, 0,
    0, 0, 1, 1, 0, 0, 1, 0, 0,
    0, 0, 1, 1, 0, 0, 1, 0, 0,
};

/* 1 if a result is a refusal, whose number is printed; else 0. */
static int is_refused(size_t result)
{
    if (result < REGISTER_REFUSED)
        return 0;
    printf("refused %d\n", (int)(result - REGISTER_REFUSED));
    return 1;
}

static int answer(size_t read, enum register_answer_field field)
{
    return (int)register_answer(FORM, answers, sizeof answers, read, field);
}

/* Plays the plan in form two, which check accepts, and has the answers judged. */
static void rehearse(size_t length)
{
    size_t reads = register_check(FORM, two, length);
    printf("reads %d\n", (int)reads);
    register_play(FORM, two, length, answers, sizeof answers, workspace, sizeof workspace);
    for (size_t read = 0; read < reads; read++)
        printf("begin %d reader %d value %d number %d count %d\n",
               answer(read, REGISTER_BEGIN), answer(read, REGISTER_READER),
               answer(read, REGISTER_VALUE), answer(read, REGISTER_NUMBER),
               answer(read, REGISTER_COUNT));
    size_t regular = register_judge(FORM, two, length, answers, ANSWER * reads);
    printf("regular: %s\n", regular == 1 ? "yes" : "no");
}

/* 1 if the plan that was read is refused, else 0. */
static int carry_there_and_back(size_t length)
{
    size_t carried = register_carry(plan, length, two, sizeof two);
    if (is_refused(carried))
        return 1;
    printf("form one: bytes %d\n", (int)length);
    printf("form two: bytes %d\n", (int)carried);
    rehearse(carried);
    size_t back = register_carry_back(two, carried, one, sizeof one);
    if (is_refused(back))
        return 1;
    int same = back == length && memcmp(one, plan, length) == 0;
    printf("form one again: bytes %d, %s\n", (int)back, same ? "the same" : "not the same");
    return 0;
}

/* The length of the plan with the wide value, or a refusal. */
static size_t pack_wide(void)
{
    const uint32_t header[] = {
        SERVERS, FAULTS, DELTA, PERIOD, READERS, TICKS, INITIAL,
        (uint32_t)(COUNT(operations) / OPERATION), 0, 0,
    };
    return register_pack(FORM, header, COUNT(header), placements, COUNT(placements),
                         operations, COUNT(operations), forgeries, 0,
                         delays, COUNT(delays), two, sizeof two);
}

/* 1 if the lists are refused, else 0. */
static int rehearse_wide(void)
{
    size_t length = pack_wide();
    if (is_refused(length))
        return 1;
    printf("value %d in form two: bytes %d\n", WIDE, (int)length);
    rehearse(length);
    size_t back = register_carry_back(two, length, one, sizeof one);
    if (!is_refused(back))
        printf("form one: bytes %d\n", (int)back);
    return 0;
}

int main(void)
{
    size_t length = fread(plan, 1, sizeof plan, stdin);
    if (ferror(stdin)) {
        perror("carry: the plan could not be read");
        return 2;
    }
    int refused = carry_there_and_back(length) || rehearse_wide();
    if (fflush(stdout) != 0 || ferror(stdout)) {
        perror("carry: the output could not be written");
        return 2;
    }
    return refused;
}
