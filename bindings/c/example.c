/* Reads a plan of form one on standard input and prints each read's answer, the servers after the
 * plan's last tick, and whether the answers are those of a regular register.
 *
 *   tools/build library
 *   cc -std=c99 -o example bindings/c/example.c target/staticlib/libcapi.a
 *   ./example < plan
 *
 * The exit status is 0 for an accepted plan, 1 for a refused one, 2 if reading or writing failed.
 */
#include <stdio.h>

#include "register.h"

enum { FORM = REGISTER_FORM_ONE, ANSWER = REGISTER_ANSWER_ONE };

static uint8_t plan[REGISTER_LONGEST_INPUT];
static uint8_t answers[ANSWER * REGISTER_MOST_READS];
static uint8_t workspace[REGISTER_WORKSPACE];

static int answer(size_t read, enum register_answer_field field)
{
    return (int)register_answer(FORM, answers, sizeof answers, read, field);
}

static void print_answer(size_t read)
{
    printf("begin %d reader %d value %d number %d count %d\n",
           answer(read, REGISTER_BEGIN), answer(read, REGISTER_READER), answer(read, REGISTER_VALUE),
           answer(read, REGISTER_NUMBER), answer(read, REGISTER_COUNT));
}

static void print_server(size_t length, size_t server, size_t tick)
{
    static const char *const words[] = {"faulty", "cured", "correct"};
    uint8_t pairs[REGISTER_PAIRS];
    size_t seen = register_look(FORM, plan, length, workspace, sizeof workspace, server, tick,
                                pairs, sizeof pairs);
    if (seen >= REGISTER_REFUSED)
        return;
    printf("server %d %s", (int)server, words[seen % 4]);
    for (const uint8_t *pair = pairs; pair < pairs + REGISTER_PAIR * (seen / 4); pair += REGISTER_PAIR)
        printf(" (%d, %d)", pair[0] << 16 | pair[1] << 8 | pair[2], pair[3]);
    printf("\n");
}

/* Prints what there is to say of the plan; 1 if it is refused, else 0. */
static int rehearse(size_t length)
{
    size_t reads = register_play(FORM, plan, length, answers, sizeof answers,
                                 workspace, sizeof workspace);
    if (reads >= REGISTER_REFUSED) {
        printf("refused %d\n", (int)(reads - REGISTER_REFUSED));
        return 1;
    }
    printf("reads %d\n", (int)reads);
    for (size_t read = 0; read < reads; read++)
        print_answer(read);
    size_t servers = register_header(FORM, plan, length, REGISTER_SERVERS);
    size_t ticks = register_header(FORM, plan, length, REGISTER_TICKS);
    for (size_t server = 0; server < servers; server++)
        print_server(length, server, ticks - 1);
    size_t regular = register_judge(FORM, plan, length, answers, ANSWER * reads);
    printf("regular: %s\n", regular == 1 ? "yes" : "no");
    return 0;
}

int main(void)
{
    size_t length = fread(plan, 1, sizeof plan, stdin);
    if (ferror(stdin)) {
        perror("example: the plan could not be read");
        return 2;
    }
    int refused = rehearse(length);
    if (fflush(stdout) != 0 || ferror(stdout)) {
        perror("example: the output could not be written");
        return 2;
    }
    return refused;
}
