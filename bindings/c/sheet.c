/* Reads a plan of form one on standard input, plays it, and prints the answers as a sheet to pin up.
 *
 *   tools/build library
 *   cc -std=c99 -o sheet bindings/c/sheet.c target/staticlib/libcapi.a
 *   ./sheet < plan
 *
 * The exit status is 0 for an accepted plan, 1 for a refused one, 2 if reading or writing failed.
 */
#include <stdio.h>

#include "register.h"

enum { FORM = REGISTER_FORM_ONE, ANSWER = REGISTER_ANSWER_ONE };

static uint8_t plan[REGISTER_LONGEST_INPUT];
static uint8_t answers[ANSWER * REGISTER_MOST_READS];
static uint8_t workspace[REGISTER_WORKSPACE];
static uint8_t page[REGISTER_MOST_SHEET];

/* 1 if a result is a refusal, whose number is printed; else 0. */
static int is_refused(size_t result)
{
    if (result < REGISTER_REFUSED)
        return 0;
    printf("refused %d\n", (int)(result - REGISTER_REFUSED));
    return 1;
}

/* Prints the sheet of the plan; 1 if the plan is refused, else 0. */
static int print_sheet(size_t length)
{
    size_t reads = register_play(FORM, plan, length, answers, sizeof answers,
                                 workspace, sizeof workspace);
    if (is_refused(reads))
        return 1;
    size_t bytes = register_sheet(FORM, plan, length, answers, ANSWER * reads, page, sizeof page);
    if (is_refused(bytes))
        return 1;
    fwrite(page, 1, bytes, stdout);
    return 0;
}

int main(void)
{
    size_t length = fread(plan, 1, sizeof plan, stdin);
    if (ferror(stdin)) {
        perror("sheet: the plan could not be read");
        return 2;
    }
    int refused = print_sheet(length);
    if (fflush(stdout) != 0 || ferror(stdout)) {
        perror("sheet: the output could not be written");
        return 2;
    }
    return refused;
}
