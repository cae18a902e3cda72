/* Reads a plan of form one on standard input and prints what playing it takes, a line for each number.
 * The plan is not played.
 *
 *   tools/build library
 *   cc -std=c99 -o forecast bindings/c/forecast.c target/staticlib/libcapi.a
 *   ./forecast < plan
 *
 * The exit status is 0 for an accepted plan, 1 for a refused one, 2 if reading or writing failed.
 */
#include <stdio.h>

#include "register.h"

static uint8_t plan[REGISTER_LONGEST_INPUT];

/* Prints the forecast of the plan; 1 if the plan is refused, else 0. */
static int print_forecast(size_t length)
{
    uint32_t numbers[REGISTER_FORECAST];
    size_t result = register_forecast(REGISTER_FORM_ONE, plan, length, numbers, REGISTER_FORECAST);
    if (result >= REGISTER_REFUSED) {
        printf("refused %d\n", (int)(result - REGISTER_REFUSED));
        return 1;
    }
    printf("bytes of answers: %d\n", (int)numbers[REGISTER_BYTES_OF_ANSWERS]);
    printf("moves: %d\n", (int)numbers[REGISTER_MOVES]);
    printf("WRITE messages: %d\n", (int)numbers[REGISTER_WRITE_MESSAGES]);
    printf("READ messages: %d\n", (int)numbers[REGISTER_READ_MESSAGES]);
    printf("votes on receipt of a WRITE: %d\n", (int)numbers[REGISTER_VOTES]);
    printf("most forgeries arriving in one tick: %d\n", (int)numbers[REGISTER_MOST_FORGERIES]);
    return 0;
}

int main(void)
{
    size_t length = fread(plan, 1, sizeof plan, stdin);
    if (ferror(stdin)) {
        perror("forecast: the plan could not be read");
        return 2;
    }
    int refused = print_forecast(length);
    if (fflush(stdout) != 0 || ferror(stdout)) {
        perror("forecast: the output could not be written");
        return 2;
    }
    return refused;
}
