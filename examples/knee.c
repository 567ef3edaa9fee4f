/*
 * Gatewren from C: an integral, a call that is refused, the time of a swing and a step log.
 *
 *     tools/build gatewren
 *     cc -std=c99 -Iinclude examples/knee.c target/staticlib/libgatewren.a -o knee && ./knee
 */
#include <inttypes.h>
#include <stdio.h>

#include "gatewren.h"

static void show(const char *call, uint32_t number, const gatewren_answer *answer)
{
    if (number == GATEWREN_ANSWERED)
        printf("%s is %.17g, after %" PRIu32 " rounds, road %" PRIu32 "\n", call, answer->value, answer->rounds, answer->road);
    else
        printf("%s is refused with no. %" PRIu32 "\n", call, number);
}

int main(void)
{
    static const uint16_t readings[] = {65500, 65535, 12, 40};
    gatewren_answer answer = {0.0, 0, 0, 0};
    uint32_t number;
    uint64_t total = 120000;

    number = gatewren_rf_answer(1.0, 0.5, 0.25, &answer);
    show("RF(1, 0.5, 0.25)", number, &answer);

    /* A refusal touches no place: they are RF's still. */
    number = gatewren_rd(0.0, 0.0, 1.0, &answer.value, &answer.rounds, &answer.road, &answer.rescalings);
    show("RD(0, 0, 1)", number, &answer);
    if (number != GATEWREN_ZEROS || answer.value < 1.37 || answer.rounds != 4 || answer.road != GATEWREN_DUPLICATION)
        return 1;

    /* A shank of 250 mm, let go 50 mm above its lowest point. */
    number = gatewren_swing_answer(250000, 50000, 9806650, &answer);
    show("the swing's time in seconds", number, &answer);

    number = gatewren_steps(&total, readings, sizeof readings / sizeof readings[0]);
    if (number != GATEWREN_ANSWERED)
        return 1;
    printf("the step log's total is %" PRIu64 "\n", total);
    return 0;
}
