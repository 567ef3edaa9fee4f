/* Knees from standard input, a line `ID L h g T LIMIT` each, to verdicts, as ./gatewren drag has them: for good lines only. */
#include <inttypes.h>
#include <stdio.h>
#include <string.h>

#include "gatewren.h"

int main(void)
{
    char name[64];
    uint64_t length, height, gravity, time, limit;

    while (scanf("%32s %" SCNu64 " %" SCNu64 " %" SCNu64 " %" SCNu64 " %" SCNu64, name, &length, &height, &gravity, &time, &limit) == 6) {
        uint32_t verdict, below;
        uint64_t excess, bits;
        double period;
        uint32_t number = gatewren_drag(length, height, gravity, time, limit, &verdict, &below, &excess, &period);

        if (number != GATEWREN_ANSWERED) {
            printf("%s refused %" PRIu32 "\n", name, number);
            continue;
        }
        memcpy(&bits, &period, sizeof bits);
        printf("%s %s %c%" PRIu64 ".%09" PRIu64 " %016" PRIX64 "\n", name, verdict == GATEWREN_PASSES ? "pass" : "drags", below ? '-' : '+',
               excess / 1000000000, excess % 1000000000, bits);
    }
    return 0;
}
