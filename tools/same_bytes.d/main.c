/* Feeds the same calls to two builds of libnamedict.a and compares answers and bytes: driver TIMES [CALL].
 * With CALL the bytes are compared after every call from that one on. */
#include <inttypes.h>
#include <stdio.h>
#include <stdlib.h>
#include <unistd.h>

#include "both.h"
#include "driver.h"
#include "tally.h"

static char **arguments;

void run_again_closely(uint64_t from_call)
{
    char call[24];
    snprintf(call, sizeof call, "%" PRIu64, from_call);
    printf("a difference after call %" PRIu64 ": all again, to see which call made it\n", from_call);
    fflush(stdout);
    execl("/proc/self/exe", arguments[0], arguments[1], call, (char *)NULL);
    exit(2);
}

int main(int count, char **given)
{
    arguments = given;
    unsigned times = count > 1 ? (unsigned)atoi(given[1]) : 0;
    if (times == 0) {
        fprintf(stderr, "driver TIMES [CALL]\n");
        return 2;
    }
    if (count > 2)
        look_closely_from(strtoull(given[2], NULL, 10));
    run_lists(times);
    run_foreign(times);
    run_leaves(times);
    unsigned unseen = print_tally();
    printf("compared: %" PRIu64 " lists, %" PRIu64 " calls\n", lists_made(), calls_made());
    if (unseen > 0) {
        printf("differences: 0, but of the cases %u were not seen\n", unseen);
        return 1;
    }
    printf("differences: 0\n");
    return 0;
}
