/* sizes.c: what the caller places for one unit. */
#include "sinezhab.h"

#include <stdio.h>

int main(void)
{
    size_t unit = sizeof(struct sinezhab_unit), servo = sizeof(struct sinezhab_servo), watch = sizeof(struct sinezhab_watch);
    size_t table = SINEZHAB_TABLE * sizeof(struct sinezhab_record);
    printf("unit %zu, servo %zu, watch %zu, table %zu: state %zu\n", unit, servo, watch, table, unit + servo + watch + table);
    return 0;
}
