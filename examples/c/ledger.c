/* Gives the ledger on standard input to the library and prints what the program `ledger` prints. */
#include <inttypes.h>
#include <stdio.h>
#include <string.h>

#include "hagglethwait.h"

/* The library takes a ledger of any size, the program at most 65,536 bytes: one byte more shows that it is too long. */
enum { FILE_MOST = 65536, FILE_ROOM = FILE_MOST + 1, TOO_LONG = 20, MONTHS = 12 };

static uint8_t file[FILE_ROOM];
static uint32_t findings[2][MONTHS], dismissed[2][MONTHS];
static double rates[2][MONTHS];
static uint8_t bends[2];

/* A month without a finding has no rate: what stands in `rates` is then not looked at. */
static void print_month(int table, int m)
{
    printf("month %d %" PRIu32 " %" PRIu32, m + 1, findings[table][m], dismissed[table][m]);
    if (findings[table][m] == 0) {
        printf(" none\n");
        return;
    }
    uint64_t bits;
    memcpy(&bits, &rates[table][m], sizeof bits);
    printf(" %016" PRIx64 "\n", bits);
}

static void print_table(int table, const char *name)
{
    printf("table %s\n", name);
    for (int m = 0; m < MONTHS; m++)
        print_month(table, m);
    if (bends[table] == 0)
        printf("bend none\n");
    else
        printf("bend %u\n", bends[table]);
}

int main(void)
{
    size_t size = fread(file, 1, sizeof file, stdin);
    uint8_t refused = TOO_LONG;
    if (size <= FILE_MOST)
        refused = hagglethwait_ledger(file, size, findings, dismissed, rates, bends);
    if (refused != 0) {
        printf("refused %u\n", refused);
        return 0;
    }
    print_table(0, "with");
    print_table(1, "without");
    return 0;
}
