/* Evaluates the case file on standard input with the library and prints what the program `trace` prints. */
#include <inttypes.h>
#include <stdio.h>

#include "hagglethwait.h"

/* What the largest accepted file needs: 8 groups, 64 blocks, 64 outputs. One byte more than a file may have shows that
 * it is too long. */
enum { FILE_ROOM = 65537, STATE_ROOM = 8 + 16 * 64, OUTPUTS_ROOM = 4 * 64, FINDINGS_ROOM = 16 * 64 };

static uint8_t file[FILE_ROOM];
static uint8_t state[STATE_ROOM], outputs[OUTPUTS_ROOM], findings[FINDINGS_ROOM];

static uint32_t word16(const uint8_t *p)
{
    return p[0] | (uint32_t)p[1] << 8;
}

static uint32_t word32(const uint8_t *p)
{
    return word16(p) | word16(p + 2) << 16;
}

/* The table of contents: where body `e` of G, I, B, O, T starts, and how long it is. */
static uint32_t body_start(int e)
{
    return word32(file + 8 * e);
}

static uint32_t body_size(int e)
{
    return word32(file + 8 * e + 4);
}

/* Whether input `port` of a block is shown with its sign: arithmetic blocks (kinds 3 to 6) have their inputs' types at
 * the front of their parameters, 0 INT16 and 2 INT32 the signed ones. */
static int is_signed(uint8_t block, int port)
{
    const uint8_t *record = file + body_start(2) + 40 * block;
    return record[0] >= 3 && (record[4 + port] == 0 || record[4 + port] == 2);
}

static void print_input(uint8_t block, int port, uint32_t word)
{
    if (is_signed(block, port))
        printf(" %" PRId64, word < 0x80000000u ? (int64_t)word : (int64_t)word - 0x100000000);
    else
        printf(" %" PRIu32, word);
}

static void print_finding(uint32_t cycle, const uint8_t *f)
{
    printf("finding %" PRIu32 " %u %" PRIu32 " %" PRIu32, cycle, f[0], word16(f + 2), word16(f + 4));
    print_input(f[0], 0, word32(f + 8));
    print_input(f[0], 1, word32(f + 12));
    printf("\n");
}

int main(void)
{
    size_t size = fread(file, 1, sizeof file, stdin);
    uint32_t state_size, outputs_size, findings_size;
    uint8_t refused = hagglethwait_sizes(file, size, &state_size, &outputs_size, &findings_size);
    if (refused == 0)
        refused = hagglethwait_fresh(file, size, state, state_size);
    if (refused != 0) {
        printf("refused %u\n", refused);
        return 0;
    }
    uint32_t record_size = 2 + (body_size(0) - 1) + 4 * (body_size(1) / 2);
    uint32_t records = body_size(4) / record_size;
    uint32_t found = 0;
    for (uint32_t cycle = 1; cycle <= records; cycle++) {
        const uint8_t *record = file + body_start(4) + record_size * (cycle - 1);
        int32_t count = hagglethwait_cycle(file, size, record, record_size, state, state_size, outputs, outputs_size, findings, findings_size);
        if (count < 0) {
            printf("refused %" PRId32 "\n", -count);
            return 0;
        }
        for (int32_t i = 0; i < count; i++)
            print_finding(cycle, findings + 16 * i);
        found += (uint32_t)count;
    }
    printf("end %" PRIu32 " %" PRIu32 "\n", records, found);
    return 0;
}
