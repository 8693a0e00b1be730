// The par of the same tables by DealerParBin of libdds: a line for each, the score of North and South and the contracts that it
// names, each by each of its declarers, with commas between. Words: how many tables, and the seed.
#include <cstdint>
#include <cstdio>
#include <cstdlib>
#include <cstring>
#include <dds/dll.h>

static uint32_t state;

static uint32_t next() {
    state = state * 1664525u + 1013904223u;
    return state >> 16;
}

static int pick(uint32_t near, uint32_t more) {
    uint32_t tricks = near + more;
    return tricks > 13 ? 13 : tricks;
}

int main(int argc, char **argv) {
    if (argc < 3) return 2;
    int count = atoi(argv[1]);
    state = (uint32_t)strtoul(argv[2], nullptr, 10);
    for (int i = 0; i < count; i++) {
        int dealer = next() % 4, vulnerable = next() % 4;
        struct ddTableResults table;
        for (int trump = 0; trump < 5; trump++) {
            uint32_t north = next() % 14, east = next() % 3, south = next() % 2, west = next() % 3;
            uint32_t against = north > 12 ? 0 : 12 - north;
            // Denominations of libdds go from spades down, and no trumps come last.
            int *tricks = table.resTable[trump == 4 ? 4 : 3 - trump];
            tricks[0] = north;
            tricks[1] = pick(against, east);
            tricks[2] = pick(north, south);
            tricks[3] = pick(against, west);
        }
        struct parResultsMaster par;
        int status = DealerParBin(&table, &par, dealer, vulnerable);
        if (status != 1) {
            fprintf(stderr, "DealerParBin: %d\n", status);
            return 1;
        }
        printf("%d", par.score);
        for (int n = 0; n < par.number && par.score != 0; n++) {
            const struct contractType &contract = par.contracts[n];
            const char *seats[] = {"N", "E", "S", "W", "NS", "EW"};
            const char *denominations[] = {"NT", "S", "H", "D", "C"};
            for (const char *seat = seats[contract.seats]; *seat; seat++)
                printf(",%d%s%s %c", contract.level, denominations[contract.denom], contract.underTricks ? "X" : "", *seat);
        }
        printf("\n");
    }
    return 0;
}
