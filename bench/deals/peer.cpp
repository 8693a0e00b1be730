// The same deals by CalcDDtable of libdds, one thread: a line for each, the twenty numbers in the same order, and the
// nanoseconds that they took. Words: how many deals, and the seed.
#include <chrono>
#include <cstdint>
#include <cstdio>
#include <cstdlib>
#include <cstring>
#include <dds/dll.h>

static uint32_t state;

static uint32_t next() {
    state = state * 1664525u + 1013904223u;
    return state >> 16;
}

int main(int argc, char **argv) {
    if (argc < 3) return 2;
    int count = atoi(argv[1]);
    state = (uint32_t)strtoul(argv[2], nullptr, 10);
    SetMaxThreads(1);
    for (int i = 0; i < count; i++) {
        struct ddTableDeal board;
        memset(&board, 0, sizeof board);
        bool dealt[52] = {};
        for (int round = 0; round < 13; round++)
            for (int seat = 0; seat < 4; seat++) {
                uint32_t first = next() % 52;
                for (int offset = 0; offset < 52; offset++) {
                    int card = (first + offset) % 52;
                    if (dealt[card]) continue;
                    dealt[card] = true;
                    // Suits of libdds go from spades down, and a rank's bit is the rank.
                    board.cards[seat][3 - card / 13] |= 1u << (card % 13 + 2);
                    break;
                }
            }
        struct ddTableResults found;
        auto start = std::chrono::steady_clock::now();
        int status = CalcDDtable(board, &found);
        auto took = std::chrono::steady_clock::now() - start;
        if (status != 1) {
            fprintf(stderr, "CalcDDtable: %d\n", status);
            return 1;
        }
        for (int trump = 0; trump < 5; trump++)
            for (int seat = 0; seat < 4; seat++) printf("%d ", found.resTable[trump == 4 ? 4 : 3 - trump][seat]);
        printf("%lld\n", (long long)std::chrono::duration_cast<std::chrono::nanoseconds>(took).count());
    }
    return 0;
}
