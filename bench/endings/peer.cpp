// The same endings by SolveBoard of libdds, mode 1 and one thread: a line for each, the tricks of North and South, and
// the nanoseconds that it took. Words: cards a hand, how many endings, the seed.
#include <chrono>
#include <cstdint>
#include <cstdio>
#include <cstdlib>
#include <cstring>
#include <dds/dll.h>

static uint32_t state;

static uint32_t next() {
    state = state * 1664525u + 1013904223u;
    return state >> 16;
}

int main(int argc, char **argv) {
    if (argc < 4) return 2;
    int size = atoi(argv[1]), count = atoi(argv[2]);
    state = (uint32_t)strtoul(argv[3], nullptr, 10);
    SetMaxThreads(1);
    for (int i = 0; i < count; i++) {
        struct deal board;
        memset(&board, 0, sizeof board);
        bool dealt[52] = {};
        for (int round = 0; round < size; round++)
            for (int seat = 0; seat < 4; seat++) {
                uint32_t first = next() % 52;
                for (int offset = 0; offset < 52; offset++) {
                    int card = (first + offset) % 52;
                    if (dealt[card]) continue;
                    dealt[card] = true;
                    // Suits of libdds go from spades down, and a rank's bit is the rank.
                    board.remainCards[seat][3 - card / 13] |= 1u << (card % 13 + 2);
                    break;
                }
            }
        uint32_t trump = next() % 5;
        board.trump = trump == 4 ? 4 : 3 - (int)trump;
        board.first = next() % 4;
        struct futureTricks found;
        auto start = std::chrono::steady_clock::now();
        int status = SolveBoard(board, -1, 1, 1, &found, 0);
        auto took = std::chrono::steady_clock::now() - start;
        if (status != 1) {
            fprintf(stderr, "SolveBoard: %d\n", status);
            return 1;
        }
        int tricks = board.first % 2 == 0 ? found.score[0] : size - found.score[0];
        printf("%d %lld\n", tricks, (long long)std::chrono::duration_cast<std::chrono::nanoseconds>(took).count());
    }
    return 0;
}
