// The example of ramp_board.h from C++.
#include "../ramp_board.h"

#include <cstdio>

int main() {
    const uint8_t record[] = {0x01, 0x0A, 0x01, 0xFF, 0x3F, 0x01};
    const uint16_t readings[] = {0, 16383};
    int32_t sums[2];
    uint16_t words[2] = {7, 7};
    ramp_board board;
    size_t place = 5;
    int refused = 0;
    refused += ramp_open(&board, RAMP_BOARD_WORDS, 2, 1, false, &place);
    refused += ramp_update(&board, RAMP_BOARD_WORDS, record, 6, &place);
    refused += ramp_start(&board, RAMP_BOARD_WORDS, &place);
    refused += ramp_feed(&board, RAMP_BOARD_WORDS, readings, 2, sums, 2, &place);
    refused += ramp_read_out(&board, RAMP_BOARD_WORDS, sums, 2, words, 2, &place);
    bool known = refused == 0 && place == 0 && words[0] == 32 && words[1] == 4127;
    std::printf("C++, the example: words %d and %d, %d failed\n", words[0], words[1], !known);
    return !known;
}
