/* spandsp's G.726 as a stream, to be measured beside the program `g726`: `encode RATE` or `decode RATE`, with linear
   samples of 16 bits and codes packed from the lowest bits up. */
#include <spandsp.h>
#include <stdint.h>
#include <stdio.h>
#include <stdlib.h>
#include <string.h>

int main(int argc, char **argv) {
    if (argc != 3) return 2;
    int rate = atoi(argv[2]);
    int frame = rate * 5 / 2;
    g726_state_t *state = g726_init(NULL, rate * 1000, G726_ENCODING_LINEAR, G726_PACKING_RIGHT);
    if (state == NULL) return 2;
    int16_t samples[160];
    uint8_t codes[100];
    if (strcmp(argv[1], "encode") == 0) {
        while (fread(samples, sizeof samples, 1, stdin) == 1) {
            int n = g726_encode(state, codes, samples, 160);
            if (fwrite(codes, 1, (size_t) n, stdout) != (size_t) n) return 7;
        }
    } else {
        while (fread(codes, (size_t) frame, 1, stdin) == 1) {
            int n = g726_decode(state, samples, codes, frame);
            if (fwrite(samples, sizeof *samples, (size_t) n, stdout) != (size_t) n) return 7;
        }
    }
    return 0;
}
