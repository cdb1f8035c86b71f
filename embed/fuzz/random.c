/* The plain random driver: so many inputs of random bytes for driver.c. `random SEED COUNT`, and with a folder the inputs are written there instead, for libFuzzer to
 * begin with. */
#include <inttypes.h>
#include <stdio.h>
#include <stdlib.h>

int LLVMFuzzerTestOneInput(const uint8_t *data, size_t size);

/* splitmix64 */
static uint64_t next(uint64_t *state) {
    uint64_t word = *state += UINT64_C(0x9E3779B97F4A7C15);
    word = (word ^ (word >> 30)) * UINT64_C(0xBF58476D1CE4E5B9);
    word = (word ^ (word >> 27)) * UINT64_C(0x94D049BB133111EB);
    return word ^ (word >> 31);
}

static int write_input(const char *folder, uint64_t number, const uint8_t *data, size_t size) {
    char name[4096];
    snprintf(name, sizeof name, "%s/%" PRIu64, folder, number);
    FILE *file = fopen(name, "wb");
    return file != NULL && fwrite(data, 1, size, file) == size && fclose(file) == 0;
}

int main(int count, char **words) {
    if (count != 3 && count != 4) {
        fprintf(stderr, "random SEED COUNT [FOLDER]\n");
        return 2;
    }
    uint64_t state = strtoull(words[1], NULL, 10), inputs = strtoull(words[2], NULL, 10);
    static uint8_t data[4096];
    for (uint64_t i = 0; i < inputs; i++) {
        size_t size = 16 + next(&state) % (sizeof data - 16);
        /* Bytes of few bits give small numbers, which calls take more often. */
        uint8_t bits = (uint8_t)((1u << (2 + next(&state) % 7)) - 1);
        for (size_t at = 0; at < size; at++) {
            uint64_t word = next(&state);
            data[at] = (uint8_t)(word >> 8) & ((word & 7) < 5 ? bits : 0xFF);
        }
        if (count == 3)
            LLVMFuzzerTestOneInput(data, size);
        else if (!write_input(words[3], i, data, size))
            return 2;
    }
    return 0;
}
