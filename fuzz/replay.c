/* Runs a fuzz target on files, without a fuzzer: `replay FILE...`. */
#include <stdint.h>
#include <stdio.h>
#include <stdlib.h>

int LLVMFuzzerTestOneInput(const uint8_t *data, size_t size);

int main(int count, char **names) {
    enum { LONGEST = 1 << 16 };
    for (int k = 1; k < count; k++) {
        FILE *file = fopen(names[k], "rb");
        uint8_t *data = malloc(LONGEST);
        if (file == NULL || data == NULL) {
            fprintf(stderr, "replay: cannot read %s\n", names[k]);
            return 2;
        }
        size_t size = fread(data, 1, LONGEST, file);
        fclose(file);
        LLVMFuzzerTestOneInput(data, size);
        free(data);
    }
    printf("%s: %d inputs, all as the documents say\n", names[0], count - 1);
    return 0;
}
