/* Plays the inputs named on the command line, without the fuzzer. */
#include <stdint.h>
#include <stdio.h>
#include <stdlib.h>

int LLVMFuzzerTestOneInput(const uint8_t *data, size_t size);

static int play(const char *name)
{
    static uint8_t bytes[1 << 16];
    FILE *file = fopen(name, "rb");
    if (file == NULL) {
        perror(name);
        return 1;
    }
    const size_t size = fread(bytes, 1, sizeof bytes, file);
    fclose(file);
    fprintf(stderr, "%s\n", name);
    return LLVMFuzzerTestOneInput(bytes, size);
}

int main(int count, char **names)
{
    for (int i = 1; i < count; i++)
        if (play(names[i]) != 0)
            return 1;
    return 0;
}
