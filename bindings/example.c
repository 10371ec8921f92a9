/* Replays the script in the file that its argument names and prints the output: with a buffer that no output outgrows. */
#include "replay.h"

#include <stdio.h>

int main(int count, char **words) {
    /* one byte more than a script can have, so that a longer file is refused by its length */
    static uint8_t script[SCUMBRADEL_SCRIPT_MOST + 1];
    static uint8_t out[SCUMBRADEL_OUTPUT_MOST];

    if (count != 2) {
        fprintf(stderr, "usage: %s SCRIPT\n", words[0]);
        return 2;
    }
    FILE *file = fopen(words[1], "rb");
    if (file == NULL) {
        perror(words[1]);
        return 1;
    }
    size_t size = fread(script, 1, sizeof script, file);
    if (ferror(file)) {
        perror(words[1]);
        return 1;
    }
    fclose(file);
    size_t told = scumbradel_replay(script, size, out, sizeof out);
    if (fwrite(out, 1, told, stdout) != told || fflush(stdout) != 0) {
        perror("standard output");
        return 1;
    }
    return 0;
}
