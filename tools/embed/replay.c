/* Replays a log, from standard input to standard output, as `replay` does, but that what stops it before has no line. */
#include "lakmozet.h"

#include <stdio.h>

static uint8_t log_bytes[1 << 26], text[1 << 26];

int main(void)
{
    size_t length = fread(log_bytes, 1, sizeof log_bytes, stdin), written = 0;
    lak_stop stop;
    int32_t status = lak_replay(log_bytes, length, text, sizeof text, &written, &stop);
    fwrite(text, 1, written, stdout);
    return status == LAK_DONE ? 0 : status - 32; /* as the program's */
}
