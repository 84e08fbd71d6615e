/* Records a scene's script, from standard input to standard output, as `record` does. */
#include "lakmozet.h"

#include <stdio.h>
#include <string.h>

static uint8_t text[1 << 24], log_bytes[1 << 26];

int main(void)
{
    size_t length = fread(text, 1, sizeof text - 1, stdin), written = 0, scene;
    const char *behind = strstr((const char *)text, "\n%%\n");
    int32_t status;
    if (!behind)
        return 5;
    scene = (size_t)(behind + 1 - (const char *)text);
    status = lak_record(text, scene, text + scene + 3, length - scene - 3, log_bytes, sizeof log_bytes, &written);
    fwrite(log_bytes, 1, written, stdout);
    return status == LAK_DONE ? 0 : status - 32; /* as the program's */
}
