/* What a call costs beside its work: calls that do next to nothing, twenty million times each. */
#include "lakmozet.h"

#include <stdio.h>
#include <string.h>
#include <time.h>

enum { TIMES = 20000000 };

static double now(void)
{
    return (double)clock() / CLOCKS_PER_SEC;
}

static void tell(const char *what, double began)
{
    printf("%s: %.1f ns a call\n", what, (now() - began) * 1e9 / TIMES);
}

int main(void)
{
    static const char scene[] = "[[particle]]\nat = [0, 0, 0]\n";
    lak_cloth cloth = {0};
    lak_fault fault;
    lak_left left;
    lak_counts_of_world counts;
    lak_vec3 place;
    uint32_t count;
    double began;
    if (lak_open(&cloth, (const uint8_t *)scene, strlen(scene), 1, &fault) != LAK_DONE)
        return 1;
    began = now();
    for (int i = 0; i < TIMES; i++)
        lak_step(&cloth, 0, &left);
    tell("lak_step, refused for its count", began);
    began = now();
    for (int i = 0; i < TIMES; i++)
        lak_cut(&cloth, 0);
    tell("lak_cut of no link", began);
    began = now();
    for (int i = 0; i < TIMES; i++)
        lak_counts(&cloth, &counts);
    tell("lak_counts", began);
    began = now();
    for (int i = 0; i < TIMES; i++)
        lak_places(&cloth, &place, 1, &count);
    tell("lak_places of one particle", began);
    lak_close(&cloth);
    return 0;
}
