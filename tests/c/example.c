/* Calls the library from C: opens a plan of four banks, adds four clashes, prints the sheet. */
#include <stdio.h>

#include "wave_plan_memory.h"

int main(void) {
    const uint16_t clashes[4][2] = {{0, 1}, {1, 2}, {2, 3}, {0, 3}};
    wave_plan_memory m;
    char sheet[64];
    size_t length;

    if (wave_plan_memory_new(&m, 4) || wave_plan_memory_open(&m, 4)) return 1;
    for (int i = 0; i < 4; i++) {
        uint16_t a = clashes[i][0], b = clashes[i][1];
        if (wave_plan_memory_add(&m, a, b)) return 1;
        printf("+ %d %d: %d taken up, %d moved\n", a, b, m.trail_count, m.moved_count);
    }
    if (wave_plan_memory_write_sheet(&m, sheet, sizeof sheet, &length)) return 1;
    fwrite(sheet, 1, length, stdout);
    wave_plan_memory_free(&m);
    return 0;
}
