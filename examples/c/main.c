/* Case (h) of the specification: one channel, frames -1, 1 and 3, min_points 3, tolerance 2, slack 1. */
#include <stdio.h>

#include "appx_dbscan.h"

enum { FRAMES = 3, WORDS = 1024 };

int main(void)
{
    const int16_t points[FRAMES] = {-1, 1, 3};
    uint16_t labels[FRAMES] = {0};
    uint8_t kinds[FRAMES] = {0};
    static uint16_t work[WORDS];

    size_t words = appx_dbscan_work_words(FRAMES, 0);
    if (words > WORDS) {
        fprintf(stderr, "%zu work words are needed\n", words);
        return 1;
    }

    struct appx_dbscan_outcome outcome = appx_dbscan_transform(
        points, FRAMES, 1, 3, 2.0, 1.0, labels, FRAMES, kinds, FRAMES, work, words);
    if (outcome.refusal != 0) {
        printf("ee%02x\n", outcome.refusal);
        return 0;
    }
    for (size_t i = 0; i < FRAMES; i++)
        printf("%02x%04x\n", kinds[i], labels[i]);
    printf("%04zx%04zx\n", outcome.clusters, outcome.core_frames);
    return 0;
}
