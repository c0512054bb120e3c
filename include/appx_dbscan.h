/* Approximate DBSCAN of housekeeping frames: 1 to 4 channels of signed 16-bit counts.
 * The functions are proved in Rattle, crate appx_dbscan_c; link libappx_dbscan_c.a.
 * A pointer is never null, also with length 0; no slice overlaps another. */
#ifndef APPX_DBSCAN_H
#define APPX_DBSCAN_H

#include <stddef.h>
#include <stdint.h>

#ifdef __cplusplus
extern "C" {
#endif

/* The label of a frame that belongs to no cluster. */
#define APPX_DBSCAN_NONE 65535

/* The kind of a frame. */
#define APPX_DBSCAN_NOISE 0
#define APPX_DBSCAN_BORDER 1
#define APPX_DBSCAN_CORE 2

/* Why a call is refused: the first of these that applies. */
#define APPX_DBSCAN_MIN_POINTS 1       /* min_points <= 1 */
#define APPX_DBSCAN_TOLERANCE 2        /* tolerance <= 0 */
#define APPX_DBSCAN_SLACK 3            /* slack <= 0 */
#define APPX_DBSCAN_TOLERANCE_DOMAIN 4 /* tolerance no whole number from 1 to 65,535 */
#define APPX_DBSCAN_SLACK_DOMAIN 5     /* slack not 1 / 2^s, s from 0 to 10 */
#define APPX_DBSCAN_CHANNELS 6         /* channels not 1 to 4 */
#define APPX_DBSCAN_POINTS 7           /* points_len no multiple of the channels, or over 4,096 frames */
#define APPX_DBSCAN_RESULTS 8          /* labels or kinds shorter than the frames */
#define APPX_DBSCAN_WORK 9             /* work memory too short */

/* refusal is 0 where the frames are labelled; else it is the number of the refusal, the counts are 0, and no slice is changed. */
struct appx_dbscan_outcome {
    uint8_t refusal;
    size_t clusters;
    size_t core_frames;
};

/* Labels the frames, which stand in points frame after frame. One label and one kind a frame is written; the needed work words are 0 afterwards. */
struct appx_dbscan_outcome appx_dbscan_transform(
    const int16_t *points, size_t points_len,
    size_t channels, size_t min_points, double tolerance, double slack,
    uint16_t *labels, size_t labels_len,
    uint8_t *kinds, size_t kinds_len,
    uint16_t *work, size_t work_len);

/* How many work words a run needs on so many frames with the slack 1 / 2^s; 0 over 4,096 frames or with s over 10. */
size_t appx_dbscan_work_words(size_t frames, size_t s);

#ifdef __cplusplus
}
#endif

#endif
