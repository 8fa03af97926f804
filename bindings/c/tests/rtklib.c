/* Compares the eph_t of navbridge_rtklib.h with that which RTKLIB's own decode_rtcm3 makes of the same frames, and what comes
 * back of both with what was read.
 *
 *   rtklib WEEK < STREAM       a week near that of the stream, and of the machine's clock by less than 512 weeks
 *
 * Status 0: each field is equal, doubles but for two parts in 10^15, where RTKLIB's decimals of 16 digits are no powers of two. */
#include "../../../examples/c/rtklib_asks.h"

#include "navbridge_rtklib.h"

#include <stdio.h>
#include <stdlib.h>

#include "../../../examples/c/frames.h"
#include "wants.h"

/* RTKLIB exports it, and declares it in its sources alone. */
#ifdef __cplusplus
extern "C" int decode_rtcm3(rtcm_t *rtcm);
#else
extern int decode_rtcm3(rtcm_t *rtcm);
#endif

static rtcm_t rtcm;
static unsigned long fields, exact;

static void same_int(long ours, long theirs, int number, const char *what) {
    fields++;
    exact += ours == theirs;
    want(ours == theirs, number, what);
}

static void same_double(double ours, double theirs, int number, const char *what) {
    fields++;
    exact += ours == theirs;
    want(fabs(ours - theirs) <= 2e-15 * fabs(theirs), number, what);
}

static void same_time(gtime_t ours, gtime_t theirs, int number, const char *what) {
    fields++;
    exact += ours.time == theirs.time && ours.sec == theirs.sec;
    want(ours.time == theirs.time && ours.sec == theirs.sec, number, what);
}

static void compare(const eph_t *ours, const eph_t *theirs, int number) {
#define I(field) same_int(ours->field, theirs->field, number, #field)
#define D(field) same_double(ours->field, theirs->field, number, #field)
    gtime_t toc = theirs->toc;
    I(sat), I(iode), I(iodc), I(sva), I(svh), I(week), I(code), I(flag);
    D(A), D(e), D(i0), D(OMG0), D(omg), D(M0), D(deln), D(OMGd), D(idot), D(crc), D(crs), D(cuc), D(cus), D(cic), D(cis);
    D(toes), D(fit), D(f0), D(f1), D(f2), D(tgd[0]), D(tgd[1]), D(tgd[2]), D(tgd[3]), D(Adot), D(ndot);
    if (timediff(toc, theirs->toe) > 302400) toc = timeadd(toc, -604800);
    if (timediff(toc, theirs->toe) < -302400) toc = timeadd(toc, 604800);
    same_time(ours->toe, theirs->toe, number, "toe");
    same_time(ours->toc, toc, number, "toc");
    want(ours->ttr.time == 0, number, "ttr");
#undef I
#undef D
}

/* What comes back of an eph_t is the item that was read, and its frame. */
static void back(const eph_t *eph, const nb_item *item, int number, const char *what) {
    nb_item again;
    uint8_t frame[NB_FRAME_MOST], expected[NB_FRAME_MOST];
    size_t used = 0, wanted = 0;
    want(nb_item_of_rtklib(eph, &again), number, what);
    want(nb_message_write(item, expected, sizeof expected, &wanted) == NB_OK, number, what);
    want(nb_message_write(&again, frame, sizeof frame, &used) == NB_OK, number, what);
    want(used == wanted && memcmp(frame, expected, used) == 0, number, what);
    again.gps.sent = item->gps.sent;
    again.gal.sent = item->gal.sent;
    want(again.kind == item->kind, number, what);
    want(item->kind != NB_GPS || memcmp(&again.gps, &item->gps, sizeof again.gps) == 0, number, what);
    want(item->kind != NB_GALILEO || memcmp(&again.gal, &item->gal, sizeof again.gal) == 0, number, what);
}

static void one(const uint8_t *frame, size_t size, uint32_t week, int number) {
    nb_item item;
    eph_t ours;
    const eph_t *theirs;
    memset(&item, 0, sizeof item);
    if (nb_message_read(frame + 3, size - 6, week, &item) != NB_OK) return;
    rtcm.time = item.kind == NB_GPS ? gpst2time((int)item.gps.toe_week, 16.0 * item.gps.a.toe)
                                    : gpst2time((int)item.gal.toe_week, 60.0 * item.gal.w1.toe);
    memcpy(rtcm.buff, frame, size);
    rtcm.len = (int)size - 3;
    want(decode_rtcm3(&rtcm) == 2, number, "RTKLIB reads it");
    theirs = &rtcm.nav.eph[rtcm.ephsat - 1];
    want(nb_rtklib_of_item(&item, &ours), number, "an ephemeris");
    compare(&ours, theirs, number);
    back(&ours, &item, number, "back from ours");
    back(theirs, &item, number, "back from RTKLIB's");
}

int main(int argc, char **argv) {
    static frames in;
    size_t size;
    int number = 0;
    uint32_t week = argc == 2 ? (uint32_t)strtoul(argv[1], NULL, 10) : 0;
    if (week < 1024 || week > 8191 || !init_rtcm(&rtcm)) {
        fprintf(stderr, "usage: rtklib WEEK < STREAM, the week 1024 to 8191\n");
        return 2;
    }
    strcpy(rtcm.opt, "-EPHALL");
    frames_begin(&in, STDIN_FILENO);
    while ((size = frames_next(&in)) > 0) one(in.frame, size, week, ++number);
    free_rtcm(&rtcm);
    printf("rtklib: %d frames, %lu fields, %lu of them to the last bit, %d wrong\n", number, fields, exact, wrong);
    return wrong != 0 || fields == 0;
}
