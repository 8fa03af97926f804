/**
 * @file navbridge_rtklib.h
 * @brief Ephemerides of navbridge.h as RTKLIB's eph_t, and back.
 *
 * For programs that have RTKLIB (2.4.3). Include RTKLIB's rtklib.h before, with the definitions that its library was made with
 * (ENAGAL among them), and link with it: satellite numbers and times are RTKLIB's own (satno, satsys, gpst2time, time2gpst).
 *
 * An eph_t that is made so is the one that RTKLIB's decode_rtcm3() makes of the same message, with these differences:
 * - its doubles are exact products with powers of two, of which RTKLIB has decimals that may differ in the last bits;
 * - toc is at most half a week from toe, where RTKLIB takes it to lie in toe's week;
 * - ttr is when the ephemeris was sent, and zero if that is not known; RTKLIB has the time of the receiver then.
 */
#ifndef NAVBRIDGE_RTKLIB_H
#define NAVBRIDGE_RTKLIB_H

#ifndef VER_RTKLIB
#error "include rtklib.h before navbridge_rtklib.h"
#endif

#include <string.h>

#include "navbridge.h"

/** @name To eph_t */
/**@{*/

/** What GPS and Galileo have in common: the orbit, the clock and the times. */
static inline void nb_rtklib_orbit(const nb_orbit *o, uint32_t week, const nb_sent *sent, eph_t *eph) {
    eph->week = (int)week;
    eph->toes = o->toe;
    eph->toe = gpst2time((int)week, o->toe);
    eph->toc = gpst2time((int)week, o->toc);
    if (sent->is_known) eph->ttr = gpst2time((int)week, (double)sent->second);
    eph->A = o->root_a * o->root_a;
    eph->e = o->e;
    eph->i0 = o->i0;
    eph->OMG0 = o->omega0;
    eph->omg = o->omega;
    eph->M0 = o->m0;
    eph->deln = o->delta_n;
    eph->OMGd = o->omega_dot;
    eph->idot = o->idot;
    eph->crc = o->crc;
    eph->crs = o->crs;
    eph->cuc = o->cuc;
    eph->cus = o->cus;
    eph->cic = o->cic;
    eph->cis = o->cis;
    eph->f0 = o->af0;
    eph->f1 = o->af1;
    eph->f2 = o->af2;
    eph->tgd[0] = o->group[0];
    eph->tgd[1] = o->group[1];
}

/** The eph_t of an ephemeris of GPS. Its fit is RTKLIB's: 4 (hours), or 0 if the flag means more than that. */
static inline void nb_rtklib_of_gps(const nb_gps *g, eph_t *eph) {
    nb_orbit o = nb_orbit_of_gps(g);
    memset(eph, 0, sizeof *eph);
    eph->sat = satno(SYS_GPS, (int)g->satellite);
    eph->iode = (int)g->a.iode;
    eph->iodc = (int)g->clock.iodc;
    eph->sva = (int)g->side.ura;
    eph->svh = (int)g->side.health;
    eph->code = (int)g->side.l2_code;
    eph->flag = (int)g->side.l2p;
    eph->fit = g->fit ? 0.0 : 4.0;
    nb_rtklib_orbit(&o, g->toe_week, &g->sent, eph);
}

/** The eph_t of an ephemeris of Galileo I/NAV: its sva is the index of the SISA, its code the data source I/NAV, E1-B and clock
 * of E5b and E1, its svh the bits of RINEX. */
static inline void nb_rtklib_of_gal(const nb_gal *g, eph_t *eph) {
    nb_orbit o = nb_orbit_of_gal(g);
    memset(eph, 0, sizeof *eph);
    eph->sat = satno(SYS_GAL, (int)g->satellite);
    eph->iode = eph->iodc = (int)g->w1.iodnav;
    eph->sva = (int)g->w3.sisa;
    eph->svh = (int)(g->health.hs_e5b << 7 | g->health.dvs_e5b << 6 | g->health.hs_e1b << 1 | g->health.dvs_e1b);
    eph->code = 1 << 0 | 1 << 2 | 1 << 9;
    nb_rtklib_orbit(&o, g->toe_week, &g->sent, eph);
}

/** The eph_t of an item; 0, and nothing, if it is no ephemeris. */
static inline int nb_rtklib_of_item(const nb_item *item, eph_t *eph) {
    if (item->kind == NB_GPS) nb_rtklib_of_gps(&item->gps, eph);
    if (item->kind == NB_GALILEO) nb_rtklib_of_gal(&item->gal, eph);
    return item->kind == NB_GPS || item->kind == NB_GALILEO;
}

/**@}*/

/** @name From eph_t
 * Each number is the raw integer nearest to the double, so an eph_t that was made of a message or a struct gives its numbers
 * back. If one does not fit into its 32 bits the result is 0; whether it fits into the width that its field has, and the rest,
 * is judged by the calls that write the struct. */
/**@{*/

/** The raw integer nearest to a double at a scale of 2^-bits, and whether it has 32 bits with a sign. */
static inline int32_t nb_rtklib_signed(double value, int bits, int *fits) {
    int64_t raw = nb_raw(value, bits);
    if (raw < INT32_MIN || raw > INT32_MAX) *fits = 0;
    return raw < INT32_MIN || raw > INT32_MAX ? 0 : (int32_t)raw;
}

/** The same of an angle, to which a full circle is added or subtracted if that makes it fit. */
static inline int32_t nb_rtklib_angle(double value, int bits, int *fits) {
    int64_t raw = nb_raw(value / SC2RAD, bits);
    if (bits == 31 && raw > INT32_MAX) raw -= (int64_t)1 << 32;
    if (bits == 31 && raw < INT32_MIN) raw += (int64_t)1 << 32;
    if (raw < INT32_MIN || raw > INT32_MAX) *fits = 0;
    return raw < INT32_MIN || raw > INT32_MAX ? 0 : (int32_t)raw;
}

/** The same of a number without a sign. */
static inline uint32_t nb_rtklib_unsigned(double value, int bits, int *fits) {
    int64_t raw = nb_raw(value, bits);
    if (raw < 0 || raw > UINT32_MAX) *fits = 0;
    return raw < 0 || raw > UINT32_MAX ? 0 : (uint32_t)raw;
}

/** A time of the week in steps of so many seconds. */
static inline uint32_t nb_rtklib_steps(gtime_t time, double step, int *fits) {
    return nb_rtklib_unsigned(time2gpst(time, NULL) / step, 0, fits);
}

/** When the ephemeris was sent: not known where ttr is zero, or far from the week of toe. */
static inline nb_sent nb_rtklib_sent(const eph_t *eph, int week) {
    nb_sent sent = {0, 0};
    double second = timediff(eph->ttr, gpst2time(week, 0.0));
    if (eph->ttr.time != 0 && second >= -302400.0 && second < 907200.0) {
        sent.is_known = 1;
        sent.second = (int32_t)floor(second);
    }
    return sent;
}

/** The ephemeris of GPS that an eph_t is; 0 if it is of another system, or a number does not fit. */
static inline int nb_gps_of_rtklib(const eph_t *eph, nb_gps *g) {
    int satellite, week, fits = satsys(eph->sat, &satellite) == SYS_GPS;
    memset(g, 0, sizeof *g);
    if (!fits) return 0;
    g->a.toe = nb_rtklib_unsigned(time2gpst(eph->toe, &week) / 16.0, 0, &fits);
    g->satellite = (uint32_t)satellite;
    g->toe_week = (uint32_t)week;
    g->sent = nb_rtklib_sent(eph, week);
    g->clock.iodc = (uint32_t)eph->iodc;
    g->clock.toc = nb_rtklib_steps(eph->toc, 16.0, &fits);
    g->clock.af2 = nb_rtklib_signed(eph->f2, 55, &fits);
    g->clock.af1 = nb_rtklib_signed(eph->f1, 43, &fits);
    g->clock.af0 = nb_rtklib_signed(eph->f0, 31, &fits);
    g->clock.tgd = nb_rtklib_signed(eph->tgd[0], 31, &fits);
    g->side.l2_code = (uint32_t)eph->code;
    g->side.ura = (uint32_t)eph->sva;
    g->side.health = (uint32_t)eph->svh;
    g->side.l2p = (uint32_t)eph->flag;
    g->a.iode = g->b.iode = (uint32_t)eph->iode;
    g->a.crs = nb_rtklib_signed(eph->crs, 5, &fits);
    g->a.delta_n = nb_rtklib_angle(eph->deln, 43, &fits);
    g->a.m0 = nb_rtklib_angle(eph->M0, 31, &fits);
    g->a.cuc = nb_rtklib_signed(eph->cuc, 29, &fits);
    g->a.e = nb_rtklib_unsigned(eph->e, 33, &fits);
    g->a.cus = nb_rtklib_signed(eph->cus, 29, &fits);
    g->a.root_a = nb_rtklib_unsigned(sqrt(eph->A), 19, &fits);
    g->b.cic = nb_rtklib_signed(eph->cic, 29, &fits);
    g->b.omega0 = nb_rtklib_angle(eph->OMG0, 31, &fits);
    g->b.cis = nb_rtklib_signed(eph->cis, 29, &fits);
    g->b.i0 = nb_rtklib_angle(eph->i0, 31, &fits);
    g->b.crc = nb_rtklib_signed(eph->crc, 5, &fits);
    g->b.omega = nb_rtklib_angle(eph->omg, 31, &fits);
    g->b.omega_dot = nb_rtklib_angle(eph->OMGd, 43, &fits);
    g->b.idot = nb_rtklib_angle(eph->idot, 43, &fits);
    g->fit = eph->fit != 4.0;
    return fits;
}

/** The ephemeris of Galileo that an eph_t is; 0 if it is of another system or of F/NAV, or a number does not fit. */
static inline int nb_gal_of_rtklib(const eph_t *eph, nb_gal *g) {
    int satellite, week, fits = satsys(eph->sat, &satellite) == SYS_GAL && !(eph->code & 1 << 1);
    memset(g, 0, sizeof *g);
    if (!fits) return 0;
    g->w1.toe = nb_rtklib_unsigned(time2gpst(eph->toe, &week) / 60.0, 0, &fits);
    g->satellite = (uint32_t)satellite;
    g->toe_week = (uint32_t)week;
    g->sent = nb_rtklib_sent(eph, week);
    g->w1.iodnav = g->w2.iodnav = g->w3.iodnav = g->w4.iodnav = (uint32_t)eph->iode;
    g->w1.m0 = nb_rtklib_angle(eph->M0, 31, &fits);
    g->w1.e = nb_rtklib_unsigned(eph->e, 33, &fits);
    g->w1.root_a = nb_rtklib_unsigned(sqrt(eph->A), 19, &fits);
    g->w2.omega0 = nb_rtklib_angle(eph->OMG0, 31, &fits);
    g->w2.i0 = nb_rtklib_angle(eph->i0, 31, &fits);
    g->w2.omega = nb_rtklib_angle(eph->omg, 31, &fits);
    g->w2.idot = nb_rtklib_angle(eph->idot, 43, &fits);
    g->w3.omega_dot = nb_rtklib_angle(eph->OMGd, 43, &fits);
    g->w3.delta_n = nb_rtklib_angle(eph->deln, 43, &fits);
    g->w3.cuc = nb_rtklib_signed(eph->cuc, 29, &fits);
    g->w3.cus = nb_rtklib_signed(eph->cus, 29, &fits);
    g->w3.crc = nb_rtklib_signed(eph->crc, 5, &fits);
    g->w3.crs = nb_rtklib_signed(eph->crs, 5, &fits);
    g->w3.sisa = (uint32_t)eph->sva;
    g->w4.cic = nb_rtklib_signed(eph->cic, 29, &fits);
    g->w4.cis = nb_rtklib_signed(eph->cis, 29, &fits);
    g->w4.toc = nb_rtklib_steps(eph->toc, 60.0, &fits);
    g->w4.af0 = nb_rtklib_signed(eph->f0, 34, &fits);
    g->w4.af1 = nb_rtklib_signed(eph->f1, 46, &fits);
    g->w4.af2 = nb_rtklib_signed(eph->f2, 59, &fits);
    g->health.bgd_a = nb_rtklib_signed(eph->tgd[0], 32, &fits);
    g->health.bgd_b = nb_rtklib_signed(eph->tgd[1], 32, &fits);
    g->health.hs_e5b = (uint32_t)eph->svh >> 7 & 3;
    g->health.dvs_e5b = (uint32_t)eph->svh >> 6 & 1;
    g->health.hs_e1b = (uint32_t)eph->svh >> 1 & 3;
    g->health.dvs_e1b = (uint32_t)eph->svh & 1;
    return fits;
}

/** The item of an eph_t of GPS or Galileo I/NAV; 0 if it is none. */
static inline int nb_item_of_rtklib(const eph_t *eph, nb_item *item) {
    int system = satsys(eph->sat, NULL);
    memset(item, 0, sizeof *item);
    item->kind = system == SYS_GPS ? NB_GPS : system == SYS_GAL ? NB_GALILEO : 0;
    if (system == SYS_GPS) return nb_gps_of_rtklib(eph, &item->gps);
    return system == SYS_GAL && nb_gal_of_rtklib(eph, &item->gal);
}

/**@}*/

#endif
