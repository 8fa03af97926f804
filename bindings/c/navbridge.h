/**
 * @file navbridge.h
 * @brief Broadcast orbits of GPS and Galileo: messages, subframes, pages, records and complete conversions, proved.
 *
 * C99 and C++. Link with libnavbridge.a (docs/LIBRARY.md explains how to make it); nothing else is needed but the C library, and
 * -lm for the functions of this header that give doubles.
 *
 * Structs hold the integers that were broadcast, unscaled; the comment of each field has its scale and width, and the
 * functions at the end of this header give doubles in SI units and radians.
 *
 * No call keeps a pointer, writes past the sizes that it is given, or has a state of its own: calls on separate data may run
 * at once.
 *
 * @par What the caller must ensure
 * Every pointer is valid for the size next to it and aligned for its type; NULL only with the size 0. What a call writes
 * overlaps nothing else that it is given. No call from a signal handler, or from the forked child of a process with threads.
 */
#ifndef NAVBRIDGE_H
#define NAVBRIDGE_H

#include <math.h>
#include <stdbool.h>
#include <stddef.h>
#include <stdint.h>

/** The version of this header: the library returns the same number (nb_version()). */
#define NB_VERSION 3

#ifdef __cplusplus
extern "C" {
#endif

/** Return codes: 0, or the reason. No two have the same number, and none changes its number. The comment of each is its
 * nb_status_text(). */
typedef enum nb_status {
    NB_OK = 0,            /**< all was done */
    NB_NO_JOB = 2,        /**< the arguments name no conversion */
    NB_OUTPUT_ROOM = 4,   /**< the output is longer than its buffer */
    NB_NOT_THIS_FORM = 5, /**< the first line of a capture, or the header of a navigation file, is rejected */
    NB_NO_MEMORY = 6,     /**< out of memory */
    NB_REPORT_ROOM = 7,   /**< the report is longer than its buffer */
    NB_TOO_LONG = 8,      /**< the input has 2^32 bytes or more, or a stream that is pushed 2^64 */
    NB_NO_TEXT = 9,       /**< an argument is not UTF-8 */
    NB_NOT_PUSHED = 10,   /**< the input of this conversion cannot be pushed */
    NB_ENDED = 11,        /**< the input has ended */
    NB_CLOSED = 12,       /**< no conversion is open */

    NB_NO_NUMBER = 16,     /**< the payload has fewer than two bytes, and so no message number */
    NB_OTHER_MESSAGE = 17, /**< the call does not read messages of this number */
    NB_SHORT = 18,         /**< the payload is shorter than its message */
    NB_BAD_SATELLITE = 19, /**< the system of the message has no satellite of its number */
    NB_BAD_TIME = 20,      /**< toe or toc is past the end of the week */
    NB_SPARE_SISA = 21,    /**< the SISA index is a spare one, 126 to 254 */
    NB_NO_WEEK = 22,       /**< the reference week is not 1024 to 8191 */
    NB_NO_ITEM = 23,       /**< the item is not valid: an unknown kind, a field out of its range, or parts of two issues */
    NB_NO_VERSION = 24,    /**< the version of navigation files is not 3 or 4 */
    NB_NO_MESSAGE = 25,    /**< no message carries ionospheric parameters */
    NB_NO_FRAME = 26,      /**< the bytes are not one complete frame with a right checksum */
    NB_NO_HEADER = 27,     /**< the date of the header has control characters, or the leap seconds are 100 or more */
    NB_BAD_FIELD = 28,     /**< a field of the message is out of its range */
    NB_BAD_DAY = 29,       /**< the day number of the message is of no day near the reference week, or the row's day has none */
    NB_BAD_SENT = 30,      /**< the transmission time of the row is no half minute within twelve hours of its epoch */

    NB_RECORD_SATELLITE = 32,   /**< the record has no satellite of its system, or two */
    NB_RECORD_SHORT = 33,       /**< the record ends before the last line of its kind */
    NB_RECORD_NO_NUMBER = 34,   /**< a number or a part of the date is no number */
    NB_RECORD_BLANK = 35,       /**< a column is blank that must not be */
    NB_RECORD_RANGE = 36,       /**< a number is out of the range of its field */
    NB_RECORD_NO_DATE = 37,     /**< the calendar has no such day, or the clock no such time */
    NB_RECORD_WEEK = 38,        /**< the date is in no week from 1 to 16,382 */
    NB_RECORD_FIT = 39,         /**< the fit interval is 2 or 3 hours, to which no flag corresponds */
    NB_RECORD_STEP = 40,        /**< the epoch is no multiple of the step of toc */
    NB_RECORD_FAR = 41,         /**< the epoch is not within half a week of toe */
    NB_RECORD_PASSED_OVER = 42, /**< the record is of another kind, which is skipped */

    NB_SUBFRAME_PREAMBLE = 48,  /**< the subframe begins neither with the preamble nor with its complement */
    NB_SUBFRAME_PARITY_1 = 49,  /**< the parity of word 1 is wrong */
    NB_SUBFRAME_PARITY_2 = 50,  /**< the parity of word 2 is wrong */
    NB_SUBFRAME_PARITY_3 = 51,  /**< the parity of word 3 is wrong */
    NB_SUBFRAME_PARITY_4 = 52,  /**< the parity of word 4 is wrong */
    NB_SUBFRAME_PARITY_5 = 53,  /**< the parity of word 5 is wrong */
    NB_SUBFRAME_PARITY_6 = 54,  /**< the parity of word 6 is wrong */
    NB_SUBFRAME_PARITY_7 = 55,  /**< the parity of word 7 is wrong */
    NB_SUBFRAME_PARITY_8 = 56,  /**< the parity of word 8 is wrong */
    NB_SUBFRAME_PARITY_9 = 57,  /**< the parity of word 9 is wrong */
    NB_SUBFRAME_PARITY_10 = 58, /**< the parity of word 10 is wrong */
    NB_SUBFRAME_TOW = 59,       /**< the TOW count of the subframe is 100,800 or more */
    NB_SUBFRAME_UNUSED = 60,    /**< the subframe is neither 1, 2 or 3 nor page 18 of subframe 4 */
    NB_SUBFRAME_TIME = 61,      /**< toc or toe of the subframe is past the end of the week */
    NB_NO_SATELLITE = 62,       /**< the given satellite is not 1 to 32 (GPS) or 1 to 36 (Galileo) */
    NB_NO_TOW_COUNT = 63,       /**< the given TOW count is 100,800 or more */

    NB_PAGE_ALERT = 65,     /**< a page part is of an alert page */
    NB_PAGE_NO_PAIR = 66,   /**< the page parts are not an even one and an odd one */
    NB_PAGE_CRC = 67,       /**< the CRC of the page is wrong: a damaged bit, or parts of two pages */
    NB_WORD_UNUSED = 68,    /**< the word type is not 1 to 5 */
    NB_WORD_SATELLITE = 69, /**< word type 4 names another satellite */
    NB_WORD_TIME = 70,      /**< toe, toc or TOW of the word is past the end of the week */
    NB_WORD_SISA = 71,      /**< the SISA index of the word is a spare one, 126 to 254 */
    NB_NO_SIGNAL = 72       /**< the given signal is no nb_signal */
} nb_status;

/** Some bytes, which no call changes. */
typedef struct nb_bytes {
    const uint8_t *at; /**< the first of them */
    size_t size;       /**< how many */
} nb_bytes;

/** @name Ephemerides and ionospheric parameters */
/**@{*/

/** When an ephemeris was sent. */
typedef struct nb_sent {
    uint32_t is_known; /**< 0 if it is not known */
    int32_t second;    /**< s after the start of the week of its toe, -302,400 to 907,199; 0 if it is not known */
} nb_sent;

/** The clock of a GPS satellite, of subframe 1 (IS-GPS-200, table 20-I). */
typedef struct nb_gps_clock {
    uint32_t iodc; /**< issue of data, clock: 10 bits */
    uint32_t toc;  /**< time of the clock's data, in steps of 16 s: 0 to 37,799 */
    int32_t af2;   /**< clock drift rate, 2^-55 s/s^2: 8 bits */
    int32_t af1;   /**< clock drift, 2^-43 s/s: 16 bits */
    int32_t af0;   /**< clock bias, 2^-31 s: 22 bits */
    int32_t tgd;   /**< group delay, 2^-31 s: 8 bits */
} nb_gps_clock;

/** The fields of subframe 1 other than the clock (IS-GPS-200, 20.3.3.3.1). */
typedef struct nb_gps_side {
    uint32_t l2_code; /**< the codes on L2: 2 bits */
    uint32_t ura;     /**< user range accuracy, an index: 4 bits */
    uint32_t health;  /**< health of the satellite: 6 bits */
    uint32_t l2p;     /**< whether the P code on L2 bears no data: 1 bit */
} nb_gps_side;

/** The first half of the orbit of a GPS satellite, of subframe 2 (IS-GPS-200, table 20-III). */
typedef struct nb_gps_orbit_a {
    uint32_t iode;   /**< issue of data, ephemeris: 8 bits */
    int32_t crs;     /**< sine correction to the orbit's radius, 2^-5 m: 16 bits */
    int32_t delta_n; /**< correction to the mean motion, 2^-43 semicircles/s: 16 bits */
    int32_t m0;      /**< mean anomaly at toe, 2^-31 semicircles: 32 bits */
    int32_t cuc;     /**< cosine correction to the argument of latitude, 2^-29 rad: 16 bits */
    uint32_t e;      /**< eccentricity, 2^-33: 32 bits */
    int32_t cus;     /**< sine correction to the argument of latitude, 2^-29 rad: 16 bits */
    uint32_t root_a; /**< square root of the semi-major axis, 2^-19 m^(1/2): 32 bits */
    uint32_t toe;    /**< time of the ephemeris, in steps of 16 s: 0 to 37,799 */
} nb_gps_orbit_a;

/** The second half of the orbit of a GPS satellite, of subframe 3 (IS-GPS-200, table 20-III). */
typedef struct nb_gps_orbit_b {
    uint32_t iode;     /**< issue of data, ephemeris: 8 bits; that of the first half */
    int32_t cic;       /**< cosine correction to the inclination, 2^-29 rad: 16 bits */
    int32_t omega0;    /**< longitude of the ascending node at the start of the week, 2^-31 semicircles: 32 bits */
    int32_t cis;       /**< sine correction to the inclination, 2^-29 rad: 16 bits */
    int32_t i0;        /**< inclination at toe, 2^-31 semicircles: 32 bits */
    int32_t crc;       /**< cosine correction to the orbit's radius, 2^-5 m: 16 bits */
    int32_t omega;     /**< argument of perigee, 2^-31 semicircles: 32 bits */
    int32_t omega_dot; /**< rate of the right ascension, 2^-43 semicircles/s: 24 bits */
    int32_t idot;      /**< rate of the inclination, 2^-43 semicircles/s: 14 bits */
} nb_gps_orbit_b;

/** An ephemeris of GPS. */
typedef struct nb_gps {
    uint32_t satellite;  /**< 1 to 32 */
    uint32_t toe_week;   /**< week of toe, counted from 1980-01-06: 1 to 16,382 */
    nb_sent sent;        /**< when it was sent */
    nb_gps_clock clock;  /**< its clock */
    nb_gps_side side;    /**< what subframe 1 has next to the clock */
    nb_gps_orbit_a a;    /**< the first half of its orbit */
    nb_gps_orbit_b b;    /**< the second half, of the same issue */
    uint32_t fit;        /**< fit interval flag: 1 bit (IS-GPS-200, 20.3.3.4.3.1) */
} nb_gps;

/** The first part of the orbit of a Galileo satellite, of I/NAV word 1 (Galileo OS SIS ICD, 5.1.1). */
typedef struct nb_gal_word1 {
    uint32_t iodnav; /**< issue of data: 10 bits */
    uint32_t toe;    /**< time of the ephemeris, in steps of 60 s: 0 to 10,079 */
    int32_t m0;      /**< mean anomaly at toe, 2^-31 semicircles: 32 bits */
    uint32_t e;      /**< eccentricity, 2^-33: 32 bits */
    uint32_t root_a; /**< square root of the semi-major axis, 2^-19 m^(1/2): 32 bits */
} nb_gal_word1;

/** The second part, of I/NAV word 2 (Galileo OS SIS ICD, 5.1.1). */
typedef struct nb_gal_word2 {
    uint32_t iodnav; /**< issue of data: 10 bits */
    int32_t omega0;  /**< longitude of the ascending node at the start of the week, 2^-31 semicircles: 32 bits */
    int32_t i0;      /**< inclination at toe, 2^-31 semicircles: 32 bits */
    int32_t omega;   /**< argument of perigee, 2^-31 semicircles: 32 bits */
    int32_t idot;    /**< rate of the inclination, 2^-43 semicircles/s: 14 bits */
} nb_gal_word2;

/** The third part, with the accuracy, of I/NAV word 3 (Galileo OS SIS ICD, 5.1.1 and 5.1.12). */
typedef struct nb_gal_word3 {
    uint32_t iodnav;   /**< issue of data: 10 bits */
    int32_t omega_dot; /**< rate of the right ascension, 2^-43 semicircles/s: 24 bits */
    int32_t delta_n;   /**< correction to the mean motion, 2^-43 semicircles/s: 16 bits */
    int32_t cuc;       /**< cosine correction to the argument of latitude, 2^-29 rad: 16 bits */
    int32_t cus;       /**< sine correction to the argument of latitude, 2^-29 rad: 16 bits */
    int32_t crc;       /**< cosine correction to the orbit's radius, 2^-5 m: 16 bits */
    int32_t crs;       /**< sine correction to the orbit's radius, 2^-5 m: 16 bits */
    uint32_t sisa;     /**< signal in space accuracy, an index: 0 to 125, or 255 for none */
} nb_gal_word3;

/** The last part, with the clock, of I/NAV word 4 (Galileo OS SIS ICD, 5.1.1 and 5.1.3). */
typedef struct nb_gal_word4 {
    uint32_t iodnav; /**< issue of data: 10 bits */
    int32_t cic;     /**< cosine correction to the inclination, 2^-29 rad: 16 bits */
    int32_t cis;     /**< sine correction to the inclination, 2^-29 rad: 16 bits */
    uint32_t toc;    /**< time of the clock's data, in steps of 60 s: 0 to 10,079 */
    int32_t af0;     /**< clock bias, 2^-34 s: 31 bits */
    int32_t af1;     /**< clock drift, 2^-46 s/s: 21 bits */
    int32_t af2;     /**< clock drift rate, 2^-59 s/s^2: 6 bits */
} nb_gal_word4;

/** Group delays and health of a Galileo satellite, of I/NAV word 5 (Galileo OS SIS ICD, 5.1.5 and 5.1.9). */
typedef struct nb_gal_health {
    int32_t bgd_a;    /**< group delay between E1 and E5a, 2^-32 s: 10 bits */
    int32_t bgd_b;    /**< group delay between E1 and E5b, 2^-32 s: 10 bits */
    uint32_t hs_e5b;  /**< health of the signal E5b: 2 bits */
    uint32_t hs_e1b;  /**< health of the signal E1-B: 2 bits */
    uint32_t dvs_e5b; /**< whether the data of E5b are without guarantee: 1 bit */
    uint32_t dvs_e1b; /**< whether the data of E1-B are without guarantee: 1 bit */
} nb_gal_health;

/** An ephemeris of Galileo. */
typedef struct nb_gal {
    uint32_t satellite;   /**< 1 to 36 */
    uint32_t toe_week;    /**< week of toe, counted from 1980-01-06: 1 to 16,382 */
    nb_sent sent;         /**< when it was sent */
    nb_gal_word1 w1;      /**< the first part of its orbit */
    nb_gal_word2 w2;      /**< the second part, of the same issue */
    nb_gal_word3 w3;      /**< the third part, of the same issue */
    nb_gal_word4 w4;      /**< the last part and the clock, of the same issue */
    nb_gal_health health; /**< its delays and health */
} nb_gal;

/** GPS ionospheric parameters of subframe 4, page 18 (IS-GPS-200, table 20-X), 8 bits each. */
typedef struct nb_gps_ion {
    int32_t alpha0; /**< 2^-30 s */
    int32_t alpha1; /**< 2^-27 s/semicircle */
    int32_t alpha2; /**< 2^-24 s/semicircle^2 */
    int32_t alpha3; /**< 2^-24 s/semicircle^3 */
    int32_t beta0;  /**< 2^11 s */
    int32_t beta1;  /**< 2^14 s/semicircle */
    int32_t beta2;  /**< 2^16 s/semicircle^2 */
    int32_t beta3;  /**< 2^16 s/semicircle^3 */
} nb_gps_ion;

/** Galileo ionospheric parameters of I/NAV word type 5 (Galileo OS SIS ICD, 5.1.6). */
typedef struct nb_gal_ion {
    uint32_t ai0;     /**< effective ionisation level, 1st order, 2^-2 solar flux units: 11 bits */
    int32_t ai1;      /**< 2nd order, 2^-8 solar flux units/degree: 11 bits */
    int32_t ai2;      /**< 3rd order, 2^-15 solar flux units/degree^2: 14 bits */
    uint32_t regions; /**< disturbance flags of regions 1 to 5; region 1 is the highest of 5 bits */
} nb_gal_ion;

/** Ionospheric parameters of one system, with satellite and transmission time. */
typedef struct nb_ion {
    uint64_t moment;    /**< transmission time as GPS time, s from 1980-01-06, in week 1 to 16,382 */
    uint32_t satellite; /**< of the system of the parameters: 1 to 32 (GPS) or 1 to 36 (Galileo) */
    nb_gps_ion gps;     /**< the parameters, of kind NB_GPS_ION */
    nb_gal_ion gal;     /**< the parameters, of kind NB_GALILEO_ION */
} nb_ion;

/** What an item is. */
typedef enum nb_kind {
    NB_GPS = 1,        /**< a GPS ephemeris */
    NB_GALILEO = 2,    /**< a Galileo ephemeris */
    NB_GPS_ION = 3,    /**< GPS ionospheric parameters */
    NB_GALILEO_ION = 4 /**< Galileo ionospheric parameters */
} nb_kind;

/** An ephemeris or ionospheric parameters. Members of another kind are ignored, and left unchanged. */
typedef struct nb_item {
    uint32_t kind; /**< an nb_kind */
    nb_gps gps;    /**< of kind NB_GPS */
    nb_gal gal;    /**< of kind NB_GALILEO */
    nb_ion ion;    /**< of kinds NB_GPS_ION and NB_GALILEO_ION */
} nb_item;

/**@}*/

/** The version of the library: NB_VERSION of the header that fits it. */
uint32_t nb_version(void);

/** The text of a status: a short sentence without a full stop, or "unknown status". Never NULL, and not to be released. */
const char *nb_status_text(nb_status status);

/** The name of a status, such as "NB_BAD_TIME", or "unknown status". Never NULL, and not to be released. */
const char *nb_status_name(nb_status status);

/**
 * @brief A complete conversion: what the program navbridge does with these arguments, in memory.
 *
 * @param words       the arguments of navbridge without the program's name, as `--from=stream` (docs/navbridge.1)
 * @param n_words     how many
 * @param input       what the program would read
 * @param n           how many bytes
 * @param output      a buffer for what it would write, which gets the prefix that fits
 * @param room        its size in bytes
 * @param used        set to the length of the complete output, which may be more than the buffer
 * @param report      a buffer for what it would report
 * @param report_room its size in bytes
 * @param report_used set to the length of the complete report
 * @return NB_OK, NB_NO_JOB, NB_OUTPUT_ROOM, NB_NOT_THIS_FORM, NB_NO_MEMORY, NB_REPORT_ROOM, NB_TOO_LONG or NB_NO_TEXT. After
 *         NB_NO_MEMORY and NB_TOO_LONG a prefix of the output and of the report was made; after NB_NO_JOB, NB_NOT_THIS_FORM and
 *         NB_NO_TEXT nothing.
 *
 * It allocates a copy of the output and of the report, and what the conversion retains. All of it is released.
 */
nb_status nb_convert(const nb_bytes *words, size_t n_words, const uint8_t *input, size_t n, uint8_t *output, size_t room,
                     size_t *used, uint8_t *report, size_t report_room, size_t *report_used);

/**
 * @brief The GPS week of a Unix time, as a reference week.
 * @param seconds seconds since 1970-01-01 UTC, as time() returns them. Leap seconds are ignored: in the last 18 s of a GPS week
 *                this is the week before, which serves as well
 * @return the week, counted from 1980-01-06: 1 to 16,382; 0 for a time outside these weeks
 */
uint32_t nb_week_of_unix(uint64_t seconds);

/** @name RTCM 10403.3
 * A frame is the byte D3, 6 reserved bits, 10 bits of length, a payload of 0 to 1,023 bytes and the CRC-24Q of all before. */
/**@{*/

/** The most bytes that a frame has. */
#define NB_FRAME_MOST 1029

/** Whether these bytes are one complete frame with a right checksum, and nothing else. */
bool nb_is_frame(const uint8_t *bytes, size_t n);

/**
 * @brief Makes the frame of a payload.
 * @return its size, n + 6, which may be more than the buffer: the prefix that fits is written. 0 if the payload has more than
 *         1,023 bytes.
 */
size_t nb_frame_make(const uint8_t *payload, size_t n, uint8_t *frame, size_t room);

/**
 * @brief Reads message 1019 (GPS) or 1046 (Galileo I/NAV) of the payload of a frame.
 * @param week a week near that of the message, 1024 to 8191: the message has its week modulo 1024 or 4096
 * @param item set if NB_OK is returned, otherwise unchanged; its transmission time is not known
 * @return NB_OK, NB_NO_WEEK, or the first of NB_NO_NUMBER, NB_OTHER_MESSAGE, NB_SHORT, NB_BAD_SATELLITE, NB_BAD_TIME and
 *         NB_SPARE_SISA that applies. Bytes after the message are ignored.
 */
nb_status nb_message_read(const uint8_t *payload, size_t n, uint32_t week, nb_item *item);

/**
 * @brief Reads message 1019 or 1046 of a complete frame, as nb_message_read() does of its payload.
 * @param frame the frame, as nb_deframer_next() returns it
 * @param n     its size: nothing may follow it
 * @param week  a week near that of the message, 1024 to 8191
 * @param item  set if NB_OK is returned, otherwise unchanged
 * @return NB_OK, NB_NO_FRAME, or what nb_message_read() returns for the payload
 */
nb_status nb_frame_read(const uint8_t *frame, size_t n, uint32_t week, nb_item *item);

/**
 * @brief Makes the frame of message 1019 or 1046 of an ephemeris: 67 or 69 bytes.
 * @param used set to its size, which may be more than the buffer: the prefix that fits is written
 * @return NB_OK, NB_NO_ITEM or NB_NO_MESSAGE; without NB_OK nothing is written, and the size is 0
 */
nb_status nb_message_write(const nb_item *item, uint8_t *frame, size_t room, size_t *used);

/**@}*/

/** @name Ephemerides of all systems
 * A row holds the ephemeris of any system as the columns of its RINEX record, unscaled integers. Message, title and units are tables of
 * the library: a further kind of ephemeris needs no new call and no new type. Kinds today: messages 1020 (GLONASS), 1041 (NavIC), 1042
 * (BeiDou D1 and D2), 1044 (QZSS) and 1045 (Galileo F/NAV).
 *
 *     if (nb_row_from_message(payload, n, week, &row) == NB_OK)
 *         for (i = 0; nb_row_column(&row, i, &column) == NB_OK; i++)
 *             printf("%s = %.13g\n", nb_row_name(&row, i), nb_column_value(&column, row.columns[i]));
 */
/**@{*/

/** The most columns that a row has. */
#define NB_COLUMNS_MOST 40

/** An ephemeris of any system. */
typedef struct nb_row {
    uint64_t epoch;                   /**< the epoch of its record, s from 1980-01-06 in the time scale of the record */
    uint32_t message;                 /**< the number of its message */
    uint32_t satellite;               /**< its number in the message; QZSS: 1 to 10 */
    uint32_t count;                   /**< how many columns its record has */
    uint8_t letter;                   /**< the letter of its system, as in RINEX; ignored when a record is written */
    uint8_t title[7];                 /**< the title of its records, such as "FDMA", with a terminating zero; ignored as well */
    int64_t columns[NB_COLUMNS_MOST]; /**< the integers of the columns */
} nb_row;

/** What the integer of a column is. */
typedef enum nb_rule {
    NB_NUMBER = 0,     /**< the value, in the unit of the column */
    NB_URA_INDEX = 1,  /**< a URA index, 0 to 15; the record has metres */
    NB_SISA_INDEX = 2, /**< a SISA index, 0 to 125, or 255 for none; the record has metres */
    NB_FIT_FLAG = 3,   /**< a fit interval flag; the record has hours */
    NB_SENT_TIME = 4,  /**< a transmission time, s after the start of the week of toe; 999,900,000 if it is not known */
    NB_CONSTANT = 5,   /**< a constant of the record */
    NB_OR_UNKNOWN = 6  /**< as NB_NUMBER; 999,999,999 if it is not known */
} nb_rule;

/** The unit of a column: the value is integer * factor * 2^two * 10^ten. */
typedef struct nb_column {
    uint32_t factor;   /**< an integer factor */
    int32_t two;       /**< the exponent of 2 */
    int32_t ten;       /**< the exponent of 10 */
    uint32_t is_angle; /**< 1 if the value is in semicircles, and the record in radians */
    uint32_t rule;     /**< an nb_rule */
} nb_column;

/**
 * @brief Reads an ephemeris message of any of the kinds above.
 * @param week a week near that of the message, 1024 to 8191
 * @param row  set if NB_OK is returned, otherwise unchanged
 * @return NB_OK, NB_NO_WEEK, NB_NO_NUMBER (fewer than three bytes), NB_OTHER_MESSAGE, NB_SHORT; NB_BAD_SATELLITE or NB_BAD_FIELD for the first
 *         field that is out of its range; NB_SPARE_SISA, NB_BAD_DAY. Bytes after the message are ignored.
 */
nb_status nb_row_from_message(const uint8_t *payload, size_t n, uint32_t week, nb_row *row);

/**
 * @brief Makes the frame of the message of a row: 51 to 70 bytes. Reserved bits are 0; message 1020 has no additional data.
 * @param used set to its size, which may be more than the buffer: the prefix that fits is written
 * @return NB_OK; NB_NO_ITEM as nb_row_rinex(); or the first that applies of NB_RECORD_WEEK, NB_RECORD_STEP and NB_RECORD_FAR, by its epoch;
 *         NB_BAD_SENT and NB_BAD_DAY, for message 1020; NB_BAD_SATELLITE or NB_BAD_FIELD for the first field whose number is out of its
 *         range; NB_SPARE_SISA. Without NB_OK nothing is written, and the size is 0
 */
nb_status nb_row_message(const nb_row *row, uint8_t *frame, size_t room, size_t *used);

/**
 * @brief Writes the record of a row, of RINEX 4.01: its lines, each with LF.
 * @param used set to its length, at most 704 bytes, which may be more than the buffer: the prefix that fits is written
 * @return NB_OK; or NB_NO_ITEM if a column is out of its range, if there are more or fewer columns, or if no kind has such messages: then
 *         nothing is written, and the length is 0
 */
nb_status nb_row_rinex(const nb_row *row, uint8_t *text, size_t room, size_t *used);

/**
 * @brief Returns the unit of a column of a row of this message and satellite.
 * @param index  from 0
 * @param column set if NB_OK is returned, otherwise unchanged
 * @return NB_OK, or NB_NO_ITEM if there is no such column
 */
nb_status nb_row_column(const nb_row *row, uint32_t index, nb_column *column);

/** The name of a column of a row of this message, such as "af0"; "" if there is no such column. Never NULL, and not to be released. */
const char *nb_row_name(const nb_row *row, uint32_t index);

/**@}*/

/** @name LNAV subframes (IS-GPS-200, 20.3) */
/**@{*/

/** The 300 bits of a subframe, most significant bit first, each word with its parity; the last four bits are ignored. */
typedef struct nb_subframe_bits {
    uint8_t bytes[38]; /**< the bytes */
} nb_subframe_bits;

/** The content of a subframe. Fields that its number does not have are ignored, and left unchanged. */
typedef struct nb_subframe {
    uint32_t number;     /**< 1 to 3, or 4 for page 18 of subframe 4 */
    uint32_t wn;         /**< week number modulo 1024, of subframe 1: 10 bits */
    uint32_t second;     /**< transmission time, s of the week, of subframes 1 and 4; ignored when a subframe is written */
    nb_gps_clock clock;  /**< of subframe 1 */
    nb_gps_side side;    /**< of subframe 1 */
    nb_gps_orbit_a a;    /**< of subframe 2 */
    uint32_t fit;        /**< fit interval flag, of subframe 2: 1 bit */
    nb_gps_orbit_b b;    /**< of subframe 3 */
    nb_gps_ion ion;      /**< of page 18 of subframe 4 */
} nb_subframe;

/**
 * @brief Reads a subframe; one with inverted polarity is inverted first.
 * @param satellite the GPS satellite that sent it, 1 to 32
 * @param subframe  set if NB_OK is returned, otherwise unchanged
 * @return NB_OK, NB_NO_SATELLITE, or the first of NB_SUBFRAME_PREAMBLE, NB_SUBFRAME_PARITY_1 to NB_SUBFRAME_PARITY_10,
 *         NB_SUBFRAME_TOW, NB_SUBFRAME_UNUSED and NB_SUBFRAME_TIME that applies
 */
nb_status nb_subframe_read(const nb_subframe_bits *bits, uint32_t satellite, nb_subframe *subframe);

/**
 * @brief Makes the bits of a subframe: TLM message, flags and reserved bits 0, the last four bits 0.
 * @param tow_count the start of the next subframe, in units of 6 s from the start of the week: 0 to 100,799
 * @param bits      set if NB_OK is returned, otherwise unchanged
 * @return NB_OK, NB_NO_TOW_COUNT or NB_NO_ITEM
 */
nb_status nb_subframe_write(const nb_subframe *subframe, uint32_t tow_count, nb_subframe_bits *bits);

/**
 * @brief Makes the ephemeris of subframes 1, 2 and 3, in this order. Its transmission time is that of subframe 1, and its week that in
 *        which toe is nearest to this time.
 * @param subframes the contents of the three, of one satellite and one issue: IODE of subframes 2 and 3 is the low 8 bits of IODC
 * @param satellite the GPS satellite that sent them, 1 to 32
 * @param week      a week near that of subframe 1, 1024 to 8191: the subframe has it modulo 1024
 * @param item      set if NB_OK is returned, otherwise unchanged
 * @return NB_OK, or the first of NB_NO_WEEK, NB_NO_SATELLITE and NB_NO_ITEM that applies
 */
nb_status nb_subframes_join(const nb_subframe *subframes, uint32_t satellite, uint32_t week, nb_item *item);

/**@}*/

/** @name I/NAV pages (Galileo OS SIS ICD, 4.3.2 and 4.3.5) */
/**@{*/

/** The two parts of a page, 120 bits each, most significant bit first. */
typedef struct nb_page_bits {
    uint8_t even[15]; /**< the even part, sent first */
    uint8_t odd[15];  /**< the odd part, sent one second later */
} nb_page_bits;

/** The content of the word of a page. Fields that its type does not have are ignored, and left unchanged. */
typedef struct nb_word {
    uint32_t number;      /**< the word type, 1 to 5 */
    uint32_t wn;          /**< Galileo week number modulo 4096, of word type 5: 12 bits */
    uint32_t second;      /**< transmission time, s of the week, of word type 5: 0 to 604,799 */
    nb_gal_word1 w1;      /**< of word type 1 */
    nb_gal_word2 w2;      /**< of word type 2 */
    nb_gal_word3 w3;      /**< of word type 3 */
    nb_gal_word4 w4;      /**< of word type 4 */
    nb_gal_health health; /**< of word type 5 */
    nb_gal_ion ion;       /**< of word type 5 */
} nb_word;

/**
 * @brief Reads the word of a page. Tail bits, and the eight bits after the CRC, are ignored.
 * @param satellite the Galileo satellite that sent it, 1 to 36
 * @param word      set if NB_OK is returned, otherwise unchanged
 * @return NB_OK, NB_NO_SATELLITE, or the first of NB_PAGE_ALERT, NB_PAGE_NO_PAIR, NB_PAGE_CRC, NB_WORD_UNUSED,
 *         NB_WORD_SATELLITE, NB_WORD_TIME and NB_WORD_SISA that applies
 */
nb_status nb_page_read(const nb_page_bits *page, uint32_t satellite, nb_word *word);

/**
 * @brief Makes the page of a word: nominal, reserved and tail bits 0.
 * @param satellite the Galileo satellite that sends it, 1 to 36; word type 4 names it
 * @param page      set if NB_OK is returned, otherwise unchanged
 * @return NB_OK, NB_NO_SATELLITE or NB_NO_ITEM
 */
nb_status nb_page_write(const nb_word *word, uint32_t satellite, nb_page_bits *page);

/**
 * @brief Makes the ephemeris of words 1 to 5, in this order. Its transmission time is that of word 5, and its week that in which toe
 *        is nearest to this time.
 * @param words     the contents of the five, of one satellite, words 1 to 4 of one issue
 * @param satellite the Galileo satellite that sent them, 1 to 36
 * @param week      a week near that of word 5, 1024 to 8191: the word has it modulo 4096
 * @param item      set if NB_OK is returned, otherwise unchanged
 * @return NB_OK, or the first of NB_NO_WEEK, NB_NO_SATELLITE and NB_NO_ITEM that applies
 */
nb_status nb_words_join(const nb_word *words, uint32_t satellite, uint32_t week, nb_item *item);

/**@}*/

/** @name I/NAV page parts, joined to pages (Galileo OS SIS ICD, 4.3.2)
 * A receiver gets the two parts of a page one second apart, of many satellites at once, some twice, some not at all. Page parts
 * wait here for their partners: a part of the same satellite and signal and of the other kind, the odd one a second after the
 * even one, with which the CRC is right. They are in memory of the caller, and allocate more by malloc.
 *
 *     nb_pages_init(&it, 60);
 *     for each part that is received:
 *         if (nb_pages_take(&it, part, stamp, satellite, NB_E1B) == NB_OK)
 *             while (nb_pages_next(&it, &joined)) nb_page_read(&joined.page, satellite, &word);
 *     nb_pages_close(&it);
 */
/**@{*/

/** The most bytes that page parts need; nb_pages_size() returns the number. */
#define NB_PAGES_MOST 1024

/** Memory for page parts, initialised by nb_pages_init() (zeroed memory is not), and used by the calls below only, one at a time.
 * Between two calls it may be moved by memcpy. */
typedef union nb_pages {
    uint64_t aligned;            /**< so that it is aligned */
    uint8_t room[NB_PAGES_MOST]; /**< private bytes of the library */
} nb_pages;

/** The signal on which a part was received. */
typedef enum nb_signal {
    NB_E1B = 1, /**< E1-B */
    NB_E5B = 2  /**< E5b-I */
} nb_signal;

/** A page whose parts belong together. */
typedef struct nb_joined {
    nb_page_bits page; /**< its parts as received, with reserved and tail bits 0 */
    uint32_t stamp;    /**< the time tag of its odd part */
} nb_joined;

/** The bytes that page parts need, at most NB_PAGES_MOST, for programs without this header. */
size_t nb_pages_size(void);

/**
 * @brief Initialises this memory, whatever its content.
 * @param window in seconds, 60 to 14,400; less is taken as 60, more as 14,400. A part is retained while its time tag is at most
 *               the window and one second below the greatest.
 */
void nb_pages_init(nb_pages *at, uint32_t window);

/**
 * @brief Takes a part, in any order with the others. Pages of the part before that were not fetched are dropped.
 * @param part      its 120 bits, 15 bytes, most significant bit first
 * @param stamp     the time tag: when it was received, in seconds of any clock that does not jump. After one
 *                  far in the future the parts before the window find no partner, until nb_pages_init() is called again
 * @param satellite the Galileo satellite that sent it, 1 to 36
 * @param signal    an nb_signal
 * @return NB_OK; or the first of NB_NO_SATELLITE, NB_PAGE_ALERT, NB_NO_SIGNAL and NB_NO_MEMORY that applies, and then
 *         nothing is changed
 */
nb_status nb_pages_take(nb_pages *at, const uint8_t *part, uint32_t stamp, uint32_t satellite, uint32_t signal);

/**
 * @brief Returns the next page of the last part and its partners: none if there is no partner yet, or if the same part was
 *        taken before; several if several parts are partners.
 * @param page set if there is one
 * @return 1, or 0 if there is none
 */
uint32_t nb_pages_next(nb_pages *at, nb_joined *page);

/** Releases all memory of the parts: none is retained, and the window is 60 seconds. */
void nb_pages_close(nb_pages *at);

/**@}*/

/** @name RINEX navigation files */
/**@{*/

/**
 * @brief Reads one record: its lines, with LF or CR LF. Lines after the last of its kind, and columns after the 80th, are
 *        ignored.
 * @param version 4 for RINEX 4, where the record begins with the line that begins with `>`; 3 for RINEX 3, without it
 * @param item    set if NB_OK is returned, otherwise unchanged
 * @return NB_OK; NB_NO_VERSION; NB_RECORD_PASSED_OVER; or the first of NB_RECORD_SATELLITE to NB_RECORD_FAR that is found, in
 *         this order: satellite, number of lines, the same satellite in the line of the date, date, numbers, epoch
 */
nb_status nb_record_read(const uint8_t *text, size_t n, uint32_t version, nb_item *item);

/**
 * @brief Writes the record of an item: its lines, each with LF.
 * @param version 4 for RINEX 4.01, with the line that begins with `>`; 3 for RINEX 3.05, without it
 * @param used    set to the length of the record, at most 704 bytes, which may be more than the buffer: the prefix that fits is written.
 *                Ionospheric parameters have no record in version 3, and the length is 0
 * @return NB_OK, NB_NO_VERSION or NB_NO_ITEM; without NB_OK nothing is written, and the length is 0
 */
nb_status nb_record_write(const nb_item *item, uint32_t version, uint8_t *text, size_t room, size_t *used);

/** The variable content of the header of a file. */
typedef struct nb_header {
    uint8_t date[19]; /**< when the file was made, as strftime() writes it by "%Y%m%d %H%M%S UTC"; no terminating zero */
    uint8_t leap;     /**< leap seconds between UTC and GPS time: 0 to 99 */
} nb_header;

/**
 * @brief Writes the header of a file: its lines, each with LF, up to END OF HEADER.
 * @param version 4 for RINEX 4.01, 3 for RINEX 3.05
 * @param used    set to the length of the header, 308 bytes, which may be more than the buffer: the prefix that fits is written
 * @return NB_OK, NB_NO_VERSION or NB_NO_HEADER; without NB_OK nothing is written, and the length is 0
 */
nb_status nb_header_write(const nb_header *header, uint32_t version, uint8_t *text, size_t room, size_t *used);

/**
 * @brief Finds the end of the header in the first bytes of a file.
 * @return how many bytes it has, with the line END OF HEADER, whatever follows; 0 if no complete line of these is that line.
 *         Version and type of the file are not looked at.
 */
size_t nb_header_size(const uint8_t *text, size_t n);

/**
 * @brief Finds the end of the record at the start of these bytes of a file, which may be the first of more.
 *
 *     for (at = nb_header_size(text, n); (size = nb_record_size(text + at, n - at, 4, is_end)) > 0; at += size)
 *         if (nb_record_read(text + at, size, 4, &item) == NB_OK) use the item;
 *     read more after the n - at bytes that are left
 *
 * @param text   bytes from the end of the header, or of a record, on
 * @param n      how many
 * @param is_end whether the file ends with them
 * @return how many bytes the record has: its first line, and the lines up to the next that begins a record (in version 4 with `>`,
 *         in version 3 with a first column that is not blank), or up to the end. 0 if a further complete line may still have to come, if n
 *         is 0, or if the version is neither 3 nor 4.
 */
size_t nb_record_size(const uint8_t *text, size_t n, uint32_t version, bool is_end);

/**@}*/

/** @name Frames of a stream
 * A deframer finds the frames in bytes that come in pieces of any size. A frame may begin at each byte D3: if it is complete and
 * its checksum right, the search continues after it, otherwise at the next byte. It is in memory of the caller, allocates
 * nothing, and needs no call at its end.
 *
 *     nb_deframer_init(&it);
 *     for (;;) {
 *         size_t n = read some bytes, at = 0;
 *         if (n == 0) nb_deframer_finish(&it);
 *         do {
 *             at += nb_deframer_feed(&it, bytes + at, n - at);
 *             while ((size = nb_deframer_next(&it, frame, sizeof frame)) > 0) use the frame;
 *         } while (at < n);
 *         if (n == 0) break;
 *     }
 */
/**@{*/

/** The most bytes that a deframer needs; nb_deframer_size() returns the number. */
#define NB_DEFRAMER_MOST 24576

/** Memory for a deframer, initialised by nb_deframer_init() (zeroed memory is not), and used by the calls below only, one at a
 * time. Between two calls it may be moved by memcpy. */
typedef union nb_deframer {
    uint64_t aligned;               /**< so that it is aligned */
    uint8_t room[NB_DEFRAMER_MOST]; /**< private bytes of the library */
} nb_deframer;

/** The bytes that a deframer needs, at most NB_DEFRAMER_MOST, for programs without this header. */
size_t nb_deframer_size(void);

/** Initialises this memory, whatever its content. It needs 36 KB of stack. */
void nb_deframer_init(nb_deframer *at);

/**
 * @brief Feeds bytes from the start of a piece.
 * @return how many were taken: at least one; none if n is 0, if nb_deframer_next() has a frame to return, and after
 *         nb_deframer_finish().
 */
size_t nb_deframer_feed(nb_deframer *at, const uint8_t *bytes, size_t n);

/**
 * @brief Returns the next frame of the bytes so far, and drops the bytes up to its end.
 * @param frame a buffer, which should have NB_FRAME_MOST bytes: it gets the prefix that fits
 * @return its size, 6 to 1,029. 0 if no frame is decided: the bytes that are left are none or begin with an incomplete frame.
 *         After nb_deframer_finish() 0 means that there is no further frame.
 */
size_t nb_deframer_next(nb_deframer *at, uint8_t *frame, size_t room);

/** Ends the input: a frame that is incomplete stays so, and the bytes after its first are searched. */
void nb_deframer_finish(nb_deframer *at);

/**@}*/

/** @name Conversions whose input is pushed
 * What nb_convert() does, for an input that comes in pieces of any size: a capture (`--from=capture`) to any target, a stream
 * (`--from=stream`) to RINEX or to frames of its ephemerides. It is in memory of the caller. Its output and report are taken as they
 * come, into buffers of any size, and released: of each it retains at most twice what was not taken.
 *
 *     status = nb_push_open(&it, words, n_words);
 *     while (status == NB_OK) {
 *         size_t n = read some bytes;
 *         status = n > 0 ? nb_push(&it, bytes, n) : nb_push_finish(&it);
 *         while ((size = nb_push_take(&it, room, sizeof room)) > 0) use the output;
 *         while ((size = nb_push_take_report(&it, room, sizeof room)) > 0) use the report;
 *         if (n == 0) break;
 *     }
 *     nb_push_close(&it);
 *
 * Whatever the pieces, the output up to the end is that of nb_convert() for the complete input. Before the end it is what the
 * bytes decide, whatever follows: the record of an ephemeris of a stream is available as soon as its frame is complete, that of
 * a capture as soon as its issue is closed.
 */
/**@{*/

/** The most bytes that a conversion needs; nb_push_size() returns the number. */
#define NB_PUSH_MOST 65536

/** Memory for a conversion, initialised by nb_push_open() (zeroed memory is not), and used by the calls below only, one at a time.
 * Between two calls it may be moved by memcpy. */
typedef union nb_push_state {
    uint64_t aligned;           /**< so that it is aligned */
    uint8_t room[NB_PUSH_MOST]; /**< private bytes of the library */
} nb_push_state;

/** The bytes that a conversion needs, at most NB_PUSH_MOST, for programs without this header. */
size_t nb_push_size(void);

/**
 * @brief Initialises this memory, whatever its content, and opens the conversion that the arguments name. Call nb_push_close() at
 *        its end, whatever was returned, and before it is opened again: it has allocated memory.
 * @param words   the arguments, as for nb_convert()
 * @param n_words how many
 * @return NB_OK, NB_NO_JOB, NB_NO_MEMORY, NB_NO_TEXT or NB_NOT_PUSHED
 */
nb_status nb_push_open(nb_push_state *at, const nb_bytes *words, size_t n_words);

/**
 * @brief Pushes the next bytes of the input.
 * @return NB_OK; NB_NOT_THIS_FORM if the first line of a capture is rejected; NB_NO_MEMORY, after which output and report are a
 *         prefix of those of the complete input; NB_TOO_LONG if a capture has 2^32 bytes, or a stream 2^64. After any code but
 *         NB_OK, also of nb_push_open(), each further call returns it; NB_ENDED after nb_push_finish(), NB_CLOSED after
 *         nb_push_close().
 */
nb_status nb_push(nb_push_state *at, const uint8_t *bytes, size_t n);

/**
 * @brief Ends the input: an incomplete frame may contain complete ones, a last line may lack its end, the open issues of a capture
 *        are closed, and the report ends with the counts.
 * @return NB_OK; NB_NOT_THIS_FORM or NB_NO_MEMORY as nb_push(). After any code but NB_OK of nb_push_open() or nb_push(), also
 *         after NB_TOO_LONG, it returns that code; NB_ENDED after nb_push_finish(), NB_CLOSED after nb_push_close().
 */
nb_status nb_push_finish(nb_push_state *at);

/** Writes the next bytes of the output, as many as are available and fit, and returns how many. */
size_t nb_push_take(nb_push_state *at, uint8_t *room, size_t n);

/** The same of the report. */
size_t nb_push_take_report(nb_push_state *at, uint8_t *room, size_t n);

/** Releases all memory of the conversion. Output and report that were not taken are lost. */
void nb_push_close(nb_push_state *at);

/**@}*/

/** @name Sizes
 * What the library was built for; a compiler that lays these out otherwise stops here. */
/**@{*/
typedef char nb_check_status[sizeof(nb_status) == 4 ? 1 : -1];
typedef char nb_check_bytes[sizeof(nb_bytes) == 16 && sizeof(size_t) == 8 && offsetof(nb_bytes, size) == 8 ? 1 : -1];
typedef char nb_check_sent[sizeof(nb_sent) == 8 ? 1 : -1];
typedef char nb_check_gps[sizeof(nb_gps) == 132 && offsetof(nb_gps, clock) == 16 && offsetof(nb_gps, fit) == 128 ? 1 : -1];
typedef char nb_check_gal[sizeof(nb_gal) == 140 && offsetof(nb_gal, w1) == 16 && offsetof(nb_gal, health) == 116 ? 1 : -1];
typedef char nb_check_ion[sizeof(nb_ion) == 64 && offsetof(nb_ion, gps) == 12 && offsetof(nb_ion, gal) == 44 ? 1 : -1];
typedef char nb_check_deframer[sizeof(nb_deframer) == NB_DEFRAMER_MOST ? 1 : -1];
typedef char nb_check_pages[sizeof(nb_pages) == NB_PAGES_MOST && sizeof(nb_joined) == 36 && offsetof(nb_joined, stamp) == 32 ? 1 : -1];
typedef char nb_check_push[sizeof(nb_push_state) == NB_PUSH_MOST ? 1 : -1];
typedef char nb_check_item[sizeof(nb_item) == 344 && offsetof(nb_item, gal) == 136 && offsetof(nb_item, ion) == 280 ? 1 : -1];
typedef char nb_check_subframe[sizeof(nb_subframe) == 160 && offsetof(nb_subframe, ion) == 128 ? 1 : -1];
typedef char nb_check_subframe_bits[sizeof(nb_subframe_bits) == 38 ? 1 : -1];
typedef char nb_check_row[sizeof(nb_row) == 352 && offsetof(nb_row, letter) == 20 && offsetof(nb_row, columns) == 32 ? 1 : -1];
typedef char nb_check_column[sizeof(nb_column) == 20 && offsetof(nb_column, rule) == 16 ? 1 : -1];
typedef char nb_check_header[sizeof(nb_header) == 20 && offsetof(nb_header, leap) == 19 ? 1 : -1];
typedef char nb_check_word[sizeof(nb_word) == 152 && offsetof(nb_word, ion) == 136 ? 1 : -1];
typedef char nb_check_page_bits[sizeof(nb_page_bits) == 30 && offsetof(nb_page_bits, odd) == 15 ? 1 : -1];
/**@}*/

/** The word of a subframe, 1 to 10, whose parity is wrong by a status of nb_subframe_read(); 0 by any other. */
static inline uint32_t nb_parity_word(uint32_t status) {
    return status >= NB_SUBFRAME_PARITY_1 && status <= NB_SUBFRAME_PARITY_10 ? status - NB_SUBFRAME_PARITY_1 + 1 : 0;
}

/** How many bytes the frame has that begins here, as its header states: 0 if these bytes do not begin with D3, and 3 if
 * they are fewer than its header. */
static inline size_t nb_frame_wanted(const uint8_t *bytes, size_t n) {
    size_t length;
    if (n == 0 || bytes[0] != 0xD3) return 0;
    if (n < 3) return 3;
    length = bytes[1] & 3u;
    return length * 256 + bytes[2] + 6;
}

/** @name Doubles
 * Scaled by powers of two, which is exact, and angles by one more product, which rounds once. */
/**@{*/

/** The ratio of a circle's circumference to its diameter, as the standards give it. */
#define NB_PI 3.1415926535898

#ifdef __cplusplus
#define NB_CAST(type, it) static_cast<type>(it)
#else
#define NB_CAST(type, it) ((type)(it))
#endif

/** The value of the integer of a column in its unit, angles in radians. */
static inline double nb_column_value(const nb_column *column, int64_t integer) {
    const double scaled = ldexp(NB_CAST(double, integer) * column->factor, column->two) * (column->is_angle ? NB_PI : 1);
    return column->ten < 0 ? scaled / pow(10, -column->ten) : scaled * pow(10, column->ten);
}

/** An orbit and its clock in SI units, angles in radians. */
typedef struct nb_orbit {
    double toe;       /**< time of the ephemeris, s of the week toe_week */
    double toc;       /**< time of the clock's data, s of that week; below 0 or from 604,800 on in the week before or after */
    double af0;       /**< clock bias, s */
    double af1;       /**< clock drift, s/s */
    double af2;       /**< clock drift rate, s/s^2 */
    double group[2];  /**< group delays, s: of GPS TGD and 0; of Galileo BGD of E1 and E5a, and of E1 and E5b */
    double root_a;    /**< square root of the semi-major axis, m^(1/2) */
    double e;         /**< eccentricity */
    double m0;        /**< mean anomaly at toe, rad */
    double delta_n;   /**< correction to the mean motion, rad/s */
    double omega0;    /**< longitude of the ascending node at the start of the week, rad */
    double i0;        /**< inclination at toe, rad */
    double omega;     /**< argument of perigee, rad */
    double omega_dot; /**< rate of the right ascension, rad/s */
    double idot;      /**< rate of the inclination, rad/s */
    double crs;       /**< sine correction to the orbit's radius, m */
    double crc;       /**< cosine correction to the orbit's radius, m */
    double cus;       /**< sine correction to the argument of latitude, rad */
    double cuc;       /**< cosine correction to the argument of latitude, rad */
    double cis;       /**< sine correction to the inclination, rad */
    double cic;       /**< cosine correction to the inclination, rad */
} nb_orbit;

/** The time of the clock's data that is at most half a week from toe; both in s of a week. */
static inline double nb_near(double toc, double toe) {
    return toc - toe > 302400 ? toc - 604800 : toc - toe < -302400 ? toc + 604800 : toc;
}

/** The orbit of an ephemeris of GPS. */
static inline nb_orbit nb_orbit_of_gps(const nb_gps *g) {
    nb_orbit o;
    o.toe = 16.0 * g->a.toe;
    o.toc = nb_near(16.0 * g->clock.toc, o.toe);
    o.af0 = ldexp(g->clock.af0, -31);
    o.af1 = ldexp(g->clock.af1, -43);
    o.af2 = ldexp(g->clock.af2, -55);
    o.group[0] = ldexp(g->clock.tgd, -31);
    o.group[1] = 0;
    o.root_a = ldexp(g->a.root_a, -19);
    o.e = ldexp(g->a.e, -33);
    o.m0 = ldexp(g->a.m0, -31) * NB_PI;
    o.delta_n = ldexp(g->a.delta_n, -43) * NB_PI;
    o.omega0 = ldexp(g->b.omega0, -31) * NB_PI;
    o.i0 = ldexp(g->b.i0, -31) * NB_PI;
    o.omega = ldexp(g->b.omega, -31) * NB_PI;
    o.omega_dot = ldexp(g->b.omega_dot, -43) * NB_PI;
    o.idot = ldexp(g->b.idot, -43) * NB_PI;
    o.crs = ldexp(g->a.crs, -5);
    o.crc = ldexp(g->b.crc, -5);
    o.cus = ldexp(g->a.cus, -29);
    o.cuc = ldexp(g->a.cuc, -29);
    o.cis = ldexp(g->b.cis, -29);
    o.cic = ldexp(g->b.cic, -29);
    return o;
}

/** The orbit of an ephemeris of Galileo. */
static inline nb_orbit nb_orbit_of_gal(const nb_gal *g) {
    nb_orbit o;
    o.toe = 60.0 * g->w1.toe;
    o.toc = nb_near(60.0 * g->w4.toc, o.toe);
    o.af0 = ldexp(g->w4.af0, -34);
    o.af1 = ldexp(g->w4.af1, -46);
    o.af2 = ldexp(g->w4.af2, -59);
    o.group[0] = ldexp(g->health.bgd_a, -32);
    o.group[1] = ldexp(g->health.bgd_b, -32);
    o.root_a = ldexp(g->w1.root_a, -19);
    o.e = ldexp(g->w1.e, -33);
    o.m0 = ldexp(g->w1.m0, -31) * NB_PI;
    o.delta_n = ldexp(g->w3.delta_n, -43) * NB_PI;
    o.omega0 = ldexp(g->w2.omega0, -31) * NB_PI;
    o.i0 = ldexp(g->w2.i0, -31) * NB_PI;
    o.omega = ldexp(g->w2.omega, -31) * NB_PI;
    o.omega_dot = ldexp(g->w3.omega_dot, -43) * NB_PI;
    o.idot = ldexp(g->w2.idot, -43) * NB_PI;
    o.crs = ldexp(g->w3.crs, -5);
    o.crc = ldexp(g->w3.crc, -5);
    o.cus = ldexp(g->w3.cus, -29);
    o.cuc = ldexp(g->w3.cuc, -29);
    o.cis = ldexp(g->w4.cis, -29);
    o.cic = ldexp(g->w4.cic, -29);
    return o;
}

/** The raw integer nearest to a double at a scale of 2^-bits: of an angle divide by NB_PI first. It returns what the
 * functions above made a double of. A number past 2^62 is 2^62, which no field has: nb_raw_signed() and nb_raw_unsigned() test this. */
static inline int64_t nb_raw(double value, int bits) {
    const int64_t most = 4611686018427387904;
    double scaled = ldexp(value, bits);
    return scaled > -4611686018427387904.0 && scaled < 4611686018427387904.0 ? llround(scaled) : most;
}

/** Sets the raw integer nearest to a double at a scale of 2^-bits for a signed field of this width, 1 to 32 bits.
 * @return whether the field can hold it; otherwise, also for a double that is no number, the integer is unchanged */
static inline bool nb_raw_signed(double value, int bits, int width, int32_t *raw) {
    const int64_t nearest = nb_raw(value, bits), one = 1, half = one << (width - 1);
    if (nearest < -half || nearest >= half) return false;
    *raw = NB_CAST(int32_t, nearest);
    return true;
}

/** The same for an unsigned field. */
static inline bool nb_raw_unsigned(double value, int bits, int width, uint32_t *raw) {
    const int64_t nearest = nb_raw(value, bits), one = 1;
    if (nearest < 0 || nearest >= one << width) return false;
    *raw = NB_CAST(uint32_t, nearest);
    return true;
}

#undef NB_CAST

/**@}*/

#ifdef __cplusplus
}
#endif

#endif
