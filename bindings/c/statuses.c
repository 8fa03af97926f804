/* The names and texts of statuses. Made by bindings/abi.sh --write of navbridge.h. */
#include "navbridge.h"

static const struct {
    nb_status status;
    const char *name, *text;
} statuses[] = {
    {NB_OK, "NB_OK", "all was done"},
    {NB_NO_JOB, "NB_NO_JOB", "the arguments name no conversion"},
    {NB_OUTPUT_ROOM, "NB_OUTPUT_ROOM", "the output is longer than its buffer"},
    {NB_NOT_THIS_FORM, "NB_NOT_THIS_FORM", "the first line of a capture, or the header of a navigation file, is rejected"},
    {NB_NO_MEMORY, "NB_NO_MEMORY", "out of memory"},
    {NB_REPORT_ROOM, "NB_REPORT_ROOM", "the report is longer than its buffer"},
    {NB_TOO_LONG, "NB_TOO_LONG", "the input has 2^32 bytes or more, or a stream that is pushed 2^64"},
    {NB_NO_TEXT, "NB_NO_TEXT", "an argument is not UTF-8"},
    {NB_NOT_PUSHED, "NB_NOT_PUSHED", "the input of this conversion cannot be pushed"},
    {NB_ENDED, "NB_ENDED", "the input has ended"},
    {NB_CLOSED, "NB_CLOSED", "no conversion is open"},
    {NB_NO_NUMBER, "NB_NO_NUMBER", "the payload has fewer than two bytes, and so no message number"},
    {NB_OTHER_MESSAGE, "NB_OTHER_MESSAGE", "the call does not read messages of this number"},
    {NB_SHORT, "NB_SHORT", "the payload is shorter than its message"},
    {NB_BAD_SATELLITE, "NB_BAD_SATELLITE", "the system of the message has no satellite of its number"},
    {NB_BAD_TIME, "NB_BAD_TIME", "toe or toc is past the end of the week"},
    {NB_SPARE_SISA, "NB_SPARE_SISA", "the SISA index is a spare one, 126 to 254"},
    {NB_NO_WEEK, "NB_NO_WEEK", "the reference week is not 1024 to 8191"},
    {NB_NO_ITEM, "NB_NO_ITEM", "the item is not valid: an unknown kind, a field out of its range, or parts of two issues"},
    {NB_NO_VERSION, "NB_NO_VERSION", "the version of navigation files is not 3 or 4"},
    {NB_NO_MESSAGE, "NB_NO_MESSAGE", "no message carries ionospheric parameters"},
    {NB_NO_FRAME, "NB_NO_FRAME", "the bytes are not one complete frame with a right checksum"},
    {NB_NO_HEADER, "NB_NO_HEADER", "the date of the header has control characters, or the leap seconds are 100 or more"},
    {NB_BAD_FIELD, "NB_BAD_FIELD", "a field of the message is out of its range"},
    {NB_BAD_DAY, "NB_BAD_DAY", "the day number of the message is of no day near the reference week, or the row's day has none"},
    {NB_BAD_SENT, "NB_BAD_SENT", "the transmission time of the row is no half minute within twelve hours of its epoch"},
    {NB_RECORD_SATELLITE, "NB_RECORD_SATELLITE", "the record has no satellite of its system, or two"},
    {NB_RECORD_SHORT, "NB_RECORD_SHORT", "the record ends before the last line of its kind"},
    {NB_RECORD_NO_NUMBER, "NB_RECORD_NO_NUMBER", "a number or a part of the date is no number"},
    {NB_RECORD_BLANK, "NB_RECORD_BLANK", "a column is blank that must not be"},
    {NB_RECORD_RANGE, "NB_RECORD_RANGE", "a number is out of the range of its field"},
    {NB_RECORD_NO_DATE, "NB_RECORD_NO_DATE", "the calendar has no such day, or the clock no such time"},
    {NB_RECORD_WEEK, "NB_RECORD_WEEK", "the date is in no week from 1 to 16,382"},
    {NB_RECORD_FIT, "NB_RECORD_FIT", "the fit interval is 2 or 3 hours, to which no flag corresponds"},
    {NB_RECORD_STEP, "NB_RECORD_STEP", "the epoch is no multiple of the step of toc"},
    {NB_RECORD_FAR, "NB_RECORD_FAR", "the epoch is not within half a week of toe"},
    {NB_RECORD_PASSED_OVER, "NB_RECORD_PASSED_OVER", "the record is of another kind, which is skipped"},
    {NB_SUBFRAME_PREAMBLE, "NB_SUBFRAME_PREAMBLE", "the subframe begins neither with the preamble nor with its complement"},
    {NB_SUBFRAME_PARITY_1, "NB_SUBFRAME_PARITY_1", "the parity of word 1 is wrong"},
    {NB_SUBFRAME_PARITY_2, "NB_SUBFRAME_PARITY_2", "the parity of word 2 is wrong"},
    {NB_SUBFRAME_PARITY_3, "NB_SUBFRAME_PARITY_3", "the parity of word 3 is wrong"},
    {NB_SUBFRAME_PARITY_4, "NB_SUBFRAME_PARITY_4", "the parity of word 4 is wrong"},
    {NB_SUBFRAME_PARITY_5, "NB_SUBFRAME_PARITY_5", "the parity of word 5 is wrong"},
    {NB_SUBFRAME_PARITY_6, "NB_SUBFRAME_PARITY_6", "the parity of word 6 is wrong"},
    {NB_SUBFRAME_PARITY_7, "NB_SUBFRAME_PARITY_7", "the parity of word 7 is wrong"},
    {NB_SUBFRAME_PARITY_8, "NB_SUBFRAME_PARITY_8", "the parity of word 8 is wrong"},
    {NB_SUBFRAME_PARITY_9, "NB_SUBFRAME_PARITY_9", "the parity of word 9 is wrong"},
    {NB_SUBFRAME_PARITY_10, "NB_SUBFRAME_PARITY_10", "the parity of word 10 is wrong"},
    {NB_SUBFRAME_TOW, "NB_SUBFRAME_TOW", "the TOW count of the subframe is 100,800 or more"},
    {NB_SUBFRAME_UNUSED, "NB_SUBFRAME_UNUSED", "the subframe is neither 1, 2 or 3 nor page 18 of subframe 4"},
    {NB_SUBFRAME_TIME, "NB_SUBFRAME_TIME", "toc or toe of the subframe is past the end of the week"},
    {NB_NO_SATELLITE, "NB_NO_SATELLITE", "the given satellite is not 1 to 32 (GPS) or 1 to 36 (Galileo)"},
    {NB_NO_TOW_COUNT, "NB_NO_TOW_COUNT", "the given TOW count is 100,800 or more"},
    {NB_PAGE_ALERT, "NB_PAGE_ALERT", "a page part is of an alert page"},
    {NB_PAGE_NO_PAIR, "NB_PAGE_NO_PAIR", "the page parts are not an even one and an odd one"},
    {NB_PAGE_CRC, "NB_PAGE_CRC", "the CRC of the page is wrong: a damaged bit, or parts of two pages"},
    {NB_WORD_UNUSED, "NB_WORD_UNUSED", "the word type is not 1 to 5"},
    {NB_WORD_SATELLITE, "NB_WORD_SATELLITE", "word type 4 names another satellite"},
    {NB_WORD_TIME, "NB_WORD_TIME", "toe, toc or TOW of the word is past the end of the week"},
    {NB_WORD_SISA, "NB_WORD_SISA", "the SISA index of the word is a spare one, 126 to 254"},
    {NB_NO_SIGNAL, "NB_NO_SIGNAL", "the given signal is no nb_signal"},
};

const char *nb_status_name(nb_status status) {
    size_t i;
    for (i = 0; i < sizeof statuses / sizeof *statuses; i++)
        if (statuses[i].status == status) return statuses[i].name;
    return "unknown status";
}

const char *nb_status_text(nb_status status) {
    size_t i;
    for (i = 0; i < sizeof statuses / sizeof *statuses; i++)
        if (statuses[i].status == status) return statuses[i].text;
    return "unknown status";
}
