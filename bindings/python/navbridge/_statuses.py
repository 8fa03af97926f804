"""The statuses of the library. Made by bindings/abi.sh --write of navbridge.h."""

import enum


class Status(enum.IntEnum):
    """The statuses of the library, as navbridge.h names them."""

    OK = 0  # all was done
    NO_JOB = 2  # the arguments name no conversion
    OUTPUT_ROOM = 4  # the output is longer than its buffer
    NOT_THIS_FORM = 5  # the first line of a capture, or the header of a navigation file, is rejected
    NO_MEMORY = 6  # out of memory
    REPORT_ROOM = 7  # the report is longer than its buffer
    TOO_LONG = 8  # the input has 2^32 bytes or more, or a stream that is pushed 2^64
    NO_TEXT = 9  # an argument is not UTF-8
    NOT_PUSHED = 10  # the input of this conversion cannot be pushed
    ENDED = 11  # the input has ended
    CLOSED = 12  # no conversion is open
    NO_NUMBER = 16  # the payload has fewer than two bytes, and so no message number
    OTHER_MESSAGE = 17  # the call does not read messages of this number
    SHORT = 18  # the payload is shorter than its message
    BAD_SATELLITE = 19  # the system of the message has no satellite of its number
    BAD_TIME = 20  # toe or toc is past the end of the week
    SPARE_SISA = 21  # the SISA index is a spare one, 126 to 254
    NO_WEEK = 22  # the reference week is not 1024 to 8191
    NO_ITEM = 23  # the item is not valid: an unknown kind, a field out of its range, or parts of two issues
    NO_VERSION = 24  # the version of navigation files is not 3 or 4
    NO_MESSAGE = 25  # no message carries ionospheric parameters
    NO_FRAME = 26  # the bytes are not one complete frame with a right checksum
    NO_HEADER = 27  # the date of the header has control characters, or the leap seconds are 100 or more
    BAD_FIELD = 28  # a field of the message is out of its range
    BAD_DAY = 29  # the day number of the message is of no day near the reference week, or the row's day has none
    BAD_SENT = 30  # the transmission time of the row is no half minute within twelve hours of its epoch
    RECORD_SATELLITE = 32  # the record has no satellite of its system, or two
    RECORD_SHORT = 33  # the record ends before the last line of its kind
    RECORD_NO_NUMBER = 34  # a number or a part of the date is no number
    RECORD_BLANK = 35  # a column is blank that must not be
    RECORD_RANGE = 36  # a number is out of the range of its field
    RECORD_NO_DATE = 37  # the calendar has no such day, or the clock no such time
    RECORD_WEEK = 38  # the date is in no week from 1 to 16,382
    RECORD_FIT = 39  # the fit interval is 2 or 3 hours, to which no flag corresponds
    RECORD_STEP = 40  # the epoch is no multiple of the step of toc
    RECORD_FAR = 41  # the epoch is not within half a week of toe
    RECORD_PASSED_OVER = 42  # the record is of another kind, which is skipped
    SUBFRAME_PREAMBLE = 48  # the subframe begins neither with the preamble nor with its complement
    SUBFRAME_PARITY_1 = 49  # the parity of word 1 is wrong
    SUBFRAME_PARITY_2 = 50  # the parity of word 2 is wrong
    SUBFRAME_PARITY_3 = 51  # the parity of word 3 is wrong
    SUBFRAME_PARITY_4 = 52  # the parity of word 4 is wrong
    SUBFRAME_PARITY_5 = 53  # the parity of word 5 is wrong
    SUBFRAME_PARITY_6 = 54  # the parity of word 6 is wrong
    SUBFRAME_PARITY_7 = 55  # the parity of word 7 is wrong
    SUBFRAME_PARITY_8 = 56  # the parity of word 8 is wrong
    SUBFRAME_PARITY_9 = 57  # the parity of word 9 is wrong
    SUBFRAME_PARITY_10 = 58  # the parity of word 10 is wrong
    SUBFRAME_TOW = 59  # the TOW count of the subframe is 100,800 or more
    SUBFRAME_UNUSED = 60  # the subframe is neither 1, 2 or 3 nor page 18 of subframe 4
    SUBFRAME_TIME = 61  # toc or toe of the subframe is past the end of the week
    NO_SATELLITE = 62  # the given satellite is not 1 to 32 (GPS) or 1 to 36 (Galileo)
    NO_TOW_COUNT = 63  # the given TOW count is 100,800 or more
    PAGE_ALERT = 65  # a page part is of an alert page
    PAGE_NO_PAIR = 66  # the page parts are not an even one and an odd one
    PAGE_CRC = 67  # the CRC of the page is wrong: a damaged bit, or parts of two pages
    WORD_UNUSED = 68  # the word type is not 1 to 5
    WORD_SATELLITE = 69  # word type 4 names another satellite
    WORD_TIME = 70  # toe, toc or TOW of the word is past the end of the week
    WORD_SISA = 71  # the SISA index of the word is a spare one, 126 to 254
    NO_SIGNAL = 72  # the given signal is no nb_signal
