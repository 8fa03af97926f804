// The header as C++ takes it: a status is an nb_status, and nothing in it warns. It is compiled alone, by each standard.
#include "navbridge.h"

static const uint8_t bytes[] = {0xD3, 0x03, 0xFF};
static_assert(NB_SUBFRAME_PARITY_10 == 58, "a word's parity has a number");

int main() {
    static nb_push_state job;
    static nb_pages parts;
    nb_item item = nb_item();
    nb_subframe subframe = nb_subframe();
    nb_subframe_bits bits = nb_subframe_bits();
    nb_word word = nb_word();
    nb_page_bits page = nb_page_bits();
    size_t used = 0;
    nb_status each[] = {
        nb_convert(nullptr, 0, nullptr, 0, nullptr, 0, &used, nullptr, 0, &used),
        nb_message_read(bytes, sizeof bytes, 2295, &item),
        nb_message_write(&item, nullptr, 0, &used),
        nb_subframe_read(&bits, 1, &subframe),
        nb_subframe_write(&subframe, 0, &bits),
        nb_page_read(&page, 1, &word),
        nb_page_write(&word, 1, &page),
        nb_pages_take(&parts, page.even, 0, 1, NB_E1B),
        nb_record_read(bytes, sizeof bytes, 4, &item),
        nb_record_write(&item, 4, nullptr, 0, &used),
        nb_push_open(&job, nullptr, 0),
        nb_push(&job, bytes, sizeof bytes),
        nb_push_finish(&job),
    };
    nb_orbit orbits[] = {nb_orbit_of_gps(&item.gps), nb_orbit_of_gal(&item.gal)};
    return each[0] == NB_OK && nb_parity_word(each[3]) == 0 && nb_frame_wanted(bytes, sizeof bytes) == NB_FRAME_MOST
        && nb_raw(orbits[0].m0 / NB_PI, 31) == 0 && orbits[1].e < 1;
}
