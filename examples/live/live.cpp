// A live stream of RTCM 3 on standard input: for each ephemeris, as soon as its frame is complete, a line on standard error and its RINEX record
// on standard output. Its argument is a week near that of the stream; without it, that of the clock.
//
//   c++ -std=c++17 -o live live.cpp $(pkg-config --cflags --libs navbridge)
#include <algorithm>
#include <cstdio>
#include <cstdlib>
#include <ctime>
#include <iostream>
#include <unistd.h>

#include <navbridge.hpp>

int main(int argc, char **argv) {
    const std::time_t now = std::time(nullptr);
    const std::uint32_t week = argc > 1 ? static_cast<std::uint32_t>(std::strtoul(argv[1], nullptr, 10))
                                        : navbridge::week_of_unix(static_cast<std::uint64_t>(now));
    nb_header header{};
    char date[20];
    std::strftime(date, sizeof date, "%Y%m%d %H%M%S UTC", std::gmtime(&now));
    std::copy(date, date + sizeof header.date, header.date);
    header.leap = 18;
    std::cout << *navbridge::header_write(header) << std::flush;

    const auto use = [week](navbridge::bytes frame) {
        const auto item = navbridge::frame_read(frame, week);
        if (item.status() == NB_NO_NUMBER || item.status() == NB_OTHER_MESSAGE) return;
        if (!item) {
            std::fprintf(stderr, "rejected: %s\n", item.what());
            return;
        }
        const bool is_gps = item->kind == NB_GPS;
        const nb_orbit orbit = is_gps ? nb_orbit_of_gps(&item->gps) : nb_orbit_of_gal(&item->gal);
        std::fprintf(stderr, "%c%02u toe %.0f e %.9f\n", is_gps ? 'G' : 'E', is_gps ? item->gps.satellite : item->gal.satellite, orbit.toe, orbit.e);
        std::cout << *navbridge::record_write(*item) << std::flush;
    };
    navbridge::deframer frames;
    std::uint8_t piece[4096];
    for (ssize_t size; std::cout && (size = read(STDIN_FILENO, piece, sizeof piece)) > 0;)
        frames.feed({piece, static_cast<std::size_t>(size)}, use);
    frames.finish(use);
    return std::cout ? 0 : 1;
}
