// navbridge.hpp over the examples: what is read is written as it was, and pieces give what the whole gives.
//
//   values STREAM RECORDS     ephemerides.rtcm3, and what navbridge makes of it by --to=rinex --week=2295 with this date and leap
#include <cstdio>
#include <cstring>
#include <fstream>
#include <iterator>

#include "navbridge.hpp"

static int wrong = 0;
static void want(bool holds, const char *what) {
    if (holds) return;
    std::printf("wrong: %s\n", what);
    wrong = 1;
}
static std::string read(const char *name) {
    std::ifstream file(name, std::ios::binary);
    return std::string(std::istreambuf_iterator<char>(file), {});
}
static_assert(!std::is_copy_constructible_v<navbridge::push> && std::is_nothrow_move_constructible_v<navbridge::push>);
static_assert(!std::is_copy_constructible_v<navbridge::deframer> && !std::is_copy_constructible_v<navbridge::pages>);

int main(int count, char **names) {
    if (count != 3) return 2;
    const std::string stream = read(names[1]), records = read(names[2]);
    const std::vector<std::string_view> words = {"--from=stream", "--to=rinex", "--week=2295", "--date=20240101 000000 UTC", "--leap=18"};
    const auto whole = navbridge::convert(words, stream);
    want(whole && whole->output == records, "convert");
    want(navbridge::convert({"--from=nothing"}, stream).status() == NB_NO_JOB, "no job");
    want(navbridge::push::open({"--from=rinex", "--to=list"}).status() == NB_NOT_PUSHED, "a job that is not pushed");
    const auto none = navbridge::message_read(std::string(), 2295);
    want(none.status() == NB_NO_NUMBER && none.what() == std::string_view(nb_status_text(NB_NO_NUMBER)), "no number");
    for (std::size_t size : {std::size_t(1), std::size_t(7), stream.size()}) {
        auto opened = navbridge::push::open(words);
        navbridge::push job = std::move(*opened);
        navbridge::deframer frames;
        std::string output;
        std::size_t found = 0;
        const auto use = [&](navbridge::bytes frame) {
            found++;
            want(navbridge::is_frame(frame), "a frame");
            const navbridge::bytes payload(frame.data() + 3, frame.size() - 6);
            const auto item = navbridge::message_read(payload, 2295);
            want(navbridge::frame_read(frame, 2295).status() == item.status(), "of a frame");
            if (!item) return;
            const auto again = navbridge::message_write(*item);
            want(again && std::string(again->begin(), again->end()) == std::string(frame.begin(), frame.end()), "a frame again");
            const auto record = navbridge::record_write(*item);
            want(record && navbridge::record_read(*record) && records.find(*record) != std::string::npos, "its record");
        };
        for (std::size_t at = 0; at < stream.size(); at += size) {
            const std::string_view piece = std::string_view(stream).substr(at, size);
            want(job.feed(piece) == NB_OK, "pushed");
            output += job.take();
            frames.feed(piece, use);
        }
        frames.finish(use);
        want(job.finish() == NB_OK, "finished");
        output += job.take();
        want(found > 0, "frames");
        want(output == records, "pieces give what the whole gives");
        want(job.take_report() == whole->report, "the report");
    }
    navbridge::pages parts;
    nb_word word{};
    word.number = 1;
    const auto page = navbridge::page_write(word, 1);
    want(bool(page), "a page");
    std::size_t joined = 0;
    const auto count_it = [&](const nb_joined &it) { joined += navbridge::page_read(it.page, 1)->number; };
    want(parts.take(page->odd, 1001, 1, NB_E1B, count_it) == NB_OK && parts.take(page->even, 1000, 1, NB_E1B, count_it) == NB_OK, "parts");
    want(joined == 1, "one page");
    nb_header header{};
    std::memcpy(header.date, "20240101 000000 UTC", sizeof header.date);
    header.leap = 18;
    const auto head = navbridge::header_write(header);
    want(head && records.compare(0, head->size(), *head) == 0, "a header");
    want(navbridge::header_size(records) == head->size(), "its size");
    std::size_t read = 0, size = 0;
    for (std::size_t at = head->size(); at < records.size(); at += size, read++) {
        const std::string_view rest = std::string_view(records).substr(at);
        size = navbridge::record_size(rest, 4, true);
        want(size > 0 && navbridge::record_read(rest.substr(0, size)), "a record of a file");
        if (size == 0) break;
    }
    want(read == 2, "two records");
    const nb_subframe subframes[3] = {};
    const nb_word joinable[5] = {};
    want(navbridge::subframes_join(subframes, 1, 2295).status() == NB_NO_ITEM, "no subframes");
    want(navbridge::words_join(joinable, 37, 2295).status() == NB_NO_SATELLITE, "no words");
    want(navbridge::week_of_unix(1704067200) == 2295, "a week");
    return wrong;
}
