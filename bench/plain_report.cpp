// The report of an image, as a plain C++ program writes it: the floor that the time of the proved program is held
// against.
//
//     plain_report report [FILE]
//
// It reads the whole image, checks all that the format says and writes the same report, the same faults and the same
// statuses (plain_reading.h), with one write at the end.

#include <cstdio>
#include <cstring>
#include <string>

#include "plain_reading.h"

namespace {

void run(const char* path) {
    std::FILE* file = path == nullptr ? stdin : std::fopen(path, "rb");
    if (file == nullptr) throw plain::Failure{"Read", 4};
    const plain::Words words = plain::words_of(plain::bytes_of(file, plain::kMostBytes));
    if (path != nullptr) std::fclose(file);
    if (const plain::Fault fault = plain::header_fault(words)) throw plain::Failure{std::string("Image ") + fault, 3};
    plain::write_out(stdout, plain::report_of(words));
}

}  // namespace

int main(int count, char** arguments) {
    if (count < 2 || count > 3 || std::strcmp(arguments[1], "report") != 0) {
        std::fprintf(stderr, "plain_report report [FILE]\n");
        return 2;
    }
    return plain::status_of([&] { run(count == 3 ? arguments[2] : nullptr); });
}
