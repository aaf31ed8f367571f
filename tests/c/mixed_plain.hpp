// What mixed.cpp calls of a file that is compiled without exceptions.
#pragma once

#include <cstdint>
#include <string>

#include "povundiri.hpp"

namespace plain {

bool counts(povundiri::Segment& segment, std::uint32_t units);
povundiri::Recorder moved(povundiri::Recorder recorder);
std::string name(povundiri::Status status);
void ask(povundiri::Segment& segment);

}  // namespace plain
