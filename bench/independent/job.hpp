// The run program: the bytes of a job on standard input, and the bytes that it prints.
#pragma once

#include <string>

namespace independent {

std::string answer_job(const std::string &input);

} // namespace independent
