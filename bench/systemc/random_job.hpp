// Random jobs whose designs ask much of the kernel.
#pragma once

#include "job.hpp"

#include <random>

Job random_job(std::mt19937_64 &random);
