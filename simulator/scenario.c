#include "scenario.h"

const char scenario[] = {
#include "scenario.inc" // scenario.trace as bytes, made by the Makefile
};
const size_t scenario_len = sizeof scenario;
