/* null.c by C++, with what an empty vector lends. */
#include <cstdint>
#include <vector>

static std::vector<std::uint8_t> none;
#define EMPTY none.data()

#include "null.c"
