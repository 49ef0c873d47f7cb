// The header as C++ reads it. What was laid out is read by a room that is not `const`, and by one that is.
#include "bidi.h"
#include <cstdio>
int main() {
  bidi_room room = BIDI_NONE;
  const uint8_t classes[] = { 0, 1 };
  const size_t none[] = { 0 };
  uint64_t place = 0;
  uint8_t levels[2];
  if (bidi_room_new(2, &room) || bidi_lay_out_classes(&room, classes, 2, BIDI_AUTO, none, 0, &place)) return 1;
  std::printf("C++: %zu levels", bidi_levels(&room, levels, 2));
  std::printf(" %u %u", levels[0], levels[1]);
  const bidi_room &read = room;
  std::printf(", again %zu\n", bidi_levels(&read, levels, 2));
  bidi_room_free(&room);
  return 0;
}
