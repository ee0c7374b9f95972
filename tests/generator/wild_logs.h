// Wild logs: fragments of records, line ends and bytes put together at random,
// without regard to where a record begins. They try the borders of records
// where the other logs try their contents.

#ifndef GENERATOR_WILD_LOGS_H
#define GENERATOR_WILD_LOGS_H

#include <cstdint>
#include <string>

#include "random.h"

namespace generator {

inline std::string wild_log(uint64_t seed, uint32_t records, bool replay) {
  static const std::string kFragments[] = {
      "\r", "\n", "\r\r", "\n\r", "\r\n\r\n", ",", ",,", "0", "1", "65535", "65536", "4294967295",
      "enter", "enter,,", "exit,,", "tick,,", "switch,,", "finish,,", "wait,0,2", "push,0,5",
      "pop,0,1", "lock,0,0", "unlock,0,", "sleep,1,", "signali,0,", "x", "\xFF", "\"", " "};
  static const std::string kTraceFragments[] = {"direct,,", "deferred,,", "writei,0,9", "readi,0,2"};
  static const std::string kReplayFragments[] = {
      "setup,0,3,1,1,1,2,0,0,0", "setup,1,4,2,2,2,1,3,0,0", "poke,wait,0,push.0.front.1",
      "poke,wait,0,none", "poke,owner,0,nobody", "poke,ticks,,4294967295", "block,3,7", "writeb,0,",
      "readb,0,", "room,2,", "running,,", "poke,", "poke,wait,0,", "setup,0,3,1,1,1,2"};
  Random random(seed * 2 + (replay ? 1 : 0));
  std::string text = random.chance(50) ? "call,a,b\r\n" : "";
  for (uint32_t ended = 0; ended < records;) {
    const uint32_t kind = random.below(20);
    if (kind == 0) {
      const char fill = random.chance(50) ? 'x' : '\r';
      text += std::string(random.between(20, 70), fill);
    } else if (kind == 1) {
      text += '\0';
    } else if (kind < 7) {
      text += replay ? random.one_of(kReplayFragments) : random.one_of(kTraceFragments);
    } else {
      text += random.one_of(kFragments);
    }
    if (random.chance(60)) {
      text += "\r\n";
      ++ended;
    }
  }
  // the end of the input may be anywhere
  text.resize(text.size() - random.below(4));
  return text;
}

}  // namespace generator

#endif
