// Long logs of the ordinary life of a pod, to measure speed: limited waits that
// are mostly met, ticks and signals from interrupts, items pushed and popped,
// mutexes locked and unlocked, and next to nothing refused.

#ifndef GENERATOR_TYPICAL_LOGS_H
#define GENERATOR_TYPICAL_LOGS_H

#include <cstdint>
#include <cstdio>
#include <string>

#include "choice.h"
#include "pod.h"
#include "random.h"

namespace generator {

inline Mix typical_mix() {
  Mix mix = {};
  mix.senseless = 1;
  mix.readings = 3;
  mix.interrupts = 10;
  mix.nesting = 1;
  mix.flags = 4;
  mix.mutexes = 3;
  mix.channels = 4;
  mix.sleeps = 2;
  mix.wakes = 1;
  mix.longest_limit = 12;
  mix.unlimited = 5;
  mix.restart = 4000;
  return mix;
}

// Writes a log of at least so many bytes to standard output.
inline void write_typical(uint64_t seed, uint64_t bytes, bool replay) {
  Random random(seed);
  const Mix mix = typical_mix();
  Chooser chooser(random, mix, replay);
  Pod pod;
  uint64_t written = 0;
  const auto put = [&](const std::string& record) {
    std::fputs(record.c_str(), stdout);
    std::fputs("\r\n", stdout);
    written += record.size() + 2;
  };
  const auto begin = [&] {
    const uint32_t mode = random.below(2);
    if (replay) {
      put("setup," + std::to_string(mode) + ",32,8,8,4,64,64,64,64");
      pod.set_up({mode, 32, 8, 8, 4, {64, 64, 64, 64}});
    } else {
      put(mode == kernel::kDirect ? "direct,," : "deferred,,");
      pod.start_bench(mode);
    }
  };
  put("call,a,b");
  begin();
  while (written < bytes) {
    const bool idle = pod.record.depth == 0 && !pod.pending() && pod.idle_runs();
    if (random.once_in(mix.restart) || (idle && !pod.somebody_has_time_left() && random.chance(5))) {
      begin();
      continue;
    }
    Call call = chooser.sensible(pod);
    if (random.chance(mix.senseless)) call = chooser.senseless(pod);
    if (replay && random.chance(mix.readings)) call = chooser.reading(pod);
    put(text_of(call));
    pod.make(call);
  }
}

}  // namespace generator

#endif
