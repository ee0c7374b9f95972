// Writes a log to standard output. The same arguments give the same log.
//
//   generate trace SEED RECORDS        random calls for the trace program
//   generate replay SEED RECORDS       random calls, setups and pokes for the replay program
//   generate typical SEED MEGABYTES    a pod's ordinary life, for the trace program
//   generate typical-replay SEED MEGABYTES

#include <cstdint>
#include <cstdio>
#include <cstdlib>
#include <string>

#include "generator/random_logs.h"
#include "generator/typical_logs.h"
#include "generator/wild_logs.h"

namespace {

// About so many records; each tenth seed gives a wild log.
std::string random_log(uint64_t seed, uint32_t records, bool replay) {
  if (seed % 10 == 5) return generator::wild_log(seed, records, replay);
  if (replay) return generator::RandomReplay(seed).text(records);
  return generator::RandomTrace(seed).text(records);
}

}  // namespace

int main(int argc, char** argv) {
  const std::string kind = argc == 4 ? argv[1] : "";
  const uint64_t seed = argc == 4 ? std::strtoull(argv[2], nullptr, 10) : 0;
  const uint64_t size = argc == 4 ? std::strtoull(argv[3], nullptr, 10) : 0;
  std::string log;
  if (kind == "trace" || kind == "replay") {
    log = random_log(seed, static_cast<uint32_t>(size), kind == "replay");
  } else if (kind == "typical" || kind == "typical-replay") {
    generator::write_typical(seed, size * 1000000, kind == "typical-replay");
  } else {
    std::fprintf(stderr, "usage: %s trace|replay SEED RECORDS, or typical|typical-replay SEED MEGABYTES\n",
                 argv[0]);
    return 2;
  }
  std::fwrite(log.data(), 1, log.size(), stdout);
  return std::fflush(stdout) == 0 ? 0 : 2;
}
