// Compares the proved programs with the second ones, byte for byte, on random
// logs. tests/compare builds and calls it:
//
//   compare [--brief] GENERATE FOLDER SECONDS RECORDS
//
// The programs are named by PROVED_TRACE, PROVED_REPLAY, SECOND_TRACE and
// SECOND_REPLAY; RUNNER, if not empty, stands before a proved one. Logs with the
// seeds 1, 2, 3, ... are compared, trace and replay in turn, until SECONDS have
// passed and RECORDS were compared. At a difference the log is minimised and
// shown, unless --brief is given, and the exit code is 1.

#include <algorithm>
#include <chrono>
#include <csignal>
#include <cstdint>
#include <cstdio>
#include <cstdlib>
#include <sstream>
#include <stdexcept>
#include <string>
#include <vector>

#include "running.h"

namespace {

using running::Command;
using running::Outcome;

constexpr size_t kDifferent = std::string::npos;

std::string variable(const char* name) {
  const char* value = std::getenv(name);
  return value == nullptr ? "" : value;
}

// ---- Logs.

// The header and the records, each with its line end; the last may lack it.
std::vector<std::string> split(const std::string& log) {
  std::vector<std::string> records;
  for (size_t at = 0; at < log.size();) {
    size_t end = log.find("\r\n", at);
    end = end == std::string::npos ? log.size() : end + 2;
    records.push_back(log.substr(at, end - at));
    at = end;
  }
  return records;
}

std::string join(const std::vector<std::string>& records) {
  std::string log;
  for (const std::string& record : records) log += record;
  return log;
}

size_t lines_in(const std::string& output) {
  size_t lines = 0;
  for (size_t at = 0; (at = output.find("\r\n", at)) != std::string::npos; at += 2) ++lines;
  return lines;
}

// The number of the first line in which two outputs differ, the header being 0.
size_t first_difference(const std::string& one, const std::string& other) {
  const std::vector<std::string> lines = split(one), others = split(other);
  size_t line = 0;
  while (line < lines.size() && line < others.size() && lines[line] == others[line]) ++line;
  return line;
}

// Every byte visible: what is no printable character as in a C string.
std::string shown(const std::string& text) {
  std::string line;
  for (const char c : text) {
    char code[8];
    if (c == '\r') {
      line += "\\r";
    } else if (c == '\n') {
      line += "\\n";
    } else if (c == '\\') {
      line += "\\\\";
    } else if (c >= ' ' && c <= '~') {
      line += c;
    } else {
      std::snprintf(code, sizeof code, "\\%03o", static_cast<unsigned char>(c));
      line += code;
    }
  }
  return line;
}

// ---- One pair of programs.

class Pair {
 public:
  Pair(const std::string& kind, const std::string& folder) : kind_(kind), folder_(folder) {
    const bool trace = kind == "trace";
    std::istringstream runner(variable("RUNNER"));
    for (std::string word; runner >> word;) proved_.push_back(word);
    proved_.push_back(variable(trace ? "PROVED_TRACE" : "PROVED_REPLAY"));
    second_ = {variable(trace ? "SECOND_TRACE" : "SECOND_REPLAY")};
  }

  const std::string& kind() const { return kind_; }

  // The number of records compared, or kDifferent: both programs must end well,
  // print the same however the input comes, and a line for each record.
  size_t compare(const std::string& log, uint64_t seed) {
    const std::string file = folder_ + "/" + kind_ + ".in";
    running::write_file(file, log);
    second = running::run_on_file(second_, file, folder_ + "/second.out");
    proved = running::run_on_file(proved_, file, folder_ + "/proved.out");
    way = "as a file";
    if (proved == second) {
      proved = running::run_on_pipe(proved_, log, folder_ + "/proved.out", seed);
      way = "through a pipe in pieces";
    }
    if (!(proved == second) || second.status != 0) return kDifferent;
    const size_t lines = lines_in(second.output);
    const size_t expected = std::max<size_t>(split(log).size(), 1);
    if (lines != expected) {
      way = "with a wrong number of lines from both programs";
      return kDifferent;
    }
    return lines - 1;
  }

  // Of the last comparison.
  Outcome proved, second;
  std::string way;

 private:
  const std::string kind_;
  const std::string folder_;
  Command proved_, second_;
};

// Drops records while a difference stays: first what comes behind it, then
// ever smaller parts. A header stays, for the first record is always skipped.
std::string minimised(Pair& pair, const std::string& log, uint64_t seed) {
  const auto differs = [&](const std::vector<std::string>& records) {
    return pair.compare(join(records), seed) == kDifferent;
  };
  using Clock = std::chrono::steady_clock;
  const Clock::time_point end = Clock::now() + std::chrono::seconds(60);
  std::vector<std::string> records = split(log);
  const size_t line = first_difference(pair.proved.output, pair.second.output);
  if (line + 1 < records.size()) {
    const std::vector<std::string> front(records.begin(), records.begin() + line + 1);
    if (differs(front)) records = front;
  }
  std::vector<std::string> plain = records;
  plain[0] = "call,a,b\r\n";
  if (differs(plain)) records = plain;
  for (size_t part = records.size() / 2 + 1; part > 0;) {
    bool dropped = false;
    for (size_t at = records.size(); at > 1 && Clock::now() < end;) {
      const size_t from = at > part + 1 ? at - part : 1;
      std::vector<std::string> fewer(records.begin(), records.begin() + from);
      fewer.insert(fewer.end(), records.begin() + at, records.end());
      if (differs(fewer)) {
        records = fewer;
        dropped = true;
      }
      at = from;
    }
    // at the smallest size again and again, until nothing more can go
    if (part > 1 || !dropped || Clock::now() >= end) part /= 2;
  }
  return join(records);
}

void print_line(const char* whose, const Outcome& outcome, size_t line) {
  const std::vector<std::string> lines = split(outcome.output);
  const std::string text = line < lines.size() ? shown(lines[line]) : "(no such line)";
  std::printf("  %s: %s\n", whose, text.c_str());
  if (outcome.status != 0) std::printf("  %s: ended with status %d\n", whose, outcome.status);
}

void report(Pair& pair, const std::string& log, uint64_t seed, uint32_t records,
            const std::string& folder) {
  std::printf("difference: %s, seed %llu, %u records, %s; minimising\n", pair.kind().c_str(),
              static_cast<unsigned long long>(seed), records, pair.way.c_str());
  std::fflush(stdout);
  const std::string least = minimised(pair, log, seed);
  pair.compare(least, seed);
  running::write_file(folder + "/difference-" + pair.kind() + ".in", least);
  std::printf("the minimised log:\n");
  for (const std::string& record : split(least)) std::printf("  %s\n", shown(record).c_str());
  const size_t line = first_difference(pair.proved.output, pair.second.output);
  std::printf("the first line that differs, %s:\n", pair.way.c_str());
  print_line("proved", pair.proved, line);
  print_line("second", pair.second, line);
}

// Short logs start many states, and some long ones cross every buffer's end.
uint32_t records_of(uint64_t seed) {
  if (seed % 32 == 31) return 40000;
  return seed % 8 < 4 ? 300 : 1500;
}

int compare_all(const std::string& generate, const std::string& folder, double seconds,
                uint64_t least, bool brief) {
  using Clock = std::chrono::steady_clock;
  const Clock::time_point begin = Clock::now();
  Pair trace("trace", folder), replay("replay", folder);
  uint64_t compared = 0, logs = 0;
  for (uint64_t seed = 1;; ++seed) {
    for (Pair* pair : {&trace, &replay}) {
      const uint32_t records = records_of(seed);
      const Command command = {generate, pair->kind(), std::to_string(seed),
                               std::to_string(records)};
      const Outcome made = running::run(command, folder + "/generated.in");
      if (made.status != 0) throw std::runtime_error(generate + " failed");
      const size_t count = pair->compare(made.output, seed);
      if (count == kDifferent) {
        // a program that broke off may have kept its last lines to itself
        const bool broke_off = pair->proved.status != 0 || pair->second.status != 0;
        const size_t line = broke_off ? split(made.output).size() - 1
                                      : first_difference(pair->proved.output, pair->second.output);
        std::printf("found after %llu records\n", static_cast<unsigned long long>(compared + line));
        if (!brief) report(*pair, made.output, seed, records, folder);
        return 1;
      }
      compared += count;
      ++logs;
    }
    const std::chrono::duration<double> passed = Clock::now() - begin;
    if (passed.count() >= seconds && compared >= least) break;
  }
  std::printf("compared %llu records in %llu logs: no difference\n",
              static_cast<unsigned long long>(compared), static_cast<unsigned long long>(logs));
  return 0;
}

}  // namespace

int main(int argc, char** argv) {
  Command words(argv + 1, argv + argc);
  const bool brief = !words.empty() && words[0] == "--brief";
  if (brief) words.erase(words.begin());
  if (words.size() != 4) {
    std::fprintf(stderr, "usage: %s [--brief] GENERATE FOLDER SECONDS RECORDS\n", argv[0]);
    return 2;
  }
  std::signal(SIGPIPE, SIG_IGN);
  try {
    return compare_all(words[0], words[1], std::strtod(words[2].c_str(), nullptr),
                       std::strtoull(words[3].c_str(), nullptr, 10), brief);
  } catch (const std::exception& error) {
    std::fprintf(stderr, "%s: %s\n", argv[0], error.what());
    return 2;
  }
}
