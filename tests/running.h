// Runs a program on a log, given as a file or through a pipe in odd pieces.

#ifndef RUNNING_H
#define RUNNING_H

#include <fcntl.h>
#include <sched.h>
#include <sys/ioctl.h>
#include <sys/resource.h>
#include <sys/wait.h>
#include <unistd.h>

#include <algorithm>
#include <chrono>
#include <csignal>
#include <cstdint>
#include <cstdio>
#include <fstream>
#include <iterator>
#include <stdexcept>
#include <string>
#include <vector>

#include "generator/random.h"

namespace running {

using Command = std::vector<std::string>;

inline std::string read_file(const std::string& name) {
  std::ifstream file(name, std::ios::binary);
  return {std::istreambuf_iterator<char>(file), {}};
}

inline void write_file(const std::string& name, const std::string& text) {
  std::ofstream file(name, std::ios::binary);
  file << text;
  if (!file.flush()) throw std::runtime_error("cannot write " + name);
}

struct Outcome {
  int status;          // as waitpid tells it; 0 is a good end
  std::string output;

  bool operator==(const Outcome& other) const {
    return status == other.status && output == other.output;
  }
};

// Starts a command with the given input, its output in a file. A faulty program
// may run or write for ever, so both have a limit.
inline pid_t start(const Command& command, int input, const std::string& output) {
  const pid_t child = fork();
  if (child < 0) throw std::runtime_error("cannot fork");
  if (child > 0) return child;
  const rlimit size = {rlim_t{1} << 30, rlim_t{1} << 30};
  setrlimit(RLIMIT_FSIZE, &size);
  alarm(60);
  std::signal(SIGPIPE, SIG_DFL);
  dup2(input, STDIN_FILENO);
  const int out = open(output.c_str(), O_WRONLY | O_CREAT | O_TRUNC | O_CLOEXEC, 0666);
  dup2(out, STDOUT_FILENO);
  std::vector<char*> words;
  for (const std::string& word : command) words.push_back(const_cast<char*>(word.c_str()));
  words.push_back(nullptr);
  execvp(words[0], words.data());
  std::perror(words[0]);
  _exit(127);
}

inline Outcome ended(pid_t child, const std::string& output) {
  int status = -1;
  waitpid(child, &status, 0);
  return {status, read_file(output)};
}

// With nothing to read.
inline Outcome run(const Command& command, const std::string& output) {
  const int nothing = open("/dev/null", O_RDONLY | O_CLOEXEC);
  const pid_t child = start(command, nothing, output);
  close(nothing);
  return ended(child, output);
}

inline Outcome run_on_file(Command command, const std::string& file, const std::string& output) {
  command.push_back(file);
  return run(command, output);
}

// Waits until the reader has taken everything, so that its next read begins at
// the next piece; not for long, because it may have ended.
inline void wait_until_taken(int pipe) {
  using Clock = std::chrono::steady_clock;
  const Clock::time_point end = Clock::now() + std::chrono::milliseconds(2);
  int left = 0;
  while (ioctl(pipe, FIONREAD, &left) == 0 && left > 0 && Clock::now() < end) sched_yield();
}

// The sizes of the pieces: one large piece, so that the borders fall anywhere,
// then some of single bytes, about a record or about a buffer, then the rest in
// large ones, because handing over each piece takes time.
inline size_t piece(generator::Random& random, uint32_t taste, uint32_t number, size_t all) {
  if (number == 0 && taste > 0) return random.below(static_cast<uint32_t>(all)) + 1;
  if (number > 100) return random.between(30000, 70000);
  switch (taste % 6) {
    case 0: return 1;
    case 1: return random.between(1, 5);
    case 2: return random.between(1, 130);
    case 3: return random.between(4095, 4097);
    case 4: return random.between(65535, 65537);
    default: return random.between(1, 5000);
  }
}

inline Outcome run_on_pipe(const Command& command, const std::string& input,
                           const std::string& output, uint64_t seed) {
  int ends[2];
  if (pipe2(ends, O_CLOEXEC) != 0) throw std::runtime_error("cannot make a pipe");
  const pid_t child = start(command, ends[0], output);
  close(ends[0]);
  generator::Random random(seed);
  const uint32_t taste = random.below(12);
  size_t at = 0;
  for (uint32_t number = 0; at < input.size(); ++number) {
    const size_t size = std::min(piece(random, taste, number, input.size()), input.size() - at);
    const ssize_t put = write(ends[1], input.data() + at, size);
    if (put < 0) break;   // the program has ended; its output will tell
    at += static_cast<size_t>(put);
    wait_until_taken(ends[1]);
  }
  close(ends[1]);
  return ended(child, output);
}

}  // namespace running

#endif
