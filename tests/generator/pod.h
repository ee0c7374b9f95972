// What a log works on, followed record by record with the second program's
// kernel: knowing the state, the generator can choose calls that make sense.
// It is a guide only: nothing is compared with it.

#ifndef GENERATOR_POD_H
#define GENERATOR_POD_H

#include <algorithm>
#include <cstdint>
#include <string>

#include "../../second/calls.h"
#include "../../second/kernel.h"

namespace generator {

using calls::Word;

constexpr uint32_t kLongestBlock = 64;

// What a field of a call's record means, hence which numbers suit it.
enum class Means : uint8_t {
  nothing, limit, flag, mutex, channel, process, item, block_length, room_length,
};

struct Shape {
  Word word;
  const char* name;
  Means a;
  Means b;
};

// Every word that comes with the fields a and b. The first 21 are in both
// programs, the next 4 in the trace only, the rest in the replay only.
constexpr Shape kShapes[] = {
    {Word::enter, "enter", Means::nothing, Means::nothing},
    {Word::exit, "exit", Means::nothing, Means::nothing},
    {Word::tick, "tick", Means::nothing, Means::nothing},
    {Word::switch_process, "switch", Means::nothing, Means::nothing},
    {Word::finish, "finish", Means::nothing, Means::nothing},
    {Word::sleep, "sleep", Means::limit, Means::nothing},
    {Word::signal, "signal", Means::flag, Means::nothing},
    {Word::signali, "signali", Means::flag, Means::nothing},
    {Word::clear, "clear", Means::flag, Means::nothing},
    {Word::try_lock, "try", Means::mutex, Means::nothing},
    {Word::unlock, "unlock", Means::mutex, Means::nothing},
    {Word::unlocki, "unlocki", Means::mutex, Means::nothing},
    {Word::flush, "flush", Means::channel, Means::nothing},
    {Word::wake, "wake", Means::process, Means::nothing},
    {Word::force, "force", Means::process, Means::nothing},
    {Word::wait, "wait", Means::flag, Means::limit},
    {Word::lock, "lock", Means::mutex, Means::limit},
    {Word::pop, "pop", Means::channel, Means::limit},
    {Word::popback, "popback", Means::channel, Means::limit},
    {Word::push, "push", Means::channel, Means::item},
    {Word::pushfront, "pushfront", Means::channel, Means::item},
    {Word::direct, "direct", Means::nothing, Means::nothing},
    {Word::deferred, "deferred", Means::nothing, Means::nothing},
    {Word::writei, "writei", Means::channel, Means::item},
    {Word::readi, "readi", Means::channel, Means::block_length},
    {Word::writeb, "writeb", Means::channel, Means::nothing},
    {Word::readb, "readb", Means::channel, Means::nothing},
    {Word::running, "running", Means::nothing, Means::nothing},
    {Word::next, "next", Means::nothing, Means::nothing},
    {Word::ready, "ready", Means::nothing, Means::nothing},
    {Word::ticks, "ticks", Means::nothing, Means::nothing},
    {Word::flag, "flag", Means::flag, Means::nothing},
    {Word::owner, "owner", Means::mutex, Means::nothing},
    {Word::count, "count", Means::channel, Means::nothing},
    {Word::free, "free", Means::channel, Means::nothing},
    {Word::room, "room", Means::room_length, Means::nothing},
    {Word::block, "block", Means::block_length, Means::item},
};

inline const Shape& shape_of(Word word) {
  for (const Shape& shape : kShapes) {
    if (shape.word == word) return shape;
  }
  return kShapes[0];
}

struct Call {
  Word word;
  uint32_t a = 0;
  uint32_t b = 0;
};

inline std::string text_of(const Call& call) {
  const Shape& shape = shape_of(call.word);
  std::string text = shape.name;
  text += ',';
  if (shape.a != Means::nothing) text += std::to_string(call.a);
  text += ',';
  if (shape.b != Means::nothing) text += std::to_string(call.b);
  return text;
}

struct Pod {
  kernel::Record record;
  uint32_t room_length = 0;
  uint32_t room[kernel::kMaxRoom] = {};
  uint32_t block_length = 0;
  uint32_t block[kLongestBlock] = {};

  bool sound() const { return kernel::is_sound(record); }
  bool room_fits() const { return room_length == kernel::room_length(record); }
  uint32_t users() const { return record.processes - 1; }
  bool pending() const { return record.running != record.next; }
  bool idle_runs() const { return record.running == users(); }
  const kernel::Process& caller() const { return record.process[record.running]; }
  bool caller_waits() const { return caller().wait.kind != kernel::WaitKind::none; }

  bool somebody_has_time_left() const {
    for (uint32_t p = 0; p < users(); ++p) {
      if (record.process[p].counter > 0) return true;
    }
    return false;
  }

  kernel::Answer set_up(const kernel::Setup& setup) {
    const kernel::Answer answer = kernel::set_up(record, setup);
    set_room(kernel::room_length(record));
    return answer;
  }

  void set_room(uint32_t length) {
    std::fill(room, room + kernel::kMaxRoom, 0);
    room_length = length;
  }

  void set_block(uint32_t length, uint32_t first) {
    block_length = length;
    for (uint32_t i = 0; i < length; ++i) block[i] = first + i;
  }

  // Bench sheet, A and B.
  kernel::Answer start_bench(uint32_t mode) { return set_up({mode, 3, 1, 1, 1, {2, 0, 0, 0}}); }

  kernel::Answer make(const Call& call) {
    kernel::Kernel<true> core(record, {room, room_length});
    switch (call.word) {
      case Word::direct: return start_bench(kernel::kDirect);
      case Word::deferred: return start_bench(kernel::kDeferred);
      case Word::writei: {
        uint32_t item = call.b;
        return core.write_from_interrupt(call.a, {&item, 1});
      }
      case Word::readi: {
        uint32_t taken[kLongestBlock];
        return core.read_from_interrupt(call.a, {taken, call.b});
      }
      case Word::writeb: return core.write_from_interrupt(call.a, {block, block_length});
      case Word::readb: return core.read_from_interrupt(call.a, {block, block_length});
      case Word::room: set_room(call.a); return {kernel::Reply::done, 0};
      case Word::block: set_block(call.a, call.b); return {kernel::Reply::done, 0};
      case Word::running:
      case Word::next:
      case Word::ready:
      case Word::ticks:
      case Word::flag:
      case Word::owner:
      case Word::count:
      case Word::free: return {kernel::Reply::value, 0};   // readings change nothing
      default: return calls::make(core, call.word, call.a, call.b);
    }
  }
};

}  // namespace generator

#endif
