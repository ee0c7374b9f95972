// Chooses calls for the state at hand: sensible ones, which are mostly
// accepted, and senseless ones, for the refusals.

#ifndef GENERATOR_CHOICE_H
#define GENERATOR_CHOICE_H

#include <cstdint>

#include "pod.h"
#include "random.h"

namespace generator {

// The taste of one log. Percentages, weights and sizes differ from log to log,
// because what one mix hides another shows: a log without mutexes gets deeper
// into channels, one with few restarts deeper into a state.
struct Mix {
  uint32_t senseless;     // per cent of the calls
  uint32_t unreadable;    // per cent of the records
  uint32_t pokes;         // per cent, replay only
  uint32_t readings;      // per cent, replay only
  uint32_t interrupts;    // per cent of the calls between which one is entered
  uint32_t nesting;       // weight of enter within an interrupt
  uint32_t flags, mutexes, channels, sleeps, wakes;   // weights
  uint32_t longest_limit;
  uint32_t unlimited;     // per cent of the waits
  uint32_t restart;       // once in so many records
};

inline Mix random_mix(Random& random) {
  Mix mix;
  mix.senseless = random.pick<uint32_t>({{2, 3}, {10, 4}, {30, 2}, {80, 1}});
  mix.unreadable = random.pick<uint32_t>({{0, 2}, {2, 4}, {10, 3}, {60, 1}});
  mix.pokes = random.pick<uint32_t>({{0, 2}, {3, 2}, {12, 3}, {40, 3}, {80, 1}});
  mix.readings = random.pick<uint32_t>({{0, 1}, {5, 3}, {20, 1}});
  mix.interrupts = random.between(3, 30);
  mix.nesting = random.pick<uint32_t>({{1, 4}, {5, 2}, {40, 1}});
  mix.flags = random.pick<uint32_t>({{0, 1}, {3, 2}, {10, 1}});
  mix.mutexes = random.pick<uint32_t>({{0, 1}, {3, 2}, {10, 1}});
  mix.channels = random.pick<uint32_t>({{0, 1}, {3, 2}, {10, 1}});
  mix.sleeps = random.between(1, 4);
  mix.wakes = random.between(0, 4);
  mix.longest_limit = random.pick<uint32_t>({{1, 1}, {3, 3}, {12, 1}});
  mix.unlimited = random.pick<uint32_t>({{5, 1}, {25, 2}, {60, 1}});
  mix.restart = random.pick<uint32_t>({{40, 1}, {200, 2}, {2000, 2}});
  return mix;
}

class Chooser {
 public:
  Chooser(Random& random, const Mix& mix, bool replay)
      : random_(random), mix_(mix), replay_(replay) {}

  // For a sound pod: a call that somebody in this state may make.
  Call sensible(const Pod& pod) {
    if (pod.record.depth > 0) return in_interrupt(pod);
    if (pod.pending()) return random_.chance(80) ? call(Word::switch_process) : call(Word::enter);
    if (pod.idle_runs()) return call(Word::enter);
    if (random_.chance(mix_.interrupts)) return call(Word::enter);
    if (pod.caller_waits()) return call(Word::finish);
    return process_call(pod);
  }

  // Any word of the program, with numbers that may be wrong.
  Call senseless(const Pod& pod) {
    constexpr uint32_t kShared = 21;
    constexpr uint32_t kTraceOnly = 4;
    constexpr uint32_t kAll = sizeof kShapes / sizeof *kShapes;
    uint32_t at = random_.below(replay_ ? kAll - kTraceOnly : kShared + kTraceOnly);
    if (replay_ && at >= kShared) at += kTraceOnly;
    const Shape& shape = kShapes[at];
    // a restart or another room would end what the log is about
    if (shape.word == Word::direct || shape.word == Word::deferred || shape.word == Word::room) {
      return call(Word::finish);
    }
    const bool wrong = random_.chance(40);
    return {shape.word, number(shape.a, pod, wrong), number(shape.b, pod, false)};
  }

  Call reading(const Pod& pod) {
    static constexpr Word kReadings[] = {Word::running, Word::next,  Word::ready, Word::ticks,
                                         Word::flag,    Word::owner, Word::count, Word::free};
    const Word word = random_.one_of(kReadings);
    return {word, number(shape_of(word).a, pod, random_.chance(10)), 0};
  }

  Call new_block() {
    return {Word::block, number(Means::block_length, {}, false), random_.item()};
  }

 private:
  static Call call(Word word) { return {word, 0, 0}; }

  uint32_t limit() {
    if (random_.chance(mix_.unlimited)) return 0;
    if (random_.once_in(40)) return random_.pick<uint32_t>({{65535, 2}, {256, 1}, {65534, 1}});
    return random_.between(1, mix_.longest_limit);
  }

  uint32_t service(uint32_t count, bool wrong) {
    return wrong || count == 0 ? random_.past(count) : random_.below(count);
  }

  uint32_t number(Means means, const Pod& pod, bool wrong) {
    switch (means) {
      case Means::nothing: return 0;
      case Means::limit: return limit();
      case Means::flag: return service(pod.record.flags, wrong);
      case Means::mutex: return service(pod.record.mutexes, wrong);
      case Means::channel: return service(pod.record.channels, wrong);
      case Means::process:
        return pod.record.processes < 2 ? random_.below(4) : service(pod.users(), wrong);
      case Means::item: return random_.item();
      case Means::block_length:
        return random_.pick<uint32_t>({{0, 1}, {1, 3}, {2, 3}, {3, 1}, {63, 1}, {64, 2},
                                       {random_.below(65), 3}});
      case Means::room_length: return random_.below(kernel::kMaxRoom + 1);
    }
    return 0;
  }

  Call in_interrupt(const Pod& pod) {
    const bool flags = pod.record.flags > 0;
    const bool channels = pod.record.channels > 0;
    const Word write = replay_ ? Word::writeb : Word::writei;
    const Word read = replay_ ? Word::readb : Word::readi;
    const Word word = random_.pick<Word>({{Word::exit, 18},
                                          {Word::tick, 10},
                                          {Word::signali, flags ? mix_.flags : 0},
                                          {Word::unlocki, somebody_owns(pod) ? mix_.mutexes : 0},
                                          {write, channels ? mix_.channels : 0},
                                          {read, channels ? mix_.channels : 0},
                                          {Word::enter, mix_.nesting}});
    // a fresh block now and then, or all blocks of a log would be the same
    if (replay_ && (word == Word::writeb || word == Word::readb) && random_.chance(40)) {
      return new_block();
    }
    const Shape& shape = shape_of(word);
    Call made = {word, number(shape.a, pod, false), number(shape.b, pod, false)};
    if (word == Word::unlocki) made.a = an_owned_mutex(pod);
    return made;
  }

  Call process_call(const Pod& pod) {
    const uint32_t flags = pod.record.flags > 0 ? mix_.flags : 0;
    const uint32_t mutexes = pod.record.mutexes > 0 ? mix_.mutexes : 0;
    const uint32_t channels = pod.record.channels > 0 ? mix_.channels : 0;
    const Word word = random_.pick<Word>({{Word::sleep, mix_.sleeps},
                                          {Word::wake, mix_.wakes},
                                          {Word::force, mix_.wakes},
                                          {Word::wait, flags * 3},
                                          {Word::signal, flags * 2},
                                          {Word::clear, flags},
                                          {Word::lock, mutexes * 3},
                                          {Word::try_lock, mutexes},
                                          {Word::unlock, mutexes * 2},
                                          {Word::push, channels * 2},
                                          {Word::pushfront, channels * 2},
                                          {Word::pop, channels * 2},
                                          {Word::popback, channels * 2},
                                          {Word::flush, (channels + 4) / 5}});
    const Shape& shape = shape_of(word);
    Call made = {word, number(shape.a, pod, false), number(shape.b, pod, false)};
    if (word == Word::unlock) made.a = a_mutex_of_caller(pod, made.a);
    if ((word == Word::wake || word == Word::force) && random_.chance(80)) {
      made.a = a_waiting_process(pod, made.a);
    }
    return made;
  }

  static bool somebody_owns(const Pod& pod) {
    for (uint32_t m = 0; m < pod.record.mutexes; ++m) {
      if (pod.record.mutex[m].owned) return true;
    }
    return false;
  }

  // Searches from a random place on, so that no number is preferred.
  template <class Fits>
  uint32_t search(uint32_t count, uint32_t otherwise, Fits fits) {
    const uint32_t start = random_.below(count);
    for (uint32_t i = 0; i < count; ++i) {
      if (fits((start + i) % count)) return (start + i) % count;
    }
    return otherwise;
  }

  uint32_t an_owned_mutex(const Pod& pod) {
    return search(pod.record.mutexes, 0, [&](uint32_t m) { return pod.record.mutex[m].owned; });
  }

  uint32_t a_mutex_of_caller(const Pod& pod, uint32_t otherwise) {
    return search(pod.record.mutexes, otherwise, [&](uint32_t m) {
      return pod.record.mutex[m].owned && pod.record.mutex[m].owner == pod.record.running;
    });
  }

  uint32_t a_waiting_process(const Pod& pod, uint32_t otherwise) {
    return search(pod.users(), otherwise, [&](uint32_t p) {
      return pod.record.process[p].wait.kind != kernel::WaitKind::none;
    });
  }

  Random& random_;
  const Mix& mix_;
  const bool replay_;
};

}  // namespace generator

#endif
