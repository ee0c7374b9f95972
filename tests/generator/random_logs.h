// Random logs for the trace and for the replay program.

#ifndef GENERATOR_RANDOM_LOGS_H
#define GENERATOR_RANDOM_LOGS_H

#include <cstdint>
#include <string>
#include <vector>

#include "choice.h"
#include "fields.h"
#include "pod.h"
#include "pokes.h"
#include "random.h"
#include "unreadable.h"

namespace generator {

// What both kinds of logs share: the header, the unreadable records between the
// others, and the end of the input.
class RandomLog {
 public:
  RandomLog(uint64_t seed, bool replay)
      : random_(seed * 2 + (replay ? 1 : 0)),
        mix_(random_mix(random_)),
        chooser_(random_, mix_, replay),
        spoiler_(random_, replay) {}
  virtual ~RandomLog() = default;

  // The header and as many records as asked for.
  std::string text(uint32_t records) {
    text_ = header() + "\r\n";
    while (ends_.size() < records) step();
    // the last step may have put more
    if (records > 0) text_.resize(ends_[records - 1]);
    spoil_end();
    return text_;
  }

 protected:
  virtual void step() = 0;

  void put(const std::string& record) {
    text_ += record + "\r\n";
    ends_.push_back(text_.size());
  }

  // Puts a call and makes it; or spoils it, and then the state stays.
  void put(const Call& call) {
    if (random_.chance(mix_.unreadable)) {
      put(spoiler_.spoil(text_of(call)));
      return;
    }
    put(text_of(call));
    pod_.make(call);
  }

  bool stuck() const {
    return pod_.record.depth == 0 && !pod_.pending() && pod_.idle_runs() &&
           !pod_.somebody_has_time_left();
  }

  Random random_;
  Mix mix_;
  Chooser chooser_;
  Spoiler spoiler_;
  Pod pod_;

 private:
  // Skipped unread and at any length, whatever it holds.
  std::string header() {
    switch (random_.below(8)) {
      case 0: return "";
      case 1: return "direct,,";
      case 2: return "setup,0,3,1,1,1,2,0,0,0";
      case 3: return "\"call\",\"a\nb\",\r\r";
      case 4: {
        const char fill = random_.chance(50) ? '\n' : '\r';
        return std::string(random_.once_in(8) ? random_.below(300000) : random_.between(60, 70), fill);
      }
      default: return "call,a,b";
    }
  }

  // The last record may lack its line end, or have something else in its place.
  void spoil_end() {
    switch (random_.below(5)) {
      case 0: text_.erase(text_.size() - 2); break;    // nothing
      case 1: text_.erase(text_.size() - 1); break;    // CR
      case 2: text_.erase(text_.size() - 2, 1); break; // LF
      default: break;
    }
  }

  std::string text_;
  std::vector<size_t> ends_;   // where each record ends
};

class RandomTrace : public RandomLog {
 public:
  explicit RandomTrace(uint64_t seed) : RandomLog(seed, false) {}

 private:
  void step() override {
    const bool begun = pod_.record.processes > 0;
    if (begun ? restart() : random_.chance(60)) {
      put(Call{random_.chance(50) ? Word::direct : Word::deferred});
    } else if (!begun || random_.chance(mix_.senseless)) {
      put(chooser_.senseless(pod_));
    } else {
      put(chooser_.sensible(pod_));
    }
  }

  bool restart() { return random_.once_in(mix_.restart) || (stuck() && random_.chance(20)); }
};

class RandomReplay : public RandomLog {
 public:
  explicit RandomReplay(uint64_t seed) : RandomLog(seed, true), poker_(random_) {}

 private:
  void step() override {
    if (!pod_.sound()) {
      mend();
    } else if (random_.once_in(mix_.restart) || (stuck() && random_.chance(10))) {
      put_setup();
    } else if (!pod_.room_fits() && random_.chance(20)) {
      put(Call{Word::room, kernel::room_length(pod_.record)});
    } else if (random_.chance(mix_.pokes)) {
      poke();
    } else if (random_.once_in(300)) {
      put(wrong_room());
    } else if (random_.chance(mix_.readings)) {
      put(chooser_.reading(pod_));
    } else if (random_.chance(mix_.senseless)) {
      put(chooser_.senseless(pod_));
    } else {
      put(chooser_.sensible(pod_));
    }
  }

  // An unsound record: a few calls, which it refuses, then back by poke or setup.
  void mend() {
    switch (random_.pick<int>({{0, 4}, {1, undo_.empty() ? 4 : 1}, {2, 3}, {3, 1}})) {
      case 0:
        if (undo_.empty()) return put_setup();
        put_poke(undo_.back());
        undo_.pop_back();
        break;
      case 1:
        if (random_.chance(undo_.size() > 3 ? 5 : 40)) put_setup();
        break;
      case 2:
        put(random_.chance(50) ? chooser_.senseless(pod_) : chooser_.reading(pod_));
        break;
      default:
        put_poke(poker_.any());
    }
    if (pod_.sound()) undo_.clear();
  }

  void poke() {
    const uint32_t kind = random_.below(100);
    if (kind < 15) {
      put_poke(poker_.harmless(pod_.record));
    } else if (kind < 20) {
      undo(poker_.any());
    } else if (kind < 23) {
      for (const Poke& poke : poker_.ghost(pod_.record)) undo(poke);
      put(chooser_.reading(pod_));
    } else if (kind < 26) {
      // whole records, and then the one that is a hair from it
      for (const Poke& poke : poker_.to_a_sound_record(pod_.record)) put_poke(poke);
      if (pod_.sound() && random_.chance(30)) undo(poker_.near(pod_.record));
      put(chooser_.reading(pod_));
    } else {
      undo(poker_.near(pod_.record));
      // whether it is sound shows in a call; then a second one from there
      if (random_.chance(70)) put(chooser_.reading(pod_));
      if (pod_.sound() && random_.chance(30)) undo(poker_.near(pod_.record));
    }
  }

  // Puts a poke and remembers what undoes it.
  void undo(const Poke& poke) {
    const Poke back = {poke.field, poke.index, value_in(pod_.record, poke.field, poke.index)};
    put_poke(poke);
    if (pod_.sound()) {
      undo_.clear();
    } else {
      undo_.push_back(back);
    }
  }

  void put_poke(const Poke& poke) {
    if (random_.chance(mix_.unreadable / 3)) {
      put(spoiler_.spoil(text_of(poke)));
      return;
    }
    put(text_of(poke));
    apply(pod_.record, poke);
  }

  Call wrong_room() {
    const uint32_t length = kernel::room_length(pod_.record);
    const uint32_t near = random_.pick<uint32_t>(
        {{length + 1, 2}, {length - 1, 2}, {0, 1}, {256, 1}, {random_.below(257), 1}});
    return {Word::room, near <= kernel::kMaxRoom ? near : 0};
  }

  // ---- Setups.

  void put_setup() {
    if (random_.once_in(12)) return put_long_setup();
    kernel::Setup setup = within_limits();
    if (random_.once_in(8)) spoil(setup);
    const std::string text = setup_text(setup);
    if (random_.chance(mix_.unreadable / 3)) {
      put(spoiler_.spoil(text));
      return;
    }
    put(text);
    pod_.set_up(setup);
  }

  kernel::Setup within_limits() {
    kernel::Setup setup;
    setup.mode = random_.below(2);
    setup.processes = random_.pick<uint32_t>(
        {{2, 2}, {3, 4}, {random_.between(4, 6), 6}, {random_.between(7, 31), 3}, {31, 1}, {32, 3}});
    setup.flags = random_.pick<uint32_t>({{0, 1}, {1, 3}, {random_.between(2, 7), 3}, {8, 1}});
    setup.mutexes = random_.pick<uint32_t>({{0, 1}, {1, 3}, {random_.between(2, 7), 3}, {8, 1}});
    setup.channels = random_.pick<uint32_t>({{0, 1}, {1, 3}, {2, 2}, {3, 1}, {4, 2}});
    for (uint32_t c = 0; c < kernel::kMaxChannels; ++c) {
      uint32_t& capacity = setup.capacity[c];
      capacity = random_.pick<uint32_t>({{1, 3}, {2, 3}, {3, 3}, {random_.between(4, 63), 2}, {64, 1}});
      if (c >= setup.channels && random_.chance(60)) capacity = random_.item();   // not looked at
    }
    return setup;
  }

  void spoil(kernel::Setup& setup) {
    switch (random_.below(6)) {
      case 0: setup.mode = random_.past(2); break;
      case 1: setup.processes = random_.chance(40) ? random_.below(2) : random_.past(33); break;
      case 2: setup.flags = random_.past(9); break;
      case 3: setup.mutexes = random_.past(9); break;
      case 4: setup.channels = random_.past(5); break;
      default: setup.capacity[random_.below(4)] = random_.chance(50) ? 0 : random_.past(65); break;
    }
  }

  static std::string setup_text(const kernel::Setup& setup) {
    std::string text = "setup";
    for (const uint32_t number : {setup.mode, setup.processes, setup.flags, setup.mutexes,
                                  setup.channels, setup.capacity[0], setup.capacity[1],
                                  setup.capacity[2], setup.capacity[3]}) {
      text += "," + std::to_string(number);
    }
    return text;
  }

  // Setups are the only readable records of up to 64 bytes: of exactly 64 it is
  // refused with 14, of 65 with 15.
  void put_long_setup() {
    uint32_t digits[9] = {1, 1, 1, 1, 1, 1, 1, 1, 1};
    const uint32_t length = random_.pick<uint32_t>({{63, 1}, {64, 4}, {65, 4}, {66, 1}});
    for (uint32_t sum = 14 + 9; sum < length;) {
      uint32_t& some = digits[random_.below(9)];
      if (some < 10) ++some, ++sum;
    }
    std::string text = "setup";
    for (const uint32_t count : digits) {
      text += "," + std::to_string(random_.between(1, count == 10 ? 3 : 9));
      for (uint32_t i = 1; i < count; ++i) text += std::to_string(random_.below(10));
    }
    put(text);
    if (length <= 64) pod_.set_up({2, 0, 0, 0, 0, {0, 0, 0, 0}});
  }

  Poker poker_;
  std::vector<Poke> undo_;
};

}  // namespace generator

#endif
