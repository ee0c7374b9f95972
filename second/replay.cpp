// The replay program: calls on any setup and any record, with the fields that
// each call changed. Section names in the comments are those of its paper
// REPLAY.md.

#include <algorithm>
#include <cstdint>
#include <string_view>

#include "calls.h"
#include "kernel.h"
#include "text.h"

namespace {

using calls::Word;
using kernel::End;
using kernel::Wait;
using kernel::WaitKind;
using text::word_key;

constexpr uint32_t kMaxBlock = 64;

constexpr calls::Field kRoomLength = {true, kernel::kMaxRoom};
constexpr calls::Field kBlockLength = {true, kMaxBlock};

// "Input words". `setup` and `poke` have other fields, read by themselves.
constexpr calls::Form kReplayForms[] = {
    {{"writeb"}, Word::writeb, calls::kNumber, calls::kUnused},
    {{"readb"}, Word::readb, calls::kNumber, calls::kUnused},
    {{"running"}, Word::running, calls::kUnused, calls::kUnused},
    {{"next"}, Word::next, calls::kUnused, calls::kUnused},
    {{"ready"}, Word::ready, calls::kUnused, calls::kUnused},
    {{"ticks"}, Word::ticks, calls::kUnused, calls::kUnused},
    {{"flag"}, Word::flag, calls::kNumber, calls::kUnused},
    {{"owner"}, Word::owner, calls::kNumber, calls::kUnused},
    {{"count"}, Word::count, calls::kNumber, calls::kUnused},
    {{"free"}, Word::free, calls::kNumber, calls::kUnused},
    {{"room"}, Word::room, kRoomLength, calls::kUnused},
    {{"block"}, Word::block, kBlockLength, calls::kNumber},
    {{"setup"}, Word::setup, calls::kUnused, calls::kUnused},
    {{"poke"}, Word::poke, calls::kUnused, calls::kUnused},
};

// Words with a length. Those past the length are kept at zero, as they count
// for the changes.
template <uint32_t Most>
struct Words {
  uint32_t length = 0;
  uint32_t word[Most] = {};

  void clear(uint32_t new_length) {
    std::fill(word, word + Most, 0);
    length = new_length;
  }

  kernel::Slice slice() { return {word, length}; }
};

struct State {
  kernel::Record record;
  Words<kernel::kMaxRoom> room;
  Words<kMaxBlock> block;
};

// ---- Setup, room and block.

bool read_setup(text::Scanner& scanner, kernel::Setup& setup) {
  uint32_t* const numbers[] = {
      &setup.mode,        &setup.processes,   &setup.flags,       &setup.mutexes,    &setup.channels,
      &setup.capacity[0], &setup.capacity[1], &setup.capacity[2], &setup.capacity[3],
  };
  for (uint32_t* number : numbers) {
    if (!scanner.byte(',') || !scanner.number(calls::kNumber.most, *number)) return false;
  }
  return scanner.at_end();
}

kernel::Answer set_up(State& state, const kernel::Setup& setup) {
  const kernel::Answer answer = kernel::set_up(state.record, setup);
  state.room.clear(kernel::room_length(state.record));   // the all-zero record: 0
  return answer;
}

void fill_block(State& state, uint32_t length, uint32_t first) {
  state.block.clear(length);
  for (uint32_t i = 0; i < length; ++i) state.block.word[i] = first + i;
}

// ---- Poke: reads the value of a field into its place in the record. Each
// function answers whether the record was readable; an unreadable one leaves
// the place as it was.

bool poke_number(text::Scanner& scanner, uint32_t& place) {
  uint32_t value;
  if (!scanner.number(calls::kNumber.most, value) || !scanner.at_end()) return false;
  place = value;
  return true;
}

bool poke_counter(text::Scanner& scanner, uint16_t& place) {
  uint32_t value;
  if (!scanner.number(calls::kLimit.most, value) || !scanner.at_end()) return false;
  place = static_cast<uint16_t>(value);
  return true;
}

bool read_bit(text::Scanner& scanner, bool& bit) {
  uint32_t value;
  if (!scanner.number(1, value)) return false;
  bit = value == 1;
  return true;
}

bool poke_bit(text::Scanner& scanner, bool& place) {
  bool value;
  if (!read_bit(scanner, value) || !scanner.at_end()) return false;
  place = value;
  return true;
}

// A decimal or `nobody`.
bool poke_owner(text::Scanner& scanner, kernel::Mutex& mutex) {
  const uint64_t word = scanner.word();
  uint32_t owner = 0;
  if (word == 0 ? !scanner.number(calls::kNumber.most, owner) : word != word_key("nobody")) {
    return false;
  }
  if (!scanner.at_end()) return false;
  mutex.owned = word == 0;
  mutex.owner = owner;
  return true;
}

bool read_end(text::Scanner& scanner, End& end) {
  const uint64_t word = scanner.word();
  end = word == word_key("front") ? End::front : End::back;
  return word == word_key("front") || word == word_key("back");
}

// `none`, `sleep.L`, `flag.I.L`, `mutex.I.L`, `push.I.END.ITEM`, `pop.I.END.L`.
bool read_wait(text::Scanner& scanner, Wait& wait) {
  switch (scanner.word()) {
    case word_key("none"): wait.kind = WaitKind::none; break;
    case word_key("sleep"): wait.kind = WaitKind::sleep; break;
    case word_key("flag"): wait.kind = WaitKind::flag; break;
    case word_key("mutex"): wait.kind = WaitKind::mutex; break;
    case word_key("push"): wait.kind = WaitKind::push; break;
    case word_key("pop"): wait.kind = WaitKind::pop; break;
    default: return false;
  }
  if (wait.kind == WaitKind::none) return true;
  if (wait.kind != WaitKind::sleep) {
    if (!scanner.byte('.') || !scanner.number(calls::kNumber.most, wait.service)) return false;
  }
  if (wait.kind == WaitKind::push || wait.kind == WaitKind::pop) {
    if (!scanner.byte('.') || !read_end(scanner, wait.end)) return false;
  }
  if (!scanner.byte('.')) return false;
  return wait.kind == WaitKind::push ? scanner.number(calls::kNumber.most, wait.item)
                                     : read_bit(scanner, wait.limited);
}

bool poke_wait(text::Scanner& scanner, Wait& place) {
  Wait wait;
  if (!read_wait(scanner, wait) || !scanner.at_end()) return false;
  place = wait;
  return true;
}

// The number of slots of a field; 0 for one that stands once, or unknown.
uint32_t slots_of(uint64_t field) {
  switch (field) {
    case word_key("counter"):
    case word_key("wait"): return kernel::kMaxProcesses;
    case word_key("on"):
    case word_key("waiters"): return kernel::kMaxFlags;
    case word_key("owner"):
    case word_key("lockers"): return kernel::kMaxMutexes;
    case word_key("capacity"):
    case word_key("first"):
    case word_key("count"):
    case word_key("readers"):
    case word_key("writers"): return kernel::kMaxChannels;
    default: return 0;
  }
}

bool poke(text::Scanner& scanner, kernel::Record& record) {
  if (!scanner.byte(',')) return false;
  const uint64_t field = scanner.word();
  if (!scanner.byte(',')) return false;
  const uint32_t slots = slots_of(field);
  uint32_t i = 0;
  if (slots > 0 && !scanner.number(slots - 1, i)) return false;
  if (!scanner.byte(',')) return false;
  switch (field) {
    case word_key("processes"): return poke_number(scanner, record.processes);
    case word_key("flags"): return poke_number(scanner, record.flags);
    case word_key("mutexes"): return poke_number(scanner, record.mutexes);
    case word_key("channels"): return poke_number(scanner, record.channels);
    case word_key("mode"): return poke_number(scanner, record.mode);
    case word_key("depth"): return poke_number(scanner, record.depth);
    case word_key("running"): return poke_number(scanner, record.running);
    case word_key("next"): return poke_number(scanner, record.next);
    case word_key("ready"): return poke_number(scanner, record.ready.bits);
    case word_key("ticks"): return poke_number(scanner, record.ticks);
    case word_key("counter"): return poke_counter(scanner, record.process[i].counter);
    case word_key("wait"): return poke_wait(scanner, record.process[i].wait);
    case word_key("on"): return poke_bit(scanner, record.flag[i].on);
    case word_key("waiters"): return poke_number(scanner, record.flag[i].waiters.bits);
    case word_key("owner"): return poke_owner(scanner, record.mutex[i]);
    case word_key("lockers"): return poke_number(scanner, record.mutex[i].lockers.bits);
    case word_key("capacity"): return poke_number(scanner, record.channel[i].capacity);
    case word_key("first"): return poke_number(scanner, record.channel[i].first);
    case word_key("count"): return poke_number(scanner, record.channel[i].count);
    case word_key("readers"): return poke_number(scanner, record.channel[i].readers.bits);
    case word_key("writers"): return poke_number(scanner, record.channel[i].writers.bits);
    default: return false;
  }
}

// ---- Calls.

kernel::Answer make_call(State& state, Word word, uint32_t a, uint32_t b) {
  kernel::Kernel<true> core(state.record, state.room.slice());
  switch (word) {
    case Word::writeb: return core.write_from_interrupt(a, state.block.slice());
    case Word::readb: return core.read_from_interrupt(a, state.block.slice());
    case Word::running: return core.running();
    case Word::next: return core.next();
    case Word::ready: return core.ready();
    case Word::ticks: return core.ticks();
    case Word::flag: return core.flag_state(a);
    case Word::owner: return core.owner(a);
    case Word::count: return core.item_count(a);
    case Word::free: return core.free_places(a);
    default: return calls::make(core, word, a, b);
  }
}

// Does what the record says, behind its word; false if it is unreadable.
bool perform(State& state, text::Scanner& scanner, const calls::Form& form,
             kernel::Answer& answer) {
  answer = {kernel::Reply::done, 0};
  if (form.word == Word::poke) return poke(scanner, state.record);
  if (form.word == Word::setup) {
    kernel::Setup setup;
    if (!read_setup(scanner, setup)) return false;
    answer = set_up(state, setup);
    return true;
  }
  uint32_t a = 0;
  uint32_t b = 0;
  if (!calls::read_fields(scanner, form, a, b)) return false;
  if (form.word == Word::room) {
    state.room.clear(a);
  } else if (form.word == Word::block) {
    fill_block(state, a, b);
  } else {
    answer = make_call(state, form.word, a, b);
  }
  return true;
}

// ---- Changes: "Output".

void put_end(text::Writer& writer, End end) {
  writer.put(end == End::front ? ".front." : ".back.");
}

void put_value(text::Writer& writer, uint32_t value) { writer.put(value); }
void put_value(text::Writer& writer, kernel::ProcessMap map) { writer.put(map.bits); }

void put_value(text::Writer& writer, const Wait& wait) {
  static constexpr text::Label kKinds[] = {{"none"},   {"sleep."}, {"flag."},
                                           {"mutex."}, {"push."},  {"pop."}};
  const uint32_t limited = wait.limited ? 1 : 0;
  writer.put(kKinds[static_cast<size_t>(wait.kind)]);
  switch (wait.kind) {
    case WaitKind::none:
      break;
    case WaitKind::sleep:
      writer.put(limited);
      break;
    case WaitKind::flag:
    case WaitKind::mutex:
      writer.put(wait.service);
      writer.put('.');
      writer.put(limited);
      break;
    case WaitKind::push:
      writer.put(wait.service);
      put_end(writer, wait.end);
      writer.put(wait.item);
      break;
    case WaitKind::pop:
      writer.put(wait.service);
      put_end(writer, wait.end);
      writer.put(limited);
      break;
  }
}

bool same(uint32_t one, uint32_t other) { return one == other; }
bool same(kernel::ProcessMap one, kernel::ProcessMap other) { return one.bits == other.bits; }
bool same(const Wait& one, const Wait& other) {
  return one.kind == other.kind && one.end == other.end && one.limited == other.limited &&
         one.service == other.service && one.item == other.item;
}

// Remembers the state as it was last shown, and shows what differs from it.
class Changes {
 public:
  explicit Changes(text::Writer& writer) : writer_(writer) {}

  void show(const State& now) {
    const kernel::Record& record = now.record;
    once("processes", shown_.record.processes, record.processes);
    once("flags", shown_.record.flags, record.flags);
    once("mutexes", shown_.record.mutexes, record.mutexes);
    once("channels", shown_.record.channels, record.channels);
    once("mode", shown_.record.mode, record.mode);
    once("depth", shown_.record.depth, record.depth);
    once("running", shown_.record.running, record.running);
    once("next", shown_.record.next, record.next);
    once("ready", shown_.record.ready, record.ready);
    once("ticks", shown_.record.ticks, record.ticks);
    for (uint32_t p = 0; p < kernel::kMaxProcesses; ++p) {
      slot("counter.", p, shown_.record.process[p].counter, record.process[p].counter);
      slot("wait.", p, shown_.record.process[p].wait, record.process[p].wait);
    }
    for (uint32_t f = 0; f < kernel::kMaxFlags; ++f) {
      slot("on.", f, shown_.record.flag[f].on, record.flag[f].on);
      slot("waiters.", f, shown_.record.flag[f].waiters, record.flag[f].waiters);
    }
    for (uint32_t m = 0; m < kernel::kMaxMutexes; ++m) {
      owner(m, shown_.record.mutex[m], record.mutex[m]);
      slot("lockers.", m, shown_.record.mutex[m].lockers, record.mutex[m].lockers);
    }
    for (uint32_t c = 0; c < kernel::kMaxChannels; ++c) {
      slot("capacity.", c, shown_.record.channel[c].capacity, record.channel[c].capacity);
      slot("first.", c, shown_.record.channel[c].first, record.channel[c].first);
      slot("count.", c, shown_.record.channel[c].count, record.channel[c].count);
      slot("readers.", c, shown_.record.channel[c].readers, record.channel[c].readers);
      slot("writers.", c, shown_.record.channel[c].writers, record.channel[c].writers);
    }
    once("rooms", shown_.room.length, now.room.length);
    words("room.", shown_.room, now.room);
    once("blocks", shown_.block.length, now.block.length);
    words("block.", shown_.block, now.block);
  }

 private:
  template <class Value>
  void once(std::string_view name, Value& shown, const Value& now) {
    if (same(shown, now)) return;
    writer_.put(',');
    writer_.put(name);
    writer_.put('=');
    put_value(writer_, now);
    shown = now;
  }

  template <class Value>
  void slot(std::string_view name, uint32_t index, Value& shown, const Value& now) {
    if (same(shown, now)) return;
    put_slot(name, index);
    put_value(writer_, now);
    shown = now;
  }

  void owner(uint32_t index, kernel::Mutex& shown, const kernel::Mutex& now) {
    if (shown.owned == now.owned && shown.owner == now.owner) return;
    put_slot("owner.", index);
    if (now.owned) {
      writer_.put(now.owner);
    } else {
      writer_.put("nobody");
    }
    shown.owned = now.owned;
    shown.owner = now.owner;
  }

  template <uint32_t Most>
  void words(std::string_view name, Words<Most>& shown, const Words<Most>& now) {
    if (std::equal(shown.word, shown.word + Most, now.word)) return;
    for (uint32_t i = 0; i < Most; ++i) slot(name, i, shown.word[i], now.word[i]);
  }

  void put_slot(std::string_view name, uint32_t index) {
    writer_.put(',');
    writer_.put(name);
    writer_.put(index);
    writer_.put('=');
  }

  text::Writer& writer_;
  State shown_;
};

void replay(text::Reader& reader, text::Writer& writer) {
  const calls::Forms forms(kReplayForms);
  State state;
  Changes changes(writer);
  writer.put("call,answer,value,changes");
  writer.end_line();

  std::string_view record;
  reader.next(record);   // the header is skipped
  while (reader.next(record)) {
    text::Scanner scanner(record);
    kernel::Answer answer;
    const calls::Form* form = nullptr;
    if (record.size() <= text::kLongestRecord) form = forms.find(scanner.word());
    if (form == nullptr || !perform(state, scanner, *form, answer)) {
      writer.put("?,refused,15");
      writer.end_line();
      continue;
    }
    writer.put(form->label);
    calls::put_answer(writer, answer);
    changes.show(state);
    writer.end_line();
  }
}

}  // namespace

int main(int argc, char** argv) { return text::run(argc, argv, replay); }
