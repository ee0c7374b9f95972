// The calls that the trace and the replay program have in common: their words,
// their fields, and how each is made. Document 01, "Trace program".

#ifndef CALLS_H
#define CALLS_H

#include <array>
#include <cstdint>

#include "kernel.h"
#include "text.h"

namespace calls {

enum class Word : uint8_t {
  // in both programs
  enter, exit, tick, switch_process, finish,
  sleep, signal, signali, clear, try_lock, unlock, unlocki, flush, wake, force,
  wait, lock, pop, popback, push, pushfront,
  // in the trace program only
  direct, deferred, writei, readi,
  // in the replay program only
  writeb, readb, running, next, ready, ticks, flag, owner, count, free,
  setup, room, block, poke,
};

// What may stand in a field: nothing, or a number up to `most`.
struct Field {
  bool used;
  uint32_t most;
};

constexpr Field kUnused = {false, 0};
constexpr Field kNumber = {true, 4294967295};
constexpr Field kLimit = {true, 65535};

// A word with its two fields a and b.
struct Form {
  text::Label label;
  Word word;
  Field a;
  Field b;
};

inline constexpr Form kSharedForms[] = {
    {{"enter"}, Word::enter, kUnused, kUnused},
    {{"exit"}, Word::exit, kUnused, kUnused},
    {{"tick"}, Word::tick, kUnused, kUnused},
    {{"switch"}, Word::switch_process, kUnused, kUnused},
    {{"finish"}, Word::finish, kUnused, kUnused},
    {{"sleep"}, Word::sleep, kLimit, kUnused},
    {{"signal"}, Word::signal, kNumber, kUnused},
    {{"signali"}, Word::signali, kNumber, kUnused},
    {{"clear"}, Word::clear, kNumber, kUnused},
    {{"try"}, Word::try_lock, kNumber, kUnused},
    {{"unlock"}, Word::unlock, kNumber, kUnused},
    {{"unlocki"}, Word::unlocki, kNumber, kUnused},
    {{"flush"}, Word::flush, kNumber, kUnused},
    {{"wake"}, Word::wake, kNumber, kUnused},
    {{"force"}, Word::force, kNumber, kUnused},
    {{"wait"}, Word::wait, kNumber, kLimit},
    {{"lock"}, Word::lock, kNumber, kLimit},
    {{"pop"}, Word::pop, kNumber, kLimit},
    {{"popback"}, Word::popback, kNumber, kLimit},
    {{"push"}, Word::push, kNumber, kNumber},
    {{"pushfront"}, Word::pushfront, kNumber, kNumber},
};

// Finds a form by its word: a hash table with linear probing, never full.
class Forms {
 public:
  template <size_t N>
  explicit Forms(const Form (&own)[N]) {
    for (const Form& form : kSharedForms) insert(form);
    for (const Form& form : own) insert(form);
  }

  // Null for a key that is no word.
  const Form* find(uint64_t key) const {
    size_t slot = home(key);
    while (slots_[slot].key != key) {
      if (slots_[slot].key == 0) return nullptr;
      slot = (slot + 1) % kSlots;
    }
    return slots_[slot].form;
  }

 private:
  struct Slot {
    uint64_t key = 0;
    const Form* form = nullptr;
  };

  static constexpr size_t kSlots = 256;

  static size_t home(uint64_t key) { return (key * 0x9E3779B97F4A7C15u) >> 56; }

  void insert(const Form& form) {
    const uint64_t key = text::word_key({form.label.bytes, form.label.length});
    size_t slot = home(key);
    while (slots_[slot].key != 0) slot = (slot + 1) % kSlots;
    slots_[slot] = {key, &form};
  }

  std::array<Slot, kSlots> slots_;
};

// Reads ",a,b" and the end of the record. An unused field is empty, so there
// is nothing to read in it, and what follows must stand there at once.
inline bool read_fields(text::Scanner& scanner, const Form& form, uint32_t& a, uint32_t& b) {
  if (!scanner.byte(',')) return false;
  if (form.a.used && !scanner.number(form.a.most, a)) return false;
  if (!scanner.byte(',')) return false;
  if (form.b.used && !scanner.number(form.b.most, b)) return false;
  return scanner.at_end();
}

// Makes a call of `kSharedForms`.
template <bool Checked>
kernel::Answer make(kernel::Kernel<Checked>& core, Word word, uint32_t a, uint32_t b) {
  using kernel::End;
  switch (word) {
    case Word::enter: return core.enter();
    case Word::exit: return core.exit();
    case Word::tick: return core.tick();
    case Word::switch_process: return core.switch_process();
    case Word::finish: return core.finish();
    case Word::sleep: return core.sleep(static_cast<uint16_t>(a));
    case Word::signal: return core.signal(a);
    case Word::signali: return core.signal_from_interrupt(a);
    case Word::clear: return core.clear(a);
    case Word::try_lock: return core.try_lock(a);
    case Word::unlock: return core.unlock(a);
    case Word::unlocki: return core.unlock_from_interrupt(a);
    case Word::flush: return core.flush(a);
    case Word::wake: return core.wake(a);
    case Word::force: return core.force(a);
    case Word::wait: return core.wait(a, static_cast<uint16_t>(b));
    case Word::lock: return core.lock(a, static_cast<uint16_t>(b));
    case Word::pop: return core.pop(a, End::front, static_cast<uint16_t>(b));
    case Word::popback: return core.pop(a, End::back, static_cast<uint16_t>(b));
    case Word::push: return core.push(a, End::back, b);
    case Word::pushfront: return core.push(a, End::front, b);
    default: throw std::logic_error("not a shared call");
  }
}

// Puts ",answer,number"; the number only where the answer carries one.
inline void put_answer(text::Writer& writer, kernel::Answer answer) {
  static constexpr text::Label kReplies[] = {{",done,"}, {",waiting,"}, {",timedout,"},
                                             {",busy,"}, {",value,"},   {",refused,"}};
  writer.put(kReplies[static_cast<size_t>(answer.reply)]);
  if (answer.reply == kernel::Reply::value || answer.reply == kernel::Reply::refused) {
    writer.put(answer.number);
  }
}

}  // namespace calls

#endif
