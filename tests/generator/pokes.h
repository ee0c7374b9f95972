// Pokes: damage to a record and its mending, and whole records that no call
// could have made.

#ifndef GENERATOR_POKES_H
#define GENERATOR_POKES_H

#include <cstdint>
#include <initializer_list>
#include <utility>
#include <vector>

#include "fields.h"
#include "pod.h"
#include "random.h"

namespace generator {

class Poker {
 public:
  explicit Poker(Random& random) : random_(random) {}

  // A poke that keeps a sound record sound.
  Poke harmless(kernel::Record& record) {
    const uint32_t flags = record.flags, mutexes = record.mutexes, channels = record.channels;
    const uint32_t f = random_.below(flags);
    const uint32_t m = random_.below(mutexes);
    const uint32_t c = random_.below(channels);
    switch (random_.below(6)) {
      case 0:
        if (flags > 0) return number(Field::on, f, random_.below(2));
        break;
      case 1:
        if (mutexes > 0) return owner(m, random_.below(record.processes - 1));
        break;
      case 2:
        if (channels > 0) return number(Field::first, c, random_.below(record.channel[c].capacity));
        break;
      case 3:
        if (channels > 0) {
          return number(Field::count, c, random_.below(record.channel[c].capacity + 1));
        }
        break;
      case 4: return beyond_the_counts(record);
      default: break;
    }
    // near the wrap, for the tick count has 32 bits
    return number(Field::ticks, 0, random_.chance(50) ? 0u - random_.below(4) : random_.word());
  }

  // A poke near what the record holds: sound or not by a hair.
  Poke near(kernel::Record& record) {
    const uint32_t n = record.processes;
    Poke poke = {static_cast<Field>(random_.below(kFieldCount)), 0, {}};
    // most of them at the processes and maps, where most rules look
    if (random_.chance(65)) {
      static constexpr Field kOften[] = {Field::wait,    Field::wait,    Field::wait,
                                         Field::counter, Field::counter, Field::ready,
                                         Field::waiters, Field::lockers, Field::readers,
                                         Field::writers, Field::owner,   Field::next};
      poke.field = random_.one_of(kOften);
    }
    poke.index = slot(record, poke.field);
    poke.value = value_in(record, poke.field, poke.index);
    uint32_t& now = poke.value.number;
    switch (poke.field) {
      case Field::processes: now = one({0, 1, 2, n - 1, n + 1, 31, 32, 33, n + 256}); break;
      case Field::flags: now = one({0, now - 1, now + 1, 8, 9, now + 256}); break;
      case Field::mutexes: now = one({0, now - 1, now + 1, 8, 9, now + 256}); break;
      case Field::channels: now = one({0, now - 1, now + 1, 4, 5, now + 256}); break;
      case Field::mode: now = one({0, 1, 2, 255, 256, 0xFFFFFFFF}); break;
      case Field::depth: now = one({0, 1, now + 1, now - 1, 7, 8, 9, 256}); break;
      case Field::running:
      case Field::next: now = one({random_.below(n), random_.below(n), n - 1, n, now + 32}); break;
      case Field::ticks: now = random_.item(); break;
      case Field::counter: now = one({0, 1, 2, 65535}); break;
      case Field::wait: poke.value.wait = near_wait(record, poke.value.wait); break;
      case Field::on: now = random_.below(2); break;
      case Field::owner: {
        const uint32_t p = one({random_.below(n), n - 2, n - 1, n, random_.word()});
        poke.value = owner(0, p).value;
        break;
      }
      case Field::capacity: now = one({0, 1, now - 1, now + 1, 64, 65, now + 256}); break;
      case Field::first: {
        const uint32_t capacity = record.channel[poke.index].capacity;
        now = one({0, capacity - 1, capacity, capacity + 1, now + 256});
        break;
      }
      case Field::count: {
        const uint32_t capacity = record.channel[poke.index].capacity;
        now = one({0, capacity, capacity + 1, now + 256});
        break;
      }
      default: now ^= uint32_t{1} << random_.below(random_.chance(70) ? n : 32); break;   // a map
    }
    return poke;
  }

  // A poke of any field and slot with any value that it can hold.
  Poke any() {
    Poke poke = {static_cast<Field>(random_.below(kFieldCount)), 0, {}};
    poke.index = random_.below(shape_of(poke.field).slots);
    poke.value = any_value(poke.field);
    return poke;
  }

  // Pokes that put a process which does not exist, with a wait of its own, into
  // a map: by its wait alone it would belong there (01, sound, rule 2).
  std::vector<Poke> ghost(kernel::Record& record) {
    if (record.processes == kernel::kMaxProcesses) return {};
    const uint32_t p = random_.between(record.processes, kernel::kMaxProcesses - 1);
    Poke wait = {Field::wait, p, {}};
    wait.value.wait = any_wait(0);
    if (!place_waiter(record, wait.value.wait)) return {};
    const Field field = map_of(wait.value.wait.kind);
    const uint32_t service = wait.value.wait.service;
    Poke map = {field, service, value_in(record, field, service)};
    map.value.number |= uint32_t{1} << p;
    return {wait, map};
  }

  // The pokes that make a random sound record with the same counts and
  // capacities: waits of all kinds in all states, also such as no calls lead to.
  std::vector<Poke> to_a_sound_record(kernel::Record& record) {
    kernel::Record target = random_sound(record);
    std::vector<Poke> pokes;
    for (uint32_t f = 0; f < kFieldCount; ++f) {
      const Field field = static_cast<Field>(f);
      const uint32_t slots = shape_of(field).slots;
      for (uint32_t i = 0; i == 0 || i < slots; ++i) {
        const Poke poke = {field, i, value_in(target, field, i)};
        if (text_of(poke) != text_of(Poke{field, i, value_in(record, field, i)})) {
          pokes.push_back(poke);
        }
      }
    }
    // in any order: each order damages the record in another way
    for (size_t i = pokes.size(); i > 1; --i) std::swap(pokes[i - 1], pokes[random_.below(i)]);
    return pokes;
  }

 private:
  static Poke number(Field field, uint32_t index, uint32_t value) {
    Poke poke = {field, index, {}};
    poke.value.number = value;
    return poke;
  }

  Poke owner(uint32_t mutex, uint32_t process) {
    Poke poke = number(Field::owner, mutex, process);
    poke.value.nobody = random_.chance(30);
    if (poke.value.nobody) poke.value.number = 0;
    return poke;
  }

  uint32_t one(std::initializer_list<uint32_t> choices) {
    return choices.begin()[random_.below(choices.size())];
  }

  // A slot that is in use, mostly.
  uint32_t slot(const kernel::Record& record, Field field) {
    const uint32_t slots = shape_of(field).slots;
    uint32_t used = slots;
    if (slots == kernel::kMaxProcesses) used = record.processes;
    if (field == Field::on || field == Field::waiters) used = record.flags;
    if (field == Field::owner || field == Field::lockers) used = record.mutexes;
    if (slots == kernel::kMaxChannels) used = record.channels;
    if (used > slots || random_.chance(15)) used = 0;   // of a damaged record too
    return random_.below(used == 0 ? slots : used);
  }

  Poke beyond_the_counts(const kernel::Record& record) {
    for (int tries = 0; tries < 20; ++tries) {
      Poke poke = any();
      const uint32_t i = poke.index;
      const uint32_t slots = shape_of(poke.field).slots;
      const bool flag = poke.field == Field::on || poke.field == Field::waiters;
      const bool mutex = poke.field == Field::owner || poke.field == Field::lockers;
      if ((slots == kernel::kMaxProcesses && i >= record.processes) ||
          (flag && i >= record.flags) || (mutex && i >= record.mutexes) ||
          (slots == kernel::kMaxChannels && i >= record.channels)) {
        return poke;
      }
    }
    return number(Field::ticks, 0, random_.word());
  }

  kernel::Wait any_wait(uint32_t service) {
    kernel::Wait wait;
    wait.kind = static_cast<kernel::WaitKind>(random_.below(6));
    using kernel::WaitKind;
    if (wait.kind == WaitKind::none) return wait;
    if (wait.kind != WaitKind::sleep) wait.service = service;
    if (wait.kind == WaitKind::push || wait.kind == WaitKind::pop) {
      wait.end = random_.chance(50) ? kernel::End::front : kernel::End::back;
    }
    if (wait.kind == WaitKind::push) {
      wait.item = random_.item();
    } else {
      wait.limited = random_.chance(50);
    }
    return wait;
  }

  // Another limit, or another wait on a service at the border of those there are.
  kernel::Wait near_wait(const kernel::Record& record, kernel::Wait wait) {
    using kernel::WaitKind;
    if (wait.kind != WaitKind::none && wait.kind != WaitKind::push && random_.chance(40)) {
      wait.limited = !wait.limited;
      return wait;
    }
    if (wait.kind == WaitKind::none || random_.chance(50)) wait = any_wait(0);
    if (wait.kind <= WaitKind::sleep) return wait;
    const uint32_t count = services(record, wait.kind);
    wait.service = one({0, count - 1, count, count, count + 1, count + 256, random_.below(count)});
    return wait;
  }

  Value any_value(Field field) {
    Value value;
    value.number = random_.chance(50) ? random_.below(70) : random_.item();
    if (field == Field::counter) value.number &= 0xFFFF;
    if (field == Field::on) value.number &= 1;
    if (field == Field::owner && random_.chance(30)) value = owner(0, 0).value;
    if (field == Field::wait) value.wait = any_wait(random_.item());
    return value;
  }

  static uint32_t services(const kernel::Record& record, kernel::WaitKind kind) {
    switch (kind) {
      case kernel::WaitKind::flag: return record.flags;
      case kernel::WaitKind::mutex: return record.mutexes;
      case kernel::WaitKind::push:
      case kernel::WaitKind::pop: return record.channels;
      default: return 0;
    }
  }

  // Lets a wait name a service that there is; false if there is none.
  bool place_waiter(const kernel::Record& record, kernel::Wait& wait) {
    const uint32_t count = services(record, wait.kind);
    wait.service = random_.below(count);
    return count > 0;
  }

  static Field map_of(kernel::WaitKind kind) {
    switch (kind) {
      case kernel::WaitKind::flag: return Field::waiters;
      case kernel::WaitKind::mutex: return Field::lockers;
      case kernel::WaitKind::push: return Field::writers;
      default: return Field::readers;
    }
  }

  kernel::Record random_sound(const kernel::Record& like) {
    kernel::Record record = like;
    const uint32_t n = record.processes;
    record.mode = random_.below(2);
    record.depth = random_.chance(50) ? 0 : random_.between(1, 8);
    record.ready.bits = kernel::kTags[n - 1].mask;
    for (uint32_t f = 0; f < record.flags; ++f) record.flag[f] = {random_.chance(50), {}};
    for (uint32_t m = 0; m < record.mutexes; ++m) {
      record.mutex[m] = {};
      record.mutex[m].owned = random_.chance(60);
      if (record.mutex[m].owned) record.mutex[m].owner = random_.below(n - 1);
    }
    for (uint32_t c = 0; c < record.channels; ++c) {
      kernel::Channel& channel = record.channel[c];
      channel.readers = channel.writers = {};
      channel.first = random_.below(channel.capacity);
      channel.count = one({0, channel.capacity, random_.below(channel.capacity + 1)});
    }
    for (uint32_t p = 0; p + 1 < n; ++p) random_process(record, p);
    const uint32_t lowest = __builtin_ctz(record.ready.bits);
    record.next = lowest;
    if (record.depth > 0) {
      while (!record.ready.has(kernel::kTags[record.next = random_.below(n)])) {}
    }
    record.running = record.mode == kernel::kDirect ? record.next : random_.below(n);
    return record;
  }

  // Rules 3 to 5: without an open wait; not ready and in its map; ready but
  // still in its map; ready and out of it, perhaps with time left.
  void random_process(kernel::Record& record, uint32_t p) {
    using kernel::WaitKind;
    const kernel::Tag tag = kernel::kTags[p];
    kernel::Process& process = record.process[p];
    process = {};
    kernel::Wait wait = any_wait(0);
    if (wait.kind > WaitKind::sleep && !place_waiter(record, wait)) wait = {};
    uint32_t* map = nullptr;
    if (wait.kind > WaitKind::sleep) map = place_of(record, map_of(wait.kind), wait.service);
    process.wait = wait;
    const uint16_t time = static_cast<uint16_t>(one({1, 2, 65535}));
    if (wait.kind != WaitKind::none && random_.chance(60)) {
      if (map != nullptr) *map |= tag.mask;
      if (wait.limited) process.counter = time;
      return;
    }
    record.ready.add(tag);
    if (map == nullptr) return;
    if (random_.chance(40)) {
      *map |= tag.mask;
    } else if (wait.limited && random_.chance(60)) {
      process.counter = time;
    }
  }

  Random& random_;
};

}  // namespace generator

#endif
