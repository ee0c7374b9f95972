// The fields of a record, as `poke` names and writes them: REPLAY.md, "Input
// words" and "Fields".

#ifndef GENERATOR_FIELDS_H
#define GENERATOR_FIELDS_H

#include <cstddef>
#include <cstdint>
#include <string>

#include "../../second/kernel.h"

namespace generator {

enum class Field : uint8_t {
  processes, flags, mutexes, channels, mode, depth, running, next, ready, ticks,
  counter, wait, on, waiters, owner, lockers, capacity, first, count, readers, writers,
};

struct FieldShape {
  const char* name;
  uint32_t slots;   // 0 for a field that stands once
};

constexpr FieldShape kFields[] = {
    {"processes", 0}, {"flags", 0},    {"mutexes", 0}, {"channels", 0}, {"mode", 0},
    {"depth", 0},     {"running", 0},  {"next", 0},    {"ready", 0},    {"ticks", 0},
    {"counter", 32},  {"wait", 32},    {"on", 8},      {"waiters", 8},  {"owner", 8},
    {"lockers", 8},   {"capacity", 4}, {"first", 4},   {"count", 4},    {"readers", 4},
    {"writers", 4},
};
constexpr uint32_t kFieldCount = sizeof kFields / sizeof *kFields;

inline const FieldShape& shape_of(Field field) { return kFields[static_cast<size_t>(field)]; }

struct Value {
  uint32_t number = 0;
  bool nobody = false;   // of an owner
  kernel::Wait wait;     // of a wait
};

struct Poke {
  Field field;
  uint32_t index;
  Value value;
};

// The place of a field that holds a plain number of 32 bits; none for the rest.
inline uint32_t* place_of(kernel::Record& record, Field field, uint32_t index) {
  switch (field) {
    case Field::processes: return &record.processes;
    case Field::flags: return &record.flags;
    case Field::mutexes: return &record.mutexes;
    case Field::channels: return &record.channels;
    case Field::mode: return &record.mode;
    case Field::depth: return &record.depth;
    case Field::running: return &record.running;
    case Field::next: return &record.next;
    case Field::ready: return &record.ready.bits;
    case Field::ticks: return &record.ticks;
    case Field::waiters: return &record.flag[index].waiters.bits;
    case Field::lockers: return &record.mutex[index].lockers.bits;
    case Field::capacity: return &record.channel[index].capacity;
    case Field::first: return &record.channel[index].first;
    case Field::count: return &record.channel[index].count;
    case Field::readers: return &record.channel[index].readers.bits;
    case Field::writers: return &record.channel[index].writers.bits;
    default: return nullptr;
  }
}

inline Value value_in(kernel::Record& record, Field field, uint32_t index) {
  Value value;
  if (const uint32_t* place = place_of(record, field, index)) {
    value.number = *place;
  } else if (field == Field::counter) {
    value.number = record.process[index].counter;
  } else if (field == Field::wait) {
    value.wait = record.process[index].wait;
  } else if (field == Field::on) {
    value.number = record.flag[index].on ? 1 : 0;
  } else {
    value.number = record.mutex[index].owner;
    value.nobody = !record.mutex[index].owned;
  }
  return value;
}

inline void apply(kernel::Record& record, const Poke& poke) {
  if (uint32_t* place = place_of(record, poke.field, poke.index)) {
    *place = poke.value.number;
  } else if (poke.field == Field::counter) {
    record.process[poke.index].counter = static_cast<uint16_t>(poke.value.number);
  } else if (poke.field == Field::wait) {
    record.process[poke.index].wait = poke.value.wait;
  } else if (poke.field == Field::on) {
    record.flag[poke.index].on = poke.value.number == 1;
  } else {
    record.mutex[poke.index].owned = !poke.value.nobody;
    record.mutex[poke.index].owner = poke.value.nobody ? 0 : poke.value.number;
  }
}

inline std::string text_of(const kernel::Wait& wait) {
  const std::string service = "." + std::to_string(wait.service);
  const std::string end = wait.end == kernel::End::front ? ".front" : ".back";
  const std::string limited = wait.limited ? ".1" : ".0";
  switch (wait.kind) {
    case kernel::WaitKind::none: return "none";
    case kernel::WaitKind::sleep: return "sleep" + limited;
    case kernel::WaitKind::flag: return "flag" + service + limited;
    case kernel::WaitKind::mutex: return "mutex" + service + limited;
    case kernel::WaitKind::push: return "push" + service + end + "." + std::to_string(wait.item);
    case kernel::WaitKind::pop: return "pop" + service + end + limited;
  }
  return "";
}

inline std::string text_of(const Poke& poke) {
  const FieldShape& shape = shape_of(poke.field);
  std::string text = std::string("poke,") + shape.name + ",";
  if (shape.slots > 0) text += std::to_string(poke.index);
  text += ",";
  if (poke.field == Field::wait) return text + text_of(poke.value.wait);
  if (poke.field == Field::owner && poke.value.nobody) return text + "nobody";
  return text + std::to_string(poke.value.number);
}

}  // namespace generator

#endif
