#include "kernel.h"

#include <algorithm>

namespace kernel {

namespace {

constexpr Answer kDone = {Reply::done, 0};

constexpr Answer value(uint32_t number) { return {Reply::value, number}; }

// The map of all processes numbered below `processes`, which is 2 to 32.
uint32_t all_processes(uint32_t processes) {
  return ~uint32_t{0} >> (kMaxProcesses - processes);
}

uint32_t lowest_process(ProcessMap map) { return __builtin_ctz(map.bits); }

// The service map of a wait on an existing service; none for sleep.
template <class AnyRecord>
auto map_of(AnyRecord& record, const Wait& wait) -> decltype(&record.ready) {
  switch (wait.kind) {
    case WaitKind::flag: return &record.flag[wait.service].waiters;
    case WaitKind::mutex: return &record.mutex[wait.service].lockers;
    case WaitKind::push: return &record.channel[wait.service].writers;
    case WaitKind::pop: return &record.channel[wait.service].readers;
    default: return nullptr;
  }
}

// Soundness, rule 1: everything is within its limits.
bool limits_hold(const Record& record) {
  if (record.processes < kMinProcesses || record.processes > kMaxProcesses) return false;
  if (record.flags > kMaxFlags) return false;
  if (record.mutexes > kMaxMutexes) return false;
  if (record.channels > kMaxChannels) return false;
  if (record.mode != kDirect && record.mode != kDeferred) return false;
  if (record.depth > kMaxDepth) return false;
  if (record.running >= record.processes) return false;
  if (record.next >= record.processes) return false;
  for (uint32_t c = 0; c < record.channels; ++c) {
    const Channel& channel = record.channel[c];
    if (channel.capacity < kMinCapacity || channel.capacity > kMaxCapacity) return false;
    if (channel.first >= channel.capacity) return false;
    if (channel.count > channel.capacity) return false;
  }
  return true;
}

// Everybody who is in the map of some service.
ProcessMap in_service_maps(const Record& record) {
  ProcessMap all;
  for (uint32_t f = 0; f < record.flags; ++f) all.bits |= record.flag[f].waiters.bits;
  for (uint32_t m = 0; m < record.mutexes; ++m) all.bits |= record.mutex[m].lockers.bits;
  for (uint32_t c = 0; c < record.channels; ++c) {
    all.bits |= record.channel[c].readers.bits | record.channel[c].writers.bits;
  }
  return all;
}

// Rule 2: no map has a bit at n or above; idle is ready and waits for nothing.
bool maps_and_idle_hold(const Record& record, ProcessMap in_services) {
  if (((record.ready.bits | in_services.bits) & ~all_processes(record.processes)) != 0) {
    return false;
  }
  const Process& idle = record.process[record.processes - 1];
  const Tag tag = kTags[record.processes - 1];
  return record.ready.has(tag) && idle.wait.kind == WaitKind::none && idle.counter == 0 &&
         !in_services.has(tag);
}

bool service_exists(const Record& record, const Wait& wait) {
  switch (wait.kind) {
    case WaitKind::flag: return wait.service < record.flags;
    case WaitKind::mutex: return wait.service < record.mutexes;
    case WaitKind::push:
    case WaitKind::pop: return wait.service < record.channels;
    default: return true;
  }
}

// Whether each process in the map has its open wait there.
bool only_waiters_in(const Record& record, ProcessMap map, WaitKind kind, uint32_t service) {
  for (; map.bits != 0; map.remove(kTags[lowest_process(map)])) {
    const Wait& wait = record.process[lowest_process(map)].wait;
    if (wait.kind != kind || wait.service != service) return false;
  }
  return true;
}

// Rule 3: who has no open wait is ready, with counter 0 and in no service map;
// an open wait sleeps or names an existing service, and its process is in no
// map but the wait's.
bool waits_hold(const Record& record, ProcessMap in_services) {
  for (uint32_t p = 0; p < record.processes; ++p) {
    const Process& process = record.process[p];
    if (process.wait.kind == WaitKind::none) {
      if (!record.ready.has(kTags[p]) || process.counter != 0) return false;
      if (in_services.has(kTags[p])) return false;
    } else if (!service_exists(record, process.wait)) {
      return false;
    }
  }
  for (uint32_t f = 0; f < record.flags; ++f) {
    if (!only_waiters_in(record, record.flag[f].waiters, WaitKind::flag, f)) return false;
  }
  for (uint32_t m = 0; m < record.mutexes; ++m) {
    if (!only_waiters_in(record, record.mutex[m].lockers, WaitKind::mutex, m)) return false;
  }
  for (uint32_t c = 0; c < record.channels; ++c) {
    if (!only_waiters_in(record, record.channel[c].readers, WaitKind::pop, c)) return false;
    if (!only_waiters_in(record, record.channel[c].writers, WaitKind::push, c)) return false;
  }
  return true;
}

// Rules 4 and 5, for a record that keeps rule 3.
bool counters_hold(const Record& record) {
  for (uint32_t p = 0; p < record.processes; ++p) {
    const Process& process = record.process[p];
    const bool asleep = process.wait.kind == WaitKind::sleep;
    const ProcessMap* map = map_of(record, process.wait);
    const bool in_map = map != nullptr && map->has(kTags[p]);
    if (!record.ready.has(kTags[p])) {
      // Rule 4: open wait, in its map unless asleep, counter > 0 iff limited.
      if (process.wait.kind == WaitKind::none) return false;
      if (!asleep && !in_map) return false;
      if ((process.counter > 0) != process.wait.limited) return false;
    } else if (!process.wait.limited || asleep || in_map) {
      // Rule 5: a ready process can have time left only outside its map.
      if (process.counter != 0) return false;
    }
  }
  return true;
}

// Rule 6: owners are user processes.
bool owners_hold(const Record& record) {
  for (uint32_t m = 0; m < record.mutexes; ++m) {
    const Mutex& mutex = record.mutex[m];
    if (mutex.owned && mutex.owner >= record.processes - 1) return false;
  }
  return true;
}

// Rule 7: next is ready; at depth 0 it is the lowest-numbered ready process;
// in direct mode it is running.
bool choice_holds(const Record& record) {
  if (!record.ready.has(kTags[record.next])) return false;
  if (record.depth == 0 && record.next != lowest_process(record.ready)) return false;
  return record.mode != kDirect || record.running == record.next;
}

bool within_limits(const Setup& setup) {
  if (setup.mode != kDirect && setup.mode != kDeferred) return false;
  if (setup.processes < kMinProcesses || setup.processes > kMaxProcesses) return false;
  if (setup.flags > kMaxFlags) return false;
  if (setup.mutexes > kMaxMutexes) return false;
  if (setup.channels > kMaxChannels) return false;
  for (uint32_t c = 0; c < setup.channels; ++c) {
    if (setup.capacity[c] < kMinCapacity || setup.capacity[c] > kMaxCapacity) return false;
  }
  return true;
}

// "Room".
void put_back(Channel& channel, uint32_t* part, uint32_t item) {
  part[(channel.first + channel.count) % channel.capacity] = item;
  ++channel.count;
}

void put_front(Channel& channel, uint32_t* part, uint32_t item) {
  channel.first = (channel.first + channel.capacity - 1) % channel.capacity;
  part[channel.first] = item;
  ++channel.count;
}

uint32_t take_front(Channel& channel, const uint32_t* part) {
  const uint32_t item = part[channel.first];
  channel.first = (channel.first + 1) % channel.capacity;
  --channel.count;
  return item;
}

uint32_t take_back(Channel& channel, const uint32_t* part) {
  const uint32_t item = part[(channel.first + channel.count - 1) % channel.capacity];
  --channel.count;
  return item;
}

}  // namespace

bool is_sound(const Record& record) {
  if (!limits_hold(record)) return false;
  const ProcessMap in_services = in_service_maps(record);
  return maps_and_idle_hold(record, in_services) && waits_hold(record, in_services) &&
         counters_hold(record) && owners_hold(record) && choice_holds(record);
}

uint32_t room_length(const Record& record) {
  uint32_t length = 0;
  for (uint32_t c = 0; c < record.channels; ++c) length += record.channel[c].capacity;
  return length;
}

Answer set_up(Record& record, const Setup& setup) {
  record = Record{};
  if (!within_limits(setup)) return refused(Refusal::bad_setup);
  record.processes = setup.processes;
  record.flags = setup.flags;
  record.mutexes = setup.mutexes;
  record.channels = setup.channels;
  record.mode = setup.mode;
  record.ready.bits = all_processes(setup.processes);
  for (uint32_t c = 0; c < setup.channels; ++c) {
    record.channel[c].capacity = setup.capacity[c];
  }
  return kDone;
}

// Refusals 1 and 2.
template <bool Checked>
Refusal Kernel<Checked>::refuse_record(Room room) const {
  if (Checked) {
    if (!is_sound(record_)) return Refusal::not_sound;
    if (room == Room::used && room_.length != room_length(record_)) return Refusal::room_length;
  }
  return Refusal::none;
}

// Refusals 1, 2, 3, 5 and 6.
template <bool Checked>
Refusal Kernel<Checked>::refuse_process_call(Room room) const {
  const Refusal refusal = refuse_record(room);
  if (refusal != Refusal::none) return refusal;
  if (record_.depth > 0) return Refusal::inside_interrupt;
  if (record_.running != record_.next) return Refusal::switch_pending;
  if (!is_user(record_.running)) return Refusal::idle_runs;
  return Refusal::none;
}

// The same and 7, for every process call but finish.
template <bool Checked>
Refusal Kernel<Checked>::refuse_new_process_call(Room room) const {
  const Refusal refusal = refuse_process_call(room);
  if (refusal != Refusal::none) return refusal;
  if (caller().wait.kind != WaitKind::none) return Refusal::open_wait;
  return Refusal::none;
}

// Refusals 1, 2 and 4.
template <bool Checked>
Refusal Kernel<Checked>::refuse_interrupt_call(Room room) const {
  const Refusal refusal = refuse_record(room);
  if (refusal != Refusal::none) return refusal;
  if (record_.depth == 0) return Refusal::outside_interrupt;
  return Refusal::none;
}

template <bool Checked>
void Kernel<Checked>::choose() {
  record_.next = lowest_process(record_.ready);
  if (record_.mode == kDirect) record_.running = record_.next;
}

// The end of each accepted process call.
template <bool Checked>
Answer Kernel<Checked>::chosen(Reply reply, uint32_t number) {
  choose();
  return {reply, number};
}

template <bool Checked>
Answer Kernel<Checked>::open_wait(const Wait& wait, uint16_t limit) {
  const Tag tag = kTags[record_.running];
  caller().wait = wait;
  caller().counter = limit;
  if (ProcessMap* map = map_of(record_, wait)) map->add(tag);
  record_.ready.remove(tag);
  return chosen(Reply::waiting);
}

template <bool Checked>
void Kernel<Checked>::close_wait() {
  caller().counter = 0;
  caller().wait = Wait{};
}

// Answers whether anybody was woken.
template <bool Checked>
bool Kernel<Checked>::wake_all(ProcessMap& map) {
  const uint32_t woken = map.bits & ~record_.ready.bits;
  record_.ready.bits |= woken;
  map.bits &= ~woken;
  return woken != 0;
}

template <bool Checked>
void Kernel<Checked>::wake_one(ProcessMap& map) {
  const uint32_t sleepers = map.bits & ~record_.ready.bits;
  const Tag lowest = {sleepers & (~sleepers + 1)};
  record_.ready.add(lowest);
  map.remove(lowest);
}

template <bool Checked>
void Kernel<Checked>::signal_flag(Flag& flag) {
  if (!wake_all(flag.waiters)) flag.on = true;
}

template <bool Checked>
void Kernel<Checked>::free_mutex(Mutex& mutex) {
  mutex.owned = false;
  mutex.owner = 0;
  wake_one(mutex.lockers);
}

template <bool Checked>
bool Kernel<Checked>::take_mutex(Mutex& mutex) {
  if (mutex.owned) return false;
  mutex.owned = true;
  mutex.owner = record_.running;
  return true;
}

// The channels' parts of the room follow each other in channel order.
template <bool Checked>
uint32_t* Kernel<Checked>::channel_part(uint32_t channel) const {
  uint32_t* part = room_.words;
  for (uint32_t c = 0; c < channel; ++c) part += record_.channel[c].capacity;
  return part;
}

template <bool Checked>
bool Kernel<Checked>::try_push(uint32_t number, End end, uint32_t item) {
  Channel& channel = record_.channel[number];
  if (channel.count == channel.capacity) return false;
  if (end == End::back) {
    put_back(channel, channel_part(number), item);
  } else {
    put_front(channel, channel_part(number), item);
  }
  wake_all(channel.readers);
  return true;
}

template <bool Checked>
bool Kernel<Checked>::try_pop(uint32_t number, End end, uint32_t& item) {
  Channel& channel = record_.channel[number];
  if (channel.count == 0) return false;
  item = end == End::front ? take_front(channel, channel_part(number))
                           : take_back(channel, channel_part(number));
  wake_all(channel.writers);
  return true;
}

// "Anywhere".

template <bool Checked>
Answer Kernel<Checked>::enter() {
  const Refusal refusal = refuse_record(Room::unused);
  if (refusal != Refusal::none) return refused(refusal);
  if (record_.depth == kMaxDepth) return refused(Refusal::too_deep);
  ++record_.depth;
  return kDone;
}

template <bool Checked>
Answer Kernel<Checked>::exit() {
  const Refusal refusal = refuse_interrupt_call(Room::unused);
  if (refusal != Refusal::none) return refused(refusal);
  --record_.depth;
  if (record_.depth == 0) choose();
  return kDone;
}

template <bool Checked>
Answer Kernel<Checked>::switch_process() {
  const Refusal refusal = refuse_record(Room::unused);
  if (refusal != Refusal::none) return refused(refusal);
  if (record_.depth > 0) return refused(Refusal::inside_interrupt);
  if (record_.running == record_.next) return refused(Refusal::nothing_pending);
  record_.running = record_.next;
  return kDone;
}

template <bool Checked>
Answer Kernel<Checked>::running() const {
  const Refusal refusal = refuse_record(Room::unused);
  if (refusal != Refusal::none) return refused(refusal);
  return value(record_.running);
}

template <bool Checked>
Answer Kernel<Checked>::next() const {
  const Refusal refusal = refuse_record(Room::unused);
  if (refusal != Refusal::none) return refused(refusal);
  return value(record_.next);
}

template <bool Checked>
Answer Kernel<Checked>::ready() const {
  const Refusal refusal = refuse_record(Room::unused);
  if (refusal != Refusal::none) return refused(refusal);
  return value(record_.ready.bits);
}

template <bool Checked>
Answer Kernel<Checked>::ticks() const {
  const Refusal refusal = refuse_record(Room::unused);
  if (refusal != Refusal::none) return refused(refusal);
  return value(record_.ticks);
}

template <bool Checked>
Answer Kernel<Checked>::flag_state(uint32_t flag) const {
  const Refusal refusal = refuse_record(Room::unused);
  if (refusal != Refusal::none) return refused(refusal);
  if (flag >= record_.flags) return refused(Refusal::no_such);
  return value(record_.flag[flag].on ? 1 : 0);
}

template <bool Checked>
Answer Kernel<Checked>::owner(uint32_t mutex) const {
  const Refusal refusal = refuse_record(Room::unused);
  if (refusal != Refusal::none) return refused(refusal);
  if (mutex >= record_.mutexes) return refused(Refusal::no_such);
  return value(record_.mutex[mutex].owned ? record_.mutex[mutex].owner : record_.processes);
}

template <bool Checked>
Answer Kernel<Checked>::item_count(uint32_t channel) const {
  const Refusal refusal = refuse_record(Room::unused);
  if (refusal != Refusal::none) return refused(refusal);
  if (channel >= record_.channels) return refused(Refusal::no_such);
  return value(record_.channel[channel].count);
}

template <bool Checked>
Answer Kernel<Checked>::free_places(uint32_t channel) const {
  const Refusal refusal = refuse_record(Room::unused);
  if (refusal != Refusal::none) return refused(refusal);
  if (channel >= record_.channels) return refused(Refusal::no_such);
  return value(record_.channel[channel].capacity - record_.channel[channel].count);
}

// "Process calls".

template <bool Checked>
Answer Kernel<Checked>::sleep(uint16_t limit) {
  const Refusal refusal = refuse_new_process_call(Room::unused);
  if (refusal != Refusal::none) return refused(refusal);
  Wait wait;
  wait.kind = WaitKind::sleep;
  wait.limited = limit > 0;
  return open_wait(wait, limit);
}

template <bool Checked>
Answer Kernel<Checked>::wait(uint32_t number, uint16_t limit) {
  const Refusal refusal = refuse_new_process_call(Room::unused);
  if (refusal != Refusal::none) return refused(refusal);
  if (number >= record_.flags) return refused(Refusal::no_such);
  Flag& flag = record_.flag[number];
  if (flag.on) {
    flag.on = false;
    return chosen(Reply::done);
  }
  Wait wait;
  wait.kind = WaitKind::flag;
  wait.service = number;
  wait.limited = limit > 0;
  return open_wait(wait, limit);
}

template <bool Checked>
Answer Kernel<Checked>::signal(uint32_t number) {
  const Refusal refusal = refuse_new_process_call(Room::unused);
  if (refusal != Refusal::none) return refused(refusal);
  if (number >= record_.flags) return refused(Refusal::no_such);
  signal_flag(record_.flag[number]);
  return chosen(Reply::done);
}

template <bool Checked>
Answer Kernel<Checked>::clear(uint32_t number) {
  const Refusal refusal = refuse_new_process_call(Room::unused);
  if (refusal != Refusal::none) return refused(refusal);
  if (number >= record_.flags) return refused(Refusal::no_such);
  record_.flag[number].on = false;
  return chosen(Reply::done);
}

template <bool Checked>
Answer Kernel<Checked>::lock(uint32_t number, uint16_t limit) {
  const Refusal refusal = refuse_new_process_call(Room::unused);
  if (refusal != Refusal::none) return refused(refusal);
  if (number >= record_.mutexes) return refused(Refusal::no_such);
  Mutex& mutex = record_.mutex[number];
  if (owned_by_caller(mutex)) return refused(Refusal::already_owner);
  if (take_mutex(mutex)) return chosen(Reply::done);
  Wait wait;
  wait.kind = WaitKind::mutex;
  wait.service = number;
  wait.limited = limit > 0;
  return open_wait(wait, limit);
}

template <bool Checked>
Answer Kernel<Checked>::try_lock(uint32_t number) {
  const Refusal refusal = refuse_new_process_call(Room::unused);
  if (refusal != Refusal::none) return refused(refusal);
  if (number >= record_.mutexes) return refused(Refusal::no_such);
  Mutex& mutex = record_.mutex[number];
  if (owned_by_caller(mutex)) return refused(Refusal::already_owner);
  return chosen(take_mutex(mutex) ? Reply::done : Reply::busy);
}

template <bool Checked>
Answer Kernel<Checked>::unlock(uint32_t number) {
  const Refusal refusal = refuse_new_process_call(Room::unused);
  if (refusal != Refusal::none) return refused(refusal);
  if (number >= record_.mutexes) return refused(Refusal::no_such);
  Mutex& mutex = record_.mutex[number];
  if (!owned_by_caller(mutex)) return refused(Refusal::not_owner);
  free_mutex(mutex);
  return chosen(Reply::done);
}

template <bool Checked>
Answer Kernel<Checked>::push(uint32_t channel, End end, uint32_t item) {
  const Refusal refusal = refuse_new_process_call(Room::used);
  if (refusal != Refusal::none) return refused(refusal);
  if (channel >= record_.channels) return refused(Refusal::no_such);
  if (try_push(channel, end, item)) return chosen(Reply::done);
  Wait wait;
  wait.kind = WaitKind::push;
  wait.service = channel;
  wait.end = end;
  wait.item = item;
  return open_wait(wait, 0);
}

template <bool Checked>
Answer Kernel<Checked>::pop(uint32_t channel, End end, uint16_t limit) {
  const Refusal refusal = refuse_new_process_call(Room::used);
  if (refusal != Refusal::none) return refused(refusal);
  if (channel >= record_.channels) return refused(Refusal::no_such);
  uint32_t item;
  if (try_pop(channel, end, item)) return chosen(Reply::value, item);
  Wait wait;
  wait.kind = WaitKind::pop;
  wait.service = channel;
  wait.end = end;
  wait.limited = limit > 0;
  return open_wait(wait, limit);
}

template <bool Checked>
Answer Kernel<Checked>::flush(uint32_t channel) {
  const Refusal refusal = refuse_new_process_call(Room::used);
  if (refusal != Refusal::none) return refused(refusal);
  if (channel >= record_.channels) return refused(Refusal::no_such);
  record_.channel[channel].first = 0;
  record_.channel[channel].count = 0;
  return chosen(Reply::done);
}

template <bool Checked>
Answer Kernel<Checked>::wake(uint32_t number) {
  const Refusal refusal = refuse_new_process_call(Room::unused);
  if (refusal != Refusal::none) return refused(refusal);
  if (!is_user(number)) return refused(Refusal::no_such);
  if (record_.process[number].counter > 0) {
    record_.process[number].counter = 0;
    record_.ready.add(kTags[number]);
  }
  return chosen(Reply::done);
}

template <bool Checked>
Answer Kernel<Checked>::force(uint32_t number) {
  const Refusal refusal = refuse_new_process_call(Room::unused);
  if (refusal != Refusal::none) return refused(refusal);
  if (!is_user(number)) return refused(Refusal::no_such);
  record_.process[number].counter = 0;
  record_.ready.add(kTags[number]);
  return chosen(Reply::done);
}

template <bool Checked>
Answer Kernel<Checked>::finish() {
  const Refusal refusal = refuse_process_call(Room::used);
  if (refusal != Refusal::none) return refused(refusal);
  const Wait& wait = caller().wait;
  if (wait.kind == WaitKind::none) return refused(Refusal::no_open_wait);

  // Still in the map: it was the limit, wake or force that made it ready.
  const Tag tag = kTags[record_.running];
  ProcessMap* map = map_of(record_, wait);
  if (map != nullptr && map->has(tag)) {
    map->remove(tag);
    close_wait();
    return chosen(Reply::timed_out);
  }

  Reply reply = Reply::done;
  uint32_t item = 0;
  bool over = true;
  switch (wait.kind) {
    case WaitKind::mutex:
      over = take_mutex(record_.mutex[wait.service]);
      break;
    case WaitKind::push:
      over = try_push(wait.service, wait.end, wait.item);
      break;
    case WaitKind::pop:
      over = try_pop(wait.service, wait.end, item);
      reply = Reply::value;
      break;
    default:   // sleep and flag are over once their process is ready
      break;
  }
  if (over) {
    close_wait();
    return chosen(reply, item);
  }
  if (wait.limited && caller().counter == 0) {
    close_wait();
    return chosen(Reply::timed_out);
  }
  map->add(tag);
  record_.ready.remove(tag);
  return chosen(Reply::waiting);
}

// "Interrupt calls": no choosing until the last exit.

template <bool Checked>
Answer Kernel<Checked>::tick() {
  const Refusal refusal = refuse_interrupt_call(Room::unused);
  if (refusal != Refusal::none) return refused(refusal);
  ++record_.ticks;
  for (uint32_t p = 0; is_user(p); ++p) {
    uint16_t& counter = record_.process[p].counter;
    if (counter > 0 && --counter == 0) record_.ready.add(kTags[p]);
  }
  return kDone;
}

template <bool Checked>
Answer Kernel<Checked>::signal_from_interrupt(uint32_t number) {
  const Refusal refusal = refuse_interrupt_call(Room::unused);
  if (refusal != Refusal::none) return refused(refusal);
  if (number >= record_.flags) return refused(Refusal::no_such);
  signal_flag(record_.flag[number]);
  return kDone;
}

template <bool Checked>
Answer Kernel<Checked>::unlock_from_interrupt(uint32_t number) {
  const Refusal refusal = refuse_interrupt_call(Room::unused);
  if (refusal != Refusal::none) return refused(refusal);
  if (number >= record_.mutexes) return refused(Refusal::no_such);
  if (!record_.mutex[number].owned) return refused(Refusal::not_owner);
  free_mutex(record_.mutex[number]);
  return kDone;
}

template <bool Checked>
Answer Kernel<Checked>::write_from_interrupt(uint32_t number, Slice block) {
  const Refusal refusal = refuse_interrupt_call(Room::used);
  if (refusal != Refusal::none) return refused(refusal);
  if (number >= record_.channels) return refused(Refusal::no_such);
  Channel& channel = record_.channel[number];
  uint32_t* part = channel_part(number);
  const uint32_t moved = std::min(block.length, channel.capacity - channel.count);
  for (uint32_t i = 0; i < moved; ++i) put_back(channel, part, block.words[i]);
  if (moved > 0) wake_all(channel.readers);
  return value(moved);
}

template <bool Checked>
Answer Kernel<Checked>::read_from_interrupt(uint32_t number, Slice block) {
  const Refusal refusal = refuse_interrupt_call(Room::used);
  if (refusal != Refusal::none) return refused(refusal);
  if (number >= record_.channels) return refused(Refusal::no_such);
  Channel& channel = record_.channel[number];
  const uint32_t* part = channel_part(number);
  const uint32_t moved = std::min(block.length, channel.count);
  for (uint32_t i = 0; i < moved; ++i) block.words[i] = take_front(channel, part);
  if (moved > 0) wake_all(channel.writers);
  return value(moved);
}

template class Kernel<true>;
template class Kernel<false>;

}  // namespace kernel
