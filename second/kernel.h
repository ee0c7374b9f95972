// The priority kernel of document 01: record, soundness, calls and refusals.
// Section names in the comments are those of document 01.

#ifndef KERNEL_H
#define KERNEL_H

#include <array>
#include <cstdint>

namespace kernel {

// Limits ("The kernel record").
constexpr uint32_t kMinProcesses = 2;
constexpr uint32_t kMaxProcesses = 32;
constexpr uint32_t kMaxFlags = 8;
constexpr uint32_t kMaxMutexes = 8;
constexpr uint32_t kMaxChannels = 4;
constexpr uint32_t kMinCapacity = 1;
constexpr uint32_t kMaxCapacity = 64;
constexpr uint32_t kMaxDepth = 8;
constexpr uint32_t kMaxRoom = kMaxChannels * kMaxCapacity;

constexpr uint32_t kDirect = 0;
constexpr uint32_t kDeferred = 1;

// A process is named by its number, a plain integer, or by its tag 2^number.
// The tag is a type of its own, so that neither is taken for the other.
struct Tag {
  uint32_t mask;
};

constexpr std::array<Tag, kMaxProcesses> make_tags() {
  std::array<Tag, kMaxProcesses> tags{};
  for (uint32_t number = 0; number < kMaxProcesses; ++number) {
    tags[number].mask = uint32_t{1} << number;
  }
  return tags;
}

inline constexpr std::array<Tag, kMaxProcesses> kTags = make_tags();

struct ProcessMap {
  uint32_t bits = 0;

  bool has(Tag tag) const { return (bits & tag.mask) != 0; }
  void add(Tag tag) { bits |= tag.mask; }
  void remove(Tag tag) { bits &= ~tag.mask; }
};

enum class WaitKind : uint8_t { none, sleep, flag, mutex, push, pop };
enum class End : uint8_t { front, back };

// An open wait. Members that its kind does not use are zero.
struct Wait {
  WaitKind kind = WaitKind::none;
  End end = End::front;   // push and pop
  bool limited = false;   // all but push
  uint32_t service = 0;   // flag, mutex or channel number
  uint32_t item = 0;      // push
};

struct Process {
  uint16_t counter = 0;
  Wait wait;
};

struct Flag {
  bool on = false;
  ProcessMap waiters;
};

struct Mutex {
  bool owned = false;
  uint32_t owner = 0;     // zero while nobody owns the mutex
  ProcessMap lockers;
};

struct Channel {
  uint32_t capacity = 0;
  uint32_t first = 0;
  uint32_t count = 0;
  ProcessMap readers;
  ProcessMap writers;
};

// A default-constructed record is the all-zero record, which is not sound.
struct Record {
  uint32_t processes = 0;
  uint32_t flags = 0;
  uint32_t mutexes = 0;
  uint32_t channels = 0;
  uint32_t mode = kDirect;
  uint32_t depth = 0;
  uint32_t running = 0;
  uint32_t next = 0;
  ProcessMap ready;
  uint32_t ticks = 0;
  Process process[kMaxProcesses];
  Flag flag[kMaxFlags];
  Mutex mutex[kMaxMutexes];
  Channel channel[kMaxChannels];
};

// A lent slice of 32-bit words: the channel room, or a block.
struct Slice {
  uint32_t* words;
  uint32_t length;
};

// "Refusal numbers". Where several apply the lowest is answered.
enum class Refusal : uint32_t {
  none = 0,
  not_sound = 1,
  room_length = 2,
  inside_interrupt = 3,
  outside_interrupt = 4,
  switch_pending = 5,
  idle_runs = 6,
  open_wait = 7,
  no_open_wait = 8,
  no_such = 9,
  already_owner = 10,
  not_owner = 11,
  too_deep = 12,
  nothing_pending = 13,
  bad_setup = 14,
  unreadable = 15,
};

enum class Reply : uint32_t { done, waiting, timed_out, busy, value, refused };

struct Answer {
  Reply reply;
  uint32_t number;        // the value, or the refusal number; else zero
};

constexpr Answer refused(Refusal refusal) {
  return {Reply::refused, static_cast<uint32_t>(refusal)};
}

struct Setup {
  uint32_t mode;
  uint32_t processes;
  uint32_t flags;
  uint32_t mutexes;
  uint32_t channels;
  uint32_t capacity[kMaxChannels];   // not looked at from `channels` on
};

// Makes the fresh record; outside the limits the all-zero one (refusal 14).
Answer set_up(Record& record, const Setup& setup);

// The seven rules of a sound record.
bool is_sound(const Record& record);

// The sum of the capacities, for a record within its limits (rule 1).
uint32_t room_length(const Record& record);

// The calls. A checked kernel tests soundness and room length at every call
// (refusals 1 and 2). An unchecked one is for an owner who knows that the
// record is sound and the room of its length: one that was made by `set_up`
// and by calls only, for each call keeps it so.
template <bool Checked>
class Kernel {
 public:
  Kernel(Record& record, Slice room) : record_(record), room_(room) {}

  // Anywhere.
  Answer enter();
  Answer exit();
  Answer switch_process();
  Answer running() const;
  Answer next() const;
  Answer ready() const;
  Answer ticks() const;
  Answer flag_state(uint32_t flag) const;
  Answer owner(uint32_t mutex) const;
  Answer item_count(uint32_t channel) const;
  Answer free_places(uint32_t channel) const;

  // Process calls. A limit of 0 means none.
  Answer sleep(uint16_t limit);
  Answer wait(uint32_t flag, uint16_t limit);
  Answer signal(uint32_t flag);
  Answer clear(uint32_t flag);
  Answer lock(uint32_t mutex, uint16_t limit);
  Answer try_lock(uint32_t mutex);
  Answer unlock(uint32_t mutex);
  Answer push(uint32_t channel, End end, uint32_t item);
  Answer pop(uint32_t channel, End end, uint16_t limit);
  Answer flush(uint32_t channel);
  Answer wake(uint32_t process);
  Answer force(uint32_t process);
  Answer finish();

  // Interrupt calls.
  Answer tick();
  Answer signal_from_interrupt(uint32_t flag);
  Answer unlock_from_interrupt(uint32_t mutex);
  Answer write_from_interrupt(uint32_t channel, Slice block);
  Answer read_from_interrupt(uint32_t channel, Slice block);

 private:
  enum class Room { unused, used };

  Refusal refuse_record(Room room) const;
  Refusal refuse_process_call(Room room) const;
  Refusal refuse_new_process_call(Room room) const;
  Refusal refuse_interrupt_call(Room room) const;

  Process& caller() { return record_.process[record_.running]; }
  const Process& caller() const { return record_.process[record_.running]; }
  bool is_user(uint32_t process) const { return process < record_.processes - 1; }
  bool owned_by_caller(const Mutex& mutex) const {
    return mutex.owned && mutex.owner == record_.running;
  }

  void choose();
  Answer chosen(Reply reply, uint32_t number = 0);
  Answer open_wait(const Wait& wait, uint16_t limit);
  void close_wait();

  bool wake_all(ProcessMap& map);
  void wake_one(ProcessMap& map);
  void signal_flag(Flag& flag);
  void free_mutex(Mutex& mutex);

  bool take_mutex(Mutex& mutex);
  bool try_push(uint32_t channel, End end, uint32_t item);
  bool try_pop(uint32_t channel, End end, uint32_t& item);

  uint32_t* channel_part(uint32_t channel) const;

  Record& record_;
  Slice room_;
};

}  // namespace kernel

#endif
