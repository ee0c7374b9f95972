// The trace program: document 01, "Trace program".

#include <cstdint>
#include <string_view>

#include "calls.h"
#include "kernel.h"
#include "text.h"

namespace {

using calls::Word;

constexpr uint32_t kLongestBlock = 64;
constexpr calls::Field kBlockLength = {true, kLongestBlock};

constexpr calls::Form kTraceForms[] = {
    {{"direct"}, Word::direct, calls::kUnused, calls::kUnused},
    {{"deferred"}, Word::deferred, calls::kUnused, calls::kUnused},
    {{"writei"}, Word::writei, calls::kNumber, calls::kNumber},
    {{"readi"}, Word::readi, calls::kNumber, kBlockLength},
};

// "Bench sheet", A and B: 3 processes, one flag, one mutex, a channel of 2.
constexpr uint32_t kBenchRoom = 2;

constexpr kernel::Setup bench_setup(uint32_t mode) {
  return {mode, 3, 1, 1, 1, {kBenchRoom, 0, 0, 0}};
}

// The bench kernel. Its record is all zeros, hence not sound, until it is
// started; from then on only calls work on it, which keep it sound.
class Bench {
 public:
  kernel::Answer make(Word word, uint32_t a, uint32_t b) {
    if (word == Word::direct) return start(kernel::kDirect);
    if (word == Word::deferred) return start(kernel::kDeferred);
    if (!started_) return kernel::refused(kernel::Refusal::not_sound);
    if (word == Word::writei) return kernel_.write_from_interrupt(a, {&b, 1});
    if (word == Word::readi) {
      uint32_t block[kLongestBlock] = {};
      return kernel_.read_from_interrupt(a, {block, b});
    }
    return calls::make(kernel_, word, a, b);
  }

  uint32_t running() const { return record_.running; }
  uint32_t ready() const { return record_.ready.bits; }

 private:
  kernel::Answer start(uint32_t mode) {
    started_ = true;
    for (uint32_t& word : room_) word = 0;
    return kernel::set_up(record_, bench_setup(mode));
  }

  bool started_ = false;
  kernel::Record record_;
  uint32_t room_[kBenchRoom] = {};
  kernel::Kernel<false> kernel_{record_, {room_, kBenchRoom}};
};

void put_line(text::Writer& writer, const text::Label& word, kernel::Answer answer,
              uint32_t running, uint32_t ready) {
  writer.put(word);
  calls::put_answer(writer, answer);
  writer.put(',');
  writer.put(running);
  writer.put(',');
  writer.put(ready);
  writer.end_line();
}

void trace(text::Reader& reader, text::Writer& writer) {
  const calls::Forms forms(kTraceForms);
  Bench bench;
  writer.put("call,answer,value,running,ready");
  writer.end_line();

  std::string_view record;
  reader.next(record);   // the header is skipped
  while (reader.next(record)) {
    text::Scanner scanner(record);
    uint32_t a = 0;
    uint32_t b = 0;
    const calls::Form* form = nullptr;
    if (record.size() <= text::kLongestRecord) form = forms.find(scanner.word());
    if (form == nullptr || !calls::read_fields(scanner, *form, a, b)) {
      writer.put("?,refused,15,,");
      writer.end_line();
      continue;
    }
    const kernel::Answer answer = bench.make(form->word, a, b);
    put_line(writer, form->label, answer, bench.running(), bench.ready());
  }
}

}  // namespace

int main(int argc, char** argv) { return text::run(argc, argv, trace); }
