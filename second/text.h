// Reading and writing records: document 01, "Trace program". RFC 4180, line
// end CRLF, no quotes; only CRLF ends a record, and the last may lack it.

#ifndef TEXT_H
#define TEXT_H

#include <cstdint>
#include <cstdio>
#include <cstring>
#include <memory>
#include <stdexcept>
#include <string_view>

namespace text {

#ifndef CHUNK_BYTES
#define CHUNK_BYTES (256 * 1024)
#endif

constexpr size_t kChunkBytes = CHUNK_BYTES;   // read at a time
constexpr size_t kLongestRecord = 64;         // a longer one is unreadable

// Hands out the input's records one by one. A record that is too long may
// come shortened, but is still seen to be too long.
class Reader {
 public:
  explicit Reader(std::FILE* input)
      : input_(input),
        buffer_(new char[kKept + kChunkBytes]),
        at_(buffer_.get()),
        end_(buffer_.get()) {}

  // False at the end of the input. The record is valid until the next call.
  bool next(std::string_view& record) {
    char* search = at_;
    for (;;) {
      char* lf = static_cast<char*>(std::memchr(search, '\n', end_ - search));
      if (lf != nullptr) {
        search = lf + 1;
        if (lf == at_ || lf[-1] != '\r') continue;   // a lone LF is content
        record = std::string_view(at_, lf - 1 - at_);
        at_ = search;
        return true;
      }
      if (!read_chunk(search)) {
        record = std::string_view(at_, end_ - at_);
        at_ = end_;
        return !record.empty();
      }
    }
  }

 private:
  // Of a begun record this much is kept for the next chunk: more bytes than a
  // readable one has, and the last byte, which may be the CR of the line end.
  static constexpr size_t kKept = kLongestRecord + 2;

  // Reads on behind the begun record; false at the end of the input. `search`
  // becomes the place of the first new byte.
  bool read_chunk(char*& search) {
    const size_t begun = end_ - at_;
    const size_t kept = begun < kKept ? begun : kKept;
    const char last = begun > 0 ? end_[-1] : '\0';
    std::memmove(buffer_.get(), at_, kept);
    if (kept > 0) buffer_[kept - 1] = last;
    at_ = buffer_.get();
    search = at_ + kept;
    const size_t got = std::fread(search, 1, kChunkBytes, input_);
    if (std::ferror(input_)) throw std::runtime_error("cannot read the input");
    end_ = search + got;
    return got > 0;
  }

  std::FILE* input_;
  std::unique_ptr<char[]> buffer_;
  char* at_;    // the first byte not yet handed out
  char* end_;
};

// A short constant text, padded so that it is copied in one fixed-size move.
struct Label {
  static constexpr size_t kSize = 16;

  constexpr Label(std::string_view text) : length(text.size()) {
    for (size_t i = 0; i < text.size(); ++i) bytes[i] = text[i];
  }

  char bytes[kSize] = {};
  size_t length;
};

// Collects lines and writes them in large pieces.
class Writer {
 public:
  explicit Writer(std::FILE* output)
      : output_(output), buffer_(new char[kPiece + kLongestLine]), at_(buffer_.get()) {}

  void put(char byte) { *at_++ = byte; }

  void put(const Label& label) {
    std::memcpy(at_, label.bytes, Label::kSize);
    at_ += label.length;
  }

  void put(std::string_view text) {
    std::memcpy(at_, text.data(), text.size());
    at_ += text.size();
  }

  void put(uint32_t number) {
    if (number < 10) {
      put(static_cast<char>('0' + number));
      return;
    }
    char digits[10];
    char* digit = digits + sizeof digits;
    for (; number != 0; number /= 10) *--digit = static_cast<char>('0' + number % 10);
    put(std::string_view(digit, digits + sizeof digits - digit));
  }

  void end_line() {
    put('\r');
    put('\n');
    if (at_ >= buffer_.get() + kPiece) flush();
  }

  void flush() {
    const size_t length = at_ - buffer_.get();
    if (std::fwrite(buffer_.get(), 1, length, output_) != length || std::fflush(output_) != 0) {
      throw std::runtime_error("cannot write the output");
    }
    at_ = buffer_.get();
  }

 private:
  static constexpr size_t kPiece = 256 * 1024;
  // Room for a line in which every field of a replay changes: under 10,000.
  static constexpr size_t kLongestLine = 16 * 1024;

  std::FILE* output_;
  std::unique_ptr<char[]> buffer_;
  char* at_;
};

// Words and names are lower-case letters: at five bits a letter, twelve fit
// into one key. The key 0 stands for no word at all.
constexpr size_t kLongestWord = 12;

constexpr bool is_letter(char c) { return c >= 'a' && c <= 'z'; }
constexpr bool is_digit(char c) { return c >= '0' && c <= '9'; }

constexpr uint64_t add_letter(uint64_t key, char letter) {
  return key << 5 | static_cast<uint64_t>(letter - 'a' + 1);
}

constexpr uint64_t word_key(std::string_view word) {
  uint64_t key = 0;
  for (const char letter : word) key = add_letter(key, letter);
  return key;
}

// Goes through one record from left to right.
class Scanner {
 public:
  explicit Scanner(std::string_view record)
      : at_(record.data()), end_(record.data() + record.size()) {}

  bool at_end() const { return at_ == end_; }

  bool byte(char expected) {
    if (at_ == end_ || *at_ != expected) return false;
    ++at_;
    return true;
  }

  // The key of the letters that stand here. If none or too many do: 0, and the
  // place stays.
  uint64_t word() {
    const char* at = at_;
    uint64_t key = 0;
    for (; at != end_ && is_letter(*at); ++at) key = add_letter(key, *at);
    if (static_cast<size_t>(at - at_) > kLongestWord) return 0;
    at_ = at;
    return key;
  }

  // A plain decimal without leading zeros, up to `most`. After a leading 0 a
  // further digit is left standing, where no digit can be.
  bool number(uint32_t most, uint32_t& value) {
    if (at_ == end_ || !is_digit(*at_)) return false;
    if (byte('0')) {
      value = 0;
      return true;
    }
    uint64_t sum = 0;
    for (; at_ != end_ && is_digit(*at_); ++at_) {
      sum = sum * 10 + static_cast<uint64_t>(*at_ - '0');
      if (sum > most) return false;
    }
    value = static_cast<uint32_t>(sum);
    return true;
  }

 private:
  const char* at_;
  const char* end_;
};

// Runs a program `void program(Reader&, Writer&)` on the file named by the
// only argument, or on standard input. Answers the exit code.
template <class Program>
int run(int argc, char** argv, Program program) {
  if (argc > 2) {
    std::fprintf(stderr, "usage: %s [file]\n", argv[0]);
    return 2;
  }
  std::unique_ptr<std::FILE, int (*)(std::FILE*)> file(nullptr, std::fclose);
  if (argc == 2) {
    file.reset(std::fopen(argv[1], "rb"));
    if (!file) {
      std::perror(argv[1]);
      return 2;
    }
  }
  try {
    Reader reader(file ? file.get() : stdin);
    Writer writer(stdout);
    program(reader, writer);
    writer.flush();
  } catch (const std::exception& error) {
    std::fprintf(stderr, "%s: %s\n", argv[0], error.what());
    return 2;
  }
  return 0;
}

}  // namespace text

#endif
