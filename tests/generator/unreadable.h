// Unreadable records: document 01, "Trace program": "Anything else, or over 64
// bytes before the line end, is unreadable". Each is a readable record with one
// thing wrong, because a record that is wrong all over is easily refused.

#ifndef GENERATOR_UNREADABLE_H
#define GENERATOR_UNREADABLE_H

#include <cstdint>
#include <string>

#include "random.h"

namespace generator {

class Spoiler {
 public:
  Spoiler(Random& random, bool replay) : random_(random), replay_(replay) {}

  std::string spoil(const std::string& readable) {
    std::string text = spoilt(readable);
    // only CRLF ends a record, and there it would make two of one
    for (size_t at; (at = text.find("\r\n")) != std::string::npos;) text.erase(at, 1);
    return text;
  }

 private:
  std::string spoilt(std::string text) {
    switch (random_.below(18)) {
      case 0: return "";
      case 1: return other_word(text);
      case 2: return in_capitals(text);
      case 3: return text.substr(0, text.rfind(','));
      case 4: return text + (random_.chance(50) ? "," : ",0");
      case 5: return with_leading_zero(text);
      case 6:
      case 7: return with_number(text, past_the_border());
      case 8: return with_number(text, no_decimal());
      case 9: return quoted(text);
      case 10:
      case 11: return with_byte(text);
      case 12: return unused_field_used(text);
      case 13: return of_length(text, random_.pick<uint32_t>({{64, 4}, {65, 4}, {66, 2}, {63, 1}}));
      case 14: return of_length(text, random_.once_in(20) ? random_.between(500, 70000)
                                                         : random_.between(67, 300));
      case 15: return any_bytes();
      case 16: return replay_ ? of_the_replay() : of_the_other();
      default: return text.substr(0, random_.below(text.size()));
    }
  }

  std::string other_word(const std::string& text) {
    static const char* const kWords[] = {"stop", "?", "", "signalling", "pushback", "ente", "enters",
                                         "xexit", "waiti", "nobody", "aaaaaaaaaaaa", "aaaaaaaaaaaaa",
                                         "aaaaaaaaaaaaaaaaaaaaaaaaaaaaaaaaaaa", "enterexit", "pop_back"};
    return random_.one_of(kWords) + text.substr(text.find(','));
  }

  std::string in_capitals(std::string text) {
    const size_t word = text.find(',');
    for (size_t i = random_.chance(50) ? 0 : random_.below(word); i < word; ++i) {
      text[i] = static_cast<char>(text[i] & ~0x20);
      if (random_.chance(70)) break;
    }
    return text;
  }

  // Where a number starts, searched from a random place; npos if there is none.
  size_t a_number(const std::string& text) {
    const size_t start = random_.below(text.size());
    for (size_t i = 0; i < text.size(); ++i) {
      const size_t at = (start + i) % text.size();
      if (is_digit(text[at]) && at > 0 && !is_digit(text[at - 1])) return at;
    }
    return std::string::npos;
  }

  static bool is_digit(char c) { return c >= '0' && c <= '9'; }

  std::string with_leading_zero(std::string text) {
    const size_t at = a_number(text);
    if (at == std::string::npos) return "sleep,00,";
    return text.insert(at, random_.chance(80) ? "0" : "00");
  }

  std::string with_number(std::string text, const std::string& number) {
    const size_t at = a_number(text);
    if (at == std::string::npos) return "sleep," + number + ",";
    size_t end = at;
    while (end < text.size() && is_digit(text[end])) ++end;
    return text.replace(at, end - at, number);
  }

  // Past 32 and 64 bits too, with what is left there being a small number.
  std::string past_the_border() {
    static const char* const kNumbers[] = {
        "4294967296", "4294967297", "4294967300", "9999999999", "10000000000", "42949672950",
        "18446744073709551615", "18446744073709551616", "18446744073709551617",
        "99999999999999999999999999", "65536", "65537", "131072", "257", "65", "32"};
    return random_.one_of(kNumbers);
  }

  std::string no_decimal() {
    static const char* const kNumbers[] = {"",   "-1",  "+1", "-0",  "0x1", "1.0", "1e1", " 1",
                                           "1 ", "1_0", "a",  "0 ",  ".",   "1.",  "/",   ":",
                                           "1/", "2:",  "\xB2", "1\t", "\"1\"", "01", "00"};
    return random_.one_of(kNumbers);
  }

  std::string quoted(std::string text) {
    const size_t comma = text.find(',');
    switch (random_.below(3)) {
      case 0: return "\"" + text.substr(0, comma) + "\"" + text.substr(comma);
      case 1: return "\"" + text + "\"";
      default: return text.insert(comma + 1, "\"\"");
    }
  }

  std::string with_byte(std::string text) {
    static const char kBytes[] = {'\r', '\n', '\0', ' ', '\t', '"', '\x1A', '\x7F', '\x80', '\xFF',
                                  '\xC3', ';', '.', '`', '{', '@', '[', '/', ':'};
    const char byte = random_.one_of(kBytes);
    switch (random_.below(4)) {
      case 0: return byte + text;
      case 1: return text + byte;
      case 2: text[random_.below(text.size())] = byte; return text;
      default: return text.insert(random_.below(text.size()), 1, byte);
    }
  }

  std::string unused_field_used(std::string text) {
    const size_t at = text.find(",,");
    if (at != std::string::npos) return text.insert(at + 1, std::to_string(random_.below(3)));
    return text.back() == ',' ? text + std::to_string(random_.below(3)) : text + ",";
  }

  // Filled up, or cut, to a length: a longer word, a longer number or more fields.
  std::string of_length(std::string text, uint32_t length) {
    static const char kFill[] = {'a', ',', '0', '1', '\n', '\r', ' '};
    const char fill = random_.one_of(kFill);
    if (text.size() >= length) return text.substr(0, length);
    switch (random_.below(3)) {
      case 0: return std::string(length - text.size(), fill) + text;
      case 1: return text.insert(text.find(',') + 1, length - text.size(), fill);
      default: return text + std::string(length - text.size(), fill);
    }
  }

  std::string any_bytes() {
    std::string text(random_.below(90), '\0');
    for (char& c : text) c = static_cast<char>(random_.below(256));
    return text;
  }

  // Words that only the other program has.
  std::string of_the_other() {
    static const char* const kForTrace[] = {
        "setup,0,3,1,1,1,2,0,0,0", "poke,ticks,,1", "running,,", "ready,,",  "writeb,0,", "readb,0,",
        "room,2,",                 "block,1,1",     "flag,0,",   "owner,0,", "count,0,",  "free,0,"};
    static const char* const kForReplay[] = {"direct,,", "deferred,,", "writei,0,1", "readi,0,1"};
    return replay_ ? random_.one_of(kForReplay) : random_.one_of(kForTrace);
  }

  std::string of_the_replay() {
    static const char* const kRecords[] = {
        "poke,rooms,,1", "poke,room,0,1", "poke,blocks,,1", "poke,block,0,1", "poke,counter,32,1",
        "poke,counter,,1", "poke,counter,0,65536", "poke,counter,00,1", "poke,mode,0,1", "poke,mode,,",
        "poke,mode,,4294967296", "poke,mode,,00", "poke,mode,1", "poke,mode,,1,", "poke,on,8,1",
        "poke,on,0,2", "poke,on,0,01", "poke,on,0,", "poke,waiters,8,1", "poke,owner,8,nobody",
        "poke,owner,0,Nobody", "poke,owner,0,", "poke,owner,0,nobody0", "poke,owner,0,nobod",
        "poke,owner,0,4294967296", "poke,lockers,8,0", "poke,capacity,4,1", "poke,first,4,0",
        "poke,count,4,0", "poke,readers,4,0", "poke,writers,4,1", "poke,wait,32,none", "poke,wait,0,",
        "poke,wait,0,sleep", "poke,wait,0,sleep.", "poke,wait,0,sleep.2", "poke,wait,0,sleep.01",
        "poke,wait,0,flag.0", "poke,wait,0,flag.00.1", "poke,wait,0,flag.4294967296.1",
        "poke,wait,0,flag..1", "poke,wait,0,flag.0.1.", "poke,wait,0,mutex.0.2",
        "poke,wait,0,push.0.front", "poke,wait,0,push.0.middle.1", "poke,wait,0,push.0.back.4294967296",
        "poke,wait,0,push.0.back.01", "poke,wait,0,push.0.1", "poke,wait,0,pop.0.back.2",
        "poke,wait,0,pop.0.1", "poke,wait,0,pop.0.front", "poke,wait,0,none.", "poke,wait,0,none.0",
        "poke,wait,0,none,", "poke,wait,0,Sleep.1", "poke,wait,0,sleep,1", "poke,,,1", "poke,x,,1",
        "poke,Ticks,,1", "poke,tick,,1", "poke,,", "poke", "poke,", "room,257,", "room,,", "room,1,0",
        "room,00,", "block,65,0", "block,1,", "block,1,4294967296", "block,,1", "writeb,0,0", "readb,,",
        "running,0,", "ticks,,0", "flag,,", "flag,0,0", "setup", "setup,,", "setup,0,3,1,1,1,2,0,0",
        "setup,0,3,1,1,1,2,0,0,0,", "setup,0,3,1,1,1,2,,,", "setup,0,3,1,1,1,2,0,0,00",
        "setup,0,3,1,1,1,2,0,0,4294967296", "setup,0,3,1,1,1,2,0,0,0,0", "setup,00,3,1,1,1,2,0,0,0",
        "setup,,3,1,1,1,2,0,0,0"};
    return random_.once_in(5) ? of_the_other() : random_.one_of(kRecords);
  }

  Random& random_;
  const bool replay_;
};

}  // namespace generator

#endif
