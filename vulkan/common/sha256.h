// SHA-256, in hexadecimal.
#pragma once
#include <array>
#include <cstdint>
#include <cstdio>
#include <cstring>
#include <string>
#include <vector>

class Sha256 {
 public:
  static std::string of(const uint8_t *bytes, uint64_t count) {
    Sha256 hash;
    std::vector<uint8_t> padded(bytes, bytes + count);
    padded.push_back(0x80);
    while (padded.size() % 64 != 56) padded.push_back(0);
    for (int shift = 56; shift >= 0; shift -= 8) padded.push_back(count * 8 >> shift);
    for (size_t at = 0; at < padded.size(); at += 64) hash.take(&padded[at]);
    return hash.text();
  }

 private:
  std::array<uint32_t, 8> state_ = {0x6a09e667, 0xbb67ae85, 0x3c6ef372, 0xa54ff53a,
                                    0x510e527f, 0x9b05688c, 0x1f83d9ab, 0x5be0cd19};

  static uint32_t turned(uint32_t word, int bits) { return word >> bits | word << (32 - bits); }

  void take(const uint8_t *block) {
    static const uint32_t constants[64] = {
        0x428a2f98, 0x71374491, 0xb5c0fbcf, 0xe9b5dba5, 0x3956c25b, 0x59f111f1, 0x923f82a4, 0xab1c5ed5,
        0xd807aa98, 0x12835b01, 0x243185be, 0x550c7dc3, 0x72be5d74, 0x80deb1fe, 0x9bdc06a7, 0xc19bf174,
        0xe49b69c1, 0xefbe4786, 0x0fc19dc6, 0x240ca1cc, 0x2de92c6f, 0x4a7484aa, 0x5cb0a9dc, 0x76f988da,
        0x983e5152, 0xa831c66d, 0xb00327c8, 0xbf597fc7, 0xc6e00bf3, 0xd5a79147, 0x06ca6351, 0x14292967,
        0x27b70a85, 0x2e1b2138, 0x4d2c6dfc, 0x53380d13, 0x650a7354, 0x766a0abb, 0x81c2c92e, 0x92722c85,
        0xa2bfe8a1, 0xa81a664b, 0xc24b8b70, 0xc76c51a3, 0xd192e819, 0xd6990624, 0xf40e3585, 0x106aa070,
        0x19a4c116, 0x1e376c08, 0x2748774c, 0x34b0bcb5, 0x391c0cb3, 0x4ed8aa4a, 0x5b9cca4f, 0x682e6ff3,
        0x748f82ee, 0x78a5636f, 0x84c87814, 0x8cc70208, 0x90befffa, 0xa4506ceb, 0xbef9a3f7, 0xc67178f2};
    uint32_t words[64];
    for (int at = 0; at < 16; at++, block += 4)
      words[at] = uint32_t(block[0]) << 24 | block[1] << 16 | block[2] << 8 | block[3];
    for (int at = 16; at < 64; at++) {
      uint32_t early = words[at - 15], late = words[at - 2];
      words[at] = words[at - 16] + (turned(early, 7) ^ turned(early, 18) ^ early >> 3) + words[at - 7] +
                  (turned(late, 17) ^ turned(late, 19) ^ late >> 10);
    }
    auto now = state_;
    for (int at = 0; at < 64; at++) {
      auto [a, b, c, d, e, f, g, h] = now;
      uint32_t first =
          h + (turned(e, 6) ^ turned(e, 11) ^ turned(e, 25)) + ((e & f) ^ (~e & g)) + constants[at] + words[at];
      uint32_t second = (turned(a, 2) ^ turned(a, 13) ^ turned(a, 22)) + ((a & b) ^ (a & c) ^ (b & c));
      now = {first + second, a, b, c, d + first, e, f, g};
    }
    for (int at = 0; at < 8; at++) state_[at] += now[at];
  }

  std::string text() const {
    char digits[65];
    for (int at = 0; at < 8; at++) snprintf(digits + 8 * at, 9, "%08x", state_[at]);
    return digits;
  }
};
