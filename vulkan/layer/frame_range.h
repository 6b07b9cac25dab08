// The frames that GFXCAP_FRAMES asks for.
#pragma once
#include <cstdint>
#include <optional>
#include <string>

struct FrameRange {
  uint64_t first = 1, last = UINT64_MAX;

  bool is_all() const { return first == 1 && last == UINT64_MAX; }
};

// A-B, in decimal without leading zeros, A not above B; all frames where the text is empty; or none.
std::optional<FrameRange> frame_range_of(const std::string &text);

// Cuts the capture file to these frames, by the program that GFXCAP names, or else by `gfxcap` on the path. Empty, or
// why the file is as before.
std::string cut(const std::string &path, FrameRange frames);
