// What the profile has of formats and layouts.
#pragma once
#include <vulkan/vulkan.h>

#include <string>

inline bool is_integer(uint32_t format) {
  return format == VK_FORMAT_R8_UINT || format == VK_FORMAT_R8G8B8A8_UINT || format == VK_FORMAT_R32_UINT;
}

inline bool is_known_format(uint32_t format) {
  return is_integer(format) || format == VK_FORMAT_R8G8B8A8_UNORM || format == VK_FORMAT_B8G8R8A8_UNORM;
}

inline uint32_t texel_size(uint32_t format) { return format == VK_FORMAT_R8_UINT ? 1 : 4; }

inline bool is_known_layout(uint32_t layout) {
  return layout == VK_IMAGE_LAYOUT_UNDEFINED || layout == VK_IMAGE_LAYOUT_GENERAL ||
         layout == VK_IMAGE_LAYOUT_TRANSFER_SRC_OPTIMAL || layout == VK_IMAGE_LAYOUT_TRANSFER_DST_OPTIMAL ||
         layout == VK_IMAGE_LAYOUT_PRESENT_SRC_KHR;
}

inline std::string lacks_format(uint32_t format) { return "the profile lacks format " + std::to_string(format); }
inline std::string lacks_layout(uint32_t layout) { return "the profile lacks layout " + std::to_string(layout); }
constexpr const char *LACKS_CHAIN = "the profile lacks its flags or a structure of its pNext chain";
