// The objects of a capture on a driver, and what the player does with an image: it makes it, fills it and shows it.
#pragma once
#include "defined.h"
#include "driver.h"
#include "sha256.h"

enum Format : uint32_t { R8_UINT = 13, R8G8B8A8_UNORM = 37, R8G8B8A8_UINT = 41, B8G8R8A8_UNORM = 44, R32_UINT = 98 };

inline const char *name_of(uint32_t format) {
  switch (format) {
    case R8_UINT:
      return "R8_UINT";
    case R8G8B8A8_UNORM:
      return "R8G8B8A8_UNORM";
    case R8G8B8A8_UINT:
      return "R8G8B8A8_UINT";
    case B8G8R8A8_UNORM:
      return "B8G8R8A8_UNORM";
    case R32_UINT:
      return "R32_UINT";
  }
  stop("an unknown format");
}

struct Memory {
  std::shared_ptr<Device> device;
  VkDeviceMemory handle;
  uint64_t size;
  uint8_t *bytes = nullptr;  // of the whole memory, while it is mapped
  std::shared_ptr<Place> place;

  template <class Use>
  void with_bytes(Use use) {
    if (bytes) return use(bytes);
    void *mapped;
    CHECK(vkMapMemory(device->handle, handle, 0, VK_WHOLE_SIZE, 0, &mapped));
    use(static_cast<uint8_t *>(mapped));
    vkUnmapMemory(device->handle, handle);
  }
};

struct Buffer {
  std::shared_ptr<Device> device;
  VkBuffer handle;
  uint64_t size;
  View view;
};

struct Image {
  std::shared_ptr<Device> device;
  uint32_t format, width, height;
  VkImage handle = VK_NULL_HANDLE;
  VkDeviceMemory own_memory = VK_NULL_HANDLE;
  View view;
  std::shared_ptr<Memory> memory;               // to which a created image is bound in the capture
  std::shared_ptr<std::vector<bool>> acquired;  // of a swapchain's image, with its index
  uint32_t index = 0;

  uint64_t texel() const { return format == R8_UINT ? 1 : 4; }
  uint64_t row() const { return width * texel(); }
  uint64_t size() const { return height * row(); }
  // A swapchain's image is the program's only while it is acquired.
  bool is_usable() const { return !acquired || (*acquired)[index]; }
};

struct Swapchain {
  std::shared_ptr<Device> device;
  std::vector<std::shared_ptr<Image>> images;
  std::shared_ptr<std::vector<bool>> acquired;
};

struct Pool {
  std::shared_ptr<Device> device;
  VkCommandPool handle;
};

struct Semaphore {
  std::shared_ptr<Device> device;
  VkSemaphore handle;
};

struct Commands {
  std::shared_ptr<Device> device;
  VkCommandBuffer handle;
  Id pool;
  std::vector<std::function<void()>> defines;  // what each command does to what is defined
};

inline VkBufferImageCopy all_of(const Image &image) {
  VkBufferImageCopy region = {};
  region.imageSubresource = LAYERS;
  region.imageExtent = {image.width, image.height, 1};
  return region;
}

// Gives an image these bytes, or zeros, and a layout.
inline void fill(const Image &image, const uint8_t *bytes, uint32_t layout) {
  uint8_t *staged = image.device->stage(image.size());
  if (bytes) memcpy(staged, bytes, image.size());
  else memset(staged, 0, image.size());
  image.device->at_once([&](VkCommandBuffer commands) {
    VkBufferImageCopy region = all_of(image);
    full_barrier(commands,
                 {layout_change(image.handle, VK_IMAGE_LAYOUT_UNDEFINED, VK_IMAGE_LAYOUT_TRANSFER_DST_OPTIMAL)});
    vkCmdCopyBufferToImage(commands, image.device->staging, image.handle, VK_IMAGE_LAYOUT_TRANSFER_DST_OPTIMAL, 1,
                           &region);
    full_barrier(commands);
    if (layout) full_barrier(commands, {layout_change(image.handle, VK_IMAGE_LAYOUT_TRANSFER_DST_OPTIMAL, layout)});
  });
}

inline void create(Image &image) {
  VkImageCreateInfo info = {VK_STRUCTURE_TYPE_IMAGE_CREATE_INFO};
  info.imageType = VK_IMAGE_TYPE_2D;
  info.format = static_cast<VkFormat>(image.format);
  info.extent = {image.width, image.height, 1};
  info.mipLevels = info.arrayLayers = 1;
  info.samples = VK_SAMPLE_COUNT_1_BIT;
  info.tiling = VK_IMAGE_TILING_OPTIMAL;
  info.usage = VK_IMAGE_USAGE_TRANSFER_SRC_BIT | VK_IMAGE_USAGE_TRANSFER_DST_BIT;
  CHECK(vkCreateImage(image.device->handle, &info, nullptr, &image.handle));
}

inline void give_memory(Image &image) {
  VkMemoryRequirements wanted;
  vkGetImageMemoryRequirements(image.device->handle, image.handle, &wanted);
  image.own_memory = image.device->memory(wanted.size, wanted.memoryTypeBits, 0);
  CHECK(vkBindImageMemory(image.device->handle, image.handle, image.own_memory, 0));
  image.view.number = new_image_view();
  fill(image, nullptr, VK_IMAGE_LAYOUT_UNDEFINED);
}

inline void destroy(const Image &image) {
  vkDestroyImage(image.device->handle, image.handle, nullptr);
  if (image.own_memory) vkFreeMemory(image.device->handle, image.own_memory, nullptr);
}

inline void print_rows(const std::vector<uint8_t> &bytes, uint64_t row) {
  static const char digits[] = "0123456789abcdef";
  std::string line;
  for (uint64_t at = 0; at < bytes.size(); at++) {
    line += digits[bytes[at] >> 4];
    line += digits[bytes[at] & 15];
    if ((at + 1) % row == 0) line += '\n';
  }
  fputs(line.c_str(), stdout);
}

// What is printed of an image beside its line.
inline bool prints_rows = false;

// The bytes of an image that is to be presented, in staging memory.
inline uint8_t *read(const Image &image) {
  uint8_t *staged = image.device->stage(image.size());
  image.device->at_once([&](VkCommandBuffer commands) {
    constexpr uint32_t SHOWN = VK_IMAGE_LAYOUT_PRESENT_SRC_KHR, READ = VK_IMAGE_LAYOUT_TRANSFER_SRC_OPTIMAL;
    VkBufferImageCopy region = all_of(image);
    full_barrier(commands, {layout_change(image.handle, SHOWN, READ)});
    vkCmdCopyImageToBuffer(commands, image.handle, VK_IMAGE_LAYOUT_TRANSFER_SRC_OPTIMAL, image.device->staging, 1,
                           &region);
    full_barrier(commands, {layout_change(image.handle, READ, SHOWN)});
  });
  return staged;
}

inline void print_defined(const Image &image) {
  std::vector<uint8_t> defined;
  bool all = true;
  for (uint64_t at = 0; at < image.size(); at++) {
    defined.push_back(image.view.is_defined(at) ? 0xff : 0);
    all &= image.view.is_defined(at);
  }
  puts(all ? "all" : "some");
  if (!all) print_rows(defined, image.row());
}

inline void show(const Image &image, const std::string &number) {
  const uint8_t *bytes = read(image);
  std::string digest = Sha256::of(bytes, image.size());
  printf("frame %s %ux%u %s %s\n", number.c_str(), image.width, image.height, name_of(image.format), digest.c_str());
  if (prints_rows) print_rows({bytes, bytes + image.size()}, image.row());
  if (follows_defined) print_defined(image);
}
