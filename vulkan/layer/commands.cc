// What is recorded into command buffers. A command buffer is one thread's while it is recorded, so the driver's call
// needs no lock. Longer lists than a block of the capture may have become several blocks, which mean the same.
#include <algorithm>

#include "call.h"
#include "formats.h"

namespace {

constexpr uint32_t MOST_ITEMS = 256;  // barriers or regions of a block

template <class Item>
struct Items {
  const Item *begin;
  uint32_t count;
};

// Calls `each` with pieces of the list, and once where it is empty.
template <class Item, class Each>
void in_pieces(uint32_t count, const Item *items, Each each) {
  uint32_t at = 0;
  do {
    uint32_t size = std::min(MOST_ITEMS, count - at);
    each(Items<Item>{items + at, size});
    at += size;
  } while (at < count);
}

Resource &resource_of(VkBuffer buffer) { return recording().memory.resource(recording().ids.find(buffer)); }
Resource &resource_of(VkImage image) { return recording().memory.resource(recording().ids.find(image)); }

template <class Handle>
void will_write(Call &call, VkCommandBuffer commands, Handle target, Rows rows) {
  if (!call.is_good()) return;
  recording().memory.will_write(recording().ids.find(commands), recording().ids.find(target), rows);
}

bool is_whole(const VkImageSubresourceRange &range) {
  bool has_level = range.levelCount == 1 || range.levelCount == VK_REMAINING_MIP_LEVELS;
  bool has_layer = range.layerCount == 1 || range.layerCount == VK_REMAINING_ARRAY_LAYERS;
  bool begins_first = !range.baseMipLevel && !range.baseArrayLayer;
  return range.aspectMask == VK_IMAGE_ASPECT_COLOR_BIT && begins_first && has_level && has_layer;
}

bool is_whole(const VkImageSubresourceLayers &layers) {
  bool begins_first = !layers.mipLevel && !layers.baseArrayLayer;
  return layers.aspectMask == VK_IMAGE_ASPECT_COLOR_BIT && begins_first && layers.layerCount == 1;
}

bool is_flat(const VkOffset3D &offset, const VkExtent3D &extent) {
  return offset.x >= 0 && offset.y >= 0 && !offset.z && extent.depth == 1;
}

constexpr const char *LACKS_REGION = "the profile lacks what a region names";

const void *chain_of(const VkBufferCopy &) { return nullptr; }
const void *chain_of(const VkImageCopy &) { return nullptr; }
const void *chain_of(const VkBufferImageCopy &) { return nullptr; }
template <class Region>
const void *chain_of(const Region &region) {
  return region.pNext;
}

template <class Region>
void copy_buffer(const char *name, VkCommandBuffer commands, VkBuffer source, VkBuffer target, Items<Region> regions) {
  Call call(CallId::CmdCopyBuffer, name);
  if (!call) return;
  call.id(commands).id(source).id(target).word(regions.count);
  for (auto *region = regions.begin; region < regions.begin + regions.count; region++) {
    call.require(is_plain(chain_of(*region)), LACKS_REGION);
    call.size(region->srcOffset).size(region->dstOffset).size(region->size);
    will_write(call, commands, target, one_row(region->dstOffset, region->size));
  }
}

struct ImageInLayout {
  VkImage image;
  VkImageLayout layout;
};

template <class Region>
void copy_image(const char *name, VkCommandBuffer commands, ImageInLayout source, ImageInLayout target,
                Items<Region> regions) {
  Call call(CallId::CmdCopyImage, name);
  if (!call) return;
  call.id(commands).id(source.image).word(source.layout).id(target.image).word(target.layout).word(regions.count);
  for (auto *region = regions.begin; region < regions.begin + regions.count; region++) {
    auto &from = region->srcOffset, &to = region->dstOffset;
    auto &extent = region->extent;
    call.require(is_whole(region->srcSubresource) && is_whole(region->dstSubresource), LACKS_REGION);
    call.require(is_flat(from, extent) && is_flat(to, extent) && is_plain(chain_of(*region)), LACKS_REGION);
    call.word(from.x).word(from.y).word(to.x).word(to.y).word(extent.width).word(extent.height);
  }
  will_write(call, commands, target.image, WHOLE_RESOURCE);
}

template <class Region>
void put_regions(Call &call, Items<Region> regions) {
  call.word(regions.count);
  for (auto *region = regions.begin; region < regions.begin + regions.count; region++) {
    auto &offset = region->imageOffset;
    auto &extent = region->imageExtent;
    bool is_known = is_whole(region->imageSubresource) && is_flat(offset, extent) && is_plain(chain_of(*region));
    call.require(is_known, LACKS_REGION);
    call.size(region->bufferOffset).word(region->bufferRowLength).word(region->bufferImageHeight);
    call.word(offset.x).word(offset.y).word(extent.width).word(extent.height);
  }
}

template <class Region>
void copy_to_image(const char *name, VkCommandBuffer commands, VkBuffer source, ImageInLayout target,
                   Items<Region> regions) {
  Call call(CallId::CmdCopyBufferToImage, name);
  if (!call) return;
  call.id(commands).id(source).id(target.image).word(target.layout);
  put_regions(call, regions);
  will_write(call, commands, target.image, WHOLE_RESOURCE);
}

template <class Region>
void copy_to_buffer(const char *name, VkCommandBuffer commands, ImageInLayout source, VkBuffer target,
                    Items<Region> regions) {
  Call call(CallId::CmdCopyImageToBuffer, name);
  if (!call) return;
  call.id(commands).id(source.image).word(source.layout).id(target);
  put_regions(call, regions);
  if (!call.is_good()) return;
  uint64_t texel = resource_of(source.image).texel;
  for (auto *region = regions.begin; region < regions.begin + regions.count; region++) {
    auto &extent = region->imageExtent;
    uint64_t row = region->bufferRowLength ? region->bufferRowLength : extent.width;
    will_write(call, commands, target, {region->bufferOffset, extent.width * texel, row * texel, extent.height});
  }
}

// A barrier that the second form of the call doesn't take as a change of layout.
bool keeps_layout(const VkImageMemoryBarrier &) { return false; }
bool keeps_layout(const VkImageMemoryBarrier2 &barrier) { return barrier.oldLayout == barrier.newLayout; }

template <class Barrier>
void put_barriers(const char *name, VkCommandBuffer commands, Items<Barrier> barriers) {
  Call call(CallId::CmdPipelineBarrier, name);
  if (!call) return;
  std::vector<const Barrier *> changes;
  for (auto *barrier = barriers.begin; barrier < barriers.begin + barriers.count; barrier++)
    if (!keeps_layout(*barrier)) changes.push_back(barrier);
  call.id(commands).word(changes.size());
  for (auto *barrier : changes) {
    bool is_known = is_whole(barrier->subresourceRange) && is_plain(barrier->pNext);
    call.require(is_known, "the profile lacks what a barrier names");
    bool stays = barrier->srcQueueFamilyIndex == barrier->dstQueueFamilyIndex;
    call.require(stays, "the profile lacks transfers to another queue family");
    for (uint32_t layout : {barrier->oldLayout, barrier->newLayout})
      call.require(is_known_layout(layout), lacks_layout(layout));
    call.id(barrier->image).word(barrier->oldLayout).word(barrier->newLayout);
  }
}

}  // namespace

namespace intercept {

void CmdPipelineBarrier(VkCommandBuffer commands, VkPipelineStageFlags from, VkPipelineStageFlags to,
                        VkDependencyFlags flags, uint32_t memory_count, const VkMemoryBarrier *memories,
                        uint32_t buffer_count, const VkBufferMemoryBarrier *buffers, uint32_t count,
                        const VkImageMemoryBarrier *barriers) {
  device_table(commands).CmdPipelineBarrier(commands, from, to, flags, memory_count, memories, buffer_count, buffers,
                                            count, barriers);
  in_pieces(count, barriers, [&](auto some) { put_barriers("vkCmdPipelineBarrier", commands, some); });
}

void CmdPipelineBarrier2(VkCommandBuffer commands, const VkDependencyInfo *info) {
  device_table(commands).CmdPipelineBarrier2(commands, info);
  in_pieces(info->imageMemoryBarrierCount, info->pImageMemoryBarriers,
            [&](auto some) { put_barriers("vkCmdPipelineBarrier2", commands, some); });
}

void CmdFillBuffer(VkCommandBuffer commands, VkBuffer buffer, VkDeviceSize offset, VkDeviceSize size, uint32_t word) {
  device_table(commands).CmdFillBuffer(commands, buffer, offset, size, word);
  Call call(CallId::CmdFillBuffer);
  if (!call) return;
  call.id(commands).id(buffer).size(offset).size(size).word(word);
  if (!call.is_good()) return;
  if (size == VK_WHOLE_SIZE) size = (resource_of(buffer).size - offset) / sizeof word * sizeof word;
  will_write(call, commands, buffer, one_row(offset, size));
}

void CmdUpdateBuffer(VkCommandBuffer commands, VkBuffer buffer, VkDeviceSize offset, VkDeviceSize size,
                     const void *bytes) {
  device_table(commands).CmdUpdateBuffer(commands, buffer, offset, size, bytes);
  Call call(CallId::CmdUpdateBuffer);
  if (!call) return;
  call.id(commands).id(buffer).size(offset).bytes(bytes, size);
  will_write(call, commands, buffer, one_row(offset, size));
}

void CmdCopyBuffer(VkCommandBuffer commands, VkBuffer source, VkBuffer target, uint32_t count,
                   const VkBufferCopy *regions) {
  device_table(commands).CmdCopyBuffer(commands, source, target, count, regions);
  in_pieces(count, regions, [&](auto some) { copy_buffer("vkCmdCopyBuffer", commands, source, target, some); });
}

void CmdCopyBuffer2(VkCommandBuffer commands, const VkCopyBufferInfo2 *info) {
  device_table(commands).CmdCopyBuffer2(commands, info);
  in_pieces(info->regionCount, info->pRegions,
            [&](auto some) { copy_buffer("vkCmdCopyBuffer2", commands, info->srcBuffer, info->dstBuffer, some); });
}

void CmdCopyImage(VkCommandBuffer commands, VkImage source, VkImageLayout source_layout, VkImage target,
                  VkImageLayout target_layout, uint32_t count, const VkImageCopy *regions) {
  device_table(commands).CmdCopyImage(commands, source, source_layout, target, target_layout, count, regions);
  in_pieces(count, regions, [&](auto some) {
    copy_image("vkCmdCopyImage", commands, {source, source_layout}, {target, target_layout}, some);
  });
}

void CmdCopyImage2(VkCommandBuffer commands, const VkCopyImageInfo2 *info) {
  device_table(commands).CmdCopyImage2(commands, info);
  ImageInLayout source = {info->srcImage, info->srcImageLayout}, target = {info->dstImage, info->dstImageLayout};
  in_pieces(info->regionCount, info->pRegions,
            [&](auto some) { copy_image("vkCmdCopyImage2", commands, source, target, some); });
}

void CmdCopyBufferToImage(VkCommandBuffer commands, VkBuffer source, VkImage target, VkImageLayout layout,
                          uint32_t count, const VkBufferImageCopy *regions) {
  device_table(commands).CmdCopyBufferToImage(commands, source, target, layout, count, regions);
  in_pieces(count, regions, [&](auto some) {
    copy_to_image("vkCmdCopyBufferToImage", commands, source, {target, layout}, some);
  });
}

void CmdCopyBufferToImage2(VkCommandBuffer commands, const VkCopyBufferToImageInfo2 *info) {
  device_table(commands).CmdCopyBufferToImage2(commands, info);
  ImageInLayout target = {info->dstImage, info->dstImageLayout};
  in_pieces(info->regionCount, info->pRegions,
            [&](auto some) { copy_to_image("vkCmdCopyBufferToImage2", commands, info->srcBuffer, target, some); });
}

void CmdCopyImageToBuffer(VkCommandBuffer commands, VkImage source, VkImageLayout layout, VkBuffer target,
                          uint32_t count, const VkBufferImageCopy *regions) {
  device_table(commands).CmdCopyImageToBuffer(commands, source, layout, target, count, regions);
  in_pieces(count, regions, [&](auto some) {
    copy_to_buffer("vkCmdCopyImageToBuffer", commands, {source, layout}, target, some);
  });
}

void CmdCopyImageToBuffer2(VkCommandBuffer commands, const VkCopyImageToBufferInfo2 *info) {
  device_table(commands).CmdCopyImageToBuffer2(commands, info);
  ImageInLayout source = {info->srcImage, info->srcImageLayout};
  in_pieces(info->regionCount, info->pRegions,
            [&](auto some) { copy_to_buffer("vkCmdCopyImageToBuffer2", commands, source, info->dstBuffer, some); });
}

void CmdClearColorImage(VkCommandBuffer commands, VkImage image, VkImageLayout layout, const VkClearColorValue *color,
                        uint32_t count, const VkImageSubresourceRange *ranges) {
  device_table(commands).CmdClearColorImage(commands, image, layout, color, count, ranges);
  Call call(CallId::CmdClearColorImage);
  if (!count) call.skip();
  if (!call) return;
  for (uint32_t at = 0; at < count; at++) call.require(is_whole(ranges[at]), "the profile clears whole images alone");
  call.id(commands).id(image).word(layout);
  for (uint32_t part : color->uint32) call.word(part);
  if (!call.is_good()) return;
  call.require(resource_of(image).is_integer, "the profile lacks clears to floating-point colors");
  will_write(call, commands, image, WHOLE_RESOURCE);
}

}  // namespace intercept
