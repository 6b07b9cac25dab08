#include "written_pages.h"

#include <fcntl.h>
#include <linux/userfaultfd.h>
#include <sys/ioctl.h>
#include <sys/syscall.h>
#include <unistd.h>

#include <cerrno>
#include <cstdio>
#include <cstdlib>
#include <cstring>

namespace {

// Of linux/userfaultfd.h and linux/fs.h of Linux 6.7, which headers of older distributions lack.
constexpr uint64_t USER_MODE_ONLY = 1, WP_UNPOPULATED = 1 << 13, WP_ASYNC = 1 << 15;
constexpr uint64_t PROTECT_AGAIN = 1 << 0, ONLY_PROTECTABLE = 1 << 1, PAGE_IS_WRITTEN = 1 << 1;
constexpr size_t RANGES = 256;

struct PageRange {
  uint64_t begin, end, categories;
};

struct ScanArguments {
  uint64_t size, flags, begin, end, scanned_to, ranges, count, most_pages, inverted, all_of, any_of, returned;
};

const unsigned long SCAN_PAGES = _IOWR('f', 16, ScanArguments);

uint64_t address(const uint8_t *at) { return reinterpret_cast<uint64_t>(at); }
const uint8_t *pointer(uint64_t address) { return reinterpret_cast<const uint8_t *>(address); }

}  // namespace

bool WrittenPages::cant(const char *what) {
  fprintf(stderr, "gfxcap: all mapped memory is compared at each submit, because %s: %s\n", what, strerror(errno));
  if (faults_ >= 0) close(faults_);
  if (pages_ >= 0) close(pages_);
  faults_ = pages_ = -1;
  return false;
}

bool WrittenPages::open() {
  if (was_opened_) return faults_ >= 0;
  was_opened_ = true;
  const char *asked = getenv("GFXCAP_COMPARE");
  if (asked && !strcmp(asked, "1")) return false;
  faults_ = syscall(SYS_userfaultfd, O_CLOEXEC | O_NONBLOCK | USER_MODE_ONLY);
  if (faults_ < 0) return cant("userfaultfd fails");
  uffdio_api api = {UFFD_API, WP_ASYNC | WP_UNPOPULATED, 0};
  if (ioctl(faults_, UFFDIO_API, &api)) return cant("the kernel can't lift write protection itself");
  pages_ = ::open("/proc/self/pagemap", O_RDONLY | O_CLOEXEC);
  return pages_ >= 0 || cant("/proc/self/pagemap can't be read");
}

bool WrittenPages::watch(const uint8_t *begin, const uint8_t *end) {
  if (!open()) return false;
  uffdio_register range = {{address(begin), static_cast<uint64_t>(end - begin)}, UFFDIO_REGISTER_MODE_WP, 0};
  if (ioctl(faults_, UFFDIO_REGISTER, &range)) return cant("this memory can't be write-protected");
  return take(begin, end, [](const uint8_t *, const uint8_t *) {});
}

void WrittenPages::forget(const uint8_t *begin, const uint8_t *end) {
  uffdio_range range = {address(begin), static_cast<uint64_t>(end - begin)};
  ioctl(faults_, UFFDIO_UNREGISTER, &range);
}

bool WrittenPages::take(const uint8_t *begin, const uint8_t *end, const Range &range) {
  PageRange ranges[RANGES];
  uint64_t from = address(begin);
  while (from < address(end)) {
    ScanArguments scan = {};
    scan.size = sizeof scan;
    scan.flags = PROTECT_AGAIN | ONLY_PROTECTABLE;
    scan.begin = from;
    scan.end = address(end);
    scan.ranges = reinterpret_cast<uint64_t>(ranges);
    scan.count = RANGES;
    scan.all_of = scan.returned = PAGE_IS_WRITTEN;
    int count = ioctl(pages_, SCAN_PAGES, &scan);
    if (count < 0) return cant("written pages can't be asked for");
    for (int at = 0; at < count; at++) range(pointer(ranges[at].begin), pointer(ranges[at].end));
    from = scan.scanned_to;
  }
  return true;
}
