#include "frame_range.h"

#include <fcntl.h>
#include <spawn.h>
#include <sys/wait.h>
#include <unistd.h>

#include <cerrno>
#include <cstdio>
#include <cstdlib>
#include <cstring>

extern char **environ;

namespace {

std::optional<uint64_t> number_of(const std::string &text) {
  if (text.empty() || text.size() > 19 || text[0] == '0') return {};
  for (char digit : text)
    if (digit < '0' || digit > '9') return {};
  return strtoull(text.c_str(), nullptr, 10);
}

std::string text_of(FrameRange frames) { return std::to_string(frames.first) + "-" + std::to_string(frames.last); }

// Runs PROGRAM trim A-B < FROM > TO. The status, or -1 with `errno` where it can't be run.
int run_trim(const char *program, FrameRange frames, const std::string &from, const std::string &to) {
  std::string range = text_of(frames), word = "trim";
  char *words[] = {const_cast<char *>(program), word.data(), range.data(), nullptr};
  posix_spawn_file_actions_t files;
  posix_spawn_file_actions_init(&files);
  posix_spawn_file_actions_addopen(&files, STDIN_FILENO, from.c_str(), O_RDONLY, 0);
  posix_spawn_file_actions_addopen(&files, STDOUT_FILENO, to.c_str(), O_WRONLY | O_CREAT | O_TRUNC, 0644);
  pid_t child;
  errno = posix_spawnp(&child, program, &files, nullptr, words, environ);
  posix_spawn_file_actions_destroy(&files);
  if (errno) return -1;
  int status = 0;
  pid_t ended;
  do ended = waitpid(child, &status, 0);
  while (ended < 0 && errno == EINTR);
  return ended < 0 ? -1 : WIFEXITED(status) ? WEXITSTATUS(status) : 128 + WTERMSIG(status);
}

}  // namespace

std::optional<FrameRange> frame_range_of(const std::string &text) {
  if (text.empty()) return FrameRange{};
  size_t dash = text.find('-');
  if (dash == std::string::npos) return {};
  auto first = number_of(text.substr(0, dash)), last = number_of(text.substr(dash + 1));
  if (!first || !last || *first > *last) return {};
  return FrameRange{*first, *last};
}

std::string cut(const std::string &path, FrameRange frames) {
  const char *named = getenv("GFXCAP"), *program = named && *named ? named : "gfxcap";
  std::string cut_path = path + ".cut";
  int status = run_trim(program, frames, path, cut_path);
  std::string why;
  if (status < 0) why = std::string(program) + " can't be run: " + strerror(errno);
  else if (status)
    why = std::string(program) + " trim " + text_of(frames) + " ends with status " + std::to_string(status);
  else if (rename(cut_path.c_str(), path.c_str())) why = std::string("it can't be replaced: ") + strerror(errno);
  if (!why.empty()) unlink(cut_path.c_str());
  return why;
}
