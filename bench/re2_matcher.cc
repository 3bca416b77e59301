// RE2 for the bench: the whole text, with all groups or with none.
#include <re2/re2.h>
#include <vector>

struct Made {
  RE2 re;
  std::vector<re2::StringPiece> groups;
  Made(const char *expression, const RE2::Options &options) : re(expression, options) {}
};

extern "C" void *re2_compile(const char *expression) {
  RE2::Options options(RE2::Latin1);
  options.set_log_errors(false);
  Made *made = new Made(expression, options);
  if (!made->re.ok()) return nullptr;
  made->groups.resize(1 + made->re.NumberOfCapturingGroups());
  return made;
}

extern "C" int re2_groups(void *m, const unsigned char *tape, size_t n) {
  Made *made = static_cast<Made *>(m);
  re2::StringPiece text(reinterpret_cast<const char *>(tape), n);
  return made->re.Match(text, 0, n, RE2::ANCHOR_BOTH, made->groups.data(), made->groups.size());
}

extern "C" int re2_whole(void *m, const unsigned char *tape, size_t n) {
  Made *made = static_cast<Made *>(m);
  re2::StringPiece text(reinterpret_cast<const char *>(tape), n);
  return made->re.Match(text, 0, n, RE2::ANCHOR_BOTH, nullptr, 0);
}
