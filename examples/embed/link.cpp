// Links the bundle on standard input, and writes its line, as the program wesl-link does: status 0 where a unit was
// linked, 1 where the line tells a fault, 2 where a read, a write or memory failed.
#include <cstdint>
#include <cstdlib>
#include <exception>
#include <iostream>
#include <iterator>
#include <new>
#include <string>
#include <string_view>
#include <utility>

#include "wesl.h"

namespace {

// Links bundles, one after another, in one buffer.
class Linker {
  public:
    Linker() = default;
    Linker(const Linker &) = delete;
    Linker &operator=(const Linker &) = delete;
    ~Linker() { std::free(buffer.bytes); }

    // Whether a bundle is answered, and its line, which stays until the next one is linked.
    std::pair<bool, std::string_view> line_of(std::string_view bundle) {
        const auto *bytes = reinterpret_cast<const std::uint8_t *>(bundle.data());
        const auto status = wesl_link_grow(bytes, bundle.size(), &buffer);
        if (status == WESL_NO_ROOM)
            throw std::bad_alloc();
        return {status == WESL_LINKED, {reinterpret_cast<const char *>(buffer.bytes), buffer.length}};
    }

  private:
    wesl_buffer buffer{};
};

} // namespace

int main() {
    try {
        std::cin.exceptions(std::ios::badbit);
        const std::string bundle{std::istreambuf_iterator<char>(std::cin), {}};
        Linker linker;
        const auto [is_answer, line] = linker.line_of(bundle);
        std::cout.write(line.data(), static_cast<std::streamsize>(line.size())).flush();
        return !std::cout ? 2 : is_answer ? WESL_LINKED : WESL_REFUSED;
    } catch (const std::exception &) {
        return 2;
    }
}
