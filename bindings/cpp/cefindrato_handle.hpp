// What the library keeps for an object, for C++17: it ends with the object.
#ifndef CEFINDRATO_HANDLE_HPP
#define CEFINDRATO_HANDLE_HPP
#include <utility>

namespace cefindrato::detail {

// A handle, or none: its bytes are all 0. One that was moved from is none.
template <typename T, void (*end)(T *)> class Handle {
  public:
    Handle() = default;
    Handle(Handle &&other) noexcept : handle(std::exchange(other.handle, {})) {}
    Handle &operator=(Handle &&other) noexcept {
        std::swap(handle, other.handle);
        return *this;
    }
    ~Handle() { end(&handle); }
    T *get() { return &handle; }

  private:
    T handle = {nullptr, false};
};

} // namespace cefindrato::detail
#endif
