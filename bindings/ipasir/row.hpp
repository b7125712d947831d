// Vectors of which little stays empty.
#pragma once
#include <algorithm>
#include <cstddef>
#include <cstdlib>
#include <new>
#include <type_traits>
#include <vector>

namespace cefindrato_ipasir {

// For how many values a vector makes room where so many more do not fit.
inline std::size_t grown(std::size_t size, std::size_t more) { return size + std::max({more, size / 8, std::size_t{64}}); }

// Lengthens a vector.
template <class Value> void lengthen(std::vector<Value> &values, std::size_t size) {
    if (size > values.capacity()) {
        values.reserve(grown(values.size(), size - values.size()));
    }
    values.resize(size);
}

// A vector of plain values that grows by an eighth, where it stands if it can: no second copy stands beside a large one.
template <class Value> class Row {
    static_assert(std::is_trivially_copyable_v<Value>);

  public:
    Row() = default;
    Row(const Row &) = delete;
    Row &operator=(const Row &) = delete;
    ~Row() { std::free(values_); }

    std::size_t size() const { return size_; }
    Value *data() { return values_; }
    const Value *data() const { return values_; }
    Value &operator[](std::size_t at) { return values_[at]; }
    const Value &operator[](std::size_t at) const { return values_[at]; }

    // Adds this many values, without a content, and says where.
    Value *add(std::size_t count) {
        if (room_ - size_ < count) {
            resize_room(grown(size_, count));
        }
        size_ += count;
        return values_ + (size_ - count);
    }

    void push_back(Value value) { *add(1) = value; }

    // Copies some values to a place before theirs.
    void move_down(std::size_t begin, std::size_t end, std::size_t to) { std::copy(values_ + begin, values_ + end, values_ + to); }

    // Only the first ones are left, and little more memory than they need.
    void cut(std::size_t size) {
        size_ = size;
        resize_room(grown(size, 0));
    }

  private:
    void resize_room(std::size_t room) {
        void *values = std::realloc(static_cast<void *>(values_), room * sizeof(Value));
        if (!values) {
            throw std::bad_alloc();
        }
        values_ = static_cast<Value *>(values);
        room_ = room;
    }

    Value *values_ = nullptr;
    std::size_t size_ = 0, room_ = 0;
};

} // namespace cefindrato_ipasir
