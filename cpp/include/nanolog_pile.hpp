// Memory that grows. It is part of nanolog.hpp.
#pragma once

#include <cstddef>
#include <cstdlib>
#include <cstring>

namespace nanolog {
inline namespace version_1 {
namespace detail {

// Memory that grows. What is asked of it answers false where there is none.
template <class Item>
class Pile {
   public:
    Pile() = default;
    ~Pile() { std::free(items_); }
    Pile(const Pile &) = delete;
    Pile &operator=(const Pile &) = delete;

    bool reserve(std::size_t wanted) {
        if (wanted <= room_) return true;
        std::size_t room = room_ != 0 ? room_ : kLeastRoom;
        while (room < wanted) room *= 2;
        void *const more = std::realloc(static_cast<void *>(items_), room * sizeof(Item));
        if (more == nullptr) return false;
        items_ = static_cast<Item *>(more);
        room_ = room;
        return true;
    }

    bool add(const Item *items, std::size_t count) {
        if (!reserve(count_ + count)) return false;
        if (count != 0) std::memcpy(static_cast<void *>(items_ + count_), items, count * sizeof(Item));
        count_ += count;
        return true;
    }

    bool add(Item item) { return add(&item, 1); }

    Item *items() { return items_; }
    const Item *items() const { return items_; }
    std::size_t count() const { return count_; }
    std::size_t room() const { return room_; }
    void keep(std::size_t count) { count_ = count; }

   private:
    static constexpr std::size_t kLeastRoom = 64;

    Item *items_ = nullptr;
    std::size_t count_ = 0, room_ = 0;
};

}  // namespace detail
}  // namespace version_1
}  // namespace nanolog
