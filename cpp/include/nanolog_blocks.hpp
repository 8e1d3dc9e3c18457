// The blocks of a log. It is part of nanolog.hpp.
#pragma once

#include <cstddef>
#include <cstdint>

namespace nanolog {
inline namespace version_1 {
namespace detail {

// Walks over the blocks of a log as its bytes come, to know where a block ends.
class Blocks {
   public:
    // So many bytes have come, and the last whole block among them ends here, from the front of the log; but for what
    // lies behind the limit.
    std::uint64_t place() const { return place_; }
    std::uint64_t whole() const { return whole_; }
    // There are calls among them.
    bool has_extent() const { return has_extent_; }

    void walk(const std::uint8_t *bytes, std::size_t len, std::uint64_t limit) {
        for (std::size_t at = 0; at < len;) {
            if (skipped_ != 0) {
                const std::size_t step = len - at < skipped_ ? len - at : skipped_;
                skipped_ -= step;
                at += step;
                place_ += step;
            } else {
                field_[filled_++] = bytes[at++];
                place_++;
                if (filled_ == wanted_) take_field();
            }
            if (skipped_ == 0 && filled_ == 0 && part_ == kTag && place_ <= limit) {
                whole_ = place_;
                has_extent_ = has_extent_ || is_extent_;
            }
        }
    }

   private:
    // What the next field is: the tag of a block, the front of an extent or of a fragment of a dictionary, or of an
    // entry of that, or the length of an entry's format. The other blocks have one length each.
    enum Part { kTag, kExtent, kFragment, kEntry, kFormat };

    void expect(Part part, std::size_t wanted, std::size_t skipped) {
        part_ = part;
        wanted_ = wanted;
        skipped_ = skipped;
        filled_ = 0;
    }

    std::size_t number(std::size_t at, int bytes) const {
        std::size_t value = 0;
        for (int place = bytes; place-- > 0;) value = value << 8 | field_[at + static_cast<std::size_t>(place)];
        return value;
    }

    void next_entry(std::size_t skipped) {
        if (entries_ == 0) return expect(kTag, 1, skipped);
        entries_--;
        expect(kEntry, 7, skipped);
    }

    void take_field() {
        switch (part_) {
            case kTag:
                is_extent_ = field_[0] == 2;
                if (field_[0] == 1) return expect(kFragment, 6, 0);
                if (field_[0] == 2) return expect(kExtent, 6, 0);
                return expect(kTag, 1, field_[0] == 3 ? kClock : kMark);
            case kExtent:
                return expect(kTag, 1, number(2, 4));
            case kFragment:
                entries_ = number(4, 2);
                return next_entry(0);
            case kEntry:
                return expect(kFormat, 2, number(5, 2));
            case kFormat:
                return next_entry(number(0, 2));
        }
    }

    // The bytes of a header, and of a clock and a close mark behind their tags.
    static constexpr std::size_t kHeader = 31, kClock = 24, kMark = 2;

    Part part_ = kTag;
    std::size_t wanted_ = 1, filled_ = 0, skipped_ = kHeader, entries_ = 0;
    std::uint8_t field_[8] = {};
    std::uint64_t place_ = 0, whole_ = 0;
    bool is_extent_ = false, has_extent_ = false;
};

}  // namespace detail
}  // namespace version_1
}  // namespace nanolog
