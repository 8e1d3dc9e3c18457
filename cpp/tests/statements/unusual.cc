// Statements where few stand. Each line of the log is the text of one.
#include <nanolog.hpp>
#include <string>
#include <tuple>

#define LOG(...) NANO_LOG(NOTICE, __VA_ARGS__)

namespace {

int with_default(int number = (LOG("default argument %d", 1), 1)) { return number; }

template <class Type>
struct Box {
    Type first = (LOG("member of a template %d", 2), Type(2));

    template <class Other>
    Other get(Other other = (LOG("default argument of a template %d", 3), Other(3))) {
        return other;
    }
    friend void befriended(Box) { LOG("friend %d", 4); }
};

template <class Type>
const Type variable = (LOG("variable template %d", 5), Type(5));

struct Operators {
    Operators &operator<<(int number) {
        LOG("operator %d", number);
        return *this;
    }
    explicit operator bool() const {
        LOG("conversion");
        return true;
    }
    ~Operators() noexcept { LOG("destructor"); }
};

void tries() try {
    LOG("function try block");
    throw 1;
} catch (...) {
    LOG("its handler");
}

template <int Number>
void recursive() {
    if constexpr (Number > 0) {
        LOG("recursive %d", Number);
        recursive<Number - 1>();
    }
}

template <class... Given>
void packs(Given... given) {
    (LOG("of a pack %d", static_cast<int>(given)), ...);
    LOG("pack of %zu and %s", sizeof...(given), std::string("a text"));
}

void local() {
    struct Local {
        int number = 1;
        void call() {
            LOG("local class");
            [this] { LOG("lambda of a local class %d", number); }();
        }
    };
    Local().call();
}

enum class Scoped : short { kThree = 3 };

}  // namespace

// Names of the headers that stand for something else.
namespace other {
struct nanolog {};
namespace detail {}
namespace std {}
void call() { LOG("beside names of ours %s", "here"); }
}  // namespace other

extern "C" int c_function(int number) {
    LOG("extern C %d", number);
    return number;
}

int main() {
    nanolog::Session log("unusual.log");
    with_default();
    Box<int> box;
    box.get<long>();
    befriended(box);
    {
        Operators operators;
        if (operators << 6) static_cast<void>(variable<int>);
    }
    tries();
    c_function(7);
    recursive<2>();
    packs(1, 'b', Scoped::kThree);
    local();
    other::call();
    const auto [one, two] = std::make_tuple(1, 2);
    LOG("binding %d %d", one, two);
    do LOG("body of do");
    while (false);
    for (int number = (LOG("init"), 0); number < 1; LOG("step"), number++) LOG("body of for");
    return log.close().is_clean() ? 0 : 1;
}
