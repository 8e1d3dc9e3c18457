// Whether a library shares what the program has. It is part of nanolog.hpp.
#pragma once

#include <cstddef>
#include <cstdint>

namespace nanolog {
inline namespace version_1 {
namespace detail {

// A part of a module in memory, and a module, as the loader tells of them on 64 bits. <link.h> has them, too, beside
// hundreds of macros.
struct ModulePart {
    std::uint32_t type, flags;
    std::uint64_t offset, begin, physical, file_len, len, alignment;
};
struct Module {
    std::uintptr_t base;
    const char *name;
    const ModulePart *parts;
    std::uint16_t count;
};

extern "C" int nanolog_visit_modules(int (*visit)(Module *, std::size_t, void *), void *) __asm__("dl_iterate_phdr");
extern "C" unsigned long nanolog_auxiliary_value(unsigned long type) __asm__("getauxval");

// A search for the module that has this address, among those of the process in their order.
struct ModuleSearch {
    std::uintptr_t address;
    bool is_behind_loader;  // the loader was passed: what comes now was loaded by the running program
};

inline int search_module(Module *module, std::size_t, void *data) {
    constexpr std::uint32_t loaded = 1;
    constexpr unsigned long loader_base = 7;
    ModuleSearch &search = *static_cast<ModuleSearch *>(data);
    for (unsigned number = 0; number < module->count; number++) {
        const ModulePart &part = module->parts[number];
        if (part.type == loaded && search.address - (module->base + part.begin) < part.len) return 1;
    }
    if (module->base == nanolog_auxiliary_value(loader_base)) search.is_behind_loader = true;
    return 0;
}

// Whether this stands in a library that was loaded by the running program. What all modules share stands there only
// where the program has its own for itself, since it isn't linked with -rdynamic.
inline bool is_in_plugin(const void *shared) {
    if (sizeof shared != sizeof(std::uint64_t)) return false;
    ModuleSearch search = {reinterpret_cast<std::uintptr_t>(shared), false};
    return nanolog_visit_modules(&search_module, &search) != 0 && search.is_behind_loader;
}

}  // namespace detail
}  // namespace version_1
}  // namespace nanolog
