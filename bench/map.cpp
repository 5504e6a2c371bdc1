// C++ std::map from key to recording behind C functions.
#include <cstdint>
#include <map>

using Map = std::map<std::uint64_t, std::uint64_t>;

extern "C" {

void *map_new()
{
    return new Map;
}

void map_free(void *map)
{
    delete static_cast<Map *>(map);
}

void map_insert(void *map, std::uint64_t key, std::uint64_t value)
{
    static_cast<Map *>(map)->emplace(key, value);
}

// The value of the key, or 0 where it is absent.
std::uint64_t map_search(const void *map, std::uint64_t key)
{
    const Map &m = *static_cast<const Map *>(map);
    auto found = m.find(key);
    return found == m.end() ? 0 : found->second;
}
}
