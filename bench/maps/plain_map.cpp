// The script over a std::map. It keeps no log, so a flush does nothing.
#include "keys.h"

namespace {

class PlainMap {
  public:
    template <typename Visit> bool get(std::string_view key, Visit visit) const {
        const auto found = pairs.find(key);
        if (found == pairs.end()) return false;
        visit(found->second);
        return true;
    }

    template <typename Visit> bool set(std::string_view key, std::string_view value, Visit visit) {
        const auto place = pairs.lower_bound(key);
        if (place == pairs.end() || place->first != key) {
            pairs.emplace_hint(place, key, value);
            return false;
        }
        visit(place->second);
        place->second = value;
        return true;
    }

    template <typename Visit> bool del(std::string_view key, Visit visit) {
        const auto found = pairs.find(key);
        if (found == pairs.end()) return false;
        visit(found->second);
        pairs.erase(found);
        return true;
    }

    template <typename Visit> void scan(std::string_view from, std::uint64_t count, Visit visit) const {
        for (auto at = pairs.lower_bound(from); at != pairs.end() && count > 0; ++at, --count) visit(at->first, at->second);
    }

    void flush() {}

  private:
    std::map<std::string, std::string, std::less<>> pairs;
};

} // namespace

int main() { return keys::run<PlainMap>(); }
