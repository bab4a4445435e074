// Looks for glossary terms in a paragraph, whichever endings they wear there: a word is the term where
// the whole run leaves the same stem of both, in small letters.
// Build: c++ -std=c++17 -I include examples/glossary.cpp target/staticlib/libfannavy.a -o glossary
#include "fannavy.h"

#include <algorithm>
#include <array>
#include <iostream>
#include <string>
#include <string_view>

namespace {

// The bytes of a text. An empty view may have a null pointer, which the calls take with the length 0.
const uint8_t *bytes(std::string_view text) { return reinterpret_cast<const uint8_t *>(text.data()); }

// The stem of a word in small or capital letters: empty where nothing is left of it, and where it is
// refused, since a refused call gives the length 0.
std::string stem(std::string_view word) {
    std::array<uint8_t, FANNAVY_FOLD_ROOM(FANNAVY_LIMIT)> small;
    const FannavyFold fold = fannavy_fold(bytes(word), word.size(), small.data(), small.size());
    std::array<uint8_t, FANNAVY_PASS_ROOM(FANNAVY_LIMIT)> out;
    const FannavyWhole whole = fannavy_whole(small.data(), fold.length, out.data(), out.size());
    return {reinterpret_cast<const char *>(out.data()), whole.length};
}

// Whether a word of the paragraph has the term's stem. The empty stem is no term's: the words leri and
// siniz have it too.
bool appears(std::string_view term, std::string_view paragraph) {
    const std::string sought = stem(term);
    while (!sought.empty() && !paragraph.empty()) {
        const size_t end = std::min(paragraph.find_first_of(" ,."), paragraph.size());
        if (stem(paragraph.substr(0, end)) == sought) {
            return true;
        }
        paragraph.remove_prefix(std::min(end + 1, paragraph.size()));
    }
    return false;
}

} // namespace

int main() {
    const std::string_view paragraph = "KAPAĞINI sökmeden önce vidaların ikisini de gevşetin, "
                                       "yoksa ışık yanar.";
    const std::string_view terms[] = {"kapak",  "vida",  "IŞIKLAR",
                                      "filtre", "siniz", std::string_view{}};

    std::cout << paragraph << '\n';
    for (const std::string_view term : terms) {
        std::cout << "'" << term << "': " << (appears(term, paragraph) ? "yes" : "no") << '\n';
    }
    return 0;
}
