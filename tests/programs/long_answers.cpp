// Writes what C++ gets of explain and reduce: of a list, a sequence and a key, in files, for the request ftp. Every signature is valid.
// Usage: long_answers LIMITS LIST SEQUENCE KEY        LIMITS are `highest`, or else the usual ones
#include <spki.hpp>

#include <fstream>
#include <iostream>
#include <iterator>
#include <string>

// The octets of a file, none if it cannot be read.
static std::string text_in(const char *path)
{
    std::ifstream file(path, std::ios::binary);
    return {std::istreambuf_iterator<char>(file), {}};
}

int main(int, char **words)
{
    const std::string sequence = text_in(words[3]);
    const std::string_view request[] = {"ftp"};
    const auto key = spki::proven_key::assume(text_in(words[4]));
    const spki::guard guard(text_in(words[2]), SPKI_STRICT, words[1] == std::string("highest") ? spki::highest_limits : spki::usual_limits);
    spki::asked asked = guard.ask({sequence, key, request, std::chrono::system_clock::from_time_t(1704067200)}); // (2024-01-01)
    (void)asked.verify([](const spki::signature &) { return true; });
    std::cout << asked.explain() << asked.reduce();
}
