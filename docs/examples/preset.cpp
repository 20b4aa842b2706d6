// The window and the normal form of some presets, and a refusal.
#include <cstdint>
#include <iostream>
#include <stdexcept>
#include <string>
#include <vector>

#include "winnathey.h"

// What a call returned, if it is not refused.
static std::size_t accepted(std::int64_t result)
{
    if (result < 0)
        throw std::invalid_argument("refused " + std::to_string(-result));
    return static_cast<std::size_t>(result);
}

template <typename Entry>
static void print(const char *name, const std::vector<Entry> &entries)
{
    std::cout << name;
    for (int entry : entries)
        std::cout << ' ' << entry;
    std::cout << '\n';
}

// Prints what a preset shows and its normal form.
static void show(std::uint32_t kind, std::uint32_t rank, const std::vector<std::uint8_t> &word)
{
    std::cout << "kind " << kind << ", rank " << rank << ", ";
    print("word", word);

    std::vector<std::int8_t> window(WINNATHEY_MAX_LANES);
    window.resize(accepted(
        winnathey_window_of_word(kind, rank, word.data(), word.size(), window.data(), window.size())));
    print("  window", window);

    std::vector<std::uint8_t> form(WINNATHEY_MAX_NORMAL_FORM);
    form.resize(accepted(winnathey_normal_form_of_window(kind, rank, window.data(), window.size(),
                                                         form.data(), form.size())));
    print("  normal form", form);
}

int main()
{
    show(WINNATHEY_KIND_B, 2, {1, 2, 1, 2});
    show(WINNATHEY_KIND_D, 5, {4, 4, 2, 5, 3, 5, 1, 2});
    try {
        show(WINNATHEY_KIND_B, 2, {1, 2, 3}); // kind B at rank 2 has no step 3
    } catch (const std::invalid_argument &refusal) {
        std::cout << "  " << refusal.what() << '\n';
    }
}
