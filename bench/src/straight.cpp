// What an engineer would write instead, in straightforward C++: std::vector, and one loop after the other. Words are taken as they are, without a look at
// their letters; windows and books are checked as the library checks them, since there the checks are a good part of the work.
#include <algorithm>
#include <cstddef>
#include <cstdint>
#include <cstdlib>
#include <utility>
#include <vector>

typedef std::vector<std::int8_t> Window;
typedef std::vector<std::uint8_t> Word;

static Window window_of(std::uint32_t kind, std::uint32_t rank, const std::uint8_t *word, std::size_t letters)
{
    Window w(kind == 1 ? rank + 1 : rank);
    for (std::size_t i = 0; i < w.size(); i++)
        w[i] = static_cast<std::int8_t>(i + 1);
    for (std::size_t i = 0; i < letters; i++) {
        std::size_t s = word[i];
        if (s < w.size()) {
            std::swap(w[s - 1], w[s]);
        } else if (kind == 2) {
            w[s - 1] = -w[s - 1];
        } else {
            std::swap(w[s - 2], w[s - 1]);
            w[s - 2] = -w[s - 2];
            w[s - 1] = -w[s - 1];
        }
    }
    return w;
}

// Block i goes up from step i to the entry's position, or, if the entry is negative, to step n and down again to its position; in kind D step n stands in
// the place of the last two steps up.
static void append_block(Word &form, std::uint32_t kind, std::uint32_t n, std::uint32_t i, std::uint32_t position, bool negative)
{
    std::uint32_t top = !negative ? position : kind == 3 ? n - 1 : n;
    for (std::uint32_t s = i; s < top; s++)
        form.push_back(static_cast<std::uint8_t>(s));
    if (!negative)
        return;
    form.push_back(static_cast<std::uint8_t>(n));
    for (std::uint32_t s = n - 1; s >= position; s--)
        form.push_back(static_cast<std::uint8_t>(s));
}

// Blocks are peeled off from block 1 on, and stand in the normal form from the last one on.
static Word form_of(std::uint32_t kind, std::uint32_t rank, Window w)
{
    std::vector<std::pair<std::uint32_t, bool>> peeled;
    for (std::uint32_t i = 1; i <= (kind == 3 ? rank - 1 : rank); i++) {
        std::uint32_t at = 0;
        while (std::abs(w[at]) != static_cast<int>(i))
            at++;
        bool negative = w[at] < 0;
        w.erase(w.begin() + at);
        if (negative && kind == 3)
            w.back() = -w.back();
        peeled.push_back(std::make_pair(i + at, negative));
    }
    Word form;
    for (std::uint32_t i = static_cast<std::uint32_t>(peeled.size()); i > 0; i--)
        append_block(form, kind, rank, i, peeled[i - 1].first, peeled[i - 1].second);
    return form;
}

// The number of the first check that a window fails, or 0.
static int window_refusal(std::uint32_t kind, std::uint32_t rank, const std::int8_t *w, std::size_t lanes)
{
    if (kind < 1 || kind > 3)
        return 5;
    if (rank < (kind == 1 ? 1 : kind == 2 ? 2 : 4) || rank > (kind == 1 ? 63 : 64))
        return 6;
    if (lanes != (kind == 1 ? rank + 1 : rank))
        return 9;
    bool seen[65] = {};
    int negatives = 0;
    for (std::size_t i = 0; i < lanes; i++) {
        std::size_t size = static_cast<std::size_t>(std::abs(w[i]));
        if (size == 0 || size > lanes || seen[size] || (kind == 1 && w[i] < 0))
            return 10;
        seen[size] = true;
        negatives += w[i] < 0;
    }
    return kind == 3 && negatives % 2 == 1 ? 11 : 0;
}

// In the order 1, 2, .., m, -m, .., -2, -1.
static bool later(std::int8_t x, std::int8_t y)
{
    return static_cast<std::uint8_t>(x) > static_cast<std::uint8_t>(y);
}

static std::int64_t length_of(std::uint32_t kind, const std::int8_t *w, std::size_t lanes)
{
    std::int64_t sum = 0;
    for (std::size_t i = 0; i < lanes; i++) {
        for (std::size_t j = i + 1; j < lanes; j++) {
            sum += later(w[i], w[j]);
            if (kind != 1)
                sum += later(w[i], static_cast<std::int8_t>(-w[j]));
        }
        if (kind == 2 && w[i] < 0)
            sum++;
    }
    return sum;
}

static Window product_of(const std::int8_t *u, const std::int8_t *v, std::size_t lanes)
{
    Window w(lanes);
    for (std::size_t i = 0; i < lanes; i++) {
        std::int8_t entry = u[std::abs(v[i]) - 1];
        w[i] = v[i] < 0 ? static_cast<std::int8_t>(-entry) : entry;
    }
    return w;
}

static Window inverse_of(const std::int8_t *u, std::size_t lanes)
{
    Window w(lanes);
    for (std::size_t i = 0; i < lanes; i++)
        w[std::abs(u[i]) - 1] = static_cast<std::int8_t>(u[i] < 0 ? -static_cast<int>(i + 1) : static_cast<int>(i + 1));
    return w;
}

template <typename T> static std::int64_t copy(const std::vector<T> &from, T *out)
{
    std::copy(from.begin(), from.end(), out);
    return static_cast<std::int64_t>(from.size());
}

static std::size_t two(const std::uint8_t *b, std::size_t at)
{
    return b[at] + 256u * b[at + 1];
}

// Checks 1 to 3; a record has `head` bytes before its letters, the last two of which are the letter count.
static std::int64_t book_check(const std::uint8_t *book, std::size_t length, std::size_t head)
{
    if (length == 0)
        return 0;
    if (length == 1 || length > 65535)
        return -1;
    std::size_t count = two(book, length - 2);
    if (2 * count + 2 > length)
        return -2;
    std::size_t trailer = length - 2 * count - 2;
    std::size_t end = 0;
    for (std::size_t i = 0; i < count; i++) {
        if (two(book, trailer + 2 * i) != end || end + head > trailer)
            return -3;
        end += head + two(book, end + head - 2);
        if (end > trailer)
            return -3;
    }
    return end == trailer ? static_cast<std::int64_t>(count) : -3;
}

extern "C" {
std::int64_t straight_window_of_word(std::uint32_t kind, std::uint32_t rank, const std::uint8_t *word, std::size_t letters, std::int8_t *out)
{
    return copy(window_of(kind, rank, word, letters), out);
}

std::int64_t straight_normal_form_of_word(std::uint32_t kind, std::uint32_t rank, const std::uint8_t *word, std::size_t letters, std::uint8_t *out)
{
    return copy(form_of(kind, rank, window_of(kind, rank, word, letters)), out);
}

std::int64_t straight_normal_form_of_window(std::uint32_t kind, std::uint32_t rank, const std::int8_t *w, std::size_t lanes, std::uint8_t *out)
{
    if (int refusal = window_refusal(kind, rank, w, lanes))
        return -refusal;
    return copy(form_of(kind, rank, Window(w, w + lanes)), out);
}

std::int64_t straight_length_of_word(std::uint32_t kind, std::uint32_t rank, const std::uint8_t *word, std::size_t letters)
{
    Window w = window_of(kind, rank, word, letters);
    return length_of(kind, w.data(), w.size());
}

std::int64_t straight_length_of_window(std::uint32_t kind, std::uint32_t rank, const std::int8_t *w, std::size_t lanes)
{
    if (int refusal = window_refusal(kind, rank, w, lanes))
        return -refusal;
    return length_of(kind, w, lanes);
}

std::int64_t straight_product_of_words(std::uint32_t kind, std::uint32_t rank, const std::uint8_t *first, std::size_t first_letters,
                                       const std::uint8_t *second, std::size_t second_letters, std::uint8_t *out)
{
    Window u = window_of(kind, rank, first, first_letters);
    Window v = window_of(kind, rank, second, second_letters);
    return copy(form_of(kind, rank, product_of(u.data(), v.data(), u.size())), out);
}

std::int64_t straight_product_of_windows(std::uint32_t kind, std::uint32_t rank, const std::int8_t *u, std::size_t u_lanes, const std::int8_t *v,
                                         std::size_t v_lanes, std::int8_t *out)
{
    if (int refusal = window_refusal(kind, rank, u, u_lanes))
        return -refusal;
    if (int refusal = window_refusal(kind, rank, v, v_lanes))
        return -refusal;
    return copy(product_of(u, v, u_lanes), out);
}

std::int64_t straight_inverse_of_word(std::uint32_t kind, std::uint32_t rank, const std::uint8_t *word, std::size_t letters, std::uint8_t *out)
{
    Window w = window_of(kind, rank, word, letters);
    return copy(form_of(kind, rank, inverse_of(w.data(), w.size())), out);
}

std::int64_t straight_inverse_of_window(std::uint32_t kind, std::uint32_t rank, const std::int8_t *w, std::size_t lanes, std::int8_t *out)
{
    if (int refusal = window_refusal(kind, rank, w, lanes))
        return -refusal;
    return copy(inverse_of(w, lanes), out);
}

std::int64_t straight_same(std::uint32_t first_kind, std::uint32_t first_rank, const std::uint8_t *first, std::size_t first_letters,
                           std::uint32_t second_kind, std::uint32_t second_rank, const std::uint8_t *second, std::size_t second_letters)
{
    return window_of(first_kind, first_rank, first, first_letters) == window_of(second_kind, second_rank, second, second_letters);
}

std::int64_t straight_book_check(const std::uint8_t *book, std::size_t length, std::size_t head)
{
    return book_check(book, length, head);
}
}
