// Reads an accepted list from standard input and prints its sheet, coloured by Boost's sequential_vertex_coloring in the rule's order.
//
//   boost once             rows read by C++ streams; coloured after the last row
//   boost once-by-hand     the same, rows read by hand from one buffer
//   boost every-row        rows read by hand; coloured after every row but K rows, which no clash comes before
//   boost every-row-kept   the same, sorting from the order of the row before
//   boost version          prints the versions of Boost and of the compiler
#include <algorithm>
#include <cstdio>
#include <iostream>
#include <numeric>
#include <string>
#include <vector>

#include <boost/graph/adjacency_list.hpp>
#include <boost/graph/sequential_vertex_coloring.hpp>
#include <boost/version.hpp>

namespace {

using Graph = boost::adjacency_list<boost::vecS, boost::vecS, boost::undirectedS>;

// Rows read by C++ streams.
class Streams {
public:
    Streams() {
        std::ios::sync_with_stdio(false);
        std::cin.tie(nullptr);
    }

    // The letter of the next row, if there is one.
    bool letter(char &letter) { return static_cast<bool>(std::cin >> letter); }

    unsigned number() {
        unsigned number = 0;
        std::cin >> number;
        return number;
    }
};

// Rows read by hand from one buffer, which ends in a byte 0.
class Buffer {
public:
    Buffer() { bytes_[std::fread(bytes_, 1, sizeof bytes_ - 1, stdin)] = 0; }

    bool letter(char &letter) {
        if (*next_ == '\n') ++next_;
        if (*next_ == 0) return false;
        letter = *next_++;
        return true;
    }

    unsigned number() {
        unsigned number = 0;
        for (++next_; '0' <= *next_ && *next_ <= '9'; ++next_) number = 10 * number + static_cast<unsigned>(*next_ - '0');
        return number;
    }

private:
    char bytes_[60'001];
    char *next_ = bytes_;
};

// Banks, clashes and ranks, and order and waves of the last colouring.
class Plan {
public:
    explicit Plan(unsigned banks) : clashes_(banks), ranks_(banks), order_(banks), waves_(banks) { order_by_number(); }

    void order_by_number() { std::iota(order_.begin(), order_.end(), 0U); }

    template <class Input> void row(char letter, Input &input) {
        const unsigned b = input.number();
        switch (letter) {
        case '+': add_edge(b, input.number(), clashes_); break;
        case '-': remove_edge(b, input.number(), clashes_); break;
        case 'D': clear_vertex(b, clashes_); break;
        case 'K': ranks_[b] = input.number(); break;
        }
    }

    // The waves by the rule: most clashes first, ties by rank and then by number.
    void colour() {
        std::sort(order_.begin(), order_.end(), [this](unsigned p, unsigned q) {
            const auto of_p = out_degree(p, clashes_), of_q = out_degree(q, clashes_);
            if (of_p != of_q) return of_p > of_q;
            if (ranks_[p] != ranks_[q]) return ranks_[p] < ranks_[q];
            return p < q;
        });
        const auto order = boost::make_iterator_property_map(order_.begin(), boost::identity_property_map());
        const auto waves = boost::make_iterator_property_map(waves_.begin(), get(boost::vertex_index, clashes_));
        count_ = boost::sequential_vertex_coloring(clashes_, order, waves);
    }

    std::string sheet() const {
        std::vector<std::string> lines(count_);
        for (std::size_t b = 0; b < waves_.size(); ++b) lines[waves_[b]] += ' ' + std::to_string(b);
        std::string sheet = "WAVES " + std::to_string(count_) + '\n';
        for (std::size_t w = 0; w < count_; ++w) sheet += "ABCDEFGHJKLMNPQRSTUVWXYZ"[w] + lines[w] + '\n';
        return sheet + "TOTAL " + std::to_string(waves_.size()) + ' ' + std::to_string(num_edges(clashes_)) + '\n';
    }

private:
    Graph clashes_;
    std::vector<unsigned> ranks_, order_;
    std::vector<std::size_t> waves_;
    std::size_t count_ = 0;
};

// When waves are worked out, and whether the banks are sorted from the order of the time before.
enum class When { at_end, every_row, every_row_kept };

template <class Input> std::string sheet_of(When when) {
    Input input;
    char letter = 0;
    input.letter(letter);
    Plan plan(input.number());
    while (input.letter(letter)) {
        plan.row(letter, input);
        if (when == When::at_end || letter == 'K') continue;
        if (when == When::every_row) plan.order_by_number();
        plan.colour();
    }
    plan.colour();
    return plan.sheet();
}

std::string version() {
    const std::string release = std::to_string(BOOST_VERSION / 100'000) + '.' + std::to_string(BOOST_VERSION / 100 % 1'000);
    return "Boost " + release + ", compiler " + __VERSION__ + '\n';
}

} // namespace

int main(int words, char **word) {
    const std::string mode = words == 2 ? word[1] : "";
    std::string out;
    if (mode == "once") out = sheet_of<Streams>(When::at_end);
    else if (mode == "once-by-hand") out = sheet_of<Buffer>(When::at_end);
    else if (mode == "every-row") out = sheet_of<Buffer>(When::every_row);
    else if (mode == "every-row-kept") out = sheet_of<Buffer>(When::every_row_kept);
    else if (mode == "version") out = version();
    else return std::fputs("usage: boost once|once-by-hand|every-row|every-row-kept|version\n", stderr), 2;
    std::fwrite(out.data(), 1, out.size(), stdout);
    return 0;
}
