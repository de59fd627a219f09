#include <algorithm>
#include <array>
#include <bitset>
#include <complex>
#include <deque>
#include <functional>
#include <iomanip>
#include <iostream>
#include <list>
#include <map>
#include <memory>
#include <numeric>
#include <queue>
#include <random>
#include <regex>
#include <set>
#include <sstream>
#include <string>
#include <tuple>
#include <unordered_map>
#include <valarray>
#include <variant>
#include <vector>

template <int N> struct Row {
    std::array<double, N % 7 + 1> values{};
    std::string name = std::to_string(N);
    bool operator<(const Row &other) const { return name < other.name; }
};

template <int N> double used(std::ostream &out) {
    std::map<Row<N>, std::vector<Row<N>>> rows;
    std::unordered_map<std::string, std::deque<int>> found;
    std::list<std::shared_ptr<Row<N>>> kept;
    std::mt19937_64 random(N);
    std::uniform_int_distribution<int> some(0, N + 1);
    std::priority_queue<std::tuple<int, std::string>> queue;
    std::set<std::complex<float>, bool (*)(const std::complex<float> &, const std::complex<float> &)> numbers(
        [](const auto &a, const auto &b) { return std::norm(a) < std::norm(b); });
    for (int k = 0; k < N; k++) {
        Row<N> row;
        row.name += std::to_string(some(random));
        rows[row].push_back(row);
        found[row.name].push_front(k);
        kept.push_back(std::make_shared<Row<N>>(row));
        queue.emplace(some(random), row.name);
        numbers.emplace(float(k), float(some(random)));
    }
    std::regex words("([a-z]+)[0-9]{1," + std::to_string(N + 1) + "}");
    std::smatch match;
    std::string text = rows.empty() ? "" : rows.begin()->first.name;
    if (std::regex_search(text, match, words)) out << match[1] << std::setw(N) << found.size();
    std::vector<int> order(N);
    std::iota(order.begin(), order.end(), 0);
    std::sort(order.begin(), order.end(), [&](int a, int b) { return (a ^ N) > (b ^ N); });
    kept.sort([](const auto &a, const auto &b) { return *a < *b; });
    std::variant<int, std::string, Row<N>> one = text;
    std::visit([&](const auto &x) { out << sizeof x; }, one);
    return std::accumulate(order.begin(), order.end(), 0.0) + queue.size() + numbers.size() + std::bitset<N + 8>(N).count();
}

template <int... N> double all(std::ostream &out, std::integer_sequence<int, N...>) { return (used<N>(out) + ...); }

int main() { std::cout << all(std::cout, std::make_integer_sequence<int, COUNT>()) << std::endl; }
