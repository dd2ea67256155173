// Boost's Chrobak-Payne drawing of the boards in blocks (read from standard
// input one after another, taken to be right): prints the best time of so many
// passes over them in microseconds a block, then x and y of each post in the
// order of fitting.

#include <boost/graph/adjacency_list.hpp>
#include <boost/graph/chrobak_payne_drawing.hpp>

#include <algorithm>
#include <chrono>
#include <cstdio>
#include <cstdlib>
#include <iostream>
#include <iterator>
#include <limits>
#include <vector>

using Graph = boost::adjacency_list<boost::vecS, boost::vecS, boost::undirectedS>;
using Edge = boost::graph_traits<Graph>::edge_descriptor;

struct Point {
    std::size_t x, y;
};

struct Board {
    Graph graph;
    std::vector<std::size_t> order;
    std::vector<std::vector<Edge>> rings;
    std::vector<Point> points;
};

class Reader {
    std::vector<unsigned char> bytes{std::istreambuf_iterator<char>(std::cin), {}};
    std::size_t at = 0;

public:
    bool ended() const { return at >= bytes.size(); }

    std::size_t number() {
        std::size_t high = bytes.at(at), low = bytes.at(at + 1);
        at += 2;
        return high * 256 + low;
    }

    std::vector<std::size_t> numbers(std::size_t count) {
        std::vector<std::size_t> read;
        while (read.size() < count) read.push_back(number());
        return read;
    }

    Board board() {
        at += 5;
        std::size_t n = number();
        Board board{Graph(n), numbers(n), {}, std::vector<Point>(n)};
        for (std::size_t degree : numbers(n)) board.rings.emplace_back(degree);
        for (std::size_t u = 0; u < n; ++u) {
            for (Edge &edge : board.rings[u]) {
                std::size_t v = number();
                edge = u < v ? boost::add_edge(u, v, board.graph).first
                             : boost::edge(u, v, board.graph).first;
            }
            // Boost reads rings clockwise.
            std::reverse(board.rings[u].begin(), board.rings[u].end());
        }
        number();
        return board;
    }
};

static void draw(Board &board) {
    auto index = boost::get(boost::vertex_index, board.graph);
    auto rings = boost::make_iterator_property_map(board.rings.begin(), index);
    auto drawing = boost::make_iterator_property_map(board.points.begin(), index);
    boost::chrobak_payne_straight_line_drawing(
        board.graph, rings, board.order.begin(), board.order.end(), drawing);
}

static double pass(std::vector<Board> &boards) {
    auto start = std::chrono::steady_clock::now();
    for (Board &board : boards) draw(board);
    std::chrono::duration<double, std::micro> time = std::chrono::steady_clock::now() - start;
    return time.count() / boards.size();
}

int main(int count, char **words) {
    int passes = count > 1 ? std::atoi(words[1]) : 1;
    Reader reader;
    std::vector<Board> boards;
    while (!reader.ended()) boards.push_back(reader.board());
    double best = std::numeric_limits<double>::infinity();
    for (int i = 0; i < passes; ++i) best = std::min(best, pass(boards));
    std::printf("%.3f\n", best);
    for (const Board &board : boards)
        for (std::size_t name : board.order)
            std::printf("%zu %zu\n", board.points[name].x, board.points[name].y);
}
