// The rows of the program bench_seek, searched by a plain simplex of two phases on double-precision numbers, to
// compare times with.
// Build: g++ -O2 -o farkas farkas.cpp    Run: ./farkas bound 200 20 50
#include <cmath>
#include <cstdint>
#include <cstdio>
#include <cstdlib>
#include <string>
#include <vector>

using Line = std::vector<double>;

struct Row { Line coefficients; double bound; };

static uint64_t drawn(uint64_t seed) { return seed * 6364136223846793005ull + 1442695040888963407ull; }

static double small(uint64_t seed) { return double(int64_t((seed >> 40) % 5) - 2); }

static size_t column_of(uint64_t seed, size_t width) { return (seed >> 33) % width; }

static Row sum_row(uint64_t seed, size_t width, double bound) {
  size_t first = column_of(drawn(seed), width), second = column_of(drawn(drawn(seed)), width);
  Row row{Line(width, 0.0), bound};
  row.coefficients[second] = small(drawn(seed));
  row.coefficients[first] = small(seed);
  return row;
}

static Row premise(uint64_t seed, size_t number, size_t width, int lowered) {
  Row row{Line(width, 0.0), 0.0};
  if (number < width) {
    row.coefficients[number] = 1;
    row.bound = 100;
    return row;
  }
  if (number < 2 * width) {
    row.coefficients[number - width] = -1;
    return row;
  }
  uint64_t own = drawn(seed * 8192 + number);
  return sum_row(own, width, double((own >> 50) % 200) - lowered);
}

enum class End { Least, Ray, GaveUp };

struct Tableau {
  std::vector<Line> lines;
  std::vector<int> basis;
  size_t count;
  long pivots = 0;

  void pivot(size_t at, size_t place) {
    pivots++;
    double lead = lines[at][place];
    for (double &number : lines[at]) number /= lead;
    for (size_t l = 0; l < lines.size(); l++) {
      double own = lines[l][place];
      if (l == at || own == 0) continue;
      for (size_t i = 0; i <= count; i++) lines[l][i] -= own * lines[at][i];
    }
    basis[at] = int(place);
  }
  int leaving(size_t place) const {
    int at = -1;
    double best = 0;
    for (size_t l = 0; l < basis.size(); l++) {
      if (lines[l][place] <= 1e-9) continue;
      double ratio = lines[l][count] / lines[l][place];
      if (at < 0 || ratio < best || (ratio == best && basis[l] < basis[at])) {
        best = ratio;
        at = int(l);
      }
    }
    return at;
  }
  // The most negative cost first, later the first one, so that no cycle lasts.
  End solve(size_t costs) {
    for (int round = 0; round < 5000; round++) {
      int place = -1;
      double least = -1e-9;
      for (size_t i = 0; i < count; i++)
        if (lines[costs][i] < least) {
          place = int(i);
          if (round >= 1000) break;
          least = lines[costs][i];
        }
      if (place < 0) return End::Least;
      int at = leaving(place);
      if (at < 0) return End::Ray;
      pivot(at, place);
    }
    return End::GaveUp;
  }
  void fill_basis() {
    for (size_t l = 0; l < basis.size(); l++)
      for (size_t i = 0; i < count && basis[l] < 0; i++)
        if (std::fabs(lines[l][i]) > 1e-9) pivot(l, i);
  }
};

static long all_pivots = 0;

// Whether weights make the wanted left side, and how the second phase ends, with the least sum of bounds.
static bool solve(const std::vector<Row> &rows, const Line &wanted, End &end, double &sum) {
  size_t width = wanted.size(), count = rows.size();
  Tableau t{std::vector<Line>(width + 2, Line(count + 1, 0.0)), std::vector<int>(width, -1), count};
  for (size_t k = 0; k < width; k++) {
    double sign = wanted[k] < 0 ? -1 : 1;
    for (size_t i = 0; i < count; i++) t.lines[k][i] = sign * rows[i].coefficients[k];
    t.lines[k][count] = sign * wanted[k];
    for (size_t i = 0; i <= count; i++) t.lines[width][i] -= t.lines[k][i];
  }
  for (size_t i = 0; i < count; i++) t.lines[width + 1][i] = rows[i].bound;
  bool feasible = t.solve(width) == End::Least && std::fabs(t.lines[width][count]) < 1e-6;
  if (feasible) {
    t.fill_basis();
    end = t.solve(width + 1);
    sum = -t.lines[width + 1][count];
  }
  all_pivots += t.pivots;
  return feasible;
}

static bool finds(const std::string &subject, uint64_t seed, size_t count, size_t width) {
  int lowered = subject == "refutation" && seed % 2 == 1 ? 20 : 0;
  std::vector<Row> rows;
  for (size_t number = 0; number < count; number++) rows.push_back(premise(seed, number, width, lowered));
  uint64_t own = drawn(drawn(seed));
  End end = End::GaveUp;
  double sum = 0;
  if (subject == "none") return false;
  if (subject == "refutation") return solve(rows, Line(width, 0.0), end, sum) && end == End::Ray;
  if (!solve(rows, sum_row(own, width, 0).coefficients, end, sum) || end == End::GaveUp) return false;
  return subject == "bound" || end == End::Ray || sum < 151 - 1e-6;
}

int main(int argc, char **argv) {
  if (argc < 5) return 1;
  std::string subject = argv[1];
  size_t premises = std::strtoul(argv[2], nullptr, 10), columns = std::strtoul(argv[3], nullptr, 10);
  size_t calls = std::strtoul(argv[4], nullptr, 10), found = 0;
  for (uint64_t call = 0; call < calls; call++) found += finds(subject, call, premises, columns);
  std::printf("%s %zu x %zu: %zu of %zu\n", argv[1], premises, columns, found, calls);
  std::fprintf(stderr, "%ld pivots\n", all_pivots);
}
