// The store of rv_diagram in plain C++: the same nodes, chains, memos and walks, to compare times with.
// Build: clang++ -O2 -o diagram diagram.cpp    Run: ./diagram parity 200
#include <algorithm>
#include <cstdint>
#include <cstdio>
#include <cstdlib>
#include <cstring>
#include <vector>

struct Node { uint32_t var, lo, hi; };
struct Slot { Node node; uint32_t next; };
struct Known { uint32_t when, yes, no, is, round; };
struct Fixed { uint32_t of, var; bool side; uint32_t is, round; };
struct Full {};

static size_t mix(uint32_t a, uint32_t b, uint32_t c, size_t size) {
  uint64_t mixed = uint64_t(a) * 0x2545f491 + uint64_t(b) * 0x3b9aca07 + uint64_t(c) * 0x1b873593;
  return size_t(mixed / 65536) % size;
}

struct Store {
  std::vector<Slot> slots;
  std::vector<uint32_t> heads;
  std::vector<Known> known;
  std::vector<Fixed> fixes;
  uint32_t limit, variables, round = 0;

  Store(uint32_t variables, uint32_t limit)
      : heads(std::min(std::max(limit, 1u), 1024u), 0), known(1024), fixes(1024), limit(limit), variables(variables) {}

  void grow_heads() {
    if (heads.size() > slots.size()) return;
    heads.assign(heads.size() * 2, 0);
    for (size_t at = 0; at < slots.size(); at++) {
      Slot &slot = slots[at];
      size_t b = mix(slot.node.lo, slot.node.hi, slot.node.var, heads.size());
      slot.next = heads[b];
      heads[b] = uint32_t(at + 1);
    }
  }
  uint32_t node(uint32_t var, uint32_t lo, uint32_t hi) {
    if (lo == hi) return lo;
    size_t b = mix(lo, hi, var, heads.size());
    for (uint32_t at = heads[b]; at != 0; at = slots[at - 1].next) {
      const Node &n = slots[at - 1].node;
      if (n.var == var && n.lo == lo && n.hi == hi) return at + 1;
    }
    if (slots.size() >= limit) throw Full{};
    grow_heads();
    b = mix(lo, hi, var, heads.size());
    slots.push_back({{var, lo, hi}, heads[b]});
    heads[b] = uint32_t(slots.size());
    return uint32_t(slots.size()) + 1;
  }
  uint32_t level(uint32_t a) const { return a < 2 ? variables : slots[a - 2].node.var; }
  uint32_t half(uint32_t a, uint32_t var, bool side) const {
    if (a < 2) return a;
    const Node &n = slots[a - 2].node;
    if (n.var != var) return a;
    return side ? n.hi : n.lo;
  }
  uint32_t ite(uint32_t c, uint32_t a, uint32_t b) {
    if (c == 1 || a == b) return a;
    if (c == 0) return b;
    if (a == 1 && b == 0) return c;
    const Known &k = known[mix(c, a, b, known.size())];
    if (k.round == round && k.when == c && k.yes == a && k.no == b) return k.is;
    uint32_t var = std::min(level(c), std::min(level(a), level(b)));
    uint32_t lo = ite(half(c, var, false), half(a, var, false), half(b, var, false));
    uint32_t hi = ite(half(c, var, true), half(a, var, true), half(b, var, true));
    uint32_t is = node(var, lo, hi);
    if (known.size() < 4194304 && known.size() < slots.size()) known = std::vector<Known>(known.size() * 2);
    known[mix(c, a, b, known.size())] = {c, a, b, is, round};
    return is;
  }
  uint32_t fix(uint32_t a, uint32_t var, bool side) {
    uint32_t top = level(a);
    if (top > var) return a;
    if (top == var) return half(a, var, side);
    const Fixed &k = fixes[mix(a, var, 0, fixes.size())];
    if (k.round == round && k.of == a && k.var == var && k.side == side && k.is != 0) return k.is;
    uint32_t lo = fix(half(a, top, false), var, side);
    uint32_t hi = fix(half(a, top, true), var, side);
    uint32_t is = node(top, lo, hi);
    if (fixes.size() < 2097152 && fixes.size() < slots.size()) fixes = std::vector<Fixed>(fixes.size() * 2);
    fixes[mix(a, var, 0, fixes.size())] = {a, var, side, is, round};
    return is;
  }
  uint32_t variable(uint32_t v) { return node(v, 0, 1); }
  uint32_t negate(uint32_t a) { return ite(a, 0, 1); }
  uint32_t both(uint32_t a, uint32_t b) { return ite(a, b, 0); }
  uint32_t either(uint32_t a, uint32_t b) { return ite(a, 1, b); }
  uint32_t exists(uint32_t a, uint32_t v) { uint32_t lo = fix(a, v, false), hi = fix(a, v, true); return ite(lo, 1, hi); }
  uint32_t compose(uint32_t a, uint32_t v, uint32_t by) { uint32_t lo = fix(a, v, false), hi = fix(a, v, true); return ite(by, hi, lo); }
};

static uint32_t parity(Store &s, uint32_t n) {
  uint32_t all = 0;
  for (uint32_t v = 0; v < n; v++) { uint32_t x = s.variable(v), no = s.negate(all); all = s.ite(x, no, all); }
  return all;
}
static uint32_t exclusive(Store &s, uint32_t a, uint32_t b) { uint32_t no = s.negate(b); return s.ite(a, no, b); }
static uint32_t adder(Store &s, uint32_t n) {
  uint32_t carry = 0, even = 1;
  for (uint32_t v = 0; v < n; v++) {
    uint32_t x = s.variable(v), y = s.variable(n + v), half = exclusive(s, x, y), sum = exclusive(s, half, carry);
    uint32_t two = s.both(x, y), one = s.both(half, carry);
    carry = s.either(two, one);
    uint32_t no = s.negate(sum);
    even = s.ite(even, no, sum);
  }
  return even;
}
static bool attacks(uint32_t i, uint32_t j, uint32_t k, uint32_t l) {
  if (i == k && j == l) return false;
  return i == k || j == l || i + j == k + l || i + l == k + j;
}
static uint32_t queens(Store &s, uint32_t n) {
  uint32_t board = 1;
  for (uint32_t i = 0; i < n; i++) {
    uint32_t taken = 0;
    for (uint32_t j = 0; j < n; j++) { uint32_t q = s.variable(8 * i + j); taken = s.either(q, taken); }
    board = s.both(taken, board);
    for (uint32_t j = 0; j < n; j++) {
      uint32_t free = 1;
      for (uint32_t k = 0; k < n; k++)
        for (uint32_t l = 0; l < n; l++)
          if (attacks(i, j, k, l)) { uint32_t q = s.variable(8 * k + l), no = s.negate(q); free = s.both(no, free); }
      uint32_t q = s.variable(8 * i + j);
      board = s.both(s.ite(q, free, 1), board);
    }
  }
  return board;
}
static uint32_t chain(Store &s, uint32_t n) {
  uint32_t whole = 1;
  for (uint32_t i = n - 1; i > 0; i--) {
    uint32_t before = s.variable(2 * i - 2), after = s.variable(2 * i + 1), no = s.negate(before);
    whole = s.both(s.ite(after, before, no), whole);
  }
  uint32_t other = s.negate(whole), less = s.exists(whole, 2 * n - 2), set = s.fix(other, 2 * n - 1, true);
  s.ite(set, less, 1);
  return s.compose(less, 2 * n - 1, s.variable(0));
}

int main(int count, char **words) {
  if (count < 3) return 2;
  uint32_t n = uint32_t(std::atoi(words[2]));
  Store s(4096, 33554432);
  uint32_t r = 0;
  if (!std::strcmp(words[1], "parity")) r = parity(s, std::min(n, 4096u));
  if (!std::strcmp(words[1], "adder")) r = adder(s, std::min(n, 2048u));
  if (!std::strcmp(words[1], "queens")) r = queens(s, std::min(n, 8u));
  if (!std::strcmp(words[1], "chain")) r = chain(s, std::min(n, 2048u));
  std::printf("%s %u: reference %u, %zu nodes\n", words[1], n, r, s.slots.size());
}
