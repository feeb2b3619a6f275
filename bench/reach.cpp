// The reachable control states of the programs of sources.py, by the decision diagrams of BuDDy (Lind-Nielsen), to
// compare times and answers with. The order of variables is that of reaver: state bit i is variable 2i and its next copy
// 2i + 1, the main tick first, then the memories in the order of the program's `pre`, and the inputs last. Images are
// relational products over parts of the relation, each state bit and input quantified as soon as no later part reads it
// (Burch, Clarke, Long 1991).
// Build: g++ -O2 -o reach reach.cpp -lbdd        Run: ./reach FAMILY N [NODES]
// Next functions are joined into parts of at most NODES nodes, 2,000 where it is left out; 0 keeps each by itself. It
// prints the number of layers, and whether the observer is true in all of them, or in how many instants it is first false.
#include <bdd.h>
#include <chrono>
#include <cstdio>
#include <cstdlib>
#include <string>
#include <vector>

// Booleans over the state bits and the inputs: what each state bit becomes, and the observer.
struct Program {
  std::vector<bdd> next;
  bdd observer;
  int inputs = 0;
};

static bdd bit(int i) { return bdd_ithvar(2 * i); }
static bdd copy_of(int i) { return bdd_ithvar(2 * i + 1); }
// What `false -> pre` of memory i gives.
static bdd held(int i) { return bit(0) & bit(i); }

static int state_bits(const std::string &family, int n) {
  if (family == "links" || family == "links-bad" || family == "modes" || family == "shared") return n + 2;
  return n + 1;
}

static int inputs_of(const std::string &family, int n) {
  if (family == "modes") return n + 1;
  return family == "shared" ? 2 : 1;
}

static Program links(int n, bool strict, bdd a) {
  Program p;
  bdd seen = a | held(1);
  p.next = {bddtrue, seen, a};
  for (int i = 1; i < n; i++) p.next.push_back(held(i + 1));
  p.observer = strict ? !held(n + 1) : (!held(n + 1)) | seen;
  return p;
}

static Program counter(int n, bool wraps, bdd step) {
  Program p;
  bdd wrap = wraps ? step & !held(1) : bddfalse, carry = step, all = bddtrue;
  for (int i = 1; i < n; i++) wrap &= held(i + 1);
  p.next = {bddtrue};
  for (int i = 0; i < n; i++) {
    bdd after = (held(i + 1) ^ carry) & !wrap;
    carry &= held(i + 1);
    p.next.push_back(after);
    all &= after;
  }
  p.observer = !all;
  return p;
}

static Program ring(int n, bdd pass) {
  Program p;
  p.next = {bddtrue};
  bdd none = bddtrue, most = bddtrue;
  for (int i = 0; i < n; i++) {
    bdd has = bdd_ite(pass, held(1 + (i + n - 1) % n), held(1 + i));
    if (i == 0) has |= !bit(0);
    p.next.push_back(has);
    most = bdd_ite(has, none, most);
    none &= !has;
  }
  p.observer = most;
  return p;
}

static Program modes(int n, bool shared, int first) {
  Program p;
  bdd mode = held(1) ^ bdd_ithvar(first), some = bddfalse;
  p.next = {bddtrue, mode};
  for (int i = 0; i < n; i++) {
    p.next.push_back(mode & (bdd_ithvar(first + (shared ? 1 : i + 1)) | held(i + 2)));
    some |= held(i + 2);
  }
  p.observer = held(1) | !some;
  return p;
}

static Program program(const std::string &family, int n, int first) {
  bdd input = bdd_ithvar(first);
  if (family == "links" || family == "links-bad") return links(n, family == "links-bad", input);
  if (family == "counter" || family == "counter-bad") return counter(n, family == "counter", input);
  if (family == "ring") return ring(n, input);
  if (family == "modes" || family == "shared") return modes(n, family == "shared", first);
  fprintf(stderr, "no family %s\n", family.c_str());
  exit(1);
}

// A part of the relation, and the variables that no later part reads.
struct Part { bdd relation, gone; };

// The last next functions first: in these programs a bit reads those before it.
static std::vector<Part> parts_of(const Program &p, int variables, int nodes) {
  std::vector<Part> parts;
  for (int i = int(p.next.size()) - 1; i >= 0; i--) {
    bdd one = bdd_biimp(copy_of(i), p.next[i]);
    bdd joined = parts.empty() ? one : one & parts.back().relation;
    if (!parts.empty() && bdd_nodecount(joined) <= nodes) parts.back().relation = joined;
    else parts.push_back({one, bddtrue});
  }
  std::vector<int> last(variables, 0);
  for (size_t k = 0; k < parts.size(); k++)
    for (bdd s = bdd_support(parts[k].relation); s != bddtrue; s = bdd_high(s)) last[bdd_var(s)] = int(k);
  int copies = 2 * int(p.next.size());
  for (int v = 0; v < variables; v++)
    if (v >= copies || v % 2 == 0) parts[last[v]].gone &= bdd_ithvar(v);
  return parts;
}

static bdd image(bdd from, const std::vector<Part> &parts, bddPair *lower) {
  for (const Part &part : parts) from = bdd_appex(from, part.relation, bddop_and, part.gone);
  return bdd_replace(from, lower);
}

static double seconds() {
  return std::chrono::duration<double>(std::chrono::steady_clock::now().time_since_epoch()).count();
}

int main(int argc, char **argv) {
  if (argc < 3) return fprintf(stderr, "reach FAMILY N [NODES]\n"), 1;
  std::string family = argv[1];
  int n = atoi(argv[2]), nodes = argc > 3 ? atoi(argv[3]) : 2000;
  int bits = state_bits(family, n), variables = 2 * bits + inputs_of(family, n);
  double start = seconds();
  bdd_init(1000000, 1000000);
  bdd_setvarnum(variables);
  bdd_gbc_hook(NULL);
  bdd_setmaxincrease(1000000);
  Program p = program(family, n, 2 * bits);
  std::vector<Part> parts = parts_of(p, variables, nodes);
  bddPair *lower = bdd_newpair();
  for (int i = 0; i < bits; i++) bdd_setpair(lower, 2 * i + 1, 2 * i);
  bdd reached = !bit(0), front = reached;
  int layers = 0, falsified = 0;
  while (front != bddfalse) {
    layers++;
    if (falsified == 0 && (front & !p.observer) != bddfalse) falsified = layers;
    front = image(front, parts, lower) & !reached;
    reached |= front;
  }
  std::string answer = falsified == 0 ? "safe" : "violated " + std::to_string(falsified);
  printf("%s %d: %s, %d layers, %.2f s\n", family.c_str(), n, answer.c_str(), layers, seconds() - start);
}
