// The analysis of transition systems over integers by convex polyhedra (Cousot, Halbwachs 1978) of the Parma Polyhedra Library, to
// compare times with. Each control state has one polyhedron over the integer memories; those of the start are free. Going
// forward, each control state is joined with the images of the cases that lead to it, and from the fourth time that it grows on
// it is widened, by the standard widening (Halbwachs) or that of Bagnara, Hill, Ricci and Zaffanella (2003), up to rows that still
// hold (Halbwachs, Proy, Roumanoff 1997): those of the images of the cases by themselves, and those of the observer. Two descending
// passes follow. The answer is safe where no case with a false observer has a point in what is left.
// The systems are those of polyhedra.py, which says how they are written. The rows are over integers, the polyhedra over fractions.
// Build: g++ -O2 -o polyhedra polyhedra.cpp -lppl -lgmpxx -lgmp    Run: ./polyhedra SYSTEM [h79|bhrz03] [print]
#include <ppl.hh>
#include <algorithm>
#include <cstdio>
#include <fstream>
#include <sstream>
#include <string>
#include <vector>

using namespace Parma_Polyhedra_Library;
using namespace Parma_Polyhedra_Library::IO_Operators;

static const int JOINS = 3, DESCENDING = 2;

struct Update { size_t memory; Linear_Expression form; };

// A case: from a control state to one, its rows, and the memories that it changes, one after another where that is the same as
// all at once.
struct Case {
  size_t from = 0, to = 0;
  std::vector<Constraint> rows;
  std::vector<Update> updates;
  bool reads_inputs = false, in_turn = true;
  long seen = -1;
};

struct System {
  size_t memories = 0, inputs = 0, states = 0;
  std::vector<Case> steps, bad;
  // the rows of the memories alone that a false observer breaks
  std::vector<Constraint> observed;
};

static bool reads(const Linear_Expression &form, size_t column) { return form.coefficient(Variable(column)) != 0; }

static Linear_Expression read_form(std::istream &line, size_t columns, Linear_Expression form, bool &beyond, size_t memories) {
  long number;
  for (size_t k = 0; k < columns && line >> number; k++) {
    if (number != 0 && k >= memories) beyond = true;
    if (number != 0) form += number * Variable(k);
  }
  return form;
}

// The updates in an order in which none reads what one before it has written, if there is one.
static void put_in_turn(Case &c) {
  std::vector<Update> left = c.updates, done;
  while (!left.empty()) {
    size_t found = left.size();
    for (size_t k = 0; k < left.size() && found == left.size(); k++) {
      bool read = false;
      for (size_t j = 0; j < left.size(); j++) read |= j != k && reads(left[j].form, left[k].memory);
      if (!read) found = k;
    }
    c.in_turn = found < left.size();
    if (!c.in_turn) return;
    done.push_back(left[found]);
    left.erase(left.begin() + long(found));
  }
  c.updates = done;
}

static bool read_system(const char *path, System &s) {
  std::ifstream file(path);
  std::string text, word;
  Case *open = nullptr;
  while (std::getline(file, text)) {
    std::istringstream line(text);
    if (!(line >> word) || word == "#") continue;
    size_t columns = s.memories + s.inputs;
    if (word == "memories") while (line >> word) s.memories++;
    else if (word == "inputs") while (line >> word) s.inputs++;
    else if (word == "states") line >> s.states;
    else if (word == "step") {
      s.steps.push_back(Case());
      open = &s.steps.back();
      line >> open->from >> open->to;
    } else if (word == "bad") {
      s.bad.push_back(Case());
      open = &s.bad.back();
      line >> open->from;
    } else if (word == "row" && open) {
      long bound;
      line >> word >> bound;
      bool beyond = false;
      Linear_Expression form = read_form(line, columns, Linear_Expression(0), beyond, s.memories);
      open->rows.push_back(word == "=" ? form == bound : form <= bound);
      open->reads_inputs |= beyond;
      if (!s.bad.empty() && open == &s.bad.back() && word != "=" && !beyond) s.observed.push_back(form >= bound + 1);
    } else if (word == "set" && open) {
      size_t memory;
      long constant;
      line >> memory >> constant;
      Linear_Expression form = read_form(line, columns, Linear_Expression(constant), open->reads_inputs, s.memories);
      open->updates.push_back({memory, form});
    } else return false;
  }
  // a case that changes nothing leads nowhere
  s.steps.erase(std::remove_if(s.steps.begin(), s.steps.end(), [](const Case &c) { return c.from == c.to && c.updates.empty(); }), s.steps.end());
  for (Case &c : s.steps) put_in_turn(c);
  return s.states > 0;
}

// The points of a polyhedron that meet the rows of a case, inputs included.
static C_Polyhedron met(const System &s, const C_Polyhedron &from, const Case &c) {
  C_Polyhedron points(from);
  if (c.reads_inputs) points.add_space_dimensions_and_embed(s.inputs);
  for (const Constraint &row : c.rows) points.add_constraint(row);
  return points;
}

// What the memories are after a case, of a polyhedron that has a point.
static void become(const System &s, C_Polyhedron &points, const Case &c) {
  if (c.in_turn) {
    for (const Update &u : c.updates) points.affine_image(Variable(u.memory), u.form);
    if (c.reads_inputs) points.remove_higher_space_dimensions(s.memories);
    return;
  }
  // new columns behind all others, which then take the places of the memories
  size_t old = points.space_dimension();
  points.add_space_dimensions_and_embed(s.memories);
  std::vector<bool> written(s.memories, false);
  for (const Update &u : c.updates) {
    written[u.memory] = true;
    points.add_constraint(Variable(old + u.memory) == u.form);
  }
  for (size_t k = 0; k < s.memories; k++)
    if (!written[k]) points.add_constraint(Variable(old + k) == Variable(k));
  Variables_Set gone;
  for (size_t k = 0; k < old; k++) gone.insert(k);
  points.remove_space_dimensions(gone);
}

static void join_image(const System &s, const std::vector<C_Polyhedron> &states, const Case &c, C_Polyhedron &into) {
  if (states[c.from].is_empty()) return;
  C_Polyhedron points = met(s, states[c.from], c);
  if (points.is_empty()) return;
  become(s, points, c);
  into.poly_hull_assign(points);
}

static void put_once(std::vector<Constraint> &rows, const Constraint &row) {
  for (const Constraint &other : rows)
    if (row.is_equivalent_to(other)) return;
  rows.push_back(row);
}

// The rows up to which every control state is widened, each once.
static Constraint_System limits(const System &s) {
  std::vector<Constraint> rows;
  for (const Constraint &row : s.observed) put_once(rows, row);
  for (const Case &c : s.steps) {
    C_Polyhedron points = met(s, C_Polyhedron(s.memories, UNIVERSE), c);
    if (points.is_empty()) continue;
    become(s, points, c);
    for (const Constraint &row : points.minimized_constraints()) {
      // the two sides of an equality are two rows
      Linear_Expression form(row.expression());
      put_once(rows, form >= 0);
      if (row.is_equality()) put_once(rows, form <= 0);
    }
  }
  Constraint_System all;
  for (const Constraint &row : rows) all.insert(row);
  return all;
}

int main(int argc, char **argv) {
  System s;
  if (argc < 2 || !read_system(argv[1], s)) return fprintf(stderr, "polyhedra SYSTEM [h79|bhrz03] [print]\n"), 3;
  bool bhrz03 = argc > 2 && std::string(argv[2]) == "bhrz03", print = argc > 3;
  std::vector<C_Polyhedron> states(s.states, C_Polyhedron(s.memories, EMPTY));
  states[0] = C_Polyhedron(s.memories, UNIVERSE);
  std::vector<std::vector<Case *>> into(s.states);
  for (Case &c : s.steps) into[c.to].push_back(&c);
  std::vector<long> version(s.states, 0);
  version[0] = 1;
  Constraint_System up_to = limits(s);
  int rounds = 0;
  for (bool grown = true; grown; rounds++) {
    grown = false;
    for (size_t t = 0; t < s.states; t++) {
      C_Polyhedron more = states[t];
      bool tried = false;
      for (Case *c : into[t]) {
        if (c->seen == version[c->from]) continue;
        c->seen = version[c->from];
        tried = true;
        join_image(s, states, *c, more);
      }
      if (!tried || states[t].contains(more)) continue;
      grown = true;
      version[t]++;
      if (version[t] > JOINS && bhrz03) more.limited_BHRZ03_extrapolation_assign(states[t], up_to);
      else if (version[t] > JOINS) more.limited_H79_extrapolation_assign(states[t], up_to);
      states[t].m_swap(more);
    }
  }
  for (int pass = 0; pass < DESCENDING; pass++)
    for (size_t t = 1; t < s.states; t++) {
      C_Polyhedron less(s.memories, EMPTY);
      for (const Case *c : into[t]) join_image(s, states, *c, less);
      states[t].intersection_assign(less);
    }
  if (print)
    for (size_t t = 0; t < s.states; t++) std::cout << t << ": " << states[t].minimized_constraints() << "\n";
  bool safe = true;
  for (const Case &c : s.bad) safe = safe && met(s, states[c.from], c).is_empty();
  printf("%s, %zu control states, %zu steps, %d rounds\n", safe ? "safe" : "not shown", s.states, s.steps.size(), rounds);
  return safe ? 0 : 2;
}
