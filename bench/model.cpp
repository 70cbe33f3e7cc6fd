// The atomic steps of calls over the reclaiming domain with nothing around them: no records of agents, no answers. The words lie as in
// the domain's table, and each call makes the loads and the locked steps that the domain makes where nobody disturbs it:
//
//   an enqueue                             11 loads, 13 locked steps
//   a dequeue                              15 + 8 x agents loads, 14 locked steps: it frees the dummy, and scans all slots for it
//   a question, n nodes being visited      7 + 3 n loads, 4 + n locked steps
//   an insert of an absent key             11 + 3 n loads, 14 + n locked steps
//   a remove of a present key              11 + 3 n + 8 x agents loads, 15 + n locked steps: it frees the key's node
//
// An insert of a present key and a remove of an absent one make the steps of a question.
//
// Without the steps that save others, in which a handover word is exchanged without a look, a swing counts down behind slot 0, which
// is taken in from right after and not once more at the call's end, and a slot is emptied before it names another row:
//
//   an enqueue                             8 loads, 18 locked steps
//   a dequeue                              10 + 8 x agents loads, 20 locked steps
//   a question, n nodes being visited      3 + 3 n loads, 3 + 3 n locked steps
//
// model queue AGENTS CALLS: enqueues and dequeues in turn. model list KEYS CALLS: calls of a list that begins with so many keys, each
// second number up to twice as many; of a hundred calls 90 ask for a key, 5 insert one and 5 remove one, drawn as the stress program
// draws them. Prints calls a second. One thread works, which makes no choices: where a step comes out otherwise than it does alone,
// the program aborts. With a fourth word all, without the steps that save others.
//
// With a fourth word 2 or more so many threads work, each as an agent of its own, and make so many calls each. The queue is then the
// whole algorithm, with the choices, the tries and the lists of retired rows that this takes, and AGENTS has to be no less. The list
// is only asked.
#include <atomic>
#include <chrono>
#include <cstdint>
#include <cstdio>
#include <cstdlib>
#include <cstring>
#include <thread>
#include <utility>
#include <vector>

using Number = std::uint64_t;

constexpr Number ROWS = 65535;
constexpr Number NEW_COUNTER = 1 << 22;
constexpr Number RETIRED = 1 << 23;
constexpr Number ONE_MORE = 16777217;
constexpr Number ONE_LESS = 16777215;

Number link_to(Number row) { return 2 * (row + 1); }

Number row_of(Number link) { return link / 2 - 1; }

// One compare_exchange, which succeeds here.
void change(std::atomic<Number> &word, Number from, Number to) {
  if (!word.compare_exchange_strong(from, to)) std::abort();
}

// The domain's words. SAVES: with the steps that save others.
template <bool SAVES> struct Table {
  Number roots;
  Number agents;
  std::vector<std::atomic<Number>> words;

  // the word of enrolments, each root and each row have eight words each
  Table(Number roots, Number agents) : roots(roots), agents(agents), words(agents_at(roots) + 16 * agents) {
    for (Number row = 0; row < ROWS; row++) counter(row) = NEW_COUNTER;
  }

  static Number rows_at(Number roots) { return 8 * (1 + roots); }
  static Number agents_at(Number roots) { return rows_at(roots) + 8 * ROWS; }

  std::atomic<Number> &root(Number root) { return words[8 * (1 + root)]; }
  std::atomic<Number> &gate(Number row) { return words[rows_at(roots) + 8 * row]; }
  std::atomic<Number> &counter(Number row) { return words[rows_at(roots) + 8 * row + 1]; }
  std::atomic<Number> &first(Number row) { return words[rows_at(roots) + 8 * row + 2]; }
  std::atomic<Number> &second(Number row) { return words[rows_at(roots) + 8 * row + 3]; }
  std::atomic<Number> &next(Number row) { return words[rows_at(roots) + 8 * row + 4]; }
  std::atomic<Number> &slot(Number agent, Number slot) { return words[agents_at(roots) + 16 * agent + slot]; }
  std::atomic<Number> &handover(Number agent, Number slot) { return words[agents_at(roots) + 16 * agent + 8 + slot]; }

  // what an agent does with its slots
  void publish(Number at, Number row, Number agent = 0) { slot(agent, at).store(row + 1); }

  Number unlock(Number at, Number agent = 0) {
    slot(agent, at).store(0);
    return take_in(handover(agent, at));
  }

  // Takes a word's number out, which is looked at first.
  Number take_in(std::atomic<Number> &word) {
    if (SAVES && word.load() == 0) return 0;
    return word.exchange(0);
  }

  // Counts the links to a row down by one, behind slot 0 or under a hold of another slot.
  Number count_down(Number row) {
    if (SAVES) return counter(row).fetch_add(ONE_LESS) + ONE_LESS;
    publish(0, row);
    return counter(row).fetch_add(ONE_LESS) + ONE_LESS;
  }

  // What follows a count down.
  Number counted_down() { return SAVES ? 0 : unlock(0); }

  // What each call ends with, as counts down under other slots' holds leave slot 0 alone.
  Number end_call(Number agent = 0) { return SAVES ? take_in(handover(agent, 0)) : 0; }

  // Reads that a row may be linked.
  void check(Number row) {
    if (counter(row).load() >> 63) std::abort();
  }

  // Gives the first free row from this one on, with these values, in slot 1.
  Number give(Number row, Number one, Number two) {
    Number found;
    while ((found = gate(row).load()) % 2) row = row + 1 == ROWS ? 0 : row + 1;
    check(row);
    change(gate(row), found, found + 3);
    first(row).store(one);
    second(row).store(two);
    publish(1, row);
    return row;
  }

  // Retires a row whose count came to 0.
  void retire(Number row, Number count) { change(counter(row), count, count + RETIRED); }

  // Frees a retired row, while all slots are empty.
  void free(Number row) {
    Number start = counter(row).load();
    Number named = 0;
    for (Number agent = 0; agent < agents; agent++)
      for (Number at = 0; at < 8; at++) named |= slot(agent, at).load();
    if (named || counter(row).load() != start) std::abort();
    Number link = take_in(next(row));
    if (link > 1) {
      publish(0, row_of(link));
      counter(row_of(link)).fetch_add(ONE_LESS);
      if (unlock(0)) std::abort();
    }
    counter(row).fetch_sub(RETIRED);
    gate(row).fetch_sub(1);
  }
};

template <bool SAVES> struct Queue {
  Table<SAVES> table;
  Number free_row = 1;

  explicit Queue(Number agents) : table(2, agents) {
    table.gate(0) = 3;
    table.counter(0) = NEW_COUNTER + 2 * ONE_MORE;
    table.root(0) = link_to(0);
    table.root(1) = link_to(0);
  }

  void enqueue(Number job) {
    Number row = table.give(free_row, job, 0);
    free_row = (row + 1) % ROWS;

    Number tail = table.root(1).load();
    Number last = row_of(tail);
    table.publish(2, last);
    if (table.root(1).load() != tail || table.next(last).load() != 0) std::abort();
    table.second(row).store(table.second(last).load() + 1);

    table.check(row);
    change(table.next(last), 0, link_to(row));
    table.counter(row).fetch_add(ONE_MORE);

    table.check(row);
    change(table.root(1), tail, link_to(row));
    table.counter(row).fetch_add(ONE_MORE);
    table.count_down(last);
    Number handed = table.counted_down();
    handed |= table.unlock(1);
    handed |= table.unlock(2);
    handed |= table.end_call();
    if (handed) std::abort();
  }

  Number dequeue() {
    Number head = table.root(0).load();
    Number dummy = row_of(head);
    table.publish(1, dummy);
    if (table.root(0).load() != head) std::abort();
    Number link = table.next(dummy).load();
    Number row = row_of(link);
    table.publish(2, row);
    if (table.next(dummy).load() != link || table.root(1).load() == head) std::abort();
    Number job = table.first(row).load();
    if (table.second(row).load() == 0) std::abort();

    table.check(row);
    change(table.root(0), head, link);
    table.counter(row).fetch_add(ONE_MORE);
    Number count = table.count_down(dummy);
    table.retire(dummy, count);
    Number handed = table.counted_down();
    handed |= table.unlock(2);
    handed |= table.unlock(1);
    handed |= table.end_call();
    if (handed) std::abort();
    table.free(dummy);
    return job;
  }
};

// The queue of several threads: what an agent keeps are the row with which its next search begins, and the retired rows that wait.
struct Agent {
  Number number;
  Number next_row;
  std::vector<Number> waiting;
};

struct SharedQueue {
  Table<true> table;

  explicit SharedQueue(Number agents) : table(2, agents) {
    table.gate(0) = 3;
    table.counter(0) = NEW_COUNTER + 2 * ONE_MORE;
    table.root(0) = link_to(0);
    table.root(1) = link_to(0);
  }

  void publish(Agent &me, Number at, Number row) { table.publish(at, row, me.number); }

  void unlock(Agent &me, Number at) {
    if (Number handed = table.unlock(at, me.number)) me.waiting.push_back(handed - 1);
  }

  // A row with count 0 and no retired bit is retired by who sets the bit.
  void try_due(Agent &me, Number row, Number count) {
    if (count % (2 * RETIRED) != NEW_COUNTER) return;
    if (table.counter(row).compare_exchange_strong(count, count + RETIRED)) me.waiting.push_back(row);
  }

  void count(Agent &me, Number row, Number change) {
    try_due(me, row, table.counter(row).fetch_add(change) + change);
  }

  void check(Number row) {
    if (table.counter(row).load() >> 63) std::abort();
  }

  // Holds the target of a link in a slot: the link, or nothing where it moved.
  bool look(Agent &me, std::atomic<Number> &word, Number at, Number &link) {
    link = word.load();
    if (link == 0) return true;
    publish(me, at, row_of(link));
    if (word.load() == link) return true;
    unlock(me, at);
    return false;
  }

  // Changes a link from one row to another one, both held.
  bool swing(Agent &me, std::atomic<Number> &word, Number from, Number to) {
    check(row_of(to));
    Number found = from;
    if (!word.compare_exchange_strong(found, to)) return false;
    count(me, row_of(to), ONE_MORE);
    if (from) count(me, row_of(from), ONE_LESS);
    return true;
  }

  Number give(Agent &me, Number job) {
    for (;;) {
      Number row = me.next_row;
      me.next_row = row + 1 == ROWS ? 0 : row + 1;
      Number gate = table.gate(row).load();
      if (gate % 2) continue;
      check(row);
      if (!table.gate(row).compare_exchange_strong(gate, gate + 3)) continue;
      table.first(row).store(job);
      table.second(row).store(0);
      publish(me, 1, row);
      return row;
    }
  }

  bool enqueue_turn(Agent &me, Number row) {
    Number tail, link;
    if (!look(me, table.root(1), 2, tail)) return false;
    Number last = row_of(tail);
    bool done = false;
    if (look(me, table.next(last), 3, link)) {
      if (link) {
        swing(me, table.root(1), tail, link);
        unlock(me, 3);
      } else {
        table.second(row).store(table.second(last).load() + 1);
        done = swing(me, table.next(last), 0, link_to(row));
        if (done) swing(me, table.root(1), tail, link_to(row));
      }
    }
    unlock(me, 2);
    return done;
  }

  void enqueue(Agent &me, Number job) {
    Number row = give(me, job);
    while (!enqueue_turn(me, row)) {}
    unlock(me, 1);
    settle(me);
  }

  // Whether the turn was the last one, which found a job or none.
  bool dequeue_turn(Agent &me, Number &job) {
    Number head, link;
    if (!look(me, table.root(0), 1, head)) return false;
    Number dummy = row_of(head);
    bool done = false;
    if (look(me, table.next(dummy), 2, link)) {
      if (!link) {
        done = table.next(dummy).load() == 0;
        unlock(me, 1);
        return done;
      }
      Number row = row_of(link);
      if (table.root(1).load() == head) {
        swing(me, table.root(1), head, link);
      } else {
        job = table.first(row).load();
        if (table.second(row).load() == 0) std::abort();
        done = swing(me, table.root(0), head, link);
      }
      unlock(me, 2);
    }
    unlock(me, 1);
    return done;
  }

  Number dequeue(Agent &me) {
    Number job = 0;
    while (!dequeue_turn(me, job)) {}
    settle(me);
    return job;
  }

  // Looks for a slot that names the row, and hands it over there. The row that was there before is scanned next, if there was one.
  bool hand_over(Number row, Number &next) {
    for (Number agent = 0; agent < table.agents; agent++)
      for (Number at = 0; at < 8; at++)
        if (table.slot(agent, at).load() == row + 1) {
          next = table.handover(agent, at).exchange(row + 1);
          return true;
        }
    return false;
  }

  void free_row(Agent &me, Number row) {
    Number link = table.take_in(table.next(row));
    if (link) {
      publish(me, 0, row_of(link));
      count(me, row_of(link), ONE_LESS);
      unlock(me, 0);
    }
    table.counter(row).fetch_sub(RETIRED);
    table.gate(row).fetch_sub(1);
  }

  void settle_row(Agent &me, Number row) {
    Number start = table.counter(row).load();
    while (start % RETIRED == NEW_COUNTER) {
      Number next = 0;
      if (hand_over(row, next)) {
        if (!next) return;
        row = next - 1;
        start = table.counter(row).load();
        continue;
      }
      Number end = table.counter(row).load();
      if (end == start) return free_row(me, row);
      start = end;
    }
    publish(me, 0, row);
    try_due(me, row, table.counter(row).fetch_sub(RETIRED) - RETIRED);
    unlock(me, 0);
  }

  void settle(Agent &me) {
    if (Number handed = table.end_call(me.number)) me.waiting.push_back(handed - 1);
    while (!me.waiting.empty()) {
      Number row = me.waiting.back();
      me.waiting.pop_back();
      settle_row(me, row);
    }
  }
};

// What a search holds: the links to the node before the place of the key, to the node at it and to the one behind, each 0 where there
// is none, and their slots.
struct Spot {
  Number left, at, next;
  Number left_slot, at_slot, next_slot;
  bool found;
};

template <bool SAVES> struct List {
  Table<SAVES> table;
  Number free_row;

  // The greatest key lies in the first row.
  List(Number keys, Number agents) : table(1, agents), free_row(keys) {
    for (Number row = 0; row < keys; row++) {
      table.gate(row) = 3;
      table.counter(row) = NEW_COUNTER + ONE_MORE;
      table.first(row) = 2 * (keys - 1 - row);
      table.next(row) = row ? link_to(row - 1) : 0;
    }
    table.root(0) = link_to(keys - 1);
  }

  // Holds the target of a link, if it has one.
  Number look(std::atomic<Number> &word, Number slot, Number agent) {
    Number link = word.load();
    if (link == 0) return 0;
    table.publish(slot, row_of(link), agent);
    if (word.load() != link) std::abort();
    return link;
  }

  void unlock(Number slot, Number agent) {
    if (table.unlock(slot, agent)) std::abort();
  }

  Spot search(Number wanted, Number agent) {
    Number left = 0, left_slot = 4, at_slot = 2, spare = 3;
    Number at = look(table.root(0), at_slot, agent);
    while (at) {
      Number row = row_of(at);
      Number key = table.first(row).load();
      if (key >= wanted) {
        Number next = look(table.next(row), spare, agent);
        if (key == wanted) return {left, at, next, left_slot, at_slot, spare, true};
        if (next) unlock(spare, agent);
        break;
      }
      // the slot of the left node moves on
      bool moves = SAVES && left;
      Number next = look(table.next(row), moves ? left_slot : spare, agent);
      if (moves && next) {
        std::swap(left_slot, at_slot);
      } else {
        if (left) unlock(left_slot, agent);
        Number empty = left_slot;
        left_slot = at_slot;
        at_slot = spare;
        spare = empty;
      }
      left = at;
      at = next;
    }
    return {left, at, 0, left_slot, at_slot, spare, false};
  }

  std::atomic<Number> &place(const Spot &spot) { return spot.left ? table.next(row_of(spot.left)) : table.root(0); }

  void let_go(const Spot &spot, Number agent) {
    if (spot.left) unlock(spot.left_slot, agent);
    if (spot.at) unlock(spot.at_slot, agent);
    if (spot.next) unlock(spot.next_slot, agent);
  }

  void end_call(Number agent) {
    if (table.end_call(agent)) std::abort();
  }

  // An answer that changes nothing: the link on which it rests is read once more.
  bool answer(const Spot &spot, Number agent) {
    if (spot.found ? table.next(row_of(spot.at)).load() != spot.next : place(spot).load() != spot.at) std::abort();
    let_go(spot, agent);
    end_call(agent);
    return spot.found;
  }

  bool contains(Number wanted, Number agent = 0) { return answer(search(wanted, agent), agent); }

  bool insert(Number key) {
    Spot spot = search(key, 0);
    if (spot.found) return !answer(spot, 0);
    Number row = table.give(free_row, key, 0);
    free_row = (row + 1) % ROWS;
    if (spot.at) {
      table.check(row_of(spot.at));
      if (table.next(row).exchange(spot.at)) std::abort();
      table.counter(row_of(spot.at)).fetch_add(ONE_MORE);
    } else if (table.take_in(table.next(row))) {
      std::abort();
    }
    table.check(row);
    change(place(spot), spot.at, link_to(row));
    table.counter(row).fetch_add(ONE_MORE);
    if (spot.at) {
      table.count_down(row_of(spot.at));
      if (table.counted_down()) std::abort();
    }
    let_go(spot, 0);
    unlock(1, 0);
    end_call(0);
    return true;
  }

  bool remove(Number key) {
    Spot spot = search(key, 0);
    if (!spot.found) return answer(spot, 0);
    Number row = row_of(spot.at);
    change(table.next(row), spot.next, spot.next + 1);
    if (spot.next) table.check(row_of(spot.next));
    change(place(spot), spot.at, spot.next);
    if (spot.next) table.counter(row_of(spot.next)).fetch_add(ONE_MORE);
    table.retire(row, table.count_down(row));
    if (table.counted_down()) std::abort();
    let_go(spot, 0);
    end_call(0);
    table.free(row);
    return true;
  }
};

// Numbers that look drawn, as the stress program's are for the agent of this number.
struct Draws {
  Number state;

  explicit Draws(Number agent) : state((Number(1) << 32) | agent) {}

  Number draw() {
    state = state * 6364136223846793005u + 1442695040888963407u;
    return state >> 33;
  }

  Number below(Number many) { return draw() * many >> 31; }
};

// One call of a list, drawn as the stress program draws it.
template <bool SAVES> bool make_call(List<SAVES> &list, Draws &draws, Number keys) {
  Number kind = draws.draw() % 100;
  Number key = draws.below(keys);
  return kind < 90 ? list.contains(key) : kind < 95 ? list.insert(key) : list.remove(key);
}

// Lets so many threads do this at once, each by its number, and answers the seconds from the first begin to the last end.
template <typename Work> double together(Number threads, Work work) {
  std::atomic<Number> ready{0};
  std::atomic<bool> begins{false};
  std::vector<std::thread> all;
  for (Number thread = 0; thread < threads; thread++)
    all.emplace_back([&, thread] {
      ready.fetch_add(1);
      while (!begins.load()) {}
      work(thread);
    });
  while (ready.load() < threads) {}
  auto begun = std::chrono::steady_clock::now();
  begins.store(true);
  for (std::thread &one : all) one.join();
  return std::chrono::duration<double>(std::chrono::steady_clock::now() - begun).count();
}

// The seconds that the calls of one thread took, and a sum of what they answered.
template <bool SAVES> double run(const char *container, Number size, Number calls, Number &sum) {
  auto begun = std::chrono::steady_clock::now();
  if (!std::strcmp(container, "queue")) {
    Queue<SAVES> queue(size);
    begun = std::chrono::steady_clock::now();
    for (Number call = 0; call < calls; call += 2) {
      queue.enqueue(call);
      sum += queue.dequeue();
    }
  } else {
    List<SAVES> list(size, 1);
    Draws draws(0);
    begun = std::chrono::steady_clock::now();
    for (Number call = 0; call < calls; call++) sum += make_call(list, draws, 2 * size);
  }
  return std::chrono::duration<double>(std::chrono::steady_clock::now() - begun).count();
}

// The same of several threads, each of which makes so many calls.
double run_shared(const char *container, Number size, Number calls, Number threads, Number &sum) {
  std::atomic<Number> all{0};
  double seconds;
  if (!std::strcmp(container, "queue")) {
    SharedQueue queue(size);
    seconds = together(threads, [&](Number thread) {
      Agent me{thread, (thread * ROWS / size) % ROWS, {}};
      Number mine = 0;
      for (Number call = 0; call < calls; call += 2) {
        queue.enqueue(me, call);
        mine += queue.dequeue(me);
      }
      all.fetch_add(mine);
    });
  } else {
    List<true> list(size, threads);
    seconds = together(threads, [&](Number thread) {
      Draws draws(thread);
      Number mine = 0;
      for (Number call = 0; call < calls; call++) mine += list.contains(draws.below(2 * size), thread);
      all.fetch_add(mine);
    });
  }
  sum = all.load();
  return seconds;
}

int main(int count, char **words) {
  if (count < 4 || count > 5) return 2;
  Number size = std::strtoull(words[2], nullptr, 10);
  Number calls = std::strtoull(words[3], nullptr, 10);
  bool all = count == 5 && !std::strcmp(words[4], "all");
  Number threads = count == 5 && !all ? std::strtoull(words[4], nullptr, 10) : 1;
  if (threads < 1 || threads > 16) return 2;
  Number sum = 0;
  double seconds = threads > 1 ? run_shared(words[1], size, calls, threads, sum)
                   : all       ? run<false>(words[1], size, calls, sum)
                               : run<true>(words[1], size, calls, sum);
  std::fprintf(stderr, "sum %llu\n", static_cast<unsigned long long>(sum));
  std::printf("%.0f\n", static_cast<double>(threads * calls) / seconds);
}
