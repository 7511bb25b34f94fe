// orders.cc: the order system of orders.c with std::thread, and handles that close themselves.
//
//   c++ orders.cc $(pkg-config --cflags --libs covetrivet) -pthread -o orders
#include <covetrivet.h>
#include <atomic>
#include <cstdio>
#include <cstdlib>
#include <stdexcept>
#include <string>
#include <thread>
#include <utility>
#include <vector>

namespace {

constexpr int orders = 200;
constexpr std::uint64_t most = 70;
enum Word { number, quantity, price, shipped };

void must(const char *what, std::uint32_t code) {
  if (code != COVETRIVET_OK) throw std::runtime_error(std::string(what) + ": code " + std::to_string(code));
}

// A caller, which comes home in the end: it moves, and is never copied. Its manager's handle is there as long as it
// is, and one thread at a time ends callers.
class Caller {
public:
  explicit Caller(covetrivet_manager &manager) : home(manager) { must("open", covetrivet_open(&home, &handle)); }
  Caller(Caller &&other) noexcept : home(other.home) { covetrivet_move(&other.handle, &handle); }
  Caller(const Caller &) = delete;
  Caller &operator=(const Caller &) = delete;
  ~Caller() { covetrivet_close(&home, &handle); }
  covetrivet_caller *operator&() { return &handle; }

private:
  covetrivet_manager &home;
  covetrivet_caller handle = COVETRIVET_CLOSED;
};

void serve(Caller &me, std::uint8_t stage, const std::atomic<bool> &closing) {
  while (!closing) {
    covetrivet_work work;
    const auto code = covetrivet_claim_next(&me, stage, &work);
    if (code == COVETRIVET_IDLE) {
      std::this_thread::yield();
      continue;
    }
    must("claim", code);
    const auto &body = work.element.body;
    covetrivet_draft draft = { { body[0], body[1], body[2], body[3] }, COVETRIVET_REPLIES };
    if (stage != 3) draft.stage = static_cast<std::uint8_t>(stage + 1);
    if (stage == 1) draft.body[price] = body[quantity] * (10 + body[number] % 5);
    if (stage == 2 && body[price] > most) {
      must("abort", covetrivet_abort(&me));
      continue;
    }
    if (stage == 3) draft.body[shipped] = 1;
    covetrivet_born born;
    must("commit", covetrivet_commit(&me, &draft, 1, &born));
  }
}

std::pair<int, int> submit_and_collect(Caller &client) {
  std::vector<std::uint32_t> roots(orders);
  std::vector<bool> replied(orders);
  int shipped_orders = 0, declined = 0;
  for (std::uint64_t n = 0; n < orders; n++) {
    const std::uint64_t body[4] = { n, 1 + n % 7, 0, 0 };
    must("submit", covetrivet_submit(&client, 1, body, &roots[n]));
  }
  while (shipped_orders + declined < orders) {
    for (std::uint64_t n = 0; n < orders; n++) {
      covetrivet_element reply;
      if (replied[n] || covetrivet_collect_next(&client, roots[n], &reply) != COVETRIVET_OK) continue;
      if (reply.body[number] != n || reply.body[shipped] != 1) throw std::logic_error("a reply to another order");
      replied[n] = true;
      shipped_orders++;
    }
    std::uint32_t id;
    std::uint8_t aborted;
    if (covetrivet_next_error(&client, 0, &id) == COVETRIVET_OK) {
      must("kill", covetrivet_kill(&client, id, &aborted));
      declined++;
    }
    std::this_thread::yield();
  }
  return { shipped_orders, declined };
}

// One client and three servers, whose callers are at home again behind this.
std::pair<int, int> run(covetrivet_manager &manager) {
  Caller client(manager);
  std::vector<Caller> servers;
  std::vector<std::thread> threads;
  std::atomic<bool> closing(false);
  for (int k = 0; k < 3; k++) servers.emplace_back(manager);
  for (std::size_t k = 0; k < 3; k++)
    threads.emplace_back([&, k] { serve(servers[k], static_cast<std::uint8_t>(k + 1), closing); });
  const auto counted = submit_and_collect(client);
  closing = true;
  for (auto &it : threads) it.join();
  return counted;
}

} // namespace

int main() {
  const covetrivet_limits limits = { 4, 256, 1024, 0, 3 };
  covetrivet_manager manager = COVETRIVET_CLOSED;
  must("make", covetrivet_make(&limits, &manager));
  const auto counted = run(manager);
  covetrivet_counts counts;
  must("account", covetrivet_account(&manager, 0, &counts));
  std::printf("%d orders: %d shipped, %d declined\n", orders, counted.first, counted.second);
  std::printf("waiting %u, held %u, consumed %u, parked %u, killed %u\n", counts.waiting, counts.held, counts.consumed,
              counts.parked, counts.killed);
  covetrivet_give_up(&manager);
}
