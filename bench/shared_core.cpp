// Whether something else uses the other half of the processor's core. Steps that wait for each
// other leave most of a core unused and take as long in either case; steps that don't wait fill it,
// and take two to three times as long when they have to share it. Prints the least, the lower
// quarter and the median of both, in milliseconds, of 400 rounds or of as many as its word says:
//
//     g++ -O1 -std=c++20 bench/shared_core.cpp -o /tmp/shared_core && /tmp/shared_core
#include <algorithm>
#include <array>
#include <chrono>
#include <cstdint>
#include <cstdio>
#include <cstdlib>
#include <vector>

static volatile std::uint64_t kept = 88172645463325252u;

static void waiting_steps() {
  std::uint64_t value = kept;
  for (int step = 0; step < 1500000; ++step) {
    value = value * 6364136223846793005u + 1442695040888963407u;
    value ^= value >> 17;
  }
  kept = value;
}

static void free_steps() {
  const std::uint64_t first = kept;
  std::array<std::uint64_t, 8> values;
  values.fill(first);
  for (std::uint64_t step = 0; step < 300000; ++step) {
    for (std::uint64_t place = 0; place < values.size(); ++place) {
      values[place] += step;
      values[place] ^= values[place] << 3;
      values[place] += place;
    }
  }
  for (std::uint64_t value : values) kept = kept ^ value;
}

static double milliseconds(void (*steps)()) {
  const auto before = std::chrono::steady_clock::now();
  steps();
  const std::chrono::duration<double, std::milli> time = std::chrono::steady_clock::now() - before;
  return time.count();
}

static void show(const char *title, std::vector<double> &times) {
  std::sort(times.begin(), times.end());
  std::printf("%-8s %6.2f %6.2f %6.2f\n", title, times.front(), times[times.size() / 4],
              times[times.size() / 2]);
}

int main(int count, char **words) {
  const int rounds = std::max(1, count > 1 ? std::atoi(words[1]) : 400);
  std::vector<double> waiting, free;
  for (int round = 0; round < rounds; ++round) {
    waiting.push_back(milliseconds(waiting_steps));
    free.push_back(milliseconds(free_steps));
  }
  show("waiting", waiting);
  show("free", free);
}
