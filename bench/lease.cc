// The same allocations in one google::protobuf::Arena: each of so many threads takes 32 bytes and clears them, so many
// rounds. Prints the threads and the nanoseconds of the best of 9 runs.
#include <google/protobuf/arena.h>

#include <chrono>
#include <cstdio>
#include <cstdlib>
#include <cstring>
#include <thread>
#include <vector>

static void Turn(google::protobuf::Arena* arena, long rounds) {
  for (long round = 0; round < rounds; ++round) {
    std::memset(google::protobuf::Arena::CreateArray<char>(arena, 32), 0, 32);
  }
}

static long BestOf(int threads, long rounds) {
  long best = -1;
  for (int run = 0; run < 9; ++run) {
    google::protobuf::Arena arena;
    const auto start = std::chrono::steady_clock::now();
    std::vector<std::thread> others;
    for (int k = 1; k < threads; ++k) others.emplace_back(Turn, &arena, rounds);
    Turn(&arena, rounds);
    for (auto& other : others) other.join();
    const long time = std::chrono::duration_cast<std::chrono::nanoseconds>(std::chrono::steady_clock::now() - start).count();
    if (best < 0 || time < best) best = time;
  }
  return best;
}

int main(int count, char** words) {
  const long rounds = count == 2 ? std::atol(words[1]) : 0;
  for (int threads = 1; threads <= 4; threads *= 2) std::printf("%d threads: %ld\n", threads, BestOf(threads, rounds));
}
