// Compiles each expression on standard input with RE2 and matches the name on the first line with it. Prints for each
// the verdict and the least of many runs in nanoseconds.
#include <re2/re2.h>

#include <algorithm>
#include <chrono>
#include <cstdio>
#include <iostream>
#include <string>
#include <vector>

int main() {
  using Clock = std::chrono::steady_clock;
  std::string name, expression;
  std::getline(std::cin, name);
  while (std::getline(std::cin, expression)) {
    std::vector<double> runs;
    bool verdict = false;
    for (int i = 0; i < 400; i++) {
      auto start = Clock::now();
      RE2 compiled(expression);
      verdict = RE2::FullMatch(name, compiled);
      runs.push_back(std::chrono::duration<double, std::nano>(Clock::now() - start).count());
    }
    std::sort(runs.begin(), runs.end());
    std::printf("%d %.0f\n", verdict, runs[0]);
  }
}
