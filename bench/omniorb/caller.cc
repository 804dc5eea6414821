// Calls `add` of the object that its first word names, so many times over one connection by so many
// threads, and prints how many calls that is a second. With a fourth word it calls `ping` instead.
#include "demo.hh"
#include <chrono>
#include <cstdlib>
#include <iostream>
#include <thread>
#include <vector>

int main(int argc, char **argv) {
  // One connection, which carries the calls of all threads at once.
  const char *options[][2] = {
      {"maxGIOPConnectionPerServer", "1"}, {"oneCallPerConnection", "0"}, {nullptr, nullptr}};
  CORBA::ORB_var orb = CORBA::ORB_init(argc, argv, "omniORB4", options);
  CORBA::Object_var found = orb->string_to_object(argv[1]);
  Demo::Calc_var calc = Demo::Calc::_unchecked_narrow(found);
  int calls = std::atoi(argv[2]), threads = std::atoi(argv[3]);
  bool pings = argc > 4;
  calc->ping();
  auto began = std::chrono::steady_clock::now();
  std::vector<std::thread> callers;
  for (int k = 0; k < threads; k++)
    callers.emplace_back([&] {
      for (int n = 0; n < calls / threads; n++)
        if (pings) calc->ping();
        else if (calc->add(2, n) != n + 2) std::abort();
    });
  for (std::thread &caller : callers) caller.join();
  std::chrono::duration<double> took = std::chrono::steady_clock::now() - began;
  std::cout << static_cast<long>(calls / took.count()) << std::endl;
  orb->destroy();
}
