// A server and a client over ez-rpc, without capvet. tests/network/socat_proxy.py puts examples/rpc-guard.sh between them.
//
//     ez serve            serves the calculator of examples/cpp on loopback, and prints its port
//     ez call ADDRESS     makes calls of each kind, and prints their results
//
// The status of `call` is 0 if each call but the last one has a result, and 1 if not.
#include <capnp/ez-rpc.h>
#include <kj/debug.h>
#include <stdio.h>

#include "calculator.h"

namespace {

const uint32_t CALLS = 200, ROWS = 20'000;

int serve() {
  capnp::EzRpcServer server(kj::heap<CalculatorServer>(), "127.0.0.1", 0);
  printf("%u\n", server.getPort().wait(server.getWaitScope()));
  fflush(stdout);
  kj::NEVER_DONE.wait(server.getWaitScope());
}

void numbers(Calculator::Client calculator, kj::WaitScope &scope) {
  double sum = 0;
  for (uint32_t at = 0; at < CALLS; at++) {
    auto add = calculator.addRequest();
    add.setA(at);
    add.setB(0.5);
    sum += add.send().wait(scope).getSum();
  }
  printf("%u sums: %g\n", CALLS, sum);
}

// Each counter is called twice before the call that returns it has ended.
void counters(Calculator::Client calculator, kj::WaitScope &scope) {
  uint64_t first = 0, second = 0;
  for (uint32_t at = 0; at < CALLS; at++) {
    auto start = calculator.counterRequest();
    start.setStart(at);
    auto counter = start.send().getCounter();
    auto one = counter.nextRequest().send(), two = counter.nextRequest().send();
    first += one.wait(scope).getNumber();
    second += two.wait(scope).getNumber();
  }
  printf("%u counters: %llu and %llu\n", CALLS, static_cast<unsigned long long>(first),
         static_cast<unsigned long long>(second));
}

// A list from the server, and back.
void rows(Calculator::Client calculator, kj::WaitScope &scope) {
  auto request = calculator.rowsRequest();
  request.setCount(ROWS);
  auto received = request.send().wait(scope);
  uint64_t ids = 0, bytes = 0;
  for (auto row : received.getRows()) {
    ids += row.getId();
    bytes += row.getName().size();
  }
  auto store = calculator.storeRequest();
  store.setRows(received.getRows());
  printf("%u rows: ids %llu, names of %llu bytes, stored %u\n", received.getRows().size(),
         static_cast<unsigned long long>(ids), static_cast<unsigned long long>(bytes),
         store.send().wait(scope).getCount());
}

int call(kj::StringPtr address) {
  capnp::EzRpcClient client(address);
  auto &scope = client.getWaitScope();
  auto calculator = client.getMain<Calculator>();
  numbers(calculator, scope);
  counters(calculator, scope);
  rows(calculator, scope);
  KJ_IF_MAYBE(exception, kj::runCatchingExceptions([&]() { calculator.failRequest().send().wait(scope); })) {
    printf("failed: %s\n", exception->getDescription().cStr());
  }
  return 0;
}

}  // namespace

int main(int count, char **words) try {
  const kj::StringPtr mode = count > 1 ? words[1] : "";
  if (mode == "serve" && count == 2) return serve();
  if (mode == "call" && count == 3) return call(words[2]);
  return fputs("usage: ez serve | call ADDRESS\n", stderr), 2;
} catch (const kj::Exception &exception) {
  printf("%s\n", exception.getDescription().cStr());
  return 1;
}
