// A client of rpc_server.cpp. It is built in the same way:
//
//     c++ -std=c++17 rpc_client.cpp calculator.capnp.c++ $(pkg-config --cflags --libs capvet-kj) -o rpc_client
//     ./rpc_client 127.0.0.1:PORT
//
// A client that doesn't trust its server vets what it receives in the same way. The status is 0 if the server was
// reached.
#include <capnp/rpc-twoparty.h>
#include <capvet/kj.h>
#include <kj/async-io.h>

#include <cstdio>

#include "calculator.capnp.h"

namespace {

using capnp::rpc::twoparty::Side;

void print(const kj::String &line) { std::puts(line.cStr()); }

void call(Calculator::Client calculator, kj::WaitScope &scope) {
  auto add = calculator.addRequest();
  add.setA(40.5);
  add.setB(1.5);
  print(kj::str("40.5 + 1.5 = ", add.send().wait(scope).getSum()));

  // (the counter is called before the call that returns it has ended)
  auto start = calculator.counterRequest();
  start.setStart(7);
  auto counter = start.send().getCounter();
  auto first = counter.nextRequest().send(), second = counter.nextRequest().send();
  print(kj::str("counted ", first.wait(scope).getNumber(), " and ", second.wait(scope).getNumber()));

  auto rows = calculator.rowsRequest();
  rows.setCount(10'000);
  auto received = rows.send().wait(scope);
  auto store = calculator.storeRequest();
  store.setRows(received.getRows());
  print(kj::str("received ", received.getRows().size(), " rows, stored ", store.send().wait(scope).getCount()));

  try {
    calculator.failRequest().send().wait(scope);
  } catch (const kj::Exception &exception) {
    print(kj::str("failed: ", exception.getDescription()));
  }
}

}  // namespace

int main(int count, char **words) try {
  if (count != 2) return std::fputs("usage: rpc_client ADDRESS\n", stderr), 2;
  auto io = kj::setupAsyncIo();
  auto address = io.provider->getNetwork().parseAddress(words[1]).wait(io.waitScope);
  auto stream = address->connect().wait(io.waitScope);
  capvet::VettingStream vetting(*stream, io.provider->getTimer(), Side::CLIENT);
  capnp::TwoPartyVatNetwork network(vetting, Side::CLIENT);
  auto rpc = capnp::makeRpcClient(network);
  capnp::MallocMessageBuilder id;
  id.initRoot<capnp::rpc::twoparty::VatId>().setSide(Side::SERVER);
  call(rpc.bootstrap(id.getRoot<capnp::rpc::twoparty::VatId>()).castAs<Calculator>(), io.waitScope);
  return 0;
} catch (const kj::Exception &exception) {
  std::fprintf(stderr, "%s\n", exception.getDescription().cStr());
  return 3;
}
