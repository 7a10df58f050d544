// What rpc_server.cpp serves. It knows nothing of vetting.
#ifndef CALCULATOR_H
#define CALCULATOR_H

#include <kj/debug.h>

#include "calculator.capnp.h"

class CounterServer final : public Counter::Server {
 public:
  explicit CounterServer(uint64_t start) : number(start) {}

  kj::Promise<void> next(NextContext context) override {
    context.getResults().setNumber(number++);
    return kj::READY_NOW;
  }

 private:
  uint64_t number;
};

class CalculatorServer final : public Calculator::Server {
 public:
  kj::Promise<void> add(AddContext context) override {
    auto params = context.getParams();
    context.getResults().setSum(params.getA() + params.getB());
    return kj::READY_NOW;
  }

  kj::Promise<void> counter(CounterContext context) override {
    context.getResults().setCounter(kj::heap<CounterServer>(context.getParams().getStart()));
    return kj::READY_NOW;
  }

  kj::Promise<void> rows(RowsContext context) override {
    const auto count = context.getParams().getCount();
    KJ_REQUIRE(count <= 20'000, "too many rows");
    auto rows = context.getResults().initRows(count);
    for (uint32_t at = 0; at < count; at++) {
      rows[at].setId(at);
      rows[at].setName(kj::str("row ", at));
    }
    return kj::READY_NOW;
  }

  // Looks at each name, and counts them.
  kj::Promise<void> store(StoreContext context) override {
    uint32_t count = 0;
    for (auto row : context.getParams().getRows()) count += row.getName().size() > 0;
    context.getResults().setCount(count);
    return kj::READY_NOW;
  }

  kj::Promise<void> fail(FailContext) override { KJ_FAIL_REQUIRE("this call always fails"); }
};

#endif
