@0xb5c3a1d2e4f60718;
# The interface of rpc_server.cpp and rpc_client.cpp.

struct Row {
  id @0 :UInt64;
  name @1 :Text;
}

interface Counter {
  next @0 () -> (number :UInt64);
}

interface Calculator {
  add @0 (a :Float64, b :Float64) -> (sum :Float64);
  counter @1 (start :UInt64) -> (counter :Counter);
  rows @2 (count :UInt32) -> (rows :List(Row));
  store @3 (rows :List(Row)) -> (count :UInt32);
  fail @4 () -> ();
}
