@0xd3a1f7b2c4e50916;
# The interface of server.cpp.

interface Service {
  number @0 () -> (number :UInt32);
  isFile @1 (capability :Capability) -> (isFile :Bool);
  wait @2 () -> ();
  fail @3 () -> ();
}
