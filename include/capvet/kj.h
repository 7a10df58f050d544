/* capvet/kj.h: checks untrusted Cap'n Proto messages before libcapnp reads them. C++17.
 *
 * A service that receives a message and reads it:
 *
 *     size_t receive(kj::Array<kj::byte> received) {
 *       auto message = capvet::vetted(kj::mv(received));
 *       return message.getRoot<Book>().getPeople().size();
 *     }
 *
 * An RPC service, by capvet/kj-server.h. It also bounds its connections and the time that a peer takes:
 *
 *     auto io = kj::setupAsyncIo();
 *     auto listener = io.provider->getNetwork().parseAddress("*", 4000).wait(io.waitScope)->listen();
 *     capvet::Server server(kj::heap<MyServer>(), io.provider->getTimer());
 *     server.listen(*listener).wait(io.waitScope);
 *
 * An RPC server over TwoPartyServer, for each connection:
 *
 *     server.accept(kj::heap<capvet::VettingIoStream>(kj::mv(connection), timer, Side::SERVER));
 *
 * An RPC server or client over TwoPartyVatNetwork:
 *
 *     capvet::VettingStream vetting(*connection, timer, Side::SERVER);
 *     capnp::TwoPartyVatNetwork network(vetting, Side::SERVER);
 *
 * By default a message has to be whole, strict and unamplified, as for capvet_vet. libcapnp then gets limits under
 * which it reads the whole message. They are tested, not proved, and schemas are not checked: a text may lack its
 * last zero byte. So catch kj::Exception around a message, as without capvet. The RPC system does so itself.
 *
 * Build with `pkg-config --cflags --libs capvet-kj`, or in CMake with find_package(capvet COMPONENTS kj) and the
 * target capvet::kj. It is tested with libcapnp 0.9.2, 1.1.0 and 1.5.0. It is written for 0.9 to 1.x: it uses neither
 * KJ_IF_MAYBE nor `nullptr` for an empty kj::Maybe where KJ has KJ_IF_SOME. */
#ifndef CAPVET_KJ_H
#define CAPVET_KJ_H

#include <capvet/kj-message.h>
#include <capvet/kj-stream.h>

#endif
