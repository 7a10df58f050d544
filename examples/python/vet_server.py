#!/usr/bin/env python3
"""A server by asyncio that reads messages from its peers and vets each. It holds one message a peer.

    vet_server.py [--packed] [--seconds N] [--size N] [PORT]

A peer gets a line for each message as soon as its last byte has come: what `capvet vet --strict --unamplified` prints of it. After
a refused message, or if the stream stops being one, the server closes the connection. A peer has N seconds (10) for each message,
from the end of the one before, and its messages have at most --size words (65,536). PORT is one of this machine, 0 for any (the
default): the first line on standard output names it. SIGINT and SIGTERM end the server with status 0.
"""
import argparse
import asyncio
import signal
import sys
from typing import Optional

import capvet


def line(verdict: capvet.Verdict) -> str:
    """The line about a message."""
    if isinstance(verdict, capvet.Refusal):
        return f"message {verdict.number}: {verdict}\n"
    it = verdict.report
    return (f"message {verdict.number}: accepted charge {it.charge} depth {it.depth} pointers {it.pointers} "
            f"caps {it.capabilities}\n")


async def next_of(messages: capvet.AsyncMessageReader) -> Optional[capvet.Verdict]:
    """The next message, or None at the end. (Python 3.10 has anext)"""
    async for verdict in messages:
        return verdict
    return None


class Server:
    """What is the same for all connections."""

    def __init__(self, packed: bool, limits: capvet.Limits, seconds: float) -> None:
        self.packed, self.limits, self.seconds = packed, limits, seconds

    async def serve(self, reader: asyncio.StreamReader, writer: asyncio.StreamWriter) -> None:
        """Answers one peer. An error ends its connection, and no other one."""
        try:
            await self.answer(reader, writer)
        except capvet.FrameError as error:
            self.log(writer, str(error))
        except asyncio.TimeoutError:
            self.log(writer, "out of time")
        except OSError as error:
            self.log(writer, str(error))
        finally:
            writer.close()

    async def answer(self, reader: asyncio.StreamReader, writer: asyncio.StreamWriter) -> None:
        """A line for each message, until the peer ends its stream or a message is refused."""
        messages = capvet.async_read_messages(reader, packed=self.packed, limits=self.limits)
        while verdict := await asyncio.wait_for(next_of(messages), self.seconds):
            writer.write(line(verdict).encode())
            # (a peer that takes no lines gets no more, and its bytes are not read)
            await asyncio.wait_for(writer.drain(), self.seconds)
            if isinstance(verdict, capvet.Refusal):
                self.log(writer, str(verdict))
                return

    @staticmethod
    def log(writer: asyncio.StreamWriter, text: str) -> None:
        """A line about a connection that did not end well."""
        host, port = writer.get_extra_info("peername")[:2]
        print(f"vet_server: {host}:{port}: {text}", file=sys.stderr, flush=True)


async def run(args: argparse.Namespace) -> None:
    limits = capvet.Limits(message_words=args.size, charge=args.size)
    server = await asyncio.start_server(Server(args.packed, limits, args.seconds).serve, "127.0.0.1", args.port)
    print(server.sockets[0].getsockname()[1], flush=True)
    stopped = asyncio.Event()
    for number in (signal.SIGINT, signal.SIGTERM):
        asyncio.get_running_loop().add_signal_handler(number, stopped.set)
    await stopped.wait()
    server.close()


def main() -> int:
    parser = argparse.ArgumentParser(description="Vets the messages of peers by asyncio.")
    parser.add_argument("--packed", action="store_true", help="the messages are packed")
    parser.add_argument("--seconds", metavar="N", type=float, default=10, help="for each message (default: 10)")
    parser.add_argument("--size", metavar="N", type=int, default=65_536, help="most words of a message (default: 65,536)")
    parser.add_argument("port", metavar="PORT", type=int, nargs="?", default=0)
    args = parser.parse_args()
    try:
        asyncio.run(run(args))
    except OSError as error:
        print(f"vet_server: {error}", file=sys.stderr)
        return 3
    return 0


if __name__ == "__main__":
    sys.exit(main())
