"""Messages of an asyncio.StreamReader."""
import asyncio

import pytest

import capvet
from support import LAX, bytes_of, lines, many, program, samples


async def sent(reader, data, most):
    """Gives a reader its bytes in pieces."""
    for at in range(0, len(data), most):
        reader.feed_data(data[at:at + most])
        await asyncio.sleep(0)
    reader.feed_eof()


async def received(messages):
    """The lines of messages, and the reason why they end, if there is one."""
    found = []
    try:
        async for message in messages:
            found.append(message)
    except capvet.FrameError as error:
        return lines(found)[0], error.reason
    return lines(found)


def ran(data, most, **options):
    async def both():
        reader = asyncio.StreamReader()
        sending = asyncio.create_task(sent(reader, data, most))
        found = await received(capvet.async_read_messages(reader, **options))
        await sending
        return found

    return asyncio.run(both())


@pytest.mark.parametrize("most", [1, 7, 100, 100_000])
def test_as_the_program(most):
    data = b"".join(samples()[-3:] + many(50))
    text, packed = program("vet", data=data)[0], program("pack", data=data)[0]
    assert ran(data, most, limits=LAX) == ran(packed, most, packed=True, limits=LAX) == (text, None)
    # (it closes itself: a stream that is cut is seen)
    text, error, status = program("vet", data=data[:-1])
    assert ran(data[:-1], most, limits=LAX) == (text, "Truncated")


@pytest.mark.parametrize("packed", [False, True], ids=["plain", "packed"])
def test_a_message_is_yielded_before_the_next_one_arrives(packed):
    frames = samples()[:2]
    first, second = map(capvet.pack_message, frames) if packed else frames

    async def both():
        reader = asyncio.StreamReader()
        messages = capvet.async_read_messages(reader, packed=packed)
        reader.feed_data(first + second[:len(second) // 2])
        assert bytes_of(await messages.__anext__()) == frames[0]
        # (a step that is cancelled loses nothing)
        for _ in range(3):
            with pytest.raises(asyncio.TimeoutError):
                await asyncio.wait_for(messages.__anext__(), 0.01)
        reader.feed_data(second[len(second) // 2:])
        assert bytes_of(await messages.__anext__()) == frames[1]
        reader.feed_data(second[:20])
        reader.feed_eof()
        for _ in range(3):
            with pytest.raises(capvet.FrameError) as error:
                await messages.__anext__()
            assert (error.value.reason, error.value.number, error.value.offset) == ("Truncated", 2, len(first + second))
        assert messages.received == len(first + second) + 20

    asyncio.run(both())


def test_an_end_and_an_error_of_the_reader():
    async def both():
        reader = asyncio.StreamReader()
        messages = capvet.async_read_messages(reader)
        reader.feed_data(samples()[-1] * 2)
        reader.set_exception(ConnectionResetError())
        with pytest.raises(ConnectionResetError):
            await messages.__anext__()
        other = asyncio.StreamReader()
        other.feed_data(samples()[-1] * 2)
        other.feed_eof()
        messages = capvet.async_read_messages(other)
        assert [it.number async for it in messages] == [0, 1]
        for _ in range(2):
            with pytest.raises(StopAsyncIteration):
                await messages.__anext__()

    asyncio.run(both())
    with pytest.raises(TypeError):
        capvet.async_read_messages(b"")
