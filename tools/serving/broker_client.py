"""The client of a broker. It has a thread of its own; what comes there is handed to the loop."""

import asyncio
import collections
import functools
import time

import paho.mqtt.client as mqtt

Access = collections.namedtuple("Access", "place user password ca", defaults=[None, None, None])


def begun_client(link, access, will):
    """A client that calls the link's `up`, `down`, `hear` and `acknowledged`, and has the broker clear the topic `will` where it is lost."""
    version = getattr(mqtt, "CallbackAPIVersion", None)
    client = mqtt.Client(version.VERSION1) if version else mqtt.Client()
    if access.user:
        client.username_pw_set(access.user, access.password)
    if access.ca:
        client.tls_set(access.ca)
    client.reconnect_delay_set(1, 5)
    client.will_set(will, b"", qos=1, retain=True)
    call = functools.partial(called, asyncio.get_running_loop())
    client.on_connect = lambda client, userdata, flags, code, *more: call(link.up, code)
    client.on_disconnect = lambda client, userdata, code, *more: call(link.down, "lost", f"the broker is away: {mqtt.error_string(code)}")
    client.on_connect_fail = lambda *given: call(link.down, "away", "the broker isn't reached")
    client.on_message = lambda client, userdata, message: call(link.hear, message.topic, message.payload)
    client.on_publish = lambda client, userdata, mid, *more: call(link.acknowledged, mid)
    client.connect_async(*access.place, keepalive=20)
    client.loop_start()
    return client


def called(loop, call, *given):
    if not loop.is_closed():
        loop.call_soon_threadsafe(call, *given)


def refusal_of(code):
    return mqtt.connack_string(code)


def is_taken(info):
    try:
        return info.is_published()
    except (ValueError, RuntimeError):
        return False  # it was never sent


async def taken_back(client, topics, seconds):
    """Takes the retained messages of these topics back. How many are."""
    infos = [client.publish(topic, b"", qos=1, retain=True) for topic in topics]
    until = time.monotonic() + seconds
    while not all(map(is_taken, infos)) and time.monotonic() < until:
        await asyncio.sleep(0.02)
    return sum(map(is_taken, infos))
