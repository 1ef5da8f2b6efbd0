#!/usr/bin/env python3
"""A client and a sender of one message, over a service that runs: examples/message.py [TEXT [CONNECTION_PORT]].

It says hello over a WebSocket (RFC 6455), registers a channel, posts the text to the address that it is given (RFC 8030), and
acknowledges the notification. It prints each text that goes over the WebSocket, and the first line of the answer to the post.
"""
import base64
import json
import os
import socket
import sys
import urllib.request

TEXT = sys.argv[1] if len(sys.argv) > 1 else "hello"
PORT = int(sys.argv[2]) if len(sys.argv) > 2 else 8080
CHANNEL = "5a5a5a5a-0000-4000-8000-000000000001"

stream = socket.create_connection(("127.0.0.1", PORT), timeout=10)
key = base64.b64encode(os.urandom(16)).decode()
stream.sendall(
    f"GET / HTTP/1.1\r\nHost: localhost\r\nUpgrade: websocket\r\nConnection: Upgrade\r\n"
    f"Sec-WebSocket-Key: {key}\r\nSec-WebSocket-Version: 13\r\n\r\n".encode()
)
incoming = stream.makefile("rb")
while incoming.readline() not in (b"\r\n", b""):
    pass


def say(message):
    """Sends a text in one masked frame."""
    text, mask = json.dumps(message).encode(), os.urandom(4)
    masked = bytes(byte ^ mask[place % 4] for place, byte in enumerate(text))
    length = bytes([0x80 | len(text)]) if len(text) < 126 else bytes([0x80 | 126]) + len(text).to_bytes(2, "big")
    stream.sendall(b"\x81" + length + mask + masked)
    print(">", text.decode())


def hear():
    """The next text."""
    _, length = incoming.read(2)
    if length == 126:
        length = int.from_bytes(incoming.read(2), "big")
    text = incoming.read(length).decode()
    print("<", text)
    return json.loads(text)


say({"messageType": "hello", "use_webpush": True, "uaid": ""})
hear()
say({"messageType": "register", "channelID": CHANNEL})
address = hear()["pushEndpoint"]
headers = {"TTL": "60", "Content-Encoding": "aes128gcm"}
with urllib.request.urlopen(urllib.request.Request(address, TEXT.encode(), headers)) as answer:
    print(f"POST {address}\n  {answer.status} {answer.reason}, TTL {answer.headers['TTL']}, at {answer.headers['Location']}")
told = hear()
say({"messageType": "ack", "updates": [{"channelID": told["channelID"], "version": told["version"]}]})
print("arrived:", base64.urlsafe_b64decode(told["data"] + "=" * (-len(told["data"]) % 4)).decode())
