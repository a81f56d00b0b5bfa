#!/usr/bin/env python3
"""Looks the addresses of a host up: lookup.py HOST SERVER PORT. A question goes by UDP, and by TCP where its reply is
truncated."""
import ipaddress
import pathlib
import secrets
import socket
import struct
import sys
import time

sys.path.insert(0, str(pathlib.Path(__file__).resolve().parent.parent))
import yimarotu

NUMBER, SECONDS, DATAGRAMS = 1, 2, 50


def is_reply(question, reply):
    """Whether it is a message, and has the id and the question, letter for letter."""
    try:
        yimarotu.rewrite(reply)
    except yimarotu.Refused:
        return False
    end = behind_name(question, 12) + 4
    parts = [(of[:2], of[4:6], of[12:end]) for of in (question, reply)]
    return len(reply) >= end and reply[2] & 0xF8 == 0x80 and parts[0] == parts[1]


def ask_by_udp(question, server):
    with socket.socket(socket.AF_INET, socket.SOCK_DGRAM) as sock:
        sock.settimeout(SECONDS)
        sock.connect(server)
        sock.send(question)
        for _ in range(DATAGRAMS):
            reply = sock.recv(65535)
            if is_reply(question, reply):
                return reply
    raise TimeoutError


def ask_by_tcp(question, server):
    with socket.create_connection(server, SECONDS) as sock, sock.makefile("rb") as file:
        sock.sendall(struct.pack(">H", len(question)) + question)
        reply = file.read(int.from_bytes(file.read(2), "big"))
    if not is_reply(question, reply):
        raise ConnectionError
    return reply


def ask(question, server):
    question = secrets.token_bytes(2) + question[2:]
    reply = ask_by_udp(question, server)
    return ask_by_tcp(question, server) if reply[2] & 2 else reply


def second():
    """By a clock that does not go back, and counts while the machine sleeps."""
    return int(time.clock_gettime(time.CLOCK_BOOTTIME))


def look_up(session, host, server):
    """What a look-up came to, with its questions asked of the server."""
    waits = session.start_ip(NUMBER, host, second())
    while waits:
        try:
            waits = session.feed(NUMBER, ask(session.question(NUMBER).message, server))
        except TimeoutError:
            waits = session.fail(NUMBER, yimarotu.FAIL_TIMEOUT)
        except OSError:
            waits = session.fail(NUMBER, yimarotu.FAIL_REFUSED)
    return session.answer(NUMBER)


def behind_name(message, at):
    while 0 < message[at] < 64:
        at += message[at] + 1
    return at + (1 if message[at] == 0 else 2)


def addresses(message):
    """The addresses among the answers of a message that the library wrote."""
    questions, answers = struct.unpack_from(">2H", message, 4)
    at = 12
    for _ in range(questions):
        at = behind_name(message, at) + 4
    for _ in range(answers):
        at = behind_name(message, at)
        code, length = struct.unpack_from(">H6xH", message, at)
        at += 10 + length
        if code in (1, 28):
            yield ipaddress.ip_address(message[at - length : at])


def main():
    if len(sys.argv) != 4:
        sys.exit("usage: lookup.py HOST SERVER PORT")
    host, server, port = sys.argv[1:]
    with yimarotu.Session("option preserve_intermediates false\n", moment=second()) as session:
        answer = look_up(session, host, (server, int(port)))
    if answer.error != yimarotu.FOUND:
        sys.exit(1)
    print(*addresses(answer.message), sep="\n")


if __name__ == "__main__":
    main()
