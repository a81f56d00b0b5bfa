"""The standard library over a resolver."""
import contextlib
import http.client
import socket
import threading
import unittest

import network
import yimarotu

STREAM = socket.SOCK_STREAM


class WithPatch(unittest.TestCase):
    timeout = 60

    def setUp(self):
        stack = contextlib.ExitStack()
        self.addCleanup(stack.close)
        self.server = stack.enter_context(network.running())
        self.original = socket.getaddrinfo
        given = {"servers": [self.server.text], "resolv_conf": "", "hostname": "", "timeout": self.timeout}
        resolver = yimarotu.Resolver(hosts="127.0.0.1 here.example.test\n::1 here.example.test\n", **given)
        self.resolver = stack.enter_context(yimarotu.patched_getaddrinfo(stack.enter_context(resolver)))


class Patched(WithPatch):
    def places(self, *words, **more):
        return {(it[0], it[4][0]) for it in socket.getaddrinfo(*words, **more)}

    def test_families(self):
        of_4, of_6 = (socket.AF_INET, "192.0.2.1"), (socket.AF_INET6, "2001:db8::1")
        self.assertEqual(self.places("www.example.test", 80), {of_4, of_6})
        self.assertEqual(self.places("www.example.test", 80, socket.AF_INET), {of_4})
        self.assertEqual(self.places("www.example.test", 80, family=socket.AF_INET6), {of_6})
        mapped = {(socket.AF_INET6, "::ffff:192.0.2.4")}
        self.assertEqual(self.places("four.example.test", 80, socket.AF_INET6, flags=socket.AI_V4MAPPED), mapped)

    def test_kinds_and_services(self):
        place = (socket.AF_INET, STREAM, socket.IPPROTO_TCP, "", ("192.0.2.4", 80))
        self.assertEqual(socket.getaddrinfo("four.example.test", "http", type=STREAM), [place])
        self.assertEqual(socket.getaddrinfo(b"four.example.test", 80, proto=socket.IPPROTO_TCP), [place])
        kinds = {it[1] for it in socket.getaddrinfo("four.example.test", None)}
        self.assertEqual(kinds, {STREAM, socket.SOCK_DGRAM, socket.SOCK_RAW})
        with self.assertRaises(socket.gaierror):
            socket.getaddrinfo("four.example.test", "no such service")

    def test_canonical_name(self):
        found = socket.getaddrinfo("third.example.test", 80, socket.AF_INET, STREAM, 0, socket.AI_CANONNAME)
        self.assertEqual([it[3] for it in found], ["www.example.test"])
        found = socket.getaddrinfo("four.example.test", 80, 0, STREAM, 0, socket.AI_CANONNAME)
        self.assertEqual([it[3] for it in found], ["four.example.test"])

    def test_what_is_left_to_the_original(self):
        for words in (("127.0.0.1", 80), ("::1", 80), (None, 80), ("", 80), ("127.1", 80), (b"127.0.0.1", "http")):
            self.assertEqual(told(socket.getaddrinfo, words), told(self.original, words), words)
        with self.assertRaises(socket.gaierror) as caught:
            socket.getaddrinfo("www.example.test", 80, flags=socket.AI_NUMERICHOST)
        self.assertEqual(caught.exception.errno, socket.EAI_NONAME)
        self.assertEqual(self.server.count(), 0)

    def test_errors(self):
        wanted = {
            "nowhere.example.test": socket.EAI_NONAME, "example.test": socket.EAI_NODATA, "a..b": socket.EAI_NONAME,
            "servfail.example.test": socket.EAI_AGAIN, "refused.example.test": socket.EAI_FAIL,
        }
        for name, number in wanted.items():
            with self.assertRaises(socket.gaierror, msg=name) as caught:
                socket.getaddrinfo(name, 80)
            self.assertEqual(caught.exception.errno, number, name)

    def test_within_a_look_up(self):
        """What a handler of a signal connects to while its thread looks up cannot be looked up now."""
        with self.resolver._driver.lock, self.assertRaises(socket.gaierror) as caught:
            socket.getaddrinfo("www.example.test", 80)
        self.assertEqual(caught.exception.errno, socket.EAI_AGAIN)

    def test_what_stands_on_it(self):
        with socket.create_server((network.ADDRESS, 0)) as listener:
            threading.Thread(target=answer_once, args=(listener,), daemon=True).start()
            connection = http.client.HTTPConnection("here.example.test", listener.getsockname()[1], timeout=60)
            connection.request("GET", "/")
            self.assertEqual(connection.getresponse().read(), b"here")
            connection.close()

    def test_put_back(self):
        with self.assertRaises(RuntimeError):
            with yimarotu.patched_getaddrinfo(self.resolver):
                pass
        self.doCleanups()
        self.assertIs(socket.getaddrinfo, self.original)
        with yimarotu.patched_getaddrinfo() as own:
            self.assertEqual(socket.getaddrinfo("localhost", 80, socket.AF_INET, STREAM)[0][4], ("127.0.0.1", 80))
        with self.assertRaises(yimarotu.Closed):
            own.statistics()


class Hurried(WithPatch):
    timeout = 1

    def test_silence(self):
        with self.assertRaises(socket.gaierror) as caught:
            socket.getaddrinfo("silent.example.test", 80)
        self.assertEqual(caught.exception.errno, socket.EAI_AGAIN)


def told(call, words):
    try:
        return call(*words)
    except OSError as error:
        return type(error), error.errno


def answer_once(listener):
    connection, _ = listener.accept()
    with connection:
        connection.recv(4096)
        connection.sendall(b"HTTP/1.0 200 OK\r\n\r\nhere")


if __name__ == "__main__":
    unittest.main()
