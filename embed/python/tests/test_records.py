"""Records out of messages that were written by hand (RFC 1035, section 4)."""
import ipaddress
import unittest

import network
from yimarotu import records

HEAD = bytes.fromhex("0000818000010001000000000161000001" "0001")


def of(kind, data, rdclass=1):
    """The one record of the name `a.` with these data."""
    octets = network.numbers("HHIH", kind, rdclass, 60, len(data)) + data
    (record,) = records.read_sections(HEAD + b"\xc0\x0c" + octets).answers
    return record


class Records(unittest.TestCase):
    def test_data(self):
        name = network.name_octets("x.example")
        wanted = {
            (1, bytes([192, 0, 2, 1])): (records.A(ipaddress.IPv4Address("192.0.2.1")), "192.0.2.1"),
            (28, network.address("2001:db8::1")): (records.AAAA(ipaddress.IPv6Address("2001:db8::1")), "2001:db8::1"),
            (2, name): (records.NS("x.example."), "x.example."),
            (5, name): (records.CNAME("x.example."), "x.example."),
            (12, name): (records.PTR("x.example."), "x.example."),
            (15, b"\0\x0a" + name): (records.MX(10, "x.example."), "10 x.example."),
            (33, b"\0\1\0\2\0\x50" + name): (records.SRV(1, 2, 80, "x.example."), "1 2 80 x.example."),
            (16, b"\1a\3b c\0"): (records.TXT((b"a", b"b c", b"")), '"a" "b c" ""'),
            (16, b'\5\x01"\\\xff;'): (records.TXT((b'\x01"\\\xff;',)), '"\\001\\"\\\\\\255;"'),
            (16, b""): (records.TXT(()), ""),
            (6, name + b"\0" + bytes(3) + b"\1" + bytes(16)): (
                records.SOA("x.example.", ".", 1, 0, 0, 0, 0), "x.example. . 1 0 0 0 0",
            ),
            (257, b"\x80\5issueca.example"): (records.CAA(128, "issue", b"ca.example"), '128 issue "ca.example"'),
            (257, b"\0\x09issue"): (records.Unknown(b"\0\x09issue"), "\\# 7 00096973737565"),
            (257, b"\0"): (records.Unknown(b"\0"), "\\# 1 00"),
            (65, b"\0\1\0"): (records.Unknown(b"\0\1\0"), "\\# 3 000100"),
            (65280, b""): (records.Unknown(b""), "\\# 0"),
        }
        for (kind, data), (value, text) in wanted.items():
            with self.subTest(kind=kind, data=data):
                self.assertEqual((of(kind, data).data, str(of(kind, data).data)), (value, text))

    def test_record(self):
        self.assertEqual(str(of(65, b"\0\1\0")), "a. 60 IN HTTPS \\# 3 000100")
        self.assertEqual(str(of(65280, b"")), "a. 60 IN TYPE65280 \\# 0")
        # Addresses are of the class IN alone (RFC 1035, section 3.4.1).
        self.assertEqual(of(1, b"\0\1\2\3", rdclass=3).data, records.Unknown(b"\0\1\2\3"))
        self.assertEqual(of(1, b"", rdclass=254).class_, "NONE")

    def test_values(self):
        record = of(1, bytes([192, 0, 2, 1]))
        self.assertEqual({record: 1}[of(1, bytes([192, 0, 2, 1]))], 1)
        with self.assertRaises(AttributeError):
            record.ttl = 0

    def test_names(self):
        wanted = {
            b"\0": ".",
            b"\4*.a\\\0": "*\\.a\\\\.",
            b"\3a \xff\0": "a\\032\\255.",
            b"\5(a);@\0": "\\(a\\)\\;\\@.",
            b"\4_tcp\1A\0": "_tcp.A.",
        }
        for octets, text in wanted.items():
            self.assertEqual(records.read_name(octets, 0), (text, len(octets)))
        with self.assertRaises(ValueError):
            records.read_name(b"\1a\xc0\0", 2 + 0)

    def test_types(self):
        for word, number in (("A", 1), ("caa", 257), ("https", 65), ("TYPE0", 0), (65535, 65535)):
            self.assertEqual(records.type_number(word), number)
        for word in ("", "AB", "TYPE", "TYPE65536", "TYPE-1", -1, 65536):
            with self.assertRaises(ValueError, msg=repr(word)):
                records.type_number(word)


if __name__ == "__main__":
    unittest.main()
