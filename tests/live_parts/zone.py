"""The zone that the servers have, once as records."""

SOA = "example.test. 300 IN SOA ns.example.test. admin.example.test. 1 7200 900 1209600 240"
BIG = [letter * 200 for letter in "abcdefgh"]
RECORDS = [
    SOA,
    "www.example.test. 60 IN A 192.0.2.1",
    "www.example.test. 60 IN AAAA 2001:db8::1",
    "four.example.test. 60 IN A 192.0.2.4",
    "mail.example.test. 60 IN A 192.0.2.25",
    "alias.example.test. 60 IN CNAME www.example.test.",
    "second.example.test. 60 IN CNAME alias.example.test.",
    "third.example.test. 60 IN CNAME second.example.test.",
    "example.test. 60 IN MX 10 mail.example.test.",
    "example.test. 60 IN MX 20 backup.example.test.",
    'example.test. 60 IN TXT "v=spf1 -all" "two words"',
    "_imap._tcp.example.test. 60 IN SRV 10 5 143 mail.example.test.",
    "big.example.test. 60 IN TXT " + " ".join(f'"{text}"' for text in BIG),
]
# What is looked up, and its type, where one is named.
QUESTIONS = [
    ("www.example.test", "A"),
    ("www.example.test", "AAAA"),
    ("www.example.test", None),
    ("four.example.test", None),
    ("alias.example.test", "A"),
    ("third.example.test", "AAAA"),
    ("third.example.test", None),
    ("third.example.test", "CNAME"),
    ("example.test", "MX"),
    ("example.test", "TXT"),
    ("_imap._tcp.example.test", "SRV"),
    ("big.example.test", "TXT"),
    ("nowhere.example.test", "A"),
    ("www.example.test", "MX"),
    ("nowhere.example.test", None),
]
