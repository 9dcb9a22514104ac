#!/usr/bin/env python3
"""Exports of validators and local exceptions (RFC 8416) by rows: files as validators write them, a file of each fault, and the results on sets.

usage: tests/file_rows.py TESTS

TESTS is the program of crates/export_tests, whose tests `export_cases::outcomes` and `slurm_cases::outcomes` print the result of each
case in a file. tests/exports.py and tests/exceptions.py make such cases at random. It exits with 1 if a result differs, and prints the
case."""
import json
import os
import sys
import tempfile

import exceptions
import exports

NOW = exports.NOW

# ---- exports: texts that cannot be read, and what is printed of the fault

NOT_JSON = [
    '',
    '{"roas":[]',
    '{"roas":[]}]',
    '{"roas":[{"asn":1,"prefix":"10.0.0.0/8","maxLength":8}',
    '{"roas":[{"asn":"AS-1"}]} x',
    '{"roas":[],}',
    '{"x":1e999,"roas":[]}',
    '{"roas":[],"roas":[]} x',
    b'\xff{"roas":[]}',
    '\x00',
    '\x00{"roas":[]}',
    128 * "[",
]

NO_EXPORTS = [
    '7',
    'null',
    '{}',
    '{"roas":{}}',
    '{"roas":"[]"}',
    '[7]',
    '[{"asn":"AS1","prefix":"10.0.0.0/8","maxLength":8}]',
    '[{"asn":1,"prefix":"10.0.0.0/8","maxLength":8,"ta":""}]',
    '[{"asn":1,"prefix":"::ffff:0.0.0.0/96","maxLength":96}]',
]

# Names that are read and repeated: in the export, in the metadata, in an entry; before an entry that cannot be read, and if there are no
# `roas`. The last three are of arrays that are counted.
REPEATED = [
    '{"roas":[],"roas":[]}',
    '{"roas":[],"ro\\u0061s":7}',
    '{"metadata":{},"roas":[],"metadata":7}',
    '{"metadata":{"generated":1,"generated":1},"roas":[]}',
    '{"roas":[],"metadata":{"buildtime":1,"x":2,"buildtime":""}}',
    '{"roas":[{"asn":1,"prefix":"10.0.0.0/8","maxLength":8,"asn":1}]}',
    '{"roas":[{"asn":1,"prefix":"10.0.0.0/8","prefix":"10.0.0.0/8","maxLength":8}]}',
    '{"roas":[7,{"maxLength":1,"maxLength":null}]}',
    '{"roas":[{},{"expires":1,"expires":1},{}]}',
    '{"metadata":{},"metadata":{}}',
    '{"roas":{},"roas":[{"asn":1}]}',
    '{"aspas":[],"roas":[],"aspas":7}',
    '{"bgpsec_keys":[],"bgpsec_keys":[]}',
    '{"roas":[7],"routerKeys":[],"routerKeys":[1]}',
]

# Values of `asn` that are no AS number, and some that are one.
NO_ASNS = ['"AS-1"', '"AS4294967296"', '"AS 1"', '"as1"', '"AS064496"', '"AS"', '""', '"+1"', '"ASAS1"', '4294967296', '-1', '1.5', 'null', '[]']
ASNS = ['"AS4294967295"', '"AS0"', '"0"', '4294967295', '0']

# Entries, and which of `exports.WHAT` is reported of each.
ENTRIES = [
    ('[]', 0),
    ('{}', 1),
    ('{"asn":"x","prefix":"x","maxLength":"x","expires":"x"}', 1),
    ('{"asn":1,"prefix":"10.0.0.1/8","maxLength":7}', 2),
    ('{"asn":1,"prefix":"10.0.0.0/33","maxLength":33}', 2),
    ('{"asn":1,"prefix":"10.0.0.0","maxLength":8}', 2),
    ('{"asn":1,"prefix":"::ffff:192.0.2.1/120","maxLength":120}', 2),
    ('{"asn":1,"maxLength":8}', 2),
    ('{"asn":1,"prefix":"10.0.0.0/8","maxLength":7,"expires":"1"}', 3),
    ('{"asn":1,"prefix":"10.0.0.0/8","maxLength":33}', 3),
    ('{"asn":1,"prefix":"10.0.0.0/8","maxLength":"8"}', 3),
    ('{"asn":1,"prefix":"10.0.0.0/8"}', 3),
    ('{"asn":1,"prefix":"10.0.0.0/8","maxLength":8,"expires":"1700000001"}', 4),
    ('{"asn":1,"prefix":"10.0.0.0/8","maxLength":8,"expires":-1}', 4),
    ('{"asn":1,"prefix":"10.0.0.0/8","maxLength":8,"expires":null}', 4),
    ('{"asn":1,"prefix":"10.0.0.0/8","maxLength":7,"expires":1}', 3),
]

# Texts, and the fault of each in words.
FAULT_TEXTS = [
    ('{\n  "roas": [,]}', 'not JSON at line 2, column 12 (fault 1)'),
    ('{"roas":[]}]', 'not JSON at line 1, column 12 (fault 1)'),
    ('[}', 'not JSON at line 1, column 2 (fault 1)'),
    ('{"roas":[] 7}', 'not JSON at line 1, column 12 (fault 1)'),
    ('{"roas":[]', 'not JSON at line 1, column 11 (fault 1)'),
    ('[\n[1,]\n]', 'not JSON at line 2, column 4 (fault 1)'),
    ('["asn":1]', 'not JSON at line 1, column 2 (fault 1)'),
    ('{1}', 'not JSON at line 1, column 2 (fault 1)'),
    ('{"asn"}', 'not JSON at line 1, column 2 (fault 1)'),
    ('[1 2]', 'not JSON at line 1, column 4 (fault 1)'),
    ('[] []', 'not JSON at line 1, column 4 (fault 1)'),
    ('', 'not JSON at line 1, column 1 (fault 1)'),
    (b'{"roas":[\n\xff]}', 'not UTF-8 at line 2, column 1 (fault 1)'),
    ('{"x":1e999,"roas":[]}', 'not JSON at line 1, column 6: the number 1e999 is too large (fault 1)'),
    ('7', 'neither a payload list nor an object with an array roas: it is neither an array nor an object (fault 2)'),
    ('{"roa":[]}', 'neither a payload list nor an object with an array roas: roas is missing (fault 2)'),
    ('{"roas":{"asn":[1]}}', 'neither a payload list nor an object with an array roas: roas is an object (fault 2)'),
    ('{"roas":null}', 'neither a payload list nor an object with an array roas: roas is null (fault 2)'),
    ('{"roas":"x"}', 'neither a payload list nor an object with an array roas: roas is "x" (fault 2)'),
    ('[{"asn":1,"prefix":"10.0.0.0/8","maxLength":8},7]', 'neither a payload list nor an object with an array roas: entry 1: 7 is not an object (fault 2)'),
    ('[{"asn":1,"prefix":"10.0.0.0/8","maxLength":8,"ta":"ripe"}]', 'neither a payload list nor an object with an array roas: entry 0: unknown member "ta" (fault 2)'),
    ('[{"asn":"AS1","prefix":"10.0.0.0/8","maxLength":8}]', 'neither a payload list nor an object with an array roas: entry 0: asn "AS1" is a string, must be a number (fault 2)'),
    ('[{"asn":1,"prefix":"10.0.0.0/8"}]', 'neither a payload list nor an object with an array roas: entry 0: maxLength is missing (fault 2)'),
    ('{"roas":[],"roas":[]}', 'roas is repeated in the file (fault 6)'),
    ('{"metadata":{"generated":1,"generated":2},"roas":[]}', 'generated is repeated in metadata (fault 6)'),
    ('{"roas":[{"ta":1,"ta":2},{"expires":1,"expires":2}],"metadata":{"buildtime":1,"buildtime":1}}', 'expires is repeated in entry 1 of roas (fault 6)'),
    ('{"roas":7,"x":[],"metadata":{"buildtime":1,"generated":2,"buildtime":1},"roas":[]}', 'buildtime is repeated in metadata (fault 6)'),
    ('{"roas":[7,[]],"metadata":[],"metadata":1}', 'metadata is repeated in the file (fault 6)'),
    ('{"aspas":[],"roas":[],"aspas":[]}', 'aspas is repeated in the file (fault 6)'),
    ('{"bgpsec_keys":7,"bgpsec_keys":[1],"roas":7}', 'bgpsec_keys is repeated in the file (fault 6)'),
    ('{"roas":[],"routerKeys":[],"router\\u004beys":[]}', 'routerKeys is repeated in the file (fault 6)'),
    (b'\x1f\x8b\x08\x00', 'not JSON: it is compressed by gzip, decompress it first (fault 1)'),
    (b'\xef\xbb\xbf{"roas":[]}', 'not JSON: it begins with a byte order mark, save it without one (fault 1)'),
    (b'\xfe\xff\x00{\x00}', 'not JSON: it is UTF-16, save it as UTF-8 without a byte order mark (fault 1)'),
    (b'\xff\xfe{\x00}\x00', 'not JSON: it is UTF-16, save it as UTF-8 without a byte order mark (fault 1)'),
    ('\x00\x00', 'not JSON: it begins with a zero byte (fault 1)'),
    ('\x1f', 'not JSON at line 1, column 1 (fault 1)'),
]

# Entries that cannot be read, and the fault in words of an export in which each is the second.
ENTRY_TEXTS = [
    ('7', 'entry 1 of roas: 7 is not an object (fault 3)'),
    ('[]', 'entry 1 of roas: an array is not an object (fault 3)'),
    ('{}', 'entry 1 of roas: asn is missing (fault 3)'),
    ('{"asn":"64496x"}', 'entry 1 of roas: asn "64496x" is not an AS number (fault 3)'),
    ('{"asn":4294967296}', 'entry 1 of roas: asn 4294967296 is not an AS number (fault 3)'),
    ('{"asn":1,"prefix":"::ffff:0:0/96x"}', 'entry 1 of roas: prefix "::ffff:0:0/96x" is not a prefix (fault 3)'),
    ('{"asn":1,"prefix":"192.0.2.1/24","maxLength":24}', 'entry 1 of roas: prefix "192.0.2.1/24" has host bits set (fault 3)'),
    ('{"asn":1,"prefix":"2001:db8::1/32"}', 'entry 1 of roas: prefix "2001:db8::1/32" has host bits set (fault 3)'),
    ('{"asn":1,"prefix":"192.0.2.0/33"}', 'entry 1 of roas: prefix "192.0.2.0/33" is longer than 32 (IPv4) or 128 (IPv6) bits (fault 3)'),
    ('{"asn":1,"prefix":24}', 'entry 1 of roas: prefix 24 is not a prefix (fault 3)'),
    ('{"asn":1,"prefix":"10.0.0.0/8","maxLength":"24"}', 'entry 1 of roas: maxLength "24" is a string, must be a number (fault 3)'),
    ('{"asn":1,"prefix":"10.0.0.0/8","maxLength":null}', 'entry 1 of roas: maxLength null is not a number (fault 3)'),
    ('{"asn":1,"prefix":"10.0.0.0/8","maxLength":33}', 'entry 1 of roas: maxLength 33 is not from the prefix length to 32 (IPv4) or 128 (IPv6) (fault 3)'),
    ('{"asn":1,"prefix":"10.0.0.0/8","maxLength":8,"expires":"soon\\u0007"}', 'entry 1 of roas: expires "soon\\u0007" is not a whole number of seconds (fault 3)'),
    ('{"asn":1,"asn":1,"prefix":"10.0.0.0/8","maxLength":8}', 'asn is repeated in entry 1 of roas (fault 6)'),
]

# Texts of prefixes, and how the prefix is written.
PREFIXES = [
    ('0:0:0:0:0:0:13.1.68.3/128', '::d01:4403/128'),
    ('0:0:0:0:0:FFFF:129.144.52.38/128', '::ffff:8190:3426/128'),
    ('::13.1.68.3/128', '::d01:4403/128'),
    ('::FFFF:129.144.52.38/128', '::ffff:8190:3426/128'),
    ('::ffff:0.0.0.0/96', '::ffff:0:0/96'),
    ('64:ff9b::192.0.2.0/120', '64:ff9b::c000:200/120'),
    ('1:2:3:4:5::10.0.0.0/104', '1:2:3:4:5:0:a00:0/104'),
    ('1::6:255.255.255.255/128', '1::6:ffff:ffff/128'),
    ('::0.0.0.0/0', '::/0'),
    ("192.0.2.0/24", "192.0.2.0/24"),
    ("2001:DB8::/32", "2001:db8::/32"),
]

# Texts of no prefixes, and why.
BAD, LONG, BITS = "is not a prefix", "is longer than 32 (IPv4) or 128 (IPv6) bits", "has host bits set"
NO_PREFIXES = [
    ('1:2:3:4:5:6::10.0.0.0/128', BAD),
    ('1:2:3:4:5:10.0.0.0/128', BAD),
    ('1:2:3:4:5:6:7:10.0.0.0/128', BAD),
    ('::192.0.02.0/120', BAD),
    ('::192.0.256.0/120', BAD),
    ('::192.0.2/120', BAD),
    ('::192.0.2.0:1/120', BAD),
    ('192.0.2.0::/120', BAD),
    ('::192.0.2.0', BAD),
    ('::192.0.2.0/0120', BAD),
    ('::192.0.2.0/1000', BAD),
    ('::ffff:192.0.2.1/129', LONG),
    ('::ffff:192.0.2.1/127', BITS),
    ('192.0.2.1/24', BITS),
    ('192.0.2.0/33', LONG),
    ('2001:db8::1/127', BITS),
    ('::/129', LONG),
    ('192.0.02.0/24', BAD),
    ('', BAD),
    ('/', BAD),
    ('::', BAD),
]

# Texts of AS numbers, and the numbers. Texts of no AS number.
NUMBERS = [('0', 0), ('AS0', 0), ('64496', 64496), ('AS64496', 64496), ('4294967295', 4294967295), ('AS4294967295', 4294967295)]
NO_NUMBERS = ['', 'AS', 'as64496', 'ASAS64496', 'AS 64496', '064496', 'AS064496', '+64496', '1.10', '4294967296', 'AS4294967296']

# ---- exports as validators and RTR tools write them

LAST = 2**64 - 1

# The list of the two records that all these files have.
TWO = '[{"asn":64496,"maxLength":24,"prefix":"192.0.2.0/24"},{"asn":64497,"maxLength":48,"prefix":"2001:db8::/32"}]'

RPKI_CLIENT = r"""{
  "metadata": {
    "buildmachine": "validator.example.net",
    "buildtime": "2023-11-14T22:10:00Z",
    "elapsedtime": 123,
    "vrps": 3,
    "nonfunc_cas": []
  },

  "roas": [
    { "asn": 64496, "prefix": "192.0.2.0/24", "maxLength": 24, "ta": "ripe", "expires": 1700050000 },
    { "asn": 64498, "prefix": "198.51.100.0/24", "maxLength": 24, "ta": "arin", "expires": 1699999999 },
    { "asn": 64497, "prefix": "2001:db8::/32", "maxLength": 48, "ta": "apnic", "expires": 1700050000 }
  ],

  "bgpsec_keys": [
    { "asn": 64496, "ski": "00", "pubkey": "MFkw", "ta": "ripe", "expires": 1700050000 }
  ],

  "aspas": [
    { "customer_asid": 64496, "expires": 1700050000, "providers": [ 64497, 64498 ] }
  ]
}
"""

ROUTINATOR = r"""{
  "metadata": {
    "generated": 1699999900,
    "generatedTime": "2023-11-14T22:11:40Z"
  },
  "roas": [
    { "asn": "AS64496", "prefix": "192.0.2.0/24", "maxLength": 24, "ta": "ripe" },
    { "asn": "AS64497", "prefix": "2001:db8::/32", "maxLength": 48, "ta": "apnic" }
  ]
}
"""

FORT = r"""{ "roas" : [
{ "asn" : "AS64496", "prefix" : "192.0.2.0/24", "maxLength" : 24 },
{ "asn" : "AS64497", "prefix" : "2001:db8::/32", "maxLength" : 48 }
],
"router-keys" : [ ] }
"""

STAYRTR = '{"metadata":{"vrps":2,"buildtime":"2023-11-14T22:10:00Z"},"roas":[{"prefix":"192.0.2.0/24","maxLength":24,"asn":64496,"ta":"ripe","expires":1700050000},{"prefix":"2001:db8::/32","maxLength":48,"asn":"AS64497"}],"bgpsec_keys":null}'

RTRDUMP = '{"metadata":{"vrps":2,"generated":1699999900,"buildtime":"2023-11-14T22:10:00Z","sessionid":7,"serial":1},"roas":[{"prefix":"192.0.2.0/24","maxLength":24,"asn":64496},{"prefix":"2001:db8::/32","maxLength":48,"asn":64497}]}'

ENDS = r"""{"metadata":{"generated":1700000000},"roas":[
        {"asn":1,"prefix":"10.0.0.0/8","maxLength":8,"expires":1700000007},
        {"asn":2,"prefix":"10.0.0.0/8","maxLength":8,"expires":1700000000},
        {"asn":3,"prefix":"10.0.0.0/8","maxLength":8},
        {"asn":4,"prefix":"10.0.0.0/8","maxLength":8,"expires":1700000003},
        {"asn":5,"prefix":"10.0.0.0/8","maxLength":8,"expires":1},
        {"asn":6,"prefix":"10.0.0.0/8","maxLength":8,"expires":1700000005}]}"""

# Moments, the AS numbers of the records that count then, how many have expired, and when the next one does.
UNTIL = [
    (0, [1, 2, 3, 4, 5, 6], 0, 1),
    (1, [1, 2, 3, 4, 6], 1, NOW),
    (NOW - 1, [1, 2, 3, 4, 6], 1, NOW),
    (NOW, [1, 3, 4, 6], 2, NOW + 3),
    (NOW + 2, [1, 3, 4, 6], 2, NOW + 3),
    (NOW + 3, [1, 3, 6], 3, NOW + 5),
    (NOW + 6, [1, 3], 4, NOW + 7),
    (NOW + 7, [3], 5, "-"),
]

# Four records; those of AS 2 and AS 3 have two entries each.
TWICE = r"""{"roas":[
    {"asn":3,"prefix":"10.0.0.0/8","maxLength":8},
    {"asn":2,"prefix":"10.0.0.0/8","maxLength":8,"expires":1700000002},
    {"asn":1,"prefix":"10.0.0.0/8","maxLength":8,"expires":1700000009},
    {"asn":2,"prefix":"10.0.0.0/8","maxLength":8,"expires":1700000005},
    {"asn":3,"prefix":"10.0.0.0/8","maxLength":8,"expires":1700000001},
    {"asn":4,"prefix":"10.0.0.0/8","maxLength":8,"expires":1700000000}]}"""

# The last seconds of its records.
LASTS = {1: NOW + 8, 2: NOW + 4, 3: LAST, 4: NOW - 1}

# In an entry of a payload list the last member of a name is read. In an object a member that is not read may be a number in any form, or a
# deeply nested value.
LISTS = [
    r"""[{"asn":64496,"prefix":"192.0.2.0/24","maxLength":24},
    {"asn":64497,"prefix":"2001:db8::/32","maxLength":48}]""",
    r"""[{"asn":1,"asn":64496,"prefix":"10.0.0.0/8","prefix":"192.0.2.0/24","maxLength":24},
    {"asn":64497,"prefix":"2001:db8::/32","maxLength":1,"maxLength":48}]""",
    r"""{"metadata":{"elapsed":1.5},"roas":[{"asn":"64496","prefix":"192.0.2.0/24","maxLength":24,"x":-1},
    {"asn":64497,"prefix":"2001:db8::/32","maxLength":48}]}""",
    r"""{"x":[[[[[[[[[[[[[[[[[[[[]]]]]]]]]]]]]]]]]]]],"roas":[{"asn":"64496","prefix":"192.0.2.0/24","maxLength":24},
    {"asn":64497,"prefix":"2001:db8::/32","maxLength":48}]}""",
]

# A name that is not read may be there twice, also within what is not read.
NOT_READ_TWICE = r"""{"x":{"roas":1,"roas":2},"asn":1,"asn":2,"metadata":{"generated":2,"roas":[],"roas":[],"x":{"generated":1,"generated":1}},"x":1,"roas":[
    {"asn":"AS64496","prefix":"192.0.2.0/24","ta":"a","maxLength":24,"ta":"b"},
    {"roas":1,"roas":2,"asn":64497,"prefix":"2001:db8::/32","maxLength":48,"expires":1700000001,"x":{"asn":1,"asn":2}}]}"""

# IPv6 addresses in mixed notation, as rpki-client and FORT write them, and the list of them.
MIXED = r"""{"roas":[{"asn":1,"prefix":"::ffff:0.0.0.0/96","maxLength":96},
    {"asn":2,"prefix":"64:ff9b::192.0.2.0/120","maxLength":128},
    {"asn":3,"prefix":"::10.0.0.0/104","maxLength":104}]}"""

MIXED_LIST = '[{"asn":3,"maxLength":104,"prefix":"::a00:0/104"},{"asn":1,"maxLength":96,"prefix":"::ffff:0:0/96"},{"asn":2,"maxLength":128,"prefix":"64:ff9b::c000:200/120"}]'

# JSON of counted arrays: how many ASPAs and how many router keys are not served.
IGNORED = [
    ('[]', 0, 0),
    ('{"roas":[]}', 0, 0),
    ('{"roas":[],"aspas":[],"bgpsec_keys":[],"routerKeys":[]}', 0, 0),
    ('{"aspas":[{"customer_asid":1,"providers":[2,3]}],"roas":[]}', 1, 0),
    ('{"roas":[],"aspas":[{"aspas":[1,2,3]},[7,[]]]}', 2, 0),
    ('{"roas":[],"bgpsec_keys":[{"asn":1}]}', 0, 1),
    ('{"bgpsec_keys":[{},{}],"roas":[]}', 0, 2),
    ('{"roas":[],"routerKeys":[{"asn":"AS1"}]}', 0, 1),
    ('{"routerKeys":[1,2],"roas":[],"bgpsec_keys":[3],"nonfunc_cas":[4],"aspas":[5]}', 1, 3),
    ('{"roas":[],"aspas":{"ipv4":[1]},"bgpsec_keys":null,"routerKeys":"x"}', 0, 0),
    ('{"roas":[],"metadata":{"aspas":[1,2]},"x":[[1,2]]}', 0, 0),
]

# Metadata, and when the export was made.
MADE = [
    ('{"buildtime":"1970-01-01T00:00:00Z"}', 0),
    ('{"buildtime":"2024-02-29T23:59:59Z"}', 1709251199),
    ('{"buildtime":"2023-02-29T23:59:59Z"}', None),
    ('{"buildtime":"1969-12-31T23:59:59Z"}', None),
    ('{"buildtime":"2024-02-29 23:59:59Z"}', None),
    ('{"buildtime":"2024-02-29T23:59:59+00:00"}', None),
    ('{"buildtime":1709251199}', None),
    ('{"generated":"7","buildtime":"1970-01-01T00:00:01Z"}', 1),
    ('{"generated":7,"buildtime":"1970-01-01T00:00:01Z"}', 7),
    ('{"generated":7.5}', None),
    ('[]', None),
    ('7', None),
]

# ---- local exceptions: texts that are no SLURM file, and the fault

SLURM_FILES = [
    ('', 'fault 1: not JSON (fault 1)'),
    ('{', 'fault 1: not JSON (fault 1)'),
    ('\x00{}', 'fault 1: not JSON (fault 1)'),
    ('{} {}', 'fault 1: not JSON (fault 1)'),
    ('{"a":1,"a":2', 'fault 1: not JSON (fault 1)'),
    ('{"a":1,"a":2}', 'fault 8: a name is repeated in an object (fault 8)'),
    ('[{"a":1,"\\u0061":1}]', 'fault 8: a name is repeated in an object (fault 8)'),
    ('[]', 'fault 2: the file is not an object of exactly its members (fault 2)'),
    ('{}', 'fault 2: the file is not an object of exactly its members (fault 2)'),
    ('{"slurmVersion":1,"validationOutputFilters":{},"locallyAddedAssertions":{},"more":1}', 'fault 2: the file is not an object of exactly its members (fault 2)'),
    ('{"slurmVersion":2,"validationOutputFilters":{},"locallyAddedAssertions":{}}', 'fault 3: slurmVersion is not 1 (fault 3)'),
    ('{"slurmVersion":"1","validationOutputFilters":{},"locallyAddedAssertions":{}}', 'fault 3: slurmVersion is not 1 (fault 3)'),
    ('{"slurmVersion":1,"validationOutputFilters":[],"locallyAddedAssertions":{}}', 'fault 2: validationOutputFilters is not an object of exactly its members (fault 2)'),
    ('{"slurmVersion":1,"validationOutputFilters":{"prefixFilters":1,"bgpsecFilters":2},"locallyAddedAssertions":{"prefixAssertions":3}}', 'fault 2: locallyAddedAssertions is not an object of exactly its members (fault 2)'),
]

# The four arrays of a file, and its fault.
SLURM_ENTRIES = [
    (['1', '2', '3', '4'], 'fault 4: prefixFilters is not an array (fault 4)'),
    (['[]', '2', '3', '4'], 'fault 4: bgpsecFilters is not an array (fault 4)'),
    (['[1]', '[]', '{}', '4'], 'fault 4: prefixAssertions is not an array (fault 4)'),
    (['[]', '[]', '[]', 'null'], 'fault 4: bgpsecAssertions is not an array (fault 4)'),
    (['[{"asn":1},7]', '[7]', '[7]', '[7]'], 'fault 5: prefixFilters[1]: not an object (fault 5)'),
    (['[{"asn":1,"asn":1}]', '2', '3', '4'], 'fault 8: a name is repeated in an object (fault 8)'),
    (['[]', '[]', '[]', '[{"SKI":"Zm9v","asn":1,"SKI":"Zm9v"}]'], 'fault 8: a name is repeated in an object (fault 8)'),
    (['[{"asn":1,"more":1}]', '[]', '[]', '[]'], 'fault 5: prefixFilters[0]: a key that is not known (fault 5)'),
    (['[{"comment":"all"}]', '[]', '[]', '[]'], 'fault 5: prefixFilters[0]: neither prefix nor asn (fault 5)'),
    (['[{"asn":"64496"}]', '[]', '[]', '[]'], 'fault 5: prefixFilters[0]: asn is not an AS number (fault 5)'),
    (['[{"asn":-1}]', '[]', '[]', '[]'], 'fault 5: prefixFilters[0]: asn is not an AS number (fault 5)'),
    (['[{"asn":4294967295},{"asn":4294967296,"prefix":1}]', '[]', '[]', '[]'], 'fault 5: prefixFilters[1]: asn is not an AS number (fault 5)'),
    (['[{"asn":1,"comment":2,"prefix":3}]', '[]', '[]', '[]'], 'fault 5: prefixFilters[0]: comment is not a string (fault 5)'),
    (['[{"prefix":"192.0.2.1/24"}]', '[]', '[]', '[]'], 'fault 5: prefixFilters[0]: prefix is not a prefix (fault 5)'),
    (['[{"prefix":"::ffff:192.0.2.1/120"}]', '[]', '[]', '[]'], 'fault 5: prefixFilters[0]: prefix is not a prefix (fault 5)'),
    (['[]', '[{"asn":1},{"SKI":"Zm9v"},[]]', '[7]', '[7]'], 'fault 5: bgpsecFilters[2]: not an object (fault 5)'),
    (['[]', '[]', '[{"prefix":"192.0.2.0/24"}]', '[7]'], 'fault 5: prefixAssertions[0]: asn is not an AS number (fault 5)'),
    (['[]', '[]', '[{"asn":1}]', '[]'], 'fault 5: prefixAssertions[0]: prefix is not a prefix (fault 5)'),
    (['[]', '[]', '[{"asn":1,"prefix":"192.0.2.0/24","maxPrefixLength":23}]', '[]'], 'fault 5: prefixAssertions[0]: maxPrefixLength is not a maximum length of the prefix (fault 5)'),
    (['[]', '[]', '[{"asn":1,"prefix":"192.0.2.0/24","maxPrefixLength":33}]', '[]'], 'fault 5: prefixAssertions[0]: maxPrefixLength is not a maximum length of the prefix (fault 5)'),
    (['[]', '[]', '[{"asn":1,"prefix":"192.0.2.0/24","maxPrefixLength":"24"}]', '[]'], 'fault 5: prefixAssertions[0]: maxPrefixLength is not a maximum length of the prefix (fault 5)'),
    (['[]', '[]', '[{"asn":1,"prefix":"192.0.2.0/24","maxLength":24}]', '[]'], 'fault 5: prefixAssertions[0]: a key that is not known (fault 5)'),
    (['[]', '[]', '[]', '["SKI"]'], 'fault 5: bgpsecAssertions[0]: not an object (fault 5)'),
    (['[]', '[{"asn":1},{"comment":"all"}]', '[7]', '[7]'], 'fault 5: bgpsecFilters[1]: neither SKI nor asn (fault 5)'),
    (['[]', '[{"asn":1,"prefix":"192.0.2.0/24"}]', '[7]', '[7]'], 'fault 5: bgpsecFilters[0]: a key that is not known (fault 5)'),
    (['[]', '[{"SKI":"Zm9v"},{"SKI":7}]', '[7]', '[7]'], 'fault 5: bgpsecFilters[1]: SKI is not a string (fault 5)'),
    (['[]', '[{"SKI":7,"asn":1,"comment":2}]', '[7]', '[7]'], 'fault 5: bgpsecFilters[0]: comment is not a string (fault 5)'),
    (['[]', '[{"SKI":7,"asn":4294967296}]', '[7]', '[7]'], 'fault 5: bgpsecFilters[0]: asn is not an AS number (fault 5)'),
    (['[]', '[]', '[]', '[{"SKI":"Zm9v","routerPublicKey":"YmFy"}]'], 'fault 5: bgpsecAssertions[0]: asn is not an AS number (fault 5)'),
    (['[]', '[]', '[]', '[{"asn":1,"routerPublicKey":"YmFy"}]'], 'fault 5: bgpsecAssertions[0]: SKI is not a string (fault 5)'),
    (['[]', '[]', '[]', '[{"asn":1,"SKI":"Zm9v"}]'], 'fault 5: bgpsecAssertions[0]: routerPublicKey is not a string (fault 5)'),
    (['[]', '[]', '[]', '[{"asn":1,"SKI":"Zm9v","routerPublicKey":"YmFy","comment":""},{"asn":1,"SKI":"Zm9v","routerPublicKey":"YmFy","prefix":1}]'], 'fault 5: bgpsecAssertions[1]: a key that is not known (fault 5)'),
]

# Texts, and the fault of each in words.
SLURM_TEXTS = [
    ('{\n  "slurmVersion": 1,\n  }', 'not JSON at line 3, column 3 (fault 1)'),
    ('7', 'the file is 7, must be an object (fault 2)'),
    ('{"slurmVersion":1,"validationOutputFilters":{}}', 'the file has no member locallyAddedAssertions (fault 2)'),
    ('{"slurmVersion":1,"validationOutputFilters":{},"locallyAddedAssertions":{},"mo\\u0007re":1}', 'the file has the unknown member "mo\\u0007re" (fault 2)'),
    ('{"slurmVersion":2,"validationOutputFilters":{},"locallyAddedAssertions":{}}', 'slurmVersion is 2, must be 1: version 2 (ASPA) is not served (fault 3)'),
    ('{"slurmVersion":"1","validationOutputFilters":{},"locallyAddedAssertions":{}}', 'slurmVersion is "1", must be 1 (fault 3)'),
    ('\ufeff{}', 'not JSON: it begins with a byte order mark, save it without one (fault 1)'),
    ('{"slurmVersion":1,"validationOutputFilters":{"prefixFilters":[]},"locallyAddedAssertions":{}}', 'validationOutputFilters has no member bgpsecFilters (fault 2)'),
    ('{"slurmVersion":1,"slurmVersion":1}', '"slurmVersion" is repeated in the file (fault 8)'),
    ('{"validationOutputFilters":{"prefixFilters":[{"asn":64496}],"prefixFilters":[]}}', '"prefixFilters" is repeated in validationOutputFilters (fault 8)'),
]

# The four arrays of a file, and its fault in words.
SLURM_ENTRY_TEXTS = [
    (['{"asn":1}', '[]', '[]', '[]'], 'prefixFilters is {"asn":1}, must be an array (fault 4)'),
    (['[{"asn":1},7]', '[]', '[]', '[]'], 'prefixFilters[1]: 7 is not an object (fault 5)'),
    (['[{"asn":1,"more":1}]', '[]', '[]', '[]'], 'prefixFilters[0]: unknown member "more" (fault 5)'),
    (['[]', '[{"comment":"all"}]', '[]', '[]'], 'bgpsecFilters[0]: neither SKI nor asn (fault 5)'),
    (['[{"asn":"64496"}]', '[]', '[]', '[]'], 'prefixFilters[0]: asn "64496" is a string, must be a number (fault 5)'),
    (['[{"prefix":"192.0.2.1/24"}]', '[]', '[]', '[]'], 'prefixFilters[0]: prefix "192.0.2.1/24" has host bits set (fault 5)'),
    (['[]', '[{"SKI":7}]', '[]', '[]'], 'bgpsecFilters[0]: SKI 7 is not a string (fault 5)'),
    (['[]', '[]', '[{"asn":1,"prefix":"192.0.2.0/24","maxPrefixLength":"24"}]', '[]'], 'prefixAssertions[0]: maxPrefixLength "24" is a string, must be a number (fault 5)'),
    (['[]', '[]', '[{"asn":1,"prefix":"::ffff:0:0/96x"}]', '[]'], 'prefixAssertions[0]: prefix "::ffff:0:0/96x" is not a prefix (fault 5)'),
    (['[]', '[]', '[{"asn":1}]', '[]'], 'prefixAssertions[0]: prefix is missing (fault 5)'),
    (['[]', '[]', '[{"asn":1,"prefix":"012345678901234567890123456789012345678901234567890123456789012345678901234567\\u00e9"}]', '[]'], 'prefixAssertions[0]: prefix "012345678901234567890123456789012345678901234567890123456789012345678901234567... is not a prefix (fault 5)'),
    (['[]', '[]', '[]', '[{"asn":1,"SKI":"Zm9v"}]'], 'bgpsecAssertions[0]: routerPublicKey is missing (fault 5)'),
    (['[]', '[]', '[{"asn":1,"prefix":"192.0.2.0/24"},{"asn":1,"prefix":"192.0.2.0/24","asn":2}]', '[]'], '"asn" is repeated in prefixAssertions[1] (fault 8)'),
]

# The four arrays of a file, and how many of its filters and assertions on router keys are not applied.
SLURM_IGNORED = [
    (['[{"asn":1}]', '[]', '[]', '[]'], 0, 0),
    (['[]', '[{"asn":1,"SKI":"Zm9v"}]', '[]', '[]'], 1, 0),
    (['[]', '[{"SKI":"Zm9v"},{"SKI":"Zm9v"}]', '[]', '[{"asn":1,"SKI":"Zm9v","routerPublicKey":"YmFy"}]'], 2, 1),
]

# ---- local exceptions: filters, assertions, a set, and its result

A = ('10.0.0.0/8', 8, 64496)
B = ('10.1.0.0/16', 24, 64497)
C = ('11.0.0.0/8', 8, 64497)
D = ('2001:db8::/32', 48, 64497)
APPLIED = [
    ('[]', '[]', [], []),
    ('[]', '[]', [A, B, C, D], [A, B, C, D]),
    ('[{"prefix":"10.0.0.0/8"}]', '[]', [A, B, C, D], [C, D]),
    ('[{"prefix":"10.1.0.0/16"}]', '[]', [A, B, C, D], [A, C, D]),
    ('[{"prefix":"::/0"}]', '[]', [A, B, C, D], [A, B, C]),
    ('[{"prefix":"0.0.0.0/0"}]', '[]', [A, B, C, D], [D]),
    ('[{"prefix":"::ffff:0.0.0.0/96"}]', '[{"asn":64496,"prefix":"64:ff9b::192.0.2.0/120"}]', [A, ('::ffff:c000:200/120', 128, 64496)], [A, ('64:ff9b::c000:200/120', 120, 64496)]),
    ('[{"asn":64497}]', '[]', [A, B, C, D], [A]),
    ('[{"asn":64497,"prefix":"10.0.0.0/8"}]', '[]', [A, B, C, D], [A, C, D]),
    ('[{"asn":64496,"prefix":"10.1.0.0/16"},{"asn":0},{"asn":64497,"prefix":"10.0.0.0/9"}]', '[]', [A, B, C, D], [A, C, D]),
    ('[{"prefix":"10.0.0.0/8"}]', '[{"asn":64496,"prefix":"10.0.0.0/8"}]', [A, B, C, D], [A, C, D]),
    ('[]', '[{"asn":64497,"prefix":"11.0.0.0/8"},{"asn":64496,"prefix":"10.0.0.0/8","maxPrefixLength":8}]', [B], [A, B, C]),
]

# The arrays of two files. Files of the first table overlap (RFC 8416 section 4.2), those of the second do not.
NOTHING = ["[]", "[]", "[]", "[]"]
FILTER = ['[{"prefix":"192.0.2.0/24"}]', "[]", "[]", "[]"]
OVERLAPPING = [
    (FILTER, FILTER),
    (['[{"prefix":"192.0.2.0/24","asn":1}]', '[]', '[]', '[]'], ['[{"prefix":"192.0.2.0/24","asn":2}]', '[]', '[]', '[]']),
    (FILTER, ['[{"prefix":"192.0.2.0/25"}]', '[]', '[]', '[]']),
    (FILTER, ['[{"prefix":"192.0.2.255/32"}]', '[]', '[]', '[]']),
    (FILTER, ['[{"prefix":"0.0.0.0/0"}]', '[]', '[]', '[]']),
    (FILTER, ['[]', '[]', '[{"asn":64496,"prefix":"192.0.2.0/25"}]', '[]']),
    (['[]', '[]', '[{"asn":64496,"prefix":"2001:db8::/32"}]', '[]'], ['[]', '[]', '[{"asn":64497,"prefix":"2001:db8:ffff::/48"}]', '[]']),
    (['[{"prefix":"10.0.0.0/8"},{"prefix":"10.1.0.0/16"},{"prefix":"10.1.1.0/24"}]', '[]', '[]', '[]'], ['[{"prefix":"10.2.0.0/16"}]', '[]', '[]', '[]']),
    (['[]', '[{"asn":64496}]', '[]', '[]'], ['[]', '[{"asn":64496,"SKI":"Zm9v"}]', '[]', '[]']),
    (['[]', '[{"asn":64496}]', '[]', '[]'], ['[]', '[]', '[]', '[{"asn":64496,"SKI":"Zm9v","routerPublicKey":"Zm9v"}]']),
    (['[]', '[]', '[]', '[{"asn":64496,"SKI":"Zm9v","routerPublicKey":"Zm9v"}]'], ['[]', '[]', '[]', '[{"asn":64496,"SKI":"YmFy","routerPublicKey":"Zm9v"}]']),
]
APART = [
    (NOTHING, NOTHING),
    (FILTER, NOTHING),
    (['[{"prefix":"192.0.2.0/25"}]', '[]', '[]', '[]'], ['[{"prefix":"192.0.2.128/25"}]', '[]', '[]', '[]']),
    (FILTER, ['[{"prefix":"192.0.1.255/32"},{"prefix":"192.0.3.0/24"}]', '[]', '[]', '[]']),
    (['[{"prefix":"0.0.0.0/0"}]', '[]', '[]', '[]'], ['[{"prefix":"::/0"}]', '[]', '[]', '[]']),
    (['[{"asn":64496}]', '[]', '[]', '[]'], ['[{"asn":64496}]', '[]', '[]', '[]']),
    (FILTER, ['[{"asn":64496}]', '[]', '[]', '[]']),
    (['[]', '[{"SKI":"Zm9v"}]', '[]', '[]'], ['[]', '[{"SKI":"Zm9v"}]', '[]', '[]']),
    (['[]', '[{"asn":64496}]', '[]', '[]'], ['[{"asn":64496}]', '[{"asn":64497}]', '[{"asn":64496,"prefix":"192.0.2.0/24"}]', '[]']),
    (['[{"prefix":"10.0.0.0/8"},{"prefix":"10.0.0.0/8"},{"prefix":"10.1.0.0/16"}]', '[{"asn":1},{"asn":1}]', '[{"asn":1,"prefix":"10.0.0.0/8"}]', '[{"asn":1,"SKI":"Zm9v","routerPublicKey":"Zm9v"}]'], ['[{"prefix":"11.0.0.0/8"}]', '[{"asn":2}]', '[]', '[]']),
]

OVERLAP_TEXTS = [
    ([FILTER, ['[{"prefix":"192.0.2.0/25"}]', "[]", "[]", "[]"]], "192.0.2.0/24 overlaps with 192.0.2.0/25 of another SLURM file (RFC 8416 section 4.2)"),
    ([['[{"prefix":"192.0.2.0/25"}]', "[]", "[]", "[]"], FILTER], "192.0.2.0/25 overlaps with 192.0.2.0/24 of another SLURM file (RFC 8416 section 4.2)"),
    (2 * [["[]", '[{"asn":64496}]', "[]", "[]"]], "BGPsec entries of AS64496 overlap with those of another SLURM file (RFC 8416 section 4.2)"),
]

# A file that is about nothing that the RFC's example is about. Two records that filters of the two files match, one that no filter matches,
# and the three assertions.
OTHER = ['[{"prefix":"203.0.113.0/24"}]', '[{"asn":64500}]', '[{"asn":64500,"prefix":"233.252.0.0/24"}]', "[]"]
BEFORE = [("192.0.2.0/25", 25, 64511), ("203.0.113.128/25", 25, 64511), ("100.64.0.0/10", 10, 64511)]
AFTER = [("100.64.0.0/10", 10, 64511), ("198.51.100.0/24", 24, 64496), ("2001:db8::/32", 48, 64496), ("233.252.0.0/24", 24, 64500)]


# ---- what a program prints of cases


class Case:
    """A text at a moment, and what has to be printed of it. It is what is listed, or a fault by its number, or in words, or both."""

    def __init__(self, text, listed=None, lasts=None, left=None, fault=None, words=None, now=NOW):
        self.text = text if isinstance(text, bytes) else text.encode()
        self.listed, self.lasts, self.left, self.fault, self.words, self.now = listed, lasts, left, fault, words, now

    def is_met(self, answer):
        listed, _, lasts = answer.rpartition(" ")
        fault, _, words = answer.partition(" | ")
        found = listed, lasts, listed.rpartition(" ")[2], fault, words
        return all(it in (None, one) for it, one in zip((self.listed, self.lasts, self.left, self.fault, self.words), found))


def of_entry(asn='"AS1"', prefix="10.0.0.0/8", length=8):
    return f'{{"roas":[{{"asn":{asn},"prefix":"{prefix}","maxLength":{length}}}]}}'


def second(entry):
    """An export with this second entry, and a third one that is none."""
    return f'{{"roas":[{{"asn":1,"prefix":"10.0.0.0/8","maxLength":8}},{entry},7]}}'


def of_record(asn, length, prefix):
    return f'0 - - 0 0 [{{"asn":{asn},"maxLength":{length},"prefix":"{prefix}"}}]'


def entry_fault(index, what):
    return f"fault 3: entry {index} of roas cannot be read: {exports.WHAT[what]} (fault 3)"


def faults():
    """Texts that are no exports."""
    yield from (Case(it, fault="fault 1: not JSON (fault 1)") for it in NOT_JSON)
    yield from (Case(it, fault="fault 2: neither a payload list nor an object with an array roas (fault 2)") for it in NO_EXPORTS)
    yield from (Case(it, fault="fault 6: a name that is read is repeated in an object (fault 6)") for it in REPEATED)
    yield from (Case(second(f'{{"asn":{it},"prefix":"10.0.0.0/8","maxLength":8}}'), fault=entry_fault(1, 1)) for it in NO_ASNS)
    yield from (Case(second(f'{{"asn":{it},"prefix":"10.0.0.0/8","maxLength":8}}'), fault=entry_fault(2, 0)) for it in ASNS)
    yield from (Case(second(it), fault=entry_fault(1, what)) for it, what in ENTRIES)
    yield from (Case(it, words=words) for it, words in FAULT_TEXTS)
    yield from (Case(second(it), words=words) for it, words in ENTRY_TEXTS)


def spelled():
    """Prefixes and AS numbers, as they are spelled in exports."""
    for text, written in PREFIXES:
        length = 128 if ":" in written else 32
        yield Case(of_entry(prefix=text, length=length), of_record(1, length, written))
    yield from (Case(of_entry(prefix=it), words=f'entry 0 of roas: prefix "{it}" {why} (fault 3)') for it, why in NO_PREFIXES)
    yield from (Case(of_entry(asn=f'"{it}"'), of_record(asn, 8, "10.0.0.0/8")) for it, asn in NUMBERS)
    yield from (Case(of_entry(asn=f'"{it}"'), words=f'entry 0 of roas: asn "{it}" is not an AS number (fault 3)') for it in NO_NUMBERS)


def files():
    """Files of the two records, and when they were made."""
    yield Case(RPKI_CLIENT, f"1 1699999800 1700050000 1 1 {TWO}")
    yield Case(ROUTINATOR, f"0 1699999900 - 0 0 {TWO}")
    yield Case(FORT, f"0 - - 0 0 {TWO}")
    yield Case(STAYRTR, f"0 1699999800 1700050000 0 0 {TWO}")
    yield Case(RTRDUMP, f"0 1699999900 - 0 0 {TWO}")
    yield from (Case(it, f"0 - - 0 0 {TWO}") for it in LISTS)
    yield Case(NOT_READ_TWICE, f"0 2 1700000001 0 0 {TWO}")
    yield Case(MIXED, f"0 - - 0 0 {MIXED_LIST}")
    yield from (Case(it, f"0 - - {aspas} {keys} []", "[]") for it, aspas, keys in IGNORED)
    yield from (Case(f'{{"metadata":{it},"roas":[]}}', f"0 {'-' if made is None else made} - 0 0 []") for it, made in MADE)


def records(asns):
    return "[" + ",".join(f'{{"asn":{it},"maxLength":8,"prefix":"10.0.0.0/8"}}' for it in asns) + "]"


def seconds(lasts):
    """The last seconds of records, as they are printed."""
    return "[" + "".join(f"{it}," for it in lasts) + "]"


def ending():
    """Exports whose records expire, at the moments around that."""
    expires = '{{"roas":[{{"asn":1,"prefix":"10.0.0.0/8","maxLength":8,"expires":{}}}]}}'
    for end in (NOW, LAST):
        yield Case(expires.format(end), f"0 - {end} 0 0 {records([1])}", seconds([end - 1]), now=end - 1)
        yield Case(expires.format(end), "1 - - 0 0 []", "[]", now=end)
    yield Case(expires.format(NOW), "1 - - 0 0 []", "[]", now=NOW + 1)
    yield Case('[{"asn":1,"prefix":"10.0.0.0/8","maxLength":8},{"asn":1,"prefix":"10.0.0.0/8","maxLength":8}]', f"0 - - 0 0 {records([1])}", seconds([LAST]))
    yield from (Case(ENDS, f"{expired} {NOW} {until} 0 0 {records(asns)}", now=now) for now, asns, expired, until in UNTIL)
    yield Case(TWICE, f"1 - {NOW + 1} 0 0 {records([1, 2, 3])}", seconds([NOW + 8, NOW + 4, LAST]))
    # (the records that count later are those whose last second is not over)
    for now in (*range(NOW - 3, NOW + 12), LAST):
        left = {asn: last for asn, last in LASTS.items() if now <= last}
        yield Case(TWICE, lasts=seconds(left.values()), left=records(left), now=now)


# ---- local exceptions


def slurm(arrays):
    filters, keys, assertions, added = arrays
    return f'{{"slurmVersion":1,"validationOutputFilters":{{"prefixFilters":{filters},"bgpsecFilters":{keys}}},"locallyAddedAssertions":{{"prefixAssertions":{assertions},"bgpsecAssertions":{added}}}}}'


def list_of(rows):
    return exceptions.list_of({(*exports.prefix_of(prefix), longest, asn) for prefix, longest, asn in rows})


class Exceptions(Case):
    """The arrays or the texts of one or two files on a list of rows."""

    def __init__(self, files, rows=(), whole=None, begin="", **wanted):
        super().__init__("", **wanted)
        self.files, self.rows, self.whole, self.begin = [(slurm(it) if isinstance(it, list) else it).encode() for it in files], list_of(rows), whole, begin

    def is_met(self, answer):
        return self.whole in (None, answer) and answer.startswith(self.begin) and super().is_met(answer)


def misread():
    """Texts that are no SLURM files."""
    yield from (Exceptions([it], fault=fault) for it, fault in SLURM_FILES + SLURM_ENTRIES)
    yield from (Exceptions([it], words=words) for it, words in SLURM_TEXTS + SLURM_ENTRY_TEXTS)
    yield Exceptions([sample("slurm.json")[:600]], fault="fault 1: not JSON (fault 1)")


def applied():
    """Files that are applied, and again to what results."""
    yield from (Exceptions([it], whole=f"{filters} {assertions} []") for it, filters, assertions in SLURM_IGNORED)
    for filters, assertions, before, after in APPLIED:
        file = [filters, '[{"SKI":"Zm9v"}]', assertions, "[]"]
        yield from (Exceptions([file], it, whole=f"1 0 {list_of(after)}") for it in (before, after))
    # (tests/exceptions.py applies the RFC's example once)
    after = [(it["prefix"], it["maxLength"], it["asn"]) for it in json.loads(sample("after-slurm.json"))]
    yield Exceptions([sample("slurm.json")], after, whole=f"3 1 {list_of(after)}")


def united():
    """Two files as one, in both orders."""
    for pairs, begin in ((OVERLAPPING, "overlap: "), (APART, "united ")):
        for one, other in pairs:
            yield from (Exceptions(it, begin=begin) for it in ([one, other], [other, one]))
    yield from (Exceptions(files, whole=f"overlap: {words}") for files, words in OVERLAP_TEXTS)
    rfc = sample("slurm.json")
    yield from (Exceptions(it, BEFORE, whole=f"united {list_of(AFTER)}") for it in ([rfc, OTHER], [OTHER, rfc]))


def sample(name):
    with open(f"{exceptions.SAMPLES}/{name}", encoding="utf-8") as it:
        return it.read()


# ---- the run


def differ(found, status, cases, kind):
    """Prints each case of which something else is printed."""
    wrong = [(case, answer) for case, answer in zip(cases, found) if not case.is_met(answer)]
    for case, answer in wrong:
        print(f"{kind}: {vars(case)}\n  gives {answer}")
    if status or len(found) < len(cases):
        print(f"{kind}: the program ended with status {status} after {len(found)} of {len(cases)} lines")
    return bool(wrong) or bool(status) or len(found) < len(cases)


def main():
    program = os.path.abspath(sys.argv[1])
    of_exports = [*faults(), *spelled(), *files(), *ending()]
    of_slurm = [*misread(), *applied(), *united()]
    with tempfile.TemporaryDirectory() as folder:
        found, status = exports.outcomes(program, folder, [(it.now, it.text) for it in of_exports])
        wrong = differ(found, status, of_exports, "export")
        found, status = exceptions.outcomes_of(program, folder, [(it.files, it.rows) for it in of_slurm])
        wrong = differ(found, status, of_slurm, "exceptions") or wrong
    print(f"{len(of_exports)} exports and {len(of_slurm)} files of exceptions by rows")
    return 1 if wrong else 0


if __name__ == "__main__":
    sys.exit(main())
