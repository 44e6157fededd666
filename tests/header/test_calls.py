"""The comparison of a header with the source: what it must notice."""

import unittest

from calls import ROOT, exported_calls, faults, in_c, unexpected

TABLE = [("table", "&mut [u8]"), ("reply", "&mut [u8]")]
CALLS = {
    "fc_get": ([("site", "u64"), ("key", "u64"), *TABLE], "u32"),
    "fc_cold": ([("site", "u64"), ("hour", "u64"), ("old", "&[u8]"), ("list", "&mut [u8]")], "u32"),
}
HEADER = """\
typedef unsigned long uint64_t;
enum fc_code { FC_OK = 0 };
uint32_t fc_get(uint64_t site, uint64_t key,
                uint8_t *table, size_t table_len, uint8_t* reply, size_t reply_len);
uint32_t fc_cold(uint64_t site, uint64_t now, const uint8_t *old, size_t old_len, uint8_t *list, size_t list_len);
static inline int fc_read(const uint8_t *reply) { return fc_other(reply); }
"""


class Calls(unittest.TestCase):
    def test_the_same(self):
        self.assertEqual(list(faults(HEADER, CALLS)), [])

    def test_a_declaration_that_differs(self):
        for old, new in [
            ("uint64_t site, uint64_t key", "uint64_t key, uint64_t site"),
            ("uint64_t key", "uint32_t key"),
            ("uint64_t key", "size_t key"),
            ("uint64_t now", "uint64_t hour"),
            ("const uint8_t *old", "uint8_t *old"),
            ("size_t table_len, ", ""),
            ("uint8_t *list, size_t list_len", "size_t list_len, uint8_t *list"),
            ("uint32_t fc_get", "uint8_t fc_get"),
        ]:
            self.assertIn(old, HEADER)
            self.assertEqual(len(list(faults(HEADER.replace(old, new, 1), CALLS))), 2, new)

    def test_a_call_too_many_or_too_few(self):
        more = "uint32_t fc_look(uint64_t site)"
        self.assertEqual(list(faults(f"{HEADER}{more};", CALLS)), [f"no function of the source is {more}"])
        look = {**CALLS, "fc_look": ([("site", "u64")], "u32")}
        self.assertEqual(list(faults(HEADER, look)), [f"it does not declare {more}"])
        twice = HEADER + in_c("fc_get", *CALLS["fc_get"]) + ";"
        self.assertEqual(list(faults(twice, CALLS)), ["it declares a call twice"])

    def test_a_constant_that_nobody_expects(self):
        header = "#define FC_SITES 8\n#  define FC_KEYS 64\n#define FORKCANYON_H\n"
        self.assertEqual(unexpected(header, "EXPECT(FC_SITES, 8)"), ["FC_KEYS"])

    def test_the_source_has_calls(self):
        self.assertIn("fc_open", exported_calls(ROOT))


unittest.main()
