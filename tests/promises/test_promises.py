"""The check of the promises on a small repository."""

import tempfile
import unittest
from pathlib import Path

from promises import LIBRARY, SIZED, faults

SPECS = {
    "rules/specs/Calls.antt": """\
pub data Call : Type 0 where
  Get : (site key : ℕ) → Call
  Touch : (site now : ℕ) → Call
  Drain : (site budget : ℕ) → Call
""",
    "forkcanyon/specs/NoSecond.antt": """\
use Rattle.host.specs.Host.{Hosted, Promise}
pub fc_get_no_second : NoSecond
pub fc_drain_no_second : NoSecond
""",
    "host/specs/Host.antt": """\
abbrev pub left : ℕ → List ℕ → Hosted
left c t = (c, t)

abbrev pub Promise : List ℕ → Call → Hosted → Type 0
Promise t c o = o ≡ host t c
""",
}
PINNED = """\
crates/host/specs/Host.antt: abbrev pub left : ℕ → List ℕ → Hosted left c t = (c, t)
crates/host/specs/Host.antt: abbrev pub Promise : List ℕ → Call → Hosted → Type 0 Promise t c o = o ≡ host t c
"""
KEPT = "    ensures { Promise t.old (Get site key) (left result t.new) }\n"
DRAIN = "(Drain site (min budget most_tries))"
CODE = f"""\
ghost use Rattle.std.specs.Prelude.{{min}};
ghost use Rattle.rules.specs.Calls.{{Get, Drain}};
ghost use Rattle.host.specs.Host.{{left, Promise, most_tries}};
// pub fn ignored() {{ }}
impl Table {{
    pub fn many(self) -> u8
        ensures {{ result ≡ 1 }}
    {{
        if self.n == b'{{' {{ 0 }} else {{ 1 }}
    }}
}}

fn lower(t: &mut [u8]) {{ t[0] = 1; }}

#[unsafe(no_mangle)]
pub extern "C" fn fc_get(
    site: u64,
    key: u64,
    t: &mut [u8],
) -> u32
{KEPT}{{
    0
}}

#[unsafe(no_mangle)]
pub extern "C" fn fc_drain(site: u64, budget: u64, t: &mut [u8]) -> u32
    ensures {{ Promise t.old {DRAIN} (left result t.new) }}
{{
    0
}}
"""
ENGINES = """\
ghost use Rattle.rules.specs.Engine as rules;
pub trait Engine {
    ghost engine: { rules.Engine };

    fn own(s: usize) -> u8
        requires { s < 8 }
        ensures { result ≡ engine.own s };
}

impl Engine for Ranked {
    ghost engine = { rules.ranked };

    fn own(s: usize) -> u8 { 1 }
}
"""
ROWS = "crates/forkcanyon_c/src/deep/lib.rt"
PINNED_ENGINES = f"""\
{PINNED}{ROWS}: rules of rules.specs.Engine
{ROWS}: trait Engine ghost engine: {{ rules.Engine }};
{ROWS}: impl Engine for Ranked ghost engine = {{ rules.ranked }};
"""
FIVE = """\
impl From<Answer> for Five {
    ghost from_gives = { λ a x. five_of x ≡ a };

    fn from(a: Answer) -> Five { a.five }
}
"""
TABLE = "`forkcanyon_c::fc_get` `forkcanyon_c::fc_drain`"
MORE = ["more: it has no ensures", "more: docs/PROMISES.md has no row for it"]


def not_promised(name, call):
    return [f"{name}: its promise is not Promise t.old {call} (left result t.new)"]


class Small(unittest.TestCase):
    def of(self, code, specs=None, table=TABLE, pinned=PINNED, crate="forkcanyon_c"):
        with tempfile.TemporaryDirectory() as folder:
            root = Path(folder)
            files = {f"crates/{name}": text for name, text in {**SPECS, **(specs or {})}.items()}
            files |= {f"crates/{crate}/src/deep/lib.rt": code, "docs/PROMISES.md": table}
            files["tests/promises/pinned.txt"] = pinned
            for name, text in files.items():
                (root / name).parent.mkdir(parents=True, exist_ok=True)
                (root / name).write_text(text)
            return [fault.removeprefix("forkcanyon_c::") for fault in faults(root)]

    def edited(self, *changes, **others):
        """The faults of CODE with these changes, each made in one place at least."""
        code = CODE
        for old, new in changes:
            self.assertIn(old, code)
            code = code.replace(old, new)
        return self.of(code, **others)

    def test_nothing_is_missing(self):
        self.assertEqual(self.of(CODE), [])

    def test_a_public_function_without_ensures(self):
        self.assertEqual(self.edited(("ensures { result ≡ 1 }", "")), ["Table::many: it has no ensures"])
        self.assertEqual(self.edited((KEPT, f"    // {KEPT.strip()}\n")), ["fc_get: it has no ensures"])
        self.assertEqual(self.of(CODE + "pub fn more<'a>(s: &'a [u8]) -> u8 { s[0] }"), ["more: it has no ensures"])

    def test_any_words_before_a_function(self):
        attributes = ["#[no_mangle]", "#[unsafe(no_mangle)]", "#[unsafe(no_mangle)] pub", '#[unsafe(export_name = "x")]']
        for words in ['extern "C" unsafe', 'unsafe extern "C"', *attributes]:
            self.assertEqual(self.of(CODE + words + " fn more(site: u64) -> u32 { 0 }"), MORE, words)

    def test_a_call_that_requires_something(self):
        asks = "fc_get: a C program can't know what it requires"
        self.assertEqual(self.edited((KEPT, "    requires { site < 8 }\n" + KEPT)), [asks])
        trivial = [('pub extern "C" fn fc_get', "pub fn fc_get"), (KEPT, "    requires { ⊤ }\n" + KEPT)]
        self.assertEqual(self.edited(*trivial), [asks])

    def test_another_ensures(self):
        other = "fc_get: its ensures is not a promise that no second outcome is proved of"
        for said in ["result ≡ 0", "(Promise a b c → ⊥)", "Written a b c", "left result t ≡ host t"]:
            self.assertEqual(self.edited((KEPT, f"    ensures {{ {said} }}\n")), [other])
        lent = CODE + "pub fn wipe(t: &mut [u8]) ensures { t.new ≡ [] } { }"
        self.assertEqual(self.of(lent, table=TABLE + "`forkcanyon_c::wipe`"), [other.replace("fc_get", "wipe")])

    def test_a_call_that_only_reads(self):
        lent = CODE + "pub fn get(t: &[u8], site: usize) -> u8 ensures { SAID } { 0 }"
        kept = "Promise t.now (Get site) (left result t.now)"
        specs = {"answers/specs/NoSecond.antt": "pub get_no_second : NoSecond\n"}
        table = TABLE + "`forkcanyon_c::get`"
        self.assertEqual(self.of(lent.replace("SAID", kept), specs=specs, table=table), [])
        for said in ["result ≡ 0", kept.replace("t.now)", "t.new)"), kept.replace("t.now", "t.old")]:
            self.assertEqual(len(self.of(lent.replace("SAID", said), specs=specs, table=table)), 1, said)
        self.assertEqual(self.of(lent.replace("SAID", kept)), ["get: there is no theorem get_no_second", "get: docs/PROMISES.md has no row for it"])

    def test_a_call_with_its_engine(self):
        kept = "PromiseBy (E.engine engine) t.old (Get site) (left result t.new)"
        taken = CODE + "pub fn get<E: EngineValue>(t: &mut [u8], site: usize, engine: E) -> u8 ensures { SAID } { 0 }"
        found = lambda said: " ".join(self.of(taken.replace("SAID", said), table=TABLE + "`forkcanyon_c::get`"))
        self.assertIn("not a promise that no second outcome is proved of", found(kept))
        self.assertIn("its promise is not Promise (E.engine engine) t.old", found(kept.replace("PromiseBy (E.engine engine)", "Promise")))
        for other in [", kind: E)", ", engine: E, other: E)", ", engine: E, more: u8)", ", engine: u8)", ")"]:
            path = self.of(taken.replace(", engine: E)", other).replace("SAID", kept), table=TABLE + "`forkcanyon_c::get`")
            self.assertIn("get: it does not take one engine, at its end, as `engine`", path, other)
        path = self.of(taken.replace("E: EngineValue", "E: rows::EngineValue").replace("SAID", kept), table=TABLE + "`forkcanyon_c::get`")
        self.assertIn("get: its type parameter is not an EngineValue", path)
        named = taken.replace("<E: EngineValue>", "<Get: EngineValue>").replace("SAID", kept.replace("E.engine", "Get.engine"))
        self.assertIn("get: its type parameter is not an EngineValue", self.of(named, table=TABLE + "`forkcanyon_c::get`"))

    def test_a_buffer_of_its_size(self):
        for lent in ["t: &mut Bytes", "t: &mut [u8]", "t: &mut [u8], r: &mut [u8; Reply::BYTES]"]:
            wipe = CODE + f"pub fn wipe({lent}) ensures {{ state_of t.new ≡ all_zero }} {{ }}"
            self.assertEqual(len(self.of(wipe)), 2, lent)

    def engines(self, *changes, more=""):
        code = CODE + ENGINES
        for old, new in changes:
            self.assertIn(old, code)
            code = code.replace(old, new)
        return [fault.removeprefix(f"{ROWS}: ") for fault in self.of(code + more, pinned=PINNED_ENGINES)]

    def test_a_pinned_engine(self):
        self.assertEqual(self.engines(), [])
        unlike = "impl Engine for Ranked: tests/promises/pinned.txt does not have this engine"
        gone = "it no longer has, as tests/promises/pinned.txt says: "
        law, mine = "ghost engine = { rules.ranked };", "ghost use Rattle.rows.specs.Mine as rules; "
        for new in ["ghost engine = { rules.short };", mine + law, ""]:
            found = self.engines((law, new))
            self.assertIn(f"{gone}impl Engine for Ranked {law}", found)
            self.assertIn(unlike, found)
        for old, new in [("rules.specs.Engine as", "rows.specs.Mine as"), ("pub trait", f"{mine}pub trait")]:
            self.assertEqual(self.engines((old, new)), [f"{gone}rules of rules.specs.Engine"])

    def test_another_engine(self):
        for head in [
            *(f"{words} for Lazy" for words in ("impl Engine", "unsafe impl Engine", "impl rows::Engine", "impl ::rows::r#Engine")),
            "impl<T: Drop> Engine for Lazy<T>",
            "impl<T> rows\n    ::\n    Engine\nfor Lazy<T> where T: for<'a> Fn(&'a u8) -> u8",
            "impl<const N: usize> Engine for [u8; { N }]",
            "impl Engine for <Lazy as Other>::Made",
            "impl/* for */Engine/**/for(u8, u8)",
            "impl Engine<u8> for Lazy",
            "pub trait Engine: Sized",
            *("impl EngineValue for Lazy", "impl<E: Engine> rows::by_value::EngineValue for Lazy<E>", "pub trait EngineValue: Copy"),
        ]:
            for law in ["", " ghost engine = { rules.ranked };"]:
                found = self.engines(more=f"{head} {{{law} }}\n")
                self.assertEqual(len(found), 1, head)
                self.assertIn("does not have this engine", found[0])
        self.assertEqual(self.engines(more="impl Other for Lazy<Engine> { }\nfn f(e: impl Engine) { for i in e { } }\n"), [])

    def test_another_name(self):
        for line in [
            "use crate::Engine as Kind;",
            "use rows::{Engine as Kind, Short};",
            "use rows::{\n    self as r,\n};",
            "use rows as r;",
            "use other::Kind as Engine;",
            "use std::convert::From as Made;",
            "pub use host::{get as put};",
            "pub(crate) use host::get as put;",
            "use rows::Ranked as Short;",
            "use rows::by_value::EngineValue as Kind;",
            "use crate::by_value as kinds;",
            "type Quick = rows::Short;",
        ]:
            found = self.engines(more=line)
            self.assertEqual(found, [f"another name: {' '.join(line.split())}"])
        self.assertEqual(self.engines(more="use std::io::Write as _;\nuse rows::{Engine, Short};\npub use host::{get, put};\n"), [])

    def test_an_impl_that_is_not_seen(self):
        for more, fault in [
            ("macro_rules! made { ($n:ident) => { impl Engine for $n { } } }", "a macro can write an impl that is not seen here"),
            ("enum Unserved { Refused(#[from] Refusal) }", "the From that #[from] asks for has no law"),
        ]:
            self.assertIn(fault, self.engines(more=more))
        for begun, ended in [('"/*"', '"*/"'), ('r"\\"', 'r"\\"'), ('r#"""#', '"a"'), ("b'\"'", "b'\"'")]:
            hidden = f"const A: X = {begun}; impl Engine for Lazy {{ }} const B: X = {ended};"
            self.assertEqual(len(self.engines(more=hidden)), 1, hidden)

    def test_a_traits_method(self):
        methods = ["fn one(s: [u8; 2]) -> u8;", "fn two() -> u8 ensures { result ≡ 2 };", "fn three() -> u8 { 3 }"]
        trait = f"WORDS trait Kind {{ {' '.join(methods)} }}\n"
        missing = ["one: it has no ensures", "three: it has no ensures"]
        for words in ["pub", "pub(crate)", "#[any]\npub unsafe"]:
            self.assertEqual(self.of(CODE + trait.replace("WORDS", words)), missing)
        self.assertEqual(self.of(CODE + trait.replace("WORDS", "")), [])
        lent = "pub trait Kind { fn wipe(t: &mut [u8]) ensures { t.new ≡ [] }; }"
        self.assertEqual(len(self.of(CODE + lent)), 2)
        method = "requires { s < 8 }\n        ensures { result ≡ engine.own s }"
        self.assertEqual(self.engines((method, "requires { s < 8 }")), ["own: it has no ensures"])

    def test_a_conversion(self):
        law = "    ghost from_gives = { λ a x. five_of x ≡ a };\n"
        found = lambda code: [fault.removeprefix(f"{ROWS}: ") for fault in self.of(CODE + code)]
        self.assertEqual(found(FIVE), [])
        for other in [FIVE.replace(law, ""), FIVE + "#[cfg(other)]\n" + FIVE.replace(law, "")]:
            self.assertEqual(found(other), ["impl From<Answer> for Five: it has no from_gives"])
        self.assertEqual(found(FIVE.replace(law, f"    // {law.strip()}\n")), ["impl From<Answer> for Five: it has no from_gives"])
        deeper = FIVE.replace(law, "").replace("a.five", "impl From<u8> for Six {\n" + law + "} a.five")
        self.assertEqual(found(deeper), ["impl From<Answer> for Five: it has no from_gives"])
        for head, gives in [
            ("impl<T> std::convert::From<T> for Five<T> where T: for<'a> Fn(&'a u8)", "from_gives"),
            ("impl TryFrom<usize> for Five", "try_from_gives"),
            ("impl FromStr for Five", "from_str_gives"),
        ]:
            said = f"{' '.join(head.split())}: it has no {gives}"
            self.assertEqual(found(f"{head} {{ }}\n"), [said])
            self.assertEqual(found(f"{head} {{ ghost other = {{ ⊤ }}; }}\n"), [said])
            self.assertEqual(found(f"{head} {{ type Error = Refusal; ghost {gives} = {{ a < b }}; }}\n"), [])
        self.assertEqual(found("impl Into<Five> for Answer { }\n"), ["impl Into<Five> for Answer: it has no law, and From would"])

    def test_a_pinned_law(self):
        law = "impl From<Answer> for Five ghost from_gives = { λ a x. five_of x ≡ a };"
        pinned = f"{PINNED}{ROWS}: {law}\n{ROWS}: left of host.specs.Host\n"
        self.assertEqual(self.of(CODE + FIVE, pinned=pinned), [])
        self.assertEqual(len(self.of(CODE + FIVE.replace("five_of x ≡ a", "⊤"), pinned=pinned)), 1)
        twice = "ghost use Rattle.other.specs.Host.{left};\n"
        self.assertIn("pinned.txt says: left of host.specs.Host", " ".join(self.of(CODE + FIVE + twice, pinned=pinned)))

    def test_the_library(self):
        path, lines = f"{LIBRARY}src/lib.rt", ["pub use both::look;", "pub use host::{get, put};"]
        pinned = PINNED + "".join(f"{path}: {line}\n" for line in lines)
        code = "// The library.\n#![tactic(auto)]\n\n" + "\n".join(lines) + "\n"
        found = lambda code: self.of(CODE, {path.removeprefix("crates/"): code}, pinned=pinned)
        self.assertEqual(found(code), [])
        for old, new in [
            ("get, put", "get as put, put as get"),
            ("get, put", "get, put, touch"),
            ("get, put", "*"),
            ("host::", "table::"),
            ("pub use both::look;", ""),
            ("pub use both::look;", "pub use both::look;\npub mod more;"),
            ("pub use both::look;", "use both::look;"),
        ]:
            self.assertIn(f"{path}: it is not what tests/promises/pinned.txt says", found(code.replace(old, new)), new)

    def test_a_function_excused_by_its_size(self):
        clear = "pub fn clear(t: LENT) ensures { state_of t.new ≡ all_zero } { }\n"
        found = lambda code: self.of(code, crate="layout")
        self.assertIn("layout::clear", SIZED)
        self.assertEqual(found(clear.replace("LENT", "&mut Bytes")), [])
        for lent in ["&mut [u8]", "&mut Bytes, u: &mut [u8]"]:
            self.assertIn("layout::clear: docs/PROMISES.md has no row for it", found(clear.replace("LENT", lent)))
        twice = clear + "pub mod deep { " + clear + " }"
        self.assertEqual(found(twice.replace("LENT", "&mut Bytes")), ["layout::clear: another function has its name"])

    def test_the_other_engine(self):
        name = "forkcanyon/specs/NoSecond.antt"
        words = {"forkcanyon/specs/ShortHost.antt": SPECS["host/specs/Host.antt"]}
        words[name] = SPECS[name] + "use Rattle.forkcanyon.specs.ShortHost.{Promise}\npub fc_short_get_no_second : NoSecond\n"
        table, pinned = TABLE + "`forkcanyon_c::fc_short_get`", PINNED + PINNED.replace("host/specs/Host", "forkcanyon/specs/ShortHost")
        short = CODE.partition("#[unsafe(no_mangle)]\npub extern \"C\" fn fc_drain")[0].replace("fc_get", "fc_short_get")
        self.assertEqual(self.of(short, words, table, pinned), ["fc_short_get: its promise is of our engine"])
        mine = "specs.Host.{left, most_tries};\nghost use Rattle.forkcanyon.specs.ShortHost.{Promise};"
        short = short.replace("specs.Host.{left, Promise, most_tries};", mine)
        self.assertEqual(self.of(short, words, table, pinned), [])
        other = short.replace("fc_short_get", "fc_get")
        self.assertEqual(self.of(other, words, table, pinned), ["fc_get: its promise is of short lists"])

    def test_another_crate(self):
        self.assertIn("other::fc_get: docs/PROMISES.md has no row for it", self.of(CODE, crate="other"))

    def test_a_pinned_word_renamed(self):
        name = "host/specs/Host.antt"
        renamed = {name: "use Rattle.rules.specs.Engine.{long as short}\n\n" + SPECS[name]}
        self.assertEqual(self.of(CODE, renamed), [f"crates/{name}: a pinned word has another meaning: long as short"])

    def test_an_empty_promise(self):
        fault = not_promised("fc_get", "(Get site key)")
        for old, new in [
            ("(left result t.new)", "(shown result t.new (host t.old (Get site key)))"),
            ("(left result t.new)", "(left result t.old)"),
            ("(left result t.new)", "(left 0 t.new)"),
            ("(left result t.new)", "(left result t.new) ⊎ ⊤"),
            ("(Get site key)", "(Get key site)"),
            ("(Get site key)", "(Get site 0)"),
            ("(Get site key)", "(Deliver site key)"),
            ("Promise t.old", "Promise t.new"),
        ]:
            self.assertIn(old, KEPT)
            self.assertEqual(self.edited((KEPT, KEPT.replace(old, new))), fault, new)
        for budget in ["budget", "(min budget 5)", "(min site most_tries)"]:
            found = self.edited((DRAIN, f"(Drain site {budget})"))
            self.assertEqual(found, not_promised("fc_drain", DRAIN))

    def test_more_buffers_and_a_renamed_number(self):
        promise = "Promise t.old old.now list.old (Touch site hour)"
        said = f"ensures {{ {promise} (left result t.new old.now list.new) }} {{ 0 }}"
        code = CODE.replace("Drain}", "Drain, Touch}") + '#[unsafe(no_mangle)] pub extern "C" fn fc_touch'
        taken = "(site: u64, hour: u64, t: &mut [u8], old: &[u8], list: &mut [u8]) -> u32 "
        words = {"forkcanyon/specs/More.antt": SPECS["forkcanyon/specs/NoSecond.antt"].replace("get", "touch")}
        others = {"specs": words, "table": TABLE + "`forkcanyon_c::fc_touch`"}
        self.assertEqual(self.of(code + taken + said, **others), [])
        for left in ["t.new list.new", "list.new old.now t.new"]:
            other = said.replace("t.new old.now list.new", left)
            self.assertIn("fc_touch: its promise is not", " ".join(self.of(code + taken + other, **others)))

    def test_numbers_of_another_name(self):
        both = CODE.replace("    site: u64,\n    key: u64,", "    key: u64,\n    site: u64,")
        fault = ["fc_get: its numbers are not those of Get, by name and in order"]
        self.assertEqual(self.of(both.replace("(Get site key)", "(Get key site)")), fault)

    def test_words_from_elsewhere(self):
        none = "its ensures is not a promise that no second outcome is proved of"
        none = [f"{call}: {none}" for call in ("fc_get", "fc_drain")]
        self.assertEqual(self.edited(("specs.Host", "specs.Other")), none)
        self.assertEqual(self.edited(("left, Promise", "left, Any as Promise")), none)
        left = [f"{call}: its left is not the one of host.specs.Host" for call in ("fc_get", "fc_drain")]
        self.assertEqual(self.edited(("{left, ", "{shown as left, ")), left)
        get = ["fc_get: its Get is not the one of rules.specs.Calls"]
        self.assertEqual(self.edited(("{Get, ", "{Look as Get, ")), get)
        self.assertEqual(self.of("ghost use Rattle.rules.specs.Old.{Get};\n" + CODE), get)
        least = ["fc_drain: its min is not the one of std.specs.Prelude"]
        self.assertEqual(self.edited(("ghost use Rattle.std", "// ghost use Rattle.std")), least)

    def test_another_definition(self):
        for old, new in [("left c t = (c, t)", "left c t = (0, t)"), ("o ≡ host t c", "⊤")]:
            host = SPECS["host/specs/Host.antt"].replace(old, new)
            found = self.of(CODE, specs={"host/specs/Host.antt": host})
            self.assertEqual(len(found), 1)
            self.assertIn("crates/host/specs/Host.antt: it no longer has", found[0])
        missing = [f"{call}: tests/promises/pinned.txt does not have its left" for call in ("fc_get", "fc_drain")]
        self.assertEqual(self.of(CODE, pinned=PINNED.splitlines()[1]), missing)

    def test_no_theorem_and_no_row(self):
        name = "forkcanyon/specs/NoSecond.antt"
        without = {name: SPECS[name].replace("fc_get_no_second", "fc_put_no_second")}
        self.assertEqual(self.of(CODE, specs=without), ["fc_get: there is no theorem fc_get_no_second"])
        rowless = TABLE.replace("`forkcanyon_c::fc_get`", "")
        self.assertEqual(self.of(CODE, table=rowless), ["fc_get: docs/PROMISES.md has no row for it"])


unittest.main()
