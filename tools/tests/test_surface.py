"""The list of public calls is as the sources are, and what is otherwise is found."""

import pathlib
import tempfile
import unittest
from unittest import mock

import surface
from declarations import Unread, declared

TEXT = "\n".join(it.read_text() for it in surface.PAGES)
# What stands on a page, what stands there in its place, and what is found then.
OTHERWISE = [
    ("fn put_num(out: &mut Vec<u8>, n: i64)", "fn put_num(out: &mut Vec<u8>, n: u64)",
     ["rx_text: put_num: fn put_num(out: &mut Vec<u8>, n: i64) -> Result<(), NoMemory>"]),
    ("fn put_num(out: &mut Vec<u8>, n: i64)", "fn put_num(n: i64, out: &mut Vec<u8>)",
     ["rx_text: put_num: fn put_num(out: &mut Vec<u8>, n: i64) -> Result<(), NoMemory>"]),
    ("from: PlaceId, to: PlaceId) -> u32", "to: PlaceId, from: PlaceId) -> u32",
     ["rx_ledger: CountLedger::transit_of: fn transit_of(&self, s: ScopeId, from: PlaceId, to: PlaceId) -> u32"]),
    ("fn scan_num(", "fn scan_nums(", ["rx_text: scan_nums: missing"]),
    # (private, of a module that is private, and a call of another crate)
    ("impl Path {", "impl Path { fn push_few(&mut self, item: u32) -> Result<(), NoMemory>;", ["rx_base: Path::push_few: missing"]),
    ("fn read_kill(", "fn left_over(); fn read_kill(", ["rx_kills: left_over: missing"]),
    ("fn before(", "fn put_num(out: &mut Vec<u8>, n: i64) -> Result<(), NoMemory>; fn before(", ["rx_order: put_num: in rx_text"]),
    ("## rx_tree", "## rx_nowhere", ["rx_nowhere: FinishLedger: in rx_finish", "rx_nowhere: TreeLedger: in rx_tree"]),
    ("Overflow, NoPlace", "NoPlace",
     ["rx_base: Fault: enum Fault { Dead(PlaceId), Thrown(i64), Overflow, NoPlace, WrongPlace, Stale, Index, HeapFull }"]),
    ("Overflow, NoPlace", "NoPlace, Overflow", []),
    ("struct Kill { place: PlaceId, moment: u32 }", "struct Kill { moment: u32, place: PlaceId }", []),
    ("struct GlobalRef { home: PlaceId, start: u32, generation: u32 }", "struct GlobalRef { home: PlaceId, .. }",
     ["rx_base: GlobalRef: struct GlobalRef { home: PlaceId, start: u32, generation: u32 }"]),
    ("struct PlaceId(u8)", "struct PlaceId(u16)", ["rx_base: PlaceId: struct PlaceId(u8)"]),
    ("struct History { setup: Setup, .. }", "struct History { setup: Setup }",
     ["rx_trace: History: struct History { setup: Setup, .. }"]),
    # (traits: their parents, calls that they ask for, and types that have them)
    ("trait Carried: Drop {", "trait Carried {", ["rx_mail: Carried: trait Carried: Drop"]),
    ("fn turn(&self, worker: u32, n: u64); ", "", ["rx_base: Gate::turn: fn turn(&self, worker: u32, n: u64)"]),
    ("impl Gate for NoGate { }", "impl Gate for PlaceId { }", ["rx_base: impl Gate for PlaceId: missing"]),
    # (parameters of types)
    ("impl<L: FinishLedger> Machine<L> {", "impl<L: Drop> Machine<L> {",
     ["rx_machine: Machine::%s: missing" % it for it in ("open", "enabled", "turn", "run", "into_parts")]),
    ("impl<L: FinishLedger> Machine<L> {", "impl<T: FinishLedger> Machine<T> {",
     ["rx_machine: Machine::run: fn run<P: Picks>(self, p: &Program, picks: &mut P) -> Result<(History, Journals, T), NoMemory>"]),
    ("impl Ticket<Waiting> {", "impl Ticket<Live> {", ["rx_ticket: Ticket::resumed: missing"]),
    # (rows of the table)
    ("| `Keeper` | `Keeper<CountLedger>` |", "| `Keeper` | `Keeper<CountLedger, u8>` |",
     ["rx_ledger: Keeper: no type with the arguments of Keeper<CountLedger, u8>"]),
    ("| rx_ledger | `Keeper` | `Keeper<CountLedger>` | ", "| ", ["rx_ledger: Keeper: struct Keeper<L: FinishLedger> { .. }"]),
    ("| rx_book | `Object::Fixed` | `type Fixed` | ", "| ", ["rx_book: Object::Fixed: type Fixed"]),
    ("`fn tell(&mut self) -> Receipt`", "`fn tell(&self) -> Receipt`",
     ["rx_monitor: BoardWriter::tell: fn tell(&mut self) -> Receipt",
      "rx_monitor: BoardWriter::tell: fn tell(&self) -> Receipt (named, and not so)"]),
    ("fn seen_len(", "fn see_len(", ["rx_book: Book::see_len: missing"]),
    ("| rx_script | `Script::name` | missing |", "| rx_script | `Script::name`, `Script::top` | missing |",
     ["rx_script: Script::top: missing (named, and not so)"]),
]
CRATES = {
    "crates.txt": "# low\nlow:\nmid: low\nhigh: mid # top\n",
    "crates/low/src/lib.rt": "mod deep;\npub use deep::{Thing, make};\n",
    "crates/low/src/deep.rt": "pub struct Thing { pub a: u8 }\npub fn make() -> Thing { }\npub fn other() {}\n",
    "crates/mid/src/lib.rt": "pub use low::{Thing, make as made};\nuse low::make;\npub mod laws;\n",
    "crates/mid/src/laws.rt": "pub fn law() {}\n",
    "crates/high/src/lib.rt": "pub use mid::{Thing, made};\npub use mid::laws::law;\n",
}
SOURCE = '''
// pub fn in_comment()
ghost use Rattle.std.specs.Prelude.{◌≡◌, ◌<◌};
pub use below::{Act, deep::{Entry as Line}};
#[derive(Drop)]
pub struct Held<'a, T: Drop> {
    pub first: &'a T,
    ghost small: { first < 7 },
    second: u32,
}
pub enum Kind { #[doc("{")] One, Two { a: u8, }, Three(Vec<u8>), }
impl<'a, T: Drop> Held<'a, T> {
    /// Adds { one.
    pub fn add<R: Wait>(
        mut self,
        _rt: &R,
        more: [u8; 2],
    ) -> Result<(), (T, NoMemory)>
    where
        T: Sync,
        requires small { self.second < 7 }
        ensures { result ≡ "}" }
    {
        let text = '{';
    }

    fn hidden(&self) {}
}
pub(crate) fn inside() {}
'''


class Surface(unittest.TestCase):
    maxDiff = None

    def test_pages_are_as_the_sources(self):
        self.assertEqual(surface.read_list().wrong(), [])

    def test_each_page_is_short(self):
        for it in surface.PAGES:
            self.assertLessEqual(it.read_text().count("\n"), 250, it.name)

    def test_each_difference_is_found(self):
        for old, new, found in OTHERWISE:
            with self.subTest(old=old, new=new):
                self.assertIn(old, TEXT)
                wrong = surface.List(TEXT.replace(old, new, 1)).wrong()
                for it in found:
                    self.assertTrue(any(line.startswith(it) for line in wrong), wrong)
                if not found:
                    self.assertEqual(wrong, [])

    def test_nothing_else_is_found(self):
        for old, new, found in OTHERWISE[:5]:
            with self.subTest(old=old, new=new):
                self.assertEqual(surface.List(TEXT.replace(old, new, 1)).wrong(), found)

    def test_what_is_no_list(self):
        for text in ("## rx_text\n```rust\nfn put_num(out;\n```\n", "## Differs\n| rx_text | `put_num` | `nothing` | why |\n"):
            with self.assertRaises(Unread):
                surface.List(text)

    def test_a_crate_in_a_folder(self):
        with tempfile.TemporaryDirectory() as room:
            top = pathlib.Path(room)
            for file, text in CRATES.items():
                (top / file).parent.mkdir(parents=True, exist_ok=True)
                (top / file).write_text(text)
            with mock.patch.object(surface, "TOP", top):
                surface.crates.cache_clear()
                try:
                    found = surface.crates()["high"].find
                    self.assertEqual([it[0].name for it in map(found, ("Thing", "law"))], ["low", "mid"])
                    self.assertEqual(found("made")[1].text(), "fn make() -> Thing")
                    is_there = [bool(surface.crates()["mid"].find(it)) for it in ("make", "other", "laws")]
                    self.assertEqual(is_there, [False, False, True])
                finally:
                    surface.crates.cache_clear()


class Declarations(unittest.TestCase):
    def test_source(self):
        use, held, kind, calls, inside = declared(SOURCE)
        self.assertEqual([*use.items], [(("below", "Act"), "Act"), (("below", "deep", "Entry"), "Line")])
        self.assertEqual(held.text(), "struct Held<'a, T: Drop> { first: &'a T, .. }")
        self.assertEqual(kind.text(), "enum Kind { One, Two { a: u8 }, Three(Vec<u8>) }")
        self.assertEqual([it.is_public for it in (held, kind, inside)], [True, True, False])
        self.assertEqual([(it.name, it.is_public) for it in calls.items], [("add", True), ("hidden", False)])
        add = "fn add<R: Wait>(self, rt: &R, more: [u8; 2]) -> Result<(), (T, NoMemory)> where T: Sync"
        self.assertEqual(calls.items[0].text(), add)


if __name__ == "__main__":
    unittest.main()
