#!/usr/bin/env python3
"""Tests of the exporter: embed/tests/test_export.py. On each crate of the repository, and on small sources that it must take or refuse."""

import os
import sys
import unittest

sys.dont_write_bytecode = True
HERE = os.path.dirname(os.path.abspath(__file__))
sys.path.insert(0, os.path.join(HERE, "..", "exporter"))

from crates import law_names, reached, read_list  # noqa: E402
from sources import Source  # noqa: E402
from tokens import CHAR, COMMENT, DOC, LIFETIME, STRING, WORD, Refused, text_of, tokens_of  # noqa: E402
from workspace import OTHERS, ROOT  # noqa: E402

REPOSITORY = os.path.join(HERE, "..", "..")
GHOST = {"ghost", "requires", "ensures"}


def written(text, laws=()):
    return Source(text, "x.rt").written(set(laws), set(), "")[0]


class Tokens(unittest.TestCase):
    def kinds(self, text):
        return [(token.kind, token.text) for token in tokens_of(text, "x.rt") if token.kind != "space"]

    def test_strings_comments_and_chars_are_whole(self):
        self.assertEqual(self.kinds(r'"a\"{" b"}"'), [(STRING, r'"a\"{"'), (STRING, 'b"}"')])
        self.assertEqual(self.kinds('r#"a"{"# br"\\"'), [(STRING, 'r#"a"{"#'), (STRING, 'br"\\"')])
        self.assertEqual(self.kinds("/* a /* } */ b */ c"), [(COMMENT, "/* a /* } */ b */"), (WORD, "c")])
        self.assertEqual(self.kinds("/// }\n//// }\n//! }"), [(DOC, "/// }"), (COMMENT, "//// }"), (DOC, "//! }")])
        self.assertEqual(self.kinds(r"'{' b'\'' '\u{7d}'"), [(CHAR, "'{'"), (CHAR, r"b'\''"), (CHAR, r"'\u{7d}'")])

    def test_a_lifetime_is_no_char(self):
        self.assertEqual(self.kinds("&'a str 'b: loop"), [("sign", "&"), (LIFETIME, "'a"), (WORD, "str"), (LIFETIME, "'b"), ("sign", ":"), (WORD, "loop")])

    def test_what_does_not_end_is_refused_with_its_line(self):
        for text in ('\n"a', "\n/* a", '\nr#"a"', "\nfn f() { (", "\nfn f() { ) }"):
            with self.assertRaisesRegex(Refused, r"^x\.rt:2: "):
                written(text)


class Small(unittest.TestCase):
    def test_what_is_ghost_goes_and_contracts_are_comments(self):
        text = written(
            "//! Doc.\n#![tactic(auto)]\nghost use A.{b};\n\n/// Gives one.\n#[inline]\npub fn one(x: &[u8]) -> u8\n"
            "    requires some { 1 ≤ length x.now }\n    ensures { result ≡ 1\n        × True }\n{\n    x[0] // }\n}\n"
        )
        wanted = (
            "//! Doc.\n\n/// Gives one.\n// requires some { 1 ≤ length x.now }\n// ensures { result ≡ 1\n//     × True }\n#[inline]\n"
            "pub fn one(x: &[u8]) -> u8 {\n    x[0] // }\n}\n"
        )
        self.assertEqual(text, wanted)

    def test_models_and_ghost_fields_are_comments(self):
        text = written("struct P {\n    pub a: u8,\n    pub ghost few: { a < 3 },\n}\n")
        self.assertEqual(text, "struct P {\n    pub a: u8,\n    // pub ghost few: { a < 3 },\n}\n")
        text = written("struct S {\n    a: u8,\n    ghost few: { a < 3 },\n}\n\nimpl Model for S {\n    ghost view = { λ s. s.a };\n}\n")
        self.assertEqual(text, "struct S {\n    a: u8,\n    // ghost few: { a < 3 },\n}\n\n// In contracts: impl Model for S\n// ghost view = { λ s. s.a };\n")

    def test_bounds_and_derives_lose_drop(self):
        self.assertEqual(written("#[derive(Debug, Drop)]\nstruct S<T: Nv + Drop, U: Drop>(T, U);\n"), "#[derive(Debug)]\nstruct S<T: Nv, U>(T, U);\n")
        self.assertEqual(written("#[derive(Drop)]\nstruct S;\nfn f<T: Drop + Nv>(t: T) -> T {\n    t\n}\n"), "struct S;\nfn f<T: Nv>(t: T) -> T {\n    t\n}\n")

    def test_calls_that_take_memory_are_rewritten(self):
        calls = 'vec![in alloc; [0; 2]; n]?;\n    format!(in alloc; "{x};")?;\n    a.clone()?;\n    b.collect(alloc)?;\n    c.collect()'
        text = written(f"fn f() -> u8 {{\n    {calls}\n}}\n")
        for piece in ("Vec::from_elem(alloc, [0; 2], n)?", 'std::format_in!(alloc, "{x};")?', "a.try_clone()?", "b.collect_in(alloc)?", "c.collect()"):
            self.assertIn(piece, text)

    def test_what_is_taken_of_core_is_taken_of_rtstd(self):
        self.assertEqual(written("use core::mem::replace_with;\nfn f() -> u8 {\n    1\n}\n"), "use std::mem::replace_with;\nfn f() -> u8 {\n    1\n}\n")

    def test_a_law_and_its_calls_go(self):
        text = written("use laws::it_holds;\nfn f(x: u8) -> u8 {\n    it_holds(x);\n    x\n}\nfn it_holds(x: u8)\n    ensures { x ≡ x }\n{}\n", ["it_holds"])
        self.assertEqual(text, "fn f(x: u8) -> u8 {\n    x\n}\n")

    def test_errors_are_displayed_by_their_texts(self):
        variants = ('    /// A.\n    #[error("bad {at}")]\n    Bad { at: u32 },', '    #[error("gone")]\n    Gone,', '    #[error("of {0}")]\n    Of(Other),')
        text = written("#[derive(Debug, Error)]\nenum E {\n" + "\n".join(variants) + "\n}\n")
        for arm in ('Self::Bad { at } => write!(f, "bad {at}"),', 'Self::Gone => write!(f, "gone"),', 'Self::Of(field_0) => write!(f, "of {field_0}"),'):
            self.assertIn(arm, text)
        self.assertNotIn("#[error", text)
        for variant in ("Bad,", '#[error(transparent)] Of(Other)', '#[error("a")] Of(#[from] Other)'):
            with self.assertRaisesRegex(Refused, r"^x\.rt:1: "):
                written(f"#[derive(Error)] enum E {{ {variant} }}\n")

    def test_a_clone_that_may_fail_is_two(self):
        text = written("impl Clone for S {\n    fn clone(&self) -> Result<Self, AllocError> {\n        Ok(S)\n    }\n}\n")
        self.assertIn("impl TryClone for S {\n    fn try_clone(&self) -> Result<Self, AllocError> {", text)
        self.assertIn("impl Clone for S {\n    fn clone(&self) -> Self {", text)

    def test_what_is_not_known_is_refused_with_its_line(self):
        bodies = ("ghost x = { 1 };", "prove!(a);", "unsafe { a }", "a ≤ b;", "vec![1, 2];", "other!(a);", "|x| requires { x } { x };", "let x: Box<dyn T>;")
        for body in bodies:
            with self.assertRaisesRegex(Refused, r"^x\.rt:2: ", msg=body):
                written(f"fn f() -> u8 {{\n    {body}\n}}\n")
        items = ("syntax a = b;", "macro_rules! m {}", "unsafe impl A for B {}", "#[odd]\nfn f() {}", "impl Drop for S {}", "#[derive(Clone)]\nstruct S;")
        for item in items:
            with self.assertRaisesRegex(Refused, r"^x\.rt:\d: ", msg=item):
                written(f"fn f() -> u8 {{\n    1\n}}\n{item}\n")
        with self.assertRaisesRegex(Refused, r"^x\.rt:3: "):
            written("fn f() -> u8 {\n    1 +\n    it_holds(x)\n}\n", ["it_holds"])


class EachCrate(unittest.TestCase):
    @classmethod
    def setUpClass(cls):
        cls.crates = read_list(REPOSITORY)
        for crate in cls.crates.values():
            crate.read()
        cls.laws = law_names(cls.crates)
        cls.made = reached(cls.crates, ["router", "host_core", "swp_tool"], cls.laws, ROOT)

    def test_tokens_make_the_sources_again(self):
        for crate in self.crates.values():
            for path in crate.sources:
                with open(os.path.join(crate.folder, path), encoding="utf-8") as file:
                    text = file.read()
                self.assertEqual(text_of(tokens_of(text, path)), text, f"{crate.name}/{path}")

    def test_each_crate_of_code_is_without_ghosts(self):
        self.assertGreater(len(self.made), 25)
        for crate in self.made:
            for path, text in crate.texts.items():
                words = {token.text for token in tokens_of(text, path) if token.kind == WORD}
                self.assertFalse(words & (GHOST | {"tactic", "Model", "thiserror"}), f"{crate.name}/{path}")
                self.assertFalse(words & self.laws, f"{crate.name}/{path}")

    def test_each_contract_is_kept(self):
        for crate in self.made:
            clauses = [c for s in crate.sources.values() for f in s.functions() if f.name not in self.laws for c in f.clauses]
            kept = "".join(crate.texts.values())
            for clause in clauses:
                self.assertIn("// " + clause.split("\n")[0].rstrip(), kept, crate.name)

    def test_each_document_of_a_function_is_kept(self):
        for crate in self.made:
            kept = "".join(crate.texts.values())
            for source in crate.sources.values():
                for function in source.functions():
                    for token in function.lead if function.name not in self.laws else ():
                        if token.kind == DOC:
                            self.assertIn(token.text, kept, f"{crate.name}: {function.name}")

    def test_nothing_but_laws_is_left_out(self):
        names = {crate.name for crate in self.made}
        for crate in self.made:
            for other in crate.uses:
                self.assertIn(other, names | set(OTHERS), crate.name)


if __name__ == "__main__":
    unittest.main()
