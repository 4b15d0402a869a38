"""Tests of what the gate and those who build by it use: which edits are due, how long it takes, totals, wrong definitions, and packages."""
import contextlib
import io
import os
import subprocess
import sys
import tempfile
import unittest
import unittest.mock

sys.dont_write_bytecode = True
import alike  # noqa: E402
import landing  # noqa: E402
import lemmas  # noqa: E402
import programs  # noqa: E402
import reckoning  # noqa: E402
import sources  # noqa: E402

BUILD, DECLARATIONS, TOTALS, WRONG = (programs.program(name) for name in ("build", "declarations", "totals", "wrong"))


class Landing(unittest.TestCase):
    def test_edits_are_due_where_a_crate_has_changed_and_each_third_time(self) -> None:
        crates = ["low", "middle", "high", "apart"]
        now = {crate: "1" for crate in crates}
        self.assertEqual(landing.due(crates, 0, {}, now), ([], crates, []))
        self.assertEqual(landing.due(crates, 1, {**now, "high": "0"}, now), ([], ["high"], ["middle"]))
        turns = [landing.due(crates, number, now, now)[2] for number in range(3)]
        self.assertEqual(sorted(sum(turns, [])), sorted(crates))

    def test_what_is_owed_comes_first_until_a_landing_that_has_time_for_it(self) -> None:
        now = {"low": "1", "middle": "2", "high": "3"}
        text = landing.text_of_record(7, now, ["middle"])
        self.assertEqual(text.splitlines()[1:], ["landing 8", "high 3", "low 1", "middle owed"])
        self.assertEqual(landing.due(list(now), 8, {"low": "0", "middle": "owed", "high": "3"}, now), (["middle"], ["low"], ["high"]))

    def test_a_crate_changes_with_each_one_below_it(self) -> None:
        self.assertIn("dom_model", sources.below()["dom_tree"])
        self.assertNotIn("dom_tree", sources.below()["dom_model"])


class Reckoning(unittest.TestCase):
    COSTS = reckoning.Costs({"low": 600, "high": 1200, "apart": 300}, {"low": set(), "high": {"low"}, "apart": set()},
                            {"low": 10, "high": 25, "apart": 0})

    def test_a_gate_takes_its_longest_chain_at_least_and_all_its_seconds_by_cores(self) -> None:
        self.assertEqual(self.COSTS.chain(), 1800)
        self.assertEqual(self.COSTS.minutes(reckoning.Machine(1, 1.0), []), (2100 + reckoning.REST) / 60)
        self.assertEqual(self.COSTS.minutes(reckoning.Machine(4, 1.0), []), (1800 + reckoning.REST) / 60)
        with_edits = 2100 + 600 + 10 * reckoning.EDIT
        self.assertEqual(self.COSTS.minutes(reckoning.Machine(1, 2.0), ["low"]), 2 * (with_edits + reckoning.REST) / 60)

    def test_edits_are_taken_in_their_order_as_long_as_there_is_time(self) -> None:
        self.assertEqual(self.COSTS.fitting(reckoning.Machine(4, 1.0), ["low", "high"]), ["low", "high"])
        self.assertEqual(self.COSTS.fitting(reckoning.Machine(1, 2.0), ["low", "high"]), ["low"])
        self.assertEqual(self.COSTS.fitting(reckoning.Machine(1, 2.0), ["high", "low"]), ["high"])
        self.assertEqual(self.COSTS.fitting(reckoning.Machine(1, 9.0), ["high", "low"]), [])

    def test_a_crate_without_a_row_costs_what_the_others_do(self) -> None:
        page = "| crate | functions | seconds |\n| `a` | 5 | 100 | 3 / 1 | `b` | 22 tests | 1,300 |  |\n"
        self.assertEqual(reckoning.seconds_in(page, ["a", "b", "c"]), {"a": 100, "b": 1300, "c": 700})

    def test_the_slowest_machine_has_time_for_the_proofs(self) -> None:
        self.assertLess(reckoning.costs().minutes(reckoning.SLOWEST, []), reckoning.MINUTES)

    def test_a_machine_on_which_there_is_time_for_all_is_not_asked(self) -> None:
        with unittest.mock.patch("reckoning.slowness", side_effect=AssertionError):
            with unittest.mock.patch("os.sched_getaffinity", lambda _: set(range(64))):
                self.assertEqual(reckoning.this_machine(self.COSTS, []), reckoning.Machine(64, reckoning.MOST))


class Declarations(unittest.TestCase):
    EXPORTS = """pub const DONE: u32 = 0;
#[unsafe(no_mangle)]
pub extern "C" fn dom_put(
    alloc: Global,
    session: &mut DomSession,
    units: &[u16],
    is_last: bool,
    at: &mut *const u8,
) -> u32
"""
    HEADER = """    OWLANTIMONY_DONE = 0,
    OWLANTIMONY_NULL = 6
uint32_t dom_put(owlantimony_session *session, const uint16_t *units, size_t unit_count, bool is_last,
                 const uint8_t **at);
"""

    def told(self, old: str, new: str) -> list[str]:
        self.assertEqual(self.HEADER.count(old), 1)
        return list(DECLARATIONS.differences(self.EXPORTS, self.HEADER.replace(old, new)))

    def test_a_header_that_says_what_is_exported_has_no_difference(self) -> None:
        self.assertEqual(self.told("dom_put", "dom_put"), [])

    def test_each_other_parameter_name_and_number_is_told(self) -> None:
        parameters = (("const uint16_t", "uint16_t"), ("bool is_last", "int is_last"), ("**at", "*at"))
        for old, new in (*parameters, ("DONE = 0", "DONE = 1"), ("uint32_t dom", "int dom")):
            self.assertEqual(len(self.told(old, new)), 1, old)
        self.assertEqual(len(self.told("dom_put", "dom_take")), 2)

    def test_an_export_that_is_not_understood_is_told(self) -> None:
        exports = self.EXPORTS + '#[unsafe(no_mangle)]\npub extern "C" fn dom_call(f: fn(u32)) -> u32\n'
        self.assertEqual(list(DECLARATIONS.differences(exports, self.HEADER)), ["2 functions are exported, and 1 are read"])
        self.assertRaises(DECLARATIONS.Unknown, DECLARATIONS.exported, self.EXPORTS.replace("&[u16]", "&[Word]"))

    def test_each_other_member_of_a_structure_is_told(self) -> None:
        kinds = "pub struct DomPart {\n    pub node: DomNode,\n    pub at: *const u16,\n    pub flags: u32,\n    pub count: u32,\n}\n"
        header = ("typedef struct owl_part {\n    owl_node node; /* a node; it is one */\n"
                  "    const uint16_t *at;\n    uint32_t flags, count;\n} owl_part;\n")
        self.assertEqual(list(DECLARATIONS.typed_differences("", kinds, header)), [])
        members = (("owl_node", "owl_point"), ("const uint16_t", "uint16_t"), ("flags, count", "count, flags"), ("flags, ", ""))
        for old, new in (*members, ("owl_part", "owl_row")):
            self.assertEqual(len(list(DECLARATIONS.typed_differences("", kinds, header.replace(old, new)))), 1, old)


class Build(unittest.TestCase):
    # A stand-in for `rt`, which proves all crates of the folder that it runs in and builds domrun, or says that one is not proved.
    RT = """import os, sys
for line in open("crates.txt"):
    name = line.split(":")[0]
    is_wrong = os.path.exists(f"crates/{name}/src/wrong")
    print(f"== {name}\\nwhat is said of {name}\\nrt: {name} {'NOT PROVED' if is_wrong else 'proved'}")
    if is_wrong or os.path.exists(f"crates/{name}/must-fail"):
        sys.exit(1)
if os.path.exists("crates/domrun"):
    os.mkdir("crates/domrun/out")
    open("crates/domrun/out/domrun", "w").write("built")
"""

    def built(self, names: list[str], wrong: str = "") -> tuple[bool, str]:
        """Whether what is named is built in a made-up repository, and what is told."""
        with (tempfile.TemporaryDirectory() as root, unittest.mock.patch("sources.ROOT", root),
              unittest.mock.patch("reckoning.GATE", os.path.join(root, "GATE.md")), contextlib.redirect_stdout(io.StringIO()) as told):
            files = {"crates.txt": "low:\napart:\ndomrun: low\n", "HANDLES": "", "bindings/library": ""}
            files["GATE.md"] = "| `low` | 9 | 300 |\n| `domrun` | 9 | 100 |\n"
            files["rt"] = f"#!{sys.executable}\n{self.RT}"
            files |= {f"crates/{crate}/{path}": "" for crate in ("low", "apart", "domrun") for path in ("src/lib.rt", "must-fail/a.edit")}
            for path, text in (files | ({wrong: ""} if wrong else {})).items():
                os.makedirs(os.path.dirname(os.path.join(root, path)), exist_ok=True)
                with open(os.path.join(root, path), "w", encoding="utf-8") as file:
                    file.write(text)
            os.chmod(os.path.join(root, "rt"), 0o755)
            with unittest.mock.patch.dict(os.environ, {"PATH": root}):
                is_built = BUILD.build(names)
            self.assertEqual(os.path.exists(os.path.join(root, BUILD.PROGRAM)), is_built and "domrun" in names)
        return is_built, told.getvalue()

    def test_the_program_is_built_of_the_crates_below_it_without_their_edits(self) -> None:
        is_built, told = self.built(["domrun"])
        self.assertTrue(is_built)
        self.assertRegex(told, "low is proved: 1 of 2 crates after 0 minutes, 25 % of the work left\n.*domrun is proved: 2 of 2 crates")
        self.assertNotIn("apart", told)

    def test_a_crate_that_is_not_proved_is_shown(self) -> None:
        is_built, told = self.built(["domrun"], "crates/low/src/wrong")
        self.assertFalse(is_built)
        self.assertIn("what is said of low\nrt: low NOT PROVED\nlow is NOT PROVED: 1 of 2 crates", told)

    def test_a_crate_is_proved_alone(self) -> None:
        self.assertIn("apart is proved: 1 of 1 crates", self.built(["apart"])[1])


class WrongDefinitions(unittest.TestCase):
    TEXT = "says: it adds nothing\nfile: a.antt\nold: one\nnew: two\nold: x {\nnew: y {\ncheck: low law\nrefused: the-goal\n"

    def test_what_is_put_in_place_may_have_several_lines(self) -> None:
        wrong = WRONG.wrong_in("name", self.TEXT.replace("new: two", "new: two\nnew:   three"))
        self.assertEqual(wrong.changes, [("a.antt", "one", "two\n  three"), ("a.antt", "x {", "y {")])

    def test_a_wrong_definition_is_read(self) -> None:
        wrong = WRONG.wrong_in("name", self.TEXT)
        self.assertEqual(wrong.changes, [("a.antt", "one", "two"), ("a.antt", "x {", "y {")])
        self.assertEqual((wrong.says, wrong.crate, wrong.function, wrong.goal), ("it adds nothing", "low", "law", "the-goal"))

    def test_it_is_put_in_place_where_each_text_stands_once(self) -> None:
        wrong = WRONG.wrong_in("name", self.TEXT)
        with tempfile.TemporaryDirectory() as room:
            for text, wanted in (("one x {", {"a.antt": "two y {"}), ("one one x {", None), ("x {", None)):
                WRONG.put(room, {"a.antt": text})
                if wanted:
                    self.assertEqual(WRONG.changed(room, wrong), wanted)
                else:
                    self.assertRaisesRegex(ValueError, "a.antt does not have just once: one", WRONG.changed, room, wrong)

    def test_the_goal_has_to_be_refused_and_not_another_alone(self) -> None:
        said = "A.antt:1:2: error: `other`: expected\nA.antt:9:2: error: 2 declarations that depend on `the-goal`, were not checked"
        self.assertEqual(WRONG.verdict(1, said, "the-goal"), "the-goal is not refused, but other")
        self.assertEqual(WRONG.verdict(1, said + "\n./B.antt:3:4: error: `the-goal`: no", "the-goal"), "")
        self.assertEqual(WRONG.verdict(0, "", "the-goal"), "it is accepted")

    def test_each_is_tried_in_a_copy_which_is_as_before_then(self) -> None:
        rt = "import sys\ntext = open('../../a.antt').read()\nsys.exit(f'error: `{text}`: ' + ' '.join(sys.argv[1:]))\n"
        wrong = WRONG.wrong_in("name", self.TEXT.replace("the-goal", "two y {"))
        with tempfile.TemporaryDirectory() as room:
            os.makedirs(os.path.join(room, "crates", "low"))
            WRONG.put(room, {"a.antt": "one x {", "rt": f"#!{sys.executable}\n{rt}"})
            os.chmod(os.path.join(room, "rt"), 0o755)
            with unittest.mock.patch.dict(os.environ, {"PATH": room}):
                self.assertEqual(WRONG.tried(room, wrong), "")
            with open(os.path.join(room, "a.antt"), encoding="utf-8") as file:
                self.assertEqual(file.read(), "one x {")


class Setup(unittest.TestCase):
    # Stand-ins: all packages but one are installed, and apt gets what CAN names.
    KNOWN = """#!/bin/sh
for package; do :; done
case "$package" in valgrind) test -e "$ROOM/valgrind" || exit 1 ;; esac
printf 'install ok installed'
"""
    APT = """#!/bin/sh
echo "$@" >> "$ROOM/calls"
case "$CAN,$*" in yes,*install*valgrind*) touch "$ROOM/valgrind" ;; *) exit 100 ;; esac
"""

    def tried(self, can: str) -> tuple[int, str, list[str]]:
        """The exit status of bindings/setup --try, its last line, and the calls of apt."""
        with tempfile.TemporaryDirectory() as room:
            for name, text in (("dpkg-query", self.KNOWN), ("apt-get", self.APT)):
                with open(os.path.join(room, name), "w", encoding="utf-8") as file:
                    file.write(text)
                os.chmod(os.path.join(room, name), 0o755)
            environment = {**os.environ, "PATH": f"{room}:{os.environ['PATH']}", "ROOM": room, "CAN": can}
            words = [os.path.join(sources.ROOT, "bindings", "setup"), "--try"]
            ran = subprocess.run(words, env=environment, capture_output=True, text=True)
            with open(os.path.join(room, "calls"), encoding="utf-8") as file:
                return ran.returncode, ran.stdout.splitlines()[-1], [line.split(" -")[0] for line in file]

    def test_what_is_missing_is_installed(self) -> None:
        self.assertEqual(self.tried("yes"), (0, "setup: all packages are here", ["update", "install"]))

    def test_without_the_network_it_says_what_is_missing_and_does_not_fail(self) -> None:
        left = "setup: could not have valgrind; the tests that use them are skipped by name"
        self.assertEqual(self.tried("no"), (0, left, ["update", "install", "install"]))


class Totals(unittest.TestCase):
    LIMITS = "# a comment\npairs    12  # as counted\ncrates   3   # as counted\n"

    def test_a_total_above_its_limit_is_refused(self) -> None:
        self.assertEqual(TOTALS.faults({"pairs": 12, "crates": 3}, self.LIMITS), [])
        told = TOTALS.faults({"pairs": 13, "crates": 3}, self.LIMITS)
        self.assertEqual((len(told), told[0][:28]), (1, "pairs is 13 and may be 12: a"))

    def test_a_limit_has_a_reason_and_a_total_has_a_limit(self) -> None:
        told = TOTALS.faults({"pairs": 1, "crates": 3}, "pairs 12\nothers 4  # why\n")
        self.assertEqual(told, ["tools/limits: pairs has no reason after `#`", "tools/limits: no limit of a total: others 4  # why",
                                "tools/limits: crates has no limit"])

    def test_limits_are_lowered_and_never_raised(self) -> None:
        self.assertEqual(TOTALS.lowered({"pairs": 9, "crates": 4}, self.LIMITS), self.LIMITS.replace("12", " 9"))

    def test_seconds_are_read_from_the_table_of_the_gate(self) -> None:
        page = "| a | together | longest chain: to x, to y |\n|---|---|---|\n| 4,870 | 7,310 | 2,180, 2,190 |\n"
        self.assertEqual((TOTALS.measured("together", page), TOTALS.measured("longest chain", page)), (7310, 2190))
        self.assertEqual(TOTALS.measured("together", "no table"), 0)

    def test_the_table_of_the_gate_is_there(self) -> None:
        self.assertGreater(TOTALS.gate("together"), TOTALS.gate("longest chain"))
        self.assertGreater(TOTALS.gate("longest chain"), 0)

    def test_passages_are_of_one_shape_whatever_their_names_are(self) -> None:
        one = [f"let a{number} = f(b, {number});" for number in range(6)]
        other = ["// a comment", "", *(line.replace("b", "c").replace("f", "g") for line in one), "}"]
        self.assertEqual(alike.pairs_in({"x": alike.shapes_of(one), "y": alike.shapes_of(other)}), {("x", "y")})
        self.assertEqual(alike.pairs_in({"x": alike.shapes_of(one[:5]), "y": alike.shapes_of(other)}), set())
        self.assertEqual(alike.pairs_in({"x": alike.shapes_of(one + one)}), {("x", "x")})

    def test_what_stands_in_many_places_is_a_form_of_writing(self) -> None:
        lines = alike.shapes_of(["a b"] * 6)
        self.assertEqual(alike.pairs_in({str(number): lines for number in range(9)}), set())

    def test_a_statement_is_the_same_with_other_names(self) -> None:
        one, other = "(a b : ℕ) → a + b ≡ b + a", "(m n : ℕ) → m + n ≡ n + m"
        self.assertEqual(lemmas.renamed(one), lemmas.renamed(other))
        self.assertNotEqual(lemmas.renamed(one), lemmas.renamed("(m n : ℕ) → m + n ≡ m + n"))
        files = {path: [f"pub {name} : {text}", f"{name} x y = refl"] for path, name, text in (("A", "swap", one), ("B", "turn", other))}
        self.assertEqual(list(alike.repeated(files).values()), [{"A", "B"}])


if __name__ == "__main__":
    unittest.main()
