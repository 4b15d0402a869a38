"""Tests of what the tools read: trees and events in the program's output, scripts in pages, and what `rt try` says of runs."""
import contextlib
import io
import json
import os
import re
import sys
import tempfile
import types
import unittest
import unittest.mock

sys.dont_write_bytecode = True
import beside  # noqa: E402
import cases  # noqa: E402
import pages  # noqa: E402
import programs  # noqa: E402
import prose  # noqa: E402
import runs  # noqa: E402
import serving  # noqa: E402
import signatures  # noqa: E402
import unproved  # noqa: E402

TRY = programs.program("try")
LOOK = programs.program("look")
# A stand-in for `rt`, whose program answers a script with its words and itself, and stops at one of them.
STAND_IN = """import sys
scripts, answers = open(sys.argv[-2], "rb"), open(sys.argv[-1], "wb")
for head in scripts:
    count, *words = head.decode().split()
    script = scripts.read(int(count))
    if script == b"stop":
        sys.exit("checked: fault kind=overflow\\nrun=fault proved=no")
    output = " ".join(words).encode() + script
    status = "3 {} domrun: memory\\n" if script == b"memory" else "0 {} \\n"
    answers.write(status.format(len(output)).encode() + output)
    answers.flush()
"""


def served(scripts: list[unproved.Case], rt: str = STAND_IN) -> tuple[list[unproved.Answer], list[str]]:
    """What scripts are answered, and what is told meanwhile, where another program stands in for `rt`."""
    told: list[str] = []
    with tempfile.TemporaryDirectory() as folder:
        path = os.path.join(folder, "rt")
        with open(path, "w", encoding="utf-8") as file:
            file.write(f"#!{sys.executable}\n{rt}")
        os.chmod(path, 0o755)
        with unittest.mock.patch.dict(os.environ, {"PATH": folder}), unittest.mock.patch("serving.fill", lambda room: room):
            return unproved.run(scripts, told.append), told


def text_of(path: str) -> str:
    """The text of a file of the repository."""
    with open(os.path.join(unproved.ROOT, path), encoding="utf-8") as file:
        return file.read()


class Trees(unittest.TestCase):
    def test_a_tree_has_its_nodes_with_attributes_and_data(self) -> None:
        tree = runs.tree_of('(n1 element p id="a (b)" (n2 text "x \\"y\\"") (n3 comment ""))')
        self.assertEqual((tree.name, tree.kind, tree.tag, tree.own), ("n1", "element", "p", ['id="a (b)"']))
        self.assertEqual([(child.name, child.kind, child.own) for child in tree.children],
                         [("n2", "text", ['"x \\"y\\""']), ("n3", "comment", ['""'])])

    def test_a_component_s_node_is_named_with_its_owner(self) -> None:
        self.assertEqual(runs.whole_name("c1.2", "m3"), "c1.2:m3")
        self.assertEqual(runs.whole_name("c1", "n3"), "n3")


class Events(unittest.TestCase):
    def test_a_path_is_the_visits_while_capturing_the_other_way_round(self) -> None:
        lines = ["p event look e phase=2 target=n1 current=n1 related=null path=[n1]",
                 "c1 event look e phase=2 target=m1 current=m1 related=null path=[m1,m0,n1]"]
        event = runs.event_of("e", [runs.EVENT.fullmatch(line) for line in lines])
        self.assertEqual([item["node"] for item in event.items], ["c1:m1", "n1"])
        self.assertEqual(event.seen["p"]["path"], ["n1"])
        self.assertEqual(event.seen["c1"]["path"], ["c1:m1", "c1:m0", "n1"])

    def test_a_merged_path_keeps_the_order_of_both(self) -> None:
        one, other = ["n2", "c1:m1", "n1"], ["n2", "c2:m1", "c2:m0", "n1"]
        both = runs.merged(one, other)
        self.assertEqual(sorted(both), sorted({*one, *other}))
        self.assertEqual([node for node in both if node in one], one)
        self.assertEqual([node for node in both if node in other], other)


class Pages(unittest.TestCase):
    def test_an_answer_stands_behind_its_line_or_below_it(self) -> None:
        page = "text\n\n```\np dispatch n1 e\n  => p event a\n  => p ok true\np . => p ok\n```\n\n```\nno script\n```\n"
        blocks = pages.blocks_in(page, "page.md")
        self.assertEqual([block.number for block in blocks], [4])
        self.assertEqual(blocks[0].lines, ["p dispatch n1 e", "p ."])
        self.assertEqual(blocks[0].wanted, ["p event a", "p ok true", "p ok"])


    def test_an_arrow_in_a_string_is_no_answer(self) -> None:
        line = 'p new text "a => \\" => b"'
        self.assertEqual(pages.commands_of([line + " => p ok n1"]), [pages.Command(1, line, ["p ok n1"])])

    def test_lines_with_their_answers_are_read_back(self) -> None:
        lines, answers = ["p dispatch n1 e", "oh", "p micro k"], ["p event a e phase=2", "p ok true", "! owner", "p ok", "p micro k"]
        text = pages.text_of(lines, answers)
        self.assertIn("oh => ! owner\n", text)
        read = pages.Block("", 1, pages.commands_of(text.splitlines()))
        self.assertEqual((read.lines, read.wanted), (lines, answers))


class Protocol(unittest.TestCase):
    def test_each_command_has_its_place_in_the_first_table_and_a_row(self) -> None:
        words = re.findall(r'^keyword_word Keyword\.\w+ = codes "([^"]+)"', text_of("crates/dom_text/specs/Commands.antt"), re.MULTILINE)
        first, others = text_of("docs/PROTOCOL.md").split("## Lines")
        self.assertGreater(len(words), 50)
        for part in (first, others):
            rows = [row for row in part.split("\n") if row.startswith("| `")]
            told = {command.split(" ")[0] for row in rows for command in re.findall(r"`([^`]+)`", row.replace("\\|", ""))}
            self.assertEqual([word for word in words if word not in told], [])


class Prose(unittest.TestCase):
    def test_a_sentence_ends_at_its_sign_and_code_is_none(self) -> None:
        page = "# Title\n\n**One.** Two: `three` goes on. (Four.) 5 is five.\n\n    code that. Is none\n\n| a cell | Another. Cell |\n"
        found = [sentence for sentence in prose.sentences(page) if sentence.strip()]
        self.assertEqual(found, ["# Title", "One.", "Two: `three` goes on.", "(Four.", "5 is five.", "a cell", "Another.", "Cell"])

    def test_a_colon_does_not_end_a_sentence(self) -> None:
        self.assertEqual(list(prose.sentences("It has two: A and B.")), ["It has two: A and B."])

    def test_pronouns_whose_noun_stands_elsewhere_are_found(self) -> None:
        for sentence, found in (("A list of which one is kept.", ["of which"]), ("The rules are those of the Standard.", ["those of"]),
                                ("So are the others.", ["So are"]), ("- These are empty.", ["- These are"]), ("Take those.", ["those"])):
            self.assertEqual(prose.bare_pronouns(sentence), found)

    def test_a_pronoun_with_its_noun_is_none(self) -> None:
        for sentence in ("These lists are empty.", "So the list is empty.", "So it is never asked.", "Ask those people."):
            self.assertEqual(prose.bare_pronouns(sentence), [])

    def test_of_a_long_page_the_words_are_counted(self) -> None:
        self.assertEqual(list(prose.lengths_of("docs/GATE.md", "word " * 2001)), ["docs/GATE.md: 2001 words"])
        told = ["README.md: 121 lines", "README.md:1: 111 characters"]
        self.assertEqual(list(prose.lengths_of("README.md", "a" * 111 + "\n" * 121)), told)

    def test_a_cell_of_links_to_contracts_is_no_sentence(self) -> None:
        self.assertEqual([cell.strip() for cell in prose.paragraphs("| said | [`a.rt: A::b`](a.rt) |") if cell.strip()], ["said"])

    def test_links_are_no_words(self) -> None:
        self.assertEqual(list(prose.sentences("See [this page](docs/A.md).")), ["See [this page]."])


class Looks(unittest.TestCase):
    def test_a_page_has_the_data_of_all_its_scripts_in_place_of_the_mark(self) -> None:
        page = LOOK.page_of([{"title": "a"}, {"title": "</script>"}])
        self.assertIn('const scripts = [{"title":"a"},{"title":"\\u003c/script>"}];', page)
        self.assertNotIn("/*DATA*/", page)

    def test_the_page_in_the_documents_has_the_present_template_and_scripts(self) -> None:
        template, page = text_of("tools/look.html"), text_of("docs/look/index.html")
        front, back = template.split("/*DATA*/null")
        self.assertTrue(page.startswith(front) and page.endswith(back))
        scripts = json.loads(page[len(front):len(page) - len(back)])
        self.assertEqual(len(scripts), 3)
        shown = [[step["line"] for step in script["steps"] if step["line"]] for script in scripts]
        self.assertEqual(shown, [text_of(f"docs/look/{name}.in").splitlines() for name in ("closed-click", "slot", "nested-component")])

    def test_the_title_says_how_the_program_was_built_and_whose_view_it_is(self) -> None:
        words = types.SimpleNamespace(view=None, unproved=True)
        self.assertEqual(LOOK.title_of("scripts/a.in", words), "a.in, by a build without a proof")
        self.assertEqual(LOOK.title_of("a.in", types.SimpleNamespace(view="c1", unproved=False)), "What c1 may know")


class Pictures(unittest.TestCase):
    def test_each_crate_is_in_one_group_of_the_picture_and_stands_on_lower_ones(self) -> None:
        folder = os.path.join(unproved.ROOT, "docs", "pictures")
        with unittest.mock.patch.object(sys, "path", [folder, *sys.path]):
            import crates
        crates.check(crates.uses_of(os.path.join(unproved.ROOT, "crates.txt")))


class Signatures(unittest.TestCase):
    def test_the_head_of_a_call_is_one_line_without_its_clauses(self) -> None:
        source = "    pub fn set(\n        &mut self,\n        key: Key,\n    ) -> Result<(), Fault>\n        requires { key < 1 }\n    {\n"
        self.assertEqual(signatures.head_at(source, 0), "fn set(&mut self, key: Key) -> Result<(), Fault>")
        self.assertEqual(signatures.head_at("pub fn law()\n    ensures { a }\n{\n}\n", 0), "fn law()")


class Listeners(unittest.TestCase):
    def test_a_listener_with_once_goes_when_it_was_called(self) -> None:
        found = {("p", "n1", "e", "a", ""): beside.Listener("p", "n1", "e", "a", "log", ["once"]),
                 ("p", "n1", "e", "b", ""): beside.Listener("p", "n1", "e", "b", "log", [])}
        beside.without_once(found, [f"p event {label} e phase=2 target=n1 current=n1 related=null path=[n1]" for label in "ab"])
        self.assertEqual([listener.label for listener in found.values()], ["b"])


class Plain(unittest.TestCase):
    def test_a_script_is_compared_with_the_answers_that_stand_in_it(self) -> None:
        case = cases.plain_case("mine.txt", b"p micro k => p ok\np .\n  => p ok\n  => p micro k\n")
        self.assertEqual((case.script, case.wanted), (b"p micro k\np .\n", b"p ok\np ok\np micro k\n"))

    def test_lines_alone_are_run_as_they_stand(self) -> None:
        for script in (b'p new text "a => b"\n', b"p .", b"\np .\n\n"):
            self.assertEqual(cases.plain_case("mine.txt", script), unproved.Case("mine.txt", script))

    def test_a_carriage_return_is_refused_before_anything_is_built(self) -> None:
        with self.assertRaisesRegex(unproved.Fault, "mine.txt, line 2: .* carriage return"):
            cases.plain_case("mine.txt", b"p .\np .\r\n")


class Runs(unittest.TestCase):
    def test_each_script_has_an_answer_of_its_own_from_one_start(self) -> None:
        scripts = [unproved.Case("a", b"p .\n", ["--view", "p"]), unproved.Case("b", b"x" * 200000), unproved.Case("c", b"memory")]
        answers, told = served(scripts)
        self.assertEqual([answer.output for answer in answers], [b"--view pp .\n", b"x" * 200000, b"memory"])
        self.assertEqual([answer.fault for answer in answers], ["", "", "ended with status 3; domrun: memory"])
        self.assertRegex("\n".join(told), "^3 scripts\nbuilding .*\nthe program is built, after [0-9]+ seconds$")

    def test_the_program_that_serves_is_domrun_with_another_main(self) -> None:
        text = text_of("crates/domrun/src/main.rt")
        self.assertEqual((text.count(serving.MAIN), text.count("fn run_reader<")), (1, 1))

    def test_it_is_told_how_many_scripts_were_run(self) -> None:
        told = served([unproved.Case(f"{number}", b"p .\n") for number in range(120)])[1]
        self.assertEqual(told[3:], ["50 of 120 scripts were run", "100 of 120 scripts were run"])

    def test_behind_a_script_at_which_the_program_stops_the_others_are_run_on_another_build(self) -> None:
        answers, told = served([unproved.Case(name, name.encode()) for name in ("a", "stop", "b")])
        self.assertEqual([answer.output for answer in answers], [b"a", b"", b"b"])
        self.assertEqual([answer.fault for answer in answers], ["", "stopped; checked: fault kind=overflow", ""])
        self.assertIn("the program stopped at stop; the others need another build", told)

    def test_after_three_builds_no_more_scripts_are_run(self) -> None:
        answers = served([unproved.Case(name, name.encode()) for name in ("stop", "stop", "stop", "a")])[0]
        self.assertEqual(answers[-1].fault, "was not run")

    def test_where_no_program_is_built_it_is_said_why(self) -> None:
        with self.assertRaisesRegex(unproved.Fault, "built no program:\nsrc/main.rt:4:24: error"):
            served([unproved.Case("a", b"p .\n")], "import sys\nsys.exit('src/main.rt:4:24: error\\nrun=none proved=no')\n")

    def test_a_program_that_does_not_end_well_is_a_fault(self) -> None:
        with self.assertRaisesRegex(unproved.Fault, "did not end well after the last script:\nchecked: leak"):
            served([unproved.Case("a", b"p .\n")], STAND_IN + "sys.exit('checked: leak')\n")

    def test_another_output_than_the_expected_one_is_wrong(self) -> None:
        case = unproved.Case("a", b"p .\n", [], b"p ok\n")
        self.assertTrue(unproved.Answer(case, b"p ok\n", "").is_right())
        self.assertFalse(unproved.Answer(case, b"p ! busy\n", "").is_right())
        told = cases.differences(unproved.Answer(case, b"p ! busy\n", ""))
        self.assertEqual(told, ["a:1: p .", "  expected: p ok", "  answered: p ! busy"])

    def test_what_is_answered_otherwise_has_its_line_in_the_file(self) -> None:
        script = b"p . => p ok\np dispatch n0 e\n  => p event a e\n  => p ok true\np micro k => p ok\n  => p micro k\n"
        case = cases.plain_case("mine.txt", script)
        told = cases.differences(unproved.Answer(case, b"p ok\np ok true\np ok\np micro l\n", ""))
        self.assertEqual(told[:4], ["mine.txt:2: p dispatch n0 e", "  expected: p event a e", "  expected: p ok true",
                                    "  answered: p ok true"])
        self.assertEqual(told[4:], ["mine.txt:5: p micro k", "  expected: p ok", "  expected: p micro k", "  answered: p ok",
                                    "  answered: p micro l"])

    def test_a_line_without_an_answer_is_told_so(self) -> None:
        case = cases.plain_case("mine.txt", b"p . => p ok\np .\n")
        told = cases.differences(unproved.Answer(case, b"p ok\np ok\n", ""))
        self.assertEqual(told, ["mine.txt:2: p .", "  expected: nothing", "  answered: p ok"])

    def test_a_block_of_a_page_has_the_lines_of_the_page(self) -> None:
        block = pages.blocks_in("text\n\n```\np .\n  => p ok\np . => p ok\n```\n", "page.md")[0]
        case = cases.expected_case("page.md, line 4", "page.md", block.commands)
        self.assertEqual(cases.differences(unproved.Answer(case, b"p ok\np ! busy\n", ""))[0], "page.md:6: p .")

    def test_with_lines_a_script_that_was_compared_is_named(self) -> None:
        case = cases.plain_case("mine.txt", b"p . => p ok\np .\n  => p ok\n")
        otherwise = "== mine.txt: not as expected\nmine.txt:2: p .\n  expected: p ok\n  answered: nothing\n"
        for output, with_lines, wanted in ((b"p ok\np ok\n", True, "mine.txt: 2 lines as expected\n"), (b"p ok\np ok\n", False, ""),
                                           (b"p ok\n", True, otherwise)):
            with contextlib.redirect_stdout(io.StringIO()) as told:
                TRY.show(unproved.Answer(case, output, ""), False, with_lines)
            self.assertEqual(told.getvalue(), wanted)

    def test_of_many_lines_ten_are_shown(self) -> None:
        case = unproved.Case("a.in", b"p .\n" * 15, [], b"p ok\n" * 15)
        told = cases.differences(unproved.Answer(case, b"", ""))
        self.assertEqual((len(told), told[-1]), (31, "5 more lines are answered otherwise"))


if __name__ == "__main__":
    unittest.main()
