"""Traces that become matches."""

import csv
import os
import unittest

from common import PROGRAM, SAMPLE, Files, play, read, tool

HEAD = "tick,mirror,player,act,at 0,at 1\n"


class Traces(Files):
    def made(self, text, *words):
        return tool("match_of_trace.py", self.file("a.csv", text), *words)

    def cmds(self, text, *words):
        out, said, status = self.made(text, *words)
        self.assertEqual(status, 0, said)
        return [line for line in out.split("\n") if line.startswith(("cmd ", "player ", "arrive "))], said

    @unittest.skipUnless(os.path.exists(PROGRAM), "the program isn't built")
    def test_the_program_accepts_what_a_trace_makes(self):
        text, said, status = tool("match_of_trace.py", SAMPLE)
        self.assertEqual((said, status), ("", 0))
        self.assertEqual(play(text)[-1], "done")
        rows = list(csv.reader(read(SAMPLE).split("\n")[:-1]))[1:]
        self.assertEqual(sum(line.startswith("cmd ") for line in text.split("\n")), len(rows))
        self.assertEqual(sum(line.startswith("arrive ") for line in text.split("\n")), sum(cell != "" for row in rows for cell in row[4:]))

    def test_a_command_arrives_before_its_mirrors_turn_of_the_tick(self):
        text, _, status = self.made(HEAD + "1,0,ann,go,1,3\n0,1,bob,left,,0\n", "--delays", "0 2")
        self.assertEqual(status, 0)
        script = text[text.index("script\n"):].split("\n")[1:-2]
        self.assertEqual(script, ["turn 0", "arrive 1 1 0", "turn 1", "arrive 0 0 0", "turn 0", "turn 1", "turn 0", "turn 1",
                                  "turn 0", "arrive 1 0 0", "turn 1"])

    def test_columns_go_by_their_names(self):
        plain = self.cmds(HEAD + "3,0,ann,go,3,17\n4,1,bob,shoot,9,4\n")
        self.assertEqual(plain[1], "")
        for other in ("\ufeff" + HEAD + "3,0,ann,go,3,17\n4,1,bob,shoot,9,4\n",
                      "at 1;Act;tick;at 0;Player;MIRROR;\r\n17;go;3;3;ann;0;\r\n4;Shoot;4;9;bob;1;\r\n",
                      "player\tat 0\tat 1\ttick\tact\tmirror\nann\t3\t17\t3\tgo\t0\n\nbob\t9\t4\t4\tshoot\t1\n"):
            self.assertEqual(self.cmds(other), plain)

    def test_faulty_columns_are_named(self):
        for head, wrong in (("a,b", "'a' is no column; 'b' is no column; there is no column 'tick'"), ("tick,mirror,player,at 0", "there is no column 'act'"),
                            ("tick,mirror,player,act,at 1", "there is no column 'at 0'"), ("tick,tick,mirror,player,act,at 0", "the column 'tick' stands twice"),
                            ("tick,mirror,player,act,at 0,note", "'note' is no column")):
            out, said, status = self.made(head + "\n")
            self.assertEqual((out, status, said.count("\n")), ("", 1, 1))
            self.assertIn(wrong, said)

    def test_faulty_rows_are_named_ten_at_once(self):
        rows = ["x,0,ann,go,0,0", "0,2,ann,go,0,0", "0,0,,go,0,0", "0,0,ann,jump,0,0", "0,0,ann,go,-1,0", "0,0,ann,go,0,0,9", "9" * 5000 + ",0,ann,go,0,0"]
        out, said, status = self.made(HEAD + "0,0,ann,go,0,0\n" + "\n".join(rows * 2) + "\n")
        self.assertEqual((out, status, said.count("\n")), ("", 1, 11))
        for line, wrong in ((3, "'x' is no tick"), (4, "'2' is no mirror"), (5, "there is no player"), (6, "'jump' is none of the acts"),
                            (7, "'-1' is no arrival at mirror 0"), (8, "7 columns in place of 6"), (9, "is no tick")):
            self.assertIn(f"line {line}: ", said)
            self.assertIn(wrong, said)
        self.assertIn("4 more rows can't be read", said)

    def test_milliseconds_are_cut_into_ticks(self):
        text = HEAD + "99.5,0,ann,go,99.5,180\n100,0,ann,left,100,230.5\n190,1,bob,go,,190\n300,0,ann,go,300,\n"
        lines, said = self.cmds(text, "--ms-per-tick", "50", "--from", "100", "--to", "300")
        self.assertEqual(lines[2:], ["cmd 0 0 0 0 left", "cmd 1 1 0 1 go", "arrive 0 0 0", "arrive 1 1 0", "arrive 1 0 0"])
        self.assertEqual(said, "")

    def test_an_act_for_all_and_names_of_any_kind(self):
        lines, said = self.cmds("tick,mirror,player,at 0\n0,0,Ann Lee,0\n1,0,7f3a,1\n", "--act", "right")
        self.assertEqual([line for line in lines if line.startswith("cmd")], ["cmd 0 0 0 0 right", "cmd 1 0 1 1 right"])
        self.assertIn("players are numbered in order, from p0, 'Ann Lee', to p1, '7f3a'", said)

    def test_what_no_net_does_is_told(self):
        _, said = self.cmds(HEAD + "5,0,ann,go,,7\n5,1,bob,go,3,5\n")
        self.assertIn("1 commands never reach the mirror that issued them", said)
        self.assertIn("1 commands arrive somewhere before they were issued", said)

    def test_faults_are_told_in_a_line(self):
        good = HEAD + "1,0,ann,go,1,3\n"
        for words in (["--grid", "0", "0"], ["--grid", "2", "1"], ["--length", "9000"], ["--length", "0"], ["--length", "1"], ["--delays", "9 1"], ["--ms-per-tick", "0"]):
            out, said, status = self.made(good, *words)
            self.assertNotIn("Traceback", said)
            self.assertEqual((out, status in (1, 2)), ("", True), words)
        self.assertIn("No such file", tool("match_of_trace.py", self.path("nothing"))[1])
        self.assertIn("cut the trace by --from and --to", self.made(HEAD + "9000,0,ann,go,9000,9001\n")[1])


if __name__ == "__main__":
    unittest.main()
