"""Encodings and logs with the line that `check` is to print of them, worked out by hand from docs/FORMATS.md.

`tools/test_plain_check.py` holds the plain checker against them, `bench/check_logs.py` the program too.
"""
from __future__ import annotations

from typing import Iterator, List, Tuple

Case = Tuple[str, bytes, bytes, str]

WIDEST = 2**125
UNSATISFIABLE = "accepted unsatisfiable"
SATISFIABLE = "accepted satisfiable"
UNDECIDED = "accepted undecided"

HEAD = "* #variable= 3 #constraint= 1\n"
GOOD = "+1 x1 >= 1 ;\n"

#: What it shows; the text of the encoding, its number of constraints, and what is printed with a log that claims nothing.
ENCODINGS: List[Tuple[str, str, int, str]] = [
    ("as it is written", HEAD + GOOD, 1, UNDECIDED),
    ("no constraint and no variable", "* #variable= 0 #constraint= 0\n", 0, UNDECIDED),
    ("no terms", HEAD + ">= 1 ;\n", 1, UNDECIDED),
    ("a comment and blank lines", HEAD + "*\n*no\n\n \t\n* x\n  * x\n" + GOOD + "\n", 1, UNDECIDED),
    ("blanks and tabs", HEAD + "\t +1\t \tx1  >=\t1 \t; \t\n", 1, UNDECIDED),
    ("blanks in the first line", "  *\t#variable=  3 #constraint=\t1 \n" + GOOD, 1, UNDECIDED),
    ("carriage returns", HEAD.replace("\n", "\r\n") + "+1 x1 >= 1 ;\r\n\r\n", 1, UNDECIDED),
    ("a carriage return behind a last line without its end", HEAD + "+1 x1 >= 1 ;\r", 1, "encoding: line 2: Form"),
    ("two carriage returns", HEAD + "+1 x1 >= 1 ;\r\r\n", 1, "encoding: line 2: Form"),
    ("a carriage return in a line", HEAD + "+1 x1\r >= 1 ;\n", 1, "encoding: line 2: Form"),
    ("no line end after the last line", HEAD + "+1 x1 >= 1 ;", 1, UNDECIDED),
    ("no line end after the first line", "* #variable= 3 #constraint= 0", 0, UNDECIDED),
    ("a coefficient without sign", HEAD + "1 x1 >= 1 ;\n", 1, UNDECIDED),
    ("a bound with a sign", HEAD + "+1 x1 >= +1 ;\n", 1, UNDECIDED),
    ("`;` behind the bound", HEAD + "+1 x1 >= -1;\n", 1, UNDECIDED),
    ("a zero coefficient, a zero with a sign", HEAD + "+0 x1 -0 x2 >= -0 ;\n", 1, UNDECIDED),
    ("leading zeros", "* #variable= 03 #constraint= 001\n+001 x001 >= 01 ;\n", 1, UNDECIDED),
    ("more in the first line", "* #variable= 3 #constraint= 1 #equal= 0 x\n" + GOOD, 1, UNDECIDED),
    ("terms out of order, one variable twice", HEAD + "+1 x3 +2 x1 -1 x3 >= 1 ;\n", 1, UNDECIDED),
    ("an empty text", "", 0, "encoding: line 1: Header"),
    ("no first line", GOOD, 1, "encoding: line 1: Header"),
    ("a blank line first", "\n" + HEAD + GOOD, 1, "encoding: line 1: Header"),
    ("one word less in the first line", "* #variable= 3 #constraint=\n" + GOOD, 1, "encoding: line 1: Header"),
    ("words of the first line exchanged", "* #constraint= 1 #variable= 3\n" + GOOD, 1, "encoding: line 1: Header"),
    ("the star with its word", "*#variable= 3 #constraint= 1\n" + GOOD, 1, "encoding: line 1: Header"),
    ("a number with its word", "* #variable=3 #constraint= 1\n" + GOOD, 1, "encoding: line 1: Header"),
    ("a sign in the first line", "* #variable= +3 #constraint= 1\n" + GOOD, 1, "encoding: line 1: Header"),
    ("a comma after the second number", "* #variable= 3 #constraint= 1, #equal= 0\n" + GOOD, 1, "encoding: line 1: Header"),
    ("most variables", "* #variable= 4294967295 #constraint= 1\n+1 x4294967295 >= 1 ;\n", 1, UNDECIDED),
    ("too many variables", "* #variable= 4294967296 #constraint= 1\n" + GOOD, 1, "encoding: line 1: Header"),
    ("most constraints", f"* #variable= 3 #constraint= {2**63 - 1}\n" + GOOD, 1, "encoding: line 3: Count"),
    ("too many constraints", f"* #variable= 3 #constraint= {2**63}\n" + GOOD, 1, "encoding: line 1: Header"),
    ("an aim", HEAD + "min: +1 x1 ;\n" + GOOD, 1, "encoding: line 2: Objective"),
    ("an aim after blanks", HEAD + GOOD + " max: +1 x1 ;\n", 1, "encoding: line 3: Objective"),
    ("an aim in one word", HEAD + "min:+1 x1 ;\n" + GOOD, 1, "encoding: line 2: Objective"),
    ("no aim", HEAD + "minimum +1 x1 ;\n" + GOOD, 1, "encoding: line 2: Form"),
    ("an equality", HEAD + "+1 x1 = 1 ;\n", 1, "encoding: line 2: Equality"),
    ("an equality without terms", HEAD + "= 1 ;\n", 1, "encoding: line 2: Equality"),
    ("`=` where a variable is due", HEAD + "+1 = 1 ;\n", 1, "encoding: line 2: Form"),
    ("`=` where the bound is due", HEAD + "+1 x1 >= = 1 ;\n", 1, "encoding: line 2: Form"),
    ("a product", HEAD + "+1 x1 x2 >= 1 ;\n", 1, "encoding: line 2: Product"),
    ("a product with no such variable", HEAD + "+1 x1 x4 >= 1 ;\n", 1, "encoding: line 2: Product"),
    ("a variable without coefficient", HEAD + "x1 >= 1 ;\n", 1, "encoding: line 2: Form"),
    ("no such variable without coefficient", HEAD + "x4 >= 1 ;\n", 1, "encoding: line 2: NoSuchVariable"),
    ("no such variable for the bound", HEAD + "+1 x1 >= x4 ;\n", 1, "encoding: line 2: NoSuchVariable"),
    ("variable 0", HEAD + "+1 x0 >= 1 ;\n", 1, "encoding: line 2: NoSuchVariable"),
    ("the variable after the last", HEAD + "+1 x4 >= 1 ;\n", 1, "encoding: line 2: NoSuchVariable"),
    ("a variable's number of many digits", HEAD + f"+1 x{10**80} >= 1 ;\n", 1, "encoding: line 2: NoSuchVariable"),
    ("an x alone", HEAD + "+1 x >= 1 ;\n", 1, "encoding: line 2: Form"),
    ("a capital X", HEAD + "+1 X1 >= 1 ;\n", 1, "encoding: line 2: Form"),
    ("a sign in a variable", HEAD + "+1 x+1 >= 1 ;\n", 1, "encoding: line 2: Form"),
    ("a negated variable", HEAD + "+1 ~x1 >= 1 ;\n", 1, "encoding: line 2: Form"),
    ("the widest coefficient", HEAD + f"-{WIDEST} x1 >= {WIDEST} ;\n", 1, UNDECIDED),
    ("a wide coefficient", HEAD + f"+{WIDEST + 1} x1 >= 1 ;\n", 1, "encoding: line 2: Wide"),
    ("a coefficient of many digits", HEAD + f"-1{'0' * 5000} x1 >= 1 ;\n", 1, "encoding: line 2: Wide"),
    ("a wide bound", HEAD + f"+1 x1 >= -{WIDEST + 1} ;\n", 1, "encoding: line 2: Wide"),
    ("a wide bound with `;`", HEAD + f"+1 x1 >= {WIDEST + 1};\n", 1, "encoding: line 2: Wide"),
    ("zeros make no number wide", HEAD + f"+{'0' * 200}1 x1 >= 1 ;\n", 1, UNDECIDED),
    ("a wide number where a variable is due", HEAD + f"+1 {WIDEST + 1} >= 1 ;\n", 1, "encoding: line 2: Wide"),
    ("a wide number with `;` for a coefficient", HEAD + f"+{WIDEST + 1}; x1 >= 1 ;\n", 1, "encoding: line 2: Wide"),
    ("a number with `;` for a coefficient", HEAD + "+1; x1 >= 1 ;\n", 1, "encoding: line 2: Form"),
    ("a wide number with two `;`", HEAD + f"+1 x1 >= {WIDEST + 1};;\n", 1, "encoding: line 2: Form"),
    ("a wide number after the end", HEAD + f"+1 x1 >= 1 ; {WIDEST + 1}\n", 1, "encoding: line 2: Wide"),
    ("the widest sum", HEAD + f"+{WIDEST - 2} x1 +1 x2 -1 x3 >= 1 ;\n", 1, UNDECIDED),
    ("a wide sum", HEAD + f"+{WIDEST - 2} x1 +2 x2 -1 x3 >= 1 ;\n", 1, "encoding: line 2: Wide"),
    ("a wide sum of one variable's", HEAD + f"+{WIDEST} x1 -1 x1 >= 1 ;\n", 1, "encoding: line 2: Wide"),
    ("a wide sum, then a fault of form", HEAD + f"+{WIDEST} x1 +1 x2 >= 1\n", 1, "encoding: line 2: Form"),
    ("a wide sum, then an equality", HEAD + f"+{WIDEST} x1 +1 x2 = 1 ;\n", 1, "encoding: line 2: Equality"),
    ("a wide sum, then no such variable", HEAD + f"+{WIDEST} x1 +1 x4 >= 1 ;\n", 1, "encoding: line 2: NoSuchVariable"),
    ("no end", HEAD + "+1 x1 >= 1\n", 1, "encoding: line 2: Form"),
    ("no bound", HEAD + "+1 x1 >= ;\n", 1, "encoding: line 2: Form"),
    ("no relation", HEAD + "+1 x1 ;\n", 1, "encoding: line 2: Form"),
    ("a coefficient too many", HEAD + "+1 x1 +1 >= 1 ;\n", 1, "encoding: line 2: Form"),
    ("words after the end", HEAD + "+1 x1 >= 1 ; * x\n", 1, "encoding: line 2: Form"),
    ("a second `;`", HEAD + "+1 x1 >= 1;;\n", 1, "encoding: line 2: Form"),
    ("a second `;` apart", HEAD + "+1 x1 >= 1; ;\n", 1, "encoding: line 2: Form"),
    ("two signs", HEAD + "+-1 x1 >= 1 ;\n", 1, "encoding: line 2: Form"),
    ("a sign apart", HEAD + "+ 1 x1 >= 1 ;\n", 1, "encoding: line 2: Form"),
    ("no blank before the bound", HEAD + "+1 x1 >=1 ;\n", 1, "encoding: line 2: Form"),
    ("no blank before the variable", HEAD + "+1x1 >= 1 ;\n", 1, "encoding: line 2: Form"),
    ("another relation", HEAD + "+1 x1 <= 1 ;\n", 1, "encoding: line 2: Form"),
    ("a constraint on two lines", HEAD + "+1 x1\n>= 1 ;\n", 1, "encoding: line 2: Form"),
    ("another kind of blank", HEAD + "+1 x1\v>= 1 ;\n", 1, "encoding: line 2: Form"),
    ("a constraint less", HEAD + "* x\n\n", 1, "encoding: line 4: Count"),
    ("a constraint less and no last line end", HEAD + "*", 1, "encoding: line 3: Count"),
    ("a constraint more", HEAD + GOOD + GOOD, 1, "encoding: line 4: Count"),
    ("a constraint more, and a fault after it", HEAD + GOOD + GOOD + "+1 x1\n", 1, "encoding: line 4: Form"),
]

#: The encoding of the logs below; its last two constraints contradict the others.
MODEL = """* #variable= 4 #constraint= 5
+1 x1 +1 x2 >= 1 ;
-1 x1 -1 x2 >= -1 ;
+2 x1 -3 x3 >= 0 ;
-1 x1 >= 0 ;
-1 x2 >= 0 ;
"""
#: One with the solution x1.
LOOSE = """* #variable= 4 #constraint= 2
+1 x1 +1 x2 >= 1 ;
-1 x1 -1 x2 >= -1 ;
"""

#: What it shows; the lines after the first two; what is printed over MODEL.
LOGS: List[Tuple[str, str, str]] = [
    ("a sum", "p 0.1 1 4 + 5 + ;\ne 0.1\n", UNSATISFIABLE),
    ("a line of units", "u 0.1 ; 1 4 5 1 ;\ne 0.1\n", UNSATISFIABLE),
    ("nothing claimed", "q\n", UNDECIDED),
    ("a line cut", "p 0.1 1 4 + 5 + ;\ne 0.1", "log: line 4: EndsEarly"),
    ("no last line", "p 0.1 1 4 + 5 + ;\n", "log: line 4: EndsEarly"),
    ("a line cut, of no form", "p 0.1 1 4 + 5 + ;\nnonsense", "log: line 4: EndsEarly"),
    ("text after the last line", "q\nq\n", "log: line 4: Form"),
    ("a blank line after the last line", "q\n\n", "log: line 4: Form"),
    ("text after the last line, without line end", "q\nq", "log: line 4: Form"),
    ("a faulty last line and text after it", "e 1\nq\n", "log: line 3: NotFalse"),
    ("an empty line", "\nq\n", "log: line 3: Form"),
    ("a carriage return", "q\r\n", "log: line 3: Form"),
    ("a blank before", " q\n", "log: line 3: Form"),
    ("a blank after", "q \n", "log: line 3: Form"),
    ("two blanks", "p 0.1  1 ;\nq\n", "log: line 3: Form"),
    ("a tab", "p 0.1\t1 ;\nq\n", "log: line 3: Form"),
    ("a word after `q`", "q 1\n", "log: line 3: Form"),
    ("two references of `e`", "e 1 2\n", "log: line 3: Form"),
    ("no reference of `e`", "e\n", "log: line 3: Form"),
    ("another letter", "x 0.1\nq\n", "log: line 3: Form"),
    ("the second line again", "m 5\nq\n", "log: line 3: Form"),
    # Words
    ("no end of operations", "p 0.1 1\nq\n", "log: line 3: Form"),
    ("`;` behind a word", "p 0.1 1;\nq\n", "log: line 3: Form"),
    ("`;` within operations", "p 0.1 1 ; 2 + ;\nq\n", "log: line 3: Form"),
    ("no name", "p 1 ;\nq\n", "log: line 3: Form"),
    ("nothing but the letter", "p\nq\n", "log: line 3: Form"),
    ("nothing but the letter of `u`", "u\nq\n", "log: line 3: Form"),
    ("a name of one number", "p 1 1 ;\nq\n", "log: line 3: Form"),
    ("a name of three numbers", "p 0.1.1 1 ;\nq\n", "log: line 3: Form"),
    ("the last maker", "p 64.1 1 ;\nq\n", UNDECIDED),
    ("no such maker", "p 65.1 1 ;\nq\n", "log: line 3: Form"),
    ("the name before the first", "p 0.0 1 ;\nq\n", "log: line 3: Form"),
    ("a leading zero in a name", "p 00.1 1 ;\nq\n", "log: line 3: Form"),
    ("a leading zero behind the point", "p 0.01 1 ;\nq\n", "log: line 3: Form"),
    ("a leading zero in a reference", "p 0.1 01 ;\nq\n", "log: line 3: Form"),
    ("a leading zero in a literal", "p 0.1 x01 ;\nq\n", "log: line 3: Form"),
    ("a leading zero in a factor", "p 0.1 1 02 * ;\nq\n", "log: line 3: Form"),
    ("a sign", "p 0.1 +1 ;\nq\n", "log: line 3: Form"),
    ("no such maker in a reference", "p 0.1 65.1 ;\nq\n", "log: line 3: Form"),
    ("the name before the first in a reference", "p 0.1 0.0 ;\nq\n", "log: line 3: Form"),
    ("a factor", f"p 0.1 1 {2**63 - 1} * ;\nq\n", UNDECIDED),
    ("a factor out of range", f"p 0.1 1 {2**63} * ;\nq\n", "log: line 3: Form"),
    ("a factor of many digits", f"p 0.1 1 1{'0' * 5000} * ;\nq\n", "log: line 3: Form"),
    ("a name out of range", f"p 0.{2**63} 1 ;\nq\n", "log: line 3: Form"),
    ("a name at the end of the range", f"p 0.{2**63 - 1} 1 ;\nq\n", "log: line 3: Order"),
    ("a reference out of range", f"p 0.1 {2**63} ;\nq\n", "log: line 3: Form"),
    ("the last variable", "p 0.1 x4 ;\nq\n", UNDECIDED),
    ("no such variable", "p 0.1 x5 ;\nq\n", "log: line 3: Form"),
    ("variable 0", "p 0.1 x0 ;\nq\n", "log: line 3: Form"),
    ("no such variable, negated", "p 0.1 ~x5 ;\nq\n", "log: line 3: Form"),
    ("no such variable in a `u` line", "u 0.1 x5 ; 1 4 5 ;\nq\n", "log: line 3: Form"),
    ("two tildes", "p 0.1 ~~x1 ;\nq\n", "log: line 3: Form"),
    ("`*` without number", "p 0.1 1 2 + * ;\nq\n", "log: line 3: Form"),
    ("`*` behind a name", "p 0.1 1 0.1 * ;\nq\n", "log: line 3: Form"),
    ("`d` without number", "p 0.1 d ;\nq\n", "log: line 3: Form"),
    ("a number serves one `*`", "p 0.1 1 2 * * ;\nq\n", "log: line 3: Form"),
    ("`+` with a number", "p 0.1 1 2 + ;\nq\n", UNDECIDED),
    ("a literal among references", "u 0.1 ; 1 x1 ;\nq\n", "log: line 3: Form"),
    ("a reference among literals", "u 0.1 1 ; 1 ;\nq\n", "log: line 3: Form"),
    ("one `;` of a `u` line", "u 0.1 1 ;\nq\n", "log: line 3: Form"),
    ("three `;` of a `u` line", "u 0.1 ; 1 ; 4 ;\nq\n", "log: line 3: Form"),
    ("no end of a `u` line", "u 0.1 ; 1 4 5\nq\n", "log: line 3: Form"),
    # Names
    ("a name that is used", "p 0.1 1 ;\np 0.1 1 ;\nq\n", "log: line 4: NameUsed"),
    ("a name that is used, by a `u` line", "p 0.1 1 ;\nu 0.1 ; 1 4 5 ;\nq\n", "log: line 4: NameUsed"),
    ("a name left out", "p 0.1 1 ;\np 0.3 1 ;\nq\n", "log: line 4: Order"),
    ("names of two makers", "p 3.1 1 ;\np 0.1 1 ;\np 3.2 1 ;\nu 0.2 ; 4 5 1 ;\nq\n", UNDECIDED),
    ("a form before a name", "p 0.1 1 ;\np 0.1 x1\nq\n", "log: line 4: Form"),
    ("a used name before a reference", "p 0.1 1 ;\np 0.1 7.7 ;\nq\n", "log: line 4: NameUsed"),
    ("an order before a reference", "p 0.2 7.7 ;\nq\n", "log: line 3: Order"),
    ("an order before a variable twice", "u 0.2 x1 x1 ; 1 4 5 ;\nq\n", "log: line 3: Order"),
    ("a further name", "p 0.1 1 4 + 5 + ;\nn 0 0.1\ne #0\n", UNSATISFIABLE),
    ("the last further name", "p 0.1 1 ;\nn 4194303 0.1\nq\n", UNDECIDED),
    ("a further name out of range", "p 0.1 1 ;\nn 4194304 0.1\nq\n", "log: line 4: Form"),
    ("a further name out of range in a reference", "p 0.1 #4194304 ;\nq\n", "log: line 3: Form"),
    ("a further name with its sign", "p 0.1 1 ;\nn #0 0.1\nq\n", "log: line 4: Form"),
    ("a further name of nothing", "n 0 0.1\nq\n", "log: line 3: NoSuchName"),
    ("a further name without reference", "n 0\nq\n", "log: line 3: Form"),
    ("a further name that is given", "p 0.1 1 ;\nn 3 0.1\nn 3 0.1\nq\n", "log: line 5: NameUsed"),
    ("a further name that is given, before a greater one", "p 0.1 1 ;\nn 3 0.1\nn 5 0.1\nn 3 0.1\nq\n", "log: line 6: NameUsed"),
    ("a further name below one", "p 0.1 1 ;\nn 3 0.1\nn 2 0.1\nq\n", "log: line 5: Order"),
    ("a further name below one, of nothing", "p 0.1 1 ;\nn 3 0.1\nn 2 7.7\nq\n", "log: line 5: Order"),
    # Deletions
    ("a deleted name", "p 0.1 1 ;\nd 0.1\np 0.2 0.1 ;\nq\n", "log: line 5: NoSuchName"),
    ("a deleted name among references", "p 0.1 1 ;\nd 0.1\nu 0.2 ; 4 5 0.1 ;\nq\n", "log: line 5: NoSuchName"),
    ("a deleted name claimed", "p 0.1 1 4 + 5 + ;\nd 0.1\ne 0.1\n", "log: line 5: NoSuchName"),
    ("a deleted name shared", "p 0.1 1 ;\nd 0.1\nn 3 0.1\nq\n", "log: line 5: NoSuchName"),
    ("a deleted name deleted again", "p 0.1 1 ;\nd 0.1\nd 0.1\nq\n", "log: line 5: NoSuchName"),
    ("a deleted name made again", "p 0.1 1 ;\nd 0.1\np 0.1 1 ;\nq\n", "log: line 5: NameUsed"),
    ("a deleted name counts in the order", "p 0.1 1 ;\nd 0.1\np 0.3 1 ;\nq\n", "log: line 5: Order"),
    ("the name behind a deleted one", "p 0.1 1 ;\nd 0.1\np 0.2 1 4 + 5 + ;\ne 0.2\n", UNSATISFIABLE),
    ("a name between others deleted", "p 0.1 1 ;\np 0.2 4 ;\np 0.3 5 ;\nd 0.2\np 0.4 0.1 4 + 0.3 + ;\ne 0.4\n", UNSATISFIABLE),
    ("a further name outlives the name", "p 0.1 1 4 + 5 + ;\nn 3 0.1\nd 0.1\ne #3\n", UNSATISFIABLE),
    ("a name outlives its further name", "p 0.1 1 4 + 5 + ;\nn 3 0.1\nd #3\ne 0.1\n", UNSATISFIABLE),
    ("a further name outlives another", "p 0.1 1 4 + 5 + ;\nn 3 0.1\nn 5 0.1\nd 0.1\nd #3\ne #5\n", UNSATISFIABLE),
    ("a deleted further name", "p 0.1 1 4 + 5 + ;\nn 3 0.1\nd #3\ne #3\n", "log: line 6: NoSuchName"),
    ("a deleted further name deleted again", "p 0.1 1 ;\nn 3 0.1\nd #3\nd #3\nq\n", "log: line 6: NoSuchName"),
    ("a deleted further name given again", "p 0.1 1 ;\nn 3 0.1\nd #3\nn 3 0.1\nq\n", "log: line 6: NameUsed"),
    ("a deleted further name counts in the order", "p 0.1 1 ;\nn 3 0.1\nd #3\nn 2 0.1\nq\n", "log: line 6: Order"),
    ("a name deleted that is not made", "d 0.1\nq\n", "log: line 3: NoSuchName"),
    ("a further name deleted that is not given", "d #0\nq\n", "log: line 3: NoSuchName"),
    ("a constraint of the encoding deleted", "d 3\nq\n", "log: line 3: Form"),
    ("no constraint of the encoding deleted", "d 9\nq\n", "log: line 3: Form"),
    ("nothing deleted", "d\nq\n", "log: line 3: Form"),
    ("two names deleted in one line", "p 0.1 1 ;\np 0.2 1 ;\nd 0.1 0.2\nq\n", "log: line 5: Form"),
    ("a deletion with an end", "p 0.1 1 ;\nd 0.1 ;\nq\n", "log: line 4: Form"),
    ("a leading zero in what is deleted", "p 0.1 1 ;\nd 0.01\nq\n", "log: line 4: Form"),
    ("two further names of one", "p 0.1 1 4 + 5 + ;\nn 3 0.1\nn 9 0.1\np 0.2 #3 #9 + ;\ne 0.2\n", UNSATISFIABLE),
    ("a further name of a further name", "p 0.1 1 4 + 5 + ;\nn 3 0.1\nn 9 #3\ne #9\n", "log: line 5: Form"),
    ("a further name of the encoding's", "n 0 1\nq\n", "log: line 3: Form"),
    ("a further name is not the maker's", "p 0.1 1 ;\nn 2 0.1\np 0.2 #2 ;\nq\n", UNDECIDED),
    ("a reference to itself", "p 0.1 0.1 ;\nq\n", "log: line 3: NoSuchName"),
    ("a reference to what comes", "p 0.1 0.2 ;\np 0.2 1 ;\nq\n", "log: line 3: NoSuchName"),
    ("a constraint after the last", "p 0.1 6 ;\nq\n", "log: line 3: NoSuchName"),
    ("a constraint before the first", "p 0.1 0 ;\nq\n", "log: line 3: NoSuchName"),
    ("a claim of nothing", "e 0.1\n", "log: line 3: NoSuchName"),
    # Literals
    ("a variable twice", "u 0.1 x1 x1 ; 1 ;\nq\n", "log: line 3: Twice"),
    ("a variable twice, once negated", "u 0.1 x1 x2 ~x1 ; 1 ;\nq\n", "log: line 3: Twice"),
    ("a variable twice before a reference", "u 0.1 x1 x1 ; 7.7 ;\nq\n", "log: line 3: Twice"),
    ("a reference to nothing after the contradiction", "u 0.1 ; 1 4 5 7.7 ;\nq\n", "log: line 3: NoSuchName"),
    ("a literal twice in operations", "p 0.1 x1 x1 + ;\nq\n", UNDECIDED),
    # Operations
    ("no operations", "p 0.1 ;\nq\n", "log: line 3: Stack"),
    ("two constraints left", "p 0.1 1 2 ;\nq\n", "log: line 3: Stack"),
    ("nothing to add to", "p 0.1 1 + ;\nq\n", "log: line 3: Stack"),
    ("nothing to multiply", "p 0.1 2 * ;\nq\n", "log: line 3: Stack"),
    ("nothing to divide", "p 0.1 2 d ;\nq\n", "log: line 3: Stack"),
    ("nothing to saturate", "p 0.1 s ;\nq\n", "log: line 3: Stack"),
    ("nothing to multiply by 0", "p 0.1 0 * ;\nq\n", "log: line 3: Zero"),
    ("a name before too little", "p 0.1 7.7 + ;\nq\n", "log: line 3: NoSuchName"),
    ("too little before a name", "p 0.1 + 7.7 ;\nq\n", "log: line 3: Stack"),
    ("a factor 0", "p 0.1 1 0 * ;\nq\n", "log: line 3: Zero"),
    ("a divisor 0", "p 0.1 1 0 d ;\nq\n", "log: line 3: Zero"),
    ("a zero before a name", "p 0.1 1 0 * 7.7 ;\nq\n", "log: line 3: Zero"),
    ("a name before a zero", "p 0.1 7.7 0 * ;\nq\n", "log: line 3: NoSuchName"),
    ("a zero before two left", "p 0.1 1 2 0 d ;\nq\n", "log: line 3: Zero"),
    ("an axiom", "p 0.1 x1 ~x1 + ;\ne 0.1\n", "log: line 4: NotFalse"),
    # -1 x1 >= 0 is ~x1 >= 1; a half of it, rounded up, is the same
    ("a quotient of a negated variable", "p 0.1 4 2 d ;\np 0.2 1 0.1 + 5 + ;\ne 0.2\n", UNSATISFIABLE),
    # 2 x1 + 3 ~x3 >= 3; a half is x1 + 2 ~x3 >= 2, for which ~x3 is enough and x1 is not
    ("coefficients are rounded up", "p 0.1 3 2 d ;\nu 0.2 x1 x3 ; 0.1 ;\nq\n", "log: line 4: NoConflict"),
    ("the bound is rounded up", "p 0.1 3 2 d ;\nu 0.2 ~x1 ~x3 ; 0.1 ;\nq\n", UNDECIDED),
    # with twice ~x1 >= 1 it is 3 ~x3 >= 3
    ("a quotient after a sum", "p 0.1 3 4 2 * + 3 d ;\nu 0.2 ~x3 ; 0.1 ;\nq\n", UNDECIDED),
    # 0 >= -3; a half of it is 0 >= -1, which 0 >= 1 twice makes false
    ("a bound below 0 is rounded up", "p 0.1 x1 ~x1 + 3 * 2 d 1 4 + 5 + 2 * + ;\ne 0.1\n", UNSATISFIABLE),
    # three times less twice the contrary
    ("a multiple", "p 0.1 1 3 * 2 2 * + ;\nu 0.2 x1 x2 ; 0.1 ;\nq\n", UNDECIDED),
    # 4 x4 + x1 + x2 >= 1 with and without, and x1 + x2 >= 1 beside it: is x4 enough for 2?
    ("saturation", "p 0.1 1 x4 4 * + s 1 + ;\nu 0.2 x1 x2 ~x4 ; 0.1 ;\nq\n", UNDECIDED),
    ("no saturation", "p 0.1 1 x4 4 * + 1 + ;\nu 0.2 x1 x2 ~x4 ; 0.1 ;\nq\n", "log: line 4: NoConflict"),
    # the same with ~x1 + ~x2 >= 1
    ("saturation with negated variables", "p 0.1 2 x4 4 * + s 2 + ;\nu 0.2 ~x1 ~x2 ~x4 ; 0.1 ;\nq\n", UNDECIDED),
    # 3 x4 >= -3 saturated is 0 >= -3: 0 >= 1 four times makes it false, and three times does not
    ("saturation by a bound below 0", "p 0.1 x4 x1 ~x1 + + 3 * s 1 4 + 5 + 4 * + ;\ne 0.1\n", UNSATISFIABLE),
    ("saturation leaves the bound", "p 0.1 x4 x1 ~x1 + + 3 * s 1 4 + 5 + 3 * + ;\ne 0.1\n", "log: line 4: NotFalse"),
    # 0 >= 2; a third of it is 0 >= 1
    ("a false constraint, divided", "p 0.1 1 4 + 5 + 2 * 3 d ;\ne 0.1\n", UNSATISFIABLE),
    ("not false of itself", "p 0.1 1 4 + ;\ne 0.1\n", "log: line 4: NotFalse"),
    # -x1 >= 1 is never so, but has a term
    ("false with a term", "p 0.1 4 1 4 + 5 + + ;\ne 0.1\n", "log: line 4: NotFalse"),
    ("false with a term, followed", "p 0.1 4 1 4 + 5 + + ;\nu 0.2 ; 0.1 ;\ne 0.2\n", UNSATISFIABLE),
    ("0 >= 0", "p 0.1 1 4 + 5 + x1 ~x1 + + ;\ne 0.1\n", "log: line 4: NotFalse"),
    ("not false of itself, though of the encoding", "e 4\n", "log: line 3: NotFalse"),
    # Width: 2^62 times 2^62 is 2^124, twice that the widest
    ("the widest", f"p 0.1 x1 {2**62} * {2**62} * 2 * ;\nq\n", UNDECIDED),
    ("wide", f"p 0.1 x1 {2**62} * {2**62} * 2 * x1 + ;\nq\n", "log: line 3: Wide"),
    ("wide below 0", f"p 0.1 4 {2**62} * {2**62} * 3 * ;\nq\n", "log: line 3: Wide"),
    ("a wide bound", f"p 0.1 1 4 + 5 + {2**62} * {2**62} * 3 * ;\nq\n", "log: line 3: Wide"),
    ("wide on the way", f"p 0.1 x1 {2**62} * {2**62} * 3 * {2**62} d ;\nq\n", "log: line 3: Wide"),
    ("wide before a name", f"p 0.1 x1 {2**62} * {2**62} * 3 * 7.7 ;\nq\n", "log: line 3: Wide"),
    ("wide numbers that make one away", f"p 0.1 x1 {2**62} * {2**62} * 2 * ~x1 {2**62} * {2**62} * 2 * + ;\nq\n", UNDECIDED),
    # x1 + x2 >= 1 so many times: what counts is the sum of the coefficients
    ("the widest sum of coefficients", f"p 0.1 1 {2**62} * {2**62} * ;\nu 0.2 x1 x2 ; 0.1 ;\nq\n", UNDECIDED),
    ("a wide sum of coefficients", f"p 0.1 1 {2**62} * {2**62} * 2 * ;\nq\n", "log: line 3: Wide"),
    ("a wide sum of coefficients below 0", f"p 0.1 2 {2**62} * {2**62} * 2 * ;\nq\n", "log: line 3: Wide"),
    # -x1 >= 1 so many times: in normal form its bound is twice the widest, and one operation more leaves it so
    ("a bound wide in normal form", f"p 0.1 4 1 4 + 5 + + {2**62} * {2**62} * 2 * ;\nu 0.2 ; 0.1 ;\ne 0.2\n", UNSATISFIABLE),
    ("a bound wide in normal form, divided", f"p 0.1 4 1 4 + 5 + + {2**62} * {2**62} * 2 * 1 d s ;\nu 0.2 ; 0.1 ;\ne 0.2\n", UNSATISFIABLE),
    # -x1 >= -2 so many times: in normal form its bound is the widest
    ("a bound wide over the variables", f"p 0.1 ~x1 x2 + ~x2 + {2**62} * {2**62} * 2 * ;\nq\n", "log: line 3: Wide"),
    # Following
    ("nothing follows from the last", "u 0.1 ; 1 4 5 4 ;\nq\n", "log: line 3: NoConflict"),
    ("out of order", "u 0.1 ; 1 4 5 ;\nq\n", "log: line 3: NoConflict"),
    ("in order", "u 0.1 ; 4 5 1 ;\nq\n", UNDECIDED),
    ("a reference from which nothing follows", "u 0.1 ; 3 4 3 5 1 ;\nq\n", UNDECIDED),
    ("no references", "u 0.1 x1 x2 ; ;\nq\n", "log: line 3: NoConflict"),
    ("nothing at all", "u 0.1 ; ;\nq\n", "log: line 3: NoConflict"),
    ("the contradiction before the last reference", "u 0.1 ; 4 5 1 2 ;\nq\n", UNDECIDED),
    ("the literals are false", "u 0.1 x1 x2 ; 1 ;\nq\n", UNDECIDED),
    ("the literals are not true", "u 0.1 x1 ~x2 ; 1 ;\nq\n", "log: line 3: NoConflict"),
    ("a clause is added to", "u 0.1 x1 ; 5 1 ;\np 0.2 0.1 4 + ;\ne 0.2\n", UNSATISFIABLE),
    ("a clause of negated literals", "u 0.1 ~x1 ~x2 ; 2 ;\np 0.2 0.1 1 + ;\ne 0.2\n", "log: line 5: NotFalse"),
    ("an empty clause is 0 >= 1", "u 0.1 ; 4 5 1 ;\np 0.2 0.1 2 * 2 d ;\ne 0.2\n", UNSATISFIABLE),
    # 3 is 2 x1 + 3 ~x3 >= 3, and x1 and x3 leave 2
    ("a negated variable in a constraint", "u 0.1 ~x1 ~x3 ; 3 ;\nq\n", UNDECIDED),
    ("both of its literals true", "u 0.1 ~x1 x3 ; 3 ;\nq\n", "log: line 3: NoConflict"),
    # with nothing false its slack is 2: so ~x3 follows, and x1 does not
    ("a weight above the slack", "u 0.1 x3 x4 ; 4 5 1 ;\nu 0.2 x4 ; 3 0.1 ;\nq\n", UNDECIDED),
    ("a weight equal to the slack", "u 0.1 ; 3 4 ;\nq\n", "log: line 3: NoConflict"),
    ("a weight above a slack of 0", "u 0.1 x3 x4 ; 4 5 1 ;\nu 0.2 x1 x4 ; 3 0.1 ;\nq\n", UNDECIDED),
    # 2 holds with one of its variables true, and then the other is false; with both it does not hold
    ("a true literal counts", "u 0.1 ~x1 x2 ; 2 ;\nq\n", "log: line 3: NoConflict"),
    ("what follows is kept", "u 0.1 ~x1 ; 2 5 1 ;\nq\n", "log: line 3: NoConflict"),
    ("a false constraint", "p 0.1 1 4 + 5 + ;\nu 0.2 ; 0.1 ;\ne 0.2\n", UNSATISFIABLE),
    # Solutions
    ("no solution", "y x1\n", "log: line 3: NotSolution"),
    ("a variable twice in the solution", "y x1 x1\n", "log: line 3: Twice"),
    ("a negated variable in the solution", "y ~x1\n", "log: line 3: Form"),
    ("no such variable in the solution", "y x5\n", "log: line 3: Form"),
    ("a number in the solution", "y 1\n", "log: line 3: Form"),
    ("no variables in the solution", "y\n", "log: line 3: NotSolution"),
]

#: What it shows; the whole log; what is printed over LOOSE.
WHOLE: List[Tuple[str, str, str]] = [
    ("a solution", "embedding proof 1\nm 2\ny x1\n", SATISFIABLE),
    ("a solution in another order", "embedding proof 1\nm 2\ny x4 x1\n", SATISFIABLE),
    ("an empty solution", "embedding proof 1\nm 2\ny\n", "log: line 3: NotSolution"),
    ("a blank for no solution", "embedding proof 1\nm 2\ny \n", "log: line 3: Form"),
    ("too many ones", "embedding proof 1\nm 2\ny x1 x2\n", "log: line 3: NotSolution"),
    ("an empty text", "", "log: line 1: EndsEarly"),
    ("a first line cut", "embedding proof 1", "log: line 1: EndsEarly"),
    ("a first line alone", "embedding proof 1\n", "log: line 2: EndsEarly"),
    ("two lines alone", "embedding proof 1\nm 2\n", "log: line 3: EndsEarly"),
    ("another first line", "embedding proof 3\nm 2\nq\n", "log: line 1: Form"),
    ("a log without hints", "embedding proof 2\nm 2\nq\n", UNDECIDED),
    ("a first line without hints, cut", "embedding proof 2", "log: line 1: EndsEarly"),
    ("a line of units without hints", "embedding proof 2\nm 2\nu 0.1 x1 x2 ;\nq\n", UNDECIDED),
    ("no contradiction without hints", "embedding proof 2\nm 2\nu 0.1 x1 ;\nq\n", "log: line 3: NoConflict"),
    ("the literals are not true, without hints", "embedding proof 2\nm 2\nu 0.1 x1 ~x2 ;\nq\n", "log: line 3: NoConflict"),
    ("what was made serves the next", "embedding proof 2\nm 2\np 0.1 1 x1 + ;\nu 0.2 x1 x2 ;\nu 0.3 x3 x1 x2 ;\nq\n", UNDECIDED),
    ("what is assumed ends with its line", "embedding proof 2\nm 2\nu 0.1 x1 x2 ;\nu 0.2 x1 ;\nq\n", "log: line 4: NoConflict"),
    ("a used name comes first without hints", "embedding proof 2\nm 2\nu 0.1 x1 x2 ;\nu 0.1 x1 x1 ;\nq\n", "log: line 4: NameUsed"),
    ("a variable twice before no contradiction", "embedding proof 2\nm 2\nu 0.1 x3 x3 ;\nq\n", "log: line 3: Twice"),
    ("a line with hints in a log without", "embedding proof 2\nm 2\nu 0.1 x1 x2 ; 1 ;\nq\n", "log: line 3: Form"),
    ("an empty list of hints in a log without", "embedding proof 2\nm 2\nu 0.1 x1 x2 ; ;\nq\n", "log: line 3: Form"),
    ("a line without hints and end", "embedding proof 2\nm 2\nu 0.1 x1 x2\nq\n", "log: line 3: Form"),
    ("what stands leads to more without hints", "embedding proof 2\nm 2\np 0.1 1 x1 + ;\nu 0.2 x1 x2 ;\nd 0.1\nu 0.3 x1 x2 x3 ;\nq\n", UNDECIDED),
    ("a deleted name without hints", "embedding proof 2\nm 2\nu 0.1 x1 x2 ;\nd 0.1\np 0.2 0.1 ;\nq\n", "log: line 5: NoSuchName"),
    ("a constraint of the encoding deleted without hints", "embedding proof 2\nm 2\nd 1\nq\n", "log: line 3: Form"),
    ("both first lines", "embedding proof 2\nembedding proof 1\nm 2\nq\n", "log: line 2: Form"),
    ("a first line with a blank", "embedding proof 1 \nm 2\nq\n", "log: line 1: Form"),
    ("a first line with a carriage return", "embedding proof 1\r\nm 2\nq\n", "log: line 1: Form"),
    ("no second line", "embedding proof 1\nq\n", "log: line 2: Form"),
    ("another number of constraints", "embedding proof 1\nm 3\nq\n", "log: line 2: Form"),
    ("a leading zero in the second line", "embedding proof 1\nm 02\nq\n", "log: line 2: Form"),
    ("a second line without number", "embedding proof 1\nm\nq\n", "log: line 2: Form"),
    ("a number of many digits in the second line", f"embedding proof 1\nm {10**50}\nq\n", "log: line 2: Form"),
    ("no letters of this alphabet", "embedding proof 1\nm 2\nq\xff\n", "log: line 3: Form"),
    ("a byte 0", "embedding proof 1\nm 2\nq\0\n", "log: line 3: Form"),
]

#: Three into two: no single constraint leads to anything, their sum says 0 >= 1.
CROWDED = """* #variable= 6 #constraint= 5
+1 x1 +1 x2 >= 1 ;
+1 x3 +1 x4 >= 1 ;
+1 x5 +1 x6 >= 1 ;
-1 x1 -1 x3 -1 x5 >= -1 ;
-1 x2 -1 x4 -1 x6 >= -1 ;
"""
SUM = "p 0.1 1 2 + 3 + 4 + 5 + ;\n"

#: What it shows; the lines after the first two, in a log without hints; what is printed over CROWDED.
WITHOUT_HINTS: List[Tuple[str, str, str]] = [
    ("nothing leads to a contradiction", "u 0.1 ;\nq\n", "log: line 3: NoConflict"),
    ("what was made does", SUM + "u 0.2 ;\ne 0.2\n", UNSATISFIABLE),
    ("once it is deleted, nothing does", SUM + "d 0.1\nu 0.2 ;\nq\n", "log: line 5: NoConflict"),
    ("it does by its further name", SUM + "n 3 0.1\nd 0.1\nu 0.2 ;\ne 0.2\n", UNSATISFIABLE),
    ("it does without its further name", SUM + "n 3 0.1\nd #3\nu 0.2 ;\ne 0.2\n", UNSATISFIABLE),
    ("without both, nothing does", SUM + "n 3 0.1\nd 0.1\nd #3\nu 0.2 ;\nq\n", "log: line 7: NoConflict"),
    ("what followed from it is forgotten", SUM + "u 0.2 x1 x6 ;\nd 0.1\nu 0.3 ;\nq\n", "log: line 6: NoConflict"),
    ("what else was made is not", SUM + "u 0.2 ;\nd 0.1\nu 0.3 x1 ;\nu 0.4 ;\ne 0.4\n", UNSATISFIABLE),
    # x1 >= 1, from which all follows
    ("a variable's value is forgotten", SUM[:-2] + "x1 + ;\nu 0.2 ~x1 x6 ;\nd 0.1\nd 0.2\nu 0.3 ;\nq\n", "log: line 7: NoConflict"),
]


def cases() -> Iterator[Case]:
    """What each shows, its encoding, its log, and the line that is to be printed."""
    for what, text, count, told in ENCODINGS:
        yield what, text.encode("latin-1"), f"embedding proof 1\nm {count}\nq\n".encode(), told
    for what, lines, told in LOGS:
        yield what, MODEL.encode(), f"embedding proof 1\nm 5\n{lines}".encode("latin-1"), told
    for what, text, told in WHOLE:
        yield what, LOOSE.encode(), text.encode("latin-1"), told
    for what, lines, told in WITHOUT_HINTS:
        yield what, CROWDED.encode(), f"embedding proof 2\nm 5\n{lines}".encode(), told


def without_hints(log: bytes) -> bytes:
    """The log with another first line, and with no references in its `u` lines."""
    lines = log.replace(b"embedding proof 1\n", b"embedding proof 2\n", 1).split(b"\n")
    return b"\n".join(line[: line.index(b";") + 1] if line.startswith(b"u ") and b";" in line else line for line in lines)


def status_of(told: str) -> int:
    """The status that goes with a line."""
    return 0 if told.startswith("accepted") else 4 if told.startswith("encoding") else 7
