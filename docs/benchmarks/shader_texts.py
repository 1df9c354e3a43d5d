#!/usr/bin/env python3
"""shader_texts.py FOLDER: writes into the folder one shader text of about a megabyte for each kind of length, as KIND.sl, with a
scene KIND.rib that uses it, so that `reyes check KIND.rib`, run in the folder, reads it; expected answers stand in ANSWERS."""
import sys, os
MOST = 1_048_576
if len(sys.argv) < 2 or {"-h", "--help"} & set(sys.argv):
    print(__doc__, file=sys.stdout if len(sys.argv) > 1 else sys.stderr)
    sys.exit(0 if len(sys.argv) > 1 else 2)
to = sys.argv[1]
os.makedirs(to, exist_ok=True)
SCENE = 'Format 2 2 1\nPixelSamples 1 1\nPixelFilter "box" 1 1\nDisplay "a.ppm" "file" "rgb"\nWorldBegin\nSurface "%s" Patch "bilinear" "P" [-1 -1 1 1 -1 1 -1 1 1 1 1 1]\nWorldEnd\n'
def full(front, step, back, most=MOST):
    """The step as often as it fits; a step with {} is numbered."""
    room = most - len(front) - len(back)
    parts, size, i = [], 0, 0
    while True:
        s = step.replace("{}", str(i))
        if size + len(s) > room: break
        parts.append(s); size += len(s); i += 1
    return front + "".join(parts) + back
S = "surface m() { "
KINDS = {
    # grammar alone
    "parentheses_alone": (full("", "(", ""), "P2"),
    "parentheses_in_a_value": (full(S + "Ci = ", "(", ""), "P3"),
    "prefixes": (full(S + "Ci = ", "-", "1; }"), "P3"),
    "blocks": (full(S, "{", ""), "P3"),
    "comments": (full("", "/**/", ""), "P2"),
    "line_comments": (full("", "//\n", ""), "P2"),
    "one_comment": ("/*" + "*" * (MOST - 2), "P1"),
    "one_name": ("a" * MOST, "P2"),
    "one_number": (full(S + "Ci = ", "1", "; }"), "0, T-code or P1 by its value"),
    "one_string": (full(S + 'uniform string s = "', "a", '"; }'), "0"),
    "unclosed_string": (full(S + 'Ci = "', "a", ""), "P1"),
    "blanks": (full("", " ", ""), "P2"),
    # chains: a sum, dots, conditions; called and not
    "chain_of_sums": (full(S + "Ci = 1", "+1", "; }"), "M8"),
    "chain_of_dots": (full(S + "Ci = P", ".P", "; }"), "M8"),
    "chain_of_conditions": (full(S + "if (u<v", "&&u<v", ") ; }"), "M8"),
    "chain_of_differences_of_names": (full(S + "float a; Ci = a", "-a", "; }"), "M8"),
    "chain_in_a_function_not_called": (full("float f() { return 1", "+1", "; } surface m() { }"), "0"),
    "chain_of_conditions_not_called": (full("float f() { if (PI<1", "&&PI<1", ") ; return 1; } surface m() { }"), "0"),
    "choices_not_ended": (full(S + "Ci = ", "u<1?1:", "1; }"), "P3"),
    # lists
    "statements": (full(S, ";", "}"), "M8"),
    "assignments": (full(S, "Ci=1;", "}"), "M8"),
    "names_of_one_declaration": (full(S + "float a", ",a{}", "; }"), "M8"),
    "declarations": (full(S, "float a{};", "}"), "M8"),
    "parameters": (full("surface m(float a=1", ";float a{}=1", ") { }"), "M8"),
    "names_of_one_parameter": (full("surface m(float a=1", ",a{}=1", ") { }"), "M8"),
    "formals": (full("float f(float a", ";float a{}", ") { return 1; } surface m() { }"), "0"),
    "functions": (full("", "float f{}(){return 1;}", "surface m() { }"), "0"),
    "arguments": (full(S + "Ci = max(1", ",1", "); }"), "T2"),
    "ifs": (full(S, "if(u<1);", "}"), "M8"),
    "uses_of_a_name": (full(S + "float a; ", "a=a;", "}"), "M8"),
}
for name, (text, answer) in KINDS.items():
    assert len(text) <= MOST, name
    open(f"{to}/{name}.sl", "w").write(text)
    open(f"{to}/{name}.rib", "w").write(SCENE % name)
with open(f"{to}/ANSWERS", "w") as f:
    for name, (text, answer) in KINDS.items():
        f.write(f"{name} {len(text)} {answer}\n")
