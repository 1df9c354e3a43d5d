#!/usr/bin/env python3
"""Cases of a megabyte with the greatest number of names of each kind. shader_names.py KIND [BYTES] writes one case to standard output."""
import sys
SCENE = 'Format 2 2 1\nPixelSamples 1 1\nPixelFilter "box" 1 1\nDisplay "a.ppm" "file" "rgb"\nWorldBegin\nSurface "m" Patch "bilinear" "P" [-1 -1 1 1 -1 1 -1 1 1 1 1 1]\nWorldEnd\n'
D = "abcdefghijklmnopqrstuvwxyz"
def name(i):
    s = ""
    while True:
        s = D[i % 26] + s
        i //= 26
        if i == 0:
            return "_" + s
def fill(head, one, tail, size):
    out, n, k = [head], len(head) + len(tail), 0
    while True:
        t = one(k)
        if n + len(t) > size:
            break
        out.append(t); n += len(t); k += 1
    return "".join(out) + tail, k
def text(kind, size):
    if kind == "locals":
        return fill("surface m(){float ", lambda k: ("," if k else "") + name(k), ";}", size)
    if kind == "locals_used":
        return fill("surface m(){", lambda k: f"float {name(k)}={name(k-1) if k else 1};", "}", size)
    if kind == "locals_of_a_function":
        return fill("float f(){float ", lambda k: ("," if k else "") + name(k), ";return 1;}surface m(){Ci=f();}", size)
    if kind == "sets":
        a, n = fill("surface m(){float ", lambda k: ("," if k else "") + name(k), ";", size // 3)
        return fill(a, lambda k: f"{name(k % n)}=1;", "}", size)
    if kind == "parameters":
        return fill("surface m(float ", lambda k: ("," if k else "") + name(k) + "=1", "){}", size)
    if kind == "formals":
        return fill("float f(float ", lambda k: ("," if k else "") + name(k), "){return 1;}surface m(){Ci=f(1);}", size)
    if kind == "formals_of_a_call":
        a, n = fill("float f(float ", lambda k: ("," if k else "") + name(k), "){return 1;}surface m(){Ci=f(", size * 2 // 3)
        return a + ",".join(["1"] * n) + ");}", n
    if kind == "functions":
        return fill("", lambda k: f"float {name(k)}(){{return 1;}}", "surface m(){}", size)
    if kind == "calls":
        a, n = fill("", lambda k: f"float {name(k)}(){{return 1;}}", "surface m(){Ci=1", size // 2)
        return fill(a, lambda k: f"+{name(k % n)}()", ";}", size)
    if kind == "functions_that_call":
        return fill("", lambda k: f"float {name(k)}(){{return {name(k-1)+'()' if k else 1};}}", "surface m(){}", size)
    if kind == "blocks":
        return fill("surface m(){", lambda k: "{float a;}", "}", size)
    if kind == "own_calls":
        return fill("float f(float a,b,c){return 1", lambda k: "+a+b+c", ";}surface m(){Ci=f(1,1,1);}", size)
    raise SystemExit("locals locals_used locals_of_a_function sets parameters formals formals_of_a_call functions calls functions_that_call blocks own_calls")
KINDS = "locals locals_used locals_of_a_function sets parameters formals formals_of_a_call functions calls functions_that_call blocks own_calls".split()
if __name__ == "__main__":
    if len(sys.argv) < 2 or {"-h", "--help"} & set(sys.argv):
        print(__doc__, file=sys.stdout if len(sys.argv) > 1 else sys.stderr)
        sys.exit(0 if len(sys.argv) > 1 else 2)
    kind = sys.argv[1]
    size = int(sys.argv[2]) if len(sys.argv) > 2 else 1048576
    t, n = text(kind, size)
    assert len(t) <= 1048576
    print(f"{kind}: {n} of them, {len(t)} bytes", file=sys.stderr)
    sys.stdout.write(f"case {kind}\nwords check s.rib\nfile s.rib {len(SCENE)}\n{SCENE}\nfile m.sl {len(t)}\n{t}\nend\n")
