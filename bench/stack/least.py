"""least.py PROGRAM: the least stack of the program, in steps of 256 kB, for a source of each kind."""
import resource
import subprocess
import sys

# kind: how many, front, opening, middle, closing, back
KINDS = {
    "parentheses": (497, "val x = ", "(", "x", ")", ""),
    "patterns": (497, "val ", "(", "x", ")", " = 1"),
    "rows of patterns": (994, "val ", "x :: ", "x", "", " = x"),
    "layers": (994, "val ", "x as ", "x", "", " = x"),
    "types": (995, "type t = ", "(", "t", ")", ""),
    "arrows": (995, "type t = ", "t -> ", "t", "", ""),
    "loops": (994, "val x = ", "while x do ", "x", "", ""),
    "choices": (994, "val x = ", "if x then y else ", "x", "", ""),
    "let": (331, "val x = ", "let val x = ", "1", " in x end", ""),
    "functions": (497, "val x = ", "fn x => ", "x", "", ""),
    "cases": (497, "val x = ", "case x of y => ", "x", "", ""),
    "rows to the left": (994, "val x = ", "x + ", "x", "", ""),
    "rows to the right": (994, "val x = ", "x :: ", "x", "", ""),
    "andalso": (994, "val x = ", "x andalso ", "x", "", ""),
    "sequences": (497, "val x = ", "(x; ", "x", ")", ""),
    "tuples": (497, "val x = ", "(x, ", "x", ")", ""),
    "lists": (497, "val x = ", "[", "x", "]", ""),
    "records": (497, "val x = ", "{a = ", "x", "}", ""),
    "handlers": (497, "val x = ", "x handle y => ", "x", "", ""),
    "local": (994, "", "local ", "val x = 1", " in end", ""),
    "local in let": (248, "val x = ", "let local val x = ", "1", " in end in x end", ""),
    "structures": (331, "", "structure S = struct ", "structure S = T", " end", ""),
    "structures behind and": (331, "", "structure A = T and S = struct ", "structure S = T", " end", ""),
    "functors": (995, "structure S = ", "F (", "T", ")", ""),
    "functors of bodies": (331, "structure S = ", "F (structure X = ", "T", ")", ""),
    "let of structures": (331, "structure S = ", "let structure T = ", "T", " in T end", ""),
    "ascriptions": (994, "structure S = ", "", "T", " : G", ""),
    "signatures": (498, "signature G = ", "sig structure S : ", "H", " end", ""),
    "signatures behind and": (498, "signature G = ", "sig structure R : H and S : ", "H", " end", ""),
    "included signatures": (498, "signature G = ", "sig include ", "H", " end", ""),
    "signatures of parameters": (497, "functor F (X : ", "sig structure S : ", "H", " end", ") = T"),
    "types behind and": (995, "type t = t and t = ", "(", "t", ")", ""),
    "tuples of types": (497, "type t = ", "(t * ", "t", ")", ""),
    "records of types": (995, "type t = ", "{a : t, b : ", "t", "}", ""),
    "records of patterns": (331, "val ", "{a = x, b = ", "x", "}", " = x"),
    "lists of patterns": (497, "val ", "[x, ", "x", "]", " = x"),
    "typed patterns": (496, "val ", "(x : t, ", "x", ")", " = x"),
    "ends of lists": (497, "val x = ", "[x, ", "x", "]", ""),
    "ends of records": (497, "val x = ", "{a = x, b = ", "x", "}", ""),
    "conditions": (994, "val x = ", "if ", "x", " then y else z", ""),
    "conditions of loops": (994, "val x = ", "while ", "x", " do y", ""),
    "typed": (331, "val x = ", "(", "x", " : t)", ""),
    "raise": (994, "val x = ", "raise ", "x", "", ""),
    "selectors": (497, "val x = ", "f (", "x", ")", ""),
    "further clauses of fn": (497, "val x = ", "fn y => y | x => ", "x", "", ""),
    "further clauses of case": (497, "val x = ", "case x of y => y | z => ", "x", "", ""),
    "further handlers": (497, "val x = ", "x handle y => y | z => ", "x", "", ""),
    "functions in let": (248, "val x = ", "let fun f x = ", "1", " in x end", ""),
    "further clauses of fun": (248, "val x = ", "let fun f 0 = 1 | f x = ", "1", " in x end", ""),
    "functions behind and": (248, "val x = ", "let fun f x = 1 and g x = ", "1", " in x end", ""),
    "values behind and": (331, "val x = ", "let val x = 1 and y = ", "1", " in x end", ""),
    "bodies of let": (496, "val x = ", "let val x = 1 in y; ", "1", " end", ""),
    "rec": (198, "val x = ", "let val rec f = fn x => ", "1", " in x end", ""),
    "local structures": (995, "", "local structure S = T in ", "structure S = T", " end", ""),
    "structures of local": (995, "", "local ", "structure S = T", " in end", ""),
    "functors of bodies behind and": (331, "structure S = ", "F (structure Y = T and X = ", "T", ")", ""),
    "let of structures behind and": (331, "structure S = ", "let structure R = T and T = ", "T", " in T end", ""),
    "bodies of let of structures": (993, "structure S = ", "let structure T = T in ", "T", " end", ""),
    "ascribed structures": (248, "", "structure S : G = struct ", "structure S = T", " end : G", ""),
    "ascribed structures behind and": (248, "", "structure A = T and S : G = struct ", "structure S = T", " end : G", ""),
    "realised structures": (248, "", "structure S = struct ", "structure S = T", " end : G where type t = t and type u = u", ""),
}
STEP = 256


def goes(program, kilobytes, source):
    size = kilobytes * 1024
    limit = lambda: resource.setrlimit(resource.RLIMIT_STACK, (size, size))
    ran = subprocess.run([program], input=source, capture_output=True, preexec_fn=limit)
    return ran.returncode == 0 and b"released" in ran.stdout


for kind, (count, front, opening, middle, closing, back) in KINDS.items():
    source = ("2" + front + opening * count + middle + closing * count + back).encode()
    low, high = 0, 128
    while high - low > 1:
        half = (low + high) // 2
        low, high = (low, half) if goes(program := sys.argv[1], half * STEP, source) else (half, high)
    print(f"{kind}, {count}: {high * STEP} kB" if high < 128 else f"{kind}, {count}: more than {127 * STEP} kB", flush=True)
