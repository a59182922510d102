"""A text for each fault: its number, the text, the line that the program answers, and words that the explanation has.

For items the program's text comes before the items.
"""

TICK = b"Tick () => (int n);\nShow (int n) => ();\n"
PASS = TICK + b"Pass (int n) => (int n);\n"
LISTEN = b"Listen () => (int n, text t);\nEcho (int n, text t) => ();\n"


def doubling(depth):
    """Flows of which each leads twice to the one before."""
    lines = [b"N0 = Pass;\n"] + [b"N%d = N%d -> N%d;\n" % (it, it - 1, it - 1) for it in range(1, depth)]
    return PASS + b"".join(lines) + b"source Tick => N%d;\n" % (depth - 1)


FAULTS = [
    (1, b" " * 1_048_577, "1:1: fault 1 TooLong", "1:1", "1,048,577"),
    (2, b"\xef\xbb\xbf" + TICK, "1:1: fault 2 BadByte", "byte order mark (EF BB BF)"),
    (2, b"# a comment\n" + TICK, "1:1: fault 2 BadByte", "1 | # a comment\n  | ^\n", "comments begin with `//`"),
    (2, TICK + b"A = Show - Show;\n", "3:10: fault 2 BadByte", "`-` is only part of `->`"),
    (2, TICK + b"Gr\xc3\xbcn = Show;\n", "3:3: fault 2 BadByte", "The byte C3 begins no token"),
    (2, b'Listen (1, "hi")\n', "1:12: fault 2 BadByte", "looks like items"),
    (3, TICK + b"/* open\n", "3:1: fault 3 UnclosedComment", "3 | /* open\n  | ^^\n", "This `/*` has no `*/`"),
    (4, TICK + b"source Tick -> Show;\n",
     "3:13: fault 4 Unexpected", "  |             ^^\n", "Expected `=>`, but found `->`."),
    (4, TICK + b"A = Show\n", "4:1: fault 4 Unexpected", "program.flux:3:9\n", "A `;` is missing at the end of this line."),
    (4, TICK + b"A = Show\nB = Show;\n", "4:1: fault 4 Unexpected", "3 | A = Show\n  |         ^\n", "A `;` is missing at the end of this line."),
    (4, TICK + b"A = Show", "3:9: fault 4 Unexpected", "Expected `;` or `->`, but the text ends."),
    (4, TICK + b"error = Show;\n", "3:1: fault 4 Unexpected",
     "Expected a name, `source`, `typedef`, `handle`, `atomic` or `session`, but found `error`, which is a reserved word and no name.\n"),
    (4, TICK + b"source = Show;\n", "3:8: fault 4 Unexpected", "Expected a name, but found `=`."),
    (4, b"Tick () => (int error);\n",
     "1:17: fault 4 Unexpected", "`*`", "found `error`, which is a reserved word and no name"),
    (4, b"Tick (4)\nTick (5)\n", "1:7: fault 4 Unexpected", "looks like items"),
    (5, TICK + b"Show = ;\n", "3:1: fault 5 TwiceNamed", "`Show` is a node already, by line 2"),
    (5, TICK + b"source Tick => Show;\nsource Tick => Show;\n",
     "4:8: fault 5 TwiceNamed", "source line already, in line 3"),
    (6, TICK + b"source Tick => Shwo;\n", "3:16: fault 6 UnknownNode", "`Shwo` is no node; did you mean `Show`?"),
    (6, TICK + b"A = Pass -> Show;\n", "3:5: fault 6 UnknownNode", "`Pass (int a) => (int a);`"),
    (7, b"Tick () => (itn n);\n", "1:13: fault 7 UnknownType", "`itn` is no type", "did you mean `int`"),
    (7, b"Echo (int n, char t) => ();\n", "1:14: fault 7 UnknownType", "`char*`?"),
    (8, TICK + b"Shwo (int n) => ();\n",
     "3:1: fault 8 NotInLibrary", "`Shwo` is no node of the library; did you mean `Show`?", "./flux nodes"),
    (9, b"Show (int n, int m) => ();\n",
     "1:1: fault 9 UnlikeLibrary", "`Show` takes (int) and gives ()", "takes (int, int) and gives ()"),
    (10, TICK + b"typedef zero IsZreo;\n",
     "3:14: fault 10 UnknownPredicate", "no predicate of the library; did you mean `IsZero`?"),
    (10, TICK + b"typedef zero IsZero;\nA:[zreo] = Show;\n",
     "4:4: fault 10 UnknownPredicate", "no `typedef` line; did you mean `zero`?"),
    (11, TICK + b"source Tick => Show;\nsession Tick => ByNumbre;\n",
     "4:17: fault 11 UnknownSession", "did you mean `ByNumber`?"),
    (12, TICK + b"source Show => Show;\n", "3:8: fault 12 NotASource", "a source is a signature of one of `Tick`"),
    (12, TICK + b"session Tick => ByNumber;\n", "3:9: fault 12 NotASource", "`Tick` has no source line"),
    (13, TICK + b"A = Tick -> Show;\n", "3:5: fault 13 SourceMisused", "`Tick` is a source"),
    (14, b"".join(b"Pass_%d (int n) => (int n);\n" % it for it in range(4097)),
     "4097:1: fault 14 TooMany", "at most 4,096 nodes", "4,097 nodes"),
    (14, TICK + b"atomic Show:{" + b", ".join(b"c%d" % it for it in range(257)) + b"};\n", "3:1440: fault 14 TooMany",
     "3 | ...", "^^^^", "2 nodes and 257 classes"),
    (15, TICK + b"A = B;\nB = A;\n", "3:1: fault 15 Cycle A -> B -> A", "A, which leads to B, which leads to A"),
    (16, TICK + b"A = ;\n", "3:1: fault 16 NoSignature", "All cases of `A` are empty"),
    (17, TICK + b"Echo (int n, text t) => ();\nPass (int n) => (int n);\nA = Pass -> Echo;\n",
     "5:13: fault 17 JoinTypes", "`Pass` gives (int), and `Echo` takes (int, text)."),
    (17, b"Pass (int n) => (int n);\nShow (long n) => ();\nA = Pass -> Show;\n",
     "3:13: fault 17 JoinTypes", "Types must be spelled alike"),
    (18, TICK + b"A:[_, _] = Show;\n", "3:1: fault 18 CaseCount", "This case has 2 patterns, and `A` takes (int)"),
    (19, PASS + b"typedef zero IsZero;\nA:[zero] = Show;\nA:[_] = Pass;\n",
     "6:1: fault 19 CaseTypes", "`A` takes (int) and gives ()", "takes (int) and gives (int)"),
    (20, TICK + b"typedef got IsGet;\nA:[got] = Show;\n",
     "4:4: fault 20 PredicateType", "is IsGet of the type `text`", "input 1 of `A` is `int`"),
    (21, PASS + b"Echo (int n, text t) => ();\nhandle error Pass => Echo;\n",
     "5:22: fault 21 HandlerTypes", "`Echo` takes (int, text)", "`Pass` takes, (int)"),
    (22, TICK + b"Echo (int n, text t) => ();\nsource Tick => Echo;\n",
     "4:16: fault 22 SourceTypes", "`Tick` gives (int), and `Echo` takes (int, text)."),
    (23, TICK + b"source Tick => Show;\nsession Tick => ByConn;\n",
     "4:17: fault 23 SessionTypes", "`Tick` gives (int)", "takes (int, text)", "`session Tick => ByNumber;`"),
    (24, TICK + b"atomic Show:{a, a(session)};\n",
     "3:17: fault 24 BothScopes", "`Show` has the class `a` of the whole program already"),
    (25, b"Add (int n) => (int n);\n", "1:1: fault 25 Unprotected", "needs `atomic Add:{counter};`"),
    (25, b"Read (int n) => (int n);\n", "1:1: fault 25 Unprotected", "needs `atomic Read:{counter?};`"),
    (25, b"Add (int n) => (int n);\natomic Add:{counter?};\n", "1:1: fault 25 Unprotected", "has `counter?` alone"),
    (26, TICK + b"A = Show;\nsource Tick => A;\natomic Show:{a(session)};\n",
     "4:8: fault 26 NoSession", "`Tick` leads to `Show`, which has `a(session)`", "`session Tick => ByNumber;`"),
    (27, doubling(16), "20:8: fault 27 PlanTooLarge", "sum to more than 65,536"),
    (28, PASS + b"handle error Pass:(300) => Show;\n", "4:20: fault 28 BadCode", "`300` is no code: codes are 1 to 256"),
    (28, PASS + b"handle error Pass:(1, 1) => Show;\n",
     "4:23: fault 28 BadCode", "The code 1 has a handler of that node already"),
]

ONE = LISTEN + b"source Listen => Echo;\n"

ITEM_FAULTS = [
    (1, ONE, b'Listen (1 "hi")\n',
     "line 1: item fault 1 BadItem", '1 | Listen (1 "hi")\n', "An item is a source's name and its values"),
    (1, ONE, ONE, "line 1: item fault 1 BadItem", "looks like a program"),
    (1, ONE, b'Listen (1, "hi)\n', "line 1: item fault 1 BadItem", "no closing"),
    (1, ONE, b'Listen (99999999999999999999, "hi")\n', "line 1: item fault 1 BadItem", "outside 64 bits"),
    (2, ONE, b'# one\n Lisetn (1, "hi")\n', "line 2: item fault 2 UnknownSource", "  |  ^^^", "did you mean `Listen`?"),
    (3, ONE, b'Listen ("a, b")\n', "line 1: item fault 3 ItemTypes", "`Listen` gives (int, text), but this line has (text)."),
    (4, ONE, b'Listen (1, "hi")\n' * 4097, "line 4097: item fault 4 TooMany", "at most 4,096 items"),
]
