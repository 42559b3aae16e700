#!/usr/bin/env python3
"""Respells the definitions and lemmas of this repository as today's Rattle spells its own.

usage: python3 tools/respell.py        at the top of the repository, once, after the kit's port.py and on nothing else

Functions, lemmas, fields and constructors of specs/ and proofs/ are in snake case, and facts are one word in camel case.
A dash stays where it joins the names of two definitions, as in `length-cuts`. The code of src/ keeps its names: of an
.rt file only the clauses, ghost fields and `ghost use` lines name what is listed here. Nothing else is changed.
"""

import pathlib
import re

# Definitions, fields and constructors in camel case.
CAMEL = """
attributeEntered attributeSlots attributesEntered bindsOrUndeclares builtIn builtIns codeNumber cursorOf declarationAt
declaredOr doctypeMade endOfFile errorOf expandedOf freeRow fromFound goOn headBy heldBy inScope instructionMade isAbsent
isAtEnd isBlank isBuiltIn isSkipped isText knownOr maybeText nameEntered namespaceOf nullCharacter onTag parseError partsAnd
partsBy payloadOf plainHead prefixEntered readAttributes readToken readingAt refusalOf roleOf sameBindings scanOf scannedBy
shortTag tagBy tagEntered tagMade tagSlots takesEffect textAt textEnd textEntered tokenMade tokenValue valueOr verdictError
withoutReturn xmlUri xmlnsUri
"""

# Lemmas, fields, constructors and locals whose dashes join plain words.
DASHED = """
above-bottom add-climbs add-full add-stacked applies-further applies-here applies-step at-end at-twice at-xml at-xml-other
at-xml-uri at-xmlns at-xmlns-uri attribute-slots-length begins-at begins-push between-last bindings-same binds-found
built-in-found built-in-none by-verdict chained-push climbs-starts close-stacked close-top contained-at cuts-push
default-undeclared eqb-sym filled-first found-place found-step found-text free-push in-built-ins is-new look-applies
look-found look-undeclared named-is nearest-applies nearest-undeclared none-contained none-step not-bound not-xml not-xmlns
one-attribute one-text only-scoped onward-none open-climbs open-line open-stacked parts-length passed-by prefix-undeclared
refused-apart reserved-line row-found row-none same-one same-sym seek-at seek-here seek-on stacked-entries stacked-starts
tag-inner tag-named tag-outer taken-apart text-found text-there total-one total-three total-two undeclared-step
"""

# Facts, and what a plain respelling would let fall together with another name or with std's way of writing it.
OTHERS = {
    "Number-of": "NumberOf",
    "Keeps-numbers": "KeepsNumbers",
    "Accepts-unreserved": "AcceptsUnreserved",
    "Only-scoped": "OnlyScoped",
    # `freeRow` becomes `free_row`
    "free-row": "in_row-free_row",
    "free-nearest": "nearest-free",
    "same-decides": "same-Decides",
}


def snake(name):
    return re.sub(r"([a-z0-9])([A-Z])", lambda m: m[1] + "_" + m[2].lower(), name).replace("-", "_")


def respelled(text, names):
    # A name ends where no character of a name follows; a field stands behind its dot.
    words = "|".join(re.escape(n) for n in sorted(names, key=len, reverse=True))
    return re.sub(rf"(?<![\w'◌+-])(?:{words})(?![\w'◌+-])", lambda m: names[m[0]], text)


def main():
    names = {name: snake(name) for name in (CAMEL + DASHED).split()} | OTHERS
    top = pathlib.Path(".")
    files = [f for kind in ("rt", "antt") for f in top.glob(f"crates/*/**/*.{kind}") if "out" not in f.parts]
    files += [f for f in [*top.glob("docs/*.md"), top / "README.md"] if f.name != "PORT.md"]
    for f in files:
        old = f.read_text(encoding="utf-8")
        new = respelled(old, names)
        if new != old:
            f.write_text(new, encoding="utf-8")


if __name__ == "__main__":
    main()
