#!/usr/bin/env python3
"""Respells this repository's own definitions and lemmas as Rattle spells its words.

    python3 tools/respell.py          once, at the top of a checkout that the port's script has turned

Functions and fields are in snake case; a dash stands only between two names, as in length-sheet_bytes.
It reads .antt and .rt files and must-fail edits and leaves what stands in double quotes. With --list it
changes nothing and shows which new names are in use already (for a definition that may be the method it
speaks of), and which names with a dash it leaves.
"""
import glob
import os
import re
import sys

# names whose dash becomes an underscore
PLAIN = """
no-divisors over-nonzero over-unique over-times above-trans level-trans heavier-trans heavier-neg heavier-zero
zero-heavier normal-num normal-den normal-rep normal-self normal-eq plus-normal times-normal as-normal zero-num
plus-from times-from minus-from over-from part-coprime whole-coprime lowest-sum sum-lowest sum-value apart-lowest
of-shared of-top shared-above shared-lowest product-lowest cross-above cross-lowest cross-value weight-irr
weight-trans weight-neg value-zero over-by-product mod-of self-of plus-of times-of minus-of plus-zero plus-minus
plus-comm plus-assoc times-assoc times-comm times-one times-plus times-over one-zero heavier-irr one-pos suc-pos
first-from fits-within sum-above product-above product-low turned-above turned-low turned-small turned-fine
turned-is sum-size product-size wide-term term-size term-kept both-size quot-size parts-size parts-fit parts-kept
same-num same-den fraction-same longest-fraction bezout-by coprime-part coprime-times gcd-times-coprime
dvd-multiple dvd-other coprime-plus greatest-by divides-by gcd-left gcd-right gcd-greatest gcd-pos coprime-dvd
quot-pos gcd-quotients gcd-dvd gcd-one gcd-unique gcd-comm gcd-zero gcd-is-greatest divisor-pos prime-coprime
none-divides none-at prime-by-test zero-plus plus-left-comm times-left-comm one-times minus-unique double-zero
zero-times times-minus minus-times minus-minus-unique minus-zero one-off cast-suc cast-pred cast-plus cast-neg
cast-times mono-ins mono-join lead-sound add1-sound add-sound mul1-sound mul-sound neg-sound norm-sound nil-sound
less-all All-say take-off less-all-sound negsuc-times quot-times times-with-sign none-zero gcd-by with-sign
reason-number position-of frac-letters rest-letters most-unknowns coefficient-limit right-side-limit found-row
term-of-one term-of-more rest-text terms-skip terms-step rest-skip rest-step sum-skip sum-all zero-from-bits
bits-from-zero term-text first-sign next-sign first-text next-text terms-text sum-text line-text form-text
header-text lines-text forms-text sheet-text refusal-text two-rates over-more over-after over-before over-none
memory-after padded-decimal same-from-padded free-push free-decimal free-signed same-signed tail-under same-under
same-fraction under-text fraction-text mod-none mod-once less-value coprime-value modulus-prime rest-digits
block-passed block-stops block-holds fine-all fine-stops in-column take-front judged-holds judged-fails judged-all
judged-first holds-from-judged judged-from-holds judged-split passed-from-ok pieces-more pieces-all limit-le
block-fits mark-back fields-small forms-long counts-back layout-back header-back lines-back forms-back sheet-back
pieces-back mark-letters fields-are block-is sound-from all-written line-numbers-le form-numbers-le lines-pass
lines-stop numbers-decide sheet-stops sheet-passes stops-in-lines stops-in-forms field-parts word-parts
number-bytes-back field-bytes-at number-bytes-at numbers-left total-le if-passed most-lines most-forms
most-line-numbers most-form-numbers most-forms-start most-length unknowns-field lines-field forms-field
lines-start-field forms-start-field total-field line-numbers form-numbers forms-start total-length header-fields
field-bytes number-bytes in-range block-check block-checks count-checks layout-checks header-checks line-checks
form-checks number-checks lines-in forms-in content-of sheet-of content-read header-bytes sheet-bytes
length-checks write-checks fraction-shown remainder-shown numbers-from field-at number-at line-of form-of
counts-of mark-of lines-start number-of byte-of one-form all-listed same-whole is-number is-none all-hold
times-from over-from Of-unique Q-path Q-discrete Q-set Rem-path Rem-discrete Rem-set
""".split()

# names that are spelled anew
ANEW = {
    "joined-append": "flat_map-append",
    "joined-push": "flat_map_push",
    "joined-counting": "flat_map-range_with_len",
    "length-joined": "length-flat_map",
    "getD-numbers": "get_or-numbers",
    "length-numbers-bytes": "length-numbers_bytes",
    "length-header": "length-header_bytes",
    "length-sheet": "length-sheet_bytes",
    "length-under": "length-under_text",
    "length-fraction": "length-fraction_text",
    "field-at-append": "field_at-append",
    "number-at-append": "number_at-append",
    "field_at_append": "field_at-append",
    "number_at_append": "number_at-append",
    "ofZ-lt": "of_z_lt",
    "natAbs-neg": "unsigned_abs-neg_ℤ",
    "natAbs-times": "unsigned_abs-*ℤ",
    "natAbs-zero": "unsigned_abs_zero",
    "natAbs-quot": "unsigned_abs_quot",
    "natAbs-with-sign": "unsigned_abs-with_sign",
    "negℤ-*ℤ": "neg_ℤ-*ℤ",
    "*ℤ-assoc": "*ℤ_assoc",
    "These-terms-are-left-of-lhs-minus-rhs": "TheseTermsAreLeftOfLhsMinusRhs",
    "restField": "rest_field",
    "timesQ-plusQ": "times_q-plus_q",
}

# operations of fractions (Q) and of remainders (R): plusQ is plus_q, plusQ-comm is plus_q_comm
for word in "zero one plus times minus over heavier whole field exact lowest misfit taken".split():
    for kind in "QR":
        ANEW[word + kind] = word + "_" + kind.lower()
        for end in "comm assoc zero plus minus one over".split():
            ANEW[word + kind + "-" + end] = word + "_" + kind.lower() + "_" + end

NAMES = {name: name.replace("-", "_") for name in PLAIN} | ANEW
IDENT = re.compile(r'"(?:[^"\\]|\\.)*"|[^\s(){}\[\],;.⌜⌝"`:]+')


def main():
    files = [f for pattern in ("specs/**/*.antt", "proofs/**/*.antt", "src/**/*.rt", "must-fail/*.edit")
             for f in glob.glob("crates/*/" + pattern, recursive=True)]
    texts = {f: open(f, encoding="utf-8").read() for f in sorted(files)}
    used = {w for t in texts.values() for w in IDENT.findall(t)}
    turned = {n: new for n, new in NAMES.items() if n in used}
    fall = sorted(new for new in set(turned.values()) if new in used)
    double = sorted(new for new in turned.values() if list(turned.values()).count(new) > 1)
    if "--list" in sys.argv:
        print("in use already:", *fall)
        print("two of one name:", *double)
        left = sorted(w for w in used if "-" in w.strip("-") and w not in NAMES and not w.startswith('"'))
        print("left:", *left)
        return
    for f, text in texts.items():
        new = IDENT.sub(lambda m: turned.get(m.group(0), m.group(0)), text)
        if new != text:
            with open(f, "w", encoding="utf-8") as out:
                out.write(new)


os.chdir(os.path.join(os.path.dirname(os.path.abspath(__file__)), ".."))
main()
