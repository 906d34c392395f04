#!/usr/bin/env python3
"""Respells this repository's own definitions and lemmas, once, after the kit's port.py: words in snake case, joined by _; a dash stays
only between the names of two definitions. Usage: python3 tools/respell.py [--check] in the repository.

Definitions are what specs/ and proofs/*.antt declare by a signature, record fields too; types, modules and constructors are in upper
camel case already. Names that Rattle makes or that stand in src/ as functions, fields or variants keep their spelling. In comments and
documents a name turns where it stands in a code span, or where it is no name of RFC 9810 (ASN1 below). Must-fail edits turn too."""

import collections
import glob
import os
import re
import subprocess
import sys

WORD = r"[^\s(){}\[\].;,@\"«»`]+"
SIGNATURE = re.compile(r"^\s*(?:(?:pattern|unfoldable|abbrev|pub|axiom) )*(" + WORD + r") :(?=\s)")
FIELD = re.compile(r"[({]((?:" + WORD + r" )+): ")
# names of the standards that are words of comments and documents
ASN1 = set(
    """caPubs certConf certHash certReqId certReqMsg certReqMsgs certReqIds certRepMessage certResponse certStatus certTemplate certificate
    confirmWaitTime crlEntryDetails dNSName directoryName ediPartyName errorMsg extraCerts failInfo freeText generalInfo hashAlg iPAddress
    implicitConfirm keyPair messageTime otherName pkiconf pkiMessage pkiStatus pollRep pollReq protectionAlg recipKID recipKid recipNonce
    recipient registeredID revDetails rfc822Name rspInfo sender senderKID senderKid senderNonce statusString transactionID x400Address
    certOrEncCert certifiedKeyPair privateKey publicationInfo statusInfo pKIStatusInfo errorCode errorDetails infoType infoValue
    uniformResourceIdentifier pkiStatusInfo""".split()
)
LEMMA_FIRST = {}
SPECIAL = {"dNSName": "dns_name", "iPAddress": "ip_address", "BIT-STRING": "bit_string", "OCTET-STRING": "octet_string"}


def snake(name):
    if name in SPECIAL:
        return SPECIAL[name]
    parts = name.split("-")
    out = []
    for p in parts:
        if p[:1].isupper():
            out.append(p)
            continue
        p = re.sub(r"([a-z0-9])([A-Z])", lambda m: m.group(1) + "_" + m.group(2).lower(), p)
        out.append(p)
    return out


def files(*patterns):
    found = []
    for p in patterns:
        found += sorted(glob.glob(p, recursive=True))
    return [f for f in found if "/out/" not in f]


def declared(paths):
    names = collections.defaultdict(set)
    for path in paths:
        for line in open(path, encoding="utf-8"):
            if line.lstrip().startswith("--"):
                continue
            m = SIGNATURE.match(line)
            if m:
                names[m.group(1)].add(path)
                if MIXFIX.fullmatch(m.group(1)):
                    names[m.group(1).strip("◌")].add(path)
    return names


def binders(paths):
    names = collections.defaultdict(set)
    for path in paths:
        for line in open(path, encoding="utf-8"):
            if line.lstrip().startswith("--"):
                continue
            for m in FIELD.finditer(line):
                for n in m.group(1).split():
                    names[n].add(path)
            for m in re.finditer(r"\blet (" + WORD + r") (?::|=)", line):
                names[m.group(1)].add(path)
            for m in re.finditer(r"λ ((?:" + WORD + r" )*" + WORD + r")\. ", line):
                for n in m.group(1).split():
                    names[n].add(path)
    return names


def turns(n):
    return not n.startswith("◌") and (("-" in n and re.search(r"[A-Za-z]", n)) or (n[0].islower() and re.search(r"[a-z0-9][A-Z]", n)))


def table():
    specs, lemmas = files("crates/*/specs/*.antt"), files("crates/*/proofs/*.antt")
    names = declared(specs + lemmas)
    defs = set(declared(specs))
    for n in list(names):
        if not turns(n):
            del names[n]
    plain = {n for n in declared(specs + lemmas)} | {"length", "take", "drop", "set", "replicate", "get", "append", "map"}
    new = {}
    for n in names:
        parts = snake(n)
        if isinstance(parts, str):
            new[n] = parts
            continue
        olds = n.split("-")
        joined = all(p in defs or p in ("length", "take", "drop", "set", "replicate", "get_or") for p in olds)
        new[n] = ("-" if joined else "_").join(parts)
    # a lemma that would have its function's name ends in _lem
    taken = {m for n, m in new.items() if "-" not in n} | {n for n in declared(specs + lemmas) if not turns(n)}
    for n, m in new.items():
        if "-" in n and m in taken:
            new[n] = m + "_lem"
    # so does one that the kit's script has spelled like a definition already
    met = ({m for n, m in new.items() if n in defs} | {"step_by", "all_small"}) - {"is_number"}
    for n in declared(lemmas):
        if n in met and n not in defs:
            LEMMA_FIRST[n] = n + "_lem"
    for path in specs + lemmas:
        for m in re.finditer(r" as (" + WORD + r")$", open(path, encoding="utf-8").read(), re.M):
            if "-" in m.group(1):
                new.setdefault(m.group(1), m.group(1).replace("-", "_"))
    new = {n: m for n, m in new.items() if n != m}
    local = {}
    for n, where in binders(specs + lemmas).items():
        if turns(n) and n not in new:
            local[n] = "_".join(snake(n))
    return new, local, names


def token(name):
    return re.compile(r"(?<![^\s(){}\[\].;,@\"«»`/·|])" + re.escape(name) + r"(?![^\s(){}\[\].;,@\"«»`/·|:'’?!])")


TOKEN = re.compile(WORD)
# a word between two arguments
MIXFIX = re.compile(r"◌([a-z]+[A-Z][A-Za-z]*)◌")


def turn_code(text, new):
    text = MIXFIX.sub(lambda m: "◌" + ("_".join(snake(m.group(1)))) + "◌", text)
    return TOKEN.sub(lambda m: new.get(m.group(0), m.group(0)), text)


SPAN = re.compile(r"`[^`\n]*`")
PROSE = re.compile(r"[A-Za-z][A-Za-z0-9]*(?:-[A-Za-z0-9]+)*")


def turn_comment(text, new):
    def prose(t):
        return PROSE.sub(lambda m: new[m.group(0)] if m.group(0) in new and m.group(0) not in ASN1 and turns(m.group(0)) and ("-" not in m.group(0) or m.group(0) in LEMMAS) else m.group(0), t)

    out, last = [], 0
    for m in SPAN.finditer(text):
        out.append(COMMENT_PROSE(text[last : m.start()], prose))
        out.append(PROSE.sub(lambda k: new.get(k.group(0), k.group(0)), m.group(0)))
        last = m.end()
    out.append(COMMENT_PROSE(text[last:], prose))
    return "".join(out)


def COMMENT_PROSE(text, prose):
    # a name of two parts in plain words, as 'so-far', is a word of English
    return re.sub(r"[A-Za-z][A-Za-z0-9]*(?:-[A-Za-z0-9]+)*", lambda m: m.group(0) if "-" in m.group(0) else prose(m.group(0)), text)


LEMMAS = set()


def split_comment(line, mark):
    i = line.find(mark)
    while i > 0 and line[i - 1] not in " \t":
        i = line.find(mark, i + 1)
    return (line, "") if i < 0 else (line[:i], line[i:])


def turn_lines(text, mark, new):
    out = []
    for line in text.split("\n"):
        code, comment = split_comment(line, mark)
        out.append(turn_code(code, new) + turn_comment(comment, new))
    return "\n".join(out)


def turn_doc(text, new):
    # in documents only code spans turn, and there no name of the standards that stands alone
    def span(m):
        s = m.group(0)
        inner = s.strip("`")
        if inner in ASN1:
            return s
        return PROSE.sub(lambda k: new.get(k.group(0), k.group(0)) if not (k.group(0) in ASN1 and k.group(0) == inner) else k.group(0), s)

    return SPAN.sub(span, text)


def turn_edit(text, new):
    kind, out = "--", []
    for line in text.split("\n"):
        if line.startswith("file:"):
            kind = "//" if line.rstrip().endswith(".rt") else "--"
            out.append(line)
        elif line.startswith(("old:", "new:")):
            head, body = line[:4], line[4:]
            code, comment = split_comment(body, kind)
            out.append(head + turn_code(code, new) + turn_comment(comment, new))
        else:
            out.append(line)
    return "\n".join(out)


def main():
    check = "--check" in sys.argv
    own = os.listdir("crates")
    new, local, names = table()
    # names that fall together
    texts = {p: open(p, encoding="utf-8").read() for p in files("crates/*/specs/*.antt", "crates/*/proofs/**/*.antt", "crates/*/src/*.rt")}
    tokens = {p: set(TOKEN.findall(t)) for p, t in texts.items()}
    back = collections.defaultdict(list)
    for n, m in list(new.items()) + list(local.items()):
        back[m].append(n)
    clash = {m: ns for m, ns in back.items() if len(ns) > 1}
    for m, ns in sorted(clash.items()):
        print("together:", m, ns)
    for n, m in sorted(list(new.items()) + list(local.items())):
        both = [p for p in tokens if n in tokens[p] and not p.endswith((".rt", "Proof.antt")) and re.search(r"(?<![^\s({\[,;])" + re.escape(m) + r"(?![^\s)}\],;.])(?! =)", "\n".join(split_comment(l, "--")[0] for l in texts[p].split("\n")))]
        if both:
            print("meets:", n, "->", m, both[:4], len(both))
    print(len(new), "names,", len(local), "local ones")
    if check:
        return
    for p, t in texts.items():
        # a name of the kit's that a file imports stays
        kits = set()
        for m in re.finditer(r"^(?:ghost )?use (\S+?)\.\{(.*)\};?$", t, re.M):
            if not m.group(1).startswith(tuple(f"Rattle.{c}." for c in own)):
                kits |= {x.strip().split(" as ")[0] for x in m.group(2).split(",")}
        table_here = {n: m for n, m in new.items() if n not in kits}
        mark = "//" if p.endswith(".rt") else "--"
        if "/src/" not in p:
            table_here.update(local)
            lines = []
            for line in t.split("\n"):
                code, comment = split_comment(line, mark)
                if "/proofs/" in p:
                    code = re.sub(r"(?<!\.)" + WORD, lambda m: LEMMA_FIRST.get(m.group(0), m.group(0)), code) if not line.startswith("use Rattle.") or ".proofs." in line else code
                lines.append(code + comment)
            t = "\n".join(lines)
        u = turn_lines(t, mark, table_here)
        if u != texts[p]:
            open(p, "w", encoding="utf-8").write(u)
    for p in files("crates/*/must-fail/*.edit"):
        t = open(p, encoding="utf-8").read()
        u = turn_edit(t, {**local, **new})
        if u != t:
            open(p, "w", encoding="utf-8").write(u)
    for p in files("README.md", "docs/*.md"):
        t = open(p, encoding="utf-8").read()
        u = turn_doc(t, new)
        if u != t:
            open(p, "w", encoding="utf-8").write(u)


if __name__ == "__main__":
    main()
