#!/usr/bin/env python3
"""Compares docs/CLAIMS.md with the contracts in crates/*/src.

    bench/claims.py            checks; exit status 1 if a line is wrong or a call has no line
    bench/claims.py --missing  prints a stub line for each call without a line, to be filled in by hand
    bench/claims.py --tidy     removes calls and clauses that no longer exist from the lines, and lines left without any
    bench/claims.py --names    prints the names between backticks of README.md and docs/*.md that no source has
    bench/claims.py --calls    prints each public call with a named clause, of the crates below or of those that are named

A line of CLAIMS.md has four columns: crate, public calls, clauses, and one sentence of at most 25 words. Each call must be
public and each clause must be a named `ensures` clause of each of the line's calls. Every public call with a named clause in
the crates of COMPLETE must have a line; worked examples, in a public module `examples`, need none.

A public call is a `pub fn` or a method of a `pub trait` that can be reached from outside its crate, or a method of an `impl`
of a trait that has named clauses of its own. A type's call is written `Type::call`, and one in a public module `module::call`.
"""
import pathlib
import re
import sys

TOP = pathlib.Path(__file__).resolve().parent.parent
CLAIMS = TOP / "docs" / "CLAIMS.md"
MOST_WORDS = 25
COMPLETE = """ldar_days disk_model ldar_ports ldar_facts ldar_law fact_store component_register method21_reading leak_tags
    delay_of_repair monitor_calendar skip_periods route_planner semiannual_report report_filing ldar_journal batch_rules
    office_views office_book sync_room office_mirror handheld_http ldar_session register_import office_commands office_server
    decimal_words ldar_cli""".split()


def without_comments(text):
    """The text with comments, strings and characters blanked out, at the same places."""
    pattern = re.compile(r'//[^\n]*|/\*.*?\*/|b?"(?:\\.|[^"\\])*"|b?\'(?:\\.|[^\'\\])\'', re.S)
    return pattern.sub(lambda it: re.sub(r"[^\n]", " ", it.group(0)), text)


def block_end(text, at):
    """The place after the brace that closes the one at this place."""
    depth = 0
    for place in range(at, len(text)):
        depth += (text[place] == "{") - (text[place] == "}")
        if depth == 0:
            return place + 1
    raise ValueError("a brace is not closed")


def type_name(head):
    """The name of the type in the head of an `impl`, and whether it implements a trait."""
    head = re.sub(r"^\s*impl\s*", "", head)
    if head.startswith("<"):
        depth = 0
        for place, letter in enumerate(head):
            depth += (letter == "<") - (letter == ">" and head[place - 1] not in "-=")
            if depth == 0:
                head = head[place + 1:]
                break
    head = head.split(" where ")[0].strip()
    is_trait = re.search(r"\bfor\b", head) is not None
    if is_trait:
        head = re.split(r"\bfor\b", head)[1].strip()
    if head.startswith("&"):
        return None, is_trait
    return re.match(r"[\w:]+", head).group(0).split("::")[-1] if re.match(r"\w", head) else None, is_trait


SKIPPED = re.compile(r"\s*(?:#!?\[(?:[^\[\]]|\[[^\]]*\])*\]|;)")
ITEM = re.compile(r"\s*(?P<public>pub(?:\((?P<inner>[^)]*)\))?\s+)?(?:const\s+(?=fn)|unsafe\s+|extern\s+)*"
                  r"(?P<kind>fn|impl|trait|mod|use|struct|enum|const|static|type|ghost|union|macro_rules!)\b\s*(?P<name>\w*)")


def item_end(text, at):
    """Where the item that begins at this place ends: the head's end, and the end of its block or its semicolon."""
    place, depth = at, 0
    while place < len(text):
        letter = text[place]
        if letter in "([":
            depth += 1
        elif letter in ")]":
            depth -= 1
        elif letter == ";" and depth == 0:
            return place, place + 1
        elif letter == "{":
            return place, block_end(text, place)
        place += 1
    return place, place


def function_end(text, at):
    """The end of a function's contract and of the function: clauses are blocks that a body may follow."""
    place = at
    while True:
        head, end = item_end(text, place)
        if head >= len(text) or text[head] == ";":
            return head, end
        if re.search(r"\b(?:ensures|requires|decreases|ghost\s+\w+\s*=|result)\b[^{};]*$", text[at:head][-120:]) and \
                re.search(r"\b(?:ensures|requires|decreases)\s*(?:\w+\s*)?\*?\s*(?:\w+\s*)?$|\bghost\s+\w+\s*=\s*$|\bresult\s*$",
                          text[at:head]):
            place = end
            continue
        return head, end


def items(text, at, end, owner, is_public, found, traits):
    """Adds the functions between two places, with their clauses: (owner, name, clauses, public, own)."""
    while at < end:
        skipped = SKIPPED.match(text, at, end)
        if skipped and skipped.end() > at and skipped.group(0).strip():
            at = skipped.end()
            continue
        item = ITEM.match(text, at, end)
        if not item:
            # Something else, as a call of a macro: to the end of its line or block.
            head, after = item_end(text, at)
            at = max(after, at + 1)
            continue
        kind, name = item.group("kind"), item.group("name")
        public = item.group("public") is not None and item.group("inner") is None
        if kind == "fn":
            head, after = function_end(text, item.end())
            clauses = re.findall(r"\bensures\s+(\w+)\s*\{", text[item.end():head + 1])
            found.append((owner, name, clauses, public or is_public))
        elif kind == "impl":
            head, after = item_end(text, item.end())
            kind_name, is_trait = type_name(text[item.start():head])
            if kind_name:
                items(text, head + 1, after - 1, kind_name, is_trait, found, traits)
        elif kind == "trait":
            head, after = item_end(text, item.end())
            traits.append((name, public))
            items(text, head + 1, after - 1, name, True, found, traits)
        elif kind == "ghost":
            head, after = item_end(text, item.end())
            rest = re.match(r"\s*;", text[after:])
            after += rest.end() if rest else 0
        else:
            head, after = item_end(text, item.end())
        at = after


def split_use(text):
    """The names that a `use` gives, with the module path each comes from."""
    text = re.sub(r"\s+", " ", text).strip()
    group = re.match(r"(.*?)(?:::)?\{(.*)\}$", text)
    if group:
        depth, part, parts = 0, "", []
        for letter in group.group(2) + ",":
            if letter == "," and depth == 0:
                parts.append(part.strip())
                part = ""
                continue
            depth += (letter == "{") - (letter == "}")
            part += letter
        for each in filter(None, parts):
            for path, name in split_use(each):
                yield (group.group(1) + "::" + path if path else group.group(1)).strip(":"), name
        return
    path, _, name = text.rpartition("::")
    renamed = re.match(r"(\w+) as (\w+)$", name)
    yield path, renamed.group(1) if renamed else name


def module_file(folder, name):
    for path in (folder / f"{name}.rt", folder / name / "mod.rt"):
        if path.exists():
            return path
    return None


def modules_of(crate):
    """Each module of a crate: its path from the root, whether it is public, its text, and the names it passes on."""
    source = TOP / "crates" / crate / "src"
    root = source / "lib.rt" if (source / "lib.rt").exists() else source / "main.rt"
    waiting = [((), True, root, source)]
    while waiting:
        path, is_open, file, folder = waiting.pop(0)
        text = without_comments(file.read_text(encoding="utf-8"))
        passed = []
        for use in re.finditer(r"\bpub\s+use\s+([^;]+);", text):
            for where, name in split_use(use.group(1)):
                parts = [each for each in where.split("::") if each != "self"]
                passed.append((tuple(parts[1:]) if parts[:1] == ["crate"] else path + tuple(parts), name))
        yield path, is_open, text, passed
        for mod in re.finditer(r"^(#\[cfg\(test\)\]\s*)?(pub\s+)?mod\s+(\w+)\s*;", text, re.M):
            inner = module_file(folder, mod.group(3))
            if inner is not None and not mod.group(1):
                waiting.append((path + (mod.group(3),), is_open and mod.group(2) is not None, inner, folder / mod.group(3)))


def calls_of(crate):
    """The public calls of a crate with their named clauses, by the name that CLAIMS.md uses."""
    shown, prefixes, functions = set(), {}, []
    for path, is_open, text, passed in modules_of(crate):
        prefix = "::".join(path) + "::" if path else ""
        found, _ = [], []
        items(text, 0, len(text), None, False, found, _)
        functions += [(path, is_open, prefix) + each for each in found]
        if is_open:
            for where, name in passed:
                shown.add((where, name))
                prefixes.setdefault(name, prefix)
            for name in re.findall(r"\bpub\s+(?:struct|enum|trait|union)\s+(\w+)", text):
                prefixes.setdefault(name, prefix)
    calls = {}
    for path, is_open, prefix, owner, name, clauses, public in functions:
        if not public or not clauses or "examples" in path:
            continue
        if owner is None and is_open:
            call = prefix + name
        elif owner is None and (path, name) in shown:
            call = prefixes[name] + name
        elif owner is not None and owner in prefixes:
            call = f"{prefixes[owner]}{owner}::{name}"
        else:
            continue
        calls.setdefault(call, [])
        calls[call] += [each for each in clauses if each not in calls[call]]
    return calls


def lines_of(text):
    """The rows of the tables of CLAIMS.md: the line's number, its crate, calls, clauses and sentence."""
    for number, line in enumerate(text.split("\n"), 1):
        if not line.startswith("| `"):
            continue
        cells = [each.strip() for each in line.strip().strip("|").split(" | ")]
        if len(cells) != 4:
            yield number, None, [], [], line
            continue
        yield number, cells[0].strip("`"), re.findall(r"`([^`]+)`", cells[1]), re.findall(r"`([^`]+)`", cells[2]), cells[3]


def tidied(text):
    """The text without the calls and clauses that no longer exist, and without lines that are left with none; prints each change."""
    known, kept = {}, []
    lines = {number: rest for number, *rest in lines_of(text)}
    for number, line in enumerate(text.split("\n"), 1):
        if number in lines and lines[number][0] is not None:
            crate, calls, clauses, sentence = lines[number]
            if crate not in known:
                known[crate] = calls_of(crate) if (TOP / "crates" / crate).exists() else {}
            calls = [each for each in calls if each in known[crate]]
            clauses = [each for each in clauses if all(each in known[crate][call] for call in calls)]
            if not calls or not clauses:
                print(f"removed: {line}")
                continue
            if (calls, clauses) != tuple(lines[number][1:3]):
                print(f"read its sentence again: {line}")
            line = f"| `{crate}` | {names(calls)} | {names(clauses)} | {sentence} |"
        kept.append(line)
    return "\n".join(kept)


def unknown_names():
    """The names between backticks of the documents that neither crates.txt nor a source of crates/ has, by document."""
    sources = [*TOP.glob("crates/*/src/**/*.rt"), *TOP.glob("crates/*/specs/*.antt"), *TOP.glob("crates/*/proofs/*.antt")]
    known = set(re.findall(r"\w+", "".join(each.read_text(encoding="utf-8") for each in [TOP / "crates.txt", *sources])))
    known |= {part for each in sources for part in (each.stem, each.name)}
    for page in [TOP / "README.md", *sorted(TOP.glob("docs/*.md"))]:
        for name in sorted(set(re.findall(r"`([A-Za-z_][\w:]*)`", page.read_text(encoding="utf-8")))):
            if name.split(":")[-1] not in known:
                yield page.name, name


def names(words):
    return ", ".join(f"`{each}`" for each in words)


def main():
    words = sys.argv[1:]
    if words == ["--tidy"]:
        CLAIMS.write_text(tidied(CLAIMS.read_text(encoding="utf-8")), encoding="utf-8")
        words = []
    if words == ["--names"]:
        for page, name in unknown_names():
            print(f"{page}: {name}")
        return 0
    if words[:1] == ["--calls"]:
        for crate in words[1:] or COMPLETE:
            for call, clauses in calls_of(crate).items():
                print(f"| `{crate}` | `{call}` | {names(clauses)} |")
        return 0
    known, said, problems = {}, {}, []
    crates = {line.split(":")[0].split()[0] for line in (TOP / "crates.txt").read_text(encoding="utf-8").split("\n")
              if line.strip() and not line.startswith("#")}
    for number, crate, calls, clauses, sentence in lines_of(CLAIMS.read_text(encoding="utf-8")):
        where = f"docs/CLAIMS.md:{number}"
        if crate not in crates:
            problems.append(f"{where}: no crate {crate}, or not four columns")
            continue
        if crate not in known:
            known[crate] = calls_of(crate)
        for call in calls:
            if call not in known[crate]:
                problems.append(f"{where}: {crate} has no public call {call} with a named clause")
                continue
            said.setdefault(crate, {}).setdefault(call, set()).update(clauses)
            for clause in clauses:
                if clause not in known[crate][call]:
                    problems.append(f"{where}: {crate}: {call} has no clause {clause}; it has {', '.join(known[crate][call])}")
        if not calls or not clauses:
            problems.append(f"{where}: a line names at least one call and one clause")
        if len(sentence.split()) > MOST_WORDS:
            problems.append(f"{where}: {len(sentence.split())} words, {MOST_WORDS} are the most")
        if not re.search(r"[.]$", sentence) or "TODO" in sentence:
            problems.append(f"{where}: no sentence yet")
    missing = []
    for crate in COMPLETE:
        if crate not in crates:
            problems.append(f"crates.txt has no {crate}, which must have lines")
            continue
        for call, clauses in (known.get(crate) or calls_of(crate)).items():
            if call not in said.get(crate, {}):
                missing.append((crate, call, clauses))
    if words == ["--missing"]:
        for crate, call, clauses in missing:
            print(f"| `{crate}` | `{call}` | {names(clauses)} | TODO |")
        return 0
    problems += [f"docs/CLAIMS.md: no line for {crate}: {call} ({', '.join(clauses)})" for crate, call, clauses in missing]
    for each in problems:
        print(each)
    lines = sum(1 for _ in lines_of(CLAIMS.read_text(encoding="utf-8")))
    print(f"claims: {lines} lines, {len(problems)} problems")
    return 1 if problems else 0


if __name__ == "__main__":
    sys.exit(main())
