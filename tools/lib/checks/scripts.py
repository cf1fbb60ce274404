"""Checks that the scripts for callers, `run`, `tools/copy-to`, `tools/new-map` and others, do what they say, and refuse bad
input in one line.

The repository is copied without its history, as from an archive, and tried there. It proves nothing but two crates of a
few lines, one of them over the toolchain that tools/install makes of the other.
"""

import os
import pty
import re
import shutil
import tempfile

from lib.checks.install import steps_of_install
from lib.checks.script_calls import FAILING_RENAME, INTERRUPTED_RENAME, all_in, call, expect, files_in, refused, wrong_in
from lib.repository import TOP, add, below, crates_in, dead_links, read, write

NUMBER = "number: u64 unique hash"
# Arguments that `tools/new-map` refuses, with words of its answer.
NO_MAPS = [
    ([], "give a NAME"),
    (["orders"], "give a NAME"),
    (["orders", "Order"], "no field is given"),
    (["--crates", "all", "orders", "Order", NUMBER], "--crates"),
    (["Orders", "Order", NUMBER], "'Orders' is no name for a map"),
    (["orders", "order", NUMBER], "'order' is no name for the items' type"),
    (["orders", "Vec", NUMBER], "'Vec' is a name of the language"),
    (["map", "Order", NUMBER], "'Map' is a type that the text uses"),
    (["orders", "Orders", NUMBER], "both be called 'Orders'"),
    (["match", "Order", NUMBER], "'match' is a keyword"),
    (["orders", "Order", NUMBER, "day: u32", "day: u64"], "the field 'day' is given twice"),
    (["orders", "Order", NUMBER, "type: u32"], "'type' is a keyword"),
    (["orders", "Order", NUMBER, "data: u32"], "'data' is a word of contracts"),
    (["orders", "Order", NUMBER, "2nd: u32"], "'2nd' is no name for a field"),
    (["orders", "Order", NUMBER, "the day: u32"], "'the day' is no name for a field"),
    (["orders", "Order", NUMBER, "day:"], "the type '' of 'day:' is unknown"),
    (["orders", "Order", NUMBER, "day: Date"], "the type 'Date' of 'day: Date' is unknown"),
    (["orders", "Order", "day: u32 many order"], "no key is unique"),
    (["orders", "Order", "day: u32"], "no key is unique"),
    (["orders", "Order", "number: u64 unique hashed"], "the word 'hashed'"),
    (["orders", "Order", "number: u64 hash"], "write 'unique' or 'many', and then"),
    (["orders", "Order", "number: u64 hash unique"], "write 'unique' or 'many', and then"),
    (["orders", "Order", NUMBER, "price: f64 many order"], "f64 has no equality and no order that is total"),
    (["orders", "Order", NUMBER, "price: f64", "number, price many order"], "'price' is none of"),
    (["orders", "Order", NUMBER, "is_paid: bool many hash"], "is no key that new-map writes"),
    (["orders", "Order", NUMBER, "owed: i64 many hash"], "the signed field 'owed' can only be 'many order'"),
    (["orders", "Order", NUMBER, "owed: i64 unique order"], "the signed field 'owed' can only be 'many order'"),
    (["orders", "Order", NUMBER, "owed: i64", "number, owed many order"], "the signed field 'owed' can only be"),
    (["orders", "Order", NUMBER, "customer, day many order"], "names the field 'customer', which no argument gives"),
    (["orders", "Order", NUMBER, "day: u32", "number, day"], "write 'unique' or 'many', and then"),
    (["orders", "Order", NUMBER, "day: u32", "day, day many order"], "names a field twice"),
    (["orders", "Order", NUMBER, *(f"{it}: u8" for it in "abc"), "a, b, c, number many hash"], "has 4 fields"),
    (["orders", "Order", NUMBER, "day: u32", "number, day many hash", "number, day many order"], "is given twice"),
    (["orders", "Order", NUMBER, *(f"{it}: u8 many hash" for it in "abcde")], "6 keys are too many: new-map writes up to 5"),
    (["--crate", "shop", "orders", "Order", NUMBER], "there is no crate 'shop'"),
]


def check_run(top):
    helped = call(["./run", "--help"], top)
    expect(helped.returncode == 0 and "FILE" in helped.stdout and not helped.stderr, "run --help: no help")
    for form in ([], ["--now"]):
        refused(["./run", *form, "docs"], top, "is a folder")
        refused(["./run", *form, "nothing"], top, "there is no file")
        refused(["./run", *form, "README.md", "README.md"], top, "one FILE")
    refused(["./run", "--later"], top, "no option --later")
    reading, writing = os.pipe()
    refused(["./run", "--now"], top, "has to end", stdin=reading)
    os.close(writing)
    terminal, other = pty.openpty()
    refused(["./run", "--now"], top, "terminal", stdin=other)
    os.close(terminal)


def check_refused_copies(top, target):
    script = f"{top}/tools/copy-to"
    refused([script, "nothing", "IdHashMap"], target, "there is no folder", 1)
    refused([script, f"{top}/README.md", "IdHashMap"], target, "is no folder", 1)
    refused([script, top, "IdHashMap"], target, "lies in the repository", 1)
    refused([script, f"{top}/docs", "IdHashMap"], target, "lies in the repository", 1)
    refused([script, ".", "IdHushMap"], target, "IdHashMap (map)", 1)
    refused([script, "--update", "."], target, "no copies", 1)
    os.makedirs(f"{target}/crates/iddqd_hash/src")
    refused([script, ".", "IdHashMap"], target, "crates/iddqd_hash is there already", 1)
    refused([script, "--update", ".", "IdHashMap"], target, "no copy that copy-to made", 1)
    expect(not files_in(target), f"copy-to left {files_in(target)} where it was refused")
    shutil.rmtree(f"{target}/crates")
    write(f"{target}/crates.txt", "iddqd: mine\nmine:")
    refused([script, ".", "IdHashMap"], target, "lists a crate iddqd", 1)
    with open(f"{target}/crates.txt", "wb") as file:
        file.write("# für\nmine:\n".encode("latin-1"))
    refused([script, ".", "IdHashMap"], target, "crates.txt' is no text in UTF-8", 1)
    write(f"{target}/crates.txt", "mine:")


def check_pages_in_the_way(top, target):
    """A page that is no copy stays as it is, and nothing is copied."""
    script = f"{top}/tools/copy-to"
    write(f"{target}/docs/iddqd/CALLING.md", "# Mine\n")
    before = all_in(target)
    refused([script, ".", "IdHashMap"], target, "docs/iddqd is there already, and is no", 1)
    refused([script, "--update", "--discard", "pages", ".", "map"], target, "docs/iddqd is there already, and is no", 1)
    expect(all_in(target) == before, "copy-to wrote where a page is in the way")
    shutil.rmtree(f"{target}/docs")
    write(f"{target}/docs", "")
    refused([script, ".", "IdHashMap"], target, "'./docs' is no folder", 1)
    os.remove(f"{target}/docs")


def check_copies(top, target):
    script, known = f"{top}/tools/copy-to", crates_in(f"{top}/crates.txt")
    copied = call([script, ".", "IdHashMap"], target)
    needed = below(["iddqd_map"], known)
    expect(copied.returncode == 0 and "mine: " in copied.stdout, f"copy-to: {copied.stdout}{copied.stderr}")
    expect(re.search("^    mine: .*$", copied.stdout, re.M)[0] in read(f"{top}/docs/ELSEWHERE.md"), "ELSEWHERE: another line")
    expect(crates_in(f"{target}/crates.txt") == {"mine": [], **{name: known[name] for name in needed}}, "copy-to: other lines")
    for part in ("src", "specs", "proofs"):
        same = all(read(path) == read(path.replace(target, top, 1)) for name in needed
                   for path in files_in(f"{target}/crates/{name}/{part}"))
        count = sum(len(files_in(f"{top}/crates/{name}/{part}")) for name in needed)
        expect(same and count == sum(len(files_in(f"{target}/crates/{name}/{part}")) for name in needed), f"copy-to: other {part}")
    refused([script, ".", "map"], target, "all of it already", 1)
    check_emptied(script, target)
    check_pages(top, target, "IdHashMap", "IdOrdMap")
    expect(call([script, ".", "IdOrdMap"], target).returncode == 0, "copy-to: a second map isn't added")
    check_pages(top, target, "IdOrdMap", "KeyedItems")
    pages = all_in(f"{target}/docs")
    shutil.rmtree(f"{target}/docs")
    added = call([script, ".", "IdHashMap"], target)
    fits = added.returncode == 0 and all_in(f"{target}/docs") == pages
    expect(fits, f"copy-to: lost pages don't come again: {added.stdout}{added.stderr}")


def check_pages(top, target, name, other):
    """The pages list the calls of a map that was copied, and none of another; each link leads to a file there."""
    crates, own = {*os.listdir(f"{target}/crates")}, f"{target}/docs/iddqd"
    calls, contracts = read(f"{own}/CALLS.md"), read(f"{own}/CONTRACTS.md")
    fits = f"\n## `{name}`\n" in calls and f"\n## `{other}`\n" not in calls
    imported = {*re.findall(r"^use (\w+)", calls, re.M)}
    expect(fits and imported <= crates, f"copy-to {name}: CALLS.md isn't of these crates")
    headed = {*re.findall(r"^## `(\w+)`$", contracts, re.M)}
    expect(headed and headed <= crates, f"copy-to {name}: CONTRACTS.md isn't of these crates")
    pages = {page for page in os.listdir(own) if page.endswith(".md")}
    named = {*re.findall(r"^\| `(\w+\.md)` \|", read(f"{top}/docs/ELSEWHERE.md"), re.M)}
    expect(pages == named, f"ELSEWHERE: other pages than {pages}")
    for page in (f"{own}/{page}" for page in pages):
        for link in dead_links(page, target):
            expect(False, f"copy-to {name}: {page} links to {link}, which isn't there")
        expect(os.path.dirname(top) not in read(page), f"copy-to {name}: {page} has a path of this machine")


def check_lines(top, room):
    """docs/CALLING.md has the line for a caller's own crate that copy-to prints."""
    for word in ("maps", "IdHashMap", "IdOrdMap", "keyed"):
        os.mkdir(f"{room}/{word}")
        line = re.search("^    (mine: .*)$", call([f"{top}/tools/copy-to", word, word], room).stdout, re.M)
        expect(line and f"`{line[1]}`" in read(f"{top}/docs/CALLING.md"), f"CALLING: another line for {word}")


def check_emptied(script, target):
    """A crates.txt that lost the lines of the copies, or has another one, gets them again."""
    path, lines = f"{target}/crates.txt", crates_in(f"{target}/crates.txt")
    for left in ("", "mine:\niddqd_map: iddqd\n"):
        write(path, left)
        mended = call([script, ".", "IdHashMap"], target)
        wanted = {**lines, "mine": []} if left else {name: lines[name] for name in lines if name != "mine"}
        fits = mended.returncode == 0 and "crates: nothing" in mended.stdout and crates_in(path) == wanted
        expect(fits, f"copy-to: lines aren't mended: {mended.stdout}{mended.stderr}{read(path)}")
    refused([script, ".", "IdHashMap"], target, "all of it already", 1)


def check_updates(top, target):
    script, ours, theirs = (f"{folder}/{path}" for folder, path in
                            ((top, "tools/copy-to"), (top, "crates/iddqd/src/lib.rt"), (target, "crates/iddqd/src/lib.rt")))
    add(ours, "// later\n")
    refused([script, ".", "TriHashMap"], target, "see --update", 1)
    expect(call([script, "--update", "."], target).returncode == 0 and read(theirs) == read(ours), "copy-to: no update")
    for path in (theirs, ours):
        add(path, f"// {path}\n")
    refused([script, "--update", "."], target, "was changed since it was copied (src/lib.rt)", 1)
    expect(read(theirs) != read(ours), "copy-to: an update overwrote a change")
    write(f"{target}/crates/iddqd/src/notes.txt", "Mine.\n")
    refused([script, "--update", "--discard", "iddqd", "."], target, "has a file of your own, which would be lost (src/notes.txt)", 1)
    os.remove(f"{target}/crates/iddqd/src/notes.txt")
    updated = call([script, "--update", "--discard", "iddqd", "."], target)
    expect(updated.returncode == 0 and read(theirs) == read(ours), "copy-to: --discard didn't")


def check_changed_pages(top, target):
    """An update replaces a page, unless it was changed since it was copied."""
    script, ours, theirs = f"{top}/tools/copy-to", f"{top}/docs/DIFFERENCES.md", f"{target}/docs/iddqd/DIFFERENCES.md"
    add(ours, "Later.\n")
    before = all_in(target)
    refused([script, ".", "TriItems"], target, "docs/iddqd is there already, from another release", 1)
    expect(all_in(target) == before, "copy-to wrote beside pages of another release")
    updated = call([script, "--update", "."], target)
    expect(updated.returncode == 0 and read(theirs).endswith("\nLater.\n"), "copy-to: no update of a page")
    add(theirs, "Mine.\n")
    add(ours, "Later still.\n")
    refused([script, "--update", "."], target, "docs/iddqd was changed since it was copied (DIFFERENCES.md)", 1)
    expect(read(theirs).endswith("\nMine.\n"), "copy-to: an update overwrote a changed page")
    updated = call([script, "--update", "--discard", "pages", "."], target)
    expect(updated.returncode == 0 and read(theirs).endswith("\nLater still.\n"), "copy-to: --discard pages didn't")
    write(f"{target}/docs/iddqd/MINE.md", "# Mine\n")
    refused([script, "--update", "."], target, "docs/iddqd was changed since it was copied (MINE.md)", 1)
    os.remove(f"{target}/docs/iddqd/MINE.md")


def check_undone(top, target, patch):
    """Where a step fails or is interrupted, the other repository is as it was: new, or with copies that were to be replaced."""
    script, parts = f"{top}/tools/copy-to", ["crates/iddqd_map/specs", "docs/iddqd/CALLS.md", "crates.txt"]
    for words in ([".", "IdHashMap"], ["--update", "--discard", "pages", ".", "IdOrdMap"]):
        before = all_in(target)
        for part in parts:
            env = {**os.environ, "PYTHONPATH": patch, "FAILS_AT": f"{os.path.realpath(target)}/{part}"}
            for module, because, status in ((FAILING_RENAME, "nothing was copied: the step fails", 1),
                                            (INTERRUPTED_RENAME, "interrupted; nothing was copied", 130)):
                write(f"{patch}/sitecustomize.py", module)
                refused([script, *words], target, because, status, env=env)
                expect(all_in(target) == before, f"copy-to: a step at {part} isn't undone: {because}")
        expect(call([script, *words], target).returncode == 0, f"copy-to {words}: it fails after what was undone")
        for path in (f"{target}/docs/iddqd/CALLS.md", f"{top}/crates/iddqd_map/specs/Map.antt"):
            add(path, "\n")


def check_others(top, target):
    for command in ("check", "costs", "mutants", "pages", "tests"):
        refused([f"tools/{command}", "nothing"], top, "there is no part 'nothing'; there are ", 2)
        helped = call([f"tools/{command}", "--help"], top)
        expect(helped.returncode == 0 and f"tools/{command} " in helped.stdout, f"tools/{command} --help: {helped.stdout}")
    refused(["tools/tests", "crates", "nothing"], top, "there are tables, maps, driver", 2)
    refused(["tools/costs", "profile", "nothing"], top, "crates.txt has no crate 'nothing'", 1)
    refused(["tools/costs", "profile"], top, "crates/iddqd/out keeps no check", 1)
    refused(["tools/costs", "profile", "--seconds", *["nothing"] * 4], top, "there is no file nothing", 1)
    refused(["tools/mutants", "try", "iddqd/nothing"], top, "there is no edit crates/iddqd/wrong/nothing.edit", 2)
    write(f"{target}/README.md", "# Title\n\n## Quick start\n\n```rust\nfn main() {}\n```\n")
    refused(["tools/tests", "quick-start", f"{target}/README.md"], top, "lacks the lines")


def check_refused_libraries(top, target):
    """A library for C is refused before anything is proved: where FOLDER is a file, or has files of somebody else's."""
    script, own = f"{top}/tools/c-library", f"{target}/rust/src/lib.rs"
    write(f"{target}/file", "")
    for folder in ("file", "file/below"):
        refused([script, folder], target, "/file is a file and no folder", 1)
    refused([script, f"{top}/docs"], target, "is in the repository", 1)
    for path in ("rust/Cargo.toml", "rust/src/main.rs", "libiddqd.a", "LICENSE-MIT", "iddqd.h/file", "libiddqd.sha256"):
        write(f"{target}/{path}", "// Mine\n")
        before = all_in(target)
        refused([script, "."], target, f"/{path.split('/')[0]} is there already, and", 1)
        expect(all_in(target) == before, f"c-library changed something beside {path}")
        path = f"{target}/{path.split('/')[0]}"
        (shutil.rmtree if os.path.isdir(path) else os.remove)(path)
    write(own, "// Theirs\n")
    write(f"{target}/libiddqd.sha256", f"# Written by tools/c-library. Checksums by SHA-256.\n{'0' * 64}  rust/src/lib.rs\n")
    refused([script, "."], target, "rust/src/lib.rs is there already, and isn't as tools/c-library wrote it", 1)
    expect(read(own) == "// Theirs\n", "c-library wrote where a file was changed")
    write(f"{target}/prefix/include/iddqd.h", "// Theirs\n")
    refused([script, "--prefix", "prefix"], target, "/include/iddqd.h is there already, and", 1)
    refused([script, ".", "--prefix", "prefix"], target, "name FOLDER, or DIR behind --prefix", 2)


def check_refused_maps(top, target):
    script = f"{top}/tools/new-map"
    refused([script, "--in", "nothing", "orders", "Order", NUMBER], target, "there is no folder", 2)
    for words, because in NO_MAPS:
        refused([script, "--in", ".", *words], target, because, 2)
    expect(not files_in(target), f"new-map left {files_in(target)} where it was refused")


def check_new_maps(top, target):
    """A new repository gets the library with its first map; a second map becomes a module beside it."""
    script = f"{top}/tools/new-map"
    made = call([script, "--in", ".", "orders", "Order", NUMBER], target)
    lines = crates_in(f"{target}/crates.txt")
    expect(made.returncode == 0 and lines["orders"] == ["iddqd_maps"] and "iddqd_maps" in lines, f"new-map: {made.stdout}{made.stderr}")
    before = all_in(target)
    refused([script, "--in", ".", "orders", "Order", NUMBER], target, "crates/orders is there already", 2)
    refused([script, "--in", ".", "--crate", "iddqd_maps", "by_hash", "Item", NUMBER], target, "'ByHash' is a type", 2)
    expect(before == all_in(target), "new-map wrote where it was refused")
    added = call([script, "--in", ".", "--crate", "orders", "parts", "Part", NUMBER], target)
    own = f"{target}/crates/orders"
    fits = added.returncode == 0 and "\npub mod parts;\n" in read(f"{own}/src/lib.rt")
    expect(fits and read(f"{own}/specs/Lib.antt") == "pub mod Orders\npub mod Parts\n", f"new-map: {added.stdout}{added.stderr}")
    expect(crates_in(f"{target}/crates.txt") == lines, "new-map: a module changed crates.txt")
    refused([script, "--in", ".", "--crate", "orders", "parts", "Part", NUMBER], target, "parts.rt is there already", 2)
    os.mkdir(f"{target}/installed")
    made = call([script, "--installed", "--in", "installed", "orders", "Order", NUMBER], target)
    fits = made.returncode == 0 and os.listdir(f"{target}/installed/crates") == ["orders"]
    expect(fits and crates_in(f"{target}/installed/crates.txt") == {"orders": ["iddqd_maps"]}, f"new-map --installed: {made.stderr}")


def check_edits(top):
    """An edit of must-fail/ that takes a name away from its function, and one that doesn't apply, fail `tools/check edits`."""
    own = f"{top}/crates/iddqd_order/must-fail/tree_root_left_empty.edit"
    good = read(own)
    for new, because in [("if height > 0 {", "takes away what a proof file names: len"), ("\nold: nothing\nnew: x", "has 0 times")]:
        write(own, re.sub(r"(?m)^new: .*", lambda _: f"new: {new}", good))
        ran = call([f"{top}/tools/check", "edits"], top)
        expect(ran.returncode == 1 and because in ran.stdout, f"check edits: {ran.returncode}, {ran.stdout}{ran.stderr}")
    write(own, good)


def steps(top, room):
    """The checks of a copy of the repository, in a folder where each may make folders of its own."""
    target, undone, libraries, maps = (f"{room}/{name}" for name in ("target", "undone", "libraries", "new_maps"))
    for folder in (target, undone, libraries, maps, f"{room}/install"):
        os.mkdir(folder)
    copies = [(it, top, target) for it in (check_refused_copies, check_pages_in_the_way, check_copies)]
    later = [(it, top, target) for it in (check_updates, check_changed_pages, check_others)]
    return [(check_run, top), (check_edits, top), *copies, (check_lines, top, room), *later,
            (check_undone, top, undone, f"{room}/patch"), (check_refused_libraries, top, libraries),
            (check_refused_maps, top, maps), (check_new_maps, top, maps), *steps_of_install(top, f"{room}/install")]


def check():
    """What is wrong, and a line for where nothing is."""
    with tempfile.TemporaryDirectory() as room:
        top = f"{room}/archive"
        shutil.copytree(TOP, top, ignore=shutil.ignore_patterns(".git", "out"))
        wrong = list(wrong_in(steps(top, room)))
    return wrong, "the scripts do what they say, and refuse bad input in a line"
