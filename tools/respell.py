#!/usr/bin/env python3
"""Brings this repository's own definitions and lemmas to today's spelling: words in snake case. Run once, behind port.py, at the top.

    python3 tools/respell.py LANDED

LANDED is the commit before the port. What it turns:
  - in crates/: each name that specs/ or proofs/ declare with a capital inside or with dashes, wherever it stands in specs, proofs and clauses;
    a lemma that would have its definition's name gets `_lem`; names in strings, code and file names stay
  - must-fail edits: the same names, and each clause as it stands in the turned source
  - the crate hex, which is hex_digits now, since the library has one of that name
  - README.md and docs/: the same names, also those that port.py turned, where they stand in backticks
It prints what it could not turn. It proves nothing.
"""
import collections
import pathlib
import re
import subprocess
import sys

if len(sys.argv) != 2:
    sys.exit(__doc__)
landed = sys.argv[1]
root = pathlib.Path(".")
TOKEN = r"(?<![\w'◌-])[\w'-]+(?![\w'◌-])"
HEAD = r"\s*(?:pub |private |unfoldable |abbrev )*"
# Names that would fall together, with a definition or with a field: what they are turned into.
APART = {
    "same_answer": "same_answer_lem",
    "no_digit": "no_digit_lem",
    "bytes_after": "bytes_after_lem",
    "after_first": "after_first_lem",
    "dataStart": "data_from",
}
# What port.py turns of the names of this repository: a name before, a name behind.
PORTED = """
adds-none:adds_none adds-one:adds_one after-first:after_first after-is:after_is all-held:all_held all-keep:all_keep all-right:all_right
andThen:and_then answerOf:answer_of at-first:at_first at-item:at_item back-long:back_long below-or:below_or bodyOf:body_of by-tests:by_tests
byte-fits:byte_fits byte-laws:byte_laws byte-past:byte_past byteOf:byte_of bytes-after:bytes_after bytes-drop:bytes_drop bytes-take:bytes_take
bytesOf:bytes_of call-buffer:call_buffer caseOf:case_of classOf:class_of codeOf:code_of copy-more:copy_more count-fits:count_fits countOf:count_of
counting-more:counting_more cut-again:cut_again data-is:data_is empty-holds:empty_holds end-fits:end_fits end-refused:end_refused end-short:end_short
endOf:end_of endsAt:ends_at even-is:even_is field-back:field_back field-laws:field_laws fieldAt:field_at fields-back:fields_back fieldsAt:fields_at
fills-one:fills_one first-holds:first_holds first-one:first_one first-short:first_short first-two:first_two formOf:form_of gives-all:gives_all
goes-in:goes_in got-number:got_number has-room:has_room head-near:head_near head-three:head_three header-read:header_read heldRows:held_rows
holds-fits:holds_fits inner-cut:inner_cut is-digit:is_digit is-none:is_none is-whole:is_whole item-refused:item_refused itemAt:item_at
itemsOf:items_of join-first:join_first join-is:join_is joinOf:join_of joined-bytes:joined_bytes joined-length:joined_length kept-goes:kept_goes
kindOf:kind_of laid-more:laid_more left-over:left_over lenOf:len_of length-moved:length_moved length-two:length_two lengthAt:length_at
lengthOf:length_of lent-none:lent_none line-kept:line_kept lines-end:lines_end lines-more:lines_more linesFrom:lines_from listOf:list_of
logical-any:logical_any low-digit:low_digit low-value:low_value lowFirst:low_first made-as:made_as mostOf:most_of narrow-back:narrow_back
narrow-gives:narrow_gives narrow-short:narrow_short narrow-two:narrow_two nextOf:next_of no-body:no_body no-bytes:no_bytes no-digit:no_digit
no-row:no_row no-rows:no_rows no-word:no_word none-kept:none_kept none-left:none_left none-read:none_read number-is:number_is
number-short:number_short number-small:number_small numberIn:number_in numberOf:number_of odd-is:odd_is offset-read:offset_read one-input:one_input
one-less:one_less one-list:one_list one-more:one_more open-at:open_at open-is:open_is open-made:open_made open-told:open_told orZero:or_zero
pair-put:pair_put part-cut:part_cut part-end:part_end part-length:part_length part-none:part_none parts-are:parts_are path-room:path_room
placed-one:placed_one plus-assoc:plus_assoc plus-none:plus_none put-is:put_is read-first:read_first read-left:read_left read-none:read_none
read-past:read_past read-short:read_short read-table:read_table readBody:read_body reading-small:reading_small record-is:record_is restOf:rest_of
room-was:room_was row-fits:row_fits row-laws:row_laws row-sized:row_sized row-within:row_within rowAt:row_at rowOf:row_of rows-drop:rows_drop
rows-fit:rows_fit rows-long:rows_long rows-next:rows_next rows-written:rows_written rowsFrom:rows_from rowsOf:rows_of run-past:run_past
run-room:run_room runOf:run_of same-answer:same_answer same-kind:same_kind same-not:same_not same-self:same_self same-text:same_text
same-true:same_true says-three:says_three second-fits:second_fits second-is:second_is set-before:set_before sets-more:sets_more size-back:size_back
size-counts:size_counts size-fits:size_fits size-is:size_is size-of:size_of slotsOf:slots_of start-fits:start_fits startOf:start_of stateOf:state_of
stopAt:stop_at store-two:store_two stored-short:stored_short sumOf:sum_of tableEnd:table_end tableOf:table_of takenOf:taken_of textOf:text_of
then-same:then_same too-many:too_many took-one:took_one turn-at:turn_at turn-body:turn_body twoWords:two_words typeOf:type_of value-low:value_low
value-none:value_none valueOf:value_of walk-ends:walk_ends walk-inside:walk_inside walk-no:walk_no walk-same:walk_same wide-back:wide_back
wide-is:wide_is wide-room:wide_room wide-short:wide_short word-fits:word_fits word-good:word_good word-holds:word_holds word-laws:word_laws
word-low:word_low word-none:word_none word-over:word_over word-small:word_small words-are:words_are words-small:words_small written-is:written_is
zero-or:zero_or
"""


def snake(name):
    return re.sub(r"(?<=[a-z0-9])(?=[A-Z])", "_", name.replace("-", "_")).lower()


def declared(text):
    for line in text.split("\n"):
        m = re.match(HEAD + r"(?:ruleset |data |record )?(?!(?:use|where|module|let|in)(?![\w'-]))([\w'-]+)(?:\s*\{[^}]*\})?(?: [({].*?)?\s*[:=]", line)
        if m:
            yield m[1]
        m = re.match(HEAD + r"(?:pub )?([\w'-]+(?: [\w'-]+)+) :", line)
        if m:
            yield from m[1].split()


def old(path):
    return subprocess.run(["git", "show", f"{landed}:{path}".replace("crates/hex_digits/", "crates/hex/")], capture_output=True, text=True, check=True).stdout


# ---- a crate's name
if pathlib.Path("crates/hex").is_dir():
    pathlib.Path("crates/hex").rename("crates/hex_digits")
    listed = pathlib.Path("crates.txt")
    listed.write_text(re.sub(r"\bhex\b(?=[: \n])", "hex_digits", listed.read_text()))
    for p in [q for q in root.glob("crates/*/**/*") if q.suffix in (".rt", ".antt", ".edit")]:
        p.write_text(re.sub(r"\bRattle\.hex\.", "Rattle.hex_digits.", re.sub(r"\bhex::", "hex_digits::", p.read_text())))


# ---- the names
sources = [p for p in sorted(root.glob("crates/*/*/**/*.antt")) if p.parts[2] in ("specs", "proofs")]
own = collections.Counter()
for p in sources:
    if p.name != "Proof.antt":
        own.update(declared(p.read_text()))
turned = [n for n in own if re.match(r"[a-z]", n) and (re.search(r"[a-z0-9][A-Z]", n) or re.search(r"[\w']-[\w']", n))]
camel = {snake(n) for n in turned if "-" not in n}
names = {}
for n in turned:
    new = snake(n)
    taken = new in camel or new in own
    names[n] = new + "_lem" if "-" in n and taken else new
names |= {a: b for a, b in APART.items() if a in own}
double = [n for n, k in collections.Counter(names.values()).items() if k > 1]
if double:
    print("fall together:", double)


def turn(text, names=names):
    """The text with the names turned, but for those that it imports from the library."""
    theirs = {n.strip() for m in re.finditer(r"^use ([\w.'+-]+)\.\{([^}]*)\}", text, re.M) if not m[1].startswith("Rattle.") for n in m[2].split(",")}
    return re.sub(TOKEN, lambda m: m[0] if m[0] in theirs else names.get(m[0], m[0]), text)


def outside_strings(text):
    return "".join(part if i % 2 else turn(part) for i, part in enumerate(re.split(r'(b?"(?:[^"\\\n]|\\.)*")', text)))


# ---- sources
for p in sources:
    # the record of all claims has a field of each function's name, and no definition beside them
    p.write_text(turn(p.read_text(), {n: snake(n) for n in names} if p.parts[1] == "claims" else names))
for p in sorted(root.glob("crates/*/src/**/*.rt")):
    p.write_text(outside_strings(p.read_text()))


# ---- must-fail edits
CLAUSE = re.compile(r"^\s*(requires|ensures)((?: [a-z_0-9]+)?) (\{ .* \})\s*\{?$", re.M)
SAYS = [
    (r"⌜ now \((\w+) \.exit\) ≡ now \(\1 \.exit\) ⌝", r"\1.new ≡ \1.new"),
    (r"⌜ now r ≡ now r ⌝", "result.now ≡ result.now"),
    (r"⌜ (\w+) r ≡ \1 r ⌝", r"\1 result ≡ \1 result"),
    (r"⌜ r ≡ r ⌝", "result ≡ result"),
]


def turned_clause(text, before, after):
    """What stands in the turned source for a piece of a clause of the one before."""
    olds, news = list(CLAUSE.finditer(before)), list(CLAUSE.finditer(after))
    hits = [k for k, m in enumerate(olds) if text.strip() in m[0]]
    if len(olds) != len(news) or len(hits) != 1:
        return None
    kind, name, body = news[hits[0]].groups()
    if text.lstrip().startswith(("ensures", "requires")):
        return "    " + f"{kind}{name} {body}"
    inner = body[2:-2]
    for whole in (inner, body, f"{kind}{name} {body}"):
        if after.count(whole) == 1:
            return whole
    return None


for p in sorted(root.glob("crates/*/must-fail/*.edit")):
    lines, file, kept, result = p.read_text().split("\n"), None, None, []
    for line in lines:
        if line.startswith("file: "):
            file = line[6:]
        clause = line.startswith(("old: ", "new: ")) and "⌜" in line
        if clause and line.startswith("old: "):
            target = p.parent.parent / file
            got = turned_clause(line[5:], old(target), target.read_text())
            kept = got
            if got is None:
                print("by hand:", p, line)
            line = line if got is None else "old: " + got
        elif clause and kept is not None:
            for a, b in SAYS:
                line = re.sub(a, b, line)
            line = turn(line)
            if re.match(r"ensures|requires", kept.lstrip()) and not re.match(r"new:\s+(ensures|requires)", line):
                line = "new: " + kept[:kept.index("{")] + "{ " + line[5:] + " }"
            elif kept.startswith("{") and not line.startswith("new: {"):
                line = "new: { " + line[5:] + " }"
            line = re.sub(r"\{ λ \w+\. (.*) \}", r"{ \1 }", line)
            if "⌜" in line:
                print("by hand:", p, line)
        else:
            if line.startswith("old: "):
                kept = None
            line = turn(line) if not line.startswith("#") else turn(line, {n: names[n] for n in names if "-" not in n})
        result.append(line)
    p.write_text("\n".join(result))

# ---- pages
both = dict(pair.split(":") for pair in PORTED.split())
both = {a: names.get(b, b) for a, b in both.items()} | names | {"getD": "get_or", "eqb": "nat_eq", "leb": "nat_le"}
for p in [root / "README.md", *sorted(root.glob("docs/*.md"))]:
    p.write_text(re.sub(r"`[^`\n]+`", lambda m: turn(m[0], both), p.read_text()))
